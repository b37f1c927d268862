"""The doors for C, called through the driver doors.c: on the documents' figures, at the limits of every argument, over every row of the
table, with texts, buffers and outputs wherever they may lie, and on random calls; and what was written is read again, the steps of a
root are added up, the beginnings of a buffer are measured, and a route is written into as much room as it needs.

Answers are compared as lines, which have every field and every number or byte of what was lent. What the documents say holds the doors and
the model; to any other call the doors have to answer what the model answers.
"""
import bisect
import collections
import itertools
import math
import pathlib
import random
import re
import tempfile
import unittest
from unittest import mock

import calls
import doors
import model
import texts
from figures import (ACCEPTED_TEXTS, DOWN, FIGURES, LONGEST, MEASURES, OTHER_WAYS, PLANS, REFUSED_TEXTS, SIZED, THIRD, UP, WRITINGS, route,
                     sizing)
from model import ENTRIES, HALF_TURN, LEG_UNIT, NUMBERS, QUARTER, QUARTER_IN_HALVES, STEP, STEP_IN_HALVES
from test_routes import COUNT, ROUTES, SEED

# writings into an output that their text fills
FITTING = [call for call, (refusal, size, *_) in WRITINGS if not refusal and call[-2] == size]
# the refusals of each door; 0 is none. The steps of a root are never refused, and have no field for it
REFUSALS = {
    'long_sine': {0, 6}, 'short_sine': {0, 6}, 'long_sine_half': {0, 6}, 'cylindrical': {0, 6, 7, 14}, 'sinusoidal': {0, 6, 7, 14},
    'cylindrical_back': {0, 11, 14}, 'sinusoidal_back': {0, 11, 14}, 'leg': {0, 6, 7}, 'course': {0, 6, 7, 18}, 'measure': {0, 6, 7, 9, 17},
    'target_met': {0, 6, 7, 9, 16, 17}, 'read_route': set(range(11)), 'route_size': {0, 6, 7, 9, 16, 17},
    'write_route': {0, 6, 7, 9, 15, 16, 17}, 'pen_step': {0, 6, 7, 12, 13, 14},
}
NEVER_REFUSED = {'root_steps'}

BAD_POINT, BAD_POINTS, BAD_THIRDS, DRAWN, GREATEST_ANGLE = model.bad_point, model.bad_points, model.bad_thirds, model.drawn, model.greatest_angle
LINES_OF, LONG_SINE, MEASURE_DOOR, NUMBER_OF, PEN_DOOR = model.lines_of, model.long_sine, model.measure_door, model.number_of, model.pen_door
NUMBER_TEXT, READ, ROUTE_TEXT, WRITE_DOOR = model.number_text, model.read, model.route_text, model.write_door
ANGLE_OF_RATIO, COURSE, COURSE_NUMBERS = model.angle_of_ratio, model.course, model.course_numbers
IN_QUARTER, OFFSET_COSINE = model.in_quarter, model.offset_cosine
HALF_DIFFERENCES, HALF_DOOR, LEG_NUMBER, LONG_SINE_HALF = model.half_differences, model.half_door, model.leg_number, model.long_sine_half
DIGIT_OF, PAIRS_OF, ROOT_DOOR, ROOT_STEPS = model.digit_of, model.pairs_of, model.root_door, model.root_steps
LENGTHS_OF, MET_DOOR, TARGET_MET = model.lengths_of, model.met_door, model.target_met
SIZE_DOOR, TEXT_OF = model.size_door, model.text_of


def rounded_sinusoidal(latitude, longitude, meridian):
    """Drops x's last digit."""
    return model.offset_of(longitude, meridian) * model.short_cosine(latitude) // 10 * 10, latitude


def hasty_read(text, buffer):
    """Fills the buffer and then meets a bad line."""
    answer = READ(text, buffer)
    if answer[0] and buffer:
        buffer[0] = 0
    return answer


def lifting_step(*arguments):
    """Lifts the pen where it refuses."""
    *answer, pen = PEN_DOOR(*arguments)
    return (*answer, UP if answer[0] else pen)


def short_pen(pen, *arguments):
    """Hands back the low 16 bits of the pen where it refuses."""
    *answer, after = PEN_DOOR(pen, *arguments)
    return (*answer, pen % 2**16 if answer[0] else after)


def staying_pen(pen, *arguments):
    """Leaves the pen down outside."""
    *answer, after = DRAWN(pen, *arguments)
    return (*answer, after or min(pen, DOWN))


def leg_in_ticks(*leg):
    """The length before half ticks: halves dropped, short sines over 10,000, 10^9 in both divisions, u sought in ticks."""
    p, q = (difference // 2 for difference in HALF_DIFFERENCES(*leg))
    m = model.short_cosine(leg[0]) * model.short_cosine(leg[2]) // 10**9
    r = math.isqrt(model.short_sine(p)**2 + m * model.short_sine(q)**2 // 10**9)
    return 2 * model.greatest(0, QUARTER, lambda angle: model.short_sine(angle) <= r) * model.MILLIMETRES // model.DEGREE


def number_by(product=lambda cosine, cosine2: cosine * cosine2 // LEG_UNIT, last=lambda m, sine: m * sine**2 // LEG_UNIT):
    """H, with another m or another last product."""
    def number(*leg):
        p, q = model.half_differences(*leg)
        return model.leg_sine(p)**2 + last(product(model.leg_cosine(leg[0]), model.leg_cosine(leg[2])), model.leg_sine(q))
    return number


def finer_course_numbers(latitude, longitude, latitude2, longitude2):
    """N and D with the length rule's sines and divisors."""
    with mock.patch.object(model, 'SHORT_UNIT', LEG_UNIT), \
            mock.patch.object(model, 'short_sine', lambda angle: model.dropped(model.long_sine(angle), 5_000)):
        return COURSE_NUMBERS(latitude, longitude, latitude2, longitude2)


def one_division(latitude, longitude, latitude2, longitude2):
    """Divides once, and not the start's sine times the end's cosine first."""
    n, _ = COURSE_NUMBERS(latitude, longitude, latitude2, longitude2)
    here = model.short_sine(latitude) * model.short_cosine(latitude2) * model.offset_cosine(model.offset_of(longitude2, longitude))
    return n, model.dropped(model.short_cosine(latitude) * model.short_sine(latitude2), 10**9) - model.dropped(here, 10**18)


def floored_n(latitude, longitude, latitude2, longitude2):
    """Drops N downward."""
    _, d = COURSE_NUMBERS(latitude, longitude, latitude2, longitude2)
    return model.short_cosine(latitude2) * model.short_sine(model.offset_of(longitude2, longitude)) // 10**9, d


def course_unless_equal(*leg):
    """18 for equal points alone."""
    n, d = model.course_numbers(*leg)
    return None if leg[:2] == leg[2:] else model.in_quarter(model.angle_of_ratio(n, d), n, d)


def quotient(root, rest):
    """The rest divided by 20 × root, not tried as a digit."""
    return max(0, min(rest // (20 * root), 9)) if root else DIGIT_OF(root, rest)


def tried_once(root, rest):
    """The same, one less where it is too great, and then not tried again."""
    digit = quotient(root, rest)
    return max(0, digit - 1) if model.taken_away(root, digit) > rest else digit


def rests_before(number):
    """Each rest as it is before the subtraction."""
    root, steps = ROOT_STEPS(number)
    rests = [0, *(rest for *_, rest in steps)]
    return root, [(pair, digit, model.brought_down(rest, pair)) for (pair, digit, _), rest in zip(steps, rests)]


def repeated_behind(number):
    """The last step again behind itself."""
    root, count, *steps = ROOT_DOOR(number)
    return (root, count, *steps[:3 * count], *(model.MOST_PAIRS - count) * steps[3 * count - 3:3 * count])


def zeros_first(number):
    """The zeros before the first step, and not behind the last."""
    root, count, *steps = ROOT_DOOR(number)
    return (root, count, *steps[3 * count:], *steps[:3 * count])


def joined_measure(numbers):
    """Counts every leg, wherever the pen was up."""
    return MEASURE_DOOR([0 if k >= NUMBERS and k % NUMBERS == THIRD and number == 1 else number for k, number in enumerate(numbers)])


def answered(change):
    """Changes how many points were looked at. What changes it gets yes or no, the number and the points."""
    def met(points, target):
        yes, looked = TARGET_MET(points, target)
        return yes, change(yes, looked, points)
    return met


def last_as_long(yes, looked, points):
    """The longest beginning that has the same length, for the shortest."""
    lengths = LENGTHS_OF(points)
    return max(k for k, length in enumerate(lengths) if length == lengths[looked])


def longest_leg(points):
    """The longest leg for the sum."""
    lengths = LENGTHS_OF(points)
    return [0, *itertools.accumulate((after - before for before, after in zip(lengths, lengths[1:])), max)]


def begun_anew(points):
    """Begins a new sum wherever the pen was up."""
    lengths, anew = LENGTHS_OF(points), [0]
    for before, after, point in zip(lengths, lengths[1:], points):
        anew.append(0 if point[THIRD] else anew[-1] + after - before)
    return anew


def found_late(number):
    """Looks for what is refused by this number only in the points that it looks at."""
    def door(numbers, target):
        if model.bad_buffer(numbers) == number:
            good = next(numbers[:end] for end in reversed(range(len(numbers))) if not model.bad_buffer(numbers[:end]))
            answer = MET_DOOR(good, target)
            if answer[1]:
                return answer
        return MET_DOOR(numbers, target)
    return door


def all_decimals(number, mark, decimals):
    """Writes all decimals where it writes one."""
    whole, *fraction = NUMBER_TEXT(number, mark, decimals).split(mark)
    return mark.join((whole, *(digits.ljust(decimals, '0') for digits in fraction)))


def g_first(points, *more):
    """Writes `g` before the first point as before any other."""
    return ROUTE_TEXT([(0, 0, 1), *points], *more).replace(b'p\t0\t0\n', b'', 1)


def longer_write(*arguments):
    """Ends the text with a zero byte where there is room for one."""
    *_, output, place = arguments
    refusal, size = WRITE_DOOR(*arguments)
    if not refusal and place + size < len(output):
        output[place + size] = 0
    return refusal, size


def hasty_write(*arguments):
    """Writes a byte and then refuses."""
    *_, output, place = arguments
    answer = WRITE_DOOR(*arguments)
    if answer[0] and place < len(output):
        output[place] = ord('r')
    return answer


def late_target(numbers, has_target, target, *more):
    """Judges the room of another target first: 15 before 16."""
    *comma, output, place = more
    answer = WRITE_DOOR(numbers, has_target, 0, *comma, bytearray(output), place)
    return answer if answer[0] else WRITE_DOOR(numbers, has_target, target, *more)


def early_target(door):
    """16 before what refuses the buffer."""
    return lambda numbers, has_target, target, *more: (
        (16, 0) if has_target and model.bad_target(target) else door(numbers, has_target, target, *more))


def every_target(door):
    """Judges a target that is not there."""
    return lambda numbers, has_target, target, *more: door(numbers, has_target or model.bad_target(target), target, *more)


def one_says_yes(door):
    """Takes any number but 1 for 0."""
    return lambda numbers, has_target, *more: door(numbers, has_target == 1, *more)


def counted(change):
    """Counts the bytes of another text. What changes it gets the text and the number of points."""
    def door(numbers, *more):
        refusal, text = TEXT_OF(numbers, *more)
        return refusal, 0 if refusal else len(change(text, len(numbers) // NUMBERS))
    return door


def without(pattern):
    """Does not count these bytes."""
    return counted(lambda text, points: re.sub(pattern, b'', text, flags=re.M))


def not_judged(number):
    """Counts what is refused by this number."""
    def door(numbers, has_target, target, comma):
        points = model.points_of(numbers[:len(numbers) // NUMBERS * NUMBERS])
        refusal, size = SIZE_DOOR(numbers, has_target, target, comma)
        return (0, len(ROUTE_TEXT(points, target if has_target else None, comma))) if refusal == number else (refusal, size)
    return door


def size_beside_refusal(numbers, has_target, target, comma):
    """Says how long the text would be without the target that refuses it."""
    refusal, size = SIZE_DOOR(numbers, has_target, target, comma)
    return refusal, SIZE_DOOR(numbers, 0, 0, comma)[1] if refusal == 16 else size


# parts of the model, each replaced by a wrong one
WRONG = [
    ('latitude_in_range', lambda latitude: abs(latitude) < QUARTER),
    ('longitude_in_range', lambda longitude: abs(longitude) <= HALF_TURN),
    # 180 degrees refused, -180 alone accepted, a tick more accepted; a tick more accepted in a latitude
    ('angle_in_range', lambda angle: abs(angle) < HALF_TURN),
    ('angle_in_range', model.longitude_in_range),
    ('angle_in_range', lambda angle: abs(angle) <= HALF_TURN + 1),
    ('latitude_in_range', lambda latitude: abs(latitude) <= QUARTER + 1),
    # the sine beyond 90 degrees taken as that of 90, and even there
    ('long_sine', lambda angle: LONG_SINE(max(-QUARTER, min(angle, QUARTER)))),
    ('long_sine', lambda angle: LONG_SINE(angle if abs(angle) <= QUARTER else abs(angle))),
    ('ENTRIES', [*ENTRIES[:4499], ENTRIES[4499] + 1, ENTRIES[4500]]),
    ('dropped', lambda number, by: number // by),
    ('turned', lambda angle: angle),
    ('TURN', model.TURN + 2),
    ('sinusoidal', rounded_sinusoidal),
    ('only_there', lambda sheet, latitude, longitude, meridian, place: (latitude, longitude)),
    # half ticks taken for ticks, an odd one dropped, and worked out from the ticks beside it
    ('long_sine_half', LONG_SINE),
    ('long_sine_half', lambda half_ticks: LONG_SINE_HALF(half_ticks // 2 * 2)),
    ('long_sine_half', lambda half_ticks: (LONG_SINE(half_ticks // 2) + LONG_SINE((half_ticks + 1) // 2)) // 2),
    # the range of ticks, sines below 0 and beyond 90 degrees as in ticks; 90 degrees refused, half a tick more accepted, 45 degrees the most
    ('half_ticks_in_range', model.angle_in_range),
    ('DOORS', {**model.DOORS, 'long_sine_half': lambda half_ticks: (
        (0, -LONG_SINE_HALF(-half_ticks)) if -QUARTER_IN_HALVES <= half_ticks < 0 else HALF_DOOR(half_ticks))}),
    ('DOORS', {**model.DOORS, 'long_sine_half': lambda half_ticks: HALF_DOOR(min(half_ticks, 2 * QUARTER_IN_HALVES - half_ticks))}),
    ('half_ticks_in_range', lambda half_ticks: 0 <= half_ticks < QUARTER_IN_HALVES),
    ('half_ticks_in_range', lambda half_ticks: 0 <= half_ticks <= QUARTER_IN_HALVES + 1),
    ('half_ticks_in_range', lambda half_ticks: 0 <= half_ticks <= QUARTER),
    # the length before half ticks, of every leg, and of those of a route alone; halves dropped, in the latitudes alone, and in the longitudes
    # alone; p and q swapped
    ('leg', leg_in_ticks),
    ('length_of', lambda points: sum(leg_in_ticks(*ends) for ends in model.legs_of(points))),
    ('half_differences', lambda *leg: tuple(difference // 2 * 2 for difference in HALF_DIFFERENCES(*leg))),
    ('half_differences', lambda *leg: (HALF_DIFFERENCES(*leg)[0] // 2 * 2, HALF_DIFFERENCES(*leg)[1])),
    ('half_differences', lambda *leg: (HALF_DIFFERENCES(*leg)[0], HALF_DIFFERENCES(*leg)[1] // 2 * 2)),
    ('half_differences', lambda *leg: HALF_DIFFERENCES(*leg)[::-1]),
    # 10^9 left in both divisions, in the first, and in the second; the sines over 10,000, that of q alone, that of u alone, and the cosines;
    # the ticks of a cosine taken for half ticks
    ('LEG_UNIT', 10**9),
    ('leg_number', number_by(product=lambda cosine, cosine2: cosine * cosine2 // 10**9)),
    ('leg_number', number_by(last=lambda m, sine: m * sine**2 // 10**9)),
    ('leg_sine', lambda half_ticks: LONG_SINE_HALF(half_ticks) // 10_000),
    ('leg_number', number_by(last=lambda m, sine: m * (sine // 2)**2 // LEG_UNIT)),
    ('greatest_angle', lambda r: model.greatest(0, QUARTER_IN_HALVES, lambda half_ticks: LONG_SINE_HALF(half_ticks) // 10_000 <= r)),
    ('leg_cosine', model.short_cosine),
    ('leg_cosine', lambda latitude: LONG_SINE_HALF(QUARTER - abs(latitude)) // 5_000),
    # one division for two, the last product not exact, in 64 bits, and rounded up
    ('leg_number', number_by(lambda cosine, cosine2: cosine * cosine2, lambda product, sine: product * sine**2 // LEG_UNIT**2)),
    ('leg_number', number_by(last=lambda m, sine: m * (sine**2 // LEG_UNIT))),
    ('leg_number', number_by(last=lambda m, sine: m * sine // LEG_UNIT * sine)),
    ('leg_number', number_by(last=lambda m, sine: m * sine**2 % 2**64 // LEG_UNIT)),
    ('leg_number', number_by(last=lambda m, sine: -(-m * sine**2 // LEG_UNIT))),
    # u sought in ticks, up to 45 degrees, with "less than" for "at most", and as the least of those that share a sine; the arc doubled, and halved
    ('greatest_angle', lambda r: GREATEST_ANGLE(r) // 2 * 2),
    ('greatest_angle', lambda r: min(GREATEST_ANGLE(r), QUARTER)),
    ('greatest_angle', lambda r: GREATEST_ANGLE(r - 1)),
    ('greatest_angle', lambda r: QUARTER_IN_HALVES - 3_282 if r == LEG_UNIT - 1 else GREATEST_ANGLE(r)),
    ('greatest_angle', lambda r: 2 * GREATEST_ANGLE(r)),
    ('greatest_angle', lambda r: GREATEST_ANGLE(r) // 2),
    ('MILLIMETRES', 111_194_926),
    # the length rule's sines in a course, and on a sheet
    ('course_numbers', finer_course_numbers),
    ('sinusoidal', lambda latitude, longitude, meridian: (model.offset_of(longitude, meridian) * model.leg_cosine(latitude), latitude)),
    # N and D swapped; the offset the other way round, without the turn, and in 32 bits; its cosine positive beyond 90 degrees
    ('course_numbers', lambda *leg: COURSE_NUMBERS(*leg)[::-1]),
    ('course_numbers', lambda latitude, longitude, latitude2, longitude2: COURSE_NUMBERS(latitude, longitude2, latitude2, longitude)),
    ('course_numbers', lambda latitude, longitude, latitude2, longitude2: COURSE_NUMBERS(
        latitude, 0, latitude2, max(-HALF_TURN, min(longitude2 - longitude, HALF_TURN - 1)))),
    ('course_numbers', lambda latitude, longitude, latitude2, longitude2: COURSE_NUMBERS(
        latitude, 0, latitude2, (longitude2 - longitude + 2**31) % 2**32 - 2**31)),
    ('offset_cosine', lambda offset: abs(OFFSET_COSINE(offset))),
    ('course_numbers', one_division),
    ('course_numbers', floored_n),
    # the least angle for the greatest, "less than" for "at most", the long sines for the short
    ('angle_of_ratio', lambda n, d: QUARTER - ANGLE_OF_RATIO(d, n)),
    ('angle_of_ratio', lambda n, d: model.greatest(
        0, QUARTER, lambda a: model.short_sine(a) * abs(d) < model.short_cosine(a) * abs(n))),
    ('angle_of_ratio', lambda n, d: model.greatest(
        0, QUARTER, lambda a: model.long_sine(a) * abs(d) <= model.long_sine(QUARTER - a) * abs(n))),
    # one quarter for another, 360 for 0
    ('in_quarter', lambda a, n, d: IN_QUARTER(a, abs(n), d)),
    ('in_quarter', lambda a, n, d: IN_QUARTER(a, n, abs(d))),
    ('in_quarter', lambda a, n, d: IN_QUARTER(a, -n, d)),
    ('in_quarter', lambda a, n, d: IN_QUARTER(a, n, d) or model.TURN),
    # 18 for equal points alone, and where one of the two numbers is zero; the end judged first
    ('course', course_unless_equal),
    ('course', lambda *leg: COURSE(*leg) if all(COURSE_NUMBERS(*leg)) else None),
    ('DOORS', {**model.DOORS, 'course': lambda *leg: (BAD_POINT(*leg[2:]), 0) if BAD_POINT(*leg[2:]) else model.course_door(*leg)}),
    # a digit one too great, one too small, and not tried enough; one less at a square, and in a root of ten digits one more right below it;
    # another product
    ('digit_of', lambda root, rest: DIGIT_OF(root, max(rest, 0)) + 1),
    ('digit_of', lambda root, rest: max(DIGIT_OF(root, rest) - 1, 0)),
    ('digit_of', quotient),
    ('digit_of', tried_once),
    ('digit_of', lambda root, rest: DIGIT_OF(root, max(rest - 1, 0))),
    ('digit_of', lambda root, rest: DIGIT_OF(root, rest + (root >= 10**8))),
    ('taken_away', lambda root, digit: (10 * root + digit) * digit),
    ('taken_away', lambda root, digit: 20 * root * digit),
    # a digit at a time; pairs from the left, as many for every number, without those of zeros; 0 without a pair; 32 bits of a number, 63, and a float
    ('pairs_of', lambda number: [int(digit) for digit in str(number)]),
    ('pairs_of', lambda number: [int(str(number)[at:at + 2]) for at in range(0, len(str(number)), 2)]),
    ('pairs_of', lambda number: [number // 100**k % 100 for k in reversed(range(model.MOST_PAIRS))]),
    ('pairs_of', lambda number: [pair for pair in PAIRS_OF(number) if pair] or [0]),
    ('pairs_of', lambda number: PAIRS_OF(number) if number else []),
    ('pairs_of', lambda number: PAIRS_OF(number % 2**32)),
    ('pairs_of', lambda number: PAIRS_OF(min(number, 2**63 - 1))),
    ('pairs_of', lambda number: PAIRS_OF(int(float(number)))),
    # the rest not brought down, and as it was before; the digits or the steps the other way round; no zeros behind
    ('brought_down', lambda rest, pair: pair),
    ('root_steps', rests_before),
    ('root_steps', lambda number: (int(str(ROOT_STEPS(number)[0])[::-1]), ROOT_STEPS(number)[1])),
    ('root_steps', lambda number: (ROOT_STEPS(number)[0], ROOT_STEPS(number)[1][::-1])),
    *(('DOORS', {**model.DOORS, 'root_steps': wrong}) for wrong in (repeated_behind, zeros_first)),
    # the root worked out in floats
    ('root_steps', lambda number: (int(math.sqrt(number)), ROOT_STEPS(number)[1])),
    ('MOST_BYTES', 59_999),
    ('MOST_POINTS', 999),
    ('OTHER', {b'.': b'!', b',': b'!'}),
    ('DOORS', {**model.DOORS, 'read_route': hasty_read}),
    ('bad_point', lambda latitude, longitude: BAD_POINT(latitude, longitude) and (6 if model.longitude_in_range(longitude) else 7)),
    ('bad_meridian', lambda meridian: 0),
    ('bad_window', lambda left, right, bottom, top: 0 if left <= right and bottom <= top else 12),
    ('bad_window', lambda left, right, bottom, top: 12 if left >= right or bottom >= top else 0),
    ('bad_divisor', lambda divisor: 0 if 1 <= divisor <= 1_000_001 else 13),
    ('inside', lambda x, y, left, right, bottom, top: left < x < right and bottom < y < top),
    ('stroke_of', lambda pen, third: model.LINE if pen == DOWN and third == 0 else model.MOVE),
    ('stroke_of', lambda pen, third: model.LINE if pen and third != 1 else model.MOVE),
    ('drawn', staying_pen),
    ('stroke_of', lambda pen, third: model.LINE if pen % 256 and third == 0 else model.MOVE),
    ('stroke_of', lambda pen, third: model.LINE if pen % 2**16 and third == 0 else model.MOVE),
    ('stroke_of', lambda pen, third: model.LINE if 0 < pen < 2**31 and third == 0 else model.MOVE),
    ('DOORS', {**model.DOORS, 'pen_step': lifting_step}),
    ('DOORS', {**model.DOORS, 'pen_step': short_pen}),
    ('DOORS', {**model.DOORS, 'measure': joined_measure}),
    # more than the target asked for, and a millimetre less; the last leg left out; every leg counted, wherever the pen was up; the longest leg for
    # the sum; a new sum where the pen was up
    ('target_met', lambda points, target: TARGET_MET(points, target and target + 1)),
    ('target_met', lambda points, target: TARGET_MET(points, max(target - 1, 0))),
    ('lengths_of', lambda points: LENGTHS_OF([*points[:-1], *((0, 0, 1) for _ in points[-1:])])),
    ('lengths_of', lambda points: LENGTHS_OF([(*point[:THIRD], 0) for point in points])),
    ('lengths_of', longest_leg),
    ('lengths_of', begun_anew),
    # yes only where points are left
    ('target_met', lambda points, target: (int(TARGET_MET(points, target)[1] < len(points)), TARGET_MET(points, target)[1])),
    # a point more looked at; the longest beginning that does not reach the target; the longest of those that are as long; counted legs for points;
    # every point for target 0, and one; none where the target is not met
    ('target_met', answered(lambda yes, looked, points: min(looked + yes, len(points)))),
    ('target_met', answered(lambda yes, looked, points: max(looked - yes, 0))),
    ('target_met', answered(last_as_long)),
    ('target_met', answered(lambda yes, looked, points: len(model.legs_of(points[:looked])))),
    ('target_met', answered(lambda yes, looked, points: looked or len(points))),
    ('target_met', answered(lambda yes, looked, points: looked or min(1, len(points)))),
    ('target_met', answered(lambda yes, looked, points: yes and looked)),
    # part metres refused, the greatest target too, and a greater one accepted; 32 bits of a target; 16 before what refuses the buffer, and target 0
    # answered before that; each refusal found only in the points that are looked at
    ('too_great', model.bad_target),
    ('too_great', lambda target: 16 if target >= 999_999_000 else 0),
    ('too_great', lambda target: 16 if target > 10**9 else 0),
    *(('DOORS', {**model.DOORS, 'target_met': wrong}) for wrong in (
        lambda numbers, target: MET_DOOR(numbers, target % 2**32),
        lambda numbers, target: (16, 0, 0) if model.too_great(target) else MET_DOOR(numbers, target),
        lambda numbers, target: MET_DOOR(numbers, target) if target else (0, 1, 0), *map(found_late, (6, 7, 9, 17)))),
    # numbers behind the last point left out; 9 before 17; third numbers judged in the first point alone, and in all points but the first
    ('DOORS', {**model.DOORS, 'measure': lambda numbers: MEASURE_DOOR(numbers[:len(numbers) // NUMBERS * NUMBERS])}),
    ('bad_thirds', lambda numbers: model.bad_count(numbers) or BAD_THIRDS(numbers)),
    ('bad_thirds', lambda numbers: BAD_THIRDS(numbers if len(numbers) % NUMBERS else numbers[:NUMBERS])),
    ('bad_thirds', lambda numbers: BAD_THIRDS((*numbers[:THIRD], 1, *numbers[THIRD + 1:]) if len(numbers) > THIRD else numbers)),
    # 7 before 6 in a point
    ('bad_points', lambda points: next(filter(None, (BAD_POINT(0, point[1]) or BAD_POINT(*point[:2]) for point in points)), 0)),
    # a minus on zero, decimals that end in zero, a bare mark, no lone 0, a leading zero, the point under comma
    ('number_text', lambda number, mark, decimals: NUMBER_TEXT(number, mark, decimals) if number else '-0'),
    ('number_text', all_decimals),
    ('number_text', lambda number, mark, decimals: NUMBER_TEXT(number, mark, decimals) + ('' if number % 10**decimals else mark)),
    ('number_text', lambda number, mark, decimals: NUMBER_TEXT(number, mark, decimals).replace('0' + mark, mark)),
    ('number_text', lambda number, mark, decimals: NUMBER_TEXT(number, mark, decimals).zfill(2)),
    ('number_text', lambda number, mark, decimals: NUMBER_TEXT(number, '.', decimals)),
    # `g` before the first point, no `g`, no line for a target of 0
    ('route_text', g_first),
    ('route_text', lambda *route: ROUTE_TEXT(*route).replace(b'g\n', b'')),
    ('route_text', lambda points, target, comma: ROUTE_TEXT(points, target or None, comma)),
    # part metres dropped; the greatest target refused, and a greater one accepted
    ('bad_target', lambda target: 16 if target is not None and target > model.MOST_TARGET else 0),
    ('MOST_TARGET', 999_998_000),
    ('MOST_TARGET', 1_000_000_000),
    # room counted from the output's beginning; a byte more asked for; place and size added in 64 bits
    ('bad_room', lambda text, output, place: 15 if len(text) > len(output) else 0),
    ('bad_room', lambda text, output, place: 15 if len(text) >= max(len(output) - place, 0) else 0),
    ('bad_room', lambda text, output, place: 15 if (place + len(text)) % 2**64 > len(output) else 0),
    *(('DOORS', {**model.DOORS, 'write_route': wrong}) for wrong in (longer_write, hasty_write, late_target)),
    *(('DOORS', {**model.DOORS, name: wrong(door)}) for name, door in (('route_size', SIZE_DOOR), ('write_route', WRITE_DOOR))
      for wrong in (early_target, every_target, one_says_yes)),
    # 256 taken for 0
    ('DOORS', {**model.DOORS, 'write_route': lambda numbers, has_target, target, comma, *more: WRITE_DOOR(
        numbers, has_target, target, comma % 256, *more)}),
    # not counted: `g`, the last `p` line, the target's line, that of a target of 0, a minus, the mark, tabs, the last LF, a lone 0, the third digit
    # before the mark, the seventh decimal
    *(('DOORS', {**model.DOORS, 'route_size': without(pattern)}) for pattern in (
        rb'^g\n', rb'^p.*\n\Z', rb'^t.*\n', rb'^t\t0\n', rb'-', rb'[.,]', rb'\t', rb'\n\Z', rb'\b0(?=[.,])', rb'(?<=[-\t]\d\d)\d',
        rb'(?<=[.,]\d{6})\d')),
    # counted: a byte more under comma, `g` before the first point, a line for no target, decimals that end in zero, a byte behind the text; the most
    # that so many points need; 8 bits of the size
    *(('DOORS', {**model.DOORS, 'route_size': counted(change)}) for change in (
        lambda text, points: text.replace(b'comma', b'commas'), lambda text, points: text.replace(b'p\t', b'g\np\t', 1),
        lambda text, points: text if b'\nt\t' in text else text + b't\t0\n', lambda text, points: re.sub(rb'[.,]\d+', b'.0000000', text),
        lambda text, points: text + b'\0', lambda text, points: bytes(max(22, 20 + 29 * points)), lambda text, points: bytes(len(text) % 256))),
    # 15 as for a writing into no output; each refusal left out; a size beside a refusal; 32 bits of a target
    *(('DOORS', {**model.DOORS, 'route_size': wrong}) for wrong in (
        lambda *route: WRITE_DOOR(*route, bytearray(), 0), *map(not_judged, (6, 7, 9, 16, 17)), size_beside_refusal,
        lambda numbers, has_target, target, comma: SIZE_DOOR(numbers, has_target, target % 2**32, comma))),
]
# what chance brings seldom or never: the sine of 0 half ticks refused; m, the last product and r worked out in floats; a root of ten
# digits one less at its square; the first target that is too great accepted; the sum in 32 bits, with a sign and without, that a target is held
# to; third numbers behind the 1,000th point not judged; 6 of all points before 7 of any; 15 for the longest text; one byte or one target taken
# for another
WRONG_SELDOM = [
    ('half_ticks_in_range', lambda half_ticks: 0 < half_ticks <= QUARTER_IN_HALVES),
    ('leg_number', number_by(product=lambda cosine, cosine2: int(cosine * cosine2 / LEG_UNIT))),
    ('leg_number', number_by(last=lambda m, sine: int(m * sine**2 / LEG_UNIT))),
    ('leg', lambda *leg: GREATEST_ANGLE(int(math.sqrt(LEG_NUMBER(*leg)))) * model.MILLIMETRES // model.DEGREE),
    ('digit_of', lambda root, rest: DIGIT_OF(root, rest - (root >= 10**8 and rest > 0))),
    ('too_great', lambda target: 16 if target > 999_999_001 else 0),
    ('lengths_of', lambda points: [(length + 2**31) % 2**32 - 2**31 for length in LENGTHS_OF(points)]),
    ('lengths_of', lambda points: [length % 2**32 for length in LENGTHS_OF(points)]),
    ('bad_thirds', lambda numbers: BAD_THIRDS(numbers if len(numbers) % NUMBERS else numbers[:model.MOST_NUMBERS])),
    ('bad_points', lambda points: BAD_POINTS([(point[0], 0, 0) for point in points]) or BAD_POINTS(points)),
    ('DOORS', {**model.DOORS, 'route_size': lambda *route: WRITE_DOOR(*route, bytearray(29_019), 0)}),
    ('number_of', lambda field, *more, **rule: NUMBER_OF(field.replace(b'\xb5', b'5'), *more, **rule)),
    ('number_of', lambda field, *more, **rule: NUMBER_OF(field.rstrip(b'\x1a'), *more, **rule)),
    ('lines_of', lambda text: LINES_OF(text.replace(b'\x85', b'\n'))),
    ('HEADERS', {**model.HEADERS, (b'route\tpoint\xff', True): b'.'}),
    ('target_of', lambda field, mark, line: 1000 * NUMBER_OF(field, mark, False, 3, line) + (field == b'765')),
]


def modelled(given):
    """The line that the model answers to each call."""
    for door, *arguments in given:
        if door == 'read_route':
            room, text = arguments
            buffer = doors.lent(room)
            yield doors.line_of((*model.DOORS[door](text, buffer), 1, *buffer))
        elif door == 'write_route':
            *route, room, place = arguments
            output = doors.lent_output(room)
            yield doors.line_of((*model.DOORS[door](*route, output, place), 1, bytes(output)))
        elif door in ('measure', 'target_met', 'route_size'):
            yield doors.line_of((*model.DOORS[door](*arguments), 1))
        else:
            yield doors.line_of(model.DOORS[door](*arguments))


def differing(given, said, wanted, most=3):
    """The first of the calls that are answered otherwise than wanted, with both lines."""
    found = (difference for difference in zip(given, said, wanted) if difference[1] != difference[2])
    return list(itertools.islice(found, most))


def plain(call):
    """A call without what says where its text, its buffer and its output lie: the answer is the same."""
    return call[2:] if call[0] in ('at', 'far') else call


def rows_in(given, said):
    """The rows of the table that ways back, sines of half ticks, legs and courses came upon: north and south, and of half a leg along a meridian and
    along the equator."""
    found = {'north': set(), 'south': set(), 'half ticks': set(), 'meridian': set(), 'equator': set(), 'course': set()}
    for (door, first, *_), line in zip(given, said):
        refusal, value, *_ = map(int, line.split())
        if door == 'cylindrical_back' and not refusal:
            found['north' if value >= 0 else 'south'].add(abs(value) // STEP)
        if door == 'long_sine_half':
            found['half ticks'].add(bisect.bisect(ENTRIES, value) - 1)
        if door == 'leg':
            # "the arc is u ticks"; "Its length is arc × 111,194,927 / 10,000,000 millimetres, floored": each arc has a length of its own
            arc = -(-value * model.DEGREE // model.MILLIMETRES)
            found['meridian' if first else 'equator'].add(arc // STEP_IN_HALVES)
        if door == 'course':
            found[door].add(value // STEP)
    return found


def working_of(line):
    """The numbers of an answer of `root_steps`: the root, how many steps there are, and all that there is room for."""
    root, count, *numbers = map(int, line.split())
    return root, count, [tuple(numbers[at:at + 3]) for at in range(0, len(numbers), 3)]


def broken(number, line):
    """What an answer of `root_steps` does not keep of these sentences, which hold without a look at the model."""
    root, count, steps = working_of(line)
    brought = found = 0
    for pair, digit, rest in steps[:count]:
        brought, found = 100 * brought + pair, 10 * found + digit
        if not (0 <= pair <= 99 and 0 <= digit <= 9):
            yield 'a pair has two digits, and gives one'
        if found**2 + rest != brought:
            yield 'root² + rest is the part brought down so far'
        if not 0 <= rest <= 2 * found:
            yield 'the rest is at most twice the root'
    if brought != number:
        yield 'the pairs side by side are the number'
    if found != root:
        yield 'the digits side by side are the root'
    if root != math.isqrt(number):
        yield 'the root is the greatest whole number whose square is at most the number'
    if not 1 <= count <= model.MOST_PAIRS or (steps[0][0] == 0 and count > 1):
        yield 'there are as many pairs as the digits need, and one for 0'
    if any(map(any, steps[count:])):
        yield 'behind the last step there are zeros'


def unmet(target, lengths, line):
    """What an answer of `target_met` does not keep of these sentences, by the lengths of the buffer's beginnings."""
    _, met, looked, _ = map(int, line.split())
    if met != (lengths[-1] >= target):
        yield 'yes holds exactly when the full length is at least the target'
    if not 0 <= looked < len(lengths) or (met and lengths[looked] < target):
        yield 'the beginning is one whose length reaches it'
    if met and any(length >= target for length in lengths[:looked]):
        yield 'it is the shortest such one'
    if not met and looked != len(lengths) - 1:
        yield 'the number is n if none does'


def unforetold(number, need, room, place, line):
    """What a writing into so many bytes from a place on does not keep of these sentences, by what `route_size` answers about its route: the number of
    a refusal, and so many bytes."""
    refusal, size, kept, output = line.split()
    said = int(refusal), int(size)
    if number and said != (number, need):
        yield 'what refuses the question refuses the writing, whatever the room'
    if not number and room < need and said != (15, 0):
        yield '15 comes where the output from the place on is shorter'
    if not number and room >= need and said != (0, need):
        yield 'and only there: else the text has so many bytes'
    # no byte of a text stands in the output before
    differ = [k for k, (byte, before) in enumerate(zip(bytes.fromhex(output[1:]), doors.lent_output(place + room))) if byte != before]
    if kept != '1' or differ != [*range(place, place + said[1])]:
        yield 'they are written from the place on, and nothing else changes'


def answered_runs(some, count, length):
    """Runs of steps with the doors' answers: a new pen is up, and each step gets the pen that the step before it answered."""
    given, said, pens = [], [], count * [UP]
    for steps in zip(*(calls.run_of_steps(some, length) for _ in pens)):
        turn = [('pen_step', pen, *step) for pen, step in zip(pens, steps)]
        answers = doors.answers(turn)
        pens = [int(line.split()[-1]) for line in answers]
        given += turn
        said += answers
    return given, said


class Figures(unittest.TestCase):
    given = [call for call, _ in FIGURES]
    lines = [doors.line_of(answer) for _, answer in FIGURES]

    def test_the_doors_answer_as_the_documents_say(self):
        self.assertEqual(differing(self.given, doors.answers(self.given), self.lines), [])

    def test_the_model_answers_as_the_documents_say(self):
        self.assertEqual(differing(self.given, modelled(self.given), self.lines), [])

    def test_the_table(self):
        # every entry, by the long sine there, in each quarter: "beyond 90, the sine of 180 less the angle; odd as before"
        angles = range(0, QUARTER + 1, STEP)
        for sign in (-1, 1):
            for quarter in (angles, [HALF_TURN - angle for angle in angles]):
                said = doors.answers([('long_sine', sign * angle) for angle in quarter])
                self.assertEqual(said, [f'0 {sign * entry}' for entry in ENTRIES])
        # "with step 400,000 and the same table"
        said = doors.answers([('long_sine_half', 2 * angle) for angle in angles])
        self.assertEqual(said, [f'0 {entry}' for entry in ENTRIES])
        entries = [int(line.split()[1]) for line in said]
        self.assertEqual(min(after - before for before, after in zip(entries, entries[1:])), 609_235)
        bends = [(before + after - 2 * entry) * 10**20 + 12_184_696_667_746 * entry
                 for before, entry, after in zip(entries, entries[1:], entries[2:])]
        self.assertLessEqual(max(map(abs, bends)), 192 * 10**18)


class Compared:
    """Calls and the doors' answers, held to the model."""
    wrong = WRONG

    def test_the_doors_answer_what_the_model_answers(self):
        self.assertEqual(differing(self.given, self.said, modelled(self.given)), [])

    def test_every_answer_comes_up(self):
        found = {door: set() for door in REFUSALS}
        for (door, *_), line in zip(self.given, self.said):
            if door not in NEVER_REFUSED:
                found[door].add(int(line.split()[0]))
        self.assertEqual(found, REFUSALS)
        strokes = {line.split()[1] for (door, *_), line in zip(self.given, self.said) if door == 'pen_step'}
        self.assertEqual(strokes, {'0', '1', '2'})
        quarters = {int(line.split()[1]) // QUARTER for (door, *_), line in zip(self.given, self.said) if door == 'course' and line.split()[0] == '0'}
        self.assertEqual(quarters, {0, 1, 2, 3})
        looked = set()
        for (door, numbers, *_), line in zip(self.given, self.said):
            if door == 'target_met' and line.startswith('0 '):
                met, points = map(int, line.split()[1:3])
                looked.add((met, points if points < 2 else 'all' if NUMBERS * points == len(numbers) else 'some'))
        self.assertEqual(looked, {(1, 0), (1, 'some'), (1, 'all'), (0, 0), (0, 1), (0, 'all')})
        workings = [working_of(line) for (door, *_), line in zip(self.given, self.said) if door == 'root_steps']
        self.assertEqual({count for _, count, _ in workings}, set(range(1, model.MOST_PAIRS + 1)))
        digits = {(at, steps[at][1]) for _, count, steps in workings for at in range(1, count)}
        self.assertEqual(digits, set(itertools.product(range(1, model.MOST_PAIRS), range(10))))

    def test_a_model_with_one_thing_wrong_is_seen(self):
        for name, value in self.wrong:
            with self.subTest(name), mock.patch.object(model, name, value):
                self.assertNotEqual(differing(self.given, self.said, modelled(self.given), most=1), [])

    def test_one_wrong_line_is_seen(self):
        for k in (0, len(self.said) // 2, len(self.said) - 1):
            wrong = self.said[k][:-1] + ('1' if self.said[k].endswith('0') else '0')
            said = [*self.said[:k], wrong, *self.said[k + 1:]]
            self.assertEqual(differing(self.given, said, self.said), [(self.given[k], wrong, self.said[k])])


class Fixed(Compared, unittest.TestCase):
    wrong = [*WRONG, *WRONG_SELDOM]

    @classmethod
    def setUpClass(cls):
        cls.given = [*Figures.given, *calls.every_byte(), *calls.sines(), *calls.half_sines(), *calls.sheets(), *calls.places(), *calls.legs(),
                     *calls.courses(), *calls.steps(), *calls.files(ROUTES), *calls.sizes(), *calls.writings(), *calls.roots(), *calls.targets()]
        random.Random(SEED).shuffle(cls.given)  # as Random does
        cls.said = doors.answers(cls.given)


class Rows(unittest.TestCase):
    """Every row of the table: the sines of its half ticks, and the way back to a latitude, to half a leg and to a course."""
    ROWS = range(4500)

    @classmethod
    def setUpClass(cls):
        cls.given = [call for k in cls.ROWS for call in calls.row(k)]
        cls.said = doors.answers(cls.given)

    def part(self, k):
        """Which calls are those of a row."""
        each = len(self.given) // len(self.ROWS)
        return slice(k * each, (k + 1) * each)

    def test_the_doors_answer_what_the_model_answers(self):
        self.assertEqual(differing(self.given, self.said, modelled(self.given)), [])

    def test_every_row_comes_up(self):
        for name, rows in rows_in(self.given, self.said).items():
            with self.subTest(name):
                self.assertEqual(set(self.ROWS) - rows, set())

    def test_a_row_left_out_is_seen(self):
        given, said = list(self.given), list(self.said)
        del given[self.part(1234)], said[self.part(1234)]
        for name, rows in rows_in(given, said).items():
            with self.subTest(name):
                self.assertEqual(set(self.ROWS) - rows, {1234})

    def test_a_model_with_one_row_wrong_is_seen(self):
        for k in (*self.ROWS[::100], self.ROWS[-1]):
            given, said = self.given[self.part(k)], self.said[self.part(k)]
            self.assertEqual(differing(given, said, modelled(given)), [])
            for name, value in (('ENTRIES', [*ENTRIES[:k + 1], ENTRIES[k + 1] - 1, *ENTRIES[k + 2:]]),
                                ('long_sine_half', lambda half_ticks: LONG_SINE_HALF(half_ticks) - 1),
                                ('greatest_angle', lambda r: GREATEST_ANGLE(r) - 1),
                                ('angle_of_ratio', lambda n, d: ANGLE_OF_RATIO(n, d) - 1)):
                with self.subTest(name, row=k), mock.patch.object(model, name, value):
                    self.assertNotEqual(differing(given, said, modelled(given)), [])


class Worked(unittest.TestCase):
    """The steps of roots, added up."""

    @classmethod
    def setUpClass(cls):
        some = random.Random(SEED)
        given = [*calls.roots(), *(calls.random_root(some) for _ in range(10 * COUNT))]
        cls.said = [(number, line) for (_, number), line in zip(given, doors.answers(given))]

    def test_every_working_adds_up(self):
        self.assertEqual([(number, line) for number, line in self.said if any(broken(number, line))], [])

    def test_a_working_with_one_number_changed_is_seen(self):
        for number, line in self.said[::500]:
            numbers = [int(word) for word in line.split()]
            for at, off in itertools.product(range(len(numbers)), (-1, 1)):
                wrong = [*numbers[:at], numbers[at] + off, *numbers[at + 1:]]
                self.assertTrue(any(broken(number, doors.line_of(wrong))), (number, wrong))

    def test_digits_that_a_division_does_not_find_come_up(self):
        # by how much the quotient of the rest and 20 × root, or 9 for a greater one, is too great; and quotients of two digits
        over, quotients = set(), set()
        for _, line in self.said:
            _, count, steps = working_of(line)
            root, (_, digit, before) = 0, steps[0]
            for pair, next_digit, rest in steps[1:count]:
                root = 10 * root + digit
                quotients.add((100 * before + pair) // (20 * root))
                over.add(min((100 * before + pair) // (20 * root), 9) - next_digit)
                digit, before = next_digit, rest
        self.assertEqual((over, max(quotients)), ({0, 1, 2, 3}, 14))


class Met(unittest.TestCase):
    """Whether targets are met, held to what the door `measure` answers to every beginning of the buffer."""

    @classmethod
    def setUpClass(cls):
        some = random.Random(SEED)
        # of the random buffers the short ones
        given = [*calls.targets(), *(call for call in calls.random_targets(some, 2 * COUNT) if len(call[1]) < 100)]
        cls.said = [(call[1:], line) for call, line in zip(given, doors.answers(given)) if line.startswith('0 ')]
        beginnings = [(numbers, end) for numbers in {numbers for (numbers, _), _ in cls.said} for end in range(0, len(numbers) + 1, NUMBERS)]
        cls.lengths = collections.defaultdict(list)
        for (numbers, _), line in zip(beginnings, doors.answers([('measure', numbers[:end]) for numbers, end in beginnings])):
            cls.lengths[numbers].append(int(line.split()[1]))

    def test_every_answer_agrees_with_the_lengths(self):
        self.assertGreater(len(self.said), 1_000)
        self.assertEqual([(numbers, target, line) for (numbers, target), line in self.said if any(unmet(target, self.lengths[numbers], line))], [])

    def test_an_answer_with_one_number_changed_is_seen(self):
        for (numbers, target), line in self.said:
            _, met, looked, _ = map(int, line.split())
            for wrong in ((1 - met, looked), (met, looked - 1), (met, looked + 1)):
                self.assertTrue(any(unmet(target, self.lengths[numbers], doors.line_of((0, *wrong, 1)))), (numbers, target, wrong))


class Sized(unittest.TestCase):
    """How much room routes need, held to what the door `write_route` answers where it has so much, a byte less, none, and enough for any."""

    @classmethod
    def setUpClass(cls):
        routes = [call[1:] for call in (*calls.sizes(), *calls.random_sizes(random.Random(SEED), COUNT)) if call[0] == 'route_size']
        tried = {}
        for route, line in zip(routes, doors.answers([('route_size', *route) for route in routes])):
            number, need, _ = map(int, line.split())
            rooms = {0, max(need - 1, 0), need, calls.output_for(len(route[0]) // NUMBERS)}
            tried[route, number, need] = [*itertools.product(sorted(rooms), (0, 11))]
        lines = iter(doors.answers([('write_route', *route, place + room, place) for (route, *_), where in tried.items() for room, place in where]))
        cls.said = [(*sized, [(*one, next(lines)) for one in where]) for sized, where in tried.items()]

    def test_every_writing_is_as_the_size_says(self):
        self.assertEqual({number for _, number, *_ in self.said}, REFUSALS['route_size'])
        found = [said for said in self.said if any(any(unforetold(*said[1:3], *one)) for one in said[-1])]
        self.assertEqual(found[:3], [])

    def test_a_size_with_one_number_changed_is_seen(self):
        for route, number, need, writings in self.said:
            for wrong in ((number + 1, 0), (number, 12), (0, 12)) if number else ((0, need - 1), (0, need + 1), (15, 0)):
                self.assertTrue(any(any(unforetold(*wrong, *one)) for one in writings), (route, wrong))

    def test_the_longest_of_every_count(self):
        # "n points need at most 22 + 29n bytes"; of these two are left, as no `g` stands before the first
        longest = [('route_size', count * LONGEST, 1, model.MOST_TARGET, count % 2) for count in range(1, 1_001)]
        self.assertEqual(doors.answers(longest), [f'0 {20 + 29 * count} 1' for count in range(1, 1_001)])
        counts = [(len(route[0]) // NUMBERS, need) for route, number, need, _ in self.said if not number]
        self.assertEqual([(count, need) for count, need in counts if not 12 + 6 * count <= need <= max(22, 20 + 29 * count)], [])


class Placed(unittest.TestCase):
    """Texts, buffers and outputs at every alignment, and right beside memory that may not be read."""
    GIVEN = [*(('read_route', calls.room_for(text.count(b'\np\t')), text) for text, *_ in (*REFUSED_TEXTS, *ACCEPTED_TEXTS)),
             *(call for call, _ in MEASURES), *(('target_met', numbers, target) for numbers, answers in PLANS.items() for target in answers),
             *(sizing(numbers, target, 0) for numbers, target, _ in SIZED), *FITTING, ('write_route', (), 0, 0, 0, 0, 0)]

    def differing_at(self, places, given):
        placed = [('at', place, *call) for call in given for place in places]
        return differing(placed, doors.answers(placed), (line for line in modelled(given) for _ in places))

    def test_at_every_alignment(self):
        # of 64 bytes, and of 64 numbers, from either end of the memory
        short = [call for call in self.GIVEN if len(doors.line_of(call)) < 500]
        self.assertEqual(self.differing_at([*range(64), *range(-64, 0)], short), [])

    def test_beside_what_may_not_be_read(self):
        self.assertEqual(self.differing_at([0, -1], self.GIVEN), [])


class Counts(unittest.TestCase):
    """Counts of 2^32 and more: a door that takes 32 bits of one answers otherwise, or looks where it may not. The last count in each test is the
    most that the language has; no machine has that memory, and the doors have to answer without a look at it."""

    def test_a_text(self):
        # "1 first"
        given = [('far_text', count) for count in (60_001, 2**31, 2**32 - 1, 2**32, 2**32 + 12, 2**32 + 60_000, 2**34, 2**63 - 1)]
        self.assertEqual(doors.answers(given), len(given) * ['1 0 0 0 0 0'])

    def test_a_buffer_that_is_lent(self):
        # "the rest of the buffer is unchanged": here what follows the points in its memory
        routes = [('read_route', len(numbers) + NUMBERS, text) for text, _, numbers in ACCEPTED_TEXTS]
        given = [('far', count, *reading) for count in (2**31, 2**32, 2**32 + 5, 2**61 - 1) for reading in routes]
        self.assertEqual(differing(given, doors.answers(given), modelled(map(plain, given))), [])

    def test_a_buffer_that_is_measured_sized_or_written(self):
        # "17 buffer not a multiple of three"; a multiple of three is judged to its end, which takes more than a test has
        counts = (2**32, 2**32 + 1, 2**32 + 3, 2**61 - 1)
        self.assertEqual(doors.answers([('far', count, 'measure', (0, 0, 1)) for count in counts]), len(counts) * ['17 0 1'])
        self.assertEqual(doors.answers([('far', count, 'target_met', (0, 0, 1), 0) for count in counts]), len(counts) * ['17 0 0 1'])
        self.assertEqual(doors.answers([('far', count, 'route_size', (0, 0, 1), 0, 0, 0) for count in counts]), len(counts) * ['17 0 1'])
        self.assertEqual(doors.answers([('far_points', count) for count in counts]), len(counts) * ['17 0'])

    def test_an_output(self):
        # "nothing before or after them changing": here what follows the text in its memory
        given = [('far', count, *writing) for count in (2**31, 2**32, 2**32 + 5, 2**63 - 1) for writing in FITTING]
        self.assertEqual(differing(given, doors.answers(given), modelled(map(plain, given))), [])


class WrittenAndRead(unittest.TestCase):
    """What was written is read again, and what was read is written back."""

    def written(self, given):
        """The text that each writing has put out, with what it was made from; those that are refused are left out."""
        for (_, numbers, has_target, target, *_, place), line in zip(given, doors.answers(given)):
            refusal, size, _, output = line.split()
            if refusal == '0':
                yield bytes.fromhex(output[1:])[place:place + int(size)], numbers, has_target, target

    def test_points_target_and_length_come_back(self):
        # "Reading what was written gives back points, target and length."
        given = [*(call for call, _ in WRITINGS), *calls.writings(), *calls.random_writings(random.Random(SEED), COUNT)]
        routes = list(self.written(given))
        self.assertGreater(len(routes), 3_000)
        lengths = [line.split()[1] for line in doors.answers([('measure', numbers) for _, numbers, *_ in routes])]
        readings = [('read_route', len(numbers), text) for text, numbers, *_ in routes]
        wanted = [doors.line_of((0, 0, len(numbers) // NUMBERS, int(has_target > 0), length, target if has_target else 0, 1, *numbers))
                  for length, (_, numbers, has_target, target) in zip(lengths, routes)]
        for said in (doors.answers(readings), modelled(readings)):
            self.assertEqual(differing(readings, said, wanted), [])

    def rewritten(self, given):
        """Texts that are read and then written with the mark that they had."""
        readings = [('read_route', calls.room_for(text.count(b'\np\t')), text) for text in given]
        writings = []
        for text, line in zip(given, doors.answers(readings)):
            _, _, points, has_target, _, target, _, *numbers = map(int, line.split())
            comma = int(text.startswith(b'route\tcomma\n'))
            writings.append(('write_route', tuple(numbers), has_target, target, comma, calls.output_for(points), 0))
        return [text for text, *_ in self.written(writings)]

    def test_a_route_in_another_way_is_written_back_one_way(self):
        given, wanted = zip(*OTHER_WAYS)
        self.assertEqual(self.rewritten(given), list(wanted))
        self.assertEqual(self.rewritten(wanted), list(wanted))

    def test_random_routes_are_written_back_one_way(self):
        some = random.Random(SEED)
        given = [b''.join(texts.good_route(some)) for _ in range(COUNT)]
        written = self.rewritten(given)
        self.assertEqual(written, [texts.one_way(text) for text in given])
        self.assertNotEqual(written, given)


class Random(Compared, unittest.TestCase):
    @classmethod
    def setUpClass(cls):
        some = random.Random(SEED)
        cls.given = [*calls.random_calls(some, 80 * COUNT), *calls.random_readings(some, COUNT), *calls.random_measures(some, COUNT),
                     *calls.random_targets(some, COUNT), *calls.random_sizes(some, 2 * COUNT), *calls.random_writings(some, 2 * COUNT)]
        some.shuffle(cls.given)  # so that what is wrong with one door is seen before all the others are through
        cls.said = doors.answers(cls.given)
        given, said = answered_runs(some, COUNT // 4, 40)
        cls.given += given
        cls.said += said
        print(f'{len(cls.given)} random calls; to try the same again: SEED={SEED} TEXTS={COUNT} tests/run')


class Guards(unittest.TestCase):
    # the linker puts this between the driver and the library's doors
    BETWEEN = """
        #include <senruhobi.h>
        senruhobi_reading __real_senruhobi_read_route(const uint8_t *, size_t, int32_t *, size_t);
        senruhobi_reading __wrap_senruhobi_read_route(const uint8_t *text, size_t bytes, int32_t *buffer, size_t numbers)
        {
            %(before_reading)s;
            senruhobi_reading r = __real_senruhobi_read_route(text, bytes, buffer, numbers);
            %(after_reading)s;
            return r;
        }
        senruhobi_written __real_senruhobi_write_route(const int32_t *, size_t, uint32_t, uint64_t, uint32_t, uint8_t *, size_t, size_t);
        senruhobi_written __wrap_senruhobi_write_route(const int32_t *points, size_t numbers, uint32_t has_target, uint64_t target, uint32_t comma,
                                                       uint8_t *out, size_t bytes, size_t place)
        {
            %(before_writing)s;
            senruhobi_written r = __real_senruhobi_write_route(points, numbers, has_target, target, comma, out, bytes, place);
            %(after_writing)s;
            return r;
        }
        senruhobi_written __real_senruhobi_route_size(const int32_t *, size_t, uint32_t, uint64_t, uint32_t);
        senruhobi_written __wrap_senruhobi_route_size(const int32_t *points, size_t numbers, uint32_t has_target, uint64_t target, uint32_t comma)
        {
            %(before_sizing)s;
            senruhobi_written r = __real_senruhobi_route_size(points, numbers, has_target, target, comma);
            %(after_sizing)s;
            return r;
        }
        senruhobi_length __real_senruhobi_measure(const int32_t *, size_t);
        senruhobi_length __wrap_senruhobi_measure(const int32_t *points, size_t numbers)
        {
            %(before_measuring)s;
            senruhobi_length r = __real_senruhobi_measure(points, numbers);
            %(after_measuring)s;
            return r;
        }
        senruhobi_met __real_senruhobi_target_met(const int32_t *, size_t, uint64_t);
        senruhobi_met __wrap_senruhobi_target_met(const int32_t *points, size_t numbers, uint64_t target)
        {
            %(before_asking)s;
            senruhobi_met r = __real_senruhobi_target_met(points, numbers, target);
            %(after_asking)s;
            return r;
        }
    """
    READ = [('read_route', 8, route('point', 'p 0 0', 'p 0 90')), ('read_route', 8, route('point', 'p 0 0')[:-1])]
    MEASURED = [('measure', (0, 0, 1, 0, 900_000_000, 0)), ('measure', (0, 0, 0))]
    ASKED = [('target_met', (0, 0, 1, 0, 900_000_000, 0), 1), ('target_met', (0, 0, 0), 1)]
    SIZED = [('route_size', (0, 0, 1, 0, 900_000_000, 0), 0, 0, 0), ('route_size', (0, 0, 0), 0, 0, 0)]
    WRITTEN = [('write_route', (0, 0, 1, 0, 900_000_000, 0), 0, 0, 0, 40, 7), ('write_route', (0, 0, 0), 0, 0, 0, 40, 7)]

    def answers(self, given, **spoilt):
        """What the doors answer, spoilt in the places named."""
        with tempfile.TemporaryDirectory() as room:
            source = pathlib.Path(room) / 'between.c'
            source.write_text(self.BETWEEN % collections.defaultdict(str, spoilt), encoding='utf-8')
            wrapped = [f'--wrap=senruhobi_{door}' for door in ('read_route', 'measure', 'target_met', 'route_size', 'write_route')]
            return doors.answers(given, doors.linked(source.parent, *wrapped, doors.compiled(source, source.parent)))

    def seen(self, given, **spoilt):
        """How many calls the spoilt doors answer otherwise than they should."""
        return len(differing(given, self.answers(given, **spoilt), modelled(map(plain, given)), most=len(given)))

    def test_doors_that_are_not_spoilt(self):
        given = [*self.READ, *self.MEASURED, *self.ASKED, *self.SIZED, *self.WRITTEN]
        self.assertEqual(self.seen([*given, *(('at', place, *call) for call in given for place in (0, -1))]), 0)

    def test_a_door_that_changes_what_is_not_its_own(self):
        # beside the buffer or the output, at both ends of the driver's memory, in the text, and in what is only measured, sized or written
        for place in ('buffer[-1]', 'buffer[-4096]', 'buffer[numbers]', 'buffer[12287]', '((uint8_t *)text)[bytes - 1]'):
            with self.subTest(place):
                self.assertEqual(self.seen(self.READ, after_reading=f'{place} = 0'), 2)
        for place in ('[-1]', '[-4096]', '[numbers]', '[12287]', '[0]', '[numbers - 1]'):
            with self.subTest(place):
                spoilt = f'((int32_t *)points){place} = 7'
                given = [*self.MEASURED, *self.ASKED, *self.SIZED, *self.WRITTEN]
                self.assertEqual(self.seen(given, after_measuring=spoilt, after_asking=spoilt, after_sizing=spoilt, after_writing=spoilt), 8)
        for place in ('[-1]', '[-4096]', '[bytes]', '[61439]'):
            with self.subTest(place):
                self.assertEqual(self.seen(self.WRITTEN, after_writing=f'out{place} = 7'), 2)

    def test_a_reader_that_changes_the_rest_of_the_buffer(self):
        self.assertEqual(self.seen(self.READ, after_reading='buffer[numbers - 1] = 0'), 2)

    def test_a_writer_that_changes_the_rest_of_the_output(self):
        for place in ('[0]', '[place - 1]', '[place + r.bytes]', '[bytes - 1]'):
            with self.subTest(place):
                self.assertEqual(self.seen(self.WRITTEN, after_writing=f'out{place} = 7'), 2)

    def test_a_reader_that_goes_on_behind_the_text(self):
        self.assertEqual(self.seen(self.READ, before_reading='bytes++'), 2)

    def test_a_door_that_looks_where_it_may_not(self):
        for when, call, begin, behind in (('before_reading', self.READ[0], 'text', 'bytes'), ('before_reading', self.READ[0], 'buffer', 'numbers'),
                                          ('before_measuring', self.MEASURED[0], 'points', 'numbers'),
                                          ('before_asking', self.ASKED[0], 'points', 'numbers'),
                                          ('before_sizing', self.SIZED[0], 'points', 'numbers'),
                                          ('before_writing', self.WRITTEN[0], 'points', 'numbers'),
                                          ('before_writing', self.WRITTEN[0], 'out', 'bytes')):
            for place, what in ((0, f'{begin} - 1'), (-1, f'{begin} + {behind}')):
                with self.subTest(what), self.assertRaisesRegex(RuntimeError, f'{call[0]} in line 1 read or wrote where it may not'):
                    self.answers([('at', place, *call)], **{when: f'(void)*(volatile const uint8_t *)({what})'})

    def test_a_door_that_takes_32_bits_of_a_count(self):
        cut = {'before_reading': 'bytes = (uint32_t)bytes, numbers = (uint32_t)numbers', 'before_measuring': 'numbers = (uint32_t)numbers',
               'before_asking': 'numbers = (uint32_t)numbers', 'before_sizing': 'numbers = (uint32_t)numbers',
               'before_writing': 'numbers = (uint32_t)numbers, bytes = (uint32_t)bytes, place = (uint32_t)place'}
        given = [('far_text', 2**32), *(('far', 2**32 + 5, *call) for call in self.READ), ('far', 2**32 + 3, 'measure', (0, 0, 1)),
                 ('far', 2**32 + 3, 'target_met', (0, 0, 1), 0), ('far', 2**32 + 3, 'route_size', (0, 0, 1), 0, 0, 0), ('far_points', 2**32),
                 ('far', 2**32 + 5, *self.WRITTEN[0]), (*self.WRITTEN[0][:-1], 2**32)]
        self.assertEqual([line.split()[0] for line in self.answers(given)], ['1', '0', '3', '17', '17', '17', '17', '0', '15'])
        self.assertEqual([line.split()[0] for line in self.answers(given, **cut)], ['2', '10', '3', '0', '0', '0', '15', '15', '0'])
        with self.assertRaisesRegex(RuntimeError, 'where it may not'):
            self.answers([('far_text', 2**32 + 12)], **cut)


if __name__ == '__main__':
    unittest.main()
