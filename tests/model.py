"""The document's rules once more, in plain Python: sines, the two sheets, the length and the course of a leg, whether a target is met, the steps of
a root, the route text, which is read and written, and its report, the pen, and the doors for C over all of these.

Each rule is written from the document's sentence, which stands above it in quotes, and not from the Rattle definitions. So the tests hold
the compiled code to a second reading of the same page. What refuses a point buffer, and how a route is written, is quoted from the first of
the later requests, which angles have a sine from the second, the course from the third, and half ticks from the fourth. The fifth has the
root found "by the school method": its steps are quoted from the page that shows them, docs/SCHOOL_ROOT.md. The sixth asks whether a target is
met, and the seventh how much room a text needs. Nothing here is quick.
"""
import itertools
import math
import re

from sine import ENTRIES

DEGREE = 10_000_000  # "a tick is one ten-millionth of a degree"
QUARTER, HALF_TURN, TURN = 90 * DEGREE, 180 * DEGREE, 360 * DEGREE
STEP = 200_000  # ticks from one entry of the table to the next
QUARTER_IN_HALVES, STEP_IN_HALVES = 2 * QUARTER, 400_000  # the same in half ticks
SHORT_UNIT = 10**9  # the short sine of 90 degrees
LEG_UNIT = 2 * 10**9  # in the length rule alone: "2×10^9 stands for 10^9 in both divisions"
MILLIMETRES = 111_194_927  # in a degree of a great circle

MOST_BYTES = 60_000
MOST_POINTS = 1_000
# "three numbers a point: latitude, longitude, and 1 for the first point and after `g`, else 0"
NUMBERS = len(('latitude', 'longitude', 'third'))
MOST_NUMBERS = NUMBERS * MOST_POINTS
MOST_DIVISOR = 1_000_000
METRE = 1_000  # millimetres
MOST_TARGET = 999_999_000
MOST_PAIRS = 10  # of digits: "Every number of 64 bits has an answer", and 2^64 - 1 has 20 digits


def dropped(number, by):
    """A quotient, "dropping toward zero": west is as east."""
    size = abs(number) // by
    return -size if number < 0 else size


def greatest(low, high, holds):
    """The greatest number from low to high for which something holds that never holds again once it fails; low if there is none."""
    while low < high:
        middle = (low + high + 1) // 2
        if holds(middle):
            low = middle
        else:
            high = middle - 1
    return low


# Angles and sines

def between_entries(angle, step):
    """The long sine of an angle "from 0 to 90 degrees", of whose units so many lead from one entry of the table to the next."""
    # "with k = a / 200,000 and f the remainder"
    k, f = divmod(angle, step)
    # "at 90 degrees the last entry"
    if k == len(ENTRIES) - 1:
        return ENTRIES[k]
    # "entry k plus the floor of f × (entry k+1 - entry k) / 200,000"
    return ENTRIES[k] + f * (ENTRIES[k + 1] - ENTRIES[k]) // step


def long_sine(angle):
    # "A negative angle gives the negative of its opposite."
    if angle < 0:
        return -long_sine(-angle)
    # "beyond 90, the sine of 180 less the angle"
    if angle > QUARTER:
        return long_sine(HALF_TURN - angle)
    return between_entries(angle, STEP)


def long_sine_half(half_ticks):
    # "Long sine is now also given from 0 to 90 degrees in half ticks .., with step 400,000 and the same table."
    return between_entries(half_ticks, STEP_IN_HALVES)


def short_sine(angle):
    # "long sine divided by 10,000, dropping toward zero"
    return dropped(long_sine(angle), 10_000)


def short_cosine(latitude):
    # "the sine, long or short, of 90 degrees less its size"
    return short_sine(QUARTER - abs(latitude))


def latitude_in_range(latitude):
    # "from -900,000,000 to 900,000,000, both allowed"
    return -QUARTER <= latitude <= QUARTER


def longitude_in_range(longitude):
    # "from -1,800,000,000, allowed, up to but not including 1,800,000,000"
    return -HALF_TURN <= longitude < HALF_TURN


def angle_in_range(angle):
    # "Long and short sine now accept -180 to 180 degrees, both allowed"
    return -HALF_TURN <= angle <= HALF_TURN


def half_ticks_in_range(half_ticks):
    # "from 0 to 90 degrees in half ticks (6 outside)"
    return 0 <= half_ticks <= QUARTER_IN_HALVES


# Two sheets

def turned(angle):
    # "plus or minus a full turn where needed so that it lies in the longitude range"
    if angle < -HALF_TURN:
        return angle + TURN
    if angle >= HALF_TURN:
        return angle - TURN
    return angle


def offset_of(longitude, meridian):
    # "longitude minus central meridian"
    return turned(longitude - meridian)


def cylindrical(latitude, longitude, meridian):
    # "x = offset in ticks; y = long sine of the latitude"
    return offset_of(longitude, meridian), long_sine(latitude)


def sinusoidal(latitude, longitude, meridian):
    # "x = offset × short cosine, nothing dropped; y = latitude in ticks"
    return offset_of(longitude, meridian) * short_cosine(latitude), latitude


def only_there(sheet, latitude, longitude, meridian, place):
    """The point, if it is one and goes to the place; otherwise None."""
    # "It answers the point that goes there"
    if latitude_in_range(latitude) and longitude_in_range(longitude) and sheet(latitude, longitude, meridian) == place:
        return latitude, longitude
    return None


def cylindrical_back(x, y, meridian):
    # "Long sine .. is strictly increasing over ticks": no other latitude can go there
    latitude = greatest(-QUARTER, QUARTER, lambda angle: long_sine(angle) <= y)
    return only_there(cylindrical, latitude, turned(x + meridian), meridian, (x, y))


def sinusoidal_back(x, y, meridian):
    if not latitude_in_range(y):
        return None
    # "The short cosine is at least 1 everywhere off the poles." "At a sinusoidal pole the place is x = 0, and the answer is the central
    # meridian's own longitude."
    offset = 0 if abs(y) == QUARTER else x // short_cosine(y)
    return only_there(sinusoidal, y, turned(offset + meridian), meridian, (x, y))


# Length of a leg

def leg_sine(half_ticks):
    # "In the length rule alone, short sines and cosines are the long ones divided by 5,000": none of them is below 0
    return long_sine_half(half_ticks) // 5_000


def leg_cosine(latitude):
    # "the sine, long or short, of 90 degrees less its size"
    return long_sine(QUARTER - abs(latitude)) // 5_000


def half_differences(latitude, longitude, latitude2, longitude2):
    """p and q: "Length uses whole differences as half-tick counts"."""
    # "Let p be half the size of the latitude difference"
    p = abs(latitude - latitude2)
    # "Let q be half of the smaller of d and 3,600,000,000 - d, .. where d is the size of the longitude difference."
    d = abs(longitude - longitude2)
    return p, min(d, TURN - d)


def leg_number(latitude, longitude, latitude2, longitude2):
    """H."""
    p, q = half_differences(latitude, longitude, latitude2, longitude2)
    # "Let m be the product of the two short cosines divided by 10^9, floored."
    m = leg_cosine(latitude) * leg_cosine(latitude2) // LEG_UNIT
    # "H = (short sine of p)² + floor(m × (short sine of q)² / 10^9), the last product exact before the division."
    return leg_sine(p)**2 + m * leg_sine(q)**2 // LEG_UNIT


def greatest_angle(r):
    # "Let u be the greatest angle from 0 to 90 degrees whose short sine is at most r"; "The u is sought in half ticks": the sine never falls
    return greatest(0, QUARTER_IN_HALVES, lambda half_ticks: leg_sine(half_ticks) <= r)


def leg(latitude, longitude, latitude2, longitude2):
    """The millimetres from one point to another."""
    # "Let r be the greatest whole number whose square is at most H."
    r = math.isqrt(leg_number(latitude, longitude, latitude2, longitude2))
    # "the arc is u ticks"; "Its length is arc × 111,194,927 / 10,000,000 millimetres, floored."
    return greatest_angle(r) * MILLIMETRES // DEGREE


def legs_of(points):
    """The two points of each counted leg; "the leg into the next point not counted" where its third number is 1."""
    return [(*a[:2], *b[:2]) for a, b in zip(points, points[1:]) if b[2] == 0]


def length_of(points):
    """The millimetres of a route."""
    return sum(leg(*ends) for ends in legs_of(points))


# Is the target met?

def lengths_of(points):
    """The millimetres of each beginning of a route, from none of its points to all."""
    # a point adds the leg into it, where that is counted; none leads into the first
    added = (length_of(points[max(k - 1, 0):k + 1]) for k in range(len(points)))
    return [*itertools.accumulate(added, initial=0)]


def target_met(points, target):
    """1 or 0 for "yes or no", and "how many points were looked at"."""
    lengths = lengths_of(points)
    # "Yes holds exactly when the full length is at least the target"
    met = int(lengths[-1] >= target)
    # "the number of points is the shortest beginning (none, for target 0) whose length reaches it, or n if none does"
    return met, next((k for k, length in enumerate(lengths) if length >= target), len(points))


# Root, by the school method

def pairs_of(number):
    # "Part the digits of the number into pairs, from the right. The first pair may be a single digit."
    digits = str(number)
    return [int(pair) for pair in re.findall('..', digits.zfill(len(digits) + len(digits) % 2))]


def brought_down(rest, pair):
    # "write its two digits behind the rest"
    return int(f'{rest}{pair:02}')


def taken_away(root, digit):
    # "(20 × root + d) × d"
    return (20 * root + digit) * digit


def digit_of(root, rest):
    # "the greatest digit d, from 0 to 9, with (20 × root + d) × d at most the rest"
    return max(d for d in range(10) if taken_away(root, d) <= rest)


def root_steps(number):
    """The root and its steps, "two decimal digits at a time": each has the pair, the digit and the rest."""
    # "Start with a root of 0 and a rest of 0, take the pairs from the left"
    root, rest, steps = 0, 0, []
    for pair in pairs_of(number):
        rest = brought_down(rest, pair)
        digit = digit_of(root, rest)
        # "Subtract that product from the rest." "Append the digit to the root."
        rest -= taken_away(root, digit)
        root = int(f'{root}{digit}')
        steps.append((pair, digit, rest))
    return root, steps


# Course of a leg

def offset_cosine(offset):
    # "The cosine of an offset is the short sine of 90 degrees less its size."
    return short_sine(QUARTER - abs(offset))


def course_numbers(latitude, longitude, latitude2, longitude2):
    """N and D: "each division drops toward zero"."""
    # "the offset of the end from the start"
    offset = offset_of(longitude2, longitude)
    # "N is short cosine of the end latitude times short sine of the offset .., over 10^9."
    n = dropped(short_cosine(latitude2) * short_sine(offset), SHORT_UNIT)
    # "D is start cosine times end sine over 10^9, less (start sine times end cosine over 10^9) times the offset's short cosine over 10^9"
    d = dropped(short_cosine(latitude) * short_sine(latitude2), SHORT_UNIT)
    d -= dropped(dropped(short_sine(latitude) * short_cosine(latitude2), SHORT_UNIT) * offset_cosine(offset), SHORT_UNIT)
    return n, d


def angle_of_ratio(n, d):
    # "Take the greatest angle a from 0 to 90 degrees with short sine of a times the size of D at most short cosine of a times the size of N."
    # The one never falls and the other never rises.
    return greatest(0, QUARTER, lambda a: short_sine(a) * abs(d) <= short_cosine(a) * abs(n))


def in_quarter(a, n, d):
    # "N and D not negative: a. D alone negative: 180 - a. Both negative: 180 + a. N alone negative: 360 - a, where 360 is 0."
    if n >= 0:
        return a if d >= 0 else HALF_TURN - a
    return HALF_TURN + a if d < 0 else (TURN - a) % TURN


def course(latitude, longitude, latitude2, longitude2):
    """The "starting course, in ticks east of north", or None."""
    n, d = course_numbers(latitude, longitude, latitude2, longitude2)
    # "18 when N and D are both zero"
    return in_quarter(angle_of_ratio(n, d), n, d) if n or d else None


# Route text

class Refused(Exception):
    """A refusal's number and line."""


# "Line 1 is `route`, tab, `point` or `comma`", ended by LF: the mark that it names
HEADERS = {(b'route\tpoint', True): b'.', (b'route\tcomma', True): b','}
OTHER = {b'.': b',', b',': b'.'}
# how many fields follow each kind
FIELDS = {b't': 1, b'p': 2, b'g': 0}


def lines_of(text):
    """Each line and whether LF ends it. What stands after the last LF is a line only if it is not empty."""
    *ended, rest = text.split(b'\n')
    return [(line, True) for line in ended] + ([(rest, False)] if rest else [])


def number_of(field, mark, minus, decimals, line):
    """A number, in units of the last decimal that it may have: "a seventh decimal is a tick, a target's third is a metre"."""
    # "5: a number holds the mark that the header did not name"
    if OTHER[mark] in field:
        raise Refused(5, line)
    # "an optional minus, one to three digits, then nothing or the named mark with one to seven digits"
    said = re.fullmatch(rb'(-?)([0-9]{1,3})(?:%b([0-9]{1,%d}))?' % (re.escape(mark), decimals), field)
    # "A target has no minus"
    if not said or (said[1] and not minus):
        raise Refused(4, line)
    size = int(said[2] + (said[3] or b'').ljust(decimals, b'0'))
    return -size if said[1] else size


def target_of(field, mark, line):
    """The millimetres of a target in kilometres: "no minus and at most three decimals"."""
    return METRE * number_of(field, mark, minus=False, decimals=3, line=line)


def place_of(latitude, longitude, mark, line):
    """A point's latitude and longitude: "the fields from the left, each 5, 4, then 6 or 7"."""
    latitude = number_of(latitude, mark, minus=True, decimals=7, line=line)
    if not latitude_in_range(latitude):
        raise Refused(6, line)
    longitude = number_of(longitude, mark, minus=True, decimals=7, line=line)
    if not longitude_in_range(longitude):
        raise Refused(7, line)
    return latitude, longitude


def route_of(text):
    """A text's points, each with its numbers, and its target's millimetres or None. "1 first; then the first bad line from the top"."""
    if len(text) > MOST_BYTES:
        raise Refused(1, 0)
    lines = lines_of(text)
    # "line 1 missing, without LF or other than the two headers"
    if not lines or lines[0] not in HEADERS:
        raise Refused(2, 1)
    mark = HEADERS[lines[0]]
    points, target, before = [], None, b'route'
    for line, (words, ended) in enumerate(lines[1:], start=2):
        kind, *fields = words.split(b'\t')
        # "in a line 3 (2 for line 1), 8, 9, then the fields": "an unknown kind, the wrong number of fields, or no LF"
        if FIELDS.get(kind) != len(fields) or not ended:
            raise Refused(3, line)
        # "`t`: only as line 2, at most once"; "`g` is judged by the line before it, which must be a `p` line"
        if (kind == b't' and line != 2) or (kind == b'g' and before != b'p'):
            raise Refused(8, line)
        # "the 1,001st `p` line"
        if kind == b'p' and len(points) == MOST_POINTS:
            raise Refused(9, line)
        if kind == b't':
            target = target_of(*fields, mark, line)
        if kind == b'p':
            # "latitude, longitude, and 1 for the first point and after `g`, else 0"
            points.append((*place_of(*fields, mark, line), 0 if before == b'p' else 1))
        before = kind
    # "A `g` that ends the text is refused after all lines": it "names its own line"
    if before == b'g':
        raise Refused(8, len(lines))
    return points, target


def read(text, buffer):
    """The reader: (refusal, line, points, has_target, length, target), where refusal 0 is none, and the points in the lent buffer."""
    try:
        points, target = route_of(text)
        # "then 10": "buffer shorter than 3n (line 0)"
        if len(buffer) < NUMBERS * len(points):
            raise Refused(10, 0)
    except Refused as refused:
        # "A refusal gives zero in every value beside its number (and line) and writes to no lent buffer"
        return (*refused.args, 0, 0, 0, 0)
    # "it writes three numbers a point"; "the rest of the buffer is unchanged"
    buffer[:NUMBERS * len(points)] = [number for point in points for number in point]
    # "its millimetres (0 if none), and line 0"
    return 0, 0, len(points), int(target is not None), length_of(points), target or 0


def report(text):
    """What the program `routereport` prints. It has room for every route."""
    refusal, line, points, has_target, length, target = read(text, [0] * MOST_NUMBERS)
    if refusal:
        return b'refused\t%d\t%d\n' % (refusal, line)
    return b'points\t%d\nlength\t%d\ntarget\t%b\n' % (points, length, b'%d' % target if has_target else b'none')


def course_list(text):
    """What the program `courselist` prints. It has room for every route too."""
    try:
        points, _ = route_of(text)
    except Refused:
        # "input and refusal as `routereport`"
        return report(text)
    # "prints a line for each counted leg: course (or `none` for 18), tab, length"
    courses = ((course(*ends), leg(*ends)) for ends in legs_of(points))
    return b''.join(b'%b\t%d\n' % (b'none' if ticks is None else b'%d' % ticks, length) for ticks, length in courses)


# A route written back

def number_text(number, mark, decimals):
    """The text of a number in units of its last decimal: "Each number is written one way"."""
    # "no leading zeros but a lone 0": as many digits as there are, and at least one before the decimals
    digits = str(abs(number)).zfill(decimals + 1)
    # "no decimals that end in zero", "no bare mark"
    fraction = digits[-decimals:].rstrip('0')
    # "no minus on zero"
    return ('-' if number < 0 else '') + digits[:-decimals] + (mark + fraction if fraction else '')


def route_text(points, target, comma):
    """The text of a route, "from the point buffer, an optional unsigned target in millimetres and a mark"."""
    # "Line 1 is `route`, tab, `point` or `comma`"
    name, mark = ('comma', ',') if comma else ('point', '.')
    lines = [('route', name)]
    # "`t`, tab, target in kilometres: only as line 2"; "a target's third is a metre"
    if target is not None:
        lines.append(('t', number_text(target // METRE, mark, decimals=3)))
    for k, (latitude, longitude, third) in enumerate(points):
        # "A `g` line precedes every point after the first whose third number is 1."
        if k > 0 and third == 1:
            lines.append(('g',))
        # "a seventh decimal is a tick"
        lines.append(('p', number_text(latitude, mark, decimals=7), number_text(longitude, mark, decimals=7)))
    # "lines ended by LF, fields parted by tabs"
    return ''.join('\t'.join(fields) + '\n' for fields in lines).encode()


# The pen

OUTSIDE, MOVE, LINE = 0, 1, 2
UP, DOWN = 0, 1


def position(latitude, longitude, meridian):
    """A point's X and Y, in millimetres on the sinusoidal sheet."""
    x, y = sinusoidal(latitude, longitude, meridian)
    # "X is x / 10^9 dropping toward zero, then × 111,194,927 / 10,000,000 dropping toward zero"
    # "Y is latitude × 111,194,927 / 10,000,000 likewise"
    return dropped(dropped(x, SHORT_UNIT) * MILLIMETRES, DEGREE), dropped(y * MILLIMETRES, DEGREE)


def inside(x, y, left, right, bottom, top):
    # "X lies from left to right and Y from bottom to top, edges counted in, with X and Y as floats before the division"
    return left <= float(x) <= right and bottom <= float(y) <= top


def stroke_of(pen, third):
    # "Line if the pen was down and the point's third number is 0, otherwise Move (any other third number counts as 1)"
    return LINE if pen != UP and third == 0 else MOVE


def drawn(pen, window, divisor, meridian, latitude, longitude, third):
    """A step that is not refused: its stroke, two floats and the next pen."""
    x, y = position(latitude, longitude, meridian)
    if not inside(x, y, *window):
        # "Outside: the pen is up next."
        return OUTSIDE, 0.0, 0.0, UP
    # "each as a float, divided once by the divisor as a float"; "the pen is down next"
    return stroke_of(pen, third), float(x) / float(divisor), float(y) / float(divisor), DOWN


# The doors for C: each answers the fields of its struct in senruhobi.h. "A refusal gives zero in every value beside its number (and line)".

def bad_point(latitude, longitude):
    # "6: latitude out of range", "7: longitude out of range"; 0 is none
    if not latitude_in_range(latitude):
        return 6
    return 0 if longitude_in_range(longitude) else 7


def bad_meridian(meridian):
    # "Longitude and central meridian run from .."; "14: central meridian out of range"
    return 0 if longitude_in_range(meridian) else 14


def bad_window(left, right, bottom, top):
    # "12: an edge is NaN, left is not below right, or bottom is not below top"
    if any(math.isnan(edge) for edge in (left, right, bottom, top)) or not left < right or not bottom < top:
        return 12
    return 0


def bad_divisor(divisor):
    # "13: divisor outside 1 to 1,000,000"
    return 0 if 1 <= divisor <= MOST_DIVISOR else 13


def sine_door(sine, angle):
    # "6 for a sine only beyond 180 degrees"
    return (0, sine(angle)) if angle_in_range(angle) else (6, 0)


def half_door(half_ticks):
    # "6 outside"
    return (0, long_sine_half(half_ticks)) if half_ticks_in_range(half_ticks) else (6, 0)


def sheet_door(sheet, latitude, longitude, meridian):
    # "Sheets: 14, 6, 7."
    refusal = bad_meridian(meridian) or bad_point(latitude, longitude)
    return (refusal, 0, 0) if refusal else (0, *sheet(latitude, longitude, meridian))


def back_door(back, x, y, meridian):
    # "Back: 14, 11."
    if bad_meridian(meridian):
        return 14, 0, 0
    point = back(x, y, meridian)
    # "11: no accepted point has this place"
    return (0, *point) if point else (11, 0, 0)


def leg_door(latitude, longitude, latitude2, longitude2):
    # "Length: 6 and 7 of the first point, then of the second."
    refusal = bad_point(latitude, longitude) or bad_point(latitude2, longitude2)
    return (refusal, 0) if refusal else (0, leg(latitude, longitude, latitude2, longitude2))


def course_door(latitude, longitude, latitude2, longitude2):
    # "18 .., after 6 and 7 of start, then end"
    refusal = bad_point(latitude, longitude) or bad_point(latitude2, longitude2)
    if refusal:
        return refusal, 0
    ticks = course(latitude, longitude, latitude2, longitude2)
    return (18, 0) if ticks is None else (0, ticks)


def root_door(number):
    """The root, the number of steps, and the steps. "Nothing is refused", so no refusal is among the fields."""
    root, steps = root_steps(number)
    # "behind the last step there are zeros"
    behind = (MOST_PAIRS - len(steps)) * [(0, 0, 0)]
    return (root, len(steps), *(value for step in steps + behind for value in step))


def bad_thirds(numbers):
    # "17 buffer not a multiple of three, a third number other than 0 or 1, or a first one of 0": over all of it
    thirds = numbers[2::NUMBERS]
    return 17 if len(numbers) % NUMBERS or not set(thirds) <= {0, 1} or 0 in thirds[:1] else 0


def bad_count(numbers):
    # "at most 1,000 such lines"; "9: the 1,001st `p` line"
    return 9 if len(numbers) > MOST_NUMBERS else 0


def points_of(numbers):
    # "three numbers a point"
    return [numbers[at:at + NUMBERS] for at in range(0, len(numbers), NUMBERS)]


def bad_points(points):
    # "6 and 7 by point": the first bad point decides
    return next(filter(None, (bad_point(latitude, longitude) for latitude, longitude, _ in points)), 0)


def bad_buffer(numbers):
    # "order 17, 9, 6 and 7 by point"
    return bad_thirds(numbers) or bad_count(numbers) or bad_points(points_of(numbers))


def measure_door(numbers):
    refusal = bad_buffer(numbers)
    return (refusal, 0) if refusal else (0, length_of(points_of(numbers)))


def too_great(target):
    # "16 only for a target above 999,999,000"
    return 16 if target > MOST_TARGET else 0


def met_door(numbers, target):
    # "R-1's for the buffer, all found before any leg is measured, then 16"
    refusal = bad_buffer(numbers) or too_great(target)
    return (refusal, 0, 0) if refusal else (0, *target_met(points_of(numbers), target))


def bad_target(target):
    # "16 target not a whole number of metres or above 999,999,000 mm"
    return 16 if target is not None and (target % METRE != 0 or target > MOST_TARGET) else 0


def text_of(numbers, has_target, target, comma):
    """What refuses a route's text, 0 where nothing does, and the text."""
    target = target if has_target else None
    # "order 17, 9, 6 and 7 by point, 16"
    refusal = bad_buffer(numbers) or bad_target(target)
    return refusal, b'' if refusal else route_text(points_of(numbers), target, comma)


def size_door(numbers, has_target, target, comma):
    # "give the exact length without writing, with R-1's refusals but 15"
    refusal, text = text_of(numbers, has_target, target, comma)
    return refusal, len(text)


def bad_room(text, output, place):
    # "15 the output from that place on is too short (a place past its end leaves none)"
    return 15 if len(text) > max(len(output) - place, 0) else 0


def write_door(numbers, has_target, target, comma, output, place):
    """The writer: (refusal, bytes), and the text in the lent output."""
    refusal, text = text_of(numbers, has_target, target, comma)
    # "order .. 16, 15"
    refusal = refusal or bad_room(text, output, place)
    if refusal:
        return refusal, 0
    # "The bytes go into the lent output from a given place onward, nothing before or after them changing; the answer is their number."
    output[place:place + len(text)] = text
    return 0, len(text)


def pen_door(pen, left, right, bottom, top, divisor, meridian, latitude, longitude, third):
    # "Pen step: 12, 13, 14, 6, 7."
    refusal = bad_window(left, right, bottom, top) or bad_divisor(divisor) or bad_meridian(meridian) or bad_point(latitude, longitude)
    if refusal:
        # "the pen step hands back the pen it got"
        return refusal, 0, 0.0, 0.0, pen
    return (0, *drawn(pen, (left, right, bottom, top), divisor, meridian, latitude, longitude, third))


DOORS = {
    'long_sine': lambda angle: sine_door(long_sine, angle),
    'short_sine': lambda angle: sine_door(short_sine, angle),
    'long_sine_half': half_door,
    'cylindrical': lambda *point: sheet_door(cylindrical, *point),
    'sinusoidal': lambda *point: sheet_door(sinusoidal, *point),
    'cylindrical_back': lambda *place: back_door(cylindrical_back, *place),
    'sinusoidal_back': lambda *place: back_door(sinusoidal_back, *place),
    'leg': leg_door,
    'course': course_door,
    'root_steps': root_door,
    'measure': measure_door,
    'target_met': met_door,
    'read_route': read,
    'route_size': size_door,
    'write_route': write_door,
    'pen_step': pen_door,
}
