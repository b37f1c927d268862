#!/usr/bin/env python3
"""How far the document's length of a leg and the course at which it starts lie from those of the true great circle on its sphere, over random legs
of several lengths, and what the legs of trails in short steps add up to: prints the tables of docs/ACCURACY.md.

The rules are the model's of tests/, to which the tests hold the compiled code. The truth is that of the same points, in whole ticks, worked
out to more than 50 digits by the form with the arc tangent of two arguments, which loses nothing at any length.
"""
import math
import pathlib
import random
import sys
from decimal import Decimal, getcontext

sys.dont_write_bytecode = True
sys.path.insert(0, str(pathlib.Path(__file__).resolve().parent.parent / 'tests'))
import model
from sine import PI, SCALE

SEED = 1395
LEGS = 2_000  # of each length
RADIUS = 6_371_000  # metres
TICKS = [1, 2, 10]
METRES = [1, 10, 100, 1_000, 10_000, 100_000, 1_000_000, 5_000_000, 15_000_000]
HIGHEST = math.sin(math.radians(85))  # near a pole the rule is another story: its cosines have few digits there
NEAR = 10_000  # metres from a pole, or from the antipode
TRAIL_LATITUDE = 46 * model.DEGREE
STRIDES = [3, 10, 100, 1_000]  # the most ticks of a trail's random step, north or south and east or west

getcontext().prec = 60
TICK = Decimal(PI) / SCALE / model.HALF_TURN  # in radians


def sine_and_cosine(x):
    """Of an angle in radians, at most half a turn either way, by their series."""
    sums, term, n = [Decimal(0), Decimal(1)], Decimal(1), 0
    while abs(term) > Decimal('1e-62'):
        n += 1
        term *= x / n
        sums[(n + 1) % 2] += term if n % 4 < 2 else -term
    return sums


def angle(sine, cosine):
    """In radians, from its sine and cosine. The float's answer is off by an angle whose sine they give, so small that two terms are enough."""
    near = Decimal(math.atan2(sine, cosine))
    s, c = sine_and_cosine(near)
    off = sine * c - cosine * s
    return near + off + off**3 / 6


def true_leg(latitude, longitude, latitude2, longitude2):
    """The millimetres of the great circle between two points in ticks, and the ticks of its course at the first, from -180 to 180 degrees."""
    s1, c1 = sine_and_cosine(latitude * TICK)
    s2, c2 = sine_and_cosine(latitude2 * TICK)
    s, c = sine_and_cosine((longitude2 - longitude + model.HALF_TURN) % model.TURN * TICK - model.HALF_TURN * TICK)
    east, north, onward = c2 * s, c1 * s2 - s1 * c2 * c, s1 * s2 + c1 * c2 * c
    across = (east**2 + north**2).sqrt()
    return angle(across, onward) * RADIUS * 1000, angle(east / across, north / across) / TICK


def some_latitude():
    """In radians; no part of the globe below 85 degrees is likelier than another."""
    return math.asin(random.uniform(-HIGHEST, HIGHEST))


def polar_latitude():
    return math.pi / 2 - random.uniform(0, NEAR) / RADIUS


def some_leg(latitude, metres):
    """A leg of this length, in ticks, from anywhere at a latitude and in any direction."""
    longitude, course, arc = random.uniform(-math.pi, math.pi), random.uniform(-math.pi, math.pi), metres / RADIUS
    sine = math.sin(latitude) * math.cos(arc) + math.cos(latitude) * math.sin(arc) * math.cos(course)
    latitude2 = math.asin(max(-1, min(sine, 1)))
    longitude2 = longitude + math.atan2(math.sin(course) * math.sin(arc) * math.cos(latitude), math.cos(arc) - math.sin(latitude) * sine)
    return ticks(latitude), longitude_ticks(longitude), ticks(latitude2), longitude_ticks(longitude2)


def tick_leg(latitude, count):
    """A leg so many ticks north, east, south or west."""
    (north, east), longitude = random.choice([(1, 0), (0, 1), (-1, 0), (0, -1)]), longitude_ticks(random.uniform(-math.pi, math.pi))
    return ticks(latitude), longitude, ticks(latitude) + count * north, model.turned(longitude + count * east)


def trail(latitude, steps):
    """The legs of a trail whose steps are in ticks north and east."""
    legs, longitude = [], 0
    for north, east in steps:
        legs.append((latitude, longitude, latitude + north, longitude + east))
        latitude, longitude = legs[-1][2:]
    return legs


def either_way(most):
    return random.choice([1, -1]) * random.randint(1, most)


def ticks(radians):
    return round(math.degrees(radians) * model.DEGREE)


def longitude_ticks(radians):
    return (ticks(radians) + model.HALF_TURN) % model.TURN - model.HALF_TURN


def length_row(legs, truths):
    """The largest and the mean size of the difference, and the largest beside the leg's own length."""
    sizes = [abs(model.leg(*leg) - length) for leg, (length, _) in zip(legs, truths)]
    relative = max(size / length for size, (length, _) in zip(sizes, truths))
    return f'{max(sizes):,.1f} | {sum(sizes) / len(sizes):,.1f} | {relative:.1e}'


def course_row(legs, truths):
    """The largest and the mean size of the difference, the shorter way round, and how many have no course."""
    courses = [model.course(*leg) for leg in legs]
    sizes = [abs((course - true + model.HALF_TURN) % model.TURN - model.HALF_TURN) / model.DEGREE
             for course, (_, true) in zip(courses, truths) if course is not None]
    return f'{max(sizes):.7f} | {sum(sizes) / len(sizes):.7f} | {courses.count(None)}'


def trail_row(legs, truths):
    """The true length, the sum of the answers, and what part of the one the other is."""
    true, answered = sum(length for length, _ in truths), sum(model.leg(*leg) for leg in legs)
    return f'{true:,.1f} | {answered:,} | {100 * answered / true:.1f} %'


def about(metres):
    return metres * random.uniform(0.9, 1.1)


def ticks_said(count):
    return '1 tick' if count == 1 else f'{count} ticks'


def some_legs():
    """Of each length from a metre on, with its name."""
    for metres in METRES:
        name = f'{metres} m' if metres < 1000 else f'{metres // 1000:,} km'
        yield name, [some_leg(some_latitude(), about(metres)) for _ in range(LEGS)]
    yield '1 km, near a pole', [some_leg(polar_latitude(), about(1000)) for _ in range(LEGS)]
    yield 'nearly to the antipode', [some_leg(some_latitude(), math.pi * RADIUS - random.uniform(0, NEAR)) for _ in range(LEGS)]


def short_legs():
    for count in TICKS:
        yield ticks_said(count), [tick_leg(some_latitude(), count) for _ in range(LEGS)]


def some_trails():
    """By what leads from each point to the next."""
    steps = model.MOST_POINTS - 1
    yield '1 tick north', trail(TRAIL_LATITUDE, steps * [(1, 0)])
    yield '1 tick east, on the equator', trail(0, steps * [(0, 1)])
    for count in TICKS:
        yield f'{ticks_said(count)} east', trail(TRAIL_LATITUDE, steps * [(0, count)])
    for most in STRIDES:
        some_steps = [(either_way(most), either_way(most)) for _ in range(steps)]
        yield f'1 to {most:,} ticks north or south and 1 to {most:,} east or west', trail(TRAIL_LATITUDE, some_steps)


def with_truths(named):
    return [(name, legs, [true_leg(*leg) for leg in legs]) for name, legs in named]


def print_table(head, rows, row):
    print(f'\n| {head} |')
    print('|---|---|---|---|')
    for name, legs, truths in rows:
        print(f'| {name} | {row(legs, truths)} |')


random.seed(SEED)
longer, short, trails = with_truths(some_legs()), with_truths(short_legs()), with_truths(some_trails())
print(f'Seed {SEED}, {LEGS:,} legs a line:')
print_table('a leg of about | largest difference, mm | mean, mm | largest, relative', short + longer, length_row)
# below a metre courses are rough: one line says so
print_table('a leg of about | largest difference, degrees | mean, degrees | without a course', longer + short[:1], course_row)
print(f'\nTrails of {model.MOST_POINTS:,} points at {TRAIL_LATITUDE // model.DEGREE}° N, and one on the equator:')
print_table('from each point to the next | true length, mm | sum of the legs, mm | of the true length', trails, trail_row)
