"""Calls of the doors, each a door's name and its arguments: fixed ones at the limits of every argument, and random ones with more at the
limits than chance would bring."""
import itertools
import math

import model
import texts
from figures import (DOWN, GREATEST, GREATEST_64, HERE, INF, KILOMETRES, LATITUDE, LEAST, LEAST_64, LONGEST, LONGITUDE, NO_LATITUDES,
                     NO_LONGITUDES, NO_TARGETS, NO_THIRDS, PENS, THIRD, X, Y, YES, above, below, changed, laid, north, route, step)
from model import DEGREE, HALF_TURN, NUMBERS, QUARTER, QUARTER_IN_HALVES, STEP, STEP_IN_HALVES, turned

LATITUDES = [LEAST, -QUARTER - 1, -QUARTER, -QUARTER + 1, -600_000_000, -1, 0, 1, STEP, QUARTER - 1, QUARTER, QUARTER + 1, GREATEST]
LONGITUDES = [LEAST, -HALF_TURN - 1, -HALF_TURN, -HALF_TURN + 1, -1, 0, 1, HALF_TURN - 1, HALF_TURN, HALF_TURN + 1, GREATEST]
ENDS_64 = [LEAST_64, LEAST_64 + 1, -2**32, 2**31, 2**32, GREATEST_64]
THIRDS = [0, 1, 2, -1, LEAST, GREATEST]
DIVISORS = [1, 2, 3, 7, 1_000, 999_999, 1_000_000]
BAD_DIVISORS = [0, 1_000_001, 2**31, 2**32 - 1]
TOO_MUCH_ROOM = model.MOST_NUMBERS + NUMBERS
# Legs at the edge of a division: with an m or an H beside its own each would have another length.
EDGE_LEGS = [
    # the product of the cosines is a multiple of 2×10^9; it is 1 below one
    (-717_044_341, 0, -227_982_474, 1_552_084_246), (717_044_341, 0, 227_982_474, 862_127_027),
    (392_767_434, 0, -288_356_515, 1_461_419_109), (-392_767_434, 0, -288_356_515, 1_630_968_279),
    # H is a square, and hardly more was divided than 2×10^9 times as much; it is 1 below one, and hardly less was divided
    (866_833_467, 0, 866_833_467, 281_148_563), (-861_324_888, 0, -861_324_888, 41_285_281), (105_358_330, 0, 105_358_330, 1_784_163_729),
    (-64_169, 0, -64_169, 57_319_680), (8_486, 0, 8_486, 1_799_993_434), (898_816_796, 0, 898_816_796, 26_934_513),
]
MOST_ROOT = 2**32 - 1
# Roots of every length: a digit again and again, zeros or nines behind and between digits, the last ones, and those of half the globe and of 2^63.
SOME_ROOTS = {digit * (10**k // 9) for digit in range(1, 10) for k in range(1, 11)}
SOME_ROOTS |= {first * 10**k + last for first in (1, 4) for k in range(1, 10) for last in (-1, 0, 1, 5, 9)}
SOME_ROOTS |= {MOST_ROOT - off for off in (0, 1, 5, 95, 7_295)} | {2 * 10**9, math.isqrt(2**63)}


# At the limits

def sines():
    """The angles at and beside limits, entries of the table and places where the short sine changes: north, south, and beyond 90 degrees."""
    beside = {k * STEP + off for k in (1, 2, 1499, 1500, 2999, 4499) for off in (-1, 0, 1)}
    ends = {*range(10), *range(QUARTER - 9, QUARTER + 1), *range(QUARTER - 3_285, QUARTER - 3_280)}
    half = {angle for near in beside | ends for angle in (near, HALF_TURN - near)}
    for sine in ('long_sine', 'short_sine'):
        yield from ((sine, angle) for angle in sorted({*LATITUDES, *LONGITUDES, *half, *(-angle for angle in half)}))


def half_sines():
    """The half ticks at and beside limits and entries of the table, and where the length rule's short sine changes."""
    ends = {LEAST, -QUARTER_IN_HALVES - 1, -QUARTER_IN_HALVES, -QUARTER, *range(-9, 10), QUARTER, GREATEST,
            *range(QUARTER_IN_HALVES - 9, QUARTER_IN_HALVES + 10), *range(QUARTER_IN_HALVES - 3_285, QUARTER_IN_HALVES - 3_280)}
    beside = {k * STEP_IN_HALVES + off for k in (-1, 1, 2, 1499, 1500, 2250, 2999, 4499, 4501) for off in range(-3, 4)}
    yield from (('long_sine_half', half_ticks) for half_ticks in sorted(ends | beside))


def sheets():
    for point in itertools.product(LATITUDES, LONGITUDES, LONGITUDES):
        yield ('cylindrical', *point)
        yield ('sinusoidal', *point)


def places():
    """The places of points at the limits, and those beside them."""
    latitudes = list(filter(model.latitude_in_range, LATITUDES))
    heights = [model.long_sine(latitude) + off for latitude in latitudes for off in (-1, 0, 1)]
    for x, y, meridian in itertools.product([*LONGITUDES, *ENDS_64], [*heights, *ENDS_64], LONGITUDES):
        yield 'cylindrical_back', x, y, meridian
    for latitude, meridian in itertools.product(latitudes, LONGITUDES):
        across = [offset * model.short_cosine(latitude) + off for offset in LONGITUDES for off in (-1, 0, 1)]
        yield from (('sinusoidal_back', x, latitude, meridian) for x in [*across, *ENDS_64])
    for x, y, meridian in itertools.product([*LONGITUDES, *ENDS_64], [*LATITUDES, *ENDS_64], LONGITUDES):
        yield 'sinusoidal_back', x, y, meridian


def legs():
    points = list(itertools.product(LATITUDES, LONGITUDES))
    yield from (('leg', *first, *second) for first in points for second in points[::3])
    # nearly opposite points
    for latitude, north, east in itertools.product((0, 1, 455_000_000, QUARTER - 2), range(-3, 4), range(-3, 4)):
        yield 'leg', latitude, -900_000_000, north - latitude, 900_000_000 + east
    for leg in EDGE_LEGS:
        yield ('leg', *leg)
        yield ('leg', *leg[2:], *leg[:2])
    # points beside each other: at the equator, at a pole, over the date line
    for latitude, longitude, north, east in itertools.product((0, 1, 455_000_000, 600_000_000, QUARTER - 1, QUARTER - 4), (0, -HALF_TURN),
                                                              range(-4, 5), range(-4, 5)):
        yield 'leg', latitude, longitude, latitude + north, turned(longitude + east)
        yield 'leg', -latitude, longitude, -latitude + north, turned(longitude + east)
    # the short sine of this leg's half ticks leaves 1,999,999,999, and then 1,999,999,998
    yield from (('leg', 0, 0, 0, HALF_TURN - off) for off in (1, 2, 3, *range(3_280, 3_286), *range(6_563, 6_569)))


def courses():
    points = list(itertools.product(LATITUDES, LONGITUDES))
    yield from (('course', *start, *end) for start in points for end in points[1::3])
    # points beside each other, and nearly opposite ones
    for latitude, north, east in itertools.product((0, 1, 455_000_000, 600_000_000, QUARTER - 1, QUARTER - 4), range(-3, 4), range(-3, 4)):
        for near, far in ((latitude, 0), (-latitude, -HALF_TURN)):
            yield 'course', latitude, 0, near + north, turned(far + east)
            yield 'course', -latitude, -HALF_TURN, -near + north, turned(far + east - HALF_TURN)


def roots():
    """Every number of up to four digits, so that every first digit is followed by every second one, with every rest; the ends of every count of
    digits and of bits; and the numbers about squares, up to the next square.

    Just below squares the digit is not the quotient of the rest and 20 × root. Where a root ends in q, the quotient is q already in the q² numbers
    before its square; where it ends in 0, it is 10 or more in the 100 numbers before. Taken for 9 at the most, it is one too great there, but
    up to three behind a root of 1, and two behind 2 or 3: so a search over all numbers of up to six digits says."""
    ends = {base**k + off for base in (2, 10) for k in range(64) for off in (-1, 0, 1)}
    about = {root**2 + off for root in SOME_ROOTS if root <= MOST_ROOT for off in (*range(-101, 3), 2 * root - 1, 2 * root, 2 * root + 1)}
    numbers = {*range(10_000), *ends, *about, *range(2**64 - 100, 2**64)}
    yield from (('root_steps', number) for number in sorted(numbers) if 0 <= number < 2**64)


def trail(count, reach, lifted=()):
    """A point buffer to and fro about a place on the equator, up to five times so many ticks from it. Every fifth point is the one before it again."""
    turns = (k - 1 if k % 5 == 4 else k for k in range(count))
    return laid([(reach * (k * k % 7 - 3), reach * (5 * k % 11 - 5)) for k in turns], lifted)


def targets():
    """Targets at, below and above the lengths of a buffer's beginnings, and at the limits: 6 points, with the pen up before any of them; 40 points, from
    ticks apart to all over the globe; a leg that takes 32 bits, and one that takes 33; and some of the beginnings of 1,000 points."""
    lifts = itertools.chain(*(itertools.combinations(range(1, 6), count) for count in range(6)))
    buffers = [*(trail(6, 1_000, lifted) for lifted in lifts), north(30 * DEGREE), north(40 * DEGREE), trail(1_000, 23_000, range(3, 1_000, 17)),
               *(trail(40, reach, lifted) for reach in (1, 1_000, 500_000, 1_000_000, 300_000_000) for lifted in ((), range(3, 40, 4)))]
    for numbers in buffers:
        lengths = sorted({*model.lengths_of(model.points_of(numbers))})
        beside = {length + off for length in (*lengths[::1 if len(lengths) < 100 else 100], lengths[-1]) for off in (-1, 0, 1)}
        for target in sorted({*beside, model.MOST_TARGET - 1, model.MOST_TARGET, model.MOST_TARGET + 1, 2**64 - 1} - {-1}):
            yield 'target_met', numbers, target


def steps():
    for latitude, longitude, meridian in itertools.product(LATITUDES, LONGITUDES, LONGITUDES):
        yield step(DOWN, divisor=7, meridian=meridian, point=(latitude, longitude))
    for pen, third, divisor in itertools.product(PENS, THIRDS, [*DIVISORS, *BAD_DIVISORS]):
        yield step(pen, divisor=divisor, third=third)
    # windows with each edge at the point, one double beside it, at a zero, without end and without meaning
    for point, x, y in ((HERE, X, Y), ((0, 0), 0, 0), ((0, -1), -11, 0)):
        across, up = ([-INF, below(at), float(at), above(at), INF, 0.0, -0.0, math.nan] for at in (x, y))
        yield from (step(DOWN, window, point=point) for window in itertools.product(across, across, up, up))


def row(k):
    """The ways back to the first and the last tick of a row of the table: from their places, north and south, and those beside them, and from legs
    that lead from a pole to the equator. The sines of its first and last half ticks, and the ways back to them from legs of as many ticks, along a
    meridian and along the equator."""
    first, last = k * STEP, (k + 1) * STEP - 1
    for latitude in (first, last, -first, -last):
        yield from (('cylindrical_back', -2 * latitude, model.long_sine(latitude) + off, 0) for off in (-1, 0, 1))
    first_half, last_half = k * STEP_IN_HALVES, (k + 1) * STEP_IN_HALVES - 1
    for half_ticks in (first_half, first_half + 1, last_half - 1, last_half):
        yield 'long_sine_half', half_ticks
        yield 'leg', -(half_ticks // 2), 0, (half_ticks + 1) // 2, 0
        yield 'leg', 0, -(half_ticks // 2), 0, (half_ticks + 1) // 2
    for offset in (first, last):
        yield 'course', -QUARTER, 0, 0, offset


def writings():
    """Points and targets at the limits, numbers with every count of digits before and behind the mark, and every room and place about a text."""
    for comma, point in itertools.product((0, 1), itertools.product(LATITUDES, LONGITUDES)):
        yield 'write_route', (*point, 1), 0, 0, comma, output_for(1), 0
    sizes = {digits * 10**k for digits in (1, 9, 11, 99, 101, 1_001, 123_456_789) for k in range(10)}
    for comma, sign, size in itertools.product((0, 1), (1, -1), sorted(sizes)):
        yield 'write_route', (fitting(sign * size), fitting(-sign * size), 1), 0, 0, comma, output_for(1), 0
    for metres in sorted({*range(1_100), *range(0, 10**6, 997)}):
        yield 'write_route', (), 1, model.METRE * metres, metres % 2, output_for(0), 0
    for has_target, target, comma in itertools.product((0, 1, 2**32 - 1), [*KILOMETRES, *NO_TARGETS], (0, 1, 2**32 - 1)):
        yield 'write_route', (), has_target, target, comma, output_for(0), 0
    for thirds in itertools.product((0, 1), repeat=5):
        yield 'write_route', tuple(number for third in thirds for number in (*HERE, third)), 0, 0, 0, output_for(5), 0
    two = (-1, HALF_TURN - 1, 1, 0, 0, 1)
    text = model.route_text(model.points_of(two), 0, comma=1)
    for room, place in itertools.product(range(len(text) + 3), repeat=2):
        yield 'write_route', two, 1, 0, 1, room, place


def number_with(digits, decimals, most):
    """A number with so many digits before the mark and so many decimals, in units of the last decimal that it may have."""
    return 10**(most + digits - 1) + 10**(most - decimals)


def sized(route):
    """The question how long a route's text is, and its writings into as much room and a byte less, or into none and much where it is refused, at the
    output's beginning and behind other bytes."""
    yield ('route_size', *route)
    refusal, need = model.size_door(*route)
    rooms = (0, output_for(len(route[0]) // NUMBERS)) if refusal else (need - 1, need)
    for room, place in itertools.product(rooms, (0, 11)):
        yield ('write_route', *route, place + room, place)


def sizes():
    """Points and targets with every count of digits and decimals, and with a minus or none; the longest points and the shortest, none, few, as many as
    there may be and more; and what refuses a buffer or a target."""
    angles = [sign * number_with(digits, decimals, 7) for digits in (1, 2, 3) for decimals in range(8) for sign in (1, -1)]
    two = laid([LONGEST[:THIRD], (0, 0)], lifted=[1])
    buffers = [*((angle, 0, 1) for angle in angles if model.latitude_in_range(angle)), *((0, angle, 1) for angle in angles),
               *(laid(count * [point], lifted) for count in (0, 1, 2, 999, 1_000, 1_001) for point in (LONGEST[:THIRD], (0, 0))
                 for lifted in ((), range(count))),
               two[:-1], (*two, 0), changed(two, (0, THIRD, 0)), *(changed(two, (1, THIRD, third)) for third in NO_THIRDS),
               *(changed(two, (1, LATITUDE, latitude)) for latitude in NO_LATITUDES),
               *(changed(two, (0, LONGITUDE, longitude)) for longitude in NO_LONGITUDES)]
    others = [(0, 0, 0), (0, NO_TARGETS[-1], 1), (1, 0, 0), (1, model.MOST_TARGET, 1), (1, NO_TARGETS[0], 0), (1, NO_TARGETS[-1], 1)]
    routes = [(numbers, *more) for numbers in buffers for more in others]
    routes += [((), 1, model.METRE * number_with(digits, decimals, 3), comma) for digits in (1, 2, 3) for decimals in range(4) for comma in (0, 1)]
    return (call for route in routes for call in sized(route))


def every_byte():
    """Every value of a byte at every place of a text, between two bytes and instead of one: so at both ends and inside each field and line."""
    for text in (route('point', 't 1.5', 'p -2.5 34', 'g', 'p 4 5'), route('comma', 't 1,5', 'p -2,5 34', 'g', 'p 4 5')):
        for at, over, value in itertools.product(range(len(text) + 1), (0, 1), range(256)):
            yield 'read_route', room_for(2), text[:at] + bytes([value]) + text[at + over:]


def room_for(points):
    """The numbers of so many points, or of one more than a route may have."""
    return min(NUMBERS * points, TOO_MUCH_ROOM)


def output_for(points):
    """The bytes that so many points may need: 22 for line 1 and a target, 29 for a point and the `g` before it."""
    return 22 + 29 * points


def files(folder):
    """The stored routes, into no room, into as much as they need and into more."""
    for path in sorted(folder.glob('*.route')):
        text = path.read_bytes()
        yield from (('read_route', room, text) for room in sorted({0, room_for(text.count(b'\np\t')), TOO_MUCH_ROOM}))


# Random

def small(some):
    """A number of either sign, as likely a short one as a long one."""
    return some.choice([-1, 1]) * some.randrange(10**some.randrange(1, 10))


def fitting(number):
    return max(LEAST, min(number, GREATEST))


def ticks(some, limit):
    """An angle, mostly of at most this size, and often near zero, near the limit, near an entry of the table or with few decimals."""
    if some.random() < 0.04:
        return some.choice([LEAST, LEAST + 1, GREATEST, some.randint(LEAST, GREATEST)])
    tens = 10**some.randrange(1, 9)
    size = some.choice([some.randint(0, limit), some.randint(0, limit), small(some), limit - abs(small(some)), limit + some.randint(-2, 2),
                        STEP * some.randrange(limit // STEP) + some.randint(-1, 1), some.randint(0, limit) // tens * tens])
    return fitting(some.choice([size, -size]))


def point(some):
    return ticks(some, QUARTER), ticks(some, HALF_TURN)


def accepted_point(some):
    while True:
        found = point(some)
        if not model.bad_point(*found):
            return found


def accepted_meridian(some):
    return accepted_point(some)[1]


def random_sine(some):
    return some.choice(['long_sine', 'short_sine']), ticks(some, some.choice([QUARTER, HALF_TURN]))


def random_half_sine(some):
    half_ticks = ticks(some, QUARTER_IN_HALVES)
    return 'long_sine_half', half_ticks if some.random() < 0.1 else fitting(abs(half_ticks))


def random_place(some):
    return (some.choice(['cylindrical', 'sinusoidal']), *point(some), ticks(some, HALF_TURN))


def any_64(some, number):
    """A number at an end of 64 bits, or with the same low 32 bits as another, or any."""
    return some.choice([LEAST_64, LEAST_64 + 1, GREATEST_64, number + 2**32, number - 2**32, 10_000 * small(some),
                        some.randint(LEAST_64, GREATEST_64)])


def random_back(some):
    """The way back from a point's place, or from one that is off by a little or by much."""
    sheet = some.choice(['cylindrical', 'sinusoidal'])
    latitude, longitude = accepted_point(some)
    _, x, y = model.DOORS[sheet](latitude, longitude, accepted_meridian(some))
    between = 1 if sheet == 'cylindrical' else model.short_cosine(latitude)  # from a point to its neighbour
    x = some.choice([x, x, x, x + some.randint(-2, 2), x + between, x - between,
                     some.choice([-HALF_TURN - 1, -HALF_TURN, HALF_TURN - 1, HALF_TURN]) * between, any_64(some, x)])
    y = some.choice([y, y, y, y, y, y + some.randint(-2, 2), -y, any_64(some, y)])
    return sheet + '_back', x, y, ticks(some, HALF_TURN)


def random_leg(some):
    """Two points: near each other, nearly opposite, on one latitude, on one meridian, here or over the pole, or anywhere."""
    latitude, longitude = point(some)
    opposite = longitude - HALF_TURN if longitude >= 0 else longitude + HALF_TURN
    second = some.choice([(latitude + small(some), longitude + small(some)), (-latitude, opposite),
                          (-latitude + small(some), opposite + small(some)), (latitude, ticks(some, HALF_TURN)),
                          (ticks(some, QUARTER), longitude), (ticks(some, QUARTER), opposite), point(some), point(some)])
    return (some.choice(['leg', 'course']), latitude, longitude, *map(fitting, second))


def random_root(some):
    """The steps of a number with any count of digits: any number, one that ends in zeros, or one about a square."""
    number = some.randrange(min(10**some.randint(1, 20), 2**64))
    root, zeros = math.isqrt(number), 10**some.randrange(len(str(number)))
    number = some.choice([number, number, number // zeros * zeros, root**2 + some.randint(-100, 2), root**2 + 2 * root])
    return 'root_steps', max(0, min(number, 2**64 - 1))


def edges(some, at):
    """A lower and an upper edge, often at a number or one double beside it."""
    if some.random() < 0.02:
        return some.choice([(math.nan, INF), (-INF, math.nan)])
    low = some.choice([at, below(at), above(at), -INF, -INF, -0.0, at - abs(small(some))])
    high = some.choice([at, below(at), above(at), INF, INF, 0.0, at + abs(small(some))])
    return (high, low) if low > high and some.random() < 0.9 else (low, high)


def random_divisor(some):
    return some.choice(BAD_DIVISORS) if some.random() < 0.03 else some.choice([*DIVISORS, *(some.randint(1, 1_000_000) for _ in range(3))])


def random_third(some):
    return 0 if some.random() < 0.5 else some.choice(THIRDS)


def random_step(some):
    """A step of the pen with a window of its own."""
    at, meridian = point(some), ticks(some, HALF_TURN)
    good = not (model.bad_meridian(meridian) or model.bad_point(*at))
    x, y = map(float, model.position(*at, meridian) if good else (0, 0))
    return step(some.choice(PENS), edges(some, x) + edges(some, y), random_divisor(some), meridian, at, random_third(some))


def run_of_steps(some, count):
    """So many steps without their pens: points about one window, and now and then a step of another kind, or one that is refused."""
    (latitude, longitude), meridian = accepted_point(some), accepted_meridian(some)
    x, y = map(float, model.position(latitude, longitude, meridian))
    reach = 10**some.randrange(1, 9)
    window = some.choice([(-INF, INF, -INF, INF), (x - reach, x + reach, y - reach, y + reach), (x, INF, -INF, y)])
    divisor = some.choice(DIVISORS)
    for _ in range(count):
        near = (max(-QUARTER, min(latitude + some.randint(-reach, reach) // 8, QUARTER)),
                max(-HALF_TURN, min(longitude + some.randint(-reach, reach) // 8, HALF_TURN - 1)))
        call = step(DOWN, window, divisor, meridian, near, random_third(some)) if some.random() < 0.9 else random_step(some)
        yield call[2:]


def random_calls(some, count):
    """So many calls of the doors that take numbers, which take turns."""
    turns = itertools.cycle([random_sine, random_half_sine, random_place, random_back, random_leg, random_leg, random_root, random_step])
    return [call(some) for call in itertools.islice(turns, count)]


def good_buffer(some, count):
    """The numbers of so many points: each near the one before it or anywhere, on the whole globe or in a part of it; the pen is up before the first
    and before some others."""
    latitude, longitude = accepted_point(some)
    numbers, part = [], some.choice([1, 1, 10**2, 10**some.randrange(8)])
    for k in range(count):
        near = latitude + small(some), longitude + small(some)
        latitude, longitude = accepted_point(some) if model.bad_point(*near) or some.random() < 0.5 else near
        numbers += latitude // part, longitude // part, int(k == 0 or some.random() < 0.3)
    return tuple(numbers)


# Each change spoils a point buffer in its own way; one without points stays as it is.

def another(values):
    """Puts other numbers into the first point, the last one or any: for each part of it that is named, one of the values."""
    def change(some, numbers):
        last = max(0, len(numbers) // NUMBERS - 1)
        at = some.choice([0, last, some.randint(0, last)])
        return changed(numbers, *((at, part, some.choice(values[part])) for part in values)) if len(numbers) >= NUMBERS else numbers
    return change


def another_count(some, numbers):
    return some.choice([(*numbers, 0), (*numbers, 0, 0), numbers[:-1], numbers[:-2], numbers[1:]])


def many_points(some, numbers):
    """As many points as are allowed, or some more."""
    more = some.choice([model.MOST_NUMBERS, TOO_MUCH_ROOM, TOO_MUCH_ROOM + NUMBERS]) - len(numbers)
    return numbers + good_buffer(some, more // NUMBERS)


BUFFER_CHANGES = [lambda some, numbers: numbers, another_count, another({THIRD: NO_THIRDS}), another({THIRD: [0, 1]}), many_points,
                  another({LATITUDE: NO_LATITUDES}), another({LONGITUDE: NO_LONGITUDES}),
                  another({LATITUDE: NO_LATITUDES, LONGITUDE: NO_LONGITUDES})]


def random_buffers(some, count):
    """So many point buffers. The changes take turns, so that each refusal comes up."""
    turns = itertools.cycle(BUFFER_CHANGES)
    for change in itertools.islice(turns, count):
        numbers = change(some, good_buffer(some, some.choice([0, 1, 2, 3, 5, 8])))
        yield numbers if some.random() < 0.5 else some.choice(BUFFER_CHANGES)(some, numbers)


def random_measures(some, count):
    return (('measure', numbers) for numbers in random_buffers(some, count))


def random_flag(some):
    return some.choice([0, 1, some.choice(YES)])


def random_target(some):
    """A whole number of metres that is allowed, often the greatest, or one that is not."""
    return some.choice([model.METRE * some.randrange(10**some.randrange(7)), some.choice([*KILOMETRES]), model.MOST_TARGET,
                        model.MOST_TARGET + model.METRE, some.choice(NO_TARGETS), some.randrange(2**64)])


def better_buffers(some, count):
    """So many point buffers, most of them accepted."""
    for numbers in random_buffers(some, count):
        yield numbers if some.random() < 1 / 3 else good_buffer(some, some.choice([1, 2, 3, 5, 8, 13]))


def random_targets(some, count):
    """Three targets for each of so many point buffers: at the length of a beginning, right beside it, and any."""
    for numbers in better_buffers(some, count):
        length = 0 if model.bad_buffer(numbers) else some.choice(model.lengths_of(model.points_of(numbers)))
        for target in (length, abs(length + some.choice([-1, 1])), random_target(some)):
            yield 'target_met', numbers, target


def random_route(some, numbers):
    """A point buffer with a target, if any, and a mark."""
    return numbers, random_flag(some), random_target(some), random_flag(some)


def random_sizes(some, count):
    return (call for numbers in better_buffers(some, count) for call in sized(random_route(some, numbers)))


def random_writings(some, count):
    """Writings of so many point buffers: the accepted ones into too little room, as much as they need, and too much; and from past the end."""
    for numbers in random_buffers(some, count):
        route, most = random_route(some, numbers), output_for(len(numbers) // NUMBERS)
        refusal, need = model.size_door(*route)
        rooms = {some.choice([0, most])} if refusal else {some.randrange(need), need - 1, need, need + some.randint(1, 9)}
        for room in sorted(rooms):
            place = some.choice([0, some.randrange(99)])
            yield ('write_route', *route, place + room, place)
        yield ('write_route', *route, most, some.choice([most, most + 1, 2**32, 2**64 - 1, some.randrange(most, 2**64)]))


def random_readings(some, count):
    """Readings of so many random texts: the accepted ones into too little room, as much as they need, and too much."""
    for text in texts.random_texts(some, count):
        try:
            need = room_for(len(model.route_of(text)[0]))
            rooms = {*([need - 1, some.randrange(need)] if need else []), need, need + some.randint(1, 9)}
        except model.Refused:
            rooms = {some.choice([0, 1, room_for(text.count(b'p\t')), TOO_MUCH_ROOM])}
        yield from (('read_route', room, text) for room in sorted(rooms))
