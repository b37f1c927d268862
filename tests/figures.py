"""What the documents say of the doors, written by hand: calls, each a door's name and its arguments, and their answers."""
import itertools
import math
import struct
import sys

import doors
from model import MOST_NUMBERS, NUMBERS

LEAST, GREATEST = -2**31, 2**31 - 1
LEAST_64, GREATEST_64 = -2**63, 2**63 - 1
NO_LATITUDES, NO_LONGITUDES = [900_000_001, -900_000_001, LEAST, GREATEST], [1_800_000_000, -1_800_000_001, LEAST, GREATEST]
INF = math.inf
LARGEST = sys.float_info.max
NANS = [math.nan, -math.nan, *struct.unpack('>d', bytes.fromhex('7ff0000000000001'))]  # the last one signals
UP, DOWN = 0, 1
# every number but 0 says yes, whatever its low 8, 16 or 31 bits are: down, that there is a target, the comma
YES = [1, 2, 255, 256, 257, 2**15, 2**16, 2**16 + 1, 2**31 - 1, 2**31, 2**32 - 256, 2**32 - 1]
PENS = [UP, *YES]

SINES = {
    # "entry 0 is 0, entry 1 is 3,490,658,433, entry 1500 is 5×10^12, entry 4500 is 10^13"
    ('long_sine', 0): (0, 0), ('long_sine', 200_000): (0, 3_490_658_433), ('long_sine', 300_000_000): (0, 5 * 10**12),
    ('long_sine', 900_000_000): (0, 10**13), ('short_sine', 300_000_000): (0, 5 * 10**8), ('short_sine', 900_000_000): (0, 10**9),
    # "long sine of 1 tick is 17,453; short sine 1"; "A negative angle gives the negative of its opposite."
    ('long_sine', 1): (0, 17_453), ('short_sine', 1): (0, 1), ('long_sine', -1): (0, -17_453), ('short_sine', -1): (0, -1),
    ('long_sine', -300_000_000): (0, -5 * 10**12), ('long_sine', -900_000_000): (0, -10**13), ('short_sine', -900_000_000): (0, -10**9),
    # the 3,282 ticks below 90 degrees share a short sine
    ('short_sine', 899_999_999): (0, 999_999_999), ('short_sine', 900_000_000 - 3_282): (0, 999_999_999),
    ('short_sine', 900_000_000 - 3_283): (0, 999_999_998),
    # "beyond 90, the sine of 180 less the angle; odd as before"
    ('long_sine', 1_500_000_000): (0, 5 * 10**12), ('short_sine', 1_500_000_000): (0, 5 * 10**8), ('long_sine', -1_500_000_000): (0, -5 * 10**12),
    ('long_sine', 1_799_800_000): (0, 3_490_658_433), ('long_sine', 1_799_999_999): (0, 17_453), ('short_sine', 1_799_999_999): (0, 1),
    ('long_sine', -1_799_999_999): (0, -17_453), ('short_sine', -1_799_999_999): (0, -1),
    # "-180 to 180 degrees, both allowed"; "6 for a sine only beyond 180 degrees"
    **{(sine, angle): (0, 0) for sine in ('long_sine', 'short_sine') for angle in (-1_800_000_000, 1_800_000_000)},
    **{(sine, angle): (6, 0) for sine in ('long_sine', 'short_sine') for angle in (LEAST, -1_800_000_001, 1_800_000_001, GREATEST)},
    # the 3,282 ticks beyond 90 degrees share the short sine of those below
    **{('short_sine', sign * (900_000_000 + off)): (0, sign * 999_999_999) for sign in (1, -1) for off in (1, 3_282)},
    ('short_sine', 900_000_000 + 3_283): (0, 999_999_998), ('short_sine', -900_000_000 - 3_283): (0, -999_999_998),
}
HALF_SINES = {
    # "with step 400,000 and the same table": 3,490,658,433 / 400,000 is 8,726.6..
    ('long_sine_half', 1): (0, 8_726), ('long_sine_half', 3): (0, 26_179), ('long_sine_half', 399_999): (0, 3_490_649_706),
    # in the last step it grows by 609,235, which is 1.5.. a half tick
    ('long_sine_half', 1_799_600_000): (0, 10**13 - 609_235), ('long_sine_half', 1_799_600_001): (0, 10**13 - 609_234),
    ('long_sine_half', 1_799_999_999): (0, 10**13 - 2),
    # half as many ticks have the same sine, and so the entries stand at every 400,000 half ticks
    **{('long_sine_half', 2 * angle): answer for (sine, angle), answer in SINES.items() if sine == 'long_sine' and 0 <= angle <= 900_000_000},
    # "from 0 to 90 degrees in half ticks (6 outside)"
    **{('long_sine_half', half_ticks): (6, 0) for half_ticks in (LEAST, -1_800_000_000, -600_000_000, -2, -1, 1_800_000_001, GREATEST)},
}
SHEETS = {
    ('cylindrical', 300_000_000, 100_000_000, 0): (0, 100_000_000, 5 * 10**12),
    ('sinusoidal', 600_000_000, 100_000_000, 0): (0, 5 * 10**16, 600_000_000),
    # longitude less meridian does not fit 32 bits
    ('cylindrical', 0, 1_799_999_999, -1_800_000_000): (0, -1, 0), ('sinusoidal', 0, 1_799_999_999, -1_800_000_000): (0, -10**9, 0),
    ('cylindrical', 0, 0, -1_800_000_000): (0, -1_800_000_000, 0), ('sinusoidal', 0, 0, -1_800_000_000): (0, -18 * 10**17, 0),
    ('cylindrical', 0, -1_800_000_000, 1_799_999_999): (0, 1, 0), ('cylindrical', 0, -1_800_000_000, 1): (0, 1_799_999_999, 0),
    # the short cosine 0 to 5 ticks from a pole
    **{('sinusoidal', 900_000_000 - k, 1, 0): (0, cosine, 900_000_000 - k) for k, cosine in enumerate([0, 1, 3, 5, 6, 8])},
    **{('sinusoidal', k - 900_000_000, -1, 0): (0, -cosine, k - 900_000_000) for k, cosine in enumerate([0, 1, 3, 5, 6, 8])},
    # "Longitude 180: 7; -180: accepted. Latitude 90: accepted; 90.0000001: 6."
    ('cylindrical', 0, 1_800_000_000, 0): (7, 0, 0), ('cylindrical', 0, -1_800_000_000, 0): (0, -1_800_000_000, 0),
    ('cylindrical', 900_000_000, 0, 0): (0, 0, 10**13), ('cylindrical', 900_000_001, 0, 0): (6, 0, 0),
    ('sinusoidal', 0, 1_800_000_000, 0): (7, 0, 0), ('sinusoidal', 0, -1_800_000_000, 0): (0, -18 * 10**17, 0),
    ('sinusoidal', 900_000_000, 0, 0): (0, 0, 900_000_000), ('sinusoidal', 900_000_001, 0, 0): (6, 0, 0),
    ('cylindrical', 0, 0, 1_800_000_000): (14, 0, 0), ('sinusoidal', 0, 0, 1_800_000_000): (14, 0, 0),
}
BACK = {
    ('cylindrical_back', 0, 17_453, 0): (0, 1, 0), ('cylindrical_back', 0, 17_454, 0): (11, 0, 0),
    ('cylindrical_back', 0, -17_453, 0): (0, -1, 0), ('cylindrical_back', 0, -17_454, 0): (11, 0, 0),
    ('cylindrical_back', 100_000_000, 5 * 10**12, 0): (0, 300_000_000, 100_000_000),
    ('sinusoidal_back', 5 * 10**16, 600_000_000, 0): (0, 600_000_000, 100_000_000),
    ('sinusoidal_back', 5 * 10**16 + 1, 600_000_000, 0): (11, 0, 0),
    # "At a sinusoidal pole the place is x = 0, and the answer is the central meridian's own longitude."
    ('sinusoidal_back', 0, 900_000_000, 50_000_000): (0, 900_000_000, 50_000_000),
    ('sinusoidal_back', 0, -900_000_000, -1_800_000_000): (0, -900_000_000, -1_800_000_000),
    ('sinusoidal_back', 1, 900_000_000, 50_000_000): (11, 0, 0), ('sinusoidal_back', -1, -900_000_000, 0): (11, 0, 0),
    # the cylindrical sheet keeps the longitudes of a pole apart
    ('cylindrical_back', 1, 10**13, 50_000_000): (0, 900_000_000, 50_000_001), ('cylindrical_back', 0, 10**13 + 1, 0): (11, 0, 0),
    # an offset of 180 degrees is out of range, one of -180 is not
    ('cylindrical_back', 1_800_000_000, 0, 0): (11, 0, 0), ('cylindrical_back', -1_800_000_000, 0, 0): (0, 0, -1_800_000_000),
    ('sinusoidal_back', 18 * 10**17, 0, 0): (11, 0, 0), ('sinusoidal_back', -18 * 10**17, 0, 0): (0, 0, -1_800_000_000),
    ('cylindrical_back', 1_800_000_000, 0, -1_800_000_000): (11, 0, 0), ('sinusoidal_back', 18 * 10**17, 0, -1): (11, 0, 0),
    ('cylindrical_back', -1, 0, -1_800_000_000): (0, 0, 1_799_999_999),
    ('sinusoidal_back', -10**9, 0, -1_800_000_000): (0, 0, 1_799_999_999),
    # "The way back takes any two signed 64-bit numbers." The low 32 bits of 2^32 alone would be a place.
    **{(back, x, y, meridian): (11, 0, 0) for back in ('cylindrical_back', 'sinusoidal_back')
       for x in (LEAST_64, -2**32, 0, 2**32, GREATEST_64) for y in (LEAST_64, 900_000_000 - 2**32, GREATEST_64)
       for meridian in (-1_800_000_000, 0, 1_799_999_999)},
    **{(back, x, 0, 0): (11, 0, 0) for back in ('cylindrical_back', 'sinusoidal_back') for x in (LEAST_64, -2**32, 2**32, GREATEST_64)},
    ('sinusoidal_back', 0, 2**32, 0): (11, 0, 0),
}
# In the length rule the short sines of 0 to 6 half ticks are 0, 1, 3, 5, 6, 8, 10.
LEGS = {
    # "One tick north is then 11 mm, two are 22, and equal points 0."
    (0, 0, 0, 0): 0, (0, 0, 1, 0): 11, (0, 0, 2, 0): 22, (0, 0, 3, 0): 33, (-1, 0, 1, 0): 22, (600_000_000, 5, 600_000_000, 5): 0,
    (600_000_000, 5, 600_000_001, 5): 11, (600_000_001, 5, 599_999_999, 5): 22, (899_999_999, 0, 900_000_000, 0): 11,
    # along the equator m is 2×10^9, and east is as north; d reaches 3,599,999,999, and is 1 the other way round
    (0, 0, 0, 1): 11, (0, 0, 0, 2): 22, (0, 0, 0, 3): 33, (0, 1_799_999_999, 0, -1_800_000_000): 11,
    # off it m is less: of a tick east nothing is left; at 60 degrees m is 5×10^8, and a quarter is left of the squares
    (1, 0, 1, 1): 0, (1, 0, 1, 2): 11, (0, 0, 1, 1): 11, (600_000_000, 0, 600_000_000, 1): 0, (600_000_000, 0, 600_000_000, 2): 11,
    (600_000_000, 0, 600_000_000, 3): 11, (600_000_000, 0, 600_000_000, 4): 22, (600_000_000, 0, 600_000_001, 1): 11,
    (0, 1_799_000_000, 0, -1_799_000_000): 22_238_985, (900_000_000, 0, -900_000_000, 0): 20_015_086_860,
    # a pole is one point, whatever its longitude
    (900_000_000, -1_800_000_000, 900_000_000, 0): 0, (900_000_000, 1, -900_000_000, -1_234_567_890): 20_015_086_860,
    (0, 0, 0, 900_000_000): 10_007_543_430, (0, 0, 0, 1_799_990_000): 20_014_977_344, (0, 0, 0, -1_800_000_000): 20_015_086_860,
    # the 3,282 half ticks below 90 degrees share a short sine, and u is the last of them
    (0, 0, 0, 1_799_999_999): 20_015_086_848, (0, 0, 0, 1_800_000_000 - 3_282): 20_015_086_848, (0, 0, 0, 1_800_000_000 - 3_283): 20_015_050_354,
    # m is floored first
    (-388_974_850, 745_373_330, 268_723_365, -1_239_838_359): 17_836_465_815,
}
# "Both directions of a leg have one length."
BOTH_WAYS = {('leg', *points): (0, length) for leg, length in LEGS.items() for points in (leg, leg[2:] + leg[:2])}

NORTH, EAST, SOUTH, WEST = 0, 900_000_000, 1_800_000_000, 2_700_000_000  # courses
OFFSETS = [sign * offset for sign in (1, -1) for offset in (
    1, 300_000_000, 450_000_000, 600_000_000, 899_999_999, 900_000_000, 900_000_001, 1_500_000_000, 1_799_999_999)]
# The short sine of 30 degrees is 500,000,000, that of 60 degrees 866,025,403, of 1 tick 1, and of 1 tick below 90 degrees 999,999,999.
COURSES = {
    # along a meridian N is 0, and a with it; along the equator D is 0, and a is 90 degrees
    **{(0, 0, north, 0): NORTH for north in (1, 2, 300_000_000, 899_999_999)}, (300_000_000, 5, 600_000_000, 5): NORTH,
    **{(0, 0, -south, 0): SOUTH for south in (1, 2, 300_000_000, 899_999_999)}, (600_000_000, 5, -300_000_000, 5): SOUTH,
    **{(0, 0, 0, east): EAST for east in (1, 900_000_000, 900_000_001, 1_799_999_999)},
    **{(0, 0, 0, -west): WEST for west in (1, 900_000_000, 900_000_001, 1_799_999_999)},
    # the offset reaches over the date line
    (0, 1_799_000_000, 0, -1_799_000_000): EAST, (0, -1_799_000_000, 0, 1_799_000_000): WEST,
    (0, 1_799_999_999, 0, -1_800_000_000): EAST, (0, -1_800_000_000, 0, 1_799_999_999): WEST,
    # every meridian leads to a pole: the end's cosine is 0, and D has the sign of its sine
    **{(start, 0, 900_000_000, longitude): NORTH for start in (-899_999_999, 0, 899_999_999) for longitude in (0, 5, -1_800_000_000)},
    **{(start, 0, -900_000_000, longitude): SOUTH for start in (-899_999_999, 0, 899_999_999) for longitude in (0, 5, -1_800_000_000)},
    # over a pole: N is 0, and the cosine of -180 degrees is -10^9, so that D has the sign of the start's sine
    (300_000_000, 0, 0, -1_800_000_000): NORTH, (300_000_000, -900_000_000, 300_000_000, 900_000_000): NORTH,
    (-300_000_000, 0, 0, -1_800_000_000): SOUTH, (-300_000_000, 900_000_000, -300_000_000, -900_000_000): SOUTH,
    # from a pole to the equator N is the offset's sine and D its cosine, in the north less than zero: the course is the offset, or 180 less it
    **{(-900_000_000, 0, 0, offset): offset % 3_600_000_000 for offset in (0, *OFFSETS, -1_800_000_000)},
    **{(900_000_000, 0, 0, offset): (1_800_000_000 - offset) % 3_600_000_000 for offset in (0, *OFFSETS, -1_800_000_000)},
    (-900_000_000, 1_700_000_000, 0, -1_600_000_000): 300_000_000, (-900_000_000, -1_600_000_000, 0, 1_700_000_000): 3_300_000_000,
    # "N and D not negative: a. D alone negative: 180 - a. Both negative: 180 + a. N alone negative: 360 - a": from the equator, a quarter east
    # or west, N is the cosine and D the sine of the latitude
    **{(0, 0, latitude, 900_000_000): 900_000_000 - latitude for latitude in (300_000_000, 600_000_000, -300_000_000, -600_000_000)},
    **{(0, 0, latitude, -900_000_000): 2_700_000_000 + latitude for latitude in (300_000_000, 600_000_000, -300_000_000, -600_000_000)},
    # "at most": N is 999,999,999 and D 1, and a tick below 90 degrees both products are 999,999,999
    (0, 0, 1, 900_000_000): 899_999_999, (0, 0, -1, 900_000_000): 900_000_001, (0, 0, 1, -900_000_000): 2_700_000_001,
    (0, 0, -1, -900_000_000): 2_699_999_999,
    # "each division drops toward zero": N is 0, and D 433,012,701 less 433,012,700; one division for two would leave nothing
    (600_000_000, 0, 600_000_000, -1): NORTH, (600_000_000, 0, 600_000_000, 1): NORTH,
    (-600_000_000, 0, -600_000_000, -1): SOUTH, (-600_000_000, 0, -600_000_000, 1): SOUTH,
}
# "18 when N and D are both zero"
NO_COURSES = [
    *((*point, *point) for point in ((0, 0), (600_000_000, -1), (-338_688_197, 1_512_092_955), (899_999_999, 5), (0, -1_800_000_000))),
    # opposite points
    (0, 0, 0, -1_800_000_000), (0, -1_800_000_000, 0, 0), (300_000_000, 0, -300_000_000, -1_800_000_000),
    (-338_688_197, 1_512_092_955, 338_688_197, -287_907_045), (1, -1, -1, 1_799_999_999),
    # from a pole to itself, and to the other one
    *((start, 0, end, longitude) for start, end in itertools.product((-900_000_000, 900_000_000), repeat=2) for longitude in (0, 5, -1_800_000_000)),
    # a tick from a pole the cosine is 1, and all is dropped
    (899_999_999, 0, 899_999_999, 1), (899_999_999, 0, 899_999_999, -1_800_000_000), (-899_999_999, 0, -899_999_999, -1),
    (900_000_000, 0, 899_999_999, 1), (-900_000_000, 0, -899_999_999, -1),
]
DIRECTIONS = {
    **{('course', *leg): (0, ticks) for leg, ticks in COURSES.items()}, **{('course', *leg): (18, 0) for leg in NO_COURSES},
    # "18 .., after 6 and 7 of start, then end"
    **{('course', latitude, longitude, latitude, longitude): (6, 0) for latitude in NO_LATITUDES for longitude in (0, *NO_LONGITUDES)},
    **{('course', 0, longitude, 0, longitude): (7, 0) for longitude in NO_LONGITUDES},
    **{('course', 0, 0, latitude, longitude): (6, 0) for latitude in NO_LATITUDES for longitude in (0, *NO_LONGITUDES)},
    **{('course', 0, 0, 0, longitude): (7, 0) for longitude in NO_LONGITUDES},
}

# The root of each number, and its steps: "the pair, the digit and the rest after the subtraction".
ROOTS = {
    # "A square field has 55,000 square metres."
    55_000: (234, [(5, 2, 1), (50, 3, 21), (0, 4, 244)]),
    # "0 has one pair"; a pair, and the first number with two
    0: (0, [(0, 0, 0)]), 1: (1, [(1, 1, 0)]), 2: (1, [(2, 1, 1)]), 3: (1, [(3, 1, 2)]), 4: (2, [(4, 2, 0)]), 9: (3, [(9, 3, 0)]),
    10: (3, [(10, 3, 1)]), 80: (8, [(80, 8, 16)]), 81: (9, [(81, 9, 0)]), 99: (9, [(99, 9, 18)]), 100: (10, [(1, 1, 0), (0, 0, 0)]),
    # a square, 234², and its neighbours, up to the next one: the rest is at most twice the root
    54_755: (233, [(5, 2, 1), (47, 3, 18), (55, 3, 466)]), 54_756: (234, [(5, 2, 1), (47, 3, 18), (56, 4, 0)]),
    54_757: (234, [(5, 2, 1), (47, 3, 18), (57, 4, 1)]), 55_224: (234, [(5, 2, 1), (52, 3, 23), (24, 4, 468)]),
    55_225: (235, [(5, 2, 1), (52, 3, 23), (25, 5, 0)]),
    # the rest divided by 20 × root is 9, 10 and 14
    280: (16, [(2, 1, 1), (80, 6, 24)]), 300: (17, [(3, 1, 2), (0, 7, 11)]), 399: (19, [(3, 1, 2), (99, 9, 38)]),
    # zeros inside a root and at its end; 1005² and one less
    1_010_025: (1005, [(1, 1, 0), (1, 0, 1), (0, 0, 100), (25, 5, 0)]), 1_010_024: (1004, [(1, 1, 0), (1, 0, 1), (0, 0, 100), (24, 4, 2008)]),
    640_009: (800, [(64, 8, 0), (0, 0, 0), (9, 0, 9)]),
    # 100^k is the square of 10^k; one less has the root 10^k - 1 and twice that for a rest, after every pair
    **{100**k: (10**k, [(1, 1, 0), *k * [(0, 0, 0)]]) for k in range(2, 10)},
    **{100**k - 1: (10**k - 1, [(99, 9, 2 * (10**at - 1)) for at in range(1, k + 1)]) for k in range(2, 10)},
    # H of half the globe, and what no H passes: two squares of at most 2×10^9
    4 * 10**18: (2 * 10**9, [(4, 2, 0), *9 * [(0, 0, 0)]]),
    8 * 10**18: (2_828_427_124, [(8, 2, 4), (0, 8, 16), (0, 2, 476), (0, 8, 2_416), (0, 4, 15_344), (0, 2, 403_036), (0, 7, 705_671),
                                 (0, 1, 13_998_559), (0, 2, 268_485_056), (0, 4, 4_221_088_624)]),
    # the greatest root, at its square and one below
    **{4_294_967_295**2 - off: (4_294_967_295 - off, [
        (18, 4, 2), (44, 2, 80), (67, 9, 426), (44, 4, 8_308), (6, 9, 57_805), (51, 6, 626_635), (19, 7, 2_534_030), (61, 2, 81_604_377),
        (70, 9, 429_496_729), last]) for off, last in ((0, (25, 5, 0)), (1, (24, 4, 8_589_934_588)))},
    # the greatest number
    2**64 - 1: (4_294_967_295, [(18, 4, 2), (44, 2, 80), (67, 9, 426), (44, 4, 8_308), (7, 9, 57_806), (37, 6, 626_721), (9, 7, 2_542_620),
                                (55, 2, 82_463_371), (16, 9, 515_396_075), (15, 5, 8_589_934_590)]),
}
# "behind the last step there are zeros"; "the greatest number has ten" pairs
WORKINGS = {('root_steps', number): (root, len(steps), *itertools.chain(*steps), *(10 - len(steps)) * (0, 0, 0))
            for number, (root, steps) in ROOTS.items()}

# "point 60° N 10° E .. Move with the doubles 555974635/1000 and 6671695620/1000"
HERE, X, Y = (600_000_000, 100_000_000), 555_974_635, 6_671_695_620
EVERYWHERE = (-INF, INF, -INF, INF)
OUTSIDE = (0, 0, 0.0, 0.0, UP)  # "Outside: the pen is up next."


def step(pen=UP, window=EVERYWHERE, divisor=1000, meridian=0, point=HERE, third=0):
    return ('pen_step', pen, *window, divisor, meridian, *point, third)


def move(x=X, y=Y, divisor=1000):
    return 0, 1, x / divisor, y / divisor, DOWN


def line(x=X, y=Y, divisor=1000):
    return 0, 2, x / divisor, y / divisor, DOWN


def refused(number, pen):
    return number, 0, 0.0, 0.0, pen


def above(number):
    """The next double, by its bits; Python has a function for this since 3.9 only."""
    bits, = struct.unpack('>q', struct.pack('>d', number + 0.0))  # -0.0 + 0.0 is 0.0
    return struct.unpack('>d', struct.pack('>q', bits + 1 if bits >= 0 else bits - 1))[0]


def below(number):
    return -above(-number)


# pairs, as keys with 0.0 and -0.0 would be one key
STEPS = [
    (step(), move()), *((step(pen), line()) for pen in PENS if pen != UP),
    # "any other third number counts as 1"
    *((step(pen, third=third), move()) for pen in PENS for third in (1, 2, -1, LEAST, GREATEST)),
    # X drops twice: one division would give 5. There is no minus zero.
    (step(point=(600_000_000, 1), divisor=1), move(0, Y, 1)), (step(point=(500_000_000, -1), divisor=1), move(0, 5_559_746_350, 1)),
    # west is as east, and south as north
    (step(point=(600_000_000, -100_000_000)), move(-X)), (step(point=(-600_000_000, 100_000_000)), move(y=-Y)),
    (step(point=(0, 1), divisor=1), move(11, 0, 1)), (step(point=(0, -1), divisor=1), move(-11, 0, 1)),
    (step(point=(1, 0), divisor=1), move(0, 11, 1)), (step(point=(-1, 0), divisor=1), move(0, -11, 1)),
    (step(point=(900_000_000, -1_800_000_000), meridian=5), move(0, 10_007_543_430)),
    (step(meridian=100_000_000, point=(600_000_000, 200_000_000)), move()), (step(meridian=-1_800_000_000), move(-17 * X)),
    # "edges counted in": an edge at X or Y, and one double beside
    (step(window=(float(X), INF, -INF, INF)), move()), (step(window=(above(X), INF, -INF, INF)), OUTSIDE),
    (step(window=(-INF, float(X), -INF, INF)), move()), (step(window=(-INF, below(X), -INF, INF)), OUTSIDE),
    (step(window=(-INF, INF, float(Y), INF)), move()), (step(window=(-INF, INF, above(Y), INF)), OUTSIDE),
    (step(window=(-INF, INF, -INF, float(Y))), move()), (step(window=(-INF, INF, -INF, below(Y))), OUTSIDE),
    (step(DOWN, (float(X), above(X), below(Y), float(Y))), line()), (step(DOWN, (above(X), INF, -INF, INF)), OUTSIDE),
    (step(DOWN, (-LARGEST, LARGEST, -LARGEST, LARGEST)), line()), (step(DOWN, (LARGEST, INF, -INF, INF)), OUTSIDE),
    *((step(window=(low, INF, -INF, high), point=(0, 0)), move(0, 0)) for low in (0.0, -0.0) for high in (0.0, -0.0)),
    # "X and Y as floats before the division"
    (step(window=(X / 1000, INF, -INF, INF)), move()), (step(window=(-INF, X / 1000, -INF, INF)), OUTSIDE),
    # "12: an edge is NaN, left is not below right, or bottom is not below top"
    *((step(DOWN, (*EVERYWHERE[:k], nan, *EVERYWHERE[k + 1:])), refused(12, DOWN)) for k in range(4) for nan in NANS),
    *((step(DOWN, window), refused(12, DOWN))
      for low, high in ((0.0, -0.0), (-0.0, 0.0), (0.0, 0.0), (INF, INF), (-INF, -INF), (INF, -INF), (1.0, -1.0), (float(X), float(X)))
      for window in ((low, high, -INF, INF), (-INF, INF, low, high))),
    # "13: divisor outside 1 to 1,000,000"
    *((step(DOWN, divisor=divisor), refused(13, DOWN)) for divisor in (0, 1_000_001, 2**31 - 1, 2**31, 2**32 - 1)),
    *((step(DOWN, divisor=divisor), line(divisor=divisor)) for divisor in (1, 3, 1_000_000)),
    # "the pen step hands back the pen it got"
    *((step(pen, **fault), refused(number, pen)) for pen in PENS for number, fault in (
        (12, {'window': (INF, INF, -INF, INF)}), (13, {'divisor': 0}), (14, {'meridian': 1_800_000_000}), (6, {'point': (900_000_001, 0)}),
        (7, {'point': (0, 1_800_000_000)}))),
]


def orders():
    """Calls with several faults: of the refusals, in the document's order, the first is answered."""
    for good, faults, answer in (
            # "Sheets: 14, 6, 7."
            (('cylindrical', 0, 0, 0), [(14, 3, 1_800_000_000), (6, 1, 900_000_001), (7, 2, 1_800_000_000)], lambda number: (number, 0, 0)),
            (('sinusoidal', 0, 0, 0), [(14, 3, -1_800_000_001), (6, 1, -900_000_001), (7, 2, LEAST)], lambda number: (number, 0, 0)),
            # "Back: 14, 11."
            (('cylindrical_back', 0, 0, 0), [(14, 3, LEAST), (11, 1, 1_800_000_000), (11, 2, 1)], lambda number: (number, 0, 0)),
            (('sinusoidal_back', 0, 0, 0), [(14, 3, GREATEST), (11, 1, 1), (11, 2, 900_000_001)], lambda number: (number, 0, 0)),
            # "Length: 6 and 7 of the first point, then of the second."
            (('leg', 0, 0, 0, 0), [(6, 1, GREATEST), (7, 2, GREATEST), (6, 3, LEAST), (7, 4, LEAST)], lambda number: (number, 0)),
            # "18 .., after 6 and 7 of start, then end": without a fault this is 18
            (('course', 0, 0, 0, 0), [(6, 1, GREATEST), (7, 2, GREATEST), (6, 3, LEAST), (7, 4, LEAST)], lambda number: (number, 0)),
            # "Pen step: 12, 13, 14, 6, 7."
            (step(DOWN), [(12, 2, INF), (12, 5, -INF), (13, 6, 0), (14, 7, 1_800_000_000), (6, 8, 900_000_001), (7, 9, 1_800_000_000)],
             lambda number: refused(number, DOWN))):
        for chosen in itertools.chain(*(itertools.combinations(faults, count) for count in range(1, len(faults) + 1))):
            call = list(good)
            for _, at, bad in chosen:
                call[at] = bad
            yield tuple(call), answer(chosen[0][0])


def route(mark, *lines):
    """A route's text: a space stands for a tab, and LF ends each line."""
    return b''.join(words.replace(' ', '\t').encode() + b'\n' for words in (f'route {mark}', *lines))


THOUSAND = 1000 * ['p 0 0']
# the refusals of a text's second line, under each header
SECOND_LINES = {
    'point': {
        # an empty line, kinds and fields
        '': 3, 'z': 3, 'p': 3, 'p 0': 3, 'p 0 0 0': 3, 'P 0 0': 3, ' p 0 0': 3, 't': 3, 'g ': 3, 'p , x ': 3, 'g': 8,
        # "the fields from the left, each 5, 4, then 6 or 7"
        'p x, 0': 5, 'p ,5 0': 5, 'p 91,5 0': 5, 'p 1000 0': 4, 'p x 1,5': 4, 'p 91 1,5': 6, 'p 91 x': 6, 'p 91 180': 6, 'p 0 180,x': 5,
        'p 0 1800': 4, 'p +1 0': 4, 'p - 0': 4, 'p  0': 4, 'p 0 0\r': 4, 'p 0 .5': 4, 'p 0 5.': 4, 'p 0.12345678 0': 4,
        # "Longitude 180: 7", "90.0000001: 6", and numbers that pass 32 bits
        'p 0 180': 7, 'p 90.0000001 0': 6, 'p -90.0000001 0': 6, 'p 0 -180.0000001': 7, 'p 429.4967297 0': 6, 'p 0 429.4967297': 7,
        'p 999.9999999 0': 6, 'p 0 -999.9999999': 7, 'p 0 -429.4967296': 7,
        # "`t` `2,500` is 2,500,000 mm under comma, 5 under point"; "`1.234,5` is 5 under either"
        't 2,500': 5, 't 1.234,5': 5, 't -0': 4, 't 1.2345': 4, 't 1000': 4, 't ': 4,
        # 60,000 bytes are read to the last
        'p 0 ' + 59_982 * '0' + ',': 5, 'p 0 ' + 59_983 * '0': 4,
    },
    'comma': {'p 0 0.0': 5, 'p 0,0 .': 5, 'p -90,0000001 0': 6, 'p 0 -180,0000001': 7, 't 1.234,5': 5, 't 2.5': 5, 't 5,': 4, 't ,5': 4},
}
# each text, its refusal and the line
REFUSED_TEXTS = [
    *((route(mark, words), number, 2) for mark, lines in SECOND_LINES.items() for words, number in lines.items()),
    (60_001 * b'0', 1, 0), (60_001 * b'\n', 1, 0), (route('point', *THOUSAND, 'p 0 0', 60_000 * 'x', 'g'), 1, 0),
    (b'', 2, 1), (b'\n', 2, 1), (b'route\tpoint', 2, 1), (b'route\tpoint\r\n', 2, 1), (b'route\tdot\nz', 2, 1), (b' route\tcomma\n', 2, 1),
    (b'route\tcommas\n', 2, 1), (b'route\tcomma\t\n', 2, 1), (60_000 * b'\n', 2, 1),
    # what stands after the last LF is a line without LF: 3 before everything else
    (route('point', 'p 0 0')[:-1], 3, 2), (route('point', 'g')[:-1], 3, 2), (route('point', 't ,')[:-1], 3, 2),
    (route('point') + b'\r', 3, 2),
    # "in a line 3 .., 8, 9, then the fields"
    (route('point', 'p 0 0', 't 1 2'), 3, 3), (route('point', 'p 0 0', 't x'), 8, 3), (route('point', 'p 0 0', 't ,'), 8, 3),
    (route('point', 't 1', 't 1'), 8, 3), (route('point', *THOUSAND, 'p 0'), 3, 1002), (route('comma', *THOUSAND, 't x'), 8, 1002),
    (route('point', *THOUSAND, 'p x ,'), 9, 1002), (route('point', *THOUSAND, 'g', 'p 91 0'), 9, 1003),
    # "judged by the line before it, which must be a `p` line; what follows it is judged as its own line"
    (route('point', 'g', 'p 0 0'), 8, 2), (route('point', 't 1', 'g', 'p 0 0'), 8, 3),
    (route('point', 't 1', 'g'), 8, 3), (route('point', 'p 0 0', 'g', 'g'), 8, 4), (route('point', 'p 0 0', 'g', 't 1'), 8, 4),
    (route('point', 'p 0 0', 'g', 'z'), 3, 4), (route('point', 'p 0 0', 'g'), 8, 3), (route('point', *THOUSAND, 'g'), 8, 1002),
    # "the first bad line from the top"
    (route('point', 'p 0 180', 'z'), 7, 2), (route('point', 'p 0 180', 'g'), 7, 2), (route('point', 'p 0 0', 'p 91 0', 'p 0 180'), 6, 3),
]


def other_marks():
    """The other mark at every place of a number, between two bytes and instead of one: "5: a number holds the mark that the header did not
    name", which comes before whatever else is wrong with it."""
    for mark, named, other in (('point', '.', ','), ('comma', ',', '.')):
        for above_it, words, numbers in (((), 't {}', ['123M456', '0', '42']), ((), 'p {} x', ['-12M3456789', '7', '-0', '91']),
                                         (('t 1', 'p 0 0', 'g'), 'p 0 {}', ['-123M4567890', '7', '-0', '180'])):
            for number in (number.replace('M', named) for number in numbers):
                for at, over in itertools.product(range(len(number) + 1), (0, 1)):
                    yield route(mark, *above_it, words.format(number[:at] + other + number[at + over:])), 5, len(above_it) + 2


# each text; the points, whether there is a target, the length and the target; and the numbers written
ACCEPTED_TEXTS = [
    (route('point'), (0, 0, 0, 0), []),
    (route('comma', 't 2,500'), (0, 1, 0, 2_500_000), []), (route('comma', 't 0'), (0, 1, 0, 0), []),
    (route('point', 't 999.999'), (0, 1, 0, 999_999_000), []), (route('point', 't 000.001'), (0, 1, 0, 1000), []),
    (route('comma', 't 10,000', 'p 0 0', 'p 0 90'), (2, 1, 10_007_543_430, 10_000_000), [0, 0, 1, 0, 900_000_000, 0]),
    (route('point', 't 1', 'p 90 -180', 'g', 'p -0.0000001 5'), (2, 1, 0, 1_000_000), [900_000_000, -1_800_000_000, 1, -1, 50_000_000, 1]),
    (route('point', 'p -90 179.9999999', 'p -0 -000.0'), (2, 0, 10_007_543_430, 0), [-900_000_000, 1_799_999_999, 1, 0, 0, 0]),
    # "points a tick apart"
    (route('point', 'p 0 0', 'p 0.0000001 0', 'p 0.0000002 0'), (3, 0, 22, 0), [0, 0, 1, 1, 0, 0, 2, 0, 0]),
    (route('point', *THOUSAND), (1000, 0, 0, 0), [0, 0, 1, *999 * [0, 0, 0]]),
    (route('comma', *500 * ['p 90 0', 'p -90 0']), (1000, 0, 999 * 20_015_086_860, 0),
     [900_000_000, 0, 1, -900_000_000, 0, 0, *499 * [900_000_000, 0, 0, -900_000_000, 0, 0]]),
]
# "target in kilometres"; "one to three digits, then nothing"; "Leading zeros .. are allowed."
TARGETS = [(route(mark, f't {number}'), (0, 1, 0, 1_000_000 * kilometres), []) for mark in ('point', 'comma') for kilometres in range(1000)
           for number in sorted({f'{kilometres}', f'{kilometres:03}'})]


def readings():
    """The texts, each into rooms of several sizes. Behind the fields stand 1, as nothing but the buffer changes, and the buffer."""
    for text, number, at in (*REFUSED_TEXTS, *other_marks()):
        for room in (0, 2 * NUMBERS - 1, MOST_NUMBERS + NUMBERS):
            yield ('read_route', room, text), (number, at, 0, 0, 0, 0, 1, *doors.lent(room))
    for text, fields, numbers in (*ACCEPTED_TEXTS, *TARGETS):
        need = len(numbers)
        for room in (need, need + NUMBERS + 1):
            yield ('read_route', room, text), (0, 0, *fields, 1, *numbers, *doors.lent(room)[need:])
        # "10: buffer shorter than 3n (line 0)"
        for room in range(need)[::-1][:NUMBERS + 1]:
            yield ('read_route', room, text), (10, 0, 0, 0, 0, 0, 1, *doors.lent(room))


LATITUDE, LONGITUDE, THIRD = range(NUMBERS)
THERE_AND_BACK = (0, 0, 1, 0, 900_000_000, 0, 0, 0, 0)
TO_AND_FRO = (900_000_000, 0, 1, *500 * (-900_000_000, 0, 0, 900_000_000, 0, 0))  # 1,001 points, from pole to pole
NO_THIRDS = [2, -1, 256, 257, 2**16, LEAST, LEAST + 1, GREATEST]  # of some the low bits are those of 0 or 1


def changed(numbers, *changes):
    """A point buffer with other numbers. A change is the point, which of its numbers, and what that is now."""
    numbers = list(numbers)
    for point, part, value in changes:
        numbers[NUMBERS * point + part] = value
    return tuple(numbers)


def buffers():
    """Point buffers, each with its refusal and its length."""
    yield from (((), 0, 0), ((0, 0, 1), 0, 0), ((900_000_000, -1_800_000_000, 1), 0, 0))
    # what was read has the length that the reader gave
    yield from ((tuple(numbers), 0, length) for _, (_, _, length, _), numbers in ACCEPTED_TEXTS)
    # "the leg into the next point not counted"
    for leg, length in LEGS.items():
        yield from (((*leg[:2], 1, *leg[2:], 0), 0, length), ((*leg[:2], 1, *leg[2:], 1), 0, 0))
    for thirds, legs in (((0, 0), 2), ((0, 1), 1), ((1, 0), 1), ((1, 1), 0)):
        yield changed(THERE_AND_BACK, (1, THIRD, thirds[0]), (2, THIRD, thirds[1])), 0, legs * 10_007_543_430
    # "17 buffer not a multiple of three, a third number other than 0 or 1, or a first one of 0"
    yield from ((THERE_AND_BACK[:count], 17, 0) for count in (1, 2, 4, 5, 7, 8))
    yield changed(THERE_AND_BACK, (0, THIRD, 0)), 17, 0
    yield from ((changed(THERE_AND_BACK, (point, THIRD, third)), 17, 0) for point in range(3) for third in NO_THIRDS)
    # "6 and 7 by point"
    for point, (latitude, longitude) in itertools.product(range(3), zip(NO_LATITUDES, NO_LONGITUDES)):
        yield changed(THERE_AND_BACK, (point, LATITUDE, latitude)), 6, 0
        yield changed(THERE_AND_BACK, (point, LONGITUDE, longitude)), 7, 0
        yield changed(THERE_AND_BACK, (point, LATITUDE, latitude), (point, LONGITUDE, longitude)), 6, 0
    for first, second in itertools.combinations(range(3), 2):
        yield changed(THERE_AND_BACK, (first, LATITUDE, 900_000_001), (second, LONGITUDE, 1_800_000_000)), 6, 0
        yield changed(THERE_AND_BACK, (first, LONGITUDE, 1_800_000_000), (second, LATITUDE, 900_000_001)), 7, 0
    # "order 17, 9, 6 and 7 by point"
    most = TO_AND_FRO[:-NUMBERS]
    yield from ((most, 0, 999 * 20_015_086_860), (TO_AND_FRO, 9, 0), (most[:-1], 17, 0), ((*TO_AND_FRO, 0), 17, 0))
    for bad_point, number in (((0, LATITUDE, LEAST), 6), ((500, LONGITUDE, GREATEST), 7), ((999, LATITUDE, 900_000_001), 6)):
        yield changed(most, bad_point), number, 0
        yield changed(TO_AND_FRO, bad_point), 9, 0
        for bad_third in ((0, THIRD, 0), (500, THIRD, 2), (999, THIRD, -1)):
            yield changed(most, bad_point, bad_third), 17, 0
            yield changed(TO_AND_FRO, bad_point, bad_third), 17, 0
    yield from ((changed(TO_AND_FRO, (1000, LATITUDE, 900_000_001)), 9, 0), (changed(TO_AND_FRO, (1000, THIRD, 2)), 17, 0))


# behind the fields stands 1, as nothing changes
MEASURES = [(('measure', numbers), (number, length, 1)) for numbers, number, length in buffers()]

# "Each number is written one way: no leading zeros but a lone 0, no decimals that end in zero, no bare mark, no minus on zero."
DEGREES = {
    0: '0', 1: '0.0000001', -1: '-0.0000001', 10: '0.000001', 100: '0.00001', 1_000: '0.0001', 10_000: '0.001', 100_000: '0.01',
    1_000_000: '0.1', 10_000_000: '1', 100_000_000: '10', 9: '0.0000009', -99: '-0.0000099', 5_000_000: '0.5', -5_000_000: '-0.5',
    9_999_999: '0.9999999', 10_000_001: '1.0000001', -15_000_000: '-1.5', 12_345_678: '1.2345678', 99_999_999: '9.9999999',
    102_030_400: '10.20304', -200_000_010: '-20.000001', 457_600_000: '45.76', 600_100_000: '60.01', 700_000_000: '70',
    899_999_999: '89.9999999', -899_999_999: '-89.9999999', 899_999_990: '89.999999', 900_000_000: '90', -900_000_000: '-90',
}
FAR_DEGREES = {  # of a longitude alone
    900_000_001: '90.0000001', 999_999_999: '99.9999999', 1_000_000_000: '100', -1_000_000_001: '-100.0000001', 1_010_000_000: '101',
    1_234_567_890: '123.456789', -1_500_500_000: '-150.05', 1_799_999_999: '179.9999999', -1_799_999_999: '-179.9999999',
    1_790_000_000: '179', -1_800_000_000: '-180',
}
KILOMETRES = {
    0: '0', 1_000: '0.001', 10_000: '0.01', 100_000: '0.1', 1_000_000: '1', 10_000_000: '10', 100_000_000: '100', 2_500_000: '2.5',
    9_000: '0.009', 99_000: '0.099', 999_000: '0.999', 101_000: '0.101', 120_000: '0.12', 1_001_000: '1.001', 42_195_000: '42.195',
    100_010_000: '100.01', 120_000_000: '120', 987_600_000: '987.6', 999_000_000: '999', 999_999_000: '999.999',
}
NO_TARGETS = [1, 999, 1_001, 999_998_999, 999_999_001, 999_999_999, 1_000_000_000, 2**32, 1_000 * 2**32, 2**63, 2**64 - 616, 2**64 - 1]
LONGEST, LONGEST_LINE = (-899_999_999, -1_799_999_999, 1), 'p -89.9999999 -179.9999999'
# the numbers of each route, its target if any, and its lines under the point
WRITTEN = [
    ((), None, []), *(((), target, [f't {kilometres}']) for target, kilometres in KILOMETRES.items()),
    *(((angle, angle, 1), None, [f'p {degrees} {degrees}']) for angle, degrees in DEGREES.items()),
    *(((0, angle, 1), 2_500_000, ['t 2.5', f'p 0 {degrees}']) for angle, degrees in FAR_DEGREES.items()),
    # "A `g` line precedes every point after the first whose third number is 1."
    *((changed(THERE_AND_BACK, (1, THIRD, first), (2, THIRD, second)), 0, ['t 0', 'p 0 0', *first * ['g'], 'p 0 90', *second * ['g'], 'p 0 0'])
      for first, second in itertools.product((0, 1), repeat=2)),
    ((900_000_000, -1_800_000_000, 1, -1, 50_000_000, 1), 1_000_000, ['t 1', 'p 90 -180', 'g', 'p -0.0000001 5']),
    # the most points, in the shortest lines and in the longest
    ((0, 0, 1, *999 * (0, 0, 0)), None, THOUSAND),
    (1000 * LONGEST, 999_999_000, ['t 999.999', LONGEST_LINE, *999 * ['g', LONGEST_LINE]]),
]


def marked():
    """These routes with either mark, and the texts."""
    for (numbers, target, lines), (comma, mark, name) in itertools.product(WRITTEN, ((0, '.', 'point'), (1, ',', 'comma'))):
        yield numbers, target, comma, route(name, *(words.replace('.', mark) for words in lines))


def sizing(numbers, target, comma):
    """A question how long a text is. Where there is no target, a number that would be refused stands for it."""
    return ('route_size', numbers, *((0, NO_TARGETS[-1]) if target is None else (1, target)), comma)


def writing(numbers, target, comma, room, place):
    """A call of the writer."""
    _, *asked = sizing(numbers, target, comma)
    return ('write_route', *asked, room, place)


def text_written(text, room, place):
    """Its answer. Behind the fields stand 1, as nothing but the output changes, and the output: "nothing before or after them changing"."""
    output = doors.lent_output(room)
    output[place:place + len(text)] = text
    return 0, len(text), 1, bytes(output)


def nothing_written(number, room):
    return number, 0, 1, bytes(doors.lent_output(room))


def writings():
    """The routes with either mark, into outputs of several sizes and from several places on; then what else decides, and the refusals."""
    for numbers, target, comma, text in marked():
        size = len(text)
        for room, place in ((size, 0), (size + 1, 0), (size + 7, 7), (size + 70, 64)):
            yield writing(numbers, target, comma, room, place), text_written(text, room, place)
        # "15 the output from that place on is too short (a place past its end leaves none)"; a place and a size may pass 64 bits
        for room, place in ((0, 0), (size - 1, 0), (size, 1), (size + 6, 7), (size, size - 1), (size, size), (size, size + 1), (size, 2**32),
                            (size, 2**63), (size, 2**64 - size), (size, 2**64 - 1)):
            yield writing(numbers, target, comma, room, place), nothing_written(15, room)
    # every number but 0 says yes; without a target its number is not looked at
    for yes in YES:
        yield ('write_route', (), 0, 0, yes, 12, 0), text_written(route('comma'), 12, 0)
        yield ('write_route', (), yes, 0, 0, 16, 0), text_written(route('point', 't 0'), 16, 0)
    for target in (0, 1_000, *NO_TARGETS):
        yield ('write_route', (), 0, target, 0, 12, 0), text_written(route('point'), 12, 0)
    # "16 target not a whole number of metres or above 999,999,000 mm"
    for target, yes in itertools.product(NO_TARGETS, YES):
        yield ('write_route', (), yes, target, 0, 40, 0), nothing_written(16, 40)
    # "order 17, 9, 6 and 7 by point, 16, 15"
    for numbers, number, _ in buffers():
        for target, room in itertools.product((None, 0, 1, 1_000_000_000), (200, 11, 0)):
            refusal = number or (16 if target in NO_TARGETS else 0) or (15 if room < 200 else 0)
            if refusal:
                yield writing(numbers, target, 0, room, 0), nothing_written(refusal, room)


WRITINGS = list(writings())
# How much room to lend. The numbers of a route, its target if any, and how many bytes its text has with either mark.
SIZED = [
    # line 1 has 12, the line of a target 4 to 10
    ((), None, 12), ((), 0, 16), ((), 2_500_000, 18), ((), 999_999_000, 22),
    # the shortest line of a point has 6, the longest 27
    ((0, 0, 1), None, 18), ((0, 0, 1), 0, 22), (LONGEST, None, 39),
    # the mark with seven decimals has 8, with one 2, and a minus has 1; a second and a third digit before the mark have 1 each
    ((1, 0, 1), None, 26), ((0, 1, 1), None, 26), ((-1, 0, 1), None, 27), ((0, -1, 1), None, 27), ((-1_000_000, 0, 1), None, 21),
    ((90_000_000, 100_000_000, 1), None, 19), ((-900_000_000, -1_000_000_000, 1), None, 23),
    # a `g` has 2, and never stands before the first point
    ((0, 0, 1, 0, 0, 0), None, 24), ((0, 0, 1, 0, 0, 1), None, 26), ((0, 0, 1, 0, 0, 1, 0, 0, 0), None, 32), ((0, 0, 1, 0, 0, 1, 0, 0, 1), None, 34),
    # the most points in the shortest lines
    ((0, 0, 1, *999 * (0, 0, 0)), None, 6_012), ((0, 0, 1, *999 * (0, 0, 0)), 0, 6_016), (1000 * (0, 0, 1), None, 8_010),
    # "n points need at most 22 + 29n bytes": the longest need two less, as no `g` stands before the first
    (LONGEST, 999_999_000, 49), (2 * LONGEST, 999_999_000, 78), (3 * LONGEST, 999_999_000, 107), (10 * LONGEST, 999_999_000, 310),
    (999 * LONGEST, 999_999_000, 28_991), (1000 * LONGEST, 999_999_000, 29_020), (1000 * LONGEST, None, 29_010),
]


def sizes():
    """The questions how long these texts are, and those that were written by hand; then what else decides, and the refusals."""
    for (numbers, target, size), comma in itertools.product(SIZED, (0, 1)):
        yield sizing(numbers, target, comma), (0, size)
    yield from ((sizing(*asked), (0, len(text))) for *asked, text in marked())
    # every number but 0 says yes; without a target its number is not looked at
    for yes in YES:
        yield from ((('route_size', (), 0, 0, yes), (0, 12)), (('route_size', (), yes, 0, 0), (0, 16)))
    yield from ((('route_size', (), 0, target, 0), (0, 12)) for target in (0, 1_000, *NO_TARGETS))
    # "with R-1's refusals but 15", and in their order
    yield from ((('route_size', (), yes, target, 0), (16, 0)) for target, yes in itertools.product(NO_TARGETS, YES))
    for (numbers, number, _), target in itertools.product(buffers(), (None, 0, 1, 1_000_000_000)):
        refusal = number or (16 if target in NO_TARGETS else 0)
        if refusal:
            yield sizing(numbers, target, 0), (refusal, 0)


# behind the fields stands 1, as nothing changes
SIZES = [(call, (*answer, 1)) for call, answer in sizes()]
# routes in other ways, and written back: "Leading zeros and a minus before zero are allowed."
OTHER_WAYS = [
    (route('comma', 't 010,500', 'p -0 -000,0000000', 'p 00,5 -012,3400000', 'g', 'p -00,0000001 7,10'),
     route('comma', 't 10,5', 'p 0 0', 'p 0,5 -12,34', 'g', 'p -0,0000001 7,1')),
    (route('point', 't 000.000', 'p 090.0 -180.0', 'g', 'p 000 179.9999990'), route('point', 't 0', 'p 90 -180', 'g', 'p 0 179.999999')),
    (route('point', 't 999.90'), route('point', 't 999.9')), (route('comma', 'p 007 100'), route('comma', 'p 7 100')),
]


def laid(places, lifted=()):
    """A point buffer; the pen was up before the first point, and before those that are named, counted from 0."""
    return tuple(number for k, place in enumerate(places) for number in (*place, int(k == 0 or k in lifted)))


def north(*ticks, lifted=()):
    """A point buffer that leads north from the equator, at each leg by so many ticks."""
    return laid([(latitude, 0) for latitude in itertools.accumulate((0, *ticks))], lifted)


POLES = [(900_000_000, 0), (-900_000_000, 0)]
DATE_LINE = [(0, 1_799_000_000), (0, -1_799_000_000)]  # 22,238,985 mm apart; 44 times that are 978,515,340, and 45 times 1,000,754,325
# Is the target met? Point buffers, and for some targets yes (1) or no (0), and how many points were looked at. "One tick north is then 11 mm, two
# are 22, and equal points 0."
PLANS = {
    # of the two legs the second is counted
    (0, 0, 1, 1, 0, 1, 2, 0, 0): {0: (1, 0), 1: (1, 3), 10: (1, 3), 11: (1, 3), 12: (0, 3), 999: (0, 3), 1_500: (0, 3), 999_999_000: (0, 3)},
    # "none, for target 0"; "n if none does"
    (): {0: (1, 0), 1: (0, 0), 999_999_000: (0, 0)}, (0, 0, 1): {0: (1, 0), 1: (0, 1), 999_999_000: (0, 1)},
    # "the shortest beginning .. whose length reaches it"
    north(1, 2): {0: (1, 0), 1: (1, 2), 11: (1, 2), 12: (1, 3), 33: (1, 3), 34: (0, 3)},
    north(2, 1): {0: (1, 0), 1: (1, 2), 22: (1, 2), 23: (1, 3), 33: (1, 3), 34: (0, 3)},
    # points that add nothing
    north(0, 0): {0: (1, 0), 1: (0, 3)},
    north(0, 0, 1, 0, 0, 2, 0, 0): {0: (1, 0), 1: (1, 4), 11: (1, 4), 12: (1, 7), 33: (1, 7), 34: (0, 9)},
    # the 45th leg reaches 999,999,000, and the 44th does not
    laid(23 * DATE_LINE): {22_238_985: (1, 2), 22_238_986: (1, 3), 978_515_340: (1, 45), 978_515_341: (1, 46), 999_999_000: (1, 46)},
    laid(23 * DATE_LINE)[:-NUMBERS]: {978_515_340: (1, 45), 978_515_341: (0, 45), 999_999_000: (0, 45)},
    # 1,000 points: the first leg reaches the target, the last one does, or none
    north(*999 * [1]): {11: (1, 2), 12: (1, 3), 10_978: (1, 999), 10_979: (1, 1000), 10_989: (1, 1000), 10_990: (0, 1000), 999_999_000: (0, 1000)},
    north(1, *998 * [0]): {1: (1, 2), 11: (1, 2), 12: (0, 1000)}, north(*998 * [0], 1): {1: (1, 1000), 11: (1, 1000), 12: (0, 1000)},
    laid(500 * POLES): {1: (1, 2), 999_999_000: (1, 2)}, laid(500 * POLES, lifted=range(2, 1000)): {1: (1, 2), 999_999_000: (1, 2)},
    laid(500 * POLES, lifted=range(999)): {1: (1, 1000), 999_999_000: (1, 1000)},
    laid(500 * POLES, lifted=range(1000)): {0: (1, 0), 1: (0, 1000), 999_999_000: (0, 1000)},
}


def plans():
    """Point buffers and targets, with the refusal, yes or no, and how many points were looked at."""
    for numbers, answers in PLANS.items():
        yield from ((numbers, target, (0, *answer)) for target, answer in answers.items())
    # one leg, and targets about its length; part metres are no fault
    for leg, length in LEGS.items():
        for target in sorted({1, 999, 1_500, length - 1, length, length + 1, 999_999_000}):
            if 0 < target <= 999_999_000:
                yield laid([leg[:2], leg[2:]]), target, (0, int(length >= target), 2)
    # the pen up before any of five points: each counted leg is 11 mm, and one of these reaches the target
    for lifted in itertools.chain(*(itertools.combinations(range(1, 5), count) for count in range(5))):
        numbers, counted = north(1, 1, 1, 1, lifted=lifted), [k for k in range(1, 5) if k not in lifted]
        for before, k in enumerate(counted):
            yield from ((numbers, 11 * before + more, (0, 1, k + 1)) for more in (1, 11))
        yield numbers, 11 * len(counted) + 1, (0, 0, 5)
    # "16 only for a target above 999,999,000"
    for target in NO_TARGETS:
        yield north(1), target, (16, 0, 0) if target > 999_999_000 else (0, int(target <= 11), 2)
    # "R-1's for the buffer, all found before any leg is measured, then 16"
    for numbers, number, length in buffers():
        for target in (0, 1, 999_999_000, 999_999_001, 2**64 - 1):
            refusal = number or (16 if target > 999_999_000 else 0)
            if refusal:
                yield numbers, target, (refusal, 0, 0)
            elif target > length:
                yield numbers, target, (0, 0, len(numbers) // NUMBERS)
            elif target == 0:
                yield numbers, target, (0, 1, 0)


# behind the fields stands 1, as nothing changes
MET = [(('target_met', numbers, target), (*answer, 1)) for numbers, target, answer in plans()]
FIGURES = [*SINES.items(), *HALF_SINES.items(), *SHEETS.items(), *BACK.items(), *BOTH_WAYS.items(), *DIRECTIONS.items(), *WORKINGS.items(), *STEPS,
           *orders(), *WRITINGS, *SIZES, *MEASURES, *MET, *readings()]
