"""The programs `routereport` and `courselist`: on the texts of tests/routes, on texts at the limits of size, with every value of a byte, and on
random ones.

In tests/routes each NAME.route holds the bytes given, NAME.report the bytes expected of `routereport`, and of `courselist` too where they are a
refusal, and NAME.courses those expected of `courselist` where the route is accepted. The expected lengths and courses are the documents' figures or
the model's, never a program's, and the model is held to the same files.

The programs have room for every route, so they never print 10: that refusal is run by the program `figures`, and shown on the model here. The
texts of 1 and 9, but for one of each, are made here and not stored.
"""
import itertools
import os
import pathlib
import random
import re
import socket
import subprocess
import unittest
from unittest import mock

import built
import model
import texts

ROUTES = pathlib.Path(__file__).resolve().parent / 'routes'
# SEED=n tests/run tries other random texts than usual, TEXTS=n more of them
SEED = int(os.environ.get('SEED', '1'))
COUNT = int(os.environ.get('TEXTS', '400'))

POINT, COMMA = b'route\tpoint\n', b'route\tcomma\n'
THOUSAND = POINT + 1000 * b'p\t0\t0\n'
POLE_TO_POLE = 20_015_086_860

# what each program prints by the model, and how the files with what it prints for an accepted route end
PROGRAMS = {'routereport': (model.report, '.report'), 'courselist': (model.course_list, '.courses')}

LEG, COURSE, GREATEST_ANGLE, HALF_DIFFERENCES = model.leg, model.course, model.greatest_angle, model.half_differences
# parts of the model, each replaced by a wrong one
WRONG = {
    'HEADERS': {**model.HEADERS, (b'route\tpoint', False): b'.'},
    'lines_of': lambda text: [(line, True) for line in text.split(b'\n') if line],
    'FIELDS': {**model.FIELDS, b'g': 1},
    'OTHER': {b'.': b'!', b',': b'!'},
    'MOST_POINTS': 999,
    'latitude_in_range': lambda latitude: abs(latitude) < model.QUARTER,
    'longitude_in_range': lambda longitude: abs(longitude) <= model.HALF_TURN,
    'TURN': model.TURN + 2,
    'leg': lambda *ends: LEG(*ends) + 1,
    'half_differences': lambda *ends: tuple(difference // 2 * 2 for difference in HALF_DIFFERENCES(*ends)),
    'LEG_UNIT': 10**9,
    'greatest_angle': lambda r: GREATEST_ANGLE(r) // 2 * 2,
    'legs_of': lambda points: [(*a[:2], *b[:2]) for a, b in zip(points, points[1:])],
}
# wrong courses, which only the list shows
WRONG_COURSES = {
    'none taken for north': lambda *ends: COURSE(*ends) or 0,
    'west for east': lambda *ends: COURSE(*ends) and (model.TURN - COURSE(*ends)) % model.TURN,
    'at the other end': lambda *ends: COURSE(*ends[2:], *ends[:2]),
    'a tick too much': lambda *ends: COURSE(*ends) and COURSE(*ends) + 1,
}


def program(name):
    return lambda text: built.run(name, text)


def refused(number, line):
    return b'refused\t%d\t%d\n' % (number, line)


def accepted(points, length, target=b'none'):
    return b'points\t%d\nlength\t%d\ntarget\t%b\n' % (points, length, target)


def refusal_in(report):
    """The number of the refusal that a report says; 0 where it says none."""
    said = re.fullmatch(rb'refused\t(\d+)\t\d+\n', report)
    return int(said[1]) if said else 0


def differing(given, said, answer):
    """Each text that the answer does not take as said, with what was said and the answer."""
    answers = map(answer, given)
    return [difference for difference in zip(given, said, answers) if difference[1] != difference[2]]


class Files(unittest.TestCase):
    def wrong(self, answer, end):
        """The names of the routes that the answer takes otherwise than their files say, with both."""
        found = {}
        for path in sorted(ROUTES.glob('*.route')):
            report = path.with_suffix('.report').read_bytes()
            said, expected = answer(path.read_bytes()), report if refusal_in(report) else path.with_suffix(end).read_bytes()
            if said != expected:
                found[path.stem] = (said, expected)
        return found

    def test_the_programs_print_what_is_expected(self):
        for name, (_, end) in PROGRAMS.items():
            with self.subTest(name):
                self.assertEqual(self.wrong(program(name), end), {})

    def test_the_model_says_what_is_expected(self):
        for name, by_model in PROGRAMS.items():
            with self.subTest(name):
                self.assertEqual(self.wrong(*by_model), {})

    def test_a_model_with_one_thing_wrong_is_seen(self):
        for name, by_model in PROGRAMS.items():
            for part, value in WRONG.items():
                with self.subTest(name, part=part), mock.patch.object(model, part, value):
                    self.assertNotEqual(self.wrong(*by_model), {})

    def test_a_wrong_course_is_seen(self):
        for how, course in WRONG_COURSES.items():
            with self.subTest(how), mock.patch.object(model, 'course', course):
                self.assertNotEqual(self.wrong(*PROGRAMS['courselist']), {})

    def test_each_route_has_what_is_expected_and_nothing_else_is_there(self):
        names = {path.name for path in ROUTES.iterdir()}
        routes = {path.stem for path in ROUTES.glob('*.route')}
        accepted = {stem for stem in routes if stem.startswith('accepted-')}
        self.assertEqual(names, {stem + end for stem in routes for end in ('.route', '.report')} | {stem + '.courses' for stem in accepted})
        self.assertEqual(len(routes), 280)  # one that is gone is missed

    def test_names_tell_the_answers_and_no_refusal_is_left_out(self):
        numbers = set()
        for path in ROUTES.glob('*.report'):
            number = refusal_in(path.read_bytes())
            self.assertTrue(path.name.startswith(f'refused-{number:02}-' if number else 'accepted-'), path.name)
            numbers.add(number)
        self.assertEqual(numbers, {0, *range(1, 10)})


class Sizes(unittest.TestCase):
    def says(self, text, report, courses=None):
        """Both programs print a refusal alike; for an accepted route the list has its courses."""
        for name, expected in (('routereport', report), ('courselist', report if courses is None else courses)):
            self.assertEqual((program(name)(text), PROGRAMS[name][0](text)), (expected, expected))

    def filled(self, size, before, after):
        """A text of so many bytes: zeros between the two ends."""
        return before + b'0' * (size - len(before) - len(after)) + after

    def test_more_than_60000_bytes_are_refused_before_anything_else(self):
        for size in (60_001, 60_002, 65_536, 120_000, 1_000_000):
            self.says(self.filled(size, POINT + b'p\t', b'\t0\n'), refused(1, 0))
        for first in (POINT, COMMA, b'z\n', b'\n', b'\0', THOUSAND + b'p\t0\t0\n', POINT + b'g\n'):
            self.says(self.filled(60_001, first, b''), refused(1, 0))
        self.says(60_001 * b'\n', refused(1, 0))

    def test_60000_bytes_are_read_to_the_last(self):
        self.says(self.filled(60_000, POINT + b'p\t', b'\t0\n'), refused(4, 2))
        self.says(self.filled(60_000, POINT + b'p\t', b'\t0'), refused(3, 2))
        self.says(self.filled(60_000, POINT + b'p\t0\t', b',\n'), refused(5, 2))
        self.says(self.filled(60_000, POINT + b'p\t0\t', b'.\n'), refused(4, 2))
        self.says(self.filled(60_000, COMMA + b't\t', b'.\n'), refused(5, 2))
        self.says(self.filled(60_000, POINT + b'p\t0\t', b'\t\n'), refused(3, 2))
        self.says(self.filled(60_000, b'', b'\n'), refused(2, 1))
        self.says(60_000 * b'\n', refused(2, 1))
        self.says(COMMA + 59_988 * b'\n', refused(3, 2))

    def test_the_longest_good_route(self):
        # every line as long as a good line can be, and a pen-up in every gap
        point = b'p\t-089.1234567\t-179.1234567\n'
        text = POINT + b't\t999.999\n' + b'g\n'.join(1000 * [point])
        self.says(text, accepted(1000, 0, b'999999000'), b'')
        self.says(self.filled(60_000, text + b'z', b'\n'), refused(3, 2002))
        self.says(self.filled(60_001, text + b'z', b'\n'), refused(1, 0))

    def test_a_thousand_points_and_no_more(self):
        self.says(THOUSAND, accepted(1000, 0), 999 * b'none\t0\n')
        self.says(POINT + 500 * b'p\t90\t0\np\t-90\t0\n', accepted(1000, 999 * POLE_TO_POLE), 999 * (b'none\t%d\n' % POLE_TO_POLE))
        self.says(THOUSAND + b'p\t0\t0\n', refused(9, 1002))
        self.says(THOUSAND + 2 * b'p\t0\t0\n' + b'z', refused(9, 1002))
        self.says(THOUSAND.replace(POINT, COMMA + b't\t1,5\n') + b'p\t0\t0\n', refused(9, 1003))
        self.says(THOUSAND + b'g\np\t0\t0\n', refused(9, 1003))

    def test_a_line_after_a_thousand_points_is_judged_in_order(self):
        # 3, 8, 9, then the fields
        for line, number in ((b'p\t0\n', 3), (b'p\t0\t0', 3), (b'p\t0\t0\t0\n', 3), (b'z\n', 3), (b'\n', 3), (b'g', 3), (b't\t1\n', 8),
                             (b'g\n', 8), (b'p\tx\t,\n', 9), (b'p\t91\t0\n', 9), (b'p\t0\t180\n', 9), (b'p\t1,5\t0\n', 9), (b'p\t\t\n', 9)):
            self.says(THOUSAND + line, refused(number, 1002))
        # the first bad line from the top
        self.says(THOUSAND.replace(POINT, POINT + b'p\t0\t180\n'), refused(7, 2))

    def test_bytes_that_come_one_by_one(self):
        # a read of this socket gets one byte, however many it asks for
        for text, name in itertools.product((POINT + b't\t1.5\np\t0\t0\np\t0\t90\n', THOUSAND, self.filled(60_000, POINT + b'p\t0\t', b',\n'),
                                             60_001 * b'\n'), PROGRAMS):
            ours, theirs = socket.socketpair(socket.AF_UNIX, socket.SOCK_SEQPACKET)
            with ours, subprocess.Popen(built.command(name), stdin=theirs, stdout=subprocess.PIPE) as running:
                theirs.close()
                for byte in text:
                    ours.send(bytes([byte]))
                ours.close()
                self.assertEqual(running.stdout.read(), PROGRAMS[name][0](text))
            self.assertEqual(running.returncode, 0)


class Bytes(unittest.TestCase):
    def test_every_value_of_a_byte(self):
        # each at another place; through the doors every value stands at every place
        text = POINT + b't\t1.5\np\t-2.5\t34\np\t4\t5\ng\np\t4\t5\n'
        given = [text[:value % len(text)] + bytes([value]) + text[value % len(text):] for value in range(256)]
        for name, (by_model, _) in PROGRAMS.items():
            self.assertEqual(differing(given, map(program(name), given), by_model), [])

    def test_the_other_mark_at_every_place_of_a_number(self):
        for header, number, other in ((POINT, b'-1.5', b','), (COMMA, b'-1,5', b'.')):
            for at in range(len(number) + 1):
                spoilt = number[:at] + other + number[at:]
                for line, name in itertools.product((b't\t%b\n', b'p\t%b\t0\n', b'p\t0\t%b\n'), PROGRAMS):
                    self.assertEqual(program(name)(header + line % spoilt), refused(5, 2))

    def test_targets_without_decimals(self):
        for header in (POINT, COMMA):
            for kilometres in (0, 7, 10, 99, 100, 999):
                text = header + b't\t%d\n' % kilometres
                self.assertEqual(program('routereport')(text), accepted(0, 0, b'%d' % (1_000_000 * kilometres)))
                self.assertEqual(program('courselist')(text), b'')


class Random(unittest.TestCase):
    @classmethod
    def setUpClass(cls):
        print(f'{COUNT} random texts; to try the same again: SEED={SEED} TEXTS={COUNT} tests/run')
        cls.given = list(texts.random_texts(random.Random(SEED), COUNT))
        cls.said = {name: list(map(program(name), cls.given)) for name in PROGRAMS}

    def differing(self, name, said=None):
        """The texts that the model does not take as a program has, or as is said."""
        return differing(self.given, said or self.said[name], PROGRAMS[name][0])

    def test_the_programs_print_what_the_model_says(self):
        for name in PROGRAMS:
            with self.subTest(name):
                self.assertEqual(self.differing(name), [])

    def test_every_answer_comes_up(self):
        for name, said in self.said.items():
            self.assertEqual({refusal_in(answer) for answer in said}, set(range(10)), name)

    def test_one_difference_is_seen(self):
        k = COUNT // 2
        for name, said in self.said.items():
            other = [*said[:k], said[k] + b'\n', *said[k + 1:]]
            self.assertEqual(self.differing(name, other), [(self.given[k], other[k], said[k])])

    def test_a_model_with_one_thing_wrong_is_seen(self):
        for name, part, value in (*((name, 'leg', WRONG['leg']) for name in PROGRAMS), ('courselist', 'course', WRONG_COURSES['a tick too much'])):
            with self.subTest(name, part=part), mock.patch.object(model, part, value):
                self.assertNotEqual(self.differing(name), [])


class Model(unittest.TestCase):
    def test_sines(self):
        self.assertEqual([model.ENTRIES[k] for k in (0, 1, 1500, 4500)], [0, 3_490_658_433, 5 * 10**12, 10**13])
        self.assertEqual([model.long_sine(1), model.short_sine(1), model.long_sine(-1), model.short_sine(-1)], [17_453, 1, -17_453, -1])
        self.assertEqual([model.long_sine(150 * sign * model.DEGREE) for sign in (1, -1)], [5 * 10**12, -5 * 10**12])
        self.assertEqual([model.short_cosine(model.QUARTER - k) for k in range(6)], [0, 1, 3, 5, 6, 8])

    def test_sines_in_half_ticks(self):
        self.assertEqual([model.long_sine_half(k) for k in (0, 1, 2, 3, 400_000, 600_000_000, 1_800_000_000)],
                         [0, 8_726, 17_453, 26_179, 3_490_658_433, 5 * 10**12, 10**13])
        self.assertEqual([model.half_ticks_in_range(k) for k in (-1, 0, 1_800_000_000, 1_800_000_001)], [False, True, True, False])
        # "short sines and cosines are the long ones divided by 5,000"
        self.assertEqual([model.leg_sine(k) for k in (*range(7), 600_000_000, 1_800_000_000)], [0, 1, 3, 5, 6, 8, 10, 10**9, 2 * 10**9])
        self.assertEqual([model.leg_cosine(sign * k) for k in (0, 1, 600_000_000, model.QUARTER - 1, model.QUARTER) for sign in (1, -1)],
                         [2 * 10**9, 2 * 10**9, 2 * 10**9 - 1, 2 * 10**9 - 1, 10**9, 10**9, 3, 3, 0, 0])
        # "greatest angle" matters below 90 degrees: 3,282 half ticks there share one short sine
        self.assertEqual([model.greatest_angle(2 * 10**9 - k) for k in (0, 1, 2)], [1_800_000_000, 1_799_999_999, 1_800_000_000 - 3_283])

    def test_lengths(self):
        for leg, length in (((0, 0, 0, 0), 0), ((0, 0, 1, 0), 11), ((0, 0, 2, 0), 22), ((0, 0, 3, 0), 33), ((600_000_000, 0, 600_000_000, 1), 0),
                            ((0, 1_799_000_000, 0, -1_799_000_000), 22_238_985), ((900_000_000, 0, -900_000_000, 0), POLE_TO_POLE),
                            ((0, 0, 0, 900_000_000), 10_007_543_430), ((0, 0, 0, 1_799_990_000), 20_014_977_344),
                            ((-388_974_850, 745_373_330, 268_723_365, -1_239_838_359), 17_836_465_815)):
            self.assertEqual((model.leg(*leg), model.leg(*leg[2:], *leg[:2])), (length, length))

    def reads(self, text, buffer, answer, after):
        lent = list(buffer)
        self.assertEqual((model.read(text, lent), lent), (answer, after))

    def test_the_lent_buffer(self):
        two = POINT + b't\t1\np\t90\t-180\ng\np\t-0.0000001\t5\n'
        numbers = [900_000_000, -1_800_000_000, 1, -1, 50_000_000, 1]
        self.reads(two, 8 * [7], (0, 0, 2, 1, 0, 1_000_000), numbers + [7, 7])
        self.reads(two, 6 * [7], (0, 0, 2, 1, 0, 1_000_000), numbers)
        self.reads(POINT + b'p\t0\t0\np\t0\t90\n', 7 * [7], (0, 0, 2, 0, 10_007_543_430, 0), [0, 0, 1, 0, 900_000_000, 0, 7])
        self.reads(POINT, [], (0, 0, 0, 0, 0, 0), [])

    def test_refusals_leave_the_buffer_as_it_is(self):
        two = POINT + b't\t1\np\t90\t-180\np\t1\t5\n'
        # 10 comes after all lines and after a last g
        self.reads(two, 5 * [7], (10, 0, 0, 0, 0, 0), 5 * [7])
        self.reads(two, [], (10, 0, 0, 0, 0, 0), [])
        self.reads(two + b'z\n', 5 * [7], (3, 5, 0, 0, 0, 0), 5 * [7])
        self.reads(two + b'g\n', 5 * [7], (8, 5, 0, 0, 0, 0), 5 * [7])
        self.reads(two + b'p\t0\t180\n', 9 * [7], (7, 5, 0, 0, 0, 0), 9 * [7])


if __name__ == '__main__':
    unittest.main()
