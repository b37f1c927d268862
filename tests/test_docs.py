"""What the README and the docs show and say: their examples run, their tables are what the programs print, their files are there."""
import itertools
import math
import pathlib
import re
import subprocess
import sys
import tempfile
import textwrap
import unittest

import built
import doors
import model

# docs/PORT.md tells of files that are gone
PAGES = ['README.md', 'bench/README.md', *sorted(f'docs/{path.name}' for path in built.ROOT.glob('docs/*.md') if path.name != 'PORT.md')]
# a file or folder of the project, as the pages name it; a capital word stands for any name
NAMED = re.compile(r'`((?:\.ci|bench|crates|docs|examples|include|shell|tests|tools)/[\w./-]*)`|\]\(([\w./-]+)\)')
# the program that each script runs, and what it prints by the model
SCRIPTS = {'report': ('routereport', model.report), 'courses': ('courselist', model.course_list)}


def page(name):
    return (built.ROOT / name).read_text(encoding='utf-8')


def missing(name, text):
    """The files and folders that a page names and that are not there. A link starts from the page's own folder."""
    for said, link in NAMED.findall(text):
        path = built.ROOT / said if said else (built.ROOT / name).parent / link
        if not path.exists() and not re.search(r'/[A-Z]+/', said):
            yield said or link


def pasted(text):
    """Each route that a page pipes into a script, with the script and what the page shows below that."""
    return re.findall(r"^    (printf '.*') \| \./(report|courses)\n(?:\n\S.*(?:\n.+)*)?\n\n((?:    .*\n)+)", text, re.M)


def row(table, name):
    """The numbers of a row: of a table with bars, or of one with spaces."""
    found = re.search(rf'^(?:\| |    ){re.escape(name)} (.*)$', table, re.M)
    return [float(word) for word in re.findall(r'[\d.]+(?:e-\d+)?', found[1].replace(',', ''))]


def figures(accuracy, bench):
    """The figures that the README says, worked out from the pages' tables: what a leg and its course are off by, and what takes how long."""
    near = max(row(accuracy, f'{leg} |')[0] for leg in ('1 m', '10 m', '100 m', '1 km', '10 km', '100 km'))
    pole, antipode = (row(accuracy, leg)[0] for leg in ('1 km, near a pole', 'nearly to the antipode'))
    courses = accuracy[accuracy.rindex('| a leg of about |'):]  # the second table
    short, longer = (row(courses, f'{leg} |')[0] for leg in ('1 m', '1 km'))
    there, back, leg, course = ([row(bench, f'{door} ')[0] for door in doors] for doors in (
        ('long_sine', 'long_sine_half', 'short_sine', 'cylindrical', 'sinusoidal'), ('cylindrical_back', 'sinusoidal_back'), ('leg',), ('course',)))
    return [f'{math.ceil(near)} mm in legs of up to 100 km',
            f'{pole / 1e3:.0f} m in a leg of 1 km close to a pole',
            f'{antipode / 1e6:.2f} km in one that leads nearly to the other side',
            f'{math.ceil(10 * short) / 10} degrees from the true one in a leg of 1 m',
            f'{math.ceil(1000 * longer) / 1000} in one of 1 km',
            f'a sine or a place takes some {min(there):.0f} to {max(there):.0f} nanoseconds, a way back {min(back):.0f} to {max(back):.0f}, ',
            f'a leg some {leg[0]:.0f} and a course some {course[0]:.0f}.',
            f'take some {row(bench, "root_steps")[0]:.0f} nanoseconds',
            f'a route of 1,000 points takes some {row(bench, "read_route, near, joined")[0] / 1e6:.2f} milliseconds',
            f'writing it back some {row(bench, "write_route, near")[0] / 1e6:.2f}, ',
            f'asking for its size alone some {row(bench, "route_size, near")[0] / 1e6:.2f}, ',
            f'point by point, some {row(bench, "pen_step")[0] / 1e3:.2f} milliseconds',
            f'the first 10 of its points meet takes some {row(bench, "target_met, 10 points")[0] / 1e3:.0f} microseconds']


FIELD = 55_000  # the square metres in the example of the school method
FIGURE = re.compile(r'\d(?:[\d,]*\d)?')


def school_figures(root, count, *numbers):
    """The figures of that example, in the page's order, worked out from what the door answers."""
    pairs, rows, tries, checks, limits = [], [], [], [], []
    so_far = part = rest = 0
    for pair, digit, left in (numbers[at:at + 3] for at in range(0, 3 * count, 3)):
        brought, twenty, more = 100 * rest + pair, 20 * so_far, digit + 1
        taken, so_far, part, rest = (twenty + digit) * digit, 10 * so_far + digit, 100 * part + pair, left
        pairs.append(f'{pair:02}' if rows else f'{pair}')
        rows.append((pairs[-1], brought, twenty, digit, taken, rest, so_far))
        tries.append((twenty, digit, digit, taken, brought, twenty, more, more, (twenty + more) * more, brought))
        checks.append((so_far, rest, part))
        limits.append((rest, 2 * so_far))
    side = root, rest, root, rest, FIELD, root + 1, (root + 1)**2
    wanted = [FIELD, *pairs, 20, *itertools.chain(*rows, *tries), *side, *itertools.chain(*checks, *limits)]
    return [figure if isinstance(figure, str) else f'{figure:,}' for figure in wanted]


class Docs(unittest.TestCase):
    def test_the_routes_to_paste_are_answered_as_shown(self):
        shown = pasted(page('README.md'))
        self.assertEqual([script for _, script, _ in shown], ['report', 'report', 'courses'])
        for command, script, answer in shown:
            text = subprocess.run(['/bin/sh', '-c', command], check=True, capture_output=True).stdout
            program, by_model = SCRIPTS[script]
            self.assertEqual((built.run(program, text), by_model(text)), 2 * (re.sub('^    ', '', answer, flags=re.M).encode(),))

    def test_the_tables_of_accuracy_are_what_their_program_prints(self):
        ran = subprocess.run([sys.executable, built.ROOT / 'bench/accuracy.py'], check=True, capture_output=True, text=True)
        self.assertIn(ran.stdout, page('docs/ACCURACY.md'))

    def test_the_bench_runs_over_every_door_and_its_twin_agrees(self):
        ran = subprocess.run([built.ROOT / 'bench/run', '--once'], capture_output=True, text=True)
        self.assertEqual(ran.returncode, 0, ran.stdout + ran.stderr)
        for table in (ran.stdout, page('bench/README.md')):
            timed = {line.strip().split(',')[0].split()[0] for line in table.split('\n') if re.match(r' *\w+(, [\w, ]+)? +\d+\.\d', line)}
            self.assertEqual(timed - {'a'}, set(model.DOORS))

    def test_the_readme_says_the_figures_of_the_tables(self):
        readme = ' '.join(page('README.md').split())
        tables = page('docs/ACCURACY.md'), page('bench/README.md')
        self.assertEqual([figure for figure in figures(*tables) if figure not in readme], [])
        # with a 9 before each number none of them is the README's
        others = [re.sub(r'(?<=[ |] )(?=\d[\d,]*\.\d)', '9', table) for table in tables]
        self.assertEqual([figure for figure in figures(*others) if figure in readme], [])

    def test_the_school_method_s_example_has_the_door_s_figures(self):
        example = re.search(r'^## An example\n(.*?)^## ', page('docs/SCHOOL_ROOT.md'), re.M | re.S)[1]
        line, = doors.answers([('root_steps', FIELD)])
        for answer in (map(int, line.split()), model.DOORS['root_steps'](FIELD)):
            wanted = school_figures(*answer)
            self.assertEqual(FIGURE.findall(example), wanted)
        # with a 9 before any one of them the example is another
        for found in FIGURE.finditer(example):
            self.assertNotEqual(FIGURE.findall(example[:found.start()] + '9' + example[found.start():]), wanted)

    def test_the_school_method_s_program_prints_what_the_page_shows(self):
        program, shown = map(textwrap.dedent, re.search(r'\n((?:    .*\n|\n)+)prints\n\n((?:    .*\n)+)', page('docs/SCHOOL_ROOT.md')).groups())
        with tempfile.TemporaryDirectory() as room:
            file = pathlib.Path(room) / 'school.c'
            file.write_text(program, encoding='utf-8')
            printed = built.run(doors.linked(file.parent, source=file)).decode()
        root, steps = model.root_steps(FIELD)
        self.assertEqual((printed, ''.join(f'{pair} {digit} {rest}\n' for pair, digit, rest in steps) + f'root {root}\n'), (shown, shown))

    def test_the_files_that_are_named_are_there(self):
        self.assertEqual({name: list(missing(name, page(name))) for name in PAGES}, {name: [] for name in PAGES})
        wrong = '`tests/none.py` `crates/NAME/specs/` [x](GATE.md) [y](docs/GATE.md)'
        self.assertEqual(list(missing('docs/PROMISES.md', wrong)), ['tests/none.py', 'docs/GATE.md'])

    def test_counts_and_times_of_the_gate_stand_in_one_place(self):
        self.assertEqual([name for name in PAGES if re.search(r'\d+ passed', page(name))], [])
        self.assertEqual([name for name in PAGES if re.search(r'minutes of processor time', page(name))], ['docs/GATE.md'])


if __name__ == '__main__':
    unittest.main()
