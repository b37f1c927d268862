"""The examples for C and Rust build as the README says and print what the documents' rules say, and the README shows them as they are."""
import contextlib
import ctypes
import os
import pathlib
import re
import subprocess
import tempfile
import textwrap
import unittest

import built
import doors
import model

README = built.ROOT / 'README.md'
SOURCE, REMARK = built.ROOT / 'examples/draw.c', built.ROOT / 'examples/remark.c'
QUARTER = model.leg(0, 0, 0, model.QUARTER)  # of the equator
TEXT = b'route\tcomma\nt\t55,5\np\t60\t10\np\t60\t11\ng\np\t60,5\t10,5\np\t-33,9\t151,2\n'
WINDOW, DIVISOR, MERIDIAN = (0.0, 1e9, 0.0, 1e10), 1_000_000, 0
STROKES = {0: 'outside', 1: 'move', 2: 'line'}
SHOWN = 'route\tpoint\nt\t10\np\t-0.5\t7\n'  # what the README's route is with the other mark


def expected():
    """What the example has to print, by the model."""
    buffer = [0] * model.MOST_NUMBERS
    refusal, line, points, has_target, length, target = model.DOORS['read_route'](TEXT, buffer)
    refusal, met, looked = model.DOORS['target_met'](buffer[:model.NUMBERS * points], target)
    said = [f'{points} points, {length} mm', f'target {target} mm, {"met" if met else "not met"}: {looked} points looked at']
    pen = 0
    for at in range(0, model.NUMBERS * points, model.NUMBERS):
        latitude, longitude, third, *_ = buffer[at:at + model.NUMBERS]
        refusal, stroke, x, y, pen = model.DOORS['pen_step'](pen, *WINDOW, DIVISOR, MERIDIAN, latitude, longitude, third)
        said.append(STROKES[stroke] + (f' {x:.6f} {y:.6f}' if stroke else ''))
    return '\n'.join(said) + '\n'


@contextlib.contextmanager
def built_by_the_readme(word):
    """What the README's command line with a word in it prints, and the folder that it is run in, over links to what it names of the project."""
    command, = re.findall(rf'^    (.*\b{word}\b.*)$', README.read_text(encoding='utf-8'), re.M)
    with tempfile.TemporaryDirectory() as room:
        for name in ('examples', 'include', 'crates'):
            pathlib.Path(room, name).symlink_to(built.ROOT / name)
        ran = subprocess.run(['/bin/sh', '-c', command], cwd=room, capture_output=True, text=True)
        if ran.returncode or ran.stderr:
            raise RuntimeError(f'{command} ended with status {ran.returncode} and said {ran.stderr!r}')
        yield ran.stdout, room


def called(source):
    """The call of the writer in a program."""
    return re.search(r'^    senruhobi_written [^;]*;\n', source, re.M)[0]


class Example(unittest.TestCase):
    def test_it_prints_what_the_model_says(self):
        with tempfile.TemporaryDirectory() as room:
            program = doors.linked(pathlib.Path(room), source=SOURCE)
            self.assertEqual(built.run(program).decode(), expected())

    def test_the_readme_shows_it(self):
        readme = README.read_text(encoding='utf-8')
        for shown in (SOURCE.read_text(encoding='utf-8'), expected(), SHOWN):
            self.assertIn(textwrap.indent(shown, '    '), readme)
        remark = REMARK.read_text(encoding='utf-8')
        self.assertIn(called(remark), readme)
        self.assertIn('uint8_t out[SENRUHOBI_MOST_WRITTEN];', remark)  # which the README says

    @built.needs('cc')
    @built.on_x86_64
    def test_it_builds_as_the_readme_says(self):
        with built_by_the_readme('draw.c') as (said, _):
            self.assertEqual(said, expected())

    @built.needs('cc')
    @built.on_x86_64
    def test_the_one_that_writes_builds_as_the_readme_says(self):
        with built_by_the_readme('remark.c') as (said, _):
            self.assertEqual(said, SHOWN)

    @built.needs('cc')
    @built.needs('rustc')
    @built.on_x86_64
    def test_the_one_in_rust_builds_as_the_readme_says(self):
        with built_by_the_readme('length.rs') as (said, _):
            self.assertEqual(said, f'{QUARTER} mm\n')
        self.assertIn(f'prints `{QUARTER} mm`', README.read_text(encoding='utf-8'))

    @built.needs('cc')
    @built.on_x86_64
    def test_a_shared_library_builds_as_the_readme_says(self):
        class Length(ctypes.Structure):
            _fields_ = [('refusal', ctypes.c_uint32), ('millimetres', ctypes.c_uint64)]

        with built_by_the_readme('shared') as (_, room):
            leg = ctypes.CDLL(f'{room}/libsenruhobi.so').senruhobi_leg
            leg.restype = Length
            length = leg(0, 0, 0, model.QUARTER)
            self.assertEqual((length.refusal, length.millimetres), (0, QUARTER))


class Remark(unittest.TestCase):
    LONG = b'g\n'.join(1000 * [b'p\t-89.9999999\t-179.9999999\n'])
    # routes, and what they are with the other mark
    WRITTEN = [
        (b'route\tcomma\n', b'route\tpoint\n'), (b'route\tpoint\n', b'route\tcomma\n'), (b'route\tcomma\nt\t0\n', b'route\tpoint\nt\t0\n'),
        (b'route\tcomma\nt\t55,5\np\t60\t10\np\t60\t11\ng\np\t60,5\t10,5\np\t-33,9\t151,2\n',
         b'route\tpoint\nt\t55.5\np\t60\t10\np\t60\t11\ng\np\t60.5\t10.5\np\t-33.9\t151.2\n'),
        (b'route\tpoint\nt\t002.500\np\t-0\t-000.0000001\n', b'route\tcomma\nt\t2,5\np\t0\t-0,0000001\n'),
        (b'route\tpoint\nt\t999.999\n' + LONG, b'route\tcomma\nt\t999,999\n' + LONG.replace(b'.', b',')),
    ]
    REFUSED = {b'route\tpoint\nt\t10,000\n': 'refused: 5 at line 2\n', b'': 'refused: 2 at line 1\n', 60_001 * b'\n': 'refused: 1 at line 0\n'}

    @classmethod
    def setUpClass(cls):
        room = tempfile.TemporaryDirectory()
        cls.addClassCleanup(room.cleanup)
        cls.program = doors.linked(pathlib.Path(room.name), source=REMARK)

    def test_it_writes_a_route_with_the_other_mark(self):
        for text, other in self.WRITTEN:
            self.assertEqual(built.run(self.program, text), other)

    def test_it_says_a_refusal(self):
        for text, said in self.REFUSED.items():
            ran = subprocess.run(built.command(self.program), input=text, capture_output=True, timeout=60)
            self.assertEqual((ran.returncode, ran.stdout, ran.stderr.decode()), (1, b'', said))

    def test_what_cannot_be_read_or_written_is_no_route(self):
        with open('/dev/full', 'wb') as full:
            ran = subprocess.run(built.command(self.program), input=b'route\tcomma\n', stdout=full, timeout=60)
        self.assertEqual(ran.returncode, 2)
        folder = os.open('/', os.O_RDONLY)
        self.addCleanup(os.close, folder)
        ran = subprocess.run(built.command(self.program), stdin=folder, capture_output=True, timeout=60)
        self.assertEqual((ran.returncode, ran.stdout), (2, b''))


if __name__ == '__main__':
    unittest.main()
