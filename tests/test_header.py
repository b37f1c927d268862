"""The header for C: its constants and refusals are the crates', its strokes the model's, its example runs, and the library is what it says."""
import math
import pathlib
import re
import tempfile
import textwrap
import unittest

import built
import doors
import elf
import model
from figures import LONGEST

HEADER = built.ROOT / 'include/senruhobi.h'
# the constants, and the crate that knows each
CONSTANTS = {'NUMBERS': 'points', 'MOST_POINTS': 'points', 'MOST_NUMBERS': 'points', 'MOST_BYTES': 'route', 'MOST_WRITTEN': 'writer',
             'MOST_PAIRS': 'roots'}
IN_RATTLE = re.compile(r'\bconst (\w+): \w+ = ([\w *]+);')
IN_C = re.compile(r'\bSENRUHOBI_(\w+) = ([\w *]*\w)')
REFUSAL = re.compile(r'Refusal::(\w+) => (\d+),')
REFUSED = re.compile(r'SENRUHOBI_REFUSED_(\w+) = (\d+),? /\* (.*) \*/')
DOOR = re.compile(r'^senruhobi_\w+ (senruhobi_\w+)\(', re.M)


def source(crate):
    return (built.ROOT / 'crates' / crate / 'src/lib.rt').read_text(encoding='utf-8')


def constants(pattern, text):
    """The value of each constant that a text sets, worked out from the numbers and constants that it names."""
    found = {name: said.replace('SENRUHOBI_', '') for name, said in pattern.findall(text)}

    def value(said):
        return math.prod(value(found[word]) if word in found else int(word) for word in said.split(' * '))

    return {name: value(said) for name, said in found.items()}


def example(header):
    """The example in the header's first comment."""
    lines = re.findall(r'^ \*(     .*|)$', header, re.M)
    return textwrap.dedent('\n'.join(lines)).strip() + '\n'


def library():
    return list(elf.members(built.library().read_bytes()))


class Header(unittest.TestCase):
    def setUp(self):
        self.header = HEADER.read_text(encoding='utf-8')

    def differing(self, header):
        """The constants and refusals that a header says otherwise than the crates, and the strokes otherwise than the model."""
        said = constants(IN_C, header)
        wanted = {'OUTSIDE': model.OUTSIDE, 'MOVE': model.MOVE, 'LINE': model.LINE}
        wanted.update((name, constants(IN_RATTLE, source(crate))[name]) for name, crate in CONSTANTS.items())
        found = {name for name in wanted if said.get(name) != wanted[name]}
        refusals = {name.upper(): int(number) for name, number in REFUSAL.findall(source('refusals'))}
        named = {name: int(number) for name, number, _ in REFUSED.findall(header)}
        return found | {name for name in refusals.keys() | named.keys() if refusals.get(name) != named.get(name)}

    def test_constants_refusals_and_strokes(self):
        self.assertEqual(self.differing(self.header), set())

    def test_a_header_that_says_otherwise_is_seen(self):
        for old, new, name in (('_NUMBERS = 3', '_NUMBERS = 4', 'NUMBERS'), ('_MOST_POINTS = 1000', '_MOST_POINTS = 1001', 'MOST_POINTS'),
                               ('_BYTES = 60000', '_BYTES = 60001', 'MOST_BYTES'), ('_WRITTEN = 29020', '_WRITTEN = 29022', 'MOST_WRITTEN'),
                               ('_PAIRS = 10', '_PAIRS = 11', 'MOST_PAIRS'), ('_PLACE = 11', '_PLACE = 12', 'PLACE'),
                               ('_MOVE = 1', '_MOVE = 3', 'MOVE'), ('_REFUSED_BUFFER', '_REFUSED_OTHER', 'BUFFER'),
                               ('_REFUSED_BUFFER', '_REFUSED_OTHER', 'OTHER')):
            self.assertIn(old, self.header)
            self.assertIn(name, self.differing(self.header.replace(old, new)))

    def test_the_most_that_is_written_is_what_the_longest_route_needs(self):
        most = constants(IN_C, self.header)['MOST_WRITTEN']
        for comma in (0, 1):
            route = (model.MOST_POINTS * LONGEST, 1, model.MOST_TARGET, comma)
            self.assertEqual(doors.answers([('route_size', *route)]), [f'0 {most} 1'])
            self.assertEqual(model.DOORS['route_size'](*route), (0, most))
        readme = (built.ROOT / 'README.md').read_text(encoding='utf-8')
        self.assertIn(f'{most:,} bytes', ' '.join(readme.split()))

    def test_the_readme_has_the_same_table(self):
        readme = (built.ROOT / 'README.md').read_text(encoding='utf-8')
        self.assertEqual(re.findall(r'^\| (\d+) \| (.*) \|$', readme, re.M), [(number, why) for _, number, why in REFUSED.findall(self.header)])

    def test_its_example_runs(self):
        length = model.leg(0, 0, 0, model.QUARTER)
        with tempfile.TemporaryDirectory() as room:
            file = pathlib.Path(room) / 'example.c'
            file.write_text(example(self.header), encoding='utf-8')
            self.assertEqual(built.run(doors.linked(file.parent, source=file)).decode(), f'{length} {length} {length}\nno such latitude\n')

    def test_its_doors_are_the_library_s(self):
        names = set(DOOR.findall(self.header))
        exported = {symbol.name for member in library() for symbol in elf.symbols(member)
                    if symbol.section and symbol.shared and symbol.name.startswith('senruhobi_')}
        self.assertEqual(names, exported)
        self.assertEqual(names, set(re.findall(r'pub extern "C" fn (\w+)', source('senruhobi'))))
        self.assertEqual(names, {f'senruhobi_{door}' for door in model.DOORS})

    def test_the_library_writes_to_no_data_and_calls_nothing_but_two_functions(self):
        self.assertEqual([elf.written_to(member) for member in library()], [0 for _ in library()])
        wanted = {symbol.name for member in library() for symbol in elf.symbols(member) if not symbol.section and symbol.name}
        self.assertEqual(wanted, {'memcpy', 'memset'})

    def test_the_stack_that_a_call_takes(self):
        with tempfile.TemporaryDirectory() as room:
            # what the loader takes to bind a symbol at its first call differs from machine to machine, so all are bound before
            said = built.run(doors.linked(pathlib.Path(room), '-z', 'now', source=doors.TESTS / 'stack.c')).decode()
        taken = {door: int(size) for door, size in map(str.split, said.splitlines())}
        self.assertEqual(taken.keys(), model.DOORS.keys())
        reading = taken.pop('read_route')
        sizes = [str(math.ceil(size / 1000)) for size in (max(taken.values()), reading)]
        self.assertEqual(re.findall(r'a call takes some (\d+) KB, a reading some (\d+) KB', self.header), [tuple(sizes)])

    def test_data_that_is_written_to_is_seen(self):
        with tempfile.TemporaryDirectory() as room:
            file = pathlib.Path(room) / 'data.c'
            for text, size in (('const int a = 1;', 0), ('int a = 1;', 4), ('int a[2];', 8)):
                file.write_text(text, encoding='utf-8')
                self.assertEqual(elf.written_to(doors.compiled(file, file.parent).read_bytes()), size)


if __name__ == '__main__':
    unittest.main()
