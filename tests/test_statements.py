"""Every function that others can call fixes its result, asks nothing of its caller and is in its crate's list of uniqueness, and a crate holds
nothing but what the prover or the gate reads. Functions that read or print are the exception: no contract can say what is read or printed.

The prover checks each entry of a list, crates/NAME/proofs/Unique.antt: that the function's own contract allows one result. That no function is
missing from the lists is for this test to see.
"""
import pathlib
import re
import tempfile
import unittest
from unittest import mock

import built
import definitions
import sources

LAW = re.compile(r'^use Rattle\.refusals\.specs\.One\.\{One\b', re.M)
ENTRY = r'^pub \S+ : One contracts\.(\S+)\.ended {0}\.(\S+)\.Reads\.Asked {0}\.(\S+)\.Reads\.Learnt$'


def listed(root, crate):
    """The functions in a crate's list, which counts only where the crate has it checked and it speaks of the one law and of the crate's own."""
    proofs = root / 'crates' / crate / 'proofs'
    if not (proofs / 'Unique.antt').is_file() or 'pub mod Unique' not in (proofs / 'Lib.antt').read_text(encoding='utf-8').split('\n'):
        return set()
    text = (proofs / 'Unique.antt').read_text(encoding='utf-8')
    own = {f'use Rattle.{crate}.specs.contracts as contracts', f'use Rattle.{crate}.proofs as {crate}'} <= set(text.split('\n'))
    entries = re.findall(ENTRY.format(crate), text, re.M) if own and LAW.search(text) else []
    return {f'{crate}.{names[0]}' for names in entries if len(set(names)) == 1}


def strays(root):
    """The files of the crates that neither the prover nor the gate reads, as a copy that an editor leaves behind. What rt makes stands in out/."""
    kinds = re.compile(r'crates/\w+/(?:src/\w+\.rt|specs/\w+\.antt|proofs/(?:\w+/)*\w+\.antt|must-fail/\w+\.edit|stdin|stdout)')
    parts = [part for part in root.glob('crates/*/*') if part.name != 'out']
    for path in sorted([*parts, *(path for part in parts for path in part.glob('**/*'))]):
        name = path.relative_to(root).as_posix()
        if path.is_file() and not kinds.fullmatch(name):
            yield name


def needless(functions):
    """What is excepted and need not be: a name that is no function, or one that can neither read nor print."""
    named = {function.name: function for function in functions}
    for name in sorted(sources.READ | sources.PRINT):
        if name not in named:
            yield f'{name} is excepted and cannot be called'
        elif not named[name].has_stream:
            yield f'{name} is excepted and neither reads nor prints'


def faults(root):
    """What is wrong with the functions that others can call, with the lists, and with what is excepted from them."""
    functions = list(sources.callable_functions(root))
    found = list(needless(functions))
    excepted = {name.replace('::', '.') for name in sources.READ | sources.PRINT}
    for crate in sorted({function.crate for function in functions}):
        entries = listed(root, crate)
        names = {'.'.join((crate, *function.path)): function.clauses for function in functions if function.crate == crate}
        for name, clauses in names.items():
            if not re.search(r'\bensures\b', clauses):
                found.append(f'{name} has no ensures')
            if re.search(r'\brequires\b', clauses):
                found.append(f'{name} has a requires')
        found += [f'{name} is not in the list' for name in sorted(names.keys() - entries - excepted)]
        found += [f'{name} is in the list and cannot be called' for name in sorted(entries - names.keys())]
        found += [f'{name} is in the list and excepted from it' for name in sorted(entries & excepted)]
    return found


SOURCE = '''ghost use Rattle.low.specs.Says.{next_of};
pub mod inner;
mod hidden;
pub struct Pen {}
impl Pen {
    // a method
    pub fn turn(self) -> Pen
        ensures { result ≡ self }
    {
        self
    }
}

pub fn next(x: u32) -> u32
    ensures least { 0 < result }
    ensures next { result ≡ next_of x }
{
    if x == 0 { 1 } else { x }
}

pub(crate) fn own(x: u32) -> u32
    requires { 0 < x }
{
    x
}
'''
LIST = '''use Rattle.refusals.specs.One.{One, answers}
use Rattle.low.specs.contracts as contracts
use Rattle.low.proofs as low

pub next : One contracts.next.ended low.next.Reads.Asked low.next.Reads.Learnt
next = answers (λ κs a v w. refl)

pub turn : One contracts.Pen.turn.ended low.Pen.turn.Reads.Asked low.Pen.turn.Reads.Learnt
turn = answers (λ κs a v w. refl)

pub deep : One contracts.inner.deep.ended low.inner.deep.Reads.Asked low.inner.deep.Reads.Learnt
deep = answers (λ κs a v w. refl)
'''
SAYS = '''-- What next answers.
use Rattle.std.specs.Prelude.{ℕ, ◌+◌}

-- one more
abbrev pub next_of : ℕ → ℕ
next_of x = x + more

abbrev more : ℕ
more = 1

abbrev pub nobodys : ℕ
nobodys = 2
'''
FILES = {
    'src/lib.rt': SOURCE,
    'src/inner.rt': 'pub fn deep() -> u32\n    ensures { result ≡ 1 }\n{\n    1\n}\n',
    'src/hidden.rt': 'pub fn unseen() -> u32 {\n    1\n}\n',
    'proofs/Lib.antt': 'pub mod Unique\n',
    'proofs/Unique.antt': LIST,
    'specs/Says.antt': SAYS,
}


class Statements(unittest.TestCase):
    def of(self, file=None, old='', new='', excepted=()):
        """The faults of a small project, one text of it changed, with functions that are excepted, and the definitions that it reaches."""
        with tempfile.TemporaryDirectory() as folder, mock.patch.object(sources, 'READ', set(excepted)), mock.patch.object(sources, 'PRINT', set()):
            for name, text in FILES.items():
                if name == file:
                    self.assertIn(old, text)
                    text = text.replace(old, new)
                path = pathlib.Path(folder, 'crates/low', name)
                path.parent.mkdir(parents=True, exist_ok=True)
                path.write_text(text, encoding='utf-8')
            return faults(pathlib.Path(folder)), definitions.reached(pathlib.Path(folder))

    def test_every_function_that_others_can_call(self):
        self.assertGreater(len(list(sources.callable_functions(built.ROOT))), 40)
        self.assertEqual(faults(built.ROOT), [])

    def test_nothing_else_stands_in_a_crate(self):
        self.assertEqual(list(strays(built.ROOT)), [])
        with tempfile.TemporaryDirectory() as folder:
            for name in (*FILES, 'proofs/inner/deep/Answers.antt', 'out/low', 'out/rlib/low.rlib/format',
                         'specs/Says.antt.orig', 'src/lib.rs', 'proofs/next/notes', 'proofs/out/notes', 'next.edit'):
                path = pathlib.Path(folder, 'crates/low', name)
                path.parent.mkdir(parents=True, exist_ok=True)
                path.touch()
            self.assertEqual([name[len('crates/low/'):] for name in strays(pathlib.Path(folder))],
                             ['next.edit', 'proofs/next/notes', 'proofs/out/notes', 'specs/Says.antt.orig', 'src/lib.rs'])

    def test_what_is_missing_is_seen(self):
        self.assertEqual(self.of()[0], [])
        for file, old, new, fault in (
            ('src/lib.rt', 'pub fn next(x: u32) -> u32\n', 'pub fn next(x: u32) -> u32\n    requires { 0 < x }\n', 'low.next has a requires'),
            ('src/lib.rt', '    ensures least { 0 < result }\n    ensures next { result ≡ next_of x }\n', '', 'low.next has no ensures'),
            ('src/lib.rt', 'pub(crate) fn own', 'pub fn own', 'low.own has a requires'),
            ('src/lib.rt', '\nmod hidden', '\npub mod hidden', 'low.hidden.unseen has no ensures'),
            ('src/inner.rt', 'deep', 'deeper', 'low.inner.deeper is not in the list'),
            ('src/inner.rt', 'pub fn', 'fn', 'low.inner.deep is in the list and cannot be called'),
            ('proofs/Unique.antt', 'pub turn', '-- pub turn', 'low.Pen.turn is not in the list'),
            ('proofs/Unique.antt', 'One contracts.next.ended', 'One contracts.inner.deep.ended', 'low.next is not in the list'),
            ('proofs/Unique.antt', 'low.next.Reads.Learnt', 'low.inner.deep.Reads.Learnt', 'low.next is not in the list'),
            ('proofs/Unique.antt', 'Rattle.refusals.specs.One', 'Rattle.low.specs.One', 'low.next is not in the list'),
            ('proofs/Unique.antt', 'Rattle.low.specs.contracts', 'Rattle.high.specs.contracts', 'low.next is not in the list'),
            ('proofs/Unique.antt', 'Rattle.low.proofs', 'Rattle.high.proofs', 'low.next is not in the list'),
            ('proofs/Lib.antt', 'pub mod Unique', 'pub mod Others', 'low.next is not in the list'),
        ):
            with self.subTest(fault):
                self.assertIn(fault, self.of(file, old, new)[0])

    def test_an_exception_is_no_wider_than_it_has_to_be(self):
        # the list has deep; deeper can print, and as quiet it cannot
        gone, quiet = ('src/inner.rt', 'deep()', 'deeper(rt: &impl Print)'), ('src/inner.rt', 'deep()', 'deeper()')
        self.assertEqual(self.of(*gone, excepted=['low::inner::deeper'])[0], ['low.inner.deep is in the list and cannot be called'])
        for stream in ('deeper<R: Read>(from: &mut R)', 'deeper<W: Write>(to: &mut W)', 'deeper(rt: HostRuntime)'):
            self.assertEqual(self.of(*gone[:2], stream, excepted=['low::inner::deeper'])[0], ['low.inner.deep is in the list and cannot be called'])
        for change, more, fault in (
            (quiet, {}, 'low::inner::deeper is excepted and neither reads nor prints'),
            (('src/inner.rt', 'deep() -> u32', 'deeper() -> Input::Read'), {}, 'low::inner::deeper is excepted and neither reads nor prints'),
            (gone, {'excepted': ['low::inner::deepest']}, 'low::inner::deepest is excepted and cannot be called'),
            (gone, {'excepted': ['low::next']}, 'low.inner.deeper is not in the list'),
            ((), {'excepted': ['low::inner::deep']}, 'low.inner.deep is in the list and excepted from it'),
            (('src/inner.rt', 'pub fn deep() -> u32\n    ensures { result ≡ 1 }\n', 'pub fn deeper() -> u32 '), {}, 'low.inner.deeper has no ensures'),
            (('src/inner.rt', 'pub fn deep() -> u32\n', 'pub fn deeper() -> u32\n    requires { 0 < 1 }\n'), {}, 'low.inner.deeper has a requires'),
        ):
            with self.subTest(fault):
                self.assertIn(fault, self.of(*change, **{'excepted': ['low::inner::deeper'], **more})[0])

    def test_a_name_that_is_passed_on_is_not_passed_over(self):
        with self.assertRaises(ValueError):
            self.of('src/lib.rt', 'mod hidden;', 'mod hidden;\npub use hidden::unseen;')

    def test_the_definitions_behind_a_contract_are_counted(self):
        texts = self.of()[1]
        self.assertEqual({name: len(text) for (_, _, name), text in texts.items()}, {'next_of': 47, 'more': 24})


if __name__ == '__main__':
    unittest.main()
