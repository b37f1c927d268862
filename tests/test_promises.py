"""docs/PROMISES.md says what the prover said: its functions, theorems and edits are there, and each edit fails where the page says so.

On the page a function is `crate::name`, a theorem `crate/Module.name` and an edit `crate/label`. A wrong program leaves its function unproved; a
contract that says less, its crate's list of uniqueness; and an edit beside a promise, which changes a definition, one of the promise's theorems. For
most edits that is what rt tells of them, as `rt must-fail` says once more after `rt ci`; for the others it is asked (refused.py).
"""
import collections
import os
import pathlib
import re
import tempfile
import unittest
from unittest import mock

import built
import definitions
import refused
import sources
from test_gate import script

FUNCTION = re.compile(r'`(\w+(?:::\w+)+)`')
# `crate/..` says how they are named, and the others are folders
THEOREM = re.compile(r'`(?!(?:crate|docs|proofs|specs|tests)/)((\w+)/\w+\.[^`]+)`')
EDIT = re.compile(r'`(?!crate/)(\w+)/(\w+)`')

# how many wrong programs a function has at the least: a pen is up or down, so that there is no second wrong answer; of what goes to standard error no
# contract says anything
WRONG_PROGRAMS = {'pen::Pen::new': 1, 'streams::fail': 0}


def rows(text, *heads):
    """The rows of the tables with these heads, as lists of cells."""
    inside = False
    for line in text.split('\n'):
        cells = [cell.strip() for cell in line.strip('|').split('|')]
        if not line.startswith('|'):
            inside = False
        elif cells == list(heads):
            inside = True
        elif inside and set(line) - set('|- '):
            yield cells


def unnamed(text, root):
    """Edits, theorems and functions that are on the page or in the project and not in both."""
    edits = {(path.parts[-3], path.stem) for path in root.glob('crates/*/must-fail/*.edit')}
    mentioned = set(EDIT.findall(text))
    yield from (f'{crate}/{label} is not mentioned' for crate, label in sorted(edits - mentioned))
    yield from (f'{crate}/{label} is no edit' for crate, label in sorted(mentioned - edits))
    yield from (f'{theorem} is no theorem' for theorem, crate in THEOREM.findall(text) if not refused.home(root / 'crates' / crate, theorem))
    functions = {function.name for function in sources.callable_functions(root)}
    listed = {name for cells in rows(text, 'function', 'its result is', 'wrong programs') for name in FUNCTION.findall(cells[0])}
    yield from (f'{name} is not in the table' for name in sorted(functions - listed))
    yield from (f'{name} is no function' for name in sorted(listed - functions))


def beside(text):
    """What stands on the page beside edits: functions with wrong programs, lists with contracts that say less, and the theorems of each promise."""
    for cells in rows(text, 'function', 'its result is', 'wrong programs'):
        for name in FUNCTION.findall(cells[0]):
            yield 'program', [name], EDIT.findall(cells[2])
    for cells in rows(text, 'crate', 'a contract that says less, which its list refuses'):
        for crate, label in EDIT.findall(cells[1]):
            yield 'contract', [f'{crate}/Unique'], [(crate, label)]
    for cells in rows(text, 'promise', 'theorem', 'refuses'):
        yield cells[0], [theorem for theorem, *_ in THEOREM.findall(cells[1])], EDIT.findall(cells[2])


def unrefused(text, root, told, ask):
    """Functions, lists and theorems that an edit beside them did not touch. Told is what rt tells of each edit, and ask gives what else failed."""
    yield from (f'{crate}/{label} is not refused' for crate, label in sorted(set(EDIT.findall(text))) if told.get((crate, label)) is None)
    failed = {(crate, label): refused.named(root, crate, message or '') for (crate, label), message in told.items()}
    wanted = collections.defaultdict(set)
    for kind, names, edits in beside(text):
        for name in names:
            # a wrong program fails in each of its functions, and a theorem with one of its edits
            open_edits = [edit for edit in edits if name not in failed.get(edit, ())]
            if open_edits and (kind in ('program', 'contract') or len(open_edits) == len(edits)):
                for edit in open_edits:
                    if edit[0] == re.split('::|/', name)[0]:
                        wanted[edit].add(name)
    for edit, names in ask(root, {edit: names for edit, names in wanted.items() if told.get(edit) is not None}).items():
        failed[edit] |= names
    for kind, names, edits in beside(text):
        if kind == 'program':
            yield from (f'{name} has too few wrong programs' for name in names if len(edits) < WRONG_PROGRAMS.get(name, 2))
            yield from (f'{name} is proved with {crate}/{label}' for name in names for crate, label in edits if name not in failed.get((crate, label), ()))
        elif kind == 'contract':
            yield from (f'the list is proved with {crate}/{label}' for crate, label in edits if names[0] not in failed.get((crate, label), ()))
        else:
            if not names:
                yield f'no theorem: {kind}'
            for crate, label in edits:
                if 'file: specs/' not in (root / 'crates' / crate / 'must-fail' / f'{label}.edit').read_text(encoding='utf-8'):
                    yield f'{crate}/{label} edits no definition'
            yield from (f'{name} refuses no edit' for name in names if not any(name in failed.get(edit, ()) for edit in edits))
    fixed = {function.crate for function in sources.callable_functions(root) if function.name not in sources.READ | sources.PRINT}
    told_less = {crate for kind, _, edits in beside(text) if kind == 'contract' for crate, _ in edits}
    yield from (f'{crate} has no contract that says less' for crate in sorted(fixed - told_less))


PAGE = '''
| function | its result is | wrong programs |
|---|---|---|
| `low::next` | `next_of x` | one: `low/another` · two: `low/other` |

| crate | a contract that says less, which its list refuses |
|---|---|
| `low` | nothing: `low/nothing_told` |

| promise | theorem | refuses |
|---|---|---|
| it is | `low/Laws.is` | `low/is_not` |
'''
TOLD = '''rt: low: 4 of its 4 must-fail edits were tried by an earlier run
rt: must-fail low/another.edit: refused, as it must be: note: src/lib.rt:1:1: it is not proved that what the function ensures holds
rt: must-fail low/is_not.edit: refused, as it must be: ./proofs/Laws.antt:1:2: error: `is`: no
rt: must-fail low/nothing_told.edit: refused, as it must be: ./proofs/Unique.antt:1:2: error: `next`: no
rt: must-fail low/other.edit: refused, as it must be (only by a limit of the prover, so: choose another): ./proofs/next/Answers.antt:1:2: error: `returns`: no
'''
FILES = {
    'crates.txt': 'low:\n',
    'crates/low/src/lib.rt': 'pub fn next(x: u32) -> u32 {\n    1\n}\n',
    'crates/low/specs/Says.antt': '1\n',
    'crates/low/specs/Laws.antt': 'pub has : ℕ\n',
    'crates/low/proofs/Laws.antt': 'module _ where\n  pub is : ℕ\n',
    'crates/low/proofs/Lib.antt': 'pub mod Unique\npub mod Laws\n',
    'crates/low/must-fail/is_not.edit': 'file: specs/Says.antt\nold: 1\nnew: 2\n',
    'crates/low/must-fail/another.edit': 'file: src/lib.rt\nold: 1\nnew: 2\n',
    'crates/low/must-fail/other.edit': 'file: src/lib.rt\nold: 1\nnew: 3\n',
    'crates/low/must-fail/nothing_told.edit': 'file: src/lib.rt\nold: 1\nnew: 4\n',
    'told': TOLD,
    # what a check says of the crate with each edit, by the numbers that stand in it then
    'says/12': './proofs/Asked0.antt:4:5: error: 1 declaration that depends on `is`, which was rejected, was not checked: asked\nonly=1 proved=0\n',
    'says/21': 'fn low::next: no proof: it calls `low::one`, which is not proved\nonly=2 proved=1\n',
    'says/31': 'fn low::next: not proved\nonly=2 proved=1\n',
    'says/41': '/x/proofs/Unique.antt:1:2: error: `next`: no\nlogic=not-proved\n',
}
# a stand-in for rt, which also notes the words of each check and what it is given
RT = '''case $1 in
must-fail) cat told ;;
check)
    echo "$*" >>"{0}/calls"
    cat src/asked.rt proofs/Asked*.antt proofs/asked/all/*.antt proofs/Lib.antt >"{0}/given" 2>/dev/null
    cat "{0}/says/$(tr -dc 0-9 <src/lib.rt | tail -c 1)$(tr -dc 0-9 <specs/Says.antt)"
    ;;
esac
'''
# what rt tells is something else that failed
BY_A_CALLEE = ('told', 'note: src/lib.rt:1:1: it is not proved', './proofs/one/Answers.antt:1:2: error: `returns`: no')
BY_A_LEMMA = ('told', 'Laws.antt:1:2: error: `is`', 'Laws.antt:1:2: error: `other`')
BY_A_CALLER = ('told', './proofs/Unique.antt:1:2: error: `next`', './proofs/last/Answers.antt:1:2: error: `returns`')


class Promises(unittest.TestCase):
    def faults(self, *changes, page=('', '')):
        """What is wrong with a small project, with changes to its page or to files. Keeps the words of the checks, and what the last was given."""
        with tempfile.TemporaryDirectory() as folder:
            root = pathlib.Path(folder)
            for name, text in FILES.items():
                for file, old, new in changes:
                    if file == name:
                        self.assertIn(old, text)
                        text = text.replace(old, new)
                path = root / name
                path.parent.mkdir(parents=True, exist_ok=True)
                path.write_text(text, encoding='utf-8')
            script(root / 'bin/rt', RT.format(root))
            with mock.patch.dict(os.environ, PATH=f'{root}/bin{os.pathsep}{os.environ["PATH"]}'):
                text = PAGE.replace(*page)
                found = list(unnamed(text, root)) or list(unrefused(text, root, refused.told(root), refused.ask))
            self.calls, self.given = ((root / name).read_text(encoding='utf-8') if (root / name).exists() else '' for name in ('calls', 'given'))
            self.assertEqual({name: (root / name).read_text(encoding='utf-8') for name in FILES if name.startswith('crates/')},
                             {name: self.changed(name, changes) for name in FILES if name.startswith('crates/')})
            return found

    def changed(self, name, changes):
        """The text of a file after the changes."""
        text = FILES[name]
        for file, old, new in changes:
            text = text.replace(old, new) if file == name else text
        return text

    def setUp(self):
        self.text = (built.ROOT / 'docs/PROMISES.md').read_text(encoding='utf-8')

    def test_the_page_names_what_is_there(self):
        self.assertEqual(list(unnamed(self.text, built.ROOT)), [])

    def test_each_contract_and_each_promise_refuses_its_edits(self):
        self.assertGreater(len(list(rows(self.text, 'promise', 'theorem', 'refuses'))), 50)
        self.assertEqual(list(unrefused(self.text, built.ROOT, refused.told(built.ROOT), refused.ask)), [])

    def test_the_characters_of_the_definitions(self):
        seen = definitions.reached(built.ROOT)
        said = re.findall(r'([\d,]+) characters in (\d+) definitions', self.text)
        self.assertEqual(said, [(f'{sum(map(len, seen.values())):,}', str(len(seen)))])

    def test_a_page_that_says_otherwise_is_seen(self):
        self.assertEqual(self.faults(), [])
        self.assertEqual(self.calls, '')  # what rt tells is enough
        for page, fault in (
            (('low::next', 'low::last'), 'low::next is not in the table'),
            (('low::next', 'low::last'), 'low::last is no function'),
            (('Laws.is', 'Laws.isnt'), 'low/Laws.isnt is no theorem'),
            (('`low/is_not`', ''), 'low/is_not is not mentioned'),
            (('`low/is_not`', '`low/none`'), 'low/none is no edit'),
            (('`low/other`', '`low/is_not`'), 'low/other is not mentioned'),
            (('two: `low/other` |', '|\n\n`low/other`'), 'low::next has too few wrong programs'),
            (('nothing: `low/nothing_told` |', '|\n\n`low/nothing_told`'), 'low has no contract that says less'),
            (('`low/Laws.is`', ''), 'no theorem: it is'),
        ):
            with self.subTest(fault):
                self.assertIn(fault, self.faults(page=page))
        self.assertEqual(self.faults(('crates/low/must-fail/is_not.edit', 'specs/Says.antt', 'src/lib.rt')), ['low/is_not edits no definition'])

    def test_an_edit_that_is_not_refused_is_seen(self):
        for label in ('another', 'other', 'nothing_told', 'is_not'):
            for said in ('NOT REFUSED: the crate is still proved', 'BAD EDIT: the prover cannot read it', 'NOT TRIED: its check was killed',
                         'refused, as it must be (only because a proof file names what the edit took away, so this says little): proofs/next/Answers.antt'):
                with self.subTest(label, said=said):
                    line = re.search(f'low/{label}.edit: (.*)', TOLD)[1]
                    self.assertIn(f'low/{label} is not refused', self.faults(('told', line, said)))
                    self.assertEqual(self.calls, '')  # nothing more is asked of it
            line = re.search(f'.*low/{label}.edit: .*\n', TOLD)[0]
            self.assertIn(f'low/{label} is not refused', self.faults(('told', line, '')))

    def test_what_else_failed_is_asked(self):
        for told, said, what in ((BY_A_CALLEE, 'says/21', 'low::next'), (BY_A_LEMMA, 'says/12', 'low/Laws.is'), (BY_A_CALLER, 'says/41', 'the list')):
            with self.subTest(what):
                self.assertEqual(self.faults(told), [])
                self.assertEqual(len(self.calls.splitlines()), 1)
                last = FILES[said].splitlines()[-1] + '\n'
                fault, = self.faults(told, (said, FILES[said], last))
                self.assertRegex(fault, f'^{what} (is proved with|refuses no edit)')
        self.assertEqual(self.faults(('told', '`is`: no', '2 declarations that depend on `one`, which was rejected, were not checked: other, is')), [])
        self.assertEqual(len(self.calls.splitlines()), 1)
        # theorems may stand in specs too
        for other in ('has', 'is'):
            moved = ('crates/low/specs/Laws.antt', 'has', other), ('crates/low/proofs/Laws.antt', 'is', 'has'), ('told', './proofs/Laws', './specs/Laws')
            self.assertEqual(self.faults(*moved), ['low/Laws.is is no theorem'] * (other == 'has'))
        # what depends on another that is rejected
        self.assertEqual(self.faults(BY_A_LEMMA, ('says/12', 'on `is`', 'on `isnt`')), ['low/Laws.is refuses no edit'])
        self.assertEqual(self.faults(BY_A_LEMMA, ('says/12', 'Asked0', 'Asked1')), ['low/Laws.is refuses no edit'])
        self.assertEqual(self.faults(BY_A_CALLEE, ('says/21', 'low::next', 'low::nexts')), ['low::next is proved with low/another'])

    def test_how_it_is_asked(self):
        self.faults(BY_A_LEMMA)
        self.assertEqual(self.calls, 'check --jobs 1 --only low::asked::all\n')
        for line in ('pub fn all() -> u32', 'use Rattle.low.proofs.Laws.{is}', 'asked = let told = is in 0', 'mod Asked0', 'pub mod Unique',
                     'use Rattle.low.proofs.Asked0 as asked0'):
            self.assertIn(f'{line}\n', self.given)
        self.faults(BY_A_CALLEE)
        self.assertEqual(self.calls, 'check --jobs 1 --only low::asked::all --only low::next\n')
        self.faults(BY_A_CALLER)
        self.assertEqual(self.calls, 'check --jobs 1\n')
        self.assertEqual(self.faults(BY_A_CALLEE, BY_A_LEMMA, BY_A_CALLER), [])
        self.assertEqual(len(self.calls.splitlines()), 3)

    def test_a_function_that_reads_or_prints(self):
        # it needs no contract that says less, and one that prints no wrong program; both stand in the table
        less, programs = ('nothing: `low/nothing_told` |', '|\n\n`low/nothing_told`'), ('one: `low/another` · two: `low/other` |', '|\n\n`low/another` `low/other`')
        with mock.patch.object(sources, 'READ', {'low::next'}):
            self.assertEqual(self.faults(page=less), [])
            self.assertEqual(self.faults(page=programs), ['low::next has too few wrong programs'])
            self.assertIn('low::next is not in the table', self.faults(page=('`low::next`', '`low::last`')))
        with mock.patch.object(sources, 'PRINT', {'low::next'}), mock.patch.dict(WRONG_PROGRAMS, {'low::next': 0}):
            self.assertEqual(self.faults(page=less), [])
            self.assertEqual(self.faults(page=programs), [])
            self.assertIn('low::next is not in the table', self.faults(page=('`low::next`', '`low::last`')))

    def test_an_answer_that_is_missing_is_seen(self):
        with self.assertRaises(RuntimeError):
            self.faults(('told', TOLD, 'rt: the library one did not build'))
        for told, said in ((BY_A_CALLEE, 'says/21'), (BY_A_LEMMA, 'says/12'), (BY_A_CALLER, 'says/41')):
            for end in ('', 'rattle: no verdict', 'logic=proved'):
                with self.subTest(said, end=end), self.assertRaises(RuntimeError):
                    self.faults(told, (said, FILES[said].splitlines()[-1], end))


if __name__ == '__main__':
    unittest.main()
