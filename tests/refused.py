"""What the prover refuses with a must-fail edit: the function, the theorem or the list of uniqueness that is then not proved.

rt tells one thing of each edit, the first that failed. What else failed is asked of it by a check of a copy of the crate with the edit in it.
"""
import concurrent.futures
import os
import pathlib
import queue
import re
import shutil
import subprocess
import tempfile

import sources

LINE = re.compile(r'^rt: must-fail (\w+)/(\w+)\.edit: (.*)$', re.M)
REFUSED = re.compile(r'refused, as it must be(?: \(only by a limit.*?\))?(?:: (.*))?')
PLACE = re.compile(r'(?:note: )?(?:\./)?(src|specs|proofs)/(\S+?)\.(?:rt|antt):(\d+):\d+: (?:error: (?:`([^`]+)`)?)?')
OWN = 'src', 'specs', 'proofs'  # what a check reads of a crate
ASKED = '''ghost use Rattle.std.specs.Prelude.{◌≡◌};

pub fn all() -> u32
    ensures { result ≡ 7 }
{
    7
}
'''
ANSWER = '''use Rattle.std.proofs.Common.{{rules}}
use Rattle.{0}.proofs.asked.all.Goals as goal
{1}
pub returns : goal.returns
returns c = search rules
'''


def told(root):
    """What rt tells of each edit, by crate and label: the first thing that failed, or None where it did not refuse the edit. Of an edit that is refused
    only since proofs name what it takes away it refuses nothing. After rt ci this takes what that run kept."""
    ran = subprocess.run(['rt', 'must-fail'], cwd=root, stdin=subprocess.DEVNULL, stdout=subprocess.PIPE, stderr=subprocess.STDOUT, text=True)
    lines = {(crate, label): REFUSED.fullmatch(line) for crate, label, line in LINE.findall(ran.stdout)}
    if not lines:
        raise RuntimeError(f'rt must-fail ended with status {ran.returncode} and said {ran.stdout[-1000:]}')
    return {edit: found and (found[1] or '') for edit, found in lines.items()}


def named(root, crate, message):
    """What fails by a message: a function crate::name, a theorem crate/Module.name, or crate/Unique for the list."""
    found = PLACE.match(message)
    if not found:
        return set()
    part, file, line, name = found.groups()
    if part == 'src':
        return {sources.function_at(root, crate, file, int(line))} if 'it is not proved' in message else set()
    if part == 'proofs' and file == 'Unique':
        return {f'{crate}/Unique'}
    if '/' not in file:
        return {f'{crate}/{file}.{name}'} if name else set()
    *path, last = file.split('/')
    return {'::'.join((crate, *path))} if last in ('Answers', 'Invariants', 'Proof') else set()


def home(folder, theorem):
    """The part of a crate, specs or proofs, in which a theorem crate/Module.name stands, or None."""
    module, _, name = theorem.partition('/')[2].partition('.')
    for part in ('specs', 'proofs'):
        file = folder / part / f'{module}.antt'
        if file.is_file() and re.search(rf'^\s*pub {re.escape(name)} :', file.read_text(encoding='utf-8'), re.M):
            return part
    return None


def edited(text, folder):
    """The files of a crate that an edit changes, with their texts."""
    texts, path, old = {}, None, None
    for line in text.split('\n'):
        word, _, rest = line.partition(': ')
        if word == 'file':
            path = rest
        elif word == 'old':
            old = rest
        elif line.startswith('new:'):
            before = texts.get(path) or (folder / path).read_text(encoding='utf-8')
            if before.count(old) != 1:
                raise ValueError(f'{path} has the text {before.count(old)} times: {old}')
            texts[path] = before.replace(old, re.sub('^new: ?', '', line))
    return texts


def add_questions(folder, crate, theorems):
    """Has the copy of a crate cite each theorem in a file of its own, all of which a function's proof reads."""
    files = {'src/lib.rt': '\npub mod asked;\n', 'src/asked.rt': ASKED, 'proofs/Lib.antt': ''}
    uses = ''
    for k, theorem in enumerate(theorems):
        module, _, name = theorem.partition('/')[2].partition('.')
        files[f'proofs/Asked{k}.antt'] = (f'use Rattle.std.specs.Prelude.{{ℕ}}\nuse Rattle.{crate}.{home(folder, theorem)}.{module}.{{{name}}}\n\n'
                                          f'pub asked : ℕ\nasked = let told = {name} in 0\n')
        files['proofs/Lib.antt'] += f'mod Asked{k}\n'
        uses += f'use Rattle.{crate}.proofs.Asked{k} as asked{k}\n'
    files['proofs/asked/all/Answers.antt'] = ANSWER.format(crate, uses)
    for name, text in files.items():
        path = folder / name
        path.parent.mkdir(parents=True, exist_ok=True)
        with path.open('a', encoding='utf-8') as file:
            file.write(text)


def asked(root, room, edit, names):
    """Those of the names that are not proved with an edit, by a check in the room, which has a copy of the crates."""
    crate, label = edit
    folder = room / 'crates' / crate
    for path, text in edited((root / 'crates' / crate / 'must-fail' / f'{label}.edit').read_text(encoding='utf-8'), folder).items():
        (folder / path).write_text(text, encoding='utf-8')
    functions, theorems = (sorted(name for name in names if mark in name) for mark in ('::', '.'))
    whole = f'{crate}/Unique' in names
    add_questions(folder, crate, theorems)
    only = [] if whole else [word for name in (f'{crate}::asked::all', *functions) for word in ('--only', name)]
    ran = subprocess.run(['rt', 'check', '--jobs', '1', *only], cwd=folder, stdin=subprocess.DEVNULL, stdout=subprocess.PIPE, stderr=subprocess.STDOUT,
                         text=True)
    copy_crate(root, room, crate)
    if not re.search(r'^logic=not-proved' if whole else r'^only=\d+ proved=\d+$', ran.stdout, re.M):
        raise RuntimeError(f'{crate}/{label}: rt check ended with status {ran.returncode} and said {ran.stdout[-2000:]}')
    failed = {name for name in functions if re.search(rf'^fn {name}: (?:not proved|no proof)', ran.stdout, re.M)}
    for k, theorem in enumerate(theorems):
        if re.search(rf'/proofs/Asked{k}\.antt:\d+:\d+: error: 1 declaration that depends on `{re.escape(theorem.partition(".")[2])}`', ran.stdout):
            failed.add(theorem)
    if whole and re.search(r'/proofs/Unique\.antt:\d+:\d+: error', ran.stdout):
        failed.add(f'{crate}/Unique')
    return failed


def copy_crate(root, room, crate):
    """Puts what a check reads of a crate into the room as it stands in the project."""
    for part in OWN:
        to = room / 'crates' / crate / part
        shutil.rmtree(to, ignore_errors=True)
        if (root / 'crates' / crate / part).is_dir():
            shutil.copytree(root / 'crates' / crate / part, to)


def ask(root, wanted):
    """Of the names beside each edit, those that are not proved with it. As many checks at a time as there are processors, each in a room of its own."""
    rooms = queue.Queue()
    with tempfile.TemporaryDirectory() as folder, concurrent.futures.ThreadPoolExecutor(len(os.sched_getaffinity(0))) as pool:
        for k in range(min(len(os.sched_getaffinity(0)), len(wanted))):
            room = pathlib.Path(folder, str(k))
            (room / '.git').mkdir(parents=True)
            shutil.copy(root / 'crates.txt', room)
            for path in root.glob('crates/*'):
                copy_crate(root, room, path.name)
            rooms.put(room)

        def one(edit):
            room = rooms.get()
            try:
                return asked(root, room, edit, wanted[edit])
            finally:
                rooms.put(room)

        return dict(zip(sorted(wanted), pool.map(one, sorted(wanted))))
