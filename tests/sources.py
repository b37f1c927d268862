"""The functions of the crates that others can call, read from the sources as text."""
import re
from typing import NamedTuple

FUNCTION = re.compile(r'^([ \t]*)pub (?:(?:const|unsafe|extern "C") )*fn (\w+)', re.M)
ANY_FUNCTION = re.compile(r'^(?:[ \t]*(?:#\[.*\]|//.*)\n)*([ \t]*)(?:pub(?:\([^)]*\))? )?(?:(?:const|unsafe|extern "C") )*fn (\w+)', re.M)
TYPE = re.compile(r'^impl(?:<[^>\n]*>)? (?:[^{\n]* for )?(\w+)', re.M)
MODULE = re.compile(r'^pub mod (\w+);', re.M)
IMPORT = re.compile(r'^ghost use ([^;]*);$', re.M)

# What a stream gives or takes no contract can say. So the contract of a function that reads says the rest, and that of one that prints says what
# it added where a writer's bytes are known, and of an error nothing. There are no others whose contract does not fix the result.
READ, PRINT = {'streams::read_route'}, {'streams::text', 'streams::number', 'streams::field', 'streams::refused', 'streams::fail'}
# by which a function can read or print: a reader, a writer, or a handle of the host
STREAM = re.compile(r'\w: (?:Read|Write)\b|\bimpl (?:Read|Write|Print|Eprint)\b|\bHostRuntime\b')


class Function(NamedTuple):
    crate: str
    path: tuple  # inside the crate: modules, type, name
    clauses: str  # what stands between its name and its body
    imports: list  # what its file takes from the specs

    @property
    def name(self):
        return '::'.join((self.crate, *self.path))

    @property
    def has_stream(self):
        """Whether its parameters let it read or print."""
        return bool(STREAM.search(re.split(r'\b(?:requires|ensures)\b', self.clauses)[0]))


def clauses(text, start):
    """A brace behind `ensures` or `requires` opens a clause, any other the body."""
    depth = 0
    for at in range(start, len(text)):
        if text[at] == '{':
            if depth == 0 and not re.search(r'\b(requires|ensures)\*?(\s+\w+)?\s*$', text[start:at]):
                return text[start:at]
            depth += 1
        elif text[at] == '}':
            depth -= 1
    raise ValueError('a function without a body')


def of_module(crate, src, path):
    file = src.joinpath(*path).with_suffix('.rt') if path else src / 'lib.rt'
    text = re.sub(r'//[^\n]*', '', file.read_text(encoding='utf-8'))
    if re.search(r'^\s*pub use ', text, re.M):
        raise ValueError(f'{file}: a name that is passed on is not looked for')
    for found in FUNCTION.finditer(text):
        types = TYPE.findall(text, 0, found.start())
        owner = types[-1:] if found.group(1) else []
        yield Function(crate, (*path, *owner, found.group(2)), clauses(text, found.end()), IMPORT.findall(text))
    for name in MODULE.findall(text):
        yield from of_module(crate, src, (*path, name))


def callable_functions(root):
    for library in sorted(root.glob('crates/*/src/lib.rt')):
        yield from of_module(library.parts[-3], library.parent, ())


def function_at(root, crate, file, line):
    """The name of the function that a line of a crate's file stands in, below src/ and without its end. What stands right above one belongs to it."""
    text = (root / 'crates' / crate / 'src' / f'{file}.rt').read_text(encoding='utf-8')
    names = [()]
    for found in ANY_FUNCTION.finditer(text):
        if text.count('\n', 0, found.start()) < line:
            types = TYPE.findall(text, 0, found.start())
            names.append((*(types[-1:] if found.group(1) else []), found.group(2)))
    return '::'.join((crate, *(file.split('/') if file not in ('lib', 'main') else ()), *names[-1]))
