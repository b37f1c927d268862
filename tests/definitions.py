#!/usr/bin/env python3
"""How much a reader has to believe: the characters of all definitions that the contracts of callable functions rest on, crate by crate.

Comments, `use` lines and blank lines do not count, nor does what the language declares by itself for an enum or a struct.
With --all each definition is named too.
"""
import collections
import re
import sys

import built
import sources

NAMES = re.compile(r'Rattle\.(\w+)\.specs\.([\w.-]+)\.\{([^}]*)\}')
ALIAS = re.compile(r'Rattle\.(\w+)\.specs\.([\w.-]+) as (\w+)')
HEAD = re.compile(r'\s*(?:abbrev |unfoldable )?(?:pub )?(?:(?:record|data) (\S+)|(\S+) : )')
WORD = re.compile(r'[^\s(){},;λ.=→]+(?:\.[^\s(){},;λ.=→]+)?')


class Scope:
    """What the words of a file name: a definition is known by its crate, its module and its name."""

    def __init__(self, imports):
        self.named, self.aliases = {}, {}
        for line in imports:
            if m := NAMES.fullmatch(line):
                self.named.update((name.strip(), (m[1], m[2], name.strip())) for name in m[3].split(','))
            elif m := ALIAS.fullmatch(line):
                self.aliases[m[3]] = m[1], m[2]

    def find(self, text):
        """The definitions that a text names."""
        for word in WORD.findall(text):
            first, _, rest = word.partition('.')
            if first in self.aliases:
                yield *self.aliases[first], rest
            for name in (word, first):
                if name in self.named:
                    yield self.named[name]


def definitions(root):
    """Each definition's text and scope. One stands in a paragraph of its own."""
    found = {}
    for path in root.glob('crates/*/specs/*.antt'):
        text = path.read_text(encoding='utf-8')
        scope = Scope(re.findall(r'^use (.*)$', text, re.M))
        for paragraph in re.split(r'\n\s*\n', text):
            lines = [line for line in paragraph.split('\n') if line.strip() and not re.match(r'\s*(--|use |infix|module )', line)]
            head = HEAD.match(lines[0]) if lines else None
            if head:
                name = head[1] or head[2]
                scope.named[name] = path.parts[-3], path.stem, name
                found[scope.named[name]] = '\n'.join(lines), scope
    return found


def reached(root):
    """The text of each definition that a contract reaches."""
    known, seen, wanted = definitions(root), {}, []
    for function in sources.callable_functions(root):
        wanted.extend(Scope(function.imports).find(function.clauses))
    while wanted:
        at = wanted.pop()
        if at in known and at not in seen:
            seen[at], scope = known[at]
            wanted.extend(scope.find(seen[at]))
    return seen


def main():
    seen = reached(built.ROOT)
    sizes = collections.Counter()
    for (crate, module, name), text in sorted(seen.items()):
        sizes[crate] += len(text)
        if '--all' in sys.argv:
            print(f'{len(text)}\t{crate} {module}.{name}')
    for crate, size in sizes.items():
        print(f'{size}\t{crate}')
    print(f'{sum(sizes.values())}\tcharacters in {len(seen)} definitions')


if __name__ == '__main__':
    main()
