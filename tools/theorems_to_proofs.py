#!/usr/bin/env python3
"""Moves theorems from crates/*/specs/ to crates/*/proofs/, each under its module's name, and turns what cites them.

usage: tools/theorems_to_proofs.py CRATE..      at the top

An edit of a definition is tried by the prover only where nothing else in specs/ rests on a theorem that fails with it, so theorems stand in proofs/. Of a module that src/ or a
must-fail edit names, the definitions stay in specs/; any other module that has theorems moves whole. Statements stay as they are.
"""
import collections
import glob
import os
import re
import sys

WORD = r'[^\s(){}.;,@"«»]+'
ITEM = re.compile(rf'(?:pub |abbrev |unfoldable )*(?:(?:record|data|ruleset) |module |infix|open |{WORD}(?:\s+(?:\{{[^}}]*\}}|\([^)]*\)))*\s+:(?:\s|$))')
USE = re.compile(r'((?:pub |ghost )?use )Rattle\.(\w+)\.specs\.(\w+)\.\{([^{}]*)\}(;?)')
ALIAS = re.compile(r'((?:pub |ghost )?use )Rattle\.(\w+)\.specs\.(\w+) as (\w+)(;?)')


def read(path):
    with open(path, encoding='utf-8') as file:
        return file.read()


def write(path, text):
    os.makedirs(os.path.dirname(path), exist_ok=True)
    with open(path, 'w', encoding='utf-8') as file:
        file.write(text)


def parts(text):
    """The comment on top, the imports, and the items: each with the comments before it."""
    lines, top, uses, items, above = text.split('\n'), [], [], [], []
    for line in lines:
        if line.startswith('use '):
            if not uses:
                top, above = above, []
            uses.append(line)
        elif line.startswith('--') or (not line.strip() and (above or not items)):
            above.append(line)
        elif line[0:1].strip() and (ITEM.match(line) or not items):
            items.append(above + [line])
            above = []
        else:
            if above:  # a comment or a blank line inside an item
                items[-1].extend(above)
                above = []
            items[-1].append(line)
    return top, uses, ['\n'.join(item).strip('\n') for item in items]


def head(item):
    return next(line for line in item.split('\n') if line.strip() and not line.startswith('--'))


def is_definition(item):
    line = head(item)
    return bool(re.match(r'infix|(?:pub |abbrev )*(?:record|data)\b', line) or re.search(r'\b(?:abbrev|unfoldable)\b', line.split(':')[0]))


def declared(item):
    found = set()
    for line in item.split('\n'):
        name = re.match(rf'\s*(?:pub |abbrev |unfoldable )*(?:(?:record|data|ruleset) )?({WORD})(?:\s+(?:\{{[^}}]*\}}|\([^)]*\)))*\s+[:=](?:\s|$)', line)
        if name:
            found.add(name[1])
        name = re.match(rf'\s*(?:pub )?(?:record|data) ({WORD})', line)
        if name:
            found.add(name[1])
    return found


def made_pub(item):
    line = head(item)
    if 'pub ' in line.split(':')[0] or line.startswith('infix'):
        return item
    made = re.sub(r'^(abbrev |unfoldable )?', lambda word: (word[1] or '') + 'pub ', line, count=1)
    return item.replace(line, made, 1)


def main(crates):
    named = set()  # modules that src/ or an edit names
    for path in glob.glob('crates/*/src/**/*.rt', recursive=True):
        named.update((m[2], m[3]) for m in re.finditer(r'(ghost use )Rattle\.(\w+)\.specs\.(\w+)\b', read(path)))
    for path in glob.glob('crates/*/must-fail/*.edit'):
        named.update((path.split('/')[1], module) for module in re.findall(r'^file: specs/(\w+)\.antt', read(path), re.M))
    stays = collections.defaultdict(set)  # of a module that is parted, what stays in specs/
    moved, parted = set(), set()
    for crate in crates:
        for path in sorted(glob.glob(f'crates/{crate}/specs/*.antt')):
            module = os.path.basename(path)[:-5]
            if module == 'Lib':
                continue
            top, uses, items = parts(read(path))
            theorems = [item for item in items if not is_definition(item)]
            if not theorems:
                continue
            new = f'crates/{crate}/proofs/{module}.antt'
            if (crate, module) in named:
                parted.add((crate, module))
                kept = [made_pub(item) for item in items if is_definition(item)]
                for item in kept:
                    stays[crate, module].update(declared(item))
                write(path, '\n'.join(top + uses) + '\n\n' + '\n\n'.join(kept) + '\n')
                names = [name for item in kept for name in [declared_name(item)] if name]
                rest = '\n\n'.join(theorems)
                own = [name for name in names if re.search(rf"(?<![\w'.-]){re.escape(name)}(?![\w'-])", rest)] + [
                    name for item in kept if re.match(r'(?:pub )?data', head(item)) for name in sorted(declared(item) - {declared_name(item)})]
                write(new, '\n'.join(top + uses + [f'use Rattle.{crate}.specs.{module}.{{{", ".join(own)}}}']) + '\n\n' + rest + '\n')
            else:
                moved.add((crate, module))
                write(new, read(path))
                os.remove(path)
        for folder, keep in (('specs', lambda m: (crate, m) not in moved), ('proofs', lambda m: True)):
            path = f'crates/{crate}/{folder}/Lib.antt'
            lines = read(path).split('\n') if os.path.exists(path) else []
            lines = [line for line in lines if line.strip() and keep(line.split()[-1])]
            if folder == 'proofs':
                lines += [f'pub mod {module}' for c, module in sorted(moved | parted) if c == crate and f'pub mod {module}' not in lines]
            write(path, '\n'.join(lines) + '\n')

    # and what an earlier run has moved
    for path in glob.glob('crates/*/proofs/*.antt'):
        crate, module = path.split('/')[1], os.path.basename(path)[:-5]
        specs = f'crates/{crate}/specs/{module}.antt'
        if module in ('Lib', 'Unique') or (crate, module) in moved | parted:
            continue
        if os.path.exists(specs):
            parted.add((crate, module))
            for item in parts(read(specs))[2]:
                stays[crate, module].update(declared(item))
        else:
            moved.add((crate, module))

    def turn(m):
        lead, crate, module, names, end = m.groups()
        if (crate, module) in moved:
            return f'{lead}Rattle.{crate}.proofs.{module}.{{{names}}}{end}'
        if (crate, module) not in parted:
            return m[0]
        every = [name.strip() for name in names.split(',')]
        here = [name for name in every if name.split(' as ')[0] in stays[crate, module]]
        there = [name for name in every if name not in here]
        made = [f'{lead}Rattle.{crate}.{folder}.{module}.{{{", ".join(some)}}}{end}' for folder, some in (('specs', here), ('proofs', there)) if some]
        return '\n'.join(made)

    def alias(m):
        lead, crate, module, name, end = m.groups()
        if (crate, module) in parted:
            print(f'look: {m[0]}')
        return f'{lead}Rattle.{crate}.proofs.{module} as {name}{end}' if (crate, module) in moved else m[0]

    def attribute(crate_here):
        def one(m):
            crate = crate_here if m[1] == 'crate' else m[1]
            if (crate, m[2]) in moved or (crate, m[2]) in parted and m[3] not in stays[crate, m[2]]:
                return f'{m[1]}::proofs::{m[2]}::{m[3]}'
            return m[0]
        return one

    for path in glob.glob('crates/*/specs/**/*.antt', recursive=True) + glob.glob('crates/*/proofs/**/*.antt', recursive=True) + glob.glob('crates/*/src/**/*.rt', recursive=True):
        text = read(path)
        made = ALIAS.sub(alias, USE.sub(turn, text))
        if path.endswith('.rt'):
            made = re.sub(r'\b(\w+)::specs::(\w+)::(\w+)', attribute(path.split('/')[1]), made)
        if '/specs/' in path:  # what stays cites no theorem of its own crate
            made = re.sub(rf'(?m)^use Rattle\.{path.split("/")[1]}\.proofs\..*\n', '', made)
        if made != text:
            write(path, made)
    print(f'{len(moved)} modules moved, {len(parted)} parted')


def declared_name(item):
    line = head(item)
    name = re.match(rf'(?:pub |abbrev |unfoldable )*(?:(?:record|data) )?({WORD})', line)
    return None if line.startswith('infix') else name[1]


if __name__ == '__main__':
    sys.exit(main(sys.argv[1:]))
