#!/usr/bin/env python3
"""Spells the definitions and lemmas of this repository in snake case, as the Rattle of today spells its own.

usage: tools/respell.py        at the top, once, right after the kit's port.py

`greatestAngle` becomes `greatest_angle`, `size-sides` becomes `size_sides`. What turns is what crates/*/specs/
declare, and the entries of the lists of uniqueness: in these, in the proofs of functions, in the clauses and imports of src/, and in the texts of must-fail edits. Functions, types, modules, exported names, strings,
inputs and outputs stay. In a comment a name in camel case turns, and one with dashes only between backquotes, since English has words like it.
Names that would fall together are said, and then nothing is written.
"""
import collections
import glob
import re
import sys

WORD = re.compile(r'[^\s(){}.;,@"«»`\[\]|/:]+')
DECLARED = re.compile(r'^\s*(?:(?:pub|abbrev|unfoldable|record|data|ruleset)\s+)*([^\s(){}.;,:]+)(?:\s+(?:\{[^{}]*\}|\([^()]*\)))*\s+[:=]\s')
# The kit's script gave this lemma the name that a definition, `noPlace`, has now.
ALSO = {'no_place': 'no_place_lem'}
# A path whose steps Rattle makes of the source: behind one of these heads a step is no name of ours.
HEADS = ('tie', 'goal')


def snake(name):
    name = re.sub(r'(?<=[a-z0-9])(?=[A-Z])|(?<=[A-Z])(?=[A-Z][a-z])', '_', name)
    return name.replace('-', '_').lower()


def code_and_comment(line, mark):
    at = line.find(mark)
    while at > 0 and not line[at - 1].isspace():
        at = line.find(mark, at + 1)
    return (line, '') if at < 0 else (line[:at], line[at:])


def read(path):
    with open(path, encoding='utf-8') as file:
        return file.read()


def declared(path):
    for line in read(path).splitlines():
        code = code_and_comment(line, '--')[0]
        found = DECLARED.match(code + ' ')
        if found and not re.match(r'\s*(use|infix|module|let|in|elim)\b', code):
            yield found[1]


def table(files):
    """The names that turn, with what they become."""
    names = set()
    for path in files:
        names.update(declared(path))
    names = {name for name in names if re.fullmatch(r"[a-z][A-Za-z0-9'_-]*", name)}
    spelled = {snake(name) for name in names if '-' not in name}
    # a lemma that would have its definition's name
    made = {name: snake(name) + ('_lem' if '-' in name and snake(name) in spelled else '') for name in names}
    made.update(ALSO)
    return {name: new for name, new in made.items() if new != name}


def turn_code(code, names, notes):
    def one(found):
        word = found[0]
        if word not in names:
            return word
        head = re.search(r'([^\s(){}.;,]+)\.$', code[:found.start()])
        if head and (head[1] in HEADS or re.search(r'(?:^|[^\w.])c(?:\.[^\s(){}.;,]+)*\.$', code[:found.start()]) and word not in notes['fields']):
            return word
        return names[word]
    return WORD.sub(one, code)


def turn_comment(comment, names):
    comment = re.sub(r'`[^`]*`', lambda span: WORD.sub(lambda word: names.get(word[0], word[0]), span[0]), comment)
    return re.sub(r"(?<![\w'-])[a-z]+[A-Za-z0-9]*[A-Z][A-Za-z0-9]*(?![\w'-])", lambda word: names.get(word[0], word[0]), comment)


def turn(text, names, mark, notes):
    lines = []
    for line in text.split('\n'):
        code, comment = code_and_comment(line, mark)
        lines.append(turn_code(code, names, notes) + turn_comment(comment, names))
    return '\n'.join(lines)


def main():
    laws = sorted(glob.glob('crates/*/specs/**/*.antt', recursive=True))
    names = table(laws)
    fields = set()
    for path in laws:
        inside = False
        for line in read(path).splitlines():
            if re.match(r'\s*(pub )?record\b', line):
                inside = True
            elif line and not line[0].isspace():
                inside = False
            found = DECLARED.match(line + ' ')
            if inside and found:
                fields.add(found[1])
    notes = {'fields': fields}
    antt = sorted(glob.glob('crates/*/specs/**/*.antt', recursive=True) + glob.glob('crates/*/proofs/**/*.antt', recursive=True))
    rt = sorted(glob.glob('crates/*/src/**/*.rt', recursive=True))
    edits = sorted(glob.glob('crates/*/must-fail/*.edit'))
    new, bad = {}, 0
    for path in antt + rt:
        text = read(path)
        if path.endswith('/Unique.antt'):  # an entry has its function's name
            text = re.sub(r'(?m)^(pub )?[a-z][a-z0-9-]*(?= [:=])|^[a-z][a-z0-9-]*(?= )', lambda name: name[0].replace('-', '_'), text)
        mark = '--' if path.endswith('.antt') else '//'
        words = collections.defaultdict(set)
        for line in text.split('\n') if path.endswith('.antt') else ():  # no clause can name a function of src/
            code = code_and_comment(line, mark)[0]
            for found in WORD.finditer(code):
                if code[found.end():found.end() + 1] != '.' and code[found.start() - 1:found.start()] != '.':  # a step of a path
                    words[names.get(found[0], found[0])].add(found[0])
        for word, olds in sorted(words.items()):
            if len(olds) > 1:
                print(f'{path}: {" and ".join(sorted(olds))} would be {word}')
                bad += 1
        new[path] = turn(text, names, mark, notes)
    for path in edits:
        new[path] = '\n'.join(turn_code(line, names, notes) if re.match(r'(old|new):', line) else line for line in read(path).split('\n'))
    if bad and '--anyway' not in sys.argv:
        return f'{bad} meetings; nothing was written'
    for path, text in new.items():
        if text != read(path):
            with open(path, 'w', encoding='utf-8') as file:
                file.write(text)
    print(f'{len(names)} names turned')


if __name__ == '__main__':
    sys.exit(main())
