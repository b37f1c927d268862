#!/usr/bin/env python3
"""Counts the places of docs/DESIGN-PASS.md in crates/*/src of a commit, or of the tree where none is given: python3 tools/places.py [COMMIT]"""
import re
import subprocess
import sys

POINTS = [
    ("1 own enums with a variant for no value or a refusal", r"^ +(Refused|Not|Unknown|Failed|None)(\(|,)"),
    ("1 numbers for refusals: constants, and answers in which 0 is none",
     r"^pub const [A-Z]+: u32 = \d+;|^ *(pub(\(crate\))? )?fn \w*(refusal|fault|first_of)\w*\(.*-> u32"),
    ("1 a byte for a kind", r"before: u8"),
    ("2 twins: a look-up or an answer said once more for another unit, table or caller",
     r"^(pub(\(crate\))? )?fn (size32|size64|last_row|in_row|leg_sine|leg_cosine|short_sine_of|short_cosine|is_latitude|is_longitude|is_angle|sine|place|point|"
     r"length|direction|met|reading|writing|goal|refused|text|number|field|bytes|millimetres)\("),
    ("3 loops", r"^ *(while|loop)\b"),
    ("4 values of std said by hand", r"9_223_372_036_854_775_80|2_147_483_648|0x7ff8_|== false|x == x"),
    ("4 conversions by hand into what goes out to C, by functions", r"^pub\(crate\) fn (sine|place|point|length|direction|met|reading|writing|step)\("),
    ("5 the same fact asked of callers", r"requires .*(t\.now ≡ sines|_refusal (points\.now|target) ≡|is_latitude \w+ ≡ true|is_longitude \w+ ≡ true|≤ most_size)"),
    ("5 four numbers of two points as parameters", r"latitude1?: i32.*longitude2: i32|^ +longitude2: i32,"),
    ("6 an index and a length by hand: bytes copied or compared one by one", r"\[(at \+ )?i\] = |!= b\[i\]"),
    ("7 a step chosen by a number", r"match .*\b[0-9]+ =>"),
]


def sources(commit):
    if commit:
        names = subprocess.run(["git", "ls-tree", "-r", "--name-only", commit, "crates"], capture_output=True, text=True, check=True).stdout.split()
        read = lambda name: subprocess.run(["git", "show", f"{commit}:{name}"], capture_output=True, text=True, check=True).stdout
    else:
        names = subprocess.run(["git", "ls-files", "crates"], capture_output=True, text=True, check=True).stdout.split()
        read = lambda name: open(name, encoding="utf-8").read()
    return [(name, read(name)) for name in names if re.search(r"/src/.*\.rt$", name) and not name.endswith("sines/src/table.rt")]


def main():
    commit = next((word for word in sys.argv[1:] if word != '-v'), None)
    found = sources(commit)
    for title, pattern in POINTS:
        places = [f"{name}:{n}" for name, text in found for n, line in enumerate(text.split("\n"), 1) if re.search(pattern, line)]
        print(f"{len(places):4}  {title}")
        if '-v' in sys.argv:
            print("\n".join("        " + p for p in places))


main()
