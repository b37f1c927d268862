"""Takes if◌then◌else◌ from the library: drops the repository's own, and imports std's in its place."""
import glob, re
NAME = 'if◌then◌else◌'
OWN = re.compile(r'^use Rattle\.refusals\.specs\.Choice\.\{([^}]*)\}\n', re.M)
STD = re.compile(r'^use Rattle\.std\.specs\.Prelude\.\{([^}]*)\}\n', re.M)
for path in sorted(glob.glob('crates/*/specs/**/*.antt', recursive=True) + glob.glob('crates/*/proofs/**/*.antt', recursive=True)):
    text = was = open(path, encoding='utf-8').read()
    if path == 'crates/refusals/specs/Choice.antt':
        text = re.sub(rf'\ninfix 5 {NAME}\nabbrev pub {NAME} : .*\nif true .*\nif false .*\n', '', text)
    m = OWN.search(text)
    if m and NAME in m[1]:
        rest = [n for n in m[1].split(', ') if n != NAME]
        line = f'use Rattle.refusals.specs.Choice.{{{", ".join(rest)}}}\n' if rest else ''
        text = text[:m.start()] + line + text[m.end():]
        s = STD.search(text)
        if s and NAME not in s[1]:
            text = text[:s.start()] + f'use Rattle.std.specs.Prelude.{{{s[1]}, {NAME}}}\n' + text[s.end():]
        elif not s:
            at = re.search(r'^use ', text, re.M).start()
            text = text[:at] + f'use Rattle.std.specs.Prelude.{{{NAME}}}\n' + text[at:]
    if text != was:
        open(path, 'w', encoding='utf-8').write(text)
        print(path)
