"""Every entry of the table of sines against the sine itself, as sine.py works it out.

The numbers are read out of the Rattle source, so that the static itself is compared.
"""
import math
import pathlib
import re
import tempfile
import unittest

from sine import ENTRIES, ERROR, SCALE, UNIT, sine

TABLE = pathlib.Path(__file__).resolve().parent.parent / 'crates/sines/src/table.rt'


def numbers_of(path):
    """The numbers of the static SINES in a Rattle source."""
    found = re.search(r'static SINES: \[u64; (\d+)\] = \[([\d_,\s]*)\];', path.read_text(encoding='utf-8'))
    numbers = [int(word) for word in found.group(2).split(',') if word.strip()]
    if len(numbers) != int(found.group(1)):
        raise ValueError(f'{len(numbers)} numbers, where the type says {found.group(1)}')
    return numbers


def differences(path):
    """The places at which the static of a source is not the table."""
    numbers = numbers_of(path)
    if len(numbers) != len(ENTRIES):
        return [f'{len(numbers)} entries']
    return [k for k, (said, true) in enumerate(zip(numbers, ENTRIES)) if said != true]


class Sines(unittest.TestCase):
    def test_every_entry_is_the_nearest_whole_number(self):
        self.assertEqual(differences(TABLE), [])

    def test_the_program_knows_sines_that_are_known(self):
        known = {0: 0, 1500: UNIT // 2, 4500: UNIT}
        self.assertEqual({k: ENTRIES[k] for k in known}, known)
        fifteen_degrees = (math.isqrt(6 * SCALE**2) - math.isqrt(2 * SCALE**2)) // 4
        self.assertLess(abs(sine(750) - fifteen_degrees), ERROR)

    def test_one_entry_off_by_one_is_seen(self):
        lines = TABLE.read_text(encoding='utf-8').split('\n')
        first = next(at for at, line in enumerate(lines) if line.strip() == '0,')
        for k in (0, 1, 2250, 4499, 4500):
            for off in (1, -1):
                if k == 0 and off < 0:
                    continue
                changed = list(lines)
                changed[first + k] = f'    {ENTRIES[k] + off},'
                with tempfile.TemporaryDirectory() as room:
                    copy = pathlib.Path(room) / 'table.rt'
                    copy.write_text('\n'.join(changed), encoding='utf-8')
                    self.assertEqual(differences(copy), [k])


if __name__ == '__main__':
    unittest.main()
