"""No compiled function sets its large frame up behind a test.

A function with a local of several pages reaches its frame's end by a loop that counts in r11. Where the compiler puts that loop behind a
first return, r11 may hold an argument, and what the function answers is nonsense though it is proved (docs/DECISIONS.md, "A large local
is made first"). So in every program that the gate has built, and in the doors for C, nothing but pushes may stand before such a loop.
"""
import re
import unittest

import built
import doors
import elf

PROBE = bytes.fromhex('4989e3 4981eb')  # mov r11, rsp; sub r11, the frame's pages
PUSHES = re.compile(rb'(?:[\x50-\x57]|\x41[\x50-\x57])*')


def functions(program):
    """The name and the code of each function of an x86-64 program, by its symbol table."""
    found = elf.sections(program)
    for symbol in elf.symbols(program):
        if symbol.function and 0 < symbol.section < len(found):  # it has code here
            start = symbol.value - found[symbol.section].address + found[symbol.section].offset
            yield symbol.name, program[start:start + symbol.size]


def late(code):
    """Whether the frame is set up behind anything but pushes."""
    at = code.find(PROBE)
    return at > PUSHES.match(code).end()


class Frames(unittest.TestCase):
    def test_every_large_frame_is_set_up_first(self):
        programs = [line.split(':')[0] for line in (built.ROOT / 'crates.txt').read_text(encoding='utf-8').split('\n')
                    if (built.ROOT / 'crates' / line.split(':')[0] / 'src/main.rt').is_file()]
        self.assertNotEqual(programs, [])
        large = set()
        for path in [*(built.made(program, program, 'rt ci') for program in programs), doors.driver()]:
            for name, code in functions(path.read_bytes()):
                if PROBE in code:
                    large.add(path.name)
                self.assertFalse(late(code), f'{path.name}: {name}')
        self.assertLessEqual({'routereport', 'courselist'}, large)  # those that make a buffer for a whole text

    def test_a_late_frame_is_seen(self):
        frame = PROBE + bytes.fromhex('00800000')
        self.assertFalse(late(frame))
        self.assertFalse(late(bytes.fromhex('4157 53') + frame))  # push r15; push rbx
        self.assertTrue(late(bytes.fromhex('4c63da 7705 53') + frame))  # movsxd r11, edx; ja; push rbx
        self.assertFalse(late(bytes.fromhex('c3')))


if __name__ == '__main__':
    unittest.main()
