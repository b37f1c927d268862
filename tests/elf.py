"""What stands in an x86-64 program or object file, and in an archive of them."""
import struct
from typing import NamedTuple

SYMBOLS = 2  # the kind of section that is a symbol table
WRITE, ALLOC = 1, 2  # flags of a section that has a place in memory, and may be written to there


class Section(NamedTuple):
    kind: int
    flags: int
    address: int
    offset: int
    size: int
    link: int


class Symbol(NamedTuple):
    name: str
    function: bool
    shared: bool  # seen outside its file
    section: int  # 0 where it is wanted and not here
    value: int
    size: int


def sections(elf):
    at, count = struct.unpack_from('<Q', elf, 0x28)[0], struct.unpack_from('<H', elf, 0x3c)[0]
    # the first number is where its name stands
    return [Section(*struct.unpack_from('<IIQQQQI', elf, at + 0x40 * k)[1:]) for k in range(count)]


def symbols(elf):
    found = sections(elf)
    for table in found:
        if table.kind != SYMBOLS:
            continue
        names = found[table.link].offset
        for entry in range(table.offset, table.offset + table.size, 24):
            name, info, _, section, value, size = struct.unpack_from('<IBBHQQ', elf, entry)
            end = elf.index(b'\0', names + name)
            yield Symbol(elf[names + name:end].decode(), info & 15 == 2, info >> 4 != 0, section, value, size)


def members(archive):
    """The object files of an archive."""
    at = len(b'!<arch>\n')
    while at < len(archive):
        size = int(archive[at + 48:at + 58])
        member = archive[at + 60:at + 60 + size]
        if member.startswith(b'\x7fELF'):
            yield member
        at += 60 + size + size % 2


def written_to(elf):
    """The bytes of data that a program may write to."""
    return sum(section.size for section in sections(elf) if section.flags & WRITE and section.flags & ALLOC)
