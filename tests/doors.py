"""The doors for C, called through the driver doors.c, which is built once by the kit's own compiler and linker."""
import atexit
import functools
import pathlib
import struct
import subprocess
import tempfile

import built

TESTS = built.ROOT / 'tests'
# the header, and what stands in for the system's headers, which the kit does not have
HEADERS = ['-nostdinc', '-I', built.ROOT / 'include', '-I', TESTS / 'include']


def compiled(source, room):
    """The object of a C source; optimised, as the driver looks over its memory at every call."""
    made = room / source.with_suffix('.o').name
    compiler = [built.tools() / 'bin/clang', '--target=x86_64-unknown-linux-gnu', '-fPIE', '-O2', '-Wall', '-Wextra', '-Werror']
    subprocess.run([*compiler, *HEADERS, '-c', source, '-o', made], check=True)
    return made


def linked(room, *more, source=TESTS / 'doors.c'):
    """A program over the library, the driver if no other, in a folder; more are other words for the linker."""
    made, lib = room / source.stem, built.tools() / 'lib'
    subprocess.run([built.tools() / 'bin/ld.lld', '-pie', '-o', made, lib / 'Scrt1.o', compiled(source, room), *more, built.library(),
                    lib / 'libc.so.6'], check=True)
    return made


@functools.lru_cache(maxsize=None)
def driver():
    room = tempfile.TemporaryDirectory()
    atexit.register(room.cleanup)
    return linked(pathlib.Path(room.name))


def written(value):
    """A name or a value, as the driver reads and writes it. A float's bits tell apart what == does not: 0.0 and -0.0."""
    if isinstance(value, float):
        return struct.pack('>d', value).hex()
    if isinstance(value, tuple):  # the numbers of a buffer
        return line_of((len(value), *value))
    return ':' + value.hex() if isinstance(value, bytes) else str(value)


def line_of(values):
    return ' '.join(map(written, values))


def lent(room):
    """What a buffer of so many numbers holds when the driver lends it."""
    return [-2_000_000_000 - place for place in range(room)]


def lent_output(room):
    """What an output of so many bytes holds when the driver lends it."""
    return bytearray(128 | place % 128 for place in range(room))


def answers(calls, program=None):
    """The line that the driver answers to each call: a door's name and its arguments."""
    given = ''.join(line_of(call) + '\n' for call in calls)
    said = built.run(program or driver(), given.encode()).decode().splitlines()
    if len(said) != len(calls):
        raise RuntimeError(f'{len(calls)} calls and {len(said)} answers')
    return said
