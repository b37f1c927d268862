"""Runs a program that was built under the kit's loader and C library, and under the kit's emulator where it has one. Programs are for x86-64;
a kit for another kind of machine would bring an emulator, so the same words serve on both."""
import functools
import os
import pathlib
import shutil
import subprocess
import unittest

ROOT = pathlib.Path(__file__).resolve().parent.parent
NEEDS, NEEDS_X86_64 = 'needs {}, which is not on the PATH', 'needs an x86-64 machine'

# For tests, or classes of them, that cannot run everywhere. tests/run takes no other reasons for a skip.
on_x86_64 = unittest.skipUnless(os.uname().machine == 'x86_64', NEEDS_X86_64)


def needs(tool):
    return unittest.skipUnless(shutil.which(tool), NEEDS.format(tool))


@functools.lru_cache(maxsize=None)
def tools():
    """The kit's folder of tools: compiler and linker in bin; loader, C library and what a program starts with in lib."""
    guide = subprocess.run(['rt', 'doc'], check=True, capture_output=True, text=True).stdout.strip()
    # the guide is START-HERE.md at the top of the kit
    return pathlib.Path(guide).parent / 'toolchain'


def made(crate, name, maker):
    """A file that the kit has made of a crate."""
    path = ROOT / 'crates' / crate / 'out' / name
    if not path.is_file():
        raise FileNotFoundError(f'crates/{crate}/out/{name} is not there: {maker} makes it')
    return path


def library():
    """The library for C."""
    return made('senruhobi', 'libsenruhobi.a', 'rt lib in crates/senruhobi')


def command(program):
    """The words that start a program: one that rt ci has built, by its name, or any, by its path."""
    path = program if isinstance(program, pathlib.Path) else made(program, program, 'rt ci')
    emulator = tools() / 'bin/qemu-x86_64'
    return [*([emulator] if emulator.exists() else []), tools() / 'lib/ld-linux-x86-64.so.2', '--library-path', tools() / 'lib', path]


def run(program, given=b''):
    """What a program prints for the bytes on its standard input. One that fails or complains raises."""
    ran = subprocess.run(command(program), input=given, capture_output=True, timeout=60)
    if ran.returncode or ran.stderr:
        raise RuntimeError(f'{program} ended with status {ran.returncode} and said {ran.stderr!r}')
    return ran.stdout
