"""The gate over stand-ins for its parts, and tests/run over small tests: whatever goes wrong is counted, and the last line says so."""
import fcntl
import os
import pathlib
import re
import shutil
import signal
import subprocess
import sys
import tempfile
import textwrap
import time
import unittest

import built

# stand-ins that pass, and the last line over them
GOOD = {'ci': 'echo "5 passed, 0 failed"', 'lib': ':', 'tests': 'echo "3 passed, 0 failed"'}
ALL = '9 passed, 0 failed'
# what rt ci says of its edits before its count
OK = 'rt: ok; handles allowed: none; must-fail edits: {}; every proof and must-fail edit was done in this run'
WAITING = 'gate: another run works in this checkout; waiting for it'
# what a part may see of its caller's environment, and what the gate sets
SEEN = {'PATH', 'HOME', 'RATTLE_HOME', 'RUSTUP_HOME', 'CARGO_HOME', 'PYENV_ROOT', 'LC_ALL', 'TMPDIR'}


def script(path, text):
    path.parent.mkdir(parents=True, exist_ok=True)
    path.write_text('#!/bin/sh\n' + text, encoding='utf-8')
    path.chmod(0o755)


def alive(pid):
    """Whether a process runs. One that has ended and was not asked for its status does not."""
    try:
        return pathlib.Path(f'/proc/{pid}/stat').read_text(encoding='utf-8').rpartition(')')[2].split()[0] != 'Z'
    except (FileNotFoundError, ProcessLookupError):
        return False


def until(holds):
    """Waits for something that comes soon."""
    for _ in range(1200):
        if holds():
            return
        time.sleep(0.05)
    raise TimeoutError


class Gate(unittest.TestCase):
    def setUp(self):
        room = tempfile.TemporaryDirectory()
        self.addCleanup(room.cleanup)
        self.room = pathlib.Path(room.name)
        (self.room / '.ci').mkdir()
        (self.room / 'crates.txt').touch()
        (self.room / 'crates/senruhobi').mkdir(parents=True)
        for name in ('run', 'gate.py'):
            shutil.copy(built.ROOT / '.ci' / name, self.room / '.ci' / name)
        self.change("'rt ci', '.', ", 5)
        self.change("'tests/run', '.', ", 3)
        self.parts()

    def change(self, before, number):
        """Puts another number behind some text of the gate."""
        path = self.room / '.ci/gate.py'
        text, found = re.subn(rf'(?<={re.escape(before)})[\d.]+', str(number), path.read_text(encoding='utf-8'))
        self.assertEqual(found, 1)
        path.write_text(text, encoding='utf-8')

    def parts(self, **given):
        """Puts an rt and a tests/run into the room that pass, but for the parts that are given. Each of rt's looks where it is run."""
        do, here = {**GOOD, **given}, '[ "$PWD" -ef "{}" ] || exit 2; cd "{}"'
        ci, lib = (here.format(folder, self.room) for folder in (self.room, self.room / 'crates/senruhobi'))
        script(self.room / 'bin/rt', f'case $* in ci) {ci}; {do["ci"]};; lib) {lib}; {do["lib"]};; *) exit 2;; esac')
        script(self.room / 'tests/run', do['tests'])

    def start(self, *by, stdout=None, ignored=(), cwd=None, **environment):
        """Starts the gate. Gives its process and the file that it prints to."""
        path = os.pathsep.join([str(self.room / 'bin'), os.path.dirname(sys.executable), os.environ['PATH']])

        def signals():
            for number in (signal.SIGHUP, signal.SIGCHLD):
                signal.signal(number, signal.SIG_IGN if number in ignored else signal.SIG_DFL)

        # it is given something to read, which is not for its parts
        with tempfile.NamedTemporaryFile(dir=self.room, delete=False) as said, open(__file__, 'rb') as given:
            gate = subprocess.Popen(by or [self.room / '.ci/run'], stdin=given, stdout=stdout or said, stderr=said, cwd=cwd, preexec_fn=signals,
                                    env={**os.environ, 'PATH': path, **environment})
        self.addCleanup(gate.wait)
        self.addCleanup(gate.kill)
        return gate, pathlib.Path(said.name)

    def ends(self, started, status, *last):
        """Holds the end of a gate to a status and the last lines. Gives all lines."""
        gate, said = started
        gate.wait(60)
        lines = said.read_text(encoding='utf-8').split('\n')
        self.assertEqual((gate.returncode, lines.pop()), (status, ''))
        self.assertEqual(lines[-len(last):], list(last))
        return lines

    def refuses(self, last, *lines, **given):
        """Holds the gate to its last line, which has failures, and to others before it."""
        with self.subTest(given=given):
            self.parts(**given)
            self.assertLessEqual(set(lines), set(self.ends(self.start(), 1, last)))

    def test_all_parts_run_and_are_counted(self):
        lines = self.ends(self.start(), 0, ALL)
        self.assertEqual(lines, ['== rt ci', '5 passed, 0 failed', '== rt lib in crates/senruhobi', '== tests/run', '3 passed, 0 failed', ALL])

    def test_all_that_a_part_prints_is_passed_on(self):
        self.parts(ci='awk "BEGIN { for (i = 0; i < 200000; i++) print i }"; printf "5 passed, 0 failed" >&2', lib='cat')
        lines = self.ends(self.start(), 0, ALL)
        self.assertEqual(lines[:200_004], ['== rt ci', *map(str, range(200_000)), '5 passed, 0 failed', '== rt lib in crates/senruhobi', '== tests/run'])

    def test_a_part_that_fails(self):
        self.refuses('8 passed, 1 failed', ci='echo "4 passed, 1 failed"; exit 1')
        self.refuses('8 passed, 1 failed', lib='exit 1')
        self.refuses('7 passed, 2 failed', tests='echo "1 passed, 2 failed"; exit 1')
        self.refuses('7 passed, 2 failed', tests='echo "1 passed, 2 failed"')

    def test_edits_that_could_not_be_tried(self):
        # rt ci counts none of them, and ends with status 0
        self.parts(ci=f'echo "{OK.format("4 refused")}"; {GOOD["ci"]}')
        self.ends(self.start(), 0, ALL)
        bad = 'gate: rt ci could not try {} must-fail edits'
        self.refuses('8 passed, 1 failed', bad.format(1), ci=f'echo "{OK.format("3 refused, 1 bad")}"; echo "4 passed, 0 failed"')
        self.refuses('7 passed, 2 failed', bad.format(2), ci=f'echo "{OK.format("2 refused, 1 of them only by a limit, 2 bad")}"; echo "3 passed, 0 failed"')
        self.refuses('9 passed, 2 failed', bad.format(1), ci=f'echo "{OK.format("4 refused, 1 bad")}"; {GOOD["ci"]}')

    def test_a_part_that_breaks_off(self):
        self.refuses('4 passed, 1 failed', 'gate: rt ci ended with status 2', ci='echo "rt: no crates.txt"; exit 2')
        self.refuses('9 passed, 1 failed', 'gate: rt ci ended with status 3', ci='echo "5 passed, 0 failed"; exit 3')
        self.refuses('4 passed, 1 failed', 'gate: rt ci ended with status 3', ci='exec >&- 2>&-; sleep 0.2; exit 3')
        for tests in ('exit 0', 'echo "3 passed, 0 failed"; echo', 'echo "all 3 passed, 0 failed"', 'echo "3 passed, 0 failed, 0 skipped"'):
            self.refuses('6 passed, 1 failed', 'gate: tests/run did not end in its count', tests=tests)

    def test_a_part_that_is_killed(self):
        self.refuses('9 passed, 1 failed', 'gate: rt ci was ended by signal 9', ci='echo "5 passed, 0 failed"; kill -9 $$')
        self.refuses('8 passed, 1 failed', 'gate: rt lib was ended by signal 9', lib='kill -9 $$')
        self.refuses('6 passed, 1 failed', 'gate: tests/run was ended by signal 15', tests='kill $$')
        # a caller that ignores how its children end hands that on to the gate
        self.parts(lib='kill -9 $$')
        self.ends(self.start(ignored=[signal.SIGCHLD]), 1, '8 passed, 1 failed')

    def test_a_part_that_cannot_be_started(self):
        (self.room / 'tests/run').unlink()
        lines = self.ends(self.start(), 1, '6 passed, 1 failed')
        self.assertIn('gate: tests/run cannot be started', lines[-2])
        self.parts()
        (self.room / 'crates/senruhobi').rmdir()
        lines = self.ends(self.start(), 1, '8 passed, 1 failed')
        self.assertIn('gate: rt lib cannot be started', lines[3])

    def test_something_that_a_part_leaves_behind(self):
        self.parts(lib='sleep 600 & echo $! >left')
        self.ends(self.start(), 0, ALL)
        left = (self.room / 'left').read_text(encoding='utf-8')
        until(lambda: not alive(int(left)))

    def test_something_that_is_left_behind_and_cannot_be_found(self):
        # in a session of its own, with the part's output
        away = 'import os, time; os.setsid(); print(os.getpid(), file=open("new", "w")); os.rename("new", "left"); time.sleep(600)'
        self.parts(lib=f"'{sys.executable}' -c '{away}' & until [ -e left ]; do sleep 0.05; done")
        started = self.start()
        until((self.room / 'left').exists)
        self.addCleanup(os.kill, int((self.room / 'left').read_text(encoding='utf-8')), signal.SIGKILL)
        self.ends(started, 0, ALL)

    def test_what_is_gone_is_missed_and_what_is_new_is_counted_in(self):
        line = 'gate: {} counted {}, and has to count {} (PARTS in .ci/gate.py)'
        self.refuses('8 passed, 1 failed', line.format('rt ci', 4, 5), ci='echo "4 passed, 0 failed"')
        self.refuses('10 passed, 1 failed', line.format('rt ci', 6, 5), ci='echo "6 passed, 0 failed"')
        self.refuses('7 passed, 2 failed', line.format('tests/run', 2, 3), tests='echo "1 passed, 1 failed"; exit 1')
        self.refuses('9 passed, 1 failed', line.format('tests/run', 4, 3), tests='echo "3 passed, 0 failed, 1 not run"')
        self.refuses('6 passed, 1 failed', line.format('tests/run', 0, 3), tests='echo "0 passed, 0 failed"')

    def test_what_is_not_run_is_said(self):
        self.parts(tests='echo "1 passed, 0 failed, 2 not run"')
        self.ends(self.start(), 0, 'gate: 2 not run here', '7 passed, 0 failed')

    def test_a_signal_stops_what_was_started_and_removes_its_files(self):
        tmp = self.room / 'tmp'
        tmp.mkdir()
        waits = 'mktemp >/dev/null; printf begun; sleep 600 & echo $$ $! >new; mv new pids; wait'
        for number in (signal.SIGHUP, signal.SIGINT, signal.SIGTERM):
            # one that ends when it is asked, and one that has to be made to
            for part, grace in ((waits, 600), ('trap "" TERM; ' + waits, 0.2)):
                with self.subTest(number=number, part=part):
                    self.change('MOMENT, GRACE = 0.05, ', grace)
                    self.parts(lib=part)
                    started = self.start(TMPDIR=str(tmp))
                    until(lambda: (self.room / 'pids').exists() and started[1].read_text(encoding='utf-8').endswith('begun'))
                    pids = (self.room / 'pids').read_text(encoding='utf-8').split()
                    (self.room / 'pids').unlink()
                    self.assertEqual((len(list(tmp.glob('*/*'))), [alive(pid) for pid in pids]), (1, [True, True]))
                    started[0].send_signal(number)
                    self.ends(started, 1, 'begun', f'gate: stopped by {number.name}', '5 passed, 1 failed')
                    until(lambda: not any(map(alive, pids)))
                    self.assertEqual(list(tmp.iterdir()), [])

    def test_nohup(self):
        self.parts(lib='touch runs; until [ -e go ]; do sleep 0.05; done')
        started = self.start(ignored=[signal.SIGHUP])
        until((self.room / 'runs').exists)
        started[0].send_signal(signal.SIGHUP)
        (self.room / 'go').touch()
        self.ends(started, 0, ALL)

    def test_two_at_once_wait_for_each_other(self):
        self.parts(ci='mkdir busy || exit 1; until [ -e go ]; do sleep 0.05; done; rmdir busy; ' + GOOD['ci'])
        first = self.start()
        until((self.room / 'busy').exists)
        second = self.start()
        until(lambda: second[1].read_text(encoding='utf-8') == WAITING + '\n')
        (self.room / 'go').touch()
        self.ends(first, 0, ALL)
        self.ends(second, 0, ALL)

    def test_a_signal_stops_one_that_waits(self):
        with (self.room / 'crates.txt').open(encoding='utf-8') as file:
            fcntl.flock(file, fcntl.LOCK_EX)
            started = self.start()
            until(lambda: started[1].read_text(encoding='utf-8') == WAITING + '\n')
            started[0].terminate()
            self.ends(started, 1, WAITING, 'gate: stopped by SIGTERM', '0 passed, 1 failed')

    def test_no_folder_for_temporary_files(self):
        # others may enter the folder that the parts get, since rt runs programs as nobody where it is root's
        self.parts(lib='mktemp >/dev/null && ls -ld "$TMPDIR"')
        (self.room / 'file').touch()
        self.assertRegex(self.ends(self.start(TMPDIR=''), 0, ALL)[3], '^drwx--x--x')
        for no_folder in (self.room / 'nowhere', self.room / 'file', '/proc'):
            lines = self.ends(self.start(TMPDIR=str(no_folder)), 0, ALL)
            self.assertRegex(lines[0], '^gate: TMPDIR is no folder to write in; /.* serves$')

    def test_what_the_gate_itself_cannot_do(self):
        (self.room / 'crates.txt').unlink()
        lines = self.ends(self.start(), 1, '0 passed, 1 failed')
        self.assertIn('crates.txt', lines[-2])

    def test_output_that_cannot_be_written(self):
        with open('/dev/full', 'wb') as full:
            gate, _ = self.start(stdout=full)
            self.assertNotEqual(gate.wait(60), 0)

    def test_the_environment_neither_breaks_nor_mends_anything(self):
        for part in ('ci', 'lib', 'tests'):
            with self.subTest(part):
                self.parts(**{part: f'tr "\\0" "\\n" </proc/$$/environ >seen; mktemp >/dev/null || exit 1; {GOOD[part]}'})
                self.ends(self.start(SEED='x', TEXTS='0', QEMU_STRACE='1', LC_ALL='nonsense', LC_CTYPE='C', LANG='nonsense', PYTHONPATH='nowhere',
                                     PYTHONHOME='nowhere', PYTHONOPTIMIZE='2', LD_LIBRARY_PATH='nowhere', CDPATH='nowhere', RT_JOBS='x', RT_CUT='x',
                                     TMPDIR='/nonexistent', RUSTUP_HOME='rust'), 0, ALL)
                seen = dict(line.split('=', 1) for line in (self.room / 'seen').read_text(encoding='utf-8').split('\n')[:-1])
                self.assertLessEqual(seen.keys(), SEEN)
                self.assertEqual((seen['LC_ALL'], seen['RUSTUP_HOME'], seen['PATH'].find(str(self.room / 'bin'))), ('C.UTF-8', 'rust', 0))

    def test_it_is_called_from_any_folder(self):
        # where CDPATH leads, there is another gate
        other = self.room / 'other/.ci/gate.py'
        other.parent.mkdir(parents=True)
        other.write_text('print("1 passed, 0 failed")\n', encoding='utf-8')
        for by, folder in ((['.ci/run'], '.'), (['./run'], '.ci'), (['sh', 'run'], '.ci'), (['../.ci/run'], 'tests')):
            self.ends(self.start(*by, cwd=self.room / folder, CDPATH=str(self.room / 'other')), 0, ALL)

    def test_what_is_needed_before_python(self):
        link = self.room / 'links/other/gate'
        link.parent.mkdir(parents=True)
        link.symlink_to(self.room / '.ci/run')
        self.ends(self.start(link), 1, f'gate: {link} has no gate.py beside it: call it by its own name, not by a link', '0 passed, 1 failed')
        self.ends(self.start(PATH=str(self.room)), 1, 'gate: rt is not on the PATH (it comes with the Rattle kit)', '0 passed, 1 failed')
        no_python = 'gate: python3 is not on the PATH, does not run, or is older than Python 3.8'
        self.ends(self.start(PATH=str(self.room / 'bin')), 1, no_python, '0 passed, 1 failed')
        script(self.room / 'bin/python3', 'exit 1')
        self.ends(self.start(), 1, no_python, '0 passed, 1 failed')


class Run(unittest.TestCase):
    def run_over(self, text):
        """The status and the lines of tests/run over a file of tests; over none where there is no text."""
        with tempfile.TemporaryDirectory() as room:
            for name in ('run', 'built.py'):
                shutil.copy(built.ROOT / 'tests' / name, room)
            if text:
                pathlib.Path(room, 'test_small.py').write_text('import os, sys, unittest\nimport built\n' + text, encoding='utf-8')
            ran = subprocess.run([sys.executable, os.path.join(room, 'run')], stdout=subprocess.PIPE, stderr=subprocess.DEVNULL, text=True)
            return ran.returncode, ran.stdout.splitlines()

    def small(self, more, before=''):
        """The same over a class with one good test, and more in it."""
        good = 'class Small(unittest.TestCase):\n    def test_good(self):\n        pass\n'
        return self.run_over(before + good + textwrap.indent(textwrap.dedent(more), '    '))

    def says(self, ran, status, *last):
        self.assertEqual((ran[0], ran[1][-len(last):]), (status, list(last)))

    def test_tests_are_counted(self):
        self.says(self.small(''), 0, '1 passed, 0 failed')
        self.says(self.small('def test_more(self):\n    pass'), 0, '2 passed, 0 failed')

    def test_a_test_that_does_not_pass(self):
        for body in ('self.fail()', 'raise ValueError', 'sys.exit(0)', 'self.skipTest("no time")',
                     'self.skipTest("needs sh, which is not on the PATH")', 'self.skipTest("needs no-such-tool")',
                     'for k in range(3):\n        with self.subTest(k):\n            self.fail()',
                     'for k in range(3):\n        with self.subTest(k):\n            self.skipTest(built.NEEDS.format("no-such-tool"))'):
            with self.subTest(body):
                self.says(self.small(f'def test_bad(self):\n    {body}'), 1, '1 passed, 1 failed')
        self.says(self.small('@unittest.expectedFailure\ndef test_bad(self):\n    self.fail()'), 1, '1 passed, 1 failed')

    def test_a_fault_outside_of_tests(self):
        for when in ('setUpClass', 'tearDownClass'):
            for body in ('sys.exit(0)', 'raise KeyboardInterrupt', 'raise ValueError', 'raise unittest.SkipTest("no time")'):
                with self.subTest(when + ' ' + body):
                    self.says(self.small(f'@classmethod\ndef {when}(cls):\n    {body}'), 1, '0 passed, 1 failed')
        for text in ('import no_such_module\n', 'sys.exit(0)\n', 'raise unittest.SkipTest("no time")\n', 'def\n', '\n', ''):
            with self.subTest(text):
                self.says(self.run_over(text), 1, '0 passed, 1 failed')

    def test_a_run_that_is_cut_off_ends_in_no_count(self):
        for body, status in (('os.kill(os.getpid(), 9)', -9), ('os._exit(0)', 0)):
            ran = self.small(f'def test_last(self):\n    {body}')
            self.assertEqual(ran[0], status)
            self.assertNotIn('passed', ran[1][-1])

    def test_a_tool_that_is_not_here(self):
        needs = '@built.needs("no-such-tool")\n'
        line = 'not run here: test_small.Small.test_{}: needs no-such-tool, which is not on the PATH'
        self.says(self.small(needs + 'def test_more(self):\n    self.fail()'), 0, line.format('more'), '1 passed, 0 failed, 1 not run')
        self.says(self.small('def test_more(self):\n    self.fail()', before=needs), 0, line.format('good'), line.format('more'),
                  '0 passed, 0 failed, 2 not run')
        self.says(self.small(needs + 'def test_more(self):\n    pass\ndef test_third(self):\n    self.fail()'), 1, line.format('more'),
                  '1 passed, 1 failed, 1 not run')
        self.says(self.small('@built.needs("sh")\ndef test_more(self):\n    self.fail()'), 1, '1 passed, 1 failed')

    def test_another_machine(self):
        skip = 'def test_more(self):\n    self.skipTest(built.NEEDS_X86_64)'
        line = 'not run here: test_small.Small.test_more: needs an x86-64 machine'
        machine = 'import types\nos.uname = lambda: types.SimpleNamespace(machine="{}")\n'
        self.says(self.small(skip, before=machine.format('aarch64')), 0, line, '1 passed, 0 failed, 1 not run')
        self.says(self.small(skip, before=machine.format('x86_64')), 1, '1 passed, 1 failed')


if __name__ == '__main__':
    unittest.main()
