"""The scripts `report` and `courses`, over stand-ins for the kit and for the program: what they print, where they print it, and their status. And
the programs `routereport` and `courselist` themselves, where they cannot read or print."""
import concurrent.futures
import fcntl
import os
import pathlib
import select
import shutil
import socket
import subprocess
import tempfile
import unittest
from unittest import mock

import built
import model
from test_gate import script

# the stand-in for the loader runs a script, and only if it was handed the kit's libraries
LOADER = 'here=$(dirname "$0"); [ "$1" = --library-path ] && [ "$2" = "$here" ] || exit 9; shift 2; exec /bin/sh "$@"'
# the stand-in for the program answers what it reads, so that a text can be any answer
PROGRAM = 'exec cat'
REFUSED = 'refused\t5\t12\n'
# why a program cannot read or print
FOLDER, RESET = 'standard input: Is a directory', 'standard input: Connection reset by peer'
UNUSABLE = {'</': FOLDER, '<&-': 'standard input: Bad file descriptor',
            '>/dev/full': 'standard output: No space left on device', '>&-': 'standard output: Bad file descriptor'}
# what comes before a read that fails
BEFORE = ('route\tpoint\n', 'route\tpoint\np\t0\t0\n', 'z\n')


def as_nobody():
    """Root can read and write every file, nobody cannot: what a test does not allow has to be tried as nobody."""
    if os.geteuid() == 0:
        os.setgroups([])
        os.setgid(65534)
        os.setuid(65534)


def run(command, streams='', given='', **more):
    """The status and what was printed, to standard output and to standard error. The streams are redirections in the shell's words."""
    more = {'stdout': subprocess.PIPE, **({} if 'stdin' in more else {'input': given}), **more}
    ran = subprocess.run(['/bin/sh', '-c', f'exec "$0" "$@" {streams}', *command], text=True, stderr=subprocess.PIPE, timeout=60, **more)
    return ran.returncode, ran.stdout, ran.stderr


def broken_off(text):
    """A socket from which the text can be read, and then no end of it, but an error: its other end was closed on a byte not read."""
    ours, theirs = socket.socketpair()
    with ours:
        theirs.send(b'x')
        ours.send(text.encode())
    return theirs


class Script:
    """What holds for every script. A class below says its name, its program and what this prints by the model, answers, and other texts."""

    def setUp(self):
        room = tempfile.TemporaryDirectory()
        self.addCleanup(room.cleanup)
        self.room = pathlib.Path(room.name)
        self.room.chmod(0o755)
        self.desk = self.room / 'the desk'
        self.program = self.desk / 'crates' / self.PROGRAM / 'out' / self.PROGRAM
        self.source = self.program.parent.parent / 'src/main.rt'
        self.source.parent.mkdir(parents=True)
        self.source.touch()
        (self.desk / 'crates.txt').touch()
        shutil.copy(built.ROOT / self.NAME, self.desk)
        shutil.copytree(built.ROOT / 'shell', self.desk / 'shell')
        self.tools = self.room / 'kit/toolchain'
        script(self.tools / 'lib/ld-linux-x86-64.so.2', LOADER)
        self.called = self.room / 'calls'
        self.called.touch()
        self.called.chmod(0o666)
        # the stand-in for rt run talks, eats what it is given, and builds the stand-in for the program
        self.check = f"""[ "$*" = run ] && [ "$PWD" -ef "{self.source.parent.parent}" ] || exit 9; cat; echo proved
mkdir -p out; [ -f out/{self.PROGRAM} ] || echo '{PROGRAM}' >out/{self.PROGRAM}; touch out/{self.PROGRAM}.stamp"""
        self.kit(self.check)
        self.answer = self.ANSWERS[0]
        self.route = self.room / 'a route'
        self.route.write_text(self.answer, encoding='utf-8')
        self.progress = self.line(f'proving and building {self.PROGRAM}; the first time this takes some minutes')
        self.no_answer = self.line(f'{self.PROGRAM} gave no answer')
        self.unwritten = self.line('standard output cannot be written')

    def line(self, said):
        """What the script says, as it stands on standard error."""
        return f'{self.NAME}: {said}\n'

    def kit(self, check, guide='kit/START-HERE.md'):
        """Puts an rt on the PATH that checks in the way said."""
        doc = f'echo "{self.room / guide}"'
        script(self.room / 'bin/rt', f'echo "$*" >>"{self.called}"; if [ "$1" = doc ]; then {doc}; else {check}; fi')

    def env(self, path=None):
        return {**os.environ, 'PATH': path or f'{self.room}/bin{os.pathsep}{os.environ["PATH"]}'}

    def without(self, tool):
        """A PATH with what a script calls, but for one tool."""
        path = self.room / 'without'
        path.mkdir()
        for name in {'cat', 'dirname', 'find', 'flock', 'grep', 'mkdir', 'readlink', 'rt', 'sed', 'touch', 'tr'} - {tool}:
            found = shutil.which(name, path=self.env()['PATH'])
            if found:
                (path / name).symlink_to(found)
        return path

    def call(self, *words, by=None, path=None, **more):
        return run([by or self.desk / self.NAME, *words], env=self.env(path), **more)

    def fails(self, said, *words, **more):
        self.assertEqual(self.call(*words, **more), (2, '', said))

    def calls(self):
        """The words of each call of rt so far."""
        return self.called.read_text(encoding='utf-8').splitlines()

    def seal(self):
        """Takes the right to write from everything in the checkout, until the test ends."""
        for path in (self.desk, *self.desk.rglob('*')):
            mode = path.stat().st_mode
            path.chmod(mode & ~0o222)
            self.addCleanup(path.chmod, mode)

    def test_the_first_call_says_that_it_proves_and_the_next_is_quiet(self):
        self.assertEqual(self.call(self.route), (0, self.answer, self.progress))
        self.assertEqual(self.call(self.route), (0, self.answer, ''))
        self.assertEqual(self.call(given=self.ANSWERS[1]), (0, self.ANSWERS[1], ''))
        # something under crates is newer now
        os.utime(self.program, (0, 0))
        self.assertEqual(self.call(self.route), (0, self.answer, self.progress))
        self.assertEqual(self.call(self.route), (0, self.answer, ''))

    def test_what_the_gate_has_built_is_proved_once_more(self):
        self.call(self.route)
        self.program.with_suffix('.stamp').unlink()
        before = self.calls()
        self.assertEqual(self.call(self.route), (0, self.answer, ''))
        self.assertEqual(self.calls(), [*before, 'run', 'doc'])
        # what rt makes of other crates, and edits, are no sources
        for name in ('out/rlib', 'must-fail'):
            (self.desk / 'crates/other' / name).mkdir(parents=True)
        self.assertEqual(self.call(self.route), (0, self.answer, ''))
        # but where a source is newer
        for path in (self.desk / 'crates.txt', *(self.desk / 'crates/other' / part / 'file' for part in ('src', 'specs', 'proofs/deep'))):
            path.parent.mkdir(parents=True, exist_ok=True)
            path.touch()
            os.utime(self.program, (path.stat().st_mtime - 1,) * 2)
            self.assertEqual(self.call(self.route), (0, self.answer, self.progress))

    def test_the_status_tells_a_route_from_a_refusal(self):
        self.call(self.route)
        for status, answer in (*((0, answer) for answer in self.ANSWERS), (1, REFUSED)):
            for words in ((), ('-',)):
                self.assertEqual(self.call(*words, given=answer), (status, answer, ''))

    def test_what_is_no_answer(self):
        self.call(self.route)
        for text in (*self.OTHERS, '\n', self.answer + REFUSED, REFUSED + REFUSED, 'x' + self.answer, self.answer + 'x', self.answer + '\n', self.answer[:-1],
                     '\n' + self.answer, self.answer.replace('10', ''), self.answer.replace('10', '-10'), self.answer.replace('\t', ' '), self.answer.replace('\n', ';'),
                     self.answer.replace('10', 'N'), 'refused\n',
                     'refused\t5\n', 'refused\t\t12\n', 'refused\t5\t12\t1\n', 'refused\t5\n12\n', 'Refused\t5\t12\n', REFUSED[:-1]):
            self.fails(self.no_answer, given=text)

    def test_what_the_program_could_not_do_is_no_answer(self):
        # whatever it has printed, and whatever was said before
        self.call(self.route)
        for before in ('', 'a warning\n'):
            said = f'{before}{self.PROGRAM}: standard output: No space left on device\n'
            self.program.write_text(f"printf '{said}' >&2; exec cat", encoding='utf-8')
            for answer in (*self.ANSWERS, REFUSED, ''):
                self.fails(said + self.no_answer, given=answer)

    def test_what_others_say_is_passed_on(self):
        self.call(self.route)
        said = f'a warning\nof {self.PROGRAM}: none\n{self.PROGRAM}\n'
        self.program.write_text(f"printf '{said}' >&2; exec cat", encoding='utf-8')
        for status, answer in (*((0, answer) for answer in self.ANSWERS), (1, REFUSED)):
            self.assertEqual(self.call(given=answer), (status, answer, said))

    def test_help_needs_no_kit(self):
        path = str(self.without('rt'))
        status, said, complaint = self.call('--help', path=path, streams='<&-')
        self.assertEqual((status, complaint), (0, ''))
        for part in (f'usage: {self.NAME} [FILE]\n', 'standard input', 'Status: 0 for a route, 1 for a refusal, 2 '):
            self.assertIn(part, said)
        self.fails(self.unwritten, '--help', path=path, streams='>&-')
        # the example is a real one
        route, answer = said.partition("$ printf '")[2].split(f"' | ./{self.NAME}\n")
        self.assertEqual(answer.replace('    ', ''), type(self).MODEL(route.encode().decode('unicode_escape').encode()).decode())

    def test_it_is_called_from_any_folder_and_by_any_link(self):
        self.call(self.route)
        links = self.room / 'links'
        links.mkdir()
        (links / 'far').symlink_to(self.desk / self.NAME)
        (links / 'near').symlink_to(f'../the desk/{self.NAME}')
        (links / 'both').symlink_to('near')
        for by, folder in ((f'./{self.NAME}', self.desk), (f'../the desk/{self.NAME}', self.desk), (self.desk / self.NAME, '/'), ('links/far', self.room),
                           ('links/near', self.room), ('./both', links), (links / 'both', '/')):
            for name in (self.route, os.path.relpath(self.route, folder)):
                self.assertEqual(self.call(name, by=by, cwd=folder), (0, self.answer, ''))

    def test_a_search_path_for_folders_does_not_lead_astray(self):
        (self.room / 'other/the desk').mkdir(parents=True)
        with mock.patch.dict(os.environ, CDPATH=str(self.room / 'other')):
            self.assertEqual(self.call(self.route, by=f'the desk/{self.NAME}', cwd=self.room), (0, self.answer, self.progress))

    def test_names_of_any_kind(self):
        for k, name in enumerate(('-x', '*', '$HOME', 'a\\nb', "it's", './-', './--help', '--', '--help ')):
            answer = f'refused\t{k}\t1\n'
            (self.room / name).write_text(answer, encoding='utf-8')
            self.assertEqual(self.call(name, cwd=self.room)[:2], (1, answer))
        self.fails(self.line('a\\tb: no such file'), 'a\\tb', cwd=self.room)

    def test_wrong_usage(self):
        for words in ((self.route, self.route), ('--help', self.route), (self.route, '--help'), ('-', '-'), ('', '')):
            self.fails(self.line(f'one FILE at most ({self.NAME} --help says more)'), *words)
        self.assertEqual(self.calls(), [])

    def test_what_cannot_be_read_is_named_before_anything_is_proved(self):
        self.fails(self.line('nowhere: no such file'), 'nowhere')
        self.fails(self.line(': no such file'), '')
        self.fails(self.line(f'{self.room}: a folder, and no file'), self.room)
        self.route.chmod(0)
        self.fails(self.line(f'{self.route}: cannot be read'), self.route, preexec_fn=as_nobody)
        with socket.socket(socket.AF_UNIX) as door:
            door.bind(str(self.room / 'door'))
            self.fails(self.line('door: cannot be read'), 'door', cwd=self.room)
        for words in ((), ('-',)):
            self.fails(self.line('standard input is closed'), *words, streams='<&-')
        self.assertEqual(self.calls(), [])

    def test_no_kit_is_said_in_one_line(self):
        self.fails(self.line('rt is not on the PATH (it comes with the Rattle kit)'), self.route, path=str(self.without('rt')))

    def test_a_proof_that_fails_is_shown_and_nothing_is_run(self):
        self.call(self.route)
        self.kit('echo "rt: route NOT PROVED"; echo why >&2; exit 1')
        self.fails('rt: route NOT PROVED\nwhy\n' + self.line(f'{self.PROGRAM} is not proved'), self.route)

    def test_a_checkout_without_a_file_of_its_own(self):
        self.call(self.route)
        for name in ('crates.txt', 'shell/answer.sh'):
            (self.desk / name).unlink()
            status, printed, said = self.call(self.route)
            self.assertEqual((status, printed), (2, ''))
            self.assertIn(name, said)

    def test_no_program_after_the_proof(self):
        self.kit(':')
        out = f'crates/{self.PROGRAM}/out'
        self.fails(self.progress + self.line(f'rt run left no {out}/{self.PROGRAM}; remove the folder {out} and try again'), self.route)

    def test_a_program_that_fails(self):
        # whatever its status, and whatever it had printed
        for k in (1, 3):
            self.program.unlink(missing_ok=True)
            self.kit(self.check.replace(PROGRAM, f'cat; echo oh >&2; exit {k}'))
            self.fails(self.progress + 'oh\n' + self.line(f'{self.PROGRAM} ended with status {k}'), self.route)

    def test_an_answer_that_cannot_be_written(self):
        self.call(self.route)
        for streams in ('>/dev/full', '>&-'):
            self.fails(self.unwritten, self.route, streams=streams)
            self.fails(self.unwritten, given=REFUSED, streams=streams)
        reader, writer = os.pipe()
        os.close(reader)
        self.assertEqual(self.call(self.route, stdout=writer), (2, None, self.unwritten))
        os.close(writer)

    def test_streams_that_are_closed_and_not_needed(self):
        for streams in ('2>&-', '<&- 2>&-'):
            self.assertEqual(self.call(self.route, streams=streams), (0, self.answer, ''))
        self.assertEqual(self.call(self.route, streams='<&-'), (0, self.answer, ''))
        self.assertEqual(self.call(given=REFUSED, streams='2>&-'), (1, REFUSED, ''))
        for words, streams in ((('nowhere',), ''), ((), '<&-'), ((self.route,), '>&-')):
            self.fails('', *words, streams=f'{streams} 2>&-')
        # the number of standard error is taken all the same, so that no file of what is run gets it
        self.program.write_text('true 3>&2 && exec cat', encoding='utf-8')
        self.assertEqual(self.call(self.route, streams='2>&-'), (0, self.answer, ''))

    def test_a_checkout_that_cannot_be_written(self):
        self.call(self.route)
        before = self.calls()
        self.seal()
        self.assertEqual(self.call(self.route, preexec_fn=as_nobody), (0, self.answer, ''))
        os.utime(self.program, (0, 0))
        older = self.line(f'{self.PROGRAM} is older than its sources, and this checkout cannot be written: running it as it is')
        self.assertEqual(self.call(self.route, preexec_fn=as_nobody), (0, self.answer, older))
        self.assertEqual(self.calls(), [*before, 'doc', 'doc'])

    def test_a_part_of_what_is_made_that_cannot_be_written(self):
        self.call(self.route)
        note, unmade = self.desk / 'crates/route/out/rlib/stamp', self.desk / 'crates/points'
        note.parent.mkdir(parents=True)
        note.touch()
        unmade.mkdir()
        for path in (note.parent.parent, note.parent, note, unmade, self.program.parent, self.program):
            # all of it belongs to whoever tries, but for that path's right to be written
            for part in (self.desk, *self.desk.rglob('*')):
                part.chmod(0o777)
            path.chmod(0o555)
            before = self.calls()
            self.assertEqual(self.call(self.route, preexec_fn=as_nobody), (0, self.answer, ''))
            self.assertEqual(self.calls(), [*before, 'doc'], path)
            path.chmod(0o777)

    def test_a_checkout_that_can_be_written_is_proved(self):
        # the same as the two above, but for what they take away
        for part in (self.desk, *self.desk.rglob('*')):
            part.chmod(0o777)
        self.assertEqual(self.call(self.route, preexec_fn=as_nobody), (0, self.answer, self.progress))
        self.assertEqual(self.call(self.route, preexec_fn=as_nobody), (0, self.answer, ''))
        self.assertEqual(self.calls(), 2 * ['run', 'doc'])

    def test_nothing_built_where_nothing_can_be_written(self):
        self.seal()
        self.fails(self.line(f'{self.PROGRAM} is not built, and this checkout cannot be written'), self.route, preexec_fn=as_nobody)
        self.assertEqual(self.calls(), [])

    @built.needs('flock')
    def test_calls_at_one_time_wait_for_each_other(self):
        self.kit('mkdir busy || exit 1; sleep 0.1; rmdir busy; ' + self.check)
        with concurrent.futures.ThreadPoolExecutor() as pool:
            answers = list(pool.map(self.call, 4 * [self.route]))
        self.assertEqual([answer[:2] for answer in answers], 4 * [(0, self.answer)])

    @built.needs('flock')
    def test_another_command_in_the_checkout(self):
        with open(self.desk / 'crates.txt', encoding='utf-8') as crates:
            fcntl.flock(crates, fcntl.LOCK_EX)
            waiting = subprocess.Popen([self.desk / self.NAME, self.route], env=self.env(), text=True, stdout=subprocess.PIPE, stderr=subprocess.PIPE)
            said = waiting.stderr.readline() if select.select([waiting.stderr], [], [], 60)[0] else ''
            calls = self.calls()
            fcntl.flock(crates, fcntl.LOCK_UN)
            self.assertEqual((said, calls), (self.line('another command works in this checkout: waiting for it'), []))
            self.assertEqual((*waiting.communicate(timeout=60), waiting.returncode), (self.answer, self.progress, 0))
            # what is built and up to date is run at once
            fcntl.flock(crates, fcntl.LOCK_EX)
            self.assertEqual(self.call(self.route), (0, self.answer, ''))
            self.assertEqual(self.calls(), ['run', 'doc', 'doc'])

    def test_nobody_waits_where_there_is_no_flock(self):
        with open(self.desk / 'crates.txt', encoding='utf-8') as crates:
            fcntl.flock(crates, fcntl.LOCK_EX)
            self.assertEqual(self.call(self.route, path=str(self.without('flock'))), (0, self.answer, self.progress))

    def test_the_emulator_is_used_where_there_is_one(self):
        script(self.tools / 'bin/qemu-x86_64', 'echo emulated >&2; exec "$@"')
        self.assertEqual(self.call(self.route), (0, self.answer, self.progress + 'emulated\n'))

    def test_the_program_itself(self):
        # the real kit and the program that the gate has built; only rt run is a stand-in
        guide = subprocess.run(['rt', 'doc'], check=True, capture_output=True, text=True).stdout.strip()
        self.kit(f'mkdir -p out; cp "{built.made(self.PROGRAM, self.PROGRAM, "rt ci")}" out', guide=guide)
        for status, name in ((0, 'accepted-the-documents-example'), (0, 'accepted-no-points-comma'), (1, 'refused-05-target-2,500-under-point')):
            route = built.ROOT / 'tests/routes' / f'{name}.route'
            self.assertEqual(self.call(route)[:2], (status, type(self).MODEL(route.read_bytes()).decode()))
        self.fails(f'{self.PROGRAM}: {FOLDER}\n{self.no_answer}', streams='</')
        self.fails(self.line('standard input is closed'), streams='<&-')
        with broken_off(BEFORE[0]) as stdin:
            self.fails(f'{self.PROGRAM}: {RESET}\n{self.no_answer}', stdin=stdin)


class Report(Script, unittest.TestCase):
    NAME, PROGRAM, MODEL = 'report', 'routereport', model.report
    ANSWERS = 'points\t2\nlength\t10\ntarget\tnone\n', 'points\t0\nlength\t0\ntarget\t1500\n'
    OTHERS = '', 'points\t2\n', 'points\t2\nlength\t10\n', 'target\tnone\npoints\t2\nlength\t10\n', '900000000\t10\n'


class Courses(Script, unittest.TestCase):
    NAME, PROGRAM, MODEL = 'courses', 'courselist', model.course_list
    ANSWERS = '900000000\t10\nnone\t0\n3599999999\t10\n', '', 'none\t10\n', '0\t22\n'
    OTHERS = '900000000\n', 'none\n', '\t10\n', '10\tnone\n', 'none\tnone\n', '1\t2\t3\n', 'no\t10\n', Report.ANSWERS[0]

    def test_a_route_without_legs_writes_nothing(self):
        # so that there is nothing that could fail
        self.call(self.route)
        for streams in ('>/dev/full', '>&-'):
            self.assertEqual(self.call(given='', streams=streams), (0, '', ''))


class Program(unittest.TestCase):
    PROGRAMS = {script.PROGRAM: script.MODEL for script in (Report, Courses)}

    def says(self, program, text, stdin):
        """The program prints what the model says of a text."""
        self.assertEqual(run(built.command(program), stdin=stdin), (0, self.PROGRAMS[program](text).decode(), ''))

    def unsaid(self, command, program):
        """The streams that cannot be used, and the texts that break off, where a program does not say so, or says more than that."""
        found = [streams for streams, why in UNUSABLE.items() if run(command, streams=streams) != (0, '', f'{program}: {why}\n')]
        for text in BEFORE:
            with broken_off(text) as stdin:
                found += [text] if run(command, stdin=stdin) != (0, '', f'{program}: {RESET}\n') else []
        return found

    def test_what_cannot_be_read_or_printed_is_said(self):
        for program in self.PROGRAMS:
            self.assertEqual(self.unsaid(built.command(program), program), [])

    def test_a_failed_read_that_is_taken_for_the_end_is_seen(self):
        wrong = 'cat >/dev/null 2>&1; printf "refused\\t2\\t1\\n" 2>/dev/null'
        for program in self.PROGRAMS:
            self.assertEqual(self.unsaid(['/bin/sh', '-c', wrong], program), [*UNUSABLE, *BEFORE])

    def test_they_stop_at_the_first_end(self):
        # a packet of no bytes is an end, behind which a read would wait for ever
        for program in self.PROGRAMS:
            ours, theirs = socket.socketpair(socket.AF_UNIX, socket.SOCK_SEQPACKET)
            with ours, theirs:
                ours.send(b'route\tpoint\n')
                ours.send(b'')
                self.says(program, b'route\tpoint\n', theirs)

    def test_they_read_no_further_than_one_byte_too_many(self):
        for program in self.PROGRAMS:
            ours, theirs = socket.socketpair()
            with ours, theirs:
                ours.send(60_002 * b'\n')
                self.says(program, 60_001 * b'\n', theirs)
                self.assertEqual(theirs.recv(9), b'\n')


if __name__ == '__main__':
    unittest.main()
