"""The gate, once .ci/run has found what it needs: runs the parts, passes on what they print, and adds up what they count."""
import contextlib
import fcntl
import os
import re
import select
import signal
import subprocess
import sys
import tempfile
import time

# Each part, the folder that it is run in, and how many things it has to count: one that is gone is missed, and one that is new is counted in here.
# A part without a number is one thing.
PARTS = (
    ('rt ci', '.', 283),  # 17 crates and 266 edits
    ('rt lib', 'crates/senruhobi', None),
    ('tests/run', '.', 197),
)
COUNT = re.compile(rb'(?:^|\n)(\d+) passed, (\d+) failed(?:, (\d+) not run)?\n?\Z')
# what rt ci says of edits that it could not try, of which it counts none
BAD = re.compile(rb'^rt: ok\b.*, (\d+) bad\b', re.M)
# The parts get this much of the environment, by which tools are found. No seed, language or library path of the caller's gets to them.
KEPT = ('PATH', 'HOME', 'RATTLE_HOME', 'RUSTUP_HOME', 'CARGO_HOME', 'PYENV_ROOT')
# seconds: from one look to the next, and from asking a part to end to making it
MOMENT, GRACE = 0.05, 2

asked = []  # the signals that asked the gate to stop


def show(data):
    sys.stdout.buffer.write(data)
    sys.stdout.buffer.flush()


def say(line):
    show(f'{line}\n'.encode(errors='backslashreplace'))


def go_on():
    """Raises if a signal has asked the gate to stop. Raised here and not where the signal comes, it leaves nothing that was started unknown."""
    if asked:
        raise InterruptedError(f'stopped by {signal.Signals(asked[0]).name}')


def take_turn(file):
    """Waits until no other run works in this checkout."""
    waiting = False
    while True:
        go_on()
        try:
            return fcntl.flock(file, fcntl.LOCK_EX | fcntl.LOCK_NB)
        except BlockingIOError:
            if not waiting:
                say('gate: another run works in this checkout; waiting for it')
            waiting = True
            time.sleep(MOMENT)


def end(part):
    """Ends what is left of a part: asks its whole process group, and makes it after a grace."""
    with contextlib.suppress(ProcessLookupError):
        os.killpg(part.pid, signal.SIGTERM)
        until = time.monotonic() + GRACE
        while time.monotonic() < until:
            part.poll()  # it is in its group until its status is taken
            os.killpg(part.pid, 0)
            time.sleep(MOMENT)
        os.killpg(part.pid, signal.SIGKILL)
    part.wait()
    part.stdout.close()


def run(command, folder, environment):
    """Runs a part and passes on what it prints. Gives what is wrong with its end, if anything, and the last that it printed."""
    say(f'== {command}' + (f' in {folder}' if folder != '.' else ''))
    try:
        part = subprocess.Popen(command.split(), cwd=folder, env=environment, start_new_session=True, stdin=subprocess.DEVNULL,
                                stdout=subprocess.PIPE, stderr=subprocess.STDOUT)
    except OSError as why:
        return f'cannot be started: {why}', b''
    last, pipes, ended = b'', [part.stdout], False
    try:
        while not ended:
            go_on()
            # First the part and then its pipe: all that it printed is there once it has ended, and one read takes all that a pipe holds.
            # That the pipe closes is not waited for, since something that the part has left behind may hold it.
            ended = part.poll() is not None
            ready = select.select(pipes, [], [], MOMENT)[0]
            data = os.read(part.stdout.fileno(), 1 << 20) if ready else b''
            show(data)
            last = (last + data)[-10_000:]
            if ready and not data:
                pipes = []  # the part has closed it, and may go on
    finally:
        end(part)
        if last and not last.endswith(b'\n'):
            show(b'\n')
    if part.returncode < 0:
        return f'was ended by signal {-part.returncode}', last
    return part.returncode and f'ended with status {part.returncode}', last


def judged(command, number, wrong, last):
    """How many things of a part passed, failed and were not run. What is wrong with the part itself is said, and is a failure."""
    def fault(what):
        say(f'gate: {command} {what}')

    if wrong:
        fault(wrong)
    if number is None:
        return (0, 1, 0) if wrong else (1, 0, 0)
    count = COUNT.search(last)
    if not count:
        if not wrong:
            fault('did not end in its count')
        return 0, 1, 0
    passed, failed, not_run = (int(said or 0) for said in count.groups())
    bad = BAD.search(last)
    if bad:
        fault(f'could not try {int(bad[1])} must-fail edits')
        failed += int(bad[1])
    counted = passed + failed + not_run
    if wrong:
        failed = max(failed, 1)
    if counted != number:
        fault(f'counted {counted}, and has to count {number} (PARTS in .ci/gate.py)')
        failed += 1
    return passed, failed, not_run


def main():
    for stop in (signal.SIGHUP, signal.SIGINT, signal.SIGTERM):
        # nohup has HUP ignored
        if stop != signal.SIGHUP or signal.getsignal(stop) != signal.SIG_IGN:
            signal.signal(stop, lambda number, _: asked.append(number))
    results = []
    try:
        # the room is the parts' TMPDIR: what one that is killed leaves there goes with it
        with open('crates.txt', 'rb') as file, tempfile.TemporaryDirectory(prefix='senruhobi-') as room:
            os.chmod(room, 0o711)  # rt runs programs as nobody where it is root's
            if os.environ.get('TMPDIR') and os.path.abspath(os.environ['TMPDIR']) != os.path.abspath(tempfile.gettempdir()):
                say(f'gate: TMPDIR is no folder to write in; {tempfile.gettempdir()} serves')
            environment = {name: os.environ[name] for name in KEPT if name in os.environ}
            environment.update(LC_ALL='C.UTF-8', TMPDIR=os.path.abspath(room))
            take_turn(file)
            for command, folder, number in PARTS:
                results.append(judged(command, number, *run(command, folder, environment)))
    except OSError as why:
        say(f'gate: {why}')
        results.append((0, 1, 0))
    passed, failed, not_run = map(sum, zip(*results))
    if not_run:
        say(f'gate: {not_run} not run here')
    say(f'{passed} passed, {failed} failed')
    return failed != 0


if __name__ == '__main__':
    sys.exit(main())
