"""What the tools that build the program share: its sources, one build at a time, and what is said meanwhile."""
import contextlib
import fcntl
import glob
import os
import shutil
import signal
import sys
import time
from pathlib import Path

TOP = str(Path(__file__).resolve().parents[2])
# These crates stand on the program's. The launcher leaves them out, too.
ABOVE = ("rev_bench", "rev_tests")
# The launcher starts the program that this variable names, without a look at its age.
BUILT = "LRUDB_BUILT"


class Stop(Exception):
    """Why no program can be built, in a word for the user."""


class OtherKit(Exception):
    """What a tool relies on and the kit lacks."""


class Stopped(BaseException):
    """A signal came that ends the build."""

    def __init__(self, number):
        super().__init__()
        self.status = 128 + number


def say(text):
    print(f"lrudb: {text}", file=sys.stderr, flush=True)


def need_rt():
    if not shutil.which("rt"):
        raise Stop("not built: rt, the command of the Rattle kit, is not on the path")


def sources(*parts):
    """The files in these parts of the program's crates, and the list of crates."""
    found = [f"{TOP}/crates.txt"]
    for crate in glob.glob(f"{TOP}/crates/*"):
        if os.path.basename(crate) not in ABOVE:
            for part in parts:
                found += glob.glob(f"{crate}/{part}/**/*.rt", recursive=True)
                found += glob.glob(f"{crate}/{part}/**/*.antt", recursive=True)
    return found


def is_current(program, files):
    """Whether the program is there and none of the files is newer."""
    return os.access(program, os.X_OK) and os.path.getmtime(program) >= max(map(os.path.getmtime, files))


def date_back(program, start, files):
    """Gives the program the time at which its build began, so that a source that was changed since then is newer.

    Where a source's own time lies ahead of the clock, the program gets that, or else it would be built at each start.
    """
    moment = max(start, *map(os.path.getmtime, files))
    os.utime(program, (moment, moment))


def hand_over(command, program):
    """Goes on as the command, which is to start this program."""
    # Python ignores these two signals, and the command would inherit that.
    for it in (signal.SIGPIPE, signal.SIGXFSZ):
        signal.signal(it, signal.SIG_DFL)
    os.execve(command[0], command, {**os.environ, BUILT: program})


@contextlib.contextmanager
def alone(folder, waits):
    """Waits until no other process holds the folder, and tells whether one did. A holder lets go when it ends."""
    held = os.open(folder, os.O_RDONLY)
    had_to_wait = False
    try:
        fcntl.flock(held, fcntl.LOCK_EX | fcntl.LOCK_NB)
    except BlockingIOError:
        say(waits)
        had_to_wait = True
        fcntl.flock(held, fcntl.LOCK_EX)
    except OSError:
        # Some file systems have no locks.
        pass
    try:
        yield had_to_wait
    finally:
        os.close(held)


def on_signals(call):
    """Calls back with the number of a signal that ends the build. One that is ignored, as under nohup, stays so."""
    for it in (signal.SIGINT, signal.SIGTERM, signal.SIGHUP):
        if signal.getsignal(it) != signal.SIG_IGN:
            signal.signal(it, lambda number, _: call(number))


def raise_on_signals():
    def stop(number):
        # A second one would break off the cleaning up.
        on_signals(lambda _: None)
        raise Stopped(number)

    on_signals(stop)


def spell(seconds):
    return f"{seconds:.0f} s" if seconds < 100 else f"{seconds / 60:.0f} min"


class Progress:
    """How far a build is, on standard error: on a terminal one line, rewritten, and else a line for each stage."""

    def __init__(self):
        self.start = time.monotonic()
        self.is_terminal = sys.stderr.isatty() and os.environ.get("TERM") != "dumb"
        self.text = ""

    def seconds(self):
        return time.monotonic() - self.start

    def show(self, text):
        """Rewrites the line, on a terminal."""
        if self.is_terminal and text != self.text:
            self.text, columns = text, shutil.get_terminal_size().columns
            sys.stderr.write(f"\r\033[K{f'lrudb: {text}'[: columns - 1]}")
            sys.stderr.flush()

    def stage(self, text):
        """Says a line, where there is no terminal."""
        if not self.is_terminal:
            say(text)

    def end(self):
        """Takes the line away."""
        if self.is_terminal:
            self.text = ""
            sys.stderr.write("\r\033[K")
            sys.stderr.flush()
