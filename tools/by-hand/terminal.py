"""Programs at a terminal: what one tells there, as bytes, and what stands on the screen while somebody types."""
import os
import pty
import subprocess
import time

SECONDS = 20


def told(words, folder):
    """The status of a command, and all that a terminal gets at its standard error."""
    ours, theirs = pty.openpty()
    env = {**os.environ, "TERM": "xterm"}
    how = {"cwd": folder, "env": env, "stdin": subprocess.DEVNULL, "stdout": subprocess.DEVNULL}
    with subprocess.Popen(words, stderr=theirs, **how) as ran:
        os.close(theirs)
        came = b""
        while True:
            try:
                piece = os.read(ours, 65536)
            except OSError:  # (the terminal's other end is closed)
                break
            if not piece:
                break
            came += piece
    os.close(ours)
    return ran.returncode, came


class Screen:
    """A terminal of tmux, in which a command of a shell runs."""

    def __init__(self, command):
        self.socket = f"lrudb-typed-{os.getpid()}"
        self.tmux("-f", "/dev/null", "new-session", "-d", "-s", "typed", "-x", "100", "-y", "50", command)

    def __enter__(self):
        # (the program, and rlwrap, want a moment before the first key)
        time.sleep(1)
        return self

    def __exit__(self, *_):
        self.tmux("kill-server")
        # (the server's socket is free once it has ended)
        time.sleep(1)

    def tmux(self, *words):
        return subprocess.run(["tmux", "-L", self.socket, *words], capture_output=True, text=True, check=True).stdout

    def type(self, line):
        """Types a line, a key at a time."""
        for key in line:
            self.tmux("send-keys", "-t", "typed", "-l", key)
        self.press("Enter")

    def press(self, *keys):
        self.tmux("send-keys", "-t", "typed", *keys)

    def lines(self):
        """The lines of the screen, without the empty ones at its end."""
        return [it.rstrip() for it in self.tmux("capture-pane", "-p", "-t", "typed").rstrip().split("\n")]

    def shows(self, wanted):
        """Whether this stands on the screen soon."""
        end = time.monotonic() + SECONDS
        while time.monotonic() < end:
            if self.lines() == wanted:
                return True
            time.sleep(0.05)
        return False
