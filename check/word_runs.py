"""The program, started in a folder on words, and what came of it."""
import os
import pty
import re
import resource
import socket
import subprocess
import tempfile
import time
from typing import NamedTuple, Optional

from tools.shared import REGISTRY

# the longest that anything may take
SECONDS = 60
# a standard output that `with` may name
OF_BYTES = re.compile(r"an output of (\d+) bytes")


class Outcome(NamedTuple):
    out: bytes = b""
    err: bytes = b""
    status: int = 0
    left: Optional[bytes] = None
    asked: Optional[bytes] = None


def unheard():
    """A socket that has an address, and at which nobody can come."""
    it = socket.socket()
    it.bind(("127.0.0.1", 0))
    return it


def bounded(limit):
    """How a program is started whose files may have so many bytes. A write past that is an error, and not the end of
    the process, where its signal is ignored, as Python does."""
    bound = lambda: resource.setrlimit(resource.RLIMIT_FSIZE, (limit, limit))
    return {"restore_signals": False, "preexec_fn": bound}


class Run:
    """The program at work. Its standard input and outputs are files, so that none of them holds it up."""

    def __init__(self, folder, words, given=b"", how=None):
        self.ends = [tempfile.TemporaryFile(dir=os.path.dirname(folder)) for _ in range(3)]
        self.screen, self.theirs = None, []
        given_, out, err = self.ends
        given_.write(given)
        given_.seek(0)
        ends = {"stdin": given_, "stdout": out, "stderr": err, **self.otherwise(how)}
        self.process = subprocess.Popen([REGISTRY, *words], cwd=folder, **ends)
        for it in self.theirs:
            os.close(it)

    def otherwise(self, how):
        """What is otherwise than that."""
        if how is None:
            return {}
        if how == "a closed output":
            return {"preexec_fn": lambda: os.close(1)}
        if how == "a socket that does not listen":
            self.theirs = [unheard().detach()]
            return {"pass_fds": [3], "preexec_fn": lambda: os.dup2(self.theirs[0], 3)}
        if how == "a terminal":
            self.screen, *self.theirs = pty.openpty()
            return {"stderr": self.theirs[0]}
        if how == "a full output":
            self.theirs = [os.open("/dev/full", os.O_WRONLY)]
        elif how == "an output that nobody reads":
            reads, *self.theirs = os.pipe()
            os.close(reads)
        elif bytes_ := OF_BYTES.fullmatch(how):
            return bounded(int(bytes_[1]))
        else:
            raise ValueError(f"with what? {how}")
        return {"stdout": self.theirs[0]}

    def has_said(self, end):
        """What it has written so far to one of its outputs."""
        return os.pread(self.ends[end].fileno(), 1 << 24, 0)

    def wait_for(self, text):
        """Until a line is there on standard output, or the program has ended."""
        ends = time.monotonic() + SECONDS
        while text not in self.has_said(1) and self.process.poll() is None and time.monotonic() < ends:
            time.sleep(0.002)

    def is_waiting(self):
        """Whether it sleeps until something happens."""
        with open(f"/proc/{self.process.pid}/stat", encoding="ascii", errors="replace") as it:
            return it.read().rpartition(")")[2].split()[0] == "S"

    def wait_till_it_waits(self):
        """Until it has nothing to do before something happens, or has ended."""
        ends = time.monotonic() + SECONDS
        while not self.is_waiting() and self.process.poll() is None and time.monotonic() < ends:
            time.sleep(0.002)

    def on_screen(self):
        """What was shown on the terminal, the ends of lines as the program wrote them."""
        had = b""
        try:
            while more := os.read(self.screen, 65536):
                had += more
        except OSError:
            # (the other end is closed)
            pass
        os.close(self.screen)
        return had.replace(b"\r\n", b"\n")

    def end(self, asked=None):
        """Waits for its end, and gives what came of it."""
        try:
            status = self.process.wait(SECONDS)
        except subprocess.TimeoutExpired:
            self.kill()
            raise
        left = os.read(self.ends[0].fileno(), 1 << 24)
        err = self.on_screen() if self.screen is not None else self.has_said(2)
        outcome = Outcome(self.has_said(1), err, status, left, asked)
        self.close()
        return outcome

    def close(self):
        for it in self.ends:
            it.close()

    def kill(self):
        if self.process.poll() is None:
            self.process.kill()
            self.process.wait()
        self.close()
