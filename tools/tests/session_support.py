"""What tests share: the paths of `ngc` and of the tools, a folder, the settings of docs/SESSION.md's first session."""
import fcntl
import os
import pty
import resource
import select
import shutil
import struct
import subprocess
import sys
import tempfile
import termios
import threading
import time
import unittest
from collections.abc import Callable
from contextlib import AbstractContextManager, redirect_stderr, redirect_stdout
from functools import cache
from io import StringIO
from pathlib import Path
from unittest import mock

TOOLS = Path(__file__).resolve().parents[1]
sys.path.insert(0, str(TOOLS))

from forked_tool import forked

from ngc_tools import scratch
from ngc_tools.language import ENGLISH, of_environment
from ngc_tools.link.out_file import born_ns

if of_environment() != ENGLISH:
    os.environ["LC_ALL"] = "C.UTF-8"  # what tests read is English

FIRST = """step_nm = [1000, 1000, 1000]
low_nm = [-1000000000, -1000000000, -1000000000]
high_nm = [1000000000, 1000000000, 1000000000]
traverse_nm_per_min = 6000000000
period_us = 50
tools_nm = [50000000]
"""
PATIENCE_S = int(os.environ.get("NGC_PATIENCE_S", "60"))
"""How long what is tested may take for one thing, of a machine that has time for it."""


def ngc() -> str:
    """The path of `ngc`, which the environment variable NGC names."""
    path = os.environ.get("NGC", "")
    if not os.access(path, os.X_OK):
        raise AssertionError("set the environment variable NGC to the path of the program ngc")
    return path


def told(main: Callable[[list[str]], int], *words: str) -> tuple[int, str, str]:
    """The status, standard output and standard error of a tool in this process, which is quicker."""
    out, error = StringIO(), StringIO()
    with redirect_stdout(out), redirect_stderr(error), going_on():
        try:
            status = main(list(words))
        except SystemExit as why:
            status = int(why.code or 0)
    return status, out.getvalue(), error.getvalue()


def going_on() -> AbstractContextManager[object]:
    """A tool that ends meanwhile doesn't end this process, whose threads make folders and files afterwards."""
    return mock.patch.object(scratch, "_is_over", threading.Event())


def is_alive(pid: str) -> bool:
    """Whether a process runs."""
    try:
        return Path(f"/proc/{pid}/stat").read_text().rpartition(")")[2].split()[0] != "Z"
    except OSError:
        return False


def used_s() -> float:
    """The processor time of this process, and of those that it started and waited for, in seconds."""
    both = (resource.getrusage(who) for who in (resource.RUSAGE_SELF, resource.RUSAGE_CHILDREN))
    return sum(one.ru_utime + one.ru_stime for one in both)


@cache
def memory() -> str | None:
    """A folder in memory, in which a sync costs nothing, if it has a GB of room and says when a file was made, as disks
    do; else None."""
    path = "/dev/shm"
    if not os.access(path, os.W_OK) or shutil.disk_usage(path).free < 1 << 30:
        return None
    with tempfile.TemporaryFile(dir=path) as file:
        return path if born_ns(file.fileno()) else None


class InFolder(unittest.TestCase):
    """A test in a folder of its own, with settings and a fresh device on demand."""

    def setUp(self) -> None:
        """Makes the folder and works in it."""
        folder = tempfile.TemporaryDirectory(prefix="ngc-tools-", dir=memory())
        self.addCleanup(folder.cleanup)
        self.folder = Path(folder.name).resolve()
        before = os.getcwd()
        os.chdir(self.folder)
        self.addCleanup(os.chdir, before)
        Path("first.toml").write_text(FIRST)

    def device(self) -> None:
        """A fresh device, mill.dev."""
        subprocess.run([ngc(), "format", "mill.dev"], check=True, capture_output=True)

    def tool(self, name: str, *words: str, text: str = "") -> subprocess.CompletedProcess[str]:
        """Runs a tool to its end."""
        return subprocess.run([sys.executable, TOOLS / name, *words], input=text, capture_output=True, text=True,
                              timeout=PATIENCE_S, preexec_fn=forked(TOOLS / name, *words))

    def start(self, name: str, *words: str) -> subprocess.Popen[str]:
        """Starts a tool, and ends it with the test."""
        return self.started(sys.executable, str(TOOLS / name), *words, become=forked(TOOLS / name, *words))

    def started(self, *command: str, become: Callable[[], None] | None = None) -> subprocess.Popen[str]:
        """Starts a program, or a fork that is to become one, and ends it with the test."""
        child = subprocess.Popen(command, stdin=subprocess.PIPE, stdout=subprocess.PIPE, stderr=subprocess.PIPE,
                                 text=True, preexec_fn=become)
        self.addCleanup(self._end, child)
        return child

    @staticmethod
    def _end(child: subprocess.Popen[str]) -> None:
        """What it started may outlive it, as an `ngc` that writes into a pipe which nobody reads: that isn't waited for
        for ever."""
        child.kill()
        child.communicate(timeout=PATIENCE_S)

    def run_ngc(self, commands: str, out: str = "out") -> list[str]:
        """Gives commands to `ngc run` over mill.dev, and returns its replies."""
        words = [ngc(), "run", "mill.dev", "first.toml", out]
        done = subprocess.run(words, input=commands, capture_output=True, text=True, timeout=PATIENCE_S)
        return done.stdout.splitlines()

    def wait_for(self, what: str, holds: Callable[[], bool]) -> None:
        """Waits until something holds. It is looked at as often as fits into PATIENCE_S: where others want the
        processors, both a look and what is waited for take longer."""
        for _ in range(100 * PATIENCE_S):
            if holds():
                return
            time.sleep(0.01)
        self.fail(f"waited in vain until {what}")


class Terminal:
    """A program on a pseudo-terminal."""

    def __init__(self, *words: str, kind: str = "dumb", columns: int = 0) -> None:
        """Starts it; a terminal of the kind `dumb` can't clear lines. One of 0 columns doesn't say how wide it is."""
        self.pid, self.file = pty.fork()
        if self.pid == 0:
            fcntl.ioctl(0, termios.TIOCSWINSZ, struct.pack("HHHH", 24, columns, 0, 0))
            os.environ.update(TERM=kind, PYTHONUNBUFFERED="1", INPUTRC="/dev/null")
            os.execv(sys.executable, [sys.executable, *words])

    def send(self, text: bytes) -> None:
        """Types."""
        os.write(self.file, text)

    def read_to(self, end: bytes | tuple[bytes, ...]) -> bytes:
        """What is shown up to such an end, or to one of some."""
        got, until = b"", time.monotonic() + PATIENCE_S
        while not got.endswith(end):
            if time.monotonic() > until:
                raise AssertionError(f"{end!r} doesn't come: {got!r}")
            if not select.select([self.file], [], [], 0.2)[0]:
                continue
            try:
                piece = os.read(self.file, 4096)
            except OSError:
                break
            if not piece:
                break
            got += piece
        return got

    def press(self, key: bytes, end: bytes) -> bytes:
        """Presses a key, again where nothing is shown for two seconds: Python's prompt heeds a Ctrl-C that comes right
        as it is shown only with the next key. Returns what is shown up to such an end."""
        for _ in range(PATIENCE_S // 2):
            self.send(key)
            if select.select([self.file], [], [], 2)[0]:
                return self.read_to(end)
        raise AssertionError(f"nothing comes of {key!r}")

    def end_by(self, number: int) -> bytes:
        """Sends a signal, again where nothing is shown for two seconds, as `press` does. Returns what is shown then."""
        for _ in range(PATIENCE_S // 2):
            os.kill(self.pid, number)
            if select.select([self.file], [], [], 2)[0]:
                return self.read_to(b"never")
        raise AssertionError(f"it doesn't end by signal {number}")

    def send_to_end(self, key: bytes, times: int) -> bytes:
        """Presses a key so many times, and once more where the program doesn't end for three seconds after that, as two
        signals that come at once are one; returns what is shown meanwhile."""
        got, until, pressed = b"", time.monotonic() + PATIENCE_S, 0
        while time.monotonic() < until:
            try:
                os.write(self.file, key)
                pressed += 1
                while select.select([self.file], [], [], 0.3 if pressed < times else 3)[0]:
                    got += os.read(self.file, 4096)
            except OSError:
                return got
        raise AssertionError(f"it doesn't end: {got!r}")

    def status(self) -> int:
        """Waits for its end."""
        status = os.waitstatus_to_exitcode(os.waitpid(self.pid, 0)[1])
        os.close(self.file)
        return status
