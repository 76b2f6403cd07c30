"""How long lines of OUT take with ramps, at OUT's own rates: `ngc pace` times them, as they are given to it piece by
piece."""
import os
import subprocess
import threading
from collections import Counter
from contextlib import AbstractContextManager, suppress
from pathlib import Path

from ngc_tools.failure import Failure
from ngc_tools.formats.out import read_line
from ngc_tools.formats.settings import read_table


class NotTimed(Failure):
    """`ngc run` didn't hand out the moves, or `ngc pace` gave no time; it says why."""


def _begin(ngc: str, settings: str | Path, machine: str | Path, *words: str, bufsize: int = -1) -> subprocess.Popen:
    """Starts `ngc pace`. It would go as fast as an override may; a copy of the machine's file says that none may be.
    Raises OSError."""
    with os.fdopen(os.memfd_create("machine"), "wb") as copy:
        slower = _without_override(machine)
        copy.write(slower)
        copy.flush()
        path = f"/proc/self/fd/{copy.fileno()}" if slower else str(machine)
        return subprocess.Popen([ngc, "pace", str(settings), path, *words], stdin=subprocess.PIPE,
                                stdout=subprocess.PIPE, bufsize=bufsize, pass_fds=(copy.fileno(),))


def _without_override(machine: str | Path) -> bytes:
    """The table `[motion]` of a machine's file that takes an override above 100 percent, without that; nothing of
    another file, which `ngc` reads itself, or refuses."""
    try:
        motion = read_table(machine).get("motion")
    except (OSError, Failure):
        return b""
    if not isinstance(motion, dict) or motion.get("most_percent", 100) == 100:
        return b""
    kept = [f"{key} = {value}\n" for key, value in motion.items() if key != "most_percent"]
    return "".join(["[motion]\n", *kept]).encode()


class _Running(AbstractContextManager):
    """A running `ngc pace`, which ends with the block, in whatever way."""

    def __init__(self, child: subprocess.Popen) -> None:
        self._child = child

    def __exit__(self, *_: object) -> None:
        self._child.kill()
        with suppress(OSError):  # what it didn't take is dropped
            self._child.stdin.close()
        self._child.stdout.close()
        self._child.wait()


class Pacing(_Running):
    """A running `ngc pace --total`. `lines` were given to it, which last `us` microseconds by themselves. Once they are
    all given, `with_ramps_us` is how long they take with ramps, rounded half up."""

    def __init__(self, ngc: str, settings: str | Path, machine: str | Path) -> None:
        """Raises OSError if it can't be started."""
        super().__init__(_begin(ngc, settings, machine, "--total"))
        self.lines = self.us = self.with_ramps_us = 0

    def take(self, text: bytes) -> None:
        """Gives it whole lines. Raises BadLine, NotTimed."""
        for line, times in Counter(text.split(b"\n")[:-1]).items():
            self.us += times * read_line(line, 1).lasts_us
            self.lines += times
        try:
            self._child.stdin.write(text)
        except BrokenPipeError:
            self.end()

    def end(self) -> None:
        """No more lines come: takes the time of all. Raises NotTimed."""
        said = self._child.communicate()[0].decode("latin-1").strip()
        if self._child.returncode or not said.isdecimal():
            raise NotTimed(f"ngc pace: {said or f'status {self._child.returncode}'}")
        self.with_ramps_us = (int(said) + 500) // 1000


class DueTimes(_Running):
    """A running `ngc pace`, which is asked when some of the lines are due that are given to it."""

    def __init__(self, ngc: str, settings: str | Path, machine: str | Path) -> None:
        """Raises OSError if it can't be started."""
        super().__init__(_begin(ngc, settings, machine, bufsize=0))
        self._lines = 0
        self._marks: list[int] = []  # lines before those that are asked for
        self._due_ns: list[int] = []
        self._reader = threading.Thread(target=self._read, daemon=True)
        self._reader.start()

    def __exit__(self, *_: object) -> None:
        self._child.kill()
        self._reader.join()
        super().__exit__()

    def mark(self) -> None:
        """Asks when the line is due that is given next."""
        self._marks.append(self._lines)

    def take(self, text: bytes) -> None:
        """Gives it whole lines. Raises NotTimed if it has ended."""
        self._lines += text.count(b"\n")
        left = memoryview(text)
        try:
            while left:
                left = left[self._child.stdin.write(left):]
        except BrokenPipeError:
            raise NotTimed(f"ngc pace: status {self._child.wait()}") from None

    def rest(self) -> None:
        """Everything stands once what was given is over: a wait of no time is due then. Raises NotTimed."""
        self.take(b"D 0\n")

    def end(self) -> list[int]:
        """No more lines come: when those that were asked for are due, in nanoseconds. Raises NotTimed."""
        self._child.stdin.close()
        self._reader.join()
        if self._child.wait() or len(self._due_ns) != len(self._marks):
            raise NotTimed(f"ngc pace: status {self._child.returncode}")
        return self._due_ns

    def _read(self) -> None:
        before, part = 0, b""
        while block := self._child.stdout.read(1 << 20):
            whole, _, part = (part + block).rpartition(b"\n")
            count = whole.count(b"\n") + 1 if whole else 0
            self._find(whole, before, count)
            before += count

    def _find(self, whole: bytes, before: int, count: int) -> None:
        """Looks for lines that are asked for among so many, which stand behind those `before`."""
        lines: list[bytes] = []
        for mark in self._marks[len(self._due_ns):]:
            if mark >= before + count:
                return
            lines = lines or whole.split(b"\n")
            self._due_ns.append(int(lines[mark - before].partition(b" ")[0]))
