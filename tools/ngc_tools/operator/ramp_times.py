"""The times of a program with ramps, worked out beside the session by a child of the least rank, once for each job."""
import bisect
import json
import subprocess
import tempfile
from contextlib import suppress

from ngc_tools.ngc.line_times import LineTimes


class RampTimes:
    """A child at work, and what it found. Nothing here waits for it."""

    def __init__(self, words: list[str], text: bytes, image: bytes, block_delete: bool) -> None:
        """Begins it by such words, for the program `text` over a device with this image. Raises OSError."""
        self._found: LineTimes | None = None
        self._is_over = False
        self._said = tempfile.TemporaryFile()
        with tempfile.TemporaryFile() as given:
            given.write(text + image)
            given.seek(0)
            command = [*words, str(given.fileno()), str(len(text)), *(["--delete"] if block_delete else [])]
            self._child = subprocess.Popen(command, stdin=subprocess.PIPE, stdout=self._said, process_group=0,
                                           stderr=subprocess.DEVNULL, pass_fds=[given.fileno()])

    def times_us(self, number: int) -> tuple[int, int] | None:
        """How long the program takes up to a line, and from there on; None if that isn't known, or not yet."""
        if not self._is_over and self._child.poll() is not None:
            self._take()
        if self._found is None:
            return None
        index = bisect.bisect_right(self._found.numbers, number) - 1
        done_ns = self._found.begin_ns[index] if index >= 0 else 0
        return done_ns // 1000, (self._found.begin_ns[-1] - done_ns) // 1000

    def close(self) -> None:
        """Ends the child, if it is still at work: it removes what it made."""
        with suppress(OSError):
            self._child.stdin.close()
        self._said.close()
        self._is_over = True

    def _take(self) -> None:
        """Takes what the child said; where it failed, nothing."""
        self._is_over = True
        if self._child.returncode == 0:
            self._said.seek(0)
            self._found = LineTimes(*json.load(self._said))
        self._child.stdin.close()
