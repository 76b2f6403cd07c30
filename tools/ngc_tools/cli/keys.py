"""The keys of a terminal, each at once: those by which a person jogs."""
import os
import re
import select
import termios
import tty
from collections.abc import Callable, Iterator
from contextlib import contextmanager

from ngc_tools.operator.jog_keys import END, FASTER, SLOWER

_KEYS = {
    b"\x1b[C": "X+", b"\x1b[D": "X-", b"\x1b[A": "Y+", b"\x1b[B": "Y-", b"\x1b[5~": "Z+", b"\x1b[6~": "Z-",
    b"\x1bOC": "X+", b"\x1bOD": "X-", b"\x1bOA": "Y+", b"\x1bOB": "Y-",  # where a terminal is told to send these
    b"+": FASTER, b"-": SLOWER, b"1": "small", b"2": "middle", b"3": "large",
    b"\n": END, b"\r": END, b"q": END, b"\x04": END, b"\x1b": END,
}
_KEY = re.compile(rb"\x1b[\[O][0-9;]*[A-Za-z~]|\x1b[\[O][0-9;]*\Z|\x1b|.", re.DOTALL)


class TerminalKeys:
    """The keys of an open terminal that sends each at once. `is_over` says that nobody wants to go on."""

    def __init__(self, file: int, is_over: Callable[[], bool]) -> None:
        self._file, self._is_over = file, is_over
        self._rest = b""

    def next(self, seconds: float) -> list[str]:
        """The keys that were pressed since, once there is one, or after so many seconds. Keys of another meaning are
        passed over. The terminal's end, and that nobody wants to go on, is END."""
        if self._is_over():
            return [END]
        if not select.select([self._file], [], [], seconds)[0]:
            keys, self._rest = self._rest, b""  # an Escape with nothing behind it
            return [END] if keys else []
        try:
            got = os.read(self._file, 4096)
        except OSError:
            return [END]
        return self._read(got) if got else [END]

    def _read(self, got: bytes) -> list[str]:
        """Reads the keys; a part of one at the end waits for the rest."""
        *keys, last = _KEY.findall(self._rest + got)
        self._rest = last if last.startswith(b"\x1b") and last not in _KEYS or last == b"\x1b" else b""
        keys += [] if self._rest else [last]
        return [_KEYS[key] for key in keys if key in _KEYS]


@contextmanager
def terminal_keys(file: int, is_over: Callable[[], bool]) -> Iterator[TerminalKeys]:
    """Has the terminal send each key at once, unseen, until the end; what is pressed and not read by then is dropped.
    Raises OSError if the terminal is gone."""
    try:
        before = termios.tcgetattr(file)
        tty.setcbreak(file, termios.TCSANOW)
    except termios.error as error:
        raise OSError(*error.args) from None
    try:
        yield TerminalKeys(file, is_over)
    finally:
        try:
            termios.tcsetattr(file, termios.TCSAFLUSH, before)
        except termios.error:
            pass  # the terminal is gone
