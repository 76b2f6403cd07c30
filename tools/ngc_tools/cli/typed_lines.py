"""Lines of a standard input that is a pipe or a file: what waits there can be looked at before it is taken."""
import os
import select
from collections.abc import Callable


class TypedLines:
    """The lines of an open file, as text; bytes that are no text are kept as surrogates."""

    def __init__(self, file: int, encoding: str) -> None:
        self._file, self._encoding = file, encoding
        self._rest = b""
        self._is_over = False

    def next(self) -> str:
        """Waits for the next line. Raises EOFError at the end, OSError."""
        while b"\n" not in self._rest and not self._is_over:
            self._read()
        if not self._rest:
            raise EOFError
        return self._taken()

    def next_that(self, holds: Callable[[str], bool]) -> list[str]:
        """The next line alone, if one is there and something holds of it. Raises OSError."""
        while b"\n" not in self._rest and not self._is_over and select.select([self._file], [], [], 0)[0]:
            self._read()
        line, newline, _ = self._rest.partition(b"\n")
        return [self._taken()] if newline and holds(self._text(line)) else []

    def _read(self) -> None:
        got = os.read(self._file, 65536)
        self._is_over = not got
        self._rest += got

    def _taken(self) -> str:
        line, _, self._rest = self._rest.partition(b"\n")
        return self._text(line)

    def _text(self, line: bytes) -> str:
        return line.removesuffix(b"\r").decode(self._encoding, "surrogateescape")
