"""The root of what a tool ends with where it can't do its work."""
from collections.abc import Iterator
from contextlib import contextmanager
from pathlib import Path

from ngc_tools.shown import shown


class Failure(Exception):
    """Why a tool ends: what is so, and what to do next. `exit_status` is what the tool ends with; `of` is the file that
    the text speaks of, where the text doesn't name it."""

    exit_status = 2
    of = ""

    def said(self) -> str:
        """The text for people, with what it speaks of before it."""
        return f"{shown(self.of)}: {self}" if self.of else str(self)


class WrongWords(Failure):
    """Words of the command line that don't go together; the tool's usage is shown with the text."""


class BadNumber(Failure, ValueError):
    """A text that isn't the number which is wanted there."""


@contextmanager
def speaking_of(path: str | Path, *kinds: type[Failure]) -> Iterator[None]:
    """Failures of these kinds, whose texts don't name a file, speak of this path."""
    try:
        yield
    except kinds as error:
        error.of = error.of or str(path)
        raise
