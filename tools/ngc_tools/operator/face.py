"""Where people see a session and are asked. The operator's core knows no screen: it speaks to a face."""
import re
from collections.abc import Iterable
from dataclasses import dataclass
from typing import Protocol

from ngc_tools.ngc.console import Status
from ngc_tools.operator.commands import Taken, is_taken
from ngc_tools.link.progress import Report

SAID, WHERE, MESSAGE, REFUSED, WARNING = "said", "where", "message", "refused", "warning"
"""The kinds of what is said: an answer; what the machine does, which a face may show all the time anyway; a message of
the program; a refusal; what is dangerous or failed."""

_KEYS = re.compile(r"[-+]+|0")


def are_keys(text: str) -> bool:
    """Whether a line is of the keys that set the override: `+` and `-`, as often as they were pressed, or `0`."""
    return _KEYS.fullmatch(text.strip()) is not None


def is_override(text: str) -> bool:
    """Whether a line sets an override: by keys, by `percent N`, or that of the spindle."""
    return are_keys(text) or is_taken(_word(text), Taken.PIPED)


def is_aside(text: str) -> bool:
    """Whether a line is a command that is taken while something runs, besides the wish to hold."""
    return are_keys(text) or is_taken(_word(text), Taken.AMID)


def _word(text: str) -> str:
    return next(iter(text.lower().split()), "")


def axes(at: list[str] | tuple[str, ...]) -> str:
    """A point for people, of numbers in millimetres."""
    return " ".join(f"{letter} {number}" for letter, number in zip("XYZ", at, strict=True))


@dataclass(frozen=True, slots=True)
class UnderWay:
    """What is shown while something runs: the line that is being done, the status, where the player said last that the
    motors are, as `1.000000 0.000000 0.000000`, or nothing, and more, what matters most first. `motion` says how they
    move: whether they are held, the override, the lines behind."""

    line: str
    status: Status
    motors: str = ""
    more: tuple[str, ...] = ()
    motion: tuple[str, ...] = ()

    def fitted(self, width: int) -> str:
        """In one line of at most this many characters: the line and where the motors are, cut if they have to be, and
        as much more as fits; how they move before the last decimals."""
        at = axes(self.motors.split()) if self.motors else ""
        if at and len("  ".join((self.line, at, *self.motion))) > width:
            at = " ".join(f"{letter}{number[:-3]}" for letter, number in zip("XYZ", self.motors.split(), strict=True))
        room = width - len(at) - 2 if at else width
        line = self.line if len(self.line) <= room else self.line[:max(0, room - 2)].rstrip() + ".."
        text = f"{line}  {at}" if at else line
        for part in (*self.motion, *self.more):
            if len(text) + 2 + len(part) <= width:
                text += f"  {part}"
        return text[:width]


class Face(Protocol):
    """A terminal (`cli.terminal.Screen`) is one."""

    def say(self, text: str, kind: str = SAID) -> None:
        """Shows lines, of one of the kinds."""

    def once(self, text: str, kind: str = WARNING) -> None:
        """Shows lines that nobody wants to see again in this piece of work."""

    def live(self, view: UnderWay | None) -> None:
        """Shows what is under way, after each piece of work; None: nothing is under way any more."""

    def moved(self, report: Report) -> None:
        """Is told each report of the player."""

    def ask(self, question: str) -> str:
        """What a person types as an answer; nothing if nobody does."""

    def agrees(self, question: str) -> bool:
        """Whether a person answers with a yes; anything else, nothing too, is a no."""

    def interrupted(self) -> bool:
        """Whether somebody wants to hold since the last command was given."""

    def asides(self) -> Iterable[str]:
        """The commands that `is_aside` knows which somebody gave since while something runs, each once."""

    def is_gone(self) -> bool:
        """Whether nobody is there any more who could let motors go on that are held."""
