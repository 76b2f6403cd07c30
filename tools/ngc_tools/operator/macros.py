"""Macros: named lines of G-code in a file beside the settings, done one after the other."""
from collections.abc import Callable
from pathlib import Path
from typing import Any

from ngc_tools.failure import Failure
from ngc_tools.formats.device import Device
from ngc_tools.formats.settings import read_table
from ngc_tools.ngc.beginning import Beginning
from ngc_tools.ngc.run import refusal
from ngc_tools.operator.causes import busy
from ngc_tools.operator.face import REFUSED, WARNING
from ngc_tools.operator.left import Left
from ngc_tools.operator.look import Look
from ngc_tools.operator.sentences import explained
from ngc_tools.operator.session import Session
from ngc_tools.shown import shown

SUFFIX = ".macros"
MOST, MOST_LINES = 24, 50
"""How many macros a file has at most, and each how many lines."""
LONGEST_NAME = 40
_LONGEST_LINE = 250
_TAKES = (f'it takes NAME = ["G53 G0 Z0", "M5"], at most {MOST} of them, each of at most {MOST_LINES} lines of G-code;'
          f' a name has at most {LONGEST_NAME} characters')


class BadMacros(Failure):
    """A file of macros that can't be used; the text says why."""


class Macros:
    """What `macro` does. The file is read anew each time."""

    def __init__(self, session: Session, left: Left, line_done: Callable[[str, bool], str | None]) -> None:
        """`line_done` does a line of G-code; it returns None where that wasn't taken."""
        self.session, self.left, self.line_done = session, left, line_done
        self.path = Path(session.console.settings).with_suffix(SUFFIX)

    def read(self) -> dict[str, list[str]]:
        """The lines of each macro by its name; none where there is no file. Raises BadMacros."""
        if not self.path.exists():
            return {}
        try:
            found = read_table(self.path)
        except (Failure, OSError) as error:
            raise BadMacros(error.said() if isinstance(error, Failure) else f"{self.path}: {error.strerror}") from None
        if len(found) > MOST or not all(map(_is_macro, found, found.values())):
            raise BadMacros(f"{self.path}: {_TAKES}")
        return found

    def do(self, name: str) -> None:
        """Does the macro of a name, in any case, once `ngc` takes all of its lines by a dry run; without a name, says
        which there are."""
        try:
            found = self.read()
        except BadMacros as error:
            self.session.face.say(str(error), REFUSED)
            return
        lines = {each.lower(): lines for each, lines in found.items()}.get(name.lower())
        if lines is None:
            there = "; ".join(found) if found else f"none, since {self.path} has none"
            self.session.face.say(f"macro NAME: {there}", REFUSED)
        elif self._is_taken(name, lines):
            self._do(lines)

    def _is_taken(self, name: str, lines: list[str]) -> bool:
        """Whether they may be done now, and `ngc` takes each, from how the device stands; says why not."""
        status, device = self.session.console.status(), self.session.stored()
        if status.half != "none" or status.does not in ("idle", "stopped"):
            self.session.face.say(busy(self.session, status, "macro"), REFUSED)
            return False
        try:
            text = "".join(f"{line}\n" for line in lines).encode()
            fault = refusal(*Beginning.of(device).dry(self.session.console.ngc, text + b"M2\n",
                                                      self.session.console.settings)) if isinstance(device, Device) \
                else None
        except (Failure, ValueError, OSError) as error:
            self.session.face.say(f"macro {name}: it can't be tried: {error}", REFUSED)
            return False
        if fault is not None:
            line = lines[fault.line - 1] if 0 < fault.line <= len(lines) else ""
            self.session.face.say(f"macro {name}: nothing is done: {shown(line)}: "
                                  + explained(f"refused {fault.code} {fault.name}"), REFUSED)
        return fault is None

    def _do(self, lines: list[str]) -> None:
        """Shows each line, and does it; after one that isn't taken, or is held, none follows."""
        for line in lines:
            self.session.face.say(line)
            if self.line_done(line, False) not in ("idle", "stopped"):
                self.session.face.say("no more line of the macro is done", WARNING)
                return
        Look(self.session).after_work()
        self.left.tell_modes()


def _is_macro(name: str, lines: Any) -> bool:
    """Whether that is a name, and lines of G-code behind it."""
    return (0 < len(name.strip()) and len(name) <= LONGEST_NAME and name.isprintable() and isinstance(lines, list)
            and 0 < len(lines) <= MOST_LINES and all(isinstance(line, str) and line.strip() and line.isprintable()
                                                     and len(line) <= _LONGEST_LINE for line in lines))
