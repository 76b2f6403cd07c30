"""Canonical text, what `ngc dry` prints, as docs/LANGUAGE.md has it."""
import re
from dataclasses import dataclass

from ngc_tools.failure import Failure
from ngc_tools.shown import shown

_NUMBER = r"-?[0-9]+\.[0-9]{6}"
_POINT = rf"{_NUMBER}, {_NUMBER}, {_NUMBER}"
_SHAPES = {
    "": ("PROGRAM_STOP", "OPTIONAL_PROGRAM_STOP", "PROGRAM_END", "PALLET_SHUTTLE", "START_SPINDLE_CLOCKWISE",
         "START_SPINDLE_COUNTERCLOCKWISE", "STOP_SPINDLE_TURNING", "MIST_ON", "MIST_OFF", "FLOOD_ON", "FLOOD_OFF"),
    _POINT: ("STRAIGHT_TRAVERSE", "STRAIGHT_FEED", "SET_ORIGIN_OFFSETS"),
    rf"{_POINT}, {_NUMBER}, {_NUMBER}, (?:CW|CCW)": ("ARC_FEED",),
    _NUMBER: ("SET_FEED_RATE", "INVERSE_TIME", "SET_SPINDLE_SPEED", "USE_TOOL_LENGTH_OFFSET", "DWELL"),
    "[0-9]+": ("SELECT_TOOL", "CHANGE_TOOL"),
    "XY|XZ|YZ": ("SELECT_PLANE",),
    "MM|INCHES": ("USE_LENGTH_UNITS",),
    "[^()]*": ("COMMENT", "MESSAGE"),
}
_ARGUMENTS = {name: re.compile(shape, re.DOTALL) for shape, names in _SHAPES.items() for name in names}
_IN_NUMBERS = {name for shape in (_POINT, _NUMBER, "[0-9]+") for name in _SHAPES[shape]}
_REFUSED = re.compile(r"REFUSED line ([0-9]+): ([A-Z][0-9]+) ([A-Za-z0-9]+)")

MOTIONS = ("STRAIGHT_TRAVERSE", "STRAIGHT_FEED", "ARC_FEED")


class BadText(Failure, ValueError):
    """A line that isn't one of canonical text; `number` counts from 1."""

    def __init__(self, number: int, line: str) -> None:
        begin = shown(line[:60].encode("latin-1", "replace"))
        super().__init__(f"line {number}: not a command of canonical text: {begin}")
        self.number = number


@dataclass(frozen=True, slots=True)
class Command:
    """One command. `args` has numbers with a point as whole millionths (so lengths are nm), other numbers as they are,
    and words as text. A refused line is the command `REFUSED`: its number in the program, the fault's code and name."""

    name: str
    args: tuple[int | str, ...] = ()

    @property
    def point(self) -> tuple[int, int, int]:
        """Where a motion ends, in nm of machine coordinates."""
        x, y, z = self.args[:3]
        return int(x), int(y), int(z)


def read_commands(text: bytes | str) -> list[Command]:
    """The commands of canonical text, one a line. Raises BadText. A comment's bytes are read as Latin-1."""
    lines = (text.decode("latin-1") if isinstance(text, bytes) else text).split("\n")
    if lines[-1] == "":
        lines.pop()
    return [_command(line, number) for number, line in enumerate(lines, 1)]


def _command(line: str, number: int) -> Command:
    name, _, rest = line.partition("(")
    shape, inner = _ARGUMENTS.get(name), rest[:-1]
    if shape is None or rest[-1:] != ")" or shape.fullmatch(inner) is None:
        return _refusal(line, number)
    if name in _IN_NUMBERS:
        return Command(name, tuple(map(int, inner.replace(".", "").split(", "))))
    if name == "ARC_FEED":
        *numbers, turn = inner.replace(".", "").split(", ")
        return Command(name, (*map(int, numbers), turn))
    return Command(name, (inner,) if inner or name in ("COMMENT", "MESSAGE") else ())


def _refusal(line: str, number: int) -> Command:
    """The command that says what is refused. Raises BadText for any other text."""
    match = _REFUSED.fullmatch(line)
    if match is None:
        raise BadText(number, line)
    return Command("REFUSED", (int(match[1]), match[2], match[3]))
