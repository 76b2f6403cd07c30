"""Arcs by radius, written by their centre. Where an arc begins and ends is asked of `ngc dry`: a line to the same end
is put in its place, and what that prints is looked at."""
import re
from collections.abc import Callable
from dataclasses import dataclass
from decimal import Decimal
from math import isqrt

from ngc_tools.job.cam_line import CamLine
from ngc_tools.job.cam_modes import MOTIONS, TAKERS, Modes
from ngc_tools.formats.canonical import MOTIONS as MOVES
from ngc_tools.formats.canonical import Command, read_commands
from ngc_tools.job.moves import PLANES, Point

Ask = Callable[[bytes], tuple[int, bytes]]
"""Does a dry run of a text: the exit status, and canonical text."""

_MARK = "ngc-adapt arc "
_MARKED = re.compile(_MARK + "([0-9]+)")
_ROUNDED_NM = 2000  # by so much a radius may be too short for its ends
_FINE = 10**12


@dataclass(frozen=True, slots=True)
class Ends:
    """Where a move begins and ends, in nm of machine coordinates; its plane, and whether lengths are inches."""

    start: Point
    end: Point
    plane: str
    inches: bool


def centred(lines: list[CamLine], ask: Ask) -> None:
    """Writes the arcs by radius of these lines by their centres; those that can't be written so stay."""
    asked, arcs = _asked(lines)
    if not arcs:
        return
    for number, ends in _ends(read_commands(ask(asked)[1])).items():
        line, clockwise = lines[number], arcs[number]
        word = line.find("R")
        offsets = centre(ends, word.value, clockwise)
        if offsets:
            line.put(word, offsets, "an arc is written by its centre")


def _asked(lines: list[CamLine]) -> tuple[bytes, dict[int, bool]]:
    """The text that is asked, and of each arc by radius the number of its line, from 0, and whether it is clockwise."""
    modes, texts, arcs = Modes(), [], {}
    for number, line in enumerate(lines):
        modes.take(line)
        radius, text = line.find("R"), line.text
        axes = bool(line.letters() & set("XYZ"))
        if radius and radius.value is not None and axes and modes.motion in (2, 3):
            arcs[number] = modes.motion == 2
            text = _straight(line) + f" ({_MARK}{number})"
        elif axes and modes.motion in (2, 3) and not line.find("G", *MOTIONS, *TAKERS):
            other = CamLine.cut(text)
            other.begin(f"G{modes.motion}", "")
            text = other.text
        texts.append(text)
    return ("\n".join(texts) + "\n").encode(), arcs


def _straight(line: CamLine) -> str:
    """A straight line to the same end."""
    other = CamLine.cut(line.text)
    other.drop(other.find("R"), "")
    for piece in list(other.pieces):
        if piece.is_code("G", 2, 3):
            other.drop(piece, "")
    other.begin("G1", "")
    return other.text


def _ends(commands: list[Command]) -> dict[int, Ends]:
    """The ends of the moves that are marked."""
    found: dict[int, Ends] = {}
    at: Point = (0, 0, 0)
    plane, inches, marked = "XY", False, None
    for command in commands:
        match command.name:
            case "SELECT_PLANE":
                plane = str(command.args[0])
            case "USE_LENGTH_UNITS":
                inches = command.args[0] == "INCHES"
            case "COMMENT":
                match = _MARKED.fullmatch(str(command.args[0]))
                marked = int(match[1]) if match else None
            case name if name in MOVES:
                if marked is not None:
                    found[marked] = Ends(at, command.point, plane, inches)
                at, marked = command.point, None
    return found


def centre(ends: Ends, radius: Decimal, clockwise: bool) -> str | None:
    """The offsets of the centre from the start as words, as `I3 J0`; None if no such circle goes through both ends.

    A radius below 0 means the longer of the two arcs."""
    a, b, _ = PLANES[ends.plane]
    da, db = ends.end[a] - ends.start[a], ends.end[b] - ends.start[b]
    size = int((abs(radius) * (25_400_000 if ends.inches else 1_000_000)).to_integral_value())
    square, four = da * da + db * db, 4 * size * size
    if not square or four < square and isqrt(square) - 2 * size > 2 * _ROUNDED_NM:
        return None
    height = isqrt(max(0, four - square) * _FINE * _FINE // square)  # twice the height, by the distance of the ends
    side = -1 if clockwise == (radius > 0) else 1
    offsets = {a: _half(da * _FINE - side * db * height), b: _half(db * _FINE + side * da * height)}
    return " ".join(f"{'IJK'[axis]}{_length(offsets[axis], ends.inches)}" for axis in sorted(offsets))


def _half(fine: int) -> int:
    """Half of it, in nm, rounded."""
    return (fine + _FINE) // (2 * _FINE)


def _length(nm: int, inches: bool) -> str:
    """A length as a program has it, with at most six decimals."""
    value = Decimal(nm) / (25_400_000 if inches else 1_000_000)
    text = f"{value:.6f}".rstrip("0").rstrip(".")
    return "0" if text == "-0" else text
