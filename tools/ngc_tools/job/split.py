"""A long program in parts. Where it may be parted is taken from what `ngc dry` prints of it over two work offsets and
two tool lengths, so that it holds over any."""
import re
from bisect import bisect_right
from dataclasses import dataclass, field, replace
from itertools import accumulate

from ngc_tools.failure import Failure
from ngc_tools.formats.canonical import MOTIONS, Command
from ngc_tools.formats.lines import percent_bytes, percent_lines
from ngc_tools.formats.position import millimetres
from ngc_tools.job.cam import CamLine
from ngc_tools.formats.in_force import InForce
from ngc_tools.job.moves import Point
from ngc_tools.ngc.worlds import LineRefused, World

LONGEST_LINE = 230  # bytes: a mark still fits in

_MARK = "ngc-split place "
_MARKED = re.compile(_MARK + "([0-9]+)")
# what a fresh controller has; the tool length stays as it is where the program names none
_FRESH = "G17 G21 G40 G54 G80 G90 G94 G98"
_PLANES, _UNITS, _SYSTEMS = (17, 18, 19), (20, 21), (54, 55, 56, 57, 58, 59, 59.1, 59.2, 59.3)
_GROUPS = {"plane": _PLANES, "unit": _UNITS, "distance": (90, 91), "feed mode": (93, 94), "retract": (98, 99),
           "path": (61, 61.1, 64), "system": _SYSTEMS, "length": (43, 49)}
_LEFT_OPEN = {"system": "G54", "plane": "G17", "unit": "G21", "distance": "G90", "feed mode": "G94", "retract": "G98"}
_OFFSETS = ("system", "length")
_COMMENT = re.compile(rb"\([^()]*\)")
_AXIS = re.compile(rb"[XYZxyz]")
_MOTION = re.compile(rb"[Gg][ \t]*0*([0-3]|8[0-9])(?![0-9.])")
_CYCLE = re.compile(rb"[Gg][ \t]*8[ \t]*[1-9]")
_PLAIN = (b"0", b"1", b"2", b"3")
_MODAL = re.compile(rb"[GgMm][ \t]*0*[ \t]*[1-9][ \t]*[0-9]")


class CannotPart(Failure):
    """The program can't be parted; the text says why."""

    exit_status = 1


@dataclass(frozen=True, slots=True)
class Place:
    """A place between two lines at which the tool stands above the work after a traverse: the line that comes next,
    from 0, where the tool's tip is in program coordinates in nm, and what else is in force."""

    line: int
    at: Point
    in_force: InForce


@dataclass(slots=True)
class Part:
    """A part: its first line and the one after its last, from 0, its text, and where it begins, None at 0."""

    begin: int
    end: int
    text: bytes
    place: Place | None


@dataclass(slots=True)
class LongProgram:
    """A program's lines, each with its end; for each the modes that words before it name, by their group, and whether a
    part can begin with it. `left_open` are words for the groups that it doesn't name before its first move, that of a
    cycle's retract only if it has cycles."""

    lines: list[bytes]
    modes: list[dict[str, str]] = field(default_factory=list)
    can_begin: list[bool] = field(default_factory=list)
    left_open: dict[str, str] = field(default_factory=dict)

    @staticmethod
    def read(text: bytes, system: str = "G54") -> "LongProgram":
        """Reads a text; the last line gets a newline if it has none. `system` is the work offset of a program that
        names none before its first move."""
        lines = [line + b"\n" for line in text.split(b"\n")]
        if lines[-1] == b"\n":
            lines.pop()
        program = LongProgram(lines, left_open=_LEFT_OPEN | {"system": system})
        now: dict[str, str] = {}
        traverse = moves = False
        for line in lines:
            program.modes.append(now)
            now = _modes_after(now, line)
            begins, traverse = _after_traverse(traverse, line)
            program.can_begin.append(begins)
            if not moves:
                program.left_open = {group: word for group, word in program.left_open.items() if group not in now}
                moves = bool(_AXIS.search(_COMMENT.sub(b"", line)))
        if not any(_CYCLE.search(_COMMENT.sub(b"", line)) for line in lines):
            program.left_open.pop("retract", None)
        return program

    @property
    def is_percent(self) -> bool:
        """Whether a percent sign is its first line."""
        return percent_lines(self.lines) > 0

    def places(self, worlds: tuple[World, ...], above: int | None) -> list[Place]:
        """Where it may be parted: at the same program coordinates in each world. Raises LineRefused, CannotRun.

        `above` is the least program Z of a place in nm; without it the tool's tip is no lower than the highest point at
        which a cut begins or ends, each in program coordinates."""
        found = [self._places(world, above) for world in worlds]
        return [place for line, place in found[0].items() if all(other.get(line) == place for other in found)]

    def _places(self, world: World, above: int | None) -> dict[int, Place]:
        """The places over the offsets of one world, by the line that comes next."""
        marked = [line.rstrip(b"\r\n") + f" ({_MARK}{number})\n".encode() if begins else line
                  for number, (line, begins) in enumerate(zip(self.lines, self.can_begin, strict=True))]
        head, commands = self.dry(world, marked)
        free = above if above is not None else _highest_cut(head, commands)
        found: dict[int, Place] = {}
        in_force, at, last = _after(InForce(), head), (0, 0, 0), ""
        for command in commands:
            match = _MARKED.fullmatch(str(command.args[0])) if command.name == "COMMENT" else None
            tip = in_force.to_program(at)
            if match and last == "STRAIGHT_TRAVERSE" and tip[2] >= free:
                line = int(match[1])
                found[line] = Place(line, tip, in_force.without_offsets())
            in_force = in_force.after(command)
            if command.name in MOTIONS:
                at, last = command.point, command.name
        return found

    def dry(self, world: World, lines: list[bytes]) -> tuple[list[Command], list[Command]]:
        """Does a dry run of all lines, with words for what they leave open. Raises LineRefused, CannotRun, OSError."""
        try:
            return world.dry(self.first_part(lines))
        except LineRefused as error:
            more = bool(self.left_open) and error.refused.line > self.is_percent
            raise LineRefused(replace(error.refused, line=error.refused.line - more)) from None

    def first_part(self, lines: list[bytes]) -> bytes:
        """The program's beginning, with words for what it leaves open."""
        text = b"".join(lines)
        if not self.left_open:
            return text
        at = percent_bytes(text)
        return text[:at] + f"{' '.join(self.left_open.values())}\n".encode() + text[at:]

    def part(self, begin: Place | None, end: int, named: str) -> Part:
        """The part from a place on, the program's beginning if it is None, to before line `end`."""
        first = begin.line if begin else 0
        last = b"" if end == len(self.lines) else b"M2\n"
        lines = self.lines[first:end]
        text = self._head(begin, named) + b"".join(lines) if begin else self.first_part(lines)
        return Part(first, end, text + last, begin)

    def _head(self, place: Place, named: str) -> bytes:
        """The modes that are in force at a place, and the way there: Z first."""
        now, modes = place.in_force, self.modes[place.line]
        x, y, z = map(millimetres, place.at)
        offsets = [modes.get("system", self.left_open.get("system", "")), modes.get("length", "")]
        said = ["%"] if self.is_percent else []
        said.append(_FRESH)
        said += [f"T{now.tool} M6"] if now.tool else []
        said += [f"T{now.selected}"] if now.selected != now.tool else []
        said += [" ".join(filter(None, offsets))] if any(offsets) else []
        said += [f"G0 Z{z}", f"G0 X{x} Y{y}"]
        said.append(f"S{millimetres(now.speed)}" + {"STOP_SPINDLE_TURNING": "", "START_SPINDLE_CLOCKWISE": " M3",
                                                    "START_SPINDLE_COUNTERCLOCKWISE": " M4"}[now.spindle])
        said += ["M7"] if now.mist else []
        said += ["M8"] if now.flood else []
        said.append(f"F{millimetres(now.feed)}")
        unit, plane = {"MM": "G21", "INCHES": "G20"}[now.unit], {"XY": "G17", "XZ": "G18", "YZ": "G19"}[now.plane]
        others = [word for group, word in modes.items() if group not in ("plane", "unit", *_OFFSETS)]
        said.append(" ".join([plane, unit, *others]))
        said.append(f"({named}, from line {place.line + 1} on)")
        return ("\n".join(said) + "\n").encode("latin-1")


def parted(program: LongProgram, places: list[Place], limit: int, name: str) -> list[Part]:
    """The parts, each of at most `limit` bytes and as long as it can be. Raises CannotPart."""
    offsets = [0, *accumulate(map(len, program.lines))]
    lines = [place.line for place in places]
    parts: list[Part] = []
    begin: Place | None = None
    while not parts or parts[-1].end < len(program.lines):
        named = f"part {len(parts) + 1} of {name}"
        first = begin.line if begin else 0
        around = len(program.part(begin, first, named).text)  # its head and end
        if offsets[-1] - offsets[first] + around <= limit:
            parts.append(program.part(begin, len(program.lines), named))
            break
        last = bisect_right(lines, limit - around + offsets[first], key=lambda line: offsets[line]) - 1
        if last < 0 or lines[last] <= first:
            raise CannotPart(_too_long(program, places, first, limit))
        parts.append(program.part(begin, places[last].line, named))
        begin = places[last]
    return parts


def _too_long(program: LongProgram, places: list[Place], first: int, limit: int) -> str:
    """Why nothing fits from line `first` on."""
    following = next((place.line for place in places if place.line > first), len(program.lines))
    size = sum(map(len, program.lines[first:following]))
    return (f"lines {first + 1} to {following} have {size:,} bytes, and no traverse ends above the work between them:"
            f" with its head and end a part has at most {limit:,}")


def _after(in_force: InForce, commands: list[Command]) -> InForce:
    for command in commands:
        in_force = in_force.after(command)
    return in_force


def _highest_cut(head: list[Command], commands: list[Command]) -> int:
    """The greatest program Z in nm of the tool's tip at which a cut begins or ends; 0 if there is none."""
    in_force, at, found = _after(InForce(), head), (0, 0, 0), []
    for command in commands:
        if command.name in MOTIONS:
            if command.name != "STRAIGHT_TRAVERSE":
                found += [in_force.to_program(point)[2] for point in (at, command.point)]
            at = command.point
        in_force = in_force.after(command)
    return max(found, default=0)


def _after_traverse(before: bool, line: bytes) -> tuple[bool, bool]:
    """Whether a line can be the first one after a head, which leaves G0 in force; and whether G0 is in force after it.

    It can if it names an axis, and a motion G0 to G3 or none if G0 is in force `before` it. What is read wrongly
    here makes parts that do other moves, and is found."""
    words = _COMMENT.sub(b"", line)
    motions = _MOTION.findall(words)
    begins = bool(_AXIS.search(words)) and (motions[0] in _PLAIN if motions else before)
    begins = begins and len(line) <= LONGEST_LINE and not words.lstrip().startswith(b"/")
    return begins, motions[-1] == b"0" if motions else before


def _modes_after(now: dict[str, str], line: bytes) -> dict[str, str]:
    """The modes by words, one of each group, after a line."""
    if not _MODAL.search(line):
        return now
    then = dict(now)
    cut = CamLine.cut(line.rstrip(b"\r\n").decode("latin-1"))
    for group, codes in _GROUPS.items():
        word = cut.find("G", *codes)
        if word:
            length = cut.find("H")
            then[group] = f"G{word.value.normalize():f}" + (f" {length.text}" if word.value == 43 and length else "")
    if word := cut.find("M", 48, 49):
        then["overrides"] = f"M{word.value.normalize():f}"
    return then
