"""A way along lines of OUT, on or back: what a player would do, looked at before anything moves.

Back is line by line what on was, in the other order and with steps of the other sign, so it leads through what was cut.
Nothing waits and nothing is switched on the way back."""
import os
from collections.abc import Iterable, Iterator
from dataclasses import dataclass, replace
from math import isqrt

from ngc_tools.failure import Failure
from ngc_tools.formats.out import LONGEST_LINE, OFF, BadLine, Line, Pulse, Switch, read_line
from ngc_tools.formats.position import Position, distance, millimetres

Point = tuple[int, int, int]
_PIECE = 1 << 16  # bytes that are read at once


class NoWay(Failure):
    """A line of OUT to which no way leads; the text says why."""


@dataclass(frozen=True, slots=True)
class CarriedLine:
    """A line that was carried out, or taken back: then the motors are where the first `lines` lines lead, the first
    `size` bytes of OUT. Of a wait or a switch that is taken back `line` is None: nothing is done."""

    line: Line | None
    lines: int
    size: int


@dataclass(frozen=True, slots=True)
class Way:
    """So many lines, of which so many are pulses and so many switches. `length_nm` is that of the path, `us` its time
    without ramps, and Z goes as low as `low_nm`. It ends at `end_nm`."""

    lines: int
    pulses: int
    switches: int
    length_nm: int
    us: int
    low_nm: int
    end_nm: tuple[int, int, int]


def moves(file: int, lines: int, size: int, to: int, least_us: int) -> Iterator[CarriedLine]:
    """The moves from where the motors are, after so many lines and bytes of OUT, to where its first `to` bytes lead.
    Raises BadLine."""
    return _back(file, lines, size, to, least_us) if to < size else _on(file, lines, size, to, least_us)


def _on(file: int, lines: int, size: int, to: int, least_us: int) -> Iterator[CarriedLine]:
    for text in _texts_on(file, size, to):
        lines += 1
        size += len(text) + 1
        yield CarriedLine(read_line(text, lines, least_us), lines, size)


def _back(file: int, lines: int, size: int, to: int, least_us: int) -> Iterator[CarriedLine]:
    """Between two pulses lies the time that lay between them."""
    later: tuple[Pulse, int, int] | None = None
    for text in _texts_back(file, to, size):
        line = read_line(text, lines, least_us)
        lines -= 1
        size -= len(text) + 1
        if later is not None:
            yield _taken_back(*later, line.period_us if isinstance(line, Pulse) else later[0].period_us)
        later = (line, lines, size) if isinstance(line, Pulse) else None
        if later is None:
            yield CarriedLine(None, lines, size)
    if later is not None:
        yield _taken_back(*later, later[0].period_us)


def _taken_back(pulse: Pulse, lines: int, size: int, period_us: int) -> CarriedLine:
    return CarriedLine(Pulse(-pulse.x, -pulse.y, -pulse.z, period_us), lines, size)


def slowed(found: Iterable[CarriedLine], step_nm: Iterable[int], most: int) -> Iterator[CarriedLine]:
    """The same moves, none faster than so many nm a minute."""
    x_nm, y_nm, z_nm = step_nm
    least = {(x, y, z): -(-distance((0, 0, 0), (x * x_nm, y * y_nm, z * z_nm)) * 60_000_000 // most)
             for x in (0, 1) for y in (0, 1) for z in (0, 1)}
    for move in found:
        line = move.line
        if isinstance(line, Pulse) and (us := least[abs(line.x), abs(line.y), abs(line.z)]) > line.period_us:
            move = replace(move, line=replace(line, period_us=us))
        yield move


def legs_to(start: Point, end: Point, lift_nm: int) -> tuple[Point, ...]:
    """Up to a height, over, and down. Raises NoWay if that height isn't above both points."""
    if lift_nm < max(start[2], end[2]):
        raise NoWay(f"Z {millimetres(lift_nm)} lies below Z {millimetres(max(start[2], end[2]))}: legs go up first, and"
                    " down last")
    return (start[0], start[1], lift_nm), (end[0], end[1], lift_nm), end


def look(found: Iterable[CarriedLine], position: Position) -> Way:
    """What moves come to, from a point on, which is moved along. Raises as they do."""
    lines = pulses = switches = length = us = 0
    low = position.steps[2]
    sizes: dict[tuple[int, int, int], int] = {}
    for move in found:
        lines += 1
        line = move.line
        if isinstance(line, Pulse):
            position.take(line)
            low = min(low, position.steps[2])
            pulses += 1
            step = (line.x, line.y, line.z)
            if step not in sizes:
                sizes[step] = isqrt(sum((each * nm) ** 2 for each, nm in zip(step, position.step_nm)))
            length += sizes[step]
        switches += isinstance(line, Switch)
        us += line.lasts_us if line else 0
    return Way(lines, pulses, switches, length, us, low * position.step_nm[2], position.nm)


def count_lines(file: int, begin: int, end: int) -> int:
    """How many lines end between two bytes of OUT."""
    count = 0
    for at in range(begin, end, _PIECE):
        count += os.pread(file, min(_PIECE, end - at), at).count(b"\n")
    return count


def switched_at(file: int, size: int, kept: Switch = OFF) -> Switch | None:
    """The same; None where the room in which a switch may stand was given back."""
    after, at = b"", size
    while at > 0:
        count = min(_PIECE, at)
        at -= count
        after = os.pread(file, count, at) + after[:LONGEST_LINE]
        begin = after.rfind(b"\nS ") + 1
        if begin or at == 0 and after.startswith(b"S "):
            line = read_line(after[begin:].partition(b"\n")[0], 1)
            return line if isinstance(line, Switch) else kept
        if after.startswith(b"\0"):
            return None
    return kept


def is_switch_between(file: int, begin: int, end: int) -> bool:
    """Whether a line between two bytes, at which lines end, is a switch."""
    return any(text.startswith(b"S ") for text in _texts_on(file, begin, end))


def _texts_on(file: int, begin: int, end: int) -> Iterator[bytes]:
    """The whole lines between two bytes, without their newlines."""
    part = b""
    for at in range(begin, end, _PIECE):
        *whole, part = (part + os.pread(file, min(_PIECE, end - at), at)).split(b"\n")
        yield from whole
        _check(part)


def _texts_back(file: int, begin: int, end: int) -> Iterator[bytes]:
    """The same from the last to the first; a line ends at both bytes."""
    part, at = b"", end
    while at > begin:
        size = min(_PIECE, at - begin)
        at -= size
        first, *whole = (os.pread(file, size, at) + part).split(b"\n")
        _check(first)
        part = first + b"\n"
        yield from reversed(whole[:-1])
    if part:
        yield part[:-1]


def _check(part: bytes) -> None:
    """Raises BadLine for what is longer than any line, as the room that was given back is."""
    if len(part) > 2 * LONGEST_LINE:
        raise BadLine(0, "its room was given back to the disk" if part[:1] == b"\0" else "not a line of OUT")
