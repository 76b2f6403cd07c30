"""The moves of a job: of canonical text, or of the lines of OUT. Lengths are whole nanometres, times whole
microseconds; all is computed in whole numbers, so it is the same on any machine."""
from collections.abc import Iterable, Iterator
from dataclasses import dataclass
from math import isqrt

from ngc_tools.formats.canonical import MOTIONS, Command
from ngc_tools.formats.out import Dwell, Pulse, Switch, read_line
from ngc_tools.formats.position import distance, rounded
from ngc_tools.formats.settings import Settings
from ngc_tools.formats.in_force import InForce

Point = tuple[int, int, int]
Pair = tuple[int, int]

TRAVERSE, CUT, MOTION = "traverse", "cut", "motion"
"""What a move is. Of OUT nothing says which: there it is `motion`."""

_STANDS = {"PROGRAM_STOP", "PALLET_SHUTTLE", "START_SPINDLE_CLOCKWISE", "START_SPINDLE_COUNTERCLOCKWISE",
           "STOP_SPINDLE_TURNING", "SET_SPINDLE_SPEED", "MIST_ON", "MIST_OFF", "FLOOD_ON", "FLOOD_OFF", "SELECT_TOOL",
           "CHANGE_TOOL", "PROGRAM_END"}  # at which everything stands: a line S of OUT, but for the first two

PLANES = {"XY": (0, 1, 2), "XZ": (2, 0, 1), "YZ": (1, 2, 0)}
"""Of each plane its two axes, the first and the second, and the third axis."""

_HALVINGS = 4  # an arc is drawn by up to 2**4 chords a quarter


@dataclass(frozen=True, slots=True)
class Arc:
    """How an arc goes: the plane, as `XY`, the centre on its two axes in nm, and whether counter-clockwise."""

    plane: str
    centre: Pair
    counter_clockwise: bool


@dataclass(frozen=True, slots=True)
class Move:
    """One move, or of OUT all between two other lines. `points` begin at its start and end at its end. `feed` is in
    millionths of a millimetre a minute; with `inverse` the move takes 1 / `inverse` minutes, in millionths too. `us` is
    how long it lasts, if that is known. `tool` is the slot in the spindle. `rests`: everything stands before it, for a
    switch, a tool or a stop of the program."""

    kind: str
    points: tuple[Point, ...]
    tool: int = 0
    arc: Arc | None = None
    feed: int = 0
    inverse: int = 0
    us: int | None = None
    rests: bool = False

    @property
    def length(self) -> int:
        """Its length in nm: of an arc that of its chords, which is less by up to 0.1 %."""
        if len(self.points) == 2:
            return distance(*self.points)
        return sum(distance(a, b) for a, b in zip(self.points, self.points[1:]))


@dataclass(frozen=True, slots=True)
class Wait:
    """A dwell of `us` microseconds. `rests` is as that of a move."""

    us: int
    tool: int = 0
    rests: bool = False


Step = Move | Wait


def of_canonical(commands: Iterable[Command], begun: InForce = InForce(), at: Point = (0, 0, 0)) -> Iterator[Step]:
    """The moves and dwells of a dry run, which begins at a machine point, with what is in force there."""
    plane, feed, inverse, tool = begun.plane, begun.feed, begun.inverse, begun.tool
    for command, rests in _resting(commands):
        match command.name:
            case "SELECT_PLANE":
                plane = str(command.args[0])
            case "SET_FEED_RATE":
                feed = int(command.args[0])
            case "INVERSE_TIME":
                inverse = int(command.args[0])
            case "CHANGE_TOOL":
                tool = int(command.args[0])
            case "DWELL":
                yield Wait(int(command.args[0]), tool, rests)
            case "STRAIGHT_TRAVERSE":
                yield Move(TRAVERSE, (at, command.point), tool, rests=rests)
                at = command.point
            case "STRAIGHT_FEED":
                yield Move(CUT, (at, command.point), tool, feed=feed, inverse=inverse, rests=rests)
                at, inverse = command.point, 0
            case "ARC_FEED":
                arc = arc_of(command, plane)
                yield Move(CUT, arc_points(at, command.point, arc), tool, arc, feed, inverse, rests=rests)
                at, inverse = command.point, 0


def _resting(commands: Iterable[Command]) -> Iterator[tuple[Command, bool]]:
    """Each command, and whether everything stands between the last step and it."""
    rests = False
    for command in commands:
        rests = rests or command.name in _STANDS
        yield command, rests
        rests = rests and command.name not in ("DWELL", *MOTIONS)


def work_zeros(commands: Iterable[Command], begun: InForce = InForce()) -> list[Point]:
    """Where the program's zero is while something is cut, each place once: the origin, and above it the tool's length,
    since the points of the moves are the spindle's. `begun` is what is in force before the commands."""
    found: dict[Point, None] = {}
    origin, length = begun.origin, begun.length
    for command in commands:
        match command.name:
            case "SET_ORIGIN_OFFSETS":
                origin = command.point
            case "USE_TOOL_LENGTH_OFFSET":
                length = int(command.args[0])
            case "STRAIGHT_FEED" | "ARC_FEED":
                found[origin[0], origin[1], origin[2] + length] = None
    return list(found)


def arc_of(command: Command, plane: str) -> Arc:
    """How an `ARC_FEED` goes in this plane."""
    return Arc(plane, (int(command.args[3]), int(command.args[4])), command.args[5] == "CCW")


def arc_points(start: Point, end: Point, arc: Arc) -> tuple[Point, ...]:
    """Points of an arc from its start to its end, both among them, so near that chords will do for a picture."""
    a, b, c = PLANES[arc.plane]
    turn = 1 if arc.counter_clockwise else -1  # a clockwise arc is the mirror image
    first = (start[a] - arc.centre[0], turn * (start[b] - arc.centre[1]))
    last = (end[a] - arc.centre[0], turn * (end[b] - arc.centre[1]))
    flat = _round_about(first, last)
    lengths = [0]
    for p, q in zip(flat, flat[1:]):
        lengths.append(lengths[-1] + isqrt((q[0] - p[0]) ** 2 + (q[1] - p[1]) ** 2))
    whole = lengths[-1] or 1
    points = [start]
    for (p, q), done in list(zip(flat, lengths))[1:-1]:
        point = [0, 0, 0]
        point[a], point[b] = arc.centre[0] + p, arc.centre[1] + turn * q
        point[c] = start[c] + (end[c] - start[c]) * done // whole
        points.append((point[0], point[1], point[2]))
    return (*points, end)


def _round_about(first: Pair, last: Pair) -> list[Pair]:
    """Points counter-clockwise about 0, from one to another, or once round if they are equal."""
    points, here = [first], first
    for quarter in range(4):
        if within_quarter(here, last) and (quarter > 0 or first != last):
            break
        ahead = (-here[1], here[0])
        points += _between(here, ahead, _HALVINGS) + [ahead]
        here = ahead
    if here != last:
        points += _between(here, last, _HALVINGS) + [last]
    return points


def within_quarter(here: Pair, there: Pair) -> bool:
    """Whether it is less than a quarter turn counter-clockwise about 0 to get from `here` to `there`."""
    return here[0] * there[1] - here[1] * there[0] >= 0 and here[0] * there[0] + here[1] * there[1] > 0


def _between(p: Pair, q: Pair, halvings: int) -> list[Pair]:
    """Points between two that are at most a quarter turn apart, as far from 0 as the first."""
    if halvings == 0:
        return []
    radius = isqrt(p[0] * p[0] + p[1] * p[1])
    middle = (p[0] + q[0], p[1] + q[1])
    size = isqrt(middle[0] * middle[0] + middle[1] * middle[1]) or 1
    half = (middle[0] * radius // size, middle[1] * radius // size)
    return _between(p, half, halvings - 1) + [half] + _between(half, q, halvings - 1)


def of_out(text: bytes, settings: Settings, at: Point = (0, 0, 0)) -> list[Step]:
    """The moves and waits of the whole lines of OUT; the machine stands at the point `at` first.

    A move is all pulses between two other lines. Its points are a thousandth of the picture apart. Raises BadLine."""
    lines = text.split(b"\n")[:-1]
    read = {line: read_line(line, lines.index(line) + 1, settings.period_us) for line in dict.fromkeys(lines)}
    steps = [rounded(nm, step) for nm, step in zip(at, settings.step_nm, strict=True)]
    low, high = _extremes(lines, read, steps)
    grain = [max(1, max((h - l) * s for l, h, s in zip(low, high, settings.step_nm)) // (1000 * size))
             for size in settings.step_nm]
    found: list[Step] = []
    path, us, tool = _Path(tuple(steps), tuple(grain), settings.step_nm), 0, 0
    for line in lines:
        what = read[line]
        if isinstance(what, Pulse):
            path.step(what.x, what.y, what.z)
            us += what.period_us
            continue
        if len(path.points) > 1 or us:
            found.append(Move(MOTION, path.taken(), tool, us=us))
            us = 0
        if isinstance(what, Dwell):
            found.append(Wait(what.us, tool))
        elif isinstance(what, Switch):
            tool = what.slot
    if us:
        found.append(Move(MOTION, path.taken(), tool, us=us))
    return found


class _Path:
    """The points of a path in steps that are at least a grain apart on some axis."""

    def __init__(self, at: Iterable[int], grain: tuple[int, ...], step_nm: Point) -> None:
        self.x, self.y, self.z = at
        self.grain, self.step_nm = grain, step_nm
        self.kept = (self.x, self.y, self.z)
        self.points = [self._nm()]

    def step(self, x: int, y: int, z: int) -> None:
        """Takes a pulse."""
        self.x += x
        self.y += y
        self.z += z
        kept, grain = self.kept, self.grain
        if (abs(self.x - kept[0]) >= grain[0] or abs(self.y - kept[1]) >= grain[1]
                or abs(self.z - kept[2]) >= grain[2]):
            self.kept = (self.x, self.y, self.z)
            self.points.append(self._nm())

    def taken(self) -> tuple[Point, ...]:
        """The points up to here; the path goes on from here."""
        points = self.points if self.points[-1] == self._nm() and len(self.points) > 1 else [*self.points, self._nm()]
        self.kept, self.points = (self.x, self.y, self.z), [self._nm()]
        return tuple(points)

    def _nm(self) -> Point:
        return self.x * self.step_nm[0], self.y * self.step_nm[1], self.z * self.step_nm[2]


def _extremes(lines: list[bytes], read: dict, at: list[int]) -> tuple[list[int], list[int]]:
    """The least and the greatest steps of each axis."""
    low, high, now = list(at), list(at), list(at)
    for line in lines:
        what = read[line]
        if isinstance(what, Pulse):
            for axis, step in enumerate((what.x, what.y, what.z)):
                if step:
                    now[axis] += step
                    low[axis], high[axis] = min(low[axis], now[axis]), max(high[axis], now[axis])
    return low, high
