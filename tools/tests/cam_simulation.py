"""What CAM systems' texts mean to the controllers that they are written for: Mach3, Grbl, LinuxCNC and Fanuc, as far as
the texts of tests/cam need it. It shares nothing with the tools but the form of canonical text, and reads words by
its own rules: it is what `ngc-adapt` is compared with.

Lengths are fractions of a millimetre in machine coordinates, so nothing is rounded."""
import re
from dataclasses import dataclass, field
from fractions import Fraction
from math import atan2, degrees, isqrt

from ngc_tools.formats.canonical import Command

Point = tuple[Fraction, Fraction, Fraction]
_FINE = 10**24
_AXES = {17: (0, 1), 18: (2, 0), 19: (1, 2)}  # the first and the second axis, seen so that G3 is counter-clockwise
_PLANES = {"XY": 17, "XZ": 18, "YZ": 19}
_CYCLES = (81, 82, 83)
_CLEAR = Fraction(254, 1000)  # so far above the last peck G83 goes on to feed
_INCH, _ZERO = Fraction(254, 10), Fraction(0)


@dataclass(frozen=True)
class Deed:
    """One thing that a machine does: a `rapid`, a `feed`, an `arc`, a `dwell` or a `change` of the tool. `end` is where
    it stands then; an arc has its plane, its centre on the plane's two axes, and its turn in degrees, above 0 where
    counter-clockwise. `feed` is in millimetres a minute, `spindle` its direction and speed, `cooled` what flows."""

    kind: str
    end: Point
    feed: Fraction = _ZERO
    spindle: tuple[int, Fraction] = (0, _ZERO)
    cooled: frozenset[str] = frozenset()
    tool: int = 0
    seconds: Fraction = _ZERO
    plane: int = 0
    centre: tuple[Fraction, Fraction] = (_ZERO, _ZERO)
    turn: float = 0.0


@dataclass
class Machine:
    """What a machine has in force, and its deeds. Moves of no length aren't any."""

    at: Point = (_ZERO, _ZERO, _ZERO)
    feed: Fraction = _ZERO
    turning: int = 0
    speed: Fraction = _ZERO
    cooled: frozenset[str] = frozenset()
    tool: int = 0
    deeds: list[Deed] = field(default_factory=list)

    def _do(self, kind: str, **more: object) -> None:
        spindle = (self.turning, self.speed if self.turning else _ZERO)
        feed = _ZERO if kind == "rapid" else self.feed
        self.deeds.append(Deed(kind, self.at, feed, spindle, self.cooled, self.tool, **more))

    def move(self, kind: str, end: Point) -> None:
        """A straight move."""
        if end != self.at:
            self.at = end
            self._do(kind)

    def arc(self, end: Point, plane: int, centre: tuple[Fraction, Fraction], counter: bool) -> None:
        """An arc, a full turn where it ends where it begins; a helix where the third axis moves too."""
        turn = _turn(self.at, end, plane, centre, counter)
        self.at = end
        self._do("arc", plane=plane, centre=centre, turn=turn)

    def dwell(self, seconds: Fraction) -> None:
        """Waits."""
        self._do("dwell", seconds=seconds)

    def change(self, tool: int) -> None:
        """Puts a tool in; the spindle stands."""
        self.tool, self.turning = tool, 0
        self._do("change")


def _turn(start: Point, end: Point, plane: int, centre: tuple[Fraction, Fraction], counter: bool) -> float:
    a, b = _AXES[plane]
    if (start[a], start[b]) == (end[a], end[b]):
        return 360.0 if counter else -360.0
    from_angle = degrees(atan2(start[b] - centre[1], start[a] - centre[0]))
    to_angle = degrees(atan2(end[b] - centre[1], end[a] - centre[0]))
    return (to_angle - from_angle) % 360 if counter else -((from_angle - to_angle) % 360)


@dataclass
class Control(Machine):
    """A controller over a CAM system's text. G28 goes home by the axes that are named: `homes`. `lengths` are those of
    the tools, `slots` the slots of tools with other numbers."""

    homes: Point = (_ZERO, _ZERO, _ZERO)
    lengths: dict[int, Fraction] = field(default_factory=dict)
    slots: dict[int, int] = field(default_factory=dict)
    motion: int | None = None
    plane: int = 17
    incremental: bool = False
    centres_absolute: bool = False
    unit: Fraction = Fraction(1)
    old_z: bool = True
    length: Fraction = _ZERO
    selected: int = 0
    cycle: dict[str, Fraction] = field(default_factory=dict)

    def run(self, text: str) -> list[Deed]:
        """What the text does, from its first line to M2 or M30, or to its end."""
        for line in text.splitlines():
            codes, words = read_words(line)
            self._set(codes, words)
            self._axes(codes, words)
            if {("M", 2), ("M", 30)} & set(codes):
                break
        return self.deeds

    def _set(self, codes: list[tuple[str, Fraction]], words: dict[str, Fraction]) -> None:
        """All but what moves, in the order in which it acts."""
        for letter, code in codes:
            if letter == "G":
                self._modal(code)
        self.feed = words["F"] * self.unit if "F" in words else self.feed
        self.speed = words.get("S", self.speed)
        self.selected = self.slots.get(int(words.get("T", -1)), int(words.get("T", self.selected)))
        has = {code for letter, code in codes if letter == "M"}
        if 6 in has:
            self.change(self.selected)
        for code in has & {3, 4, 5}:
            self.turning = {3: 1, 4: -1, 5: 0}[int(code)]
        for code in has & {7, 8, 9}:
            self.cooled = frozenset() if code == 9 else self.cooled | {"mist" if code == 7 else "flood"}
        if ("G", 4) in codes:
            self.dwell(words["P"])
        if ("G", 43) in codes:
            self.length = self.lengths.get(self.slots.get(int(words["H"]), int(words["H"])), _ZERO)
        elif ("G", 49) in codes:
            self.length = _ZERO

    def _modal(self, code: Fraction) -> None:
        if code in (0, 1, 2, 3, *_CYCLES):
            self.motion, self.cycle = int(code), self.cycle if code == self.motion else {}
        elif code == 80:
            self.motion, self.cycle = None, {}
        elif code in (17, 18, 19):
            self.plane = int(code)
        elif code in (90, 91):
            self.incremental = code == 91
        elif code in (Fraction("90.1"), Fraction("91.1")):
            self.centres_absolute = code == Fraction("90.1")
        elif code in (20, 70, 21, 71):
            self.unit = _INCH if code in (20, 70) else Fraction(1)
        elif code in (98, 99):
            self.old_z = code == 98

    def _axes(self, codes: list[tuple[str, Fraction]], words: dict[str, Fraction]) -> None:
        """What moves."""
        if not set(words) & set("XYZIJKR"):
            return
        if ("G", 28) in codes:
            self._home(words)
        elif ("G", 53) in codes:
            self.move("rapid" if self.motion == 0 else "feed", self._machine(words))
        elif self.motion in (0, 1):
            self.move("feed" if self.motion else "rapid", self._end(words))
        elif self.motion in (2, 3):
            self._arc(words)
        elif self.motion in _CYCLES:
            self._drill(words)
        else:
            raise AssertionError(f"no motion is in force for {words}")

    def _home(self, words: dict[str, Fraction]) -> None:
        """By way of the point that is named, the named axes alone."""
        named = [n for n, axis in enumerate("XYZ") if axis in words]
        self.move("rapid", self._end(words))
        self.move("rapid", _point(self.homes[n] if n in named else self.at[n] for n in range(3)))

    def _machine(self, words: dict[str, Fraction]) -> Point:
        return _point(words[axis] * self.unit if axis in words else at for axis, at in zip("XYZ", self.at))

    def _end(self, words: dict[str, Fraction]) -> Point:
        """Where the axis words lead to; the length of the tool counts on Z."""
        start = (_ZERO,) * 2 + (self.length,) if not self.incremental else self.at
        return _point(start[n] + words[axis] * self.unit if axis in words else self.at[n]
                      for n, axis in enumerate("XYZ"))

    def _arc(self, words: dict[str, Fraction]) -> None:
        """By its centre or by its radius, which below 0 means the longer way round."""
        end, (a, b) = self._end(words), _AXES[self.plane]
        if "R" in words:
            centre = centre_by_radius(self.at, end, (a, b), words["R"] * self.unit, self.motion == 3)
        else:
            base = (_ZERO,) * 3 if self.centres_absolute else self.at
            offsets = [words.get("IJK"[axis], _ZERO) * self.unit for axis in (a, b)]
            centre = (base[a] + offsets[0], base[b] + offsets[1])
        self.arc(end, self.plane, centre, self.motion == 3)

    def _drill(self, words: dict[str, Fraction]) -> None:
        """G81 and G83 under G90: over the hole, down to R, into it, out of it."""
        assert not self.incremental and self.plane == 17
        self.cycle.update({letter: words[letter] * self.unit for letter in "ZRQ" if letter in words})
        old, r, bottom = self.at[2], self.cycle["R"] + self.length, self.cycle["Z"] + self.length
        if old < r:
            self._to_z("rapid", r)
        self.move("rapid", self._end({axis: words[axis] for axis in "XY" if axis in words}))
        self._to_z("rapid", r)
        depth = r
        while self.motion == 83 and depth - self.cycle["Q"] > bottom:
            depth -= self.cycle["Q"]
            self._to_z("feed", depth)
            self._to_z("rapid", r)
            self._to_z("rapid", min(r, depth + _CLEAR))
        self._to_z("feed", bottom)
        self._to_z("rapid", max(old, r) if self.old_z else r)

    def _to_z(self, kind: str, z: Fraction) -> None:
        self.move(kind, (self.at[0], self.at[1], z))


def read_words(line: str) -> tuple[list[tuple[str, Fraction]], dict[str, Fraction]]:
    """The G and M codes of a line in its order, and its other words. Comments, program and block numbers and a name
    after % mean nothing, and neither does a rotary axis at 0."""
    text, before = line.upper().replace(" ", ""), ""
    while text != before:  # of comments within comments the inner one goes first
        text, before = re.sub(r"\([^()]*\)|;.*|^%.*", "", text), text
    found = [(letter, Fraction(number)) for letter, number in re.findall(r"([A-Z])([-+]?[0-9]*\.?[0-9]*)", text)]
    words = {letter: number for letter, number in found if letter not in "GMNO"}
    assert words.pop("A", 0) == 0
    return [(letter, number) for letter, number in found if letter in "GM"], words


def centre_by_radius(start: Point, end: Point, axes: tuple[int, int], radius: Fraction,
                     counter: bool) -> tuple[Fraction, Fraction]:
    """The centre beside the middle of the two ends: on the left of the way there, seen from the start, for the shorter
    arc counter-clockwise and for the longer one clockwise; else on the right."""
    a, b = axes
    da, db = end[a] - start[a], end[b] - start[b]
    rest = radius**2 / (da * da + db * db) - Fraction(1, 4)
    side = Fraction(isqrt(int(rest * _FINE**2)), _FINE) if rest > 0 else _ZERO
    side = side if counter == (radius > 0) else -side
    return (start[a] + da / 2 - db * side, start[b] + db / 2 + da * side)


def _point(numbers: object) -> Point:
    x, y, z = numbers
    return x, y, z


def carried_out(commands: list[Command]) -> list[Deed]:
    """What canonical text does."""
    machine, plane = Machine(), 17
    for command in commands:
        name, args = command.name, command.args
        millionths = [Fraction(arg, 10**6) for arg in args if isinstance(arg, int)]
        match name:
            case "STRAIGHT_TRAVERSE" | "STRAIGHT_FEED":
                machine.move("feed" if name == "STRAIGHT_FEED" else "rapid", _point(millionths))
            case "ARC_FEED":
                pair = (millionths[3], millionths[4])
                machine.arc(_point(millionths[:3]), plane, pair, args[5] == "CCW")
            case "SELECT_PLANE":
                plane = _PLANES[str(args[0])]
            case "SET_FEED_RATE":
                machine.feed = millionths[0]
            case "SET_SPINDLE_SPEED":
                machine.speed = millionths[0]
            case "START_SPINDLE_CLOCKWISE" | "START_SPINDLE_COUNTERCLOCKWISE" | "STOP_SPINDLE_TURNING":
                machine.turning = {"START_SPINDLE_CLOCKWISE": 1, "STOP_SPINDLE_TURNING": 0}.get(name, -1)
            case "MIST_ON" | "FLOOD_ON":
                machine.cooled |= {name[:-3].lower()}
            case "MIST_OFF" | "FLOOD_OFF":
                machine.cooled -= {name[:-4].lower()}
            case "DWELL":
                machine.dwell(millionths[0])
            case "CHANGE_TOOL":
                machine.change(int(args[0]))
            case "PROGRAM_END" | "REFUSED":
                break
    return machine.deeds
