"""What must hold at each step of the walk by chance: what the page says is what the machine's model has, nothing moves
that nobody asked for, and each touch is answered where it was made."""
import re
import time
from collections.abc import Iterator
from dataclasses import dataclass

from test_moves import BOX
from walk_late import Lateness
from walk_machine import ACCEL_MM_S2, BODIES, LENGTHS_MM, RADII_MM, STEP_MM, Bench, Outputs, Point
from walk_page import Seen

FRESH_S = 0.8
"""What a state says may be so much older than when it was told."""
SILENT_S = 3.5
"""A page that has heard nothing for so long says so, and shows no older state as if it were new."""
CLOCKS_S = 0.1
"""Clocks that are set by others differ by less."""
ROUNDED_S = 0.6
"""An age is told in tenths of seconds, of a minute and more in seconds."""
ANSWER_S = 2.0
"""So soon something has to come of a touch."""
HOLD_S = 0.1
REST_S = 2.0
"""So long a page may say that the machine moves while it rests."""
NEAR_MM = {"mm": 0.0011, "in": 0.0026}
_UNITS = {"mm": 1.0, "in": 25.4}
_TURNS = {"\u21bb": 1, "\u21ba": 2}
_NUMBER = re.compile(r"[-\u2212]?\d[\d,]*(?:\.\d+)?")
TOUCH_MM = 0.06
"""What was touched is told as near as that: both touches may differ by so much, and a step."""
HEEDED_S = 0.05
"""So long after the probe came on a move may go on as it went."""
_FOUND = re.compile(r"probe [^:]*: machine (.*?); in G")
_LENGTH = re.compile(r"tool (\d+) (-?[\d.]+)$")
_WITHIN = re.compile(r"([XYZ]) from (-?[\d.]+) to (-?[\d.]+) \(")
_ALONG = re.compile(r"([XYZ])(-?[\d.]+)")
UNKNOWN = ("\u2013", "-", "\u2014", "?", "")


class Wrong(AssertionError):
    """Something that must not be: the name of the rule, and what was seen."""

    def __init__(self, rule: str, says: str) -> None:
        super().__init__(f"{rule}: {says}")
        self.rule = rule


def number(text: str) -> float | None:
    """The first number of a text, as people write it."""
    match = _NUMBER.search(text)
    return float(match[0].replace(",", "").replace("\u2212", "-")) if match else None


def point(texts: list[str]) -> Point | None:
    """Three numbers; None where one isn't shown."""
    found = [number(text) for text in texts]
    if len(found) != 3 or None in found:
        return None
    x, y, z = found
    return x, y, z


@dataclass(frozen=True)
class Within:
    """Between which places of the machine a routine said that it moves, in mm, how fast at most, and where it is over
    once the motors are there again; None where more may follow there."""

    low: Point
    high: Point
    mm_s: float
    ends_at: Point | None

    def has(self, at: Point) -> bool:
        """Whether a place lies between."""
        return all(low - STEP_MM < mm < high + STEP_MM for low, mm, high in zip(self.low, at, self.high))


def within_of(text: str, at: Point, offset: Point) -> Within | None:
    """What a question says of where a routine moves, that begins at a place of the machine, while the page's numbers
    are told wrong by an offset; None for other questions."""
    ways: dict[str, list[float]] = {axis: [mm] for axis, mm in zip("XYZ", at)}
    is_measure = text.startswith("measure tool")
    if "no move leaves that" not in text.lower():
        return None
    found = (_ALONG.findall(text.partition(" at most, and back")[0]) if is_measure else
             [(axis, end) for axis, *ends in _WITHIN.findall(text) for end in ends])
    for axis, mm in found:
        ways[axis].append(float(mm) - offset["XYZ".index(axis)])
    low, high = (tuple(end(ways[axis]) for axis in "XYZ") for end in (min, max))
    return Within(low, high, 25.0 if is_measure else 5.0, at if is_measure else None)


def motors_of(seen: Seen) -> dict[str, float]:
    """Where a page says that the player has the motors, in millimetres, by axes; they are there in whole steps, which
    inches show less exactly."""
    shown = [value * _UNITS[unit] for text, unit in zip(seen.motors, seen.units) if (value := number(text)) is not None]
    return dict(zip("XYZ", (round(mm / STEP_MM) * STEP_MM for mm in shown)))


@dataclass
class Truth:
    """What the person at the machine knows: which tool is in, and since when that was told, by how much the page's
    numbers were told wrong, which axes may move as was asked, and whether a half-done block is being taken up. `zero`
    is what the page showed between motors and work."""

    tool: int | None = 0
    tool_told_at: float = 0.0
    offset: Point | None = (0.0, 0.0, 0.0)  # None as long as home is under way, since it changes axis by axis
    is_place_known: bool = True
    may_move: bool = False
    ways: set[str] | None = None  # the axes that may move, as X+; None for all
    zero: Point | None = None
    is_zero_asked: bool = True
    without_lines: bool = False
    touched_at: float = 0.0
    late_mm: float = 0.0  # how far it went as the player was killed, while that may have been late with its record
    is_change_done: bool = False  # the tool is in: the player goes on with what it has in hand, its switches too
    is_recovering: bool = False
    quiet_pulses: int = 0
    homes_at: int | None = None  # how many entries Log had as home was asked for last
    within: Within | None = None  # where a routine that was agreed to said that it moves
    measures: bool = False  # a tool is measured: its length is told next

    def rest(self) -> None:
        """What was asked for is over: from now on nothing moves. Where another zero was asked for, the one that is
        shown now is it."""
        self.may_move, self.ways, self.without_lines, self.is_change_done = False, None, False, False
        self.within = None
        self.zero = None if self.is_zero_asked else self.zero
        self.is_zero_asked = False


class Judge:
    """Looks at what a page shows, beside what the machine has."""

    def __init__(self, bench: Bench, late: Lateness) -> None:
        self.bench, self.late, self.truth = bench, late, Truth()
        self.checked: dict[str, int] = {}
        self._runs_at_rest_since = 0.0
        self._rests_in_motion_since = 0.0
        self._old_since = 0.0
        self._look: tuple[tuple[str, int], float] = ("", 0), 0.0  # which was asked for last, since when
        self._logged = ("", 0)  # which page's Log had how many entries
        self._wall_s = min(_clocks() for _ in range(5))[1]

    def count(self, name: str) -> None:
        """Counts what was looked at."""
        self.checked[name] = self.checked.get(name, 0) + 1

    def slack_s(self, since: float) -> float:
        """What the load of this computer makes of times that began then."""
        return self.late.slack_s(since)

    def all(self, seen: Seen) -> None:
        """Raises Wrong."""
        self.moves()
        if seen.isLost:
            return
        now = time.monotonic()
        told, slack_s = seen.now - self._wall_s, self.slack_s(now)
        if now - told > SILENT_S + slack_s:
            self._is_old(seen, now, told, slack_s)
            return
        self._old_since = 0.0
        since = told - FRESH_S - slack_s
        is_still = self.bench.mill.last_pulse_at() < since
        self.says_rest(seen, now, is_still)
        self.found(seen)
        self.place(seen, since, told)
        if is_still:
            self.zero(seen)
        if self.bench.mill.switched_at < since:
            self.outputs(seen, self.bench.mill.outputs)
        if max(self.bench.mill.switched_at, self.truth.tool_told_at) < since:
            self.tool(seen)
        self.looks(seen, told)
        self.words(seen, is_still)

    def _is_old(self, seen: Seen, now: float, told: float, slack_s: float) -> None:
        """A page that hears nothing says so. It may have been looked at before it was woken."""
        self._old_since = self._old_since or now
        if now - self._old_since > 1 + slack_s:
            raise Wrong("an old page", f"{seen.word}: {seen.detail}; that was told {now - told:.1f} s ago")

    # what moves

    def moves(self) -> None:
        """Nothing moves that nobody asked for, nor along another axis, nor before somebody looked."""
        mill, truth = self.bench.mill, self.truth
        begin, pulses = truth.quiet_pulses, mill.pulses
        ways = mill.moved(begin, pulses)
        truth.quiet_pulses = pulses
        self.count("moves")
        if ways and not truth.may_move:
            raise Wrong("moved unasked", f"{ways}")
        if truth.within is not None and truth.is_place_known:
            self._stays(truth.within, begin, pulses)
        if truth.ways is not None and (others := {way: n for way, n in ways.items() if way not in truth.ways}):
            raise Wrong("moved another axis", f"{others}, asked for was {sorted(truth.ways)}")
        is_recovery = truth.is_recovering and not truth.is_change_done
        if ways and is_recovery and mill.turns_since > truth.touched_at:
            raise Wrong("moved before the look", f"the spindle came on, and {ways} followed without a touch")

    def _stays(self, within: Within, begin: int, end: int) -> None:
        """A routine doesn't leave what it said, nor goes on where it touches."""
        mill, way_mm = self.bench.mill, within.mm_s ** 2 / (2 * ACCEL_MM_S2)
        self.count("routines")
        for pulse in [*mill.between(begin, end)][::-1]:
            if not within.has(pulse.at_mm):
                raise Wrong("past what was said", f"at {pulse.at_mm}; said was {within}")
            if pulse.at_mm == within.ends_at:
                self.truth.within = None
                return
        deep_mm = mill.reached[0] * STEP_MM
        if deep_mm > way_mm + within.mm_s * (HEEDED_S + self.slack_s(self.truth.touched_at)) + 2 * STEP_MM:
            raise Wrong("too deep", f"{deep_mm:.3f} mm into a body at {mill.at_mm}")

    def found(self, seen: Seen) -> None:
        """What a routine says that it touched is there: a face, or the middle of two; or the length of the tool."""
        before, self._logged = self._logged, (seen.session, seen.logs)
        new = seen.log[:max(0, seen.logs - before[1])] if before[0] == seen.session else []
        offset = self.truth.offset
        if offset is None or not self.truth.is_place_known:
            return
        for says in (says[len("00:00:00"):] for kind, says in new if kind == "said"):
            if match := _FOUND.match(says):
                for axis, mm in _ALONG.findall(match[1]):
                    self._is_there("XYZ".index(axis), float(mm) - offset["XYZ".index(axis)], says)
            elif self.truth.measures and (match := _LENGTH.match(says)):
                self._is_long(int(match[1]), float(match[2]) - offset[2], says)

    def _is_there(self, axis: int, mm: float, says: str) -> None:
        """A ball that touches an edge is there by its radius at most."""
        self.count("found")
        slot = self.bench.mill.outputs.slot
        faces = [*_faces(axis)] if axis < 2 else [top + LENGTHS_MM[slot] for top in _faces(2)]
        if min(abs(mm - face) for face in faces) > RADII_MM[slot] + TOUCH_MM:
            raise Wrong("not there", f"{says!r}: the machine's place is {mm:.3f}, and there are {faces}")

    def _is_long(self, slot: int, mm: float, says: str) -> None:
        self.count("lengths")
        if slot == self.bench.mill.outputs.slot and abs(mm - LENGTHS_MM[slot]) > TOUCH_MM:
            raise Wrong("not so long", f"{says!r}: tool {slot} is {LENGTHS_MM[slot]} mm long")

    def says_rest(self, seen: Seen, now: float, is_still: bool) -> None:
        """What moves is said to move, and what rests to rest."""
        self.count("state")
        last = self.bench.mill.last_pulse_at()
        if not seen.runs or not is_still:
            self._runs_at_rest_since = 0.0
        elif not self._runs_at_rest_since:
            self._runs_at_rest_since = now
        elif now - self._runs_at_rest_since > REST_S + self.slack_s(now - REST_S):
            raise Wrong("says it runs", f"{seen.word}: {seen.detail}; the motors rest for {now - last:.1f} s")
        if seen.tone not in ("idle", "hold") or last < seen.at - 0.1:
            self._rests_in_motion_since = 0.0
        elif not self._rests_in_motion_since:
            self._rests_in_motion_since = now
        elif now - self._rests_in_motion_since > 1.2 + self.slack_s(now - 2):
            raise Wrong("says it rests", f"{seen.word}: {seen.detail}; the motors move")

    # what stands on the page

    def place(self, seen: Seen, since: float, told: float) -> None:
        """The machine's place is one where it was just now, or as long ago as is said; one by the record is off by as
        much as is said beside it. What somebody told wrong is off by that."""
        shown, unit = self._shown(seen), seen.units[0]
        if shown is None or self.truth.offset is None:
            return
        wanted = _difference(shown, self.truth.offset)
        if seen.blind and seen.past and seen.risk.startswith("By the record"):
            _, _, told_ago = seen.risk.partition("; told ")
            begin = since - (_seconds(told_ago) or 0.0)
            is_so = self._was_at(wanted, unit, begin, told, float(seen.past) + self.truth.late_mm)
        elif seen.blind and seen.risk.startswith("Last known"):
            ago_s = _seconds(seen.risk)
            is_so = ago_s is None or self._was_at(wanted, unit, since - ago_s, told - ago_s + ROUNDED_S)
        elif seen.blind and seen.risk.startswith("As counted before the alarm, told"):
            ago_s = _seconds(seen.risk) or 0.0
            is_so = not self._is_known(seen) or self._was_at(wanted, unit, since - ago_s, told - ago_s + ROUNDED_S)
        else:
            is_so = not self._is_known(seen) or self._was_at(wanted, unit, since, told)
        self.count("place")
        if not is_so:
            mill = self.bench.mill
            ago = [told - pulse.at for pulse in mill.last(mill.pulses) if _is_near(wanted, pulse.at_mm, unit)][:1]
            raise Wrong("place", f"{seen.word}: shown is {shown}, told wrong by {self.truth.offset}; the machine is at"
                                 f" {mill.at_mm}, and came there so many s before that was told: {ago}, where"
                                 f" {told - since:.3f} are allowed; it says {seen.risk!r}, {seen.past!r}")

    def _is_known(self, seen: Seen) -> bool:
        """Whether the person knows where the machine is, or the page says that it does. Of a machine whose player was
        killed as it moved nobody knows it, until somebody tells."""
        return self.truth.is_place_known or seen.tone in ("idle", "run") and not seen.blind

    def _shown(self, seen: Seen) -> Point | None:
        """The place of the machine that is shown; where the work's alone is, that of it."""
        motors, work = self._points(seen)
        if motors is None and work is not None and self.truth.zero is not None and not self.truth.is_zero_asked:
            return _sum(work, self.truth.zero)
        return motors

    @staticmethod
    def _points(seen: Seen) -> tuple[Point | None, Point | None]:
        unit = seen.units[0]
        return _scaled(point(seen.motors), unit), _scaled(point(seen.work), unit)

    def _was_at(self, wanted: Point, unit: str, begin: float, end: float, off_mm: float = 0.0) -> bool:
        latest = end + CLOCKS_S + self.slack_s(end)  # a state is told of the moment before it is put together
        return any(_is_near(wanted, at, unit, off_mm) for at in self.bench.mill.places(begin, latest))

    def killed(self) -> None:
        """The player is killed now. How old its record ever got is in that, but not how late this computer was with the
        next one. That stays until somebody tells where the machine is."""
        now, mill = time.monotonic(), self.bench.mill
        self.truth.late_mm = max(self.truth.late_mm, mill.steps_between(now - self.slack_s(now), now)[0])

    def zero(self, seen: Seen) -> None:
        """What lies between machine and work stays at rest, where nobody asked for another zero."""
        motors, work = self._points(seen)
        if motors is None or work is None:
            return
        zero, truth = _difference(motors, work), self.truth
        is_same = truth.zero is None or _is_near(zero, truth.zero, "in")
        if not truth.is_zero_asked and not is_same and not seen.busy:
            raise Wrong("work zero", f"it was {truth.zero}, and is {zero}: nobody asked for that")
        truth.zero = zero

    def outputs(self, seen: Seen, now: Outputs) -> None:
        """Spindle and coolant as the pins have them, or said not to be known."""
        if "not known" not in seen.spindle and seen.spindle not in UNKNOWN:
            self.count("outputs")
            turns = next((way for sign, way in _TURNS.items() if sign in seen.spindle), 0)
            if turns != now.spindle:
                raise Wrong("spindle", f"shown is {seen.spindle!r}; the pins have {now}")
            speed = number(seen.spindle)
            percent = re.search(r"(\d+) %", seen.spindle)
            speed = speed * (float(percent[1]) if percent else 100) / 100 if speed is not None else None
            if turns and (speed is None or abs(min(speed, 12_000) - now.speed) > 1):
                raise Wrong("spindle speed", f"shown is {seen.spindle!r}; the pins have {now}")
        if "not known" not in seen.coolant and seen.coolant not in UNKNOWN:
            shown = ("mist" in seen.coolant, "flood" in seen.coolant)
            if shown != (bool(now.mist), bool(now.flood)):
                raise Wrong("coolant", f"shown is {seen.coolant!r}; the pins have {now}")

    def tool(self, seen: Seen) -> None:
        """The tool is the one that a person put in, or said not to be known."""
        tool = self.truth.tool
        if tool is None or seen.waits or "not known" in seen.tool or seen.tool in UNKNOWN:
            return
        self.count("tool")
        shown = number(seen.tool.split("\n")[0].removeprefix("T")) if seen.tool.startswith("T") else 0
        if shown != tool:
            raise Wrong("tool", f"shown is {seen.tool!r}; in the spindle is {tool}")

    def looks(self, seen: Seen, told: float) -> None:
        """Nobody can agree to go on at a look before each thing was looked at, and nothing moves as long as it is asked
        for."""
        question = seen.question
        if not question or question.get("purpose") != "look":
            return
        look, begun = (seen.session, question["id"]), self._look[1] + CLOCKS_S
        if look != self._look[0]:
            self._look = look, told
        elif (way_mm := self.bench.mill.steps_between(begun, told - CLOCKS_S - self.slack_s(begun))[0]):
            raise Wrong("moved before the look", f"{way_mm:.3f} mm, and it is asked for still: {seen.detail}")
        if not seen.yours:
            return
        self.count("look")
        can_go = any(is_enabled for _, is_enabled in seen.goes)
        if can_go and (not seen.looks or "false" in seen.looks):
            raise Wrong("look unticked", f"it can be agreed to, and ticked is {seen.looks}")

    def words(self, seen: Seen, is_still: bool) -> None:
        """No word of a run before, nor of lines while something else moves."""
        if seen.runs and seen.share == "Done":
            raise Wrong("done while it runs", f"{seen.word}: {seen.detail}")
        if self.truth.without_lines and seen.runs and not is_still and re.search(r"\bline \d", seen.detail):
            raise Wrong("says lines run", f"{seen.word}: {seen.detail}; what moves is no line of the program")
        if is_still and not seen.runs and number(seen.feed) and not seen.feed.endswith("set"):
            raise Wrong("a feed at rest", f"{seen.word}: {seen.detail}; shown is {seen.feed!r}")
        if not all(unit in _UNITS for unit in seen.units):
            raise Wrong("no unit", f"the place has no unit: {seen.place!r}")

    # how Hold is answered

    def is_named(self, seen: Seen, name: str, pushed: float) -> bool:
        """Whether the page says ALARM, and which limit it came by. It has to, soon after the limit was pushed."""
        if seen.isLost or seen.word == "ALARM" and f"limit {name}".lower() in seen.detail.lower():
            self.count("limits")
            return True
        if time.monotonic() > pushed + REST_S + self.slack_s(pushed):
            raise Wrong("limit not named", f"limit {name} is on, and the page says {seen.word}: {seen.detail}")
        return False

    def hold(self, touched: float, most_s: float = HOLD_S, is_dead: bool = False) -> None:
        """After a touch of Hold at a moment, or of what else is heeded within so long, the motors rest within v^2/2a,
        and what they go in that time; at once, without a ramp, if they are to stand dead.

        In that time the move goes on as it would, and gains what it would, as at its beginning. So v is the greatest
        rate until then; what comes faster later is too late all the same."""
        mill, now = self.bench.mill, time.monotonic
        if mill.last_pulse_at() < touched - 0.3:
            time.sleep(0.05)
            return
        while now() < touched + most_s + 0.4 + self.slack_s(touched):
            time.sleep(0.01)
        heeded_s = most_s + self.slack_s(touched)
        way_mm, last = mill.steps_between(touched, now())
        rate = max(mill.rate_mm_s(touched + ms / 1000) for ms in range(0, 10 + round(1000 * heeded_s), 10))
        ramp_s, stop_mm = (0, 0) if is_dead else (rate / ACCEL_MM_S2, rate * rate / (2 * ACCEL_MM_S2))
        self.count("hold")
        if last - touched > ramp_s + heeded_s:
            raise Wrong("hold too late", f"at {rate:.1f} mm/s they rest {1000 * (last - touched):.0f} ms after it,"
                        f" {way_mm:.3f} mm on; allowed are {1000 * (ramp_s + most_s):.0f} ms, and"
                        f" {1000 * (heeded_s - most_s):.0f} ms for the load; pauses in ms: {mill.pauses_ms(touched)}")
        if way_mm > stop_mm + rate * heeded_s + 10 * STEP_MM:
            raise Wrong("hold too far", f"{way_mm:.3f} mm at {rate:.1f} mm/s")


def _faces(axis: int) -> Iterator[float]:
    """Where bodies have faces along an axis, and their middles; of Z their tops."""
    for kind, low, high in BODIES:
        if axis == 2:
            yield float(high[-1])
        elif kind == BOX:
            yield from (float(low[axis]), (low[axis] + high[axis]) / 2, float(high[axis]))
        else:  # a ball beside its middle touches it anywhere round it
            yield from (low[axis] + mm for mm in range(-high[0], high[0] + 1))


def _clocks() -> tuple[float, float]:
    """How long it took to read both clocks, and what that of the wall is ahead of the monotonic one, in s."""
    begun, wall, ended = time.monotonic(), time.time(), time.monotonic()
    return ended - begun, wall - (begun + ended) / 2


def _seconds(text: str) -> float | None:
    """How long ago something was, as the page says it: `12.3 s ago`, `2:05 min ago`; None where it says nothing."""
    match = re.search(r"(?:(\d+):)?(?:(\d+):)?(\d+(?:\.\d+)?) (?:s|min|h) ago", text)
    if match is None:
        return None
    found = [float(one) for one in match.groups() if one is not None]
    return sum(one * 60 ** power for power, one in enumerate(reversed(found)))


def _difference(a: Point, b: Point) -> Point:
    return a[0] - b[0], a[1] - b[1], a[2] - b[2]


def _sum(a: Point, b: Point) -> Point:
    return a[0] + b[0], a[1] + b[1], a[2] + b[2]


def _scaled(at: Point | None, unit: str) -> Point | None:
    """A point that is shown in a unit, in millimetres."""
    factor = _UNITS.get(unit, 1.0)
    return at and (at[0] * factor, at[1] * factor, at[2] * factor)


def _is_near(a: Point, b: Point, unit: str, off_mm: float = 0.0) -> bool:
    return max(abs(p - q) for p, q in zip(a, b)) < off_mm + NEAR_MM.get(unit, NEAR_MM["mm"])


def changes(before: Seen, after: Seen) -> Iterator[str]:
    """What stands otherwise on the page: names of what a person sees."""
    skipped = {"now", "clock", "asks", "answered", "posts", "clicks", "logs", "log", "facts"}
    yield from (name for name in before.said if name not in skipped and before.said[name] != after.said[name])
