"""What is said of a job in figures: extents, and times by tool. All from whole nanometres and microseconds."""
from collections.abc import Iterable
from dataclasses import dataclass, field

from ngc_tools.job.moves import CUT, MOTION, TRAVERSE, Move, Point, Step, Wait
from ngc_tools.formats.settings import Settings

Box = tuple[Point, Point]


def micrometres(nm: int) -> int:
    """A length in whole micrometres, rounded half away from zero."""
    size = (2 * abs(nm) + 1000) // 2000
    return -size if nm < 0 else size


def millimetres(nm: int) -> str:
    """A length as millimetres with three decimals."""
    um = micrometres(nm)
    return f"{'-' if um < 0 else ''}{abs(um) // 1000}.{abs(um) % 1000:03d}"


def duration(us: int) -> str:
    """A time as `1 h 2 min 3.004 s`, rounded to whole milliseconds, half up."""
    ms = (us + 500) // 1000
    hours, minutes = ms // 3_600_000, ms // 60_000 % 60
    text = f"{ms // 1000 % 60}.{ms % 1000:03d} s"
    if hours or minutes:
        text = f"{minutes} min {text}"
    return f"{hours} h {text}" if hours else text


def box(moves: Iterable[Move]) -> Box | None:
    """The least and the greatest coordinates of the moves' points in nm, or None if there are none."""
    points = [point for move in moves for point in move.points]
    if not points:
        return None
    each = list(zip(*points, strict=True))
    return (min(each[0]), min(each[1]), min(each[2])), (max(each[0]), max(each[1]), max(each[2]))


@dataclass(slots=True)
class Sums:
    """What one tool does: lengths in nm, times in us. `about` says that a time is by length and feed alone."""

    length: dict[str, int] = field(default_factory=lambda: {CUT: 0, TRAVERSE: 0, MOTION: 0})
    us: dict[str, int] = field(default_factory=lambda: {CUT: 0, TRAVERSE: 0, MOTION: 0})
    waits: int = 0

    def add(self, step: Step) -> None:
        """Adds a step."""
        if isinstance(step, Wait):
            self.waits += step.us
            return
        self.length[step.kind] += step.length
        self.us[step.kind] += step.us if step.us is not None else by_length(step)


def by_length(move: Move) -> int:
    """How long a cut lasts by its length and feed, in us, rounded down; 0 of a traverse, whose rate isn't known."""
    if move.inverse:
        return 60_000_000 * 1_000_000 // move.inverse
    return move.length * 60_000_000 // move.feed if move.feed else 0


def lines(steps: list[Step], settings: Settings | None, exact: bool) -> list[str]:
    """The figures of a job, a line each. `exact` says that each move has its time."""
    moves = [step for step in steps if isinstance(step, Move)]
    said = []
    for name, some in (("cutting", [move for move in moves if move.kind == CUT]), ("all moves", moves)):
        if found := box(some):
            said.append(_extents(name, found))
    if settings:
        said.append(_extents("travel", (settings.low_nm, settings.high_nm)))
    tools: dict[int, Sums] = {}
    for step in steps:
        tools.setdefault(step.tool, Sums()).add(step)
    said += [_times(f"tool {tool}" if tool else "no tool", sums, exact) for tool, sums in tools.items()]
    if len(tools) > 1:
        whole = Sums()
        for step in steps:
            whole.add(step)
        said.append(_times("together", whole, exact))
    if not exact:
        said.append("times by length and feed, without traverses; exact with --settings")
    return said


def _extents(name: str, found: Box) -> str:
    each = (f"{axis} {millimetres(low)} to {millimetres(high)}" for axis, low, high in zip("XYZ", *found, strict=True))
    return f"{name:10}" + "   ".join(each) + " mm"


def _times(name: str, sums: Sums, exact: bool) -> str:
    said = []
    for kind in (CUT, TRAVERSE, MOTION):
        if not sums.length[kind] and not sums.us[kind]:
            continue
        label = {CUT: "cutting", TRAVERSE: "traverse", MOTION: "moves"}[kind]
        time = duration(sums.us[kind]) if exact else f"about {duration(sums.us[kind])}"
        said.append(f"{label} {time}" if exact or kind != TRAVERSE else f"traverse {millimetres(sums.length[kind])} mm")
    if sums.waits:
        said.append(f"waits {duration(sums.waits)}")
    total = sums.waits + sum(sums.us.values())
    if exact and len(said) > 1:
        said.append(f"in all {duration(total)}")
    return f"{name:10}" + ("   ".join(said) or "no move")
