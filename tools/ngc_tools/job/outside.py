"""Which axis leaves the travel, and where: what X2 OutsideTravel doesn't say of a line."""
from collections.abc import Iterator
from dataclasses import replace
from math import isqrt

from ngc_tools.formats.settings import AXES, Settings
from ngc_tools.formats.in_force import InForce
from ngc_tools.job.moves import PLANES, Pair, Point, arc_of
from ngc_tools.job.printed import Act, Run, acts_of, by_line
from ngc_tools.job.refused import Lines
from ngc_tools.ngc.settings_report import number

WIDEST_NM = 10**10  # no travel may end beyond (docs/SETTINGS.md)


def widest(settings: Settings) -> Settings:
    """The same settings with the widest travel that there is."""
    return replace(settings, low_nm=(-WIDEST_NM,) * 3, high_nm=(WIDEST_NM,) * 3)


def breach(lines: Lines, line: int, run_widest: Run, settings: Settings, begun: InForce, at: Point) -> str:
    """Which axis of a line that is refused with X2 leaves the travel, where it goes and where the travel ends.
    `run_widest` is a dry run with the widest travel; `begun` and `at` are what is in force before the program, and
    where the machine stands then."""
    whole = Lines(lines.beginning(line, lines.body(line)))
    for act in acts_of(by_line(whole, run_widest), begun, at):
        if act.line == line and act.is_motion and (said := _leaves(act, settings)):
            return said
    return f"a move goes beyond {number(WIDEST_NM, 6)} mm of the machine, and no travel reaches as far"


def _leaves(act: Act, settings: Settings) -> str | None:
    """Where a motion leaves the travel farthest, if it does."""
    found = []
    for axis, nm, is_passed in _reached(act):
        low, high = settings.low_nm[axis], settings.high_nm[axis]
        beyond, limit, key = max((low - nm, low, "low_nm"), (nm - high, high, "high_nm"))
        goes = "passes" if is_passed else "goes to"
        found.append((beyond, f"{AXES[axis]} {goes} {number(nm, 6)} mm of the machine, and the travel ends at"
                      f" {number(limit, 6)} ({key} of the settings)"))
    beyond, said = max(found, key=lambda each: each[0])
    return said if beyond > 0 else None


def _reached(act: Act) -> Iterator[tuple[int, int, bool]]:
    """The coordinates in nm, with their axis, that `ngc` looks at: those of the end, then the extremes that an arc
    passes. The last says whether it is one of these."""
    yield from ((axis, nm, False) for axis, nm in enumerate(act.command.point))
    if act.command.name != "ARC_FEED":
        return
    a, b, _ = PLANES[act.in_force.plane]
    arc, end = arc_of(act.command, act.in_force.plane), act.command.point
    p = (act.at[a] - arc.centre[0], act.at[b] - arc.centre[1])
    q = (end[a] - arc.centre[0], end[b] - arc.centre[1])
    square = p[0] * p[0] + p[1] * p[1]
    radius = isqrt(square - 1) + 1 if square else 0  # rounded up
    for axis, centre, towards in ((a, arc.centre[0], (1, 0)), (b, arc.centre[1], (0, 1)),
                                  (a, arc.centre[0], (-1, 0)), (b, arc.centre[1], (0, -1))):
        if _is_passed(p, q, towards, 1 if arc.counter_clockwise else -1):
            yield axis, centre + sum(towards) * radius, True


def _is_passed(p: Pair, q: Pair, towards: Pair, turn: int) -> bool:
    """Whether an arc from p to q about 0 passes a direction; `turn` is 1 counter-clockwise, else -1. It reaches it
    after p and no later than q, and a whole turn passes all."""
    whole, part = _sweep(p, q, turn), _sweep(p, towards, turn)
    return whole == 4 or part < whole or part == whole and turn * _cross(towards, q) >= 0


def _sweep(p: Pair, q: Pair, turn: int) -> int:
    """How far it is from p to q: 1 less than half a turn, 2 half a turn, 3 more, 4 a whole turn."""
    lead = turn * _cross(p, q)
    if lead:
        return 1 if lead > 0 else 3
    return 2 if p[0] * q[0] + p[1] * q[1] < 0 else 4


def _cross(p: Pair, q: Pair) -> int:
    return p[0] * q[1] - p[1] * q[0]
