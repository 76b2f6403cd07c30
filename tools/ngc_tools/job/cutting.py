"""Dangers of how a program cuts: the spindle, the feed, the tool and its length."""
import re
from collections.abc import Iterator, Sequence
from math import isqrt

from ngc_tools.formats.settings import Settings
from ngc_tools.job.danger import Danger
from ngc_tools.job.figures import millimetres
from ngc_tools.job.heights import TO_MACHINE, shallowest
from ngc_tools.job.moves import PLANES
from ngc_tools.job.printed import Act
from ngc_tools.job.refused import Lines
from ngc_tools.ngc.machine_report import Motion
from ngc_tools.ngc.settings_report import number

_SLOT = re.compile(rb"H0*([0-9]+)(?:\.0*)?(?![0-9.])", re.IGNORECASE)
_STARTS = ("START_SPINDLE_CLOCKWISE", "START_SPINDLE_COUNTERCLOCKWISE")
_STOPS = ("STOP_SPINDLE_TURNING", "CHANGE_TOOL")


def spindle(acts: list[Act]) -> Iterator[Danger]:
    """The first cut each time that the spindle stands. What stays above the work zero and above all cuts is none."""
    floor = shallowest(acts)
    why: str | None = "no M3 or M4 comes before it"
    for act in acts:
        name = act.command.name
        if name in _STARTS:
            why = None
        elif name in _STOPS:
            why = f"line {act.line} stops it" + (", as a tool change does" if name == "CHANGE_TOOL" else "")
        elif why and floor is not None and act.is_cut and act.goes_in and act.tip_z <= max(floor, _below_zero(act)):
            yield Danger(act.line, "spindle", f"it cuts with the spindle stopped, which breaks the tool: {why}")
            why = None


def _below_zero(act: Act) -> int:
    """The highest Z of the tool's tip in machine nm that is below the work zero."""
    return act.in_force.origin[2] - 1


def capped(acts: list[Act], settings: Settings) -> Iterator[Danger]:
    """The first move at each feed that `period_us` doesn't let come about."""
    said: set[int] = set()
    for act in acts:
        now = act.in_force
        if not act.is_cut or now.inverse or now.feed in said:
            continue
        fastest = _fastest(act, settings)
        if fastest is not None and now.feed > fastest:
            said.add(now.feed)
            yield Danger(act.line, "feed", f"a feed of {number(now.feed, 6)} mm/min is more than period_us of the"
                         f" settings lets through: it cuts at {number(fastest // 10**6, 0)}. Is F right?")


def _fastest(act: Act, settings: Settings) -> int | None:
    """The greatest feed of a move in nm a minute: one pulse each period (docs/SETTINGS.md, "Time")."""
    if act.command.name == "ARC_FEED":
        a, b, _ = PLANES[act.in_force.plane]
        return 60_000_000 * max(settings.step_nm[a], settings.step_nm[b]) // settings.period_us
    spans = [abs(q - p) for p, q in zip(act.at, act.command.point, strict=True)]
    pulses = max(span // step for span, step in zip(spans, settings.step_nm, strict=True))
    length = isqrt(sum(span * span for span in spans))
    return length * 60_000_000 // (pulses * settings.period_us) if pulses else None


def too_fast_to_stop(acts: list[Act], motion: Motion) -> Iterator[Danger]:
    """The first move at each feed that wants more lines in hand than the player's window has."""
    said: set[int] = set()
    for act in acts:
        feed = act.in_force.feed
        if not act.is_cut or act.in_force.inverse or feed in said:
            continue
        rates = ((axis, motion.reached(axis, feed)) for axis in _moving(act))
        short = next(((axis, rate) for axis, rate in rates if motion.is_short(axis, rate)), None)
        if short:
            said.add(feed)
            yield Danger(act.line, "window", f"a feed of {motion.stop(*short)}. {motion.beyond}")


def _moving(act: Act) -> tuple[int, ...]:
    """The axes along which a cut goes."""
    ends = zip(act.at, act.command.point, strict=True)
    straight = {axis for axis, (begin, end) in enumerate(ends) if begin != end}
    round_about = PLANES[act.in_force.plane][:2] if act.command.name == "ARC_FEED" else ()
    return tuple(sorted(straight.union(round_about)))


def lengths(lines: Lines, acts: list[Act], tools_nm: Sequence[int]) -> Iterator[Danger]:
    """Cuts with a length that isn't that of the tool in the spindle. `tools_nm` are the lengths of the slots."""
    taken = 0  # the line of the last G43; 0 where the length was in force before the program
    judged: set[tuple[int, int]] = set()
    for act in acts:
        tool, length = act.in_force.tool, act.in_force.length
        if act.command.name == "USE_TOOL_LENGTH_OFFSET":
            taken = act.line
        if not act.is_cut or not tool or not (taken or length) or (taken, tool) in judged:
            continue
        judged.add((taken, tool))
        slot = slot_of(lines, taken) if taken else None
        if slot not in (None, 0, tool):
            yield Danger(taken, "length", f"H{slot} takes the length of slot {slot}, and tool {tool} is in the spindle"
                         f" at the cut of line {act.line}: it cuts too deep, or in the air")
        elif slot is None and length and tool <= len(tools_nm) and length != tools_nm[tool - 1]:
            yield Danger(act.line, "length", f"tool {tool} cuts with a length of {millimetres(length)} mm, and slot"
                         f" {tool} has {millimetres(tools_nm[tool - 1])}: it cuts too deep, or in the air")


def unset(lines: Lines, acts: list[Act], tools_nm: Sequence[int]) -> Iterator[Danger]:
    """The first move of Z before a G43 or G49, on a device where some length may be in force: it has one, or its slots
    have. To machine coordinates no length counts."""
    for act in acts:
        if act.command.name == "USE_TOOL_LENGTH_OFFSET":
            return
        goes = act.is_motion and act.at[2] != act.command.point[2]
        if not goes or TO_MACHINE.search(lines.code(act.line)):
            continue
        length = act.in_force.length
        if length or any(tools_nm):
            counts = f"a length of {millimetres(length)} mm is in force" if length else "no tool length is in force"
            yield Danger(act.line, "unset", f"it moves Z before it sets G43 or G49, and {counts}, as it was left"
                         " before: write G43 with the tool's H, or G49, before it")
        return


def unmeasured(lines: Lines, acts: list[Act], tools_nm: Sequence[int]) -> Iterator[Danger]:
    """The first G43 with the H of each slot that has length 0, where others have one."""
    said: set[int] = set()
    for act in acts:
        slot = slot_of(lines, act.line) if act.command.name == "USE_TOOL_LENGTH_OFFSET" else None
        if slot and slot not in said and slot <= len(tools_nm) and not tools_nm[slot - 1] and any(tools_nm):
            said.add(slot)
            yield Danger(act.line, "unmeasured", f"H{slot} takes the length of slot {slot}, which is 0, as of a tool"
                         " that wasn't measured: it goes too deep by its length, unless the others are measured by it")


def slot_of(lines: Lines, line: int) -> int | None:
    """The slot that a line names by H, None where it isn't a plain number."""
    found = _SLOT.search(lines.code(line))
    return int(found[1]) if found else None


def tool_changes(acts: list[Act]) -> Iterator[Danger]:
    """The first change from one tool to another for which the program doesn't stop."""
    change: Act | None = None
    has_moved = has_stopped = False
    for act in acts:
        name = act.command.name
        if act.is_motion:
            if change is not None and not has_stopped:
                yield Danger(change.line, "tool", f"tool {change.command.args[0]} takes the place of tool"
                             f" {change.in_force.tool}, and the program doesn't stop for it: the reader of OUT has to"
                             " wait until it is in, or the old tool goes on cutting")
                return
            change, has_moved, has_stopped = None, True, False
        elif name == "CHANGE_TOOL" and has_moved and act.in_force.tool not in (0, act.command.args[0]):
            change = act
        has_stopped = has_stopped or name in ("PROGRAM_STOP", "PALLET_SHUTTLE")
