"""Warnings of what a valid program does that may be meant otherwise. All but a few are found in what `ngc dry` prints,
by running the program once more with comments between its lines, which say what each line printed."""
import re
from collections.abc import Iterator
from dataclasses import dataclass
from math import isqrt

from ngc_tools.formats.device import MOST_LARGE_PROGRAM, MOST_PROGRAM
from ngc_tools.formats.settings import Settings
from ngc_tools.job import cutting, heights, reliance
from ngc_tools.job.danger import Danger
from ngc_tools.job.figures import duration, millimetres
from ngc_tools.formats.in_force import InForce
from ngc_tools.job.moves import PLANES, arc_of
from ngc_tools.job.printed import Act, Printed, Run, acts_of, by_line
from ngc_tools.job.refused import Lines
from ngc_tools.ngc.beginning import Beginning
from ngc_tools.ngc.machine_report import Motion
from ngc_tools.ngc.settings_report import number

LONG_DWELL_US = 30_000_000
NEARLY_NM = 10_000  # an arc whose ends are as near as that is taken as rounded

_ROUNDED = "Is it meant? A short arc whose end was rounded goes round so too"
HOME = re.compile(rb"G0*(28|30)(?:\.0*)?(?![0-9.])", re.IGNORECASE)
"""G28 and G30 in a line without comments and blanks."""


@dataclass(frozen=True, slots=True)
class Conditions:
    """What a program is checked under: where it begins, what is in force there, the settings, None for the default
    ones, whether the device is large, whether it is known where the work zero is, what the motors allow, if that is
    known, and whether the reader of OUT asks for tools itself."""

    beginning: Beginning
    begun: InForce
    settings: Settings | None = None
    is_large: bool = False
    is_placed: bool = False
    motion: Motion | None = None
    asks_tools: bool = False

    @property
    def tools_nm(self) -> tuple[int, ...]:
        """The tool lengths of the slots, none where nothing says which they are."""
        given = self.settings.tools_nm if self.settings else ()
        return given if self.beginning.tools_nm is None else self.beginning.tools_nm


def dangers(lines: Lines, run: Run, under: Conditions) -> list[Danger]:
    """The warnings of a program in the order of its lines, those of the whole first. `run` is a dry run from where it
    begins."""
    printed = by_line(lines, run)
    acts = list(acts_of(printed, under.begun, under.beginning.point_nm))
    notes = under.beginning.notes_under(under.settings)
    found = [*(Danger(0, "device", note) for note in notes), *_too_long(lines, under.is_large),
             *_homes(lines, printed), *_dwells(printed), *_full_turns(acts),
             *heights.heights(lines, acts, under.is_placed), *heights.first_descent(lines, acts),
             *cutting.spindle(acts), *cutting.lengths(lines, acts, under.tools_nm), *_by_slots(lines, acts, under),
             *(() if under.asks_tools else cutting.tool_changes(acts)),
             *_other_lengths(lines, acts, under),
             *(cutting.capped(acts, under.settings) if under.settings else ()),
             *(cutting.too_fast_to_stop(acts, under.motion) if under.motion else ()),
             *reliance.modes(lines, printed, run, under.beginning.modes), *reliance.motion(lines, printed, run),
             *reliance.after_stops(lines, printed, run),
             *reliance.dropped_offset(lines, printed, run, under.beginning.g92_nm),
             *reliance.place(lines, acts, run, under.beginning.point_nm, under.beginning.modes[0])]
    return sorted(found, key=lambda warning: warning.line)


def _too_long(lines: Lines, is_large: bool) -> list[Danger]:
    size, most = sum(map(len, lines.all)), MOST_LARGE_PROGRAM if is_large else MOST_PROGRAM
    if size <= most:
        return []
    where = " on a large device" if is_large else f", {MOST_LARGE_PROGRAM:,} on a large device"
    return [Danger(0, "bytes", f"{size:,} bytes: ngc run takes at most {most:,} of a program{where} (J5)")]


def _other_lengths(lines: Lines, acts: list[Act], under: Conditions) -> list[Danger]:
    """Slots whose lengths the program takes, and that have others on the device than in the settings."""
    taken = [act for act in acts if act.command.name == "USE_TOOL_LENGTH_OFFSET"]
    slots = {cutting.slot_of(lines, act.line) or act.in_force.tool for act in taken}
    given = under.settings.tools_nm if under.settings else ()
    both = [(slot, under.tools_nm[slot - 1], given[slot - 1]) for slot in sorted(slots)
            if 1 <= slot <= min(len(given), len(under.tools_nm))]
    return [Danger(0, "slots", f"slot {slot} has {number(on, 6)} mm on the device, and {number(other, 6)} in the"
                   " settings: a dry run without --device is as much too high or too deep")
            for slot, on, other in both if on != other]


def _by_slots(lines: Lines, acts: list[Act], under: Conditions) -> Iterator[Danger]:
    """Which lengths count that the program doesn't set, or that weren't measured: a device alone has them."""
    if under.beginning.image is not None:
        yield from cutting.unset(lines, acts, under.tools_nm)
        yield from cutting.unmeasured(lines, acts, under.tools_nm)


def _homes(lines: Lines, printed: Printed) -> list[Danger]:
    """G28 and G30 by their text, if the line then prints a traverse."""
    found = []
    for line in range(1, len(lines.all) + 1):
        code = HOME.search(lines.code(line))
        moves = [command for command in printed.get(line, []) if command.name == "STRAIGHT_TRAVERSE"]
        if code and moves:
            x, y, z = map(millimetres, moves[-1].point)
            found.append(Danger(line, "home", f"G{code[1].decode()} moves all three axes, in one straight traverse to"
                                f" X {x} Y {y} Z {z}, through what stands there; to lift Z alone write G53 G0 Z with"
                                " the height"))
    return found


def _dwells(printed: Printed) -> list[Danger]:
    found = []
    for line, commands in printed.items():
        waits = [int(command.args[0]) for command in commands if command.name == "DWELL"]
        if waits and max(waits) > LONG_DWELL_US:
            found.append(Danger(line, "dwell", f"a dwell of {duration(max(waits))}: P is in seconds, not in"
                                " milliseconds"))
    return found


def _full_turns(acts: list[Act]) -> Iterator[Danger]:
    """Arcs that end where they start, and those that go nearly all the way round to a point close by."""
    for act in acts:
        if act.command.name == "ARC_FEED" and (text := _turn(act)):
            yield Danger(act.line, "turn", text)


def _turn(act: Act) -> str | None:
    """What to say of an arc, if anything; nothing of a helix, whose turns are meant."""
    a, b, c = PLANES[act.in_force.plane]
    arc, end = arc_of(act.command, act.in_force.plane), act.command.point
    if abs(end[c] - act.at[c]) > NEARLY_NM:
        return None
    p, q = act.at[a] - arc.centre[0], act.at[b] - arc.centre[1]
    s, t = end[a] - arc.centre[0], end[b] - arc.centre[1]
    radius = isqrt(p * p + q * q)
    if (p, q) == (s, t):
        return f"a full turn of radius {millimetres(radius)}, as the arc ends where it starts. {_ROUNDED}"
    ahead = (p * t - q * s) * (1 if arc.counter_clockwise else -1)
    if (s - p) ** 2 + (t - q) ** 2 <= NEARLY_NM**2 and ahead < 0 and radius > NEARLY_NM:
        apart = isqrt((s - p) ** 2 + (t - q) ** 2)
        return (f"nearly a full turn of radius {millimetres(radius)}, to {millimetres(apart)} beside the arc's start."
                f" {_ROUNDED}")
    return None
