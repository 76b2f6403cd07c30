"""What a program does line by line, by a dry run from a device: what is in force, and about how long it takes."""
from collections.abc import Iterable
from dataclasses import dataclass, field

from ngc_tools.formats.device import Device
from ngc_tools.formats.settings import Settings
from ngc_tools.job import cutting
from ngc_tools.job.figures import Box, box, by_length
from ngc_tools.formats.in_force import InForce
from ngc_tools.job.moves import CUT, TRAVERSE, Move, Step, Wait, arc_of, arc_points
from ngc_tools.job.printed import Act, acts_of, by_line
from ngc_tools.job.refused import Lines
from ngc_tools.ngc.beginning import Beginning
from ngc_tools.ngc.console import Console
from ngc_tools.ngc.run import Refusal, refusal
from ngc_tools.operator.outside import breach_of_line
from ngc_tools.operator.ramp_times import RampTimes


@dataclass(frozen=True, slots=True)
class Timeline:
    """`views` has what is in force on each line that prints something, and `ends_us` when it ends, by its number from
    1. `extents` are those of all moves; `refused` is the line at which `ngc` would stop, `breach` where it leaves the
    travel, if that is why; `notes` are those of where it begins; `unset` says which tool length counts, where the
    program sets none before it moves Z. `ramps` has the times with ramps, where these are
    wanted."""

    views: dict[int, InForce]
    ends_us: dict[int, int]
    total_us: int
    extents: Box | None
    refused: Refusal | None
    breach: str
    notes: tuple[str, ...]
    unset: str
    ramps: RampTimes | None = field(default=None, compare=False)

    def view(self, number: int) -> InForce | None:
        """What is in force on a line."""
        return self.views.get(number) or self.views.get(_last(self.views, number), None)

    def times(self, number: int) -> "ProgramTimes":
        """How long the lines before a line take, and how long it and those after it: with ramps if that is known."""
        if self.ramps and (found := self.ramps.times_us(number)):
            return ProgramTimes("with ramps", *found)
        done = self.ends_us.get(_last(self.ends_us, number - 1), 0)
        return ProgramTimes("about", done, self.total_us - done)


@dataclass(frozen=True, slots=True)
class ProgramTimes:
    """How long a program takes up to a line, and from there on: `about`, or `with ramps`."""

    kind: str
    done_us: int
    left_us: int


def _last(numbers: dict[int, object] | dict[int, int], most: int) -> int:
    """The last of the numbers, which grow, that isn't above `most`; 0 if there is none."""
    return next((number for number in range(most, 0, -1) if number in numbers), 0)


def timeline(console: Console, device: Device, text: bytes, settings: Settings, block_delete: bool) -> Timeline:
    """The timeline of a program that begins as the device stands now. Raises NoDevice, BadText, CannotRun, OSError."""
    beginning = Beginning.of(device)

    def run(part: bytes) -> bytes:
        """A dry run from there."""
        return beginning.dry(console.ngc, part, console.settings, block_delete)[1]

    lines = Lines(text)
    acts = list(acts_of(by_line(lines, run), beginning.on_device, beginning.point_nm))
    refused = refusal(*beginning.dry(console.ngc, text, console.settings, block_delete))
    breach = ""
    if refused and refused.code == "X2":
        breach = breach_of_line(console, device, settings, text, refused.line)
    tools_nm = beginning.tools_nm or ()
    unset = "".join(f"line {danger.line}: {danger.text}" for danger in cutting.unset(lines, acts, tools_nm))
    return _folded(acts, settings, (refused, breach, beginning.notes_under(settings), unset))


def _folded(acts: Iterable[Act], settings: Settings,
            said: tuple[Refusal | None, str, tuple[str, ...], str]) -> Timeline:
    """Goes through what the lines do."""
    views: dict[int, InForce] = {}
    ends: dict[int, int] = {}
    total, moves = 0, []
    for act in acts:
        views[act.line] = act.in_force.after(act.command)
        step = _step(act)
        total += _lasts_us(step, settings)
        ends[act.line] = total
        moves += [step] if isinstance(step, Move) else []
    return Timeline(views, ends, total, box(moves), *said)


def _step(act: Act) -> Step | None:
    """The move or the wait of a command, if it is one."""
    command, in_force = act.command, act.in_force
    match command.name:
        case "DWELL":
            return Wait(int(command.args[0]))
        case "STRAIGHT_TRAVERSE":
            return Move(TRAVERSE, (act.at, command.point))
        case "STRAIGHT_FEED":
            return Move(CUT, (act.at, command.point), feed=in_force.feed, inverse=in_force.inverse)
        case "ARC_FEED":
            points = arc_points(act.at, command.point, arc_of(command, in_force.plane))
            return Move(CUT, points, feed=in_force.feed, inverse=in_force.inverse)
    return None


def _lasts_us(step: Step | None, settings: Settings) -> int:
    """About how long a step lasts: by length and rate."""
    if not isinstance(step, Move):
        return step.us if step else 0
    return by_length(step) or step.length * 60_000_000 // settings.traverse_nm_per_min
