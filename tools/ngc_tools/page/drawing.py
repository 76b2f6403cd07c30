"""A stored program as a page draws it: the steps of each line by a dry run from the device, with exact times from
`ngc run`. All of it is made in a process aside; a session keeps its bytes alone."""
import json
from collections.abc import Iterator
from dataclasses import dataclass, replace

from ngc_tools.formats.canonical import Command
from ngc_tools.formats.device import Device
from ngc_tools.formats.out import BadLine
from ngc_tools.formats.settings import Settings
from ngc_tools.job.figures import by_length, micrometres
from ngc_tools.job.moves import TRAVERSE, Move, Point, Step, of_canonical
from ngc_tools.job.printed import Printed, by_line
from ngc_tools.job.refused import Lines
from ngc_tools.ngc.beginning import Beginning
from ngc_tools.ngc.pacing import NotTimed
from ngc_tools.ngc.run import Refusal, refusal
from ngc_tools.job.timing import timed, with_ramps
from ngc_tools.page.stock import STEPS, in_force_by_step

_SWITCHES = {"SET_SPINDLE_SPEED", "SELECT_TOOL", "CHANGE_TOOL", "START_SPINDLE_CLOCKWISE", "STOP_SPINDLE_TURNING",
             "START_SPINDLE_COUNTERCLOCKWISE", "MIST_ON", "FLOOD_ON", "MIST_OFF"}
"""What hands out a switch of the outputs (docs/OUTPUT.md). M9 prints two of them and hands out one, as the program's
end does, which is looked at apart."""
SWITCH = -1
"""Stands for a segment that is a switch of the outputs."""


_FRESH = "G17 G21 G90 G94 G98"
"""The modes that a program's end leaves: those of a program of which nothing tells how it was begun."""


@dataclass(frozen=True, slots=True)
class DrawingRequest:
    """What is drawn: by which `ngc` and settings, over which image of a device, with which machine's file, nothing for
    none. `is_begun_there` says that the program begins as that device stands; else nothing says where it began. It is
    the device's program, or `other`, which isn't loaded."""

    ngc: str
    settings: str
    machine: str
    image: bytes
    is_begun_there: bool
    block_delete: bool
    other: bytes | None = None

    def begins_as(self, before: "DrawingRequest") -> bool:
        """Whether this one, of a device's program, draws the same as one before, of the same text before it was
        loaded."""
        now, then = Device(self.image), Device(before.image)
        return (now.program == before.other and self.block_delete == before.block_delete and self.is_begun_there
                and Beginning.of(now) == Beginning.of(then))


@dataclass(frozen=True, slots=True)
class DrawnJob:
    """`steps` are the moves and waits in turn, `lines` the line of each, from 1. `segments` has for each line its
    segments, each the number of its step or SWITCH. `tools` has the tools that lines change to, `in_force` what is in
    force from which step on. `is_exact` says that each step has its time; `ramps_us` is that of all with ramps, 0 where
    it isn't known. `refused` is the line at which it ends."""

    steps: list[Step]
    lines: list[int]
    segments: dict[int, list[int]]
    tools: dict[int, int]
    in_force: list[dict]
    is_known: bool
    is_exact: bool
    ramps_us: int
    refused: Refusal | None

    def text(self, traverse_nm_per_min: int) -> bytes:
        """As JSON has it: points in micrometres, one after the other, times in us. A move without a time has that of
        its length and feed, or of this rate."""
        refused = self.refused and {"line": self.refused.line, "code": self.refused.code, "name": self.refused.name}
        rest = {"segments": self.segments, "tools": self.tools, "in_force": self.in_force,
                "known_start": self.is_known, "exact": self.is_exact, "ramps_us": self.ramps_us, "refused": refused}
        steps = ",".join(_plain(self.steps, self.lines, traverse_nm_per_min))
        return f'{{"steps":[{steps}],{json.dumps(rest, separators=(",", ":"))[1:]}'.encode()


@dataclass(frozen=True, slots=True)
class Drawing:
    """A job as a session keeps it: `text` for pages, in JSON, and what was drawn. `tools` are those of the job."""

    source: DrawingRequest
    text: bytes
    tools: dict[int, int]
    is_exact: bool


def as_begun(device: Device) -> Device | None:
    """What stood as the program that a device holds was begun, by the device's log; None where that doesn't tell it.
    """
    states = [device.snapshot, *(record.state for record in device.records)]
    found = [number for number, state in enumerate(states) if not state.place and not state.half]
    return Device(device.before(found[-1])) if found else None


def setup_of(device: Device) -> tuple:
    """What decides where the program of a device goes, but for where the machine stands."""
    state = device.state
    modes = (state.unit, state.distance, state.plane, state.feed_mode, state.retract)
    return (device.program, state.system, state.origin_nm, state.g92_nm, state.tool_length_nm, modes, device.tools_nm,
            device.parameters)


def draw(source: DrawingRequest) -> Drawing:
    """The job of the stored program, with times by length and rate, which is quick. Raises CannotSetUp, NoDevice,
    BadText, CannotRun, OSError, BadSettings."""
    return _kept(source, job_of(source))


def draw_exactly(source: DrawingRequest) -> Drawing:
    """The same with the times that `ngc run` gives each step. Raises NotTimed too."""
    job = job_of(source)
    steps = timed(source.ngc, source.settings, job.steps)
    ramps_us = 0
    if source.machine:
        try:
            ramps_us = with_ramps(source.ngc, source.settings, source.machine, job.steps, lambda _: None).with_ramps_us
        except (NotTimed, BadLine):
            ramps_us = 0
    return _kept(source, replace(job, steps=steps, is_exact=True, ramps_us=ramps_us))


def job_of(source: DrawingRequest) -> DrawnJob:
    """The job; its moves have no times yet. Raises what `draw` raises."""
    device = Device(source.image)
    beginning, text = Beginning.of(device), device.program if source.other is None else source.other
    if not source.is_begun_there:
        beginning = beginning.after([_FRESH], "the modes")

    def run(part: bytes) -> bytes:
        """A dry run from there."""
        return beginning.dry(source.ngc, part, source.settings, source.block_delete)[1]

    printed = by_line(Lines(text), run)
    refused = refusal(*beginning.dry(source.ngc, text, source.settings, source.block_delete))
    is_known = source.is_begun_there and bool(device.state.point_known)
    numbered = [(number, command) for number in sorted(printed) for command in printed[number]]
    begun = beginning.in_force(source.ngc, source.settings)
    steps = list(of_canonical((command for _, command in numbered), begun, beginning.point_nm))
    lines = [number for number, command in numbered if command.name in STEPS]
    if not is_known and steps and isinstance(steps[0], Move):  # nobody knows where the machine stood before it
        steps[0] = replace(steps[0], points=(steps[0].points[-1],) * 2, arc=None)
    in_force = list(in_force_by_step((command for _, command in numbered), begun))
    return DrawnJob(steps, lines, *_segments(printed), in_force, is_known, False, 0, refused)


def _segments(printed: Printed) -> tuple[dict[int, list[int]], dict[int, int]]:
    """The segments of each line, and the tools."""
    segments: dict[int, list[int]] = {}
    tools: dict[int, int] = {}
    count = 0
    for number in sorted(printed):
        own, count = _segments_of(printed[number], count)
        if own:
            segments[number] = own
        tools |= {number: int(command.args[0]) for command in printed[number] if command.name == "CHANGE_TOOL"}
    return segments, tools


def _segments_of(commands: list[Command], count: int) -> tuple[list[int], int]:
    """The segments of a line before which so many steps stand, and how many stand before the next."""
    is_end = any(command.name == "PROGRAM_END" for command in commands)
    own: list[int] = []
    for command in commands:
        if command.name in STEPS:
            own.append(count)
            count += 1
        elif command.name in _SWITCHES and not is_end:
            own.append(SWITCH)
    return own or [SWITCH] * is_end, count


def _plain(steps: list[Step], lines: list[int], traverse: int) -> Iterator[str]:
    """The steps in JSON. It is written by hand, since a long program has 50,000 of them."""
    last, said = (0, 0, 0), "0,0,0"
    for step, line in zip(steps, lines, strict=True):
        if not isinstance(step, Move):
            yield f'{{"n":{line},"k":"w","us":{step.us}}}'
            continue
        first, *rest = step.points
        points = [said if first == last else _point(first), *map(_point, rest)]
        last, said = step.points[-1], points[-1]
        us = step.us if step.us is not None else by_length(step) or step.length * 60_000_000 // traverse
        yield f'{{"n":{line},"k":"{"t" if step.kind == TRAVERSE else "c"}","us":{us},"p":[{",".join(points)}]}}'


def _point(point: Point) -> str:
    """A point in whole micrometres."""
    x, y, z = point
    return f"{micrometres(x)},{micrometres(y)},{micrometres(z)}"


def _kept(source: DrawingRequest, job: DrawnJob) -> Drawing:
    text = job.text(Settings.read(source.settings).traverse_nm_per_min)
    return Drawing(source, text, job.tools, job.is_exact)
