"""Whether what is left of a program would be another one than what was drawn: where it goes, and how long it takes."""
import json
from collections.abc import Iterator

from ngc_tools.formats.canonical import MOTIONS, Command, read_commands
from ngc_tools.formats.device import Device
from ngc_tools.job.figures import duration, micrometres
from ngc_tools.job.figures import millimetres as rounded
from ngc_tools.job.moves import TRAVERSE, Move
from ngc_tools.ngc.beginning import Beginning
from ngc_tools.page.drawing import DrawnJob, DrawingRequest

_SLACK_US = 200_000  # by which times may differ, with a fiftieth of the whole


def differences(source: DrawingRequest, job: DrawnJob, now: Device, line: int, rest_us: int,
                drawn: bytes) -> Iterator[str]:
    """What is otherwise, from a line on, if the program goes on as a device stands now. `drawn` is the job with its
    exact times, in JSON; without them times aren't compared. Raises NoDevice, BadText, OSError."""
    yield from _path(source, job, now, line)
    told = json.loads(drawn)
    if not told["exact"]:
        return
    was_us = sum(step["us"] for step in told["steps"] if step["n"] >= line)
    if abs(rest_us - was_us) > _SLACK_US + was_us // 50:
        yield (f"From line {line} to the end it takes {duration(rest_us)}. As it was drawn, that takes"
               f" {duration(was_us)}.")


def _path(source: DrawingRequest, job: DrawnJob, now: Device, line: int) -> Iterator[str]:
    """The first motion that goes elsewhere, or in another manner."""
    text = now.program[now.state.place:]
    said = Beginning.of(now).dry(source.ngc, text, source.settings, source.block_delete)[1]
    goes = [command for command in read_commands(said) if command.name in MOTIONS]
    drawn = [(step, number) for step, number in zip(job.steps, job.lines, strict=True)
             if isinstance(step, Move) and number >= line]
    for command, (step, number) in zip(goes, drawn):
        if not _is_same(command, step):
            yield (f"Line {number} {_words(_kind(command), command.point)}. As it was drawn, it"
                   f" {_words(step.kind, step.points[-1])}.")
            return
    if len(goes) != len(drawn):
        yield f"It makes {len(goes):,} moves. As it was drawn, it makes {len(drawn):,} from line {line} on."


def _is_same(command: Command, step: Move) -> bool:
    point = tuple(map(micrometres, command.point))
    is_turn = command.name == "ARC_FEED"
    return (_kind(command) == step.kind and point == tuple(map(micrometres, step.points[-1]))
            and is_turn == (step.arc is not None))


def _kind(command: Command) -> str:
    return TRAVERSE if command.name == "STRAIGHT_TRAVERSE" else "cut"


def _words(kind: str, point: tuple[int, ...]) -> str:
    at = " ".join(f"{axis} {rounded(nm)}" for axis, nm in zip("XYZ", point, strict=True))
    return f"{'goes by a traverse' if kind == TRAVERSE else 'cuts'} to {at}"
