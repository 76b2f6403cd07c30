"""What a picture of the stock needs beside the steps of a job: which tool is in, with which length and zero in force,
and the shapes of tools."""
from collections.abc import Iterable, Iterator

from ngc_tools.formats.canonical import MOTIONS, Command
from ngc_tools.formats.in_force import InForce
from ngc_tools.job.figures import micrometres
from ngc_tools.operator.tool_shapes import BadShapes, ToolShapes

STEPS = {*MOTIONS, "DWELL"}
"""The commands that a drawn job has a step of."""


def in_force_by_step(commands: Iterable[Command], begun: InForce) -> Iterator[dict]:
    """The slot of the tool in the spindle, its length in force and the machine point of the program's zero without
    that, in micrometres, from which step of a dry run on: of the first one, and wherever that changes. `begun` is what
    is in force before."""
    now, step = begun, 0
    told = None
    for command in commands:
        now = now.after(command)
        if command.name not in STEPS:
            continue
        if told is None or (now.tool, now.length, now.origin) != (told.tool, told.length, told.origin):
            told = now
            yield {"step": step, "slot": now.tool, "length": micrometres(now.length),
                   "origin": list(map(micrometres, now.origin))}
        step += 1


def shapes_told(shapes: ToolShapes) -> dict:
    """The shapes that there are now, by slot, or why their file can't be used."""
    try:
        found, failed = shapes.read(), ""
    except BadShapes as error:
        found, failed = {}, str(error)
    return {"path": shapes.path.name, "failed": failed,
            "shapes": {slot: {"diameter": one.diameter_nm / 10**6, "tip": one.tip, "angle": one.angle_deg}
                       for slot, one in found.items()}}
