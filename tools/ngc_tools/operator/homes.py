"""G28 and G30 as lines of one's own: which axes they would move, and to where, by a dry run from the device."""
import re

from ngc_tools.formats.canonical import MOTIONS, BadText, read_commands
from ngc_tools.formats.device import Device, NoDevice
from ngc_tools.job.dangers import HOME
from ngc_tools.job.figures import millimetres
from ngc_tools.job.refused import Lines
from ngc_tools.ngc.beginning import Beginning
from ngc_tools.operator.session import Session

_COMPUTED = re.compile(rb"G[\[#]", re.IGNORECASE)  # it may be either
_UNTOLD = "it can't be told which axes this line moves\nyes does it all the same: "


def asked_of_home(session: Session, line: bytes) -> str:
    """What a person is asked before a line with G28 or G30, which move all three axes; nothing of another line, of one
    that moves nothing, and of one that `ngc` refuses."""
    code = Lines(line).code(1) if line else b""
    found = HOME.search(code)
    if not found and not _COMPUTED.search(code):
        return ""
    device = session.stored()
    if not isinstance(device, Device):
        return _UNTOLD
    try:
        said = Beginning.of(device).dry(session.console.ngc, line + b"\n", session.console.settings)[1]
        points = [command.point for command in read_commands(said) if command.name in MOTIONS]
    except (NoDevice, BadText, OSError):
        return _UNTOLD
    return _question(f"G{found[1].decode()}" if found else "this line", device.state.point_nm, points)


def _question(name: str, start: tuple[int, int, int], points: list[tuple[int, int, int]]) -> str:
    stands = [start, *points]
    ways = [after for before, after in zip(stands, points) if before != after]
    moved = [letter for axis, letter in enumerate("XYZ") if any(way[axis] != start[axis] for way in ways)]
    if not moved:
        return ""
    axes = f"{', '.join(moved[:-1])} and {moved[-1]}" if moved[1:] else moved[0]
    to = ", and then to ".join(" ".join(f"{letter} {millimetres(nm)}" for letter, nm in zip("XYZ", way, strict=True))
                               for way in ways)
    alone = " To move Z alone write G53 G0 Z with the machine coordinate." if {"Z"} < set(moved) else ""
    return f"{name} moves {axes}, through what stands there, to machine {to}.{alone}\nyes goes there: "
