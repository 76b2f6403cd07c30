"""What a display shows beside the machine's point, in words: the work point, feed, spindle, coolant, tool."""
from collections.abc import Iterator

from ngc_tools.formats.device import State
from ngc_tools.formats.out import Switch
from ngc_tools.job.figures import millimetres as rounded
from ngc_tools.formats.in_force import SPINDLE, InForce
from ngc_tools.job.moves import Point
from ngc_tools.operator.modes import SYSTEMS, point_words, trimmed

_TURNS = ("stands", "clockwise", "counter-clockwise")


def work_words(in_force: InForce, machine_nm: Point) -> str:
    """The work point of the tool's tip."""
    at = in_force.to_program(machine_nm)
    return " ".join(f"{axis}{rounded(nm)}" for axis, nm in zip("XYZ", at, strict=True))


def short_words(in_force: InForce) -> Iterator[str]:
    """Feed, spindle, coolant, tool, as short as can be."""
    yield f"F{trimmed(in_force.feed)}"
    if in_force.spindle != SPINDLE[0]:
        yield f"S{trimmed(in_force.speed)}" + (" M4" if in_force.spindle == SPINDLE[2] else "")
    yield from (name for name, is_on in (("mist", in_force.mist), ("flood", in_force.flood)) if is_on)
    if in_force.tool:
        yield f"T{in_force.tool}"


def on_words(switch: Switch) -> str:
    """The spindle and the coolant that are on; nothing if none is."""
    return " and ".join([f"the spindle, {_turning(switch)}"] * bool(switch.spindle) + _flowing(switch))


def outputs_words(switch: Switch) -> str:
    """What the outputs are."""
    tool = f"tool {switch.slot}" if switch.slot else "no tool"
    return f"spindle {_turning(switch)}; {' and '.join(_flowing(switch)) or 'no coolant'}; {tool} in the spindle"


def _turning(switch: Switch) -> str:
    return _TURNS[switch.spindle] + (f" at {trimmed(switch.speed)}" if switch.spindle else "")


def _flowing(switch: Switch) -> list[str]:
    return [name for name, is_on in (("mist", switch.mist), ("flood", switch.flood)) if is_on]


def offsets_words(state: State) -> str:
    """What makes work coordinates of machine coordinates."""
    said = [SYSTEMS[state.system - 1] + (f" at {point_words(state.origin_nm)}" if any(state.origin_nm) else "")]
    if any(state.g92_nm):
        said.append(f"G92 by {point_words(state.g92_nm)}")
    if state.tool_length_nm:
        said.append(f"tool length {trimmed(state.tool_length_nm)}")
    return ", ".join(said)
