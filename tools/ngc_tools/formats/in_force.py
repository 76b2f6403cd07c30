"""What is in force on a device, and after commands of canonical text."""
from dataclasses import dataclass, replace

from ngc_tools.formats.canonical import MOTIONS, Command
from ngc_tools.formats.device import State

Point = tuple[int, int, int]

SPINDLE = ("STOP_SPINDLE_TURNING", "START_SPINDLE_CLOCKWISE", "START_SPINDLE_COUNTERCLOCKWISE")
"""The commands of the spindle, by what a device stores of it."""
_PLANES = {17: "XY", 18: "XZ", 19: "YZ"}
_SETS = {"SELECT_PLANE": "plane", "USE_LENGTH_UNITS": "unit", "SET_FEED_RATE": "feed", "INVERSE_TIME": "inverse",
         "SET_SPINDLE_SPEED": "speed", "SELECT_TOOL": "selected", "USE_TOOL_LENGTH_OFFSET": "length"}
"""The commands that set a value to their argument."""


@dataclass(frozen=True, slots=True)
class InForce:
    """What a device or canonical text says is in force: the plane, the unit, the feed in millionths of a millimetre a
    minute, `inverse` in millionths, 0 for none, the spindle's command, its speed in millionths, mist, flood, the tool
    that is selected and the one in the spindle, 0 for none. `length` is the tool length, `origin` the machine point of
    the program's zero without that length, both in nm."""

    plane: str = "XY"
    unit: str = "MM"
    feed: int = 0
    inverse: int = 0
    spindle: str = "STOP_SPINDLE_TURNING"
    speed: int = 0
    mist: bool = False
    flood: bool = False
    selected: int = 0
    tool: int = 0
    length: int = 0
    origin: Point = (0, 0, 0)

    def after(self, command: Command) -> "InForce":
        """What is in force after a command."""
        name = command.name
        if name in MOTIONS:
            return replace(self, inverse=0) if self.inverse else self
        if name in _SETS:
            return replace(self, **{_SETS[name]: command.args[0]})
        if name == "CHANGE_TOOL":
            return replace(self, tool=int(command.args[0]), spindle="STOP_SPINDLE_TURNING")
        if name == "SET_ORIGIN_OFFSETS":
            return replace(self, origin=command.point)
        if name in ("MIST_ON", "MIST_OFF"):
            return replace(self, mist=name == "MIST_ON")
        if name in ("FLOOD_ON", "FLOOD_OFF"):
            return replace(self, flood=name == "FLOOD_ON")
        return replace(self, spindle=name) if name in SPINDLE else self

    def to_program(self, at: Point) -> Point:
        """The program coordinates of a machine point, that of the tool's tip in Z, in nm."""
        x, y, z = (here - zero for here, zero in zip(at, self.origin, strict=True))
        return x, y, z - self.length

    def without_offsets(self) -> "InForce":
        """The same, whatever the work offset and the tool length are."""
        return replace(self, length=0, origin=(0, 0, 0))


def in_force_on(state: State) -> InForce:
    """What is in force on a device."""
    x, y, z = (origin + offset for origin, offset in zip(state.origin_nm, state.g92_nm, strict=True))
    return InForce(plane=_PLANES[state.plane], unit="MM" if state.unit == 21 else "INCHES", feed=state.feed_nm_per_min,
                   spindle=SPINDLE[state.spindle], speed=state.speed, mist=bool(state.mist), flood=bool(state.flood),
                   selected=state.selected, tool=state.slot, length=state.tool_length_nm, origin=(x, y, z))
