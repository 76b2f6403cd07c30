"""The offsets that pages show: all of a device, and where the machine is by each system."""
from ngc_tools.formats.device import Device
from ngc_tools.formats.position import millimetres
from ngc_tools.operator.offsets import origins, points, slots_of, stored_g92
from ngc_tools.operator.touch import Point


def offsets_of(device: Device, at: Point | None) -> dict:
    """Of each system its origin, and where the machine is by it, None where that isn't known; the G92 offset in force
    and the one stored; the slots whose length is in force. All in machine millimetres."""
    found, state = origins(device), device.state
    here = [_shown(point) for point in points(state, found, at)] if at else None
    return {"origins": list(map(_shown, found)), "here": here, "g92": _shown(state.g92_nm),
            "g92_stored": _shown(stored_g92(device)),
            "length_slots": slots_of(device, state.tool_length_nm) if state.tool_length_nm else []}


def _shown(nm: Point) -> list[str]:
    return list(map(millimetres, nm))
