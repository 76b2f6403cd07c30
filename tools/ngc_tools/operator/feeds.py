"""The feed of a line that was cut off: that of the line itself, else the one in force before it."""
from pathlib import Path

from ngc_tools.failure import Failure
from ngc_tools.formats.canonical import read_commands
from ngc_tools.formats.device import Device
from ngc_tools.ngc.beginning import Beginning


def cut_feed(ngc: str, settings: str | Path, device: Device) -> int:
    """In nm a minute; 0 where none is known, as where the line is fed by its time (G93)."""
    state = device.state
    feed = 0 if state.feed_mode == 93 else state.feed_nm_per_min
    if not state.half:
        return feed
    try:
        _, said = Beginning.of(device).dry(ngc, state.half_text.rstrip() + b"\n", settings)
        for command in read_commands(said):
            if command.name == "SET_FEED_RATE":
                feed = int(command.args[0])
            elif command.name == "INVERSE_TIME":
                feed = 0
    except (Failure, OSError):
        return 0
    return feed
