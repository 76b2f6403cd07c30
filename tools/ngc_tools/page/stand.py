"""How all stands: what `ngc` says, what the device holds, the player's report, what is left of OUT."""
import time
from contextlib import suppress
from dataclasses import dataclass

from ngc_tools.formats.device import Device, NoDevice
from ngc_tools.formats.position import millimetres
from ngc_tools.job.figures import duration
from ngc_tools.job.figures import millimetres as rounded
from ngc_tools.ngc.console import Status
from ngc_tools.operator.display import on_words
from ngc_tools.operator.recovery import OutFound, Recovery
from ngc_tools.operator.session import BROKEN
from ngc_tools.operator.shapes import Ball
from ngc_tools.link.progress import MoveReport, Report
from ngc_tools.link.way import count_lines

_OFTEN_S = 0.25


@dataclass(frozen=True, slots=True)
class Stand:
    """`gone` says why the player doesn't answer, nothing if it does. `recovery` is what `recover` would do, None where
    OUT is no file that is followed. `typed` says that something was done between two lines of the program, `restore`
    are the lines that put back what that left in force. `machine` is what the player says of moves without lines, None
    where it makes none; `ball` is that of the probe, None where there is no probe."""

    status: Status
    report: Report | None = None
    gone: str = ""
    recovery: dict | None = None
    typed: bool = False
    restore: tuple[str, ...] = ()
    machine: MoveReport | None = None
    ball: Ball | None = None

    @property
    def has_ramps(self) -> bool:
        """Whether the motors heed a wish to hold."""
        return self.report is not None and self.report.wants > 0

    @property
    def drops_lines(self) -> bool:
        """Whether the player, which is there, carries no more line of this session out."""
        return not self.gone and self.report is not None and self.report.word == BROKEN

    @property
    def is_broken(self) -> bool:
        """Whether this session comes to nothing any more: the device failed, or the player is gone, or carries nothing
        out any more."""
        return bool(self.gone) or self.drops_lines or self.status.does == "broken"


class Kept:
    """What a device holds, read again where something was stored since, but not too often: a reading takes some
    milliseconds."""

    def __init__(self, path: str) -> None:
        """Raises NoDevice, OSError."""
        self.path = path
        self.device = Device.read(path)
        self._read = time.monotonic()

    def at(self, status: Status, is_running: bool = False) -> Device:
        """What it holds at a status; while something runs as it was up to a quarter of a second ago."""
        is_new = status.entries != self.device.state.entries or (status.half == "none") != (not self.device.state.half)
        if is_new and (not is_running or time.monotonic() > self._read + _OFTEN_S):
            self.read()
        return self.device

    def read(self) -> Device:
        """What it holds now; what was read last where it can't be read meanwhile."""
        with suppress(OSError, NoDevice):
            self.device = Device.read(self.path)
        self._read = time.monotonic()
        return self.device


def recovery_of(found: OutFound | None) -> dict | None:
    """What `recover` would do, as a page shows it; None where OUT is no file that is followed."""
    if found is None:
        return None
    recovery, beginning = found.recovery, found.recovery.beginning
    is_left = found.is_left()
    left = count_lines(found.link.file, recovery.size, found.link.size()) if is_left else 0
    return {"left": is_left, "left_lines": left, "sent": found.is_sent, "lines": recovery.lines, "line": recovery.line,
            "there": recovery.is_there(), "missing": beginning.missing.count(b"\n") if beginning else 0,
            "problem": recovery.problem, "words": recovery.words(), "on": on_words(recovery.outputs),
            "stands": list(map(millimetres, recovery.stands_nm)), "at": list(map(millimetres, recovery.at_nm)),
            "legs": None if recovery.way else list(map(millimetres, recovery.legs_nm)), "way": _way(recovery)}


def _way(recovery: Recovery) -> dict | None:
    way = recovery.way
    if way is None:
        return None
    return {"length": rounded(way.length_nm), "time": duration(way.us), "us": way.us, "lowest": rounded(way.low_nm),
            "switches": way.switches, "back": recovery.line < recovery.lines}
