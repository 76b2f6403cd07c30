"""Which axis leaves the travel, and where: what X2 doesn't say of a line, or of a point that is told."""
from ngc_tools.formats.canonical import BadText
from ngc_tools.formats.device import Device, NoDevice
from ngc_tools.formats.settings import AXES, Settings
from ngc_tools.job.outside import breach, widest
from ngc_tools.job.refused import Lines
from ngc_tools.ngc.beginning import Beginning
from ngc_tools.ngc.console import Console
from ngc_tools.ngc.run import CannotRun
from ngc_tools.ngc.settings_report import number
from ngc_tools.scratch import scratch_file


def breach_of_line(console: Console, device: Device, settings: Settings, text: bytes, line: int) -> str:
    """Where line `line` of a text leaves the travel, which begins as the device stands; nothing if that can't be said.
    """
    try:
        beginning = Beginning.of(device)
        with scratch_file(widest(settings).text(), "settings", ".toml") as path:
            return breach(Lines(text), line, lambda part: beginning.dry(console.ngc, part, path)[1], settings,
                          beginning.on_device, beginning.point_nm)
    except (NoDevice, BadText, CannotRun, OSError):
        return ""


def breach_of_point(at_nm: list[int], settings: Settings) -> str:
    """Where a point lies outside the travel; nothing if it doesn't."""
    for axis, nm in enumerate(at_nm):
        low, high = settings.low_nm[axis], settings.high_nm[axis]
        if not low <= nm <= high:
            limit, key = (low, "low_nm") if nm < low else (high, "high_nm")
            return (f"{AXES[axis]} {number(nm, 6)} is outside the travel, which ends at {number(limit, 6)} ({key} of"
                    " the settings)")
    return ""
