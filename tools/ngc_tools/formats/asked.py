"""The device as it was found where OUT has none of the lines that were handed out last: kept beside it until a person
answers whether they are put back, since its log alone tells these lines, and each power on begins the log anew."""
from contextlib import suppress
from dataclasses import replace
from pathlib import Path

from ngc_tools.formats.device import Device, NoDevice, State
from ngc_tools.formats.kept_device import KeptDevice, inflated

SUFFIX = ".asked"
_MARK = b"ngc asked 1\n"


class AskedFile:
    """The file beside a device that is a file, `mill.dev.asked`."""

    def __init__(self, device: str | Path) -> None:
        self._kept = KeptDevice(device, SUFFIX, _MARK)

    def before(self, device: Device) -> Device | None:
        """The device as it was kept, where only power ons came between that and how it is found now; None where that
        isn't what stands there."""
        image = inflated(self._kept.text() or b"")
        with suppress(NoDevice):
            kept = Device(image) if image is not None else None
            return kept if kept is not None and _is_same(kept, device) else None
        return None

    def keep(self, device: Device) -> None:
        """Keeps it whole or not at all, and syncs it. Raises OSError with the path, also where something else stands
        there, NotWritten where that came just now."""
        self._kept.write(device.image)

    def remove(self) -> None:
        """Removes it, if it is what is kept there. Where it can't be removed, people are at most asked once more."""
        with suppress(OSError):
            self._kept.remove()


def _is_same(kept: Device, now: Device) -> bool:
    """Whether nothing was stored between the two."""
    return (kept.epoch <= now.epoch and kept.program == now.program and kept.tools_nm == now.tools_nm
            and kept.parameters == now.parameters and _powered_on(kept.state) == _powered_on(now.state))


def _powered_on(state: State) -> State:
    """A state as a power on leaves it: what was open isn't any more."""
    return replace(state, opened=0) if state.opened else state
