"""The device as it stood before a command that hands lines out, kept beside it without its program. Where its log is
full amid that and begins anew, nothing on the device tells any more which lines were handed out before: `ngc run` makes
them again from here."""
import re
import zlib
from contextlib import suppress
from dataclasses import dataclass
from pathlib import Path

from ngc_tools.formats.device import AREAS, LOG_FIRST, SECTOR, TOOLS_END, TOOLS_FIRST, Device, NoDevice
from ngc_tools.formats.kept_device import KeptDevice, inflated

SUFFIX = ".before"
_MARK = b"ngc before 1\n"
_HEAD = re.compile(rb"(\d{1,10}) ([^\n]{1,300})\n")  # the checksum of the program, and the command
_STATES = SECTOR * AREAS[0][0]  # headers and snapshots, before the first program area
_LOG, _TOOLS, _END = SECTOR * LOG_FIRST, SECTOR * TOOLS_FIRST, SECTOR * TOOLS_END


@dataclass(frozen=True, slots=True)
class Before:
    """A device, and the command of `ngc run` that came next."""

    device: Device
    command: str


class BeforeFile:
    """The file beside a device that is a file, `mill.dev.before`."""

    def __init__(self, device: str | Path) -> None:
        self._kept = KeptDevice(device, SUFFIX, _MARK)

    def read(self, now: Device) -> Before | None:
        """The device as it was kept, with the program that it has now; None where that is another one, or something
        else stands there."""
        text = self._kept.text() or b""
        head = _HEAD.match(text)
        data = inflated(text[head.end():]) if head else None
        if data is None:
            return None
        with suppress(NoDevice):
            device = Device(data[:_STATES] + now.image[_STATES:_LOG] + data[_STATES:] + now.image[_END:])
            return Before(device, head[2].decode("latin-1")) if zlib.crc32(device.program) == int(head[1]) else None
        return None

    def keep(self, device: Device, command: str) -> None:
        """Writes over the last one, and syncs it. Raises OSError with the path, also where something else stands there,
        NotWritten where that came just now; the last one stays then."""
        image = device.image
        log = image[_LOG:min(_TOOLS, SECTOR * device.end)].ljust(_TOOLS - _LOG, b"\0")
        head = b"%d %s\n" % (zlib.crc32(device.program), command.encode("latin-1"))
        self._kept.write(image[:_STATES] + log + image[_TOOLS:_END], head)
