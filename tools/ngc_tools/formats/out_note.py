"""What OUT had as the device's log had so many records: one sector of text beside the device, of which docs/RECOVERY.md
speaks.

The log tells what was handed out since, to the line. So what OUT lost with the power is known, also where it led
nowhere: a circle, a drilled hole, a wait."""
import os
import re
import struct
from contextlib import suppress
from dataclasses import dataclass
from pathlib import Path

from ngc_tools.files import naming, open_without_waiting, sync_folder
from ngc_tools.formats.device import Device

SUFFIX = ".out"
_SIZE = 512  # bytes: a disk writes them whole or not at all
_HEADER = struct.Struct("<8s8xQ")  # of a device, docs/DEVICE.md: its mark and its epoch
_TEXT = re.compile(rb"out (\d{1,19}) (\d{1,19})\nlog (\d{1,13}) (\d{1,4}) (\d{1,13})\n"
                   rb"bytes (\d{1,18}) (\d{1,18}) ([01])\n(?:at (-?\d{1,18}) (-?\d{1,18}) (-?\d{1,18})\n)? +\n")


@dataclass(frozen=True, slots=True)
class OutNote:
    """OUT, known by its inode and when it was made, had `size` bytes on the disk as the device had `entries` entries
    and the log of its `epoch` so many `records`, with nothing under way. The half-done segment began behind `begins`
    bytes of it; that is `size` where none was. They lead to `at_nm`, None where that isn't known. `as_left`: nothing
    was done since the program was left for its next line."""

    inode: int
    born_ns: int
    epoch: int
    records: int
    entries: int
    size: int
    begins: int
    as_left: int = 0
    at_nm: tuple[int, int, int] | None = None

    def text(self) -> bytes:
        """What stands in the file, 512 bytes."""
        said = (f"out {self.inode} {self.born_ns}\nlog {self.epoch} {self.records} {self.entries}\n"
                f"bytes {self.size} {self.begins} {self.as_left:d}\n")
        at = "" if self.at_nm is None else "at {} {} {}\n".format(*self.at_nm)
        return (said + at).encode().ljust(_SIZE - 1) + b"\n"

    def is_of(self, device: Device) -> bool:
        """Whether a device's log goes back to it."""
        if device.epoch != self.epoch or len(device.records) < self.records:
            return False
        state = device.records[self.records - 1].state if self.records else device.snapshot
        return state.entries == self.entries

    @staticmethod
    def of_text(text: bytes) -> "OutNote | None":
        """Reads one; None for any other text."""
        match = _TEXT.fullmatch(text)
        if match is None:
            return None
        *numbers, x, y, z = match.groups()
        return OutNote(*map(int, numbers), at_nm=None if x is None else (int(x), int(y), int(z)))


class NoteFile:
    """The file beside a device that is a file, `mill.dev.out`."""

    def __init__(self, device: str | Path) -> None:
        self.device, self.path = str(device), f"{device}{SUFFIX}"

    def read(self) -> OutNote | None:
        """What stands there; None where there is none."""
        with suppress(OSError), open(self.path, "rb", opener=open_without_waiting) as file:
            return OutNote.of_text(file.read(_SIZE + 1))
        return None

    def epoch(self) -> int:
        """The epoch of the device, by the later of its two headers; 0 where there is none."""
        with suppress(OSError), open(self.device, "rb", opener=open_without_waiting) as file:
            headers = [_HEADER.unpack(file.read(_SIZE)[:_HEADER.size]) for _ in range(2)]
            return max((epoch for mark, epoch in headers if mark == b"RS274NGC"), default=0)
        return 0

    def remove(self) -> None:
        """Removes it. Raises OSError with the path."""
        with suppress(FileNotFoundError):
            os.unlink(self.path)
            sync_folder(self.path)

    def write(self, note: OutNote) -> None:
        """Writes over the last one, and syncs it. Raises OSError with the path, also where something else stands there;
        the last one stays then, and what it says is still true."""
        if not os.path.isfile(self.device):
            return  # a disk has no folder beside it for that
        with naming(self.path):
            file = os.open(self.path, os.O_RDWR | os.O_CREAT | os.O_NONBLOCK | os.O_NOFOLLOW | os.O_CLOEXEC, 0o640)
            try:
                found = os.pread(file, _SIZE + 1, 0)
                if found and OutNote.of_text(found) is None:
                    raise FileExistsError(17, "it isn't what is kept there, and isn't written over")
                if os.pwrite(file, note.text(), 0) != _SIZE:
                    raise OSError(28, os.strerror(28))
                os.fsync(file) if not found else os.fdatasync(file)
            finally:
                os.close(file)
        if not found:
            sync_folder(self.path)
