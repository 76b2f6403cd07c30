"""Numbered records of a sector each, written and synced one at a time as `ngc` does it, and looked at after power was
lost. Record N, from 1, goes to the sector N of a file that is as long as a device, and goes round in it: each sector
has the last record that was written there."""
import os
import secrets
import struct
import zlib
from collections.abc import Iterator
from dataclasses import dataclass
from pathlib import Path

from ngc_tools.failure import Failure
from ngc_tools.files import naming, read, sync_folder
from ngc_tools.formats.device import SECTOR, SIZE

NAME = "ngc-check-disk.records"
"""The file that a run until the plug is pulled leaves in its folder."""
SECTORS = SIZE // SECTOR

_MARK = b"NGCDISK1"
_HEAD = struct.Struct("<8sQQ")  # the mark, the run, the number
_CRC = struct.Struct("<I")


class NoRecords(Failure):
    """The file isn't one of records; the text names it."""


@dataclass(frozen=True, slots=True)
class RecordsFound:
    """What stands in the file after power was lost: the greatest number, records of those that were synced which are
    missing, and sectors that hold a part of a record."""

    last: int
    lost: list[int]
    torn: list[int]


class Records:
    """A new file of records, open to be written. `number` is that of the last record, 0 before the first."""

    def __init__(self, path: str | Path) -> None:
        """Makes the file, without holes, and syncs it and its folder, as `ngc format` does. Raises OSError with its
        path, also where it is there."""
        self.path, self.number = Path(path), 0
        self._run = secrets.randbits(64)
        with naming(path):
            self._file = os.open(path, os.O_RDWR | os.O_CREAT | os.O_EXCL | os.O_CLOEXEC, 0o600)
            try:
                self._fill()
            except BaseException:
                os.close(self._file)
                self.path.unlink()
                raise

    def _fill(self) -> None:
        """All sectors hold record 0."""
        for sector in range(SECTORS):
            os.pwrite(self._file, record(self._run, 0), SECTOR * sector)
        os.fsync(self._file)
        sync_folder(self.path)

    def write(self) -> None:
        """Writes the next record and syncs it. Raises OSError with the path; then it may be there or not."""
        number = self.number + 1
        with naming(self.path):
            written = os.pwrite(self._file, record(self._run, number), SECTOR * (number % SECTORS))
            if written != SECTOR:
                raise OSError(0, f"only {written} bytes of a record could be written")
            os.fdatasync(self._file)
        self.number = number

    def close(self) -> None:
        """Closes the file, which stays."""
        os.close(self._file)


def record(run: int, number: int) -> bytes:
    """The bytes of a record: all of them differ from those of the record before it in the same sector."""
    head = _HEAD.pack(_MARK, run, number)
    body = bytes([1 + number // SECTORS % 255]) * (SECTOR - len(head) - _CRC.size)
    return head + body + _CRC.pack(zlib.crc32(head + body))


def look(path: str | Path, synced: int) -> RecordsFound:
    """What a file holds after power was lost, where the records 1 to `synced` were synced before that. Raises
    NoRecords, OSError with the path."""
    data = read(path, SIZE)
    numbers = list(_numbers(data))
    if len(data) != SIZE or not any(number is not None for number in numbers):
        raise NoRecords(f"{path}: it isn't a file of records that ngc-check-disk made")
    torn = [sector for sector, number in enumerate(numbers) if number is None]
    first = max(1, synced - SECTORS + 1)
    lost = [number for number in range(first, synced + 1) if _is_lost(numbers[number % SECTORS], number)]
    return RecordsFound(max(number for number in numbers if number is not None), lost, torn)


def _is_lost(found: int | None, number: int) -> bool:
    """Whether a sector has neither this record nor a later one. One that is torn counts as such, and not as lost."""
    return found is not None and found < number


def _numbers(data: bytes) -> Iterator[int | None]:
    """The number of the record in each sector; None where it isn't a whole one of the run, or is in another's place."""
    run = _run(data)
    for sector in range(len(data) // SECTOR):
        piece = data[SECTOR * sector:SECTOR * (sector + 1)]
        mark, its_run, number = _HEAD.unpack_from(piece)
        is_whole = mark == _MARK and its_run == run and piece == record(run, number)
        yield number if is_whole and (number == 0 or number % SECTORS == sector) else None


def _run(data: bytes) -> int:
    """The run of the first whole record; 0 where there is none."""
    for place in range(0, len(data) - SECTOR + 1, SECTOR):
        mark, run, number = _HEAD.unpack_from(data, place)
        if mark == _MARK and data[place:place + SECTOR] == record(run, number):
            return run
    return 0
