"""OUT, a file, as a player's record speaks of it."""
import ctypes
import errno
import os
import stat
import zlib
from pathlib import Path

from ngc_tools.failure import Failure
from ngc_tools.files import is_device, naming
from ngc_tools.formats.record import FileMark, Record

TAIL_BYTES = 4096  # of which a digest is kept
_BEGIN = 1024  # bytes that tell a device


class OtherFile(Failure):
    """OUT isn't the file that the record speaks of; the text says what to do."""


class OutFile:
    """OUT, a file that is read."""

    def __init__(self, path: str | Path) -> None:
        """Opens it. Raises OSError, also for what isn't a file, and for a device."""
        self.path = str(path)
        self.file = os.open(path, os.O_RDONLY | os.O_NONBLOCK | os.O_CLOEXEC)
        try:
            self._look()
        except OSError:
            os.close(self.file)
            raise

    def _look(self) -> None:
        """Looks whether it may be an OUT. Raises OSError."""
        kind = os.fstat(self.file).st_mode
        if stat.S_ISDIR(kind):
            raise IsADirectoryError(errno.EISDIR, os.strerror(errno.EISDIR), self.path)
        if not stat.S_ISREG(kind):
            raise OSError(errno.EINVAL, "it is not a file", self.path)
        if is_device(self._read_at(0, _BEGIN)):
            raise OSError(errno.EINVAL, "it is a device, and no OUT", self.path)

    def close(self) -> None:
        """Reads nothing more."""
        os.close(self.file)

    def size(self) -> int:
        """How many bytes it has."""
        return os.fstat(self.file).st_size

    def mark(self, size: int) -> FileMark:
        """What tells it apart by its first `size` bytes. Raises OSError."""
        begin = max(0, size - TAIL_BYTES)
        inode = os.fstat(self.file).st_ino & (2**63 - 1)
        return FileMark(inode, born_ns(self.file), zlib.crc32(self._read_at(begin, size - begin)))

    def holds(self, size: int) -> bool:
        """Whether it has so many bytes, and a line ends there. Raises OSError."""
        return size == 0 or self._read_at(size - 1, 1) == b"\n"

    def _read_at(self, begin: int, size: int) -> bytes:
        """So many bytes, fewer at its end. Raises OSError, which names it."""
        with naming(self.path):
            return os.pread(self.file, size, begin)


def check_record(path: str, record: Record, out: OutFile) -> None:
    """Raises OtherFile if the lines that a record counts, that of the file `path`, aren't the first ones of OUT, and
    OSError if it can't be read."""
    if record.size == 0:
        return
    there = out.mark(record.size) if out.holds(record.size) else None
    if record.out != os.path.realpath(out.path):
        if there is None or not there.born_ns or there != record.mark:
            raise OtherFile(f"{path} speaks of {record.out}, not of {out.path}")
        return
    if record.size > out.size():
        raise OtherFile(f"{out.path}: it has {out.size()} bytes, and by the record {record.size} are carried out:"
                        " its end is lost, or it is another file. Emptied (: > OUT) it begins anew with --anew, and"
                        " recover leads back by legs")
    if there is None or record.mark is not None and there.digest != record.mark.digest:
        raise OtherFile(f"{out.path}: not the file whose first {record.lines} lines are carried out; --anew begins"
                        " with its first line")
    if record.mark not in (None, there):
        raise OtherFile(f"{out.path}: another file than the one whose first {record.lines} lines are carried out,"
                        f" though it begins with the same lines; --anew begins with its first line, --restored goes on"
                        f" after line {record.lines}, where it is a copy")


class _Statx(ctypes.Structure):
    """`struct statx` of Linux, as far as it is wanted."""

    _fields_ = [("mask", ctypes.c_uint32), ("_before", ctypes.c_uint8 * 76), ("born_s", ctypes.c_int64),
                ("born_ns", ctypes.c_uint32), ("_after", ctypes.c_uint8 * 164)]


def born_ns(file: int) -> int:
    """When an open file was made, in nanoseconds; 0 if the system doesn't say."""
    empty_path, btime, found = 0x1000, 0x800, _Statx()
    try:
        failed = ctypes.CDLL(None).statx(file, b"", empty_path, btime, ctypes.byref(found))
    except AttributeError:
        return 0
    return 0 if failed or not found.mask & btime else found.born_s * 10**9 + found.born_ns
