"""OUT as a file: what a player is given is on the disk before, and room that nobody needs any more is given back."""
import ctypes
import errno
import fcntl
import mmap
import os
import re
import time
from contextlib import suppress
from dataclasses import dataclass
from pathlib import Path

from ngc_tools.files import naming
from ngc_tools.formats.asked import AskedFile
from ngc_tools.formats.before import Before, BeforeFile
from ngc_tools.formats.device import Device, NoDevice
from ngc_tools.formats.out import LONGEST_LINE, BadLine, end_of_lines, read_line
from ngc_tools.formats.out_note import NoteFile, OutNote
from ngc_tools.ngc.console import Status
from ngc_tools.link.progress import Link, NoAnswer, Report
from ngc_tools.link.out_file import born_ns

SYNCED_PARTS, SYNCED_AT_ONCE = 4, 1000  # of a Meter: few pieces, since each is synced
Point = tuple[int, int, int]
_CHUNK = 1 << 22  # bytes of room that are given back at once
_TAIL = 4096  # bytes before the player's place: its record knows OUT by them
_PIECE = 1 << 20  # bytes that are written again at once
UNSYNCED = """\
{out}: it can't be synced: {why}. What was handed out last may be lost, though it can be read, and no motor makes it \
before it is on the disk. Once the disk is well, quit, and start this again: it writes OUT again"""
_KEEP_SIZE, _PUNCH_HOLE = 1, 2
_OF_OUT = frozenset(b"PDS0123456789.- \n\0")  # bytes of lines, and zeros
_PART = re.compile(rb"[PDS](?: [-0-9. ]{0,198})?")  # of a line of OUT


@dataclass(frozen=True, slots=True)
class Hole:
    """Behind the first `at` bytes of OUT, its line `line`, zeros stood in the place of lines, `zeros` bytes of them.
    OUT is cut off there, with `lines` lines that stood behind."""

    at: int
    line: int
    zeros: int
    lines: int

    @property
    def most_lines(self) -> int:
        """How many pulses may have stood there, as short as they can be."""
        return self.zeros // len("P 0 0 1 9\n") + 1 + self.lines


class NotSynced(NoAnswer):
    """OUT can't be synced. What was handed out since the last sync may be lost, though it can be read."""


class SyncedLink(Link):
    """Asks a player that follows a file. Once OUT and the player belong together (`follow`), each question is preceded
    by a sync of what OUT got since the last one, and by the word how many bytes are on the disk: beyond these the
    player carries nothing out. So what the motors were given is there after a loss of power."""

    def __init__(self, path: str | Path, out: str | Path, patience_s: float = 5.0, device: str | None = None) -> None:
        """`device` is that beside which it is noted what OUT has; None for nowhere. Raises NoAnswer, or OSError if OUT
        can't be opened."""
        super().__init__(path, patience_s)
        self.out = str(out)
        self.notes = NoteFile(device) if device else None
        self.asked = AskedFile(device) if device else None
        self.before = BeforeFile(device) if device else None
        self._epoch = 0  # of the device, as it was noted last
        self.file = os.open(out, os.O_RDWR | os.O_CLOEXEC)
        self.is_following = False
        self.hole: Hole | None = None  # what was cut off as the session began
        self.failed = ""  # why OUT can't be synced: from then on nothing more of it counts as on the disk
        self.told = -1  # bytes, of which the player knows that they are on the disk
        self._passed = -1  # the bytes of OUT as the status was looked at last ..
        self._open = (-1, -1)  # .. with this segment open ..
        self._before = 0  # .. which begins behind so many bytes
        self._freed = 0

    def standing(self) -> tuple[Report, int]:
        """How far the player is, and the bytes that its record counts: once both count the same lines, as they do
        where the motors stand, or after some time. Raises NoAnswer."""
        until = time.monotonic() + self.patience_s
        report, (lines, size) = self.ask(), self.kept()
        while report.carried != lines and time.monotonic() < until:
            time.sleep(0.005)
            report, (lines, size) = self.ask(), self.kept()
        return report, size

    def await_kept(self, most: int) -> None:
        """Waits until the record on the player's disk counts so many bytes, or less. Raises NoAnswer, also where it
        doesn't come to that."""
        until = time.monotonic() + self.patience_s
        while self.kept()[1] > most:
            if time.monotonic() > until:
                raise NoAnswer(f"{self.path}: the player's record counts more of {self.out} than {most} bytes")
            time.sleep(0.005)

    def follow(self) -> None:
        """From now on the player may carry out what is synced. Raises NoAnswer."""
        self.is_following = True
        self._tell()

    def size(self) -> int:
        """The bytes of OUT."""
        return os.fstat(self.file).st_size

    def ask(self) -> Report:
        """Syncs OUT, tells it, and asks how far the player is. Raises NoAnswer; NotSynced as OUT can't be synced. After
        that it only asks."""
        if self.is_following and not self.failed:
            self._tell()
        return super().ask()

    def end(self) -> None:
        """Syncs OUT, and tells the player that the session is over. Raises NoAnswer."""
        try:
            if self.is_following and not self.failed:
                self._tell()
        finally:
            super().end()

    def anew(self) -> None:
        """Tells the player that another session follows: until `follow` nothing more is carried out. Raises NoAnswer.
        """
        self.is_following, self.told, self.failed = False, -1, ""
        super().anew()

    def close(self) -> None:
        """Asks nothing more; once more it does nothing, since the number of the file may be another file's by then."""
        super().close()
        file, self.file = self.file, -1
        if file >= 0:
            os.close(file)

    def _tell(self) -> None:
        size = self.size()
        if size == self.told:
            return
        try:
            self.sync()
        except OSError:
            raise NotSynced(self.failed) from None
        self.synced(size)
        self.told = size

    def sync(self) -> None:
        """Puts what stands in OUT on the disk. Raises OSError; once it did, it does so in this session: what a sync
        couldn't write Linux takes for written, and the next one succeeds without it."""
        if self.failed:
            raise OSError(errno.EIO, self.failed)
        try:
            os.fdatasync(self.file)
        except OSError as error:
            self.failed = UNSYNCED.format(out=self.out, why=error.strerror)
            raise

    def write_again(self, begin: int) -> None:
        """Writes what OUT has behind so many bytes again, as it is read, and syncs it: a session before may have failed
        to. Raises OSError with the path."""
        end = self.size()
        if begin >= end:
            return
        with naming(self.out):
            while begin < end and (piece := os.pread(self.file, min(_PIECE, end - begin), begin)):
                begin += os.pwrite(self.file, piece, begin)
            os.fsync(self.file)

    def noted(self) -> OutNote | None:
        """What was noted last of OUT; None where nothing was."""
        return self.notes.read() if self.notes else None

    def note(self, size: int, begins: int, as_left: bool, at_nm: Point | None = None) -> None:
        """Notes that OUT has so many bytes, which are synced before, as the device stands now, with nothing under way;
        the half-done segment begins behind `begins` bytes, which is `size` without one, and these lead to `at_nm`: to
        where the device has the machine, if that isn't told. `as_left`: nothing was done since the program was left for
        its next line. Raises OSError."""
        if self.notes is None or self.failed:
            return
        if self.told != self.size():
            self.sync()
        what = os.fstat(self.file)
        with suppress(NoDevice):
            device = Device.read(self.notes.device)
            self._epoch, state = device.epoch, device.state
            at_nm = at_nm or (state.point_nm if state.point_known else None)
            self.notes.write(OutNote(what.st_ino & (2**63 - 1), born_ns(self.file), device.epoch, len(device.records),
                                     state.entries, size, begins, as_left, at_nm))
            self.answered()

    def note_end(self, as_left: bool) -> None:
        """The same of all that OUT has, without a half-done block. Raises OSError."""
        self.note(self.size(), self.size(), as_left)

    def note_anew(self, as_left: bool) -> bool:
        """The same where the device was written anew since; returns whether it was. Raises OSError."""
        is_anew = self.notes is not None and self.notes.epoch() != self._epoch
        if is_anew:
            self.note_end(as_left)
        return is_anew

    def keep_before(self, device: Device, command: str) -> None:
        """Keeps the device as it stands, of which OUT is noted: what comes now is what a command hands out. Raises
        NotWritten, OSError."""
        if self.before is not None:
            self.before.keep(device, command)

    def kept_before(self, now: Device) -> Before | None:
        """What was kept so last of a device; None where nothing was."""
        return self.before.read(now) if self.before else None

    def forget(self) -> None:
        """What was noted isn't true of what OUT is to have. Raises OSError."""
        if self.notes is not None:
            self.notes.remove()

    def answered(self) -> None:
        """Nobody is to be asked any more about lines that OUT lost."""
        if self.asked is not None:
            self.asked.remove()

    def cut_part(self) -> int:
        """Cuts a part of a line off the end, if no session has OUT, and it is one; returns how many bytes that had.
        Raises OSError."""
        if self._is_held():
            return 0
        size = self.size()
        begin = max(0, size - 2 * LONGEST_LINE)
        *lines, part = os.pread(self.file, size - begin, begin).split(b"\n")
        if not _PART.fullmatch(part) or lines and not _is_line(lines[-1]):
            return 0
        self.cut(size - len(part))
        return len(part)

    def cut_hole(self) -> Hole | None:
        """Cuts OUT off where zeros stand in the place of lines, behind what is carried out, if no session has OUT; None
        where none do, or it has other text too. What an append lost in its midst tells nothing of where the lines
        behind it lead. Raises NoAnswer, OSError."""
        line, begin = self.kept()
        size = self.size()
        if self._is_held() or begin >= size:
            return None
        with mmap.mmap(self.file, 0, access=mmap.ACCESS_READ) as text:
            at = end_of_lines(text, begin)
            rest = text[at:]
            zeros = rest.count(0)
            if not zeros or set(rest) - _OF_OUT or 0 not in rest[:2 * LONGEST_LINE].partition(b"\n")[0]:
                return None
            line += text[begin:at].count(b"\n")
        self.cut(at)
        return Hole(at, line, zeros, rest.count(b"\n"))

    def _is_held(self) -> bool:
        """Whether a session has OUT."""
        try:
            fcntl.flock(self.file, fcntl.LOCK_EX | fcntl.LOCK_NB)
            fcntl.flock(self.file, fcntl.LOCK_UN)
        except BlockingIOError:
            return True
        return False

    def cut(self, size: int) -> None:
        """Cuts off what stands behind so many bytes, and syncs that. Raises OSError."""
        os.ftruncate(self.file, size)
        os.fsync(self.file)

    def append(self, text: bytes) -> None:
        """Puts lines at the end, and syncs them. Raises OSError with the path, as on a full disk: what is there then is
        whole but for its last line."""
        end = self.size()
        with naming(self.out):
            while text:
                done = os.pwrite(self.file, text, end)
                end, text = end + done, text[done:]
            os.fsync(self.file)

    def passed(self, status: Status) -> None:
        """Looks how far the work is, after each piece of it. Room before the open segment is given back to the disk
        once it is carried out, by the record that is on the player's disk, where the file system can. Raises
        NoAnswer."""
        now = status.entries, -1 if status.half == "none" else status.segment
        if now != self._open:
            self._open, self._before = now, max(0, self._passed)
        self._passed = self.size()
        if self._before - self._freed >= _CHUNK:
            _, carried_out = self.kept()
            self._free(min(self._before, carried_out - _TAIL) // _TAIL * _TAIL)

    def _free(self, size: int) -> None:
        if size - self._freed < _CHUNK:
            return
        how = ctypes.c_int(_KEEP_SIZE | _PUNCH_HOLE)
        try:
            ctypes.CDLL(None).fallocate(self.file, how, ctypes.c_int64(self._freed),
                                        ctypes.c_int64(size - self._freed))
        except AttributeError:
            pass  # not on Linux
        self._freed = size


def _is_line(text: bytes) -> bool:
    """Whether it is a line of OUT."""
    try:
        read_line(text, 1)
    except BadLine:
        return False
    return True
