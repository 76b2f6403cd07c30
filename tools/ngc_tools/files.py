"""Files that a tool is given: read whole, written whole, and never in the place of what somebody needs."""
import errno
import os
import re
import stat
import sys
from collections.abc import Iterable, Iterator
from contextlib import contextmanager, suppress
from pathlib import Path
from typing import BinaryIO

from ngc_tools.failure import Failure
from ngc_tools.shown import shown

MOST = 2**30  # bytes that are read of a file, or of standard input
MOST_SETTINGS = 2**20
"""Bytes that settings, or a machine's file, may have."""

_BEGIN = 65_536  # bytes that tell what a file is
_MARK = b"RS274NGC"  # of a device's header, docs/DEVICE.md
_SECTOR = 512
_KEY = rb"(?:step_nm|low_nm|high_nm|traverse_nm_per_min|period_us|tools_nm)"
_SETTINGS = re.compile(rb"""^[ \t]*["']?""" + _KEY + rb"""["']?[ \t]*=""", re.MULTILINE)
_OUT = re.compile(rb"(?:P (?:(?:-1|0|1) ){3}[0-9]+|D [0-9]+|S [012] [0-9]+\.[0-9]{6}(?: [0-9]+){4})(?:\n|\Z)")
_OUT_PART = re.compile(rb"P (?:(?:-?[01]? ?){0,3}|(?:(?:-1|0|1) ){3}[0-9]*)")
_LINE = 200  # bytes; no line of an OUT is as long
_RECORD = re.compile(rb"out .*\nlines [0-9]")


class NotWritten(Failure):
    """A file isn't written, since something that is needed stands there; the text names it, and says what to do."""


def cause(error: Exception) -> str:
    """The path and what is wrong with it; the text of what the system didn't raise."""
    if not isinstance(error, OSError):
        return str(error)
    why = error.strerror or str(error)
    return why if error.filename is None else f"{shown(os.fsdecode(error.filename))}: {why}"


@contextmanager
def naming(path: str | Path) -> Iterator[None]:
    """Whatever fails of this file, an open one too, is raised with its path."""
    try:
        yield
    except OSError as error:
        raise OSError(error.errno, error.strerror or str(error), str(path)) from None


def read(path: str | Path, most: int | None = None) -> bytes:
    """All bytes of a file. Raises OSError with its path, also where it has more than `most`, as a rule more than a
    program could have, and where it is no file: of a pipe nothing may ever come, and of /dev/zero there is no end."""
    with naming(path), opened(path) as file:
        return _all(file, MOST if most is None else most)


def opened(path: str | Path, may_be_disk: bool = False) -> BinaryIO:
    """A file, or a disk where that may be, opened to be read. Raises OSError with its path, of a pipe at once."""
    with naming(path):
        file = open(path, "rb", opener=open_without_waiting)
        mode = os.fstat(file.fileno()).st_mode
        if stat.S_ISREG(mode) or may_be_disk and stat.S_ISBLK(mode):
            return file
        file.close()
        raise OSError(errno.EINVAL, f"no file, but {_what(mode)}")


def read_input() -> bytes:
    """The same of standard input, which may be a pipe."""
    with naming("standard input"):
        return _all(sys.stdin.buffer, MOST)


def read_settings(path: str | Path) -> bytes:
    """The same of settings, or of a machine's file."""
    return read(path, MOST_SETTINGS)


def read_regular(path: str | Path) -> bytes:
    """The same by a name that somebody typed."""
    if "\0" in str(path):
        raise OSError(errno.EINVAL, "no name of a file has a byte 0 in it", str(path))
    return read(path)


def open_without_waiting(path: str, flags: int) -> int:
    """Opens a file, as the `opener` of `open`; of a pipe it doesn't wait for a writer. Raises OSError."""
    return os.open(path, flags | os.O_NONBLOCK | os.O_NOCTTY | os.O_CLOEXEC)


def sync_folder(path: str | Path) -> None:
    """Makes the name of a file lasting, that it is there or that it is gone. Raises OSError."""
    folder = os.open(os.path.dirname(path) or ".", os.O_RDONLY | os.O_DIRECTORY | os.O_CLOEXEC)
    try:
        os.fsync(folder)
    finally:
        os.close(folder)


def _all(file: BinaryIO, most: int) -> bytes:
    data = file.read(most + 1)
    if len(data) > most:
        raise OSError(errno.EFBIG, f"it has more than {most:,} bytes")
    return data


def is_device(begin: bytes) -> bool:
    """Whether a device begins so, by one of its two headers; of a file that holds one the first 520 bytes tell it."""
    return _MARK in (begin[:8], begin[_SECTOR:_SECTOR + 8])


def kind(path: str | Path) -> str | None:
    """What of a machine's a file is, by its first bytes: `a device`, `settings`, `an OUT`, `a player's record`; None if
    it is none of them. Raises OSError."""
    with naming(path), open(path, "rb") as file:
        begin = file.read(_BEGIN)
    if is_device(begin):
        return "a device"
    if _RECORD.match(begin):
        return "a player's record"
    if _OUT.match(begin):
        return "an OUT"
    return "settings" if _SETTINGS.search(begin) else None


def is_out(text: bytes) -> bool:
    """Whether a text begins with a line of an OUT, or with a part of one."""
    begin = text[:_LINE]
    return bool(_OUT.match(begin)) or b"\n" not in begin and bool(_OUT_PART.fullmatch(begin))


def write_new(path: str | Path, data: bytes, inputs: Iterable[str | Path | None], force: bool = False) -> None:
    """Writes a file whole or not at all: beside its place, synced, and renamed. A file that is there is written over
    with `force` alone; one of `inputs`, a device, settings, an OUT, a record, and what is no file, never. To /dev/null
    and to standard output's own name it is written at once.

    Raises NotWritten, or OSError with the path."""
    if _is_open_output(path):
        with naming(path):
            sys.stdout.flush()
            sys.stdout.buffer.write(data)
            sys.stdout.flush()
    elif not _is_null(path):
        look_before_write(path, inputs, force)
        _replace(path, data)


def look_before_write(path: str | Path, inputs: Iterable[str | Path | None], force: bool = False) -> None:
    """Raises NotWritten where something stands there that `write_new` doesn't write over, or OSError."""
    if _is_null(path) or _is_open_output(path):
        return
    try:
        with naming(path):
            mode = os.stat(path).st_mode
    except FileNotFoundError:
        return
    if stat.S_ISDIR(mode):
        raise IsADirectoryError(errno.EISDIR, "Is a directory", str(path))
    if not stat.S_ISREG(mode):
        raise NotWritten(f"{path}: no file, but {_what(mode)}, which isn't written over; name a file")
    _refuse_needed(path, inputs)
    if not force:
        raise NotWritten(f"{path}: it is there already; --force writes over it")


def _refuse_needed(path: str | Path, inputs: Iterable[str | Path | None]) -> None:
    for given in inputs:
        if given is not None and os.path.exists(given) and os.path.samefile(given, path):
            raise NotWritten(f"{path}: it is what is read here, and isn't written over; name another file")
    found = kind(path)
    if found:
        raise NotWritten(f"{path}: it is {found}, which isn't written over; name another file")


def _what(mode: int) -> str:
    """What a thing in the file system is that is no file."""
    kinds = ((stat.S_ISFIFO, "a pipe"), (stat.S_ISBLK, "a disk"), (stat.S_ISSOCK, "a socket"))
    return next((name for holds, name in kinds if holds(mode)), "a terminal or a line to a machine")


def _is_null(path: str | Path) -> bool:
    return os.path.exists(path) and os.path.samefile(path, os.devnull)


def _is_open_output(path: str | Path) -> bool:
    """Whether it is standard output's own name, and that is no file: /dev/stdout of a pipe."""
    try:
        found, output = os.stat(path), os.fstat(1)
    except OSError:
        return False
    return os.path.samestat(found, output) and not stat.S_ISREG(found.st_mode)


def _place(path: str | Path) -> str:
    """Where the file itself lies or is to lie, by links too. Raises OSError if a folder on the way isn't there."""
    folder, name = os.path.split(path)
    place = os.path.join(os.path.realpath(folder or ".", strict=True), name)
    return _place(os.path.join(os.path.dirname(place), os.readlink(place))) if os.path.islink(place) else place


def _replace(path: str | Path, data: bytes) -> None:
    """Puts new contents in the place of a file, or of none. Its permissions stay; those of a new one are 0640 less what
    the umask takes."""
    with naming(path):
        place = _place(path)
        beside = f"{place}.{os.getpid()}.new"
        file = os.open(beside, os.O_WRONLY | os.O_CREAT | os.O_EXCL | os.O_CLOEXEC, 0o640)
        try:
            with os.fdopen(file, "wb") as new:
                if os.path.exists(place):
                    os.fchmod(new.fileno(), stat.S_IMODE(os.stat(place).st_mode))
                new.write(data)
                new.flush()
                os.fsync(new.fileno())
            os.replace(beside, place)
        except BaseException:
            with suppress(OSError):
                os.unlink(beside)
            raise
