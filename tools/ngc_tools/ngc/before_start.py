"""Why `ngc run` would end without a word, or stand still: looked at before it is started."""
import errno
import fcntl
import os
import stat
import termios
from pathlib import Path

from ngc_tools.failure import Failure
from ngc_tools.files import is_device, naming, opened
from ngc_tools.formats.device import SIZE
from ngc_tools.formats.out import LONGEST_LINE, BadLine, read_line


_BEGIN = 1024  # bytes that tell a device


class CannotBegin(Failure):
    """Why a session can't begin; the text names the path, says the cause and what to do."""


def look(device: str, settings: str, out: str) -> int | None:
    """Raises CannotBegin if `ngc run` with these three would end without a word, or stand still without a reader.

    Of a named pipe it returns an open writing end, to be closed once `ngc` has opened its own: else the reader might
    take its closing for the end."""
    _different({"DEVICE": device, "SETTINGS": settings, "OUT": out})
    _settings(settings)
    _device(device)
    return _out(out)


def _different(paths: dict[str, str]) -> None:
    names = list(paths)
    for one, two in ((names[0], names[1]), (names[0], names[2]), (names[1], names[2])):
        a, b = paths[one], paths[two]
        if _same(a, b):
            raise CannotBegin(f"{one} and {two} are one file: {a}" + ("" if a == b else f" and {b}"))


def _same(a: str, b: str) -> bool:
    """Whether two paths name one file, by a link too."""
    if os.path.exists(a) and os.path.exists(b):
        return os.path.samefile(a, b)
    return os.path.abspath(a) == os.path.abspath(b)


def _settings(path: str) -> None:
    try:
        with opened(path) as file:
            file.read(1)
    except FileNotFoundError:
        raise CannotBegin(f"{path}: there are no such settings; docs/SETTINGS.md says how to write them") from None
    except OSError as error:
        raise CannotBegin(f"{path}: the settings can't be read: {error.strerror}") from None


def _device(path: str) -> None:
    if os.path.isdir(path):
        raise CannotBegin(f"{path}: a folder, not a device")
    try:
        file = os.open(path, os.O_RDWR | os.O_NONBLOCK | os.O_CLOEXEC)
    except FileNotFoundError:
        raise CannotBegin(f"{path}: there is no such device; `ngc format {path}` makes one") from None
    except OSError as error:
        raise CannotBegin(f"{path}: the device can't be opened to be read and written: {error.strerror}") from None
    try:
        _free(file, path, "the device")
        with naming(path):
            size = os.lseek(file, 0, os.SEEK_END)
            marks = [os.pread(file, 8, byte) for byte in (0, 512)]
        if size < SIZE:
            is_file = stat.S_ISREG(os.fstat(file).st_mode)
            then = f"; remove it, then `ngc format {path}`" if is_file else ""
            raise CannotBegin(f"{path}: not a device: it has {size:,} bytes of {SIZE:,}{then}")
        if b"RS274NGC" not in marks:
            raise CannotBegin(f"{path}: not a device: it isn't formatted. `ngc format {path}` makes one of it, AND"
                          " OVERWRITES WHAT IT HOLDS")
    finally:
        os.close(file)


def _free(file: int, path: str, what: str) -> None:
    """Raises CannotBegin if another process holds the file by the system's lock."""
    try:
        fcntl.flock(file, fcntl.LOCK_EX | fcntl.LOCK_NB)
        fcntl.flock(file, fcntl.LOCK_UN)
    except BlockingIOError:
        raise CannotBegin(f"{path}: {what} is in use by another process{_holder(file)}; end that first") from None
    except OSError as error:
        raise CannotBegin(f"{path}: {what} can't be locked: {error.strerror}") from None


def _holder(file: int) -> str:
    """Which process holds the file, as far as Linux says it."""
    inode = str(os.fstat(file).st_ino)
    try:
        locks = Path("/proc/locks").read_text().splitlines()
    except OSError:
        return ""
    held = [words[4] for words in map(str.split, locks) if len(words) > 5 and words[5].rpartition(":")[2] == inode]
    return f" ({held[0]})" if held and held[0].isdecimal() else ""


def _out(path: str) -> int | None:
    if os.path.isdir(path):
        raise CannotBegin(f"{path}: a folder; OUT is a file, a named pipe or a serial line")
    if not os.path.lexists(path):
        folder = os.path.dirname(os.path.abspath(path))
        if not os.path.isdir(folder):
            raise CannotBegin(f"{path}: there is no folder {folder}")
        if not os.access(folder, os.W_OK | os.X_OK):
            raise CannotBegin(f"{path}: OUT can't be made in {folder}: permission denied")
        return None
    file = _open_out(path)
    kind = os.fstat(file).st_mode
    keep = False
    try:
        _free(file, path, "OUT")
        if stat.S_ISREG(kind):
            _whole_lines(path)
        elif os.isatty(file):
            _raw(file, path)
        elif not stat.S_ISFIFO(kind) and not _keeps_nothing(path):
            raise CannotBegin(f"{path}: OUT is a file, a named pipe or a serial line")
        keep = stat.S_ISFIFO(kind)
    finally:
        if not keep:
            os.close(file)
    return file if keep else None


def _keeps_nothing(path: str) -> bool:
    """Whether it is one of the two that keep nothing: one takes all, the other is always full."""
    return any(os.path.exists(none) and os.path.samefile(path, none) for none in (os.devnull, "/dev/full"))


def _open_out(path: str) -> int:
    try:
        return os.open(path, os.O_WRONLY | os.O_APPEND | os.O_NONBLOCK | os.O_NOCTTY | os.O_CLOEXEC)
    except OSError as error:
        if error.errno == errno.ENXIO and stat.S_ISFIFO(os.stat(path).st_mode):
            raise CannotBegin(f"{path}: nobody reads this pipe yet, and `ngc run` would wait for a reader: start the"
                              " player first") from None
        raise CannotBegin(f"{path}: OUT can't be opened to be written: {error.strerror}") from None


def _whole_lines(path: str) -> None:
    """Raises CannotBegin if a file is a device, its last line isn't one of OUT, or it ends in a part of a line."""
    try:
        with open(path, "rb") as file:
            begin = file.read(_BEGIN)
            size = file.seek(0, os.SEEK_END)
            file.seek(max(0, size - 2 * LONGEST_LINE))
            *lines, part = file.read(2 * LONGEST_LINE).split(b"\n")
    except OSError:
        return  # it can be written and not read
    if is_device(begin):
        raise CannotBegin(f"{path}: it is a device, and lines of OUT would be appended to it: give a new OUT")
    try:
        if lines:
            read_line(lines[-1], 1)
    except BadLine as error:
        raise CannotBegin(f"{path}: it holds something else than lines of OUT, and pulses would be appended to it: give"
                          f" a new OUT. Its last line is {error.cause}") from None
    if part:
        raise CannotBegin(f"{path}: it ends in a part of a line, and the next line would stand on the same one: give a"
                          " new OUT, or cut that part off")


def _raw(file: int, path: str) -> None:
    """Raises CannotBegin if a serial line would change what is written."""
    _, output, _, local, *_ = termios.tcgetattr(file)
    if output & termios.OPOST or local & termios.ECHO:
        raise CannotBegin(f"{path}: a serial line that isn't raw, so it changes lines or sends them back:"
                      f" `stty -F {path} raw -echo` first")
