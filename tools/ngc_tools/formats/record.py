"""The record of what a player carried out: one sector of text, as docs/tools/player.md has it."""
import re
from dataclasses import dataclass

from ngc_tools.failure import BadNumber, Failure
from ngc_tools.files import opened
from ngc_tools.formats.out import OFF, Switch, read_line

SIZE = 512  # bytes: a disk writes them whole or not at all

_COUNT = r"0|[1-9][0-9]{0,17}"
_NUMBER = r"0|[1-9][0-9]{0,18}"
_SLOT = "(?:[0-9]|[1-9][0-9]|1[01][0-9]|12[0-8])"
_MILLIMETRES = re.compile(r"([+-]?)([0-9]{0,12})(?:\.([0-9]{0,6}))?")
_LINES = (
    ("out PATH", re.compile(r"out ([^\n\0]+)")),
    ("lines N", re.compile(rf"lines ({_COUNT})")),
    ("bytes N", re.compile(rf"bytes ({_COUNT})")),
    ("outputs S ..", re.compile(rf"outputs (S [012] (?:0|[1-9][0-9]{{0,6}})\.[0-9]{{6}} [01] [01] {_SLOT} {_SLOT})")),
    ("reference X Y Z", re.compile(r"reference ([^ ]+ [^ ]+ [^ ]+)")),
)
_FILE = re.compile(rf"file ({_NUMBER}) ({_NUMBER}) ([0-9a-f]{{8}})")
_NM = r"[+-]?(?:[0-9]{1,12}(?:\.[0-9]{0,6})?|\.[0-9]{1,6})"
_PATH = re.compile(rf"path ({_NM} {_NM} {_NM})")
_SCREW = "(?:[+?-]|[1-9][0-9]?|[1-8][0-9]{2}|9[0-8][0-9]|99[0-8])"
_SCREWS = re.compile(rf"screws ({_SCREW} {_SCREW} {_SCREW})")
_AGE = re.compile(r"age ([1-9][0-9]{0,3})")
_HOMED = re.compile(r"homed (?=[XYZ])(X?Y?Z?)")
_OFF = re.compile("(off)")
_STOPPED = re.compile(r"stopped ([a-z]+)")


class BadRecord(Failure, ValueError):
    """A file that is no record; the text names it and says why."""


@dataclass(frozen=True, slots=True)
class FileMark:
    """What tells OUT apart from another file of its name: its inode, when it was made (0 if the file system doesn't
    say), and `digest`, the CRC-32 of the last 4,096 bytes that were carried out."""

    inode: int
    born_ns: int
    digest: int


@dataclass(frozen=True, slots=True)
class Record:
    """The first `lines` lines of `out`, its first `size` bytes, are carried out. `outputs` are as the last switch left
    them, and the machine stands at `at_nm`. `mark` is that of a file, as a pipe has none. `stopped` is what ended the
    player before OUT's end, in a word. `age_ms` is how old a record on the
    disk ever was as the next one came, in whole milliseconds; 0 where that isn't known. `homed`
    are the axes that were homed since the player began, as `XYZ`; `is_off`: the motors left the path of OUT by a move
    without lines. `path_nm` is where the lines that are carried out lead, where the motors aren't there and it is
    known; it stands in the file where OUT's name leaves room. `screws`, as `+ - ?`, says where those of X, Y and Z are
    within their backlash; "" where no screw is known."""

    out: str
    lines: int = 0
    size: int = 0
    outputs: Switch = OFF
    at_nm: tuple[int, int, int] = (0, 0, 0)
    mark: FileMark | None = None
    stopped: str = ""
    age_ms: int = 0
    homed: str = ""
    is_off: bool = False
    screws: str = ""
    path_nm: tuple[int, int, int] | None = None

    @staticmethod
    def of_text(text: bytes, path: str) -> "Record":
        """Reads a record, the bytes of the file `path`. Raises BadRecord."""
        try:
            return _read(text)
        except ValueError as error:
            raise BadRecord(f"{path}: not a player's record: {error}; remove it, and tell by --at where the"
                            " machine stands") from None

    @staticmethod
    def read(path: str) -> "Record":
        """Reads the file `path`. Raises BadRecord, or OSError."""
        with opened(path) as file:
            return Record.of_text(file.read(SIZE + 1), str(path))


def _read(text: bytes) -> Record:
    """Raises ValueError, which says what is wrong."""
    if len(text) != SIZE:
        raise ValueError(f"it has {'more' if len(text) > SIZE else len(text)} bytes, and a record has {SIZE}")
    lines = text.decode("utf-8", "surrogateescape").split("\n")
    found = []
    for number, (form, pattern) in enumerate(_LINES):
        match = pattern.fullmatch(lines[number]) if number < len(lines) - 1 else None
        if match is None:
            raise ValueError(f"line {number + 1} isn't '{form}'")
        found.append(match[1])
    (marked, path, screws, aged, homed, off, stopped_by), rest = _optional(lines[len(_LINES):])
    mark = FileMark(int(marked[1]), int(marked[2]), int(marked[3], 16)) if marked else None
    if len(rest) != 2 or rest[0].strip(" ") or rest[1]:
        raise ValueError(f"line {len(lines) - len(rest) + 1} is no line of a record")
    path_nm = _point(path[1]) if path else None
    outputs = read_line(found[3], 4)
    assert isinstance(outputs, Switch)
    return Record(found[0], int(found[1]), int(found[2]), outputs, _point(found[4]), mark,
                  stopped_by[1] if stopped_by else "", int(aged[1]) if aged else 0, homed[1] if homed else "",
                  off is not None, screws[1] if screws else "", path_nm)


def _point(text: str) -> tuple[int, int, int]:
    """Three machine coordinates. Raises BadNumber."""
    x, y, z = map(machine_nm, text.split(" "))
    return x, y, z


def _optional(lines: list[str]) -> tuple[list[re.Match[str] | None], list[str]]:
    """The lines that a record may have after its five, None for one that isn't there, and what is left."""
    found = []
    for pattern in (_FILE, _PATH, _SCREWS, _AGE, _HOMED, _OFF, _STOPPED):
        found.append(pattern.fullmatch(lines[0]) if lines else None)
        lines = lines[1:] if found[-1] else lines
    return found, lines


def machine_nm(text: str) -> int:
    """A machine coordinate in millimetres, of at most twelve digits and six decimals, in nanometres. Raises BadNumber
    for anything else."""
    match = _MILLIMETRES.fullmatch(text)
    if match is None or not match[2] + (match[3] or ""):
        raise BadNumber(f"not a number of millimetres with at most six decimals: {text}")
    size = int(match[2] or 0) * 10**6 + int((match[3] or "").ljust(6, "0"))
    return -size if match[1] == "-" else size
