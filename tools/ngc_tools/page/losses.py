"""What losses of power left uncut of the program that a device holds. It is kept in a file beside the device, since no
log and no player's record tells it any more after the next power on, until the program is loaded or begins anew."""
import hashlib
import json
from contextlib import suppress
from dataclasses import asdict, dataclass
from pathlib import Path

from ngc_tools.files import NotWritten, read_regular, write_new
from ngc_tools.formats.asked import AskedFile

SUFFIX = ".never-cut"


@dataclass(frozen=True, slots=True)
class Loss:
    """Power was lost within segment `segment`, from 0, of the line at byte `place` of the program, which was found out
    at `at`, in seconds since 1970. It left `lines` lines of OUT uncut, `length_nm` long, through `points`, which are in
    micrometres of machine coordinates."""

    place: int
    segment: int
    at: float
    lines: int
    length_nm: int
    points: list[list[int]]

    def is_within_same(self, other: "Loss") -> bool:
        """Whether the other one was within the same segment."""
        return (self.place, self.segment) == (other.place, other.segment)


class Losses:
    """The file of a device. `asked` is that which keeps the device until it is found what a loss left uncut."""

    def __init__(self, device: str) -> None:
        """`device` is the path of the device; the file needn't be there."""
        self._device, self.path = Path(device), Path(device + SUFFIX)
        self.asked = AskedFile(device)

    def of(self, program: bytes) -> list[Loss]:
        """Those of a program, the earliest first; none where the file isn't there, can't be read, or is of another
        program."""
        told = self._read()
        return told[1] if told is not None and told[0] == _name(program) else []

    def keep(self, program: bytes, losses: list[Loss]) -> None:
        """Keeps these. Raises NotWritten where another file stands there, or the device is a disk, OSError."""
        if not self._device.is_file():
            raise NotWritten(f"{self._device}: it is no file, beside which that could be kept")
        is_there = self.path.exists()
        if is_there and self._read() is None:
            raise NotWritten(f"{self.path}: it isn't what ngc-page keeps there, and isn't written over")
        text = json.dumps({"program": _name(program), "losses": list(map(asdict, losses))})
        write_new(self.path, text.encode(), (), is_there)

    def forget(self) -> None:
        """Removes the file, where it is such a one. Raises OSError."""
        if self._read() is not None:
            self.path.unlink()

    def _read(self) -> tuple[str, list[Loss]] | None:
        """The name of the program and its losses; None where that isn't what stands there."""
        with suppress(OSError, ValueError, KeyError, TypeError):
            told = json.loads(read_regular(self.path))
            return str(told["program"]), [Loss(**each) for each in told["losses"]]
        return None


def _name(program: bytes) -> str:
    """What tells a program from others."""
    return hashlib.sha256(program).hexdigest()
