"""The shapes of tools, by their slots, in a small file beside the settings: `ngc` knows lengths alone."""
import threading
from dataclasses import dataclass
from pathlib import Path
from typing import Any

from ngc_tools.failure import Failure
from ngc_tools.files import write_new
from ngc_tools.formats.device import SLOTS
from ngc_tools.formats.settings import read_table

SUFFIX = ".shapes"
TIPS = ("flat", "ball", "v")
MOST_DIAMETER_NM = 1_000_000_000
_HEAD = "# The shapes of tools, by slot; T0 is for cuts without a tool. ngc-page writes this file anew.\n"
_TAKES = ('it takes [T1] with diameter_nm = 6000000 and tip = "flat", "ball" or "v", the last with angle_deg = 90, each'
          f' from T0 to T{SLOTS}')


class BadShapes(Failure):
    """A file of shapes that can't be used; the text says why."""


@dataclass(frozen=True, slots=True)
class Shape:
    """A tool's diameter, what its tip is like, and of a V the angle of both sides together."""

    diameter_nm: int
    tip: str
    angle_deg: float = 0

    @property
    def is_one(self) -> bool:
        """Whether there may be such a tool."""
        is_angle = type(self.angle_deg) in (int, float) and 0 < self.angle_deg < 180
        return (type(self.diameter_nm) is int and 0 < self.diameter_nm <= MOST_DIAMETER_NM and self.tip in TIPS
                and (is_angle if self.tip == "v" else self.angle_deg == 0))

    def text(self, slot: int) -> str:
        """As the file has it."""
        angle = f"angle_deg = {self.angle_deg:g}\n" if self.tip == "v" else ""
        return f'[T{slot}]\ndiameter_nm = {self.diameter_nm}\ntip = "{self.tip}"\n{angle}'


class ToolShapes:
    """The file, which is read anew each time."""

    _writing = threading.Lock()

    def __init__(self, settings: str | Path) -> None:
        self.path = Path(settings).with_suffix(SUFFIX)

    def read(self) -> dict[int, Shape]:
        """The shape of each slot; none where there is no file. Raises BadShapes."""
        if not self.path.exists():
            return {}
        try:
            found = {name: _shape_of(table) for name, table in read_table(self.path).items()}
        except (Failure, OSError) as error:
            raise BadShapes(error.said() if isinstance(error, Failure) else f"{self.path}: {error.strerror}") from None
        slots = {f"T{slot}": slot for slot in range(SLOTS + 1)}
        if not all(name in slots and shape is not None for name, shape in found.items()):
            raise BadShapes(f"{self.path}: {_TAKES}")
        return {slots[name]: shape for name, shape in sorted(found.items(), key=lambda one: slots[one[0]])}

    def keep(self, slot: int, shape: Shape | None) -> None:
        """Keeps the shape of a slot, or forgets it. A file that isn't one of shapes isn't written over. Raises
        BadShapes, NotWritten, OSError."""
        with self._writing:
            shapes = self.read()
            shapes.pop(slot, None)
            if shape is not None:
                shapes[slot] = shape
            text = _HEAD + "".join("\n" + shapes[each].text(each) for each in sorted(shapes))
            write_new(self.path, text.encode(), (), force=True)


def _shape_of(table: Any) -> Shape | None:
    """The shape of a table of the file; None where it is none."""
    try:
        shape = Shape(**table)
    except TypeError:
        return None
    return shape if shape.is_one else None
