"""What the words of a CAM system's text leave in force for the lines after them."""
from dataclasses import dataclass, field, replace
from decimal import Decimal

from ngc_tools.job.cam_line import CamLine

AXES = "XYZ"
CYCLES = (73, 76, 81, 82, 83, 84, 85, 86, 87, 88, 89)
MOTIONS = (0, 1, 2, 3, Decimal("38.2"), 80, *CYCLES)
TAKERS = (10, 28, 30, 52, 92)
"""The codes that take the axis words of their line, so that no motion does."""
_MOVED = tuple(map(Decimal, "10 28 30 52 54 55 56 57 58 59 59.1 59.2 59.3 92 92.1 92.2 92.3".split()))
"""The codes after which program coordinates are other ones, or the machine is elsewhere."""
_LENGTHS = (43, Decimal("43.1"), 49)
_PLANES = {17: ("XY", "IJ"), 18: ("XZ", "IK"), 19: ("YZ", "JK")}


@dataclass(slots=True)
class Modes:
    """What is in force: the plane, 90 or 91, the unit as 20 or 21, the motion's number; None where none was named.
    `is_sure` says that no line which may be deleted names the motion, `begun` that there was a word."""

    plane: int = 17
    distance: int = 90
    unit: int | None = None
    motion: Decimal | None = None
    is_sure: bool = True
    begun: bool = False

    def take(self, line: CamLine) -> None:
        """Takes over the modes of a line."""
        for piece in line.pieces:
            if piece.letter == "G" and piece.value is not None:
                self._take_code(piece.value, line.is_deletable)
            self.begun = self.begun or bool(piece.letter) and piece.letter != "N"

    def after(self, line: CamLine) -> "Modes":
        """What is in force after a line."""
        modes = replace(self)
        modes.take(line)
        return modes

    def _take_code(self, code: Decimal, is_deletable: bool) -> None:
        if code in (17, 18, 19):
            self.plane = int(code)
        elif code in (90, 91):
            self.distance = int(code)
        elif code in (20, 21):
            self.unit = int(code)
        elif code in MOTIONS:
            self.is_sure = not is_deletable or self.is_sure and self.motion == code
            self.motion = code

    @property
    def plane_axes(self) -> str:
        """The axes of the plane, as `XY`."""
        return _PLANES[self.plane][0]

    @property
    def plane_offsets(self) -> str:
        """The offsets of an arc's centre in the plane, as `IJ`."""
        return _PLANES[self.plane][1]


def relies_on_motion(line: CamLine, modes: Modes) -> bool:
    """Whether a line moves by the motion in force: it has an axis word, or an arc's offset, that nothing else takes.
    `modes` are those after the line."""
    letters = line.letters()
    moved = letters & set(AXES) or modes.motion in (2, 3) and letters & set(modes.plane_offsets)
    return bool(moved) and not line.find("G", *MOTIONS, *TAKERS)


@dataclass(slots=True)
class Named:
    """The program coordinate of each axis as the text named it last, where it still holds; else the axis isn't there.
    """

    coordinates: dict[str, str] = field(default_factory=dict)

    def take(self, line: CamLine, before: Modes) -> None:
        """Takes over the axis words of a line; `before` is what was in force before it."""
        after = before.after(line)
        if line.find("G", 70, 71, *_MOVED) or after.unit != before.unit:
            self.coordinates.clear()
        if line.find("G", *_LENGTHS):
            self.coordinates.pop("Z", None)
        if line.find("G", *TAKERS):
            return
        unsure = after.distance == 91 or line.is_deletable or bool(line.find("G", 53))
        for piece in line.pieces:
            if piece.letter and piece.letter in AXES:
                keeps = piece.value is not None and not unsure and not (piece.letter == "Z" and after.motion in CYCLES)
                self.coordinates.pop(piece.letter, None)
                if keeps:
                    self.coordinates[piece.letter] = piece.text[1:].strip()
