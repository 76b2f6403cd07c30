"""G28 and G30 of one axis, which CAM systems write to lift the tool and to bring the table forward."""
from collections.abc import Callable, Mapping
from dataclasses import dataclass, field
from decimal import ROUND_DOWN, Decimal

from ngc_tools.failure import Failure
from ngc_tools.job.cam_line import CamLine
from ngc_tools.job.cam_modes import AXES, Modes

_INCH_NM = 25_400_000
_MILLIMETRE_NM = 1_000_000


@dataclass(frozen=True, slots=True)
class HomeAnswers:
    """What a text doesn't say, and people do: where G28 and G30 are to go instead, in nm of machine coordinates, and
    the slots of tools, by their numbers in the text. None where nobody said it."""

    lift_nm: int | None = None
    park_nm: tuple[int, int] | None = None
    slots: Mapping[int, int] = field(default_factory=dict)


class Missing(Failure):
    """A height, a place or a slot is needed for a line; `what` is `lift`, `park` or `tool`, and `tool` its number."""

    def __init__(self, what: str, line: CamLine, tool: int = 0) -> None:
        super().__init__(line.text.strip())
        self.what = what
        self.tool = tool


def look_for_home(line: CamLine, warn: Callable[[str], None]) -> None:
    """Warns of a G28 or G30 that stays."""
    if word := line.find("G", 28, 30):
        warn(f"{word.text} moves all three axes to the home, in one straight line; it is left as it is")


def home(line: CamLine, written: Modes, unit: int | None, answers: HomeAnswers, warn: Callable[[str], None]) -> None:
    """G28 and G30 under G91 with zeros: Z alone, or X and Y alone. `unit` is the one that the text names first. Raises
    Missing."""
    word = line.find("G", 28, 30)
    if word is None:
        return
    after = written.after(line)
    axes = [piece for piece in line.pieces if piece.letter and piece.letter in AXES]
    named = "".join(sorted(piece.letter for piece in axes))
    if after.distance != 91 or any(piece.value != 0 for piece in axes) or named not in ("Z", "X", "Y", "XY"):
        look_for_home(line, warn)
        return
    what, ends = ("lift", (answers.lift_nm,)) if named == "Z" else ("park", answers.park_nm or (None, None))
    if None in ends:
        raise Missing(what, line)
    to = dict(zip("Z" if named == "Z" else "XY", ends, strict=True))
    reason = f"{word.text} would move all three axes"
    line.put(word, "G53" if line.find("G", 0) else "G53 G0", reason)
    for axis in axes:
        line.put(axis, axis.letter + length(to[axis.letter], (after.unit or unit) == 20), reason)
    if after.unit is None and unit:
        line.begin(f"G{unit}", "the unit comes first, which the text names later")
    elif after.unit is None:
        warn("the text names no unit; the machine coordinate is written in millimetres")


def length(nm: int, inches: bool) -> str:
    """A length as a program has it, with at most six decimals; of inches what is left over is cut off, so that it lies
    no farther out than what was asked for."""
    value = Decimal(nm) / (_INCH_NM if inches else _MILLIMETRE_NM)
    text = f"{value.quantize(Decimal('0.000001'), ROUND_DOWN):f}".rstrip("0").rstrip(".")
    return "0" if text in ("-0", "") else text
