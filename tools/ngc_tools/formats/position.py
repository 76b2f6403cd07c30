"""Where the machine stands by the lines of OUT: whole steps, counted from a point in machine millimetres."""
from collections.abc import Sequence
from math import isqrt

from ngc_tools.failure import BadNumber
from ngc_tools.formats.out import Line, Pulse

_LONGEST = 20  # digits of whole millimetres; no length has as many


def millimetres(nm: int) -> str:
    """A length in nanometres as millimetres with six decimals, as `ngc` prints them."""
    return f"{'-' if nm < 0 else ''}{abs(nm) // 10**6}.{abs(nm) % 10**6:06d}"


def nanometres(text: str) -> int:
    """Millimetres with at most six decimals, as `7.21`, in nanometres. Raises BadNumber for anything else."""
    whole, point, decimals = text.strip().removeprefix("-").removeprefix("+").partition(".")
    digits = whole + decimals
    if not digits.isdecimal() or not digits.isascii() or len(decimals) > 6 or len(whole) > _LONGEST:
        raise BadNumber(f"not a number of millimetres with at most six decimals: {text}")
    size = int(whole or "0") * 10**6 + int(decimals.ljust(6, "0"))
    return -size if text.strip().startswith("-") else size


class Position:
    """A point in steps. `step_nm` is the settings' size of one step of X, Y, Z; `steps` counts from machine 0."""

    def __init__(self, step_nm: Sequence[int], at_nm: Sequence[int] = (0, 0, 0)) -> None:
        """`at_nm` is where the machine stands first; it is rounded to steps, half away from zero, as `ngc` does."""
        self.step_nm = tuple(step_nm)
        self.steps = [rounded(nm, step) for nm, step in zip(at_nm, self.step_nm, strict=True)]

    def take(self, line: Line) -> None:
        """Counts a line of OUT; waits and switches move nothing."""
        if isinstance(line, Pulse):
            self.steps[0] += line.x
            self.steps[1] += line.y
            self.steps[2] += line.z

    @property
    def nm(self) -> tuple[int, int, int]:
        """The point in nanometres."""
        x, y, z = (count * step for count, step in zip(self.steps, self.step_nm, strict=True))
        return x, y, z

    def __str__(self) -> str:
        """The point in millimetres, as `7.210000 0.000000 0.000000`."""
        return " ".join(map(millimetres, self.nm))

    def reference(self) -> str:
        """The command that tells `ngc run` this point."""
        return f"reference {self}"


def rounded(nm: int, step_nm: int) -> int:
    """A length in steps, rounded half away from zero."""
    steps = (2 * abs(nm) + step_nm) // (2 * step_nm)
    return -steps if nm < 0 else steps


def distance(a: tuple[int, int, int], b: tuple[int, int, int]) -> int:
    """The distance of two points in nm, rounded down."""
    (p, q, r), (s, t, u) = a, b
    return isqrt((s - p) * (s - p) + (t - q) * (t - q) + (u - r) * (u - r))
