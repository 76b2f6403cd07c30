"""Lengths as a person types them."""
import re

from ngc_tools.formats.position import nanometres, rounded

_NUMBER = re.compile(r"([-+]?)(\d*)\.?(\d*)")
_LONGEST = 12  # digits before the point; `ngc` takes 7


def nanometres_of(text: str) -> int | None:
    """Millimetres with any number of decimals, rounded half away from zero as `ngc` does, in nanometres; None for
    another text."""
    match = _NUMBER.fullmatch(text)
    if match is None or not match[2] + match[3] or not text.isascii() or len(match[2].lstrip("0")) > _LONGEST:
        return None
    size = nanometres(f"{match[2].lstrip('0') or 0}.{match[3][:6]}") + (match[3][6:7] >= "5")
    return -size if match[1] == "-" else size


def length_of(text: str) -> int | None:
    """Millimetres, or what is typed with `mm` or `in` behind it, in nanometres; None for another text."""
    text = text.lower()
    if not text.endswith("in"):
        return nanometres_of(text.removesuffix("mm"))
    millionths = nanometres_of(text.removesuffix("in"))
    return None if millionths is None else rounded(254 * millionths, 10)
