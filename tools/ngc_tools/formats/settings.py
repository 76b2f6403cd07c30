"""The settings of a machine, as docs/SETTINGS.md has them."""
import json
import re
import tomllib
from dataclasses import dataclass
from pathlib import Path
from typing import Any

from ngc_tools.failure import Failure
from ngc_tools.files import read_settings
from ngc_tools.formats.device import LENGTHS, SLOTS
from ngc_tools.shown import shown

KEYS = ("step_nm", "low_nm", "high_nm", "traverse_nm_per_min", "period_us", "tools_nm")
AXES = "XYZ"

_RANGES = {
    "step_nm": range(10, 10**6 + 1), "low_nm": range(-10**10, 1), "high_nm": range(10**10 + 1),
    "traverse_nm_per_min": range(1, 10**11 + 1), "period_us": range(1, 10**6 + 1), "tools_nm": LENGTHS,
}
_TAKES = {
    "step_nm": "three whole numbers of nanometres", "low_nm": "three whole numbers of nanometres",
    "high_nm": "three whole numbers of nanometres", "traverse_nm_per_min": "a whole number of nanometres a minute",
    "period_us": "a whole number of microseconds",
    "tools_nm": f"an array of at most {SLOTS} whole numbers of nanometres",
}
LIMITS = {key: f"{what}, {_RANGES[key][0]:,} to {_RANGES[key][-1]:,}" for key, what in _TAKES.items()}
"""What each key takes, for people."""
_THREE = ("step_nm", "low_nm", "high_nm")
_ONE = ("traverse_nm_per_min", "period_us")
_LONGEST = 4096  # bytes of a line; all tool lengths in one have some 1,700
_BARE = re.compile("[A-Za-z0-9_-]+")


class BadSettings(Failure, ValueError):
    """A settings file that can't be used; the text names the path, and the keys if some are to blame."""


@dataclass(frozen=True, slots=True)
class Settings:
    """Lengths in nm, the traverse in nm a minute, the period in microseconds."""

    step_nm: tuple[int, int, int]
    low_nm: tuple[int, int, int]
    high_nm: tuple[int, int, int]
    traverse_nm_per_min: int
    period_us: int
    tools_nm: tuple[int, ...]

    @staticmethod
    def read(path: str | Path) -> "Settings":
        """Reads the file. Raises BadSettings if it isn't one that `ngc` takes, or OSError if it can't be read."""
        table = read_table(path)
        check_table(path, table)
        return Settings(**{key: tuple(value) if isinstance(value, list) else value for key, value in table.items()})

    def fastest_nm_per_min(self, axis: int) -> int:
        """The rate of one step of this axis each `period_us`, rounded down: no move of the axis alone is faster."""
        return 60_000_000 * self.step_nm[axis] // self.period_us

    def text(self) -> str:
        """The settings as a file has them."""
        return "".join(f"{toml_line(key, getattr(self, key))}\n" for key in KEYS)


DEFAULT = Settings((1000,) * 3, (-1_000_000_000,) * 3, (1_000_000_000,) * 3, 6_000_000_000, 50, (50_000_000,))
"""The settings with which `ngc dry` runs without a file (docs/SETTINGS.md)."""


def read_table(path: str | Path) -> dict[str, Any]:
    """The keys of the file and their values. Raises BadSettings if it isn't TOML, or OSError."""
    text = read_settings(path)
    for number, line in enumerate(text.split(b"\n"), 1):
        if len(line) > _LONGEST:  # Python's reader takes hours for a key of many parts
            raise BadSettings(f"{path}: line {number} has more than {_LONGEST:,} bytes")
    try:
        return tomllib.loads(text.removeprefix(b"\xef\xbb\xbf").decode("utf-8"))
    except UnicodeDecodeError as error:
        raise BadSettings(f"{path}: not UTF-8: byte {error.start} can't stand there") from None
    except RecursionError:
        raise BadSettings(f"{path}: not TOML that ngc takes: nested too deeply") from None
    except ValueError as error:  # of a number with thousands of digits too, not of TOML alone
        raise BadSettings(f"{path}: not TOML: {error}") from None


def check_table(path: str | Path, table: dict[str, Any]) -> None:
    """Raises BadSettings, with the key and its limits, if the file's table is none that `ngc` takes: S2 to S6 of
    docs/SETTINGS.md, in that order."""
    for key in KEYS:
        if key not in table:
            raise BadSettings(f"{path}: {key} is missing (S2): {LIMITS[key]}")
    for key in table:
        if key not in KEYS:
            raise BadSettings(f"{path}: {shown(toml_key(key))} isn't one of the six keys (S3)")
    for code, is_right in (("S4", _is_of_type), ("S5", _is_within), ("S6", _is_short)):
        for key in KEYS:
            if not is_right(key, table[key]):
                raise BadSettings(f"{path}: {shown(toml_line(key, table[key]))} ({code}): it takes {LIMITS[key]}")


def _is_of_type(key: str, value: Any) -> bool:
    if key in _ONE:
        return type(value) is int
    return (isinstance(value, list) and all(type(number) is int for number in value)
            and (key not in _THREE or len(value) == len(AXES)))


def _is_within(key: str, value: Any) -> bool:
    return all(number in _RANGES[key] for number in (value if isinstance(value, list) else [value]))


def _is_short(key: str, value: Any) -> bool:
    return key != "tools_nm" or len(value) <= SLOTS


def toml_line(key: str, value: Any) -> str:
    """A key and its value as a line of TOML, without its newline."""
    return f"{toml_key(key)} = {_toml(value)}"


def toml_key(key: str) -> str:
    """A key as TOML."""
    return key if _BARE.fullmatch(key) else _toml(key)


def _toml(value: Any) -> str:
    if isinstance(value, bool):
        return "true" if value else "false"
    if isinstance(value, (list, tuple)):
        return f"[{', '.join(map(_toml, value))}]"
    if isinstance(value, dict):
        return "{" + ", ".join(toml_line(key, of) for key, of in value.items()) + "}"
    if isinstance(value, str):
        return json.dumps(value, ensure_ascii=False).replace("\x7f", "\\u007f")
    return str(value)
