"""A machine's file: its tables, their keys, and what each takes (docs/tools/player.md, MACHINE.md, SINK.md)."""
from collections.abc import Mapping
from dataclasses import dataclass
from pathlib import Path
from typing import Any

from ngc_tools.failure import Failure
from ngc_tools.formats.settings import read_table
from ngc_tools.shown import shown

MOST_PERCENTS = range(100, 201)
"""What `most_percent` may be."""
MOST_LINES = 8000
"""The most that `lines` may be: what a pacer has room for, less a margin."""
MOST_BACKLASH = 999
"""The most steps of backlash."""

_INPUT = range(-1, 16)
_UM = range(-10**7, 10**7 + 1)  # from machine 0
_MM_PER_MIN = range(1, 100_001)
_BAUDS = (115200, 230400, 460800, 500000, 576000, 921600, 1000000, 1152000, 1500000, 2000000, 2500000, 3000000, 3500000,
          4000000)
_MOST_INPUTS = 16
_LONGEST_PATH = 255  # bytes


class BadMachine(Failure):
    """A machine's file that can't be used; the text names the path, and the table or the key that is to blame."""


@dataclass(frozen=True, slots=True)
class _Key:
    """What a key takes: three numbers, one for each axis; one number; up to sixteen; or a path."""

    numbers: range | tuple[int, ...]
    count: int = 1
    words: str = ""  # what it takes, for people, if the numbers don't say it

    def takes(self) -> str:
        """What it takes, for people."""
        what = "a whole number" if self.count == 1 else "three whole numbers"
        return self.words or f"{what} from {self.numbers[0]} to {self.numbers[-1]}"

    def is_right(self, value: Any) -> bool:
        """Whether a value is of its kind and in its range."""
        if not self.count:
            return isinstance(value, str) and 0 < len(value.encode(errors="replace")) <= _LONGEST_PATH
        values = [value] if self.count == 1 else value
        return (isinstance(values, list) and all(type(number) is int and number in self.numbers for number in values)
                and (len(values) == self.count or self.count == _MOST_INPUTS > len(values)))


_TABLES: Mapping[str, Mapping[str, _Key]] = {
    "motion": {"accel_mm_s2": _Key(range(1, 1_000_001), 3), "rate_mm_min": _Key(range(100_001), 3),
               "start_mm_min": _Key(range(100_001), 3), "slack_steps": _Key(range(1, 65)),
               "most_percent": _Key(MOST_PERCENTS)},
    "window": {"lines": _Key(range(MOST_LINES + 1))},
    "wait": {"spindle_s": _Key(range(3601))},
    "spindle": {"max_rpm": _Key(range(1, 10_000_000))},
    "backlash": {"steps": _Key(range(MOST_BACKLASH + 1), 3)},
    "sink": {"line": _Key((), 0, 'the path of the sink\'s serial line in "quotes", of at most 255 bytes'),
             "baud": _Key(_BAUDS, words="one of the rates of a serial line, 115200 to 4000000"),
             "debounce_us": _Key(range(10_001))},
    "inputs": {"emergency_stop": _Key(_INPUT), "limits_low": _Key(_INPUT, 3), "limits_high": _Key(_INPUT, 3),
               "door": _Key(_INPUT), "spindle_at_speed": _Key(_INPUT), "probe": _Key(_INPUT),
               "on_while_low": _Key(range(16), _MOST_INPUTS, "at most sixteen whole numbers from 0 to 15"),
               "at_speed_s": _Key(range(1, 3601))},
    "home": {"order": _Key(range(4), 3), "switch": _Key(range(16), 3),
             "direction": _Key(range(-1, 2), 3, "three whole numbers, -1 or 1"), "fast_mm_min": _Key(_MM_PER_MIN, 3),
             "slow_mm_min": _Key(_MM_PER_MIN, 3), "pull_off_um": _Key(range(1, 1_000_001), 3), "at_um": _Key(_UM, 3),
             "way_mm": _Key(range(1, 100_001), 3), "agree_um": _Key(range(1_000_001))},
    "setter": {"height_um": _Key(_UM, words=f"a whole number of micrometres from {_UM[0]} to {_UM[-1]}"),
               "at_um": _Key(_UM, 3), "probe_tool": _Key(range(1, 129)), "probe_radius_um": _Key(range(50_001)),
               "fast_mm_min": _Key(_MM_PER_MIN), "slow_mm_min": _Key(_MM_PER_MIN), "retract_um": _Key(range(1, 50_001)),
               "agree_um": _Key(range(1_000_001))},
}
_KEYS = {"motion": "one of its five", "sink": "line, baud or debounce_us", "inputs": "one of its eight",
         "home": "one of its nine", "setter": "one of its eight"}
_NEEDED = {"motion": ("accel_mm_s2",), "sink": ("line",),
           "home": ("order", "switch", "direction", "fast_mm_min", "slow_mm_min", "pull_off_um", "at_um")}


def read_tables(path: str | Path) -> dict[str, dict[str, Any]]:
    """The tables of a machine's file; `[motion]` may be missing. Raises BadMachine for a table or a key that isn't
    known, is missing or takes another value, BadSettings if the file isn't TOML, or OSError."""
    tables = read_table(path)
    _look_for_unknown(path, tables)
    for name, keys in _NEEDED.items():
        for key in keys:
            if name in tables and key not in tables[name]:
                raise BadMachine(f"{path}: {name}: {key} is missing: {_TABLES[name][key].takes()}")
    for name, table in tables.items():
        for key, value in table.items():
            if not _TABLES[name][key].is_right(value):
                raise BadMachine(f"{path}: {name}: {key} takes {_TABLES[name][key].takes()}")
    return tables


def _look_for_unknown(path: str | Path, tables: Mapping[str, Any]) -> None:
    """Raises BadMachine for a table or a key that isn't known."""
    for name, table in tables.items():
        if name not in _TABLES:
            raise BadMachine(f"{path}: {shown(name)} isn't one of the nine tables of a machine's file:"
                             f" {', '.join(_TABLES)}")
        if not isinstance(table, dict):
            raise BadMachine(f"{path}: {name} isn't a table: [{name}], and its keys below it")
        for key in table:
            if key not in _TABLES[name]:
                keys = _KEYS.get(name) or next(iter(_TABLES[name]))
                raise BadMachine(f"{path}: {name} has a key that isn't {keys}: {shown(key)}")
