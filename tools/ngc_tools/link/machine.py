"""How a machine moves: what its motors allow, how many lines a player wants in hand, how long its spindle takes, how
much its screws have of backlash."""
from collections.abc import Mapping
from dataclasses import dataclass
from pathlib import Path
from typing import Any

from ngc_tools.formats.machine import BadMachine, read_tables

Axes = tuple[int, int, int]
CORNER_PULSES = 96
"""The most that a corner takes on each side, as tools/player paces (MOTION.md)."""
_LEAST_ACCEL, _GREATEST_ACCEL = 3, 10**9  # steps a second, each second


@dataclass(frozen=True, slots=True)
class Limits:
    """What motors allow, by axes, in steps and seconds: accelerations of 3 to 1,000,000,000, rates of which 0 is any,
    and rates at which a motor can start and stop at once. An override is at most `most_percent` of OUT's rates, 100 to
    200."""

    accel: Axes
    rate: Axes = (0, 0, 0)
    start: Axes = (0, 0, 0)
    most_percent: int = 100


@dataclass(frozen=True, slots=True)
class Machine:
    """What the motors allow; how many lines a player wants in hand, 0 for as many as are needed; how long the spindle
    takes to start, to stop or to turn the other way; how fast it may turn, 0 where the file doesn't say it; the
    backlash of each axis in steps."""

    limits: Limits
    window_lines: int = 0
    spindle_s: int = 0
    max_rpm: int = 0
    backlash: Axes = (0, 0, 0)


def read_machine(path: str | Path, step_nm: Axes) -> Machine:
    """What the tables `[motion]`, `[window]`, `[wait]`, `[spindle]` and `[backlash]` say. Raises BadMachine,
    BadSettings if the file isn't TOML, or OSError."""
    tables = read_tables(path)
    if "motion" not in tables:
        raise BadMachine(f"{path}: the table [motion] is missing: it says what the motors allow")
    motion = tables["motion"]
    lines = tables.get("window", {}).get("lines", 0)
    spindle_s = tables.get("wait", {}).get("spindle_s", 0)
    max_rpm = tables.get("spindle", {}).get("max_rpm", 0)
    x, y, z = tables.get("backlash", {}).get("steps", (0, 0, 0))
    return Machine(_limits(path, motion, step_nm), lines, spindle_s, max_rpm, (x, y, z))


def read_limits(path: str | Path, step_nm: Axes) -> Limits:
    """What the motors allow. Raises as `read_machine`."""
    return read_machine(path, step_nm).limits


def _limits(path: str | Path, motion: Mapping[str, Any], step_nm: Axes) -> Limits:
    """What the motors allow, in steps, rounded down, so that nothing is exceeded. Raises BadMachine."""
    accel = _steps(motion["accel_mm_s2"], step_nm, 1)
    rates_mm = motion.get("rate_mm_min", [0, 0, 0])
    rate = _steps(rates_mm, step_nm, 60)
    if min(accel) < _LEAST_ACCEL:
        raise BadMachine(f"{path}: motion: accel_mm_s2 is less than 3 steps a second, each second")
    if max(accel) > _GREATEST_ACCEL:
        raise BadMachine(f"{path}: motion: accel_mm_s2 is more than 1000000000 steps a second, each second")
    if any(mm and not steps for mm, steps in zip(rates_mm, rate)):
        raise BadMachine(f"{path}: motion: rate_mm_min is less than a step a second")
    start = _steps(motion.get("start_mm_min", [0, 0, 0]), step_nm, 60)
    return Limits(accel, rate, start, motion.get("most_percent", 100))


def _steps(per_axis: list[int], step_nm: Axes, seconds: int) -> Axes:
    """Steps a second of so many millimetres in so many seconds."""
    x, y, z = (mm * 1_000_000 // (seconds * step) for mm, step in zip(per_axis, step_nm, strict=True))
    return x, y, z
