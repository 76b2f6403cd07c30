"""A machine's axes, as its owner knows them, and the settings that follow."""
from dataclasses import dataclass

from ngc_tools.failure import BadNumber
from ngc_tools.formats.position import nanometres
from ngc_tools.formats.settings import Settings

SINK_PERIOD_US = 27
"""The least time between two steps over a step sink's line at 2,000,000 baud, which carries 37,000 a second."""

_STEPS_NM = range(10, 10**6 + 1)
_FARTHEST_MM = 10_000
_MOTOR = 200  # full steps of most motors in a turn
_MOST_MICROSTEPS = 256
_NM_PER_MM = 10**6


@dataclass(frozen=True, slots=True)
class Axis:
    """Nanometres of a step, and the ends of its travel in machine coordinates."""

    step_nm: int
    low_nm: int
    high_nm: int


def step_of(turn_nm: int, pulses: int) -> int:
    """Nanometres of a step, of an axis that moves so far in a turn of its motor, and of so many pulses a turn. Raises
    BadNumber where that isn't a whole number from 10 to 1,000,000, with pulses that would do."""
    if turn_nm <= 0 or pulses <= 0:
        raise BadNumber("both are above 0")
    if turn_nm % pulses or turn_nm // pulses not in _STEPS_NM:
        raise BadNumber(f"a step would be {turn_nm / pulses:,.6g} nm, and it has to be a whole number of nanometres"
                        f" from {_STEPS_NM[0]} to {_STEPS_NM[-1]:,}{_would_do(turn_nm, pulses)}")
    return turn_nm // pulses


def _would_do(turn_nm: int, pulses: int) -> str:
    """The nearest microsteps of a motor of 200 steps by which a step is a whole number of nanometres, in words."""
    counts = [_MOTOR * microsteps for microsteps in range(1, _MOST_MICROSTEPS + 1)]
    good = [count for count in counts if not turn_nm % count and turn_nm // count in _STEPS_NM]
    below, above = [count for count in good if count < pulses], [count for count in good if count > pulses]
    nearest = [f"{count:,}" for count in below[-1:] + above[:1]]
    return f": {' or '.join(nearest)} pulses would do" if nearest else ""


def travel(text: str) -> tuple[int, int]:
    """The two ends of a travel, in nanometres, of two numbers of millimetres. Raises BadNumber."""
    words = text.split()
    if len(words) != 2:
        raise BadNumber("two numbers of millimetres, as -300 0")
    low, high = map(nanometres, words)
    if not -_FARTHEST_MM * _NM_PER_MM <= low <= 0 <= high <= _FARTHEST_MM * _NM_PER_MM or low == high:
        raise BadNumber(f"0 lies between the two, or on one of them, and neither is farther than {_FARTHEST_MM:,} mm"
                        " from it")
    return low, high


def settings_of(axes: tuple[Axis, Axis, Axis], traverse_mm_min: int, over_sink: bool) -> Settings:
    """The settings. The period is the longest at which each axis reaches the traverse, but never less than a sink's
    line carries; no feed gets faster than that either."""
    reached_us = min(60 * axis.step_nm // (traverse_mm_min) for axis in axes)
    period_us = min(max(reached_us, SINK_PERIOD_US if over_sink else 1), 10**6)
    steps, lows, highs = zip(*((axis.step_nm, axis.low_nm, axis.high_nm) for axis in axes))
    return Settings(steps, lows, highs, traverse_mm_min * _NM_PER_MM, period_us, ())
