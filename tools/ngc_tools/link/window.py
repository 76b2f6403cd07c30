"""How many lines a player wants in hand: enough to come to rest from the fastest of them, and no more than that, since
what is in hand is lost with the power. tools/player has the same integers."""
from ngc_tools.formats.machine import MOST_LINES
from ngc_tools.link.machine import CORNER_PULSES, Axes, Limits

_LATENESS = 50  # parts of a second in which more comes
_PERCENT_US = 10_000  # of a second
_LEAST = 5 * CORNER_PULSES + 40
"""Wanted in any case: the limits of so many may wait for what comes behind a corner, and what is carried out isn't
replaced at once."""


def lines_for(limits: Limits, period_us: int, step: Axes) -> int:
    """How many lines are wanted in hand for pulses of this period, with the axes that step in one: a stop from
    their greatest rate takes v^2 / 2a, to which a fifth is added for a plan that isn't of the last moment."""
    rate = _PERCENT_US * limits.most_percent // max(period_us, 1)
    accel = min(accel for accel, moves in zip(limits.accel, step) if moves or not any(step))
    return min(3 * rate * rate // (5 * accel) + rate // _LATENESS + _LEAST, MOST_LINES)
