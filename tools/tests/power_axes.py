"""What lies between a motor and the table in a job whose power is lost: screws with backlash, and the switches that an
axis is homed by. It stands on docs/MACHINE.md alone, and on no code of the tools."""
from dataclasses import dataclass, field

from power_path import Steps

SWITCHES = ((1, 0, -1), (2, 1, -1), (3, 2, 1))
"""Of X, Y and Z: the input, the axis, and the way to it."""
SWITCH_STEPS, PULL_OFF_STEPS = 3000, 50
HOME: Steps = tuple((SWITCH_STEPS - PULL_OFF_STEPS) * way for _, _, way in SWITCHES)
"""Where a homed machine stands."""
HOME_TOML = f"""[home]
order = [2, 3, 1]
switch = [1, 2, 3]
direction = [-1, -1, 1]
fast_mm_min = [1500, 1500, 600]
slow_mm_min = [60, 60, 60]
pull_off_um = [{PULL_OFF_STEPS}, {PULL_OFF_STEPS}, {PULL_OFF_STEPS}]
at_um = {list(HOME)}
way_mm = [10, 10, 10]
"""


@dataclass
class Screws:
    """Screws that turn `most` steps before the table follows, once their axis goes the other way. `up` says how many
    steps up are left until it follows up: none, all of them where it follows down, or not known: then the table is
    where the motor is, whichever way it goes first."""

    most: Steps = (0, 0, 0)
    up: list[int | None] = field(default_factory=lambda: [None, None, None])

    def table(self, lines: list[bytes]) -> list[bytes]:
        """What the table makes of lines of the pins: those that only turn screws are left out."""
        return [made for line in lines if (made := self._made(line))]

    def _made(self, line: bytes) -> bytes:
        if line[:2] != b"P " or not any(self.most):
            return line
        _, *steps, us = line.split()
        made = [self._turn(axis, int(step)) for axis, step in enumerate(steps)]
        return b"P %d %d %d %s" % (*made, us) if any(made) else b""

    def _turn(self, axis: int, step: int) -> int:
        """The step that the table makes of one of the motor."""
        most, up = self.most[axis], self.up[axis]
        if step == 0 or most == 0:
            return step
        if up is None:
            self.up[axis] = 0 if step > 0 else most
            return step
        if not 0 <= up - step <= most:
            return step
        self.up[axis] = up - step
        return 0

    def told(self, words: str) -> list[int | None]:
        """The same by a record's words, as `+ - 12`."""
        return [{"+": 0, "-": most, "?": None}[word] if word in "+-?" else int(word)
                for word, most in zip(words.split(), self.most)]
