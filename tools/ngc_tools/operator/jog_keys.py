"""`jog` by keys: a tap goes a step, and a key that is held goes on for as long as it repeats."""
import time
from contextlib import AbstractContextManager
from dataclasses import dataclass
from typing import Protocol

from ngc_tools.formats.position import millimetres
from ngc_tools.operator.face import REFUSED, WARNING
from ngc_tools.operator.modes import trimmed
from ngc_tools.operator.moves import USUAL, Moves
from ngc_tools.operator.session import ALARM
from ngc_tools.link.progress import NoAnswer

WAYS = ("X+", "X-", "Y+", "Y-", "Z+", "Z-")
FASTER, SLOWER, END = "faster", "slower", "end"
STEPS_NM = {"small": 10_000, "middle": 100_000, "large": 1_000_000}
"""What a tap goes, by the key that chooses it."""

_RATES = (30, 60, 120, 300, 600, 1200, 3000)  # mm a minute
_RATE = 300
_LOOK_S = 0.02
_CLOSE_S = 0.07  # between two repeats of a held key; a person's taps are farther apart
_HELD = 2  # so many repeats in a row are a held key
_GONE_S = 0.1  # without a repeat for so long a held key was let go
_KEEP_S = 0.1  # between two words that a jog goes on
_HELP = """\
arrows: X and Y; page up, page down: Z. A tap goes {step} mm; a held key goes on, at {rate} mm a minute
1, 2, 3: taps of 0.01, 0.1, 1 mm; + and -: the rate; Enter ends"""


class Keys(Protocol):
    """The keys of a terminal, as long as it is asked."""

    def next(self, seconds: float) -> list[str]:
        """The keys that were pressed since the last call, once there is one, or after so many seconds: WAYS, FASTER,
        SLOWER, END, and those of STEPS_NM."""


@dataclass(slots=True)
class Pressed:
    """The key that is pressed: `taps` are to be made, or it is held. `at` is when it came last, `close` how often it
    came at the heels of the one before."""

    way: str = ""
    at: float = 0.0
    close: int = 0
    taps: int = 0

    def take(self, way: str, now: float) -> None:
        """Takes a key of a way."""
        is_close = way == self.way and now - self.at < _CLOSE_S
        self.taps = self.taps + 1 if way == self.way else 1
        self.close = self.close + 1 if is_close else 0
        self.way, self.at = way, now
        if self.close >= _HELD:
            self.taps = 0

    def is_held(self, now: float) -> bool:
        """Whether it is held now."""
        return self.close >= _HELD and now - self.at < _GONE_S

    def forget(self) -> None:
        """It has to be pressed again."""
        self.way, self.close, self.taps = "", 0, 0


class JogKeys:
    """A jog by keys, from its begin to its end."""

    def __init__(self, moves: Moves, keys: Keys) -> None:
        self.moves, self.keys, self.session = moves, keys, moves.session
        self.link = moves.session.meter.link
        self.rate, self.step = _RATE, "middle"
        self._pressed = Pressed()
        self._number = 0  # of the move that is under way, 0 for none
        self._way = ""  # of a jog that goes on while its key is held
        self._kept = 0.0  # when it was told last to go on

    def go(self) -> None:
        """Jogs until a person ends it, or an alarm comes. Raises NoAnswer."""
        self.session.face.say(_HELP.format(step=trimmed(STEPS_NM[self.step]), rate=self.rate))
        status, is_over = self.session.console.status(), False
        while not is_over:
            for key in self.keys.next(_LOOK_S):
                is_over = is_over or key == END
                self._take(key)
            self._look()
            self._move(time.monotonic())
            self.moves.show(self._told(), status)
            is_over = is_over or self.session.is_in(ALARM)
        self.link.stop()
        while self._number:
            self._look()
            time.sleep(_LOOK_S)

    def _take(self, key: str) -> None:
        """Takes a key."""
        if key in WAYS:
            self._pressed.take(key, time.monotonic())
        elif key in STEPS_NM:
            self.step = key
        elif key in (FASTER, SLOWER):
            at = _RATES.index(self.rate) + (1 if key == FASTER else -1)
            self.rate = _RATES[min(max(at, 0), len(_RATES) - 1)]

    def _look(self) -> None:
        """Looks whether the move that is under way is over, and says why, if not for the key."""
        if not self._number:
            return
        machine = self.link.machine()
        if machine.ended != self._number or machine.does != "stands":
            return
        if machine.how not in USUAL:
            self.session.face.once(f"jog: {machine.how}", WARNING)
            self._pressed.forget()
        self._number, self._way = 0, ""

    def _move(self, now: float) -> None:
        """Begins what the keys ask for, keeps it going, or ends it."""
        pressed = self._pressed
        if self._way and not (pressed.is_held(now) and pressed.way == self._way):
            self.link.stop()
        elif self._way and now >= self._kept + _KEEP_S:
            self.link.keep_on(self._number, self._way, str(self.rate))
            self._kept = now
        elif not self._number and pressed.is_held(now):
            self._begin(pressed.way, "")
        elif not self._number and pressed.taps:
            pressed.taps -= 1
            self._begin(pressed.way, millimetres(STEPS_NM[self.step]))

    def _begin(self, way: str, length: str) -> None:
        """Begins a jog, by a length or for as long as its key is held."""
        self._number, why = self.link.jog(way, str(self.rate), length)
        self._kept = time.monotonic()
        self._way = "" if length else way
        if why:
            self.session.face.once(f"jog {way}: {why}", REFUSED)
            self._number, self._way = 0, ""
            self._pressed.forget()

    def _told(self) -> str:
        """What is under way, for people."""
        return f"jog {self._pressed.way or 'by keys'}  {self.rate} mm/min, taps {trimmed(STEPS_NM[self.step])} mm"


def jog_by_keys(moves: Moves, keys: AbstractContextManager[Keys]) -> None:
    """Jogs by keys, if a move may begin, and tells `ngc` where it ended."""
    if not moves.begins("jog"):
        return
    is_sure = moves.is_sure()
    try:
        with keys as source:
            JogKeys(moves, source).go()
    except NoAnswer as error:
        moves.say_silent(error)
        return
    finally:
        moves.session.face.live(None)
    moves.tell(is_sure)
