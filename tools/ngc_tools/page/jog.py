"""A jog that goes on for as long as a page repeats its wish, as a finger stays on a button, or on a key."""
import time
from dataclasses import dataclass

from ngc_tools.operator.moves import Moves

SILENCE_S = 0.3
"""A wish that isn't repeated for so long is over."""
KEYS_SILENCE_S = 0.1
"""The same of one by keys or a gamepad, of which nobody sees the finger: reckoned from when the page said it, so that
what a network keeps back, or a page that stood still, moves nothing."""
OLDEST_STEP_S = 0.15
"""A step by a key or a wheel that was asked for before that isn't done."""


@dataclass(frozen=True, slots=True)
class Wish:
    """A wish to go along a way, as `X+`, at a rate in mm a minute, by a press of this number; for how many seconds it
    holds from now, and whether it is by keys or a gamepad."""

    way: str
    rate: str
    press: int
    holds_s: float = SILENCE_S
    is_by_keys: bool = False


class HeldJog:
    """The wish, as pages repeat it in any thread. Each press of a button has a number, which is above those of all
    presses before, as pages are told: one that was let go is never taken up, whatever page or stream comes again. A jog
    that ended by something else, as by a hold or at a limit, ends its press too: whoever still has a finger on the
    button has to press it again. One by keys ends with silence too: nothing that comes later takes it up."""

    def __init__(self) -> None:
        """`taken` is the wish that was taken last."""
        self.taken = Wish("", "", 0)
        self._press = self._let_go = 0
        self._until = 0.0
        self.is_going = False

    @property
    def last(self) -> int:
        """The highest number of a press so far."""
        return max(self._press, self._let_go)

    def wish(self, wish: Wish) -> bool:
        """Takes a wish. False where its press was let go before, or another one came."""
        if wish.press <= self._let_go or wish.press < self._press:
            return False
        now = time.monotonic()
        until = now + wish.holds_s
        if wish.is_by_keys and wish.press == self._press:
            if now >= self._until:
                self.let_go(wish.press)
                return False
            until = max(until, self._until)  # it may have been overtaken
        self.taken, self._press, self._until = wish, wish.press, until
        return True

    def let_go(self, press: int) -> None:
        """That press is over."""
        self._let_go = max(self._let_go, press)

    def end(self) -> None:
        """The press that there is is over, whoever it is by."""
        self.let_go(self._press)

    def is_wanted(self) -> bool:
        """Whether it goes on."""
        return self._press > self._let_go and time.monotonic() < self._until

    def go(self, moves: Moves) -> None:
        """Jogs until the wish is over, or is one for another way; `ngc` is told where that ended."""
        wish = self.taken
        if not self.is_wanted() or self.is_going:
            return
        self.is_going = True
        try:
            moves.jog_while(wish.way, wish.rate, lambda: self._press == wish.press and self.is_wanted())
        finally:
            self.is_going = False
            if wish.is_by_keys or self.is_wanted():
                self.let_go(wish.press)
