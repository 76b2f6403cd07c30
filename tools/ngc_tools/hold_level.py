"""Whether somebody wants to hold, as a level: it stays up until somebody asks to go on."""
import threading
from collections.abc import Callable

Starts = Callable[[Callable[[], object]], bool]
"""Does what starts something, unless somebody wants to hold; whether it did."""


def start_at_once(does: Callable[[], object]) -> bool:
    """Does it, where nobody could want to hold meanwhile."""
    does()
    return True


class HoldLevel:
    """From the moment that a wish is taken nothing starts but what somebody asks for after it, whatever is under way in
    other threads. `count` is how many wishes there were."""

    def __init__(self) -> None:
        self.count = 0
        self._asked = 0  # how many there were as what is under way was asked for
        self._lock = threading.RLock()

    @property
    def is_up(self) -> bool:
        """Whether somebody wants to hold since what is under way was asked for."""
        return self.count > self._asked

    def wish(self) -> None:
        """Somebody wants to hold. Once this returns, what was about to start has started, or won't."""
        with self._lock:
            self.count += 1

    def begin(self, asked: int) -> None:
        """Something begins that was asked for when there had been so many wishes."""
        with self._lock:
            self._asked = asked

    def start(self, does: Callable[[], object]) -> bool:
        """Does what starts motors or a spindle, unless the level is up; whether it did. A wish to hold waits for its
        end, so it may not wait itself."""
        with self._lock:
            if self.is_up:
                return False
            does()
            return True
