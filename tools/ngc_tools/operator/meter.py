"""Ticks by measure: so many lines are handed out as the player is to have in hand, and no more."""
import time
from collections.abc import Callable

from ngc_tools.failure import BadNumber
from ngc_tools.link.progress import MOVED, UNSURE, Link, NoAnswer, Report

LIMIT = 100  # lines, of a player that doesn't say how many it wants
LIMITS = range(2, 8001)  # what a player can have in hand
AT_ONCE = 200  # ticks: so many lines fit into the smallest pipe, so that no tick waits for the player
_PARTS = 16  # of the lines in hand: more are given once one part is carried out
_LEAST_S = 0.0005  # between two questions
_MOST_S = 0.01  # the lines that a player with ramps wants last twice as long, without those for a stop
_PLAIN_S = 0.002  # the most of a player without ramps: its lines in hand last longer, whatever their rate
_HELD_S = 0.5  # a player that says for so long that it is held isn't about to go on


def check_limit(limit: int) -> None:
    """Raises BadNumber for a bound below 2, or above 8,000, which is what a player can have in hand."""
    if limit not in LIMITS:
        raise BadNumber(f"{limit} lines: the bound is from {LIMITS[0]} to {LIMITS[-1]:,}")


def always(_: Report) -> bool:
    """Goes on whatever a player says."""
    return True


class Pause:
    """How long the player isn't asked, by how quickly it carried out lines between the last two questions."""

    def __init__(self) -> None:
        self._carried, self._at, self._last_s = 0, 0.0, 0.0

    def until(self, lines: int, report: Report) -> float:
        """The seconds, within bounds, until so many lines more are carried out than a report has; as long as none is,
        twice as many each time."""
        now, done = time.monotonic(), abs(report.carried - self._carried)
        wanted_s = lines * (now - self._at) / done if done else 2 * self._last_s
        self._last_s = min(max(wanted_s, _LEAST_S), _MOST_S if report.wants else _PLAIN_S)
        self._carried, self._at = report.carried, now
        return self._last_s


class Meter:
    """Asks the player before each tick command. Each tick hands out one line at most, so with as many ticks as there is
    room for, OUT is never more than `limit` lines ahead of the player."""

    def __init__(self, link: Link, most: int | None = None) -> None:
        """`most` is a bound in lines whatever the player wants. Raises ValueError as `check_limit`."""
        if most is not None:
            check_limit(most)
        self.link = link
        self.most = most
        self.parts, self.at_once = _PARTS, AT_ONCE
        self._pause = Pause()

    def limit(self, report: Report) -> int:
        """How many lines OUT may be ahead of the player now: what it wants for its motors to stop in, else 100; at most
        the bound."""
        most = self.most or LIMITS[-1]
        return max(LIMITS[0], min(report.wants or self.most or LIMIT, most))

    def most_ahead(self, report: Report) -> int:
        """How many lines OUT may ever have been ahead of such a player."""
        return self.most or (LIMITS[-1] if report.wants else LIMIT)

    def room(self, go_on: Callable[[Report], bool] = always) -> int:
        """Waits until a sixteenth of the lines is carried out, and returns how many ticks may be given; 0 if `go_on`,
        which sees each report, says no. Raises NoAnswer if the player is gone."""
        while True:
            report = self._asked()
            if not go_on(report):
                return 0
            if report.word in (MOVED, UNSURE):  # who asks for room has compared the points, or goes on all the same
                self.link.at(report.at)
                report = self.link.ask()  # it has heard that before a line comes
            limit = self.limit(report)
            free, wanted = limit - report.behind, max(1, limit // self.parts)
            pause_s = self._pause.until(wanted - free, report)
            if free >= wanted:
                return min(free, self.at_once)
            time.sleep(pause_s)

    def drained(self, go_on: Callable[[Report], bool] = always) -> bool:
        """Tells the player that nothing more comes for now, and waits until it has carried out all that was handed out.
        False if `go_on` says no before, or its motors are held. Raises NoAnswer."""
        report = self._asked()
        if report.behind:
            self.link.last()
        worked = time.monotonic()  # when it was last seen not to be held
        while report.behind:
            worked = worked if report.is_held else time.monotonic()
            if not go_on(report) or time.monotonic() > worked + _HELD_S:
                return False
            time.sleep(_MOST_S)
            report = self._asked()
        return True

    def _asked(self) -> Report:
        """How far the player is. Raises NoAnswer, also where nothing more may be handed out, or counts as handed
        out."""
        if self.link.failed:
            raise NoAnswer(self.link.failed)
        return self.link.ask()
