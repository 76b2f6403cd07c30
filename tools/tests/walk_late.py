"""How late this computer is for what others run on it, by processes of its own that know nothing of the page.

A touch goes from the browser through the page, the server's thread and the session's to the player, and what it changes
comes back the same way: each is woken, works for some milliseconds, and wakes the next one. So does a token here, again
and again, through a chain of as many processes. Alone on a processor they take the time of their work; the rest is how
late they were. Run as a program it is that chain: it writes when each round is to begin, and when it ended, by the
monotonic clock."""
import os
import struct
import subprocess
import sys
import threading
import time
from collections import deque

HOPS = 6
WORK_S = 0.002
APART_S = 0.1
KEPT_S = 10.0
"""A time is judged by the latest rounds of so long: of those within the time itself there may be one alone."""
TIMES = 2
"""A page does more than the chain, and not at the same moments: it may be so many times as late."""
_MOMENT = struct.Struct("=d")


class Lateness:
    """What the chain tells: `rounds` are its latest, each from when to when. `pid` is its first process."""

    def __init__(self) -> None:
        words = [sys.executable, __file__]
        self._chain = subprocess.Popen(words, stdin=subprocess.DEVNULL, stdout=subprocess.PIPE, bufsize=0)
        self.pid = self._chain.pid
        self.rounds: deque[tuple[float, float]] = deque(maxlen=2000)
        self._begun = 0.0  # of the round that is under way
        self._thread = threading.Thread(target=self._read, daemon=True)
        self._thread.start()

    def _read(self) -> None:
        while begun := self._chain.stdout.read(_MOMENT.size):
            self._begun = _MOMENT.unpack(begun)[0]
            if ended := self._chain.stdout.read(_MOMENT.size):
                self.rounds.append((self._begun, _MOMENT.unpack(ended)[0]))
                self._begun = 0.0

    def slack_s(self, since: float) -> float:
        """How much later than on a quiet machine something may be that began at a moment of the monotonic clock."""
        now, begun = time.monotonic(), self._begun
        took = [ended - begin for begin, ended in list(self.rounds) if ended >= since - KEPT_S]
        worst = max([*took, now - begun if begun else 0.0])
        return TIMES * max(0.0, worst - HOPS * WORK_S)

    def close(self) -> None:
        """Ends it."""
        self._chain.kill()
        self._chain.wait()
        self._thread.join()
        self._chain.stdout.close()


def _work() -> None:
    until = time.thread_time() + WORK_S
    while time.thread_time() < until:
        pass


def _pass_on(wanted: int, given: int) -> None:
    """One of the chain, until nobody is there before it."""
    while token := os.read(wanted, 1):
        _work()
        os.write(given, token)


def chain() -> None:
    """Sends the token round, until nobody reads when that was."""
    wanted, first = os.pipe()
    for _ in range(HOPS):
        following, given = os.pipe()
        if os.fork() == 0:
            os.close(first)
            os.close(following)
            _pass_on(wanted, given)
            os._exit(0)
        os.close(wanted)
        os.close(given)
        wanted = following
    while True:
        os.write(1, _MOMENT.pack(time.monotonic() + APART_S))
        time.sleep(APART_S)
        os.write(first, b".")
        os.read(wanted, 1)
        os.write(1, _MOMENT.pack(time.monotonic()))


if __name__ == "__main__":
    try:
        chain()
    except BrokenPipeError:
        os._exit(0)
