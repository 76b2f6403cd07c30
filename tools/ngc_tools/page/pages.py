"""Which pages watch, which one commands, how old what they ask for is, and what becomes of a job when the one that
commands is lost.

Each page is told stamps, and says again and again which one it read last: so what is silent, or reads nothing, is lost,
whatever a proxy between keeps open."""
import re
import time
from collections.abc import Callable
from dataclasses import dataclass
from http import HTTPStatus

from ngc_tools.operator.face import WARNING
from ngc_tools.page.http import RequestRefused
from ngc_tools.page.session import LOST, PageSession

MOST = 4
"""Pages at once. A browser has six connections to a server, and each page keeps one of them for its stream."""
LOST_S = 1.8
"""A page that is known to have read nothing of the last seconds is lost. With `LOOK_S` it holds within two."""
LOOK_S = 0.1
"""So often somebody has to call `look`."""
OLDEST_S = 1.0
"""What was asked for before that isn't done any more."""
_STAMP = re.compile(r"([0-9]{1,15})-([0-9]{1,15})")
_OLD = "touched more than a second ago, and so not done: touch it again"
_HELD = "somebody held since it was touched, and so it isn't done: touch it again"


@dataclass(frozen=True, slots=True)
class Stamp:
    """What the server tells of a moment, in ms of its own clock, and how many wishes to hold there had been then. Pages
    give the newest one back; with a command they add how long ago it came."""

    ms: int
    holds: int

    def __str__(self) -> str:
        return f"{self.ms}-{self.holds}"

    @staticmethod
    def is_one(text: object) -> bool:
        """Whether it is what a page gives back."""
        return isinstance(text, str) and _STAMP.fullmatch(text) is not None

    @staticmethod
    def read(text: object) -> "Stamp":
        """Reads what a page gives back. Raises RequestRefused."""
        match = _STAMP.fullmatch(text) if isinstance(text, str) else None
        if match is None:
            raise RequestRefused(HTTPStatus.BAD_REQUEST, "no stamp")
        return Stamp(int(match[1]), int(match[2]))


class Pages:
    """The pages with a stream. `commands` is the one whose wishes are done; the others watch, and hold. `on_loss` is
    `hold` or `go`: what becomes of what runs when that one is lost."""

    def __init__(self, session: PageSession, clock: Callable[[], float] = time.monotonic) -> None:
        """`clock` tells seconds, and never goes back."""
        self.session = session
        self.commands = ""
        self.on_loss = "hold"
        self._clock = clock
        self._streams: dict[str, int] = {}
        self._read: dict[str, int] = {}  # of each page the ms of the last stamp that it is known to have read
        self._is_told = False  # that the one that commands is lost

    def __len__(self) -> int:
        return len(self._streams)

    # stamps

    def stamp(self) -> Stamp:
        """That of now."""
        return Stamp(int(1000 * self._clock()), self.session.face.holds)

    def read(self, page: str, stamp: Stamp) -> None:
        """A page says which stamp of its stream it read last."""
        if page in self._streams and stamp.ms <= self.stamp().ms:
            self._read[page] = max(self._read.get(page, 0), stamp.ms)

    def check_age(self, stamp: Stamp) -> None:
        """Raises RequestRefused for what was asked for too long ago, or before somebody held."""
        if abs(self.stamp().ms - stamp.ms) > 1000 * OLDEST_S:
            raise RequestRefused(HTTPStatus.CONFLICT, _OLD)
        self.check_holds(stamp)

    def age_s(self, stamp: Stamp) -> float:
        """How long ago it was, in seconds."""
        return max(0, self.stamp().ms - stamp.ms) / 1000

    def check_holds(self, stamp: Stamp) -> None:
        """Raises RequestRefused where somebody held since."""
        if stamp.holds != self.stamp().holds:
            raise RequestRefused(HTTPStatus.CONFLICT, _HELD)

    def is_there(self, page: str) -> bool:
        """Whether a page isn't lost."""
        return page in self._read and self.stamp().ms - self._read[page] < 1000 * LOST_S

    # streams

    def came(self, page: str) -> bool:
        """A page opens a stream; the first one commands. False if there are too many."""
        if sum(self._streams.values()) >= MOST:
            return False
        self._streams[page] = self._streams.get(page, 0) + 1
        self._read[page] = self.stamp().ms
        if self.commands not in self._streams:
            if self.commands != page:
                self._lose()
            self._give_commands(page)
        self.session.face.publish()
        return True

    def went(self, page: str) -> None:
        """A stream of a page has ended; where it doesn't come back, the page is lost."""
        self._streams[page] -= 1
        if not self._streams[page]:
            del self._streams[page]
        self.session.face.publish()

    def take_over(self, page: str) -> None:
        """Another page commands from now on. Raises RequestRefused for one without a stream, of which nobody would see
        that it is lost."""
        if page not in self._streams or not self.is_there(page):
            raise RequestRefused(HTTPStatus.CONFLICT, "this page isn't told what the machine does")
        self._give_commands(page)
        self.session.face.publish()

    def _give_commands(self, page: str) -> None:
        if page != self.commands:
            self.session.jogs.end()
        self.commands, self._is_told = page, False

    # losses

    def choose(self, goes: bool) -> None:
        """Chooses what becomes of what runs when the page that commands is lost."""
        self.on_loss = "go" if goes else "hold"
        self.session.face.publish()

    def look(self) -> None:
        """Looks which pages are lost. While that one is which commands, nothing runs but what may go on."""
        for page in [page for page in self._read if not self.is_there(page)]:
            del self._read[page]
        if self.commands in self._read:
            self._is_told = False
        else:
            self._lose()

    def _lose(self) -> None:
        """The page that commands is lost, or another one has its place: holds, if that was chosen and something runs
        that nobody holds."""
        session = self.session
        if not self.commands or self.on_loss != "hold" or not session.is_busy or session.face.interrupted():
            return
        if not self._is_told:
            self._is_told = True
            session.face.say("the page that commands is lost: hold", WARNING)
        session.hold(LOST)
