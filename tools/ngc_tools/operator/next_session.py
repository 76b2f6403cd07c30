"""One session of `ngc run` after another, with the player that goes on: `ngc` gives a block up, and goes on where lines
were dropped, at the start of a session alone."""
import time
from collections.abc import Callable

from ngc_tools.formats.device import Device, NoDevice
from ngc_tools.ngc.console import Ended
from ngc_tools.operator.left import Left
from ngc_tools.operator.motors import Motors
from ngc_tools.operator.recover import Recover
from ngc_tools.operator.recovery import OutFound
from ngc_tools.operator.session import BROKEN, Session
from ngc_tools.operator.synced import SyncedLink
from ngc_tools.link.progress import NoAnswer

_HAS_LINES = "the player doesn't let go of its lines"
_NO_RECORD = """\
the player can't keep its record yet, and so begins no other session. Once there is room, again; else end it there, and
start one with a copy of its record, and --at with what the last one said"""
_PATIENCE_S = 5.0  # how long motors may take to come to rest, and a player to let go of its lines


class NextSession:
    """Ends this session and begins the next one. `opens` says what that begins with, of the device as it stood before,
    and is told whether what is left is given up at once; `opened` is called once it has."""

    def __init__(self, session: Session, motors: Motors, left: Left, recover: Recover,
                 opens: Callable[[Device | None, bool], None]) -> None:
        self.session, self.motors, self.left, self.recover, self.opens = session, motors, left, recover, opens
        self.opened: Callable[[Device | None], None] = lambda _: None

    def begin(self, drops: bool = False) -> None:
        """The player lets go of what it has in hand, at rest, with spindle and coolant off; a block under way stays
        half-done. `drops`: what no motor carried out is cut off OUT, a file, and nothing is looked for in it. Raises
        NoAnswer, Ended, OSError."""
        session, console = self.session, self.session.console
        link = session.meter.link if session.meter else None
        is_whole = isinstance(link, SyncedLink) and link.is_following  # nothing is lost within a session
        console.ask("hold")
        self.let_go()
        if status := console.quit():
            raise Ended(status, [])
        found = _stored(console.device)
        if isinstance(link, SyncedLink):
            given = console.ngc, console.settings, link, found
            self.recover.found = OutFound.cut_off(*given) if drops else OutFound.of(*given, is_whole)
        console.start()
        console.status()
        for name in ("optional", "delete"):
            if getattr(session, name):
                console.ask(f"{name} on")
        session.own, self.motors.is_told = "", False
        self.left.forget()
        self.opens(found, drops)
        self.opened(found)

    def let_go(self) -> None:
        """Has the player, if there is one, let go of what it has in hand, for another session. Raises NoAnswer, also
        where it doesn't."""
        if self.session.meter is None:
            return
        link = self.session.meter.link
        link.anew()
        until = time.monotonic() + _PATIENCE_S
        while (report := link.ask()).behind or report.word == BROKEN:
            if time.monotonic() > until:
                raise NoAnswer(f"{link.path}: {_NO_RECORD if report.word == BROKEN else _HAS_LINES}")
            time.sleep(0.005)
        self.session.take(report)


def _stored(path: str) -> Device | None:
    """The device as it stands, which `ngc` writes anew as it starts."""
    try:
        return Device.read(path)
    except (OSError, NoDevice):
        return None
