"""A wish to hold is a level: once it is answered nothing starts until somebody asks to go on. The page that is lost."""
import sys
import threading
import unittest
from http import HTTPStatus
from pathlib import Path
from types import SimpleNamespace

sys.path.insert(0, str(Path(__file__).resolve().parent))

from hold_model import MENDS, Model, explored
from listener import Listener
from session_support import InFolder

from ngc_tools.hold_level import HoldLevel
from ngc_tools.ngc.console import NO_TICK, Console
from ngc_tools.page.deeds import DEEDS, BadWords, Given
from ngc_tools.page.face import PageFace
from ngc_tools.page.http import RequestRefused
from ngc_tools.page.jog import HeldJog, Wish
from ngc_tools.page.pages import LOST_S, MOST, OLDEST_S, Pages, Stamp
from ngc_tools.page.session import PageSession
from ngc_tools.link.progress import HeldBack, Link

ONE, OTHER = "page-number-1", "page-number-2"


class Models(unittest.TestCase):
    """tests/hold_model.py."""

    def test_all(self) -> None:
        """With all mends nothing goes wrong; each one that is taken out lets something go wrong."""
        count, way = explored(Model(asks=1))
        self.assertEqual(way, [])
        self.assertGreater(count, 5_000)
        for mend, last in (("gate", "release moves them, and nobody asked to go on"),
                           ("presses", "jog moves them, and nobody asked to go on"),
                           ("streams", "it runs, and nothing holds it"),
                           ("stamps", "release moves them, and nobody asked to go on")):
            self.assertEqual(explored(Model(mend))[1][-1:], [last], MENDS[mend])


class Levels(InFolder):
    """What starts motors asks the level."""

    def linked(self, level: HoldLevel) -> tuple[Listener, Link]:
        """A player's socket, and a link to it."""
        listener = Listener("progress")
        self.addCleanup(listener.close)
        link = Link("progress", 1.0)
        self.addCleanup(link.close)
        link.starts = level.start
        return listener, link

    @staticmethod
    def words(listener: Listener) -> list[bytes]:
        """What the player was sent."""
        found = []
        while said := listener.next():
            found.append(said[0])
        return found

    def test_starts(self) -> None:
        """While it is up nothing that starts motors or a spindle is sent; what ends motion is."""
        level = HoldLevel()
        listener, link = self.linked(level)
        link.release()
        level.wish()
        starts = (link.release, link.go, lambda: link.along(1), lambda: link.legs("0", "0 0 0", 1), link.home,
                  lambda: link.straight("0 0 0", 1, "1"), lambda: link.jog("X+", "60"),
                  lambda: link.seek("Z-", "1", "1"))
        for start in starts:
            with self.assertRaises(HeldBack):
                start()
        link.hold()
        link.stop()
        link.off()
        self.assertEqual(self.words(listener), [b"release", b"hold", b"stop", b"off"])
        level.begin(level.count)
        link.release()
        self.assertEqual(self.words(listener), [b"release"])

    def test_answered(self) -> None:
        """A wish that comes as something is about to start returns once that has started, or after it nothing does."""
        level, done, entered, leaves = HoldLevel(), [], threading.Event(), threading.Event()

        def start() -> None:
            """It is sent."""
            entered.set()
            leaves.wait(10)
            done.append("start")

        def wish() -> None:
            level.wish()
            done.append("answered")

        threads = [threading.Thread(target=level.start, args=[start]), threading.Thread(target=wish)]
        threads[0].start()
        entered.wait(10)
        threads[1].start()
        leaves.set()
        for thread in threads:
            thread.join(10)
        self.assertEqual((done, level.start(lambda: done.append("late"))), (["start", "answered"], False))

    def test_ticks(self) -> None:
        """No tick is given while it is up; other commands are."""
        level, given = HoldLevel(), []
        console = Console.__new__(Console)
        console.starts, console._send, console._replies = level.start, given.append, lambda of_tick: [str(of_tick)]
        self.assertEqual((console.ask("tick 5"), console.ask("hold")), (["True"], ["False"]))
        level.wish()
        self.assertEqual((console.ask("tick 5"), console.ask("hold")), ([NO_TICK], ["False"]))
        self.assertEqual(given, [b"tick 5\n", b"hold\n", b"hold\n"])

    def test_late(self) -> None:
        """A command that was given meanwhile, and that no command took up, was asked for as it was given, whatever was
        held since: what would start by it is kept back, and what is asked for after the hold isn't."""
        session, level = PageSession.__new__(PageSession), []
        session.face, session._stops, session._wake = PageFace(), False, threading.Condition()
        session._next, session.under = None, SimpleNamespace(word="run")
        session.operator = SimpleNamespace(do=lambda line: None)
        for asked in (None, 1, None):
            session.tell("go", asked)
            if not level:
                session.face.hold()
            session.face.begin(session._late().holds)
            level.append(session.face.interrupted())
        session.tell("go", 0)  # asked for before the hold, by a thread that came late
        session.face.begin(session._late().holds)
        self.assertEqual([*level, session.face.interrupted()], [True, False, False, True])


class Session:
    """What pages know of a session."""

    def __init__(self) -> None:
        self.face, self.jogs = PageFace(), HeldJog()
        self.is_busy = False
        self.held: list[str] = []

    def hold(self, page: str) -> None:
        """Somebody holds."""
        self.held.append(page)
        self.face.hold()
        self.jogs.end()

    def jog(self, wish: Wish) -> bool:
        """Takes a wish."""
        return self.jogs.wish(wish)


class Lost(unittest.TestCase):
    """`Pages`, by a clock that stands until a test moves it."""

    def setUp(self) -> None:
        """Two pages, of which the first commands, and something runs."""
        self.now = 100.0
        self.session = Session()
        self.pages = Pages(self.session, lambda: self.now)
        self.assertTrue(self.pages.came(ONE) and self.pages.came(OTHER))
        self.session.is_busy = True
        self.session.face.begin(0)

    def go_on(self, seconds: float, *pages: str) -> None:
        """Time passes, and these pages go on to say what they read."""
        for _ in range(round(seconds * 10)):
            self.now += 0.1
            for page in pages:
                self.pages.read(page, self.pages.stamp())
            self.pages.look()

    def test_silent(self) -> None:
        """A page whose stream stays open, as through a proxy, is lost once it is silent; it holds within 2 s, once."""
        self.go_on(30, ONE, OTHER)
        self.assertEqual(self.session.held, [])
        self.go_on(LOST_S - 0.2, OTHER)
        self.assertEqual(self.session.held, [])
        self.go_on(2 - LOST_S + 0.2, OTHER)
        self.assertEqual((self.session.held, self.pages.commands), (["lost"], ONE))
        self.go_on(10, OTHER)
        self.assertEqual(len(self.session.held), 1)

    def test_reads_nothing(self) -> None:
        """One that goes on to speak, but reads nothing new, is lost as well; so is one that tells stamps to come."""
        for stamp in (self.pages.stamp(), Stamp(10**12, 0)):
            self.setUp()
            for _ in range(20):
                self.go_on(0.1, OTHER)
                self.pages.read(ONE, stamp)
            self.assertEqual(self.session.held, ["lost"])

    def test_goes(self) -> None:
        """Where the job is to go on, it does."""
        self.pages.choose(True)
        self.go_on(10, OTHER)
        self.assertEqual(self.session.held, [])

    def test_take_over(self) -> None:
        """A page without a stream takes nothing over, so the loss of the one that commands is a hold."""
        with self.assertRaises(RequestRefused) as refused:
            self.pages.take_over("page-number-9")
        self.assertEqual(refused.exception.status, HTTPStatus.CONFLICT)
        for page in (ONE, OTHER):
            self.pages.went(page)
        self.go_on(2)
        self.assertEqual(self.session.held, ["lost"])

    def test_level(self) -> None:
        """What begins once the page that commands is lost is held too."""
        self.session.is_busy = False
        self.go_on(3, OTHER)
        self.assertEqual(self.session.held, [])
        self.session.is_busy = True
        self.go_on(0.1, OTHER)
        self.assertEqual(self.session.held, ["lost"])

    def test_next(self) -> None:
        """The place of a page that is lost is taken by one that comes; too many aren't let in."""
        self.pages.went(ONE)
        self.pages.came("page-number-3")
        self.assertEqual((self.session.held, self.pages.commands), (["lost"], "page-number-3"))
        self.assertTrue(self.pages.came("page-number-4") and self.pages.came("page-number-5"))
        self.assertEqual((len(self.pages), self.pages.came("page-number-6")), (MOST, False))

    def test_age(self) -> None:
        """What was touched more than a second ago isn't done, nor what was before a hold; each says so."""
        stamp = self.pages.stamp()
        self.pages.check_age(stamp)
        self.now += OLDEST_S + 0.1
        with self.assertRaisesRegex(RequestRefused, "more than a second ago"):
            self.pages.check_age(stamp)
        stamp = self.pages.stamp()
        self.session.hold(OTHER)
        with self.assertRaisesRegex(RequestRefused, "somebody held since it was touched"):
            self.pages.check_age(stamp)
        for text in ("", "1", "1-", "-1-0", "1-0x", "9" * 99 + "-0", None):
            with self.assertRaises(RequestRefused):
                Stamp.read(text)
        with self.assertRaises(RequestRefused):
            self.pages.check_age(Stamp(10**14, 1))

    def test_finger(self) -> None:
        """A finger that stays on after a hold moves nothing, though its page's stream breaks and comes again, another
        page takes over, or its first word comes only then."""
        jogs, down = self.session.jogs, str(self.pages.stamp())
        wish = {"axis": "X", "sign": 1, "rate": "60", "press": 1, "down": down}
        DEEDS["jog"](Given(self.session, self.pages, {}, wish))
        self.assertTrue(jogs.is_wanted())
        self.session.hold(OTHER)
        self.pages.went(ONE)
        self.pages.came(ONE)
        self.pages.take_over(OTHER)
        self.pages.take_over(ONE)
        self.assertFalse(self.session.jog(Wish("X+", "60", 1)) or jogs.is_wanted())
        with self.assertRaisesRegex(RequestRefused, "somebody held"):
            DEEDS["jog"](Given(self.session, self.pages, {}, wish | {"press": 2}))
        DEEDS["jog"](Given(self.session, self.pages, {}, wish | {"press": 2, "down": str(self.pages.stamp())}))
        self.assertTrue(jogs.is_wanted())
        self.pages.take_over(OTHER)
        self.assertFalse(jogs.is_wanted())
        with self.assertRaises(BadWords):
            DEEDS["jogstop"](Given(self.session, self.pages, {}, {"press": 10**9}))


if __name__ == "__main__":
    unittest.main()
