"""A running console, and the meter, by docs/SESSION.md."""
import sys
import unittest
from pathlib import Path
from unittest.mock import patch

sys.path.insert(0, str(Path(__file__).resolve().parent))

from session_support import InFolder, ngc

from ngc_tools.ngc.console import Console, Ended, Status
from ngc_tools.operator.meter import Meter
from ngc_tools.link.progress import Report


RECEIVED = 10_000


class Consoles(InFolder):
    """The first session of docs/SESSION.md, and how a session ends."""

    def test_first_session(self) -> None:
        """Each reply is with its command."""
        self.device()
        console = Console(ngc(), "mill.dev", "first.toml", "pulses")
        self.assertEqual(console.load(b"G0 X0.002\nM2\n"), "done 1")
        self.assertEqual(console.ask("start"), ["going"])
        self.assertEqual(console.ask("tick 100"), ["done 2", "done 3", "idle", "ticks 10"])
        self.assertEqual(console.ask("tick 0"), ["refused U1 BadCommand"])
        self.assertEqual(console.status(), Status(3, 0, ("0.002000", "0.000000", "0.000000"), True, "none", 0, "idle"))
        self.assertEqual(console.quit(), 0)
        self.assertEqual(Path("pulses").read_text(), "P 1 0 0 50\nP 1 0 0 50\nS 0 0.000000 0 0 0 0\n")
        with self.assertRaises(Ended):
            console.ask("status")

    def test_half_done(self) -> None:
        """A block that a kill broke off."""
        self.device()
        console = Console(ngc(), "mill.dev", "first.toml", "pulses")
        self.assertEqual(console.ask("mdi G0 X1"), ["begun"])
        self.assertEqual(console.ask("tick 5"), ["ticks 5"])
        console.kill()
        console = Console(ngc(), "mill.dev", "first.toml", "pulses")
        status = console.status()
        self.assertEqual((status.half, status.segment, status.known, status.does), ("mdi", 0, False, "idle"))
        self.assertEqual(console.quit(), 0)

    def test_one_line(self) -> None:
        """A command with a newline in it would be two, so it isn't given at all."""
        self.device()
        console = Console(ngc(), "mill.dev", "first.toml", "pulses")
        for command in ("mdi G0 X1\ntick 100", b"mdi M5\n"):
            with self.assertRaises(ValueError):
                console.ask(command)
        self.assertEqual(console.status().does, "idle")
        self.assertEqual(console.quit(), 0)

    def test_refused_at_the_start(self) -> None:
        """What `ngc` says before it ends is told."""
        self.device()
        Path("first.toml").write_text("step_nm = 5\n")
        with self.assertRaises(Ended) as caught:
            Console(ngc(), "mill.dev", "first.toml", "pulses").status()
        self.assertEqual((caught.exception.status, caught.exception.replies), (2, ["refused S2 MissingKey"]))

    def test_status(self) -> None:
        """Other text isn't a status."""
        for text in ("status", "idle", "status entries 3 place 0 at 0 0 0 known half none", "refused U1 BadCommand"):
            with self.assertRaises(ValueError, msg=text):
                Status.read(text)


class FakeLink:
    """A player that says what a test has it say, once RECEIVED lines are handed out."""

    failed = ""

    def __init__(self, *behind: int, wants: int = 0, held: int = 0) -> None:
        self.behind, self.wants, self.held = list(behind), wants, held
        self.words: list[str] = []

    def ask(self) -> Report:
        """The next of its reports, the last of them for ever; of the first `held` it says that it is held."""
        self.held -= 1
        behind = self.behind.pop(0) if len(self.behind) > 1 else self.behind[0]
        return Report(RECEIVED - behind, RECEIVED, False, "0.000000 0.000000 0.000000", "/axis",
                      is_held=self.held >= 0, wants=self.wants)

    def last(self) -> None:
        """Nothing more comes for now."""
        self.words.append("last")


class Meters(unittest.TestCase):
    """How many ticks there is room for."""

    def test_room(self) -> None:
        """Never more than the bound, with what the player has in hand; as soon as a sixteenth of it is carried out, 6
        of 100."""
        self.assertEqual(Meter(FakeLink(0)).room(), 100)
        self.assertEqual(Meter(FakeLink(99, 95, 94)).room(), 6)
        self.assertEqual(Meter(FakeLink(3, 2), 3).room(), 1)
        self.assertEqual(Meter(FakeLink(99)).room(lambda report: False), 0)
        for limit in (1, 0, -5, 8001):
            with self.assertRaises(ValueError):
                Meter(FakeLink(0), limit)

    def test_room_by_need(self) -> None:
        """As many as the player wants, at most the bound; no more at once than fit into the smallest pipe: 200 lines of
        20 bytes into 4,096."""
        self.assertEqual(Meter(FakeLink(1600, 1566, 1565, wants=1669)).room(), 104)  # 1669 // 16
        self.assertEqual(Meter(FakeLink(0, wants=1669)).room(), 200)
        self.assertEqual(Meter(FakeLink(0, wants=40)).room(), 40)
        self.assertEqual(Meter(FakeLink(280, wants=1669), 300).room(), 20)
        self.assertEqual(Meter(FakeLink(7501, 7500, wants=9000)).room(), 200)  # 8,000 at most: 500 of them are free
        self.assertEqual(Meter(FakeLink(0), 150).room(), 150)

    def test_apart(self) -> None:
        """It asks as soon as a sixteenth is likely to be carried out, and less and less often while one line lasts, or
        motors stand. Without ramps 2 ms apart at most, less than 94 lines of 50 us last; with them 10 ms, half of what
        the lines in hand allow for. At 10 lines in a millisecond 16 last 1.6 ms, and 14 at 2 would last 7."""
        for ms, behind, wants, apart_ms in (((0, 1, 2, 5), (120, 110, 108, 94), 0, [1.6, 2]),
                                            ((0, 1, 9), (110, 100, 94), 0, [0.6]),
                                            ((0, 1, 2, 9), (105, 95, 95, 94), 0, [0.5, 1]),
                                            ((0, 1, 9), (1620, 1610, 1565), 1669, [4.5]),
                                            ((0, 1, 2, 3, 9), (1612, 1611, 1611, 1611, 1565), 1669, [10, 10, 10]),
                                            ((0, 1, *range(2, 9)), (99, *[99] * 7, 94), 0, [1, 2, 2, 2, 2, 2, 2])):
            self.assertEqual(self._pauses(ms, FakeLink(*behind, wants=wants)), apart_ms)

    @staticmethod
    def _pauses(ms: tuple[float, ...], link: FakeLink) -> list[float]:
        """How many ms are between two questions, where the clock says these ms at each; those between the first two are
        left out, as nothing tells a rate before."""
        with patch("ngc_tools.operator.meter.time") as clock:
            clock.monotonic.side_effect = [one / 1000 for one in ms]
            Meter(link).room()
        return [round(1000 * call.args[0], 3) for call in clock.sleep.call_args_list][1:]

    def test_drained(self) -> None:
        """It says that nothing more comes for now, once, and waits until nothing is left, or somebody says no."""
        link = FakeLink(2, 1, 0)
        self.assertTrue(Meter(link).drained())
        self.assertEqual(link.words, ["last"])
        self.assertFalse(Meter(FakeLink(2, 1)).drained(lambda report: report.behind > 1))
        link = FakeLink(0)
        self.assertTrue(Meter(link).drained())
        self.assertEqual(link.words, [])

    def test_drained_held(self) -> None:
        """It doesn't wait for motors that are held; the first reports after a release may still say it."""
        self.assertFalse(Meter(FakeLink(2, held=10**9)).drained())
        self.assertTrue(Meter(FakeLink(2, 2, 2, 1, 0, held=2)).drained())


if __name__ == "__main__":
    unittest.main()
