"""A jog by keys whose key-up is lost, whose page stands still, or whose connection breaks: over a simulated machine the
motors rest soon after. So does one whose server ends."""
import os
import signal
import sys
import time
import unittest
from collections.abc import Callable
from pathlib import Path

sys.path.insert(0, str(Path(__file__).resolve().parent))

from browser_support import chromium
from firefox_support import IS_FIREFOX, start
from page_support import OTHER
from test_page_day import Walk
from test_page_keys import PADS
from test_page_measure import AtMachine

SOON_S = 0.15
TRIES, PRESSES = 12, 50
STANDS = "void setTimeout(() => { const end = performance.now() + 700; while (performance.now() < end) {} })"
"""The page stands still for so many ms."""
EVERY_S = 0.03


class Watched:
    """What looks at the table."""

    def rested_after(self, since: float) -> float:
        """How long after a moment the table moved last."""
        last, at = time.monotonic(), self.world.place
        while time.monotonic() < last + 0.3:
            if self.world.place != at:
                last, at = time.monotonic(), self.world.place
            time.sleep(0.0005)
        return last - since


class Lost(Watched, AtMachine):
    """By requests, as the page makes them. Accelerations are 500 mm/s2: from 600 mm a minute it takes 20 ms to rest."""

    WORDS: list[str] = []

    def jogs(self, press: int, sign: int, seconds: float, rate: str = "600") -> tuple[float, bool]:
        """Says for so long that a jog by keys goes on: when that was said last, and whether each counted."""
        down, until, counted = self.seen.now(), time.monotonic() + seconds, True
        said = time.monotonic()
        while time.monotonic() < until:
            said = time.monotonic()
            wish = {"axis": "X", "sign": sign, "rate": rate, "press": press, "down": down, "said": self.seen.now()}
            status, answer = self.seen.post("jog", wish)
            counted = counted and status == 200 and answer["goes"]
            time.sleep(max(0, said + EVERY_S - time.monotonic()))
        return said, counted

    def press(self) -> int:
        """The number of the next press."""
        return self.seen.until("it rests", lambda s: not s["busy"] and s["machine"] == "stands")["press"] + 1

    def soon(self, lose: Callable[[], None]) -> list[float]:
        """How long the motors moved on after `lose` was called, in as many tries as it takes until that was soon, as
        where others want the processors."""
        took: list[float] = []
        for number in range(TRIES):
            before = self.world.place[0]
            said, counted = self.jogs(self.press(), -1 if number % 2 else 1, 0.25)
            lose()
            if counted and abs(self.world.place[0] - before) > 500:
                took.append(self.rested_after(said))
            if took and min(took) < SOON_S:
                return took
        self.fail(f"they moved on for {took} s")

    def test_lost(self) -> None:
        """Nobody tells that the key is let go."""
        took = self.soon(lambda: None)
        self.assertGreater(min(took), 0.05)  # else nothing was measured

    def test_broken(self) -> None:
        """The page is gone with its stream."""
        self.soon(self.again)

    def again(self) -> None:
        """The page's stream breaks; another page takes its place."""
        self.seen.close()
        self.seen = self.page(OTHER if self.seen.name != OTHER else "page-number-3")

    def test_never_taken_up(self) -> None:
        """Behind a silence the same press moves nothing any more, nor does a wish that was said long ago."""
        press = self.press()
        self.jogs(press, 1, 0.1)
        self.press()
        at = self.world.place
        _, counted = self.jogs(press, 1, 0.2)
        self.assertFalse(counted)
        old = self.seen.now()
        time.sleep(0.12)
        status, answer = self.seen.post("jog", {"axis": "X", "sign": 1, "rate": "600", "press": press + 1, "said": old})
        self.assertEqual(status, 409)
        self.assertRegex(answer["why"], r"^said \d+ ms ago, and so not done: this page, or the network, is too slow")
        status, answer = self.seen.post("step", {"axis": "X", "sign": 1, "rate": "600", "length": "0.1", "said": old})
        time.sleep(0.05)
        status, answer = self.seen.post("step", {"axis": "X", "sign": 1, "rate": "600", "length": "0.1", "said": old})
        self.assertEqual(status, 409)
        self.press()
        self.assertLessEqual(self.world.place[0] - at[0], 100)

    def test_step(self) -> None:
        """A step goes as far as it says, and answers once it is there."""
        self.press()
        for length, x in (("0.3", 300), ("0.01in", 554)):  # 0.3 and 0.254 mm
            status = 0
            while status != 200:
                status, _ = self.seen.post("step", {"axis": "X", "sign": 1, "rate": "600", "length": length,
                                                    "said": self.seen.now()})
            self.assertEqual(self.world.place, (x, 0, 0))
        for words in ({}, {"axis": "X", "sign": 1, "rate": "600", "said": "x", "length": "1"},
                      {"axis": "X", "sign": 1, "rate": "600", "said": self.seen.now(), "length": "x"}):
            self.assertIn(self.seen.post("step", words)[0], (400, 422), words)

    def test_server_gone(self) -> None:
        """Where the server is gone the player brings the motors to rest by itself."""
        said, _ = self.jogs(self.press(), 1, 0.25)
        os.kill(self.server.pid, signal.SIGKILL)
        self.assertLess(self.rested_after(said), 1)


@unittest.skipIf(IS_FIREFOX or not chromium(), "keys are sent to Chromium alone")
class InBrowser(Watched, Walk):
    """In Chromium. Other tests say what ends a jog where its key is known to be let go."""

    @classmethod
    def setUpClass(cls) -> None:
        """Starts the browser."""
        cls.browser = start()
        cls.addClassCleanup(cls.browser.close)

    def setUp(self) -> None:
        """Turns the switch on."""
        super().setUp()
        self.tab("Setup")
        self.press("By keys", "#tab-setup button")

    def goes(self) -> None:
        """A key is down, and X moves: it is pressed anew where the page is so late that it ends."""
        for _ in range(PRESSES):
            before = self.world.place[0]
            self.browser.key("rawKeyDown", "ArrowRight")
            for _ in range(6):
                time.sleep(0.03)
                self.browser.key("rawKeyDown", "ArrowRight", autoRepeat=True)
            if self.browser.js("ngc.keys.jog.isOn") and self.world.place[0] > before + 300:
                return
            self.browser.key("keyUp", "ArrowRight")
            self.rests()
        self.fail("it never goes on")

    def test_stands_still(self) -> None:
        """The page stands still, and the key is let go meanwhile: the motors rest soon, and nothing moves once it goes
        on."""
        took: list[float] = []
        while not took or min(took) > SOON_S:
            self.goes()
            self.browser.js(STANDS)
            took.append(self.rested_after(time.monotonic()))
            self.browser.key("keyUp", "ArrowRight")
            at = self.world.place
            self.rests()
            time.sleep(0.3)
            self.assertEqual(self.world.place, at)
            self.assertLess(len(took), TRIES, took)

    def test_wheel(self) -> None:
        """A click of a wheel is a step along the axis that is chosen, and no more."""
        self.press("0.1", ".jog .choices button")
        for keys, wanted in (("+", (100, 0, 0)), ("z-", (100, 0, -100)), ("x-", (0, 0, -100))):
            for _ in range(TRIES):  # where the page is so late that a click isn't done
                for key in keys:
                    self.browser.key("rawKeyDown", key)
                    self.browser.key("keyUp", key)
                time.sleep(0.3)
                self.rests()
                if self.world.place == wanted:
                    break
            self.assertEqual(self.world.place, wanted)

    def test_gamepad(self) -> None:
        """With a stick pushed and a shoulder button held an axis goes; once the button is let go it rests soon."""
        self.browser.js(PADS)
        took: list[float] = []
        while not took or min(took) > SOON_S:
            self.pushed()
            self.browser.js("void (pad.buttons[5].pressed = false)")
            took.append(self.rested_after(time.monotonic()))
            self.rests()
            self.assertLess(len(took), TRIES, took)
        self.assertEqual(self.world.place[1:], (0, 0))

    def pushed(self) -> None:
        """A stick is pushed, and X moves: it is pushed anew where the page is so late that it ends."""
        for _ in range(PRESSES):
            before = self.world.place[0]
            for what in ("buttons[5].pressed = true", "axes[0] = 0", "axes[0] = 1", "axes[1] = 0"):
                self.browser.js(f"void (pad.{what})")
                self.browser.js("new Promise(done => setTimeout(done, 100))")
            if self.browser.js("ngc.keys.jog.isOn") and self.world.place[0] > before + 300:
                return
            self.browser.js("void (pad.axes[0] = 0)")
            self.rests()
        self.fail("it never goes on")

    def test_offline(self) -> None:
        """No request of the page comes through any more."""
        took: list[float] = []
        while not took or min(took) > SOON_S:
            self.goes()
            self.offline(True)
            took.append(self.rested_after(time.monotonic()))
            self.offline(False)
            self.browser.key("keyUp", "ArrowRight")
            self.browser.wait("document.getElementById('lost').hidden")
            self.rests()
            self.assertLess(len(took), TRIES, took)

    def offline(self, is_so: bool) -> None:
        """Cuts the browser off, or no more."""
        self.browser.call("Network.emulateNetworkConditions", offline=is_so, latency=0, downloadThroughput=-1,
                          uploadThroughput=-1)

    def test_runs(self) -> None:
        """While a job runs, is held and is half-done a key says why nothing is jogged."""
        self.load("G17 G21 G90 G94\nG0 X1\nG1 X9 F60\nM2\n")
        self.press("Run", "#run")
        self.wait("s.line === 3 && s.half === 'program' && s.motors[0] > 1.2")
        for does, says in ((None, "Running: Hold comes before the axes are jogged."),
                           ("Hold", "A line is held: Continue or Stop comes before the axes are jogged or homed.")):
            if does:
                self.press(does, "#hold")
                self.rests("s.does === 'held' && s.held_motors")
            if not self.browser.js("ngc.keys.isOn"):
                self.press("By keys", "#tab-setup button")
            self.browser.key("rawKeyDown", "ArrowRight")
            self.browser.wait(f"document.getElementById('toast').textContent.includes({says!r})")
            self.browser.key("keyUp", "ArrowRight")
        x = self.world.place[0]
        time.sleep(0.2)
        self.assertEqual(self.world.place[0], x)


if __name__ == "__main__":
    unittest.main()
