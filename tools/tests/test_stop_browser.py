"""Stop, `off`, `From line 1` and the way back from an alarm, by touch: in Chromium, or in Firefox if NGC_BROWSER says
so; skipped where it isn't installed."""
import sys
import unittest
from pathlib import Path

sys.path.insert(0, str(Path(__file__).resolve().parent))

from firefox_support import MISSING, PATH, started
from test_moves import AT_SPEED, DOOR, STOP
from test_page_day import MILL, Walk

JOB = "G17 G21 G90 G94\nM3 S1000\nG0 X1\nG1 X4 F60\nM5\nM2\n"
"""Its line 4 is a cut of three seconds."""
SHOWN = "document.getElementById('{}').checkVisibility()"
RUN = "[document.getElementById('run').textContent, document.getElementById('run').disabled]"
"""What the large button says, and whether it is dead."""
_SPEED = 5
"""Where the machine's model has which inputs are high while the spindle turns."""


@unittest.skipUnless(PATH, MISSING)
class ByTouch(Walk):
    """Over a simulated machine."""

    @classmethod
    def setUpClass(cls) -> None:
        """Starts the browser."""
        cls.browser = started()

    def cuts(self) -> None:
        """The job cuts in line 4."""
        self.press("Run", "#run")
        self.wait("s.line === 4 && s.half === 'program' && s.motors[0] > 1.2")

    def touch(self, name: str) -> None:
        """Puts a finger on a button, and lifts it."""
        x, y = self.browser.place("", f"#{name}")
        self.browser.down(x, y)
        self.browser.up(x, y)

    def test_stop(self) -> None:
        """Nothing is to be stopped or switched off at first. Amid a cut Stop asks; given up, the job begins anew from
        line 1. Held, the spindle goes off, and comes on again where that is agreed to."""
        self.assertTrue(self.browser.js("document.getElementById('stop').disabled"))
        self.assertFalse(self.browser.js(SHOWN.format("off")))
        self.load(JOB)
        self.cuts()
        self.assertEqual(self.browser.js("document.getElementById('off').textContent"), "Spindle off")
        self.assertTrue(self.browser.js("document.getElementById('off').disabled"))  # the motors move
        self.touch("stop")
        self.wait("s.question && s.spindle === 0")
        self.press("Yes: gives it up", "#over .go")
        self.rests("s.half === 'none' && s.does === 'idle' && s.line === 4 && s.known")
        self.browser.wait("document.getElementById('stop').disabled")
        self.do("G0 X0")
        self.rests("s.motors[0] === '0.000000'")
        self.tab("Program")
        self.press("From line 1", "#rewind")
        self.press("From line 1", "#over .go")
        self.rests("s.place === 0 && !s.can.rewind")
        self.browser.wait("!" + SHOWN.format("rewind"))
        self.cuts()
        self.touch("hold")
        self.rests("s.does === 'held' && s.held_motors")
        self.press("Spindle off", "#off")
        self.rests("s.spindle === 0 && s.again === 'the spindle, clockwise at 1000'")
        self.browser.wait("!" + SHOWN.format("off"))
        self.browser.hurry()
        self.press("Continue", "#run")
        self.press("Yes: switches it on again and goes on", "#over .go")
        self.wait("s.spindle === 1 && s.again === ''")
        self.rests("s.finished")

    def test_way_back(self) -> None:
        """The alarm's sheet opens by itself, with its cause, which the band names too; home is enabled once the
        emergency stop is released; then the line is half-done, and the page leads on, with the player that was there.
        """
        self.load(JOB)
        self.cuts()
        self.world.put(STOP, False)
        self.wait("s.alarm && !s.busy")
        self.browser.wait("document.querySelector('#over .lead')?.textContent === 'emergency stop'")
        self.wait("s.detail.startsWith('Emergency stop. ')")
        self.browser.wait("document.getElementById('detail').textContent.startsWith('Emergency stop. ')")
        self.assertEqual(self.browser.js("document.getElementById('word').textContent"), "ALARM")
        self.browser.wait("document.querySelector('#over .warn')?.textContent.startsWith('The emergency stop is on')")
        self.assertTrue(self.browser.js("document.querySelector('#over .go').disabled"))
        self.world.put(STOP, True)
        self.press("Home", "#over .go")
        self.rests("s.homed === 'XYZ' && s.half === 'program' && s.word === 'Half-done'")
        self.browser.wait("document.querySelector('#over .facts')?.textContent.includes('It begins at')")
        self.assertIsNone(self.player.poll())

    def test_no_home(self) -> None:
        """Where the machine's file has no [home], no button promises it."""
        self.assertTrue(self.browser.js("[...document.querySelectorAll('#tab-setup button')].some(one =>"
                                        " one.textContent === 'Home all' && !one.closest('section').hidden)"))
        self.pull()
        self.mill = self.mill[:self.mill.index("[home]")]
        self.begin()
        self.opened()
        self.browser.wait("ngc.state.homes === ''")
        self.assertFalse(self.browser.js("[...document.querySelectorAll('#tab-setup button')].some(one =>"
                                         " one.textContent === 'Home all' && !one.closest('section').hidden)"))


class AtDoor(ByTouch):
    """The machine has a door."""

    mill = MILL.replace("probe = 6\n", "door = 4\nprobe = 6\n")
    test_stop = test_way_back = test_no_home = None

    def says(self, says: str, is_dead: bool) -> None:
        """The large button says that, and is dead or isn't."""
        self.browser.wait(f"{RUN}.join() === '{says},{str(is_dead).lower()}'")

    def test_door(self) -> None:
        """It opens amid a cut: the large button says that it is to be closed, and is dead. Once it is closed nothing
        moves before that button is touched, which says `Go on`; then the job goes on, to its end."""
        self.load(JOB)
        self.cuts()
        self.world.put(DOOR, True)
        self.wait("s.door_open && s.held_by === 'door' && s.busy")
        self.says("Close the door", is_dead=True)
        self.wait("s.held_motors && s.word === 'Held'")
        stood = self.world.place
        self.assertTrue(1_200 < stood[0] < 4_000 and stood[1:] == (0, 0), stood)
        self.world.put(DOOR, False)
        self.wait("!s.door_open")
        self.says("Go on", is_dead=False)
        self.assertEqual((self.world.place, self.browser.js("ngc.state.held_by")), (stood, "door"))
        self.press("Go on", "#run")
        self.wait("s.held_by === '' && (s.word === 'Running' || s.finished)")
        self.rests("s.finished && s.motors[0] === '4.000000'")
        self.assertEqual(self.world.place, (4_000, 0, 0))


class AtSpindle(AtDoor):
    """The machine tells when its spindle turns as fast as it has to."""

    mill = MILL.replace("probe = 6\n", "probe = 6\nspindle_at_speed = 5\nat_speed_s = 1\n")
    test_door = None

    def test_spindle(self) -> None:
        """The spindle doesn't come to its speed: nothing moves, and the large button says `Go on`, which waits for it
        once more. Once it turns as it has to the job goes on, to its end."""
        self.load(JOB)
        self.press("Run", "#run")
        for speed in (0, 1 << AT_SPEED):
            self.wait("s.held_by === 'spindle' && s.held_motors && s.word === 'Held'")
            self.says("Go on", is_dead=False)
            self.assertEqual(self.world.place, (0, 0, 0))
            self.world.set(_SPEED, speed)
            self.press("Go on", "#run")
            self.wait("s.held_by === ''")
        self.rests("s.finished && s.motors[0] === '4.000000'")


if __name__ == "__main__":
    unittest.main()
