"""Jogging by keys, by a wheel that sends keys and by a gamepad, in Chromium: when it is off, what ends it, and what is
refused. The player is in this process."""
import sys
import time
import unittest
from collections.abc import Callable
from pathlib import Path

sys.path.insert(0, str(Path(__file__).resolve().parent))

import test_page_browser
from browser_support import chromium
from firefox_support import IS_FIREFOX
from machine_support import ASKS

PRESSES = 50
REPEAT_S = 0.03
"""How often a keyboard repeats."""
SOON_S = 0.15
"""So soon an axis rests whose key isn't heard of."""
SWITCH = "[...document.querySelectorAll('#tab-setup .switch')].find(one => one.textContent.includes('By keys'))"
IS_ON = f"{SWITCH}.getAttribute('aria-checked') === 'true'"
TOAST = "document.getElementById('toast').checkVisibility() && document.getElementById('toast').textContent"
ENTRY = "document.querySelector('input[aria-label=\"Speed of the spindle\"]')"
"""One that isn't disabled while an axis is jogged."""
PADS = """void (() => {
    window.pad = { index: 0, connected: true, mapping: 'standard', axes: [0, 0, 0, 0],
      buttons: Array.from({ length: 17 }, () => ({ pressed: false })) };
    window.pads = [window.pad];
    Object.defineProperty(navigator, 'getGamepads', { value: () => window.pads, configurable: true });
})()"""
"""A gamepad that a test moves."""


@unittest.skipIf(IS_FIREFOX or not chromium(), "keys are sent to Chromium alone")
class WithKeys(test_page_browser.Moves):
    """The tab for setting up, with the switch on."""

    test_setup = test_axis_without_home = test_ended_in_an_alarm = None

    def setUp(self) -> None:
        """Opens the tab; the switch is off at first."""
        super().setUp()
        self.before = 0  # so many jogs were begun before the last press
        self.browser.press("Setup", "nav button")
        self.assertFalse(self.browser.js(IS_ON))
        self.switch_on()

    def tearDown(self) -> None:
        """No axis moves any more."""
        self.browser.open("about:blank")

    def switch_on(self) -> None:
        """Turns them on."""
        self.browser.press("Setup", "nav button")
        self.browser.press("By keys", "#tab-setup button")
        self.browser.wait(IS_ON)

    def down(self, key: str) -> None:
        """It goes down."""
        self.before = len(self.begun())
        self.browser.key("rawKeyDown", key)

    def up(self, key: str) -> None:
        """It goes up."""
        self.browser.key("keyUp", key)

    def repeats(self, key: str, seconds: float) -> None:
        """It is held, and repeats as keyboards have it; where the browser is late, those that are due come at once."""
        begun = time.monotonic()
        for due_s in (at * REPEAT_S for at in range(round(seconds / REPEAT_S))):
            time.sleep(max(0.0, begun + due_s - time.monotonic()))
            self.browser.key("rawKeyDown", key, autoRepeat=True)

    def words(self, verb: str = "jog") -> list[str]:
        """What the player was told, without the numbers of moves."""
        return [" ".join([word.split()[0], *word.split()[2:]]) for word in self.machine.axes.words
                if word.startswith(verb)]

    def begun(self) -> list[str]:
        """The jogs that were begun, each once."""
        numbers = dict.fromkeys(word.split()[1] for word in self.machine.axes.words if word.startswith("jog"))
        return [next(" ".join(word.split()[2:]) for word in self.machine.axes.words
                     if word.startswith("jog") and word.split()[1] == number) for number in numbers]

    def rests(self) -> None:
        """Nothing is under way."""
        self.browser.wait("!ngc.state.busy && ngc.state.machine === 'stands'")

    def goes(self) -> None:
        """One more jog was begun than before the last press."""
        self.wait_for("it jogs", lambda: len(self.begun()) > self.before)

    def goes_on(self) -> bool:
        """Whether that one goes on."""
        return bool(self.browser.js("ngc.keys.jog.isOn")) and len(self.begun()) > self.before

    def held(self, key: str) -> None:
        """A key is down, and an axis goes on: it is pressed anew where others want the processors, and the page is so
        late that it ends."""
        for _ in range(PRESSES):
            self.down(key)
            self.repeats(key, 0.15)
            if self.goes_on():
                return
            self.up(key)
            self.rests()
        self.fail("it never goes on")

    def says(self, text: str) -> None:
        """It stands where the finger was."""
        self.browser.wait(f"({TOAST}).toString().includes({text!r})")


class Keys(WithKeys):
    """Keys that are held."""

    def test_held(self) -> None:
        """An axis goes while its key is down, one move however often the key repeats, and stops as it is let go."""
        for key, way in (("ArrowRight", "X+"), ("ArrowLeft", "X-"), ("ArrowUp", "Y+"), ("ArrowDown", "Y-"),
                         ("PageUp", "Z+"), ("PageDown", "Z-")):
            self.held(key)
            self.up(key)
            self.rests()
            self.assertEqual((len(self.begun()), self.begun()[-1]), (self.before + 1, f"{way} 600"))

    def test_off(self) -> None:
        """Nothing goes while the switch is off: after a load, in an entry, in a window that isn't in front, or is
        hidden; and what goes then stops."""
        browser = self.browser
        for ends in (f"{ENTRY}.focus()", "document.querySelector('[data-tab=program]').click(),"
                     " document.getElementById('program').focus()", "window.dispatchEvent(new Event('blur'))",
                     "window.dispatchEvent(new Event('pagehide'))", "Object.defineProperty(document, 'hidden', {value:"
                     " true, configurable: true}), document.dispatchEvent(new Event('visibilitychange')), delete"
                     " document.hidden"):
            self.held("ArrowRight")
            browser.js(f"void ({ends})")
            self.rests()
            self.assertFalse(browser.js(IS_ON), ends)
            self.up("ArrowRight")
            count = len(self.words())
            self.down("ArrowLeft")
            self.up("ArrowLeft")
            browser.js("new Promise(done => setTimeout(done, 200))")
            self.assertEqual(len(self.words()), count, ends)
            self.switch_on()
        browser.open(self.address)
        browser.wait("window.ngc?.state?.yours")
        self.assertFalse(browser.js(IS_ON))

    def test_a_minute(self) -> None:
        """A minute without a key turns them off, and so does another window in front, of which nothing else is told; a
        key that is held doesn't."""
        browser = self.browser
        self.assertEqual([self.is_off_after(ms) for ms in (50_000, 60_000)], [False, True])
        self.switch_on()
        browser.js("void (document.hasFocus = () => false)")
        browser.wait(f"!({IS_ON})")
        browser.js("void (delete document.hasFocus)")
        self.switch_on()
        browser.js("void (ngc.keys.ms.off = 3000)")
        self.held("ArrowRight")
        self.repeats("ArrowRight", 4)
        self.assertTrue(browser.js(IS_ON))
        self.up("ArrowRight")
        browser.wait(f"!({IS_ON})")
        self.rests()

    def is_off_after(self, ms: int) -> bool:
        """Whether they are off soon after the last key was so long ago."""
        return bool(self.browser.js(f"(ngc.keys.used = performance.now() - {ms}, new Promise(done => setTimeout(() =>"
                                    f" done(!({IS_ON})), 100)))"))

    def test_two_keys(self) -> None:
        """Another key ends it; none begins before all are let go."""
        for other in ("ArrowUp", "a", "+"):
            self.held("ArrowRight")
            self.down(other)
            self.rests()
            self.says("Another key: it stops.")
            count = len(self.begun())
            self.repeats("ArrowRight", 0.1)
            self.up(other)
            if other == "ArrowUp":
                self.down(other)
                self.says("Another key is down: let all of them go first.")
                self.up(other)
            self.repeats("ArrowRight", 0.1)
            self.assertEqual(len(self.begun()), count)
            self.up("ArrowRight")
        self.down("ArrowUp")
        self.goes()
        self.up("ArrowUp")
        self.rests()

    def test_silent(self) -> None:
        """An axis rests soon once its key is silent, though nobody told that it was let go, unless the browser is late:
        so does one whose key was pressed and never repeats. One that goes down anew was up."""
        self.assertTrue(any(self.stands_s(self.held) < SOON_S for _ in range(PRESSES)))
        self.assertTrue(any(self.stands_s(self.pressed) < SOON_S for _ in range(PRESSES)))

    def pressed(self, key: str) -> None:
        """It goes down, and its axis goes."""
        self.down(key)
        self.goes()

    def stands_s(self, begins: Callable[[str], None]) -> float:
        """How long the axis still goes once its key came last, in seconds."""
        begins("ArrowRight")
        begun = time.monotonic()
        self.stands()
        return time.monotonic() - begun

    def stands(self) -> None:
        """The axis does, and its key isn't let go."""
        self.wait_for("it stands", lambda: self.machine.axes.machine is self.machine.axes.stands)
        self.browser.wait("!ngc.keys.jog.isOn && ngc.keys.held?.rests")

    def test_goes_again(self) -> None:
        """A key that repeats late moves its axis again, as far as nothing came between: no hold, no sheet, no other
        key. One that is let go meanwhile, or is silent for long, moves nothing more."""
        self.pressed("ArrowRight")
        self.stands()
        self.repeats("ArrowRight", 0.15)
        self.wait_for("it goes again", lambda: len(self.begun()) > self.before + 1)
        self.up("ArrowRight")
        self.rests()
        other = self.page("another-page")
        for comes, says in ((lambda: other.post("hold", {"touch": "a-touch"}), "somebody held since"),
                            (lambda: self.browser.press("Offsets", "#tab-setup button"), "A sheet is open"),
                            (lambda: self.down("ArrowUp"), ""), (lambda: self.up("ArrowRight"), ""),
                            (lambda: time.sleep(1.3), "")):
            self.pressed("ArrowRight")
            self.stands()
            comes()
            count = len(self.begun())
            self.repeats("ArrowRight", 0.2)
            self.says(says)
            self.rests()
            self.assertEqual(len(self.begun()), count, says)
            for key in ("ArrowRight", "ArrowUp"):
                self.up(key)
            if "sheet" in says:
                self.browser.press("Back", "#over button")

    def test_shortcuts(self) -> None:
        """A key with another one that changes what it means jogs nothing."""
        for changes in (1, 2, 4, 8):  # alt, control, meta, shift
            for kind in ("rawKeyDown", "keyUp"):
                self.browser.key(kind, "ArrowRight", modifiers=changes)
        self.browser.js("new Promise(done => setTimeout(done, 200))")
        self.assertEqual(self.words(), [])

    def test_refused(self) -> None:
        """Where nothing is jogged by a button a key says why: a sheet is open, a line runs, an alarm, another page."""
        browser = self.browser
        browser.press("Offsets", "#tab-setup button")
        self.down("ArrowRight")
        self.says("A sheet is open: close it first.")
        self.up("ArrowRight")
        browser.press("Back", "#over button")
        self.machine.axes.refuses = "the emergency stop is on"
        self.down("ArrowRight")
        self.says("the emergency stop is on")
        self.up("ArrowRight")
        self.rests()
        self.machine.axes.alarm("limits")
        browser.wait("ngc.state.alarm && !document.getElementById('over').hidden")
        browser.press("Back", "#over button")
        if not browser.js(IS_ON):
            self.switch_on()
        self.down("ArrowRight")
        self.says("After the alarm home comes first.")
        self.up("ArrowRight")
        self.assertEqual(self.begun(), ["X+ 600"])  # the one that was refused by the player

    def test_another_page(self) -> None:
        """As another page takes over they go off, and the axis stops."""
        other = self.page("another-page")
        self.held("ArrowRight")
        other.post("takeover")
        self.browser.wait("!ngc.state.yours")
        self.wait_for("it stands", lambda: self.machine.axes.machine is self.machine.axes.stands)
        self.assertFalse(self.browser.js(IS_ON))
        self.assertTrue(self.browser.js(f"{SWITCH}.disabled"))

    def test_hold(self) -> None:
        """The space bar holds; the key that is still down begins nothing."""
        self.held("ArrowRight")
        self.browser.space()
        self.rests()
        count = len(self.begun())
        self.repeats("ArrowRight", 0.3)
        self.assertEqual(len(self.begun()), count)
        self.up("ArrowRight")


class Wheel(WithKeys):
    """Steps, by keys and by a wheel that sends keys."""

    def setUp(self) -> None:
        """A step of a tenth."""
        super().setUp()
        self.browser.press("0.1", ".jog .choices button")

    def click(self, key: str) -> None:
        """A click of the wheel."""
        self.down(key)
        self.up(key)

    def steps(self, key: str, wanted: str) -> None:
        """A click, or a key, is a step: once more where the page is so late that it isn't done."""
        for _ in range(PRESSES):
            count = len(self.begun())
            self.down(key)
            self.repeats(key, 0.2)
            self.up(key)
            if len(self.begun()) > count:
                self.assertEqual(self.begun()[count:], [wanted])
                return
        self.fail("no step is made")

    def test_clicks(self) -> None:
        """Each click is a step along the axis that is chosen; a key is one too, and repeats of it aren't."""
        self.steps("+", "X+ 600 for 0.1")
        self.rests()
        self.click("z")
        self.steps("-", "Z- 600 for 0.1")
        self.rests()
        self.steps("ArrowUp", "Y+ 600 for 0.1")
        self.rests()

    def test_not_queued(self) -> None:
        """While a step is under way, clicks are kept for a moment, and made in one step; older ones aren't made."""
        self.machine.axes.asks = 10**9  # the step goes on until it is let end
        self.steps("+", "X+ 600 for 0.1")
        for _ in range(20):
            self.click("+")
        self.browser.js("new Promise(done => setTimeout(done, 300))")
        for _ in range(3):
            self.click("+")
        self.machine.axes.asks = ASKS  # of a step behind it
        self.machine.axes.finish()
        self.rests()
        self.browser.js("new Promise(done => setTimeout(done, 300))")
        self.rests()
        self.assertEqual(self.begun()[0], "X+ 600 for 0.1")
        self.assertLessEqual(len(self.begun()), 2)
        if len(self.begun()) == 2:
            self.assertIn(self.begun()[1], [f"X+ 600 for 0.{count}" for count in (1, 2, 3)])

    def test_there_and_back(self) -> None:
        """Clicks there and back in one moment are none; where the page is so late that one is too old, once more."""
        for _ in range(10):
            count = len(self.begun())
            self.machine.axes.asks = 10**9
            self.steps("+", "X+ 600 for 0.1")
            self.click("+")
            self.click("-")
            self.machine.axes.asks = ASKS
            self.machine.axes.finish()
            self.rests()
            self.browser.js("new Promise(done => setTimeout(done, 300))")
            self.rests()
            if self.begun()[count:] == ["X+ 600 for 0.1"]:
                return
        self.fail("clicks there and back are steps")

    def test_no_step(self) -> None:
        """A wheel wants a step that is chosen."""
        self.browser.press("Cont.", ".jog .choices button")
        self.click("+")
        self.says("Choose a step for the wheel, as 0.1.")
        self.assertEqual(self.words(), [])


class Gamepad(WithKeys):
    """A gamepad, as the browser tells of one."""

    def setUp(self) -> None:
        """One that is still."""
        super().setUp()
        self.browser.js(PADS)

    def push(self, number: int, by: float) -> None:
        """Pushes a stick."""
        self.before = len(self.begun())
        self.browser.js(f"void (pad.axes[{number}] = {by})")
        self.browser.js("new Promise(done => setTimeout(done, 100))")

    def pushed(self, number: int, by: float) -> None:
        """A stick is pushed out of the middle, and an axis goes on: it is pushed anew where the page is so late that it
        ends."""
        for _ in range(PRESSES):
            self.push(number, 0)
            self.push(number, by)
            if self.goes_on():
                return
            self.rests()
        self.fail("it never goes on")

    def shoulder(self, is_held: bool, number: int = 5) -> None:
        """Holds a shoulder button, and waits until that is seen."""
        self.browser.js(f"void (pad.buttons[{number}].pressed = {str(is_held).lower()})")
        self.browser.js("new Promise(done => setTimeout(done, 100))")

    def stands(self) -> None:
        """Nothing moves for a while."""
        count = len(self.words())
        self.browser.js("new Promise(done => setTimeout(done, 250))")
        self.assertEqual(len(self.words()), count)
        self.rests()

    def test_sticks(self) -> None:
        """While a shoulder button is held it goes along one axis, as fast as the stick says, until that is let go."""
        self.push(0, 1)
        self.stands()  # no button is held
        self.shoulder(True)
        self.stands()  # nor does it go where the stick was pushed before
        for number, by, way in ((0, 1, "X+ 600"), (0, -0.5, "X- 100"), (1, 1, "Y- 600"), (1, -0.4, "Y+ 100"),
                                (3, -1, "Z+ 600"), (3, 0.5, "Z- 100")):
            self.pushed(number, by)
            self.assertEqual(self.begun()[-1], way)
            self.push((number + 1) % 4, 0.9)  # another one: one axis at a time
            self.assertEqual(len(self.begun()), self.before)
            self.browser.js("void pad.axes.fill(0)")
            self.rests()

    def test_unknown(self) -> None:
        """One whose buttons the browser doesn't know goes nowhere, which is said."""
        self.browser.js("void (pad.mapping = '')")
        self.shoulder(True)
        self.push(0, 1)
        self.says("The browser doesn\u2019t know which button of this gamepad is which")
        self.assertEqual(self.words(), [])

    def test_dead_zone(self) -> None:
        """A stick that is hardly pushed goes nowhere."""
        self.shoulder(True)
        self.push(0, 0.29)
        self.stands()
        self.assertEqual(self.words(), [])

    def test_faster(self) -> None:
        """Pushed farther it goes a step faster, by another move."""
        self.shoulder(True, 4)
        for _ in range(PRESSES):
            self.pushed(0, 0.5)
            self.assertEqual(self.begun()[-1], "X+ 100")
            self.push(0, 1)
            if self.goes_on():
                break
        self.assertEqual(self.begun()[-1], "X+ 600")
        self.push(0, 0)
        self.rests()

    def test_ends(self) -> None:
        """It stops as the button is let go, as the gamepad is gone, as the switch goes off and as somebody holds, and
        begins again only once the sticks were in the middle."""
        for ends, again in (("pad.buttons[5].pressed = false", "pad.buttons[5].pressed = true"),
                            ("pads = [null]", "pads = [pad]"), ("pad.connected = false", "pad.connected = true"),
                            (f"{ENTRY}.focus()", "pad.index = 0")):
            self.shoulder(True)
            self.pushed(0, 1)
            self.browser.js(f"void ({ends})")
            self.rests()
            if not self.browser.js(IS_ON):
                self.switch_on()
            self.browser.js(f"void ({again})")
            self.stands()
        self.pushed(0, 1)
        self.browser.space()
        self.rests()
        self.stands()


if __name__ == "__main__":
    unittest.main()
