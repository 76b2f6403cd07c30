"""A program from one of its lines on, from a page: over a simulated machine, and in a browser."""
import sys
import unittest
from pathlib import Path

sys.path.insert(0, str(Path(__file__).resolve().parent))

import test_page_browser
from page_support import OTHER
from test_page_measure import AtMachine
from test_page_probing import OverBodies

PART = """G21 G90 G17 G54 G94 G49
G0 X1 Y1
S800 M3
G0 Z4
G1 Z1 F300
G1 X6 F1200
Y5
X1
G0 Z4
M2
"""


LOOKS = """[...document.querySelectorAll('#over .look button')].map(one => [one.textContent,
    one.getAttribute('aria-pressed'), one.disabled])"""
"""What somebody has to look at: what is said of it, whether it is ticked, and whether it is dead."""
UNSEEN = """fetch('answer', { method: 'POST',
    body: JSON.stringify({ question: ngc.state.question.id, yes: true, seen: 2 }), headers: { 'Content-Type':
    'application/json', 'X-Page': sessionStorage.page, 'X-Stamp': ngc.state.stamp } }).then(answer => answer.ok)"""
"""Whether a yes is taken of which two of three were seen."""


class OverMachine(AtMachine):
    """The machine stands at X9 Y-9 Z2, beside the work."""

    def setUp(self) -> None:
        """Loads the part, and goes there."""
        super().setUp()
        self.seen.post("mdi", {"line": "G0 X9 Y-9 Z2"})
        self.seen.until("it is there", lambda s: not s["busy"] and s["at"][0] == "9.000000")
        self.load(self.seen, PART)
        self.world.forget_reached()

    def to_look(self, lift: str = "8") -> dict:
        """The state once it is asked to look, from line 7."""
        self.assertEqual(self.seen.post("from", {"line": 7}), (200, {}))
        state = self.seen.asked()
        self.assertIn("Up to which Z, in machine mm, from 2.000000 to 10.000000?", state["question"]["text"])
        for answer in (lift, "600", ""):
            self.seen.agree(state, answer)
            state = self.seen.asked()
        self.assertEqual((state["question"]["purpose"], state["spindle"]), ("look", 1))
        self.assertEqual(self.world.place, (9_000, -9_000, 2_000))
        return state

    def test_goes(self) -> None:
        """Nothing moves before somebody looked; then up, over and down, and the lines from there on, which keep their
        numbers. Nothing goes below the line's place, nor over the work lower than was said."""
        said = self.to_look()
        self.assertIn("in force there and not now: F1200; S800; M3", self.seen.said())
        self.assertEqual((said["spindle"], said["program"]["way"][1]), (1, 7))
        self.assertNotEqual(self.seen.post("answer", {"question": said["question"]["id"], "yes": True})[0], 200)
        self.seen.agree(said)
        state = self.seen.until("it is through", lambda s: s["finished"] and not s["busy"])
        self.assertEqual((self.world.place, state["program"]["way"][1]), ((1_000, 5_000, 4_000), 7))
        _, least, greatest = self.world.reached
        self.assertEqual((least, greatest), ((1_000, -9_000, 1_000), (9_000, 5_000, 8_000)))
        self.seen.until("it is drawn", lambda _: self.seen.job())

    def test_held(self) -> None:
        """Hold at the look is a no: all goes off, nothing has moved, and Run asks for the way anew."""
        self.to_look()
        self.seen.post("hold", {"touch": "a-touch"})
        state = self.seen.until("it is over", lambda s: not s["busy"] and not s["question"])
        self.assertEqual((state["spindle"], state["place"], self.world.place), (0, 0, (9_000, -9_000, 2_000)))
        self.assertFalse(state["finished"])
        self.assertEqual(self.seen.post("run"), (200, {}))
        self.assertIn("Up to which Z", self.seen.asked()["question"]["text"])

    def test_power_lost(self) -> None:
        """Power that is lost at the look: what is stored leads there by the way again, and by no other."""
        self.to_look()
        self.pull()
        self.begin()
        self.seen = self.page()
        state = self.seen.rested()
        self.assertEqual((state["program"]["way"][1], state["motors"]), (7, ["9.000000", "-9.000000", "2.000000"]))
        self.assertEqual((state["half"], *self.world.reached[1:]), ("none", *[(9_000, -9_000, 2_000)] * 2))

    def test_refused(self) -> None:
        """What can't be is said, and words that aren't a line's number aren't taken."""
        for words in ({}, {"line": "7"}, {"line": -1}, {"line": True}, {"line": 10**9}):
            self.assertEqual(self.seen.post("from", words)[0], 422, words)
        self.seen.post("from", {"line": 2})
        state = self.seen.until("it is refused", lambda s: not s["busy"] and s["word"] == "Refused")
        self.assertIn("isn't known", state["detail"])
        self.assertEqual((self.world.place, state["program"]["way"]), ((9_000, -9_000, 2_000), [0, 1]))


class InBrowser(test_page_browser.InBrowser):
    """The player is in this process."""

    def test_goes(self) -> None:
        """A line is touched, its button leads through the questions to the look, and what runs has its numbers."""
        browser = self.browser
        self.load(PART, 10)
        browser.wait("document.querySelectorAll('#program .row').length > 9")
        self.assertTrue(browser.js("document.getElementById('from').hidden"))
        browser.press("G54", "#program .row")
        browser.wait("ngc.program.chosen === 1")
        browser.js("new Promise(done => setTimeout(done, 500))")  # some states come
        self.assertTrue(browser.js("document.getElementById('from').hidden"))  # Run begins with it
        self.to_look()
        self.look("the look")
        browser.js("document.querySelectorAll('#over .look button').forEach(one => one.click())")
        browser.press("Yes: goes there", "#over .go")
        browser.wait("ngc.state.finished && !ngc.state.busy")
        rows = browser.js("[...document.querySelectorAll('#program .row span')].map(one => one.textContent)")
        self.assertEqual(rows[-4:], ["7", "8", "9", "10"])
        self.assertEqual(set(rows[:-4]), {"\u2193"})
        self.assertEqual(browser.js("document.getElementById('run').textContent"), "Run from 7")
        self.no_complaints()

    def to_look(self) -> None:
        """Line 7 is touched, and its button leads to the look."""
        browser = self.browser
        self.touch_row("Y5")
        browser.press("From line 7", "#from")
        for asked, answer in (("Up to which Z", "8"), ("How fast", "600")):
            browser.wait(f"document.querySelector('#over .asked').textContent.includes('{asked}')")
            browser.fill("#over .entry input", answer)
            browser.press("Go on", "#over .go")
        browser.press("Yes: stores and begins it", "#over .go")
        browser.wait("document.querySelectorAll('#over .look button').length === 3")

    def test_looks_anew(self) -> None:
        """What was ticked, the tool's line too, isn't any more once the page is loaded anew, nor where another page
        takes over; each is ticked there, before the yes is enabled. One that comes without that isn't taken."""
        browser = self.browser
        browser.press("Tools", "nav button")
        browser.fill("#tab-tools input[aria-label='Length of tool 1']", "50")
        browser.press("Add", "#tab-tools button")
        browser.wait("ngc.state.tools.length === 1 && !ngc.state.busy")
        browser.press("Program", "nav button")
        browser.fill("#line", "T1 M6")
        browser.press("Do", "#do")
        browser.press("Tool 1 is in", "#run")
        browser.wait("ngc.state.slot === 1 && !ngc.state.busy")
        self.load(PART, 10)
        browser.wait("document.querySelectorAll('#program .row').length > 9")
        self.to_look()
        self.assertEqual(browser.js(LOOKS), [["On, as it should be: the spindle, clockwise at 800", "false", False], [
            "Tool 1 is in the spindle, and it is sound", "false", False], ["The way is free, and my hand is at Hold",
                                                                        "false", False]])
        self.ticks_all()
        browser.open(self.address)
        browser.wait("window.ngc?.state?.yours")
        self.ticks_all()
        self.assertEqual(self.page(OTHER).post("takeover")[0], 200)
        browser.wait("!ngc.state.yours")
        browser.js("void sessionStorage.removeItem('page')")
        browser.open(self.address)  # a third page
        browser.wait("window.ngc?.state && !ngc.state.yours && document.querySelectorAll('#over .look button')"
                     ".length === 3")
        self.assertEqual([one[1:] for one in browser.js(LOOKS)], [["false", True]] * 3)
        browser.press("Take over", "#takeover")
        browser.wait("ngc.state.yours && !document.querySelector('#over .look button').disabled")
        self.assertFalse(browser.js(UNSEEN))
        self.ticks_all()
        self.assertEqual(browser.js("[ngc.state.motors.join(), ngc.state.question.purpose]"),
                         ["0.000000,0.000000,0.000000", "look"])
        browser.press("Yes: goes there", "#over .go")
        browser.wait("ngc.state.finished && !ngc.state.busy")

    def ticks_all(self) -> None:
        """Nothing is ticked; each is by a touch, and then the yes is enabled, and not before."""
        browser = self.browser
        browser.wait("document.querySelectorAll('#over .look button').length === 3")
        for number in range(3):
            self.assertEqual([one[1:] for one in browser.js(LOOKS)], [[str(i < number).lower(), False]
                                                                       for i in range(3)])
            self.assertTrue(browser.js("document.querySelector('#over .foot .go').disabled"))
            browser.press("", f"#over .look button:nth-child({number + 1})")
            browser.wait(f"document.querySelectorAll('#over .look [aria-pressed=true]').length === {number + 1}")
        self.assertFalse(browser.js("document.querySelector('#over .foot .go').disabled"))

    def touch_row(self, says: str) -> None:
        """A finger comes down on a line, and goes up once the rows were drawn anew, as where another line is under way.
        """
        at = self.browser.place(says, "#program .row")
        self.browser.down(*at)
        self.browser.js("void ngc.program.draw()")
        self.browser.frame()
        self.browser.up(*at)


class Jogged(OverBodies):
    """A machine that stands at 0."""

    def test_heights(self) -> None:
        """The heights that are asked, and where the machine stands, are those of now: after a jog, and after a zero,
        which moves the line's place. A no moves nothing."""
        browser = self.browser
        self.load(PART, 10)
        self.begins_at("1.000000", "the machine stands at X0 Y0 Z0")  # the line's Z is above
        browser.press("Setup", "nav button")
        browser.press("1", ".jog .choices button:nth-child(3)")
        for z in (1, 2, 3):
            browser.press("Z+", ".pad button")
            self.rests(f"Number(s.motors[2]) === {z}")
        self.begins_at("3.000000", "the machine stands at X0 Y0 Z3")
        browser.press("Setup", "nav button")
        browser.fill("input[aria-label='Work coordinate of this place, in mm']", "-1")
        browser.wait("document.querySelector('#tab-setup .hint:has(+ .four)').textContent"
                     ".startsWith('Takes machine X 0.000   Y 0.000   Z 3.000 mm, where the motors are')")
        self.press("Set Z", "#tab-setup .four button")
        self.begins_at("5.000000", "the tool is at X6 Y1 Z1 there, machine X6 Y1 Z5")  # the zero is at Z4
        self.assertEqual(self.world.place, (0, 0, 3_000))
        self.no_complaints()

    def begins_at(self, low: str, says: str) -> None:
        """From line 7 the way goes up to a height between this one and the travel's end, and says so much before."""
        browser = self.browser
        browser.press("Program", "nav button")
        if browser.js("ngc.program.chosen") != 7:
            browser.press("Y5", "#program .row")
        browser.press("From line 7", "#from")
        self.assertIn(f"Up to which Z, in machine mm, from {low} to 10.000000?", self.asked())
        self.assertIn(says, browser.js("document.querySelector('#over .words').textContent"))
        browser.press("No", "#over .foot button")
        self.rests()


if __name__ == "__main__":
    unittest.main()
