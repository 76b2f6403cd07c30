"""Deeds of a day by touch, in a browser: switches, macros, ways, a step by a key, offsets, inches, a job of the folder,
and one from its midst. What the page shows is compared with where the axes of the machine are, and with what is on
there. In Chromium, or in Firefox where NGC_BROWSER says so."""
import sys
import unittest
from pathlib import Path

sys.path.insert(0, str(Path(__file__).resolve().parent))

from browser_support import Chromium
from test_jobs import MOCKED
from test_moves import X_LOW, Y_LOW, Z_HIGH
from test_page_day import SOON
from test_page_probing import MM, OverBodies
from walk_machine import Telling

PART = """G21 G90 G17 G54 G94 G49
M3 S800
G0 X0 Y0 Z5
G1 Z1 F600
X3
Y2
X0
Y0
G0 Z5
M2
"""
"""Its line 6 goes along Y, within the work."""
UNSET = "G21 G90 G17 G54 G94\nG0 X1\nG0 Z2\nM2\n"
"""Its line 3 moves Z by the length that is in force before."""
CHANGE = """G21 G90 G17 G54 G94
G1 X1 F60
T2 M6
G43 H2
G1 X2 F60
M2
"""
"""Tool 2 comes in its line 3, between cuts of a second."""
PRESSES = 50
UNTOLD = "document.getElementById('toast').hidden || void document.dispatchEvent(new Event('pointerdown'))"
"""Nothing is told beside a button any more: another touch ends that, once it could be read."""
COMES = """void (window.comes = 0, new MutationObserver(() => { comes += 1; }).observe(
    document.querySelector('#tab-setup .why'), { attributes: true }))"""
"""How often the line above all of Setup comes or goes."""
WORDS = "document.querySelector('#over .words').textContent"
GAUGES = "[...document.querySelectorAll('#gauges dd')].slice(1, 3).map(one => one.textContent).join()"
"""Of spindle and coolant."""


class Deeds(OverBodies):
    """One after the other, on one machine, which homes at X-8 Y-7 Z9: 2, 2 and 1 mm off its switches."""

    MODEL = Telling
    JOBS = "jobs"

    def begin_player(self) -> None:
        """A folder of programs, macros, and switches."""
        Path("jobs").mkdir()
        Path("jobs/part.ngc").write_text(PART)
        Path("first.macros").write_text('Lift = ["G53 G0 Z3", "G53 G0 X1"]\nTurn = ["G18"]\nFar = ["M8", "G0 X99"]\n')
        super().begin_player()
        for number, (high, sign, at_mm) in enumerate(((X_LOW, -1, -10), (Y_LOW, -1, -9), (Z_HIGH, 1, 10))):
            self.world.switch(number, high, number, sign, at_mm * MM)

    def test_day(self) -> None:
        """Each of them."""
        self.browser.press("Setup", "nav button")
        for deed in (self.homes, self.switches, self.ways, self.steps, self.offsets, self.inches, self.job,
                     self.from_line):
            deed()
        self.no_complaints()

    def is_at(self, *at_mm: float, zero: tuple[float, ...] = (0, 0, 0), is_inch: bool = False) -> None:
        """The axes are there, and so the page says."""
        self.assertEqual(self.world.place, tuple(round(mm * MM) for mm in at_mm))
        self.shows("", zero, is_inch=is_inch)

    def homes(self) -> None:
        """All axes."""
        self.browser.press("Home all", "#tab-setup button")
        self.rests("s.homed === 'XYZ'")
        self.is_at(-8, -7, 9)

    def switches(self) -> None:
        """What turns and flows."""
        for says, on, told in (("Clockwise M3", (1, 1000, False, False), "\u21bb 1,000/min,off"),
                               ("Reverse M4", (2, 1000, False, False), "\u21ba 1,000/min,off"),
                               ("Flood M8", (2, 1000, False, True), "\u21ba 1,000/min,flood"),
                               ("Mist M7", (2, 1000, True, True), "\u21ba 1,000/min,mist + flood"),
                               ("Off M5", (0, 1000, True, True), "offset 1,000,mist + flood"),
                               ("Off M9", (0, 1000, False, False), "offset 1,000,off")):
            self.press(says, "#tab-setup button")
            now = self.world.outputs
            self.assertEqual((now.spindle, now.speed, now.mist, now.flood), on)
            self.assertEqual(self.browser.js(GAUGES), told)

    def ways(self) -> None:
        """A macro, which is read anew, above the zero, and parked: with all off. What a macro leaves in force is said;
        of one that has a line which `ngc` refuses none is done, and it is said which, and why."""
        self.browser.press("Read the macros", "#tab-setup button")
        self.browser.wait("[...document.querySelectorAll('#tab-setup .hint')].some(one => "
                          "/^Read at [\\d:]{8}: 3 in all$/.test(one.textContent))")
        self.press("Lift", "#tab-setup .macros button")
        self.is_at(1, -7, 3)
        self.press("Flood M8", "#tab-setup button")
        self.press("Above work zero", "#tab-setup button")
        self.is_at(0, 0, 9)
        self.assertTrue(self.world.outputs.flood)
        self.press("Park", "#tab-setup button")
        self.is_at(-8, -7, 9)
        self.assertFalse(self.world.outputs.flood)
        self.press("Turn", "#tab-setup .macros button")
        self.browser.wait("document.getElementById('log').textContent.includes('in force now: G18 (G17 before)')")
        self.browser.press("Far", "#tab-setup .macros button")
        self.toasts("macro Far: nothing is done: G0 X99: refused X2 OutsideTravel")
        self.rests()
        self.is_at(-8, -7, 9)
        self.assertFalse(self.world.outputs.flood)
        self.browser.wait(UNTOLD)

    def steps(self) -> None:
        """Two while the spindle turns, by which nothing on the page moves. One by a key, which is pressed anew where it
        came too late."""
        browser = self.browser
        browser.press("0.1", ".jog .choices button")
        self.press("Clockwise M3", "#tab-setup button")
        browser.js(COMES)
        for says in ("X+", "X\u2212"):
            self.press(says, ".pad button")
        self.assertEqual(browser.js("[comes, document.querySelector('#tab-setup .why').checkVisibility()]"), [0, True])
        self.press("Off M5", "#tab-setup button")
        browser.press("By keys", "#tab-setup button")
        for _ in range(PRESSES if isinstance(browser, Chromium) else 0):
            browser.key("rawKeyDown", "ArrowRight")
            browser.key("keyUp", "ArrowRight")
            if browser.js(SOON % "ngc.state.motors[0] > -8"):
                break
        self.rests()
        self.is_at(-7.9 if isinstance(browser, Chromium) else -8, -7, 9)

    def offsets(self) -> None:
        """The origin of G55 is set in the table; where its zero is the machine goes; it is taken back."""
        browser = self.browser
        browser.press("Offsets", "#tab-setup button")
        browser.press("G55", "#over .offsets button")
        browser.fill("#over input[aria-label='G55 X, in mm']", "2,5")
        browser.press("Set G55", "#over button")
        self.rests("Number(s.offsets.origins[1][0]) === 2.5")
        browser.press("Back", "#over button")
        self.do("G55 G0 X0 Y0")
        self.is_at(2.5, 0, 9, zero=(2.5, 0, 0))
        browser.press("Offsets", "#tab-setup button")
        browser.press("Undo: G", "#over button")
        self.rests("Number(s.offsets.origins[1][0]) === 0")
        browser.press("Back", "#over button")
        self.is_at(2.5, 0, 9)
        self.do("G54")

    def inches(self) -> None:
        """This place is a tenth of an inch, and the machine goes to the zero in inches; it is taken back."""
        browser = self.browser
        browser.press("Inches", "#tab-setup button")
        self.is_at(2.5, 0, 9, is_inch=True)
        browser.fill("input[aria-label='Work coordinate of this place, in in']", "0.1")
        browser.press("Set X", "#tab-setup .four button:first-child")
        self.rests("Number(s.origin[0]) === -0.04")
        self.is_at(2.5, 0, 9, zero=(-0.04, 0, 0), is_inch=True)
        self.do("G20 G0 X0.2")
        self.is_at(5.04, 0, 9, zero=(-0.04, 0, 0), is_inch=True)
        self.do("G21")
        browser.press("Inches", "#tab-setup button")
        self.is_at(5.04, 0, 9, zero=(-0.04, 0, 0))
        browser.press("Undo: G", "#tab-setup button")
        self.rests("Number(s.origin[0]) === 0")
        self.is_at(5.04, 0, 9)

    def job(self) -> None:
        """A program of the folder is chosen, loaded and run: the axes went where it says, and both lists have that."""
        browser = self.browser
        browser.press("Load", "#load")
        browser.press("part.ngc", "#over .jobs button")
        browser.wait("document.querySelector('#over h1').textContent === 'Load part.ngc'")
        browser.press("Load", "#over .foot button")
        self.rests("s.program.lines === 10 && ngc.job")
        self.do("G0 X0 Y0 Z5")
        self.world.forget_reached()
        browser.press("Run", "#run")
        self.rests("s.finished")
        self.is_at(0, 0, 5)
        self.assertEqual(self.world.reached[1:], ((0, 0, MM), (3 * MM, 2 * MM, 5 * MM)))
        browser.press("Load", "#load")
        browser.wait("document.querySelector('#over .jobs')?.textContent.includes('ended, through')")
        browser.press("Back", "#over button")
        browser.press("Log", "nav button")
        browser.press("Record of runs", "#runs")
        browser.wait("document.querySelector('#over pre').textContent.includes('began part.ngc')")
        browser.press("Back", "#over button")

    def from_line(self) -> None:
        """From line 6, beside the work: nothing moves before somebody looked; then no lower than said, and the rest."""
        browser = self.browser
        self.do("G0 X-4 Y-4")
        browser.press("Program", "nav button")
        browser.press("Y2", "#program .row")
        browser.press("From line 6", "#from")
        for asked, answer in (("Up to which Z", "9.5"), ("How fast", "600")):
            browser.wait(f"document.querySelector('#over .asked')?.textContent.includes('{asked}')")
            browser.fill("#over .entry input", answer)
            browser.press("Go on", "#over .go")
        browser.press("Yes: stores and begins it", "#over .go")
        browser.wait("document.querySelectorAll('#over .look button').length === 3")
        browser.js("document.querySelectorAll('#over .look button').forEach(one => one.click())")
        self.is_at(-4, -4, 5)
        self.assertEqual((self.world.outputs.spindle, self.world.outputs.speed), (1, 800))
        self.world.forget_reached()
        browser.press("Yes: goes there", "#over .go")
        self.rests("s.finished")
        self.is_at(0, 0, 5)
        self.assertEqual(self.world.reached[1:], ((-4 * MM, -4 * MM, MM), (3 * MM, 2 * MM, 9.5 * MM)))
        self.assertEqual(self.world.outputs.spindle, 0)


class Asked(OverBodies):
    """What is asked before it is done. Tool 2 is 3 mm long."""

    EXTRA = ""
    BEFORE = "tool 1 0\ntool 2 3\n"

    def test_length_in_force(self) -> None:
        """A program that moves Z before it sets a tool length begins by the one that is in force, which is told as it
        is looked at, and as it is loaded. Where that is another one since, it is asked: a no moves nothing."""
        browser = self.browser
        self.do("G43 H2")
        self.choose(UNSET)
        says = "it moves Z before it sets G43 or G49, and a length of 3.000 mm is in force, as it was left before"
        self.assertIn(f"Line 3  WarningG0 Z2{says}", browser.js(WORDS))
        browser.press("Load", "#over .go")
        self.rests("s.program.lines === 4 && ngc.job")
        self.toasts(f"line 3: {says}")
        browser.press("Run", "#run")
        self.rests("s.finished")
        self.assertEqual(self.world.place, (MM, 0, 5 * MM))
        self.do("G49")
        self.world.forget_reached()
        browser.press("Run", "#run")
        self.assertEqual(self.asked(), "begin all the same?")
        self.assertIn("line 3: it moves Z before it sets G43 or G49, and no tool length is in force", browser.js(WORDS))
        browser.press("No", "#over .foot button")
        self.rests("!s.finished")
        self.assertEqual(*self.world.reached[1:])
        browser.press("Run", "#run")
        browser.press("Yes: begins", "#over .go")
        self.rests("s.finished")
        self.assertEqual(self.world.place, (MM, 0, 2 * MM))
        self.shows("", length=0)
        self.no_complaints()

    def test_homes_by_a_line(self) -> None:
        """Of `G91 G28 Z0` it is said which axes move: by a no none does, and nothing is in force that wasn't."""
        browser = self.browser
        self.do("G0 X1 Y2 Z3")
        for answer, place, distance in (("No", (MM, 2 * MM, 3 * MM), 90), ("Yes: goes there", (0, 0, 0), 91)):
            self.world.forget_reached()
            browser.fill("#line", "G91 G28 Z0")
            browser.press("Do", "#do")
            self.assertTrue(self.asked().startswith(
                "G28 moves X, Y and Z, through what stands there, to machine X 0.000 Y 0.000 Z 0.000. To move Z alone"))
            self.assertEqual(*self.world.reached[1:])
            browser.press(answer, "#over .foot button")
            self.rests(f"s.distance === {distance}")
            self.assertEqual((self.world.place, self.world.reached[1:]), (place, (place, (MM, 2 * MM, 3 * MM))))
        self.no_complaints()


class Called(OverBodies):
    """By the clock. Somebody who isn't at the page, whose browser tells what it is asked to tell."""

    WORDS: list[str] = []
    EXTRA = ""
    BEFORE = "tool 1 0\ntool 2 3\n"

    def test_change(self) -> None:
        """Of a tool change amid a job the browser tells, once, by the band's words, and the screen stays on; then of
        the job's end."""
        browser = self.browser
        browser.open_with(MOCKED, self.address)
        browser.press("Setup", "nav button")
        browser.press("Tell me at a stop", "#tab-setup button")
        browser.wait("Notification.permission === 'granted'")
        self.load(CHANGE, CHANGE.count("\n"))
        self.assertEqual(browser.js("window.calls"), [])
        browser.press("Run", "#run")
        browser.wait("ngc.state.waits && window.calls.length")
        self.assertEqual(browser.js("[ngc.state.word, ngc.state.detail]"), ["Tool change", "Put in tool 2"])
        self.assertEqual(browser.js("[window.calls, window.kept]"), [[["Tool change", "Put in tool 2"]], ["screen"]])
        browser.press("Tool 2 is in", "#run")
        self.rests("s.finished")
        browser.wait("window.calls.length > 1 && window.kept.length > 1")
        self.assertEqual(browser.js("[window.calls.slice(1), window.kept]"),
                         [[["The job is done", "part.ngc"]], ["screen", "released"]])
        self.assertEqual(self.world.place, (2 * MM, 0, 0))
        self.no_complaints()

    def test_change_at_once(self) -> None:
        """So it does of one with which a job begins, before it was seen to run."""
        browser = self.browser
        browser.open_with(MOCKED, self.address)
        browser.js("Notification.requestPermission()")
        self.load(CHANGE.replace("G1 X1 F60\n", ""), CHANGE.count("\n") - 1)
        browser.press("Run", "#run")
        browser.wait("ngc.state.waits && window.calls.length")
        self.assertEqual(browser.js("window.calls"), [["Tool change", "Put in tool 2"]])
        browser.press("Tool 2 is in", "#run")
        self.rests("s.finished")
        browser.wait("window.calls.length > 1")
        self.assertEqual(browser.js("window.calls[1][0]"), "The job is done")


if __name__ == "__main__":
    unittest.main()
