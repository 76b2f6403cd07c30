"""What goes wrong amid a job, by touch, in a browser over a simulated machine: a tool that breaks, a limit, a player
that is gone, and power that is lost. What moves is told by the machine's model. In Chromium, or in Firefox where
NGC_BROWSER says so."""
import os
import shutil
import signal
import sys
import unittest
from dataclasses import replace
from itertools import pairwise
from math import hypot
from pathlib import Path
from statistics import median

sys.path.insert(0, str(Path(__file__).resolve().parent))

import test_page_browser
import test_page_probing
from session_support import ngc
from test_moves import X_HIGH, X_LOW, Y_LOW, Z_HIGH
from test_page_probing import MM, OverBodies
from walk_machine import Telling

PART = """G21 G90 G17 G54 G94
G43 H2
M3 S800
G0 X0 Y0 Z5
G1 Z1 F600
X5 F60
Y2 F600
X0
G0 Z5
M5
M2
"""
"""Its line 6 is a cut of five seconds."""
CHANGE = """G21 G90 G17 G54 G94
T2 M6
G43 H2
G0 X0 Y0 Z5
G1 X9 F60
M2
"""
"""Its line 5 is a cut of nine seconds."""
SLANTED = """G21 G90 G17 G54 G94
M3 S800
G0 X0 Y0 Z0
G1 X6 Y3 F60
M2
"""
"""Its line 4 is a cut of seven seconds."""
WORDS = "document.querySelector('#over .words').textContent"


class Broken(test_page_probing.Setter):
    """By the clock. Tool 2, 3 mm long, is in the spindle."""

    WORDS: list[str] = []
    MODEL = Telling
    test_setter = test_measured = None

    def test_on_from_its_line(self) -> None:
        """It breaks within a line, which is held and given up. One that is 4 mm long is put in, and measured by the
        page's button; then the job goes on from that line to its end, with the new length. Nothing goes where no
        question said."""
        self.stands(length=3, y=6)
        self.puts_in(2)
        self.load(PART, PART.count("\n"))
        self.breaks()
        self.shows("3.000", length=3)
        self.do("G53 G0 Z9")
        self.stands(length=4, y=6)
        stood = self.world.place
        self.measures()
        named = self.agrees()
        self.rests("Number(s.tools[1]) === 4")
        self.stays_within(named)
        self.assertEqual(self.world.place, stood)
        self.shows("4.000", length=3)  # until a line takes it
        self.goes_on()
        self.no_complaints()

    def breaks(self) -> None:
        """The job is held within its cut, and ended; the line is given up, and nothing turns any more."""
        browser, world = self.browser, self.world
        browser.press("Run", "#run")
        browser.wait("ngc.state.line === 6 && ngc.state.motors[0] > 0.5")
        browser.press("Hold", "#hold")
        self.rests("s.does === 'held' && s.held_motors")
        stood = world.place
        self.assertTrue(0.5 * MM < stood[0] < 5 * MM and stood[1:] == (0, 4 * MM), stood)
        browser.press("Stop", "#stop")
        browser.press("Yes: gives it up", "#over .go")
        self.rests("s.half === 'none' && s.does === 'idle' && s.line === 6 && s.known")
        self.assertEqual((world.place, world.outputs.spindle), (stood, 0))

    def goes_on(self) -> None:
        """From the line that was held, by a way up to Z 9.5 and down to where it begins, once somebody looked."""
        browser, world, stood = self.browser, self.world, self.world.place
        browser.press("Program", "nav button")
        browser.press("X5 F60", "#program .row")
        browser.press("From line 6", "#from")
        self.assertIn("Up to which Z, in machine mm, from 9.000000 to 10.000000?", self.asked())
        self.assertIn("in force there and not now: G43 H2; M3\n", browser.js(WORDS))
        for asked, answer, unit in (("Up to which Z", "9.5", "mm"), ("How fast", "600", "mm/min")):
            browser.wait(f"document.querySelector('#over .asked')?.textContent.includes('{asked}')")
            self.assertEqual(browser.js("document.querySelector('#over .entry').textContent.trim()"), unit)
            browser.fill("#over .entry input", answer)
            browser.press("Go on", "#over .go")
        world.forget_reached()
        browser.press("Yes: stores and begins it", "#over .go")
        browser.wait("document.querySelectorAll('#over .look button').length === 3")
        self.assertTrue(browser.js("document.querySelector('#over .foot .go').disabled"))
        self.assertEqual((world.reached[1:], world.outputs.spindle), ((stood, stood), 1))
        browser.js("document.querySelectorAll('#over .look button').forEach(one => one.click())")
        browser.press("Yes: goes there", "#over .go")
        self.rests("s.finished")
        self.assertEqual(world.reached[1:], ((0, 0, 5 * MM), (5 * MM, 2 * MM, 9.5 * MM)))
        self.assertEqual((world.place, world.outputs.spindle), ((0, 2 * MM, 9 * MM), 0))
        self.shows("4.000", length=4)


class Limit(OverBodies):
    """A machine that homes at X-8 Y-7 Z9, and has a limit at X9."""

    def begin_player(self) -> None:
        """Its switches."""
        super().begin_player()
        for number, (high, axis, sign, at_mm) in enumerate(((X_LOW, 0, -1, -10), (Y_LOW, 1, -1, -9), (Z_HIGH, 2, 1, 10),
                                                            (X_HIGH, 0, 1, 9))):
            self.world.switch(number, high, axis, sign, at_mm * MM)

    def test_way_back(self) -> None:
        """A jog onto it ends there: the band names it, and the way back says that it is on, until the axis is freed by
        hand. Home leads away from its own switches, and then lines go on."""
        browser, world = self.browser, self.world
        browser.press("Setup", "nav button")
        browser.press("10", ".jog .choices button")
        browser.press("X+", ".pad button")
        browser.wait("ngc.state.alarm === 'limits' && document.querySelector('#over .go')")
        self.assertTrue(9 * MM <= world.place[0] < 9.1 * MM and world.place[1:] == (0, 0), world.place)
        self.assertEqual(browser.js("document.getElementById('word').textContent"), "ALARM")
        self.assertTrue(browser.js("document.getElementById('detail').textContent").startswith("Limit X high. "))
        self.assertEqual(browser.js("document.querySelector('#over .lead').textContent"), "limit X high")
        browser.wait(f"{WORDS}.includes('On: limit x high. Home leads away from its own switches alone')")
        world.place = (8 * MM, 0, 0)
        browser.wait(f"!{WORDS}.includes('On: limit')")
        browser.press("Home", "#over .go")
        self.rests("s.homed === 'XYZ' && s.word === 'Idle'")
        self.assertEqual(world.place, (-8 * MM, -7 * MM, 9 * MM))
        self.do("G0 X1 Y2 Z3")
        self.assertEqual(world.place, (MM, 2 * MM, 3 * MM))
        self.shows("")
        self.no_complaints()


class Named(test_page_browser.Moves):
    """What the band calls what stops the machine, and what moves it, in both languages; the player is in this process.
    """

    test_setup = test_axis_without_home = test_ended_in_an_alarm = None

    def setUp(self) -> None:
        """Opens Setup. The page is left in English."""
        super().setUp()
        self.addCleanup(self.speaks, "en")
        self.browser.press("Setup", "nav button")

    def names(self, word: str, detail: str, german_word: str, german: str) -> None:
        """The band comes to say so, and in German that."""
        for language, says, begins in (("en", word, detail), ("de", german_word, german)):
            self.speaks(language)
            self.browser.wait(f"document.getElementById('word').textContent === '{says}'"
                              f" && document.getElementById('detail').textContent.startsWith('{begins}')")
        self.speaks("en")

    def alarms(self, cause: str, *on: str) -> None:
        """An alarm comes, with these inputs on, in one moment."""
        axes = self.machine.axes
        axes.stands = axes.machine = replace(axes.stands, homed="", alarm=cause, on=on)
        axes.word = "alarm"

    def is_freed(self) -> None:
        """The inputs are off, and the place is known again."""
        self.machine.axes.release()
        self.machine.axes.end_alarm()
        self.browser.wait("ngc.state.alarm === '' && ngc.state.word === 'Idle'")

    def test_alarms(self) -> None:
        """Each limit by its axis and its end, two of them, and the emergency stop."""
        for axis in "XYZ":
            for end, german in (("low", "unten"), ("high", "oben")):
                self.alarms("limits", f"limit_{axis.lower()}_{end}")
                self.names("ALARM", f"Limit {axis} {end}. ", "ALARM", f"Endschalter {axis} {german}. ")
                self.is_freed()
        self.alarms("limits", "limit_x_high", "limit_z_low")
        self.names("ALARM", "Limit X high and limit Z low. ", "ALARM", "Endschalter X oben und Endschalter Z unten. ")
        self.is_freed()
        self.alarms("emergency_stop", "emergency_stop")
        self.names("ALARM", "Emergency stop. ", "ALARM", "Not-Halt. ")
        self.is_freed()

    def test_door_in_an_alarm(self) -> None:
        """The way back is dead while the door is open, and says so."""
        home = "document.querySelector('#over .foot .go')"
        self.alarms("emergency_stop", "door")
        self.browser.wait(f"{home}?.textContent === 'Home' && {home}.disabled && document.querySelector('#over .warn')"
                          "?.textContent === 'The door is open: nothing moves until it is closed.'")
        self.alarms("emergency_stop")
        self.browser.wait(f"!{home}.disabled && !document.querySelector('#over .warn')")
        self.is_freed()

    def test_moves(self) -> None:
        """Home by the axis that goes, a jog by its way; and the door."""
        browser, axes = self.browser, self.machine.axes
        axes.asks = 10**9
        for number, says, detail in ((1, "Home all", "Z"), (3, "Y", "Y")):
            browser.press(says, f"#tab-setup .four button:nth-child({number})")
            self.names("Homing", detail, "Referenzfahrt", detail)
            axes.finish()
            browser.wait("!ngc.state.busy")
        browser.press("10", ".jog .choices button")
        axes.asks = 10**9
        browser.press("X+", ".pad button")
        self.names("Jogging", "X+", "Handfahrt", "X+")
        axes.finish()
        browser.wait("!ngc.state.busy")
        axes.stands = axes.machine = replace(axes.stands, on=("door",))
        self.names("Door open", "Nothing moves while it is open", "T\u00fcr offen", "Nichts bewegt sich")
        self.no_complaints()


class Gone(OverBodies):
    """By the clock. The player is killed in a cut."""

    WORDS: list[str] = []
    EXTRA = ""
    BEFORE = "tool 1 2\ntool 2 3\n"

    def test_last_known(self) -> None:
        """The place and the tool that are shown are those that it told last, and since when is said; the tool is the
        one that came in the job, and not the one before it."""
        browser = self.browser
        self.puts_in(1)
        self.do("G0 Z1")
        self.shows("2.000")
        self.load(CHANGE, CHANGE.count("\n"))
        browser.press("Run", "#run")
        browser.press("Tool 2 is in", "#run")
        browser.wait("ngc.state.line === 5 && ngc.state.motors[0] > 0.5")
        self.player.kill()
        self.player.wait()
        stood = self.world.place
        browser.wait("ngc.state.word === 'Player gone'")
        gauges = browser.js("[...document.querySelectorAll('#gauges dd')].slice(1).map(one => one.textContent)")
        self.assertEqual(gauges, ["not known", "not known", "T23.000 mm"])
        x, y, z = browser.js("[...document.querySelectorAll('.axis output')].map(one => one.textContent)")
        self.assertTrue(0.5 < float(x) <= stood[0] / MM + 0.001, (x, stood))
        self.assertEqual((y, z), ("0.000", "5.000"))
        self.assertRegex(browser.js("document.getElementById('risk').textContent"), r"^Last known \d.* ago$")
        self.assertNotEqual(*browser.js("""['.axis output', '.axis > b'].map(one =>
            getComputedStyle(document.querySelector(one)).color)"""))
        self.no_complaints()


class Lost(OverBodies):
    """By the clock. Power is lost within a slanted cut, with a pipe as OUT."""

    WORDS: list[str] = []
    MODEL = Telling
    OUT = "axis"
    EXTRA = ""
    has_ramps = True

    def player_words(self) -> list[str]:
        """A player without the machine's file takes no override."""
        words = super().player_words()
        return words if self.has_ramps else [word for word in words if word not in ("-m", "motion.toml")]

    def cuts(self) -> None:
        """The job is loaded, and cuts in its line 4."""
        self.load(SLANTED, SLANTED.count("\n"))
        self.browser.press("Run", "#run")
        self.browser.wait("ngc.state.line === 4 && ngc.state.half === 'program' && ngc.state.motors[0] > 0.8")
        self.wait_for("the record has it", lambda: self.recorded().at_nm[0] > 500_000)

    def comes_back(self) -> None:
        """Power is lost, and comes back: the new address is opened, and shows what was stored."""
        self.pull()
        self.world.lose_power()
        self.begin()
        self.browser.open(self.address)
        self.browser.wait("window.ngc?.state?.yours && ngc.jobId !== null")
        self.browser.hurry()
        self.browser.forget()  # what was asked of the address before
        self.browser.wait("document.querySelector('#over .facts')?.textContent.includes('It begins at')")

    def measured(self) -> None:
        """From the first step to the last one: somebody measures where the machine stands."""
        self.browser.press("Next", "#over button")
        for axis, at in zip("XYZ", self.world.place):
            self.browser.fill(f"input[aria-label='Machine {axis}']", f"{at / MM:.3f}")
        for _ in "XYZ":
            self.browser.press("Confirm", "#over button")
        self.browser.press("Next", "#over button")
        self.browser.wait(f"document.querySelector('#over details') && {WORDS}.includes('one straight line of')")
        self.browser.press("Next", "#over button")

    def test_straight(self) -> None:
        """Resumed in one straight line: nothing moves before somebody looked; then it goes straight to where the cut
        began, no faster than was answered, and cuts on after another yes."""
        browser, world = self.browser, self.world
        self.cuts()
        self.comes_back()
        self.measured()
        x, y, _ = stood = world.place
        world.forget_reached()
        browser.press("Resume in one line", "#over .foot button")
        browser.wait("document.querySelector('#over .asked')?.textContent.includes('It was cut off at 60')")
        browser.fill("#over .entry input", "40")
        browser.press("Go on", "#over .go")
        browser.press("Yes: switches it on first", "#over .go")
        browser.wait("document.querySelectorAll('#over .look button').length === 3")
        self.assertTrue(browser.js("document.querySelector('#over .foot .go').disabled"))
        self.assertEqual((world.reached[1:], world.outputs.spindle, world.outputs.speed), ((stood, stood), 1, 800))
        browser.js("document.querySelectorAll('#over .look button').forEach(one => one.click())")
        begun = world.pulses
        browser.press("Yes: goes there", "#over .go")
        browser.wait("ngc.state.question?.text.includes('goes on with the cut')")
        self.assertEqual((world.place, world.reached[1:]), ((0, 0, 0), ((0, 0, 0), stood)))
        way = list(world.between(begun, world.pulses))
        self.assertLess(max(abs(one.place[0] * y - one.place[1] * x) for one in way) / hypot(x, y), 2)
        apart_s = median(after.at - before.at for after, before in pairwise(way))
        self.assertGreater(apart_s, 0.95 * 60 / 40 / MM * hypot(x, y) / x)
        browser.press("Yes: goes on with the cut", "#over .go")
        browser.wait("ngc.state.does === 'running' && ngc.state.motors[0] > 0.2")
        self.assertTrue(world.place[0] > 0.2 * MM and world.outputs.spindle == 1, world.place)
        self.no_complaints()

    def test_given_back(self) -> None:
        """An override of 50 % is given back, and the first step says so; to a player that takes none it isn't, which is
        said too."""
        browser = self.browser
        self.cuts()
        for percent in (90, 80, 70, 60, 50):
            browser.press("\u2212", "#override button")
            browser.wait(f"ngc.state.percent === {percent}")
        self.comes_back()
        self.assertIn("Given back, as it was: feed 50 %.", browser.js(WORDS))
        self.assertNotIn("Not given back", browser.js(WORDS))
        self.assertEqual(browser.js("document.querySelector('#override').innerText.includes('Feed 50 %')"), True)
        self.has_ramps = False
        self.comes_back()
        self.assertIn("Not given back, since the player doesn\u2019t take it: feed 50 %.", browser.js(WORDS))
        self.assertEqual(browser.js("ngc.state.percent"), 100)
        self.no_complaints()


class InHand(Lost):
    """Motors are held within that cut, with lines in hand, over a file; the page's server and `ngc` are killed."""

    OUT = "out"
    test_straight = test_given_back = None

    def begin_player(self) -> None:
        """There is one as long as it isn't killed."""
        if not Path("progress").exists():
            super().begin_player()

    def test_comes_first(self) -> None:
        """While there are some the line can't be given up, which would be refused, and it is said why; Stop can end it.
        """
        browser = self.browser
        self.cuts()
        browser.press("Hold", "#hold")
        browser.wait("ngc.state.held_motors && ngc.state.behind > 0")
        for pid in (*self.children(), self.server.pid):
            os.kill(pid, signal.SIGKILL)
        self.server.wait()
        self.begin_again()
        browser.wait("ngc.state?.yours && ngc.state.half !== 'none' && ngc.state.held_motors && ngc.state.behind > 0")
        self.to_choice()
        ways = "[...document.querySelectorAll('#over .foot button:enabled')].map(one => one.textContent).join()"
        self.assertEqual(browser.js(ways), "Back,Go along the path")
        self.assertRegex(browser.js("document.querySelector('#over .words').textContent"), r"have [\d,]+ lines in hand")
        browser.press("Stop", "#stop")
        browser.press("Yes", "#over .go")
        browser.wait("ngc.state.behind === 0 && ngc.state.half === 'none' && !ngc.state.busy")
        self.no_complaints()

    def to_choice(self) -> None:
        """Through the steps to the last one: the motors stand where they are shown."""
        browser = self.browser
        browser.wait("document.querySelector('#over .facts')?.textContent.includes('It begins at')")
        browser.press("Next", "#over button")
        for _ in "XYZ":
            browser.press("Confirm", "#over button")
        browser.press("Next", "#over button")
        browser.wait("document.querySelector('#over details')")
        browser.press("Next", "#over button")
        browser.wait("document.querySelector('#over .words')?.textContent.includes('Give up')")


class Nowhere(test_page_browser.InBrowser):
    """A page without a player, over a device whose line was cut off."""

    OUT = "out"

    def device(self) -> None:
        """The session ended within a line."""
        super().device()
        text = "G21 G90 G17 G94\nG0 X1\nG1 X5 F60\nM2\n"
        self.run_ngc(f"load {len(text)}\n{text}start\ntick 1100\n", "before")

    def begin(self) -> None:
        """Starts the server alone."""
        self.server = self.start("ngc-page", "mill.dev", "first.toml", "out", "--ngc", ngc(), "--listen", "127.0.0.1:0")
        self.address = self.server.stdout.readline().strip()
        if not self.address:
            self.fail(self.server.stderr.read())

    def test_dash(self) -> None:
        """As long as nobody told where the machine stands a dash stands in the place of each number, and where the line
        began is named as that; then the place is shown that was measured."""
        browser, numbers = self.browser, "[...document.querySelectorAll('.axis output')].map(one => one.textContent)"
        browser.wait("document.querySelector('#over .facts')?.textContent.includes('It begins at')")
        self.assertEqual(browser.js(numbers), ["\u2013"] * 3)
        self.assertEqual(browser.js("document.querySelector('.axis > div span').textContent"), "line began at 1.000")
        self.assertRegex(browser.js("document.getElementById('risk').textContent"),
                         r"^Before the line that was cut off; the device was written .* ago$")
        browser.press("Next", "#over .go")
        self.assertIn("no player is known: measure it; before the line 1.000", browser.js(WORDS))
        for axis, at in (("X", "1.5"), ("Y", "0"), ("Z", "-0.25")):
            browser.fill(f"input[aria-label='Machine {axis}']", at)
        for _ in "XYZ":
            browser.press("Confirm", "#over button")
        self.gives_line_up()
        browser.wait("ngc.state.half === 'none' && ngc.state.known && !ngc.state.busy")
        self.assertEqual(browser.js(numbers), ["1.500", "0.000", "\u22120.250"])
        self.assertEqual(browser.js("document.getElementById('risk').textContent"), "")
        self.no_complaints()


class Counted(Nowhere):
    """The same over one that was cut off within the third of the four segments of a cycle: over, down to R, and into
    the work; then it would go back."""

    TEXT = "G21 G90 G17 G94 G98\nG0 X0 Y0 Z2\nG81 X1 Y1 Z-1 R1 F60\nM2\n"
    test_dash = None

    def device(self) -> None:
        """2 mm up, 1 mm over, 1 mm down, and half a millimetre into the work, in steps of a micrometre."""
        test_page_browser.InBrowser.device(self)
        self.run_ngc(f"load {len(self.TEXT)}\n{self.TEXT}start\ntick 4500\n", "before")

    def test_segment(self) -> None:
        """The page counts it from 0, says so, and names the number that the console names."""
        shutil.copy("mill.dev", "copy.dev")
        console = self.tool("ngc-operate", "--ngc", ngc(), "copy.dev", "first.toml", "before", text="quit\n")
        self.assertIn("in segment 2 of 4, counted from 0. Nothing moves", console.stdout + console.stderr)
        self.browser.wait("document.querySelector('#over .facts')?.textContent.includes('It begins at')")
        facts = dict(self.browser.js("""[...document.querySelectorAll('#over .facts dt')].map(one =>
            [one.textContent, one.nextSibling.textContent])"""))
        self.assertEqual(facts["Under way"], "segment 2 of that line, counted from 0")
        self.assertEqual(facts["Half-done"], "line 3 of 4")
        self.no_complaints()


if __name__ == "__main__":
    unittest.main()
