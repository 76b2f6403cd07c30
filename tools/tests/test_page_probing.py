"""Probing on the page: its sheets in each size, a corner of the work that a person touches with it, and in a browser a
probe and a setter that misbehave, over the player and a simulated machine."""
import json
import re
import sys
import unittest
from collections.abc import Callable
from dataclasses import replace
from pathlib import Path

sys.path.insert(0, str(Path(__file__).resolve().parent))

import test_page_browser
from bench_support import REST
from browser_support import Failed
from test_moves import BOX, PROBE
from test_page_measure import JOB, SETTER, AtMachine, OverWorld

from ngc_tools.formats.position import nanometres
from ngc_tools.operator.routines import ROUTINES

PROBED = SETTER + "probe_tool = 1\nprobe_radius_um = 500\n"
MM = 1_000
"""Steps of the machine."""
REST_OVER = 630
"""Steps within which the motors rest behind a touch on the way over the setter, from 1,500 mm a minute."""
EARLY = 3
"""The number of the switch that comes on where the probe does before it touches."""
TITLES = {"edge": "Edge", "outside": "Outside corner", "inside": "Inside corner", "surface": "Surface", "bore": "Bore",
          "boss": "Boss", "pocket": "Pocket", "web": "Web"}


NO_PROBE = """[document.querySelector('#over .go').disabled,
    document.querySelector('#over .routine .warn')?.textContent ?? '']"""
"""Whether the button of a routine is dead, and why."""
BESIDE = """(() => {
    const svg = document.querySelector('#over .routine svg'), all = kind => [...svg.querySelectorAll(kind)];
    const ball = svg.querySelector('.ball'), [x, y, r] = ['cx', 'cy', 'r'].map(name => Number(ball.getAttribute(name)));
    const at = (dx, dy) => Object.assign(svg.createSVGPoint(), { x: x + r * dx, y: y + r * dy });
    const edge = [[0, 0], [1, 0], [-1, 0], [0, 1], [0, -1]].map(([dx, dy]) => at(dx, dy));
    const begins = all('.free, .to').map(way => way.getPointAtLength(0));
    return !all('.work').some(work => edge.some(point => work.isPointInFill(point)))
        && begins.some(point => Math.abs(Math.hypot(point.x - x, point.y - y) - r) <= 1);
})()"""
"""Whether the ball of a routine's picture is beside the work, and a way begins there."""


class Sheets(test_page_browser.Moves):
    """The player is in this process."""

    MACHINE = "[motion]\naccel_mm_s2 = [500, 500, 300]\n[inputs]\nprobe = 6\n" + PROBED
    test_setup = test_axis_without_home = test_ended_in_an_alarm = None

    def begin_player(self) -> None:
        """Its file says what the probe is."""
        Path("motion.toml").write_text(self.MACHINE)
        long = '"A name that is as long as a name may be" = ["M9"]\n'
        Path("first.macros").write_text('Lift = ["M5", "G53 G0 Z0"]\n' + long)
        super().begin_player()

    def device(self) -> None:
        """The probe is in the spindle."""
        super().device()
        self.run_ngc("reference 0 0 0\ntool 1 2\nmdi T1 M6\ntick 10\nmdi G43 H1\ntick 10\n", "before")

    def test_sheets(self) -> None:
        """Each routine has its picture and its entries, which take lengths alone; nothing moves by them."""
        browser = self.browser
        browser.press("Setup", "nav button")
        browser.press("Read the macros", "#tab-setup button")
        browser.wait("document.querySelectorAll('#tab-setup .macros button').length === 2")
        for part, name in ((-1, "switches"), (0, "setup")):
            browser.js(f"[...document.querySelectorAll('#tab-setup .part')].at({part}).scrollIntoView()")
            self.look(name)
            self.shoot(name)
        self.assertEqual(set(TITLES), set(ROUTINES))
        for name, title in TITLES.items():
            browser.press("Probe the work", "#tab-setup button")
            browser.wait("document.querySelectorAll('#over .routines button svg').length === 8")
            if name == "edge":
                self.look("the routines")
                self.shoot("routines")
            browser.js("[...document.querySelectorAll('#over .routines button')].find(one =>"
                       f" one.textContent.endsWith({title!r})).click()")
            browser.wait(f"document.querySelector('#over h1').textContent === {title!r}")
            self.assertIn(ROUTINES[name].where, browser.js("document.querySelector('#over .words').textContent"))
            self.assertTrue(browser.js(BESIDE), name)
            if name in ("outside", "boss", "surface"):
                self.look(title)
                self.shoot(name)
            self.assertEqual(browser.js("document.querySelector('#over .go').disabled"), name == "boss")
            if name == "boss":  # nobody said how wide it is; then it is proposed
                browser.fill("#over input[aria-label^='Its width']", "12")
            for text, is_off in (("x", True), ("0", True), ("2,5", False)):
                browser.fill("#over input[aria-label^='At most']", text)
                self.assertEqual(browser.js("document.querySelector('#over .go').disabled"), is_off, (name, text))
            browser.press("Back", "#over button")
            browser.wait("document.querySelector('#over h1').textContent === 'Probe the work'")
            browser.press("Back", "#over button")
        self.assertEqual(self.machine.axes.words, [])
        self.no_complaints()

    def test_ball(self) -> None:
        """The tool table shows which slot is the probe's, and how wide its ball is, here by the machine's file. Another
        diameter is kept; that both differ is said, and goes once they agree."""
        browser = self.browser
        browser.press("Tools", "nav button")
        entry, gives = "#tab-tools input[aria-label^='Diameter of the ball']", "#tab-tools .ball button"
        browser.wait(f"document.querySelector(\"{entry}\")?.value === '1'")
        self.assertIn("T1 is the probe.", browser.js("document.getElementById('tab-tools').textContent"))
        for text in ("0", "x", "-1", ""):
            browser.fill(entry, text)
            self.assertTrue(browser.js(f"document.querySelector('{gives}').disabled"), text)
        browser.fill(entry, "1.2")
        browser.press("Set", gives)
        self.assertEqual(browser.wait("document.querySelector('#tab-tools .warn')?.textContent"),
                         "the ball of the probe, tool 1, is 1.2 mm wide by the tool table, and 1 mm by probe_radius_um"
                         " of the machine's file: correct the wrong one, or take that line out of the file")
        self.look("the ball")
        self.shoot("ball")
        browser.fill(entry, "1")
        browser.press("Set", gives)
        browser.wait("ngc.state.ball.diameter === '1.000000' && !document.querySelector('#tab-tools .warn')")
        browser.fill(entry, "1.0")
        self.assertTrue(browser.js(f"document.querySelector('{gives}').disabled"), "it is so already")
        self.assertIn('[T1]\ndiameter_nm = 1000000\ntip = "ball"\n', Path("first.shapes").read_text())
        self.no_complaints()

    def test_ways(self) -> None:
        """The picture turns with the direction; a probe that is on touches no work, which is said; nothing moves."""
        browser = self.browser
        browser.press("Setup", "nav button")
        browser.press("Probe the work", "#tab-setup button")
        browser.press("Outside corner", "#over button")
        turned = "document.querySelector('#over .routine g').getAttribute('transform')"
        self.assertEqual(browser.js(turned), "translate(60 45) scale(1 1) translate(-60 -45)")
        browser.press("X\u2212 Y+", "#over button")
        self.assertEqual(browser.js(turned), "translate(60 45) scale(-1 1) translate(-60 -45)")
        axes = self.machine.axes
        for on, says in ((("probe",), "The probe is on: it touches something, or its wire is broken."), ((), "")):
            axes.stands = axes.machine = replace(axes.stands, on=on)
            browser.wait(f"ngc.state.inputs.length === {len(on)}")
            self.assertEqual(browser.js(NO_PROBE), [bool(says), says])
        self.assertEqual(self.machine.axes.words, [])
        self.no_complaints()


def shown(steps: float, is_inch: bool) -> str:
    """A length, as the page shows it."""
    of, digits = (25.4 * MM, 4) if is_inch else (MM, 3)
    return f"{round(steps / of, digits) + 0.0:.{digits}f}".replace("-", "\u2212")


class OverBodies(OverWorld, test_page_browser.InBrowser):
    """A page over this machine, which stands at 0 with no tool in, in a travel of 10 mm each way."""

    BEFORE = ""
    """What `ngc` is told before the page begins."""
    EXTRA = PROBED
    SHOWN = """JSON.stringify([[...document.querySelectorAll('.axis')].map(one => [one.querySelector('output'),
        ...one.querySelectorAll(':scope > div b')].map(one => one.textContent)),
        document.querySelectorAll('#gauges dd')[3].textContent])"""
    """Of each axis its work coordinate, its machine coordinate and where its motor is; and the tool with its length."""

    def device(self) -> None:
        """A fresh device."""
        super().device()
        if self.BEFORE:
            self.run_ngc(self.BEFORE, "before")

    def puts_probe(self, is_on: bool) -> None:
        """The probe is put on, or off, by hand, and the page knows that: it shows a line, or takes it away, and what
        stands below that moves."""
        self.world.put(PROBE, is_on)
        self.browser.wait(f"ngc.state.inputs.includes('probe') === {json.dumps(is_on)}")

    def puts_in(self, slot: int) -> None:
        """A tool is put in by hand, as a line asks for it."""
        self.browser.fill("#line", f"T{slot} M6")
        self.browser.press("Do", "#do")
        self.browser.press(f"Tool {slot} is in", "#run")
        self.rests(f"s.slot === {slot}")

    def rests(self, holds: str = "true") -> None:
        """Waits until nothing is under way, nothing is asked, and something holds of the state `s`."""
        self.browser.wait(f"(s => !s.busy && !s.question && ({holds}))(ngc.state)")

    def do(self, line: str) -> None:
        """Types a line of G-code."""
        self.browser.fill("#line", line)
        self.press("Do", "#do")

    def press(self, says: str, within: str) -> None:
        """Touches a button that does lines of G-code, and waits until that is done."""
        entries = self.browser.js("ngc.state.entries")
        self.browser.press(says, within)
        self.rests(f"s.entries > {entries}")

    def asked(self) -> str:
        """What the page asks."""
        return str(self.browser.wait("ngc.state.question && document.querySelector('#over .asked')?.textContent"))

    def shows(self, has: str, zero: tuple[float, ...] = (0, 0, 0), length: float = 0, is_inch: bool = False) -> None:
        """The page shows where the axes of the machine are, in machine coordinates, and of the work, by this zero and
        this length in force, in mm; and the tool in the spindle, which has that length."""
        slot, place = self.world.slot, self.world.place
        of_work = [at - origin * MM for at, origin in zip(place, (*zero[:2], zero[2] + length))]
        axes = [[shown(each, is_inch) for each in (mine, at, at)] for mine, at in zip(of_work, place)]
        wanted = json.dumps([axes, f"T{slot}{has} mm" if slot else "none"], ensure_ascii=False, separators=(",", ":"))
        self.browser.wait(f"{self.SHOWN} === {json.dumps(wanted)}")

    def toasts(self, why: str) -> None:
        """The page says why something ended."""
        toast = "document.getElementById('toast').textContent"
        try:
            self.browser.wait(f"{toast}.includes({json.dumps(why)})")
        except Failed:
            self.fail(f"it says {self.browser.js(toast)!r}, and not {why!r}")

    def stays_within(self, box: list[tuple[int, int]]) -> None:
        """No axis left this since the machine's model was to note that."""
        _, least, greatest = self.world.reached
        for axis, (low, high) in enumerate(box):
            self.assertTrue(low <= least[axis] <= greatest[axis] <= high, (axis, box, least, greatest))


class Misbehaves(OverBodies):
    """The probe, tool 1, hangs 2 mm below the spindle, its ball 1 mm wide; a block stands at X5."""

    BEFORE = "tool 1 2\ntool 2 3\n"

    def begin_player(self) -> None:
        """The block."""
        super().begin_player()
        self.world.tool(1, 2 * MM, MM // 2)
        self.world.solid(0, BOX, (5 * MM, -9 * MM, -9 * MM), (9 * MM, 9 * MM, 9 * MM))

    def setUp(self) -> None:
        """The probe is put in, and its length is in force."""
        super().setUp()
        self.puts_in(1)
        self.do("G43 H1")

    def test_probe(self) -> None:
        """A probe that isn't in or is on at first, one that never comes on, and one whose touches differ: the page says
        so, nothing goes beyond what it said before, and no zero is set. One that bounces by less than touches may
        differ finds the edge as exactly, and a no sets no zero; once it is well it finds the edge."""
        world = self.world
        self.puts_in(2)
        self.dead("The probe isn\u2019t in the spindle: change to it first.")
        self.puts_in(1)
        self.do("G49")
        self.dead("The probe\u2019s length isn\u2019t in force: give it by G43 first.", "Surface")
        self.do("G43 H1")
        self.puts_probe(True)
        self.dead("The probe is on: it touches something, or its wire is broken.")
        self.puts_probe(False)
        world.touching(PROBE, is_dumb=True)
        self.refused("Edge", 6, "the probe isn't touched within 6.000000 mm: nothing more moves")
        self.assertEqual((*world.reached[1:], world.place), ((0, 0, 0), (6 * MM, 0, 0), (6 * MM, 0, 0)))
        self.do("G53 G0 X0")
        self.refused("Surface", 7.5, "the probe isn't touched within 7.500000 mm: nothing more moves")
        self.assertEqual(world.reached[1:], ((0, 0, -7.5 * MM), (0, 0, 0)))
        self.do("G53 G0 Z0")
        world.touching(PROBE)
        for at, drifts, why in ((4_500, -300, "two touches differ: X 4.5 by the fast one, and 4.2 by the slow one"),
                                (4_200, 300, "the slow touch didn't come where the fast one was, at X 4.2, nor 0.05")):
            world.switch(EARLY, PROBE, 0, 1, at, drifts=drifts)
            self.refused("Edge", 6, why)
            self.assertLessEqual(world.reached[0], REST)
            self.do("G53 G0 X0")
        world.no_switch(EARLY)
        self.bounces(40)
        self.assertEqual(self.finds("Edge", 6), "edge X+: machine X5")
        self.browser.press("Yes: makes it", "#over .go")
        self.rests("Number(s.origin[0]) === 5")
        self.shows("2.000", (5, 0, 0), 2)
        self.no_complaints()

    def test_where_touched(self) -> None:
        """The place where the probe was touched is taken for a zero where that is chosen, anew for each touch, until
        something moves, and once. It is said each time which machine point a zero takes."""
        self.browser.press("Setup", "nav button")
        self.seeks()
        self.takes(self.world.place, "the motors are")  # it is off by itself
        self.browser.press("Where the probe was touched", "#tab-setup button")
        self.takes((4_500, 0, 0), "the probe was touched")
        self.do("G0 X0 Y1")
        self.is_gone()
        self.seeks()
        self.takes(self.world.place, "the motors are")
        self.browser.press("Where the probe was touched", "#tab-setup button")
        self.takes((4_500, MM, 0), "the probe was touched")
        self.press("Set X", "#tab-setup .four button:first-child")
        self.shows("2.000", (4.5, 0, 0), 2)
        self.is_gone()
        self.press("Set X", "#tab-setup .four button:first-child")
        self.shows("2.000", (self.world.place[0] / MM, 0, 0), 2)
        self.no_complaints()

    def seeks(self) -> None:
        """Seeks the block along X: the motors come to rest a little behind the touch."""
        self.browser.press("X+", "#tab-setup .five button")
        self.rests("s.touched")
        self.assertTrue(4_500 < self.world.place[0] < 4_500 + REST, self.world.place)

    def takes(self, place: tuple[int, ...], where: str) -> None:
        """The page says that a zero takes this machine point."""
        named = "   ".join(f"{axis} {shown(at, False)}" for axis, at in zip("XYZ", place))
        self.browser.wait(f"document.querySelector('#tab-setup .hint:has(+ .four)').textContent"
                          f" === 'Takes machine {named} mm, where {where}'")

    def is_gone(self) -> None:
        """No place where the probe was touched is offered, and the motors' place is taken."""
        self.takes(self.world.place, "the motors are")
        self.assertFalse(self.browser.js("[...document.querySelectorAll('#tab-setup .switch')].find(one =>"
                                         " one.textContent === 'Where the probe was touched').checkVisibility()"))

    def bounces(self, steps: int) -> None:
        """One that bounces by so many steps finds the edge within these."""
        self.world.touching(PROBE, bounces=steps)
        found = re.search(r"machine X(\S+)", self.finds("Edge", 6))
        self.assertAlmostEqual(float(found[1]), 5, delta=steps / MM)
        self.browser.press("No", "#over .foot button")
        self.rests()
        self.shows("2.000", (0, 0, 0), 2)
        self.world.touching(PROBE)

    def refused(self, title: str, within: float, why: str) -> None:
        """A routine ends with that cause, and asks for no zero; nothing went beyond what was said before the yes."""
        box = self.begins(title, within)
        self.rests()
        self.stays_within(box)
        self.toasts(why)
        self.shows("2.000", (0, 0, 0), 2)

    def dead(self, why: str, title: str = "Edge") -> None:
        """A routine can't begin, and the page says why."""
        self.browser.press("Setup", "nav button")
        self.browser.press("Probe the work", "#tab-setup button")
        self.browser.press(title, "#over .routines button")
        self.browser.wait(f"{NO_PROBE}.join() === {json.dumps(f'true,{why}')}")
        self.browser.press("Back", "#over button")
        self.browser.press("Back", "#over button")

    def finds(self, title: str, within: float) -> str:
        """What is asked behind a routine that found the work; nothing went beyond what was said before the yes, and the
        machine is where it was."""
        box = self.begins(title, within)
        asked = self.asked()
        self.stays_within(box)
        self.assertEqual(self.world.place, (0, 0, 0))
        return asked

    def opens(self, title: str) -> None:
        """Opens the sheet of a routine."""
        self.browser.press("Setup", "nav button")
        self.browser.press("Probe the work", "#tab-setup button")
        self.browser.press(title, "#over .routines button")

    def begins(self, title: str, within: float) -> list[tuple[int, int]]:
        """Asks for a routine, and agrees: within which machine coordinates the page said that it moves, in steps."""
        self.opens(title)
        return self.agrees_to({"At most": within})

    def while_asked(self) -> None:
        """What comes while it is asked whether a routine begins: nothing."""

    def agrees_to(self, lengths: dict[str, float]) -> list[tuple[int, int]]:
        """The same of the routine whose sheet is open, with lengths by how their entries begin."""
        browser = self.browser
        for label, length in lengths.items():
            browser.fill(f"#over input[aria-label^='{label}']", str(length))
        browser.press("Probe", "#over .go")
        named = {axis: (nanometres(low) // MM, nanometres(high) // MM)
                 for axis, low, high in re.findall(r"([XYZ]) from (\S+) to (\S+) \(", self.asked())}
        self.assertTrue(named)
        self.while_asked()
        place = self.world.place
        self.world.forget_reached()
        browser.press("Yes: begins", "#over .go")
        browser.wait("ngc.state.question === null || !ngc.state.question.text.includes('yes begins')")
        return [named.get(axis, (at, at)) for axis, at in zip("XYZ", place)]


class Setter(OverBodies):
    """The setter's top is at Z-5; tool 2 is 4 mm long, and 3 by the table."""

    BEFORE = "tool 1 0\ntool 2 3\n"

    def device(self) -> None:
        """From where the setter is sought."""
        super().device()
        Path("mill.dev.measure").write_text('{"down_nm": 2000000, "within_nm": 6000000}')

    def test_setter(self) -> None:
        """One that is missed at a tool change, a tool that is much longer than the table says, which touches on the way
        over or down, and one whose setter is on at first: it stops at what was said, or there; the length stays, and
        the job waits. Once all is well it is measured, and the job goes on."""
        browser, world = self.browser, self.world
        self.stands(length=4, y=2)
        self.load(JOB, JOB.count("\n"))
        self.do("G0 X0")  # a line of one's own before the program isn't what is asked about behind its change
        browser.press("Run", "#run")
        self.jogs_before(lambda: browser.press("Tool 2 is in", "#run"))
        self.refused("the probe isn't touched within 6.000000 mm: nothing more moves")
        self.assertEqual(world.place, (8 * MM, 6 * MM, -4 * MM))
        self.goes_on_from_here("X1 Y0 Z0. The machine is at X8 Y6 Z-4")
        self.touches(14, "at Y 5,", (5 * MM, 5 * MM + REST_OVER), (8 * MM, 8 * MM))
        self.touches(12, "at Z 7,", (6 * MM, 6 * MM), (7 * MM - REST, 7 * MM))
        self.goes_back()
        self.do("G53 G0 Z0")
        self.stands(length=4, y=6)
        self.puts_probe(True)
        self.measures()
        self.refused("the probe is on before it moves, and nothing may touch it: nothing moves")
        self.assertEqual(*world.reached[1:])
        self.puts_probe(False)
        self.measures()
        named = self.agrees()
        self.rests("Number(s.tools[1]) === 4")
        self.stays_within(named)
        self.shows("4.000")
        self.continues()
        self.rests("s.finished")
        self.assertEqual(world.place, (2 * MM, 0, 5 * MM))
        self.shows("4.000", length=4)
        self.no_complaints()

    def test_measured(self) -> None:
        """While a tool is waited for something is touched by its button: the axis rests behind the touch, and goes back
        by a yes once the tool is in. Then that is measured by a yes, and the job goes on by itself, with its length."""
        browser, world = self.browser, self.world
        self.stands(length=4, y=6)
        world.solid(1, BOX, (0, -MM, -9 * MM), (2 * MM, MM, -2 * MM))
        self.load(JOB, JOB.count("\n"))
        browser.press("Run", "#run")
        browser.press("Setup", "nav button")
        browser.press("Z\u2212", "#tab-setup .five button")
        browser.wait("ngc.state.machine === 'stands' && ngc.state.motors[2] <= -2")
        x, y, z = world.place
        self.assertTrue((x, y) == (MM, 0) and -2 * MM - REST <= z <= -2 * MM, world.place)
        browser.press("Tool 2 is in", "#run")
        self.assertIn("the lines go on from X1 Y0 Z0: up to Z0.", self.asked())
        world.solid(1, 0, (0, 0, 0), (0, 0, 0))  # it is taken away
        browser.press("Yes: goes back and on", "#over .go")
        browser.wait("ngc.state.question?.text.includes('yes measures')")
        named = self.agrees()
        self.rests("s.finished")
        self.stays_within(named)
        self.assertEqual((world.place, browser.js("ngc.state.tools[1]")), ((2 * MM, 0, 5 * MM), "4.000000"))
        self.shows("4.000", length=4)
        self.no_complaints()

    def jogs_before(self, is_in: Callable[[], None]) -> None:
        """The axes are jogged by their buttons while the tool is waited for, and go back by a yes once it is in."""
        browser = self.browser
        browser.press("Setup", "nav button")
        browser.press("0.1", "#tab-setup .lengths button")
        for way, place in (("Z+", (MM, 0, 100)), ("Y+", (MM, 100, 100))):
            browser.press(way, "#tab-setup .pad button")
            self.wait_for("it is jogged", lambda place=place: self.world.place == place)
            browser.wait("ngc.state.waits && ngc.state.machine === 'stands'"
                         f" && ngc.state.motors.map(Number).join() === '{','.join(f'{at / MM:g}' for at in place)}'")
        is_in()
        self.assertIn("the lines go on from X1 Y0 Z0: up to Z9, over to X1 and then to Y0, down to Z0.", self.asked())
        browser.press("Yes: goes back and on", "#over .go")
        self.wait_for("it is back", lambda: self.world.place == (MM, 0, 0))

    def stands(self, length: float, y: float) -> None:
        """So long tool 2 is, and about that Y the setter stands, both in mm."""
        self.world.tool(2, round(length * MM))
        self.world.solid(0, BOX, (7 * MM, round((y - 1) * MM), -10 * MM), (9 * MM, round((y + 1) * MM), -5 * MM))

    def touches(self, length: float, why: str, y: tuple[int, int], z: tuple[int, int]) -> None:
        """A tool of that length is measured, and touches the setter on the way: it comes to rest over X8, within these,
        and went no farther."""
        self.goes_back()
        self.stands(length, y=6)
        self.measures()
        self.refused(f"the probe was touched on the way, {why} where nothing may be: nothing more moves")
        place = self.world.place
        self.assertTrue(place[0] == 8 * MM and y[0] <= place[1] <= y[1] and z[0] <= place[2] <= z[1], place)
        _, least, greatest = self.world.reached
        self.assertEqual((greatest, least[2]), ((*place[:2], 8 * MM), place[2]))

    def continues(self) -> None:
        """Touches Continue, and again where it says from where the tool goes on."""
        self.browser.press("Continue", "#run")
        self.browser.press("Continue", "#over .go")

    def goes_on_from_here(self, why: str) -> None:
        """From the place where it ended the job goes on by a yes alone: nothing moves by a no."""
        self.world.forget_reached()
        self.continues()
        self.browser.wait(f"ngc.state.question && document.getElementById('over').textContent.includes('{why}')")
        self.browser.press("No", "#over .foot button")
        self.rests("s.does === 'stopped'")
        self.assertEqual(*self.world.reached[1:])

    def measures(self) -> None:
        """Asks for it by its button."""
        self.browser.press("Setup", "nav button")
        self.browser.press("Measure tool 2", "#tab-setup button")

    def goes_back(self) -> None:
        """Goes above the place where the job waits."""
        for line in ("G53 G0 Z8", "G53 G0 Y0", "G53 G0 X1"):
            self.do(line)

    def agrees(self) -> list[tuple[int, int]]:
        """Agrees to what is asked: between which places it named of each axis, in steps."""
        named: dict[str, list[int]] = {axis: [] for axis in "XYZ"}
        for axis, number in re.findall(r"([XYZ])(-?\d[.\d]*)", self.asked()):
            named[axis].append(nanometres(number.rstrip(".")) // MM)
        self.world.forget_reached()
        self.browser.press("Yes: measures", "#over .go")
        self.browser.wait("!ngc.state.question")
        return [(min(places), max(places)) for places in named.values()]

    def refused(self, why: str) -> None:
        """It ends with that cause once it is agreed to, within what was said; the length is the table's, and the job
        waits for Continue."""
        named = self.agrees()
        self.rests("s.does === 'stopped'")
        self.stays_within(named)
        self.toasts(why)
        self.shows("3.000")
        self.assertEqual(self.browser.js("[ngc.state.line, document.getElementById('run').textContent]"),
                         [4, "Continue"])


class OverWork(AtMachine):
    """The player over a simulated machine, whose probe hangs 2 mm below the spindle, before a block at X2 Y3. Nobody
    said yet how wide its ball is."""

    EXTRA = SETTER + "probe_tool = 1\n"
    CORNER = {"routine": "outside", "ways": "X+ Y+", "lengths": {"within": "4", "along": "6"}}

    def device(self) -> None:
        """The probe is in the spindle, with its length."""
        super().device()
        self.run_ngc("tool 1 2\nmdi T1 M6\ntick 9\nmdi G43 H1\ntick 9\n", "before")

    def begin_player(self) -> None:
        """The block."""
        super().begin_player()
        self.world.tool(0, 2_000, 500)
        self.world.solid(0, BOX, (2_000, 3_000, -9_000), (9_000, 9_000, 5_000))
        self.world.forget_reached()

    def begins(self, words: dict) -> None:
        """Asks for a routine, and agrees to what it moves."""
        self.assertEqual(self.seen.post("probe", words), (200, {}))
        state = self.seen.asked()
        self.assertEqual((state["question"]["text"], state["question"]["kind"], state["ball"]),
                         ("How wide is the ball of the probe, tool 1, in mm? The tool table keeps that. Nothing ends:",
                          "text", {"slot": 1, "diameter": None, "wrong": ""}))
        self.seen.agree(state, "1")
        state = self.seen.asked()
        self.assertIn("it moves, one axis at a time, and no move leaves that", state["question"]["text"])
        self.assertEqual(self.world.place, (0, 0, 0))
        self.seen.agree(state)

    def test_corner(self) -> None:
        """It is said what moves; the place is shown, and becomes the zero by a yes; undo takes it back."""
        self.begins(self.CORNER)
        state = self.seen.asked()
        self.assertEqual(state["question"]["text"], "outside X+ Y+: machine X2 Y3\nyes makes it X0 Y0 of G54, anything"
                         " else leaves the zero:", self.seen.said())
        self.seen.agree(state)
        state = self.seen.until("it is the zero", lambda s: not s["busy"] and s["origin"][:2] == ["2.000000",
                                                                                               "3.000000"])
        self.assertEqual(state["ball"], {"slot": 1, "diameter": "1.000000", "wrong": ""})
        depth, least, greatest = self.world.reached
        self.assertLess(depth, 110)
        self.assertEqual((self.world.place, least), ((0, 0, 0), (0, 0, 0)))
        self.assertTrue(max(greatest) <= 6_000 and greatest[2] == 0, greatest)
        self.seen.post("undo")
        self.seen.until("it is taken back", lambda s: not s["busy"] and s["origin"][0] == "0.000000")

    def test_words(self) -> None:
        """What a page may say of a routine, and the table that it asks for."""
        for words in ({}, {"routine": "edge"}, self.CORNER | {"routine": ["edge"]},
                      self.CORNER | {"routine": "none"}, self.CORNER | {"ways": "Z+"},
                      self.CORNER | {"lengths": {"within": "x"}}, self.CORNER | {"lengths": {"down": "1"}},
                      self.CORNER | {"lengths": []}, self.CORNER | {"ways": "X+ Y+ anyway"}):
            self.assertEqual(self.seen.post("probe", words)[0], 422, words)
        found = json.loads(self.seen.get("routines")[1])["routines"]
        self.assertEqual([one["name"] for one in found], list(TITLES))
        self.assertEqual(found[1], {"name": "outside", "where": ROUTINES["outside"].where, "ways": 2,
                                    "is_directed": True, "lengths": {"within": "10.000000", "along": "10.000000"}})


class Held(OverWork):
    """By the clock."""

    WORDS: list[str] = []
    test_corner = test_words = None

    def test_hold(self) -> None:
        """Hold amid a routine: the axis comes to rest, nothing begins any more, and nothing is asked."""
        self.world.solid(0, BOX, (9_500, -9_000, -9_000), (9_900, 9_000, 5_000))
        self.begins({"routine": "edge", "ways": "X+", "lengths": {"within": "9.8"}})
        state = self.seen.until("it moves", lambda s: float(s["motors"][0]) > 0.3)
        self.assertEqual((state["word"], state["moving"]), ("Probing", True))
        self.assertEqual(self.seen.post("hold", {"touch": "a-touch"})[0], 200)
        state = self.seen.until("it rests", lambda s: not s["busy"])
        at = self.world.place[0]
        self.assertTrue(300 < at < 8_900, at)
        self.assertIn("probe edge X+: stopped", self.seen.said())
        self.assertEqual((self.world.place[0], state["origin"][0], state["question"]), (at, "0.000000", None))


if __name__ == "__main__":
    unittest.main()
