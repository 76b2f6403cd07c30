"""What a finger does on the page, and what it sees there: buttons that come to mean something else, refusals, scrolling
on a jog button, and the units of the readout."""
import os
import sys
import unittest
from dataclasses import replace
from pathlib import Path

sys.path.insert(0, str(Path(__file__).resolve().parent))

import test_page_browser
from listener import said
from machine_support import STEP_NM
from page_support import OTHER
from test_page_browser import InBrowser

from ngc_tools.formats.out import OFF
from ngc_tools.formats.position import Position
from ngc_tools.link.progress import Report

TURNS = "G17 G21 G90 G94\nM3 S100\nG0 X0 Y0 Z0\nG1 X2 F3\nG1 X3\nM2\n"
"""Its line 4 is a cut of 40 s."""
CHANGE = "G17 G21 G90 G94\nT1 M6\nG1 X5 F60\nM2\n"
FINGER = """void (window.finger = (kind, down) => {
    const what = { pointerType: 'touch', pointerId: 7, clientX: 100, clientY: 100 - down, button: 0, bubbles: true };
    document.querySelector('.pad .right').dispatchEvent(new PointerEvent(kind, what));
})"""
"""What a finger does on the button X+, so far above where it came down."""


class Steady(InBrowser):
    """A finger that taps twice."""

    MACHINE = "[motion]\naccel_mm_s2 = [500, 500, 300]\n"

    def test_twice(self) -> None:
        """After a hold at a tool change the second tap on `Tool 1 is in` doesn't hit `Continue`. While the job goes on
        the button of a sheet that was open before is dead."""
        browser = self.browser
        browser.open(self.address)
        self.assertEqual(browser.wait("window.ngc?.state?.yours && ngc.jobId !== null && ngc.dead.ms"), 1000)
        browser.hurry()
        browser.js("document.querySelector('[data-tab=tools]').click()")
        browser.fill("#tab-tools input[aria-label='Length of tool 1']", "50")
        browser.press("Add", "#tab-tools button")
        browser.wait("ngc.state.tools.length === 1 && !ngc.state.busy")
        self.load(CHANGE, 4)
        browser.press("Run", "#run")
        browser.wait("ngc.state.waits")
        browser.press("Hold", "#hold")
        browser.wait("ngc.state.does === 'held' && !ngc.state.busy")
        browser.js("void (ngc.dead.ms = 1e6)")  # however slow the machine is
        browser.js("""void (window.fetched = window.fetch, window.fetch = (what, how) => {
            if (what === 'go') window.went = JSON.parse(how.body);
            return fetched(what, how);
        })""")
        x, y = browser.place("Tool 1 is in", "#run")
        for _ in range(2):
            browser.down(x, y)
            browser.up(x, y)
            browser.wait("document.getElementById('run').textContent === 'Continue'")
        self.assertEqual(browser.js("went"), {"tool": 1, "shown": ["0.000000", "0.000000", "0.000000"]})
        self.assertTrue(browser.js("document.getElementById('run').inert"))
        seen = browser.js("ngc.state.now")
        browser.wait(f"ngc.state.now > {seen} + 1")
        self.assertEqual(browser.js("[ngc.state.does, ngc.state.busy, ngc.state.motors[0]]"),
                         ["held", False, "0.000000"])
        browser.js("void (document.getElementById('run').inert = false)")
        browser.press("Quit", "#quit")
        ends = "document.querySelector('#over .go').disabled"
        self.assertFalse(browser.js(ends))
        browser.press("Continue", "#run")
        browser.wait(f"ngc.state.busy && {ends}")
        browser.wait("ngc.state.motors[0] > 0")
        self.no_complaints()


RESTS = """void (window.rests = new Map(), window.sent = [], window.ids = 0, ngc.dead.ms = 1000,
    (later => { window.setTimeout = (does, ms, ...more) => (ms === ngc.dead.ms
        ? rests.set(ids -= 1, does) && ids : later(does, ms, ...more)); })(window.setTimeout),
    (never => { window.clearTimeout = id => (id < 0 ? void rests.delete(id) : never(id)); })(window.clearTimeout),
    (fetched => { window.fetch = (what, how) => {
        if (how?.method === 'POST' && what !== 'beat') sent.push(what);
        return fetched(what, how);
    }; })(window.fetch))"""
"""What is dead for a second stays so until `second_passes`, however slow this machine is. What is asked for is noted.
"""
BELOW = """[...document.querySelectorAll('main button, main input')].filter(one => one.checkVisibility()
    && !one.disabled && !one.closest('[inert]')).map(one => one.id || one.textContent)"""
"""What takes a touch in the place of a sheet that went."""


class Twice(InBrowser):
    """Taps on buttons that come to mean something else under a finger."""

    def tap(self, node: str) -> list[str]:
        """A finger taps where a button is, dead or not; what the page asked for by that."""
        self.browser.wait(f"document.querySelector('{node}')?.checkVisibility()")
        at = self.browser.js("(box => [box.x + box.width / 2, box.y + box.height / 2])"
                             f"(document.querySelector('{node}').getBoundingClientRect())")
        self.browser.js("void sent.splice(0)")
        self.browser.down(*at)
        self.browser.up(*at)
        return self.browser.js("sent.splice(0)")

    def second_passes(self) -> None:
        """What is dead isn't any more."""
        self.browser.js("void ([...rests.values()].forEach(does => does()), rests.clear())")

    def is_dead_first(self, node: str, says: str, asks: list[str]) -> None:
        """Once it says so a tap does nothing, and one after the next state neither; after a second it asks for that."""
        self.browser.wait(f"document.querySelector('{node}')?.textContent.startsWith('{says}')")
        self.browser.wait(f"!document.querySelector('{node}').disabled")
        self.assertEqual(self.tap(node), [], says)
        seen = self.browser.js("ngc.state.now")
        self.browser.wait(f"ngc.state.now > {seen}")
        self.assertEqual(self.tap(node), [], says)
        self.second_passes()
        self.assertEqual(self.tap(node), asks, says)


class Shut(Twice, test_page_browser.Moves):
    """A door that holds the motors, with lines in hand; the player is in this process."""

    test_setup = test_axis_without_home = test_ended_in_an_alarm = None

    def test_go_on(self) -> None:
        """`Go on`, once it is closed."""
        browser, axes = self.browser, self.machine.axes
        browser.js(RESTS)
        axes.stands = axes.machine = replace(axes.stands, on=("door",))
        self.machine.is_held, self.machine.received = True, 50
        browser.wait("document.getElementById('run').textContent === 'Close the door'")
        self.second_passes()
        self.assertEqual(self.tap("#run"), [])
        axes.stands = axes.machine = replace(axes.stands, on=())
        self.is_dead_first("#run", "Go on", ["release"])

    def test_moved(self) -> None:
        """What a line moves that comes or goes above it is dead for a second, where it says what it said."""
        browser, axes, pad = self.browser, self.machine.axes, ".pad .right"
        browser.press("Setup", "nav button")
        browser.js(RESTS)
        for on, sees in ((("door",), "true"), ((), "false")):
            axes.stands = axes.machine = replace(axes.stands, on=on)
            browser.wait(f"document.querySelector('#tab-setup .why').checkVisibility() === {sees}")
            browser.frame()
            self.assertEqual(self.alive("#tab-setup button"), [])
            self.assertEqual(self.alive("nav button"), ["Program", "Setup", "Tools", "Log"])
            self.assertEqual(self.tap(pad), [])
            self.second_passes()
        self.assertEqual(self.tap(pad), ["jog", "jogstop"])

    def test_never_dead(self) -> None:
        """Hold and Stop go on wherever they are moved to, and so does a button that a finger is on."""
        browser = self.browser
        browser.js(RESTS)
        at = browser.place("Load", "#load")
        browser.down(*at)
        browser.js("void (document.querySelector('footer').style.paddingLeft = '60px')")
        browser.wait("document.getElementById('run').closest('[inert]')")
        inert = "[...document.querySelectorAll('footer [inert]')].map(one => one.id)"
        self.assertEqual(browser.js(inert), ["run", "do", "single", "optional", "delete"])
        browser.move(1, 1)
        browser.up(1, 1)

    def alive(self, nodes: str) -> list[str]:
        """Which of these buttons take a touch."""
        return self.browser.js(BELOW.replace("main button, main input", nodes))


class Changing(Twice):
    """A tap does nothing before a second has passed, and then it does what the button says."""

    OUT = "out"

    def test_footer(self) -> None:
        """The large button, the switches beside `Spindle off`, what Stop asks, and what was below that."""
        browser, other = self.browser, self.page(OTHER)
        self.load(TURNS, TURNS.count("\n"))
        browser.js(RESTS)
        self.assertEqual(self.tap("#run") + self.tap("#run"), ["run"])
        browser.wait("ngc.state.line === 4 && ngc.state.motors[0] > 0 && ngc.state.spindle === 1")
        browser.wait("document.getElementById('off').checkVisibility()")
        self.is_dead_first("#delete", "Block delete", ["switch"])
        other.post("hold", {"touch": "a-touch"})
        self.is_dead_first("#run", "Continue", ["run"])
        browser.wait("ngc.state.does === 'running'")
        self.assertEqual(self.tap("#stop"), ["stop"])
        self.is_dead_first("#over .go", "Yes: gives it up", ["answer"])
        browser.wait("document.getElementById('over').hidden && !ngc.state.question")
        self.assertEqual(browser.js(BELOW), [])
        browser.wait("!ngc.state.busy && ngc.state.half === 'none' && ngc.state.spindle === 0")
        self.assertEqual(browser.js("document.getElementById('toast').textContent"), "")  # nothing leads on with it
        self.is_dead_first("#run", "Run from 4", ["rehearse"])
        self.is_dead_first("#over .go", "Run from 4", ["run"])

    def test_same_sheet(self) -> None:
        """A sheet that opens is dead at first, also where it was open before."""
        self.browser.js(RESTS)
        for says in ("Back", "Quit"):
            self.assertEqual(self.tap("#quit"), [])
            self.browser.wait("document.querySelector('#over h1')?.textContent === 'End the session?'")
            self.assertEqual(self.tap("#over .go"), [])
            self.second_passes()
            self.browser.press(says, "#over .foot button")
            self.second_passes()
        self.browser.wait("document.getElementById('lost-says').textContent === 'The session has ended.'")

    def test_from(self) -> None:
        """`From line 3`, which a touch on another line makes `From line 4`."""
        self.load(TURNS, TURNS.count("\n"))
        self.browser.js(RESTS)
        self.browser.press("G0 X0 Y0 Z0", "#program .row")
        self.browser.wait("document.getElementById('from').textContent.startsWith('From line 3')")
        self.browser.press("G1 X2 F3", "#program .row")
        self.is_dead_first("#from", "From line 4", ["from"])

    def test_steps(self) -> None:
        """The large button of the steps after a loss of power, and `Give up`, which takes two touches."""
        browser, step = self.browser, "document.querySelector('#over .steps .now b').textContent"
        self.load(TURNS, TURNS.count("\n"))
        browser.press("Run", "#run")
        browser.wait("ngc.state.motors[0] > 0.05")
        self.wait_for("the record has it", lambda: self.recorded().at_nm[0] > 0)
        self.power_comes_back()
        browser.goes_on()
        browser.wait("document.querySelector('#over .facts')?.textContent.includes('It begins at')")
        browser.wait("!document.getElementById('over').inert")
        browser.js(RESTS)
        self.assertEqual([self.tap("#over .go"), self.tap("#over .go"), browser.js(step)], [[], [], "2"])
        self.second_passes()
        for _ in "XYZ":
            browser.press("Confirm", "#over button")
        self.assertEqual(self.tap("#over .go"), ["rehearse"])
        browser.wait("document.querySelector('#over details')")
        self.assertEqual([self.tap("#over .go"), browser.js(step)], [[], "3"])
        self.second_passes()
        self.assertEqual([self.tap("#over .go"), browser.js(step)], [[], "4"])
        gives_up = "#over .foot button:nth-of-type(2)"
        for node, says in (("#over .go", "Go along the path"), (gives_up, "Give up")):
            self.assertTrue(browser.js(f"document.querySelector('{node}').textContent === '{says}'"))
            self.assertEqual(self.tap(node), [])
        self.second_passes()
        self.assertEqual(self.tap(gives_up), [])
        self.is_dead_first(gives_up, "Yes, give it up", ["reference"])
        browser.wait("ngc.state.half === 'none' && !ngc.state.busy")


class Fingers(test_page_browser.Moves):
    """On a machine that homes and jogs, whose player is in this process."""

    test_setup = test_axis_without_home = None

    def setUp(self) -> None:
        """Opens the tab."""
        super().setUp()
        self.browser.press("Setup", "nav button")

    def test_refused(self) -> None:
        """What the player refuses is said beside the button that was touched, and in Log; it goes with the next touch.
        """
        browser = self.browser
        self.machine.axes.refuses = "the emergency stop is on"
        browser.press("Home all", "#tab-setup button")
        says = browser.wait("document.getElementById('toast').checkVisibility() && document.getElementById('toast')"
                            ".textContent")
        self.assertEqual(says, "home: the emergency stop is on")
        apart = browser.js("""(() => {
            const toast = document.getElementById('toast').getBoundingClientRect();
            const home = document.querySelector('#tab-setup .four button').getBoundingClientRect();
            return Math.max(toast.top - home.bottom, home.top - toast.bottom);
        })()""")
        self.assertTrue(0 <= apart < 30, apart)
        self.assertIn(says, browser.js("document.getElementById('log').textContent"))
        browser.wait("!ngc.state.busy")
        browser.js("new Promise(done => setTimeout(done, 800))")
        browser.press("Home all", "#tab-setup button")
        browser.wait("ngc.state.homed === 'XYZ' && !ngc.state.busy")
        self.assertFalse(browser.js("document.getElementById('toast').checkVisibility()"))
        self.page("another-page").post("takeover")
        browser.js("Object.assign(document.querySelector('#tab-setup .four button'), { disabled: false }).click()")
        says = browser.wait("document.getElementById('toast').checkVisibility() && document.getElementById('toast')"
                            ".textContent")
        self.assertEqual(says, "another page commands: take over first")
        self.assertIn(says, browser.js("document.getElementById('log').textContent"))

    def test_below_a_sheet(self) -> None:
        """What is told beside the lowest buttons gives way to the buttons of a sheet that opens by itself."""
        browser = self.browser
        browser.fill("#line", "G0 X99999")
        browser.press("Do", "#do")
        browser.wait("document.getElementById('toast').checkVisibility()")
        self.machine.axes.alarm("emergency_stop")
        browser.wait("!document.getElementById('over').hidden && document.querySelector('#over .foot button')")
        browser.frame()
        self.assertTrue(browser.js("document.getElementById('toast').checkVisibility()"))
        self.assertLess(browser.js("document.getElementById('toast').getBoundingClientRect().bottom"),
                        browser.js("document.querySelector('#over .foot').getBoundingClientRect().top"))

    def test_warned(self) -> None:
        """What a touch-off warns of stands where the finger was too."""
        browser = self.browser
        browser.press("Home all", "#tab-setup button")
        browser.wait("ngc.state.homed === 'XYZ' && !ngc.state.busy")
        browser.fill("#line", "G92 Z0")
        browser.press("Do", "#do")
        browser.wait("ngc.state.work[2] === '0.000000' && !ngc.state.busy")
        browser.press("Set Z", "#tab-setup button")
        says = browser.wait("document.getElementById('toast').checkVisibility() && document.getElementById('toast')"
                            ".textContent")
        self.assertTrue(says.startswith("a G92 offset is in force, X0 Y0 Z-2, and is allowed for."), says)
        self.no_complaints()

    def test_no_number(self) -> None:
        """Where what was typed is no number, that is said, and nothing is enabled that would take it."""
        browser = self.browser
        browser.press("Home all", "#tab-setup button")
        browser.wait("ngc.state.homed === 'XYZ' && !ngc.state.busy")
        off = "[...document.querySelectorAll('%s')].map(one => one.disabled)"
        for entry, buttons, count in (("Work coordinate of this place, in mm", ".part:has(.hint) .four button", 4),
                                      ("How far the probe is sought, in mm", ".five button", 5)):
            leads_nowhere = [(text, True) for text in ("0", "-40") if count == 5]
            for text, is_off in (("x", True), ("", True), *leads_nowhere, ("2,5", False)):
                browser.fill(f"input[aria-label='{entry}']", text)
                self.assertEqual(browser.js(off % buttons), [is_off] * count, (entry, text))
                self.assertEqual(browser.js("document.querySelectorAll('#tab-setup input.wrong').length"), int(is_off))
        browser.fill("input[aria-label='Work coordinate of this place, in mm']", "x")
        says = "document.querySelector('#tab-setup').innerText.includes('x isn\u2019t a number of mm')"
        self.assertTrue(browser.js(says))
        self.look("what is no number")
        self.no_complaints()

    def test_two_places(self) -> None:
        """Where the motors rest elsewhere than the last line ended, by a step or more, the page asks which is so."""
        browser = self.browser
        browser.fill("#line", "G0 X0.0004")  # less than half a step of 1000 nm
        browser.press("Do", "#do")
        browser.wait("ngc.state.at[0] === '0.000400' && !ngc.state.busy")
        self.assertEqual(browser.js("[ngc.state.word, ngc.state.apart[0]]"), ["Idle", False])
        self.machine.axes.at_nm = [0, 0, 11_295_000]
        browser.wait("ngc.state.word === 'Two places' && ngc.state.apart[2]")
        enabled = browser.js("[...document.querySelectorAll('#tab-setup .four button')].map(one => !one.disabled)")
        self.assertEqual(enabled, [True] * 4 + [False] * 4)  # home, but no zero
        enabled = browser.js("[...document.querySelectorAll('.three button')].filter(one => !one.disabled)"
                             ".map(one => one.textContent)")
        self.assertEqual(enabled, ["Off M5", "Off M9"])
        browser.press("Where is it?", "#run")
        self.look("two places")
        browser.press("Where the player counts", "#over button")
        browser.wait("ngc.state.word === 'Idle' && ngc.state.at[2] === '11.295000'")
        self.no_complaints()

    def test_scroll(self) -> None:
        """A finger that begins to scroll on a jog button jogs nothing; one that rests there does, until it is lifted,
        and with a length one that taps. Until that is done the buttons are dead, and where the travel ends one is.
        """
        browser, jogs = self.browser, lambda: [word for word in self.machine.axes.words if word.startswith("jog")]
        dead = "[...document.querySelectorAll('.pad button')].filter(one => one.disabled).map(one => one.textContent)"
        self.machine.axes.at_nm = [10**9, 0, -10**9]
        browser.wait("ngc.state.ends.length")
        self.assertEqual(browser.js(f"[{dead}, document.querySelector('.jog .hint').textContent]"),
                         [["X+", "Z\u2212"], "The travel ends there: X+ Z\u2212"])
        self.machine.axes.at_nm = [0, 0, 0]
        browser.wait("!ngc.state.ends.length")
        browser.js(FINGER)
        for length in ("10", "Cont."):
            browser.press(length, ".jog .choices button")
            browser.js("finger('pointerdown', 0), finger('pointermove', 30), finger('pointercancel', 30)")
            browser.js("finger('pointerdown', 0), finger('pointermove', 30), finger('pointerup', 30)")
        browser.js("new Promise(done => setTimeout(done, 400))")
        self.assertEqual(jogs(), [])
        self.assertEqual(browser.js("getComputedStyle(document.querySelector('.pad .right')).touchAction"), "pan-y")
        browser.js("finger('pointerdown', 0)")
        self.wait_for("it jogs while the finger rests", lambda: self.jogs() > 0)
        browser.js("finger('pointerup', 0)")
        browser.wait("!ngc.state.busy")
        browser.press("10", ".jog .choices button")
        browser.js("finger('pointerdown', 0), finger('pointermove', 3), finger('pointerup', 3)")
        browser.wait(f"{dead}.length === 6")
        self.wait_for("it goes so far", lambda: jogs()[-1].endswith("X+ 600 for 10"))
        self.assertFalse(any("for 10" in word for word in jogs()[:-1]))

    def test_door(self) -> None:
        """With the door open nothing is enabled that moves, and it is said why; motors that it held with lines in hand
        go on by `Go on`, once it is closed."""
        browser, axes = self.browser, self.machine.axes
        axes.stands = axes.machine = replace(axes.stands, on=("door",))
        self.machine.is_held = True
        browser.wait("ngc.state.word === 'Door open'")
        moves = "[...document.querySelectorAll('.pad button, .four button, .five button')].filter(one => !one.disabled)"
        run = "[document.getElementById('run').textContent, document.getElementById('run').disabled]"
        self.assertEqual(browser.js(run), ["Close the door", True])
        self.assertEqual(browser.js(f"{moves}.map(one => one.textContent)"), ["Set X", "Set Y", "Set Z", "Set XY"])
        self.assertIn("The door is open", browser.js("document.querySelector('#tab-setup .why').textContent"))
        self.look("an open door")
        self.machine.received = 50
        browser.wait("ngc.state.word === 'Held' && ngc.state.detail === 'The door is open. Close it; then Go on'")
        axes.stands = axes.machine = replace(axes.stands, on=())
        browser.wait("ngc.state.detail === 'The door was open, and is closed now. Go on carries on'")
        self.assertEqual(self.machine.others.count(b"release"), 0)
        browser.press("Go on", "#run")
        self.wait_for("it is let go on", lambda: b"release" in self.machine.others)
        self.machine.received, self.machine.is_held = 0, False
        browser.wait("ngc.state.word === 'Idle'")
        self.no_complaints()

    def test_inches(self) -> None:
        """The readout has its unit; inches where they are chosen, also once the page is opened again."""
        browser, x = self.browser, "document.querySelector('.axis output').textContent"
        unit = "document.querySelector('.axis small').textContent"
        browser.press("Home all", "#tab-setup button")
        browser.wait("ngc.state.homed === 'XYZ' && !ngc.state.busy")
        self.assertEqual(browser.js(f"[{x}, {unit}]"), ["\u2212298.000", "mm"])
        browser.press("Inches, read and typed", "#tab-setup button")
        self.assertEqual(browser.js(f"[{x}, {unit}]"), ["\u221211.7323", "in"])  # 298 / 25.4
        amber = "document.querySelector('.axis small').classList.contains('apart')"
        self.assertTrue(browser.js(amber))  # the program's are millimetres
        browser.fill("#line", "G20")
        browser.press("Do", "#do")
        browser.wait(f"ngc.state.unit === 20 && !{amber}")
        browser.open(self.address)
        browser.wait(f"window.ngc?.state?.yours && {unit} === 'in'")
        browser.js("void localStorage.removeItem('unit')")


BESIDE = """(() => {
    const toast = document.getElementById('toast').getBoundingClientRect();
    const button = window.fingered.getBoundingClientRect();
    return Math.max(toast.top - button.bottom, button.top - toast.bottom);
})()"""
"""How far what is told is above or below the button that a finger was on."""


BY_PROBE = """(one => { one.hidden = false; one.setAttribute('aria-checked', 'true'); })([...document.querySelectorAll(
    '#tab-setup .switch')].find(one => one.textContent === 'Where the probe was touched'));"""
"""The place where the probe was touched is chosen."""


class WithTool(test_page_browser.WithRamps):
    """Tool 1 is in the spindle."""

    def _answer(self, question: bytes, sender: str | bytes | None) -> None:
        if not question.startswith(b"progress "):
            super()._answer(question, sender)
            return
        at, outputs = str(Position(STEP_NM, self.axes.at_nm)), replace(OFF, selected=1, slot=1)
        report = Report(0, 0, False, at, self.out, outputs, wants=self.wants, word=self.axes.word)
        self.listener.answer(question + b" " + said(report), sender)


class Touching(test_page_browser.Moves):
    """What a touch-off warns of, and refuses, beside the finger. The player is in this process; tool 1, 2 mm long, is
    in the spindle, and no length is in force."""

    MACHINE = "[motion]\naccel_mm_s2 = [500, 500, 300]\n[inputs]\nprobe = 6\n[setter]\nheight_um = -48000\n"
    test_setup = test_axis_without_home = test_ended_in_an_alarm = None

    def device(self) -> None:
        """The tool is in."""
        super().device()
        self.run_ngc("reference 0 0 0\ntool 1 2\nmdi T1 M6\ntick 10\n", "before")

    def begin_player(self) -> None:
        """Its file says that there is a probe, and how high the setter is."""
        Path("motion.toml").write_text(self.MACHINE)
        pipe = os.open("axis", os.O_RDONLY | os.O_NONBLOCK)
        self.addCleanup(os.close, pipe)
        self.machine = WithTool(os.path.abspath("axis"))
        self.addCleanup(self.machine.close)

    def setUp(self) -> None:
        """Opens the tab."""
        super().setUp()
        self.browser.press("Setup", "nav button")

    def taps(self, says: str, before: str = "") -> None:
        """A finger taps a button that isn't dead, as on a page that doesn't know yet what has changed."""
        self.browser.js(f"""(() => {{
            window.fingered = [...document.querySelectorAll('#tab-setup button')].find(one =>
                one.textContent === '{says}');
            fingered.scrollIntoView({{ block: 'center' }});
            {before}
            fingered.disabled = false;
            fingered.dispatchEvent(new PointerEvent('pointerdown', {{ bubbles: true }}));
            fingered.click();
        }})()""")

    def is_told(self, begins: str) -> None:
        """That is told, right above the button that was touched, or right below it."""
        browser = self.browser
        browser.wait("document.getElementById('toast').checkVisibility() && document.getElementById('toast')"
                     f".textContent.startsWith({begins!r})")
        browser.wait("!ngc.state.busy")
        self.assertTrue(0 <= browser.js(BESIDE) < 30, (begins, browser.js(BESIDE)))
        browser.js("void document.getElementById('toast').replaceChildren()")

    def is_dead(self, says: str) -> bool:
        """Whether a button is dead."""
        return self.browser.js("[...document.querySelectorAll('#tab-setup button')].find(one =>"
                               f" one.textContent === '{says}').disabled")

    def test_not_touched(self) -> None:
        """A setter that wasn't touched gives no length, nor one that something moved away from since, nor does its
        place give a zero then."""
        browser, setter = self.browser, "Tool 1 stands on the setter"
        none = "the setter wasn't touched since the machine moved last"
        self.assertTrue(self.is_dead(setter))
        self.taps(setter)
        self.is_told(none)
        browser.press("Z\u2212", "#tab-setup .five button")
        browser.wait("ngc.state.touched?.[2] === '-5.000000' && !ngc.state.busy")
        self.assertFalse(self.is_dead(setter))
        browser.press("1", ".jog .choices button:nth-child(3)")
        browser.press("Z+", ".pad button")
        browser.wait("ngc.state.touched === null && !ngc.state.busy")
        self.assertTrue(self.is_dead(setter))
        self.taps(setter)
        self.is_told(none)
        self.taps("Set Z", BY_PROBE)
        self.is_told("the probe wasn't touched since the machine moved last")
        self.assertEqual(browser.js("[ngc.state.tools[0], ngc.state.origin.join()]"),
                         ["2.000000", "0.000000,0.000000,0.000000"])

    def test_far(self) -> None:
        """A length over 5 mm other than before is asked, with both and how far they are apart, and so is a zero; a no
        leaves it. That of the tool in the spindle, where none is in force, is warned of where that is asked, and beside
        `Set Z` where nothing is."""
        browser, setter = self.browser, "Tool 1 stands on the setter"
        long = "tool 1, in the spindle, is 2 mm long: Z0 moves once G43 H1 takes that."
        browser.press("Z\u2212", "#tab-setup .five button")
        browser.wait("ngc.state.touched?.[2] === '-5.000000' && !ngc.state.busy")
        self.taps(setter)
        says = browser.wait("document.querySelector('#over .asked')?.textContent")
        self.assertEqual(says, "tool 1 has 2 mm, and would get 43 mm, 41.000 mm longer")  # -5 above -48
        self.refuses()
        self.assertEqual(browser.js("ngc.state.tools[0]"), "2.000000")
        self.taps("Set Z")
        says = browser.wait("document.querySelector('#over .asked')?.textContent")  # 20 um behind the touch
        self.assertEqual(says, "the zero of G54 would move in Z by 5.020 mm: to machine Z-5.02 from Z0")
        self.assertIn(long, browser.js("document.querySelector('#over .words').textContent"))
        self.refuses()
        self.assertEqual(browser.js("ngc.state.origin[2]"), "0.000000")
        browser.press("1", ".jog .choices button:nth-child(3)")
        browser.press("Z+", ".pad button")
        browser.wait("ngc.state.at[2] === '-4.020000' && !ngc.state.busy")
        self.taps("Set Z")
        self.is_told(long)
        self.assertEqual(browser.js("ngc.state.origin[2]"), "-4.020000")

    def refuses(self) -> None:
        """A no."""
        self.browser.press("No", "#over button")
        self.browser.wait("!ngc.state.busy && document.getElementById('over').hidden")
        self.browser.wait("!document.querySelector('.side').inert")


if __name__ == "__main__":
    unittest.main()
