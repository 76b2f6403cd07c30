"""docs/PAGE.md as it is written, step by step, at the machine of docs/MACHINE.md: a day, and a loss of power. In
Chromium, or in Firefox where NGC_BROWSER says so; skipped where it isn't installed."""
import os
import re
import subprocess
import sys
import unittest
from collections.abc import Callable
from functools import reduce
from pathlib import Path

sys.path.insert(0, str(Path(__file__).resolve().parent))

from browser_support import ANSWERS_S, LONG, Browser, Chromium
from documented_machine import SETTINGS, DocumentedWorld, machine_file
from firefox_support import MISSING, PATH, started
from page_support import OTHER, Served
from session_support import TOOLS, ngc
from test_moves import MACHINE, PROBE, World, program

TEXT = (TOOLS.parent / "docs/PAGE.md").read_text()
CHANGES = (("door = 4\nspindle_at_speed = 5\n", ""), ("at_speed_s = 1\n", ""), ("[60, 60, 60]", "[600, 600, 600]"),
           ("agree_um = 20", "agree_um = 1000"))
MILL = reduce(lambda text, change: text.replace(*change), CHANGES, MACHINE)
"""A machine without a door, whose spindle says nothing of its speed; it homes quickly, on a busy computer too."""
DAY = """G17 G21 G90 G94
M3 S1000
G0 X0 Y0
G1 X15 F300
M5
T2 M6
M1
/G0 Y9
M0 (MSG, turn the part)
G1 X0 F600
M2
"""
"""Its line 4 is a cut of three seconds."""
FROM = """G17 G21 G90 G94 G49
G0 X0 Y0 Z-1
G1 Z-2 F600
G1 X2
X0
G0 Z-1
M2
"""
LOSS = """G17 G21 G90 G94
M3 S1000
G0 X-148 Y-98 Z-2
G1 X-146 F600
G1 X-121 F300
G1 X-122 F600
M2
"""
"""Its line 5 is a cut of five seconds."""

TOOLS_UM = {1: 80_000, 2: 40_000}
"""How far each hangs below the spindle."""

HOME_FIRST = "Home first"
HOMES = 5
"""So often home is touched at most, where others want the processors."""
PRESSES = 50
"""A jog ends where the page is silent for 0.3 s, as where others want the processors: its button is pressed anew."""
SOON = """new Promise(done => {
    const until = performance.now() + 2000;
    const look = () => (%s ? done(true) : performance.now() > until ? done(false) : setTimeout(look, 20));
    look();
})"""
"""Whether something holds within two seconds."""


def part(title: str) -> str:
    """What stands below a title of PAGE.md."""
    return TEXT.partition(f"\n## {title}\n")[2].partition("\n## ")[0]


def steps(title: str) -> list[str]:
    """The names of the steps there, and of what else is bold."""
    return [name.rstrip(".") for name in re.findall(r"\*\*([^*]+)\*\*", part(title))]


def named(text: str) -> set[str]:
    """The buttons that are named in a text."""
    return {name for name in re.findall(r"`([^`\n]+)`", text) if re.match(r"[A-Z\u2212+]", name)}


def buttons(title: str) -> set[str]:
    """The buttons that PAGE.md names there."""
    return named(part(title))


class Walk(Served):
    """The player over a simulated machine, a file as OUT, the page in a browser."""

    OUT = "out"
    browser: Browser
    mill = MILL  # the machine's file

    def setUp(self) -> None:
        """Opens the page."""
        self.done: list[str] = []
        self.pressed: set[str] = set()
        super().setUp()
        self.addCleanup(self.browser.open, "about:blank")
        self.browser.forget()
        self.browser.size(1280, 800)
        self.opened()

    def opened(self) -> None:
        """Opens the address that the server printed."""
        self.browser.open(self.address)
        self.browser.wait("window.ngc?.state?.yours && ngc.jobId !== null")
        self.browser.hurry()

    def modelled(self) -> World:
        """The simulated machine; the setter is at machine Z 2, where the probe is touched."""
        world = World()
        world.switch(3, PROBE, 2, -1, -3_000)
        return world

    def begin_player(self) -> None:
        """Starts the player as PAGE.md does."""
        if not Path("world").exists():
            self.world = self.modelled()
            self.addCleanup(self.world.close)
        Path("motion.toml").write_text(self.mill)
        self.player = subprocess.Popen([program(), "-f", "-s", "progress", "-m", "motion.toml", "out", "first.toml",
                                        "position"], stdin=subprocess.DEVNULL, stdout=subprocess.PIPE,
                                       stderr=subprocess.PIPE, text=True)
        self.addCleanup(self._end, self.player)
        self.wait_for("the player listens", lambda: os.path.exists("progress"))

    def begin(self) -> None:
        """Starts both, as PAGE.md does."""
        self.begin_player()
        self.server = self.start("ngc-page", "mill.dev", "first.toml", "out", "--player", "progress", "--machine",
                                 "motion.toml", "--ngc", ngc(), "--listen", "127.0.0.1:0")
        self.address = self.server.stdout.readline().strip()
        if not self.address:
            self.fail(self.server.stderr.read())

    # what a person does

    def press(self, says: str, within: str = "button") -> None:
        """Touches a button."""
        self.browser.press(says, within)
        self.pressed.add(says)

    def wait(self, holds: str) -> object:
        """Waits until something holds of the state `s`."""
        return self.browser.wait(f"(s => {holds})(ngc.state)")

    def rests(self, holds: str = "true") -> None:
        """The same once nothing is under way."""
        self.wait(f"!s.busy && ({holds})")

    def tab(self, name: str) -> None:
        """Chooses a tab."""
        self.browser.press(name, "nav button")

    def do(self, line: str) -> None:
        """Types a line of G-code."""
        self.browser.fill("#line", line)
        self.browser.press("Do", "#do")

    def load(self, text: str) -> None:
        """Chooses a file, and loads it."""
        Path("part.ngc").write_text(text)
        self.browser.choose_file(self.folder / "part.ngc")
        self.press("Load", "#over .go")
        self.wait(f"s.program.lines === {text.count(chr(10))} && !s.busy && ngc.job && s.half === 'none'")


class Documented(Walk):
    """At the machine that docs/MACHINE.md shows, with examples/mill.toml, which PAGE.md's commands name."""

    mill = machine_file()
    world: DocumentedWorld
    is_new = False  # it isn't known where the table is; else that is at machine 0, and the day's tools have lengths

    @classmethod
    def setUpClass(cls) -> None:
        """Starts the browser."""
        cls.browser = started()

    def device(self) -> None:
        """A fresh device, and the settings."""
        Path("first.toml").write_text(SETTINGS)
        super().device()
        if not self.is_new:
            self.run_ngc("".join(f"tool {slot} {um // 1000}\n" for slot, um in TOOLS_UM.items()), "before")

    def modelled(self) -> DocumentedWorld:
        """The simulated machine, with two tools beside it."""
        world = DocumentedWorld()
        if not self.is_new:
            world.place = (0, 0, 0)
        for slot, um in TOOLS_UM.items():
            world.hangs(slot, um)
        return world

    def goes_home(self, begins: Callable[[], None]) -> None:
        """All axes come home, where the file says that they stand then. It is touched anew where the page says that
        nobody asks any more, as where others want the processors."""
        for _ in range(HOMES):
            begins()
            self.wait("s.busy")
            self.rests()
            if self.browser.js("ngc.state.homed") == "XYZ":
                break
            self.assertIn("nobody asks any more", self.browser.js("document.getElementById('detail').textContent"))
            begins = self.presses_home
        self.rests("s.homed === 'XYZ' && s.motors.join() === '-150.000000,-100.000000,0.000000'")
        agree_um = self.world.file["home"]["agree_um"]
        for table, wanted, nm in zip(self.world.place, self.world.homed, self.world.settings["step_nm"], strict=True):
            self.assertLessEqual(abs(table - wanted) * nm, 1000 * agree_um, self.world.place)

    def presses_home(self) -> None:
        """Homes all axes, in Setup."""
        self.tab("Setup")
        self.press("Home all", "#tab-setup button")


class Day(Documented):
    """From home to quit: each step, in turn, and each button that is named there."""

    def sets_up(self) -> None:
        """Up to the work's zero."""
        for step in (self.homes, self.jogs, self.tools, self.zero):
            step()
        self.assertEqual(self.done, steps("A day")[:4])
        self.assertEqual(named(part("A day").partition("\n5. ")[0]) - self.pressed, set())

    def works(self) -> None:
        """From a program on."""
        for step in (self.loads, self.runs, self.holds, self.stops, self.from_line, self.quits):
            step()
        self.assertEqual(self.done, steps("A day")[4:])
        self.assertEqual(named(part("A day").partition("\n5. ")[2]) - self.pressed, set())

    def homes(self) -> None:
        """All axes at their switches."""
        self.goes_home(self.presses_home)
        self.done.append("Setup: home")

    def jogs(self) -> None:
        """For as long as a finger is down, and then a number of millimetres."""
        before = self.browser.js("ngc.state.motors[0]")
        self.press("Cont.", ".jog button")
        x, y = self.browser.place("X+", ".pad button")
        for _ in range(PRESSES):
            self.browser.down(x, y)
            has_moved = self.browser.js(SOON % f"ngc.state.motors[0] > {before} + 1")
            self.browser.up(x, y)
            if has_moved:
                break
        self.rests(f"s.motors[0] > {before}")
        stood = self.browser.js("ngc.state.motors[0]")
        self.browser.press("1", ".choices button:nth-child(3)")
        self.browser.press("X\u2212", ".pad button")
        self.rests(f"Math.abs(s.motors[0] - {stood} + 1) < 1e-6")
        self.press("By keys or gamepad", "#tab-setup button")
        for _ in range(PRESSES if isinstance(self.browser, Chromium) else 0):
            for kind in ("rawKeyDown", "keyUp"):
                self.browser.key(kind, "ArrowRight")
            if self.browser.js(SOON % f"Math.abs(ngc.state.motors[0] - {stood}) < 1e-6"):  # a step of the same length
                break
        else:
            self.assertNotIsInstance(self.browser, Chromium)
        self.rests()
        self.done.append("Setup: jog")

    def tools(self) -> None:
        """A length is typed; that of tool 1 is touched off on the setter."""
        for slot, length in ((1, "1.5"), (2, "40")):
            self.tab("Tools")
            self.browser.fill(f"#tab-tools input[aria-label='Length of tool {slot}']", length)
            self.browser.press("Add", "#tab-tools button")
            self.rests(f"s.tools.length === {slot} && Number(s.tools[{slot - 1}]) === {length}")
        self.do("T1 M6")
        self.press("Tool 1 is in", "#run")
        self.rests("s.slot === 1")
        self.tab("Setup")
        self.assertTrue(self.is_dead("Tool 1 stands on the setter"))  # it wasn't touched
        self.goes("G53 G0 X140 Y90")  # above the setter, as its table in the file says
        self.press("Z\u2212", "#tab-setup .five button")
        self.rests("s.touched?.[2] === '-1.250000'")  # a tool of length 0 would touch it at machine Z -81.25
        self.browser.wait("document.querySelector('#tab-setup').innerText.includes('Length 80.000 mm, 1.500 by now:"
                          " touched at machine Z \u22121.250, setter at \u221281.250')")
        self.press("Tool 1 stands on the setter", "#tab-setup button")
        self.press("Yes: sets it", "#over button")
        self.rests("s.tools[0] === '80.000000' && s.touched === null")  # its place counts once
        self.assertTrue(self.is_dead("Tool 1 stands on the setter"))
        self.browser.fill("input[aria-label='Work coordinate of what the tool stands on, in mm']", "-81")
        at = float(self.browser.js("ngc.state.at[2]"))
        length, machine = (f"{number:.3f}".replace("-", "\u2212") for number in (at + 81, at))
        self.browser.wait(f"document.querySelector('#tab-setup').innerText.includes('Length {length} mm: machine Z is"
                          f" {machine}, the work there at \u221281.000')")
        self.press("Tool 1 stands on the work", "#tab-setup button")
        self.rests("Math.abs(s.tools[0] - s.at[2] - 81) < 1e-6 && s.tools[0] !== '80.000000'")
        self.press("Undo: tool 1 80", "#tab-setup button")
        self.rests("s.tools[0] === '80.000000'")
        self.done.append("Tools")

    def goes(self, *lines: str) -> None:
        """Goes by lines of G-code, each to its end."""
        for line in lines:
            self.do(line)
            axes = {word[0]: float(word[1:]) for word in line.split()[2:]}
            self.rests(" && ".join(f"Number(s.at[{'XYZ'.index(axis)}]) === {at}" for axis, at in axes.items()))

    def is_dead(self, says: str) -> bool:
        """Whether a button of Setup is disabled; all of its text is in sight."""
        button = f"[...document.querySelectorAll('#tab-setup button')].find(one => one.textContent === '{says}')"
        self.assertEqual(self.browser.js(f"{button}.scrollWidth - {button}.clientWidth"), 0)
        return bool(self.browser.wait(f"{button}.disabled ? 1 : 2") == 1)

    def zero(self) -> None:
        """This place is 0 in XY, and 2 in Z, which is taken back, and set."""
        self.goes("G53 G0 Z0", "G53 G0 X100 Y60", "G53 G0 Z-2.5")
        self.press("Set XY", "#tab-setup button")
        self.press("Yes: moves it", "#over button")
        self.rests("s.work[0] === '0.000000' && s.work[1] === '0.000000'")
        self.browser.fill("input[aria-label='Work coordinate of this place, in mm']", "2")
        for undoes in (True, False):
            self.press("Set Z", "#tab-setup button")
            self.rests("s.work[2] === '2.000000'")  # by less than 5 mm
            if undoes:
                self.press("Undo", "#tab-setup button")
                self.rests("s.work[2] === s.at[2]")
        self.press("Offsets\u2026", "#tab-setup button")
        rows = "document.querySelector('#over .offsets').innerText"
        self.browser.wait(f"{rows}.includes('G59.3') && {rows}.includes('machine here: X 100.000')")
        self.browser.press("Back", "#over button")
        self.done.append("Setup: work zero")

    def loads(self) -> None:
        """What is refused is marked, with what to write instead; what isn't is loaded."""
        Path("part.ngc").write_text("G1 X1 Q2 F10\nM2\n")
        self.browser.choose_file(self.folder / "part.ngc")
        said = self.browser.wait("document.querySelector('#over .finding')?.textContent")
        self.assertIn("^^", said)
        self.assertIn("Mend: ", said)
        self.browser.press("Back", "#over button")
        Path("part.ngc").write_text("G21 G90 G91.1\nM2\n")
        self.browser.choose_file(self.folder / "part.ngc")
        self.press("Adapt and load", "#over button")
        self.wait("s.program.lines === 2 && !s.busy")
        self.load(DAY)
        self.done.append("Load")
        self.press("Stock", "#stock")
        self.wait("ngc.stock.picture?.found && !ngc.stock.worker")
        self.browser.press("Back", "#over button")
        for kind, shown in (("3-D", "turn"), ("Top", "shift")):
            self.browser.press(kind, ".path button")
            before = self.browser.js(f"String(ngc.picture.view.{shown})")
            self.browser.down(600, 400)
            self.browser.move(640, 420)
            self.browser.up(640, 420)
            self.assertNotEqual(self.browser.js(f"String(ngc.picture.view.{shown})"), before)

    def runs(self) -> None:
        """The share that is done and the time left are shown; the rate and the switches are changed while it runs."""
        self.tab("Setup")
        self.press("Measure at tool changes", "#tab-setup button")  # else tool 2 is measured once it is in
        self.rests("s.measures === false")
        for name in ("Optional stop", "Block delete", "Single block"):
            self.press(name, ".switches button")
        self.wait("s.optional && s.delete && s.single")
        self.press("Run", "#run")
        self.rests("s.does === 'held' && s.line === 3 && s.spindle === 1")  # line 1 moves and switches nothing
        self.browser.press("Single block", ".switches button")
        self.wait("!s.single")
        self.press("Continue", "#run")
        self.wait("s.line === 4 && s.half === 'program' && s.behind > 0 && s.work[0] > 0.2")
        for says, percent in (("\u2212", 90), ("+", 100)):
            self.press(says, "#override button")
            self.wait(f"s.percent === {percent}")
        share, left = self.browser.js("['share', 'left'].map(id => document.getElementById(id).textContent)")
        self.assertRegex(f"{share}; {left}", r"^\d+ % of .+; .+ left$")
        self.done.append("Run")

    def holds(self) -> None:
        """Hold, and on; then the spindle rests, and tool 2 is put in; the optional stop comes after it."""
        self.press("Hold", "#hold")
        self.wait("s.word === 'Held' && !s.busy")
        stood = self.browser.js("ngc.state.motors.join()")
        self.browser.js("new Promise(done => setTimeout(done, 200))")
        self.assertEqual(self.browser.js("ngc.state.motors.join()"), stood)
        enabled = "[...document.querySelectorAll('.pad button, #tab-setup .four button')].filter(one => !one.disabled)"
        self.assertEqual(self.browser.js(f"{enabled}.length"), 0)  # they would be refused
        self.assertIn("A line is held", self.browser.js("document.querySelector('#tab-setup .why').textContent"))
        self.press("Continue", "#run")
        self.wait("s.waits && s.waits_tool === 2 && s.spindle === 0")
        self.browser.wait("document.querySelector('#gauges dd').textContent.endsWith('mm/min set')")  # it rests
        self.press("Tool 2 is in", "#run")
        self.rests("s.does === 'stopped' && s.line > 6 && s.slot === 2")
        self.press("Continue", "#run")
        self.done += ["A tool change", "Hold", "Continue"]

    def stops(self) -> None:
        """M0 shows its message; a line leaves something in force; it is put back, and the program goes on."""
        self.rests("s.does === 'stopped' && s.detail === 'turn the part'")
        self.do("G91")
        self.rests("s.distance === 91 && s.restore.length")
        self.press("Continue", "#run")
        self.press("Restore", "#over button")
        self.rests("s.distance === 90")
        self.browser.press("Continue", "#run")
        self.browser.press("Continue", "#over button")
        self.rests("s.finished && s.work[1] === '0.000000'")  # the line with a slash was left out
        self.done.append("A stop")

    def from_line(self) -> None:
        """A line is touched, and the program goes on from it, by a way that is asked, behind a look."""
        self.tab("Setup")
        self.is_told()
        self.load(FROM)
        self.tab("Program")
        for _ in range(PRESSES):
            self.browser.press("X0", "#program .row")
            if self.browser.js(SOON % "document.getElementById('from').textContent.includes('From line 5')"):
                break  # else the list was drawn anew meanwhile
        self.press("From line 5", "#from")
        self.pressed.add("From line 812\u2026")
        for asked, answer in (("Up to which Z", "0"), ("How fast", "300")):
            self.browser.wait(f"document.querySelector('#over .asked').textContent.includes('{asked}')")
            self.browser.fill("#over .entry input", answer)
            self.browser.press("Go on", "#over .go")
        self.browser.press("Yes: stores and begins it", "#over .go")
        self.browser.wait("document.querySelectorAll('#over .look button').length === 3")
        self.browser.js("document.querySelectorAll('#over .look button').forEach(one => one.click())")
        self.browser.press("Yes: goes there", "#over .go")
        self.rests("s.finished && s.work[2] === '-1.000000' && s.program.way[1] === 5")
        self.done.append("From a line")

    def is_told(self) -> None:
        """The browser is to tell of stops. A Chromium without a window never does: the page says so."""
        if self.browser.js("Notification.permission") == "denied":
            self.assertIsInstance(self.browser, Chromium)
            self.browser.wait("document.querySelector('#tab-setup').innerText.includes('This browser doesn\u2019t tell"
                              " you of stops')")
            self.pressed.add("Tell me at a stop, a tool change, the end")
        else:
            self.press("Tell me at a stop, a tool change, the end", "#tab-setup button")

    def quits(self) -> None:
        """What ran stands in the record; the server ends."""
        self.tab("Log")
        self.press("Record of runs", "#runs")
        self.browser.wait("document.querySelector('#over pre').textContent.includes('from line 5')")
        self.browser.press("Back", "#over button")
        self.press("Quit", "#quit")
        self.browser.press("Quit", "#over button")
        self.assertEqual(self.server.wait(ANSWERS_S), 0)
        self.browser.wait("document.getElementById('lost-says').textContent === 'The session has ended.'")
        self.done.append("Quit")


class Loss(Documented):
    """From a page that is lost to the program's end."""

    def home_first(self) -> None:
        """What is said of a player that is gone; the steps after that, home first and by legs."""
        self.watches()
        self.cuts()
        self.player_gone()
        self.later()
        wanted = named(part("Power is lost").partition("\n1. ")[0]) | buttons("More pages, and a tablet")
        self.assertEqual((wanted | {HOME_FIRST}) - self.pressed, set())

    def loss(self) -> None:
        """What is said of a page that is lost; the four steps, along the path to the end; a line is given up."""
        self.cuts()
        self.lose_power()
        self.along()
        self.gives_up()
        self.assertEqual(self.done, steps("Power is lost"))
        self.assertEqual(named(part("Power is lost").partition("\n1. ")[2]) - {HOME_FIRST} - self.pressed, set())

    def watches(self) -> None:
        """Another page takes over, and this one takes over again; what becomes of a job is chosen."""
        self.assertEqual(self.page(OTHER).post("takeover")[0], 200)
        self.press("Take over", "#takeover")
        self.wait("s.yours")
        self.tab("Setup")
        for chosen in ("hold", "go"):
            self.press("Job goes on if this page is lost", "#tab-setup button")
            self.wait(f"s.on_loss === '{chosen}'")

    def cuts(self) -> None:
        """The job is loaded and started, and the motors cut in line 5."""
        self.load(LOSS)
        self.press("Run", "#run")
        self.wait("s.line === 5 && s.half === 'program' && s.motors[0] > -145.5")

    def player_gone(self) -> None:
        """The band is red until the player is started, and `ngc` again."""
        before = self.browser.js("ngc.state.session")
        self.player.kill()
        self.player.wait()
        self.wait("s.word === 'Player gone' && s.tone === 'fail'")
        os.unlink("progress")
        self.begin_player()
        self.press("Start ngc again", "#restart")
        self.browser.wait(f"ngc.state?.session && ngc.state.session !== '{before}'")
        self.stored()

    def later(self) -> None:
        """The machine is homed first, as it is proposed, and then the tool goes by legs."""
        self.browser.press("Next", "#over button")
        self.press(HOME_FIRST, "#over .go")
        self.goes_home(lambda: self.browser.press("Home", "#over button"))
        self.stored()
        self.confirmed()
        self.press("Go by legs", "#over button")
        self.agrees()
        self.wait("s.line === 5 && s.moving && s.spindle === 1 && s.motors[0] > -145.5 && s.motors[0] < -121")

    def lose_power(self) -> None:
        """Power is lost: the page says so. It comes back, and the new address is opened."""
        self.pull()
        self.browser.wait("document.getElementById('lost').checkVisibility()")
        self.begin()
        self.opened()

    def along(self) -> None:
        """Along the path, to the end."""
        self.stored()
        self.fits("stored")
        self.done.append("Stored")
        self.confirmed(self.fits)
        self.done += ["Where it stands", "Rehearsal"]
        self.press("Go along the path", "#over button")
        self.agrees()
        self.rests("s.finished && s.motors[0] === '-122.000000'")
        self.done.append("Step by step")

    def stored(self) -> None:
        """Step 1 says what was stored."""
        self.browser.wait("document.querySelector('#over .facts')?.textContent.includes('It begins at')")

    def fits(self, step: str) -> None:
        """A step is shown whole, in a small window too."""
        for size in ((1024, 768), (1280, 800)):
            self.browser.size(*size)
            self.assertLessEqual(self.browser.js(LONG), 0, (step, size))

    def gives_up(self) -> None:
        """The session ends within a line, and begins again: the line counts as not begun."""
        self.press("Run", "#run")
        self.wait("s.line === 5 && s.half === 'program' && s.motors[0] > -145.5")
        self.pull()
        self.begin()
        self.opened()
        self.stored()
        self.confirmed()
        self.press("Give up", "#over button")
        self.browser.press("Yes, give it up", "#over button")
        self.rests("s.half === 'none' && s.line === 5 && !s.spindle")

    def confirmed(self, looks: Callable[[str], None] = lambda _: None) -> None:
        """From step 1 to step 4: each axis is confirmed. `looks` is told of each step."""
        self.browser.press("Next", "#over button")
        for _ in "XYZ":
            self.browser.press("Confirm", "#over button")
        looks("where it stands")
        self.browser.press("Next", "#over button")
        self.browser.wait("document.querySelector('#over details')")
        looks("the rehearsal")
        self.browser.press("Next", "#over button")
        looks("the choice")

    def agrees(self) -> None:
        """Answers what is asked: a height where it is one; once the outputs are on what was seen is ticked. Nothing
        moves before that, and the cut goes on after another yes."""
        last, text, stands = 0, "", self.browser.js("ngc.state.motors.join()")
        while "goes on with the cut" not in text:
            question = self.wait(f"s.question?.id > {last} && s.question")
            last, text = question["id"], question["text"]
            if "Up to which Z" in text:
                self.browser.fill("#over .entry input", "0")
            if question["purpose"] == "look":
                self.assertEqual(self.browser.js("[ngc.state.moving, ngc.state.spindle, ngc.state.motors.join()]"),
                                 [False, 1, stands])
                self.browser.wait("document.querySelectorAll('#over .look button').length === 3")
                self.browser.js("document.querySelectorAll('#over .look button').forEach(one => one.click())")
            self.browser.press("", "#over .go")


@unittest.skipUnless(PATH, MISSING)
class NewMachine(Day):
    """The table is somewhere, and nobody knows where yet."""

    is_new = True

    def test_setup(self) -> None:
        """A day, from home to the work's zero."""
        self.sets_up()


@unittest.skipUnless(PATH, MISSING)
class Walks(Day, Loss):
    """What comes then, and goes wrong."""

    def test_work(self) -> None:
        """The day goes on, from a program to quit."""
        self.works()

    def test_home_first(self) -> None:
        """A player that is gone amid a cut: the machine is homed before that goes on."""
        self.home_first()

    def test_loss(self) -> None:
        """A loss of power, up to the program's end."""
        self.loss()


if __name__ == "__main__":
    unittest.main()
