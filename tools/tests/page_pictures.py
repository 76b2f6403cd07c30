"""Makes the pictures of docs/PAGE.md anew: a day and a loss of power, over the machine's model, in a browser.

    NGC=PATH python3 tools/tests/page_pictures.py [FOLDER [WIDTHxHEIGHT ..]]

Without a folder those of docs/page. With sizes, as 820x1180 390x844, each is made in these too, for people to look at.
It takes some minutes, and is no test. pngquant makes them a third as large, where it is installed."""
import shutil
import subprocess
import sys
import unittest
from dataclasses import replace
from pathlib import Path

sys.path.insert(0, str(Path(__file__).resolve().parent))

from firefox_support import PATH, start
from out_support import text_of
from session_support import TOOLS
from test_documents import blocks, chapters
from test_moves import PROBE, World
from test_page_day import Walk

PLATE = """(plate: a pocket, a groove round it)
G17 G21 G90 G94 G54
T1 M6 (end mill, 6 mm)
G43 H1
S8000 M3
M8
G0 X-13 Y-5 Z20
Z3
(pocket, 3 mm deep)
G1 Z-1 F300
X13 F400
Y5
X-13
Y-5
X-9 Y-2
X9
Y2
X-9
Y-2
X-13 Y-5
Z-2 F300
X13 F400
Y5
X-13
Y-5
X-9 Y-2
X9
Y2
X-9
Y-2
X-13 Y-5
Z-3 F300
X13 F400
Y5
X-13
Y-5
X-9 Y-2
X9
Y2
X-9
Y-2
G0 Z20
M5 M9
(blow the chips out of the pocket)
M0
T2 M6 (ball mill, 3 mm)
G43 H2
S12000 M3
M8
(groove, 2 mm deep)
G0 X24 Y0
Z3
G1 Z-2 F300
G3 X24 Y0 I-24 F900
G0 Z20
M5 M9
M2
"""
WRONG = """G17 G21 G90 G94
M3 S8000
G0 X10 Y10 Z3
G1 Z-2 F200
X40
G3 X60 Y30 I0 J20
G1 X10 Y30 Q3
Y10 Y5
G0 Z20
M2
"""
LINES = PLATE.splitlines()
CUT, GROOVE = LINES.index("X9", LINES.index("Z-2 F300")) + 1, LINES.index("G3 X24 Y0 I-24 F900") + 1
SIZE = (1280, 800)
FOLDER = Path(sys.argv[1] if sys.argv[1:] else TOOLS.parent / "docs/page").resolve()
MORE = [tuple(map(int, word.split("x"))) for word in sys.argv[2:]]


class Pictures(Walk):
    """The settings are those of examples/mill.toml, the machine is that of docs/MACHINE.md; but it homes quickly, on a
    busy computer too."""

    @classmethod
    def setUpClass(cls) -> None:
        """Starts the browser."""
        cls.browser = start()
        cls.addClassCleanup(cls.browser.close)

    def device(self) -> None:
        """A fresh device, with the tools of the program."""
        shown = chapters("MACHINE.md")
        self.mill = "\n".join(blocks(shown["Motors"])[:1] + blocks(shown["Inputs and home"]))
        for slow, quick in (("[60, 60, 60]", "[600, 600, 600]"), ("agree_um = 20", "agree_um = 1000")):
            self.mill = self.mill.replace(slow, quick)
        Path("first.toml").write_text((TOOLS.parent / "examples/mill.toml").read_text())
        super().device()
        self.run_ngc("tool 1 50\ntool 2 51.5\ntool 3 0\n", "before")

    def begin_player(self) -> None:
        """The machine's switches are 10 mm away, and the spindle is always at its speed."""
        if not Path("world").exists():
            self.world = World()
            self.addCleanup(self.world.close)
            self.world.set(0, 1 << PROBE)
            for number, (high, axis, sign) in enumerate(((1, 0, -1), (2, 1, -1), (3, 2, 1))):
                self.world.switch(number, high, axis, sign, sign * 2_000)
        super().begin_player()

    def shoot(self, name: str) -> None:
        """Makes a picture of the page as it is."""
        for size in (*MORE, SIZE):
            self.browser.size(*size)
            self.browser.frame()
            path = FOLDER / (f"{name}.png" if size == SIZE else f"{name}-{size[0]}x{size[1]}.png")
            self.browser.shoot(path)
            if shutil.which("pngquant"):
                subprocess.run(["pngquant", "--force", "--output", path, "256", path], check=True)

    def test_pictures(self) -> None:
        """All of them, in the order of PAGE.md."""
        self.sets_up()
        self.runs()
        self.loses_power()
        self.recovers()

    def sets_up(self) -> None:
        """Home, the work's zero, the tool; then a program is looked at, and another one loaded."""
        self.tab("Setup")
        self.press("Home all", "#tab-setup button")
        self.rests("s.homed === 'XYZ'")
        self.do("G10 L2 P1 X-90 Y-50 Z-120")
        self.rests("s.work[2] === '120.000000'")
        self.do("T1 M6")
        self.press("Tool 1 is in", "#run")
        self.rests("s.slot === 1")
        self.do("G43 H1")
        self.rests("s.tool_length === '50.000000'")
        self.do("G0 X0 Y0")
        self.rests("s.work[0] === '0.000000'")
        Path("plate.ngc").write_text(PLATE)
        self.browser.choose_file(self.folder / "plate.ngc")
        self.browser.press("Load", "#over .go")
        self.wait(f"s.program.lines === {len(LINES)} && !s.busy && ngc.job")
        self.browser.press("3-D", ".path button")
        self.browser.press("0.1", ".jog .choices button")
        self.shoot("setup")
        Path("plate.ngc").write_text(WRONG)
        self.browser.choose_file(self.folder / "plate.ngc")
        self.browser.wait("document.querySelector('#over .finding') && ngc.preview?.count")
        self.shoot("findings")
        self.browser.press("Back", "#over button")
        self.tab("Program")

    def runs(self) -> None:
        """A cut, a hold, a stop with a message, a tool change."""
        self.press("Run", "#run")
        self.wait(f"s.half === 'program' && s.behind && (s.line > {CUT} || s.line === {CUT} && s.work[0] > -4)")
        self.shoot("running")
        self.press("Hold", "#hold")
        self.rests("s.word === 'Held'")
        self.shoot("held")
        self.press("Continue", "#run")
        self.rests("s.does === 'stopped'")
        self.shoot("stopped")
        self.press("Continue", "#run")
        self.wait("s.waits && s.waits_tool === 2")
        self.shoot("tool")
        self.press("Tool 2 is in", "#run")

    def loses_power(self) -> None:
        """Within the groove."""
        self.wait(f"s.line === {GROOVE} && s.half === 'program' && s.work[1] > 10 && s.work[0] < 4")
        self.pull()
        self.browser.wait("document.getElementById('lost').checkVisibility()")
        self.shoot("lost")
        record = replace(self.recorded(), age_ms=23)  # as on a computer that has time for it
        Path("position").write_bytes(text_of(record))
        self.begin()
        self.opened()
        self.browser.press("3-D", ".path button")

    def recovers(self) -> None:
        """The four steps, up to the look."""
        self.stored()
        self.browser.press("3-D", "#over .views button")
        self.shoot("stored")
        self.browser.press("Next", "#over button")
        self.browser.press("Confirm", "#over button")
        self.shoot("where")
        for _ in "XY":
            self.browser.press("Confirm", "#over button")
        self.browser.press("Next", "#over button")
        self.browser.wait("document.querySelector('#over details')")
        self.browser.js("document.getElementById('theme').click()")
        self.shoot("rehearsal")
        self.browser.js("document.getElementById('theme').click()")
        self.browser.press("Next", "#over button")
        self.press("Go along the path", "#over button")
        self.browser.press("Yes: switches it on first", "#over .go")
        self.wait("s.question?.purpose === 'look'")
        self.browser.js("[...document.querySelectorAll('#over .look button')].slice(0, 2).forEach(one => one.click())")
        self.shoot("look")

    def stored(self) -> None:
        """Step 1 is rehearsed."""
        self.browser.wait("document.querySelector('#over .facts')?.textContent.includes('It begins at')"
                          " && ngc.job && !document.querySelector('#over').inert")


if __name__ == "__main__":
    if PATH is None:
        sys.exit("page_pictures.py: no browser is installed: tools/tests/install_browser.sh")
    FOLDER.mkdir(parents=True, exist_ok=True)
    unittest.main(argv=sys.argv[:1])
