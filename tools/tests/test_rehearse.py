"""ngc-rehearse: what it says, by hand; where the motors were, compared with OUT itself; what it refuses."""
import fcntl
import signal
import subprocess
import sys
import tempfile
import unittest
from pathlib import Path
from unittest.mock import patch

sys.path.insert(0, str(Path(__file__).resolve().parent))

from session_support import FIRST, InFolder, ngc, told
from out_support import after
from test_device import DATA, stored

from ngc_tools.ngc.console import Console
from ngc_tools.formats.out import read_line
from ngc_tools.formats.position import Position
from ngc_tools.cli.rehearse import main

HOLE = """G21 G90 G17 G94
T1 M6
S1200 M3 M8
G0 X1 Y1 Z5
F60
G81 X2 Y2 Z-1 R1
G1 X3 M0
M30
"""
# Lines of OUT before each segment of the cycle's line: five switches and G0's 5,000 pulses, then 1,000 to X2 Y2, 4,000
# to R, 2,000 to the bottom, and 6,000 back to Z5.
OVER, DOWN, FEED, OUT = 5005, 6005, 10005, 12005

RESUMED = """\
half-done: line 6 of 8: G81 X2 Y2 Z-1 R1
segment 3 of 4, counted from 0: begins at X 2.000000 Y 2.000000 Z -1.000000
first comes on: spindle clockwise at 1200; flood; tool 1 in the spindle
the approach: from X 2.000000 Y -6.000000 Z 5.000000
    to X 2.000000 Y 2.000000 Z -1.000000
    one straight line at the traverse rate, 10.000 mm in 0.400 s, lowest Z -1.000
    it goes DOWN 6.000 mm
from there to the end: 1.300 s; X 2.000 to 3.000   Y 2.000 to 2.000   Z -1.000 to 5.000 mm
    tool 1: 1.300 s
    it stops before line 8, for continue
"""
CARRIED = """\
11505 lines carried out, counted from 2 entries on
the motors were in line 6 of 8: G81 X2 Y2 Z-1 R1
segment 2, line 1500 of its 2000; reference 2.000000 2.000000 -0.500000
NEVER CUT: 500 lines from there up to line 6, segment 3, where resume begins

half-done: line 6 of 8: G81 X2 Y2 Z-1 R1
segment 3 of 4, counted from 0: begins at X 2.000000 Y 2.000000 Z -1.000000
first comes on: spindle clockwise at 1200; flood; tool 1 in the spindle
the approach: from X 2.000000 Y 2.000000 Z -0.500000
    to X 2.000000 Y 2.000000 Z -1.000000
    one straight line at the traverse rate, 0.500 mm in 0.025 s, lowest Z -1.000
    it goes DOWN 0.500 mm
"""
TYPED = """\
half-done: the operator's line: G0 X1 Z2
segment 0 of 1, counted from 0: begins at X 0.000000 Y 0.000000 Z 0.000000
first comes on: spindle stands; no coolant; no tool in the spindle
the approach: from X 0.000000 Y 0.000000 Z 1.000000
    to X 0.000000 Y 0.000000 Z 0.000000
    one straight line at the traverse rate, 1.000 mm in 0.050 s, lowest Z 0.000
    it goes DOWN 1.000 mm
from there to the end: 0.100 s; X 0.000 to 1.000   Y 0.000 to 0.000   Z 0.000 to 2.000 mm
    no tool: 0.100 s
"""
STARTED = """\
no block is half-done: resume has nothing to do
start goes on with line 2 of 3: G0 X0.5
it switches nothing by itself; kept is: spindle counter-clockwise at 50.5; no coolant; no tool in the spindle
it begins at X 0.000000 Y 0.000000 Z 0.000000
from there to the end: 0.025 s; X 0.000 to 0.500   Y 0.000 to 0.000   Z 0.000 to 0.000 mm
    no tool: 0.025 s
"""


def _parent(folder: Path) -> str:
    """The process whose `ngc run` works in a folder, by its arguments; nothing if there is none."""
    for process in Path("/proc").glob("[0-9]*"):
        try:
            if str(folder).encode() in (process / "cmdline").read_bytes():
                return (process / "stat").read_text().rpartition(")")[2].split()[1]
        except OSError:
            continue
    return ""


class Rehearsals(InFolder):
    """Sessions that are cut, and what is said of their devices."""

    def setUp(self) -> None:
        """A fresh device, in memory, where a sync costs nothing."""
        self.enterContext(patch.object(tempfile, "tempdir", "/dev/shm" if Path("/dev/shm").is_dir() else None))
        super().setUp()
        self.device()

    def session(self, text: str = "", *commands: str, lines: int = 0, cut: bool = True) -> None:
        """Loads a program, gives commands, and hands out so many lines of OUT in all; then it is cut, or quits."""
        console = Console(ngc(), "mill.dev", "first.toml", "out")
        self.addCleanup(console.kill)
        if text:
            self.assertRegex(console.load(text.encode()), "done")
        for command in commands:
            self.assertNotIn("refused", console.ask(command)[0])
        handed = Path("out").read_bytes().count(b"\n")
        while handed < lines:
            replies = console.ask(f"tick {lines - handed}")
            self.assertFalse("idle" in replies or replies[0].startswith("refused"), replies)
            handed = Path("out").read_bytes().count(b"\n")
        if cut:
            console.kill()
        else:
            self.assertEqual(console.quit(), 0)

    def told(self, *words: str) -> tuple[int, str, str]:
        """The status, standard output and standard error of `ngc-rehearse`."""
        return told(main, "mill.dev", "first.toml", *words, "--ngc", ngc())

    def rehearse(self, *words: str) -> str:
        """What is said at status 0; the device stays as it is."""
        before = Path("mill.dev").read_bytes()
        status, said, error = self.told(*words)
        self.assertEqual((error, status), ("", 0))
        self.assertEqual(Path("mill.dev").read_bytes(), before)
        return said

    def refused(self, status: int, *words: str) -> str:
        """What is said where it can't be done."""
        found, _, error = self.told(*words)
        self.assertEqual(found, status, error)
        return error

    def hole(self, lines: int) -> None:
        """A drilling cycle that is cut after so many lines."""
        self.session("", "tool 1 0", cut=False)
        self.session(HOLE, "start", lines=lines)

    def test_resume(self) -> None:
        """From a hole's bottom, with the machine beside it."""
        self.hole(OUT + 100)
        self.assertEqual(self.rehearse("2", "-6", "5"), RESUMED)

    def test_broken_off(self) -> None:
        """Ctrl-C and a kill in the midst leave no folder behind."""
        self.session("G21 G90 F60000\n" + "G1 X900\nG1 X-900\n" * 20 + "M2\n", "start", cut=False)
        for number in (signal.SIGINT, signal.SIGTERM, signal.SIGHUP):
            before = set(Path("/dev/shm").glob("ngc-rehearse-*"))
            child = self.start("ngc-rehearse", "mill.dev", "first.toml", "--ngc", ngc())
            found: list[Path] = []

            def begun() -> bool:
                """Whether this one has its folder."""
                found[:] = [path for path in Path("/dev/shm").glob("ngc-rehearse-*") if path not in before
                            and f"/{child.pid}/" in f"/{_parent(path)}/"]
                return bool(found)

            self.wait_for("it rehearses", begun)
            child.send_signal(number)
            child.communicate()
            self.assertNotEqual(child.returncode, 0)
            self.assertEqual([path for path in found if path.exists()], [])

    def test_without_a_point(self) -> None:
        """Where the segment begins is said also where nobody says where the machine stands."""
        self.hole(OUT + 100)
        said = RESUMED.splitlines()
        said[3:7] = ["the approach: it isn't known where the machine stands; name it: X Y Z"]
        self.assertEqual(self.rehearse().splitlines(), said)
        self.session("", "reference 2 2 -1")
        said[3:4] = ["the approach: the machine stands there already; nothing moves"]
        self.assertEqual(self.rehearse().splitlines(), said)

    def test_carried_out(self) -> None:
        """The player's count names the segment, and what is never cut."""
        self.hole(OUT + 100)
        Path("cut.dev").write_bytes(Path("mill.dev").read_bytes())
        self.assertTrue(self.rehearse("--carried-out", "11505").startswith(CARRIED))
        self.session("", "status", cut=False)  # powered on since, and nothing done
        self.assertTrue(self.rehearse("--carried-out", "11505").startswith(CARRIED))
        for lines, where in ((1, "segment 0, line 1 of its 1;"), (OVER, "segment 0, line 5000 of its 5000;"),
                             (OVER + 1, "segment 0, line 1 of its 1000;"), (DOWN + 7, "segment 1, line 7 of its 4000;"),
                             (OUT + 100, "segment 3, line 100 of its 6000;")):
            said = self.rehearse("--carried-out", str(lines))
            self.assertIn(where, said)
            self.assertEqual("NEVER CUT" in said, lines < OUT)
        self.assertIn("handed out fewer", self.refused(1, "--carried-out", str(OUT + 6001)))
        self.session("", "reference 0 0 0")  # the log is overwritten
        self.assertIn("name a copy", self.refused(1, "--carried-out", "11505"))

    def test_long_session(self) -> None:
        """Lines of the operator, a hold, a resumed block: the point is that of OUT, each time."""
        self.session("", "mdi G0 X2", lines=700)
        Path("out").unlink()
        self.session("", "reference 0.7 0 0", "resume", "tick 3000", "mdi S500 M3", "tick 20", "mdi G91", "tick 5",
                     "mdi G0 X1 Y-1", "tick 2000", "mdi G90 G0 X2", "tick 400", "hold", "status", "continue",
                     lines=700 + 1 + 2000 + 2 + 1000 + 900)
        whole = [read_line(line, 1) for line in Path("out").read_bytes().splitlines()]
        for lines in (1, 701, 702, 2702, 3704, 4603):
            position = after(Position((1000, 1000, 1000), (700_000, 0, 0)), whole[:lines])
            self.assertIn(f"; {position.reference()}\n", self.rehearse("--carried-out", str(lines)))

    def test_held_program(self) -> None:
        """A line typed between two blocks of a program that is held."""
        self.session("G0 X1\nG0 Y1\nG0 X0\nM2\n", "start", "tick 1003", "hold", "mdi G0 Z1", "tick 1100", "continue",
                     lines=3500)
        whole = [read_line(line, 1) for line in Path("out").read_bytes().splitlines()]
        for lines in (1001, 2000, 2001, 3500):
            position = after(Position((1000, 1000, 1000)), whole[:lines])
            self.assertIn(f"; {position.reference()}\n", self.rehearse("--carried-out", str(lines)))

    def test_full_log(self) -> None:
        """A program whose blocks don't fit in the log: by a copy made before."""
        self.session("G91\n" + "G0 X0.002\n" * 700 + "M2\n", cut=False)
        Path("before.dev").write_bytes(Path("mill.dev").read_bytes())
        self.session("", "start", lines=1301)
        self.assertEqual(self.refused(1, "--carried-out", "1290"),
                         "ngc-rehearse: mill.dev: the session handed out fewer lines\n")
        said = self.rehearse("--carried-out", "1290", "--before", "before.dev")
        self.assertIn("the motors were in line 646 of 702: G0 X0.002\nsegment 0, line 2 of its 2; reference 1.290000",
                      said)
        self.assertIn("NEVER CUT: 10 lines from there up to line 652, segment 0, where resume begins\n", said)

    def test_log_full_within_a_block(self) -> None:
        """A cycle whose segments don't fit in the log: what comes after is told only by a copy made before."""
        self.session("G91 G0 Z0.003 F60\nG81 X0.001 Z-0.001 R-0.001 L400\nM2\n", cut=False)
        Path("before.dev").write_bytes(Path("mill.dev").read_bytes())
        self.session("", "start", lines=1500)
        self.assertEqual(self.refused(1, "--carried-out", "3"),
                         "ngc-rehearse: mill.dev: the log begins within a block: it was full;"
                         " name a copy of before by --before COPY\n")
        self.assertIn("the motors were in line 2 of 3: G81 X0.001 Z-0.001 R-0.001 L400\n",
                      self.rehearse("--carried-out", "1499", "--before", "before.dev"))

    def test_all_done(self) -> None:
        """Nothing is half-done, and the motors weren't through with what was handed out."""
        self.session("", "mdi G0 X1", "tick 2000", cut=False)
        self.assertEqual(self.rehearse("--carried-out", "600"), """\
600 lines carried out, counted from 0 entries on
the motors were in a line of the operator's: G0 X1
segment 0, line 600 of its 1000; reference 0.600000 0.000000 0.000000
NEVER CUT: 400 lines from there up to the end of what was handed out

no block is half-done: resume has nothing to do
there is no program
""")
        self.assertEqual(self.refused(1, "--carried-out", "1001"),
                         "ngc-rehearse: mill.dev: the session handed out fewer lines\n")

    def test_nothing_handed_out(self) -> None:
        """A session that moved nothing."""
        self.session("", "mdi G91", "tick 5", cut=False)
        self.assertEqual(self.refused(1, "--carried-out", "1"),
                         "ngc-rehearse: mill.dev: the log tells of nothing that was handed out since the device was"
                         " written anew; name a copy of before by --before COPY\n")

    def test_block_delete(self) -> None:
        """Whether lines with a slash were left out isn't on the device; the log tells it."""
        self.session("G0 X0.5\n/G0 Y9\nG0 X1\nM2\n", "delete on", "start", lines=900)
        self.assertIn("line 3 of 4: G0 X1\nsegment 0, line 300 of its 500; reference 0.800000 0.000000 0.000000\n",
                      self.rehearse("--carried-out", "800"))

    def test_other_moves(self) -> None:
        """A copy of before that isn't what the session began with."""
        self.session("G0 X0.5\nG0 X1\nM2\n", cut=False)
        Path("before.dev").write_bytes(Path("mill.dev").read_bytes())
        self.session("", "mdi G0 Y1", "tick 1100", "start", lines=1700)
        self.assertIn("other moves", self.refused(1, "--carried-out", "1600", "--before", "before.dev"))
        self.session("", "reference 0 0 0", "abandon", cut=False)
        self.session("M2\n", cut=False)
        self.assertIn("another program", self.refused(1, "--carried-out", "5", "--before", "before.dev"))

    def test_typed(self) -> None:
        """A half-done line of the operator."""
        self.session("", "mdi G0 X1 Z2", lines=5)
        self.assertEqual(self.rehearse("0", "0", "1"), TYPED)

    def test_started(self) -> None:
        """Nothing is half-done."""
        self.assertEqual(self.rehearse(), "no block is half-done: resume has nothing to do\nthere is no program\n")
        self.session("M4 S50.5\nG0 X0.5\nM2\n", "start", "tick 6", cut=False)
        self.assertEqual(self.rehearse(), STARTED)

    def test_place_unknown(self) -> None:
        """After a block was given up a start needs the place; waits count in the time, and a stop is told."""
        self.session("G4 P1.5\nM0\nG0 X2\nG4 P2.5\nM2\n", "start", "tick 10", "continue", lines=100)
        self.session("", "abandon", cut=False)
        head = STARTED.splitlines()[0] + "\nstart goes on with line 3 of 5: G0 X2\n"
        said = self.rehearse()
        self.assertTrue(said.startswith(head), said)
        self.assertTrue(said.endswith("\nit isn't known where the machine stands; name it: X Y Z\n"), said)
        self.assertTrue(self.rehearse("1", "0", "0").endswith(
            "it begins at X 1.000000 Y 0.000000 Z 0.000000\n"
            "from there to the end: 2.550 s; X 1.000 to 2.000   Y 0.000 to 0.000   Z 0.000 to 0.000 mm\n"
            "    no tool: 2.550 s\n"))

    def test_typed_within_a_program(self) -> None:
        """After a line of the operator's the program goes on by start; a wait of it counts too."""
        self.session("G4 P1.5\nG0 X2\nM2\n", "start", "tick 4", "hold", "mdi G0 Y1", lines=100)
        said = self.rehearse("0", "0", "0")
        self.assertIn("half-done: the operator's line: G0 Y1\n", said)
        self.assertTrue(said.endswith("then start goes on with line 2: G0 X2\n"), said)

    def test_refused(self) -> None:
        """Each refusal, by `ngc` and of the files."""
        self.hole(OUT + 100)
        self.assertEqual(self.refused(1, "0", "0", "2000"),
                         "ngc-rehearse: mill.dev: reference 0 0 2000: refused X2 OutsideTravel: Z 2,000 is outside the"
                         " travel, which ends at 1,000 (high_nm of the settings)\n")
        self.assertEqual(self.refused(1, "0", "0", "low"), "ngc-rehearse: mill.dev: reference 0 0 low: refused U1"
                         " BadCommand: reference X Y Z: three machine coordinates in millimetres, without letters, as"
                         " in `reference 7.21 0 -5`\n")
        self.assertIn("N is at least 1", self.refused(1, "--carried-out", "0"))
        self.assertIn("three numbers, or none", self.refused(2, "1", "2"))
        self.assertIn("goes with --carried-out", self.refused(2, "--before", "mill.dev"))
        self.assertEqual(self.refused(2, "--carried-out", "5", "--before", "none.dev"),
                         "ngc-rehearse: none.dev: No such file or directory\n")
        Path("zeros.dev").write_bytes(bytes(1710 * 512))
        self.assertIn("ngc-rehearse: zeros.dev: not a device: it isn't formatted",
                      self.refused(2, "--carried-out", "5", "--before", "zeros.dev"))
        Path("first.toml").write_text(FIRST.replace("high_nm = [1000000000", "high_nm = [1500000"))
        said = self.refused(1, "1", "2", "5")
        self.assertIn("ngc-rehearse: mill.dev: resume: refused X2 OutsideTravel: the end of a move lies outside", said)
        Path("first.toml").write_text(FIRST.replace("period_us = 50", "period_us = 0"))
        self.assertIn("ngc-rehearse: first.toml: S5 OutOfLimits: a number is beyond its limits\n"
                      "    line 5: period_us = 0", self.refused(2))
        Path("first.toml").write_text(FIRST)
        with open("mill.dev", "rb") as file:
            fcntl.flock(file, fcntl.LOCK_EX)
            self.assertEqual(self.refused(2), "ngc-rehearse: mill.dev: a session holds the device: end it by quit\n")
        Path("mill.dev").write_bytes(bytes(1710 * 512))
        self.assertIn("mill.dev: not a device: it isn't formatted", self.refused(2))
        Path("mill.dev").unlink()
        self.assertEqual(self.refused(2), "ngc-rehearse: mill.dev: No such file or directory\n")
        Path("mill.dev").mkdir()
        self.assertEqual(self.refused(2), "ngc-rehearse: mill.dev: Is a directory\n")
        Path("first.toml").unlink()
        self.assertEqual(self.refused(2), "ngc-rehearse: first.toml: No such file or directory\n")

    def test_large(self) -> None:
        """A large device is copied whole: a program that stands past 131,072 bytes goes on there."""
        subprocess.run([ngc(), "grow", "mill.dev"], check=True)
        self.session("G0 X0.5\n".rjust(131_080, "\n") + "M2\n")
        image = bytearray(Path("mill.dev").read_bytes())
        image[512 * 88 + 8:512 * 88 + 11] = (131_072).to_bytes(3, "little")  # the place of the snapshot of epoch 3
        Path("mill.dev").write_bytes(image)
        self.assertIn("start goes on with line 131073 of 131074: G0 X0.5\n", self.rehearse())

    def test_format_1(self) -> None:
        """A device of an earlier version stays one; its tool lengths are those of the settings."""
        Path("mill.dev").write_bytes(stored("format1/half_done.hex"))
        Path("first.toml").write_bytes((DATA / "format1" / "mill.toml").read_bytes())
        self.assertTrue(self.rehearse("0", "0", "0").startswith("half-done: line 11 of 13: X0.030\nsegment 1 of "))

    def test_damaged(self) -> None:
        """`ngc` refuses a damaged device; what is out of its range is named."""
        image = bytearray(Path("mill.dev").read_bytes())
        image[512 * 88 + 152] = 9
        Path("mill.dev").write_bytes(image)
        self.assertEqual(self.refused(2), "ngc-rehearse: mill.dev: damaged: sector 88: spindle 9\n"
                                          "ngc-rehearse: mill.dev: ngc ended with status 2: refused J3 Damaged\n")

    def test_line_refused(self) -> None:
        """A line that is refused later in the job is told, with status 1."""
        self.session("G0 X1\nG1 X2\nM2\n", "start", lines=5)
        status, said, error = self.told("0", "0", "0")
        self.assertEqual((status, error), (1, ""))
        self.assertEqual(said.splitlines()[-1], "refused X1 NoFeed: line 2: G1 X2")

    def test_tool(self) -> None:
        """The program itself."""
        self.session("", "mdi G0 X1 Z2", lines=5)
        done = self.tool("ngc-rehearse", "mill.dev", "first.toml", "0", "0", "1", "--ngc", ngc())
        self.assertEqual((done.returncode, done.stderr, done.stdout), (0, "", TYPED))
        done = self.tool("ngc-rehearse", "--help")
        self.assertIn("example:\n  ngc-rehearse mill.dev", done.stdout)


if __name__ == "__main__":
    unittest.main()
