"""--machine of ngc-check and ngc-plot: what a machine's file allows in mm, and the time of a job with ramps."""
import signal
import subprocess
import sys
import unittest
from pathlib import Path
from unittest.mock import patch

sys.path.insert(0, str(Path(__file__).resolve().parent))

from session_support import InFolder, ngc, told

from ngc_tools import files
from ngc_tools.cli import check, plot
from ngc_tools.cli import machine as words
from ngc_tools.job import timing
from ngc_tools.ngc.machine_report import Motion
from ngc_tools.ngc.pacing import NotTimed, Pacing

MOTION = "[motion]\naccel_mm_s2 = [500, 500, 500]\n"
HEAD = "G17 G21 G40 G49 G54 G80 G90 G94 M3 S1000 F3000\n"
# a tool, a dwell, arcs, a drill cycle, a helix, inverse time, a stop and a spindle the other way
ALL = """%
G17 G21 G40 G49 G54 G80 G90 G94 F1200
T1 M6
M3 S1000
M8
G0 X5 Y2 Z3
G4 P0.25
G1 X12
G3 X12 Y12 I0 J5
G2 X2 Y12 I-5 J0 Z1
G93 G1 X4 Y13 F30
G94 F900
G99 G81 X6 Y6 Z-2 R1
G83 X8 Y6 Z-3 R1 Q1.5
G80
M0
G1 X9 F600
M4
G1 X10
M2
%
"""


class MachineTest(InFolder):
    """Settings with 400 steps a mm, 3,000 mm a minute and 50 us a pulse, and a machine with 500 mm/s2."""

    maxDiff = None

    def setUp(self) -> None:
        """The files."""
        super().setUp()
        text = Path("first.toml").read_text().replace("[1000, 1000, 1000]", "[2500, 2500, 2500]")
        Path("first.toml").write_text(text.replace("6000000000", "3000000000"))
        Path("motion.toml").write_text(MOTION)

    def check(self, *given: str) -> tuple[int, str, str]:
        """What ngc-check says."""
        return told(check.main, "--ngc", ngc(), "--settings", "first.toml", "--machine", "motion.toml", *given)

    def plot(self, *given: str) -> str:
        """The last line of ngc-plot's figures."""
        status, said, wrong = told(plot.main, "--ngc", ngc(), "--settings", "first.toml", "--machine", "motion.toml",
                                   "--output", "picture.svg", "--force", *given)
        self.assertEqual((status, wrong), (0, ""))
        return said.splitlines()[-1]

    def times(self, program: str) -> str:
        """The times that ngc-check tells of a program."""
        Path("part.ngc").write_text(program)
        status, said, wrong = self.check("part.ngc")
        self.assertEqual((status, wrong), (0, ""), said)
        return said.splitlines()[-1]


class Report(MachineTest):
    """What ngc-check says of the file."""

    def test_report(self) -> None:
        """In mm: from 50 mm/s at 500 mm/s2 a stop takes 50^2 / 1000 = 2.5 mm, 1,000 steps of 0.0025 mm; from 25 mm/s at
        300 mm/s2 1.0417 mm, 417 steps. In hand are wanted 3 / 5 v^2 / a + v / 50 + 520 lines."""
        Path("motion.toml").write_text("[motion]\naccel_mm_s2 = [500, 500, 300]\nrate_mm_min = [3000, 0, 1500]\n"
                                       "start_mm_min = [60, 0, 0]\n[window]\nlines = 3000\n[wait]\nspindle_s = 4\n"
                                       "[backlash]\nsteps = [20, 0, 3]\n")
        status, said, wrong = self.check("--settings-only")
        self.assertEqual((status, wrong), (0, ""))
        self.assertEqual(said.partition("motion.toml:\n")[2], """\
    accel     X 500   Y 500   Z 300 mm/s2
    rate      X 3,000   Y any   Z 1,500 mm/min at most
    start     X 60   Y 0   Z 0 mm/min at once
    slack     X 0.005   Y 0.005   Z 0.005 mm
    window    3,000 lines
    wait      4 s for the spindle
    backlash  X 0.05   Y 0   Z 0.0075 mm, in no time with ramps
    X Y       a traverse of 3,000 mm/min at 500 mm/s2 takes 2.5 mm, 1,000 lines, to stop; 2,120 are wanted in hand
    Z         a traverse of 1,500 mm/min at 300 mm/s2 takes 1.042 mm, 417 lines, to stop; 1,220 are wanted in hand
motion.toml: warning: a traverse of 3,000 mm/min is slowed down along Z: rate_mm_min is 1,500 there
""")

    def test_warnings(self) -> None:
        """Accelerations that are unlikely, slack of more than half a full step of 0.025 mm, a window that is too
        small: 2.5^2 / 10 = 62.5 mm^2/s2 .. of 25,000 lines for Z."""
        Path("motion.toml").write_text("[motion]\naccel_mm_s2 = [20001, 500, 9]\nslack_steps = 6\n"
                                       "[window]\nlines = 1000\n")
        said = self.check("--settings-only")[1].splitlines()
        warned = [line.removeprefix("motion.toml: warning: ") for line in said if line.startswith("motion.toml: w")]
        short = ". That wants more lines in hand than the 1,000 of the player's window, so it never gets so fast"
        self.assertEqual(warned, [
            "an acceleration of 20,001 mm/s2 (X) is unlikely: machines have 10 to 20,000, and 1 m/s2 is 1,000 mm/s2",
            "slack_steps is 0.015 mm (X Y Z), more than half a full step of a screw of 5 mm a turn, which is 0.0125: a"
            " motor that is so far off its pulses may lose steps",
            f"a traverse along Y of 3,000 mm/min at 500 mm/s2 takes 2.5 mm, 1,000 lines, to stop{short}",
            "an acceleration of 9 mm/s2 (Z) is unlikely: machines have 10 to 20,000, and 1 m/s2 is 1,000 mm/s2",
            f"a traverse along Z of 3,000 mm/min at 9 mm/s2 takes 138.889 mm, 55,556 lines, to stop{short}"])
        Path("motion.toml").write_text("[motion]\naccel_mm_s2 = [10, 20000, 500]\nslack_steps = 5\n")
        warned = [line for line in self.check("--settings-only")[1].splitlines() if line.startswith("motion.toml: w")]
        self.assertEqual(len(warned), 1, warned)  # 50^2 / 20 = 125 mm are 50,000 lines
        self.assertIn("a traverse along X of 3,000 mm/min at 10 mm/s2 takes 125 mm, 50,000 lines, to stop. That wants"
                      " more lines in hand than the 8,000 of", warned[0])

    def test_feeds(self) -> None:
        """Of a program each feed that wants more than the window is told of once: 2,400 mm a minute 3 / 5 16000^2 /
        200000 + 320 + 520 = 1,608 lines along X and Y, 1,200 mm a minute 192 + 160 + 520 ones; not along Z where 600 is
        the most that its motor does."""
        Path("motion.toml").write_text(MOTION + "rate_mm_min = [0, 0, 600]\n[window]\nlines = 1000\n")
        Path("part.ngc").write_text(HEAD + "G1 Z-1 F2500\nX1 F1200\nG3 X1 Y0 I1 J0 F2400\nG1 X2\nM2\n")
        said = self.check("part.ngc")[1].splitlines()
        self.assertEqual([line for line in said if "feed of" in line], [
            "part.ngc:4: warning: a feed of 2,400 mm/min at 500 mm/s2 takes 1.6 mm, 640 lines, to stop. That wants more"
            " lines in hand than the 1,000 of the player's window, so it never gets so fast"])

    def test_refused(self) -> None:
        """`ngc pace` decides, and names the key and its range; of the players' tables they do."""
        for text, wanted in (
                ("[motion]\naccel_mm_s2 = [0, 1, 1]\n", "accel_mm_s2: not three whole numbers from 1 to 1000000"),
                (MOTION + "slack_steps = 65\n", "slack_steps: not a whole number from 1 to 64"),
                (MOTION + "jerk = 1\n", "motion: has a key that isn't one of its five: jerk"),
                (MOTION + "[pins]\n", "has a table that isn't one of its nine: pins"),
                ("", "motion: missing"), ("[", "not TOML"),
                (MOTION + "[window]\nlines = 8001\n", "window: lines takes a whole number from 0 to 8000"),
                (MOTION + "[backlash]\nsteps = [0, 0]\n",
                 "backlash: steps takes three whole numbers from 0 to 999")):
            Path("motion.toml").write_text(text)
            for given in ("--settings-only", "part.ngc"):
                self.assertEqual(self.check(given), (2, "", f"ngc-check: motion.toml: {wanted}\n"), text)
        Path("motion.toml").unlink()
        self.assertEqual(self.check("--settings-only"), (2, "", "ngc-check: motion.toml: No such file or directory\n"))

    def test_words(self) -> None:
        """The file counts in the steps of the settings."""
        Path("part.ngc").write_text("M2\n")
        for tool, given in ((check, ()), (plot, ("--output", "picture.svg"))):
            status, _, wrong = told(tool.main, "--ngc", ngc(), "--machine", "motion.toml", "part.ngc", *given)
            self.assertEqual(status, 2)
            self.assertIn("error: --machine takes --settings FILE too, whose steps it counts in\n", wrong)

    def test_without_end(self) -> None:
        """A machine's file that is far too long, as /dev/zero is, isn't read to its end, nor given to `ngc pace`."""
        Path("motion.toml").write_text(MOTION + "# " + "x" * 1000 + "\n")
        with patch.object(files, "MOST_SETTINGS", 1000), patch.object(subprocess, "run") as run:
            self.assertRaisesRegex(OSError, "more than 1,000 bytes", Motion.read, ngc(), "motion.toml", "first.toml")
        run.assert_not_called()


class Times(MachineTest):
    """The time of a job without ramps and with them."""

    def test_line(self) -> None:
        """100 mm at 50 mm/s take 2 s, and 50 / 500 s more to start and to stop."""
        self.assertEqual(self.times(HEAD + "G1 X100\nM2\n"), "part.ngc: 2.000 s, with ramps 2.100 s")
        self.assertEqual(self.plot("part.ngc"), "in all    2.000 s, with ramps 2.100 s")
        Path("motion.toml").write_text(MOTION + "most_percent = 200\n")  # of an override, for which nobody asked
        self.assertEqual(self.times(HEAD + "G1 X100\nM2\n"), "part.ngc: 2.000 s, with ramps 2.100 s")

    def test_rests(self) -> None:
        """Two moves of 10 mm in one line take 0.4 s and 0.1 s; each by itself, 0.1 s more. Everything stands at a
        switch, a tool, a dwell and a stop, and not at M1 and a comment."""
        for line, ramps in (("(on)", 0.5), ("M1", 0.5), ("M0", 0.6), ("M60", 0.6), ("M4", 0.6), ("S900", 0.6),
                            ("M8", 0.6), ("T1", 0.6), ("T1 M6", 0.6), ("G4 P0", 0.6), ("G4 P0.5", 1.1)):
            without = 0.9 if line == "G4 P0.5" else 0.4
            self.assertEqual(self.times(f"{HEAD}G1 X10\n{line}\nG1 X20\nM2\n"),
                             f"part.ngc: {without:.3f} s, with ramps {ramps:.3f} s", line)

    def test_as_it_runs(self) -> None:
        """The same as `ngc pace` tells of the OUT of the program itself, up to its stop and from there; so of a picture
        of the program, and of its OUT."""
        self.device()
        self.run_ngc("tool 1 5\nquit\n", "before")
        pieces = [(f"load {len(ALL)}\n{ALL}start\ntick 1000000\nquit\n", "one"), ("start\ntick 1000000\nquit\n", "two")]
        us = ramps = 0
        for commands, out in pieces:
            self.run_ngc(commands, out)
            lines = [line.split() for line in Path(out).read_text().splitlines()]
            us += sum(int(line[-1]) for line in lines if line[0] != "S")
            with open(out) as file:
                done = subprocess.run([ngc(), "pace", "first.toml", "motion.toml", "--total"], stdin=file,
                                      capture_output=True, text=True, check=True)
            ramps += int(done.stdout)
            self.assertEqual(self.plot(out).split(" ramps ")[1], f"{int(done.stdout) / 1e9:.3f} s")
        wanted = f"{us / 1e6:.3f} s, with ramps {ramps / 1e9:.3f} s"
        self.assertEqual(self.times(ALL), f"part.ngc: {wanted}")
        self.assertEqual(self.plot("part.ngc"), f"in all    {wanted}")

    def test_placed(self) -> None:
        """A program that ngc run wouldn't hold in one is timed in parts between which nothing stands; the way to a work
        zero 5 mm away takes 0.1 s."""
        program = HEAD + "".join(f"G1 X{x}\n" for x in range(1, 41)) + "M2\n"
        wanted = "part.ngc: 0.800 s, with ramps 0.900 s"  # 40 mm at 50 mm/s
        self.assertEqual(self.times(program), wanted)
        with patch.object(timing, "MOST_PROGRAM", 100):
            self.assertEqual(self.times(program), wanted)
        self.assertTrue(self.check("part.ngc", "--origin", "5", "6", "-7")[1].endswith("0.900 s, with ramps 1.000 s\n"))

    def test_refused_program(self) -> None:
        """Of a program that is refused no time is told; its picture has that of what comes before."""
        Path("part.ngc").write_text(HEAD + "G1 X100\nG2 X1\nM2\n")
        status, said, _ = self.check("part.ngc")
        self.assertEqual((status, "with ramps" in said), (1, False))
        status, said, _ = told(plot.main, "--ngc", ngc(), "--settings", "first.toml", "--machine", "motion.toml",
                               "--output", "picture.svg", "part.ngc")
        self.assertEqual((status, said.splitlines()[-1]), (1, "in all    2.000 s, with ramps 2.100 s"))
        self.assertIn("with ramps 2.100 s", Path("picture.svg").read_text())

    def test_progress(self) -> None:
        """A long job tells how far it is."""
        Path("part.ngc").write_text(HEAD + "G1 X600\nM2\n")  # 240,000 lines, which are 12 s
        with patch.object(words, "_EACH_S", 0.0):
            said = self.check("part.ngc")[2].splitlines()
        self.assertRegex(said[0], r"^ngc-check: 199,\d{3} lines timed, 10\.000 s of the job so far$")
        self.assertEqual(said[-1], "ngc-check: 240,001 lines timed, 12.000 s of the job so far")

    def test_no_time(self) -> None:
        """Where `ngc pace` gives none, that is said with its reason."""
        refused = self.assertRaisesRegex(NotTimed, "^ngc pace: refused line 1: not a line of OUT$")
        with Pacing(ngc(), "first.toml", "motion.toml") as pacing, refused:
            pacing._child.stdin.write(b"P 2 0 0 50\n")
            pacing.end()
        with patch.object(check, "with_ramps", side_effect=NotTimed("ngc pace: status 2")):
            self.assertEqual(self.times("M2\n"), "part.ngc: its time can't be told: ngc pace: status 2")

    def test_interrupted(self) -> None:
        """Ctrl-C as the time is waited for ends `ngc pace`, and nothing else goes wrong by it."""
        with self.assertRaises(KeyboardInterrupt), Pacing(ngc(), "first.toml", "motion.toml") as pacing:
            pacing.take(b"P 1 0 0 50\n")
            with patch.object(subprocess.Popen, "_communicate", side_effect=KeyboardInterrupt):
                pacing.end()
        self.assertEqual(pacing._child.returncode, -signal.SIGKILL)


if __name__ == "__main__":
    unittest.main()
