"""Both players with --machine: ramps, holds and overrides, and the file of --times."""
import os
import random
import re
import signal
import subprocess
import sys
import unittest
from pathlib import Path

sys.path.insert(0, str(Path(__file__).resolve().parent))

from pace_support import PROGRAMS, excess, stream
from player_support import NO_RAMPS, PlayerTest, Sanitized
from session_support import FIRST, TOOLS, ngc

EXAMPLES = sorted((TOOLS.parent / "examples").glob("*.ngc"))
COARSE = (FIRST.replace("[1000, 1000, 1000]", "[50000, 50000, 50000]").replace("[50000000]", "[50000000, 62500000, 0]")
          .replace("period_us = 50\n", "period_us = 100\n"))

MOTION = """[motion]
accel_mm_s2 = [500, 500, 500] # of each axis
slack_steps = 2
most_percent = 100

[window]
lines = 0

[wait]
spindle_s = 0
"""
LONG = "P 1 0 0 50\n" * 4000  # 10 mm at 3,000 mm a minute, 400 steps a mm: 0.2 s at full rate, 0.1 s in ramps
NO_TABLE = ("isn't one of the nine tables of a machine's file: motion, window, wait, spindle, backlash, sink, inputs,"
            " home, setter")
REFUSED = {
    "": "the table [motion] is missing: it says what the motors allow",
    "[motions]\n": f"motions {NO_TABLE}", "[Motion]\n": f"Motion {NO_TABLE}", "[ page ]\n": f"page {NO_TABLE}",
    "a = 1\n": f"a {NO_TABLE}", "motion = 1\n": "motion isn't a table: [motion], and its keys below it",
    "[motion]\n": "motion: accel_mm_s2 is missing: three whole numbers from 1 to 1000000",
    "[motion]\naccel = [1, 1, 1]\n": "motion has a key that isn't one of its five: accel",
    "[motion]\naccel_mm_s2 = [1, 1]\n": "motion: accel_mm_s2 takes three whole numbers from 1 to 1000000",
    "[motion]\naccel_mm_s2 = [0, 1, 1]\n": "motion: accel_mm_s2 takes three whole numbers from 1 to 1000000",
    "[motion]\naccel_mm_s2 = 500\n": "motion: accel_mm_s2 takes three whole numbers from 1 to 1000000",
}
BESIDES = {
    "rate_mm_min = [0, 0, 100001]\n": "motion: rate_mm_min takes three whole numbers from 0 to 100000",
    "start_mm_min = [-1, 0, 0]\n": "motion: start_mm_min takes three whole numbers from 0 to 100000",
    "slack_steps = 65\n": "motion: slack_steps takes a whole number from 1 to 64",
    "slack_steps = [2]\n": "motion: slack_steps takes a whole number from 1 to 64",
    "most_percent = 201\n": "motion: most_percent takes a whole number from 100 to 200",
    "[window]\nsize = 1\n": "window has a key that isn't lines: size",
    "[window]\nlines = 8001\n": "window: lines takes a whole number from 0 to 8000",
    "[window]\nlines = [100]\n": "window: lines takes a whole number from 0 to 8000",
    "[wait]\nstop_at = 1\n": "wait has a key that isn't spindle_s: stop_at",
    "[wait]\nspindle_s = 3601\n": "wait: spindle_s takes a whole number from 0 to 3600",
    "[wait]\nspindle_s = -1\n": "wait: spindle_s takes a whole number from 0 to 3600",
    "[backlash]\nmm = [1, 1, 1]\n": "backlash has a key that isn't steps: mm",
    "[backlash]\nsteps = 5\n": "backlash: steps takes three whole numbers from 0 to 999",
    "[backlash]\nsteps = [0, 0, 1000]\n": "backlash: steps takes three whole numbers from 0 to 999",
    "[backlash]\nsteps = [-1, 0, 0]\n": "backlash: steps takes three whole numbers from 0 to 999",
}


class Ramps(PlayerTest):
    """What both players do."""

    def setUp(self) -> None:
        """A machine with 400 steps a mm, and 4,000 pulses of X."""
        super().setUp()
        settings = Path("first.toml").read_text()
        Path("first.toml").write_text(settings.replace("[1000, 1000, 1000]", "[2500, 2500, 2500]"))
        Path("motion.toml").write_text(MOTION)
        Path("out").write_text(LONG)

    def times(self, path: str = "times") -> list[int]:
        """The nanoseconds of a file of --times."""
        return [int(line.split()[0]) for line in Path(path).read_text().splitlines()]

    def test_times(self) -> None:
        """Each line behind its time, by ramps: the same with the machine's clock and without one, but for lateness."""
        Path("out").write_text("S 1 0.000000 0 0 0 0\n" + LONG + "D 1000\n" + LONG)
        done = self.play("--untimed", "--machine", "motion.toml", "--times", "times")
        self.assertEqual((done.returncode, done.stderr), (0, "out: ended with spindle or coolant on; spindle and"
                                                            " coolant off\n"))
        text = Path("times").read_text()
        self.assertEqual([line.partition(" ")[2] for line in text.splitlines()], Path("out").read_text().splitlines())
        times = self.times()
        self.assertEqual(times[:2], [0, 0])
        self.assertAlmostEqual(times[4001] / 1e9, 0.3, delta=0.003)  # N / v + v / a
        self.assertEqual(times[4002], times[4001] + 1_000_000)
        self.assertEqual(times[-1] - times[4002], times[4000] - times[1])
        self.assertEqual(Path("pins").read_text(), Path("out").read_text() + "off\n")

    def test_times_without_ramps(self) -> None:
        """The times are those of OUT."""
        Path("out").write_text("P 1 0 0 50\nD 7\nS 0 0.000000 0 0 0 0\nP 1 0 0 60\nP 1 0 0 50\n")
        self.assertEqual(self.play("--untimed", "--times", "times").stderr, "")
        self.assertEqual(self.times(), [0, 50_000, 57_000, 57_000, 117_000])
        again = self.play("--untimed", "--anew", "--times", "times")
        self.assertEqual(again.returncode, 2)
        self.assertIn("times: File exists", again.stderr)

    def test_rate(self) -> None:
        """An axis of at most 1,500 mm a minute takes 10 / 25 s and 25 / 500 s."""
        Path("motion.toml").write_text("[motion]\naccel_mm_s2 = [500, 500, 500]\nrate_mm_min = [1500, 0, 0]\n")
        Path("out").write_text(LONG + "D 1\n")
        self.play("--untimed", "--machine", "motion.toml", "--times", "times")
        self.assertAlmostEqual(self.times()[-1] / 1e9, 0.45, delta=0.0045)

    def test_notice(self) -> None:
        """Without a machine's file it says that no motor follows full rates."""
        Path("out").write_text("P 1 0 0 50\n")
        self.assertEqual(self.play().stderr, NO_RAMPS)
        self.assertEqual(self.play("--anew", "--machine", "motion.toml").stderr, "")

    def test_refused(self) -> None:
        """By name and key."""
        wrong = REFUSED | {f"[motion]\naccel_mm_s2 = [500, 500, 500]\n{text}": said for text, said in BESIDES.items()}
        for text, said in wrong.items():
            Path("wrong.toml").write_text(text)
            told = self.refused("--machine", "wrong.toml", "out", "first.toml", "position")
            self.assertEqual(told, f"wrong.toml: {said}", text)
        self.assertFalse(Path("position").exists())

    def test_steps(self) -> None:
        """What is less than some steps a second is refused too, and what is beyond all motors: of steps of 1 mm, and of
        10 nm."""
        settings = Path("first.toml").read_text()
        Path("first.toml").write_text(settings.replace("[2500, 2500, 2500]", "[10, 2500, 1000000]"))
        for text, said in (("accel_mm_s2 = [9, 9, 2]\n", "accel_mm_s2 is less than 3 steps a second, each second"),
                           ("accel_mm_s2 = [10001, 9, 3]\n",
                            "accel_mm_s2 is more than 1000000000 steps a second, each second"),
                           ("accel_mm_s2 = [10000, 9, 3]\nrate_mm_min = [0, 0, 59]\n",
                            "rate_mm_min is less than a step a second")):
            Path("wrong.toml").write_text("[motion]\n" + text)
            told = self.refused("--machine", "wrong.toml", "out", "first.toml", "position")
            self.assertEqual(told, f"wrong.toml: motion: {said}")

    def test_bad_line(self) -> None:
        """What stands before a line that isn't one is carried out to its rest."""
        Path("out").write_text(LONG + "P 2 0 0 50\n" + LONG)
        done = self.play("--untimed", "--machine", "motion.toml")
        self.assertEqual(done.returncode, 1)
        self.assertIn("out:4001: not a line of OUT: 'P 2 0 0 50'; stopped, spindle and coolant off", done.stderr)
        self.assertIn("reference 10.000000 0.000000 0.000000\n", done.stdout)

    def piped(self, *words: str) -> tuple[subprocess.Popen[str], int]:
        """A player of a pipe, and the pipe."""
        os.mkfifo("axis")
        child = self.begin("--no-ask-tool", "--pipe", "1048576", "--progress", "progress", *words, "axis", "first.toml",
                           "position")
        self.link = self.linked()
        return child, os.open("axis", os.O_WRONLY)

    def fed(self, *words: str, least: int = 200) -> tuple[subprocess.Popen[str], int]:
        """A player of a pipe, and the pipe, into which 7.5 mm were written, once more than `least` lines are made."""
        child, pipe = self.piped("--machine", "motion.toml", *words)
        os.write(pipe, b"P 1 0 0 500\n" * 3000)
        self.wait_for("it moves", lambda: self.link.ask().carried > least)
        return child, pipe

    def asked(self) -> tuple[int, int]:
        """The override, and how many lines are wanted in hand."""
        report = self.link.ask()
        return report.percent, report.wants

    def test_wants(self) -> None:
        """So many lines as the fastest in hand needs: 20,000 pulses a second take 1,000 to rest from. That is 1,200
        with a fifth, 400 for 20 ms, and 520 for corners; 2,000 a second want 12, 40 and 520."""
        child, pipe = self.piped("--machine", "motion.toml")
        self.assertEqual(self.asked(), (100, 520))
        self.link.hold()
        os.write(pipe, b"P 1 0 0 500\n" + b"P 1 0 0 50\n" * 100 + b"P 1 0 0 500\n" * 500)
        self.wait_for("it sees fast lines", lambda: self.asked() == (100, 2120))
        for percent in (40, 101, 999):
            self.link.override(percent)
        self.link.last()
        self.assertEqual(self.asked(), (40, 2120))
        self.link.release()
        self.wait_for("the fast lines are carried out", lambda: self.asked() == (40, 572))
        self.wait_for("all are", lambda: self.link.ask().carried == 601 and self.asked() == (40, 520))
        self.link.end()
        os.close(pipe)
        self.assertEqual(child.wait(60), 0)

    def test_wants_as_told(self) -> None:
        """So many lines as the machine's file says; without one it doesn't say, and heeds no override."""
        for words, wants in (("--machine", "fixed.toml"), 70), ((), 0):
            Path("fixed.toml").write_text("[motion]\naccel_mm_s2 = [9, 9, 9]\n[window]\nlines = 70\n")
            child, pipe = self.piped(*words)
            os.write(pipe, b"P 1 0 0 50\n")
            self.link.override(50 if wants else 30)
            self.wait_for("all is carried out", lambda: self.link.ask().carried == 1)
            self.assertEqual(self.asked(), (50, 70) if wants else (100, 0))
            self.link.end()
            os.close(pipe)
            child.wait(60)
            Path("axis").unlink()

    def test_last(self) -> None:
        """Told that no more lines come for now, it comes to rest at the end of those that are there, and no sooner:
        where more may come, the last 96 wait for what is behind them. More may come later. `end` says it too."""
        Path("motion.toml").write_text("[motion]\naccel_mm_s2 = [50, 50, 50]\n")
        child, pipe = self.piped("--machine", "motion.toml", "--times", "times")
        for count, tell in ((400, self.link.last), (800, self.link.end)):
            self.link.hold()
            os.write(pipe, b"P 1 0 0 500\n" * 400)
            tell()
            self.wait_for("all are in hand", lambda: self.link.ask().received == count)
            self.link.release()
            self.wait_for("all are carried out", lambda: self.link.ask().carried == count)
        self.link.end()
        os.close(pipe)
        self.assertNotIn("ran dry", child.communicate(timeout=60)[0])
        times = self.times()
        for rest in (304, 704):  # 96 pulses before a rest there are 1,960 a second, and 400 at 4 before one
            self.assertLess(min(after - at for at, after in zip(times[rest - 4:], times[rest - 3:rest])), 1_250_000)
        self.assertGreater(times[400] - times[399], 1_200_000)

    def test_last_beyond_what_is_in_hand(self) -> None:
        """Held, it knows 8,192 lines and has room for 262,144 bytes in hand: the rest stays in the pipe. Told that no
        more come for now, it doesn't run dry at their end."""
        child, pipe = self.piped("--machine", "motion.toml", "--untimed")
        self.link.hold()
        os.write(pipe, b"S 0 9999999.000000 0 0 128 128\n" * 20_000 + b"P 1 0 0 500\n" * 400)
        self.link.last()
        self.assertLess(self.link.ask().received, 20_000)
        self.link.release()
        self.wait_for("all are carried out", lambda: self.link.ask().carried == 20_400)
        os.write(pipe, b"P 1 0 0 500\n" * 400)
        self.wait_for("more are carried out", lambda: self.link.ask().carried == 20_800)
        self.link.end()
        os.close(pipe)
        self.assertNotIn("ran dry", child.communicate(timeout=60)[0])

    def test_dry(self) -> None:
        """Where OUT has no more lines for a while it comes to rest at the last, goes on as they come, and tells how
        often that was. A wait before the first line, or at rest for those behind it, is none."""
        child, pipe = self.piped("--machine", "motion.toml")
        for count in (400, 800, 1200):
            os.write(pipe, b"P 1 0 0 500\n" * 400)
            self.wait_for("all are carried out", lambda: self.link.ask().carried == count)
        os.write(pipe, b"D 100\n")
        self.wait_for("it waits", lambda: self.link.ask().carried == 1201)
        for count in (1211, 1221, 1231):
            os.write(pipe, b"P 1 0 0 500\n" * 10)
            self.wait_for("all are carried out", lambda: self.link.ask().carried == count)
        self.link.end()
        os.close(pipe)
        said = child.communicate(timeout=60)[0]
        self.assertIn("\nOUT ran dry 3 times; the motors came to rest, and went on once more came\nreference ", said)

    def test_late(self) -> None:
        """Each line is a little late, and moves all behind it: to make up for that would be a leap of the rate."""
        Path("out").write_text("P 1 0 0 20000\n" * 10)
        self.play("--machine", "motion.toml", "--times", "times")
        times = self.times()
        self.assertGreater(min(after - at for at, after in zip(times[1:], times[2:])), 20_000_000)

    def test_spindle(self) -> None:
        """After a switch that starts the spindle it waits as long as the machine's file says, and can be stopped."""
        Path("motion.toml").write_text(MOTION.replace("spindle_s = 0", "spindle_s = 3600"))
        Path("out").write_text("S 0 5.000000 0 1 0 0\nS 1 5.000000 0 1 0 0\nP 1 0 0 50\n")
        child = self.begin("--pins", "pins", "--machine", "motion.toml", "--untimed", "out", "first.toml", "position")
        switches = "S 0 5.000000 0 1 0 0\nS 1 5.000000 0 1 0 0\n"
        self.wait_for("it is switched on", lambda: Path("pins").exists() and Path("pins").read_text() == switches)
        child.send_signal(signal.SIGTERM)
        self.assertEqual(child.communicate(timeout=60)[1], "out: stopped after line 1; spindle and coolant off\n")
        self.assertEqual(Path("pins").read_text(), switches + "off\n")

    def test_hold(self) -> None:
        """It comes to rest and says so, and goes on; slower by an override. Nothing is lost."""
        child, pipe = self.fed()
        self.link.hold()
        self.wait_for("it is held", lambda: self.link.ask().is_held)
        stands = self.link.ask().carried
        self.assertLess(stands, 3000)
        self.assertEqual((self.link.ask().carried, self.link.ask().is_held), (stands, True))
        self.link.override(50)
        self.link.release()
        self.wait_for("it goes on", lambda: self.link.ask().carried > stands)
        self.assertFalse(self.link.ask().is_held)
        self.link.end()
        os.close(pipe)
        said = child.communicate(timeout=60)
        self.assertEqual(child.returncode, 0, said)
        self.assertIn("reference 7.500000 0.000000 0.000000\n", said[0])

    def test_signal(self) -> None:
        """The first signal brings it to rest by a ramp, whose last pulse is the slowest."""
        child, pipe = self.fed("--times", "times")
        child.send_signal(signal.SIGTERM)
        said = child.communicate(timeout=60)
        os.close(pipe)
        self.assertEqual(child.returncode, 1, said)
        self.assertRegex(said[1], r"axis: stopped after line \d+; spindle and coolant off\n")
        times = self.times()
        self.assertLess(len(times), 3000)
        self.assertGreater(times[-1] - times[-2], 1_200_000)  # from 894 pulses a second to 632, not 2,000
        self.assertIn("\nstopped signal", Path("position").read_text())


    def test_second_signal(self) -> None:
        """It stops in the midst of its motion: at 1 mm/s2 a rest would take as many pulses as it has made."""
        Path("motion.toml").write_text("[motion]\naccel_mm_s2 = [1, 1, 1]\n")
        child, pipe = self.fed(least=300)
        carried = self.link.ask().carried
        child.send_signal(signal.SIGTERM)
        child.send_signal(signal.SIGINT)
        said = child.communicate(timeout=60)
        os.close(pipe)
        self.assertEqual(child.returncode, 1, said)
        lines = int(re.search(r"stopped after line (\d+);", said[1])[1])
        self.assertLess(lines, carried + 200)

    def test_held_and_left(self) -> None:
        """Where nobody can release it any more it ends, with spindle and coolant off."""
        child, pipe = self.fed("--off-after", "0.2")
        self.link.hold()
        self.wait_for("it is held", lambda: self.link.ask().is_held)
        os.close(pipe)
        said = child.communicate(timeout=60)
        self.assertEqual(child.returncode, 1, said)
        self.assertRegex(said[1], r"axis: the console is gone, and it is held after line \d+; spindle and coolant off$")
        self.assertIn("\nstopped console", Path("position").read_text())


class RampsOptimized(Ramps):
    """As a compiler builds it, optimized."""


class RampsSanitized(Sanitized, Ramps):
    """Under the sanitizers."""


class Same(PlayerTest):
    """The player beside `ngc pace`."""

    def test_times(self) -> None:
        """The times of both are the same, to the nanosecond."""
        Path("motion.toml").write_text(MOTION)
        Path("out").write_text((LONG[:11 * 700] + "P 1 1 0 70\n" * 500 + "D 3\nP 0 0 -1 90\n") * 3)
        self.check_as_ngc("lines of one, two and one axes")

    def paced(self) -> bytes:
        """What `ngc pace` says of OUT."""
        with open("out", "rb") as out:
            words = [ngc(), "pace", "first.toml", "motion.toml"]
            return subprocess.run(words, stdin=out, capture_output=True, check=True).stdout

    def check_as_ngc(self, name: str) -> bytes:
        """Of `out` the player's times are those of `ngc pace`; returns them."""
        for path in ("c", "position"):
            Path(path).unlink(missing_ok=True)
        self.play("--untimed", "--machine", "motion.toml", "--times", "c")
        times = Path("c").read_bytes()
        self.assertEqual(times, self.paced(), name)
        self.assertGreater(len(times), 1000, name)
        return times

    def hand_out(self, program: str) -> None:
        """Makes `out` of a program, from a fresh device."""
        for path in ("mill.dev", "out"):
            Path(path).unlink(missing_ok=True)
        self.device()
        self.run_ngc(f"tool 1 50\ntool 2 62.5\ntool 3 0\nload {len(program.encode())}\n{program}start\n"
                     + "tick 1000000\ncontinue\n" * 3)

    def test_as_ngc(self) -> None:
        """Of all examples the player's times are those of `ngc pace`, to the nanosecond; motors can follow them."""
        Path("first.toml").write_text(COARSE)
        Path("motion.toml").write_text(MOTION)
        for example in EXAMPLES:
            self.hand_out(example.read_text())
            self.assertLess(excess(self.check_as_ngc(example.name), (10_000,) * 3), 4, example.name)

    def test_as_ngc_of_motion(self) -> None:
        """The same of short lines, small circles and corners, with limits that differ by axes."""
        Path("first.toml").write_text(FIRST.replace("[1000, 1000, 1000]", "[5000, 5000, 5000]"))
        Path("motion.toml").write_text("[motion]\naccel_mm_s2 = [500, 400, 300]\nrate_mm_min = [2500, 0, 2000]\n")
        for name, program in PROGRAMS.items():
            self.hand_out(f"G17 G21 G90 G94\nF3000\n{program()}M2\n")
            self.assertLess(excess(self.check_as_ngc(name), (100_000, 80_000, 60_000)), 4, name)

    def test_as_ngc_by_chance(self) -> None:
        """The same of streams by chance, which motors start and stop at once at some rates."""
        Path("first.toml").write_text(FIRST.replace("period_us = 50", "period_us = 1"))
        Path("motion.toml").write_text("[motion]\naccel_mm_s2 = [500, 400, 300]\nstart_mm_min = [60, 90, 120]\n")
        for seed in range(6):
            Path("out").write_text("".join(f"{line}\n" for line in stream(random.Random(seed), 25)))
            self.check_as_ngc(str(seed))


del Ramps

if __name__ == "__main__":
    unittest.main()
