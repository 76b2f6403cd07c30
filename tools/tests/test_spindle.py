"""The player: the override of the spindle's speed."""
import os
import sys
import unittest
from pathlib import Path

sys.path.insert(0, str(Path(__file__).resolve().parent))

from player_support import PlayerTest, Sanitized, record
from session_support import PATIENCE_S
from sink_support import ServedSink

MOTION = "[motion]\naccel_mm_s2 = [500, 500, 500]\n"
MOST = MOTION + "[spindle]\nmax_rpm = 1500\n"
SLOW = b"P 1 0 0 2000\n" * 1500  # 3 s


class Overridden(PlayerTest):
    """With pins that are a file."""

    def started(self, machine: str, *words: str) -> None:
        """Starts the player, and opens the pipe as `ngc` does."""
        os.mkfifo("axis")
        Path("mill.toml").write_text(machine)
        with_machine = ("--machine", "mill.toml") if machine else ()
        self.child = self.begin("--pins", "pins", "--no-ask-tool", "--off-after", "0", "--progress", "progress",
                                *with_machine, *words, "axis", "first.toml", "position")
        self.link = self.linked()
        self.pipe = open("axis", "wb", buffering=0)
        self.addCleanup(self.pipe.close)

    def ended(self, status: int = 0) -> None:
        """Ends the session."""
        self.link.end()
        self.pipe.close()
        _, said = self.child.communicate(timeout=PATIENCE_S)
        self.assertEqual(self.child.returncode, status, said)

    def switches(self) -> list[str]:
        """What the pins were given but for pulses, by spindle and speed."""
        lines = Path("pins").read_text().splitlines()
        return [line if line == "off" else " ".join(line.split()[1:3]) for line in lines if line[0] in "So"]

    def given(self, *switches: str) -> None:
        """Waits until the pins were given these switches."""
        self.wait_for(f"the pins have {switches}", lambda: self.switches() == list(switches))

    def amid_pulses(self, machine: str) -> None:
        """Overrides while the motors move: the pins get the speed between two pulses, and OUT's words stay."""
        self.started(machine)
        self.pipe.write(b"S 1 1000.000000 0 1 0 0\n" + SLOW)
        self.wait_for("it moves", lambda: self.link.ask().carried > 5)
        self.link.override_spindle(50)
        self.given("1 1000.000000", "1 500.000000")
        report = self.link.ask()
        self.assertLess(report.carried, 1500)
        self.assertEqual((report.spindle, report.percent, str(report.outputs)), (50, 100, "S 1 1000.000000 0 1 0 0"))
        self.wait_for("it is kept", lambda: "outputs S 1 1000.000000 0 1 0 0\n" in record())
        lines = Path("pins").read_text().splitlines()
        at = lines.index("S 1 500.000000 0 1 0 0")
        self.wait_for("it goes on", lambda: len(Path("pins").read_text().splitlines()) > at + 5)
        self.assertEqual({line[0] for line in Path("pins").read_text().splitlines()[1:at] + lines[at + 1:]}, {"P"})
        self.link.override_spindle(100)
        self.given("1 1000.000000", "1 500.000000", "1 1000.000000")
        self.child.terminate()
        self.child.communicate(timeout=PATIENCE_S)
        self.assertEqual(self.switches()[-1], "off")
        Path("axis").unlink()

    def test_amid_pulses(self) -> None:
        """With ramps, and without."""
        self.amid_pulses(MOTION)
        for path in ("pins", "position"):
            Path(path).unlink()
        self.amid_pulses("")

    def test_bounds(self) -> None:
        """The spindle turns no faster than its machine's file says, whoever asks; 10 to 200 percent are taken."""
        self.started(MOST, "--untimed")
        self.pipe.write(b"S 1 9000.000000 0 0 0 0\nS 2 1000.000007 0 0 0 3\n")
        self.link.last()
        self.given("1 1500.000000", "2 1000.000007")
        for percent, taken, speed in ((140, 140, "1400.000009"), (200, 200, "1500.000000"), (201, 200, ""),
                                      (9, 200, ""), (10, 10, "100.000000"), (1, 10, ""), (100, 100, "1000.000007")):
            before = self.switches()
            self.link.override_spindle(percent)
            self.wait_for("it is heeded", lambda: self.link.ask().spindle == taken)
            self.given(*before, *([f"2 {speed}"] if speed else []))
        self.assertIn("S 2 100.000000 0 0 0 3\n", Path("pins").read_text())
        self.pipe.write(b"S 0 1000.000007 0 0 0 3\n")
        self.link.last()
        self.wait_for("it is off", lambda: self.link.ask().outputs.spindle == 0)
        before = self.switches()
        self.link.override_spindle(50)  # nothing turns
        self.wait_for("it is heeded", lambda: self.link.ask().spindle == 50)
        self.pipe.write(b"S 1 800.000000 0 0 0 3\n")
        self.link.last()
        self.given(*before, "1 400.000000")
        self.wait_for("it is kept", lambda: "outputs S 1 800.000000 0 0 0 3\n" in record())
        self.ended()

    def test_without_most(self) -> None:
        """Without max_rpm it is overridden to less alone; another player begins with the whole."""
        self.started(MOTION, "--untimed")
        self.pipe.write(b"S 1 1000.000000 0 0 0 0\n")
        self.link.last()
        self.given("1 1000.000000")
        self.link.override_spindle(101)
        self.link.override_spindle(90)
        self.given("1 1000.000000", "1 900.000000")
        self.pipe.write(b"S 0 1000.000000 0 0 0 0\n")
        self.ended()
        Path("axis").unlink()
        self.started(MOTION, "--untimed")
        self.assertEqual(self.link.ask().spindle, 100)
        self.ended()

    def test_at_rest(self) -> None:
        """It is heeded in a dwell, and while a switch waits for the spindle, whose speed it is."""
        self.started(MOTION + "[wait]\nspindle_s = 3600\n")
        self.pipe.write(b"S 1 500.000000 0 0 0 0\n")
        self.link.last()
        self.given("1 500.000000")
        self.link.override_spindle(50)
        self.given("1 500.000000", "1 250.000000")
        self.assertEqual(self.link.ask().carried, 0)
        self.child.terminate()
        self.child.communicate(timeout=PATIENCE_S)
        for path in ("axis", "pins", "position"):
            Path(path).unlink()
        self.started(MOTION)
        self.pipe.write(b"S 1 500.000000 0 0 0 0\nD 3600000000\n")
        self.link.last()
        self.given("1 500.000000")
        self.link.override_spindle(50)
        self.given("1 500.000000", "1 250.000000")
        self.child.terminate()
        self.child.communicate(timeout=PATIENCE_S)

    def test_files(self) -> None:
        """What the machine's file may say."""
        for text, said in (("speed = 1\n", "spindle has a key that isn't max_rpm: speed"),
                           ("max_rpm = 0\n", "spindle: max_rpm takes a whole number from 1 to 9999999"),
                           ("max_rpm = 10000000\n", "spindle: max_rpm takes a whole number from 1 to 9999999")):
            Path("mill.toml").write_text(f"{MOTION}[spindle]\n{text}")
            self.assertEqual(self.refused("--machine", "mill.toml", "out", "first.toml", "position"),
                             f"mill.toml: {said}")


class OverSink(PlayerTest):
    """tools/player over a step sink."""

    def serve(self, waits_ms: int) -> None:
        """Starts a sink that is named in the machine's file."""
        self.sink = ServedSink(waits_ms)
        self.addCleanup(self.sink.kill)
        Path("mill.toml").write_text(f'{MOST}[sink]\nline = "{self.sink.path}"\nbaud = 2000000\n')
        self.words = ("--no-ask-tool", "--off-after", "0", "--machine", "mill.toml", "out", "first.toml", "position")

    def begun(self, text: str, waits_ms: int = 3_000) -> None:
        """A player that moves, in a tenth of real time."""
        self.serve(waits_ms)
        self.sink.tell("tempo 10")
        Path("out").write_text(text)
        self.child = self.begin("--progress", "progress", *self.words)
        self.link = self.linked()
        self.wait_for("it moves", lambda: self.link.ask().carried > 5)

    def events(self) -> str:
        """What the sink's pins did so far."""
        self.sink.tell("tempo 10")  # which has it write what it keeps
        return Path("sink_events").read_text()

    def test_amid_pulses(self) -> None:
        """The sink gets a speed between two steps, and no step is later for it; then switches have it by the override,
        up to what the spindle may have. Lines count as before, so what a killed player gave is counted too."""
        self.begun("S 1 1000.000000 0 1 0 2\n" + "P 1 0 0 2000\n" * 1500 + "S 2 1200.000000 0 0 0 2\n"
                   + "P 1 0 0 2000\n" * 500 + "S 0 1200.000000 0 0 0 2\n")
        self.link.override_spindle(50)
        self.wait_for("it is heeded", lambda: self.link.ask().spindle == 50)
        self.assertLess(self.link.ask().carried, 1000)
        self.wait_for("it goes on", lambda: self.link.ask().carried > 100)
        self.link.override_spindle(140)
        self.sink.tell("tempo 0")
        _, said = self.child.communicate(timeout=PATIENCE_S)
        self.assertEqual((self.child.returncode, said), (0, ""))
        made = self.sink.end()
        steps = [each.tick for each in made if each.step and any(each.step)]
        self.assertEqual(len(steps), 2000)
        self.assertEqual({after - at for at, after in zip(steps[200:1300], steps[201:])}, {16_000})  # 2 ms
        switches = [each for each in made if each.outputs and each.outputs[0]]
        self.assertEqual([each.outputs for each in switches], [
            (1, 1_000_000_000, 0, 1, 0, 2), (1, 500_000_000, 0, 1, 0, 2), (1, 1_400_000_000, 0, 1, 0, 2),
            (2, 1_500_000_000, 0, 0, 0, 2)])
        self.assertTrue(steps[5] < switches[1].tick < switches[2].tick < steps[1499])
        self.assertIn("lines 2003\n", record())
        self.assertIn("outputs S 0 1200.000000 0 0 0 2\n", record())

    def test_killed(self) -> None:
        """What a killed player gave is counted by the next one, a speed between it or not."""
        self.begun("S 1 1000.000000 0 0 0 0\n" + "P 1 0 0 2000\n" * 60_000, 2)
        self.link.override_spindle(50)
        self.wait_for("it is heeded", lambda: self.link.ask().spindle == 50)
        seen = self.link.ask().carried
        self.wait_for("it goes on", lambda: self.link.ask().carried > seen + 50)
        self.child.kill()
        self.child.communicate(timeout=PATIENCE_S)
        self.sink.tell("tempo 0")
        done = self.run_player(*self.words)
        self.assertEqual(done.returncode, 0, done.stderr)
        self.assertNotIn("isn't known", done.stderr)
        self.assertIn("lines 60001\n", record())
        self.assertEqual(sum(any(each.step) for each in self.sink.end() if each.step), 60_000)

    def test_at_rest(self) -> None:
        """A spindle that turns while the motors stand gets its speed at once."""
        self.begun("S 1 1000.000000 0 0 0 0\n" + "P 1 0 0 2000\n" * 10_000)
        self.link.hold()
        self.wait_for("it is held", lambda: self.link.ask().is_held)
        for percent in (50, 60):
            self.link.override_spindle(percent)
            self.wait_for("it is heeded", lambda: f" 1 {percent * 10_000_000} 0" in self.events())
        self.assertTrue(self.link.ask().is_held)
        self.child.terminate()
        self.child.communicate(timeout=PATIENCE_S)


class Player(Overridden, unittest.TestCase):
    """As a compiler builds it, optimized."""


class PlayerOverSink(OverSink, unittest.TestCase):
    """Over a step sink."""


class PlayerSanitized(Sanitized, Overridden, unittest.TestCase):
    """The same under the compiler's sanitizers."""


del Overridden, OverSink

if __name__ == "__main__":
    unittest.main()
