"""Home, jog and seek of tools/player over a step sink, and the inputs that stop it."""
import random
import sys
import unittest
from pathlib import Path

sys.path.insert(0, str(Path(__file__).resolve().parent))

from player_support import record
from session_support import PATIENCE_S
from sink_support import Made, ServedSink
from test_moves import AT_SPEED, MACHINE, PROBE, STOP, X_HIGH, X_LOW, Y_LOW, Z_HIGH, Moving

from ngc_tools.formats.record import Record

WAITS_MS = 3_000  # as long as words may be late by the real clock


class OverSink(Moving):
    """A player over a sink whose switches follow its motors."""

    sink: ServedSink | None = None

    def setUp(self) -> None:
        """The same switches as those of the simulated machine."""
        super().setUp()
        self.serve()

    def serve(self) -> None:
        """Starts a sink, in the place of another."""
        if self.sink:
            self.sink.kill()
        self.sink = ServedSink(WAITS_MS)
        self.addCleanup(self.sink.kill)
        Path("mill.toml").write_text(f'{MACHINE}[sink]\nline = "{self.sink.path}"\nbaud = 2000000\n')
        self.high(1 << STOP)
        for number, axis, sign, at in ((X_LOW, 0, -1, -10_000), (Y_LOW, 1, -1, -10_000), (Z_HIGH, 2, 1, 5_000)):
            self.sink.tell(f"switch {number} {axis} {sign} {at}")

    def high(self, bits: int) -> None:
        """Sets the inputs."""
        self.sink.tell(f"inputs {bits}")

    def made(self) -> tuple[list[Made], tuple[int, ...]]:
        """What the sink made, once all is over: the steps, and where they lead."""
        steps = [each for each in self.sink.end() if each.step and any(each.step)]
        return steps, tuple(sum(each.step[axis] for each in steps) for axis in range(3))


class MovesOverSink(OverSink):
    """What is done over the pins is done over it."""

    def test_home(self) -> None:
        """Each axis stands its pull-off away from the point at which the sink felt the switch."""
        self.started()
        self.assertFalse(self.link.is_sure())
        self.assertEqual(self.how(self.link.home()), "done")
        self.assertTrue(self.link.is_sure())
        self.assertEqual(self.at(), (-8, -7, 9))
        self.assertEqual(self.link.machine().homed, "XYZ")
        self.kept("reference -8.000000 -7.000000 9.000000", "homed XYZ", "off", "stopped killed")
        self.told()
        self.pipe.write(b"P 1 0 0 50\n" * 10)
        self.link.last()
        self.wait_for("lines go on", lambda: self.link.ask().carried == 10)
        self.assertEqual(self.at(), (-7.99, -7, 9))
        self.assertEqual(self.ended(0), "")
        self.assertEqual(self.made()[1], (-7_990, -8_000, 4_000))

    def test_jog_and_seek(self) -> None:
        """The probe's point is that of the step at which the sink felt it, and the motors stand behind it."""
        self.sink.tell(f"switch {PROBE} 2 -1 -3000")
        self.started()
        self.assertEqual(self.how(self.link.jog("X+", "600", "1.25")), "done")
        self.assertEqual(self.at(), (1.25, 0, 0))
        self.assertEqual(self.how(self.link.seek("Z-", "600", "5")), "done")
        x, y, z = map(float, self.link.machine().touched.split())
        self.assertEqual((x, y), (1.25, 0))
        self.assertAlmostEqual(z, -3, delta=0.011)  # 1 ms at 10 mm/s, in which the sink looks
        self.assertAlmostEqual(self.at()[2], z - 0.1, delta=0.03)  # (10 mm/s)^2 / 2 / 500 mm/s2
        self.assertEqual(self.how(self.link.jog("Z+", "600", "2")), "done")
        self.assertEqual(self.how(self.link.seek("X+", "600", "1")), "the probe isn't touched within 1.000000 mm")
        place = tuple(round(each * 1000) for each in self.at())
        self.ended(0)
        self.assertEqual(self.made()[1], place)

    def test_while_a_tool_is_waited_for(self) -> None:
        """The motors jog and seek then too. The lines behind the change go on from where those before it lead, with the
        extra steps that a screw needs once a jog has turned it."""
        Path("mill.toml").write_text(Path("mill.toml").read_text() + "[backlash]\nsteps = [50, 0, 0]\n")
        self.sink.tell(f"switch {PROBE} 2 -1 -1000")
        self.started(changes="--off-after=10")
        self.pipe.write(b"P 1 0 0 50\n" * 10 + b"S 0 0.000000 0 0 3 3\n" + b"P 1 0 0 50\n" * 10)
        self.wait_for("it waits", lambda: self.link.ask().waits)
        self.assertEqual(self.how(self.link.jog("X+", "600", "0.5")), "done")
        self.assertEqual(self.how(self.link.seek("Z-", "600", "2")), "done")
        self.link.go()
        self.assertTrue(self.link.ask().waits)
        for way, axis, to in (("Z+", 2, 0), ("X-", 0, 0.01)):
            self.assertEqual(self.how(self.link.jog(way, "600", f"{abs(self.at()[axis] - to):.3f}")), "done")
        self.link.go()
        self.link.last()
        self.wait_for("lines go on", lambda: self.link.ask().carried == 21)
        self.assertEqual(self.at(), (0.02, 0, 0))
        self.ended(0)
        self.assertEqual(self.made()[1], (20, 0, 0))  # with 50 extra steps back, and 50 on again

    def test_held_jog(self) -> None:
        """It comes to rest once it isn't repeated; the record is the sink's count."""
        self.started()
        number, _ = self.link.jog("X+", "60")
        for _ in range(3):
            self.link.keep_on(number, "X+", "60")
            self.link.ask()
        self.assertIn(self.how((number, "")), ("the key isn't held any more", "X ends at 10.000000"))
        place = tuple(round(each * 1000) for each in self.at())
        self.ended(0)
        self.assertEqual(self.made()[1], place)

    def test_at_speed(self) -> None:
        """A switch waits for the spindle's input."""
        self.started()
        self.pipe.write(b"S 1 1000.000000 0 0 0 0\nP 1 0 0 50\nS 0 1000.000000 0 0 0 0\n")
        self.link.last()
        self.wait_for("it waits", lambda: self.link.ask().word == "waits spindle")
        self.assertEqual(self.link.ask().at, "0.000000 0.000000 0.000000")
        self.high(1 << STOP | 1 << AT_SPEED)
        self.wait_for("it goes on", lambda: self.link.ask().is_held or self.link.ask().carried == 3)
        self.link.release()
        self.wait_for("it goes on", lambda: self.link.ask().carried == 3)

    def test_at_once(self) -> None:
        """An emergency stop or a limit at steps by chance: within a millisecond no further one, the record is the
        sink's count, and after home the motors go again."""
        chance = random.Random(65)
        for number in (STOP, X_HIGH, Y_LOW):
            step = chance.randint(1, 2_500)
            with self.subTest(number=number, step=step):
                self.serve()
                self.stops_at_once(number, step)

    def stops_at_once(self, number: int, step: int) -> None:
        """An input comes on at a step."""
        self.sink.tell(f"turn {step} {1 << number}")
        self.started("--at", "0", "0", "0")
        self.pipe.write(b"P 1 0 0 100\n" * 3_000)
        self.link.last()
        self.wait_for("it stops", lambda: self.link.ask().word == "alarm")
        self.kept(f"stopped {'emergency' if number == STOP else 'limit'}")
        found = Record.read("position")
        self.assertEqual(found.at_nm, (1000 * found.lines, 0, 0))
        self.assertTrue(step <= found.lines <= step + 11, found.lines)  # 100 us a step
        self.sink.tell("turn 0 0")
        self.wait_for("it is off again", lambda: not self.link.machine().on)
        self.assertEqual(self.how(self.link.home()), "done")
        self.assertEqual(self.link.ask().word, "broken")
        self.ended(1)
        self.assertEqual(self.made()[1], (-8_000, -8_000, 4_000))
        self.assertEqual(record().splitlines()[-1], "off")

    def test_link_gone(self) -> None:
        """A jog whose serial line is cut: the sink comes to rest by itself, and the player ends."""
        self.started()
        self.assertEqual(self.link.jog("X+", "60", "9")[1], "")
        self.wait_for("it goes", lambda: self.link.ask().at != "0.000000 0.000000 0.000000")
        self.sink.tell("cut 1000000")
        _, said = self.child.communicate(timeout=PATIENCE_S)
        self.assertEqual(self.child.returncode, 2)  # nobody knows whether the outputs are off
        self.assertIn("no answer from the sink", said)
        self.assertLessEqual(Record.read("position").at_nm[0] // 1000, self.made()[1][0])

    def test_reset(self) -> None:
        """The chip starts again amid a jog: the next player takes nothing but home, and then goes on."""
        self.started()
        self.assertEqual(self.how(self.link.home()), "done")
        self.assertEqual(self.link.jog("X+", "60", "9")[1], "")
        self.wait_for("it goes", lambda: self.link.ask().at > "-7.9")
        self.sink.tell("boot 2")
        _, said = self.child.communicate(timeout=PATIENCE_S)
        self.assertEqual(self.child.returncode, 1)
        self.assertEqual(record().splitlines()[-2:], ["off", "stopped reset"])
        self.pipe.close()
        self.started()
        self.assertEqual((self.link.ask().word, self.link.machine().alarm), ("alarm", "sink"))
        self.kept("stopped lost")
        self.pipe.write(b"P 1 0 0 50\n")
        self.assertEqual(self.how(self.link.jog("X+", "600", "1")), "refused: the alarm stands: home comes first")
        self.assertEqual(self.link.ask().carried, 0)
        self.assertEqual(self.how(self.link.home()), "done")
        self.assertEqual((self.link.ask().word, self.at()), ("broken", (-8, -7, 9)))
        self.ended(1)
        self.assertEqual(Record.read("position").stopped, "")
        self.assertEqual(self.made()[1], (-8_000, -8_000, 4_000))


if __name__ == "__main__":
    unittest.main()
