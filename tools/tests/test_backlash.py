"""Backlash: the table is where OUT says, whatever comes between, and the record knows the screws."""
import random
import re
import signal
import subprocess
import sys
import time
import unittest
from collections.abc import Iterable, Iterator
from pathlib import Path

sys.path.insert(0, str(Path(__file__).resolve().parent))

from pace_support import PROGRAMS, excess, stream
from player_support import PlayerTest, Sanitized, record
from session_support import FIRST, PATIENCE_S, ngc
from out_support import text_of
from sink_support import ServedSink
from test_moves import MACHINE, Moving, program
from test_moves_sink import OverSink as MovingOverSink
from test_ramps import COARSE, EXAMPLES
from test_sink_player import disturbed_out

from ngc_tools.formats.record import Record

STEPS = (7, 1, 40)
MOTION = "[motion]\naccel_mm_s2 = [500, 400, 300]\n[backlash]\nsteps = [7, 1, 40]\n"
Steps = tuple[int, int, int]


class Screws:
    """A table on three screws, of which so many steps are backlash. Those that turn up push it up at first."""

    def __init__(self, backlash: Steps = STEPS) -> None:
        self.backlash = backlash
        self.turned = list(backlash)  # how far each is above where it pushes down
        self.table = [0, 0, 0]

    def turn(self, step: Iterable[int]) -> None:
        """A pulse."""
        for axis, each in enumerate(step):
            turned = self.turned[axis] + each
            if 0 <= turned <= self.backlash[axis]:
                self.turned[axis] = turned
            else:
                self.table[axis] += each


def steps(text: str) -> Iterator[tuple[int, ...]]:
    """The pulses of lines of OUT, or of pins."""
    return (tuple(map(int, line.split()[1:4])) for line in text.splitlines() if line[0] == "P")


def path(pulses: Iterable[tuple[int, ...]], screws: Screws) -> list[Steps]:
    """Where the table is, each place once until it is at another."""
    places: list[Steps] = [tuple(screws.table)]
    for step in pulses:
        screws.turn(step)
        if tuple(screws.table) != places[-1]:
            places.append(tuple(screws.table))
    return places


def told(*texts: str) -> list[Steps]:
    """The path that lines of OUT lead along."""
    return path((step for text in texts for step in steps(text)), Screws((0, 0, 0)))


def back(text: str) -> str:
    """The pulses, taken back."""
    return "".join(f"P {-x} {-y} {-z} 50\n" for x, y, z in reversed(list(steps(text))))


def some_lines(seed: int, parts: int = 12) -> str:
    """A stream by chance, of pulses of 50 us and more."""
    lines = (line.split() for line in stream(random.Random(seed), parts))
    return "".join(" ".join([*words[:-1], str(max(50, int(words[-1])))] if words[0] == "P" else words) + "\n"
                   for words in lines)


class Turning(PlayerTest):
    """Along OUT."""

    def setUp(self) -> None:
        """A machine whose screws push up, by its record."""
        super().setUp()
        Path("motion.toml").write_text(MOTION)
        self.known()

    def known(self, screws: str = "+ + +") -> None:
        """A record of a machine at 0 with such screws."""
        Path("pins").unlink(missing_ok=True)
        Path("position").write_bytes(text_of(Record("/before", screws=screws)))

    def turned(self, *words: str) -> str:
        """Plays OUT without times: the pins."""
        done = self.play("--untimed", "--machine", "motion.toml", *words)
        self.assertEqual(done.returncode, 0, done.stderr)
        return Path("pins").read_text()

    def test_by_hand(self) -> None:
        """Seven steps of X come before its first one down, each as long as that one, and seven before the next one up.
        Two axes are taken up together, as long as both have steps left; Z waits for X and Y."""
        Path("out").write_text("P 1 0 0 90\nP -1 0 0 80\nP 0 0 0 70\nP -1 0 0 60\nP 1 -1 -1 50\n")
        self.assertEqual(self.turned("--times", "times").splitlines(), [
            "P 1 0 0 90", *["P -1 0 0 80"] * 7, "P -1 0 0 80", "P 0 0 0 70", "P -1 0 0 60",
            "P 1 -1 0 50", *["P 1 0 -1 50"] * 6, *["P 0 0 -1 50"] * 34, "P 1 -1 -1 50"])
        self.assertEqual([line.split(" ", 1)[1] for line in Path("times").read_text().splitlines()],
                         Path("out").read_text().splitlines())
        self.assertEqual(record(), "lines 5\nbytes 59\noutputs S 0 0.000000 0 0 0 0\n"
                                   "reference 0.000000 -0.001000 -0.001000\nscrews + - -\n")

    def test_rate(self) -> None:
        """No extra step comes sooner than those of a traverse: 1 mm a minute, steps of 1 and 3 um."""
        text = Path("first.toml").read_text().replace("[1000, 1000, 1000]", "[1000, 3000, 1000]")
        Path("first.toml").write_text(text.replace("traverse_nm_per_min = 6000000000", "traverse_nm_per_min = 1000000"))
        Path("out").write_text("P -1 -1 0 50\n")
        self.assertEqual(self.turned().splitlines(), ["P -1 -1 0 180000", *["P -1 0 0 60000"] * 6, "P -1 -1 0 50"])

    def test_unknown(self) -> None:
        """Where nobody knows the screws the first move of each axis says where they are; --at knows them as little."""
        Path("out").write_text("P -1 0 0 50\nP 1 0 0 50\n")
        for words in (), ("--at", "0", "0", "0"):
            self.known() if words else Path("position").unlink()
            self.assertEqual(self.turned(*words).splitlines(), ["P -1 0 0 50", *["P 1 0 0 50"] * 8], words)
            self.assertIn("\nscrews + ? ?\n", record())
            Path("pins").unlink()
        Path("motion.toml").write_text(MOTION.replace("[7, 1, 40]", "[0, 0, 0]"))
        self.turned("--anew")
        self.assertNotIn("screws", record())

    def test_table(self) -> None:
        """Of streams by chance the table makes OUT's path, and no other."""
        for seed in range(6):
            Path("out").write_text(some_lines(seed))
            self.known()
            self.assertEqual(path(steps(self.turned()), Screws()), told(Path("out").read_text()), seed)

    def test_back(self) -> None:
        """Back along OUT, by legs, and on again."""
        lines = "P 1 0 0 50\n" * 30 + "P 0 1 -1 50\n" * 50 + "P -1 1 0 50\n" * 20 + "D 3\n" + "P -1 0 1 50\n" * 20
        Path("out").write_text(lines)
        self.turned()
        self.turned("--go-to-line", "10", "--yes")
        self.turned("--go-to-line", "121", "--yes")
        self.turned("--go-to-line", "80", "--lift", "0.005", "--feed", "600", "--yes")
        left = "".join(lines.splitlines(keepends=True)[10:])
        up, over, down = "P 0 0 1 50\n" * 35, "P 1 0 0 50\n" * 40 + "P 0 -1 0 50\n" * 20, "P 0 0 -1 50\n" * 55
        wanted = told(lines, back(left), left, up)
        made = path(steps(Path("pins").read_text()), Screws())
        self.assertEqual(made[:len(wanted)], wanted)
        self.assertEqual(made[-1], told(lines, up, over, down)[-1])
        self.assertEqual(made[-1], (30, 50, -50))

    def held_amid(self, number: int) -> tuple[list[str], Record]:
        """A player that gets a signal amid forty extra steps of Z, which take 4 s: the pins, and the record."""
        Path("out").write_text("P 0 0 1 100000\nP 0 0 -1 100000\n")
        child = self.begin("--no-ask-tool", "--pins", "pins", "--machine", "motion.toml", "out", "first.toml",
                           "position")
        self.wait_for("it turns", lambda: Path("pins").exists() and len(Path("pins").read_text().splitlines()) > 2)
        self.wait_for("the record says so", lambda: "screws + + +" not in record())
        child.send_signal(number)
        child.communicate(timeout=PATIENCE_S)
        return Path("pins").read_text().splitlines(), Record.read("position")

    def test_stopped(self) -> None:
        """Amid extra steps it comes to rest; the record counts them, and no line. The next player makes what is
        left."""
        pins, found = self.held_amid(signal.SIGTERM)
        extra = len(pins) - 2  # the first line, and "off"
        self.assertTrue(0 < extra < 40, pins)
        self.assertEqual((found.lines, found.at_nm, found.screws), (1, (0, 0, 1000), f"+ + {extra}"))
        pins = self.turned().splitlines()
        self.assertEqual(pins.count("P 0 0 -1 100000"), 41)
        self.assertEqual(record().splitlines()[-1], "screws + + -")

    def test_killed(self) -> None:
        """Amid extra steps it is killed: the record claims none that wasn't made, and the table is off by no more than
        what the record is behind."""
        pins, found = self.held_amid(signal.SIGKILL)
        extra = len(pins) - 1
        claimed = int(found.screws.split()[2])
        self.assertTrue(0 < claimed <= extra < 40, (found, pins))
        self.assertEqual((found.lines, found.at_nm), (1, (0, 0, 1000)))
        screws = Screws()
        path(steps(self.turned()), screws)
        self.assertEqual(screws.table, [0, 0, claimed - extra])

    def test_changed(self) -> None:
        """Where the machine's file says another backlash, a screw that pushes up or down does so by that one."""
        for before, pulse, count in (("+ + +", "-1", 9), ("- + +", "1", 9), ("3 + +", "1", 3), ("3 + +", "-1", 6),
                                     ("998 + +", "1", 9)):
            Path("motion.toml").write_text(MOTION.replace("[7,", "[9,"))
            Path("out").write_text(f"P {pulse} 0 0 50\n")
            self.known(before)
            self.assertEqual(len(self.turned().splitlines()), count + 1, before)

    def test_place(self) -> None:
        """`at` leaves the screws of the axes that stay where they were, and no other."""
        Path("out").write_text("")
        child = self.begin("--no-ask-tool", "--pins", "pins", "--machine", "motion.toml", "--follow", "--progress",
                           "progress", "out", "first.toml", "position")
        link = self.linked()
        link.at("1 0 0")
        self.wait_for("it took that", lambda: link.ask().at == "1.000000 0.000000 0.000000")
        link.end()
        self.assertEqual(child.wait(PATIENCE_S), 0)
        self.assertEqual(record().splitlines()[-1], "screws ? + +")


class Optimized(Turning):
    """As a compiler builds it, optimized."""


class SanitizedTurning(Sanitized, Turning):
    """The same under the compiler's sanitizers."""


class AsLines(PlayerTest):
    """Extra pulses go as if they were lines of OUT."""

    def times(self, pins: str) -> list[str]:
        """Has the player carry out `out`: its lines, each behind its time."""
        Path("position").write_bytes(text_of(Record("/before", screws="+ + +")))
        for left in (pins, "times"):
            Path(left).unlink(missing_ok=True)
        done = self.run_player("--no-ask-tool", "--untimed", "--pins", pins, "--machine", "motion.toml", "--times",
                               "times", "out", "first.toml", "position")
        self.assertEqual(done.returncode, 0, done.stderr)
        return Path("times").read_text().splitlines()

    def check_times(self, name: str) -> None:
        """OUT's lines have the times that `ngc pace` gives them amid the extra pulses."""
        times = self.times("pins")
        made = "".join(re.findall("(?m)^[PDS] .*\n", Path("pins").read_text()))
        words = [ngc(), "pace", "first.toml", "motion.toml"]
        paced = iter(subprocess.run(words, input=made, capture_output=True, text=True, check=True).stdout.splitlines())
        self.assertEqual([line for line in times if line not in paced], [], name)  # it looks on from the last one
        self.assertEqual([line.split(" ", 1)[1] for line in times], Path("out").read_text().splitlines(), name)

    def test_by_chance(self) -> None:
        """Streams by chance, which motors start and stop at once at some rates, with backlash by chance."""
        chance = random.Random(1)
        for seed in range(5):
            backlash = [chance.choice((0, 1, 20, 200)) for _ in range(3)]
            Path("motion.toml").write_text("[motion]\naccel_mm_s2 = [500, 400, 300]\nstart_mm_min = [60, 90, 120]\n"
                                           f"[backlash]\nsteps = {backlash}\n")
            Path("out").write_text(some_lines(seed, 5))
            self.check_times(f"{seed}: {backlash}")

    def hand_out(self, program: str) -> None:
        """Makes `out` of a program, from a fresh device."""
        for left in ("mill.dev", "out"):
            Path(left).unlink(missing_ok=True)
        self.device()
        self.run_ngc(f"tool 1 50\ntool 2 62.5\ntool 3 0\nload {len(program.encode())}\n{program}start\n"
                     + "tick 1000000\ncontinue\n" * 3)

    def check_path(self, name: str, backlash: Steps) -> None:
        """The table makes OUT's path, and no other."""
        self.assertEqual(path(steps(Path("pins").read_text()), Screws(backlash)), told(Path("out").read_text()), name)

    def test_examples(self) -> None:
        """All examples, with steps of 100 um."""
        Path("first.toml").write_text(COARSE.replace("50000, 50000, 50000", "100000, 100000, 100000"))
        Path("motion.toml").write_text("[motion]\naccel_mm_s2 = [500, 500, 500]\n[backlash]\nsteps = [2, 1, 3]\n")
        for example in EXAMPLES:
            self.hand_out(example.read_text())
            self.check_times(example.name)
            self.check_path(example.name, (2, 1, 3))

    def test_motion(self) -> None:
        """Short lines, small circles and corners: motors can follow all pulses, the extra ones too, whose times are
        those that they have as lines of OUT."""
        Path("first.toml").write_text(FIRST.replace("[1000, 1000, 1000]", "[20000, 20000, 20000]"))
        motion = "[motion]\naccel_mm_s2 = [500, 400, 300]\n"
        for name, text in PROGRAMS.items():
            self.hand_out(f"G17 G21 G90 G94\nF3000\n{text()}M2\n")
            Path("motion.toml").write_text(motion + "[backlash]\nsteps = [3, 2, 5]\n")
            self.check_times(name)
            self.check_path(name, (3, 2, 5))
            Path("out").write_text("".join(re.findall("P.*\n", Path("pins").read_text())))
            Path("motion.toml").write_text(motion)
            due = "".join(f"{line}\n" for line in self.times("pins"))
            self.assertLess(excess(due.encode(), (25_000, 20_000, 15_000)), 4, name)


class WithoutLines(Moving):
    """Home, jog and seek: switches and the probe follow the table."""

    def setUp(self) -> None:
        """Screws with backlash, turned as it happens."""
        super().setUp()
        Path("mill.toml").write_text(MACHINE + "[backlash]\nsteps = [50, 300, 999]\n")
        self.world.loosen((50, 300, 999), (20, 300, 0))

    def command(self) -> list[str]:
        """The player over the simulated machine."""
        return [program()]

    def test_home(self) -> None:
        """Once it is homed the table stands its pull-off away from the switch, and the screws are known."""
        self.started("--untimed")
        self.assertEqual(self.how(self.link.home()), "done")
        self.assertEqual(self.world.place, (-8_000, -8_000, 4_000))
        self.assertEqual(self.at(), (-8, -7, 9))
        self.kept("reference -8.000000 -7.000000 9.000000", "screws + + -", "homed XYZ", "off")

    def test_jog(self) -> None:
        """Each way the table goes as far as it is told; then lines go on from there."""
        self.started("--untimed")
        self.assertEqual(self.how(self.link.home()), "done")
        for way, length, place in (("X-", "1", (-9_000, -8_000, 4_000)), ("X-", "0.5", (-9_500, -8_000, 4_000)),
                                   ("X+", "2", (-7_500, -8_000, 4_000)), ("Z+", "0.1", (-7_500, -8_000, 4_100))):
            self.assertEqual(self.how(self.link.jog(way, "600", length)), "done")
            self.assertEqual(self.world.place, place)
        self.told()  # the same place, so the screws stay known
        self.pipe.write(b"P -1 -1 -1 50\n" * 10)
        self.link.last()
        self.wait_for("lines go on", lambda: self.link.ask().carried == 10)
        self.assertEqual(self.world.place, (-7_510, -8_010, 4_090))
        self.assertEqual(self.at(), (-7.51, -7.01, 9.09))
        self.kept("reference -7.510000 -7.010000 9.090000", "screws - - -", "homed XYZ")

    def test_at_a_tool_change(self) -> None:
        """Where the motors jogged while a tool was waited for, the lines behind it make the extra steps that the screws
        need by then."""
        self.started(changes="--untimed")
        self.assertEqual(self.how(self.link.home()), "done")
        self.told()
        self.pipe.write(b"P 1 1 -1 50\n" * 10 + b"S 0 0.000000 0 0 2 2\n" + b"P 1 1 1 50\n" * 10)
        self.wait_for("it waits", lambda: self.link.ask().waits)
        for way in ("X-", "X+", "Y+", "Y-", "Z+", "Z-"):
            self.assertEqual(self.how(self.link.jog(way, "600", "0.1")), "done")
        self.link.go()
        self.link.last()
        self.wait_for("lines go on", lambda: self.link.ask().carried == 21)
        self.assertEqual((self.world.place, self.at()), ((-7_980, -7_980, 4_000), (-7.98, -6.98, 9)))

    def test_stopped(self) -> None:
        """A jog that ends amid extra steps moved nothing, and the next one makes what is left of them."""
        Path("position").write_bytes(text_of(Record("/before", screws="? - ?")))
        self.world.loosen((50, 300, 999), (0, 0, 0))
        self.started()
        number, why = self.link.jog("Y+", "3")  # 20 ms a step
        self.assertEqual(why, "")
        self.wait_for("it turns", lambda: self.world.get(1) > 3)
        self.link.stop()
        self.assertEqual(self.how((number, "")), "stopped")
        turned = self.world.get(1)
        self.assertEqual((self.at(), self.world.place), ((0, 0, 0), (0, 0, 0)))
        self.kept("reference 0.000000 0.000000 0.000000", f"screws ? {300 - turned} ?")
        self.assertEqual(self.how(self.link.jog("Y+", "600", "0.1")), "done")
        self.assertEqual((self.at(), self.world.place), ((0, 0.1, 0), (0, 100, 0)))
        self.kept("reference 0.000000 0.100000 0.000000", "screws ? + ?", "off")

    def test_seek(self) -> None:
        """The probe is touched where the table is."""
        self.world.switch(3, 6, 2, -1, -3_000)
        self.started("--untimed")
        self.assertEqual(self.how(self.link.home()), "done")
        self.assertEqual(self.how(self.link.jog("Z+", "600", "0.5")), "done")
        self.assertEqual(self.how(self.link.seek("Z-", "600", "15")), "done")
        self.assertEqual(self.link.machine().touched, "-8.000000 -7.000000 2.000000")  # 7 mm below where it was homed


class HomedOverSink(MovingOverSink):
    """Home over a step sink, whose switches follow the motors."""

    def test_home(self) -> None:
        """The motors go the pull-off away from the switch, 2, 2 and 1 mm, and the backlash before; the place counts the
        pull-off alone."""
        with open("mill.toml", "a") as file:
            file.write("[backlash]\nsteps = [50, 300, 999]\n")
        self.started()
        self.assertEqual(self.how(self.link.home()), "done")
        self.assertEqual(self.at(), (-8, -7, 9))
        self.kept("reference -8.000000 -7.000000 9.000000", "screws + + -", "homed XYZ", "off", "stopped killed")
        self.assertEqual(self.ended(0), "")
        self.kept("screws + + -", "homed XYZ", "off")
        self.assertEqual(self.made()[1], (-10_000 + 50 + 2_000, -10_000 + 300 + 2_000, 5_000 - 999 - 1_000))


class OverSink(PlayerTest):
    """Over a step sink, whose count is of lines alone."""

    def serve(self, waits_ms: int) -> ServedSink:
        """A sink that is named in the machine's file."""
        sink = ServedSink(waits_ms)
        self.addCleanup(sink.kill)
        Path("motion.toml").write_text(f'{MOTION}[sink]\nline = "{sink.path}"\nbaud = 2000000\n')
        Path("position").write_bytes(text_of(Record("/before", screws="+ + +")))
        return sink

    def made(self, sink: ServedSink) -> list[Steps]:
        """The pulses that it made."""
        return [each.step for each in sink.end() if each.step and any(each.step)]

    def play_over(self, *words: str) -> str:
        """Plays OUT: what it says."""
        done = self.run_player("--no-ask-tool", "--machine", "motion.toml", *words, "out", "first.toml", "position")
        self.assertEqual(done.returncode, 0, done.stderr)
        return done.stderr

    def test_table(self) -> None:
        """The table makes OUT's path, and the path back."""
        sink = self.serve(20_000)
        lines = "P 1 1 0 50\n" * 300 + "D 20000\n" + "P -1 0 -1 50\n" * 400 + "P -1 1 0 50\n" * 100
        Path("out").write_text(lines + "S 1 9.000000 0 0 0 0\nP 1 1 1 90\n")
        self.play_over("--times", "times")
        self.play_over("--go-to-line", "0", "--yes")
        self.assertEqual(len(Path("times").read_text().splitlines()), 803)
        whole = Path("out").read_text()
        self.assertEqual(path(self.made(sink), Screws()), told(whole, back(whole)))
        self.assertEqual(record(), "lines 0\nbytes 0\noutputs S 0 9.000000 0 0 0 0\n"
                                   "reference 0.000000 0.000000 0.000000\nscrews - - +\n")

    def test_killed(self) -> None:
        """A player that is killed: the next one counts the lines that the sink made after the record, and the extra
        steps of an axis are lost at most."""
        sink = self.serve(2)
        sink.tell("tempo 10")
        Path("out").write_text(("P 1 0 0 50\n" * 300 + "P -1 1 0 50\n" * 300) * 10)
        child = self.begin("--no-ask-tool", "--machine", "motion.toml", "--progress", "progress", "out", "first.toml",
                           "position")
        link = self.linked()
        self.wait_for("it moves", lambda: link.ask().carried > 350)
        child.kill()
        child.communicate(timeout=PATIENCE_S)
        sink.tell("tempo 0")
        self.assertRegex(self.play_over(), "^(out: the sink made [0-9]+ lines after the record of a player that was"
                                           " killed: they are counted\n)?(the sink ran dry [^\n]+\n)?$")
        screws = Screws()
        path(self.made(sink), screws)
        self.assertEqual(record().splitlines()[0], "lines 6000")
        self.assertLessEqual(abs(screws.table[0]), STEPS[0])
        self.assertEqual(screws.table[1:], [3_000, 0])

    def test_by_chance(self) -> None:
        """Frames are lost, damaged and doubled, the line is cut and the player is stopped, and starts again: the table
        makes OUT's path, and no other."""
        for seed in range(5):
            chance = random.Random(seed)
            sink = self.serve(2)
            sink.tell(f"faults {seed + 1} {chance.choice((0, 5, 30))}")
            lines = [line for _ in range(3) for line in disturbed_out(chance)]
            Path("out").write_text("".join(f"{line}\n" for line in lines))
            while self.is_disturbed(chance, sink):
                pass
            self.assertEqual(path(self.made(sink), Screws()), told(Path("out").read_text()), seed)
            self.assertEqual(record().splitlines()[0], f"lines {len(lines)}")

    def is_disturbed(self, chance: random.Random, sink: ServedSink) -> bool:
        """Plays on, and disturbs it at most times; whether it ended before OUT did."""
        child = self.begin("--no-ask-tool", "--machine", "motion.toml", "out", "first.toml", "position")
        time.sleep(chance.uniform(0, 0.08))  # nothing depends on what has happened by then
        what = chance.random()
        if what < 0.4:
            child.send_signal(signal.SIGTERM)
        elif what < 0.7:
            sink.tell("cut 700")
        child.communicate(timeout=PATIENCE_S)
        return child.returncode != 0


del Turning

if __name__ == "__main__":
    unittest.main()
