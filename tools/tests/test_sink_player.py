"""tools/player over a step sink: what the sink makes, when, and what the record says of it."""
import os
import random
import re
import signal
import sys
import time
import unittest
from collections.abc import Iterator
from pathlib import Path

sys.path.insert(0, str(Path(__file__).resolve().parent))

from pace_support import excess, straight
from player_support import PlayerTest, Sanitized, built, played, record
from session_support import FIRST, PATIENCE_S, TOOLS
from sink_support import IS_CHIP, LATE_TICKS, TICK_NS, Made, ServedSink, changes, lasting, seen

EXAMPLES = [path for path in sorted((TOOLS.parent / "examples").glob("*.ngc"))
            if path.stem in os.environ.get("NGC_EXAMPLES", path.stem).split()]
"""All of them, or those that are named."""
COARSE = (FIRST.replace("[1000, 1000, 1000]", "[50000, 50000, 50000]").replace("[50000000]", "[50000000, 62500000, 0]")
          .replace("period_us = 50\n", "period_us = 100\n"))
FINE = FIRST.replace("[1000, 1000, 1000]", "[2500, 2500, 2500]")
MOTION = "[motion]\naccel_mm_s2 = [500, 500, 500]\n"
LONG = "P 1 0 0 50\n" * 4000  # 10 mm at 3,000 mm a minute: 20,000 steps a second, from which a stop takes 1,000
PATIENT_MS, HASTY_MS = 20_000, 1 if IS_CHIP else 2
RUNS = 16
FEEDS = int(os.environ.get("NGC_FEEDS", "1"))
"""The examples are played with feeds so many times as fast: over a chip on a slow computer they take that long."""
LOST = ("player: position: a lost step sink stopped the motors, and where they are isn't known: --at X Y Z tells it\n")


class OverSink(PlayerTest):
    """A player over a sink."""

    def setUp(self) -> None:
        """400 steps a mm."""
        super().setUp()
        Path("first.toml").write_text(FINE)

    def serve(self, waits_ms: int = PATIENT_MS) -> ServedSink:
        """A sink that is named in the machine's file."""
        sink = ServedSink(waits_ms)
        self.addCleanup(sink.child.kill)
        Path("motion.toml").write_text(f'{MOTION}[sink]\nline = "{sink.path}"\nbaud = 2000000\n')
        return sink

    def command(self) -> list[str]:
        """The player; an emulated chip, which is slower than the player's clock, has ten times as long to answer."""
        return [built("-O2", "-DSENDER_PATIENCE=10")] if IS_CHIP else super().command()

    def words(self, *words: str) -> list[str]:
        """The words of a player over it."""
        return ["--no-ask-tool", "--machine", "motion.toml", *words, "out", "first.toml", "position"]

    def out(self) -> list[list[str]]:
        """The lines of OUT."""
        return [line.split() for line in Path("out").read_text().splitlines()]

    def check_made(self, made: list[Made]) -> list[int]:
        """What was made is OUT's beginning, each pulse once and in order, and each switch; the ticks of the pulses."""
        pulses = [each for each in made if each.step and any(each.step)]
        wanted = [tuple(map(int, words[1:4])) for words in self.out() if words[0] == "P" and words[1:4] != ["0"] * 3]
        self.assertEqual([each.step for each in pulses], wanted[:len(pulses)])
        return [each.tick for each in pulses]

    def timed(self, ticks: list[int]) -> Iterator[str]:
        """The pulses that were made as a file of --times has them."""
        pulses = (words for words in self.out() if words[0] == "P" and words[1:4] != ["0"] * 3)
        return (f"{tick * TICK_NS} {' '.join(words)}\n" for tick, words in zip(ticks, pulses))

    def check_record(self, made: list[Made]) -> int:
        """The record counts what the sink made, and no more; how many lines that is."""
        said = dict(line.split(" ", 1) for line in record().splitlines())
        lines = self.out()[:int(said["lines"])]
        pulses = sum(words[0] == "P" and words[1:4] != ["0"] * 3 for words in lines)
        self.assertEqual(pulses, len(self.check_made(made)))
        place = [sum(int(words[axis]) for words in lines if words[0] == "P") for axis in (1, 2, 3)]
        self.assertEqual(said["reference"], " ".join(f"{steps * 2500 / 1e6:.6f}" for steps in place))
        return len(lines)


def sped_up(program: str) -> str:
    """A program with its feeds FEEDS times as fast."""
    if FEEDS == 1:
        return program
    return re.sub(r"(?m)^([^(;\n]*)F([\d.]+)", lambda match: f"{match[1]}F{FEEDS * float(match[2]):g}", program)


class Whole(OverSink, unittest.TestCase):
    """Over a good line."""

    def hand_out(self, program: str) -> None:
        """Makes `out` of a program, from a fresh device."""
        for path in ("mill.dev", "out", "times", "position"):
            Path(path).unlink(missing_ok=True)
        self.device()
        self.run_ngc(f"tool 1 50\ntool 2 62.5\ntool 3 0\nload {len(program.encode())}\n{program}start\n"
                     + "tick 1000000\ncontinue\n" * 3)

    def check_times(self, ticks: list[int], name: str) -> None:
        """Each pulse is made within a tick of its time from the first; behind a rest it may come later. On the chip it
        is within 10 us, and the times are taken from the third pulse behind a rest: words of 5 us that are before the
        first, as a switch's, are made up for until then."""
        times = [line.split() for line in Path("times").read_text().splitlines()]
        late, behind = None, 0
        at = iter(ticks)
        for words in times:
            if words[1] != "P" or words[2:5] == ["0"] * 3:
                behind = 0
                continue
            now = next(at) - int(words[0]) / TICK_NS
            if late is None or (behind == 0 and now > late) or (IS_CHIP and behind < 3):
                late = now
            self.assertLessEqual(abs(now - late), LATE_TICKS, (name, words))
            behind += 1
        self.assertIsNone(next(at, None))

    def check_switches(self, made: list[Made]) -> None:
        """The outputs are those of OUT's S lines, in order."""
        lines = [map(int, " ".join(words[1:]).replace(".", "").split()) for words in self.out() if words[0] == "S"]
        wanted = changes([seen(tuple(numbers)) for numbers in lines])
        self.assertEqual(changes(lasting(made))[:len(wanted)], wanted)

    def test_examples(self) -> None:
        """Of all examples the sink makes OUT's pulses and switches, each within a tick of the plan's; motors can follow
        them, and the record counts all lines."""
        Path("first.toml").write_text(COARSE)
        for example in EXAMPLES:
            with self.subTest(example.stem):
                self.check_example(example)

    def check_example(self, example: Path) -> None:
        """Plays one, and looks at all that the sink made."""
        sink = self.serve()
        self.hand_out(sped_up(example.read_text()))
        done = self.run_player(*self.words("--times", "times"))
        self.assertEqual(done.returncode, 0, done.stderr)
        self.assertNotIn("ran dry", done.stderr + done.stdout)
        made = sink.end()
        ticks = self.check_made(made)
        self.assertEqual(len(ticks), sum(words[0] == "P" and words[1:4] != ["0"] * 3 for words in self.out()))
        self.check_switches(made)
        self.check_times(ticks, example.name)
        if not IS_CHIP:  # whose steps are up to a microsecond to and fro
            self.assertLess(excess(self.timed(ticks), (10_000,) * 3), 4)
        self.assertEqual(record().splitlines()[0], f"lines {len(self.out())}")

    def test_fast(self) -> None:
        """20,000 steps a second, at which a stop takes 1,000 words, with waits and switches between: no word is made
        longer."""
        sink = self.serve()
        Path("out").write_text("S 1 9.000000 0 0 0 0\n" + LONG + "D 20000\nS 2 9.500000 1 0 0 3\nD 3\n" + LONG
                               + "D 9000000\nP 0 -1 1 3000000\nP 0 -1 0 3000000\nS 0 0.000000 0 0 0 3\n")
        done = self.run_player(*self.words("--times", "times"))
        self.assertEqual((done.returncode, done.stderr), (0, ""))
        made = sink.end()
        ticks = self.check_made(made)
        self.assertEqual(len(ticks), 8002)
        self.check_times(ticks, "fast")
        self.assertAlmostEqual((ticks[3999] - ticks[0]) * TICK_NS / 1e9, 0.3, delta=0.006)
        self.check_switches(made)
        self.check_record(made)

    def test_words(self) -> None:
        """What the machine's file may say of a sink, and what is refused."""
        Path("out").write_text(LONG)
        path = 'the path of the sink\'s serial line in "quotes", of at most 255 bytes'
        wrong = {"line = 3\n": f"sink: line takes {path}", f'line = "{"x" * 256}"\n': f"sink: line takes {path}",
                 "baud = 115200\n": f"sink: line is missing: {path}",
                 'line = "x"\nbaud = 9600\n': "sink: baud takes one of the rates of a serial line, 115200 to 4000000",
                 'line = "x"\ndebounce_us = 10001\n': "sink: debounce_us takes a whole number from 0 to 10000",
                 'line = "x"\nrate = 1\n': "sink has a key that isn't line, baud or debounce_us: rate"}
        for text, said in wrong.items():
            Path("motion.toml").write_text(f"{MOTION}[sink]\n{text}")
            self.assertEqual(self.refused(*self.words()), f"motion.toml: {said}", text)
        Path("motion.toml").write_text(f'{MOTION}[sink]\nline = "nowhere"\n')
        self.assertEqual(self.refused(*self.words()), "nowhere: No such file or directory")
        Path("motion.toml").write_text(f'{MOTION}[sink]\nline = "out"\n')
        self.assertEqual(self.refused(*self.words()), "out: it isn't a serial line")
        self.assertEqual(self.refused("--pins", "pins", *self.words()),
                         "--pins goes without [sink] of motion.toml: the sink has the pins")
        self.assertFalse(Path("position").exists())


class Stops(OverSink, unittest.TestCase):
    """What stops it."""

    def begun(self, sink: ServedSink, text: str) -> object:
        """A player that moves, in a tenth of real time."""
        sink.tell("tempo 10")
        Path("out").write_text(text)
        child = self.begin(*self.words("--progress", "progress"))
        link = self.linked()
        self.wait_for("it moves", lambda: link.ask().carried > 2)
        return child

    def test_signal(self) -> None:
        """`kill` brings it to rest by the pacer, and what was given is made; the record counts it."""
        sink = self.serve()
        child = self.begun(sink, "P 1 0 0 2000\n" * 100_000)
        child.send_signal(signal.SIGTERM)
        _, said = child.communicate(timeout=PATIENCE_S)
        sink.tell("tempo 0")
        self.assertEqual(child.returncode, 1)
        made = sink.end()
        count = self.check_record(made)
        self.assertEqual(said, f"out: stopped after line {count}; spindle and coolant off\n")
        self.assertIn("stopped signal", record())

    def test_debounce(self) -> None:
        """An emergency stop that is on for some 5 ms, while X is beyond a place: it stops the machine, but where
        debounce_us is 10 ms."""
        for more, status in (("", 1), ("debounce_us = 10000\n", 0)):
            Path("position").unlink(missing_ok=True)
            sink = self.serve()
            Path("motion.toml").write_text(Path("motion.toml").read_text() + more + "[inputs]\nemergency_stop = 0\n")
            sink.tell("switch 0 0 1 10")
            Path("out").write_text("P 1 0 0 1000\n" * 12 + "P -1 0 0 1000\n" * 24)
            done = self.run_player(*self.words())
            self.assertEqual(done.returncode, status, (more, done.stderr))
            self.assertEqual("the emergency stop is on" in done.stderr, status == 1, done.stderr)
            sink.kill()

    def test_silence(self) -> None:
        """A line that is cut: the sink comes to rest by itself; once it is heard again the record counts what it
        made."""
        sink = self.serve(HASTY_MS)
        child = self.begun(sink, "S 1 9.000000 0 0 0 0\n" + "P 1 0 0 2000\n" * 100_000)
        sink.tell("cut 700")
        sink.tell("tempo 0")
        _, said = child.communicate(timeout=PATIENCE_S)
        made = sink.end()
        count = self.check_record(made)
        self.assertIn(f"the sink heard nothing for half a second, after line {count}; spindle and coolant off\n", said)
        self.assertIn("stopped silent", record())
        self.assertEqual(made[-1].outputs[:1], (0,))

    def test_killed(self) -> None:
        """A player that is killed: the sink comes to rest by itself, and the next player counts what it made after the
        record: no pulse is made twice, and motors can follow. Where OUT is another file it says so."""
        sink = self.serve(HASTY_MS)
        self.kill(sink)
        done = self.run_player(*self.words())
        self.assertEqual(done.returncode, 0, done.stderr)
        self.assertRegex(done.stderr, "^(out: the sink made [0-9]+ lines after the record of a player that was killed:"
                                      " they are counted\n)?$")
        self.kill(sink)
        Path("out").rename("other")
        Path("out").write_text("D 1\n")
        not_known = f"{sink.path}: what the sink made after the record of its last player isn't known\n"
        done = self.run_player("--anew", *self.words())
        self.assertEqual((done.returncode, done.stderr), (2, not_known + LOST))
        self.assertIn("stopped killed", record())
        done = self.run_player("--anew", "--at", "0", "0", "0", *self.words())
        self.assertEqual((done.returncode, done.stderr), (0, not_known))
        self.assertEqual(self.run_player("--anew", *self.words()).stderr, "")
        made = [each for each in sink.end() if each.step and any(each.step)][:60_000]
        Path("out").write_text(LONG * 15)
        ticks = self.check_made(made)
        if not IS_CHIP:  # whose steps are up to a microsecond to and fro
            self.assertLess(excess(self.timed(ticks), (200_000,) * 3), 4)

    def test_killed_and_sure(self) -> None:
        """After that the sink has told where the motors are, so no person has to be asked; a player that ended by
        itself leaves that to the record."""
        sink = self.serve(HASTY_MS)
        self.kill(sink)
        words = ("--follow", "--progress", "progress", *self.words())
        child = self.begin(*words)
        self.assertTrue(self.linked().is_sure())
        child.terminate()
        child.communicate()
        self.begin(*words)
        self.assertFalse(self.linked().is_sure())

    def kill(self, sink: ServedSink) -> None:
        """Kills a player over 60,000 lines in the midst of them."""
        Path("position").unlink(missing_ok=True)
        child = self.begun(sink, LONG * 15)
        child.kill()
        child.communicate(timeout=PATIENCE_S)
        sink.tell("tempo 0")

    def test_gone(self) -> None:
        """The line is gone: it ends with status 2, and says that the motors and the outputs aren't sure."""
        sink = self.serve()
        child = self.begun(sink, "P 1 0 0 2000\n" * 100_000)
        sink.child.kill()
        _, said = child.communicate(timeout=PATIENCE_S)
        self.assertEqual(child.returncode, 2)
        self.assertRegex(said, "^out: the line to the sink is gone, after line [0-9]+: where the motors are isn't sure;"
                               " the sink doesn't say that spindle and coolant are off: switch them off by hand\n$")
        self.assertIn("stopped cut", record())
        self.check_lost(sink)

    def check_lost(self, lost: ServedSink) -> None:
        """Another player, over a sink that started anew, doesn't move before it is told where the machine stands."""
        lost.kill()
        sink = self.serve(HASTY_MS)
        before = Path("position").read_bytes()
        done = self.run_player(*self.words())
        self.assertEqual((done.returncode, done.stderr.splitlines(True)[-1]), (2, LOST))
        self.assertEqual(Path("position").read_bytes(), before)
        status, _, said = played("out", "first.toml", "position")  # without a sink it says the same
        self.assertEqual((status, said), (2, LOST))
        self.assertEqual([each for each in sink.end() if each.step], [])

    def test_reset(self) -> None:
        """The sink's chip starts again amid a move: words in its FIFO are lost, and the motors stood dead."""
        sink = self.serve(HASTY_MS)
        child = self.begun(sink, "S 1 9.000000 0 0 0 0\n" + "P 1 0 0 2000\n" * 100_000)
        sink.tell("boot 2")
        sink.tell("tempo 0")
        _, said = child.communicate(timeout=PATIENCE_S)
        self.assertRegex(said, "^out: the sink's chip started again, after line [0-9]+: where the motors are isn't"
                               " sure; spindle and coolant off\n$")
        self.assertIn("stopped reset", record())
        self.check_lost(sink)

    def test_count_gone(self) -> None:
        """The same where the chip has lost the number of its boot, too: its answers are of a session before."""
        sink = self.serve(HASTY_MS)
        child = self.begun(sink, "P 1 0 0 2000\n" * 100_000)
        sink.tell("boot 0")
        sink.tell("tempo 0")
        _, said = child.communicate(timeout=PATIENCE_S)
        self.assertIn("the sink's chip started again", said)
        self.assertIn("stopped reset", record())
        self.check_lost(sink)

    def test_power_lost(self) -> None:
        """Player and chip are gone at once: the record says that the player didn't end."""
        sink = self.serve(HASTY_MS)
        self.kill(sink)
        self.assertIn("stopped killed", record())
        self.check_lost(sink)

    def test_no_answer(self) -> None:
        """A sink that says nothing at the start."""
        sink = self.serve(0)
        sink.tell("cut 100000000")
        sink.tell(f"serve {PATIENT_MS}")
        Path("out").write_text(LONG)
        self.assertRegex(self.refused(*self.words()), "no step sink answers: is it switched on")
        self.assertFalse(Path("position").exists())


def disturbed_out(chance: random.Random) -> Iterator[str]:
    """Lines of some motions, waits and switches."""
    for _ in range(chance.randint(1, 4)):
        us, count = chance.choice((50, 51, 100, 500)), chance.choice((3, 40, 1500, 4000))
        yield from straight(chance, count, us)
        if chance.random() < 0.5:
            yield chance.choice(("D 0", "D 30000", "S 1 9.000000 0 0 0 0", "S 0 0.000000 0 0 0 0"))


class ByChance(OverSink, unittest.TestCase):
    """Whatever comes: no pulse is made twice or left out, and motors can follow all of them."""

    def play_on(self, chance: random.Random, sink: ServedSink) -> tuple[int, str]:
        """Plays until it ends, while something befalls it: its status, and what it says."""
        child = self.begin(*self.words())
        time.sleep(chance.uniform(0, 0.08))  # nothing depends on what has happened by then
        what = chance.random()
        if what < 0.3:
            sink.tell(f"cut {chance.choice((4, 15, 60, 200, 700))}")
        elif what < 0.5:
            child.send_signal(signal.SIGTERM)
        elif what < 0.6:
            child.send_signal(signal.SIGTERM)
            child.send_signal(signal.SIGINT)
        elif what < 0.7:
            child.kill()
        _, said = child.communicate(timeout=PATIENCE_S)
        return child.returncode, said

    def run_by_chance(self, seed: int) -> str:
        """A run: players that follow each other until OUT is done; what they said."""
        chance = random.Random(seed)
        Path("position").unlink(missing_ok=True)
        sink = self.serve(HASTY_MS)
        sink.tell(f"faults {seed + 1} {chance.choice((0, 0, 5, 30))}")
        Path("out").write_text("".join(f"{line}\n" for line in disturbed_out(chance)))
        status, said = self.play_on(chance, sink)
        for _ in range(30):
            if status == 0:
                break
            status, more = self.play_on(chance, sink)
            said += more
        self.assertEqual(status, 0, said)
        made = sink.end()
        self.assertEqual(self.check_record(made), len(self.out()), said)
        ticks = self.check_made(made)
        if not IS_CHIP:  # whose steps are up to a microsecond to and fro
            self.assertLess(excess(self.timed(ticks), (200_000,) * 3), 4, said)
        return said

    def test_by_chance(self) -> None:
        """Frames are lost, damaged and doubled, the line is cut, the player is stopped, and starts again."""
        said = ""
        for seed in range(RUNS):
            with self.subTest(seed):
                said += self.run_by_chance(seed)
        self.assertIn("stopped after line", said)


class SanitizedByChance(Sanitized, ByChance):
    """The same under the compiler's sanitizers."""

    def test_by_chance(self) -> None:
        """A few runs."""
        for seed in range(100, 104):
            with self.subTest(seed):
                self.run_by_chance(seed)


if __name__ == "__main__":
    unittest.main()
