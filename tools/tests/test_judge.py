"""Whether motors can follow the pacer's times, by a judge that knows docs/MOTION.md and no pacer; and what it refuses.

Over 10,000 streams by chance, of 11,865,211 lines, in 55 s of a processor; and over 2,400 with a rotor, in 50 s:

    cd tools && NGC_STREAMS=10000 python3 -m unittest tests.test_judge.ByChance
    cd tools && NGC_ROTORS=2400 python3 -m unittest tests.test_judge.Rotor.test_by_chance
"""
import math
import os
import subprocess
import sys
import unittest
from collections.abc import Iterable
from dataclasses import replace
from itertools import accumulate
from pathlib import Path

sys.path.insert(0, str(Path(__file__).resolve().parent))

from pace_support import (PROGRAMS, PULSES, Limits, as_out_says, judgement, lost_steps, metered,
                          paced_in_c, timed, with_pacer)
from session_support import FIRST, TOOLS, InFolder, ngc

STEPS_MM = 320  # 3,125 nm: an eighth of a full step over a screw of 5 mm
SETTINGS = (FIRST.replace("[1000, 1000, 1000]", "[3125, 3125, 3125]").replace("6000000000", "3000000000")
            .replace("period_us = 50", "period_us = 20"))
STOP = "D 0"
STREAMS = int(os.environ.get("NGC_STREAMS", "400"))
ROTORS = int(os.environ.get("NGC_ROTORS", "60"))
ACCEL_MM_S2 = 800  # of the rotor, by the rules
OWN_NS = list(map(int, (TOOLS / "tests" / "own_times.txt").read_text().split()))
"""How long lines of 100 and 20 us by turns once lasted, at 500 mm/s2: from the 313th on it was their own time, though
10,000 pulses a second were planned."""


def limits(accel_mm_s2: int, rate_mm_min: int = 3000) -> Limits:
    """Those of three axes, in steps."""
    return Limits((accel_mm_s2 * STEPS_MM,) * 3, (rate_mm_min * STEPS_MM // 60,) * 3)


def alternating() -> list[str]:
    """Lines 100 and 20 us apart by turns."""
    return [f"P 1 0 0 {us}" for us in (100, 20) * 4000] + [STOP]


def shuttle() -> list[str]:
    """There and back at 3,000 mm a minute, ever farther."""
    return [f"P {sign} 0 0 63" for size in range(1, 36) for sign in (1, -1) for _ in range(size * size)] + [STOP]


def in_c(motors: Limits, lines: list[str]) -> str:
    """The lines at the times of the pacer of tools/player."""
    return "".join(timed(lines, map(int, paced_in_c(motors, metered(lines, 2000)))))


def due_ns(moments: list[float]) -> list[int]:
    """When lines are due whose times are those between these moments, rounded up."""
    lasting = (math.ceil((after - at) * 1e9 - 1e-6) for at, after in zip(moments, moments[1:]))
    return list(accumulate(lasting, initial=0))


def raw(lines: list[str]) -> str:
    """The lines at the times of OUT."""
    return "".join(timed(lines, as_out_says(lines)))


class OfPrograms(InFolder):
    """Over what `ngc` hands out, and streams that no program makes."""

    known: dict[str, list[str]] = {}

    def setUp(self) -> None:
        """Settings with steps of 3,125 nm."""
        super().setUp()
        Path("first.toml").write_text(SETTINGS)

    def handed_out(self, program: str) -> list[str]:
        """The lines of OUT of a program, from a fresh device."""
        for path in ("mill.dev", "out"):
            Path(path).unlink(missing_ok=True)
        self.device()
        program = f"G17 G21 G90 G94\nG1 F3000 X0\n{program}M2\n"
        self.run_ngc(f"load {len(program.encode())}\n{program}start\n" + "tick 1000000\ncontinue\n" * 3)
        return [*Path("out").read_text().splitlines(), STOP]

    def streams(self) -> Iterable[tuple[str, list[str]]]:
        """All by their names."""
        yield "alternating", alternating()
        yield "shuttle", shuttle()
        for name, program in (PULSES | PROGRAMS).items():
            self.known[name] = self.known.get(name) or self.handed_out(program())
            yield name, self.known[name]

    def by_ngc(self, lines: list[str], motors: Limits) -> str:
        """The lines at the times of `ngc pace`."""
        accel, rate = motors.accel[0] // STEPS_MM, motors.rate[0] * 60 // STEPS_MM
        Path("motion.toml").write_text(f"[motion]\naccel_mm_s2 = {[accel] * 3}\nrate_mm_min = {[rate] * 3}\n")
        text = "".join(f"{line}\n" for line in lines)
        words = [ngc(), "pace", "first.toml", "motion.toml"]
        return subprocess.run(words, input=text, capture_output=True, text=True, check=True).stdout


class Judged(OfPrograms):
    """What the judge says."""

    def test_right(self) -> None:
        """Motors can follow the times of tools/player, which knows 2,000 lines, and of `ngc pace`."""
        for name, lines in self.streams():
            with self.subTest(name):
                self.assertGreater(len(lines), 2000)
                self.assertEqual(judgement(limits(500), lines, in_c(limits(500), lines)), "")
                self.assertEqual(judgement(limits(500), lines, self.by_ngc(lines, limits(500))), "")

    def test_raw(self) -> None:
        """None follows OUT's own times."""
        for name, lines in self.streams():
            with self.subTest(name):
                self.assertNotEqual(judgement(limits(500), lines, raw(lines)), "")

    def test_own_times(self) -> None:
        """Nor a line's own time between lines of a slower rate, as an older pacer gave it."""
        self.assertEqual(len(OWN_NS), 320)
        lines = alternating()[:320] + [STOP]
        said = judgement(replace(limits(500), rate=(0, 0, 0)), lines, "".join(timed(lines, [*OWN_NS, 0])))
        self.assertIn("line 314: along a chord its rates differ by more than the acceleration", said)


class Refused(InFolder):
    """Motions by hand: what is right, and what is just wrong."""

    accel, rate = 160_000, 16_000

    def ramp(self, pulses: int, accel: float) -> list[float]:
        """When each pulse of a motion is due that begins half a step before the first: x = a t^2 / 2."""
        return [math.sqrt((2 * k + 1) / accel) - math.sqrt(1 / accel) for k in range(pulses)]

    def there(self, accel: float, ramp: int = 500, full: int = 200) -> list[float]:
        """The moments of a ramp up, of pulses at the rate reached, and of a ramp down; at last that of a rest."""
        up = self.ramp(ramp, accel)
        rate = math.sqrt((2 * ramp - 1) * accel)
        even = [up[-1] + k / rate for k in range(1, full + 1)]
        down = [even[-1] + up[-1] - at for at in reversed(up)][1:]
        return [*up, *even, *down, even[-1] + up[-1] + 2 / math.sqrt(accel)]

    def said(self, moments: list[float], step: str = "1 0 0", us: int = 1, **changed: object) -> str:
        """What the judge says of steps at these moments, the last of which is a line that stands."""
        lines = [f"P {step} {us}"] * (len(moments) - 1) + [STOP]
        due = "".join(f"{at} {line}\n" for at, line in zip(due_ns(moments), lines))
        return judgement(replace(Limits((self.accel,) * 3, (self.rate,) * 3), **changed), lines, due)

    def test_ramps(self) -> None:
        """A ramp at the motors' acceleration is right, and at a thousandth more it isn't: from rest, or to it."""
        right, steep = self.there(self.accel), self.there(self.accel * 1.001)
        self.assertEqual(self.said(right), "")
        self.assertIn("line 2: along a chord its rates differ by more", self.said(steep))
        half = [*right[:600], *(right[599] + at - steep[599] for at in steep[600:])]
        self.assertRegex(self.said(half), "line ([6-9]|1[01])[0-9]{2}: along a chord")

    def test_rate(self) -> None:
        """12,642.8 steps a second are reached."""
        self.assertEqual(self.said(self.there(self.accel), rate=(12_643, 0, 0)), "")
        self.assertIn("above its rate", self.said(self.there(self.accel), rate=(12_642, 0, 0)))

    def test_periods(self) -> None:
        """No line is sooner than OUT says: at 12,643 pulses a second they last 79.1 us."""
        self.assertEqual(self.said(self.there(self.accel), us=79), "")
        self.assertIn("sooner over than OUT says", self.said(self.there(self.accel), us=80))
        self.assertEqual(self.said(self.there(self.accel), us=118, most_percent=150), "")

    def test_from_rest(self) -> None:
        """A motor begins half a step from its first pulse at most, or at its start rate; and so it ends."""
        right = self.there(self.accel)
        for cut, said in ((right[1:], "from rest"), ([*right[:-2], right[-1]], "come to rest")):
            self.assertIn(said, self.said(cut))
            self.assertEqual(self.said(cut, start=(1000, 0, 0)), "")
        self.assertIn("isn't given the time", self.said([*right[:-1], right[-2] + 1e-4]))

    def test_rest(self) -> None:
        """It stands before a dwell and a switch."""
        moments = due_ns(self.there(self.accel))
        for stop in "D 1000", "S 1 0.000000 0 0 0 0":
            lines = ["P 1 0 0 1"] * (len(moments) - 1) + [STOP]
            lines[600] = stop
            due = moments[:601] + [at + 1_000_000 for at in moments[601:]]
            text = "".join(f"{at} {line}\n" for at, line in zip(due, lines))
            said = judgement(Limits((self.accel,) * 3), lines, text)
            self.assertIn("line 600: it doesn't come to rest in time", said)

    def test_corners(self) -> None:
        """A right angle is turned at sqrt(8 a slack) steps a second at most, or half a step more; not at full rate."""
        for ramp, allowed in ((4, ""), (500, "no motor follows X within its acceleration")):
            moments = self.there(self.accel, ramp, 2)
            half = len(moments) // 2
            lines = ["P 1 0 0 1"] * half + ["P 0 1 0 1"] * (len(moments) - 1 - half) + [STOP]
            due = "".join(f"{at} {line}\n" for at, line in zip(due_ns(moments), lines))
            self.assertIn(allowed, said := judgement(Limits((self.accel,) * 3), lines, due))
            self.assertEqual(bool(said), bool(allowed))

    def test_order(self) -> None:
        """Each line once, in its order, none before another."""
        lines = [f"P 1 0 0 {50 + k}" for k in range(9)] + [STOP]
        right = list(timed(lines, [10_000_000] * 10))
        for due, said in ((right[:4] + right[5:], "line 5: it isn't the next line of OUT"),
                          (right[:4] + right[3:], "line 5: it isn't the next line of OUT"),
                          (right + right[-1:], "line 11: OUT has no such line"),
                          (right[:-1], "line 10: it isn't the next line of OUT"),
                          (right[:3] + [f"1 {lines[3]}\n"] + right[4:], "line 4: it is due before the one before")):
            self.assertIn(said, judgement(Limits((self.accel,) * 3), lines, "".join(due)))


class ByChance(unittest.TestCase):
    """Of tools/player, over streams by chance with motors by chance, held, slowed down and starved."""

    def judged(self, count: int, percent: int) -> tuple[int, int, str]:
        """How many of so many streams are right, where the judge is told of so much of the motors' acceleration; how
        many lines there are; and what is said."""
        program = with_pacer("judge_chance.c", "-O2",
                             beside=("chance_paced.c", "chance_streams.c", "judge_rates.c", "judge_motion.c"))
        done = subprocess.run([program, "1", str(count), str(percent)], capture_output=True, text=True, check=True)
        right, lines = map(int, done.stdout.splitlines()[-1].split())
        return right, lines, done.stdout

    def test_right(self) -> None:
        """The judge finds nothing."""
        right, lines, said = self.judged(STREAMS, 100)
        self.assertEqual(right, STREAMS, said)
        self.assertGreater(lines, 1000 * STREAMS)

    def test_wrong(self) -> None:
        """For motors of a hundredth less acceleration it refuses the same times of most streams."""
        self.assertLess(self.judged(100, 99)[0], 40)


class Rotor(OfPrograms):
    """A model of a NEMA 23 (rotor.c) at the figures that docs/MOTION.md's rules give for it."""

    def loses(self, accel_mm_s2: int, rate_mm_min: int, mm: int) -> bool:
        """Whether it loses steps over a traverse there and back."""
        us = math.ceil(6e7 / (rate_mm_min * STEPS_MM))
        lines = [f"P {sign} 0 0 {us}" for sign in (1, -1) for _ in range(mm * STEPS_MM)] + [STOP]
        return lost_steps(self.by_ngc(lines, limits(accel_mm_s2, rate_mm_min)))[0] > 0

    def figures(self) -> Limits:
        """Half of what went well last, each: first the acceleration, doubled from 100 mm/s2 at 3,000 mm a minute; then
        the rate at it."""
        accel, rate = 100, 750
        while not self.loses(2 * accel, 3000, 40):
            accel *= 2
        while not self.loses(accel // 2, 2 * rate, 120):
            rate *= 2
        return limits(accel // 2, rate // 2)

    def test_streams(self) -> None:
        """With ramps it loses no step; at OUT's own times it does, of each."""
        motors = self.figures()
        self.assertEqual(motors, limits(ACCEL_MM_S2))
        for name, lines in self.streams():
            with self.subTest(name):
                self.assertEqual(lost_steps(in_c(motors, lines)), [0, 0, 0])
                self.assertGreater(max(lost_steps(raw(lines))), 0)

    def test_by_chance(self) -> None:
        """Nor of streams by chance, held, slowed down and starved."""
        program = with_pacer("rotor_chance.c", "-O2", beside=("chance_paced.c", "chance_streams.c", "rotor.c"))
        words = [program, "1", str(ROTORS), str(ACCEL_MM_S2 * STEPS_MM), str(3000 * STEPS_MM // 60)]
        done = subprocess.run(words, capture_output=True, text=True, check=True)
        lost, raw, lines, _ = map(int, done.stdout.split())
        self.assertEqual(lost, 0)
        self.assertGreater(raw, ROTORS // 3)
        self.assertGreater(lines, 1000 * ROTORS)

    def test_own_times(self) -> None:
        """An older pacer's times of lines 100 and 20 us apart lose it."""
        times = OWN_NS + OWN_NS[-2:] * 400
        due = "".join(f"{at} P 1 0 0 1\n" for at in accumulate(times, initial=0))
        self.assertGreater(lost_steps(due)[0], 0)


if __name__ == "__main__":
    unittest.main()
