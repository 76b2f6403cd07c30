"""The pacer as tools/player links it: what it promises, and whether motors can follow."""
import math
import random
import sys
import unittest
from collections import deque
from collections.abc import Iterator
from dataclasses import replace
from pathlib import Path

sys.path.insert(0, str(Path(__file__).resolve().parent))

from pace_support import (GIVE, PROGRAMS, Limits, as_out_says, disturbed, excess, metered, paced_in_c,
                          some_limits, straight, stream, timed)
from session_support import FIRST, InFolder

FINE_LIMITS = Limits((200_000,) * 3)  # 500 mm/s2 at 400 steps/mm
MOST_EXCESS = 2 * FINE_LIMITS.slack  # the slack on each side


class OfOut(InFolder):
    """Over what `ngc` hands out."""

    def setUp(self) -> None:
        """Settings with steps of 5 um, and three tools."""
        super().setUp()
        Path("first.toml").write_text(FIRST.replace("[1000, 1000, 1000]", "[5000, 5000, 5000]"))

    def handed_out(self, program: str) -> list[str]:
        """The lines of OUT of a program, from a fresh device."""
        for path in ("mill.dev", "out"):
            Path(path).unlink(missing_ok=True)
        self.device()
        tools = "tool 1 50\ntool 2 62.5\ntool 3 0\n"
        ticks = "tick 1000000\ncontinue\n" * 3
        self.run_ngc(f"{tools}load {len(program.encode())}\n{program}start\n{ticks}")
        return Path("out").read_text().splitlines()

    def test_followed(self) -> None:
        """No line is sooner than OUT says, and motors can follow: not so without a pacer."""
        for name, program in PROGRAMS.items():
            with self.subTest(name):
                lines = self.handed_out(f"G17 G21 G90 G94\nF3000\n{program()}M2\n")
                events = list(metered(lines, 2000))
                times = paced_in_c(FINE_LIMITS, events)
                self.assertLess(excess(timed(lines, map(int, times)), FINE_LIMITS.accel), MOST_EXCESS)
                self.assertGreater(excess(timed(lines, as_out_says(lines)), FINE_LIMITS.accel), 10 * MOST_EXCESS)


class OfStreams(unittest.TestCase):
    """Over streams that no program makes."""

    def test_disturbed(self) -> None:
        """Starved, held, slowed down and ended at moments by chance it gives out each line, none sooner than OUT says
        at the most that an override may be."""
        for seed in range(60):
            chance = random.Random(seed)
            limits, events = some_limits(chance), list(disturbed(chance, stream(chance, 12)))
            lines = [event for event in events if event[0] in "PDS"]
            known, given = deque(lines), 0
            with self.subTest(seed=seed, limits=limits):
                for answer in self.given_of(events, paced_in_c(limits, events)):
                    least = int(next(as_out_says([line := known.popleft()])))
                    self.assertGreaterEqual(answer * (limits.most_percent if line[0] == "P" else 100), least * 100)
                    given += 1
                self.assertEqual(given, len(lines))

    @staticmethod
    def given_of(events: list[str], answers: list[str]) -> Iterator[int]:
        """The times of the lines that are given out."""
        asked = [event for event in events if event[0] in "NOW"]
        return (int(answer) for event, answer in zip(asked, answers, strict=True) if event != "W" and answer != "-")

    def test_refused(self) -> None:
        """Limits that the proved pacer refuses, which no machine's file gives, end the program, and it says so."""
        for why, limits in enumerate((Limits((2,) * 3), Limits((10**9 + 1,) * 3), Limits((3,) * 3, (10**9 + 1, 0, 0)),
                                      replace(FINE_LIMITS, half=0), replace(FINE_LIMITS, slack=0),
                                      replace(FINE_LIMITS, slack=1001), replace(FINE_LIMITS, most_percent=99)), 1):
            with self.assertRaisesRegex(AssertionError, f"^player: no ramps: ng_pace says {why}\n$"):
                paced_in_c(limits, ["D 0"])

    def test_trapezoid(self) -> None:
        """100 mm at 3,000 mm a minute, 400 steps a mm, 500 mm/s2: 100 / 50 s at full rate, and 50 / 500 s in ramps."""
        lines = ["P 1 0 0 50"] * 40_000
        times = list(map(int, paced_in_c(FINE_LIMITS, metered(lines, 2000))))
        self.assertAlmostEqual(sum(times) / 1e9, 2.1, delta=0.021)
        self.assertEqual(set(times[1100:-1100]), {50_000})  # a ramp is 50^2 / (2 * 500) mm: 1,000 pulses
        before = math.sqrt(2 * 0.5 / 200_000)  # a motor goes half a step before its first pulse
        self.assertAlmostEqual(sum(times[:1000]) / 1e9, 0.1 - before, delta=0.0002)

    def test_between_slower(self) -> None:
        """A quick pulse between slow ones keeps their rate: 10,000 pulses a second of 100 us and 20 us by turns."""
        limits, lines = Limits((160_000,) * 3), [f"P 1 0 0 {us}" for us in (100, 20) * 4000]
        times = paced_in_c(limits, metered(lines, 2000))
        self.assertEqual(min(map(int, times)), 100_000)
        self.assertLess(excess(timed(lines, map(int, times)), limits.accel), MOST_EXCESS)

    def test_periods_by_chance(self) -> None:
        """Motors can follow along a straight line whose pulses have any periods by turns."""
        for seed in range(40):
            chance = random.Random(seed)
            periods = chance.sample((10, 20, 33, 50, 100, 101, 400), chance.randint(2, 4))
            us = periods * 1500
            lines = [line.rpartition(" ")[0] + f" {us[k]}" for k, line in enumerate(straight(chance, len(us), 1))]
            limits = Limits((chance.choice((20_000, 160_000, 1_000_000)),) * 3)
            with self.subTest(seed=seed, periods=periods):
                times = list(map(int, paced_in_c(limits, metered(lines, 2000))))
                self.assertLess(excess(timed(lines, times), limits.accel), MOST_EXCESS)

    def test_rate(self) -> None:
        """An axis of at most 25 mm/s takes 100 / 25 s and 25 / 500 s."""
        limits = Limits(FINE_LIMITS.accel, (10_000, 0, 0))
        times = paced_in_c(limits, metered(["P 1 1 0 50"] * 40_000, 2000))
        self.assertAlmostEqual(sum(map(int, times)) / 1e9, 4.05, delta=0.0405)

    def test_reversal(self) -> None:
        """At a reversal an axis stands: both halves are trapezoids of their own."""
        lines = ["P 1 0 0 50"] * 4000 + ["P -1 0 0 50"] * 4000
        times = paced_in_c(FINE_LIMITS, metered(lines, 2000))
        self.assertAlmostEqual(sum(map(int, times)) / 1e9, 2 * 0.3, delta=0.012)

    def test_percent(self) -> None:
        """At 40 percent of 20,000 pulses a second it makes 8,000, once it is that slow."""
        events = [*["P 1 0 0 50"] * 8000, *[GIVE] * 2000, *["O 40"] * 2000]
        times = list(map(int, paced_in_c(FINE_LIMITS, events)))
        self.assertEqual(times[1500], 50_000)
        self.assertEqual(set(times[3000:]), {125_000})
        self.assertEqual(sum(ns == 50_000 for ns in times[2000:]), 0)  # from the next line on

    def test_most_percent(self) -> None:
        """At 150 percent of 20,000 pulses a second it makes 30,000, at 100 percent 20,000. A dwell isn't cut short."""
        limits = replace(FINE_LIMITS, most_percent=150)
        events = ["D 7", *["P 1 0 0 50"] * 8000, *[GIVE] * 3000, *["O 150"] * 500, *["O 100"] * 2000]
        times = paced_in_c(limits, events)
        self.assertEqual(times[0], "7000")
        self.assertEqual(set(times[2500:3500]), {"33334"})  # a ramp is 30,000^2 / 400,000 pulses
        self.assertEqual(set(times[5000:]), {"50000"})

    def test_followed_when_disturbed(self) -> None:
        """Motors can follow holds, releases and overrides in the midst of a motion, and a starved reader."""
        lines = (["P 1 0 0 50"] * 2000 + ["P 1 1 0 50"] * 2000 + ["P 0 -1 0 50"] * 1500) * 2
        events, times = [], []
        for count, line in enumerate(lines):
            events.append(line)
            if count % 3000 > 1500:
                percent = f"O {30 if count % 2000 < 700 else 100}"
                events.append("N 0" if count % 1700 < 400 else percent)
        given = len(events) - len(lines)
        for answer in paced_in_c(FINE_LIMITS, [*events, "E", *[GIVE] * len(lines)]):
            if answer != "-":
                times.append(int(answer))
            elif times and len(times) < len(lines):
                times[-1] += 50_000  # it stands meanwhile
        self.assertGreater(given, 3000)
        self.assertLess(excess(timed(lines, times), FINE_LIMITS.accel), MOST_EXCESS)

    def test_hold(self) -> None:
        """From any rate a hold comes to rest in what is known, over v^2 / 2 a, and then nothing goes on."""
        for begun in (1, 10, 300, 1500):
            lines = list(straight(random.Random(begun), 4000, 50))
            answers = paced_in_c(FINE_LIMITS, [*lines, *[GIVE] * begun, *["N 0"] * 3000, GIVE])
            held = [answer != "-" for answer in answers[begun:-1]]
            over = sum(held)
            self.assertLessEqual(over, begun + 2)
            self.assertEqual(held, [True] * over + [False] * (3000 - over))
            self.assertNotEqual(answers[-1], "-")


if __name__ == "__main__":
    unittest.main()
