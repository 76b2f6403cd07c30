"""Power is lost in jobs by chance, and what the motors made is judged (power.py); and the judge finds planted faults.

NGC_POWER_S says for how many seconds jobs are tried in all (default 30)."""
import os
import random
import sys
import tempfile
import unittest
from pathlib import Path
from types import SimpleNamespace
from unittest.mock import patch

sys.path.insert(0, str(Path(__file__).resolve().parent))

import power
from power_axes import HOME, Screws
from power_chain import Chain, Plan
from power_disk import CUT, ENTRY, HEAD, SYNC, WRITE, Call, left_of, mark_lasting, read_log
from power_path import Ledger, Legs, Uncut, Wrong, memory, run_uncut
from power_person import Person
from power_shop import Lost
from session_support import FIRST, ngc

SECONDS = float(os.environ.get("NGC_POWER_S", "30"))


class Judge(unittest.TestCase):
    """The judge's own model, by hand."""

    def ledger(self) -> Ledger:
        """Three steps of X, a wait, and one down, with the spindle on."""
        uncut = Uncut()
        for line in (b"S 1 900.000000 0 0 0 0", *[b"P 1 0 0 50"] * 3, b"D 9", b"P 0 0 -1 50"):
            uncut.take(line)
        return Ledger(uncut, outputs=uncut.last)

    def test_path(self) -> None:
        """On along it and back; what is made elsewhere, with the spindle off, or left out is wrong."""
        ledger = self.ledger()
        ledger.goes(ledger.uncut.moves[:4], 4)
        ledger.goes([b"P -1 0 0 50"], 2)
        self.assertEqual((ledger.on, ledger.made, ledger.steps, ledger.back), (2, 4, (2, 0, 0), 1))
        self.assertRaisesRegex(Wrong, "is at its end", ledger.goes, [b"P -1 0 0 50"], 2)
        for change, why in (({"on": 3}, "is made at"), ({"steps": (1, 0, 0)}, "and begins at"),
                            ({"outputs": ("0", "0", "0", "0")}, "is made with"), ({"made": 1}, "never made")):
            wrong = self.ledger()
            wrong.__dict__.update({"on": 2, "made": 2, "steps": (2, 0, 0)} | change)
            self.assertRaisesRegex(Wrong, why, wrong.cut, b"P 1 0 0 50")

    def test_legs(self) -> None:
        """Up, over, down, and on along the path."""
        ledger = self.ledger()
        ledger.steps, ledger.on, ledger.legs = (0, 1, 0), None, Legs(2, 2, (2, 0, 0))
        ledger.made = 2
        over = [b"P 1 -1 0 50", b"P 1 0 0 50"]
        self.assertRaisesRegex(Wrong, "where legs lead up", ledger.goes, over, 3)
        ledger.goes([b"P 0 0 1 50"] * 2 + over + [b"P 0 0 -1 50"] * 2 + [b"P 1 0 0 50"], 3)
        self.assertEqual((ledger.on, ledger.made, ledger.steps), (3, 3, (3, 0, 0)))

    def test_screws(self) -> None:
        """Two steps of backlash: a screw of which nothing is known takes the table along, and after each turn two steps
        don't, also where they are taken back amid that."""
        up, down = b"P 1 0 0 50", b"P -1 0 0 50"
        for lines, made in (([up, up], [up, up]), ([up, down, down, down], [up, down]),
                            ([down, up, down, down], [down, down]), ([b"S 0 0.000000 0 0 0 0"], None)):
            self.assertEqual(Screws((2, 0, 0)).table(lines), lines if made is None else made)
        known = Screws((2, 0, 4))
        known.up = known.told("1 + -")
        self.assertEqual(known.up, [1, 0, 4])
        self.assertEqual(known.table([b"P 1 1 -1 50", up]), [b"P 0 1 -1 50", up])

    def test_twice_at_one_place(self) -> None:
        """The path comes twice to one place, and the record is of the first time there: with a yes what lies between is
        made once more. A record of what isn't made yet, and one that is trusted, move nothing."""
        up, down, wait, over = b"P 0 0 1 50", b"P 0 0 -1 50", b"D 9", b"P 1 0 0 50"
        said = "By the record the motors stand at X 0.000000 Y 0.000000 Z 0.000000, behind line"
        with tempfile.TemporaryDirectory(dir=memory()) as name:
            folder = Path(name)
            for moves, on, kept, trusts in (([up, down, over], 2, 0, False), ([wait, wait, over], 1, 0, False),
                                            ([up, down, over], 0, 2, False), ([up, down, over], 2, 0, True)):
                ledger = Ledger(Uncut(), on=on, made=on)
                for line in moves:
                    ledger.uncut.take(line)
                (folder / "out").write_bytes(b"".join(line + b"\n" for line in moves))
                (folder / "position").write_text(f"lines {kept}\n")
                person = Person(SimpleNamespace(folder=folder), power.Job(b"", ledger.uncut), ledger, Screws(),
                                random.Random(1), trusts, False)
                self.assertEqual(person.stands(said), "yes")
                if trusts or kept > on:
                    self.assertRaises(Wrong, ledger.goes, moves[kept:], 3)
                    continue
                ledger.goes(moves[kept:], 3)
                self.assertEqual((ledger.on, ledger.made, ledger.again), (3, 3, on))

    def test_typed(self) -> None:
        """No jog at a stop, up to 100 steps along X, cut or whole, comes to where the line leads that is typed there."""
        for seed in range(300):
            chance = random.Random(seed)
            text, typed = power.program(chance, chance.randint(3, 14), False)
            x, lines = 0, iter(typed)
            for line in text.decode().splitlines():
                x = next((round(float(word[1:]) * 1000) for word in line.split() if word[0] == "X"), x)
                if line == "M0":
                    x, stands = round(float(next(lines).decode().removeprefix("G1 X")) * 1000), x
                    self.assertFalse(stands <= x <= stands + 100, (seed, stands, x))

    def test_disk(self) -> None:
        """What a sync that failed was to write isn't lasting, also once another one succeeds; what is behind it is. A
        part of an append is kept, a file isn't cut, or has a hole."""
        calls = [Call(WRITE, 2, b"bbbb", 4, 1, 2, False), Call(SYNC, 0, b"", 0, 3, 4, True),
                 Call(WRITE, 6, b"cccc", 4, 5, 6, False), Call(SYNC, 0, b"", 0, 7, 8, False),
                 Call(CUT, 8, b"", 0, 9, 10, False), Call(WRITE, 8, b"dddd", 4, 11, 12, False)]
        mark_lasting(calls)
        chance = random.Random(1)
        left = {keeps: {left_of(b"aa", calls, keeps, chance, True) for _ in range(200)}
                for keeps in ("all", "none", "first", "torn", "hole")}
        self.assertEqual(left["all"], {b"aabbbbccdddd"})
        self.assertEqual(left["none"], {b"aa\0\0\0\0cccc"})
        first = {b"aa\0\0\0\0cccc", b"aabbbbcccc", b"aabbbbcc", b"aabbbbccdddd"}
        self.assertEqual(left["first"], first)
        self.assertLess(first | {b"aab\0\0\0cccc", b"aabbbbccd"}, left["torn"])
        self.assertEqual(left["hole"], {head + tail for head in (b"aabbbb", b"aa\0\0\0\0") for tail in (b"ccdddd",)})

    def test_log(self) -> None:
        """A process that was killed as it had room in the log, and had told nothing yet: what others tell behind that
        counts, and the rest of the map doesn't."""
        def entry(data: bytes) -> bytes:
            """A write to OUT, as `power_disk.c` tells it."""
            size = (ENTRY.size + len(data) + 7) // 8 * 8
            return (ENTRY.pack(size, 2, 1, WRITE, 0, len(data), 1, 2) + data).ljust(size, b"\0")

        told = entry(b"one") + bytes(len(entry(b"never"))) + entry(b"two") + bytes(ENTRY.size)
        with tempfile.TemporaryDirectory(dir=memory()) as name:
            log = Path(name, "log")
            log.write_bytes(HEAD.pack(HEAD.size + len(told), *[0] * 70) + told + entry(b"behind the end"))
            self.assertEqual([[call.data for call in calls] for calls in read_log(log)], [[], [b"one", b"two"], []])


class Power(unittest.TestCase):
    """Over a file, a pipe and a step sink, with tools/player."""

    @classmethod
    def setUpClass(cls) -> None:
        """Builds what is run."""
        cls.tools = power.make_tools(ngc())
        cls.addClassCleanup(cls.tools.consoles.close)

    def test_planted(self) -> None:
        """Each planted fault is found, where the motors aren't or what isn't on, and nothing where none is planted."""
        for plant in power.PLANTS:
            found = power.try_plant(self.tools, plant, 1)
            self.assertRegex(found, "motors stand at|is made (at|with)|legs lead|is at its end|are on the disk", plant)
        self.assertEqual(power.try_plant(self.tools, "", 1), "")

    def test_lost_behind_a_jog(self) -> None:
        """At a stop somebody jogs, so that the device is told another place, and power is lost right behind that: what
        is typed at the stop is made all the same, once."""
        text, typed = b"G17 G21 G90 G94\nM3 S1000\nG1 X0.2 F1200\nM0\nG1 Y0.1\nM2\n", [b"G1 X0.105"]
        job = power.Job(text, run_uncut(ngc(), FIRST, text, typed), typed, has_ramps=True)
        lost_at, runs = [], Person.runs

        def loses(person: Person, said: str) -> str:
            """What is typed next; power is lost before the jog back, once."""
            if person.errands[:1] == ["jog X- 600 for 0.1"] and not lost_at:
                lost_at.append(person.ledger.steps)
                person.shop.kill()
                raise Lost
            return runs(person, said)

        with tempfile.TemporaryDirectory(dir=memory()) as folder, patch.object(Person, "runs", loses):
            chain = Chain(self.tools, Path(folder).resolve(), job, random.Random(1), [Plan()])
            chain.run()
        self.assertEqual((lost_at, chain.lost, chain.ledger.made), ([(300, 0, 0)], 1, len(job.uncut.moves)))

    def test_lost_behind_a_home(self) -> None:
        """Power is lost as all is handed out, and nothing is made, over a sink; the machine is homed, and power is lost
        again right behind that: legs lead back, and what is left is made."""
        text = b"G17 G21 G90 G94\nM3 S1000\nG1 X0.06 F600\nM2\n"
        job = power.Job(text, run_uncut(ngc(), FIRST, text, []), over="sink", has_ramps=True, has_home=True)
        lost_at, command, after = [], Person.command, Chain.after

        def loses(person: Person, said: str) -> str:
            """What is typed next; power is lost once it is homed."""
            typed = command(person, said)
            if "homed: X Y Z" in said:
                lost_at.append(person.ledger.steps)
                person.shop.kill()
                raise Lost
            return typed

        def homes(chain: Chain, *what: object) -> object:
            """What power left; the next session begins with a home, once."""
            measured = after(chain, *what)
            chain.homes = chain.lost == 1
            return measured

        with tempfile.TemporaryDirectory(dir=memory()) as folder, patch.object(Person, "command", loses), patch.object(
                Chain, "after", homes):
            chain = Chain(self.tools, Path(folder).resolve(), job, random.Random(1), [
                Plan(deeds="console out sync 2 kill"), Plan()])
            self.addCleanup(chain.close)
            chain.run()
        self.assertEqual((lost_at, chain.lost, chain.ledger.made), ([HOME], 2, len(job.uncut.moves)))

    def judged(self, over: str, share: float, seed: int) -> None:
        """Jobs of seeds from this one on, over a file, a pipe or a sink, for a share of the seconds."""
        found = power.tried(self.tools, power.Options(over=over, has_moments=False), seed, SECONDS * share)
        self.assertEqual((found.wrong, found.shown), ([], []))
        self.assertGreaterEqual(found.chains, 1)

    def test_file(self) -> None:
        """No line of a file is lost."""
        self.judged("file", 0.6, 1)

    def test_pipe(self) -> None:
        """Over a pipe no more than OUT is ahead."""
        self.judged("pipe", 0.2, 2)

    def test_sink(self) -> None:
        """What a sink made is known."""
        self.judged("sink", 0.2, 3)


if __name__ == "__main__":
    unittest.main()
