#!/usr/bin/env python3
"""Ramps: how fast the pacer of tools/player and `ngc pace` go, how long jobs take with ramps, and how many lines have
to be in hand for it.

usage, at the top of the repository: bench/ramps.py [--ngc PATH] [--rounds N]

The machine has 400 steps a millimetre, 500 mm/s2 and at most 3,000 mm a minute, with a slack of 2 steps. The jobs are
the examples and four streams: full circles of 0.2 to 50 mm, 1,500 short lines in space, 2,400 of 0.05 mm with a noise
of 2 um, and 120 corners of 90 degrees with a helix; all at F3000. `ngc run` hands them out into a file.

- Throughput is lines by seconds of processor, the best of N rounds (3): of bench/ramps.c, which reads the text of OUT
  and paces it by tools/player's pacer, and of `ngc pace --total`.
- Times are those of OUT, those with ramps, and a bound below which none can be: OUT's, and at each rest, at the ends
  and at waits and switches, what a ramp at that acceleration takes beyond it, v / 2a. It counts no corner.
- Lines in hand are those that were handed out and aren't carried out: with 2,000, and with as many as tools/player
  wants. Ticks are given as ngc-operate gives them, where a sixteenth is free, and at once.
- Lines lost are those that no motor ever carries out where power is lost, over a pipe: those in hand before the segment
  with which the next session goes on. A session of a tick and a status at a time tells that one after each tick. Both
  are of all moments of the job, weighted by time.
- A line of 100 mm is paced with other numbers of lines in hand.

It builds ngc by rt if that is needed and no PATH is given."""
import argparse
import itertools
import math
import os
import random
import resource
import struct
import subprocess
import sys
import tempfile
from pathlib import Path

HERE = Path(__file__).resolve().parent.parent
SETTINGS = """step_nm = [2500, 2500, 2500]
low_nm = [-1000000000, -1000000000, -1000000000]
high_nm = [1000000000, 1000000000, 1000000000]
traverse_nm_per_min = 3000000000
period_us = 50
tools_nm = [50000000, 62500000, 0]
"""
MACHINE = "[motion]\naccel_mm_s2 = [500, 500, 500]\n"
ACCEL = 200_000  # steps a second, each second
FASTEST = 20_000  # steps a second
FIXED = 2000  # lines
RADII_MM = (0.2, 0.5, 1, 2, 5, 10, 50)
HEAD = "G17 G21 G90 G94\nF3000\nG0 X0 Y0\n"


def circles():
    """Full turns in both directions, with a line between two."""
    return "".join(f"G0 X{r + 1} Y0\nG1 X{r}\nG2 X{r} Y0 I{-r} J0\nG3 X{r} Y0 I{-r} J0\n" for r in RADII_MM)


def short():
    """A rose of lines of 0.05 to 0.4 mm, in space."""
    turns = (2 * math.pi * k / 1500 for k in range(1, 1501))
    sizes = ((t, 20 + 10 * math.cos(5 * t)) for t in turns)
    return "".join(f"G1 X{r * math.cos(t):.4f} Y{r * math.sin(t):.4f} Z{-1 - math.sin(7 * t):.4f}\n" for t, r in sizes)


def tiny():
    """Two rows of lines of 0.05 mm over a wave, as a scan gives them."""
    chance, lines = random.Random(1), []
    for row, k in itertools.product(range(2), range(1, 1200)):
        x = k * 0.05 if row == 0 else 60 - k * 0.05
        lines.append(f"G1 X{x:.4f} Y{row * 0.5} Z{-2 + 1.5 * math.sin(x / 3) + chance.uniform(-.002, .002):.4f}\n")
    return "".join(lines)


def zigzag():
    """Corners 0.1 to 1.9 mm apart, and a helix."""
    places = list(itertools.accumulate(0.1 + 0.03 * k for k in range(60)))
    end = places[-1]
    corners = "".join(f"G1 X{at:.4f}\nG1 Y{at:.4f}\n" for at in places)
    return f"{corners}G1 X{end + 1:.4f}\nG2 X{end + 1:.4f} Y{end:.4f} Z-10 I-8 J0\nG1 X0 Y0\n"


def jobs():
    """The name and the text of each."""
    for path in sorted((HERE / "examples").glob("*.ngc")):
        yield path.stem, path.read_text()
    for make in (circles, short, tiny, zigzag):
        yield make.__name__, f"{HEAD}{make()}M2\n"


def made_by_ticks(replies):
    """Of each tick of a session of a tick and a status at a time: how many lines stand in OUT after it, and the number
    of the one, from 0, with which a session goes on after a loss of power: the first of the open segment, or the next
    one where none is open. A tick that leaves a segment open hands out a line of it."""
    lines = begins = 0
    segment = None
    for reply in replies:
        words = reply.split()
        if words[0] != "status":
            continue
        place, before, segment = words[4], segment, None
        if words[-3] == "program":
            segment = place, words[-2]
        is_line = segment is not None and segment == before
        lines += is_line
        begins = begins if is_line else lines
        yield lines, begins


class Bench:
    """What is run in a folder."""

    def __init__(self, ngc, folder):
        self.ngc, self.folder = ngc, Path(folder)
        (self.folder / "mill.toml").write_text(SETTINGS)
        (self.folder / "machine.toml").write_text(MACHINE)

    def build(self):
        """Builds bench/ramps.c, with the pacer of tools/player; what is paced by it needs that."""
        player = HERE / "tools" / "player"
        subprocess.run(["make", "-s", "-C", player, "archives"], check=True, stdout=sys.stderr)
        names = ("motion/pace", "motion/pace_memory", "motion/window", "source/line", "files/cause", "files/utf8")
        sources = [*(player / f"{name}.c" for name in names), *player.glob("out/lib*.a")]
        folders = [f"-I{player / name}" for name in ("motion", "source", "files")]
        subprocess.run(["cc", "-std=c11", "-O2", HERE / "bench" / "ramps.c", *sources, *folders, "-o",
                        self.folder / "ramps"], check=True)

    def run(self, program, ticks, out, said):
        """Does a program over a new device, by these commands behind `start`; what is answered goes to a file."""
        device = self.folder / "mill.dev"
        out.unlink(missing_ok=True)
        device.unlink(missing_ok=True)
        subprocess.run([self.ngc, "format", device], check=True)
        commands = f"tool 1 50\ntool 2 62.5\ntool 3 0\nload {len(program.encode())}\n{program}start\n{ticks}"
        words = [self.ngc, "run", device, self.folder / "mill.toml", out]
        with open(said, "w") as file:
            subprocess.run(words, input=commands, stdout=file, text=True)

    def hand_out(self, program):
        """Makes a new OUT of a program; returns its path, and the number of ticks that it took."""
        out, said = self.folder / "out", self.folder / "said"
        self.run(program, ("tick 1000000\n" * 3 + "continue\n") * 3, out, said)
        replies = said.read_text().splitlines()
        if "idle" not in replies:
            sys.exit(f"ngc run doesn't come to the end: {replies[-3:]}")
        return out, sum(int(reply[6:]) for reply in replies if reply.startswith("ticks "))

    def ticks(self, program, count, lines):
        """Does a program a tick at a time, and writes what each of so many ticks made, for bench/ramps.c; returns the
        file's path. OUT has to have so many lines then."""
        made, said = self.folder / "ticks", self.folder / "said"
        self.run(program, "tick 1\nstatus\n" * count, self.folder / "again", said)
        with open(made, "wb") as file, open(said) as replies:
            last = (0, 0)
            for last in made_by_ticks(replies):
                file.write(struct.pack("=II", *last))
        if last[0] != lines:
            sys.exit(f"by the status {last[0]} lines were handed out, and OUT has {lines}")
        return made

    def paced(self, out, hand="-", *ticks):
        """What bench/ramps.c prints."""
        words = [self.folder / "ramps", out, str(ACCEL), str(hand), *ticks]
        return list(map(int, subprocess.run(words, capture_output=True, text=True, check=True).stdout.split()))

    def seconds_of_ngc(self, out):
        """What `ngc pace --total` takes of the processor, in seconds."""
        before = resource.getrusage(resource.RUSAGE_CHILDREN)
        with open(out) as lines:
            words = [self.ngc, "pace", self.folder / "mill.toml", self.folder / "machine.toml", "--total"]
            subprocess.run(words, stdin=lines, stdout=subprocess.DEVNULL, check=True)
        after = resource.getrusage(resource.RUSAGE_CHILDREN)
        return after.ru_utime + after.ru_stime - before.ru_utime - before.ru_stime


def bound_ns(out):
    """OUT's time, and at each rest what a ramp from or to the rate of the next pulse takes beyond it, at least."""
    total, before_us = 0.0, 0  # the period of the pulse before; 0 at rest
    with open(out) as lines:
        for line in lines:
            us = 0 if line[0] == "S" else int(line.split()[-1])
            total += us * 1000
            moves_us = us if line[0] == "P" else 0
            if bool(before_us) != bool(moves_us):
                total += 1e9 * min(1e6 / (before_us or moves_us), FASTEST) / (2 * ACCEL)
            before_us = moves_us
    return total + (1e9 * 1e6 / before_us / (2 * ACCEL) if before_us else 0)


def show_windows(bench):
    """A line with few lines in hand and with many."""
    print("\nlines in hand  line of 100 mm, seconds")
    program = f"{HEAD}G1 X100\nM2\n"
    out, count = bench.hand_out(program)
    ticks = bench.ticks(program, count, bench.paced(out)[0])
    for hand in (50, 100, 200, 400, 800, 1200, 1600, FIXED):
        print(f"{hand:13,} {bench.paced(out, hand, ticks)[2] / 1e9:10.3f}")


def show(bench, name, program, rounds):
    """A job's row, and that of its lines in hand and lost."""
    out, count = bench.hand_out(program)
    lines, out_ns, paced_ns = bench.paced(out)[:3]
    best = min(bench.paced(out)[3] for _ in range(rounds)) / 1e9
    best_ngc = min(bench.seconds_of_ngc(out) for _ in range(rounds))
    print(f"{name:11} {lines:9,} {lines / best / 1e6:6.1f} {lines / best_ngc / 1e6:6.1f}  {out_ns / 1e9:8.3f}"
          f" {bound_ns(out) / 1e9:8.3f} {paced_ns / 1e9:8.3f} {paced_ns / out_ns:6.3f}", flush=True)
    ticks = bench.ticks(program, count, lines)
    for hand in (FIXED, 0):
        _, _, paced_ns, _, *counts, thousandths = bench.paced(out, hand, ticks)
        print(f"{f'  {hand:,} in hand' if hand else '  as wanted':34} {paced_ns / 1e9:8.3f}"
              f" {''.join(f'{count:7,}' for count in counts)}  {thousandths / 10:5.1f} %", flush=True)


def main():
    """Runs it by words."""
    parser = argparse.ArgumentParser(description=__doc__, formatter_class=argparse.RawDescriptionHelpFormatter)
    parser.add_argument("--ngc", help="the program, if it isn't crates/ngc/out/ngc, built by rt")
    parser.add_argument("--rounds", type=int, default=3)
    given = parser.parse_args()
    ngc = given.ngc or str(HERE / "crates/ngc/out/ngc")
    if not given.ngc:
        dry = ["rt", "run", "--", "dry", HERE / "examples/first.ngc"]
        subprocess.run(dry, cwd=HERE / "crates/ngc", stdout=subprocess.DEVNULL, stderr=subprocess.DEVNULL)
    print(f"load {os.getloadavg()[0]:.1f}")
    print("            lines   M lines a second   seconds                      factor")
    print("job                      C    ngc       OUT    bound    ramps")
    print("  seconds; lines in hand: least, median, 99 %, most; lines lost: the same, and in how much of the time any")
    with tempfile.TemporaryDirectory(prefix="ngc-ramps-") as folder:
        bench = Bench(ngc, folder)
        bench.build()
        for name, program in jobs():
            show(bench, name, program, given.rounds)
        show_windows(bench)
    print(f"load {os.getloadavg()[0]:.1f}")
    return 0


if __name__ == "__main__":
    sys.exit(main())
