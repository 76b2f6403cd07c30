#!/usr/bin/env python3
"""Haste: how long ten kinds of program take by OUT, with ramps by `ngc pace`, by Grbl's planner, with a rest behind
each line, and at best: by the path alone, and by OUT's own lines along it too.

usage, at the top of the repository: bench/haste.py [--ngc PATH] [--accel MM_S2] [KIND..]

The machine has 400 steps a millimetre, at most 3,000 mm a minute and a slack of 2 steps. Its acceleration is 500 mm/s2
and then 100, or what is said. The programs are those of bench/kinds.py: all, or those of these names.

- OUT and pace are of what `ngc run` hands out.
- Grbl's are computed by its published rule (planner.c and motion_control.c of version 1.1): a junction deviation of
  0.01 mm, an arc tolerance of 0.002 mm, and a trapezoid for each line, as if it looked at all lines ahead.
- Exact stop is at rest behind each line of the program, and behind each arc.
- Ideal is the best time along the smooth path: lines, circles and the curves that the program has as short lines. Each
  axis has that acceleration, and may change its rate at a corner by what the slack allows (bench/ideal.c).
- Bound is the ideal where no stretch of the path is sooner than OUT's own pulses of it: so long `ngc pace` promises to
  take. The factor is pace by the bound.

It builds ngc by rt if that is needed and no PATH is given."""
import argparse
import math
import subprocess
import sys
import tempfile
from pathlib import Path

from kinds import Arc, Line, programs
from ramps import HERE, Bench

STEPS = 400  # a millimetre
RATE = 50.0  # mm a second, of each axis
DEVIATION = 0.01  # mm, of Grbl's junctions
SLACK = 0.005  # mm: two steps
CORNER = math.cos(math.radians(2))  # of two pieces whose directions differ by more


def direction(begin, end):
    """From one point to another, of length 1; and how far that is."""
    far = math.dist(begin, end)
    return tuple((b - a) / far for a, b in zip(begin, end)), far


def along(most, unit):
    """The most along a direction, of which each axis has so much."""
    return min(most / abs(part) for part in unit if part)


def trapezoid(length, begin, end, most, accel):
    """Seconds of a line, from a rate to another, by way of no more than a third."""
    top = min(most**2, accel * length + (begin**2 + end**2) / 2)
    rate = math.sqrt(top)
    ramps = (2 * top - begin**2 - end**2) / (2 * accel)
    return (2 * rate - begin - end) / accel + max(0.0, length - ramps) / rate


def junction(before, unit, accel):
    """The square of the greatest rate between two directions, by Grbl's rule."""
    cosine = -sum(a * b for a, b in zip(before, unit))
    if cosine > 0.999999:
        return 0.0
    if cosine < -0.999999:
        return math.inf
    turn = direction(before, unit)[0]
    half = math.sqrt((1 - cosine) / 2)
    return along(accel, turn) * DEVIATION * half / (1 - half)


def grbl_s(path, accel):
    """Seconds by Grbl's planner."""
    lines, place = [], (0.0, 0.0, 0.0)
    for piece in path.pieces:
        for end in piece.ends():
            unit, far = direction(place, end)
            lines.append((far, unit, min(piece.feed / 60, along(RATE, unit)), along(accel, unit)))
            place = end
    squares = [0.0, *(min(junction(one[1], other[1], accel), one[2]**2, other[2]**2)
                      for one, other in zip(lines, lines[1:])), 0.0]
    for k in range(len(lines) - 1, -1, -1):
        squares[k] = min(squares[k], squares[k + 1] + 2 * lines[k][3] * lines[k][0])
    for k, (far, _, _, most) in enumerate(lines):
        squares[k + 1] = min(squares[k + 1], squares[k] + 2 * most * far)
    rates = list(map(math.sqrt, squares))
    return sum(trapezoid(far, rates[k], rates[k + 1], most, line_accel)
               for k, (far, _, most, line_accel) in enumerate(lines))


def by_feed(path):
    """For each piece of a path the rate up to each of its points: the feed."""
    return [[piece.feed / 60] * len(piece.points()) for piece in path.pieces]


def steps_between(piece, begin, end):
    """How many pulses OUT has between two points: along an arc each steps one axis of its plane, along a line all of
    them together."""
    x, y, z = (abs(b - a) * STEPS for a, b in zip(begin, end))
    return x + y if isinstance(piece, Arc) else max(x, y, z)


def pulses_of(out):
    """For each pulse of OUT the place that it leads to, in steps, and its seconds."""
    x = y = z = 0
    with open(out) as lines:
        for line in lines:
            if line[0] == "P":
                words = line.split()
                x, y, z = x + int(words[1]), y + int(words[2]), z + int(words[3])
                yield (x, y, z), int(words[4]) / 1e6


def take_block(pulses, piece, block, place):
    """Takes the pulses of a block that begins at a place; returns where it ends, and its seconds. It is over with the
    pulse that leads to its end. A full turn begins there too, so nearly all its pulses have to be over."""
    end = tuple(round(part * STEPS) for part in block[-1])
    count = sum(steps_between(piece, *pair) for pair in zip(block, block[1:])) * 0.9 - 4
    total = 0.0
    while place != end or count > 0:
        place, seconds = next(pulses, (None, 0.0))
        if place is None:
            sys.exit("OUT ends before the path does")
        total, count = total + seconds, count - 1
    return place, total


def rates_of_block(piece, points, seconds):
    """The rate along each stretch of a block between these points, whose even pulses take so many seconds."""
    pairs = list(zip(points, points[1:]))
    steps = [steps_between(piece, *pair) for pair in pairs]
    return [math.dist(*pair) * sum(steps) / (own * seconds) for pair, own in zip(pairs, steps)]


def by_out(path, out):
    """For each piece of a path the rate up to each of its points at which OUT's own pulses come there."""
    pulses, place, begin, rates = pulses_of(out), (0, 0, 0), (0.0, 0.0, 0.0), []
    for piece in path.pieces:
        blocks, points = piece.blocks(), [begin, *piece.points()]
        each = (len(points) - 1) // len(blocks)  # stretches of a block
        rates.append([])
        for k, block in enumerate(blocks):
            place, seconds = take_block(pulses, piece, block, place)
            rates[-1] += rates_of_block(piece, points[k * each:(k + 1) * each + 1], seconds)
        begin = points[-1]
    if next(pulses, None) is not None:
        sys.exit("OUT goes on behind the path")
    return rates


def smooth(path, rates):
    """The points of a path, with the greatest rate up to each and whether it is a corner there."""
    points = [((0.0, 0.0, 0.0), 0.0, 0)]
    before = None
    for piece, own_rates in zip(path.pieces, rates):
        own = piece.points()
        first = direction(points[-1][0], own[0])[0]
        if before is not None and sum(a * b for a, b in zip(before, first)) < CORNER:
            points[-1] = (*points[-1][:2], 1)
        points += [(point, rate, 0) for point, rate in zip(own, own_rates)]
        before = direction(own[-2], own[-1])[0]
    return points


class Ideal:
    """bench/ideal.c, at an acceleration."""

    def __init__(self, folder, accel):
        self.accel, self.path = accel, Path(folder, "ideal")
        subprocess.run(["cc", "-std=c11", "-O2", HERE / "bench/ideal.c", "-o", self.path, "-lm"], check=True)

    def seconds(self, paths):
        """Of each path of points, from rest to rest."""
        lines = []
        for points in paths:
            lines += [f"{x:.9f} {y:.9f} {z:.9f} {feed} {corner}\n" for (x, y, z), feed, corner in points] + ["-\n"]
        words = [self.path, str(self.accel), str(RATE), str(SLACK)]
        done = subprocess.run(words, input="".join(lines), capture_output=True, text=True, check=True)
        return list(map(float, done.stdout.split()))

    def exact_stop_s(self, path):
        """With a rest behind each line."""
        total, arcs = 0.0, []
        for piece in path.pieces:
            for block in piece.blocks():
                if len(block) == 2 or isinstance(piece, Line):
                    unit, far = direction(block[0], block[-1])
                    most = min(piece.feed / 60, along(RATE, unit))
                    total += trapezoid(far, 0, 0, most, along(self.accel, unit))
                else:
                    arcs.append([(point, piece.feed / 60, 0) for point in block])
        return total + sum(self.seconds(arcs))


def pace_s(bench, out, accel):
    """Seconds by OUT, and by `ngc pace`."""
    machine = bench.folder / "machine.toml"
    machine.write_text(f"[motion]\naccel_mm_s2 = {[accel] * 3}\nrate_mm_min = {[3000] * 3}\n")
    with open(out) as lines:
        words = [bench.ngc, "pace", bench.folder / "mill.toml", machine, "--total"]
        done = subprocess.run(words, stdin=lines, capture_output=True, text=True, check=True)
    with open(out) as lines:
        us = sum(int(line.split()[-1]) for line in lines if line[0] != "S")
    return us / 1e6, int(done.stdout.split()[-1]) / 1e9


def show(bench, ideal, name, path):
    """A program's row."""
    out, _ = bench.hand_out(path.text())
    out_s, paced_s = pace_s(bench, out, ideal.accel)
    best_s, bound_s = ideal.seconds([smooth(path, by_feed(path)), smooth(path, by_out(path, out))])
    others = grbl_s(path, ideal.accel)
    print(f"| {name} | {out_s:.1f} | {paced_s:.1f} | {others:.1f} | {ideal.exact_stop_s(path):.1f} | {best_s:.1f} |"
          f" {bound_s:.1f} | {paced_s / others:.2f} | {paced_s / best_s:.2f} | {paced_s / bound_s:.3f} |", flush=True)


def main():
    """Runs it by words."""
    parser = argparse.ArgumentParser(description=__doc__, formatter_class=argparse.RawDescriptionHelpFormatter)
    parser.add_argument("--ngc", help="the program, if it isn't crates/ngc/out/ngc, built by rt")
    parser.add_argument("--accel", type=int, action="append", help="mm/s2, of all axes")
    parser.add_argument("kinds", nargs="*", metavar="KIND")
    given = parser.parse_args()
    ngc = given.ngc or str(HERE / "crates/ngc/out/ngc")
    if not given.ngc:
        dry = ["rt", "run", "--", "dry", HERE / "examples/first.ngc"]
        subprocess.run(dry, cwd=HERE / "crates/ngc", stdout=subprocess.DEVNULL, stderr=subprocess.DEVNULL)
    with tempfile.TemporaryDirectory(prefix="ngc-haste-") as folder:
        bench = Bench(ngc, folder)
        for accel in given.accel or (500, 100):
            ideal = Ideal(folder, accel)
            print(f"\n| {accel} mm/s2 | OUT | pace | Grbl | exact stop | ideal | bound | pace / Grbl | pace / ideal |"
                  " pace / bound |")
            print("|---|---|---|---|---|---|---|---|---|---|")
            for name, path in programs():
                if not given.kinds or name in given.kinds:
                    show(bench, ideal, name, path)
    return 0


if __name__ == "__main__":
    sys.exit(main())
