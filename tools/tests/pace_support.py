"""What tests of the pacer share: programs and streams of pulses, the pacer of tools/player, and what knows no pacer: a
judge, a rotor, and a check."""
import math
import random
import subprocess
from collections.abc import Iterable, Iterator
from dataclasses import dataclass
from pathlib import Path
from tempfile import NamedTemporaryFile

from player_support import SANITIZERS, built, has_sanitizers, parts
from session_support import TOOLS

from ngc_tools.link.machine import CORNER_PULSES

GIVE = f"N {2**64 - 1}"
"""Gives out a line, where the greatest square is wanted."""


@dataclass(frozen=True, slots=True)
class Limits:
    """What motors allow, as tools/player is told it: by axes, in steps and seconds. A corner takes at most `half`
    pulses on each side."""

    accel: tuple[int, int, int]
    rate: tuple[int, int, int] = (0, 0, 0)
    start: tuple[int, int, int] = (0, 0, 0)
    half: int = CORNER_PULSES
    slack: int = 2
    most_percent: int = 100


def short_segments() -> str:
    """A rose of 0.4 mm lines, in space."""
    turns = (2 * math.pi * k / 200 for k in range(201))
    points = ((math.cos(t) * (5 + 3 * math.cos(5 * t)), math.sin(t) * (5 + 3 * math.cos(5 * t)), -math.sin(7 * t))
              for t in turns)
    return "".join(f"G1 X{x:.4f} Y{y:.4f} Z{z:.4f}\n" for x, y, z in points)


def small_circles() -> str:
    """Full turns in the three planes."""
    return "".join(f"G17 G2 X0 Y0 I{r}\nG18 G3 X0 Z0 I{r}\nG19 G2 Y0 Z0 J{r}\n" for r in ("0.2", "0.5", "1", "2"))


def zigzag() -> str:
    """Corners of 90 degrees, 0.1 to 1 mm apart, and reversals."""
    corners = ((0.1 + 0.05 * k) * (-1) ** k for k in range(20))
    return "".join(f"G91 G1 X{abs(size):.2f}\nY{size:.2f}\n" for size in corners)


def by_turns() -> str:
    """Traverses and feeds of a step of 3,125 nm each, by turns."""
    return "G91\n" + "G0X.003125\nG1F600X.003125\n" * 1500 + "G90F3000\n"


def fine_spline() -> str:
    """A wave of lines of 0.004 mm: of one or two steps of 3,125 nm, whose periods differ."""
    points = ((0.004 * k, 0.5 * math.sin(0.004 * k)) for k in range(1, 3001))
    return "".join(f"X{x:.4f}Y{y:.4f}\n" for x, y in points)


PROGRAMS = {"short segments": short_segments, "small circles": small_circles, "zigzag": zigzag}
PULSES = {"traverse and feed by turns": by_turns, "fine spline": fine_spline}


def of_tests(*names: str) -> tuple[Path, ...]:
    """Sources of this folder."""
    return tuple(TOOLS / "tests" / name for name in names)


def with_pacer(name: str, *options: str, beside: tuple[str, ...] = ()) -> str:
    """The path of a program of this folder, and of sources beside it, with the pacer of tools/player."""
    pacer = parts("pace", "pace_memory", "window", "line", "cause", "utf8")
    return built(*options, sources=(*of_tests(name, *beside), *pacer))


def paced_in_c(limits: Limits, events: Iterable[str]) -> list[str]:
    """What the pacer of tools/player answers to the events of pace_drive.c."""
    words = (*limits.accel, *limits.rate, *limits.start, limits.half, limits.slack, limits.most_percent)
    drive = with_pacer("pace_drive.c", *(SANITIZERS if has_sanitizers() else ()))
    command = [drive, *map(str, words)]
    done = subprocess.run(command, input="\n".join(events) + "\n", capture_output=True, text=True)
    if done.returncode:
        raise AssertionError(done.stderr)
    return done.stdout.split()


def metered(lines: list[str], window: int) -> Iterator[str]:
    """The events of a player that always knows so many lines, up to the end."""
    yield from lines[:window]
    for line in lines[window:]:
        yield GIVE
        yield line
    yield "E"
    yield from [GIVE] * min(window, len(lines))


def straight(chance: random.Random, count: int, us: int) -> Iterator[str]:
    """Pulses of a straight line that goes anywhere."""
    slope = [chance.uniform(-1, 1) for _ in range(3)]
    for k in range(count):
        x, y, z = (round((k + 1) * s) - round(k * s) for s in slope)
        yield f"P {x} {y} {z} {us}"


def stream(chance: random.Random, parts: int) -> Iterator[str]:
    """Straight lines, pulses by chance, waits and switches."""
    for _ in range(parts):
        us = chance.choice((1, 25, 50, 51, 1000, 20_000, 3_000_000))
        count = chance.choice((1, 2, 3, 10, 50, 300))
        style = chance.random()
        if style < 0.1:
            yield chance.choice(("D 0", "D 1000", "S 1 0.000000 0 0 0 0"))
        elif style < 0.3:
            yield from (f"P {' '.join(str(chance.randint(-1, 1)) for _ in range(3))} {us}" for _ in range(count))
        else:
            yield from straight(chance, count, us)


def disturbed(chance: random.Random, lines: Iterable[str]) -> Iterator[str]:
    """The lines, taken out as they come, with holds, overrides, ends and pauses at moments by chance."""
    for line in lines:
        yield line
        what = chance.random()
        if what < 0.9:
            yield GIVE
        elif what < 0.93:
            yield "E"
        elif what < 0.95:
            yield from [GIVE] * 20
        yield from ["W"] * (what > 0.98)
        yield from ["N 0"] * (what < 0.03) + [f"O {chance.randint(1, 200)}"] * (what < 0.06)
    yield from ["E", *[GIVE] * 400]


def some_limits(chance: random.Random) -> Limits:
    """Limits of motors, some of them beyond all motors."""
    def axes(*of: int) -> tuple[int, int, int]:
        return chance.choice(of), chance.choice(of), chance.choice(of)

    return Limits(axes(3, 50, 1000, 20_000, 200_000, 5_000_000, 10**9), axes(0, 0, 500, 15_000),
                  axes(0, 100, 2000, 2**40), chance.choice((1, 4, 16, 64)), chance.choice((1, 2, 4, 64)),
                  chance.choice((100, 100, 101, 137, 200)))


def timed(lines: Iterable[str], lasting_ns: Iterable[int]) -> Iterator[str]:
    """The lines behind the nanosecond at which each is due, as a file of --times has them."""
    due = 0
    for line, ns in zip(lines, lasting_ns, strict=True):
        yield f"{due} {line}\n"
        due += ns


def as_out_says(lines: Iterable[str]) -> Iterator[int]:
    """How many nanoseconds each line lasts by itself."""
    return (0 if line[0] == "S" else int(line.split()[-1]) * 1000 for line in lines)


def excess(due: Iterable[str] | bytes, accel: tuple[int, int, int]) -> float:
    """By how many steps the axes leave all motions of these accelerations, in steps a second, each second. It knows the
    steps and their times alone: `due` is what a file of --times has. Raises AssertionError where a line is sooner than
    OUT has it."""
    text = due if isinstance(due, bytes) else "".join(due).encode()
    command = [built("-O2", sources=of_tests("follow_check.c")), *map(str, accel)]
    thousandths, early = map(int, subprocess.run(command, input=text, capture_output=True, check=True).stdout.split())
    if early:
        raise AssertionError(f"{early} lines are sooner than OUT has them")
    return thousandths / 1000


def judgement(limits: Limits, lines: Iterable[str], due: str) -> str:
    """What the judge says of lines of OUT, the last of which stands, at the times of `due`, which is what a file of
    --times has; nothing where all is right."""
    judge = built("-O2", sources=of_tests("judge_times.c", "judge_rates.c", "judge_motion.c"))
    words = map(str, (*limits.accel, *limits.rate, *limits.start, limits.slack, limits.most_percent))
    with NamedTemporaryFile("w+") as out:
        out.writelines(f"{line}\n" for line in lines)
        out.flush()
        return subprocess.run([judge, out.name, *words], input=due, capture_output=True, text=True).stdout


def lost_steps(due: str) -> list[int]:
    """How many steps a motor of each axis loses at these times."""
    command = [built("-O2", sources=of_tests("rotor_times.c", "rotor.c"))]
    done = subprocess.run(command, input=due, capture_output=True, text=True)
    return [int(word) for word in done.stdout.split()[:3]]
