"""What tests of a player over a step sink share: a sink at the other end of a pseudo terminal, whose clock goes on by
itself. With NGC_SINK=stm32f103, or another board of chip_parts.py, it is that board's firmware on the emulated chip,
else the sink of this computer's own code."""
import os
import subprocess
import time
from pathlib import Path
from typing import NamedTuple

from chip_parts import BOARDS
from chip_support import chip_model, elf_of
from player_support import SANITIZERS, built, has_sanitizers
from session_support import PATIENCE_S, TOOLS

SINK = TOOLS / "sink"
TICK_NS = 125
PARTS = tuple(SINK / f"{name}.c" for name in ("sink_posix", "bench", "bench_line", "sink", "make", "wire"))
BOARD = BOARDS.get(os.environ.get("NGC_SINK", ""))
IS_CHIP = BOARD is not None
LATE_TICKS = 80 if IS_CHIP else 1
"""How far a step may be from its time: on the chip 10 us."""
DUTY_MILLIONTHS = 24_000_000_000 / (BOARD.duty_steps if BOARD else 7200)
"""The speed that a step of the PWM's duty is."""


def bench(boot: int = 1) -> list[str]:
    """The command that puts a sink on the bench (tools/sink/bench.c)."""
    if IS_CHIP:
        return [str(chip_model(BOARD.name, f"emulate-{BOARD.chip}")), elf_of(BOARD.name), str(boot)]
    return [built("-std=c99", *(SANITIZERS if has_sanitizers() else ("-O2",)), "-I", SINK, sources=PARTS), str(boot)]


def seen(outputs: tuple[int, ...]) -> tuple[int, ...]:
    """What the pins show of outputs: all of them, or on the chip no tool, no speed at rest, and that of the duty."""
    direction, speed, mist, flood, *tool = outputs
    if not IS_CHIP:
        return outputs
    duty = 0 if direction == 0 else min(int(speed / DUTY_MILLIONTHS), BOARD.duty_steps)
    return direction, int(duty * DUTY_MILLIONTHS), mist, flood, *[0 for _ in tool]


class Made(NamedTuple):
    """What the pins did: a step of axes, which count down, or outputs."""

    tick: int
    step: tuple[int, int, int] | None
    outputs: tuple[int, ...] | None


def lasting(made: list[Made]) -> list[tuple[int, ...]]:
    """The outputs that last: a Pico clears pins two cycles before it sets others."""
    told = [each for each in made if each.outputs]
    return [each.outputs for each, after in zip(told, [*told[1:], None])
            if not IS_CHIP or after is None or after.tick - each.tick > 1]


def changes(outputs: list[tuple[int, ...]]) -> list[tuple[int, ...]]:
    """Outputs as they change, from all off. On the chip the speed follows with the PWM's next period: a state before it
    does is left out."""
    found = [(0,) * 6]
    for each, after in zip(outputs, [*outputs[1:], None]):
        is_between = IS_CHIP and after is not None and after[0] == each[0] and after[2:] == each[2:]
        if not is_between and each != found[-1]:
            found.append(each)
    return found[1:]


def steps_of(axes: int, down: int) -> tuple[int, int, int]:
    """The steps of X, Y and Z."""
    x, y, z = ((axes >> axis & 1) * (-1 if down >> axis & 1 else 1) for axis in range(3))
    return x, y, z


def read_made(line: str) -> Made:
    """A line of what the pins did."""
    kind, tick, *rest = line.split()
    numbers = tuple(map(int, rest))
    return Made(int(tick), steps_of(*numbers) if kind == "P" else None, numbers if kind == "S" else None)


class ServedSink:
    """A sink, whose serial line is `path`. What its pins do is in a file until it ends."""

    def __init__(self, waits_ms: int) -> None:
        """Starts it: where words are late its clock stands for so many real milliseconds before it goes on."""
        self._said = Path("sink_events").open("w+", encoding="ascii")
        self.child = subprocess.Popen(bench(), stdin=subprocess.PIPE, stdout=self._said, text=True)
        self.path = self._first_line()
        self.tell(f"serve {waits_ms}")

    def _first_line(self) -> str:
        """The line that it says at once."""
        until = time.monotonic() + PATIENCE_S
        said = ""
        while not said.endswith("\n") and time.monotonic() < until:
            time.sleep(0.002)
            said = Path("sink_events").read_text(encoding="ascii")
        return said.strip()

    def tell(self, line: str) -> None:
        """Has it do a line of its input."""
        self.child.stdin.write(line + "\n")
        self.child.stdin.flush()

    def kill(self) -> None:
        """Ends it at once, if it hasn't ended."""
        self.child.kill()
        self.child.communicate()
        self._said.close()

    def end(self) -> list[Made]:
        """Lets it come to rest alone, and ends it: all that its pins did."""
        self.tell("serve 0")
        self.tell("run 16000000 0")
        self.child.stdin.close()
        if self.child.wait(PATIENCE_S):
            raise AssertionError(f"the sink's status is {self.child.returncode}")
        self._said.close()
        lines = Path("sink_events").read_text(encoding="ascii").splitlines()[1:]
        return [read_made(line) for line in lines if line[0] != "."]
