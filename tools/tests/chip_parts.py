"""The boards that the step sink's firmware is for: what docs/SINK.md says of each, and its chip's manual."""
from pathlib import Path
from typing import NamedTuple

Pin = tuple[str, int]  # port and number


class Board(NamedTuple):
    """A board; its name is that of its ELF."""

    name: str
    chip: str
    clocks: dict[str, int]         # figures of the model, by their names
    steps: tuple[Pin, ...]
    directions: tuple[Pin, ...]
    outputs: tuple[Pin, ...]       # clockwise, counter-clockwise, mist, flood
    around: dict[str, int]         # surroundings of the model
    duty_steps: int                # of the PWM, at 24,000 turns a minute
    slow_hz: int                   # of the watchdog's oscillator, by the data sheet
    fast_hz: int
    keeps_boots: bool              # it counts its starts over a loss of power, with a battery
    needs_battery: bool = True     # .. and without one it doesn't

    @property
    def driven(self) -> tuple[Pin, ...]:
        """All pins that it drives."""
        return (*self.steps, *self.directions, *self.outputs)


def pins(text: str) -> tuple[Pin, ...]:
    """Pins as they are named: `PA0 PB12`."""
    return tuple((name[1], int(name[2:])) for name in text.split())


LINE = {"baud": 2_000_000, "tick_hz": 8_000_000, "pwm_hz": 10_000}
F103 = {"hclk_hz": 72_000_000, "apb1_hz": 36_000_000, **LINE}
F411 = {"hclk_hz": 96_000_000, "apb1_hz": 48_000_000, **LINE}
BOARDS = {board.name: board for board in (
    Board("stm32f103", "stm32f103", F103,
          pins("PA0 PA2 PA4"), pins("PA1 PA3 PA5"), pins("PB0 PB1 PB5 PB7"),
          {"lsi_hz": 40_000, "hse_hz": 8_000_000}, 7200, 30_000, 60_000, True),
    Board("stm32f103_boot", "stm32f103", F103,
          pins("PA0 PA1 PA2"), pins("PA3 PA4 PA5"), pins("PB0 PB1 PB12 PB13"),
          {"lsi_hz": 40_000, "hse_hz": 8_000_000}, 7200, 30_000, 60_000, True),
    Board("stm32f411", "stm32f411", F411,
          pins("PA1 PA2 PA3"), pins("PA4 PA5 PA6"), pins("PB0 PB1 PB5 PB7"),
          {"lsi_hz": 32_000, "hse_hz": 25_000_000}, 9600, 17_000, 47_000, True),
    Board("nucleo_f411re", "stm32f411", F411,
          pins("PA10 PB3 PB5"), pins("PB4 PB10 PA8"), pins("PC1 PC0 PA5 PB0"),
          {"lsi_hz": 32_000, "hse_hz": 0}, 9600, 17_000, 47_000, True),
    Board("pico", "rp2040",
          {"sys_hz": 128_000_000, "ref_hz": 12_000_000, "us_hz": 1_000_000, "baud": 2_000_000, "tick_hz": 8_000_000,
           "pwm_hz": 10_000},
          pins("PA2 PA4 PA6"), pins("PA3 PA5 PA7"), pins("PA8 PA9 PA11 PA12"),
          {"lsi_hz": 6_500_000, "hse_hz": 12_000_000, "branch_cycles": 1}, 12800, 1_800_000, 12_000_000, True, False))}


def board_of(elf: Path | str) -> Board:
    """The board of an ELF."""
    return BOARDS[Path(elf).stem]


class Edge(NamedTuple):
    """What a pin did: PORT is A or on, P the duty of the PWM, R a reset."""

    ns: int
    port: str
    pin: int
    level: int


class Pulse(NamedTuple):
    """A pulse of the step pins: when the first of them rises, whose, which count down, when the last of them falls."""

    ns: int
    axes: int
    down: int
    falls: int


TOGETHER_NS = 1000
"""Axes whose pins rise within this make one step: pins of several ports can't rise at once."""


def pulses(board: Board, edges: list[Edge]) -> list[Pulse]:
    """The pulses of the step pins."""
    level = dict.fromkeys((*board.steps, *board.directions), 0)
    found: list[Pulse] = []
    for ns, port, pin, high in edges:
        if port == "R":
            level = dict.fromkeys(level, 0)
        if (port, pin) not in level:
            continue
        level[port, pin] = high
        if (port, pin) in board.directions:
            continue
        axis = board.steps.index((port, pin))
        last = found[-1] if found else Pulse(-TOGETHER_NS, 0, 0, 0)
        if not high:
            found[-1] = last._replace(falls=ns)
            continue
        if ns - last.ns < TOGETHER_NS:
            found.pop()
        else:
            last = Pulse(ns, 0, 0, 0)
        found.append(last._replace(axes=last.axes | 1 << axis, down=last.down | level[board.directions[axis]] << axis))
    return found


def setups(board: Board, edges: list[Edge]) -> list[int]:
    """How long before steps of their axes directions changed: nanoseconds."""
    axis_of = {pin: axis for pins in (board.steps, board.directions) for axis, pin in enumerate(pins)}
    changed: dict[int, int] = {}
    before: list[int] = []
    for ns, port, pin, high in edges:
        if (port, pin) in board.directions:
            changed[axis_of[port, pin]] = ns
        elif (port, pin) in board.steps and high and axis_of[port, pin] in changed:
            before.append(ns - changed[axis_of[port, pin]])
    return before


def highs(board: Board, edges: list[Edge]) -> list[int]:
    """How long step pins were high: nanoseconds."""
    rose: dict[Pin, int] = {}
    found: list[int] = []
    for ns, port, pin, high in edges:
        if (port, pin) in board.steps and high:
            rose[port, pin] = ns
        elif (port, pin) in rose:
            found.append(ns - rose.pop((port, pin)))
    return found
