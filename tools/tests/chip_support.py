"""The step sink's firmware on the emulated chip (tools/sink/emulator): built once, driven from Python in simulated time
alone, and what its pins did."""
import ctypes
import fcntl
import os
import shutil
import subprocess
from collections.abc import Iterable
from dataclasses import dataclass, field
from functools import cache
from pathlib import Path
from typing import ClassVar

from chip_parts import BOARDS, Edge, Pulse, board_of, pulses
from player_support import builds
from session_support import TOOLS
from sink_frames import (BROKEN, MS, NOTHING, REST, RUNS, STANDS, STOPPED, Answer, answer_of, begin_frame, stop_frame,
                         words_frame)

SINK = TOOLS / "sink"
COMPILER = "arm-none-eabi-gcc"
TICK_NS = 125
US, MS_NS, S_NS = 1000, 1_000_000, 1_000_000_000
SLOPE = 0x5c  # the byte of some 200,000 steps/s2
TAKES_TOKENS = iter(range(100, 1 << 32))


def has_compiler() -> bool:
    """Whether the cross compiler is there, by which the firmware is built."""
    return shutil.which(COMPILER) is not None


@cache
def chip_folder(board: str = "stm32f103") -> Path:
    """The folder of a board's ELF and of what is made of it: built once for all tests of a run."""
    folder = Path(builds(), f"chip-{board}")
    with open(f"{folder}.lock", "w") as lock:
        fcntl.flock(lock, fcntl.LOCK_EX)
        if not folder.exists():
            make_chip(SINK, Path(f"{folder}.part"), board, "arm")
            os.rename(f"{folder}.part", folder)
    return folder


@cache
def chip_model(board: str, name: str) -> Path:
    """The path of a board's emulated chip, a program or a library: built once for all tests of a run."""
    path = chip_folder(board) / name
    with open(f"{path.parent}.lock", "w") as lock:
        fcntl.flock(lock, fcntl.LOCK_EX)
        if not path.exists():
            make_chip(SINK, path.parent, board, str(path))
    return path


def elf_of(board: str) -> str:
    """The path of a board's ELF."""
    return str(chip_folder(board) / f"{board}.elf")


def make_chip(sink: Path, folder: Path, board: str, target: str) -> None:
    """Has make build a target of a folder as tools/sink is."""
    words = ["make", "-C", sink, f"OUT={folder}", f"BOARD={board}", target]
    done = subprocess.run(words, capture_output=True, text=True)
    if done.returncode:
        raise AssertionError("tools/sink isn't built:\n" + done.stderr)


class Violation(AssertionError):
    """What a chip doesn't bear."""


class _Edge(ctypes.Structure):
    _fields_ = [("ns", ctypes.c_uint64), ("port", ctypes.c_uint8), ("pin", ctypes.c_uint8),
                ("level", ctypes.c_uint16)]


SURROUNDINGS = {"baud": 2_000_000, "hse_us": 2000, "battery": 1, "matches_at_once": 0, "branch_cycles": 2}
ROOM = 65_536


@cache
def library(name: str) -> ctypes.CDLL:
    """The model of a board's chip, with its types (tools/sink/emulator/model.h)."""
    found = ctypes.CDLL(str(chip_model(name, f"lib{BOARDS[name].chip}.so")))
    found.model_load.restype = found.model_run.restype = found.model_set.restype = ctypes.c_bool
    found.model_run.argtypes = found.model_power_off.argtypes = [ctypes.c_uint64]
    found.model_turn_at.argtypes = [ctypes.c_uint64, ctypes.c_int, ctypes.c_int]
    found.model_turn_inputs.argtypes = [ctypes.c_uint32]
    found.model_symbol.argtypes = [ctypes.c_char_p, ctypes.c_void_p]
    found.model_set.argtypes = [ctypes.c_char_p, ctypes.c_uint64]
    found.model_figure.argtypes = [ctypes.c_char_p]
    found.told_violation.restype = ctypes.c_char_p
    found.serial_send.argtypes = [ctypes.c_char_p, ctypes.c_size_t]
    found.serial_heard.argtypes = [ctypes.c_void_p, ctypes.c_void_p, ctypes.c_size_t]
    found.told_edges.argtypes = [ctypes.c_void_p, ctypes.c_size_t]
    for name in ("model_ns", "model_figure", "serial_sending", "serial_heard", "told_edges"):
        getattr(found, name).restype = ctypes.c_uint64
    return found


class Chip:
    """A chip with a firmware. The environment's CHIP may have surroundings, as in "branch_cycles=4"."""

    def __init__(self, elf: Path | str, **surroundings: int) -> None:
        """Puts power on."""
        self.board = board_of(elf)
        self.model = library(self.board.name)
        given = dict(each.split("=") for each in os.environ.get("CHIP", "").split())
        for name, value in {**SURROUNDINGS, **self.board.around, **given, **surroundings, "clear_figures": 1}.items():
            self.set(name, int(value))
        if not self.model.model_load(str(elf).encode()):
            raise Violation(f"{elf}: not an ELF for this chip")
        self.edges: list[Edge] = []
        self.heard: list[tuple[int, int]] = []
        self._bytes = (ctypes.c_uint8 * ROOM)()
        self._times = (ctypes.c_uint64 * ROOM)()
        self._edges = (_Edge * ROOM)()
        self.model.model_power_on()

    def set(self, name: str, value: int) -> None:
        """Sets something of the surroundings."""
        assert self.model.model_set(name.encode(), value), name

    def figure(self, name: str) -> int:
        """A figure of the model."""
        return self.model.model_figure(name.encode())

    @property
    def now(self) -> int:
        """Nanoseconds since power came on."""
        return self.model.model_ns()

    def run(self, ns: float) -> None:
        """Lets it run."""
        is_good = self.model.model_run(int(ns))
        self.take()
        if not is_good:
            raise Violation(self.model.told_violation().decode())

    def take(self) -> None:
        """Takes what it said and did."""
        while count := self.model.serial_heard(self._bytes, self._times, ROOM):
            self.heard += zip(self._times[:count], self._bytes[:count])
        while count := self.model.told_edges(self._edges, ROOM):
            self.edges += [Edge(edge.ns, chr(edge.port), edge.pin, edge.level) for edge in self._edges[:count]]

    def pulses(self) -> list[Pulse]:
        """The pulses of its step pins."""
        return pulses(self.board, self.edges)

    def send(self, line: bytes) -> None:
        """Sends bytes over the line, as soon as it is free."""
        self.model.serial_send(line, len(line))

    @property
    def sending(self) -> int:
        """How many bytes still are on their way."""
        return self.model.serial_sending()


@dataclass
class Driver:
    """Who drives the sink, frame by frame: words go out as the sink has room, and again where they were lost."""

    chip: Chip
    ahead: int = 1500          # words on their way or in the FIFO
    words: list[tuple[int, int]] = field(default_factory=list)
    session: int = 0
    base: int = 0              # the number of the first of `words`
    sent: int = 0
    answers: list[Answer] = field(default_factory=list)
    spoils: object = None      # a function that damages a frame
    _taken: int = 0
    _spoke: int = 0
    _lost: int = 0
    _line: bytes = b""
    _damaged: int = 0
    waits_s: ClassVar[float] = 60  # of simulated time, until words are made

    def hear(self) -> None:
        """Takes what came; each answer has to be whole, but for two at which the line was pulled out."""
        heard = self.chip.heard
        self._line += bytes(byte for _, byte in heard[self._taken:])
        self._taken = len(heard)
        *frames, self._line = self._line.split(b"\0")
        found = [answer_of(frame + b"\0") for frame in frames]
        self._damaged += found.count(None)
        assert self._damaged <= 2, "answers are damaged"
        self.answers += filter(None, found)

    @property
    def last(self) -> Answer:
        """The newest answer."""
        return self.answers[-1]

    def pump(self, ns: float = MS_NS // 2) -> None:
        """Lets the chip run, and hears it."""
        self.chip.run(ns)
        self.hear()

    def await_answer(self) -> Answer:
        """A new answer, within 30 ms."""
        count = len(self.answers)
        until = self.chip.now + 30 * MS_NS
        while len(self.answers) == count:
            assert self.chip.now < until, "the sink doesn't answer"
            self.pump()
        return self.last

    def begin(self, **inputs: int) -> None:
        """Begins a session."""
        answer = self.await_answer()
        token = next(TAKES_TOKENS)
        frame = begin_frame(answer.session, token=token, **inputs)
        until = self.chip.now + 300 * MS_NS
        while answer.token != token or answer.state != STANDS:
            assert self.chip.now < until, f"no session: {answer}"
            self.chip.send(frame)
            answer = self.await_answer()
        self.session, self.base, self.sent = answer.session, answer.taken, 0
        self.words, self._lost = [], answer.lost

    def give(self, words: Iterable[tuple[int, int]]) -> None:
        """Gives words."""
        self.words += words

    def frame(self, first: int, words: Iterable[tuple[int, int]]) -> bytes:
        """A frame of words."""
        return words_frame(self.session, (self.base + first) & 0xffffffff, *words)

    def stop(self, at_once: bool) -> None:
        """Asks for a stop."""
        self.chip.send(stop_frame(self.session, at_once))

    def push(self) -> None:
        """Sends what there is room for; goes back where something was lost."""
        answer = self.last
        if answer.session == self.session:
            taken = (answer.taken - self.base) & 0xffffffff
            if answer.lost != self._lost and taken < self.sent:
                self.sent = taken
            self._lost = answer.lost
            made = (answer.made - self.base) & 0xffffffff
            while self.sent < len(self.words) and self.sent - made < self.ahead and self.chip.sending < 600:
                self._send(min(48, len(self.words) - self.sent, self.ahead - (self.sent - made)))
        if self.chip.now - self._spoke > 5 * MS_NS and not self.chip.sending:
            self._send(0)

    def _send(self, count: int) -> None:
        """A frame of so many words."""
        frame = self.frame(self.sent, self.words[self.sent:self.sent + count])
        self.chip.send(self.spoils(frame) if self.spoils and count else frame)
        self.sent += count
        self._spoke = self.chip.now

    @property
    def is_done(self) -> bool:
        """Whether all words are made."""
        return (self.last.made - self.base) & 0xffffffff == len(self.words)

    def play(self, seconds: float | None = None) -> Answer:
        """Sends all words, until they are made, or the sink stops."""
        until = self.chip.now + int((seconds or self.waits_s) * S_NS)
        while self.chip.now < until and not self.is_done and self.last.state in (STANDS, RUNS):
            self.push()
            self.pump()
        return self.last

    def move(self, rate: int = 10_000, ms: int = 300) -> int:
        """Lets it move at an even rate, with the spindle on; the time."""
        self.give(spindle(1, 12_000_000_000, 1, 1))
        self.give([(MS * 1000 // rate | SLOPE << 24, 1)] * rate)
        until = self.chip.now + ms * MS_NS
        while self.chip.now < until:
            self.push()
            self.pump()
        assert (self.last.state, self.last.fault) == (RUNS, NOTHING), self.last
        return self.chip.now

    def has_stopped(self) -> bool:
        """Whether it has stopped for a fault."""
        return self.last.state in (STOPPED, BROKEN)


def spindle(direction: int, speed: int, mist: int = 0, flood: int = 0) -> list[tuple[int, int]]:
    """The two words of outputs; the speed in millionths."""
    high = direction | mist << 2 | flood << 3 | (speed >> 32) << 20
    return [(speed & 0xffffffff, 0x80 | REST), (high, 0x80 | REST | 1)]
