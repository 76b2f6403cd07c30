"""The machine of the walk by chance: a mill as `machine_world.c` has it, in which all that a player made is told, and
its processes.

The machine's coordinates are those of the world: its switches stand where the machine's file says."""
import mmap
import os
import re
import signal
import socket
import struct
import subprocess
import sys
import time
from collections.abc import Iterator
from contextlib import suppress
from dataclasses import dataclass
from pathlib import Path

from player_support import SOURCES, built
from session_support import PATIENCE_S, TOOLS, ngc
from test_moves import BOX, DOOR, POST, PROBE, STOP, X_HIGH, X_LOW, Y_LOW, Z_HIGH, World

JOBS = "jobs"
"""The folder of programs that the page's server is given."""
STEP_MM = 0.005
ACCEL_MM_S2 = 500.0
SETTINGS = """step_nm = [5000, 5000, 5000]
low_nm = [-9000000, -9000000, -60000000]
high_nm = [60000000, 60000000, 4500000]
traverse_nm_per_min = 3000000000
period_us = 50
tools_nm = [20000000, 30000000]
"""
MACHINE = """[motion]
accel_mm_s2 = [500, 500, 500]
most_percent = 150

[spindle]
max_rpm = 12000

[setter]
height_um = -40000
at_um = [50000, 50000, 4000]
probe_tool = 1
probe_radius_um = 1000
fast_mm_min = 300
slow_mm_min = 60

[inputs]
emergency_stop = 0
limits_low = [1, 2, -1]
limits_high = [7, -1, 3]
door = 4
probe = 6
on_while_low = [0]

[home]
order = [2, 3, 1]
switch = [1, 2, 3]
direction = [-1, -1, 1]
fast_mm_min = [1500, 1500, 1500]
slow_mm_min = [120, 120, 120]
pull_off_um = [1000, 1000, 500]
at_um = [-9000, -9000, 4500]
way_mm = [80, 80, 80]
agree_um = 40
"""
LIMITS, NO_HOME_SWITCH = {"X low": X_LOW, "Y low": Y_LOW, "X high": X_HIGH, "Z high": Z_HIGH}, "X high"
"""The inputs of the limits; home seeks all but one of them."""
LENGTHS_MM, RADII_MM = {0: 0.0, 1: 20.0, 2: 30.0}, {0: 0.0, 1: 1.0, 2: 1.5}
"""What is in the spindle, by its slot: how far its end hangs below it, and how wide the ball at its end is; slot 1 is
the probe's."""
BODIES = ((BOX, (20, 20, -60), (40, 40, -35)), (BOX, (48, 48, -60), (52, 52, -40)),
          (BOX, (-99, -99, -60), (99, 99, -45)), (POST, (10, 40), (4, -35)))
"""The work, the setter, the table that both stand on, and a boss: from where to where, in mm; of the boss where its
middle is, its radius and its top."""
MACROS = """Lift = ["M5", "G53 G0 Z4"]
"To the boss" = ["G53 G0 Z4", "G53 G0 X10 Y40"]
Beyond = ["G53 G0 X99"]
Rinse = ["M8", "G4 P0.1", "M9"]
"""
_MADE, _PULSE, _LAST = struct.Struct("=8Q"), struct.Struct("=q3i3bx"), 1 << 17
Point = tuple[float, float, float]


@dataclass(frozen=True, slots=True)
class Outputs:
    """The outputs as the pins have them; the speed in turns a minute."""

    spindle: int
    speed: float
    mist: int
    flood: int
    slot: int


@dataclass(frozen=True, slots=True)
class Pulse:
    """A pulse: when it was made by the monotonic clock, the steps of its axes, and where the table was after it, in
    steps."""

    at: float
    step: tuple[int, int, int]
    place: tuple[int, int, int]

    @property
    def at_mm(self) -> Point:
        """That place."""
        x, y, z = self.place
        return x * STEP_MM, y * STEP_MM, z * STEP_MM


class Telling(World):
    """The simulated machine, which tells what its outputs are and what its motors made."""

    def __init__(self) -> None:
        with open("made", "wb") as file:
            file.truncate(_MADE.size + _LAST * _PULSE.size)
        with open("made", "r+b") as file:
            self._made = mmap.mmap(file.fileno(), 0)
        super().__init__()

    @property
    def pulses(self) -> int:
        """How many were made."""
        return int(_MADE.unpack_from(self._made)[0])

    @property
    def outputs(self) -> Outputs:
        """The outputs now."""
        _, spindle, speed, mist, flood, slot, _, _ = _MADE.unpack_from(self._made)
        return Outputs(spindle, speed / 1e6, mist, flood, slot)

    @property
    def turns_since(self) -> float:
        """When the spindle began to turn last, by the monotonic clock."""
        return float(_MADE.unpack_from(self._made)[6]) / 1e9

    @property
    def switched_at(self) -> float:
        """When an output changed last."""
        return float(_MADE.unpack_from(self._made)[7]) / 1e9

    def last(self, count: int) -> Iterator[Pulse]:
        """The last pulses, the newest first."""
        return self.between(self.pulses - count, self.pulses)

    def between(self, begin: int, end: int) -> Iterator[Pulse]:
        """The pulses of these numbers, the newest first, as far as they are still told."""
        for number in range(end - 1, max(0, begin, end - _LAST // 2) - 1, -1):
            at_ns, *told = _PULSE.unpack_from(self._made, _MADE.size + number % _LAST * _PULSE.size)
            yield Pulse(at_ns / 1e9, (told[3], told[4], told[5]), (told[0], told[1], told[2]))

    def lose_power(self) -> None:
        """Nothing turns, and nothing flows."""
        _MADE.pack_into(self._made, 0, self.pulses, 0, 0, 0, 0, self.outputs.slot, 0, time.monotonic_ns())

    def close(self) -> None:
        """Lets go of its files."""
        super().close()
        self._made.close()


class Mill(Telling):
    """A mill with a table, a setter, work and a boss on it, in millimetres of the machine's coordinates."""

    def __init__(self) -> None:
        super().__init__()
        for number, (high, axis, sign, at_mm) in enumerate(((1, 0, -1, -10), (2, 1, -1, -10), (3, 2, 1, 5))):
            self.switch(number, high, axis, sign, round(at_mm / STEP_MM))
        for slot in LENGTHS_MM:
            self.tool(slot, round(LENGTHS_MM[slot] / STEP_MM), round(RADII_MM[slot] / STEP_MM))
        for number, (kind, low, high) in enumerate(BODIES):
            self.solid(number, kind, *(tuple(round(mm / STEP_MM) for mm in point) for point in (low, high)))
        self.touching(PROBE)
        self.forget_reached()

    @property
    def at_mm(self) -> Point:
        """Where the machine is."""
        return next((pulse.at_mm for pulse in self.last(1)), (0.0, 0.0, 0.0))

    def last_pulse_at(self) -> float:
        """When the last pulse was made; 0 for none."""
        return next((pulse.at for pulse in self.last(1)), 0.0)

    def moved(self, begin: int, end: int) -> dict[str, int]:
        """The axes that moved by the pulses of these numbers, as `X+`, with how many steps."""
        found: dict[str, int] = {}
        for pulse in self.between(begin, end):
            for axis, way in zip("XYZ", pulse.step):
                if way:
                    name = f"{axis}{'+' if way > 0 else '-'}"
                    found[name] = found.get(name, 0) + 1
        return found

    def places(self, begin: float, end: float) -> Iterator[Point]:
        """Where it was between two moments, from the last one back."""
        for pulse in self.last(_LAST):
            if pulse.at <= end:
                yield pulse.at_mm
            if pulse.at <= begin:
                return
        yield 0.0, 0.0, 0.0

    def rate_mm_s(self, at: float, within_s: float = 0.02) -> float:
        """The greatest rate of the motors shortly before a moment, of an axis."""
        counts: dict[str, int] = {}
        for pulse in self.last(_LAST):
            if pulse.at < at - within_s:
                break
            if pulse.at <= at:
                for axis, way in zip("XYZ", pulse.step):
                    counts[axis] = counts.get(axis, 0) + abs(way)
        return max(counts.values(), default=0) * STEP_MM / within_s

    def pauses_ms(self, since: float, least_s: float = 0.03) -> list[tuple[int, int]]:
        """Where no pulse came for a while since a moment: when that began, and how long it was."""
        found, later = [], 0.0
        for pulse in self.last(_LAST):
            if later and later - pulse.at > least_s:
                found.append((round(1000 * (pulse.at - since)), round(1000 * (later - pulse.at))))
            if pulse.at < since:
                break
            later = pulse.at
        return found[::-1]

    def steps_between(self, begin: float, end: float) -> tuple[float, float]:
        """How far an axis went at most between two moments, in mm, and when the last pulse before the second was."""
        counts, latest = {"X": 0, "Y": 0, "Z": 0}, 0.0
        for pulse in self.last(_LAST):
            if pulse.at < begin:
                break
            if pulse.at <= end:
                latest = max(latest, pulse.at)
                for axis, way in zip("XYZ", pulse.step):
                    counts[axis] += abs(way)
        return max(counts.values()) * STEP_MM, latest


def player_program() -> str:
    """The player over the simulated machine, as fast as it goes."""
    sources = tuple(path for path in SOURCES if path.name not in ("pins.c", "input_pins.c"))
    return built("-O2", sources=(*sources, TOOLS / "tests/machine_world.c"))


class Bench:
    """The folder of a machine, and the processes in it: the player, the page's server, and `ngc` below that."""

    def __init__(self) -> None:
        """In the working folder; nothing is started yet."""
        Path("first.toml").write_text(SETTINGS)
        Path("motion.toml").write_text(MACHINE)
        Path("first.macros").write_text(MACROS)
        Path("mill.dev.measure").write_text('{"down_nm": -5000000, "within_nm": 20000000}')
        Path("out").touch()
        subprocess.run([ngc(), "format", "mill.dev"], check=True, capture_output=True)
        subprocess.run([ngc(), "run", "mill.dev", "first.toml", "out"], input="tool 1 20\ntool 2 30\n", text=True,
                       check=True, capture_output=True)
        self.mill = Mill()
        self.player: subprocess.Popen | None = None
        self.server: subprocess.Popen | None = None
        with socket.socket() as found:
            found.bind(("127.0.0.1", 0))
            self.port = found.getsockname()[1]
        self.key = "walk-by-chance-is-no-secret"
        self.address = f"http://127.0.0.1:{self.port}/{self.key}/"
        self.program, self.complaints = player_program(), open("complaints", "wb")
        self.serves = TOOLS / "ngc-page"

    def start_player(self) -> None:
        """Starts the player, and waits until it listens."""
        with suppress(FileNotFoundError):
            os.unlink("progress")
        words = ["-f", "-s", "progress", "-m", "motion.toml", "out", "first.toml", "position"]
        self.player = subprocess.Popen([self.program, *words], stdin=subprocess.DEVNULL, stdout=self.complaints,
                                       stderr=self.complaints)
        until = time.monotonic() + PATIENCE_S
        while not os.path.exists("progress"):
            if self.player.poll() is not None or time.monotonic() > until:
                raise AssertionError(f"the player doesn't start: {self.said()}")
            time.sleep(0.005)

    def start_server(self) -> None:
        """Starts the page's server, and waits until it serves."""
        if self.server is not None:
            self.server.stdout.close()
        words = ["mill.dev", "first.toml", "out", "--player", "progress", "--machine", "motion.toml", "--ngc", ngc(),
                 "--listen", f"127.0.0.1:{self.port}", "--jobs", JOBS]
        self.server = subprocess.Popen([sys.executable, self.serves, *words], stdin=subprocess.DEVNULL,
                                       stdout=subprocess.PIPE, stderr=self.complaints, text=True,
                                       env=os.environ | {"NGC_PAGE_KEY": self.key})
        if self.server.stdout.readline().strip() != self.address:
            raise AssertionError(f"the page isn't served: {self.said()}")

    def said(self) -> str:
        """What was complained of."""
        return Path("complaints").read_text(errors="replace")[-2000:]

    def has_player(self) -> bool:
        """Whether a player runs."""
        return self.player is not None and self.player.poll() is None

    def has_server(self) -> bool:
        """Whether the page is served."""
        return self.server is not None and self.server.poll() is None

    def kill(self, *names: str) -> None:
        """Kills `player`, `server` or `ngc`."""
        children = self.children()
        for child, name in ((self.player, "player"), (self.server, "server")):
            if name in names and child is not None:
                child.kill()
        for pid in children if "ngc" in names else ():
            with suppress(ProcessLookupError):
                os.kill(pid, signal.SIGKILL)
        for child, name in ((self.player, "player"), (self.server, "server")):
            if name in names and child is not None:
                child.wait()

    def children(self) -> list[int]:
        """The processes of `ngc` that the server started."""
        if self.server is None:
            return []
        found = []
        for path in Path(f"/proc/{self.server.pid}/task").glob("*/children"):
            with suppress(OSError):
                found += [int(pid) for pid in path.read_text().split()]
        return [pid for pid in found if _is_ngc(pid)]

    def input(self, name: str, is_on: bool) -> None:
        """Opens or shuts the door, presses or frees the emergency stop, or a limit as `limit X low`."""
        if name == "stop":
            self.mill.put(STOP, not is_on)
        else:
            self.mill.put(DOOR if name == "door" else LIMITS[name.removeprefix("limit ")], is_on)

    def recorded_mm(self) -> Point | None:
        """Where the player's record on the disk has the machine."""
        match = re.search(r"^reference (\S+) (\S+) (\S+)$", Path("position").read_text(errors="replace"), re.MULTILINE)
        return (float(match[1]), float(match[2]), float(match[3])) if match else None

    def close(self) -> None:
        """Ends all."""
        self.kill("player", "server", "ngc")
        if self.server is not None:
            self.server.stdout.close()
        self.mill.close()
        self.complaints.close()


def _is_ngc(pid: int) -> bool:
    with suppress(OSError):
        return Path(f"/proc/{pid}/exe").resolve() == Path(ngc()).resolve()
    return False
