"""The programs of a job whose power is lost: a console, a player, a step sink; and what a loss of power leaves of their
files, by what `power_disk.c` told of each call."""
import json
import mmap
import os
import random
import select
import signal
import socket
import struct
import subprocess
import sys
import time
from contextlib import suppress
from dataclasses import dataclass, field
from pathlib import Path
from typing import Any

from power_axes import HOME_TOML, SWITCH_STEPS, SWITCHES
from power_disk import FILES, HEAD, LOG_BYTES, SPARED, Call, left_of
from power_path import Steps, Uncut, Wrong

HERE = Path(__file__).resolve().parent
MACHINE = """[motion]
accel_mm_s2 = [20000, 20000, 20000]
most_percent = 150
"""
PATIENCE_S = int(os.environ.get("NGC_PATIENCE_S", "60"))
SECOND_TICKS = 8_000_000  # of a sink's clock

CONSOLES = """
import faulthandler, json, os, signal, socket, sys
sys.path.insert(0, sys.argv[1])
from ngc_tools.cli.operate import main
signal.signal(signal.SIGCHLD, signal.SIG_IGN)
control = socket.socket(fileno=int(sys.argv[2]))
while True:
    text, files, _, _ = socket.recv_fds(control, 65536, 3)
    if not text:
        os._exit(0)
    folder, given, words = json.loads(text)
    os.chdir(folder)  # what is killed is known by it
    child = os.fork()
    if child == 0:
        for at in range(3):
            os.dup2(files[at], at)
        for file in (*files, control.fileno()):
            os.close(file)
        signal.signal(signal.SIGCHLD, signal.SIG_DFL)
        sys.stdin, sys.stdout, sys.stderr = os.fdopen(0), os.fdopen(1, "w"), os.fdopen(2, "w")
        faulthandler.register(signal.SIGUSR1)
        signal.signal(signal.SIGINT, signal.default_int_handler)  # which a job in the background ignores
        os.environ.update(given)
        os._exit(main(words))
    os.chdir("/")
    for file in files:
        os.close(file)
    control.send(str(child).encode())
"""


class Consoles:
    """Starts `ngc-operate` by a fork of one that is loaded already, with the words and streams of a command."""

    def __init__(self, preload: str) -> None:
        self.control, theirs = socket.socketpair()
        words = [sys.executable, "-c", CONSOLES, str(HERE.parent), str(theirs.fileno())]
        self.child = subprocess.Popen(words, env={**os.environ, "LD_PRELOAD": preload}, pass_fds=[theirs.fileno()])
        theirs.close()

    def start(self, folder: Path, env: dict[str, str], words: list[str]) -> tuple[int, int, int]:
        """Its process, its input and its output."""
        theirs_in, mine_in = os.pipe()
        mine_out, theirs_out = os.pipe()
        socket.send_fds(self.control, [json.dumps([str(folder), env, words]).encode()],
                        [theirs_in, theirs_out, theirs_out])
        child = int(self.control.recv(64))
        os.close(theirs_in)
        os.close(theirs_out)
        return child, mine_in, mine_out

    def close(self) -> None:
        """Ends it."""
        self.control.close()
        self.child.wait()


@dataclass
class Job:
    """A program, its uncut run, and what is typed at its stops. `over` is a file, a pipe, or a file and a step sink.
    With ramps the motors follow `machine.toml`, are jogged at stops, held, and go at other rates; then screws may have
    `backlash`, and over a sink there may be switches by which the machine is homed."""

    text: bytes
    uncut: Uncut
    typed: list[bytes] = field(default_factory=list)
    over: str = "file"
    has_ramps: bool = False
    asks_tool: bool = False  # the player, before it goes on with another one
    backlash: Steps = (0, 0, 0)
    has_home: bool = False

    @property
    def machine(self) -> str:
        """The machine's file, without a sink."""
        return (MACHINE + (f"[backlash]\nsteps = {list(self.backlash)}\n" if any(self.backlash) else "")
                + (HOME_TOML if self.has_home else ""))

    @property
    def words(self) -> list[str]:
        """The player's."""
        return [*([] if self.asks_tool else ["-t"]), *(["-b", "4096"] if self.over == "pipe" else ["-f"]),
                *([] if self.over == "sink" else ["-p", "pins"]),
                *(["-m", "machine.toml"] if self.has_ramps else [])]

    @property
    def ahead(self) -> int:
        """How many lines of OUT a loss of power may cost, by docs/OUTPUT.md: with ramps at 1.5 times 20 kHz, and 20
        million steps/s2, 1.2 v^2 / 2a + v / 50 + 520."""
        return 0 if self.over != "pipe" else 1147 if self.has_ramps else 100

    def typed_at(self, move: int | None) -> bytes:
        """The line that is typed before this move; nothing, if there is none."""
        at = sorted({place for kind, place, _ in self.uncut.begins if kind == "mdi"})
        return next((line for place, line in zip(at, self.typed) if self.uncut.begins["mdi", place, 0] == move), b"")


class Sink:
    """A step sink at a pseudo terminal, with a clock of its own. What it makes is told in a file."""

    def __init__(self, program: str, folder: Path, boot: int, before: list[bytes], machine: str, at: Steps) -> None:
        """`before` is what was made before, which led to `at`; `machine` is the rest of the machine's file."""
        self.made = list(before)
        self.path = folder / f"sink-{boot}"
        with self.path.open("wb") as said:
            self.child = subprocess.Popen([program, str(boot)], stdin=subprocess.PIPE, stdout=said)
        until = time.monotonic() + PATIENCE_S
        while not self.path.read_bytes().endswith(b"\n") and time.monotonic() < until:
            time.sleep(0.002)
        line = self.path.read_text().splitlines()[0]
        self.read = len(line)  # so many bytes of what it told
        self.told = 0
        for number, axis, way in SWITCHES:
            self.tell(f"switch {number} {axis} {way} {way * SWITCH_STEPS - at[axis]}")
        self.tell("serve 20")
        (folder / "machine.toml").write_text(f'{machine}[sink]\nline = "{line}"\nbaud = 2000000\n')

    def tell(self, line: str) -> None:
        """Has it do a line of its input; what it made before is in the file then."""
        self.child.stdin.write(line.encode() + b"\n")
        self.child.stdin.flush()
        self.told += 1
        until = time.monotonic() + PATIENCE_S
        while self.path.read_bytes().count(b"\n.") < self.told and time.monotonic() < until:
            time.sleep(0.002)

    def rest(self) -> None:
        """Lets it make what it has, and what is on its way, up to its rest: then it hears nothing for a second of its
        clock."""
        self.tell("serve 1")
        time.sleep(0.05)
        self.tell("serve 0")
        self.tell(f"run {SECOND_TICKS} 0")
        self.tell("serve 20")

    def end(self) -> None:
        """Its power is lost."""
        self.child.kill()
        self.child.wait()
        self.child.stdin.close()

    def lines(self) -> list[bytes]:
        """What it made, as lines of OUT, whose times aren't known."""
        self.tell("inputs 0")
        with self.path.open("rb") as file:
            file.seek(self.read)
            whole = file.read().rpartition(b"\n")[0]
        self.read += len(whole)
        self.made += [line for line in map(made_line, filter(None, whole.splitlines())) if line]
        return self.made


def made_line(text: bytes) -> bytes:
    """A line of what a sink's pins did, as one of OUT; nothing of one without a step."""
    kind, *rest = text.split()
    if kind == b"S":
        spindle, speed, mist, flood, selected, slot = map(int, rest[1:])
        return b"S %d %d.%06d %d %d %d %d" % (spindle, speed // 10**6, speed % 10**6, mist, flood, selected, slot)
    axes, down = map(int, rest[1:]) if kind == b"P" else (0, 0)
    steps = tuple((axes >> axis & 1) * (-1 if down >> axis & 1 else 1) for axis in range(3))
    return b"P %d %d %d 0" % steps if any(steps) else b""


@dataclass
class Tools:
    """Where the programs are."""

    ngc: str
    player: str
    preload: str
    consoles: Consoles
    sink: str
    wrong_sink: str  # says that it made one line more


class Lost(Exception):
    """Power was lost, or the console is gone."""


class Shop:
    """A player and a console over the files of a folder, from their start to a loss of power."""

    def __init__(self, tools: Tools, folder: Path, deeds: str, at: Steps | None, job: Job, sink: Sink | None) -> None:
        """Starts the player. `deeds` are of power_disk.c, `at` is where the motors were measured."""
        self.tools, self.folder, self.sink = tools, folder, sink
        self.log = folder / "log"
        with self.log.open("wb") as file:
            file.write(HEAD.pack(HEAD.size, *[0] * 70))
            file.truncate(LOG_BYTES)
        with self.log.open("r+b") as file:
            self.head = mmap.mmap(file.fileno(), HEAD.size)
        self.before = {name: read_or_none(folder / name) for name in FILES}
        self.said, self.killed, self.begun = "", False, time.monotonic()
        self.deadline: float | None = None
        self.alone: tuple[float, str] | None = None
        self.spared: tuple[Any, ...] | None = None  # how power is lost then
        self.amid_s = 0.0  # so long after a way or a home begins power is lost, if that isn't 0
        (folder / "progress").unlink(missing_ok=True)
        self.env = {"NGC_POWER": str(self.log), "NGC_POWER_DO": deeds}
        measured = [] if at is None else ["-a", *(f"{each / 1000:.3f}" for each in at)]
        self.player = self._start_player([*measured, *job.words])
        self.hold_at = 0.0  # when Ctrl-C is pressed while something runs, if that isn't 0
        self.console = self.into = self.out_of = -1

    def _start_player(self, words: list[str]) -> subprocess.Popen[bytes]:
        command = [self.tools.player, "-o", "1", "-s", "progress", *words, "out", "settings.toml", "position"]
        env = {**os.environ, **self.env, "LD_PRELOAD": self.tools.preload, "NGC_POWER_ROLE": "player"}
        with (self.folder / "said").open("ab") as said:
            return subprocess.Popen(command, cwd=self.folder, env=env, stdin=subprocess.DEVNULL,
                                    stdout=subprocess.DEVNULL, stderr=said)

    def start_console(self) -> None:
        """Starts the console, once the player listens."""
        until = time.monotonic() + PATIENCE_S
        while not (self.folder / "progress").exists():
            if self.player.poll() is not None:
                raise Lost
            if time.monotonic() > until:
                raise Wrong("the player doesn't listen")
            time.sleep(0.002)
        words = ["mill.dev", "settings.toml", "out", "--player", "progress", "--ngc", self.tools.ngc]
        env = {**self.env, "NGC_POWER_ROLE": "console"}
        self.console, self.into, self.out_of = self.tools.consoles.start(self.folder, env, words)

    def stop_at(self, line: int, is_all: bool) -> None:
        """Has the motors lose their power before the line of this number that they make."""
        self.head[16:28] = struct.pack("=QI", line, is_all)

    @property
    def is_off(self) -> bool:
        """Whether the motors have lost their power."""
        return HEAD.unpack(self.head)[4] != 0

    @property
    def has_lost(self) -> bool:
        """Whether power was lost, or one process was killed."""
        return self.is_off or self.killed or HEAD.unpack(self.head)[5] != 0

    def processes(self) -> list[int]:
        """Those that are still there, by the folder in which they work; also those that have just begun."""
        found = []
        for pid in filter(str.isdecimal, os.listdir("/proc")):
            with suppress(OSError):
                if os.readlink(f"/proc/{pid}/cwd") == str(self.folder):
                    found.append(int(pid))
        return found

    def spare(self, spares: bool) -> None:
        """Power isn't lost, and nothing fails, for as long as it is to be so."""
        if spares and self.spared is None:
            self.spared = self.deadline, self.alone, self.amid_s, *struct.unpack("=QI", self.head[16:28])
            self.deadline, self.alone, self.amid_s = None, None, 0.0
            self.stop_at(SPARED, False)
        elif not spares and self.spared is not None:
            self.deadline, self.alone, self.amid_s, line, is_all = self.spared
            self.stop_at(line, is_all)
            self.spared = None

    def begins_way(self) -> None:
        """A way or a home begins."""
        if self.amid_s:
            self.deadline = time.monotonic() + self.amid_s

    def lines(self) -> list[bytes]:
        """The lines that the motors made, since the job began."""
        if self.sink:
            return self.sink.lines()
        path = self.folder / "pins"
        return path.read_bytes().split(b"\n")[:-1] if path.exists() else []

    def type(self, text: str) -> None:
        """Types a line."""
        with suppress(BrokenPipeError):
            os.write(self.into, text.encode() + b"\n")

    def hear(self) -> str:
        """What the console says up to its next prompt. Raises Lost, Wrong."""
        said, until = "", time.monotonic() + PATIENCE_S
        while not said or said.endswith("\n"):
            if self.deadline and time.monotonic() > self.deadline or self.is_off and self._settles():
                self.kill()
                raise Lost
            if self.alone and time.monotonic() > self.alone[0]:
                self.kill_alone()
            if 0 < self.hold_at < time.monotonic():
                os.kill(self.console, signal.SIGINT)
                self.hold_at = 0.0
            if "waits for tool" in said:
                self._says_go()
            if "Ctrl-C three times ends ngc" in said and not self.hold_at and self.player.poll() is not None:
                self.hold_at = time.monotonic() + 0.3  # again and again, since nobody reads OUT any more
            if time.monotonic() > until:
                self._says_where()
                raise Wrong(f"no prompt for {PATIENCE_S} s")
            if select.select([self.out_of], [], [], 0.01)[0]:
                piece = os.read(self.out_of, 65536).decode()
                said += piece
                self.said += piece
                if not piece:
                    raise Lost
        self.hold_at = 0.0
        return said

    def _says_where(self) -> None:
        """Keeps where each process is, as nothing goes on."""
        for pid in self.processes():
            with suppress(OSError):
                self.said += f"{pid}: {Path(f'/proc/{pid}/stat').read_text()}{Path(f'/proc/{pid}/wchan').read_text()}\n"
        with suppress(OSError):
            os.kill(self.console, signal.SIGUSR1)
            if select.select([self.out_of], [], [], 2)[0]:
                self.said += os.read(self.out_of, 65536).decode()

    def _says_go(self) -> None:
        """The tool is in: somebody tells the player, as Enter does there."""
        with suppress(OSError), socket.socket(socket.AF_UNIX, socket.SOCK_DGRAM) as link:
            link.sendto(b"go", str(self.folder / "progress"))

    def _settles(self) -> bool:
        """Lets the record come to where the motors stand without power."""
        before, until = b"", time.monotonic() + 1
        while time.monotonic() < until:
            time.sleep(0.06)
            now = (self.folder / "position").read_bytes()
            if now == before:
                break
            before = now
        return True

    def kill(self) -> None:
        """Power is lost for all that is still there, and for what they have begun meanwhile."""
        while found := self.processes():
            self.killed = True
            for pid in found:
                with suppress(ProcessLookupError):
                    os.kill(pid, signal.SIGKILL)
            time.sleep(0.002)
            with suppress(ChildProcessError):
                self.player.poll()
        self.close()

    def kill_alone(self) -> None:
        """One process is killed."""
        (_, which), self.alone = self.alone, None
        names = {"console": [self.console], "player": [self.player.pid]}
        others = [pid for pid in self.processes() if pid not in (self.console, self.player.pid)]
        for pid in names.get(which, others):
            with suppress(ProcessLookupError):
                os.kill(pid, signal.SIGKILL)
        self.killed = True

    def close(self) -> None:
        """Waits for the end of all, for some seconds."""
        for file in (self.into, self.out_of):
            if file >= 0:
                os.close(file)
        self.into = self.out_of = -1
        until = time.monotonic() + PATIENCE_S / 4
        while (self.player.poll() is None or self.processes()) and time.monotonic() < until:
            time.sleep(0.002)

    def state(self, calls: list[list[Call]], chance: random.Random) -> tuple[bytes, bytes]:
        """A device and an OUT that the disk may have kept."""
        kept = chance.choice(("none", "first", "any", "any")), chance.choice(("none", "first", "torn"))
        device, out = self.before["mill.dev"], self.before["out"]
        return left_of(device, calls[0], kept[0], chance, False), left_of(out, calls[1], kept[1], chance, True)

    def lose(self, calls: list[list[Call]], keeps: dict[str, str], chance: random.Random) -> bool:
        """Makes of the files what the disk kept of them; whether that is another state than that of the kill."""
        is_other = False
        for which, name in enumerate(FILES):
            before = self.before[name]
            if before is None:
                continue
            now = (self.folder / name).read_bytes()
            if left_of(before, [call for call in calls[which] if call.ended], "all", chance, False) != now and all(
                    call.ended for call in calls[which]):
                raise Wrong(f"the model of the disk isn't {name}")
            if name == "out":
                self._is_synced(left_of(before, calls[which], "none", chance, False))
            if keeps[name] != "all":
                left = left_of(before, calls[which], keeps[name], chance, name == "out")
                is_other = is_other or left != now
                with (self.folder / name).open("r+b") as file:
                    file.write(left)
                    file.truncate(len(left))
        return is_other

    def _is_synced(self, lasting: bytes) -> None:
        """All that the motors did stands in OUT after a loss of power. Raises Wrong."""
        size = int(record_of(self.folder).get("bytes", "0"))
        if size > len(lasting):
            raise Wrong(f"{size} bytes of OUT are carried out, and {len(lasting)} are on the disk")


def read_or_none(path: Path) -> bytes | None:
    """A file's bytes, if it is one."""
    return path.read_bytes() if path.is_file() else None


def record_of(folder: Path) -> dict[str, str]:
    """The player's record."""
    text = (folder / "position").read_text() if (folder / "position").exists() else ""
    return dict(line.split(" ", 1) for line in text.splitlines() if " " in line.strip())
