#!/usr/bin/env python3
"""Pulls the plug: kills `ngc run` and the player together, at moments by chance, and counts the lines that no motor
ever carries out.

    pulled_plug.py --ngc PATH [--moments N] [--ahead LINES | --unmetered] [--pipe BYTES] --player PATH [--seed N]
                   [--machine FILE] [--program FILE] [--settings FILE]

A job cuts 80 short blocks, an arc and a drilled hole, or it is a program without tool lengths whose lines each name
their motion. A tick and a status at a time give its lines and where each
segment of it begins, uncut. Then it is run over a named pipe by a player that keeps the times, and cut, and taken up
again, until it is at its end. After each cut the new session says which segment comes next: what lies between the last
line that the pins got and that segment's first line was handed out, and is never carried out."""
import argparse
import os
import random
import signal
import statistics
import subprocess
import sys
import tempfile
import threading
import time
import tomllib
from collections.abc import Callable
from contextlib import suppress
from dataclasses import dataclass, field
from functools import cache, cached_property
from pathlib import Path
from typing import TypeVar

sys.path.insert(0, str(Path(__file__).resolve().parent))

from session_support import FIRST, PATIENCE_S, memory
from out_support import after, text_of

from ngc_tools.ngc.console import Console, Ended, Status
from ngc_tools.operator.meter import LIMITS, Meter
from ngc_tools.formats.out import read_line
from ngc_tools.formats.position import Position, millimetres
from ngc_tools.link.progress import Link, NoAnswer
from ngc_tools.formats.record import Record

STEP_NM = (1000, 1000, 1000)


class Wrong(AssertionError):
    """Something that must not be."""


def program(blocks: int) -> bytes:
    """Short moves of 0.05 mm at F600 to and fro on stairs, an arc, a hole, waits and switches."""
    lines = ["G17 G21 G40 G49 G54 G80 G90 G94", "M3 S1000", "G0 Z0.1", "G1 Z-0.1 F600"]
    x = y = 0
    for block in range(blocks):
        if block % 3 == 2:
            y += 1 if block // 30 % 2 == 0 else -1
        else:
            x += 1 if block // 21 % 2 == 0 else -1
        lines.append(f"G1 X{5 * x / 100:.2f} Y{5 * y / 100:.2f}")
        if block % 40 == 20:
            lines.append("G4 P0.002")
    lines += [f"G2 X{5 * x / 100 + 0.4:.2f} Y{5 * y / 100:.2f} I0.2", "G0 Z0.2", "G83 X0.3 Y0.2 Z-0.3 R0.1 Q0.2", "G80",
              "G0 X0.1 Y0.7 Z0.5", "M2"]
    return "".join(line + "\n" for line in lines).encode()


@dataclass
class Uncut:
    """The program as it runs uncut: its lines of OUT, and the index of the first line of each segment, and of what
    comes at each place where no segment is open."""

    text: bytes
    lines: list[bytes]
    segments: dict[tuple[int, int], int]
    places: dict[int, int]

    @cached_property
    def points(self) -> list[tuple[int, ...]]:
        """Where the machine stands before each line, and at the end, in steps."""
        position, found = Position(STEP_NM), [(0, 0, 0)]
        for number, line in enumerate(self.lines, 1):
            position.take(read_line(line, number))
            found.append(tuple(position.steps))
        return found

    def at(self, index: int) -> tuple[int, ...]:
        """Where the machine stands before a line, in steps."""
        return self.points[index]


def steps_after(lines: list[bytes], start: tuple[int, ...] = (0, 0, 0)) -> tuple[int, ...]:
    """Where pulses lead, in steps."""
    position = Position(STEP_NM)
    position.steps = list(start)
    return tuple(after(position, (read_line(line, number) for number, line in enumerate(lines, 1))).steps)


@cache
def run_uncut(ngc: str, settings: str, text: bytes) -> Uncut:
    """Runs it a tick at a time into a file, by the text of such settings."""
    with tempfile.TemporaryDirectory(prefix="ngc-uncut-", dir=memory()) as name:
        device, out = Path(name, "device"), Path(name, "out")
        Path(name, "settings.toml").write_text(settings)
        subprocess.run([ngc, "format", device], check=True)
        return _by_ticks(Console(ngc, device, Path(name, "settings.toml"), out), out, text)


def _by_ticks(console: Console, out: Path, text: bytes) -> Uncut:
    """Has a console run it so."""
    console.load(text)
    console.ask("start")
    segments: dict[tuple[int, int], int] = {}
    places: dict[int, int] = {}
    while True:
        status, size = console.status(), os.path.getsize(out)
        if status.half == "program":
            segments.setdefault((status.place, status.segment), size)
        else:
            places.setdefault(status.place, size)
        if "idle" in console.ask("tick 1"):
            break
    console.quit()
    whole = out.read_bytes()
    return Uncut(text, whole.splitlines(), {key: whole.count(b"\n", 0, size) for key, size in segments.items()},
                 {key: whole.count(b"\n", 0, size) for key, size in places.items()})


@dataclass
class Options:
    """How a job is run: metered by `ahead` lines, by as many as the player wants where that is 0, or not at all."""

    ngc: str
    ahead: int | None
    pipe: int
    player: str
    longest_s: float
    machine: str | None = None  # what the motors allow, for ramps
    settings: str = FIRST  # the text of the file

    @property
    def bound(self) -> int | None:
        """The most lines that OUT may be ahead of the player; None where there is no bound."""
        return LIMITS[-1] if self.ahead == 0 else self.ahead

    def nanometres(self, steps: tuple[int, ...]) -> tuple[int, ...]:
        """A point in nm."""
        return tuple(count * step for count, step in zip(steps, tomllib.loads(self.settings)["step_nm"]))


@dataclass
class Result:
    """What was seen: of each moment how many lines are never carried out."""

    lost: list[int] = field(default_factory=list)
    finished: int = 0
    ended_short: int = 0


class Job:
    """One run of the program over a device of its own, cut again and again."""

    def __init__(self, folder: Path, uncut: Uncut, options: Options, chance: random.Random) -> None:
        self.folder, self.uncut, self.options, self.chance = folder, uncut, options, chance
        self.device = folder / "job.dev"
        self.stands = (0, 0, 0)  # where the motors are, in steps
        self.done = 0            # lines of the uncut run that are carried out
        self.sessions = 0

    def run(self, result: Result, moments: int) -> None:
        """Runs it to its end; once so many moments were seen in all it isn't cut any more."""
        subprocess.run([self.options.ngc, "format", self.device], check=True)
        while not self._session(result, len(result.lost) + (self.sessions > 0) < moments):
            pass

    def _session(self, result: Result, cut: bool) -> bool:
        """From power on to the cut, or to the end; True where the program is at its end."""
        self.sessions += 1
        session = Session(self.folder, self.device, self.options, self.stands)
        try:
            status = session.console.status()
            begins = self._next_line(status)
            if self.sessions > 1:
                self._note_lost(result, begins)
            if begins == len(self.uncut.lines):
                result.ended_short += 1
                return True
            back = self._take_up(session, status, begins)
            if cut:
                session.kill_after(self._moment())
            ended = session.work_on()
            self._look(session, begins, back, ended)
            result.finished += ended
            return ended
        finally:
            session.kill()

    def _moment(self) -> float:
        """When to pull the plug, in seconds: often soon, as in an approach."""
        return self.chance.uniform(0, self.options.longest_s / self.chance.choice((1, 1, 6, 6, 6)))

    def _note_lost(self, result: Result, begins: int) -> None:
        """Notes how many lines the last cut lost. Raises Wrong where it is more than the bound."""
        lost = max(0, begins - self.done)
        result.lost.append(lost)
        if self.options.bound and lost > self.options.bound:
            raise Wrong(f"{lost} lines before line {begins} are never carried out; the bound is {self.options.bound}")
        self.done = max(self.done, begins)

    def _next_line(self, status: Status) -> int:
        """The index of the line that comes next by the status."""
        if self.sessions == 1:
            return 0
        if status.half == "program":
            return self.uncut.segments[status.place, status.segment]
        if status.half != "none":
            raise Wrong(f"a block of the operator's: {status}")
        if status.place or not self.done:
            return self.uncut.places[status.place]
        return len(self.uncut.lines)  # after M2 the place is the beginning again

    def _take_up(self, session: "Session", status: Status, begins: int) -> int:
        """Gives the commands of docs/RECOVERY.md; returns how many lines the way back has."""
        console = session.console
        if self.sessions == 1:
            session.expect(console.load(self.uncut.text), "done 1")
            session.expect(console.ask("start")[0], "going")
            return 0
        there = self.uncut.at(begins)
        way = max(abs(a - b) for a, b in zip(self.stands, there))
        place = " ".join(map(millimetres, self.options.nanometres(self.stands)))
        session.expect(console.ask("reference " + place)[0].split()[0], "done")
        if status.half == "program":
            session.expect(console.ask("resume")[0], "going")
            return way + 1
        x, y, z = status.at
        if way:
            session.expect(console.ask(f"mdi G53 G0 X{x} Y{y} Z{z}")[0], "begun")
            session.work()
            session.drain()
        session.expect(console.ask("start")[0], "going")
        return way

    def _look(self, session: "Session", begins: int, back: int, ended: bool) -> None:
        """Compares what the pins got with the uncut run, and notes where the motors are."""
        got = session.pins()
        way, worked = got[:back], got[back:]
        stood = self.stands
        self.stands = steps_after(got, self.stands)
        if len(got) >= back:
            there = steps_after(way, stood)
            if there != self.uncut.at(begins):
                raise Wrong(f"the way back leads to {there}, and the segment begins at {self.uncut.at(begins)}")
            if worked != self.uncut.lines[begins:begins + len(worked)]:
                raise Wrong(f"session {self.sessions}: other lines than those of the uncut run from {begins} on")
            self.done = begins + len(worked)
        session.check_record(got, stood)
        if ended and (self.done != len(self.uncut.lines) or self.stands != self.uncut.at(self.done)):
            raise Wrong(f"it ended at {self.stands} after line {self.done} of {len(self.uncut.lines)}")


SomeLink = TypeVar("SomeLink", bound=Link)


def linked(player: int, folder: Path, make: Callable[[], SomeLink]) -> SomeLink:
    """A link to a player, once it answers; its record is there then too. Raises Wrong where the player ends before, or
    doesn't listen though it was looked for as often as fits into PATIENCE_S."""
    for _ in range(200 * PATIENCE_S):
        with suppress(NoAnswer):
            link = make()
            link.ask()
            return link
        if os.waitid(os.P_PID, player, os.WEXITED | os.WNOHANG | os.WNOWAIT):
            raise Wrong(f"the player ends at its start: {last_said(folder)}")
        time.sleep(0.005)
    raise Wrong(f"the player doesn't start: {last_said(folder)}")


def last_said(folder: Path) -> str:
    """The end of what the players of a job said."""
    said = folder / "said"
    return said.read_text(errors="replace")[-400:] if said.exists() else ""


def whole_lines(log: Path) -> list[bytes]:
    """The lines that the pins got. Power may be lost within one: then that is none."""
    return log.read_bytes().split(b"\n")[:-1] if log.exists() else []


class Session:
    """A player and a controller, with a named pipe between them. `is_pulled`: the plug is, or is being pulled."""

    def __init__(self, folder: Path, device: Path, options: Options, stands: tuple[int, ...]) -> None:
        """Starts both; `stands` is where the motors are, in steps, as somebody has measured it."""
        self.folder, self.options = folder, options
        self.fifo, self.socket = folder / "axis", folder / "progress"
        self.log, self.record = folder / "pins", folder / "record"
        for path in (self.fifo, self.socket, self.log):
            path.unlink(missing_ok=True)
        os.mkfifo(self.fifo)
        self.record.write_bytes(text_of(Record(str(self.fifo), at_nm=options.nanometres(stands))))
        self.timer: threading.Timer | None = None
        self.is_pulled = self.over = False
        self.player = self._start_player()
        try:
            self.link = linked(self.player, folder, lambda: Link(self.socket, 5 * PATIENCE_S))
            self.meter = None if options.ahead is None else Meter(self.link, options.ahead or None)
            self.console = Console(options.ngc, device, folder / "settings.toml", self.fifo)
        except BaseException:
            os.kill(self.player, signal.SIGKILL)
            os.waitpid(self.player, 0)
            raise

    def _start_player(self) -> int:
        words = [self.fifo, self.folder / "settings.toml", self.record]
        ramps = ["--machine", self.options.machine] if self.options.machine else []
        said, how = self.folder / "said", os.O_WRONLY | os.O_CREAT | os.O_APPEND
        given = ["-t", "-b", self.options.pipe, "-s", self.socket, "-p", self.log, *ramps, *words]
        command = [str(word) for word in (self.options.player, *given)]
        quiet = [(os.POSIX_SPAWN_OPEN, 1, os.devnull, os.O_WRONLY, 0), (os.POSIX_SPAWN_OPEN, 2, str(said), how, 0o600)]
        return os.posix_spawn(command[0], command, os.environ, file_actions=quiet)

    @staticmethod
    def expect(got: str, wanted: str) -> None:
        """Raises Wrong where a reply is another."""
        if got != wanted:
            raise Wrong(f"{got}, and {wanted} was expected")

    def kill_after(self, seconds: float) -> None:
        """Kills both after so long."""
        self.timer = threading.Timer(seconds, self._pull)
        self.timer.start()

    def _pull(self) -> None:
        self.is_pulled = True
        self._kill_both()

    def _kill_both(self) -> None:
        os.kill(self.player, signal.SIGKILL)  # it isn't waited for yet
        self.console.child.kill()

    def work_on(self) -> bool:
        """Works until the program is at its end, and ends both as an operator does; False where the plug was pulled.
        Raises Wrong where one of them ends, or doesn't answer, without that."""
        try:
            self.work()
            if self.timer:
                self.timer.cancel()
                self.timer.join()
            self.drain()
            self.console.status()
            self.link.end()
        except (Ended, NoAnswer) as error:
            if not self.is_pulled:
                raise Wrong(f"{error}; {last_said(self.folder)}") from error
            self.kill()
            return False
        self.console.quit()
        self._reap()
        return True

    def work(self) -> None:
        """Gives ticks until there is nothing to do. Raises Ended or NoAnswer where the plug was pulled."""
        while True:
            count = self.meter.room() if self.meter else 500
            replies = self.console.ask(f"tick {count}")
            if any(reply.startswith("refused") for reply in replies):
                if not self.is_pulled:
                    raise Wrong(" ".join(replies))
                raise Ended(-9, replies)  # its reader is gone before it is killed itself
            if "idle" in replies or "stopped" in replies:
                self.link.last()
                return

    def drain(self) -> None:
        """Waits until the player has carried out everything."""
        while self.link.ask().behind:
            time.sleep(0.002)

    def kill(self) -> None:
        """Kills both now, if they aren't over."""
        if self.timer:
            self.timer.cancel()
            self.timer.join()
        if not self.over:
            self._kill_both()
            self._reap()

    def _reap(self) -> None:
        self.over = True
        os.waitpid(self.player, 0)
        self.console.close_pipes()
        self.link.close()

    def pins(self) -> list[bytes]:
        """The lines that the pins got, once both have ended."""
        return whole_lines(self.log)

    def check_record(self, got: list[bytes], stood: tuple[int, ...]) -> None:
        """The record is true of some moment of this session: of its count of lines, the place fits."""
        record = Record.read(self.record)
        if record.lines > len(got):
            raise Wrong(f"the record counts {record.lines} lines, and the pins got {len(got)}")
        steps = steps_after(got[:record.lines], stood)
        if record.at_nm != self.options.nanometres(steps):
            raise Wrong(f"the record says {record.at_nm} nm after {record.lines} lines, and they lead to {steps}")


def pull(options: Options, moments: int, seed: int, text: bytes = program(80)) -> Result:
    """Runs jobs of a program until so many moments were seen. Raises Wrong."""
    result = Result()
    chance = random.Random(seed)
    with tempfile.TemporaryDirectory(prefix="ngc-plug-", dir=memory()) as name:
        folder = Path(name)
        (folder / "settings.toml").write_text(options.settings)
        uncut = run_uncut(options.ngc, options.settings, text)
        while len(result.lost) < moments:
            for path in ("job.dev", "record"):
                (folder / path).unlink(missing_ok=True)
            Job(folder, uncut, options, chance).run(result, moments)
    return result


def main() -> int:
    """Runs it by words, and tells what was seen."""
    parser = argparse.ArgumentParser(description=__doc__, formatter_class=argparse.RawDescriptionHelpFormatter)
    parser.add_argument("--ngc", default=os.environ.get("NGC"), required="NGC" not in os.environ)
    parser.add_argument("--moments", type=int, default=200)
    parser.add_argument("--seed", type=int, default=1)
    parser.add_argument("--blocks", type=int, default=80)
    parser.add_argument("--ahead", type=int, default=100, help="lines; 0 for as many as the player wants")
    parser.add_argument("--unmetered", action="store_true")
    parser.add_argument("--pipe", type=int, default=4096)
    parser.add_argument("--player", required=True, help="the player, as `make -C tools/player` builds it")
    parser.add_argument("--machine", help="the file of the player's ramps: it makes none without")
    parser.add_argument("--program", type=Path, help="another job")
    parser.add_argument("--settings", type=Path, help="others than those of docs/SESSION.md's first session")
    parser.add_argument("--longest", type=float, default=0.3, help="a cut comes after so many seconds at most")
    given = parser.parse_args()
    ahead = None if given.unmetered else given.ahead
    settings = given.settings.read_text() if given.settings else FIRST
    options = Options(given.ngc, ahead, given.pipe, given.player, given.longest, given.machine, settings)
    text = given.program.read_bytes() if given.program else program(given.blocks)
    begun = time.monotonic()
    result = pull(options, given.moments, given.seed, text)
    lost = sorted(result.lost)
    print(f"{len(lost)} moments in {time.monotonic() - begun:.0f} s; never carried out: {lost[0]} to {lost[-1]} lines,"
          f" median {statistics.median(lost):.0f}; {sum(map(bool, lost))} moments with any;"
          f" {result.finished} jobs ended where the uncut one does, {result.ended_short} were cut after their last"
          " block")
    return 0


if __name__ == "__main__":
    sys.exit(main())
