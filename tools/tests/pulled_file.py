#!/usr/bin/env python3
"""Pulls the plug where OUT is a file: kills `ngc run`, the console and the player together, at moments by chance, and
counts the lines that no motor ever carries out.

    pulled_file.py --ngc PATH [--moments N] [--cut] --player PATH [--seed N]

A job has short blocks, arcs, a cycle and traverses. It is cut, and taken up by `recover` of ngc-operate, with a yes to
each question, until it is at its end; a cut may come in a recovery too. With `--cut` what of OUT wasn't synced is lost
by chance. All that the pins got is followed: a line that is carried out is put behind those before it, and a pulse of a
way back takes the last one away, whose steps it has to have, reversed. What is left at the end has to be the uncut run,
line by line."""
import argparse
import os
import random
import signal
import subprocess
import sys
import tempfile
import threading
import time
from collections.abc import Iterable
from dataclasses import dataclass, replace
from pathlib import Path

sys.path.insert(0, str(Path(__file__).resolve().parent))

from pulled_plug import STEP_NM, Uncut, Wrong, linked, run_uncut, steps_after, whole_lines
from session_support import FIRST, PATIENCE_S, memory
from out_support import text_of

from ngc_tools.failure import Failure
from ngc_tools.formats.device import Device
from ngc_tools.formats.record import Record
from ngc_tools.ngc.console import Console, Ended
from ngc_tools.operator.display import on_words
from ngc_tools.operator.face import SAID, UnderWay
from ngc_tools.operator.meter import Meter
from ngc_tools.operator.operator import Operator
from ngc_tools.operator.recovery import OutFound
from ngc_tools.operator.synced import SyncedLink
from ngc_tools.link.progress import NoAnswer, Report
from ngc_tools.link.out_file import OutFile


def program(blocks: int) -> bytes:
    """Short moves on a stair, arcs among them, a cycle, waits, switches, traverses over the work."""
    lines = ["G17 G21 G40 G49 G54 G80 G90 G94", "M3 S1000", "G0 Z0.1", "G1 Z-0.1 F600"]
    x = y = 0
    for block in range(blocks):
        if block % 3 == 2:
            y += 5
        else:
            x += 5
        lines.append(f"G1 X{x / 100:.2f} Y{y / 100:.2f}")
        if block % 10 == 4:
            lines.append(f"G3 X{x / 100:.2f} Y{y / 100:.2f} I0.05 J0")
        if block % 10 == 7:
            x, y = x + 10, y + 10
            lines += ["M8", f"G2 X{x / 100:.2f} Y{y / 100:.2f} I0.1 J0", "G4 P0.002"]
        if block % 20 == 19:
            lines += ["G0 Z0.3", "G0 X0 Y0", "M9", f"G83 X0.1 Y{y / 100:.2f} Z-0.2 R0.1 Q0.1", "G80",
                      f"G0 X{x / 100:.2f} Y{y / 100:.2f}", "G1 Z-0.1"]
    lines += ["G0 Z0.5", "G0 X0 Y0", "M2"]
    return "".join(line + "\n" for line in lines).encode()


@dataclass
class Options:
    """How a job is run, and cut: `is_torn` loses what wasn't synced."""

    ngc: str
    is_torn: bool
    player: str
    ahead: int = 100
    longest_s: float = 0.5


@dataclass
class Result:
    """How many moments were seen, with how many ways on and back in the recoveries, and jobs that came to their end."""

    moments: int = 0
    on: int = 0
    back: int = 0
    put_back: int = 0
    finished: int = 0
    until: float | None = None

    def goes_on(self, moments: int) -> bool:
        """Whether more moments are to be seen."""
        return self.moments < moments and (self.until is None or time.monotonic() < self.until)


class Yes:
    """A person who says yes to all."""

    def __init__(self) -> None:
        self.said: list[str] = []

    def say(self, text: str, kind: str = SAID) -> None:
        """Keeps it."""
        self.said.append(text)

    def once(self, text: str, kind: str = SAID) -> None:
        """Keeps it."""
        self.said.append(text)

    def live(self, view: UnderWay | None) -> None:
        """Shows nothing."""

    def moved(self, report: Report) -> None:
        """Shows nothing."""

    def ask(self, question: str) -> str:
        """Says yes."""
        self.said.append(question)
        return "yes"

    def agrees(self, question: str) -> bool:
        """Whether that is a yes."""
        return self.ask(question).strip().lower() == "yes"

    def interrupted(self) -> bool:
        """Doesn't hold."""
        return False

    def asides(self) -> Iterable[str]:
        """Says nothing meanwhile."""
        return ()


class SlowLink(SyncedLink):
    """Syncs as a slow disk does."""

    def __init__(self, path: Path, out: Path, chance: random.Random, device: Path) -> None:
        super().__init__(path, out, 5 * PATIENCE_S, str(device))
        self.chance = chance

    def sync(self) -> None:
        """Takes up to 20 ms in which power may be lost."""
        time.sleep(self.chance.choice((0, 0, 0.005, 0.02)))
        super().sync()


class Job:
    """One run of the program, cut again and again. `made` are the lines of OUT that lead to where the motors are."""

    def __init__(self, folder: Path, uncut: Uncut, options: Options, chance: random.Random, result: Result) -> None:
        self.folder, self.uncut, self.options, self.chance, self.result = folder, uncut, options, chance, result
        self.made: list[bytes] = []
        for name in ("job.dev", "job.dev.out", "job.dev.asked", "out", "record"):
            (folder / name).unlink(missing_ok=True)
        subprocess.run([options.ngc, "format", folder / "job.dev"], check=True)
        (folder / "out").touch()

    def run(self, moments: int) -> None:
        """Runs it to its end; once so many moments were seen in all it isn't cut any more."""
        while not self._is_over():
            session = Session(self.folder, self.options, self.chance)
            try:
                if self.result.goes_on(moments):
                    longest_s = self.options.longest_s / self.chance.choice((1, 1, 3, 6))
                    session.kill_after(self.chance.uniform(0, longest_s), self.chance.random() < 0.2)
                ended = session.work(self.uncut.text)
            finally:
                session.kill()
            if not ended and session.timer is None:
                raise Wrong("\n".join(session.face.said))
            self._follow(session)
            if not ended:
                self.result.moments += 1
                self._cut(session)
        self.result.finished += 1

    def _is_over(self) -> bool:
        """Whether all pulses and waits are made, in order, with the outputs that the uncut run has there."""
        made = list(with_outputs(self.made))
        wanted = list(with_outputs(self.uncut.lines))
        if made != wanted[:len(made)]:
            at = next(at for at, (one, other) in enumerate(zip(made + [b""], wanted)) if one != other)
            raise Wrong(f"other lines than the uncut run from {at} of {len(wanted)} on: {made[at:at + 2]}")
        return len(made) == len(wanted) and self.made[-1][:2] == b"S "

    def _follow(self, session: "Session") -> None:
        """Follows what the pins got."""
        got = [line for line in session.pins() if line != b"off"]
        recovery = session.recovery
        if recovery is not None and recovery.way is None:
            raise Wrong(f"no way: {recovery.words()}")
        if recovery is not None and not recovery.is_there() and on_words(recovery.outputs) and got[:1]:
            if got[0] != str(recovery.outputs).encode():
                raise Wrong(f"{got[0]!r} and not {recovery.outputs} comes on")
            del got[0]
        if recovery is not None and recovery.line < len(self.made):
            got = self._taken_back(session, recovery.line, got)
            self.result.back += 1
        elif recovery is not None and recovery.line > len(self.made):
            self.result.on += 1
        self.result.put_back += session.put_back
        self.made += got

    def _taken_back(self, session: "Session", line: int, got: list[bytes]) -> list[bytes]:
        """Takes the pulses of a way back away; returns what came after it."""
        back = [at for at in range(len(self.made) - 1, line - 1, -1) if self.made[at][:1] == b"P"]
        there, after = got[:len(back)], got[len(back):]
        for at, pulse in zip(back, there):
            if [-int(word) for word in pulse.split()[1:4]] != [int(word) for word in self.made[at].split()[1:4]]:
                raise Wrong(f"{pulse!r} doesn't take line {at + 1}, {self.made[at]!r}, back")
        left = back[len(there)] + 1 if len(there) < len(back) else line
        counted = Record.read(self.folder / "record").lines
        most = back[len(there) - 1] if there else len(self.made)
        del self.made[line if after else min(max(counted, left), most):]
        return after

    def _cut(self, session: "Session") -> None:
        """Looks whether the record is true, makes it that of this very moment, as somebody would who measures, and
        loses what wasn't synced."""
        out, path = self.folder / "out", self.folder / "record"
        lines = out.read_bytes().splitlines(True)
        if [line[:-1] for line in lines[:len(self.made)]] != self.made:
            raise Wrong("what was carried out doesn't stand in OUT")
        record = Record.read(path)
        at_nm = self._at_nm(record.lines)
        if record.lines <= len(self.made) and at_nm != record.at_nm:
            raise Wrong(f"the record says {record.at_nm} behind line {record.lines}, which leads to {at_nm}")
        size = sum(map(len, lines[:len(self.made)]))
        if size > max(session.told, session.begun):
            raise Wrong("lines were carried out that weren't synced")
        if self.options.is_torn and session.told >= 0:
            os.truncate(out, self.chance.randint(max(size, session.told), max(size, session.told, out.stat().st_size)))
        source = OutFile(out)
        mark = source.mark(size)
        source.close()
        now = replace(record, lines=len(self.made), size=size, at_nm=self._at_nm(len(self.made)), mark=mark, stopped="")
        path.write_bytes(text_of(now))

    def _at_nm(self, count: int) -> tuple[int, ...]:
        return tuple(each * nm for each, nm in zip(steps_after(self.made[:count]), STEP_NM))


def with_outputs(lines: list[bytes]) -> Iterable[tuple[bytes, bytes]]:
    """The pulses and waits of lines, each with the outputs that are on then."""
    outputs = b""
    for line in lines:
        if line[:1] == b"S":
            outputs = line
        else:
            yield line, outputs


class Session:
    """A player, a console and `ngc run`, over a file."""

    def __init__(self, folder: Path, options: Options, chance: random.Random) -> None:
        self.folder, self.options, self.chance, self.face = folder, options, chance, Yes()
        self.socket, self.log = folder / "progress", folder / "pins"
        for path in (self.socket, self.log):
            path.unlink(missing_ok=True)
        self.told, self.begun = -1, (folder / "out").stat().st_size
        self.recovery = None
        self.put_back = 0
        self.console: Console | None = None
        self.timer: threading.Timer | None = None
        self.killed = False
        self.player = self._start_player()
        try:
            self.link = linked(self.player, folder, lambda: SlowLink(self.socket, folder / "out", chance,
                                                                        folder / "job.dev"))
        except BaseException:
            self._kill_all_that_is_left()
            raise

    def _start_player(self) -> int:
        words = [self.folder / "out", self.folder / "settings.toml", self.folder / "record", "--follow",
                 "--no-ask-tool", "--progress", self.socket, "--pins", self.log]
        given, said = [str(word) for word in words], str(self.folder / "said")
        quiet = [(os.POSIX_SPAWN_OPEN, 1, os.devnull, os.O_WRONLY, 0),
                 (os.POSIX_SPAWN_OPEN, 2, said, os.O_WRONLY | os.O_CREAT | os.O_APPEND, 0o600)]
        return os.posix_spawn(self.options.player, [self.options.player, *given], os.environ, file_actions=quiet)

    def kill_after(self, seconds: float, in_opening: bool) -> None:
        """Kills all after so long, counted from now on, or else from where the recovery, or the work, begins."""
        self.timer = threading.Timer(seconds, self._kill_all)
        if in_opening:
            self.timer.start()

    def _kill_all(self) -> None:
        self.killed = True
        os.kill(self.player, signal.SIGKILL)  # it isn't waited for yet
        if self.console:
            self.console.child.kill()

    def work(self, text: bytes) -> bool:
        """Recovers, and works to the program's end; False where the plug was pulled before."""
        try:
            self._work(text)
            if self.timer:
                self.timer.cancel()
                if self.timer.ident:
                    self.timer.join()
            if self.killed:
                return False
            self.link.end()
            self.console.quit()
            return True
        except (Ended, NoAnswer, Failure):
            if not self.killed:
                raise
            return False

    def _work(self, text: bytes) -> None:
        folder, ngc, settings = self.folder, self.options.ngc, str(self.folder / "settings.toml")
        self.link.cut_part()
        before = self.link.size()
        found = OutFound.of(ngc, settings, self.link, Device.read(folder / "job.dev"))
        self.begun = self.link.size()
        self.put_back = self.begun > before
        self.console = Console(ngc, folder / "job.dev", settings, folder / "out")
        if self.killed:
            self._kill_all()
        status = self.console.status()
        operator = Operator(self.console, self.face, Meter(self.link, self.options.ahead))
        operator.recover.found = found
        operator.recover.begin(status)
        if self.timer and not self.timer.is_alive() and not self.killed:
            self.timer.start()
        if status.half != "none" or found.is_left() or not found.recovery.is_there():
            self.recovery = found.recovery
            operator.do("recover")
        if self.console.status().half != "none" or self.killed:
            return
        if self.console.status().entries == 0:
            self.console.load(text)
        if self.console.status().place or not self.link.ask().carried:
            self.console.ask("start")
            operator.work.go()

    def kill(self) -> None:
        """Kills all now, if they aren't over."""
        if self.timer:
            self.timer.cancel()
            if self.timer.ident:
                self.timer.join()
        self.told = self.link.told
        self._kill_all_that_is_left()
        self.link.close()

    def _kill_all_that_is_left(self) -> None:
        if self.console and self.console.child.poll() is None:
            self.console.child.kill()
        if self.console:
            self.console.close_pipes()
        os.kill(self.player, signal.SIGKILL)  # it isn't waited for yet
        os.waitpid(self.player, 0)

    def pins(self) -> list[bytes]:
        """The lines that the pins got."""
        return whole_lines(self.log)


def pull(options: Options, moments: int, seed: int, blocks: int = 40, seconds: float | None = None) -> Result:
    """Runs jobs until so many moments were seen, or so many seconds are over; the last one isn't cut then any more.
    Raises Wrong."""
    result, chance = Result(until=time.monotonic() + seconds if seconds else None), random.Random(seed)
    with tempfile.TemporaryDirectory(prefix="ngc-file-", dir=memory()) as name:
        folder = Path(name)
        (folder / "settings.toml").write_text(FIRST)
        uncut = run_uncut(options.ngc, FIRST, program(blocks))
        while result.goes_on(moments):
            Job(folder, uncut, options, chance, result).run(moments)
    return result


def main() -> int:
    """Runs it by words, and tells what was seen."""
    parser = argparse.ArgumentParser(description=__doc__, formatter_class=argparse.RawDescriptionHelpFormatter)
    parser.add_argument("--ngc", default=os.environ.get("NGC"), required="NGC" not in os.environ)
    parser.add_argument("--moments", type=int, default=200)
    parser.add_argument("--seed", type=int, default=1)
    parser.add_argument("--blocks", type=int, default=40)
    parser.add_argument("--ahead", type=int, default=100)
    parser.add_argument("--cut", action="store_true", help="what wasn't synced is lost by chance")
    parser.add_argument("--player", required=True, help="the player, as `make -C tools/player` builds it")
    parser.add_argument("--longest", type=float, default=0.5, help="a cut comes after so many seconds at most")
    given = parser.parse_args()
    begun = time.monotonic()
    options = Options(given.ngc, given.cut, given.player, given.ahead, given.longest)
    result = pull(options, given.moments, given.seed, given.blocks)
    print(f"{result.moments} moments in {time.monotonic() - begun:.0f} s: {result.on} ways on, {result.back} back,"
          f" {result.put_back} times lines were put back;"
          f" {result.finished} jobs made each pulse of the uncut run, in order; no pulse was never made")
    return 0


if __name__ == "__main__":
    sys.exit(main())
