"""The record of runs: lines of text that a person can read, beside the device. Each is appended and synced, and none is
ever written over. A line that a loss of power tore is marked as such, and counts for nothing."""
import os
import re
import time
import zlib
from collections.abc import Iterable, Iterator
from contextlib import suppress
from dataclasses import dataclass, replace
from datetime import datetime
from pathlib import Path

from ngc_tools.files import naming, opened
from ngc_tools.formats.lines import Program
from ngc_tools.ngc.console import Status
from ngc_tools.operator.face import WARNING
from ngc_tools.operator.session import Session
from ngc_tools.operator.work import CHANGE, SINGLE, clock
from ngc_tools.shown import shown

SUFFIX = ".runs"
TORN = " (torn)"
_FORM = "%Y-%m-%d %H:%M:%S %z"
_LINE = re.compile(r"(\d{4}-\d\d-\d\d \d\d:\d\d:\d\d [-+]\d{4}) (loaded|began|held|stopped|went|tool|broke|left|refused"
                   r"|given|ended)\b(.*)")
_LOADED = re.compile(r" [\d,]+ bytes, mark ([0-9a-f]{8}): (.+)")
_FROM = ", from line "
_SHOWN = 20  # lines
_MOST = 1 << 20  # bytes at the file's end that are read
_BROKE = "broke off in {line}: power was lost, or the session ended amid it"


@dataclass(frozen=True, slots=True)
class RunEvent:
    """A line of the record: when, in seconds since 1970, what, and the rest of it."""

    at: float
    word: str
    rest: str

    @staticmethod
    def read(line: str) -> "RunEvent | None":
        """Reads a line; None where it is none, or is torn."""
        match = None if line.endswith(TORN) else _LINE.fullmatch(line)
        if match is None:
            return None
        try:
            return RunEvent(datetime.strptime(match[1], _FORM).timestamp(), match[2], match[3])
        except ValueError:
            return None


@dataclass(frozen=True, slots=True)
class RecordedRun:
    """The last run, by the lines of the record: of which program, by its name and a mark of its bytes, since when, and
    how often it was held, stopped, and lost. It `is_open` until it is through, or given up, and `runs` between."""

    name: str = ""
    mark: str = ""
    began_at: float = 0.0
    holds: int = 0
    stops: int = 0
    losses: int = 0
    is_open: bool = False
    runs: bool = False

    def after(self, event: RunEvent) -> "RecordedRun":
        """The same after another line."""
        match event.word:
            case "loaded":
                found = _LOADED.fullmatch(event.rest)
                return replace(self, mark=found[1], name=found[2]) if found else self
            case "began":
                return RecordedRun(self.name, self.mark, event.at, is_open=True, runs=True)
            case "went":
                return replace(self, runs=True)
            case "held" | "refused" | "left":
                return replace(self, runs=False, holds=self.holds + (event.word == "held"))
            case "stopped":
                return replace(self, runs=False, stops=self.stops + 1)
            case "broke":
                return replace(self, runs=False, losses=self.losses + 1)
            case "given" | "ended":
                return replace(self, is_open=False, runs=False)
        return self

    def figures(self, now: float) -> str:
        """How long it took, and what came between, for people."""
        counts = ((self.holds, "hold", "holds"), (self.stops, "stop", "stops"),
                  (self.losses, "loss of power", "losses of power"))
        said = [f"{count} {one if count == 1 else many}" for count, one, many in counts if count]
        return f"after {clock(max(0, int(1e6 * (now - self.began_at))))}" + (f", {', '.join(said)}" if said else "")


def of_device(device: str | Path) -> Path:
    """The record beside a device."""
    return Path(str(device) + SUFFIX)


def read_lines(path: Path) -> list[str]:
    """The lines at the end of a record; none where there is no file. Raises OSError."""
    if not path.exists():
        return []
    with naming(path), opened(path) as file:
        size = file.seek(0, os.SEEK_END)
        file.seek(max(0, size - _MOST))
        text = file.read(_MOST).decode("utf-8", "replace")
    lines = text.split("\n")
    return lines[size > _MOST:-1] + ([lines[-1] + TORN] if lines[-1] else [])


def last_runs(lines: Iterable[str]) -> dict[str, str]:
    """How the last run of each program ended, or that it isn't through, by the name of the program."""
    run, found = RecordedRun(), {}
    for event in _events(lines):
        run = run.after(event)
        if event.word not in ("loaded", "tool"):
            when = datetime.fromtimestamp(event.at).strftime("%Y-%m-%d %H:%M")
            found[run.name.partition(_FROM)[0]] = f"{when} {event.word}{event.rest}".strip()
    return found


def _events(lines: Iterable[str]) -> Iterator[RunEvent]:
    yield from filter(None, map(RunEvent.read, lines))


class Runs:
    """The record of a session's device. `run` is the one that was begun last."""

    def __init__(self, session: Session) -> None:
        self.session = session
        self.path = of_device(session.console.device)
        self.run = RecordedRun()
        self.ends = 0  # so many runs came to their end since
        self.is_handed_out = False  # a run broke off behind its last line, and nothing was stored since
        self._slot: int | None = None
        session.on_slot = self._tool

    def begin(self, status: Status) -> None:
        """A session begins: takes what the record has, mends a torn line, and notes a run that broke off."""
        try:
            lines = read_lines(self.path)
            self._mend(lines)
        except OSError as error:
            self._say(error)
            return
        self.run = RecordedRun()
        for event in _events(lines):
            self.run = self.run.after(event)
        if self.run.is_open and self.run.runs:
            self.is_handed_out = not status.place and status.half == "none"
            self._add(_BROKE.format(line=self._line(status)))

    def loaded(self, name: str, text: bytes) -> None:
        """A program was stored, which people call `name`; one that was there already keeps its name."""
        mark = f"{zlib.crc32(text):08x}"
        if mark == self.run.mark:
            return
        if self.run.is_open:
            self._add(f"given up, {self.run.figures(time.time())}")
        way, first = Program(text).way
        plain = shown(os.path.basename(name))
        self._add(f"loaded {len(text):,} bytes, mark {mark}: "
                  + (f"{self.run.name.partition(_FROM)[0]}{_FROM}{first}" if way and self.run.name else plain))

    def goes(self) -> bool:
        """Something is about to run; whether it is the program."""
        status = self.session.console.status()
        if self.session.own or status.half == "mdi" or not self.session.program.text:
            return False
        name = self.run.name or "the stored program"
        if not status.place and status.half == "none":
            self._begins(f"began {name}")
        elif not self.run.is_open:
            self._begins(f"began {name} in {self._line(status)}")
        elif not self.run.runs:
            self._add(f"went on in {self._line(status)}")
        return True

    def _begins(self, what: str) -> None:
        """A run begins, perhaps with a tool that is in the spindle already."""
        self._add(what)
        self._slot, seen = None, self.session.seen
        if seen and seen.outputs.slot:
            self._tool(seen.outputs.slot)

    def rests(self, ended: str | None) -> None:
        """The program rests: what ended its work, None for a hold."""
        status = self.session.console.status()
        is_through = ended in ("idle", SINGLE) and not status.place and status.half == "none"
        if not self.run.runs or ended in (SINGLE, CHANGE) and not is_through:
            return
        if is_through:
            self._end()
        elif ended == "stopped":
            self._add(f"stopped before {self._line(status)}")
        elif ended == "refused":
            self._add(f"refused at {self._line(status)}")
        else:
            self._add(f"held in {self._line(status)}")

    def carried_out(self) -> None:
        """The lines that the last session left in OUT are carried out, to the last one: where those of a run that broke
        off were among them, it is through."""
        if self.is_handed_out and self.run.is_open:
            self._end()
        self.is_handed_out = False

    def _end(self) -> None:
        self.ends += 1
        self._add(f"ended, through, {self.run.figures(time.time())}")

    def show(self) -> None:
        """Says its last lines."""
        try:
            lines = read_lines(self.path)[-_SHOWN:]
        except OSError as error:
            self._say(error)
            return
        self.session.face.say("\n".join(map(shown, lines)) or "no run is recorded yet")

    def leaves(self) -> None:
        """The session ends."""
        if self.run.is_open:
            self._add(f"left in {self._line(self.session.console.status())}: the session ended")

    def _line(self, status: Status) -> str:
        return self.session.program.named_at(status.place)

    def _tool(self, slot: int) -> None:
        """Another tool is in the spindle."""
        if self.run.is_open and slot != self._slot:
            self._slot = slot
            self._add(f"tool {slot} is in" if slot else "tool out")

    # the file

    def _mend(self, lines: list[str]) -> None:
        """Ends a last line that was torn, so that it counts for nothing. Raises OSError."""
        if lines and lines[-1].endswith(TORN) and not self._ends():
            self._append(TORN)
            torn = shown(lines[-1].removesuffix(TORN))
            self.session.face.say(f"{self.path}: its last line was torn, and doesn't count: {torn}", WARNING)

    def _ends(self) -> bool:
        """Whether the file ends with a line's end. Raises OSError."""
        with naming(self.path), opened(self.path) as file:
            file.seek(-1, os.SEEK_END)
            return file.read() == b"\n"

    def _add(self, what: str) -> None:
        """Appends a line, and takes it."""
        line = f"{datetime.now().astimezone().strftime(_FORM)} {what}"
        event = RunEvent.read(line)
        self.run = self.run.after(event) if event else self.run
        try:
            self._append(line)
        except OSError as error:
            self._say(error)

    def _append(self, line: str) -> None:
        """Appends it, and syncs; a new file's folder too. Raises OSError."""
        if not Path(self.session.console.device).is_file():
            return
        is_new = not self.path.exists()
        with naming(self.path):
            file = os.open(self.path, os.O_WRONLY | os.O_APPEND | os.O_CREAT | os.O_CLOEXEC | os.O_NOFOLLOW, 0o644)
            try:
                os.write(file, f"{line}\n".encode("utf-8", "replace"))
                os.fdatasync(file)
            finally:
                os.close(file)
            if is_new:
                _sync_folder(self.path.parent)

    def _say(self, error: OSError) -> None:
        self.session.face.once(f"the record of runs isn't kept: {error}")


def _sync_folder(path: Path) -> None:
    """Makes the names in it last."""
    with suppress(OSError):
        folder = os.open(path, os.O_RDONLY | os.O_DIRECTORY | os.O_CLOEXEC)
        try:
            os.fsync(folder)
        finally:
            os.close(folder)
