"""The folder of programs of `--jobs`: which there are, the time of each and a small picture, which are worked out
aside, and how its last run ended. No request names a path: a file has a number, by its name in the folder."""
import hashlib
import os
import threading
import time
from collections.abc import Callable, Iterator
from dataclasses import dataclass, field, replace
from pathlib import Path
from typing import BinaryIO

from ngc_tools.failure import Failure
from ngc_tools.files import naming, opened
from ngc_tools.formats.device import MOST_LARGE_PROGRAM
from ngc_tools.formats.settings import Settings
from ngc_tools.job.figures import by_length
from ngc_tools.job.moves import Move, Step
from ngc_tools.job.thumbnail import thumbnail
from ngc_tools.job.timing import with_ramps
from ngc_tools.operator.runs import last_runs, of_device, read_lines
from ngc_tools.page.aside import Aside, NotDone
from ngc_tools.page.drawing import DrawingRequest, job_of
from ngc_tools.shown import shown

KINDS = {".ngc", ".nc", ".cnc", ".tap", ".gcode", ".gc", ".txt"}
"""The endings of programs, in any case; other files aren't shown."""
MOST = 300
"""So many programs are shown."""
_LONGEST = 80  # characters of a name
_WANTED_S = 30.0  # after so long without a look at the list nothing more is worked out
_LOOK_S = 0.3
_ADAPTED = ", adapted"
_ODD = f"a name has at most {_LONGEST} characters, all of them printable: rename it"
_TOO_LONG = f"a program has at most {MOST_LARGE_PROGRAM:,} bytes: ngc-split parts it"


class NoJob(Failure):
    """A program that isn't in the folder, or isn't given out; the text names it."""


@dataclass(frozen=True, slots=True)
class JobSummary:
    """How long a job lasts, in us, by length and rate, and with ramps, None where that isn't known; the picture, and
    where `ngc` refuses it. Of one that `is_whole` nothing more is worked out."""

    us: int
    picture: str
    refused: str
    ramps_us: int | None = None
    is_whole: bool = False


@dataclass(frozen=True, slots=True)
class JobFile:
    """A file: its name, its bytes, when it changed, in ns since 1970; `why` it isn't given out, nothing if it is."""

    name: str
    size: int
    changed_ns: int
    why: str

    @property
    def ident(self) -> str:
        """Its number for pages."""
        return hashlib.sha256(os.fsencode(self.name)).hexdigest()[:16]

    @property
    def shown(self) -> str:
        """Its name for people."""
        return shown(os.fsencode(self.name))


def summary_of(request: DrawingRequest) -> JobSummary:
    """The summary of a job with its time by length and rate, which is quick. Raises what `job_of` raises."""
    job = job_of(request)
    traverse = Settings.read(request.settings).traverse_nm_per_min
    us = sum(_about_us(step, traverse) for step in job.steps)
    refused = f"line {job.refused.line}: {job.refused.code} {job.refused.name}" if job.refused else ""
    return JobSummary(us, thumbnail(job.steps), refused, is_whole=bool(refused) or not request.machine)


def ramps_of(request: DrawingRequest) -> int:
    """The time of a job with ramps, in us. Raises what `job_of` and `with_ramps` raise."""
    steps = job_of(request).steps
    return with_ramps(request.ngc, request.settings, request.machine, steps, lambda _: None).with_ramps_us


def _about_us(step: Step, traverse_nm_per_min: int) -> int:
    return (by_length(step) or step.length * 60_000_000 // traverse_nm_per_min) if isinstance(step, Move) else step.us


@dataclass(frozen=True, slots=True)
class Folder:
    """A folder of programs."""

    path: Path

    def files(self) -> list[JobFile]:
        """Its programs, by name. Raises OSError."""
        with naming(self.path), os.scandir(self.path) as entries:
            names = sorted(entry.name for entry in entries if not entry.name.startswith(".")
                           and Path(entry.name).suffix.lower() in KINDS)
        return list(map(self._file, names[:MOST]))

    def by(self, ident: str) -> JobFile:
        """The file of a number. Raises NoJob, OSError."""
        for file in self.files():
            if file.ident == ident:
                return file
        raise NoJob("that program isn't in the folder any more")

    def read(self, file: JobFile) -> bytes:
        """The bytes of a file. Raises NoJob, OSError."""
        if file.why:
            raise NoJob(f"{file.shown}: {file.why}")
        with self._opened(file.name) as opened_file:
            text = opened_file.read(MOST_LARGE_PROGRAM + 1)
        if len(text) > MOST_LARGE_PROGRAM:
            raise NoJob(f"{file.shown}: {_TOO_LONG}")
        return text

    def _file(self, name: str) -> JobFile:
        try:
            if not name.isprintable() or len(name) > _LONGEST:
                raise NoJob(_ODD)
            with self._opened(name) as file:
                found = os.fstat(file.fileno())
        except NoJob as why:
            return JobFile(name, 0, 0, str(why))
        except OSError as error:
            return JobFile(name, 0, 0, error.strerror or str(error))
        return JobFile(name, found.st_size, found.st_mtime_ns,
                       _TOO_LONG if found.st_size > MOST_LARGE_PROGRAM else "")

    def _opened(self, name: str) -> BinaryIO:
        """Opens a file of the folder itself. Raises NoJob of a link that leads out, OSError."""
        file = opened(self.path / name)
        if os.path.dirname(os.readlink(f"/proc/self/fd/{file.fileno()}")) != os.path.realpath(self.path):
            file.close()
            raise NoJob("a link that leads out of the folder")
        return file


@dataclass
class Jobs:
    """The programs of a folder, as a page shows them. `device` is the one beside which the record of runs stands,
    `request` says how a text is drawn, `is_busy` whether a job runs: then nothing long is worked out."""

    folder: Folder
    device: str
    aside: Aside
    request: Callable[[bytes], DrawingRequest]
    is_busy: Callable[[], bool]
    _found: dict[tuple[str, int, int], JobSummary | str] = field(default_factory=dict)
    _runs: tuple[int, dict[str, str]] = (0, {})  # by the bytes of the record, which only grows
    _looked_at: float = 0.0
    _lock: threading.Lock = field(default_factory=threading.Lock)
    _thread: threading.Thread | None = None

    def plain(self) -> dict:
        """The list, for a page; what isn't worked out yet is begun. Raises OSError."""
        runs = self._last_runs()
        jobs = [self._plain(file, runs) for file in self.folder.files()]
        self._begin()
        return {"folder": shown(str(self.folder.path)), "jobs": jobs}

    def text(self, ident: str) -> bytes:
        """The text of a program. Raises NoJob, OSError."""
        return self.folder.read(self.folder.by(ident))

    def picture(self, ident: str) -> bytes:
        """Its picture. Raises NoJob, OSError."""
        found = self._found.get(_key(self.folder.by(ident)))
        if not isinstance(found, JobSummary):
            raise NoJob("no picture is drawn of it")
        return found.picture.encode()

    def _last_runs(self) -> dict[str, str]:
        """How the last run of each ended; the record isn't read again as long as nothing was added. Raises OSError."""
        path = of_device(self.device)
        size = path.stat().st_size if path.exists() else 0
        if size != self._runs[0]:
            self._runs = size, last_runs(read_lines(path))
        return self._runs[1]

    def _plain(self, file: JobFile, runs: dict[str, str]) -> dict:
        """One of them, for a page. `us` is null as long as it isn't known."""
        found = self._found.get(_key(file))
        plain = {"id": file.ident, "name": file.shown, "bytes": file.size, "why": file.why, "us": None, "ramps": False,
                 "failed": found if isinstance(found, str) else "",
                 "last": runs.get(file.shown) or runs.get(file.shown + _ADAPTED) or ""}
        if not isinstance(found, JobSummary):
            return plain | {"pending": not file.why and found is None}
        return plain | {"us": found.us if found.ramps_us is None else found.ramps_us, "failed": found.refused,
                        "ramps": found.ramps_us is not None, "pending": not found.is_whole}

    # what is worked out aside

    def _begin(self) -> None:
        with self._lock:
            self._looked_at = time.monotonic()
            if self._thread is None or not self._thread.is_alive():
                self._thread = threading.Thread(target=self._work, name="jobs", daemon=True)
                self._thread.start()

    def _work(self) -> None:
        """Works out one after the other, as long as somebody looks at the list."""
        while time.monotonic() < self._looked_at + _WANTED_S:
            try:
                work = next(self._left(), None)
            except OSError:  # the list says so
                return
            if work is None:
                time.sleep(_LOOK_S)
                continue
            file, before = work
            self._found[_key(file)] = self._worked_out(file, before)

    def _worked_out(self, file: JobFile, before: JobSummary | None) -> JobSummary | str:
        """What is known of a file then, or why nothing is; its time without ramps stays where the other one fails."""
        try:
            request = self.request(self.folder.read(file))
            if before is None:
                return self.aside.call(summary_of, request)
            return replace(before, ramps_us=self.aside.call(ramps_of, request), is_whole=True)
        except (NoJob, NotDone, OSError) as error:
            return replace(before, is_whole=True) if before else str(error)

    def _left(self) -> Iterator[tuple[JobFile, JobSummary | None]]:
        """The files of which something isn't known yet: the quick work of all first. Raises OSError."""
        files = [file for file in self.folder.files() if not file.why]
        yield from ((file, None) for file in files if _key(file) not in self._found)
        for file in [] if self.is_busy() else files:
            found = self._found.get(_key(file))
            if isinstance(found, JobSummary) and not found.is_whole:
                yield file, found


def _key(file: JobFile) -> tuple[str, int, int]:
    """What tells whether a file is as it was."""
    return file.name, file.size, file.changed_ns
