"""Runs `ngc run` again and again over a device in memory, by device_in_memory.c: with calls that fail, and over any
image. Each run takes half a millisecond or so, and writes no file."""
import contextlib
import mmap
import os
import signal
import socket
import struct
import subprocess
import sys
from collections.abc import Iterator
from dataclasses import dataclass
from pathlib import Path
from typing import NamedTuple

from mill import HERE, NGC, SECONDS, Wrong

sys.path.insert(0, f"{HERE}/tools")
from ngc_tools.formats.device import LARGE_SIZE, SECTOR

COMPILER = os.environ.get("CC", "cc")
ANY = 2**64 - 1
RUN = "run", "mill.dev", "mill.toml", "out"
_HEAD = struct.Struct("=15Q")
_INPUT, _SAID, _OUT, _CALLS, _WRITES = 2 << 20, 4 << 20, 4 << 20, 1 << 16, 1 << 14
_IMAGE_AT = mmap.PAGESIZE
_SYNCED_AT = _IMAGE_AT + LARGE_SIZE
_INPUT_AT = _SYNCED_AT + LARGE_SIZE
_SAID_AT = _INPUT_AT + _INPUT
_OUT_AT = _SAID_AT + _SAID
_CALLS_AT = _OUT_AT + _OUT
_WRITES_AT = _CALLS_AT + 8 * _CALLS
_SIZE = _WRITES_AT + SECTOR * _WRITES
READ, WRITE, SYNC, OUT_WRITE, OUT_SYNC, INPUT_READ, SAID_WRITE = range(7)


class Call(NamedTuple):
    """A call of the device, of OUT, of the standard input or output, and whether it failed. The kind READ, WRITE and
    SYNC are of the device: of a read or write there is the sector, of a write also what it wrote, if it didn't fail. Of
    another call there is how many bytes it took."""

    kind: int
    is_failed: bool
    sector: int
    written: bytes = b""


@dataclass(frozen=True)
class Ended:
    """How a run ended: its status, what it said, the lines of OUT, how many calls of the device and of OUT there were,
    how many of these failed, how many growths of memory there were, the device then, and the device with nothing kept
    that wasn't synced."""

    status: int
    said: str
    out: str
    numbered: int
    failures: int
    growths: int
    image: bytes
    synced: bytes


class InMemory:
    """`ngc run`, or `ngc` with other words, over the device `mill.dev` in memory with this many sectors, under the
    settings given here. `image` is what the device holds."""

    def __init__(self, library: Path, folder: Path, settings: str, sectors: int, ngc: str = NGC,
                 words: tuple[str, ...] = RUN) -> None:
        self.size = SECTOR * sectors
        folder.mkdir()
        for name, size in (("mill.dev", self.size), ("shared", _SIZE)):
            with (folder / name).open("wb") as file:
                file.truncate(size)
        (folder / "mill.toml").write_text(settings)
        with (folder / "shared").open("r+b") as file:
            self._shared = mmap.mmap(file.fileno(), _SIZE)
            self.image = mmap.mmap(file.fileno(), self.size, offset=_IMAGE_AT)
        self._line, theirs = socket.socketpair(socket.AF_UNIX, socket.SOCK_SEQPACKET)
        self._line.settimeout(SECONDS)
        with theirs:
            env = {"LD_PRELOAD": str(library), "SHARED": str(folder / "shared"), "LINE": str(theirs.fileno())}
            self._child = subprocess.Popen([ngc, *words], cwd=folder, env=env,
                                           pass_fds=[theirs.fileno()], start_new_session=True,
                                           stdin=subprocess.DEVNULL)

    def run(self, image: bytes, asked: str = "", *, fails_at: int = ANY, fails_on: bool = False, refused: int = ANY,
            reads_left: int = ANY, most_read: int = ANY, said_room: int = ANY) -> Ended:
        """Runs it over an image, with this on its standard input. Of the calls of the device and of OUT the one of the
        number `fails_at` fails, from 0 on, and with `fails_on` each after it; of the growths of memory the one of the
        number `refused` is refused. After `reads_left` reads of the standard input one fails; `most_read` is the most
        that a read gives, a line if it is 0. After `said_room` bytes the standard output fails. Raises Wrong."""
        if len(image) != self.size:
            raise Wrong(f"an image of {len(image)} bytes, and the device has {self.size}")
        self.image[:] = image
        self._shared[_SYNCED_AT:_SYNCED_AT + self.size] = image
        given = asked.encode()
        status = self._begun(given, fails_at, fails_on, True, refused, reads_left, most_read, said_room)
        *_, said, out, _, _, numbered, failures, growths = _HEAD.unpack_from(self._shared)
        return Ended(status, self._shared[_SAID_AT:_SAID_AT + said].decode(),
                     self._shared[_OUT_AT:_OUT_AT + out].decode(), numbered, failures, growths, self.image[:],
                     self._shared[_SYNCED_AT:_SYNCED_AT + self.size])

    def answer(self, asked: str) -> tuple[int, str]:
        """Runs it over what `image` holds, with this on its standard input, and leaves there what the device holds
        then. Returns its status and what it says; its calls aren't told. Raises Wrong."""
        status = self._begun(asked.encode(), ANY, False, False, ANY, ANY, ANY, ANY)
        said = _HEAD.unpack_from(self._shared)[8]
        return status, self._shared[_SAID_AT:_SAID_AT + said].decode()

    def _begun(self, given: bytes, *settings: int) -> int:
        """The status of a run with these settings."""
        self._shared[:_HEAD.size] = _HEAD.pack(*settings, len(given), *[0] * 7)
        self._shared[_INPUT_AT:_INPUT_AT + len(given)] = given
        try:
            self._line.send(b"!")
            answer = self._line.recv(4)
        except OSError as error:
            raise Wrong(f"`ngc run` over a device in memory doesn't end: {error}") from None
        if len(answer) != 4:
            raise Wrong("`ngc run` over a device in memory wasn't begun")
        return os.waitstatus_to_exitcode(*struct.unpack("=i", answer))

    def kinds(self) -> bytes:
        """The kinds of the calls of the last run, in order, a byte each."""
        count = _HEAD.unpack_from(self._shared)[10]
        return self._shared[_CALLS_AT:_CALLS_AT + 8 * count:8]

    def calls(self) -> list[Call]:
        """The calls of the last run, in order."""
        count = _HEAD.unpack_from(self._shared)[10]
        calls, place = [], _WRITES_AT
        for kind, is_failed, sector in struct.iter_unpack("=HHI", self._shared[_CALLS_AT:_CALLS_AT + 8 * count]):
            written = b""
            if kind == WRITE and not is_failed:
                written = self._shared[place:place + SECTOR]
                place += SECTOR
            calls.append(Call(kind, bool(is_failed), sector, written))
        return calls

    def lengthened(self, sectors: int) -> bytes:
        """What a device holds that the last run made longer."""
        return self._shared[_IMAGE_AT:_IMAGE_AT + SECTOR * sectors]

    def end(self) -> None:
        """Ends the process that the others are forked from."""
        self._line.close()
        with contextlib.suppress(ProcessLookupError):
            os.killpg(self._child.pid, signal.SIGKILL)
        self._child.wait()


def built(folder: Path) -> Path:
    """The library, which is compiled into a folder."""
    library = folder / "device_in_memory.so"
    source = Path(__file__).with_suffix(".c")
    words = ["-std=c11", "-O2", "-Wall", "-Wextra", "-Werror", "-shared", "-fPIC", source, "-o", library]
    subprocess.run([COMPILER, *words], check=True)
    return library


@contextlib.contextmanager
def in_memory(library: Path, folder: Path, settings: str, sectors: int, ngc: str = NGC,
              words: tuple[str, ...] = RUN) -> Iterator[InMemory]:
    """Such a device, whose process is ended at last."""
    made = InMemory(library, folder, settings, sectors, ngc, words)
    try:
        yield made
    finally:
        made.end()
