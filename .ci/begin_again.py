"""Begins an emulated program again and again, by begin_again.c."""
import contextlib
import os
import signal
import socket
import struct
import subprocess
import tempfile
from collections.abc import Iterator
from pathlib import Path

from cases import Wrong
from mill import SECONDS

MOST_WORDS = 32
_STATUS = struct.Struct("i")


class Again:
    """A program under an emulator, which is started once. Its streams are files."""

    def __init__(self, emulator: list[str], library: Path, program: Path) -> None:
        self._asked, self._said = (tempfile.TemporaryFile(buffering=0, dir=library.parent) for _ in range(2))
        self._line, theirs = socket.socketpair(socket.AF_UNIX, socket.SOCK_SEQPACKET)
        self._line.settimeout(SECONDS)
        with theirs:
            words = [*emulator, "-E", f"LD_PRELOAD={library}", str(program), str(theirs.fileno()), *["-"] * MOST_WORDS]
            self._child = subprocess.Popen(words, stdin=self._asked, stdout=self._said, cwd="/",
                                           pass_fds=[theirs.fileno()], start_new_session=True)

    def forked(self, words: list[str], asked: bytes) -> tuple[int, bytes]:
        """Begins it in a process of its own, which has what was translated up to then. Raises Wrong."""
        return self._begun(b"f", words, asked)

    def here(self, words: list[str], asked: bytes) -> tuple[int, bytes]:
        """Begins it in the process that the others are forked from. Raises Wrong."""
        return self._begun(b"h", words, asked)

    def _begun(self, where: bytes, words: list[str], asked: bytes) -> tuple[int, bytes]:
        for file, held in ((self._asked, asked), (self._said, b"")):
            file.seek(0)
            file.truncate()
            file.write(held)
            file.seek(0)  # the place is the program's too
        try:
            self._line.send(where + b"".join(word.encode() + b"\0" for word in ("ngc", *words)))
            told = self._line.recv(_STATUS.size)
        except OSError as error:
            raise Wrong(f"the emulated program doesn't answer: {error}") from None
        if len(told) != _STATUS.size:
            raise Wrong("the emulator ended")
        self._said.seek(0)
        return os.waitstatus_to_exitcode(*_STATUS.unpack(told)), self._said.read()

    def end(self) -> None:
        """Ends the emulator, and what it began."""
        self._line.close()
        os.killpg(self._child.pid, signal.SIGKILL)
        self._child.wait()
        self._asked.close()
        self._said.close()


@contextlib.contextmanager
def again(emulator: list[str], library: Path, program: Path) -> Iterator[Again]:
    """A program that is begun again and again, and ended at last."""
    begun = Again(emulator, library, program)
    try:
        yield begun
    finally:
        begun.end()
