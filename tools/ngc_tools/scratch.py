"""Folders and files for a while, which are removed whatever ends the work.

The path of each is noted before it is made, so that it is removed as the process ends, wherever a signal came: what
`tempfile` makes it names itself. A thread that would make one after that ends, unless it is the main one."""
import os
import shutil
import tempfile
import threading
import weakref
from collections.abc import Callable, Iterator
from contextlib import contextmanager
from functools import partial
from pathlib import Path
from typing import TypeVar

from ngc_tools.files import naming

_Made = TypeVar("_Made")
_MEMORY = "/dev/shm"  # a sync costs nothing there
_folders = [_MEMORY]  # where folders are made, the last one
_made: set[str] = set()  # what is to be removed
_making = threading.Lock()
_TRIES = 100  # of removing a folder in which others still make files
_is_over = threading.Event()  # no other thread than the main one makes any


def use(folder: str) -> None:
    """From now on this process makes all of it in a folder, which somebody else removes."""
    _folders.append(folder)
    tempfile.tempdir = folder


class Scratch:
    """A folder, in memory where the system has a place for that."""

    def __init__(self, prefix: str) -> None:
        """Makes it. Raises OSError with its path."""
        folder = _folders[-1] if Path(_folders[-1]).is_dir() else tempfile.gettempdir()
        self.name = _new_path(folder, prefix)
        _make(self.name, partial(os.mkdir, mode=0o700))
        self.cleanup = weakref.finalize(self, remove, self.name)  # removes it, once

    def __enter__(self) -> str:
        """Its path."""
        return self.name

    def __exit__(self, *_: object) -> None:
        """Removes it."""
        self.cleanup()


@contextmanager
def scratch_file(text: bytes | str, stem: str, suffix: str) -> Iterator[str]:
    """The path of a file with this text, which is removed. Raises OSError with its path."""
    path = _new_path(tempfile.gettempdir(), f"ngc-{stem}-", suffix)
    try:
        number = _make(path, partial(os.open, flags=os.O_RDWR | os.O_CREAT | os.O_EXCL, mode=0o600))
        with naming(path), os.fdopen(number, "wb") as file:
            file.write(text.encode() if isinstance(text, str) else text)
        yield path
    finally:
        remove(path)


@contextmanager
def nothing_left() -> Iterator[None]:
    """At its end removes each folder and file that wasn't, since a signal came just as it would have been. From then on
    no thread but the main one makes any."""
    _is_over.clear()
    try:
        yield
    finally:
        with _making:
            _is_over.set()
        for path in sorted(_made):
            remove(path)


def remove(path: str) -> None:
    """Removes a folder or a file, where there is one. What is made in a folder meanwhile goes too."""
    for _ in range(_TRIES):
        if os.path.isdir(path):
            shutil.rmtree(path, ignore_errors=True)
        else:
            Path(path).unlink(missing_ok=True)
            break
    _made.discard(path)


def _new_path(folder: str, prefix: str, suffix: str = "") -> str:
    """A path that nobody has, nor can guess."""
    return os.path.join(folder, f"{prefix}{os.urandom(8).hex()}{suffix}")


def _make(path: str, make: Callable[[str], _Made]) -> _Made:
    """Makes what is removed in the end. Raises OSError; SystemExit, which ends a thread, as the process ends."""
    with _making:
        if _is_over.is_set() and threading.current_thread() is not threading.main_thread():
            raise SystemExit
        _made.add(path)
        try:
            return make(path)
        except OSError:
            _made.discard(path)
            raise
