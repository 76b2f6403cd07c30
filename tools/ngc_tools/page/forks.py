"""Children for work aside, forked from a process that has loaded what they need: to load it anew takes a Python longer
than most of the work. It is a fork itself, made while this process has one thread, or else a Python of its own.

It holds no file of this process, and ends once its other end is closed, as where this process was killed. Nothing of
the current folder is run as Python."""
import gc
import os
import signal
import socket
import subprocess
import sys
import threading
from collections.abc import Callable
from contextlib import suppress
from functools import partial
from pathlib import Path
from typing import BinaryIO, NoReturn

from ngc_tools.page.at_work import work

_BEGIN = "import sys; sys.path.insert(0, sys.argv[1]); from ngc_tools.page import forks; forks.serve(int(sys.argv[2]))"
_ROOT = str(Path(__file__).resolve().parents[2])
_MOST_WORDS = 8192  # bytes of what is asked for: a path and two numbers
_ENDINGS = (signal.SIGINT, signal.SIGTERM, signal.SIGHUP)


class Forks:
    """The process that forks them."""

    def __init__(self) -> None:
        """Starts it. Raises OSError."""
        self._socket, theirs = socket.socketpair(socket.AF_UNIX, socket.SOCK_SEQPACKET)
        with theirs:
            self._await_end = _forked(theirs) if threading.active_count() == 1 else _started(theirs)

    def child(self, folder: str, most_memory: int, most_cpu_s: float) -> tuple[BinaryIO, BinaryIO]:
        """A child within bounds, with its files in a folder: the pipes by which it is given its work, and answers.
        Raises OSError, as where the process was killed."""
        (given, gives), (hears, said) = os.pipe(), os.pipe()
        words = "\0".join((str(most_memory), str(most_cpu_s), folder))
        try:
            socket.send_fds(self._socket, [os.fsencode(words)], [given, said])
        except OSError:
            os.close(gives)
            os.close(hears)
            raise
        finally:
            os.close(given)
            os.close(said)
        return os.fdopen(gives, "wb"), os.fdopen(hears, "rb")

    def close(self) -> None:
        """Ends it. Children go on."""
        self._socket.close()
        with suppress(ChildProcessError):  # it was waited for already
            self._await_end()


def _forked(theirs: socket.socket) -> Callable[[], object]:
    """Has a fork of this process serve at a socket, and returns what waits for its end. Raises OSError."""
    before = signal.pthread_sigmask(signal.SIG_BLOCK, _ENDINGS)  # none finds the fork with our handlers
    pid = os.fork()
    if not pid:
        try:
            os.setpgid(0, 0)
            number = os.dup2(theirs.fileno(), 3, inheritable=False)
            os.closerange(number + 1, os.sysconf("SC_OPEN_MAX"))
            for end in _ENDINGS:
                signal.signal(end, signal.SIG_DFL)
            signal.pthread_sigmask(signal.SIG_SETMASK, before)
            serve(number)
        finally:
            os._exit(1)
    signal.pthread_sigmask(signal.SIG_SETMASK, before)
    return partial(os.waitpid, pid, 0)


def _started(theirs: socket.socket) -> Callable[[], object]:
    """The same with a Python of its own. Raises OSError."""
    paths = filter(os.path.isabs, os.environ.get("PYTHONPATH", "").split(os.pathsep))  # others are of this folder
    words = [sys.executable, "-P", "-c", _BEGIN, _ROOT, str(theirs.fileno())]
    return subprocess.Popen(words, pass_fds=[theirs.fileno()],
                            env=os.environ | {"PYTHONPATH": os.pathsep.join(paths)}).wait


def serve(number: int) -> NoReturn:
    """Forks a child for each message at a socket, until its other end is closed."""
    with suppress(OSError):  # a fork leads its group already where this is one of its own
        os.setpgid(0, 0)
    null = os.open(os.devnull, os.O_RDWR)
    for stream in range(3):
        os.dup2(null, stream)
    signal.signal(signal.SIGCHLD, signal.SIG_IGN)  # nobody waits for children
    gc.disable()  # each lives for one piece of work
    gc.freeze()
    with socket.socket(fileno=number) as asked:
        while True:
            words, files, _, _ = socket.recv_fds(asked, _MOST_WORDS, 2)
            if not words:
                os._exit(0)
            with suppress(OSError):  # without a child its pipes end, which is told
                if not os.fork():
                    asked.close()
                    _become(files, words)
            for file in files:
                os.close(file)


def _become(files: list[int], words: bytes) -> NoReturn:
    """Is a child."""
    try:
        signal.signal(signal.SIGCHLD, signal.SIG_DFL)
        os.setpgid(0, 0)  # so that all that it starts ends with it
        for file in files:
            os.set_inheritable(file, False)
        given, said = files
        most_memory, most_cpu_s, folder = os.fsdecode(words).split("\0")
        work(os.fdopen(given, "rb"), said, folder, int(most_memory), float(most_cpu_s))
    finally:
        os._exit(0)
