"""A child of `forks.py` at work: within bounds, with its files in a folder, until it is done or its input ends."""
import math
import os
import pickle
import resource
import signal
import struct
import threading
import time
from contextlib import suppress
from pathlib import Path
from typing import Any, BinaryIO

from ngc_tools import scratch
from ngc_tools.failure import Failure

HEAD = struct.Struct("<Q")
TOLD, DONE = "told", "done"
_TOO_MUCH_MEMORY = "it takes more than {mib:,} MiB of memory, and was ended"
_TOO_LONG = "it takes more than {seconds} s of processor time, and was ended"
_LOOK_S = 0.25
_says: list[int] = []  # of a child the descriptor by which it answers


def work(given: BinaryIO, said: int, folder: str, most_memory: int, most_cpu_s: float) -> None:
    """Does what it is given, says what came of it, and removes its files."""
    try:
        os.nice(10)
        _says.append(said)
        scratch.use(folder)
        _bound(most_memory, math.ceil(2 * most_cpu_s))
        _answer(given, said, folder, most_memory, most_cpu_s)
    finally:
        scratch.remove(folder)


def _answer(given: BinaryIO, said: int, folder: str, most_memory: int, most_cpu_s: float) -> None:
    """Does it, and says what came of it. Raises struct.error where its parent is gone."""
    (size,) = HEAD.unpack(given.read(HEAD.size))
    asked = given.read(size)
    threading.Thread(target=_watch, args=[given, folder], daemon=True).start()
    threading.Thread(target=_watch_time, args=[said, most_cpu_s], daemon=True).start()
    try:
        function, arguments = pickle.loads(asked)  # of its parent
        text = _packed(DONE, (True, function(*arguments)))
    except MemoryError:
        text = _packed(DONE, (False, _TOO_MUCH_MEMORY.format(mib=most_memory >> 20)))
    except Exception as error:  # its parent is told
        why = error.said() if isinstance(error, Failure) else f"{type(error).__name__}: {error}"
        text = _packed(DONE, (False, why))
    _write(said, text)


def tell(progress: Any) -> None:
    """A function at work tells how far it is; of one that isn't aside nobody hears it."""
    if _says:
        _write(_says[0], _packed(TOLD, progress))


def _packed(kind: str, what: Any) -> bytes:
    """One answer, whole."""
    text = pickle.dumps((kind, what))
    return HEAD.pack(len(text)) + text


def _write(to: int, text: bytes) -> None:
    left = memoryview(text)
    while left:
        left = left[os.write(to, left):]


def _bound(most_memory: int, most_cpu_s: int) -> None:
    """Bounds this process, and each that it starts. Of their time together `_watch_time` says it, before that."""
    resource.setrlimit(resource.RLIMIT_AS, (most_memory, most_memory))
    resource.setrlimit(resource.RLIMIT_CPU, (most_cpu_s, most_cpu_s))
    resource.setrlimit(resource.RLIMIT_CORE, (0, 0))
    with suppress(OSError):  # where memory runs out all the same, the system ends this, and no player
        Path("/proc/self/oom_score_adj").write_text("1000")


def _watch(given: BinaryIO, folder: str) -> None:
    """Ends this process and what it started once its input ends, and removes its files."""
    given.read()
    scratch.remove(folder)
    os.killpg(os.getpgrp(), signal.SIGKILL)


def _watch_time(said: int, most_cpu_s: float) -> None:
    """Ends it once it took too much time of the processors."""
    used_s = 0.0
    while used_s <= most_cpu_s:
        time.sleep(_LOOK_S)
        used = [resource.getrusage(who) for who in (resource.RUSAGE_SELF, resource.RUSAGE_CHILDREN)]
        used_s = sum(each.ru_utime + each.ru_stime for each in used)
    _write(said, _packed(DONE, (False, _TOO_LONG.format(seconds=f"{most_cpu_s:g}"))))
    os.killpg(os.getpgrp(), signal.SIGKILL)
