"""Tools that are begun in a fork of the tests' process, which has loaded them: to load one anew takes Python longer
than what most tests ask of it. `test_tools`, `test_odd` and `test_documents` begin them by their scripts."""
import atexit
import gc
import os
import runpy
import signal
import sys
import threading
import traceback
import warnings
import weakref
from collections.abc import Callable
from importlib import import_module
from pathlib import Path
from typing import NoReturn


def forked(script: Path, *words: str) -> Callable[[], NoReturn] | None:
    """What `subprocess` has to call in a child, as `preexec_fn`, which is that tool then; nothing where the tool is to
    have a library before its own, which a fork can't load."""
    if "LD_PRELOAD" in os.environ:
        return None
    import_module(f"ngc_tools.cli.{script.name.removeprefix('ngc-').replace('-', '_')}")
    return lambda: become(script, *words)


def become(script: Path, *words: str) -> NoReturn:
    """Does what the script does, and ends this process, a fork, as Python ends one."""
    os.closerange(3, os.sysconf("SC_OPEN_MAX"))  # by this `subprocess` knows that it has begun
    _forget_tests()
    _open_streams()
    sys.argv = [str(script), *words]
    status = _status_of(script)
    threading._shutdown()
    atexit._run_exitfuncs()
    try:
        sys.stdout.flush()
    except OSError:
        status = 120
    os._exit(status)


def _forget_tests() -> None:
    """Nothing of the tests ends with this process; signals and warnings are as Python begins with them."""
    gc.freeze()
    atexit._clear()
    weakref.finalize._registry.clear()
    weakref.finalize._registered_with_atexit = False
    for number in (signal.SIGPIPE, signal.SIGXFSZ):
        signal.signal(number, signal.SIG_IGN)
    signal.signal(signal.SIGINT, signal.default_int_handler)
    warnings.simplefilter("ignore")
    sys.modules.pop("start", None)


def _open_streams() -> None:
    """Opens the standard streams, which are others than the tests'."""
    coding = sys.__stdin__.encoding
    is_through = bool(os.environ.get("PYTHONUNBUFFERED"))
    sys.stdin = open(0, encoding=coding, errors=sys.__stdin__.errors)
    sys.stdout = open(1, "w", encoding=coding, errors=sys.__stdout__.errors)
    sys.stdout.reconfigure(line_buffering=os.isatty(1), write_through=is_through)
    sys.stderr = open(2, "w", encoding=coding, errors="backslashreplace")
    sys.stderr.reconfigure(line_buffering=True)


def _status_of(script: Path) -> int:
    """Runs it, and says with which status it ends."""
    try:
        runpy.run_path(str(script), run_name="__main__")
    except SystemExit as why:
        if why.code is None or isinstance(why.code, int):
            return (why.code or 0) & 0xFF
        print(why.code, file=sys.stderr)
        return 1
    except BaseException:
        traceback.print_exc()
        return 1
    return 0
