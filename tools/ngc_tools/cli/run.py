"""The one way through a tool: its words are read, its work is done, and whatever ends it is told in a line."""
import argparse
import errno
import os
import re
import resource
import signal
import sys
import textwrap
import threading
import traceback
from collections.abc import Callable, Iterator
from contextlib import contextmanager, suppress
from types import FrameType
from typing import NoReturn

from ngc_tools.failure import Failure, WrongWords
from ngc_tools.files import cause
from ngc_tools.scratch import nothing_left
from ngc_tools.shown import shown
from ngc_tools.version import version_text

Work = Callable[[argparse.Namespace], int]
"""Does what the words ask for, and returns the exit status."""

MOST_MEMORY = 2**31
"""Bytes that a tool which looks at files may take, and each `ngc` that it starts, so that no other program of the
computer, a player least of all, goes without."""

_FAILED = 2
_OUTPUT = "standard output: "
_ESCAPES = "backslashreplace"
_AGAIN_S = 0.005  # by then most finalizers are through
_FULL = (errno.ENOSPC, errno.EDQUOT, errno.EFBIG, errno.EIO)  # of writing; all files but this one are named


def run(parser: argparse.ArgumentParser, work: Work, arguments: list[str] | None = None,
        most_memory: int | None = None) -> int:
    """Reads the words, those of the command line without `arguments`, does the work, and returns the exit status.
    `most_memory` is how many bytes of memory it and each of its children may take, None for as much as there is.

    Whatever is closed, pressed or given, a tool ends here, without a traceback: its text goes to standard error as
    `PROG: TEXT`. Of an error of its own it says `internal error`, and the traceback where NGC_DEBUG is set."""
    _open_streams()
    status = ending = 0
    try:
        with (_heeding(), nothing_left(), _raised_after_finalizers(), _told_of_threads(parser.prog),
              _within(most_memory)):
            status = _ended(parser, work, arguments)
    except KeyboardInterrupt as stopped:
        _let_go(stopped)
        status = _say(f"{parser.prog}: stopped")
    except _Killed as killed:
        _let_go(killed)
        ending = killed.number
    if ending:  # what the work held is given back by now
        signal.signal(ending, signal.SIG_DFL)
        signal.raise_signal(ending)
    return _flushed(parser.prog, status)


def new_parser(prog: str, about: str, epilog: str) -> argparse.ArgumentParser:
    """A parser of words whose help fits the terminal: paragraphs are filled, and lines that begin with a blank stay
    lines."""
    parser = _Parser(prog, description=about, epilog=epilog, formatter_class=_Help)
    parser.add_argument("--version", action=_Version, nargs=0, default=argparse.SUPPRESS,
                        help="show which version this is, of which commit and kit, and exit")
    return parser


def add_ngc(parser: argparse.ArgumentParser) -> None:
    """Adds the word --ngc, by which a tool is told which `ngc` it asks."""
    parser.add_argument("--ngc", metavar="PATH",
                        help="the program ngc; without it the one beside this tool, or on PATH")


def whole_number(text: str) -> int:
    """A word that is a count. Raises ArgumentTypeError."""
    if not re.fullmatch("[0-9]{1,9}", text):
        raise argparse.ArgumentTypeError(f"not a whole number of at most nine digits: {text}")
    return int(text)


class _Parser(argparse.ArgumentParser):
    """Shows wrong words without anything that a terminal would obey."""

    def error(self, message: str) -> NoReturn:
        """Says what is wrong, and ends with status 2."""
        super().error(shown(message))


class _Version(argparse.Action):
    """Prints which version this is, and ends."""

    def __call__(self, parser: argparse.ArgumentParser, *_: object) -> NoReturn:
        """Raises OSError where that can't be read."""
        print(f"{parser.prog}\n{version_text()}")
        parser.exit()


class _Help(argparse.HelpFormatter):
    """Fills paragraphs, and what an exit status means. Other lines that begin with a blank are commands, which stay
    whole."""

    def _fill_text(self, text: str, width: int, indent: str) -> str:
        return "\n".join(_filled(paragraph, max(width, 20)) for paragraph in _paragraphs(text))


def _paragraphs(text: str) -> list[str]:
    """Lines that go on without a blank at their beginning are joined; those after a colon or a blank line begin anew.
    """
    found = [""]
    for line in text.split("\n"):
        joins = line[:1].strip() and found[-1][:1].strip() and not found[-1].endswith(":")
        if joins:
            found[-1] += " " + line
        else:
            found.append(line)
    return found[1:]


def _filled(paragraph: str, width: int) -> str:
    """A paragraph in lines of this width; a command is one line."""
    begins = re.match(r"(?:  \d  )?", paragraph)[0]
    if paragraph.startswith(" ") and not begins:
        return paragraph
    return textwrap.fill(paragraph, width, subsequent_indent=" " * len(begins), break_on_hyphens=False)


def _ended(parser: argparse.ArgumentParser, work: Work, arguments: list[str] | None) -> int:
    """The exit status, once the reason of the end is said."""
    try:
        return work(parser.parse_args(arguments))
    except SystemExit as error:  # of the parser, which has said why
        return error.code if isinstance(error.code, int) else _FAILED
    except WrongWords as error:
        parser.print_usage(sys.stderr)
        return _say(f"{parser.prog}: error: {error}")
    except Failure as error:
        _say(f"{parser.prog}: {error.said()}")
        return error.exit_status
    except OSError as error:
        return _failed(parser.prog, error)
    except MemoryError:
        most = resource.getrlimit(resource.RLIMIT_AS)[0]
        bound = "" if most == resource.RLIM_INFINITY else f": it takes at most {most >> 20:,} MiB"
        return _say(f"{parser.prog}: out of memory{bound}")
    except Exception as error:
        return _bug(parser.prog, error)


def _open_streams() -> None:
    """A standard stream that is closed is /dev/null from here on, before a file can take its number. Neither bytes that
    are no text nor letters that the locale doesn't have end a tool."""
    for number, name, mode in ((0, "stdin", "r"), (1, "stdout", "w"), (2, "stderr", "w")):
        try:
            os.fstat(number)
        except OSError:
            os.set_inheritable(os.open(os.devnull, os.O_RDWR), True)  # it gets the lowest number that is free
        if getattr(sys, name) is None:
            setattr(sys, name, open(number, mode, closefd=False))
    for stream, errors in ((sys.stdin, "surrogateescape"), (sys.stdout, _ESCAPES), (sys.stderr, _ESCAPES)):
        if hasattr(stream, "reconfigure"):
            stream.reconfigure(errors=errors)


@contextmanager
def _within(most_memory: int | None) -> Iterator[None]:
    """The process and its children take no more memory than that, meanwhile."""
    soft, hard = resource.getrlimit(resource.RLIMIT_AS)
    bounds = [bound for bound in (soft, hard, most_memory) if bound not in (None, resource.RLIM_INFINITY)]
    if most_memory is not None:
        resource.setrlimit(resource.RLIMIT_AS, (min(bounds), hard))
    try:
        yield
    finally:
        if most_memory is not None:
            resource.setrlimit(resource.RLIMIT_AS, (soft, hard))


class _Killed(BaseException):
    """A signal asks the process to end; what it holds is given back on the way out."""

    def __init__(self, number: int) -> None:
        super().__init__(number)
        self.number = number


@contextmanager
def _heeding() -> Iterator[None]:
    """Ctrl-C interrupts, once; SIGTERM and SIGHUP end the process by that signal, after its folders are removed.
    Signals that are ignored stay so."""
    heeded = {signal.SIGINT: _interrupt, signal.SIGTERM: _kill, signal.SIGHUP: _kill}
    before = {}
    try:
        for number, handler in heeded.items():
            if signal.getsignal(number) in (signal.SIG_DFL, signal.default_int_handler):
                with suppress(ValueError):  # signals come to the main thread alone
                    before[number] = signal.signal(number, handler)
        yield
    finally:
        for number, handler in before.items():
            if signal.getsignal(number) in (heeded[number], signal.SIG_IGN):
                signal.signal(number, handler)


def _let_go(ending: BaseException) -> None:
    """Frees what was under way as a signal came. What was half made by then has nothing to say of that."""
    before, sys.unraisablehook = sys.unraisablehook, lambda _what: None
    try:
        ending.__traceback__ = ending.__context__ = None
    finally:
        sys.unraisablehook = before


@contextmanager
def _raised_after_finalizers() -> Iterator[None]:
    """A signal that comes within a finalizer, out of which Python raises nothing, ends the work a moment later."""
    before = sys.unraisablehook

    def raise_later(what: "sys.UnraisableHookArgs") -> None:
        if not isinstance(what.exc_value, (KeyboardInterrupt, _Killed)):
            if signal.getsignal(signal.SIGINT) is not signal.SIG_IGN:  # else it ends, and what was half made goes
                before(what)
            return
        ending = type(what.exc_value)(*what.exc_value.args)

        def raise_again(_number: int, _frame: FrameType | None) -> None:
            raise ending

        signal.signal(signal.SIGALRM, raise_again)
        signal.setitimer(signal.ITIMER_REAL, _AGAIN_S)

    sys.unraisablehook = raise_later
    try:
        yield
    finally:
        signal.setitimer(signal.ITIMER_REAL, 0)
        sys.unraisablehook = before


@contextmanager
def _told_of_threads(prog: str) -> Iterator[None]:
    """A fault in another thread is told in a line too."""
    before = threading.excepthook

    def tell(what: threading.ExceptHookArgs) -> None:
        if isinstance(what.exc_value, Exception):
            _bug(prog, what.exc_value)

    threading.excepthook = tell
    try:
        yield
    finally:
        threading.excepthook = before


def _interrupt(_number: int, _frame: FrameType | None) -> None:
    signal.signal(signal.SIGINT, signal.SIG_IGN)  # what is held is given back now, once
    raise KeyboardInterrupt


def _kill(number: int, _frame: FrameType | None) -> None:
    for ending in (signal.SIGTERM, signal.SIGHUP):
        signal.signal(ending, signal.SIG_IGN)
    raise _Killed(number)


def _failed(prog: str, error: OSError) -> int:
    """Says which file failed, and why. An output whose reader is gone is no news to anybody."""
    if error.filename is not None:
        return _say(f"{prog}: {cause(error)}")
    _discard()
    if isinstance(error, BrokenPipeError):
        return _FAILED
    return _say(f"{prog}: {_OUTPUT if error.errno in _FULL else ''}{cause(error)}")


def _flushed(prog: str, status: int) -> int:
    """The status; that of a failure if the output can't be written."""
    try:
        sys.stdout.flush()
    except OSError as error:
        return _failed(prog, error)
    return status


def _discard() -> None:
    """Gives what is left of the output to /dev/null, where it can't be written."""
    try:
        sys.stdout.flush()
    except OSError:
        with suppress(OSError, ValueError):
            os.dup2(os.open(os.devnull, os.O_WRONLY), sys.stdout.fileno())


def _bug(prog: str, error: Exception) -> int:
    """Says what a tool's own fault is; where it is in the code, if NGC_DEBUG is set."""
    if os.environ.get("NGC_DEBUG"):
        traceback.print_exception(error)
    return _say(f"{prog}: internal error: {type(error).__name__}: {error}")


def _say(text: str) -> int:
    """Writes lines to standard error, if anybody reads it. Returns the status of a failure."""
    with suppress(OSError, ValueError):
        print("\n".join(map(shown, text.split("\n"))), file=sys.stderr, flush=True)
    return _FAILED
