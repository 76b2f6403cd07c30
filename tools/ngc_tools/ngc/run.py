"""Where `ngc` is, and its dry run."""
import os
import re
import shutil
import subprocess
import sys
from dataclasses import dataclass
from pathlib import Path

from ngc_tools.failure import Failure
from ngc_tools.scratch import scratch_file

MOST_TEXT = 2**26
"""Bytes of a dry run's text, of some 1,200,000 commands. What looks at them takes up to thirty times as much memory."""
_REFUSED = re.compile(r"REFUSED line ([0-9]+): ([A-Z][0-9]+) ([A-Za-z0-9]+)")
_SETTINGS_REFUSED = re.compile(r"refused ([A-Z][0-9]+) ([A-Za-z0-9]+)")


@dataclass(frozen=True, slots=True)
class Refusal:
    """A fault that `ngc dry` names: the line from 1, 0 for the settings; the code as `B12` and its name."""

    line: int
    code: str
    name: str


class CannotRun(Failure):
    """`ngc` didn't do a dry run: its words, a file or the settings are refused, or it is out of memory."""


class TooLong(Failure):
    """A dry run prints more than is looked at; the text says how much that is."""

    def __init__(self, most: int) -> None:
        super().__init__(f"its dry run has more than {most:,} bytes of commands, and no more are looked at: is the L of"
                         " a cycle right?")


def find_ngc(option: str | None) -> str:
    """The path of `ngc`: the option, else beside the tool, else on PATH. Raises FileNotFoundError."""
    if option:
        if not os.path.isfile(option) or not os.access(option, os.X_OK):
            raise FileNotFoundError(f"{option}: not a program that can be run")
        return option
    beside = Path(sys.argv[0]).resolve().parent / "ngc"
    found = str(beside) if os.access(beside, os.X_OK) else shutil.which("ngc")
    if not found:
        raise FileNotFoundError("ngc: neither beside this tool nor on PATH; name it with --ngc PATH")
    return found


def dry(ngc: str | Path, program: bytes | str | Path, settings: str | Path | None = None,
        block_delete: bool = False, device: str | Path | None = None, most: int | None = None) -> tuple[int, bytes]:
    """The exit status and the standard output of `ngc dry`. `program` is its text, or the path of its file; it begins
    from the device at this path, or in the fresh state.

    Raises TooLong if it prints more than `most` bytes, MOST_TEXT without that; OSError if `ngc` can't be started or
    the text can't be kept in a file."""
    if isinstance(program, bytes):
        with scratch_file(program, "dry", ".ngc") as path:
            return dry(ngc, path, settings, block_delete, device, most)
    words = [str(ngc), "dry", str(program)]
    words += ["--from", str(device)] if device is not None else []
    words += ["--settings", str(settings)] if settings is not None else []
    words += ["--block-delete"] if block_delete else []
    return _printed(words, MOST_TEXT if most is None else most)


def _printed(words: list[str], most: int) -> tuple[int, bytes]:
    """The exit status of a program, and what it prints. Raises TooLong, OSError."""
    with subprocess.Popen(words, stdin=subprocess.DEVNULL, stdout=subprocess.PIPE) as child:
        try:
            text = child.stdout.read(most + 1)
            if len(text) > most:
                raise TooLong(most)
            return child.wait(), text
        except BaseException:
            child.kill()
            raise


def refusal(status: int, text: bytes) -> Refusal | None:
    """What the last line of a dry run refuses, or None if the program ran to its end.

    Raises CannotRun if it was no dry run at all."""
    if status == 0:
        return None
    last = text.rstrip(b"\n").rpartition(b"\n")[2].decode("latin-1")
    match = _REFUSED.fullmatch(last)
    if status != 1 or match is None:
        raise CannotRun(f"ngc dry ended with status {status}" + (f": {last}" if last else ", and says nothing"))
    return Refusal(int(match[1]), match[2], match[3])


def settings_refusal(ngc: str | Path, settings: str | Path) -> Refusal | None:
    """The fault of a settings file, S1 to S6 or M1, or None if `ngc` takes it. Raises CannotRun or OSError."""
    status, text = dry(ngc, b"M2\n", settings)
    if status == 0:
        return None
    match = _SETTINGS_REFUSED.fullmatch(text.decode("latin-1").strip())
    if match is None:
        raise CannotRun(f"ngc dry ended with status {status}, and names no fault of {settings}")
    return Refusal(0, match[1], match[2])
