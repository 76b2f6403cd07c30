"""Questions to a person, each with what Enter takes, asked again until the answer is one."""
import sys
from collections.abc import Callable
from glob import glob
from typing import TypeVar

from ngc_tools.failure import BadNumber, Failure
from ngc_tools.formats.position import nanometres
from ngc_tools.formats.settings import AXES, Settings
from ngc_tools.setup.axes import Axis, settings_of, step_of, travel
from ngc_tools.shown import shown

LINES = ("/dev/serial/by-id/*", "/dev/ttyACM*", "/dev/ttyUSB*")
"""Where lines of microcontrollers are, the most lasting names first."""
_TURN_MM, _PULSES = "5", "2000"
_TRAVELS = ("0 300", "0 200", "-100 0")
_TRAVERSE, _ACCEL = "1000", "100"
_RATES = range(1, 100_001)
_ACCELS = range(1, 10**6 + 1)
_NONE = "none"

Answer = TypeVar("Answer")


class NoMoreAnswers(Failure):
    """The input ended before all was answered; nothing is made."""

    def __init__(self) -> None:
        super().__init__("the answers ended before all was asked: nothing is made")


def ask(question: str, proposed: str, read: Callable[[str], Answer]) -> Answer:
    """Asks until `read`, which raises BadNumber, takes the answer. Enter is what is proposed. Raises NoMoreAnswers."""
    while True:
        print(f"{question} [{shown(proposed)}]: ", end="", flush=True)
        line = sys.stdin.readline()
        if not line:
            print()
            raise NoMoreAnswers
        if not sys.stdin.isatty():
            print(shown(line.strip()))
        try:
            return read(line.strip() or proposed)
        except BadNumber as why:
            print(f"  {shown(str(why))}", flush=True)


def ask_axes() -> tuple[Axis, Axis, Axis]:
    """The three axes. Of Y and Z Enter takes the screw and the pulses of the axis before. Raises NoMoreAnswers."""
    found: list[Axis] = []
    turn, pulses = _TURN_MM, _PULSES
    for letter, ends in zip(AXES, _TRAVELS):
        turn, pulses, step_nm = _ask_step(letter, turn, pulses)
        low, high = ask(f"{letter}: the least and the greatest machine coordinate, in mm, 0 among them", ends, travel)
        found.append(Axis(step_nm, low, high))
    x, y, z = found
    return x, y, z


def _ask_step(letter: str, turn: str, pulses: str) -> tuple[str, str, int]:
    """The two answers and the step that follows. Where both don't go together they are asked again."""
    while True:
        turn, turn_nm = ask(f"{letter}: how far a turn of its motor moves it, in mm", turn, _length)
        pulses, count = ask(f"{letter}: pulses of a turn, the motor's steps times the driver's microsteps", pulses,
                            _count)
        try:
            return turn, pulses, step_of(turn_nm, count)
        except BadNumber as why:
            print(f"  {why}", flush=True)


def ask_settings(axes: tuple[Axis, Axis, Axis], over_sink: bool) -> Settings:
    """The settings, with the rate of a traverse. Raises NoMoreAnswers."""
    traverse = ask("mm a minute of a traverse: half of where the slowest axis begins to stall", _TRAVERSE,
                   lambda text: _whole(text, _RATES))
    return settings_of(axes, traverse, over_sink)


def ask_accel() -> list[int]:
    """mm/s2 of each axis. Raises NoMoreAnswers."""
    return ask("mm/s2 that an axis gains: one number, or one for each axis. 100 is right for a start", _ACCEL, _accels)


def ask_line() -> str | None:
    """The serial line of the step sink, or None. Raises NoMoreAnswers."""
    found = [path for pattern in LINES for path in sorted(glob(pattern))]
    if found:
        print(f"serial lines that are there: {shown(', '.join(found))}")
    line = ask(f"the serial line of the step sink; {_NONE} to try things out without motors",
               found[0] if found else _NONE, _line)
    return None if line == _NONE else line


def ask_yes(question: str) -> bool:
    """Whether the answer is yes; Enter is no. Raises NoMoreAnswers."""
    return ask(question, "no", _yes)


def _length(text: str) -> tuple[str, int]:
    return text, nanometres(text)


def _count(text: str) -> tuple[str, int]:
    return text, _whole(text, range(1, 10**6 + 1))


def _whole(text: str, numbers: range) -> int:
    if not (text.isascii() and text.isdecimal() and len(text) < 10 and int(text) in numbers):
        raise BadNumber(f"a whole number from {numbers[0]} to {numbers[-1]:,}")
    return int(text)


def _accels(text: str) -> list[int]:
    words = text.split()
    if len(words) not in (1, 3):
        raise BadNumber("one whole number, or three")
    return [_whole(word, _ACCELS) for word in words * (3 // len(words))]


def _line(text: str) -> str:
    if text != _NONE and not (text.startswith("/") and text.isprintable() and len(text.encode()) <= 255):
        raise BadNumber(f"a path as /dev/ttyACM0, or {_NONE}")
    return text


def _yes(text: str) -> bool:
    if text not in ("yes", "no"):
        raise BadNumber("yes or no")
    return text == "yes"
