"""The lines of OUT, as docs/OUTPUT.md has them: pulses, waits and switches of the outputs."""
import mmap
import re
from dataclasses import dataclass

from ngc_tools.failure import Failure
from ngc_tools.shown import shown

GREATEST_US = 2**64 - 1
LONGEST_LINE = 200  # bytes; no line of OUT is as long
SLOTS = 128
"""The slots of a tool table, which lines of OUT name."""


class BadLine(Failure, ValueError):
    """A line that isn't one of OUT. `number` counts the lines from 1, `cause` says what is wrong with it."""

    def __init__(self, number: int, cause: str) -> None:
        super().__init__(f"line {number}: {cause}")
        self.number = number
        self.cause = cause


@dataclass(frozen=True, slots=True)
class Pulse:
    """One pulse: each of `x`, `y`, `z` is -1, 0 or 1 step, and what comes next comes `period_us` later."""

    x: int
    y: int
    z: int
    period_us: int

    @property
    def lasts_us(self) -> int:
        """How long it lasts before the next line, in microseconds."""
        return self.period_us


@dataclass(frozen=True, slots=True)
class Dwell:
    """A wait of `us` microseconds."""

    us: int

    @property
    def lasts_us(self) -> int:
        """How long it lasts before the next line, in microseconds."""
        return self.us


@dataclass(frozen=True, slots=True)
class Switch:
    """All outputs from now on. `spindle` is 0 stopped, 1 clockwise, 2 counter-clockwise; `speed` is the number of the
    last S word in millionths; `slot` is the tool in the spindle, `selected` the one that is selected, 0 for none."""

    spindle: int
    speed: int
    mist: bool
    flood: bool
    selected: int
    slot: int

    @property
    def lasts_us(self) -> int:
        """A switch has no time of its own."""
        return 0

    def __str__(self) -> str:
        speed = f"{self.speed // 10**6}.{self.speed % 10**6:06d}"
        return f"S {self.spindle} {speed} {self.mist:d} {self.flood:d} {self.selected} {self.slot}"


Line = Pulse | Dwell | Switch

OFF = Switch(0, 0, False, False, 0, 0)

ZEROS = ("; zeros stand where the disk lost what was written, or its room was given back: recover in ngc-operate says"
         " what it was")
_RUN = re.compile(rb"(?:(?:P(?: (?:-1|0|1)){3} [0-9]{1,20}|D [0-9]{1,20}"
                  rb"|S [012] [0-9]{1,7}\.[0-9]{6} [01] [01] [0-9]{1,3} [0-9]{1,3})\n)*+")
_AT_ONCE = 1 << 16  # bytes that are looked at, at once
_WHOLE = rb"(0|[1-9][0-9]{0,19})"
_PULSE = re.compile(rb"P (-1|0|1) (-1|0|1) (-1|0|1) " + _WHOLE)
_DWELL = re.compile(rb"D " + _WHOLE)
_SLOT = rb"(0|[1-9][0-9]{0,2})"
_SWITCH = re.compile(rb"S ([012]) (0|[1-9][0-9]{0,6})\.([0-9]{6}) ([01]) ([01]) " + _SLOT + b" " + _SLOT)


def read_line(line: bytes | str, number: int, least_period_us: int = 1) -> Line:
    """What line `number` of OUT says; `line` is without its newline.

    `least_period_us` is `period_us` of the settings: no pulse is shorter. Raises BadLine for a line that isn't exactly
    one of docs/OUTPUT.md's three."""
    text = line.encode("latin-1", "replace") if isinstance(line, str) else line
    found: Line | None = None
    if match := _PULSE.fullmatch(text):
        found = Pulse(int(match[1]), int(match[2]), int(match[3]), int(match[4]))
    elif match := _DWELL.fullmatch(text):
        found = Dwell(int(match[1]))
    elif match := _SWITCH.fullmatch(text):
        speed = int(match[2]) * 10**6 + int(match[3])
        found = Switch(int(match[1]), speed, match[4] == b"1", match[5] == b"1", int(match[6]), int(match[7]))
    if found is None:
        raise BadLine(number, f"not a line of OUT: {quoted(text)}{ZEROS if 0 in text else ''}")
    _in_range(found, number, least_period_us)
    return found


def end_of_lines(text: "bytes | mmap.mmap", begin: int) -> int:
    """How many bytes of a text are whole lines of OUT, from a byte on at which one begins."""
    size, at = len(text), begin
    while at < size:
        end = _RUN.match(text, at, min(size, at + _AT_ONCE)).end()
        if end == at:
            break
        at = end
    return at


def _in_range(line: Line, number: int, least_period_us: int) -> None:
    """Raises BadLine if a number of the line is beyond what docs/OUTPUT.md says."""
    if isinstance(line, Switch):
        if max(line.selected, line.slot) > SLOTS:
            raise BadLine(number, f"a slot above {SLOTS}: {line}")
    elif line.lasts_us > GREATEST_US:
        raise BadLine(number, f"a time of {line.lasts_us} microseconds")
    elif isinstance(line, Pulse) and line.period_us < least_period_us:
        raise BadLine(number, f"a period of {line.period_us} us, and period_us of the settings is {least_period_us}")


def quoted(text: bytes) -> str:
    """The line in quotes, its end left out if it is long."""
    return f"'{shown(text[:60])}{'...' if len(text) > 60 else ''}'"
