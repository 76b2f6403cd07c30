"""When the lines of a program begin, with ramps: `ngc run` does it over a copy of a device, and `ngc pace` times what
is handed out."""
from dataclasses import dataclass
from pathlib import Path

from ngc_tools.formats.lines import Program
from ngc_tools.ngc.copies import CommandRefused, Copy
from ngc_tools.ngc.pacing import DueTimes

_LEAST = 50  # ticks, after which is looked which line is under way: a fiftieth of those that were made, and no less
_PARTS = 50


@dataclass(frozen=True, slots=True)
class LineTimes:
    """Line `numbers[k]`, from 1, is under way `begin_ns[k]` after the program's beginning, and wasn't a fiftieth of the
    lines of OUT before that. The last of them is behind those that were seen: at its time all is over."""

    numbers: tuple[int, ...]
    begin_ns: tuple[int, ...]


def line_times(ngc: str, settings: str | Path, machine: str | Path, image: bytes, text: bytes,
               block_delete: bool) -> LineTimes:
    """The times of a program that is loaded to a device, and started, as that stands. Raises CommandRefused, NotTimed,
    Ended, OSError, BadSettings."""
    commands = ["delete on"] if block_delete else []
    with Copy(ngc, settings, image, commands) as copy, DueTimes(ngc, settings, machine) as due:
        for reply in (copy.console.load(text), copy.console.ask("start")[0]):
            if reply.startswith("refused"):
                raise CommandRefused("start", reply, copy.console.status())
        return _timed(copy, due, Program(text))


def _timed(copy: Copy, due: DueTimes, program: Program) -> LineTimes:
    """Goes through what is handed out. Raises as `line_times`."""
    numbers = [0]

    def look(place: int) -> None:
        """Asks for the time at which a line is under way for the first time."""
        number = program.number(place)
        if number > numbers[-1]:
            due.mark()
            numbers.append(number)

    def stop() -> None:
        """Everything stands until somebody lets it go on, and the next line begins then."""
        look(copy.stops[-1])
        due.rest()

    copy.taken, copy.rests = due.take, stop
    while not copy.idle:
        look(copy.console.status().place)
        copy.go(max(_LEAST, copy.lines // _PARTS))
    due.mark()
    due.rest()
    return LineTimes((*numbers[1:], numbers[-1] + 1), tuple(due.end()))
