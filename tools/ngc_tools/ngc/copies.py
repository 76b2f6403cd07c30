"""Copies of a device, over which `ngc run` does what it would do over the device itself."""
from collections.abc import Callable
from contextlib import AbstractContextManager, ExitStack
from dataclasses import dataclass, field
from pathlib import Path

from ngc_tools.failure import Failure
from ngc_tools.ngc.console import Console, Status
from ngc_tools.files import naming
from ngc_tools.formats.device import Device
from ngc_tools.formats.out import Dwell, Pulse, Switch, read_line
from ngc_tools.formats.position import Position, nanometres
from ngc_tools.formats.settings import Settings
from ngc_tools.scratch import Scratch

Point = tuple[int, int, int]

_AT_ONCE = 200_000  # ticks of a command
_SEARCHED = 1000  # ticks that are gone through one by one
_COMMANDS = 100  # that are given at once: so few that the replies' pipe isn't waited for


class CommandRefused(Failure):
    """`ngc run` refused a command, or a line of the program: the reply, and the status after it."""

    exit_status = 1

    def __init__(self, asked: str, reply: str, status: Status) -> None:
        super().__init__(f"{asked}: {reply}")
        self.asked, self.reply, self.status = asked, reply, status


class Interrupted(Exception):
    """Somebody wants no more of it."""


def never() -> bool:
    """Nobody breaks it off."""
    return False


@dataclass(slots=True)
class Tally:
    """What lines of OUT come to: the times in us, by the slot in the spindle, the extents in steps, the switches."""

    position: Position
    slot: int = 0
    us: dict[int, int] = field(default_factory=dict)
    low: list[int] = field(default_factory=list)
    high: list[int] = field(default_factory=list)
    switches: list[Switch] = field(default_factory=list)

    def __post_init__(self) -> None:
        """The extents begin where the machine stands."""
        self.low, self.high = list(self.position.steps), list(self.position.steps)

    def take(self, text: bytes, least_period_us: int) -> None:
        """Counts whole lines. Raises BadLine."""
        lines = text.split(b"\n")[:-1]
        read = {line: read_line(line, 1, least_period_us) for line in set(lines)}
        for line in lines:
            what = read[line]
            if isinstance(what, Pulse):
                self._move(what)
            elif isinstance(what, Dwell):
                self.us[self.slot] = self.us.get(self.slot, 0) + what.us
            else:
                self.slot = what.slot
                self.switches.append(what)

    def _move(self, pulse: Pulse) -> None:
        steps, low, high = self.position.steps, self.low, self.high
        for axis, step in enumerate((pulse.x, pulse.y, pulse.z)):
            if step:
                here = steps[axis] = steps[axis] + step
                if here < low[axis]:
                    low[axis] = here
                elif here > high[axis]:
                    high[axis] = here
        self.us[self.slot] = self.us.get(self.slot, 0) + pulse.period_us

    @property
    def extents(self) -> tuple[Point, Point]:
        """The least and the greatest coordinates in nm."""
        low, high = ((each[0] * x, each[1] * y, each[2] * z)
                     for x, y, z in (self.position.step_nm,) for each in (self.low, self.high))
        return low, high


class _Console(Console):
    """A console that is given commands at once."""

    def tick_often(self, ticks: int, times: int) -> list[tuple[list[str], Status]]:
        """Gives `tick` this number of times, and asks for the status after each."""
        self._send(b"tick %d\nstatus\n" % ticks * times)
        return [(self._replies(True), Status.read(self._replies(False)[0])) for _ in range(times)]


class Copy(AbstractContextManager):
    """A session of `ngc run` over a copy of a device. `ticks` are made, and `lines` of OUT handed out; `stops` are the
    places after the lines at which the program waited for `continue`, which is given; `idle` says that nothing is left
    to do. `tally` counts the lines if `counted` is set, and `taken` is given them as they are taken away; `rests` is
    called as the program waits."""

    def __init__(self, ngc: str, settings: str | Path, image: bytes, commands: list[str], counted: bool = False,
                 interrupted: Callable[[], bool] = never) -> None:
        """Begins it and gives the commands; it is broken off where `interrupted` says so. Raises CommandRefused, Ended
        of the console, OSError, BadSettings."""
        self._settings = Settings.read(settings)
        self._interrupted = interrupted
        self.ticks = self.lines = 0
        self.stops: list[int] = []
        self.idle = False
        self.tally: Tally | None = None
        self.taken: Callable[[bytes], None] | None = None
        self.rests: Callable[[], None] | None = None
        with ExitStack() as stack:
            folder = Path(stack.enter_context(Scratch("ngc-rehearse-")))
            self._device, self._out = folder / "device", folder / "out"
            with naming(self._device):
                self._device.write_bytes(image)
            self.console = _Console(ngc, self._device, settings, self._out)
            stack.callback(self.console.kill)
            self._begin(commands, counted)
            self._held = stack.pop_all()

    def _begin(self, commands: list[str], counted: bool) -> None:
        """Gives the first commands."""
        for command in commands:
            reply = self.console.ask(command.encode("latin-1"))[0]
            if reply.startswith("refused"):
                raise CommandRefused(command, reply, self.console.status())
        self.start = self.console.status()
        if counted:
            at = [nanometres(number) for number in self.start.at]
            self.tally = Tally(Position(self._settings.step_nm, at))

    def __exit__(self, *_: object) -> None:
        self.close()

    def close(self) -> None:
        """Ends it and removes its files."""
        self._held.close()

    def go(self, ticks: int) -> None:
        """Makes this number of ticks, fewer if nothing is left to do. Raises CommandRefused if a line of the program is
        refused, Interrupted."""
        left = ticks
        while left and not self.idle:
            self._heed()
            replies = self.console.ask(f"tick {min(left, _AT_ONCE)}")
            left -= self._made(replies)
            self._after(replies)

    def reached(self, ticks: int, holds: Callable[[Status], bool]) -> tuple[int, int]:
        """Goes on by this number of ticks at once until something holds, or nothing is left to do, and perhaps further.
        It returns how many were made before it held, and when it did. Raises CommandRefused if a line of the program is
        before that."""
        before = self.ticks
        if holds(self.console.status()):
            return before, before
        while not self.idle:
            self._heed()
            said = []
            for replies, status in self.console.tick_often(ticks, _COMMANDS):
                self._made(replies)
                if holds(status):
                    return before, self.ticks
                before, said = self.ticks, said + replies
                if "stopped" in replies or "idle" in replies:
                    break  # the ticks after it did nothing
            self._after(said)
        return before, before

    def _heed(self) -> None:
        """Raises Interrupted if somebody wants no more of it."""
        if self._interrupted():
            raise Interrupted

    def _made(self, replies: list[str]) -> int:
        """Counts the ticks of a command."""
        made = int(replies[-1].removeprefix("ticks "))
        self.ticks += made
        return made

    def _after(self, replies: list[str]) -> None:
        """Takes the lines of OUT, and goes on if the program waits."""
        self._read()
        refused = [reply for reply in replies if reply.startswith("refused")]
        if refused:
            raise CommandRefused("tick", refused[0], self.console.status())
        self.idle = "idle" in replies
        if "stopped" in replies:
            self.stops.append(self.console.status().place)
            if self.rests:
                self.rests()
            self.console.ask("continue")

    def go_to_entry(self) -> None:
        """Goes on until an entry is stored, in counts of ticks so small that the log still has its records. Raises as
        `go`."""
        entries = self.console.status().entries
        while not self.idle and self.console.status().entries == entries:
            self.go(500)

    def go_to_end(self) -> None:
        """Goes on until nothing is left to do. Raises as `go`."""
        while not self.idle:
            self.go(1_000_000)

    def hand_out(self, lines: int) -> None:
        """Goes on until this number of lines is handed out in all, or nothing is left to do."""
        while self.lines < lines and not self.idle:
            self.go(lines - self.lines)

    def device(self) -> Device:
        """What the copy stands for now."""
        return Device.read(self._device)

    def _read(self) -> None:
        """Takes the lines of OUT away, and counts them."""
        text = self._out.read_bytes()
        self.lines += text.count(b"\n")
        if self.tally:
            self.tally.take(text, self._settings.period_us)
        if self.taken:
            self.taken(text)
        with open(self._out, "r+b") as file:
            file.truncate()


def first(make: Callable[[bool], Copy], holds: Callable[[Status], bool]) -> Copy:
    """A copy right after the first tick after which something holds, and has to hold from then on; or when nothing
    is left to do. `make` begins a copy; it is told whether lines are to be counted."""
    with make(False) as scout:
        before, _ = scout.reached(_SEARCHED, holds)
    with make(False) as scout:
        scout.go(before)
        _, ticks = scout.reached(1, holds)
    copy = make(True)
    try:
        copy.go(ticks)
    except BaseException:
        copy.close()
        raise
    return copy

