"""Where the motors were after a number of lines of OUT: found from the device's log, by `ngc run` over copies."""
from collections.abc import Callable, Iterator
from dataclasses import dataclass, replace
from pathlib import Path

from ngc_tools.failure import Failure
from ngc_tools.ngc.console import Status
from ngc_tools.ngc.copies import Copy, CommandRefused, first
from ngc_tools.formats.device import Device, State
from ngc_tools.formats.position import Position

Key = tuple[int, int]
"""What grows from segment to segment: the entries, and the number of the segment that is open, from 1, 0 for none."""


class CannotTell(Failure):
    """Where the motors were can't be told; the text says why."""

    exit_status = 1


class OtherMoves(CannotTell):
    """`ngc run` over a copy does other moves than the session did."""

    def __init__(self) -> None:
        super().__init__("ngc run does other moves than the session did: were the settings others, or did it"
                         " more than --before COPY knows of?")


@dataclass(frozen=True, slots=True)
class Run:
    """What a session did from an image on, by commands. `record` is the record of the log that it begins with, `ends`
    the entries at its end, None if the session ended in it."""

    image: bytes
    commands: tuple[str, ...]
    record: int
    ends: int | None


@dataclass(frozen=True, slots=True)
class Found:
    """Line `pulse` of the `pulses` lines of a segment, from 1, was the last one. `state` is that with the segment open;
    `position` where the motors stand. `left` lines more were handed out before the segment that `resume` begins with:
    nothing makes them any more."""

    state: State
    pulse: int
    pulses: int
    position: Position
    left: int


def is_within(device: Device) -> bool:
    """Whether the log begins within a block, since it was full."""
    return bool(device.snapshot.half and device.records and device.records[0].state.opened == 1)


def runs(device: Device, within: bool = False, begin: int = 0) -> Iterator[Run]:
    """What a session did since its device was written anew, or from record `begin` of its log on, part by part. Raises
    CannotTell if its log begins within a block, unless that may be."""
    if is_within(device) and not within:
        raise CannotTell("the log begins within a block: it was full; name a copy of before by --before COPY")
    states = [record.state for record in device.records]
    number = begin
    while number < len(states):
        if states[number].opened:
            last = _last(states, number)
            ends = None if states[last].opened else states[last].entries
            yield Run(device.before(number), _commands(states[number]), number, ends)
            number = last
        number += 1


def _commands(state: State) -> tuple[str, ...]:
    """How a block came to be open: resumed, typed, or of a program."""
    if state.opened == 2:
        return ("resume",)
    return ("mdi " + state.half_text.decode("latin-1"),) if state.half == 2 else ("start",)


def _last(states: list[State], number: int) -> int:
    """The last record of the run that begins with record `number`: a line typed ends with its entry; a program goes on
    as long as each record is of a line of it."""
    last = number
    while last + 1 < len(states):
        here, then = states[last], states[last + 1]
        if then.opened and not here.half and (then.half == 2 or then.opened == 2):
            break
        if not then.opened and not here.half and then.place == here.place:
            break
        last += 1
        if not then.half and states[number].half == 2:
            break
    return last


class Replay:
    """Runs again what a session did."""

    def __init__(self, ngc: str, settings: str | Path, device: Device) -> None:
        """`device` is what the session left."""
        self.ngc, self.settings, self.device = ngc, settings, device

    def find(self, parts: list[Run], lines: int) -> Found:
        """Where the motors were after this number of lines, at least 1.

        Raises CannotTell, CommandRefused, Ended, OSError.

        The device doesn't keep whether lines with a slash were left out, so both are tried."""
        try:
            return self._find(parts, lines)
        except OtherMoves as error:
            deleted = [replace(run, commands=("delete on", *run.commands)) for run in parts]
            try:
                return self._find(deleted, lines)
            except (CannotTell, CommandRefused):
                raise error from None

    def _find(self, parts: list[Run], lines: int) -> Found:
        before, found = 0, None
        for run in parts:
            many = self._lines(run)
            if found is None and (lines <= before + many or run is parts[-1]):
                found = self._within(run, lines - before, many)
            before += many
        if found is None:
            raise CannotTell("the log tells of nothing that was handed out since the device was written anew; name a"
                             " copy of before by --before COPY")
        return replace(found, left=max(0, before - lines))

    def _make(self, run: Run, counted: bool) -> Copy:
        return Copy(self.ngc, self.settings, run.image, list(run.commands), counted)

    def _lines(self, run: Run) -> int:
        """The lines of a run, in the last one those before the segment that `resume` begins with."""
        key = _of_state(self.device.state) if run.ends is None else (run.ends, 0)
        with first(lambda counted: self._make(run, False), lambda status: _key(status) >= key) as copy:
            self._compare(run, copy.device())
            if _key(copy.console.status()) < key:
                raise OtherMoves()
            return copy.lines

    def _within(self, run: Run, lines: int, many: int) -> Found:
        """The same within a run, of which `many` lines come before its end or before the segment left open."""
        with self._make(run, True) as copy:
            copy.hand_out(lines)
            position, device, key = copy.tally.position, copy.device(), _key(copy.console.status())
        state, last = device.state, self.device.state
        beyond = run.ends is not None or (state.entries, state.segment) > (last.entries, last.segment)
        if copy.lines < lines or lines > many and beyond:
            raise CannotTell("the session handed out fewer lines")
        began = self._first(run, lambda status: _key(status) >= key)
        ended = self._first(run, lambda status: _key(status) > key)
        return Found(state, lines - began, ended - began, position, 0)

    def _first(self, run: Run, holds: Callable[[Status], bool]) -> int:
        """The lines before something holds."""
        with first(lambda counted: self._make(run, False), holds) as copy:
            return copy.lines

    def _compare(self, run: Run, again: Device) -> None:
        """Raises OtherMoves if the copy's log isn't the session's; for a copy of before, if its end isn't."""
        if run.record < 0:
            if as_powered_on(again.state) != as_powered_on(self.device.state):
                raise OtherMoves()
            return
        for mine, record in zip(again.records, self.device.records[run.record:]):
            if mine.state != record.state:
                raise OtherMoves()


def as_powered_on(state: State) -> State:
    """The state as a power on leaves it, without what was told since of where the machine stands."""
    return replace(state, opened=0, half_known=0, half_point_nm=(0, 0, 0), point_known=0)


def _key(status: Status) -> Key:
    """What names the segment that is open."""
    return status.entries, 0 if status.half == "none" else status.segment + 1


def _of_state(state: State) -> Key:
    return state.entries, state.segment + 1 if state.half else 0
