"""What `resume` would do, or `start` if no block is half-done: said in lines, by `ngc run` over a copy."""
from collections.abc import Callable
from dataclasses import dataclass, field
from pathlib import Path

from ngc_tools.ngc.copies import Copy, CommandRefused, Tally, first, never
from ngc_tools.formats.device import Device
from ngc_tools.job.figures import duration
from ngc_tools.job.figures import millimetres as rounded
from ngc_tools.formats.lines import Program
from ngc_tools.formats.out import Switch
from ngc_tools.formats.position import distance, nanometres
from ngc_tools.operator.display import outputs_words
from ngc_tools.shown import shown_line


def point(at: tuple[str, ...] | list[str]) -> str:
    """A point for people, of numbers in millimetres."""
    return " ".join(f"{axis} {number}" for axis, number in zip("XYZ", at, strict=True))


@dataclass(slots=True)
class Rehearsal:
    """A device's image, and what it is rehearsed with. `at` are the machine millimetres where it stands, or None; it is
    broken off where `interrupted` says so. `refused` says that a line of the program was.

    After `lines` of a half-done block: it `begins` at this point, first these outputs come on, the `approach` goes from
    a point to a point and lasts so many us, and `rest_us` is the time of all that comes after it."""

    ngc: str
    settings: str | Path
    image: bytes
    at: list[str] | None
    interrupted: Callable[[], bool] = never
    refused: bool = False
    begins: tuple[str, ...] = ()
    comes_on: Switch | None = None
    approach: tuple[tuple[str, ...], tuple[str, ...], int] | None = None
    rest_us: int = 0
    _device: Device = field(init=False)

    def __post_init__(self) -> None:
        """Reads the image. Raises NoDevice."""
        self._device = Device(self.image)

    def lines(self) -> list[str]:
        """What `resume` or `start` would do. Raises CommandRefused, Interrupted, Ended, OSError, BadSettings."""
        state = self._device.state
        return self._resumed() if state.half else self._started()

    def count_segments(self) -> int:
        """How many segments the half-done block has; 0 if the copy's log doesn't tell it. Raises as `lines`."""
        with self._approached() as copy:
            entries = copy.console.status().entries
            copy.go_to_entry()
            return _segments(copy.device(), entries)

    def _resumed(self) -> list[str]:
        state, program = self._device.state, Program(self._device.program)
        what = f"{program.named_at(state.place)} of {program.last}" if state.half == 1 else "the operator's line"
        said = [f"half-done: {what}: {shown_line(state.half_text)}"]
        with self._approached() as copy:
            end = copy.console.status()
            begins = f"begins at {point(end.at)}"
            tally, approach = copy.tally, copy.start.at
            switch, us = tally.switches[0], sum(tally.us.values())
            rest, after = self._rest(copy)
            many = _segments(after, end.entries)
            of = f" of {many}" if many else ""
        self.begins, self.comes_on = end.at, switch
        if self.at is not None or self._known():
            self.approach = (approach, end.at, us)
        said.append(f"segment {state.segment}{of}, counted from 0: {begins}")
        said.append(f"first comes on: {outputs_words(switch)}")
        said += self._approach(approach, end.at, us)
        return [*said, *rest]

    def _approached(self) -> Copy:
        """A copy at the end of the approach."""
        commands = self._commands()
        entries = self._device.state.entries + len(commands) - 1  # a reference is one

        def make(counted: bool) -> Copy:
            """A copy that begins with the commands."""
            return Copy(self.ngc, self.settings, self.image, commands, counted, self.interrupted)

        return first(make, lambda status: status.entries > entries)

    def _commands(self) -> list[str]:
        """What takes the block up; if nobody knows where the machine stands, from the point before it."""
        at = self.at or (None if self._known() else self._before())
        return [f"reference {' '.join(at)}", "resume"] if at else ["resume"]

    def _known(self) -> bool:
        """Whether it is known where the machine stands, once power is on."""
        state = self._device.state
        return bool(state.half_known if state.half else state.point_known)

    def _before(self) -> list[str]:
        """The point before the block, as the status shows it."""
        with Copy(self.ngc, self.settings, self.image, []) as copy:
            return list(copy.start.at)

    def _approach(self, start: tuple[str, ...], end: tuple[str, ...], us: int) -> list[str]:
        """How the approach goes; if nobody said where the machine stands, that this is missing."""
        if self.at is None and not self._known():
            return ["the approach: it isn't known where the machine stands; name it: X Y Z"]
        a, b = (tuple(map(nanometres, at)) for at in (start, end))
        length = distance(a, b)
        if not length:
            return ["the approach: the machine stands there already; nothing moves"]
        said = [f"the approach: from {point(start)}", f"    to {point(end)}",
                f"    one straight line at the traverse rate, {rounded(length)} mm in {duration(us)},"
                f" lowest Z {rounded(min(a[2], b[2]))}"]
        if b[2] < a[2]:
            said.append(f"    it goes DOWN {rounded(a[2] - b[2])} mm")
        return said

    def _rest(self, copy: Copy) -> tuple[list[str], Device]:
        """The block and what comes after it, and the copy's device right after the block."""
        copy.tally = Tally(copy.tally.position, copy.tally.slot)  # what is counted begins here
        after = copy.device()
        try:
            copy.go_to_entry()
            after = copy.device()
            copy.go_to_end()
        except CommandRefused as error:
            self.refused = True
            return [*self._figures(copy), self._refusal(error)], after
        return self._figures(copy), after

    def _figures(self, copy: Copy) -> list[str]:
        tally, program = copy.tally, Program(self._device.program)
        self.rest_us = sum(tally.us.values())
        low, high = tally.extents
        each = (f"{axis} {rounded(a)} to {rounded(b)}" for axis, a, b in zip("XYZ", low, high, strict=True))
        said = [f"from there to the end: {duration(self.rest_us)}; {'   '.join(each)} mm"]
        said += [f"    {f'tool {slot}' if slot else 'no tool'}: {duration(us)}" for slot, us in tally.us.items()]
        said += [f"    it stops before {program.named_at(place)}, for continue" for place in copy.stops]
        status = copy.console.status()
        if copy.idle and status.place:
            said.append(f"then start goes on with {program.named_at(status.place)}: {program.line(status.place)}")
        return said

    def _refusal(self, error: CommandRefused) -> str:
        program = Program(self._device.program)
        return f"{error.reply}: {program.named_at(error.status.place)}: {program.line(error.status.place)}"

    def _started(self) -> list[str]:
        state, program = self._device.state, Program(self._device.program)
        said = ["no block is half-done: resume has nothing to do"]
        with Copy(self.ngc, self.settings, self.image, []):
            pass  # `ngc` takes the device
        if not program.text:
            return [*said, "there is no program"]
        said.append(f"start goes on with {program.named_at(state.place)} of {program.last}:"
                    f" {program.line(state.place)}")
        said.append(f"it switches nothing by itself; kept is: {outputs_words(state.outputs)}")
        if self.at is None and not self._known():
            return [*said, "it isn't known where the machine stands; name it: X Y Z"]
        commands = [f"reference {' '.join(self.at)}"] if self.at else []
        with Copy(self.ngc, self.settings, self.image, [*commands, "start"], True, self.interrupted) as copy:
            copy.tally.slot = state.slot
            said.append(f"it begins at {point(copy.start.at)}")
            rest, _ = self._rest(copy)
        return [*said, *rest]


def _segments(after: Device, entries: int) -> int:
    """How many segments a block has, by the log of a device right after it; 0 if the log doesn't tell."""
    opened = [record.state.segment for record in after.records
              if record.state.opened == 1 and record.state.entries == entries]
    return max(opened) + 1 if opened else 0
