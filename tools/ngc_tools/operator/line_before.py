"""What is in force before a line of a program, found by running the lines before it over a copy of the device, and the
text that begins with that line: the way there, and then the program's own lines.

The copy's machine has the greatest steps that settings may have: it hands out few pulses, and points, offsets and modes
are the same."""
from collections.abc import Callable, Iterator
from dataclasses import dataclass, replace

from ngc_tools.failure import Failure
from ngc_tools.formats.canonical import MOTIONS, Command, read_commands
from ngc_tools.formats.device import Device, State
from ngc_tools.formats.in_force import InForce
from ngc_tools.formats.lines import WAY_BEGINS, WAY_ENDS, Program, percent_lines, program_lines
from ngc_tools.formats.settings import Settings
from ngc_tools.job.moves import Point
from ngc_tools.job.parts_compared import COMPARED, matters
from ngc_tools.ngc.beginning import Beginning
from ngc_tools.ngc.copies import CommandRefused, Copy
from ngc_tools.ngc.run import refusal
from ngc_tools.operator.modes import SPINDLE, SYSTEMS, differences, trimmed, words_of
from ngc_tools.operator.sentences import explained
from ngc_tools.scratch import scratch_file

_STEP_NM = 1_000_000
_SHIFT_NM = 2 * _STEP_NM  # by which the other beginning stands beside the machine
_OTHER_MODES = "mdi G80 G17 G21 G90 G94 G98"
_MODES = ("unit", "distance", "plane", "feed_mode", "retract", "motion", "path_mode")
_MARK = "ngc begins here"
_KEPT = (*range(5161, 5164), *range(5181, 5184), *range(5211, 5214),
         *(5221 + 20 * system + axis for system in range(len(SYSTEMS)) for axis in range(3)))
"""The parameters of homes, of the G92 offset and of origins, which a `load` keeps."""


class NotFromLine(Failure):
    """A program can't be begun with that line; the text says why."""


@dataclass(frozen=True, slots=True)
class LineBefore:
    """What is in force before a line: its `number` for people, its `index` in the text, from 0, and how the device
    would stand, with the parameters that it would have."""

    number: int
    index: int
    state: State
    parameters: dict[int, int]
    tools_nm: list[int]

    @property
    def point_nm(self) -> Point:
        """Where the machine stands before it."""
        return self.state.point_nm

    @property
    def tip_nm(self) -> Point:
        """The same in the program's coordinates, that of the tool's tip in Z."""
        state = self.state
        x, y, z = (at - origin - offset for at, origin, offset in
                   zip(state.point_nm, state.origin_nm, state.g92_nm, strict=True))
        return x, y, z - state.tool_length_nm

    @property
    def length_word(self) -> str:
        """What brings its tool length about. Raises NotFromLine."""
        length, slot = self.state.tool_length_nm, self.state.slot
        if not length:
            return "G49"
        if 0 < slot <= len(self.tools_nm) and self.tools_nm[slot - 1] == length:
            return f"G43 H{slot}"
        if length not in self.tools_nm:
            raise NotFromLine(f"a tool length of {trimmed(length)} mm is in force before {self.named}, and no slot has"
                              " it: G43 H with the slot of the tool in the spindle first")
        return f"G43 H{self.tools_nm.index(length) + 1}"

    @property
    def named(self) -> str:
        """The line, for people."""
        return f"line {self.number}"


@dataclass(frozen=True, slots=True)
class LineSearch:
    """Finds it with this `ngc` and these settings, over a device, with block delete or without; it is broken off where
    `interrupted` says so."""

    ngc: str
    path: str
    settings: Settings
    device: Device
    block_delete: bool
    interrupted: Callable[[], bool]

    def find(self, program: Program, number: int) -> LineBefore:
        """What is in force before a line of this number for people. Raises NotFromLine, also where the lines from there
        on would do something else without those before it; Interrupted, Ended, CannotRun, BadText, OSError."""
        index = self._index(program, number)
        lines = program_lines(program.text)
        text = b"".join(lines[:index])
        here = self._after(program, text, number, [])
        self._look(here, number)
        self._look_elsewhere(program, text, number, here)
        before = LineBefore(number, index, here.state, here.parameters, here.tools_nm)
        least_nm = max(self.device.state.point_nm[2], before.point_nm[2])
        if before.state.slot == self.device.slot:  # else a tool comes first
            self._compare(lines, before, self.text(program, before, least_nm, "1"))
        return before

    def _index(self, program: Program, number: int) -> int:
        """Where it stands in the text. Raises NotFromLine."""
        way, first = program.way
        index = number - first + way
        if number < first:
            raise NotFromLine(f"the lines before line {first} aren't stored any more: load the whole program first")
        if index >= program.count:
            raise NotFromLine(f"the program has {program.last} lines")
        if number < program.second:
            raise NotFromLine(f"line {number} is the program's first: run begins with it")
        return index

    def _after(self, program: Program, text: bytes, number: int, commands: list[str]) -> Device:
        """A copy of the device after these lines, once it was given these commands. Raises NotFromLine."""
        coarse = replace(self.settings, step_nm=(_STEP_NM,) * 3, period_us=1)
        slot = program.way_slot
        tool = [] if slot is None else [f"mdi T{slot} M6", "tick 20"]
        begin = ["delete on"] * self.block_delete + commands + tool
        with scratch_file(coarse.text(), "settings", ".toml") as path:
            with Copy(self.ngc, path, self.device.image, begin, False, self.interrupted) as copy:
                for reply in (copy.console.load(text), copy.console.ask("start")[0]):
                    if reply.startswith("refused"):
                        raise NotFromLine(f"over a copy of the device: {explained(reply)}")
                try:
                    copy.go_to_end()
                except CommandRefused as error:
                    if error.status.place >= len(text):
                        return copy.device()
                    at = error.status.place
                    raise NotFromLine(f"before line {number}, {program.named_at(at)}: {program.line(at)}\n"
                                      f"  {explained(error.reply)}") from None
        raise NotFromLine(f"the program ends before line {number}")

    def _look(self, here: Device, number: int) -> None:
        """Refuses what no line brings about. Raises NotFromLine."""
        if here.state.feed_mode == 93:
            raise NotFromLine(f"G93 is in force before line {number}: choose a line with G94 in force")
        is_kept = all(here.parameters[index] == self.device.parameters[index] for index in _KEPT)
        if not is_kept or here.state.g92_nm != self.device.state.g92_nm:
            raise NotFromLine(f"the lines before line {number} set an offset or a home, by G10, G92 or a"
                              " parameter: do that by lines of your own, and leave it out there")

    def _look_elsewhere(self, program: Program, text: bytes, number: int, here: Device) -> None:
        """Refuses what depends on how the program was begun: where the machine stood, and in which modes. Raises
        NotFromLine."""
        beside = self._otherwise(program, text, number, [f"reference {' '.join(map(trimmed, self._beside()))}"])
        apart = [axis for axis, one, two in zip("XYZ", here.state.point_nm, beside.point_nm, strict=True) if one != two]
        if apart:
            raise NotFromLine(f"where the tool is before line {number} isn't known: its {' and '.join(apart)} is where"
                              " the program was begun. Choose a line behind moves of all three axes")
        other = self._otherwise(program, text, number, [_OTHER_MODES, "tick 20"])
        names = [difference.now for difference in differences(other, here.state) if difference.name in _MODES]
        if names or other.point_nm != here.state.point_nm:
            raise NotFromLine(f"{', '.join(names) or 'a mode'} would be in force before line {number} since it is now,"
                              f" and no line before it says so: {_OTHER_MODES.removeprefix('mdi ')} first, if that is"
                              " meant")

    def _otherwise(self, program: Program, text: bytes, number: int, commands: list[str]) -> State:
        """What would be in force had it been begun otherwise. Raises NotFromLine."""
        try:
            return self._after(program, text, number, commands).state
        except NotFromLine:
            raise NotFromLine(f"the lines before line {number} go on with what is in force as the program is begun, or"
                              " from where the machine stands then") from None

    def _beside(self) -> Iterator[int]:
        """A point beside the machine's, within the travel."""
        for at, low, high in zip(self.device.state.point_nm, self.settings.low_nm, self.settings.high_nm, strict=True):
            yield at + _SHIFT_NM if at + _SHIFT_NM <= high else max(low, at - _SHIFT_NM)

    # the text

    def text(self, program: Program, before: LineBefore, lift_nm: int, feed: str) -> bytes:
        """The program from that line on, behind the way to it: up to a machine Z, over, and down at a feed in mm a
        minute. Raises NotFromLine where no slot has its tool length."""
        lines = program_lines(program.text)
        percent = percent_lines(lines)
        begins = WAY_BEGINS.format(before.number, before.state.slot)
        way = begins + "".join(f"{line}\n" for line in _way(before, lift_nm, feed))
        head = lines[percent - 1].rstrip() + b"\n" if percent else b""
        return head + way.encode() + b"".join(lines[before.index:])

    def _compare(self, lines: list[bytes], before: LineBefore, text: bytes) -> None:
        """Looks whether both do the same from the line on, by dry runs from the device. Raises NotFromLine."""
        ends = WAY_ENDS.format(before.number).encode()
        whole = b"".join([*lines[:before.index], f"({_MARK})\n".encode(), *lines[before.index:]])
        wanted, found = self._acts(whole, _MARK), self._acts(text, ends.decode().strip("()\n"))
        if wanted == found:
            return
        if wanted[:1] != found[:1]:
            raise NotFromLine(f"the way doesn't bring about what is in force before {before.named}")
        raise NotFromLine(self._why(before))

    def _why(self, before: LineBefore) -> str:
        """Why the lines from there on do something else without those before them."""
        motion = before.state.motion
        if motion > 80:
            return (f"{before.named} stands within the lines of a cycle, G{motion}, and goes on with what that keeps:"
                    " choose the line that names the cycle")
        if motion in (2, 3):
            return (f"{before.named} goes on with G{motion} of a line before it, which no line brings about without a"
                    " move: choose a line that names its motion")
        set_before = any(before.parameters[index] for index in range(1, _KEPT[0]))
        cause = ": they use parameters that lines before it set" if set_before else ""
        return f"the lines from {before.named} on would do something else without those before it{cause}"

    def _acts(self, text: bytes, mark: str) -> list[tuple[Command, InForce]]:
        """What is done behind a comment, each with what is in force then and matters to it; the first is where the
        machine stands there, with all that is in force. Raises CannotRun, BadText, OSError."""
        beginning = Beginning.of(self.device)
        status, said = beginning.dry(self.ngc, text, self.path, self.block_delete)
        refusal(status, said)  # a dry run that was none is raised
        in_force, at, found = beginning.on_device, beginning.point_nm, []
        for command in read_commands(said):
            if command.name == "COMMENT" and command.args[0] == mark and not found:
                found.append((Command("", at), replace(in_force, inverse=0)))
            elif found and command.name in COMPARED:
                found.append((command, matters(command, in_force)))
            elif found and command.name == "REFUSED":
                found.append((Command("REFUSED", command.args[1:]), InForce()))
            in_force = in_force.after(command)
            at = command.point if command.name in MOTIONS else at
        return found


def _way(before: LineBefore, lift_nm: int, feed: str) -> Iterator[str]:
    """The lines that lead there: what is on, a stop to look, and then up, over and down, and what is in force. They
    leave nothing as it is by chance, so that they lead there again."""
    state, (x, y, z) = before.state, map(trimmed, before.tip_nm)
    yield f"S{trimmed(state.speed)} T{state.selected} {SPINDLE[state.spindle]}"
    if not (state.mist and state.flood):
        yield "M9"
    yield from (code for code, is_on in (("M7", state.mist), ("M8", state.flood)) if is_on)
    yield "M0 (look: spindle, tool and way)"
    yield f"G21 G90 G94 {SYSTEMS[state.system - 1]} {before.length_word}"
    yield f"G53 G0 Z{trimmed(lift_nm)}"
    yield f"G0 X{x} Y{y}"
    yield f"G1 Z{z} F{feed}"
    if state.motion == 0:
        yield f"G0 Z{z}"
    elif state.motion == 80:
        yield "G80"
    codes = words_of(state)
    modes = [codes[name] for name in ("plane", "unit", "distance", "retract", "path_mode")]
    yield " ".join([f"F{trimmed(state.feed_nm_per_min)}", *modes, "M48" if state.overrides else "M49"])
    yield WAY_ENDS.format(before.number).strip()
