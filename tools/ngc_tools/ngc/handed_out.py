"""Where in OUT, a file, the segment begins that `resume` takes up, and what OUT has lost of what was handed out before.

The device's log tells it. `ngc run` does again, over a copy, what the session did since its last command, and hands out
the same lines: those before the open segment, and then the segment's own. OUT ends with a beginning of them, and how
long that is says where in OUT the segment begins, or how much of OUT was lost. Where the log tells nothing any more, as
after a second power on, the segment's own lines and the point at which it begins tell it; so they do where nothing of
OUT is lost, as within a session, since what was handed out before may be an hour's work."""
import mmap
import os
from collections.abc import Callable, Iterator
from dataclasses import dataclass, replace
from pathlib import Path

from ngc_tools.files import opened
from ngc_tools.formats.before import Before
from ngc_tools.formats.device import Device, State
from ngc_tools.formats.out import LONGEST_LINE, Switch, end_of_lines, read_line
from ngc_tools.formats.out_note import OutNote
from ngc_tools.formats.position import nanometres, rounded
from ngc_tools.formats.settings import Settings
from ngc_tools.ngc.carried import CannotTell, Run, as_powered_on, is_within, runs
from ngc_tools.ngc.console import Ended, Status
from ngc_tools.ngc.copies import Copy, CommandRefused, first
from ngc_tools.link.out_file import born_ns

Steps = tuple[int, int, int]
_PIECE = 4096  # lines that are looked at, at once
_HEAD = 1024  # bytes by which a place in OUT is known
_TAIL = 65536  # the same, of what was handed out before
_MOST_UNSYNCED = 1000  # lines: no more ticks are given at once
_SAME: tuple[str, ...] = ()
_DELETES = ("delete on",)


@dataclass(frozen=True, slots=True)
class FileRecord:
    """A player's record of a file: the motors are at `steps`, where the first `size` bytes of OUT lead. Where they
    aren't there, and it is known, that is `path`."""

    size: int
    steps: Steps
    path: Steps | None = None

    @property
    def is_off(self) -> bool:
        """Whether the motors aren't where those bytes lead, and it is known where that is."""
        return self.path not in (None, self.steps)

    def ends(self, rest: bytes) -> "list[_End]":
        """Where OUT may lead with what stands behind those bytes, the likelier first: lines may also have been handed
        out since from where the motors are."""
        here = [_End(_moved(self.steps, rest), False)]
        return [_End(_moved(self.path, rest), True), *here] if self.path is not None and self.is_off else here


@dataclass(frozen=True, slots=True)
class _End:
    """OUT leads to `steps`; `is_off`: not from where the motors are."""

    steps: Steps
    is_off: bool


@dataclass(frozen=True, slots=True)
class SegmentBeginning:
    """The first `size` bytes of OUT, with the lines `missing` behind what it has, lead to where the open segment
    begins, or to the end of what was handed out if no block is half-done. That is at `steps`. `is_off`: by the record
    the motors aren't on the path of OUT. `is_new`: OUT has none of the lines that were handed out, so it may be another
    OUT than the session's. `is_told`: the device's log tells all of OUT that may have been lost before that."""

    size: int
    steps: Steps
    missing: bytes = b""
    is_off: bool = False
    is_new: bool = False
    is_told: bool = False


@dataclass(frozen=True, slots=True)
class _Lines:
    """Lines that were handed out from a point on: those `before` the open segment, and its `own`. `ahead` is the run of
    the log before them, if there is one."""

    start: Steps
    before: bytes
    own: bytes = b""
    ahead: Run | None = None


@dataclass(frozen=True, slots=True)
class NeverCut:
    """Lines of OUT that lead from the motors to where the half-done segment begins, `text`, some `most` of them: they
    were handed out, no motor carried them out, and nothing makes them again. The motors may have stood at the end of
    fewer, `least`, where their path comes to the same place more than once."""

    text: bytes
    most: int
    least: int


@dataclass(frozen=True, slots=True)
class _InWhole:
    """An OUT of so many bytes has all that was handed out, and leads to `ends`. The open segment begins behind its
    first `begin` bytes, at `steps`."""

    size: int
    begin: int
    steps: Steps
    ends: Steps


class _Text(Copy):
    """A copy that keeps all that is handed out."""

    def __init__(self, ngc: str, settings: str | Path, image: bytes, commands: list[str]) -> None:
        self.text = bytearray()
        super().__init__(ngc, settings, image, commands)

    def _read(self) -> None:
        text = self._out.read_bytes()
        self.lines += text.count(b"\n")
        self.text += text
        with open(self._out, "r+b") as file:
            file.truncate()


class Finder:
    """Finds it, with `ngc` and the settings of the session."""

    def __init__(self, ngc: str, settings: str | Path, image: bytes, note: OutNote | None = None,
                 is_whole: bool = False, before: Before | None = None) -> None:
        """`image` is the device as the session left it, or as it stood since, `note` what was noted of OUT beside it,
        `before` what was kept there before the last command that handed lines out. `is_whole`: OUT has all that was
        handed out. Raises NoDevice, BadSettings, OSError."""
        self.ngc, self.settings, self.image, self.note, self.is_whole = ngc, settings, image, note, is_whole
        self.before = before
        self.step_nm = Settings.read(settings).step_nm
        self.device = Device(image)
        self._in_whole: _InWhole | None = None

    def find(self, out: str | Path, kept: FileRecord) -> SegmentBeginning:
        """Where the open segment begins. Raises CannotTell, which names what doesn't belong together, CommandRefused,
        Ended, OSError."""
        with opened(out) as file:
            size = os.fstat(file.fileno()).st_size
            text = mmap.mmap(file.fileno(), 0, access=mmap.ACCESS_READ) if size else b""
            whole = text.rfind(b"\n") + 1
            if kept.size > whole:
                raise CannotTell(f"{out} has {whole:,} bytes of whole lines, and the record counts {kept.size:,}: they"
                                 " don't belong together")
            size = end_of_lines(text, kept.size)  # behind a hole nothing tells where it leads
            ends = kept.ends(text[kept.size:size])
            found = self._by_end(text, size, ends[0]) if self.is_whole else None
            if found is None and self.note and self._is_noted(file.fileno()):
                found = self._by_note(text, size, kept)
            return found or self._found(text, size, kept, ends, str(out))

    def _by_end(self, text: "bytes | mmap.mmap", size: int, end: _End) -> SegmentBeginning | None:
        """What the segment's own lines alone tell of an OUT that has all that was handed out, wherever the motors are
        since it was looked at first; None where they don't tell it. Raises OSError."""
        known = self._in_whole
        if known is None or known.size != size:
            try:
                known = self._in_whole = self._look_at_end(text, size, end.steps)
            except (CannotTell, CommandRefused, Ended):
                return None
        return known and SegmentBeginning(known.begin, known.steps, is_off=end.is_off or end.steps != known.ends)

    def _look_at_end(self, text: "bytes | mmap.mmap", size: int, ends: Steps) -> "_InWhole | None":
        """Where in such an OUT the open segment begins, or nothing is open; None where the place of the motors, and the
        lines with which OUT ends, don't say it. Raises as `find`."""
        if not self.device.state.half:
            return _InWhole(size, size, ends, ends) if self._has_machine_at(ends) else None
        own = self._own()
        counts = [count for count in _places(own.own, own.start, ends) if _is_end(text, size, own.own, count)]
        return _InWhole(size, size - counts[0], own.start, ends) if len(counts) == 1 else None

    def _is_noted(self, file: int) -> bool:
        """Whether the note speaks of this file."""
        return (self.note.inode, self.note.born_ns) == (os.fstat(file).st_ino & (2**63 - 1), born_ns(file))

    def _by_note(self, text: "bytes | mmap.mmap", size: int, kept: FileRecord) -> SegmentBeginning | None:
        """By what OUT had as it was noted, and what was handed out since; None where the log doesn't go back to that,
        or OUT goes on in another way."""
        note, parts = self.note, self._parts()
        if parts is None or size < note.size:
            return None
        for how in (_SAME, _DELETES):
            try:
                since = self._since(parts, how)
            except (CannotTell, CommandRefused, Ended):
                continue
            is_emptied = since is not None and size == 0 and since.before.count(b"\n") > _MOST_UNSYNCED
            if since is None or is_emptied:
                return None
            if _is_end(text, size, since.before + since.own, size - note.size, note.size):
                return self._noted(text, size, kept, since)
        return None

    def _noted_device(self) -> Device | None:
        """The device as its log goes back to the note; None where it doesn't."""
        return next((each for each in self._devices(True) if self.note is not None and self.note.is_of(each)), None)

    def _parts(self) -> list[tuple[Device, Run]] | None:
        """What was done since the note, and the device whose log tells it; None where that isn't known. Where the log
        was begun anew since, that is known by what was kept before the last command."""
        device, note, before = self._noted_device(), self.note, self.before
        if device is not None:
            return [(device, run) for run in runs(device, True, note.records)]
        if before is None or not note.is_of(before.device) or before.device.program != self.device.program:
            return None
        earlier = [(before.device, run) for run in runs(before.device, True, note.records)]
        ends = None if self.device.state.half else self.device.state.entries
        return [*earlier, (self.device, Run(before.device.image, (before.command,), -1, ends))]

    def is_all_there(self, file: int, size: int) -> bool:
        """Whether OUT, which is open, had these bytes as it was noted, and nothing was handed out since: no block is
        half-done."""
        device = self._noted_device()
        if device is None or device.state.half or not self._is_noted(file) or size != self.note.size:
            return False
        return not any(record.state.opened for record in device.records[self.note.records:])

    def may_have_lost(self, file: int, size: int) -> bool:
        """Whether OUT, which is open, may have lost all that was handed out last, and isn't just another one, or one
        that was emptied."""
        if self.note is None:
            return size > 0
        return self._is_noted(file) and (size > 0 or self.note.size == 0 and self._noted_device() is not None)

    def _since(self, parts: list[tuple[Device, Run]], how: tuple[str, ...]) -> _Lines | None:
        """What was handed out since the note, by these parts; for nothing, without a half-done block, where OUT led as
        it was noted, wherever the machine is since, None where that isn't noted. Raises CannotTell, CommandRefused,
        Ended, OSError."""
        before, last = b"", None
        for device, run in parts:
            last = self._again(device, self._begun(device, run), how)
            before += last.before
        if last is not None:
            return _Lines(_moved(last.start, last.before), before, last.own)
        if self.device.state.half:
            return _Lines(self._steps(self.segment(self.image)[0]), b"")
        return None if self.note.at_nm is None else _Lines(self._rounded(self.note.at_nm), b"")

    def _noted(self, text: "bytes | mmap.mmap", size: int, kept: FileRecord, since: _Lines) -> SegmentBeginning:
        """OUT had what the note says, and goes on with what was handed out `since`, which leads to `since.start`."""
        begins = self.note.size + len(since.before) if since.before or since.own else self.note.begins
        missing = since.before[size - self.note.size:]
        if begins < kept.size:
            stands = _moved(since.start, text[begins:kept.size])
        else:
            stands = _moved_back(since.start, text[kept.size:min(begins, size)] + missing)
        return SegmentBeginning(begins, since.start, missing, stands != kept.steps, size == 0 and bool(missing), True)

    def _found(self, text: "bytes | mmap.mmap", size: int, kept: FileRecord, ends: list[_End], out: str
               ) -> SegmentBeginning:
        """OUT leads to one of these, by the record."""
        lines = self._by_log()
        found = self._by_lines(text, size, lines, ends, _longest) if lines is not None else None
        if found is not None:
            return replace(found, is_told=not found.is_new)
        if not self.device.state.half:
            return self._at_end(out, size, kept, ends)
        found = self._by_lines(text, size, self._own(), ends, _shortest)
        if found is None:
            raise CannotTell(f"{out} doesn't end with lines of the half-done block: it isn't the OUT of this device, or"
                             " the record isn't that of this OUT")
        return found

    def _by_lines(self, text: "bytes | mmap.mmap", size: int, lines: _Lines, ends: list[_End],
                  beginning: "Callable[[bytes | mmap.mmap, int, bytes, Steps, Steps], int | None]"
                  ) -> SegmentBeginning | None:
        """The same by lines with a beginning of which OUT ends: by where they lead, else by how OUT ends alone; None
        where it doesn't."""
        whole = lines.before + lines.own
        for end in ends:
            at = beginning(text, size, whole, lines.start, end.steps)
            if at is not None:
                is_new = at == 0 and len(lines.before) > 0 and not self._follows(text, size, lines)
                return self._beginning(size, lines, at, end.is_off, is_new)
        at = self._off(text, size, whole, lines)
        return None if at is None else self._beginning(size, lines, at, True, False)

    def _follows(self, text: "bytes | mmap.mmap", size: int, lines: _Lines) -> bool:
        """Whether OUT ends with what was handed out before these lines, by the log. Raises OSError."""
        try:
            ahead = self._text(lines.ahead) if lines.ahead is not None else b""
        except (CannotTell, CommandRefused, Ended):
            return False
        return bool(ahead) and _is_end(text, size, ahead, len(ahead))

    def never_cut(self, at: list[str], ahead: int) -> NeverCut:
        """What was handed out before the half-done segment and not carried out: the motors are at `at`, in machine
        millimetres, and OUT was ahead of them by so many lines at most. Raises CannotTell if they aren't on the path
        that was handed out last, CommandRefused, Ended, OSError."""
        lines, ends = self._by_log(_SAME) or self._by_log(_DELETES), self._steps(at)
        if lines is None:
            raise CannotTell("the log doesn't tell what was handed out before the half-done block")
        end = len(lines.before)
        places = list(_places(lines.before + lines.own, lines.start, ends))
        if not places:
            raise CannotTell("the motors aren't on the path that was handed out last")
        window = end - sum(map(len, lines.before[-ahead * LONGEST_LINE:].splitlines(True)[-ahead:]))
        near = [place for place in places if place >= window] or places[-1:]
        text = lines.before[near[0]:]
        return NeverCut(text, text.count(b"\n"), lines.before.count(b"\n", min(near[-1], end)))

    def _off(self, text: "bytes | mmap.mmap", size: int, whole: bytes, lines: _Lines) -> int | None:
        """The beginning of the lines with which OUT ends, wherever the motors are; None if there isn't one alone, by
        itself or behind what was handed out before. Raises OSError."""
        at = _only(text, size, whole)
        if at is not None or lines.ahead is None:
            return at
        try:
            return _behind(text, size, whole, self._text(lines.ahead))
        except (CannotTell, CommandRefused, Ended):
            return None

    def _text(self, run: Run) -> bytes:
        """All that a run which is over handed out."""
        with first(lambda _: _Text(self.ngc, self.settings, run.image, list(run.commands)),
                   lambda status: _key(status) >= (run.ends, 0)) as copy:
            return bytes(copy.text)

    def _at_end(self, out: str, size: int, kept: FileRecord, ends: list[_End]) -> SegmentBeginning:
        """The end of OUT. Raises CannotTell where that is neither where the device handed lines out to, nor are the
        motors beside it where the device was told that they are."""
        end = self._led(kept, ends, size)
        if end is None and kept.is_off and self.device.state.entries and self._has_machine_at(kept.steps):
            end = ends[0]
        if end is None:
            raise CannotTell(f"{out} doesn't lead to where the device has the machine: it isn't the OUT of this device,"
                             " or the record isn't that of this OUT")
        return SegmentBeginning(size, end.steps, is_off=end.is_off)

    def _led(self, kept: FileRecord, ends: list[_End], size: int) -> _End | None:
        """Where OUT, with so many bytes, leads: to where the device handed lines out to, or has the machine; None for
        neither. Lines that are left lead on from where the motors are only if nothing was told since. Raises CannotTell
        where lines that end where they began may lead on from there or from here."""
        device, now = next(self._devices(), self.device), self.device.state
        if not now.point_known:
            return ends[0]
        handed_out, is_told = _handed_out(device)
        is_left = kept.is_off and size > kept.size
        points = [self._rounded(state.point_nm) for state in (handed_out, now) if state.point_known]
        found = next((end for point in points for end in (ends[:1] if is_left and is_told else ends)
                      if end.steps == point), None)
        if is_left and not device.records and found == _End(kept.steps, False):
            raise CannotTell("nothing tells any more whether the lines that are left lead on from where the motors"
                             " are, or from where they were before they were told another place")
        return found

    def _has_machine_at(self, steps: Steps) -> bool:
        """Whether the device has the machine there."""
        state = self.device.state
        return bool(state.point_known) and steps == self._rounded(state.point_nm)

    def _rounded(self, point_nm: Steps) -> Steps:
        """A point in steps."""
        x, y, z = map(rounded, point_nm, self.step_nm)
        return x, y, z

    @staticmethod
    def _beginning(size: int, lines: _Lines, at: int, is_off: bool, is_new: bool) -> SegmentBeginning:
        """OUT ends with the first `at` bytes of the lines."""
        return SegmentBeginning(size - at + len(lines.before), _moved(lines.start, lines.before), lines.before[at:],
                                is_off, is_new)

    def _by_log(self, how: tuple[str, ...] | None = None) -> _Lines | None:
        """What the log says; None if it says nothing of what is half-done now. `how` are commands that are given
        before: then all that is done again has to be as the log has it."""
        for device in self._devices():
            try:
                if parts := list(runs(device, within=True)):
                    ahead = parts[-2] if len(parts) > 1 else None
                    return replace(self._again(device, self._begun(device, parts[-1]), how), ahead=ahead)
            except (CannotTell, CommandRefused):
                continue
        return None

    def _devices(self, is_empty_too: bool = False) -> Iterator[Device]:
        """The device, where its log has records or `is_empty_too`, and as it stood before it was written anew, if that
        was the same."""
        device = self.device
        if device.records or is_empty_too:
            yield device
        older = device.without_header()
        if not device.records and older is not None:
            before = Device(older)
            if before.program == device.program and _same(before.state, device.state):
                yield before

    def _begun(self, device: Device, run: Run) -> Run:
        """A run that can be done again, also if it began before the log, within a block: then with two entries more, of
        the point and of the approach."""
        if run.record != 0 or not is_within(device):
            return run
        at, _ = self.segment(run.image)
        ends = None if run.ends is None else run.ends + 2
        return Run(run.image, (f"reference {' '.join(at)}", "resume"), 0, ends)

    def _again(self, device: Device, run: Run, how: tuple[str, ...] | None) -> _Lines:
        """The lines of a run again. Raises CannotTell if it does other moves."""
        last, more = device.state, 2 if run.commands[0].startswith("reference") else 0
        key = (last.entries + more, last.segment + 1) if run.ends is None else (run.ends, 0)

        def make(_: bool) -> Copy:
            return _Text(self.ngc, self.settings, run.image, [*run.commands[:-1], *(how or ()), run.commands[-1]])

        with first(make, lambda status: _key(status) >= key) as copy:
            before, status, start, again = bytes(copy.text), copy.console.status(), copy.start.at, copy.device()
        is_right = _key(status) == key if run.ends is None else status.entries == run.ends
        if how is not None and not more:
            is_right = is_right and _is_as_logged(again, device, run.record)
        if not is_right or status.place != _place_after(device, run):
            raise CannotTell("ngc run does other moves than the session did: were the settings others?")
        own = b""
        if run.ends is None:
            with first(make, lambda status: _key(status) > key) as copy:
                own = bytes(copy.text[len(before):])
        if more:
            before = before.partition(b"\n")[2]  # the switch of the approach
        return _Lines(self._steps(start), before, own)

    def _own(self) -> _Lines:
        """The open segment's own lines, from the point at which it begins."""
        state = self.device.state
        at, _ = self.segment(self.image)
        commands = [f"reference {' '.join(at)}", "resume"]
        key = (state.entries + 2, state.segment + 1)
        with first(lambda _: _Text(self.ngc, self.settings, self.image, commands),
                   lambda status: _key(status) > key) as copy:
            return _Lines(self._steps(at), b"", bytes(copy.text.partition(b"\n")[2]))

    def segment(self, image: bytes) -> tuple[tuple[str, ...], Switch]:
        """Where the half-done segment of an image begins, and what `resume` switches on."""
        state = Device(image).state
        with Copy(self.ngc, self.settings, image, []) as copy:
            at = copy.start.at
        commands = [f"reference {' '.join(at)}", "resume"]
        with first(lambda _: _Text(self.ngc, self.settings, image, commands),
                   lambda status: status.entries > state.entries + 1) as copy:
            switch = read_line(bytes(copy.text.partition(b"\n")[0]), 1)
            assert isinstance(switch, Switch)
            return copy.console.status().at, switch

    def _steps(self, at: tuple[str, ...] | list[str]) -> Steps:
        x, y, z = (rounded(nanometres(number), step) for number, step in zip(at, self.step_nm, strict=True))
        return x, y, z


def _handed_out(device: Device) -> tuple[State, bool]:
    """What a device's log has before what was only told of the machine's place; and whether anything was."""
    states = [device.snapshot, *(record.state for record in device.records)]
    count = len(states)
    while len(states) > 1 and _without_place(states[-1]) == _without_place(states[-2]):
        states.pop()
    return states[-1], len(states) < count


def _without_place(state: State) -> State:
    return replace(state, entries=0, point_known=0, point_nm=(0, 0, 0))


def _same(one: State, other: State) -> bool:
    """Whether both have the same block half-done, or the same place without one."""
    return (one.entries, one.place, one.half, one.half_text, one.segment) == (
        other.entries, other.place, other.half, other.half_text, other.segment)


def _place_after(device: Device, run: Run) -> int:
    """The place in the program at the end of a run, by the device's log."""
    ended = [record.state.place for record in device.records if record.state.entries == run.ends]
    return ended[0] if ended else device.state.place


def _is_as_logged(again: Device, device: Device, begin: int) -> bool:
    """Whether what was done again is what the log of a device has from a record on; where it began before the log,
    whether it ends as the device does."""
    if begin < 0:
        return as_powered_on(again.state) == as_powered_on(device.state) and again.parameters == device.parameters
    return all(mine.state == record.state for mine, record in zip(again.records, device.records[begin:]))


def _key(status: Status) -> tuple[int, int]:
    """What grows from segment to segment."""
    return status.entries, 0 if status.half == "none" else status.segment + 1


_STEPS: dict[bytes, Steps] = {b"P %d %d %d " % (x, y, z): (x, y, z)
                              for x in (-1, 0, 1) for y in (-1, 0, 1) for z in (-1, 0, 1)}


def _moved(start: Steps, text: bytes) -> Steps:
    """Where lines lead from a point."""
    at = list(start)
    for begin, step in _STEPS.items():
        count = text.count(b"\n" + begin) + text.startswith(begin)
        for axis in range(3):
            at[axis] += count * step[axis]
    return at[0], at[1], at[2]


def _moved_back(end: Steps, text: bytes) -> Steps:
    """Where lines began that lead to a point."""
    x, y, z = _moved((0, 0, 0), text)
    return end[0] - x, end[1] - y, end[2] - z


def _places(whole: bytes, start: Steps, ends: Steps) -> Iterator[int]:
    """The bytes of lines up to each place at which they are at `ends`, from the first on."""
    at, begin = start, 0
    while begin <= len(whole):
        end = whole.find(b"\n", min(len(whole), begin + _PIECE * 11)) + 1 or len(whole)
        if all(abs(a - b) <= _PIECE * 11 // 9 + LONGEST_LINE for a, b in zip(at, ends)):
            yield from _within(whole, begin, end, at, ends)
        if begin == end:
            return
        at, begin = _moved(at, whole[begin:end]), end


def _within(whole: bytes, begin: int, end: int, at: Steps, ends: Steps) -> Iterator[int]:
    x, y, z = at
    if at == ends and begin == 0:
        yield 0
    for line in whole[begin:end].splitlines(True):
        begin += len(line)
        if line[:1] == b"P":
            dx, dy, dz = _STEPS[line[:line.rindex(b" ") + 1]]
            x, y, z = x + dx, y + dy, z + dz
        if (x, y, z) == ends:
            yield begin


def _is_end(text: "bytes | mmap.mmap", size: int, whole: bytes, count: int, begins: int = -1) -> bool:
    """Whether the first `size` bytes of OUT end with the first `count` bytes of the lines, as far as OUT can be read:
    room that was given back reads as zeros. They begin where a line does, or are known to begin behind `begins`
    bytes."""
    if count > len(whole):
        return False
    done = 0
    while done < count:
        piece = min(1 << 16, count - done)
        begin = size - done - piece
        if begin < 0:
            return False
        there, wanted = text[begin:begin + piece], whole[count - done - piece:count - done]
        if there != wanted:
            zeros = there.rfind(b"\0") + 1
            return zeros > 0 and not there[:zeros].strip(b"\0") and there[zeros:] == wanted[zeros:]
        done += piece
    return size - count in (0, begins) or text[size - count - 1:size - count] in (b"\n", b"\0")


def _longest(text: "bytes | mmap.mmap", size: int, whole: bytes, start: Steps, ends: Steps) -> int | None:
    """The longest beginning of the lines with which OUT ends, in bytes, that leads to `ends`."""
    found = [count for count in _places(whole, start, ends) if _is_end(text, size, whole, count)]
    return max(found, default=None)


def _shortest(text: "bytes | mmap.mmap", size: int, whole: bytes, start: Steps, ends: Steps) -> int | None:
    """The shortest one: the later the place, the less is left out."""
    return next((count for count in _places(whole, start, ends) if _is_end(text, size, whole, count)), None)


def _only(text: "bytes | mmap.mmap", size: int, whole: bytes) -> int | None:
    """The beginning of the lines with which OUT ends, wherever the motors are, if there is but one: by where they begin
    in OUT, or where that room was given back, by how OUT ends."""
    counts = {at + 1 for at in range(min(len(whole), 2 * _HEAD)) if whole[at] == 10}
    begin, head = size, whole[:_HEAD]
    while head and len(counts) < 2 * _HEAD and (begin := text.rfind(head, 0, begin + len(head) - 1)) >= 0:
        counts.add(size - begin)
    tail = text[max(0, size - _HEAD):size].partition(b"\n")[2]
    at = whole.find(tail) if tail and text[:1] == b"\0" else -1
    while at >= 0 and len(counts) < 3 * _HEAD:
        counts.add(at + len(tail))
        at = whole.find(tail, at + 1)
    found = [count for count in counts if count <= len(whole) and _is_end(text, size, whole, count)]
    return found[0] if len(found) == 1 else None


def _behind(text: "bytes | mmap.mmap", size: int, whole: bytes, ahead: bytes) -> int | None:
    """The same behind what was handed out before: moves of one line alone are told apart by that."""
    tail, begin = ahead[-_TAIL:], size
    found: list[int] = []
    while tail and len(found) < 2 and (begin := text.rfind(tail, 0, begin)) >= 0:
        count = size - begin - len(tail)
        if count > len(whole):
            break
        found += [count] if _is_end(text, size, whole, count) else []
        begin += len(tail) - 1
    return found[0] if len(found) == 1 else None
