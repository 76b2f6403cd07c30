"""What a loss of power left of OUT, a file: looked at, and mended, before `ngc run` is started over the device.

Mended is what moves nothing: a part of a line at the end is cut off, and lines that were handed out before the open
segment and are lost with the power are put behind it again."""
from collections.abc import Iterator
from contextlib import contextmanager, suppress
from dataclasses import dataclass
from functools import cached_property
from math import isqrt

from ngc_tools.failure import Failure
from ngc_tools.files import NotWritten, cause
from ngc_tools.formats.before import Before
from ngc_tools.formats.device import Device
from ngc_tools.formats.out import OFF, BadLine, Switch
from ngc_tools.formats.out_note import OutNote
from ngc_tools.formats.position import Position, nanometres
from ngc_tools.formats.settings import Settings
from ngc_tools.job.figures import duration
from ngc_tools.job.figures import millimetres as rounded
from ngc_tools.ngc.console import Ended
from ngc_tools.ngc.carried import CannotTell
from ngc_tools.ngc.copies import CommandRefused
from ngc_tools.ngc.handed_out import SegmentBeginning, Finder, FileRecord
from ngc_tools.operator.feeds import cut_feed
from ngc_tools.operator.synced import SyncedLink
from ngc_tools.link.progress import HeldBack, NoAnswer, Report
from ngc_tools.link.way import Way, count_lines, is_switch_between, look, moves, slowed, switched_at

Point = tuple[int, int, int]
HOLE = """\
{out}: behind its line {line}, at byte {at}, {zeros} bytes of zeros stood in the place of lines, which the disk lost. It
is cut off there, with {lines} lines behind them that no motor carried out"""
NEVER = """\
the device doesn't tell any more what was handed out from there on. Up to the half-done segment, or without one up to
the end, it is never cut: at most {lines} lines, {mm} mm"""
NOT_KEPT = """\
the device isn't kept as it was found, by which these lines are told: where nobody answers, they are forgotten after
another power on"""
_NO_WAY = Way(0, 0, 0, 0, 0, 0, (0, 0, 0))


@dataclass(frozen=True, slots=True)
class Recovery:
    """The motors are where the first `lines` lines of OUT lead, its first `size` bytes, by the record, at `stands_nm`;
    `outputs` are those of that place. They have to be where those of `beginning` lead, of which `line` is the number;
    it is at `at_nm`. `way` leads there along OUT; None where the motors aren't on it: then legs end at `legs_nm`, and
    lead on along OUT, if they ended before. `problem` says why none of it is known. Back it goes at most at `most_nm` a
    minute, the feed that was cut off; 0 where none is known."""

    lines: int = 0
    size: int = 0
    stands_nm: Point = (0, 0, 0)
    outputs: Switch = OFF
    line: int = 0
    beginning: SegmentBeginning | None = None
    at_nm: Point = (0, 0, 0)
    legs_nm: Point = (0, 0, 0)
    way: Way | None = None
    problem: str = ""
    most_nm: int = 0

    def is_there(self) -> bool:
        """Whether nothing has to move."""
        return self.way is not None and self.line == self.lines

    def _by_legs(self) -> str:
        on = self.line - self.lines
        then = f", and then on along {on} line{'s' if on > 1 else ''} of OUT" if on > 0 else ""
        return f"by the record the motors aren't on the path of OUT: legs lead to it{then}"

    def words(self) -> str:
        """The way, for people."""
        if self.beginning is None:
            return self.problem
        if missing := self.beginning.missing.count(b"\n"):
            return (f"on along {self.line - self.lines} lines of OUT, to its line {self.line}; {missing} of them were"
                    " lost with the power, and are put back first")
        if self.way is None:
            return self._by_legs()
        if self.is_there():
            return f"the motors are there already, behind line {self.lines} of OUT"
        count = abs(self.line - self.lines)
        where = "back through what was cut" if self.line < self.lines else "on along what was never carried out"
        switches = f"; {self.way.switches} switches of the outputs on the way" if self.way.switches else ""
        return (f"{where}, {count} line{'s' if count > 1 else ''} of OUT, to its line {self.line}:"
                f" {rounded(self.way.length_nm)} mm in {duration(self.way.us)}, lowest Z {rounded(self.way.low_nm)}"
                f"{switches}")


class Looking:
    """Looks at OUT, with `ngc`, the settings and the device as the session left it."""

    def __init__(self, ngc: str, settings: str, image: bytes, note: OutNote | None = None,
                 is_whole: bool = False, before: Before | None = None) -> None:
        """`note` is what was noted of OUT beside the device, `before` what was kept there; `is_whole`: OUT has all that
        was handed out. Raises NoDevice, BadSettings, OSError."""
        self.settings, self.path = Settings.read(settings), settings
        self.finder = Finder(ngc, settings, image, note, is_whole, before)
        self.device = Device(image)

    def look(self, out: str, file: int, lines: int, size: int, at_nm: Point, kept: Switch,
             path_nm: Point | None = None) -> Recovery:
        """How it stands: a player has carried out so much of OUT, which is open, with such outputs at its end by the
        record; that leads to `path_nm` where the motors aren't there and it is known. Raises OSError."""
        position = Position(self.settings.step_nm, at_nm)
        path = None if path_nm is None else self._steps(path_nm)
        try:
            found = self.finder.find(out, FileRecord(size, self._steps(at_nm), path))
            outputs = self._outputs(file, size, found.size - len(found.missing), kept)
            return self._way(file, Recovery(lines, size, at_nm, outputs, lines, found), position)
        except (CannotTell, CommandRefused, Ended, BadLine) as error:
            return Recovery(lines, size, at_nm, kept, lines, problem=Failure.said(error))

    def _steps(self, at_nm: Point) -> Point:
        x, y, z = Position(self.settings.step_nm, at_nm).steps
        return x, y, z

    def _outputs(self, file: int, size: int, to: int, kept: Switch) -> Switch:
        """The outputs where the motors are. Within the segment they are those with which it begins, but for a switch in
        it: so OUT isn't searched for one that was long ago. Before it, where the switch that set them can't be read any
        more, they are those too, or those handed out last, unless a switch stands between."""
        if self.device.state.half and to <= size and not is_switch_between(file, to, size):
            return self.finder.segment(self.device.image)[1]
        found = switched_at(file, size, kept)
        if found is not None:
            return found
        if is_switch_between(file, size, to):
            return kept
        return self.finder.segment(self.device.image)[1] if self.device.state.half else self.device.state.outputs

    def may_be_through(self, is_all: bool, at_nm: Point) -> bool:
        """Whether nothing is left but what OUT lost: no block is half-done, all of OUT is carried out, and the motors
        are where the device has the machine."""
        state = self.device.state
        return is_all and not state.half and bool(state.point_known) and state.point_nm == at_nm

    def is_through(self, file: int, size: int) -> bool:
        """Whether OUT, which is open and has so many bytes, lost nothing, for certain."""
        has_log = self.device.records or self.device.without_header() is not None
        return not has_log or self.finder.is_all_there(file, size)

    def _way(self, file: int, recovery: Recovery, position: Position) -> Recovery:
        found, lines, size = recovery.beginning, recovery.lines, recovery.size
        low, high = min(size, found.size), max(size, found.size)
        missing = found.missing.count(b"\n")
        there = count_lines(file, low, high - len(found.missing))
        line = lines - there if found.size < size else lines + there + missing
        at_nm = Position(self.settings.step_nm)
        at_nm.steps = list(found.steps)
        at, legs, way, least = at_nm.nm, at_nm.nm, None, self.settings.period_us
        most = self._cut_feed if found.size < size else 0
        if not found.is_off and not missing:
            on = moves(file, lines, size, found.size, least)
            way = look(slowed(on, self.settings.step_nm, most) if most else on, position)
        elif not missing and found.size > size:  # where the motors left the path
            legs = look(moves(file, line, found.size, size, least), at_nm).end_nm
        return Recovery(lines, size, recovery.stands_nm, recovery.outputs, line, found, at, legs, way, most_nm=most)

    @cached_property
    def _cut_feed(self) -> int:
        return cut_feed(self.finder.ngc, self.path, self.device)


@dataclass(slots=True)
class OutFound:
    """What a session finds of OUT, a file. `looking` looks again with the device as it stood before `ngc` was started;
    None where that can't be read."""

    link: SyncedLink
    looking: Looking | None
    recovery: Recovery
    said: list[str]
    is_sent: bool = False  # the motors are on a way, and what stands behind its end isn't cut off yet
    as_left: bool = False  # nothing was done since the program was left for its next line
    _at_nm: Point = (0, 0, 0)
    _attempt: tuple[int, bool] | None = None  # OUT's bytes before lines are put back, and whether the player followed

    @staticmethod
    def of(ngc: str, settings: str, link: SyncedLink, device: Device | None, is_whole: bool = False) -> "OutFound":
        """Looks, and mends. The player goes on at once where no line is left. `is_whole`: OUT has all that was handed
        out. Raises NoAnswer, BadSettings, OSError."""
        kept = link.asked.before(device) if device and link.asked else None  # nothing was handed out since
        is_whole = is_whole and kept is None
        found = OutFound(link, None, Recovery(), [])
        if device:
            now = kept or device
            found.looking = Looking(ngc, settings, now.image, link.noted(), is_whole, link.kept_before(now))
        found.look()
        lost = found.recovery.beginning.missing if found.recovery.beginning else b""
        found._say_hole()
        if device:
            found._keep_asked(device, kept)
        if lost and not found.recovery.beginning.is_new:
            found.put_back()
            found.said.append(f"{link.out}: {lost.count(10)} lines that were handed out were lost with the power, and"
                              " are put back: ngc run hands out the same ones again")
        link.write_again(found.recovery.size)
        if not found.is_left():
            link.follow()
        return found

    def _keep_asked(self, device: Device, kept: Device | None) -> None:
        """Keeps the device as it was found while it is asked whether lines are put back, unless that is `kept` already;
        what was kept and is of use no more is removed."""
        beginning, file = self.recovery.beginning, self.link.asked
        if file is None or beginning is None and kept is not None:
            return  # what is kept may tell them later
        if beginning is None or not beginning.missing:
            file.remove()
        elif beginning.is_new and kept is None:
            try:
                file.keep(device)
            except (NotWritten, OSError) as error:
                self.said.append(f"{NOT_KEPT}: {cause(error)}")

    def _say_hole(self) -> None:
        """Says what the disk lost in the midst of OUT, and what that costs."""
        if (hole := self.link.hole) is None:
            return
        self.link.hole = None
        self.said.append(HOLE.format(out=self.link.out, zeros=hole.zeros, at=hole.at, line=hole.line, lines=hole.lines))
        beginning = self.recovery.beginning
        if self.looking is None or beginning is None or not beginning.is_told:
            step_nm = self.looking.settings.step_nm if self.looking else (1_000_000,) * 3
            most = rounded(isqrt(hole.most_lines ** 2 * sum(step * step for step in step_nm)) + 500)
            self.said.append(NEVER.format(lines=hole.most_lines, mm=most))

    @staticmethod
    def cut_off(ngc: str, settings: str, link: SyncedLink, device: Device | None) -> "OutFound":
        """Cuts off what no motor carried out; the player goes on from there at once. Raises NoAnswer, BadSettings,
        OSError."""
        found = OutFound(link, Looking(ngc, settings, device.image) if device else None, Recovery(), [])
        report, size = link.standing()
        found._ends_there(report, size)
        found.cut(size)
        return found

    def _ends_there(self, report: Report, size: int, is_told: bool = False) -> None:
        """The motors are where OUT leads, or is to."""
        lines = report.carried
        x, y, z = map(nanometres, report.at.split())
        end = SegmentBeginning(size, (0, 0, 0), is_told=is_told)
        self.recovery = Recovery(lines, size, (x, y, z), report.outputs, lines, end, (x, y, z), (x, y, z), _NO_WAY)

    def look(self) -> None:
        """Looks how it stands now, with the motors at rest. Raises NoAnswer, OSError."""
        report, size = self.link.standing()
        lines = report.carried
        x, y, z = map(nanometres, report.at.split())
        self._at_nm = (x, y, z)
        if self.looking is None:
            self.recovery = Recovery(lines, size, (x, y, z), report.outputs, lines, problem="the device can't be read")
            return
        may_be_through = self.looking.may_be_through(size == self.link.size(), (x, y, z))
        if may_be_through and self.looking.is_through(self.link.file, size):
            self._ends_there(report, size, True)
            return
        path = self.link.leads().split()
        path_nm = (nanometres(path[0]), nanometres(path[1]), nanometres(path[2])) if path else None
        self.recovery = self.looking.look(self.link.out, self.link.file, lines, size, (x, y, z), report.outputs,
                                          path_nm)
        if may_be_through and not self._has_lost(size):
            self._ends_there(report, size, self.recovery.beginning is not None and self.recovery.beginning.is_told)

    def _has_lost(self, size: int) -> bool:
        """Whether lines are lost, and not only missing since OUT is another one than that of last time."""
        found = self.recovery.beginning
        if found is None or not found.missing:
            return False
        return not found.is_new or self.looking.finder.may_have_lost(self.link.file, size)

    def look_again(self, report: Report) -> None:
        """Looks again if the motors aren't where they were; the player goes on where no line is left. Raises NoAnswer,
        OSError."""
        at_nm = tuple(map(nanometres, report.at.split()))
        if (report.carried, at_nm) != (self.recovery.lines, self._at_nm):
            self.look()
            if not self.is_left():
                self.link.follow()

    def put_back(self) -> None:
        """Puts the lines that OUT lost behind what it had as it was looked at; they aren't carried out yet. An attempt
        that fails is undone, at once or as soon as that can be. Raises NoAnswer, OSError."""
        self.undo()
        kept, found = self.recovery, self.recovery.beginning
        if found is None or not found.missing:
            return
        self._attempt = found.size - len(found.missing), self.link.is_following
        self.link.is_following = False
        try:
            self._cut_behind(self._attempt[0])
            self.link.append(found.missing)
            self.look()
        except (NoAnswer, OSError):
            self.recovery = kept
            with suppress(NoAnswer, OSError):
                self.undo()
            raise
        self._attempt = None
        self.link.answered()

    def undo(self) -> None:
        """Cuts off what an attempt to put lines back has left, if one failed: then the player goes on as before it.
        Raises NoAnswer, OSError."""
        if self._attempt is None:
            return
        size, is_following = self._attempt
        try:
            self._cut_behind(size)
        finally:
            if self.link.size() <= size:
                self.link.is_following, self._attempt = is_following, None

    def _cut_behind(self, size: int) -> None:
        if self.link.size() > size:
            self.link.await_kept(size)
            self.link.cut(size)

    def is_left(self) -> bool:
        """Whether lines stand in OUT that no motor carried out, or are taken back. Raises OSError."""
        return self.is_sent or not self.link.is_following and self.link.size() > self.recovery.size

    @contextmanager
    def sends(self) -> Iterator[None]:
        """The motors are sent within it: until they are there, nothing more of OUT is carried out."""
        before = self.is_sent, self.link.is_following
        self.is_sent, self.link.is_following = True, False
        try:
            yield
        except HeldBack:
            self.is_sent, self.link.is_following = before
            raise

    def _note_cut(self, size: int) -> None:
        """Notes that OUT is about to end behind so many bytes. Raises OSError."""
        found = self.recovery.beginning
        if found is None or found.size > size or found.missing:
            self.link.forget()
        else:
            self.link.note(size, found.size, self.as_left, self.recovery.at_nm)

    def note(self, as_left: bool) -> None:
        """Notes how OUT stands as a session has begun, if that is known. `as_left`: nothing was done since the program
        was left for its next line. Raises OSError."""
        found, size, self.as_left = self.recovery.beginning, self.link.size(), as_left
        if found is not None and not found.missing and found.size <= size:
            self.link.note(size, found.size, as_left, self.recovery.at_nm)

    def cut(self, size: int) -> None:
        """Cuts off what stands behind so many bytes, where the motors are, and goes on from there. No record on a disk
        ever counts what OUT doesn't have. Raises NoAnswer, OSError."""
        if self.link.size() > size:
            self.link.await_kept(size)
            self._note_cut(size)
            self.link.cut(size)
        self.link.answered()
        self.is_sent, self._attempt = False, None
        self.link.follow()
