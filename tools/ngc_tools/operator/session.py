"""What the parts of a person's session share: `ngc`, its device, the player, the face, and what is under way."""
import os
import re
from collections.abc import Callable
from contextlib import suppress
from dataclasses import dataclass, field
from functools import partial

from ngc_tools.files import NotWritten, cause
from ngc_tools.formats.device import Device, NoDevice
from ngc_tools.formats.lines import Program
from ngc_tools.formats.settings import Settings
from ngc_tools.ngc.console import Console, Status
from ngc_tools.operator.face import REFUSED, WARNING, Face, axes
from ngc_tools.operator.meter import Meter
from ngc_tools.operator.outside import breach_of_line
from ngc_tools.operator.sentences import explained
from ngc_tools.operator.synced import SyncedLink
from ngc_tools.operator.units import Unit
from ngc_tools.link.progress import MoveReport, NoAnswer, Report

ALARM, BROKEN, WAITS_SPINDLE = "alarm", "broken", "waits spindle"
"""What a player's report says where the machine's place isn't to be trusted; where no more line of the session is
carried out, as once it was homed after an alarm that came with lines in hand, or its record can't be kept; and while
the spindle isn't at its speed."""
DOOR, SPINDLE, OTHER = "door", "spindle", "other"
"""What holds motors that nobody told to hold from here."""
NOT_NOTED = "what OUT has isn't noted beside the device, by which lines are told that are lost with the power"
_BROKE_OFF = """\
the player carries out no more line of this session, and says why at its own terminal: as where its record can't be
kept, on a full disk. Once that is mended, stop begins another session, which goes on as after a loss of power"""
_LEAST_ROOM = 4096  # bytes: a page of a file
_MACHINE_S = 0.3  # a player that tells its inputs does so in that time; others are deaf for that question


def _is_full(path: str) -> bool:
    """Whether the disk of a file has no room for more of it."""
    try:
        found = os.statvfs(path)
    except OSError:
        return False
    return found.f_bavail * found.f_frsize < _LEAST_ROOM


def place(status: Status) -> str:
    """The point of a status, for people."""
    return axes(status.at)


class Nothing:
    """Stands for a device that can't be read."""

    program = b""
    slot = 0


@dataclass(slots=True)
class Session:
    """`own` is a line of the operator's that is under way. The messages of the lines before the place `told` are shown;
    `delete`, `optional` and `single` are the switches as they were set. `seen` is what the player said last; `gone`
    says that it stopped to answer. `on_alarm` is called as an alarm comes. `machine` is what it said last of moves
    without lines, and of its inputs."""

    console: Console
    face: Face
    meter: Meter | None
    settings: Settings
    program: Program = field(default_factory=lambda: Program(b""))
    told: int = 0
    delete: bool = False
    optional: bool = False
    single: bool = False  # it holds after each line that hands something out
    goes_through: bool = False  # what runs isn't held so, though `single` is on
    own: str = ""
    seen: Report | None = None
    gone: bool = False
    on_alarm: Callable[[], None] = lambda: None
    on_slot: Callable[[int], None] = lambda _: None  # as the motors' side has another tool in the spindle
    machine: MoveReport | None = None
    noted: int = -1  # so many entries there were as it was noted what OUT has
    is_deaf: bool = False  # the player doesn't tell its inputs
    has_opened: bool = False  # the door was open since the motors are held
    has_failed: bool = False  # they came to be held as they waited for the spindle's speed
    unit: Unit = Unit.MM  # of what a person types and reads, as it was chosen

    def stored(self) -> Device | Nothing:
        """What the device holds, which `ngc` has synced."""
        try:
            return Device.read(self.console.device)
        except (OSError, NoDevice):
            return Nothing()

    def report(self) -> Report | None:
        """How far the player is; None if there is none, or it doesn't answer, which is said."""
        if not self.meter:
            return None
        try:
            report = self.meter.link.ask()
        except NoAnswer as error:
            self.gone = True
            self.face.say(str(error), WARNING)
            return None
        self.gone = False
        self.take(report)
        return report

    def passed(self, status: Status) -> None:
        """Gives room of OUT that nobody needs any more back to the disk, and notes what OUT has where the device was
        written anew."""
        if self.meter and isinstance(self.meter.link, SyncedLink):
            with suppress(NoAnswer):  # the next question says it
                self.meter.link.passed(status)
            if status.half == "none":
                self.noting(partial(self._note_anew, self.meter.link, not self.own))

    def _note_anew(self, link: SyncedLink, as_left: bool) -> None:
        if link.note_anew(as_left) and not self.own:
            link.keep_before(self.stored(), "start")

    def begins(self, command: str, as_left: Callable[[], bool]) -> None:
        """Keeps the device as it stands before what a command hands out, which was taken, unless it goes on amid a
        block. `as_left` as in `note_out`."""
        if not self.meter or not isinstance(self.meter.link, SyncedLink) or self.meter.link.notes is None:
            return
        link, device = self.meter.link, self.stored()
        if isinstance(device, Nothing) or device.state.half and command != "resume":
            return
        if not device.state.half:
            self.noting(lambda: link.note_anew(as_left()))
        self.noting(partial(link.keep_before, device, "start" if command == "continue" else command))

    def note_out(self, as_left: Callable[[], bool]) -> None:
        """Notes what OUT, a file, has as a command is done, if no block is under way and something is an entry since.
        `as_left` says whether nothing was done since the program was left for its next line."""
        if not self.meter or not isinstance(self.meter.link, SyncedLink) or self.meter.link.notes is None:
            return
        status = self.console.status()
        if status.half == "none" and status.entries != self.noted:
            self.noted = status.entries
            self.noting(partial(self.meter.link.note_end, as_left()))

    def noting(self, note: Callable[[], None]) -> None:
        """Has it noted what OUT has; says once why that can't be."""
        try:
            note()
        except (NotWritten, OSError) as error:
            self.face.once(f"{NOT_NOTED}: {cause(error)}")

    def take(self, report: Report) -> None:
        """Takes what the player says."""
        was_alarm, was_broken = self.is_in(ALARM), self.is_in(ALARM, BROKEN)
        before, self.seen = self.seen, report
        if not report.is_held:
            self.has_opened = self.has_failed = False
        elif before is not None and not before.is_held:
            self.has_failed = before.word == WAITS_SPINDLE
        self.face.moved(report)
        if before is not None and before.outputs.slot != report.outputs.slot:
            self.on_slot(report.outputs.slot)
        if self.is_in(ALARM) and not was_alarm:
            self.on_alarm()
        if self.is_in(BROKEN) and not was_broken:
            self.face.say(_BROKE_OFF, WARNING)

    def see_machine(self, machine: MoveReport | None) -> None:
        """Takes what it says of moves without lines, and of its inputs."""
        self.machine = machine
        self.has_opened = self.has_opened or self.is_door_open and self.seen is not None and self.seen.is_held

    def ask_machine(self) -> None:
        """Asks for that, where the player tells it."""
        if not self.meter or self.is_deaf:
            return
        link = self.meter.link
        patience_s, link.patience_s = getattr(link, "patience_s", _MACHINE_S), _MACHINE_S
        try:
            self.see_machine(link.machine())
        except NoAnswer:
            self.is_deaf = True
        finally:
            link.patience_s = patience_s

    @property
    def is_door_open(self) -> bool:
        """Whether the door is open, as far as the player tells it."""
        return self.machine is not None and DOOR in self.machine.on

    @property
    def held_by(self) -> str:
        """What holds the motors, if nobody did so from here: DOOR, SPINDLE or OTHER; nothing where they aren't held."""
        if self.seen is None or not self.seen.is_held:
            return ""
        return DOOR if self.has_opened else SPINDLE if self.has_failed else OTHER

    def is_in(self, *words: str) -> bool:
        """Whether the player said one of these of itself, as ALARM."""
        return self.seen is not None and self.seen.word in words

    def agrees(self, question: str) -> bool:
        """Whether a person answers with a yes; anything else, nothing too, is a no."""
        return self.face.agrees(question)

    def line(self, status: Status) -> str:
        """The program's line at the place."""
        return f"{self.program.named_at(status.place)}: {self.program.line(status.place)}"

    def half(self, status: Status) -> str:
        """The block that is half-done or under way."""
        if status.half == "mdi":
            return f"segment {status.segment} of {f'your line {self.own}' if self.own else 'a line of yours'}"
        if not self.program.text:
            return f"segment {status.segment} of a line of the program"
        return f"segment {status.segment} of {self.line(status)}"

    def is_refusal(self, reply: str, status: Status | None = None) -> bool:
        """Shows a refusal, that of a program's line with the line."""
        if not reply.startswith("refused"):
            return False
        where = cause = ""
        if status is not None and re.match(r"refused [EBCYX]\d", reply):
            where = f"{self.line(status)}\n  "
            cause = self._cause(reply, status)
        self.face.say(where + explained(reply, cause or self.full_disk(reply)), REFUSED)
        return True

    def full_disk(self, reply: str) -> str:
        """Which disk has no room, if that may be why the device or OUT failed; nothing else."""
        full = [f"{name}, {path}" for name, path in (("OUT", self.console.out), ("the device", self.console.device))
                if reply.startswith("refused J1") and _is_full(path)]
        return f"no room is left on the disk of {' and of '.join(full)}. Make some, and start again: nothing is lost" \
            if full else ""

    def _cause(self, reply: str, status: Status) -> str:
        """Where the program's line at the place leaves the travel, if that is why it is refused."""
        device = self.stored()
        if not reply.startswith("refused X2") or not isinstance(device, Device):
            return ""
        return breach_of_line(self.console, device, self.settings, self.program.text[status.place:], 1)
