"""Moves without lines: `home`, `jog` and `seek`. The player makes them, and `ngc` is told where they end."""
import re
import time
from collections.abc import Callable
from dataclasses import dataclass

from ngc_tools.formats.device import Device
from ngc_tools.formats.position import nanometres
from ngc_tools.ngc.console import Status
from ngc_tools.operator.alarm import Alarm
from ngc_tools.operator.causes import busy, taken
from ngc_tools.operator.commands import BY_WORD
from ngc_tools.operator.face import REFUSED, SAID, WARNING, WHERE, UnderWay, axes
from ngc_tools.operator.left import Left
from ngc_tools.operator.look import Look
from ngc_tools.operator.modes import trimmed
from ngc_tools.operator.motors import Motors
from ngc_tools.operator.next_session import NextSession
from ngc_tools.operator.numbers import length_of, nanometres_of
from ngc_tools.operator.outside import breach_of_point
from ngc_tools.operator.places import is_same_place
from ngc_tools.operator.session import ALARM, BROKEN, Session
from ngc_tools.link.progress import UNSURE, Link, MoveReport, NoAnswer, Report

ASKED_S, KEPT_S = 0.05, 0.01
"""Between two questions, also of a move that goes as long as somebody holds on: without one for a second the player
brings a move to rest."""
DONE = "done"
USUAL = (DONE, "stopped", "the key isn't held any more")
"""How a move ends that goes for as long as it is wanted."""

_WAY = r"\s*([xyz])\s*([-+])\s+(\S+)"
_JOG = re.compile(_WAY + r"\s+for\s+(\S+)\s*", re.IGNORECASE)
_SEEK = re.compile(_WAY + r"\s+within\s+(\S+)\s*", re.IGNORECASE)
_HOME = re.compile(r"[xyz\s]*", re.IGNORECASE)
_NOT_KNOWN = "home, jog and seek are of tools/player with -m"
_ANEW = ("what the player had in hand in the alarm is never carried out: another session begins, and goes on as after a"
         " loss of power")
_UNSURE = ("ngc isn't told where the machine is, since it wasn't known before, and not each axis is homed: reference"
           " player, or reference X Y Z")
_OUTSIDE = "{breach}, and so ngc isn't told where the machine is: home tells it"
_AT_CHANGE = ("jog", "seek")
"""What is taken while the player waits for a tool: `ngc` needn't be told, since the motors have to be back then."""
_WAITS = "the tool is still waited for: once it is in, go leads back to where the lines go on"
_HELD = ("{half} was held as the alarm came, and the spindle and the coolant that it had are off: another session"
         " begins, and goes on as after a loss of power")

MoveAnswer = tuple[int, str]
"""The number of a move, and why it is refused; nothing where it is taken."""


@dataclass(frozen=True, slots=True)
class Touched:
    """Where the probe was touched, in nm, the slot of the tool that was in the spindle, as `ngc` knows it, and how the
    motors came to rest behind it: where, and behind how many lines of OUT."""

    point_nm: tuple[int, int, int]
    slot: int | None
    at: str
    lines: int

    def is_last(self, report: Report) -> bool:
        """Whether the motors didn't move since, by what their player says now."""
        return (report.at, report.received) == (self.at, self.lines)


class Moves:
    """What they do. `do` does a command that is given meanwhile. `touched` is where the probe was touched, until
    something else moves or its place was used."""

    def __init__(self, session: Session, motors: Motors, left: Left, following: NextSession,
                 alarm: Alarm, do: Callable[[str], None]) -> None:
        self.session, self.motors, self.left, self.following, self.do = session, motors, left, following, do
        self.recover, self.alarm = following.recover, alarm
        self.touched: Touched | None = None

    def home(self, rest: str) -> None:
        """Homes all axes, or those that are named."""
        if not _HOME.fullmatch(rest):
            self._refuse(BY_WORD["home"].usage)
        elif self.begins("home"):
            names = "".join(sorted(set("".join(rest.upper().split()))))
            self._go("home", lambda link: link.home(names))

    def jog(self, rest: str) -> None:
        """Goes along an axis, by a length."""
        words = self._read("jog", _JOG, rest)
        if words and self.begins("jog"):
            self._go(f"jog {words[0]}", lambda link: link.jog(*words))

    def jog_while(self, way: str, rate: str, is_held: Callable[[], bool]) -> None:
        """Goes along an axis, as `X+`, for as long as somebody holds on; `is_held` is asked each 10 ms."""
        words = self._read("jog", _JOG, f"{way} {rate} for 1")
        if words and self.begins("jog"):
            link = self.session.meter.link
            self._go(f"jog {words[0]}", lambda link: link.jog(*words[:2]),
                     lambda number: link.keep_on(number, *words[:2]) if is_held() else link.stop())

    def seek(self, rest: str) -> None:
        """Goes along an axis until the probe is on."""
        words = self._read("seek", _SEEK, re.sub(r"\s+until\s+probe\b", "", rest, flags=re.IGNORECASE))
        if words and self.begins("seek"):
            self._go(f"seek {words[0]}", lambda link: link.seek(*words))

    def begins(self, word: str) -> bool:
        """Whether one may begin: a player is there, and `ngc` can be told where it ends; says why not. In an alarm
        `home` goes without that."""
        if not self.session.meter:
            self.session.face.say("no player is known: --player SOCKET")
            return False
        status = self.session.console.status()
        if self.session.is_in(ALARM, BROKEN):
            return True
        if word in _AT_CHANGE and self._is_at_change():
            if not self.motors.is_told:
                self.motors.release()  # its player doesn't tell then whether a door that was open holds them
            return True
        if status.does not in ("idle", "stopped"):
            self._refuse(busy(self.session, status, word))
            return False
        return self.motors.are_free()

    def _is_at_change(self) -> bool:
        """Whether the player waits for a tool."""
        report = self.session.report()
        return report is not None and report.waits

    def _read(self, word: str, form: re.Pattern[str], rest: str) -> tuple[str, str, str] | None:
        """The way, the rate and the length of a command, as the player takes them; None, which is said, for others."""
        match = form.fullmatch(rest)
        rate, length = (nanometres_of(match[3]), length_of(match[4])) if match else (None, None)
        if match is None or not rate or not length or rate < 0 or length < 0:
            self._refuse(BY_WORD[word].usage)
            return None
        return f"{match[1].upper()}{match[2]}", trimmed(rate), trimmed(length)

    def _refuse(self, text: str) -> None:
        self.session.face.say(text, REFUSED)

    def _go(self, name: str, begin: Callable[[Link], MoveAnswer], keep: Callable[[int], None] | None = None) -> None:
        """Makes a move, and says how it ended. `keep` is called with its number as long as it goes."""
        is_sure = self.is_sure()
        machine = self.make(name, begin, keep)
        if machine is None:
            return
        if keep is None or machine.how not in USUAL:
            self._say(name, machine)
        if self._is_at_change():
            self.touched = None  # which tool that was isn't said yet
            self.session.face.say(_WAITS, WHERE)
        else:
            self.tell(is_sure or machine.homed == "XYZ")

    def make(self, name: str, begin: Callable[[Link], MoveAnswer],
             keep: Callable[[int], None] | None = None) -> MoveReport | None:
        """Makes a move, and waits until it is over: how it ended; None, which is said, where it isn't taken, or the
        player is gone. `ngc` isn't told."""
        self.touched = None
        try:
            number, why = begin(self.session.meter.link)
            if why:
                self._refuse(f"{name}: {why}")
                return None
            return self._ended(number, name, keep)
        except NoAnswer as error:
            self.say_silent(error)
            return None
        finally:
            self.session.face.live(None)

    def is_sure(self) -> bool:
        """Whether `ngc` knows where the machine is, and the player counts it there."""
        status, report = self.session.console.status(), self.session.report()
        return (status.known and report is not None and report.word not in (ALARM, BROKEN, UNSURE)
                and is_same_place(self.session.settings, report.at.split(), status.at))

    def say_silent(self, error: NoAnswer) -> None:
        """Says that the player doesn't answer, or is gone."""
        is_there = str(error).endswith("doesn't answer")
        self.session.face.say(f"{error}; {_NOT_KNOWN}" if is_there else str(error), WARNING)

    def _ended(self, number: int, name: str, keep: Callable[[int], None] | None) -> MoveReport:
        """Waits until a move is over. Whoever wants to hold ends it. Raises NoAnswer."""
        session, is_told = self.session, False
        status = session.console.status()
        while (machine := session.meter.link.machine()).ended != number or machine.does != "stands":
            session.see_machine(machine)
            self.show(machine.does if machine.does.startswith(name) else name, status)
            if keep:
                keep(number)
            if not is_told and session.face.interrupted():
                session.meter.link.stop()
                is_told = True
            for command in session.face.asides():
                self.do(command)
            time.sleep(KEPT_S if keep else ASKED_S)
        session.see_machine(machine)
        return machine

    def show(self, name: str, status: Status) -> None:
        """Shows what moves, and where it is. Raises NoAnswer."""
        report = self.session.meter.link.ask()
        self.session.take(report)
        self.session.face.live(UnderWay(name, status, report.at))

    def _say(self, name: str, machine: MoveReport) -> None:
        """Says how a move ended."""
        if machine.how != DONE:
            self.session.face.say(f"{name}: {machine.how}", WARNING)
        elif name == "home":
            self.session.face.say(f"homed: {' '.join(machine.homed)}")
        if name.startswith("seek") and machine.how == DONE and machine.touched:
            self._keep_touched(machine.touched)
            self.session.face.say(f"the probe was touched at {axes(machine.touched.split())}", SAID)

    def _keep_touched(self, at: str) -> None:
        """Keeps where the probe was touched."""
        device, report = self.session.stored(), self.session.report()
        if report:
            x, y, z = map(nanometres, at.split())
            slot = device.slot if isinstance(device, Device) else None
            self.touched = Touched((x, y, z), slot, report.at, report.received)

    def touched_now(self) -> Touched | None:
        """Where the probe was touched, if nothing moved since; None else."""
        report = self.session.report() if self.touched else None
        if report is None or not self.touched.is_last(report):
            self.touched = None
        return self.touched

    def _was_told(self) -> bool:
        """Whether somebody told the player where the motors are since it began, or all axes are homed; False, which is
        said, where it doesn't answer."""
        try:
            return self.session.meter.link.is_sure()
        except NoAnswer as error:
            self.say_silent(error)
            return False

    def _begin_anew(self, why: str) -> bool:
        """Where the machine is is known again, and in this session nothing goes on; whether another one has begun."""
        self.session.face.say(why, WARNING)
        try:
            self.following.begin()
        except NoAnswer as error:
            self.session.face.say(str(error), WARNING)
            return False
        return True

    def tell(self, is_sure: bool = True) -> None:
        """Tells `ngc` where the machine is now, if it is sure; over a half-done block a player is too that was told
        since it began, and the record of the one before isn't."""
        session = self.session
        report, status = session.report(), session.console.status()
        if report is None:
            return
        if report.word == ALARM:
            self.alarm.say_left()
            return
        if report.word == BROKEN:
            self._begin_anew(_ANEW)
            return
        if status.does not in ("idle", "stopped"):
            if not self._begin_anew(_HELD.format(half=session.half(status))) or status.half != "none":
                return
            status = session.console.status()
        if not is_sure and not (status.half != "none" and self._was_told()):
            session.face.say(_UNSURE, WARNING)
            Look(session).after_work()
            return
        breach = breach_of_point(list(map(nanometres, report.at.split())), session.settings)
        if breach:  # as where home was stopped on its way to a switch
            session.face.say(_OUTSIDE.format(breach=breach), WARNING)
        elif self.recover.keeps_lost():
            self._reference(status, report)
        Look(session).after_work()

    def _reference(self, status: Status, report: Report) -> None:
        """Tells `ngc` where the player says that the machine is."""
        session = self.session
        if status.half == "none":
            self.left.keep()
        command = f"reference {report.at}"
        session.face.say(command)
        if taken(session, session.console.ask(command)[0], command):
            self.recover.still()
