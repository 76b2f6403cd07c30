"""`stop` ends the job wherever it is, and `off` switches spindle and coolant off where the motors stand."""
import time
from collections.abc import Callable

from ngc_tools.ngc.console import Status
from ngc_tools.operator.causes import taken
from ngc_tools.operator.display import on_words
from ngc_tools.operator.ending import Ending
from ngc_tools.operator.face import REFUSED, WARNING
from ngc_tools.operator.look import Look
from ngc_tools.operator.motors import Motors, count
from ngc_tools.operator.next_session import NextSession
from ngc_tools.operator.session import BROKEN, Session
from ngc_tools.link.progress import Link, NoAnswer, Report

_OFF_S = 2.0  # how long a player may take for that, but for a spindle that is being waited for
_LOOKS_S = 0.02
_FREE_S = 0.3  # after so long motors that are let go and still say that they are held are held by something else
WITHIN = """\
Stopped in {half}. Given up, what was cut of it stays, and run begins it again, whole. Kept, recover or resume goes on
with it. Is it given up?
yes gives it up, anything else keeps it half-done: """
LINES = """\
Stopped with {count} in hand, which no motor carried out. Dropped, nothing makes them any more. Kept, recover goes on
along them, where OUT is a file. Are they dropped?
yes drops them, anything else keeps them: """
_AT_MACHINE = "switch spindle and coolant off at the machine"
_MOVES = "spindle and coolant go off while the motors stand: hold first"
_OFF = "spindle and coolant are off"
_AGAIN = f"{_OFF}; what was on comes on again, once that is agreed to, before the motors go on"


class Stopping:
    """What both do. `line_done` does a line of one's own."""

    def __init__(self, session: Session, motors: Motors, ending: Ending, following: NextSession,
                 line_done: Callable[[str], object]) -> None:
        self.session, self.motors, self.ending, self.following = session, motors, ending, following
        self.line_done = line_done

    # stop

    def stop(self) -> None:
        """Ends the job: the motors come to rest, spindle and coolant go off, and the session goes on with lines of
        one's own, jog and home. Asks whether a block under way is given up. Raises Ended, OSError."""
        session = self.session
        try:
            report = self._rested()
            reply, status = session.console.ask("hold")[0], session.console.status()
            if reply == "held" or report and report.behind or session.is_in(BROKEN):
                self._end_within(status, report)
            else:
                self._end_at_rest(status)
        except NoAnswer as error:
            session.face.say(f"{error}; {_AT_MACHINE}", WARNING)
            return
        Look(session).after_work()

    def _rested(self) -> Report | None:
        """Brings the motors to rest: what the player says then, None without one. Raises NoAnswer."""
        meter = self.session.meter
        if meter is None:
            return None
        if self.motors.hold():
            self.motors.rested()
        report = meter.link.ask()
        until = time.monotonic() + _OFF_S
        while not report.wants and report.behind and not report.waits and time.monotonic() < until:
            time.sleep(_LOOKS_S)  # without ramps what is in hand is carried out
            report = meter.link.ask()
        return report

    def _end_at_rest(self, status: Status) -> None:
        """Nothing is under way."""
        if not self.ending.left_on():
            self.session.face.say("nothing runs" if status.does == "idle" else "the program waits, and nothing is on")
            return
        self.off()

    def _end_within(self, status: Status, report: Report | None) -> None:
        """Something is under way, or in hand. Raises NoAnswer, Ended, OSError."""
        session, meter = self.session, self.session.meter
        if meter and report and not self._switched_off(meter.link):
            session.face.say(f"the player doesn't switch spindle and coolant off: {_AT_MACHINE}", WARNING)
        gives_up = False
        if session.is_in(BROKEN):
            pass  # its lines are dropped, and its block is half-done
        elif status.half != "none":
            gives_up = session.agrees(WITHIN.format(half=session.half(status)))
        elif report and report.behind:
            gives_up = session.agrees(LINES.format(count=count(report)))
        self.following.begin(gives_up)
        if gives_up:
            self._give_up(status)
        elif status.half == "none":
            self._tell_place()

    def _give_up(self, status: Status) -> None:
        """Nothing that is in hand, or half-done, is gone on with. Raises NoAnswer, OSError."""
        self._tell_place()
        if status.half != "none" and taken(self.session, self.session.console.ask("abandon")[0], "abandon"):
            self.session.face.say("given up: run begins that line again, from where the machine stands"
                                  if status.half == "program" else "given up")

    def _tell_place(self) -> None:
        """Tells `ngc` where the machine stands, but where lines are left that recover goes along."""
        session, found = self.session, self.following.recover.found
        report = session.report()
        if report is None or found is not None and found.is_left():
            return
        command = f"reference {report.at}"
        taken(session, session.console.ask(command)[0], command)

    # off

    def off(self) -> None:
        """Switches spindle and coolant off: by lines of one's own, where they are taken, so that `ngc` knows; else the
        player does it. Raises Ended."""
        session = self.session
        report, status = self._let_go(session.report()), session.console.status()
        is_at_rest = report is None or not report.behind and report.again is None
        if is_at_rest and self.ending.can_switch(status):
            for line in ("M5", "M9"):
                self.line_done(line)
            session.face.say(_OFF)
        elif session.meter is None or report is None:
            session.face.say(_AT_MACHINE, REFUSED)
        else:
            self._off_at_player(session.meter.link, report)

    def _let_go(self, report: Report | None) -> Report | None:
        """Held motors with nothing in hand are let go, so that they carry such lines out; an open door holds on."""
        if report is None or not report.is_held or report.behind or not self.motors.are_free():
            return report
        until = time.monotonic() + _FREE_S
        while report and report.is_held and time.monotonic() < until:
            time.sleep(_LOOKS_S)
            report = self.session.report()
        return report

    def _off_at_player(self, link: Link, report: Report) -> None:
        """The player does it."""
        stands = report.is_held or report.waits or not report.behind or report.word == "waits spindle"
        try:
            if not stands or not self._switched_off(link):
                self.session.face.say(_MOVES, REFUSED)
                return
        except NoAnswer as error:
            self.session.face.say(f"{error}; {_AT_MACHINE}", WARNING)
            return
        self.session.face.say(_AGAIN if self.session.seen.again else _OFF)

    def _switched_off(self, link: Link) -> bool:
        """Has a player whose motors stand switch them off; whether it did. Raises NoAnswer."""
        until = time.monotonic() + _OFF_S
        while on_words((report := link.ask()).outputs) or report.word == "waits spindle" and report.again is None:
            if time.monotonic() > until:
                return False
            link.off()
            time.sleep(_LOOKS_S)
        self.session.take(report)
        return True
