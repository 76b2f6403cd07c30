"""A session of `ngc run` for pages: one thread gives all commands, by the operator's core.

Whoever asks from another thread sets wishes, which are heeded within a piece of work, or gives one command where none
is under way."""
import os
import secrets
import threading
import time
import traceback
from collections.abc import Callable
from contextlib import suppress
from dataclasses import dataclass, field, replace
from pathlib import Path
from typing import Any

from ngc_tools.failure import Failure
from ngc_tools.formats.device import Device
from ngc_tools.formats.position import nanometres
from ngc_tools.formats.settings import Settings, read_table
from ngc_tools.job.cam_homes import HomeAnswers
from ngc_tools.ngc.console import Ended, Status
from ngc_tools.operator.commands import Brings, Taken, words_taken, words_that_bring
from ngc_tools.operator.face import REFUSED, WARNING
from ngc_tools.operator.motors import SPINDLE_PERCENTS, WHOLE, count
from ngc_tools.operator.operator import Operator
from ngc_tools.operator.places import is_same_place
from ngc_tools.operator.sentences import explained
from ngc_tools.operator.session import ALARM
from ngc_tools.operator.tool_shapes import ToolShapes
from ngc_tools.page.aside import Aside, Child, NotDone, Wanted
from ngc_tools.page.drawer import Drawer
from ngc_tools.page.drawing import DrawingRequest, as_begun
from ngc_tools.page.face import AsideCommand, PageFace
from ngc_tools.page.findings import Check, find
from ngc_tools.page.never_cut import LossRequest, NeverCutSearch
from ngc_tools.page.jobs import Folder, Jobs
from ngc_tools.page.jog import HeldJog, Wish
from ngc_tools.page.losses import Losses
from ngc_tools.page.stand import Kept, Stand, recovery_of
from ngc_tools.link.machine import read_machine
from ngc_tools.link.progress import Link, NoAnswer, Report, goes_on
from ngc_tools.version import shown_version

WITHOUT_LINES = words_that_bring(Brings.MOVES)
MOVES = words_that_bring(Brings.LINES) | WITHOUT_LINES
"""The commands that move the machine, and those of them that the player makes without lines of OUT."""
LOST = "lost"
"""Stands for the page that held, where that was nobody: the one that commands was lost."""
_LEAVE_S = 10.0
_LOOK_S = 0.15  # how often it looks while nothing runs
_MOVED = "the motors aren't where this page showed them, and so it isn't done: look, and confirm anew where they stand"
_IN_HAND = """\
nothing is done: the motors have {count} in hand. Recover has them carry those out first, and Stop lets go of them"""
_MAY_END = words_that_bring(Brings.PROGRAM) | {"release"}  # the program runs to its end, or its last lines are made
_CHOICES = words_that_bring(Brings.CHOICE)
_ASIDES = words_taken(Taken.AMID) - {"release"}  # that one has a way of its own
TAKEN_AT_CHANGE = WITHOUT_LINES & _ASIDES
"""Those that are done beside a command whose player waits for a tool."""


class Busy(Failure):
    """Something runs, or the session is over: what was asked isn't done."""


class Unwanted(Failure):
    """A check that was ended, since nobody wants it any more."""


@dataclass(frozen=True, slots=True)
class Opened:
    """A session of `ngc run` as it begins: the operator's core over it, what is said of OUT and the motors, the device
    as it stood before and when it was written last, in seconds since 1970, a link by which its motors are held at once,
    if it has a player, and whether that makes moves without lines."""

    operator: Operator
    bound: str
    found: Device | None
    left_at: float
    motors: Link | None
    has_moves: bool = False

    def close(self) -> None:
        """Asks and tells the player nothing more."""
        for link in (self.motors, self.operator.session.meter and self.operator.session.meter.link):
            if link:
                link.close()


Opens = Callable[[PageFace], Opened]
"""Begins a session of `ngc run`; raises Failure or OSError where that can't be."""


@dataclass(slots=True)
class SessionCommand:
    """Something that the session's thread does: its word, the wishes to hold and the entries of the log before it, and
    once it is done its result, or why it failed."""

    word: str
    does: Callable[[], Any]
    holds: int
    since: int
    done: threading.Event = field(default_factory=threading.Event)
    result: Any = None
    failed: Failure | OSError | None = None

    def awaited(self, patience_s: float = 10.0) -> Any:
        """Waits until it is done: its result. Raises what it failed by."""
        self.done.wait(patience_s)
        if self.failed:
            raise self.failed
        return self.result


class PageSession:
    """All that pages may do. `name` is that of the program that was loaded last, `program_id` grows with each. `ended`
    says why `ngc` has ended, if it has; `over` is set once nothing follows."""

    def __init__(self, opens: Opens, face: PageFace, machine: str = "") -> None:
        """Begins it; nothing is done before `start`. `machine` is the machine's file, nothing for none. Raises what
        `opens` raises."""
        self._opens, self.face, self.machine = opens, face, machine
        self.aside, self.jogs = Aside(), HeldJog()
        self.jobs: Jobs | None = None  # the programs of a folder, where one is named
        self.version = shown_version()
        self._checks: dict[str, Child] = {}  # by the page that asked
        self.over = threading.Event()
        self.name, self.program_id, self.ended = "", 1, "it isn't begun yet"
        self.drawer = Drawer(self.aside, face.publish)
        self.never_cut = NeverCutSearch(self.aside, face)
        # how far the motors may be past the player's record, which has them there, in words and in mm; of which axes,
        # until these are homed, or somebody tells where they are
        self.past, self.past_mm, self.past_at, self.past_axes = "", "", "", ""
        self.started = 0.0  # when the program was started in this session, in seconds since 1970
        self.is_finished = False  # it ran to its end, and nothing was begun since
        self.begins_at: float | None = None  # since when another session begins, in seconds since 1970, while it does
        self._word = ""  # of the player's report at rest
        self._rests_at: tuple[int, str] | None = None  # behind that line, there, it was looked at what recover would do
        self.held_from = ""  # the page that held last, or LOST, since something was begun
        self._next: SessionCommand | None = None
        self._stops = False  # `stop` is done next
        self.under: SessionCommand | None = None
        self._wake = threading.Condition()
        self._restarts = threading.Lock()
        try:
            self._begin()
        except BaseException:
            self.aside.close()
            raise

    def start(self) -> None:
        """Starts its thread, which does what is given. After it `leave` has to be called, whatever comes."""
        self._thread.start()

    def _begin(self) -> None:
        """Begins a session of `ngc run`."""
        self.opened = self._opens(self.face)
        try:
            self._begin_over(self.opened.operator)
        except BaseException:
            self.opened.operator.console.kill()
            raise
        self.ended = ""
        self._thread = threading.Thread(target=self._work, name="session")

    def _begin_over(self, operator: Operator) -> None:
        """Says and sees how all stands at first."""
        console = operator.console
        self.settings = Settings.read(console.settings)
        self.most_percents = _most_percents(self.machine, self.settings)
        self.shapes = ToolShapes(console.settings)
        self.homes = _homes(self.machine)
        self.face.begin(self.face.holds)
        self.face.asides()  # none of the last session counts
        operator.following.opened = self._follow
        operator.held_jog = lambda: self.jogs.go(operator.moves)
        operator.begin(self.opened.bound, self.opened.found)
        self._text = operator.session.program.text
        self.operator, self.ident = operator, secrets.token_hex(8)  # a page that saw another one begins anew
        self.stand, self.kept = Stand(console.status()), Kept(console.device)
        begun = as_begun(self.opened.found) if self.opened.found and self.stand.status.place else None
        self.drawer.begin(self._source_of(begun or self.kept.device))
        self.face.look = self._look_meanwhile
        self._look()
        self._see_past()
        self._find_never_cut()

    def _follow(self, found: Device | None) -> None:
        """Sees how all stands as another session of `ngc` begins, with the player that goes on: it has counted all that
        its motors made."""
        self.opened = replace(self.opened, found=found, left_at=time.time())
        self.is_finished, self.face.message = False, ""
        self.kept.read()
        self._look()
        self._find_never_cut()

    def _see_past(self) -> None:
        self.past, self.past_mm = self._found_past()
        self.past_at = self.stand.report.at if self.stand.report else ""
        self.past_axes = "XYZ"
        self._see_homed()

    def _see_homed(self) -> None:
        """Of axes that are homed it is known where they are, whatever the record said; so of all that were told."""
        homed = self.stand.machine.homed if self.stand.machine else ""
        self.past_axes = "".join(axis for axis in self.past_axes if axis not in homed)

    def _see_told(self, word: str) -> None:
        """Sees whether somebody told where the motors are, or they went from where they are taken to be."""
        status, report = self.operator.console.status(), self.operator.session.report()
        if report is None:
            return
        is_told = word == "reference" and status.known and is_same_place(self.settings, status.at, report.at.split())
        if is_told or word in MOVES - WITHOUT_LINES and report.at != self.past_at:
            self.past_axes = ""

    def _found_past(self) -> tuple[str, str]:
        """How old the player's record was, and how far the motors may be past it, in words, and in mm; nothing where
        that isn't known."""
        if self.operator.session.report() is None:
            return "", ""
        try:
            past = self.operator.recover.past()
        except (NoAnswer, OSError):
            return "", ""
        return past.words(), past.at_most_mm

    def _find_never_cut(self) -> None:
        """Finds what the last session left uncut. Of a file that is followed no line is lost."""
        meter, report, found = self.operator.session.meter, self.stand.report, self.opened.found
        console = self.operator.console
        asked = None
        if meter and report and found and self.operator.recover.found is None:
            asked = LossRequest(console.ngc, console.settings, found.image, report.at.split(), meter.most_ahead(report))
        self.never_cut.begin(Losses(console.device), self.kept.device.program, asked, report)

    def _look_for_loss(self) -> None:
        """Finds it once the player has carried out, or let go of, what it had in hand."""
        if self.stand.report:
            self.never_cut.look(self.stand.report)

    # what pages ask for

    @property
    def is_busy(self) -> bool:
        """Whether a command is under way."""
        return self.under is not None or self._next is not None or self._stops

    @property
    def is_at_change(self) -> bool:
        """Whether a command is under way whose player waits for a tool, and nobody is asked: then jog and seek are
        done beside it."""
        return self.under is not None and bool(self.operator.work.waits_at) and self.face.question is None

    def moment(self) -> tuple[object, ...]:
        """What changes as a command begins or ends, somebody is asked, or the player is heard. Where it is the same
        before and after something was read, all that was read is of one moment."""
        with self._wake:
            return (self.under, self._next, self._stops, self.stand, self.ended, self.face.question, self.face.version,
                    self.face.told, self.past_axes)

    @property
    def _is_stopping(self) -> bool:
        """Whether Stop is under way, or comes next."""
        return self._stops or self.under is not None and self.under.word == "stop"

    def give(self, word: str, does: Callable[[], Any], holds: int | None = None) -> SessionCommand:
        """Gives the session's thread something to do, which was asked for now, or when there had been so many wishes to
        hold. Raises Busy."""
        with self._wake:
            if self.ended or self.over.is_set():
                raise Busy(self.ended or "the session is over")
            if self.is_busy:
                raise Busy("something runs: hold first")
            command = self._next = self._command(word, does, holds)
            if word in MOVES | {"load"}:
                self.is_finished = False  # at once: no page is told that what runs is finished
            self._wake.notify_all()
        return command

    def _command(self, word: str, does: Callable[[], Any], holds: int | None = None) -> SessionCommand:
        return SessionCommand(word, does, self.face.holds if holds is None else holds, self.face.last_id())

    def ask(self, word: str, does: Callable[[], Any], patience_s: float = 10.0) -> Any:
        """Gives it something to do, and waits for the result. Raises Busy, and what it failed by."""
        return self.give(word, does).awaited(patience_s)

    def type(self, line: str) -> None:
        """Does a command of the operator's core, as a person types it. Raises Busy."""
        word = line.removeprefix("anyway ").split()[0]
        if word in TAKEN_AT_CHANGE and self.is_at_change:
            self.face.give_aside(line)
        else:
            self.give(word, lambda: self.operator.do(line))

    def line(self, line: str) -> None:
        """Does a line of G-code that a button stands for, and shows it. Raises Busy."""
        def does() -> None:
            """By the operator's core."""
            self.face.say(line)
            self.operator.do(f"mdi {line}")
        self.give("mdi", does)

    def tell(self, line: str, holds: int | None = None) -> None:
        """Does a short command, and waits for it; one that may come while something runs is given then. It was asked
        for now, or when there had been so many wishes to hold. Raises Busy."""
        word, command = line.split()[0], None
        if word == "go" and self.face.says_go():
            return
        with self._wake:
            if word == "go" and self._is_stopping:
                raise Busy("Stop ends the job: no tool is asked for any more")
            if word in _ASIDES and self.is_busy:
                self.face.give_aside(line, holds)
            else:
                command = self.give(word, lambda: self.operator.do(line), holds)
        if command:
            command.awaited()
        if word == "delete":
            self.drawer.leave_out(line.endswith(" on"))

    def hold(self, page: str = LOST) -> None:
        """Holds at once, whatever is under way: the motors, and then `ngc`. It waits for nothing."""
        self._hold_motors(page)
        with suppress(Busy):
            self.give("hold", lambda: self.operator.do("hold"))

    def stop(self, page: str) -> None:
        """Ends the job: holds at once, and once what is under way has ended does `stop`. It waits for nothing. Raises
        Busy."""
        if self.ended or self.over.is_set():
            raise Busy(self.ended or "the session is over")
        self._hold_motors(page)
        with self._wake:
            self._stops = True
            self._wake.notify_all()

    def off(self, page: str) -> None:
        """Switches spindle and coolant off, where the motors stand; at a question that is a no to it. Raises Busy."""
        if self.face.question is not None:
            self._hold_motors(page)
        self.tell("off")

    def _hold_motors(self, page: str) -> None:
        self.jogs.end()
        self.held_from = page
        self.face.hold()
        if self.opened.motors and self.stand.has_ramps:
            with suppress(NoAnswer):  # the session's thread says it
                self.opened.motors.stop() if self._moves_without_lines() else self.opened.motors.hold()

    def release(self) -> None:
        """Lets held motors go on; within a command at once, as one holds them."""
        report = self.face.report
        if self.is_busy and report and report.again:
            self.face.give_aside("release")  # it asks
        elif self.is_busy and self.opened.motors:
            with suppress(NoAnswer):  # the session's thread says it
                self.opened.motors.release()
        else:
            self.give("release", lambda: self.operator.do("release"))

    def _moves_without_lines(self) -> bool:
        command = self.under
        return command is not None and command.word in WITHOUT_LINES

    def jog(self, wish: Wish) -> bool:
        """Jogs for as long as this is called again and again; whether the wish counts. Raises Busy."""
        if not self.jogs.wish(wish):
            return False
        command = self.under or self._next
        if self.is_at_change:
            if not self.jogs.is_going:
                self.face.give_aside("jog")
        elif command is None or command.word != "jog":
            self.give("jog", lambda: self.jogs.go(self.operator.moves))
        return True

    def run(self, line: str) -> None:
        """Starts the program, or goes on with it, by `run` or `run anyway`. Raises Busy."""
        def does() -> None:
            """Draws it too, where it begins otherwise than it was drawn."""
            self.face.message = ""
            if not self.stand.status.place and self.stand.status.does == "idle":
                self.started = time.time()
                self.never_cut.forget()
                if not self.drawer.is_of(self.kept.device):
                    self._draw()
            self.operator.do(line)
        self.give("run", does)

    def reference(self, line: str, shown: list[str] | None) -> None:
        """Does `reference`, as a person types it, and waits for it; `shown` is where the page showed the motors. Raises
        Busy."""
        def does() -> None:
            """By the operator's core."""
            report = self.operator.session.report() if shown else None
            if not self._are_shown(shown):
                return
            if report is not None and report.behind:
                self.face.say(_IN_HAND.format(count=count(report)), REFUSED)
            else:
                self.operator.do(line)
        self.give("reference", does).awaited()

    def asks_for(self, tool: int, shown: list[str] | None) -> bool:
        """Whether the player waits for that tool, where the page showed the motors."""
        report = self.face.report
        if report is None or not report.waits or report.tool != tool:
            return False
        return shown is None or is_same_place(self.settings, shown, report.at.split())

    def _are_shown(self, shown: list[str] | None) -> bool:
        """Whether the motors stand where a page showed them as somebody confirmed a place, None for nowhere; says it
        where they don't."""
        report = self.operator.session.report()
        if shown is None or report is None:
            return True
        if not goes_on(report) and is_same_place(self.settings, shown, report.at.split()):
            return True
        self.face.say(_MOVED, REFUSED)
        return False

    def recover(self, stands: list[str] | None, shown: list[str] | None = None) -> None:
        """Does `recover`. A person has confirmed that the motors stand there, in machine millimetres, as the page
        showed them at `shown`; None where nobody was asked. Raises Busy."""
        def does() -> None:
            """By the operator's core."""
            if stands and not (self._are_shown(shown) and self._are_there(stands)):
                return
            self.operator.recover.confirmed_nm = tuple(map(nanometres, stands)) if stands else None
            self.operator.do("recover")
        self.give("recover", does)

    def _are_there(self, stands: list[str]) -> bool:
        """Whether the player has the motors where a person has measured them; it is told so where it had them
        elsewhere, and `ngc` too. Why that isn't taken is said."""
        operator = self.operator
        if self._is_counted(stands):
            return True
        if not operator.alarm.forbids("recover"):
            operator.do(f"reference {' '.join(stands)} anyway")
            self._see_told("reference")
            self._look_at_way()
            self._look()
        return self._is_counted(stands)

    def _is_counted(self, stands: list[str]) -> bool:
        """Whether the player has the motors there, in whole steps; True where none tells anything."""
        report = self.operator.session.report()
        return report is None or is_same_place(self.settings, stands, report.at.split())

    def load(self, name: str, text: bytes) -> bool:
        """Stores a program that people call `name`; whether it was taken. Raises Busy."""
        def does() -> bool:
            """Whether it is stored; then it is drawn."""
            if self.operator.recover.forbids("load", False) or not self.operator.load(name, text):
                return False
            self.never_cut.forget()
            self.face.message = ""
            self._see_program(name)
            return True
        return bool(self.ask("load", does, 600))

    def rewind(self) -> bool:
        """Has the stored program begin with its first line again; whether it does. Raises Busy."""
        return self.load(self.name, self.operator.session.program.text)

    def check(self, page: str, text: bytes, answers: HomeAnswers, wanted: Wanted) -> tuple[dict, bytes]:
        """What `ngc-check` and `ngc-adapt` find of a text, which begins as the device stands, and the text that is
        meant, as long as it is wanted. A page has one check under way. Raises Unwanted where that is ended, NotDone,
        OSError."""
        console, session = self.operator.console, self.operator.session
        check = Check(console.ngc, console.settings, self.kept.device.image, session.delete, session.meter is not None,
                      answers)
        child = wanted.by(self.aside.begin(find, check, text))
        before, self._checks[page] = self._checks.get(page), child
        if before:
            before.give_up()
        try:
            return self.aside.finish(child)
        except NotDone:
            if self._checks.get(page) is not child:
                raise Unwanted("nobody wants it any more") from None
            raise
        finally:
            if self._checks.get(page) is child:
                del self._checks[page]

    def checking(self, page: str) -> dict | None:
        """How far the check of a page is; None where none is under way, or it hasn't begun."""
        child = self._checks.get(page)
        return child.told if child else None

    def show_jobs(self, folder: str) -> None:
        """Shows the programs of a folder."""
        def request(text: bytes) -> DrawingRequest:
            """How one is drawn."""
            return replace(self._source_of(self.kept.device), is_begun_there=True, other=text)
        self.jobs = Jobs(Folder(Path(folder)), str(self.operator.console.device), self.aside, request,
                         lambda: self.is_busy)

    def preview(self, text: bytes, wanted: Wanted) -> bytes:
        """A program that isn't loaded as it would be drawn, in JSON, as long as it is wanted. Raises NotDone, OSError.
        """
        source = replace(self._source_of(self.kept.device), is_begun_there=True, other=text)
        return self.drawer.preview(source, wanted).text

    def restart(self) -> None:
        """Begins a session of `ngc run` anew, after it has ended, its device failed, or its player is gone or carries
        nothing out any more. Raises Busy, and what `Opens` raises."""
        if not self.ended and self.stand.drops_lines:
            self.ask("restart", self.operator.following.begin)
            return
        if not self.ended and self.stand.is_broken:
            self.ask("restart", self._give_up)
        if not self.ended or self.over.is_set():
            raise Busy("nothing failed: quit ends the session")
        self._thread.join()
        with self._restarts:
            if self.ended:
                self._begin_again()
                self.start()
        self.face.publish()

    def _begin_again(self) -> None:
        """Begins another session, where one has ended."""
        self.opened.close()
        self.begins_at = time.time()
        try:
            self._begin()
        finally:
            self.begins_at = None

    def quit(self) -> None:
        """Ends the session, once a person agrees to what that leaves. Raises Busy."""
        if self.ended:
            self.over.set()
            self.face.publish()
            return
        self.give("quit", lambda: self.operator.do("quit"))

    def leave(self) -> bool:
        """Nobody is there any more: holds what is under way, and waits for the end of it, for ten seconds at most;
        whether it ended."""
        self.over.set()
        self.face.leave()
        with self._wake:
            self._wake.notify_all()
        if self._thread.is_alive():  # it may not have been started
            self._thread.join(_LEAVE_S)
        self.aside.close()
        return not self._thread.is_alive() and not self.face.is_stuck

    # its thread

    def _work(self) -> None:
        while not self.over.is_set() and not self.ended:
            with self._wake:
                self.under = self._late()
                if self.under is None:
                    if self._next is None:
                        self._wake.wait(_LOOK_S)
                    self.under, self._next = self._next, None
            try:
                if self.under:
                    self._do(self.under)
                if not self.ended and not self.face.is_stuck:
                    self._look()
                    self._look_for_loss()
            except Ended as ended:
                self._tell_end(ended)
            except (Failure, OSError) as error:
                self.face.once(str(error))
            finally:
                command, self.under = self.under, None
                if command:
                    command.done.set()
                    self.face.publish()

    def _late(self) -> SessionCommand | None:
        """What was given while a command ran, and came too late for it: it is done before the next one."""
        if self._stops:
            self._stops = False
            return self._command("stop", lambda: self.operator.do("stop"))
        if not (lines := self._come_late()):
            return None
        holds = min(line.holds for line in lines)
        return self._command(lines[0].split()[0], lambda: list(map(self.operator.do, lines)), holds)

    def _come_late(self) -> list[AsideCommand]:
        """What was given while a command ran, and came too late for it; a move isn't done any more then."""
        return [line for line in self.face.asides() if line.split()[0] not in WITHOUT_LINES]

    def _do(self, command: SessionCommand) -> None:
        """Does a command, and sees how it ended."""
        self.face.begin(command.holds)
        if command.word in MOVES | {"load"}:
            self.held_from = "" if self.face.holds == command.holds else self.held_from
        self.face.publish()
        ends = self.operator.runs.ends
        try:
            command.result = command.does()
            for line in self._come_late():
                self.face.level.begin(line.holds)
                self.operator.do(line)
        except Ended:
            raise
        except (Failure, OSError) as error:
            command.failed = error
            self.face.say(error.said() if isinstance(error, Failure) else str(error), WARNING)
        except Exception as error:  # one command fails by it, and the session goes on
            self._tell_bug(command, error)
        if self.operator.over:
            self._quit()
            return
        if command.word in MOVES | {"load"}:
            self._see_end(command, ends)
        if command.word in MOVES | {"reference"}:
            self._see_place(command.word)

    def _see_place(self, word: str) -> None:
        """Sees what a command makes known of where the motors are."""
        self._see_told(word)
        if word in WITHOUT_LINES | {"reference"}:
            self._look_at_way()

    def _look_at_way(self) -> None:
        """Looks again which way `recover` would take, where the motors were moved without lines, as by home, or
        somebody told where they are."""
        found, report = self.operator.recover.found, self.operator.session.report()
        if found is not None and report is not None and report.behind == 0:
            is_half = self.operator.console.status().half != "none"
            if is_half or found.is_left():
                found.look_again(report)

    def _look_at_rest(self, status: Status, report: Report) -> None:
        """The same where nothing is under way, once at each place where the motors rest: they carry out there what they
        had in hand as the session began, as once a tool is in."""
        rests_at = report.carried, report.at
        if self.under is not None or report.behind or status.does != "idle" or rests_at == self._rests_at:
            return
        self._rests_at = rests_at
        try:
            self._look_at_way()
            self._see_carried_out()
        except (NoAnswer, OSError) as error:
            self.face.once(str(error))

    def _see_carried_out(self) -> None:
        """Sees whether the last lines of a run are made, which is over then."""
        ends = self.operator.runs.ends
        self.operator.see_carried_out()
        self.is_finished = self.is_finished or self.operator.runs.ends > ends

    def _tell_bug(self, command: SessionCommand, error: Exception) -> None:
        """An error of this program itself."""
        if os.environ.get("NGC_DEBUG"):
            traceback.print_exception(error)
        command.failed = Failure(f"internal error: {type(error).__name__}: {error}")
        self.face.say(str(command.failed), REFUSED)

    def _see_end(self, command: SessionCommand, ends: int) -> None:
        """Sees whether the program ran to its end, of which so many were before. Lines of one's own have none."""
        status = self.operator.console.status()
        ran = command.word in _MAY_END and self.operator.runs.ends > ends
        at_start = status.does == "idle" and status.half == "none" and not status.place
        seen = self.operator.session.seen
        is_through = seen is None or not seen.behind  # nor were the motors held before its end
        self.is_finished = bool(ran and at_start and is_through and not self.face.refusal)

    def _quit(self) -> None:
        """The end that a person wanted."""
        self.operator.ending.tell_player()
        status = self.operator.console.quit()
        self.ended = "the session was ended" if not status else f"ngc ended with status {status}"
        self.over.set()

    def _give_up(self) -> None:
        """Ends `ngc` where nothing more can be done with it. A player that is there goes on with the next session."""
        with suppress(NoAnswer):
            self.operator.following.let_go()
        self.ended = f"ngc ended with status {self.operator.console.quit()}"

    def _tell_end(self, ended: Ended) -> None:
        """The end that nobody wanted."""
        refusals = [explained(reply) for reply in ended.replies if reply.startswith("refused")]
        self.ended = f"ngc ended with status {ended.status}" + (f": {refusals[-1]}" if refusals else "")
        self.face.say(f"{self.ended}. What is stored stays", REFUSED)

    def _look_meanwhile(self) -> None:
        """While somebody is asked: overrides and switches are heeded, and how all stands is looked at."""
        chosen = self.face.asides(_CHOICES)
        for line in chosen:
            self.operator.do(line)
        self._look()
        self._look_for_loss()
        if chosen:
            self.face.publish()

    def _look(self) -> None:
        """Looks how all stands."""
        operator, before = self.operator, self.stand
        gone, machine = "", None
        try:
            status, report = operator.look()
            machine = operator.session.meter.link.machine() if self.opened.has_moves else None
            if machine and report and bool(machine.alarm) != (report.word == ALARM):
                status, report = operator.look()  # an alarm came or went between the two answers
            if report:
                if report.word == ALARM != self._word:
                    self.face.refusal = ""  # it was before that
                self._word = report.word
                operator.session.take(report)
                self._look_at_rest(status, report)
        except NoAnswer as error:
            status, report, gone = operator.console.status(), self.face.report, str(error)
        gone = gone or (operator.session.meter.link.failed if operator.session.meter else "")
        operator.session.see_machine(machine)
        self.kept.at(status)
        probe = operator.touch.setter.probe
        ball = operator.shapes.ball(probe) if probe else None
        self.stand = Stand(status, report, gone, recovery_of(operator.recover.found), *self._typed(), machine, ball)
        self._see_homed()
        if self._text is not operator.session.program.text:  # as the rest of the one that was
            self._see_program(self.name)
        if status.half == "none" and not status.place and not self.drawer.is_as_drawn(self.kept.device):
            self._draw()
        if self.stand != before:
            self.face.publish()

    def _typed(self) -> tuple[bool, tuple[str, ...]]:
        """Whether something was done between two lines of the program, and what puts back what that left in force."""
        left = self.operator.left
        if left.device is None:
            return False, ()
        return True, left.restoring().lines

    def _see_program(self, name: str) -> None:
        """Another program is stored, which people call `name`."""
        self._text = self.operator.session.program.text
        self.name, self.program_id, self.started = name, self.program_id + 1, 0.0
        self._draw()

    # what is drawn

    def _draw(self) -> None:
        """Draws the program as it would be if it were begun now."""
        self.drawer.begin(self._source_of(self.kept.read()))

    def _source_of(self, device: Device) -> DrawingRequest:
        """What is drawn where a program is to begin, or began, as a device stands."""
        console, delete = self.operator.console, self.operator.session.delete
        return DrawingRequest(console.ngc, console.settings, self.machine, device.image, not device.state.place, delete)


def _homes(path: str) -> str | None:
    """The axes that a machine's file says how to home, as `XYZ`; None where no file is named, or it is wrong."""
    try:
        order = read_table(path).get("home", {}).get("order", []) if path else None
        return None if order is None else "".join(axis for axis, at in zip("XYZ", order) if at)
    except (Failure, OSError, AttributeError, TypeError):
        return None


def _most_percents(path: str, settings: Settings) -> tuple[int, int]:
    """The most that the overrides of the feed and of the spindle may be by a machine's file; 100 where none is given,
    or it is wrong: the player says why."""
    if not path:
        return WHOLE, WHOLE
    try:
        machine = read_machine(path, settings.step_nm)
    except (Failure, OSError):
        return WHOLE, WHOLE
    return machine.limits.most_percent, SPINDLE_PERCENTS[-1] if machine.max_rpm else WHOLE
