"""The work of a session: ticks, in small counts, until there is nothing to do or somebody wants to hold."""
import time
from collections.abc import Callable
from dataclasses import dataclass

from ngc_tools.formats.position import nanometres
from ngc_tools.formats.in_force import InForce
from ngc_tools.ngc.console import Status
from ngc_tools.operator.display import short_words, work_words
from ngc_tools.operator.face import MESSAGE, WARNING, WHERE, UnderWay
from ngc_tools.operator.meter import AT_ONCE
from ngc_tools.operator.motors import STILL, Motors, Stillness, live
from ngc_tools.operator.session import ALARM, BROKEN, DOOR, OTHER, SPINDLE, WAITS_SPINDLE, Session
from ngc_tools.operator.timeline import Timeline
from ngc_tools.link.progress import NoAnswer, Report

ENDS = ("idle", "stopped", "held", "refused")
SINGLE, CHANGE = "single", "change"
"""What ended the work where it is to hold after each line, and where it is to behind a tool change."""
FIRST_TICKS, MOST_TICKS = 20, 1000
_HELD_S = 0.5  # of motors that are let go: so long after it they may still say that they are held
_ASKED_S = 0.1  # of what holds them it asks about so often
_HELD = {
    DOOR: "the door is open, and the motors are held: once it is closed, release lets them go on",
    SPINDLE: "the spindle didn't come to its speed, and the motors are held: release waits for it again",
    OTHER: "the motors are held, and not from here: release lets them go on",
}
_SILENT = ". Once it answers again, run goes on; if it is gone, quit, and start a player and this again"
_SPINDLE = "the player waits until the spindle has its speed"


def clock(us: int) -> str:
    """A time in minutes and seconds, as `1:05`; from an hour on as `1:02:05`."""
    minutes, seconds = divmod(us // 1_000_000, 60)
    if minutes < 60:
        return f"{minutes}:{seconds:02d}"
    return f"{minutes // 60}:{minutes % 60:02d}:{seconds:02d}"


@dataclass
class Chunk:
    """How many ticks are given at once at most: so many that one command lasts about 50 ms, as nothing is heeded
    meanwhile."""

    ticks: int = FIRST_TICKS

    def lasted(self, seconds: float) -> None:
        """Fits it to how long the last command took."""
        if seconds < 0.025:
            self.ticks = min(MOST_TICKS, 2 * self.ticks)
        elif seconds > 0.06:
            self.ticks = max(1, self.ticks // 2)


@dataclass(frozen=True, slots=True)
class _Shown:
    """Of a place, its line, what is in force on it, if that is known, and more."""

    place: int
    line: str
    view: InForce | None
    more: tuple[str, ...]


_NOTHING_SHOWN = _Shown(-1, "", None, ())


class Work:
    """Gives the ticks of a session."""

    def __init__(self, session: Session, motors: Motors, aside: Callable[[str], None]) -> None:
        """`aside` does a command that is given while something runs."""
        self.session, self.motors, self.aside = session, motors, aside
        self.chunk = Chunk(AT_ONCE) if session.meter else Chunk()
        self.timeline: Timeline | None = None  # of the program that runs, if it is known
        self._shown = _NOTHING_SHOWN
        self._status: Status | None = None  # of what is under way
        self._waited: int | None = None  # the tool that the player was waiting for as it was asked last
        self._is_unwanted = False  # somebody wants to hold
        self._is_within = False  # a line is under way that hands something out
        self._free_at = 0.0  # when the motors weren't held last, or were held from here
        self._asked_at = 0.0  # when it was asked last what holds them
        self._still = Stillness()
        self.is_amid = False  # a command is done that was given while something runs
        self.waits_at = ""  # while the player waits for a tool: from where the lines behind it go on
        self.waits_at_change: Callable[[], bool] = lambda: False
        self._changes: tuple[bytes, tuple[int, ...]] = (b"", ())  # of a program, where its lines with M6 begin

    def go(self) -> str | None:
        """Gives ticks until there is nothing to do, or somebody wants to hold.

        It returns what ended them: idle, stopped, held, refused, SINGLE or CHANGE; None for a wish to hold, or a player
        that is gone. After all but a refusal it waits until the motors are through."""
        self.session.gone = False
        self._waited = None
        self._shown = _NOTHING_SHOWN
        self._free_at = time.monotonic()
        self._still = Stillness()
        ended = self._ticks()
        if ended in ("idle", "stopped", "held", SINGLE, CHANGE):
            self.await_motors()
        self._status = None
        self.session.face.live(None)
        return ended

    def _ticks(self) -> str | None:
        session = self.session
        while count := self.room():
            begun = time.monotonic()
            is_single = session.single and not session.own and not session.goes_through
            ahead = self._lines_to_change()
            replies = session.console.ask(f"tick {1 if is_single else min(count, max(1, ahead))}")
            self.chunk.lasted(time.monotonic() - begun)
            status = self._status = session.console.status()
            session.passed(status)
            self._show_messages(status, any(reply.startswith("done") for reply in replies) and not session.own)
            if ended := self._ended(replies, status):
                self._shown = _Shown(status.place, "all is handed out", None, ())
                return ended
            is_done = self._is_line_done(replies, status)
            if ahead == 0 and any(reply.startswith("done") for reply in replies):
                return CHANGE
            if is_done and is_single:
                return SINGLE
            self._show()
            if not self._wanted():
                return None
        return None

    def _lines_to_change(self) -> int:
        """How many lines of the program, at least, come before the next tool change, each of which takes a tick; 0 in
        its line; as many as there may be where none is waited at."""
        session = self.session
        if session.own or not self.waits_at_change():
            return MOST_TICKS
        status, text = self._status or session.console.status(), session.program.text
        if self._changes[0] is not text:
            self._changes = text, session.program.changes()
        place = next((place for place in self._changes[1] if place >= status.place), None)
        if place is None or session.delete and text[place:place + 1] == b"/":
            return MOST_TICKS
        return sum(1 for line in text[status.place:place].split(b"\n") if line.strip())

    def _is_line_done(self, replies: list[str], status: Status) -> bool:
        """Whether a line that handed something out is done, by the replies of a tick."""
        is_done = self._is_within and any(reply.startswith("done") for reply in replies)
        self._is_within = status.half != "none"
        return is_done

    def _wanted(self) -> bool:
        """Does what is given meanwhile; whether nobody wants to hold."""
        held = self.session.face.interrupted()
        self.is_amid = True
        for command in self.session.face.asides():
            self.aside(command)
        self.is_amid = False
        return not held

    def _ended(self, replies: list[str], status: Status) -> str | None:
        """What ended the work of a tick command, if something did; shows refusals."""
        ended = [reply.split()[0] for reply in replies if reply.split()[0] in ENDS]
        for reply in replies:
            self.session.is_refusal(reply, status)
        return ended[0] if ended else None

    def room(self) -> int:
        """How many ticks may be given now; 0 if somebody wants to hold, or the player is gone."""
        session = self.session
        if not session.meter:
            return self.chunk.ticks if self._wanted() else 0
        try:
            return min(session.meter.room(self._goes_on), self.chunk.ticks)
        except NoAnswer as error:
            session.gone = not session.meter.link.failed
            again = "" if session.meter.link.failed else _SILENT
            session.face.say(f"{error}; nothing more is handed out{again}", WARNING)
            return 0

    def await_motors(self) -> bool:
        """Waits until the player has carried out what was handed out; False if somebody wants to hold before that,
        the motors are held, or the player is gone."""
        session = self.session
        self._free_at = time.monotonic()
        try:
            if not session.meter:
                return True
            if session.meter.drained(self._goes_on):
                session.take(session.meter.link.ask())  # as all is carried out
                return True
            if not session.is_in(ALARM, BROKEN):
                session.face.say("the player isn't through with its lines yet", WARNING)
        except NoAnswer as error:
            session.face.say(str(error), WARNING)
        else:
            self._stay()
        return False

    def _stay(self) -> None:
        """The motors are to stand where they are: somebody wants to hold, or they are held."""
        if self.motors.hold() if self._is_unwanted else self.motors.are_held:
            self.motors.say_rest()

    def _goes_on(self, report: Report) -> bool:
        self.session.take(report)
        self._show()
        waited, self._waited = self._waited, report.tool if report.waits else None
        if report.waits and waited != report.tool:
            what = f"tool {report.tool} to be put in" if report.tool else "the tool to be taken out"
            self.session.face.say(f"the player waits for {what}: once that is done, type go here, or press Enter there",
                                  WHERE)
            self.waits_at = self.session.meter.link.leads() or report.at
        self._tell_waits(report)
        self._is_unwanted = not self._wanted()
        goes_on = not self._is_unwanted and not self.session.is_in(ALARM, BROKEN)
        self.waits_at = self.waits_at if goes_on and report.waits else ""
        return goes_on

    def _tell_waits(self, report: Report) -> None:
        """Says what else the motors wait for."""
        if report.word == WAITS_SPINDLE:
            self.session.face.once(_SPINDLE, WHERE)
        if self._still.is_long(report):
            self.session.face.once(STILL, WHERE)
        now = time.monotonic()
        if not report.is_held or self.motors.is_told:
            self._free_at = now
            return
        if now > self._asked_at + _ASKED_S:
            self._asked_at = now
            self.session.ask_machine()
        if now > self._free_at + _HELD_S:
            self.session.face.once(_HELD[self.session.held_by])

    def _show_messages(self, status: Status, is_done: bool) -> None:
        """Shows the messages of the lines that the place has passed. `is_done`: a line of the program was carried out;
        if the place is its start then, it is through."""
        session = self.session
        begins = status.place == session.told == 0 and status.half == "none"
        is_through = status.place < session.told or is_done and begins
        end = len(session.program.text) if is_through else status.place
        for number, message in session.program.messages(session.told, end, session.delete):
            session.face.say(f"message, {session.program.named(number)}: {message}", MESSAGE)
        session.told = status.place

    def _show(self) -> None:
        """Shows what is under way, if something is."""
        if self._status:
            self.session.face.live(self._under_way(self._status))

    def _under_way(self, status: Status) -> UnderWay:
        """What is being done."""
        session, seen = self.session, self.session.seen
        at = seen.at if seen else ""
        motion = tuple(live(seen, session.settings)) if seen else ()
        if session.own:
            return UnderWay(f"your line: {session.own}", status, at, motion=motion)
        if self._shown.place != status.place:
            self._shown = self._shown_at(status)
        shown, work = self._shown, ""
        if at and shown.view and (any(shown.view.origin) or shown.view.length):
            x, y, z = map(nanometres, at.split())
            work = f"work {work_words(shown.view, (x, y, z))}"
        return UnderWay(shown.line, status, at, (work, *shown.more) if work else shown.more, motion)

    def _shown_at(self, status: Status) -> _Shown:
        """What is shown of the program's line at the place."""
        number = self.session.program.number(status.place)
        view = self.timeline.view(number) if self.timeline else None
        more: tuple[str, ...] = ()
        if self.timeline and view:
            times = self.timeline.times(number)
            more = (" ".join(short_words(view)), f"{times.kind} {clock(times.left_us)} left",
                    f"{clock(times.done_us)} done")
        return _Shown(status.place, self.session.line(status), view, more)
