"""What the band at the top of a page says: what the machine does, in a word, its tone, and more of it."""
from dataclasses import dataclass

from ngc_tools.ngc.console import Status
from ngc_tools.operator.commands import Brings, words_that_bring
from ngc_tools.operator.display import on_words
from ngc_tools.operator.motors import count
from ngc_tools.operator.session import ALARM, BROKEN, DOOR, SPINDLE, WAITS_SPINDLE
from ngc_tools.page.face import LOOKS
from ngc_tools.page.session import LOST, MOVES, WITHOUT_LINES, PageSession
from ngc_tools.link.progress import UNSURE, Report, goes_on

Band = tuple[str, str, str]

_STOOD = "The motors stood at once, and where the machine is isn't known. Home comes first"
_BROKEN = "No more line of this session is carried out. Start ngc again goes on as after a loss of power"
_LEFT = "Not homed: {axes}. Home each, or measure and tell where it stands"
_OPEN = "The door is open. Close it; then Go on"
_HELD = {
    DOOR: "The door was open, and is closed now. Go on carries on",
    SPINDLE: "The spindle didn't come to its speed. Look at it; Go on waits for it once more",
}
_OFF = "Spindle and coolant were switched off by hand. Go on asks before they come on again"
_HELD_BY_OTHER = "Somebody else holds the motors. Go on carries on"
MOVING = {"home": "Homing", "jog": "Jogging", "seek": "Seeking", "probe": "Probing", "measure": "Measuring"}
"""What is said while one of WITHOUT_LINES is under way."""
_SEEKS = "until the probe is touched"
_TAKE_UP = words_that_bring(Brings.TAKES_UP)
OWN_LINES = words_that_bring(Brings.LINES) & words_that_bring(Brings.HANDS_OUT) - words_that_bring(Brings.PROGRAM)
"""The commands that do lines of one's own: before one has begun, and after it, no line of the program runs."""
_STARTS = "ngc looks at the program first; nothing moves yet"
_UNSURE = "The motors moved as their last player ended, as by a loss of power: tell where the machine is, or home"
_APART = "The motors aren't where the last line ended: tell which of the two is so, or home"


@dataclass(frozen=True, slots=True)
class Standing:
    """What a band is made of. `here` is the line of the program, in words; `left` the axes that an alarm leaves;
    `does` what moves without lines, as `home X`; `page` is the one that sees it."""

    session: PageSession
    status: Status
    report: Report | None
    here: str
    left: str
    does: str
    held_by: str
    is_apart: bool
    page: str

    def band(self) -> Band:
        """A word, its tone, and more."""
        return self._failed() or self._wanted() or self._under_way() or self._goes_on() or self._at_rest()

    def _failed(self) -> Band | None:
        """Where something failed."""
        session, report = self.session, self.report
        if session.ended:
            return "Ended", "fail", session.ended
        if self.status.does == "broken":
            return "Device failed", "fail", "Remove the cause, then start again. What is stored stays"
        if session.stand.gone and session.operator.session.meter.link.failed:
            return "OUT failed", "fail", "Nothing more is handed out. Once the disk is well, Start ngc again"
        if session.stand.gone:
            return "Player gone", "fail", "Nothing more is handed out. Start the player again"
        if report and report.word == ALARM and not self.does.startswith("home "):
            return "ALARM", "fail", self._alarm()
        return ("Broken off", "fail", _BROKEN) if report and report.word == BROKEN else None

    def _alarm(self) -> str:
        """What it came by, or what it leaves."""
        if self.session.face.refusal.startswith("home: "):
            return short(self.session.face.refusal)
        if self.left:
            return _LEFT.format(axes=", ".join(self.left))
        came_by = self.session.operator.alarm.came_by
        return f"{came_by[:1].upper()}{came_by[1:]}. {_STOOD}" if came_by else _STOOD

    def _wanted(self) -> Band | None:
        """Where somebody is wanted amid what runs."""
        report, question = self.report, self.session.face.question
        if report and report.waits:
            change = f"Put in tool {report.tool}" if report.tool else "Take the tool out"
            return "Tool change", "ask", change + self._after_change(report)
        if question and question.text in LOOKS:
            is_on = self.report is None or on_words(self.report.outputs)
            return "Switched on" if is_on else "Look", "ask", "Nothing moves. Look at spindle, tool and way"
        return ("Question", "ask", question.text) if question else None

    def _after_change(self, report: Report) -> str:
        """What follows a tool change, where that isn't the job that runs."""
        if self._holds():
            return ". It is held too: Continue comes after that"
        if self.session.under is None:
            return f". What the player has in hand, {count(report)}, is carried out then"
        return ""

    def _holds(self) -> bool:
        """Whether somebody held what runs."""
        return self.status.does == "held"

    def _under_way(self) -> Band | None:
        """While something runs."""
        session, command = self.session, self.session.under
        if command is None or self._holds() and session.face.interrupted():
            return None
        if command.word in WITHOUT_LINES:
            _, _, axis = self.does.partition(" ")
            return MOVING[command.word], "run", f"{axis} {_SEEKS}" if command.word == "seek" else axis
        if command.word not in MOVES and self.status.does != "running":
            return None
        if self.held_by not in ("", "here"):
            return "Held", "hold", self._held_by()
        if command.word in ("run", "from") and session.face.last is None and not self._is_in_hand():
            return "Starting", "idle", _STARTS
        if session.under and session.under.word in _TAKE_UP and not session.face.has_looked:
            return "On the way", "run", "To where the line was cut off. Hold stops it"
        waits = ": the spindle isn't at its speed yet" if self.report and self.report.word == WAITS_SPINDLE else ""
        is_own = command.word in OWN_LINES and not session.operator.session.own
        return "Running", "run", ("" if is_own else self._line()) + waits

    def _goes_on(self) -> Band | None:
        """While the motors carry out lines that were given before, as by a session that was killed."""
        report = self.report
        if self._holds() or report is None or not goes_on(report):
            return None
        stops = ". Hold stops it" if report.wants else ""
        return "Still running", "run", f"The player carries out what it was given before, {count(report)}{stops}"

    def _line(self) -> str:
        """The line that is under way or held: one's own as it was typed, nothing for one of a session before."""
        session = self.session
        is_own = "mdi" in (self.status.half, session.stand.status.half)  # or was, until all of it was handed out
        return session.operator.session.own or ("" if is_own else self.here)

    def _is_in_hand(self) -> bool:
        """Whether the motors have lines to carry out."""
        return self.report is not None and self.report.behind > 0

    def _has_lines_left(self) -> bool:
        """Whether lines stand in OUT that no motor carried out, or that are taken back."""
        recovery = self.session.stand.recovery
        return bool(recovery and recovery["left"])

    def _held_by(self) -> str:
        """What holds the motors that nobody told to hold from here."""
        if self.session.operator.session.is_door_open:
            return _OPEN
        if self.report and self.report.again:
            return _OFF
        return _HELD.get(self.held_by, _HELD_BY_OTHER)

    def _at_rest(self) -> Band:
        """While nothing runs."""
        status, here = self.status, self.here
        has_left = self.report is not None and self.report.is_held and self.report.behind > 0
        if status.does == "held" or has_left:
            return "Held", "hold", self._held(has_left)
        if status.half != "none":
            within = here if status.half == "program" else "a line of yours"
            return "Half-done", "ask", f"Power was lost, or the session ended, within {within}"
        if self._has_lines_left():
            return "Lines left", "ask", "Lines stand in OUT that no motor carried out"
        if not status.known:
            return "Place unknown", "ask", "Tell where the machine stands"
        if self.is_apart:
            return "Two places", "ask", _APART
        if self.report is not None and self.report.word == UNSURE:
            return "Place unsure", "ask", _UNSURE
        return self._free()

    def _held(self, has_left: bool) -> str:
        """Of a hold at rest."""
        if self.session.operator.session.is_door_open:
            return _OPEN
        if self.status.does != "held":
            if self._has_lines_left() or self.status.half != "none":
                return self._left_in_hand()
            return self._held_by() if self.held_by != "here" else "Go on carries out what was handed out"
        who, line = self._who(), self._line()
        return (f"{who}. " if who else "") + (f"Before the rest of {line}" if line else "Continue goes on")

    def _left_in_hand(self) -> str:
        """What leads on where motors are held that have lines of the last session in hand, or a way."""
        recovery = self.session.stand.recovery
        if recovery and recovery["sent"]:
            return "Recover goes on with the way that was held"
        return f"Recover has them carry out {count(self.report)} in hand first; Stop lets go of these"

    def _who(self) -> str:
        """Who held it, if that wasn't this page."""
        held_from = self.session.held_from
        if held_from == LOST:
            return "The page that commands was lost"
        return "Another page held it" if held_from and held_from != self.page else ""

    def _free(self) -> Band:
        """Where nothing hinders."""
        session, status = self.session, self.status
        if session.operator.session.is_door_open:
            return "Door open", "hold", "Nothing moves while it is open"
        if session.face.refusal:
            return "Refused", "fail", short(session.face.refusal)
        if status.does == "stopped":
            return "Stopped", "ask", session.face.message or f"Continue goes on with {self.here}"
        return "Idle", "idle", self._idle()

    def _idle(self) -> str:
        if not self.session.operator.session.program.text:
            return "No program is loaded"
        if self.session.is_finished:
            return "The program ran to its end"
        return f"Next is {self.here}" if self.status.place else "Ready"


def short(refusal: str) -> str:
    """A refusal in one sentence; the log has all of it."""
    where, _, what = refusal.rpartition("refused ") if refusal.startswith("line ") else ("", "", refusal)
    what = what.removeprefix("refused ").partition("\n")[0].partition(". ")[0]
    return f"{where.strip()}: {what}" if where else what
