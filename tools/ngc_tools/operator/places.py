"""Whether the motors are where `ngc` takes them to be: its point and the player's, compared in whole steps."""
import re

from ngc_tools.formats.position import Position, distance
from ngc_tools.formats.settings import Settings
from ngc_tools.job.figures import millimetres as rounded
from ngc_tools.ngc.console import Status
from ngc_tools.operator.causes import taken
from ngc_tools.operator.face import REFUSED, SAID, WARNING, axes
from ngc_tools.operator.modes import point_words
from ngc_tools.operator.numbers import nanometres_of
from ngc_tools.operator.sentences import PLAYER_SILENT
from ngc_tools.operator.session import ALARM, BROKEN, Session
from ngc_tools.operator.work import Work
from ngc_tools.link.progress import UNSURE, NoAnswer, Report

_UNSURE = ("the motors moved without lines as their last player ended, as by a loss of power: the record has them at"
           " {at}, and they may have gone on. Nothing is done.\n  reference player takes that place, and home tells it"
           " anew; {again} goes on from there")
_DOUBT = ", and isn't sure of it: the motors moved without lines as the last player ended"
_STOPS = re.compile(r"(?:N\d{1,5})?(?:M0*[59])+", re.IGNORECASE)


def stops_outputs(line: str) -> bool:
    """Whether a line has M5 and M9 alone, which stop spindle and coolant and move nothing."""
    return _STOPS.fullmatch("".join(line.split())) is not None


def is_same_place(settings: Settings, one: list[str] | tuple[str, ...], two: list[str] | tuple[str, ...]) -> bool:
    """Whether two points are the same place, in whole steps."""
    places = [Position(settings.step_nm, [nanometres_of(number) or 0 for number in at]).steps for at in (one, two)]
    return places[0] == places[1]


class Places:
    """Compares the points, and tells `ngc` and the player where the machine stands."""

    def __init__(self, session: Session, work: Work) -> None:
        self.session, self.work = session, work

    def agree(self, status: Status, again: str) -> bool:
        """Whether both say the same place, and the player is sure of it; says it if not. `again` is how to ask for
        what was asked all the same. A point that `ngc` doesn't know, as within a block that is held, isn't compared."""
        if not status.known or not self.session.meter:
            return True
        report = self._settled()
        if report is None:
            self._say_unsettled()
            return False
        at = report.at.split()
        if not self._same(at, status.at):
            self._say_apart(at, status.at, "ngc takes them to be at",
                            f"reference player takes the player's point; {again} goes on from ngc's")
            return False
        if report.word == UNSURE:
            self.session.face.say(_UNSURE.format(at=axes(at), again=again), WARNING)
        return report.word != UNSURE

    def reference(self, words: list[str], anyway: bool) -> None:
        """Tells `ngc` where the machine stands. `player` in place of the numbers, or of one, is the player's."""
        if not words:
            self.offer()
            return
        report = self._settled() if self.session.meter else None
        if report is None and self.session.meter:
            self._say_unsettled()
            return
        if report is None and "player" in words:
            self.session.face.say("no player says where the motors are: reference X Y Z", WARNING)
            return
        at = report.at.split() if report else []
        words = ["player"] * 3 if words == ["player"] else words
        words = [at[axis] if word == "player" and axis < 3 else word for axis, word in enumerate(words)]
        elsewhere = bool(at) and self._elsewhere(words, at)
        if elsewhere and not anyway:
            typed = " ".join(words)
            self._say_apart(at, words, "what was typed is", "reference player takes the player's"
                            f" point; reference {typed} anyway takes what was typed")
            return
        command = "reference " + " ".join(words)
        is_unsure = report is not None and report.word == UNSURE
        if taken(self.session, self.session.console.ask(command)[0], command) and (elsewhere or is_unsure):
            self._tell_player()

    def offer(self) -> None:
        """Asks where the machine stands, and says what the player says."""
        report = self.session.report()
        said = f"; the player says: reference {report.at}" if report else ""
        self.session.face.say("where does the machine stand? reference X Y Z" + said, SAID)

    def warn(self, status: Status) -> None:
        """Says where the player says that the motors are, if `ngc` doesn't say the same, or it isn't sure."""
        report = self.session.report()
        if report and not (status.known and self._same(report.at.split(), status.at) and report.word != UNSURE):
            doubt = _DOUBT if report.word == UNSURE else ""
            self.session.face.say(f"the player says: reference {report.at}{doubt}", WARNING)

    def _settled(self) -> Report | None:
        """What the player says once it has carried out everything; None, which is said, if it doesn't come to that."""
        report = self.session.report()
        if report and report.behind:
            report = self.session.report() if self.work.await_motors() else None
        return report

    def _say_unsettled(self) -> None:
        """Says why nothing is done, and what to do, where the player doesn't come to that."""
        session = self.session
        if session.is_in(ALARM, BROKEN):
            session.face.say("nothing is done", REFUSED)
        elif session.seen and self.work.motors.are_held and not session.gone:
            self.work.motors.say_held(session.seen)
        else:
            session.face.say(f"nothing is done. {PLAYER_SILENT}", REFUSED)

    def _say_apart(self, motors: list[str], other: list[str] | tuple[str, ...], who: str, then: str) -> None:
        a, b = (tuple(nanometres_of(number) or 0 for number in at) for at in (motors, other))
        self.session.face.say(f"the player says that the motors are at {point_words(a)}, and {who} {point_words(b)}:"
                              f" {rounded(distance(a, b))} mm apart. Nothing is done.\n  {then}", WARNING)

    def _elsewhere(self, words: list[str], at: list[str]) -> bool:
        """Whether three numbers are another place than the player's."""
        numbers = [nanometres_of(word) for word in words]
        return len(words) == 3 and None not in numbers and not self._same(words, at)

    def _same(self, one: list[str] | tuple[str, ...], two: list[str] | tuple[str, ...]) -> bool:
        """Whether both are the same place, in whole steps."""
        return is_same_place(self.session.settings, one, two)

    def _tell_player(self) -> None:
        """Tells the player where the machine stands, as `ngc` took it."""
        at = " ".join(self.session.console.status().at)
        try:
            self.session.meter.link.at(at)
            report = self.session.report()
        except NoAnswer as error:
            self.session.face.say(str(error), WARNING)
            return
        if report and not self._same(report.at.split(), at.split()):
            self.session.face.say(f"the player still says X Y Z {report.at}: start it anew with --at {at}", REFUSED)
