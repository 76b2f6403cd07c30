"""The way back to where a half-done segment begins: what was on is switched on first and nothing moves, somebody looks,
and then the motors go. The player moves them, and slowly where they go down into the work."""
import time
from collections.abc import Callable

from ngc_tools.failure import BadNumber
from ngc_tools.formats.out import Switch
from ngc_tools.formats.position import Position, distance, millimetres, nanometres
from ngc_tools.formats.record import machine_nm
from ngc_tools.job.figures import millimetres as rounded
from ngc_tools.operator.display import on_words
from ngc_tools.operator.face import REFUSED, WARNING, WHERE, axes
from ngc_tools.operator.modes import trimmed
from ngc_tools.operator.motors import STILL, Stillness
from ngc_tools.operator.outputs import comes_on_agreed
from ngc_tools.operator.sentences import LOOK, LOOK_AGAIN, LOOK_SWITCHED
from ngc_tools.operator.session import ALARM, BROKEN, Session
from ngc_tools.link.way import legs_to

_SWITCHES = "on was, there: {words}. yes switches it on first, anything else leaves it off: "
_HEIGHT = """\
by legs then: straight up, over, and down to {at}. Up to which Z, in machine mm, from {low} to {high}? Nothing ends: """
_FEED = "How fast {where}, in mm a minute? {known}; no more is taken. Nothing takes {feed}: "
_CUT_OFF = "It was cut off at {feed}"
_ANY_FEED = "How fast {where}, in mm a minute? No feed is known there. Nothing ends: "
_HELD = "held. yes goes on; anything else stays, and recover goes on later: "
_NOT_GONE = "The player doesn't go there, and nothing is told to ngc: the player says why at its own terminal"
_NOT_SWITCHED = "The player doesn't switch that on, and nothing has moved: it says why at its own terminal"
_NOT_AT_SPEED = "The player is held: the spindle isn't at its speed, or the door is open. yes waits again: "
_LOOK_S = 0.02
_HELD_LOOKS = 25  # of a player that is held by itself: some of them come before it has heeded a release
TYPE_GO = ", and type go; anything else leaves it: "
NO_ANSWERS = ("", "no")


class WayBack:
    """Brings the motors there. `looked` is what was on, for people, as somebody looked and agreed; None before that."""

    def __init__(self, session: Session) -> None:
        self.session = session
        self.looked: str | None = None

    def height(self, start: str, end: str) -> str | None:
        """The height of legs from a point to another, as a person types it; None for none. What isn't taken is said,
        and asked again."""
        low, high = max(nanometres(at.split()[2]) for at in (start, end)), self.session.settings.high_nm[2]
        asked = _HEIGHT.format(at=axes(end.split()), low=millimetres(low), high=millimetres(high))
        why = ""
        while (typed := self.session.face.ask(why + asked).strip()) not in NO_ANSWERS:
            try:
                lift_nm = machine_nm(typed)
                if low <= lift_nm <= high:
                    return millimetres(lift_nm)
                below = f"Z {typed} lies below Z {millimetres(low)}: legs go up first, and down last"
                why = f"{below if lift_nm < low else f'Z {typed} lies outside the travel'}.\n"
            except BadNumber as error:
                why = f"{error}.\n"
            self.session.face.say(why.strip(), REFUSED)
        return None

    def feed(self, cut_nm: int, where: str, known: str = _CUT_OFF) -> str | None:
        """How fast it goes where it goes down into the work, as a person types it: at most the feed that was cut off,
        in nm a minute, 0 where none is `known`; None for not at all."""
        at = trimmed(cut_nm)
        asked = (_FEED.format(where=where, known=known.format(feed=at), feed=at) if cut_nm
                 else _ANY_FEED.format(where=where))
        why = ""
        while (typed := self.session.face.ask(why + asked).strip()) not in NO_ANSWERS:
            try:
                rate = machine_nm(typed)
                if 0 < rate <= (cut_nm or rate):
                    return trimmed(rate)
                most = f", and at most {trimmed(cut_nm)}" if cut_nm else ""
                why = f"{typed} isn't above 0{most}.\n"
            except BadNumber:
                why = f"Not a number of mm a minute: {typed}.\n"
            self.session.face.say(why.strip(), REFUSED)
        return trimmed(cut_nm) if cut_nm and not typed else None

    def say_legs(self, start: str, end: str, lift: str, feed: str) -> None:
        """Says how long each leg is."""
        (x, y, z), point = (tuple(map(nanometres, at.split())) for at in (start, end))
        lift_nm = nanometres(lift)
        _, over, _ = legs_to((x, y, z), point, lift_nm)
        across = rounded(distance((x, y, lift_nm), over))
        self.session.face.say(f"up {rounded(lift_nm - z)} mm, and over {across} mm, at the traverse rate; down"
                              f" {rounded(lift_nm - point[2])} mm at F{feed}")

    def goes(self, outputs: Switch, send: Callable[[], None], at: str, line: int | None = None) -> bool:
        """Switches on what was on there, if a person wants that, has somebody look, and sends the motors; whether they
        came to a point, and behind a line, if one is named. Raises NoAnswer."""
        session, link = self.session, self.session.meter.link
        before = link.ask().outputs
        is_switched = self._wants(outputs, before)
        if is_switched and not self._switches(outputs):
            session.face.say(_NOT_SWITCHED, WARNING)
            return False
        if not session.agrees(LOOK_SWITCHED if is_switched else LOOK):
            if is_switched:
                self.switches_back(before)
            return False
        self.looked = on_words(link.ask().outputs)
        send()
        return self.waits() and self._is_there(at, line)

    def ends(self) -> bool:
        """Lets motors that are held on a way go to its end, once somebody has looked; whether they stand. Raises
        NoAnswer."""
        link = self.session.meter.link
        report = link.ask()
        if not report.behind:
            if report.is_held:
                link.release()
            return True
        if report.is_held and not self.session.agrees(LOOK_AGAIN):
            return False
        self.looked = on_words(report.outputs)
        return self.waits()

    def waits(self) -> bool:
        """Waits until the player stands, and lets it go on first; whether it does. Somebody who holds is asked, and so
        it is where the player holds by itself, as for a door. Raises NoAnswer."""
        link, held, still = self.session.meter.link, 0, Stillness()
        link.release()
        while (report := link.ask()).behind:
            self.session.take(report)
            if self.session.is_in(ALARM, BROKEN):
                return False
            if still.is_long(report):
                self.session.face.once(STILL, WHERE)
            if report.waits and not self._has_tool(report.tool):
                return False
            held = held + 1 if report.is_held else 0
            if held > _HELD_LOOKS or self.session.face.interrupted():
                link.hold()
                if not self.session.agrees(_HELD) or not comes_on_agreed(self.session):
                    return False
                link.release()
                held = 0
            time.sleep(_LOOK_S)
        self.session.take(report)
        return not self.session.is_in(ALARM, BROKEN)

    def _wants(self, outputs: Switch, before: Switch) -> bool:
        """Whether what was on there is to be switched on now."""
        words = on_words(outputs)
        return bool(words) and on_words(before) != words and self.session.agrees(_SWITCHES.format(words=words))

    def _switches(self, outputs: Switch) -> bool:
        """Has the player switch outputs where it stands; whether it did. A wish to hold is heeded after that, since
        nothing moves."""
        link = self.session.meter.link
        link.release()
        link.switch(outputs)
        return self._is_switched(outputs)

    def switches_back(self, outputs: Switch) -> None:
        """Has it switch outputs as they were, which a wish to hold doesn't keep from being done. Raises NoAnswer."""
        self.session.meter.link.switch_back(outputs)
        self._is_switched(outputs)

    def _is_switched(self, outputs: Switch) -> bool:
        """Waits until a switch is made; whether it was."""
        link, held = self.session.meter.link, 0
        while (report := link.ask()).behind and not self.session.is_in(ALARM, BROKEN):
            self.session.take(report)
            held = held + 1 if report.is_held else 0
            if held > _HELD_LOOKS:
                if not self.session.agrees(_NOT_AT_SPEED):
                    return False
                link.release()
                held = 0
            time.sleep(_LOOK_S)
        self.session.take(report)
        return on_words(report.outputs) == on_words(outputs)

    def _is_there(self, at: str, line: int | None) -> bool:
        report = self.session.meter.link.ask()
        is_there = self._steps(report.at) == self._steps(at) and line in (None, report.carried)
        if not is_there:
            self.session.face.say(_NOT_GONE, WARNING)
        return is_there

    def _steps(self, at: str) -> list[int]:
        return Position(self.session.settings.step_nm, map(nanometres, at.split())).steps

    def _has_tool(self, slot: int) -> bool:
        """Asks for a tool that comes on the way; whether it is in."""
        what = f"tool {slot} comes on the way: put it in" if slot else "take the tool out"
        is_in = self.session.face.ask(what + TYPE_GO).strip().lower() == "go"
        if is_in:
            self.session.meter.link.go()
        return is_in
