"""An alarm, by the emergency stop or a limit: the motors stood at once, and where they are isn't known until `home`."""
from ngc_tools.operator.commands import Taken, is_taken
from ngc_tools.operator.face import REFUSED, WARNING, axes
from ngc_tools.operator.numbers import nanometres_of
from ngc_tools.operator.session import ALARM, BROKEN, Session
from ngc_tools.link.progress import MoveReport, NoAnswer

_CAUSES = {"emergency_stop": "emergency stop", "limits": "limit", "sink": "step sink lost"}
_CAME = "{cause}: the motors stand, spindle and coolant are off, and where the machine is isn't known. home comes first"
_FORBIDS = "nothing is done: {cause}. home comes first; until then where and quit alone are taken"
_BROKEN = ("nothing is done: what the player had in hand as it broke off is never carried out, and so nothing that"
           " comes after. stop begins another session, which goes on as after a loss of power")
_LEFT = ("the alarm stands: {left} isn't homed. home {left} does it, where the machine's file says how; else measure"
         " it, and type reference X Y Z with what you measured: the player counts {at}")
_NUMBERS = ("reference X Y Z, in mm: the player counts {at}; player stands for the number of an axis that is homed"
            " ({homed})")
_NOT_TAKEN = ("the player doesn't take that: all axes have to be homed that can be, with their numbers as the player"
              " has them, and the emergency stop has to be off")


def is_forbidden(word: str, said: str) -> bool:
    """Whether a command isn't taken, by what the player says of itself: in an alarm, or once it broke off."""
    return said == ALARM and not is_taken(word, Taken.IN_ALARM) or said == BROKEN and not is_taken(
        word, Taken.IN_ALARM | Taken.BROKEN_OFF)


class Alarm:
    """What is said of one, and what isn't taken until it is over. `came_by` is what the last one came by, in words."""

    def __init__(self, session: Session) -> None:
        self.session, self.came_by = session, ""
        session.on_alarm = self.say

    def forbids(self, word: str) -> bool:
        """Whether a command isn't taken, since an alarm stands, or stood with lines in hand; says it."""
        if not self.session.meter or is_taken(word, Taken.IN_ALARM):
            return False
        self._look()
        said = self.session.seen.word if self.session.seen else ""
        if not is_forbidden(word, said):
            return False
        if said == ALARM:
            self._say_forbidden()
        else:
            self.session.face.say(_BROKEN, REFUSED)
        return True

    def _say_forbidden(self) -> None:
        self.session.face.say(_FORBIDS.format(cause=self._cause().upper()), REFUSED)

    def say(self) -> None:
        """Says that it came."""
        self.came_by = self._cause()
        self.session.face.say(_CAME.format(cause=self.came_by).upper(), WARNING)

    def say_left(self) -> None:
        """Where axes were homed, and the alarm stands all the same: says which one isn't, and asks for it."""
        machine = self._machine()
        if machine and machine.homed:
            self.session.face.say(_LEFT.format(left=" ".join(left_of(machine)), at=self._counted()), WARNING)

    def place(self, words: list[str]) -> bool:
        """Tells the player where the machine stands; whether the alarm is over by that. Of an axis that isn't homed
        the player's number isn't taken: somebody has to know it."""
        machine = self._machine()
        if machine is None or not machine.homed:
            self._say_forbidden()
            return False
        at = self.session.seen.at.split()
        numbers = [number if word == "player" and axis in machine.homed else word
                   for axis, word, number in zip("XYZ", words, at)]
        if len(words) != 3 or None in map(nanometres_of, numbers):
            self.session.face.say(_NUMBERS.format(at=self._counted(), homed=" ".join(machine.homed)), REFUSED)
            return False
        return self._is_taken(" ".join(numbers))

    def _is_taken(self, place: str) -> bool:
        """Whether the player takes a place, which is said if not."""
        try:
            self.session.meter.link.at(place)
        except NoAnswer as error:
            self.session.face.say(str(error), WARNING)
            return False
        self._look()
        if self.session.is_in(ALARM):
            self.session.face.say(_NOT_TAKEN, REFUSED)
        return not self.session.is_in(ALARM)

    def stands(self) -> bool:
        """Whether one stands now."""
        if self.session.meter:
            self._look()
        return self.session.is_in(ALARM)

    def _counted(self) -> str:
        """Where the machine is by the player's count."""
        return axes(self.session.seen.at.split())

    def _machine(self) -> MoveReport | None:
        """What the player says of its axes; None where it doesn't answer, which is said."""
        try:
            return self.session.meter.link.machine()
        except NoAnswer as error:
            self.session.face.say(str(error), WARNING)
            return None

    def _look(self) -> None:
        """Asks the player; one that doesn't answer is told of by the command itself."""
        try:
            self.session.take(self.session.meter.link.ask())
        except NoAnswer:
            pass

    def _cause(self) -> str:
        """What it came by, with the switches that are on; the session sees it before anything is said of it."""
        try:
            machine = self.session.meter.link.machine()
        except NoAnswer:
            return "alarm"
        self.session.see_machine(machine)
        on = [_limit(name) for name in machine.on if name.startswith("limit_")]
        return " and ".join(on) if machine.alarm == "limits" and on else _CAUSES.get(machine.alarm, "alarm")


def _limit(name: str) -> str:
    """An input as `limit_x_low`, as `limit X low`."""
    limit, axis, end = name.split("_")
    return f"{limit} {axis.upper()} {end}"


def left_of(machine: MoveReport) -> str:
    """The axes that aren't homed, as `XY`."""
    return "".join(axis for axis in "XYZ" if axis not in machine.homed)
