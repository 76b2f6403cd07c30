"""A tool that the player waits for: meanwhile the motors jog and seek. It is in once they are back where the lines go
on, and they go there by legs, as somebody agrees."""
import time

from ngc_tools.formats.position import nanometres
from ngc_tools.link.progress import Report
from ngc_tools.operator.face import REFUSED, WARNING
from ngc_tools.operator.modes import point_words, trimmed
from ngc_tools.operator.moves import Moves
from ngc_tools.operator.places import is_same_place
from ngc_tools.operator.session import Session
from ngc_tools.operator.setter import Touches
from ngc_tools.operator.touching import CannotTouch, Touching
from ngc_tools.operator.ways import Ways
from ngc_tools.operator.work import Work

_LOOKS, _LOOK_S = 50, 0.02  # until the player's record has where the motors are
_OVER_MM_MIN, _DOWN_MM_MIN = 1500, 300
_NOT_TAKEN = "the player still waits for the tool: the motors move, or aren't where the lines go on"


class AtChange:
    """What `go` does. `is_going` says that it is under way."""

    def __init__(self, session: Session, moves: Moves, ways: Ways, work: Work) -> None:
        self.session, self.moves, self.ways, self.work = session, moves, ways, work
        self.is_going = False

    def go(self) -> None:
        """Tells the player that the tool is in, once the motors are back. Raises NoAnswer."""
        self.is_going = True
        try:
            self._tell()
        finally:
            self.is_going = False

    def _tell(self) -> None:
        """Does it."""
        link = self.session.meter.link
        asked = now = link.ask()
        for _ in range(_LOOKS):
            to = self.work.waits_at or link.leads() if now.waits else ""
            if to and not self._is_there(now.at, to) and not self._goes_back(now, to):
                return
            link.go()
            now = link.ask()
            if not now.waits or (now.tool, now.carried) != (asked.tool, asked.carried):
                return
            time.sleep(_LOOK_S)
        self.session.face.say(_NOT_TAKEN, REFUSED)

    def _is_there(self, at: str, to: str) -> bool:
        return is_same_place(self.session.settings, at.split(), to.split())

    def _goes_back(self, now: Report, to: str) -> bool:
        """Goes back by legs, once somebody agrees; whether the motors are there."""
        at, end = [list(map(nanometres, text.split())) for text in (now.at, to)]
        is_above = at[:2] == end[:2]
        height = max(at[2], end[2]) if is_above else max(at[2], end[2], self.ways.top_nm)
        if not self.session.agrees(_straight(at, end) if is_above else _over(at, end, height)):
            return False
        self.moves.motors.release()
        try:
            for axis, nm, rate in ((2, height, _OVER_MM_MIN), (0, end[0], _OVER_MM_MIN), (1, end[1], _OVER_MM_MIN),
                                   (2, end[2], _DOWN_MM_MIN)):
                self._leg(axis, nm, rate)
        except CannotTouch as why:
            self.session.face.say(f"go: {why}", WARNING)
            return False
        return True

    def _leg(self, axis: int, to: int, mm_per_min: int) -> None:
        """Goes along an axis. Raises CannotTouch where it doesn't come to its end."""
        settings = self.session.settings
        box = tuple(zip(settings.low_nm, settings.high_nm, strict=True))
        Touching(self.moves, Touches(mm_per_min), settings.step_nm, box, "go").back(axis, to)


def _straight(at: list[int], end: list[int]) -> str:
    """What is asked where Z alone goes."""
    return (f"the motors are at machine {point_words(tuple(at))}, and the lines go on from {point_words(tuple(end))}:"
            f" {'down' if at[2] > end[2] else 'up'} to Z{trimmed(end[2])}. Look whether that way is free, with the tool"
            " that is in\nyes goes back and on, anything else moves nothing: ")


def _over(at: list[int], end: list[int], height: int) -> str:
    """What is asked where all axes go."""
    return (f"the motors are at machine {point_words(tuple(at))}, and the lines go on from {point_words(tuple(end))}:"
            f" up to Z{trimmed(height)}, over to X{trimmed(end[0])} and then to Y{trimmed(end[1])}, down to"
            f" Z{trimmed(end[2])}. Look whether that way is free, with the tool that is in\nyes goes back and on,"
            " anything else moves nothing: ")
