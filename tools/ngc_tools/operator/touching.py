"""Touches by small moves, one axis at a time, with an eye on the probe's input. No move leaves a box that was told
before."""
import time
from collections.abc import Callable
from dataclasses import dataclass

from ngc_tools.failure import Failure
from ngc_tools.formats.position import nanometres
from ngc_tools.link.progress import Link, MoveReport, NoAnswer
from ngc_tools.operator.modes import trimmed
from ngc_tools.operator.moves import DONE, MoveAnswer, Moves
from ngc_tools.operator.setter import Touches

Box = tuple[tuple[int, int], ...]
"""The least and the greatest machine coordinate of each axis, in nm."""
PROBE = "probe"
_AXES = "XYZ"
_LOOKS, _LOOK_S = 3, 0.02  # of a probe that has to be off
_MOST_LOOKS = 15  # until one is on
_STOPPED = "stopped: nothing more moves"
_IS_ON = "the probe is on {when}, and nothing may touch it: nothing moves"
_IS_OFF = ("the probe was touched at {axis} {at}, and is off again where the motors came to rest: it bounced, or"
           " something else touched it. That counts for nothing")
_DIFFER = "two touches differ: {axis} {first} by the fast one, and {second} by the slow one. That counts for nothing"
_NOT_AGAIN = ("the slow touch didn't come where the fast one was, at {axis} {first}, nor {agree} mm behind it. That"
              " counts for nothing")
_ON_THE_WAY = "the probe was touched on the way, at {axis} {at}, where nothing may be: nothing more moves"


class CannotTouch(Failure):
    """Why nothing is touched, or set; the text is for people."""


@dataclass(slots=True)
class Touching:
    """What makes the moves of one routine. `box` is what they don't leave; `step_nm` that of each axis."""

    moves: Moves
    how: Touches
    step_nm: tuple[int, ...]
    box: Box
    name: str = PROBE

    def go(self, axis: int, to: int, mm_per_min: int = 0) -> None:
        """Goes along an axis to a machine coordinate in nm, where nothing may be touched; as fast as a place is sought,
        if no rate is said. Raises CannotTouch; then the motors stand where that came."""
        way, length = self._way(axis, to)
        if not length:
            return
        self._be_off("before it moves")
        rate = str(mm_per_min or self.how.fast_mm_min)
        machine = self._made(lambda link: link.seek(way, rate, trimmed(length)))
        if machine.how == DONE:
            touched = trimmed(nanometres(machine.touched.split()[axis]))
            raise CannotTouch(_ON_THE_WAY.format(axis=_AXES[axis], at=touched))
        self._be_there(axis, to, machine)

    def back(self, axis: int, to: int) -> None:
        """The same, by a way that was free as it was gone, whatever the probe says."""
        way, length = self._way(axis, to)
        if length:
            machine = self._made(lambda link: link.jog(way, str(self.how.fast_mm_min), trimmed(length)))
            self._be_there(axis, to, machine)

    def touch(self, axis: int, to: int) -> int:
        """Where the probe is touched along an axis, at most at a machine coordinate: fast first, then slow, which has
        to say the same. It goes back to where it began. Raises CannotTouch; then the motors stand where that came."""
        begun = self.at(axis)
        first = self._sought(axis, to, self.how.fast_mm_min)
        self._retract(axis, begun, first)
        sign = 1 if to > begun else -1
        limit = first + sign * self.how.agree_nm
        try:
            second = self._sought(axis, limit if sign * (limit - to) < 0 else to, self.how.slow_mm_min)
        except _NotTouched:
            agree = trimmed(self.how.agree_nm)
            raise CannotTouch(_NOT_AGAIN.format(axis=_AXES[axis], first=trimmed(first), agree=agree)) from None
        if abs(second - first) > self.how.agree_nm:
            raise CannotTouch(_DIFFER.format(axis=_AXES[axis], first=trimmed(first), second=trimmed(second)))
        self._retract(axis, begun, second)
        self.go(axis, begun)
        return second

    def at(self, axis: int) -> int:
        """The machine coordinate where the motors stand, in nm. Raises CannotTouch."""
        report = self.moves.session.report()
        if report is None:
            raise CannotTouch(_STOPPED)
        return nanometres(report.at.split()[axis])

    def _sought(self, axis: int, to: int, mm_per_min: int) -> int:
        """Where the probe is touched; it has to be off before, and on after. Raises CannotTouch."""
        way, length = self._way(axis, to)
        self._be_off("before it is sought")
        if not length:
            raise _NotTouched("less than a step is left for the touch")
        machine = self._made(lambda link: link.seek(way, str(mm_per_min), trimmed(length)))
        if machine.how != DONE:
            if self._is_at(axis, to):
                raise _NotTouched(f"{machine.how}: nothing more moves")
            raise CannotTouch(f"{machine.how}: nothing more moves")
        touched = nanometres(machine.touched.split()[axis])
        self._be_on(axis, touched)
        return touched

    def _retract(self, axis: int, begun: int, touched: int) -> None:
        """Goes back from a touch, no farther than to where it began; the probe has to be off there."""
        sign = 1 if touched > begun else -1
        free = touched - sign * self.how.retract_nm
        self.back(axis, max(begun, free) if sign > 0 else min(begun, free))
        self._be_off("behind a touch")

    def _way(self, axis: int, to: int) -> tuple[str, int]:
        """The way along an axis, as `X+`, and its length in nm, in whole steps, so that it goes no farther. Raises
        CannotTouch where that leaves the box."""
        low, high = self.box[axis]
        if not low <= to <= high:
            raise CannotTouch(f"{_AXES[axis]} {trimmed(to)} lies beyond what was said: nothing more moves")
        at, step = self.at(axis), self.step_nm[axis]
        return f"{_AXES[axis]}{'+' if to > at else '-'}", abs(to - at) // step * step

    def _made(self, begin: Callable[[Link], MoveAnswer]) -> MoveReport:
        """Makes a move, if nobody wants to hold. Raises CannotTouch."""
        if self.moves.session.face.interrupted():
            raise CannotTouch(_STOPPED)
        machine = self.moves.make(self.name, begin)
        if machine is None:
            raise CannotTouch(_STOPPED)
        return machine

    def _is_at(self, axis: int, to: int) -> bool:
        return abs(self.at(axis) - to) < self.step_nm[axis]

    def _be_there(self, axis: int, to: int, machine: MoveReport) -> None:
        """Raises CannotTouch where a move ended elsewhere."""
        if not self._is_at(axis, to):
            raise CannotTouch(f"{machine.how}: nothing more moves")

    def _be_off(self, when: str) -> None:
        """Raises CannotTouch where the probe is on."""
        for _ in range(_LOOKS):
            if self._is_on():
                raise CannotTouch(_IS_ON.format(when=when))
            time.sleep(_LOOK_S)

    def _be_on(self, axis: int, touched: int) -> None:
        """Raises CannotTouch where it doesn't come on."""
        for _ in range(_MOST_LOOKS):
            if self._is_on():
                return
            time.sleep(_LOOK_S)
        raise CannotTouch(_IS_OFF.format(axis=_AXES[axis], at=trimmed(touched)))

    def _is_on(self) -> bool:
        """Whether the probe is on now. Raises CannotTouch."""
        try:
            return PROBE in self.moves.session.meter.link.machine().on
        except NoAnswer as error:
            raise CannotTouch(str(error)) from None


class _NotTouched(CannotTouch):
    """The probe wasn't touched as far as it was sought."""
