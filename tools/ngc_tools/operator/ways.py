"""Ways of each day, as lines of G-code that are shown and done: above the work's zero, and to the park, Z up first."""
from collections.abc import Callable
from decimal import ROUND_DOWN, Decimal

from ngc_tools.formats.device import Device
from ngc_tools.formats.in_force import in_force_on
from ngc_tools.ngc.console import Status
from ngc_tools.operator.causes import busy, reference_words
from ngc_tools.operator.face import REFUSED, WARNING
from ngc_tools.operator.left import Left
from ngc_tools.operator.look import Look
from ngc_tools.operator.modes import trimmed
from ngc_tools.operator.session import Session
from ngc_tools.operator.setter import Setter

_INCH_NM = 25_400_000
_MILLIONTH = Decimal("0.000001")  # of an inch, as fine as `ngc` reads; towards 0, so that no travel is left by it
_NO_PARK = "the machine's file doesn't say where X and Y are homed: at_um in its [home], which the park is"


class Ways:
    """What `above` and `park` do. Z goes up first: to where the machine's file homes it, else to the travel's end."""

    def __init__(self, session: Session, left: Left, line_done: Callable[[str, bool], str | None]) -> None:
        """`line_done` does a line of G-code; it returns None where that wasn't taken."""
        self.session, self.left, self.line_done = session, left, line_done
        self.home_nm: tuple[int | None, ...] = (None, None, None)

    def know(self, setter: Setter) -> None:
        """Takes what the machine's file says."""
        self.home_nm = setter.home_nm

    def above(self) -> None:
        """Goes above X0 Y0 of the work, by the offsets in force."""
        device = self._begins("above")
        if device:
            x, y, _ = in_force_on(device.state).to_program((0, 0, 0))
            self._do([self._up(device), self._line(device, X=-x, Y=-y)])

    def park(self) -> None:
        """Switches spindle and coolant off, and goes to where X and Y are homed."""
        x, y, _ = self.home_nm
        if x is None or y is None:
            self.session.face.say(_NO_PARK, REFUSED)
            return
        device = self._begins("park")
        if device:
            state = device.state
            off = ["M5"] * bool(state.spindle) + ["M9"] * bool(state.mist or state.flood)
            self._do([*off, self._up(device), self._line(device, X=x, Y=y)])

    def _begins(self, word: str) -> Device | None:
        """The device, where a line may be done, and it is known where the machine stands; else None, which is said."""
        status, device = self.session.console.status(), self.session.stored()
        why = self._why_not(word, status)
        if why or not isinstance(device, Device):
            self.session.face.say(why or "the device can't be read", REFUSED)
            return None
        return device

    def _why_not(self, word: str, status: Status) -> str:
        if status.half != "none" or status.does not in ("idle", "stopped"):
            return busy(self.session, status, word)
        return "" if status.known else f"it isn't known where the machine stands: {reference_words(self.session)}"

    def _up(self, device: Device) -> str:
        """The line by which Z goes up; nothing where it is higher already."""
        return self._line(device, Z=self.top_nm) if device.state.point_nm[2] < self.top_nm else ""

    @property
    def top_nm(self) -> int:
        """The machine Z up to which it goes."""
        return self.session.settings.high_nm[2] if self.home_nm[2] is None else self.home_nm[2]

    @staticmethod
    def _line(device: Device, **to_nm: int) -> str:
        """A traverse to machine coordinates, in the unit that is in force."""
        is_inch = device.state.unit == 20
        inches = {axis: Decimal(nm) / _INCH_NM for axis, nm in to_nm.items()}
        numbers = {axis: str(inches[axis].quantize(_MILLIONTH, ROUND_DOWN)) if is_inch else trimmed(nm)
                   for axis, nm in to_nm.items()}
        return "G53 G0 " + " ".join(f"{axis}{number}" for axis, number in numbers.items())

    def _do(self, lines: list[str]) -> None:
        """Shows each line, and does it; after one that isn't taken, or is held, none follows."""
        for line in filter(None, lines):
            self.session.face.say(line)
            if self.line_done(line, False) not in ("idle", "stopped"):
                self.session.face.say("nothing more moves", WARNING)
                return
        Look(self.session).after_work()
        self.left.tell_modes()
