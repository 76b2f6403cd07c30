"""The shapes of tools as a person tells them, and of the probe's slot how wide its ball is, which is asked once."""
import re
from dataclasses import dataclass

from ngc_tools.files import NotWritten
from ngc_tools.formats.device import SLOTS
from ngc_tools.operator.commands import BY_WORD
from ngc_tools.operator.face import REFUSED
from ngc_tools.operator.modes import trimmed
from ngc_tools.operator.numbers import length_of
from ngc_tools.operator.session import Session
from ngc_tools.operator.setter import Probe
from ngc_tools.operator.tool_shapes import BadShapes, Shape, ToolShapes
from ngc_tools.operator.touching import CannotTouch

_FORM = re.compile(r"(\d{1,3})\s+(?:(none)|(\S+)\s+(flat|ball|v)(?:\s+(\d{1,3}(?:\.\d{1,6})?))?)", re.IGNORECASE)
_ASKED = "How wide is the ball of the probe, tool {slot}, in mm? The tool table keeps that. Nothing ends: "
_NO_WIDTH = "nothing moves: the ball of the probe is wider than 0 mm, and at most 100"
_IS_V = "tool {slot}, the probe, is a V by the tool table, and no ball: give it the ball's diameter there"
_DIFFER = ("the ball of the probe, tool {slot}, is {table} mm wide by the tool table, and {file} mm by probe_radius_um"
           " of the machine's file: correct the wrong one, or take that line out of the file")
_WIDEST_NM = 100_000_000


@dataclass(frozen=True, slots=True)
class Ball:
    """How wide the probe's ball is, in nm, None where nobody said it; or why that can't be used."""

    diameter_nm: int | None
    wrong: str = ""


class Shapes:
    """What `shape` does, and what probing asks."""

    def __init__(self, session: Session) -> None:
        self.session, self.kept = session, ToolShapes(session.console.settings)

    def do(self, rest: str) -> None:
        """Keeps the shape that is typed behind `shape`, or shows all."""
        try:
            if rest:
                self._keep(rest)
            self._show()
        except (BadShapes, CannotTouch) as why:
            self.session.face.say(str(why), REFUSED)

    def ball(self, probe: Probe) -> Ball:
        """The ball of the probe, by the tool table, else by the machine's file."""
        try:
            shape = self.kept.read().get(probe.slot)
        except BadShapes as why:
            return Ball(None, str(why))
        by_file = None if probe.radius_nm is None else 2 * probe.radius_nm
        if shape is None:
            return Ball(by_file)
        if shape.tip == "v":
            return Ball(None, _IS_V.format(slot=probe.slot))
        if by_file not in (None, shape.diameter_nm):
            return Ball(None, _DIFFER.format(slot=probe.slot, table=trimmed(shape.diameter_nm), file=trimmed(by_file)))
        return Ball(shape.diameter_nm)

    def radius(self, probe: Probe) -> int:
        """The radius of the probe's ball in nm, which is asked where nobody said it. Raises CannotTouch."""
        ball = self.ball(probe)
        if ball.wrong:
            raise CannotTouch(ball.wrong)
        diameter = self._asked(probe.slot) if ball.diameter_nm is None else ball.diameter_nm
        return diameter // 2

    def _asked(self, slot: int) -> int:
        """How wide a person says that it is, which is kept. Raises CannotTouch."""
        nm = length_of(self.session.face.ask(_ASKED.format(slot=slot)).strip())
        if nm is None or not 0 < nm <= _WIDEST_NM:
            raise CannotTouch(_NO_WIDTH)
        self._write(slot, Shape(nm, "ball"))
        self.session.face.say(_said(slot, Shape(nm, "ball")))
        return nm

    def _keep(self, typed: str) -> None:
        """Raises CannotTouch."""
        match = _FORM.fullmatch(typed)
        slot, shape = int(match[1]) if match else SLOTS + 1, None
        if match and not match[2]:
            shape = Shape(length_of(match[3]) or 0, match[4].lower(), float(match[5] or 0))
        if slot > SLOTS or shape is not None and not shape.is_one:
            raise CannotTouch(BY_WORD["shape"].usage)
        self._write(slot, shape)

    def _write(self, slot: int, shape: Shape | None) -> None:
        """Raises CannotTouch."""
        try:
            self.kept.keep(slot, shape)
        except (BadShapes, NotWritten, OSError) as error:
            raise CannotTouch(f"it can't be kept: {error}") from None

    def _show(self) -> None:
        """Raises BadShapes."""
        lines = [_said(slot, shape) for slot, shape in self.kept.read().items()]
        self.session.face.say("\n".join(lines) or "no tool has a shape")


def _said(slot: int, shape: Shape) -> str:
    """A shape, for people."""
    angle = f" {shape.angle_deg:g}" if shape.tip == "v" else ""
    return f"T{slot}: {trimmed(shape.diameter_nm)} mm {shape.tip}{angle}"
