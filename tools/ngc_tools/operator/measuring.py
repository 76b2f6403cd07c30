"""A tool measured on the setter: over it by legs that the machine's file names, down to a height that is asked once and
kept, until it is touched, and back the same way. At a tool change the program waits for that."""
import json
import re
from collections.abc import Callable
from contextlib import suppress
from dataclasses import asdict, dataclass
from pathlib import Path

from ngc_tools.files import NotWritten, read_regular, write_new
from ngc_tools.formats.device import Device
from ngc_tools.formats.position import nanometres
from ngc_tools.operator.causes import reference_words
from ngc_tools.operator.commands import BY_WORD
from ngc_tools.operator.face import REFUSED, WARNING
from ngc_tools.operator.modes import point_words, trimmed
from ngc_tools.operator.moves import Moves
from ngc_tools.operator.numbers import length_of
from ngc_tools.operator.session import Session
from ngc_tools.operator.touch import Touch
from ngc_tools.operator.touching import CannotTouch, Touching

SUFFIX = ".measure"
_FROM = re.compile(r"from\s+(\S+)\s+within\s+(\S+)", re.IGNORECASE)
_NO_SETTER = "the machine's file doesn't say where its setter is: height_um and at_um in its [setter]"
_NO_TOOL = "no tool is in the spindle, by its last M6: T1 M6 first"
_ASKED_DOWN = ("Down to which machine Z, in mm, before the setter is sought? There the longest tool has to end above"
               " it. That is kept. Nothing ends: ")
_ASKED_WITHIN = ("By how many mm at most is it sought from there? A shorter tool than that isn't found, and nothing"
                 " goes deeper. That is kept. Nothing ends: ")
_MOST_NM = 300_000_000
_FASTEST_MM_MIN = 1500  # on the ways over the setter


@dataclass(frozen=True, slots=True)
class KeptHeights:
    """The machine Z from which the setter is sought, and how far down from there at most, in nm."""

    down_nm: int
    within_nm: int

    def fits(self, over_nm: int, low_nm: int) -> bool:
        """Whether it lies between the height at which the tool goes over and the travel's end."""
        return self.down_nm <= over_nm and 0 < self.within_nm <= _MOST_NM and self.down_nm - self.within_nm >= low_nm


class Measuring:
    """What `measure` does. `is_on`: each tool change of a program asks for it, where the setter is known."""

    def __init__(self, session: Session, moves: Moves, touch: Touch) -> None:
        self.session, self.moves, self.touch = session, moves, touch
        self.path = Path(str(session.console.device) + SUFFIX)
        self.is_on = True

    @property
    def can(self) -> bool:
        """Whether the machine's file says where the setter is."""
        setter = self.touch.setter
        return setter.height_nm is not None and setter.at_nm is not None and setter.has_probe

    def do(self, rest: str) -> None:
        """Does what is typed behind `measure`."""
        match = _FROM.fullmatch(rest)
        if match:
            self._said_why(lambda: self._keep(length_of(match[1]), length_of(match[2])) is not None)
        elif rest:
            self.session.face.say(BY_WORD["measure"].usage, REFUSED)
        elif self.moves.begins("measure"):
            self._said_why(lambda: self._measure("yes measures, anything else moves nothing: "))

    def switch(self, rest: str) -> None:
        """Whether each tool change asks for it, by what is typed behind `measures`."""
        if rest.lower() not in ("on", "off"):
            self.session.face.say(BY_WORD["measures"].usage, REFUSED)
            return
        self.is_on = rest.lower() == "on"
        self.session.face.say(f"measures {rest.lower()}")

    def at_change(self, slot: int) -> bool:
        """At a tool change of a program: asks whether the tool is measured. Returns whether it is."""
        question = f"{self._by_now(slot)}, and continue goes on with that\nyes measures, anything else waits: "
        return self._said_why(lambda: self._measure(question))

    def _said_why(self, what: Callable[[], bool]) -> bool:
        """What something returns; False, and why, where it can't be done."""
        try:
            return what()
        except CannotTouch as why:
            self.session.face.say(str(why), REFUSED)
            return False

    def _measure(self, question: str) -> bool:
        """Measures the tool in the spindle, once a person agrees; whether it is. Raises CannotTouch, before anything
        moves."""
        slot = self._slot()
        kept = self._kept()
        touching = self._touching(kept)
        begun = [touching.at(axis) for axis in range(3)]
        if not self.session.agrees(self._says(slot, kept, begun) + question):
            return False
        at = self._touched(touching, kept, begun)
        self.moves.tell()
        return at is not None and self.touch.measured(slot, at)

    def _slot(self) -> int:
        """The tool in the spindle, where all is known that is needed. Raises CannotTouch."""
        device = self.session.stored()
        if not self.can:
            raise CannotTouch(_NO_SETTER)
        if not isinstance(device, Device) or not self.moves.is_sure():
            raise CannotTouch(f"it isn't known where the machine stands: {reference_words(self.session)}")
        if not device.slot:
            raise CannotTouch(_NO_TOOL)
        return device.slot

    def _by_now(self, slot: int) -> str:
        device = self.session.stored()
        lengths = device.tools_nm[slot - 1:slot] if isinstance(device, Device) else []
        return f"it has {trimmed(lengths[0])} mm by now" if lengths else "it has no length"

    def _touching(self, kept: KeptHeights) -> Touching:
        """What makes the moves, within the ways there and back. Raises CannotTouch."""
        settings, report, over = self.session.settings, self.session.report(), self.touch.setter.at_nm
        if report is None or over is None:
            raise CannotTouch("nothing moves")
        at = [nanometres(number) for number in report.at.split()]
        ends = [(min(here, there), max(here, there)) for here, there in zip(at, over)]
        box = (*ends[:2], (min(ends[2][0], kept.down_nm - kept.within_nm), ends[2][1]))
        for (low, high), least, most in zip(box, settings.low_nm, settings.high_nm):
            if low < least or high > most:
                raise CannotTouch(f"the way to the setter leaves the travel: {trimmed(low)} to {trimmed(high)}")
        return Touching(self.moves, self.touch.setter.touches, settings.step_nm, box, "measure")

    def _says(self, slot: int, kept: KeptHeights, begun: list[int]) -> str:
        """What moves."""
        over = self.touch.setter.at_nm
        height = max(begun[2], over[2])
        return (f"measure tool {slot}: from machine {point_words(tuple(begun))} up to Z{trimmed(height)}, over to"
                f" X{trimmed(over[0])} and then to Y{trimmed(over[1])}, down to Z{trimmed(kept.down_nm)}, where the"
                f" setter is sought to Z{trimmed(kept.down_nm - kept.within_nm)} at most, and back the same way. No"
                " move leaves that; measure from Z within MM says it otherwise\n")

    def _touched(self, touching: Touching, kept: KeptHeights, begun: list[int]) -> int | None:
        """Where the setter was touched, once all is back; None, which is said, where something wasn't as it should."""
        over = self.touch.setter.at_nm
        height = max(begun[2], over[2])
        rate = min(_FASTEST_MM_MIN, self.session.settings.traverse_nm_per_min // 10**6)
        try:
            for axis, to in ((2, height), (0, over[0]), (1, over[1])):
                touching.go(axis, to, rate)
            touching.go(2, kept.down_nm)
            at = touching.touch(2, kept.down_nm - kept.within_nm)
            for axis, to in ((2, height), (1, begun[1]), (0, begun[0]), (2, begun[2])):
                touching.go(axis, to, rate)
        except CannotTouch as why:
            self.session.face.say(f"measure: {why}", WARNING)
            return None
        return at

    # what is asked once

    def _kept(self) -> KeptHeights:
        """Where the setter is sought, which is asked where nothing is kept. Raises CannotTouch."""
        kept = self._read()
        if kept is not None:
            return kept
        down = length_of(self.session.face.ask(_ASKED_DOWN).strip())
        within = None if down is None else length_of(self.session.face.ask(_ASKED_WITHIN).strip())
        return self._keep(down, within)

    def _keep(self, down: int | None, within: int | None) -> KeptHeights:
        """Keeps it. Raises CannotTouch where it isn't two numbers that can be gone."""
        over, low = self.touch.setter.at_nm, self.session.settings.low_nm[2]
        if over is None:
            raise CannotTouch(_NO_SETTER)
        kept = None if down is None or within is None else KeptHeights(down, within)
        if kept is None or not kept.fits(over[2], low):
            raise CannotTouch(f"nothing moves: from a machine Z of at most {trimmed(over[2])}, at_um of [setter], and"
                              f" from there not below {trimmed(low)}, where the travel ends")
        try:
            if self.path.exists() and self._read() is None:
                raise NotWritten(f"{self.path}: it isn't what is kept there, and isn't written over")
            write_new(self.path, json.dumps(asdict(kept)).encode(), (), self.path.exists())
        except (NotWritten, OSError) as error:
            raise CannotTouch(f"it can't be kept: {error}") from None
        self.session.face.say(f"kept: down to machine Z{trimmed(kept.down_nm)}, and {trimmed(kept.within_nm)} mm at"
                              " most from there")
        return kept

    def _read(self) -> KeptHeights | None:
        """What stands in the file, if it can be gone; None else."""
        over = self.touch.setter.at_nm
        with suppress(OSError, ValueError, TypeError):
            kept = KeptHeights(**json.loads(read_regular(self.path)))
            if (over is not None and type(kept.down_nm) is int and type(kept.within_nm) is int
                    and kept.fits(over[2], self.session.settings.low_nm[2])):
                return kept
        return None
