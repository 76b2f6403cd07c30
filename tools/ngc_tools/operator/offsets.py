"""The offsets that make work coordinates of machine coordinates: origins, G92, the tool length in force. Each is read
from the device, and written by a line of G-code that is shown."""
import re
from collections.abc import Iterator
from dataclasses import dataclass, replace

from ngc_tools.formats.device import Device, State
from ngc_tools.formats.in_force import in_force_on
from ngc_tools.formats.position import nanometres
from ngc_tools.operator.causes import busy
from ngc_tools.operator.commands import BY_WORD
from ngc_tools.operator.face import REFUSED
from ngc_tools.operator.modes import SYSTEMS
from ngc_tools.operator.session import Session
from ngc_tools.operator.touch import (FAR_NM, Back, Point, Touch, axes_of, is_slot, length_in, origin_back, origin_line,
                                      origin_of)
from ngc_tools.operator.touching import CannotTouch
from ngc_tools.operator.units import Unit

_AXES = "XYZ"
_G92_FIRST = 5211
_WORDS = re.compile(r"(g[\d.]+)\s*(.*)", re.IGNORECASE)
_SLOT = re.compile(r"h\s*(\d+)", re.IGNORECASE)
_SAME = "that is so already: nothing is set"
_OTHER_TOOL = ("tool {tool} is in the spindle, by its last M6, and that is the length of tool {slot}\n"
               "yes takes it: ")
_STORED = "{system} has {point} stored, which counts once it is selected anew"
_NOT_BACK = "undo can't put {length} back: no slot has that length"


@dataclass(frozen=True, slots=True)
class OffsetChange:
    """What a line changes: the name of what is set, and of each number its axis, nothing for a length, and the value
    before and after, in nm."""

    name: str
    values: tuple[tuple[str, int, int], ...]

    @property
    def is_far(self) -> bool:
        """Whether one is by so much another one that it is asked."""
        return any(abs(now - before) > FAR_NM for _, before, now in self.values)

    def says(self, unit: Unit) -> str:
        """What it was, what it will be, and the difference."""
        return f"{self.name}: " + ", ".join(
            f"{axis} {unit.number(before)} to {unit.number(now)} {unit.value}, by".lstrip()
            + f" {'+' if now > before else ''}{unit.number(now - before)}" for axis, before, now in self.values)


def origins(device: Device) -> list[Point]:
    """The origin of each system: as it is in force, of the others as they are stored."""
    state = device.state
    return [state.origin_nm if system == state.system else origin_of(device, system)
            for system in range(1, len(SYSTEMS) + 1)]


def points(state: State, origins_nm: list[Point], at: Point) -> list[Point]:
    """A machine point in each system, with the G92 offset and the tool length that are in force."""
    in_force = in_force_on(state)
    sums = [tuple(one + other for one, other in zip(origin, state.g92_nm, strict=True)) for origin in origins_nm]
    return [replace(in_force, origin=(x, y, z)).to_program(at) for x, y, z in sums]


def stored_g92(device: Device) -> Point:
    """The stored G92 offset, which G92.3 takes."""
    return (device.parameters[_G92_FIRST], device.parameters[_G92_FIRST + 1], device.parameters[_G92_FIRST + 2])


def slots_of(device: Device, nm: int) -> list[int]:
    """The slots that have a length."""
    return [slot for slot, length in enumerate(device.tools_nm, 1) if length == nm]


def g92_line(in_force_nm: Point, stored_nm: Point) -> str:
    """The line that has a G92 offset in force, and one stored: another one only where none is in force. Parameters are
    millimetres under G20 too."""
    if not any(in_force_nm) and not any(stored_nm):
        return "G92.1"
    code, kept = ("G92.3", in_force_nm) if any(in_force_nm) else ("G92.2", stored_nm)
    return " ".join(f"#{index}={Unit.MM.number(nm)}" for index, nm in enumerate(kept, _G92_FIRST)) + f" {code}"


class Offsets:
    """What `offsets`, `offset` and `units` do."""

    def __init__(self, session: Session, touch: Touch) -> None:
        self.session, self.touch = session, touch

    # what is read

    def show(self) -> None:
        """Says all of them, and where the machine is by each system."""
        self.touch.said_why(self._show)

    def _show(self) -> None:
        """Raises CannotTouch."""
        device, status = self.touch.device(), self.session.console.status()
        x, y, z = map(nanometres, status.at)
        self.session.face.say("\n".join(self._lines(device, (x, y, z) if status.known else None)))

    def _lines(self, device: Device, at: Point | None) -> Iterator[str]:
        state, unit, found = device.state, self.session.unit, origins(device)
        there = points(state, found, at) if at else [None] * len(found)
        yield f"all in {unit.value}; the machine is at {_numbers(at, unit) if at else 'a place that is not known'}"
        for system, (origin, point) in enumerate(zip(found, there, strict=True), 1):
            here = f"  here {_numbers(point, unit)}" if point else ""
            in_force = "  in force" if system == state.system else ""
            yield f"{SYSTEMS[system - 1]:6} at {_numbers(origin, unit)}{here}{in_force}"
        if (kept := origin_of(device, state.system)) != state.origin_nm:
            yield _STORED.format(system=SYSTEMS[state.system - 1], point=_numbers(kept, unit))
        if any(state.g92_nm):
            yield f"G92 by {_numbers(state.g92_nm, unit)}, until the program's end"
        elif any(stored := stored_g92(device)):
            yield f"no G92 is in force; stored for G92.3 is {_numbers(stored, unit)}"
        yield f"tool length in force: {length_words(device, unit)}"

    # what is written

    def units(self, rest: str) -> None:
        """Chooses the unit of what is typed and shown."""
        word = rest.lower()
        if word in {unit.value for unit in Unit}:
            self.session.unit = Unit(word)
        elif word:
            self.session.face.say(BY_WORD["units"].usage, REFUSED)
            return
        self.session.face.say(f"units {self.session.unit.value}")

    def set(self, rest: str, anyway: bool) -> None:
        """Sets an origin, G92, or the tool length in force, as it is typed."""
        self.touch.said_why(lambda: self._set(rest, anyway))

    def _set(self, rest: str, anyway: bool) -> None:
        """Raises CannotTouch, NoLength."""
        match = _WORDS.fullmatch(rest)
        name, words = (match[1].upper(), match[2]) if match else ("", "")
        status, device = self.session.console.status(), self.touch.device()
        if status.half != "none" or status.does not in ("idle", "stopped"):
            raise CannotTouch(busy(self.session, status, "offset"))
        slot = _SLOT.fullmatch(words)
        if name in SYSTEMS and words:
            self._set_origin(device, SYSTEMS.index(name) + 1, self._axes(words, device.state), anyway)
        elif name == "G92" and words or name == "G92.1" and not words:
            self._set_g92(device, self._axes(words, device.state) if words else {0: 0, 1: 0, 2: 0}, anyway)
        elif name == "G49" and not words:
            self._set_length(device, 0, anyway)
        elif name == "G43" and slot and is_slot(slot[1]):
            self._set_length(device, int(slot[1]), anyway)
        else:
            raise CannotTouch(BY_WORD["offset"].usage)

    def _axes(self, words: str, state: State) -> dict[int, int]:
        """The lengths of axes, in nm. Raises CannotTouch, NoLength."""
        return axes_of(words, lambda text: self.session.unit.length(text, state.unit), "offset")

    def _set_origin(self, device: Device, system: int, wanted: dict[int, int], anyway: bool) -> None:
        """Of the system in force `ngc` takes all three axes anew, as they are stored."""
        before, stored = origins(device)[system - 1], origin_of(device, system)
        change = _change(SYSTEMS[system - 1], before, _with(stored, wanted))
        if self._is_wanted(change, anyway):
            self._put(change, origin_line(system, wanted, device.state.unit), origin_back(system, before))

    def _set_g92(self, device: Device, wanted: dict[int, int], anyway: bool) -> None:
        before, stored = device.state.g92_nm, stored_g92(device)
        after = _with(before, wanted)
        change = _change("G92", before, after)
        if self._is_wanted(change, anyway):
            back = Back("G92", lambda _: g92_line(before, stored), lambda now: now.state.g92_nm)
            self._put(change, g92_line(after, after), back)

    def _set_length(self, device: Device, slot: int, anyway: bool) -> None:
        """Takes the length of a slot; of slot 0 none. Raises CannotTouch."""
        before, lengths = device.state.tool_length_nm, length_in(device, slot) if slot else (0,)
        if not lengths:
            raise CannotTouch(f"tool {slot} has no length: measure it first")
        change = OffsetChange("the tool length in force", (("", before, lengths[0]),))
        if not (anyway or self._is_right_tool(slot, device)) or not self._is_wanted(change, anyway):
            return
        own = slots_of(device, before)[0] if before and slots_of(device, before) else 0
        self._put(change, f"G43 H{slot}" if slot else "G49",
                  Back(change.name, lambda _: f"G43 H{own}" if own else "G49",
                       lambda now: (now.state.tool_length_nm, *length_in(now, own))))
        if before and not own:
            self.touch.forget()
            self.session.face.say(_NOT_BACK.format(length=self.session.unit.shown(before)))

    def _is_right_tool(self, slot: int, device: Device) -> bool:
        """Whether no other tool is in the spindle, as far as `ngc` knows, or a person says that it is right."""
        question = _OTHER_TOOL.format(tool=device.slot, slot=slot)
        return not slot or device.slot in (0, slot) or self.touch.agrees(question)

    def _is_wanted(self, change: OffsetChange, anyway: bool) -> bool:
        """Says what it changes, and asks where that is far; whether it is done."""
        says = change.says(self.session.unit)
        if not change.values or all(before == now for _, before, now in change.values):
            self.session.face.say(f"{change.name}: {_SAME}", REFUSED)
            return False
        if change.is_far and not anyway:
            return self.touch.agrees(f"{says}\nyes sets it: ")
        self.session.face.say(says)
        return True

    def _put(self, change: OffsetChange, line: str, back: Back) -> None:
        """Sets it. Raises CannotTouch."""
        if self.touch.put(line, back):
            self.session.face.say(f"{change.name} is set. undo puts it back")


def length_words(device: Device, unit: Unit) -> str:
    """The tool length in force, and which slots have it: the device doesn't keep of which it was taken."""
    nm = device.state.tool_length_nm
    if not nm:
        return "none"
    slots = slots_of(device, nm)
    of = f"that of slot {' and '.join(map(str, slots))}" if slots else "no slot has it"
    return f"{unit.shown(nm)}, {of}"


def _numbers(nm: tuple[int, ...], unit: Unit) -> str:
    return " ".join(f"{axis}{unit.number(value)}" for axis, value in zip(_AXES, nm, strict=True))


def _with(nm: Point, wanted: dict[int, int]) -> Point:
    """A point with other numbers of some axes."""
    return wanted.get(0, nm[0]), wanted.get(1, nm[1]), wanted.get(2, nm[2])


def _change(name: str, before: Point, after: Point) -> OffsetChange:
    """What differs."""
    return OffsetChange(name, tuple((axis, was, now) for axis, was, now in zip(_AXES, before, after, strict=True)
                              if was != now))
