"""Touch-off: a work zero and a tool's length from where the machine stands, and one step back.

`ngc` does each as a line of G-code, or a command, that is shown. What is in force is read from the device."""
import re
from collections.abc import Callable, Collection
from dataclasses import dataclass, replace

from ngc_tools.formats.device import Device, State
from ngc_tools.job.figures import millimetres as rounded
from ngc_tools.formats.in_force import in_force_on
from ngc_tools.ngc.console import Status
from ngc_tools.operator.causes import busy, reference_words, taken
from ngc_tools.operator.commands import BY_WORD
from ngc_tools.operator.face import REFUSED, WARNING, WHERE
from ngc_tools.operator.look import Look
from ngc_tools.operator.modes import SYSTEMS, point_words, trimmed
from ngc_tools.operator.moves import Moves
from ngc_tools.operator.numbers import length_of
from ngc_tools.operator.places import Places
from ngc_tools.operator.session import Session
from ngc_tools.operator.setter import Setter
from ngc_tools.operator.slots import fill_below
from ngc_tools.operator.touching import CannotTouch
from ngc_tools.operator.typed import ANYWAY
from ngc_tools.operator.units import NoLength

Point = tuple[int, int, int]

_AXES, _PROBE = "XYZ", "probe"
_STANDS = re.compile(r"tool\s+(?P<slot>[0-9]{1,3})(?:\s+work\s+(?P<work>\S+)|\s+(?P<height>(?!work\b)\S+))?\s*",
                     re.IGNORECASE)
"""What stands on what: a slot, and a coordinate of the work, or the setter's height where that is typed."""
_AXIS = re.compile(r"([xyz])\s*([-+.\d]*(?:mm|in)?)\s*", re.IGNORECASE)
_HEIGHT = ("at which machine Z does the bare spindle reach the setter's top? touch tool {slot} HEIGHT, or height_um of"
           " [setter] in the file of --machine")
_NOT_TOUCHED = "the probe wasn't touched since the machine moved last, or its place was used: seek Z- RATE within MM"
_NO_SETTER = ("the setter wasn't touched since the machine moved last, or its place was used: seek Z- RATE within MM,"
              " and then touch tool {slot}; touch tool {slot} anyway takes the machine's Z as it is")
FAR_NM = 5_000_000
"""By so much a zero or a length may be another one than before, unasked."""
_OTHER_TOOL = ("the probe was touched with {then} in the spindle, and there is {now} now: seek Z- RATE within MM again,"
               " or without the word probe from where the machine stands")


@dataclass(frozen=True, slots=True)
class Back:
    """What `undo` puts back: what `command` says for a unit does, 21 or 20, as long as what `read` finds on the device
    is `now`, as it was set."""

    name: str
    command: Callable[[int], str]
    read: Callable[[Device], tuple[int, ...]]
    now: tuple[int, ...] = ()


def axes_of(text: str, length: Callable[[str], int], word: str = "zero") -> dict[int, int]:
    """What `zero` is told, or another word: axes, and the coordinate in nm that each is to have. `length` reads one,
    that of an axis without a number is nothing. Raises CannotTouch, and what `length` raises."""
    found: dict[int, int] = {}
    at = 0
    while match := _AXIS.match(text, at):
        axis, at = _AXES.index(match[1].upper()), match.end()
        if axis in found:
            raise CannotTouch(f"{match[1].upper()} stands twice")
        found[axis] = length(match[2])
    if not found or at < len(text):
        raise CannotTouch(BY_WORD[word].usage)
    return found


def origin_of(device: Device, system: int) -> Point:
    """The origin of a coordinate system, by the parameters, in nm."""
    first = 5221 + 20 * (system - 1)
    return device.parameters[first], device.parameters[first + 1], device.parameters[first + 2]


def origin_line(system: int, origin_nm: dict[int, int], unit: int) -> str:
    """The line that sets axes of a system's origin to machine points. Under G20 the parameters take the numbers, since
    these are millimetres always."""
    axes = sorted(origin_nm.items())
    if unit == 21:
        return f"G10 L2 P{system} " + " ".join(f"{_AXES[axis]}{trimmed(nm)}" for axis, nm in axes)
    first = 5221 + 20 * (system - 1)
    return " ".join(f"#{first + axis}={trimmed(nm)}" for axis, nm in axes) + f" G10 L2 P{system}"


def origin_back(system: int, origin_nm: Point) -> Back:
    """What puts back the origin of a system, that was in force or stored."""
    before = dict(enumerate(origin_nm))
    return Back(SYSTEMS[system - 1], lambda unit: origin_line(system, before, unit),
                lambda device: origin_of(device, system))


def length_in(device: Device, slot: int) -> tuple[int, ...]:
    """The length of a slot in nm; nothing where the table has no such slot."""
    return tuple(device.tools_nm[slot - 1:slot])


class Touch:
    """What `zero`, `touch` and `undo` do. `setter_nm` is the machine Z at which a tool of length 0 would touch the
    setter, None if nobody said it. `has_probe` says that the machine has an input for it, so that a setter that wasn't
    touched is none."""

    def __init__(self, session: Session, places: Places, moves: Moves,
                 line_done: Callable[[str, bool], str | None]) -> None:
        """`line_done` does a line of G-code; it returns None where that wasn't taken."""
        self.session, self.places, self.moves, self.line_done = session, places, moves, line_done
        self.setter_nm: int | None = None
        self.has_probe = False
        self.setter = Setter()
        self._back: Back | None = None

    def know(self, setter: Setter) -> None:
        """Takes what the machine's file says."""
        self.setter, self.setter_nm, self.has_probe = setter, setter.height_nm, setter.has_probe

    @property
    def undoes(self) -> str:
        """What `undo` would do; nothing where nothing is to be put back."""
        return self._back.command(21) if self._back else ""

    def zero(self, rest: str, anyway: bool) -> None:
        """Makes the point where the machine stands X0, Y0, Z0, or what is typed, of the system in force."""
        self.said_why(lambda: self._zero(rest, anyway))

    def tool(self, rest: str, anyway: bool) -> None:
        """Gives a slot the length of the tool that stands on the setter."""
        self.said_why(lambda: self._tool(rest, anyway))

    def undo(self) -> None:
        """Puts back what the last `zero` or `touch` set, once."""
        self.said_why(self._undo)

    def said_why(self, what: Callable[[], None]) -> None:
        """Does something; where it can't be done, says why."""
        try:
            what()
        except (CannotTouch, NoLength) as why:
            self.session.face.say(str(why), REFUSED)

    def _zero(self, rest: str, anyway: bool) -> None:
        """Raises CannotTouch, NoLength."""
        status, device = self._found()
        named, by_probe = _parted(rest)
        wanted = axes_of(named, lambda text: self.session.unit.length(text, device.state.unit) if text else 0)
        at = self._at("zero", status, device, by_probe)
        if not anyway and not self.places.agree(status, f"zero {rest} {ANYWAY}"):
            return
        if 2 in wanted:
            self.session.face.say(_tip(device.state), WHERE)
        for text in _dangers(device, wanted):
            self.session.face.say(text, WARNING)
        here = in_force_on(device.state).to_program(at)
        origin = {axis: device.state.origin_nm[axis] + here[axis] - nm for axis, nm in wanted.items()}
        if not anyway and (question := _far_zero(device.state, origin)) and not self.agrees(question):
            return
        if self._set_origin(device, origin):
            self._use_up(by_probe)

    def zero_at(self, at: dict[int, int], name: str) -> None:
        """Asks whether the machine coordinates of some axes, in nm, become 0 of the system in force; `name` is what was
        found there. Raises CannotTouch where nothing can be set."""
        status, device = self._found()
        here = self._at("probe", status, device, False)
        x, y, z = (at.get(axis, nm) for axis, nm in enumerate(here))
        work = in_force_on(device.state).to_program((x, y, z))
        for text in _dangers(device, list(at)):
            self.session.face.say(text, WARNING)
        names = " ".join(f"{_AXES[axis]}0" for axis in sorted(at))
        where = " ".join(f"{_AXES[axis]}{trimmed(nm)}" for axis, nm in sorted(at.items()))
        if self.agrees(f"{name}: machine {where}\nyes makes it {names} of {SYSTEMS[device.state.system - 1]},"
                        " anything else leaves the zero: "):
            self._set_origin(device, {axis: device.state.origin_nm[axis] + work[axis] for axis in at})

    def _set_origin(self, device: Device, origin: dict[int, int]) -> bool:
        """Sets axes of the origin of the system in force, and says it; whether that was taken."""
        state = device.state
        if not self.put(origin_line(state.system, origin, state.unit), origin_back(state.system, state.origin_nm)):
            return False
        self.say_back(point_words(self.device().state.origin_nm), point_words(state.origin_nm))
        return True

    def put(self, line: str, back: Back) -> bool:
        """Does a line that sets something, and keeps what puts it back; whether it was taken. Raises CannotTouch."""
        if not self._line(line):
            return False
        self._back = replace(back, now=back.read(self.device()))
        Look(self.session).after_work()
        return True

    def forget(self) -> None:
        """What was set last can't be put back."""
        self._back = None

    def _tool(self, rest: str, anyway: bool) -> None:
        """Raises CannotTouch."""
        named, by_probe = _parted(rest)
        match = _STANDS.fullmatch(named)
        if match is None:
            raise CannotTouch(BY_WORD["touch"].usage)
        slot, on_work, (status, device) = int(match["slot"]), match["work"], self._found()
        height = self._work(on_work, device.state) if on_work else self._height(slot, match["height"])
        if status.does not in ("idle", "stopped"):
            raise CannotTouch(busy(self.session, status, "touch"))
        is_on_setter = self.has_probe and not on_work and not anyway
        if is_on_setter and self.moves.touched_now() is None:
            raise CannotTouch(_NO_SETTER.format(slot=slot))
        by_probe = by_probe or is_on_setter
        _, _, z = self._at("touch", status, device, by_probe)
        if not anyway and not (self.places.agree(status, f"touch {rest} {ANYWAY}") and self._is_in(slot, device)):
            return
        what = "the probe was touched at machine Z" if by_probe else "machine Z is"
        self.session.face.say(f"{what} {trimmed(z)}, and the work there is at {trimmed(height)}" if on_work else
                              f"{what} {trimmed(z)}, and the setter's top is at {trimmed(height)}", WHERE)
        before = length_in(device, slot)
        question = _far_length(slot, z - height, before, by_probe, bool(on_work))
        if not anyway and question and not self.agrees(question):
            return
        self._set_length(slot, z - height, before, by_probe)

    def measured(self, slot: int, at: int) -> bool:
        """Gives a slot the length by which a tool touched the setter at a machine Z in nm, which is asked where that is
        far from the one before; whether it has it now. Raises CannotTouch."""
        if self.setter_nm is None:
            raise CannotTouch(_HEIGHT.format(slot=slot))
        before = length_in(self.device(), slot)
        nm = at - self.setter_nm
        self.session.face.say(f"the setter was touched at machine Z {trimmed(at)}, and its top is at"
                              f" {trimmed(self.setter_nm)}", WHERE)
        if (question := _far_length(slot, nm, before, True, False)) and not self.agrees(question):
            return False
        self._set_length(slot, nm, before, False)
        return length_in(self.device(), slot) == (nm,)

    def _set_length(self, slot: int, nm: int, before: tuple[int, ...], by_probe: bool) -> None:
        """Gives a slot its length; it had that `before`, or none."""
        command = f"tool {slot} {trimmed(nm)}"
        fill_below(self.session, slot, nm)
        self.session.face.say(command)
        if not taken(self.session, self.session.console.ask(command)[0], command):
            return
        self._use_up(by_probe)
        back = f"tool {slot} {trimmed(before[0] if before else 0)}"
        self._back = Back(f"tool {slot}", lambda _: back, lambda device: length_in(device, slot), (nm,))
        self.say_back(trimmed(nm), trimmed(before[0]) if before else "no slot")
        self.session.face.say(f"G43 H{slot} takes it; a length that is in force stays until then", WHERE)

    def _undo(self) -> None:
        """Raises CannotTouch."""
        back = self._back
        if back is None:
            raise CannotTouch("nothing to undo: it takes back the last zero, touch or offset, once")
        device = self.device()
        command = back.command(device.state.unit)
        if back.read(device) != back.now:
            raise CannotTouch(f"{back.name} isn't any more what was set: nothing is done. {command} puts back what was"
                              " before")
        if command.startswith("tool"):
            self.session.face.say(command)
            is_done = taken(self.session, self.session.console.ask(command)[0], command)
        elif is_done := self._line(command):
            Look(self.session).after_work()
        self._back = None if is_done else back

    def _line(self, text: str) -> bool:
        """Does a line, and shows it; whether it was taken."""
        self.session.face.say(text)
        return self.line_done(text, True) is not None

    def say_back(self, now: str, before: str) -> None:
        """Says what was set, and that it can be put back."""
        self.session.face.say(f"{self._back.name}: {now} ({before} before). undo puts it back", WHERE)

    def _found(self) -> tuple[Status, Device]:
        """How `ngc` stands, at rest or not."""
        return self.session.console.status(), self.device()

    def device(self) -> Device:
        """What stands on the device. Raises CannotTouch."""
        device = self.session.stored()
        if not isinstance(device, Device):
            raise CannotTouch("the device can't be read: nothing is known of the offsets")
        return device

    def _at(self, word: str, status: Status, device: Device, by_probe: bool) -> Point:
        """The machine point in nm, for a command, or that at which the probe was touched. Raises CannotTouch where it
        isn't known, or within a block."""
        if status.half != "none":
            raise CannotTouch(busy(self.session, status, word))
        if not status.known:
            raise CannotTouch(f"it isn't known where the machine stands: {reference_words(self.session)}")
        if not by_probe:
            return device.state.point_nm
        touched, now = self.moves.touched, self.moves.touched_now()
        if touched and touched.slot != device.slot:
            raise CannotTouch(_OTHER_TOOL.format(then=_tool(touched.slot), now=_tool(device.slot)))
        if now is None:
            raise CannotTouch(_NOT_TOUCHED)
        return now.point_nm

    def _use_up(self, by_probe: bool) -> None:
        """The place where the probe was touched is used once."""
        if by_probe:
            self.moves.touched = None

    def agrees(self, question: str) -> bool:
        """Whether a person wants it; says that nothing is set where not."""
        agrees = self.session.agrees(question)
        if not agrees:
            self.session.face.say("nothing is set")
        return agrees

    def _height(self, slot: int, typed: str | None) -> int:
        """The setter's height in nm, which may be typed. Raises CannotTouch."""
        height = self.setter_nm if typed is None else length_of(typed)
        if height is None:
            raise CannotTouch(_HEIGHT.format(slot=slot) if typed is None else f"not a number: {typed}")
        return height

    def _work(self, typed: str, state: State) -> int:
        """The machine Z, in nm, at which a tool of length 0 would stand on the work where that has a Z coordinate, by
        the offsets in force. Raises NoLength."""
        return in_force_on(state).origin[2] + self.session.unit.length(typed, state.unit)

    def _is_in(self, slot: int, device: Device) -> bool:
        """Whether no other tool is in the spindle, as far as `ngc` knows, or a person says that it is right."""
        return device.slot in (0, slot) or self.session.agrees(
            f"tool {device.slot} is in the spindle, by its last M6. yes gives slot {slot} the length: ")


def _parted(rest: str) -> tuple[str, bool]:
    """What stands before the word `probe`, and whether that stands at the end."""
    *named, last = rest.split() or [""]
    return (" ".join(named), True) if last.lower() == _PROBE else (rest, False)


def _tool(slot: int | None) -> str:
    return f"tool {slot}" if slot else "no tool"


def is_slot(text: str) -> bool:
    """Whether a text is a number that a slot may have."""
    return text.isascii() and text.isdecimal() and len(text) < 4


def _far_zero(state: State, origin_nm: dict[int, int]) -> str:
    """What is asked where an axis's zero would be far from the one before; nothing where none is."""
    ways = {axis: abs(nm - state.origin_nm[axis]) for axis, nm in sorted(origin_nm.items())}
    far = {axis: nm for axis, nm in ways.items() if nm > FAR_NM}
    if not far:
        return ""
    moves = " and ".join(f"{_AXES[axis]} by {rounded(nm)} mm" for axis, nm in far.items())
    at = " ".join(f"{_AXES[axis]}{trimmed(nm)}" for axis, nm in sorted(origin_nm.items()))
    was = " ".join(f"{_AXES[axis]}{trimmed(state.origin_nm[axis])}" for axis in sorted(origin_nm))
    return f"the zero of {SYSTEMS[state.system - 1]} would move in {moves}: to machine {at} from {was}\nyes moves it: "


def _far_length(slot: int, nm: int, before: tuple[int, ...], by_probe: bool, is_on_work: bool) -> str:
    """What is asked where a length would be far from the one before, or is the first one, of a setter or a work that
    nothing says was touched; nothing else."""
    if not before and is_on_work:
        return "" if by_probe else (f"tool {slot} has no length yet, and gets {trimmed(nm)} mm if it stands on the"
                                    " work now\nyes sets it: ")
    if not before:
        return "" if by_probe else (f"tool {slot} has no length yet, and gets {trimmed(nm)} mm if it stands on the"
                                    " setter now\nyes sets it: ")
    if abs(nm - before[0]) <= FAR_NM:
        return ""
    differs = f"{rounded(abs(nm - before[0]))} mm {'longer' if nm > before[0] else 'shorter'}"
    return f"tool {slot} has {trimmed(before[0])} mm, and would get {trimmed(nm)} mm, {differs}\nyes sets it: "


def _tip(state: State) -> str:
    """What of the tool Z is that of."""
    if not state.tool_length_nm:
        return "Z is that of a tool of length 0: no tool length is in force"
    return f"Z is that of the tool's tip, by the tool length in force, {trimmed(state.tool_length_nm)} mm"


def _dangers(device: Device, wanted: Collection[int]) -> list[str]:
    """What moves the zero point of these axes later."""
    state, said = device.state, []
    if any(state.g92_nm[axis] for axis in wanted):
        said.append(f"a G92 offset is in force, {point_words(state.g92_nm)}, and is allowed for. The program's end, M2"
                    " or M30, drops it, and the zero point moves by it: G92.1 first, then zero, does without it")
    tool = length_in(device, state.slot) if 2 in wanted and state.slot else ()
    if tool and tool[0] != state.tool_length_nm:
        said.append(f"tool {state.slot}, in the spindle, is {trimmed(tool[0])} mm long: Z0 moves once G43 H{state.slot}"
                    f" takes that. G43 H{state.slot} first, then zero, does without it")
    return said
