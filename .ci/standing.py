"""What a device stands for, and the events of some sessions with what each of them makes of that.

States are worked out by hand from the language and from docs/DEVICE.md, and read by tools/ngc_tools, which was written
from that page alone."""
import struct
import sys
from collections.abc import Callable, Iterable
from dataclasses import dataclass, replace
from functools import lru_cache

from mill import HERE, Wrong

sys.path.insert(0, f"{HERE}/tools")
from ngc_tools.formats.device import SECTOR, STATE, Device, NoDevice, State

OFF = "S 0 0.000000 0 0 0 0\n"
FORWARD, BACKWARD, UP = "P 1 0 0 50\n", "P -1 0 0 50\n", "P 0 0 1 50\n"
FIRST_LASTING = 5161
"""The parameters from this one on outlast a load: homes, the G92 offset, the system in force, origins."""
_NOT_HALF = {"half": 0, "opened": 0, "half_known": 0, "half_bytes": 0, "segment": 0, "half_point_nm": (0, 0, 0),
             "half_text": b""}


@dataclass(frozen=True)
class Standing:
    """What a device stands for: its state; the parameters that aren't 0, in millionths; its tools; its program."""

    state: State
    parameters: tuple[tuple[int, int], ...] = ((5220, 1_000_000),)
    tools_nm: tuple[int, ...] = ()
    program: bytes = b""

    def status(self) -> str:
        """How `status` is answered right after power on."""
        state = self.state
        at, known = (state.half_point_nm, state.half_known) if state.half_known else (state.point_nm, state.point_known)
        half = ("none", f"program {state.segment}", f"mdi {state.segment}")[state.half]
        point = " ".join(f"{'-' * (nm < 0)}{abs(nm) // 10**6}.{abs(nm) % 10**6:06d}" for nm in at)
        is_known = known and (not state.half or state.half_known)
        return (f"status entries {state.entries} place {state.place} at {point} {'known' if is_known else 'unknown'} "
                f"half {half} idle\n")


FRESH = Standing(State(
    entries=0, place=0, point_nm=(0, 0, 0), feed_nm_per_min=0, speed=0, g92_nm=(0, 0, 0), origin_nm=(0, 0, 0),
    tool_length_nm=0, kept_rzpq=(0, 0, 0, 0), motion=80, plane=17, distance=90, feed_mode=94, unit=21, retract=98,
    system=1, path_mode=2, spindle=0, mist=0, flood=0, overrides=1, point_known=1, kept=0, selected=0, slot=0,
    **_NOT_HALF))
"""A formatted device."""


def stands(image: bytes) -> Standing:
    """What a device stands for. Raises Wrong if it stands for nothing."""
    try:
        device = Device(image)
    except NoDevice as error:
        raise Wrong(f"the device isn't formatted: {error}") from None
    if device.damage:
        raise Wrong(f"the device is damaged: {device.damage}")
    if device.records:
        parameters = tuple((index, value) for index, value in sorted(device.parameters.items()) if value)
    else:
        first = SECTOR * (3 + 86 * (device.epoch % 2))
        parameters = _not_zero(image[first:first + 85 * SECTOR])
    return Standing(device.state, parameters, tuple(device.tools_nm), device.program)


def difference(found: Standing, wanted: Standing) -> str:
    """Where something else was found than is wanted, for people."""
    told = [f"{name} {getattr(found.state, name)}, not {getattr(wanted.state, name)}" for name in STATE
            if getattr(found.state, name) != getattr(wanted.state, name)]
    if found.state.half_text != wanted.state.half_text:
        told.append(f"the half-done line {found.state.half_text!r}, not {wanted.state.half_text!r}")
    changed = sorted(set(found.parameters) ^ set(wanted.parameters))
    if changed:
        told.append(f"parameters of which one side alone has {changed[:4]}")
    if found.tools_nm != wanted.tools_nm:
        told.append(f"tools of {found.tools_nm} nm, not {wanted.tools_nm}")
    if found.program != wanted.program:
        told.append(f"a program of {len(found.program)} bytes, not the one of {len(wanted.program)}")
    return "; ".join(told) or "nothing else"


@lru_cache(maxsize=64)
def _not_zero(values: bytes) -> tuple[tuple[int, int], ...]:
    """The parameters of a snapshot's sectors that aren't 0."""
    return tuple((index, value) for index, (value,) in enumerate(struct.iter_unpack("<q", values), 1) if value)


Change = Callable[[Standing], Standing]


@dataclass(frozen=True)
class Event:
    """An event: what is asked, what is answered if `n` entries were told before it, what it makes of what the device
    stands for, what it hands out, and how many writes, syncs and lines of OUT it makes."""

    asked: str
    answer: str
    changes: Change
    calls: int
    hands: str = ""

    def answered(self, entries: int) -> str:
        """The answer, where the device stands for this many entries before it."""
        return self.answer.format(done=entries + 1)


def nothing(before: Standing) -> Standing:
    """Nothing changes."""
    return before


def enters(place: int | None = None, parameters: dict[int, int] | None = None, **fields: object) -> Change:
    """An entry: these fields of the state and these parameters, and no half-done block; the next line is at `place`."""
    def change(before: Standing) -> Standing:
        state = replace(before.state, entries=before.state.entries + 1, **_NOT_HALF, **fields)
        kept = {**dict(before.parameters), **(parameters or {})}
        return replace(before, state=state if place is None else replace(state, place=place),
                       parameters=tuple(sorted((index, value) for index, value in kept.items() if value)))
    return change


def load(text: str) -> Event:
    """A program is stored. It sets the first parameters to 0. Each sector of its text is a write; then come 88 writes,
    two syncs, the header's write and its sync."""
    def change(before: Standing) -> Standing:
        kept = tuple((index, value) for index, value in before.parameters if index >= FIRST_LASTING)
        state = replace(before.state, entries=before.state.entries + 1, place=0)
        return replace(before, state=state, parameters=kept, program=text.encode())
    return Event(f"load {len(text)}\n{text}", "done {done}\n", change, (len(text) + 511) // 512 + 92)


def tick(change: Change, calls: int, answer: str = "", hands: str = "") -> Event:
    return Event("tick 1\n", f"{answer}ticks 1\n", change, calls, hands)


def opens(text: str, kind: int, segment: int = 0) -> Event:
    """A segment of a line is opened: the line is half done after a cut. The kind is 1 for a program's, 2 for an
    operator's."""
    def change(before: Standing) -> Standing:
        half = {**_NOT_HALF, "half": kind, "half_bytes": len(text), "segment": segment, "half_text": text.encode()}
        return replace(before, state=replace(before.state, **half))
    return tick(change, 2)


def hands(line: str) -> Event:
    """An item is handed out."""
    return tick(nothing, 1, hands=line)


def executes(calls: int = 2, place: int | None = None, parameters: dict[int, int] | None = None,
             **fields: object) -> Event:
    """A line is done."""
    return tick(enters(place, parameters, **fields), calls, "done {done}\n")


def mdi(line: str) -> Event:
    """A line of the operator is begun."""
    return Event(f"mdi {line}\n", "begun\n", nothing, 0)


def refused(asked: str, fault: str) -> Event:
    return Event(f"{asked}\n", f"refused {fault}\n", nothing, 0)


def tool(slot: int, nm: int) -> Event:
    """The length of a slot, which may be the one after the last."""
    def change(before: Standing) -> Standing:
        tools = [*before.tools_nm]
        tools[slot - 1:slot] = [nm]
        return replace(enters_beside(before), tools_nm=tuple(tools))
    return Event(f"tool {slot} {nm // 10**6}.{nm % 10**6:06d}\n", "done {done}\n", change, 2)


def enters_beside(before: Standing) -> Standing:
    """An entry that changes nothing of the state besides."""
    return replace(before, state=replace(before.state, entries=before.state.entries + 1))


def stands_at(x_nm: int) -> Change:
    """The machine's place within a half-done block becomes known."""
    def change(before: Standing) -> Standing:
        state = replace(before.state, entries=before.state.entries + 1, half_known=1, half_point_nm=(x_nm, 0, 0))
        return replace(before, state=state)
    return change


def reference(x_nm: int) -> Event:
    """The operator tells the machine's place within a half-done block, at Y0 and Z0."""
    return Event(f"reference 0.{x_nm:06d} 0 0\n", "done {done}\n", stands_at(x_nm), 2)


def approaches() -> Event:
    """The way back to a half-done line is opened, so that the machine's place isn't known after a cut."""
    return tick(lambda before: replace(before, state=replace(before.state, half_known=0, half_point_nm=(0, 0, 0))), 2)


def arrives(x_nm: int) -> Event:
    """The way back is over."""
    return tick(stands_at(x_nm), 2, "done {done}\n")


def going(asked: str) -> Event:
    return Event(f"{asked}\n", "going\n", nothing, 0)


BEGUN = tick(nothing, 0)
IDLE = tick(nothing, 0, "idle\n")
STOPPED = tick(nothing, 0, "stopped\n")
HELD = tick(nothing, 0, "held\n")
START, CONTINUE, RESUME = going("start"), going("continue"), going("resume")
HOLD = Event("hold\n", "held\n", nothing, 0)
ABANDON = Event("abandon\n", "done {done}\n", enters(point_known=0), 2)
RAPID = {"motion": 0}
"""After G0."""
ENDED = {"motion": 1}
"""After M2: of a fresh state G1 alone is another mode."""


def at(x_nm: int) -> dict[str, object]:
    """A rapid move has led to this X."""
    return {"point_nm": (x_nm, 0, 0), **RAPID}


def end_of_program() -> tuple[Event, ...]:
    """A program's last line, `M2`, and a tick with nothing to do."""
    return BEGUN, opens("M2", 1), hands(OFF), executes(place=0, **ENDED), IDLE


PROGRAM = "G0 X0.002\nM2\n"
STORED_AND_RUN = (
    load(PROGRAM), START, BEGUN, opens("G0 X0.002", 1), hands(FORWARD), hands(FORWARD), executes(place=10, **at(2000)),
    *end_of_program(),
)
LINES = "G0 X0.001\nG0 X0\nG0 X0.001\nG0 X0\nM2\n"
STORED_THREE_TIMES = load(PROGRAM), load("M30"), load(LINES)


def line_of(text: str, way: str, place: int, x_nm: int) -> tuple[Event, ...]:
    """A program's line of one pulse."""
    return BEGUN, opens(text, 1), hands(way), executes(place=place, **at(x_nm))


READ_AHEAD = (
    load(LINES), START, *line_of("G0 X0.001", FORWARD, 10, 1000), *line_of("G0 X0", BACKWARD, 16, 0),
    *line_of("G0 X0.001", FORWARD, 26, 1000), *line_of("G0 X0", BACKWARD, 32, 0), *end_of_program(),
)
BEFORE_A_CUT_OF_A_PROGRAM = load(PROGRAM), START, BEGUN, opens("G0 X0.002", 1), hands(FORWARD)
AFTER_A_CUT_OF_A_PROGRAM = (
    reference(1000), RESUME, approaches(), hands(OFF), hands(BACKWARD), arrives(0), opens("G0 X0.002", 1),
    hands(FORWARD), hands(FORWARD), executes(place=10, **at(2000)), *end_of_program(),
)
MOVES = "G0 X0.005"
BEFORE_A_CUT = mdi(MOVES), opens(MOVES, 2), *[hands(FORWARD)] * 5
AFTER_A_CUT = (
    refused("resume", "K3 PlaceUnknown"), refused("tool 1 0", "K1 Busy"), reference(0), RESUME, approaches(),
    hands(OFF), arrives(0), opens(MOVES, 2), *[hands(FORWARD)] * 5, executes(**at(5000)), IDLE,
)
GIVEN_UP = refused("tool 1 0", "K1 Busy"), ABANDON, tool(1, 0)
TOOLS = (
    tool(1, 5000), refused("tool 3 1", "B14 BadSlot"), mdi("G43 H1"), executes(tool_length_nm=5000), tool(1, 4000),
    mdi("G0 Z0.001"), opens("G0 Z0.001", 2), *[hands(UP)] * 6, executes(point_nm=(0, 0, 6000), **RAPID), IDLE,
)
STOPPING = "G0 X0.001\nM0\nG43 H1 G0 Z0\nM2\n"
TOOLS_OF_A_PROGRAM = (
    refused("tool 0 0", "B14 BadSlot"), refused("tool 2 -0.000001", "B14 BadSlot"),
    refused("tool 1 -0.000001", "E3 OutOfRange"), tool(1, 2000), refused("tool 2 1000.000001", "E3 OutOfRange"),
    # setting a length once more is an entry too
    tool(2, 10**9), tool(2, 10**9), load(STOPPING), START, refused("tool 1 0.003", "K1 Busy"), BEGUN,
    refused("tool 1 0.003", "K1 Busy"), opens("G0 X0.001", 1), HOLD, refused("tool 1 0.003", "K1 Busy"), HELD, CONTINUE,
    hands(FORWARD), executes(place=10, **at(1000)), BEGUN, executes(place=13), STOPPED,
    refused("tool 4 0.003", "B14 BadSlot"), refused("tool 1 -0.000001", "E3 OutOfRange"), tool(1, 3000), STOPPED,
    CONTINUE, BEGUN, opens("G43 H1 G0 Z0", 1), *[hands(UP)] * 3,
    executes(place=26, point_nm=(1000, 0, 3000), tool_length_nm=3000), *end_of_program(),
)


def filling_the_log() -> Iterable[Event]:
    """An entry in the log's first sector, and 510 moves back and forth. The last one is opened in the log's last
    sector, so that its entry writes everything anew: 90 writes and 3 syncs."""
    yield from (mdi("F100"), executes(feed_nm_per_min=100_000_000))
    for number in range(1, 511):
        line, way, x_nm = ("G0 X0.001", FORWARD, 1000) if number % 2 else ("G0 X0", BACKWARD, 0)
        yield from (mdi(line), opens(line, 2), hands(way), executes(93 if number == 510 else 2, **at(x_nm)))


def after(standing: Standing, events: Iterable[Event]) -> Standing:
    """What a device stands for after events, and a loss of power."""
    for event in events:
        standing = event.changes(standing)
    return standing
