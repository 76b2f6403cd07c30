"""What is in force on a device, compared with what was, and the lines that put it back. `ngc` decides of each line."""
from collections.abc import Iterator
from dataclasses import dataclass

from ngc_tools.formats.device import State
from ngc_tools.formats.position import millimetres

SYSTEMS = ("G54", "G55", "G56", "G57", "G58", "G59", "G59.1", "G59.2", "G59.3")
_PATHS = ("G61", "G61.1", "G64")
SPINDLE = ("M5", "M3", "M4")
_CODES = ("unit", "feed_mode", "plane", "distance", "retract", "system", "path_mode")


@dataclass(frozen=True, slots=True)
class Difference:
    """What of the state differs: a name, as `distance`, and how it was and is, for people."""

    name: str
    before: str
    now: str

    def __str__(self) -> str:
        return f"{self.now} ({self.before} before)"


def trimmed(millionths: int) -> str:
    """A count of millionths without the zeros at its end, as `7.21`."""
    return millimetres(millionths).rstrip("0").rstrip(".")


def point_words(nm: tuple[int, ...]) -> str:
    """Axis words, as `X1 Y-0.5 Z0`."""
    return " ".join(f"{axis}{trimmed(value)}" for axis, value in zip("XYZ", nm, strict=True))


def words_of(state: State) -> dict[str, str]:
    """What is in force, for people, by its name; a mode is shown by its code."""
    found = {name: f"G{getattr(state, name)}" for name in ("unit", "feed_mode", "plane", "distance", "retract")}
    coolant = [code for code, on in (("M7", state.mist), ("M8", state.flood)) if on]
    length = f"tool length {trimmed(state.tool_length_nm)} mm" if state.tool_length_nm else "no tool length"
    return found | {
        "system": SYSTEMS[state.system - 1], "path_mode": _PATHS[state.path_mode], "motion": f"G{state.motion}",
        "origin": f"{SYSTEMS[state.system - 1]} at {point_words(state.origin_nm)}",
        "g92": f"G92 by {point_words(state.g92_nm)}" if any(state.g92_nm) else "no G92",
        "tool_length": length, "feed": f"F{trimmed(state.feed_nm_per_min)} mm/min",
        "spindle": SPINDLE[state.spindle], "speed": f"S{trimmed(state.speed)}", "coolant": " ".join(coolant) or "M9",
        "tool": f"tool {state.slot} in the spindle" if state.slot else "no tool in the spindle",
        "selected": f"T{state.selected}", "cycle": _kept(state),
    }


def _kept(state: State) -> str:
    """What a cycle keeps for the lines after it."""
    words = [letter + trimmed(value) for bit, (letter, value) in enumerate(zip("RZPQ", state.kept_rzpq, strict=True))
             if state.kept >> bit & 1]
    return " ".join(words) + " of a cycle" if words else "no words of a cycle"


def differences(before: State, now: State) -> list[Difference]:
    """What is in force now and wasn't before."""
    was, found = words_of(before), words_of(now)
    if before.system != now.system:
        was["origin"] = found["origin"]  # the name of the system says it
    if before.motion != now.motion:
        was["cycle"] = found["cycle"]  # what it kept goes with it
    return [Difference(name, was[name], found[name]) for name in was if was[name] != found[name]]


@dataclass(frozen=True, slots=True)
class Restoring:
    """The `lines` that put back what was in force, and what they can't, for people."""

    lines: tuple[str, ...]
    left: tuple[str, ...]


def restoring(before: State, now: State, tools_nm: list[int]) -> Restoring:
    """How to put back what was in force before; `tools_nm` are the lengths of slots 1, 2 .. No line moves anything:
    where a motion mode is put back, it goes to where the machine stands."""
    names = {difference.name for difference in differences(before, now)}
    left = [text for name, text in _cannot(before, tools_nm) if name in names]
    lines = [*_in_millimetres(before, now, names, tools_nm), *_outputs(before, names)]
    return Restoring(tuple(lines), tuple(left))


def _cannot(before: State, tools_nm: list[int]) -> Iterator[tuple[str, str]]:
    """What no line puts back without a move, or without a person."""
    if before.motion not in (0, 1, 80):
        yield "motion", f"G{before.motion}: no line without a move puts it back"
    yield "cycle", "what a cycle kept: its next line has to name R and Z"
    if before.tool_length_nm and before.tool_length_nm not in tools_nm:
        yield "tool_length", f"a tool length of {trimmed(before.tool_length_nm)} mm: no slot has it"
    yield "tool", f"the tool: T{before.slot} M6"


def _in_millimetres(before: State, now: State, names: set[str], tools_nm: list[int]) -> Iterator[str]:
    """The lines whose numbers are millimetres, under G21 and G94, and then the modes as they were."""
    motion = "motion" in names and before.motion in (0, 1, 80)
    feeds = "feed" in names or motion and before.motion == 1
    unit, feed_mode = now.unit, now.feed_mode
    if now.unit == 20 and (feeds or motion or "origin" in names):
        unit = 21
        yield "G21"
    if now.feed_mode == 93 and feeds:
        feed_mode = 94
        yield "G94"
    yield from _offsets(before, names, tools_nm)
    if motion:
        at = f"X{millimetres(now.point_nm[0])}"
        yield {0: f"G53 G0 {at}", 1: f"F1 G53 G1 {at}", 80: "G80"}[before.motion]
    if feeds:
        yield f"F{trimmed(before.feed_nm_per_min)}"
    codes = words_of(before)
    here = {**words_of(now), "unit": f"G{unit}", "feed_mode": f"G{feed_mode}"}
    changed = [codes[name] for name in _CODES if codes[name] != here[name]]
    if changed:
        yield " ".join(changed)


def _offsets(before: State, names: set[str], tools_nm: list[int]) -> Iterator[str]:
    if "origin" in names:
        yield f"G10 L2 P{before.system} {point_words(before.origin_nm)}"
    if "g92" in names and not any(before.g92_nm):
        yield "G92.1"
    elif "g92" in names:
        stored = " ".join(f"#{index}={trimmed(nm)}" for index, nm in enumerate(before.g92_nm, 5211))
        yield f"{stored} G92.3"
    if "tool_length" in names and not before.tool_length_nm:
        yield "G49"
    elif "tool_length" in names and before.tool_length_nm in tools_nm:
        yield f"G43 H{tools_nm.index(before.tool_length_nm) + 1}"


def _outputs(before: State, names: set[str]) -> Iterator[str]:
    """Speed, spindle, coolant and the slot that is selected, in this order."""
    if "selected" in names:
        yield f"T{before.selected}"
    if "speed" in names:
        yield f"S{trimmed(before.speed)}"
    if "spindle" in names:
        yield SPINDLE[before.spindle]
    if "coolant" in names:
        yield "M9"
        yield from (code for code, on in (("M7", before.mist), ("M8", before.flood)) if on)
