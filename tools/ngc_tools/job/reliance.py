"""What a program relies on and doesn't set: with something else before it, or at a stop, a line prints otherwise."""
from collections.abc import Iterator
from dataclasses import dataclass

from ngc_tools.formats.position import millimetres as exact
from ngc_tools.job.danger import Danger
from ngc_tools.job.figures import millimetres
from ngc_tools.job.moves import Point
from ngc_tools.job.printed import Act, Printed, Run, by_line
from ngc_tools.job.refused import Lines

_NUDGE_NM = 1000
_STOPS = ("PROGRAM_STOP", "OPTIONAL_PROGRAM_STOP")


@dataclass(frozen=True, slots=True)
class _Mode:
    """A group of modes: its name, its codes, and how to write them for people."""

    name: str
    codes: tuple[int, ...]
    write: str


_MODES = (
    _Mode("the unit", (21, 20), "G20 or G21"),
    _Mode("the distance mode", (90, 91), "G90 or G91"),
    _Mode("the plane", (17, 18, 19), "G17, G18 or G19"),
    _Mode("the way that cycles end", (98, 99), "G98 or G99"),
)
_MOTION = _Mode("the motion mode", (80,), "G0 or G1")  # after G80 a line that relies on one is refused


def modes(lines: Lines, printed: Printed, run: Run, begun: tuple[int, ...]) -> Iterator[Danger]:
    """Modes that the program begins with and doesn't set. `begun` are those in force before it, of each group one."""
    for mode, now in zip(_MODES, begun, strict=True):
        other = next(code for code in mode.codes if code != now)
        # machine 0 has other coordinates then, so that 0 absolute isn't 0 incremental
        shift = b"G92 X0.001 Y0.001 Z0.001\n" if 91 in mode.codes else b""
        base = by_line(lines, run, shift) if shift else printed
        if len(base) < len(printed):  # the shift alone is refused, at the edge of the travel
            shift, base = b"", printed
        changed = by_line(lines, run, shift + b"G%d\n" % other)
        first = _first_other(base, changed)
        if first is None:
            continue
        text = (f"relies on {mode.name}: the dry run begins with G{now}, ngc run goes on with what the last block left;"
                f" write {mode.write} before it")
        if any(command.name == "USE_LENGTH_UNITS" for command in base[first]):
            text += ", on a line of its own: F is read in the unit before that of its line"
        yield Danger(first, "mode", text)


def motion(lines: Lines, printed: Printed, run: Run) -> Iterator[Danger]:
    """A motion mode that the program begins with and doesn't set."""
    first = _first_other(printed, by_line(lines, run, b"G80\n"))
    if first is not None:
        yield Danger(first, "mode", f"relies on {_MOTION.name}, which is what the last block left on the device; write"
                     f" {_MOTION.write} before it")


def after_stops(lines: Lines, printed: Printed, run: Run) -> Iterator[Danger]:
    """Modes that the program goes on with after a stop, where an operator may have typed others."""
    stops = [number for number, commands in printed.items() if any(command.name in _STOPS for command in commands)]
    if not stops:
        return
    found: dict[str, int] = {}
    for mode in (*_MODES, _MOTION):
        for code in mode.codes:
            changed = by_line(lines, run, after=dict.fromkeys(stops, b"G%d\n" % code))
            kept = {number: printed[number] if number in stops else each for number, each in changed.items()}
            first = _first_other(printed, kept)
            if first is not None:
                found[mode.name] = min(first, found.get(mode.name, first))
    if not found:
        return
    first = min(found.values())
    stop = max(number for number in stops if number < first)
    yield Danger(stop, "stop", f"after this stop it relies on {_listed(list(found))}, from line {first} on: what is"
                 " typed at the stop, as G91 or G0 to lift the tool, stays in force; write the modes again after it")


def dropped_offset(lines: Lines, printed: Printed, run: Run, g92_nm: Point) -> Iterator[Danger]:
    """A program that relies on a G92 offset which is in force before it, and which its end drops."""
    end = next((number for number, commands in printed.items()
                if any(command.name == "PROGRAM_END" for command in commands)), None)
    if end is None or not any(g92_nm) or _first_other(printed, by_line(lines, run, b"G92.2\n")) in (None, end):
        return
    x, y, z = map(millimetres, g92_nm)
    yield Danger(end, "g92", f"the program's end drops the G92 offset X {x} Y {y} Z {z} that is in force on the device:"
                 " a second run cuts that far away. Set the origin in its place, by G10 L2 P1")


def _first_other(base: Printed, changed: Printed) -> int | None:
    """The first line that prints something else."""
    return next((number for number in sorted(base) if number and base[number] != changed.get(number)), None)


def _listed(names: list[str]) -> str:
    return f"{', '.join(names[:-1])} and {names[-1]}" if len(names) > 1 else names[0]


def place(lines: Lines, acts: list[Act], run: Run, start: Point, unit: int) -> Iterator[Danger]:
    """The first cut whose place counts from where the machine stands at the start, if the program ends elsewhere.
    `unit` is 20 or 21, as is in force at the start."""
    nudged = [nm + _NUDGE_NM if nm <= 0 else nm - _NUDGE_NM for nm in start]
    words = " ".join(f"{axis}{exact(nm)}" for axis, nm in zip("XYZ", nudged, strict=True))
    printed = by_line(lines, run, f"G21\nG53 G0 {words}\nG{unit} G80\n".encode())
    others = [command for number in sorted(printed) if number for command in printed[number]]
    mine = [act for act in acts if act.line]
    if len(others) != len(mine):  # a line relies on the motion mode, or is refused at the edge of the travel
        return
    for act, other in zip(mine, others):
        if act.is_cut and act.goes_sideways and act.command != other:
            end = next(act.command.point for act in reversed(mine) if act.is_motion)
            apart = [f"{axis} {millimetres(end[index] - start[index])}" for index, axis in enumerate("XYZ")
                     if act.command.point[index] != other.point[index] and end[index] != start[index]]
            if apart:
                yield Danger(act.line, "place", "it cuts where the machine stands at the start, by G91, by G92 or since"
                             f" no word before it names an axis, and it ends {' '.join(apart)} away from there: a"
                             " second run cuts elsewhere")
            return
