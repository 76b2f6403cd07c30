"""Traverses that may go through the work: dangers by the heights of the tool's tip. A dry run knows no work, only
where the program cuts."""
import re
from collections.abc import Iterator
from itertools import takewhile

from ngc_tools.job.danger import Danger
from ngc_tools.job.figures import millimetres
from ngc_tools.job.printed import Act
from ngc_tools.job.refused import Lines

TO_MACHINE = re.compile(rb"G0*(?:28|30|53)(?:\.0*)?(?![0-9.])", re.IGNORECASE)
"""What moves to machine coordinates, in a line without comments and blanks."""


class _Cuts:
    """What has been cut so far, by the Z of the tool's tip in machine nm. A stretch is all cuts between two traverses:
    `lowest` is the lowest point of the last one, `floor` the highest of these lowest points, `floor_line` its line."""

    def __init__(self) -> None:
        self.lowest: int | None = None
        self.floor: int | None = None
        self.floor_line = 0
        self._line = 0
        self._open = False

    def cut(self, act: Act) -> None:
        """Takes a move at a feed."""
        if not self._open or self.lowest is None or act.tip_z < self.lowest:
            self.lowest, self._line = act.tip_z, act.line
        self._open = True

    def traverse(self) -> None:
        """Ends the stretch."""
        if self._open and self.lowest is not None and (self.floor is None or self.lowest > self.floor):
            self.floor, self.floor_line = self.lowest, self._line
        self._open = False


def shallowest(acts: list[Act]) -> int | None:
    """The highest of the stretches' lowest points, of the tool's tip, in machine nm: what is no higher is taken as a
    cut. None where nothing is cut."""
    cuts = _Cuts()
    for act in (act for act in acts if act.is_motion):
        if act.is_cut:
            cuts.cut(act)
        else:
            cuts.traverse()
    cuts.traverse()
    return cuts.floor


def heights(lines: Lines, acts: list[Act], is_placed: bool) -> Iterator[Danger]:
    """Traverses down below the last cut, and those sideways as deep as a cut before them. Where the work zero isn't
    known (`is_placed`), nothing is said of how high a move to machine coordinates is."""
    cuts = _Cuts()
    is_known = True
    for act in (act for act in acts if act.is_motion):
        to_machine = bool(TO_MACHINE.search(lines.code(act.line)))
        is_known = is_placed or not to_machine and (is_known or act.command.point[2] != act.at[2])
        if act.is_cut:
            cuts.cut(act)
            continue
        cuts.traverse()
        if is_known and (text := _through_work(act, cuts)):
            yield Danger(act.line, "deep", text)


def _through_work(act: Act, cuts: _Cuts) -> str | None:
    """What to say of a traverse, if anything."""
    end = act.command.point
    if cuts.lowest is None or cuts.floor is None:
        return None
    lower = min(act.at, end, key=lambda point: point[2])
    shown = millimetres(act.in_force.to_program(lower)[2])
    if act.tip_z < cuts.lowest and end[2] < act.at[2]:
        lowest = cuts.lowest - act.in_force.origin[2]
        return (f"a traverse down to Z {shown}, below the last cut, whose lowest point is Z {millimetres(lowest)}:"
                " nothing has cut the way free")
    if act.goes_sideways and act.tip_z <= cuts.floor:
        return (f"a traverse sideways at Z {shown}, as deep as the cut of line {cuts.floor_line}: it breaks the tool"
                " unless the way is cut free already")
    return None


def first_descent(lines: Lines, acts: list[Act]) -> Iterator[Danger]:
    """The first traverse down to below the work zero before anything is cut, if it is the first move in Z, or comes to
    where the first cut begins without going deeper."""
    motions = [act for act in acts if act.is_motion and act.line]
    begin = next((place for place, act in enumerate(motions) if act.is_cut), len(motions))
    lowest = min((act.tip_z for act in takewhile(lambda act: act.is_cut, motions[begin:])), default=None)
    first = next((act for act in motions if act.command.point[2] != act.at[2]), None)
    for act in motions[:begin]:
        end = act.in_force.to_program(act.command.point)[2]
        if end >= min(0, act.in_force.to_program(act.at)[2]) or TO_MACHINE.search(lines.code(act.line)):
            continue
        if act is first:
            yield Danger(act.line, "first", f"the first move in Z is a traverse down to Z {millimetres(end)}, below the"
                         " work zero: nothing says that it is free there")
            return
        if lowest is not None and act.tip_z <= lowest:
            yield Danger(act.line, "first", f"a traverse down to Z {millimetres(end)}, below the work zero, before"
                         " anything is cut: it breaks the tool where the work stands")
            return
