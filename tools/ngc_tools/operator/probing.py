"""Probing: corners, edges, holes and surfaces of the work, touched by a routine that a person agreed to. What it found
is shown, and asked before it becomes a zero."""
import re
from dataclasses import dataclass

from ngc_tools.formats.device import Device
from ngc_tools.formats.in_force import in_force_on
from ngc_tools.formats.position import nanometres
from ngc_tools.job.figures import millimetres as rounded
from ngc_tools.operator.causes import reference_words
from ngc_tools.operator.commands import BY_WORD
from ngc_tools.operator.face import REFUSED, SAID, WARNING
from ngc_tools.operator.modes import SYSTEMS, trimmed
from ngc_tools.operator.moves import Moves
from ngc_tools.operator.numbers import length_of
from ngc_tools.operator.routines import (AXES, CENTRE, GO, ROUTINES, Contact, Lengths, Plan, Probed, Routine, found_by,
                                         middle)
from ngc_tools.operator.session import Session
from ngc_tools.operator.setter import Probe, Touches
from ngc_tools.operator.shapes import Shapes
from ngc_tools.operator.touch import Touch, length_in
from ngc_tools.operator.touching import Box, CannotTouch, Touching

_NO_PROBE = "the machine's file says nothing of a probe: probe_tool in its [setter] names its slot of the tool table"
_NOT_IN = "{now} is in the spindle, by its last M6, and the probe is tool {slot}: T{slot} M6 first"
_NO_LENGTH = ("Z would be that of a tool {now} mm long, and the probe, tool {slot}, is {length} mm long: G43 H{slot}"
              " first")
_NO_SLOT = "the probe, tool {slot}, has no length yet: tool {slot} LENGTH first"
_LEAVES = "{axis} would go to machine {to}, and ends at {end}: put the probe elsewhere, or give shorter lengths"
_UNTIL = "until the probe is touched, at {fast} mm a minute, and again at {slow}"
MOST_NM = 300_000_000
"""The most that a length of a routine may be."""


@dataclass(frozen=True, slots=True)
class TypedRoutine:
    """A routine as it was typed."""

    routine: Routine
    plan: Plan


def read(rest: str) -> TypedRoutine:
    """What is typed behind `probe`: a routine, its axes, and lengths in mm by their names. Raises CannotTouch, which
    says what it takes."""
    name, *words = rest.lower().split() or [""]
    routine = ROUTINES.get(name)
    if routine is None:
        raise CannotTouch(BY_WORD["probe"].usage)
    named, given = words[:routine.ways], words[routine.ways:]
    ways = _ways(routine, named)
    lengths = _lengths(routine, given)
    if ways is None or lengths is None:
        raise CannotTouch(form_of(routine))
    return TypedRoutine(routine, routine.plan(ways, lengths))


def form_of(routine: Routine) -> str:
    """How a routine is typed, and where the probe is put before."""
    ways = [way + "+" * routine.is_directed for way in AXES[:routine.ways]]
    lengths = [f"{name} {trimmed(getattr(Lengths(), name) or 20_000_000)}" for name in routine.lengths]
    return f"{' '.join(['probe', routine.name, *ways, *lengths])}: {routine.where}"


def _ways(routine: Routine, words: list[str]) -> dict[int, int] | None:
    """The axes that are named, each in the plane and once; None for other words."""
    form = re.compile(r"([xy])([-+])" if routine.is_directed else r"([xy])()")
    found = [form.fullmatch(word) for word in words]
    ways = {AXES.index(match[1].upper()): -1 if match[2] == "-" else 1 for match in found if match}
    return ways if len(ways) == routine.ways else None


def _lengths(routine: Routine, words: list[str]) -> Lengths | None:
    """The lengths that are typed behind their names; None for other words, and for lengths that aren't in 0 to MOST_NM.
    """
    given = dict(zip(words[::2], map(length_of, words[1::2])))
    is_right = 2 * len(given) == len(words) and all(name in routine.lengths and nm is not None and 0 < nm <= MOST_NM
                                                    for name, nm in given.items())
    lengths = Lengths(**given) if is_right else None
    return None if lengths is None or "size" in routine.lengths and not lengths.size else lengths


class Probing:
    """What `probe` does."""

    def __init__(self, session: Session, moves: Moves, touch_off: Touch, shapes: Shapes) -> None:
        self.session, self.moves, self.touch_off, self.shapes = session, moves, touch_off, shapes

    def do(self, rest: str) -> None:
        """Does what is typed behind `probe`: says what moves, asks, touches, and asks whether that becomes a zero."""
        try:
            wanted = read(rest)
            if self.moves.begins("probe"):
                self._do(wanted)
        except CannotTouch as why:
            self.session.face.say(str(why), REFUSED)

    def _do(self, wanted: TypedRoutine) -> None:
        """Raises CannotTouch, before anything moves."""
        probe = self._checked(wanted.plan)
        touching = self._touching(wanted.plan)
        radius = 0 if wanted.plan.axes == (2,) else self.shapes.radius(probe)
        if not self.session.agrees(_question(wanted, touching.box, touching.how)):
            self.session.face.say("nothing moves")
            return
        found = self._found(wanted.plan, touching, radius)
        self.moves.tell()
        if found:
            self._say(wanted.plan, found)
            self._offer(wanted.plan, found)

    def _checked(self, plan: Plan) -> Probe:
        """The probe, which is in the spindle, as far as `ngc` knows, and whose length counts where Z is touched. Raises
        CannotTouch."""
        device, probe = self.session.stored(), self.touch_off.setter.probe
        if probe is None:
            raise CannotTouch(_NO_PROBE)
        if not isinstance(device, Device) or not self.moves.is_sure():
            raise CannotTouch(f"it isn't known where the machine stands: {reference_words(self.session)}")
        slot = probe.slot
        if device.slot != slot:
            raise CannotTouch(_NOT_IN.format(now=f"tool {device.slot}" if device.slot else "no tool", slot=slot))
        length = length_in(device, slot)
        if 2 in plan.axes and not length:
            raise CannotTouch(_NO_SLOT.format(slot=slot))
        if 2 in plan.axes and length[0] != device.state.tool_length_nm:
            raise CannotTouch(_NO_LENGTH.format(now=trimmed(device.state.tool_length_nm), slot=slot,
                                                length=trimmed(length[0])))
        return probe

    def _touching(self, plan: Plan) -> Touching:
        """What makes the moves, within a box that begins where the machine stands. Raises CannotTouch where that box
        leaves the travel."""
        settings, report = self.session.settings, self.session.report()
        if report is None:
            raise CannotTouch("nothing moves")
        at = [nanometres(number) for number in report.at.split()]
        box = tuple((here + low, here + high) for here, (low, high) in zip(at, plan.box, strict=True))
        for axis, (low, high) in enumerate(box):
            ends = settings.low_nm[axis], settings.high_nm[axis]
            if low < ends[0] or high > ends[1]:
                to, end = (low, ends[0]) if low < ends[0] else (high, ends[1])
                raise CannotTouch(_LEAVES.format(axis=AXES[axis], to=trimmed(to), end=trimmed(end)))
        return Touching(self.moves, self.touch_off.setter.touches, settings.step_nm, box)

    def _found(self, plan: Plan, touching: Touching, radius: int) -> Probed | None:
        """Does the steps: what they found by a ball of that radius, None where one didn't go as it should, which is
        said."""
        touches: list[Contact] = []
        try:
            begun = [touching.at(axis) for axis in range(3)]
            for step in plan.steps:
                to = begun[step.axis] + step.to
                if step.kind == GO:
                    touching.go(step.axis, to)
                elif step.kind == CENTRE:
                    touching.go(step.axis, middle(touches, step.axis))
                else:
                    sign = 1 if to > touching.at(step.axis) else -1
                    touches.append(Contact(step.axis, sign, touching.touch(step.axis, to)))
        except CannotTouch as why:
            self.session.face.say(f"probe {plan.name}: {why}", WARNING)
            return None
        return found_by(plan, touches, radius)

    def _say(self, plan: Plan, found: Probed) -> None:
        """Says what was found, in machine and in work coordinates."""
        device = self.session.stored()
        if not isinstance(device, Device):
            return
        point = [found.at.get(axis, nm) for axis, nm in enumerate(device.state.point_nm)]
        work = in_force_on(device.state).to_program((point[0], point[1], point[2]))
        machine = " ".join(f"{AXES[axis]}{trimmed(nm)}" for axis, nm in found.at.items())
        system = SYSTEMS[device.state.system - 1]
        there = " ".join(f"{AXES[axis]}{trimmed(work[axis])}" for axis in found.at)
        self.session.face.say(f"probe {plan.name}: machine {machine}; in {system} it is {there} by now", SAID)
        for axis, spans in found.widths.items():
            widths = " and ".join(rounded(nm) for nm in spans)
            self.session.face.say(f"along {AXES[axis]} it is {widths} mm wide", SAID)

    def _offer(self, plan: Plan, found: Probed) -> None:
        """Asks whether what was found becomes the work's zero."""
        try:
            self.touch_off.zero_at(dict(found.at), plan.name)
        except CannotTouch as why:
            self.session.face.say(str(why), REFUSED)


def _question(wanted: TypedRoutine, box: Box, how: Touches) -> str:
    """What is said before anything moves, and asked."""
    moved = [f"{AXES[axis]} from {trimmed(low)} to {trimmed(high)} ({rounded(high - low)} mm)"
             for axis, (low, high) in enumerate(box) if low != high]
    rates = _UNTIL.format(fast=how.fast_mm_min, slow=how.slow_mm_min)
    return (f"probe {wanted.plan.name}: the probe stands {wanted.routine.where}.\nWithin machine {', '.join(moved)} it"
            f" moves, one axis at a time, and no move leaves that: {rates}\nyes begins, anything else moves nothing: ")
