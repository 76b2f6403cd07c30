"""Routines of the probe, as data: what each touches, and by which way. Lengths are nanometres."""
from collections.abc import Callable, Mapping
from dataclasses import dataclass

AXES = "XYZ"
GO, TOUCH, CENTRE = "go", "touch", "centre"
"""What a step does: to a place along an axis, on which way nothing may be touched; to the work, and back to where that
began; to the middle of what was touched last on both sides of an axis."""


@dataclass(frozen=True, slots=True)
class Step:
    """One of them, along an axis, at most to where is `to` from the place where the routine began."""

    kind: str
    axis: int
    to: int = 0


@dataclass(frozen=True, slots=True)
class Lengths:
    """What a person says of a routine: how far a face is sought at most; how far along the edges of an outside corner
    the faces are touched; how wide a boss or a web is, about; how far down beside it they are touched."""

    within: int = 10_000_000
    along: int = 10_000_000
    size: int = 0
    down: int = 5_000_000


@dataclass(frozen=True, slots=True)
class Plan:
    """A routine as it is wanted. `is_inside`: what is touched on both sides of an axis are the walls of a hole."""

    name: str
    steps: tuple[Step, ...]
    is_inside: bool = False

    @property
    def box(self) -> tuple[tuple[int, int], ...]:
        """How far it goes at most from where it begins, to the low and to the high side of each axis."""
        ends = [[step.to for step in self.steps if step.axis == axis] for axis in range(3)]
        return tuple((min([0, *each]), max([0, *each])) for each in ends)

    @property
    def axes(self) -> tuple[int, ...]:
        """The axes of which it finds where the work is."""
        return tuple(sorted({step.axis for step in self.steps if step.kind == TOUCH}))


Ways = Mapping[int, int]
"""Of the axes that a person named, the direction to the work, 1 or -1; 1 where none was said."""


@dataclass(frozen=True, slots=True)
class Routine:
    """A kind of routine. The probe is put `where` before. It takes `ways` axes in the plane, with a direction if
    `is_directed`, and the lengths that are named."""

    name: str
    where: str
    ways: int
    is_directed: bool
    lengths: tuple[str, ...]
    steps: Callable[[Ways, Lengths], tuple[Step, ...]]
    is_inside: bool = False

    def plan(self, ways: Ways, lengths: Lengths) -> Plan:
        """The routine along these ways."""
        named = [AXES[axis] + ({1: "+", -1: "-"}[sign] if self.is_directed else "") for axis, sign in ways.items()]
        return Plan(" ".join([self.name, *named]), self.steps(ways, lengths), self.is_inside)


def _faces(ways: Ways, lengths: Lengths) -> tuple[Step, ...]:
    """One face along each way, from where it stands."""
    return tuple(Step(TOUCH, axis, sign * lengths.within) for axis, sign in ways.items())


def _surface(_: Ways, lengths: Lengths) -> tuple[Step, ...]:
    return (Step(TOUCH, 2, -lengths.within),)


def _outside(ways: Ways, lengths: Lengths) -> tuple[Step, ...]:
    """Both faces of an outside corner, from before both: each from beside it, past the corner."""
    (first, one), (second, other) = ways.items()
    return (Step(GO, second, other * lengths.along), Step(TOUCH, first, one * lengths.within), Step(GO, second),
            Step(GO, first, one * lengths.along), Step(TOUCH, second, other * lengths.within), Step(GO, first))


def _between(ways: Ways, lengths: Lengths) -> tuple[Step, ...]:
    """Both walls of a slot, from between them."""
    axis, *_ = ways
    return (Step(TOUCH, axis, -lengths.within), Step(TOUCH, axis, lengths.within), Step(CENTRE, axis))


def _over(ways: Ways, lengths: Lengths) -> tuple[Step, ...]:
    """Both faces of a web, from above its middle: out over it, down beside it, to the face, up again."""
    axis, *_ = ways
    half, steps = lengths.size // 2, []
    for side in (-1, 1):
        steps += [Step(GO, axis, side * (half + lengths.within)), Step(GO, 2, -lengths.down),
                  Step(TOUCH, axis, side * max(0, half - lengths.within)), Step(GO, 2)]
    return (*steps, Step(CENTRE, axis))


def _round(walls: Callable[[Ways, Lengths], tuple[Step, ...]]) -> Callable[[Ways, Lengths], tuple[Step, ...]]:
    """A round thing: along X, along Y through that middle, and along X anew, through the middle of both."""
    return lambda _, lengths: tuple(step for axis in (0, 1, 0) for step in walls({axis: 1}, lengths))


ROUTINES: Mapping[str, Routine] = {each.name: each for each in (
    Routine("edge", "beside the edge, below its top", 1, True, ("within",), _faces),
    Routine("outside", "before both faces of the corner, below their top, nearer to each than half of what it goes"
            " along them", 2, True, ("within", "along"), _outside),
    Routine("inside", "before both walls of the corner, below their top", 2, True, ("within",), _faces),
    Routine("surface", "above the surface", 0, False, ("within",), _surface),
    Routine("bore", "in the hole, about its middle", 0, False, ("within",), _round(_between), True),
    Routine("boss", "above the middle of the boss, clear of its top", 0, False, ("size", "within", "down"),
            _round(_over)),
    Routine("pocket", "between both walls, below their top", 1, False, ("within",), _between, True),
    Routine("web", "above the middle of the web, clear of its top", 1, False, ("size", "within", "down"), _over),
)}
"""By name, those that there are."""


@dataclass(frozen=True, slots=True)
class Contact:
    """A touch of an axis in a direction, 1 or -1, at a machine coordinate."""

    axis: int
    sign: int
    at: int


@dataclass(frozen=True, slots=True)
class Probed:
    """What a routine found: of each axis that it touched a machine coordinate of the work, and of those that it touched
    on both sides how wide the work is there, each time."""

    at: Mapping[int, int]
    widths: Mapping[int, tuple[int, ...]]


def found_by(plan: Plan, touches: list[Contact], radius: int) -> Probed:
    """What the touches of a whole routine, by a ball of that radius, say of the work. Of Z that is the ball's lowest
    point."""
    at: dict[int, int] = {}
    widths: dict[int, tuple[int, ...]] = {}
    for axis in plan.axes:
        of = [touch for touch in touches if touch.axis == axis]
        if len(of) == 1:
            at[axis] = of[0].at + (of[0].sign * radius if axis < 2 else 0)
        else:
            at[axis] = middle(touches, axis)
            spans = [abs(of[i].at - of[i + 1].at) for i in range(0, len(of), 2)]
            widths[axis] = tuple(span + (2 * radius if plan.is_inside else -2 * radius) for span in spans)
    return Probed(at, widths)


def middle(touches: list[Contact], axis: int) -> int:
    """The middle of the last two touches of an axis."""
    one, other = [touch.at for touch in touches if touch.axis == axis][-2:]
    return (one + other) // 2
