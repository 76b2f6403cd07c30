"""Views of a job: where its points stand on the page, and its lines there. Lengths are whole nanometres, places on the
page whole hundredths of a pixel."""
from collections.abc import Iterable, Iterator, Sequence
from dataclasses import dataclass, field
from fractions import Fraction
from math import isqrt

from ngc_tools.job.moves import PLANES, TRAVERSE, Move, Point
from ngc_tools.job.svg import PIXEL, Box, Pair, arrow

PIECES = 16  # chords of each piece of an arc, which is a quarter turn at most
ARROWS_APART = 150 * PIXEL
_CELL = 30 * PIXEL  # no two arrows stand in such squares side by side


def scaled(nm: int, nm_per_thousand: int) -> int:
    """A length on the page, rounded."""
    return (2000 * nm + nm_per_thousand) // (2 * nm_per_thousand)


@dataclass(frozen=True, slots=True)
class Flat:
    """A view along an axis: which axes go right and up, its place on the page, what stands at the place's left and
    lower ends, and the scale."""

    name: str
    right: int
    up: int
    box: Box
    low_nm: Pair
    nm_per_thousand: int

    def place(self, point: Point) -> Pair:
        """Where a point stands on the page."""
        x = self.box.x + scaled(point[self.right] - self.low_nm[0], self.nm_per_thousand)
        return x, self.box.below - scaled(point[self.up] - self.low_nm[1], self.nm_per_thousand)

    def turns(self, move: Move) -> int:
        """How an arc looks here: 1 clockwise, -1 counter-clockwise, 0 where it is no circle, or no arc."""
        if move.arc is None or set(PLANES[move.arc.plane][:2]) != {self.right, self.up}:
            return 0
        is_mirrored = PLANES[move.arc.plane][0] != self.right
        return -1 if move.arc.counter_clockwise != is_mirrored else 1

    @property
    def high_nm(self) -> Pair:
        """What stands at the place's right and upper ends."""
        return (self.low_nm[0] + self.box.width * self.nm_per_thousand // 1000,
                self.low_nm[1] + self.box.height * self.nm_per_thousand // 1000)


@dataclass(frozen=True, slots=True)
class Oblique:
    """A view from above and aside, X to the right and down, Y to the right and up."""

    name: str
    box: Box
    low_nm: Pair
    nm_per_thousand: int

    def place(self, point: Point) -> Pair:
        """Where a point stands on the page."""
        u, v = slanted(point)
        return (self.box.x + scaled(u - self.low_nm[0], self.nm_per_thousand),
                self.box.below - scaled(v - self.low_nm[1], self.nm_per_thousand))

    def turns(self, move: Move) -> int:
        """No arc is a circle here."""
        return 0


View = Flat | Oblique


def slanted(point: Point) -> Pair:
    """How far to the right and up a point stands in an oblique view, in nm."""
    return (point[0] + point[1]) * 866 // 1000, (point[1] - point[0]) // 2 + point[2]


@dataclass(frozen=True, slots=True)
class Piece:
    """A piece of a move on the page: a line, or of `radius` an arc of a quarter turn at most, clockwise or not."""

    start: Pair
    end: Pair
    radius: int = 0
    clockwise: bool = False

    def text(self, begins_line: bool) -> str:
        """What a path's data say of it."""
        if self.radius:
            return f"A{self.radius} {self.radius} 0 0 {self.clockwise:d} {self.end[0]} {self.end[1]}"
        return f"{'L' if begins_line else ' '}{self.end[0]} {self.end[1]}"


def pieces(view: View, move: Move) -> Iterator[tuple[Piece, int]]:
    """The pieces of a move in a view, each with its least Z in nm."""
    turns = view.turns(move)
    points = move.points[::PIECES] if turns else move.points
    radius = 0
    if turns and move.arc:
        a, b, _ = PLANES[move.arc.plane]
        from_centre = (points[0][a] - move.arc.centre[0], points[0][b] - move.arc.centre[1])
        radius = max(1, scaled(isqrt(from_centre[0] ** 2 + from_centre[1] ** 2), view.nm_per_thousand))
    for start, end in zip(points, points[1:]):
        yield Piece(view.place(start), view.place(end), radius, turns > 0), min(start[2], end[2])


@dataclass(slots=True)
class Pen:
    """The data of a path, piece by piece. A line that goes straight on is one line, and a run is drawn once."""

    runs: dict[str, None] = field(default_factory=dict)
    _run: list[Piece] = field(default_factory=list)

    def draw(self, piece: Piece) -> None:
        """Adds a piece."""
        if piece.start == piece.end and not piece.radius and self._run and self._run[-1].end == piece.start:
            return
        if self._run and self._run[-1].end != piece.start:
            self.lift()
        if self._run and _goes_straight_on(self._run[-1], piece):
            piece = Piece(self._run.pop().start, piece.end)
        self._run.append(piece)

    def lift(self) -> None:
        """Ends the run."""
        if self._run:
            said = [f"M{self._run[0].start[0]} {self._run[0].start[1]}"]
            for number, piece in enumerate(self._run):
                said.append(piece.text(number > 0 and self._run[number - 1].radius > 0))
            self.runs["".join(said)] = None
        self._run = []

    def text(self) -> str:
        """The data of all runs."""
        self.lift()
        return "".join(self.runs)


def _goes_straight_on(last: Piece, piece: Piece) -> bool:
    if last.radius or piece.radius:
        return False
    a, b = (last.end[0] - last.start[0], last.end[1] - last.start[1]), (piece.end[0] - last.end[0],
                                                                        piece.end[1] - last.end[1])
    return a[0] * b[1] == a[1] * b[0] and a[0] * b[0] + a[1] * b[1] >= 0


def within(points: Sequence[Point], low: Point, high: Point) -> tuple[Point, Point] | None:
    """The part of a straight line, from the first point to the last, that lies within a box; None if none does."""
    start, end = points[0], points[-1]
    begins, ends = Fraction(0), Fraction(1)
    for axis in range(3):
        way = end[axis] - start[axis]
        if not way:
            if not low[axis] <= start[axis] <= high[axis]:
                return None
            continue
        first, last = sorted((Fraction(low[axis] - start[axis], way), Fraction(high[axis] - start[axis], way)))
        begins, ends = max(begins, first), min(ends, last)
    if begins >= ends:
        return None
    return _between(start, end, begins), _between(start, end, ends)


def _between(start: Point, end: Point, part: Fraction) -> Point:
    x, y, z = (a + int((b - a) * part) for a, b in zip(start, end, strict=True))
    return x, y, z


def arrows(view: View, moves: Iterable[Move], colours: dict[bool, str]) -> list[str]:
    """Arrow heads along the path, one each so often; `colours` are those of cuts and, for True, of traverses."""
    said, taken, since = [], set(), {True: ARROWS_APART, False: ARROWS_APART}
    for is_traverse, start, end in _chords(view, moves):
        along = (end[0] - start[0], end[1] - start[1])
        length = isqrt(along[0] ** 2 + along[1] ** 2)
        since[is_traverse] += length
        middle = ((start[0] + end[0]) // 2, (start[1] + end[1]) // 2)
        is_due = length and since[is_traverse] >= ARROWS_APART and view.box.has(middle)
        if is_due and not taken & _around(middle):
            taken.add((middle[0] // _CELL, middle[1] // _CELL))
            since[is_traverse] = 0
            said.append(arrow(middle, along, colours[is_traverse]))
    return said


def _chords(view: View, moves: Iterable[Move]) -> Iterator[tuple[bool, Pair, Pair]]:
    """The chords of all moves on the page, each with whether it is of a traverse."""
    return ((move.kind == TRAVERSE, view.place(start), view.place(end))
            for move in moves for start, end in zip(move.points, move.points[1:]))


def _around(point: Pair) -> set[Pair]:
    """The cell of a point, and those beside it."""
    x, y = point[0] // _CELL, point[1] // _CELL
    return {(column, row) for column in (x - 1, x, x + 1) for row in (y - 1, y, y + 1)}


def ticks(low: int, high: int, nm_per_thousand: int, apart: int) -> tuple[list[int], int]:
    """The round lengths between two, at least `apart` on the page, and their distance."""
    distance = next(step for step in _round_numbers() if scaled(step, nm_per_thousand) >= apart)
    first = -(-low // distance) * distance
    return list(range(first, high + 1, distance)), distance


def _round_numbers() -> Iterator[int]:
    """1, 2, 5, 10, 20, 50 um and so on, in nm."""
    power = 1000
    while True:
        yield from (power, 2 * power, 5 * power)
        power *= 10
