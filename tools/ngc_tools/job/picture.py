"""A picture of a job as SVG: from above, from the front, from the right, and aslant. It fits the cuts; traverses and
the travel are drawn as far as they are near."""
from collections.abc import Iterable, Sequence
from dataclasses import dataclass

from ngc_tools.formats.settings import Settings
from ngc_tools.job.figures import box, millimetres
from ngc_tools.job.marks import LEVELS, TRAVERSE_COLOUR, Marks, legend, shade_colour
from ngc_tools.job.moves import TRAVERSE, Move, Point, Step
from ngc_tools.job.svg import FAINT, GRID, PAPER, PIXEL, Box, Pair, line, path, rectangle, ring, stroke, text
from ngc_tools.job.views import (Flat, Oblique, Pen, Piece, View, arrows, pieces, scaled, slanted, ticks,
                                 within)

_WIDTH, _EDGE, _GUTTER, _GAP = 960 * PIXEL, 16 * PIXEL, 56 * PIXEL, 22 * PIXEL
_TITLE, _NAME, _FOOT = 30 * PIXEL, 20 * PIXEL, 22 * PIXEL
_INSIDE = 14 * PIXEL  # between what is drawn and its frame
_ROW_WIDTH = _WIDTH - 2 * _EDGE - 2 * _GUTTER - _GAP
_TALLEST = 740 * PIXEL  # both rows together
_LEAST_WIDTH, _LEAST_ASLANT = 110 * PIXEL, 250 * PIXEL
_LEAST_TOP, _LEAST_FRONT = 200 * PIXEL, 76 * PIXEL
_FINE = 1_000_000  # nm; nothing smaller fills a picture
_NEAR = (35, 100)  # of the cuts' size: so far a traverse or the travel is shown whole
_BEYOND = (8, 100)  # of it is shown of one that goes on further
_LABEL, _FIGURE = 11 * PIXEL, 12 * PIXEL
_LINE = 19 * PIXEL


@dataclass(frozen=True, slots=True)
class Job:
    """What is drawn: the moves, the marks, the travel if it is known, what of the machine's space is shown, and the
    least and the greatest of the heights down to which the pieces of the cuts go."""

    moves: list[Move]
    marks: Marks
    settings: Settings | None
    low_nm: Point
    high_nm: Point
    depths: Pair

    @property
    def size_nm(self) -> Point:
        """The size of what is shown."""
        x, y, z = (high - low for low, high in zip(self.low_nm, self.high_nm, strict=True))
        return x, y, z


    def level(self, z: int) -> int:
        """The shade of a cut at this height."""
        low, high = self.depths
        return (high - z) * (LEVELS - 1) // (high - low) if high > low else LEVELS - 1


def picture(steps: list[Step], title: str, figures: list[str], settings: Settings | None = None,
            at: Point | None = None, zeros: Sequence[Point] = ()) -> str:
    """The SVG of a job, with a legend and the figures below it. `settings` give the frame of the travel, `at` in nm a
    cross, `zeros` the work zeros."""
    moves = [step for step in steps if isinstance(step, Move)]
    job = _job(moves, settings, at, zeros)
    top = _EDGE + (_TITLE if title else 0)
    flat, oblique = _views(job, top)
    below = flat[1].box.below + _FOOT + _GAP
    drawn = [part for view in flat for part in _flat(view, job)] + _aslant(oblique, job)
    has_travel = any(_travel(view, settings) for view in flat)
    marks, below = legend(job.marks, {move.kind for move in moves}, job.depths[0], has_travel,
                          Box(_EDGE, below, _WIDTH - 2 * _EDGE, 0))
    beyond = _beyond(job)
    lines = figures + ([f"not shown: {beyond}"] if beyond else [])
    height = below + len(lines) * _LINE + _EDGE
    said = [f'<svg xmlns="http://www.w3.org/2000/svg" width="{_WIDTH // PIXEL}" viewBox="0 0 {_WIDTH} {height}">',
            rectangle(Box(0, 0, _WIDTH, height), 'fill="#ffffff"')]
    if title:
        said.append(text((_EDGE, _EDGE + 14 * PIXEL), 16 * PIXEL, title))
    said += drawn + marks
    said += [text((_EDGE, below + (number + 1) * _LINE - 5 * PIXEL), _FIGURE, figure, family="monospace")
             for number, figure in enumerate(lines)]
    return "\n".join(said) + "\n</svg>\n"


def _job(moves: list[Move], settings: Settings | None, at: Point | None, zeros: Sequence[Point]) -> Job:
    """What is shown: the cuts, or all moves where there are none; and of traverses what is near."""
    cuts = [move for move in moves if move.kind != TRAVERSE]
    nothing = ((0, 0, 0), (0, 0, 0))
    low, high = box(cuts) or box(moves) or nothing
    farthest = box(moves) or nothing
    if at:
        low, high = tuple(map(min, low, at)), tuple(map(max, high, at))
    size = max(_FINE, *(b - a for a, b in zip(low, high, strict=True)))
    near, beyond = (size * part // whole for part, whole in (_NEAR, _BEYOND))
    low = tuple(a if a - b > near and a - beyond > b else min(a, b) for a, b in zip(low, farthest[0], strict=True))
    high = tuple(a if b - a > near and a + beyond < b else max(a, b) for a, b in zip(high, farthest[1], strict=True))
    starts = (moves[0].points[0], moves[-1].points[-1]) if moves else None
    depths = [min(a[2], b[2]) for move in cuts for a, b in zip(move.points, move.points[1:])] or [0]
    return Job(moves, Marks(starts, tuple(zeros), at), settings, low, high, (min(depths), max(depths)))


def _beyond(job: Job) -> str:
    """Which moves go on where the picture ends."""
    found = box(job.moves)
    if not found:
        return ""
    said = [f"{axis} {millimetres(far)}" for axis, far, shown in zip("XYZ", found[0], job.low_nm, strict=True)
            if far < shown]
    said += [f"{axis} {millimetres(far)}" for axis, far, shown in zip("XYZ", found[1], job.high_nm, strict=True)
             if far > shown]
    return f"traverses to {', '.join(said)} mm" if said else ""


def _views(job: Job, top: int) -> tuple[list[Flat], Oblique]:
    """The four views: above and aslant in the first row, the front and the right in the second."""
    x, y, z = job.size_nm
    scale = _scale(x, y, z)
    wide = max(_LEAST_WIDTH, scaled(x, scale) + 2 * _INSIDE)
    aside = max(_LEAST_WIDTH, scaled(y, scale) + 2 * _INSIDE)
    deep = max(_LEAST_TOP, scaled(y, scale) + 2 * _INSIDE)
    front = max(_LEAST_FRONT, scaled(z, scale) + 2 * _INSIDE)
    left, upper = _EDGE + _GUTTER, top + _NAME
    second, lower = left + wide + _GAP + _GUTTER, upper + deep + _FOOT + _NAME
    places = (("from above", 0, 1, Box(left, upper, wide, deep)),
              ("from the front", 0, 2, Box(left, lower, wide, front)),
              ("from the right", 1, 2, Box(second, lower, aside, front)))
    flat = [Flat(name, right, up, place, (_low(job, right, place.width, scale), _low(job, up, place.height, scale)),
                 scale) for name, right, up, place in places]
    return flat, _oblique(job, Box(second - _GUTTER // 2, upper, _WIDTH - _EDGE - second + _GUTTER // 2, deep))


def _scale(x: int, y: int, z: int) -> int:
    """Nanometres of a thousand units of the page, so that all views fit it."""
    def fits(nm: int, room: int) -> int:
        return -(-1000 * max(nm, 1) // room)

    of_row = fits(x + y, _ROW_WIDTH - 4 * _INSIDE)
    if scaled(y, of_row) + 2 * _INSIDE < _LEAST_ASLANT:
        of_row = max(of_row, fits(x, _ROW_WIDTH - _LEAST_ASLANT - 2 * _INSIDE))
    beside = fits(max(x, y), _ROW_WIDTH - _LEAST_WIDTH - 2 * _INSIDE)
    return max(of_row, beside, fits(y + z, _TALLEST - 4 * _INSIDE), fits(_FINE // 10, _ROW_WIDTH))


def _low(job: Job, axis: int, room: int, scale: int) -> int:
    """What stands at the low end of a place, where what is shown stands in its middle."""
    return job.low_nm[axis] - (room * scale // 1000 - job.size_nm[axis]) // 2


def _oblique(job: Job, place: Box) -> Oblique:
    corners = [slanted((x, y, z)) for x in (job.low_nm[0], job.high_nm[0]) for y in (job.low_nm[1], job.high_nm[1])
               for z in (job.low_nm[2], job.high_nm[2])]
    low = tuple(min(corner[axis] for corner in corners) for axis in (0, 1))
    size = tuple(max(corner[axis] for corner in corners) - low[axis] for axis in (0, 1))
    rooms = (place.width - 4 * _INSIDE, place.height - 3 * _INSIDE)
    scale = max(-(-1000 * max(nm, _FINE // 10) // room) for nm, room in zip(size, rooms, strict=True))
    left, bottom = (low[axis] - (room * scale // 1000 - size[axis]) // 2
                    for axis, room in enumerate((place.width, place.height)))
    return Oblique("aslant", place, (left, bottom), scale)


def _flat(view: Flat, job: Job) -> list[str]:
    """One view with its name, its frame, ticks with numbers, and what is in it."""
    place = view.box
    said = [text((place.x, place.y - 6 * PIXEL), _LABEL, f"{view.name}: {'XYZ'[view.right]}, {'XYZ'[view.up]} in mm"),
            rectangle(place, f'fill="{PAPER}"')]
    grid, numbers = _grid(view)
    inside = [path(grid, stroke(GRID, PIXEL))]
    inside += _travel(view, job.settings) + _lines(view, job, 150)
    if view.up == 1:
        inside += _plunges(view, job)
        colours = {False: shade_colour(LEVELS - 1), True: TRAVERSE_COLOUR}
        inside += arrows(view, job.moves, colours)
    inside += job.marks.drawn(view)
    return [*said, *numbers, *place.clipped(inside), rectangle(place, f'fill="none" {stroke(FAINT, PIXEL)}')]


def _grid(view: Flat) -> tuple[str, list[str]]:
    """The data of lines at round lengths, and their numbers, beside the frame."""
    columns, below = _columns(view)
    rows, aside = _rows(view)
    return columns + rows, below + aside


def _columns(view: Flat) -> tuple[str, list[str]]:
    place, low = view.box, view.low_nm[0]
    found, apart = ticks(low, view.high_nm[0], view.nm_per_thousand, 62 * PIXEL)
    at = {nm: place.x + scaled(nm - low, view.nm_per_thousand) for nm in found}
    numbers = [text((x, place.below + 14 * PIXEL), _LABEL, _short(nm, apart), "middle") for nm, x in at.items()
               if place.x + 8 * PIXEL < x < place.right - 8 * PIXEL]
    return "".join(f"M{x} {place.y} {x} {place.below}" for x in at.values()), numbers


def _rows(view: Flat) -> tuple[str, list[str]]:
    place, low = view.box, view.low_nm[1]
    found, apart = ticks(low, view.high_nm[1], view.nm_per_thousand, 26 * PIXEL)
    at = {nm: place.below - scaled(nm - low, view.nm_per_thousand) for nm in found}
    numbers = [text((place.x - 6 * PIXEL, y + 4 * PIXEL), _LABEL, _short(nm, apart), "end") for nm, y in at.items()
               if place.y + 4 * PIXEL < y < place.below - 4 * PIXEL]
    return "".join(f"M{place.x} {y} {place.right} {y}" for y in at.values()), numbers


def _aslant(view: Oblique, job: Job) -> list[str]:
    """The view from above and aside, with the floor of what is shown and the directions of the axes."""
    low, high = job.low_nm, job.high_nm
    floor = [view.place(corner) for corner in ((low[0], low[1], low[2]), (high[0], low[1], low[2]),
                                               (high[0], high[1], low[2]), (low[0], high[1], low[2]))]
    outline = "M" + " ".join(f"{x} {y}" for x, y in floor) + "Z"
    inside = [f'<path fill="{PAPER}" {stroke(GRID, PIXEL)} d="{outline}"/>', *_lines(view, job, 100)]
    corner = (view.box.x + 30 * PIXEL, view.box.below - 26 * PIXEL)
    for axis, (x, y) in zip("XYZ", ((19, 11), (19, -11), (0, -22)), strict=True):
        end = (corner[0] + x * PIXEL, corner[1] + y * PIXEL)
        inside += [line(corner, end, stroke(FAINT, PIXEL)),
                   text((end[0] + 5 * PIXEL if x else end[0], end[1] + (4 if x else -4) * PIXEL), _LABEL, axis,
                        "start" if x else "middle")]
    return view.box.clipped(inside)


def _short(nm: int, distance: int) -> str:
    """A tick's number in millimetres, with as many decimals as the ticks' distance has."""
    decimals = 0 if distance >= 1_000_000 else 1 if distance >= 100_000 else 2 if distance >= 10_000 else 3
    whole = millimetres(nm)
    return whole[:len(whole) - 4] if decimals == 0 else whole[:len(whole) - 3 + decimals]


def _travel(view: Flat, settings: Settings | None) -> list[str]:
    """The ends of the travel, where they are near enough to stand in the view."""
    if settings is None:
        return []
    a, b = view.place(settings.low_nm), view.place(settings.high_nm)
    place = Box(a[0], b[1], b[0] - a[0], a[1] - b[1])
    if place.x < view.box.x and place.y < view.box.y and place.right > view.box.right and place.below > view.box.below:
        return []
    style = stroke(FAINT, 2 * PIXEL, 'stroke-dasharray="800 300 200 300"')
    return [rectangle(place, f'fill="none" {style}')]


def _plunges(view: Flat, job: Job) -> list[str]:
    """A ring for each place at which a cut goes straight down, with the shade of its depth."""
    deepest: dict[Pair, int] = {}
    for move in job.moves:
        a, b = move.points[0], move.points[-1]
        if move.kind != TRAVERSE and not move.arc and a[:2] == b[:2] and b[2] < a[2]:
            place = view.place(b)
            deepest[place] = min(b[2], deepest.get(place, b[2]))
    return [ring(place, 3 * PIXEL, f'fill="none" {stroke(shade_colour(job.level(z)), 150)}')
            for place, z in deepest.items() if view.box.has(place)]


def _lines(view: View, job: Job, thick: int) -> list[str]:
    """The traverses, then the cuts from the shallowest to the deepest."""
    pens = [Pen() for _ in range(LEVELS)]
    traverses = Pen()
    for move in job.moves:
        if move.kind == TRAVERSE:
            inside = within(move.points, job.low_nm, job.high_nm) if isinstance(view, Oblique) else move.points
            if inside and view.place(inside[0]) != view.place(inside[1]):
                traverses.draw(Piece(view.place(inside[0]), view.place(inside[1])))
            continue
        for piece, z in pieces(view, move):
            pens[job.level(z)].draw(piece)
    style = 'stroke-linecap="round" stroke-linejoin="round"'
    said = [path(data, stroke(TRAVERSE_COLOUR, thick * 2 // 3, 'stroke-dasharray="600 450"'))
            for _, data in _data([traverses])]
    return said + [path(data, stroke(shade_colour(level), thick, style)) for level, data in _data(pens)]


def _data(pens: Iterable[Pen]) -> list[tuple[int, str]]:
    """What pens drew, those that drew nothing left out."""
    return [(level, data) for level, pen in enumerate(pens) if (data := pen.text())]
