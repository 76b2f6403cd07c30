"""The marks of a picture, and the legend that says what they and the lines mean."""
from collections.abc import Callable
from dataclasses import dataclass

from ngc_tools.job.figures import millimetres
from ngc_tools.job.moves import CUT, TRAVERSE, Point
from ngc_tools.job.svg import FAINT, INK, PIXEL, Box, Pair, line, rectangle, ring, stroke, text
from ngc_tools.job.views import Flat

LEVELS = 8  # shades of depth
TRAVERSE_COLOUR = "#d6604d"
_SHALLOW, _DEEP = (146, 197, 222), (5, 48, 97)
_START, _END, _CROSS = "#1b7837", "#762a83", "#b35806"
_LABEL, _ROW, _APART = 11 * PIXEL, 22 * PIXEL, 22 * PIXEL
_LETTER = 6 * PIXEL + 20  # the width of a letter of the legend, about


def shade_colour(level: int) -> str:
    """The colour of a cut, from 0, the shallowest."""
    red, green, blue = ((a * (LEVELS - 1 - level) + b * level) // (LEVELS - 1)
                        for a, b in zip(_SHALLOW, _DEEP, strict=True))
    return f"#{red:02x}{green:02x}{blue:02x}"


def _zero_of_work(at: Pair) -> list[str]:
    x, y, r = *at, 6 * PIXEL
    quarters = f"M{x} {y} {x} {y - r}A{r} {r} 0 0 1 {x + r} {y}ZM{x} {y} {x} {y + r}A{r} {r} 0 0 1 {x - r} {y}Z"
    return [ring(at, r, f'fill="#ffffff" {stroke(INK, PIXEL)}'), f'<path fill="{INK}" d="{quarters}"/>']


def _zero_of_machine(at: Pair) -> list[str]:
    x, y, r = *at, 5 * PIXEL
    return [ring(at, r, f'fill="none" {stroke(INK, PIXEL)}'),
            line((x - 2 * r, y), (x + 2 * r, y), stroke(INK, PIXEL)),
            line((x, y - 2 * r), (x, y + 2 * r), stroke(INK, PIXEL))]


def _start(at: Pair) -> list[str]:
    return [ring(at, 450, f'fill="none" {stroke(_START, 2 * PIXEL)}')]


def _end(at: Pair) -> list[str]:
    return [rectangle(Box(at[0] - 350, at[1] - 350, 700, 700), f'fill="none" {stroke(_END, 2 * PIXEL)}')]


def _cross(at: Pair) -> list[str]:
    x, y, arm = *at, 7 * PIXEL
    return [line((x - arm, y - arm), (x + arm, y + arm), stroke(_CROSS, 2 * PIXEL)),
            line((x - arm, y + arm), (x + arm, y - arm), stroke(_CROSS, 2 * PIXEL))]


Mark = tuple[str, Callable[[Pair], list[str]], Point]
"""What a mark means, how it is drawn, and where."""


@dataclass(frozen=True, slots=True)
class Marks:
    """Points that are marked: where the job starts and ends, the work zeros, and a point that somebody named."""

    ends: tuple[Point, Point] | None
    zeros: tuple[Point, ...]
    at: Point | None

    def each(self) -> list[Mark]:
        """The marks, each with what it means, how it is drawn, and where."""
        origin = (0, 0, 0)
        found = [("work zero", _zero_of_work, zero) for zero in self.zeros if zero != origin]
        if origin in self.zeros:
            found.append(("work and machine zero", _zero_of_work, origin))
        else:
            found.append(("machine zero", _zero_of_machine, origin))
        if self.ends:
            found += [("start", _start, self.ends[0]), ("end", _end, self.ends[1])]
        if self.at:
            found.append(("here", _cross, self.at))
        return found

    def drawn(self, view: Flat) -> list[str]:
        """The marks in a view; those that don't stand in it aren't drawn."""
        said = []
        for _, draw, point in self.each():
            place = view.place(point)
            if view.box.has(place):
                said += draw(place)
        return said


Item = tuple[int, Callable[[Pair], list[str]], str]
"""Of the legend: the width of what is drawn, how it is drawn, and what it means."""


def legend(marks: Marks, kinds: set[str], deepest: int, has_travel: bool, room: Box) -> tuple[list[str], int]:
    """What lines and marks mean, in rows from the upper end of a place on, and where they end. `kinds` are those of the
    moves, `deepest` is the height down to which is cut."""
    said, x, y = [], room.x, room.y
    for width, draw, words in [*_lines(kinds, deepest, has_travel), *map(_marked, marks.each())]:
        whole = width + len(words) * _LETTER
        if x > room.x and x + whole > room.right:
            x, y = room.x, y + _ROW
        said += [*draw((x, y)), text((x + width, y + 4 * PIXEL), _LABEL, words)]
        x += whole + _APART
    return said, y + _ROW


def _lines(kinds: set[str], deepest: int, has_travel: bool) -> list[Item]:
    items: list[Item] = []
    if kinds - {TRAVERSE}:
        what = "cut" if CUT in kinds else "move"
        items.append((76 * PIXEL, _shades, f"{what}, the darker the deeper, down to Z {millimetres(deepest)}"))
    if TRAVERSE in kinds:
        items.append((36 * PIXEL, _dashes, "traverse"))
    if has_travel:
        items.append((36 * PIXEL, _travel, "end of the travel"))
    return items


def _marked(mark: Mark) -> Item:
    name, draw, point = mark
    at = " ".join(f"{axis} {millimetres(nm)}" for axis, nm in zip("XYZ", point, strict=True))
    said = name if point == (0, 0, 0) and "machine" in name else f"{name}: {at}"
    return 26 * PIXEL, lambda place: draw((place[0] + 9 * PIXEL, place[1])), said


def _shades(at: Pair) -> list[str]:
    return [rectangle(Box(at[0] + 8 * PIXEL * level, at[1] - 4 * PIXEL, 8 * PIXEL, 8 * PIXEL),
                      f'fill="{shade_colour(level)}"') for level in range(LEVELS)]


def _dashes(at: Pair) -> list[str]:
    return [line(at, (at[0] + 28 * PIXEL, at[1]), stroke(TRAVERSE_COLOUR, PIXEL, 'stroke-dasharray="600 450"'))]


def _travel(at: Pair) -> list[str]:
    return [line(at, (at[0] + 28 * PIXEL, at[1]), stroke(FAINT, 2 * PIXEL, 'stroke-dasharray="800 300 200 300"'))]
