"""A small picture of a job from above: what it cuts, as SVG."""
from collections.abc import Iterator

from ngc_tools.job.figures import box
from ngc_tools.job.marks import shade_colour
from ngc_tools.job.moves import CUT, Move, Step
from ngc_tools.job.svg import PAPER, PIXEL, Box, path, rectangle, stroke

WIDTH, HEIGHT = 160, 120
"""Its size in pixels."""
_EDGE = 6 * PIXEL
_NEAR = PIXEL  # points that are nearer to the last one aren't drawn
_MOST = 20_000  # points
_SHADE = 5


def thumbnail(steps: list[Step]) -> str:
    """The picture of the cuts, or of all moves where nothing is cut."""
    moves = [step for step in steps if isinstance(step, Move)]
    drawn = [move for move in moves if move.kind == CUT] or moves
    data = "".join(_pieces(drawn))
    frame = Box(0, 0, WIDTH * PIXEL, HEIGHT * PIXEL)
    return (f'<svg xmlns="http://www.w3.org/2000/svg" width="{WIDTH}" height="{HEIGHT}"'
            f' viewBox="0 0 {frame.width} {frame.height}">{rectangle(frame, f"""fill="{PAPER}" """.strip())}'
            f'{path(data, stroke(shade_colour(_SHADE), PIXEL))}</svg>')


def _pieces(moves: list[Move]) -> Iterator[str]:
    """The pieces of the path, so many at most."""
    found = box(moves)
    if found is None:
        return
    (left, front, _), (right, back, _) = found
    room = (WIDTH * PIXEL - 2 * _EDGE, HEIGHT * PIXEL - 2 * _EDGE)
    nm = max((right - left) * PIXEL // room[0], (back - front) * PIXEL // room[1], 1)  # of a hundredth of a unit
    last, count = (-1, -1), 0
    for at, begins in _points(moves):
        x = _EDGE + (at[0] - left) * PIXEL // nm
        y = HEIGHT * PIXEL - _EDGE - (at[1] - front) * PIXEL // nm
        is_near = max(abs(x - last[0]), abs(y - last[1])) < _NEAR
        if is_near and not begins or (x, y) == last:
            continue
        yield f"{'M' if begins else ' '}{x} {y}"
        last, count = (x, y), count + 1
        if count > _MOST:
            return


def _points(moves: list[Move]) -> Iterator[tuple[tuple[int, int], bool]]:
    """The points of the moves from above, and whether a new piece of the path begins there."""
    end = None
    for move in moves:
        for number, (x, y, _) in enumerate(move.points):
            if number or (x, y) != end:
                yield (x, y), not number
            end = x, y
