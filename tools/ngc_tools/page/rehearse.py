"""What `resume` or `run` would do, for a page: done aside over a copy of the device, with what lies in the way."""
from dataclasses import dataclass, replace

from ngc_tools.failure import Failure
from ngc_tools.formats.device import Device
from ngc_tools.formats.lines import Program
from ngc_tools.formats.position import distance, millimetres, nanometres
from ngc_tools.formats.settings import Settings
from ngc_tools.job.figures import duration, micrometres
from ngc_tools.job.figures import millimetres as rounded
from ngc_tools.job.moves import CUT, Move, Point, of_out
from ngc_tools.ngc.copies import CommandRefused
from ngc_tools.operator import causes
from ngc_tools.operator.recovery import OutFound
from ngc_tools.operator.display import outputs_words
from ngc_tools.operator.rehearsal import Rehearsal
from ngc_tools.page.aside import Wanted
from ngc_tools.page.differs import differences
from ngc_tools.page.drawing import Drawing, job_of
from ngc_tools.page.session import Busy, PageSession
from ngc_tools.shown import shown_lines

_NEAR_NM = 100_000  # so near a finished cut the way counts as within it
_ON_NM = 20_000  # the motors are on a step if they are as near
_LOOKS = 400  # points of the way that are looked at, at most
_APART_NM = 250_000  # and so far apart at least
_CURE = ("Is a coordinate wrong? Write it anew: step 2. Are the settings other than they were? Quit, and begin again"
         " with the old ones. Else give the line up: step 4.")
"""What can be done where a block can't be taken up."""


@dataclass(frozen=True, slots=True)
class Along:
    """A way along OUT: its path, the bytes between which it lies, the point at the lower of these, and whether it goes
    back from there."""

    out: str
    low: int
    high: int
    at_nm: Point
    is_back: bool


@dataclass(frozen=True, slots=True)
class RehearsalRequest:
    """What is rehearsed: by which `ngc` and settings, over which image, from where, with what is drawn, where the
    motors are, if that is known, and the way of `recover` along OUT, if it goes so. `lost` is what a loss of power left
    uncut: where it begins, and how long it is in nm."""

    ngc: str
    settings: str
    image: bytes
    at: list[str] | None
    drawing: Drawing | None
    motors: list[str] | None
    along: Along | None = None
    lost: tuple[Point, int] | None = None


def rehearse(session: PageSession, at: list[str] | None, by_recover: bool = False,
             wanted: Wanted | None = None) -> dict:
    """What a page is told of `resume`, or `run`, from a point, or of `recover`, as long as it is wanted. It takes no
    turn of the session's, since nothing but a copy is touched. Raises Busy where something runs, NotDone, OSError."""
    if session.is_busy or session.ended:
        raise Busy("something runs: hold first")
    console, report, image = session.operator.console, session.face.report, session.kept.device.image
    found = session.operator.recover.found if by_recover else None
    if found is not None and found.recovery.beginning is not None:
        at = list(map(millimetres, found.recovery.at_nm))
    motors, along = report.at.split() if report else None, _along(found) if found else None
    asked = RehearsalRequest(console.ngc, console.settings, image, at, session.drawer.drawing, motors, along,
                             _lost(session))
    child = session.aside.begin(rehearsed, asked)
    return session.aside.finish(wanted.by(child) if wanted else child)


def _lost(session: PageSession) -> tuple[Point, int] | None:
    """What a loss of power left uncut, once that is known."""
    found = session.never_cut.awaited()
    if not found or not found["points"]:
        return None
    x, y, z = (1000 * um for um in found["points"][0])
    return (x, y, z), found["length_nm"]


def _along(found: OutFound) -> Along | None:
    """The way of `recover`, if it goes along OUT."""
    recovery, beginning = found.recovery, found.recovery.beginning
    if beginning is None or recovery.way is None:
        return None
    is_back = beginning.size < recovery.size
    low, high = sorted((beginning.size, recovery.size))
    return Along(found.link.out, low, high, recovery.at_nm if is_back else recovery.stands_nm, is_back)


def rehearsed(asked: RehearsalRequest) -> dict:
    """The rehearsal, in a process aside."""
    rehearsal = Rehearsal(asked.ngc, asked.settings, asked.image, asked.at)
    found = {"begins": [], "rest": "", "rest_us": 0, "comes_on": "", "approach": None, "differs": [], "along": None}
    try:
        lines = list(map(shown_lines, rehearsal.lines()))
    except CommandRefused as error:
        return found | {"refused": _refusal(error, asked.settings), "lines": [shown_lines(str(error))]}
    comes_on = outputs_words(rehearsal.comes_on) if rehearsal.comes_on else ""
    approach = _approach(asked, *rehearsal.approach) if rehearsal.approach else None
    return found | {"lines": lines, "begins": rehearsal.begins, "rest": duration(rehearsal.rest_us),
                    "rest_us": rehearsal.rest_us, "comes_on": comes_on, "approach": approach,
                    "refused": lines[-1] if rehearsal.refused else "", "differs": _differs(asked, rehearsal.rest_us),
                    "along": _points(asked) if asked.along else None}


def _refusal(error: CommandRefused, settings: str) -> str:
    """What `ngc` refuses over the copy, why, and what can be done."""
    said = causes.rehearsed(error.reply, error.asked, Settings.read(settings))
    return said if error.asked == "start" else f"{said}\n{_CURE}"


def _differs(asked: RehearsalRequest, rest_us: int) -> list[str]:
    """What is otherwise than it was drawn, where the program goes on with a line."""
    now = Device(asked.image)
    if asked.drawing is None or now.state.half or not now.state.place:
        return []
    source = asked.drawing.source
    line = Program(now.program).number(now.state.place)
    try:
        return list(differences(source, job_of(source), now, line, rest_us, asked.drawing.text))
    except (Failure, OSError) as error:
        return [f"It can't be compared with what is drawn: {error}"]


def _points(asked: RehearsalRequest) -> list[list[int]]:
    """The points of the way along OUT, in micrometres."""
    along, settings = asked.along, Settings.read(asked.settings)
    with open(along.out, "rb") as file:
        file.seek(along.low)
        text = file.read(along.high - along.low)
    moves = [step for step in of_out(text, settings, along.at_nm) if isinstance(step, Move)]
    points = [list(map(micrometres, point)) for move in moves for point in move.points]
    return points[::-1] if along.is_back else points


def _approach(asked: RehearsalRequest, start: tuple[str, ...], end: tuple[str, ...], us: int) -> dict:
    """The straight way of an approach, with what is dangerous about it."""
    a, b = _point(start), _point(end)
    rate = "the feed that was cut off, or a slower one" if asked.motors else "the traverse rate"
    return {"from": start, "to": end, "length": rounded(distance(a, b)), "rate": rate,
            "time": "" if asked.motors else duration(us),
            "lowest": rounded(min(a[2], b[2])), "down": rounded(max(0, a[2] - b[2])),
            "warnings": [*_goes_down(a, b, rate), *_goes_beside(asked, a, b)]}


def _point(at: tuple[str, ...] | list[str]) -> Point:
    x, y, z = map(nanometres, at)
    return x, y, z


def _goes_down(a: Point, b: Point, rate: str) -> list[str]:
    if b[2] >= a[2]:
        return []
    sideways = max(abs(a[0] - b[0]), abs(a[1] - b[1]))
    at_once = f", and {rounded(sideways)} mm sideways at once" if sideways else ""
    return [f"It goes DOWN {rounded(a[2] - b[2])} mm, to Z {rounded(b[2])}{at_once}, at {rate}."]


def _goes_beside(asked: RehearsalRequest, a: Point, b: Point) -> list[str]:
    """Where the way goes below the highest cut and beside all that is cut already. Geometry alone."""
    if asked.drawing is None:
        return []
    beside, length = _Cut.of(asked).beside(a, b)
    if length <= _NEAR_NM:
        return []
    near = f": up to {rounded(beside)} mm beside the nearest one" if beside else ""
    return [f"For {rounded(length)} mm of its way the tool goes below the highest cut where no finished cut is as"
            f" deep{near}. Is there material, a clamp, an island?"]


@dataclass(frozen=True, slots=True)
class _Cut:
    """What is cut already: chords, and the highest point of the cuts up to here."""

    chords: list[tuple[Point, Point]]
    top: int

    @staticmethod
    def of(asked: RehearsalRequest) -> "_Cut":
        """By the job, up to the half-done segment, and in it up to the motors."""
        job = job_of(asked.drawing.source)
        state = Device(asked.image).state
        line = Program(Device(asked.image).program).number(state.place)
        own = job.segments.get(line, [])
        end = next((number for number in own[state.segment:] if number >= 0), None)
        cuts = [(step, number) for step, number in zip(job.steps, job.lines, strict=True)
                if isinstance(step, Move) and step.kind == CUT]
        top = max((max(point[2] for point in step.points) for step, number in cuts if number <= line), default=0)
        done = [step for step in job.steps[:end] if isinstance(step, Move)]
        chords = [chord for step in finished(done, asked.lost) for chord in _chords(step)]
        under = job.steps[end] if end is not None else None
        if isinstance(under, Move) and under.kind == CUT and asked.motors:
            chords += _up_to(_chords(under), _point(asked.motors))
        return _Cut(chords, top)

    def beside(self, a: Point, b: Point) -> tuple[int, int]:
        """How far beside finished cuts that are as deep the way goes at most, and for how long; in nm."""
        count = max(1, min(_LOOKS, distance(a, b) // _APART_NM))
        worst = length = 0
        for k in range(count + 1):
            x, y, z = (p + (q - p) * k // count for p, q in zip(a, b, strict=True))
            if z >= self.top:
                continue
            near = self._nearest((x, y, z))
            if near is None or near > _NEAR_NM:
                length += distance(a, b) // (count + 1)
                worst = max(worst, near or 0)
        return worst, length

    def _nearest(self, at: Point) -> int | None:
        """How far the nearest finished cut is that is as deep, seen from above; None if there is none."""
        return min((_apart(at, p, q) for p, q in self.chords if min(p[2], q[2]) <= at[2]), default=None)


def _chords(move: Move) -> list[tuple[Point, Point]]:
    return list(zip(move.points, move.points[1:]))


def finished(moves: list[Move], lost: tuple[Point, int] | None) -> list[Move]:
    """The cuts among moves that are done, without the last ones, which a loss of power left uncut."""
    kept, left = list(moves), lost[1] if lost else 0
    while kept and left > 0:
        last = kept.pop()
        left -= last.length
        if cut := _up_to(_chords(last), lost[0]):
            kept.append(replace(last, points=(cut[0][0], *(end for _, end in cut))))
            break
    return [move for move in kept if move.kind == CUT]


def _up_to(chords: list[tuple[Point, Point]], here: Point) -> list[tuple[Point, Point]]:
    """The chords of a step up to a point, if that lies on it."""
    def off(chord: tuple[Point, Point]) -> int:
        """How far the point is off a chord."""
        low, high = sorted((chord[0][2], chord[1][2]))
        return _apart(here, *chord) + abs(here[2] - min(max(here[2], low), high))

    near = [(off(chord), k) for k, chord in enumerate(chords)]
    best, k = min(near, default=(10**9, 0))
    return [*chords[:k], (chords[k][0], here)] if best <= _ON_NM else []


def _apart(at: Point, p: Point, q: Point) -> int:
    """The distance of a point from a chord, seen from above; in nm."""
    ax, ay, bx, by = q[0] - p[0], q[1] - p[1], at[0] - p[0], at[1] - p[1]
    whole = ax * ax + ay * ay
    share = min(1.0, max(0.0, (ax * bx + ay * by) / whole)) if whole else 0.0
    return int(((bx - share * ax) ** 2 + (by - share * ay) ** 2) ** 0.5)
