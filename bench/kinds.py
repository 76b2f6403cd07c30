"""Ten kinds of program, as people mill them, for bench/haste.py: each as pieces of lines, arcs and smooth curves."""
import math
from dataclasses import dataclass

FAST = 3000.0  # mm a minute: of traverses, and of most feeds
ARC_TOLERANCE = 0.002  # mm, of Grbl's lines along an arc
FINE = 0.02  # mm, between the points of a smooth curve


@dataclass
class Line:
    """To a point."""
    begin: tuple
    end: tuple
    feed: float
    code: str = "G1"

    def text(self):
        """Its line of the program."""
        feed = f" F{self.feed:g}" if self.code == "G1" else ""
        return f"{self.code} {words(self.end)}{feed}\n"

    def ends(self):
        """The ends of the lines that Grbl makes of it."""
        return [self.end]

    def points(self):
        """Points along it, without its first."""
        return between(self.begin, self.end)

    def blocks(self):
        """What an exact stop has a rest between: as polylines."""
        return [[self.begin, self.end]]


@dataclass
class Arc:
    """In XY about a centre, by an angle, with a pitch in Z."""
    begin: tuple
    centre: tuple
    angle: float  # radians, counterclockwise
    rise: float
    feed: float

    def at(self, share):
        """The point at a share of it."""
        x, y, z = self.begin
        radius = math.hypot(x - self.centre[0], y - self.centre[1])
        turned = math.atan2(y - self.centre[1], x - self.centre[0]) + share * self.angle
        return (self.centre[0] + radius * math.cos(turned), self.centre[1] + radius * math.sin(turned),
                z + share * self.rise)

    @property
    def end(self):
        """Its end."""
        return self.at(1)

    def text(self):
        """Its line of the program."""
        x, y, _ = self.begin
        code = "G3" if self.angle > 0 else "G2"
        return f"{code} {words(self.end)} I{self.centre[0] - x:.6f} J{self.centre[1] - y:.6f} F{self.feed:g}\n"

    def radius(self):
        """Its radius."""
        return math.dist(self.begin[:2], self.centre)

    def ends(self):
        """By Grbl's rule for arcs."""
        half = math.sqrt(ARC_TOLERANCE * (2 * self.radius() - ARC_TOLERANCE))
        count = max(1, math.floor(abs(self.angle) * self.radius() / 2 / half))
        return [self.at(k / count) for k in range(1, count + 1)]

    def points(self):
        """Points along it, without its first."""
        count = max(8, math.ceil(abs(self.angle) * self.radius() / FINE))
        return [self.at(k / count) for k in range(1, count + 1)]

    def blocks(self):
        """One block."""
        return [[self.begin, *self.points()]]


@dataclass
class Curve:
    """A smooth curve over 0 to 1, that the program has as so many lines."""
    at: object
    count: int
    feed: float

    @property
    def begin(self):
        """Where it begins."""
        return self.at(0)

    @property
    def end(self):
        """Where it ends."""
        return self.at(1)

    def ends(self):
        """Those of its lines."""
        return [self.at(k / self.count) for k in range(1, self.count + 1)]

    def text(self):
        """Its lines of the program."""
        return f"F{self.feed:g}\n" + "".join(f"G1 {words(end)}\n" for end in self.ends())

    def points(self):
        """Points along it, without its first."""
        each = max(1, math.ceil(math.dist(self.at(0.5), self.at(0.5 + 1 / self.count)) / FINE))
        count = self.count * each
        return [self.at(k / count) for k in range(1, count + 1)]

    def blocks(self):
        """Each line by itself."""
        ends = [self.begin, *self.ends()]
        return [list(pair) for pair in zip(ends, ends[1:])]


def words(point):
    """A point's words."""
    return "X%.4f Y%.4f Z%.4f" % point


def between(begin, end):
    """Points from one to another, without the first."""
    count = max(2, math.ceil(math.dist(begin, end) / 0.05))
    return [tuple(a + (b - a) * k / count for a, b in zip(begin, end)) for k in range(1, count + 1)]


class Path:
    """Pieces, one after the other."""

    def __init__(self):
        self.pieces, self.place = [], (0.0, 0.0, 0.0)

    def add(self, piece):
        """A piece from where the last one ended."""
        self.pieces.append(piece)
        self.place = piece.end

    def to(self, x=None, y=None, z=None, feed=FAST, code="G1"):
        """A line; coordinates that aren't given stay."""
        end = tuple(self.place[k] if value is None else float(value) for k, value in enumerate((x, y, z)))
        if math.dist(end, self.place) > 1e-6:
            self.add(Line(self.place, end, feed, code))

    def fast(self, x=None, y=None, z=None):
        """A traverse."""
        self.to(x, y, z, FAST, "G0")

    def arc(self, centre, degrees, rise=0.0, feed=FAST):
        """An arc."""
        self.add(Arc(self.place, centre, math.radians(degrees), rise, feed))

    def curve(self, at, count, feed=FAST):
        """A smooth curve, with a line to its beginning."""
        self.to(*at(0), feed)
        self.add(Curve(at, count, feed))

    def text(self):
        """The program."""
        return "G17 G21 G90 G94\nF3000\n" + "".join(piece.text() for piece in self.pieces) + "M2\n"


def facing(path):
    """Rows of 150 mm."""
    for row in range(14):
        path.to(y=8 * row)
        path.to(x=150 if row % 2 == 0 else 0)


def drilling(path):
    """Forty-eight holes of 8 mm, at 300 mm a minute."""
    for row in range(6):
        for k in range(8):
            path.fast(15 * (k if row % 2 == 0 else 7 - k), 12 * row)
            path.fast(z=1)
            path.to(z=-2, feed=300)
            path.fast(z=3)


def contour(path):
    """A plate with rounded corners and notches, in four depths."""
    for depth in range(1, 5):
        path.fast(10, 0)
        path.to(z=-depth, feed=600)
        path.to(x=70)
        path.arc((70, 10), 90)
        path.to(y=25)
        path.to(x=60)
        path.to(y=35)
        path.to(x=80)
        path.to(y=50)
        path.arc((70, 50), 90)
        path.to(x=10)
        path.arc((10, 50), 90)
        path.to(y=40)
        path.arc((0, 30), -180)
        path.to(y=10)
        path.arc((10, 10), 90)


def spline(path):
    """Eight closed curves of lines of a third of a millimetre."""
    def at(t, size):
        angle = 2 * math.pi * t
        radius = size * (1 + 0.25 * math.cos(3 * angle) + 0.1 * math.sin(5 * angle))
        return radius * math.cos(angle), radius * math.sin(angle), -1.0

    for size in (20, 18, 16, 14, 12, 10, 8):
        path.curve(lambda t, size=size: at(t, size), 20 * size)


def helix(path):
    """Four bores of 12 mm, each by 24 turns down."""
    for k in range(4):
        path.fast(z=1)
        path.fast(20 * k + 6, 0)
        path.to(z=0, feed=600)
        for _ in range(24):
            path.arc((20 * k, 0), 360, -0.5, 2000)
        path.arc((20 * k, 0), 360, 0, 2000)


def engraving(path):
    """Forty figures of short strokes, with a lift between them."""
    strokes = (((0, 0), (2, 5), (4, 0)), ((1, 2.2), (3, 2.2)), ((5, 0), (5, 5), (7.5, 4.4), (7.5, 3), (5, 2.5)),
               ((6, 2.5), (8, 0)))
    for figure in range(40):
        x, y = 10 * (figure % 8), 8 * (figure // 8)
        for stroke in strokes:
            path.fast(x + stroke[0][0], y + stroke[0][1])
            path.to(z=-0.2, feed=600)
            for point in stroke[1:]:
                path.to(x + point[0], y + point[1], feed=1500)
            path.fast(z=0.5)


def trochoid(path):
    """A slot of 60 mm by circles of 5 mm."""
    path.fast(2.5, 0)
    for k in range(100):
        path.arc((0.6 * k, 0), 360, 0, 2500)
        path.to(x=2.5 + 0.6 * (k + 1), feed=2500)


def raster(path):
    """A wavy surface in rows of lines of 0.25 mm."""
    for row in range(14):
        def at(t, row=row):
            x = 50 * (t if row % 2 == 0 else 1 - t)
            return x, 0.6 * row, -2 + 1.2 * math.sin(x / 2.5) * math.cos(row / 4)
        path.curve(at, 200)


def gear(path):
    """Twenty-four teeth, whose flanks are lines of a fifth of a millimetre, in two depths."""
    for depth in (-1, -2):
        path.fast(18, 0)
        path.to(z=depth, feed=600)
        for tooth in range(24):
            begin = 2 * math.pi * tooth / 24
            for sign in (1, -1):
                def flank(t, begin=begin, sign=sign, depth=depth):
                    share = t if sign == 1 else 1 - t
                    radius = 18 + 4 * share
                    angle = begin + math.pi / 24 - sign * (0.1 - 0.05 * share**2)
                    return radius * math.cos(angle), radius * math.sin(angle), float(depth)
                path.curve(flank, 20)


def pocket(path):
    """Rounded squares from within, in two depths, and a pass along the wall."""
    for depth in (-1, -2):
        path.fast(3, 0)
        path.to(z=depth, feed=600)
        for size in range(3, 31, 3):
            path.to(size, 0)
            path.to(y=size - 1)
            for centre, end in (((size - 1, size - 1), {"x": -size + 1}), ((-size + 1, size - 1), {"y": -size + 1}),
                                ((-size + 1, -size + 1), {"x": size - 1}), ((size - 1, -size + 1), {"y": 0})):
                path.arc(centre, 90)
                path.to(**end)


KINDS = (facing, drilling, contour, spline, helix, engraving, trochoid, raster, gear, pocket)


def programs():
    """The name and the path of each."""
    for kind in KINDS:
        path = Path()
        kind(path)
        yield kind.__name__, path
