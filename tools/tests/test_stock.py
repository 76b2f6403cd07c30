"""What a job leaves of its stock: heights by hand. The page's modules are served as they are, and called in a
browser."""
import json
import sys
import threading
import unittest
from functools import cache, partial
from http.server import SimpleHTTPRequestHandler, ThreadingHTTPServer
from pathlib import Path

sys.path.insert(0, str(Path(__file__).resolve().parent))

from browser_support import Browser, processor_s
from firefox_support import IS_FIREFOX, MISSING, PATH, start
from session_support import TOOLS

from ngc_tools.job.moves import Arc, arc_points

STATIC = TOOLS / "ngc_tools/page/static"
FLAT, BALL, VEE = ({"tip": tip, "radius": 3000, "angle": 90} for tip in ("flat", "ball", "v"))
STOCK = {"low": [0, 0], "size": [40_000, 40_000], "top": 0}
"""40 mm in X and Y: cells of 0.1 mm, with their middles at 0.05, 0.15 .."""
WHOLE = {"done": 0, "part": 0, "at": None, "next": 0}
CARVE = """(async () => {
    const { Job } = await import(new URL('job.js', document.baseURI));
    const { carve, cellAt } = await import(new URL('stock.js', document.baseURI));
    const { plain, stock, shapes, place, lost, at } = %s;
    const found = carve({ job: new Job(plain), stock, shapes, place, lost });
    const cells = at.map(([x, y]) => cellAt(found, x, y)), of = all => cells.map(cell => all[cell] ?? null);
    return { now: of(found.now), after: of(found.after), crossedNow: of(found.crossedNow), crossed: of(found.crossed),
        cell: found.cell, columns: found.columns, rows: found.rows, lines: [...new Set(found.crossed)] };
})()"""
ASSUMED = """(async () => {
    const { Job } = await import(new URL('job.js', document.baseURI));
    const { assumed, slotsOf, zerosOf } = await import(new URL('stock.js', document.baseURI));
    const { plain, shapes } = %s, job = new Job(plain);
    return [assumed(job, shapes), slotsOf(job), zerosOf(job)];
})()"""
LONG = """(async () => {
    const { Job } = await import(new URL('job.js', document.baseURI));
    const { carve } = await import(new URL('stock.js', document.baseURI));
    const steps = [], at = i => [i %% 300 * 333, Math.floor(i / 300) * 1000, -1000 - i %% 7 * 100];
    for (let i = 0; i < 30000; i++) steps.push({ n: i + 1, k: 'c', us: 1, p: [...at(i), ...at(i + 1)] });
    const in_force = [{ step: 0, slot: 1, length: 0, origin: [0, 0, 0] }], shapes = { 1: %s };
    const job = new Job({ steps, in_force });
    const stock = { low: [0, 0], size: [100000, 100000], top: 0 };
    const found = carve({ job, stock, shapes, place: %s });
    return [found.cell, found.after.reduce((a, b) => Math.min(a, b))];
})()"""


@cache
def served() -> Browser:
    """A browser at the page's modules."""
    handler = partial(SimpleHTTPRequestHandler, directory=STATIC)
    handler.func.log_message = lambda *_: None
    server = ThreadingHTTPServer(("127.0.0.1", 0), handler)
    threading.Thread(target=server.serve_forever, daemon=True).start()
    browser = start()
    unittest.addModuleCleanup(server.server_close)
    unittest.addModuleCleanup(server.shutdown)
    unittest.addModuleCleanup(browser.close)
    browser.open(f"http://127.0.0.1:{server.server_port}/touches.js")
    browser.wait("document.readyState === 'complete' && location.protocol === 'http:'")
    return browser


def step(kind: str, *points: tuple[float, float, float], line: int = 1) -> dict:
    """A step of a job through points in mm."""
    return {"n": line, "k": kind, "us": 1, "p": [round(1000 * number) for point in points for number in point]}


def job(*steps: dict, slot: int = 1, length: int = 0, origin: tuple[int, int, int] = (0, 0, 0)) -> dict:
    """A job with one tool, its length and the program's zero in um."""
    return {"steps": steps, "in_force": [{"step": 0, "slot": slot, "length": length, "origin": origin}]}


@unittest.skipUnless(PATH, MISSING)
class Stock(unittest.TestCase):
    """Places are middles of cells, in mm."""

    def carved(self, plain: dict, at: list[tuple[float, float]], shapes: dict | None = None, place: dict | None = None,
               lost: list | None = None, stock: dict | None = None) -> dict:
        """What is left at places, in um."""
        given = {"plain": plain, "stock": stock or STOCK, "shapes": shapes or {1: FLAT}, "place": place or WHOLE,
                 "lost": lost or [], "at": [[1000 * x, 1000 * y] for x, y in at]}
        return served().js(CARVE % json.dumps(given))

    def heights(self, plain: dict, at: list[tuple[float, float]], shape: dict | None = None) -> list[float]:
        """The heights after the job at places, in mm to a nanometre."""
        return [round(um / 1000, 6) for um in self.carved(plain, at, {1: shape or FLAT})["after"]]


class Shapes(Stock):
    """Each shape, along lines, a corner and an arc."""

    def test_flat_slot(self) -> None:
        """6 mm wide, with round ends: 3 mm beyond the ends of the path, and 3 mm beside it."""
        slot = job(step("c", (10.05, 10.05, -2), (30.05, 10.05, -2)))
        found = self.heights(slot, [(20.05, 10.05), (20.05, 12.95), (20.05, 13.15), (20.05, 6.95), (32.95, 10.05),
                                    (33.15, 10.05), (32.05, 12.05), (32.25, 12.25)])
        self.assertEqual(found, [-2, -2, 0, 0, -2, 0, -2, 0])  # 2.83 mm and 3.11 mm aslant of the end

    def test_ball_groove(self) -> None:
        """Of a ball of 3 mm, 1.8 mm beside its path the groove is 2.4 mm above the ball's middle's depth: 3, 4, 5."""
        groove = job(step("c", (10.05, 10.05, -3), (30.05, 10.05, -3)))
        self.assertEqual(self.heights(groove, [(20.05, 10.05), (20.05, 11.85), (20.05, 12.45), (20.05, 13.15)], BALL),
                         [-3, -2.4, -1.8, 0])

    def test_ball_aslant(self) -> None:
        """A ball that goes down by 3 in 4 is lowest 0.6 radii ahead: there the groove is 3 (5/4 - 1) mm below the path
        abreast, and 1.8 mm beside it 2.4 of 3."""
        ramp = job(step("c", (4.05, 20.05, -3), (36.05, 20.05, -27)))
        # abreast at X 20.05 the tip is at -15: -15 + 3 - 1.25 * 3, and beside it -15 + 3 - 1.25 * 2.4
        self.assertEqual(self.heights(ramp, [(20.05, 20.05), (20.05, 21.85)], BALL), [-15.75, -15])

    def test_vee(self) -> None:
        """Of 90 degrees it rises as far as it is beside the path, and is as wide at the top as it is deep."""
        groove = job(step("c", (10.05, 10.05, -2), (30.05, 10.05, -2)))
        self.assertEqual(self.heights(groove, [(20.05, 10.05), (20.05, 11.25), (20.05, 12.15), (30.05, 11.25)], VEE),
                         [-2, -0.8, 0, -0.8])
        sharp = {"tip": "v", "radius": 3000, "angle": 53.13010235415598}  # tan of half of it is 1/2: it rises by 2
        self.assertEqual(self.heights(groove, [(20.05, 10.55), (20.05, 11.15)], sharp), [-1, 0])

    def test_vee_aslant(self) -> None:
        """One of 90 degrees that goes down by 3 in 5 is the lowest 3/4 of the way beside further on: 4/5 of the way
        beside above the path abreast."""
        ramp = job(step("c", (2.05, 20.05, 0), (38.05, 20.05, -21.6)))
        self.assertEqual(self.heights(ramp, [(20.05, 22.05)], VEE), [-9.2])

    def test_pocket_corner(self) -> None:
        """In the corner of a pocket the tool's radius stays."""
        walls = job(step("c", (10.05, 10.05, -1), (30.05, 10.05, -1)),
                    step("c", (30.05, 10.05, -1), (30.05, 30.05, -1)))
        # the walls are at X 33.05 and Y 7.05; the corner's own cells are 2.6 and 2.0 mm from the path's, each way
        self.assertEqual(self.heights(walls, [(32.95, 20.05), (20.05, 7.15), (32.65, 7.45), (32.05, 8.05)]),
                         [-1, -1, 0, -1])

    def test_arc(self) -> None:
        """A quarter of a circle of 10 mm by a tool of 6 mm: from 7 to 13 mm about its centre."""
        centre = (20_050_000, 20_050_000)
        points = arc_points((30_050_000, 20_050_000, -10**6), (20_050_000, 30_050_000, -10**6), Arc("XY", centre, True))
        quarter = job(step("c", *[tuple(nm / 10**6 for nm in point) for point in points]))
        beside = 2 ** -0.5
        at = [(20.05 + far * beside, 20.05 + far * beside) for far in (6.8, 7.2, 10, 12.8, 13.2)]
        self.assertEqual(self.heights(quarter, at), [0, -1, -1, -1, 0])
        self.assertEqual(self.heights(quarter, [(20.05, 10.05), (10.05, 20.05)]), [0, 0])  # the rest of the circle

    def test_plunge(self) -> None:
        """Straight down, and up again, is a hole."""
        hole = job(step("c", (20.05, 20.05, 5), (20.05, 20.05, -4)), step("t", (20.05, 20.05, -4), (20.05, 20.05, 5)))
        self.assertEqual(self.heights(hole, [(20.05, 20.05), (22.05, 22.05), (22.25, 22.25)]), [-4, -4, 0])

    def test_length(self) -> None:
        """A tool's length in force is taken off."""
        slot = job(step("c", (10, 10, 48), (30, 10, 48)), length=50_000)
        self.assertEqual(self.heights(slot, [(20.05, 10.05)]), [-2])

    def test_thin(self) -> None:
        """A tool that is narrower than a cell, and a tip, lower the cells that their path crosses."""
        line = job(step("c", (10, 10, -2), (30, 20, -2)))
        for shape in (FLAT | {"radius": 10}, VEE):
            found = self.heights(line, [(x + 0.05, 10.05 + (x - 10) / 2) for x in (12, 14, 16, 18, 20)], shape)
            self.assertEqual(found, [-2] * 5, shape)
        self.assertEqual(self.heights(line, [(20.05, 15.45)], FLAT | {"radius": 10}), [0])


class Traverses(Stock):
    """Where a traverse comes through the stock."""

    def test_through(self) -> None:
        """It cuts, and its line is told; one above the stock does neither."""
        through = job(step("t", (10, 20, 5), (30, 20, 5), line=3),
                    step("t", (10.05, 10.05, -1), (30.05, 10.05, -1), line=7))
        found = self.carved(through, [(20.05, 10.05), (20.05, 12.95), (20.05, 13.15), (20.05, 20.05)])
        self.assertEqual((found["after"], found["crossed"]), ([-1000, -1000, 0, 0], [7, 7, 0, 0]))
        self.assertEqual(found["lines"], [0, 7])

    def test_first(self) -> None:
        """The first line that came there is told, also where a cut goes deeper later."""
        through = job(step("t", (10, 10, -1), (30, 10, -1), line=2), step("t", (30, 10, -2), (10, 10, -2), line=3),
                    step("c", (10, 10, -4), (30, 10, -4), line=4))
        found = self.carved(through, [(20.05, 10.05)])
        self.assertEqual((found["after"], found["crossed"]), ([-4000], [2]))

    def test_where_it_was_cut(self) -> None:
        """Back through what was cut, along a line and an arc, up out of it, and along the top it cuts nothing."""
        centre = (20_050_000, 20_050_000)
        arc = arc_points((30_050_000, 20_050_000, -10**6), (10_050_000, 20_050_000, -10**6), Arc("XY", centre, True))
        arc_mm = [tuple(nm / 10**6 for nm in point) for point in arc]
        # the half circle's top: a point of the arc, between two of its chords' ends, and the way there
        inside = (20.05 + 10 * 0.6, 20.05 + 10 * 0.8, -1)
        for shape in (FLAT, BALL, VEE):
            back = job(step("c", (1, 1, -2), (31, 14, -2)), step("t", (31, 14, -2), (1, 1, -2)),
                       step("c", *arc_mm), step("t", *reversed(arc_mm)), step("t", inside, inside),
                       step("t", inside, (*inside[:2], 9)), step("t", (0, 35, 0), (40, 35, 0)))
            self.assertEqual(self.carved(back, [(20.05, 10.05)], {1: shape})["lines"], [0], shape)


class Amid(Stock):
    """From a place within the program."""

    SLOTS = [step("c", (10.05, y, -2), (30.05, y, -2), line=line) for line, y in enumerate((5.05, 15.05, 25.05), 1)]
    AT = [(20.05, 5.05), (15.05, 15.05), (25.05, 15.05), (20.05, 25.05)]

    def test_amid(self) -> None:
        """What is done before, half of the step under way too, and what is left."""
        place = {"done": 1, "part": 1, "at": [18_050, 15_050, -2000], "next": 1}
        found = self.carved(job(*self.SLOTS), self.AT, place=place)
        self.assertEqual((found["now"], found["after"]), ([-2000, -2000, 0, 0], [-2000] * 4))
        place = {"done": 1, "part": 0, "at": None, "next": 1}  # how far that step is isn't known
        self.assertEqual(self.carved(job(*self.SLOTS), self.AT, place=place)["now"], [-2000, 0, 0, 0])
        done = {"done": 3, "part": 0, "at": None, "next": 3}
        self.assertEqual(self.carved(job(*self.SLOTS), self.AT, place=done)["now"], [-2000] * 4)

    def test_never_cut(self) -> None:
        """What was handed out and never cut, the rest of the second slot, stays; what is made next is cut."""
        place = {"done": 1, "part": 1, "at": [18_050, 15_050, -2000], "next": 2}
        lost = [[[18_050, 15_050, -2000], [24_000, 15_050, -2000], [30_050, 15_050, -2000]]]
        found = self.carved(job(*self.SLOTS), self.AT, place=place, lost=lost)
        self.assertEqual((found["now"], found["after"]), ([-2000, -2000, 0, 0], [-2000, -2000, 0, -2000]))

    def test_crossed_before(self) -> None:
        """A traverse that is to come isn't one that came."""
        through = job(*self.SLOTS[:2], step("t", (10, 25, -1), (30, 25, -1), line=9))
        found = self.carved(through, [(20.05, 25.05)], place={"done": 2, "part": 0, "at": None, "next": 2})
        self.assertEqual((found["crossedNow"], found["crossed"]), ([0], [9]))


class Tools(Stock):
    """Which tools, and which stock."""

    def test_without_a_diameter(self) -> None:
        """It cuts nothing, and comes through nothing; the others do."""
        two = {"steps": [step("c", (10, 10, -2), (30, 10, -2)), step("t", (10, 10, -2), (30, 30, -2)),
                         step("c", (10, 30, -2), (30, 30, -2))],
               "in_force": [{"step": 0, "slot": 5, "length": 0, "origin": [0, 0, 0]},
                            {"step": 2, "slot": 1, "length": 1000, "origin": [0, 0, 0]}]}
        found = self.carved(two, [(20.05, 10.05), (20.05, 20.05), (20.05, 30.05)])
        self.assertEqual((found["after"], found["lines"]), ([0, 0, -3000], [0]))

    def test_assumed(self) -> None:
        """Around the cuts with the tool's radius and a twentieth, in whole mm; the top is the program's zero, or the
        highest cut along X or Y where nothing goes below that."""
        def told(plain: dict, shapes: dict | None = None) -> list:
            return served().js(ASSUMED % json.dumps({"plain": plain, "shapes": shapes or {}}))

        cuts = [step("t", (0, 0, 9), (90, 90, 9)), step("c", (10, 10, 9), (10, 10, -2)),
                step("c", (10, 10, -2), (50, 30, -2))]
        # 40 by 20 mm, with a margin of 2 mm
        self.assertEqual(told(job(*cuts)), [{"low": [8000, 8000], "size": [44_000, 24_000], "top": 0, "isZero": True},
                                            [1], [[0, 0, 0]]])
        # 46 by 26 mm, with a margin of 2.3: from 4.7 to 55.3, and to 35.3
        self.assertEqual(told(job(*cuts), {1: FLAT})[0], {"low": [4000, 4000], "size": [52_000, 32_000], "top": 0,
                                                         "isZero": True})
        # the program's zero is half a mm further, and below all cuts: whole mm from there
        low = told(job(*cuts, origin=(500, 0, -5000)))[0]
        self.assertEqual(low, {"low": [7500, 8000], "size": [45_000, 24_000], "top": -2000, "isZero": False})
        self.assertEqual(told(job(step("t", (0, 0, 0), (1, 1, 1)))), [None, [], []])
        two = job(step("t", (9, 9, 9), (0, 0, 0)), step("c", (0, 0, 0), (1, 0, 0)), step("c", (1, 0, 0), (2, 0, 0)))
        two["in_force"] += [{"step": 1, "slot": 3, "length": 0, "origin": [1000, 0, 0]},
                            {"step": 2, "slot": 2, "length": 0, "origin": [2000, 0, 0]}]
        self.assertEqual(told(two)[1:], [[3, 2], [[1000, 0, 0], [2000, 0, 0]]])

    @unittest.skipIf(IS_FIREFOX, "Firefox doesn't tell its processor time")
    def test_long(self) -> None:
        """30,000 lines take less than five seconds of processor time with each shape: large tools get larger cells."""
        served().call("Performance.enable", timeDomain="threadTicks")
        for shape, cell_um in ((FLAT, 250), (BALL, 250), (VEE, 250), (BALL | {"radius": 25_000}, 796)):
            before_s = processor_s(served())
            cell, low = served().js(LONG % (json.dumps(shape), json.dumps(WHOLE)))
            self.assertLess(processor_s(served()) - before_s, 5, shape)
            self.assertAlmostEqual(low, -1600)
            self.assertEqual(round(cell), cell_um, shape)  # 796 um: 30,000 times 50 by 50.333 mm in 120,000,000 looks


if __name__ == "__main__":
    unittest.main()
