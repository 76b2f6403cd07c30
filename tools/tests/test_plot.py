"""`ngc-plot`: the picture to the byte, its figures, exact times, the examples' pictures."""
import re
import subprocess
import sys
import unittest
import xml.etree.ElementTree as ElementTree
from contextlib import redirect_stderr, redirect_stdout
from dataclasses import dataclass
from fractions import Fraction
from io import BytesIO, StringIO, TextIOWrapper
from itertools import combinations
from pathlib import Path
from unittest import mock

sys.path.insert(0, str(Path(__file__).resolve().parent))

from session_support import FIRST, TOOLS, InFolder, going_on, ngc

from ngc_tools.cli.plot import main
from ngc_tools.job import timing
from ngc_tools.formats.canonical import read_commands
from ngc_tools.job.figures import duration, micrometres
from ngc_tools.job.moves import Arc, arc_points, of_canonical
from ngc_tools.job.timing import timed

EXAMPLES = TOOLS.parent / "examples"
NAMES = ("bolts", "bores", "face", "first", "mill", "parameters", "percent", "pocket", "ring")

TEXT = """STRAIGHT_TRAVERSE(10.000000, 0.000000, 0.000000)
SET_FEED_RATE(600.000000)
STRAIGHT_FEED(10.000000, 10.000000, -2.000000)
"""
# A square of 40 mm, 10 mm deep, with a round corner; then an arc in the plane ZX, and one in YZ.
SQUARE = """STRAIGHT_TRAVERSE(0.000000, 0.000000, 5.000000)
SET_FEED_RATE(600.000000)
STRAIGHT_FEED(0.000000, 0.000000, -10.000000)
STRAIGHT_FEED(40.000000, 0.000000, -10.000000)
STRAIGHT_FEED(40.000000, 30.000000, -10.000000)
ARC_FEED(30.000000, 40.000000, -10.000000, 30.000000, 30.000000, CCW)
STRAIGHT_FEED(0.000000, 40.000000, -10.000000)
SELECT_PLANE(XZ)
ARC_FEED(10.000000, 40.000000, 0.000000, -10.000000, 10.000000, CCW)
SELECT_PLANE(YZ)
ARC_FEED(10.000000, 50.000000, -10.000000, 40.000000, -10.000000, CW)
"""
PART = "G21 G90 G17\nG0 X0 Y0 Z0\nG1 X8 F300\nY4\nM2\n"
TRAVERSE = "#d6604d"
VIEWS = {"from above": (0, 1), "from the front": (0, 2), "from the right": (1, 2)}
SVG = "{http://www.w3.org/2000/svg}"


@dataclass(frozen=True, slots=True)
class View:
    """A view as it is found in a picture: its frame, how a length on the page is told by the numbers beside it, and the
    data of the paths in it, by their colours."""

    frame: tuple[int, int, int, int]
    columns: dict[Fraction, int]
    rows: dict[Fraction, int]
    paths: dict[str, list[str]]

    def millimetres(self, x: int, y: int) -> tuple[float, float]:
        """What a place on the page is by the numbers, in mm."""
        return _read(self.columns, x), _read(self.rows, y)

    def points(self, colour: str) -> list[list[tuple[float, float]]]:
        """The corners of the runs of a colour, in mm; an arc's are its ends."""
        found = []
        for data in self.paths.get(colour, []):
            for run in data.split("M")[1:]:
                run = re.sub(r"A\d+ \d+ 0 0 [01] ", " ", run).replace("L", " ")
                numbers = list(map(int, run.replace("Z", "").split()))
                found.append([self.millimetres(x, y) for x, y in zip(numbers[::2], numbers[1::2], strict=True)])
        return found


def _read(ticks: dict[Fraction, int], place: int) -> float:
    """A number by two ticks that are far apart."""
    (low, at_low), (high, at_high) = min(ticks.items()), max(ticks.items())
    return round(float(low + (high - low) * Fraction(place - at_low, at_high - at_low)), 2)


def views(svg: str) -> dict[str, View]:
    """The views along an axis."""
    elements = list(ElementTree.fromstring(svg))
    found = {}
    for number, element in enumerate(elements):
        name = (element.text or "").partition(":")[0]
        if element.tag != SVG + "text" or name not in VIEWS:
            continue
        columns, rows, rest = {}, {}, elements[number + 2:]
        while rest and rest[0].tag == SVG + "text":
            label = rest.pop(0)
            if label.get("text-anchor") == "middle":
                columns[Fraction(label.text)] = int(label.get("x"))
            else:
                rows[Fraction(label.text)] = int(label.get("y")) - 400  # where its line is
        frame = tuple(int(rest[0].get(key)) for key in ("x", "y", "width", "height"))
        paths: dict[str, list[str]] = {}
        for path in rest[0].iter(SVG + "path"):
            if path.get("fill") == "none":
                paths.setdefault(path.get("stroke"), []).append(path.get("d"))
        found[name] = View(frame, columns, rows, paths)
    return found


class Plot(InFolder):
    """Pictures and figures."""

    def plot(self, *words: str, text: str = "") -> subprocess.CompletedProcess[str]:
        """Runs it, in this process."""
        out, error = TextIOWrapper(BytesIO(), "utf-8"), StringIO()
        given = mock.patch.object(sys, "stdin", TextIOWrapper(BytesIO(text.encode())))
        with redirect_stdout(out), redirect_stderr(error), given, going_on():
            status = main(["--ngc", ngc(), *words])
        return subprocess.CompletedProcess(words, status, out.buffer.getvalue().decode(), error.getvalue())

    def figures(self, *words: str) -> list[str]:
        """What it says beside the picture."""
        done = self.plot(*words, "--output", "x.svg", "--force")
        self.assertEqual((done.stderr, done.returncode), ("", 0))
        return done.stdout.splitlines()

    def test_lines_stand_where_the_numbers_say(self) -> None:
        """The corners of a square, of a plunge and of a traverse, in each view, by the numbers of its ticks."""
        found = views(self.plot(text=SQUARE).stdout)
        self.assertEqual(set(found), set(VIEWS))
        deep = "#053061"
        above = found["from above"].points(deep)
        self.assertEqual(above[0][:5], [(0, 0), (40, 0), (40, 30), (30, 40), (0, 40)])
        self.assertEqual(found["from the front"].points(deep)[0][:3], [(0, 5), (0, -10), (40, -10)])
        self.assertEqual(found["from the front"].points(TRAVERSE), [[(0, 0), (0, 5)]])
        self.assertEqual(found["from the right"].points(TRAVERSE), [[(0, 0), (0, 5)]])
        self.assertEqual(found["from above"].points(TRAVERSE), [])  # straight down is no line there

    def test_arcs(self) -> None:
        """An arc is one where it is a circle, of the radius that the ticks say, and bends the right way: the sweep of
        SVG is 1 for clockwise on the page."""
        found = views(self.plot(text=SQUARE).stdout)
        for name, radius, sweep, end in (("from above", 10, 0, (30, 40)), ("from the front", 10, 1, (10, 0)),
                                         ("from the right", 10, 1, (50, -10))):
            view = found[name]
            arcs = [arc for data in sum(view.paths.values(), [])
                    for arc in re.findall(r"A(\d+) \1 0 0 ([01]) (\d+) (\d+)", data)]
            wide = abs(max(view.columns.values()) - min(view.columns.values()))
            scale = wide / float(max(view.columns) - min(view.columns))
            self.assertEqual([(round(int(r) / scale, 2), int(turn), view.millimetres(int(x), int(y)))
                              for r, turn, x, y in arcs], [(radius, sweep, end)], name)

    def test_fits_the_cuts(self) -> None:
        """A traverse that goes on far beyond the cuts doesn't make them small; it is told."""
        far = ("STRAIGHT_TRAVERSE(10.000000, 50.000000, 100.000000)\n"
               "STRAIGHT_TRAVERSE(-900.000000, 0.000000, 100.000000)\n")
        near, drawn = (self.plot(text=text).stdout for text in (SQUARE, SQUARE + far))
        tall = [int(re.search(r'viewBox="0 0 96000 (\d+)"', svg)[1]) for svg in (near, drawn)]
        self.assertLess(tall[1], tall[0] * 13 // 10)
        self.assertIn(">not shown: traverses to X -900.000, Z 100.000 mm<", drawn)
        self.assertNotIn("not shown", near)
        self.assertEqual(views(drawn)["from above"].points("#053061")[0][:3], [(0, 0), (40, 0), (40, 30)])

    def test_all_on_the_page(self) -> None:
        """Whatever the job's shape is, views stand on the page and beside one another, and each has numbers."""
        shapes = ((300, 1, 1), (1, 300, 1), (1, 1, 300), (300, 300, 300), (0.002, 0, 0), (0, 0, 0), (5, 700, 0.5))
        for shape in shapes:
            end = ", ".join(f"{size:.6f}" for size in shape)
            svg = self.plot(text=f"SET_FEED_RATE(60.000000)\nSTRAIGHT_FEED({end})\n").stdout
            height = int(re.search(r'viewBox="0 0 96000 (\d+)"', svg)[1])
            self.assertLess(height, 130_000, shape)
            frames = [tuple(map(int, box)) for box in re.findall(
                r'<svg x="(\d+)" y="(\d+)" width="(\d+)" height="(\d+)"', svg)]
            self.assertEqual(len(frames), 4)
            for x, y, width, tall in frames:
                self.assertTrue(0 < x and x + width < 96_000 and 0 < y and y + tall < height, (shape, frames))
            for (x, y, width, tall), (u, v, wide, deep) in combinations(frames, 2):
                self.assertTrue(x + width < u or u + wide < x or y + tall < v or v + deep < y, (shape, frames))
            for view in views(svg).values():
                self.assertTrue(view.columns and view.rows, (shape, view))

    def test_marks(self) -> None:
        """The work's zero stands where the origin and the tool's length put it; start, end and the machine's zero."""
        head = "SET_ORIGIN_OFFSETS(10.000000, 20.000000, -10.000000)\nUSE_TOOL_LENGTH_OFFSET(4.000000)\n"
        drawn = self.plot("--at", "30", "20", "-5", text=head + SQUARE).stdout
        for said in ("work zero: X 10.000 Y 20.000 Z -6.000", "machine zero", "start: X 0.000 Y 0.000 Z 0.000",
                     "end: X 10.000 Y 50.000 Z -10.000", "here: X 30.000 Y 20.000 Z -5.000",
                     "cut, the darker the deeper, down to Z -10.000", "traverse"):
            self.assertIn(f">{said}</text>", drawn)
        found = views(drawn)
        rings = re.findall(r'<circle cx="(\d+)" cy="(\d+)" r="600" fill="#ffffff"', drawn)
        self.assertEqual([view.millimetres(int(x), int(y)) for view, (x, y) in zip(found.values(), rings)],
                         [(10, 20), (10, -6), (20, -6)])
        (arm, _), _ = found["from above"].points("#b35806")
        self.assertEqual([round(number) for number in arm], [29, 21])
        self.assertIn(">work and machine zero</text>", self.plot(text=SQUARE).stdout)

    def test_arrows(self) -> None:
        """Heads point the way that the tool goes, here to the right and then up."""
        drawn = self.plot(text="SET_FEED_RATE(60.000000)\nSTRAIGHT_FEED(40.000000, 0.000000, 0.000000)\n"
                               "STRAIGHT_FEED(40.000000, 40.000000, 0.000000)\n").stdout
        heads = [tuple(map(int, re.findall(r"-?\d+", data)))
                 for data in re.findall(r'fill="#053061" d="([^"]*)"', drawn)]
        self.assertEqual(len(heads), 2)
        (tip, tip_y, left, _, _, _), (up, up_y, _, low, _, _) = heads
        self.assertTrue(tip > left and up_y < low, heads)

    def test_examples(self) -> None:
        """The pictures beside the examples are what it draws, and all their numbers are whole."""
        for name in NAMES:
            settings = EXAMPLES / "mill.toml" if name == "mill" else "first.toml"
            self.figures(str(EXAMPLES / f"{name}.txt"), "--settings", str(settings), "--title", f"{name}.ngc")
            drawn = Path("x.svg").read_text()
            self.assertEqual(drawn, (EXAMPLES / f"{name}.svg").read_text(), name)
            for element in ElementTree.fromstring(drawn).iter():
                for key, value in element.attrib.items():
                    self.assertNotIn(".", value, (name, key))

    def test_figures_of_examples(self) -> None:
        """Times that are known otherwise: a traverse of 300 mm at 3,000 mm a minute takes 6 s, a cut at 300 60 s."""
        self.assertEqual(self.figures(str(EXAMPLES / "mill.txt"), "--settings", str(EXAMPLES / "mill.toml"))[2:], [
            "travel    X -150.000 to 150.000   Y -100.000 to 100.000   Z -200.000 to 0.000 mm",
            "tool 2    cutting 1 min 0.700 s   traverse 3.700 s   in all 1 min 4.400 s"])

    def test_exact_times(self) -> None:
        """The times are those of the pulses that `ngc run` hands out for the program itself."""
        program = ("G21 G90 G17\nF100\nG93 G1 X1 F20\nG2 X2 Y0 I0.5 J0 F5\nG94\nT1 M6\nG1 Y1\nG4 P0.25\nG0 X2.5 Z0.3\n"
                   "G18 G3 X2.75 Z0.55 I0.25 K0\nG19 G2 Y1.2 J0.1 K0\nM2\n")
        Path("p.ngc").write_text(program)
        Path("p.txt").write_bytes(subprocess.run([ngc(), "dry", "p.ngc"], capture_output=True, check=True).stdout)
        self.device()
        self.run_ngc(f"tool 1 50\nload {len(program)}\n{program}start\ntick 1000000\n")
        lines = [line.split() for line in Path("out").read_text().splitlines()]
        moves = sum(int(line[4]) for line in lines if line[0] == "P")
        text = self.figures("p.txt", "--settings", "first.toml")
        out = self.figures("out", "--settings", "first.toml")
        self.assertEqual(text[-1].split("in all ")[1], duration(moves + 250_000))
        self.assertEqual(out[-1].split("in all ")[1], duration(moves + 250_000))
        self.assertIn("no tool   cutting 15.000 s", text)  # a twentieth and a fifth of a minute
        self.assertEqual(out[0], text[1])  # the extents of all moves

    def test_times_in_parts(self) -> None:
        """Moves that don't fit in one program, by bytes or by pulses, have the same times."""
        steps = list(of_canonical(read_commands((EXAMPLES / "pocket.txt").read_bytes())))
        whole = timed(ngc(), "first.toml", steps)
        for name, most in (("MOST_PROGRAM", 300), ("MOST_PULSES", 30_000)):
            with mock.patch.object(timing, name, most):
                self.assertEqual(timed(ngc(), "first.toml", steps), whole)
        # the first level: down 3 mm at F200, 8 mm at F900, a diagonal of 4 mm and 4 mm, 16 mm
        self.assertEqual([step.us for step in whole[2:6]], [900_000, 536_000, 380_000, 1_072_000])

    def test_out(self) -> None:
        """An OUT: steps of the settings from a point on; a part of a line at its end isn't drawn."""
        Path("out").write_text("S 1 0.000000 0 0 3 3\n" + "P 1 0 -1 1000\n" * 2000 + "D 500\nP 0 1 0 50\nP 0 ")
        done = self.plot("out", "--settings", "first.toml", "--from", "1", "2", "-0.5", "--output", "x.svg")
        self.assertEqual((done.returncode, done.stderr),
                         (0, "ngc-plot: out: the part of a line at its end isn't drawn\n"))
        self.assertEqual(done.stdout, """all moves X 1.000 to 3.000   Y 2.000 to 2.001   Z -2.500 to -0.500 mm
travel    X -1000.000 to 1000.000   Y -1000.000 to 1000.000   Z -1000.000 to 1000.000 mm
tool 3    moves 2.000 s   waits 0.001 s   in all 2.001 s
""")
        view = views(Path("x.svg").read_text())["from the front"]
        self.assertEqual(view.points("#92c5de")[0], [(1, -0.5), (1.29, -0.79)])  # a seventh of the way down
        done = self.plot("out")
        self.assertEqual((done.returncode, done.stderr.splitlines()[0]), (0, "ngc-plot: out: its steps are taken as"
                                                                          " 0.001 mm; name the machine's settings by"
                                                                          " --settings FILE"))
        self.assertIn(">move, the darker the deeper, down to Z -2.000</text>", done.stdout)

    def test_travel(self) -> None:
        """The travel is a frame where one of its ends is near, and isn't drawn where none is."""
        Path("t.txt").write_text(SQUARE)
        Path("near.toml").write_text(FIRST.replace("[1000000000, 1000000000, 1000000000]", "[41000000, 90000000, 0]")
                                     .replace("-1000000000", "-60000000"))
        self.figures("t.txt", "--settings", "first.toml", "--title", "a < b \udcff")
        self.assertNotIn("end of the travel", Path("x.svg").read_text())
        self.assertIn(">a &lt; b \\xff</text>", Path("x.svg").read_text())
        Path("t.txt").write_text(SQUARE.replace("5.000000)", "0.000000)", 1))
        self.figures("t.txt", "--settings", "near.toml")
        drawn = Path("x.svg").read_text()
        self.assertIn(">end of the travel</text>", drawn)
        boxes = re.findall(r'<rect x="(-?\d+)" y="(-?\d+)" width="(\d+)" height="(\d+)" fill="none" stroke="#999999"'
                           ' stroke-width="200"', drawn)
        self.assertEqual(len(boxes), 3)  # above the end of X is near, from the front that of Z too, from the right it
        x, y, width, _ = map(int, boxes[1])
        self.assertEqual(views(drawn)["from the front"].millimetres(x + width, y), (41, 0))

    def test_shades(self) -> None:
        """The least depth has the lightest shade of eight, the greatest the darkest, and those between lie between."""
        ends = ((1, 0), (2, 0), (3, -4), (4, -7))
        feeds = "".join(f"STRAIGHT_FEED({x}.000000, 0.000000, {z}.000000)\n" for x, z in ends)
        drawn = self.plot(text="SET_FEED_RATE(60.000000)\n" + feeds).stdout
        # of seven parts from 146, 197, 222 to 5, 48, 97 none, four, seven
        above = views(drawn)["from above"]
        for shade, run in (("#92c5de", [(0, 0), (2, 0)]), ("#416f96", [(2, 0), (3, 0)]), ("#053061", [(3, 0), (4, 0)])):
            self.assertEqual(above.points(shade), [run])

    def test_inverse_time(self) -> None:
        """Without settings a move under G93 takes its part of a minute, and a traverse has a length alone."""
        text = ("INVERSE_TIME(20.000000)\nSTRAIGHT_FEED(1.000000, 0.000000, 0.000000)\nSET_FEED_RATE(60.000000)\n"
                "STRAIGHT_FEED(3.000000, 0.000000, 0.000000)\nSTRAIGHT_TRAVERSE(0.000000, 0.000000, 4.000000)\n"
                "DWELL(0.250000)\n")
        Path("t.txt").write_text(text)
        self.assertEqual(self.figures("t.txt")[-2:], [
            "no tool   cutting about 5.000 s   traverse 5.000 mm   waits 0.250 s",
            "times by length and feed, without traverses; exact with --settings"])

    def test_refused(self) -> None:
        """A text that ends with a refused line is drawn up to there; status 1."""
        done = self.plot(text=TEXT + "REFUSED line 9: B4 GroupTwice\n")
        self.assertEqual((done.stdout, done.returncode), (self.plot(text=TEXT).stdout, 1))
        self.assertEqual(done.stderr, "ngc-plot: standard input:9: B4 GroupTwice: two words of one G group or of one M"
                                      " group, those left out among them; the picture ends before that line\n")
        self.assertTrue(self.plot(text="G0 X1\nQ1\nM2\n").stderr.endswith("\n  ngc-check FILE says what to write\n"))

    def test_program(self) -> None:
        """A program is drawn as what `ngc dry` prints of it, from the work's zero that is named."""
        Path("part.ngc").write_text(PART)
        text = subprocess.run([ngc(), "dry", "part.ngc"], capture_output=True, text=True, check=True).stdout
        drawn = self.plot("part.ngc", "--title", "").stdout
        self.assertEqual(drawn, self.plot("--title", "", text=text).stdout)
        self.assertEqual(self.plot("-", "--title", "", text=PART).stdout, drawn)
        moved = self.plot("part.ngc", "--origin", "30", "20", "-41.5").stdout
        self.assertIn(">work zero: X 30.000 Y 20.000 Z -41.500</text>", moved)
        self.assertEqual(views(moved)["from above"].points("#053061")[0][-2:], [(38, 20), (38, 24)])

    def test_program_over_a_device(self) -> None:
        """The device's origin and the machine's point count, for the times too: 2 mm down at 1,200 mm a minute take 0.1
        seconds, 12 mm at 300 2.4."""
        Path("part.ngc").write_text(PART)
        self.device()
        self.run_ngc("reference 5 6 0\nmdi G10 L2 P1 X30 Y20 Z-10\ntick 9\nmdi G0 G90 X0 Y0 Z2\ntick 200000\nquit\n")
        done = self.plot("part.ngc", "--device", "mill.dev", "--settings", "first.toml")
        self.assertEqual((done.stderr, done.returncode), ("", 0))
        self.assertIn(">start: X 30.000 Y 20.000 Z -8.000</text>", done.stdout)
        self.assertIn(">no tool   cutting 2.400 s   traverse 0.100 s   in all 2.500 s</text>", done.stdout)

    def test_program_refused(self) -> None:
        """A refused line ends the picture, and the next step is told."""
        Path("part.ngc").write_text(PART.replace("M2", "G0 Z2000\nM2"))
        done = self.plot("part.ngc", "--output", "x.svg")
        self.assertEqual((done.returncode, done.stderr.splitlines()), (1, [
            "ngc-plot: part.ngc:5: X2 OutsideTravel: the end of a move lies outside the travel, or an extreme that an"
            " arc passes does; the picture ends before that line",
            "  say where the work is by --device DEVICE or --origin X Y Z"]))
        Path("part.ngc").write_text(PART.replace("G1", "G1 G41"))
        done = self.plot("part.ngc", "--output", "y.svg")
        self.assertEqual((done.returncode, done.stderr.splitlines()[1]), (1, "  ngc-check part.ngc says what to write"))

    def test_no_move(self) -> None:
        """Nothing moves."""
        done = self.plot(text="PROGRAM_END()\n")
        self.assertEqual((done.stderr, done.returncode), ("", 0))
        ElementTree.fromstring(done.stdout)

    def test_errors(self) -> None:
        """What ends with status 2, and why."""
        Path("bad.toml").write_text(FIRST.replace("= 50\n", "= 0\n"))
        Path("small.toml").write_text(FIRST.replace("[1000000000, 1000000000, 1000000000]", "[0, 0, 0]"))
        Path("t.txt").write_text(TEXT)
        Path("out").write_text("P 1 0 0 50\n")
        Path("old.svg").write_text("<svg/>")
        Path("broken").write_text("PROGRAM_END()\nX1\n")
        Path("short").write_text("P 1 0 0 50\nP 1 0 0 49\n")
        Path("part.ngc").write_text(PART)
        cases = (
            (("t.txt", "--origin", "1", "2", "3"), "error: --device, --origin and --block-delete are of a program, and"
             " this is canonical text"),
            (("out", "--device", "mill.dev"), "error: --device, --origin and --block-delete are of a program, and this"
             " is an OUT"),
            (("none.txt",), "none.txt: No such file or directory"),
            ((".",), ".: Is a directory"),
            (("t.txt", "--settings", "none.toml"), "none.toml: No such file or directory"),
            (("t.txt", "--settings", "bad.toml"), "bad.toml: S5 OutOfLimits: a number is beyond its limits\n    line 5:"
             " period_us = 0 (S5): it takes a whole number of microseconds, 1 to 1,000,000"),
            (("t.txt", "--settings", "small.toml"),
             "ngc run: refused X2 OutsideTravel: G0 X10.000000 Y0.000000 Z0.000000"),
            (("short", "--settings", "first.toml"),
             "short: line 2: a period of 49 us, and period_us of the settings is 50"),
            (("broken",), "broken: line 2: not a command of canonical text: X1"),
            (("t.txt", "--at", "1", "2", "x"), "not a number of millimetres with at most six decimals: x"),
            (("t.txt", "--output", "none/x.svg"), "none/x.svg: No such file or directory"),
            (("t.txt", "--output", "out"), "out: it is an OUT, which isn't written over; name another file"),
            (("t.txt", "--output", "none.txt/../t.txt"), "none.txt/../t.txt: No such file or directory"),
            (("t.txt", "--output", "./t.txt", "--force"),
             "./t.txt: it is what is read here, and isn't written over; name another file"),
            (("t.txt", "--output", "old.svg"), "old.svg: it is there already; --force writes over it"),
        )
        for words, said in cases:
            done = self.plot(*words)
            self.assertEqual((done.stdout, done.returncode), ("", 2))
            self.assertIn(f"ngc-plot: {said}\n", done.stderr)

    def test_other_programs(self) -> None:
        """A program in the place of `ngc` that makes no device, or hands out nothing."""
        Path("t.txt").write_text(TEXT)
        for script, said in (('[ "$1" = dry ]', "other format: status 1"),
                             ('[ "$1" != run ]', "ngc ended with status 1")):
            Path("other").write_text(f"#!/bin/sh\n{script}\n")
            Path("other").chmod(0o755)
            done = self.tool("ngc-plot", "--ngc", "./other", "t.txt", "--settings", "first.toml")
            self.assertEqual((done.stdout, done.returncode), ("", 2))
            self.assertEqual(done.stderr.replace("./", ""), f"ngc-plot: {said}\n")


class Geometry(unittest.TestCase):
    """Points of arcs, and numbers."""

    def test_quarter(self) -> None:
        """Sixteen chords, all points at the radius to some nanometres, the ends as they are given."""
        points = arc_points((10_000_000, 0, 0), (0, 10_000_000, 16_000_000), Arc("XY", (0, 0), True))
        self.assertEqual((len(points), points[0], points[-1]), (17, (10_000_000, 0, 0), (0, 10_000_000, 16_000_000)))
        for number, (x, y, z) in enumerate(points):
            self.assertLess(abs(x * x + y * y - 10**14), 10**9)
            self.assertLess(abs(z - number * 10**6), 100)

    def test_the_long_way(self) -> None:
        """Clockwise it is three quarters, by the two points between."""
        points = arc_points((10_000_000, 0, 0), (0, 10_000_000, 0), Arc("XY", (0, 0), False))
        self.assertEqual((points[16], points[32], len(points)), ((0, -10_000_000, 0), (-10_000_000, 0, 0), 49))

    def test_full_turns_in_planes(self) -> None:
        """An end at the start is once round, in each plane from its first axis to its second."""
        cases = (("XY", (5, 0, 0), (0, 5, 0)), ("XZ", (0, 0, 5), (5, 0, 0)), ("YZ", (0, 5, 0), (0, 0, 5)))
        for plane, start, quarter in cases:
            points = arc_points(start, start, Arc(plane, (0, 0), True))
            self.assertEqual((len(points), points[16], points[-1]), (65, quarter, start))

    def test_small_arc(self) -> None:
        """An arc of less than a quarter goes the short way, also across an axis."""
        points = arc_points((4_000_000, -3_000_000, 0), (4_000_000, 3_000_000, 0), Arc("XY", (0, 0), True))
        self.assertEqual((len(points), points[8]), (17, (5_000_000, 0, 0)))

    def test_numbers(self) -> None:
        """Rounded half away from zero; times half up."""
        self.assertEqual([micrometres(nm) for nm in (499, 500, -499, -500, 1499)], [0, 1, 0, -1, 1])
        self.assertEqual([duration(us) for us in (0, 499, 500, 59_999_500, 3_723_004_000)],
                         ["0.000 s", "0.000 s", "0.001 s", "1 min 0.000 s", "1 h 2 min 3.004 s"])
