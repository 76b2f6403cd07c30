"""A program from one of its lines on: what is in force there, the way there, and what is refused by name. Lines before
are never run, and nothing moves straight to the line's place."""
import sys
import unittest
from dataclasses import replace
from pathlib import Path
from unittest import mock

sys.path.insert(0, str(Path(__file__).resolve().parent))

from test_operator import Core, FileLink

from ngc_tools.formats.out import Switch
from ngc_tools.formats.position import Position
from ngc_tools.operator.sentences import LOOK, LOOK_SWITCHED

PART = """G21 G90 G17 G54 G94
(a remark)
G0 X1 Y1
G43 H2
S800 M3
M8
G0 Z4
G1 Z1 F300
G1 X6 F600
Y5
X1
G0 Z4
M2
"""
"""Tool 2 is 2 mm long: Z4 of the work is machine Z6."""
DOWN = "How fast down, on the last leg, in mm a minute? F{0} is in force there; no more is taken. Nothing takes {0}: "
STORES = ("The stored program is then {} of it and those after it, behind the way there: {}, a look, up, over, down.\n"
          "yes stores and begins it, anything else does nothing: ")
UP = "by legs then: straight up, over, and down to X {} Y {} Z {}. Up to which Z, in machine mm, from {} to {}? "


class FromLine(Core):
    """A machine with steps of 10 um and a travel of 50 mm each way, which stands at X9 Y9 Z2, tool 2 in the spindle."""

    def setUp(self) -> None:
        """The tools, the tool in the spindle, and a program that broke off."""
        super().setUp()
        settings = Path("first.toml").read_text().replace("1000000000", "50000000")
        Path("first.toml").write_text(settings.replace("[1000, 1000, 1000]", "[10000, 10000, 10000]"))
        self.link = FileLink()
        self.link.position = Position((10_000,) * 3)
        self.begin(self.link)
        self.do("tool 2 2", "T2 M6", "G21 G90 G17 G54 G94", "G0 X9 Y9 Z2")
        self.begun = len(self.out())

    def path(self) -> list[tuple[int, ...]]:
        """Where the machine came since it was begun: each corner, in um."""
        at, found, way = (9000, 9000, 2000), [(9000, 9000, 2000)], None
        for line in self.out()[self.begun:]:
            if line[0] != "P":
                continue
            step = tuple(map(int, line.split()[1:4]))
            if step == way:
                found.pop()
            way, at = step, tuple(one + 10 * more for one, more in zip(at, step))
            found.append(at)
        return found

    def switches(self) -> list[str]:
        """The switches since then."""
        return [line for line in self.out()[self.begun:] if line[0] == "S"]

    def goes(self, number: int, *answers: str, text: str = PART) -> list[str]:
        """What is said as it goes on from a line."""
        self.face.answers = ["yes"]  # where a line would be refused
        self.operator.load("part.ngc", text.encode())
        return self.do(f"from {number}", answers=answers)

    def refuses(self, number: int, why: str, text: str) -> None:
        """It says why not, and nothing is done."""
        said = self.goes(number, text=text)
        self.assertEqual((self.face.asked, len(said)), ([], 1), said)
        self.assertIn(why, said[0])
        self.assertEqual((len(self.out()), self.status().does), (self.begun, "idle"))
        self.assertEqual(self.operator.session.program.text.decode(), text)

    def test_goes(self) -> None:
        """From line 10: the spindle and the coolant come on, somebody looks, the legs, and then lines 10 to 13."""
        said = self.goes(10, "20", "300", "yes", "yes")
        self.assertEqual(said[:3], [
            "line 10: Y5", "in force there and not now: G43 H2; F600; S800; M3; M9; M8",
            "the tool is at X6 Y1 Z1 there, machine X6 Y1 Z3, by G54, tool length 2; the machine stands at X9 Y9 Z2"])
        self.assertEqual(self.face.asked, [
            UP.format("6.000000", "1.000000", "3.000000", "3.000000", "50.000000") + "Nothing ends: ",
            DOWN.format("600"),
            STORES.format("line 10", "the spindle, clockwise at 800 and flood on"), LOOK_SWITCHED])
        self.assertIn("up 18.000 mm, and over 8.544 mm, at the traverse rate; down 17.000 mm at F300", said)
        path = self.path()
        self.assertEqual(path[:2], [(9000, 9000, 2000), (9000, 9000, 20000)])
        self.assertEqual(path[-5:], [(6000, 1000, 20000), (6000, 1000, 3000), (6000, 5000, 3000), (1000, 5000, 3000),
                                     (1000, 5000, 6000)])
        self.assertTrue(all(z == 20000 for _, _, z in path[1:-4]))
        first = next(number for number, line in enumerate(self.out()[self.begun:]) if line[0] == "P")
        self.assertEqual(self.out()[self.begun:][first - 1], "S 1 800.000000 0 1 2 2")
        self.assertEqual(self.status().does, "idle")

    def test_numbers(self) -> None:
        """The lines keep the numbers that they have in the whole program, and what is stored says where it is of."""
        self.goes(10, "20", "", "yes", "yes")
        program = self.operator.session.program
        way, first = program.way
        self.assertEqual((first, program.last, program.line(program.text.index(b"Y5\n"))), (10, 13, "Y5"))
        self.assertEqual(program.named_at(program.text.index(b"Y5\n")), "line 10")
        self.assertEqual((program.named(1), program.named(way)), ("line 1 of the way", f"line {way} of the way"))
        self.assertIn("next line 1 of the way of 13: (ngc: the way to line 10, tool 2)", self.do("where")[0])

    def test_no(self) -> None:
        """Without a yes to a question nothing moves; at the look what came on goes off, and `run` asks again.
        """
        for answers in (("",), ("20", "no"), ("20", "", "no")):
            self.assertEqual(self.goes(10, *answers)[-1], "nothing is done")
            self.assertEqual((len(self.out()), self.operator.session.program.text.decode()), (self.begun, PART))
        self.goes(10, "20", "", "yes", "no")
        self.assertEqual(self.path(), [(9000, 9000, 2000)])
        self.assertEqual(self.switches()[-1], "S 0 800.000000 0 0 2 2")
        self.assertEqual((self.status().does, self.status().place), ("idle", 0))
        self.do("run", answers=("30", "", "yes", "yes"))
        self.assertEqual(self.path()[1], (9000, 9000, 30000))
        self.assertEqual(self.path()[-1], (1000, 5000, 6000))

    def test_run_again(self) -> None:
        """Once the rest is through, `run` doesn't go to its line from wherever the machine stands: the way is asked
        anew, from there. So it is where the machine was moved, and the lines before aren't stored any more."""
        self.goes(10, "20", "", "yes", "yes")
        self.do("G0 X-9 Z30")
        self.begun = len(self.out())
        said = self.do("run", answers=("",))
        self.assertEqual((said[-1], len(self.out())), ("nothing is done", self.begun))
        self.assertEqual(self.face.asked[0][-43:], "from 32.000000 to 50.000000? Nothing ends: ")
        self.do("from 11", answers=("40", "", "yes", "yes"))
        self.assertEqual(self.operator.session.program.way[1], 11)
        self.assertIn("the lines before line 11 aren't stored any more", self.do("from 10")[0])

    def to_stop(self) -> None:
        """Line 10 is asked for, and the session stands at the stop where somebody is to look, as after it ended there.
        """
        self.load(PART)
        with mock.patch.object(self.operator.from_line, "_switch_back"), \
                mock.patch.object(self.operator.from_line, "load", self._once):
            self.do("from 10", answers=("20", "", "yes", "no"))
        self.assertEqual((self.status().does, self.path()), ("stopped", [(9000, 9000, 2000)]))
        self.begun = len(self.out())

    def _once(self, name: str, text: bytes) -> bool:
        return name != "the same" and self.operator.load(name, text)

    def test_moved_at_the_stop(self) -> None:
        """Where the machine was moved there, or a zero was set, the way of before isn't gone: it is asked for anew."""
        self.to_stop()
        self.do("G53 G0 Z40", "G0 X-30 Y-30", "G10 L2 P1 X2 Y0 Z0")
        self.begun = len(self.out())
        for word in ("run", "continue", "run anyway"):
            self.assertEqual(self.do(word, answers=("",))[-1], "nothing is done")
            self.assertIn("from 40.000000 to 50.000000?", self.face.asked[0])
        self.assertEqual(len(self.out()), self.begun)
        self.do("run", answers=("45", "", "yes", "yes"))
        out = [line for line in self.out()[self.begun:] if line[0] == "P"]
        self.assertEqual({line.rpartition(" ")[0] for line in out[:500]}, {"P 0 0 1"})  # up 5 mm, and nothing before
        self.assertNotIn("P 0 0 1 ", out[500])
        self.assertEqual(self.status().at, ("3.000000", "5.000000", "6.000000"))

    def test_other_tool_at_the_stop(self) -> None:
        """Another tool that is put in there isn't taken for the one of the line."""
        self.to_stop()
        self.do("M5", "T1 M6")
        self.begun = len(self.out())
        self.assertEqual(self.do("run", answers=("no",)), ["nothing is done"])
        self.assertEqual(self.face.asked, ["before line 10 tool 2 is in the spindle. yes does T2 M6 now, anything else"
                                           " ends: "])
        self.do("run", answers=("yes", "20", "", "yes", "yes"))
        self.assertEqual(self.status().at, ("1.000000", "5.000000", "6.000000"))
        self.assertEqual(self.switches()[0], "S 0 800.000000 0 1 2 1")

    def test_single(self) -> None:
        """With single block it holds after each line of the way, and `run` goes on with it."""
        self.do("single on")
        self.goes(10, "20", "", "yes", "yes")
        self.assertEqual((self.status().does, self.path()[-1]), ("held", (9000, 9000, 20000)))
        self.do(*["run"] * 3)
        self.assertEqual(self.path()[-1], (6000, 5000, 3000))
        self.do("single off", "run")
        self.assertEqual(self.path()[-1], (1000, 5000, 6000))

    def test_single_amid(self) -> None:
        """Single block that is touched while what is on there is switched on counts from then on, and is never another
        than it was touched."""
        begins, seen = self.operator.from_line.begins, []

        def begun() -> str | None:
            """What it is meanwhile."""
            seen.append(self.operator.session.single)
            return begins()

        for touched, before, ends in (("off", True, (1000, 5000, 6000)), ("on", False, (1000, 5000, 20000))):
            self.operator.session.single, self.face.given = before, [f"single {touched}"]
            with mock.patch.object(self.operator.from_line, "begins", begun):
                self.goes(10, "20", "", "yes", "yes")
            self.assertEqual((seen.pop(), self.operator.session.single, self.face.given), (before, not before, []))
            self.assertEqual(self.path()[-1], ends)

    def test_stands(self) -> None:
        """A spindle that the motors' side doesn't switch on: nobody is asked to look, and nothing moves."""
        said = self.link.ask
        with mock.patch.object(self.link, "ask", lambda: replace(said(), outputs=Switch(0, 0, False, False, 2, 2))):
            self.goes(10, "20", "", "yes")
        self.assertEqual((len(self.face.asked), self.path()), (3, [(9000, 9000, 2000)]))
        self.assertIn("the player doesn't switch that on, and nothing has moved: it says why at its own terminal",
                      [text for _, text in self.face.said])
        self.assertEqual((self.status().does, self.status().place, self.switches()[-1][:3]), ("idle", 0, "S 0"))

    def test_tool(self) -> None:
        """A tool that isn't in is put in first, by its own line; a no does nothing."""
        text = PART.replace("G43 H2", "T1 M6").replace("Z4", "Z5")
        self.assertEqual(self.goes(10, "no", text=text), ["nothing is done"])
        self.assertEqual(self.face.asked, ["before line 10 tool 1 is in the spindle. yes does T1 M6 now, anything else"
                                           " ends: "])
        self.goes(10, "yes", "20", "", "yes", "yes", text=text)
        self.assertEqual(self.switches()[0], "S 0 0.000000 0 0 1 1".replace("1 1", "1 2"))
        self.assertEqual(self.switches()[1], "S 0 0.000000 0 0 1 1")
        self.assertEqual(self.path()[-1], (1000, 5000, 5000))

    def test_length_of_now(self) -> None:
        """A length that the table has now counts, not that of the time when the program broke off."""
        self.do("G43 H2", "tool 2 3")
        self.goes(10, "20", "", "yes", "yes")
        self.assertIn((6000, 1000, 4000), self.path())
        self.assertEqual(self.path()[-1], (1000, 5000, 7000))

    def test_modes(self) -> None:
        """Modes come back as they are there: inches, another system, G91, G0 without its word."""
        text = ("G20 G90 G17 G55 G94\nG10 L2 P2 X0 Y0 Z0\n" "G0 X0.1 Y0.1 Z0.2\nG91\nX0.1\nX0.1\nG90 G0 Z0.3\nM2\n")
        said = self.goes(6, "20", "600", "yes", "yes", text=text)
        self.assertIn("in force there and not now: G20 G91 G55", said)
        self.assertIn("the spindle stands there: no line before line 6 switches it on", said)
        self.assertEqual(self.face.asked[-1], LOOK)
        self.assertEqual(self.path()[-4:], [(5080, 2540, 20000), (5080, 2540, 5080), (7620, 2540, 5080),
                                            (7620, 2540, 7620)])

    def test_all_modes(self) -> None:
        """All that lines before it left in force is so again before its line, and nothing else: over another system
        than G54, whose origin is X2 Y3 Z1, tool 2 comes to machine X4 Y4 Z12, and from there 1 mm on."""
        self.do("G10 L2 P9 X2 Y3 Z1")
        self.begun = len(self.out())
        text = ("G21 G90 G18 G59.3 G94 G99 G61\nG43 H2\nT1\nS700 M4\nM7\nM8\nM49\nG0 X1 Y1\nG0 Z9\nG1 X2 F300\nG91\n"
                "X1\nM0\nM2\n")
        said = self.goes(12, "20", "", "yes", "yes", text=text)
        self.assertEqual(said[1:3], [
            "in force there and not now: G43 H2; F300; G18 G91 G99 G59.3 G61; T1; S700; M4; M9; M7; M8",
            "the tool is at X2 Y1 Z9 there, machine X4 Y4 Z12, by G59.3 at X2 Y3 Z1, tool length 2; the machine stands"
            " at X9 Y9 Z2"])
        self.assertEqual(self.path()[-2:], [(4000, 4000, 12000), (5000, 4000, 12000)])
        state = self.operator.stored().state
        self.assertEqual({name: getattr(state, name) for name in (
            "unit", "distance", "plane", "feed_mode", "retract", "path_mode", "system", "motion", "speed", "spindle",
            "mist", "flood", "selected", "overrides", "feed_nm_per_min", "tool_length_nm")}, {
                "unit": 21, "distance": 91, "plane": 18, "feed_mode": 94, "retract": 99, "path_mode": 0, "system": 9,
                "motion": 1, "speed": 700_000_000, "spindle": 2, "mist": True, "flood": True, "selected": 1,
                "overrides": False, "feed_nm_per_min": 300_000_000, "tool_length_nm": 2_000_000})
        self.assertEqual(self.switches()[-1], "S 2 700.000000 1 1 1 2")

    def test_g92(self) -> None:
        """A G92 offset that is in force counts: by it machine X9 is X10, so that X6 is machine X5."""
        self.do("G92 X10")
        said = self.goes(10, "20", "", "yes", "yes")
        self.assertIn("the tool is at X6 Y1 Z1 there, machine X5 Y1 Z3, by", said[2])
        self.assertEqual(self.path()[-4:], [(5000, 1000, 3000), (5000, 5000, 3000), (0, 5000, 3000), (0, 5000, 6000)])

    def test_ended_at_first(self) -> None:
        """Where the way ends before its stop, as by a hold, nobody is asked to look, and nothing goes on."""
        text = PART.replace("S800 M3", "").replace("M8", "")
        for ended in (None, "refused", "idle"):
            with mock.patch.object(self.operator.from_line, "begins", lambda ended=ended: ended):
                self.goes(10, "20", "", "yes", text=text)
            self.assertEqual((len(self.face.asked), self.path()), (3, [(9000, 9000, 2000)]))

    def test_block_delete(self) -> None:
        """A line with a slash before it counts as it does now."""
        text = PART.replace("M8\n", "/G0 Y5\n")
        for switch, y in (("delete on", 1), ("delete off", 5)):
            self.do(switch)
            self.assertIn(f"the tool is at X6 Y{y} Z1 there, machine X6 Y{y} Z3, by G54, tool length 2; the machine"
                          " stands at X9 Y9 Z2", self.goes(10, "", text=text))

    def test_percent(self) -> None:
        """A percent program keeps its signs, and a carriage return its line: the numbers stay."""
        text = "%\r\n" + PART.replace("\n", "\r\n") + "%\r\n"
        self.goes(11, "20", "300", "yes", "yes", text=text)
        program = self.operator.session.program
        self.assertTrue(program.text.startswith(b"%\n(ngc: the way to line 11, tool 2)\n"), program.text[:60])
        self.assertEqual((program.named_at(program.text.index(b"Y5\r\n")), program.last), ("line 11", 15))
        self.assertEqual(self.path()[-1], (1000, 5000, 6000))

    def test_refused(self) -> None:
        """What can't be done rightly is refused by name, and nothing is stored."""
        head = "G21 G90 G17 G54 G94 G0 X1 Y1 Z5\n"
        self.refuses(1, "line 1 is the program's first: run begins with it", PART)
        self.refuses(99, "the program has 13 lines", PART)
        self.refuses(3, "isn't known: its X and Y and Z is where the program was begun", head[:19] + "\n\nG0 X1\nM2\n")
        self.refuses(4, "isn't known: its X is where", head[:19] + "\nG53 G0 Y0 Z0\n\nX1\nM2\n")

    def test_refused_lines(self) -> None:
        """Cycles, arcs, G93, offsets, parameters, and lines behind the program's end."""
        head = "G21 G90 G17 G54 G94\nG0 X1 Y1 Z5\n"
        for number, why, lines in (
                (4, "stands within the lines of a cycle, G81", "F100 G81 X2 R3 Z-1\nX3\nG80\n"),
                (4, "goes on with G2 of a line before it", "F100 G2 X3 Y1 I1\nX5 Y1 I1\nG1 X6\n"),
                (4, "G93 is in force before line 4", "G93 G1 X2 F10\nG1 X3 F10\nG94\n"),
                (4, "set an offset or a home", "G10 L2 P1 X3\nG0 X1\n"),
                (4, "set an offset or a home", "G92 X3\nG0 X1\n"),
                (4, "they use parameters that lines before it set", "#1=3\nG0 X#1\n"),
                (5, "the program ends before line 5", "M2\n(x)\nG0 X3\n"),
                (4, "before line 4, line 3: G0 Q\n", "G0 Q\nG0 X2\n")):
            with self.subTest(why):
                self.refuses(number, why, head + lines + "M2\n")

    def test_modes_of_now(self) -> None:
        """A program that leaves a mode to whatever is in force isn't gone on with in that of now."""
        self.do("G20")
        self.refuses(3, "G20 would be in force before line 3 since it is now",
                     "G90 G17 G54 G94\nG0 X0.1 Y0.1 Z0.2\nX1\nM2\n")

    def test_unknown(self) -> None:
        """Nothing is known before somebody tells where the machine stands, and nothing is done within a block."""
        self.assertIn("from N: the number of a line", self.do("from x")[0])
        self.load(PART)
        self.link.position.steps[0] += 5
        self.assertIn("it isn't known where the machine stands", self.do("from 10")[0])


if __name__ == "__main__":
    unittest.main()
