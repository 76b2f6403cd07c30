"""The offsets by a console: each is read from the device, written by a line that is shown, and put back by `undo`.

machine = program + origin + G92 offset + tool length, the last on Z alone (docs/LANGUAGE.md): so a machine point in a
system is the point less these three."""
import sys
import unittest
from pathlib import Path

sys.path.insert(0, str(Path(__file__).resolve().parent))

from test_operator import Core

from ngc_tools.operator.units import NoLength, Unit

USAGE = ("offset G55 X 12.5: which system, and which axes of its origin? offset G92 X 1 for the G92 offset, offset"
         " G92.1 for none, offset G43 H2 for the tool length in force, offset G49 for none")
SO_ALREADY = "that is so already: nothing is set"


class AtConsole(Core):
    """A console at a fresh device, with the tools of its settings."""

    def setUp(self) -> None:
        """Begins it."""
        super().setUp()
        self.begin()

    def first(self, *lines: str, answers: tuple[str, ...] = ()) -> list[str]:
        """What is said of a write: what it changes, the line, and its end."""
        said = self.do(*lines, answers=answers)
        return [said[0], said[1], said[-1]]

    def parameters(self, first: int) -> list[int]:
        """Three parameters, in millionths."""
        return [self.operator.stored().parameters[first + axis] for axis in range(3)]


class Reads(AtConsole):
    """`offsets`."""

    def test_all(self) -> None:
        """Each system with its origin and the place in it, what is in force of G92, the tool length and whose it is."""
        self.do("tool 1 50", "tool 2 20", "tool 3 50", "G10 L2 P1 X1 Y2 Z3", "G10 L2 P2 X-10 Z0.5", "G10 L2 P9 Y7")
        self.do("G0 X5 Y5 Z5", "G55", "G92 X4", "G43 H3", "T2 M6")
        # machine 6 7 8; by G55 X was 16 and is 4, so G92 is by 12
        self.assertEqual(self.do("offsets"), ["\n".join((
            "all in mm; the machine is at X6 Y7 Z8",
            "G54    at X1 Y2 Z3  here X-7 Y5 Z-45",
            "G55    at X-10 Y0 Z0.5  here X4 Y7 Z-42.5  in force",
            *(f"{name:6} at X0 Y0 Z0  here X-6 Y7 Z-42" for name in ("G56", "G57", "G58", "G59", "G59.1", "G59.2")),
            "G59.3  at X0 Y7 Z0  here X-6 Y0 Z-42",
            "G92 by X12 Y0 Z0, until the program's end",
            "tool length in force: 50 mm, that of slot 1 and 3"))])
        self.do("tool 1 51", "tool 3 49", "G92.2")
        self.assertEqual(self.do("offsets")[0].splitlines()[-2:], [
            "no G92 is in force; stored for G92.3 is X12 Y0 Z0", "tool length in force: 50 mm, no slot has it"])

    def test_stored_alone(self) -> None:
        """An origin that was stored by a parameter isn't in force before its system is selected."""
        self.do("#5221=4")
        lines = self.do("offsets")[0].splitlines()
        self.assertEqual(lines[1], "G54    at X0 Y0 Z0  here X0 Y0 Z0  in force")
        self.assertIn("G54 has X4 Y0 Z0 stored, which counts once it is selected anew", lines)

    def test_not_known(self) -> None:
        """Where the machine's place isn't known no point is told."""
        self.do("G10 L2 P3 X5")
        self.end()
        self.run_ngc("mdi G0 X0.005\ntick 3\nquit\n", "before")
        self.begin()
        self.do("abandon")
        lines = self.do("offsets")[0].splitlines()
        self.assertEqual(lines[0], "all in mm; the machine is at a place that is not known")
        self.assertEqual((lines[3], "here" in "".join(lines)), ("G56    at X5 Y0 Z0", False))


class Writes(AtConsole):
    """`offset`, and its `undo`."""

    def test_origin(self) -> None:
        """The axes that are named are set, of any system; it is told what changes, and put back once."""
        self.do("G10 L2 P2 X10 Y1")
        self.assertEqual(self.first("offset g55 x 12.5 z-.5"), [
            "G55: X 10 to 12.5 mm, by +2.5, Z 0 to -0.5 mm, by -0.5", "G10 L2 P2 X12.5 Z-0.5",
            "G55 is set. undo puts it back"])
        self.assertEqual((self.parameters(5241), self.face.asked), ([12_500_000, 1_000_000, -500_000], []))
        self.assertEqual(self.operator.stored().state.origin_nm, (0, 0, 0))  # that of G54, in force
        self.assertEqual(self.operator.touch.undoes, "G10 L2 P2 X10 Y1 Z0")
        self.do("undo")
        self.assertEqual(self.parameters(5241), [10_000_000, 1_000_000, 0])
        self.assertEqual(self.do("undo"), ["nothing to undo: it takes back the last zero, touch or offset, once"])
        self.do("offset G59.3 Y 1")
        self.assertEqual(self.parameters(5381), [0, 1_000_000, 0])
        self.assertEqual(len(self.out()), 0)  # nothing moves

    def test_each(self) -> None:
        """Each system is set by its name, where its parameters are, and put back; the others stay."""
        for number, name in enumerate(("G54", "G55", "G56", "G57", "G58", "G59", "G59.1", "G59.2", "G59.3")):
            self.do(f"offset {name} X 0.{number + 1} Y -2 Z 0.5")
            self.assertEqual(self.parameters(5221 + 20 * number), [100_000 * (number + 1), -2_000_000, 500_000])
            self.assertEqual([self.parameters(5221 + 20 * other) for other in range(9) if other != number],
                             [[0] * 3] * 8)
            self.do("undo")
            self.assertEqual(self.parameters(5221 + 20 * number), [0] * 3)

    def test_in_force(self) -> None:
        """Of the system in force all three axes are taken anew, which is told too."""
        self.do("#5222=3")
        self.assertEqual(self.first("offset G54 X 1")[:2], [
            "G54: X 0 to 1 mm, by +1, Y 0 to 3 mm, by +3", "G10 L2 P1 X1"])
        self.assertEqual(self.operator.stored().state.origin_nm, (1_000_000, 3_000_000, 0))
        self.do("undo")
        self.assertEqual(self.operator.stored().state.origin_nm, (0, 0, 0))

    def test_far(self) -> None:
        """What differs by more than 5 mm is asked, with the difference; `anyway` isn't."""
        self.do("offset G55 X 5")
        self.assertEqual(self.face.asked, [])
        self.assertEqual(self.do("offset G55 X 10.000001 Y1", answers=("no",)), ["nothing is set"])
        self.assertEqual(self.face.asked, ["G55: X 5 to 10.000001 mm, by +5.000001, Y 0 to 1 mm, by +1\n"
                                           "yes sets it: "])
        self.assertEqual(self.parameters(5241), [5_000_000, 0, 0])
        self.do("offset G55 X -1", answers=("yes",))
        self.assertEqual(self.parameters(5241), [-1_000_000, 0, 0])
        self.do("offset G55 X 100 anyway")
        self.assertEqual((self.parameters(5241)[0], self.face.asked), (100_000_000, []))

    def test_g92(self) -> None:
        """The offset itself is set, whatever unit is in force; what was stored and not in force comes back too."""
        self.do("G92 X-3", "G92.2", "G20")  # stored is 3, in force nothing
        self.assertEqual(self.first("offset G92 Y 1mm Z 0.1in"), [
            "G92: Y 0 to 1 mm, by +1, Z 0 to 2.54 mm, by +2.54", "#5211=0 #5212=1 #5213=2.54 G92.3",
            "G92 is set. undo puts it back"])
        self.assertEqual(self.operator.stored().state.g92_nm, (0, 1_000_000, 2_540_000))
        self.assertEqual(self.do("undo")[0], "#5211=3 #5212=0 #5213=0 G92.2")
        self.assertEqual((self.operator.stored().state.g92_nm, self.parameters(5211)), ((0, 0, 0), [3_000_000, 0, 0]))
        self.do("offset G92 X 2mm")
        self.assertEqual(self.first("offset G92.1")[:2], ["G92: X 2 to 0 mm, by -2", "G92.1"])
        self.assertEqual((self.operator.stored().state.g92_nm, self.parameters(5211)), ((0, 0, 0), [0, 0, 0]))
        self.assertEqual(self.do("undo")[0], "#5211=2 #5212=0 #5213=0 G92.3")
        self.assertEqual(self.operator.stored().state.g92_nm, (2_000_000, 0, 0))
        self.assertEqual(self.operator.stored().state.unit, 20)

    def test_length(self) -> None:
        """The length in force is that of a slot, or none; one of another tool than that in the spindle is asked."""
        self.do("tool 1 4", "tool 2 8")
        self.assertEqual(self.first("offset G43 H1"), [
            "the tool length in force: 0 to 4 mm, by +4", "G43 H1",
            "the tool length in force is set. undo puts it back"])
        self.assertEqual(self.do("offset G43 H2")[1], "G43 H2")
        self.assertEqual(self.do("undo")[0], "G43 H1")
        self.assertEqual(self.operator.stored().state.tool_length_nm, 4_000_000)
        self.do("offset G49")
        self.assertEqual(self.operator.touch.undoes, "G43 H1")
        self.do("tool 1 5")
        self.assertEqual(self.do("undo"), ["the tool length in force isn't any more what was set: nothing is done."
                                           " G43 H1 puts back what was before"])
        self.do("T1 M6")
        self.do("offset G43 H2", answers=("no",))
        self.assertEqual(self.face.asked, ["tool 1 is in the spindle, by its last M6, and that is the length of tool 2"
                                           "\nyes takes it: "])
        self.assertEqual(self.operator.stored().state.tool_length_nm, 0)
        self.do("offset G43 H2", answers=("yes", "yes"))  # it is more than 5 mm too
        self.assertEqual(self.operator.stored().state.tool_length_nm, 8_000_000)

    def test_length_of_no_slot(self) -> None:
        """A length that no slot has any more can't be put back, which is said; nor is something older then."""
        self.do("tool 1 4", "G43 H1", "tool 1 3", "offset G55 X 1")
        self.assertIn("undo can't put 4 mm back: no slot has that length", self.do("offset G43 H1"))
        self.assertEqual(self.do("undo"), ["nothing to undo: it takes back the last zero, touch or offset, once"])
        self.assertEqual(self.parameters(5241), [1_000_000, 0, 0])

    def test_refused(self) -> None:
        """What isn't understood, what changes nothing, what `ngc` refuses, and where no line is taken."""
        for typed in ("offset", "offset G55", "offset G53 X1", "offset G60 X1", "offset G55 Q1", "offset 55 X1",
                      "offset G43", "offset G43 X1", "offset G49 H1", "offset G92.1 X1", "offset G92", "offset G92.3"):
            self.assertEqual(self.do(typed), [USAGE], typed)
        self.assertEqual(self.do("offset G55 X"), ["not a number: "])
        self.assertEqual(self.do("offset G55 X1 X2"), ["X stands twice"])
        self.assertEqual(self.do("offset G43 H9"), ["tool 9 has no length: measure it first"])
        self.assertEqual(self.do("offset G55 X0"), [f"G55: {SO_ALREADY}"])
        self.assertEqual(self.do("offset G49"), [f"the tool length in force: {SO_ALREADY}"])
        self.assertIn("refused E3 OutOfRange", self.do("offset G55 X 99999999 anyway")[2])
        self.assertEqual(self.operator.touch.undoes, "")
        self.load("G0 X0.5\nM2\n")
        self.hold_after(2)
        self.do("run")
        self.assertEqual(self.status().half, "program")
        self.assertIn("No other line is done before that", self.do("offset G55 X1")[0])
        self.assertEqual(self.parameters(5241), [0, 0, 0])


class InInches(AtConsole):
    """`units`."""

    def test_units(self) -> None:
        """Numbers alone are taken where the unit chosen is that in force; else they say which they are."""
        self.assertEqual(self.do("units"), ["units mm"])
        self.assertEqual(self.do("units cm"), [
            "units mm, or units in: of the numbers of zero, offset and offsets; units alone says which"])
        self.assertEqual(self.do("units in"), ["units in"])
        refused = "millimetres are in force (G21), and inches are chosen: write 0.1in, or 0.1mm"
        self.assertEqual((self.do("offset G55 X 0.1"), self.do("zero X 0.1")), ([refused], [refused]))
        self.assertEqual(self.first("offset G55 X 0.1in")[:2], ["G55: X 0 to 0.1 in, by +0.1", "G10 L2 P2 X2.54"])
        self.do("G20")
        self.assertEqual(self.first("offset G55 X 0.15 Y2.54mm")[:2], [
            "G55: X 0.1 to 0.15 in, by +0.05, Y 0 to 0.1 in, by +0.1", "#5241=3.81 #5242=2.54 G10 L2 P2"])
        self.assertEqual(self.parameters(5241), [3_810_000, 2_540_000, 0])
        self.assertIn("G55    at X0.15 Y0.1 Z0  here X-0.15 Y-0.1 Z0", self.do("offsets")[0].splitlines())
        self.do("undo")
        self.assertEqual(self.parameters(5241), [2_540_000, 0, 0])
        self.do("zero X -1", answers=("yes",))
        self.assertEqual(self.operator.stored().state.origin_nm, (25_400_000, 0, 0))

    def test_exact(self) -> None:
        """An inch is 25,400,000 nm; a millionth of one is 25.4, which is rounded once."""
        for text, nm in (("1", 25_400_000), ("0.0005", 12_700), ("-0.000001", -25), ("0.000005", 127), ("1mm", 10**6)):
            self.assertEqual(Unit.INCH.length(text, 20), nm, text)
        for nm, text in ((25_400_000, "1"), (127, "0.000005"), (-25, "-0.000001"), (10**6, "0.03937"),
                         (1_270_000_000, "50")):
            self.assertEqual(Unit.INCH.number(nm), text)
        self.assertEqual((Unit.MM.shown(-1_500_000), Unit.INCH.shown(12_700)), ("-1.5 mm", "0.0005 in"))
        self.assertEqual(Unit.MM.length("0", 20), 0)
        for unit, code, text in ((Unit.MM, 20, "1"), (Unit.INCH, 21, "1"), (Unit.MM, 21, "x")):
            self.assertRaises(NoLength, unit.length, text, code)


if __name__ == "__main__":
    unittest.main()
