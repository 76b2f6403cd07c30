"""Each rule by which a line of a CAM system is written otherwise, and what it leaves as it is; all by hand."""
import sys
import unittest
from pathlib import Path

sys.path.insert(0, str(Path(__file__).resolve().parents[1]))

from ngc_tools.formats.program_text import ProgramText
from ngc_tools.job.cam import rewritten, whole_text
from ngc_tools.job.cam_homes import HomeAnswers, Missing, length
from ngc_tools.job.cam_line import CamLine

LIFT = HomeAnswers(lift_nm=5_000_000)
BOTH = HomeAnswers(lift_nm=5_000_000, park_nm=(1_000_000, -2_500_000))


def told(*lines: str, answers: HomeAnswers = LIFT) -> tuple[list[str], list[int]]:
    """Lines as they are written for `ngc`, arcs by radius aside, and the numbers of those that are warned of."""
    warned: list[int] = []
    found = rewritten(list(lines), answers, lambda number, why: warned.append(number))
    return [line.text for line in found], warned


def adapted(*lines: str, answers: HomeAnswers = LIFT) -> list[str]:
    """Lines as they are written, none of which is warned of."""
    found, warned = told(*lines, answers=answers)
    assert not warned, (lines, warned)
    return found


class Rules(unittest.TestCase):
    """Rules of one test each."""

    def each(self, *pairs: tuple[str, str]) -> None:
        """Lines that are a text each, and what they become."""
        for old, new in pairs:
            self.assertEqual(adapted(old), [new])

    def test_comments(self) -> None:
        """Those after ;, and those within others, however deep."""
        self.assertEqual(adapted("G0 X1 ; up (a bit)", ";", "; alone", "(a (b) c) G1 X1 (d)", "(;)", ";;x", "(((a)))"),
                         ["G0 X1 (up [a bit])", "", "(alone)", "(a [b] c) G1 X1 (d)", "(;)", "(;x)", "([[a]])"])

    def test_open_comments(self) -> None:
        """Closed at the line's end, where no ) says that they may end elsewhere."""
        self.assertEqual(adapted("G0 X1 (up", "(", "(T1 ; G0 X5"), ["G0 X1 (up)", "()", "(T1 ; G0 X5)"])
        for lines in (("(a (b) G0 X5",), ("(a", "G0 X5", ") G0 X1"), ("G1 X2 (a (b",)):
            self.assertEqual(told(*lines), (list(lines), [1]))
        self.assertEqual(told("G0 X1)"), (["G0 X1)"], []))

    def test_program_number(self) -> None:
        """At the head alone; subroutines stay."""
        self.assertEqual(adapted("%", "N1 O0007(X)", "G0 X1"), ["%", "N1 (O0007)(X)", "G0 X1"])
        self.each(*((line, line) for line in ("O100 sub", "O<up> call", "O100 G0 X1")))
        self.assertEqual(adapted("G21", "O1000")[1], "O1000")
        self.assertEqual(adapted("%", ":1000 (part)", "G0 X1", ":2"), ["%", "(:1000) (part)", "G0 X1", ":2"])

    def test_block_numbers(self) -> None:
        """Of six digits and more."""
        self.each(("N100000 G0 X1", "G0 X1"), ("N 100 000G0X1", "G0X1"), ("/N123456 X1", "/ X1"),
                  ("N99999 X1", "N99999 X1"), ("N00001 X1", "N00001 X1"), ("N100000.5 X1", "N100000.5 X1"),
                  ("N100000", ""))

    def test_codes(self) -> None:
        """Words that change, and some that look alike."""
        self.each(("G71", "G21"), ("G70 G91.1", "G20"), ("g71 G21 X1", "G21 X1"), ("G71 P1 Q2", "G71 P1 Q2"),
                  ("G91.10 X1", "X1"), ("G90.1", "G90.1"), ("G64P.1Q.2", "G64"), ("G64 G4 P1", "G64 G4 P1"),
                  ("G61.1 P1", "G61.1 P1"), ("G00 G80", "G80"), ("/N5 G0 G80 G40", "/N5 G80 G40"),
                  ("G0 G80 X1", "G0 G80 X1"), ("G41 D1 X1", "G41 D1 X1"), ("X[#1+2]G64P[1]", "X[#1+2]G64"),
                  ("T1 M6 U5 &", "T1 M6 U5 &"), ("G0X1G91.1Y2", "G0X1Y2"), ("  G91.1 X1", "  X1"))

    def test_offsets(self) -> None:
        """An offset of 0 outside of the plane goes, one within it stays, and so does one that isn't 0."""
        for plane, letter in ((17, "K"), (18, "J"), (19, "I")):
            for other in "IJK":
                gone = "" if other == letter else f" {other}0.0"
                self.assertEqual(adapted(f"G{plane}", "G2 X1 Y1 Z1", f"X2Y2Z2 {other}0.0", f"X2Y2Z2 {other}1")[2:],
                                 [f"X2Y2Z2{gone}", f"X2Y2Z2 {other}1"])
        self.each(("G1 X1 K0", "G1 X1 K0"))

    def test_signs(self) -> None:
        """A sign before a parameter, a bracket or a function; not one between two values, nor in a comment."""
        self.each(("G0 X-#1", "G0 X[0-#1]"), ("G0 X-[1]Y- [#2+[3]]", "G0 X[0-[1]]Y[0-[#2+[3]]]"), ("X+#1", "X#1"),
                  ("X[-#1**2]", "X[[0-#1]**2]"), ("X-ABS[-#1]", "X[0-ABS[[0-#1]]]"), ("X-##1", "X[0-##1]"),
                  ("#1=-#[2]", "#1=[0-#[2]]"), ("X[2*-#1]", "X[2*[0-#1]]"), ("X[2-#1]", "X[2-#1]"),
                  ("X[#2-#1]Y[[1]-[2]]", "X[#2-#1]Y[[1]-[2]]"), ("X-5 Y[-5]", "X-5 Y[-5]"), ("(X-#1)", "(X-#1)"),
                  ("X-[1", "X-[1"), ("X-", "X-"), ("X-Y1", "X-Y1"))

    def test_rotary(self) -> None:
        """The words of an axis that is at 0 in the whole text, with its home; else all stay."""
        self.assertEqual(adapted("G0 X1 A0.", "G1 A-0 Z1 F5", "G28 A0", "G0 A0", "X2"),
                         ["G0 X1", "G1 Z1 F5", "", "", "G0 X2"])
        self.assertEqual(adapted("G21 G91 G28 A0. Z0.", "G28 X0 Y0 A0", answers=BOTH),
                         ["G21 G91 G53 G0 Z5", "G53 G0 X1 Y-2.5"])
        for lines in (("G0 X1 A0", "A1"), ("A[0]", "G0 A0 X1"), ("G92 A0",), ("G10 L2 P1 A0",), ("G53 G0 A0",)):
            self.assertEqual(told(*lines)[0], list(lines))
        self.assertEqual(adapted("G0 A0 B0 X1", "B1"), ["G0 B0 X1", "B1"])

    def test_slots(self) -> None:
        """Tools by the table; one above 128 that it hasn't is asked for."""
        table = HomeAnswers(slots={201: 1, 7: 2})
        self.assertEqual(adapted("T201 M6", "g43h201", "T07 T3", "T128 S201", "H3", answers=table),
                         ["T1 M6", "g43H1", "T2 T3", "T128 S201", "H3"])
        for word in ("T201", "G43 H129"):
            with self.assertRaises(Missing) as caught:
                adapted(word)
            self.assertEqual((caught.exception.what, caught.exception.tool), ("tool", int(word[-3:])))
        self.each(("T[201]", "T[201]"), ("T200.5", "T200.5"))


class Motions(unittest.TestCase):
    """Rules of what moves."""

    def test_lone(self) -> None:
        """G0 and G1 without an axis go, and the next line that relies on them names them."""
        self.assertEqual(adapted("G01 F120.00", "G00 S10000", "G0", "N5 G1(cut)", "X1", "Y1"),
                         ["F120.00", "S10000", "", "N5(cut)", "G1 X1", "Y1"])
        self.assertEqual(adapted("G0 X1", "G01 F60", "(down)", "M8", "N7X2Z-1", "X3"),
                         ["G0 X1", "F60", "(down)", "M8", "N7G1X2Z-1", "X3"])
        self.assertEqual(adapted("G0 X1", "G1 F5 ", "#1=5 X2 \t"), ["G0 X1", "F5 ", "G1 #1=5 X2 \t"])
        self.assertEqual(adapted("G0 X1", "G1 F5", "5X2"), ["G0 X1", "F5", "5X2"])
        self.assertEqual(adapted("G1 X1 F5", "G1 F6", "X2"), ["G1 X1 F5", "F6", "X2"])
        self.assertEqual(adapted("G81 X1 Z-1 R1", "G0 S5", "X2"), ["G81 X1 Z-1 R1", "S5", "G0 X2"])
        self.assertEqual(adapted("G1 X1", "G0 F5", "G2 X2 I1"), ["G1 X1", "F5", "G2 X2 I1"])
        self.assertEqual(adapted("G1 X1", "G0 F5", "G92 X0", "X2"), ["G1 X1", "F5", "G92 X0", "G0 X2"])

    def test_lone_after_lines_that_may_be_deleted(self) -> None:
        """What they name isn't in force where they are deleted: a later motion that isn't theirs is named."""
        self.assertEqual(adapted("G0 X1", "/G1 X2 F9", "G01 F5", "X3"), ["G0 X1", "/G1 X2 F9", "F5", "G1 X3"])
        self.assertEqual(adapted("G1 X1 F5", "/G1 X2", "G1 F6", "X3"), ["G1 X1 F5", "/G1 X2", "F6", "X3"])
        self.assertEqual(adapted("G0 X1", "/G1 X2 F9", "X3"), ["G0 X1", "/G1 X2 F9", "X3"])

    def test_lone_that_stay(self) -> None:
        """Beside codes that take axis words, of lines that may be deleted, and where two motions are named."""
        for line in ("/G1 F5", "G53 G0", "G92 G0", "G0 G1", "G0 U1", "G2", "G0 X[1]"):
            self.assertEqual(told(line)[0], [line])

    def test_full_circles(self) -> None:
        """They end where they start, by the word that named it last."""
        self.assertEqual(adapted("G0 X5. Y-1", "G3 I-5. J0. F9", "G3Z-2I-5J0", "Y1", "J1", "G18 G2 K1", "G19 G2 K1"),
                         ["G0 X5. Y-1", "G3 X5. I-5. J0. F9", "G3Z-2X5.I-5J0", "Y1", "X5. J1", "G18 G2 X5. K1",
                          "G19 G2 Y1 K1"])
        self.assertEqual(adapted("G0 Y7", "G2 I1"), ["G0 Y7", "G2 Y7 I1"])
        self.assertEqual(adapted("G0 X5 Y0", "G43 H1 Z5", "G53 G0 Z0", "G2 I1")[3], "G2 X5 I1")
        self.assertEqual(adapted("G91 G2 I1", "J1", "G19 K1"), ["G91 G2 X0 I1", "X0 J1", "G19 Y0 K1"])
        self.assertEqual(adapted("G0 X1", "G2 I1 X2", "G2 R1", "G2 I1 P2", "G1 I1")[1:],
                         ["G2 I1 X2", "G2 R1", "G2 I1 P2", "G1 I1"])

    def test_full_circles_from_nowhere(self) -> None:
        """One whose start no line names in program coordinates stays, and is warned of."""
        for before in ("G0", "G53 G0 X1", "G91 G0 X1\nG90", "G0 X1\nG54", "G0 X1\nG20", "G0 X1\nG92 X0", "G0 X[1]",
                       "G0 X1\nG10 L2 P1 X0", "/G0 X1", "G0 X1\nG28", "G0 X1\n/X2", "G18 G0 Z1\nG43 H1"):
            lines = [*before.split("\n"), "G2 I1"]
            found, warned = told(*lines)
            self.assertEqual((found[-1], warned[-1]), ("G2 I1", len(lines)), before)

    def test_homes(self) -> None:
        """Z alone, or X and Y alone, under G91; and the motion that was in force."""
        self.assertEqual(adapted("G21 G91 G28 Z0 M5", "G30 Z0.", "G0 G28 Z0"),
                         ["G21 G91 G53 G0 Z5 M5", "G53 G0 Z5", "G0 G53 Z5"])
        self.assertEqual(adapted("G21 G1 X1 F5", "G91 G28 Z0", "G90 F9", "N1X2", "X3"),
                         ["G21 G1 X1 F5", "G91 G53 G0 Z5", "G90 F9", "N1G1X2", "X3"])
        self.assertEqual(adapted("G21 G91", "G28 Z0", "X2")[2], "G80 X2")
        self.assertEqual(adapted("G21 G0 X1", "G91 G28 Z0", "X2")[2], "X2")
        self.assertEqual(adapted("G21 G1 X1", "G91 G28 Z0", "G0 X2", "X3")[2:], ["G0 X2", "X3"])
        self.assertEqual(adapted("G21 G91 G28 X0 Y0", answers=BOTH), ["G21 G91 G53 G0 X1 Y-2.5"])
        stay = ["G28", "G28 Z0", "G91 G28 Z1", "G28 X0 Y0 Z0", "G30"]
        self.assertEqual(told(*stay, answers=BOTH), (stay, [1, 2, 3, 4, 5]))
        for text, what in (("G91 G28 Z0", "lift"), ("G91 G28 Y0", "park")):
            with self.assertRaises(Missing) as caught:
                adapted(text, answers=HomeAnswers())
            self.assertEqual(caught.exception.what, what)

    def test_homes_in_the_unit(self) -> None:
        """Machine coordinates are millimetres, whatever the unit: 5 mm are 0.196850.. inches."""
        self.assertEqual(adapted("G20", "G91 G28 Z0"), ["G20", "G91 G53 G0 Z0.19685"])
        self.assertEqual(adapted("G70", "G91 G28 Z0", "G21 G28 Z0")[1:], ["G91 G53 G0 Z0.19685", "G21 G53 G0 Z5"])
        self.assertEqual(adapted("N5 G91 G28 Z0", "G20")[0], "N5 G20 G91 G53 G0 Z0.19685")
        self.assertEqual(adapted("G91 G28 Z0", "G71")[0], "G21 G91 G53 G0 Z5")
        self.assertEqual(told("G91 G28 Z0", "M2"), (["G91 G53 G0 Z5", "M2"], [1]))
        for nm, inches, text in ((100_000_000, True, "3.937007"), (-100_000_000, True, "-3.937007"), (25, True, "0"),
                                 (-1, False, "-0.000001"), (-25_400_000, True, "-1"), (10_000_000, False, "10")):
            self.assertEqual(length(nm, inches), text)


class NotPlain(unittest.TestCase):
    """Lines that have more than words and comments."""

    def test_stay(self) -> None:
        """No word is taken away, since what stands around it could become another word."""
        for line in ("XA0 5", "X1 A0 5", "IG91.1-1", "N100000 #1=5", "G0 &", "T201 #2=1", "G1 F5 (a(b)",
                     "G91 G28 Z0 #1=2"):
            self.assertEqual(told(line)[0], [line])
        self.assertEqual(told("G91 G28 Z0 #1=2", "XG28-5")[1], [1, 2])

    def test_far_too_long(self) -> None:
        """A line that is far too long stays as it is."""
        for line in ("(a) G1 X5 A0" + " " * 2048 + "(b (c))", "G91.1" * 500, ";" * 2049, "X[" * 2000):
            self.assertEqual(told(line), ([line], []))


class Whole(unittest.TestCase):
    """Rules of the text as a whole."""

    def test_opening_percent(self) -> None:
        """What stands beside the first one, and before it."""
        for old, new in ((("%PROG", "M2", "%"), ("%", "M2", "%")), (("", " % O1000"), ("", "%")),
                         (("%1234",), ("%",)), (("%(PROG)",), ("%",)), (("(a)", "%", "G0 X1", "M2", "%"),
                                                                     ("(a)", "", "G0 X1", "M2", "%")),
                         ((";a", "O5", "%PROG"), ("(a)", "(O5)", "(PROG)")), (("%", "(a)", "%b"), ("%", "(a)", "%b")),
                         (("G21", "%PROG"), ("G21", "%PROG"))):
            self.assertEqual(adapted(*old), list(new))
        for line in ("%G71", "%PROG G71 *", "%-"):
            self.assertEqual(told(line, "M2"), ([line, "M2"], [1]))

    def test_program_end(self) -> None:
        """M2 where the text has no end, with the end of its other lines."""
        for old, new in (("G0 X1\n(end)\n\n", "G0 X1\n(end)\n\nM2\n"), ("G0 X1\r\n", "G0 X1\r\nM2\r\n"),
                         ("G0 X1", "G0 X1\nM2\n"), ("%\nG0 X1\n", "%\nG0 X1\nM2\n"), ("G0 X1\n%\n", "G0 X1\nM2\n%\n"),
                         ("(a)\n%\nG0 X1\n%\n", "(a)\n\nG0 X1\nM2\n%\n")):
            self.assertEqual(self.whole(old), (new, 1 + (not old.endswith("\n"))), old)
        for text in ("M30\n", "M02 (end)\nG0 X1\n", "/M2\n", "M[1+1]\n", "%\nG0 X1\n%\n", "(a)\n", "", "\n"):
            self.assertEqual(self.whole(text), (text, 0), text)

    def whole(self, old: str) -> tuple[str, int]:
        """A text as it is written, and how much is said of it as a whole."""
        text = ProgramText.read(old.encode())
        new, said = whole_text(rewritten(text.lines, LIFT, lambda number, why: None), text)
        return new, len(said)

    def test_pieces(self) -> None:
        """A line that is cut is the line."""
        for text in ("", " \t", "G0X1 (a)Y 2 ", "/N1 G 0 1 X+.5", "(open", "#1=[2*[3]] X#1", "a\x80(\xff)", "%", "X-[",
                     "((a) b", "X-#", "G1 ; (", "S Q R T[2]", "XSQRT[2]Y- # 1"):
            self.assertEqual(CamLine.cut(text).text, text)
        words = [(piece.letter, piece.text) for piece in CamLine.cut("g1X-[2*[3]]Y SQRT[#[4]] Z#1F[(]").pieces]
        self.assertEqual(words, [("G", "g1"), ("X", "X-[2*[3]]"), ("Y", "Y SQRT[#[4]]"), ("Z", "Z#1"), ("", "F"),
                                 ("", "["), ("", "(]")])


if __name__ == "__main__":
    unittest.main()
