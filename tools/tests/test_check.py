"""`ngc-check`: refused lines with carets, what to write, how it goes on; warnings; status."""
import os
import random
import subprocess
import sys
from pathlib import Path

sys.path.insert(0, str(Path(__file__).resolve().parent))

from session_support import FIRST, TOOLS, InFolder, ngc, told

from ngc_tools.cli.check import main as check_main
from ngc_tools.formats.canonical import read_commands
from ngc_tools.formats.settings import Settings
from ngc_tools.job.dangers import Conditions, dangers
from ngc_tools.formats.in_force import InForce
from ngc_tools.job.printed import by_line
from ngc_tools.job.refused import Lines, find_all
from ngc_tools.ngc.beginning import Beginning
from ngc_tools.ngc.run import Refusal, dry, refusal

HEAD = "G17 G21 G90 G98\nF600 M3\n"
UNUSED = """    a word H, I, J, K, L, P, Q or R that nothing takes. H is taken by G43 alone; I, J and K as
    offsets of an arc in the plane after the line; L by G10 and cycles; P by G4, G10, G82, G86 and
    G89; Q by G83; R by cycles and arcs (R with an arc is B11)
"""
AFTER = """What was left out would have moved or set something, so later lines may be refused, or taken, for that alone.
Mend these, and check again.
"""


class Checked(InFolder):
    """Programs that are checked."""

    def check(self, program: str | bytes, *words: str) -> tuple[int, str]:
        """Status and standard output for a program, p.ngc."""
        Path("p.ngc").write_bytes(program.encode() if isinstance(program, str) else program)
        status, said, error = told(check_main, "p.ngc", "--ngc", ngc(), *words)
        self.assertEqual(error, "")
        return status, said


class Check(Checked):
    """Programs, each with all that is said of it."""

    def test_nothing(self) -> None:
        """A program of which nothing is to be said."""
        self.assertEqual(self.check(HEAD + "G1 X1\nM2\n"), (0, "p.ngc: no refusals, no warnings\n"))

    def test_every_line(self) -> None:
        """Lines that CAM systems write; the cause stands once, and so does what to write."""
        program = HEAD + "N10 G91.1\n; text\nG2 X10 I5 J0 K0.000\nG2\tX20 I5 K0\nG64 P0.01 (fine)\nG1 X2\nM30\n"
        self.assertEqual(self.check(program), (1, """p.ngc:3: B2 UnknownCode
    N10 G91.1
        ^^^^^
    a G or M value isn't a code of the tables above
    mend: leave it out: I, J and K count from the start of the arc, always
    goes on without G91.1
p.ngc:4: E1 Unreadable
    ; text
    ^^^^^^
    the line isn't in the grammar
    mend: write the comment in ( ), with no ( or ) in it
    goes on without this line
p.ngc:5: B12 UnusedWord
    G2 X10 I5 J0 K0.000
                 ^^^^^^
""" + UNUSED + """    mend: leave it out, 0 too: it isn't an offset in the plane of an arc of this line
    goes on without K0.000
p.ngc:6: B12 UnusedWord
    G2 X20 I5 K0
              ^^
    goes on without K0
p.ngc:7: B12 UnusedWord
    G64 P0.01 (fine)
        ^^^^^
    mend: leave it out: there is no blending, so no tolerance of it
    goes on without P0.01
p.ngc: 5 refusals, no warnings
""" + AFTER))

    def test_two_words(self) -> None:
        """Either of two words is to blame; or both are, and leaving out one alone doesn't help."""
        program = HEAD + "G0G80X0\nG71G91.1\nG1 X1 Q1 H1\nM2\n"
        self.assertEqual(self.check(program), (1, """p.ngc:3: B4 GroupTwice
    G0G80X0
    ^^^^^
    two words of one G group or of one M group, those left out among them
    mend: write the one that is meant, or each on a line of its own; G0 beside G80, without an axis,
    does nothing: leave it out
    goes on without G80
p.ngc:4: B2 UnknownCode
    G71G91.1
    ^^^^^^^^
    a G or M value isn't a code of the tables above
    mend: G71: write G21; G91.1: leave it out: I, J and K count from the start of the arc, always
    goes on without this line
p.ngc:5: B12 UnusedWord
    G1 X1 Q1 H1
          ^^ ^^
""" + UNUSED + """    mend: Q1: Q is the peck of G83: write that where pecks are meant; else leave it out; H1: where
    G43 is in force, write G43 beside it; else leave it out
    goes on without Q1 H1
p.ngc: 3 refusals, no warnings
""" + AFTER))

    def test_radius_arc(self) -> None:
        """Without both words the end of the move stays, so what follows isn't refused for another place."""
        program = HEAD + "G1 X1\nG2 X11 R5\nG2 X21 I5\nM2\n"
        self.assertEqual(self.check(program), (1, """p.ngc:4: B11 RadiusArc
    G2 X11 R5
    ^^     ^^
    R where the line's motion is G2 or G3
    mend: write the arc by its centre, I and J in G17 from the start of the arc, in place of R
    goes on without G2 R5
p.ngc: 1 refusal, no warnings
""" + AFTER))

    def test_feed(self) -> None:
        """A feed that is missing is refused once: it goes on as with one."""
        self.assertEqual(self.check("G17 G21 G90\nG1 X1\nX2\nX3\nM2\n"), (1, """p.ngc:2: X1 NoFeed
    G1 X1
    ^^ ^^
    a feed move, an arc or a cycle under G94 with feed 0, or under G93 with no F or F0
    mend: write F on this line or before it; under G93 on each line that feeds
    goes on as with F100
p.ngc: 1 refusal, no warnings
""" + AFTER))

    def test_a_line_that_is_left_out(self) -> None:
        """A setting is all of its line; what would have set it is missing then."""
        self.assertEqual(self.check(HEAD + "#1=[1/0]\nG1 X1\nM2\n"), (1, """p.ngc:3: E5 BadArithmetic
    #1=[1/0]
    ^^^^^^^^
    a divisor 0 in / or MOD, SQRT of a negative number, an exponent that isn't whole from 0 to 32
    mend: look at the divisor, at what SQRT takes and at the exponent
    goes on without this line
p.ngc: 1 refusal, no warnings
""" + AFTER))

    def test_ends(self) -> None:
        """No end; a carriage return at the very end; a byte order mark; no line at all."""
        self.assertEqual(self.check(HEAD), (1, """p.ngc:3: X3 NoProgramEnd
    the text ended before M2 or M30; the line named is the one after the last
    mend: end the program with M2 or M30, and a newline after it
p.ngc: 1 refusal, no warnings
""" + AFTER))
        self.assertEqual(self.check("F1\r\nM2\r")[1].splitlines()[:6], [
            "p.ngc:2: E1 Unreadable", "    M2\\r", "      ^^", "    the line isn't in the grammar",
            "    mend: end the last line with a newline", "    goes on without \\r"])
        self.assertEqual(self.check(b"\xef\xbb\xbfF1\r\nM2\r\n")[1].splitlines()[:5], [
            "p.ngc:1: E1 Unreadable", "    \\ufeffF1", "    ^^^^^^", "    the line isn't in the grammar",
            "    mend: save the file without a byte order mark"])
        self.assertEqual(self.check(b"")[1].splitlines()[0], "p.ngc:1: X3 NoProgramEnd")

    def test_columns(self) -> None:
        """A tab and letters of two bytes take one column each, and a control code is escaped."""
        self.assertEqual(self.check(HEAD + "\tG1 (\u00e4\u00f6) X1\x1b Y1\nM2\n")[1].splitlines()[1:3], [
            "     G1 (\u00e4\u00f6) X1\\x1b Y1",
            "               ^^^^"])

    def test_long_line(self) -> None:
        """Of a line that is too long each comment that would do is marked."""
        said = self.check(HEAD + "G1 X1 (" + "a" * 150 + ") (" + "b" * 150 + ")\nM2\n")[1].splitlines()
        self.assertEqual(said[0], "p.ngc:3: E2 LineTooLong")
        self.assertEqual(said[2], " " * 10 + "^" * 152 + " " + "^" * 152)

    def test_most(self) -> None:
        """So many refusals and no more."""
        said = self.check(HEAD + "Q1\nQ1\nQ1\nM2\n", "--most", "2")[1].splitlines()
        self.assertEqual([line for line in said if line.startswith("p.ngc")],
                         ["p.ngc:3: B12 UnusedWord", "p.ngc:4: B12 UnusedWord", "p.ngc: 2 refusals, and more"])

    def test_settings_and_block_delete(self) -> None:
        """The tools of the settings; a line that is left out."""
        self.assertEqual(self.check(HEAD + "T2\nM2\n", "--settings", "first.toml")[0], 1)
        Path("two.toml").write_text(FIRST.replace("[50000000]", "[1, 2]"))
        self.assertEqual(self.check(HEAD + "T2\nM2\n", "--settings", "two.toml")[0], 0)
        self.assertEqual(self.check(HEAD + "/Q1\nM2\n")[0], 1)
        self.assertEqual(self.check(HEAD + "/Q1\nM2\n", "--block-delete")[0], 0)


class Refused(Checked):
    """What is said of single faults."""

    def said(self, program: str | bytes, *words: str) -> list[str]:
        """What is printed of a program, without blanks before it."""
        return [line.strip() for line in self.check(program, *words)[1].splitlines()]

    def test_travel(self) -> None:
        """The axis, how far it goes and where the travel ends, of a move, of a cycle, of G28's point between."""
        for line, said in {
            "G0 X1000.5": "X goes to 1,000.5 mm of the machine, and the travel ends at 1,000 (high_nm of the settings)",
            "G0 X1 Z-1000.000001":
                "Z goes to -1,000.000001 mm of the machine, and the travel ends at -1,000 (low_nm of the settings)",
            "G81 X1 Y-2000 Z-1 R1":
                "Y goes to -2,000 mm of the machine, and the travel ends at -1,000 (low_nm of the settings)",
            "G28 Y1001": "Y goes to 1,001 mm of the machine, and the travel ends at 1,000 (high_nm of the settings)",
            "G0 Y20000": "a move goes beyond 10,000 mm of the machine, and no travel reaches as far",
            "G10 L2 P1 X999\nG0 X2":
                "X goes to 1,001 mm of the machine, and the travel ends at 1,000 (high_nm of the settings)",
        }.items():
            found = self.said(HEAD + line + "\nM2\n")
            self.assertIn(said, " ".join(found), line)
            self.assertIn("The work zero is taken to be at machine 0: --origin X Y Z or --device DEVICE says where it"
                          " is", " ".join(found))

    def test_travel_of_arcs(self) -> None:
        """The point of an arc that lies farthest; none that it doesn't pass."""
        low = FIRST.replace("-1000000000, -1000000000, -1000000000", "-6000000, -5000000, 0")
        Path("low.toml").write_text(low.replace("1000000000, 1000000000, 1000000000", "6000000, 5000000, 9000000"))
        for arc, said in {
            "G3 X-5 I-5": "", "G2 X-5 I-5": "", "G3 X-5 Y1 I-5 J0.5": "Y passes 5.524938 mm",
            "G2 X5 I1": "X passes 7 mm", "G2 X4 Y1 I-1 J0": "", "G3 X4 Y1 I-1 J0": "", "G3 X3 Y2 I-2 J0": "",
            "G3 X5 Y2 J1": "", "G3 X5 Y3 J1.5": "X passes 6.5 mm", "G2 X5 Y3 J1.5": "",
            "G18 G2 X4 Z-1 I-1": "Z goes to -1 mm", "G18 G3 X4 Z1 I-1": "Z passes -1 mm",
        }.items():
            found = " ".join(self.said(HEAD + f"G0 X5\n{arc} F100\nM2\n", "--settings", "low.toml"))
            self.assertIn(said or "no refusals", found, arc)

    def test_placed(self) -> None:
        """From an origin a program runs that doesn't run from machine 0."""
        Path("mill.toml").write_text(FIRST.replace("1000000000, 1000000000, 1000000000", "1000000000, 1000000000, 0"))
        program = HEAD + "G0 X0 Y0 Z15\nG1 Z-1\nM2\n"
        words = ("--settings", "mill.toml")
        self.assertIn("Z goes to 15 mm of the machine, and the travel ends at 0", " ".join(self.said(program, *words)))
        self.assertEqual(self.check(program, *words, "--origin", "0", "0", "-60"),
                         (0, "p.ngc: no refusals, no warnings\n"))
        found = " ".join(self.said(program, *words, "--origin", "0", "0", "-10"))
        self.assertIn("Z goes to 5 mm of the machine, and the travel ends at 0", found)
        self.assertNotIn("work zero", found)

    def test_sign(self) -> None:
        """A sign before a parameter is said, and the word is left out with it."""
        found = self.said(HEAD + "G0 X-#1 Y2\nG0 X-[1+1] Y1\nM2\n")
        self.assertEqual(found[1:3], ["G0 X-#1 Y2", "^^^^"])
        self.assertIn("mend: write a difference: X-#1 is X[0-#1]", found)
        self.assertEqual([line for line in found if line.startswith("goes on")],
                         ["goes on without X-#1", "goes on without X-[1+1]"])

    def test_encodings(self) -> None:
        """UTF-16 and lines that end in carriage returns are read as what they are; UTF-8 is shown so."""
        mend = ["mend: save it in UTF-8, with newlines at the ends of its lines, as ngc-adapt does. What follows",
                "is said of that text"]
        text = HEAD + "G0 X1 (\u00fc)\nQ1\nM2\n"
        fault = ["p.ngc:4: B12 UnusedWord", "Q1", "^^"]
        utf_16 = "it is UTF-16, of which ngc reads no line"
        for data, why in ((b"\xff\xfe" + text.encode("utf-16-le"), utf_16),
                          (b"\xfe\xff" + text.encode("utf-16-be"), utf_16),
                          (text.replace("\n", "\r").encode(),
                           "its lines end in carriage returns alone, so ngc takes it for one line")):
            self.assertEqual(self.said(data)[:6], [f"p.ngc: {why}", *mend, *fault])
        self.assertEqual(self.check(("\ufeff" + HEAD + "M2\n").encode("utf-16-le")), (1, """\
p.ngc: it is UTF-16, of which ngc reads no line
    mend: save it in UTF-8, with newlines at the ends of its lines, as ngc-adapt does. What follows
    is said of that text
p.ngc: 1 refusal, no warnings
"""))
        self.assertEqual(self.said((HEAD + "G0 X1 \u00fc\nM2\n").encode())[1:3], ["G0 X1 \u00fc", "^"])

    def test_control_characters(self) -> None:
        """None reaches the terminal, also not by the line after `mend:`."""
        for line in (b"G0 X1 \x1b[2J", b";\x9b31m\x1b[2K", b"(\xc2\x9b) U1 O\x1b1", b"G71\x07G91.1",
                     b"\xe2\x80\xae M2"):
            said = self.check(HEAD.encode() + line + b"\nM2\n")[1]
            self.assertEqual([letter for letter in said if not letter.isprintable() and letter != "\n"], [], line)


class Warned(InFolder):
    """Programs that aren't refused."""

    def warnings(self, program: str, *words: str) -> list[str]:
        """The warnings of a program that isn't refused, each without its path and without the line's text."""
        Path("p.ngc").write_text(program)
        status, said, error = told(check_main, "p.ngc", "--ngc", ngc(), *words)
        self.assertEqual((error, status), ("", 0))
        return [line.removeprefix("p.ngc:") for line in said.splitlines()[:-1] if not line.startswith(" ")]


class Warnings(Warned):
    """What is valid and dangerous."""

    def test_homes(self) -> None:
        """G28 and G30, not in a comment, not G28 of 280, not where block delete leaves the line's words out."""
        self.assertEqual(self.warnings(HEAD + "#5163=2\n(G28) G0 X2.28\ng 9 1 g 0 28.0 z0\nG90 G30\nM2\n"), [
            "5: warning: G28 moves all three axes, in one straight traverse to X 0.000 Y 0.000 Z 2.000, through what"
            " stands there; to lift Z alone write G53 G0 Z with the height",
            "6: warning: G30 moves all three axes, in one straight traverse to X 0.000 Y 0.000 Z 0.000, through what"
            " stands there; to lift Z alone write G53 G0 Z with the height"])

    def test_dwell(self) -> None:
        """Above 30 seconds, in a cycle too."""
        self.assertEqual(self.warnings(HEAD + "G4 P30\nG4 P500\nG82 X1 Z-1 R1 P30.001\nM2\n"), [
            "4: warning: a dwell of 8 min 20.000 s: P is in seconds, not in milliseconds",
            "5: warning: a dwell of 30.001 s: P is in seconds, not in milliseconds"])

    def test_turns(self) -> None:
        """A full turn, in another plane too; half a turn is none, and a helix is meant."""
        asked = "Is it meant? A short arc whose end was rounded goes round so too"
        self.assertEqual(self.warnings(HEAD + "G2 X0 I5\nG18 G3 X0 K-5\nG17 X10 I5 J0\nX10 Z1 I-5\nG0 Z0\nM2\n"), [
            f"3: warning: a full turn of radius 5.000, as the arc ends where it starts. {asked}",
            f"4: warning: a full turn of radius 5.000, as the arc ends where it starts. {asked}"])

    def test_nearly_a_turn(self) -> None:
        """An end that was rounded to behind its start goes nearly round; one ahead of it doesn't."""
        self.assertEqual(self.warnings(HEAD + "G2 Y-0.001 I5\nM2\n"), [
            "3: warning: nearly a full turn of radius 5.000, to 0.001 beside the arc's start. Is it meant? A short arc"
            " whose end was rounded goes round so too"])
        self.assertEqual(self.warnings(HEAD + "G2 Y0.001 I5\nM2\n"), [])

    def test_deep(self) -> None:
        """A traverse below the last cut; not one that stays above it, nor one that rises from below."""
        self.assertEqual(self.warnings(HEAD + "G1 Z-1\nG0 Z5\nG0 Z-1\nG0 X1 Z-1.5\nZ-1.2\nM2\n"), [
            "6: warning: a traverse down to Z -1.500, below the last cut, whose lowest point is Z -1.000: nothing has"
            " cut the way free"])

    def test_modes(self) -> None:
        """Modes that a program relies on and doesn't set, each at the first line that another one changes."""
        said = "the dry run begins with {}, ngc run goes on with what the last block left; write {} before it"
        unit, distance = said.format("G21", "G20 or G21"), said.format("G90", "G90 or G91")
        plane, cycles = said.format("G17", "G17, G18 or G19"), said.format("G98", "G98 or G99")
        self.assertEqual(self.warnings("F600 M3\nG0 X0 Y0 Z0\nG2 X10 I5\nG81 Z-1 R1\nM2\n"), [
            f"1: warning: relies on the unit: {unit}",
            f"2: warning: relies on the distance mode: {distance}",
            f"3: warning: relies on the plane: {plane}"])
        self.assertEqual(self.warnings("G21 G90 G17\nF600 M3\nG0 Z5\nG81 X0 Z-1 R1\nM2\n"), [
            f"4: warning: relies on the way that cycles end: {cycles}"])
        self.assertEqual(self.warnings("%\nG21 F600 G90 G17\nM3 G1 X1 Y0 Z0\nM2\n%\n"), [
            f"2: warning: relies on the unit: {unit}, on a line of its own: F is read in the unit before that of its"
            " line"])

    def test_marks_of_its_own(self) -> None:
        """A program with comments that look like those it puts between the lines."""
        self.assertEqual(self.warnings(HEAD + "(line 9)\nG4 P31\n(line- 1)\n(line-- 2)\nM2\n"),
                         ["4: warning: a dwell of 31.000 s: P is in seconds, not in milliseconds"])

    def test_at_the_edge(self) -> None:
        """At the end of the travel the distance mode is tried without a shift, which would lie outside."""
        self.assertEqual(self.warnings("G21 G17\nG0 X-1000\nG0 X0\nM2\n", "--settings", "first.toml"), [
            "3: warning: relies on the distance mode: the dry run begins with G90, ngc run goes on with what the last"
            " block left; write G90 or G91 before it"])

    def test_bytes(self) -> None:
        """131,072 bytes are taken, one more isn't; by a large device 1,048,576."""
        program = HEAD + ("(" + "x" * 125 + ")\n") * 1023
        program += "(" + "x" * (131_072 - len(program) - 6) + ")\nM2\n"
        self.assertEqual(self.warnings(program), [])
        self.assertEqual(self.warnings(program + "\n"),
                         [" warning: 131,073 bytes: ngc run takes at most 131,072 of a program, 1,048,576 on a large"
                          " device (J5)"])
        program += ("(" + "x" * 125 + ")\n") * 7168
        self.assertEqual(self.warnings(program, "--large"), [])
        subprocess.run([ngc(), "format", "--large", "large.dev"], check=True, capture_output=True)
        self.assertEqual(self.warnings(program, "--device", "large.dev"), [])
        self.assertEqual(self.warnings(program + "\n", "--large"), [
            " warning: 1,048,577 bytes: ngc run takes at most 1,048,576 of a program on a large device (J5)"])

    def test_like_ones(self) -> None:
        """Ten of a kind are shown, the others counted."""
        said = self.warnings(HEAD + "G4 P31\n" * 12 + "M2\n")
        self.assertEqual(said[9:], ["12: warning: a dwell of 31.000 s: P is in seconds, not in milliseconds",
                                    " 2 more warnings as those of line 3"])


class Cutting(Warned):
    """The spindle, the feed, the tool and its length."""

    def test_spindle(self) -> None:
        """The first cut of each stretch in which it stands; not a feed up, nor one after M4."""
        stopped = "warning: it cuts with the spindle stopped, which breaks the tool: "
        program = "G17 G21 G90\nF600\nG0 Z5\nG1 X0 Y0\nG1 Z-1\nX5\nM4\nX0\nM5\nX5\nX0\nM3 S1\nX5\nT1 M6\nX0\nM30\n"
        self.assertEqual(self.warnings(program), [
            f"5: {stopped}no M3 or M4 comes before it", f"10: {stopped}line 9 stops it",
            f"15: {stopped}line 14 stops it, as a tool change does"])

    def test_feed(self) -> None:
        """A step of 0.001 mm each 50 us is 1,200 mm a minute, along a diagonal the square root of two times as much;
        of an arc no axis is faster. Without settings nothing is known of it."""
        program = HEAD + "G0 X0 Y0 Z1\nG1 Z0 F1200\nX1 Y1 F1697\nX0 F90000\nY0\nX1 Y1 F1698\nG2 X3 I1 F1201\nM2\n"
        said = ("warning: a feed of {} mm/min is more than period_us of the settings lets through: it cuts at {}. Is F"
                " right?")
        self.assertEqual(self.warnings(program, "--settings", "first.toml"), [
            f"6: {said.format('90,000', '1,200')}", f"8: {said.format('1,698', '1,697')}",
            f"9: {said.format('1,201', '1,200')}"])
        self.assertEqual(self.warnings(program), [])

    def test_feed_is_capped_by_ngc(self) -> None:
        """The periods of `ngc run` at F1698 and at F90000 are the same."""
        self.device()
        self.run_ngc("mdi G1 X1 Y1 F1698\ntick 5000\nmdi G1 X0 Y0 F90000\ntick 5000\n")
        self.assertEqual(set(Path("out").read_text().splitlines()), {"P 1 1 0 50", "P -1 -1 0 50"})

    def test_length(self) -> None:
        """H isn't T at the cut; a tool change after G43; not G43 before the tool is in."""
        Path("two.toml").write_text(FIRST.replace("[50000000]", "[50000000, 60000000, 1]"))
        head = HEAD + "T1 M6\nM3\n"
        self.assertEqual(self.warnings(head + "G43 H3 (H1)\nG0 X0 Y0 Z9\nG1 Z-1\nM2\n", "--settings", "two.toml"), [
            "5: warning: H3 takes the length of slot 3, and tool 1 is in the spindle at the cut of line 7: it cuts too"
            " deep, or in the air"])
        self.assertEqual(self.warnings(head + "G43 H1\nG0 X0 Y0 Z9\nM0\nG17 G21 G90 G98 T2 M6\nM3\nG1 Z-1\nM2\n",
                                       "--settings", "two.toml"), [
            "5: warning: H1 takes the length of slot 1, and tool 2 is in the spindle at the cut of line 10: it cuts too"
            " deep, or in the air"])
        self.assertEqual(self.warnings(head + "#1=2\nG43 H#1\nG0 X0 Y0 Z99\nG1 Z-1\nM2\n", "--settings", "two.toml"), [
            "8: warning: tool 1 cuts with a length of 60.000 mm, and slot 1 has 50.000: it cuts too deep, or in the"
            " air"])
        self.assertEqual(self.warnings(HEAD + "G43 H2\nT2 M6\nM3\nG0 X0 Y0 Z9\nG1 Z-1\nG49\nX1\nM2\n",
                                       "--settings", "two.toml"), [])

    def test_tool_change(self) -> None:
        """One tool for another without a stop, once; not the first tool, nor where the program stops."""
        Path("two.toml").write_text(FIRST.replace("[50000000]", "[0, 0]"))
        words = ("--settings", "two.toml")
        program = "G21 G17 G90 G94 G54\nT1 M6\nS8000 M3\nG0 X10\nT2 M6\nS3000 M3\nG0 X0\nT1 M6\nG0 X5\nM30\n"
        self.assertEqual(self.warnings(program, *words), [
            "5: warning: tool 2 takes the place of tool 1, and the program doesn't stop for it: the reader of OUT has"
            " to wait until it is in, or the old tool goes on cutting"])
        for stop in ("T2 M6\nM0", "M0\nT2 M6", "M60 T2 M6", "T1 M6"):
            self.assertEqual(self.warnings(f"T1 M6\nG90 G21 G0 X10\n{stop}\nG90 G21\nG0 X0\nM30\n", *words), [])


class Heights(Warned):
    """Traverses that may go through the work."""

    SIDEWAYS = ("warning: a traverse sideways at Z {}, as deep as the cut of line {}: it breaks the tool unless the way"
                " is cut free already")

    def test_sideways(self) -> None:
        """At the depth of a cut, and below the shallowest one; not above it, nor straight up."""
        program = "G0 X0 Y0 Z5\nG1 Z-1\nG0 X5\nG1 Z-3\nG0 X1 Z5\nX0\nZ-2\nY4\nG0 Z5\nM2\n"
        self.assertEqual(self.warnings(HEAD + program), [
            f"5: {self.SIDEWAYS.format('-1.000', 4)}", f"7: {self.SIDEWAYS.format('-3.000', 4)}",
            f"10: {self.SIDEWAYS.format('-2.000', 4)}"])
        program = "G0 X0 Y0 Z5\nG1 Z2\nZ-3\nX9\nZ4\nG0 X0 Z5\nX1 Z-2.999\nG81 X3 Z-4 R-2\nM2\n"
        self.assertEqual(self.warnings(HEAD + program), [])

    def test_arc(self) -> None:
        """An arc of the XZ plane is as deep as its lowest point."""
        program = "G0 X0 Y0 Z5\nG1 Z0\nG18 G2 X4 I2\nG1 Z1\nG0 Z5\nX2\nZ-1.9\nZ5\nM2\n"
        self.assertEqual(self.warnings(HEAD + program), [])
        self.assertEqual(self.warnings(HEAD + program.replace("G2", "G3").replace("Z-1.9", "Z-0.1")), [
            "9: warning: a traverse down to Z -0.100, below the last cut, whose lowest point is Z 0.000: nothing has"
            " cut the way free"])

    def test_tip(self) -> None:
        """The heights are those of the tip: a longer tool isn't deeper. What is said are program coordinates."""
        Path("two.toml").write_text(FIRST.replace("[50000000]", "[50000000, 10000000]"))
        program = (HEAD + "G10 L2 P1 Z20\nT1 M6\nM3\nG43 H1\nG0 X0 Y0 Z5\nG1 Z-1\nG0 Z5\nM0\n" + HEAD
                   + "T2 M6\nM3\nG43 H2\nG0 Z5\nX5\nX0 Z-1\nM2\n")
        self.assertEqual(self.warnings(program, "--settings", "two.toml"), [
            f"18: {self.SIDEWAYS.format('-1.000', 8)}"])

    def test_machine_coordinates(self) -> None:
        """Where the work zero isn't known, nobody knows how high G53 and G28 go; with --origin it is known."""
        program = HEAD + "G0 X0 Y0 Z5\nG1 Z2\nG0 Z5\nG53 G0 Z0\nX9\nG0 Z5\nM2\n"
        self.assertEqual(self.warnings(program), [])
        self.assertEqual(self.warnings(program, "--origin", "0", "0", "-60"), [])
        self.assertEqual(self.warnings(program.replace("X9\n", "G1 Z1\nG0 X9\n")),
                         [f"8: {self.SIDEWAYS.format('1.000', 4)}"])
        self.assertEqual(self.warnings(program, "--origin", "0", "0", "-1"), [
            "6: warning: a traverse down to Z 1.000, below the last cut, whose lowest point is Z 2.000: nothing has cut"
            " the way free", f"7: {self.SIDEWAYS.format('1.000', 4)}"])

    def test_first(self) -> None:
        """Down below the work zero before a cut; not to above it, nor in machine coordinates."""
        self.assertEqual(self.warnings(HEAD + "G0 X1 Y1\nG0 Z-5\nG1 Z-6\nM2\n"), [
            "4: warning: the first move in Z is a traverse down to Z -5.000, below the work zero: nothing says that it"
            " is free there"])
        self.assertEqual(self.warnings(HEAD + "G0 Z5\nX1 Y1\nZ-1\nG1 X9\nM2\n"), [
            "5: warning: a traverse down to Z -1.000, below the work zero, before anything is cut: it breaks the tool"
            " where the work stands"])
        for program in ("G0 Z5\nX1 Y1\nZ-1\nG1 Z-3\n", "G53 G0 Z-5\nG0 X1 Y1 Z5\nG1 Z-1\n", "G0 X1 Y1 Z0\nG1 Z-1\n"):
            self.assertEqual(self.warnings(HEAD + program + "M2\n"), [])
        self.assertEqual(self.warnings(HEAD + "G0 Z5\nX1 Y1\nG1 Z-1\nM2\n", "--origin", "0", "0", "-60"), [])


class Reliance(Warned):
    """What an operator, or the run before, leaves."""

    STOP = ("warning: after this stop it relies on {}, from line {} on: what is typed at the stop, as G91 or G0 to"
            " lift the tool, stays in force; write the modes again after it")

    def test_stops(self) -> None:
        """Modes that aren't named again after M0, M1 or M60; a motion by G53 doesn't mind."""
        for stop in ("M0", "M1", "M60"):
            self.assertEqual(self.warnings(HEAD + f"G0 X1 Y0 Z5\n{stop}\nG0 X2\nG81 Z-1 R1\nM2\n"), [
                f"4: {self.STOP.format('the unit, the distance mode, the plane and the way that cycles end', 5)}"])
        self.assertEqual(self.warnings(HEAD + "G0 X1 Y0 Z5\nM0\nG21\nG90 G0 X2\nM2\n"), [])
        self.assertEqual(self.warnings(HEAD + "G0 X1 Y0 Z5\nG1 Z4\nM0\nG21\nG90 X2\nM2\n"),
                         [f"5: {self.STOP.format('the motion mode', 7)}"])
        self.assertEqual(self.warnings("G21 G90 G17 G54 G94\nG0 X10 Y10\nM0\nG0 X20 Y20\nM3 G1 X25 F600\nM2\n")[:1],
                         [f"3: {self.STOP.format('the unit and the distance mode', 4)}"])

    def test_place(self) -> None:
        """A cut from where the machine stands, if the program ends elsewhere; not if it ends where it began."""
        said = ("{}: warning: it cuts where the machine stands at the start, by G91, by G92 or since no word before it"
                " names an axis, and it ends {} away from there: a second run cuts elsewhere")
        self.assertEqual(self.warnings(HEAD + "G92 X0 Y0 Z0\nG1 X5\nG0 Z9\nY2\nM2\n"),
                         [said.format(4, "X 5.000 Y 2.000 Z 9.000")])
        self.assertEqual(self.warnings(HEAD + "G91\nG1 X5\nG0 Z5\nX-5\nY1\nZ-5\nM2\n"), [said.format(4, "Y 1.000")])
        self.assertEqual(self.warnings(HEAD + "G0 X1 Z1\nG1 X9\nY5\nM2\n"), [said.format(4, "Y 5.000")])
        for program in ("G91\nG1 X5\nG0 Z5\nX-5\nZ-5\n", "G0 Z1\nX1 Y1\nG92 X0\nG1 X5\n"):
            self.assertEqual(self.warnings(HEAD + program + "M2\n"), [])


class FromDevice(Warned):
    """Checked from a device's state, and from an origin."""

    def test_g92(self) -> None:
        """An offset on the device that the program's end drops; none that the program drops first."""
        self.device()
        self.run_ngc("mdi G0 X50 Y50\ntick 100000\nmdi G92 X0 Y0\ntick 9\n")
        program = "G21 G90 G17 G54 G94 M3\nG0 X10 Y10\nG1 Z-15 F300\nG0 Z0\nG0 X0 Y0\nM30\n"
        self.assertEqual(self.warnings(program, "--device", "mill.dev"), [
            "6: warning: the program's end drops the G92 offset X 50.000 Y 50.000 Z 0.000 that is in force on the"
            " device: a second run cuts that far away. Set the origin in its place, by G10 L2 P1"])
        self.assertEqual(self.warnings("G92.1\nG55\n" + program, "--device", "mill.dev"), [])
        self.assertEqual(self.warnings(program), [])

    def test_modes_and_notes(self) -> None:
        """What the device has in force, and that it has a half-done block."""
        self.device()
        self.run_ngc("mdi G20 G91\ntick 9\nmdi G0 X1\ntick 9\nquit\n")
        said = self.warnings("G17\nG0 X0.1 Y0 Z0\nM2\n", "--device", "mill.dev")
        self.assertEqual(said[0], " warning: a block of the device is half-done, and no program can be started before"
                         " `resume` or `abandon`; the dry run begins with what was in force before that block")
        self.assertEqual([line.partition(", ngc run")[0] for line in said[1:]], [
            "2: warning: relies on the unit: the dry run begins with G20",
            "2: warning: relies on the distance mode: the dry run begins with G91"])

    def test_motion(self) -> None:
        """A cycle that is in force on the device, which a line without a motion word goes on with."""
        self.device()
        self.run_ngc("mdi G81 X1 Z-0.005 R0 F60\ntick 100000\n")
        said = "1: warning: relies on the motion mode, which is what the last block left on the device; write G0 or G1"
        program = "S1 M3 G21 G90 G17 G98 G54 G94 X5 Y0\nM2\n"
        self.assertEqual([line[:len(said)] for line in self.warnings(program, "--device", "mill.dev")], [said])
        self.assertEqual(self.warnings(f"G80 {program.replace('X5 Y0', '')}", "--device", "mill.dev"), [])

    def test_outside(self) -> None:
        """A machine that stands outside the travel of the settings, which may be another machine's."""
        self.device()
        self.run_ngc("mdi G0 X0.5\ntick 1000\n")
        Path("other.toml").write_text(FIRST.replace("[1000000000, 1", "[0, 1"))
        words = ("--device", "mill.dev", "--settings", "other.toml")
        self.assertEqual(self.warnings(HEAD + "G0 X0 Y0\nM2\n", *words), [
            " warning: the machine stands at X0.500000 Y0.000000 Z0.000000, outside the travel of the settings. Are"
            " they those of this machine?"])

    def test_unset_length(self) -> None:
        """Z is moved before G43 or G49: which length is in force on the device, where it or a slot has one."""
        self.device()
        words = ("--device", "mill.dev")
        after = ", as it was left before: write G43 with the tool's H, or G49, before it"
        program = HEAD + "G53 G0 Z0\nG0 X1\nG0 Z5\nG49\nM2\n"
        self.assertEqual(self.warnings(program, *words), [])
        self.run_ngc("tool 1 62.5\n")
        self.assertEqual(self.warnings(program, *words), [
            "5: warning: it moves Z before it sets G43 or G49, and no tool length is in force" + after])
        self.run_ngc("mdi G43 H1\ntick 9\ntool 1 0\n")
        self.assertEqual(self.warnings(program, *words), [
            "5: warning: it moves Z before it sets G43 or G49, and a length of 62.500 mm is in force" + after])
        for first in ("G43 H1", "G49"):
            self.assertEqual(self.warnings(HEAD + first + "\nG0 Z5\nM2\n", *words), [])
        self.assertEqual(self.warnings(program), [])  # nothing says what is in force

    def test_unmeasured(self) -> None:
        """G43 with a slot of length 0, where others have one."""
        self.device()
        program, words = HEAD + "G43 H2\nG0 Z5\nG43 H3\nG49\nG43 H2\nM2\n", ("--device", "mill.dev")
        self.run_ngc("tool 1 0\ntool 2 0\ntool 3 0\n")
        self.assertEqual(self.warnings(program, *words), [])
        self.run_ngc("tool 3 5\n")
        self.assertEqual(self.warnings(program, *words), [
            "3: warning: H2 takes the length of slot 2, which is 0, as of a tool that wasn't measured: it goes too deep"
            " by its length, unless the others are measured by it"])

    def test_slots(self) -> None:
        """Lengths that differ from those of the settings, where the program takes one."""
        self.device()
        self.run_ngc("tool 1 62.5\n")
        words = ("--device", "mill.dev", "--settings", "first.toml")
        self.assertEqual(self.warnings(HEAD + "G43 H1\nG0 Z5\nM2\n", *words), [
            " warning: slot 1 has 62.5 mm on the device, and 50 in the settings: a dry run without --device"
            " is as much too high or too deep"])
        self.assertNotIn("62.5", "".join(self.warnings(HEAD + "G0 Z5\nM2\n", *words)))
        self.assertEqual(self.warnings(HEAD + "G43 H0\nG0 Z5\nM2\n", *words), [])


class NoFalseAlarm(InFolder):
    """All warnings of the examples and of what CAM systems write, each of which was looked at."""

    STAND = {  # no line starts a spindle
        "face.ngc": ["5 spindle"], "parameters.ngc": ["5 mode", "5 mode", "7 spindle"],
        "percent.ngc": ["3 mode", "6 spindle"], "13_jscut.gcode": ["22 spindle"],
        # the second and the third level are begun by a traverse within the pocket
        "pocket.ngc": ["2 mode", "6 spindle", "26 deep", "47 deep"],
    }
    MEANT = {
        "first.ngc": ["1 mode", "1 mode"], "bores.ngc": ["9 mode"], "ring.ngc": ["13 turn", "15 turn"],
        "01_fusion_linuxcnc_in.ngc": ["24 turn", "34 stop", "35 tool"],
        "10_pcb2gcode_drill.ngc": ["19 stop", "23 mode", "23 mode"], "15_mastercam_fanuc_in.nc": ["19 turn"],
        "16_solidcam.tap": ["8 mode", "10 stop"], "18_cambam_mach3.nc": ["18 turn"],
        "19_openbuilds.gcode": ["16 turn", "16 mode"], "20_grbl_fullcircle.nc": ["9 turn"],
        "carbide.nc": ["9 stop"], "estlcam.nc": ["11 turn", "11 mode"],
    }

    def test_all(self) -> None:
        """From machine 0, and from a work zero far below it."""
        folder = Path(__file__).resolve().parent / "cam"
        settings = str(folder / "cam.toml")
        files = [*sorted((TOOLS.parent / "examples").glob("*.ngc")), *sorted(folder.glob("*.expected"))]
        self.assertGreater(len(files), 30)
        wanted = self.STAND | self.MEANT
        for path in files:
            name = path.name.removesuffix(".expected")
            for beginning in (Beginning(), Beginning.of_origin(0, 0, -100_000_000)):
                with self.subTest(name):
                    self.assertEqual(self.found(path, settings, beginning), wanted.get(name, []))

    @staticmethod
    def found(path: Path, settings: str, beginning: Beginning) -> list[str]:
        """The lines that are warned of, each with the kind of the warning."""
        lines = Lines(path.read_bytes())

        def run(text: bytes) -> tuple[int, bytes]:
            return beginning.dry(ngc(), text, settings)

        refused = {finding.refusal.line for finding in find_all(lines, lambda text: refusal(*run(text)))}
        under = Conditions(beginning, InForce(origin=(0, 0, -100_000_000) if beginning.head else (0, 0, 0)),
                           Settings.read(settings), is_placed=bool(beginning.head))
        return [f"{danger.line} {danger.kind}" for danger in dangers(lines, lambda text: run(text)[1], under)
                if danger.line not in refused]


class ByChance(InFolder):
    """Texts of words by chance, valid and not."""

    WORDS = ("G0 G1 G2 G3 G4 G17 G18 G20 G28 G41 G43 G53 G54 G80 G81 G86 G90 G91 G92 G93 G91.1 G64 M0 M3 M6 M8 M2 T1 T2"
             " H1 F100 S500 X1 X2 Y3 Z-1 R1 R-2 Q1 P40 L0 I1 J-1 K0 X[1/0] Y#6000 #1=2 #[1]=[2+ (a) (b c) ;d % / N1 O1"
             " A1 U \u00e9 . [ ] X2000 \r").split(" ")

    def test_texts(self) -> None:
        """The first refusal is that of the program; what it went on with is taken; each command has its line."""
        chance = random.Random(52)
        for _ in range(20):
            words = [chance.choices(self.WORDS, k=chance.randint(0, 6)) for _ in range(chance.randint(1, 7))]
            text = "\n".join(map(" ".join, [*words, [chance.choice(("M2", "%", ""))]])).encode()
            lines = Lines(text)
            first = self.ask(text)
            found = [finding.refusal for finding in find_all(lines, self.ask, 200)]
            self.assertEqual(found[:1], [first] if first else [], text)
            self.assertLess(len(found), 200, text)
            mended = b"".join(lines.all)
            left = self.ask(mended)
            self.assertTrue(left is None or left.code in ("X3", "X4"), text)
            printed = [command for _, each in sorted(by_line(lines, self.dry).items()) for command in each]
            whole = [command for command in read_commands(self.dry(mended)) if command.name not in
                     ("COMMENT", "MESSAGE", "REFUSED")]
            self.assertEqual(printed, whole, text)

    @staticmethod
    def ask(text: bytes) -> Refusal | None:
        """What `ngc dry` refuses."""
        return refusal(*dry(ngc(), text))

    @staticmethod
    def dry(text: bytes) -> bytes:
        """What `ngc dry` prints."""
        return dry(ngc(), text)[1]


class Words(InFolder):
    """What ends with status 2, and says why."""

    def failed(self, *words: str) -> str:
        """The last line of standard error."""
        done = self.tool("ngc-check", *words)
        self.assertEqual((done.returncode, done.stdout), (2, ""))
        return done.stderr.splitlines()[-1]

    def test_words(self) -> None:
        """Words that don't go together."""
        self.assertEqual(self.failed("--ngc", ngc()), "ngc-check: error: name the file of a program")
        self.assertEqual(self.failed("--settings-only", "--ngc", ngc()),
                         "ngc-check: error: --settings-only takes --settings FILE and no program")
        self.assertIn("not a whole number of at most nine digits: -5", self.failed("p.ngc", "--most", "-5"))

    def test_files(self) -> None:
        """No `ngc`, no program, a folder, settings that are refused."""
        Path("p.ngc").write_text("M2\n")
        Path("bad.toml").write_text("")
        self.assertEqual(self.failed("p.ngc", "--ngc", "none"), "ngc-check: none: not a program that can be run")
        self.assertEqual(self.failed("none.ngc", "--ngc", ngc()), "ngc-check: none.ngc: No such file or directory")
        self.assertEqual(self.failed(".", "--ngc", ngc()), "ngc-check: .: Is a directory")
        self.assertEqual(self.failed("p.ngc", "--ngc", ngc(), "--settings", "none.toml"),
                         "ngc-check: none.toml: No such file or directory")
        self.assertEqual(self.failed("p.ngc", "--ngc", ngc(), "--settings", "bad.toml"), "    tools_nm is missing: an"
                         " array of at most 128 whole numbers of nanometres, 0 to 1,000,000,000")
        Path("odd.ngc").write_bytes(b"\xff\xfeM\x002")
        self.assertEqual(self.failed("odd.ngc", "--ngc", ngc()), "ngc-check: odd.ngc: it begins as UTF-16 does, and"
                         " byte 4 isn't UTF-16: save it in UTF-8")
        os.mkfifo("pipe")
        self.assertEqual(self.failed("p.ngc", "--device", "pipe", "--ngc", ngc()),
                         "ngc-check: pipe: no file, but a pipe")
        self.assertEqual(self.failed("p.ngc", "--device", "p.ngc", "--ngc", ngc()),
                         "ngc-check: p.ngc: not a device: 3 bytes, and a device has 875,520 or more")
        self.assertEqual(self.failed("p.ngc", "--origin", "0", "0", "1e3", "--ngc", ngc()), "ngc-check: error: argument"
                         " --origin: not a number of millimetres with at most six decimals: 1e3")
        self.assertEqual(self.failed("p.ngc", "--ngc", sys.executable),
                         "ngc-check: ngc dry ended with status 2, and says nothing")
        self.assertEqual(self.failed("p.ngc", "--ngc", sys.executable, "--settings", "first.toml"),
                         "ngc-check: ngc dry ended with status 2, and names no fault of first.toml")

