"""What is said to be written in place of a refused line, tried: for each cure a program that is refused with it, the
program as a reader of the cure mends it, and what that has to do, by hand. It makes no motion and sets no origin
that the program didn't mean."""
import sys
import unittest
from dataclasses import dataclass
from pathlib import Path

sys.path.insert(0, str(Path(__file__).resolve().parent))

from session_support import FIRST, InFolder, ngc

from ngc_tools.formats.canonical import Command, read_commands
from ngc_tools.job.refused import Finding, Lines, find_all
from ngc_tools.ngc import cures, faults
from ngc_tools.ngc.run import dry, refusal

HEAD = "G21 G17 G90 G94 F600\n"
SETTINGS = FIRST.replace("tools_nm = [50000000]", "tools_nm = [50000000, 62500000]")


@dataclass(frozen=True)
class Case:
    """A fault's code, the words of its cure, what is refused with it, how that is mended, and what it does then: `G0`,
    `G1`, `G2` and `G3` with their ends and an arc's centre, `G4` with seconds, `L` with a tool's length, `O` with an
    origin, as they are printed in machine coordinates. The head stands before both programs, M2 after them."""

    code: str
    words: str
    refused: str
    mended: str
    does: str = ""


CASES = (
    # The cures of faults, in the order of their table. G12 mills a circle.
    Case("E1", "write only words of one letter and a number, settings such as #1=2, and comments in ( )", "G0 X1 & Y2",
         "G0 X1 Y2", "G0 1 2 0"),
    Case("E2", "shorten the line: at most 256 bytes, its blanks and comments counted", "G0 X1 (" + "long" * 65 + ")",
         "G0 X1 (short)", "G0 1 0 0"),
    Case("E3", "look for a digit too many, a wrong unit, or an offset that is far too large", "G0 X10000000.5",
         "G0 X100.5", "G0 100.5 0 0"),
    Case("E4", "write #1 to #5399", "#0=5\nG0 X#1", "#1=5\nG0 X#1", "G0 5 0 0"),
    Case("E5", "look at the divisor, at what SQRT takes and at the exponent", "#1=2\nG0 X[6/[#1-2]]",
         "#1=2\nG0 X[6/[#1]]", "G0 3 0 0"),
    Case("B1", "write the letter once; two lines where both are meant", "G0 X1 X2", "G0 X1\nX2", "G0 1 0 0, G0 2 0 0"),
    Case("B2", "see what it means where the program was written for, and let the post-processor do without it; don't"
         " leave out the code alone: axis words beside it would be a move", "G1 X1\nG12 I2\nX4",
         "G1 X1\nX3\nG3 X3 I-2\nG1 X1\nX4", "G1 1 0 0, G1 3 0 0, G3 3 0 0 1 0, G1 1 0 0, G1 4 0 0"),
    Case("B3", "let the CAM system do it with plain moves; don't leave out the code alone: axis words beside it would"
         " be a move", "G87 X5 Z-2 R1", "G0 Z1\nX5\nG1 Z-2\nG0 Z1", "G0 0 0 1, G0 5 0 1, G1 5 0 -2, G0 5 0 1"),
    Case("B4", "write the one that is meant, or each on a line of its own; G0 beside G80, without an axis, does"
         " nothing: leave it out", "G0 G80 G40\nM7 M8\nG0 X1", "G80 G40\nM7\nM8\nG0 X1", "G0 1 0 0"),
    Case("B5", "put some of the M words on a line of their own", "G0 X1 M3 M6 M8 M48 M0", "M6 M48\nG0 X1 M3 M8 M0",
         "G0 1 0 0"),
    Case("B6", "G10, G28, G30 and G92 take the axis words of the line: leave the G word of the motion out, and write"
         " it on the next line that moves", "G0 X5\nG1 G92 X0\nX3", "G0 X5\nG92 X0\nG1 X3",
         "G0 5 0 0, O 5 0 0, G1 8 0 0"),
    Case("B7", "no motion is in force: name the one that the line is meant to move by; if its words went with a code"
         " that was left out, leave the whole line out too", "G0 Z5\nG80\nX1\nG1 Z-1", "G0 Z5\nG80\nG0 X1\nG1 Z-1",
         "G0 0 0 5, G0 1 0 5, G1 1 0 -1"),
    Case("B8", "leave it out here, and write it on the next line that moves, if that names no motion; F alone is fine",
         "G0 X5\nG1 F100\nZ-1\nX6", "G0 X5\nF100\nG1 Z-1\nX6", "G0 5 0 0, G1 5 0 -1, G1 6 0 -1"),
    Case("B9", "name the axes and coordinates that are meant; where none is, leave the whole line out",
         "G0 X1\nG92 S3000\nG0 X2", "G0 X1\nG0 X2", "G0 1 0 0, G0 2 0 0"),
    Case("B10", "write the motion that is meant beside it, as G53 G0 or G53 G1; without an axis word leave G53 out",
         "G2 X2 I1\nG53 Z5\nG53\nG0 X1", "G2 X2 I1\nG53 G0 Z5\nG0 X1", "G2 2 0 0 1 0, G0 2 0 5, G0 1 0 5"),
    Case("B11", "write the arc by its centre, I and J in G17 from the start of the arc, in place of R", "G2 X1 Y1 R1",
         "G2 X1 Y1 I1 J0", "G2 1 1 0 1 0"),
    Case("B12", "see what it stands for where the program was written for; leave it out only if the line is meant"
         " without it", "G64 P0.1\nG1 X1", "G64\nG1 X1", "G1 1 0 0"),
    Case("B13", "write a number that is 0 or more; where S below 0 means the other direction, write M4 and S above 0",
         "M3 S-1000\nG1 X1", "M4 S1000\nG1 X1", "G1 1 0 0"),
    Case("B14", "give this slot a length, and those before it: tools_nm of the settings for a dry run, the command"
         " tool for the machine; numbers above 128 become slots by ngc-adapt --tool NUMBER=SLOT",
         "T3 M6\nG43 H201\nG0 Z5", "T2 M6\nG43 H2\nG0 Z5", "L 62.5, G0 0 0 67.5"),
    Case("B15", "G10 takes L2 alone, and machine coordinates of an origin; a cycle takes L1 or more: see which is"
         " meant", "G10 P1 X5\nG54 G0 X1", "G10 L2 P1 X5\nG54 G0 X1", "O 5 0 0, O 5 0 0, G0 6 0 0"),
    Case("B16", "write the system that is meant, P1 to P9, of which P1 is G54; P0 is the one in force on some"
         " controls, and a shift of all on others", "G55\nG10 L2 P0 X5\nG0 X1", "G55\nG10 L2 P2 X5\nG0 X1",
         "O 0 0 0, O 5 0 0, G0 6 0 0"),
    Case("B17", "write how long in seconds, as P, and no other word for it: half a second is G4 P0.5",
         "G1 X1\nG4 F2\nX2", "G1 X1\nG4 P2\nX2", "G1 1 0 0, G4 2, G1 2 0 0"),
    Case("B18", "write H with the slot of the tool that is in: after T2 M6 that is G43 H2", "T2 M6\nG43\nG0 Z5",
         "T2 M6\nG43 H2\nG0 Z5", "L 62.5, G0 0 0 67.5"),
    Case("B19", "cycles drill along Z, in G17: write that before one that is meant so; along X or Y write plain moves",
         "G18 G2 X2 I1\nG81 X5 Z-1 R1", "G18 G2 X2 I1\nG17 G81 X5 Z-1 R1",
         "G2 2 0 0 0 1, G0 2 0 1, G0 5 0 1, G1 5 0 -1, G0 5 0 1"),
    Case("C1", "write where the arc ends, X or Y in G17; for a full turn the coordinate where it starts",
         "G0 X5\nG3 I-5", "G0 X5\nG3 X5 I-5", "G0 5 0 0, G3 5 0 0 0 0"),
    Case("C2", "write where the centre is, I or J in G17, counted from the start of the arc; a straight line is G1",
         "G2 X2\nX3 Y5", "G2 X2 I1\nG1 X3 Y5", "G2 2 0 0 1 0, G1 3 5 0"),
    Case("C3", "write the arc with four decimals in millimetres, five in inches; I, J and K count from the start of"
         " the arc", "G2 X1 Y1 I1.01 J0", "G2 X1.0000 Y1.0000 I1.0000 J0.0000", "G2 1 1 0 1 0"),
    Case("C4", "write the centre where it is, or a straight G1 in place of a tiny arc", "G2 X0.001 I0\nG1 X1",
         "G1 X0.001\nG1 X1", "G1 0.001 0 0, G1 1 0 0"),
    Case("Y1", "write the cycle with its words on the next line that names X or Y", "G81 R1 F100\nX5 Z-1",
         "F100\nG81 X5 Z-1 R1", "G0 0 0 1, G0 5 0 1, G1 5 0 -1, G0 5 0 1"),
    Case("Y2", "write Z, the bottom that is meant; another motion before it drops the one that was kept",
         "G81 X5 Z-1 R1\nG0 X6\nG81 X7 R1", "G81 X5 Z-1 R1\nG0 X6\nG81 X7 Z-1 R1",
         "G0 0 0 1, G0 5 0 1, G1 5 0 -1, G0 5 0 1, G0 6 0 1, G0 7 0 1, G1 7 0 -1, G0 7 0 1"),
    Case("Y3", "write R, the height where it begins to feed; another motion before it drops the one that was kept",
         "G0 Z1\nG81 X5 Z-1", "G0 Z1\nG81 X5 Z-1 R1", "G0 0 0 1, G0 5 0 1, G1 5 0 -1, G0 5 0 1"),
    Case("Y4", "write an R that is above Z; under G91 Z counts from R", "G81 X5 Z-1 R-2", "G81 X5 Z-2 R-1",
         "G0 5 0 0, G0 5 0 -1, G1 5 0 -2, G0 5 0 0"),
    Case("Y5", "write G94 before the cycle, and F as a length a minute", "G93 G1 X1 F2\nG81 X5 Z-1 R1 F2",
         "G93 G1 X1 F2\nG94 G81 X5 Z-1 R1 F100", "G1 1 0 0, G0 1 0 1, G0 5 0 1, G1 5 0 -1, G0 5 0 1"),
    Case("Y6", "write the seconds of the dwell as 0 or more", "G82 X5 Z-1 R1 P-2", "G82 X5 Z-1 R1 P2",
         "G0 0 0 1, G0 5 0 1, G1 5 0 -1, G4 2, G0 5 0 1"),
    Case("Y7", "write Q, the peck, above 0; G81 drills without pecks", "G83 X5 Z-1 R1 Q0", "G81 X5 Z-1 R1",
         "G0 0 0 1, G0 5 0 1, G1 5 0 -1, G0 5 0 1"),
    Case("Y8", "start the spindle before G86, by M3 or M4", "G86 X5 Z-1 R1 P1", "M3\nG86 X5 Z-1 R1 P1",
         "G0 0 0 1, G0 5 0 1, G1 5 0 -1, G4 1, G0 5 0 1"),
    Case("X1", "write F on this line or before it; under G93 on each line that feeds", "F0\nG1 X1", "F0\nG1 X1 F100",
         "G1 1 0 0"),
    Case("X2", "look at the travel of the settings, at the work offset and at the unit", "G20 G0 X100", "G21 G0 X100",
         "G0 100 0 0"),
    Case("X3", "end the program with M2 or M30, and a newline after it", "G0 X1\n-", "G0 X1", "G0 1 0 0"),
    Case("X4", "end the program with M30, and close it with a line % alone", "%\nG0 X1\n-", "%\nG0 X1\nM30\n%\n-",
         "G0 1 0 0"),
)
WORDS = (
    # The cures of words, in the order of theirs.
    Case("E1", "write the comment in ( ), with no ( or ) in it", "G0 X1 ; X2", "G0 X1 (X2)", "G0 1 0 0"),
    Case("E1", "leave the program's number out; there are no subroutines and no loops", "O1000 (part)\nG0 X1",
         "(part)\nG0 X1", "G0 1 0 0"),
    Case("E1", "there are no subroutines and no loops: let the post-processor write out what they do",
         "G91\nO1 repeat [2]\nG0 X1\nO1 endrepeat", "G91\nG0 X1\nG0 X1", "G0 1 0 0, G0 2 0 0"),
    Case("E1", "beside G28 and G30 don't leave it out alone: without an axis all three go home. Write G53 G0 and the"
         " machine coordinates that are meant in place of the line", "G0 X5 Z5\nG28 U0", "G0 X5 Z5\nG53 G0 X0",
         "G0 5 0 5, G0 0 0 5"),
    Case("E1", "there are three axes: let the post-processor write for X, Y and Z; U and W of a lathe are X and Z"
         " from where the tool stands", "G0 X5\nG0 U2", "G0 X5\nG0 X7", "G0 5 0 0, G0 7 0 0"),
    Case("E1", "write a comment with no ( or ) in it, and close it", "G0 X1 (a (b) X2", "G0 X1 (a b X2)", "G0 1 0 0"),
    Case("E1", "leave the program's number out", ":1000\nG0 X1", "G0 X1", "G0 1 0 0"),
    Case("E1", "leave it out: a percent sign stands alone on its line, the first one before all other lines",
         "(a)\n%\nG0 X1\n", "(a)\nG0 X1", "G0 1 0 0"),
    Case("E1", "write a block number of 1 to 5 digits, or none", "N100000 G0 X1", "N1 G0 X1", "G0 1 0 0"),
    Case("E1", "it rounds or bevels a corner: let the post-processor write that as moves of its own", "G1 X5 ,R1\nY5",
         "G1 X4\nG3 X5 Y1 J1\nG1 Y5", "G1 4 0 0, G3 5 1 0 4 1, G1 5 5 0"),
    Case("E1", "write numbers with a point", "G0 X1,5", "G0 X1.5", "G0 1.5 0 0"),
    Case("E1", "write a difference: X-#1 is X[0-#1]", "#1=5\nG0 X-#1", "#1=5\nG0 X[0-#1]", "G0 -5 0 0"),
    Case("E1", "end the last line with a newline", "G0 X1\nM2\r-", "G0 X1\nM2\n-", "G0 1 0 0"),
    Case("E1", "save the file without a byte order mark", "\ufeffG0 X1", "G0 X1", "G0 1 0 0"),
    Case("E1", "leave it out, or put it into a comment", "G0 X1 \xfc", "G0 X1 (\xfc)", "G0 1 0 0"),
    Case("B2", "leave it out: I, J and K count from the start of the arc, always", "G91.1\nG0 X1\nG2 X3 I1",
         "G0 X1\nG2 X3 I1", "G0 1 0 0, G2 3 0 0 2 0"),
    Case("B2", "let the post-processor count I, J and K from the start of the arc; then leave it out",
         "G90.1\nG0 X1\nG2 X3 I2 J0", "G0 X1\nG2 X3 I1 J0", "G0 1 0 0, G2 3 0 0 2 0"),
    Case("B2", "write G20", "G70 G0 X1", "G20 G0 X1", "G0 25.4 0 0"),
    Case("B2", "write G21", "G71 G0 X1", "G21 G0 X1", "G0 1 0 0"),
    Case("B2", "it is a spline or a look ahead: switch it off in the post-processor, which then writes G1, G2 and G3",
         "G1 X1\nG5.1 Q1\nX2", "G1 X1\nX2", "G1 1 0 0, G1 2 0 0"),
    Case("B2", "from G16 to G15 coordinates are a radius and an angle: let the post-processor write X and Y, and"
         " neither code", "G16\nG0 X10 Y90\nG15\nX1", "G0 X0 Y10\nX1", "G0 0 10 0, G0 1 10 0"),
    Case("B2", "leave the whole line out: parameters 5161 to 5163 hold the home of G28, 5181 to 5183 that of G30",
         "G0 X1\nG28.1 X0 Y0\nX2", "G0 X1\nX2", "G0 1 0 0, G0 2 0 0"),
    Case("B2", "leave the whole line out, and those that use what it measured: the operator gives tool lengths, by"
         " the command tool", "G0 X1\nG31 Z-50 F20\nG92 Z0\nG0 X2", "G0 X1\nG0 X2", "G0 1 0 0, G0 2 0 0"),
    Case("B2", "give the length to a slot, by the command tool, and write G43 with H of that slot in place of G43.1"
         " and its axis words", "G0 Z5\nG43.1 Z62.5\nG0 Z5", "G0 Z5\nG43 H2\nG0 Z5", "G0 0 0 5, L 62.5, G0 0 0 67.5"),
    Case("B2", "from G51 to G50 coordinates are scaled or mirrored: let the post-processor write them so, and neither"
         " code", "G51 X0 Y0 P2\nG0 X1\nG50", "G0 X2", "G0 2 0 0"),
    Case("B2", "G52 moves the work zero for the lines after it: let the post-processor add that to their coordinates;"
         " leave the whole line out only where it is 0 on each axis", "G0 X1\nG52 X5\nX1\nG52 X0\nX2", "G0 X1\nX6\nX2",
         "G0 1 0 0, G0 6 0 0, G0 2 0 0"),
    Case("B2", "there are nine systems, G54 to G59.3: in place of it and its P write one to which the operator gives"
         " the same origin", "G10 L2 P9 X5\nG54.1 P40\nG0 X1", "G10 L2 P9 X5\nG59.3\nG0 X1", "O 5 0 0, G0 6 0 0"),
    Case("B2", "it calls a macro: write out what that does in place of the line", "G65 P9001 X5\nG0 X9",
         "G0 Z1\nG0 X9", "G0 0 0 1, G0 9 0 1"),
    Case("B2", "from G68 to G69 coordinates are turned: let the post-processor write them so, and neither code",
         "G68 X0 Y0 R90\nG0 X5\nG69", "G0 X0 Y5", "G0 0 5 0"),
    Case("B2", "write G83 with the same words; between pecks it lifts to R", "G0 Z1\nG73 X5 Y5 Z-2 R1 Q2\nX6\nG80",
         "G0 Z1\nG83 X5 Y5 Z-2 R1 Q2\nX6\nG80",
         "G0 0 0 1, G0 5 5 1, G1 5 5 -1, G0 5 5 1, G0 5 5 -0.746, G1 5 5 -2, G0 5 5 1, "
         "G0 6 5 1, G1 6 5 -1, G0 6 5 1, G0 6 5 -0.746, G1 6 5 -2, G0 6 5 1"),
    Case("B2", "there is no such cycle: switch it off in the post-processor; by hand leave out this line and those"
         " after it up to G80", "G0 Z5\nG74 X5 Z-2 R1\nX6\nG80\nG0 X7", "G0 Z5\nG80\nG0 X7", "G0 0 0 5, G0 7 0 5"),
    Case("B2", "F is a feed a turn there: write G94, and F times the speed of the spindle", "S1000 M3\nG95 G1 X1 F0.1",
         "S1000 M3\nG94 G1 X1 F100", "G1 1 0 0"),
    Case("B2", "S is a cutting speed there: leave G96 out, and write S in revolutions a minute", "G96 S150 M3\nG1 X1",
         "S5000 M3\nG1 X1", "G1 1 0 0"),
    Case("B2", "leave it out: S is in revolutions a minute, always", "G97 S900 M3\nG1 X1", "S900 M3\nG1 X1",
         "G1 1 0 0"),
    Case("B2", "write M3 and M8", "S900 M13\nG1 X1", "S900 M3 M8\nG1 X1", "G1 1 0 0"),
    Case("B2", "write M4 and M8", "S900 M14\nG1 X1", "S900 M4 M8\nG1 X1", "G1 1 0 0"),
    Case("B2", "there are no subroutines: write out what it calls in place of the line; M30 ends the program",
         "G91\nM98 P1000 L2\nM30\nO1000\nG0 X1\nM99", "G91\nG0 X1\nG0 X1", "G0 1 0 0, G0 2 0 0"),
    Case("B2", "leave it out, and the words that belong to it, if this machine has nothing that it switches",
         "G0 X1\nM62 P0\nM10 G0 X2", "G0 X1\nG0 X2", "G0 1 0 0, G0 2 0 0"),
    Case("B3", "let the CAM system compensate the cutter's radius (in computer)", "G41 D1 G1 X5\nY5\nG40",
         "G1 X5 Y3\nY5\nG40", "G1 5 3 0, G1 5 5 0"),
    Case("B3", "leave the whole line out, and those that use what it measured: the operator gives tool lengths, by"
         " the command tool", "G0 X1\nG38.2 Z-50 F20\nG92 Z0\nG0 X2", "G0 X1\nG0 X2", "G0 1 0 0, G0 2 0 0"),
    Case("B3", "there is no such cycle: switch it off in the post-processor; by hand leave out this line and those"
         " after it up to G80", "G0 Z5\nG84 X5 Z-2 R1\nX6\nG80\nG0 X7", "G0 Z5\nG80\nG0 X7", "G0 0 0 5, G0 7 0 5"),
    Case("B3", "beside G28 and G30 don't leave it out alone: without an axis all three go home. Write G53 G0 and the"
         " machine coordinates that are meant in place of the line", "G0 X5 Z5\nG91 G28 A0\nG90 G0 X6",
         "G0 X5 Z5\nG90 G0 X6", "G0 5 0 5, G0 6 0 5"),
    Case("B3", "there are no rotary axes: leave it out only where it is 0 in the whole program, as ngc-adapt does;"
         " else let the post-processor write for three axes", "G0 X5 A0", "G0 X5", "G0 5 0 0"),
    Case("B6", "all three axes would go home: in place of both G words write G53 G0, with the machine coordinates"
         " that are meant", "G0 X5 Z5\nG0 G28 Z0", "G0 X5 Z5\nG53 G0 Z9", "G0 5 0 5, G0 5 0 9"),
    Case("B12", "leave it out, 0 too: it isn't an offset in the plane of an arc of this line", "G2 X2 I1 J0 K0",
         "G2 X2 I1 J0", "G2 2 0 0 1 0"),
    Case("B12", "K of a cycle is how often it is done: write L in its place; beside an arc see which plane is meant:"
         " K belongs to G18 and G19", "G0 Z1\nG91 G81 X5 Z-2 R0 K2", "G0 Z1\nG91 G81 X5 Z-2 R0 L2",
         "G0 0 0 1, G0 5 0 1, G1 5 0 -1, G0 5 0 1, G0 10 0 1, G1 10 0 -1, G0 10 0 1"),
    Case("B12", "see whether an arc is meant, and in which plane: I belongs to G17 and G18, J to G17 and G19",
         "G19 G2 Y2 J1\nG2 X2 Y2 I1 J0", "G19 G2 Y2 J1\nG17 G2 X2 Y2 I1 J0", "G2 0 2 0 1 0, G2 2 2 0 1 2"),
    Case("B12", "leave it out: there is no blending, so no tolerance of it", "G64 P0.01 Q0.01\nG1 X1", "G64\nG1 X1",
         "G1 1 0 0"),
    Case("B12", "P beside an arc is how many turns it makes: write each as an arc of its own",
         "G0 X1\nG2 X1 Z-2 I-1 P2", "G0 X1\nG2 X1 Z-1 I-1\nX1 Z-2 I-1", "G0 1 0 0, G2 1 0 -1 0 0, G2 1 0 -2 0 0"),
    Case("B12", "G4, G10, G82, G86 and G89 alone take P: a dwell at the bottom is G82; leave it out only if the line"
         " is meant without it", "G81 X5 Z-1 R1 P2", "G82 X5 Z-1 R1 P2",
         "G0 0 0 1, G0 5 0 1, G1 5 0 -1, G4 2, G0 5 0 1"),
    Case("B12", "where G43 is in force, write G43 beside it; else leave it out", "G0 Z5 H2\nG43 H2\nG0 Z6 H1",
         "G0 Z5\nG43 H2\nG43 G0 Z6 H1", "G0 0 0 5, L 62.5, L 50, G0 0 0 56"),
    Case("B12", "G10 and cycles alone take L: if the line is meant to be done so often, write it so often; else leave"
         " it out", "G91 G1 X1 L2", "G91 G1 X1\nG1 X1", "G1 1 0 0, G1 2 0 0"),
    Case("B12", "Q is the peck of G83: write that where pecks are meant; else leave it out", "G81 X5 Z-1 R1 Q3",
         "G81 X5 Z-1 R1", "G0 0 0 1, G0 5 0 1, G1 5 0 -1, G0 5 0 1"),
    Case("B12", "R beside a straight line rounds the corner: let the post-processor write that as an arc",
         "G1 X5 R1\nY5", "G1 X4\nG3 X5 Y1 J1\nG1 Y5", "G1 4 0 0, G3 5 1 0 4 1, G1 5 5 0"),
    Case("B15", "L20 makes these the coordinates of the point where the tool stands: let the operator set that zero"
         " before the program, and leave the whole line out; or write L2 with the machine coordinates of the origin",
         "G0 X10 Y5\nG10 L20 P1 X0 Y2\nG0 X1", "G0 X10 Y5\nG10 L2 P1 X10 Y3\nG0 X1", "G0 10 5 0, O 10 3 0, G0 11 5 0"),
    Case("B15", "leave the whole line out: the operator gives tool lengths, by the command tool",
         "G10 L1 P1 Z50\nG43 H1\nG0 Z5", "G43 H1\nG0 Z5", "L 50, G0 0 0 55"),
    Case("B15", "it drills nothing, and keeps the words of the cycle: leave the whole line out, and write the cycle"
         " with them on the next line with X or Y", "G0 Z1\nG81 X5 Z-1 R1 L0\nX6", "G0 Z1\nG81 X6 Z-1 R1",
         "G0 0 0 1, G0 6 0 1, G1 6 0 -1, G0 6 0 1"),
    Case("B17", "X is the seconds there: write them as P, in place of X: G4 X1.5 is G4 P1.5", "G1 X1\nG4 X1.5\nY1",
         "G1 X1\nG4 P1.5\nY1", "G1 1 0 0, G4 1.5, G1 1 1 0"),
)


class Cures(InFolder):
    """Each cure."""

    def setUp(self) -> None:
        """Settings with two slots."""
        super().setUp()
        Path("two.toml").write_text(SETTINGS)

    def test_all_are_tried(self) -> None:
        """Each cure of a fault, and each of a word, has its case."""
        for cases, known in ((CASES, [(fault.code, fault.cure) for fault in faults.FAULTS]),
                             (WORDS, [(cure.code, cure.text) for cure in cures.CURES])):
            self.assertEqual([(case.code, case.words) for case in cases], known)

    def test_faults(self) -> None:
        """The program is refused with this fault, whose cure it is where no word tells more."""
        for case in CASES:
            with self.subTest(case.code):
                self.assertEqual(self.found(case).refusal.code, case.code)
                self.assertEqual(cures.cure(case.code, []), case.words)
                self.assertEqual(self.does(case), case.does)

    def test_words(self) -> None:
        """The program is refused with this fault, and its words have this cure."""
        for case, cure in zip(WORDS, cures.CURES, strict=True):
            with self.subTest(f"{case.code} {cure.word} {cure.line}"):
                finding = self.found(case)
                said = cures.cure(finding.refusal.code, finding.words(), finding.text)
                self.assertEqual((finding.refusal.code, said), (case.code, case.words))
                line, *words = [part.decode("latin-1").strip(" \t") for part in (finding.text, *finding.words())]
                self.assertTrue(any(cure.fits(case.code, word, line) for word in words))
                self.assertEqual(self.does(case), case.does)

    def test_several_words(self) -> None:
        """Each with its own; of what isn't known the page tells."""
        self.assertEqual(cures.cure("B2", [b"G71", b"G91.1"]),
                         "G71: write G21; G91.1: leave it out: I, J and K count from the start of the arc, always")
        self.assertEqual(cures.cure("B2", [b"G61.2"]), faults.fault("B2").cure)
        self.assertEqual(cures.cure("X9", [b""]), "look it up in docs/LANGUAGE.md")

    def test_going_on(self) -> None:
        """Words that belong to what is left out are left out with it, so that nothing is said of them; others stay."""
        for line, taken in (("G52 X5", True), ("G73 X5 Y5 Z-2 R1 Q1", True), ("G68 X0 Y0 R45", True), ("G4 X1.5", True),
                            ("G10 L20 P1 X0 Y0", True), ("G12 I2", True), ("G28 A0", True), ("G0 X5 A0", False),
                            ("G91.1 X5", False), ("G70 X5", False), ("M62 X5", False), ("G1 X5 Q1", False)):
            finding = self.found(Case("", "", f"G0 X1\n{line}\nX2", ""))
            self.assertEqual(finding.left_out is None, taken, line)
        lines = Lines(text("G0 X1\nG52 X5\nG68 X9 R45\nG0 X2"))
        found = [finding.refusal.code for finding in find_all(lines, lambda asked: refusal(*dry(ngc(), asked)))]
        self.assertEqual(found, ["B2", "B2"])
        self.assertEqual(b"".join(lines.all).split(b"\n")[1:5], [b"G0 X1", b"", b"", b"G0 X2"])

    def found(self, case: Case) -> Finding:
        """The first refusal."""
        findings = find_all(Lines(text(case.refused)), lambda asked: refusal(*dry(ngc(), asked, "two.toml")), 1)
        return next(findings)

    def does(self, case: Case) -> str:
        """What the mended program does. It isn't refused."""
        status, printed = dry(ngc(), text(case.mended), "two.toml")
        self.assertEqual(status, 0, printed)
        return ", ".join(filter(None, map(noted, before_end(read_commands(printed)))))


def text(program: str) -> bytes:
    """A program with its head and end; one with - at its end has no other end, and one that begins with % no head."""
    head = HEAD if program[:1] not in "%(:O\ufeff" else ""
    whole = head + program.removesuffix("-") if program.endswith("-") else f"{head}{program}\nM2\n"
    return whole.encode("latin-1", "ignore") if "\ufeff" not in whole else whole.encode()


def before_end(commands: list[Command]) -> list[Command]:
    """The commands without those of the program's end, the first of which is an origin."""
    names = [command.name for command in commands]
    return commands[:len(names) - 1 - names[::-1].index("SET_ORIGIN_OFFSETS")]


def noted(command: Command) -> str:
    """A command as cases have it; "" for those that move nothing and set no origin."""
    numbers = [f"{arg / 10**6:g}" for arg in command.args if isinstance(arg, int)]
    names = {"STRAIGHT_TRAVERSE": "G0", "STRAIGHT_FEED": "G1", "DWELL": "G4", "SET_ORIGIN_OFFSETS": "O",
             "USE_TOOL_LENGTH_OFFSET": "L", "ARC_FEED": "G2" if "CW" in command.args else "G3"}
    return " ".join([names[command.name], *numbers]) if command.name in names else ""


if __name__ == "__main__":
    unittest.main()
