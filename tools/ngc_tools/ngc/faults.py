"""The faults of a line: what docs/LANGUAGE.md says of each, and what to write in its place."""
from dataclasses import dataclass

from ngc_tools.formats.device import MOST_LARGE_PROGRAM, MOST_PROGRAM, SLOTS


@dataclass(frozen=True, slots=True)
class Fault:
    """A fault: its code as `B12`, its name as `UnusedWord`, where it holds as docs/LANGUAGE.md says it, and what
    to write."""

    code: str
    name: str
    holds: str
    cure: str


FAULTS = (
    Fault("E1", "Unreadable",
          "the line isn't in the grammar",
          "write only words of one letter and a number, settings such as #1=2, and comments in ( )"),
    Fault("E2", "LineTooLong",
          "the line has more than 256 bytes",
          "shorten the line: at most 256 bytes, its blanks and comments counted"),
    Fault("E3", "OutOfRange",
          "a value, a computed length or an offset is out of range. E3 looks at: a value; a feed; a named axis's "
          "current, new program and machine coordinate; a new offset; a sum that SET_ORIGIN_OFFSETS prints; an arc's "
          "centre; a cycle's R, Z, Q and the place of each of its repeats. Of a sum the result alone is looked at",
          "look for a digit too many, a wrong unit, or an offset that is far too large"),
    Fault("E4", "BadIndex",
          "a parameter's index isn't whole, or isn't 1 to 5399",
          "write #1 to #5399"),
    Fault("E5", "BadArithmetic",
          "a divisor 0 in / or MOD, SQRT of a negative number, an exponent that isn't whole from 0 to 32",
          "look at the divisor, at what SQRT takes and at the exponent"),
    Fault("B1", "RepeatedLetter",
          "a letter other than G and M is there twice",
          "write the letter once; two lines where both are meant"),
    Fault("B2", "UnknownCode",
          "a G or M value isn't a code of the tables above",
          "see what it means where the program was written for, and let the post-processor do without it; don't leave "
          "out the code alone: axis words beside it would be a move"),
    Fault("B3", "LeftOutCode",
          "a code that is left out, or a word A, B, C or D",
          "let the CAM system do it with plain moves; don't leave out the code alone: axis words beside it would be a "
          "move"),
    Fault("B4", "GroupTwice",
          "two words of one G group or of one M group, those left out among them",
          "write the one that is meant, or each on a line of its own; G0 beside G80, without an axis, does nothing: "
          "leave it out"),
    Fault("B5", "TooManyM",
          "more than four M words",
          "put some of the M words on a line of their own"),
    Fault("B6", "AxisTakenTwice",
          "a group 1 word other than G80 beside G10, G28, G30 or G92",
          "G10, G28, G30 and G92 take the axis words of the line: leave the G word of the motion out, and write it on "
          "the next line that moves"),
    Fault("B7", "AxisUnused",
          "X, Y or Z, the motion mode after the line is G80, and none of G10, G28, G30, G92",
          "no motion is in force: name the one that the line is meant to move by; if its words went with a code that "
          "was left out, leave the whole line out too"),
    Fault("B8", "NoAxis",
          "a G0 or G1 word without X, Y, Z",
          "leave it out here, and write it on the next line that moves, if that names no motion; F alone is fine"),
    Fault("B9", "NothingToSet",
          "G92 without X, Y, Z",
          "name the axes and coordinates that are meant; where none is, leave the whole line out"),
    Fault("B10", "BadG53",
          "G53 where the motion mode after the line isn't G0 or G1",
          "write the motion that is meant beside it, as G53 G0 or G53 G1; without an axis word leave G53 out"),
    Fault("B11", "RadiusArc",
          "R where the line's motion is G2 or G3",
          "write the arc by its centre, I and J in G17 from the start of the arc, in place of R"),
    Fault("B12", "UnusedWord",
          "a word H, I, J, K, L, P, Q or R that nothing takes. H is taken by G43 alone; I, J and K as offsets of an "
          "arc in the plane after the line; L by G10 and cycles; P by G4, G10, G82, G86 and G89; Q by G83; R by "
          "cycles and arcs (R with an arc is B11)",
          "see what it stands for where the program was written for; leave it out only if the line is meant without "
          "it"),
    Fault("B13", "Negative",
          "F, S, or P of G4 below 0",
          "write a number that is 0 or more; where S below 0 means the other direction, write M4 and S above 0"),
    Fault("B14", "BadSlot",
          "T or H isn't whole, is negative, or is above the slots of the table in force",
          "give this slot a length, and those before it: tools_nm of the settings for a dry run, the command tool for "
          "the machine; numbers above 128 become slots by ngc-adapt --tool NUMBER=SLOT"),
    Fault("B15", "BadL",
          "G10 whose L is missing or isn't 2; L of a cycle that isn't whole or is below 1",
          "G10 takes L2 alone, and machine coordinates of an origin; a cycle takes L1 or more: see which is meant"),
    Fault("B16", "BadSystem",
          "G10 whose P is missing or isn't whole from 1 to 9",
          "write the system that is meant, P1 to P9, of which P1 is G54; P0 is the one in force on some controls, and "
          "a shift of all on others"),
    Fault("B17", "NoDwell",
          "G4 without P",
          "write how long in seconds, as P, and no other word for it: half a second is G4 P0.5"),
    Fault("B18", "NoH",
          "G43 without H",
          "write H with the slot of the tool that is in: after T2 M6 that is G43 H2"),
    Fault("B19", "CyclePlane",
          "the motion is a cycle and the plane after the line isn't G17",
          "cycles drill along Z, in G17: write that before one that is meant so; along X or Y write plain moves"),
    Fault("C1", "NoEnd",
          "an arc without an end coordinate in its plane",
          "write where the arc ends, X or Y in G17; for a full turn the coordinate where it starts"),
    Fault("C2", "NoCentre",
          "an arc without an offset in its plane",
          "write where the centre is, I or J in G17, counted from the start of the arc; a straight line is G1"),
    Fault("C3", "RadiiDiffer",
          "the distances of an arc's start and end from its centre differ by more than 2,000 nm, under G20 "
          "5,080 nm (own)",
          "write the arc with four decimals in millimetres, five in inches; I, J and K count from the start of "
          "the arc"),
    Fault("C4", "ZeroRadius",
          "the start or the end of an arc is its centre",
          "write the centre where it is, or a straight G1 in place of a tiny arc"),
    Fault("Y1", "NoAxis",
          "a cycle without X, Y, Z",
          "write the cycle with its words on the next line that names X or Y"),
    Fault("Y2", "NoZ",
          "no Z on the line of a cycle and none kept",
          "write Z, the bottom that is meant; another motion before it drops the one that was kept"),
    Fault("Y3", "NoR",
          "no R on the line of a cycle and none kept",
          "write R, the height where it begins to feed; another motion before it drops the one that was kept"),
    Fault("Y4", "RBelowZ",
          "R below Z",
          "write an R that is above Z; under G91 Z counts from R"),
    Fault("Y5", "InverseTime",
          "a cycle under G93",
          "write G94 before the cycle, and F as a length a minute"),
    Fault("Y6", "NegativeP",
          "the P of G82, G86 or G89, or the one kept, is below 0",
          "write the seconds of the dwell as 0 or more"),
    Fault("Y7", "BadQ",
          "G83 with no Q and none kept, or with one that isn't above 0",
          "write Q, the peck, above 0; G81 drills without pecks"),
    Fault("Y8", "SpindleStopped",
          "G86 while the spindle doesn't turn after the line's spindle and tool words",
          "start the spindle before G86, by M3 or M4"),
    Fault("X1", "NoFeed",
          "a feed move, an arc or a cycle under G94 with feed 0, or under G93 with no F or F0",
          "write F on this line or before it; under G93 on each line that feeds"),
    Fault("X2", "OutsideTravel",
          "the end of a move lies outside the travel, or an extreme that an arc passes does. X2 looks at the end of "
          "each move, for G28 and G30 at the point between too. Of an arc it also looks at each point of its circle "
          "that lies farthest along an axis of its plane, where the arc passes that point. The limits lie inside",
          "look at the travel of the settings, at the work offset and at the unit"),
    Fault("X3", "NoProgramEnd",
          "the text ended before M2 or M30; the line named is the one after the last",
          "end the program with M2 or M30, and a newline after it"),
    Fault("X4", "MissingPercent",
          "the same in a percent program, before its closing percent line too",
          "end the program with M30, and close it with a line % alone"),
)
_BY_CODE = {fault.code: fault for fault in FAULTS}

SESSION = {
    "J1": "the device or OUT failed, or another process holds the device",
    "J2": "the file is too short for a device, or holds none: ngc format DEVICE",
    "J3": "the device was formatted, and what it holds is in no state that a controller writes",
    "J4": "the device has counted as far as it can: ngc format DEVICE",
    "J5": f"a program has at most {MOST_PROGRAM:,} bytes, on a large device {MOST_LARGE_PROGRAM:,} (ngc grow DEVICE"
          " makes it one)",
    "K1": "a block is under way or half-done, the program runs, or it is held",
    "K2": "no program is loaded, or nothing waits: load FILE, run",
    "K3": "it isn't known where the machine stands: reference X Y Z",
    "K4": "no block is half-done",
    "K5": "the device or OUT failed in this session: quit, remove the cause, start again",
    "M1": "out of memory",
    "U1": "not a command, or a number of it isn't in range: help",
}
"""The faults of a session that aren't of a line (docs/SESSION.md), as an operator is told them."""

SETTINGS = {
    "S1": "the text isn't TOML",
    "S2": "a key is missing",
    "S3": "there is another key",
    "S4": "a value isn't of its type",
    "S5": "a number is beyond its limits",
    "S6": f"there are more than {SLOTS} tool lengths",
}
"""The faults of a settings file (docs/SETTINGS.md)."""


def fault(code: str) -> Fault | None:
    """The fault of a code such as `E1`, or None for one that isn't of a line."""
    return _BY_CODE.get(code)


def sentence(code: str) -> str | None:
    """Where a fault such as `E1` holds, or None for one that isn't of a line."""
    found = fault(code)
    return found.holds if found else None
