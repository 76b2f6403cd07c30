"""What to write in place of words that `ngc` refuses: cures of certain words, as CAM systems and other controls have
them, beside those of the faults themselves (`faults`)."""
import re
from dataclasses import dataclass

from ngc_tools.ngc.faults import fault


@dataclass(frozen=True, slots=True)
class Cure:
    """What to write where a fault marks a certain word: the fault's code, the word as a pattern of the whole of it, a
    pattern that is found in the line, and the text. `takes_line` says that other words of the line belong to it, so
    that without it they mean something else."""

    code: str
    word: str
    line: str
    text: str
    takes_line: bool = False

    def fits(self, code: str, word: str, line: str) -> bool:
        """Whether it is of this word of this line."""
        flags = re.IGNORECASE | re.DOTALL
        return self.code == code and bool(re.fullmatch(self.word, word, flags) and re.search(self.line, line, flags))


_TAKE_LINES = ("B2", "B15", "B17")
"""The faults of codes to which other words of the line belong, where a word has no cure of its own."""
_HOME = r"G *0*(28|30)(?![0-9.])"
_MEASURED = ("leave the whole line out, and those that use what it measured: the operator gives tool lengths, by the "
             "command tool")
_CYCLE = ("there is no such cycle: switch it off in the post-processor; by hand leave out this line and those after it "
          "up to G80")
_ALL_AXES = ("beside G28 and G30 don't leave it out alone: without an axis all three go home. Write G53 G0 and the "
             "machine coordinates that are meant in place of the line")
# A text never makes a move or sets an origin that the line didn't mean. Of several that fit a word the first counts.
CURES = tuple(Cure(*row) for row in (
    ("E1", ";.*", "", "write the comment in ( ), with no ( or ) in it"),
    ("E1", "O *[0-9].*", r"^[ \t]*(N *[0-9]+)?[ \t]*O *[0-9]+[ \t]*(\(.*)?$",
     "leave the program's number out; there are no subroutines and no loops"),
    ("E1", "O.*", "", "there are no subroutines and no loops: let the post-processor write out what they do"),
    ("E1", r"[UVW] *[-+0-9.#\[].*", _HOME, _ALL_AXES, True),
    ("E1", r"[UVW] *[-+0-9.#\[].*", "", "there are three axes: let the post-processor write for X, Y and Z; U and W of "
     "a lathe are X and Z from where the tool stands", True),
    ("E1", r"[()].*", "", "write a comment with no ( or ) in it, and close it"),
    ("E1", ":.*", "", "leave the program's number out"),
    ("E1", "%.*", "", "leave it out: a percent sign stands alone on its line, the first one before all other lines"),
    ("E1", "N.*", "", "write a block number of 1 to 5 digits, or none"),
    ("E1", ",.*", ", *[RCA]", "it rounds or bevels a corner: let the post-processor write that as moves of its own"),
    ("E1", ",.*", "", "write numbers with a point"),
    ("E1", r"([A-Z] *)?[-+].*", r"[-+][ \t]*[#\[A-Z]", "write a difference: X-#1 is X[0-#1]"),
    ("E1", "\r", "", "end the last line with a newline"),
    ("E1", "\xef\xbb\xbf", "", "save the file without a byte order mark"),
    ("E1", "[\x80-\xff]+", "", "leave it out, or put it into a comment"),
    ("B2", r"G *91\.1", "", "leave it out: I, J and K count from the start of the arc, always"),
    ("B2", r"G *90\.1", "", "let the post-processor count I, J and K from the start of the arc; then leave it out"),
    ("B2", "G *70", "", "write G20"),
    ("B2", "G *71", "", "write G21"),
    ("B2", r"G *0*(5|5\.[123]|8)", "", "it is a spline or a look ahead: switch it off in the post-processor, which "
     "then writes G1, G2 and G3", True),
    ("B2", "G *1[56]", "", "from G16 to G15 coordinates are a radius and an angle: let the post-processor write X and "
     "Y, and neither code", True),
    ("B2", r"G *(28|30)\.1", "", "leave the whole line out: parameters 5161 to 5163 hold the home of G28, 5181 to 5183 "
     "that of G30", True),
    ("B2", r"G *3[17](\.[0-9])?", "", _MEASURED, True),
    ("B2", r"G *43\.1", "", "give the length to a slot, by the command tool, and write G43 with H of that slot in "
     "place of G43.1 and its axis words", True),
    ("B2", r"G *5[01](\.1)?", "", "from G51 to G50 coordinates are scaled or mirrored: let the post-processor write "
     "them so, and neither code", True),
    ("B2", "G *52", "", "G52 moves the work zero for the lines after it: let the post-processor add that to their "
     "coordinates; leave the whole line out only where it is 0 on each axis", True),
    ("B2", r"G *(54\.1|154)", "", "there are nine systems, G54 to G59.3: in place of it and its P write one to which "
     "the operator gives the same origin", True),
    ("B2", "G *6[567]", "", "it calls a macro: write out what that does in place of the line", True),
    ("B2", "G *6[89]", "", "from G68 to G69 coordinates are turned: let the post-processor write them so, and neither "
     "code", True),
    ("B2", "G *73", "", "write G83 with the same words; between pecks it lifts to R", True),
    ("B2", r"G *(7[45678]|84\.[0-9])", "", _CYCLE, True),
    ("B2", "G *95", "", "F is a feed a turn there: write G94, and F times the speed of the spindle"),
    ("B2", "G *96", "", "S is a cutting speed there: leave G96 out, and write S in revolutions a minute"),
    ("B2", "G *97", "", "leave it out: S is in revolutions a minute, always"),
    ("B2", "M *13", "", "write M3 and M8"),
    ("B2", "M *14", "", "write M4 and M8"),
    ("B2", "M *9[789]", "", "there are no subroutines: write out what it calls in place of the line; M30 ends the "
     "program", True),
    ("B2", "M.*", "", "leave it out, and the words that belong to it, if this machine has nothing that it switches"),
    ("B3", r"G *4[12](\.1)?|D.*", "", "let the CAM system compensate the cutter's radius (in computer)"),
    ("B3", r"G *38\.2", "", _MEASURED, True),
    ("B3", "G *8[478]", "", _CYCLE, True),
    ("B3", "[ABC].*", _HOME, _ALL_AXES, True),
    ("B3", "[ABC].*", "", "there are no rotary axes: leave it out only where it is 0 in the whole program, as "
     "ngc-adapt does; else let the post-processor write for three axes"),
    ("B6", _HOME, "", "all three axes would go home: in place of both G words write G53 G0, with the machine "
     "coordinates that are meant"),
    ("B12", r"[IJK] *[-+]?0*\.?0*", "",
     "leave it out, 0 too: it isn't an offset in the plane of an arc of this line"),
    ("B12", "K.*", "", "K of a cycle is how often it is done: write L in its place; beside an arc see which plane is "
     "meant: K belongs to G18 and G19"),
    ("B12", "[IJ].*", "", "see whether an arc is meant, and in which plane: I belongs to G17 and G18, J to G17 and "
     "G19"),
    ("B12", "[PQ].*", "G *64", "leave it out: there is no blending, so no tolerance of it"),
    ("B12", "P.*", r"G *0*[23](?![0-9.])", "P beside an arc is how many turns it makes: write each as an arc of its "
     "own"),
    ("B12", "P.*", "", "G4, G10, G82, G86 and G89 alone take P: a dwell at the bottom is G82; leave it out only if the "
     "line is meant without it"),
    ("B12", "H.*", "", "where G43 is in force, write G43 beside it; else leave it out"),
    ("B12", "L.*", "", "G10 and cycles alone take L: if the line is meant to be done so often, write it so often; else "
     "leave it out"),
    ("B12", "Q.*", "", "Q is the peck of G83: write that where pecks are meant; else leave it out"),
    ("B12", "R.*", "", "R beside a straight line rounds the corner: let the post-processor write that as an arc"),
    ("B15", ".*", r"^(?=.*G *10(?![0-9.]))(?=.*L *20(?![0-9.]))", "L20 makes these the coordinates of the point where "
     "the tool stands: let the operator set that zero before the program, and leave the whole line out; or write L2 "
     "with the machine coordinates of the origin", True),
    ("B15", ".*", r"^(?=.*G *10(?![0-9.]))(?=.*L *1[0123]?(?![0-9.]))", "leave the whole line out: the operator gives "
     "tool lengths, by the command tool", True),
    ("B15", ".*", r"L *0+(?![.0-9])", "it drills nothing, and keeps the words of the cycle: leave the whole line out, "
     "and write the cycle with them on the next line with X or Y", True),
    ("B17", ".*", r"X *[0-9.#\[]", "X is the seconds there: write them as P, in place of X: G4 X1.5 is G4 P1.5", True),
))


def cure(code: str, marked: list[bytes], line: bytes = b"") -> str:
    """What to write in place of the `marked` words, those without which the fault goes away; they may be none. `line`
    is the one that they stand in."""
    said = {}
    for word, found in _cures(code, marked, line):
        if found and found.text not in said.values():
            said[word] = found.text
    if len(said) > 1:
        return "; ".join(f"{word}: {cure}" for word, cure in said.items())
    known = fault(code)
    return next(iter(said.values()), known.cure if known else "look it up in docs/LANGUAGE.md")


def takes_line(code: str, marked: list[bytes], line: bytes) -> bool:
    """Whether other words of the line belong to one of the marked words: without it they would be a motion, or another
    setting."""
    return any(found.takes_line if found else code in _TAKE_LINES for _, found in _cures(code, marked, line))


def _cures(code: str, marked: list[bytes], line: bytes) -> list[tuple[str, Cure | None]]:
    """Each marked word, and the cure that it has of its own."""
    context = (line or b" ".join(marked)).decode("latin-1")
    words = [word.decode("latin-1").strip(" \t") for word in marked]
    return [(word, next((cure for cure in CURES if cure.fits(code, word, context)), None)) for word in words]
