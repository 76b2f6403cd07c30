"""The words of a line that CAM systems write otherwise than `ngc` reads them: rules that look at this line alone, and
at the modes in force."""
import re
from decimal import Decimal

from ngc_tools.job.cam_line import CamLine, matched, value_end
from ngc_tools.job.cam_modes import Modes

_SIGN = re.compile(r"[-+](?=[ \t]*[#\[A-Za-z])")
_COLON = re.compile(r"[ \t]*(:[ \t]*[0-9]+)((?:[ \t]*\([^()]*\))?[ \t]*)")
_LONGEST = 256  # bytes of a line that `ngc` takes
_CENTRES_FROM_START = Decimal("91.1")


def comments(line: CamLine) -> None:
    """`;` comments, and comments within comments."""
    for piece in list(line.pieces):
        inner = piece.text[1:-1]
        if piece.text.startswith(";"):
            words = piece.text[1:].strip().translate(str.maketrans("()", "[]"))
            line.put(piece, f"({words})" if words else "", "a comment stands in ( )")
        elif piece.is_comment and ("(" in inner or ")" in inner):
            line.put(piece, f"({inner.translate(str.maketrans('()', '[]'))})", "a comment has no ( ) in it")


def colon_number(line: CamLine, modes: Modes) -> None:
    """`:1000` before all words, alone on its line but for a comment."""
    match = _COLON.fullmatch(line.text)
    if match and not modes.begun:
        line.cut_again(f"({match[1]}){match[2]}", "a program has no number")


def program_number(line: CamLine, modes: Modes) -> None:
    """`O1000` before all other words, alone on its line but for comments."""
    number = line.find("O")
    if number and number.value is not None and not modes.begun and line.letters() <= {"O", "N"}:
        line.put(number, f"({number.text})", "a program has no number")


def block_number(line: CamLine) -> None:
    """Block numbers of more than five digits."""
    number = line.find("N")
    digits = re.sub(r"[ \t]", "", number.text[1:]) if number else ""
    if len(digits) > 5 and digits.isdecimal():
        line.drop(number, "a block number has five digits at most")


def unit(line: CamLine) -> None:
    """G70 and G71 for inches and millimetres; with P, Q, U or W they are cycles of a lathe."""
    if line.letters() & set("PQUWD"):
        return
    for old, new in ((70, 20), (71, 21)):
        word = line.find("G", old)
        if word and line.find("G", new):
            line.drop(word, f"G{old} is G{new}")
        elif word:
            line.put(word, f"G{new}", f"G{old} is G{new}")


def codes(line: CamLine) -> None:
    """G91.1, and G0 beside G80 without an axis word."""
    if word := line.find("G", _CENTRES_FROM_START):
        line.drop(word, "centres of arcs count from their start always")
    zero = line.find("G", 0)
    if zero and line.find("G", 80) and not line.letters() & set("XYZABCUVW"):
        line.drop(zero, "G0 beside G80, without an axis word")


def tolerance(line: CamLine) -> None:
    """P and Q of G64."""
    others = line.find("G", 4, 10, 82, 83, 86, 89)
    if line.find("G", 64) and not others:
        for letter in "PQ":
            if word := line.find(letter):
                line.drop(word, "there is no blending, so no tolerance of it")


def zero_offset(line: CamLine, modes: Modes) -> None:
    """An offset of 0 outside of the arc's plane."""
    after = modes.after(line)
    word = line.find(*(set("IJK") - set(after.plane_offsets)), 0)
    if word and after.motion in (2, 3):
        line.drop(word, "the offset outside of the plane is 0")


def signs(line: CamLine) -> None:
    """A sign before a parameter, a bracket or a function: -#1 is written [0-#1]."""
    text = line.text
    if len(text) > _LONGEST or not _SIGN.search(text):
        return
    kept = text
    for match in reversed(list(_SIGN.finditer(text))):
        if _is_word(line, match.start()) and text[:match.start()].rstrip(" \t")[-1:] not in tuple("0123456789.])"):
            text = _difference(text, match.start())
    if text != kept:
        line.cut_again(text, "a sign before # or [ is written as a difference")


def _is_word(line: CamLine, place: int) -> bool:
    """Whether what stands at this place of the line is neither in a comment nor in an open one."""
    end = 0
    for piece in line.pieces:
        end += len(piece.blanks) + len(piece.text)
        if place < end:
            return piece.text[:1] not in "(;"
    return False


def _difference(text: str, place: int) -> str:
    """The text with the sign there, and the value after it, as a difference; as it is where no value comes."""
    begin = place + 1 + len(text[place + 1:]) - len(text[place + 1:].lstrip(" \t"))
    end = value_end(text, begin, matched(text, "[]"))
    if end is None:
        return text
    value = text[begin:end]
    return text[:place] + (value if text[place] == "+" else f"[0-{value}]") + text[end:]
