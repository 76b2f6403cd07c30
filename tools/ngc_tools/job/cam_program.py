"""What all of a CAM system's text says together: rules that one line alone doesn't decide."""
import re
from collections.abc import Callable, Iterable
from dataclasses import dataclass

from ngc_tools.failure import Failure
from ngc_tools.formats.device import SLOTS
from ngc_tools.job.cam_homes import HomeAnswers, Missing
from ngc_tools.job.cam_line import CamLine, Token
from ngc_tools.job.cam_motion import Warn

_PROGRAM_NAME = re.compile(r"[O:]?[0-9]+|(?!(?:[A-Za-z][0-9.]+)+$)[A-Za-z_][A-Za-z0-9_.-]*")
_OF_THE_WHOLE = re.compile(r"[ABCTH)]|G[ \t]*[27]", re.IGNORECASE)
_UNITS = {20: 20, 21: 21, 70: 20, 71: 21}


@dataclass(frozen=True, slots=True)
class Whole:
    """Of the rotary axes A, B and C those that every word puts to 0; the unit that is named first, as 20 or 21, None if
    none is; whether a ) stands anywhere without its (; the numbers of tools, each with its letter, T or H."""

    zero_axes: frozenset[str]
    unit: int | None
    closes_more: bool
    tools: frozenset[tuple[str, int]]

    @staticmethod
    def of(texts: Iterable[str]) -> "Whole":
        """Looks over all lines."""
        zero, moved, units, closes_more, tools = set(), set(), [], False, set()
        for piece in (piece for text in texts if _OF_THE_WHOLE.search(text) for piece in CamLine.cut(text).pieces):
            if piece.letter and piece.letter in "ABC":
                (zero if piece.value == 0 else moved).add(piece.letter)
            elif piece.letter == "G" and piece.value in _UNITS:
                units.append(_UNITS[int(piece.value)])
            elif (number := _tool(piece)) is not None:
                tools.add((piece.letter, number))
            closes_more = closes_more or piece.text == ")"
        return Whole(frozenset(zero - moved), units[0] if units else None, closes_more, frozenset(tools))


def open_comment(line: CamLine, whole: Whole, warn: Warn) -> None:
    """A comment that isn't closed is closed at the line's end, where nothing says that it may end elsewhere."""
    piece = line.pieces[-1] if line.pieces else None
    if piece is None or not piece.is_open:
        return
    if whole.closes_more or "(" in piece.text[1:] or ")" in piece.text:
        warn("a ( isn't closed; write the ) where the comment ends")
    else:
        line.put(piece, f"{piece.text})", "a comment is closed")


def rotary(line: CamLine, whole: Whole) -> None:
    """The words of a rotary axis that is at 0 in the whole text; with it the home of that axis alone."""
    words = [piece for piece in line.pieces if piece.letter in whole.zero_axes]
    if not words or line.find("G", 10, 52, 53, 92):
        return
    for word in words:
        line.drop(word, f"{word.letter} is 0 in the whole text")
    if (home := line.find("G", 28, 30)) and not line.letters() & set("XYZABCUVW"):
        line.drop(home, f"{home.text} was of that axis alone")


class SharedSlot(Failure):
    """Two tools of a text would be in one slot."""


def look_at_slots(whole: Whole, answers: HomeAnswers) -> None:
    """Raises SharedSlot."""
    tools: dict[tuple[str, int], int] = {}
    for letter, number in sorted(whole.tools):
        slot = answers.slots.get(number, number)
        other = tools.setdefault((letter, slot), number)
        if other != number and slot:  # slot 0 is none
            raise SharedSlot(f"{letter}{other} and {letter}{number} would both be slot {slot}; give each one of its own"
                             " by --tool NUMBER=SLOT")


def slots(line: CamLine, answers: HomeAnswers) -> None:
    """Tools by another number than that of their slot. Raises Missing."""
    for piece in list(line.pieces):
        number = _tool(piece)
        if number is None:
            continue
        if number in answers.slots:
            slot = answers.slots[number]
            line.put(piece, f"{piece.letter}{slot}", f"tool {number} is in slot {slot}")
        elif number > SLOTS:
            raise Missing("tool", line, number)


def _tool(piece: Token) -> int | None:
    """The number of a tool, by T or H."""
    is_whole = piece.letter in ("T", "H") and piece.value is not None and piece.value == piece.value.to_integral_value()
    return int(piece.value) if is_whole else None


def opening_percent(lines: list[CamLine], warn: Callable[[int, str], None]) -> None:
    """The first percent sign: a name or a comment beside it, and comments before it."""
    commented = False
    for number, line in enumerate(lines, 1):
        text = line.text.strip()
        if text.startswith("%"):
            if not _stands_alone(line, text[1:].strip(), commented):
                warn(number, "more than a name stands beside the %; write the % alone on its line")
            return
        if not _is_comments(line):
            return
        commented = commented or text != ""


def _stands_alone(line: CamLine, rest: str, commented: bool) -> bool:
    """Whether the percent sign could be written alone, or left out where comments come before it."""
    name = _PROGRAM_NAME.fullmatch(rest)
    if rest and not name and not _is_comments(CamLine.cut(rest)):
        return False
    if commented:
        line.cut_again(f"({rest})" if name else rest, "a % comes before all else, or not at all")
    elif rest:
        line.cut_again("%", "a % stands alone on its line")
    return True


def _is_comments(line: CamLine) -> bool:
    return all(piece.is_comment or not piece.text for piece in line.pieces)


def program_end(lines: list[CamLine]) -> int | None:
    """Before which line an M2 is missing, from 0, or how many lines there are; None where the text has an end."""
    if any(piece.letter == "M" and (piece.value is None or piece.value in (2, 30))
           for line in lines for piece in line.pieces):
        return None
    texts = [line.text.strip() for line in lines]
    written = [place for place, text in enumerate(texts) if text]
    percents = [place for place in written if texts[place] == "%"]
    if not any(line.letters() for line in lines) or percents[:1] == written[:1] and len(percents) > 1:
        return None
    return written[-1] if percents[-1:] == written[-1:] else len(lines)
