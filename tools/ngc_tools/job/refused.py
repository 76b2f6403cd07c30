"""Every refused line of a program, and the words without which its fault goes away. `ngc dry` alone decides: all that
is done here is to ask it again, with words or lines left out."""
import os
import re
from collections.abc import Callable, Iterator
from concurrent.futures import ThreadPoolExecutor
from dataclasses import dataclass
from itertools import combinations

from ngc_tools.formats.lines import program_lines
from ngc_tools.ngc.cures import takes_line
from ngc_tools.ngc.faults import FAULTS
from ngc_tools.ngc.run import Refusal

Ask = Callable[[bytes], Refusal | None]
"""Gives a text to `ngc dry`, and returns the line that it refuses."""

# The pieces that are left out in turn: comments, words, and whatever else stands there. They are no grammar: a piece
# that is cut wrongly makes a caret too long or leaves it out, and nothing more.
_PIECE = re.compile(
    rb"\((?:[^()]|\([^()]*\))*\)|\([^()]*$|;.*|[\x80-\xff]+"
    rb"|#[ \t]*(?:[0-9.]+|\[[^;()=]*\])[ \t]*=[ \t]*(?:[-+]?[0-9. \t]*[0-9.]|\[[^;()=]*\]|#[ \t]*[0-9.]+)"
    rb"|[A-Za-z][ \t]*(?:[-+]?[ \t]*\[[^;()]*?\](?![^\[;()]*\])|[-+]?[0-9. \t]*[0-9.]|[-+]?[ \t]*#[ \t]*[0-9.]+)?|.",
    re.DOTALL)

_ASIDE = re.compile(rb"\([^()]*\)|[ \t]")

# A line is refused by the first fault that holds in this order; E2 is looked at before E1.
_RANKS = {fault.code: rank for rank, fault in enumerate(FAULTS, 1)} | {"E2": 0}
_MOST_PAIRED = 12  # pieces of a line that are tried two at a time
_LONGEST = 512  # bytes of a line whose pieces are looked at; a line has 256 at most
_MOST_PIECES = 60  # of a line that are looked at; a line with more pieces is not one of words
_UNREADABLE = 10  # lines, so many of the first twice as many, that make a text none of G-code


@dataclass(frozen=True, slots=True)
class Span:
    """A piece of a line: its first byte, and the one after its last."""

    begin: int
    end: int


@dataclass(frozen=True, slots=True)
class Finding:
    """A refused line. `text` is the line as it was asked, without its end: what an earlier finding of the line left
    out is blank in it. `marks` are the pieces without which the fault goes away: without each of them alone, or if that
    is so for none, without all of them. `left_out` is what was left out to go on: pieces, or `None` for the line as
    a whole; `added` is what was written at its end instead."""

    refusal: Refusal
    text: bytes
    marks: tuple[Span, ...] = ()
    left_out: tuple[Span, ...] | None = None
    added: bytes = b""

    def words(self) -> list[bytes]:
        """The texts of the marked pieces."""
        return [self.text[mark.begin:mark.end] for mark in self.marks]


def pieces(line: bytes) -> list[Span]:
    """The pieces of a line without its end, blanks aside."""
    found = []
    for match in _PIECE.finditer(line):
        end = match.start() + len(match[0].rstrip(b" \t"))
        if match[0].strip(b" \t"):
            found.append(Span(match.start(), end))
    return found


def without(line: bytes, left_out: tuple[Span, ...], code: str) -> bytes:
    """The line with these pieces blank, so that the others keep their columns; of a line that is too long (E2) they are
    taken away."""
    for piece in reversed(left_out):
        blank = b"" if code == "E2" else b" " * (piece.end - piece.begin)
        line = line[:piece.begin] + blank + line[piece.end:]
    return line


class Lines:
    """The lines of a program, each with its end."""

    def __init__(self, text: bytes) -> None:
        self.all = program_lines(text)

    def body(self, number: int) -> bytes:
        """Line `number`, from 1, without its end."""
        line = self.all[number - 1]
        return line[:-2] if line.endswith(b"\r\n") else line.removesuffix(b"\n")

    def code(self, number: int) -> bytes:
        """Line `number` without comments and blanks."""
        return _ASIDE.sub(b"", self.body(number))

    def beginning(self, number: int, body: bytes) -> bytes:
        """The lines before line `number`, another line in its place, and the program's end."""
        line = self._line(number, body)
        return b"".join(self.all[:number - 1]) + line + (b"M2\n" if line.endswith(b"\n") else b"")

    def put(self, number: int, body: bytes) -> None:
        """Puts another line in the place of line `number`."""
        self.all[number - 1] = self._line(number, body)

    def _line(self, number: int, body: bytes) -> bytes:
        return body + self.all[number - 1][len(self.body(number)):]


def find_all(lines: Lines, ask: Ask, most: int = 0,
             is_enough: Callable[[], bool] = lambda: False) -> Iterator[Finding]:
    """Each refusal of a program in turn, `most` of them at most, 0 for all, and no more once there `is_enough`. `lines`
    are at last what it went on with.

    After X1 it goes on with an F on the line. Otherwise it leaves out a marked piece, or all of them, if the line is
    then taken; if only one piece is marked, it leaves that one out, so that the line's next fault is told too.
    Otherwise it goes on with a blank line in its place, and so where other words of the line belong to a marked one."""
    refusal = ask(b"".join(lines.all))
    count = 0
    while refusal is not None and (count < most or not most) and not is_enough():
        if refusal.code in ("X3", "X4") or refusal.line > len(lines.all):  # the text's end, no line
            yield Finding(refusal, b"")
            return
        finding, body = _looked_at(lines, refusal, ask)
        yield finding
        count += 1
        lines.put(refusal.line, body)
        refusal = ask(b"".join(lines.all))


def is_no_program(lines: Lines, ask: Ask) -> bool:
    """Whether a text is none of G-code: so many of its first lines can't be read at all, of a shorter one all. `lines`
    stay as they are."""
    whole, unread = list(lines.all), 0
    written = [number for number, line in enumerate(whole, 1) if line.strip()][:2 * _UNREADABLE]
    if not written:
        return False
    rest = Lines(b"".join(whole[:written[-1]]))
    while (refusal := ask(b"".join(rest.all))) and refusal.line <= len(rest.all) and unread < _UNREADABLE:
        unread += refusal.code in ("E1", "E2")
        rest.put(refusal.line, b"")
    return unread >= min(_UNREADABLE, len(written))


def _looked_at(lines: Lines, refusal: Refusal, ask: Ask) -> tuple[Finding, bytes]:
    """What is found of a refused line, and what goes on in its place."""
    number, code = refusal.line, refusal.code
    body = lines.body(number)

    def asked(left_out: tuple[Span, ...], added: bytes = b"") -> str | None:
        """The code that the line itself is refused with, if these pieces are left out."""
        found = ask(lines.beginning(number, without(body, left_out, code) + added))
        return found.code if found is not None and found.line == number else None

    if len(body) > _LONGEST:
        return Finding(refusal, body[:_LONGEST // 4] + b" .."), b""
    all_pieces = pieces(body)
    if len(all_pieces) > _MOST_PIECES:
        return Finding(refusal, body), b""
    with ThreadPoolExecutor(os.cpu_count()) as pool:
        each = dict(zip(all_pieces, pool.map(lambda piece: asked((piece,)), all_pieces), strict=True))
    marks = tuple(piece for piece, found in each.items() if goes(code, found))
    if not marks:
        together = _together(all_pieces, lambda left_out: goes(code, asked(left_out)))
        hidden = tuple(piece for piece, found in each.items() if found != code)
        marks = hidden if hidden and len(together) == len(all_pieces) else together or hidden
    taken = [piece for piece in marks if each[piece] is None]
    if code == "X1" and asked((), b" F100") is None:
        return Finding(refusal, body, marks, added=b" F100"), body + b" F100"
    if takes_line(code, [body[mark.begin:mark.end] for mark in marks], body):
        return Finding(refusal, body, marks), b""
    for left_out in ((taken[0],) if taken else (), marks):
        other = without(body, left_out, code)
        # what is refused of the rest is told next, unless the word's absence alone brings it
        alone = len(left_out) == 1 and goes(code, each[left_out[0]])
        if left_out and other.strip() and (alone or asked(left_out) is None):
            return Finding(refusal, body, marks, left_out), other
    return Finding(refusal, body, marks), b""


def goes(code: str, found: str | None) -> bool:
    """Whether a fault is gone when another one is found, or none: the first that holds is found, so one that stands
    before it in docs/LANGUAGE.md's order may only hide it."""
    return found is None or _RANKS.get(found, 0) > _RANKS.get(code, 0)


def _together(all_pieces: list[Span], gone: Callable[[tuple[Span, ...]], bool]) -> tuple[Span, ...]:
    """Pieces without all of which the fault goes away, as few as are found by putting back one or two in turn; none
    if it stays even without the whole line."""
    left_out = tuple(all_pieces)
    if not gone(left_out):
        return ()
    for size in (1, 2, 1) if len(all_pieces) <= _MOST_PAIRED else (1, 1):
        for back in combinations(left_out, size):
            fewer = tuple(piece for piece in left_out if piece not in back)
            if set(back) <= set(left_out) and gone(fewer):
                left_out = fewer
    return left_out
