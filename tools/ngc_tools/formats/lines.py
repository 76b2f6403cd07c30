"""The lines of a stored program, by the place that `status` tells; shown to people, and nothing more."""
import re
from collections.abc import Iterable
from dataclasses import dataclass
from io import BytesIO

from ngc_tools.shown import shown, shown_line

_COMMENT = re.compile(rb"\(([^()]*)\)")
_CHANGE = re.compile(rb"M[ \t]*0*[ \t]*6(?![ \t]*[0-9.])", re.IGNORECASE)
_MESSAGE = re.compile(rb"[ \t]*M[ \t]*S[ \t]*G[ \t]*,(.*)", re.IGNORECASE | re.DOTALL)
WAY_BEGINS, WAY_ENDS = "(ngc: the way to line {}, tool {})\n", "(ngc: line {})\n"
"""The first and the last line of those that lead to a line of a longer program, with the slot of the tool in the
spindle there; the text has that line and the rest behind them."""
_WAY = re.compile(rb"(?:[ \t]*%[ \t]*\r?\n)?\(ngc: the way to line ([1-9]\d{0,6}), tool (\d{1,3})\)\n")


@dataclass(frozen=True, slots=True)
class Program:
    """A program's text, as it is stored."""

    text: bytes

    @property
    def count(self) -> int:
        """How many lines it has."""
        return self.text.count(b"\n") + (not self.text.endswith(b"\n") and self.text != b"")

    def number(self, place: int) -> int:
        """The number, from 1, of the line that begins at byte `place`."""
        return self.text.count(b"\n", 0, place) + 1

    @property
    def way(self) -> tuple[int, int]:
        """How many lines lead to a line of a longer program, and the number of that line there; 0 and 1 of others."""
        begins = _WAY.match(self.text)
        end = self.text.find(WAY_ENDS.format(int(begins[1])).encode(), begins.end()) if begins else -1
        return (self.number(end), int(begins[1])) if begins and end >= 0 else (0, 1)

    @property
    def way_slot(self) -> int | None:
        """The slot of the tool that is in the spindle at the end of that way; None where there is none."""
        begins = _WAY.match(self.text)
        return int(begins[2]) if begins and self.way[0] else None

    def named(self, number: int) -> str:
        """Line `number` for people, by its number in the program that it is of."""
        way, first = self.way
        return f"line {number} of the way" if number <= way else f"line {number - way + first - 1}"

    def named_at(self, place: int) -> str:
        """The line that begins at byte `place`, for people."""
        return self.named(self.number(place))

    @property
    def second(self) -> int:
        """The number of the line behind the program's first one, from which on another beginning than `run` has a
        meaning. A percent program begins behind its percent sign, a rest of a program with its first line."""
        way, first = self.way
        return max(first, percent_lines(BytesIO(self.text)) + 1 - way + first)

    @property
    def last(self) -> int:
        """The number of its last line, in the program that it is of."""
        way, first = self.way
        return self.count - way + first - 1

    def line(self, place: int) -> str:
        """The line that begins at byte `place`, as people can read it."""
        return shown_line(self.text[place:].split(b"\n", 1)[0])

    def messages(self, start: int, end: int, delete: bool) -> list[tuple[int, str]]:
        """The messages of the lines between two places, with the numbers of their lines. `delete`: those that begin
        with a slash are left out. The last comment of a line is the one that counts (NISTIR 6556, 3.3.4)."""
        found = []
        for number, line in enumerate(self.text[start:end].split(b"\n"), self.number(start)):
            comments = _COMMENT.findall(line)
            match = _MESSAGE.fullmatch(comments[-1]) if comments else None
            if match and not (delete and line.lstrip(b" \t").startswith(b"/")):
                found.append((number, shown(match[1]).strip()))
        return found


    def changes(self) -> tuple[int, ...]:
        """Where the lines begin that have M6, as far as that is written with digits."""
        found, place = [], 0
        for line in self.text.split(b"\n"):
            if _CHANGE.search(_COMMENT.sub(b"", line)):
                found.append(place)
            place += len(line) + 1
        return tuple(found)

    def remark(self, place: int) -> tuple[int, str] | None:
        """The plain comment of the line that ends at a place, or of one of comments alone right above it, with its
        line's number; None where there is none, or a message, which is told as that."""
        *_, above, line = [b"", b"", *self.text[:place].removesuffix(b"\n").split(b"\n")]
        number = self.number(place) - (self.text[:place].endswith(b"\n"))
        for back, text in enumerate((line, above)):
            comments = _COMMENT.findall(text)
            if back and _COMMENT.sub(b"", text).strip():
                return None
            if comments:
                return None if _MESSAGE.fullmatch(comments[-1]) else (number - back, shown(comments[-1]).strip())
        return None


def program_lines(text: bytes) -> list[bytes]:
    """The lines of a program, each with its end."""
    lines = [line + b"\n" for line in text.split(b"\n")]
    last = lines.pop()[:-1]  # what stands after the last newline is a line if it isn't empty
    return [*lines, last] if last else lines


def percent_lines(lines: Iterable[bytes]) -> int:
    """How many lines a percent program has up to its first percent sign; 0 of any other program."""
    for number, line in enumerate(lines, 1):
        words = line.removesuffix(b"\n").removesuffix(b"\r").replace(b" ", b"").replace(b"\t", b"")
        if words:
            return number if words == b"%" else 0
    return 0


def percent_bytes(text: bytes) -> int:
    """How many bytes those lines have."""
    lines = program_lines(text)
    return sum(map(len, lines[:percent_lines(lines)]))
