"""The text of a program, as its bytes are meant: in which encoding they are, and where its lines end."""
from dataclasses import dataclass

from ngc_tools.failure import Failure

_UTF_8_MARK = b"\xef\xbb\xbf"
_UTF_16_MARKS = {b"\xff\xfe": "utf-16-le", b"\xfe\xff": "utf-16-be"}
_WINDOWS = {code: bytes([code]).decode("cp1252", "ignore") or chr(code) for code in range(0x80, 0xa0)}
_DOS_END = "\x1a"
_LOOKED_AT = 4096  # bytes, by which a text is told from what is none
_CONTROLS = bytes({*range(32), 127} - set(b"\t\n\v\f\r\x1a"))
_MOST_CONTROLS = 0.02
_LONGEST_LINE = 65_536  # letters, which no line of a program has


class NotText(Failure, ValueError):
    """The bytes begin as UTF-16 and aren't UTF-16, or they are no text of lines."""


@dataclass(frozen=True, slots=True)
class ProgramText:
    """A program's lines without their ends, and the end of each: a newline, or a carriage return and a newline; that of
    the last line may be empty. `encoding` is what the bytes were read as: ASCII, UTF-8, UTF-16 or Windows-1252.
    `changes` say, a sentence each, how `data` differs from those bytes; there are none where it doesn't."""

    lines: tuple[str, ...]
    ends: tuple[str, ...]
    encoding: str
    changes: tuple[str, ...]

    @staticmethod
    def read(data: bytes) -> "ProgramText":
        """The text that these bytes stand for. Raises NotText."""
        text, encoding, changes = _decoded(data)
        if text.endswith(_DOS_END):
            text = text.rstrip(_DOS_END)
            changes.append("the end mark of DOS, byte 1A, is left out")
        if "\n" not in text and "\r" in text:
            text = text.replace("\r", "\n")
            changes.append("the lines end in carriage returns alone; each gets a newline in its place")
        lines, ends = _lines(text, changes)
        if (longest := max(map(len, lines), default=0)) > _LONGEST_LINE:
            raise NotText(f"it isn't a program: a line of it has {longest:,} letters")
        return ProgramText(lines, ends, encoding, tuple(changes))

    @property
    def data(self) -> bytes:
        """The bytes as `ngc` reads them: ASCII, or UTF-8 without a mark."""
        return "".join(line + end for line, end in zip(self.lines, self.ends, strict=True)).encode()

    def why_unreadable(self, data: bytes) -> str:
        """Why `ngc` can read no line of the bytes that this was read from as it is meant; nothing if it can."""
        if self.encoding == "UTF-16":
            return "it is UTF-16, of which ngc reads no line"
        if b"\n" not in data and b"\r" in data.rstrip(b"\r"):
            return "its lines end in carriage returns alone, so ngc takes it for one line"
        return ""


def beginning(data: bytes) -> bytes:
    """The first lines of a text's bytes, by which a program is told from what is none."""
    if len(data) <= _LONGEST_LINE:
        return data
    if codec := _UTF_16_MARKS.get(data[:2]):
        text = data[2:_LONGEST_LINE].decode(codec, "ignore")
        return data[:2] + text[:text.rfind("\n") + 1 or text.rfind("\r") + 1].encode(codec)
    return data[:data.rfind(b"\n", 0, _LONGEST_LINE) + 1 or data.rfind(b"\r", 0, _LONGEST_LINE) + 1]


def _decoded(data: bytes) -> tuple[str, str, list[str]]:
    """The text, the encoding, and what is changed by writing it in UTF-8. Raises NotText."""
    first = data[:_LOOKED_AT]
    controls = len(first) - len(first.translate(None, _CONTROLS))
    if controls > max(8, _MOST_CONTROLS * len(first)) and data[:2] not in _UTF_16_MARKS:
        raise NotText(f"it isn't a text: {controls:,} of its first {len(first):,} bytes are control characters")
    if codec := _UTF_16_MARKS.get(data[:2]):
        try:
            return data[2:].decode(codec), "UTF-16", ["it is UTF-16, and is written in UTF-8"]
        except UnicodeDecodeError as error:
            raise NotText(f"it begins as UTF-16 does, and byte {error.start + 2} isn't UTF-16:"
                          " save it in UTF-8") from None
    changes = []
    if data.startswith(_UTF_8_MARK):
        data = data.removeprefix(_UTF_8_MARK)
        changes.append("the byte order mark before line 1 is left out")
    if data.isascii():
        return data.decode("ascii"), "ASCII", changes
    try:
        return data.decode("utf-8"), "UTF-8", changes
    except UnicodeDecodeError:  # the five bytes that Windows-1252 doesn't have are those of Latin-1
        changes.append("letters beyond ASCII are read as Windows-1252, and written in UTF-8")
        return data.decode("latin-1").translate(_WINDOWS), "Windows-1252", changes


def _lines(text: str, changes: list[str]) -> tuple[tuple[str, ...], tuple[str, ...]]:
    """The lines and their ends; an empty rest after the last newline is no line."""
    pieces = text.split("\n")
    rest = pieces.pop()
    lines = [piece.rstrip("\r") for piece in pieces]
    returns = [len(piece) - len(line) for piece, line in zip(pieces, lines, strict=True)]
    ends = ["\r\n" if count else "\n" for count in returns]
    doubled = [number for number, count in enumerate(returns, 1) if count > 1]
    if doubled:
        changes.append(f"line {doubled[0]} ends in more than one carriage return, of which one is kept"
                       + (f"; so do {len(doubled) - 1} more" if len(doubled) > 1 else ""))
    if rest:
        lines.append(rest.rstrip("\r"))
        ends.append("\r\n" if rest.endswith("\r") else "")
    if rest.endswith("\r"):
        changes.append("a newline is put after the carriage return at the end")
    return tuple(lines), tuple(ends)
