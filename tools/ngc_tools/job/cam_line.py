"""A line of a CAM system's text, cut into words and comments."""
import re
from dataclasses import dataclass, field
from decimal import Decimal, InvalidOperation

LONGEST = 2048  # characters of a line that is cut; `ngc` takes 256 bytes
_BLANKS = re.compile(r"[ \t]*")
_LETTER = re.compile(r"[A-Za-z][ \t]*")
_NUMBER = re.compile(r"[0-9. \t]*[0-9.]")
# A word as most are, which the others above would find too: nothing of a number comes after it.
_PLAIN = re.compile(r"([ \t]*)([A-Za-z])([-+]?(?:[0-9]++\.?+[0-9]*+|\.[0-9]++))(?![ \t]*[0-9.])")
_COMMENT = re.compile(r"[();]")
_PAIRS = {"()": re.compile(r"[()]"), "[]": re.compile(r"[\[\]]")}
# What may stand before a number or a bracket: a sign, the marks of parameters, the name of a function.
_BEFORE = re.compile(r"[-+]?[ \t]*(?:#[# \t]*)?"
                     r"(?:(?:ABS|ACOS|ASIN|ATAN|COS|EXP|FIX|FUP|LN|ROUND|SIN|SQRT|TAN)[ \t]*(?=\[))?", re.IGNORECASE)


@dataclass(slots=True)
class Token:
    """A word, a comment, or another byte, with the blanks before it. `value` is a plain number's, else None."""

    blanks: str
    text: str
    letter: str = ""
    value: Decimal | None = None

    def is_code(self, letter: str, *values: int | Decimal) -> bool:
        """Whether it is a word of this letter and of one of these numbers."""
        return self.letter == letter and self.value in values

    @property
    def is_comment(self) -> bool:
        """Whether it is a comment that is closed, or one after a semicolon."""
        return self.text[:1] == ";" or self.text[:1] == "(" and not self.is_open

    @property
    def is_open(self) -> bool:
        """Whether it is the rest of a line, from a ( on that isn't closed."""
        return self.text[:1] == "(" and self.text.count("(") > self.text.count(")")


@dataclass(slots=True)
class CamLine:
    """A line without its end, in pieces; `reasons` say what was changed of it."""

    pieces: list[Token]
    reasons: list[str] = field(default_factory=list)

    @staticmethod
    def cut(text: str) -> "CamLine":
        """Cuts a line into pieces. From a ( that isn't closed on, the rest of the line is one piece; so is a line that
        is far too long."""
        if len(text) > LONGEST:
            return CamLine([Token("", text)])
        pieces, here = [], 0
        comments = matched(text, "()") if "(" in text else {}
        brackets = matched(text, "[]") if "[" in text else {}
        while here < len(text):
            if match := _PLAIN.match(text, here):
                blanks, letter, number = match.groups()
                pieces.append(Token(blanks, letter + number, letter.upper(), Decimal(number)))
                here = match.end()
                continue
            begin = _BLANKS.match(text, here).end()
            piece = _piece(text, begin, comments, brackets)
            piece.blanks = text[here:begin]
            pieces.append(piece)
            here = begin + len(piece.text)
        return CamLine(pieces)

    def copy(self) -> "CamLine":
        """The same line, whose pieces may be changed."""
        return CamLine([Token(piece.blanks, piece.text, piece.letter, piece.value) for piece in self.pieces])

    @property
    def text(self) -> str:
        """The line as it is written."""
        return "".join(piece.blanks + piece.text for piece in self.pieces)

    @property
    def is_deletable(self) -> bool:
        """Whether it begins with a slash."""
        return bool(self.pieces) and self.pieces[0].text == "/"

    @property
    def is_plain(self) -> bool:
        """Whether words and comments are all that it has, after a slash. Of others a word may not be taken away: what
        stands around it could become another word."""
        others = [piece for piece in self.pieces if piece.text and not piece.letter and not piece.is_comment]
        return not others[self.is_deletable:]

    @property
    def is_itself(self) -> bool:
        """Whether its text is cut into these pieces again."""
        again = CamLine.cut(self.text)
        return [piece for piece in again.pieces if piece.text] == [piece for piece in self.pieces if piece.text]

    def find(self, letter: str, *values: int | Decimal) -> Token | None:
        """The first word of this letter, and of one of these numbers if some are named."""
        for piece in self.pieces:
            if piece.letter == letter and (not values or piece.value in values):
                return piece
        return None

    def letters(self) -> set[str]:
        """The letters of its words."""
        return {piece.letter for piece in self.pieces if piece.letter}

    def drop(self, gone: Token, reason: str) -> None:
        """Takes a piece away."""
        place = self._place(gone)
        if place + 1 < len(self.pieces) and place == 0:
            self.pieces[1].blanks = gone.blanks
        del self.pieces[place]
        self.reasons.append(reason)

    def put(self, piece: Token, text: str, reason: str) -> None:
        """Writes another text in the place of a piece."""
        place = self._place(piece)
        self.pieces[place:place + 1] = _pieces(text, piece.blanks)
        self.reasons.append(reason)

    def begin(self, text: str, reason: str) -> None:
        """Writes a word before the others, after a slash and the block number."""
        place = 0
        while place < len(self.pieces) and (self.pieces[place].text == "/" or self.pieces[place].letter == "N"):
            place += 1
        self._insert(place, text, reason)

    def put_before(self, piece: Token, text: str, reason: str) -> None:
        """Writes a word before a piece."""
        self._insert(self._place(piece), text, reason)

    def cut_again(self, text: str, reason: str) -> None:
        """Writes another text in the place of the whole line."""
        self.pieces = CamLine.cut(text).pieces
        self.reasons.append(reason)

    def _place(self, piece: Token) -> int:
        return next(place for place, other in enumerate(self.pieces) if other is piece)

    def _insert(self, place: int, text: str, reason: str) -> None:
        """Writes a word at a place, with blanks around it unless the line is written without any there."""
        blanks = ""
        if place < len(self.pieces):
            tight = place > 0 and not self.pieces[place].blanks
            blanks = self.pieces[place].blanks
            self.pieces[place].blanks = blanks if tight else blanks or " "
        self.pieces[place:place] = _pieces(text, blanks)
        self.reasons.append(reason)


def _pieces(text: str, blanks: str) -> list[Token]:
    """The pieces of a text, with these blanks before them."""
    pieces = CamLine.cut(text).pieces or [Token("", "")]
    pieces[0].blanks = blanks
    return pieces


def _piece(text: str, here: int, comments: dict[int, int], brackets: dict[int, int]) -> Token:
    """The piece that begins there, without blanks before it."""
    first = text[here:here + 1]
    if first == ";":
        return Token("", text[here:])
    if first == "(":
        return Token("", text[here:comments.get(here)])
    match = _LETTER.match(text, here)
    end = value_end(text, match.end(), brackets) if match else None
    if end is None:
        return Token("", first)
    return Token("", text[here:end], first.upper(), _number(text[match.end():end]))


def value_end(text: str, here: int, brackets: dict[int, int]) -> int | None:
    """Where the value ends that begins there: a number, a parameter, a bracket or a function; None if none does.

    `brackets` are those of the text, `matched`."""
    here = _BEFORE.match(text, here).end()
    if text[here:here + 1] == "[":
        end = brackets.get(here)
        return end if end and not _COMMENT.search(text, here, end) else None
    match = _NUMBER.match(text, here)
    return match.end() if match else None


def matched(text: str, pair: str) -> dict[int, int]:
    """Of each opening sign of a pair that is closed again: its place, and the place after the sign that closes it."""
    opened, ends = [], {}
    for match in _PAIRS[pair].finditer(text):
        if match[0] == pair[0]:
            opened.append(match.start())
        elif opened:
            ends[opened.pop()] = match.end()
    return ends


def _number(text: str) -> Decimal | None:
    try:
        return Decimal(text.replace(" ", "").replace("\t", ""))
    except InvalidOperation:
        return None
