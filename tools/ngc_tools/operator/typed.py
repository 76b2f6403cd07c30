"""A line as a person typed it, in its parts."""
from dataclasses import dataclass

ANYWAY = "anyway"


@dataclass(frozen=True, slots=True)
class Typed:
    """A `line` that a person typed: the word it begins with, in small letters, what stands after it, and whether it is
    asked for whatever the player says, by `anyway` before or after it, which is taken away."""

    line: str
    word: str
    rest: str
    anyway: bool

    @staticmethod
    def read(typed: str) -> "Typed":
        """Parts a line."""
        line, words = typed.strip(), typed.lower().split()
        anyway = len(words) > 1 and ANYWAY in (words[0], words[-1])
        if anyway:
            line = (line[len(ANYWAY):] if words[0] == ANYWAY else line[:-len(ANYWAY)]).strip()
        word, *_ = line.split() or [""]
        return Typed(line, word.lower(), line[len(word):].strip(), anyway)
