"""The unit that a person chose for what is typed and shown. All is kept in whole nanometres: an inch is 25,400,000."""
from enum import Enum

from ngc_tools.failure import Failure
from ngc_tools.formats.position import rounded
from ngc_tools.operator.modes import trimmed
from ngc_tools.operator.numbers import length_of, nanometres_of

_SAY = "{now} are in force (G{code}){chosen}: write {text}in, or {text}mm"


class NoLength(Failure):
    """A text that is no length here; its own text says why."""


class Unit(Enum):
    """`value` is how it is typed and shown."""

    MM = "mm"
    INCH = "in"

    @property
    def code(self) -> int:
        """That of the G-code which has numbers read so."""
        return 21 if self is Unit.MM else 20

    def number(self, nm: int) -> str:
        """A length in it, without the zeros at its end; of an inch to the nearest millionth."""
        return trimmed(nm if self is Unit.MM else rounded(10 * nm, 254))

    def shown(self, nm: int) -> str:
        """The same, with the unit."""
        return f"{self.number(nm)} {self.value}"

    def length(self, text: str, code: int) -> int:
        """What is typed, in nm, while G20 or G21 is in force. A number alone is taken where that is the unit chosen;
        else it has to say which. Raises NoLength."""
        is_alone = nanometres_of(text) is not None
        nm = length_of(text + self.value if is_alone else text)
        if nm is None:
            raise NoLength(f"not a number: {text}")
        if nm and is_alone and code != self.code:
            chosen = ", and inches are chosen" if self is Unit.INCH else ""
            now = "inches" if code == 20 else "millimetres"
            raise NoLength(_SAY.format(now=now, code=code, chosen=chosen, text=text))
        return nm
