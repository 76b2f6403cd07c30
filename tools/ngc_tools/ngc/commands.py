"""The commands of `ngc run` and their forms, as docs/SESSION.md has them: what to say of a line that is refused with
U1 BadCommand, or of a slot with B14 BadSlot."""
from dataclasses import dataclass

from ngc_tools.formats.device import SLOTS


@dataclass(frozen=True, slots=True)
class Form:
    """A command: how it is written, with its numbers as capitals; what these are; one that is right."""

    form: str
    takes: str
    example: str

    @property
    def word(self) -> str:
        """The word that it begins with."""
        return self.form.partition(" ")[0]

    def __str__(self) -> str:
        """The form for people."""
        return self.form + (f": {self.takes}, as in `{self.example}`" if self.takes else "")


FORMS = (
    Form("load N", "the number of bytes that come after this line, one to seven digits", "load 13"),
    Form("start", "", "start"),
    Form("hold", "", "hold"),
    Form("continue", "", "continue"),
    Form("mdi LINE", "a line of G-code of at most 256 bytes", "mdi G0 X1"),
    Form("optional on", "on or off", "optional on"),
    Form("optional off", "on or off", "optional off"),
    Form("delete on", "on or off", "delete on"),
    Form("delete off", "on or off", "delete off"),
    Form("reference X Y Z", "three machine coordinates in millimetres, without letters", "reference 7.21 0 -5"),
    Form("resume", "", "resume"),
    Form("abandon", "", "abandon"),
    Form("tool N LENGTH", f"a slot from 1 to {SLOTS} and its length in millimetres, 0 to 1000", "tool 1 62.5"),
    Form("tick N", "how many steps of work, 1 to 1000000", "tick 100"),
    Form("status", "", "status"),
    Form("quit", "", "quit"),
)
"""The commands, in the order of docs/SESSION.md."""


def form_of(line: str) -> str | None:
    """How the command is written that a line begins with, in any case; None if it begins with none."""
    words = line.split()
    same = [form for form in FORMS if words and form.word == words[0].lower()]
    if not same:
        return None
    return str(same[0]) if len(same) == 1 else " or ".join(form.form for form in same)


def slot_to_give_first(slot: int, slots: int) -> str | None:
    """Why `tool` doesn't take a slot of a table that has `slots` of them; None if it takes it."""
    if 1 <= slot <= min(slots + 1, SLOTS):
        return None
    if not 1 <= slot <= SLOTS:
        return f"there is no slot {slot}: a table has slots 1 to {SLOTS}"
    has = {0: "no slots", 1: "slot 1 alone"}.get(slots, f"slots 1 to {slots}")
    return f"slot {slots + 1} comes first: the table has {has}, and takes one more at a time"
