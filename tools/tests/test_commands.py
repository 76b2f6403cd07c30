"""The forms of the console's commands: those of docs/SESSION.md, and what `ngc run` takes."""
import re
import sys
from pathlib import Path

sys.path.insert(0, str(Path(__file__).resolve().parent))

from session_support import InFolder

from ngc_tools.ngc.commands import FORMS, form_of, slot_to_give_first

SESSION = Path(__file__).resolve().parents[2] / "docs" / "SESSION.md"


class Forms(InFolder):
    """Each command."""

    def test_page(self) -> None:
        """The first column of the table under "Commands and replies", in its order."""
        section = SESSION.read_text().partition("## Commands and replies\n")[2].partition("\n\nA refusal is")[0]
        rows = [line.split("|")[1] for line in section.splitlines() if line.startswith("| `")]
        commands = [form for row in rows for form in re.findall("`([^`]+)`", row)]
        self.assertEqual([form.form for form in FORMS], commands)

    def test_examples(self) -> None:
        """`ngc run` knows each example, and none of the lines that have too much or too little."""
        self.device()
        for form in FORMS:
            text = form.example + "\n" + ("G0 X0.002\nM2\n" if form.word == "load" else "")
            self.assertNotIn("U1", " ".join(self.run_ngc(text)), form)
        self.device()
        wrong = ["load x", "optional", "delete of", "reference 1 2", "reference X1 Y2 Z3", "tool one 3", "tool 1",
                 "tick", "tick 0", "status now", "Hold", "mdi"]
        self.assertEqual(self.run_ngc("\n".join(wrong) + "\n"), ["refused U1 BadCommand"] * len(wrong))

    def test_form_of(self) -> None:
        """The command that a line begins with, in any case."""
        self.assertEqual(form_of("reference 1 2"), "reference X Y Z: three machine coordinates in millimetres, without"
                         " letters, as in `reference 7.21 0 -5`")
        self.assertEqual(form_of(" TOOL one 3"), "tool N LENGTH: a slot from 1 to 128 and its length in millimetres, 0"
                         " to 1000, as in `tool 1 62.5`")
        self.assertEqual(form_of("optional"), "optional on or optional off")
        self.assertEqual(form_of("hold on"), "hold")
        self.assertEqual([form_of(line) for line in ("", "refer 1", "G0 X1")], [None] * 3)

    def test_slots(self) -> None:
        """A slot is given a length once those before it have one, as `ngc run` has it."""
        for slots, slot, said in (
                (2, 5, "slot 3 comes first: the table has slots 1 to 2, and takes one more at a time"),
                (1, 3, "slot 2 comes first: the table has slot 1 alone, and takes one more at a time"),
                (0, 2, "slot 1 comes first: the table has no slots, and takes one more at a time"),
                (2, 0, "there is no slot 0: a table has slots 1 to 128"),
                (2, 129, "there is no slot 129: a table has slots 1 to 128"), (2, 3, None), (2, 1, None)):
            self.device()
            replies = self.run_ngc("".join(f"tool {number} 0\n" for number in range(1, slots + 1)) + f"tool {slot} 3\n")
            self.assertEqual(replies[-1], "refused B14 BadSlot" if said else f"done {slots + 1}")
            self.assertEqual(slot_to_give_first(slot, slots), said)
