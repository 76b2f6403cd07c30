"""Faults: the sentences are those of docs/LANGUAGE.md, and each has something to write."""
import re
import sys
import unittest
from pathlib import Path

sys.path.insert(0, str(Path(__file__).resolve().parents[1]))

from ngc_tools.ngc import faults

PAGE = Path(__file__).resolve().parents[2] / "docs" / "LANGUAGE.md"


class Faults(unittest.TestCase):
    """The table."""

    def test_sentences_are_those_of_the_page(self) -> None:
        """Code, name and sentence of each row, in the page's order, with what the page says of it below its table."""
        page = PAGE.read_text().replace("`", "")
        rows = re.findall(r"^\| ([EBCYX][0-9]+) (\w+) \| (.*?) \|(?: .*)? \|$", page, re.MULTILINE)
        below = re.findall(r"^- \*\*([EBCYX][0-9]+)\*\*:?((?:.*\n)(?:  .*\n)*)", page, re.MULTILINE)
        more = {code: re.sub(r"\s+", " ", text).strip().removesuffix(".") for code, text in below}
        self.assertEqual((len(rows), sorted(more)), (40, ["B12", "E3", "X2"]))
        for fault, (code, name, holds) in zip(faults.FAULTS, rows, strict=True):
            wanted = holds.replace(" (below)", f". {more.get(code)}")
            self.assertEqual((fault.code, fault.name, fault.holds.replace(f". {code} ", ". ")), (code, name, wanted))

    def test_each_has_a_cure(self) -> None:
        """No fault is left without a word of what to write."""
        for fault in faults.FAULTS:
            self.assertGreater(len(fault.cure), 8, fault)

    def test_other_codes(self) -> None:
        """A fault that isn't of a line has no sentence here."""
        self.assertIsNone(faults.sentence("K1"))
