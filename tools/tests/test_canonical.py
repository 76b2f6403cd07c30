"""Canonical text."""
import sys
import unittest
from pathlib import Path

sys.path.insert(0, str(Path(__file__).resolve().parents[1]))

from ngc_tools.formats.canonical import BadText, Command, read_commands

EXAMPLES = Path(__file__).resolve().parents[2] / "examples"


class Canonical(unittest.TestCase):
    """Its commands."""

    def test_commands(self) -> None:
        """Each form of argument; lengths are nanometres."""
        self.assertEqual(read_commands(
            b"COMMENT(a, b)\nSTRAIGHT_TRAVERSE(-0.000001, 10.000000, 0.500000)\nSELECT_PLANE(XZ)\nCHANGE_TOOL(12)\n"
            b"ARC_FEED(1.000000, 2.000000, 3.000000, 4.000000, -5.000000, CCW)\nPROGRAM_END()\n"
            b"REFUSED line 7: B4 GroupTwice\n"), [
                Command("COMMENT", ("a, b",)), Command("STRAIGHT_TRAVERSE", (-1, 10_000_000, 500_000)),
                Command("SELECT_PLANE", ("XZ",)), Command("CHANGE_TOOL", (12,)),
                Command("ARC_FEED", (1_000_000, 2_000_000, 3_000_000, 4_000_000, -5_000_000, "CCW")),
                Command("PROGRAM_END"), Command("REFUSED", (7, "B4", "GroupTwice"))])

    def test_others(self) -> None:
        """What isn't a command, with its number."""
        for line in ("G0 X1", "PROGRAM_END", "PROGRAM_END(1)", "DWELL(1)", "DWELL(1.0000000)", "SELECT_PLANE(ZX)",
                     "STRAIGHT_FEED(1.000000, 2.000000)", "refused S1 NotToml", "HOME()", "MIST_ON() "):
            with self.assertRaises(BadText) as caught:
                read_commands("MIST_ON()\n" + line + "\n")
            self.assertEqual(str(caught.exception), f"line 2: not a command of canonical text: {line}")

    def test_examples(self) -> None:
        """Every line of every example is a command."""
        for path in EXAMPLES.glob("*.ngc"):
            text = path.with_suffix(".txt").read_bytes()
            self.assertEqual(len(read_commands(text)), text.count(b"\n"), path)
