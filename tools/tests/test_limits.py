"""Limits and sentences stand in one place of the tools each, and say what the pages say."""
import re
import sys
import unittest
from pathlib import Path

sys.path.insert(0, str(Path(__file__).resolve().parent))

from session_support import TOOLS

from ngc_tools.formats import device
from ngc_tools.formats.settings import LIMITS
from ngc_tools.ngc import faults

DOCS = TOOLS.parent / "docs"
OF_LINES = {fault.code for fault in faults.FAULTS}


def page(name: str) -> str:
    """A page without marks of code, each blank once."""
    return re.sub(r"\s+", " ", (DOCS / name).read_text().replace("`", ""))


def rows(name: str, codes: str) -> dict[str, tuple[str, str]]:
    """The names of faults and when they hold, by their codes, from a page's table."""
    found = re.findall(rf"^\| ({codes}[0-9]) (\w+) \| (.*?) \|", (DOCS / name).read_text(), re.MULTILINE)
    return {code: (fault, holds) for code, fault, holds in found}


class Limits(unittest.TestCase):
    """Those of a device, by docs/SESSION.md, docs/DEVICE.md and docs/SETTINGS.md."""

    def test_sizes(self) -> None:
        """Bytes and sectors of a device, of a large one, and of their programs."""
        small, large = device.SIZE // device.SECTOR, device.LARGE_SIZE // device.SECTOR
        session = page("SESSION.md")
        for text in (f"a file of {device.SIZE:,} bytes or more", f"It holds {small:,} sectors of {device.SECTOR} bytes",
                     f"A large device has {large:,} sectors, {device.LARGE_SIZE:,} bytes",
                     f"may have {device.MOST_LARGE_PROGRAM:,} bytes on a large device, {device.MOST_PROGRAM:,} on any",
                     f"at most {device.SLOTS} of them", f"LENGTH is 0 to {device.LENGTHS[-1] // 10**6}."):
            self.assertTrue(text in session, text)
        layout = page("DEVICE.md")
        for text in (f"at least {small:,} sectors; one of {large:,} or more is large",
                     f"programs of up to {device.MOST_LARGE_PROGRAM:,} bytes; any other device has areas 0 and 1 and"
                     f" takes up to {device.MOST_PROGRAM:,} (", f"selected slot | 0 to {device.SLOTS} |",
                     f"in nanometres, 0 to {device.LENGTHS[-1]:,}"):
            self.assertTrue(text in layout, text)
        self.assertIn(f"{device.LENGTHS[0]} to {device.LENGTHS[-1]:,}; at most {device.SLOTS},", page("SETTINGS.md"))
        self.assertTrue(LIMITS["tools_nm"].endswith(f" 0 to {device.LENGTHS[-1]:,}"))

    def test_written_once(self) -> None:
        """No other file of the tools writes them out."""
        for path in TOOLS.glob("ngc_tools/**/*.py"):
            numbers = re.findall(r"131[,_]072|1[,_]048[,_]576|875[,_]520|2[,_]972[,_]672|\b128 (?:slots|tool)",
                                 path.read_text())
            if path.name != "device.py" or path.parent.name != "formats":
                self.assertEqual((path, numbers), (path, []))


class Sentences(unittest.TestCase):
    """Faults that aren't of a line."""

    def test_session(self) -> None:
        """Each fault of docs/SESSION.md has a sentence, but those of lines and that of threads, which no tool meets."""
        told = rows("SESSION.md", "[A-Z]").keys() - OF_LINES - {"K6"}
        self.assertEqual(set(faults.SESSION), told)
        for code, words in (("J5", (f"{device.MOST_PROGRAM:,}", f"{device.MOST_LARGE_PROGRAM:,}")),
                            ("K4", ("no block",)), ("M1", ("out of memory",)), ("J2", ("too short",)),
                            ("K3", ("where the machine stands",))):
            for word in words:
                self.assertIn(word, faults.SESSION[code])
                self.assertIn(word, rows("SESSION.md", "[A-Z]")[code][1])

    def test_settings(self) -> None:
        """The sentences of docs/SETTINGS.md, up to what it says besides."""
        table = rows("SETTINGS.md", "S")
        self.assertEqual(list(table), list(faults.SETTINGS))
        for code, (_, holds) in table.items():
            self.assertEqual(re.split("[;:]", holds)[0], faults.SETTINGS[code])


if __name__ == "__main__":
    unittest.main()
