"""The buttons that docs/PAGE.md names in chapters that no test walks from end to end: each is on the page under that
very text, and some test presses it. Those of the others are compared as they are pressed (test_page_day.py)."""
import ast
import re
import sys
import unittest
from collections.abc import Iterator
from pathlib import Path

sys.path.insert(0, str(Path(__file__).resolve().parent))

from session_support import TOOLS
from test_page_day import buttons
from texts_js import PLACE, texts_of_script

CHAPTERS = ("Probing, switches, macros", "Stop, and an alarm")
BAND = {"ALARM"}
"""What the band says there, and no button does."""
MORE = rf"(?:[,:] .*| {PLACE}\u2026)?"
"""What a button says behind its name: how it goes, or of which line."""
TITLE = re.compile(r"(sheet\.(?:open|title)\(\s*)(?:'[^']*'|`[^`]*`)")
"""What a sheet is called: that may be a button's name without its dots."""
STATIC = TOOLS / "ngc_tools/page/static"


def texts_of_page() -> set[str]:
    """What the page says by itself but for titles, with PLACE for a number or a name."""
    found = set(re.findall(">([^<>]+)<", (STATIC / "index.html").read_text()))
    scripts = (TITLE.sub(r"\1''", path.read_text()) for path in STATIC.glob("*.js"))
    return found.union(*map(texts_of_script, scripts))


def is_on(page: set[str], name: str) -> bool:
    """Whether that is one of the page's texts."""
    return any(re.fullmatch(re.escape(name) + MORE, text) or
               re.fullmatch(re.escape(text).replace(re.escape(PLACE), r"\S+"), name) for text in page)


def plain(name: str) -> str:
    """A button's name with N for each number, and without the dots of one that asks first."""
    return re.sub(r"\d+", "N", name).rstrip("\u2026")


def pressed() -> set[str]:
    """The names of the buttons that the tests press, where they stand in the call."""
    return {plain(name) for path in Path(__file__).parent.glob("test_*.py") if ".press(" in path.read_text()
            for call in ast.walk(ast.parse(path.read_text())) if isinstance(call, ast.Call)
            for name in _pressed_by(call)}


def _pressed_by(call: ast.Call) -> Iterator[str]:
    """The name of the button that a call presses, if it stands in it."""
    if not isinstance(call.func, ast.Attribute) or call.func.attr != "press" or len(call.args) < 2:
        return
    first = call.args[0]
    if isinstance(first, ast.JoinedStr):
        yield "".join(str(part.value) if isinstance(part, ast.Constant) else "N" for part in first.values)
    elif isinstance(first, ast.Constant) and isinstance(first.value, str):
        yield first.value


class Named(unittest.TestCase):
    """Those of the chapters."""

    def test_named(self) -> None:
        """Each is on the page, and is pressed; the chapters name some."""
        page, found = texts_of_page(), pressed()
        for chapter in CHAPTERS:
            names = buttons(chapter) - BAND
            self.assertGreater(len(names), 5, chapter)
            self.assertEqual([name for name in sorted(names) if not is_on(page, name)], [], chapter)
            self.assertEqual([name for name in sorted(names) if not {plain(name), f"{plain(name)} N"} & found], [],
                             chapter)


if __name__ == "__main__":
    unittest.main()
