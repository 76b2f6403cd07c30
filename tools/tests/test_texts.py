"""The texts of page and console: the files of languages have what the code says, and what is said in one is what its
file has."""
import re
import sys
import unittest
from pathlib import Path

sys.path.insert(0, str(Path(__file__).resolve().parent))

from language_cases import CASES
from session_support import InFolder, ngc

from ngc_tools.language import ENGLISH, Language, language, languages, of_environment, texts_of
from tests.texts import texts, written

PLACE = re.compile(r"\{(\d+)\}")
COMMANDS = "help\nwhere\nG0 X1\nload part.ngc\nrun\nG1 Q1\nnonsense\nload\nfrom 99\nruns\noffsets\nquit\n"


class Files(unittest.TestCase):
    """The files."""

    maxDiff = None

    def test_english(self) -> None:
        """en.toml has what the code has: tests/texts.py --write brings it up to date."""
        found = texts()
        same = {one: one for mine in found.values() for one in mine}
        self.assertEqual((languages()[ENGLISH], texts_of(ENGLISH)), ("English", same))
        self.assertGreater(len(same), 1500)
        for name, own in languages().items():
            path = Path(sys.modules[Language.__module__].__file__).parent / "texts" / f"{name}.toml"
            self.assertEqual(path.read_text(encoding="utf-8"), written(found, own, texts_of(name)), name)

    def test_others(self) -> None:
        """Each other language has the same texts, with the same places, and says something for each."""
        english = texts_of(ENGLISH)
        for name in languages():
            said = texts_of(name)
            self.assertEqual(sorted(english), sorted(said), name)
            other = [one for one in said if sorted(PLACE.findall(one)) != sorted(PLACE.findall(said[one]))]
            self.assertEqual(other, [], name)
            self.assertEqual([one for one in said if not said[one].strip()], [], name)

    def test_words(self) -> None:
        """A text has a word besides its places."""
        self.assertEqual([one for one in texts_of(ENGLISH) if not re.search("[A-Za-z]{2}", PLACE.sub(" ", one))], [])


class Said(unittest.TestCase):
    """What is said."""

    def test_cases(self) -> None:
        """In German."""
        german = language("de")
        for text, said in CASES.items():
            self.assertEqual(german.say(text), said, text)
            self.assertEqual(german.say(text), said, "again")

    def test_english(self) -> None:
        """In English each text is what it was, the very same."""
        for text in (*CASES, *texts_of(ENGLISH)):
            self.assertIs(language(ENGLISH).say(text), text)

    def test_own(self) -> None:
        """Places in another order, within each other, at lines' ends; few words don't part what isn't known."""
        own = Language({"{1} goes {2} by {3}": "um {3} geht {1} {2}", "up": "hoch", "the tool": "das Werkzeug",
                        "it stands.\nIt waits for {1}.": "es steht.\nEs wartet auf {1}.", "{1} of {2}": "{1} von {2}",
                        "line {1}": "Zeile {1}"}, "xx")
        self.assertEqual(own.say("the tool goes up by 3"), "um 3 geht das Werkzeug hoch")
        self.assertEqual(own.say("it stands. It waits for line 2."), "es steht. Es wartet auf Zeile 2.")
        self.assertEqual(own.say("It waits for line 2"), "Es wartet auf Zeile 2")
        self.assertEqual(own.say("line 3 of line 5"), "Zeile 3 von Zeile 5")
        self.assertEqual(own.say("a long tale of the sea"), "a long tale of the sea")
        self.assertEqual(own.say("up, line 2"), "hoch, Zeile 2")

    def test_many(self) -> None:
        """However many are said, and however long one is, it ends."""
        german = language("de")
        for count in range(5000):
            german.say(f"{count} % of {count}.5 s")
        self.assertEqual(german.say("7 % of 9.5 s"), "7 % von 9.5 s")
        self.assertIsInstance(german.say("a line, and the line; of the line: " * 20), str)

    def test_environment(self) -> None:
        """Which language that names."""
        for given, name in (({}, "en"), ({"LANG": "de_DE.UTF-8"}, "de"), ({"LANG": "de"}, "de"), ({"LANG": "C"}, "en"),
                            ({"LANG": "de_AT@euro", "LC_ALL": "C.UTF-8"}, "en"), ({"LANG": "xx_XX"}, "en"),
                            ({"LANG": "en_GB.UTF-8", "LC_MESSAGES": "de_DE"}, "de"),
                            ({"LC_ALL": "", "LANG": "de"}, "de")):
            self.assertEqual(of_environment(given), name, given)


class Console(InFolder):
    """A console in German."""

    def setUp(self) -> None:
        """A fresh device and a program."""
        super().setUp()
        self.device()
        Path("part.ngc").write_text("G17 G21 G90 G94\nG0 X1\nM0 (message: stop)\nM2\n")

    def said(self, *words: str) -> str:
        """What it says, to its end."""
        done = self.tool("ngc-operate", "--ngc", ngc(), "mill.dev", "first.toml", "out", *words, text=COMMANDS)
        self.assertEqual((done.stderr, done.returncode), ("", 0))
        return done.stdout

    def test_german(self) -> None:
        """It says in German what it says in English; commands, programs and OUT are the same."""
        english, out = self.said(), Path("out").read_bytes()
        self.setUp()
        german = self.said("--language", "de")
        self.assertEqual(Path("out").read_bytes(), out)
        self.assertIn("load FILE", german)
        for english_words in ("goes on", "nor is", "line 1", "the program", "which file", "which isn't"):
            self.assertNotIn(english_words, german)
        self.assertEqual(len(english.splitlines()), len(german.splitlines()))

    def test_failure(self) -> None:
        """Why it can't begin is said in German too, with the same status."""
        done = self.tool("ngc-operate", "--ngc", ngc(), "none.dev", "first.toml", "out", "--language", "de", text="")
        self.assertEqual(done.returncode, 2)
        self.assertTrue(done.stderr.startswith("ngc-operate: none.dev: "), done.stderr)
        self.assertNotIn("there is no", done.stderr)
        self.assertIn("`ngc format none.dev`", done.stderr)


if __name__ == "__main__":
    unittest.main()
