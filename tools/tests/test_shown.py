"""What the tools show of programs, names of files, settings and devices: nothing that a terminal obeys, or that turns
the direction of writing."""
import os
import re
import subprocess
import sys
import unittest
from pathlib import Path
from types import ModuleType

sys.path.insert(0, str(Path(__file__).resolve().parent))

from player_support import built, played
from session_support import FIRST, PATIENCE_S, TOOLS, InFolder, ngc, told

from ngc_tools.cli import adapt, check, device, operate, plot, rehearse, split

ODD = "\x1b[2J\x07\x9b31m\u061c\u202e\u2066\u2028\ufeff"
"""ESC, a bell, a control character of one byte, what turns the direction of writing, a line's end, a mark."""
OBEYED = re.compile("[\x00-\x08\x0b-\x1f\x7f-\x9f\u061c\u200b-\u200f\u2028-\u202e\u2066-\u2069\ufeff]")
PROGRAM = f"""G21 G90 G17 G54 G94 G98 ({ODD})
(MSG, {ODD} turn it)
G0 X1 Y0 Z5 ({ODD})
M0 ({ODD})
G28 ({ODD})
{"(a text has few of these)" * 40}
M2
""".replace(")(", ")\n(")
REFUSED = PROGRAM.replace("M0", "Q1 M0").replace("G28", "G2 X3 F1")


class Shown(InFolder):
    """Each tool, with such comments, and names of files of which each has such letters."""

    def setUp(self) -> None:
        """Files."""
        super().setUp()
        self.device()
        os.rename("mill.dev", f"mill{ODD}.dev")
        Path(f"first{ODD}.toml").write_text(FIRST)
        Path(f"motion{ODD}.toml").write_text("[motion]\naccel_mm_s2 = [500, 500, 500]\n")
        Path(f"bad{ODD}.toml").write_text(FIRST + f"{'x' * 3} = 1\n\"\\u001b\\u202e\" = 1\n")
        Path(f"bad-motion{ODD}.toml").write_text("[motion]\naccel_mm_s2 = [5, 5, 5]\n[\"\u202e\"]\n")
        Path(f"part{ODD}.ngc").write_text(PROGRAM)
        Path(f"refused{ODD}.ngc").write_text(REFUSED)
        Path(f"cam{ODD}.ngc").write_text(PROGRAM.replace("G28 (", "G28 G91 Z0 ; ").replace("M2\n", "G91.1\n"))
        Path(f"out{ODD}").write_text(f"P 1 0 0 50\n{ODD}\n")

    def looked_at(self, words: tuple[str, ...], said: str) -> str:
        """What is shown, once it is looked through."""
        self.assertIsNone(OBEYED.search(said), (words, said))
        self.assertNotIn("internal error", said, words)
        self.assertTrue(said, words)
        return said

    def check(self, tool: ModuleType, *words: str) -> str:
        """What a tool shows. `*` in a word stands for odd letters."""
        _, out, error = told(tool.main, *(word.replace("*", ODD) for word in words))
        return self.looked_at(words, out + error)

    def run_to_end(self, *words: str, text: str = "") -> str:
        """The same of a program."""
        done = subprocess.run([word.replace("*", ODD) for word in words], input=text.encode(), capture_output=True,
                              timeout=PATIENCE_S, env={**os.environ, "PYTHONUTF8": "1"})
        return self.looked_at(words, (done.stdout + done.stderr).decode("utf-8", "surrogateescape"))

    def test_programs(self) -> None:
        """Comments, messages, and names of files."""
        ask = ("--ngc", ngc())
        self.assertIn(r"\u202e", self.check(check, "refused*.ngc", *ask))
        self.check(check, "part*.ngc", "--settings", "first*.toml", "--machine", "motion*.toml", *ask)
        self.check(check, "part*.ngc", "--device", "mill*.dev", *ask)
        self.check(adapt, "cam*.ngc", "--output", "new*.ngc", *ask)
        self.check(adapt, "cam*.ngc", "--lift", "5", "--output", "new*.ngc", *ask)
        self.check(adapt, "cam*.ngc", "--lift", "5", "--output", "new*.ngc", *ask)  # it is there
        self.check(plot, "part*.ngc", "--output", "picture*.svg", *ask)
        words = ("--title", ODD, "--settings", "first*.toml", "--output", "other*.svg")
        self.check(plot, "refused*.ngc", *words, *ask)
        for path in Path().glob("*.svg"):
            self.assertIsNone(OBEYED.search(path.read_text()), path)
        self.check(split, "part*.ngc", "--limit", "10", *ask)
        self.check(split, "refused*.ngc", "--limit", "10", *ask)
        self.check(split, "part*.ngc", *ask)

    def test_settings(self) -> None:
        """Settings and machines that are refused, and their names."""
        ask = ("--ngc", ngc())
        for words in (("--settings-only", "--settings", "bad*.toml"), ("--settings-only", "--settings", "none*.toml"),
                      ("--settings-only", "--settings", "first*.toml", "--machine", "bad-motion*.toml"),
                      ("--settings-only", "--settings", "first*.toml", "--machine", "motion*.toml")):
            self.check(check, *words, *ask)
        for words in (("out*", "bad*.toml", "position*"), ("none*", "first*.toml", "position*"),
                      ("--machine", "bad-motion*.toml", "out*", "first*.toml", "position*"),
                      ("--untimed", "out*", "first*.toml", "position*")):
            self.looked_at(words, "".join(map(str, played(*(word.replace("*", ODD) for word in words)))))
            self.run_to_end(built("-O2"), *words)

    def test_sessions(self) -> None:
        """A session, what a device holds, and a rehearsal of it."""
        ask = ("--ngc", ngc())
        words = ("mill*.dev", "first*.toml", "out")
        loads = f"load part{ODD}.ngc\nload refused{ODD}.ngc\nno\nload none{ODD}.ngc\n"
        typed = f"{loads}run\nrun\nwhere\nstatus\n{ODD}\nquit\n"
        tool = (sys.executable, str(TOOLS / "ngc-operate"))
        self.assertIn("turn it", self.run_to_end(*tool, *words, *ask, text=typed))
        self.check(device, "mill*.dev")
        self.check(rehearse, *words[:2], *ask)
        self.check(operate, "mill*.dev", "bad*.toml", "out", *ask)
        self.check(operate, *words[:2], "out*", *ask)


if __name__ == "__main__":
    unittest.main()
