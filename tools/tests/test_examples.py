"""Each tool over each of the examples: what is expected is the text beside it, or stands in the program."""
import re
import sys
import unittest
from collections.abc import Callable
from pathlib import Path

sys.path.insert(0, str(Path(__file__).resolve().parent))

from player_support import played
from session_support import FIRST, TOOLS, InFolder, ngc, told

from ngc_tools.cli.adapt import main as adapt
from ngc_tools.formats.canonical import MOTIONS, Command, read_commands
from ngc_tools.formats.position import Position, millimetres
from ngc_tools.cli.rehearse import main as rehearse
from ngc_tools.cli.split import main as split

EXAMPLES = TOOLS.parent / "examples"
NAMES = sorted(path.stem for path in EXAMPLES.glob("*.ngc"))
STEP_NM = (100_000, 100_000, 100_000)  # so that there are few pulses
COARSE = (FIRST.replace("[1000, 1000, 1000]", str(list(STEP_NM))).replace("period_us = 50\n", "period_us = 1\n")
          .replace("[50000000]", "[50000000, 62500000, 0]"))
HOME, TURN = "relies on", "a full turn of radius"
STILL, DEEP = "it cuts with the spindle stopped", "a traverse sideways at Z -"
# The lines that rely on the unit, the distance mode, the way that cycles end; programs without M3, which show other
# things; ways through what a pocket's rings before have cut free; and the circles, which are meant.
WARNED = {"bores": [(9, HOME)], "face": [(5, STILL)], "first": [(1, HOME)] * 2,
          "parameters": [(5, HOME), (5, HOME), (7, STILL)], "percent": [(3, HOME), (6, STILL)],
          "pocket": [(2, HOME), (6, STILL), (26, DEEP), (47, DEEP)], "ring": [(13, TURN), (15, TURN)]}
# The first line that moves Z, of those that set no tool length: of that a session asks which wasn't told as it loaded.
UNSET = {"bores": 7, "face": 3, "mill": 6, "parameters": 5, "percent": 4, "pocket": 3}
ASKS = "begin all the same? yes begins: "
# Known otherwise, of lengths and rates: 7.001 mm at 6,000 mm a minute, and what was once added up of two others.
SECONDS = {"first": "0.070 s", "bolts": "2 min 10.6", "pocket": "53.3"}


def moves(name: str) -> list[Command]:
    """The motions of the text beside an example."""
    return [command for command in read_commands((EXAMPLES / f"{name}.txt").read_bytes()) if command.name in MOTIONS]


class Examples(InFolder):
    """Settings with great steps, and three tools on the device."""

    def setUp(self) -> None:
        """A fresh device."""
        super().setUp()
        Path("coarse.toml").write_text(COARSE)
        self.device()

    def said(self, tool: str, *words: str, text: str = "") -> str:
        """What a tool says at status 0, without an error."""
        done = self.tool(tool, *words, text=text)
        self.assertEqual((done.returncode, done.stderr), (0, ""), words)
        return done.stdout

    def called(self, main: Callable[[list[str]], int], *words: str) -> str:
        """The same of a tool in this process."""
        status, said, error = told(main, "--ngc", ngc(), *words)
        self.assertEqual((status, error), (0, ""), words)
        return said

    def test_there_are_nine(self) -> None:
        """None is left out."""
        self.assertEqual(len(NAMES), 9)

    def test_check(self) -> None:
        """None is refused; what is warned of."""
        for name in NAMES:
            path = str(EXAMPLES / f"{name}.ngc")
            said = self.said("ngc-check", path, "--settings", "coarse.toml", "--ngc", ngc())
            found = re.findall(rf"^{re.escape(path)}:(\d+): warning: (\D*)", said, re.MULTILINE)
            wanted = WARNED.get(name, [])
            self.assertEqual([int(line) for line, _ in found], [line for line, _ in wanted], name)
            for (_, text), (_, begin) in zip(found, wanted, strict=True):
                self.assertTrue(text.startswith(begin), (name, text))
            self.assertIn("no refusals", said)

    def test_adapt_and_split(self) -> None:
        """Nothing of them is to be changed, and all are short enough."""
        for name in NAMES:
            path = EXAMPLES / f"{name}.ngc"
            words, size = (str(path), "--settings", "coarse.toml"), len(path.read_bytes())
            self.assertEqual(self.called(adapt, *words, "--output", "x.ngc", "--force"), "no line is changed\n")
            self.assertEqual(Path("x.ngc").read_bytes(), path.read_bytes(), name)
            self.assertEqual(self.called(split, *words), f"{path}: {size:,} bytes: ngc run takes it as it is\n")

    def test_rehearse_operate_player(self) -> None:
        """What a start would do; the session; and what a player carries out of its OUT end where the text does."""
        for name in NAMES:
            with self.subTest(name):
                delete = "delete on\n" if name == "percent" else ""
                text = (EXAMPLES / f"{name}.ngc").read_text()
                self.run_ngc(f"tool 1 50\ntool 2 62.5\ntool 3 0\nload {len(text)}\n{text}quit\n")
                self.rehearsed(name)
                x, y, z = moves(name)[-1].args[:3]
                agreed = "yes\n" if name in UNSET else ""
                shown = self.operate(delete + "run\n" + agreed + "run\n" * 2 + "quit\n")
                self.assertEqual(shown.count(ASKS), int(name in UNSET), shown)
                if name in UNSET:
                    self.assertIn(f"line {UNSET[name]}: it moves Z before it sets G43 or G49, and no tool", shown)
                ends = " ".join(f"{axis} {millimetres(nm)}" for axis, nm in zip("XYZ", (x, y, z), strict=True))
                self.assertIn(f"idle; {ends}; next line ", shown)
                status, said, error = played("--untimed", "--no-ask-tool", "--at", "0", "0", "0", "out", "coarse.toml",
                                             "position")
                self.assertEqual((status, error), (0, ""))
                self.assertEqual(said.splitlines()[-1], Position(STEP_NM, (x, y, z)).reference())
                for path in ("out", "position", "mill.dev"):
                    Path(path).unlink()
                self.device()

    def operate(self, typed: str) -> str:
        """A session of `ngc-operate`."""
        return self.said("ngc-operate", "--ngc", ngc(), "mill.dev", "coarse.toml", "out", text=typed)

    def rehearsed(self, name: str) -> None:
        """What `ngc-rehearse` says before the start. The travel is told of examples without arcs, by their points."""
        said = self.called(rehearse, "mill.dev", "coarse.toml")
        lines = (EXAMPLES / f"{name}.ngc").read_text().count("\n")
        self.assertIn(f"start goes on with line 1 of {lines}: ", said)
        self.assertIn(f"from there to the end: {SECONDS.get(name, '')}", said)
        if name == "percent" or any(move.name == "ARC_FEED" for move in moves(name)):
            return
        steps = [Position(STEP_NM, point).nm for point in [(0, 0, 0), *(move.point for move in moves(name))]]
        each = (f"{axis} {min(nm) / 10**6:.3f} to {max(nm) / 10**6:.3f}"
                for axis, nm in zip("XYZ", zip(*steps, strict=True), strict=True))
        self.assertIn("; " + "   ".join(each) + " mm\n", said)


if __name__ == "__main__":
    unittest.main()
