"""Each tool over the heads that ten CAM systems write: tests/cam."""
import re
import sys
from pathlib import Path

sys.path.insert(0, str(Path(__file__).resolve().parent))

from session_support import InFolder, ngc, told
from test_examples import COARSE

from ngc_tools.formats.canonical import MOTIONS, read_commands
from ngc_tools.formats.position import millimetres
from ngc_tools.ngc.run import dry
from ngc_tools.cli.check import main as check
from ngc_tools.cli.plot import main as plot
from ngc_tools.cli.split import main as split

CAM = Path(__file__).resolve().parent / "cam"

HOME, TURN, PLANE = "G28 moves all three axes", "a full turn of radius", "relies on the plane"

# Of each: the refused lines with their faults and the marked words, then the lines that are warned of.
SAID = {
    "fusion_grbl.nc": ([], [(6, HOME), (23, HOME), (25, HOME)]),
    "fusion_linuxcnc.ngc": ([(4, "B2", "G91.1"), (12, "B12", "P0.01")], []),
    "fusion_mach3.tap": ([(3, "B2", "G91.1")], [(5, HOME), (18, HOME)]),
    "freecad_linuxcnc.ngc": ([(26, "B12", "K0.000")], []),
    "vectric_grbl.gcode": ([], []),
    "vectric_mach3mm.txt": ([(11, "B4", "G00 G80"), (12, "B2", "G71G91.1")], []),
    "bcnc_header.ngc": ([(4, "E1", "; pcb2gcode"), (6, "B12", "P0.00200")], []),
    "carbide.nc": ([(9, "E1", ";T102")], []),
    "mastercam.nc": ([(2, "E1", "O1000")], []),
    "estlcam.nc": ([], [(11, TURN), (11, PLANE)]),
}


class Headers(InFolder):
    """Each head."""

    def test_headers(self) -> None:
        """What is refused and marked, and what is warned of."""
        for name, (refused, warned) in SAID.items():
            status, said, error = told(check, str(CAM / name), "--ngc", ngc())
            self.assertEqual((error, status), ("", 1 if refused else 0))
            lines = said.replace(f"{CAM / name}:", ":").splitlines()
            found, warnings = [], []
            for number, line in enumerate(lines):
                if match := re.fullmatch(r":([0-9]+): ([A-Z][0-9]+) \w+", line):
                    text, row = lines[number + 1], lines[number + 2]
                    marked = " ".join(text[mark.start():mark.end()] for mark in re.finditer(r"\^+", row))
                    found.append((int(match[1]), match[2], marked))
                if match := re.fullmatch(r":([0-9]+): warning: (.*)", line):
                    warnings.append((int(match[1]), match[2]))
            self.assertEqual(found, refused, name)
            self.assertEqual(len(warnings), len(warned), name)
            for (line, text), (where, begin) in zip(warnings, warned):
                self.assertEqual((line, text[:len(begin)]), (where, begin), name)

    def test_as_they_are_adapted(self) -> None:
        """What `ngc-adapt` has to write of them is short enough, drawn, and run to where the text of it ends."""
        Path("coarse.toml").write_text(COARSE)
        for name in SAID:
            path = str(CAM / f"{name}.expected")
            self.assertRegex(told(split, path, "--ngc", ngc())[1], r": \d+ bytes: ngc run takes it as it is\n$")
            text = dry(ngc(), Path(path))[1].decode()
            Path("part.txt").write_text(text)
            words = ("part.txt", "--ngc", ngc(), "--settings", "coarse.toml", "--output", "part.svg", "--force")
            status, _, error = told(plot, *words)
            self.assertEqual((status, error, Path("part.svg").read_text()[:5]), (0, "", "<svg "), name)
            Path("part.svg").unlink()
            self.device()
            typed = f"tool 1 50\nload {path}\n" + "run\n" * 4 + "quit\n"
            done = self.tool("ngc-operate", "--ngc", ngc(), "mill.dev", "coarse.toml", "out", text=typed)
            self.assertEqual((done.returncode, done.stderr), (0, ""), name)
            x, y, z = [command for command in read_commands(text) if command.name in MOTIONS][-1].point
            ends = f"idle; X {millimetres(x)} Y {millimetres(y)} Z {millimetres(z)}; next line 1 of "
            self.assertIn(ends, done.stdout)
            self.assertNotIn("refused", done.stdout)
