"""The picture of the stock on the page: what it is given, the shapes of tools that are kept, and how it looks."""
import json
import sys
import unittest
from pathlib import Path

sys.path.insert(0, str(Path(__file__).resolve().parent))

from page_support import OTHER, Served
from session_support import InFolder, ngc

from ngc_tools.operator.tool_shapes import BadShapes, Shape, ToolShapes
from ngc_tools.page.drawing import DrawingRequest, draw

SHAPES = """# The shapes of tools, by slot; T0 is for cuts without a tool. ngc-page writes this file anew.

[T0]
diameter_nm = 3175000
tip = "ball"

[T2]
diameter_nm = 6000000
tip = "flat"

[T10]
diameter_nm = 20000000
tip = "v"
angle_deg = 82.5
"""


class Given(InFolder):
    """What a drawn job has."""

    def test_in_force(self) -> None:
        """The tool, its length and the zero, of the first step, and wherever one of them changes."""
        self.device()
        self.run_ngc("tool 1 0.5\ntool 2 0.625\nmdi G10 L2 P2 X1 Y-2 Z-3\ntick 5\nload 94\nG17 G21 G90 G94\nG0 X0.1\n"
                     "T2 M6\nG43 H2\nG0 X0.2\nG4 P0.1\nG55\nG0 X0.1 Y0 Z0\nG49\nM3 S5\nG1 X0 F60\nM2\n")
        job = json.loads(draw(DrawingRequest(ngc(), "first.toml", "", Path("mill.dev").read_bytes(), True, False)).text)
        self.assertEqual(job["in_force"], [
            {"step": 0, "slot": 0, "length": 0, "origin": [0, 0, 0]},
            {"step": 1, "slot": 2, "length": 625, "origin": [0, 0, 0]},
            {"step": 3, "slot": 2, "length": 625, "origin": [1000, -2000, -3000]},
            {"step": 4, "slot": 2, "length": 0, "origin": [1000, -2000, -3000]}])


class Kept(InFolder):
    """The file of shapes."""

    def test_kept(self) -> None:
        """It has what was kept, by slot; what is forgotten is gone."""
        shapes = ToolShapes("first.toml")
        self.assertEqual((shapes.read(), str(shapes.path)), ({}, "first.shapes"))
        kept = {10: Shape(20_000_000, "v", 82.5), 2: Shape(6_000_000, "flat"), 0: Shape(3_175_000, "ball"),
                7: Shape(1, "flat")}
        for slot, shape in kept.items():
            shapes.keep(slot, shape)
        shapes.keep(7, None)
        self.assertEqual(Path("first.shapes").read_text(), SHAPES)
        self.assertEqual(shapes.read(), {slot: kept[slot] for slot in (0, 2, 10)})

    def test_wrong(self) -> None:
        """What is no file of shapes is said, and not written over."""
        table = '[T1]\ndiameter_nm = {}\ntip = "{}"\n{}'
        for text in ("[T1", "T1 = 3", "[T1]\n", table.format(0, "flat", ""), table.format(6, "round", ""),
                     table.format(6, "v", ""), table.format(6, "v", "angle_deg = 180"),
                     table.format("true", "flat", ""), table.format(6, "flat", "angle_deg = 9"),
                     table.format(6, "flat", "wide = 9"),
                     table.format(6, "flat", "").replace("T1", "T9999"), table.format(6, "v", "angle_deg = nan"),
                     'Lift = ["M5"]\n'):
            Path("first.shapes").write_text(text)
            for does in (ToolShapes("first.toml").read, lambda: ToolShapes("first.toml").keep(1, Shape(1, "flat"))):
                with self.assertRaises(BadShapes) as said:
                    does()
                self.assertEqual(str(said.exception)[:13], "first.shapes:", text)
            self.assertEqual(Path("first.shapes").read_text(), text)


class Asked(Served):
    """What a page asks for."""

    def test_shapes(self) -> None:
        """The page that commands keeps shapes, as the file has them; others see them. What is no shape is refused."""
        page, other = self.page(), self.page(OTHER)
        none = {"path": "first.shapes", "failed": "", "shapes": {}}
        self.assertEqual(json.loads(page.get("shapes")[1]), none)
        self.assertEqual(page.post("shape", {"slot": 3, "diameter": "6.35", "tip": "flat"}), (200, {}))
        self.assertEqual(page.post("shape", {"slot": 1, "diameter": "12", "tip": "v", "angle": "60"}), (200, {}))
        self.assertEqual(other.post("shape", {"slot": 4, "diameter": "6", "tip": "flat"})[0], 403)
        kept = {"1": {"diameter": 12, "tip": "v", "angle": 60}, "3": {"diameter": 6.35, "tip": "flat", "angle": 0}}
        self.assertEqual(json.loads(other.get("shapes")[1]), none | {"shapes": kept})
        for words in ({"diameter": "0", "tip": "flat"}, {"diameter": "-1", "tip": "flat"},
                      {"diameter": 6, "tip": "flat"}, {"diameter": "1001", "tip": "ball"},
                      {"diameter": "6", "tip": "sharp"}, {"diameter": "6", "tip": ["flat"]},
                      {"diameter": "6", "tip": "v"}, {"diameter": "6", "tip": "v", "angle": "180"}):
            self.assertEqual(page.post("shape", {"slot": 2} | words)[0], 422, words)
        self.assertEqual(page.post("shape", {"slot": 3, "diameter": None}), (200, {}))
        self.assertEqual(list(json.loads(page.get("shapes")[1])["shapes"]), ["1"])
        Path("first.shapes").write_text("T1 = 6\n")
        said = json.loads(page.get("shapes")[1])
        self.assertEqual((said["shapes"], said["failed"][:13]), ({}, "first.shapes:"))
        self.assertEqual(page.post("shape", {"slot": 3, "diameter": "6", "tip": "flat"})[0], 422)
        self.assertEqual(Path("first.shapes").read_text(), "T1 = 6\n")


if __name__ == "__main__":
    unittest.main()
