"""Twelve texts of CAM systems, the heads of ten, and programs by chance: what `ngc-adapt` writes of them does what they
mean, motion by motion, by the simulation of `cam_simulation`."""
import os
import sys
import unittest
from dataclasses import replace
from fractions import Fraction
from pathlib import Path

sys.path.insert(0, str(Path(__file__).resolve().parent))

import cam_programs
from cam_simulation import Control, Deed, carried_out
from session_support import InFolder, ngc, told

from ngc_tools.cli.adapt import main as adapt
from ngc_tools.formats.canonical import read_commands
from ngc_tools.ngc.run import dry

CAM = Path(__file__).resolve().parent / "cam"
HOMES = (Fraction(-10), Fraction("20.5"), Fraction(100))
LENGTHS = {1: Fraction(50)}  # by cam.toml
# How many deeds each text has, counted in it by hand: of a hole up to four, and three more of each peck but the last.
DEEDS = {
    "01_fusion_linuxcnc_in.ngc": 95, "02_fusion_grbl.nc": 23, "04_freecad_mach3.tap": 18,
    "07_vcarve_mach_arcs_in.txt": 13, "10_pcb2gcode_drill.ngc": 28, "12_flatcam.nc": 15, "13_jscut.gcode": 9,
    "15_mastercam_fanuc_in.nc": 13, "18_cambam_mach3.nc": 11, "19_openbuilds.gcode": 10, "20_grbl_fullcircle.nc": 6}

FINE = Fraction(100, 10**6)  # mm: places in millimetres, and centres by radius, are written in inches of six decimals
TOLERANCE = {"15_mastercam_fanuc_in.nc": FINE}
COMPENSATED = "16_solidcam.tap"
COMPENSATED_TOLD = """\
out.ngc:14: B3 LeftOutCode: G43 H1 D31 G0 X-30. Y-20. Z50. S3000 M3
    mend: let the CAM system compensate the cutter's radius (in computer)
out.ngc:22: B3 LeftOutCode: G41 X-25. F100
From line 23 on arcs by radius stay as they are, since where they begin isn't known. Mend the lines above in the CAM \
system's text, and adapt it again
"""


def meant(text: str) -> list[Deed]:
    """What a text means."""
    return Control(homes=HOMES, lengths=LENGTHS, slots={201: 4}).run(text)


def near(a: Deed, b: Deed, tolerance: Fraction | int) -> bool:
    """Whether they are one deed: each end and centre to this length."""
    points = [*zip(a.end, b.end, strict=True), *zip(a.centre, b.centre, strict=True)]
    rest = {"end": b.end, "centre": b.centre, "turn": b.turn}
    return (all(abs(x - y) <= tolerance for x, y in points) and abs(a.turn - b.turn) < 0.001
            and replace(a, **rest) == b)


class Jobs(InFolder):
    """Each text."""

    def adapted(self, path: Path) -> tuple[int, str, str]:
        """Adapts a text to out.ngc."""
        Path("out.ngc").unlink(missing_ok=True)
        return told(adapt, str(path), "--settings", str(CAM / "cam.toml"), "--ngc", ngc(), "--lift", "100",
                    "--park", "-10", "20.5", "--tool", "201=4", "--output", "out.ngc")

    def test_motions(self) -> None:
        """Each motion, its end, centre, turn, feed, spindle, coolant and tool, each dwell and change of the tool."""
        for name, count in DEEDS.items():
            with self.subTest(name):
                status, _, error = self.adapted(CAM / name)
                self.assertEqual((status, error), (0, ""))
                self.assertEqual(Path("out.ngc").read_bytes(), (CAM / f"{name}.expected").read_bytes())
                self.assertEqual(self.compared(CAM / name, TOLERANCE.get(name, 0)), count)

    def test_heads(self) -> None:
        """The same of the heads of ten other texts."""
        names = [path.name for path in CAM.iterdir() if path.suffix not in (".expected", ".toml")]
        heads = set(names) - {*DEEDS, COMPENSATED}
        self.assertEqual((len(names), len(heads)), (22, 10))
        for name in heads:
            with self.subTest(name):
                self.assertEqual(self.adapted(CAM / name)[0], 0)
                self.assertGreater(self.compared(CAM / name), 0)

    def test_by_chance(self) -> None:
        """The same of programs by chance; what was adapted stays as it is."""
        count = 0
        for seed in range(int(os.environ.get("NGC_PROGRAMS", "40"))):
            with self.subTest(seed):
                Path("part.nc").write_text(cam_programs.Program.by(seed))
                status, _, error = self.adapted(Path("part.nc"))
                self.assertEqual((status, error), (0, ""))
                count += self.compared(Path("part.nc"), FINE)
                Path("out.ngc").rename("part.nc")
                self.assertEqual(self.adapted(Path("part.nc")), (0, "no line is changed\n", ""))
        self.assertGreater(count, 500)

    def compared(self, path: Path, tolerance: Fraction | int = 0) -> int:
        """Compares what a text means with what `ngc dry` does of out.ngc. Returns how many deeds there are."""
        wanted = meant(path.read_text())
        status, text = dry(ngc(), Path("out.ngc"), CAM / "cam.toml")
        done = carried_out(read_commands(text))
        self.assertEqual((status, len(done)), (0, len(wanted)))
        for one, other in zip(wanted, done, strict=True):
            self.assertTrue(near(one, other, tolerance), f"{path}:\n{one}\n{other}")
        return len(wanted)

    def test_compensation(self) -> None:
        """The one that leaves the cutter's radius to the controller is written, but for what only its CAM system knows,
        and each line is told that has to be made anew there."""
        status, said, error = self.adapted(CAM / COMPENSATED)
        self.assertEqual(Path("out.ngc").read_bytes(), (CAM / f"{COMPENSATED}.expected").read_bytes())
        self.assertEqual((status, error), (1, COMPENSATED_TOLD))
        self.assertIn("line 8: WARNING: the text names no unit; the machine coordinate is written in millimetres", said)


class Simulated(unittest.TestCase):
    """The simulation itself, by hand."""

    def test_full_circles(self) -> None:
        """Two full turns about 0, 0, the second one down to Z-2."""
        found = [(deed.kind, *map(int, deed.end), int(deed.feed), deed.turn)
                 for deed in meant((CAM / "20_grbl_fullcircle.nc").read_text())]
        self.assertEqual(found, [("rapid", 5, 0, 0, 0, 0.0), ("rapid", 5, 0, 5, 0, 0.0), ("feed", 5, 0, -1, 200, 0.0),
                                 ("arc", 5, 0, -1, 500, 360.0), ("arc", 5, 0, -2, 500, 360.0),
                                 ("rapid", 5, 0, 5, 0, 0.0)])

    def test_arcs(self) -> None:
        """A quarter about 1, 0 by its centre, from the start and absolute; by its radius; the longer way."""
        for words, centre, turn in (("G2 X1 Y1 I1", (1, 0), -90), ("G90.1 G2 X1 Y1 I1 J0", (1, 0), -90),
                                    ("G2 X1 Y1 R1", (1, 0), -90), ("G2 X1 Y1 R-1", (0, 1), -270),
                                    ("G3 X1 Y1 R1", (0, 1), 90), ("G3 X1 Y1 R-1", (1, 0), 270),
                                    ("G18 G2 X1 Z1 I1", (0, 1), 90 - 360), ("G19 G3 Y1 Z1 J1", (1, 0), 270)):
            (deed,) = meant(words)
            self.assertEqual((deed.centre, round(deed.turn, 6)), (centre, turn), words)

    def test_modes(self) -> None:
        """Inches, increments, a motion that a line alone sets, the length of a tool, a home, a peck."""
        for words, ends in (("G20 G0 X1", [(25.4, 0, 0)]), ("G91 G1 X1 F5\nX1", [(1, 0, 0), (2, 0, 0)]),
                            ("G0 X1\nG01 F5\nX2", [(1, 0, 0), (2, 0, 0)]), ("G0 G43 H1 Z1", [(0, 0, 51)]),
                            ("G91 G28 X0 Z0", [(-10, 0, 100)]), ("G28 G90 Z5", [(0, 0, 5), (0, 0, 100)]),
                            ("G83 Z-2 R1 Q2", [(0, 0, z) for z in (1, -1, 1, -0.746, -2, 1)])):
            self.assertEqual([tuple(map(float, deed.end)) for deed in meant(words)], ends, words)


if __name__ == "__main__":
    unittest.main()
