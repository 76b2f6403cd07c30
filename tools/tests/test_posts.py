"""The post-processor for FreeCAD, over stand-ins of FreeCAD's objects; the text is by hand, and `ngc` accepts it."""
import sys
import unittest
from dataclasses import dataclass, field
from pathlib import Path
from types import SimpleNamespace

sys.path.insert(0, str(Path(__file__).resolve().parent))

from session_support import TOOLS, InFolder, ngc

from ngc_tools.ngc.run import dry

sys.path.insert(0, str(TOOLS / "posts"))

import ngc_post


@dataclass
class Command:
    """A command of FreeCAD."""

    Name: str
    Parameters: dict[str, float] = field(default_factory=dict)


JOB = [Command("(TC: 6mm (long))"), Command("M6", {"T": 1.0}), Command("M3", {"S": 8000.0}), Command("G54"),
       Command("G0", {"Z": 5.0, "F": 25.0}), Command("G0", {"F": 5.0}),
       Command("G1", {"X": -3.0, "Y": 0.00001, "F": 10.0}),
       Command("G2", {"X": 0.0, "Y": 3.0, "Z": -1.0, "I": 3.0, "J": 0.0, "K": 0.0, "F": 10.0}),
       Command("G18"), Command("G3", {"X": 2.0, "Z": -1.0, "I": 1.0, "J": 0.0, "K": 0.0}), Command("G17"),
       Command("G99"), Command("G81", {"X": 1.0, "Y": 2.5, "Z": -1.0, "R": 1.0, "F": 1.5}), Command("G80")]
WRITTEN = """\
G17 G21 G40 G49 G54 G80 G90 G94 G98
(TC: 6mm [long])
M5
G53 G0 Z90
T1 M6 M0
G43 H1
M3 S8000
G54
G0 Z5
G1 X-3 Y0 F600
G2 X0 Y3 Z-1 I3 J0 F600
G18
G3 X2 Z-1 I1 K0
G17
G99
G81 X1 Y2.5 Z-1 R1 F90
G80
G53 G0 Z90
M5 M9
M30
"""


class Posts(InFolder):
    """What is written of a job."""

    def test_job(self) -> None:
        """To the byte; objects without a path are passed over, and the F of a G0, which is FreeCAD's own."""
        job = [SimpleNamespace(Label="fixture"), SimpleNamespace(Path=SimpleNamespace(Commands=JOB))]
        written = ngc_post.export(job, "part.ngc", "--lift 90 --ask-tool")
        self.assertEqual(written, WRITTEN)
        self.assertEqual(Path("part.ngc").read_text(), WRITTEN)
        self.assertEqual(dry(ngc(), written.encode(), "first.toml")[0], 0)

    def test_bare(self) -> None:
        """Without arguments nothing is lifted, and an F alone stays."""
        job = [SimpleNamespace(Path=SimpleNamespace(Commands=[Command("G1", {"F": 5.0}), Command("M06", {"T": 2.0})]))]
        self.assertEqual(ngc_post.export(job, "-"),
                         "G17 G21 G40 G49 G54 G80 G90 G94 G98\nF300\nM5\nT2 M6\nG43 H2\nM5 M9\nM30\n")


if __name__ == "__main__":
    unittest.main()
