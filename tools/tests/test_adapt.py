"""ngc-adapt: ten headers of CAM systems, arcs by radius, what is asked, what is told, and files; all texts by hand."""
import os
import sys
import time
import unittest
from decimal import Decimal
from pathlib import Path
from unittest import mock

sys.path.insert(0, str(Path(__file__).resolve().parent))

from session_support import FIRST, TOOLS, InFolder, Terminal, ngc, told

from ngc_tools.cli.adapt import main
from ngc_tools.cli.check import main as check
from ngc_tools.job.radius_arcs import Ends, centre

CAM = Path(__file__).resolve().parent / "cam"
CHANGED = {  # the numbers of the changed lines
    "bcnc_header.ngc": (4, 6), "carbide.nc": (9,), "estlcam.nc": (), "freecad_linuxcnc.ngc": (26,),
    "fusion_grbl.nc": (6, 23, 25), "fusion_linuxcnc.ngc": (4, 12), "fusion_mach3.tap": (3, 5, 18),
    "mastercam.nc": (2,), "vectric_grbl.gcode": (), "vectric_mach3mm.txt": (11, 12)}

LISTED = """\
line 3: centres of arcs count from their start always
  - G90 G94 G91.1 G40 G49 G17
  + G90 G94 G40 G49 G17
line 5: G28 would move all three axes
  - G28 G91 Z0.
  + G53 G0 G91 Z-2
line 18: G28 would move all three axes
  - G28 G91 Z0.
  + G53 G0 G91 Z-2
"""
ARCS = """\
G21 G90 G17 F100
G2 X1 Y1 R1
(back) G3 X0 Y0 R1 Z-1
X1 Y1 R-1
X2 Y1 I0.5 J0
G18 G2 X2 Z0 R1
G20 G17 G91 G2 X0.1 Y0.1 R.1
G2 X1 R0.49
M2
"""
# From 0, 0 clockwise the short way to 1, 1: its centre is to the right of the way, 1, 0. Back the other way round: from
# 1, 1 to the left of the way to 0, 0, which is 1, 0 again. The long way counter-clockwise: to the right, 1, 0. In
# G18, seen as Z and X, from X2 Z-1 to X2 Z0 with a radius of 1: half a millimetre along Z, and a half of the root of 3
# to the right, which is X below 0. A radius of 0.49 doesn't reach across 1.
CENTRED = """\
G21 G90 G17 F100
G2 X1 Y1 I1 J0
(back) G3 X0 Y0 I0 J-1 Z-1
X1 Y1 I1 J0
X2 Y1 I0.5 J0
G18 G2 X2 Z0 I-0.866025 K0.5
G20 G17 G91 G2 X0.1 Y0.1 I0.1 J0
G2 X1 R0.49
M2
"""


def written(path: Path, *words: str) -> tuple[int, str, str]:
    """The status, standard output and standard error of `ngc-adapt`, which writes out.ngc."""
    return told(main, str(path), "--ngc", ngc(), "--output", "out.ngc", *words)


class Headers(InFolder):
    """The ten headers."""

    def test_ten(self) -> None:
        """Each is written as expected, with a list of its changed lines, and `ngc` accepts it."""
        for name, numbers in CHANGED.items():
            with self.subTest(name):
                status, said, error = written(CAM / name, "--lift", "-2", "--park", "-10", "20.5", "--force")
                self.assertEqual((error, status), ("", 0))
                self.assertEqual(Path("out.ngc").read_bytes(), (CAM / f"{name}.expected").read_bytes())
                listed = [line for line in said.splitlines() if line.startswith("line ")]
                self.assertEqual(tuple(int(line.split()[1][:-1]) for line in listed), numbers)

    def test_list(self) -> None:
        """The list goes to standard error where the text goes to standard output."""
        name = CAM / "fusion_mach3.tap"
        done = self.tool("ngc-adapt", "-", "--ngc", ngc(), "--lift", "-2", text=name.read_text())
        self.assertEqual((done.returncode, done.stderr), (0, LISTED))
        self.assertEqual(done.stdout, (CAM / "fusion_mach3.tap.expected").read_text())

    def test_once_more(self) -> None:
        """What was adapted stays as it is."""
        for name in CHANGED:
            self.assertEqual(written(CAM / f"{name}.expected", "--force"), (0, "no line is changed\n", ""))


class Arcs(InFolder):
    """Arcs by radius."""

    def test_centre(self) -> None:
        """By hand: a quarter of a circle, half a circle that is a little short, and none."""
        ends = Ends((0, 0, 0), (1_000_000, 1_000_000, 0), "XY", False)
        self.assertEqual(centre(ends, Decimal(1), True), "I1 J0")
        self.assertEqual(centre(ends, Decimal(-1), True), "I0 J1")
        self.assertEqual(centre(ends, Decimal(1), False), "I0 J1")
        self.assertEqual(centre(ends, Decimal(-1), False), "I1 J0")
        half = Ends((0, 0, 0), (0, 2_000_000, 0), "XY", False)
        self.assertEqual(centre(half, Decimal("0.9999"), True), "I0 J1")
        self.assertIsNone(centre(half, Decimal("0.99"), True))
        self.assertIsNone(centre(Ends((1, 1, 1), (1, 1, 5), "XY", False), Decimal(1), True))
        inches = Ends((0, 0, 0), (0, 0, 25_400_000), "YZ", True)
        self.assertEqual(centre(inches, Decimal("0.5"), False), "J0 K0.5")

    def test_program(self) -> None:
        """Each in turn, where `ngc` says that it begins; the last one stays, and is refused."""
        Path("arcs.ngc").write_text(ARCS)
        done = self.tool("ngc-adapt", "arcs.ngc", "--ngc", ngc())
        self.assertEqual(done.stdout, CENTRED)
        self.assertEqual(done.returncode, 1)
        self.assertIn("\nthe text:8: B11 RadiusArc: G2 X1 R0.49\n    mend: write the arc by its centre", done.stderr)


class Words(InFolder):
    """What is asked, what is told, and files."""

    def adapt(self, text: str | bytes, *words: str) -> tuple[int, str, str, bytes | None]:
        """Adapts part.nc: the status, both outputs, and what out.ngc is then."""
        Path("part.nc").write_bytes(text.encode() if isinstance(text, str) else text)
        Path("out.ngc").unlink(missing_ok=True)
        status, said, error = told(main, "part.nc", "--ngc", ngc(), "-o", "out.ngc", *words)
        return status, said, error, Path("out.ngc").read_bytes() if Path("out.ngc").exists() else None

    def test_garbage(self) -> None:
        """What is none of G-code is refused by its first lines, however long it is; a few such lines are told."""
        prose = b"<p class='a'>The quick brown fox (jumps) over the lazy dog.\n"
        none = "it isn't G-code: ngc can read hardly any of its first lines"
        long = "it isn't a program: a line of it has 70,000 letters"
        for text, why in ((prose * 30, none), (b"(a comment (within another))\n" * 5 + prose * 20, none),
                          (prose * 100_000, none), (b"x" * 70_000, long)):
            begun = time.process_time()
            self.assertEqual(self.adapt(text), (2, "", f"ngc-adapt: part.nc: {why}\n", None), text[:40])
            self.assertLess(time.process_time() - begun, 1)
            self.assertEqual(told(check, "part.nc", "--ngc", ngc()), (2, "", f"ngc-check: part.nc: {why}\n"))
        few = "".join(f"G0 X{number} ; to there\n" for number in range(20)) + "M2\n"
        self.assertEqual(self.adapt(few)[0], 0)
        status, _, error, _ = self.adapt(prose * 2 + few.encode())
        self.assertEqual((status, [line[:10] for line in error.splitlines() if line.startswith("out")]),
                         (1, ["out.ngc:1:", "out.ngc:2:"]))

    def test_needed(self) -> None:
        """Without heights, places and slots nothing is written; each is named with its line."""
        text = "G21 G91\nG28 Z0\nG28 X0\nT201 M6\nG43 H300\n"
        needed = ["2: G28 Z0: name the machine Z that the tool is lifted to, in millimetres: --lift Z\n",
                  "3: G28 X0: name the machine X and Y that the table is brought to, in millimetres: --park X Y\n",
                  "4: T201 M6: name the slot of tool 201, 1 to 128: --tool 201=SLOT\n",
                  "5: G43 H300: name the slot of tool 300, 1 to 128: --tool 300=SLOT\n"]
        words: list[str] = []
        for number, more in enumerate((["--lift", "0"], ["--park", "0", "0"], ["--tool", "201=1"], [])):
            wanted = "ngc-adapt: " + "".join(f"part.nc: line {line}" for line in needed[number:])
            self.assertEqual(self.adapt(text, *words), (2, "", wanted, None))
            words += more

    def test_slots(self) -> None:
        """By the table, in the list; what is no table."""
        status, said, error, new = self.adapt("T201 M6\nG43 H201\nM2\n", "--tool", "201=1", "--tool", "7=2")
        self.assertEqual((status, error, new), (0, "", b"T1 M6\nG43 H1\nM2\n"))
        self.assertTrue(said.startswith("line 1: tool 201 is in slot 1\n  - T201 M6\n  + T1 M6\n"))
        for wrong in ("201", "201=0", "201=129", "=1", "201=x", "-1=1", "1=1=1", "0=1"):
            self.assertEqual(self.adapt("M2\n", "--tool", wrong)[0], 2, wrong)
        self.assertIn("each number once", self.adapt("M2\n", "--tool", "7=1", "--tool", "7=2")[2])
        for text, table in (("T201\nT202\nM2\n", ("201=1", "202=1")), ("T1\nT201 M6\nM2\n", ("201=1",))):
            words = [word for pair in table for word in ("--tool", pair)]
            self.assertRegex(self.adapt(text, *words)[2], "part.nc: T[0-9]+ and T20[12] would both be slot 1; give")

    def test_asked(self) -> None:
        """At a terminal it asks, and an answer that is no number, or no text, is refused."""
        self.enterContext(mock.patch.dict(os.environ, PYTHONIOENCODING="utf-8:strict"))  # as in most locales
        Path("part.nc").write_text("G21 G91 G28 Z0\nT201\nG28 X0\nM2\n")
        for answers, status in (((b"-2\n", b"1\n", b"-10 20.5\n"), 0), ((b"high\n",), 2), ((b"\n",), 2),
                                ((b"1 2\n",), 2), ((b"1\n", b"129\n"), 2), ((b"\xff\n",), 2)):
            terminal = Terminal(str(TOOLS / "ngc-adapt"), "part.nc", "--ngc", ngc(), "-o", "out.ngc")
            for answer, question in zip(answers, (b"in millimetres: ", b"1 to 128: ", b"in millimetres: ")):
                terminal.read_to(question)
                terminal.send(answer)
            self.assertNotIn(b"internal error", terminal.read_to(b"never"))
            self.assertEqual(terminal.status(), status, answers)
            self.assertEqual(Path("out.ngc").exists(), status == 0)
            if status == 0:
                self.assertEqual(Path("out.ngc").read_text(), "G21 G91 G53 G0 Z-2\nT1\nG53 G0 X-10\nM2\n")
                Path("out.ngc").unlink()

    def test_refused(self) -> None:
        """The text is written, each refused line is told, and nothing unknown is dropped."""
        text = "G21\nG41 D1 X1\nG52 X5\nG41\nM2\n"
        status, said, error, new = self.adapt(text)
        self.assertEqual((status, said, new), (1, "no line is changed\n", text.encode()))
        self.assertEqual(error, """\
out.ngc:2: B3 LeftOutCode: G41 D1 X1
    mend: let the CAM system compensate the cutter's radius (in computer)
out.ngc:3: B2 UnknownCode: G52 X5
    mend: G52 moves the work zero for the lines after it: let the post-processor add that to their coordinates; \
leave the whole line out only where it is 0 on each axis
out.ngc:4: B3 LeftOutCode: G41
Mend these, and check again: ngc-check out.ngc
""")
        error = self.adapt("G52 X5\n" * 12 + "M2\n")[2]
        self.assertEqual((error.count("B2 UnknownCode"), error.splitlines()[-1]),
                         (10, "and more: ngc-check out.ngc lists each"))

    def test_beginning(self) -> None:
        """Where the work zero lies counts for what is refused, and not for where arcs lie; nor do slots."""
        Path("low.toml").write_text(FIRST.replace("high_nm = [1000000000, 1000000000, 1000000000]",
                                                  "high_nm = [1000000000, 1000000000, 0]"))
        text = "G21 G17 F100\nG0 Z5\nG2 X2 R1\nM2\n"
        status, _, error, _ = self.adapt(text, "--settings", "low.toml")
        self.assertEqual((status, error.split("\n")[0]), (1, "out.ngc:2: X2 OutsideTravel: G0 Z5"))
        status, _, error, new = self.adapt(text.replace("G0 Z5", "T9"), "--settings", "low.toml")
        self.assertEqual((status, error.split("\n")[0]), (1, "out.ngc:2: B14 BadSlot: T9"))
        self.assertEqual(new, b"G21 G17 F100\nT9\nG2 X2 I1 J0\nM2\n")
        status, _, error, new = self.adapt(text, "--settings", "low.toml", "--origin", "0", "0", "-5")
        self.assertEqual((status, error, new), (0, "", b"G21 G17 F100\nG0 Z5\nG2 X2 I1 J0\nM2\n"))

    def test_warning(self) -> None:
        """A G28 that stays is warned of."""
        self.assertEqual(self.adapt("G28\nM2\n")[1], "line 1: WARNING: G28 moves all three axes to the home, in one"
                         " straight line; it is left as it is\nno line is changed\n")

    def test_whole_text(self) -> None:
        """A mark, a missing newline and end, carriage returns, other encodings: all is written as `ngc` reads it."""
        for old, new, said in (
                (b"\xef\xbb\xbfG21 ;\xc3\xbc\r\nM30\r", "G21 (\xfc)\r\nM30\r\n", "the byte order mark before line 1"),
                ("G21 (\u20ac)\nM2\n".encode("utf-16"), "G21 (\u20ac)\nM2\n", "it is UTF-16, and is written in UTF-8"),
                (b"G21 (\xfc)\rM2\r", "G21 (\xfc)\nM2\n", "letters beyond ASCII are read as Windows-1252")):
            status, said_now, error, written_now = self.adapt(old)
            self.assertEqual((status, error, written_now), (0, "", new.encode()))
            self.assertTrue(said_now.startswith(f"the text: {said}"), said_now)
        self.assertEqual(self.adapt("G21\n(end)")[1].splitlines()[:2], [
            "a newline is put at the end",
            "line 3: M2 is put there, since the text has neither M2 nor M30: see that nothing of it is missing"])
        self.assertEqual(self.adapt(b"\xff\xfeG")[:3], (
            2, "", "ngc-adapt: part.nc: it begins as UTF-16 does, and byte 2 isn't UTF-16: save it in UTF-8\n"))

    def test_shown(self) -> None:
        """What a terminal would obey is escaped in the list, and stays in the text; letters are what they are."""
        text = b"; x \x1b[31mred\x1b[2K\n;\xc3\x9c\nG52 X1 (\x1b[2J)\nM2\n"
        status, said, error, new = self.adapt(text)
        self.assertEqual((status, new), (1, b"(x \x1b[31mred\x1b[2K)\n(\xc3\x9c)\nG52 X1 (\x1b[2J)\nM2\n"))
        self.assertNotIn("\x1b", said + error)
        self.assertIn("  - ; x \\x1b[31mred\\x1b[2K\n  + (x \\x1b[31mred\\x1b[2K)\n", said)
        self.assertIn("  - ;\xdc\n  + (\xdc)\n", said)
        self.assertIn("G52 X1 (\\x1b[2J)\n", error)

    def test_files(self) -> None:
        """What can't be used is named, and nothing that is needed is written over."""
        self.assertEqual(self.adapt("M2\n", "--lift", "1e3")[0], 2)
        Path("first.toml").write_text("period_us = 1\n")
        for words, error in ((("none.nc",), "none.nc: No such file or directory"),
                             (("part.nc", "-o", "none/out.ngc"), "none/out.ngc: No such file or directory"),
                             (("part.nc", "--settings", "none.toml"), "none.toml: No such file or directory"),
                             (("part.nc", "-o", "part.nc", "--force"), "part.nc: it is what is read here"),
                             (("part.nc", "-o", "first.toml", "--force"), "first.toml: it is settings"),
                             (("part.nc", "-o", "old.ngc"), "old.ngc: it is there already; --force writes over it")):
            Path("old.ngc").write_text("old")
            done = told(main, *words, "--ngc", ngc())
            self.assertEqual(done[:2], (2, ""))
            self.assertTrue(done[2].startswith(f"ngc-adapt: {error}"), done[2])
        self.assertIn("first.toml: S2 MissingKey", told(main, "part.nc", "--settings", "first.toml", "--ngc", ngc())[2])
        self.assertEqual((Path("old.ngc").read_text(), Path("part.nc").read_text()), ("old", "M2\n"))
        self.assertEqual(told(main, "part.nc", "-o", "old.ngc", "--force", "--ngc", ngc())[0], 0)
        self.assertEqual(Path("old.ngc").read_text(), "M2\n")


if __name__ == "__main__":
    unittest.main()
