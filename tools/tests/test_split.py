"""ngc-split: the parts, by hand; what they do, by `ngc run` too; what can't be parted."""
import subprocess
import sys
import tempfile
import unittest
from pathlib import Path
from unittest.mock import patch

sys.path.insert(0, str(Path(__file__).resolve().parent))

from session_support import TOOLS, InFolder, ngc, told

from ngc_tools.ngc.console import Console
from ngc_tools.cli.split import main

MODES = "G17 G21 G54 G90 G94\n"
EXAMPLES = TOOLS.parent / "examples"

PART = """\
(a comment, so that the whole is longer than each of its parts, whose heads are some 200 bytes long)
(a comment, so that the whole is longer than each of its parts, whose heads are some 200 bytes long)
G21 G90 G17 G94 G55 G99
T1 M6
S1000 M4
G43 H1 G0 X0 Y0 Z5 M8
M49
G18 F120
G0 X1 Y1
G1 Z-1
X2
G0 Z5
G20 X0.1
G1 Z-0.05 F5
G0 Z0.2
X0
M30
"""
# Line 9 begins at Z5, where the highest cut begins, and so does line 13. After line 15 the tool stands at Z5.08,
# 0.2 inches.
PARTS = ["""\
(a comment, so that the whole is longer than each of its parts, whose heads are some 200 bytes long)
(a comment, so that the whole is longer than each of its parts, whose heads are some 200 bytes long)
G21 G90 G17 G94 G55 G99
T1 M6
S1000 M4
G43 H1 G0 X0 Y0 Z5 M8
M49
G18 F120
M2
""", """\
G17 G21 G40 G54 G80 G90 G94 G98
T1 M6
G55 G43 H1
G0 Z5.000000
G0 X0.000000 Y0.000000
S1000.000000 M4
M8
F120.000000
G18 G21 G90 G94 G99 M49
(part 2 of part.ngc, from line 9 on)
G0 X1 Y1
G1 Z-1
X2
G0 Z5
G20 X0.1
G1 Z-0.05 F5
G0 Z0.2
X0
M30
"""]
LIMIT = max(map(len, PARTS))


class Splits(InFolder):
    """Programs in parts."""

    def setUp(self) -> None:
        """In memory, where a sync costs nothing."""
        self.enterContext(patch.object(tempfile, "tempdir", "/dev/shm" if Path("/dev/shm").is_dir() else None))
        super().setUp()

    def split(self, text: str, *words: str, limit: int, status: int = 0) -> str:
        """What is said of a program, part.ngc."""
        Path("part.ngc").write_bytes(text.encode())
        found, out, error = told(main, "part.ngc", "--limit", str(limit), "--force", "--ngc", ngc(), *words)
        self.assertEqual(found, status, error)
        return error if status else out

    @staticmethod
    def parts() -> list[str]:
        """The parts that are there."""
        return [path.read_text() for path in sorted(Path().glob("part-*.ngc"), key=lambda path: (len(path.name), path))]

    def test_parts(self) -> None:
        """To the byte: with each mode that there is."""
        said = self.split(PART, limit=LIMIT)
        self.assertEqual(self.parts(), PARTS)
        self.assertEqual(said, f"part-1.ngc: lines 1 to 8, {len(PARTS[0])} bytes, from where the machine stands\n"
                               f"part-2.ngc: lines 9 to 17, {len(PARTS[1])} bytes, from X 0.000000 Y 0.000000"
                               " Z 5.000000 of the program\n2 parts do what the whole does, by ngc dry at two"
                               " work offsets and two tool lengths. Clear a G92 of the device first, by G92.1\n")
        self.assertIn("no traverse ends above the work", self.split(PART, limit=LIMIT - 1, status=1))

    def pulses(self, programs: list[str]) -> list[bytes]:
        """The pulses and waits that `ngc run` hands out for programs, one after the other."""
        subprocess.run([ngc(), "format", "mill.dev"], check=True)
        Path("out").unlink(missing_ok=True)
        console = Console(ngc(), "mill.dev", "first.toml", "out")
        self.addCleanup(console.kill)
        console.ask("tool 1 50")
        for program in programs:
            self.assertIn("done", console.load(program.encode()))
            self.assertEqual(console.ask("start"), ["going"])
            while "idle" not in (replies := console.ask("tick 1000000")):
                self.assertFalse([reply for reply in replies if reply.startswith(("refused", "stopped"))])
        self.assertEqual(console.quit(), 0)
        return [line for line in Path("out").read_bytes().splitlines() if not line.startswith(b"S")]

    def over_device(self, text: str, limit: int, *commands: str, words: tuple[str, ...] = (), status: int = 0) -> str:
        """What is said of a program that is parted for a device, after some commands."""
        subprocess.run([ngc(), "format", "mill.dev"], check=True)
        console = Console(ngc(), "mill.dev", "first.toml", "out")
        self.addCleanup(console.kill)
        for command in commands:
            replies = console.ask(command) + console.ask("tick 1000000")
            self.assertFalse([reply for reply in replies if reply.startswith("refused")])
        self.assertEqual(console.quit(), 0)
        return self.split(text, "--device", "mill.dev", "--settings", "first.toml", *words, limit=limit, status=status)

    def test_work_offset(self) -> None:
        """Over a device with another work offset and another tool length the parts make the pulses of the whole."""
        rows = "".join(f"G0 X{x / 50} Y0\nG1 Z-0.1\nG1 Y0.05\nG0 Z0.5\n(row {x}, {'x' * 60})\n" for x in range(9))
        text = f"{MODES}T1 M6\nG43 H1\nS8000 M3\nF6000\nG0 Z0.5\n{rows}M30\n"
        said = self.over_device(text, 600, "tool 1 62.5", "mdi G10 L2 P1 X5 Y7 Z-60")
        # of each row up to 20 pulses in X, 50 in Y there and 50 back, 600 down and 600 up; 2,500 at most to its Z0.5
        self.assertRegex(said, r"3 parts do what the whole does, by ngc run over a copy of mill.dev: 2\d,\d{3} pulses")
        self.assertEqual([part.count("G43 H1\nG0 Z0.500000\nG0 X") for part in self.parts()], [0, 1, 1])
        self.assertNotIn("G53", "".join(self.parts()))

    def test_left_to_the_device(self) -> None:
        """A G92 and a work offset of the device, which M2 at a part's end drops, are found; G54 and G55 are named."""
        rows = "".join(f"G0 X{x / 50} Y0 Z0.5\nG1 Z-0.1\n({'x' * 90})\n" for x in range(9))
        text = f"G21 G90\nF6000\n{rows}M2\n"
        wrong = "over the device the parts make other pulses than the whole"
        self.assertIn(wrong, self.over_device(text, 600, "mdi G92 X1", status=1))
        self.assertIn("named in part 1, since the program leaves it open: G54 G17 G94\n", self.over_device(text, 600))
        self.over_device(text, 600, "mdi G10 L2 P2 X3", "mdi G55", words=("--system", "G55"))
        self.assertTrue(all(part.startswith(("G55 G17 G94\n", "G17 G21 G40 G54 ")) for part in self.parts()))
        self.assertTrue(all("\nG55\nG0 Z" in part for part in self.parts()[1:]))

    def test_where_the_machine_stands(self) -> None:
        """A part doesn't begin where an axis is still where the machine stood: its head can't name that."""
        rows = "".join(f"G0 Y{y} Z1\nG1 Z-1\nG0 Z1\n({'x' * 90})\n" for y in range(9))
        self.assertIn("no traverse ends above", self.split(f"{MODES}F600\n{rows}M2\n", limit=600, status=1))
        self.assertIn("parts do what", self.split(f"{MODES}F600\nG0 X1\n{rows}M2\n", limit=600))

    def test_machine_coordinates(self) -> None:
        """Nor where a traverse by G53 ends, which no work offset moves."""
        rows = "".join(f"G53 G0 X1 Y1 Z9\nG0 X2\nG1 X{x} Y0 Z-1\n({'x' * 99})\n" for x in range(9))
        self.assertIn("no traverse ends above", self.split(f"{MODES}F600\n{rows}M2\n", limit=600, status=1))

    def test_run(self) -> None:
        """`ngc run` hands out the same pulses for the parts as for the whole: cycles, a percent program, G91."""
        bolts = (EXAMPLES / "bolts.ngc").read_text().replace("F120", "F6000").replace("F80", "F6000")
        said = self.split(bolts, limit=400)
        self.assertIn("3 parts do what the whole does", said)
        self.assertTrue(all(part.startswith("%\n") and len(part) <= 400 for part in self.parts()))
        self.assertEqual(self.pulses(self.parts()), self.pulses([bolts]))

    def test_long(self) -> None:
        """A finishing pass of 400,000 bytes, under the device's limit, with arcs and a feed by inverse time."""
        lines = ["G21 G90 G17 G94 G54", "S8000 M3", "F900", "G0 Z5"]
        for row in range(100):
            lines += [f"G0 X0 Y{row / 10}", "G1 Z-0.5"]
            lines += [f"X{step / 8:.4f} Z{-0.5 - (step * row % 17) / 100:.4f}" for step in range(220)]
            lines += [f"G93 G2 X27.375 Y{row / 10 + 0.05} I0 J0.025 F60", "G94 F900", "G0 Z5"]
        self.split("\n".join([*lines, "M30"]) + "\n", limit=131_072)
        sizes = [len(part) for part in self.parts()]
        self.assertEqual(len(sizes), -(-sum(sizes) // 131_072))
        self.assertLessEqual(max(sizes), 131_072)
        self.assertEqual(sum(part.count("X27.3750 Z") for part in self.parts()), 100)

    def test_large(self) -> None:
        """For a large device a part has at most 1,048,576 bytes, and one program of so many is left whole."""
        comment = f"({'x' * 200})"
        row = "G0 X0 Y0 Z5\n" + f"G1 X1 Z-1 {comment}\nG1 X0 Z-2 {comment}\n" * 50
        lines = ["G21 G90 G17 G94 G54\n", "F6000\n", *[row] * 60]
        text = "".join(lines) + "G0 Z5\nM2\n"
        Path("part.ngc").write_text(text)
        words = ("part.ngc", "--large", "--ngc", ngc())
        status, said, error = told(main, *words)
        self.assertEqual((status, error), (0, ""))
        sizes = [len(part) for part in self.parts()]
        self.assertEqual(len(sizes), 2)
        self.assertGreater(sizes[0], 1_048_576 - len(row) - 300)
        self.assertLessEqual(max(sizes), 1_048_576)
        self.assertIn("2 parts do what the whole does", said)
        whole = text[:text.rindex("\n", 0, 1_048_560) + 1]
        Path("part.ngc").write_text(whole.ljust(1_048_573) + "\nM2")
        self.assertEqual(told(main, *words), (0, "part.ngc: 1,048,576 bytes: ngc run takes it as it is\n", ""))
        self.assertEqual(told(main, *words, "--limit", "9")[0], 2)

    def test_closing_percent(self) -> None:
        """A percent program that ends by its closing line alone, with carriage returns."""
        drills = "".join(f"G0 X{x} Y0 Z5\r\n({'x' * 100})\r\nG1 Z-1\r\nG0 Z5\r\n" for x in range(4))
        self.split(f"%\r\n{MODES}F60\r\n{drills}%\r\n", limit=450)
        first, second = (Path(f"part-{number}.ngc").read_bytes() for number in (1, 2))
        self.assertTrue(first.startswith(b"%\r\nG17 G21 ") and first.endswith(b"\r\nM2\n"))
        self.assertTrue(second.startswith(b"%\nG17 ") and second.endswith(b"G0 Z5\r\n%\r\n"))

    def test_tool_lengths(self) -> None:
        """Above the work counts from the tool's tip: a cut with a long tool doesn't make all places too low."""
        comment = f"({'x' * 200})\n"
        drills = "".join(f"G43 H{slot} G0 X{slot} Y0 Z2\nG1 Z-1 F60\nX5\nG0 Z2\nG49\n" for slot in (1, 0))
        self.split(f"{MODES}{comment}{drills}{comment}M2\n", limit=480)
        self.assertEqual([part.count("\nG0 Z2.000000\n") for part in self.parts()], [0, 1])

    def test_above(self) -> None:
        """Never parted below where a cut begins, but where it is told to."""
        pocket = (EXAMPLES / "pocket.ngc").read_text()
        self.assertIn("lines 6 to 68 have", self.split(pocket, limit=400, status=1))
        self.assertIn("2 parts", self.split(pocket, "--above", "-1", limit=400))
        self.assertIn("\nG0 Z-1.000000\n", "".join(self.parts()))

    def test_limit(self) -> None:
        """Bytes that are none."""
        self.assertIn("not a whole number of at most nine digits: -1", self.split("M2\n", limit=-1, status=2))

    def test_cannot(self) -> None:
        """What M2 between the parts takes away: G92, parameters, an origin by G10."""
        comments = "(so that it is longer than one part may be)\n" * 6
        for head, word in (("G92 X5", "X2"), ("#1=3", "X#1"), ("G10 L2 P1 X7\nG54", "X2")):
            text = f"{MODES}{head}\nG0 X1 Y0 Z5\nG1 Z-1 F60\nG0 Z5\n{comments}G1 {word} Z-1\nG0 Z5\nM2\n"
            said = self.split(text, limit=len(text) - 1, status=1)
            self.assertIn("the parts don't do what the whole does", said)
        self.assertEqual(self.parts(), [])

    def test_parameters(self) -> None:
        """A parameter that a part's head, or a line of a part, doesn't have."""
        comments = "(so that it is longer than one part may be)\n" * 6
        for before, after, wanted in (
                ("G43 H#1", "X2", "the parts don't do what the whole does, from its motion or stop 8 on, STRAIGHT_FEED:"
                 " does it set parameters, origins or G92?"),
                ("G0 X0", "X[1/#1]", "ngc refuses line 10 of a part: E5 BadArithmetic")):
            text = f"{MODES}#1=1\n{before}\nG0 X1 Y0 Z5\n{comments}G1 Z-1 F60\nG0 {after} Z5\nM2\n"
            said = self.split(text, "--above", "1", limit=len(text) - 1, status=1)
            self.assertEqual(said, f"ngc-split: part.ngc: {wanted}\n")

    def test_refused(self) -> None:
        """A line that `ngc` refuses is told; a short program needs no parts; files aren't written over."""
        self.assertTrue(self.split("G21\nG41 D1\nM2\n", limit=10, status=1).startswith(
            "ngc-split: part.ngc:2: B3 LeftOutCode\n"))
        self.assertEqual(self.split("M2\n", limit=10), "part.ngc: 3 bytes: ngc run takes it as it is\n")
        self.split(PART, limit=LIMIT)
        done = self.tool("ngc-split", "part.ngc", "--limit", str(LIMIT), "--ngc", ngc())
        self.assertEqual((done.returncode, done.stderr),
                         (2, "ngc-split: part-1.ngc: it is there already; --force writes over it\n"))
        done = self.tool("ngc-split", "part.ngc", "--limit", str(LIMIT), "--ngc", ngc(), "-o", "none/a")
        self.assertEqual((done.returncode, done.stderr), (2, "ngc-split: none/a-1.ngc: No such file or directory\n"))
        self.assertEqual(self.tool("ngc-split", "none.ngc", "--ngc", ngc()).stderr,
                         "ngc-split: none.ngc: No such file or directory\n")
        Path("first.toml").write_text("period_us = 1\n")
        done = self.tool("ngc-split", "part.ngc", "--settings", "first.toml", "--ngc", ngc())
        self.assertEqual(done.returncode, 2)
        self.assertIn("ngc-split: first.toml: S2 MissingKey: a key is missing\n    step_nm is missing: ", done.stderr)
        done = self.tool("ngc-split", "part.ngc", "--settings", "none.toml", "--ngc", ngc())
        self.assertEqual((done.returncode, done.stderr), (2, "ngc-split: none.toml: No such file or directory\n"))


if __name__ == "__main__":
    unittest.main()
