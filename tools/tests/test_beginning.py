"""Where a dry run begins: what a program does from there is what `ngc run` hands out over the same device."""
import shutil
import sys
from pathlib import Path

sys.path.insert(0, str(Path(__file__).resolve().parent))

from session_support import FIRST, InFolder, ngc

from ngc_tools.formats.canonical import MOTIONS, read_commands
from ngc_tools.formats.device import Device, NoDevice
from ngc_tools.formats.out import Dwell, Pulse, Switch, read_line
from ngc_tools.formats.settings import DEFAULT, Settings
from ngc_tools.formats.in_force import InForce
from ngc_tools.ngc.beginning import Beginning, CannotSetUp
from ngc_tools.ngc.console import Console
from ngc_tools.ngc.run import dry, refusal

COARSE = FIRST.replace("[1000, 1000, 1000]", "[10000, 10000, 10000]")  # fewer pulses
PROGRAMS = (
    "G4 P0\nX1 Y0.5\nG4 P0\nM2\n",
    "G0 X1 Y0.5\nG4 P0\nG0 Z1\nG4 P0\nG81 Z0.5 R1.5 F60\nG4 P0\nG80\nG54 G90 G0 X3\nG4 P0\nG92.3 G0 X2 Y2\nG4 P0\n"
    "G55 G0 X2 Z2\nG4 P0\nG53 G0 Z0\nG4 P0\nM2\n",
    "%\nG0 X0 Y0 Z0\nG2 X0.5 I0.25 F60\nG4 P0\nG28 X0\nG4 P0\n%\n",
)
STATES = {
    "as format leaves it": "",
    "the origin of G54": "mdi G10 L2 P1 X50 Y50.5 Z-60",
    "another system in force": "mdi G10 L2 P9 X-5 Y7\nmdi G59.3",
    "G92 in force": "mdi G0 X3 Y4 Z5\nmdi G92 X1 Y1 Z1",
    "G92 and an origin, G92 stored and cleared in turn": "mdi G10 L2 P2 X2\nmdi G55\nmdi G92 Y9\nmdi #5212=3",
    "a home": "mdi #5161=1.5 #5163=-2",
    "a tool length": "tool 1 12.5\ntool 2 62.5\nmdi T2 M6\nmdi G43 H2",
    "a tool length that its slot has no more": "tool 1 12.5\nmdi G43 H1\ntool 1 20",
    "inches": "mdi G20\nmdi F3",
    "incremental, left by a line of the operator": "mdi G0 X1 Y1\nmdi G91 G0 Z-5",
    "another plane, and cycles that end at R": "mdi G18 G99",
    "inverse time": "mdi F100\nmdi G93",
    "after a program's end": "mdi F500 G1 X0.5\nmdi M2",
    "an origin that was set after it was taken": "mdi G10 L2 P1 X5\nmdi #5221=7 #5241=2",
    "a spindle that turns, and coolant": "mdi S1000 M4\nmdi M8\nmdi M7",
    "a cycle in force": "mdi G81 X1 Z-0.5 R0.5 F60",
    "an arc's motion mode": "mdi G2 X0.5 I0.25 F60",
}


class SameAsRun(InFolder):
    """Each state, by lines of an operator; then a program by `ngc run`, and by a dry run from there."""

    def test_states(self) -> None:
        """Each point at which a dwell comes."""
        Path("first.toml").write_text(COARSE)
        for name, commands in STATES.items():
            with self.subTest(name):
                self.state(commands)
                for program in PROGRAMS:
                    wanted = self.handed_out(program)
                    begun = Beginning.of_device("mill.dev")
                    self.assertEqual(begun.notes, ())
                    self.assertEqual(self.points(begun, program), wanted)

    def state(self, commands: str) -> None:
        """A device after these commands, each done to its end."""
        self.device()
        replies = self.run_ngc("".join(f"{line}\ntick 1000000\n" for line in commands.splitlines()))
        self.assertFalse([reply for reply in replies if reply.startswith("refused")], replies)

    def handed_out(self, program: str) -> tuple[list[tuple[int, ...]], str]:
        """Where the machine stands at each dwell, by OUT over a copy, in nm; and the refusal, if there is one."""
        shutil.copy("mill.dev", "keep.dev")
        Path("out").write_bytes(b"")
        at = [nm // 10_000 for nm in Device.read("mill.dev").state.point_nm]
        replies = self.run_ngc(f"load {len(program)}\n{program}start\ntick 1000000\n")
        shutil.copy("keep.dev", "mill.dev")
        points = []
        for number, text in enumerate(Path("out").read_bytes().splitlines(), 1):
            line = read_line(text, number)
            if isinstance(line, Pulse):
                at = [at[0] + line.x, at[1] + line.y, at[2] + line.z]
            elif isinstance(line, Dwell):
                points.append(tuple(10_000 * steps for steps in at))
        refused = [reply for reply in replies if reply.startswith("refused")]
        return points, refused[0].removeprefix("refused ") if refused else ""

    def points(self, begun: Beginning, program: str) -> tuple[list[tuple[int, ...]], str]:
        """The same by a dry run."""
        status, text = begun.dry(ngc(), program.encode(), "first.toml")
        found = refusal(status, text)
        at, points = begun.point_nm, []
        for command in read_commands(text):
            at = command.point if command.name in MOTIONS else at
            points += [at] if command.name == "DWELL" else []
        return points, f"{found.code} {found.name}" if found else ""

    def test_outputs(self) -> None:
        """Spindle, coolant and tool are as the device has them: a cycle that stops the spindle starts it again."""
        self.state("tool 1 0\nmdi T1 M6\nmdi S800 M4\nmdi M8")
        begun = Beginning.of_device("mill.dev")
        said = begun.dry(ngc(), b"G86 X0 Z-1 R1 F100\nM2\n", "first.toml")
        self.assertEqual(said[0], 0)
        self.assertIn(b"START_SPINDLE_COUNTERCLOCKWISE()\n", said[1])
        self.assertEqual(begun.in_force(ngc(), "first.toml"),
                         InForce(spindle="START_SPINDLE_COUNTERCLOCKWISE", speed=800_000_000, flood=True, selected=1,
                                 tool=1))
        Path("out").write_bytes(b"")
        self.run_ngc("load 3\nM5\nstart\ntick 10\n")
        self.assertEqual(read_line(Path("out").read_bytes().splitlines()[0], 1), Switch(0, 800_000_000, 0, 1, 1, 1))


class Lines(InFolder):
    """Numbers of lines, slots, what can't be set up."""

    def test_refused_line(self) -> None:
        """It has its number in the program, in a percent program and at the end of the text too."""
        begun = Beginning.of_origin(50_000_000, 0, 0)
        move = b"STRAIGHT_TRAVERSE(51.000000, 0.000000, 0.000000)\n"
        for text, said in ((b"G0 X1\nQ1\n", move + b"REFUSED line 2: B12 UnusedWord\n"),
                           (b"", b"REFUSED line 1: X3 NoProgramEnd\n"),
                           (b"\n%\nG0 X1\nQ1", move + b"REFUSED line 4: B12 UnusedWord\n"),
                           (b"%", b"REFUSED line 2: X4 MissingPercent\n"),
                           (b" " * 257 + b"\n%\n", b"REFUSED line 1: E2 LineTooLong\n")):
            self.assertEqual(begun.dry(ngc(), text), (1, said), text)
        self.assertEqual(begun.dry(ngc(), b"% \r\nG0 X1\r\n%"), (0, move))

    def test_nothing(self) -> None:
        """From the fresh state it is `ngc dry`."""
        for begun in (Beginning(), Beginning.of_origin(0, 0, 0)):
            self.assertEqual(begun.dry(ngc(), b"G0 X1\nM2\n"), dry(ngc(), b"G0 X1\nM2\n"))
            self.assertEqual(begun.in_force(ngc()), InForce())
        self.device()
        self.assertEqual(Beginning.of_device("mill.dev").dry(ngc(), b"G0 X1\nM2\n"), dry(ngc(), b"G0 X1\nM2\n"))

    def test_slots(self) -> None:
        """The slots are those of the device; a length in force that none has any more doesn't add one."""
        self.device()
        self.run_ngc("tool 1 12.5\nmdi G43 H1\ntick 9\ntool 1 20\n")
        begun = Beginning.of_device("mill.dev")
        for line in (b"T2", b"G43 H2", b"G0 X1 T2"):
            text = b"G0 Z1\n(G43 H2)\n" + line + b"\nG0 Z2\nM2\n"
            self.assertEqual(begun.dry(ngc(), text, "first.toml"),
                             (1, b"STRAIGHT_TRAVERSE(0.000000, 0.000000, 13.500000)\nCOMMENT(G43 H2)\n"
                                 b"REFUSED line 3: B14 BadSlot\n"))
        self.assertEqual(begun.dry(ngc(), b"G43 H1\nG0 Z1\nM2\n")[1].splitlines()[:2],
                         [b"USE_TOOL_LENGTH_OFFSET(20.000000)", b"STRAIGHT_TRAVERSE(0.000000, 0.000000, 21.000000)"])

    def test_notes(self) -> None:
        """A half-done block, a point that isn't known, a point outside the travel."""
        self.device()
        self.run_ngc("mdi G0 X0.5\ntick 1000\n")
        begun = Beginning.of_device("mill.dev")
        self.assertEqual(begun.notes_under(Settings.read("first.toml")), ())
        Path("none.toml").write_text(FIRST.replace("[1000000000, 1", "[0, 1"))
        self.assertEqual(begun.notes_under(Settings.read("none.toml")), (
            "the machine stands at X0.500000 Y0.000000 Z0.000000, outside the travel of the settings. Are they those of"
            " this machine?",))
        self.run_ngc("mdi G0 X2\ntick 10\nquit\n")
        self.assertIn("half-done", Beginning.of_device("mill.dev").notes[0])
        self.run_ngc("abandon\n")
        self.assertIn("reference X Y Z", Beginning.of_device("mill.dev").notes[0])

    def test_after_lines(self) -> None:
        """Lines before a program are of the dry run alone, over a device too."""
        self.device()
        self.run_ngc("mdi G10 L2 P1 X5\ntick 9\nmdi G91\ntick 9\n")
        stored, begun = Path("mill.dev").read_bytes(), Beginning.of_device("mill.dev")
        self.assertEqual(begun.dry(ngc(), b"G0 X1\nG0 X1\nQ1\n"),
                         (1, b"STRAIGHT_TRAVERSE(1.000000, 0.000000, 0.000000)\n"
                             b"STRAIGHT_TRAVERSE(2.000000, 0.000000, 0.000000)\nREFUSED line 3: B12 UnusedWord\n"))
        after = begun.after(["G90", "G18"], "the modes")
        self.assertEqual(after.dry(ngc(), b"G0 X1\nG0 X1\nQ1\n"),
                         (1, b"STRAIGHT_TRAVERSE(6.000000, 0.000000, 0.000000)\n"
                             b"STRAIGHT_TRAVERSE(6.000000, 0.000000, 0.000000)\nREFUSED line 3: B12 UnusedWord\n"))
        self.assertEqual(after.in_force(ngc()), InForce(plane="XZ", origin=(5_000_000, 0, 0)))
        self.assertEqual(Path("mill.dev").read_bytes(), stored)

    def test_not_set_up(self) -> None:
        """A line before the program that is refused; no device."""
        with self.assertRaisesRegex(CannotSetUp, "^the dry run can't begin with the modes: B14 BadSlot. Are the"
                                    " settings those of this machine\\?$"):
            Beginning().after(["G90", "T99"], "the modes").dry(ngc(), b"M2\n", "first.toml")
        with self.assertRaisesRegex(NoDevice, "^first.toml: not a device: [0-9]+ bytes"):
            Beginning.of_device("first.toml")
        with self.assertRaises(FileNotFoundError):
            Beginning.of_device("none.dev")

    def test_while_a_session_is_open(self) -> None:
        """A device that a session holds is read all the same."""
        self.device()
        console = Console(ngc(), "mill.dev", "first.toml", "out")
        self.addCleanup(console.kill)
        self.assertEqual([*console.ask("mdi G92 X5"), *console.ask("tick 10")], ["begun", "done 1", "idle", "ticks 2"])
        self.assertEqual(Beginning.of_device("mill.dev").dry(ngc(), b"G0 X5\nM2\n")[1].splitlines()[0],
                         b"STRAIGHT_TRAVERSE(0.000000, 0.000000, 0.000000)")

    def test_default_settings(self) -> None:
        """Those of docs/SETTINGS.md, and of FIRST, which it shows."""
        self.assertEqual(DEFAULT, Settings.read("first.toml"))
        self.assertEqual(DEFAULT.text(), FIRST)
