"""ngc-operate: a work zero and a tool's length from where the machine stands, and one step back.

machine = program + origin + G92 offset + tool length, the last on Z alone (docs/LANGUAGE.md), so an origin is the
machine's point less what the point is to be called, less that offset and length."""
import sys
import unittest
from pathlib import Path

sys.path.insert(0, str(Path(__file__).resolve().parent))

from machine_support import MachineLink
from session_support import InFolder, told
from test_documents import blocks, chapters
from test_operate import operate
from test_operator import Core, FileLink

from ngc_tools.cli.operate import main
from ngc_tools.operator.numbers import length_of, nanometres_of
from ngc_tools.operator.setter import Probe, Touches
from ngc_tools.operator.setter import Setter as TouchingOff

WHICH = "zero X Y Z: which axes are 0 here? zero Z 10 for another coordinate than 0"
LENGTH_0 = "Z is that of a tool of length 0: no tool length is in force"


class Zero(Core):
    """`zero`, and its `undo`."""

    def origin(self) -> tuple[int, int, int]:
        """The origin in force, in nm."""
        return self.operator.stored().state.origin_nm

    def test_axes(self) -> None:
        """The axes that are named are 0 here, or what stands behind one; the others stay. The line is shown."""
        self.begin()
        self.do("G0 X1.25 Y2 Z-3")
        at = "idle; X 1.250000 Y 2.000000 Z -3.000000"
        self.assertEqual(self.do("zero X Y"), [
            "G10 L2 P1 X1.25 Y2", at, "work X0.000 Y0.000 Z-3.000; G54 at X1.25 Y2 Z0",
            "G54: X1.25 Y2 Z0 (X0 Y0 Z0 before). undo puts it back"])
        self.assertEqual(self.do("ZERO z10", answers=("yes",)), [
            LENGTH_0, "G10 L2 P1 Z-13", at, "work X0.000 Y0.000 Z10.000; G54 at X1.25 Y2 Z-13",
            "G54: X1.25 Y2 Z-13 (X1.25 Y2 Z0 before). undo puts it back"])
        for typed, origin in (("zero x -.5y 0.25mm", (1_750_000, 1_750_000, -13_000_000)),
                              ("zero y 1in", (1_750_000, -23_400_000, -13_000_000)),
                              ("zero yxz", (1_250_000, 2_000_000, -3_000_000))):
            self.do(f"{typed} anyway")
            self.assertEqual(self.origin(), origin, typed)
        self.assertEqual(len(self.out()), 3000)  # of the move alone

    def test_other_system(self) -> None:
        """The system in force is set, and no other one."""
        self.begin()
        self.do("G10 L2 P1 X7", "G55", "G0 X3")
        self.assertIn("G10 L2 P2 X3", self.do("zero X"))
        self.assertEqual(self.face.asked, [])  # of the system in force it is near the one before
        self.do("G54")
        self.assertEqual(self.origin(), (7_000_000, 0, 0))
        self.assertEqual(self.do("undo")[0], "G10 L2 P2 X0 Y0 Z0")
        self.do("G55")
        self.assertEqual(self.origin(), (0, 0, 0))

    def test_offsets(self) -> None:
        """The tool length and a G92 offset are allowed for, and told of where they move the zero point later."""
        self.begin()
        self.do("tool 1 50", "T1 M6", "G0 X2 Z-10")
        self.assertEqual(self.do("zero Z 1", answers=("yes",))[:3], [
            LENGTH_0, "tool 1, in the spindle, is 50 mm long: Z0 moves once G43 H1 takes that. G43 H1 first, then zero,"
            " does without it", "G10 L2 P1 Z-11"])
        self.do("G43 H1")
        self.assertEqual(self.do("zero Z 1", answers=("yes",))[:3], [
            "Z is that of the tool's tip, by the tool length in force, 50 mm", "G10 L2 P1 Z-61",
            "idle; X 2.000000 Y 0.000000 Z -10.000000"])
        self.do("G92 X5")  # by 3 less than X2, which X was before
        self.assertEqual(self.do("zero X", "zero Y")[:3], [
            "a G92 offset is in force, X-3 Y0 Z0, and is allowed for. The program's end, M2 or M30, drops it, and the"
            " zero point moves by it: G92.1 first, then zero, does without it", "G10 L2 P1 X5",
            "idle; X 2.000000 Y 0.000000 Z -10.000000"])
        self.assertIn("work X0.000 Y0.000 Z1.000; G54 at X5 Y0 Z-61, G92 by X-3 Y0 Z0, tool length 50",
                      [text for _, text in self.face.said])

    def test_inches(self) -> None:
        """Under G20 a number says which it is, and the line has millimetres; the unit stays."""
        self.begin()
        self.do("G0 X2.54", "G20")
        self.assertEqual(self.do("zero X 0.1"), ["inches are in force (G20): write 0.1in, or 0.1mm"])
        self.assertEqual(self.do("zero X 0.05in Y2mm")[0], "#5221=1.27 #5222=-2 G10 L2 P1")
        self.assertEqual((self.origin(), self.operator.stored().state.unit), ((1_270_000, -2_000_000, 0), 20))
        self.do("zero X")
        self.assertEqual(self.origin()[0], 2_540_000)
        self.assertEqual(self.do("undo")[0], "#5221=1.27 #5222=-2 #5223=0 G10 L2 P1")
        self.assertEqual(self.origin(), (1_270_000, -2_000_000, 0))
        self.do("G55", "zero Z 1in anyway")
        self.assertEqual(self.origin(), (0, 0, -25_400_000))

    def test_modes(self) -> None:
        """Incremental distances, inverse time and a cycle's mode change nothing of it, and stay."""
        self.begin()
        self.do("G0 X4", "G91 G93", "G81 Z-1 R1 F1")
        before = self.operator.stored().state
        self.assertIn("G10 L2 P1 X4", self.do("zero X"))
        now = self.operator.stored().state
        self.assertEqual((now.distance, now.feed_mode, now.motion), (91, 93, before.motion))

    def test_far(self) -> None:
        """A zero that would be more than 5 mm from the one before is asked, each axis by itself; `anyway` isn't."""
        self.begin()
        self.do("G10 L2 P1 X1 Y1", "reference 6 3.25 -4")
        self.do("zero X Y", "zero Z")  # by 5, 2.25 and 4 mm
        self.assertEqual((self.face.asked, self.origin()), ([], (6_000_000, 3_250_000, -4_000_000)))
        self.do("reference 306.000001 3.25 -4")
        self.assertEqual(self.do("zero X Y", answers=("no",)), ["nothing is set"])
        self.assertEqual(self.face.asked, [
            "the zero of G54 would move in X by 300.000 mm: to machine X306.000001 Y3.25 from X6 Y3.25\n"
            "yes moves it: "])
        self.assertEqual(self.origin(), (6_000_000, 3_250_000, -4_000_000))
        self.do("zero X Y", answers=("yes",))
        self.assertEqual(self.origin(), (306_000_001, 3_250_000, -4_000_000))
        self.do("zero X 500 anyway")
        self.assertEqual((self.face.asked, self.origin()[0]), ([], -193_999_999))
        self.do("undo")
        self.assertEqual((self.face.asked, self.origin()[0]), ([], 306_000_001))

    def test_undo(self) -> None:
        """It takes one step back, once, and not where something else was set since."""
        self.begin()
        nothing = "nothing to undo: it takes back the last zero, touch or offset, once"
        self.assertEqual(self.do("undo"), [nothing])
        self.do("G0 X1", "zero X", "G0 X0.5", "zero X")
        self.assertEqual(self.operator.touch.undoes, "G10 L2 P1 X1 Y0 Z0")
        self.assertEqual(self.origin()[0], 1_500_000)
        self.assertEqual(self.do("undo")[0], "G10 L2 P1 X1 Y0 Z0")
        self.assertEqual((self.origin()[0], self.operator.touch.undoes), (1_000_000, ""))
        self.assertEqual(self.do("undo"), [nothing])
        self.do("zero Y", "G10 L2 P1 Y5")
        self.assertEqual(self.do("undo"), ["G54 isn't any more what was set: nothing is done. G10 L2 P1 X1 Y0 Z0 puts"
                                           " back what was before"])
        self.assertEqual(self.origin(), (1_000_000, 5_000_000, 0))

    def test_at_a_stop(self) -> None:
        """At M0 it changes what the program goes on with, and `run` asks."""
        self.begin()
        self.load("G21 G90 G54\nG0 X1\nM0\nG0 X2\nM2\n")
        self.do("run", "zero X")
        said = self.do("run", answers=("no",))
        self.assertIn("in force now: G54 at X1 Y0 Z0 (G54 at X0 Y0 Z0 before)", said)
        self.do("undo", "run")
        self.assertEqual(self.status().at[0], "2.000000")

    def test_refused(self) -> None:
        """What isn't understood, what `ngc` refuses, and where the machine's point isn't known: nothing is set."""
        self.begin()
        for typed, wanted in (("zero", WHICH), ("zero q", WHICH), ("zero x 5 5", WHICH), ("zero x x", "X stands twice"),
                              ("zero x--1", "not a number: --1"), ("zero x 1.1.1", "not a number: 1.1.1"),
                              ("zero x 1111111111111111111111111", "not a number: 1111111111111111111111111")):
            self.assertEqual(self.do(typed), [wanted], typed)
        self.assertIn("refused E3 OutOfRange", self.do("zero x 99999999 anyway")[1])
        self.assertEqual(self.origin(), (0, 0, 0))
        self.end()
        self.run_ngc("mdi G0 X0.005\ntick 3\nquit\n", "before")
        self.begin()
        self.assertEqual(self.do("zero x"), [
            "segment 0 of a line of yours is half-done. rehearse says what resume would do; reference X Y Z, then"
            " resume or abandon, and zero after that"])
        self.do("abandon")
        self.assertEqual(self.do("zero x"), ["it isn't known where the machine stands: reference X Y Z"])
        self.assertEqual(self.out(), [])

    def test_motors_elsewhere(self) -> None:
        """Nothing is set by a point at which the motors aren't, without `anyway`."""
        self.begin(FileLink("0.5 0 0"))
        self.assertEqual(self.do("zero X 1"), [
            "the player says that the motors are at X0.5 Y0 Z0, and ngc takes them to be at X0 Y0 Z0: 0.500 mm apart."
            " Nothing is done.\n  reference player takes the player's point; zero X 1 anyway goes on from ngc's"])
        self.assertEqual(self.origin(), (0, 0, 0))
        self.do("zero X 1 anyway")
        self.assertEqual(self.origin(), (-1_000_000, 0, 0))


class Tool(Core):
    """`touch tool N`, and its `undo`."""

    def lengths(self) -> list[int]:
        """The lengths of slots 1, 2 .., in nm."""
        return self.operator.stored().tools_nm

    def test_length(self) -> None:
        """A length is the machine's Z less the setter's height; G43 takes it later; `undo` gives the one before."""
        self.begin()
        self.do("tool 1 50", "G43 H1", "G0 G53 Z-20.5")
        self.operator.touch.setter_nm = -81_250_000
        self.assertEqual(self.do("touch tool 1", answers=("yes",)), [
            "machine Z is -20.5, and the setter's top is at -81.25", "tool 1 60.75", "done 4",
            "tool 1: 60.75 (50 before). undo puts it back",
            "G43 H1 takes it; a length that is in force stays until then"])
        self.assertEqual((self.lengths(), self.operator.stored().state.tool_length_nm), ([60_750_000], 50_000_000))
        self.assertEqual(self.do("undo"), ["tool 1 50", "done 5"])
        self.assertEqual(self.lengths(), [50_000_000])
        self.assertEqual(self.do("touch tool 2 -1.5in", answers=("yes",))[:2], [
            "machine Z is -20.5, and the setter's top is at -38.1", "tool 2 17.6"])
        self.assertIn("tool 2: 17.6 (no slot before). undo puts it back", [text for _, text in self.face.said])
        self.assertEqual(self.do("undo"), ["tool 2 0", "done 7"])  # a slot can't be taken away

    def test_far(self) -> None:
        """A length that is by more than 5 mm another one than before is asked, and so is a first one of which nothing
        says that the setter was touched."""
        self.begin()
        self.do("tool 1 20", "reference 0 0 -150")
        self.assertEqual(self.do("touch tool 1 -170.25"), [
            "machine Z is -150, and the setter's top is at -170.25", "tool 1 20.25", "done 3",
            "tool 1: 20.25 (20 before). undo puts it back",
            "G43 H1 takes it; a length that is in force stays until then"])
        self.do("reference 0 0 0")
        self.assertEqual(self.do("touch tool 1 -170.25", answers=("no",))[1:], ["nothing is set"])
        self.assertEqual(self.face.asked, ["tool 1 has 20.25 mm, and would get 170.25 mm, 150.000 mm longer\n"
                                           "yes sets it: "])
        self.do("touch tool 2 -6", answers=("no",))
        self.assertEqual(self.face.asked, ["tool 2 has no length yet, and gets 6 mm if it stands on the setter now\n"
                                           "yes sets it: "])
        self.assertEqual(self.lengths(), [20_250_000])
        self.do("touch tool 1 -10", answers=("yes",))
        self.do("touch tool 2 -6 anyway")
        self.assertEqual((self.face.asked, self.lengths()), ([], [10_000_000, 6_000_000]))

    def test_on_the_work(self) -> None:
        """On the work a length is the machine's Z less where the work has that coordinate, by the offsets in force and
        whatever length is; nobody asks for a setter."""
        self.begin()
        self.do("tool 1 50", "G43 H1", "G10 L2 P1 Z-30", "G0 G53 Z-20.5")
        self.assertEqual(self.do("touch tool 2 work 1.5", answers=("yes",))[:2], [
            "machine Z is -20.5, and the work there is at -28.5", "tool 2 8"])
        self.assertEqual(self.face.asked, ["tool 2 has no length yet, and gets 8 mm if it stands on the work now\n"
                                           "yes sets it: "])
        self.do("touch tool 2 work 0.1in")
        self.assertEqual((self.face.asked, self.lengths()), ([], [50_000_000, 6_960_000]))
        self.do("G92 Z5")  # Z was -40.5: the work's zero is 45.5 mm lower by that
        self.do("touch tool 2 work 0", answers=("yes",))
        self.assertEqual(self.face.asked, ["tool 2 has 6.96 mm, and would get 55 mm, 48.040 mm longer\nyes sets it: "])
        self.assertEqual((self.lengths(), self.operator.stored().state.tool_length_nm),
                         ([50_000_000, 55_000_000], 50_000_000))
        self.do("undo")
        self.assertEqual(self.lengths(), [50_000_000, 6_960_000])

    def test_no_gaps(self) -> None:
        """The slots below one that gets a length have 0 then, which is told; not where that isn't taken."""
        self.begin()
        self.do("tool 1 20", "tool 5 -1", "tool 5 x", "tool 129 1", "touch tool 4 5 anyway")
        self.assertEqual(self.lengths(), [20_000_000])
        self.assertEqual(self.do("TOOL 4 7.5"), [
            "slots 2 to 3 have length 0 now, since the table has no gaps: measure before G43 takes that", "done 4"])
        self.assertIn("slot 5 has length 0 now, since the table has no gaps: measure before G43 takes that",
                      self.do("touch tool 6 -1 anyway"))
        self.assertEqual(self.lengths(), [20_000_000, 0, 0, 7_500_000, 0, 1_000_000])
        self.do("tool 3 8", "tool 8 9")
        self.assertEqual(self.lengths(), [20_000_000, 0, 8_000_000, 7_500_000, 0, 1_000_000, 0, 9_000_000])

    def test_refused(self) -> None:
        """A length that `ngc` refuses, a height that nobody knows, and a slot that was set since."""
        self.begin()
        self.assertEqual(self.do("touch tool 1"), [
            "at which machine Z does the bare spindle reach the setter's top? touch tool 1 HEIGHT, or height_um of"
            " [setter] in the file of --machine"])
        which = ("touch tool N: which slot's tool stands on the setter? touch tool 3, or touch tool 3 HEIGHT;"
                 " touch tool 3 work 0 where it stands on the work at Z0")
        for typed in ("touch", "touch 1", "touch tool", "touch tool x -1", "touch tool 1 2 3", "touch tool 1 work",
                      "touch tool 1 work 2 3"):
            self.assertEqual(self.do(typed), [which], typed)
        for typed in ("touch tool 1 up", "touch tool 1 work up"):
            self.assertEqual(self.do(typed), ["not a number: up"])
        self.assertIn("refused E3 OutOfRange", self.do("touch tool 1 5 anyway")[2])
        self.assertEqual(self.lengths(), [])
        self.do("touch tool 1 -5 anyway", "tool 1 6")
        self.assertEqual(self.do("undo"), [
            "tool 1 isn't any more what was set: nothing is done. tool 1 0 puts back what was before"])

    def test_other_tool(self) -> None:
        """Where another tool is in the spindle, by `ngc`, a person is asked; none is no question."""
        self.begin()
        self.do("touch tool 1 -5 anyway", "T1 M6", "tool 2 3")
        self.do("touch tool 2 -4", answers=("no",))
        self.assertEqual(self.face.asked, ["tool 1 is in the spindle, by its last M6. yes gives slot 2 the length: "])
        self.assertEqual(self.lengths(), [5_000_000, 3_000_000])
        self.do("touch tool 2 -4", answers=("yes",))
        self.do("touch tool 1 -7", "touch tool 2 -8 anyway")
        self.assertEqual(self.lengths(), [7_000_000, 8_000_000])

    def test_held(self) -> None:
        """What `ngc` takes at rest alone is refused with what to do."""
        self.begin()
        self.load("G21 G90\nG0 X1\nG0 X2\nM2\n")
        self.hold_after(1)
        self.do("run")
        self.assertIn("held", self.status().does)
        self.assertIn("run goes on", self.do("touch tool 1 -5")[-1])
        self.assertEqual(self.lengths(), [])


class ByProbe(Core):
    """What is set by the point at which the probe was touched: once, and as long as nothing moved since."""

    NOT = "the probe wasn't touched since the machine moved last, or its place was used: seek Z- RATE within MM"

    def setUp(self) -> None:
        """A player that makes moves, with a probe at Z -5 and 0.02 mm of way after it."""
        super().setUp()
        self.begin(MachineLink())

    def seek(self) -> None:
        """The probe is touched, from above."""
        self.do("jog Z+ 600 for 1", "seek Z- 60 within 10")

    def test_once(self) -> None:
        """The place where it was touched counts once."""
        self.seek()
        self.assertEqual(self.do("zero Z -.5 Probe")[:2], [LENGTH_0, "G10 L2 P1 Z-4.5"])
        self.assertEqual((self.face.asked, self.do("zero Z probe")), ([], [self.NOT]))
        self.seek()
        self.assertIn("the probe was touched at machine Z -5, and the setter's top is at -60",
                      self.do("touch tool 1 -60 probe"))
        self.assertEqual(self.face.asked, [])  # it was touched, and there is no length before
        self.assertEqual(self.do("touch tool 1 -60 probe"), [self.NOT])
        self.assertEqual(self.operator.stored().tools_nm, [55_000_000])

    def test_refused_first(self) -> None:
        """What isn't set doesn't use it up."""
        self.seek()
        self.do("zero Z 20 probe", answers=("no",))
        self.assertIn("G10 L2 P1 Z-4.5", self.do("zero Z -0.5 probe"))

    def test_moved(self) -> None:
        """After any motion it is gone: a jog away and back, a line, also one that ends where it began, home."""
        for moves in (("jog X+ 600 for 1",), ("jog X+ 600 for 1", "jog X- 600 for 1"), ("G91 G0 X.01",),
                      ("G91 G0 X.01", "G0 X-.01"), ("home",), ("reference 0 0 0 anyway",)):
            self.seek()
            self.do("G90", "G54")  # lines that move nothing
            self.assertIsNotNone(self.operator.moves.touched_now(), moves)
            self.do(*moves)
            self.assertEqual(self.do("zero Z probe"), [self.NOT], moves)
            self.assertEqual(self.do("touch tool 1 -60 probe"), [self.NOT], moves)
        self.assertEqual((self.operator.stored().tools_nm, self.operator.stored().state.origin_nm), ([], (0, 0, 0)))

    def test_tool_changed(self) -> None:
        """A point that was touched with another tool than that in the spindle isn't taken."""
        self.do("tool 1 0", "tool 2 0", "T1 M6")
        self.seek()
        self.do("T2 M6")
        refused = ("the probe was touched with tool 1 in the spindle, and there is tool 2 now: seek Z- RATE within MM"
                   " again, or without the word probe from where the machine stands")
        self.assertEqual(self.do("touch tool 2 -9 probe"), [refused])
        self.assertEqual(self.operator.stored().tools_nm, [0, 0])

    def test_setter(self) -> None:
        """Where the machine has a probe, a setter that wasn't touched is none; one that was needs no word."""
        self.operator.touch.know(TouchingOff(-9_000_000, True))
        refused = ("the setter wasn't touched since the machine moved last, or its place was used: seek Z- RATE within"
                   " MM, and then touch tool 1; touch tool 1 anyway takes the machine's Z as it is")
        self.assertEqual(self.do("touch tool 1"), [refused])
        self.seek()
        self.assertIn("tool 1 4", self.do("touch tool 1"))
        self.assertEqual(self.do("touch tool 1"), [refused])
        self.assertEqual(self.do("touch tool 1 probe"), [refused])
        self.do("jog Z+ 600 for 2.02", "touch tool 1 anyway")
        self.assertEqual(self.operator.stored().tools_nm, [6_000_000])
        self.do("touch tool 1 work -8")  # the work is no setter: machine Z is -3
        self.assertEqual(self.operator.stored().tools_nm, [5_000_000])
        self.seek()
        self.do("jog Z+ 600 for 1", "touch tool 1 work -8 probe")
        self.assertEqual(self.operator.stored().tools_nm, [5_000_000])  # it moved since it was touched


class Setter(InFolder):
    """The table `[setter]`."""

    def test_read(self) -> None:
        """Its height; none without the table."""
        Path("motion.toml").write_text("[motion]\naccel_mm_s2 = [5, 5, 5]\n")
        self.assertEqual(TouchingOff.read("motion.toml"), TouchingOff(None, False))
        Path("motion.toml").write_text("[window]\n[setter]\nheight_um = -81_250  # by a ring gauge\n")
        self.assertEqual(TouchingOff.read("motion.toml"), TouchingOff(-81_250_000, False))
        Path("motion.toml").write_text("[inputs]\nprobe = 6\n[setter]\nheight_um = 5\n")
        self.assertEqual(TouchingOff.read("motion.toml"), TouchingOff(5000, True))

    def test_documented(self) -> None:
        """The table of docs/MACHINE.md, in nanometres."""
        Path("motion.toml").write_text("\n".join(blocks(chapters("MACHINE.md")["Probe and setter"])))
        found = TouchingOff.read("motion.toml")
        self.assertEqual((found.height_nm, found.at_nm), (-81_250_000, (140_000_000, 90_000_000, -5_000_000)))
        self.assertEqual((found.probe, found.touches), (Probe(9, 1_000_000), Touches(300, 30, 1_000_000, 50_000)))
        self.assertEqual(found.touches, Touches())
        self.assertEqual(Touches.of({"fast_mm_min": 1, "slow_mm_min": 2, "retract_um": 3, "agree_um": 4}),
                         Touches(1, 2, 3_000, 4_000))

    def test_wrong(self) -> None:
        """What can't be used is named, before anything is started."""
        self.device()
        takes = "setter: height_um takes a whole number of micrometres from -10000000 to 10000000"
        for text, wanted in (("setter = 5\n", "setter isn't a table: [setter], and its keys below it"),
                             ("[setter]\nheight_um = 1.5\n", takes),
                             ("[setter]\nheight_um = true\n", takes), ("[setter]\nheight_um = 10000001\n", takes),
                             ("[setter]\nheight_mm = 1\n", "setter has a key that isn't one of its eight: height_mm")):
            Path("m.toml").write_text(text)
            words = operate("mill.dev", "first.toml", "out", "--machine", "m.toml")
            self.assertEqual(told(main, *words), (2, "", f"ngc-operate: m.toml: {wanted}\n"), text)
        self.assertFalse(Path("out").exists())

    def test_session(self) -> None:
        """The height of the file is that of `touch`."""
        self.device()
        Path("m.toml").write_text("[setter]\nheight_um = -7_000\n")
        done = self.tool("ngc-operate", *operate("mill.dev", "first.toml", "out", "--machine", "m.toml"),
                         text="touch tool 1 anyway\nquit\n")
        self.assertIn("machine Z is 0, and the setter's top is at -7\ntool 1 7\ndone 1\n", done.stdout)


class Numbers(unittest.TestCase):
    """Lengths as they are typed."""

    def test_lengths(self) -> None:
        """Millimetres and inches, in nanometres, rounded half away from zero; a text that is none."""
        for text, nm in (("1", 1_000_000), ("-.5mm", -500_000), ("1IN", 25_400_000), ("0.0000005in", 25),
                         ("-0.0001in", -2_540), ("0.0000005", 1), ("000000000000000000000007", 7_000_000)):
            self.assertEqual(length_of(text), nm, text)
        for text in ("", "mm", "in", "1 in", "1inch", "x", "1e3", "9" * 13, "٣"):
            self.assertIsNone(length_of(text), text)
        self.assertIsNone(nanometres_of("1mm"))


if __name__ == "__main__":
    unittest.main()
