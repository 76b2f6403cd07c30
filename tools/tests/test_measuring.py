"""A tool measured on the setter, by itself and at a tool change: nothing moves past what was said, by the machine's
model."""
import sys
import unittest
from collections.abc import Callable
from pathlib import Path
from typing import NamedTuple

sys.path.insert(0, str(Path(__file__).resolve().parent))

from bench_support import REST, Bench
from test_moves import _AT_PULSE, _CHANCE, _PULSES, _TURNED, BOX, PROBE, World

from ngc_tools.formats.lines import Program
from ngc_tools.operator.setter import Setter

TOP = -30_000
"""The setter's top, in steps of 1 um: a tool of length 0 touches it at machine Z-30."""
SETTER = ((38_000, 28_000, -60_000), (42_000, 32_000, TOP))
FROM = "measure from 5 within 25"
"""From machine Z5 to Z-20: tools of 10 to 35 mm."""
JOB = """G21 G90 G17 G54 G94
G0 X1 Y1

(a remark)
G0 X2
T2 M6 (end mill)
G43 H2
G0 X3 Z1
M2
"""


class Measured(Bench):
    """The setter stands where the machine's file says; the tools 2 and 3 are 15 and 30 mm long, which nobody told."""

    words = ("--untimed",)
    SAYS = ("measure tool {slot}: from machine X0 Y0 Z0 up to Z35, over to X40 and then to Y30, down to Z5, where the"
            " setter is sought to Z-20 at most, and back the same way. No move leaves that; measure from Z within MM"
            " says it otherwise\n")
    YES = "yes measures, anything else moves nothing: "

    def setUp(self) -> None:
        """Its setter, and what is kept of it."""
        super().setUp()
        self.world.solid(0, BOX, *SETTER)
        self.do(FROM)

    def lengths(self) -> list[int]:
        """Those of the table, in um."""
        return [nm // 1000 for nm in self.operator.stored().tools_nm]

    def rests_at_setter(self) -> None:
        """It stands over the setter, not below what was said."""
        self.stays_within((0, 0, -20_000), (40_000, 30_000, 35_000))

    def test_by_itself(self) -> None:
        """Up, over, down, a touch, and back; the length is that of the tool, and `undo` puts back the one before."""
        self.do("tool 3 28", "T3 M6")
        self.world.forget_reached()
        said = self.do("measure", answers=("yes",))
        self.assertEqual(self.face.asked, [self.SAYS.format(slot=3) + self.YES])
        self.assertIn("the setter was touched at machine Z 0, and its top is at -30", said)
        self.assertEqual(self.lengths()[2], 30_000)
        self.assertEqual((self.world.place, self.status().at), ((0, 0, 0), ("0.000000",) * 3))
        self.stays_within((0, 0, -REST), (40_000, 30_000, 35_000))
        self.do("undo")
        self.assertEqual(self.lengths()[2], 28_000)

    def test_way(self) -> None:
        """It goes up before it goes over, there and back, and along X first, and back along X last: so over a wall that
        its end would meet lower down, and round a post that stands over there."""
        self.do("tool 3 28", "T3 M6")
        for wall in (((20_000, -9_000, -60_000), (22_000, 40_000, 4_000)),
                     ((-5_000, 20_000, -60_000), (5_000, 40_000, 50_000))):
            self.world.solid(1, BOX, *wall)
            self.do("tool 3 28")
            self.world.forget_reached()
            said = self.do("measure", answers=("yes",))
            self.assertEqual((self.lengths()[2], self.world.place), (30_000, (0, 0, 0)), said)
            self.stays_within((0, 0, -REST), (40_000, 30_000, 35_000))

    def test_far(self) -> None:
        """A length that is by more than 5 mm another one is asked."""
        self.do("tool 3 12", "T3 M6")
        said = self.do("measure", answers=("yes", "no"))
        self.assertEqual(self.face.asked[1], "tool 3 has 12 mm, and would get 30 mm, 18.000 mm longer\nyes sets it: ")
        self.assertEqual((said[-1], self.lengths()[2]), ("nothing is set", 12_000))

    def test_asked_once(self) -> None:
        """Where nothing is kept the height is asked, and kept; what can't be gone isn't."""
        Path("mill.dev.measure").unlink()
        self.do("T2 M6")
        self.world.forget_reached()
        for answers in (("",), ("x",), ("40", "3"), ("5", "0"), ("-40", "20")):
            self.assertIn("nothing moves: from a machine Z of at most 35", self.do("measure", answers=answers)[-1])
        self.assertFalse(Path("mill.dev.measure").exists())
        self.stays_within((0, 0, 0), (0, 0, 0))
        self.do("measure", answers=("5", "25", "yes"))
        self.assertEqual(self.lengths()[1], 15_000)
        self.do("measure", answers=("yes",))
        self.assertEqual(self.lengths()[1], 15_000)
        Path("mill.dev.measure").write_text("something else")
        self.assertIn("isn't written over", self.do(FROM)[0])

    def test_longer(self) -> None:
        """A tool that is longer than was said: it is touched on the way down, and nothing goes on."""
        self.world.tool(2, 38_000)
        self.do("T2 M6")
        self.world.forget_reached()
        said = self.do("measure", answers=("yes",))
        self.assertEqual(said[0], "measure: the probe was touched on the way, at Z 8, where nothing may be: nothing"
                         " more moves")
        self.stays_within((0, 0, 0), (40_000, 30_000, 35_000))
        self.assertEqual((self.lengths()[1], self.world.place[:2]), (15_000, (40_000, 30_000)))
        self.assertGreaterEqual(self.world.place[2], 8_000 - REST)

    def test_missed(self) -> None:
        """A setter that isn't there, one that isn't plugged in, and a tool that is shorter than was said: it stops
        where that was said."""
        for change in (lambda: self.world.tool(2, 5_000), lambda: self.world.solid(0, 0, (0, 0, 0), (0, 0, 0))):
            change()
            self.do("T2 M6")
            self.world.forget_reached()
            self.assertEqual(self.do("measure", answers=("yes",))[0], "measure: the probe isn't touched within"
                             " 25.000000 mm: nothing more moves")
            self.rests_at_setter()
            self.assertEqual(self.lengths()[1], 15_000)
            self.do("jog Z+ 3000 for 20", "jog X- 3000 for 40", "jog Y- 3000 for 30")

    def test_in_the_way(self) -> None:
        """Something stands on the way over, as a clamp that the setter's wire is on: it stops there."""
        self.world.solid(1, BOX, (20_000, -5_000, -60_000), (22_000, 5_000, 25_000))
        self.do("T2 M6")
        self.world.forget_reached()
        self.assertIn("touched on the way, at X 20,", self.do("measure", answers=("yes",))[0])
        self.stays_within((0, 0, 0), (20_000 + 700, 0, 35_000), 700)  # from 1,500 mm a minute: 0.63 mm

    def test_not_begun(self) -> None:
        """What isn't known isn't used."""
        self.assertEqual(self.do("measure", answers=("no",)), [])
        self.assertEqual(self.do("measures on"), ["measures on"])
        self.assertIn("measure from Z within MM", self.do("measure x")[0])
        self.assertIn("measures on, or measures off", self.do("measures x")[0])
        self.assertTrue(self.operator.measuring.is_on)
        self.do("T0 M6")
        self.assertEqual(self.do("measure"), ["no tool is in the spindle, by its last M6: T1 M6 first"])
        self.operator.touch.know(Setter(None, True))
        self.assertEqual(self.do("measure"), ["the machine's file doesn't say where its setter is: height_um and at_um"
                                              " in its [setter]"])
        self.stays_within((0, 0, 0), (0, 0, 0))


class AtChange(Measured):
    """Within a program, behind its M6."""

    test_by_itself = test_far = test_asked_once = test_longer = test_missed = test_in_the_way = test_not_begun = None
    test_way = None
    ASKS = "it has {} mm by now, and continue goes on with that\nyes measures, anything else waits: "

    def load(self) -> None:
        """The job, whose tool 2 is 15 mm long by the table."""
        self.assertTrue(self.operator.load("part.ngc", JOB.encode()), self.face.said)
        self.do("G49", "tool 2 12")
        self.world.forget_reached()

    def z(self) -> str:
        """Where the program ended: Z1 of the work, by the length in force."""
        return self.status().at[2]

    def test_measured(self) -> None:
        """The program goes on with the length that was measured: G43 behind the change takes it."""
        self.load()
        self.do("run", answers=("yes",))
        self.assertEqual(self.face.asked, [
            self.SAYS.format(slot=2).replace("X0 Y0 Z0", "X2 Y1 Z0") + self.ASKS.format(12)])
        self.assertEqual((self.lengths()[1], self.status().does, self.status().place), (15_000, "idle", 0))
        self.assertEqual((self.z(), self.operator.stored().state.tool_length_nm), ("16.000000", 15_000_000))
        self.assertEqual(self.world.place, (3_000, 1_000, 16_000))
        self.stays_within((0, 0, -15_000 - REST), (40_000, 30_000, 35_000))

    def test_no(self) -> None:
        """It waits, and goes on with the length of before by `run`; with `measures off` nobody is asked."""
        self.load()
        self.do("run", answers=("no",))
        self.assertEqual((self.status().does, self.world.place), ("stopped", (2_000, 1_000, 0)))
        self.do("run")
        self.assertEqual((self.lengths()[1], self.z()), (12_000, "13.000000"))
        self.stays_within((0, 0, 0), (3_000, 1_000, 13_000))
        self.do("measures off", "run")
        self.assertEqual((self.face.asked, self.z()), ([], "13.000000"))

    def test_missed(self) -> None:
        """Where the setter is missed the program waits behind the change: what comes first is the person's."""
        self.load()
        self.world.solid(0, 0, (0, 0, 0), (0, 0, 0))
        said = self.do("run", answers=("yes",))
        self.assertIn("the program waits behind the tool change: run goes on", said)
        self.assertEqual((self.status().does, self.world.place), ("stopped", (40_000, 30_000, -20_000)))
        self.stays_within((0, 0, -20_000), (40_000, 30_000, 35_000))
        self.assertEqual(self.operator.session.program.number(self.status().place), 7)

    def test_not_asked(self) -> None:
        """A tool that is taken out, and the probe, aren't measured: the program goes on."""
        for slot in (0, 1):
            self.do("T3 M6", "G53 G0 X0 Y0 Z0")
            text = JOB.replace("T2 M6", f"T{slot} M6").replace("G43 H2", "G49").replace("X3 Z1", "X3 Z4")
            self.assertTrue(self.operator.load("part.ngc", text.encode()), self.face.said)
            self.do("run")
            self.assertEqual((self.face.asked, self.status().does), ([], "idle"))
            self.assertEqual(self.world.place, (3_000, 1_000, 4_000))

    def test_held(self) -> None:
        """Whoever holds at the question, or amid the way, ends it there; the program doesn't go on."""
        self.load()
        self.face.looks, self.face.holds_at = 0, 0
        agrees = self.face.agrees

        def hold_after(question: str) -> bool:
            self.face.looks, self.face.holds_at = 0, 6
            return agrees(question)

        self.face.agrees = hold_after
        said = self.do("run", answers=("yes",))
        self.face.holds_at = 0
        self.assertTrue(any("stopped: nothing more moves" in text for text in said), said)
        self.assertEqual(self.status().does, "stopped")
        self.assertEqual(self.lengths()[1], 12_000)


class WhileWaited(Bench):
    """Within a program, while its tool is waited for: where the motors were jogged, they go back first."""

    words = ("--untimed",)
    ASKS = ("the motors are at machine {}, and the lines go on from X2 Y1 Z0: {}down to Z0. Look whether that way is"
            " free, with the tool that is in\nyes goes back and on, anything else moves nothing: ")

    def runs(self, *before: str, answers: tuple[str, ...]) -> list[str]:
        """What is said as the job runs, by somebody who does this before the tool is in, and answers so."""
        self.do("G49", "tool 2 12", "measures off")
        self.assertTrue(self.operator.load("part.ngc", JOB.encode()), self.face.said)
        self.face.puts_in = [*before, "go"]
        self.face.holds_at = self.face.looks + 4_000  # some seconds, if the tool is never taken to be in
        self.world.forget_reached()
        return self.do("run", answers=answers)

    def is_through(self, low: tuple[int, ...], high: tuple[int, ...]) -> None:
        """The program came to its end, where it does without a jog, and the table stayed within this, in no body but
        by a touch."""
        self.assertEqual((self.status().does, self.status().at), ("idle", ("3.000000", "1.000000", "13.000000")))
        self.assertEqual(self.world.place, (3_000, 1_000, 13_000))
        self.stays_within(low, high)

    def test_back(self) -> None:
        """They go up, over and down to where the lines go on, by a yes, clear of what stands between; by a no they
        stay, and the tool isn't in."""
        agrees = self.face.agrees

        def stands_between(question: str) -> bool:
            self.world.solid(1, BOX, (3_500, -9_000, -60_000), (5_000, 9_000, 20_000))
            return agrees(question)

        self.face.agrees = stands_between
        self.runs("jog Z+ 600 for 3", "jog X+ 600 for 4", "jog Y- 600 for 2", "home", "go", answers=("no", "yes"))
        self.assertEqual(self.face.asked, [self.ASKS.format("X6 Y-1 Z3", "up to Z50, over to X2 and then to Y1, ")] * 2)
        self.is_through((0, -1_000, 0), (6_000, 1_000, 50_000))

    def test_up(self) -> None:
        """From above that place they go straight down."""
        self.runs("jog Z+ 600 for 3", answers=("yes",))
        self.assertEqual(self.face.asked, [self.ASKS.format("X2 Y1 Z3", "")])
        self.is_through((0, 0, 0), (3_000, 1_000, 13_000))

    def test_there(self) -> None:
        """Jogged there and back nobody is asked."""
        self.runs("jog Z+ 600 for 3", "jog Z- 600 for 3", answers=())
        self.assertEqual(self.face.asked, [])
        self.is_through((0, 0, 0), (3_000, 1_000, 13_000))

    def test_touched(self) -> None:
        """They seek the setter too; that place isn't one for a length, as nothing says which tool that was."""
        self.world.solid(0, BOX, (0, 0, -60_000), (9_000, 9_000, -23_000))
        agrees, kept = self.face.agrees, []

        def keeps(question: str) -> bool:
            kept.append(self.operator.moves.touched)
            return agrees(question)

        self.face.agrees = keeps
        said = self.runs("seek Z- 600 within 9", answers=("yes",))
        self.assertIn("and the lines go on from X2 Y1 Z0: up to Z0.", self.face.asked[0])
        self.assertIn("the probe was touched at X 2.000000 Y 1.000000 Z -3.000000", said)
        self.assertEqual(kept, [None])
        self.is_through((0, 0, -3_000 - REST), (3_000, 1_000, 13_000))

    def test_held(self) -> None:
        """A hold while the question stands holds the job. `run` goes on, and asks again before the tool is in."""
        agrees = self.face.agrees

        def hold(question: str) -> bool:
            self.face.holds_at = self.face.looks + 1
            return agrees(question)

        self.face.agrees = hold
        self.runs("jog Z+ 600 for 3", answers=("no",))
        self.assertEqual((self.status().does, self.world.place), ("held", (2_000, 1_000, 3_000)))
        self.assertEqual(self.do("jog Z+ 600 for 1")[-1], "jog Z+: held: release comes first")
        self.face.agrees, self.face.puts_in = agrees, ["go"]
        self.do("run", answers=("yes",))
        self.is_through((0, 0, 0), (3_000, 1_000, 13_000))


HELD = "G21 G90 G17 G54 G94\nG43 H2\nG0 X1 Y1 Z0\nG1 X9 F600\nM2\n"
"""Its line 4 is a cut of 8,000 pulses, at the height of the work's zero."""
OVER = 630
"""Steps of 1 um within which the motors rest behind a touch on the way over the setter, from 1,500 mm a minute."""


class Fault(NamedTuple):
    """What is wrong as tool 2, 15 mm long, is measured; why that ends; between which places it does then; and how deep
    the tool goes into the setter. All are steps of 1 um."""

    does: Callable[[World], None]
    why: str
    low: tuple[int, int, int]
    high: tuple[int, int, int]
    deepest: int = REST


def _sticks(world: World) -> None:
    """It comes on 1.5 mm before the touch, and stays on."""
    x, y, z = world.place
    way = 35_000 - z + abs(40_000 - x) + abs(30_000 - y) + 30_000 + 20_000
    world.set(_AT_PULSE, world.get(_PULSES) + way - 1_500)
    world.set(_TURNED, 1 << PROBE)


ABOVE = (40_000, 30_000)
FAULTS = {
    "no setter": Fault(lambda world: world.solid(0, 0, (0, 0, 0), (0, 0, 0)), "the probe isn't touched within 25.000000"
                       " mm: nothing more moves", (*ABOVE, -20_000), (*ABOVE, -20_000)),
    "never on": Fault(lambda world: world.touching(PROBE, is_dumb=True), "the probe isn't touched within 25.000000 mm:"
                      " nothing more moves", (*ABOVE, -20_000), (*ABOVE, -20_000), 5_000),
    "shorter": Fault(lambda world: world.tool(2, 9_999), "the probe isn't touched within 25.000000 mm: nothing more"
                     " moves", (*ABOVE, -20_000), (*ABOVE, -20_000)),
    "longer": Fault(lambda world: world.tool(2, 38_000), "the probe was touched on the way, at Z 8, where nothing may"
                    " be: nothing more moves", (*ABOVE, 8_000 - REST), (*ABOVE, 8_000)),
    "much longer": Fault(lambda world: world.tool(2, 66_000), "the probe was touched on the way, at Y 28, where nothing"
                         " may be: nothing more moves", (40_000, 28_000, 35_000), (40_000, 28_000 + OVER, 35_000),
                         OVER),
    "on at first": Fault(lambda world: world.put(PROBE, True), "the probe is on before it moves, and nothing may touch"
                         " it: nothing moves", (-1, -1, -1), (-1, -1, -1)),
    "sticks": Fault(_sticks, "the probe is on behind a touch, and nothing may touch it: nothing moves",
                    (*ABOVE, -15_000), (*ABOVE, -12_000)),
    "sooner again": Fault(lambda world: world.touching(PROBE, grows=300), "two touches differ: Z -15 by the fast one,"
                          " and -14.7 by the slow one. That counts for nothing", (*ABOVE, -15_000), (*ABOVE, -14_600)),
    "later again": Fault(lambda world: world.touching(PROBE, grows=-300), "the slow touch didn't come where the fast"
                         " one was, at Z -15, nor 0.05 mm behind it. That counts for nothing", (*ABOVE, -15_050),
                         (*ABOVE, -15_050))}
"""By hand: the setter's top is at Z-30, and it is sought from Z5 to Z-20; at Y it begins at 28."""


class EachWrong(Bench):
    """Each fault of tool and setter, wherever a tool is measured: it ends there, or where that was said, the length
    stays, and nothing goes on. Once all is well it is measured from there."""

    words = ("--untimed",)

    def setUp(self) -> None:
        """Tool 2 has 12 mm by the table."""
        super().setUp()
        self.do(FROM, "G49", "tool 2 12")
        self.well_again()

    def well_again(self) -> None:
        """All is well, and the machine goes back, up first."""
        self.world.touching(PROBE)
        self.world.put(PROBE, False)
        self.world.set(_AT_PULSE, 0)
        self.world.tool(2, 15_000)
        x, y, z = self.world.place
        if z < 0 or x or y:
            self.do(f"jog Z+ 3000 for {(50_000 - z) / 1000}")
        self.world.solid(0, BOX, *SETTER)
        for axis, at in (("X", x), ("Y", y), ("Z", self.world.place[2])):
            if at:
                self.do(f"jog {axis}{'-' if at > 0 else '+'} 3000 for {abs(at) / 1000}")
        self.assertEqual(self.world.place, (0, 0, 0))

    def refused(self, name: str, measure: Callable[[], list[str]], begun: tuple[int, ...] | None = None) -> None:
        """It ends by a fault, as that says; the length is that of before. It begins there, or where the machine is."""
        fault, stood = FAULTS[name], begun or self.world.place
        fault.does(self.world)
        self.world.forget_reached()
        said = measure()
        self.assertIn(f"measure: {fault.why}", said, name)
        self.assertEqual(len(self.face.asked), 1, self.face.asked)
        at, (deepest, least, greatest) = self.world.place, self.world.reached
        low, high = (stood, stood) if min(fault.low[:2]) < 0 else (fault.low, fault.high)
        self.assertTrue(all(a <= b <= c for a, b, c in zip(low, at, high)), (name, at))
        self.assertTrue(all(a <= b for a, b in zip((0, 0, min(0, max(-20_000, low[2] - REST))), least)), (name, least))
        self.assertTrue(all(a >= b for a, b in zip((40_000, max(at[1], 1_000), 35_000), greatest)), (name, greatest))
        self.assertLessEqual(deepest, fault.deepest, name)
        self.assertEqual(self.operator.stored().tools_nm[1], 12_000_000, name)

    def measured(self) -> None:
        """All is well: the length is 15 mm."""
        self.well_again()
        self.do("measure", answers=("yes",))
        self.assertEqual(self.operator.stored().tools_nm[1], 15_000_000)

    def test_at_rest(self) -> None:
        """By its command."""
        self.do("T2 M6")
        for name in ("on at first", "sticks", "later again"):
            self.refused(name, lambda: self.do("measure", answers=("yes",)))
            self.assertEqual(self.status().does, "idle")
            self.well_again()
        self.measured()

    def test_at_change(self) -> None:
        """Behind a program's M6: the program waits there, goes on with nothing by itself, and takes the new length."""
        for name in FAULTS.keys() - {"sticks"}:
            self.assertTrue(self.operator.load("part.ngc", JOB.encode()), self.face.said)
            self.refused(name, lambda: self.do("run", answers=("yes",)), (2_000, 1_000, 0))
            self.assertIn("the program waits behind the tool change: run goes on",
                          [text for _, text in self.face.said])
            self.assertEqual((self.status().does, self.operator.session.program.number(self.status().place)),
                             ("stopped", 7))
            self.well_again()
        self.measured()
        self.do("run", answers=("yes",))
        self.assertEqual((self.status().does, self.world.place), ("idle", (3_000, 0, 16_000)))

    def test_held_line(self) -> None:
        """For a tool that broke in a line: while that is held nothing is measured; once it is given up the new tool is,
        or isn't, and the program goes on from that line with its length, and does no line before it."""
        self.do("T2 M6", "G43 H2", "G0 X1 Y1 Z0")
        self.assertTrue(self.operator.load("part.ngc", HELD.encode()), self.face.said)
        self.face.holds_at = self.face.looks + 8
        self.do("run")
        self.face.holds_at = 0
        stood = self.world.place
        self.assertEqual((self.status().does, self.status().half, stood[1:]), ("held", "program", (1_000, 12_000)))
        said = self.do("measure")
        self.assertTrue(said[0].startswith("held in segment 0 of line 4: G1 X9 F600: run goes on;"), said)
        self.assertEqual((len(said), self.world.place), (1, stood))
        self.do("stop", answers=("yes",))
        self.assertEqual((self.status().does, self.status().half, self.world.place), ("idle", "none", stood))
        for name in ("shorter", "longer"):
            self.refused(name, lambda: self.do("measure", answers=("yes",)))
            self.well_again()
        self.measured()
        self.world.forget_reached()
        self.do("from 4", answers=("20", "600", "yes", "yes"))
        self.assertEqual((self.status().does, self.world.place), ("idle", (9_000, 1_000, 15_000)))
        self.stays_within((0, 0, 0), (9_000, 1_000, 20_000))

    def test_bounces(self) -> None:
        """A probe that bounces within what two touches may differ by gives the length as exactly; one that bounces
        farther is refused, or as far off at most. Nothing goes deeper than that."""
        self.do("T2 M6")
        for seed in range(3):
            for bounces in (30, 400):
                self.world.set(_CHANCE, 1 + seed)
                self.world.touching(PROBE, bounces=bounces)
                self.do("tool 2 12")
                self.world.forget_reached()
                self.do("measure", answers=("yes",))
                length = self.operator.stored().tools_nm[1] / 1e6
                self.assertTrue(abs(length - 15) <= bounces / 1000 or bounces == 400 and length == 12, (seed, length))
                self.stays_within((0, 0, -20_000), (40_000, 30_000, 35_000), REST + bounces)
                self.well_again()


class Changes(unittest.TestCase):
    """Where a program changes its tool."""

    def test_changes(self) -> None:
        """M6 in each way to write it, and what isn't one."""
        text = b"T1 M6\nM06\n(M6)\nG0 X6\nt2m6\nM60\nM61\nN5 T3 M 0 6 (x)\n/M6\nM6.5\n"
        self.assertEqual([Program(text).number(place) for place in Program(text).changes()], [1, 2, 5, 8, 9])


if __name__ == "__main__":
    unittest.main()
