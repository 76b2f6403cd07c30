"""Probing: each routine over a model of the work, and a probe that fails in each way: nothing moves past what was said.
"""
import sys
import unittest
from collections.abc import Callable
from pathlib import Path
from typing import NamedTuple

sys.path.insert(0, str(Path(__file__).resolve().parent))

from bench_support import REST, Bench
from machine_support import MachineLink
from test_moves import _AT_PULSE, _CHANCE, _PULSES, _TURNED, BOX, HOLE, POST, PROBE
from test_operator import Core

from ngc_tools.operator.routines import ROUTINES, Lengths, Plan
from ngc_tools.operator.setter import Probe, Setter

MM = 1_000
"""Steps of the machine."""
SIDE = ((5_000, 3_000, -30_000), (25_000, 23_000, -15_000))
"""A block whose lower corner is at X5 Y3; the tip of the probe, at Z-20, is below its top."""


class Routines(Bench):
    """Each over work that stands where it is said."""

    def probes(self, line: str, *answers: str) -> tuple[str, list[str]]:
        """What a routine found, and what is asked."""
        said = self.do(line, answers=answers or ("yes", "no"))
        found = [text for text in said if text.startswith(("probe ", "along "))]
        return "; ".join(found), self.face.asked

    def test_outside_corner(self) -> None:
        """Both faces: the ball's radius is taken off, and the place becomes the zero once it is agreed to."""
        self.world.solid(0, BOX, *SIDE)
        said, asked = self.probes("probe outside X+ Y+ within 10 along 10", "yes", "yes")
        self.assertEqual(said, "probe outside X+ Y+: machine X5 Y3; in G54 it is X5 Y3 by now")
        self.assertEqual(asked, [
            "probe outside X+ Y+: the probe stands before both faces of the corner, below their top, nearer to each"
            " than half of what it goes along them.\nWithin machine X from 0 to 10 (10.000 mm), Y from 0 to 10 (10.000"
            " mm) it moves, one axis at a time, and no move leaves that: until the probe is touched, at 600 mm a"
            " minute, and again at 60\nyes begins, anything else moves nothing: ",
            "outside X+ Y+: machine X5 Y3\nyes makes it X0 Y0 of G54, anything else leaves the zero: "])
        self.stays_within((0, 0, 0), (10_000, 10_000, 0))
        self.assertEqual((self.world.place, self.status().at), ((0, 0, 0), ("0.000000",) * 3))
        self.assertEqual(self.operator.stored().state.origin_nm, (5_000_000, 3_000_000, 0))
        self.do("undo")
        self.assertEqual(self.operator.stored().state.origin_nm, (0, 0, 0))

    def test_no(self) -> None:
        """Without a yes nothing moves; without a second one nothing is set."""
        self.world.solid(0, BOX, *SIDE)
        self.assertEqual(self.do("probe edge X+ within 6", answers=("no",)), ["nothing moves"])
        self.stays_within((0, 0, 0), (0, 0, 0))
        said = self.do("jog Y+ 600 for 5", "probe edge X+ within 6", answers=("yes", "no"))
        self.assertEqual(said[-1], "nothing is set")
        self.assertEqual(self.operator.stored().state.origin_nm, (0, 0, 0))

    def test_inside_corner(self) -> None:
        """Two walls, in the directions that are named."""
        self.world.solid(0, BOX, (-20_000, -50_000, -30_000), (-6_000, 50_000, 0))
        self.world.solid(1, BOX, (-50_000, 7_000, -30_000), (50_000, 20_000, 0))
        self.assertEqual(self.probes("probe inside Y+ X- within 8")[0],
                         "probe inside Y+ X-: machine X-6 Y7; in G54 it is X-6 Y7 by now")
        self.stays_within((-8_000, 0, 0), (0, 8_000, 0))

    def test_surface(self) -> None:
        """Z is that of the probe's tip, by its length."""
        self.world.solid(0, BOX, (-9_000, -9_000, -40_000), (9_000, 9_000, -24_000))
        said, _ = self.probes("probe surface within 5", "yes", "yes")
        self.assertEqual(said, "probe surface: machine Z-4; in G54 it is Z-24 by now")
        self.assertEqual(self.operator.stored().state.origin_nm, (0, 0, -24_000_000))
        self.stays_within((0, 0, -5_000), (0, 0, 0))

    def test_bore(self) -> None:
        """The middle, and how wide it is: a chord first, and then through the middle."""
        self.world.solid(0, HOLE, (1_500, -700), (8_000, -15_000))
        said, _ = self.probes("probe bore within 12")
        at, _, widths = said.partition("; ")
        self.assertEqual(at, "probe bore: machine X1.5 Y-0.7")
        self.assertIn("along X it is 15.930 and 16.000 mm wide", widths)  # 2 (sqrt(7^2 - 0.7^2) + 1) = 15.930
        self.assertIn("along Y it is 16.000 mm wide", widths)
        self.stays_within((-12_000, -12_000, 0), (12_000, 12_000, 0))

    def test_boss(self) -> None:
        """The same of a post, from above it: out, down, to it, up, and over to the other side."""
        self.world.solid(0, POST, (800, -600), (6_000, -22_000))
        said, asked = self.probes("probe boss size 12 within 4 down 5")
        self.assertIn("machine X0.8 Y-0.6", said)
        self.assertIn("12.000 mm wide; along Y it is 12.000 mm wide", said)
        self.assertIn("Within machine X from -10 to 10 (20.000 mm), Y from -10 to 10 (20.000 mm), Z from -5 to 0 (5.000"
                      " mm) it moves", asked[0])
        self.stays_within((-10_000, -10_000, -5_000), (10_000, 10_000, 0))
        self.assertEqual(self.world.place, (800, -600, 0))

    def test_web_and_pocket(self) -> None:
        """One axis of each."""
        self.world.solid(0, BOX, (-50_000, -4_500, -40_000), (50_000, 3_500, -22_000))
        self.assertIn("machine Y-0.5; in G54 it is Y-0.5 by now; along Y it is 8.000 mm wide",
                      self.probes("probe web y size 8 within 3 down 4")[0])
        self.stays_within((0, -7_000, -4_000), (0, 7_000, 0))
        self.do("jog Z+ 600 for 10", "jog Y- 600 for 9.5", "jog Z- 600 for 10")
        self.world.solid(1, BOX, (-50_000, -30_000, -40_000), (50_000, -14_500, -22_000))
        self.world.forget_reached()
        self.do("jog Z- 600 for 4")
        self.assertIn("machine Y-9.5; in G54 it is Y-9.5 by now; along Y it is 10.000 mm wide",
                      self.probes("probe pocket Y within 5")[0])
        self.stays_within((0, -15_000, -4_000), (0, -5_000, 0))

    def test_inches_and_offsets(self) -> None:
        """What is in force counts: another system, G92, and inches."""
        self.world.solid(0, BOX, (5_000, -9_000, -30_000), (9_000, 9_000, 0))
        self.do("G55", "G10 L2 P2 X1", "G92 X0.5", "G20")
        said, asked = self.probes("probe edge X+ within .25in", "yes", "yes")
        self.assertEqual(said, "probe edge X+: machine X5; in G55 it is X5.5 by now")
        self.assertIn("#5241=6.5 G10 L2 P2", [text for _, text in self.face.said])
        self.assertIn("a G92 offset is in force", "".join(text for _, text in self.face.said))
        self.stays_within((0, 0, 0), (6_350, 0, 0))


class Refusing(Bench):
    """What ends a routine: it stops where it is, says why, and nothing becomes a zero."""

    def refused(self, line: str, *answers: str) -> str:
        """Why a routine ends; the zero stays, and nobody is asked for it."""
        said = self.do(line, answers=answers)
        self.assertEqual(len(self.face.asked), len(answers), said)
        self.assertEqual(self.operator.stored().state.origin_nm, (0, 0, 0))
        return said[0]


class Wrong(Refusing):
    """A probe that fails, work that isn't where it is said, and a person who holds, at an edge."""

    EDGE = "probe edge X+ within 6"

    def setUp(self) -> None:
        """A face at X5."""
        super().setUp()
        self.world.solid(0, BOX, (5_000, -9_000, -30_000), (25_000, 9_000, 0))

    def test_bounces(self) -> None:
        """One that bounces within what two touches may differ by is as good as that; one that bounces farther is
        refused, or as far off at most; never past what was said."""
        found = []
        for seed in range(12):
            for bounces in (30, 400):
                self.world.set(_CHANCE, 1 + seed)
                self.world.touching(PROBE, bounces=bounces)
                said = self.do(self.EDGE, answers=("yes", "no")[:2 if bounces == 30 else 1])
                self.stays_within((0, 0, 0), (6_000, 0, 0), REST + bounces)
                at = [float(text.split("machine X")[1].split(";")[0]) for text in said if "machine X" in text]
                self.assertTrue(all(abs(x - 5) <= bounces / 1000 for x in at), said)
                found.append((bounces, bool(at)))
                self.do(f"jog X- 600 for {self.world.place[0] / 1000}" if self.world.place[0] else "where")
        self.assertTrue(all(is_found for bounces, is_found in found if bounces == 30))

    def test_on_the_way(self) -> None:
        """A clamp where the probe goes beside the corner: it stops there."""
        self.world.solid(1, BOX, (-2_000, 4_000, -30_000), (2_000, 9_000, 0))
        self.assertEqual(self.refused("probe outside X+ Y+", "yes"), "probe outside X+ Y+: the probe was touched on the"
                         " way, at Y 3, where nothing may be: nothing more moves")
        self.stays_within((0, 0, 0), (0, 3_000 + REST, 0))

    def test_wider(self) -> None:
        """A boss and a web that are wider than was said, below where it goes down: it stops at their top."""
        for kind, ends, line in ((POST, ((0, 0), (12_000, -22_000)), "boss size 12 within 4 down 5"),
                                 (BOX, ((-12_000, -9_000, -40_000), (12_000, 9_000, -22_000)),
                                  "web X size 12 within 4 down 5")):
            self.world.solid(0, kind, *ends)
            self.assertIn("the probe was touched on the way, at Z -2, where nothing may be: nothing more moves",
                          self.refused(f"probe {line}", "yes"))
            self.stays_within((-10_000, 0, -2_000 - REST), (0, 0, 0))
            self.do(f"jog Z+ 3000 for {-self.world.place[2] / MM}", "jog X+ 3000 for 10")
            self.world.forget_reached()

    def test_held(self) -> None:
        """Whoever holds ends it, in a move and between two, and nothing begins after that."""
        for looks in (1, 2, 3, 5, 8):
            self.face.looks, self.face.holds_at = 0, looks
            why = self.refused(self.EDGE, "yes")
            self.face.holds_at = 0
            self.assertRegex(why, "probe edge X.: stopped: nothing more moves")
            self.stays_within((0, 0, 0), (5_000, 0, 0))
            if x := self.world.place[0]:
                self.do(f"jog X- 600 for {x / 1000}")

    def test_not_begun(self) -> None:
        """What isn't known isn't used: the place, the tool, its length, the travel, a machine without a probe."""
        form = "probe edge X+ within 10: beside the edge, below its top"
        for typed in ("probe edge", "probe edge Z+", "probe edge X", "probe edge X+ within", "probe edge X+ within 0",
                      "probe edge X+ within 301", "probe edge X+ down 4", "probe edge X+ within 4 within",
                      "probe edge X+ Y+", "probe edge X+ within -4", "probe edge X+ within x"):
            self.assertEqual(self.refused(typed), form, typed)
        self.assertEqual(self.refused("probe"), "probe edge, outside, inside, surface, bore, boss, pocket, web: which"
                         " routine? probe outside X+ Y+ within 10 along 10")
        self.assertEqual(self.refused("probe outside X+ X-")[:20], "probe outside X+ Y+ ")
        self.assertEqual(self.refused("probe boss within 4")[:16], "probe boss size ")
        self.assertEqual(self.refused("probe edge X+ within 51"), "X would go to machine 51, and ends at 50: put the"
                         " probe elsewhere, or give shorter lengths")
        self.do("G49")
        self.assertEqual(self.refused("probe surface"), "Z would be that of a tool 0 mm long, and the probe, tool 1, is"
                         " 20 mm long: G43 H1 first")
        self.do("T2 M6")
        self.assertEqual(self.refused(self.EDGE), "tool 2 is in the spindle, by its last M6, and the probe is tool 1:"
                         " T1 M6 first")
        self.do("T1 M6", "reference 1 0 0 anyway", "reference 0 0 0 anyway")
        self.operator.touch.know(Setter(None, True))
        self.assertEqual(self.refused(self.EDGE), "the machine's file says nothing of a probe: probe_tool in its"
                         " [setter] names its slot of the tool table")
        self.stays_within((0, 0, 0), (0, 0, 0))

    def test_unknown_place(self) -> None:
        """Where the motors aren't where `ngc` takes them to be nothing is touched."""
        self.operator.session.meter.link.at("1 0 0")
        self.assertEqual(self.refused(self.EDGE), "it isn't known where the machine stands: reference player, or"
                         " reference X Y Z")

    def test_spindle(self) -> None:
        """With the spindle on the player takes no touch."""
        self.do("M3 S100")
        self.assertEqual(self.refused(self.EDGE, "yes"), "probe: the spindle or the coolant is on")
        self.stays_within((0, 0, 0), (0, 0, 0))


class First(NamedTuple):
    """A routine as it is typed, and before it the work, by kinds and ends; between which points it goes; and its first
    touch: what it goes before that, its axis, from where to where at most, and where the ball comes to the work. Its
    lengths are mm."""

    typed: str
    work: tuple[tuple[int, tuple[int, ...], tuple[int, ...]], ...]
    low: tuple[int, ...]
    high: tuple[int, ...]
    before: int
    axis: int
    begins: int
    ends: int
    touches: int

    @property
    def sign(self) -> int:
        """The direction of that touch."""
        return 1 if self.ends > self.begins else -1


FIRSTS = (
    First("edge Y- within 6", ((BOX, (-9, -25, -30), (9, -5, 0)),), (0, -6, 0), (0, 0, 0), 0, 1, 0, -6, -4),
    First("outside X- Y+ within 9 along 10", ((BOX, (-25, 3, -30), (-5, 23, -15)),), (-10, 0, 0), (0, 10, 0), 10, 0, 0,
          -9, -4),
    First("inside X+ Y- within 8", ((BOX, (6, -50, -30), (20, 50, 0)), (BOX, (-50, -20, -30), (50, -7, 0))),
          (0, -8, 0), (8, 0, 0), 0, 0, 0, 8, 5),
    First("surface within 5", ((BOX, (-9, -9, -40), (9, 9, -24)),), (0, 0, -5), (0, 0, 0), 0, 2, 0, -5, -4),
    First("bore within 12", ((HOLE, (0, 0), (8, -15)),), (-12, -12, 0), (12, 12, 0), 0, 0, 0, -12, -7),
    First("boss size 12 within 4 down 5", ((POST, (0, 0), (6, -22)),), (-10, -10, -5), (10, 10, 0), 15, 0, -10, -2,
          -7),
    First("pocket Y within 5", ((BOX, (-50, -30, -40), (50, -4, 0)), (BOX, (-50, 4, -40), (50, 30, 0))), (0, -5, 0),
          (0, 5, 0), 0, 1, 0, -5, -3),
    First("web Y size 8 within 3 down 4", ((BOX, (-50, -4, -40), (50, 4, -22)),), (0, -7, -4), (0, 7, 0), 11, 1, -7,
          -1, -5))
"""One of each kind, worked out by hand: the ball's radius is 1 mm, and its lowest point at machine Z-20."""


class EachWrong(Refusing):
    """Each kind of routine, and each fault of the probe."""

    def each(self, fault: Callable[[First], str], rests: Callable[[First], int] | None = None) -> None:
        """Each kind ends with the cause that the fault gives, within what was said. The ball goes no deeper into the
        work than the motors need to rest; but `rests` says where the axis of the first touch ends that nothing stops.
        """
        self.assertEqual({first.typed.split()[0] for first in FIRSTS}, set(ROUTINES))
        for first in FIRSTS:
            self.world.solid(1, 0, (0, 0, 0), (0, 0, 0))
            for number, (kind, *ends) in enumerate(first.work):
                self.world.solid(number, kind, *(tuple(MM * mm for mm in end) for end in ends))
            self.world.forget_reached()
            name, why = first.typed.partition(" within")[0].partition(" size")[0], fault(first)
            self.assertEqual(self.refused(f"probe {first.typed}", "yes"), f"probe {name}: {why}")
            low, high = (tuple(MM * mm for mm in end) for end in (first.low, first.high))
            self.stays_within(low, high, 99 * MM if rests else REST)
            if rests:
                self.assertEqual(self.world.place[first.axis], MM * rests(first), first.typed)
            self.assertEqual([float(at) for at in self.status().at], [at / MM for at in self.world.place])
            self.well_again()

    def well_again(self) -> None:
        """The probe is well, and the machine goes back, up first."""
        self.world.touching(PROBE)
        self.world.put(PROBE, False)
        self.world.set(_AT_PULSE, 0)
        ways = [(axis, -self.world.place[number]) for number, axis in ((2, "Z"), (0, "X"), (1, "Y"))]
        self.do(*(f"jog {axis}{'+' if way > 0 else '-'} 3000 for {abs(way) / MM}" for axis, way in ways if way))
        self.assertEqual(self.world.place, (0, 0, 0))

    def test_on_at_first(self) -> None:
        """One that is on before: nothing moves."""
        def fault(first: First) -> str:
            self.world.put(PROBE, True)
            return (f"the probe is on before it {'moves' if first.before else 'is sought'}, and nothing may touch it:"
                    " nothing moves")

        self.each(fault, lambda _: 0)

    def test_never(self) -> None:
        """One that never comes on: it ends where that was said."""
        def fault(first: First) -> str:
            self.world.touching(PROBE, is_dumb=True)
            return f"the probe isn't touched within {abs(first.ends - first.begins)}.000000 mm: nothing more moves"

        self.each(fault, lambda first: first.ends)

    def test_differ(self) -> None:
        """One whose second touch comes 0.3 mm before the first one, as a ball that is loose."""
        def fault(first: First) -> str:
            self.world.touching(PROBE, grows=300)
            axis, slow = "XYZ"[first.axis], round(first.touches - 0.3 * first.sign, 6)
            return (f"two touches differ: {axis} {first.touches} by the fast one, and {slow} by the slow one. That"
                    " counts for nothing")

        self.each(fault)

    def test_not_again(self) -> None:
        """One whose second touch would come 0.3 mm behind the first one."""
        def fault(first: First) -> str:
            self.world.touching(PROBE, grows=-300)
            return (f"the slow touch didn't come where the fast one was, at {'XYZ'[first.axis]} {first.touches}, nor"
                    " 0.05 mm behind it. That counts for nothing")

        self.each(fault)

    def test_stays_on(self) -> None:
        """One that comes on 1.5 mm before the work, and stays on."""
        def fault(first: First) -> str:
            way = first.before + abs(first.touches - first.begins)
            self.world.set(_AT_PULSE, self.world.get(_PULSES) + MM * way - 1_500)
            self.world.set(_TURNED, 1 << PROBE)
            return "the probe is on behind a touch, and nothing may touch it: nothing moves"

        self.each(fault)


class Ball(Bench):
    """How wide the ball is that a routine reckons with, at a face at X5; the model's is 2 mm wide."""

    def setUp(self) -> None:
        """The face."""
        super().setUp()
        self.world.solid(0, BOX, (5_000, -9_000, -30_000), (25_000, 9_000, 0))

    def found(self, *answers: str) -> str:
        """What is found of the edge, by these answers before the yes that begins."""
        return "; ".join(self.do("probe edge X+ within 6", answers=(*answers, "yes", "no")))

    def refused(self, *answers: str) -> str:
        """Why it isn't sought, by these answers."""
        return self.do("probe edge X+ within 6", answers=answers)[0]

    def test_by_table(self) -> None:
        """It is its slot's diameter in the tool table, whatever the model's is: half of it lies between the ball's
        middle, which stands at X4, and the face; a bore is wider by all of it than the ball goes there."""
        self.assertIn("machine X5;", self.found())
        self.do("shape 1 3 flat")
        self.assertIn("machine X5.5;", self.found())
        self.world.solid(0, HOLE, (0, 0), (8_000, -15_000))
        said = self.do("probe bore within 12", answers=("yes", "no"))
        self.assertIn("along Y it is 17.000 mm wide", said)  # 2 (8 - 1) + 3

    def test_asked(self) -> None:
        """Where nobody said it, it is asked before anything moves, and the table keeps it. A surface needs none."""
        self.do("shape 1 none")
        for answer in ("", "x", "0", "-2", "100.1"):
            self.assertEqual(self.refused(answer), "nothing moves: the ball of the probe is wider than 0 mm, and at"
                             " most 100")
        for typed in ("1", "1 6", "1 6 round", "1 6 v", "1 6 v 180", "1 6 flat 9", "1 0 flat", "1 x flat", "129 6 flat",
                      "x 6 flat", "1 6 flat none"):
            self.assertIn("shape N 6 flat: a slot,", self.do(f"shape {typed}")[0], typed)
        self.assertEqual(self.do("shape"), ["no tool has a shape"])
        self.assertEqual(self.do("shape 3 0.25in V 60", "shape 3 none"), ["T3: 6.35 mm v 60", "no tool has a shape"])
        self.do("probe surface within 5", answers=("no",))
        self.assertEqual([text[:14] for text in self.face.asked], ["probe surface:"])
        self.assertEqual(self.world.reached[1:], ((0, 0, 0), (0, 0, 0)))
        self.assertIn("machine X4.9;", self.found("1.8"))
        self.assertEqual(self.face.asked[0], "How wide is the ball of the probe, tool 1, in mm? The tool table keeps"
                         " that. Nothing ends: ")
        self.assertEqual(self.do("shape"), ["T1: 1.8 mm ball"])
        self.assertIn("machine X4.9;", self.found())

    def test_by_file(self) -> None:
        """A machine's file of before has its radius: that counts where the table has none. Where both differ, and where
        what the table has is no ball, it is said, and nothing moves."""
        Path("mill.toml").write_text(Path("mill.toml").read_text() + "probe_radius_um = 1200\n")
        self.operator.know(Setter.read("mill.toml"))
        differ = ("the ball of the probe, tool 1, is 2 mm wide by the tool table, and 2.4 mm by probe_radius_um of the"
                  " machine's file: correct the wrong one, or take that line out of the file")
        self.assertEqual(self.refused(), differ)
        self.do("shape 1 2.4 v 90")
        self.assertEqual(self.refused(), "tool 1, the probe, is a V by the tool table, and no ball: give it the ball's"
                         " diameter there")
        Path("first.shapes").write_text("T1 = 6\n")
        self.assertEqual(self.refused()[:13], "first.shapes:")
        self.assertEqual(self.world.reached[1:], ((0, 0, 0), (0, 0, 0)))
        for text in ("", '[T1]\ndiameter_nm = 2400000\ntip = "ball"\n'):
            Path("first.shapes").write_text(text)
            self.assertIn("machine X5.2;", self.found())


class Timed(Routines):
    """The same by the clock, for some."""

    words = ("--no-ask-tool",)
    test_outside_corner = test_boss = test_bore = test_inside_corner = test_web_and_pocket = None
    test_inches_and_offsets = None


class OffAgain(Core):
    """A player within the process, whose probe is never on where the motors rest."""

    def test_off_again(self) -> None:
        """A touch that is over where the motors come to rest is none."""
        self.begin(MachineLink())
        self.operator.touch.know(Setter(None, True, Probe(1)))
        self.do("tool 1 0", "T1 M6")
        self.assertEqual(self.do("probe surface within 9", answers=("yes",))[0], "probe surface: the probe was touched"
                         " at Z -5, and is off again where the motors came to rest: it bounced, or something else"
                         " touched it. That counts for nothing")


class Plans(unittest.TestCase):
    """What a routine says of itself."""

    def test_boxes(self) -> None:
        """How far each goes at most, by hand."""
        lengths = Lengths(within=4, along=9, size=20, down=3)
        for name, ways, box in (("edge", {1: -1}, ((0, 0), (-4, 0), (0, 0))),
                                ("outside", {0: -1, 1: 1}, ((-9, 0), (0, 9), (0, 0))),
                                ("inside", {0: -1, 1: 1}, ((-4, 0), (0, 4), (0, 0))),
                                ("surface", {}, ((0, 0), (0, 0), (-4, 0))),
                                ("bore", {}, ((-4, 4), (-4, 4), (0, 0))),
                                ("boss", {}, ((-14, 14), (-14, 14), (-3, 0))),
                                ("pocket", {0: 1}, ((-4, 4), (0, 0), (0, 0))),
                                ("web", {1: 1}, ((0, 0), (-14, 14), (-3, 0)))):
            plan: Plan = ROUTINES[name].plan(ways, lengths)
            self.assertEqual(plan.box, box, name)


if __name__ == "__main__":
    unittest.main()
