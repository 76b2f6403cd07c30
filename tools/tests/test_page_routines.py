"""Each of the probe's routines on its page, over work to touch: its picture, its direction, between which places it
says that it goes, a probe that fails on it, what it finds, and the zero that this becomes. In Chromium, or in Firefox
where NGC_BROWSER says so."""
import sys
import unittest
from collections.abc import Callable
from pathlib import Path
from typing import NamedTuple

sys.path.insert(0, str(Path(__file__).resolve().parent))

import test_page_probing
from bench_support import REST
from test_moves import _AT_PULSE, _PULSES, _TURNED, BOX, HOLE, POST, PROBE
from test_page_probing import MM

NOTHING = (0, (0, 0, 0), (0, 0, 0))
ARROWS = """(() => {
    const svg = document.querySelector('#over .routine svg');
    const [across, up] = [...svg.querySelectorAll('text')].map(one => one.textContent);
    return [...svg.querySelectorAll('.to')].map(one => {
        const place = way => one.getPointAtLength(way).matrixTransform(one.getScreenCTM());
        const from = place(0), to = place(one.getTotalLength()), [dx, dy] = [to.x - from.x, from.y - to.y];
        return Math.abs(dx) > Math.abs(dy) ? across + (dx > 0 ? '+' : '-') : up + (dy > 0 ? '+' : '-');
    }).sort().join(' ');
})()"""
"""Where the picture's arrows lead, by the axes that it names."""


class Case(NamedTuple):
    """A routine, the way that is chosen, and its lengths, by how their entries begin. The work: of each body its kind
    and its ends. Where the picture's arrows lead, and between which points it goes. The probe's fault, and what is said
    of it. What is found, how wide the work is, the zero that this becomes, and where it ends. All lengths are mm."""

    title: str
    way: str
    lengths: dict[str, float]
    work: tuple[tuple[int, tuple[float, ...], tuple[float, ...]], ...]
    arrows: str
    low: tuple[int, ...]
    high: tuple[int, ...]
    fault: Callable[["EachRoutine"], None]
    why: str
    found: str
    widths: str
    zero: tuple[float, ...]
    ends: tuple[float, ...] = (0, 0, 0)


class EachRoutine(test_page_probing.Misbehaves):
    """The probe's ball, 1 mm wide, ends 2 mm below the spindle; what it touches stands about X0 Y0."""

    test_probe = test_where_touched = None

    def on_at_first(self) -> None:
        """It comes on before, as it is asked whether to begin: else the page's button is dead."""
        self.while_asked = lambda: self.puts_probe(True)

    def never(self) -> None:
        """It never comes on."""
        self.world.touching(PROBE, is_dumb=True)

    def sticks(self) -> None:
        """It comes on once something went 2 mm, and stays on."""
        self.world.set(_AT_PULSE, self.world.get(_PULSES) + 2 * MM)
        self.world.set(_TURNED, 1 << PROBE)

    def early(self) -> None:
        """Its second touch comes 0.3 mm before the first one."""
        self.world.touching(PROBE, grows=300)

    def late(self) -> None:
        """Its second touch would come 0.3 mm behind the first one."""
        self.world.touching(PROBE, grows=-300)

    def wide(self) -> None:
        """The boss is wider than is said."""
        self.stands((POST, (0, 0), (8, -3)))

    def stands(self, *bodies: tuple[int, tuple[float, ...], tuple[float, ...]]) -> None:
        """Nothing but these stands there, and the probe is well."""
        for number, (kind, *ends) in enumerate([*bodies, NOTHING][:2]):
            self.world.solid(number, kind, *(tuple(round(at * MM) for at in end) for end in ends))
        self.world.touching(PROBE)
        self.world.set(_AT_PULSE, 0)
        self.while_asked = super().while_asked
        self.puts_probe(False)

    def walks(self, *cases: Case) -> None:
        """Each of them fails first, and leaves the zero as it was; then it finds the work."""
        zero: tuple[float, ...] = (0, 0, 0)
        for case in cases:
            self.stands(*case.work)
            case.fault(self)
            self.begins_case(case)
            self.rests()
            self.toasts(case.why)
            self.shows("2.000", zero, 2)
            self.goes_back()
            self.stands(*case.work)
            self.finds_case(case)
            self.goes_back()
            zero = case.zero
        self.no_complaints()

    def goes_back(self) -> None:
        """The machine goes to where it began, up first."""
        for line, axes in (("G53 G0 Z0", (2,)), ("G53 G0 X0 Y0", (0, 1))):
            if any(self.world.place[axis] for axis in axes):
                self.do(line)

    def begins_case(self, case: Case) -> None:
        """Chooses it, sees its picture, types its lengths, and agrees to where it goes; no axis leaves that, and the
        ball goes no deeper into the work than the motors need to rest, but for a probe that never comes on."""
        self.opens(case.title)
        if case.way:
            self.browser.press(case.way, "#over .choices button")
        self.assertEqual(self.browser.js(f"[document.querySelector('#over h1').textContent, {ARROWS}]"),
                         [case.title, case.arrows])
        box = self.agrees_to(case.lengths)
        self.assertEqual(box, [(low * MM, high * MM) for low, high in zip(case.low, case.high)])
        self.browser.wait("!ngc.state.busy || ngc.state.question")
        self.stays_within(box)
        self.assertLessEqual(self.world.reached[0], 99 * MM if case.fault is EachRoutine.never else REST)

    def finds_case(self, case: Case) -> None:
        """It finds the work, and shows how wide that is; a yes makes it the zero."""
        self.begins_case(case)
        self.assertEqual((self.asked(), self.world.place), (case.found, tuple(round(at * MM) for at in case.ends)))
        said = self.browser.js("document.querySelector('#over pre').textContent")
        self.assertEqual("\n".join(line for line in said.splitlines() if "wide" in line), case.widths)
        self.browser.press("Yes: makes it", "#over .go")
        self.rests(f"s.origin.map(Number).join() === '{','.join(f'{at:g}' for at in case.zero)}'")
        self.shows("2.000", case.zero, 2)

    def test_faces(self) -> None:
        """An edge, the corners, and what lies below."""
        self.walks(
            Case("Edge", "Y\u2212", {"At most": 6}, ((BOX, (-9, -9, -9), (9, -5, 9)),), "Y-", (0, -6, 0), (0, 0, 0),
                 EachRoutine.sticks, "the probe is on behind a touch, and nothing may touch it: nothing moves",
                 "edge Y-: machine Y-5", "", (0, -5, 0)),
            Case("Outside corner", "X\u2212 Y+", {"At most": 8, "Along": 9}, ((BOX, (-9.9, 3, -9), (-4, 9.9, 9)),),
                 "X- Y+", (-9, 0, 0), (0, 9, 0), EachRoutine.early,
                 "two touches differ: X -3.5 by the fast one, and -3.2 by the slow one. That counts for nothing",
                 "outside X- Y+: machine X-4 Y3", "", (-4, 3, 0)),
            Case("Inside corner", "X+ Y\u2212", {"At most": 8},
                 ((BOX, (6, -9, -9), (9, 9, 9)), (BOX, (-9, -9.9, -9), (9, -7, 9))), "X+ Y-", (0, -8, 0), (8, 0, 0),
                 EachRoutine.on_at_first,
                 "the probe is on before it is sought, and nothing may touch it: nothing moves",
                 "inside X+ Y-: machine X6 Y-7", "", (6, -7, 0)),
            Case("Surface", "", {"At most": 7}, ((BOX, (-9, -9, -9), (9, 9, -6)),), "Z-", (0, 0, -7), (0, 0, 0),
                 EachRoutine.late, "the slow touch didn't come where the fast one was, at Z -4, nor 0.05 mm behind it",
                 "surface: machine Z-4", "", (6, -7, -6)))

    def test_middles(self) -> None:
        """A hole, a post, a slot and a web. Along a chord 2.7 mm beside the middle of a hole of 10 mm the ball goes 3.6
        mm each way, since 3.6^2 + 2.7^2 = 4.5^2; beside that of a post of 6 mm 2.8 mm, as 2.8^2 + 2.1^2 = 3.5^2."""
        self.walks(
            Case("Bore", "", {"At most": 8}, ((HOLE, (1.5, -2.7), (5, 9)),), "X+ X- Y+ Y-", (-8, -8, 0), (8, 8, 0),
                 EachRoutine.never, "the probe isn't touched within 8.000000 mm: nothing more moves",
                 "bore: machine X1.5 Y-2.7", "along X it is 8.200 and 10.000 mm wide\nalong Y it is 10.000 mm wide",
                 (1.5, -2.7, 0), (1.5, -2.7, 0)),
            Case("Boss", "", {"Its": 6, "At most": 4, "Down": 3}, ((POST, (0.8, -2.1), (3, -3)),), "X+ X-",
                 (-7, -7, -3), (7, 7, 0), EachRoutine.wide,
                 "the probe was touched on the way, at Z -1, where nothing may be: nothing more moves",
                 "boss: machine X0.8 Y-2.1",
                 "along X it is 4.600 and 6.000 mm wide\nalong Y it is 6.000 mm wide", (0.8, -2.1, 0), (0.8, -2.1, 0)),
            Case("Pocket", "Y", {"At most": 8}, ((BOX, (-9, -9, -9), (9, -4, 9)), (BOX, (-9, 6, -9), (9, 9, 9))),
                 "Y+ Y-", (0, -8, 0), (0, 8, 0), EachRoutine.early,
                 "two touches differ: Y -3.5 by the fast one, and -3.2 by the slow one. That counts for nothing",
                 "pocket Y: machine Y1", "along Y it is 10.000 mm wide", (0.8, 1, 0), (0, 1, 0)),
            Case("Web", "Y", {"Its": 4, "At most": 3, "Down": 3}, ((BOX, (-9, -1.5, -9), (9, 2.5, -3)),), "Y+ Y-",
                 (0, -5, -3), (0, 5, 0), EachRoutine.never,
                 "the probe isn't touched within 5.000000 mm: nothing more moves",
                 "web Y: machine Y0.5", "along Y it is 4.000 mm wide", (0.8, 0.5, 0), (0, 0.5, 0)))


if __name__ == "__main__":
    unittest.main()
