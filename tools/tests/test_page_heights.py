"""From which height the setter is sought, and how deep: asked once, by touch, and said anew. In Chromium, or in Firefox
where NGC_BROWSER says so."""
import json
import sys
import unittest
from pathlib import Path

sys.path.insert(0, str(Path(__file__).resolve().parent))

import test_page_probing
from bench_support import REST
from test_moves import BOX
from test_page_probing import MM

KEPT = Path("mill.dev.measure")
FROM, WITHIN = (f"#tab-setup input[aria-label='{label}, in mm']" for label in (
    "Machine Z from which the setter is sought", "How far at most, from there"))
REFUSED = ("nothing moves: from a machine Z of at most 8, at_um of [setter], and from there not below -10, where the"
           " travel ends")
APART = """(([x, y]) => {
    const box = document.getElementById('toast').getBoundingClientRect();
    return Math.hypot(Math.max(box.left - x, x - box.right, 0), Math.max(box.top - y, y - box.bottom, 0));
})(%s)"""
"""How far what is said stands from a point, in pixels."""
NEAR_PX = 60


class Heights(test_page_probing.Setter):
    """The setter's top is at Z-5, and tool 2 comes over it at Z8. From where it is sought nobody said yet."""

    test_setter = test_measured = None

    def device(self) -> None:
        """A fresh device."""
        super(test_page_probing.Setter, self).device()

    def test_heights(self) -> None:
        """The first measuring asks for both, and goes as it is answered; the next one doesn't ask. What can't be gone
        isn't kept, and is said where the finger was; nothing moves by it. `Keep both heights` says them anew."""
        world = self.world
        world.solid(1, BOX, (3 * MM, -9 * MM, -10 * MM), (4 * MM, 9 * MM, 3_500))  # it goes over that, there and back
        self.stands(length=1, y=6)
        self.puts_in(2)
        world.forget_reached()
        self.measures()
        self.refused_beside(self.answers("9", "3"))  # it would come from above where it goes over
        self.assertEqual((world.reached[1:], KEPT.exists()), (((0, 0, 0), (0, 0, 0)), False))
        self.measures()
        self.answers("2", "5.5")
        self.goes_as_said()
        self.rests()
        self.toasts("the probe isn't touched within 5.500000 mm: nothing more moves")  # at Z-4 it would be
        self.assertEqual(world.place, (8 * MM, 6 * MM, -3.5 * MM))
        for line in ("G53 G0 Z8", "G53 G0 X0 Y0", "G53 G0 Z0"):
            self.do(line)
        self.stands(length=4, y=6)
        self.measures()
        self.goes_as_said()
        self.rests("Number(s.tools[1]) === 4")
        self.assertTrue(-REST - MM <= world.reached[1][2] <= -MM, world.reached)
        self.assertEqual(world.place, (0, 0, 0))
        self.switches()
        self.keeps()
        self.no_complaints()

    def asks(self, says: str) -> None:
        """A question begins so."""
        self.browser.wait(f"document.querySelector('#over .asked')?.textContent.startsWith({json.dumps(says)})")

    def answers(self, *numbers: str) -> tuple[float, float]:
        """Answers from where, and how deep: where the finger was last."""
        at = (0.0, 0.0)
        for asked, number in zip(("Down to which machine Z", "By how many mm at most"), numbers, strict=True):
            self.asks(asked)
            self.browser.fill("#over .entry input", number)
            at = self.browser.place("Go on", "#over .go")
            self.browser.press("Go on", "#over .go")
        return at

    def refused_beside(self, at: tuple[float, float]) -> None:
        """It is said beside that point what can't be gone."""
        self.toasts(REFUSED)
        self.rests()
        self.browser.wait("document.getElementById('over').hidden")
        self.browser.frame()
        self.assertLess(self.browser.js(APART % list(at)), NEAR_PX)

    def goes_as_said(self) -> None:
        """It says by itself, without a question before, how it goes: up to Z8, over, and down to Z2 and Z-3.5."""
        self.asks("measure tool 2: from machine X0 Y0 Z0 up to Z8, over to X8 and then to Y6, down to Z2, where the"
                  " setter is sought to Z-3.5 at most, and back the same way.")
        self.stays_within(self.agrees())

    def keeps(self) -> None:
        """Both are said anew, beside the button where they can't be gone."""
        browser = self.browser
        kept = {"down_nm": 2 * 10**6, "within_nm": 5_500_000}
        for number, down, within in ((0, "9", "3"), (1, "-4", "7"), (2, "3.5", "7")):
            browser.fill(FROM, down)
            browser.fill(WITHIN, within)
            at = browser.place("Keep both heights", "#tab-setup button")
            browser.press("Keep both heights", "#tab-setup button")
            if number < 2:
                self.refused_beside(at)
                self.assertEqual(json.loads(KEPT.read_text()), kept)
        self.wait_for("they are kept", lambda: json.loads(KEPT.read_text()) == {
            "down_nm": 3_500_000, "within_nm": 7 * 10**6})
        self.world.forget_reached()
        self.measures()
        self.asks("measure tool 2: from machine X0 Y0 Z0 up to Z8, over to X8 and then to Y6, down to Z3.5, where the"
                  " setter is sought to Z-3.5 at most,")
        browser.press("No", "#over .foot button")
        self.rests()
        self.assertEqual(*self.world.reached[1:])

    def switches(self) -> None:
        """Whether a tool change asks for it is chosen by a touch."""
        for is_on in ("false", "true"):
            self.browser.press("Measure at tool changes", "#tab-setup button")
            self.rests(f"s.measures === {is_on}")


if __name__ == "__main__":
    unittest.main()
