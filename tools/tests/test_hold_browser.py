"""Hold, and what is touched too late, in a browser: Chromium, or Firefox by NGC_BROWSER=firefox."""
import sys
import unittest
from pathlib import Path

sys.path.insert(0, str(Path(__file__).resolve().parent))

from firefox_support import MISSING, PATH
from page_support import SLOW
from test_page_browser import InBrowser

LATE = """void (() => {
    const fetches = window.fetch, late = (...words) => new Promise(done => setTimeout(done, 1500))
        .then(() => fetches(...words));
    window.fetch = (what, how) => (what === '%s' ? late : fetches)(what, how);
})()"""
"""What is asked for by this name comes a second and a half late."""
NEVER = """void (() => {
    const fetches = window.fetch;
    window.fetch = (what, how) => what === 'hold' ? new Promise(() => {}) : fetches(what, how);
})()"""
"""No request for Hold is ever answered."""


@unittest.skipUnless(PATH, MISSING)
class Holds(InBrowser):
    """Hold by its own line."""

    def cuts(self) -> None:
        """A cut of 40 s is under way."""
        self.load(SLOW, 4)
        self.browser.press("Run", "#run")
        self.browser.wait("ngc.state.line === 3 && ngc.state.half === 'program'")

    def test_uploads(self) -> None:
        """A long program that is chosen five times takes no connection that Hold needs, nor does a request that is
        never answered; what was chosen before ends."""
        self.cuts()
        Path("long.ngc").write_text("G17 G21 G90 G94\n" + "G1 X1 F600\nG1 X0\n" * 5_000 + "M2\n")
        self.browser.js("void (document.getElementById('file').disabled = false)")
        for _ in range(5):
            self.browser.choose_file(self.folder / "long.ngc")
        self.browser.js(NEVER)
        self.browser.space()
        self.browser.wait("ngc.state.does === 'held' && !ngc.state.busy")
        self.assertLess(float(self.browser.js("ngc.state.motors[0]")), 1.9)  # it isn't through
        self.no_complaints()

    def test_late(self) -> None:
        """What comes more than a second after it was touched isn't done, which stands where the finger was."""
        self.load(SLOW, 4)
        self.browser.js(LATE % "run")
        self.browser.press("Run", "#run")
        said = self.browser.wait("document.getElementById('toast').textContent")
        self.assertEqual(said, "touched more than a second ago, and so not done: touch it again")
        self.assertEqual(self.browser.js("ngc.state.does"), "idle")


if __name__ == "__main__":
    unittest.main()
