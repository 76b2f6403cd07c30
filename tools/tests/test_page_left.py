"""Lines that stand in OUT and that no motor carried out, where nothing tells which way leads along them: the page says
why, and goes neither back nor on. In Chromium, or in Firefox where NGC_BROWSER says so."""
import os
import sys
import unittest
from pathlib import Path

sys.path.insert(0, str(Path(__file__).resolve().parent))

import test_page_browser

FOREIGN = "P 0 0 1 50\n" * 4
"""Lines of another session: a fresh device has the machine at Z0, and they lead 4 steps up."""
WHY = "out doesn't lead to where the device has the machine"
RECOVER = "[...document.querySelectorAll('#over .foot button')].find(one => one.textContent === 'Recover')"


class Left(test_page_browser.InBrowser):
    """The player follows OUT, a file."""

    OUT = "out"

    def begin_player(self) -> None:
        """Lines stand in OUT, and the player has carried out none of them."""
        Path("out").write_text(FOREIGN)
        super().begin_player()

    def test_dead(self) -> None:
        """Recover is dead, beside its reason; nothing moves, and nothing is cut off before Drop is agreed to."""
        browser = self.browser
        state = browser.wait("ngc.state.recover?.left && ngc.state")
        self.assertEqual((state["word"], state["half"], state["can"]["recover"]), ("Lines left", "none", True))
        self.assertIn(WHY, state["recover"]["problem"])
        browser.press("Recover", "#run")
        browser.wait("document.querySelector('#over h1')?.textContent === 'Lines that no motor carried out'")
        self.assertIn(WHY, browser.js("document.querySelector('#over .asked').textContent"))
        self.assertTrue(browser.js(f"{RECOVER}.disabled"))
        self.assertEqual((self.link.ask().at, os.path.getsize("out")), ("0.000000 0.000000 0.000000", len(FOREIGN)))
        browser.press("Drop", "#over .foot button")
        browser.press("Yes", "#over .go")
        browser.wait("!ngc.state.recover?.left && !ngc.state.busy && ngc.state.word === 'Idle'")
        self.assertEqual((self.link.ask().at, os.path.getsize("out")), ("0.000000 0.000000 0.000000", 0))
        self.no_complaints()


if __name__ == "__main__":
    unittest.main()
