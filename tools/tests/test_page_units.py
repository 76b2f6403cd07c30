"""Millimetres and inches on the page: what is read and what is typed, exact in whole nanometres, whatever G20 or G21
has in force. In Chromium, or in Firefox where NGC_BROWSER says so."""
import json
import sys
import unittest
from pathlib import Path

sys.path.insert(0, str(Path(__file__).resolve().parent))

import test_page_browser

from ngc_tools.page.deeds import BadWords, number_of

INCHES = "[...document.querySelectorAll('#tab-setup .switch')].find(one => one.textContent.includes('Inches')).click()"
UNITS = """(async () => {
    const units = await import(new URL('units.js', document.baseURI));
    return %s;
})()"""


class Units(test_page_browser.Moves):
    """The player is in this process."""

    test_setup = test_axis_without_home = test_ended_in_an_alarm = None

    def setUp(self) -> None:
        """Millimetres, in the tab for setting up."""
        super().setUp()
        self.addCleanup(lambda: self.browser.js("void localStorage.removeItem('unit')"))
        self.browser.press("Setup", "nav button")

    def units(self, expression: str) -> object:
        """A value of the page's module."""
        return self.browser.js(UNITS % expression)

    def entry(self, label: str) -> str:
        """What stands in an entry."""
        return str(self.browser.js(f"document.querySelector('input[aria-label={json.dumps(label)}]').value"))

    def test_exact(self) -> None:
        """An inch has 25,400,000 nm; what is typed is rounded once, and what is shown is by whole numbers."""
        shown = "[[25400000n, 4], [-127n, 6], [1n, 3], [-500n, 3], [499n, 3], [9999999999999n, 6]]" \
            ".map(([nm, digits]) => units.shown(nm, digits))"
        self.assertEqual(self.units(shown), ["25.4000", "\u22120.000127", "0.000", "\u22120.001", "0.000",
                                             "9999999.999999"])
        typed = "['1', '-0,000001', '0.0005', '.1', '', 'x', '1in'].map(one => String(units.typedNanometres(one)))"
        self.assertEqual(self.units(typed), ["1000000", "-1", "500", "100000", "null", "null", "null"])
        self.browser.js(INCHES)
        self.assertEqual(self.units(typed), ["25400000", "-25", "12700", "2540000", "null", "null", "null"])
        self.assertEqual(self.units("[[25400000n, 4], [-127n, 6], [1270n, 4], [1269n, 4]]"
                                    ".map(([nm, digits]) => units.shown(nm, digits))"),
                         ["1.0000", "\u22120.000005", "0.0001", "0.0000"])
        self.assertEqual(self.units("[units.typedLength('1,5'), units.typedLength('x')]"), ["1.5in", None])
        for text, mm in (("1", "1"), ("-1.5mm", "-1.5"), ("0.1in", "2.540000"), ("-0.000001in", "-0.000025")):
            self.assertEqual(number_of(text), mm)
        for text in ("1 in", "1cm", "in", "1inin", 1, None, "1in\n"):
            self.assertRaises(BadWords, number_of, text)

    def test_stays(self) -> None:
        """What stands in entries stays the same length there and back; steps are chosen anew."""
        browser = self.browser
        browser.fill("input[aria-label='Work coordinate of this place, in mm']", "25,4")
        browser.press("10", ".jog .choices button")
        browser.js(INCHES)
        self.assertEqual((self.entry("Work coordinate of this place, in in"), self.entry(
            "How far the probe is sought, in in")), ("1", "0.393701"))
        steps = "[...document.querySelectorAll('.jog .lengths button')].map(one => [one.textContent," \
            " one.getAttribute('aria-pressed')])"
        self.assertEqual(browser.js(steps), [["Cont.", "true"], ["1", "false"], ["0.1", "false"], ["0.01", "false"],
                                             ["0.001", "false"]])
        self.assertEqual(browser.js("[...document.querySelectorAll('#tab-setup .entry-row span')]"
                                    ".every(one => one.textContent === 'in')"), True)
        browser.js(INCHES)
        self.assertEqual((self.entry("Work coordinate of this place, in mm"), self.entry(
            "How far the probe is sought, in mm")), ("25.4", "10"))

    def test_typed(self) -> None:
        """A zero, a step, a length of a tool and an offset in inches, under G20 and G21."""
        browser = self.browser
        browser.js(INCHES)
        self.look("setup in inches")
        for code, line in (("G21", "G10 L2 P1 Z-1.27"), ("G20", "#5223=-1.27 G10 L2 P1")):
            entries = browser.js("ngc.state.entries")
            browser.fill("#line", f"{code} G10 L2 P1 Z0")
            browser.press("Do", "#do")
            browser.wait(f"ngc.state.entries > {entries} && ngc.state.origin[2] === '0.000000' && !ngc.state.busy")
            browser.fill("input[aria-label='Work coordinate of this place, in in']", "0.05")
            browser.press("Set Z", "#tab-setup .four button")
            browser.wait("ngc.state.origin[2] === '-1.270000' && !ngc.state.busy")
            self.assertEqual(browser.js("[ngc.state.work[2], ngc.state.unit]"), ["1.270000", int(code[1:])])
            log = str(browser.js("document.getElementById('log').textContent"))
            self.assertIn(line, log)
        self.assertEqual(browser.js("document.querySelectorAll('.axis output')[2].textContent"), "0.0500")
        browser.press("0.1", ".jog .choices button")
        browser.press("X+", ".pad button")
        self.wait_for("it goes so far", lambda: any(word.endswith("X+ 600 for 2.54") for word in
                                                    self.machine.axes.words))
        browser.wait("!ngc.state.busy")
        browser.js("document.querySelector('[data-tab=tools]').click()")
        browser.fill("#tab-tools input[aria-label='Length of tool 1']", "2")
        browser.press("Add", "#tab-tools button")
        browser.wait("ngc.state.tools[0] === '50.800000' && !ngc.state.busy")
        browser.press("Setup", "nav button")
        browser.press("Offsets", "#tab-setup button")
        browser.press("G55", "#over .offsets button")
        browser.fill("#over input[aria-label='G55 Z, in in']", "-0.1")
        self.assertIn("0 to \u22120.1 in, by \u22120.1", browser.js("document.querySelector('#over').textContent"))
        browser.press("Set G55", "#over button")
        browser.wait("ngc.state.offsets.origins[1][2] === '-2.540000' && !ngc.state.busy")
        self.no_complaints()


if __name__ == "__main__":
    unittest.main()
