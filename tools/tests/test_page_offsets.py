"""The offsets on the page: each is read from the device, and set with what it was, what it will be and the difference
in sight. In Chromium, or in Firefox where NGC_BROWSER says so."""
import sys
import unittest
from pathlib import Path

sys.path.insert(0, str(Path(__file__).resolve().parent))

import test_page_browser
from page_support import Served

ROW = "[...document.querySelectorAll('#over .offsets button')].find(one => one.querySelector('b').textContent === '{}')"


class Asked(Served):
    """By requests, over a device with some offsets."""

    def device(self) -> None:
        """Two tools, and origins of G54 and G59.3."""
        super().device()
        self.run_ngc("tool 1 4\ntool 2 50\nmdi G10 L2 P1 X1 Y2 Z3\ntick 9\nmdi G10 L2 P9 Z7\ntick 9\n", "before")

    def set(self, words: dict) -> tuple[dict, str]:
        """What stands once something was set, and what was said of it."""
        page, told = self.seen, len(self.seen.log)
        self.assertEqual(page.post("offset", words), (200, {}))
        state = page.rested()
        return state, "\n".join(entry["text"] for entry in page.log[told:])

    def test_all(self) -> None:
        """What is told, what a page may set, in both units, and what is taken back; each is a line in the log."""
        page = self.seen = self.page()
        found = page.rested()["offsets"]
        self.assertEqual((found["origins"][0], found["origins"][8][2], found["g92"], found["length_slots"]),
                         (["1.000000", "2.000000", "3.000000"], "7.000000", ["0.000000"] * 3, []))
        self.assertEqual((found["here"][0], found["here"][8]), (
            ["-1.000000", "-2.000000", "-3.000000"], ["0.000000", "0.000000", "-7.000000"]))
        state, said = self.set({"name": "G55", "axes": {"X": "0.1in", "Z": "-1.5"}})
        self.assertEqual(state["offsets"]["origins"][1], ["2.540000", "0.000000", "-1.500000"])
        self.assertEqual(said.splitlines(), ["G55: X 0 to 2.54 mm, by +2.54, Z 0 to -1.5 mm, by -1.5",
                                             "G10 L2 P2 X2.54 Z-1.5", "G55 is set. undo puts it back"])
        page.post("undo")
        self.assertEqual(page.rested()["offsets"]["origins"][1], ["0.000000"] * 3)
        state, said = self.set({"name": "G92", "axes": {"Y": "1mm"}})
        self.assertEqual((state["offsets"]["g92"][1], state["offsets"]["here"][8][1]), ("1.000000", "-1.000000"))
        self.assertIn("#5211=0 #5212=1 #5213=0 G92.3", said)
        self.assertEqual(self.set({"name": "G92.1"})[0]["offsets"]["g92"][1], "0.000000")
        self.assertEqual(self.set({"name": "G43", "slot": 1})[0]["offsets"]["length_slots"], [1])
        self.assertEqual(self.set({"name": "G49"})[0]["tool_length"], "0.000000")

    def test_asked(self) -> None:
        """What is far from what it was is asked; a no leaves it."""
        page = self.page()
        for agrees, origin in ((False, "0.000000"), (True, "25.400000")):
            page.post("offset", {"name": "G56", "axes": {"Y": "1in"}})
            state = page.asked()
            self.assertEqual(state["question"]["text"], "G56: Y 0 to 25.4 mm, by +25.4\nyes sets it:")
            page.post("answer", {"question": state["question"]["id"], "yes": agrees})
            self.assertEqual(page.rested()["offsets"]["origins"][2][1], origin)

    def test_words(self) -> None:
        """What a page may not say; and nothing is set while something runs."""
        page = self.page()
        for words in ({}, {"name": "G53", "axes": {"X": "1"}}, {"name": "G55"}, {"name": "G55", "axes": {"X": "1cm"}},
                      {"name": "G55", "axes": {"X": "1 in"}}, {"name": "G55", "axes": {"A": "1"}}, {"name": ["G55"]},
                      {"name": "G43"}, {"name": "G43", "slot": 999}, {"name": "G55 X1", "axes": {"X": "1"}}):
            self.assertEqual(page.post("offset", words)[0], 422, words)
        self.load(page, test_page_browser.SLOW)
        self.cuts(page)
        self.assertFalse(page.next()["can"]["offset"])
        status, answer = page.post("offset", {"name": "G55", "axes": {"X": "1"}})
        self.assertEqual((status, answer["why"]), (409, "something runs: hold first"))


class Table(test_page_browser.Moves):
    """The sheet, with the player in this process."""

    test_setup = test_axis_without_home = test_ended_in_an_alarm = None
    NAMES = ("G54", "G55", "G56", "G57", "G58", "G59", "G59.1", "G59.2", "G59.3")

    def device(self) -> None:
        """A device with an origin of each system but two."""
        super().device()
        lines = (f"mdi G10 L2 P{number} Y{number} Z-{number}\ntick 9\n" for number in range(3, 10))
        self.run_ngc("".join(lines), "before")

    def opened(self) -> None:
        """Opens it."""
        self.browser.press("Setup", "nav button")
        self.browser.press("Offsets", "#tab-setup button")
        self.browser.wait("document.querySelectorAll('#over .offsets button').length === 11")

    def row(self, name: str) -> str:
        """What stands in a row."""
        return str(self.browser.js(f"{ROW.format(name)}.innerText"))

    def differs(self) -> str:
        """What stands beside the entries."""
        return str(self.browser.js("[...document.querySelectorAll('#over .confirm small')].map(one =>"
                                   " one.textContent).join('|')"))

    def test_table(self) -> None:
        """Each system has its origin, and the machine's point in it, which is 0 less that. A row is chosen, a number is
        typed: the difference is shown before, asked where it is far; then the table has what the device has, and undo
        takes it back."""
        browser = self.browser
        browser.js("document.querySelector('[data-tab=tools]').click()")
        browser.fill("#tab-tools input[aria-label='Length of tool 1']", "50")
        browser.press("Add", "#tab-tools button")
        browser.wait("ngc.state.tools.length === 1 && !ngc.state.busy")
        self.opened()
        self.shoot("offsets")
        self.look("the offsets")
        for number, name in enumerate(self.NAMES, 1):
            at, minus = (number, "\u2212") if number > 2 else (0, "")
            self.assertEqual(self.row(name).split("\n")[1:], [
                f"X 0.000  Y {at}.000  Z {minus}{at}.000", f"machine here: X 0.000  Y {minus}{at}.000  Z {at}.000"])
        browser.press("G55", "#over .offsets button")
        set_is_off = "document.querySelector('#over .go').disabled"
        given = "[...document.querySelectorAll('#over .sight button')].map(one => [one.textContent, one.disabled])"
        self.assertTrue(browser.js(set_is_off))
        browser.fill("#over input[aria-label='G55 X, in mm']", "2,5")
        self.assertEqual((self.differs(), browser.js(set_is_off)), ("0 to 2.5 mm, by +2.5||", False))
        browser.fill("#over input[aria-label='G55 Y, in mm']", "x")
        self.assertEqual((self.differs(), browser.js(set_is_off)),
                         ("0 to 2.5 mm, by +2.5|not a number|", True))
        browser.fill("#over input[aria-label='G55 Y, in mm']", "-20")
        self.shoot("offsets-typed")
        browser.press("Set G55", "#over button")
        browser.press("Yes: sets it", "#over .go")
        browser.wait("document.querySelectorAll('#over .offsets button').length === 11 && !ngc.state.busy")
        self.assertEqual(self.row("G55").split("\n")[1:], ["X 2.500  Y \u221220.000  Z 0.000",
                                                          "machine here: X \u22122.500  Y 20.000  Z 0.000"])
        browser.press("G92", "#over .offsets button")
        self.assertEqual(browser.js(given), [["Set G92", True], ["None: G92.1", True]])  # as it is
        for takes_away in ("Undo", "None: G92.1"):
            browser.fill("#over input[aria-label='G92 X, in mm']", "1")
            browser.press("Set G92", "#over button")
            browser.wait(f"!ngc.state.busy && {given}.join() === 'Set G92,true,None: G92.1,false'")
            self.assertEqual(self.row("G92").split("\n")[1:], ["X 1.000  Y 0.000  Z 0.000",
                                                               "in force until the program\u2019s end"])
            self.assertIn("X \u22121.000", self.row("G54"))
            browser.press(takes_away, "#over button")
            browser.wait(f"!ngc.state.busy && {given}.join() === 'Set G92,true,None: G92.1,true'")
            self.assertIn("X 0.000", self.row("G54"))
        browser.press("Length", "#over .offsets button")
        self.look("lengths")
        self.assertEqual(browser.js(given), [["H1: 50.000 mm", False], ["None: G49", True]])
        browser.press("H1: 50.000 mm", "#over button")
        browser.press("Yes: sets it", "#over .go")
        browser.wait("document.querySelectorAll('#over .offsets button').length === 11 && !ngc.state.busy")
        self.assertEqual(self.row("Length").split("\n")[1:], ["50.000 mm", "as slot 1 has; no tool is in"])
        self.assertEqual(browser.js(given), [["H1: 50.000 mm", True], ["None: G49", False]])
        browser.press("Undo: G49", "#over button")
        browser.wait("ngc.state.tool_length === '0.000000' && !ngc.state.busy")
        browser.press("Back", "#over button")
        self.assertTrue(browser.js("document.getElementById('over').hidden"))
        self.no_complaints()

    def test_typed_meanwhile(self) -> None:
        """What is being typed stays while the machine moves; once the origin is another one it is gone."""
        browser = self.browser
        self.opened()
        browser.fill("#over input[aria-label='G54 X, in mm']", "1.25")
        self.machine.axes.at_nm = [0, 0, 3_000_000]
        browser.wait("ngc.state.motors[2] === '3.000000'")
        entry = "document.querySelector('#over .confirm input').value"
        self.assertEqual(browser.js(entry), "1.25")
        self.assertIn("Z 3.000", self.row("G54"))
        self.machine.axes.at_nm = [0, 0, 0]
        browser.wait("ngc.state.motors[2] === '0.000000'")
        browser.js("fetch('mdi', { method: 'POST', body: '{\"line\": \"G10 L2 P1 X7\"}', headers: { 'Content-Type':"
                   " 'application/json', 'X-Page': sessionStorage.page, 'X-Stamp': ngc.state.stamp } })")
        browser.wait(f"{entry} === '7'")
        self.no_complaints()


if __name__ == "__main__":
    unittest.main()
