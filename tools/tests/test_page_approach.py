"""The way to a line that is chosen, and the way back to one that broke off, from another place: a page is asked the
same, in the same order, and at the same look, which the server keeps."""
import re
import sys
import unittest
from pathlib import Path

sys.path.insert(0, str(Path(__file__).resolve().parent))

import test_page_from_line

PART = """G21 G90 G17 G54 G94 G49
G0 X1 Y1
S800 M3
G0 Z4
G1 Z1 F300
G1 X6 F60
Y5
G0 Z4
M2
"""
"""Its line 6 is a cut of five seconds."""
KNOWN = re.compile(r"F[\d.]+ is in force there|It was cut off at [\d.]+")
"""What tells the feed: that of the line, or of what broke off."""


class Same(test_page_from_line.OverMachine):
    """By the clock. The machine stands at X9 Y-9 Z2 first."""

    WORDS: list[str] = []
    test_goes = test_held = test_power_lost = test_refused = None

    def asked(self, answers: dict[str, str]) -> list[dict]:
        """What is asked up to the look, each answered by how it begins; nothing moves meanwhile, and at the look no yes
        is taken before all is looked at."""
        found, place = [], self.world.place
        while not found or found[-1]["purpose"] != "look":
            state = self.seen.asked()
            found.append(state["question"])
            if state["question"]["purpose"] != "look":
                self.seen.agree(state, next((answer for begins, answer in answers.items()
                                             if state["question"]["text"].startswith(begins)), ""))
        for seen in (None, 0, 2):
            words = {"question": found[-1]["id"], "yes": True} | ({} if seen is None else {"seen": seen})
            self.assertEqual(self.seen.post("answer", words)[0], 422)
        self.assertEqual((state["spindle"], self.world.place), (1, place))
        return found

    def breaks_off(self) -> None:
        """Power is lost in line 6, and somebody says that the machine stands 1 mm higher."""
        self.load(self.seen, PART)
        self.assertEqual(self.seen.post("run"), (200, {}))
        self.seen.until("it cuts", lambda s: s["line"] == 6 and float(s["motors"][0]) > 2)
        self.pull()
        self.begin()
        self.seen = self.page()
        x, y, z = self.seen.rested()["motors"]
        place = [x, y, str(float(z) + 1)]
        self.assertEqual(self.seen.post("reference", {"at": place, "anyway": True}), (200, {"refused": ""}))
        self.assertEqual(self.seen.post("recover", {"at": place}), (200, {}))

    def test_same(self) -> None:
        """Both ask how high and how fast by the same words, and then to look at the same three things. No line before
        runs: the way back ends in line 6, that to line 7 begins behind it."""
        self.load(self.seen, PART)
        self.assertEqual(self.seen.post("from", {"line": 7}), (200, {}))
        answers = {"by legs then": "8", "How fast": "60"}
        to_line = self.asked(answers)
        self.seen.post("answer", {"question": to_line[-1]["id"], "yes": False})
        self.seen.rested()
        self.breaks_off()
        back = self.asked(answers)
        asked = [[re.sub(r"-?\d[\d.]*", "N", KNOWN.sub("K", one["text"])) for one in each
                  if one["text"].startswith(tuple(answers)) or one["purpose"] == "look"] for each in (to_line, back)]
        self.assertEqual(len(asked[0]), 3)
        self.assertEqual(asked[0], asked[1])
        self.assertEqual([each[-1]["looks"] for each in (to_line, back)], [[
            "On, as it should be: the spindle, clockwise at 800", "The right tool is in, and sound",
            "The way is free, and my hand is at Hold"]] * 2)


if __name__ == "__main__":
    unittest.main()
