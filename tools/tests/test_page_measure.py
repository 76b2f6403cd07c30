"""A tool measured from a page: at a tool change of a job, and held amid its way."""
import json
import os
import subprocess
import sys
import unittest
from collections.abc import Callable
from pathlib import Path

sys.path.insert(0, str(Path(__file__).resolve().parent))

from page_support import Served
from test_moves import BOX, MACHINE, PROBE, World, program

SETTER = "[setter]\nheight_um = -5000\nat_um = [8000, 6000, 8000]\nfast_mm_min = 600\nslow_mm_min = 60\n"
JOB = "G21 G90 G17 G54 G94\nG0 X1\nT2 M6\nG43 H2\nG0 X2 Z1\nM2\n"


class OverWorld(Served):
    """The player over a simulated machine without switches; its file has `EXTRA` besides."""

    OUT = "out"
    EXTRA = ""
    MODEL = World
    WORDS = ["--untimed"]  # so that it doesn't matter who else wants the processors

    def device(self) -> None:
        """A fresh device, and a travel of 10 mm."""
        super().device()
        Path("first.toml").write_text(Path("first.toml").read_text().replace("1000000000", "10000000"))

    def begin_player(self) -> None:
        """Starts the player over the machine, which stays where it is while power is lost."""
        if not Path("world").exists():
            self.world = self.MODEL()
            self.addCleanup(self.world.close)
            for number in range(3):
                self.world.no_switch(number)
            self.world.touching(PROBE)
        text = MACHINE.replace("door = 4\nspindle_at_speed = 5\n", "").replace("at_speed_s = 1\n", "")
        Path("motion.toml").write_text(text + self.EXTRA)
        self.player = subprocess.Popen([program(), *self.player_words()], stdin=subprocess.DEVNULL,
                                       stdout=subprocess.PIPE, stderr=subprocess.PIPE, text=True)
        self.addCleanup(self._end, self.player)
        self.wait_for("the player listens", lambda: os.path.exists("progress"))

    def player_words(self) -> list[str]:
        """Those of the player."""
        follows = ["-f"] if self.OUT == "out" else []
        return [*self.WORDS, *follows, "-s", "progress", "-m", "motion.toml", self.OUT, "first.toml", "position"]

    def begin(self) -> None:
        """Starts both."""
        self.MACHINE = "motion.toml"
        super().begin()


class AtMachine(OverWorld):
    """A page over it."""

    def setUp(self) -> None:
        """Opens a page."""
        super().setUp()
        self.seen = self.page()
        self.assertEqual(self.seen.post("loss", {"goes": True})[0], 200)  # also where others want the processors


class AtChange(AtMachine):
    """The setter's top is at Z-5; tool 2 is 4 mm long, and 3 by the table."""

    EXTRA = SETTER

    def device(self) -> None:
        """Two tools, and from where the setter is sought."""
        super().device()
        Path("mill.dev.measure").write_text('{"down_nm": 2000000, "within_nm": 6000000}')
        self.run_ngc("tool 1 0\ntool 2 3\n", "before")

    def begin_player(self) -> None:
        """The setter."""
        super().begin_player()
        self.world.tool(2, 4_000)
        self.world.solid(0, BOX, (7_000, 5_000, -10_000), (9_000, 7_000, -5_000))
        self.world.forget_reached()

    def asked(self) -> dict:
        """The state once the tool is in, and it is asked whether it is measured."""
        self.load(self.seen, JOB)
        self.assertEqual(self.seen.post("run"), (200, {}))
        self.seen.until("it asks for the tool", lambda s: s["waits"])
        self.seen.post("go")
        state = self.seen.asked()
        self.assertIn("it has 3 mm by now, and Continue goes on with that\nyes measures, anything else waits:",
                      state["question"]["text"])
        self.assertEqual((state["measures"], self.world.place), (True, (1_000, 0, 0)))
        return state

    def test_measured(self) -> None:
        """A yes: it is measured, and the job goes on to its end with that length."""
        self.seen.agree(self.asked())
        state = self.seen.until("it is through", lambda s: s["finished"] and not s["busy"])
        self.assertEqual((state["tools"][1], state["tool_length"]), ("4.000000", "4.000000"), self.seen.said())
        self.assertEqual(self.world.place, (2_000, 0, 5_000))
        depth, least, greatest = self.world.reached
        self.assertTrue(depth < 110 and least[2] >= -1_110 and greatest == (8_000, 6_000, 8_000), (depth, least))

    def test_not_measured(self) -> None:
        """A no: the job waits, with the length by the table, and jog, seek, touch and measure are offered; a jog moves
        the motors."""
        question = self.asked()["question"]["id"]
        self.assertEqual(self.seen.post("answer", {"question": question, "yes": False}), (200, {"taken": True}))
        state = self.seen.until("it waits", lambda s: not s["busy"] and not s["question"])
        self.assertEqual((state["does"], state["word"], state["tools"][1]), ("stopped", "Stopped", "3.000000"))
        self.assertEqual({word: state["can"][word] for word in ("jog", "seek", "touch", "measure")},
                         {"jog": True, "seek": True, "touch": True, "measure": True})
        self.assertEqual(self.world.place, (1_000, 0, 0))
        self.assertEqual(self.seen.post("jog", {"axis": "Z", "sign": 1, "rate": "600", "length": "2"}), (200, {}))
        state = self.seen.until("it is jogged", lambda s: not s["busy"] and s["motors"][2] == "2.000000")
        self.assertEqual((state["does"], self.world.place), ("stopped", (1_000, 0, 2_000)))

    def test_wrong(self) -> None:
        """A probe that fails in each way, and a tool that is longer: nothing moves past what was said, the length
        stays, and the job waits; one that bounces within what two touches may differ by gives the length as exactly."""
        self.wrong(lambda: self.world.touching(PROBE, is_dumb=True), "the probe isn't touched within 6.000000 mm", -4,
                   self.asked())
        for does, why, z in (
                (lambda: self.world.touching(PROBE, grows=300), "two touches differ: Z -1 by the fast one, and -0.7 by"
                 " the slow one", -0.7),
                (lambda: self.world.touching(PROBE, grows=-300), "the slow touch didn't come where the fast one was, at"
                 " Z -1, nor 0.05 mm behind it", -1.05),
                (lambda: self.world.tool(2, 9_000), "the probe was touched on the way, at Z 4", 4)):
            self.goes_back()
            self.wrong(does, why, z, self.measures())
        self.goes_back()
        self.world.touching(PROBE, bounces=40)
        self.seen.agree(self.measures())
        state = self.seen.until("it is measured", lambda s: not s["busy"] and s["tools"][1] != "3.000000")
        self.assertAlmostEqual(float(state["tools"][1]), 4, delta=0.04)
        self.assertEqual((state["does"], self.world.place), ("stopped", (1_000, 0, 0)))

    def wrong(self, does: Callable[[], None], why: str, z: float, state: dict) -> None:
        """It ends with that cause, once that is agreed to, over the setter at that machine Z, or as far from there as
        the motors need to rest; nothing went below that, nor over it lower than was said."""
        does()
        self.world.forget_reached()
        told = len(self.seen.log)
        self.seen.agree(state)
        state = self.seen.until("it rests", lambda s: not s["busy"])
        self.assertIn(f"measure: {why}", "\n".join(entry["text"] for entry in self.seen.log[told:]))
        self.assertEqual((state["does"], state["tools"][1], state["question"]), ("stopped", "3.000000", None))
        x, y, at = self.world.place
        self.assertEqual((x, y), (8_000, 6_000))
        self.assertTrue(abs(at - 1000 * z) <= 110, at)
        _, least, greatest = self.world.reached
        self.assertTrue(least[2] >= min(-1_110, 1000 * z) and greatest == (8_000, 6_000, 8_000), (least, greatest))

    def measures(self) -> dict:
        """The state once its button was touched."""
        self.assertEqual(self.seen.post("measure"), (200, {}))
        return self.seen.asked()

    def goes_back(self) -> None:
        """All is well, and the machine is where the job waits."""
        self.world.touching(PROBE)
        self.world.tool(2, 4_000)
        for line in ("G53 G0 Z8", "G53 G0 X1 Y0", "G53 G0 Z0"):
            entries = self.seen.rested()["entries"]
            self.assertEqual(self.seen.post("mdi", {"line": line}), (200, {}))
            self.seen.until("it is there", lambda s, before=entries: not s["busy"] and s["entries"] > before)
        self.assertEqual(self.world.place, (1_000, 0, 0))

    def test_jogged(self) -> None:
        """While the tool is waited for jog and seek are offered, and home isn't. The motors are elsewhere then, which
        is shown. Before the tool is in they go back to where the job goes on, by a yes; by a no they stay."""
        self.seen.post("switch", {"name": "measures", "on": False})
        self.load(self.seen, JOB)
        self.seen.post("run")
        state = self.seen.until("it asks for the tool", lambda s: s["waits"] and s["can"]["jog"])
        self.assertEqual(([state["can"][word] for word in ("seek", "go", "home", "measure", "mdi")], state["apart"]),
                         ([True, True, False, False, False], [False] * 3))
        for axis, sign, motors in (("Z", 1, ["1", "0", "2"]), ("X", -1, ["-1", "0", "2"])):
            words = {"axis": axis, "sign": sign, "rate": "600", "length": "2"}
            self.assertEqual(self.seen.post("jog", words), (200, {}))
            state = self.seen.until("it is jogged", lambda s: s["motors"] == [f"{at}.000000" for at in motors]
                                    and s["machine"] == "stands")
        self.assertEqual((state["waits_tool"], state["apart"], state["busy"], state["began_at"][0]),
                         (2, [True, False, True], True, "1.000000"))
        for agrees in (False, True):
            self.seen.post("go", {"tool": 2, "shown": state["motors"]})
            asked = self.seen.asked()
            self.assertEqual(asked["question"]["text"], "the motors are at machine X-1 Y0 Z2, and the lines go on from"
                             " X1 Y0 Z0: up to Z9, over to X1 and then to Y0, down to Z0. Look whether that way is"
                             " free, with the tool that is in\nyes goes back and on, anything else moves nothing:")
            self.assertEqual((self.world.place, asked["can"]["jog"]), ((-1_000, 0, 2_000), False))
            self.seen.answered.add(asked["question"]["id"])
            self.seen.post("answer", {"question": asked["question"]["id"], "yes": agrees})
        self.seen.until("it is through", lambda s: s["finished"] and not s["busy"])
        self.assertEqual((self.world.place, self.seen.said().count("refused")), ((2_000, 0, 4_000), 0))
        _, least, greatest = self.world.reached
        self.assertEqual((least, greatest), ((-1_000, 0, 0), (2_000, 0, 9_000)))

    def test_heights(self) -> None:
        """From where the setter is sought is said anew; what can't be gone isn't kept."""
        self.assertEqual(self.seen.post("measurefrom", {"down": "x", "within": "1"})[0], 422)
        self.seen.post("measurefrom", {"down": "9", "within": "1"})
        self.assertIn('"down_nm": 2000000', Path("mill.dev.measure").read_text())
        self.seen.post("measurefrom", {"down": "3.5", "within": "7"})
        self.assertEqual(json.loads(Path("mill.dev.measure").read_text()), {"down_nm": 3500000, "within_nm": 7000000})

    def test_off(self) -> None:
        """Switched off, no change asks."""
        self.assertEqual(self.seen.post("switch", {"name": "measures", "on": False})[0], 200)
        self.load(self.seen, JOB)
        self.seen.post("run")
        self.seen.until("it asks for the tool", lambda s: s["waits"])
        self.seen.post("go")
        state = self.seen.until("it is through", lambda s: s["finished"] and not s["busy"])
        self.assertEqual((state["tool_length"], state["measures"]), ("3.000000", False))

    def test_switches(self) -> None:
        """Spindle and coolant, the way above the zero, and a macro: each line stands in the log."""
        Path("first.macros").write_text('Lift = ["G53 G0 Z3"]\nFar = ["G0 X99"]\n')
        found = json.loads(self.seen.get("macros")[1])
        self.assertEqual(found, {"path": "first.macros", "failed": "", "macros": [
            {"name": "Lift", "lines": ["G53 G0 Z3"]}, {"name": "Far", "lines": ["G0 X99"]}]})
        for words in ({"name": "on"}, {"name": "clockwise"}, {"name": "clockwise", "speed": -1}, {}):
            self.assertEqual(self.seen.post("turn", words)[0], 422, words)
        for what, words, line, holds in (
                ("turn", {"name": "clockwise", "speed": 500}, "M3 S500", lambda s: s["spindle"] == 1),
                ("turn", {"name": "flood"}, "M8", lambda s: s["flood"]),
                ("turn", {"name": "spindle off"}, "M5", lambda s: not s["spindle"]),
                ("turn", {"name": "coolant off"}, "M9", lambda s: not s["flood"]),
                ("macro", {"name": "Lift"}, "G53 G0 Z3", lambda s: s["at"][2] == "3.000000"),
                ("above", {}, "G53 G0 X0 Y0", lambda s: s["at"][2] == "9.000000"),
                ("park", {}, "G53 G0 X-8 Y-7", lambda s: s["at"] == ["-8.000000", "-7.000000", "9.000000"])):
            self.assertEqual(self.seen.post(what, words), (200, {}))
            self.seen.until(f"{line} is done", lambda s: not s["busy"] and holds(s))
            self.assertIn(line, [entry["text"] for entry in self.seen.log])
        for name, output in (("clockwise", "spindle"), ("flood", "flood")):
            self.seen.post("turn", {"name": name, "speed": 500})
            state = self.seen.until("it is on", lambda s, output=output: not s["busy"] and s[output])
        self.assertTrue(state["can"]["off"])
        self.seen.post("off")
        state = self.seen.until("both are off", lambda s: not s["busy"] and not s["spindle"] and not s["flood"])
        self.assertEqual((state["can"]["off"], state["speed"], state["does"]), (False, 500, "idle"))
        self.seen.post("macro", {"name": "Far"})
        self.seen.until("it is refused", lambda s: not s["busy"] and s["word"] == "Refused")
        self.assertEqual(self.world.place, (-8_000, -7_000, 9_000))


class Held(AtChange):
    """By the clock."""

    WORDS: list[str] = []
    test_measured = test_not_measured = test_heights = test_off = test_switches = test_jogged = test_wrong = None

    def test_jog_held(self) -> None:
        """While the tool is waited for an axis goes for as long as that is said again and again, too; Hold ends it, and
        holds the job."""
        self.load(self.seen, JOB)
        self.seen.post("run")
        state = self.seen.until("it asks for the tool", lambda s: s["waits"] and s["can"]["jog"])
        jog = {"axis": "Z", "sign": 1, "rate": "60", "press": state["press"] + 1}

        def has_gone(um: int) -> bool:
            self.assertEqual(self.seen.post("jog", jog), (200, {"goes": True}))
            return self.world.place[2] > um

        def rests(state: dict) -> bool:
            return state["machine"] == "stands" and state["motors"][2] == f"{self.world.place[2] / 1000:.6f}"

        self.wait_for("it goes", lambda: has_gone(300))
        self.seen.post("jogstop", {"press": jog["press"]})
        state = self.seen.until("it rests", rests)
        self.assertEqual((state["waits"], state["apart"]), (True, [False, False, True]))
        jog["press"] += 1
        self.wait_for("it goes on", lambda: has_gone(900))
        self.assertEqual(self.seen.post("hold", {"touch": "a-touch"})[0], 200)
        state = self.seen.until("it is held", lambda s: not s["busy"] and rests(s))
        self.assertEqual((state["does"], state["waits"], state["can"]["jog"]), ("held", True, False))
        self.assertEqual(self.seen.post("jog", jog), (200, {"goes": False}))

    def test_one_at_a_time(self) -> None:
        """While the tool is waited for and something moves, nothing else is offered that moves, nor that the tool is
        in: so at a seek, and on the way back. Beside a jog that is held jog is, since that may turn."""
        self.seen.post("switch", {"name": "measures", "on": False})
        self.load(self.seen, JOB)
        self.seen.post("run")
        state = self.seen.until("it asks for the tool", lambda s: s["waits"] and s["can"]["jog"])
        self.assertEqual(self.offered(state), [True, True, True])
        self.seen.post("seek", {"axis": "Y", "sign": 1, "rate": "60", "within": "0.5"})
        state = self.seen.until("it seeks", lambda s: s["machine"] == "seek Y+")
        self.assertEqual((self.offered(state), state["can"]["hold"]), ([False, False, False], True))
        state = self.seen.until("it stands", lambda s: s["machine"] == "stands" and s["motors"][1] == "0.500000")
        self.assertEqual(self.offered(state), [True, True, True])
        jog = {"axis": "Z", "sign": 1, "rate": "60", "press": state["press"] + 1}

        def has_gone(um: int) -> bool:
            self.assertEqual(self.seen.post("jog", jog), (200, {"goes": True}))
            return self.world.place[2] > um

        self.wait_for("it goes", lambda: has_gone(50))
        state = self.seen.until("that is told", lambda s: s["machine"] == "jog Z+" or not has_gone(0))
        self.assertEqual(self.offered(state), [True, False, False])
        self.seen.post("jogstop", {"press": jog["press"]})
        state = self.seen.until("it rests", lambda s: s["machine"] == "stands" and s["can"]["go"]
                                and s["motors"][2] == f"{self.world.place[2] / 1000:.6f}")
        self.seen.post("go", {"tool": 2, "shown": state["motors"]})
        self.seen.agree(self.seen.asked())
        for way in ("jog Z+", "jog Y-", "jog Z-"):
            state = self.seen.until(f"it goes back, {way}", lambda s, way=way: s["machine"] == way)
            self.assertEqual(self.offered(state), [False, False, False])
        self.seen.until("it is through", lambda s: s["finished"] and not s["busy"])

    def offered(self, state: dict) -> list[bool]:
        """Whether jog and seek are, and that the tool is in."""
        return [state["can"][word] for word in ("jog", "seek", "go")]

    def test_held(self) -> None:
        """Hold amid the way: it comes to rest there, the job waits, and the length stays."""
        self.seen.agree(self.asked())
        self.seen.until("it goes up", lambda s: float(s["motors"][2]) > 1)
        self.assertEqual(self.seen.post("hold", {"touch": "a-touch"})[0], 200)
        state = self.seen.until("it rests", lambda s: not s["busy"])
        at = self.world.place
        self.assertTrue(0 < at[2] < 8_000 and at[:2] == (1_000, 0), at)
        self.assertEqual((state["tools"][1], state["does"], state["question"]), ("3.000000", "stopped", None))
        self.assertEqual(self.world.place, at)


if __name__ == "__main__":
    unittest.main()
