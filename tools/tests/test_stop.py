"""Stop, spindle and coolant off, and the way back from an alarm: ngc-page and tools/player over a simulated machine."""
import os
import subprocess
import sys
import unittest
from functools import reduce
from math import sqrt
from pathlib import Path

sys.path.insert(0, str(Path(__file__).resolve().parent))

from page_support import Served, slow_by, within_seconds
from session_support import PATIENCE_S, TOOLS, Terminal, ngc
from test_documents import blocks, chapters
from test_moves import AT_SPEED, MACHINE, PROBE, STOP, X_HIGH, Moving, program
from walk_machine import Telling

CHANGES = (("door = 4\nspindle_at_speed = 5\n", ""), ("at_speed_s = 1\n", ""), ("[60, 60, 60]", "[600, 600, 600]"),
           ("agree_um = 20", "agree_um = 1000"))
MILL = reduce(lambda text, change: text.replace(*change), CHANGES, MACHINE)
JOB = "G17 G21 G90 G94\nM3 S1000\nM8\nG0 X1\nG1 X4 F60\nT2 M6\nG1 X5 F600\nM0\nG1 X6 F600\nM5\nM2\n"
"""Its line 5 is a cut of three seconds; its spindle and coolant stay on after M0."""
FAST = "G17 G21 G90 G94\nM3 S1000\nM8\n" + "G1 X9 F600\nG1 X0\n" * 50 + "M2\n"
"""Cuts at 10 mm/s, from which a ramp of 500 mm/s2 takes 0.1 mm."""
IS_ON = 4  # a field of the world
LEGS = {"by": "9", "How": "600"}
"""What a person types of them, by how it is asked: up to which Z, and how fast it goes down."""


class Stopping(Served):
    """What a page and its player do. The steps are 1 um, the travel is 10 mm each way."""

    OUT = "out"

    def setUp(self) -> None:
        """Starts both, and opens a page."""
        super().setUp()
        self.seen = self.page()

    def device(self) -> None:
        """A fresh device, with two tools, and a travel of 10 mm."""
        super().device()
        Path("first.toml").write_text(Path("first.toml").read_text().replace("1000000000", "10000000"))
        self.run_ngc("tool 1 0\ntool 2 0\n", "before")

    def begin_player(self) -> None:
        """Starts the player over the machine."""
        self.world = Telling()
        self.addCleanup(self.world.close)
        Path("motion.toml").write_text(MILL)
        words = ["-f"] if self.OUT != "axis" else []
        self.player = subprocess.Popen([program(), *words, "-s", "progress", "-m", "motion.toml", "-i", "times",
                                        self.OUT, "first.toml", "position"], stdin=subprocess.DEVNULL,
                                       stdout=subprocess.PIPE, stderr=subprocess.PIPE, text=True)
        self.addCleanup(self._end, self.player)
        self.wait_for("the player listens", lambda: os.path.exists("progress"))

    def is_on(self) -> bool:
        """Whether the machine's spindle or coolant is on."""
        return bool(self.world.get(IS_ON))

    def until(self, what: str, holds) -> dict:
        """The next state of which something holds."""
        return self.seen.until(what, holds)

    def cutting(self) -> dict:
        """The state once the job cuts in its line 5."""
        self.load(self.seen, JOB)
        self.assertEqual(self.seen.post("run"), (200, {}))
        return self.until("it cuts", lambda s: s["line"] == 5 and float(s["motors"][0]) > 1.2)

    def stop(self) -> dict:
        """Touches Stop: the state that asks."""
        self.assertEqual(self.seen.post("stop"), (200, {}))
        return self.seen.asked()

    def refuses(self, state: dict) -> None:
        """Answers a question with a no."""
        self.assertEqual(self.seen.post("answer", {"question": state["question"]["id"], "yes": False}),
                         (200, {"taken": True}))
        self.seen.answered.add(state["question"]["id"])

    def does(self, what: str, **words: object) -> dict:
        """Does something, to its end, and gives the state then."""
        self.assertEqual(self.seen.post(what, words), (200, {}))
        return self.seen.rested()

    def goes_to_the_end(self) -> None:
        """Runs what is left of the job, with its tool and its stop."""
        self.until("it asks for the tool", lambda s: s["waits"])
        self.seen.post("go")
        self.until("it is at M0", lambda s: s["does"] == "stopped" and not s["busy"])
        self.seen.post("run")
        state = self.until("it is through", lambda s: s["finished"] and not s["busy"])
        self.assertEqual((state["motors"][0], self.world.place[0]), ("6.000000", 6_000), self.seen.said())


class OverFile(Stopping):
    """OUT is a file that the player follows."""

    def test_given_up(self) -> None:
        """Amid a cut: the motors rest by a ramp, spindle and coolant go off before anything is asked, the line is given
        up, and soon lines of one's own, jog and home are taken; then the job goes from its first line to its end."""
        before = self.cutting()
        state = self.stop()
        self.assertFalse(self.is_on())
        self.assertEqual((state["spindle"], state["flood"], state["half"]), (0, False, "program"))
        at = self.world.place
        self.assertTrue(1_200 < at[0] < 4_000)
        with within_seconds(2):
            self.seen.agree(state)
            state = self.until("it is over", lambda s: not s["busy"] and s["half"] == "none")
            place = self.world.place
            self.assertEqual(self.does("mdi", line="G0 Z3")["at"][2], "3.000000")
        self.assertEqual((state["does"], state["known"], state["ended"], state["line"], state["session"]),
                         ("idle", True, "", 5, before["session"]))
        self.assertEqual((place, round(1000 * float(state["at"][0]))), (at, at[0]))
        self.assertFalse(state["recover"]["left"])
        self.assertIsNone(self.player.poll())
        self.assertEqual(self.does("jog", axis="Y", sign=1, rate="600", length="1")["at"][1], "1.000000")
        self.assertEqual(self.does("home", axes="Z")["at"][2], "9.000000")
        self.assertTrue(self.does("mdi", line="G0 Y0 Z0")["can"]["rewind"])
        self.assertEqual(self.seen.post("rewind"), (200, {"taken": True}))
        state = self.until("it begins anew", lambda s: s["place"] == 0)
        self.assertFalse(state["can"]["rewind"])
        self.assertEqual(self.seen.post("run"), (200, {}))
        self.goes_to_the_end()

    def test_kept(self) -> None:
        """The line stays half-done, and recover goes on with it."""
        self.cutting()
        state = self.stop()
        self.refuses(state)
        state = self.until("it is over", lambda s: not s["busy"] and s["does"] == "idle")
        self.assertEqual((state["half"], state["word"], state["recover"]["left"]), ("program", "Half-done", True))
        self.assertFalse(self.is_on())
        at = self.world.place
        self.assertEqual(self.seen.post("recover", {"at": state["motors"]}), (200, {}))
        seen = set()
        while not (state := self.until("it asks, or runs", lambda s: s["waits"] or s["question"] and s["question"]["id"]
                                       not in self.seen.answered))["waits"]:
            seen.add(self.world.place[0])
            self.seen.agree(state)
        self.assertIn(at[0], seen)
        self.assertTrue(self.is_on())
        self.goes_to_the_end()

    def test_held_before(self) -> None:
        """Held amid the cut, the spindle goes off by its button; then Stop is taken there too."""
        self.cutting()
        self.seen.post("hold")
        state = self.until("it is held", lambda s: s["does"] == "held" and s["held_motors"] and not s["busy"])
        self.assertTrue(state["can"]["off"] and state["can"]["stop"] and self.is_on())
        self.assertEqual(self.seen.post("off"), (200, {}))
        state = self.until("it is off", lambda s: not s["busy"] and s["spindle"] == 0)
        self.assertFalse(self.is_on())
        self.assertEqual((state["again"], state["flood"]), ("the spindle, clockwise at 1000 and flood", False))
        self.wait_for("the record has it", lambda: self.recorded().outputs.spindle == 0)
        state = self.stop()
        self.seen.agree(state)
        state = self.until("it is over", lambda s: not s["busy"] and s["half"] == "none")
        self.assertEqual((state["again"], state["does"], self.is_on()), ("", "idle", False))

    def test_on_again(self) -> None:
        """What was switched off amid a line comes on again once that is agreed to, before the motors go on."""
        self.cutting()
        self.seen.post("hold")
        self.until("it is held", lambda s: s["held_motors"] and not s["busy"])
        self.seen.post("off")
        self.until("it is off", lambda s: not s["busy"] and s["spindle"] == 0)
        at = self.world.place
        self.assertEqual(self.seen.post("run"), (200, {}))
        state = self.seen.asked()
        self.assertIn("switched off by hand: the spindle, clockwise at 1000 and flood", state["question"]["text"])
        self.refuses(state)
        self.seen.rested()
        self.assertEqual((self.world.place, self.is_on()), (at, False))
        self.seen.post("run")
        self.seen.agree(self.seen.asked())
        state = self.until("it goes on", lambda s: s["spindle"] == 1 and float(s["motors"][0]) * 1000 > at[0])
        self.assertTrue(self.is_on())
        self.goes_to_the_end()

    def test_at_rest(self) -> None:
        """At M0 spindle and coolant go off by lines, so that `ngc` knows, and the program stays where it is."""
        self.load(self.seen, "G21 G90\nM3 S1000\nM8\nM0\nG1 X1 F600\nM2\n")
        self.seen.post("run")
        state = self.until("it is at M0", lambda s: s["does"] == "stopped" and not s["busy"])
        self.assertTrue(state["can"]["stop"] and self.is_on())
        self.assertEqual(self.seen.post("stop"), (200, {}))
        state = self.until("it is off", lambda s: not s["busy"] and s["spindle"] == 0)
        self.assertEqual((state["does"], state["line"], state["again"]), ("stopped", 5, ""))
        self.assertEqual(Path("out").read_text().splitlines()[-2:], ["S 0 1000.000000 0 1 0 0",
                                                                     "S 0 1000.000000 0 0 0 0"])
        self.assertTrue(state["can"]["rewind"])

    def test_at_rest_with_nothing_on(self) -> None:
        """At M0 with nothing on Stop has nothing to end, and is dead; the program begins anew by its own button."""
        self.load(self.seen, "G17 G21 G90 G94\nG1 X0.2 F600\nM0\nM2\n")
        self.assertEqual(self.seen.post("run"), (200, {}))
        state = self.until("it is at M0", lambda state: state["does"] == "stopped" and not state["busy"])
        can = {name: state["can"][name] for name in ("stop", "off", "rewind")}
        self.assertEqual(can, {"stop": False, "off": False, "rewind": True})

    def test_at_a_tool_change(self) -> None:
        """Where the player asks for a tool the job ends too, and nobody is asked for it any more."""
        self.load(self.seen, "G21 G90\nM3 S1000\nG1 X0.1 F600\nT2 M6\nG1 X1 F600\nM2\n")
        self.seen.post("run")
        state = self.until("it asks for the tool", lambda s: s["waits"])
        self.assertEqual((state["can"]["off"], state["can"]["stop"]), (bool(state["spindle"]), True))
        state = self.stop()
        self.assertEqual(self.seen.post("go"), (409, {"why": "Stop ends the job: no tool is asked for any more"}))
        self.seen.agree(state)
        state = self.until("it is over", lambda s: not s["busy"] and s["does"] == "idle")
        self.assertEqual((state["waits"], state["half"], state["slot"], state["word"]), (False, "none", 0, "Idle"))
        self.assertEqual(self.does("mdi", line="G0 X0.5")["motors"][0], "0.500000")

    def test_switches_stay(self) -> None:
        """Optional stop and block delete are those of before; so is the override."""
        self.cutting()
        for name in ("optional", "delete"):
            self.assertEqual(self.seen.post("switch", {"name": name, "on": True}), (200, {}))
        self.seen.post("percent", {"percent": 50})
        self.seen.agree(self.stop())
        state = self.until("it is over", lambda s: not s["busy"] and s["half"] == "none" and s["does"] == "idle")
        self.assertEqual((state["optional"], state["delete"], state["percent"]), (True, True, 50))
        self.load(self.seen, "G21\n/G0 X9\nM1\nM2\n")
        self.seen.post("run")
        state = self.until("it stops at M1", lambda s: s["does"] == "stopped" and not s["busy"])
        self.assertNotEqual(state["motors"][0], "9.000000")

    def test_alarm_and_back(self) -> None:
        """After the emergency stop amid a cut: home, and the line is half-done, with the same player."""
        before = self.cutting()
        self.world.put(STOP, False)
        state = self.until("the alarm stands", lambda s: s["alarm"] and not s["busy"])
        self.assertEqual((state["alarm"], state["word"], self.is_on()), ("emergency_stop", "ALARM", False))
        self.assertFalse(state["can"]["stop"] or state["can"]["off"])
        self.world.put(STOP, True)
        self.until("it is off again", lambda s: not s["inputs"])
        self.seen.post("home", {"axes": ""})
        state = self.until("it is homed, and goes on", lambda s: s["homed"] == "XYZ" and not s["busy"])
        self.assertEqual((state["word"], state["half"], state["broken"], state["ended"], state["session"]),
                         ("Half-done", "program", False, "", before["session"]))
        self.assertIsNone(self.player.poll())
        self.assertEqual(self.seen.post("recover", {"at": state["motors"]}), (200, {}))
        state = self.seen.asked()
        self.assertIn("by legs", state["question"]["text"])

    def takes_up(self, state: dict) -> dict:
        """Takes a half-done line up, by legs from where home left the motors, with a yes to each question: the state at
        the job's end. The outputs come on, and are looked at, before anything moves."""
        self.assertEqual(self.seen.post("recover", {"at": state["motors"]}), (200, {}))
        state, stood = self.seen.asked(), self.world.place
        self.assertIn("by legs", state["question"]["text"])
        looked = False
        while state["question"]:
            if state["question"]["purpose"] == "look":
                self.assertEqual((looked, self.is_on(), self.world.place), (False, True, stood))
                looked = True
            self.assertLess(len(self.seen.answered), 20, state["question"])
            self.seen.agree(state, LEGS.get(state["question"]["text"].split()[0], ""))
            state = self.until("it asks, or is through", lambda s: s["question"]
                               and s["question"]["id"] not in self.seen.answered or s["finished"] and not s["busy"])
        self.assertTrue(looked)
        return state

    def test_alarm_while_held(self) -> None:
        """The emergency stop comes where the job is held between two lines, and nothing is in hand: once the machine is
        homed, the next line isn't begun, and the job goes on with it, which nothing but the page is needed for."""
        self.load(self.seen, "G21 G90\nM3 S1000\nG1 X1 F600\nG1 X2\nM5\nM2\n")
        self.seen.post("switch", {"name": "single", "on": True})
        for line in (3, 4):
            self.seen.post("run")
            before = self.until("it is held", lambda s, line=line: s["does"] == "held" and s["line"] == line
                                and not s["busy"])
        self.assertEqual((before["behind"], before["half"], self.is_on()), (0, "none", True))
        self.world.put(STOP, False)
        self.until("the alarm stands", lambda s: s["alarm"] and not s["busy"])
        self.world.put(STOP, True)
        self.until("it is off again", lambda s: not s["inputs"])
        self.seen.post("home", {"axes": ""})
        state = self.until("it is homed", lambda s: s["homed"] == "XYZ" and not s["busy"])
        self.assertEqual((state["does"], state["half"], state["line"], state["known"], state["at"], state["session"]),
                         ("idle", "none", 4, True, state["motors"], before["session"]), self.seen.said())
        self.assertEqual((state["single"], state["spindle"], state["apart"]), (True, 0, [False] * 3))
        self.seen.post("switch", {"name": "single", "on": False})
        self.seen.post("run")
        for says in ("the player has all of it off", "line 4 begins at X1 Y0 Z0"):
            self.seen.agree(self.seen.asked())
            self.assertIn(says, self.seen.said())
        state = self.until("it is through", lambda s: s["finished"] and not s["busy"])
        self.assertEqual(state["motors"][0], "2.000000")

    def test_limit_and_back(self) -> None:
        """After a limit: the cause is named, and the line is half-done once the machine is homed; taken up, the job is
        cut to its end."""
        self.world.switch(4, X_HIGH, 0, 1, 2_000)
        self.load(self.seen, "G21 G90\nM3 S1000\nG1 X4 F600\nM2\n")
        self.seen.post("run")
        state = self.until("the alarm stands", lambda s: s["alarm"] and not s["busy"])
        self.assertEqual((state["alarm"], state["inputs"]), ("limits", ["limit_x_high"]))
        self.seen.post("home", {"axes": ""})
        state = self.until("it is homed, and goes on", lambda s: s["homed"] == "XYZ" and not s["busy"])
        self.assertEqual((state["half"], state["does"]), ("program", "idle"))
        self.world.no_switch(4)
        state = self.takes_up(state)
        self.assertEqual((self.world.place[0], state["motors"][0]), (4_000, "4.000000"))

    def test_jog(self) -> None:
        """A jog ends, and nothing else."""
        self.seen.post("jog", {"axis": "X", "sign": 1, "rate": "60", "length": "5"})
        self.until("it jogs", lambda s: float(s["motors"][0]) > 0.1)
        self.assertEqual(self.seen.post("stop"), (200, {}))
        state = self.seen.rested()
        self.assertEqual((state["does"], state["half"], state["known"]), ("idle", "none", True))
        self.assertLess(self.world.place[0], 5_000)


class OverPipe(Stopping):
    """OUT is a pipe."""

    OUT = "axis"

    def test_given_up(self) -> None:
        """The player is there for the next session's pipe, which soon takes a line too."""
        self.cutting()
        state = self.stop()
        self.assertFalse(self.is_on())
        at = self.world.place
        with within_seconds(2):
            self.seen.agree(state)
            state = self.until("it is over", lambda s: not s["busy"] and s["half"] == "none" and s["does"] == "idle")
            place = self.world.place
            self.assertEqual(self.does("mdi", line="G0 X0")["motors"][0], "0.000000")
        self.assertEqual((state["known"], round(1000 * float(state["at"][0])), place), (True, at[0], at))
        self.assertIsNone(self.player.poll())

    def test_kept(self) -> None:
        """The line stays half-done; what was in hand is told as never cut, where some came before it."""
        self.cutting()
        self.refuses(self.stop())
        state = self.until("it is over", lambda s: not s["busy"] and s["does"] == "idle")
        self.assertEqual((state["half"], state["word"]), ("program", "Half-done"))

    def test_quit(self) -> None:
        """Amid a fast cut no axis loses more speed than its acceleration, down to the last pulse; right behind that,
        and not before it, spindle and coolant go off. Then a session ends as always, and the player with it."""
        self.load(self.seen, FAST)
        self.assertEqual(self.seen.post("run"), (200, {}))
        self.until("it cuts", lambda s: s["line"] > 4)
        slowness, state = slow_by(), self.stop()
        (last,) = self.world.last(1)
        off_s = self.world.switched_at - last.at
        self.assertFalse(self.is_on())
        self.assertTrue(0 <= off_s < 0.5 * max(slowness, slow_by(), slow_by()), off_s)
        self.seen.agree(state)
        self.until("it is over", lambda s: not s["busy"] and s["half"] == "none" and s["does"] == "idle")
        self.seen.post("quit")
        self.assertEqual(self.server.wait(PATIENCE_S), 0)
        self.assertEqual(self.player.wait(PATIENCE_S), 0)
        due_s = [int(line.split()[0]) / 1e9 for line in Path("times").read_text().splitlines() if " P " in line]
        rest_s = due_s[-1] + sqrt(2 / 500_000)  # a hold ends right before the next step: a ramp takes s = a t t / 2
        for steps in (10, 30, 60, 100):
            self.assertGreater(rest_s - due_s[-steps], sqrt(2 * (steps - 4) / 500_000), steps)  # they may be two off


class Documented(Moving):
    """docs/PAGE.md's first step, with the machine's file that docs/MACHINE.md shows, and examples/mill.toml."""

    def test_home(self) -> None:
        """All axes are homed: they stand where the file says, 2 mm from their switches."""
        shown = chapters("MACHINE.md")
        Path("first.toml").write_text((TOOLS.parent / "examples/mill.toml").read_text())
        Path("mill.toml").write_text("\n".join(blocks(shown["Motors"])[:1] + blocks(shown["Inputs and home"])))
        self.world.set(0, 1 << AT_SPEED | 1 << PROBE)  # their contacts are open; that of the emergency stop is closed
        for number, (high, axis, sign) in enumerate(((1, 0, -1), (2, 1, -1), (3, 2, 1))):
            self.world.switch(number, high, axis, sign, sign * 2_000)
        self.started("--untimed")
        self.assertEqual(self.how(self.link.home()), "done")
        self.assertEqual((self.at(), self.link.machine().homed), ((-150, -100, 0), "XYZ"))
        self.assertIn("`[motion]`, `[inputs]` and `[home]` as MACHINE.md shows them",
                      (TOOLS.parent / "docs/PAGE.md").read_text().replace("\n", " "))


class OfConsole(Moving):
    """The words of ngc-operate, at a terminal."""

    def test_words(self) -> None:
        """`stop` that is typed while something runs holds it, and then ends it: nothing is on, the line is given up,
        lines of one's own are taken, and `rewind` leads to line 1. `off` amid a hold, and on again by `run`."""
        self.device()
        Path("out").touch()
        Path("mill.toml").write_text(MILL)
        Path("part.ngc").write_text("G17 G21 G90 G94\nM3 S1000\nG1 X4 F60\nM5\nM2\n")
        self.begin("--follow", "--machine", "mill.toml", "--progress", "progress", "out", "first.toml", "position")
        link = self.linked()
        terminal = Terminal(str(TOOLS / "ngc-operate"), "mill.dev", "first.toml", "out", "--player", "progress",
                            "--ngc", ngc(), columns=120)

        def typed(line: str, *ends: str) -> str:
            terminal.send(line.encode() + b"\n")
            return terminal.read_to(tuple(end.encode() for end in ends or ("ngc> ",))).decode().replace("\r\n", "\n")

        def cuts() -> None:
            terminal.send(b"run\n")
            self.wait_for("it cuts", lambda: self.world.place[0] > 500)

        terminal.read_to((b"ngc> ",))
        typed("load part.ngc")
        cuts()
        said = typed("stop", "half-done: ")
        self.assertIn("Stopped in segment 0 of line 3: G1 X4 F60. Given up,", said)
        self.assertEqual((link.ask().outputs.spindle, self.world.get(IS_ON)), (0, 0))
        with within_seconds(2):
            said = typed("yes")
            behind = link.ask().behind
            done = typed("G0 X0")
        self.assertIn("given up: run begins that line again, from where the machine stands\n", said)
        self.assertEqual(behind, 0)
        self.assertIn("idle; X 0.000000 Y 0.000000 Z 0.000000; next line 3 of 5", done)
        self.assertIn("nothing runs\n", typed("stop"))
        self.assertIn("from line 1, 41 bytes, 5 lines", typed("rewind"))
        cuts()
        typed("")
        self.assertIn("spindle and coolant are off; what was on comes on again", typed("off"))
        self.assertEqual(self.world.get(IS_ON), 0)
        self.assertIn("switched off by hand: the spindle, clockwise at 1000.", typed("run", "leaves it off: "))
        self.assertIn("idle; X 4.000000", typed("yes"))
        typed("quit", "never")
        self.assertEqual(terminal.status(), 0)


if __name__ == "__main__":
    unittest.main()
