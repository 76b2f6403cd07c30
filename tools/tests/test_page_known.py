"""What the page says of a machine with a door, switches and a spindle that tells its speed: what holds it, what moves,
what an alarm came by, and that nothing is shown that isn't known. The player is tools/player over a simulated machine.
"""
import os
import signal
import subprocess
import sys
import threading
import unittest
from dataclasses import replace
from pathlib import Path

sys.path.insert(0, str(Path(__file__).resolve().parent))

from out_support import text_of
from page_support import OTHER, Page, Served
from session_support import PATIENCE_S, ngc
from test_moves import AT_SPEED, DOOR, MACHINE, STOP, X_LOW, World, program

from ngc_tools.link.progress import Link

QUICK = MACHINE.replace("[60, 60, 60]", "[600, 600, 600]").replace("agree_um = 20", "agree_um = 1000")
CUT = "G17 G21 G90 G94\nG0 X0 Y0 Z0\nG1 X9 F60\nM2\n"
"""Its line 3 is a cut of nine seconds."""
IS_ON = 4  # a field of the world
CHANGE = """G17 G21 G90 G94
T1 M6
G43 H1
G0 X0 Y0
G1 X1 F600
T2 M6
G43 H2
G1 X9 F60
M2
"""
"""Tool 2 comes in its line 6."""


def child_of(parent: int, program_path: str) -> int:
    """The process of a program that another one started."""
    for path in Path(f"/proc/{parent}/task").glob("*/children"):
        for pid in path.read_text().split():
            if Path(f"/proc/{pid}/exe").resolve() == Path(program_path).resolve():
                return int(pid)
    raise AssertionError(f"{parent} started no {program_path}")


class Known(Served):
    """The page, told by requests."""

    OUT = "out"

    def begin_player(self) -> None:
        """Starts it over the machine, whose spindle is at its speed as it turns."""
        if not Path("world").exists():
            self.world = World()
            self.addCleanup(self.world.close)
            self.world.set(5, 1 << AT_SPEED)  # high while the spindle turns
            Path("motion.toml").write_text(QUICK)
        self.player = subprocess.Popen([program(), "-f", "-s", "progress", "-m", "motion.toml", "out", "first.toml",
                                        "position"], stdin=subprocess.DEVNULL, stdout=subprocess.PIPE,
                                       stderr=subprocess.PIPE, text=True)
        self.addCleanup(self._end, self.player)
        self.wait_for("the player listens", lambda: os.path.exists("progress"))

    def begin(self) -> None:
        """Starts both."""
        self.begin_player()
        self.serve()

    def serve(self) -> None:
        """Starts the server."""
        self.server = self.start("ngc-page", "mill.dev", "first.toml", "out", "--player", "progress", "--machine",
                                 "motion.toml", "--ngc", ngc(), "--listen", "127.0.0.1:0")
        self.address = self.server.stdout.readline().strip()
        if not self.address:
            self.fail(self.server.stderr.read())

    def runs(self, page: Page, text: str, x_mm: float) -> dict:
        """Loads a program, and runs it until the motors are behind that X."""
        self.load(page, text)
        self.assertEqual(page.post("run"), (200, {}))
        return page.until("it cuts", lambda state: float(state["motors"][0]) > x_mm)

    def cut_off(self) -> Page:
        """Power is lost amid a jog. The page of the session after that."""
        page = self.page()
        page.post("jog", {"axis": "X", "sign": 1, "rate": "600", "length": "9"})
        page.until("it jogs", lambda state: float(state["motors"][0]) > 1)
        self.wait_for("the record has it", lambda: self.recorded().at_nm[0] > 0)
        self.pull()
        self.begin()
        return self.page(OTHER)

    def stopped(self, page: Page) -> dict:
        """The state once the motors rest, held."""
        return page.until("they rest", lambda state: state["held_motors"] and state["word"] != "Running")

    def test_door(self) -> None:
        """An open door is named in a cut, and at rest; once it is closed the job goes on from the page."""
        page = self.page()
        self.runs(page, CUT, 0.1)
        self.world.put(DOOR, True)
        state = page.until("it is named", lambda state: state["door_open"] and state["held_by"])
        self.assertEqual((state["word"], state["tone"], state["held_by"], state["detail"], state["busy"]),
                         ("Held", "hold", "door", "The door is open. Close it; then Go on", True))
        self.world.put(DOOR, False)
        state = page.until("it is closed", lambda state: not state["door_open"])
        self.assertEqual((state["word"], state["detail"]),
                         ("Held", "The door was open, and is closed now. Go on carries on"))
        x = float(state["motors"][0])
        self.assertEqual(page.post("release"), (200, {}))
        state = page.until("it goes on", lambda state: float(state["motors"][0]) > x)
        self.assertEqual((state["word"], state["held_by"]), ("Running", ""))
        page.post("hold")
        state = page.until("it is held", lambda state: not state["busy"])
        self.assertEqual((state["word"], state["detail"], state["held_by"]),
                         ("Held", "Before the rest of line 3 of 4", "here"))
        self.world.put(DOOR, True)
        state = page.until("it is named", lambda state: state["door_open"])
        self.assertEqual(state["detail"], "The door is open. Close it; then Go on")

    def test_another_page(self) -> None:
        """Another page's hold is named on this one, and there it is its own."""
        page, other = self.page(), self.page(OTHER)
        self.runs(page, CUT, 0.1)
        other.post("hold")
        state = page.until("it is held", lambda state: not state["busy"] and state["does"] == "held")
        self.assertEqual(state["detail"], "Another page held it. Before the rest of line 3 of 4")
        state = other.until("it is held", lambda state: not state["busy"])
        self.assertEqual(state["detail"], "Before the rest of line 3 of 4")

    def test_spindle(self) -> None:
        """While it isn't at its speed that is said; where it never is, the motors are held by it."""
        page = self.page()
        self.world.set(5, 0)
        self.load(page, "M3 S1000\n" + CUT)
        self.assertEqual(page.post("run"), (200, {}))
        state = page.until("it waits", lambda state: "speed" in state["detail"] and state["word"] == "Running")
        self.assertIn("the spindle isn't at its speed yet", state["detail"])
        self.assertEqual((state["spindle"], state["can"]["off"]), (1, True))  # it turns already
        state = self.stopped(page)
        self.assertEqual((state["word"], state["held_by"], state["detail"]), (
            "Held", "spindle", "The spindle didn't come to its speed. Look at it; Go on waits for it once more"))
        self.world.set(5, 1 << AT_SPEED)
        self.assertEqual(page.post("release"), (200, {}))
        page.until("it goes on", lambda state: float(state["motors"][0]) > 0 and state["word"] == "Running")

    def test_off_in_the_wait(self) -> None:
        """While the spindle is waited for it goes off by its button, and comes on again once that is agreed to."""
        Path("motion.toml").write_text(QUICK.replace("at_speed_s = 1", "at_speed_s = 60"))
        self.again()
        page = self.page()
        self.world.set(5, 0)
        self.load(page, "M3 S1000\n" + CUT)
        self.assertEqual(page.post("run"), (200, {}))
        page.until("it waits", lambda state: "speed" in state["detail"] and state["can"]["off"])
        self.assertEqual(self.world.get(IS_ON), 1)
        self.assertEqual(page.post("off"), (200, {}))
        state = page.until("it is off", lambda state: state["spindle"] == 0 and state["again"] and state["held_by"])
        self.assertEqual((self.world.get(IS_ON), state["motors"][0], state["word"], state["detail"]), (
            0, "0.000000", "Held", "Spindle and coolant were switched off by hand. Go on asks before they come on again"
            ))
        self.world.set(5, 1 << AT_SPEED)
        self.assertEqual(page.post("release"), (200, {}))
        page.agree(page.asked())
        page.until("it cuts", lambda state: float(state["motors"][0]) > 0 and state["spindle"] == 1)
        self.assertEqual(self.world.get(IS_ON), 1)

    def again(self) -> None:
        """Both are started anew."""
        self.pull()
        self.begin()

    def test_half_done(self) -> None:
        """With a line half-done the band says that the machine homes or jogs, and no line; before the line is where it
        began, wherever the axes were moved since."""
        page = self.page()
        self.runs(page, CUT, 0.1)
        self.again()
        page = self.page()
        self.assertEqual(page.post("home", {}), (200, {}))
        state = page.until("it homes", lambda state: state["does_move"].startswith("home "))
        self.assertEqual((state["half"], state["word"], state["detail"]), ("program", "Homing", state["does_move"][5:]))
        page.until("it is homed", lambda state: state["homed"] == "XYZ" and not state["busy"])
        self.assertEqual(page.post("jog", {"axis": "Z", "sign": -1, "rate": "600", "length": "2"}), (200, {}))
        state = page.until("it jogs", lambda state: state["does_move"].startswith("jog"))
        self.assertEqual((state["word"], state["detail"]), ("Jogging", state["does_move"][4:]))
        state = page.until("it stands", lambda state: not state["busy"] and state["motors"][2] == "7.000000")
        self.assertEqual((state["half"], state["word"], state["began_at"]), ("program", "Half-done", ["0.000000"] * 3))

    def test_moves(self) -> None:
        """What moves without lines is named, and no line is; a limit too. The next run isn't done before it begins."""
        page = self.page()
        self.assertEqual(page.post("home", {}), (200, {}))
        state = page.until("it homes", lambda state: state["does_move"].startswith("home "))
        self.assertEqual((state["word"], state["detail"]), ("Homing", state["does_move"][5:]))
        page.until("it is homed", lambda state: state["homed"] == "XYZ" and not state["busy"])
        self.load(page, "G0 X1\nG1 X0 F60\nM2\n")
        for _ in range(2):
            self.assertEqual(page.post("run"), (200, {}))
            state = page.until("it runs", lambda state: state["busy"])
            self.assertFalse(state["finished"])
            page.until("it is done", lambda state: state["finished"] and not state["busy"])
        self.world.put(X_LOW, True)
        state = page.until("it is told", lambda state: state["alarm"])
        self.assertEqual((state["word"], state["alarm"], state["stale"]["why"]), ("ALARM", "limits", "alarm"))
        state = page.until("its cause too", lambda state: "imit" in state["detail"])
        self.assertTrue(state["detail"].startswith("Limit X low. The motors stood at once"), state["detail"])

    def test_player_gone(self) -> None:
        """Where its player is killed in a cut, the page shows the place and the tool that it told last, and when."""
        page = self.page()
        state = self.runs(page, CUT, 1)
        os.kill(self.player.pid, signal.SIGKILL)
        state = page.until("it is gone", lambda state: state["player_gone"])
        self.assertGreater(float(state["motors"][0]), 1)
        self.assertEqual((state["work"][0], state["slot"], state["stale"]["why"]), (state["motors"][0], 0, "player"))
        self.assertLess(state["now"] - state["stale"]["at"], 30)

    def test_gone_before_it_is_told(self) -> None:
        """A player that began again by its record alone, and is gone before anybody told where the motors are: its
        place is shown with how far the record may be off, and not as one that was known."""
        page = self.cut_off()
        page.until("two places are told", lambda state: state["word"] == "Two places")
        os.kill(self.player.pid, signal.SIGKILL)
        state = page.until("it is gone", lambda state: state["player_gone"])
        self.assertEqual((state["stale"]["why"], state["stale"]["by_record"]), ("player", True))
        self.assertGreater(float(state["past_mm"]), 0)

    def test_cut_off_at_once(self) -> None:
        """Power is lost at a jog's first pulses: by the record the motors stand where they stood before it, and the
        page doesn't say so. Nothing goes from there before somebody tells where the machine is."""
        page = self.page()
        page.post("jog", {"axis": "X", "sign": 1, "rate": "600", "length": "9"})
        self.wait_for("it moves", lambda: self.world.place[0] > 0)
        self.pull()
        marked = replace(self.recorded(), at_nm=(0, 0, 0), is_off=False, path_nm=None)
        self.assertEqual(marked.stopped, "moving")
        Path("position").write_bytes(text_of(marked))  # as it was synced before the first one
        self.begin()
        page = self.page(OTHER)
        state = page.until("it is looked at", lambda state: state["motors"])
        self.assertEqual((state["word"], state["tone"], state["unsure"], state["known"], state["apart"]),
                         ("Place unsure", "ask", True, True, [False] * 3))
        self.assertEqual((state["stale"]["why"], state["past_axes"], state["can"]["zero"]),
                         ("power", [True] * 3, False))
        self.assertEqual(page.post("mdi", {"line": "G0 X1"}), (200, {}))
        state = page.until("it is refused", lambda state: not state["busy"] and "may have gone on" in page.said())
        self.assertEqual(state["motors"], ["0.000000"] * 3)
        self.assertEqual(page.post("jog", {"axis": "Y", "sign": 1, "rate": "600", "length": "1"}), (200, {}))
        state = page.until("it jogs", lambda state: not state["busy"] and state["motors"][1] == "1.000000")
        self.assertEqual((state["word"], state["unsure"], state["stale"]["why"]), ("Two places", True, "power"))
        self.assertEqual(page.post("reference", {"at": "player"})[0], 200)
        state = page.until("it is told", lambda state: not state["unsure"] and not state["busy"])
        self.assertEqual((state["word"], state["stale"], state["at"]), ("Idle", None, state["motors"]))

    def test_counted_over_a_stop(self) -> None:
        """A player that goes on with another session has counted all along: nothing is by a record."""
        page = self.page()
        self.runs(page, CUT, 0.1)
        self.assertEqual(page.post("stop"), (200, {}))
        state = page.asked()
        page.post("answer", {"question": state["question"]["id"], "yes": False})
        state = page.until("it is kept", lambda state: not state["busy"] and state["half"] == "program"
                           and not state["held_motors"])
        self.assertEqual((state["past_mm"], state["past_axes"]), ("", [False] * 3))
        os.kill(self.player.pid, signal.SIGKILL)
        state = page.until("it is gone", lambda state: state["player_gone"])
        self.assertFalse(state["stale"].get("by_record"))

    def test_given_up(self) -> None:
        """Power is lost in a cut, and the line is given up while lines of it stand in OUT: the buttons that are shown
        then lead on. Recover goes to where it began, ngc is told so, and it is cut from there."""
        page = self.page()
        self.runs(page, CUT, 0.5)
        self.wait_for("the record has it", lambda: self.recorded().at_nm[0] > 0)
        self.pull()
        self.begin()
        page = self.page(OTHER)
        state = page.until("it is half-done", lambda state: state["half"] == "program" and state["recover"])
        self.assertEqual(page.post("reference", {"at": state["motors"], "anyway": True}), (200, {"refused": ""}))
        self.assertEqual(page.post("abandon"), (200, {}))
        state = page.until("it is given up", lambda state: state["half"] == "none" and not state["busy"])
        self.assertEqual((state["word"], state["recover"]["left"]), ("Lines left", True))
        self.assertEqual(page.post("recover", {"at": state["motors"]}), (200, {}))
        page.agree(page.asked())
        state = page.until("it is there", lambda state: not state["busy"] and not state["recover"]["left"])
        self.assertEqual((state["word"], state["detail"], state["motors"], state["at"], state["apart"], state["known"]),
                         ("Idle", "Next is line 3 of 4", ["0.000000"] * 3, ["0.000000"] * 3, [False] * 3, True))
        self.assertEqual(Path("out").read_bytes(), b"")

    def test_given_up_in_hand(self) -> None:
        """`ngc` is gone while a cut is held, and its line is given up with lines in hand: the band names what leads on,
        and Stop lets go of them."""
        page = self.page()
        self.runs(page, CUT, 0.5)
        page.post("hold")
        held = self.stopped(page)
        os.kill(child_of(self.server.pid, ngc()), signal.SIGKILL)
        page.until("it is told", lambda state: state["ended"])
        self.assertEqual(page.post("restart"), (200, {}))
        page.until("it is half-done", lambda state: state["half"] == "program" and not state["ended"])
        page.post("reference", {"at": held["motors"], "anyway": True})
        self.assertEqual(page.post("abandon"), (200, {}))
        state = page.until("it is given up", lambda state: state["half"] == "none" and not state["busy"])
        self.assertEqual((state["word"], state["can"]["stop"]), ("Held", True))
        self.assertRegex(state["detail"],
                         r"^Recover has them carry out [\d,]+ lines in hand first; Stop lets go of these$")
        self.assertEqual(page.post("stop"), (200, {}))
        page.agree(page.asked())
        state = page.until("they are let go", lambda state: not state["busy"] and not state["behind"])
        self.assertEqual((state["word"], state["motors"], state["at"]), ("Idle", held["motors"], held["motors"]))

    def test_held_on_the_way(self) -> None:
        """A way back that this page held: the band names the button that goes on with it."""
        page = self.page()
        self.runs(page, CUT, 1.2)
        self.wait_for("the record has it", lambda: self.recorded().at_nm[0] > 1_000_000)
        self.pull()
        self.begin()
        page = self.page(OTHER)
        state = page.until("it is half-done", lambda state: state["half"] == "program" and state["recover"])
        began = float(state["motors"][0])
        self.assertEqual(page.post("recover", {"at": state["motors"]}), (200, {}))
        page.agree(page.asked())
        page.until("it goes back", lambda state: float(state["motors"][0]) < began - 0.1)
        page.post("hold")
        state = page.until("it is held", lambda state: state["held_motors"] and not state["busy"])
        self.assertEqual((state["word"], state["detail"]), ("Held", "Recover goes on with the way that was held"))

    def test_tool_change(self) -> None:
        """Power is lost at a tool change: the place is that of the tool which is in by the record, not of the next one.
        """
        page = self.page()
        for slot, length in ((1, "5"), (2, "2")):
            page.post("tool", {"slot": slot, "length": length})
        self.load(page, CHANGE)
        self.assertEqual(page.post("run"), (200, {}))
        for slot in (1, 2):
            state = page.until("a tool is wanted", lambda state, slot=slot: state["waits_tool"] == slot)
            self.assertEqual((state["word"], state["tone"]), ("Tool change", "ask"))
            if slot == 1:
                page.post("go")
        was = state["motors"]
        self.wait_for("the record has it", lambda: [f"{nm / 10**6:.6f}" for nm in self.recorded().at_nm] == was)
        self.pull()
        self.begin()
        state = self.page(OTHER).until("the record is read", lambda state: state["motors"])
        self.assertEqual((state["half"], state["slot"], state["motors"], state["stale"]["why"]),
                         ("program", 1, was, "power"))
        self.assertEqual((float(state["work"][2]), state["tool_length"]), (float(was[2]) - 5, "5.000000"))
        self.assertGreater(state["stale"]["at"], 0)

    def wants_tool(self, rest: str, does: str) -> tuple[Page, dict]:
        """A page, and its state, once `ngc` and the server were killed and begun again while the player waits for a
        tool, with the lines of a rest of the program in hand."""
        page = self.page()
        self.assertEqual(page.post("tool", {"slot": 2, "length": "2"}), (200, {}))
        self.load(page, "G17 G21 G90 G94\nG0 X0.5\nT2 M6\nG43 H2\n" + rest)
        self.assertEqual(page.post("run"), (200, {}))
        page.until("it is handed out", lambda state: state["waits_tool"] == 2 and state["does"] == does
                   and state["behind"] > 400)
        for pid in (*self.children(), self.server.pid):
            os.kill(pid, signal.SIGKILL)
        self.server.wait()
        self.serve()
        page = self.page(OTHER)
        state = page.until("it is looked at", lambda state: state["waits_tool"] == 2 and state["recover"])
        self.assertEqual(state["recover"]["stands"], state["motors"])
        return page, state

    def test_carried_out_at_rest(self) -> None:
        """Lines in hand that are carried out while nothing is under way, as once a tool is in: where that leaves none
        the program goes on."""
        page, state = self.wants_tool("G1 X1 F600\nM0\nG1 X1.5\nM2\n", "stopped")
        self.assertEqual((state["half"], state["recover"]["left"]), ("none", True))
        page.post("go")
        state = page.until("nothing is left", lambda state: not state["behind"] and not state["recover"]["left"])
        self.assertEqual((state["motors"][0], state["recover"]["stands"]), ("1.000000", state["motors"]))
        self.assertEqual(page.post("run"), (200, {}))
        page.until("it is through", lambda state: state["finished"] and state["motors"][0] == "1.500000")

    def test_half_carried_out_at_rest(self) -> None:
        """What recover would do is told from where the motors rest then, and done from there."""
        page, state = self.wants_tool("G1 X9 F60\nM2\n", "running")
        before = state["recover"]
        self.assertEqual((state["half"], before["left"]), ("program", True))
        page.post("go")
        state = page.until("it is told", lambda state: not state["behind"] and state["recover"]["lines"] > 501)
        self.assertEqual((state["recover"]["stands"], state["recover"]["way"]["back"]), (state["motors"], True))
        self.assertEqual(page.post("recover", {"at": state["motors"]}), (200, {}))
        page.agree(page.asked())
        state = page.until("it is there", lambda state: "with the cut" in (state["question"] or {"text": ""})["text"])
        self.assertEqual(state["motors"], before["at"])
        page.agree(state)
        page.until("it cuts on", lambda now: float(now["motors"][0]) > float(state["motors"][0]) + 0.1)

    def test_home_from_two_places(self) -> None:
        """Power is lost in a jog: until home is through the place isn't told as known, and one that is held amid it
        leaves two places, and how far each axis that isn't homed may be off."""
        page = self.cut_off()
        for ends, name, more in (("hold", "flood", 0), ("home", "coolant off", 1)):
            state = page.until("two places are told", lambda state: state["word"] == "Two places")
            self.assertEqual((float(state["past_mm"] or 0) > 0, state["past_axes"]), (True, [True] * 3))
            self.assertEqual((state["can"]["turn"], state["can"]["mdi"]), (False, True))
            self.assertEqual(page.post("turn", {"name": name}), (200, {}))
            page.until("it is looked at", lambda now, more=state["entries"] + more: now["entries"] == more
                       and not now["busy"] and page.said().count("mm apart. Nothing is done") == 1)
            self.assertEqual(page.post("home", {}), (200, {}))
            state = page.until("it homes", lambda state: state["does_move"].startswith("home "))
            self.assertEqual((state["word"], state["stale"] and state["stale"]["why"]), ("Homing", "power"))
            if ends == "hold":
                self.assertEqual(page.post("hold"), (200, {}))
        state = page.until("it is homed", lambda state: state["homed"] == "XYZ" and not state["busy"])
        self.assertEqual((state["word"], state["stale"], state["known"]), ("Idle", None, True))
        self.assertEqual((state["past_mm"], state["past_axes"]), ("", [False] * 3))

    def opens(self, page: Page) -> dict:
        """The door is opened, and closed once the page knows: the state then, and before."""
        self.world.put(DOOR, True)
        page.until("it is open", lambda state: state["door_open"] and not state["can"]["home"])
        self.world.put(DOOR, False)
        return page.until("it is closed", lambda state: not state["door_open"])

    def test_door_in_an_alarm(self) -> None:
        """The door is opened after an emergency stop, to look: nothing homes then, and once it is closed home leads
        back, though the door holds the motors till somebody asks to go on."""
        page = self.page()
        self.world.put(STOP, False)
        page.until("it is told", lambda state: state["alarm"])
        self.world.put(STOP, True)
        page.until("it is free", lambda state: not state["inputs"])
        self.assertTrue(self.opens(page)["can"]["home"])
        self.assertEqual(page.post("home", {}), (200, {}))
        state = page.until("it is homed", lambda state: state["homed"] == "XYZ" and not state["busy"])
        self.assertEqual((state["word"], state["alarm"]), ("Idle", ""))

    def test_door_at_two_places(self) -> None:
        """So a jog goes where the motors rest elsewhere than is known."""
        page = self.cut_off()
        page.until("two places are told", lambda state: state["word"] == "Two places")
        state = self.opens(page)
        self.assertTrue(state["can"]["jog"])
        self.assertEqual(page.post("jog", {"axis": "Y", "sign": 1, "rate": "600", "length": "1"}), (200, {}))
        page.until("it is there", lambda now: float(now["motors"][1]) == float(state["motors"][1]) + 1)

    def test_ended_with_its_session(self) -> None:
        """A jog whose server is gone ends as the next session begins, though somebody goes on to ask the player how it
        is: nobody of this session wants it."""
        page = self.page()
        page.post("jog", {"axis": "X", "sign": 1, "rate": "6", "length": "9"})
        page.until("it jogs", lambda state: float(state["motors"][0]) > 0.01)
        link, other, is_over = Link("progress", PATIENCE_S), Link("progress", PATIENCE_S), threading.Event()
        asks = threading.Thread(target=lambda: [other.ask() for _ in iter(lambda: is_over.wait(0.1), True)])
        asks.start()
        try:
            self.server.kill()
            self.server.wait()
            self.assertEqual(link.machine().does, "jog X+")
            self.serve()
            state = self.page(OTHER).next()
            self.assertEqual((state["machine"], state["word"]), ("stands", "Two places"))
        finally:
            is_over.set()
            asks.join()
            link.close()
            other.close()

    def test_not_known_yet(self) -> None:
        """Power is lost in a cut: as long as nobody said that the motors stand where the record has them, that isn't
        told as known, though recover is under way."""
        page = self.page()
        self.runs(page, CUT, 0.1)
        self.wait_for("the record has it", lambda: self.recorded().at_nm[0] > 0)
        self.pull()
        self.begin()
        page = self.page(OTHER)
        state = page.until("it is half-done", lambda state: state["half"] == "program")
        self.assertEqual(state["stale"]["why"], "power")
        self.assertEqual(page.post("recover"), (200, {}))
        state = page.asked()
        self.assertIn("Do they stand there?", state["question"]["text"])
        self.assertEqual(state["stale"] and state["stale"]["why"], "power")


if __name__ == "__main__":
    unittest.main()
