"""ngc-operate: home, jog and seek over a player that makes them, alarms, and touching off by the probe."""
import os
import signal
import sys
import time
import unittest
from dataclasses import replace
from pathlib import Path
from types import SimpleNamespace
from unittest.mock import patch

sys.path.insert(0, str(Path(__file__).resolve().parent))

from machine_support import STEP_NM, MachineLink, SocketMachine
from session_support import TOOLS, InFolder, Terminal, ngc
from test_operate import PROMPT, operate
from test_operator import Core

from ngc_tools.cli.keys import TerminalKeys
from ngc_tools.formats.position import Position
from ngc_tools.ngc.carried import CannotTell
from ngc_tools.ngc.handed_out import Finder, FileRecord
from ngc_tools.link.progress import Report
from ngc_tools.operator import jog_keys

HOMED = "-298.000000 -198.000000 -2.000000"
MOTORS = "the motors are at X {} Y {} Z {}, 0 lines behind"
FORMS = {
    "home": "home, or home X Z: these axes alone",
    "jog": "jog X+ RATE for MM: at a rate in mm a minute, as jog X+ 600 for 10; jog alone: by keys, at a terminal",
    "seek": "seek Z- RATE within MM: until the probe is on, as seek Z- 60 within 10",
}


class Moves(Core):
    """The commands, by a player within the process."""

    def setUp(self) -> None:
        """A player that makes moves."""
        super().setUp()
        self.link = MachineLink()
        self.axes = self.link.axes

    def test_home(self) -> None:
        """It homes, and tells `ngc` where the machine is then."""
        self.begin(self.link)
        at = HOMED.split()
        self.assertEqual(self.do("home"), [
            "homed: X Y Z", f"reference {HOMED}", "done 1", "idle; X {} Y {} Z {}".format(*at), MOTORS.format(*at)])
        self.assertEqual(self.axes.words, ["home 1"])
        self.assertEqual(self.status().at, tuple(at))
        self.do("Home x z")
        self.assertEqual(self.axes.words[-1], "home 2 XZ")
        self.assertEqual([view.line for view in self.face.views if view], ["home Z"] * 2 + ["home XZ"] * 2)

    def test_jog_and_seek(self) -> None:
        """A length, and the probe: where the machine comes to rest isn't where the probe was touched."""
        self.begin(self.link)
        self.do("jog x + 600 for 12.5", "JOG Y- 60.5 for 1in")
        self.assertEqual(self.axes.words, ["jog 1 X+ 600 for 12.5", "jog 2 Y- 60.5 for 25.4"])
        self.assertEqual(self.status().at, ("12.500000", "-25.400000", "0.000000"))
        self.assertEqual(self.do("seek Z- 60 within 10 until probe")[:3], [
            "the probe was touched at X 12.500000 Y -25.400000 Z -5.000000",
            "reference 12.500000 -25.400000 -5.020000", "done 3"])
        self.assertEqual(self.axes.words[-1], "seek 3 Z- 60 within 10")

    def test_jog_while(self) -> None:
        """A jog goes on while it is held."""
        self.begin(self.link)
        held = [True] * 4 + [False]
        self.face.said.clear()
        self.operator.moves.jog_while("X-", "60", lambda: held.pop(0))
        self.assertEqual(self.axes.words, ["jog 1 X- 60"] * 5 + ["stop"])
        self.assertEqual([text for _, text in self.face.said][:2], ["reference -4.000000 0.000000 0.000000", "done 1"])

    def test_refused(self) -> None:
        """What isn't understood, and what the player refuses: nothing moves, and `ngc` is told nothing."""
        self.begin(self.link)
        for typed in ("home Q", "jog", "jog X 600 for 1", "jog X+ for 1", "jog X+ 600", "jog X+ 0 for 1",
                      "jog X+ -5 for 1", "jog X+ 600 for 0", "jog W+ 600 for 1", "jog X+ 6e2 for 1", "seek Z- 60",
                      "seek Z- 60 within", "seek Z- 60 within x", "seek"):
            self.assertEqual(self.do(typed), [FORMS[typed.split()[0]]], typed)
        self.assertEqual(self.axes.words, [])
        for typed, name, why in (("home", "home", "the machine's file has no [home]"),
                                 ("jog X+ 600 for 1", "jog X+", "X ends at -300.000"),
                                 ("seek Z- 60 within 1", "seek Z-", "no input is the probe")):
            self.axes.refuses = why
            self.assertEqual(self.do(typed), [f"{name}: {why}"])
        self.assertEqual(self.status().entries, 0)

    def test_ends_otherwise(self) -> None:
        """Where a move ends otherwise that is said, and `ngc` is told where the machine is all the same."""
        self.begin(self.link)
        why = "X: two touches differ: -300.012 and -300.051"
        self.axes.fails = why
        self.assertEqual(self.do("home")[:3], [f"home: {why}", "reference 0.000000 0.000000 0.000000", "done 1"])
        self.axes.fails = "the probe isn't touched within 1.000 mm"
        self.assertEqual(self.do("seek Z- 60 within 1")[0], "seek Z-: the probe isn't touched within 1.000 mm")
        untouched = ("the probe wasn't touched since the machine moved last, or its place was used:"
                     " seek Z- RATE within MM")
        self.assertEqual(self.do("zero Z probe"), [untouched])
        self.face.looks, self.face.holds_at = 0, 2
        self.assertEqual(self.do("jog X+ 600 for 10")[0], "jog X+: stopped")
        self.assertEqual(self.axes.words[-1], "stop")

    def test_other_player(self) -> None:
        """Without a player, and with one that has no such moves."""
        self.begin()
        self.assertEqual(self.do("home"), ["no player is known: --player SOCKET"])
        self.end()
        self.link.knows = False
        self.begin(self.link)
        self.assertEqual(self.do("jog X+ 600 for 1"), [
            "progress: the player doesn't answer; home, jog and seek are of tools/player with -m"])
        self.assertEqual(self.status().entries, 0)

    def test_told(self) -> None:
        """The player carries out no line behind a move before it is told that `ngc` knows of it: that is said once both
        points are the same, or somebody goes on all the same."""
        self.begin(self.link)
        self.do("jog X+ 600 for 1")
        self.assertEqual(self.axes.word, "moved")
        self.axes.at_nm[1] += 1_000  # by a hand, which `ngc` doesn't know
        said = self.do("G0 X2")
        self.assertIn("0.001 mm apart. Nothing is done.", said[0])
        self.assertEqual((self.axes.word, self.out()), ("moved", []))
        self.do("G0 X1.5 anyway")
        self.assertEqual((self.axes.word, self.axes.at_nm), ("works", [1_500_000, 1_000, 0]))
        self.do("jog X+ 600 for 1", "reference player", "G0 X2.501")
        self.assertEqual((self.axes.word, self.axes.at_nm), ("works", [2_501_000, 1_000, 0]))

    def test_unsure(self) -> None:
        """Where two places are told a jog, or a home that doesn't end, makes none of them known: `ngc` isn't told."""
        self.begin(self.link)
        self.axes.at_nm[0] = 7_000_000  # power was lost in a jog
        unsure = ("ngc isn't told where the machine is, since it wasn't known before, and not each axis is homed:"
                  " reference player, or reference X Y Z")
        self.assertIn(unsure, self.do("jog X+ 600 for 1"))
        self.axes.fails = "stopped"
        self.assertIn(unsure, self.do("home"))
        self.assertEqual((self.status().at[0], self.axes.at_nm[0]), ("0.000000", 8_000_000))
        self.assertIn("8.000 mm apart. Nothing is done.", self.do("G0 X1")[0])
        self.assertIn(f"reference {HOMED}", self.do("home"))
        self.assertEqual(self.status().at, tuple(HOMED.split()))

    def test_stopped_outside(self) -> None:
        """A home that is stopped on its way to a switch beyond the travel leaves the machine where `ngc` can't be told
        that it is: that is said, and to home it tells it."""
        self.begin(self.link)
        home, self.axes.fails = self.link.home, "stopped"

        def begins(axes: str = "") -> tuple[int, str]:
            """It is on its way then."""
            taken = home(axes)
            self.axes.at_nm[0] = -1_000_365_000
            return taken

        with patch.object(self.link, "home", begins):
            said = self.do("home")
        self.assertEqual(said[:2], ["home: stopped", (
            "X -1,000.365 is outside the travel, which ends at -1,000 (low_nm of the settings), and so ngc isn't told"
            " where the machine is: home tells it")])
        self.assertEqual((self.status().at[0], self.status().entries), ("0.000000", 0))
        self.assertNotIn("refused", [kind for kind, _ in self.face.said])
        self.axes.fails = ""
        self.assertIn(f"reference {HOMED}", self.do("home"))

    def test_cut_off(self) -> None:
        """A player that isn't sure where the motors are, though `ngc` has them there too: nothing goes from there
        before somebody tells it, and a jog makes it no surer."""
        self.begin(self.link)
        self.axes.word = "unsure"
        self.assertIn("not sure where they are", " ".join(self.do("where")))
        cut_off = ("the motors moved without lines as their last player ended, as by a loss of power: the record has"
                   " them at X 0.000000 Y 0.000000 Z 0.000000, and they may have gone on. Nothing is done.\n  reference"
                   " player takes that place, and home tells it anew; anyway G0 X1 goes on from there")
        self.assertEqual(self.do("G0 X1"), [cut_off])
        self.assertIn("zero X anyway goes on from there", self.do("zero X")[-1])
        self.assertIn("ngc isn't told where the machine is", " ".join(self.do("jog X+ 600 for 1", "jog X- 600 for 1")))
        self.assertEqual((self.axes.word, self.out(), self.status().at[0]), ("unsure", [], "0.000000"))
        self.do("reference player")
        self.assertEqual(self.axes.word, "works")
        self.axes.word = "unsure"
        self.do("anyway G0 X1")
        self.assertEqual((self.axes.word, self.axes.at_nm[0]), ("works", 1_000_000))

    def test_at_a_stop(self) -> None:
        """At M0 a jog is taken, and `run` asks whether the program goes on from there."""
        self.begin(self.link)
        self.load("G21 G90\nG0 X1\nM0\nG0 X2\nM2\n")
        self.do("run", "jog Y+ 600 for 0.5")
        said = self.do("run", answers=("yes",))
        self.assertIn("line 4 begins at X1 Y0 Z0. The machine is at X1 Y0.5 Z0, 0.500 mm away, and the line would go"
                      " from there", said)
        self.assertEqual(self.status().at, ("2.000000", "0.500000", "0.000000"))

    def test_held(self) -> None:
        """Where `ngc` takes no `reference` nothing moves."""
        self.begin(self.link)
        self.load("G21 G90\nG0 X1\nG0 X2\nM2\n")
        self.hold_after(1)
        self.do("run")
        said = self.do("jog X+ 600 for 1")
        self.assertEqual(len(said), 1)
        self.assertIn("run goes on", said[0])
        self.assertEqual(self.axes.words, [])

    def test_waits(self) -> None:
        """It is said what the motors wait for: the spindle's speed, and what holds them: that speed, a door, or whoever
        it is; `release` lets them go on amid it."""
        self.begin(self.link)
        before, released = self.link.ask, []
        spindle = "the player waits until the spindle has its speed"
        failed = "the spindle didn't come to its speed, and the motors are held: release waits for it again"
        door = "the door is open, and the motors are held: once it is closed, release lets them go on"
        other = "the motors are held, and not from here: release lets them go on"
        self.link.release = lambda: released.append(True)
        for said, on, x in ((failed, (), "0.3"), (door, ("door",), "0.4"), (other, (), "0.5")):
            self.axes.stands = self.axes.machine = replace(self.axes.stands, on=on)

            def ask(said=said, size=len(self.out())):
                heard = [text for _, text in self.face.said]
                self.link.lazy = len(self.out()) > size and not released
                if said in heard and self.link.lazy:
                    self.face.given = ["release"]
                waits = self.link.lazy and said == failed and spindle not in heard
                word = "waits spindle" if waits else "works"
                return replace(before(), word=word, is_held=self.link.lazy and not waits)

            self.link.ask = ask
            self.assertIn(said, self.do(f"G0 X{x}"))
            self.assertEqual((self.status().at[0], released[:1]), (f"{x}00000", [True]))
            released.clear()

    def test_held_from_here(self) -> None:
        """Motors that are held while they are waited for weren't held before that: for a while it may be from here."""
        self.begin(self.link)
        self.do("G0 X0.3")
        time.sleep(0.6)  # longer than it may be
        now = self.link.ask()
        reports = iter([replace(now, is_held=True, received=now.received + 1)] * 3 + [now] * 3)
        self.link.ask = lambda: next(reports)
        self.assertTrue(self.operator.work.await_motors())
        self.assertNotIn("the motors are held, and not from here: release lets them go on",
                         [text for _, text in self.face.said])

    def test_waits_still(self) -> None:
        """Of a player that works, and carries nothing out, that is said once after a while; a wish to hold ends it."""
        self.begin(self.link)
        before, asked = self.link.ask, []
        self.link.lazy = True

        def ask() -> Report:
            """The clock goes on by a second at each question."""
            asked.append(1.0)
            return before()

        self.link.ask = ask
        self.hold_after(60)
        with patch("ngc_tools.operator.motors.time", SimpleNamespace(monotonic=lambda: float(len(asked)))):
            said = self.do("G0 X0.3")
        self.assertGreater(len(asked), 40)
        self.assertEqual([text for text in said if "nothing out" in text],
                         ["the player has carried nothing out for 10 s, as in a dwell. Enter or Ctrl-C holds"])

    def test_half_done(self) -> None:
        """Over a half-done block too, but not from where the record of a player before has the motors: that is known
        only once somebody has told it, or all axes are homed. `recover` is still for what the last session left."""
        self.run_ngc("mdi G0 X0.005\ntick 4\nquit\n", "before")
        self.begin(self.link)
        self.assertIn("ngc isn't told where the machine is", " ".join(self.do("jog X+ 600 for 2")))
        self.axes.fails = "stopped"
        self.assertIn("ngc isn't told where the machine is", " ".join(self.do("home")))
        self.assertFalse(self.status().known)
        self.do("reference player", "jog X+ 600 for 2")
        self.assertTrue(self.status().known)
        self.assertEqual(self.status().at[0], "4.000000")
        said = self.do("recover")
        self.assertNotIn("recover is for what the last session left, before anything else is done", said)


class Alarms(Core):
    """The emergency stop and the limits."""

    STOPPED = ("EMERGENCY STOP: THE MOTORS STAND, SPINDLE AND COOLANT ARE OFF, AND WHERE THE MACHINE IS ISN'T KNOWN."
               " HOME COMES FIRST")
    NOTHING = "nothing is done: EMERGENCY STOP. home comes first; until then where and quit alone are taken"

    def setUp(self) -> None:
        """A player that makes moves."""
        super().setUp()
        self.link = MachineLink()
        self.axes = self.link.axes

    def test_at_rest(self) -> None:
        """It is told of at the next command, which isn't done; home, where and quit are, and then all is again."""
        self.begin(self.link)
        self.load("G21 G90\nG0 X1\nM2\n")
        self.axes.alarm("emergency_stop")
        self.assertEqual(self.do("run"), [self.STOPPED, self.NOTHING])
        for typed in ("G0 X1", "M5", "jog X+ 600 for 1", "seek Z- 6 within 1", "reference 0 0 0", "zero X", "undo",
                      "load x", "resume", "continue", "recover", "release", "tool 1 5", "halp"):
            self.assertEqual(self.do(typed), [self.NOTHING], typed)
        self.assertIn("the motors are at X 0.000000 Y 0.000000 Z 0.000000, 0 lines behind, ALARM: not to be trusted",
                      self.do("where"))
        self.assertIn("recover", self.do("help")[0])
        self.assertEqual((self.axes.words, self.out(), self.status().entries), ([], [], 1))
        self.axes.home_at = [500_000, -200_000, 0]
        self.assertEqual(self.do("home")[:2], ["homed: X Y Z", "reference 0.500000 -0.200000 0.000000"])
        self.do("run")
        self.assertEqual(self.status().at, ("1.000000", "-0.200000", "0.000000"))

    def test_limit(self) -> None:
        """A limit is named by its switch."""
        self.begin(self.link)
        self.axes.alarm("limits")
        self.assertEqual(self.do("G0 X1"), [
            self.STOPPED.replace("EMERGENCY STOP", "LIMIT X LOW"),
            self.NOTHING.replace("EMERGENCY STOP", "LIMIT X LOW")])
        self.axes.refuses = "the emergency stop is on"
        self.assertEqual(self.do("home"), ["home: the emergency stop is on"])
        self.assertEqual(self.do("G0 X1"), [self.NOTHING.replace("EMERGENCY STOP", "LIMIT X LOW")])

    def test_seen(self) -> None:
        """Once it is said the session has it from the player: a page shows both at once."""
        self.begin(self.link)
        had, say = [], self.face.say

        def see(text: str, *kind: str) -> None:
            machine = self.operator.session.machine
            had.append((text, machine and machine.alarm))
            say(text, *kind)

        self.face.say = see
        self.axes.alarm("emergency_stop")
        self.do("run")
        self.assertEqual(had[0], (self.STOPPED, "emergency_stop"))

    def test_outputs(self) -> None:
        """An alarm turns spindle and coolant off, and so does a player that begins: a program that goes on with them is
        asked about, with a line that switches them on."""
        self.begin(self.link)
        self.load("G21 G90\nM3 S1000\nM8\nM0\nG0 X1\nM2\n")
        self.do("run")
        self.axes.alarm("emergency_stop")
        self.axes.home_at = [0, 0, 0]
        self.do("where", "home")
        self.assertEqual(self.do("run", answers=("no",)), [
            "the program goes on with the spindle, clockwise at 1000 and flood, and the player has all of it off: M3"
            " S1000 first switches it on"])
        self.assertEqual(self.face.asked, ["go on all the same? yes goes on: "])
        self.do("M3 S1000", "run")
        self.assertEqual(len(self.face.asked), 0)
        self.assertIn("S 1 1000.000000 0 1 0 0", self.out()[3:])
        self.assertEqual(self.status().at, ("1.000000", "0.000000", "0.000000"))

    def test_in_a_move(self) -> None:
        """It ends a jog; `ngc` isn't told a place."""
        self.begin(self.link)
        self.axes.alarm_at = 2
        said = self.do("jog X+ 600 for 10")
        self.assertEqual(said, ["jog X+: the emergency stop is on", self.STOPPED])
        self.assertEqual(self.status().entries, 0)

    def test_with_lines_in_hand(self) -> None:
        """No more line is handed out, and after home another session begins, in which the line is half-done."""
        self.begin(self.link)
        self.load("G21 G90\nG1 X3 F60\nM2\n")
        before = self.link.ask

        def ask():
            if Path("out").stat().st_size and self.axes.word == "works":
                self.axes.alarm("emergency_stop")
            return before()

        self.link.ask = ask
        said = self.do("run")
        self.assertEqual(said[:2], [self.STOPPED, "held"])
        self.assertEqual(self.status().does, "held")
        self.assertLess(len(self.out()), 201)
        count = len(self.out())
        self.axes.home_at = [0, 0, 0]
        self.link.ask = before
        self.link.lazy = True
        self.axes.drops_lines = True
        said = self.do("home")
        self.assertEqual(said[:4], [
            "homed: X Y Z", "what the player had in hand in the alarm is never carried out: another session begins, and"
            " goes on as after a loss of power", "stored: a program of 3 lines",
            "power was lost, or the session ended, in line 2: G1 X3 F60\n  in segment 0 of 1, counted from 0. Nothing"
            " moves by itself\n  where the machine is: reference player, or reference X Y Z; then rehearse, resume or"
            " abandon"])
        status = self.status()
        self.assertEqual((status.does, status.half, status.known), ("idle", "program", False))
        self.assertEqual(len(self.out()), count)
        self.link.lazy = False
        self.do("reference player", "abandon")
        self.assertEqual((self.status().half, self.status().known), ("none", True))
        self.do("G0 X1")
        self.assertEqual(self.status().at[0], "1.000000")

    def test_player_that_drops_lines(self) -> None:
        """As long as the player carries no more line of the session out nothing is given to it; `stop` begins another
        session."""
        self.begin(self.link)
        self.axes.word = "broken"
        broken = ("nothing is done: what the player had in hand as it broke off is never carried out, and so nothing that"
                  " comes after. stop begins another session, which goes on as after a loss of power")
        told, *said = self.do("run")
        self.assertTrue(told.startswith("the player carries out no more line of this session"), told)
        self.assertEqual(said, [broken])
        for typed in ("G0 X1", "resume", "release"):
            self.assertEqual(self.do(typed), [broken], typed)
        self.do("stop")
        self.assertEqual(self.axes.word, "moved")
        self.assertEqual(self.do("G0 X1")[-2:], ["idle; X 1.000000 Y 0.000000 Z 0.000000",
                                                 MOTORS.format("1.000000", "0.000000", "0.000000")])


    def test_axis_without_home(self) -> None:
        """Of an axis that can't be homed a person has to say where it stands; the player's number isn't taken for it,
        and `ngc` is told once the alarm is over."""
        self.begin(self.link)
        self.axes.switches = "XZ"
        self.axes.at_nm = [0, 7_000_000, 0]
        self.axes.home_at[1] = 7_000_000
        self.axes.alarm("emergency_stop")
        counts = "the player counts X -298.000000 Y 7.000000 Z -2.000000"
        forms = f"reference X Y Z, in mm: {counts}; player stands for the number of an axis that is homed (X Z)"
        self.assertEqual(self.do("reference 1 2 3"), [self.STOPPED, self.NOTHING])
        self.assertEqual(self.do("home"), [
            "homed: X Z", "the alarm stands: Y isn't homed. home Y does it, where the machine's file says how; else"
            f" measure it, and type reference X Y Z with what you measured: {counts}"])
        for words in ("", " player", " player player player", " player x player"):
            self.assertEqual(self.do(f"reference{words}"), [forms], words)
        self.assertEqual(self.do("reference -297 8 -2"), [
            "the player doesn't take that: all axes have to be homed that can be, with their numbers as the player has"
            " them, and the emergency stop has to be off"])
        self.assertEqual(self.status().entries, 0)
        self.assertEqual(self.do("reference player 8.5 player")[:2], ["reference -298.000000 8.500000 -2.000000",
                                                                     "done 1"])
        self.assertEqual(self.status().at, ("-298.000000", "8.500000", "-2.000000"))
        self.do("G91 G0 X1")
        self.assertEqual(self.status().at[0], "-297.000000")


class OffThePath(InFolder):
    """Where in OUT the open segment begins, once the motors were homed and are nowhere on its path."""

    def test_after_a_stop(self) -> None:
        """Lines of one kind alone: what was handed out before them tells where they begin, also where the motors were
        moved at the stop between. After M0 20 of 40 lines of a move in Y, behind 10 in X."""
        text = "G21 G90\nG0 X0.003\nX0.01\nM0\nG1 Y0.54 F600\nM2\n"
        for told, begins in (("", (10, 0, 0)), ("reference 0.01 0.5 0\n", (10, 500, 0))):
            self.device()
            Path("out").unlink(missing_ok=True)
            self.run_ngc(f"load {len(text)}\n{text}start\ntick 99\n{told}continue\ntick 22\n")
            self.assertEqual(Path("out").read_text(), "P 1 0 0 50\n" * 10 + "P 0 1 0 100\n" * 20)
            finder = Finder(ngc(), "first.toml", Path("mill.dev").read_bytes())
            for carried in (110, 110 + 12 * 7):
                found = finder.find("out", FileRecord(carried, (-300, -200, 0)))
                self.assertEqual((found.size, found.steps, found.missing, found.is_off), (110, begins, b"", True))

    def test_not_told(self) -> None:
        """Where nothing tells it, that is said: all lines are alike."""
        self.device()
        text = "G21 G90\nG0 X0.01\nM0\nX0.54\nM2\n"
        self.run_ngc(f"load {len(text)}\n{text}start\ntick 99\nreference 0.5 0 0\ncontinue\ntick 22\n")
        self.assertEqual(Path("out").read_text(), "P 1 0 0 50\n" * 30)
        finder = Finder(ngc(), "first.toml", Path("mill.dev").read_bytes())
        with self.assertRaisesRegex(CannotTell, "out doesn't end with lines of the half-done block"):
            finder.find("out", FileRecord(220, (-300, -200, 0)))


class ByKeys(InFolder):
    """At a terminal, over a socket."""

    def setUp(self) -> None:
        """A device and a player of the file `out`."""
        super().setUp()
        self.device()
        Path("out").touch()
        os.mkfifo("axis")
        self.pipe = os.open("axis", os.O_RDONLY | os.O_NONBLOCK)
        self.addCleanup(os.close, self.pipe)
        self.player = SocketMachine(os.path.abspath("axis"))
        self.addCleanup(self.player.close)
        words = operate("mill.dev", "first.toml", "axis", "--player", "progress")
        self.terminal = Terminal(str(TOOLS / "ngc-operate"), *words, kind="xterm", columns=100)
        self.terminal.read_to(PROMPT)

    def begin_jog(self) -> None:
        """Types `jog`, and waits until it heeds keys."""
        self.terminal.send(b"jog\n")
        self.terminal.read_to(b"taps 0.1 mm  X 0.000000 Y 0.000000 Z 0.000000")

    def jogs(self) -> list[str]:
        """The jogs that the player was told."""
        return [word for word in self.player.axes.words if word.startswith("jog")]

    def test_taps(self) -> None:
        """A tap of each key goes a step; Enter ends, and `ngc` is told where the machine is."""
        self.begin_jog()
        for key in (b"\x1b[C", b"\x1b[D", b"\x1b[A", b"\x1b[B", b"\x1b[5~", b"\x1b[6~", b"\x1bOC"):
            count = len(self.jogs())
            self.terminal.send(key)
            self.wait_for("it jogs", lambda count=count: len(self.jogs()) > count)
        for keys in (b"3+\x1b[C", b"1--\x1b[A"):
            count = len(self.jogs())
            self.terminal.send(keys)
            self.wait_for("it jogs", lambda count=count: len(self.jogs()) > count)
        self.wait_for("the last is over", lambda: self.player.axes.machine.does == "stands")
        self.terminal.send(b"\n")
        shown = self.terminal.read_to(PROMPT).decode()
        self.assertIn("reference 1.100000 0.010000 0.000000\r\ndone 1\r\nidle; X 1.100000 Y 0.010000", shown)
        self.assertEqual([word.split(" ", 2)[2] for word in self.jogs()], [
            "X+ 300 for 0.100000", "X- 300 for 0.100000", "Y+ 300 for 0.100000", "Y- 300 for 0.100000",
            "Z+ 300 for 0.100000", "Z- 300 for 0.100000", "X+ 300 for 0.100000", "X+ 600 for 1.000000",
            "Y+ 120 for 0.010000"])

    def test_unsure(self) -> None:
        """Where the player has the machine elsewhere than `ngc` before, that isn't told."""
        self.player.axes.at_nm[0] = 7_000_000
        self.terminal.send(b"jog\n")
        self.terminal.read_to(b"taps 0.1 mm  X 7.000000 Y 0.000000 Z 0.000000")
        self.terminal.send(b"\x1b[C")
        self.wait_for("it jogs", lambda: len(self.jogs()) > 0)
        self.wait_for("it is over", lambda: self.player.axes.machine.does == "stands")
        self.terminal.send(b"\n")
        shown = self.terminal.read_to(PROMPT).decode()
        self.assertIn("ngc isn't told where the machine is", shown)
        self.assertNotIn("done 1", shown)

    def test_held(self) -> None:
        """A key that is held goes on, and as it is let go the motors are told to stop. Three at once are a held key."""
        self.begin_jog()
        told = self.player.axes.words

        def goes_on() -> bool:
            self.terminal.send(b"\x1b[C" * 3)
            kept = [word for word in told if word.endswith(" X+ 300")]
            return any(kept.count(word) > 2 for word in kept)

        self.wait_for("it goes on", goes_on)
        self.wait_for("it is let go", lambda: told[-1] == "stop" and self.player.axes.machine.does == "stands")
        self.assertEqual([word for word in told if word != "stop" and not word.endswith(" X+ 300")], [])
        x = Position(STEP_NM, self.player.axes.at_nm)
        self.terminal.send(b"q")
        self.assertIn(f"reference {x}\r\ndone 1\r\n", self.terminal.read_to(PROMPT).decode())

    def test_alarm(self) -> None:
        """It ends by an alarm, and `ngc` is told no place."""
        self.begin_jog()
        self.player.axes.alarm("limits")
        shown = " ".join(self.terminal.read_to(PROMPT).decode().split())
        self.assertIn("LIMIT X LOW: THE MOTORS STAND", shown)
        self.assertNotIn("reference", shown)

    def test_refused(self) -> None:
        """A jog that is refused is said once, however often its key repeats; Ctrl-C ends."""
        self.player.axes.refuses = "X ends at -300.000"
        self.begin_jog()
        self.terminal.send(b"\x1b[D")
        self.terminal.read_to(b"jog X-: X ends at -300.000\r\n")
        self.terminal.send(b"\x03")
        self.assertIn("done 1\r\n", self.terminal.read_to(PROMPT).decode())

    def test_player_gone(self) -> None:
        """Where the player is gone it ends, and the terminal is as it was: lines can be typed again."""
        self.begin_jog()
        self.player.close()
        self.assertIn(b"progress: the player is gone: ", self.terminal.read_to(PROMPT))
        self.terminal.send(b"tick 1\n")
        self.assertTrue(self.terminal.read_to(PROMPT).startswith(b"tick 1\r\nticks are given by run"))

    def test_killed(self) -> None:
        """A signal ends it, and what moves is told to stop."""
        self.begin_jog()
        self.terminal.end_by(signal.SIGTERM)
        self.assertEqual((self.terminal.status(), self.player.axes.words[-1]), (2, "stop"))


class Pressed(unittest.TestCase):
    """Which key is held, and which was tapped."""

    def test_taps(self) -> None:
        """Taps that come slower than repeats are so many steps; those of another key begin anew."""
        pressed = jog_keys.Pressed()
        for number in range(5):
            pressed.take("X+", number * 0.1)
        self.assertEqual((pressed.taps, pressed.is_held(0.4)), (5, False))
        pressed.take("X-", 0.41)
        self.assertEqual((pressed.way, pressed.taps), ("X-", 1))

    def test_held(self) -> None:
        """The first repeat of a keyboard comes late, those after it 33 ms apart; then it is held until it stays out for
        100 ms."""
        pressed = jog_keys.Pressed()
        for at in (0.0, 0.5, 0.533, 0.566):
            self.assertFalse(pressed.is_held(at))
            pressed.take("Z+", at)
        self.assertEqual((pressed.taps, pressed.is_held(0.566), pressed.is_held(0.66)), (0, True, True))
        self.assertFalse(pressed.is_held(0.67))

    def test_keys(self) -> None:
        """Keys by their bytes, in parts; others are passed over; an Escape alone ends."""
        ours, theirs = os.pipe()
        self.addCleanup(os.close, ours)
        keys = TerminalKeys(ours, lambda: False)
        for sent, found in ((b"\x1b[C\x1b[5~", ["X+", "Z+"]), (b"x\x1b[1;5C\xc3\xa4+", ["faster"]),
                            (b"\x1b[", []), (b"6~-", ["Z-", "slower"]), (b"\x1b", []), (b"OB", ["Y-"]),
                            (b"\x1b[A\x1b", ["Y+"])):
            os.write(theirs, sent)
            self.assertEqual(keys.next(5), found, sent)
        self.assertEqual(keys.next(0), ["end"])
        self.assertEqual(keys.next(0), [])
        os.close(theirs)
        self.assertEqual(keys.next(5), ["end"])


if __name__ == "__main__":
    unittest.main()
