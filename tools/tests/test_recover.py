"""After a loss of power: ways along OUT, in both players; what ngc-operate and ngc-rehearse find; and `recover`."""
import errno
import itertools
import os
import random
import shutil
import signal
import subprocess
import sys
import time
import unittest
from collections.abc import Callable
from contextlib import ExitStack
from dataclasses import replace
from functools import partial
from pathlib import Path
from types import SimpleNamespace
from unittest.mock import Mock, patch

sys.path.insert(0, str(Path(__file__).resolve().parent))

from out_support import after, text_of
from player_support import PlayerTest, built, record
from power_axes import HOME_TOML, SWITCH_STEPS, SWITCHES
from pulled_file import Options, Yes, program, pull
from pulled_plug import program as stairs
from pulled_plug import run_uncut
from session_support import FIRST, InFolder, ngc, told
from sink_support import ServedSink

from ngc_tools.cli.rehearse import main as rehearse
from ngc_tools.formats.before import BeforeFile
from ngc_tools.formats.device import Device
from ngc_tools.formats.out import OFF, read_line
from ngc_tools.formats.out_note import OutNote
from ngc_tools.formats.position import Position
from ngc_tools.formats.record import Record
from ngc_tools.formats.settings import Settings
from ngc_tools.ngc.carried import CannotTell
from ngc_tools.ngc.console import Console, Status
from ngc_tools.ngc.handed_out import Finder, FileRecord, _only
from ngc_tools.operator.meter import Meter
from ngc_tools.operator.operator import Operator
from ngc_tools.operator.past import along_out, by_rate
from ngc_tools.operator.recovery import NOT_KEPT, Looking, OutFound, Recovery
from ngc_tools.operator.sentences import GO_ON, LOOK, LOOK_AGAIN, LOOK_SWITCHED, SWITCHED_THERE
from ngc_tools.operator.session import Session
from ngc_tools.operator.synced import SyncedLink
from ngc_tools.operator.way_back import WayBack
from ngc_tools.link.out_file import OutFile, born_ns
from ngc_tools.link.progress import NoAnswer, Report

# A path by hand: spindle on, +X +X at 50 us, a wait, +Y at 200 us, +X -Z at 70 us. It leads to 3 1 -1.
PATH = b"S 1 900.000000 0 0 0 0\nP 1 0 0 50\nP 1 0 0 50\nD 9\nP 0 1 0 200\nP 1 0 -1 70\n"
WHOLE_RECORD = "reference 0.003000 0.001000 -0.001000\n"


class Going(PlayerTest):
    """--go-to-line, in both players."""

    def setUp(self) -> None:
        """An OUT that is carried out to its end."""
        super().setUp()
        Path("out").write_bytes(PATH)
        self.assertEqual(self.play("--untimed").returncode, 0)
        Path("pins").unlink()

    def go(self, *words: str, text: str = "") -> tuple[int, str]:
        """Goes, and returns the status and what is said."""
        done = self.run_player("--untimed", "--no-ask-tool", "--pins", "pins", *words, "out", "first.toml", "position",
                               input=text)
        return done.returncode, done.stderr

    def pins(self) -> list[str]:
        """What the pins got."""
        return Path("pins").read_text().splitlines() if Path("pins").exists() else []

    def test_back(self) -> None:
        """Back to line 2: the pulses of lines 6, 5 and 3 with turned signs, the wait left out. Between two of them lies
        the time that lay between them on the way on: 200 us from line 5 to 6, and that of line 3, if it came last."""
        status, said = self.go("--go-to-line", "2", "--yes")
        self.assertEqual((status, said), (0, "back to line 2 of out: 0.003 mm in 0.000 s, lowest Z -0.001\n"
                                          "out: ended with spindle or coolant on; spindle and coolant off\n"))
        self.assertEqual(self.pins(), ["S 1 900.000000 0 0 0 0", "P -1 0 1 200", "P 0 -1 0 200", "P -1 0 0 50", "off"])
        self.assertEqual(record(), "lines 2\nbytes 34\noutputs S 0 900.000000 0 0 0 0\n"
                         "reference 0.001000 0.000000 0.000000\n")

    def test_on(self) -> None:
        """On from there, with the outputs of that line first; a switch on the way is said."""
        self.go("--go-to-line", "0", "--yes")
        Path("pins").unlink()
        status, said = self.go("--go-to-line", "3", "--yes")
        self.assertEqual(said.splitlines()[0], "on to line 3 of out: 0.002 mm in 0.000 s, lowest Z 0.000;"
                         " 1 switches of the outputs on the way")
        self.assertEqual((status, self.pins()), (0, ["S 1 900.000000 0 0 0 0", "P 1 0 0 50", "P 1 0 0 50", "off"]))
        Path("pins").unlink()
        self.assertEqual(self.go("--go-to-line", "6", "--yes")[0], 0)
        self.assertEqual(self.pins(), ["S 1 900.000000 0 0 0 0", *PATH.decode().splitlines()[3:], "off"])
        self.assertTrue(record().endswith(WHOLE_RECORD))

    def test_asked(self) -> None:
        """Without a yes nothing moves, and the record stays; `no` leaves the spindle off."""
        before = record()
        for text in ("", "no\n", "go\n", "no\n\n"):
            status, said = self.go("--go-to-line", "2", text=text)
            self.assertEqual((status, said.splitlines()[-1].partition(": ")[2], self.pins(), record()),
                             (2, "nothing moved; --yes goes without a question", [], before), text)
        status, said = self.go("--go-to-line", "5", text="no\nyes\n")
        self.assertEqual((status, self.pins()), (0, ["P -1 0 1 70"]))
        self.assertEqual(said.splitlines()[1:], [
            "on was, before line 7: spindle clockwise at 900. yes switches it on first, no leaves it off",
            "Nothing is switched, and nothing has moved. Look: are spindle, tool and way as they should be? yes goes"
            " there, anything else ends"])

    def test_looked_at(self) -> None:
        """What was on is switched on, nothing moves, and somebody looks: it goes there after another yes, and switches
        it off after anything else. What was typed before the question is no answer."""
        before, on = record(), "S 1 900.000000 0 0 0 0"
        for text in ("yes\n", "YES\nyes\n", "yes\nno\n"):
            Path("pins").unlink(missing_ok=True)
            status, said = self.go("--go-to-line", "2", text=text)
            self.assertEqual((status, said.splitlines()[-1], self.pins()),
                             (1, "out: nothing moved; spindle and coolant off", [on, "off"]), text)
            self.assertEqual(record(), before.replace("outputs S 1", "outputs S 0") + "stopped look\n")
        for answer, pins in ((b"yes", [on, "P -1 0 1 200", "P 0 -1 0 200", "P -1 0 0 50", "off"]), (b"", [on, "off"])):
            Path("pins").unlink()
            child = self.begin("--untimed", "--no-ask-tool", "--pins", "pins", "--go-to-line", "2", "out", "first.toml",
                               "position")
            child.stdin.write("yes\n")
            child.stdin.flush()
            while "Look:" not in (line := child.stderr.readline()):
                self.assertTrue(line)
            self.assertTrue(line.startswith("The outputs are switched, and nothing has moved. Look: "), line)
            time.sleep(0.1)
            self.assertEqual(self.pins(), [on])
            child.communicate(f"{answer.decode()}\n")
            self.assertEqual(self.pins(), pins)

    def test_tool_stays(self) -> None:
        """Past a tool change it goes by a word alone. Back no tool is changed, so what is switched on later names the
        one that is in."""
        for name in ("out", "position"):
            Path(name).unlink()
        Path("out").write_text("S 1 9.000000 0 0 1 1\nP 1 0 0 50\nS 1 9.000000 0 0 2 2\nP 1 0 0 50\n")
        self.assertEqual(self.play("--untimed", "--no-ask-tool").returncode, 0)
        Path("pins").unlink()
        back = ("--go-to-line", "1", "--yes")
        refused = "out: line 3 asks to put in tool 2, and lies on the way: --across-tools goes all the same\n"
        for words in (back, (*back, "--lift", "1", "--feed", "600")):
            status, said = self.go(*words)
            self.assertEqual((status, said.partition(": ")[2], self.pins()), (2, refused, []))
        self.assertEqual(self.go("--go-to-line", "3", "--yes")[0], 0)
        self.go(*back, "--across-tools")
        Path("pins").unlink()
        self.assertEqual(self.go("--go-to-line", "2", "--yes")[0], 0)
        self.assertEqual(self.pins(), ["S 1 9.000000 0 0 1 2", "P 1 0 0 50", "off"])
        self.assertIn("outputs S 0 9.000000 0 0 1 2\n", record())

    def test_tool_on_the_way_on(self) -> None:
        """On past a tool change it goes after the word too, and asks for the tool there; before the first switch of OUT
        no tool is known to be in."""
        for name in ("out", "position"):
            Path(name).unlink()
        Path("out").write_text("P 1 0 0 50\nP 1 0 0 50\n")
        self.assertEqual(self.play("--untimed").returncode, 0)
        with open("out", "a") as file:
            file.write("S 0 9.000000 0 0 3 0\nS 0 9.000000 0 0 3 3\nP 1 0 0 50\nS 0 9.000000 0 0 3 0\n")
        Path("pins").unlink()
        self.assertEqual(self.go("--go-to-line", "3", "--yes")[0], 0)
        refused = ("out: line 4 asks to put in tool 3", "out: line 6 asks to take the tool out")
        for line, words, said in ((5, (), refused[0]), (5, ("--across-tools",), ""), (6, (), refused[1]),
                                  (3, (), refused[0]), (6, ("--across-tools",), ""), (0, (), refused[0])):
            Path("pins").unlink(missing_ok=True)
            status, told = self.go("--go-to-line", str(line), "--yes", *words)
            self.assertEqual((status, said in told, bool(self.pins())), (2, True, False) if said else (0, True, True))

    def test_legs(self) -> None:
        """Up, over, and down, at the traverse rate and the last leg at a feed, to where line 2 leads: from 3 1 -1 up to
        1, to 1 0, down to 0."""
        status, said = self.go("--go-to-line", "2", "--lift", "0.001", "--feed", "600", "--yes")
        self.assertEqual((status, said.splitlines()[0]), (0, "by legs over Z 0.001000 to X0.001000 Y0.000000 Z0.000000:"
                                                          " 0.005 mm in 0.000 s, lowest Z -0.001"))
        # over: 2 by 1 steps are 2.236 um, which the rate of 100 mm/s takes 22.36 us for: 11.18 a pulse, 50 at least
        self.assertEqual(self.pins(), ["S 1 900.000000 0 0 0 0", "P 0 0 1 50", "P 0 0 1 50", "P -1 0 0 50",
                                       "P -1 -1 0 50", "P 0 0 -1 100", "off"])
        self.assertEqual(record().splitlines()[0::3], ["lines 2", "reference 0.001000 0.000000 0.000000"])

    def test_off_the_path(self) -> None:
        """From beside the path only legs lead on: to where it was left, and then along it."""
        self.go("--go-to-line", "2", "--yes")
        Path("pins").unlink()
        status, said = self.go("--go-to-line", "6", "--at", "0.001", "0.001", "0.002", "--yes")
        self.assertEqual((status, self.pins()), (2, []))
        self.assertIn("--at 0.001000 0.001000 0.002000: the motors left the way at X0.001000 Y0.000000 Z0.000000:"
                      " --lift Z leads back to it by legs", said)
        words = ("--go-to-line", "6", "--at", "0.001", "0.001", "0.002", "--yes", "--feed", "9999", "--lift")
        self.assertIn("out: Z 0.001999 lies below Z 0.002000: legs go up first, and down last",
                      self.go(*words, "0.001999")[1])
        self.assertEqual(self.go(*words, "0.002")[0], 0)
        self.assertEqual(self.pins(), ["S 1 900.000000 0 0 0 0", "P 0 -1 0 50", "P 0 0 -1 50", "P 0 0 -1 50",
                                       *PATH.decode().splitlines()[2:], "off"])
        self.assertTrue(record().endswith(WHOLE_RECORD))

    def test_half_of_legs(self) -> None:
        """No leg goes down at a rate that nobody named, and no rate is named for nothing."""
        before = record()
        for words in (("--go-to-line", "2", "--yes", "--lift", "1"), ("--go-to-line", "2", "--yes", "--feed", "1"),
                      ("--feed", "1")):
            status, said = self.go(*words)
            self.assertEqual((status, self.pins()), (2, []), words)
            self.assertTrue(said.endswith(": --lift Z and --feed RATE go together: so fast the last leg goes, down into"
                                          " the work\n"), said)
        self.assertEqual(record(), before)

    def test_refused(self) -> None:
        """What doesn't belong together is named, and nothing moves."""
        shutil.copy("out", "copy")
        Path("short").write_bytes(PATH[:40])
        os.mkfifo("axis")
        words = ("first.toml", "position")
        for given, why in (
                (("--go-to-line", "7", "--yes", "out", *words), "out: OUT has 6 lines, and no line 7"),
                (("--go-to-line", "2", "--yes", "copy", *words), f"position: it speaks of {self.folder}/out, not of"
                 " copy: where the motors are on the way isn't known"),
                (("--go-to-line", "2", "--yes", "out", "first.toml", "none"), "none: there is no such record: where the"
                 " motors are on the way isn't known"),
                (("--go-to-line", "2", "--yes", "axis", *words),
                 "axis: a pipe keeps no lines: --go-to-line is for a file"),
                (("--go-to-line", "2", "--yes", "--lift", "1", "--feed", "0", "out", *words),
                 "not a rate in millimetres a minute with at most six decimals: 0"),
                (("--go-to-line", "2", "--yes", "--lift", "1001", "--feed", "1", "out", *words),
                 "--lift 1001: it lies outside the travel of Z")):
            self.assertEqual(self.refused(*given), why)
        shutil.copy("copy", "new")
        os.rename("new", "out")
        self.assertIn("out: another file than the one whose first 6 lines are carried out",
                      self.refused("--go-to-line", "2", "--yes", "out", *words))
        self.assertFalse(Path("none").exists())

    def test_given_back(self) -> None:
        """Room that was given back, and what isn't a line, is met before anything moves."""
        for text in (bytes(len(PATH) - 22) + PATH[-22:], PATH.replace(b"D 9", b"D x")):
            with open("out", "r+b") as file:
                file.write(text)
            status, said = self.go("--restored", "--go-to-line", "1", "--yes")
            self.assertEqual((status, self.pins()), (2, []))
            self.assertRegex(said, r"out: (line \d+: |.*not the file whose)")

    def test_ramps(self) -> None:
        """With --machine back by ramps: 100 mm at 3,000 mm/min and 500 mm/s2 take 2.1 s on, and so back."""
        Path("out").write_text("P 1 0 0 50\n" * 4000)
        Path("m.toml").write_text("[motion]\naccel_mm_s2 = [400, 400, 400]\n")
        Path("position").unlink()
        words = ("--no-ask-tool", "--machine", "m.toml", "--pins", "pins", "out", "first.toml", "position")
        self.assertEqual(self.run_player("--untimed", *words).returncode, 0)
        begun = time.monotonic()
        self.assertEqual(self.run_player("--go-to-line", "0", "--yes", *words).returncode, 0)
        # 4 mm at 20 mm/s and 400 mm/s2: 4 / 20 + 20 / 400 = 0.25 s
        self.assertGreater(time.monotonic() - begun, 0.25)
        self.assertEqual(self.pins()[4000:], ["P -1 0 0 50"] * 4000)
        self.assertIn("lines 0\n", record())
        words = ("--untimed", "--lift", "0.002", "--feed", "9000", "--at", "0", "0.003", "0", "--yes", *words)
        self.assertEqual(self.run_player("--go-to-line", "7", *words).returncode, 0)
        self.assertEqual(self.pins()[8000:], ["P 0 0 1 50"] * 2 + ["P 0 -1 0 50"] * 3 + ["P 0 0 -1 50"] * 2
                         + ["P 1 0 0 50"] * 7)
        self.assertIn("lines 7\n", record())


class Followed(PlayerTest):
    """A file that is followed."""

    def test_synced(self) -> None:
        """Nothing is carried out beyond what is on the disk, and nothing before somebody said how much that is: also
        where there is no record yet, or all of OUT is carried out by it. The record's count of bytes is told."""
        Path("out").write_bytes(b"P 1 0 0 50\n")
        child = self.begin("--follow", "--untimed", "--progress", "progress", "out", "first.toml", "position")
        link = self.linked()
        time.sleep(0.05)
        self.assertEqual((link.ask().received, link.ask().carried), (0, 0))
        child.terminate()
        child.communicate()
        self.assertEqual(self.play("--untimed").returncode, 0)
        os.truncate("out", 0)
        self.begin("--anew", "--follow", "--untimed", "--progress", "progress", "out", "first.toml", "position")
        link = self.linked()
        with open("out", "ab") as file:
            file.write(b"P 1 0 0 50\nP 1 0 0 50\nP 1 0 0 50\n")
        time.sleep(0.05)
        self.assertEqual((link.ask().received, link.ask().carried), (0, 0))
        link.synced(22)
        self.wait_for("two lines are carried out", lambda: link.ask().carried == 2)
        time.sleep(0.05)
        self.assertEqual(link.ask().received, 2)
        self.wait_for("the record is kept", lambda: link.kept() == (2, 22))
        link.synced(33)
        self.wait_for("the third is", lambda: link.ask().carried == 3)

    def test_left(self) -> None:
        """Lines that the last session left wait for a console; ways lead on and back, and refuse what isn't a line's
        end."""
        Path("out").write_bytes(PATH)
        self.assertEqual(self.play("--untimed").returncode, 0)
        with open("out", "ab") as file:
            file.write(b"P 0 1 0 50\nP 0 1 0 60\n")
        child = self.begin("--follow", "--untimed", "--no-ask-tool", "--pins", "pins2", "--progress", "progress", "out",
                           "first.toml", "position")
        link = self.linked()
        time.sleep(0.1)
        self.assertEqual((link.ask().carried, link.ask().received), (6, 6))
        link.along(5)
        self.assertEqual((link.ask().carried, link.ask().received), (6, 6))
        link.along(len(PATH) + 11)
        self.wait_for("it went on", lambda: link.ask().carried == 7)
        link.along(34)
        self.wait_for("it went back", lambda: (link.ask().carried, link.ask().received) == (2, 2))
        link.legs("0.001", "0.001 0.001 0", 34)
        self.wait_for("it went over", lambda: link.ask().at == "0.001000 0.001000 0.000000")
        self.assertEqual(link.ask().carried, 2)
        link.end()
        _, said = child.communicate()
        self.assertEqual(said, "out: lines that no motor carried out stand behind line 6: nothing moves before a"
                         " console says so; recover in ngc-operate goes on or back\nout: it doesn't go: no line of OUT"
                         " ends at byte 5\n")
        self.assertEqual(Path("pins2").read_text().splitlines(), [
            "P 0 1 0 50", "P 0 -1 0 70", "P -1 0 1 200", "P 0 -1 0 200", "P -1 0 0 50", "P 0 0 1 50", "P 0 1 0 50",
            "P 0 0 -1 50"])

    def test_held(self) -> None:
        """A way is held between two pulses, without ramps too, and goes on once it is let go."""
        Path("out").write_text("P 1 0 0 400000\n" * 6)
        self.assertEqual(self.play("--untimed").returncode, 0)
        self.begin("--follow", "--pins", "pins2", "--progress", "progress", "out", "first.toml", "position")
        link = self.linked()
        link.along(60)
        self.wait_for("one pulse is taken back", lambda: link.ask().carried == 5)
        link.hold()
        time.sleep(0.6)
        self.assertEqual((link.ask().carried, link.ask().received, link.ask().is_held), (5, 4, True))
        link.release()
        self.wait_for("the other is", lambda: link.ask().received == link.ask().carried)
        self.assertEqual((link.ask().carried, Path("pins2").read_text()), (4, "P -1 0 0 400000\n" * 2))
        link.legs("2", "0.004 0 0", 60)
        link.at("9 9 9")  # not while they move
        self.wait_for("the legs are done", lambda: not link.ask().behind)
        self.assertEqual(link.ask().at, "0.004000 0.000000 0.000000")


    def test_switch_alone(self) -> None:
        """Outputs are switched where the motors stand, but for the tool, and nothing moves; beside the path too, and
        what isn't a switch isn't taken."""
        Path("out").write_bytes(PATH)
        self.assertEqual(self.play("--untimed").returncode, 0)
        self.begin("--follow", "--untimed", "--pins", "pins2", "--at", "0.5", "0", "0", "--progress", "progress", "out",
                   "first.toml", "position")
        link = self.linked()
        before = link.ask()
        link.switch(read_line("S 2 500.000000 0 1 3 3", 1))
        self.wait_for("it is switched", lambda: not link.ask().behind)
        link._send(b"switch P 1 0 0 50")
        after = link.ask()
        self.assertEqual((str(after.outputs), after.at, after.carried), ("S 2 500.000000 0 1 3 0", before.at, 6))
        self.assertEqual(Path("pins2").read_text(), "S 2 500.000000 0 1 3 0\n")

    def test_feed(self) -> None:
        """At a feed of 60 mm a minute a step of 1 um takes 1,000 us: of the last leg, of a straight line, and of a way
        back, whose own pulses of 70 and 200 us are too fast; a diagonal of two steps, 1,414 nm, takes 1,414."""
        Path("out").write_bytes(PATH)
        self.assertEqual(self.play("--untimed").returncode, 0)
        self.begin("--follow", "--untimed", "--pins", "pins2", "--progress", "progress", "out", "first.toml",
                   "position")
        link = self.linked()
        for go, at in ((lambda: link.along(34, "60"), "0.001000 0.000000 0.000000"),
                       (lambda: link.legs("0.001", "0 0 0", 34, "60"), "0.000000 0.000000 0.000000"),
                       (lambda: link.straight("0.001 0 -0.001", 34, "60"), "0.001000 0.000000 -0.001000")):
            go()
            self.wait_for("it is there", lambda: not link.ask().behind)
            self.assertEqual(link.ask().at, at)
        for wrong in (b"along 34 feed 0", b"along 34 feed x", b"straight 1 1 34 feed 60", b"straight 1 1 1 34 60"):
            link._send(wrong)
            self.assertFalse(link.ask().behind)
        self.assertEqual(Path("pins2").read_text().splitlines(), [
            "P -1 0 1 1414", "P 0 -1 0 1000", "P -1 0 0 1000", "P 0 0 1 50", "P -1 0 0 50", "P 0 0 -1 1000",
            "P 1 0 -1 1414"])


class Finding(InFolder):
    """Where in OUT the open segment begins."""

    def test_by_chance(self) -> None:
        """At moments by chance, with up to 100 lines of OUT's end lost, and the power switched on before: what is found
        is what a tick and a status at a time say of the uncut run. 600 blocks fill the log."""
        Path("settings.toml").write_text(FIRST)
        chance = random.Random(5)
        for text, times in ((program(20), 6), (stairs(600), 2)):
            uncut = run_uncut(ngc(), FIRST, text)
            for _ in range(times):
                self.try_one(uncut, chance)

    def try_one(self, uncut: object, chance: random.Random) -> None:
        """Breaks a session off, and looks."""
        for name in ("c.dev", "c.out", "x.out"):
            Path(name).unlink(missing_ok=True)
        subprocess.run([ngc(), "format", "c.dev"], check=True)
        commands = b"load %d\n" % len(uncut.text) + uncut.text + b"start\ntick %d\n"
        count = chance.randint(len(uncut.lines) // 10, len(uncut.lines) * 11 // 10)
        subprocess.run([ngc(), "run", "c.dev", "settings.toml", "c.out"], input=commands % count, capture_output=True)
        shutil.copy("c.dev", "x.dev")
        done = subprocess.run([ngc(), "run", "x.dev", "settings.toml", "x.out"], input=b"status\n", capture_output=True)
        status = Status.read(done.stdout.decode().strip())
        wanted = (uncut.segments[status.place, status.segment] if status.half == "program" else
                  uncut.places[status.place] if status.place else len(uncut.lines))
        lines = Path("c.out").read_bytes().splitlines(True)
        there = len(lines) - chance.choice((0, chance.randint(1, min(100, len(lines) - 1))))
        carried = chance.randint(max(0, there - 150), there)
        Path("c.out").write_bytes(b"".join(lines[:there]) + b"P 1 0"[:chance.randint(0, 5)])
        kept = FileRecord(sum(map(len, lines[:carried])), uncut.at(carried))
        image = Path(chance.choice(("c.dev", "x.dev"))).read_bytes()
        found = Finder(ngc(), "settings.toml", image).find("c.out", kept)
        whole = b"".join(lines[:there]) + found.missing
        self.assertEqual((whole[:found.size].count(b"\n"), found.steps, found.is_off),
                         (wanted, uncut.at(wanted), False))
        self.assertEqual(whole.splitlines(), uncut.lines[:whole.count(b"\n")])
        self.assertGreaterEqual(len(whole), found.size)
        self.try_whole(uncut, chance, lines, wanted)

    def try_whole(self, uncut: object, chance: random.Random, lines: list[bytes], wanted: int) -> None:
        """The same where nothing of OUT is lost, as within a session."""
        carried = chance.randint(max(0, len(lines) - 150), len(lines))
        Path("c.out").write_bytes(b"".join(lines))
        finder = Finder(ngc(), "settings.toml", Path("c.dev").read_bytes(), is_whole=True)
        size, (x, y, z) = sum(map(len, lines[:carried])), uncut.at(carried)
        found = finder.find("c.out", FileRecord(size, (x, y, z)))
        self.assertEqual((b"".join(lines)[:found.size].count(b"\n"), found.steps, found.missing, found.is_off),
                         (wanted, uncut.at(wanted), b"", False))

    def test_whole(self) -> None:
        """Where nothing of OUT is lost the session's work isn't done again: the open segment's own lines tell where it
        begins, and where nothing is open, that is at the end."""
        self.device()
        console = Console(ngc(), "mill.dev", "first.toml", "out")
        self.addCleanup(console.kill)
        console.load(b"G21 G90 G94\nG1 X0.5 F60\nX0\nX0.03\nM2\n")
        console.ask("start")
        for count, half, begins, x in ((80, "program", 0, 0), (500, "none", 500, 500), (600, "program", 500, 500),
                                       (1012, "program", 1000, 0)):
            while Path("out").read_bytes().count(b"\n") < count or console.status().half != half:
                console.ask("tick 1")
            lines = Path("out").read_bytes().splitlines(True)
            self.assertEqual(len(lines), count)
            stands, size = sum(int(line.split()[1]) for line in lines), sum(map(len, lines))
            finder = Finder(ngc(), "first.toml", Path("mill.dev").read_bytes(), is_whole=True)
            with patch.object(Finder, "_by_log", side_effect=AssertionError("it is done again")):
                for y in (0, 9):  # on the path, and off it
                    found = finder.find("out", FileRecord(size, (stands, y, 0)))
                    self.assertEqual((found.size, found.steps, found.missing, found.is_off),
                                     (sum(map(len, lines[:begins])), (x, 0, 0), b"", y != 0), count)

    def test_outputs(self) -> None:
        """What was on where the segment begins is known without a search in OUT for the switch, which may be an hour
        back; one within the segment counts."""
        self.device()
        text = "G21 G90 G94\nM3 S100\nG1 X0.5 F60\nG86 X0.6 Z-0.1 R0.1 P1\nM2\n"
        console = Console(ngc(), "mill.dev", "first.toml", "out")
        self.addCleanup(console.kill)
        console.load(text.encode())
        console.ask("start")
        for count in (300, 900):
            while Path("out").read_bytes().count(b"\n") < count:
                console.ask("tick 1")
            with open("out", "rb") as file, patch("ngc_tools.operator.recovery.switched_at",
                                                  side_effect=AssertionError("OUT is searched")):
                size = len(Path("out").read_bytes())
                at_nm = self.led_to(Path("out").read_bytes())
                looking = Looking(ngc(), "first.toml", Path("mill.dev").read_bytes(), is_whole=True)
                found = looking.look("out", file.fileno(), count, size, at_nm, OFF)
            self.assertEqual((found.problem, found.outputs.spindle, found.outputs.speed), ("", 1, 100 * 10**6), count)

    @staticmethod
    def led_to(text: bytes) -> tuple[int, int, int]:
        """Where lines lead, in nm: by hand, a step of 1 um each."""
        pulses = [list(map(int, line.split()[1:4])) for line in text.splitlines() if line.startswith(b"P")]
        x, y, z = (1000 * sum(axis) for axis in zip(*pulses))
        return x, y, z

    def test_short(self) -> None:
        """Where less was handed out than the bytes by which a place is known, the search comes to its end: by hand, OUT
        ends with both lines, with the first alone, and with neither."""
        whole = b"P 1 0 0 50\nP 0 1 0 50\n"
        before = signal.signal(signal.SIGALRM, lambda *_: self.fail("it doesn't come to an end"))
        self.addCleanup(signal.signal, signal.SIGALRM, before)
        self.addCleanup(signal.alarm, 0)
        signal.alarm(20)
        for text, count in ((b"D 9\n" + whole, 22), (whole + b"D 9\n" + whole, 22), (b"D 9\nP 1 0 0 50\n", 11),
                            (b"D 9\n", None), (b"", None)):
            self.assertEqual(_only(text, len(text), whole), count, text)
        self.assertIsNone(_only(b"D 9\n", 4, b""))

    def test_what_doesnt_belong(self) -> None:
        """Another OUT than the device's, and a record that counts more than OUT has."""
        self.device()
        self.run_ngc("mdi G0 X0.02 Y0.01\ntick 9\nquit\n")
        image = Path("mill.dev").read_bytes()
        Path("other").write_text("P 0 0 1 50\n" * 4)
        with self.assertRaisesRegex(CannotTell, "other doesn't end with lines of the half-done block"):
            Finder(ngc(), "first.toml", image).find("other", FileRecord(11, (0, 0, 1)))
        with self.assertRaisesRegex(CannotTell, "other has 44 bytes of whole lines, and the record counts 45"):
            Finder(ngc(), "first.toml", image).find("other", FileRecord(45, (0, 0, 1)))
        found = Finder(ngc(), "first.toml", image).find("out", FileRecord(22, (2, 1, 0)))
        self.assertEqual((found.size, found.steps), (0, (0, 0, 0)))

    def test_no_block(self) -> None:
        """Where no block is half-done OUT has to lead to where the device has the machine: a fresh one at 0."""
        self.device()
        Path("other").write_text("P 0 0 1 50\n" * 4)
        finder = Finder(ngc(), "first.toml", Path("mill.dev").read_bytes())
        with self.assertRaisesRegex(CannotTell, "other doesn't lead to where the device has the machine"):
            finder.find("other", FileRecord(11, (0, 0, 1)))
        self.assertEqual(finder.find("other", FileRecord(11, (0, 0, -3))).size, 44)

    def homed(self, line: str, *more: str, is_noted: bool = True) -> Finder:
        """Six steps of X and then `line` were handed out, and then the device is told that the machine is at X-0.020,
        where it is homed, with what else is given; by the note, or by none."""
        self.device()
        self.run_ngc(f"mdi G0 X0.006\ntick 9\nmdi {line}\ntick 99\n")
        console = Console(ngc(), "mill.dev", "first.toml", "out")
        self.addCleanup(console.kill)
        console.status()
        device, size = Device.read("mill.dev"), os.path.getsize("out")
        with open("out", "rb") as file:
            note = OutNote(os.fstat(file.fileno()).st_ino, born_ns(file.fileno()), device.epoch, 0,
                           device.state.entries, size, size, 0, device.state.point_nm)
        self.assertEqual(OutNote.of_text(note.text()), note)
        for command in ("reference -0.02 0 0", *more):
            console.ask(command)
        console.kill()
        return Finder(ngc(), "first.toml", Path("mill.dev").read_bytes(), note if is_noted else None)

    def found(self, finder: Finder, kept: FileRecord) -> tuple[int, tuple[int, int, int], bool]:
        """How many bytes of OUT lead to the end of what was handed out, where that is, and whether the motors are
        beside it."""
        found = finder.find("out", kept)
        self.assertEqual(found.missing, b"")
        return found.size, found.steps, found.is_off

    def test_told_elsewhere(self) -> None:
        """A device that was told another place, as by a home, doesn't make OUT another one's: by the note, by the
        device's log, or by the motors, where it was told that they are. They are 4 steps from OUT's end, or beside it.
        """
        again = "reference -0.03 0 0"
        for is_noted, more, steps in ((False, (), (-20, 0, 0)), (True, (), (-20, 0, 0)), (True, (), (-9, 0, 4)),
                                      (False, (), (-9, 0, 4)), (True, (again,), (-30, 0, 0))):
            finder = self.homed("G0 X0.010", *more, is_noted=is_noted)
            self.assertEqual(self.found(finder, FileRecord(66, steps, (6, 0, 0))), (110, (10, 0, 0), True))
            by_hand = FileRecord(66, (6, 0, 0))  # brought back
            self.assertEqual(self.found(finder, by_hand), (110, (10, 0, 0), False))
            Path("out").unlink()
        self.homed("G0 X0.010")
        for _ in range(3):
            self.run_ngc("")
        finder = Finder(ngc(), "first.toml", Path("mill.dev").read_bytes())
        self.assertEqual(self.found(finder, FileRecord(66, (-20, 0, 0), (6, 0, 0))), (110, (10, 0, 0), True))
        with self.assertRaisesRegex(CannotTell, "out doesn't lead to where the device has the machine"):
            finder.find("out", FileRecord(66, (-9, 0, 4), (6, 0, 0)))

    def test_round_told_elsewhere(self) -> None:
        """A circle that is left never leads on from where the machine was homed."""
        for is_noted in (True, False):
            finder = self.homed("G2 X0.006 I0.003 F60", is_noted=is_noted)
            size = os.path.getsize("out")
            self.assertGreater(size, 66)
            self.assertEqual(self.found(finder, FileRecord(66, (-20, 0, 0), (6, 0, 0))), (size, (6, 0, 0), True))
            Path("out").unlink()

    def test_round_handed_out_there(self) -> None:
        """One that was handed out there does, also where the record still has the path before; without a note, where
        the log tells it no more, neither is taken."""
        home, kept = (-20, 0, 0), FileRecord(110, (-20, 0, 0), (10, 0, 0))
        note = self.homed("G0 X0.010").note
        self.run_ngc("mdi G2 X-0.02 I0.003 F60\ntick 99\n")
        size = os.path.getsize("out")
        self.assertGreater(size, 110)
        finder = Finder(ngc(), "first.toml", Path("mill.dev").read_bytes())
        self.assertEqual(self.found(finder, kept), (size, home, False))
        self.run_ngc("")
        self.run_ngc("reference 0.05 0 0\n")  # homed once more
        image = Path("mill.dev").read_bytes()
        device = Device(image)
        note = replace(note, epoch=device.epoch, entries=device.snapshot.entries, size=size, begins=size,
                       at_nm=(-20_000, 0, 0))
        again = FileRecord(110, (50, 0, 0), (10, 0, 0))
        self.assertEqual(self.found(Finder(ngc(), "first.toml", image, note), again), (size, home, True))
        self.run_ngc("reference -0.02 0 0\n")
        self.run_ngc("")
        self.run_ngc("")
        with self.assertRaisesRegex(CannotTell, "nothing tells any more whether the lines that are left lead on from"):
            Finder(ngc(), "first.toml", Path("mill.dev").read_bytes()).find("out", kept)

    def test_rehearsal(self) -> None:
        """Of a move of 20 steps that was cut after 6 lines, of which 5 are carried out, behind one of 3 steps."""
        self.device()
        self.run_ngc("load 23\nG0 X0.003\nG0 Z0.020\nM2\nstart\ntick 14\nquit\n")
        self.assertEqual(Path("out").read_text(), "P 1 0 0 50\n" * 3 + "P 0 0 1 50\n" * 6)
        source = OutFile("out")
        mark = source.mark(88)
        source.close()
        Path("position").write_bytes(text_of(Record(f"{self.folder}/out", 8, 88, OFF, (3000, 0, 5000), mark)))
        words = ("mill.dev", "first.toml", "--out", "out", "--position", "position", "--ngc", ngc())
        status, said, _ = told(rehearse, *words)
        self.assertEqual((status, said.splitlines()[:8]), (0, [
            "8 lines of out are carried out; the motors are at X 0.003000 Y 0.000000 Z 0.005000",
            "the open segment begins behind line 3 of out",
            "recover: back through what was cut, 5 lines of OUT, to its line 3: 0.005 mm in 0.000 s, lowest Z 0.000",
            "",
            "half-done: line 2 of 3: G0 Z0.020",
            "segment 0 of 1, counted from 0: begins at X 0.003000 Y 0.000000 Z 0.000000",
            "first comes on: spindle stands; no coolant; no tool in the spindle",
            "the approach: the machine stands there already; nothing moves"]))
        shutil.copy("out", "copy")
        status, _, wrong = told(rehearse, *("copy" if word == "out" else word for word in words))
        self.assertEqual((status, wrong), (2, f"ngc-rehearse: position speaks of {self.folder}/out, not of copy\n"))
        status, _, wrong = told(rehearse, "mill.dev", "first.toml", "--out", "out")
        self.assertEqual((status, wrong.splitlines()[-1]),
                         (2, "ngc-rehearse: error: --out OUT and --position POSITION go together"))


class BeyondTheRecord(InFolder):
    """How far the motors may be past it: by hand, with steps of 1 um and a period of 50 us."""

    def past(self, text: bytes, lines: int, size: int, age_ms: int, percent: int = 100) -> tuple[int, int, bool]:
        """The lines and nanometres, and whether OUT has them, for a record that counts so many lines and bytes."""
        Path("out").write_bytes(text)
        file = os.open("out", os.O_RDONLY)
        self.addCleanup(os.close, file)
        found = along_out(file, lines, size, Settings.read("first.toml"), age_ms, percent)
        return found.lines, found.nm, found.of_out

    def test_along_out(self) -> None:
        """Those that begin within the age of the record, on or back, whichever are more; at 500 us 21 in 10 ms, and as
        many as there are. A wait counts too, and nothing is counted behind what isn't a line."""
        slow = b"P 1 0 0 500\n"
        self.assertEqual(self.past(slow * 99, 40, 480, 10), (21, 21_000, True))
        self.assertEqual(self.past(slow * 50, 40, 480, 10), (21, 21_000, True))
        self.assertEqual(self.past(slow * 9, 4, 48, 10), (5, 5_000, True))
        self.assertEqual(self.past(slow * 9, 2, 24, 10), (7, 7_000, True))
        self.assertEqual(self.past(slow + b"D 9000\n" + slow * 9, 0, 0, 10), (4, 3_000, True))
        self.assertEqual(self.past(slow + b"D 90000\n" + slow * 9, 0, 0, 10), (2, 1_000, True))
        self.assertEqual(self.past(slow * 3 + bytes(4000), 0, 0, 10), (3, 3_000, True))
        self.assertEqual(self.past(b"P 1 1 0 500\n" * 2, 0, 0, 10), (2, 2 * 1414, True))

    def test_override(self) -> None:
        """At 200 percent a line takes half its time: 41 of 500 us in 10 ms, or 401 of 50 us; 9 ms of waiting 4.5."""
        slow = b"P 1 0 0 500\n"
        self.assertEqual(self.past(slow * 99, 40, 480, 10, 200), (41, 41_000, True))
        self.assertEqual(self.past(slow + b"D 9000\n" + slow * 99, 0, 0, 10, 200), (24, 23_000, True))
        self.assertEqual(by_rate(Settings.read("first.toml"), 10, 200).lines, 401)

    def test_by_rate(self) -> None:
        """At 50 us 201 lines in 10 ms, and a line moves the root of 3 um at most: where none stands behind the record,
        as after `drop`, or in a pipe. Without an age it says what is done in 20 ms."""
        self.assertEqual(self.past(b"P 1 0 0 500\n" * 2, 2, 24, 10), (201, 348_143, False))
        self.assertEqual(by_rate(Settings.read("first.toml"), 10).words(), "It was up to 10 ms old while they moved:"
                         " they make at most 201 lines, 0.349 mm, in that time")
        self.assertEqual(by_rate(Settings.read("first.toml"), 0).words(), "It may be 20 ms and a sync old: they make at"
                         " most 401 lines, 0.695 mm, in 20 ms")


class OnTheWay(unittest.TestCase):
    """Motors that are waited for on a way."""

    def test_still(self) -> None:
        """Of a player that works, and neither moves nor carries a line out, that is said once, after 10 s; legs carry
        none out."""
        still = "the player has carried nothing out for 10 s, as in a dwell. Enter or Ctrl-C holds"
        for moves, said in ((False, [still]), (True, [])):
            reports = [Report(3, 8, False, f"{second * moves} 0 0", "out") for second in range(30)]
            reports.append(Report(8, 8, False, "9 0 0", "out"))
            left, face = iter(reports), Mock()
            link = SimpleNamespace(ask=lambda left=left: next(left), release=lambda: None)
            face.interrupted.return_value = False
            session = SimpleNamespace(meter=SimpleNamespace(link=link), face=face, take=lambda _: None,
                                      is_in=lambda *_: False)
            clock = SimpleNamespace(monotonic=lambda ticks=itertools.count(1): float(next(ticks)))
            with patch("ngc_tools.operator.motors.time", clock), patch("ngc_tools.operator.way_back._LOOK_S", 0):
                self.assertTrue(WayBack(session).waits())
            self.assertEqual(sorted({call.args[0] for call in face.once.mock_calls}), said)


class Typing(Yes):
    """A person who answers with what is typed before, and then with nothing."""

    def __init__(self, *answers: str) -> None:
        super().__init__()
        self.answers = list(answers)
        self.holds = 0
        self.asked: list[tuple[str, list[str]]] = []
        """The last line of each question, and what the pins had got then."""

    def ask(self, question: str) -> str:
        """The next answer."""
        self.said.append(question)
        pins = Path("pins").read_text().splitlines() if Path("pins").exists() else []
        self.asked.append((question.strip().splitlines()[-1], pins))
        return self.answers.pop(0) if self.answers else ""

    def agrees(self, question: str) -> bool:
        """Whether that is a yes."""
        return self.ask(question).strip().lower() == "yes"

    def interrupted(self) -> bool:
        """Holds so often."""
        self.holds -= 1
        return self.holds >= 0


class WithOperator(PlayerTest):
    """An operator over a player that follows. `noted` is the device beside which it is noted what OUT has."""

    noted: str | None = None

    def half_done(self, out: str = "out") -> None:
        """A device of which G0 Z0.020 is open, with an OUT of its 3 lines before and 6 of its own."""
        self.device()
        self.run_ngc("load 23\nG0 X0.003\nG0 Z0.020\nM2\nstart\ntick 14\nquit\n", out)

    def record_of(self, lines: int, at_nm: tuple[int, int, int], each: int = 11) -> None:
        """A record of so many lines, each of so many bytes."""
        source = OutFile("out")
        mark = source.mark(each * lines)
        source.close()
        Path("position").write_bytes(text_of(Record(f"{self.folder}/out", lines, each * lines, OFF, at_nm, mark)))

    def operate(self, *answers: str, out: str = "out", words: tuple[str, ...] = ("--untimed",),
                pins: tuple[str, ...] = ("--pins", "pins")) -> tuple[Operator, Typing]:
        """An operator over a player that follows."""
        self.begin("--follow", *words, "--no-ask-tool", *pins, "--progress", "progress", out, "first.toml", "position")
        self.linked()
        link = SyncedLink("progress", out, device=self.noted) if out == "out" else self.linked()
        self.addCleanup(link.close)
        if out == "out":
            link.hole = link.cut_hole()
            link.cut = partial(self.cut, link.cut)
        image = Device.read("mill.dev")
        found = OutFound.of(ngc(), "first.toml", link, image) if out == "out" else None
        console = Console(ngc(), "mill.dev", "first.toml", out)
        self.addCleanup(console.kill)
        face = Typing(*answers)
        operator = Operator(console, face, Meter(link, 100))
        operator.recover.found = found
        operator.begin("", image)
        return operator, face

    def cut(self, real: Callable[[int], None], size: int) -> None:
        """Cuts OUT: no record on the disk counts what it won't have."""
        self.assertLessEqual(Record.read("position").size, size)
        real(size)

    def pins(self) -> list[str]:
        """What the pins got."""
        return Path("pins").read_text().splitlines()


class Recovering(WithOperator):
    """`recover` and `drop`, beyond what a pulled plug shows."""

    def test_no(self) -> None:
        """Lines that are left forbid all that hands out more; a no to any question moves nothing."""
        self.half_done()
        self.record_of(5, (3000, 0, 2000))
        operator, face = self.operate("no", "yes", "no")
        for line in ("resume", "run", "G0 X1"):
            face.said.clear()
            operator.do(line)
            self.assertEqual(face.said[0].splitlines()[0], "nothing is done: lines stand in OUT that no motor carried"
                             " out, behind line 5: recover goes on along them, or back; drop cuts them")
        operator.do("recover")
        operator.do("recover")
        self.assertEqual((self.pins(), operator.look()[0].known), ([], False))
        self.assertIn("back through what was cut, 2 lines of OUT, to its line 3: 0.002 mm in 0.000 s, lowest Z 0.000",
                      face.said)

    def test_back_and_resume(self) -> None:
        """Back two lines, and from there the block: nothing of the approach moves."""
        self.half_done()
        self.record_of(5, (3000, 0, 2000))
        operator, face = self.operate("yes", "yes", "yes")
        operator.do("recover")
        self.assertEqual(self.pins(), ["P 0 0 -1 50"] * 2 + ["S 0 0.000000 0 0 0 0"] + ["P 0 0 1 50"] * 20
                         + ["S 0 0.000000 0 0 0 0"])
        self.assertEqual(Path("out").read_text().splitlines(), ["P 1 0 0 50"] * 3 + self.pins()[2:])
        self.assertIn("segment 0 of line 2: G0 Z0.020 is taken up from its beginning.\nThe motors are there: X 0.003000"
                      " Y 0.000000 Z 0.000000. Its outputs are switched on as they were.", face.said)
        face.said.clear()
        operator.do("recover")
        self.assertEqual(face.said, ["recover is for what the last session left, before anything else is done"])

    def test_place_within_a_cycle(self) -> None:
        """The place that is shown is that of the segment, which isn't the block's first: the way out of a hole at
        X0.002 Y0.003, from its bottom at Z-0.004."""
        self.device()
        text = "F60\nG81 X0.002 Y0.003 Z-0.004 R0.001\nM2\n"
        self.run_ngc(f"load {len(text)}\n{text}start\ntick 19\nquit\n")
        lines = Path("out").read_text().splitlines()
        self.assertEqual((lines.count("P 0 0 -1 1000"), lines[-1]), (5, "P 0 0 1 50"))  # of R0.001 down, and a step up
        source = OutFile("out")
        size = source.size()
        mark = source.mark(size)
        source.close()
        at = after(Position((1000, 1000, 1000)), (read_line(line, 1) for line in lines))
        Path("position").write_bytes(text_of(Record(f"{self.folder}/out", len(lines), size, OFF, at.nm, mark)))
        operator, face = self.operate("yes", "yes", "yes")
        operator.do("recover")
        self.assertIn("The motors are there: X 0.002000 Y 0.003000 Z -0.004000.", "\n".join(face.said))

    def cut_off(self, out: str = "out") -> list[str]:
        """A device of which G1 Z-0.010 at 60 mm a minute is open, under a spindle that turned, at X0.003."""
        self.device()
        text = "M3 S900\nG0 X0.003\nG1 Z-0.010 F60\nM2\n"
        self.run_ngc(f"load {len(text)}\n{text}start\ntick 18\nquit\n", out)
        return Path(out).read_text().splitlines() if out == "out" else []

    def test_look_before_the_way_back(self) -> None:
        """What was on is switched on first, and then it asks, before a pulse is made; a no switches that off again.
        Back it goes no faster than the feed that was cut off."""
        lines = self.cut_off()
        back = sum(line == "P 0 0 -1 1000" for line in lines)
        self.assertGreater(back, 3)
        on, off = "S 1 900.000000 0 0 0 0", "S 0 0.000000 0 0 0 0"
        size = len(Path("out").read_bytes())
        source = OutFile("out")
        mark = source.mark(size)
        source.close()
        at_nm = (3000, 0, -1000 * back)
        Path("position").write_bytes(text_of(Record(f"{self.folder}/out", len(lines), size, OFF, at_nm, mark)))
        operator, face = self.operate("yes", "yes", "no", "yes", "yes", "yes", "no")
        operator.do("recover")
        self.assertEqual(face.asked[-1], (LOOK_SWITCHED.strip().splitlines()[-1], [on]))
        self.assertEqual((self.pins(), operator.look()[0].known), ([on, off], False))
        operator.do("recover")
        look, last = face.asked[-2:]
        self.assertEqual(look, (LOOK_SWITCHED.strip().splitlines()[-1], [on, off, on]))
        went = ["P 0 0 1 1000"] * back
        self.assertEqual(last, (GO_ON.strip().splitlines()[-1], [on, off, on, *went, on]))

    def test_look_before_the_straight_way(self) -> None:
        """Over a pipe `resume` goes straight, at the feed that was cut off or at a slower one, once somebody looked."""
        os.mkfifo("axis")
        reader = subprocess.Popen(["cat", "axis"], stdout=subprocess.DEVNULL)
        self.cut_off("axis")
        reader.wait()
        Path("position").write_bytes(text_of(Record(f"{self.folder}/axis", at_nm=(5000, 0, 4000))))
        operator, face = self.operate("61", "no", "", "yes", "no", "30", "no", "yes", "no", out="axis")
        operator.do("reference player")
        operator.do("resume")
        self.assertIn("61 isn't above 0, and at most 60.", face.said)
        self.assertEqual(self.pins(), [])
        on, off = "S 1 900.000000 0 0 0 0", "S 0 0.000000 0 0 0 0"
        operator.do("resume")
        self.assertEqual(face.asked[-1], (LOOK_SWITCHED.strip().splitlines()[-1], [on]))
        operator.do("resume")
        self.assertEqual(face.asked[-2], (LOOK.strip().splitlines()[-1], [on, off]))
        moved = face.asked[-1][1][2:]
        self.assertEqual((face.asked[-1][0], moved[-1]), (SWITCHED_THERE.strip().splitlines()[-1], on))
        # 2 by 4 steps are 4.472 um, which 30 mm a minute takes 8,944 us for: 2,236 a pulse
        self.assertEqual((len(moved), {line.split()[4] for line in moved[:-1]}), (5, {"2236"}))
        self.assertEqual(operator.look()[1].at, "0.003000 0.000000 0.000000")

    def test_not_gone(self) -> None:
        """Where the player doesn't go there, as in an alarm, `ngc` isn't told that it did."""
        self.half_done()
        os.mkfifo("axis")
        Path("position").write_bytes(text_of(Record(f"{self.folder}/axis", at_nm=(5000, 0, 4000))))
        operator, face = self.operate("yes", "0.006", "600", "yes", out="axis")
        operator.session.meter.link.legs = lambda *_: None
        operator.do("recover")
        self.assertEqual((self.pins(), operator.look()[0].known), ([], False))
        self.assertRegex(face.said[-1], "The player doesn't go there, and nothing is told to ngc")

    def test_drop(self) -> None:
        """Lines that are left are cut off OUT, and then commands are taken."""
        self.half_done()
        self.record_of(2, (2000, 0, 0))
        operator, face = self.operate("no", "yes")
        before = Path("out").read_text()
        operator.do("drop")
        self.assertEqual((Path("out").read_text(), face.said[-1]), (before, (
            "7 lines are cut off OUT, behind its line 2, and nothing makes them any more. yes cuts them off: ")))
        operator.do("drop")
        self.assertEqual((Path("out").read_text(), face.said[-1]), ("P 1 0 0 50\n" * 2, "OUT ends behind line 2"))
        operator.do("reference player")
        self.assertEqual(face.said[-1], "done 3")

    def test_on_its_way(self) -> None:
        """A way back that somebody holds: until its end nothing is handed out behind the lines that it takes back,
        also once the motors are there; `drop` cuts these off, and not before the motors stand."""
        Path("first.toml").write_text(FIRST.replace("6000000000", "600000"))
        self.half_done()  # 0.6 mm a minute are 100,000 us a step
        self.record_of(9, (3000, 0, 6000), 15)
        operator, face = self.operate("yes", "yes", "no", "no", "no", "yes", words=())
        self.assertFalse(operator.recover.found.is_left())
        face.holds = 1
        operator.do("recover")
        self.assertEqual(face.said[-1], "held. yes goes on; anything else stays, and recover goes on later: ")
        for line in ("resume", "G0 X1", "run"):
            operator.do(line)
            self.assertIn("nothing is done: the way of recover isn't at its end: recover goes on", face.said[-1])
        operator.do("drop")
        self.assertIn("nothing is cut off: the motors are on their way", face.said[-1])
        self.wait_for("they are held", lambda: operator.look()[1].is_held)
        before = self.pins()
        operator.do("recover")
        self.assertEqual((face.said[-1], self.pins()), (LOOK_AGAIN, before))
        operator.do("quit")
        self.assertRegex(face.said[-2], "once the session has ended that is for recover in the next session.")
        operator.do("release")
        self.wait_for("they are there", lambda: not operator.look()[1].behind)
        operator.do("resume")
        self.assertIn("nothing is done", face.said[-1])
        self.assertEqual(Path("out").read_text().count("\n"), 9)
        operator.do("drop")
        self.assertEqual((face.said[-1], Path("out").read_text()),
                         ("OUT ends behind line 3", "P 1 0 0 100000\n" * 3))
        before = self.pins()
        operator.do("reference player")
        operator.do("abandon")
        operator.do("reference player")
        operator.do("G0 Z0.001")
        self.assertEqual(self.pins()[len(before):], ["P 0 0 1 100000"])

    def test_put_back(self) -> None:
        """Lines that OUT lost are put back, and no motor moves by that, though all that it has is carried out."""
        self.half_done()
        Path("out").write_text("P 1 0 0 50\n" * 2)
        self.record_of(2, (2000, 0, 0))
        operator, face = self.operate("no")
        time.sleep(0.1)
        self.assertEqual((Path("out").read_text(), self.pins()), ("P 1 0 0 50\n" * 3, []))
        operator.do("resume")
        self.assertIn("nothing is done: lines stand in OUT that no motor carried out", face.said[-1])

    def test_put_back_whole(self) -> None:
        """The same of an OUT that lost all of them, which is asked."""
        self.half_done()
        Path("out").write_text("")
        self.record_of(0, (0, 0, 0))
        operator, face = self.operate("yes", "no")
        operator.do("recover")
        time.sleep(0.1)
        self.assertEqual((Path("out").read_text(), self.pins()), ("P 1 0 0 50\n" * 3, []))

    def test_off_the_path(self) -> None:
        """Where the motors were moved by hand, legs lead back over the height that is typed; a wrong one is refused."""
        self.half_done()
        self.record_of(5, (0, 0, 9000))
        operator, face = self.operate("yes", "", "yes", "one", "1000.1", "0.0089", "0.010", "x", "0", "600", "yes",
                                      "yes")
        operator.do("recover")
        self.assertEqual(self.pins(), [])
        operator.do("recover")
        asked = "Up to which Z, in machine mm, from 0.009000 to 1000.000000? Nothing ends: "
        refusals = [said.splitlines()[0] for said in face.said if said.endswith(asked) and said.count("\n")]
        self.assertEqual(refusals, [
            "not a number of millimetres with at most six decimals: one.", "Z 1000.1 lies outside the travel.",
            "Z 0.0089 lies below Z 0.009000: legs go up first, and down last."])
        self.assertEqual([said.splitlines()[0] for said in face.said if said.endswith("Nothing ends: ")][-2:],
                         ["Not a number of mm a minute: x.", "0 isn't above 0."])
        self.assertEqual(self.pins()[:14], ["P 0 0 1 50"] + ["P 1 0 0 50"] * 3 + ["P 0 0 -1 100"] * 10)
        self.assertEqual(self.pins()[14:35], ["S 0 0.000000 0 0 0 0"] + ["P 0 0 1 50"] * 20)

    def test_outputs_given_back(self) -> None:
        """Where the room of the switch that turned the spindle on was given back, the device says that it was on."""
        self.device()
        self.run_ngc("load 22\nM3 S900\nG0 X1 Z.02\nM2\nstart\ntick 700\nquit\n")
        text = Path("out").read_bytes()
        pulses = text.partition(b"P")
        size = len(text) - 11 * 9  # 9 lines weren't carried out
        at = 1000 * text[:size].count(b"P"), 0, 1000 * text[:size].count(b"P 1 0 1")
        Path("out").write_bytes(bytes(len(pulses[0])) + text[len(pulses[0]):])
        source = OutFile("out")
        mark = source.mark(size)
        source.close()
        lines = text[:size].count(b"\n")
        Path("position").write_bytes(text_of(Record(f"{self.folder}/out", lines, size, OFF, at, mark)))
        operator, face = self.operate("yes", "yes", "no")
        operator.do("recover")
        self.assertIn("on was, there: the spindle, clockwise at 900. yes switches it on first, anything else leaves it"
                      " off: ", face.said)

    def test_off_the_path_before(self) -> None:
        """The same where the path was left before the segment: legs lead to where that was, X2, and the line left there
        is carried out."""
        self.half_done()
        self.record_of(2, (2000, 1000, 0))
        operator, face = self.operate("yes", "0.001", "600", "yes", "yes")
        operator.do("recover")
        self.assertIn("by the record the motors aren't on the path of OUT: legs lead to it, and then on along 1 line of"
                      " OUT", face.said)
        self.assertEqual(self.pins()[:25], ["P 0 0 1 50", "P 0 -1 0 50", "P 0 0 -1 100", "P 1 0 0 50",
                                            "S 0 0.000000 0 0 0 0"] + ["P 0 0 1 50"] * 20)

    def test_lost_out(self) -> None:
        """With an OUT that isn't the session's it says so, and goes by legs where that is wanted."""
        self.half_done()
        Path("out").write_text("P 0 1 0 50\n" * 3)
        self.record_of(2, (0, 0, 0))
        operator, face = self.operate("no", "yes", "0.001", "600", "yes", "yes")
        operator.do("recover")
        self.assertIn("out doesn't end with lines of the half-done block: it isn't the OUT of this device, or the"
                      " record isn't that of this OUT", face.said)
        self.assertEqual(self.pins(), [])
        operator.do("recover")
        self.assertEqual(self.pins()[:5], ["P 0 0 1 50"] + ["P 1 0 0 50"] * 3 + ["P 0 0 -1 100"])
        self.assertEqual(self.pins()[5:26], ["S 0 0.000000 0 0 0 0"] + ["P 0 0 1 50"] * 20)

    def test_pipe(self) -> None:
        """A pipe keeps no lines: by legs, over a height that is typed, and never without one."""
        self.half_done()
        os.mkfifo("axis")
        Path("position").write_bytes(text_of(Record(f"{self.folder}/axis", at_nm=(5000, 0, 4000))))
        operator, face = self.operate("yes", "", "yes", "0.003", "", "yes", "0.006", "600", "no", "yes", "0.006", "600",
                                      "yes", "yes", out="axis")
        for said in (None, "Z 0.003 lies below Z 0.004000: legs go up first, and down last.",
                     "up 0.002 mm, and over 0.002 mm, at the traverse rate; down 0.006 mm at F600"):
            face.said.clear()
            operator.do("recover")
            self.assertEqual((self.pins(), operator.look()[0].known), ([], False))
            self.assertTrue(said is None or said in face.said)
        operator.do("recover")
        self.assertEqual(self.pins()[:10], ["P 0 0 1 50"] * 2 + ["P -1 0 0 50"] * 2 + ["P 0 0 -1 100"] * 6)
        self.assertEqual(self.pins()[10:31], ["S 0 0.000000 0 0 0 0"] + ["P 0 0 1 50"] * 20)

    def test_part(self) -> None:
        """A part of a line is cut off an OUT, and nothing off a file that is none."""
        Path("out").touch()
        self.begin("--follow", "--progress", "progress", "out", "first.toml", "position")
        self.linked()
        for text, left in (("P 1 0 0 50\nP 1 0 0 5", "P 1 0 0 50\n"), ("S 1 9", ""), ("P", ""), ("D 9\nD", "D 9\n"),
                           ("G1 X1\nM2", "G1 X1\nM2"), ("S1000 M3", "S1000 M3"), ("G1 X1\nS", "G1 X1\nS"),
                           ("P 1 0 0 50\n", "P 1 0 0 50\n"), ("", ""), ("D 9\nM2", "D 9\nM2")):
            Path("out").write_text(text)
            link = SyncedLink("progress", "out")
            self.assertEqual((link.cut_part(), Path("out").read_text()), (len(text) - len(left), left))
            link.close()

    def test_cut_awaits_the_record(self) -> None:
        """OUT is cut once the record on the disk counts no more than stays: else no player would take it up."""
        Path("out").write_text("P 1 0 0 50\n" * 9)
        counts = [99, 99, 23, 22]
        link = SyncedLink.__new__(SyncedLink)
        link.__dict__.update(file=os.open("out", os.O_RDWR), notes=None, asked=None, patience_s=60, follow=lambda: None,
                             kept=lambda: (0, counts.pop(0)))
        self.addCleanup(os.close, link.file)
        OutFound(link, None, Recovery(), []).cut(22)
        self.assertEqual((counts, Path("out").stat().st_size), ([], 22))

    def test_room(self) -> None:
        """Room before the open segment is given back once it is carried out; what the way back needs stays."""
        size = 12 << 20
        with open("out", "wb") as file:
            file.write(b"P 1 0 0 50\n" * (size // 11))
        link = SyncedLink.__new__(SyncedLink)
        link.__dict__.update(file=os.open("out", os.O_RDWR), _freed=0, _open=(-1, -1), _before=0, _passed=-1,
                             kept=lambda: (0, 10 << 20))
        self.addCleanup(os.close, link.file)
        before = os.stat("out").st_blocks
        link.passed(Status(1, 0, ("0", "0", "0"), True, "program", 0, "running"))
        link.passed(Status(1, 0, ("0", "0", "0"), True, "program", 0, "running"))
        self.assertEqual(os.stat("out").st_blocks, before)
        link.passed(Status(2, 0, ("0", "0", "0"), True, "none", 0, "running"))
        there = os.stat("out")
        self.assertEqual(there.st_size, size // 11 * 11)
        free = (10 << 20) - 4096
        with open("out", "rb") as file:
            self.assertEqual(file.read(free).strip(b"\0"), b"")
            self.assertNotIn(b"\0", file.read())
        self.assertLessEqual(there.st_blocks, before - free // 512 + 64)


class BesideThePath(WithOperator):
    """Where the motors aren't where the record's line leads, as once they were homed or measured: the steps of OUT tell
    where the open segment begins, from that line on. `legs` go up to Z 0.004, over, and down."""

    LEGS = ("0.004", "600", "yes", "yes")

    def lost_again(self) -> None:
        """Power is lost before anything is typed, until the device's log tells nothing any more."""
        for _ in range(3):
            self.run_ngc("")

    def recovered(self, at: str) -> list[str]:
        """What the pins got of `recover`, with the motors at such a place."""
        operator, face = self.operate(*self.LEGS, words=("--untimed", "--at", *at.split()))
        operator.do("recover")
        self.assertFalse([said for said in face.said if "isn't the OUT" in said or "doesn't" in said])
        return self.pins()

    def test_behind(self) -> None:
        """Behind where it begins: legs to X3, from 2 lines past it. Then its 20 lines come again."""
        self.half_done()
        self.record_of(5, (3000, 0, 2000))
        self.lost_again()
        self.assertEqual(self.recovered("0.003 0.002 0.002"),
                         ["P 0 0 1 50"] * 2 + ["P 0 -1 0 50"] * 2 + ["P 0 0 -1 100"] * 4 + ["S 0 0.000000 0 0 0 0"]
                         + ["P 0 0 1 50"] * 20 + ["S 0 0.000000 0 0 0 0"])

    def test_before(self) -> None:
        """Before it: legs to X2, where the path was left, and on along the line that was left."""
        self.half_done()
        self.record_of(2, (2000, 0, 0))
        self.lost_again()
        self.assertEqual(self.recovered("0.002 0.001 0")[:11],
                         ["P 0 0 1 50"] * 4 + ["P 0 -1 0 50"] + ["P 0 0 -1 100"] * 4
                         + ["P 1 0 0 50", "S 0 0.000000 0 0 0 0"])

    def test_told_again(self) -> None:
        """The record that a player with --at left still says where its line leads, over players. Once the motors stand
        there, nothing but the way back is left."""
        self.half_done()
        self.record_of(5, (3000, 0, 2000))
        for at in (("0.003", "0.1", "0.002"), ("0.003", "-0.2", "0.002")):
            child = self.begin("--follow", "--untimed", "--progress", "progress", "--at", *at, "out", "first.toml",
                               "position")
            self.linked()
            self.wait_for("the record has it", lambda: f"0 {at[1]}00" in Path("position").read_text())
            child.kill()
            child.communicate()
            self.assertIn("\npath 0.003000 0.000000 0.002000\n", Path("position").read_text())
        self.lost_again()
        operator, _ = self.operate("yes", "yes", words=("--untimed", "--at", "0.003", "0", "0.002"))
        self.assertNotIn("path", Path("position").read_text())
        operator.do("recover")
        self.assertEqual(self.pins()[:2], ["P 0 0 -1 50"] * 2)

    def test_from_the_first_line(self) -> None:
        """A record of no line says where the first one begins: the motors are 2 steps beside it."""
        self.half_done()
        self.record_of(0, (0, 0, 0))
        self.lost_again()
        self.assertEqual(self.recovered("0 0.002 0")[:12],
                         ["P 0 0 1 50"] * 4 + ["P 0 -1 0 50"] * 2 + ["P 0 0 -1 100"] * 4 + ["P 1 0 0 50"] * 2)

    def test_within_legs(self) -> None:
        """Power is lost within legs too: at 1 mm a minute a step takes 60 ms."""
        self.half_done()
        self.record_of(5, (3000, 0, 2000))
        self.lost_again()
        child = self.begin("--follow", "--progress", "progress", "--at", "0.003", "0.002", "0.002", "out", "first.toml",
                           "position")
        self.linked().legs("0.004", "0.003 0 0", 33, "1")
        self.wait_for("they go down", lambda: "reference 0.003000 0.000000 0.003" in Path("position").read_text())
        child.kill()
        child.communicate()
        self.assertIn("\npath 0.003000 0.000000 0.002000\n", Path("position").read_text())
        operator, _ = self.operate("yes", *self.LEGS)
        operator.do("recover")
        self.assertEqual(self.pins()[1:6], ["P 0 0 -1 100"] * 4 + ["S 0 0.000000 0 0 0 0"])

    def all_handed_out(self) -> None:
        """No block is half-done: all lines alike were handed out, by lines of the operator's own."""
        self.device()
        self.run_ngc("mdi G0 X0.003\ntick 9\nmdi G0 X0.006\ntick 9\n")
        self.assertEqual(Path("out").read_text(), "P 1 0 0 50\n" * 6)
        self.record_of(2, (2000, 0, 0))

    def go_on_from_beside(self) -> None:
        """The motors are 0.02 mm beside the second of these lines: by legs to it, and on."""
        operator, face = self.operate("0.004", "600", "yes", words=("--untimed", "--at", "0.002", "0.02", "0"))
        operator.do("recover")
        self.assertIn("by the record the motors aren't on the path of OUT: legs lead to it, and then on along 4 lines"
                      " of OUT", face.said)
        self.assertEqual(self.pins(), ["P 0 0 1 50"] * 4 + ["P 0 -1 0 50"] * 20 + ["P 0 0 -1 100"] * 4
                         + ["P 1 0 0 50"] * 4)

    def test_all_handed_out(self) -> None:
        """The device's log still tells what was handed out last."""
        self.all_handed_out()
        self.go_on_from_beside()

    def test_all_handed_out_and_lost_again(self) -> None:
        """Nothing but its point is left."""
        self.all_handed_out()
        self.lost_again()
        self.go_on_from_beside()

    def test_another_out(self) -> None:
        """An OUT that isn't the device's is still told apart, by where its lines lead from there."""
        self.device()
        Path("out").write_text("P 0 0 1 50\n" * 4)
        self.record_of(1, (0, 0, 1000))
        operator, face = self.operate(words=("--untimed", "--at", "0", "0.02", "0.001"))
        operator.do("recover")
        self.assertIn("out doesn't lead to where the device has the machine: it isn't the OUT of this device, or the"
                      " record isn't that of this OUT", face.said)


class ToldElsewhere(WithOperator):
    """The device is told another place while lines are left in OUT, and power is lost again before `recover`."""

    noted = "mill.dev"
    LEGS = BesideThePath.LEGS

    def begin(self, *words: str, **how: object) -> subprocess.Popen[str]:
        """Keeps the player."""
        self.player = super().begin(*words, **how)
        return self.player

    def told_then_lost(self, *words: str, typed: tuple[str, ...]) -> None:
        """A session in which somebody types these, and then power is lost."""
        operator, _ = self.operate(words=("--untimed", *words))
        for line in typed:
            operator.do(line)
        self.lost(operator)

    def lost(self, operator: Operator) -> None:
        """Power is lost."""
        operator.console.kill()
        self.player.kill()
        self.player.communicate()

    def test_homed(self) -> None:
        """Six steps of X were handed out, two are carried out, and the machine is homed at X-0.020; then, in another
        session, power is lost on the way down of legs to X2. Legs lead there again, and on along 4 lines."""
        self.device()
        self.run_ngc("mdi G0 X0.003\ntick 9\nmdi G0 X0.006\ntick 9\n")
        self.record_of(2, (2000, 0, 0))
        self.told_then_lost("--at", "-0.02", "0", "0", typed=("reference player",))
        operator, _ = self.operate(words=())
        operator.session.meter.link.legs("0.004", "0.002 0 0", 66, "1")
        self.wait_for("they go down", lambda: "reference 0.002000 0.000000 0.003" in Path("position").read_text())
        self.lost(operator)
        Path("pins").unlink()
        self.told_then_lost(typed=())
        operator, face = self.operate("yes", *self.LEGS)
        operator.do("recover")
        made = self.pins()
        self.assertEqual(made[made.index("P 0 0 -1 100"):], ["P 0 0 -1 100"] * 4 + ["P 1 0 0 50"] * 4, face.said)
        self.assertEqual(operator.look()[0].at, ("0.006000", "0.000000", "0.000000"))

    def test_given_up(self) -> None:
        """A block that is given up, with lines of it left: recover leads to where it began, not along them."""
        self.half_done()
        self.record_of(5, (3000, 0, 2000))
        self.told_then_lost(typed=("reference player", "abandon"))
        operator, _ = self.operate("yes", "yes", "yes")
        operator.do("recover")
        self.assertEqual(self.pins(), ["P 0 0 -1 50"] * 2)
        status = operator.look()[0]
        self.assertEqual((status.at, status.half), (("0.003000", "0.000000", "0.000000"), "none"))


class Questions(WithOperator):
    """What is asked from a cut to cutting again, as docs/RECOVERY.md counts it: with the spindle on, and all answered
    as they lead on. `recover` is the one command."""

    def cut(self, real: Callable[[int], None], size: int) -> None:
        """Cuts OUT."""
        real(size)

    def handed_out(self, out: str, first: str = "M3 S900") -> None:
        """G1 Z-0.010 is open, under a spindle that turned."""
        self.device()
        text = f"{first}\nG0 X0.003\nG1 Z-0.010 F60\nM2\n"
        self.run_ngc(f"load {len(text)}\n{text}start\ntick 18\nquit\n", out)

    def lost(self, out: str, first: str = "M3 S900") -> tuple[str, ...]:
        """The same, and all of OUT is carried out. Where the motors are then."""
        reader = subprocess.Popen(["cat", out], stdout=subprocess.DEVNULL) if out == "axis" else None
        self.handed_out(out, first)
        mark, lines, size, at = None, 0, 0, Position((1000, 1000, 1000), (3000, 0, -6000))
        if reader:
            reader.wait()
        else:
            source = OutFile("out")
            texts, size = Path("out").read_text().splitlines(), source.size()
            lines, mark = len(texts), source.mark(size)
            at = after(Position((1000, 1000, 1000)), (read_line(text, 1) for text in texts))
            source.close()
        Path("position").write_bytes(text_of(Record(f"{self.folder}/{out}", lines, size, OFF, at.nm, mark)))
        return tuple(str(at).split())

    def asked(self, out: str, *answers: str, words: tuple[str, ...] = ("--untimed",), typed: tuple[str, ...] = (),
              pins: tuple[str, ...] = ("--pins", "pins")) -> list[str]:
        """The first words of each question."""
        operator, face = self.operate(*answers, out=out, words=words, pins=pins)
        for line in (*typed, "recover"):
            operator.do(line)
        self.assertEqual(operator.look()[0].half, "none", face.said)
        last = [said.strip().splitlines()[-1] for said, _ in face.asked]
        return [said.split(":")[0].split("?")[0].split(",")[0] for said in last]

    def test_file(self) -> None:
        """Along OUT."""
        self.lost("out")
        self.assertEqual(self.asked("out", "yes", "yes", "yes", "yes"), [
            "Do they stand there", "on was", "yes goes there", "yes goes on with the cut"])

    def test_file_all_off(self) -> None:
        """With all off one less."""
        self.lost("out", "M5")
        self.assertEqual(self.asked("out", "yes", "yes", "yes"), [
            "Do they stand there", "yes goes there", "yes goes on with the cut"])

    def test_file_told(self) -> None:
        """The place is told to the player, as the record has it."""
        at = self.lost("out")
        self.assertEqual(self.asked("out", "yes", "yes", "yes", words=("--untimed", "--at", *at)), [
            "on was", "yes goes there", "yes goes on with the cut"])

    def test_file_told_elsewhere(self) -> None:
        """By legs."""
        self.lost("out")
        words = ("--untimed", "--at", "0", "0", "0")
        self.assertEqual(self.asked("out", "0.001", "", "yes", "yes", "yes", words=words), [
            "by legs then", "How fast down", "on was", "yes goes there", "yes goes on with the cut"])

    def test_pipe(self) -> None:
        """By legs."""
        os.mkfifo("axis")
        self.lost("axis")
        self.assertEqual(self.asked("axis", "yes", "0.001", "", "yes", "yes", "yes"), [
            "Do they stand there", "by legs then", "How fast down", "on was", "yes goes there",
            "yes goes on with the cut"])

    def test_pipe_told(self) -> None:
        """The same where the place is told."""
        os.mkfifo("axis")
        at = self.lost("axis")
        self.assertEqual(self.asked("axis", "0.001", "", "yes", "yes", "yes", words=("--untimed", "--at", *at)), [
            "by legs then", "How fast down", "on was", "yes goes there", "yes goes on with the cut"])

    def over_sink(self, out: str = "out") -> tuple[str, ...]:
        """All of OUT is carried out over a sink, which has switches, and then the player loses its power. The words of
        a player over it."""
        sink = ServedSink(3_000)
        self.addCleanup(sink.kill)
        for number, axis, way in SWITCHES:
            sink.tell(f"switch {number} {axis} {way} {way * SWITCH_STEPS}")
        Path("mill.toml").write_text(f"[motion]\naccel_mm_s2 = [20000, 20000, 20000]\n{HOME_TOML}"
                                     f'[sink]\nline = "{sink.path}"\nbaud = 2000000\n')
        words = ("--machine", "mill.toml")
        Path("out").touch()
        child = self.begin(*(("--follow",) if out == "out" else ()), "--no-ask-tool", *words, "--progress", "progress",
                           out, "first.toml", "position")
        link = self.linked()
        self.handed_out(out)
        link.synced(os.path.getsize("out"))
        link.last()
        self.wait_for("all is carried out", lambda: link.kept()[0] == 9)
        child.kill()
        child.communicate()
        return words

    def test_sink(self) -> None:
        """A sink that kept its power tells where the motors are."""
        words = self.over_sink()
        self.assertEqual(self.asked("out", "yes", "yes", "yes", words=words, pins=()), [
            "on was", "yes goes there", "yes goes on with the cut"])

    def test_pipe_and_sink(self) -> None:
        """Over a pipe it can't tell what it made, and home comes first."""
        os.mkfifo("axis")
        words = self.over_sink("axis")
        answers = "2.95", "", "yes", "yes", "yes"
        self.assertEqual(self.asked("axis", *answers, words=words, typed=("home",), pins=()), [
            "by legs then", "How fast down", "on was", "yes goes there", "yes goes on with the cut"])

    def test_sink_homed(self) -> None:
        """Once the machine is homed legs lead back."""
        words = self.over_sink()
        self.assertEqual(self.asked("out", "2.95", "", "yes", "yes", "yes", words=words, typed=("home",), pins=()), [
            "by legs then", "How fast down", "on was", "yes goes there", "yes goes on with the cut"])


class EndsWhereItBegan(WithOperator):
    """Blocks that end where they began, of which OUT lost all with the power, while the device has them as done."""

    noted = "mill.dev"

    def begun(self, text: str) -> tuple[Operator, Typing]:
        """An operator with an OUT of `text`."""
        Path("out").write_text(text)
        self.operator, self.face = self.operate()
        return self.operator, self.face

    def lost(self, lines: list[str], count: int) -> None:
        """Power is lost before the last line's OUT was synced: it has its first `count` lines, and all of them are
        carried out."""
        self.operator.console.kill()
        if self.noted and Path("noted").exists():
            shutil.copy("noted", "mill.dev.out")
        self.player.kill()
        self.player.communicate()
        whole = "".join(f"{line}\n" for line in lines[:count])
        Path("out").write_text(whole)
        found = Settings.read("first.toml").step_nm
        at = after(Position(found), (read_line(line, 1) for line in lines[:count]))
        source = OutFile("out")
        mark = source.mark(len(whole))
        source.close()
        record = Record(f"{self.folder}/out", count, len(whole), OFF, at.nm, mark)
        Path("position").write_bytes(text_of(record))
        Path("pins").unlink(missing_ok=True)

    def begin(self, *words: str, **how: object) -> subprocess.Popen[str]:
        """Keeps the player."""
        self.player = super().begin(*words, **how)
        return self.player

    def brought_back(self, lines: list[str], count: int) -> None:
        """All lines behind the first `count` are put back, which is said, and `recover` carries them out."""
        self.lost(lines, count)
        operator, face = self.operate("yes", "yes", "yes")
        lost = len(lines) - count
        self.assertIn(f"out: {lost} lines that were handed out were lost with the power, and are put back: ngc run"
                      " hands out the same ones again", face.said)
        operator.do("run")
        self.assertIn("nothing is done: lines stand in OUT", face.said[-1])
        operator.do("recover")
        self.assertEqual(self.pins(), lines[count:])
        self.assertEqual(face.said[-1], "the motors are where what was handed out leads: run goes on")

    def keep_note(self) -> None:
        """It is that of the moment at which power will be lost."""
        if self.noted:
            shutil.copy("mill.dev.out", "noted")

    def lines(self) -> list[str]:
        """Those of OUT."""
        return Path("out").read_text().splitlines()

    def test_circle(self) -> None:
        """A circle of 0.002 mm behind 3 steps."""
        self.device()
        operator, _ = self.begun("")
        operator.do("G0 X0.003")
        self.keep_note()
        operator.do("G2 X0.003 I0.002 F60")
        self.assertGreater(len(self.lines()), 10)
        self.brought_back(self.lines(), 3)

    def test_without_a_note(self) -> None:
        """The same where nothing was noted, as after `ngc run` alone: the device's log tells it."""
        self.noted = None
        self.test_circle()

    def test_log_begun_anew(self) -> None:
        """The device's log is full in the midst of a program, and begun anew: 1,020 records are some 500 lines."""
        self.device()
        operator, face = self.begun("")
        text = "G91\n" + "G0 X0.001\nG0 X-0.001\n" * 300 + "M0\nG4 P0.01\nM0\nM2\n"
        operator.load("long", text.encode())
        epoch = Device.read("mill.dev").epoch
        operator.do("run")
        self.assertEqual(Device.read("mill.dev").epoch, epoch + 1)
        self.keep_note()
        operator.do("run")
        self.assertEqual(self.lines()[-1], "D 10000", face.said)
        Path("noted").unlink()  # it was noted within the program, before the last lines
        note = OutNote.of_text(Path("mill.dev.out").read_bytes())
        self.assertEqual(note.epoch, epoch + 1)
        self.brought_back(self.lines(), 600)

    def test_lost_before_it_is_noted(self) -> None:
        """The log is begun anew, and power is lost before that is noted: then the note speaks of the log before, and
        what was handed out since the log's beginning tells what OUT has lost of it, a circle and two waits."""
        self.device()
        operator, face = self.begun("")
        text = "G91\nF60\n" + "G0 X0.001\nG0 X-0.001\n" * 300 + "G2 X0 I0.002\nG4 P0.01\nG4 P0.01\nM0\nM2\n"
        operator.load("long", text.encode())
        self.keep_note()
        epoch = Device.read("mill.dev").epoch
        operator.do("run")
        self.assertEqual(Device.read("mill.dev").epoch, epoch + 1, face.said)
        self.assertEqual(self.lines()[-2:], ["D 10000"] * 2)
        self.brought_back(self.lines(), 600)

    def lost_in_the_piece(self, text: str, count: int, half: int = 0) -> None:
        """The log is begun anew amid a piece of ticks, and power is lost before OUT is synced: it has `count` lines.
        """
        self.device()
        operator, face = self.begun("")
        operator.load("long", text.encode())
        epoch = Device.read("mill.dev").epoch
        with patch.object(Session, "passed"), patch.object(Session, "note_out"):
            operator.do("run")
        shutil.copy("mill.dev.out", "noted")
        device = Device.read("mill.dev")
        self.assertEqual((device.epoch, device.state.half), (epoch + 1, half), face.said)
        self.assertGreater(device.records[0].state.place, len("G91\nF60\n") + 11 * count, "the log begins behind that")
        self.brought_back(self.lines(), count)

    def test_lost_as_it_begins_anew(self) -> None:
        """Lines that were handed out before the log was begun anew are put back, where they led nowhere as well."""
        steps = "G0 X0.001\nG0 X-0.001\n" * 200
        self.lost_in_the_piece(f"G91\nF60\n{steps}G2 X0 I0.002\n{steps}M0\nM2\n", 400)

    def test_noted_within(self) -> None:
        """Where the log is begun anew in the midst of a program it is noted once no block is under way."""
        self.device()
        operator, _ = self.begun("")
        operator.do("G0 X0.001")
        link = operator.session.meter.link
        before = Path("mill.dev.out").read_bytes()
        operator.session.passed(operator.console.status())
        self.assertEqual(Path("mill.dev.out").read_bytes(), before)
        operator.console.ask("tool 1 0.5")
        operator.console.load(b"M2\n")  # begins it anew
        operator.session.passed(replace(operator.console.status(), half="mdi"))
        self.assertEqual(Path("mill.dev.out").read_bytes(), before)
        operator.session.own = "G0 X0.001"
        operator.session.passed(operator.console.status())
        self.assertEqual(BeforeFile("mill.dev").read(Device.read("mill.dev")).command, "mdi G0 X0.001")
        operator.session.own = ""
        operator.console.load(b"M30\n")
        operator.session.passed(operator.console.status())
        note, device = link.noted(), Device.read("mill.dev")
        kept = BeforeFile("mill.dev").read(device)
        self.assertEqual((kept.command, kept.device.epoch), ("start", device.epoch))
        self.assertEqual((note.epoch, note.records, note.entries, note.size, note.begins, note.at_nm),
                         (device.epoch, 0, device.state.entries, 11, 11, (1000, 0, 0)))

    def test_as_left(self) -> None:
        """Over any number of power ons `run` goes on with the next line of a program without a question, as long as
        all is as it was; a line of one's own that moved is still known after them."""
        self.device()
        operator, face = self.begun("")
        operator.load("a program", b"G21 G90\nG0 X0.003\nM0\nG0 X0.006\nM0\nG0 X0.007\nM0\nG0 X0.009\nM2\n")
        operator.do("run")
        for typed, questions in (("", []), ("G0 Y0.002;G0 Y0", []), ("G0 Y0.002", ["go on all the same"])):
            for line in typed.split(";"):
                operator.do(line)
            for _ in range(3):
                link = operator.session.meter.link
                self.wait_for("the record has all", lambda: link.kept()[0] == len(self.lines()))
                operator.console.kill()
                self.player.kill()
                self.player.communicate()
                operator, face = self.operate("yes")
            operator.do("run")
            self.assertEqual([said.split("?")[0] for said, _ in face.asked], questions, face.said)
        self.assertEqual(operator.look()[1].at.split()[0], "0.009000")

    def test_another_out(self) -> None:
        """An OUT that was emptied, as at the start of a day, or that is another one, has lost nothing."""
        self.device()
        operator, _ = self.begun("")
        operator.do("G2 X0 I0.002 F60")
        lines = self.lines()
        self.lost(lines, 0)
        shutil.copy("out", "new")
        for name in ("out", "new"):
            os.replace(name, "out")
            Path("position").unlink(missing_ok=True)
            operator, face = self.operate()
            self.assertEqual([said for said in face.said if "lines" in said and "behind" not in said], [])
            operator.do("recover")
            self.assertEqual(face.said[-1], "nothing is half-done, and nothing is left in OUT: run goes on")
            operator.console.kill()
            self.player.kill()
            self.player.communicate()

    def all_lost(self) -> list[str]:
        """Power is lost behind a circle, and OUT, which was empty before, has none of its lines, which it returns."""
        self.device()
        operator, _ = self.begun("")
        self.keep_note()
        operator.do("G2 X0 I0.002 F60")
        lines = self.lines()
        self.lost(lines, 0)
        return lines

    def test_all_of_an_empty_out(self) -> None:
        """An OUT that was empty as the session began, and is so again: that isn't put back without a question."""
        lines = self.all_lost()
        operator, face = self.operate("yes", "yes", "yes", "yes")
        self.assertTrue([said for said in face.said if f"has none of the {len(lines)} lines that were handed" in said])
        operator.do("recover")
        self.assertEqual(self.pins(), lines)

    def test_told_before_it_is_put_back(self) -> None:
        """Where the machine is told first, and power is lost once more before `recover`: the lines were put back."""
        lines = self.all_lost()
        operator, face = self.operate("yes")
        operator.do("reference 0 0 0")
        self.assertTrue(face.asked[0][0].endswith("goes on without them:"), face.asked)
        operator.console.kill()
        self.player.kill()
        self.player.communicate()
        operator, face = self.operate("yes", "yes", "yes")
        self.assertTrue([said for said in face.said if said.startswith("lines stand in OUT that no motor")], face.said)
        operator.do("recover")
        self.assertEqual(self.pins(), lines)

    def asks_first(self, typed: str) -> None:
        """What is typed asks, and isn't done then: nothing is stored, and `recover` carries the lines out."""
        lines = self.all_lost()
        operator, face = self.operate("yes", "yes", "yes")
        entries = operator.console.status().entries
        operator.do(typed)
        self.assertTrue(face.asked[0][0].endswith("goes on without them:"), face.asked)
        self.assertTrue(face.said[-1].startswith("nothing is done: lines stand in OUT that no motor"), face.said)
        self.assertEqual(operator.console.status().entries, entries)
        operator.do("recover")
        self.assertEqual(self.pins(), lines)

    def test_tool_first(self) -> None:
        """A tool's length, before `recover`."""
        self.asks_first("tool 1 0.5")

    def test_program_first(self) -> None:
        """Another program."""
        Path("a.ngc").write_text("G0 X0.001\nM2\n")
        self.asks_first("load a.ngc")

    def test_run_first(self) -> None:
        """The program's next line."""
        self.asks_first("run")

    def test_line_first(self) -> None:
        """A line of one's own."""
        self.asks_first("G0 X0.001")

    def test_without_them(self) -> None:
        """Who says no goes on without them, and isn't asked again."""
        self.all_lost()
        operator, face = self.operate("no")
        operator.do("tool 1 0.5")
        operator.do("tool 2 0.5")
        self.assertEqual((len(face.asked), operator.stored().tools_nm[:2]), (1, [500_000] * 2))

    def unanswered(self, times: int = 3) -> list[str]:
        """So many sessions begin and end, and nobody answers. Returns what the last one says."""
        for _ in range(times):
            operator, face = self.operate()
            operator.console.kill()
            self.player.kill()
            self.player.communicate()
        return face.said

    def asks(self, said: list[str]) -> bool:
        """Whether it is said that lines are lost, of which it is asked whether they are put back."""
        return any(" that were handed out last, and no motor" in text for text in said)

    def test_without_an_answer(self) -> None:
        """They are asked about after any number of power ons at which nobody answered, also amid a session that is
        begun anew."""
        lines = self.all_lost()
        self.unanswered()
        operator, face = self.operate("yes", "yes", "yes", "yes")
        operator.following.begin()
        self.assertEqual(sum(map(self.asks, zip(face.said))), 2, face.said)
        operator.do("recover")
        self.assertEqual((self.pins(), self.lines(), Path("mill.dev.asked").exists()), (lines, lines, False))

    def test_next_line_without_an_answer(self) -> None:
        """The device that is kept tells how the program was left for its next line, too: nothing is asked of that."""
        self.device()
        operator, _ = self.begun("")
        operator.load("a program", b"G21 G90\nG0 X0.003\nM0\nG0 X0.006\nM2\n")
        self.keep_note()
        operator.do("run")
        self.lost(self.lines(), 0)
        self.unanswered()
        operator, face = self.operate(*["yes"] * 6)
        operator.do("recover")
        asked = len(face.asked)
        operator.do("run")
        self.assertEqual((face.asked[asked:], self.pins()[:6]), ([], ["P 1 0 0 50"] * 6), face.said)

    def test_block_without_an_answer(self) -> None:
        """The same of lines before a block that is half-done."""
        self.half_done()
        whole = self.lines()
        Path("out").write_text("")
        self.record_of(0, (0, 0, 0))
        self.unanswered()
        operator, face = self.operate(*["yes"] * 5)
        operator.do("recover")
        self.assertIn("out has none of the 3 lines that were handed out before the half-done block", face.asked[0][0])
        self.assertEqual([line for line in self.pins() if line[0] == "P"], whole[:3] + ["P 0 0 1 50"] * 20)
        self.assertFalse(Path("mill.dev.asked").exists())

    def test_put_back_in_part(self) -> None:
        """Where power is lost as they are put back, the rest is put back without a question: it is that OUT."""
        lines = self.all_lost()
        self.unanswered()
        Path("out").write_text("".join(f"{line}\n" for line in lines[:2]) + lines[2][:5])
        operator, face = self.operate("yes", "yes", "yes")
        self.assertIn(f"out: {len(lines) - 2} lines that were handed out were lost with the power, and are put back:"
                      " ngc run hands out the same ones again", face.said)
        self.assertFalse(Path("mill.dev.asked").exists())
        operator.do("recover")
        self.assertEqual(self.pins(), lines)

    def test_gone_on_without_them(self) -> None:
        """A no is an answer once something is stored, and before that none."""
        self.all_lost()
        operator, _ = self.operate("no", "no")
        operator.do("tool 1 -1")
        self.assertTrue(Path("mill.dev.asked").exists())
        operator.do("tool 1 0.5")
        self.assertFalse(Path("mill.dev.asked").exists())
        operator.console.kill()
        self.player.kill()
        self.player.communicate()
        self.assertFalse(self.asks(self.unanswered(1)))

    def test_asked_of_another(self) -> None:
        """What is kept of another device, isn't whole, or is something else isn't gone by; the last of them stays."""
        self.all_lost()
        self.unanswered(1)
        kept = Path("mill.dev.asked").read_bytes()
        Path("mill.dev").unlink()
        self.device()
        for text, stays in ((kept, False), (kept[:-9], False), (kept[:20], False), (b"G0\n", True), (b"", True)):
            Path("mill.dev.asked").write_bytes(text)
            self.assertFalse(self.asks(self.unanswered(1)), text[:20])
            self.assertEqual(Path("mill.dev.asked").exists(), stays, text[:20])

    def test_not_kept(self) -> None:
        """Where the device can't be kept that is said, the session begins, and what stood there stays."""
        self.all_lost()
        for number, why in ((errno.ENOSPC, "No space left on device"), (errno.EIO, "Input/output error")):
            with patch("ngc_tools.formats.kept_device.write_new", side_effect=OSError(number, why, "mill.dev.asked")):
                said = self.unanswered(1)
            self.assertEqual((said.count(f"{NOT_KEPT}: mill.dev.asked: {why}"), self.asks(said)),
                             (1, True), said)
        self.assertFalse(Path("mill.dev.asked").exists())

    def test_another_is_kept_there(self) -> None:
        """Nor is what somebody else has there written over."""
        self.all_lost()
        Path("mill.dev.asked").write_text("a drawing\n")
        said = self.unanswered(1)
        self.assertIn(f"{NOT_KEPT}: mill.dev.asked: it isn't what is kept there, and isn't written over", said)
        self.assertEqual((self.asks(said), Path("mill.dev.asked").read_text()), (True, "a drawing\n"))

    def test_no_room_to_put_back(self) -> None:
        """Where the disk is full nothing is stored, whatever is typed, and it is asked again."""
        self.all_lost()
        operator, face = self.operate("yes", "yes", "yes")
        entries = operator.console.status().entries
        with patch.object(SyncedLink, "append", side_effect=OSError(errno.ENOSPC, "No space left on device", "out")):
            for typed in ("tool 1 0.5", "reference 0 0 0", "run"):
                operator.do(typed)
                self.assertIn("they aren't put back, and nothing is stored: ", face.said[-1])
        self.assertEqual((len(face.asked), operator.console.status().entries, self.lines()), (3, entries, []))

    def test_no_after_a_failure(self) -> None:
        """Who says no once they couldn't be put back goes on without them: what is handed out then is carried out."""
        self.all_lost()
        operator, face = self.operate("yes", "no")
        link = operator.recover.found.link
        with patch.object(os, "pwrite", side_effect=self.part()):
            operator.do("tool 1 0.5")
        self.assertIn("they aren't put back, and nothing is stored: ", face.said[-1])
        self.assertEqual((link.is_following, link.size(), operator.recover.is_left()), (True, 0, False))
        operator.do("G0 X0.002")
        self.assertEqual((self.pins(), self.lines()), (["P 1 0 0 50"] * 2,) * 2, face.said)

    def test_part_that_stays(self) -> None:
        """Where the part that was written can't be cut off either, nothing is done behind it before a no or `drop` has
        cut it off."""
        self.all_lost()
        operator, face = self.operate("yes", "no", "no")
        link = operator.recover.found.link
        with patch.object(os, "pwrite", side_effect=self.part()), \
                patch.object(os, "ftruncate", side_effect=OSError(errno.EIO, "Input/output error")):
            for typed in ("tool 1 0.5", "reference 0 0 0"):
                operator.do(typed)
                self.assertIn("they aren't put back, and nothing is stored: ", face.said[-1])
            self.assertEqual((link.is_following, link.size(), operator.recover.is_left()), (False, 15, True))
            operator.do("drop")
            self.assertEqual(face.said[-1], "[Errno 5] Input/output error")
        operator.do("drop")
        self.assertEqual(face.said[-1], "no line is left in OUT that no motor carried out")
        self.assertEqual((link.is_following, link.size(), Path("mill.dev.asked").exists()), (True, 0, True))
        operator.do("G0 X0.002")
        self.assertEqual((self.pins(), self.lines(), len(face.asked)), (["P 1 0 0 50"] * 2,) * 2 + (3,), face.said)

    def part(self) -> Callable[[int, bytes, int], int]:
        """What writes 15 bytes, and then nothing more."""
        real = os.pwrite

        def write(file: int, text: bytes, at: int) -> int:
            """Writes them."""
            if at:
                raise OSError(errno.ENOSPC, "No space left on device")
            return real(file, text[:15], at)

        return write

    def test_put_back_once(self) -> None:
        """Attempts that failed as the disk was full after a part, as it couldn't be synced, and as the player didn't
        answer behind that, leave nothing: the lines are put back once."""
        lines = self.all_lost()
        operator, face = self.operate(*["yes"] * 7)
        for where, what, how in ((os, "pwrite", self.part()), (os, "fsync", OSError(errno.EIO, "Input/output error")),
                                 (OutFound, "look", NoAnswer("the player is gone"))):
            with patch.object(where, what, side_effect=how):
                operator.do("tool 1 0.5")
                self.assertIn("they aren't put back, and nothing is stored: ", face.said[-1])
        operator.do("tool 1 0.5")
        self.assertTrue(face.said[-1].startswith("nothing is done: lines stand in OUT that no motor"), face.said)
        self.assertEqual((len(face.asked), self.lines()), (4, lines))
        operator.do("recover")
        self.assertEqual(self.pins(), lines)

    def test_not_noted(self) -> None:
        """Where it can't be noted that is said once, and the work goes on; what isn't a note isn't written over."""
        self.device()
        Path("mill.dev.out").write_text("a drawing\n")
        operator, face = self.begun("")
        operator.do("G0 X0.002")
        operator.do("G0 X0.003")
        why = ("what OUT has isn't noted beside the device, by which lines are told that are lost with the power:"
               " mill.dev.out: it isn't what is kept there, and isn't written over")
        self.assertEqual(face.said.count(why), 3)
        self.assertEqual((Path("mill.dev.out").read_text(), len(self.lines())), ("a drawing\n", 3))

    def test_not_kept_before(self) -> None:
        """The same where the device can't be kept as it stood before a command."""
        self.device()
        Path("mill.dev.before").write_text("a drawing\n")
        operator, face = self.begun("")
        with patch("ngc_tools.formats.kept_device.write_new", side_effect=OSError(errno.ENOSPC, "No space left on"
                                                                                 " device", "mill.dev.before")):
            operator.do("G0 X0.002")
            Path("mill.dev.before").unlink()
            operator.do("G0 X0.003")
        for why in ("it isn't what is kept there, and isn't written over", "No space left on device"):
            self.assertIn("what OUT has isn't noted beside the device, by which lines are told that are lost with the"
                          f" power: mill.dev.before: {why}", face.said)
        self.assertEqual((Path("mill.dev.before").exists(), len(self.lines())), (False, 3))

    def twice(self, typed: str) -> None:
        """A line is typed twice: OUT ends with the first one as it would with the second."""
        self.device()
        operator, face = self.begun("")
        operator.do("G0 Z0.001")
        operator.do(typed)
        once = len(self.lines())
        self.keep_note()
        operator.do(typed)
        self.assertEqual(len(self.lines()), 2 * once - 1, face.said)
        self.brought_back(self.lines(), once)

    def test_circles(self) -> None:
        """Circles."""
        self.twice("G2 X0 I0.002 F60")

    def test_waits(self) -> None:
        """A line of OUT each."""
        self.twice("G4 P0.01")

    def test_holes(self) -> None:
        """Down, a wait, and up."""
        self.twice("G82 X0 Y0 Z-0.002 R0.001 P0.001 F60")


class Holes(WithOperator):
    """Zeros in the place of lines that weren't synced: an append that was lost in its midst. OUT has 3 lines before the
    open segment and 6 of its own, of 11 bytes each."""

    def with_hole(self, begin: int, end: int, lines: int, at_nm: tuple[int, int, int]) -> None:
        """Such an OUT, with zeros from a byte on, and a record of so many lines."""
        self.half_done()
        self.record_of(lines, at_nm)
        text = Path("out").read_bytes()
        Path("out").write_bytes(text[:begin].ljust(begin, b"\0") + bytes(end - begin) + text[end:])

    def test_before_the_segment(self) -> None:
        """Lines 2 and 3 are lost: behind line 1 OUT is cut off, and they are put back, since the device tells them."""
        self.with_hole(14, 40, 1, (1000, 0, 0))
        operator, face = self.operate("yes", "yes", "yes")
        said = [said for said in face.said if said.startswith("out: ")]
        self.assertEqual(said, ["out: behind its line 1, at byte 11, 26 bytes of zeros stood in the place of lines,"
                                " which the disk lost. It\nis cut off there, with 6 lines behind them that no motor"
                                " carried out",
                                "out: 2 lines that were handed out were lost with the power, and are put back:"
                                " ngc run hands out the same ones again"])
        operator.do("recover")
        self.assertEqual(self.pins()[:3] + self.pins()[-21:], ["P 1 0 0 50"] * 2 + ["S 0 0.000000 0 0 0 0"]
                         + ["P 0 0 1 50"] * 20 + ["S 0 0.000000 0 0 0 0"])

    def test_within_the_segment(self) -> None:
        """Lines of the segment's own come again."""
        self.with_hole(50, 70, 4, (3000, 0, 1000))
        operator, face = self.operate("yes", "yes", "yes")
        self.assertEqual(len([said for said in face.said if said.startswith("out: ") or "never cut" in said]), 1)
        operator.do("recover")
        self.assertEqual(self.pins(), ["P 0 0 -1 50", "S 0 0.000000 0 0 0 0"] + ["P 0 0 1 50"] * 20
                         + ["S 0 0.000000 0 0 0 0"])

    def test_at_the_end(self) -> None:
        """Zeros at the end, where the file is as long as it was to be."""
        self.with_hole(55, 120, 4, (3000, 0, 1000))
        _, face = self.operate()
        self.assertIn("out: behind its line 5, at byte 55, 65 bytes of zeros stood in the place of lines, which the"
                      " disk lost. It\nis cut off there, with 0 lines behind them that no motor carried out", face.said)
        self.assertEqual(Path("out").stat().st_size, 55)

    def test_never_cut(self) -> None:
        """Where the device tells it no more, after other power ons: at most 22 // 10 + 1 + 6 pulses, each of at most
        1.733 um, are never cut."""
        self.with_hole(11, 33, 1, (1000, 0, 0))
        for _ in range(3):
            self.run_ngc("")
        _, face = self.operate()
        self.assertIn("the device doesn't tell any more what was handed out from there on. Up to the half-done segment,"
                      " or without one up to\nthe end, it is never cut: at most 9 lines, 0.016 mm", face.said)

    def test_another_file(self) -> None:
        """Nothing is cut off a file that has other text too, or no zeros, or that a session has."""
        Path("out").touch()
        self.begin("--follow", "--progress", "progress", "out", "first.toml", "position")
        self.linked()
        for text in (b"P 1 0 0 50\n\0\0\0G1 X1\n", b"P 1 0 0 50\nP 1\nP 1 0 0 50\n", b"P 1 0 0 50\n", b"",
                     b"P 1 0 0 5\nP 2 0 0 50\nP 1 0 0 50\n\0"):
            Path("out").write_bytes(text)
            link = SyncedLink("progress", "out")
            self.assertEqual((link.cut_hole(), Path("out").read_bytes()), (None, text))
            link.close()
        self.device()
        console = Console(ngc(), "mill.dev", "first.toml", "out")
        self.addCleanup(console.kill)
        console.status()
        Path("out").write_bytes(bytes(40))
        link = SyncedLink("progress", "out")
        self.addCleanup(link.close)
        self.assertEqual((link.cut_hole(), Path("out").stat().st_size), (None, 40))


class Disk:
    """What a disk has of the file `out`, by the system calls of this process. Once it `fails`, a sync takes what it
    couldn't write for written, as Linux does: only what is written again after that comes to the disk."""

    def __init__(self) -> None:
        self.kept = bytearray()
        self.dropped = 0  # so many bytes are taken for written
        self.fails = False
        self._real = os.fdatasync, os.fsync, os.pwrite, os.ftruncate

    def sync(self, real: Callable[[int], None], file: int) -> None:
        """A sync of any file."""
        real(file)
        if not os.path.samestat(os.fstat(file), os.stat("out")):
            return
        text = Path("out").read_bytes()
        if self.fails:
            self.fails, self.dropped = False, len(text)
            raise OSError(errno.EIO, os.strerror(errno.EIO))
        self.kept += bytes(max(0, self.dropped - len(self.kept))) + text[max(self.dropped, len(self.kept)):]

    def write(self, file: int, text: bytes, begin: int) -> int:
        """A write to any file at a place."""
        if os.path.samestat(os.fstat(file), os.stat("out")):
            self.kept[begin:begin + len(text)] = text
        return self._real[2](file, text, begin)

    def cut(self, file: int, size: int) -> None:
        """A cut of any file."""
        if os.path.samestat(os.fstat(file), os.stat("out")):
            del self.kept[size:]
            self.dropped = min(self.dropped, size)
        self._real[3](file, size)

    def patches(self) -> ExitStack:
        """The calls of this process, until it is closed."""
        stack, (datasync, sync, _, _) = ExitStack(), self._real
        stack.enter_context(patch("os.ftruncate", self.cut))
        stack.enter_context(patch("os.fdatasync", partial(self.sync, datasync)))
        stack.enter_context(patch("os.fsync", partial(self.sync, sync)))
        stack.enter_context(patch("os.pwrite", self.write))
        return stack


class Unsynced(WithOperator):
    """A sync of OUT that fails once: the next one succeeds, and what the first one was to write isn't on the disk."""

    def setUp(self) -> None:
        """Three lines are on the disk, and carried out."""
        super().setUp()
        self.device()
        Path("out").touch()
        self.disk = Disk()
        self.enterContext(self.disk.patches())
        self.player = None
        self.operator, self.face = self.operate("yes", "yes", "yes", "yes")
        self.operator.do("G0 X0.003")

    def begin(self, *words: str, **how: object) -> subprocess.Popen[str]:
        """Keeps the player."""
        self.player = super().begin(*words, **how)
        return self.player

    def test_named(self) -> None:
        """It is said, and no line is carried out, or handed out, behind what is on the disk, whatever is typed."""
        self.disk.fails = True
        self.operator.do("G0 X0.5")
        why = self.operator.session.meter.link.failed
        self.assertEqual(why, "out: it can't be synced: Input/output error. What was handed out last may be lost,"
                         " though it can be read, and no motor makes it before it is on the disk. Once the disk is"
                         " well, quit, and start this again: it writes OUT again")
        self.assertIn(f"{why}; nothing more is handed out", self.face.said)
        handed_out = Path("out").read_bytes()
        self.assertGreater(len(handed_out), 33)
        for line in ("continue", "run", "G0 X0", "resume", "where"):
            self.face.said.clear()
            self.operator.do(line)
            self.assertTrue(why in "\n".join(self.face.said) or self.face.said[-1].startswith("refused K1"), line)
        self.assertEqual((Path("out").read_bytes(), self.pins()), (handed_out, ["P 1 0 0 50"] * 3))
        self.assertEqual(self.operator.session.report().at, "0.003000 0.000000 0.000000")

    def test_written_again(self) -> None:
        """The next session writes OUT again before it goes by it, and all lines are made."""
        self.disk.fails = True
        self.operator.do("G0 X0.5")
        self.operator.ending.tell_player()
        self.operator.console.quit()
        self.player.communicate()
        self.assertEqual((bytes(self.disk.kept), self.disk.dropped > 33), (b"P 1 0 0 50\n" * 3, True))
        operator, face = self.operate("yes", "yes", "yes", "yes")
        self.assertEqual(bytes(self.disk.kept), Path("out").read_bytes())
        operator.do("recover")
        self.assertEqual(self.pins().count("P 1 0 0 50"), 500)
        self.assertEqual(bytes(self.disk.kept), Path("out").read_bytes())

    def test_at_the_end(self) -> None:
        """The last sync of a program fails: what isn't made isn't shown as done."""
        link = self.operator.session.meter.link
        real = link._tell

        def tell() -> None:
            """Fails once all is handed out."""
            self.disk.fails = self.operator.console.status().half == "none" and link.size() > link.told
            real()

        link._tell = tell
        self.operator.do("G0 X0.004")
        self.assertIn(f"{link.failed}", self.face.said)
        self.assertEqual(self.pins(), ["P 1 0 0 50"] * 3)
        self.assertFalse(self.operator.work.await_motors())


class PulledPlug(unittest.TestCase):
    """`pull` raises where a pulse of the uncut run is never made, where one is made elsewhere, out of order or with
    other outputs, and where a record isn't true. NGC_MOMENTS says how many moments each of the two tries; without
    it as many as come in some seconds."""

    def tried(self, options: Options, seed: int) -> None:
        """Tries the moments."""
        moments = int(os.environ.get("NGC_MOMENTS", "0"))
        result = pull(options, moments or 1000, seed, blocks=20, seconds=None if moments else 5)
        self.assertGreaterEqual(result.finished, 1)
        self.assertGreaterEqual(result.on + result.back, 1)

    def test_torn(self) -> None:
        """What of OUT wasn't synced is lost."""
        self.tried(Options(ngc(), True, built("-O2")), 1)

    def test_whole(self) -> None:
        """OUT is as it stands."""
        self.tried(Options(ngc(), False, built("-O2")), 2)


if __name__ == "__main__":
    unittest.main()
