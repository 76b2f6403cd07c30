"""ngc-operate: sessions by a script and at a terminal, to the byte, and why a session can't begin."""
import errno
import fcntl
import os
import re
import signal
import socket
import subprocess
import sys
import threading
import tty
import unittest
from collections.abc import Iterator
from contextlib import suppress
from pathlib import Path
from unittest.mock import patch

sys.path.insert(0, str(Path(__file__).resolve().parent))

from listener import Listener, said
from player_support import built
from session_support import TOOLS, InFolder, Terminal, ngc, told

from ngc_tools.ngc import faults
from ngc_tools.formats.lines import Program, percent_bytes
from ngc_tools.formats.out import OFF, Switch, read_line
from ngc_tools.formats.position import Position, nanometres
from ngc_tools.operator.commands import help_text
from ngc_tools.operator.sentences import explained
from ngc_tools.cli.operate import main
from ngc_tools.link.progress import Link, Report

PROMPT = b"ngc> "
PART = """G21 G90 G17
M3 S1000
G0 X0.5
(MSG, turn the part)
M0
G1 X1
M2
"""
TRIED = """\
by a dry run from here, in machine millimetres:
    moves   X 0.000 to 0.500   Y 0.000 to 0.000   Z 0.000 to 0.000
    travel  X -1000.000 to 1000.000   Y -1000.000 to 1000.000   Z -1000.000 to 1000.000
    about 0.005 s
it would stop at line 6: G1 X1
  refused X1 NoFeed: {X1}
  ngc-check lists each such line
store it all the same? yes stores it: """
SESSION = """\
not metered: out is a file, which takes any number of lines ahead of the motors
idle; X 0.000000 Y 0.000000 Z 0.000000
ngc> """ + TRIED + """done 1: part.ngc, 62 bytes, 7 lines
ngc> message, line 4: turn the part
stopped; the tool in the spindle is none. run goes on
stopped; X 0.500000 Y 0.000000 Z 0.000000; next line 6 of 7: G1 X1
ngc> stopped; the tool in the spindle is none. run goes on
stopped; X 0.500000 Y 1.000000 Z 0.000000; next line 6 of 7: G1 X1
ngc> line 6 begins at X0.5 Y0 Z0. The machine is at X0.5 Y1 Z0, 1.000 mm away, and the line would go from there
go on all the same? yes goes on: line 6: G1 X1
  refused X1 NoFeed: {X1}
stopped; X 0.500000 Y 1.000000 Z 0.000000; next line 6 of 7: G1 X1
ngc> stopped; the tool in the spindle is none. run goes on
stopped; X 2.000000 Y 1.000000 Z 0.000000; next line 6 of 7: G1 X1
in force now: F100 mm/min (F0 mm/min before). restore puts it back
ngc> line 6 begins at X0.5 Y0 Z0. The machine is at X2 Y1 Z0, 1.803 mm away, and the line would go from there
in force now: G1 (G0 before), F100 mm/min (F0 mm/min before)
restore types: G53 G0 X2.000000; F0
go on all the same? yes goes on: idle; X 1.000000 Y 1.000000 Z 0.000000; next line 1 of 7: G21 G90 G17
ngc> refused E1 Unreadable: {E1}
nor is hepl a command; did you mean help? help lists them
ngc> ngc> status entries 10 place 0 at 1.000000 1.000000 0.000000 known half none idle
idle; X 1.000000 Y 1.000000 Z 0.000000; next line 1 of 7: G21 G90 G17
work X1.000 Y1.000 Z0.000; G54
G1 G17 G21 G90 G94; F100 mm/min; spindle stands; no coolant; no tool in the spindle
about 0:00 in all
ngc> refused U1 BadCommand: {U1}
ngc> done 11
ngc> refused K4 NothingHalfDone: no block is half-done: run goes on with the program
ngc> taken
ngc> done 12
ngc> idle
ngc> none.ngc: No such file or directory
ngc> refused X2 OutsideTravel: X 5,000 is outside the travel, which ends at 1,000 (high_nm of the settings)
ngc> """
HELD = """\
metered: OUT is at most 50 lines ahead of the player, which is what a loss of power can cost
idle; X 0.000000 Y 0.000000 Z 0.000000
the motors are at X 0.000000 Y 0.000000 Z 0.000000, 0 lines behind
ngc> load part.ngc
""" + TRIED + """yes
done 1: part.ngc, 62 bytes, 7 lines
ngc> run
message, line 4: turn the part
stopped; the tool in the spindle is none. run goes on
stopped; X 0.500000 Y 0.000000 Z 0.000000; next line 6 of 7: G1 X1
the motors are at X 0.500000 Y 0.000000 Z 0.000000, 0 lines behind
ngc> g1 f60 x3

held; up to 50 lines that are handed out are still carried out
held; X 0.500000 Y 0.000000 Z 0.000000 before the block; segment 0 of your line g1 f60 x3
the motors are at X 0.500000 Y 0.000000 Z 0.000000, 49 lines behind, up to 0.085 mm
ngc> continue
^Cheld; up to 50 lines that are handed out are still carried out
held; X 0.500000 Y 0.000000 Z 0.000000 before the block; segment 0 of your line g1 f60 x3
the motors are at X 0.500000 Y 0.000000 Z 0.000000, 49 lines behind, up to 0.085 mm
ngc> quit
segment 0 of your line g1 f60 x3 stays half-done: it is taken up or given up in the next session
quit? yes ends the session, anything else doesn't: 
ngc> quit
segment 0 of your line g1 f60 x3 stays half-done: it is taken up or given up in the next session
quit? yes ends the session, anything else doesn't: yes
still on: the spindle, clockwise at 1000. Within a block no M5 is done. {OFF}
"""
TYPED = """load part.ngc
yes
RUN
G0 Y1
run
yes
 g1 f100 x2
 Run\x20
yes
hepl

status
reference 1 2
Reference 1  2   3
resume
optional  ON
tool 1 0.5
hold
load none.ngc
reference 5000 0 0
quit
"""


def operate(*words: str) -> list[str]:
    """The words that start it."""
    return ["--ngc", ngc(), *words]


def sentences() -> dict[str, str]:
    """What is said of some faults, by their codes."""
    said = {code: f"{faults.fault(code).holds}\n  {faults.fault(code).cure}" for code in ("X1", "X2", "E1")}
    return said | {
        "U1": "reference X Y Z: three machine coordinates in millimetres, without letters, as in `reference 7.21 0 -5`",
        "OFF": "The player switches that off once the session has ended and the seconds of its --off-after are over;"
               " Ctrl-C in the player does it at once"}


class Scripted(InFolder):
    """Commands from a pipe."""

    maxDiff = None

    def setUp(self) -> None:
        """A fresh device and a program."""
        super().setUp()
        self.device()
        Path("part.ngc").write_text(PART)

    def test_session(self) -> None:
        """A session, to the byte."""
        done = self.tool("ngc-operate", *operate("mill.dev", "first.toml", "out"), text=TYPED)
        self.assertEqual((done.stdout, done.stderr, done.returncode), (SESSION.format(**sentences()), "", 0))

    def test_resume(self) -> None:
        """A half-done block: the switch, the question, the approach, the block, the rest of the program."""
        self.run_ngc("load 22\nM3 S1000\nG0 X0.005\nM2\nstart\ntick 10\n", "before")
        typed = "run\nresume\nreference 0.001 0 0\nresume\nno\nquit\n\nquit\nyes\n"
        done = self.tool("ngc-operate", *operate("mill.dev", "first.toml", "out"), text=typed)
        head = ("not metered: out is a file, which takes any number of lines ahead of the motors\n"
                "stored: a program of 3 lines\n"
                "power was lost, or the session ended, in line 2: G0 X0.005\n"
                "  in segment 0 of 1, counted from 0. Nothing moves by itself\n"
                "  where the machine is: reference X Y Z; then rehearse, resume or abandon\n"
                "idle; X 0.000000 Y 0.000000 Z 0.000000 before the block; segment 0 of line 2: G0 X0.005\n"
                "ngc> refused K1 Busy: segment 0 of line 2: G0 X0.005 is half-done. rehearse says what resume would do;"
                " reference X Y Z, then resume or abandon\n"
                "ngc> refused K3 PlaceUnknown: it isn't known where the machine stands: reference X Y Z\n"
                "where does the machine stand? reference X Y Z\n"
                "ngc> done 3\n")
        asked = ("ngc> segment 0 of line 2: G0 X0.005 is taken up. Its outputs are switched on as they were; then the"
                 " tool goes\nin one straight line at the traverse rate from X 0.001000 Y 0.000000 Z 0.000000 to where"
                 " that segment begins.\nZ isn't lifted first.\n"
                 "The outputs are switched, and nothing has moved. Does the spindle turn, is the right tool in, is the"
                 " straight way free?\nyes goes on, anything else holds: ")
        held = "held; the lines in OUT are still carried out\n"
        self.assertTrue(done.stdout.startswith(head + asked + held), done.stdout)
        self.assertEqual(Path("out").read_text(), "S 1 1000.000000 0 0 0 0\n")
        typed = "reference 0.001 0 0\nresume\nyes\nquit\n"
        done = self.tool("ngc-operate", *operate("mill.dev", "first.toml", "out2"), text=typed)
        self.assertIn(asked + "idle; X 0.005000 Y 0.000000 Z 0.000000; next line 1 of 3: M3 S1000\n", done.stdout)
        self.assertEqual(Path("out2").read_text(), "S 1 1000.000000 0 0 0 0\nP -1 0 0 50\n" + "P 1 0 0 50\n" * 5
                         + "S 0 1000.000000 0 0 0 0\n")

    def test_control_characters(self) -> None:
        """What is typed reaches no terminal as it is."""
        done = self.tool("ngc-operate", *operate("mill.dev", "first.toml", "out"), text="load \x1b[2Jx\nquit\n")
        self.assertIn("ngc> \\x1b[2Jx: No such file or directory\n", done.stdout)

    def test_load_of_no_file(self) -> None:
        """What can't be a program's file ends no session, and nothing waits for it."""
        os.mkfifo("pipe")
        typed = "load pipe\nload a\0b\nload /dev/zero\nload .\nload none/\nquit\n"
        done = self.tool("ngc-operate", *operate("mill.dev", "first.toml", "out"), text=typed)
        self.assertEqual((done.stdout.splitlines()[2:], done.stderr, done.returncode), ([
            "ngc> pipe: no file, but a pipe", "ngc> a\\x00b: no name of a file has a byte 0 in it",
            "ngc> /dev/zero: no file, but a terminal or a line to a machine", "ngc> .: Is a directory",
            "ngc> none/: No such file or directory", "ngc> "], "", 0))

    def test_bytes_that_are_no_text(self) -> None:
        """A byte that isn't UTF-8 ends no session: it goes to `ngc` as it is."""
        words = [sys.executable, str(TOOLS / "ngc-operate"), *operate("mill.dev", "first.toml", "out")]
        environment = {**os.environ, "PYTHONIOENCODING": "utf-8:strict"}
        done = subprocess.run(words, input=b"G0 X0.001 (\xff)\nquit\n", capture_output=True, env=environment)
        self.assertEqual((done.returncode, done.stderr), (0, b""))
        self.assertIn(b"idle; X 0.001000 Y 0.000000 Z 0.000000\n", done.stdout)

    def test_tool_at_a_stop(self) -> None:
        """The tool in the spindle is named at M0."""
        Path("part.ngc").write_text("T1 M6\nM0\nM2\n")
        typed = "tool 1 5\nload part.ngc\nrun\nquit\n"
        done = self.tool("ngc-operate", *operate("mill.dev", "first.toml", "out"), text=typed)
        self.assertIn("stopped; the tool in the spindle is 1. run goes on\n", done.stdout)

    def test_cannot(self) -> None:
        """Why `ngc` would end without a word, or wait without one: said before it is started, with status 2."""
        Path("short.dev").write_bytes(b"x" * 600)
        Path("blank.dev").write_bytes(bytes(875_520))
        Path("part").write_text("P 1 0 0 50\nP 1")
        Path("other.dev").write_bytes(Path("mill.dev").read_bytes() + b"P 1 0 0 50\n")
        os.mkfifo("axis")
        os.mkdir("folder")
        os.symlink("mill.dev", "link.dev")
        with socket.socket(socket.AF_UNIX) as other:
            other.bind("socket")
        cases = [
            (("mill.dev", "first.toml", "mill.dev"), "DEVICE and OUT are one file: mill.dev"),
            (("mill.dev", "link.dev", "out"), "DEVICE and SETTINGS are one file: mill.dev and link.dev"),
            (("mill.dev", "none.toml", "out"), "none.toml: there are no such settings; docs/SETTINGS.md says how to"
             " write them"),
            (("mill.dev", "folder", "out"), "folder: the settings can't be read: Is a directory"),
            (("none.dev", "first.toml", "out"), "none.dev: there is no such device; `ngc format none.dev` makes one"),
            (("folder", "first.toml", "out"), "folder: a folder, not a device"),
            (("first.toml/x", "first.toml", "out"), "first.toml/x: the device can't be opened to be read and written:"
             " Not a directory"),
            (("mill.dev", "first.toml", "socket"), "socket: OUT can't be opened to be written: No such device or"
             " address"),
            (("mill.dev", "first.toml", "out", "--player", "socket"), "socket: no player listens there: Connection"
             " refused"),
            (("mill.dev", "first.toml", "out", "--ahead", "1"), "1 lines: the bound is from 2 to 8,000"),
            (("short.dev", "first.toml", "out"), "short.dev: not a device: it has 600 bytes of 875,520; remove it, then"
             " `ngc format short.dev`"),
            (("blank.dev", "first.toml", "out"), "blank.dev: not a device: it isn't formatted. `ngc format blank.dev`"
             " makes one of it, AND OVERWRITES WHAT IT HOLDS"),
            (("mill.dev", "first.toml", "none/out"), f"none/out: there is no folder {self.folder}/none"),
            (("mill.dev", "first.toml", "folder"), "folder: a folder; OUT is a file, a named pipe or a serial line"),
            (("mill.dev", "first.toml", "axis"), "axis: nobody reads this pipe yet, and `ngc run` would wait for a"
             " reader: start the player first"),
            (("mill.dev", "first.toml", "part"), "part: it ends in a part of a line, and the next line would stand on"
             " the same one: give a new OUT, or cut that part off"),
            (("mill.dev", "first.toml", "part.ngc"), "part.ngc: it holds something else than lines of OUT, and pulses"
             " would be appended to it: give a new OUT. Its last line is not a line of OUT: 'M2'"),
            (("mill.dev", "first.toml", "other.dev"), "other.dev: it is a device, and lines of OUT would be appended to"
             " it: give a new OUT"),
            (("mill.dev", "first.toml", "/dev/zero"), "/dev/zero: OUT is a file, a named pipe or a serial line"),
            (("/dev/null", "first.toml", "out"), "/dev/null: not a device: it has 0 bytes of 875,520"),
            (("mill.dev", "first.toml", "out", "--player", "none"), "none: no player listens there: No such file or"
             " directory"),
        ]
        for words, wanted in cases:
            self.assertEqual(told(main, *operate(*words)), (2, "", f"ngc-operate: {wanted}\n"), words)
        self.assertFalse(os.path.exists("out"))

    def test_not_permitted(self) -> None:
        """What the system doesn't permit, or a file system can't do."""
        words = operate("mill.dev", "first.toml", "out")
        with patch("ngc_tools.ngc.before_start.os.access", return_value=False), patch("ngc_tools.cli.operate.find_ngc"):
            wanted = f"ngc-operate: out: OUT can't be made in {self.folder}: permission denied\n"
            self.assertEqual(told(main, *words), (2, "", wanted))
        no_locks = OSError(errno.ENOLCK, "No locks available")
        with patch("ngc_tools.ngc.before_start.fcntl.flock", side_effect=no_locks):
            self.assertEqual(told(main, *words), (2, "", "ngc-operate: mill.dev: the device can't be locked: No locks"
                                                         " available\n"))

    def test_in_use(self) -> None:
        """A device, and an OUT, that another process holds."""
        for name, what in (("mill.dev", "the device"), ("out", "OUT")):
            with open(name, "ab") as file:
                fcntl.flock(file, fcntl.LOCK_EX)
                done = self.tool("ngc-operate", *operate("mill.dev", "first.toml", "out"))
            self.assertRegex(done.stderr, rf"^ngc-operate: {name}: {what} is in use by another process( \(\d+\))?; end"
                             " that first\n$")
            self.assertEqual(done.returncode, 2)

    def test_refused_settings(self) -> None:
        """The key that is to blame, and what it takes."""
        Path("first.toml").write_text(Path("first.toml").read_text().replace("period_us = 50", "period_us = 0"))
        done = self.tool("ngc-operate", *operate("mill.dev", "first.toml", "out"))
        wanted = ("ngc-operate: first.toml: S5 OutOfLimits: a number is beyond its limits\n    line 5: period_us = 0"
                  " (S5): it takes a whole number of microseconds, 1 to 1,000,000\n")
        self.assertEqual((done.stderr, done.returncode), (wanted, 2))

    def test_words(self) -> None:
        """What is answered without `ngc`, and M1 and a line with a slash where these are asked for."""
        Path("part.ngc").write_text("/(MSG, left out)\nM1\n(MSG, kept)\nG0 X1\nM2\n")
        typed = ("?\ntick 5\nREFERENCE\ngo\nload\nload part.ngc\ndelete on\noptional on\nstart\nwhere\ncontinue\n"
                 "delete off\nexit\n")
        done = self.tool("ngc-operate", *operate("mill.dev", "first.toml", "out"), text=typed)
        self.assertEqual(done.stdout, f"""\
not metered: out is a file, which takes any number of lines ahead of the motors
idle; X 0.000000 Y 0.000000 Z 0.000000
ngc> {help_text()}
ngc> ticks are given by run, continue, resume and a line of G-code, in small counts
ngc> where does the machine stand? reference X Y Z
ngc> no player is known: --player SOCKET
ngc> load FILE: which file?
ngc> by a dry run from here, in machine millimetres:
    moves   X 0.000 to 1.000   Y 0.000 to 0.000   Z 0.000 to 0.000
    travel  X -1000.000 to 1000.000   Y -1000.000 to 1000.000   Z -1000.000 to 1000.000
    about 0.010 s
done 1: part.ngc, 41 bytes, 5 lines
ngc> taken
ngc> taken
ngc> stopped; the tool in the spindle is none. run goes on
stopped; X 0.000000 Y 0.000000 Z 0.000000; next line 3 of 5: (MSG, kept)
ngc> stopped; X 0.000000 Y 0.000000 Z 0.000000; next line 3 of 5: (MSG, kept)
work X0.000 Y0.000 Z0.000; G54
G80 G17 G21 G90 G94; F0 mm/min; spindle stands; no coolant; no tool in the spindle
it stops at M1; lines with a slash are left out
about 0:00 done, 0:00 left
ngc> message, line 3: kept
idle; X 1.000000 Y 0.000000 Z 0.000000; next line 1 of 5: /(MSG, left out)
ngc> taken
ngc> """)
        self.assertEqual((done.stderr, done.returncode), ("", 0))

    def test_refusals(self) -> None:
        """Each fault of docs/SESSION.md and docs/SETTINGS.md that a session can meet has its sentence."""
        pages = "".join((TOOLS.parent / "docs" / page).read_text() for page in ("SESSION.md", "SETTINGS.md"))
        codes = re.findall(r"^\| ([A-Z]\d+) \w+ \|", pages, re.MULTILINE)
        self.assertGreater(len(codes), 20)
        self.assertLessEqual({"J1", "K1", "S1", "U1"}, set(codes))
        for code in set(codes) - {"K6"}:  # of a program whose threads share one controller
            self.assertIn(": ", explained(f"refused {code} Name"), code)
        self.assertEqual(explained("refused X9 Name"), "refused X9 Name")

    def test_failed(self) -> None:
        """An OUT that can't be written: the refusals have their sentences, and the session ends with status 2."""
        words = operate("mill.dev", "first.toml", "/dev/full")
        done = self.tool("ngc-operate", *words, text="G0 X0.001\nstart\nquit\n")
        self.assertIn("not metered: /dev/full is no pipe, which takes any number of lines", done.stdout)
        self.assertIn(f"refused J1 DeviceFailed: {faults.SESSION['J1']}\n", done.stdout)
        self.assertIn(f"refused K5 Broken: {faults.SESSION['K5']}\n", done.stdout)
        self.assertEqual((done.stderr, done.returncode), (
            "ngc-operate: ngc ended with status 2: the device or OUT failed in this session\n", 2))


class FakePlayer:
    """A player that reads what stands in OUT, and carries out nothing until it is told to. It takes where it stands by
    the word `at`, if it `heeds` it; `words` are those that it was told besides questions. One that `wants` lines in
    hand makes ramps: it is held, let go on and made slower."""

    def __init__(self) -> None:
        self.listener = Listener("progress")
        os.mkfifo("axis")
        self.pipe = os.open("axis", os.O_RDONLY | os.O_NONBLOCK)
        self.got = b""
        self.carried = 0
        self.position = Position((1000, 1000, 1000))
        self.outputs = OFF
        self.lazy = self.waits = False
        self.heeds = True
        self.tool = self.wants = 0
        self.is_held = False
        self.percent = 100
        self.words: list[bytes] = []
        self.most_behind = self.asked = 0
        self.end = threading.Event()
        self.thread = threading.Thread(target=self._work)
        self.thread.start()

    def _work(self) -> None:
        while not self.end.wait(0.0005):
            while asked := self.listener.next():
                if asked[0].startswith(b"progress"):
                    self._answer(*asked)
                    continue
                if asked[0].startswith(b"kept"):
                    self.listener.answer(asked[0] + b" lines %d bytes 0 age 0" % self.carried, asked[1])
                    continue
                self.words.append(asked[0])
                self._move(asked[0])
                if asked[0] == b"go":
                    self.waits = self.lazy = False
                if asked[0].startswith(b"at ") and self.heeds:
                    self.position = Position((1000, 1000, 1000), list(map(nanometres, asked[0].decode().split()[1:])))

    def _move(self, word: bytes) -> None:
        """Heeds a word that is for ramps."""
        if self.wants and word in (b"hold", b"release"):
            self.is_held = word == b"hold"
        if self.wants and word.startswith(b"percent "):
            self.percent = int(word[8:])

    def _answer(self, question: bytes, sender: str | bytes) -> None:
        try:
            self.got += os.read(self.pipe, 65536)
        except BlockingIOError:
            pass
        lines = self.got.split(b"\n")[:-1]
        self.most_behind = max(self.most_behind, len(lines) - self.carried)
        self.asked += 1
        for line in [] if self.lazy or self.is_held else lines[self.carried:]:
            what = read_line(line, 1)
            self.position.take(what)
            self.outputs = what if isinstance(what, Switch) else self.outputs
            self.carried += 1
        report = Report(self.carried, len(lines), self.waits, str(self.position), os.path.abspath("axis"), self.outputs,
                        self.tool, self.is_held, self.percent, self.wants)
        self.listener.answer(question + b" " + said(report), sender)

    def close(self) -> None:
        """Ends it, once."""
        if self.end.is_set():
            return
        self.end.set()
        self.thread.join()
        self.listener.close()
        os.close(self.pipe)


class AtTerminal(InFolder):
    """A person at a terminal, to the byte. A player that carries out nothing makes what is shown certain."""

    maxDiff = None

    def setUp(self) -> None:
        """A fresh device, a program, a player."""
        super().setUp()
        self.device()
        Path("part.ngc").write_text(PART)
        self.player = FakePlayer()
        self.addCleanup(self.player.close)

    def test_session(self) -> None:
        """A program with a stop; a move that Enter holds, that goes on, and that Ctrl-C holds; a quit in its midst."""
        words = operate("mill.dev", "first.toml", "axis", "--player", "progress", "--ahead", "50")
        terminal = Terminal(str(TOOLS / "ngc-operate"), *words)
        shown = terminal.read_to(PROMPT)
        for typed, end in ((b"load part.ngc\n", b"stores it: "), (b"yes\n", PROMPT), (b"run\n", PROMPT)):
            terminal.send(typed)
            shown += terminal.read_to(end)
        self.player.lazy = True
        for typed, key in ((b"g1 f60 x3\n", b"\n"), (b"continue\n", b"\x03")):
            enough = self.player.asked + 5  # it asks once as the work begins, then as long as it waits for room
            terminal.send(typed)
            shown += terminal.read_to(typed.replace(b"\n", b"\r\n"))
            self.wait_for("it waits for the player",
                          lambda: self.player.most_behind > 40 and self.player.asked > enough)
            terminal.send(key)
            shown += terminal.read_to(PROMPT)
        for typed, end in ((b"quit\n", b"doesn't: "), (b"\n", PROMPT), (b"quit\n", b"doesn't: "), (b"yes\n", b"never")):
            terminal.send(typed)
            shown += terminal.read_to(end)
        self.assertEqual(terminal.status(), 0)
        self.assertLessEqual(self.player.most_behind, 50)
        self.assertEqual(self.player.words, [b"end"])
        self.assertEqual(shown.decode(), HELD.format(**sentences()).replace("\n", "\r\n"))

    def test_player_dies(self) -> None:
        """Where the player is gone nothing more is handed out."""
        words = operate("mill.dev", "first.toml", "axis", "--player", "progress")
        terminal = Terminal(str(TOOLS / "ngc-operate"), *words)
        terminal.read_to(PROMPT)
        self.player.lazy = True
        terminal.send(b"G1 F60 X3\n")
        self.wait_for("it waits for the player", lambda: self.player.most_behind > 90)
        self.player.close()
        gone = "progress: the player is gone: "
        shown = terminal.read_to(PROMPT).decode().split("\r\n")
        self.assertEqual(shown[0], "G1 F60 X3")
        self.assertTrue(shown[1].startswith(gone), shown)
        rest = ("; nothing more is handed out. Once it answers again, run goes on; if it is gone, quit, and start a"
                " player and this again")
        self.assertTrue(shown[1].endswith(rest), shown)
        self.assertEqual(shown[2:4], ["held", "held; X 0.000000 Y 0.000000 Z 0.000000 before the block; segment 0 of"
                                      " your line G1 F60 X3"])
        terminal.send(b"\x04")
        terminal.read_to(b"never")
        self.assertEqual(terminal.status(), 0)

    def test_signals(self) -> None:
        """A terminal that is closed, and a kill, hold what is under way, tell the player, and end with status 2."""
        words = operate("mill.dev", "first.toml", "axis", "--player", "progress")
        for number, typed in ((signal.SIGTERM, b"G1 F60 X3\n"), (signal.SIGHUP, b"")):
            self.player.lazy, self.player.words = bool(typed), []
            terminal = Terminal(str(TOOLS / "ngc-operate"), *words)
            terminal.read_to(PROMPT)
            if typed:
                terminal.send(typed)
                self.wait_for("it waits for the player", lambda: self.player.most_behind > 90)
            shown = terminal.end_by(number).decode()
            self.assertEqual(terminal.status(), 2)
            self.assertEqual(self.player.words, [b"end"])
            stays = ("held; segment 0 of your line G1 F60 X3 stays half-done" if typed else
                     "idle; segment 0 of a line of yours stays half-done")
            self.assertTrue(shown.endswith(f"ngc-operate: {number.name} came: {stays}\r\n"), shown)

    def test_closed_terminal(self) -> None:
        """Where the terminal itself is gone nothing is left behind that holds the device."""
        words = operate("mill.dev", "first.toml", "axis", "--player", "progress")
        terminal = Terminal(str(TOOLS / "ngc-operate"), *words)
        terminal.read_to(PROMPT)
        self.player.lazy = True
        terminal.send(b"G1 F60 X3\n")
        self.wait_for("it waits for the player", lambda: self.player.most_behind > 90)
        os.close(terminal.file)
        self.assertEqual(os.waitstatus_to_exitcode(os.waitpid(terminal.pid, 0)[1]), 2)
        self.assertEqual(self.player.words, [b"end"])
        self.assertIn("half mdi 0", self.run_ngc("status\n", "after")[0])

    def test_narrow(self) -> None:
        """At a terminal of 40 columns no line is wider, the live one neither."""
        words = operate("mill.dev", "first.toml", "axis", "--player", "progress")
        terminal = Terminal(str(TOOLS / "ngc-operate"), *words, kind="xterm", columns=40)
        shown = terminal.read_to(PROMPT)
        Path("part.ngc").write_text("G21 G90 (a long comment, so that the line is too long)\n"
                                    "G1 X9 Y0.5 Z0.5 F60 (and one more)\nM2\n")
        for typed in (b"help\n", b"load part.ngc\n"):
            terminal.send(typed)
            shown += terminal.read_to(PROMPT)
        self.player.lazy = True
        terminal.send(b"run\n")
        shown += terminal.read_to(b"line 2: G1 X9 Y..  X0.000 Y0.000 Z0.000")
        terminal.send(b"\n")
        shown += terminal.read_to(PROMPT)
        lines = re.split(r"[\r\n]+", re.sub(r"\x1b\[[?0-9;]*[A-Za-z]", "", shown.decode()))
        self.assertGreater(len(lines), 40)
        self.assertEqual([line for line in lines if len(line) > 40], [])

    def test_tool_change(self) -> None:
        """A player that waits for a tool is told of; a hold, and go."""
        words = operate("mill.dev", "first.toml", "axis", "--player", "progress")
        terminal = Terminal(str(TOOLS / "ngc-operate"), *words)
        terminal.read_to(PROMPT)
        self.player.lazy = self.player.waits = True
        self.player.tool = 7
        terminal.send(b"G1 F60 X3\n")
        waits = (b"the player waits for tool 7 to be put in: once that is done, type go here, or press Enter"
                 b" there\r\n")
        self.assertEqual(terminal.read_to(b"there\r\n"), b"G1 F60 X3\r\n" + waits)
        terminal.send(b"\n")
        terminal.read_to(PROMPT)
        for typed in (b"go\n", b"continue\n"):
            terminal.send(typed)
            shown = terminal.read_to(PROMPT)
        self.assertEqual(shown.decode().split("\r\n")[:2],
                         ["continue", "idle; X 3.000000 Y 0.000000 Z 0.000000"])
        self.player.lazy = self.player.waits = True
        self.player.tool = 0
        terminal.send(b"G0 X4\n")
        terminal.read_to(b"for the tool to be taken out: once that is done, type go here, or press Enter there\r\n")
        terminal.send(b"Go\n")
        self.assertIn(b"\r\nidle; X 4.000000 Y 0.000000 Z 0.000000\r\n", terminal.read_to(PROMPT))
        self.player.close()
        terminal.send(b"go\n")
        self.assertTrue(terminal.read_to(PROMPT).startswith(b"go\r\nprogress: the player is gone: "))

    def test_motors_behind(self) -> None:
        """A person doesn't wait for the motors at an end, and holds a resume after its switch."""
        self.run_ngc("mdi G0 X1\ntick 5\n", "before")
        words = operate("mill.dev", "first.toml", "axis", "--player", "progress")
        terminal = Terminal(str(TOOLS / "ngc-operate"), *words)
        terminal.read_to(PROMPT)
        terminal.send(b"reference 0 0 0\n")
        terminal.read_to(PROMPT)
        self.player.lazy = True
        for typed, begun in ((b"resume\n", b"as they were.\r\n"), (b"continue\n", b"continue\r\n")):
            enough = self.player.asked + 5
            terminal.send(typed)
            terminal.read_to(begun)
            self.wait_for("it waits for the motors", lambda: self.player.asked > enough)
            terminal.send(b"\n")
            shown = terminal.read_to(PROMPT).decode()
        self.assertIn("held; up to 100 lines that are handed out are still carried out\r\n", shown)
        self.player.lazy = False
        terminal.send(b"continue\n")
        terminal.read_to(b"holds: ")
        terminal.send(b"yes\n")
        self.assertIn("idle; X 1.000000 Y 0.000000 Z 0.000000\r\n", terminal.read_to(PROMPT).decode())
        self.player.lazy = True
        enough = self.player.asked + 5
        terminal.send(b"G0 X1.002\n")
        self.wait_for("it waits for the motors", lambda: self.player.asked > enough)
        terminal.send(b"\n")
        self.assertIn("the player isn't through with its lines yet\r\nidle; X 1.002000 Y 0.000000 Z 0.000000\r\n",
                      terminal.read_to(PROMPT).decode())

    def test_live_line(self) -> None:
        """On a terminal that can clear lines, the line under way and where the motors are; it is taken away after."""
        words = operate("mill.dev", "first.toml", "axis", "--player", "progress")
        terminal = Terminal(str(TOOLS / "ngc-operate"), *words, kind="xterm")
        terminal.read_to(PROMPT)
        Path("part.ngc").write_text("G21 G90\nG1 X9 F60\nM2\n")
        terminal.send(b"load part.ngc\n")
        terminal.read_to(PROMPT)
        self.player.lazy = True
        for typed, line in ((b"run\n", b"line 2: G1 X9 F60  X 0.000000 Y 0.000000 Z 0.000000  F60  about 0:09 left"),
                            (b"g1 y1\n", b"your line: g1 y1  X 9.000000 Y 0.000000 Z 0.000000")):
            terminal.send(typed)
            terminal.read_to(b"\r\x1b[K" + line)
            terminal.send(b"\n")
            self.assertIn(b"\r\x1b[Kheld; up to 100 lines", terminal.read_to(PROMPT))
            self.player.lazy = False
            terminal.send(b"continue\n")
            terminal.read_to(PROMPT)
            self.player.lazy = True

    def test_ramps(self) -> None:
        """Keys and a percentage while something runs; Enter holds the motors; run lets them go on. Shown is how far
        behind they are: of 120 ticks the first opens the move, and 119 pulses, each of up to 0.001 mm on each axis, are
        0.2061 mm."""
        self.player.wants = 120
        words = operate("mill.dev", "first.toml", "axis", "--player", "progress")
        terminal = Terminal(str(TOOLS / "ngc-operate"), *words, kind="xterm", columns=80)
        self.assertIn("metered by need: OUT is ahead of the player by as many lines as its motors need for a stop, now"
                      " 120 and never more than 8,000, which is what a loss of power can cost",
                      " ".join(terminal.read_to(PROMPT).decode().split()))
        self.player.lazy = True
        terminal.send(b"G1 X3 F60\n")
        terminal.read_to(b"your line: G1 X3 F60  X0.000 Y0.000 Z0.000  100 %  119 lines, <0.3 mm")
        for typed, percent in ((b"-\n", 90), (b"percent 25\n", 25), (b"--\n", 10), (b"0\n", 100)):
            terminal.send(typed)
            terminal.read_to(b"%d %% of OUT's rates\r\n" % percent)
            terminal.read_to(b"  %d %%  119 lines, <0.3 mm" % percent)
        self.assertEqual(self.player.words, [b"percent 90", b"percent 25", b"percent 10", b"percent 100"])
        terminal.send(b"\n")
        shown = " ".join(terminal.read_to(PROMPT).decode().split())
        self.assertIn("held the motors stand, with 119 lines in hand, up to 0.207 mm, which run or release lets them"
                      " carry out held; X 0.000000", shown)
        self.assertTrue(shown.endswith("119 lines behind, up to 0.207 mm, held, 100 % ngc>"), shown)
        self.assertEqual(self.player.words[-1], b"hold")
        self.player.lazy = False
        terminal.send(b"run\n")
        self.assertIn(b"idle; X 3.000000", terminal.read_to(PROMPT))
        self.assertEqual(self.player.words[-1], b"release")
        self.assertEqual(self.player.carried, 3000)
        self.assertLessEqual(self.player.most_behind, 120)

    def test_override_from_a_pipe(self) -> None:
        """The lines that set the override are taken while something runs; the next command isn't."""
        self.player.wants = 200
        done = self.tool("ngc-operate", *operate("mill.dev", "first.toml", "axis", "--player", "progress"),
                         text="G1 X0.5 F600\n-\npercent 50\r\n+\nG0 X0.6\n0\nquit\n")
        self.assertEqual((done.stderr, done.returncode), ("", 0))
        self.assertEqual(self.player.words, [b"percent 90", b"percent 50", b"percent 60", b"percent 100", b"end"])
        self.assertEqual(done.stdout.count(PROMPT.decode()), 3)

    def test_at_the_prompt(self) -> None:
        """A history; Ctrl-C at the prompt ends nothing; where `ngc` is killed that is said."""
        terminal = Terminal(str(TOOLS / "ngc-operate"), *operate("mill.dev", "first.toml", "out"))
        terminal.read_to(PROMPT)
        where = (b"where\r\nidle; X 0.000000 Y 0.000000 Z 0.000000\r\nwork X0.000 Y0.000 Z0.000; G54\r\n"
                 b"G80 G17 G21 G90 G94; F0 mm/min; spindle stands; no coolant; no tool in the spindle\r\n" + PROMPT)
        for typed in (b"where\n", b"\x10\n"):  # Ctrl-P takes the line before
            terminal.send(typed)
            self.assertEqual(terminal.read_to(PROMPT), where)
        self.assertEqual(terminal.press(b"\x03", PROMPT), b"\r\nnothing runs; quit ends the session\r\n" + PROMPT)
        children = Path(f"/proc/{terminal.pid}/task/{terminal.pid}/children").read_text().split()
        self.assertEqual(len(children), 1)
        os.kill(int(children[0]), signal.SIGKILL)
        terminal.send(b"status\n")
        said = (b"status\r\nngc-operate: ngc ended with status -9: it said no word; memory or the terminal may have"
                b" failed it\r\n")
        self.assertEqual(terminal.read_to(b"never"), said)
        self.assertEqual(terminal.status(), 2)

    def test_reader_stands_still(self) -> None:
        """Without a player, a pipe that nobody reads stops `ngc`: it says so, and the third Ctrl-C ends it."""
        os.mkfifo("slow")
        pipe = os.open("slow", os.O_RDONLY | os.O_NONBLOCK)
        self.addCleanup(os.close, pipe)
        terminal = Terminal(str(TOOLS / "ngc-operate"), *operate("mill.dev", "first.toml", "slow"))
        self.assertTrue(terminal.read_to(PROMPT).decode().startswith(
            "not metered: slow holds 65,536 bytes, so some 5,957 lines can be ahead of the motors, and a loss of power"
            " can cost them; --player bounds it\r\n"))
        terminal.send(b"G1 F60 X30\n")
        said = terminal.read_to(b"would\r\n").decode()
        self.assertEqual(said, "G1 F60 X30\r\nngc waits until the reader of OUT takes lines; a hold is heeded after"
                         " that. Ctrl-C three times ends ngc, as a loss of power would\r\n")
        said = terminal.send_to_end(b"\x03", 3).decode()
        self.assertTrue(said.startswith("^C^C^C"), said)
        self.assertTrue(said.endswith("ngc-operate: ended; a block that was under way is half-done\r\n"), said)
        self.assertEqual(terminal.status(), 2)

    def test_serial_line(self) -> None:
        """A serial line has to be raw."""
        ours, theirs = os.openpty()
        self.addCleanup(os.close, ours)
        self.addCleanup(os.close, theirs)
        name = os.ttyname(theirs)
        done = self.tool("ngc-operate", *operate("mill.dev", "first.toml", name))
        wanted = (f"ngc-operate: {name}: a serial line that isn't raw, so it changes lines or sends them back:"
                  f" `stty -F {name} raw -echo` first\n")
        self.assertEqual((done.stderr, done.returncode), (wanted, 2))
        tty.setraw(theirs)
        done = self.tool("ngc-operate", *operate("mill.dev", "first.toml", name), text="G0 X0.001\nquit\n")
        self.assertEqual((os.read(ours, 100), done.returncode), (b"P 1 0 0 50\n", 0))

    def test_motors_elsewhere(self) -> None:
        """A program isn't started where the player says that the motors are elsewhere than `ngc` takes them to be."""
        self.run_ngc("mdi G0 X1\ntick 9999\n", "before")
        done = self.tool("ngc-operate", *operate("mill.dev", "first.toml", "axis", "--player", "progress"),
                         text="load part.ngc\nyes\nrun\nreference 0 0 0\nrun\nquit\nno\n")
        lines = done.stdout.splitlines()
        self.assertIn("the player says: reference 0.000000 0.000000 0.000000", lines)
        self.assertIn("ngc> the player says that the motors are at X0 Y0 Z0, and ngc takes them to be at X1 Y0 Z0:"
                      " 1.000 mm apart. Nothing is done.", lines)
        self.assertIn("  reference player takes the player's point; run anyway goes on from ngc's", lines)
        self.assertIn("ngc> message, line 4: turn the part", lines)

    def test_motors_between_steps(self) -> None:
        """A point between two steps is the same place as the step that the motors went to."""
        self.run_ngc("mdi G0 X-0.0004\ntick 9999\n", "before")
        done = self.tool("ngc-operate", *operate("mill.dev", "first.toml", "axis", "--player", "progress"),
                         text="load part.ngc\nyes\nrun\nquit\nno\n")
        self.assertNotIn("reference", done.stdout)
        self.assertIn("idle; X -0.000400 Y 0.000000 Z 0.000000\n", done.stdout)
        self.assertIn("ngc> message, line 4: turn the part\n", done.stdout)

    def test_other_player(self) -> None:
        """The player of another OUT isn't taken."""
        done = self.tool("ngc-operate", *operate("mill.dev", "first.toml", "out", "--player", "progress"))
        self.assertEqual((done.stderr, done.returncode),
                         (f"ngc-operate: progress: that player reads {self.folder}/axis, not out\n", 2))


class Ramps(InFolder):
    """With a player that makes ramps."""

    def test_hold(self) -> None:
        """Enter brings the motors to rest within what is in hand; run lets them go on, slower; the pins get each line
        of the job once, in order. Of 900 lines of 2 ms 520 and 500 / 50 are wanted in hand."""
        self.device()
        Path("part.ngc").write_text("G21 G90\nM3 S500\nG1 X0.9 F30\nM5\nM2\n")
        Path("motion.toml").write_text("[motion]\naccel_mm_s2 = [500, 500, 500]\n")
        os.mkfifo("axis")
        player = self.started(built("-O2"), "axis", "first.toml", "position", "--machine", "motion.toml", "--pins",
                              "pins", "--progress", "progress")
        self.wait_for("the player listens", lambda: os.path.exists("progress"))
        link = Link("progress", 60)
        self.addCleanup(link.close)
        words = operate("mill.dev", "first.toml", "axis", "--player", "progress")
        terminal = Terminal(str(TOOLS / "ngc-operate"), *words)
        terminal.read_to(PROMPT)
        terminal.send(b"load part.ngc\n")
        terminal.read_to(PROMPT)
        terminal.send(b"run\n")
        self.wait_for("it moves", lambda: link.ask().carried > 100)
        terminal.send(b"\n")
        shown = terminal.read_to(PROMPT).decode()
        report = link.ask()
        self.assertTrue(report.is_held)
        self.assertIn(f"held\r\nthe motors stand, with {report.behind} lines in hand, up to 0.", shown)
        self.assertGreater(report.behind, 0)
        self.assertLessEqual(report.behind, 530)
        terminal.send(b"percent 90\n")
        terminal.read_to(PROMPT)
        self.assertEqual((link.ask().carried, link.ask().percent), (report.carried, 90))
        terminal.send(b"run\n")
        self.assertIn(b"idle; X 0.900000 ", terminal.read_to(PROMPT))
        self.assertEqual(link.ask().behind, 0)
        terminal.send(b"quit\n")
        terminal.read_to(b"never")
        self.assertEqual((terminal.status(), player.wait(60)), (0, 0))
        self.assertEqual(Path("pins").read_text().splitlines(), ["S 0 500.000000 0 0 0 0", "S 1 500.000000 0 0 0 0"]
                         + ["P 1 0 0 2000"] * 900 + ["S 0 500.000000 0 0 0 0"] * 2)


class TimesWithRamps(InFolder):
    """With a machine's file."""

    def setUp(self) -> None:
        """A machine that takes a second to its rate, and a second to stop."""
        super().setUp()
        self.device()
        Path("motion.toml").write_text("[motion]\naccel_mm_s2 = [20, 20, 20]\n")

    def begun(self, program: str) -> Terminal:
        """A console that has loaded a program."""
        Path("part.ngc").write_text(program)
        terminal = Terminal(str(TOOLS / "ngc-operate"), *operate("mill.dev", "first.toml", "out", "--machine",
                                                                 "motion.toml"))
        terminal.read_to(PROMPT)
        terminal.send(b"load part.ngc\n")
        self.assertIn(b"done 1", terminal.read_to(PROMPT))
        return terminal

    def test_where(self) -> None:
        """A child works them out; `where` has them from then on."""
        terminal = self.begun("G21 G90\nG1 X20 F1200\nM2\n")

        def shown() -> bytes:
            terminal.send(b"where\n")
            return terminal.read_to(PROMPT)

        self.wait_for("they are worked out", lambda: b"\r\nwith ramps 0:02 in all\r\n" in shown())
        terminal.send(b"quit\n")
        terminal.read_to(b"never")
        self.assertEqual(terminal.status(), 0)

    def test_killed(self) -> None:
        """A child that is at work ends where the console is killed, with its `ngc` and its folder."""
        terminal = self.begun("G21 G90\n" + "G1 X500 F1200\nX0\n" * 500 + "M2\n")
        child, = (pid for pid, words in processes(terminal.pid) if "line_times.py" in words[1])
        self.wait_for("it runs", lambda: any("run" in words for _, words in processes(child)))
        run, words = next((pid, words) for pid, words in processes(child) if "run" in words)
        device = Path(words[2])
        self.assertTrue(device.exists())
        os.kill(terminal.pid, signal.SIGKILL)
        self.assertEqual(terminal.status(), -signal.SIGKILL)
        self.wait_for("all has ended", lambda: not (is_alive(child) or is_alive(run) or device.parent.exists()))

    def test_refused(self) -> None:
        """A machine that can't be used, and a file that isn't there; one without [motion] is for other things."""
        Path("wrong.toml").write_text("[motion]\naccel_mm_s2 = [0, 20, 20]\n")
        Path("other.toml").write_text("[setter]\nheight_um = 1\n")
        Path("odd.toml").write_text("[Inputs]\n")
        for name, status, why in (("wrong.toml", 2, "ngc-operate: wrong.toml: motion: accel_mm_s2 takes three whole"),
                                  ("odd.toml", 2, "ngc-operate: odd.toml: Inputs isn't one of the nine tables"),
                                  ("none.toml", 2, "ngc-operate: none.toml: No such file or directory\n"),
                                  ("other.toml", 0, "")):
            done = self.tool("ngc-operate", *operate("mill.dev", "first.toml", "out", "--machine", name), text="quit\n")
            self.assertEqual((done.returncode, why in done.stderr), (status, True), done.stderr)


def stat_of(process: int) -> list[str]:
    """The state of a process and its parent, and more; a state X once there is no such process."""
    try:
        return Path(f"/proc/{process}/stat").read_text().rpartition(") ")[2].split()
    except (FileNotFoundError, ProcessLookupError):
        return ["X", "0"]


def is_alive(process: int) -> bool:
    """Whether it hasn't ended."""
    return stat_of(process)[0] not in "XZ"


def processes(parent: int) -> Iterator[tuple[int, list[str]]]:
    """The children of a process, and their words, with empty ones behind them."""
    for path in Path("/proc").glob("[0-9]*"):
        with suppress(OSError):  # it has ended meanwhile
            if int(stat_of(int(path.name))[1]) == parent:
                yield int(path.name), (path / "cmdline").read_bytes().decode(errors="replace").split("\0") + [""] * 3


class Lines(unittest.TestCase):
    """A program's lines for people."""

    def test_lines(self) -> None:
        """Numbers, texts and messages by places."""
        program = Program(b"G0 X1\r\n\n( msg , first)(MSG,last\x01)\n/ (msg, deleted)\n(a)(MSG, no) X1 (b)\nM2")
        self.assertEqual(program.count, 6)
        self.assertEqual([(program.number(place), program.line(place)) for place in (0, 7, 8)],
                         [(1, "G0 X1"), (2, ""), (3, "( msg , first)(MSG,last\\x01)")])
        every = (0, len(program.text))
        self.assertEqual(program.messages(*every, False), [(3, "last\\x01"), (4, "deleted")])
        self.assertEqual(program.messages(*every, True), [(3, "last\\x01")])

    def test_remarks(self) -> None:
        """The plain comment of a line, by the place behind it, or of comments right above; a message isn't one."""
        for text, wanted in (("M0 (turn it)\n", (1, "turn it")), ("(a) (turn\x01it) \nM0\n", (1, "turn\\x01it")),
                             ("M0(a)(b)", (1, "b")), ("(a)\nM0 (b)\n", (2, "b")), ("M0\n", None), ("", None),
                             ("G0 X1 (a)\nM0\n", None), ("(a)\n\nM0\n", None), ("M0 (MSG, a)\n", None),
                             ("(a)\nM0 (msg,b)\n", None), ("(MSG, a)\r\nM0\r\n", None), ("(a)\r\nM0\r\n", (1, "a"))):
            self.assertEqual(Program(text.encode()).remark(len(text.encode())), wanted, text)
        self.assertEqual(Program(b"G0 X1\nM0 (a)\nG0 X0 (b)\n").remark(13), (2, "a"))

    def test_percent(self) -> None:
        """Up to the first percent sign, by docs/LANGUAGE.md: blanks and tabs beside it, and no other sign, aside."""
        for text, length in ((b"\n\t% \r\nG0 X1\n%\n", 6), (b"%", 1), (b"\x0c%\nM2\n", 0), (b"%5\n%\n", 0), (b"", 0)):
            self.assertEqual(percent_bytes(text), length, text)


if __name__ == "__main__":
    unittest.main()
