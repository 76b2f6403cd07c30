"""A whole day at a machine: ngc-operate at a terminal, tools/player, and a step sink whose switches follow its motors.

What is shown is compared with docs/MACHINE.md, "A day"."""
import os
import re
import signal
import sys
import unittest
from pathlib import Path

sys.path.insert(0, str(Path(__file__).resolve().parent))

from player_support import PlayerTest, record
from session_support import PATIENCE_S, TOOLS, Terminal, ngc
from sink_support import ServedSink
from test_documents import blocks, chapters
from test_moves import Moving

STOP, X_LOW, Y_LOW, Z_HIGH, DOOR, PROBE = 0, 1, 2, 3, 4, 6  # inputs
PROMPT, ASKS = "ngc> ", ("ends: ", "off: ", "holds: ", "goes on: ", "doesn't: ", "back: ", "takes 600: ")
COLUMNS = 116  # of the terminal: so wide are lines of a page
MACHINE = """[motion]
accel_mm_s2 = [2000, 2000, 2000]

[inputs]
emergency_stop = 0
limits_low = [1, 2, -1]
limits_high = [-1, -1, 3]
door = 4
probe = 6
on_while_low = [0]

[home]
order = [2, 3, 1]
switch = [1, 2, 3]
direction = [-1, -1, 1]
fast_mm_min = [1500, 1500, 1500]
slow_mm_min = [60, 60, 60]
pull_off_um = [500, 500, 500]
at_um = [-9500, -9500, 9500]
way_mm = [20, 20, 20]
agree_um = 20

[setter]
height_um = -7000

[sink]
line = "{}"
baud = 2000000
"""
PART = """G21 G90 G17 G54 G94
M3 S1000
G0 X0 Y0 Z5
G1 Z1 F300
X6 F600
Y6
M5
G0 Z5
(MSG, turn the part)
M0
T2 M6
G43 H2
M3 S1000
G0 X0 Y0 Z5
G1 Z1 F300
X6 F600
Y6
G0 Z5
M2
"""


class Day(PlayerTest):
    """The machine's steps are 1 um, its travel is 10 mm each way; it begins 7 mm beside its 0 in X and Y, 8 in Z."""

    def setUp(self) -> None:
        """The machine, with its switches, a device, a program and an empty OUT."""
        super().setUp()
        self.device()
        self.run_ngc("tool 1 9.8\ntool 2 12\n", "before")
        Path("first.toml").write_text(Path("first.toml").read_text().replace("1000000000", "10000000"))
        Path("part.ngc").write_text(PART)
        Path("out").touch()
        self.sink = ServedSink(PATIENCE_S * 1000)
        self.addCleanup(self.sink.child.communicate)
        self.addCleanup(self.sink.child.kill)
        Path("player.toml").write_text(MACHINE.format(self.sink.path))
        self.sink.tell(f"inputs {1 << STOP}")
        for number, axis, sign, at in ((X_LOW, 0, -1, -3_000), (Y_LOW, 1, -1, -3_000), (Z_HIGH, 2, 1, 2_000),
                                       (PROBE, 2, -1, -5_000)):
            self.sink.tell(f"switch {number} {axis} {sign} {at}")
        self.shown = ""

    def begin_day(self) -> None:
        """Starts the player and the console."""
        self.player = self.begin("-f", "-m", "player.toml", "-s", "progress", "out", "first.toml", "position")
        self.link = self.linked()
        self.terminal = Terminal(str(TOOLS / "ngc-operate"), "mill.dev", "first.toml", "out", "--player", "progress",
                                 "--machine", "player.toml", "--ngc", ngc(), columns=COLUMNS)
        self.read_to(PROMPT)

    def end_day(self, status: int) -> None:
        """Waits until both have ended."""
        self.read_to("never")
        self.assertEqual(self.terminal.status(), 0)
        self.player.communicate(timeout=PATIENCE_S)
        self.assertEqual(self.player.returncode, status)

    def read_to(self, *ends: str) -> None:
        """Reads what is shown up to one of some ends. Fails, with what was shown before, where none comes."""
        wanted = tuple(end.replace("\n", "\r\n").encode() for end in ends)
        try:
            self.shown += self.terminal.read_to(wanted).decode().replace("\r\n", "\n")
        except AssertionError as error:
            self.fail(f"{error}\nafter\n{self.shown[-1500:]}")

    def send(self, line: str, *ends: str) -> None:
        """Types a line, and reads what is shown up to an end, the prompt if none is named."""
        self.terminal.send(line.encode() + b"\n")
        self.read_to(*(ends or (PROMPT,)))

    def recover(self) -> None:
        """Says yes to each question, and at which height the legs go."""
        self.send("recover", *ASKS)
        while not self.shown.endswith(PROMPT):
            typed = {"Nothing ends: ": "9.8", "takes 600: ": "600"}
            self.send(next((word for end, word in typed.items() if self.shown.endswith(end)), "yes"), *ASKS, PROMPT)

    def turns(self, steps: int, number: int) -> None:
        """An input turns round once the motors have made so many steps more."""
        self.tell("serve 60000")  # it says what was made
        done = [line for line in Path("sink_events").read_text().splitlines() if line.startswith("P")]
        made = sum(line.split()[2] != "0" for line in done)
        self.tell(f"turn {made + steps} {1 << number}")

    def tell(self, line: str) -> None:
        """Tells the sink something, and waits until it has heard it."""
        before = Path("sink_events").read_text().count("\n. ")
        self.sink.tell(line)
        self.wait_for("the sink heard it", lambda: Path("sink_events").read_text().count("\n. ") > before)

    def turns_back(self) -> None:
        """The input that turned round is as it was."""
        self.tell("turn 0 0")
        self.wait_for("the player knows it", lambda: not {"door", "emergency_stop"} & set(self.link.machine().on))

    def test_day(self) -> None:
        """Home, touch off, load, run, hold, jog at a stop, tool change, emergency stop, home, recover, to the end."""
        self.begin_day()
        self.touch_off()
        self.cut()
        self.stop()
        self.recover()
        self.send("quit", "never")
        self.end_day(0)
        self.check_page()
        self.check_sink()

    def touch_off(self) -> None:
        """Homes; a tool on the setter; the work's corner."""
        self.send("home")
        self.send("T1 M6", "Enter there\n")
        for typed in ("go", "jog X+ 1200 for 3", "jog Z- 1200 for 6", "seek Z- 6 within 1", "touch tool 1 probe",
                      "G53 G0 Z8", "G43 H1", "jog X+ 1200 for 1", "jog Z- 1200 for 6"):
            self.send(typed)
        for typed in ("zero X Y", "zero Z 1"):
            self.send(typed, "moves it: ")
            self.send("yes")
        self.send("load part.ngc")

    def cut(self) -> None:
        """The door is opened in the midst of line 5, of which 3 of 6 mm are cut then; at a stop the table is moved."""
        self.turns(11_000, DOOR)
        self.send("run", "lets them go on\n")
        self.send("")
        self.turns_back()
        self.send("run")
        self.send("jog Y+ 600 for 1")

    def stop(self) -> None:
        """The second tool; the emergency stop is pressed as it has cut 3 of 6 mm of line 16."""
        self.turns(14_000, STOP)
        self.send("run", *ASKS)
        self.send("yes", "Enter there\n")
        self.send("go")
        self.send("run")
        self.turns_back()
        self.send("home")

    def check_page(self) -> None:
        """What the page shows stands in what was shown, in its order: without a gap, but for `..`. How many lines were
        in hand isn't looked at."""
        session = "..\n".join(blocks(chapters("MACHINE.md")["A day"]))
        shown, at = "\n" + _counted(self.shown), 0
        for part in _counted(session).split("..\n"):
            found = shown.find("\n" + part, at)
            self.assertGreaterEqual(found, 0, f"{part}\nisn't shown after\n{shown[:at][-500:]}")
            at = found + len(part)

    def check_sink(self) -> None:
        """The motors stand where the program ended, by what the sink made of all of it: 7 mm beside the machine's 0 in
        X and Y, 8 in Z, as it began."""
        made = [each.step for each in self.sink.end() if each.step]
        place = tuple(sum(step[axis] for step in made) for axis in range(3))
        self.assertEqual(place, (500 + 7_000, -3_500 + 7_000, 8_000 - 8_000))


class Keys(Moving):
    """A jog by keys over tools/player and a simulated machine."""

    def test_killed(self) -> None:
        """As the console is killed while a key is held, the motors come to rest, and the record is true. The player
        ends with it."""
        self.device()
        player = self.begin("--machine", "mill.toml", "--progress", "progress", "axis", "first.toml", "position")
        self.link = self.linked()
        terminal = Terminal(str(TOOLS / "ngc-operate"), "mill.dev", "first.toml", "axis", "--player", "progress",
                            "--ngc", ngc(), kind="xterm", columns=100)
        terminal.read_to(PROMPT.encode())
        terminal.send(b"jog\n")
        terminal.read_to(b"Z 0.000000")
        self.wait_for("it goes", lambda: terminal.send(b"\x1b[C" * 3) or self.world.place[0] > 500)
        os.kill(terminal.pid, signal.SIGKILL)
        self.assertEqual(terminal.status(), -signal.SIGKILL)
        player.communicate(timeout=PATIENCE_S)
        x = self.world.place[0] / 1000
        self.assertLess(x, 10)
        self.assertIn(f"\nreference {x:.6f} 0.000000 0.000000\noff\n", record())


def _counted(text: str) -> str:
    """A text without the counts and ways of lines in hand."""
    return re.sub(r"\d+ (lines in hand), up to \S+ mm", r"N \1", text)


if __name__ == "__main__":
    unittest.main()
