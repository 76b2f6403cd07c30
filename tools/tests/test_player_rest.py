"""Both players at rest: spindle and coolant switched off by hand, and one session after another."""
import os
import subprocess
import sys
import time
import unittest
from pathlib import Path

sys.path.insert(0, str(Path(__file__).resolve().parent))

from player_support import PlayerTest, Sanitized, preloaded, record
from session_support import PATIENCE_S
from test_sink_player import OverSink

from ngc_tools.formats.out import OFF, Switch
from ngc_tools.formats.record import Record
from ngc_tools.link.progress import Link

ON = "S 1 5.000000 0 1 0 0\n"
WAS = Switch(1, 5_000_000, False, True, 0, 0)
IS_OFF = Switch(0, 5_000_000, False, False, 0, 0)
MOTION = "[motion]\naccel_mm_s2 = [100, 100, 100]\n"


class Rest:
    """What the player in Python and the one in C have to do alike."""

    def piped(self, *words: str) -> tuple[subprocess.Popen[str], Link, int]:
        """A player over a pipe, a link to it, and the pipe's other end."""
        os.mkfifo("out")
        child = self.begin("--untimed", *words, "--progress", "progress", "--pins", "pins", "out", "first.toml",
                           "position")
        return child, self.linked(), os.open("out", os.O_WRONLY)

    def held(self) -> Link:
        """A player that follows a file and is held amid 3,000 pulses behind a switch: a link to it."""
        Path("out").write_text(ON + "P 1 0 0 500\n" * 3000)
        Path("motion.toml").write_text(MOTION)
        self.begin("--follow", "--machine", "motion.toml", "--progress", "progress", "--pins", "pins", "out",
                   "first.toml", "position")
        link = self.linked()
        link.synced(os.path.getsize("out"))
        self.wait_for("it goes", lambda: link.ask().carried > 100)
        link.hold()
        self.wait_for("it is held", lambda: link.ask().is_held)
        return link

    def test_off_while_held(self) -> None:
        """It goes off within a motion, which the record has too; before the motors go on it comes on again."""
        link = self.held()
        before = link.ask()
        self.assertEqual((before.outputs, before.again), (WAS, None))
        link.off()
        self.wait_for("it is off", lambda: link.ask().outputs == IS_OFF)
        report = link.ask()
        self.assertEqual((report.again, report.is_held, report.carried), (WAS, True, before.carried))
        self.wait_for("the record has it", lambda: "outputs S 0 5.000000 0 0 0 0\n" in record())
        link.off()
        self.assertEqual((link.ask().outputs, link.ask().again), (IS_OFF, WAS))
        link.release()
        self.wait_for("it goes on", lambda: link.ask().carried > before.carried)
        self.assertEqual((link.ask().outputs, link.ask().again), (WAS, None))
        lines = Path("pins").read_text().splitlines()
        at = lines.index("off")
        self.assertEqual((lines.count("off"), lines[at + 1], at), (1, ON.strip(), before.carried))

    def test_off_at_a_tool_change(self) -> None:
        """It goes off while a tool is asked for; the switch that follows says itself what is on."""
        _, link, pipe = self.piped()
        self.addCleanup(os.close, pipe)
        os.write(pipe, ON.encode() + b"S 0 5.000000 0 1 2 2\nP 1 0 0 50\n")
        self.wait_for("it waits", lambda: link.ask().waits)
        link.off()
        self.wait_for("it is off", lambda: link.ask().outputs == IS_OFF)
        self.assertEqual(link.ask().again, WAS)
        link.go()
        self.wait_for("it goes on", lambda: link.ask().carried == 3)
        self.assertEqual((link.ask().outputs, link.ask().again), (Switch(0, 5_000_000, False, True, 2, 2), None))
        self.assertEqual(Path("pins").read_text().splitlines(),
                         [ON.strip(), "off", "S 0 5.000000 0 1 2 2", "P 1 0 0 50"])

    def test_off_between_lines(self) -> None:
        """With nothing in hand it goes off, and comes on again before the next motion."""
        _, link, pipe = self.piped()
        self.addCleanup(os.close, pipe)
        os.write(pipe, ON.encode())
        self.wait_for("it is on", lambda: link.ask().carried == 1)
        link.off()
        self.wait_for("it is off", lambda: link.ask().again == WAS)
        os.write(pipe, b"P 1 0 0 50\n")
        self.wait_for("it goes on", lambda: link.ask().carried == 2)
        self.assertEqual(Path("pins").read_text().splitlines(), [ON.strip(), "off", ON.strip(), "P 1 0 0 50"])

    def test_off_is_for_motors_that_stand(self) -> None:
        """While they move nothing goes off, nor later."""
        Path("out").write_text(ON + "P 1 0 0 500\n" * 3000)
        Path("motion.toml").write_text(MOTION)
        self.begin("--follow", "--machine", "motion.toml", "--progress", "progress", "--pins", "pins", "out",
                   "first.toml", "position")
        link = self.linked()
        link.synced(os.path.getsize("out"))
        self.wait_for("it goes", lambda: link.ask().carried > 100)
        link.off()
        self.assertEqual(link.ask().outputs, WAS)
        link.hold()
        self.wait_for("it is held", lambda: link.ask().is_held)
        self.assertEqual((link.ask().outputs, link.ask().again), (WAS, None))

    def test_another_session_over_a_file(self) -> None:
        """What is in hand is let go, spindle and coolant go off, and nothing moves before it is told what is synced."""
        link = self.held()
        link.anew()
        self.wait_for("nothing is in hand", lambda: link.ask().behind == 0)
        report = link.ask()
        self.assertEqual((report.outputs, report.again, report.is_held, report.word), (IS_OFF, None, False, "works"))
        self.wait_for("the record has it", lambda: link.kept()[0] == report.carried)
        self.assertEqual(link.ask().carried, report.carried)
        os.truncate("out", link.kept()[1])
        with open("out", "ab") as out:
            out.write(b"P 0 1 0 50\n" * 2)
        link.synced(os.path.getsize("out"))
        self.wait_for("the next session's lines come", lambda: link.ask().carried == report.carried + 2)
        self.assertEqual(Path("pins").read_text().splitlines()[-3:], ["off", "P 0 1 0 50", "P 0 1 0 50"])

    def test_another_session_amid_motion(self) -> None:
        """Motors that move come to rest by a ramp before."""
        Path("out").write_text(ON + "P 1 0 0 500\n" * 3000)
        Path("motion.toml").write_text(MOTION)
        self.begin("--follow", "--machine", "motion.toml", "--progress", "progress", "--pins", "pins", "--times",
                   "times", "out", "first.toml", "position")
        link = self.linked()
        link.synced(os.path.getsize("out"))
        self.wait_for("it goes", lambda: link.ask().carried > 200)
        link.anew()
        self.wait_for("nothing is in hand", lambda: link.ask().behind == 0)
        carried = link.ask().carried
        self.assertLess(carried, 3001)
        self.assertEqual(link.ask().outputs, IS_OFF)
        self.wait_for("the record has it", lambda: link.kept()[0] == carried)
        self.assertEqual(len(Path("pins").read_text().splitlines()), carried + 1)

    def test_another_session_over_a_pipe(self) -> None:
        """Amid a tool change: its lines are let go, and the player is there for the next session's pipe."""
        child, link, pipe = self.piped()
        os.write(pipe, ON.encode() + b"S 1 5.000000 0 1 2 2\nP 1 0 0 50\nP 1 0")
        self.wait_for("it waits", lambda: link.ask().waits)
        link.anew()
        self.wait_for("nothing is in hand", lambda: link.ask().behind == 0)
        self.assertEqual((link.ask().waits, link.ask().carried, link.ask().outputs), (False, 1, IS_OFF))
        os.close(pipe)
        for _ in range(40):
            self.assertEqual(link.ask().behind, 0)
        pipe = os.open("out", os.O_WRONLY | os.O_NONBLOCK)
        os.write(pipe, b"P 0 1 0 50\n")
        self.wait_for("the next session's line comes", lambda: link.ask().carried == 2)
        self.assertEqual(link.ask().at, "0.000000 0.001000 0.000000")
        link.end()
        os.close(pipe)
        self.assertEqual(child.wait(PATIENCE_S), 0)
        self.assertEqual(Path("pins").read_text().splitlines(), [ON.strip(), "off", "P 0 1 0 50"])

    def test_no_session_follows(self) -> None:
        """It waits for another session no longer than it would for a console."""
        child, link, pipe = self.piped("--off-after", "0.3")
        os.write(pipe, b"P 1 0 0 50\n")
        self.wait_for("it is there", lambda: link.ask().carried == 1)
        link.anew()
        self.wait_for("nothing is in hand", lambda: link.ask().behind == 0)
        self.assertEqual(link.ask().outputs, OFF)
        os.close(pipe)
        self.assertEqual(child.wait(PATIENCE_S), 1)


# A disk that is full for the record while the file `full` is there.
FULL = r"""#define _GNU_SOURCE
#include <dlfcn.h>
#include <errno.h>
#include <sys/stat.h>
#include <unistd.h>
int fdatasync(int file) {
    struct stat what, record;
    int (*real)(int) = dlsym(RTLD_NEXT, "fdatasync");
    int is_record = fstat(file, &what) == 0 && stat("position", &record) == 0 && what.st_ino == record.st_ino;
    if (is_record && (access("full", F_OK) == 0 || unlink("once") == 0)) {
        errno = ENOSPC;
        return -1;
    }
    return real(file);
}
"""


class FullForTheRecord(PlayerTest):
    """A record that can't be kept."""

    def test_stands(self) -> None:
        """It comes to rest, switches off, says why, and carries out nothing more, but goes on with another session once
        the record can be kept: that has each line that was carried out."""
        Path("out").write_text(ON + "P 1 0 0 1000\n" * 3000)
        child = self.begin("--follow", "--no-ask-tool", "--pins", "pins", "--progress", "progress", "out",
                           "first.toml", "position", env=preloaded("full", FULL))
        link = self.linked()
        link.synced(os.path.getsize("out"))
        self.wait_for("it goes", lambda: link.ask().carried > 100)
        Path("full").touch()
        self.wait_for("it is broken off", lambda: link.ask().word == "broken")
        carried = link.ask().carried
        self.assertEqual(Path("pins").read_text().splitlines()[-1], "off")
        for _ in range(10):
            link.synced(os.path.getsize("out"))
            self.assertEqual((link.ask().carried, link.ask().word), (carried, "broken"))
        link.anew()
        time.sleep(0.1)
        self.assertNotEqual(link.ask().behind, 0)
        self.assertLess(link.kept()[0], carried)
        os.unlink("full")
        self.wait_for("another session goes on", lambda: (link.ask().word, link.ask().behind) == ("works", 0))
        self.wait_for("the record has it", lambda: link.kept()[0] == carried)
        self.assertEqual(Record.read("position").stopped, "")
        link.synced(os.path.getsize("out"))
        self.wait_for("it goes on", lambda: link.ask().carried > carried + 10)
        child.terminate()
        said = child.communicate()[1]
        self.assertIn(f"out: stopped after line {carried}: the record can't be kept; position: No space left on device;"
                      " spindle and coolant off. Once it can, another session goes on\n", said)
        at = Record.read("position")
        self.assertEqual(Path("pins").read_text().count("P 1 0 0 1000"), at.lines - 1)

    def test_once(self) -> None:
        """So it is where a write fails once, and the next one doesn't: it doesn't end."""
        Path("out").write_text(ON + "P 1 0 0 1000\n" * 9000)
        child = self.begin("--follow", "--no-ask-tool", "--progress", "progress", "out", "first.toml", "position",
                           env=preloaded("full", FULL))
        link = self.linked()
        link.synced(os.path.getsize("out"))
        self.wait_for("it goes", lambda: link.ask().carried > 100)
        Path("once").touch()
        self.wait_for("it failed", lambda: not os.path.exists("once"))
        for _ in range(20):
            before = link.ask()
            time.sleep(0.02)
        self.assertTrue(before.word == "broken" or link.ask().carried > before.carried, before)
        self.assertIsNone(child.poll())

    def test_ends(self) -> None:
        """Ctrl-C ends it all the same, with the record as it stands where that can be kept by then."""
        Path("out").write_text(ON + "P 1 0 0 1000\n" * 3000)
        child = self.begin("--follow", "--no-ask-tool", "--progress", "progress", "out", "first.toml", "position",
                           env=preloaded("full", FULL))
        link = self.linked()
        link.synced(os.path.getsize("out"))
        self.wait_for("it goes", lambda: link.ask().carried > 100)
        Path("full").touch()
        self.wait_for("it is broken off", lambda: link.ask().word == "broken")
        carried = link.ask().carried
        os.unlink("full")
        child.terminate()
        child.communicate()
        self.assertEqual((child.returncode, Record.read("position").lines), (1, carried))


class RestOverSink(OverSink):
    """Over a step sink."""

    def test_off_and_anew(self) -> None:
        """Held amid pulses the sink's outputs go off, come on again before the next pulse, and are off for the next
        session; each pulse that is counted is made once."""
        sink = self.serve()
        Path("out").write_text(ON + "P 1 0 0 500\n" * 6000)
        child = self.begin("--follow", "--progress", "progress", *self.words())
        link = self.linked()
        link.synced(os.path.getsize("out"))
        self.wait_for("it goes", lambda: link.ask().carried > 100)
        link.hold()
        self.wait_for("it is held", lambda: link.ask().is_held)
        link.off()
        self.wait_for("it is off", lambda: link.ask().outputs == IS_OFF)
        held = link.ask()
        self.assertEqual(held.again, WAS)
        link.release()
        self.wait_for("it goes on", lambda: link.ask().carried > held.carried + 100)
        self.assertEqual((link.ask().outputs, link.ask().again), (WAS, None))
        link.anew()
        self.wait_for("nothing is in hand", lambda: link.ask().behind == 0)
        self.assertEqual(link.ask().outputs, IS_OFF)
        self.wait_for("the record has it", lambda: link.kept()[0] == link.ask().carried)
        carried, size = link.kept()
        os.truncate("out", size)
        with open("out", "ab") as out:
            out.write(b"P 0 1 0 500\n")
        link.synced(os.path.getsize("out"))
        self.wait_for("the next session's line comes", lambda: link.ask().carried == carried + 1)
        link.end()
        self.assertEqual(child.wait(PATIENCE_S), 0, child.stderr.read())
        made = sink.end()
        self.check_made(made)
        spindle = [each.outputs[0] for each in made if each.outputs]
        before = [sum(any(other.step or ()) for other in made[:at]) for at, each in enumerate(made) if each.outputs]
        self.assertEqual([turns for turns, last in zip(spindle, [0, *spindle]) if turns != last], [1, 0, 1, 0])
        self.assertIn(held.carried - 1, before)


class Player(Rest, PlayerTest):
    """As a compiler builds it, optimized."""


class PlayerSanitized(Rest, Sanitized, PlayerTest):
    """Under sanitizers."""


if __name__ == "__main__":
    unittest.main()
