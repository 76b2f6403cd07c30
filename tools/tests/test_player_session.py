"""Both players in a session: tool changes, questions while they wait, and how a session ends."""
import os
import pty
import signal
import socket
import stat
import subprocess
import sys
import time
import unittest
from pathlib import Path

sys.path.insert(0, str(Path(__file__).resolve().parent))

from player_support import NO_RAMPS, PlayerTest, Sanitized, preloaded, record, sector
from session_support import PATIENCE_S, ngc

from ngc_tools.formats.out import OFF, Switch
from ngc_tools.link.progress import Report

ON = b"S 1 5.000000 0 1 0 0\n"
LEFT = ("out: lines that no motor carried out stand behind line 0: nothing moves before a console says so; recover in"
        " ngc-operate goes on or back\n")
OFF_RECORD = "outputs S 0 5.000000 0 0 0 0\nreference 0.001000 0.000000 0.000000\n"
# Ends a program in the midst of the making of its record: what is written isn't synced.
CUT = """#include <unistd.h>
int fsync(int file) { (void)file; _exit(9); }
"""


class Sessions:
    """What the player in Python and the one in C have to do alike."""

    def session(self, *words: str, **how: object) -> tuple[subprocess.Popen[str], object, int]:
        """A player over a pipe, a link to it, and the pipe's other end."""
        os.mkfifo("out")
        child = self.begin("--untimed", *words, "--progress", "progress", "--pins", "pins", "out", "first.toml",
                           "position", **how)
        link = self.linked()
        pipe = os.open("out", os.O_WRONLY)
        return child, link, pipe

    def ended(self, child: subprocess.Popen[str]) -> tuple[int, str]:
        """The status of a player that ends by itself, and what it says."""
        wrong = child.communicate(timeout=PATIENCE_S)[1]
        return child.returncode, wrong

    # tool changes

    def test_asks_for_a_tool(self) -> None:
        """It waits at a tool change until somebody presses Enter, or says go; not where the tool is in."""
        child, link, pipe = self.session()
        os.write(pipe, b"S 0 0.000000 0 0 2 0\nS 0 0.000000 0 0 2 2\nP 1 0 0 50\n")
        self.wait_for("it waits", lambda: link.ask().waits)
        report = link.ask()
        self.assertEqual((report.carried, report.received, report.tool, report.outputs),
                         (1, 3, 2, Switch(0, 0, False, False, 2, 0)))
        self.assertEqual(child.stderr.readline(), "line 2: put in tool 2, then press Enter\n")
        child.stdin.write("\n")
        child.stdin.flush()
        self.wait_for("it goes on", lambda: link.ask().carried == 3)
        os.write(pipe, b"S 1 5.000000 0 0 2 2\nS 0 5.000000 0 0 0 0\nP 1 0 0 50\n")
        self.wait_for("it waits", lambda: link.ask().waits)
        self.assertEqual((link.ask().tool, link.ask().outputs), (0, Switch(1, 5_000_000, False, False, 2, 2)))
        self.assertEqual(child.stderr.readline(), "line 5: take the tool out, then press Enter\n")
        link.go()
        self.wait_for("it goes on", lambda: link.ask().carried == 6)
        link.end()
        os.close(pipe)
        self.assertEqual(self.ended(child), (0, ""))

    def test_room_in_hand(self) -> None:
        """8,000 lines, which is the most that a console lets it have, are all in hand, however long they are."""
        _, link, pipe = self.session("--pipe", "1048576")
        self.addCleanup(os.close, pipe)
        os.write(pipe, b"S 0 0.000000 0 0 2 2\n" + b"P -1 -1 -1 18446744073709551615\n" * 8000)
        self.wait_for("it waits", lambda: link.ask().waits)
        self.assertEqual(link.ask().received, 8001)

    def test_enter_before_it_is_asked_for(self) -> None:
        """An Enter that was pressed before the tool change isn't its answer."""
        child, link, pipe = self.session()
        child.stdin.write("\n\n")
        child.stdin.flush()
        os.write(pipe, b"S 0 0.000000 0 0 2 2\n")
        self.assertEqual(child.stderr.readline(), "line 1: put in tool 2, then press Enter\n")
        time.sleep(0.2)
        self.assertTrue(link.ask().waits)
        os.close(pipe)

    def test_tool_changer(self) -> None:
        """Told so, it leaves tool changes to the pins."""
        Path("out").write_text("S 0 0.000000 0 0 2 2\nP 1 0 0 50\n")
        self.assertEqual(self.play("--untimed").returncode, 0)

    def test_nobody_is_there(self) -> None:
        """Where nobody can say that the tool is in, it stops, and doesn't wait without an end."""
        Path("out").write_text("S 1 5.000000 0 0 0 0\nP 1 0 0 50\nS 0 0.000000 0 0 2 2\nP 1 0 0 50\n")
        command = [*self.command(), "--untimed", "--pins", "pins", "out", "first.toml", "position"]
        done = subprocess.run(command, stdin=subprocess.DEVNULL, capture_output=True, text=True, timeout=PATIENCE_S)
        self.assertEqual((done.returncode, done.stderr), (1,
            "line 3: put in tool 2, then press Enter\n"
            "out: line 3 asks to put in tool 2, and nobody can say that it is done: start the player at a terminal or"
            " with --progress; --no-ask-tool is for a tool changer; spindle and coolant off\n"))
        self.assertEqual(record(), f"lines 2\nbytes 32\n{OFF_RECORD}stopped tool\n")

    def test_in_the_background(self) -> None:
        """A player that doesn't have the terminal isn't stopped by what is typed there."""
        os.mkfifo("out")
        command = [*self.command(), "--untimed", "--progress", "progress", "out", "first.toml", "position"]
        shell = f"set -m; {' '.join(command)} & cat >/dev/null; wait"
        pid, terminal = pty.fork()
        if pid == 0:
            os.execvp("bash", ["bash", "-c", shell])
        link = self.linked()
        with open("out", "wb", buffering=0) as pipe:
            pipe.write(b"S 0 0.000000 0 0 2 2\n")
            self.wait_for("it waits", lambda: link.ask().waits)
            os.write(terminal, b"typed\n")
            time.sleep(0.2)
            self.assertTrue(link.ask().waits)
            link.go()
            self.wait_for("it goes on", lambda: link.ask().carried == 1)
            link.end()
        os.write(terminal, b"\x04")
        self.addCleanup(os.close, terminal)
        self.wait_for("it has ended", lambda: not os.path.exists("progress"))
        os.kill(pid, signal.SIGKILL)
        os.waitpid(pid, 0)

    # questions

    def test_answers_while_its_pins_block(self) -> None:
        """Pins that take long, as for a spindle, don't keep it from answering; what is handed out meanwhile counts."""
        os.mkfifo("pins")
        reader = os.open("pins", os.O_RDWR | os.O_NONBLOCK)
        self.addCleanup(os.close, reader)
        self.assertGreater(os.write(reader, bytes(65536)), 65000)
        child, link, pipe = self.session()
        os.write(pipe, ON + b"P 1 0 0 50\n")
        time.sleep(0.1)
        os.write(pipe, b"P 1 0 0 50\n" * 20)
        report = link.ask()
        self.assertEqual((report.carried, report.received, report.waits, report.outputs), (0, 22, False, OFF))
        os.read(reader, 65536)
        self.wait_for("it goes on", lambda: link.ask().carried == 22)
        self.assertEqual(link.ask().outputs, Switch(1, 5_000_000, False, True, 0, 0))
        child.send_signal(signal.SIGTERM)
        self.assertEqual(self.ended(child), (1, "out: stopped after line 22; spindle and coolant off\n"))
        os.close(pipe)

    def test_nameless_asker(self) -> None:
        """Who can't be answered, or asks something else, does no harm."""
        child, link, pipe = self.session()
        with socket.socket(socket.AF_UNIX, socket.SOCK_DGRAM) as nameless:
            for text in (b"progress 1", b"", b"progress", b"progress x", b"at", b"at 1 2", b"at 1 2 x", b"\0" * 128,
                         b"at 1 2 3" + b"0" * 121, b"end\0", b"go"):
                nameless.sendto(text, "progress")
        self.assertEqual(link.ask(), Report(0, 0, False, "0.000000 0.000000 0.000000", f"{self.folder}/out"))
        os.write(pipe, b"P 1 0 0 50\n")
        self.wait_for("it works", lambda: link.ask().carried == 1)
        link.end()
        os.close(pipe)
        self.assertEqual(self.ended(child), (0, ""))

    def test_told_where_it_stands(self) -> None:
        """It takes where the machine stands while nothing is behind, rounded to steps, and keeps that."""
        child, link, pipe = self.session("--at", "1", "2", "3")
        self.assertEqual(link.ask().at, "1.000000 2.000000 3.000000")
        link.at("7.21 -0.5 2.0005")
        self.assertEqual(link.ask().at, "7.210000 -0.500000 2.001000")
        os.write(pipe, b"P 1 0 0 50\nS 0 0.000000 0 0 2 2\n")
        self.wait_for("it waits", lambda: link.ask().waits)
        link.at("9 9 9")
        self.assertEqual(link.ask().at, "7.211000 -0.500000 2.001000")
        link.go()
        self.wait_for("it is through", lambda: link.ask().carried == 2)
        link.end()
        os.close(pipe)
        self.assertEqual(self.ended(child), (0, "line 2: put in tool 2, then press Enter\n"))
        self.assertIn("\nreference 7.211000 -0.500000 2.001000\n", record())

    # ends

    def test_console_dies(self) -> None:
        """A pipe that ends without a word leaves spindle and coolant on for some seconds, and no longer."""
        child, link, pipe = self.session("--off-after", "0.8")
        os.write(pipe, ON + b"P 1 0 0 50\n")
        self.wait_for("it is through", lambda: link.ask().carried == 2)
        os.close(pipe)
        begun = time.monotonic()
        time.sleep(0.1)
        self.assertEqual(Path("pins").read_bytes(), ON + b"P 1 0 0 50\n")
        self.assertEqual(self.ended(child),
                         (1, "out: the console is gone without a word, after line 2; spindle and coolant off\n"))
        self.assertGreater(time.monotonic() - begun, 0.79)
        self.assertEqual(Path("pins").read_bytes(), ON + b"P 1 0 0 50\noff\n")
        self.assertEqual(record(), f"lines 2\nbytes 32\n{OFF_RECORD}stopped console\n")

    def test_operate_is_killed(self) -> None:
        """The same with ngc-operate, which is killed with the spindle on."""
        self.device()
        os.mkfifo("axis")
        player = self.begin("--off-after", "0.3", "--progress", "progress", "axis", "first.toml", "position")
        link = self.linked()
        console = self.start("ngc-operate", "mill.dev", "first.toml", "axis", "--player", "progress", "--ngc", ngc())
        console.stdin.write("M3 S1000\n")
        console.stdin.flush()
        self.wait_for("the spindle is on", lambda: link.ask().outputs == Switch(1, 10**9, False, False, 0, 0))
        console.kill()
        gone = "axis: the console is gone without a word, after line 2; spindle and coolant off\n"
        self.assertEqual(self.ended(player), (1, NO_RAMPS.replace("out:", "axis:") + gone))
        self.assertIn("\noutputs S 0 1000.000000 0 0 0 0\n", record())

    def test_console_comes_back(self) -> None:
        """A new console within the seconds keeps spindle and coolant on; the questions of one that starts do too."""
        child, link, pipe = self.session("--off-after", "1.2")
        os.write(pipe, ON)
        self.wait_for("it is through", lambda: link.ask().carried == 1)
        os.close(pipe)
        for _ in range(5):
            time.sleep(0.3)
            link.ask()
        pipe = os.open("out", os.O_WRONLY)
        time.sleep(1.5)
        os.write(pipe, b"P 1 0 0 50\nS 0 5.000000 0 0 0 0\n")
        self.wait_for("it goes on", lambda: link.ask().carried == 3)
        link.end()
        os.close(pipe)
        self.assertEqual(self.ended(child), (0, ""))
        self.assertEqual(Path("pins").read_bytes(), ON + b"P 1 0 0 50\nS 0 5.000000 0 0 0 0\n")

    def test_console_dies_at_a_tool_change(self) -> None:
        """A tool that nobody will put in isn't waited for with the spindle on."""
        child, link, pipe = self.session("--off-after", "0.2")
        os.write(pipe, ON + b"P 1 0 0 50\nS 1 5.000000 0 1 3 3\n")
        self.wait_for("it waits", lambda: link.ask().waits)
        os.close(pipe)
        self.assertEqual(self.ended(child), (1, "line 3: put in tool 3, then press Enter\nout: the console is gone, and"
                                                " line 3 asks to put in tool 3; spindle and coolant off\n"))
        self.assertEqual(record(), f"lines 2\nbytes 32\n{OFF_RECORD}stopped console\n")

    def test_ordinary_end(self) -> None:
        """A session that is over ends with 0; what is on goes off after the seconds, which is said."""
        child, link, pipe = self.session("--off-after", "0.1")
        os.write(pipe, ON + b"P 1 0 0 50\n")
        self.wait_for("it is through", lambda: link.ask().carried == 2)
        link.end()
        os.close(pipe)
        self.assertEqual(self.ended(child), (0, "out: ended with spindle or coolant on; spindle and coolant off\n"))
        self.assertEqual(record(), f"lines 2\nbytes 32\n{OFF_RECORD}")

    def test_end_without_a_word(self) -> None:
        """With all off a pipe's end ends it at once: with 1 where somebody asked, and with 0 where nobody did."""
        child, link, pipe = self.session()
        link.ask()
        os.close(pipe)
        self.assertEqual(self.ended(child),
                         (1, "out: the console is gone without a word, after line 0; spindle and coolant off\n"))
        child = self.begin("--progress", "progress", "out", "first.toml", "position")
        self.linked()
        open("out", "wb").close()
        self.assertEqual(self.ended(child), (0, NO_RAMPS))

    def test_signals(self) -> None:
        """Ctrl-C, `kill`, a closed terminal and Ctrl-\\ stop it with spindle and coolant off."""
        os.mkfifo("out")
        for number in (signal.SIGINT, signal.SIGTERM, signal.SIGHUP, signal.SIGQUIT):
            for name in ("pins", "position"):
                Path(name).unlink(missing_ok=True)
            child = self.begin("--untimed", "--pins", "pins", "out", "first.toml", "position",
                               preexec_fn=lambda: signal.signal(signal.SIGHUP, signal.SIG_DFL))
            with open("out", "wb", buffering=0) as pipe:
                pipe.write(ON)
                self.wait_for("it is on", lambda: os.path.exists("pins") and Path("pins").read_bytes() == ON)
                child.send_signal(number)
                self.assertEqual(self.ended(child), (1, "out: stopped after line 1; spindle and coolant off\n"))
            self.assertEqual(Path("pins").read_bytes(), ON + b"off\n")

    def test_without_a_terminal(self) -> None:
        """Under nohup it goes on when its terminal is closed."""
        child, link, pipe = self.session(preexec_fn=lambda: signal.signal(signal.SIGHUP, signal.SIG_IGN))
        child.send_signal(signal.SIGHUP)
        os.write(pipe, b"P 1 0 0 50\n")
        self.wait_for("it works", lambda: link.ask().carried == 1)
        link.end()
        os.close(pipe)
        self.assertEqual(self.ended(child), (0, ""))

    def test_full_disk(self) -> None:
        """Where its first record has no room it says so, leaves nothing behind, and moves nothing."""
        if not self.takes_preloads:
            self.skipTest("no preloads")
        Path("out").write_text("P 1 0 0 50\n")
        full = "#include <errno.h>\nint fsync(int file) { (void)file; errno = ENOSPC; return -1; }\n"
        done = self.play("--untimed", env=preloaded("full", full))
        self.assertEqual((done.returncode, done.stderr.partition(": ")[2]), (2, "position: No space left on device\n"))
        self.assertEqual([name for name in os.listdir() if "position" in name], [])
        self.assertEqual(Path("pins").read_bytes(), b"")

    def test_file_ends(self) -> None:
        """At a file's end nothing stays on."""
        Path("out").write_bytes(ON + b"P 1 0 0 50\nD 300000\n")
        begun = time.monotonic()
        done = self.play()
        ended = "out: ended with spindle or coolant on; spindle and coolant off\n"
        self.assertEqual((done.returncode, done.stderr), (0, NO_RAMPS + ended))
        self.assertGreater(time.monotonic() - begun, 0.3)
        self.assertEqual(record(), f"lines 3\nbytes 41\n{OFF_RECORD}")

    def test_begins_with_outputs_off(self) -> None:
        """What a record of before a loss of power says of spindle and coolant isn't true any more; the tool is."""
        os.mkfifo("out")
        Path("position").write_bytes(sector(f"out {self.folder}/out", "lines 7", "bytes 77",
                                            "outputs S 1 5.000000 0 1 4 3", "reference 1.000000 0.000000 0.000000"))
        self.begin("--progress", "progress", "out", "first.toml", "position")
        report = self.linked().ask()
        self.assertEqual(report.outputs, Switch(0, 5_000_000, False, False, 4, 3))
        self.assertEqual((report.carried, report.at), (0, "1.000000 0.000000 0.000000"))

    # files

    def test_for_its_user_alone(self) -> None:
        """New files and the socket are its user's, whatever the umask allows."""
        before = os.umask(0)
        self.addCleanup(os.umask, before)
        self.session()[1].ask()
        self.assertEqual({stat.S_IMODE(os.stat(path).st_mode) for path in ("position", "pins", "progress")}, {0o600})

    def test_first_record_is_whole(self) -> None:
        """A player that is cut off while it makes its record leaves none, or a whole one; the next one starts."""
        Path("out").write_text("P 1 0 0 50\n")
        if self.takes_preloads:
            self.assertEqual(self.play("--untimed", env=preloaded("cut", CUT)).returncode, 9)
            self.assertFalse(os.path.exists("position"))
        done = self.play("--untimed")
        self.assertEqual((done.returncode, done.stdout.splitlines()[-1]), (0, "reference 0.001000 0.000000 0.000000"))
        self.assertEqual(os.path.getsize("position"), 512)
        self.assertEqual([name for name in os.listdir() if "position" in name], ["position"])

    def test_closed_streams(self) -> None:
        """A standard stream that is closed is taken as /dev/null: no file of the player's gets its number."""
        for closed in ("<&-", ">&-", "2>&-", "<&- >&- 2>&-"):
            for name in ("pins", "position"):
                Path(name).unlink(missing_ok=True)
            Path("out").write_text("P 1 0 0 50\nS 1 5.000000 0 0 0 0\n")
            command = " ".join([*self.command(), "--untimed --pins pins out first.toml position", closed])
            done = subprocess.run(["bash", "-c", command], stdin=subprocess.DEVNULL, capture_output=True, text=True)
            self.assertEqual(done.returncode, 0, closed)
            self.assertEqual(record(), f"lines 2\nbytes 32\n{OFF_RECORD}", closed)
            self.assertEqual(Path("pins").read_text(), "P 1 0 0 50\nS 1 5.000000 0 0 0 0\noff\n", closed)


class Player(Sessions, PlayerTest):
    """As a compiler builds it, optimized."""

    def test_follow(self) -> None:
        """Of a file that is followed, those who ask are looked for: with the last one gone the spindle goes off."""
        Path("out").write_bytes(ON + b"P 1 0 0 50\n")
        child = self.begin("--follow", "--untimed", "--off-after", "0.2", "--progress", "progress", "out", "first.toml",
                           "position")
        link = self.linked()
        link.synced(32)
        self.wait_for("it is through", lambda: link.ask().carried == 2)
        time.sleep(0.5)
        self.assertIsNone(child.poll())
        link.close()
        self.assertEqual(self.ended(child),
                         (1, LEFT + "out: the console is gone without a word, after line 2; spindle and coolant off\n"))
        self.assertEqual(record(), f"lines 2\nbytes 32\n{OFF_RECORD}stopped console\n")

    def test_follow_to_an_end(self) -> None:
        """A session over a file that is followed ends by its word."""
        Path("out").write_bytes(b"P 1 0 0 50\n")
        child = self.begin("--follow", "--untimed", "--progress", "progress", "out", "first.toml", "position")
        link = self.linked()
        link.synced(11)
        self.wait_for("it is through", lambda: link.ask().carried == 1)
        link.end()
        self.assertEqual(self.ended(child), (0, LEFT))




class PlayerSanitized(Sessions, Sanitized, PlayerTest):
    """Under sanitizers."""


if __name__ == "__main__":
    unittest.main()
