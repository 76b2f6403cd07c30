"""What the judge of losses of power (power.py) found in tools/player."""
import os
import sys
import time
import unittest
from pathlib import Path

sys.path.insert(0, str(Path(__file__).resolve().parent))

from player_support import PlayerTest, preloaded
from power_axes import HOME_TOML, SWITCH_STEPS, SWITCHES
from session_support import PATIENCE_S
from sink_support import ServedSink

from ngc_tools.formats.record import Record

# A disk that keeps nothing of the record while the file `full` is there.
FULL = r"""#define _GNU_SOURCE
#include <dlfcn.h>
#include <errno.h>
#include <sys/stat.h>
#include <unistd.h>
int fdatasync(int file) {
    struct stat what, record;
    int (*real)(int) = dlsym(RTLD_NEXT, "fdatasync");
    if (access("full", F_OK) == 0 && fstat(file, &what) == 0 && stat("position", &record) == 0
        && what.st_ino == record.st_ino) {
        errno = ENOSPC;
        return -1;
    }
    return real(file);
}
"""
# A disk that takes 300 ms for each record.
SLOW = r"""#define _GNU_SOURCE
#include <dlfcn.h>
#include <unistd.h>
int fdatasync(int file) {
    int (*real)(int) = dlsym(RTLD_NEXT, "fdatasync");
    int error = real(file);
    usleep(300000);
    return error;
}
"""
# A disk that takes 100 ms for each record; what a loss of power would leave of the last one is in the file `disk`.
SYNCED = r"""#define _GNU_SOURCE
#include <dlfcn.h>
#include <fcntl.h>
#include <stdio.h>
#include <unistd.h>
int fdatasync(int file) {
    char text[512];
    int (*real)(int) = dlsym(RTLD_NEXT, "fdatasync");
    ssize_t size = pread(file, text, sizeof text, 0);
    usleep(100000);
    int error = real(file);
    int disk = open("disk.part", O_CREAT | O_WRONLY | O_TRUNC, 0600);
    if (write(disk, text, (size_t)size) == size) {
        rename("disk.part", "disk");
    }
    close(disk);
    return error;
}
"""
SECOND_TICKS = 8_000_000
NO_RECORD = "the record can't be kept"


class NoRecord(PlayerTest):
    """A record that can't be kept any more."""

    def test_jog(self) -> None:
        """A move ends before its first pulse, and no other is taken before another session: nobody waits for one that
        is never made."""
        Path("out").touch()
        Path("motion.toml").write_text("[motion]\naccel_mm_s2 = [500, 500, 500]\n")
        child = self.begin("--follow", "--no-ask-tool", "--machine", "motion.toml", "--progress", "progress", "out",
                           "first.toml", "position", env=preloaded("full", FULL))
        link = self.linked()
        Path("full").touch()
        number, refused = link.jog("X+", "60", "9")
        self.assertEqual(refused, "")
        self.wait_for("it is over", lambda: link.machine().ended == number)
        self.assertEqual(link.machine().how, f"stopped after line 0: {NO_RECORD}")
        self.wait_for("it is broken off", lambda: link.ask().word == "broken")
        self.assertEqual(link.jog("X-", "60", "1")[1], f"{NO_RECORD}: another session comes first")
        self.assertEqual((link.machine().does, link.machine().ended, link.ask().word), ("stands", number, "broken"))
        Path("full").unlink()
        self.assertEqual(link.jog("X-", "60", "1")[1], f"{NO_RECORD}: another session comes first")
        link.anew()
        self.wait_for("another session goes on", lambda: link.ask().word == "works")
        self.assertEqual(link.ask().at, "0.000000 0.000000 0.000000")
        number, refused = link.jog("X+", "600", "0.1")
        self.assertEqual(refused, "")
        self.wait_for("it is over", lambda: link.machine().ended == number)
        self.assertEqual(link.machine().how, "done")
        child.terminate()
        child.communicate(timeout=PATIENCE_S)


class Marked(PlayerTest):
    """A move without lines, on a slow disk."""

    def test_before(self) -> None:
        """The record that says that it is under way is synced before its first pulse."""
        Path("out").write_text("P 0 1 0 50\n" * 20)
        Path("motion.toml").write_text("[motion]\naccel_mm_s2 = [500, 500, 500]\n")
        child = self.begin("--follow", "--no-ask-tool", "--machine", "motion.toml", "--progress", "progress", "out",
                           "first.toml", "position", env=preloaded("synced", SYNCED))
        link = self.linked()
        link.synced(Path("out").stat().st_size)
        self.wait_for("its lines are carried out", lambda: link.ask().carried == 20)
        self.wait_for("it is kept", lambda: Record.read("disk").lines == 20)
        number, refused = link.jog("X+", "6", "1")
        self.assertEqual(refused, "")
        self.wait_for("it moves", lambda: link.ask().at != "0.000000 0.020000 0.000000")
        found = Record.read("disk")
        self.assertEqual((found.lines, found.at_nm, found.stopped), (20, (0, 20_000, 0), "moving"))
        link.stop()
        self.wait_for("it is over", lambda: link.machine().ended == number)
        self.wait_for("it is kept", lambda: Record.read("disk").stopped == "")
        child.terminate()
        child.communicate(timeout=PATIENCE_S)


class AmidHome(PlayerTest):
    """A player over a step sink that homes."""

    def begun(self) -> None:
        """A sink with switches, and an OUT without a line."""
        self.sink = ServedSink(3_000)
        self.addCleanup(self.sink.kill)
        for number, axis, way in SWITCHES:
            self.sink.tell(f"switch {number} {axis} {way} {way * SWITCH_STEPS}")
        Path("mill.toml").write_text(f"[motion]\naccel_mm_s2 = [20000, 20000, 20000]\n{HOME_TOML}"
                                     f'[sink]\nline = "{self.sink.path}"\nbaud = 2000000\n')
        Path("out").touch()
        Path("position").unlink(missing_ok=True)

    def started(self) -> None:
        """A player over it."""
        self.child = self.begin("--follow", "--no-ask-tool", "--machine", "mill.toml", "--progress", "progress", "out",
                                "first.toml", "position", env=self.env)
        self.link = self.linked()

    def homes(self, wait_s: float) -> None:
        """It begins with Z, and some time is over then."""
        self.link.home("Z")
        self.wait_for("it moves", lambda: self.link.ask().at != "0.000000 0.000000 0.000000")
        time.sleep(wait_s)


class NoRecordAmidHome(AmidHome):
    """Its record can't be kept for a while."""

    def test_lines_after_it(self) -> None:
        """Wherever the home is broken off, also at a switch that was to halt the sink, another session's lines are
        carried out."""
        self.env = preloaded("full", FULL)
        for number in range(8):
            Path("out").unlink(missing_ok=True)
            self.begun()
            self.started()
            self.homes(number * 0.03)
            Path("full").touch()
            self.wait_for("it is broken off", lambda: self.link.ask().word == "broken")
            Path("full").unlink()
            self.link.anew()
            self.wait_for("another session begins", lambda: self.link.ask().word == "moved")
            self.link.at(self.link.ask().at)
            Path("out").write_text("P 0 0 -1 50\n" * 10)
            self.link.synced(os.path.getsize("out"))
            self.wait_for("its lines are made", lambda: self.link.ask().carried == 10)
            self.child.terminate()
            self.child.communicate(timeout=PATIENCE_S)
            self.sink.end()
            Path("progress").unlink(missing_ok=True)


class LostAmidHome(AmidHome):
    """It is killed, with a record that is slow."""

    def test_place(self) -> None:
        """Whenever it is killed, the next player knows where the motors are, or says that it doesn't."""
        self.env = preloaded("slow", SLOW)
        known = 0
        for number in range(10):
            self.begun()
            self.started()
            self.homes(number * 0.04)
            self.child.kill()
            self.child.communicate()
            for line in ("serve 1", "serve 0", f"run {SECOND_TICKS} 0", "serve 20"):  # it makes what it has
                self.sink.tell(line)
            Path("progress").unlink(missing_ok=True)
            self.started()
            report = self.link.ask()
            self.child.terminate()
            self.child.communicate(timeout=PATIENCE_S)
            made = [each.step for each in self.sink.end() if each.step]
            at = tuple(sum(step[axis] for step in made) for axis in range(3))
            if report.word != "alarm":
                known += 1
                self.assertEqual(tuple(round(float(each) * 1000) for each in report.at.split()), at, number)
        self.assertLess(known, 10)


if __name__ == "__main__":
    unittest.main()
