"""tools/player: what is carried out, when, what is kept, and what is told."""
import fcntl
import os
import random
import re
import shutil
import signal
import subprocess
import sys
import time
import unittest
from itertools import product
from pathlib import Path

sys.path.insert(0, str(Path(__file__).resolve().parent))

from player_support import (NO_RAMPS, SOURCES, STANDARD, PlayerTest, Sanitized, built, compiled, made, played,
                            preloaded, proved, record)
from session_support import PATIENCE_S

from ngc_tools.formats.out import BadLine, read_line
from ngc_tools.formats.record import Record
from ngc_tools.link.progress import NoAnswer, Report

LINES = """S 0 1000.000000 0 0 2 0
S 0 1000.000000 0 0 2 2
S 1 1000.000000 0 0 2 2
P 1 0 0 50
P 1 -1 0 50
D 100
P 0 0 -1 60
S 0 1000.000000 0 0 2 2
"""
RECORD = "lines 8\nbytes 137\noutputs S 0 1000.000000 0 0 2 2\nreference 0.002000 -0.001000 -0.001000\n"
# A disk that is full from its third sync on.
FULL = """#include <errno.h>
int fdatasync(int file) { static int calls; (void)file; if (++calls < 3) return 0; errno = ENOSPC; return -1; }
"""
# Pins that fail at one line, and take what comes after it.
BAD_PINS = """#define _GNU_SOURCE
#include <dlfcn.h>
#include <errno.h>
#include <string.h>
#include <sys/types.h>
ssize_t write(int file, const void *text, size_t size) {
    ssize_t (*real)(int, const void *, size_t) = dlsym(RTLD_NEXT, "write");
    if (size > 5 && memcmp(text, "P 0 1", 5) == 0) { errno = EIO; return -1; }
    return real(file, text, size);
}
"""


def damaged(line: str, chance: random.Random) -> str:
    """The line, of one in thirty with a byte changed, added or left out."""
    if chance.random() > 1 / 30:
        return line
    at = chance.randrange(len(line))
    byte = chance.choice("0123456789 -.PDS\0\n\xe9")
    return chance.choice((line[:at] + byte + line[at + 1:], line[:at] + byte + line[at:], line[:at] + line[at + 1:]))


def accepted(text: bytes) -> tuple[list[bytes], int]:
    """The lines up to the first that isn't one, and the number of that, 0 for none."""
    *lines, part = text.split(b"\n")
    for number, line in enumerate(lines, 1):
        try:
            read_line(line, number, 50)
        except BadLine:
            return lines[:number - 1], number
    return lines, len(lines) + 1 if part else 0


# Ends a program that asks for memory from its first wait on until it waits for its other thread to end.
NO_MEMORY = """#define _GNU_SOURCE
#include <dlfcn.h>
#include <pthread.h>
#include <stdlib.h>
#include <time.h>
static volatile int plays;
void *malloc(size_t size) {
    void *(*real)(size_t) = dlsym(RTLD_NEXT, "malloc");
    if (plays) abort();
    return real(size);
}
int clock_nanosleep(clockid_t clock, int flags, const struct timespec *until, struct timespec *rest) {
    int (*real)(clockid_t, int, const struct timespec *, struct timespec *) = dlsym(RTLD_NEXT, "clock_nanosleep");
    plays = 1;
    return real(clock, flags, until, rest);
}
int pthread_join(pthread_t thread, void **value) {
    int (*real)(pthread_t, void **) = dlsym(RTLD_NEXT, "pthread_join");
    plays = 0;
    return real(thread, value);
}
"""


class Playing:
    """What it does however it is built."""

    def test_file(self) -> None:
        """Each line of a file reaches the pins, and the record says so."""
        Path("out").write_text(LINES)
        done = self.play()
        self.assertEqual((done.returncode, done.stderr), (0, NO_RAMPS))
        first, times, last = done.stdout.splitlines()
        self.assertEqual(first, "out: 8 lines carried out, 3 pulses, 1 waits, 4 switches")
        self.assertRegex(times, r"^late at most \d+ us, slower by \d+\.\d ms in all")
        self.assertEqual(last, "reference 0.002000 -0.001000 -0.001000")
        self.assertEqual(Path("pins").read_text(), LINES)
        self.assertEqual(Path("position").read_text().split("\n")[0], f"out {self.folder}/out")
        self.assertEqual(record(), RECORD)

    def test_goes_on(self) -> None:
        """Of a file that has grown the new lines are carried out, from where the record says."""
        Path("out").write_text(LINES)
        self.play("--untimed")
        with open("out", "a") as file:
            file.write("P 0 1 0 50\n")
        done = self.play("--untimed")
        self.assertEqual((done.returncode, done.stderr), (0, ""))
        self.assertEqual(done.stdout.splitlines()[-1], "reference 0.002000 0.000000 -0.001000")
        self.assertEqual(Path("pins").read_text(), LINES + "P 0 1 0 50\n")
        self.assertEqual(record().split("\n")[0], "lines 9")

    def test_another_name(self) -> None:
        """A new OUT is carried out from its first line; the position goes on."""
        Path("out").write_text(LINES)
        self.play("--untimed")
        Path("other").write_text("P 1 1 1 50\n")
        done = self.play("--untimed", "other", "first.toml", "position")
        self.assertEqual(done.stdout.splitlines()[-1], "reference 0.003000 0.000000 0.000000")
        self.assertEqual(record().split("\n")[0], "lines 1")

    def test_new_file_of_an_old_name(self) -> None:
        """Where OUT is another file than before, it says so and moves nothing, also where both begin alike."""
        short, long = "P 1 0 0 50\n" * 100, "P 1 0 0 50\n" * 300
        Path("out").write_text(short)
        self.play("--untimed")
        os.unlink("out")
        Path("out").write_text(long)  # it may well get the inode of the one before
        another = ("out: another file than the one whose first 100 lines are carried out, though it begins with the"
                   " same lines; --anew begins with its first line, --restored goes on after line 100, where it is a"
                   " copy")
        self.assertEqual(self.refused("out", "first.toml", "position"), another)
        shutil.copy("out", "copy")
        os.rename("copy", "out")
        self.assertEqual(self.refused("out", "first.toml", "position"), another)
        other = "out: not the file whose first 100 lines are carried out; --anew begins with its first line"
        for text in ("D 1000000\n" * 120, long.replace("1 0", "0 1")):
            Path("out").write_text(text)
            self.assertEqual(self.refused("out", "first.toml", "position"), other)
        for text in (short[11:], short[:-1], ""):
            Path("out").write_text(text)
            self.assertEqual(self.refused("out", "first.toml", "position"), f"out: it has {len(text)} bytes, and by the"
                             " record 1100 are carried out: its end is lost, or it is another file. Emptied (: > OUT)"
                             " it begins anew with --anew, and recover leads back by legs")
        Path("out").write_text(long)
        done = self.play("--untimed", "--restored")
        self.assertEqual((done.returncode, done.stdout.splitlines()[-1]), (0, "reference 0.300000 0.000000 0.000000"))
        Path("out").write_text(short)
        done = self.play("--untimed", "--anew")
        self.assertEqual((done.returncode, done.stdout.splitlines()[-1]), (0, "reference 0.400000 0.000000 0.000000"))

    def test_same_file_by_another_name(self) -> None:
        """A file that was given another name isn't carried out twice."""
        Path("out").write_text(LINES)
        self.play("--untimed")
        os.rename("out", "other")
        with open("other", "a") as file:
            file.write("P 0 1 0 50\n")
        done = self.play("--untimed", "other", "first.toml", "position")
        self.assertEqual((done.returncode, done.stderr),
                         (0, f"other: it was {self.folder}/out: goes on after line 8\n"))
        self.assertEqual(done.stdout.splitlines()[-1], "reference 0.002000 0.000000 -0.001000")

    def test_older_record(self) -> None:
        """A record without the mark of its file is taken, and that is said."""
        Path("out").write_text(LINES)
        Path("position").write_bytes(f"out {self.folder}/out\n{RECORD}".encode().ljust(511) + b"\n")
        done = self.play("--untimed")
        self.assertEqual((done.returncode, done.stderr),
                         (0, "out: goes on after line 8; an older record doesn't say whether it is the same file\n"))
        self.assertEqual(done.stdout.splitlines()[-1], "reference 0.002000 -0.001000 -0.001000")

    def test_part_of_a_line(self) -> None:
        """A line counts once its newline is there."""
        Path("out").write_text("P 1 0 0 50\nP 1 0 0 50")
        done = self.play("--untimed")
        self.assertEqual((done.returncode, done.stdout.splitlines()[-1]), (1, "reference 0.001000 0.000000 0.000000"))
        self.assertEqual(done.stderr, "out:2: OUT ends in a part of a line: 'P 1 0 0 50'; stopped, spindle and coolant"
                                      " off\n")

    def test_times(self) -> None:
        """No line comes before its time: 100 pulses of 2 ms, of which each may come a tenth sooner, and a wait."""
        Path("out").write_text("P 1 0 0 2000\n" * 100 + "D 200000\nD 0\n")
        begun = time.monotonic()
        self.assertEqual(self.play().returncode, 0)
        self.assertGreater(time.monotonic() - begun, 0.2 * 0.9 + 0.2 * 0.9)

    def test_longest_waits(self) -> None:
        """Times as long as a line can say, one after the other."""
        Path("out").write_text("D 18446744073709551615\nP 1 0 0 18446744073709551615\n" * 5)
        done = self.play("--untimed")
        self.assertEqual((done.returncode, done.stderr, done.stdout.splitlines()[-1]),
                         (0, "", "reference 0.005000 0.000000 0.000000"))

    def waits(self, us: int) -> None:
        """A wait of so many microseconds is waited for, and what comes before it is carried out."""
        Path("out").write_text(f"P 1 0 0 50\nD {us}\nP 1 0 0 50\n")
        child = self.begin("--no-ask-tool", "--pins", "pins", "out", "first.toml", "position")
        self.wait_for("it waits", lambda: os.path.exists("pins") and f"D {us}\n" in Path("pins").read_text())
        child.send_signal(signal.SIGTERM)
        said, _ = child.communicate(timeout=PATIENCE_S)
        self.assertEqual(said.splitlines()[-1], "reference 0.001000 0.000000 0.000000")

    def test_long_wait(self) -> None:
        """A wait of 73 years is waited for."""
        self.waits(2305843009213693)

    def test_run(self) -> None:
        """Over a named pipe, which it makes small, from `ngc run` itself."""
        os.mkfifo("out")
        self.device()
        child = self.begin("--untimed", "--pins", "pins", "--progress", "progress", "out", "first.toml", "position")
        self.linked()
        writer = os.open("out", os.O_WRONLY)
        self.assertEqual(fcntl.fcntl(writer, fcntl.F_GETPIPE_SZ), 4096)
        self.run_ngc("mdi M3 S1000\ntick 9\nmdi G0 X1 Y-0.5\ntick 9999\nmdi M5\ntick 9\n")
        os.close(writer)
        said, wrong = child.communicate(timeout=PATIENCE_S)
        self.assertEqual((child.returncode, wrong), (0, ""))
        self.assertEqual(said.splitlines(), ["out: 1003 lines carried out, 1000 pulses, 0 waits, 3 switches",
                                             "reference 1.000000 -0.500000 0.000000"])
        self.assertEqual(record(), "lines 1003\nbytes 11572\noutputs S 0 1000.000000 0 0 0 0\n"
                                   "reference 1.000000 -0.500000 0.000000\n")
        self.assertFalse(os.path.exists("progress"))

    def test_full_pipe(self) -> None:
        """A pipe in which more waits than it is to hold stays as it is, which is said."""
        os.mkfifo("out")
        pipe = os.open("out", os.O_RDWR)
        self.addCleanup(os.close, pipe)
        os.write(pipe, b"P 1 0 0 50\n" * 1000)
        child = self.begin("--untimed", "out", "first.toml", "position")
        self.assertEqual(child.stderr.readline(), "out: the pipe stays at 65,536 bytes\n")

    def test_progress(self) -> None:
        """It tells how many lines it has carried out of those that stand in OUT, while it waits and while it works."""
        os.mkfifo("out")
        child = self.begin("--progress", "progress", "out", "first.toml", "position")
        link = self.linked()
        self.assertEqual(link.ask(), Report(0, 0, False, "0.000000 0.000000 0.000000", f"{self.folder}/out"))
        with open("out", "wb", buffering=0) as pipe:
            pipe.write(b"P 1 0 0 50\nP 1 0 0 50\n")
            self.wait_for("two lines are carried out", lambda: link.ask().carried == 2)
            pipe.write(b"D 3600000000\n" + b"P 1 0 0 50\n" * 200 + b"P 1 0")
            self.wait_for("it waits", lambda: link.ask().carried == 3)
            report = link.ask()
            self.assertEqual((report.carried, report.received, report.behind), (3, 203, 200))
            self.assertEqual(report.at, "0.002000 0.000000 0.000000")
            child.send_signal(signal.SIGTERM)
            said, wrong = child.communicate(timeout=PATIENCE_S)
        stopped = "out: stopped after line 3; spindle and coolant off\n"
        self.assertEqual((child.returncode, wrong), (1, NO_RAMPS + stopped))
        self.assertEqual(said.splitlines()[-1], "reference 0.002000 0.000000 0.000000")
        self.assertIn("\nstopped signal\n", record())
        with self.assertRaisesRegex(NoAnswer, "^progress: the player is gone"):
            link.ask()

    def test_kept_while_it_waits(self) -> None:
        """The record is on the disk while the player still works, and a kill leaves it."""
        os.mkfifo("out")
        child = self.begin("out", "first.toml", "position")
        with open("out", "wb", buffering=0) as pipe:
            pipe.write(b"P 0 1 0 50\nD 3600000000\n")
            kept = Path("position")
            self.wait_for("the record is there", lambda: kept.exists() and b"\nlines 2\n" in kept.read_bytes())
            child.kill()
            child.wait()
        self.assertEqual(record(), "lines 2\nbytes 24\noutputs S 0 0.000000 0 0 0 0\n"
                         "reference 0.000000 0.001000 0.000000\n")

    def test_age(self) -> None:
        """The record says how old it ever was, 20 ms at least; a player that carries nothing out leaves that."""
        Path("out").write_text("P 1 0 0 500\n" * 600)
        self.play()
        found = Record.read("position").age_ms
        self.assertGreaterEqual(found, 20)
        self.play("--untimed")
        self.assertEqual(Record.read("position").age_ms, found)

    def test_stopped_and_continued(self) -> None:
        """A player that is stopped by the shell and goes on carries out each line once."""
        os.mkfifo("out")
        child = self.begin("--pins", "pins", "--progress", "progress", "out", "first.toml", "position")
        link = self.linked()
        with open("out", "wb", buffering=0) as pipe:
            pipe.write(b"P 1 0 0 1000\n" * 300)
            for _ in range(10):
                child.send_signal(signal.SIGSTOP)
                child.send_signal(signal.SIGCONT)
                time.sleep(0.01)
            self.wait_for("it is through", lambda: link.ask().carried == 300)
            link.end()
        self.assertEqual((child.communicate(timeout=PATIENCE_S)[1], child.returncode), (NO_RAMPS, 0))
        self.assertEqual(Path("pins").read_text(), "P 1 0 0 1000\n" * 300)

    def test_one_record(self) -> None:
        """A record has one player at a time."""
        os.mkfifo("out")
        self.begin("--progress", "progress", "out", "first.toml", "position")
        self.linked()
        self.wait_for("its record is there", Path("position").exists)
        Path("other").write_text(LINES)
        self.assertEqual(self.refused("other", "first.toml", "position"), "position: another player keeps it")

    def test_two_players(self) -> None:
        """A socket has one player; that of a dead one is taken over."""
        os.mkfifo("out")
        first = self.begin("--progress", "progress", "out", "first.toml", "position")
        self.linked()
        Path("other").write_text(LINES)
        second = ("--progress", "progress", "other", "first.toml", "position2")
        self.assertEqual(self.refused(*second), "progress: another player listens there")
        first.kill()
        first.wait()
        self.assertEqual(self.refused("--progress", "other", *second[2:]), "other: it is there, and is no socket")
        self.assertEqual(Path("other").read_text(), LINES)
        self.assertEqual(self.run_player("--untimed", "--no-ask-tool", *second).returncode, 0)

    def test_record_fails(self) -> None:
        """Where the record can't be written any more it stops, in the midst of a wait too."""
        if not self.takes_preloads:
            self.skipTest("no preloads")
        Path("out").write_text("S 1 5.000000 0 0 0 0\n" + "P 1 0 0 60000\n" * 3 + "D 3600000000\nP 1 0 0 50\n")
        done = self.play(env=preloaded("full", FULL))
        self.assertEqual(done.returncode, 2, done.stderr)
        self.assertRegex(done.stderr, "player: position: No space left on device\n$")
        self.assertEqual(Path("pins").read_text().splitlines()[-1], "off")

    def test_pins_fail(self) -> None:
        """Where the pins fail it stops with spindle and coolant off, and the record says how far it came."""
        Path("out").write_text("S 1 5.000000 0 1 0 0\nP 1 0 0 50\nP 0 1 0 50\nP 1 0 0 50\n")
        self.assertIn("switch spindle and coolant off by hand", self.play("--pins", "/dev/full").stderr)
        self.assertIn("\nstopped pins\n", record())
        if not self.takes_preloads:
            return
        os.unlink("position")
        done = self.play(env=preloaded("pins", BAD_PINS))
        self.assertEqual((done.returncode, done.stdout), (2, done.stdout))
        self.assertRegex(done.stderr, "player: (the )?pins: Input/output error\n$")
        self.assertEqual(Path("pins").read_text().splitlines(), ["S 1 5.000000 0 1 0 0", "P 1 0 0 50", "off"])
        self.assertEqual(record(), "lines 2\nbytes 32\noutputs S 0 5.000000 0 0 0 0\n"
                         "reference 0.001000 0.000000 0.000000\nstopped pins\n")

    def test_at(self) -> None:
        """Where the machine stands can be told."""
        Path("out").write_text(LINES)
        done = self.play("--untimed", "--at", "10", "0", "-5.5")
        self.assertEqual((done.stdout.splitlines()[-1], done.stderr), ("reference 10.002000 -0.001000 -5.501000", ""))

    def test_by_chance(self) -> None:
        """With bytes changed by chance it takes the lines that `read_line` takes, up to the first that is none."""
        chance = random.Random(7)
        for _ in range(self.chances):
            whole = chance.choices(("P 1 0 -1 50", "D 100", "S 1 1000.000000 0 0 2 128"), k=20)
            lines = [damaged(line, chance) for line in whole]
            text = "\n".join(lines) + chance.choice(("\n", ""))
            Path("out").write_text(text, encoding="latin-1", newline="")
            for name in ("pins", "position"):
                Path(name).unlink(missing_ok=True)
            done = self.play("--untimed")
            taken, wrong = accepted(text.encode("latin-1"))
            pins = b"".join(line + b"\n" for line in taken)
            ends_on = next((line for line in reversed(taken) if line.startswith(b"S")), b"S 0").startswith(b"S 1")
            self.assertEqual(Path("pins").read_bytes(), pins + b"off\n" * (ends_on or wrong > 0), text)
            said = (1, f"out:{wrong}") if wrong else (0, "out" if ends_on else "")
            self.assertEqual((done.returncode, done.stderr.partition(": ")[0]), said, text)


class Player(Playing, PlayerTest):
    """As a compiler builds it, optimized."""

    chances = 60

    def test_follow(self) -> None:
        """Told so, it waits for more at a file's end, until it is asked to stop."""
        Path("out").write_text("P 1 0 0 50\n")
        child = self.begin("--follow", "--progress", "progress", "out", "first.toml", "position")
        link = self.linked()
        self.assertEqual(link.ask().received, 0)
        link.synced(11)
        self.wait_for("the first line is carried out", lambda: link.ask().carried == 1)
        with open("out", "a") as file:
            file.write("P 1 0 0 50\nD 0\n")
        link.synced(26)
        self.wait_for("the others are", lambda: link.ask().carried == 3)
        child.send_signal(signal.SIGINT)
        said, wrong = child.communicate(timeout=PATIENCE_S)
        stopped = "out: stopped after line 3; spindle and coolant off\n"
        self.assertEqual((child.returncode, wrong.splitlines(True)[-1]), (1, stopped))
        self.assertEqual(said.splitlines()[-1], "reference 0.002000 0.000000 0.000000")

    def test_waits_beyond_the_clock(self) -> None:
        """A time for which its clock has no room is named, and not cut: with ramps too, and in the file of times."""
        Path("motion.toml").write_text("[motion]\naccel_mm_s2 = [1000, 1000, 1000]\n")
        ways = ((), ("--machine", "motion.toml"), ("--untimed", "--times", "times"))
        for words, line in product(ways, ("D 2305843009213694", "D 18446744073709551615", "P 1 0 0 2305843009213694")):
            Path("out").write_text(f"P 1 0 0 50\n{line}\nP 1 0 0 50\n")
            done = self.play(*words)
            said = (f"out:2: a time of {line.rpartition(' ')[2]} microseconds, and the player's clock has room for 73"
                    " years, 2305843009213693; stopped, spindle and coolant off")
            self.assertEqual((done.returncode, done.stderr.splitlines()[-1]), (1, said), words)
            self.assertEqual(done.stdout.splitlines()[-1], "reference 0.001000 0.000000 0.000000", words)
            Path("position").unlink()
            Path("times").unlink(missing_ok=True)

    def test_way_back_beyond_the_clock(self) -> None:
        """Nor is it on a way back, of a line that was carried out without times: 64 bits keep 384 ns of it."""
        Path("motion.toml").write_text("[motion]\naccel_mm_s2 = [1000, 1000, 1000]\n")
        Path("out").write_text("P 1 0 0 50\nP 1 0 0 18446744073709552\nP 1 0 0 50\n")
        self.assertEqual(self.play("--untimed").returncode, 0)
        before = record()
        for words in ((), ("--machine", "motion.toml"), ("--untimed", "--times", "times")):
            done = self.run_player("--go-to-line", "0", "--yes", *words, "out", "first.toml", "position")
            said = ("player: out: line 2: a time of 18446744073709552 microseconds, and the player's clock has room for"
                    " 73 years, 2305843009213693")
            self.assertEqual((done.returncode, done.stderr.splitlines()[-1:], record()), (2, [said], before), words)
            Path("times").unlink(missing_ok=True)
        done = self.run_player("--go-to-line", "0", "--yes", "--untimed", "out", "first.toml", "position")
        self.assertEqual((done.returncode, done.stdout.splitlines()[-1]), (0, "reference 0.000000 0.000000 0.000000"))

    def test_builds(self) -> None:
        """It is built without a warning, by clang too where that is there."""
        built("-O2")
        if shutil.which("clang"):
            built("-O0", compiler="clang")

    def test_its_own_words(self) -> None:
        """What it says of words that aren't its own."""
        usage = ("usage: player [-unrtfyc] [-a X Y Z] [-o SECONDS] [-b BYTES] [-s SOCKET] [-p PINS] [-m FILE]"
                 " [-i FILE] [-g LINE] [-l Z -e RATE] OUT SETTINGS POSITION, or player --version")
        Path("out").write_text(LINES)
        for words in (("out", "first.toml"), ("out", "first.toml", "position", "more"), ("-x",), ("-a", "1", "2")):
            self.assertEqual(self.refused(*words), usage)

    def test_version(self) -> None:
        """In a checkout it says so; where it was compiled with a file, what that says; of one that isn't there, why.
        """
        self.assertEqual(played("--version"), (0, "player\nbuilt from a checkout\n", ""))
        told = [f'-DBUILD="{self.folder}/BUILD"']
        parts = [compiled(path, "cc", "-O2", *(told if path.name == "version.c" else ())) for path in SOURCES]
        of_package = [made("player", "cc", *STANDARD, "-O2", *parts, *proved(), "-lm"), "--version"]
        done = subprocess.run(of_package, capture_output=True, text=True)
        said = f"player: {self.folder}/BUILD: No such file or directory\n"
        self.assertEqual((done.returncode, done.stdout, done.stderr), (2, "", said))
        Path("BUILD").write_text("version: 1.0~x\nkit: " + "k" * 2000 + "\n")
        done = subprocess.run(of_package, capture_output=True, text=True)
        said = "player\nversion: 1.0~x\nkit: " + "k" * 2000 + "\n"
        self.assertEqual((done.returncode, done.stdout, done.stderr), (0, said, ""))
        self.assertFalse(Path("position").exists())

    def test_allocates_nothing(self) -> None:
        """From its first wait on it asks for no memory, also where it is asked how far it is."""
        os.mkfifo("out")
        child = self.begin("-s", "progress", "-p", "pins", "-t", "out", "first.toml", "position",
                           env=preloaded("memory", NO_MEMORY))
        link = self.linked()
        with open("out", "wb", buffering=0) as pipe:
            pipe.write(LINES.encode() + b"D 20000\n" * 5)
            self.wait_for("it is through", lambda: link.ask().carried == 13)
            link.end()
        self.assertEqual(child.communicate(timeout=PATIENCE_S)[0].splitlines()[0],
                         "out: 13 lines carried out, 3 pulses, 6 waits, 4 switches")
        self.assertEqual(child.returncode, 0)

    def test_own_pins(self) -> None:
        """A machine's own pins.c takes the place of the one that is there; it is asked for each line, and for `off`."""
        Path("mine.c").write_text("""#include <stdio.h>
#include "pins.h"
bool pins_begin(const char *path, const char *const *others, struct cause *why) {
    (void)others;
    return path != NULL || because(why, "the port of the motors: --pins PORT");
}
int pins_set(const struct line *line, const char *text, size_t size) {
    (void)text;
    (void)size;
    printf("%c %d\\n", line->kind, line->step[0]);
    return 0;
}
int pins_speed(const struct outputs *outputs) {
    (void)outputs;
    return 0;
}
int pins_off(void) {
    puts("off");
    return 0;
}
""")
        program = built("-O2", pins=self.folder / "mine.c")
        Path("out").write_text("S 1 5.000000 0 0 0 0\nP 1 0 0 50\n")
        words = ["-u", "out", "first.toml", "position"]
        done = subprocess.run([program, *words], capture_output=True, text=True)
        self.assertEqual((done.returncode, done.stderr), (2, "player: the port of the motors: --pins PORT\n"))
        done = subprocess.run([program, "-p", "port", *words], capture_output=True, text=True)
        self.assertEqual(done.stdout.splitlines()[:3], ["S 0", "P 1", "off"])

    def test_parts(self) -> None:
        """Each part has less than 300 lines."""
        for path in SOURCES:
            self.assertLess(len(path.read_text().splitlines()), 300, path.name)

    def test_program(self) -> None:
        """Over the lines of a program with an arc, a cycle, a wait and switches the pins get OUT, and the record ends
        where the program does."""
        self.device()
        text = ("G21 G90 G17\nM3 S1500\nG0 X1 Y1 Z1\nG2 X1.5 Y1.5 I0.5 F300\nG4 P0.01\nT1 M6\nM4\n"
                "G83 X2 Y2 Z-0.5 R0.2 Q0.2\nG80 M8\nG0 X0 Y-0.5\nM2\n")
        commands = f"tool 1 0.5\nload {len(text)}\n{text}start\ntick 1000000\n"
        self.assertEqual(self.run_ngc(commands)[-2], "idle")
        self.play("--untimed")
        pins = Path("pins").read_text()
        self.assertEqual(pins, Path("out").read_text())
        self.assertEqual(Record.read("position").at_nm, (0, -500_000, 1_000_000))
        self.assertGreater(len(re.findall("^P", pins, re.M)), 5000)


class PlayerSanitized(Playing, Sanitized, PlayerTest):
    """Under sanitizers."""

    chances = 20


if __name__ == "__main__":
    unittest.main()
