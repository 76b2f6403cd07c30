#!/usr/bin/env python3
"""Long programs: what `load` of 1,048,576 bytes takes beside a plain write of as many, and what a line costs early and
late in such a program.

usage, at the top of the repository: bench/long.py [--ngc PATH] [--rounds N] [--instructions] [FOLDER..]

Without --instructions it gives a console over a large device a `load` of 1,048,576 bytes, N times (20), and waits each
time for `done`. In turn with that it writes as many bytes into a file that has its length already, at once and in 2,048
pieces of 512 bytes, each time with one sync. Times are by the clock, in a folder here and in one in /dev/shm, or in
those that are named. It shows the median and the best.

With --instructions it counts the instructions of a line by callgrind. The lines are `X1` and `X0` by turns under G0,
one pulse each at steps of 1 mm; the count is the difference of 1,100 and 100 lines from the same place on. The places
are the beginning of a program of 3,600 bytes, the beginning of one of 1,048,576, and byte 1,044,480 of that one,
680 * 1536: so a line and a sector begin at each. The device is in /dev/shm.

It builds ngc by rt if that is needed and no PATH is given."""
import argparse
import os
import re
import statistics
import struct
import subprocess
import sys
import tempfile
import time
from pathlib import Path

HERE = Path(__file__).resolve().parent.parent
sys.dont_write_bytecode = True
sys.path.insert(0, str(HERE / "tools"))
from ngc_tools.formats.device import LARGE_SIZE, MOST_LARGE_PROGRAM, SECTOR, Device

SETTINGS = """step_nm = [1000000, 1000000, 1000000]
low_nm = [-1000000000, -1000000000, -1000000000]
high_nm = [1000000000, 1000000000, 1000000000]
traverse_nm_per_min = 6000000000
period_us = 50
tools_nm = []
"""
LATE = 680 * 1536
FEW, MANY = 100, 1100


def short_lines(size):
    """A program of this length in bytes: X1 and X0 by turns, and M2."""
    return (b"X1\nX0\n" * (size // 6 - 1) + b"M2\n").ljust(size, b"\n")


class Console:
    """A session over a large device."""

    def __init__(self, ngc, folder):
        self.folder, self.device = folder, f"{folder}/mill.dev"
        Path(f"{folder}/mill.toml").write_text(SETTINGS)
        if not os.path.exists(self.device):
            subprocess.run([ngc, "format", self.device, "--large"], check=True)
        words = [ngc, "run", self.device, f"{folder}/mill.toml", f"{folder}/out"]
        self.child = subprocess.Popen(words, stdin=subprocess.PIPE, stdout=subprocess.PIPE)

    def seconds(self, text):
        """Seconds from a load or a line until it is told done."""
        began = time.monotonic()
        self.child.stdin.write(text)
        self.child.stdin.flush()
        if not any(line.startswith(b"done") for line in self.child.stdout):
            sys.exit("a command isn't told done")
        return time.monotonic() - began

    def end(self):
        self.child.stdin.close()
        if self.child.wait() != 0:
            sys.exit("ngc run failed")


class Plain:
    """A file as long as a large device, into which bytes are written and synced."""

    def __init__(self, folder, piece):
        self.file, self.piece = os.open(f"{folder}/plain{piece}", os.O_RDWR | os.O_CREAT), piece
        os.pwrite(self.file, bytes(LARGE_SIZE), 0)
        os.fsync(self.file)

    def seconds(self, text):
        began = time.monotonic()
        for first in range(0, len(text), self.piece):
            os.pwrite(self.file, text[first:first + self.piece], SECTOR * 1710 + first)
        os.fsync(self.file)
        return time.monotonic() - began


def loads(ngc, folder, rounds):
    """Shows how long a load takes, in turn with plain writes of as many bytes."""
    console = Console(ngc, folder)
    load = b"load %d\n" % MOST_LARGE_PROGRAM
    ways = {
        "load": (console.seconds, load),
        "one write and a sync": (Plain(folder, MOST_LARGE_PROGRAM).seconds, b""),
        "2,048 writes and a sync": (Plain(folder, SECTOR).seconds, b""),
    }
    found = {name: [] for name in ways}
    for _ in range(rounds):
        text = os.urandom(MOST_LARGE_PROGRAM)
        for name, (seconds, head) in ways.items():
            found[name].append(1000 * seconds(head + text))
    console.end()
    if Device.read(console.device).program != text:
        sys.exit("the device has another program")
    for name, times in found.items():
        print(f"  {name}: median {statistics.median(times):.2f} ms, best {min(times):.2f} ms")


def stored(ngc, folder, size, place):
    """The image of a device with a program of short lines, whose next line begins at a place."""
    console = Console(ngc, folder)
    console.seconds(b"mdi G0X0\ntick 9\n")
    console.seconds(b"load %d\n" % size + short_lines(size))
    console.end()
    image = bytearray(Path(console.device).read_bytes())
    snapshot = 2 + 86 * (Device(bytes(image)).epoch % 2)
    struct.pack_into("<Q", image, SECTOR * snapshot + 8, place)
    return bytes(image)


def instructions(ngc, folder, image, lines):
    """The instructions of a session that does this number of lines over a device."""
    Path(f"{folder}/mill.dev").write_bytes(image)
    words = [
        "valgrind",
        "--tool=callgrind",
        f"--callgrind-out-file={folder}/calls",
        ngc,
        "run",
        f"{folder}/mill.dev",
        f"{folder}/mill.toml",
        "/dev/null",
    ]
    # a line is begun, opened, moved and done
    given = f"start\ntick {4 * lines}\n"
    ended = subprocess.run(words, input=given, capture_output=True, text=True, check=True)
    if ended.stdout.count("done") != lines:
        sys.exit(f"{ended.stdout.count('done')} of {lines} lines were done: {ended.stdout[-200:]}")
    return int(re.search(r"Collected : (\d+)", ended.stderr)[1])


def count(ngc):
    """Shows the instructions of a line at each place."""
    for name, size, place in (
        ("of 3,600 bytes", 3600, 0),
        ("of 1,048,576 bytes, early", MOST_LARGE_PROGRAM, 0),
        ("of 1,048,576 bytes, late", MOST_LARGE_PROGRAM, LATE),
    ):
        with tempfile.TemporaryDirectory(dir="/dev/shm") as folder:
            image = stored(ngc, folder, size, place)
            few, many = (instructions(ngc, folder, image, lines) for lines in (FEW, MANY))
        print(f"a line of a program {name}: {(many - few) / (MANY - FEW):,.0f} instructions")


def main():
    words = argparse.ArgumentParser(description=__doc__.splitlines()[0])
    words.add_argument("folders", metavar="FOLDER", nargs="*")
    words.add_argument("--ngc", help="the program, if it isn't crates/ngc/out/ngc, built by rt")
    words.add_argument("--rounds", type=int, default=20)
    words.add_argument("--instructions", action="store_true")
    given = words.parse_args()
    ngc = given.ngc and os.path.abspath(given.ngc)
    if not ngc:
        ngc = str(HERE / "crates/ngc/out/ngc")
        dry = ["rt", "run", "--", "dry", "../../examples/first.ngc"]
        subprocess.run(dry, cwd=HERE / "crates/ngc", stdout=subprocess.DEVNULL, stderr=subprocess.DEVNULL)
    if given.instructions:
        count(ngc)
        return
    for place in given.folders or (".", "/dev/shm"):
        with tempfile.TemporaryDirectory(dir=place) as folder:
            print(f"{place}: load {os.getloadavg()[0]:.1f} on {os.cpu_count()} processors")
            loads(ngc, folder, given.rounds)


if __name__ == "__main__":
    main()
