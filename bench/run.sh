#!/bin/sh
# What an entry of `ngc run` costs beside a row of sqlite3, how many pulses it hands out in a second, how many short
# lines of a program it does in a second, and how long power on takes.
#
# usage, at the top of the repository:
#   bench/run.sh [--ngc PATH] [--beside PATH] [--rounds N] [--entries N] [--lines N] [FOLDER..]
#
#   --ngc PATH    the program; crates/ngc/out/ngc, which rt builds if that is needed, if none is named
#   --beside PATH another executable of ngc, say one that plans no line ahead: it does the entries and the short lines
#                 too, in turns with the first
#   --rounds N    how often pulses, short lines and power on are measured (3): the best and the median are shown
#   --entries N   how many entries are made for the rate of entries (2048)
#   --lines N     how many short lines are done in a round (100000)
#   FOLDER..      where the files lie: a temporary folder here and one in /dev/shm, if none is given. Only a file system
#                 on a disk says what a sync costs. The script says of each folder what it is; a loop device or a tmpfs
#                 isn't a disk
#
# An entry is an operator's line that moves nothing (`mdi F100`, `tick 1`). Beside it, by the module sqlite3 of python3,
# in WAL mode with synchronous=FULL: a row of 512 bytes, inserted in a transaction of its own; and a write of 512 bytes
# over a file that has its length, with an fdatasync, which is what the disk can do. These take turns, 64 at a time, so
# that all meet the same disk with the same other work on it. Writes, bytes and syncs are those of the system calls
# (strace) on the device, or on the database and its WAL. They are the difference of 2,140 and 100 entries, so a full
# log and sqlite3's own checkpoints are among them. A pulse is one of `G0 X500` at steps of 1 um, a line that is written
# to OUT: `tick 400000` in the midst of the move. A short line is `X1` or `X0` by turns, one pulse at steps of 1 mm, in
# programs of 25,000 lines; it takes two syncs. Power on is from the start of the process to the answer to `status`,
# over a log without a record and over one of 1,020, with the file in the system's memory. Times are by the clock.
set -eu
ngc= beside= rounds=3 entries=2048 lines=100000
while [ $# -gt 0 ]; do
    case $1 in
        --ngc) ngc=$(realpath "$2"); shift 2 ;;
        --beside) beside=$(realpath "$2"); shift 2 ;;
        --rounds) rounds=$2; shift 2 ;;
        --entries) entries=$2; shift 2 ;;
        --lines) lines=$2; shift 2 ;;
        *) break ;;
    esac
done
cd "$(dirname "$0")/.."
if [ -z "$ngc" ]; then
    (cd crates/ngc && rt run -- dry ../../examples/first.ngc >/dev/null 2>&1)
    ngc=$PWD/crates/ngc/out/ngc
fi
work=$(mktemp -d -p .)
memory=$(mktemp -d -p /dev/shm)
trap 'rm -rf "$work" "$memory"' EXIT
[ $# -gt 0 ] || set -- "$work" "$memory"
for folder in "$@"; do
    python3 - "$ngc" "$folder" "$rounds" "$entries" "$lines" "$beside" <<'PY'
import atexit, os, re, shutil, sqlite3, statistics, subprocess, sys, tempfile, time
ngc, rounds, entries, lines, beside = sys.argv[1], int(sys.argv[3]), int(sys.argv[4]), int(sys.argv[5]), sys.argv[6]
folder = tempfile.mkdtemp(dir=sys.argv[2])
atexit.register(shutil.rmtree, folder)
TICKS, TURN, LOG, FEW, PROGRAM = 400_000, 64, 1020, 100, 25_000
CALLS = "write,pwrite64,pwritev,pwritev2,fsync,fdatasync,sync_file_range,msync"
for name, step in (("mill", 1_000), ("coarse", 1_000_000)):
    with open(f"{folder}/{name}.toml", "w") as file:
        file.write(f"""step_nm = [{step}, {step}, {step}]
low_nm = [-1000000000, -1000000000, -1000000000]
high_nm = [1000000000, 1000000000, 1000000000]
traverse_nm_per_min = 6000000000
period_us = 50
tools_nm = [50000000]
""")


def where(path):
    """The file system of a folder, and whether it is a disk's."""
    kind, source = (
        subprocess.run(["df", "--output=fstype,source", path], capture_output=True, text=True, check=True)
        .stdout.split("\n")[1]
        .split()
    )
    number = os.stat(path).st_dev
    block = os.path.realpath(f"/sys/dev/block/{os.major(number)}:{os.minor(number)}")
    if kind in ("tmpfs", "ramfs"):
        return f"{kind}: memory, not a disk; a sync does nothing"
    if "/loop" in block or source.startswith("/dev/loop"):
        return f"{kind} on {source}: a loop device, not a disk"
    return f"{kind} on {source}" + ("" if os.path.exists(block) else ": whether that is a disk isn't known")


class Mill:
    """A formatted device and a session over it."""

    def __init__(self, name, before=(), program=ngc, settings="mill"):
        self.device = f"{folder}/{name}.dev"
        subprocess.run([program, "format", self.device], check=True)
        self.start(before, program, settings)

    def start(self, before=(), program=ngc, settings="mill"):
        words = [*before, program, "run", self.device, f"{folder}/{settings}.toml", f"{self.device}.out"]
        self.entries, self.child = 0, subprocess.Popen(words, stdin=subprocess.PIPE, stdout=subprocess.PIPE)

    def ask(self, text, answer):
        """Seconds from a command to the line that answers it."""
        began = time.monotonic()
        self.child.stdin.write(text)
        self.child.stdin.flush()
        for line in self.child.stdout:
            if line.startswith(answer):
                return time.monotonic() - began
        sys.exit(f"no {answer!r} after {text!r}")

    def enter(self, count):
        """The seconds that this number of entries take."""
        self.entries += count
        return self.ask(b"mdi F100\ntick 1\n" * count + b"status\n", b"status entries %d " % self.entries)

    def end(self):
        self.child.stdin.close()
        if self.child.wait() != 0:
            sys.exit("ngc run failed")


class Database:
    """A table of rows in WAL mode, each commit synced."""

    def __init__(self):
        self.base = sqlite3.connect(f"{folder}/rows.db", isolation_level=None)
        if self.base.execute("PRAGMA journal_mode=WAL").fetchone() != ("wal",):
            sys.exit("sqlite3 has no WAL here")
        self.base.execute("PRAGMA synchronous=FULL")
        self.base.execute("CREATE TABLE entry (number INTEGER PRIMARY KEY, row BLOB)")

    def enter(self, count):
        row, began = os.urandom(512), time.monotonic()
        for _ in range(count):
            self.base.execute("INSERT INTO entry (row) VALUES (?)", (row,))
        return time.monotonic() - began


class Bare:
    """A file as long as a device, over which sectors are written in turn and synced."""

    def __init__(self):
        self.file, self.at = os.open(f"{folder}/bare", os.O_RDWR | os.O_CREAT), 0
        os.pwrite(self.file, bytes(512 * 1710), 0)
        os.fsync(self.file)

    def enter(self, count):
        row, began = os.urandom(512), time.monotonic()
        for _ in range(count):
            os.pwrite(self.file, row, 512 * (686 + self.at % LOG))
            os.fdatasync(self.file)
            self.at += 1
        return time.monotonic() - began


def counted(trace, names):
    """Writes, bytes and syncs of the calls in a trace of strace -y on files with such names."""
    writes = size = syncs = 0
    with open(trace, errors="replace") as file:
        for line in file:
            call = re.search(r"(\w+)\(\d+<([^>]*)>.*\) += (\d+)", line)
            if call and re.search(names, call[2]):
                if "sync" in call[1]:
                    syncs += 1
                else:
                    writes, size = writes + 1, size + int(call[3])
    return writes, size, syncs


def counts(enter, names):
    """Writes, bytes and syncs of an entry: the difference of many entries and few, for each."""
    found = []
    for count in (FEW, FEW + 2 * LOG):
        trace = f"{folder}/trace"
        enter(["strace", "-f", "-y", "-e", f"trace={CALLS}", "-o", trace], count)
        found.append(counted(trace, names))
    return [(more - few) / (2 * LOG) for few, more in zip(*found)]


def traced_mill(before, count):
    mill = Mill("traced", before)
    mill.enter(count)
    mill.end()


def traced_rows(before, count):
    code = f"""import os, sqlite3
base = sqlite3.connect({folder + "/traced.db"!r}, isolation_level=None)
for word in ("PRAGMA journal_mode=WAL", "PRAGMA synchronous=FULL", "CREATE TABLE entry (number INTEGER PRIMARY KEY, row BLOB)"):
    base.execute(word)
row = os.urandom(512)
for _ in range({count}):
    base.execute("INSERT INTO entry (row) VALUES (?)", (row,))
os._exit(0)
"""
    for end in ("", "-wal", "-shm"):
        if os.path.exists(f"{folder}/traced.db{end}"):
            os.remove(f"{folder}/traced.db{end}")
    subprocess.run([*before, sys.executable, "-c", code], check=True)


def per_entry():
    if not shutil.which("strace"):
        print("  writes, bytes and syncs an entry: strace isn't here")
        return
    for name, values in (
        ("ngc", counts(traced_mill, r"traced\.dev$")),
        ("sqlite3", counts(traced_rows, r"traced\.db(-wal)?$")),
    ):
        print("  {} an entry: {:.3f} writes, {:,.0f} bytes, {:.3f} syncs".format(name, *values))


def rates():
    """Entries a second of each, in turns."""
    rivals = {
        "ngc": Mill("rates"),
        f"sqlite3 {sqlite3.sqlite_version}": Database(),
        "a write and an fdatasync alone": Bare(),
        **({"beside it": Mill("beside", (), beside)} if beside else {}),
    }
    seconds = {name: [] for name in rivals}
    for rival in rivals.values():
        rival.enter(TURN)
    for _ in range(max(1, entries // TURN)):
        for name, rival in rivals.items():
            seconds[name].append(rival.enter(TURN))
    for rival in rivals.values():
        if isinstance(rival, Mill):
            rival.end()
    made = {name: TURN * len(turns) / sum(turns) for name, turns in seconds.items()}
    for name, turns in seconds.items():
        print(
            f"  {name}: {made[name]:,.0f} entries a second over {TURN * len(turns)}, "
            f"median of turns {TURN / statistics.median(turns):,.0f}"
        )
    first, second, *_ = made.values()
    turn = statistics.median(row / entry for entry, row in zip(*list(seconds.values())[:2]))
    print(
        f"  ngc makes {first / second:.2f} times as many entries a second as sqlite3; "
        f"in the median of the turns {turn:.2f} times"
    )


def told(name, form, values, best):
    print(f"  {name}: best {form.format(best(values))}, median {form.format(statistics.median(values))}")


def pulses():
    found = []
    for _ in range(rounds):
        mill = Mill("pulses")
        mill.ask(b"mdi G0 X500\ntick 1\n", b"ticks 1")
        found.append(TICKS / mill.ask(b"tick %d\n" % TICKS, b"ticks %d" % TICKS))
        mill.end()
        os.remove(f"{mill.device}.out")
    told("pulses a second", "{:,.0f}", found, max)


def short_lines():
    """Lines a second of programs of short lines."""
    text = b"".join(b"X1\n" if n % 2 else b"X0\n" for n in range(1, PROGRAM - 1))
    text = b"G0X0\n" + text + b"M2\n"
    rivals = {"short lines a second": ngc, **({"beside it": beside} if beside else {})}
    found = {name: [] for name in rivals}
    for _ in range(rounds):
        for name, program in rivals.items():
            mill, seconds, loads = Mill("lines", (), program, "coarse"), 0.0, max(1, lines // PROGRAM)
            for _ in range(loads):
                mill.ask(b"load %d\n" % len(text) + text + b"start\n", b"going")
                seconds += mill.ask(b"tick 1000000\n", b"ticks ")
            mill.end()
            os.remove(f"{mill.device}.out")
            found[name].append(loads * PROGRAM / seconds)
    for name, rates in found.items():
        told(name, "{:,.0f}", rates, max)


def records(device):
    """What examples/read_device.py says of the log."""
    lines = subprocess.run(
        [sys.executable, "examples/read_device.py", device], capture_output=True, text=True, check=True
    ).stdout.split("\n")
    return next(line for line in lines if line.startswith("log: "))


def power_on():
    full = Mill("full")
    full.enter(LOG)
    full.end()
    empty = Mill("empty")
    empty.enter(0)
    empty.end()
    for device in (empty.device, full.device):
        found = []
        for _ in range(max(5, rounds)):
            shutil.copyfile(device, f"{folder}/copy.dev")
            with open(f"{folder}/copy.dev", "rb") as copy:
                os.fsync(copy.fileno())
            began = time.monotonic()
            mill = Mill.__new__(Mill)
            mill.device = f"{folder}/copy.dev"
            mill.start()
            mill.ask(b"status\n", b"status ")
            found.append(1000 * (time.monotonic() - began))
            mill.end()
        told(f"power on, {records(device)}", "{:.2f} ms", found, min)


print(f"{sys.argv[2]}: {where(folder)}; load {os.getloadavg()[0]:.1f} on {os.cpu_count()} processors")
per_entry()
rates()
pulses()
short_lines()
power_on()
PY
done
