#!/bin/sh
# How many writes and flushes of a disk an entry of `ngc run` takes, and how long, beside a row of sqlite3.
#
# usage, at the top of the repository, as root: bench/flushes.sh [--ngc PATH] [--beside PATH] [--entries N]
#
#   --ngc PATH    the program; crates/ngc/out/ngc, which rt builds if that is needed, if none is named
#   --beside PATH another executable of ngc
#   --entries N   how many entries are made (200)
#
# It makes an ext4 of its own in a file of 256 MB, on a loop device, and counts by /sys/block what reaches that device:
# nothing else writes there. An entry is an operator's line that moves nothing (`mdi F100`, `tick 1`). A row is one of
# 512 bytes in a transaction of its own, by the module sqlite3 of python3, in WAL mode with synchronous=FULL. Beside
# them, a write of 512 bytes over a file that has its length, with each of the two syncs that the system has. One comes
# 10 ms after the other, as a file's time of change counts in steps of up to 4 ms: what comes within one step leaves it
# as it is. It removes all that it made.
set -eu
ngc= beside= entries=200
while [ $# -gt 0 ]; do
    case $1 in
        --ngc) ngc=$(realpath "$2"); shift 2 ;;
        --beside) beside=$(realpath "$2"); shift 2 ;;
        --entries) entries=$2; shift 2 ;;
        *) sed -n '4s/^# //p' "$0" >&2; exit 2 ;;
    esac
done
cd "$(dirname "$0")/.."
if [ -z "$ngc" ]; then
    (cd crates/ngc && rt run -- dry ../../examples/first.ngc >/dev/null 2>&1)
    ngc=$PWD/crates/ngc/out/ngc
fi
work=$(mktemp -d -p .)
mkdir "$work/disk"
truncate -s 256M "$work/image"
mkfs.ext4 -q -b 4096 "$work/image"
loop=$(losetup -f --show "$work/image")
trap 'umount "$work/disk" 2>/dev/null || true; losetup -d "$loop"; rm -rf "$work"' EXIT
mount "$loop" "$work/disk"
python3 - "$work/disk" "$loop" "$entries" "$ngc" "$beside" <<'PY'
import os, sqlite3, statistics, subprocess, sys, time
folder, loop, entries, ngc, beside = sys.argv[1:]
loop, entries = os.path.basename(loop), int(entries)
with open(f"{folder}/mill.toml", "w") as file:
    file.write("step_nm = [1000, 1000, 1000]\nlow_nm = [-1000000000, -1000000000, -1000000000]\n")
    file.write("high_nm = [1000000000, 1000000000, 1000000000]\ntraverse_nm_per_min = 6000000000\n")
    file.write("period_us = 50\ntools_nm = []\n")


def reached():
    """Writes, sectors and flushes that the disk has had."""
    with open(f"/sys/block/{loop}/stat") as file:
        fields = list(map(int, file.read().split()))
    return fields[4], fields[6], fields[15]


def console(name, program):
    """Makes an entry at each call, over a new device."""
    device = f"{folder}/{name}.dev"
    subprocess.run([program, "format", device], check=True)
    words = [program, "run", device, f"{folder}/mill.toml", f"{folder}/{name}.out"]
    child = subprocess.Popen(words, stdin=subprocess.PIPE, stdout=subprocess.PIPE)

    def enter():
        child.stdin.write(b"mdi F100\ntick 1\n")
        child.stdin.flush()
        if [child.stdout.readline().split()[0] for _ in range(3)] != [b"begun", b"done", b"ticks"]:
            sys.exit("no entry")

    return enter


def database():
    """Inserts a row into a new table at each call."""
    base = sqlite3.connect(f"{folder}/rows.db", isolation_level=None)
    base.execute("PRAGMA journal_mode=WAL")
    base.execute("PRAGMA synchronous=FULL")
    base.execute("CREATE TABLE entry (number INTEGER PRIMARY KEY, row BLOB)")
    row = os.urandom(512)
    return lambda: base.execute("INSERT INTO entry (row) VALUES (?)", (row,))


def bare(sync):
    """Writes a sector over a file that has its length at each call, and syncs it."""
    file = os.open(f"{folder}/{sync.__name__}", os.O_RDWR | os.O_CREAT)
    os.pwrite(file, bytes(512 * 1710), 0)
    os.fsync(file)

    def enter():
        os.pwrite(file, os.urandom(512), 512 * 686)
        sync(file)

    return enter


rivals = [("ngc", console("mill", ngc))] + ([("beside it", console("beside", beside))] if beside else [])
rivals += [(f"sqlite3 {sqlite3.sqlite_version}", database())]
rivals += [("a write and fsync", bare(os.fsync)), ("a write and fdatasync", bare(os.fdatasync))]
for name, enter in rivals:
    enter()
    os.sync()
    before, took = reached(), []
    for _ in range(entries):
        began = time.monotonic()
        enter()
        took.append(time.monotonic() - began)
        time.sleep(0.01)
    writes, sectors, flushes = ((now - then) / entries for now, then in zip(reached(), before))
    each = f"{writes:.2f} writes, {512 * sectors:,.0f} bytes and {flushes:.2f} flushes"
    print(f"{name}: {each} an entry, which takes {1000 * statistics.median(took):.2f} ms, the median")
PY
