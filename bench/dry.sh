#!/bin/sh
# Lines per second and peak memory of `ngc dry` on programs of G0 and G1 moves, with plain numbers as a CAM system
# writes them and with an expression in each line, and on a program of arcs and canned cycles.
#
# usage, at the top of the repository: bench/dry.sh [--beside NGC] [--rounds N] [--instructions] [LINES..]
#
#   --beside NGC   also runs another executable of ngc, in turns with this one, so that both figures stand side by side
#                  (except on a program that it refuses)
#   --rounds N     how often each is run on each program (3 if it isn't given)
#   --instructions instead of all that, counts the instructions (callgrind of valgrind) of a line and of a command that
#                  it prints, as the difference of a program of 40,000 lines and one of 20,000
#   LINES..        the programs' lengths (200000 and 2000000 if none is given)
#
# It proves and builds ngc by rt if that is needed, writes each program itself from a fixed seed, and runs the
# executable on it with its output to /dev/null and to a file. It shows the time of the whole process on the clock, and
# the processor time that the system counted for it (wait4), which other work on the machine disturbs less. Memory is
# the greatest resident size (VmHWM of /proc/PID/status, read until the process ends, in a run of its own). A cycle's
# line prints several commands, so commands are counted too. At the end it runs a cycle of 30,000 segments and one
# traverse.
set -eu
beside= rounds=3 instructions=
while [ $# -gt 0 ]; do
    case $1 in
        --beside) beside=$(realpath "$2"); shift 2 ;;
        --rounds) rounds=$2; shift 2 ;;
        --instructions) instructions=yes; shift ;;
        *) break ;;
    esac
done
cd "$(dirname "$0")/.."
[ $# -gt 0 ] || set -- 200000 2000000
(cd crates/ngc && rt run -- dry ../../examples/first.ngc >/dev/null 2>&1)
work=$(mktemp -d)
trap 'rm -rf "$work"' EXIT

# A program of $1 lines: a header, then passes of short cuts, each begun by a traverse and a plunge, then M2. If $2 is
# "expressions", the X of each cut is an expression of a number and a parameter. For "arcs", see write_arcs.
write_program() {
    if [ "$2" = arcs ]; then write_arcs "$1"; return; fi
    awk -v lines="$1" -v kind="$2" -v seed=7 '
    function below(n) { state = (state * 16807) % 2147483647; return state % n }
    BEGIN {
        state = seed
        print "G21 G90"
        if (kind == "expressions") print "#100=2.5"
        print "G0 Z5."
        x = 0; y = 0; left = 0
        for (n = kind == "expressions" ? 4 : 3; n < lines; n++) {
            if (left == 0) {
                step = step + 1
                if (step == 1) { print "G0 Z5."; continue }
                if (step == 2) {
                    x = below(800000) - 400000; y = below(800000) - 400000
                    printf "G0 X%.3f Y%.3f\n", x / 1000, y / 1000; continue
                }
                if (step == 3) { printf "G1 Z-%.3f F300\n", below(5000) / 1000; continue }
                x += below(2001) - 1000; y += below(2001) - 1000
                printf "G1 X%.3f Y%.3f F1200\n", x / 1000, y / 1000
                step = 0; left = 100 + below(400)
                continue
            }
            x += below(2001) - 1000; y += below(2001) - 1000
            if (kind == "expressions") printf "X[%.3f+#100*0.5] Y%.3f\n", x / 1000, y / 1000
            else printf "X%.3f Y%.3f\n", x / 1000, y / 1000
            left--
        }
        print "M2"
    }'
}

# A program of $1 lines: a header, then again and again 60 arcs whose radii agree to about a thousandth of a millimetre,
# 20 holes drilled by G81 and 15 by G83 in four pecks each, then M2.
write_arcs() {
    awk -v lines="$1" -v seed=7 '
    function below(n) { state = (state * 16807) % 2147483647; return state % n }
    function near(v) { return v < 0 ? -int(0.5 - v) : int(v + 0.5) }
    # a turn of r about the centre at (x + i, y + j), from the spot (x, y), in micrometres
    function arc(    i, j, r, turn) {
        turn = below(62832) / 10000; r = 1000 + below(20000)
        i = near(r * cos(turn)) - near(x / 40); j = near(r * sin(turn)) - near(y / 40)
        r = sqrt(i * i + j * j); turn = below(62832) / 10000
        x += i + near(r * cos(turn)); y += j + near(r * sin(turn))
        return sprintf("X%.3f Y%.3f I%.3f J%.3f", x / 1000, y / 1000, i / 1000, j / 1000)
    }
    function place() {
        x = below(800000) - 400000; y = below(800000) - 400000
        return sprintf("X%.3f Y%.3f", x / 1000, y / 1000)
    }
    BEGIN {
        state = seed
        print "G21 G90 G98"
        x = 0; y = 0; step = 0
        for (n = 2; n < lines; n++) {
            if (step == 0) print "G0 Z5."
            else if (step == 1) print "G0 " place()
            else if (step == 2) print "G1 Z-2. F300"
            else if (step < 63)
                print (step % 20 == 3 ? (below(2) ? "G2 " : "G3 ") : "") arc() (step == 3 ? " F1200" : "")
            else if (step == 63) print "G0 Z5."
            else if (step == 64) print "G81 " place() " Z-4. R1. F200"
            else if (step < 84) print place()
            else if (step == 84) print "G83 " place() " Z-8. R1. Q2.5 F150"
            else if (step < 99) print place()
            else print "G80"
            step = step == 99 ? 0 : step + 1
        }
        print "M2"
    }'
}

# The instructions for a line and for a printed command of a program of 40,000 lines, without its first 20,000 lines.
count_instructions() {
    for lines in 20000 40000; do
        write_program $lines "$1" >"$work/program.ngc"
        valgrind --tool=callgrind --callgrind-out-file="$work/calls" \
            crates/ngc/out/ngc dry "$work/program.ngc" >"$work/text" 2>"$work/said"
        echo "$(sed -n 's/.*Collected : \([0-9]*\).*/\1/p' "$work/said") $(wc -l <"$work/text")"
    done | awk -v kind="$1" '
    NR == 1 { instructions = $1; commands = $2 }
    NR == 2 {
        made = $1 - instructions
        printf "%s: %.0f instructions a line, %.0f a command of the text\n", kind, made / 20000, made / ($2 - commands)
    }'
}

if [ "$instructions" ]; then
    for kind in numbers expressions arcs; do count_instructions $kind; done
    exit
fi

for kind in numbers expressions arcs; do
for lines in "$@"; do
    write_program "$lines" "$kind" >"$work/program.ngc"
    python3 - "$lines" "$work" "$kind" "$rounds" "$beside" <<'PY'
import os, statistics, subprocess, sys, time
lines, work, kind, rounds = int(sys.argv[1]), sys.argv[2], sys.argv[3], int(sys.argv[4])
program = os.path.join(work, "program.ngc")
programs = [("ngc", "crates/ngc/out/ngc")]
for path in sys.argv[5:]:
    if path and subprocess.run([path, "dry", program], stdout=subprocess.DEVNULL).returncode == 0:
        programs.append((path, path))

def run(ngc, text):
    start = time.monotonic()
    child = subprocess.Popen([ngc, "dry", program], stdout=text)
    _, status, usage = os.wait4(child.pid, 0)
    child.returncode = status
    if status != 0:
        sys.exit(f"{ngc} ended with {status}")
    return time.monotonic() - start, usage.ru_utime + usage.ru_stime

def peak(ngc):
    child = subprocess.Popen([ngc, "dry", program], stdout=subprocess.DEVNULL)
    most = 0
    while child.poll() is None:
        try:
            for line in open(f"/proc/{child.pid}/status"):
                if line.startswith("VmHWM:"):
                    most = max(most, int(line.split()[1]))
        except OSError:
            pass
        time.sleep(0.002)
    return most

commands = subprocess.run([programs[0][1], "dry", program], stdout=subprocess.PIPE).stdout.count(b"\n")
print(
    f"{lines} lines with {kind}, {os.path.getsize(program)} bytes, {commands} commands, "
    f"load {os.getloadavg()[0]:.2f} on {os.cpu_count()} processors"
)
for target, path in [("/dev/null", os.devnull), ("a file", os.path.join(work, "text"))]:
    runs = {name: [] for name, _ in programs}
    for _ in range(rounds):
        for name, ngc in programs:
            with open(path, "wb") as text:
                runs[name].append(run(ngc, text))
    for name, _ in programs:
        for clock, times in [
            ("on the clock", [r[0] for r in runs[name]]),
            ("of processor", [r[1] for r in runs[name]]),
        ]:
            best, median = min(times), statistics.median(times)
            print(
                f"  {name} to {target}, a second {clock}: best {lines / best:,.0f} lines ({best:.3f} s), "
                f"median {lines / median:,.0f} ({median:.3f} s)"
            )
for name, ngc in programs:
    print(f"  {name}: peak resident memory {peak(ngc)} KiB")
PY
done
done

# The memory of a cycle that prints 30,000 segments, beside that of one traverse. The program is a pipe, so ngc waits
# for more after that line, and its greatest resident size can be read.
mkfifo "$work/pipe"
for line in 'G0 X1' 'G83 X0 Z-1000 R0 Q0.1 F100'; do
    python3 - "$work/pipe" "$line" <<'PY'
import subprocess, sys, time
pipe, line = sys.argv[1:]
child = subprocess.Popen(["crates/ngc/out/ngc", "dry", pipe], stdout=subprocess.DEVNULL)
with open(pipe, "w") as program:
    print(line, file=program, flush=True)
    time.sleep(2)
    most = next(it.split()[1] for it in open(f"/proc/{child.pid}/status") if it.startswith("VmHWM:"))
    print("M2", file=program, flush=True)
print(f"{line}: peak resident memory {most} KiB, status {child.wait()}")
PY
done
