#!/bin/sh
# Lines a second of `ngc pace`, with the lines written and with `--total`.
#
# usage, at the top of the repository: bench/pace.sh [--ngc PATH] [--rounds N] [--instructions] [OUT..]
#
#   --ngc PATH     an executable of ngc; without it, it is proved and built by rt if that is needed
#   --rounds N     how often each is run on each OUT (3 if it isn't given)
#   --instructions also counts the instructions of a line (callgrind of valgrind), as the difference of all lines and of
#                  the first half
#   OUT..          files of OUT; without any, it makes three of a million lines each from a fixed seed: straight moves
#                  of 1,000 pulses to all sides, moves of 30 pulses, and pulses by chance, one in seven at a corner
#
# The processor time is that of the whole process. Steps are of 2.5 um, the motors' acceleration 500 mm/s2.
set -eu
ngc= rounds=3 instructions=
while [ $# -gt 0 ]; do
    case $1 in
        --ngc) ngc=$(realpath "$2"); shift 2 ;;
        --rounds) rounds=$2; shift 2 ;;
        --instructions) instructions=yes; shift ;;
        *) break ;;
    esac
done
here=$(cd "$(dirname "$0")" && pwd)
if [ -z "$ngc" ]; then
    (cd "$here/../crates/ngc" && rt run -- dry ../../examples/first.ngc >/dev/null 2>&1)
    ngc=$here/../crates/ngc/out/ngc
fi
work=$(mktemp -d)
trap 'rm -rf "$work"' EXIT

# A million pulses: moves of $1 pulses each, whose ends are by chance.
write_moves() {
    awk -v long="$1" -v seed=7 '
    function below(n) { state = (state * 16807) % 2147483647; return state % n }
    function step(end, k) { return int((end * (k + 1) + 500 * long) / long) - int((end * k + 500 * long) / long) }
    BEGIN {
        state = seed
        for (lines = 0; lines < 1000000; lines += long) {
            for (axis = 0; axis < 3; axis++) { end[axis] = below(2 * long + 1) - long; }
            end[below(3)] = below(2) ? long : -long
            for (k = 0; k < long; k++) { print "P", step(end[0], k), step(end[1], k), step(end[2], k), 50 }
        }
    }'
}

if [ $# -eq 0 ]; then
    write_moves 1000 > "$work/long_moves"
    write_moves 30 > "$work/short_moves"
    write_moves 1 > "$work/by_chance"
    set -- "$work/long_moves" "$work/short_moves" "$work/by_chance"
fi
cat > "$work/mill.toml" <<'TOML'
step_nm = [2500, 2500, 2500]
low_nm = [-1000000000, -1000000000, -1000000000]
high_nm = [1000000000, 1000000000, 1000000000]
traverse_nm_per_min = 3000000000
period_us = 50
tools_nm = []
TOML
printf '[motion]\naccel_mm_s2 = [500, 500, 500]\n' > "$work/player.toml"

# The processor seconds of a command, the best of the rounds.
seconds() {
    out=$1; shift
    for round in $(seq "$rounds"); do
        python3 -c '
import os, subprocess, sys
with open(sys.argv[1]) as out:
    begun = os.times()
    subprocess.run(sys.argv[2:], stdin=out, stdout=subprocess.DEVNULL, check=True)
    ended = os.times()
print(ended[2] + ended[3] - begun[2] - begun[3])' "$out" "$@"
    done | sort -n | head -1
}

instructions_of() {
    valgrind --tool=callgrind --callgrind-out-file=/dev/null "$ngc" pace "$work/mill.toml" "$work/player.toml" < "$1" \
        2>&1 >/dev/null | awk '/Collected/ { print $NF }'
}

for out in "$@"; do
    count=$(wc -l < "$out")
    for total in "" --total; do
        by_ngc=$(seconds "$out" "$ngc" pace "$work/mill.toml" "$work/player.toml" $total)
        awk -v name="$(basename "$out") $total" -v count="$count" -v ngc="$by_ngc" 'BEGIN {
            printf "%s: %d lines, %.2f million a second\n", name, count, count / ngc / 1e6 }'
    done
    if [ -n "$instructions" ]; then
        head -n $((count / 2)) "$out" > "$work/half"
        echo "$(basename "$out"): $((($(instructions_of "$out") - $(instructions_of "$work/half")) / (count - count / 2)))" \
            "instructions a line"
    fi
done
