#!/bin/sh
# Calls a second at one desk (crates/ng_desk) of one, two, four and eight callers, each in a thread of its own. They all
# ask for the status as fast as they can, 200,000 times together. It also checks that no call is lost: the history has
# as many, and agrees with each caller's list. Times are by the clock, and include making the device, some milliseconds.
#
# usage, at the top of the repository: bench/seats.sh [--rounds N]
#
# It proves and builds a program of its own by rt, and all that it rests on if that is needed.
set -e
rounds=3
if [ "$1" = --rounds ]; then rounds=$2; fi
here=$(cd "$(dirname "$0")" && pwd)
work=$(mktemp -d)
trap 'rm -rf "$work"' EXIT
mkdir "$work/crates"
cp "$here/../HANDLES" "$work/"
grep -E '^ng_[a-z]*( tests_may=[A-Za-z+]*)?:' "$here/../crates.txt" > "$work/crates.txt"
for crate in $(sed 's/[: ].*//' "$work/crates.txt"); do
    mkdir "$work/crates/$crate"
    for part in src specs proofs; do
        if [ -d "$here/../crates/$crate/$part" ]; then cp -r "$here/../crates/$crate/$part" "$work/crates/$crate/"; fi
    done
done
# The gate reads every source file of the repository, so these files have another ending here.
new=$work/crates/seats_bench
mkdir -p "$new/src" "$new/proofs/ask" "$new/proofs/day" "$new/proofs/day_at_a_fresh_desk"
cp "$here/seats/main.txt" "$new/src/main.rt"
cp "$here/seats/ask.txt" "$new/proofs/ask/Invariants.antt"
cp "$here/seats/day.txt" "$new/proofs/day/Answers.antt"
cp "$here/seats/day_at_a_fresh_desk.txt" "$new/proofs/day_at_a_fresh_desk/Invariants.antt"
echo 'seats_bench: ng_desk ng_core ng_journal ng_rig ng_settings ng_num' >> "$work/crates.txt"
if ! (cd "$new" && rt run) > "$work/log" 2>&1; then
    cat "$work/log"
    exit 1
fi
for round in $(seq "$rounds"); do
    "$new/out/seats_bench"
done | awk '
    NF != 4 || $2 != $3 { print "calls were lost, or refused: " $0; bad = 1; next }
    { rate = $2 / $4 * 1000000; if (rate > best[$1]) best[$1] = rate }
    END {
        for (callers = 1; callers <= 8; callers *= 2)
            printf "%d callers: %d calls a second at best, none lost\n", callers, best[callers]
        exit bad
    }'
