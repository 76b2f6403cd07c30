#!/bin/sh
# Pulses of a long line (100,000,000) and of a full circle (80,000,000) by the stepper, beside a C loop of the same
# rules. It shows what each counted, which must agree, and milliseconds. Then a thousand steppers of each are made: it
# shows the sum of their first pulses, and microseconds, which are nanoseconds for each stepper. C has nothing to begin.
# `--rounds N` runs both N times and takes the best: times are by the clock, so other work on the machine shows.
set -e
rounds=1
if [ "$1" = --rounds ]; then rounds=$2; fi
here=$(cd "$(dirname "$0")" && pwd)
work=$(mktemp -d)
trap 'rm -rf "$work"' EXIT
mkdir "$work/crates"
for crate in ng_num ng_canon ng_step; do
    cp -r "$here/../crates/$crate" "$work/crates/"
done
# The gate reads every source file of the repository, so these files have another ending here.
mkdir -p "$work/crates/step_bench/src"
cp "$here/step/main.txt" "$work/crates/step_bench/src/main.rt"
for function in line_steps circle_steps; do
    mkdir -p "$work/crates/step_bench/proofs/$function"
    sed "s/FUNCTION/$function/" "$here/step/invariants.txt" > "$work/crates/step_bench/proofs/$function/Invariants.antt"
done
grep -E '^ng_(num|canon|step):' "$here/../crates.txt" > "$work/crates.txt"
echo 'step_bench: ng_step ng_canon ng_num' >> "$work/crates.txt"
if ! (cd "$work/crates/step_bench" && rt run) > "$work/log" 2>&1; then
    cat "$work/log"
    exit 1
fi
cc=$(command -v clang || command -v gcc || command -v cc)
"$cc" -O2 -o "$work/rule" "$here/step/rule.c"
for round in $(seq "$rounds"); do
    "$work/crates/step_bench/out/step_bench" | sed 's/^/stepper /'
    "$work/rule" | sed 's/^/C /'
done > "$work/times"
cat "$work/times"
# the best of the rounds, which other work on the machine disturbs least
awk '
    { key = $1 " " $2; if (!(key in best) || $4 < best[key]) best[key] = $4; sum[key] = $3 }
    END {
        split("line circle", parts)
        for (i = 1; i <= 2; i++) {
            part = parts[i]
            if (sum["stepper " part] != sum["C " part]) { print part ": the sums differ"; exit 1 }
            printf "%s: %d ms, C %d ms: %d %% of its rate\n", part, best["stepper " part], best["C " part],
                100 * best["C " part] / best["stepper " part]
        }
        printf "new: a line %d ns, a circle %d ns\n", best["stepper begin_lines"], best["stepper begin_circles"]
    }' "$work/times"
