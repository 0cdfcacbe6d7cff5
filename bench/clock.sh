#!/usr/bin/env bash
# Counts readings of clock_cell's clock in a second, beside the kernel's clock_gettime (vDSO), and prints one table. The
# proved program is built with `rt run` if none is current; the runs then end within 100 seconds. Outside the gate.
# On a busy machine threads may get one processor in turn: `chrt -r 1 bench/clock.sh` keeps them running.
. "$(dirname "$0")/peers.bash"
gcc -O2 -pthread -o "$built/c" "$top/bench/clock_peers.c"
proved benches

run() {
    timeout 10 "$@" || { echo "clock.sh: ${1##*/} failed, or took over 10 seconds" >&2; exit 1; }
}
for _ in 1 2 3 4 5; do
    run "$program" clocks
    run "$built/c"
done > "$built/rates"

machine
echo "Millions a second, all threads together, from the least to the most of 5 runs: readings, and writes beside them:"
awk -F'\t' '
    { key = $1 FS $2 }
    !(key in most) { order[++keys] = key; least[key] = $3; most[key] = $3; few[key] = $4; many[key] = $4 }
    $3 < least[key] { least[key] = $3 }
    $3 > most[key] { most[key] = $3 }
    $4 < few[key] { few[key] = $4 }
    $4 > many[key] { many[key] = $4 }
    END {
        for (i = 1; i <= keys; i++) {
            key = order[i]
            split(key, part, FS)
            printf "%-14s %-46s %6.1f to %6.1f", part[1], part[2], least[key], most[key]
            if (many[key] > 0) printf "  %5.1f to %5.1f", few[key], many[key]
            print ""
        }
    }' "$built/rates"
