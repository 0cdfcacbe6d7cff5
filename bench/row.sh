#!/usr/bin/env bash
# Times a lock and its end on a value of counted_row, beside a C11 lock and Rust's Mutex round a counter, and prints one
# table. The proved program is built with `rt run` if none is current; the runs then end within 30 seconds. Outside the gate.
# On a busy machine two threads may get one processor in turn: `chrt -r 1 bench/row.sh` keeps them running.
. "$(dirname "$0")/peers.bash"
gcc -O2 -pthread -o "$built/c" "$top/bench/row_peers.c"
rustc -O -o "$built/rust" "$top/bench/row_peers.rs"
proved benches

run() {
    timeout 3 "$@" || { echo "row.sh: ${1##*/} failed, or took over 3 seconds" >&2; exit 1; }
}
for _ in 1 2 3; do
    run "$program" rows
    run "$built/c"
    run "$built/rust"
done > "$built/times"

machine
echo "Nanoseconds that a thread takes for a lock and its end, the least of 15 rounds:"
awk -F'\t' '
    { key = $1 FS $2 }
    !(key in least) { order[++keys] = key; least[key] = $3 }
    $3 < least[key] { least[key] = $3 }
    END {
        for (i = 1; i <= keys; i++) {
            split(order[i], part, FS)
            printf "%-22s %-34s %7.1f\n", part[1], part[2], least[order[i]]
        }
    }' "$built/times"
