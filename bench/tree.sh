#!/usr/bin/env bash
# Proves and builds the program crates/benches, and prints its table of queues: what a cancel and start of a random timer (pair) takes,
# and an expiry of the first timer and its start (hold), in nanoseconds, by the number of queued timers. Where valgrind is
# installed, instructions follow. Outside the gate.
set -eu
top=$(cd "$(dirname "$0")/.." && pwd)
cd "$top/crates/benches"
rt run --jobs 1 -- check > /dev/null 2>&1 || { echo "not proved: see rt check in $PWD" >&2; exit 1; }
program=$PWD/out/benches
sizes="1 16 256 4096 100000"
# Reads lines NAME OP SIZE FIGURE with or without a second figure, and prints a column for each size.
table() {
    awk -F'\t' -v sizes="$sizes" '{ key = $1 "  " $2; if (!(key in known)) { known[key]; order[++rows] = key }; cell[key, $3] = $4 ($5 == "" ? "" : "/" $5) }
        END { count = split(sizes, size, " "); printf "%-18s", ""; for (i = 1; i <= count; i++) printf " %13s", size[i]; print ""
            for (r = 1; r <= rows; r++) { printf "%-18s", order[r]; for (i = 1; i <= count; i++) { x = cell[order[r], size[i]]; printf " %13s", x == "" ? "-" : x }; print "" } }'
}
echo "nanoseconds, least/median of seven runs"
"$program" trees | table
command -v valgrind > /dev/null || exit 0
instructions() { valgrind --tool=callgrind --callgrind-out-file=/dev/null "$program" trees "$@" 2>&1 | awk '/Collected/ { print $4 }'; }
echo
echo "instructions, from the difference of 1000 and 4000"
for op in pair hold; do
    for size in $sizes; do
        few=$(instructions timer_tree "$op" "$size" 1000)
        many=$(instructions timer_tree "$op" "$size" 4000)
        printf 'timer_tree\t%s\t%s\t%d\n' "$op" "$size" $(((many - few) / 3000))
    done
done | table
