#!/usr/bin/env bash
# Times a start and a cancel of a timer under one lock of its base, beside the kernel's own tree of timers under a lock of C11 or
# pthread, and prints one table. The proved program is built with `rt run` if none is current; the runs then end within 30 seconds. Outside the gate.
. "$(dirname "$0")/peers.bash"
. "$top/bench/kernel_tree.bash"
with_kernel_tree "$top/bench/timer_peers.c" "$built/peers"
proved benches
timeout 14 "$built/peers" base > "$built/times"
timeout 14 "$program" bases >> "$built/times"
machine
echo "Nanoseconds that a start and a cancel take a thread, the least of 7 rounds, by the timers queued on a base and those that a thread starts:"
awk -F'\t' '{ printf "%-14s %-24s %6s %6s %9s\n", $1, $2, $3, $4, $5 }' "$built/times"
