#!/usr/bin/env bash
# Times the calls of hr_timers, beside the kernel's own tree of timers under a lock of C11 or pthread, and beside timers of the running kernel
# by system calls, and prints one table. The proved program is built with `rt run` if none is current; the runs then end within 30 seconds.
# Outside the gate.
. "$(dirname "$0")/peers.bash"
. "$top/bench/kernel_tree.bash"
with_kernel_tree "$top/bench/timer_peers.c" "$built/peers"
gcc -O2 -pthread -o "$built/calls" "$top/bench/timer_calls.c" -lrt
proved benches
timeout 9 "$built/peers" timers > "$built/times"
timeout 9 "$program" timers >> "$built/times"
timeout 9 "$built/calls" >> "$built/times"
machine
echo "Nanoseconds that the calls take a thread, the least of the rounds, with 256 timers queued on each base:"
awk -F'\t' '{ printf "%-14s %-22s %-24s %9s\n", $1, $2, $3, $6 }' "$built/times"
