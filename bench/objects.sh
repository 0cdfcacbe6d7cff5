#!/usr/bin/env bash
# Times the calls of timer_objects, beside POSIX timers and timer descriptors of the running kernel by system calls, and prints one table. The
# proved program is built with `rt run` if none is current; the runs then end within 60 seconds. Outside the gate.
. "$(dirname "$0")/peers.bash"
gcc -O2 -o "$built/calls" "$top/bench/objects.c" -lrt
proved benches
timeout 30 "$program" objects > "$built/times"
timeout 30 "$built/calls" >> "$built/times"
machine
echo "Nanoseconds that the calls on an object take one thread, the least of 7 rounds, by the objects that it arms before it ends them:"
awk -F'\t' '{ printf "%-14s %-18s %-24s %4s %9s\n", $1, $2, $3, $4, $5 }' "$built/times"
