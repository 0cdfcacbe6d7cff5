#!/usr/bin/env bash
# Times calls from C on seats, by one, two and four threads, each on a base of its own and all on one, beside a handle of one thread behind a mutex: medians of
# so many rounds in turn, in nanoseconds of wall time a thread for a start and a cancel, with 256 timers queued on each base. Then the most memory of timers on
# 1, 8 and 64 bases, and a million timers on 8 bases that four threads start and expire, each once. See bench/from_c_threads.c.
#
# usage: bench/from_c_threads.sh [ROUNDS]
set -eu
cd "$(dirname "$0")/.."
folder=$(mktemp -d)
trap 'rm -rf "$folder"' EXIT
program=$folder/from_c_threads
cc -std=c11 -O2 -pthread -Iinclude bench/from_c_threads.c "$(bin/hrt lib)/libhulayban.a" -o "$program"
rounds=${1:-9}
for ((round = 0; round < rounds; round++)); do
    for threads in 1 2 4; do
        for way in seats one mutex; do "$program" pairs $way $threads 256 300000; done
    done
done > "$folder/times"
for threads in 1 2 4; do
    for way in seats one mutex; do
        printf '%s %s: ' $way $threads
        sed -n "s/^$way $threads 256: //p" "$folder/times" | sort -n | sed -n "$(((rounds + 1) / 2))p"
    done
done
for bases in 1 8 64; do
    for timers in 4096 65536; do "$program" memory $bases $timers; done
done
for bases in 1 8; do "$program" memory $bases 1048576; done
"$program" all 8 4 1000000
