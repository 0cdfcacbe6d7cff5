#!/usr/bin/env bash
# Times calls from C of the library that bin/hrt lib makes, beside a binary heap, libev and libuv (Debian: libev-dev, libuv1-dev),
# with 1,000 and 100,000 timers: bench/from_c.c, so many rounds in turn, and the median of each in nanoseconds.
#
# usage: bench/from_c.sh [ROUNDS]
set -eu
cd "$(dirname "$0")/.."
folder=$(mktemp -d)
trap 'rm -rf "$folder"' EXIT
cc -std=c11 -D_GNU_SOURCE -O2 -Iinclude bench/from_c.c "$(bin/hrt lib)/libhulayban.a" -lev -luv -o "$folder/from_c"
rounds=${1:-15}
for ((round = 0; round < rounds; round++)); do
    for timers in 1000 100000; do
        for what in rearm heap libev libuv peek next; do "$folder/from_c" $what $timers 1000000; done
    done
done > "$folder/times"
for timers in 1000 100000; do
    for what in rearm heap libev libuv peek next; do
        printf '%s %s: ' $what $timers
        sed -n "s/^$what $timers: //p" "$folder/times" | sort -n | sed -n "$(((rounds + 1) / 2))p"
    done
done
