#!/usr/bin/env bash
# Times `hrt gen` with a seed and 4096 turns by lanes 1, 2, 4 and 8: the least and the median of seven runs, in milliseconds. The program is the
# one handed in, or the proved one that `rt run` left in crates/hrt_app/out. Outside the gate.
set -eu
top=$(cd "$(dirname "$0")/.." && pwd)
program=${1:-$top/crates/hrt_app/out/hrt_app}
[ -x "$program" ] || { echo "no program at $program: rt run in crates/hrt_app makes it" >&2; exit 1; }
printf '%5s %8s %8s %8s\n' lanes calls least median
for lanes in 1 2 4 8; do
    calls=$("$program" gen --seed 7 --lanes "$lanes" --calls 4096 | awk '$1 == "calls" { print $2 }')
    for _ in 1 2 3 4 5 6 7; do
        begin=$(date +%s%N)
        "$program" gen --seed 7 --lanes "$lanes" --calls 4096 > /dev/null
        end=$(date +%s%N)
        echo $(((end - begin) / 1000000))
    done | sort -n | awk -v lanes="$lanes" -v calls="$calls" '{ ms[NR] = $1 } END { printf "%5s %8s %8s %8s\n", lanes, calls, ms[1], ms[4] }'
done
