#!/usr/bin/env bash
# Runs two of the examples, one of a POSIX timer and one of two lanes, again and again: each allocation of the program fails in its turn, at first
# it alone (`one`), then it and all the rest (`rest`). A run has to end with status 6 and nothing written, or with a record that stands beside
# the example. It prints how many allocations were asked for where none failed, and how many runs ended each way. The program is the one
# handed in, or the proved one that `rt run` left in crates/hrt_app/out. Outside the gate.
set -eu
top=$(cd "$(dirname "$0")/.." && pwd)
program=${1:-$top/crates/hrt_app/out/hrt_app}
[ -x "$program" ] || { echo "no program at $program: rt run in crates/hrt_app makes it" >&2; exit 1; }
built=$(mktemp -d)
trap 'rm -rf "$built"' EXIT
gcc -O2 -Wall -shared -fPIC -o "$built/failing_memory.so" "$top/bench/failing_memory.c"

# Runs a script, allocation $2 failing, and with a third word all the rest too. Sets `status` and `count`.
run() {
    rm -f "$built/count"
    status=0
    timeout 20 env ${3:+FAIL_ON=$3} FAIL_AT="$2" COUNT_TO="$built/count" LD_PRELOAD="$built/failing_memory.so" \
        "$program" run < "$1" > "$built/printed" 2> "$built/said" || status=$?
    count=$(od -An -v -tu8 "$built/count" | tr -d ' ')
}

# How the last run ended: `record`, `refused` where memory was refused and nothing written, or what else came.
ended() {
    local record
    if [ "$status" -eq 6 ] && [ ! -s "$built/printed" ] && [ "$(cat "$built/said")" = "hrt: out of memory" ]; then
        echo refused
        return
    fi
    for record in "${1%.hrt}".record*; do
        if [ "$status" -eq 0 ] && [ ! -s "$built/said" ] && cmp -s "$built/printed" "$record"; then
            echo record
            return
        fi
    done
    echo "status $status, $(wc -c < "$built/printed") bytes written, and said: $(head -c 200 "$built/said")"
}

failed=0
printf '%-24s %-8s %11s %8s %8s %6s\n' script fails allocations refused record other
for name in overrun cancel_beside_an_expiry; do
    script=$top/examples/$name.hrt
    for fails in one rest; do
        run "$script" 0
        clean=$count most=$count refused=0 record=0 other=0 number=1
        # Lanes may ask for more or less at each run, so the numbers go on to 16 past the most that a run asked for.
        while [ "$number" -le $((most + 16)) ]; do
            if [ "$fails" = one ]; then run "$script" "$number"; else run "$script" "$number" on; fi
            [ "$count" -le "$most" ] || most=$count
            end=$(ended "$script")
            case $end in
            refused) refused=$((refused + 1)) ;;
            record) record=$((record + 1)) ;;
            *) other=$((other + 1)); echo "$name, allocation $number and $fails: $end" >&2 ;;
            esac
            number=$((number + 1))
        done
        printf '%-24s %-8s %11s %8s %8s %6s\n' "$name" "$fails" "$clean" "$refused" "$record" "$other"
        failed=$((failed + other))
    done
done
[ "$failed" -eq 0 ]
