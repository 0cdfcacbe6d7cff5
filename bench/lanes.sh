#!/usr/bin/env bash
# Runs one script of 65536 calls on 8 bases twice: all calls in one lane, and each base's calls in a lane of its own, in one round. The
# two run in turn, ROUNDS times each (21 if it isn't set). Then 4096 rounds of 8 lanes with a call each, by themselves and beside two busy loops a
# processor. It prints the medians. The program is the one that is handed in (default: the proved one that `rt run` left in
# crates/hrt_app/out). Outside the gate.
set -eu
top=$(cd "$(dirname "$0")/.." && pwd)
program=${1:-$top/crates/hrt_app/out/hrt_app}
echo "$(nproc) processors, load $(cut -d' ' -f1 /proc/loadavg)"
python3 - "$program" "${ROUNDS:-21}" <<'PY'
import os, statistics, subprocess, sys, time

program, rounds = sys.argv[1], int(sys.argv[2])
BASES, CALLS = 8, 8192


def header(lanes):
    lines = ["hrt 1", f"bases {BASES}", f"lanes {lanes}", "limit 1000000"]
    return lines + [f"raw {timer} monotonic once" for timer in range(2 * BASES)]


# Start, start later, expire, cancel and look, on one base and its two timers in turn.
def call(base, number):
    timer = 2 * base + number // 5 % 2
    return [
        f"start {timer} rel 100 {base}",
        f"start {timer} rel 50 {base}",
        f"expire {base} 4",
        f"cancel {timer}",
        f"peek {timer}",
    ][number % 5]


def one_round(lanes):
    lines = header(lanes) + ["round"]
    for number in range(CALLS):
        for base in range(BASES):
            lines.append(f"{base if lanes > 1 else 0} {call(base, number)}")
    return ("\n".join(lines) + "\n").encode()


def many_rounds(count):
    lines = header(BASES)
    for number in range(count):
        lines.append("round")
        lines += [f"{base} {call(base, number)}" for base in range(BASES)]
    return ("\n".join(lines) + "\n").encode()


def taken(script):
    begun = time.perf_counter()
    done = subprocess.run([program, "run"], input=script, stdout=subprocess.DEVNULL)
    assert done.returncode == 0, done.returncode
    return (time.perf_counter() - begun) * 1000


one, eight = one_round(1), one_round(BASES)
times = {"one": [], "eight": []}
for turn in range(rounds):
    for name, script in [("one", one), ("eight", eight)][:: 1 if turn % 2 else -1]:
        times[name].append(taken(script))
for name, each in times.items():
    low, middle, high = statistics.quantiles(each, n=4)
    print(f"{BASES * CALLS} calls, {name:5} lane{'s' if name == 'eight' else ' '}: {middle:.1f} ms (middle half {low:.1f} to {high:.1f})")
print(f"eight beside one: {statistics.median(times['eight']) / statistics.median(times['one']):.2f}")
rounds_of_eight = many_rounds(4096)
print(f"4096 rounds of 8 lanes: {statistics.median([taken(rounds_of_eight) for _ in range(3)]):.0f} ms")
busy = [subprocess.Popen(["sh", "-c", "while :; do :; done"]) for _ in range(2 * os.cpu_count())]
try:
    print(f"the same beside {len(busy)} busy loops: {statistics.median([taken(rounds_of_eight) for _ in range(3)]):.0f} ms")
finally:
    for loop in busy:
        loop.kill()
PY
