#!/usr/bin/env bash
# Times the tree of crates/timer_tree beside the kernel's own, and prints a table of medians: what a cancel and start of a random
# timer (pair) takes, and an expiry of the first timer and its start (hold), with 256 timers. The two programs run in turn on one
# processor, ROUNDS times each (31 if it isn't set), two million operations a run; user time less that of a run of a thousand.
# The proved program is built with `rt run` if none is current. Outside the gate.
. "$(dirname "$0")/peers.bash"
. "$top/bench/kernel_tree.bash"
with_kernel_tree "$top/bench/tree_peer.c" "$built/peer"
proved benches
machine
python3 - "$program" "$built/peer" "${ROUNDS:-31}" <<'PY'
import os, resource, statistics, subprocess, sys

tree, kernel, rounds = [sys.argv[1], "trees", "timer_tree"], [sys.argv[2]], int(sys.argv[3])
os.sched_setaffinity(0, {max(os.sched_getaffinity(0))})
TIMES, FEW = 2_000_000, 1_000

def user_time(words):
    before = resource.getrusage(resource.RUSAGE_CHILDREN).ru_utime
    subprocess.run(words, stdout=subprocess.DEVNULL, check=False)
    return resource.getrusage(resource.RUSAGE_CHILDREN).ru_utime - before

def nanoseconds(program, op):
    taken = user_time(program + [op, "256", str(TIMES)]) - user_time(program + [op, "256", str(FEW)])
    return taken / (TIMES - FEW) * 1e9

for op in ("pair", "hold"):
    times = {"tree": [], "kernel": []}
    for turn in range(rounds):
        for name in ("tree", "kernel") if turn % 2 else ("kernel", "tree"):
            times[name].append(nanoseconds(tree if name == "tree" else kernel, op))
    middle = {name: statistics.median(each) for name, each in times.items()}
    ratios = [a / b for a, b in zip(times["tree"], times["kernel"])]
    low, _, high = statistics.quantiles(ratios, n=4)
    print(f"{op}  tree {middle['tree']:.0f} ns, kernel {middle['kernel']:.0f} ns, ratio {middle['tree'] / middle['kernel']:.2f}"
          f" (middle half of the rounds {low:.2f} to {high:.2f})")
PY
