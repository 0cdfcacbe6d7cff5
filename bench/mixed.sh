#!/usr/bin/env bash
# Runs a script of 65536 calls on 8 bases and 256 timers, of all clocks and callbacks, with the program that is handed in
# (default: the proved one that `rt run` left in crates/hrt_app/out), then the same with more and fewer timers a base, and prints
# the times. Outside the gate.
set -eu
top=$(cd "$(dirname "$0")/.." && pwd)
program=${1:-$top/crates/hrt_app/out/hrt_app}
python3 - "$program" <<'PY'
import subprocess, sys, time

program = sys.argv[1]
CLOCKS = ["monotonic", "realtime", "boottime"]
CALLBACKS = ["once", "every 100", "cancels", "starts 50 0"]
CALLS = 65536


def script(bases, timers):
    lines = ["hrt 1", f"bases {bases}", "lanes 1", "limit 1000000"]
    lines += [f"raw {i} {CLOCKS[i % 3]} {CALLBACKS[i % 4]}" for i in range(timers)]
    lines.append("round")
    draw = 1
    for number in range(CALLS):
        draw = (draw * 1103515245 + 12345) % 2147483648
        timer, base, ns = draw // 65536 % timers, draw // 7 % bases, draw // 1024 % 1000
        lines.append("0 " + [
            f"start {timer} rel {ns} {base}",
            f"start {timer} abs {ns + number} {base}",
            f"expire {base} 4",
            "advance 3",
            f"cancel {timer}",
            f"start {timer} rel {ns} {base}",
            f"peek {timer}",
            f"suspend {ns % 3}",
        ][number % 8])
    return "\n".join(lines) + "\n"


def best(text):
    least = None
    for _ in range(3):
        begun = time.perf_counter()
        done = subprocess.run([program, "run"], input=text.encode(), stdout=subprocess.DEVNULL)
        taken = time.perf_counter() - begun
        assert done.returncode == 0, done.returncode
        least = taken if least is None else min(least, taken)
    return least


for bases, timers in [(8, 256), (8, 64), (8, 16), (1, 256), (1, 64), (1, 16)]:
    taken = best(script(bases, timers))
    print(f"{bases} bases, {timers} timers: {taken:.3f} s for {CALLS} calls, {taken / CALLS * 1e9:.0f} ns a call")
PY
