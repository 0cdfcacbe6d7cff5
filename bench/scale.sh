#!/usr/bin/env bash
# Times a start and a cancel of hr_timers against how many timers are queued on the base, from 100 to the greatest number of one `Timers` value, beside
# the kernel's own tree of timers under a lock of C11, in turn on one processor, ROUNDS times each (7 if it isn't set), and prints the medians with the bytes of
# memory that a timer takes. Then a run of a script of version 2 with 4096 timers on 64 bases, by the program that is handed in (default: the proved one
# that `rt run` left in crates/hrt_app/out). The proved bench program is built with `rt run` if none is current. Outside the gate.
. "$(dirname "$0")/peers.bash"
. "$top/bench/kernel_tree.bash"
with_kernel_tree "$top/bench/timer_peers.c" "$built/peers"
proved benches
machine
python3 - "$program" "$built/peers" "${1:-$top/crates/hrt_app/out/hrt_app}" "${ROUNDS:-7}" <<'PY'
import os, statistics, subprocess, sys, time

ours, kernel, hrt, rounds = (sys.argv[1], "timers"), (sys.argv[2],), sys.argv[3], int(sys.argv[4])
MOST = 65535
processor = {max(os.sched_getaffinity(0))}


# The nanoseconds that the program tells, and the most memory that it had, in bytes.
def told(program, queued):
    run = subprocess.Popen([*program, "scale", str(queued)], stdout=subprocess.PIPE, text=True, preexec_fn=lambda: os.sched_setaffinity(0, processor))
    line = run.stdout.readline()
    _, _, usage = os.wait4(run.pid, 0)
    return float(line.split("\t")[-1]), usage.ru_maxrss * 1024


print(f"{'queued':>8} {'hr_timers':>10} {'kernel':>8} {'ratio':>6}   nanoseconds of a start and a cancel")
memory = {}
for queued in (100, 1000, 10_000, MOST):
    times = {ours: [], kernel: []}
    for _ in range(rounds):
        for program in (ours, kernel):
            took, memory[program, queued] = told(program, queued)
            times[program].append(took)
    a, b = statistics.median(times[ours]), statistics.median(times[kernel])
    print(f"{queued:>8} {a:>10.1f} {b:>8.1f} {a / b:>6.2f}")
each = (memory[ours, MOST] - memory[ours, 100]) / (MOST - 100)
print(f"memory of a timer of hr_timers: {each:.0f} bytes; the kernel's struct hrtimer has 64")

BASES, TIMERS = 64, 4096
lines = ["hrt 2", f"bases {BASES}", "lanes 1", "limit 1000000"]
lines += [f"raw {timer} monotonic once" for timer in range(TIMERS)]
lines += ["round"] + [f"0 start {timer} rel {100 + timer % 64} {timer % BASES}" for timer in range(TIMERS)]
lines += ["0 advance 200"] + [f"0 expire {base} 64" for base in range(BASES)]
script = "\n".join(lines) + "\n"
took = []
for _ in range(rounds):
    begin = time.monotonic()
    run = subprocess.run([hrt, "run"], input=script, capture_output=True, text=True)
    took.append(time.monotonic() - begin)
    if run.returncode != 0:
        sys.exit(f"status {run.returncode}: {run.stderr}")
print(f"a script with {TIMERS} timers on {BASES} bases, each started and expired once: {statistics.median(took) * 1000:.0f} ms")
PY
