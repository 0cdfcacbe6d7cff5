#!/usr/bin/env bash
# Records a trace of this machine's timers under a load of sleeps, timer descriptors and POSIX timers, and checks it by hrt_check; then one by trace-cmd
# and one by perf, where these can record. Prints the answers. Needs root and tracefs. Where it can't record it says so, and checks the recorded trace of bench/traces alone.
#
# usage: bench/trace.sh [SECONDS]
set -u
cd "$(dirname "$0")/.." || exit 1
seconds=${1:-5}
folder=$(mktemp -d) || exit 1
trap 'rm -rf "$folder"' EXIT

check() {
    echo "$1:"
    bin/hrt check --summary "$2"
    echo "status $?"
}

# The events of a trace but for those of timers that expire more than once and are never started in it: a recorder that leaves out a task's events
# leaves out the starts of its timers.
without_untold() {
    awk '
        match($0, /hrtimer=[0-9a-fx]+/) { timer = substr($0, RSTART, RLENGTH) }
        FNR == NR { if (/hrtimer_expire_entry:/) expiries[timer]++; if (/hrtimer_start:/) starts[timer]++; next }
        /hrtimer_[a-z_]+:/ && expiries[timer] > 1 && !starts[timer] { left[timer]; next }
        { print }
        END { for (timer in left) print "left out, since its starts are not told: " timer > "/dev/stderr" }' "$1" "$1"
}

# Sleeps, timer descriptors that are set anew, and POSIX timers, on four threads.
load() {
    timeout "$seconds" python3 - <<'PY'
import ctypes, os, select, signal, threading, time
libc = ctypes.CDLL(None, use_errno=True)
class Spec(ctypes.Structure):
    _fields_ = [(n, ctypes.c_long) for n in ("is_", "in_", "vs", "vn")]
def work(k):
    fd = libc.timerfd_create(k % 2, 0o4000)
    while True:
        libc.timerfd_settime(fd, 0, ctypes.byref(Spec(0, 300000 * (k + 1), 0, 200000)), None)
        time.sleep(0.0003 * (k + 1))
        select.select([fd], [], [], 0.002)
        libc.timerfd_settime(fd, 0, ctypes.byref(Spec(0, 0, 0, 0)), None)
signal.signal(signal.SIGALRM, lambda *_: None)
signal.setitimer(signal.ITIMER_REAL, 0.003, 0.003)
for k in range(4):
    threading.Thread(target=work, args=(k,), daemon=True).start()
while True:
    time.sleep(0.01)
PY
}

gzip -dc bench/traces/four_processors.txt.gz > "$folder/recorded" && check "the recorded trace of four processors" "$folder/recorded"

tracing=/sys/kernel/tracing
[ -d $tracing/events/timer ] || tracing=/sys/kernel/debug/tracing
if [ "$(id -u)" != 0 ] || [ ! -d $tracing/events/timer ]; then
    echo "trace.sh: nothing recorded: that needs root and tracefs"
    exit 0
fi
instance=$tracing/instances/hrt_check
mkdir "$instance" || exit 1
trap 'echo 0 > "$instance/tracing_on"; rmdir "$instance"; rm -rf "$folder"' EXIT
echo 0 > "$instance/tracing_on"
echo mono > "$instance/trace_clock"
echo 32768 > "$instance/buffer_size_kb"
for event in "$instance"/events/timer/hrtimer_*; do echo 1 > "$event/enable"; done
echo 1 > "$instance/tracing_on"
load
echo 0 > "$instance/tracing_on"
without_untold "$instance/trace" > "$folder/trace"
check "this machine, by tracefs" "$folder/trace"
if command -v trace-cmd > /dev/null && trace-cmd record -q -C mono -o "$folder/trace.dat" -e 'timer:hrtimer_*' sleep 2 > /dev/null 2>&1; then
    trace-cmd report -i "$folder/trace.dat" > "$folder/report" 2> /dev/null
    without_untold "$folder/report" > "$folder/trace"
    check "this machine, by trace-cmd" "$folder/trace"
fi
if command -v perf > /dev/null && perf record -q -k mono -a -e 'timer:hrtimer_*' -o "$folder/perf.data" sleep 2 > /dev/null 2>&1; then
    perf script -i "$folder/perf.data" > "$folder/report" 2> /dev/null
    without_untold "$folder/report" > "$folder/trace"
    check "this machine, by perf" "$folder/trace"
fi
