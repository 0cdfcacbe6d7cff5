#!/usr/bin/env bash
# Makes a script of 65536 calls (start, advance, expire, cancel, peek in turn), runs it with the program that is handed in
# (default: the proved one that `rt run` left in crates/hrt_app/out), and prints the time a call. Outside the gate.
set -eu
top=$(cd "$(dirname "$0")/.." && pwd)
program=${1:-$top/crates/hrt_app/out/hrt_app}
script=$(mktemp)
record=$(mktemp)
trap 'rm -f "$script" "$record"' EXIT
python3 - > "$script" <<'PY'
calls = ["start 0 rel 100 0", "advance 100", "expire 0 4", "cancel 0", "peek 0"]
print("hrt 1\nbases 1\nlanes 1\nlimit 1000000\nraw 0 monotonic once\nround")
for number in range(65536):
    print("0", calls[number % len(calls)])
PY
python3 - "$program" "$script" "$record" <<'PY'
import subprocess, sys, time
program, script, record = sys.argv[1:]
best = None
for _ in range(5):
    with open(script, "rb") as source, open(record, "wb") as sink:
        begun = time.perf_counter()
        status = subprocess.run([program, "run"], stdin=source, stdout=sink).returncode
        taken = time.perf_counter() - begun
    best = taken if best is None else min(best, taken)
print(f"status {status}, {best:.3f} s for 65536 calls, {best / 65536 * 1e9:.0f} ns a call (best of 5)")
PY
