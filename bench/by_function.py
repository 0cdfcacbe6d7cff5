#!/usr/bin/env python3
"""Prints how many instructions the functions of a program take a pair of calls, by callgrind: what the program counts up to the LINE-th line that it
prints, less what it counts up to the line before, over PAIRS pairs. Each run is ended when its line is there. Outside the gate; it wants valgrind.

    bench/by_function.py PROGRAM LINE PAIRS [the program's words]"""
import collections
import os
import re
import signal
import subprocess
import sys
import tempfile

FUNCTION = re.compile(r"\s*([\d,]+) \(\s*[\d.]+%\)\s+[^:]+:(.*?)(?: \[[^]]*\])?$")
# What takes less a pair isn't printed.
LEAST = 3


def counts(words, line):
    """Each function's instructions up to a line; up to none, nothing."""
    found = collections.Counter()
    if not line:
        return found
    with tempfile.TemporaryDirectory() as room:
        out = os.path.join(room, "out")
        under = ["stdbuf", "-oL", "valgrind", "--tool=callgrind", f"--callgrind-out-file={out}", *words]
        run = subprocess.Popen(under, stdout=subprocess.PIPE, stderr=subprocess.DEVNULL, text=True)
        for _ in range(line):
            last = run.stdout.readline()
        run.send_signal(signal.SIGTERM)
        run.wait()
        print(last.strip(), file=sys.stderr)
        told = subprocess.run(["callgrind_annotate", "--threshold=100", out], stdout=subprocess.PIPE, text=True, check=True).stdout
    for one in filter(None, map(FUNCTION.match, told.splitlines())):
        found[one[2]] += int(one[1].replace(",", ""))
    return found


def main():
    program, line, pairs, *words = sys.argv[1:]
    before, after = (counts([program, *words], int(line) - less) for less in (1, 0))
    after.subtract(before)
    for name, count in after.most_common():
        if count >= LEAST * int(pairs):
            print(f"{count / int(pairs):8.1f} {name}")
    print(f"{sum(after.values()) / int(pairs):8.1f} all")


sys.exit(main())
