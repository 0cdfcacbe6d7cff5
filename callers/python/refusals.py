"""callers/c/refusals.c, from Python: refusals.py LIBRARY."""
import sys

from hrt import HARD, MAX_BASES, MAX_EVENTS, MONOTONIC, REALTIME, REL, SOFT, Answer, Declared, Time, Timers

timers, none = Timers(sys.argv[1]), Timers(sys.argv[1])
declared = [Declared(MONOTONIC, HARD), Declared(REALTIME, SOFT)]
a, t, late = Answer(count=77), Time(0, 0, 0), Time(0, 2**62 + 1, 0)
print(f"new: {timers.open(1, declared, 1000)}")
print(f"in use: {timers.open(1, declared, 100)}")
print(f"bases: {none.open(0, declared, 100)} {none.open(MAX_BASES + 1, declared, 100)}")
print(f"limit: {none.open(1, declared, 0)} {none.open(1, declared, MAX_EVENTS + 1)}")
print(f"clock: {none.open(1, [Declared(2, 0)], 100)}, context: {none.open(1, [Declared(1, 2)], 100)}")
print(f"still none: {int(none.handle.at is None)}")
print(f"no timers: {none.peek(0, a)} {none.next(0, t, a)}")
print(f"timer: {timers.start(2, REL, 1, 0, 0, t, a)}")
print(f"base: {timers.start(0, REL, 1, 0, 1, t, a)} {timers.next(1, t, a)}")
print(f"mode: {timers.start(0, 3, 1, 0, 0, t, a)}")
print(f"time: {timers.start(0, REL, 1, 0, 0, late, a)} {timers.next(0, late, a)}")
print(f"context: {timers.claim(2, 0, t, a)}")
print(f"not running: {timers.forward(0, t, 1, a)} {timers.finish(0, False, a)}")
print(f"untouched: {a.count}")
print(f"free: {timers.free()} {timers.free()}")
