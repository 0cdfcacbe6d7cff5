"""callers/c/seats.c, from Python: seats.py LIBRARY."""
import sys
from ctypes import byref

from hrt import BOOTTIME, HARD, MAX_SHARED, MONOTONIC, REL, SOFT, Declared, Seat, SharedAnswer, Time

one, two, none = (Seat(sys.argv[1]) for _ in range(3))
declared = [Declared(MONOTONIC, HARD), Declared(MONOTONIC, HARD), Declared(BOOTTIME, SOFT)]
a, t, later, late = SharedAnswer(), Time(100, 0, 0), Time(150, 0, 0), Time(0, 2**62 + 1, 0)
print(f"no timers: {one.leave()} {one.split(two)} {one.peek(0, a)} {one.next(0, t, a)}")
# Too many: the number is tested before any declaration is read.
count = one.hrt.hrt_shared_open(byref(one.handle), 2, (Declared * 3)(*declared), MAX_SHARED + 1, 9)
print(f"bases: {one.open(0, declared, 9)}, count: {count}, limit: {one.open(2, declared, 0)}")
print(f"open: {one.open(2, declared, 9)} {one.open(2, declared, 9)}")
print(f"split: {one.split(two)} {one.split(two)} {none.split(two)}")
for seat, timer, ns, slack in ((one, 0, 20, 5), (two, 1, 40, 0)):
    print(f"start: {seat.start(timer, REL, ns, slack, 0, t, a)}, expires {a.expires}, moved {a.moved}, first {a.first}")
code = two.start(1, REL, 40, 0, 1, t, a)
print(f"start: {code}, base {a.base}, armed {a.armed}, moved {a.moved}, first {a.first}, number {a.number}")
print(f"next: {one.next(1, t, a)}, wait {a.wait}; cancel: {one.cancel(1, a)}; next: {one.next(1, t, a)}")
print(f"bad: {one.start(3, 0, 0, 0, 0, t, a)} {one.start(0, 0, 0, 0, 2, t, a)} {one.start(0, 3, 0, 0, 0, t, a)} {one.start(0, 0, 0, 0, 0, late, a)}")
print(f"claim: {one.claim(HARD, 0, later, a)}, timer {a.timer}, number {a.number}", end="")
print(f"; a second one: {one.claim(HARD, 1, later, a)}, busy: {two.claim(HARD, 0, later, a)}")
print(f"its seat's: {two.finish(0, False, a)} {one.finish(1, False, a)} {one.leave()} {two.cancel(0, a)}")
print(f"forward: {one.forward(0, later, 50, a)}, count {a.count}, soft {a.soft}")
print(f"finish: {one.finish(0, True, a)} {one.finish(0, True, a)}")
print(f"peek: {two.peek(0, a)}, armed {a.armed}, running {a.running}, moving {a.moving}, number {a.number}")
print(f"leave: {one.leave()} {two.leave()} {two.leave()}")
