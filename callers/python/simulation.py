"""The simulation of callers/c/simulation.c, from Python: simulation.py LIBRARY."""
import sys

from hrt import ABS, ARMED, BOOTTIME, CLAIMED, HARD, MONOTONIC, REALTIME, REL, SOFT, Answer, Declared, Time, Timers

TICK, WATCHDOG, DEADLINE = range(3)
LIBRARY = sys.argv[1]
timers = Timers(LIBRARY)


def at(ns):
    return Time(ns, 1000 + ns, ns)


def start(timer, mode, ns, slack, now):
    a = Answer()
    code = timers.start(timer, mode, ns, slack, 0, at(now), a)
    print(f"{now}: start {timer} = {code}, generation {a.generation}, expires {a.expires}")


def run(timer, now):
    """What the function of each timer does; answers whether it is to be armed again."""
    a = Answer()
    if timer == TICK:
        code = timers.forward(TICK, at(now), 100, a)
        print(f"{now}: forward = {code}, count {a.count}, expires {a.expires}")
        start(WATCHDOG, REL, 150, 20, now)
        return True
    if timer == DEADLINE:
        code = timers.cancel(TICK, a)
        print(f"{now}: cancel tick = {code}, generation {a.generation}")
        code = timers.cancel(DEADLINE, a)
        print(f"{now}: cancel itself = {code}, claim beside it = {timers.claim(SOFT, 0, at(now), a)}")
    return False


def expire(context, now):
    a = Answer()
    while timers.claim(context, 0, at(now), a) == CLAIMED:
        timer = a.timer
        print(f"{now}: claim {timer}, generation {a.generation}, base {a.base}, clock {a.clock}, soft {a.soft}, expires {a.expires}")
        code = timers.finish(timer, run(timer, now), a)
        print(f"{now}: finish {timer} = {code}, number {a.number}")


def run_all():
    """Sleeps from one expiry to the next, until no timer is armed."""
    now, code, a = 0, ARMED, Answer()
    while code == ARMED:
        now += a.wait
        expire(HARD, now)
        expire(SOFT, now)
        code = timers.next(0, at(now), a)
        print(f"{now}: next = {code}, wait {a.wait}")


def one_entry():
    """A timer that takes one entry, and takes no other."""
    one, a = Timers(LIBRARY), Answer()
    codes = [one.open(1, [Declared(BOOTTIME, HARD)], 1)]
    codes += [one.start(0, REL, 5, 0, 0, at(0), a) for _ in range(2)]
    print("one entry:", *codes)
    one.free()


declared = [Declared(MONOTONIC, HARD), Declared(MONOTONIC, HARD), Declared(REALTIME, SOFT)]
print(f"new = {timers.open(1, declared, 1000)}")
start(TICK, REL, 100, 0, 0)
start(DEADLINE, ABS, 1360, 0, 0)
run_all()
a = Answer()
for timer in range(3):
    timers.peek(timer, a)
    print(f"peek {timer}: armed {a.armed}, running {a.running}, number {a.number}, expires {a.expires}")
one_entry()
print(f"free = {timers.free()}")
