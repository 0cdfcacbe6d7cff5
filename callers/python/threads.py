"""Four threads share timers, each with a seat and a base of its own: threads.py LIBRARY. Each starts and cancels timers on all bases, and runs the functions
of its own base. Each notes what its calls tell. The notes, sorted by the number of the entry, show at the end that no entry was lost, and that each arming
ended once, by a claim, a cancel or a later start, or stands."""
import random
import sys
import time
from concurrent.futures import ThreadPoolExecutor

from hrt import AGAIN, CANCELLED, CLAIMED, DONE, HARD, MAX_EVENTS, MONOTONIC, REL, Declared, Seat, SharedAnswer, Time

THREADS, TIMERS, ROUNDS = 4, 16, 2000


def now():
    return Time(mono=time.monotonic_ns())


def need(holds, what):
    if not holds:
        raise RuntimeError(what)


def note(kind, a):
    return a.timer, a.number, kind, a.generation, a.armed, a.moved


def start(seat, pick):
    a = SharedAnswer()
    timer, ns, base = pick(TIMERS), pick(300000), pick(THREADS)
    need(seat.start(timer, REL, ns, 0, base, now(), a) == DONE, "a start")
    return [note("start", a)]


def cancel(seat, pick):
    a = SharedAnswer()
    code = seat.cancel(pick(TIMERS), a)
    need(code >= 0, "a cancel")
    return [note("cancel", a)] if code == CANCELLED else []


def expire(seat, base):
    """Runs the functions that may run now: each third timer goes on by 10 us, if no start came in meanwhile."""
    a, t, notes = SharedAnswer(), now(), []
    while seat.claim(HARD, base, t, a) == CLAIMED:
        timer, again = a.timer, False
        notes.append(note("claim", a))
        if timer % 3 == 0:
            again = seat.forward(timer, t, 10000, a) == DONE
            if again:
                notes.append(note("forward", a))
        code = seat.finish(timer, again, a)
        need(code in (DONE, AGAIN), "a finish")
        notes.append(note("restart" if code == AGAIN else "finish", a))
    return notes


def live(seat, base):
    notes, pick = [], random.Random(base).randrange
    for _ in range(ROUNDS):
        notes += start(seat, pick) if pick(3) else cancel(seat, pick)
        need(seat.next(base, now(), SharedAnswer()) >= 0, "a next")
        notes += expire(seat, base)
    return notes


def left_by(notes):
    """How many entries a timer took, and the generation that is armed after them, or 0: each fits what came before."""
    entries, armed = 0, 0
    for _, number, kind, generation, was_armed, moved in notes:
        entries += 1 + moved  # one more by which it left its base
        need(number == entries, "an entry was lost, or told twice")
        if kind == "start":
            need(was_armed == (armed > 0), "a start of another state")
            armed = generation
        elif kind == "restart":
            need(not armed, "a restart of an armed timer")
            armed = generation
        elif kind in ("claim", "cancel"):
            need(armed == generation, f"a {kind} of another start")
            armed = 0
    return entries, armed


seats = [Seat(sys.argv[1]) for _ in range(THREADS)]
need(seats[0].open(THREADS, [Declared(MONOTONIC, HARD)] * TIMERS, MAX_EVENTS) == DONE, "an open")
need(all(seats[0].split(seat) == DONE for seat in seats[1:]), "a split")
with ThreadPoolExecutor(THREADS) as pool:
    notes = sorted(it for told in pool.map(live, seats, range(THREADS)) for it in told)
need({it[2] for it in notes} == {"start", "cancel", "claim", "forward", "finish", "restart"}, "a call that never came to anything")
for timer in range(TIMERS):
    a = SharedAnswer()
    need(seats[0].peek(timer, a) == DONE and not a.running and not a.moving, "a timer isn't at rest")
    entries, armed = left_by([it for it in notes if it[0] == timer])
    need(a.number == entries and a.armed == (armed > 0), "a timer isn't left as its entries say")
need(all(seat.leave() == DONE for seat in seats), "a leave")
print("each start was claimed, cancelled or started over once, or is armed")
