"""Times, the clock, and one timer: what each event needs, what it leaves, and what it answers."""
from typing import NamedTuple, Optional, Union

LAST_TIME = 2**63 - 1
CLOCK_MOST = 2**62
MOST_WRITES = 2**32
CLOCKS = ("monotonic", "realtime", "boottime")


class NotLegal(Exception):
    """An event whose needs don't hold. A run never comes to one; if it does, the model is wrong."""


def need(holds, what):
    if not holds:
        raise NotLegal(what)


# ---- times


def sat(time):
    """Every sum that makes an expiry stops at the end of time."""
    return min(time, LAST_TIME)


def nanoseconds(seconds, rest):
    return sat(seconds * 1000000000 + rest)


def passed(expires, now, interval):
    """How many of the instants expires, expires + interval, .. now has reached. An interval of 0 counts as 1."""
    return (now - expires) // max(interval, 1) + 1 if now >= expires else 0


def next_after(expires, now, interval):
    return sat(expires + passed(expires, now, interval) * max(interval, 1))


def effective_clock(declared, mode, present):
    """A relative timer on the real-time clock is kept on the monotonic one; a start that keeps its clock keeps it."""
    if mode == "keep":
        return present
    return "monotonic" if mode == "rel" and declared == "realtime" else declared


# ---- the clock


class Reading(NamedTuple):
    """How many writes the clock has taken, its three times, and how often real time was moved against monotonic time."""

    stamp: int = 0
    monotonic: int = 0
    realtime: int = 0
    boottime: int = 0
    changes: int = 0

    def of(self, clock):
        return getattr(self, clock)

    def latest(self):
        return max(self.monotonic, self.realtime, self.boottime)


def after_write(reading, verb, number):
    """The reading after a write, whether or not the clock takes it."""
    stamp, monotonic, realtime, boottime, changes = reading
    if verb == "advance":
        return Reading(stamp + 1, monotonic + number, realtime + number, boottime + number, changes)
    if verb == "set":
        return Reading(stamp + 1, monotonic, number, boottime, changes + (number != realtime))
    return Reading(stamp + 1, monotonic, realtime + number, boottime + number, changes + (number > 0))


# ---- one timer


class Terms(NamedTuple):
    """How many entries a timer may have, and how many more while it is armed and is moved off a base."""

    limit: int
    reach: int = 0


class Timer(NamedTuple):
    """A timer's state. `armed` and `running` are generations: numbers of the entries that armed it."""

    declared: str
    effective: str
    base: int = 0
    soft: int = 0
    expires: int = 0
    armed: Optional[int] = None
    running: Optional[int] = None
    moving: bool = False

    def is_due(self, base, reading):
        return self.armed is not None and self.base == base and self.soft <= reading.of(self.effective)


class Out(NamedTuple):
    to: int


class Start(NamedTuple):
    mode: str
    ns: int
    slack: int
    reading: Reading
    base: int


class Cancel(NamedTuple):
    pass


class Claim(NamedTuple):
    base: int
    reading: Reading


class Forward(NamedTuple):
    reading: Reading
    interval: int


class Finish(NamedTuple):
    restart: bool


Event = Union[Out, Start, Cancel, Claim, Forward, Finish]


def step(timer, stamp, terms, event):
    """The state after the event, and its answer. `stamp` is how many entries the timer has, `terms` how many it may have."""
    return STEPS[type(event)](timer, stamp, terms, event)


def may_send(timer, stamp, terms, to):
    """A timer on the move goes on only where it has a reach, to lower bases; an armed one is sent past the limit within its reach."""
    if timer.moving:
        return terms.reach > 0 and to < timer.base
    return stamp < terms.limit + (terms.reach if timer.armed is not None else 0)


def out(timer, stamp, terms, event):
    need(timer.running is None, "a timer whose function runs is not taken to another base")
    need(event.to != timer.base and may_send(timer, stamp, terms, event.to), "it is taken to another base, with room")
    return timer._replace(base=event.to, armed=None, moving=True), timer.armed is not None


def start(timer, stamp, terms, event):
    need(timer.running is not None or event.base == timer.base, "a timer is started where it stands")
    need(stamp < terms.limit or timer.moving, "a start has room")
    clock = effective_clock(timer.declared, event.mode, timer.effective)
    soft = sat(event.ns + (event.reading.of(clock) if event.mode == "rel" else 0))
    after = timer._replace(effective=clock, soft=soft, expires=sat(soft + event.slack), armed=stamp + 1, moving=False)
    return after, timer.armed is not None


def cancel(timer, stamp, terms, event):
    need(timer.armed is not None and timer.running is None and not timer.moving, "only an armed timer at rest is cancelled")
    return timer._replace(armed=None), timer.armed


def claim(timer, stamp, terms, event):
    need(timer.is_due(event.base, event.reading), "only a due timer is claimed")
    need(timer.running is None and not timer.moving, "only a timer at rest is claimed")
    return timer._replace(armed=None, running=timer.armed), timer.armed


def forward(timer, stamp, terms, event):
    need(timer.running is not None and timer.armed is None and stamp < terms.limit, "a running timer that isn't armed is forwarded")
    periods = passed(timer.expires, event.reading.of(timer.effective), event.interval)
    by = periods * max(event.interval, 1)
    return timer._replace(soft=sat(timer.soft + by), expires=sat(timer.expires + by)), periods


def finish(timer, stamp, terms, event):
    need(timer.running is not None, "only a running timer finishes")
    armed, outcome = timer.armed, "none"
    if event.restart and armed is None:
        outcome = stamp + 1 if stamp < terms.limit else "spent"
        armed = stamp + 1 if stamp < terms.limit else None
    return timer._replace(running=None, armed=armed), (timer.running, outcome)


STEPS = {Out: out, Start: start, Cancel: cancel, Claim: claim, Forward: forward, Finish: finish}


# ---- a queue: pairs of an expiry and a timer


def put(queue, expires, timer):
    """A pair goes before the first one of a later expiry, so equal expiries leave in the order in which they came."""
    place = next((at for at, pair in enumerate(queue) if pair[0] > expires), len(queue))
    queue.insert(place, (expires, timer))
