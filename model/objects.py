"""POSIX timers, queued ones too, timer descriptors and sleepers: each a state over its timer, the start that a call wants, and the call's step."""
from typing import NamedTuple, Optional, Tuple

from timers import Reading, effective_clock, need, next_after, passed, sat

OVERRUN_MOST = 2147483647
COUNT_MOST = 2**64 - 1
NSEC_MOST = 999999999

# The kinds whose calls are those of a POSIX timer.
POSIX = ("posix", "queued")

IDLE = ("idle",)
# What became of the start that a call wanted: none was, it armed this generation, or the timer's limit refused it.
NOT_ASKED = ("none",)


class Settime(NamedTuple):
    flags: int
    value: int
    interval: int
    reading: Reading


class Trigger(NamedTuple):
    """An expiry. Where a queued timer counts it, `number` is that of its entry."""

    generation: int
    reading: Reading
    number: int = 0


class Overflow(NamedTuple):
    """An expiry of a queued timer that would count, when the queue of signals has no room."""

    generation: int
    reading: Reading


class Accept(NamedTuple):
    reading: Reading


class Read(NamedTuple):
    reading: Reading


class Gettime(NamedTuple):
    reading: Reading


class Sleep(NamedTuple):
    flags: int
    value: int
    reading: Reading


class Interrupt(NamedTuple):
    reading: Reading


class Object(NamedTuple):
    """The state of an object. A phase is idle, armed (generation, clock, expiry) or expired (clock, expiry). A sleeper is free, in a relative or an absolute
    sleep, or woken; its timer is armed exactly while it sleeps. The signal is that of a queued timer's last expiry that counted, by its entry's number."""

    kind: str
    clock: str
    base: int
    interval: int = 0
    phase: tuple = IDLE
    pending: bool = False
    overrun: int = 0
    count: int = 0
    cancelable: bool = False
    seen: int = 0
    sleep: str = "free"
    signal: int = 0

    def was_canceled(self, reading):
        """A descriptor's setting with both flags is canceled by a later change of the real offset."""
        return self.cancelable and reading.changes > self.seen

    def is_readable(self, reading):
        return self.count != 0 or self.was_canceled(reading)

    def is_fresh(self, signal):
        """Whether a queued timer's signal is still the one that is pending."""
        return self.pending and self.signal == signal

    def left(self, reading):
        """The time left. An armed POSIX timer that is overdue has 1 ns left, a descriptor and a sleeper none."""
        if self.phase == IDLE:
            return 0
        clock, expires = self.phase[-2:]
        now = reading.of(clock)
        if self.phase[0] == "expired":
            return next_after(expires, now, self.interval) - now
        return expires - now if now < expires else int(self.kind in POSIX)

    def slept(self):
        """What a look at a sleeper is answered."""
        return {"free": "awake", "woken": "done"}.get(self.sleep, "sleeping")


def is_bad(kind, flags, value_rest, interval_rest):
    """Whether a settime has flags or times that its kind doesn't take."""
    most = 1 if kind in POSIX else 3
    return flags > most or value_rest > NSEC_MOST or interval_rest > NSEC_MOST


def is_bad_sleep(flags, rest):
    return flags > 1 or rest > NSEC_MOST


def refusal(state: Object, call):
    """The word that refuses a call on a sleeper whose history has room: only a free one falls asleep, and only one that isn't is interrupted."""
    if isinstance(call, Sleep) and state.sleep != "free":
        return "occupied"
    return "awake" if isinstance(call, Interrupt) and state.sleep == "free" else None


def setting(state: Object, call):
    """The clock and the expiry that a settime or a sleep sets."""
    if call.flags & 1:
        return state.clock, call.value
    clock = effective_clock(state.clock, "rel", state.clock)
    return clock, sat(call.reading.of(clock) + call.value)


def has_come(state: Object, call):
    """Whether a sleep's time has come when it is asked for."""
    clock, expires = setting(state, call)
    return expires <= call.reading.of(clock)


def wants(state: Object, call) -> Optional[Tuple[str, int]]:
    """The start that a call wants of the object's timer: its mode and time."""
    if isinstance(call, (Settime, Sleep)):
        is_wanted = call.value > 0 if isinstance(call, Settime) else not has_come(state, call)
        return ("abs" if call.flags & 1 else "rel", call.value) if is_wanted else None
    if state.phase[0] != "expired" or isinstance(call, (Trigger, Overflow)):
        return None
    if isinstance(call, Accept) and not state.pending or isinstance(call, Read) and state.was_canceled(call.reading):
        return None
    clock, expires = state.phase[-2:]
    return "keep", next_after(expires, call.reading.of(clock), state.interval)


def step(state: Object, call, arm=NOT_ASKED):
    """The state after the call, and its answer in the record's words."""
    need((arm == NOT_ASKED) == (wants(state, call) is None), "a start is made exactly where one is wanted")
    return STEPS[state.kind, type(call)](state, call, arm)


def words_of(verb, arguments, call, arm, answer):
    """The words of an object's entry. An expiry and an interrupt start nothing, so nothing of a start stands there."""
    armed = () if isinstance(call, (Trigger, Overflow, Interrupt)) else (arm[1] if arm[0] == "armed" else arm[0],)
    return (verb, *arguments, call.reading.stamp, *armed, answer)


def phase_set(state, call, arm):
    """The phase of a new setting."""
    return ("armed", arm[1], *setting(state, call)) if arm[0] == "armed" else IDLE


def phase_again(state, call, arm):
    """The phase of an expired object whose timer was started again, and the periods that passed."""
    clock, expires = state.phase[-2:]
    now = call.reading.of(clock)
    again = ("armed", arm[1], clock, next_after(expires, now, state.interval)) if arm[0] == "armed" else IDLE
    return again, passed(expires, now, state.interval)


def counts(state, call):
    """Whether a trigger is of the object's setting, which a move of its timer may have given a later generation, and its time has come."""
    armed = state.phase[0] == "armed" and state.phase[1] <= call.generation
    return armed and call.reading.of(state.phase[2]) >= state.phase[3]


def phase_triggered(state):
    return ("expired", *state.phase[2:]) if state.interval else IDLE


# ---- POSIX timers


def posix_settime(state, call, arm):
    phase = phase_set(state, call, arm)
    answer = f"unarmed {arm[1]}" if arm[0] == "unarmed" else f"old {state.left(call.reading)} {state.interval}"
    return state._replace(phase=phase, interval=0 if phase == IDLE else call.interval, pending=False, overrun=0), answer


def posix_trigger(state, call, arm):
    if not counts(state, call):
        return state, "stale"
    return state._replace(phase=phase_triggered(state), pending=True), "counted"


def posix_accept(state, call, arm):
    if not state.pending:
        return state, "nosignal"
    if state.phase[0] != "expired":
        return state._replace(pending=False, overrun=0), "accepted 0"
    phase, periods = phase_again(state, call, arm)
    overrun = min(max(periods - 1, 0), OVERRUN_MOST)
    interval = 0 if phase == IDLE else state.interval
    return state._replace(phase=phase, interval=interval, pending=False, overrun=overrun), f"accepted {overrun}"


# ---- queued POSIX timers


def sends(state, call):
    """Whether an expiry has a signal to send."""
    return state.kind == "queued" and counts(state, call)


def queued_trigger(state, call, arm):
    after, answer = posix_trigger(state, call, arm)
    return after._replace(signal=call.number) if answer == "counted" else after, answer


def queued_overflow(state, call, arm):
    need(counts(state, call), "only an expiry that counts finds the queue full")
    return state._replace(phase=IDLE, interval=0, pending=False), "full"


# ---- descriptors


def fd_settime(state, call, arm):
    phase = phase_set(state, call, arm)
    cancelable = call.flags == 3 and state.clock == "realtime"
    after = state._replace(phase=phase, interval=call.interval, count=0, cancelable=cancelable, seen=call.reading.changes)
    if arm[0] == "unarmed":
        return after, f"unarmed {arm[1]}"
    if state.was_canceled(call.reading) and cancelable and arm[0] == "armed":
        return after, "canceled"
    return after, f"old {state.left(call.reading)} {state.interval}"


def fd_trigger(state, call, arm):
    if not counts(state, call):
        return state, "stale"
    return state._replace(phase=phase_triggered(state), count=min(state.count + 1, COUNT_MOST)), "counted"


def fd_total(state, call, arm):
    """The phase and the count of an expired descriptor that is read or asked for its time left."""
    phase, periods = phase_again(state, call, arm)
    return phase, min(state.count + periods - 1, COUNT_MOST)


def fd_read(state, call, arm):
    if state.was_canceled(call.reading):
        phase = IDLE if state.phase[0] == "expired" else state.phase
        return state._replace(phase=phase, count=0, seen=call.reading.changes), "canceled"
    if state.count == 0:
        return state, "again"
    phase, total = fd_total(state, call, arm) if state.phase[0] == "expired" else (state.phase, state.count)
    return state._replace(phase=phase, count=0), f"count {total}" if total else "again"


def fd_gettime(state, call, arm):
    after = state
    if state.phase[0] == "expired":
        phase, total = fd_total(state, call, arm)
        after = state._replace(phase=phase, count=total)
    return after, f"{after.left(call.reading)} {after.interval}"


# ---- sleepers


def sleeper_sleep(state, call, arm):
    need(state.sleep == "free", "only a free sleeper falls asleep")
    if arm[0] != "armed":
        return state, "done" if arm == NOT_ASKED else f"unarmed {arm[1]}"
    return state._replace(phase=phase_set(state, call, arm), sleep="absolute" if call.flags & 1 else "relative"), "asleep"


def sleeper_trigger(state, call, arm):
    if not counts(state, call):
        return state, "stale"
    return state._replace(phase=IDLE, sleep="woken"), "counted"


def sleeper_interrupt(state, call, arm):
    need(state.sleep != "free", "a free sleeper isn't interrupted")
    answer = {"woken": "done", "absolute": "interrupted", "relative": f"left {state.left(call.reading)}"}[state.sleep]
    return state._replace(phase=IDLE, sleep="free"), answer


STEPS = {
    ("posix", Settime): posix_settime,
    ("posix", Trigger): posix_trigger,
    ("posix", Accept): posix_accept,
    ("queued", Settime): posix_settime,
    ("queued", Trigger): queued_trigger,
    ("queued", Overflow): queued_overflow,
    ("queued", Accept): posix_accept,
    ("fd", Settime): fd_settime,
    ("fd", Trigger): fd_trigger,
    ("fd", Read): fd_read,
    ("fd", Gettime): fd_gettime,
    ("sleeper", Sleep): sleeper_sleep,
    ("sleeper", Trigger): sleeper_trigger,
    ("sleeper", Interrupt): sleeper_interrupt,
}
