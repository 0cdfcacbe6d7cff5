"""The model with lanes beside each other: each call goes step by step, as far as one lock or one load lets it, and between two steps any other lane may go on.
So its records have races that threads come to rarely. With a fault let in, some of its records are wrong."""
import objects
import timers
from objects import NOT_ASKED, POSIX, Accept, Gettime, Interrupt, Read, Settime, Sleep, Trigger
from timers import Claim, Finish, Forward, Out, Start
from world import LAST_STANDING, World

# What a model may do wrong now and then.
FAULTS = {
    "claim": "a run claims another timer than the next one",
    "done": "a run is done too early",
    "reading": "a call reads an older clock",
    "look": "a look at an object takes no lock",
    "signal": "a wait takes the newest signal",
    "turn": "an object's lock is let go before its entry",
    "heir": "a start takes a base off line for one on line",
    "leave": "a base's lock is let go before a timer leaves it",
}


class Interleaved(World):
    def __init__(self, script, random, fault=None):
        super().__init__(script)
        self.random, self.fault = random, fault
        self.readings, self.locked = [self.reading], set()

    def run(self):
        for number in range(self.script.rounds + 1):
            lanes = [self.lane([call for call in calls if call.round == number]) for calls in self.script.calls]
            while lanes:
                lane = self.random.choice(lanes)
                # Some go on for a while, as threads do.
                for _ in range(self.random.choice([1, 1, 2, 5])):
                    if lane in lanes and next(lane, "ended") == "ended":
                        lanes.remove(lane)
        return self.record

    def lane(self, calls):
        """A lane's calls. Whatever it waits for, its label is set again when it goes on."""
        for call in calls:
            steps = getattr(self, "steps_" + call.verb)(**call.args)
            answer = None
            while answer is None:
                self.label = call.lane, call.index
                try:
                    next(steps)
                except StopIteration as ended:
                    answer = ended.value
                    self.record.answers[call.lane][call.index] = answer
                yield

    def goes_wrong(self, fault):
        return self.fault == fault and self.random.random() < 0.3

    def read(self):
        return self.random.choice(self.readings) if self.goes_wrong("reading") else self.reading

    # ---- timers

    def steps_start(self, I, MODE, NS, B, SLACK=0):
        reading = self.read()
        yield
        started = yield from self.starting(I, MODE, NS, SLACK, B, reading)
        return f"started {started[0]} {self.timers[I].base} {int(started[1])}" if started else f"spent {self.stamp_of(I)}"

    steps_startrange = steps_start

    def starting(self, timer, mode, ns, slack, base, reading):
        """A start: it follows heirs, takes the lock of the timer's base, and where it moves the timer, that of the other base. The answer comes with its last
        step."""
        while self.heirs[base] is not None and not self.goes_wrong("heir"):
            base = self.heirs[base]
            yield
        while self.timers[timer].moving:
            yield
        if self.is_spent(timer):
            return None
        state, was_armed = self.timers[timer], self.timers[timer].armed is not None
        if self.heirs[state.base] is not None and state.base == base:
            base = self.heirs[base]
        if state.running is None and state.base != base:
            self.enter(timer, Out(base))
            yield
            while self.heirs[base] is not None:
                base = self.heirs[base]
                self.enter(timer, Out(base))
                yield
        self.enter(timer, Start(mode, ns, slack, reading, base))
        return self.stamp_of(timer), was_armed

    def steps_cancel(self, I):
        yield
        while self.timers[I].moving:
            yield
        return self.call_cancel(I)

    def steps_peek(self, I):
        yield
        seen = self.call_peek(I)
        return seen[:-1] + str(int(self.timers[I].moving))

    # ---- the clock

    def writing(self, verb, number):
        yield
        answer = self.write(verb, number)
        if self.readings[-1] != self.reading:
            self.readings.append(self.reading)
        return answer

    def steps_advance(self, D):
        return self.writing("advance", D)

    def steps_set(self, D):
        return self.writing("set", D)

    def steps_suspend(self, D):
        return self.writing("suspend", D)

    # ---- expiry runs

    def claimable(self, base, soft, reading):
        """The timer that is next, or by a fault another one that is due."""
        if self.goes_wrong("claim"):
            due = [t for t in range(len(self.timers)) if self.is_soft(t) == soft and self.timers[t].is_due(base, reading) and self.timers[t].running is None]
            return self.random.choice(due) if due else None
        return None if self.goes_wrong("done") else self.next_of(base, soft, reading)

    def steps_expire(self, B, N, soft=False):
        reading, fired = self.read(), []
        yield
        last, busy = "more", ()
        while len(fired) < N:
            if self.running[B, soft] is not None:
                last, busy = "busy", self.running[B, soft]
                break
            timer = self.claimable(B, soft, reading)
            if timer is None:
                last = "done"
                break
            generation = self.enter(timer, Claim(B, reading))
            fired.append(timer)
            yield
            restart = yield from self.calling(timer, generation, reading)
            self.enter(timer, Finish(restart))
            yield
        return " ".join(map(str, (last, len(fired), reading.stamp, *busy, *fired)))

    def steps_softexpire(self, B, N):
        return self.steps_expire(B, N, True)

    def calling(self, timer, generation, reading):
        """A timer's function, and whether it asks for a restart."""
        declared = self.script.declarations[timer]
        if declared.is_object():
            yield from self.triggering(timer, Trigger(generation, reading))
        elif declared.callback == "every":
            if self.is_spent(timer):
                self.look(timer, "spent")
            elif self.timers[timer].armed is not None:
                self.look(timer, "armed", self.timers[timer].armed)
            else:
                self.enter(timer, Forward(reading, declared.number))
        elif declared.callback == "cancels":
            self.look(timer, *self.cancel(timer)[:2])
        elif declared.callback == "starts":
            if (yield from self.starting(timer, "rel", declared.number, 0, declared.base, reading)) is None:
                self.look(timer, "spent")
        yield
        return declared.callback in ("every", "starts")

    # ---- objects

    def locking(self, number):
        while number in self.locked:
            yield
        self.locked.add(number)

    def triggering(self, number, call):
        yield from self.locking(number)
        if self.object_stamp(number) >= self.limit:
            self.trigger(number, call)
        else:
            sent = self.sent(number, call)
            yield
            self.enter_object(number, "trigger", sent, call.generation)
        self.locked.discard(number)

    def making(self, number, verb, call, *arguments, cancels=False, signal=None):
        """A call that makes an entry of an object, under the object's lock; one that waited for a signal accepts that one alone."""
        yield
        while True:
            yield from self.locking(number)
            refused = self.unaccepted(number, signal) if signal else self.refusal(number, call)
            if refused:
                self.locked.discard(number)
                return refused
            yield
            while cancels and self.timers[number].moving:
                yield
            if not cancels or self.cancel(number)[0] != "running":
                break
            self.locked.discard(number)
            yield
        if self.goes_wrong("turn"):
            self.locked.discard(number)
        yield
        arm, wanted = NOT_ASKED, objects.wants(self.objects[number], call)
        if wanted is not None:
            started = yield from self.starting(number, *wanted, 0, self.objects[number].base, call.reading)
            arm = ("armed", started[0]) if started else ("unarmed", self.stamp_of(number))
        yield
        answer = self.enter_object(number, verb, call, *arguments, arm=arm)
        self.locked.discard(number)
        return answer

    def steps_settime(self, I, F, VS, VN, IS, IN):
        reading = self.read()
        yield
        if objects.is_bad(self.objects[I].kind, F, VN, IN):
            return "einval"
        value, interval = timers.nanoseconds(VS, VN), timers.nanoseconds(IS, IN)
        return (yield from self.making(I, "settime", Settime(F, value, interval, reading), F, value, interval, cancels=True))

    def steps_gettime(self, I):
        reading = self.read()
        if self.objects[I].kind in POSIX:
            return (yield from self.seeing(I, lambda it, stamp: f"left {it.left(reading)} {it.interval} {reading.stamp} {stamp}"))
        answer = yield from self.making(I, "gettime", Gettime(reading))
        return answer if answer.startswith("spent") else f"left {answer}"

    def steps_accept(self, I):
        return self.making(I, "accept", Accept(self.read()))

    def steps_read(self, I, LEN):
        reading = self.read()
        yield
        return "einval" if LEN < 8 else (yield from self.making(I, "read", Read(reading)))

    def seeing(self, number, answer):
        """A look at an object, which waits for its lock."""
        yield
        while number in self.locked and not self.goes_wrong("look"):
            yield
        return answer(self.objects[number], self.object_stamp(number))

    def steps_overrun(self, I):
        return self.seeing(I, lambda it, stamp: f"overrun {it.overrun} {stamp}")

    def steps_readable(self, I):
        reading = self.read()
        return self.seeing(I, lambda it, stamp: f"readable {int(it.is_readable(reading))} {reading.stamp} {stamp}")

    def steps_sleep(self, I, F, S, N):
        reading = self.read()
        yield
        if objects.is_bad_sleep(F, N):
            return "einval"
        time = timers.nanoseconds(S, N)
        return (yield from self.making(I, "sleep", Sleep(F, time, reading), F, time, cancels=True))

    def steps_interrupt(self, I):
        return self.making(I, "interrupt", Interrupt(self.read()), cancels=True)

    def steps_slept(self, I):
        return self.seeing(I, lambda it, stamp: f"{it.slept()} {stamp}")

    # ---- signals

    def steps_sigwait(self):
        reading = self.read()
        yield
        if not self.signals:
            return "empty"
        number, signal = self.signals.pop(-1 if self.goes_wrong("signal") else 0)
        answer = yield from self.making(number, "accept", Accept(reading), signal=signal)
        return answer if answer.startswith(("spent", "stale")) else f"signal {number} {signal} {answer.split()[1]}"

    # ---- bases off line and on line

    def steps_offline(self, B, H, N):
        reading = self.reading
        yield
        if self.heirs[B] is not None or self.heirs[H] is not None or len(self.record.bases[B]) >= LAST_STANDING:
            return self.call_offline(B, H, N)
        moved = 0
        while True:
            runs = self.running[B, False] or self.running[B, True]
            timer = self.front_of(B)
            if runs:
                return f"busy {moved} {runs[0]} {runs[1]}"
            if timer is None:
                return f"off {moved} {self.shift(B, H, 'offline', H)}"
            if moved == N:
                return f"more {moved}"
            if self.stamp_of(timer) >= self.terms.limit + self.terms.reach:
                return f"spent {moved} {timer} {self.stamp_of(timer)}"
            if self.goes_wrong("leave"):
                yield
            kept = self.timers[timer]
            self.enter(timer, Out(H))
            yield
            self.enter(timer, Start("keep", kept.soft, kept.expires - kept.soft, reading, H))
            moved += 1
            yield

    def steps_online(self, B):
        yield
        return self.call_online(B)
