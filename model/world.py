"""Runs a script on one thread: round by round, and in each round lane after lane."""
import objects
import timers
from objects import NOT_ASKED, POSIX, Accept, Gettime, Interrupt, Object, Overflow, Read, Settime, Sleep, Trigger
from record import Entry, Record, Seen
from timers import CLOCKS, MOST_WRITES, Cancel, Claim, Finish, Forward, Out, Reading, Start, Terms, Timer

# How many entries past the limit an armed timer may have that is moved off a base.
REACH = {1: 0, 2: 1024}
# A base with so many entries isn't taken off line any more.
LAST_STANDING = 65534
# How many signals of queued timers may wait.
ROOM = 64


class World:
    def __init__(self, script):
        self.script, self.limit = script, script.limit
        self.terms = Terms(script.limit, REACH[script.version])
        self.reading = Reading()
        declared = script.declarations
        self.timers = [Timer(it.clock, it.clock) for it in declared]
        self.objects = [Object(it.kind, it.clock, it.base) if it.is_object() else None for it in declared]
        contexts = [(base, soft) for base in range(script.bases) for soft in (False, True)]
        # The signals that wait, the oldest first: each its object and the number of its entry there.
        self.signals = []
        self.queues = {(*context, clock): [] for context in contexts for clock in CLOCKS}
        self.running = dict.fromkeys(contexts)
        self.heirs = [None] * script.bases
        self.record = Record(script.version, script.bases, len(declared), [len(calls) for calls in script.calls])
        self.label = None

    def run(self):
        rounds = [[] for _ in range(self.script.rounds + 1)]
        for calls in self.script.calls:
            for call in calls:
                rounds[call.round].append(call)
        for calls in rounds:
            for call in calls:
                self.label = call.lane, call.index
                self.record.answers[call.lane][call.index] = getattr(self, "call_" + call.verb)(**call.args)
        return self.record

    # ---- entries

    def stamp_of(self, timer):
        return len(self.record.timers[timer])

    def is_spent(self, timer):
        return self.stamp_of(timer) >= self.limit

    def is_soft(self, timer):
        return self.script.declarations[timer].kind == "soft"

    def enter(self, timer, event):
        """One entry of a timer: its step, its place in the queues, and its line."""
        old = self.timers[timer]
        new, answer = timers.step(old, self.stamp_of(timer), self.terms, event)
        self.timers[timer] = new
        soft = self.is_soft(timer)
        if new.armed != old.armed:
            if old.armed is not None:
                self.queues[old.base, soft, old.effective].remove((old.expires, timer))
            if new.armed is not None:
                timers.put(self.queues[new.base, soft, new.effective], new.expires, timer)
        if (new.running is None) != (old.running is None):
            self.running[new.base, soft] = None if new.running is None else (timer, new.running)
        words = self.words_of(event, new, answer)
        self.record.timers[timer].append(Entry(*self.label, words))
        return answer

    def words_of(self, event, new, answer):
        """An entry's words, in the text of the script's version."""
        wide = self.script.version == 2
        soft = (new.soft,) if wide else ()
        if isinstance(event, Out):
            return "out", event.to, int(answer)
        if isinstance(event, Start):
            slack = (event.slack,) if wide else ()
            placed = (new.base, new.effective, *soft, new.expires, int(answer))
            return "start", event.mode, event.ns, *slack, event.reading.stamp, event.base, *placed
        if isinstance(event, Cancel):
            return "cancel", answer
        if isinstance(event, Claim):
            return "claim", event.base, event.reading.stamp, answer
        if isinstance(event, Forward):
            return "forward", event.reading.stamp, event.interval, answer, *soft, new.expires
        return "finish", "again" if event.restart else "stop", *answer

    def look(self, timer, *words):
        self.record.looks[timer].append(Seen(self.stamp_of(timer), *self.label, words))

    # ---- calls of one timer

    def start(self, timer, mode, ns, slack, base, reading):
        """The generation that the timer is armed with, and whether it was armed before; None where its limit refuses."""
        if self.is_spent(timer):
            return None
        while self.heirs[base] is not None:
            base = self.heirs[base]
        was_armed = self.timers[timer].armed is not None
        if self.timers[timer].running is None and self.timers[timer].base != base:
            self.enter(timer, Out(base))
        self.enter(timer, Start(mode, ns, slack, reading, base))
        return self.stamp_of(timer), was_armed

    def cancel(self, timer):
        state = self.timers[timer]
        if state.running is not None:
            return "running", state.running, self.stamp_of(timer)
        if state.armed is not None:
            return "cancelled", self.enter(timer, Cancel())
        return "idle", self.stamp_of(timer)

    def call_start(self, I, MODE, NS, B, SLACK=0):
        started = self.start(I, MODE, NS, SLACK, B, self.reading)
        if started is None:
            return f"spent {self.stamp_of(I)}"
        return f"started {started[0]} {self.timers[I].base} {int(started[1])}"

    call_startrange = call_start

    def call_cancel(self, I):
        return " ".join(str(word) for word in self.cancel(I))

    def call_peek(self, I):
        state = self.timers[I]
        return f"peek {self.stamp_of(I)} {state.base} {int(state.armed is not None)} {int(state.running is not None)} 0"

    # ---- bases off line and on line

    def shift(self, base, heir, *words):
        """One entry of a base: its heir from now on, none where it is on line. How many entries the base has then."""
        self.heirs[base] = heir
        self.record.bases[base].append(Entry(*self.label, words))
        return len(self.record.bases[base])

    def front_of(self, base):
        """The first timer of the base's first queue that isn't empty, the hard context's before the soft one's."""
        queues = [self.queues[base, soft, clock] for soft in (False, True) for clock in CLOCKS]
        return next((queue[0][1] for queue in queues if queue), None)

    def call_offline(self, B, H, N):
        if self.heirs[B] is not None:
            return f"already {len(self.record.bases[B])}"
        if self.heirs[H] is not None:
            return f"heiroff {len(self.record.bases[H])}"
        if len(self.record.bases[B]) >= LAST_STANDING:
            return f"basespent {len(self.record.bases[B])}"
        moved = 0
        while (timer := self.front_of(B)) is not None:
            if moved == N:
                return f"more {moved}"
            if self.stamp_of(timer) >= self.terms.limit + self.terms.reach:
                return f"spent {moved} {timer} {self.stamp_of(timer)}"
            kept = self.timers[timer]
            self.enter(timer, Out(H))
            self.enter(timer, Start("keep", kept.soft, kept.expires - kept.soft, self.reading, H))
            moved += 1
        return f"off {moved} {self.shift(B, H, 'offline', H)}"

    def call_online(self, B):
        if self.heirs[B] is None:
            return f"already {len(self.record.bases[B])}"
        return f"on {self.shift(B, None, 'online')}"

    # ---- the clock

    def write(self, verb, number):
        if self.reading.stamp >= MOST_WRITES:
            return "clockspent"
        after = timers.after_write(self.reading, verb, number)
        if after.latest() > timers.CLOCK_MOST:
            return f"range {after.latest()}"
        self.reading = after
        self.record.clock.append(Entry(*self.label, (verb, number, *after[1:])))
        return f"clock {after.stamp}"

    def call_advance(self, D):
        return self.write("advance", D)

    def call_set(self, D):
        return self.write("set", D)

    def call_suspend(self, D):
        return self.write("suspend", D)

    # ---- expiry runs

    def next_of(self, base, soft, reading):
        """The first timer of the first queue whose first timer is due."""
        for clock in CLOCKS:
            for _, timer in self.queues[base, soft, clock][:1]:
                if self.timers[timer].is_due(base, reading):
                    return timer
        return None

    def expire(self, base, budget, soft):
        reading, fired = self.reading, []
        last = "more"
        while len(fired) < budget:
            # On one thread no function of the context runs when a run begins, so no run is told that one does.
            timers.need(self.running[base, soft] is None, "one thread runs one function at a time")
            timer = self.next_of(base, soft, reading)
            if timer is None:
                last = "done"
                break
            generation = self.enter(timer, Claim(base, reading))
            fired.append(timer)
            self.enter(timer, Finish(self.callback(timer, generation, reading)))
        return " ".join(str(word) for word in (last, len(fired), reading.stamp, *fired))

    def call_expire(self, B, N):
        return self.expire(B, N, False)

    def call_softexpire(self, B, N):
        return self.expire(B, N, True)

    def callback(self, timer, generation, reading):
        """Does what a timer's callback does, and gives whether it asks for a restart."""
        declared = self.script.declarations[timer]
        if declared.is_object():
            self.trigger(timer, Trigger(generation, reading))
        elif declared.callback == "every":
            if self.is_spent(timer):
                self.look(timer, "spent")
            else:
                self.enter(timer, Forward(reading, declared.number))
        elif declared.callback == "cancels":
            self.look(timer, *self.cancel(timer)[:2])
        elif declared.callback == "starts":
            if self.start(timer, "rel", declared.number, 0, declared.base, reading) is None:
                self.look(timer, "spent")
        return declared.callback in ("every", "starts")

    # ---- objects

    def object_stamp(self, number):
        return len(self.record.objects[number])

    def trigger(self, number, call):
        if self.object_stamp(number) >= self.limit:
            self.record.skips[number].append(Seen(self.object_stamp(number), *self.label, (call.generation,)))
            return
        self.enter_object(number, "trigger", self.sent(number, call), call.generation)

    def sent(self, number, call):
        """An expiry of an object, as its entry has it: where it has a signal to send, the queue takes that, or has no room."""
        if not objects.sends(self.objects[number], call):
            return call
        if len(self.signals) >= ROOM:
            return Overflow(call.generation, call.reading)
        signal = self.object_stamp(number) + 1
        self.signals.append((number, signal))
        return call._replace(number=signal)

    def enter_object(self, number, verb, call, *arguments, arm=NOT_ASKED):
        """One entry of an object: its step, and its line."""
        self.objects[number], answer = objects.step(self.objects[number], call, arm)
        self.record.objects[number].append(Entry(*self.label, objects.words_of(verb, arguments, call, arm, answer)))
        return answer

    def refusal(self, number, call):
        """The answer to a call that makes no entry of its object; None where it makes one."""
        word = "spent" if self.object_stamp(number) >= self.limit else objects.refusal(self.objects[number], call)
        return f"{word} {self.object_stamp(number)}" if word else None

    def make(self, number, verb, call, *arguments, cancels=False):
        """A call on an object: the start that it wants, and then its entry. Its answer, in the record's words."""
        refused = self.refusal(number, call)
        if refused:
            return refused
        if cancels:
            timers.need(self.cancel(number)[0] != "running", "one thread makes no call while a function runs")
        arm, wanted = NOT_ASKED, objects.wants(self.objects[number], call)
        if wanted is not None:
            started = self.start(number, *wanted, 0, self.objects[number].base, call.reading)
            arm = ("armed", started[0]) if started else ("unarmed", self.stamp_of(number))
        return self.enter_object(number, verb, call, *arguments, arm=arm)

    def call_settime(self, I, F, VS, VN, IS, IN):
        if objects.is_bad(self.objects[I].kind, F, VN, IN):
            return "einval"
        value, interval = timers.nanoseconds(VS, VN), timers.nanoseconds(IS, IN)
        return self.make(I, "settime", Settime(F, value, interval, self.reading), F, value, interval, cancels=True)

    def call_gettime(self, I):
        state = self.objects[I]
        if state.kind in POSIX:
            return f"left {state.left(self.reading)} {state.interval} {self.reading.stamp} {self.object_stamp(I)}"
        answer = self.make(I, "gettime", Gettime(self.reading))
        return answer if answer.startswith("spent") else f"left {answer}"

    def call_accept(self, I):
        return self.make(I, "accept", Accept(self.reading))

    def call_read(self, I, LEN):
        return "einval" if LEN < 8 else self.make(I, "read", Read(self.reading))

    def call_overrun(self, I):
        return f"overrun {self.objects[I].overrun} {self.object_stamp(I)}"

    def call_readable(self, I):
        return f"readable {int(self.objects[I].is_readable(self.reading))} {self.reading.stamp} {self.object_stamp(I)}"

    def call_sleep(self, I, F, S, N):
        if objects.is_bad_sleep(F, N):
            return "einval"
        time = timers.nanoseconds(S, N)
        return self.make(I, "sleep", Sleep(F, time, self.reading), F, time, cancels=True)

    def call_interrupt(self, I):
        return self.make(I, "interrupt", Interrupt(self.reading), cancels=True)

    def call_slept(self, I):
        return f"{self.objects[I].slept()} {self.object_stamp(I)}"

    # ---- signals

    def unaccepted(self, number, signal):
        """The answer to a signal that isn't accepted; None where it is."""
        if self.object_stamp(number) >= self.limit:
            return f"spent {number} {signal}"
        return None if self.objects[number].is_fresh(signal) else f"stale {number} {signal}"

    def call_sigwait(self):
        if not self.signals:
            return "empty"
        number, signal = self.signals.pop(0)
        answer = self.unaccepted(number, signal)
        return answer or f"signal {number} {signal} {self.call_accept(number).split()[1]}"
