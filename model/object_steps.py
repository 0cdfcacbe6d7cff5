"""The steps of calls on POSIX timers, descriptors and sleepers, and of waits for signals."""
import objects
from histories import many
from steps import Steps, is_idle
from timers import LAST_TIME, nanoseconds


class ObjectSteps(Steps):
    def made(self, number, event):
        """The entry that the call makes of an object, whose turn begins with its next step; None where the object is full."""
        if self.told == "spent":
            self.look_full(number, *self.has("entries"))
            return None
        line = self.take(("object", number), event)
        self.turn = line.name, line.number
        told = {name: value for name, value in self.answer.items() if name not in ("kind", "lane", "call", "signal_timer", "signal_entry")}
        if self.told == "signal":
            told["answer"] = "accepted"
        if event == "gettime":
            given = {"answer": "left", "left": line.fields["left"], "interval": line.fields["interval"]}
        else:
            given = line.fields["answer"]
        self.need(told == given, f"{line.says()}, has another answer than the call")
        return line

    def look_full(self, number, stamp, says=None):
        self.need(stamp >= self.h.script.limit, f"object {number} isn't full with {many(stamp)}")
        self.look(says or f"object {number} full with {many(stamp)}", ("object", number), stamp)

    def arm(self, number, line, mode, ns, on_clock):
        """The start that an object's entry tells, and the entry."""
        arm = line.fields["arm"]
        if arm == "unarmed":
            refused = [n for n in range(len(self.h.timers[number])) if self.refusal(number, n)]
            self.look_among(f"the refusal of timer {number}", ("timer", number), refused)
        elif arm != "none":
            _, start = self.start(number, mode, ns, 0, self.h.script.declarations[number].base)
            state, phase = self.h.timers[number][start.number], self.h.objects[number][line.number].phase
            self.need(arm == start.number, f"{line.says()}, armed another generation than its start")
            armed = phase[0] == "armed" and phase[1] == arm and phase[3] == state.expires and (not on_clock or phase[2] == state.effective)
            self.need(armed, f"{line.says()}, has its timer armed otherwise than its start")
        self.enter(line)

    def do_settime(self, I, F, VS, VN, IS, IN):
        self.answers("old", "canceled", "unarmed", "einval", "spent")
        bad = objects.is_bad(self.h.objects[I][0].kind, F, VN, IN)
        self.need(bad == (self.told == "einval"), "its arguments are bad" if bad else "its arguments are good")
        if bad:
            return
        line = self.made(I, "settime")
        if line is None:
            return
        value, interval = nanoseconds(VS, VN), nanoseconds(IS, IN)
        given = line.fields
        self.need((given["flags"], given["value"], given["interval"]) == (F, value, interval), f"{line.says()}, has other arguments than the call")
        self.arm_anew(I, line, "abs" if F & 1 else "rel", value)

    def arm_anew(self, number, line, mode, ns):
        """What a settime or a sleep did in its turn."""
        self.disarm(number)
        if self.told == "unarmed":
            self.look_refused(number, self.answer["entries"])
            self.enter(line)
        else:
            self.arm(number, line, mode, ns, True)

    def disarm(self, timer):
        """A settime, a sleep and an interrupt disarm their timer first: they cancel it, or find it idle."""
        if self.is_next(timer, "cancel"):
            self.enter(self.take(("timer", timer), "cancel"))
            return
        idle = [n for n, state in enumerate(self.h.timers[timer]) if is_idle(state)]
        own = self.next_of("timer", timer)
        if own is not None:
            self.need(own.number - 1 in idle, f"{own.says()}, comes when the timer isn't idle")
            idle = [own.number - 1]
        self.look_among(f"timer {timer} idle before it is set", ("timer", timer), idle)
        self.way_from = 1

    def rearm(self, number, event):
        line = self.made(number, event)
        if line is None:
            return
        phase = self.h.objects[number][line.number].phase
        ns = phase[3] if phase[0] == "armed" else 0
        self.need(ns <= LAST_TIME, f"{line.says()}, is past the end of time")
        self.arm(number, line, "keep", ns, False)

    def do_accept(self, I):
        self.answers("accepted", "nosignal", "spent")
        self.rearm(I, "accept")

    def do_read(self, I, LEN):
        self.answers("count", "again", "canceled", "einval", "spent")
        self.need((LEN < 8) == (self.told == "einval"), f"a buffer of {LEN} bytes has another answer")
        if LEN >= 8:
            self.rearm(I, "read")

    def do_gettime(self, I):
        if self.h.objects[I][0].kind == "fd":
            self.answers("left", "spent")
            self.rearm(I, "gettime")
            return
        self.answers("left")
        left, interval, stamp, number = self.has("left", "interval", "stamp", "entries")
        reading = self.read(stamp)
        self.look_object(I, number, lambda it: (it.left(reading), it.interval) == (left, interval))

    def look_object(self, number, stamp, is_so):
        self.need(stamp < len(self.h.objects[number]), f"it tells of entry {stamp} of object {number}, which has {self.length(('object', number))}")
        self.need(is_so(self.h.objects[number][stamp]), f"object {number} isn't so with {many(stamp)}")
        self.look(f"object {number} seen with {many(stamp)}", ("object", number), stamp)

    def do_overrun(self, I):
        self.answers("overrun")
        overrun, number = self.has("overrun", "entries")
        self.look_object(I, number, lambda it: it.overrun == overrun)

    def do_readable(self, I):
        self.answers("readable")
        ready, stamp, number = self.has("ready", "stamp", "entries")
        reading = self.read(stamp)
        self.look_object(I, number, lambda it: it.is_readable(reading) == ready)

    # ---- sleepers

    def look_refusing(self, number, is_so):
        """A sleeper whose history has room, and whose state refuses the call."""
        stamp, = self.has("entries")
        self.need(stamp < self.h.script.limit, f"object {number} is full with {many(stamp)}")
        self.look_object(number, stamp, is_so)

    def do_sleep(self, I, F, S, N):
        self.answers("done", "asleep", "unarmed", "einval", "occupied", "spent")
        bad = objects.is_bad_sleep(F, N)
        self.need(bad == (self.told == "einval"), "its arguments are bad" if bad else "its arguments are good")
        if bad:
            return
        if self.told == "occupied":
            self.look_refusing(I, lambda it: it.sleep != "free")
            return
        line = self.made(I, "sleep")
        if line is None:
            return
        time, given = nanoseconds(S, N), line.fields
        self.need((given["flags"], given["time"]) == (F, time), f"{line.says()}, has other arguments than the call")
        self.arm_anew(I, line, "abs" if F & 1 else "rel", time)

    def do_interrupt(self, I):
        self.answers("done", "left", "interrupted", "awake", "spent")
        if self.told == "awake":
            self.look_refusing(I, lambda it: it.sleep == "free")
            return
        line = self.made(I, "interrupt")
        if line is not None:
            self.disarm(I)
            self.enter(line)

    def do_slept(self, I):
        self.answers("sleeping", "done", "awake")
        number, = self.has("entries")
        self.look_object(I, number, lambda it: it.slept() == self.told)

    # ---- signals

    def is_sent(self, number, signal):
        """Whether an entry of an object is a queued timer's expiry that counted."""
        if number not in self.h.objects or self.h.objects[number][0].kind != "queued" or not 1 <= signal <= self.length(("object", number)):
            return False
        line = self.h.entries["object", number][signal - 1]
        return line.event == "trigger" and line.fields["outcome"] == "counted"

    def do_sigwait(self):
        self.answers("signal", "stale", "spent", "empty")
        if self.told == "empty":
            self.has()
            self.add("no signal that waits", needs=("empty", "signals"))
            return
        number, signal, *_ = self.has("signal_timer", "signal_entry", *["overrun"] * (self.told == "signal"))
        self.need(self.is_sent(number, signal), f"object {number} sent no signal {signal}")
        self.add(f"signal {signal} of object {number} as the oldest", needs=("pop", (number, signal)))
        if self.told == "signal":
            line = self.next_of("object", number)
            fresh = line is not None and self.h.objects[number][line.number - 1].is_fresh(signal)
            self.need(fresh, f"signal {signal} of object {number} isn't the one that is pending")
            self.rearm(number, "accept")
            return
        limit, states = self.h.script.limit, self.h.objects[number]
        right = [n for n, it in enumerate(states) if n >= signal and (n >= limit if self.told == "spent" else n < limit and not it.is_fresh(signal))]
        self.look_among(f"signal {signal} of object {number} {self.told}", ("object", number), right)
