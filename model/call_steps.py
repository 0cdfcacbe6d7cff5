"""What each call of a record did and was told, as steps in their order. A call whose entries and answer aren't those of its words is a misfit."""
from histories import many
from object_steps import ObjectSteps
from steps import is_idle
from timers import CLOCK_MOST, MOST_WRITES, after_write
from world import LAST_STANDING


class CallSteps(ObjectSteps):
    def all(self):
        getattr(self, "do_" + self.call.verb)(**self.call.args)
        if self.left:
            self.misfit(f"{self.left[0].says()} bears its label, and the call makes none")
        if self.ways:
            self.look_for_heirs()
        if self.reading is None:
            return self.steps
        return [self.step(f"its reading {self.reading}", bounds=((("clock",), self.reading, self.reading),)), *self.steps]

    def look_for_heirs(self):
        """From here on the call looks for bases on line, and for heirs of those that aren't: an object's call in its turn, a function behind its claim."""
        ahead, behind = self.steps[:self.way_from], self.steps[self.way_from:]
        begin = self.step("its first look for a base on line", turn=behind[0].turn, needs=("way begins", self.label, tuple(self.ways)))
        self.steps, self.ways = [*ahead, begin, behind[0]._replace(turn=None), *behind[1:]], []

    # ---- timers

    def do_start(self, I, MODE, NS, B, SLACK=0):
        self.answers("started", "spent")
        if self.told == "spent":
            self.look_refused(I, *self.has("entries"))
            return
        generation, base, was_armed = self.has("generation", "base", "was_armed")
        first, line = self.start(I, MODE, NS, SLACK, B)
        right = (line.number, line.fields["base"], first.fields["was_armed"])
        self.need((generation, base, was_armed) == right, f"its entries are those of an answer 'started {right[0]} {right[1]} {int(right[2])}'")

    do_startrange = do_start

    def do_cancel(self, I):
        self.answers("cancelled", "running", "idle")
        if self.told == "cancelled":
            line = self.take(("timer", I), "cancel")
            self.need([line.fields["generation"]] == self.has("generation"), f"{line.says()}, is of another generation")
            self.enter(line)
            return
        *generation, number = self.has(*(["generation"] if self.told == "running" else []), "entries")
        state = self.state(I, number)
        right = [state.running] == generation if generation else is_idle(state)
        self.need(right, f"timer {I} isn't {self.told} with {many(number)}, as it is told")
        self.look(f"timer {I} {self.told} with {many(number)}", ("timer", I), number)

    def do_peek(self, I):
        self.answers("peek")
        number, *seen = self.has("entries", "base", "enqueued", "running_now", "moving")
        state = self.state(I, number)
        right = [state.base, state.armed is not None, state.running is not None, state.moving]
        self.need(seen == right, f"with {many(number)} timer {I} isn't as it is seen")
        self.look(f"timer {I} seen with {many(number)}", ("timer", I), number)

    # ---- expiry runs

    def do_expire(self, B, N, soft=False):
        self.answers("done", "more", "busy")
        names = ["count", "stamp", "timers"] + ["running_timer", "generation"] * (self.told == "busy")
        count, stamp, fired, *busy = self.has(*names)
        self.read(stamp)
        self.need(count == N if self.told == "more" else count < N, f"it ran {count} functions of at most {N}")
        for timer in fired:
            self.need(timer < len(self.h.timers), f"there is no timer {timer}")
            self.fire(timer, B, soft)
        if self.told == "done":
            self.add(f"base {B} with nothing to expire", needs=("done", B, soft, self.h.readings[stamp]))
        elif busy:
            self.busy(*busy, B)
            self.need(self.is_soft(busy[0]) == soft, f"timer {busy[0]} is of the other context")

    def do_softexpire(self, B, N):
        self.do_expire(B, N, True)

    def busy(self, timer, generation, base, needs=None):
        """The function of a generation runs on a base."""
        self.need(timer < len(self.h.timers), f"there is no timer {timer}")
        runs = [n for n, state in enumerate(self.h.timers[timer]) if (state.running, state.base) == (generation, base)]
        self.need(runs, f"generation {generation} of timer {timer} never runs on base {base}")
        self.look(f"the function of timer {timer} on base {base}", ("timer", timer), runs[0], runs[-1], needs)

    def fire(self, timer, base, soft):
        self.need(self.is_soft(timer) == soft, f"timer {timer} is of the other context")
        claim = self.take(("timer", timer), "claim")
        self.need(claim.fields["base"] == base, f"{claim.says()}, is of another base")
        self.enter(claim, needs=("claim", base, soft, self.h.readings[self.reading], timer))
        declared = self.h.script.declarations[timer]
        if declared.is_object():
            self.trigger(timer, claim.fields["generation"])
        else:
            self.callback(timer, declared, claim.fields["generation"])
        finish = self.take(("timer", timer), "finish")
        asks = "again" if declared.callback in ("every", "starts") else "stop"
        self.need(finish.fields["restart"] == asks, f"{finish.says()}, doesn't ask for what its function does")
        self.enter(finish)

    def trigger(self, timer, generation):
        skip = self.next_of("object", timer, kind="skip")
        if skip is None or skip.fields["generation"] != generation:
            line = self.take(("object", timer), "trigger")
            self.need(line.fields["generation"] == generation, f"{line.says()}, is of another generation than its claim")
            self.turn = line.name, line.number
            self.send(timer, line)
            self.enter(line)
            return
        self.left.remove(skip)
        self.look_full(timer, skip.number, skip.says())

    def send(self, timer, line):
        """In its turn an expiry of a queued timer that counts sends its signal, or finds the queue full."""
        if self.is_sent(timer, line.number):
            self.add(f"the signal of {line.says()}", needs=("push", (timer, line.number)))
        elif line.fields["outcome"] == "full":
            self.add(f"{line.says()}, with no room for its signal", needs=("no room", "signals"))

    def callback(self, timer, declared, generation):
        if declared.callback == "every" and self.is_next(timer, "forward"):
            line = self.take(("timer", timer), "forward")
            self.need(line.fields["interval"] == declared.number, f"{line.says()}, has another interval than its timer")
            self.enter(line)
        elif declared.callback == "starts" and (self.is_next(timer, "start") or self.is_next(timer, "out")):
            self.way_from = len(self.steps)
            self.start(timer, "rel", declared.number, 0, declared.base)
            if self.ways:
                self.look_for_heirs()
        elif declared.callback != "once":
            self.callback_look(timer, declared.callback, generation)

    def callback_look(self, timer, callback, generation):
        """What a callback was told in place of an entry."""
        look = self.next_of("timer", timer, kind="look")
        self.need(look is not None, f"the function of timer {timer} left neither an entry nor a look")
        self.left.remove(look)
        state, limit = self.state(timer, look.number), self.h.script.limit
        if callback == "cancels":
            right = look.event == "running" and look.fields["generation"] == state.running == generation
        elif look.event == "armed":
            right = callback == "every" and state.running is not None and state.armed == look.fields["generation"] and look.number < limit
        else:
            right = look.event == "spent" and look.number >= limit
        self.need(right, f"{look.says()} isn't what its function is told")
        self.look(look.says(), look.name, look.number)

    # ---- the clock

    def write(self, verb, number):
        self.answers("clock", "range")
        if self.told == "clock":
            line = self.take(("clock",), verb)
            self.need([line.number] == self.has("write") and line.fields["number"] == number, f"{line.says()} isn't its write")
            self.enter(line)
            return
        late, = self.has("time")
        would = [after_write(reading, verb, number) for reading in self.h.readings]
        self.look_among("its refused write", ("clock",), [n for n, it in enumerate(would) if CLOCK_MOST < it.latest() == late and it.stamp <= MOST_WRITES])

    def do_advance(self, D):
        self.write("advance", D)

    def do_set(self, D):
        self.write("set", D)

    def do_suspend(self, D):
        self.write("suspend", D)

    # ---- bases off line and on line

    def do_offline(self, B, H, N):
        self.answers("off", "busy", "more", "spent", "already", "heiroff", "basespent")
        if self.told in ("already", "heiroff", "basespent"):
            base, other = (H, B) if self.told == "heiroff" else (B, H)
            self.look_standing(base, self.told != "basespent", *self.has("entries"), needs=None if self.told == "already" else ("online", other))
            return
        names = {"off": ["entries"], "busy": ["running_timer", "generation"], "more": [], "spent": ["full_timer", "entries"]}[self.told]
        moved, *rest = self.has("moved", *names)
        self.add(f"bases {B} and {H} on line", bounds=((("base", B), 0, LAST_STANDING - 1),), needs=("might", B, H))
        self.need(self.move_all(B, H) == moved, f"it didn't move {moved} timers")
        most = {"more": moved == N, "spent": moved < N}.get(self.told, moved <= N)
        self.need(most, f"it moved {moved} timers of at most {N}")
        if self.told == "off":
            self.shift(B, "offline", rest[0], heir=H)
        elif self.told == "busy":
            self.busy(*rest, B, needs=("first", B) if rest[0] < len(self.h.timers) and self.is_soft(rest[0]) else None)
        elif self.told == "more":
            self.add(f"base {B} with a timer armed and no function running", needs=("more", B))
        else:
            self.look_spent(B, *rest)

    def look_spent(self, base, timer, number):
        self.need(timer < len(self.h.timers), f"there is no timer {timer}")
        state = self.state(timer, number)
        full = number >= self.h.terms.limit + self.h.terms.reach and state.armed is not None and not state.moving and state.base == base
        self.need(full, f"timer {timer} isn't armed on base {base} with so many entries that it can't be moved")
        self.look(f"timer {timer} first on base {base}, with {many(number)}", ("timer", timer), number, needs=("full", base, timer))

    def look_standing(self, base, is_off, number, needs=None):
        self.need(number < len(self.h.heirs[base]), f"it tells of entry {number} of base {base}, which has {len(self.h.heirs[base]) - 1}")
        right = (self.h.heirs[base][number] is not None) == is_off and (is_off or self.told == "already" or number >= LAST_STANDING)
        self.need(right, f"base {base} isn't so with {many(number)}")
        self.look(f"base {base} with {many(number)}", ("base", base), number, needs=needs)

    def move_all(self, base, heir):
        """The moves of timers to the heir, each timer's in a branch of its own where there are more. How many there are."""
        moved = list(dict.fromkeys(line.name[1] for line in self.left if line.name[0] == "timer"))
        count = 0
        for branch, timer in enumerate(moved, 1):
            while self.next_of("timer", timer):
                self.move(timer, base, heir, branch if len(moved) > 1 else 0)
                count += 1
        return count

    def move(self, timer, base, heir, branch):
        out, start = self.take(("timer", timer), "out"), self.take(("timer", timer), "start")
        kept, given = self.h.timers[timer][out.number - 1], start.fields
        self.need(start.number == out.number + 1, f"{start.says()}, isn't just behind its move")
        self.need(out.fields["base"] == heir and given["asked_base"] == heir, f"{out.says()}, isn't to the heir")
        self.need(kept.armed is not None and kept.base == base and not kept.moving, f"{out.says()}, is of a timer that isn't armed on the base")
        times = ("keep", kept.soft, kept.expires - kept.soft)
        self.need((given["mode"], given["ns"], given.get("slack", 0)) == times, f"{start.says()}, doesn't keep the timer's times")
        self.enter(out, branch=branch, needs=("front", base, timer))
        self.enter(start, branch=branch, needs=("online", heir))

    def shift(self, base, event, number, heir=None):
        line = self.take(("base", base), event)
        self.need(line.number == number and line.fields.get("heir") == heir, f"{line.says()}, isn't what it is told")
        self.enter(line, needs=("clear", base, heir) if event == "offline" else None)

    def do_online(self, B):
        self.answers("on", "already")
        number, = self.has("entries")
        if self.told == "on":
            self.shift(B, "online", number)
        else:
            self.look_standing(B, False, number)
