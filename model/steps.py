"""One step of a call, and what all calls' steps are made of: what a call left in the record, taken in turn, the looks that hold between entries, and starts."""
from typing import NamedTuple, Optional, Tuple

from histories import Histories, Misfit, many, say_list


class Step(NamedTuple):
    """One step of a call.

    `move` is the entry that it makes, as list and number. `turn` is the entry of an object whose turn begins with it. `bounds` are lists with the least and
    the greatest number of entries at which it may stand. `needs` is what it needs of bases or of the queue of signals, by kind, and `branch` is 0 but in a
    call that moves several timers off a base: each timer's moves stand in a branch of their own, in no order with the others."""

    label: tuple
    says: str
    move: Optional[tuple] = None
    turn: Optional[tuple] = None
    bounds: Tuple[tuple, ...] = ()
    needs: Optional[tuple] = None
    branch: int = 0


class Steps:
    """The steps of one call so far."""

    def __init__(self, histories: Histories, call):
        self.h, self.call, self.label = histories, call, (call.lane, call.index)
        self.answer = histories.answers[self.label]
        self.told = self.answer["answer"]
        self.left = list(histories.left[self.label])
        self.steps, self.reading, self.turn = [], None, None
        # The ways of its starts: of which entry, from which base, and the bases to be found on line in turn; and behind how many steps it looked for them.
        self.ways, self.way_from = [], 0

    # ---- what is asked

    def misfit(self, why):
        raise Misfit(why, self.label)

    def need(self, holds, why):
        if not holds:
            self.misfit(why)

    def answers(self, *words):
        self.need(self.told in words, f"{self.told!r} is no answer of this call")

    def has(self, *names):
        """The answer has these numbers beside its word."""
        found = {name for name in self.answer if name not in ("kind", "lane", "call", "answer")}
        self.need(found == set(names), f"its answer {self.told!r} is that of another call")
        return [self.answer[name] for name in names]

    def read(self, stamp):
        self.need(self.reading in (None, stamp), f"it has readings {self.reading} and {stamp}")
        self.need(stamp < len(self.h.readings), f"its reading {stamp} is past the clock's {len(self.h.readings) - 1} writes")
        self.reading = stamp
        return self.h.readings[stamp]

    # ---- steps

    def step(self, says, **more):
        return Step(self.label, says, **more)

    def add(self, says, **more):
        turn, self.turn = self.turn, None
        self.steps.append(self.step(says, turn=turn, **more))

    def length(self, name):
        return len(self.h.entries[name])

    def look(self, says, name, low, high=None, needs=None):
        """A look that holds while the list has from `low` to `high` entries."""
        high = low if high is None else high
        self.need(high <= self.length(name), f"{says} tells of entry {high} of {say_list(name)}, which has {self.length(name)}")
        self.add(says, bounds=((name, low, high),), needs=needs)

    def look_among(self, says, name, numbers):
        """A look that holds while the list has one of these numbers of entries."""
        self.need(numbers, f"{says} holds at no moment")
        low, high = min(numbers), max(numbers)
        # An object may be in a turn at a number between two of them.
        whole = high - low + 1 == len(numbers) and (name[0] != "object" or low == high)
        self.add(says, bounds=((name, low, high),), needs=None if whole else ("among", name, frozenset(numbers)))

    def next_of(self, *name, kind=None):
        """The next line that the call left in a list, or under it."""
        kind = kind or name[0]
        return next((line for line in self.left if line.name == name and line.fields["kind"] == kind), None)

    def is_next(self, timer, event):
        line = self.next_of("timer", timer)
        return line is not None and line.event == event

    def take(self, name, event):
        """The next entry that the call made of a list, which has to be this event."""
        line = self.next_of(*name)
        self.need(line is not None, f"it made no {event} of {say_list(name)}")
        self.need(line.event == event, f"{line.says()}, stands where {event} has to")
        self.left.remove(line)
        if "stamp" in line.fields:
            self.read(line.fields["stamp"])
        return line

    def enter(self, line, **more):
        self.add(line.says(), move=(line.name, line.number), **more)

    def state(self, timer, number):
        self.need(number <= self.length(("timer", timer)), f"it tells of entry {number} of timer {timer}, which has {self.length(('timer', timer))}")
        return self.h.timers[timer][number]

    def is_soft(self, timer):
        return self.h.script.declarations[timer].kind == "soft"

    # ---- timers

    def start(self, timer, mode, ns, slack, base):
        """The entries of a start that is made: the first one, and the Start."""
        sent = []
        while self.is_next(timer, "out"):
            sent.append(self.take(("timer", timer), "out"))
        line = self.take(("timer", timer), "start")
        given, lines = line.fields, [*sent, line]
        self.need((given["mode"], given["ns"], given.get("slack", 0)) == (mode, ns, slack), f"{line.says()}, has other arguments than the call")
        self.need(lines[0].number <= self.h.script.limit, f"{lines[0].says()}, comes when the history is full")
        self.need([it.number for it in lines] == list(range(lines[0].number, line.number + 1)), f"{line.says()}, isn't just behind its moves")
        finds = self.finds_of(base, [it.fields["base"] for it in sent], line)
        for at, out in enumerate(sent):
            self.find(finds)
            # Who brings a timer to a base sends it on under that base's lock.
            self.enter(out, needs=("heir", sent[at - 1].fields["base"], out.fields["base"]) if at else None)
        self.find(finds)
        self.enter(line, needs=("online", given["base"]))
        return lines[0], line

    def finds_of(self, base, sent, line):
        """The bases that a start has to find on line in turn, each before the entry that names it, and the need of each."""
        asked = line.fields["asked_base"]
        self.need(not sent or asked == sent[-1], "its start asks for another base than that of its last move")
        self.need(all(one > other for one, other in zip(sent, sent[1:])), "its start is sent on to a base of no lower number")
        named, start = tuple(sent or [asked]), (line.name, line.number)
        # A base that never goes off line is found at once, and one on which the start itself keeps its timer is found just before it.
        if named == (base,) and (len(self.h.heirs[base]) == 1 or not sent and line.fields["base"] == base):
            return []
        self.ways.append((start, base, named))
        return [(found, ("found", start, place)) for place, found in enumerate(named)]

    def find(self, finds):
        """The next look of a start at a base that it has to find on line, where any is left."""
        if finds:
            base, needs = finds.pop(0)
            self.add(f"base {base} found on line", needs=needs)

    def refusal(self, timer, number):
        state = self.state(timer, number)
        return number >= self.h.script.limit and not state.moving

    def look_refused(self, timer, number):
        self.need(self.refusal(timer, number), f"timer {timer} isn't full with {many(number)}")
        self.look(f"the refusal of timer {timer} with {many(number)}", ("timer", timer), number)


def is_idle(state):
    return state.armed is None and state.running is None and not state.moving
