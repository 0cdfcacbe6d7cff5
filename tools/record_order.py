"""One order of all that a record tells, for a picture: an order in which each lane's calls, each base's, timer's, object's and the clock's entries come as the
record has them, and each reading behind the write that it shows. A record may have many such orders; which one a run had, it doesn't tell."""
import heapq
from collections import defaultdict
from typing import NamedTuple, Optional

from record_lines import NoRecord


class Step(NamedTuple):
    """An entry, a look, a skip or a write of the clock; or, of a call that has none of these, its answer."""

    label: tuple
    fields: dict


class Call(NamedTuple):
    lane: int
    call: int
    answer: dict
    words: Optional[str] = None
    round: int = 0


def by_label(lines):
    made = defaultdict(list)
    for fields in lines:
        if fields["kind"] in ("clock", "base", "timer", "look", "object", "skip"):
            made[fields["lane"], fields["call"]].append(fields)
    return made


def place(fields):
    """Where a line stands in its history: a look or a skip behind the entry with its number."""
    return fields["entry"], fields["kind"] in ("look", "skip")


def in_turn(made, answer):
    """What one call did, in the order in which it did it."""
    timers, objects = defaultdict(list), defaultdict(list)
    for fields in made:
        if fields["kind"] in ("timer", "look"):
            timers[fields["timer"]].append(fields)
        elif fields["kind"] in ("object", "skip"):
            objects[fields["timer"]].append(fields)
    steps = [fields for fields in made if fields["kind"] == "clock"]
    for history in (*timers.values(), *objects.values()):
        history.sort(key=place)
    # An expiry run: each claimed timer in turn, from its claim to its finish, with its object's trigger behind the claim.
    for timer in answer.get("timers", []):
        while timers[timer]:
            steps.append(timers[timer].pop(0))
            if steps[-1].get("event") == "claim" and objects[timer]:
                steps.append(objects[timer].pop(0))
            if steps[-1].get("event") == "finish":
                break
    for histories in (timers, objects):
        for history in histories.values():
            steps += history
    # A base goes off line when its timers have been moved.
    return steps + [fields for fields in made if fields["kind"] == "base"]


def calls_of(lines, script=None):
    """The record's calls, with their words and rounds where the script is there."""
    calls = [Call(fields["lane"], fields["call"], fields) for fields in lines if fields["kind"] == "call"]
    if script is None:
        return calls
    scripted = [call for of_lane in script.calls for call in of_lane]
    if [(it.lane, it.index) for it in scripted] != [(it.lane, it.call) for it in calls]:
        raise NoRecord("the record has other calls than the script")
    words = [" ".join(str(word) for word in (it.verb, *it.args.values())) for it in scripted]
    return [call._replace(words=word, round=it.round) for call, word, it in zip(calls, words, scripted)]


class Order:
    """The steps of a record with what has to come before each."""

    def __init__(self, lines, calls):
        self.steps, self.before, self.rounds = [], [], []
        self.of_call, self.at = {}, {}
        made = by_label(lines)
        known = {(call.lane, call.call) for call in calls}
        for label in made:
            if label not in known:
                raise NoRecord(f"lane {label[0]} has no call {label[1]}")
        for call in calls:
            self.add_call(call, made[call.lane, call.call])
        self.tie_histories()
        self.tie_readings()

    def add_call(self, call, made):
        label = call.lane, call.call
        steps = in_turn(made, call.answer) or [call.answer]
        first = len(self.steps)
        for fields in steps:
            self.at[self.name_of(fields)] = len(self.steps)
            self.before.append([len(self.steps) - 1] if len(self.steps) > first else [])
            self.steps.append(Step(label, fields))
            self.rounds.append(call.round)
        last = self.of_call.get((call.lane, call.call - 1))
        self.before[first] += [last[1]] if last else []
        self.of_call[label] = first, len(self.steps) - 1

    @staticmethod
    def name_of(fields):
        kind = fields["kind"]
        if kind in ("timer", "object"):
            return kind, fields["timer"], fields["entry"]
        if kind == "base":
            return kind, fields["base"], fields["entry"]
        return ("clock", fields["write"]) if kind == "clock" else (kind, id(fields))

    def tie_histories(self):
        """Entries come in turn, and what was seen under an entry before the next one."""
        for at, step in enumerate(self.steps):
            fields, kind = step.fields, step.fields["kind"]
            history = {"look": "timer", "skip": "object"}.get(kind, kind)
            if history == "clock":
                self.tie(("clock", fields["write"] - 1), at)
            elif history == "base":
                self.tie(("base", fields["base"], fields["entry"] - 1), at)
            elif history in ("timer", "object"):
                number = fields["entry"]
                self.tie((history, fields["timer"], number if kind in ("look", "skip") else number - 1), at)
                if kind in ("look", "skip") and (history, fields["timer"], number + 1) in self.at:
                    self.before[self.at[history, fields["timer"], number + 1]].append(at)

    def tie_readings(self):
        for at, step in enumerate(self.steps):
            if step.fields.get("stamp"):
                self.tie(("clock", step.fields["stamp"]), at)

    def tie(self, name, at):
        """What has this name comes before step `at`."""
        if name in self.at:
            self.before[at].append(self.at[name])
        elif name[-1] != 0:
            raise NoRecord(f"there is no {' '.join(map(str, name))}")

    def sorted(self):
        """The steps' numbers in one order: of those that may come next, the one of the earliest round, reading, lane and call."""
        behind, lacking = defaultdict(list), [len(set(before)) for before in self.before]
        for at, before in enumerate(self.before):
            for earlier in set(before):
                behind[earlier].append(at)

        def turn(at):
            fields = self.steps[at].fields
            return self.rounds[at], fields.get("stamp", fields.get("write", 0)), self.steps[at].label, at

        ready = [turn(at) for at, count in enumerate(lacking) if count == 0]
        heapq.heapify(ready)
        order = []
        while ready:
            at = heapq.heappop(ready)[-1]
            order.append(at)
            for later in behind[at]:
                lacking[later] -= 1
                if lacking[later] == 0:
                    heapq.heappush(ready, turn(later))
        if len(order) < len(self.steps):
            raise NoRecord("the entries can't stand in one order")
        return order
