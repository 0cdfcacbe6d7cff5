"""Walks along an order step by step, by plain rules: how many entries each list has so far, whose turn an object has, and each timer's own state say what may
come next. Nothing of the search is in it, so an order that the search found is tried here once more, and few steps are tried here in all orders."""
from timers import CLOCKS
from world import ROOM


class Walk:
    """What has come so far."""

    def __init__(self, histories):
        self.h = histories
        self.counts, self.turns, self.armed_at, self.ways, self.moves, self.on_the_way, self.signals = {}, {}, {}, {}, 0, {}, []

    def copy(self):
        other = Walk(self.h)
        for name in ("counts", "turns", "armed_at", "ways", "on_the_way"):
            setattr(other, name, dict(getattr(self, name)))
        other.moves, other.signals = self.moves, list(self.signals)
        return other

    def key(self):
        """All that matters of what has come, beside which steps it was."""
        return tuple(sorted(self.armed_at, key=self.armed_at.get)), tuple(sorted(self.ways.items())), tuple(self.signals)

    def count(self, name):
        return self.counts.get(name, 0)

    def timer(self, number):
        return self.h.timers[number][self.count(("timer", number))]

    def heir(self, base):
        return self.h.heirs[base][self.count(("base", base))]

    def all_heirs(self):
        return tuple(self.heir(base) for base in range(self.h.script.bases))

    # ---- whether a step may come next

    def may_come(self, step):
        name, number = step.move or (None, 0)
        if name and number != self.count(name) + 1:
            return False
        if name and name[0] == "object" and not (step.turn or self.turns.get(name) == number):
            return False
        if step.turn and (step.turn[0] in self.turns or step.turn[1] != self.count(step.turn[0]) + 1):
            return False
        if step.needs and step.needs[0] == "front" and self.on_the_way.get(step.label):
            return False
        # What is told of an object is told between turns.
        for of, low, high in step.bounds:
            if not low <= self.count(of) <= high or of[0] == "object" and of in self.turns:
                return False
        return step.needs is None or self.gives(*step.needs)

    def gives(self, kind, on, *rest):
        if kind in ("push", "no room"):
            return (len(self.signals) < ROOM) == (kind == "push")
        if kind in ("pop", "empty"):
            return (self.signals[0] == on if self.signals else False) if kind == "pop" else not self.signals
        if kind == "among":
            return self.count(on) in rest[0]
        if kind == "way begins":
            return True
        if kind == "found":
            return self.has_found(*self.ways[on], rest[0])
        if kind == "online":
            return self.heir(on) is None
        if kind == "heir":
            return self.heir(on) == rest[0]
        if kind == "might":
            return self.heir(on) is None and self.heir(rest[0]) is None
        if kind in ("claim", "done"):
            soft, reading, *timer = rest
            return not self.running(on, soft) and self.due(on, soft, reading) == (timer[0] if timer else None)
        if kind == "first":
            return not self.running(on, False)
        if self.running(on, False) or self.running(on, True):
            return False
        front = self.front(on)
        if kind == "clear":
            return front is None and self.heir(rest[0]) is None
        return front is not None if kind == "more" else front == rest[0]

    @staticmethod
    def has_found(base, named, seen, place):
        """By the heirs at each moment, the base at this place was found on line behind those before it: all moments are tried at which each may have been."""
        ends = {end for heirs in range(base + 1) for end in moments_found(seen, 0, base, named[0], heirs)}
        for one, other in zip(named, named[1:place + 1]):
            ends = {end for at in ends for end in moments_found(seen, at, one, other, 1)}
        return bool(ends)

    def of_context(self, soft):
        return [t for t, it in enumerate(self.h.script.declarations) if (it.kind == "soft") == soft]

    def running(self, base, soft):
        return [t for t in self.of_context(soft) if self.timer(t).running is not None and self.timer(t).base == base]

    def leader(self, base, soft, clock):
        """Of the timers that are armed on a base and kept on a clock the one of the earliest expiry, of equal ones the one that was armed first."""
        kept = [t for t in self.of_context(soft) if self.timer(t).armed is not None and not self.timer(t).moving]
        kept = [t for t in kept if (self.timer(t).base, self.timer(t).effective) == (base, clock)]
        return min(kept, key=lambda t: (self.timer(t).expires, self.armed_at[t]), default=None)

    def due(self, base, soft, reading):
        leaders = [self.leader(base, soft, clock) for clock in CLOCKS]
        return next((t for t in leaders if t is not None and self.timer(t).is_due(base, reading)), None)

    def front(self, base):
        leaders = [self.leader(base, soft, clock) for soft in (False, True) for clock in CLOCKS]
        return next((t for t in leaders if t is not None), None)

    # ---- a step that comes next

    def take(self, step):
        if step.turn:
            self.turns[step.turn[0]] = step.turn[1]
        if step.needs and step.needs[0] == "way begins":
            for start, base, named in step.needs[2]:
                self.ways[start] = base, named, (self.all_heirs(),)
        if step.needs and step.needs[0] == "found" and step.needs[2] + 1 == len(self.ways[step.needs[1]][1]):
            del self.ways[step.needs[1]]
        if step.needs and step.needs[0] == "push":
            self.signals.append(step.needs[1])
        if step.needs and step.needs[0] == "pop":
            self.signals.pop(0)
        if step.branch and step.move:
            self.on_the_way[step.label] = not self.on_the_way.get(step.label)
        if step.move:
            self.move(*step.move)

    def move(self, name, number):
        self.counts[name], self.moves = number, self.moves + 1
        if name[0] == "object":
            del self.turns[name]
        elif name[0] == "timer":
            old, new = self.h.timers[name[1]][number - 1: number + 1]
            if new.armed is None:
                self.armed_at.pop(name[1], None)
            elif new.armed != old.armed:
                self.armed_at[name[1]] = self.moves
        elif name[0] == "base":
            self.ways = {start: (base, named, (*seen, self.all_heirs())) for start, (base, named, seen) in self.ways.items()}


def moments_found(seen, low, base, to, heirs):
    """At which moments from `low` on the base may have been found on line to which so many heirs in turn lead from another."""
    if heirs == 0:
        return {at for at in range(low, len(seen)) if base == to and seen[at][to] is None}
    ways = [(at, seen[at][base]) for at in range(low, len(seen)) if seen[at][base] is not None]
    return {end for at, heir in ways for end in moments_found(seen, at, heir, to, heirs - 1)}


def stands_apart(node):
    """What has to come before a node because several timers are moved by its call."""
    return [it for it in node.before if it.step.branch or node.step.branch]


def fault_of(histories, chains, order):
    """What is wrong with an order that was found, if anything."""
    walk, places, of_round = Walk(histories), [0] * len(chains), 0
    for node in order:
        if node is not chains[node.chain][places[node.chain]] or node.round < of_round:
            return f"{node.says()} stands out of its chain"
        if any(places[it.chain] <= it.place for it in stands_apart(node)):
            return f"{node.says()} stands before a move of its call"
        if not walk.may_come(node.step):
            return f"{node.says()} can't come at its place"
        walk.take(node.step)
        places[node.chain], of_round = places[node.chain] + 1, node.round
    return None if places == [len(chain) for chain in chains] else "a step is missing"


def has_order(histories, chains):
    """Whether there is an order, by a try of all of them."""
    seen, open_moments = set(), [([0] * len(chains), Walk(histories))]
    while open_moments:
        places, walk = open_moments.pop()
        waiting = [chain[place] for chain, place in zip(chains, places) if place < len(chain)]
        if not waiting:
            return True
        key = tuple(places), walk.key()
        if key in seen:
            continue
        seen.add(key)
        of_round = min(node.round for node in waiting)
        for node in waiting:
            if node.round == of_round and walk.may_come(node.step) and all(places[it.chain] > it.place for it in stands_apart(node)):
                then, after = walk.copy(), list(places)
                then.take(node.step)
                after[node.chain] += 1
                open_moments.append((after, then))
    return False
