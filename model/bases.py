"""What bases have along an order: their queues, what runs there, and their heirs; what a step needs of them; and which steps a move could spoil by coming
earlier than it has to."""
from timers import CLOCKS
from world import ROOM

RANKS = {clock: rank for rank, clock in enumerate(CLOCKS)}


class Bases:
    """All bases at one moment: each queue's (expiry, timer, soft expiry) in turn, what runs in each context, and each base's heir; and the
    signals that wait."""

    __slots__ = ("queues", "running", "heirs", "signals")

    def __init__(self, queues=(), running=(), heirs=(), signals=()):
        self.queues, self.running, self.heirs, self.signals = dict(queues), dict(running), dict(heirs), signals

    def copy(self):
        return Bases(self.queues, self.running, self.heirs, self.signals)

    def take(self, node):
        """One move."""
        if node.leaves:
            name, (_, timer, _) = node.leaves
            self.queues[name] = tuple(pair for pair in self.queues[name] if pair[1] != timer)
        if node.joins:
            name, pair = node.joins
            queue = self.queues.get(name, ())
            # Of equal expiries the one that was armed first stands first.
            place = next((at for at, other in enumerate(queue) if other[0] > pair[0]), len(queue))
            self.queues[name] = (*queue[:place], pair, *queue[place:])
        if node.runs:
            self.running[node.runs[0]] = node.runs[1]
        if node.shifts:
            self.heirs[node.shifts[0]] = node.shifts[1]

    def ties(self):
        """The queues in which equal expiries stand: all else is known by which moves were made."""
        return self.signals, tuple(sorted(item for item in self.queues.items() if any(a[0] == b[0] for a, b in zip(item[1], item[1][1:]))))

    def signal(self, node):
        """One push or pop of a signal."""
        self.signals = (*self.signals, node.step.needs[1]) if node.kind == "push" else self.signals[1:]

    def runs(self, base):
        return self.running.get((base, False)) or self.running.get((base, True))

    def next_of(self, base, soft, reading):
        """The timer that is to expire next in a context: the first of the first queue whose first one is due."""
        for clock in CLOCKS:
            for _, timer, reached in self.queues.get((base, soft, clock), ())[:1]:
                if reached <= reading.of(clock):
                    return timer
        return None

    def front(self, base):
        """The timer that is to be moved next off a base."""
        for soft in (False, True):
            for clock in CLOCKS:
                for _, timer, _ in self.queues.get((base, soft, clock), ())[:1]:
                    return timer
        return None

    def give(self, needs):
        """Whether the bases are as a step needs them."""
        kind, base, *rest = needs
        if kind in OF_SIGNALS:
            return gives(self.signals, *needs)
        if kind == "claim":
            soft, reading, timer = rest
            return not self.running.get((base, soft)) and self.next_of(base, soft, reading) == timer
        if kind == "done":
            return not self.running.get((base, rest[0])) and self.next_of(base, *rest) is None
        if kind == "online":
            return self.heirs.get(base) is None
        if kind == "heir":
            return self.heirs.get(base) == rest[0]
        if kind == "might":
            return self.heirs.get(base) is None and self.heirs.get(rest[0]) is None
        if kind == "first":
            return not self.running.get((base, False))
        if kind in ("front", "full"):
            return not self.runs(base) and self.front(base) == rest[0]
        if kind == "clear" and self.heirs.get(rest[0]) is not None:
            return False
        has_timer = self.front(base) is not None
        return not self.runs(base) and has_timer == (kind == "more")

    def lack(self, needs):
        """Why a step can't come now."""
        kind, base, *rest = needs
        if kind in OF_SIGNALS:
            return f"{len(self.signals)} signals wait" + (f", and the oldest is {self.signals[0][1]} of object {self.signals[0][0]}" if self.signals else "")
        if kind == "online":
            return f"base {base} is off line"
        if kind == "heir":
            return f"base {base} isn't off line with the heir {rest[0]}"
        if kind == "might":
            return f"base {base if self.heirs.get(base) is not None else rest[0]} is off line"
        if kind == "clear" and self.heirs.get(rest[0]) is not None:
            return f"its heir, base {rest[0]}, is off line"
        runs = self.running.get((base, rest[0] if kind in ("claim", "done") else False)) or self.runs(base)
        if runs:
            return f"the function of timer {runs[0]} runs on base {base}"
        timer = self.next_of(base, *rest[:2]) if kind in ("claim", "done") else self.front(base)
        return f"no timer is next on base {base}" if timer is None else f"timer {timer} is next on base {base}"


def gives(signals, kind, what):
    """Whether a queue of signals, the oldest first, lets one be pushed or popped, or is as it is told to be."""
    if kind == "pop":
        return signals[:1] == (what,)
    return not signals if kind == "empty" else (len(signals) < ROOM) == (kind == "push")


OF_SIGNALS = ("push", "pop", "empty", "no room")
OF_BASES = ("claim", "done", "online", "heir", "might", "first", "front", "full", "more", "clear", *OF_SIGNALS)


def look_at_effects(histories, node):
    """What a node's move does to bases."""
    name, number = node.step.move or (("none",), 0)
    if name[0] == "base":
        node.shifts = name[1], histories.heirs[name[1]][number]
    if name[0] != "timer":
        return
    timer, soft = name[1], histories.script.declarations[name[1]].kind == "soft"
    old, new = histories.timers[timer][number - 1: number + 1]
    if old.armed != new.armed:
        if old.armed is not None:
            node.leaves = (old.base, soft, old.effective), (old.expires, timer, old.soft)
        if new.armed is not None:
            node.joins = (new.base, soft, new.effective), (new.expires, timer, new.soft)
    if old.running != new.running:
        node.runs = (new.base, soft), None if new.running is None else (timer, new.running)


class Spoils:
    """Which steps a move could spoil: steps that may come behind the move or before it, and that might find the bases otherwise than they need if it came
    before them. A move that spoils nothing that is left to come can be made at once."""

    def __init__(self, histories, chains, order):
        self.chains = chains
        self.has_slack = any(it.soft != it.expires for states in histories.timers for it in states)
        self.fronts = any(node.kind in ("front", "full") for node in order)
        for node in order:
            look_at_effects(histories, node)
        self.claimed = {node.runs[1] for node in order if node.runs and node.runs[1]}
        self.look_behind(order)
        rounds = {}
        for node in order:
            if node.kind or node.joins:
                rounds.setdefault(node.round, []).append(node)
        for node in order:
            self.look_for(node, rounds.get(node.round, ()))

    def look_behind(self, order):
        """Of each node the first place of each chain that has to come behind it, within its round."""
        behind = {}
        for node in order:
            node.behind = [len(chain) for chain in self.chains]
        for node in reversed(order):
            if node.place + 1 < len(self.chains[node.chain]):
                behind.setdefault(node, []).append(self.chains[node.chain][node.place + 1])
            for later in behind.get(node, ()):
                node.behind = [min(pair) for pair in zip(node.behind, later.behind)]
            node.behind[node.chain] = node.place
            for earlier in node.before:
                behind.setdefault(earlier, []).append(node)

    def look_for(self, node, others):
        node.spoils = [-1] * len(self.chains)
        if not node.step.move and not node.step.turn and node.kind not in ("push", "pop"):
            return
        for other in others:
            if other.chain != node.chain and node.spoils[other.chain] < other.place < node.behind[other.chain] and self.spoils(node, other):
                node.spoils[other.chain] = other.place

    def spoils(self, node, other):
        """Whether a move could spoil what another node needs, or the order of equal expiries."""
        needs = other.step.needs
        if other.kind == "among":
            return any(it and it[0] == needs[1] for it in (node.step.move, node.step.turn))
        if node.kind in OF_SIGNALS or other.kind in OF_SIGNALS:
            return other.kind in {"push": ("push", "empty"), "pop": ("no room",)}.get(node.kind, ())
        if node.joins and other.joins and self.are_tied(node, other):
            return True
        if not needs:
            return False
        if other.kind == "front" and node.label == other.label:
            return True
        if node.shifts:
            return other.kind in ("way begins", "found", "online", "heir", "might", "clear")
        if other.kind in ("way begins", "found", "online", "heir", "might"):
            return False
        return any((
            node.runs and node.runs[1] and self.spoils_by_running(node.runs[0], other),
            node.joins and self.spoils_by_joining(*node.joins, other),
            node.leaves and self.spoils_by_leaving(node.leaves[0], other),
        ))

    def are_tied(self, node, other):
        """Two timers join a queue with the same expiry, and it matters which of them does first."""
        (name, (expires, timer, _)), (other_name, (other_expires, other_timer, _)) = node.joins, other.joins
        if name != other_name or expires != other_expires or timer == other_timer:
            return False
        generations = (timer, node.step.move[1]), (other_timer, other.step.move[1])
        return self.has_slack or self.fronts or any(it in self.claimed for it in generations)

    @staticmethod
    def spoils_by_running(context, other):
        base, soft = context
        if other.step.needs[1] != base:
            return False
        if other.kind == "first":
            return not soft
        return other.kind not in ("claim", "done") or other.step.needs[2] == soft

    @staticmethod
    def spoils_by_joining(name, pair, other):
        kind, base, *rest = other.step.needs
        if base != name[0] or kind in ("first", "more"):
            return False
        if kind not in ("claim", "done"):
            return True
        if rest[0] != name[1]:
            return False
        is_due = pair[2] <= rest[1].of(name[2])
        if kind == "done":
            return is_due
        queue, (expires, _, _) = other.leaves
        if RANKS[name[2]] != RANKS[queue[2]]:
            return RANKS[name[2]] < RANKS[queue[2]] and is_due
        return pair[0] <= expires

    def spoils_by_leaving(self, name, other):
        """A timer that isn't due may hide one that is, where some timers have slack."""
        kind, base, *rest = other.step.needs
        if base != name[0] or kind in ("first", "front", "full", "clear"):
            return False
        return kind == "more" or self.has_slack and rest[0] == name[1]
