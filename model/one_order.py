"""The search for one order of all steps of a record: what may come next, what can be taken at once, and which ways were tried already."""
from typing import NamedTuple

from bases import OF_BASES, Bases, Spoils
from histories import Misfit

# How many moments are looked at before the search gives up.
MOST_MOMENTS = 200000


class Undecided(Exception):
    """So many moments were looked at that the search was given up."""


class Way(NamedTuple):
    """How far the way of a start has come: the bases that it has to find on line in turn, how many of them it found, and which bases it has reached since."""

    named: tuple
    reached: frozenset
    found: int = 0

    def by(self, heirs):
        """The way one moment later, with these heirs."""
        if self.found == len(self.named):
            return self
        reached, to = self.reached_by(heirs), self.named[self.found]
        if to not in reached or heirs.get(to) is not None:
            return self._replace(reached=reached)
        return Way(self.named, frozenset(), self.found + 1).by(heirs)

    def reached_by(self, heirs):
        """To the first base any heirs lead in turn, and to each later one that of the base before."""
        if self.found:
            return self.reached | {heirs.get(self.named[self.found - 1])}
        reached = set(self.reached)
        for base in range(max(reached), 0, -1):
            if base in reached and heirs.get(base) is not None:
                reached.add(heirs[base])
        return frozenset(reached)


class Moment:
    """How far each chain has come, what bases have then, and how far the ways of starts have come whose calls have begun to look for bases on line."""

    __slots__ = ("places", "round", "bases", "ways", "taken", "behind")

    def __init__(self, places, of_round, bases, ways, behind=None):
        self.places, self.round, self.bases, self.ways = places, of_round, bases, ways
        # The nodes that were taken since the moment before, and that moment.
        self.taken, self.behind = [], behind

    def next(self):
        return Moment(list(self.places), self.round, self.bases.copy(), dict(self.ways), self)

    def key(self):
        return tuple(self.places), self.bases.ties(), tuple(sorted(self.ways.items()))


class Search:
    def __init__(self, histories, chains, most=MOST_MOMENTS):
        self.chains, self.ends, self.makes, self.begins, self.most = chains.chains, chains.ends, chains.makes, chains.begins, most
        Spoils(histories, self.chains, chains.one_order())
        self.seen, self.furthest = set(), None

    def order(self):
        """All nodes in one order that explains the record."""
        first = Moment([0] * len(self.chains), 0, Bases(), {})
        self.take_all(first)
        open_moments = [first]
        while open_moments:
            moment = open_moments.pop()
            if moment.round == len(self.ends):
                return nodes_up_to(moment)
            key = moment.key()
            if key not in self.seen:
                self.look_at(key, moment)
                open_moments += reversed(self.after(moment))
        self.explain()

    def look_at(self, key, moment):
        self.seen.add(key)
        if len(self.seen) > self.most:
            raise Undecided(f"{self.most} moments were looked at, and there may be more")
        if self.furthest is None or sum(moment.places) > sum(self.furthest.places):
            self.furthest = moment

    def after(self, moment):
        """The moments that may come next, those first that spoil least."""
        found = [node for node in self.waiting(moment) if self.may_come(moment, node)]
        found.sort(key=lambda node: (sum(place <= last for place, last in zip(moment.places, node.spoils)), node.joins is not None))
        return [self.with_node(moment, node) for node in found]

    def with_node(self, moment, node):
        then = moment.next()
        self.take(then, node)
        self.take_all(then)
        return then

    def waiting(self, moment):
        """The next node of each chain in this round."""
        ends = self.ends[moment.round]
        return [chain[place] for chain, place, end in zip(self.chains, moment.places, ends) if place < end]

    # ---- single steps

    def is_made(self, moment, entry):
        node = self.makes.get(entry)
        return node is not None and moment.places[node.chain] > node.place

    def is_begun(self, moment, entry):
        node = self.begins.get(entry)
        return node is not None and moment.places[node.chain] > node.place

    def may_come(self, moment, node):
        places = moment.places
        for it in node.before:
            if places[it.chain] <= it.place:
                return False
        return node.kind is None or self.is_given(moment, node)

    def is_given(self, moment, node):
        needs = node.step.needs
        if node.kind == "front" and any(self.is_on_its_way(moment, node, chain) for chain in range(len(self.chains))):
            return False
        if node.kind in OF_BASES:
            return moment.bases.give(needs)
        if node.kind == "among":
            return any((not n or self.is_made(moment, (needs[1], n))) and not self.is_begun(moment, (needs[1], n + 1)) for n in needs[2])
        return node.kind == "way begins" or moment.ways[needs[1]].found > needs[2]

    def is_on_its_way(self, moment, node, number):
        """Another branch of the call has sent a timer off that it hasn't started yet."""
        place = moment.places[number]
        last = self.chains[number][place - 1] if place and number != node.chain else None
        return last is not None and last.label == node.label and last.kind == "front"

    def take(self, moment, node):
        moment.places[node.chain] += 1
        moment.taken.append(node)
        if node.step.move:
            moment.bases.take(node)
        if node.kind in ("push", "pop"):
            moment.bases.signal(node)
        if node.kind in ("way begins", "found"):
            self.take_look(moment, *node.step.needs)
        if node.shifts:
            moment.ways = {start: way.by(moment.bases.heirs) for start, way in moment.ways.items()}

    @staticmethod
    def take_look(moment, kind, of, rest):
        """A call begins to look for bases on line, or a start has found one. Behind its last one nothing more is kept of it."""
        if kind == "way begins":
            for start, base, named in rest:
                moment.ways[start] = Way(named, frozenset([base])).by(moment.bases.heirs)
        elif rest + 1 == len(moment.ways[of].named):
            del moment.ways[of]

    def take_all(self, moment):
        """Takes all that can be taken at once, through the rounds."""
        while moment.round < len(self.ends):
            while any([self.take_along(moment, chain) for chain in range(len(self.chains))]):
                pass
            if moment.places != self.ends[moment.round]:
                return
            moment.round += 1

    def take_along(self, moment, number):
        """Takes what can be taken at once of a chain; whether there was anything."""
        chain, end, begin = self.chains[number], self.ends[moment.round][number], moment.places[number]
        while moment.places[number] < end:
            node = chain[moment.places[number]]
            if any(place <= last for place, last in zip(moment.places, node.spoils)) or not self.may_come(moment, node):
                break
            self.take(moment, node)
        return moment.places[number] > begin

    # ---- where there is no order

    def explain(self):
        """What the first call waits for at the moment that came furthest."""
        moment = self.furthest
        waiting = [node for node in self.waiting(moment) if all(moment.places[it.chain] > it.place for it in node.before)]
        node = min(waiting, key=lambda it: it.label)
        why = moment.bases.lack(node.step.needs) if node.kind in OF_BASES else "what it tells holds at no moment"
        raise Misfit(f"{node.says()} finds no moment: at the furthest that any order comes, {why}", node.label)


def nodes_up_to(moment):
    taken = []
    while moment:
        taken.append(moment.taken)
        moment = moment.behind
    return [node for nodes in reversed(taken) for node in nodes]
