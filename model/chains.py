"""The steps of all calls as chains, one a lane, and what has to come before what: along a chain, along each list, and by how many entries of a list each
look tells. Where that goes in a circle, the record is a misfit."""
from call_steps import CallSteps
from histories import Misfit


class Node:
    """A step at its place in its chain; what has to come before it; and what it does to bases: a pair that leaves a queue, one that joins a queue, what runs in
    a context of a base from now on, and a base's heir. A queue is named by its base, whether it is of the soft context, and its clock."""

    def __init__(self, step, chain, place, of_round):
        self.step, self.chain, self.place, self.round = step, chain, place, of_round
        self.label, self.kind = step.label, step.needs[0] if step.needs else None
        self.before = []
        self.leaves = self.joins = self.runs = self.shifts = None
        # Of each chain the first place that has to come behind this node, and the last place of what it would spoil if it came earlier.
        self.behind, self.spoils = [], []

    def says(self):
        return f"{self.step.says} (call {self.label[0]} {self.label[1]})"


class Chains:
    """All steps of a record's calls, by chain and place. A lane has a chain, and so has each branch of a call that moves several timers."""

    def __init__(self, histories):
        self.h, script = histories, histories.script
        self.chains = [[] for _ in range(script.lanes)]
        self.begins, self.makes, self.pushes, self.pops = {}, {}, {}, {}
        for of_lane in script.calls:
            for call in of_lane:
                self.add_call(call)
        # How far each chain has come at the end of each round.
        self.ends = [[sum(node.round <= number for node in chain) for chain in self.chains] for number in range(script.rounds + 1)]
        self.tie_lists()
        self.tie_signals()

    def add_call(self, call):
        """The steps of a branch stand behind the steps of their call that come first, and before its last one."""
        main, branched = self.chains[call.lane], []
        for step in CallSteps(self.h, call).all():
            number = call.lane if step.branch == 0 else self.h.script.lanes + step.branch - 1
            while len(self.chains) <= number:
                self.chains.append([])
            node = Node(step, number, len(self.chains[number]), call.round)
            if step.branch == 0:
                node.before += branched
            else:
                node.before += main[-1:]
                branched.append(node)
            self.chains[number].append(node)
            self.note(node)

    def note(self, node):
        """Which node makes an entry, and with which its turn begins: an object's turn may begin with an earlier one of the call."""
        step = node.step
        if step.turn:
            self.begins[step.turn] = node
        if node.kind in ("push", "pop"):
            (self.pushes if node.kind == "push" else self.pops)[step.needs[1]] = node
        if step.move:
            self.makes[step.move] = node
            self.begins.setdefault(step.move, node)

    def tie_lists(self):
        for (name, number), node in self.begins.items():
            if number > 1:
                node.before.append(self.makes[name, number - 1])
        for chain in self.chains:
            for node in chain:
                for name, low, high in node.step.bounds:
                    self.tie_look(node, name, low, high)

    def tie_look(self, node, name, low, high):
        if low > 0:
            node.before.append(self.makes[name, low])
        if (name, high + 1) in self.begins:
            self.begins[name, high + 1].before.append(node)

    def tie_signals(self):
        """Signals that a lane pops in turn were pushed in turn, and those that nobody pops were pushed behind them."""
        last = {}
        for signal, pop in self.pops.items():
            push = self.pushes[signal]
            pop.before.append(push)
            push.before += last.get(pop.chain, [])
            last[pop.chain] = [push]
        for signal, push in self.pushes.items():
            if signal not in self.pops:
                push.before += [it for pushes in last.values() for it in pushes]

    # ---- whether there is an order at all, whatever bases have

    def one_order(self):
        """All nodes in an order that keeps to what has to come before what."""
        places, order = [0] * len(self.chains), []
        for ends in self.ends:
            while places != ends:
                taken = [self.advance(chain, places, ends, order) for chain in range(len(self.chains))]
                if not any(taken):
                    self.explain(places, ends)
        return order

    def advance(self, chain, places, ends, order):
        """Takes all that can come next of a chain; whether there was anything."""
        begin = places[chain]
        while places[chain] < ends[chain]:
            node = self.chains[chain][places[chain]]
            if any(places[it.chain] <= it.place for it in node.before):
                break
            places[chain] += 1
            order.append(node)
        return places[chain] > begin

    def explain(self, places, ends):
        """The circle in which the chains wait for each other, from its first call on."""
        waiting = [chain[place] for chain, place, end in zip(self.chains, places, ends) if place < end]
        node, seen = min(waiting, key=lambda it: it.label), []
        while node not in seen:
            seen.append(node)
            ahead = next(it for it in node.before if places[it.chain] <= it.place)
            if ahead.round > node.round:
                raise Misfit(f"{node.says()} has to come behind {ahead.says()}, which is of a later round", node.label)
            node = self.chains[ahead.chain][places[ahead.chain]]
        circle = seen[seen.index(node):]
        first = min(range(len(circle)), key=lambda at: circle[at].label)
        told = []
        for one in circle[first:] + circle[:first]:
            ahead = next(it for it in one.before if places[it.chain] <= it.place)
            told += [ahead.says(), *([it.says()] if (it := self.chains[ahead.chain][places[ahead.chain]]) is not ahead else [])]
        raise Misfit(f"{circle[first].says()} has to come behind {', and that behind '.join(told)}", circle[first].label)
