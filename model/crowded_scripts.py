"""Random scripts in each round of which several lanes call the same few timers, objects and bases, and write the clock."""
from random_scripts import Maker

LIMITS = [2, 4, 6, 12, 1000, 1000, 1000]


class CrowdedMaker(Maker):
    """Makes the lines of a script with few timers and bases, small numbers, and rounds in which lanes race."""

    def __init__(self, random, version, most_calls=160):
        super().__init__(random, version)
        self.bases, self.lanes = random.choice([1, 1, 2, 2, 3]), random.choice([2, 2, 3, 4])
        self.most_calls = most_calls

    def small(self):
        return self.random.randrange(self.random.choice([1, 2, 4, 8]))

    def time(self):
        return super().time() if self.random.random() < 0.2 else self.small()

    def base(self):
        return self.random.randrange(self.bases)

    def setting(self):
        """Value and interval, most of which expire soon."""
        value = self.random.choice([(0, 0), (0, 1), (0, 1), (0, 2), (0, self.small() + 1)])
        interval = self.random.choice([(0, 0), (0, 1), (0, 2), (0, self.time())])
        return " ".join(str(number) for number in value + interval)

    def sleep(self, timer):
        """A sleep, most of which end soon."""
        if self.random.random() < 0.15:
            return super().sleep(timer)
        return f"sleep {timer} {self.random.choice([0, 0, 1])} 0 {self.random.choice([0, 1, 1, 2, self.small() + 1])}"

    def call_of(self, timer):
        """As any script's, but objects are set and read more often, and by arguments that are right more often."""
        kind, drawn = self.kinds[timer], self.random.random()
        if kind == "sleeper":
            return self.sleep(timer) if drawn < 0.45 else f"{'interrupt' if drawn < 0.8 else 'slept'} {timer}"
        if kind == "queued" and drawn < 0.35:
            return "sigwait"
        if kind not in ("posix", "queued", "fd") or drawn < 0.2:
            return super().call_of(timer)
        if drawn < 0.55:
            return f"settime {timer} {self.random.choice([0, 1, 3, 3] if kind == 'fd' else [0, 1, 1])} {self.setting()}"
        return f"read {timer} 8" if kind == "fd" else f"accept {timer}"

    def call(self, lane):
        """One call of a lane: what it does most is to expire, to write the clock, and to call one of the few timers."""
        self.lane, drawn = lane, self.random.random()
        if lane == 0 and self.version == 2 and self.bases > 1 and drawn < 0.12:
            return self.shift()
        if drawn < 0.3:
            return self.expire()
        if drawn < 0.45:
            return f"{self.random.choice(['advance', 'advance', 'advance', 'set', 'suspend'])} {self.small() + 1}"
        timer = self.random.randrange(len(self.kinds))
        return f"peek {timer}" if drawn > 0.93 else self.call_of(timer)

    def signal_call(self):
        """One call of a round in which queued timers are set, expire, and have their signals taken."""
        timer = self.random.choice([number for number, kind in enumerate(self.kinds) if kind == "queued"])
        setting, expire = f"settime {timer} 1 0 1 0 {self.small()}", f"expire {self.homes[timer]} 8"
        return self.random.choice([setting, setting, expire, expire, expire, "sigwait"])

    def round(self):
        """The calls of a round, of at least two lanes."""
        lanes = sorted(self.random.sample(range(self.lanes), self.random.randrange(2, self.lanes + 1)))
        each = self.random.choice([1, 2, 3, 5, 8, 16, 30])
        if "queued" in self.kinds and self.random.random() < 0.4:
            calls = [f"{lane} {self.signal_call()}" for _ in range(each) for lane in lanes]
            return [f"{lanes[0]} advance 1", *calls, *[f"{lanes[0]} sigwait"] * self.random.choice([0, 2, 4])]
        return [f"{lane} {self.call(lane)}" for _ in range(each) for lane in lanes]

    def lines(self):
        made = [f"hrt {self.version}", f"bases {self.bases}", f"lanes {self.lanes}", f"limit {self.random.choice(LIMITS)}"]
        made += [self.declaration() for _ in range(self.random.randrange(1, 5))]
        calls = 0
        for _ in range(self.random.randrange(1, 9)):
            of_round = self.round()
            calls += len(of_round)
            if calls > self.most_calls:
                break
            made += ["round", *of_round]
        return made


def crowded(random, version):
    return ("\n".join(CrowdedMaker(random, version).lines()) + "\n").encode()
