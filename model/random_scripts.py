"""Random scripts: whole ones, in each round of which one lane makes calls, so that a script has one record; and damaged ones."""
from script import MOST_ENTRIES, MOST_LANES, MOST_BASES

EDGES = [0, 1, 2, 7, 8, 999999999, 1000000000, 2**31, 2**62 - 1, 2**62, 2**63 - 2, 2**63 - 1]
CLOCKS = ("monotonic", "monotonic", "realtime", "boottime")


class Maker:
    """Makes the lines of one whole script."""

    def __init__(self, random, version):
        self.random, self.version = random, version
        self.bases = random.choice([1, 1, 1, 2, 3, MOST_BASES[version]])
        self.lanes = random.choice([1, 1, 2, 3, MOST_LANES[version]])
        self.kinds, self.homes, self.lane, self.limit = [], {}, 0, 0

    def small(self):
        return self.random.randrange(self.random.choice([2, 3, 10, 60]))

    def time(self):
        return self.random.choice(EDGES) if self.random.random() < 0.08 else self.small()

    def base(self):
        return self.random.randrange(self.bases if self.random.random() < 0.2 else min(self.bases, 2))

    def declaration(self):
        kinds = ["raw", "raw", "posix", "fd"] + ["soft", "sleeper", "queued", "queued"] * (self.version == 2)
        kind = self.random.choice(kinds)
        begin = f"{kind} {len(self.kinds)} {self.random.choice(CLOCKS)}"
        self.kinds.append(kind)
        if kind in ("posix", "queued", "fd", "sleeper"):
            home = self.homes[len(self.kinds) - 1] = self.base()
            return f"{begin} {home}"
        callbacks = ["once", f"every {self.time()}", "cancels", f"starts {self.small()} {self.base()}"]
        return f"{begin} {self.random.choice(callbacks[:2] if kind == 'soft' else callbacks)}"

    def setting(self):
        """Value and interval, in seconds and nanoseconds."""
        value = self.random.choice([(0, 0), (0, self.small()), (0, self.time()), (self.small() // 9, self.small())])
        interval = self.random.choice([(0, 0), (0, self.small()), (0, 1), (self.time(), self.small())])
        return " ".join(str(number) for number in value + interval)

    def sleep(self, timer):
        """A sleep, now and then by bad flags or a bad time."""
        time = self.random.choice([(0, self.small()), (0, self.small() + 1), (0, self.time()), (self.time(), self.small())])
        return f"sleep {timer} {self.random.choice([0, 0, 0, 1, 1, 1, 2])} {time[0]} {time[1]}"

    def call_of(self, timer):
        kind = self.kinds[timer]
        if kind in ("posix", "queued"):
            flags = self.random.choice([0, 0, 1, 1, 2])
            calls = [f"settime {timer} {flags} {self.setting()}", f"gettime {timer}", f"accept {timer}", f"overrun {timer}"]
            return self.random.choice(calls if kind == "posix" else [calls[0], *calls, "sigwait", "sigwait"])
        if kind == "fd":
            flags = self.random.choice([0, 0, 1, 2, 3, 3, 4])
            calls = [f"settime {timer} {flags} {self.setting()}", f"gettime {timer}", f"read {timer} {self.random.choice([7, 8, 8, 16])}", f"readable {timer}"]
            return self.random.choice(calls)
        if kind == "sleeper":
            return self.random.choice([self.sleep(timer), self.sleep(timer), f"interrupt {timer}", f"slept {timer}"])
        mode = f"{self.random.choice(['rel', 'rel', 'abs'])} {self.time()}"
        starts = [f"start {timer} {mode} {self.base()}"]
        if self.version == 2:
            starts.append(f"startrange {timer} {mode} {self.time()} {self.base()}")
        return self.random.choice([*starts, *starts, f"cancel {timer}", f"peek {timer}"])

    def write(self):
        return f"{self.random.choice(['advance', 'advance', 'advance', 'set', 'suspend'])} {self.time()}"

    def expire(self):
        return f"{self.random.choice(['expire', 'expire', 'softexpire'][: self.version + 1])} {self.base()} {self.random.choice([0, 1, 2, 8, 8, 4096])}"

    def shift(self):
        """A base goes off line, more often than not where timers are, or on line."""
        base = self.random.choice([1, self.random.randrange(1, self.bases)])
        budget = self.random.choice([0, 1, 2, 8, 8, 4096])
        return self.random.choice([f"offline {base} {self.random.randrange(base)} {budget}"] * 2 + [f"online {base}"])

    def flood(self):
        """A queued timer is set and expires so often that its signals may fill the queue; then a few of them are waited for."""
        timer = self.random.choice([number for number, kind in enumerate(self.kinds) if kind == "queued"])
        calls = ["advance 1"]
        for _ in range(self.random.randrange(62, 70)):
            calls += [f"settime {timer} 1 0 1 0 {self.random.randrange(3)}", f"expire {self.homes[timer]} 8"]
        return calls + ["sigwait"] * self.random.choice([0, 1, 3, 70])

    def signal(self, timer):
        """A queued timer is set so that it may expire, and now and then something is done to it before its signal is waited for."""
        calls = [f"settime {timer} 1 0 {self.small() + 1} 0 {self.small()}", f"advance {self.small() + 1}", f"expire {self.homes[timer]} 8"]
        calls += [self.random.choice([self.call_of(timer), self.write()])] * self.random.choice([0, 0, 1])
        return calls + ["sigwait"] * self.random.choice([0, 1, 1, 2])

    def calls(self):
        """A few calls: one by chance, or a timer that is set, and may expire, or in a few scripts with room for them very many signals."""
        if "queued" in self.kinds and self.limit >= 1000 and self.random.random() < 0.012:
            return self.flood()
        if self.version == 2 and self.bases > 1 and self.lane == 0 and self.random.random() < 0.2:
            return [self.shift()]
        if not self.kinds or self.random.random() < 0.3:
            drawn = self.random.choice([self.write, self.expire])()
            return ["sigwait" if self.version == 2 and self.random.random() < 0.1 else drawn]
        timer = self.random.randrange(len(self.kinds))
        if self.kinds[timer] == "queued" and self.random.random() < 0.4:
            return self.signal(timer)
        calls = [self.call_of(self.random.choice([timer, self.random.randrange(len(self.kinds))])) for _ in range(self.random.randrange(3))]
        calls += [self.write()] * self.random.randrange(2) + [self.expire()] * self.random.randrange(2)
        return [*calls, f"peek {timer}" if self.random.random() < 0.1 else self.call_of(timer)]

    def lines(self):
        self.limit = self.random.choice([1, 2, 5, 12, 1000, MOST_ENTRIES[self.version]])
        made = [f"hrt {self.version}", f"bases {self.bases}", f"lanes {self.lanes}", f"limit {self.limit}"]
        made += [self.declaration() for _ in range(self.random.randrange(7))]
        for _ in range(self.random.randrange(1, 7)):
            made.append("round")
            self.lane = self.random.choice([0, self.random.randrange(self.lanes)])
            made += [f"{self.lane} {call}" for _ in range(self.random.randrange(12)) for call in self.calls()]
        return made


def whole(random, version):
    return ("\n".join(Maker(random, version).lines()) + "\n").encode()


NUMBERS = [
    *(str(number).encode() for number in (*range(7), 9, 17, 64, 65, 256, 257, 4096, 4097, 2**48 - 2047, 2**48 - 15, 2**63 - 1, 2**63)),
    b"00", b"01", b"-1", b"+1", b"1e3", b"",
]
WORDS = [
    b"start", b"startrange", b"monotonic", b"round", b"soft", b"once", b"every", b"read", b"abs", b"hrt", b"offline", b"online", b"sleeper", b"sleep",
    b"interrupt", b"slept", b"queued", b"sigwait",
]
BYTES = [b"\r", b"\t", b"\0", b"\x7f", b"\xef\xbb\xbf", b"\xc3\xa9", b" ", b"  ", b"\n", b"#"]


def damaged_line(random, line):
    words = line.split(b" ")
    at = random.randrange(len(words))
    place = random.randrange(len(line) + 1)
    change = random.randrange(8)
    if change >= 6 or change == 0:
        words[at] = random.choice(NUMBERS)
    elif change == 1:
        words.insert(at, random.choice([*NUMBERS, b"rel", b"once"]))
    elif change == 2:
        del words[at]
    elif change == 3:
        words[at] = random.choice(WORDS)
    elif change == 4:
        return line[:place] + random.choice(BYTES) + line[place:]
    else:
        return line[:place] + bytes([random.randrange(256)]) + line[place + 1:]
    return b" ".join(words)


def has_one_order(script):
    """Whether each round has calls of one lane alone, so that the script has one record."""
    lanes = {}
    for calls in script.calls:
        for call in calls:
            lanes.setdefault(call.round, set()).add(call.lane)
    return all(len(of_round) == 1 for of_round in lanes.values())


def damaged(random, version):
    """A whole script in which a line or two are changed, doubled, moved, or lost. Where it is still one, two lanes may call in a round."""
    lines = whole(random, version).split(b"\n")[:-1]
    for _ in range(random.choice([1, 1, 2])):
        # Half of them among the first six, where the header stands.
        at, change = random.randrange(random.choice([len(lines), min(6, len(lines))])), random.randrange(9)
        if change == 0 and len(lines) > 1:
            del lines[at]
        elif change == 1:
            lines.insert(random.randrange(len(lines)), lines[at])
        elif change == 2:
            lines = lines[: at + 1]
        else:
            lines[at] = damaged_line(random, lines[at])
    return b"\n".join(lines) + random.choice([b"\n", b"\n", b""])
