"""The record of a run, and its text; the summary of a record."""
from collections import defaultdict
from typing import NamedTuple


class Entry(NamedTuple):
    """A line of a history behind its number: the label of its call, and its words."""

    lane: int
    call: int
    words: tuple


class Seen(NamedTuple):
    """A look or a skip: the entry under which it stands, the label of its call, and its words."""

    stamp: int
    lane: int
    call: int
    words: tuple


class Record:
    def __init__(self, version, bases, timers, lane_sizes):
        self.version = version
        self.clock = []
        self.bases = [[] for _ in range(bases)]
        self.timers = [[] for _ in range(timers)]
        self.looks = [[] for _ in range(timers)]
        self.objects = [[] for _ in range(timers)]
        self.skips = [[] for _ in range(timers)]
        self.answers = [[None] * size for size in lane_sizes]


def line(*words):
    return " ".join(str(word) for word in words)


def history(entry_kind, seen_kind, number, entries, seen):
    """The lines of a timer or an object: its entries, each followed by what was seen under it."""
    under = defaultdict(list)
    for one in sorted(seen, key=lambda it: it[:3]):
        under[one.stamp].append(one)
    for at, entry in enumerate(entries, 1):
        yield line(entry_kind, number, at, entry.lane, entry.call, *entry.words)
        for one in under[at]:
            yield line(seen_kind, number, at, one.lane, one.call, *one.words)


def text(record):
    lines = [f"record {record.version}"]
    lines += [line("clock", at, entry.lane, entry.call, *entry.words) for at, entry in enumerate(record.clock, 1)]
    for number, entries in enumerate(record.bases):
        lines += history("base", "", number, entries, ())
    for number, entries in enumerate(record.timers):
        lines += history("timer", "look", number, entries, record.looks[number])
    for number, entries in enumerate(record.objects):
        lines += history("object", "skip", number, entries, record.skips[number])
    lines += [line("call", lane, at, answer) for lane, answers in enumerate(record.answers) for at, answer in enumerate(answers)]
    return ("\n".join([*lines, "end"]) + "\n").encode()


def summary(record):
    entries = [entry.words for of_timer in record.timers for entry in of_timer]
    events = [words[0] for words in entries]
    # The text of version 1, in which a forward's fourth word is how many periods passed.
    periods = sum(words[3] for words in entries if words[0] == "forward")
    lines = [
        "summary 1",
        f"lanes {len(record.answers)}",
        f"calls {sum(map(len, record.answers))}",
        f"clock {len(record.clock)}",
        f"entries {len(entries)}",
        f"claims {events.count('claim')}",
        f"cancels {events.count('cancel')}",
        f"periods {periods}",
        "end",
    ]
    return ("\n".join(lines) + "\n").encode()
