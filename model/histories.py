"""The histories that a record shows: the clock's readings, each base's heirs, each timer's and each object's states, one after each number of entries; and
what stands under each call's label. A line that isn't the next step of its list makes the record a misfit."""
import os
import sys
from collections import defaultdict
from typing import NamedTuple

import objects
import timers
from objects import NOT_ASKED, Accept, Gettime, Interrupt, Object, Overflow, Read, Settime, Sleep, Trigger
from timers import Cancel, Claim, Finish, Forward, NotLegal, Out, Reading, Start, Terms, Timer
from world import LAST_STANDING, REACH, World

sys.path.insert(1, os.path.join(os.path.dirname(os.path.dirname(os.path.abspath(__file__))), "tools"))
from record_lines import NoRecord, read_record  # noqa: E402

SECTIONS = ("record", "clock", "base", "timer", "object", "call", "end")
# The list in which a line stands: its kind, and the field that has its number.
NUMBERED = {"clock": None, "base": "base", "timer": "timer", "object": "timer"}
UNDER = {"look": "timer", "skip": "object"}
# The call that an object's line shows, and the fields of its arguments.
OBJECT_CALLS = {
    "settime": (Settime, ("flags", "value", "interval")),
    "trigger": (Trigger, ("generation",)),
    "accept": (Accept, ()),
    "read": (Read, ()),
    "gettime": (Gettime, ()),
    "sleep": (Sleep, ("flags", "time")),
    "interrupt": (Interrupt, ()),
}


class Misfit(Exception):
    """Why a record doesn't fit, and the label of the call that can't be placed, where it is one call's."""

    def __init__(self, why, label=None):
        super().__init__(why)
        self.why, self.label = why, label


class Line(NamedTuple):
    """A line that bears a label: its list, its number there, its fields, and the words behind the label."""

    name: tuple
    number: int
    label: tuple
    fields: dict
    words: str

    @property
    def event(self):
        return self.fields.get("event")

    def says(self):
        if self.name == ("clock",):
            return f"write {self.number} of the clock"
        kind, number = self.name
        if self.fields["kind"] in UNDER:
            return f"a {self.fields['kind']} at {kind} {number} behind entry {self.number}"
        return f"entry {self.number} of {kind} {number}, {'an' if self.event[0] in 'aio' else 'a'} {self.event}"


def many(number):
    return f"{number} {'entry' if number == 1 else 'entries'}"


def say_list(name):
    return "the clock" if name == ("clock",) else f"{name[0]} {name[1]}"


def lines_in(text):
    """A record's fields and its labelled lines, each in its place; NoRecord where they are none."""
    all_fields, lines, lengths, last = read_record(text), [], defaultdict(int), 0
    for at, (fields, raw) in enumerate(zip(all_fields, text.split("\n")), 1):
        kind = fields["kind"]
        section = SECTIONS.index(UNDER.get(kind, kind))
        if section < last:
            raise NoRecord(f"line {at}: a line {kind} stands behind those of a later kind")
        last = section
        history = UNDER.get(kind, kind)
        if history in NUMBERED:
            of = NUMBERED[history]
            name = (history, fields[of]) if of else (history,)
            number = fields["write"] if history == "clock" else fields["entry"]
            look_at_place(at, lines, lengths, name, number, kind in UNDER)
            words = raw.split(" ")[4 if history == "clock" else 5:]
            lines.append(Line(name, number, (fields["lane"], fields["call"]), fields, " ".join(words)))
    return all_fields, lines


def look_at_place(at, lines, lengths, name, number, is_under):
    """A list's entries are numbered in turn, lists of one kind come by their numbers, and what hangs under an entry stands behind it."""
    if lines and lines[-1].name[0] == name[0] and name < lines[-1].name:
        raise NoRecord(f"line {at}: {say_list(name)} stands behind {say_list(lines[-1].name)}")
    if is_under and (not lines or lines[-1].name != name):
        raise NoRecord(f"line {at}: no entry of {say_list(name)} stands before it")
    lengths[name] += not is_under
    if number != lengths[name]:
        raise NoRecord(f"line {at}: it has number {number}, and {lengths[name]} is its place in the list of {say_list(name)}")


class Histories:
    """All lists of a record with the states along them, and of each call what it left."""

    def __init__(self, script, text):
        self.script, (fields, lines) = script, lines_in(text)
        self.terms = Terms(script.limit, REACH[script.version])
        self.entries, self.under, self.left = defaultdict(list), defaultdict(list), defaultdict(list)
        self.words = World(script).words_of
        self.answers = self.answers_in(fields)
        for line in lines:
            self.look_at_label(line)
            (self.under if line.fields["kind"] in UNDER else self.entries)[line.name].append(line)
            self.left[line.label].append(line)
        self.look_at_order_under()
        self.readings = self.clock_states()
        self.heirs = [self.base_states(base) for base in range(script.bases)]
        self.timers = [self.timer_states(timer) for timer in range(len(script.declarations))]
        self.objects = {i: self.object_states(i) for i, it in enumerate(script.declarations) if it.is_object()}

    def answers_in(self, fields):
        if fields[0]["version"] != self.script.version:
            raise Misfit(f"the record is one of version {fields[0]['version']}, and the script of version {self.script.version}")
        answers = [it for it in fields if it["kind"] == "call"]
        labels = [(it["lane"], it["call"]) for it in answers]
        wanted = [(call.lane, call.index) for of_lane in self.script.calls for call in of_lane]
        for found, asked in zip(labels, wanted):
            if found != asked:
                raise Misfit(f"the record has an answer of call {found[0]} {found[1]} in its place", asked)
        if len(labels) != len(wanted):
            raise Misfit(f"the script has {len(wanted)} calls, and the record {len(labels)} answers")
        return dict(zip(labels, answers))

    def look_at_label(self, line):
        if line.label not in self.answers:
            raise Misfit(f"{line.says()} bears the label {line.label[0]} {line.label[1]}, which no call has")
        most = {"base": self.script.bases, "clock": 1}.get(line.name[0], len(self.script.declarations))
        if line.name[-1] != "clock" and line.name[1] >= most:
            raise Misfit(f"there is no {say_list(line.name)}", line.label)
        if line.name[0] == "object" and not self.script.declarations[line.name[1]].is_object():
            raise Misfit(f"timer {line.name[1]} is by itself, and {line.says()} is of an object", line.label)

    def look_at_order_under(self):
        """Looks under one entry come by their labels, each once; a call may have more skips under one."""
        for lines in self.under.values():
            for one, other in zip(lines, lines[1:]):
                is_look = one.fields["kind"] == "look"
                if one.number == other.number and (one.label > other.label or is_look and one.label == other.label):
                    raise Misfit(f"{other.says()} stands behind that of call {one.label[0]} {one.label[1]}", other.label)

    # ---- states along each list

    def clock_states(self):
        readings = [Reading()]
        for line in self.entries["clock",]:
            given = line.fields
            after = timers.after_write(readings[-1], line.event, given["number"])
            if after.latest() > timers.CLOCK_MOST or after.stamp > timers.MOST_WRITES:
                raise Misfit(f"{line.says()} is one that the clock doesn't take", line.label)
            if after[1:] != (given["monotonic"], given["realtime"], given["boottime"], given["changes"]):
                raise Misfit(f"{line.says()} doesn't show the clock after it", line.label)
            readings.append(after)
        return readings

    def base_states(self, base):
        """The base's heir after each number of its entries, None where it is on line."""
        heirs = [None]
        for line in self.entries["base", base]:
            if (line.event == "offline") != (heirs[-1] is None):
                raise Misfit(f"{line.says()}, comes twice in turn", line.label)
            if line.event == "offline" and (line.fields["heir"] >= base or line.number > LAST_STANDING):
                raise Misfit(f"{line.says()}, has no such heir, or too many are before it", line.label)
            heirs.append(line.fields.get("heir"))
        return heirs

    def reading(self, line):
        if line.fields["stamp"] >= len(self.readings):
            raise Misfit(f"{line.says()}, has reading {line.fields['stamp']}, and the clock takes {len(self.readings) - 1} writes", line.label)
        return self.readings[line.fields["stamp"]]

    def event_of(self, line):
        """The event that a timer's line shows."""
        given = line.fields
        if line.event == "out":
            return Out(given["base"])
        if line.event == "start":
            return Start(given["mode"], given["ns"], given.get("slack", 0), self.reading(line), given["asked_base"])
        if line.event == "claim":
            return Claim(given["base"], self.reading(line))
        if line.event == "forward":
            return Forward(self.reading(line), given["interval"])
        return Cancel() if line.event == "cancel" else Finish(given["restart"] == "again")

    def timer_states(self, timer):
        clock = self.script.declarations[timer].clock
        states = [Timer(clock, clock)]
        for line in self.entries["timer", timer]:
            event = self.event_of(line)
            try:
                after, reply = timers.step(states[-1], line.number - 1, self.terms, event)
            except NotLegal as wrong:
                raise Misfit(f"{line.says()}, can't follow: {wrong}", line.label) from None
            words = " ".join(map(str, self.words(event, after, reply)))
            if words != line.words:
                raise Misfit(f"{line.says()}, would show {words!r}", line.label)
            if isinstance(event, Out) and event.to >= self.script.bases:
                raise Misfit(f"{line.says()}, goes to a base that isn't there", line.label)
            states.append(after)
        return states

    def object_call(self, line):
        """The call that an object's line shows, what became of its start, and the words behind the verb and before the reading."""
        given, reading = line.fields, self.reading(line)
        kind, names = OBJECT_CALLS[line.event]
        arguments = tuple(given[name] for name in names)
        refused = given.get("answer", {}).get("entries", 0) if kind in (Settime, Sleep) else 0
        armed = given.get("arm", "none")
        arm = {"none": NOT_ASKED, "unarmed": ("unarmed", refused)}.get(armed, ("armed", armed))
        if kind is Trigger:
            return (Overflow(*arguments, reading) if given["outcome"] == "full" else Trigger(*arguments, reading, line.number)), arm, arguments
        return kind(*arguments, reading), arm, arguments

    def object_states(self, number):
        declared = self.script.declarations[number]
        states = [Object(declared.kind, declared.clock, declared.base)]
        for line in self.entries["object", number]:
            call, arm, arguments = self.object_call(line)
            if (declared.kind, type(call)) not in objects.STEPS:
                raise Misfit(f"{line.says()}, is none of its kind", line.label)
            if line.number > self.script.limit:
                raise Misfit(f"{line.says()}, comes when its history is full", line.label)
            try:
                after, answer = objects.step(states[-1], call, arm)
            except NotLegal as wrong:
                raise Misfit(f"{line.says()}, can't follow: {wrong}", line.label) from None
            words = objects.words_of(line.event, arguments, call, arm, answer)
            if " ".join(map(str, words)) != line.words:
                raise Misfit(f"{line.says()}, would answer {answer!r}", line.label)
            states.append(after)
        return states
