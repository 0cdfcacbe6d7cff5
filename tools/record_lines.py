"""The lines of a record, as tables: each line is its words, or a dict of named fields, and either gives the other."""
import re

BOOLEANS = ("was_armed", "enqueued", "running_now", "moving", "ready")
CHOICES = {
    "mode": ("rel", "abs", "keep"),
    "clock": ("monotonic", "realtime", "boottime"),
    "restart": ("again", "stop"),
    "outcome": ("counted", "stale", "full"),
}
# Fields that are a number or one of these words.
MIXED = {"arm": ("none", "unarmed"), "rearmed": ("none", "spent")}

LABEL = "lane call"
WRITE = "number monotonic realtime boottime changes"
KINDS = {
    "record": "version",
    "clock": f"write {LABEL} event",
    "base": f"base entry {LABEL} event",
    "timer": f"timer entry {LABEL} event",
    "look": f"timer entry {LABEL} event",
    "object": f"timer entry {LABEL} event",
    "skip": f"timer entry {LABEL} generation",
    "call": f"{LABEL} answer",
    "end": "",
}
EVENTS = {
    "clock": {"advance": WRITE, "set": WRITE, "suspend": WRITE},
    "base": {"offline": "heir", "online": ""},
    "timer": {
        "out": "base was_armed",
        "start": "mode ns stamp asked_base base clock expires was_armed",
        "cancel": "generation",
        "claim": "base stamp generation",
        "forward": "stamp interval periods expires",
        "finish": "restart generation rearmed",
    },
    "look": {"running": "generation", "armed": "generation", "spent": ""},
    "object": {
        "settime": "flags value interval stamp arm answer",
        "trigger": "generation stamp outcome",
        "accept": "stamp arm answer",
        "read": "stamp arm answer",
        "gettime": "stamp arm left interval",
        "sleep": "flags time stamp arm answer",
        "interrupt": "stamp answer",
    },
}
# What version 2 has in place of these.
WIDE = {
    ("timer", "start"): "mode ns slack stamp asked_base base clock soft expires was_armed",
    ("timer", "forward"): "stamp interval periods soft expires",
}
ANSWERS = {
    "started": ["generation base was_armed"],
    "cancelled": ["generation"],
    "running": ["generation entries"],
    "idle": ["entries"],
    "peek": ["entries base enqueued running_now moving"],
    "done": ["count stamp timers", "entries", ""],
    "more": ["count stamp timers", "moved"],
    "busy": ["count stamp running_timer generation timers", "moved running_timer generation"],
    "clock": ["write"],
    "range": ["time"],
    "clockspent": [""],
    "old": ["left interval"],
    "canceled": [""],
    "einval": [""],
    "unarmed": ["entries"],
    "left": ["left interval stamp entries", "left interval", "left"],
    "spent": ["entries", "moved full_timer entries", "signal_timer signal_entry"],
    "accepted": ["overrun"],
    "nosignal": [""],
    "overrun": ["overrun entries"],
    "count": ["expirations"],
    "again": [""],
    "signal": ["signal_timer signal_entry overrun"],
    "stale": ["signal_timer signal_entry"],
    "empty": [""],
    "readable": ["ready stamp entries"],
    "asleep": [""],
    "occupied": ["entries"],
    "interrupted": [""],
    "sleeping": ["entries"],
    "awake": ["entries"],
    "off": ["moved entries"],
    "on": ["entries"],
    "already": ["entries"],
    "heiroff": ["entries"],
    "basespent": ["entries"],
}


class NoRecord(Exception):
    """What is wrong with a line."""


def number(word):
    if not re.fullmatch("0|[1-9][0-9]*", word):
        raise NoRecord(f"{word!r} is no number")
    return int(word)


def value(name, word):
    """The value of a word in this field."""
    if name in CHOICES:
        if word not in CHOICES[name]:
            raise NoRecord(f"{word!r} is no {name}")
        return word
    if word in MIXED.get(name, ()):
        return word
    if name in BOOLEANS:
        if word not in ("0", "1"):
            raise NoRecord(f"{word!r} is neither 0 nor 1")
        return word == "1"
    return number(word)


def word(name, given):
    """The word of a value in this field: it has to be one that `value` gives."""
    if isinstance(given, bool):
        text = str(int(given))
    elif isinstance(given, (int, str)):
        text = str(given)
    else:
        raise NoRecord(f"{name} has no value {given!r}")
    if (value(name, text), type(value(name, text))) != (given, type(given)):
        raise NoRecord(f"{name} has no value {given!r}")
    return text


def take(names, words):
    """The fields of these names, and the words that are left."""
    if len(words) < len(names):
        raise NoRecord(f"{len(names) - len(words)} words are missing: {' '.join(names[len(words):])}")
    return {name: value(name, one) for name, one in zip(names, words)}, words[len(names):]


def answer_of(words):
    """An answer's fields: its word, and what stands behind it."""
    if not words or words[0] not in ANSWERS:
        raise NoRecord(f"{' '.join(words)!r} is no answer")
    forms = [form.split() for form in ANSWERS[words[0]]]
    names = next((form for form in forms if len(form) == len(words) - 1), forms[0])
    has_list = names[-1:] == ["timers"]
    fields, left = take(names[:-1] if has_list else names, words[1:])
    fields = {"answer": words[0], **fields}
    if has_list:
        fields["timers"], left = [number(one) for one in left], []
        if len(fields["timers"]) != fields["count"]:
            raise NoRecord(f"{fields['count']} timers ran, and {len(fields['timers'])} are named")
    if left:
        raise NoRecord(f"more words than an answer {words[0]} has: {' '.join(left)}")
    return fields


def event_names(kind, event, version):
    if event not in EVENTS[kind]:
        raise NoRecord(f"{event!r} is no event of a line {kind}")
    wide = WIDE.get((kind, event)) if version == 2 else None
    return (wide or EVENTS[kind][event]).split()


def fields_of(line, version):
    """The fields of a line."""
    kind, *words = line.split(" ")
    if kind not in KINDS:
        raise NoRecord(f"{kind!r} begins no line of a record")
    fields, names = {"kind": kind}, KINDS[kind].split()
    plain = [name for name in names if name not in ("event", "answer")]
    found, words = take(plain, words)
    fields.update(found)
    if "event" in names:
        if not words:
            raise NoRecord("no event stands there")
        fields["event"], names = words[0], event_names(kind, words[0], version)
        found, words = take([name for name in names if name != "answer"], words[1:])
        fields.update(found)
    if "answer" in names:
        found, words = answer_of(words), []
        # What an object's entry answers has names of its own, beside those of what was asked.
        fields.update(found if kind == "call" else {"answer": found})
    if words:
        raise NoRecord(f"more words than a line {kind} has: {' '.join(words)}")
    return fields


def answer_words(fields):
    fields = dict(fields)
    name = fields.pop("answer", None)
    for form in (form.split() for form in ANSWERS.get(name, [])):
        if set(form) == set(fields):
            timers = fields.pop("timers", [])
            if not isinstance(timers, list):
                raise NoRecord("timers is no list")
            return [name, *(word(it, fields[it]) for it in form if it != "timers"), *(word("timer", it) for it in timers)]
    raise NoRecord(f"{name!r} is no answer, or has other fields")


def line_of(fields, version):
    """The line that has these fields."""
    fields = dict(fields)
    kind = fields.pop("kind", None)
    if kind not in KINDS:
        raise NoRecord(f"{kind!r} is no kind of line")
    names = KINDS[kind].split()
    if "event" in names:
        names += event_names(kind, fields.get("event"), version)
    words = [kind]
    for name in names:
        if name == "answer":
            words += answer_words(fields if kind == "call" else fields.pop("answer", {}))
            fields = {} if kind == "call" else fields
        elif name not in fields:
            raise NoRecord(f"a line {kind} has no {name}")
        else:
            given = fields.pop(name)
            words.append(given if name == "event" else word(name, given))
    if fields:
        raise NoRecord(f"a line {kind} has no {', '.join(fields)}")
    line = " ".join(words)
    fields_of(line, version)
    return line


def records_of(lines, read, kind_of):
    """Each line's other form by `read`, with the version that the first line names; and what is wrong with which line, if anything is."""
    version, ended = None, False
    for at, line in enumerate(lines, 1):
        try:
            if ended:
                raise NoRecord("a line stands behind the last one")
            found = read(line, version)
            fields = kind_of(line, found)
            if (fields["kind"] == "record") != (at == 1):
                raise NoRecord("a record begins with one line 'record 1' or 'record 2'")
            if at == 1:
                version = fields["version"]
                if version not in (1, 2):
                    raise NoRecord(f"there is no version {version} of the record")
            ended = fields["kind"] == "end"
            yield found
        except NoRecord as wrong:
            raise NoRecord(f"line {at}: {wrong}") from None
    if not ended:
        raise NoRecord("the record has no line 'end'")


def read_record(text):
    """All lines of a record's text, as fields."""
    if text and not text.endswith("\n"):
        raise NoRecord("the last line has no newline")
    return list(records_of(text.split("\n")[:-1], fields_of, lambda line, fields: fields))
