"""Scripts: their lines, and what refuses them."""
import re
from typing import NamedTuple, Optional, Tuple

from timers import CLOCKS

MOST_BYTES = 1048576
MOST_CALLS = 65536
MOST_BUDGET = 4096
MOST_NUMBER = 2**63 - 1
MOST_VERSION = 2
# By version: bases, lanes, timers of all kinds, entries a timer.
MOST_BASES = {1: 8, 2: 64}
MOST_LANES = {1: 16, 2: 64}
MOST_TIMERS = {1: 256, 2: 4096}
MOST_ENTRIES = {1: 2**48 - 16, 2: 2**48 - 2048}

HEADERS = ("hrt", "bases", "lanes", "limit")
# The calls that take a base off line and on line, which the first lane makes alone.
BASE_CALLS = ("offline", "online")
KINDS_OF_CALL = {
    "start": ("raw", "soft"),
    "startrange": ("raw", "soft"),
    "cancel": ("raw", "soft"),
    "settime": ("posix", "queued", "fd"),
    "gettime": ("posix", "queued", "fd"),
    "accept": ("posix", "queued"),
    "overrun": ("posix", "queued"),
    "read": ("fd",),
    "readable": ("fd",),
    "sleep": ("sleeper",),
    "interrupt": ("sleeper",),
    "slept": ("sleeper",),
}


class Refused(Exception):
    """A script is refused: the line, the cause, and the word at fault, where one is (the first word is 0)."""

    def __init__(self, cause, word=None, line=0):
        super().__init__(cause)
        self.line, self.cause, self.word = line, cause, word

    def text(self):
        return f"line {self.line}: {self.cause}\n".encode()


class Declaration(NamedTuple):
    kind: str
    clock: str
    callback: str
    number: int
    base: int

    def is_object(self):
        return self.kind in ("posix", "queued", "fd", "sleeper")


class Call(NamedTuple):
    lane: int
    index: int
    round: int
    verb: str
    args: dict


class Form(NamedTuple):
    """A form of line: its part of the script, the word that chooses it, the word that a callback adds to that, and what its words are."""

    version: int
    part: str
    key: str
    callback: Optional[str]
    words: Tuple[str, ...]


def form(version, part, text):
    words = tuple(text.split())
    key = words[1] if part == "call" else words[0]
    return Form(version, part, key, words[3] if key in ("raw", "soft") else None, words)


FORMS = [
    *(form(1, "header", text) for text in ("hrt V", "bases B", "lanes L", "limit E")),
    *(form(1, "declaration", f"raw I CLOCK {text}") for text in ("once", "every N", "cancels", "starts N B")),
    *(form(2, "declaration", f"soft I CLOCK {text}") for text in ("once", "every N")),
    *(form(1, "declaration", f"{kind} I CLOCK B") for kind in ("posix", "fd")),
    *(form(2, "declaration", f"{kind} I CLOCK B") for kind in ("sleeper", "queued")),
    form(1, "round", "round"),
    *(form(1, "call", f"K {text}") for text in ("start I MODE NS B", "cancel I", "peek I", "expire B N")),
    *(form(1, "call", f"K {verb} D") for verb in ("advance", "set", "suspend")),
    *(form(1, "call", f"K {text}") for text in ("settime I F VS VN IS IN", "gettime I", "accept I", "overrun I", "read I LEN", "readable I")),
    *(form(2, "call", f"K {text}") for text in ("startrange I MODE NS SLACK B", "softexpire B N", "offline B H N", "online B")),
    *(form(2, "call", f"K {text}") for text in ("sleep I F S N", "interrupt I", "slept I", "sigwait")),
]


def number_of(word):
    """The number that a word is: decimal, no sign, no leading zero, at most the end of time."""
    if not re.fullmatch("0|[1-9][0-9]*", word):
        return None
    return int(word) if int(word) <= MOST_NUMBER else None


def lines_of(data):
    lines = data.split(b"\n")
    return lines[:-1] if lines[-1] == b"" else lines


def is_skipped(line):
    return line == b"" or line.startswith(b"#")


class Script:
    """What has been read of a script so far: `add` takes in one more line, or refuses it."""

    def __init__(self):
        self.version, self.header, self.declarations, self.rounds = 1, [], [], 0
        self.calls, self.calls_in_all = [], 0

    @property
    def bases(self):
        return self.header[1]

    @property
    def lanes(self):
        return self.header[2]

    @property
    def limit(self):
        return self.header[3]

    def add(self, line):
        for byte in line:
            if not 32 <= byte <= 126:
                raise Refused("BadByte")
        text = line.decode()
        if text[0] == " " or text[-1] == " " or "  " in text:
            raise Refused("BadSpace")
        words = text.split(" ")
        chosen = self.form_of(words)
        if len(words) != len(chosen.words):
            raise Refused("WordCount")
        values = self.values_of(chosen, words)
        self.look_at_place(chosen)
        for at, name in enumerate(chosen.words):
            if name in values:
                cause = self.limit_passed(chosen, name, values)
                if cause:
                    raise Refused(cause, at)
        kinds = KINDS_OF_CALL.get(chosen.key)
        if chosen.part == "call" and kinds and self.declarations[values["I"]].kind not in kinds:
            raise Refused("WrongKind", 1)
        self.take(chosen, values)

    def form_of(self, words):
        is_call = words[0][0].isdigit()
        if is_call and len(words) < 2:
            raise Refused("WordCount")
        at = 1 if is_call else 0
        known = [it for it in FORMS if it.key == words[at] and (it.part == "call") == is_call and it.version <= self.version]
        if not known:
            raise Refused("UnknownWord", at)
        if known[0].callback is None:
            return known[0]
        if len(words) < 4:
            raise Refused("WordCount")
        known = [it for it in known if it.callback == words[3]]
        if not known:
            raise Refused("UnknownWord", 3)
        return known[0]

    def values_of(self, chosen, words):
        values = {}
        for at, (name, word) in enumerate(zip(chosen.words, words)):
            if name == "CLOCK" or name == "MODE":
                if word not in (CLOCKS if name == "CLOCK" else ("rel", "abs")):
                    raise Refused("UnknownWord", at)
                values[name] = word
            elif name.isupper():
                values[name] = number_of(word)
                if values[name] is None:
                    raise Refused("BadNumber", at)
        return values

    def look_at_place(self, chosen):
        begun = len(self.header) == 4
        right = {
            "header": self.header_at(chosen) == len(self.header),
            "declaration": begun and self.rounds == 0,
            "round": begun,
            "call": self.rounds > 0,
        }
        if not right[chosen.part]:
            raise Refused("BadPlace")
        if chosen.part == "declaration" and len(self.declarations) == MOST_TIMERS[self.version]:
            raise Refused("TimerLimit")
        if chosen.part == "call" and self.calls_in_all == MOST_CALLS:
            raise Refused("CallLimit")

    @staticmethod
    def header_at(chosen):
        return HEADERS.index(chosen.key) if chosen.key in HEADERS else None

    def header_limit(self, key):
        """The cause and the greatest number of a header line."""
        return {
            "hrt": ("Version", MOST_VERSION),
            "bases": ("BaseLimit", MOST_BASES[self.version]),
            "lanes": ("LaneLimit", MOST_LANES[self.version]),
            "limit": ("EventLimit", MOST_ENTRIES[self.version]),
        }[key]

    def limit_passed(self, chosen, name, values):
        """The cause where a number is out of its range."""
        value = values[name]
        if chosen.part == "header":
            cause, most = self.header_limit(chosen.key)
            return None if 1 <= value <= most else cause
        if name == "K":
            return None if value < (1 if chosen.key in BASE_CALLS else self.lanes) else "LaneLimit"
        if name == "B":
            return None if value < self.bases else "BaseLimit"
        if name == "I" and chosen.part == "declaration":
            return None if value == len(self.declarations) else "BadId"
        if name == "I":
            return None if value < len(self.declarations) else "NoTimer"
        if name == "H":
            return None if value < values["B"] else "HeirLimit"
        if chosen.key in ("expire", "softexpire", "offline") and name == "N":
            return None if value <= MOST_BUDGET else "BudgetLimit"
        return None

    def take(self, chosen, values):
        if chosen.part == "header":
            self.header.append(next(iter(values.values())))
            if chosen.key == "hrt":
                self.version = values["V"]
            if chosen.key == "lanes":
                self.calls = [[] for _ in range(values["L"])]
        elif chosen.part == "declaration":
            callback = chosen.callback or "trigger"
            self.declarations.append(Declaration(chosen.key, values["CLOCK"], callback, values.get("N", 0), values.get("B", 0)))
        elif chosen.part == "round":
            self.rounds += 1
        else:
            lane = values.pop("K")
            self.calls[lane].append(Call(lane, len(self.calls[lane]), self.rounds, chosen.key, values))
            self.calls_in_all += 1


def read_lines(data, script):
    """Reads a script's bytes into `script`, which keeps what was read where a line is refused."""
    if len(data) > MOST_BYTES:
        raise Refused("TooLong")
    lines = lines_of(data)
    for number, line in enumerate(lines, 1):
        if is_skipped(line):
            continue
        try:
            script.add(line)
        except Refused as refused:
            refused.line = number
            raise
    if len(script.header) < 4:
        raise Refused("Unfinished", line=len(lines) + 1)


def parse(data):
    script = Script()
    read_lines(data, script)
    return script
