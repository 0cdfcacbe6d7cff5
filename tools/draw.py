#!/usr/bin/env python3
"""bin/hrt draw: a record as a picture in SVG, as concurrent histories are drawn.

    tools/draw.py [--script SCRIPT] [FILE]

Time goes to the right: each column is one step, in an order that the record allows (tools/record_order.py). Above are the writes of the clock; then the
lanes with their calls; then each base that goes off line; then each timer's life, armed, running, on the move, with a mark for each entry, and below it its
object's entries. A wide picture goes on below, in strips, each with the rows that have something there. With the script each call shows its words, and rounds
are marked: a record tells neither. To point at a mark shows its line of the record."""
import os
import sys
from html import escape
from itertools import accumulate

sys.dont_write_bytecode = True
sys.path.insert(1, os.path.join(os.path.dirname(os.path.dirname(os.path.abspath(__file__))), "model"))
import script as scripts  # noqa: E402
from record_json import hint, read_text  # noqa: E402
from record_lines import NoRecord, line_of, read_record  # noqa: E402
from record_order import Order, calls_of  # noqa: E402

ROW, LEFT, TOP, CHARACTER = 36, 100, 60, 6.7
# A column is as wide as the words of its calls want, within these bounds.
NARROWEST, WIDEST = 58, 200
MOST_STEPS = 3000
# How wide a strip is at most, where it can be cut, and the room between two strips.
STRIP, BETWEEN = 1300, 36
MARKS = {"out": "o", "start": "s", "cancel": "x", "claim": "c", "forward": "f", "finish": "e"}
NAMES = {"out": "out", "start": "start", "cancel": "cancel", "claim": "claim", "forward": "forward", "finish": "end of the function"}
STYLE = """
text { font: 11px monospace; fill: #222; }
.faint { fill: #777; }
.band { fill: #f6f6f6; }
.call rect, .more rect { fill: #e8eef7; stroke: #5b7bb0; }
.armed { fill: #9cc7ef; }
.running { fill: #f5b06a; }
.moving { fill: #cdbfe6; }
.offline { fill: #d9d9d9; }
.mark { fill: #fff; stroke: #444; }
.write line { stroke: #3a8f4f; stroke-width: 2; }
.round { stroke: #999; stroke-dasharray: 4 3; }
"""


class Picture:
    def __init__(self, lines, script=None):
        self.version = lines[0]["version"]
        self.lines = lines
        self.calls = calls_of(lines, script)
        self.order = Order(lines, self.calls)
        if len(self.order.steps) > MOST_STEPS:
            raise NoRecord(f"the record has {len(self.order.steps)} steps, and a picture at most {MOST_STEPS}")
        self.column = {at: column for column, at in enumerate(self.order.sorted())}
        self.columns = max(len(self.column), 1)
        self.rounds = self.first_columns() if script else {}
        self.place()
        # Each row has a name, and its parts by the strip that they stand in.
        self.parts, self.rows = [], []

    # ---- places

    def first_columns(self):
        """By round: its first column."""
        first = {}
        for at, column in self.column.items():
            number = self.order.rounds[at]
            first[number] = min(first.get(number, column), column)
        return first

    def place(self):
        """Places the columns: in which strip each is, where it begins there, and where it ends."""
        widths = self.widths()
        self.strip, self.begin, self.ends = [], [], []
        for number, (first, last) in enumerate(self.cut(widths)):
            edges = list(accumulate(widths[first:last], initial=LEFT))
            self.begin += edges[:-1]
            self.strip += [number] * (last - first)
            self.ends.append(edges[-1])
        self.end = [begin + width for begin, width in zip(self.begin, widths)]

    def widths(self):
        widths = [NARROWEST] * self.columns
        for call in self.calls:
            first, last = self.span(call)
            wanted = (max(map(len, self.words(call))) * CHARACTER + 12) / (last - first + 1)
            widths[first:last + 1] = [max(width, min(int(wanted), WIDEST)) for width in widths[first:last + 1]]
        for at, column in self.column.items():
            widths[column] = max(widths[column], min(int(len(label(self.order.steps[at].fields)) * CHARACTER + 6), WIDEST))
        return widths

    def cut(self, widths):
        """The strips, from which column to which: each ends with a round where one ends in reach, else between two calls, else within one."""
        places = list(accumulate(widths, initial=LEFT))
        crossed = {column for call in self.calls for column in range(self.span(call)[0] + 1, self.span(call)[1] + 1)}
        first = 0
        while first < self.columns:
            reached = [it for it in range(first + 1, self.columns + 1) if places[it] - places[first] + LEFT <= STRIP]
            of_rounds = [it for it in reached if it in self.rounds.values() or it == self.columns]
            last = (of_rounds or [it for it in reached if it not in crossed] or reached)[-1]
            yield first, last
            first = last

    def span(self, call):
        """The first and the last column of a call."""
        return tuple(self.column[at] for at in self.order.of_call[call.lane, call.call])

    def words(self, call):
        """What a call shows: its words, where the script is there, and its answer."""
        answer = line_of(call.answer, self.version).split(" ", 3)[3]
        return [call.words, answer] if call.words else [answer]

    def x(self, column):
        """The middle of a column."""
        return (self.begin[column] + self.end[column]) // 2

    def pieces(self, begin, end, x_of):
        """What lies between two columns, strip by strip: from where to where. The second column may be the end of all."""
        has_end = end < self.columns
        last = self.strip[end] if has_end else len(self.ends) - 1
        for strip in range(self.strip[begin], last + 1):
            left = x_of(begin) if strip == self.strip[begin] else LEFT
            right = x_of(end) if has_end and strip == last else self.ends[strip]
            if left < right:
                yield strip, left, right

    def row(self, name):
        """Begins a row."""
        self.rows.append((name, [[] for _ in self.ends]))

    def add(self, strip, *parts):
        self.rows[-1][1][strip] += filter(None, parts)

    @staticmethod
    def text(x, y, text, room, more=""):
        """Text that has so many pixels of room; what doesn't fit is left out, down to nothing."""
        fits = int(room / CHARACTER)
        if len(text) > fits:
            text = text[: fits - 2] + ".." if fits > 3 else ""
        return f'<text{more} x="{x}" y="{y}">{escape(text)}</text>' if text else ""

    def text_in(self, column, y, text):
        """Text in the middle of a column."""
        return self.text(self.x(column), y, text, self.end[column] - self.begin[column] - 4, ' text-anchor="middle"')

    def line(self, fields):
        return escape(line_of(fields, self.version))

    def add_in(self, column, kind, fields, *parts):
        """Parts of a column that show a line of the record."""
        self.add(self.strip[column], f'<g class="{kind}"><title>{self.line(fields)}</title>', *parts, "</g>")

    # ---- rows

    def draw_clock(self):
        self.row("clock")
        for at, step in enumerate(self.order.steps):
            fields = step.fields
            if fields["kind"] == "clock":
                column = self.column[at]
                line = f'<line x1="{self.x(column)}" y1="22" x2="{self.x(column)}" y2="34"/>'
                self.add_in(column, "write", fields, line, self.text_in(column, 16, label(fields)))

    def draw_lane(self, lane):
        self.row(f"lane {lane}")
        for call in self.calls:
            if call.lane != lane:
                continue
            first, last = self.span(call)
            words, kind = self.words(call), "call"
            for strip, left, right in self.pieces(first, last + 1, self.begin.__getitem__):
                title = f'<g class="{kind}"><title>call {call.call} of lane {lane}: {escape(": ".join(words))}</title>'
                box = f'<rect x="{left + 2}" y="3" width="{right - left - 4}" height="{ROW - 6}" rx="3"/>'
                texts = [self.text(left + 6, y, text, right - left - 10) for y, text in zip((15, 28) if len(words) == 2 else (22,), words)]
                self.add(strip, title, box, *texts, "</g>")
                kind = "more"

    def histories(self, kinds, of="timer"):
        """By timer, or by base: the columns and lines of these kinds, from left to right."""
        found = {}
        for at in sorted(self.column, key=self.column.get):
            fields = self.order.steps[at].fields
            if fields["kind"] in kinds:
                found.setdefault(fields[of], []).append((self.column[at], fields))
        return found

    def bar(self, kind, begin, end):
        y, height = (20, 12) if kind == "running" else (4, 14)
        for strip, left, right in self.pieces(begin, end, self.x):
            self.add(strip, f'<rect class="{kind}" x="{left}" y="{y}" width="{right - left}" height="{height}"/>')

    def due(self, begin, end, time):
        """When the timer is due that is armed here, as far as there is room before its next mark."""
        strip, left, right = next(self.pieces(begin, end, self.x))
        room = right - left - 22
        text = next((text for text in (f"due at {time}", str(time)) if len(text) * CHARACTER <= room), "")
        self.add(strip, self.text(left + 11, 15, text, room))

    def draw_timer(self, timer, entries):
        """A timer's life: its state between its entries, as bars, and over them a mark for each entry."""
        self.row(f"timer {timer}")
        since, time = {}, None
        for column, fields in [*entries, (self.columns, None)]:
            now = states_after(set(since), fields) if fields else set()
            for state in sorted(set(since) - now):
                self.bar(state, since.pop(state), column)
            for state in sorted(now - set(since)):
                since[state] = column
        for (column, fields), (end, _) in zip(entries, [*entries[1:], (self.columns, None)]):
            time = fields.get("soft", fields.get("expires", time))
            if is_arming(fields):
                self.due(column, end, time)
            self.mark(column, "?" if fields["kind"] == "look" else MARKS[fields["event"]], fields)

    def mark(self, column, letter, fields):
        x = self.x(column)
        circle = f'<circle class="mark" cx="{x}" cy="18" r="8"/>'
        self.add(self.strip[column], f"<g><title>{self.line(fields)}</title>{circle}", f'<text x="{x}" y="22" text-anchor="middle">{letter}</text></g>')

    def draw_base(self, base, entries):
        """When a base is off line, from the beginning of that entry's column to that of the next one; and its entries."""
        self.row(f"base {base}")
        for (column, fields), (end, _) in zip(entries, [*entries[1:], (self.columns, None)]):
            if fields["event"] == "offline":
                for strip, left, right in self.pieces(column, end, self.begin.__getitem__):
                    self.add(strip, f'<rect class="offline" x="{left}" y="6" width="{right - left}" height="{ROW - 12}"/>')
        for column, fields in entries:
            self.add_in(column, "entry", fields, self.text_in(column, 22, label(fields)))

    def draw_object(self, timer, entries):
        self.row(f"  object {timer}")
        for column, fields in entries:
            self.add_in(column, "entry", fields, self.text_in(column, 22, label(fields)))

    # ---- the whole

    def draw_legend(self):
        x = 8
        kinds = [("armed", "armed"), ("running", "its function runs"), ("moving", "on the move")]
        if self.histories(("base",), "base"):
            kinds.append(("offline", "base off line"))
        for kind, name in kinds:
            self.parts.append(f'<rect class="{kind}" x="{x}" y="10" width="14" height="10"/><text x="{x + 18}" y="19">{name}</text>')
            x += 18 + int(len(name) * CHARACTER) + 14
        names = ", ".join([*(f"{letter} {NAMES[event]}" for event, letter in MARKS.items()), "? a look"])
        self.parts.append(f'<text class="faint" x="8" y="36">{names}</text>')
        return max(x, 8 + int(len(names) * CHARACTER))

    def draw_strip(self, strip, top):
        """The rows that have something in a strip, one below the other, and its rounds. It gives the place of its bottom."""
        rows = [(name, parts[strip]) for name, parts in self.rows if parts[strip] or name == "clock"]
        for number, (name, parts) in enumerate(rows):
            self.parts.append(f'<g transform="translate(0 {top + ROW * number})">')
            if number % 2 == 0:
                self.parts.append(f'<rect class="band" x="0" y="0" width="{max(self.ends) + 10}" height="{ROW}"/>')
            self.parts += [f'<text x="8" y="22">{escape(name)}</text>', *parts, "</g>"]
        bottom = top + ROW * len(rows)
        for number, column in self.rounds.items():
            if self.strip[column] == strip:
                x = self.begin[column]
                self.parts.append(f'<line class="round" x1="{x}" y1="{top - 14}" x2="{x}" y2="{bottom}"/>')
                self.parts.append(self.text(x + 3, top - 5, f"round {number}", NARROWEST, ' class="faint"'))
        return bottom

    def whole(self):
        width = max(self.draw_legend(), *self.ends) + 10
        self.draw_clock()
        lanes = sorted({call.lane for call in self.calls})
        for lane in lanes:
            self.draw_lane(lane)
        for base, entries in sorted(self.histories(("base",), "base").items()):
            self.draw_base(base, entries)
        timers, objects = self.histories(("timer", "look")), self.histories(("object", "skip"))
        for timer in sorted({*timers, *objects}):
            self.draw_timer(timer, timers.get(timer, []))
            if timer in objects:
                self.draw_object(timer, objects[timer])
        bottom = TOP - BETWEEN
        for strip in range(len(self.ends)):
            bottom = self.draw_strip(strip, bottom + BETWEEN)
        height = bottom + 8
        begin = f'<svg xmlns="http://www.w3.org/2000/svg" viewBox="0 0 {width} {height}" width="{width}" height="{height}">'
        title = f"<title>A record of version {self.version}: {len(lanes)} lanes, {len(timers)} timers</title>"
        back = f'<rect width="{width}" height="{height}" fill="#fff"/>'
        return "\n".join([begin, title, f"<style>{STYLE}</style>", back, *self.parts, "</svg>"]) + "\n"


def label(fields):
    """The word that a column shows of a line, where it has no mark."""
    kind, event = fields["kind"], fields.get("event")
    if kind == "clock":
        return {"advance": "+", "set": "=", "suspend": "suspend "}[event] + str(fields["number"])
    if kind == "base":
        return f"to {fields['heir']}" if event == "offline" else "on line"
    return {"object": event, "skip": "skip"}.get(kind, "")


def is_arming(fields):
    """Whether the timer is armed by this entry."""
    return fields["kind"] == "timer" and (fields["event"] == "start" or isinstance(fields.get("rearmed"), int))


def states_after(states, fields):
    """What a timer is after an entry: some of armed, running and moving."""
    if fields["kind"] == "look":
        return set(states)
    after = set(states)
    event = fields["event"]
    if event in ("out", "cancel", "claim"):
        after.discard("armed")
    if event == "out":
        after.add("moving")
    elif event == "start":
        after.discard("moving")
    elif event == "claim":
        after.add("running")
    elif event == "finish":
        after.discard("running")
    return after | {"armed"} if is_arming(fields) else after


def read_script(name):
    try:
        with open(name, "rb") as file:
            return scripts.parse(file.read())
    except OSError as error:
        print(f"hrt: {name}: {error.strerror}", file=sys.stderr)
        sys.exit(4)
    except scripts.Refused as refused:
        print(f"hrt: {name}: line {refused.line}: {refused.cause}", file=sys.stderr)
        sys.exit(1)


def main(words):
    script = None
    if words[:1] == ["--script"] and len(words) > 1:
        script, words = read_script(words[1]), words[2:]
    text = read_text(words, "bin/hrt draw [--script SCRIPT] [FILE]")
    try:
        drawn = Picture(read_record(text), script).whole()
    except NoRecord as wrong:
        print(f"hrt: {wrong}{hint(text)}", file=sys.stderr)
        return 1
    try:
        sys.stdout.write(drawn)
        sys.stdout.flush()
    except OSError as error:
        print(f"hrt: standard output: {error.strerror}", file=sys.stderr)
        return 5
    return 0


if __name__ == "__main__":
    sys.exit(main(sys.argv[1:]))
