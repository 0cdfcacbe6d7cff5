#!/usr/bin/env python3
"""Says more of a failure than the program's own line does, by reading the same words or the same input again. bin/hrt calls it:

    tools/explain.py words WORD..      what is wrong with the words of a command line; status 2 where they ask for nothing
    tools/explain.py script [PLACE]    what refuses the script on standard input, which begins at this place of it
    tools/explain.py trace STATUS [PLACE]      what a trace is, on standard input, that hrt_check answered with status 3 or 8; it begins at this place
    tools/explain.py input [FILE]      the system's reason why a file can't be read, or standard input, which is lent as handle 3
    tools/explain.py output            the system's reason why standard output can't be written, where it still has one

The script is read by the model of model/, whose refusals are compared with the program's (`.ci/compare`)."""
import difflib
import errno
import os
import re
import select
import stat
import sys

sys.dont_write_bytecode = True
TOP = os.path.dirname(os.path.dirname(os.path.abspath(__file__)))
sys.path.insert(0, os.path.join(TOP, "model"))
import script as scripts  # noqa: E402
from command import COMMANDS, GEN  # noqa: E402
from script import FORMS, HEADERS, KINDS_OF_CALL, Refused  # noqa: E402

HELP = "bin/hrt --help says what there is"
BYTES = {0: "a zero byte", 9: "a tab", 13: "a carriage return", 127: "a delete character"}
MARK = b"\xef\xbb\xbf"


def shown(word):
    """A word as it may be printed: what isn't printable ASCII stands as an escape."""
    return word if word.isascii() and word.isprintable() else repr(os.fsencode(word))[2:-1]


def near(word, known):
    """A hint where the word is nearly one of these."""
    found = difflib.get_close_matches(word, known, 1, 0.6)
    return f"; did you mean {found[0]}?" if found else ""


def amount(number, name):
    return f"{number} {name}{'s' * (number != 1)}"


def together(names, last="and"):
    """All these names, as a sentence has them."""
    return f" {last} ".join(filter(None, (", ".join(names[:-1]), names[-1])))


# ---- words


def number_fault(word):
    """Why a word is no number of a script or an option."""
    if not word:
        return "nothing stands there"
    if not (word.isascii() and word.isdigit()):
        return "a number has the digits 0 to 9 alone, no sign"
    if word[0] == "0" and len(word) > 1:
        return "a number doesn't begin with 0"
    return f"the greatest number is {scripts.MOST_NUMBER}"


def option_faults(option, values):
    if not values:
        yield f"{option.name} is missing: {option.range()}"
    elif len(values) > 1:
        yield f"{option.name} is given {len(values)} times"
    elif values[0] is None:
        yield f"{option.name} has no number: {option.range()}"
    else:
        number = scripts.number_of(values[0])
        if number is None:
            yield f"{option.name} {shown(values[0])}: {number_fault(values[0])}; {option.range()}"
        elif not option.least <= number <= option.most:
            yield f"{option.name} {shown(values[0])}: {option.range()}"


def gen_faults(words):
    values, rest = {it.name: [] for it in GEN.options}, list(words)
    while rest:
        word = rest.pop(0)
        name, has_value, value = word.partition("=")
        if name not in values:
            yield f"gen takes no {shown(word)}{near(name, values)}"
        elif has_value:
            values[name].append(value)
        else:
            values[name].append(rest.pop(0) if rest and not rest[0].startswith("--") else None)
    for option in GEN.options:
        yield from option_faults(option, values[option.name])


def word_faults(words):
    names = [it.name for it in COMMANDS]
    strange = [word for word in words if any(0xDC80 <= ord(it) <= 0xDCFF for it in word)]
    if strange:
        yield f"{shown(strange[0])} isn't UTF-8"
    elif not words:
        yield f"no command is given: {together(names, 'or')}; {HELP}"
    elif words[0] == "gen":
        yield from gen_faults(words[1:])
    elif words[0] == "run":
        options = [word for word in words[1:] if word.startswith("-") and word != "-"]
        yield from (f"run takes no {shown(word)}" for word in options)
        yield from (f"run takes one FILE, and {shown(word)} is one more" for word in [it for it in words[1:] if it not in options][1:])
    else:
        yield f"{shown(words[0])} is no command{near(words[0], names)}; {HELP}"


# ---- scripts


def byte_fault(line):
    at = next(at for at, byte in enumerate(line) if not 32 <= byte <= 126)
    byte = line[at]
    if line[at:].startswith(MARK):
        return f"column {at + 1}: a byte order mark (bytes 239 187 191): a script has none"
    what = f"{BYTES[byte]} (byte {byte})" if byte in BYTES else f"byte {byte}"
    hint = {9: "words are parted by one space", 13: "lines end with a newline alone"}.get(byte, "lines have the bytes 32 to 126 alone")
    return f"column {at + 1}: {what}: {hint}"


def space_fault(line):
    if line.startswith(b" "):
        return "column 1: the line begins with a space"
    if line.endswith(b" "):
        return f"column {len(line)}: the line ends with a space"
    return f"column {line.index(b'  ') + 1}: two spaces stand together"


def forms_of(words, version):
    """The forms that a line begins as."""
    at = 1 if words[0][:1].isdigit() else 0
    is_call = at == 1
    return [it for it in FORMS if len(words) > at and it.key == words[at] and (it.part == "call") == is_call and it.version <= version]


def written(form):
    """A form, as docs/SCRIPT.md writes it."""
    return " ".join({"MODE": "rel|abs"}.get(word, word) for word in form.words)


def count_fault(words, version):
    if words[0][:1].isdigit() and len(words) == 1:
        return "a call has a word behind its lane"
    known = forms_of(words, version)
    if known[0].callback and len(words) > 3:
        known = [it for it in known if it.callback == words[3]]
    return f"{amount(len(words), 'word')}, in place of {' or '.join(f'{len(it.words)}: {written(it)}' for it in known)}"


def unknown_fault(words, at, version):
    word, is_call = words[at], words[0][:1].isdigit()
    known = forms_of(words, version)
    if at == 0 or is_call and at == 1:
        every = [it for it in FORMS if (it.part == "call") == is_call]
        if any(it.key == word for it in every):
            return f"{word} is a word of version 2, and the script begins with hrt {version}"
        keys = list(dict.fromkeys(it.key for it in every if it.version <= version))
    elif at == 3 and known and known[0].callback:
        every = [it for it in FORMS if it.key == words[0]]
        keys = [it.callback for it in every if it.version <= version]
    else:
        keys = list(scripts.CLOCKS) if known[0].words[at] == "CLOCK" else ["rel", "abs"]
    return f"{shown(word)}: {', '.join(keys)}{near(word, keys)}"


def place_fault(words, script):
    lacking = [f"{key} {name}" for key, name in zip(HEADERS, "VBLE")][len(script.header):]
    form = forms_of(words, script.version)[0]
    if lacking and form.part == "header":
        return f"{lacking[0]} stands first" if HEADERS.index(form.key) > len(script.header) else f"{form.key} stands once"
    if lacking:
        return f"the header isn't whole: {', '.join(lacking)} come{'s' * (len(lacking) == 1)} first"
    if form.part == "call":
        return "a call stands behind the first round"
    return f"{form.key} stands before the first round" if form.part == "declaration" else f"{form.key} stands once, in the header"


def of_these(number, name):
    """The numbers from 0 that so many things have."""
    return f"the script has {amount(number, name)}, " + ("number 0" if number == 1 else f"0 to {number - 1}")


def limit_fault(cause, words, at, script):
    """What is wrong with a number out of its range."""
    word, version = words[at], script.version
    if words[0] in HEADERS:
        most = script.header_limit(words[0])[1]
        return f"{words[0]} {word}: 1 to {most}" + (f" in version {version}" if words[0] != "hrt" else "")
    declared = len(script.declarations)
    return {
        "BaseLimit": lambda: f"base {word}: {of_these(script.bases, 'base')}",
        "LaneLimit": lambda: f"lane {word}: " + ("the first lane, 0, makes this call" if words[1] in scripts.BASE_CALLS else of_these(script.lanes, "lane")),
        "HeirLimit": lambda: f"heir {word}: a base of a lower number than {words[2]}",
        "BadId": lambda: f"timer {word}: timers are numbered from 0, in the order of their lines: this one is {declared}",
        "NoTimer": lambda: f"timer {word}: " + (of_these(declared, "timer") if declared else "the script declares none"),
        "BudgetLimit": lambda: f"a budget of {word}: 0 to {scripts.MOST_BUDGET}",
    }[cause]()


def refusal(refused, line, script):
    """What there is to say of a refused line."""
    cause, at = refused.cause, refused.word
    if cause == "TooLong":
        return f"a script has at most {scripts.MOST_BYTES} bytes"
    if cause == "Unfinished":
        lacking = [f"{key} {name}" for key, name in zip(HEADERS, "VBLE")][len(script.header):]
        return f"the script ends before its header does: it lacks {', '.join(lacking)}"
    if cause == "BadByte":
        return byte_fault(line)
    if cause == "BadSpace":
        return space_fault(line)
    words = line.decode().split(" ")
    column = f"column {len(' '.join(words[:at])) + 2 if at else 1}: " if at is not None else ""
    if cause == "WordCount":
        return count_fault(words, script.version)
    if cause == "UnknownWord":
        return column + unknown_fault(words, at, script.version)
    if cause == "BadNumber":
        return f"{column}{shown(words[at])}: {number_fault(words[at])}"
    if cause == "BadPlace":
        return place_fault(words, script)
    if cause == "TimerLimit":
        return f"version {script.version} has at most {scripts.MOST_TIMERS[script.version]} timers"
    if cause == "CallLimit":
        return f"a script has at most {scripts.MOST_CALLS} calls"
    if cause == "WrongKind":
        kind, known = script.declarations[int(words[2])].kind, {it.key for it in FORMS if it.version <= script.version}
        kinds = [it for it in KINDS_OF_CALL[words[1]] if it in known]
        return f"{column}{words[1]} is a call on {together(kinds)} timers, and timer {words[2]} is {kind}"
    return column + limit_fault(cause, words, at, script)


def script_faults(data):
    script = scripts.Script()
    try:
        scripts.read_lines(data, script)
    except Refused as refused:
        lines = scripts.lines_of(data)
        line = lines[refused.line - 1] if 0 < refused.line <= len(lines) else b""
        yield f"line {refused.line}: {refusal(refused, line, script)}"


# ---- traces

TIMER_EVENT = re.compile(rb"(?:^| )(?:timer:)?hrtimer_(?:setup|init|start|cancel|expire_entry|expire_exit):(?= |\r|$)")
WANTED = "wanted is the text that tracefs' file trace, 'trace-cmd report' or 'perf script' gives"
BEGINNINGS = (
    (b"\x1f\x8b", "packed by gzip: gzip -dc FILE | bin/hrt check"),
    (b"\x28\xb5\x2f\xfd", "packed by zstd: zstd -dc FILE | bin/hrt check"),
    (b"\xfd7zXZ", "packed by xz: xz -dc FILE | bin/hrt check"),
    (b"\x17\x08Dtracing", "a trace.dat: trace-cmd report FILE | bin/hrt check"),
    (b"PERFILE2", "a perf.data: perf script -i FILE | bin/hrt check"),
    (b"\x7fELF", f"a program; {WANTED}"),
    (b"hrt ", "a script: bin/hrt run FILE"),
    (b"record ", "a record of bin/hrt run"),
)


def empty_fault(data):
    """What a text is in which no line tells an event of a timer."""
    if not data:
        return f"nothing was read; {WANTED}"
    for beginning, what in BEGINNINGS:
        if data.startswith(beginning):
            return f"this is {what}"
    if b"\0" in data:
        return f"line {data[: data.index(0)].count(10) + 1} has a zero byte: this is binary; {WANTED}"
    if data.startswith(b"# tracer:"):
        return "a trace without the events timer:hrtimer_*; docs/TRACES.md says how to record them"
    return f"no line has an event of timer:hrtimer_*; {WANTED}"


def line_faults(lines):
    """What may be wrong with the first line of a timer's event that can't be read: a carriage return, or the text's end."""
    number, line = 0, b"\n"
    for number, line in enumerate(lines, 1):
        if b"\r" in line and TIMER_EVENT.search(line.rstrip(b"\n")):
            yield f"line {number}: column {line.index(13) + 1}: a carriage return (byte 13): lines end with a newline alone"
            return
    if not line.endswith(b"\n"):
        yield f"line {number} has no newline: the text ends in mid-line"


def trace_faults(status, stream):
    if status == "8":
        yield empty_fault(stream.read(1 << 16))
    else:
        yield from line_faults(stream)


# ---- input that can't be read


def input_faults(path):
    name = "standard input" if path is None else shown(path)
    try:
        handle = 3 if path is None else os.open(path, os.O_RDONLY)
        os.read(handle, 1)
    except OSError as error:
        yield f"{name}: {error.strerror}"


# ---- output that can't be written


def refusal_of_output():
    """The number of the reason why a write to standard output is refused, or 0. Nothing is written."""
    try:
        os.write(1, b"")
        what, room = os.fstat(1), os.fstatvfs(1)
    except OSError as error:
        return error.errno
    if stat.S_ISFIFO(what.st_mode) or stat.S_ISSOCK(what.st_mode):
        poll = select.poll()
        poll.register(1, select.POLLOUT)
        return errno.EPIPE if any(events & (select.POLLERR | select.POLLHUP) for _, events in poll.poll(0)) else 0
    return errno.ENOSPC if stat.S_ISREG(what.st_mode) and not room.f_bavail else 0


def output_faults():
    number = refusal_of_output()
    if number:
        yield f"standard output: {os.strerror(number)}"


def main(words):
    kind, rest = words[0] if words else "", words[1:]
    if kind == "words":
        faults = list(word_faults(rest))
    elif kind == "script":
        if rest:
            os.lseek(0, int(rest[0]), os.SEEK_SET)
        faults = list(script_faults(sys.stdin.buffer.read(scripts.MOST_BYTES + 1)))
    elif kind == "trace" and rest:
        if rest[1:]:
            os.lseek(0, int(rest[1]), os.SEEK_SET)
        faults = list(trace_faults(rest[0], sys.stdin.buffer))
    elif kind == "input":
        faults = list(input_faults(rest[0] if rest else None))
    elif kind == "output":
        faults = list(output_faults())
    else:
        print(__doc__, file=sys.stderr)
        return 2
    for fault in faults:
        print(f"hrt: {fault}", file=sys.stderr)
    return 2 if kind == "words" and faults else 0


if __name__ == "__main__":
    sys.exit(main(sys.argv[1:]))
