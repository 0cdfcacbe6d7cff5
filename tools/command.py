#!/usr/bin/env python3
"""The command line of bin/hrt, defined once, and the help text that is made of it. `tools/manual.py` makes the man page and the shells'
completions; `.ci/doors` compares the definition with that of the proved program."""
import sys
from typing import NamedTuple, Tuple


class Option(NamedTuple):
    """An option: with a number in this range, with a file, or with nothing."""

    name: str
    says: str
    least: int = 0
    most: int = -1
    file: str = ""

    def has_number(self):
        return self.least <= self.most

    def range(self):
        return f"{self.least} to {self.most}"

    def whole(self):
        """The option with what stands behind it, as it is typed."""
        return " ".join(filter(None, (self.name, "N" if self.has_number() else self.file)))

    def says_all(self):
        return f"{self.says}: {self.range()}" if self.has_number() else self.says


class Command(NamedTuple):
    name: str
    says: str
    takes_file: bool = False
    options: Tuple[Option, ...] = ()
    all_required: bool = False
    more: str = ""
    example: str = ""

    def synopsis(self):
        words = [self.name]
        words += [it.whole() if self.all_required else f"[{it.whole()}]" for it in self.options]
        return " ".join(words + ["[FILE]"] * self.takes_file)


USAGE = "usage: hrt run | hrt gen --seed N --lanes N --calls N"

# Commands of the proved program.
RUN = Command(
    "run",
    "runs a script of timer calls, and prints the record of what happened",
    takes_file=True,
    more="docs/SCRIPT.md has the words of scripts and records. A script that cannot be read ends with status 3.",
    example="bin/hrt run examples/one_shot.hrt",
)
GEN = Command(
    "gen",
    "makes a script from a number, runs it, and prints a summary of its record",
    options=(
        Option("--seed", "the number that the script is made from", 0, 2147483647),
        Option("--lanes", "how many lanes call, each with a base of its own", 1, 8),
        Option("--calls", "how many calls are drawn for each lane", 0, 4096),
    ),
    all_required=True,
    more="The summary counts more calls than are drawn: the clock is moved before every four calls of a lane and once at the end, and last each lane "
    "expires its base.",
    example="bin/hrt gen --seed 7 --lanes 8 --calls 4096",
)
OF_PROGRAM = (RUN, GEN)

# Commands beside it.
CHECK = Command(
    "check",
    "says whether a trace of the timers of a Linux kernel is a history that the model gives",
    takes_file=True,
    options=(
        Option("--summary", "prints a table too, of events by kind, most timers queued at once, and latest expiries"),
        Option("--prove", "proves the program hrt_check in place of a check, in some 6 minutes on four idle processors, and keeps it"),
    ),
    more="docs/TRACES.md says how to record a trace. One that does not fit ends with status 7.",
    example="bin/hrt check --summary trace.txt",
)
JSON = Command(
    "json",
    "prints a record as JSON, one object a line",
    takes_file=True,
    options=(Option("--to-text", "reads such lines, and prints the text of the record"),),
    more="tools/README.md has the names of the fields.",
    example="bin/hrt run examples/one_shot.hrt | bin/hrt json",
)
DRAW = Command(
    "draw",
    "draws a record as a picture, in SVG",
    takes_file=True,
    options=(Option("--script", "the script of the record, so that its rounds and the words of its calls are shown", file="SCRIPT"),),
    more="A wide picture goes on below itself, with whole rounds in each strip where the script is there.",
    example="bin/hrt run examples/periodic.hrt | bin/hrt draw --script examples/periodic.hrt > periodic.svg",
)
LIB = Command(
    "lib",
    "proves the libraries for C where they are not kept, in some 8 minutes on four idle processors, keeps them, and prints their folder",
    options=(Option("--prove", "the same, since no library is made without its proof"),),
    more="docs/FROM_C.md has what they export.",
    example="bin/hrt lib",
)
COMMANDS = (*OF_PROGRAM, CHECK, JSON, DRAW, LIB)

OPTIONS = (
    Option("--prove", "proves the program of run and gen, in half an hour to an hour on four processors, and keeps it"),
    Option("--program", "prints where the program is that run and gen start; builds one where none is"),
    Option("--version", "prints which version, commit, program and kit these are"),
    Option("--help", "prints this text; beside a command, the help of that one"),
)

STATUSES = (
    (0, "done"),
    (1, "no program or library is there, and none could be built; a record can't be read"),
    (2, "the words ask for nothing that there is, or for help"),
    (3, "the script is refused: 'line N: CAUSE' is printed in place of a record; a line of a trace can't be read"),
    (4, "a read failed; nothing was printed"),
    (5, "a write failed; a part of the text was printed"),
    (6, "out of memory; nothing was printed"),
    (7, "the trace doesn't fit: 'line N: CAUSE' is printed"),
    (8, "the trace has no event of a timer, so that nothing was checked: 'no timer events' is printed"),
)

INTRODUCTION = (
    "hrt runs scripts of timer calls on the proved library of timers, and prints what happened. A FILE that is left out, or is -, is standard input.",
    "bin/hrt runs the proved program where one is there, and else one that is built without its proofs: that has run-time checks, and is "
    "much slower. It says so once, and --version says which one there is.",
)
EXAMPLE = (
    "bin/hrt run examples/one_shot.hrt",
    "bin/hrt gen --seed 7 --lanes 8 --calls 4096",
    "bin/hrt run examples/periodic.hrt | bin/hrt draw --script examples/periodic.hrt > periodic.svg",
)
ENVIRONMENT = (
    ("HRT_PROGRAM", "a program to run in place of the one that is built here for run and gen"),
    ("HRT_CHECK_PROGRAM", "a program to run in place of the one that is built here for check"),
)
SEE_ALSO = "docs/SCRIPT.md has the words of scripts and records, examples/ scripts with their records."


def wrapped(text, begin, width=96):
    """The text in lines of this width, each with this begin."""
    lines, line = [], ""
    for word in text.split():
        if line and len(begin) + len(line) + 1 + len(word) > width:
            lines.append(begin + line)
            line = ""
        line = f"{line} {word}" if line else word
    return [*lines, begin + line]


def entry(name, says):
    """A line of a list in the help text."""
    first, *rest = wrapped(says, " " * 19)
    return [f"  {name:<17}{first[19:]}", *rest] if len(name) <= 16 else [f"  {name}", first, *rest]


def options_of(command):
    """What the options of a command are, a line or more each."""
    return [line for option in command.options for line in entry(f"  {option.whole()}", option.says_all())]


def help_of(command):
    """The help text of one command."""
    lines = [f"usage: bin/hrt {command.synopsis()}", "", *wrapped(f"It {command.says}.", "")]
    if command.takes_file:
        lines += wrapped("A FILE that is left out, or is -, is standard input.", "")
    lines += ["", *wrapped(command.more, "")]
    if command.options:
        lines += ["", "Options:", *options_of(command)]
    lines += ["", "Example:", f"  {command.example}", "", "bin/hrt --help has the other commands, and the exit statuses."]
    return "\n".join(lines) + "\n"


def help_text():
    lines = ["usage: bin/hrt COMMAND [FILE]", ""]
    for text in INTRODUCTION:
        lines += [*wrapped(text, ""), ""]
    lines.append("Commands:")
    for command in COMMANDS:
        lines += [*entry(command.synopsis(), command.says), *options_of(command)]
    lines += ["", "Options:"]
    for option in OPTIONS:
        lines += entry(option.name, option.says)
    lines += ["", "Exit status:"]
    for status, says in STATUSES:
        lines += entry(str(status), says)
    lines += ["", "Environment:"]
    for name, says in ENVIRONMENT:
        lines += entry(name, says)
    lines += ["", "Examples:", *(f"  {it}" for it in EXAMPLE), "", SEE_ALSO]
    return "\n".join(lines) + "\n"


def main(words):
    """Prints the help text, or that of the command named."""
    named = [it for it in COMMANDS if [it.name] == words]
    sys.stdout.write(help_of(named[0]) if named else help_text())


if __name__ == "__main__":
    main(sys.argv[1:])
