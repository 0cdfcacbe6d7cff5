#!/usr/bin/env python3
"""The model as a program, with the words, bytes and statuses of `hrt`:

    python3 model/hrt.py run < SCRIPT
    python3 model/hrt.py gen --seed N --lanes N --calls N

Where lanes run beside each other in a round, it runs them one after another, which is one of the orders that they may come in."""
import os
import sys

from generator import generated
from record import summary, text
from script import MOST_BYTES, Refused, number_of, parse
from world import World

USAGE = "usage: hrt run | hrt gen --seed N --lanes N --calls N"
RANGES = {"seed": (0, 2147483647), "lanes": (1, 8), "calls": (0, 4096)}


def asked(words):
    """'run', the three numbers of `gen`, or None where the words ask for nothing."""
    if words == ["run"]:
        return "run"
    if words[:1] != ["gen"]:
        return None
    rest, numbers = [], {}
    for word in words[1:]:
        rest += word.split("=", 1) if word.startswith("--") else [word]
    if len(rest) != 6:
        return None
    for name, word in zip(rest[::2], rest[1::2]):
        name, number = name.removeprefix("--") if name.startswith("--") else "", number_of(word)
        if name not in RANGES or name in numbers or number is None or not RANGES[name][0] <= number <= RANGES[name][1]:
            return None
        numbers[name] = number
    return numbers["seed"], numbers["lanes"], numbers["calls"]


def answer_to(data):
    """The status and the text that answer the bytes of a script."""
    try:
        return 0, text(World(parse(data)).run())
    except Refused as refused:
        return 3, refused.text()


def summary_of(seed, lanes, calls):
    return summary(World(parse(generated(seed, lanes, calls))).run())


def main(words):
    wish = asked(words)
    if wish is None:
        print(USAGE, file=sys.stderr)
        return 2
    if wish != "run":
        status, answer = 0, summary_of(*wish)
    else:
        try:
            status, answer = answer_to(sys.stdin.buffer.read(MOST_BYTES + 1))
        except OSError:
            print("hrt: read fault", file=sys.stderr)
            return 4
    try:
        while answer:
            answer = answer[os.write(1, answer):]
    except OSError:
        print("hrt: write fault", file=sys.stderr)
        return 5
    return status


if __name__ == "__main__":
    sys.exit(main(sys.argv[1:]))
