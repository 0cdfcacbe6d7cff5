#!/usr/bin/env python3
"""Changes a recorded trace at one place, many times, and draws as many short traces, and compares hrt_check with a short checker of its own.

usage: trace_mutations.py PROGRAM TRACE COUNT SEED      PROGRAM may have words behind it: "bin/hrt check"

Prints how many of the changed traces were refused, by cause, and how many still fit, and the same of the drawn ones; and each one of which the
two say different things. The checker here keeps all expiries of a processor and looks at each of them, where the program keeps
few.
"""
import random
import re
import subprocess
import sys
from collections import Counter

LINE = re.compile(r"\[(\d+)\] (\S+) +[\d.]+: hrtimer_(\w+): (.*)$")


def fields(text):
    return dict(w.split("=", 1) for w in text.split() if "=" in w)


def events(lines):
    for number, line in enumerate(lines, 1):
        found = LINE.search(line)
        if found:
            processor, flags, name, rest = found.groups()
            soft = flags[2:3] == "s"
            told = soft if flags[2:3] in "hHs" else None
            yield number, name, int(processor), told, fields(rest)


class Place:
    """What runs on a processor: timers, by what their expiry's line told; and in which contexts one may be left from before the recording."""

    def __init__(self):
        self.running = []
        self.left = {False, True}


class Timer:
    def __init__(self):
        self.armed = None  # None: not known; False; or (soft, expires)
        self.runs = None  # None: not known; False; or the processor and its number plus 1
        self.clock = None
        self.told = None  # the context by a set-up or flags: True is soft
        self.context = None  # the same, or by what it ran inside or around
        self.home = None
        self.order = None


def clock_of(f):
    clock = f["clockid"]
    if clock == "CLOCK_REALTIME" and f["mode"].startswith("REL"):
        clock = "CLOCK_MONOTONIC"
    return clock if clock in ("CLOCK_MONOTONIC", "CLOCK_REALTIME", "CLOCK_BOOTTIME") else None


def context_of(mode):
    return True if "SOFT" in mode else False if "HARD" in mode else None


def check(lines):
    """The number of the first line that doesn't fit and why, or None."""
    timers, places, claims = {}, {}, []
    for number, name, processor, told, f in events(lines):
        address = int(f["hrtimer"], 16)
        t = timers.setdefault(address, Timer())
        if name in ("setup", "init"):
            if t.armed:
                return number, "SetUpArmed"
            if t.runs:
                return number, "SetUpRunning"
            t = timers[address] = Timer()
            t.armed = t.runs = False
            t.clock = clock_of(f)
            t.told = t.context = context_of(f["mode"])
        elif name == "start":
            soft, expires = int(f["softexpires"]), int(f["expires"])
            if expires < soft:
                return number, "SoftAfterHard"
            was = f.get("was_armed")
            if was == "1" and t.armed is False:
                return number, "WasNotArmed"
            if was == "0" and t.armed:
                return number, "WasArmed"
            t.armed = (soft, expires)
            t.home = t.runs - 1 if t.runs else None
            t.order = number if t.clock and t.runs is False else None
        elif name == "cancel":
            if t.runs:
                return number, "Running"
            if t.armed is False:
                return number, "NotArmed"
            t.armed = t.runs = False
            t.home = t.order = None
        else:
            here = places.setdefault(processor, Place())
            line = told if told is not None else t.told
            context = told if told is not None else t.context
            if name == "expire_entry":
                now = int(f["now"])
                if t.runs:
                    return number, "Running"
                if t.armed is False:
                    return number, "NotArmed"
                if t.home not in (None, processor):
                    return number, "OtherProcessor"
                if told is not None and t.context is not None and told != t.context:
                    return number, "OtherContext"
                if t.armed and now < t.armed[0]:
                    return number, "TooEarly"
                # Inside another function only a hard one begins, and that one is soft then.
                if len(here.running) > 1 or any(context is True or u.context is False for u in here.running):
                    return number, "SecondFunction"
                if t.order is not None and line is not None:
                    place = (processor, line, t.clock)
                    key = (t.armed[1], t.order)
                    if any(p == place and at > t.order and k > key for p, k, at in claims):
                        return number, "OutOfOrder"
                    claims.append((place, key, number))
                here.left.discard(False)
                if here.running or line is True:
                    here.left.discard(True)
                for u in here.running:
                    u.context, context = True, False
                here.running.append(t)
                t.armed, t.runs, t.told, t.context = False, processor + 1, line, context
                t.home = t.order = None
            else:
                if told is not None and t.context is not None and told != t.context:
                    return number, "OtherContext"
                may = here.left if line is None else here.left & {line}
                if t.runs is False or (t.runs is None and not may) or (t.runs and t.runs != processor + 1):
                    return number, "NotRunning"
                if t.runs is None:
                    t.home = processor
                    if context is None and len(may) == 1:
                        (context,) = may
                        here.left.clear()
                here.left.discard(line)
                here.running = [u for u in here.running if u is not t]
                t.runs, t.told, t.context = False, line, context
    return None


def changed(lines, rng):
    """The lines with one change, and what it was: half of them with no flags, as perf prints them."""
    if rng.random() < 0.5:
        lines = [re.sub(r"(\[\d+\]) \S+ ", r"\1 ..... ", line) for line in lines]
    places = [i for i, line in enumerate(lines) if "hrtimer_" in line]
    i = rng.choice(places)
    new = list(lines)
    kind = rng.choice(["time", "processor", "timer", "drop", "double", "swap", "later", "was_armed", "flags"])
    line = new[i]
    if kind == "time":
        key = rng.choice(["now", "expires", "softexpires"])
        by = rng.choice([-1, 1]) * rng.choice([1, 1000, 10**6, 10**9])
        new[i] = re.sub(r"\b%s=(\d+)" % key, lambda m: "%s=%d" % (key, max(0, int(m[1]) + by)), line)
    elif kind == "processor":
        new[i] = re.sub(r"\[(\d+)\]", lambda m: "[%03d]" % rng.randrange(5), line, count=1)
    elif kind == "timer":
        other = re.search(r"hrtimer=(\w+)", lines[rng.choice(places)])[1]
        new[i] = re.sub(r"hrtimer=\w+", "hrtimer=" + other, line)
    elif kind == "drop":
        del new[i]
    elif kind == "double":
        new.insert(i, line)
    elif kind == "swap":
        j = min(i + 1, len(new) - 1)
        new[i], new[j] = new[j], new[i]
    elif kind == "later":
        new.insert(min(i + rng.randrange(2, 40), len(new)), new.pop(i))
    elif kind == "was_armed":
        new[i] = line.replace("was_armed=0", "was_armed=1")
    else:
        new[i] = re.sub(r"\] (..)[hH.]", lambda m: "] " + m[1] + "s", line, count=1)
    return new, "%s at line %d" % (kind, i + 1)


def drawn(rng):
    """A short trace of some timers on two processors, of which some lines tell a context: one function often runs inside another."""
    lines, running, spent = [], [], set()
    for _ in range(rng.randrange(3, 18)):
        timer, processor = rng.choice("abcd"), rng.randrange(8) // 7
        told = rng.choice(["....."] * 4 + ["d.h..", "..s.."])
        kind = rng.choice(["entry"] * 4 + ["exit"] * 4 + ["setup", "start", "cancel"])
        if kind == "exit" and not running and rng.random() < 0.7 or kind != "start" and timer in [t for _, t in running] and rng.random() < 0.9:
            kind = "exit" if running else "entry"
        if kind == "exit" and running and rng.random() < 0.95:
            processor, timer = running.pop(rng.choice([-1, -1, -1, 0]))
        if kind in ("entry", "start") and timer in spent or kind == "start":
            time = rng.randrange(1, 5)
            lines.append("x-1 [000] ..... 1.0: hrtimer_start: hrtimer=%s expires=%d softexpires=%d\n" % (timer, time, time))
            spent.discard(timer)
        if kind == "entry":
            lines.append("x-1 [%03d] %s 1.0: hrtimer_expire_entry: hrtimer=%s now=9\n" % (processor, told, timer))
            running.append((processor, timer))
            spent.add(timer)
        elif kind == "exit":
            lines.append("x-1 [%03d] %s 1.0: hrtimer_expire_exit: hrtimer=%s\n" % (processor, told, timer))
        elif kind == "setup":
            mode = rng.choice(["ABS", "ABS", "ABS|HARD", "ABS|SOFT"])
            lines.append("x-1 [000] ..... 1.0: hrtimer_setup: hrtimer=%s clockid=CLOCK_MONOTONIC mode=%s\n" % (timer, mode))
            spent.add(timer)
        elif kind == "cancel":
            lines.append("x-1 [000] ..... 1.0: hrtimer_cancel: hrtimer=%s\n" % timer)
            spent.add(timer)
    return lines


def answer(program, lines):
    text = "".join(lines).encode()
    run = subprocess.run(program.split(), input=text, stdout=subprocess.PIPE, stderr=subprocess.DEVNULL)
    words = run.stdout.decode().split()
    if run.returncode == 0:
        return None
    return int(words[1].rstrip(":")), words[2]


def main():
    program, trace, count, seed = sys.argv[1], sys.argv[2], int(sys.argv[3]), int(sys.argv[4])
    rng = random.Random(seed)
    lines = open(trace).readlines()
    tally, same, wrong = Counter(), 0, 0
    fits = []
    for _ in range(count):
        new, what = changed(lines, rng)
        if new == lines:
            same += 1
            continue
        told = answer(program, new)
        if told != check(new):
            wrong += 1
            print("differs:", what, told, check(new))
        tally[told[1] if told else "fits"] += 1
        if not told:
            fits.append(what)
    short = Counter()
    for _ in range(count):
        new = drawn(rng)
        told = answer(program, new)
        if told != check(new):
            wrong += 1
            print("differs:", told, check(new), "".join(new), sep="\n")
        short[told[1] if told else "fits"] += 1
    print("%d changed traces, %d without a change, %d drawn ones, %d told differently" % (count - same, same, count, wrong))
    for cause, n in tally.most_common():
        print("%6d %s" % (n, cause))
    print("drawn:", ", ".join("%d %s" % (n, cause) for cause, n in short.most_common()))
    print("still fit:", "; ".join(fits[:12]))
    sys.exit(1 if wrong else 0)


main()
