#!/usr/bin/env python3
"""Texts that no kernel wrote, handed to hrt_check under a limit of memory: random bytes, lines that are cut or changed, huge numbers, processors of each
size, and texts that name as much as they can. Each is answered by one line with its status, and memory never runs out.

usage: .ci/hostile_traces.py PROGRAM TRACE      PROGRAM: hrt_check itself; TRACE: one that a kernel wrote"""
import random
import re
import resource
import subprocess
import sys

LIMIT = 256 << 20
# What docs/TRACES.md says: so many bytes of memory for each byte that is read, and so many beside.
FOR_A_BYTE, BESIDE = 24, 4 << 20
ANSWERS = {
    0: rb"ok \d+ events, \d+ timers, \d+ processors\n",
    3: rb"line \d+: no [a-z_]+\n",
    7: rb"line \d+: [A-Z]\w+( soft \d+ now \d+| hrtimer [0-9a-f]+)?\n",
    8: rb"no timer events\n",
}
FORMS = (
    "x [{0}] d.h. 1: hrtimer_expire_entry: hrtimer={1} now={2}\n",
    "x [{0}] ..s. 1: hrtimer_expire_exit: hrtimer={1}\n",
    "x [{0}] d..1 1: hrtimer_start: hrtimer={1} function=f expires={2} softexpires={3} mode=ABS was_armed=0\n",
    "x [{0}] .... 1: hrtimer_setup: hrtimer={1} clockid=CLOCK_MONOTONIC mode=ABS|HARD\n",
    "x [{0}] .... 1: hrtimer_cancel: hrtimer={1}\n",
)


def huge(rng):
    """A number of 1 to 25 digits, often near the end of a type."""
    if rng.random() < 0.5:
        return str((1 << rng.choice((8, 16, 31, 32, 33, 62, 63, 64, 65))) + rng.choice((-1, 0, 1)))
    return "".join(rng.choice("0123456789") for _ in range(rng.randint(1, 25)))


def changed(rng, lines):
    """Some lines of the trace with bytes changed, cut off and put in."""
    text = bytearray(b"".join(rng.choice(lines) for _ in range(rng.randint(1, 40))))
    for _ in range(rng.randint(1, 12)):
        at = rng.randrange(len(text) + 1)
        kind = rng.randrange(4)
        if kind == 0:
            del text[at : at + rng.randint(1, 30)]
        elif kind == 1:
            text[at:at] = rng.randbytes(rng.randint(1, 8))
        elif kind == 2:
            text[at:at] = rng.choice((b"\r", b"\0", b"\n", b"hrtimer_cancel: ", b"=", b"[", b"CPU:0 [LOST 1 EVENTS]\n"))
        else:
            del text[at:]
            text = text or bytearray(b"\n")
    return bytes(text)


def texts(lines):
    """1,000 texts, and of each whether only status 8 answers it."""
    rng = random.Random(20)
    for _ in range(200):
        yield rng.randbytes(rng.randint(0, 4096)), True
    for _ in range(300):
        yield changed(rng, lines), False
    for _ in range(290):
        line = rng.choice(FORMS)
        yield "".join(line.format(huge(rng), huge(rng), huge(rng), huge(rng)) for _ in range(rng.randint(1, 5))).encode(), False
    for number in range(210):
        processor = (1 << (number % 70)) - number // 70
        form = FORMS[0] + FORMS[1] if number % 2 else FORMS[3] + FORMS[2].replace("{2}", "9").replace("{3}", "9") + FORMS[0]
        yield form.format(processor, "a", 9, 9).encode(), False


def heavy():
    """Texts that take as much memory as they can: many timers, processors and queues, words, a long line."""
    for count in (9_000, 40_000):
        yield "".join(f"hrtimer_cancel: hrtimer={n:x}\n" for n in range(count)).encode()
        yield "".join(f"[{n * 97_003 % 2**32}] hrtimer_expire_entry: hrtimer={n:x} now=1\n" for n in range(count)).encode()
        yield "".join(f"[{n * 97_003 % 2**32}] hrtimer_expire_exit: hrtimer={n:x}\n" for n in range(count)).encode()
        yield "".join(FORMS[3].format(0, f"{n:x}") + FORMS[2].format(0, f"{n:x}", 1, 1) + FORMS[0].format(n * 97_003 % 2**32, f"{n:x}", 1) for n in range(count)).encode()
        yield b"a " * (10 * count)
        yield b"a " * (2**18 + count)
        yield b"x" * (100 * count)


def answer(program, text, limit):
    def bound():
        resource.setrlimit(resource.RLIMIT_AS, (limit, limit))

    run = subprocess.run([program], input=text, stdout=subprocess.PIPE, stderr=subprocess.PIPE, preexec_fn=bound, timeout=60)
    return run.returncode, run.stdout, run.stderr


def main():
    program, trace = sys.argv[1:]
    with open(trace, "rb") as file:
        lines = file.readlines()
    # What the program takes before it reads a byte: its own text and stack.
    least = next(size for size in range(1 << 20, LIMIT, 1 << 18) if answer(program, b"", size)[0] == 8)
    faults, statuses, count = [], {}, 0
    cases = [(text, only, LIMIT) for text, only in texts(lines)]
    cases += [(text, False, least + BESIDE + FOR_A_BYTE * len(text)) for text in heavy()]
    for text, only_empty, limit in cases:
        status, said, errors = answer(program, text, limit)
        good = status in ANSWERS and re.fullmatch(ANSWERS[status], said) and not errors and (status == 8 or not only_empty)
        if not good:
            faults.append(f"{len(text)} bytes {text[:80]!r} under {limit} bytes: status {status} {said!r} {errors!r}")
        statuses[status] = statuses.get(status, 0) + 1
        count += 1
    for fault in faults[:20]:
        print("hostile_traces:", fault, file=sys.stderr)
    print(f"{count} hostile texts, {len(faults)} faults; by status: " + ", ".join(f"{key}: {value}" for key, value in sorted(statuses.items())))
    return 1 if faults else 0


if __name__ == "__main__":
    sys.exit(main())
