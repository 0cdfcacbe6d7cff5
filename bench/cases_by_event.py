#!/usr/bin/env python3
"""Prints the definitions and functions, outside tests, callers, benches and worked cases, that have a case for four or more of a timer's six
events, or of their replies, and how many these are in how many files. It reads text alone. Outside the gate."""
import os
import re
import subprocess

os.chdir(os.path.dirname(os.path.dirname(os.path.abspath(__file__))))
NAMES = "(Out|Start|Cancel|Claim|Forward|Finish)"
APART = re.compile("_uses/|benches/|_tests/|run_cases/|/tests")


def of_proofs(text):
    """Equations by name: one starts a line with its name and has the event's constructor as an argument."""
    cases = {}
    for line in text.split("\n"):
        found = re.match(r"^\s*([^\s:]+)\s.*?\b(events|replies|entries)\." + NAMES + r"\b", line)
        if found:
            cases.setdefault((found[1], found[2]), set()).add(found[3])
    return cases


def of_code(text):
    """The functions of a file, each up to the next one."""
    cases = {}
    for begin in re.finditer(r"fn (\w+)", text):
        body = text[begin.start():begin.start() + 3000]
        end = re.search(r"\n(?:    )?(?:pub(?:\(crate\))? )?fn ", body[5:])
        body = body[:end.start() + 5] if end else body
        for kind in ["Event(?:By)?", "Reply", "Entry"]:
            cases.setdefault((begin[1], kind), set()).update(re.findall(r"\b%s::" % kind + NAMES + r"\b", body))
    return cases


listed = subprocess.run(["git", "ls-files", "crates/*.rt", "crates/*.antt"], capture_output=True, text=True).stdout.split()
found = set()
for path in listed:
    if not APART.search(path):
        with open(path, encoding="utf-8") as it:
            cases = (of_proofs if path.endswith(".antt") else of_code)(it.read())
        found |= {(path, name, kind) for (name, kind), events in cases.items() if len(events) >= 4}
for one in sorted(found):
    print(*one)
print(len(found), "in", len({path for path, _, _ in found}), "files")
