#!/usr/bin/env python3
"""Counts each crate's lines without imports and blanks: code with tests, definitions, proofs; and its wrong bodies that the gate tries. Prints
the table under "Costs" in CONTRIBUTING.md, a row for each crate of crates.txt that has over 1,000 lines, and the sum of all; with `--write` it puts it there.
With `--each` it prints the rows of all crates. Outside the gate."""
import os
import re
import sys

TOP = os.path.dirname(os.path.dirname(os.path.abspath(__file__)))
PAGE = os.path.join(TOP, "CONTRIBUTING.md")
HEAD = "| Crate | code and tests | definitions | proofs | wrong bodies |\n|---|---|---|---|---|"
# How many lines a crate has at most that the table leaves out.
MANY = 1000
USE = re.compile(r"(pub(\(\w+\))? )?(ghost )?use ")


def lines_of(path):
    """How many lines of a file are neither blank nor part of an import."""
    rust, importing, count = path.endswith(".rt"), False, 0
    with open(path, encoding="utf-8") as file:
        for line in map(str.strip, file):
            begins = not importing and USE.match(line)
            if line and not importing and not begins:
                count += 1
            if rust and (importing or begins):
                importing = not line.endswith(";")
    return count


def lines_in(folder, ending):
    return sum(
        lines_of(os.path.join(place, name)) for place, _, names in os.walk(folder) for name in names if name.endswith(ending)
    )


def numbers_of(crate):
    folder = os.path.join(TOP, "crates", crate)
    edits = os.path.join(folder, "must-fail")
    return [
        lines_in(os.path.join(folder, "src"), ".rt"),
        lines_in(os.path.join(folder, "specs"), ".antt"),
        lines_in(os.path.join(folder, "proofs"), ".antt"),
        len(os.listdir(edits)) if os.path.isdir(edits) else 0,
    ]


def row(name, numbers):
    return f"| {name} | " + " | ".join(map(str, numbers)) + " |"


with open(os.path.join(TOP, "crates.txt"), encoding="utf-8") as file:
    crates = [line.split(":")[0].split()[0] for line in file if ":" in line]
numbers = {crate: numbers_of(crate) for crate in crates}
rows = {crate: row(f"`{crate}`", its) for crate, its in numbers.items()}
large = [rows[crate] for crate, its in numbers.items() if sum(its[:3]) > MANY]
table = "\n".join([HEAD, *large, row(f"all {len(numbers)}", map(sum, zip(*numbers.values())))]) + "\n"
print("\n".join(rows.values()) + "\n" if "--each" in sys.argv[1:] else table, end="")
if "--write" in sys.argv[1:]:
    with open(PAGE, encoding="utf-8") as file:
        page = file.read()
    begin = page.index(HEAD)
    with open(PAGE, "w", encoding="utf-8") as file:
        file.write(page[:begin] + table + page[page.index("\n\n", begin) + 1 :])
