#!/usr/bin/env python3
"""Counts the words of the pages, as `wc -w` does, and prints the table of words under "Costs" in CONTRIBUTING.md; with `--write` it puts it there. With
`--each` it prints the words of each page. It names each line over 160 columns outside tables and listings, and each cell of a table over 240
characters; its status is 1 where there is one. Outside the gate."""
import glob
import os
import re
import sys

os.chdir(os.path.dirname(os.path.dirname(os.path.abspath(__file__))))
PAGE = "CONTRIBUTING.md"
HEAD = "| Pages | words |\n|---|---|"
GROUPS = {
    "README, CONTRIBUTING": ["README.md", PAGE],
    "`docs/`": ["docs/*.md"],
    "READMEs of crates": ["crates/*/README.md"],
    "other pages of crates": ["crates/*/[!R]*.md"],
    "`model/`, `bench/`": ["model/*.md", "bench/*.md"],
}
LISTING = re.compile(r"^```.*?^```", re.DOTALL | re.MULTILINE)


def text_of(page):
    with open(page, encoding="utf-8") as file:
        return file.read()


def wide_in(page):
    """The lines that are too long on a page, and the cells."""
    for line in LISTING.sub("", text_of(page)).splitlines():
        if line.startswith("|"):
            yield from (it.strip() for it in re.split(r"(?<!\\)\|", line) if len(it.strip()) > 240)
        elif len(line) > 160:
            yield line


pages = {name: sorted(page for it in patterns for page in glob.glob(it)) for name, patterns in GROUPS.items()}
words = {name: {page: len(text_of(page).split()) for page in its} for name, its in pages.items()}
sums = {name: sum(its.values()) for name, its in words.items()}
rows = [f"| {name} | {sums[name]} |" for name in sums]
table = "\n".join([HEAD, *rows, f"| all | {sum(sums.values())} |"]) + "\n"
if "--each" in sys.argv[1:]:
    for page, many in sorted((it for its in words.values() for it in its.items()), key=lambda it: -it[1]):
        print(f"{many:6} {page}")
print(table, end="")
if "--write" in sys.argv[1:]:
    text = text_of(PAGE)
    begin = text.index(HEAD)
    with open(PAGE, "w", encoding="utf-8") as file:
        file.write(text[:begin] + table + text[text.index("\n\n", begin) + 1 :])
wide = [(page, it) for its in pages.values() for page in its for it in wide_in(page)]
for page, it in wide:
    print(f"words: {page}: {len(it)} characters: {it[:100]}", file=sys.stderr)
sys.exit(bool(wide))
