#!/usr/bin/env python3
"""bin/hrt json: a record as JSON, one object a line; and back.

    tools/record_json.py [FILE]              a record's text to JSON
    tools/record_json.py --to-text [FILE]    these lines to the record's text

The fields' names stand in tools/record_lines.py. Numbers are whole, and may be as large as 2^64."""
import json
import os
import re
import sys

from record_lines import NoRecord, line_of, read_record, records_of


def to_json(text):
    return "".join(json.dumps(fields) + "\n" for fields in read_record(text))


def fields_in(line):
    try:
        fields = json.loads(line)
    except ValueError as error:
        raise NoRecord(f"no JSON: {error}") from None
    if not isinstance(fields, dict):
        raise NoRecord("no object")
    return fields


def to_text(text):
    lines = [fields_in_line(at, line) for at, line in enumerate(text.split("\n")[:-1] if text.endswith("\n") else text.split("\n"), 1)]
    made = records_of(lines, line_of, lambda fields, line: fields)
    return "".join(line + "\n" for line in made)


def fields_in_line(at, line):
    try:
        return fields_in(line)
    except NoRecord as wrong:
        raise NoRecord(f"line {at}: {wrong}") from None


def read_text(words, usage):
    """The text of the FILE in words, or of standard input; ends with status 2 or 4 where there is none."""
    if len(words) > 1 or words and words[0].startswith("-") and words != ["-"]:
        print(f"usage: {usage}", file=sys.stderr)
        sys.exit(2)
    name = words[0] if words and words != ["-"] else None
    if name is None and os.isatty(0):
        print("hrt: a record is read from the terminal; Ctrl-D ends it", file=sys.stderr)
    try:
        with open(0 if name is None else name, encoding="ascii", newline="\n", closefd=name is not None) as file:
            return file.read()
    except UnicodeDecodeError:
        print("hrt: a byte isn't ASCII, so this is no record", file=sys.stderr)
        sys.exit(1)
    except OSError as error:
        print(f"hrt: {name or 'standard input'}: {error.strerror}", file=sys.stderr)
        sys.exit(4)


def hint(text):
    """What else a text is that is no record."""
    return "; this is a script: bin/hrt run prints its record" if re.search(r"^hrt \d$", text, re.M) else ""


def main(words):
    back = words[:1] == ["--to-text"]
    text = read_text(words[back:], "bin/hrt json [--to-text] [FILE]")
    try:
        made = (to_text if back else to_json)(text)
    except NoRecord as wrong:
        print(f"hrt: {wrong}{hint(text)}", file=sys.stderr)
        return 1
    try:
        sys.stdout.write(made)
        sys.stdout.flush()
    except OSError as error:
        print(f"hrt: standard output: {error.strerror}", file=sys.stderr)
        sys.stderr.flush()
        return 5
    return 0


if __name__ == "__main__":
    sys.exit(main(sys.argv[1:]))
