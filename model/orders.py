#!/usr/bin/env python3
"""Looks for one order of all moves that explains a record of `hrt run`:

    python3 model/orders.py SCRIPT RECORD

It prints `fits` (status 0); `doesn't fit`, with the first call that can't be placed and why (status 1); `unreadable`, with the reason (status 2); or
`undecided` where it gave up (status 3). What that means stands in model/README.md."""
import sys

sys.dont_write_bytecode = True
from chains import Chains  # noqa: E402
from histories import Histories, Misfit, NoRecord  # noqa: E402
from one_order import MOST_MOMENTS, Search, Undecided  # noqa: E402
from script import Refused, parse  # noqa: E402

USAGE = "usage: orders.py SCRIPT RECORD"


def order_of(script, text, most=MOST_MOMENTS):
    """One order that explains the record of this text, as its nodes."""
    histories = Histories(script, text)
    return Search(histories, Chains(histories), most).order()


def verdict(script, text, most=MOST_MOMENTS):
    """The status and the line for the bytes of a script and a record's text."""
    try:
        script = parse(script)
    except Refused as refused:
        return 2, f"unreadable: the script is refused, line {refused.line}: {refused.cause}"
    try:
        order_of(script, text, most)
    except NoRecord as wrong:
        return 2, f"unreadable: {wrong}"
    except Misfit as misfit:
        where = f"call {misfit.label[0]} {misfit.label[1]}: " if misfit.label else ""
        return 1, f"doesn't fit: {where}{misfit.why}"
    except Undecided as given_up:
        return 3, f"undecided: {given_up}"
    return 0, "fits"


def main(words):
    if len(words) != 2:
        print(USAGE, file=sys.stderr)
        return 2
    try:
        with open(words[0], "rb") as script, open(words[1], encoding="utf-8") as record:
            status, line = verdict(script.read(), record.read())
    except (OSError, UnicodeDecodeError) as fault:
        status, line = 2, f"unreadable: {fault}"
    print(line)
    return status


if __name__ == "__main__":
    sys.exit(main(sys.argv[1:]))
