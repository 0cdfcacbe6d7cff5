"""callers/c/check.c, from Python: check.py LIBRARY FILE.."""
import sys

from hrt_trace import FITS, MISFIT, NO_EVENTS, UNREADABLE, Verdict, check

for name in sys.argv[2:]:
    with open(name, "rb") as file:
        text = file.read()
    v = Verdict()
    code = check(sys.argv[1], text, v)
    if code == FITS:
        print(f"fits: {v.events} events, {v.timers} timers, {v.processors} processors")
    elif code == MISFIT:
        print(f"line {v.line}: cause {v.cause}, soft {v.soft}, now {v.now}, timer {v.timer:x}")
    elif code == UNREADABLE:
        print(f"line {v.line} can't be read: {v.cause}")
    elif code == NO_EVENTS:
        print(f"no timer events: {v.cause}")
    else:
        print("no memory")
