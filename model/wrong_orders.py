"""Thirty-three records that no order of all moves explains, each beside one of the same script that fits. In both each list by itself is a right history, and
each call did what its words say: what is wrong shows only where the lists are put beside each other."""
from typing import NamedTuple, Tuple


class Pair(NamedTuple):
    """A script, a record of it that fits, which of its lines are others in the wrong one, and the calls that can't be placed beside each other then: none
    where what a call was told holds at no moment at all."""

    name: str
    script: str
    right: str
    changes: Tuple[Tuple[str, str], ...]
    circle: Tuple[str, ...]

    def wrong(self):
        lines = self.right.split("\n")
        for old, new in self.changes:
            lines[lines.index(old)] = new
        return "\n".join(lines)


def script(declarations, *rounds, limit=100, version=1, bases=1, lanes=2):
    lines = [f"hrt {version}", f"bases {bases}", f"lanes {lanes}", f"limit {limit}", *declarations]
    for calls in rounds:
        lines += ["round", *calls]
    return "\n".join([*lines, ""])


def record(*lines, version=1):
    return "\n".join([f"record {version}", *lines, "end", ""])


def in_turn(line):
    """Where a line stands in a record: by its kind, and then by its numbers."""
    kind, first, second = line.split()[:3]
    return ("clock", "timer", "object", "call").index(kind), int(first), int(second)


def queued_script(timers, *rounds, limit=100):
    """Timers of lane 0 that are set, and due; then these rounds."""
    sets = [*(f"0 settime {i} 1 0 100 0 0" for i in range(timers)), "0 advance 100"]
    return script([f"queued {i} monotonic 0" for i in range(timers)], sets, *rounds, limit=limit, version=2)


def queued_record(expiries, *lines):
    """Its record: each timer expires by one of these calls, counted; and these lines."""
    timers = [
        line for i, call in enumerate(expiries) for line in (
            f"timer {i} 1 0 {i} start abs 100 0 0 0 0 monotonic 100 100 0", f"timer {i} 2 {call} claim 0 1 1", f"timer {i} 3 {call} finish stop 1 none",
            f"object {i} 1 0 {i} settime 1 100 0 0 1 old 0 0", f"object {i} 2 {call} trigger 1 1 counted", f"call 0 {i} old 0 0",
        )
    ]
    lines = [f"clock 1 0 {len(expiries)} advance 100 100 100 100 0", f"call 0 {len(expiries)} clock 1", *timers, *lines]
    return record(*sorted(lines, key=in_turn), version=2)


PAIRS = [
    Pair(
        "a function is seen to run before the write that made its timer due",
        script(["raw 0 monotonic once"], ["0 start 0 rel 10 0"], ["0 expire 0 4", "1 peek 0", "1 advance 20"]),
        record(
            "clock 1 1 1 advance 20 20 20 20 0",
            "timer 0 1 0 0 start rel 10 0 0 0 monotonic 10 0", "timer 0 2 0 1 claim 0 1 1", "timer 0 3 0 1 finish stop 1 none",
            "call 0 0 started 1 0 0", "call 0 1 done 1 1 0", "call 1 0 peek 1 0 1 0 0", "call 1 1 clock 1",
        ),
        (("call 1 0 peek 1 0 1 0 0", "call 1 0 peek 2 0 0 1 0"),),
        ("0 1", "1 0", "1 1"),
    ),
    Pair(
        "a start by a write that came after its lane had been seen to start",
        script(["raw 0 monotonic once"], ["0 start 0 rel 10 0", "1 peek 0", "1 advance 20"]),
        record(
            "clock 1 1 1 advance 20 20 20 20 0", "timer 0 1 0 0 start rel 10 0 0 0 monotonic 10 0",
            "call 0 0 started 1 0 0", "call 1 0 peek 1 0 1 0 0", "call 1 1 clock 1",
        ),
        (("timer 0 1 0 0 start rel 10 0 0 0 monotonic 10 0", "timer 0 1 0 0 start rel 10 1 0 0 monotonic 30 0"),),
        ("0 0", "1 0", "1 1"),
    ),
    Pair(
        "a run is done by the reading before a write, behind a timer that was due after it",
        script(["raw 0 monotonic once"], ["0 advance 10", "0 start 0 abs 5 0", "1 peek 0", "1 expire 0 4"]),
        record(
            "clock 1 0 0 advance 10 10 10 10 0", "timer 0 1 0 1 start abs 5 1 0 0 monotonic 5 0",
            "call 0 0 clock 1", "call 0 1 started 1 0 0", "call 1 0 peek 0 0 0 0 0", "call 1 1 done 0 0",
        ),
        (("call 1 0 peek 0 0 0 0 0", "call 1 0 peek 1 0 1 0 0"),),
        ("0 0", "0 1", "1 0", "1 1"),
    ),
    Pair(
        "an object is disarmed where its timer was seen armed before",
        script(["posix 0 monotonic 0"], ["0 settime 0 0 0 50 0 0", "1 peek 0", "1 gettime 0"]),
        record(
            "timer 0 1 0 0 start rel 50 0 0 0 monotonic 50 0", "object 0 1 0 0 settime 0 50 0 0 1 old 0 0",
            "call 0 0 old 0 0", "call 1 0 peek 1 0 1 0 0", "call 1 1 left 50 0 0 1",
        ),
        (("call 1 1 left 50 0 0 1", "call 1 1 left 0 0 0 0"),),
        ("0 0", "1 0", "1 1"),
    ),
    Pair(
        "an object is seen armed, and its timer is idle and not yet started behind that",
        script(["posix 0 monotonic 0"], ["0 settime 0 1 0 50 0 0", "1 gettime 0", "1 peek 0"]),
        record(
            "timer 0 1 0 0 start abs 50 0 0 0 monotonic 50 0", "object 0 1 0 0 settime 1 50 0 0 1 old 0 0",
            "call 0 0 old 0 0", "call 1 0 left 50 0 0 1", "call 1 1 peek 1 0 1 0 0",
        ),
        (("call 1 1 peek 1 0 1 0 0", "call 1 1 peek 0 0 0 0 0"),),
        ("0 0", "1 0", "1 1"),
    ),
    Pair(
        "each of two lanes sets an object, and sees the other's as it was before",
        script(["fd 0 monotonic 0", "fd 1 monotonic 0"], ["0 settime 0 0 0 0 0 0", "0 readable 1", "1 settime 1 0 0 0 0 0", "1 readable 0"]),
        record(
            "object 0 1 0 0 settime 0 0 0 0 none old 0 0", "object 1 1 1 0 settime 0 0 0 0 none old 0 0",
            "call 0 0 old 0 0", "call 0 1 readable 0 0 0", "call 1 0 old 0 0", "call 1 1 readable 0 0 1",
        ),
        (("call 1 1 readable 0 0 1", "call 1 1 readable 0 0 0"),),
        ("0 0", "0 1", "1 0", "1 1"),
    ),
    Pair(
        "the entries of two objects are crossed",
        script(["posix 0 monotonic 0", "posix 1 monotonic 0"], ["0 accept 0", "0 accept 1", "1 accept 1", "1 accept 0"]),
        record(
            "object 0 1 0 0 accept 0 none nosignal", "object 0 2 1 1 accept 0 none nosignal",
            "object 1 1 0 1 accept 0 none nosignal", "object 1 2 1 0 accept 0 none nosignal",
            "call 0 0 nosignal", "call 0 1 nosignal", "call 1 0 nosignal", "call 1 1 nosignal",
        ),
        (
            ("object 0 1 0 0 accept 0 none nosignal", "object 0 1 1 1 accept 0 none nosignal"),
            ("object 0 2 1 1 accept 0 none nosignal", "object 0 2 0 0 accept 0 none nosignal"),
        ),
        ("0 0", "0 1", "1 0", "1 1"),
    ),
    Pair(
        "a look at a descriptor misses an expiry whose function its lane saw to end",
        script(["fd 0 monotonic 0"], ["0 advance 10", "0 settime 0 1 0 5 0 0"], ["0 expire 0 4", "1 peek 0", "1 readable 0"]),
        record(
            "clock 1 0 0 advance 10 10 10 10 0",
            "timer 0 1 0 1 start abs 5 1 0 0 monotonic 5 0", "timer 0 2 0 2 claim 0 1 1", "timer 0 3 0 2 finish stop 1 none",
            "object 0 1 0 1 settime 1 5 0 1 1 old 0 0", "object 0 2 0 2 trigger 1 1 counted",
            "call 0 0 clock 1", "call 0 1 old 0 0", "call 0 2 done 1 1 0", "call 1 0 peek 1 0 1 0 0", "call 1 1 readable 0 1 1",
        ),
        (("call 1 0 peek 1 0 1 0 0", "call 1 0 peek 3 0 0 0 0"),),
        ("0 2", "1 0", "1 1"),
    ),
    Pair(
        "a read stands before the first of two expiries, and its lane saw the function of the second",
        script(
            ["fd 0 monotonic 0"], ["0 advance 10"],
            ["0 settime 0 1 0 5 0 0", "0 expire 0 4", "0 settime 0 1 0 6 0 0", "0 expire 0 4", "1 peek 0", "1 read 0 8"],
        ),
        record(
            "clock 1 0 0 advance 10 10 10 10 0",
            "timer 0 1 0 1 start abs 5 1 0 0 monotonic 5 0", "timer 0 2 0 2 claim 0 1 1", "timer 0 3 0 2 finish stop 1 none",
            "timer 0 4 0 3 start abs 6 1 0 0 monotonic 6 0", "timer 0 5 0 4 claim 0 1 4", "timer 0 6 0 4 finish stop 4 none",
            "object 0 1 0 1 settime 1 5 0 1 1 old 0 0", "object 0 2 0 2 trigger 1 1 counted", "object 0 3 0 3 settime 1 6 0 1 4 old 0 0",
            "object 0 4 1 1 read 1 none again", "object 0 5 0 4 trigger 4 1 counted",
            "call 0 0 clock 1", "call 0 1 old 0 0", "call 0 2 done 1 1 0", "call 0 3 old 0 0", "call 0 4 done 1 1 0",
            "call 1 0 peek 5 0 0 1 0", "call 1 1 again",
        ),
        (
            ("object 0 2 0 2 trigger 1 1 counted", "object 0 2 1 1 read 1 none again"),
            ("object 0 3 0 3 settime 1 6 0 1 4 old 0 0", "object 0 3 0 2 trigger 1 1 counted"),
            ("object 0 4 1 1 read 1 none again", "object 0 4 0 3 settime 1 6 0 1 4 old 0 0"),
        ),
        ("0 2", "0 4", "1 0", "1 1"),
    ),
    Pair(
        "an expiry is refused before the object was full",
        script(["posix 0 monotonic 0"], ["0 advance 10", "0 settime 0 1 0 5 0 0"], ["0 expire 0 4", "1 peek 0", "1 accept 0"], limit=2),
        record(
            "clock 1 0 0 advance 10 10 10 10 0",
            "timer 0 1 0 1 start abs 5 1 0 0 monotonic 5 0", "timer 0 2 0 2 claim 0 1 1", "timer 0 3 0 2 finish stop 1 none",
            "object 0 1 0 1 settime 1 5 0 1 1 old 0 0", "object 0 2 1 1 accept 1 none nosignal", "skip 0 2 0 2 1",
            "call 0 0 clock 1", "call 0 1 old 0 0", "call 0 2 done 1 1 0", "call 1 0 peek 1 0 1 0 0", "call 1 1 nosignal",
        ),
        (("call 1 0 peek 1 0 1 0 0", "call 1 0 peek 3 0 0 0 0"),),
        ("0 2", "1 0", "1 1"),
    ),
    Pair(
        "a read is canceled by a set that came later",
        script(["fd 0 realtime 0"], ["0 settime 0 3 0 50 0 0"], ["0 read 0 8", "1 readable 0", "1 set 100"]),
        record(
            "clock 1 1 1 set 100 0 100 0 1", "timer 0 1 0 0 start abs 50 0 0 0 realtime 50 0",
            "object 0 1 0 0 settime 3 50 0 0 1 old 0 0", "object 0 2 0 1 read 1 none canceled",
            "call 0 0 old 0 0", "call 0 1 canceled", "call 1 0 readable 0 0 1", "call 1 1 clock 1",
        ),
        (("call 1 0 readable 0 0 1", "call 1 0 readable 0 0 2"),),
        ("0 1", "1 0", "1 1"),
    ),
    Pair(
        "a start is refused by its timer as it was before the settime's own cancel",
        script(["posix 0 monotonic 0"], ["0 settime 0 1 0 50 0 0", "0 settime 0 1 0 60 0 0", "0 settime 0 1 0 70 0 0"], limit=3),
        record(
            "timer 0 1 0 0 start abs 50 0 0 0 monotonic 50 0", "timer 0 2 0 1 cancel 1",
            "timer 0 3 0 1 start abs 60 0 0 0 monotonic 60 0", "timer 0 4 0 2 cancel 3",
            "object 0 1 0 0 settime 1 50 0 0 1 old 0 0", "object 0 2 0 1 settime 1 60 0 0 3 old 50 0",
            "object 0 3 0 2 settime 1 70 0 0 unarmed unarmed 4",
            "call 0 0 old 0 0", "call 0 1 old 50 0", "call 0 2 unarmed 4",
        ),
        (
            ("object 0 3 0 2 settime 1 70 0 0 unarmed unarmed 4", "object 0 3 0 2 settime 1 70 0 0 unarmed unarmed 3"),
            ("call 0 2 unarmed 4", "call 0 2 unarmed 3"),
        ),
        ("0 2",),
    ),
    Pair(
        "a base goes off line with an heir that is off line",
        script([], ["0 offline 1 0 4", "0 offline 2 1 4"], version=2, bases=3),
        record("base 1 1 0 0 offline 0", "call 0 0 off 0 1", "call 0 1 heiroff 1", version=2),
        (("base 1 1 0 0 offline 0", "base 1 1 0 0 offline 0\nbase 2 1 0 1 offline 1"), ("call 0 1 heiroff 1", "call 0 1 off 0 1")),
        ("0 1",),
    ),
    Pair(
        "a timer is moved off a base while a function runs there",
        script(
            ["soft 0 monotonic once", "raw 1 monotonic once"], ["0 start 0 abs 0 1", "0 start 1 abs 50 1"],
            ["0 peek 0", "0 offline 1 0 4", "1 softexpire 1 4"], version=2, bases=2,
        ),
        record(
            "timer 0 1 0 0 out 1 0", "timer 0 2 0 0 start abs 0 0 0 1 1 monotonic 0 0 0",
            "timer 0 3 1 0 claim 1 0 2", "timer 0 4 1 0 finish stop 2 none",
            "timer 1 1 0 1 out 1 0", "timer 1 2 0 1 start abs 50 0 0 1 1 monotonic 50 50 0",
            "timer 1 3 0 3 out 0 1", "timer 1 4 0 3 start keep 50 0 0 0 0 monotonic 50 50 0",
            "call 0 0 started 2 1 0", "call 0 1 started 2 1 0", "call 0 2 peek 2 1 1 0 0", "call 0 3 busy 1 0 2",
            "call 1 0 done 1 0 0", version=2,
        ),
        (("call 0 2 peek 2 1 1 0 0", "call 0 2 peek 3 1 0 1 0"),),
        ("0 3",),
    ),
    Pair(
        "of two signals the one that was sent later is taken first",
        script(
            ["queued 0 monotonic 0", "queued 1 monotonic 0"],
            [
                "0 settime 0 1 0 100 0 0", "0 settime 1 1 0 200 0 0", "0 advance 100", "0 expire 0 4", "0 advance 100", "0 expire 0 4",
                "0 sigwait", "0 sigwait",
            ], version=2,
        ),
        record(
            "clock 1 0 2 advance 100 100 100 100 0", "clock 2 0 4 advance 100 200 200 200 0",
            "timer 0 1 0 0 start abs 100 0 0 0 0 monotonic 100 100 0", "timer 0 2 0 3 claim 0 1 1", "timer 0 3 0 3 finish stop 1 none",
            "timer 1 1 0 1 start abs 200 0 0 0 0 monotonic 200 200 0", "timer 1 2 0 5 claim 0 2 1", "timer 1 3 0 5 finish stop 1 none",
            "object 0 1 0 0 settime 1 100 0 0 1 old 0 0", "object 0 2 0 3 trigger 1 1 counted", "object 0 3 0 6 accept 2 none accepted 0",
            "object 1 1 0 1 settime 1 200 0 0 1 old 0 0", "object 1 2 0 5 trigger 1 2 counted", "object 1 3 0 7 accept 2 none accepted 0",
            "call 0 0 old 0 0", "call 0 1 old 0 0", "call 0 2 clock 1", "call 0 3 done 1 1 0", "call 0 4 clock 2", "call 0 5 done 1 2 1",
            "call 0 6 signal 0 2 0", "call 0 7 signal 1 2 0", version=2,
        ),
        (
            ("object 0 3 0 6 accept 2 none accepted 0", "object 0 3 0 7 accept 2 none accepted 0"),
            ("object 1 3 0 7 accept 2 none accepted 0", "object 1 3 0 6 accept 2 none accepted 0"),
            ("call 0 6 signal 0 2 0", "call 0 6 signal 1 2 0"), ("call 0 7 signal 1 2 0", "call 0 7 signal 0 2 0"),
        ),
        ("0 3", "0 5"),
    ),
    Pair(
        "a signal is accepted, and then told as stale",
        script(["queued 0 monotonic 0"], ["0 settime 0 1 0 100 0 0", "0 advance 100", "0 expire 0 4", "0 sigwait", "0 sigwait"], version=2),
        record(
            "clock 1 0 1 advance 100 100 100 100 0",
            "timer 0 1 0 0 start abs 100 0 0 0 0 monotonic 100 100 0", "timer 0 2 0 2 claim 0 1 1", "timer 0 3 0 2 finish stop 1 none",
            "object 0 1 0 0 settime 1 100 0 0 1 old 0 0", "object 0 2 0 2 trigger 1 1 counted", "object 0 3 0 3 accept 1 none accepted 0",
            "call 0 0 old 0 0", "call 0 1 clock 1", "call 0 2 done 1 1 0", "call 0 3 signal 0 2 0", "call 0 4 empty", version=2,
        ),
        (("call 0 4 empty", "call 0 4 stale 0 2"),),
        ("0 4",),
    ),
    Pair(
        "a lane finds no signal, and saw before that the function ended which sent one",
        script(["queued 0 monotonic 0"], ["0 settime 0 1 0 100 0 0", "0 advance 100"], ["0 expire 0 4", "1 peek 0", "1 sigwait"], version=2),
        record(
            "clock 1 0 1 advance 100 100 100 100 0",
            "timer 0 1 0 0 start abs 100 0 0 0 0 monotonic 100 100 0", "timer 0 2 0 2 claim 0 1 1", "timer 0 3 0 2 finish stop 1 none",
            "object 0 1 0 0 settime 1 100 0 0 1 old 0 0", "object 0 2 0 2 trigger 1 1 counted",
            "call 0 0 old 0 0", "call 0 1 clock 1", "call 0 2 done 1 1 0", "call 1 0 peek 1 0 1 0 0", "call 1 1 empty", version=2,
        ),
        (("call 1 0 peek 1 0 1 0 0", "call 1 0 peek 3 0 0 0 0"),),
        ("1 1",),
    ),
    Pair(
        "a signal finds no room, and none waits",
        script(["queued 0 monotonic 0"], ["0 settime 0 1 0 100 0 0", "0 advance 100", "0 expire 0 4"], version=2),
        record(
            "clock 1 0 1 advance 100 100 100 100 0",
            "timer 0 1 0 0 start abs 100 0 0 0 0 monotonic 100 100 0", "timer 0 2 0 2 claim 0 1 1", "timer 0 3 0 2 finish stop 1 none",
            "object 0 1 0 0 settime 1 100 0 0 1 old 0 0", "object 0 2 0 2 trigger 1 1 counted",
            "call 0 0 old 0 0", "call 0 1 clock 1", "call 0 2 done 1 1 0", version=2,
        ),
        (("object 0 2 0 2 trigger 1 1 counted", "object 0 2 0 2 trigger 1 1 full"),),
        ("0 2",),
    ),
    Pair(
        "a start is refused of a timer as it was while its function still ran, and its settime had to find it idle first",
        script(
            ["posix 0 monotonic 0"], ["0 settime 0 1 0 50 0 0", "0 settime 0 1 0 60 0 0", "0 advance 60"], ["0 settime 0 1 0 70 0 0", "1 expire 0 4"],
            limit=4,
        ),
        record(
            "clock 1 0 2 advance 60 60 60 60 0",
            "timer 0 1 0 0 start abs 50 0 0 0 monotonic 50 0", "timer 0 2 0 1 cancel 1", "timer 0 3 0 1 start abs 60 0 0 0 monotonic 60 0",
            "timer 0 4 1 0 claim 0 1 3", "timer 0 5 1 0 finish stop 3 none",
            "object 0 1 0 0 settime 1 50 0 0 1 old 0 0", "object 0 2 0 1 settime 1 60 0 0 3 old 50 0", "object 0 3 1 0 trigger 3 1 counted",
            "object 0 4 0 3 settime 1 70 0 1 unarmed unarmed 5",
            "call 0 0 old 0 0", "call 0 1 old 50 0", "call 0 2 clock 1", "call 0 3 unarmed 5", "call 1 0 done 1 1 0",
        ),
        (
            ("object 0 4 0 3 settime 1 70 0 1 unarmed unarmed 5", "object 0 4 0 3 settime 1 70 0 1 unarmed unarmed 4"),
            ("call 0 3 unarmed 5", "call 0 3 unarmed 4"),
        ),
        ("0 3",),
    ),
    Pair(
        "a signal is told as stale that was pending as long as its timer's history had room",
        script(
            ["queued 0 monotonic 0"], ["0 settime 0 1 0 100 0 0", "0 advance 100"], ["0 expire 0 4", "0 settime 0 1 0 0 0 0", "1 sigwait"],
            limit=3, version=2,
        ),
        record(
            "clock 1 0 1 advance 100 100 100 100 0",
            "timer 0 1 0 0 start abs 100 0 0 0 0 monotonic 100 100 0", "timer 0 2 0 2 claim 0 1 1", "timer 0 3 0 2 finish stop 1 none",
            "object 0 1 0 0 settime 1 100 0 0 1 old 0 0", "object 0 2 0 2 trigger 1 1 counted", "object 0 3 0 3 settime 1 0 0 1 none old 0 0",
            "call 0 0 old 0 0", "call 0 1 clock 1", "call 0 2 done 1 1 0", "call 0 3 old 0 0", "call 1 0 spent 0 2", version=2,
        ),
        (("call 1 0 spent 0 2", "call 1 0 stale 0 2"),),
        (),
    ),
    Pair(
        "a start sends its timer to a base that is off line since before the call, and on to the heir",
        script(["raw 0 monotonic once"], ["0 offline 1 0 4", "0 start 0 abs 50 1"], version=2, bases=2),
        record(
            "base 1 1 0 0 offline 0", "timer 0 1 0 1 start abs 50 0 0 0 0 monotonic 50 50 0", "call 0 0 off 0 1", "call 0 1 started 1 0 0", version=2,
        ),
        (
            (
                "timer 0 1 0 1 start abs 50 0 0 0 0 monotonic 50 50 0",
                "timer 0 1 0 1 out 1 0\ntimer 0 2 0 1 out 0 0\ntimer 0 3 0 1 start abs 50 0 0 0 0 monotonic 50 50 0",
            ),
            ("call 0 1 started 1 0 0", "call 0 1 started 3 0 0"),
        ),
        ("0 1",),
    ),
    Pair(
        "a function starts its timer for a base that is off line since an earlier round",
        script(
            ["raw 0 monotonic starts 50 1"], ["0 start 0 abs 5 0", "0 advance 10", "0 offline 1 0 4"], ["1 expire 0 4"], version=2, bases=2,
        ),
        record(
            "clock 1 0 1 advance 10 10 10 10 0", "base 1 1 0 2 offline 0",
            "timer 0 1 0 0 start abs 5 0 0 0 0 monotonic 5 5 0", "timer 0 2 1 0 claim 0 1 1", "timer 0 3 1 0 start rel 50 0 1 0 0 monotonic 60 60 0",
            "timer 0 4 1 0 finish again 1 none", "call 0 0 started 1 0 0", "call 0 1 clock 1", "call 0 2 off 0 1", "call 1 0 done 1 1 0", version=2,
        ),
        (("timer 0 3 1 0 start rel 50 0 1 0 0 monotonic 60 60 0", "timer 0 3 1 0 start rel 50 0 1 1 0 monotonic 60 60 0"),),
        ("1 0",),
    ),
    Pair(
        "a start sends an armed timer to the heir before its base goes off line, which has to be empty then",
        script(["raw 0 monotonic once"], ["0 start 0 abs 50 1"], ["0 offline 1 0 0", "1 start 0 abs 60 1"], version=2, bases=2),
        record(
            "timer 0 1 0 0 out 1 0", "timer 0 2 0 0 start abs 50 0 0 1 1 monotonic 50 50 0", "timer 0 3 1 0 start abs 60 0 0 1 1 monotonic 60 60 1",
            "call 0 0 started 2 1 0", "call 0 1 more 0", "call 1 0 started 3 1 1", version=2,
        ),
        (
            ("timer 0 1 0 0 out 1 0", "base 1 1 0 1 offline 0\ntimer 0 1 0 0 out 1 0"),
            (
                "timer 0 3 1 0 start abs 60 0 0 1 1 monotonic 60 60 1",
                "timer 0 3 1 0 out 0 1\ntimer 0 4 1 0 start abs 60 0 0 0 0 monotonic 60 60 0",
            ),
            ("call 0 1 more 0", "call 0 1 off 0 1"), ("call 1 0 started 3 1 1", "call 1 0 started 4 0 1"),
        ),
        ("0 1",),
    ),
    Pair(
        "a start sends its timer on from a base that was off line before the timer came there, and no more",
        script(["raw 0 monotonic once"], ["0 offline 1 0 4"], ["0 online 1", "1 start 0 abs 50 1"], version=2, bases=2),
        record(
            "base 1 1 0 0 offline 0", "base 1 2 0 1 online", "timer 0 1 1 0 out 1 0", "timer 0 2 1 0 start abs 50 0 0 1 1 monotonic 50 50 0",
            "call 0 0 off 0 1", "call 0 1 on 2", "call 1 0 started 2 1 0", version=2,
        ),
        (
            (
                "timer 0 2 1 0 start abs 50 0 0 1 1 monotonic 50 50 0",
                "timer 0 2 1 0 out 0 0\ntimer 0 3 1 0 start abs 50 0 0 0 0 monotonic 50 50 0",
            ),
            ("call 1 0 started 2 1 0", "call 1 0 started 3 0 0"),
        ),
        ("1 0",),
    ),
    Pair(
        "a start sends its timer on from a base that goes off line and on line before the timer comes there",
        script(["raw 0 monotonic once"], ["0 offline 1 0 4", "0 online 1", "0 peek 0", "1 start 0 abs 50 1"], version=2, bases=2),
        record(
            "base 1 1 0 0 offline 0", "base 1 2 0 1 online", "timer 0 1 1 0 out 1 0", "timer 0 2 1 0 start abs 50 0 0 1 1 monotonic 50 50 0",
            "call 0 0 off 0 1", "call 0 1 on 2", "call 0 2 peek 0 0 0 0 0", "call 1 0 started 2 1 0", version=2,
        ),
        (
            (
                "timer 0 2 1 0 start abs 50 0 0 1 1 monotonic 50 50 0",
                "timer 0 2 1 0 out 0 0\ntimer 0 3 1 0 start abs 50 0 0 0 0 monotonic 50 50 0",
            ),
            ("call 1 0 started 2 1 0", "call 1 0 started 3 0 0"),
        ),
        ("1 0",),
    ),
    Pair(
        "a function starts its timer for a base that went off line before its claim, and within its run",
        script(["raw 0 monotonic starts 50 1"], ["0 offline 1 0 4", "0 start 0 abs 0 0", "1 expire 0 4"], version=2, bases=2),
        record(
            "base 1 1 0 0 offline 0", "timer 0 1 0 1 start abs 0 0 0 0 0 monotonic 0 0 0", "timer 0 2 1 0 claim 0 0 1",
            "timer 0 3 1 0 start rel 50 0 0 0 0 monotonic 50 50 0", "timer 0 4 1 0 finish again 1 none",
            "call 0 0 off 0 1", "call 0 1 started 1 0 0", "call 1 0 done 1 0 0", version=2,
        ),
        (("timer 0 3 1 0 start rel 50 0 0 0 0 monotonic 50 50 0", "timer 0 3 1 0 start rel 50 0 0 1 0 monotonic 50 50 0"),),
        ("1 0",),
    ),
    Pair(
        "of two timers the one that expires later is moved off a base first",
        script(["raw 0 monotonic once", "raw 1 monotonic once"], ["0 start 0 abs 50 1", "0 start 1 abs 60 1", "0 offline 1 0 1"], version=2, bases=2),
        record(
            "timer 0 1 0 0 out 1 0", "timer 0 2 0 0 start abs 50 0 0 1 1 monotonic 50 50 0",
            "timer 0 3 0 2 out 0 1", "timer 0 4 0 2 start keep 50 0 0 0 0 monotonic 50 50 0",
            "timer 1 1 0 1 out 1 0", "timer 1 2 0 1 start abs 60 0 0 1 1 monotonic 60 60 0",
            "call 0 0 started 2 1 0", "call 0 1 started 2 1 0", "call 0 2 more 1", version=2,
        ),
        (
            ("timer 1 2 0 1 start abs 60 0 0 1 1 monotonic 60 60 0", "timer 1 4 0 2 start keep 60 0 0 0 0 monotonic 60 60 0"),
            ("timer 1 1 0 1 out 1 0", "timer 1 3 0 2 out 0 1"),
            ("timer 0 4 0 2 start keep 50 0 0 0 0 monotonic 50 50 0", "timer 1 2 0 1 start abs 60 0 0 1 1 monotonic 60 60 0"),
            ("timer 0 3 0 2 out 0 1", "timer 1 1 0 1 out 1 0"),
        ),
        ("0 2",),
    ),
    Pair(
        "a timer leaves its base behind the start of one that is ahead of it there",
        script(
            ["raw 0 monotonic once", "raw 1 monotonic once"], ["0 start 0 abs 60 1"], ["0 offline 1 0 1", "1 start 1 abs 50 1", "1 peek 0"],
            version=2, bases=2,
        ),
        record(
            "timer 0 1 0 0 out 1 0", "timer 0 2 0 0 start abs 60 0 0 1 1 monotonic 60 60 0",
            "timer 0 3 0 1 out 0 1", "timer 0 4 0 1 start keep 60 0 0 0 0 monotonic 60 60 0",
            "timer 1 1 1 0 out 1 0", "timer 1 2 1 0 start abs 50 0 0 1 1 monotonic 50 50 0",
            "call 0 0 started 2 1 0", "call 0 1 more 1", "call 1 0 started 2 1 0", "call 1 1 peek 4 0 1 0 0", version=2,
        ),
        (("call 1 1 peek 4 0 1 0 0", "call 1 1 peek 2 1 1 0 0"),),
        ("0 1",),
    ),
    Pair(
        "a timer leaves its base between two looks at which one function runs there",
        script(
            ["soft 0 monotonic once", "raw 1 monotonic once"], ["0 start 0 abs 0 1", "0 start 1 abs 50 1"],
            ["0 offline 1 0 1", "1 softexpire 1 4", "2 peek 0", "2 peek 1", "2 peek 1", "2 peek 0"], version=2, bases=2, lanes=3,
        ),
        record(
            "timer 0 1 0 0 out 1 0", "timer 0 2 0 0 start abs 0 0 0 1 1 monotonic 0 0 0",
            "timer 0 3 1 0 claim 1 0 2", "timer 0 4 1 0 finish stop 2 none",
            "timer 1 1 0 1 out 1 0", "timer 1 2 0 1 start abs 50 0 0 1 1 monotonic 50 50 0",
            "timer 1 3 0 2 out 0 1", "timer 1 4 0 2 start keep 50 0 0 0 0 monotonic 50 50 0",
            "call 0 0 started 2 1 0", "call 0 1 started 2 1 0", "call 0 2 busy 1 0 2", "call 1 0 done 1 0 0",
            "call 2 0 peek 2 1 1 0 0", "call 2 1 peek 2 1 1 0 0", "call 2 2 peek 4 0 1 0 0", "call 2 3 peek 3 1 0 1 0", version=2,
        ),
        (("call 2 0 peek 2 1 1 0 0", "call 2 0 peek 3 1 0 1 0"),),
        ("0 2",),
    ),
    Pair(
        "of two signals that two lanes' runs sent, the one is taken first whose lane had seen the other's expiry",
        queued_script(2, ["0 expire 0 1", "1 overrun 0", "1 expire 0 4"], ["0 sigwait", "0 sigwait"]),
        queued_record(
            ["0 3", "1 1"], "object 0 3 0 4 accept 1 none accepted 0", "object 1 3 0 5 accept 1 none accepted 0",
            "call 0 3 more 1 1 0", "call 0 4 signal 0 2 0", "call 0 5 signal 1 2 0", "call 1 0 overrun 0 2", "call 1 1 done 1 1 1",
        ),
        (
            ("object 0 3 0 4 accept 1 none accepted 0", "object 0 3 0 5 accept 1 none accepted 0"),
            ("object 1 3 0 5 accept 1 none accepted 0", "object 1 3 0 4 accept 1 none accepted 0"),
            ("call 0 4 signal 0 2 0", "call 0 4 signal 1 2 0"), ("call 0 5 signal 1 2 0", "call 0 5 signal 0 2 0"),
        ),
        ("0 3", "1 0", "1 1"),
    ),
    Pair(
        "a lane takes the older of two signals, and had seen the younger one accepted",
        queued_script(2, ["0 expire 0 1", "0 expire 0 4"], ["0 overrun 1", "0 sigwait", "1 sigwait"]),
        queued_record(
            ["0 3", "0 4"], "object 0 3 0 6 accept 1 none accepted 0", "object 1 3 1 0 accept 1 none accepted 0", "call 0 3 more 1 1 0",
            "call 0 4 done 1 1 1", "call 0 5 overrun 0 2", "call 0 6 signal 0 2 0", "call 1 0 signal 1 2 0",
        ),
        (("call 0 5 overrun 0 2", "call 0 5 overrun 0 3"),),
        ("1 0",),
    ),
    Pair(
        "of two signals of one timer the one that was sent later is taken first",
        queued_script(1, ["0 expire 0 4", "1 settime 0 1 0 100 0 0", "1 expire 0 4"], ["0 sigwait", "0 sigwait"]),
        queued_record(
            ["0 2"], "timer 0 4 1 0 start abs 100 0 1 0 0 monotonic 100 100 0", "timer 0 5 1 1 claim 0 1 4", "timer 0 6 1 1 finish stop 4 none",
            "object 0 3 1 0 settime 1 100 0 1 4 old 0 0", "object 0 4 1 1 trigger 4 1 counted", "object 0 5 0 4 accept 1 none accepted 0",
            "call 0 2 done 1 1 0", "call 0 3 stale 0 2", "call 0 4 signal 0 4 0", "call 1 0 old 0 0", "call 1 1 done 1 1 0",
        ),
        (
            ("object 0 5 0 4 accept 1 none accepted 0", "object 0 5 0 3 accept 1 none accepted 0"),
            ("call 0 3 stale 0 2", "call 0 3 signal 0 4 0"), ("call 0 4 signal 0 4 0", "call 0 4 stale 0 2"),
        ),
        ("0 2", "1 0", "1 1"),
    ),
    Pair(
        "a signal finds room while 64 wait, and a lane that has seen its expiry makes room",
        queued_script(65, ["0 expire 0 64"], ["0 expire 0 4", "1 overrun 64", "1 sigwait"], limit=2),
        queued_record(
            ["0 66"] * 64 + ["0 67"], "call 0 66 more 64 1 " + " ".join(map(str, range(64))), "call 0 67 done 1 1 64",
            "call 1 0 overrun 0 1", "call 1 1 spent 0 2",
        ),
        (("call 1 0 overrun 0 1", "call 1 0 overrun 0 2"),),
        ("0 67",),
    ),
]
