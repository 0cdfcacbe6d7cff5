"""What the lines of a record say: the answers, each timer's entries, and whether these follow one another as a timer's do, while the clock stays at 0."""
from collections import defaultdict


def as_in_version_two(event, rest):
    """An entry's words with the slack and the soft expiry that a record of version 1 leaves out."""
    if event == "start":
        return [*rest[:2], "0", *rest[2:6], rest[6], *rest[6:]]
    return [*rest[:3], rest[3], *rest[3:]] if event == "forward" else rest


def follow(timer, entries):
    """What is wrong with the entries of a timer, if anything: each has to follow those before it. The clock stays at 0."""
    armed = running = None
    moving, on, soft, expires = False, 0, 0, 0
    for number, (place, _, event, *rest) in enumerate(entries, 1):
        if place != number:
            return f"entry {place} of timer {timer} stands at place {number}"
        if event == "out":
            # A timer on its way goes on only to a lower base, where the one that it was sent to is off line.
            right = running is None and (int(rest[0]) < on if moving else int(rest[0]) != on) and (armed is not None) == (rest[1] == "1")
            on, armed, moving = int(rest[0]), None, True
        elif event == "start":
            right = int(rest[5]) == on and (armed is not None) == (rest[9] == "1") and (running is not None or int(rest[4]) == on)
            armed, moving, soft, expires = number, False, int(rest[7]), int(rest[8])
            right = right and soft == int(rest[1]) and expires == soft + int(rest[2])
        elif event == "cancel":
            right = armed == int(rest[0]) and running is None and not moving
            armed = None
        elif event == "claim":
            right = armed == int(rest[2]) and running is None and not moving and int(rest[0]) == on and soft == 0
            armed, running = None, armed
        elif event == "forward":
            # By one period where the hard expiry is reached, and else by none.
            moved = 100 if expires == 0 else 0
            right = running is not None and armed is None and int(rest[1]) * int(rest[2]) == moved
            soft, expires = soft + moved, expires + moved
            right = right and [soft, expires] == [int(rest[3]), int(rest[4])]
        else:
            again = number if armed is None and rest[0] == "again" else None
            right = running == int(rest[1]) and rest[2] == (str(again) if again else "none")
            armed, running = again or armed, None
        if not right:
            return f"entry {number} of timer {timer} can't follow: {event} {' '.join(rest)}"
    return None if running is None else f"timer {timer} is left running"


def entries_of(lines):
    """The calls with their answers, each timer's entries, and those under each label."""
    told, entries, labels = [], defaultdict(list), defaultdict(list)
    for word, *rest in lines:
        if word == "call":
            told.append((int(rest[0]), int(rest[1]), rest[2:]))
        elif word == "timer":
            timer, place, label = int(rest[0]), int(rest[1]), (int(rest[2]), int(rest[3]))
            event = [rest[4], *as_in_version_two(rest[4], rest[5:])] if lines[0][1] == "1" else rest[4:]
            entries[timer].append((place, label, *event))
            labels[label].append((timer, place, *event))
    return told, entries, labels
