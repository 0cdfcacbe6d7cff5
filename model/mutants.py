"""Records with one thing changed."""

ENTRIES = ("clock", "base", "timer", "object")
LABELS = {"clock": 2, "base": 3, "timer": 3, "look": 3, "object": 3, "skip": 3}


def changed_number(random, lines):
    """An answer has another number."""
    at = pick(random, lines, lambda words: words[0] == "call" and len(words) > 4)
    words = lines[at].split(" ")
    place = random.randrange(4, len(words))
    words[place] = str(max(0, int(words[place]) + random.choice([-2, -1, -1, 1, 1, 2]))) if words[place].isdigit() else words[place]
    return {at: words}


def swapped_answers(random, lines):
    """Two calls of different lanes have each other's answers."""
    at = pick(random, lines, lambda words: words[0] == "call")
    one = lines[at].split(" ")
    other_at = pick(random, lines, lambda words: words[0] == "call" and words[1] != one[1])
    other = lines[other_at].split(" ")
    return {at: [*one[:3], *other[3:]], other_at: [*other[:3], *one[3:]]}


def changed_label(random, lines):
    """A line bears another call's label."""
    at = pick(random, lines, lambda words: words[0] in LABELS)
    words = lines[at].split(" ")
    call = lines[pick(random, lines, lambda words: words[0] == "call")].split(" ")
    place = LABELS[words[0]]
    return {at: [*words[:place], call[1], call[2], *words[place + 2:]]}


def swapped_neighbours(random, lines):
    """Two entries of a list that follow one another stand in each other's place."""
    def has_next(at):
        one, other = lines[at].split(" "), lines[at + 1].split(" ")
        name = 1 if one[0] == "clock" else 2
        return one[0] in ENTRIES and one[:name] == other[:name]
    at = random.choice([at for at in range(len(lines) - 1) if has_next(at)])
    one, other = lines[at].split(" "), lines[at + 1].split(" ")
    number = 1 if one[0] == "clock" else 2
    return {at: [*one[: number + 1], *other[number + 1:]], at + 1: [*other[: number + 1], *one[number + 1:]]}


def changed_reading(random, lines):
    """A call has another reading, in each of its lines and in its answer."""
    at = pick(random, lines, lambda words: words[0] == "timer" and words[5] in ("start", "claim", "forward") or words[0] == "object")
    label, made = lines[at].split(" ")[3:5], {}
    by = random.choice([-1, -1, 1, 1, 2])
    for place, line in enumerate(lines):
        words = line.split(" ")
        where = reading_place(words, lines[0] == "record 2")
        if where and (words[3:5] if words[0] != "call" else words[1:3]) == label:
            words[where] = str(max(0, int(words[where]) + by))
            made[place] = words
    return made


def reading_place(words, is_wide):
    """Where a line has a reading's stamp."""
    if words[0] == "timer":
        return {"start": 8 + is_wide, "claim": 7, "forward": 6}.get(words[5])
    if words[0] == "object":
        return {"settime": 9, "sleep": 8, "trigger": 7}.get(words[5], 6)
    if words[0] != "call" or len(words) < 6:
        return None
    return {"done": 5, "more": 5, "busy": 5, "left": 6, "readable": 5}.get(words[3]) if len(words) > 6 or words[3] in ("done", "readable") else None


KINDS = {
    "an answer's number changed": changed_number,
    "two lanes' answers swapped": swapped_answers,
    "a line's label changed": changed_label,
    "two neighbours of a list swapped": swapped_neighbours,
    "a call's reading changed": changed_reading,
}


def pick(random, lines, is_so):
    return random.choice([at for at, line in enumerate(lines) if is_so(line.split(" "))])


def mutant(random, text):
    """The kind of change and the record changed so; None where the record has nothing of that kind, or is as before."""
    kind = random.choice(list(KINDS))
    lines = text.split("\n")
    try:
        changes = KINDS[kind](random, lines)
    except IndexError:
        return kind, None
    for at, words in changes.items():
        lines[at] = " ".join(words)
    changed = "\n".join(lines)
    return kind, None if changed == text else changed
