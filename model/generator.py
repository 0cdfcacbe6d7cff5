"""The script that `hrt gen` makes from a number."""


class Draws:
    def __init__(self, seed):
        self.state = seed

    def draw(self):
        self.state = (self.state * 1103515245 + 12345) % 2**31
        return self.state // 65536


def generated(seed, lanes, calls):
    draws = Draws(seed)
    lines = ["hrt 1", f"bases {lanes}", f"lanes {lanes}", "limit 1000000"]
    for lane in range(lanes):
        lines += [f"raw {2 * lane} monotonic every 100", f"raw {2 * lane + 1} monotonic once"]
    moves = ["round", "0 advance 50", "round"]
    for turn in range(calls):
        lines += moves if turn % 4 == 0 else []
        for lane in range(lanes):
            kind, which, delay = draws.draw() % 4, draws.draw() % 2, draws.draw() % 100
            timer = 2 * lane + which
            call = {0: f"cancel {timer}", 3: f"expire {lane} 8"}.get(kind, f"start {timer} rel {delay} {lane}")
            lines.append(f"{lane} {call}")
    lines += [*moves, *(f"{lane} expire {lane} 8" for lane in range(lanes))]
    return ("\n".join(lines) + "\n").encode()
