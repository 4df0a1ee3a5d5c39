"""The applications of docs/formats.md and docs/model.md in plain Python, told apart from the program."""
MOST = 4294967295
MOST_ID = 65535


# ---- numbers, as a line or a local state spells them

def number(word, most=MOST):
    """The number of a decimal spelling without leading zeros, or None."""
    if not (word.isascii() and word.isdigit()) or word != "0" and word[0] == "0" or len(word) > 10:
        return None
    return int(word) if int(word) <= most else None


def identifier(word):
    return number(word, MOST_ID) or None


def ascending(items):
    return all(a < b for a, b in zip(items, items[1:]))


def set_of(rows):
    return ",".join(map(str, sorted(rows))) or "-"


# ---- the applications: for each case its name and whom it reads; `next` is None where the case isn't enabled

class Idle:
    cases = []

    def start(self, i, leader):
        return ()

    def wrong(self, part, states):
        """What is wrong with the states of a component, a graph by itself, or None."""
        return None

    def failing(self, i, own, j, other):
        return []

    def text(self, local):
        return "-"

    def read(self, text):
        return () if text == "-" else None


class Token:
    cases = [("pass", "toward"), ("take", "one")]

    def start(self, i, leader):
        return i == leader, frozenset(), frozenset()

    def next(self, case, i, bound, near, own, seen):
        hold, given, taken = own
        if case == 1:
            return (False, given ^ {near}, taken) if hold else None
        if hold or (i in seen[near][1]) == (near in taken):
            return None
        return True, given, taken ^ {near}

    def failing(self, i, own, j, other):
        coming, going = (i in other[1]) != (j in own[2]), (j in own[1]) != (i in other[2])
        return [
            (1, own[0] and other[0]),
            (2, (own[0] or other[0]) and (coming or going)),
            (3, coming and going),
        ]

    def text(self, local):
        return "/".join(["hold" if local[0] else "free", set_of(local[1]), set_of(local[2])])

    def wrong(self, part, states):
        held = sum(states[i][0] for i in part)
        coming = sum((j in states[i][1]) != (i in states[j][2]) for i in part for j in part[i])
        return None if held + coming == 1 else f"tokens {held + coming}"

    def read(self, text):
        words = text.split("/")
        if len(words) != 3 or words[0] not in ("hold", "free"):
            return None
        given, taken = ([] if it == "-" else [identifier(word) for word in it.split(",")] for it in words[1:])
        if None in given + taken or not ascending(given) or not ascending(taken):
            return None
        return words[0] == "hold", frozenset(given), frozenset(taken)


class Mutex:
    cases = [("enter", "all"), ("leave", "alone")]

    def start(self, i, leader):
        return False, 0

    def turn(self, i, bit, j, other):
        """Whether the turn of the link of i and j is i's."""
        return (bit == other) == (i < j)

    def next(self, case, i, bound, near, own, seen):
        inside, bit = own
        if case == 2:
            return (False, 1 - bit) if inside else None
        turns = all(self.turn(i, bit, j, other) for j, (_, other) in seen.items())
        return (True, bit) if not inside and turns else None

    def failing(self, i, own, j, other):
        return [(1, own[0] and other[0]), (2, own[0] and not self.turn(i, own[1], j, other[1]))]

    def text(self, local):
        return f"{'in' if local[0] else 'out'}/{local[1]}"

    def wrong(self, part, states):
        lacking = [i for i in part if states[i][0]
                   and not all(self.turn(i, states[i][1], j, states[j][1]) for j in part[i])]
        return f"in without its turn {len(lacking)}" if lacking else None

    def read(self, text):
        return {"in/0": (True, 0), "in/1": (True, 1), "out/0": (False, 0), "out/1": (False, 1)}.get(text)


class Routes:
    cases = [("pull", "one")]

    def start(self, i, leader):
        return {i: (0, i)}

    def next(self, case, i, bound, near, own, seen):
        offers = {d: h + 1 for d, (h, _) in seen[near].items() if h + 1 < bound}
        better = {d: (h, near) for d, h in offers.items() if d not in own or own[d][0] > h}
        return {**own, **better} if better else None

    def failing(self, i, own, j, other):
        ways = [(d, h) for d, (h, n) in own.items() if n == j and h > 0]
        return [
            (1, any(d not in other for d, _ in ways)),
            (2, any(d in other and other[d][0] > h - 1 for d, h in ways)),
        ]

    def text(self, local):
        return ",".join(f"{d}:{h}:{n}" for d, (h, n) in sorted(local.items())) or "-"

    def wrong(self, part, states):
        lost = sum(not self.is_route(part, states, i, d, h, n) for i in part for d, (h, n) in states[i].items())
        return f"routes without a way {lost}" if lost else None

    def is_route(self, part, states, i, d, h, n):
        """Whether a walk of h links leads from i to d, over a neighbour n that is nearer where there are some."""
        if h > 0 and (n not in part[i] or states[n].get(d, (h,))[0] >= h):
            return False
        # a walk may go back and forth over a link, and 2 n links are enough for each node and each parity
        reached = {i}
        for _ in range(min(h, 2 * len(part) + h % 2)):
            reached = {k for j in reached for k in part[j]}
        return d in reached

    def read(self, text):
        entries = [] if text == "-" else [it.split(":") for it in text.split(",")]
        if any(len(it) != 3 for it in entries):
            return None
        entries = [(identifier(d), number(h), identifier(n)) for d, h, n in entries]
        if any(None in it for it in entries) or not ascending([it[0] for it in entries]):
            return None
        return {d: (h, n) for d, h, n in entries}


APPLICATIONS = {"idle": Idle(), "token": Token(), "mutex": Mutex(), "routes": Routes()}
