#!/usr/bin/env python3
"""Runs `verify` of the program named on the command line on histories: each answer has to be the one that is worked
out here from what `replay` says of the same commands.

The entries of a random history are the commands of a random script that `replay` doesn't refuse. From each history
comes a second text, which differs from it in one byte or is cut. What that is read as, a reader written here apart
says, from the grammar alone; and `replay`, which of its entries is the first that is refused. A random history is one
of 2, 3, 8 or 4294967296 sessions, and now and then its first line tells other ones; it is of one of the three versions,
of the third where a node goes down or comes up. Beside them stand texts whose answers are written out.
"""
import multiprocessing.pool
import os
import random
import re
import sys
import tempfile

sys.dont_write_bytecode = True
from history_reader import (BYTES, CASES, CHUNK, Case, DIGITS, HEAD, MODULI, MOST, NODES_DOWN, Program, RUNS, SECOND,
                            SESSIONS, SHOWN, Strange, TEXTS, TOPOLOGIES, WRITTEN, answer_to, distances, is_late,
                            neighbours, read, text_of, told_of, wrong_of)

# ---- random scripts

class Commands:
    """Random commands for the nodes of a topology. Most name nodes and neighbours that are there."""

    def __init__(self, rng, name, app, modulus):
        self.rng, self.app, self.modulus, self.graph = rng, app, modulus, neighbours(TOPOLOGIES[name])
        self.ids = list(self.graph)
        self.root = max(self.ids)
        self.far = distances(self.graph, self.root)

    def chance(self, part):
        return self.rng.random() < part

    def stranger(self):
        return self.rng.choice([0, 1, 7, 65535, 65536, MOST])

    def node(self):
        return self.rng.choice(self.ids) if self.chance(0.97) else self.stranger()

    def near(self, i):
        return self.rng.choice(self.graph[i]) if i in self.graph and self.chance(0.9) else self.node()

    def event(self):
        i, both = self.node(), self.chance(0.2)
        word = self.rng.choice(["request", "open", "join", "finish", "claim", "follow", "mend"])
        return f"{self.rng.choice(['relay', 'adopt'])} {i} {self.near(i)}" if both else f"{word} {i}"

    def act(self):
        i, cases = self.node(), CASES[self.app]
        case, wants = self.rng.choice([0, 1, 2, 3, 255]), self.chance(0.5)
        if cases and self.chance(0.9):
            case = self.rng.randint(1, len(cases))
            wants = cases[case - 1]
        return f"act {i} {case} {self.near(i)}" if wants else f"act {i} {case}"

    def acts(self):
        """Every case at every node, toward each neighbour where it is about one."""
        lines = []
        for i in self.ids:
            for case, wants in enumerate(CASES[self.app], 1):
                lines += [f"act {i} {case} {j}" for j in self.graph[i]] if wants else [f"act {i} {case}"]
        return self.rng.sample(lines, len(lines))

    # -- faults

    def local(self):
        """The text of a local state of the application, or any."""
        rng, some = self.rng, [sorted(self.rng.sample(self.ids, self.rng.randint(0, 2))) for _ in range(2)]
        if self.chance(0.1):
            return "".join(chr(rng.randint(33, 126)) for _ in range(rng.choice([1, 2, 30, 200, 201])))
        if self.app == "token":
            return "/".join([rng.choice(["hold", "free"]), *(",".join(map(str, it)) or "-" for it in some)])
        if self.app == "mutex":
            return f"{rng.choice(['in', 'out'])}/{rng.randint(0, 1)}"
        if self.app == "routes":
            return ",".join(f"{d}:{rng.randint(0, 3)}:{rng.choice(self.ids)}" for d in some[0]) or "-"
        return "-"

    def fault(self):
        rng, i = self.rng, self.node()
        kind = rng.choice(["tree", "wave", "local", "down", "up"] * 2 + ["off", "on"])
        if kind == "tree":
            some = [rng.choice(self.ids), rng.choice(self.ids), i, self.stranger()]
            root, father = rng.choices(some, [8, 8, 8, 1], k=2)
            far = rng.randint(0, len(self.ids) + 1) if self.chance(0.95) else MOST
            return f"fault tree {i} {root} {father} {far}"
        if kind == "wave":
            ends = [MOST - 1, MOST, self.modulus - 1, min(self.modulus, MOST)]
            session = rng.randint(0, 5) if self.chance(0.95) else rng.choice(ends)
            return f"fault wave {i} {rng.choice(['normal', 'initiate', 'reset'])} {session}"
        if kind == "local":
            return f"fault local {i} {self.local()}"
        if kind in ("off", "on"):
            return f"fault {kind} {i}"
        return f"fault down {i} {self.near(i)}" if kind == "down" else f"fault up {i} {self.node()}"

    def repairs(self):
        """Each repair of the registers once at each node, in random order."""
        lines = [f"{it} {i}" for it in ("claim", "follow", "mend") for i in self.ids]
        lines += [f"adopt {i} {j}" for i in self.ids for j in self.graph[i]]
        return self.rng.sample(lines, len(lines))

    # -- waves

    def outward(self):
        """The nodes by their distances, those of one distance in random order."""
        return sorted(self.rng.sample(self.ids, len(self.ids)), key=self.far.get)

    def up(self):
        """Requests that are relayed along every link toward the root, and openings."""
        asked, tops = self.rng.sample(self.ids, self.rng.randint(1, 2)), [self.root]
        if self.chance(0.3):
            tops += self.rng.sample(self.ids, self.rng.randint(1, len(self.ids)))
        lines = [f"request {i}" for i in asked]
        lines += [f"relay {j} {i}" for i in reversed(self.outward()) for j in self.graph[i]]
        lines += [f"request {i}" for i in tops if self.chance(0.7)]
        return [*lines, *(f"open {i}" for i in tops)]

    def down(self):
        """Joins and finishes: those first and then these, or in rounds of both."""
        if self.chance(0.5):
            joins, finishes = self.outward() * 2, self.outward()[::-1] * 2
            return [*(f"join {i}" for i in joins), *(f"finish {i}" for i in finishes)]
        both = [f"{it} {i}" for it in ("join", "finish") for i in self.ids]
        return [line for _ in range(2 * max(self.far.values()) + 2) for line in self.rng.sample(both, len(both))]

    def mixed(self, lines):
        """The lines with random commands in between."""
        often, more = self.rng.choice([0, 0.1, 0.3]), []
        for line in lines:
            if self.chance(often):
                more.append(self.act() if self.chance(0.5) else self.event())
            more.append(line)
        return more

    def wave(self, faults):
        """The commands of a whole wave over the booted tree, and mostly over others, with so many faults on the way."""
        lines = self.mixed([*self.up(), *self.down()])
        for _ in range(faults):
            lines.insert(self.rng.randint(0, len(lines)), self.fault())
        return lines

    def script(self):
        lines, faulty = [], self.chance(0.5)
        for _ in range(self.rng.choice([1, 1, 2, 3])):
            faults = self.rng.randint(0, 3) if faulty else 0
            lines += self.acts() if self.chance(0.5) else []
            lines += self.wave(faults)
            if faults and self.chance(0.7):
                lines += [line for _ in range(3) for line in self.repairs()]
        return lines[:self.rng.randint(0, len(lines))] if self.chance(0.2) else lines


# ---- random texts

def head_of(rng, modulus, lines=()):
    """A first line of this modulus, of one of the versions that have it and the lines."""
    version = 3 if any(map(is_late, lines)) else rng.choice([1, 2, 3] if modulus == SESSIONS else [2, 3])
    return HEAD if version == 1 else b"reset-history %d %d\n" % (version, modulus)


def changed(rng, text):
    """The text with one byte changed, deleted or inserted, or cut: half of them at random, where most texts are no
    history any more. In the others a digit of an entry is another, or the text ends behind an earlier line. A few have
    the first line of another modulus."""
    ends = [n for n in range(len(text)) if text[n] == ord("\n")]
    head = ends[0] + 1
    digits = [n for n in range(head, len(text)) if text[n] in b"0123456789"]
    if rng.random() < 0.05:
        return head_of(rng, rng.choice(MODULI)) + text[head:]
    if digits and rng.random() < 0.5:
        at = rng.choice(digits)
        return text[:at] + rng.choice([it for it in DIGITS if it != text[at:at + 1]]) + text[at + 1:]
    if rng.random() < 0.1:
        return text[:rng.choice(ends) + 1]
    at = rng.choice(rng.choices([range(len(text)), digits or ends, ends, range(head)], [8, 2, 2, 2])[0])
    byte = bytes([rng.choice([it for it in rng.choice(BYTES) if it != text[at]])])
    front, behind = text[:at], text[at + 1:]
    return rng.choice([front + byte + behind, front + behind, front + byte + text[at:], front])


def random_cases(program, name, app, number):
    """A random history, and the text that is made of it."""
    modulus = MODULI[number % len(MODULI)]
    title, topology = f"{name} {app} {number}", program.place(name, app, modulus)
    rng = random.Random(title)
    lines = Commands(rng, name, app, modulus).script()
    kept = [it for it in zip(lines, program.replay(topology, lines)) if not it[1].startswith("refused")]
    entries, answers = [it[0] for it in kept], [it[1] for it in kept]
    text = text_of(entries, head_of(rng, modulus, entries))
    assert read(text, modulus) == entries, "the reader doesn't read what was written"
    yield Case(title, topology, text, told_of(entries, answers))
    other = changed(rng, text)
    yield Case(f"{title} changed", topology, other, answer_to(program, topology, modulus, other))


# ---- texts with their answers, on the line of the nodes 1, 2 and 3

WAVE = ["request 1", "relay 2 1", "relay 3 2", "open 3", "join 2", "join 1", "finish 1", "finish 2", "finish 3"]
MENDED = ["request 3", "open 3", "join 2", "fault wave 1 normal 1", "finish 2", "finish 3"]
# both 3 and 2 are their own fathers, and each has its own openings
TWO_ROOTS = """
fault tree 2 2 2 0
request 3
open 3
request 2
open 2
join 1
finish 3
finish 1
finish 2
""".split("\n")[1:-1]
ALONE = ["fault tree 2 2 2 0", "fault wave 3 reset 7", "finish 3"]
# the leader goes down in a reset, the others have one without it, and it comes up and joins them
GONE = """
request 3
open 3
fault off 3
claim 2
follow 1
request 1
relay 2 1
open 2
join 1
finish 1
finish 2
fault on 3
fault up 2 3
adopt 2 3
follow 1
mend 2
mend 1
""".split("\n")[1:-1]
# node 1 is cut off, and each part has a reset of its own
SPLIT = ["fault down 1 2", "claim 1", "request 1", "open 1", "finish 1", "request 3", "open 3", "join 2", "finish 2",
         "finish 3"]
IDS = ",".join(map(str, range(10001, 10033)))  # 191 bytes

# the application, the entries and the answer
HISTORIES = [
    ("idle", [], "verified 0 entries 0 reports"),
    ("idle", ["request 1", "relay 2 1"], "verified 2 entries 0 reports"),
    ("idle", ["request 3", "open 3", "join 1"], "not enabled at 3"),
    ("idle", ["request 3", "open 3", "join 2", "join 1", "finish 2"], "not enabled at 5"),
    ("idle", ["fault tree 1 1 1 0", "fault down 1 3", "request 1"], "not enabled at 2"),
    ("idle", ["fault tree 1 1 1 0", "fault down 1 2", "request 1"], "verified 3 entries 0 reports"),
    ("idle", ["fault down 1 2", "fault down 2 1"], "not enabled at 2"),
    ("idle", SPLIT, "report 1 opened 4 finished 5\nreport 1 opened 7 finished 10\nverified 10 entries 2 reports"),
    ("idle", [*SPLIT, "fault up 1 2", "request 1", "join 1"], "not enabled at 13"),
    ("idle", WAVE, "report 1 opened 4 finished 9\nverified 9 entries 1 reports"),
    ("token", WAVE, "report 1 opened 4 finished 9\nverified 9 entries 1 reports"),
    ("idle", [*WAVE, "join 1"], "not enabled at 10"),
    ("idle", MENDED, "report 1 opened - finished 6\nverified 6 entries 1 reports"),
    ("idle", ["fault wave 1 normal 0", *WAVE], "report 1 opened 5 finished 10\nverified 10 entries 1 reports"),
    ("idle", ["fault wave 3 initiate 4294967294", "open 3"], "verified 2 entries 0 reports"),
    ("idle", ["fault wave 3 initiate 4294967295", "open 3"], "verified 2 entries 0 reports"),
    ("idle", ["fault wave 3 initiate 4294967295", "open 3", "join 2"], "not enabled at 3"),
    ("idle", ["fault wave 2 normal 4294967295", "fault wave 3 reset 0", "join 2", "join 2"], "not enabled at 4"),
    ("idle", TWO_ROOTS, "report 1 opened 3 finished 7\nreport 1 opened 5 finished 9\nverified 9 entries 2 reports"),
    ("idle", ["fault wave 3 reset 7", "finish 3"], "not enabled at 2"),
    ("idle", ALONE, "report 7 opened - finished 3\nverified 3 entries 1 reports"),
    ("token", ["act 3 1 2", "act 2 2 3"], "verified 2 entries 0 reports"),
    ("token", ["act 3 1 2", "act 3 1 2"], "not enabled at 2"),
    ("mutex", ["act 1 1", "act 1 2"], "verified 2 entries 0 reports"),
    ("mutex", ["act 1 1", "act 2 1"], "not enabled at 2"),
    ("token", [f"fault local 1 hold/{IDS}/100"], "verified 1 entries 0 reports"),
    ("token", [f"fault local 1 hold/{IDS}/1000"], "not enabled at 1"),
]

# a line of exactly 256 bytes is read, and one byte more is too many
LONG = "fault local 1 " + "0" * 242

def listed(name):
    """The lines of a file beside, in which \\t and the like stand for such bytes."""
    beside = os.path.dirname(os.path.realpath(__file__))
    with open(os.path.join(beside, "history-lines", name), encoding="ascii") as file:
        return file.read().split("\n")[:-1]


# lines that no history has; line 3 of their texts, and behind an entry that isn't allowed: reading comes first
BAD_LINES = listed("bad-lines")

# entries, of which none is allowed at the opening, whatever the application
REFUSED = listed("refused")

ALLOWED = listed("allowed")

BAD_FIRST = [
    b"", b"\n", b"reset-history 1", b"reset-history 9", b"reset-history 1 ", b"reset-history \n", b"reset-history\n",
    b"reset-history 1 \n", b"reset-history 1\r\n", b"reset-history 1 1\n", b"reset-history  1\n", b" reset-history 1\n",
    b"reset-history 01\n", b"reset-history 00\n", b"reset-history +1\n", b"reset-history -1\n", b"reset-history one\n",
    b"reset-history 4294967296\n", b"reset-history 12345678901\n", b"reset-history 1.0\n", b"Reset-history 1\n",
    b"reset-history\t1\n", b"reset_history 1\n", b"history 1\n", b"\nreset-history 1\n", b"#\nreset-history 1\n",
    b"\xef\xbb\xbfreset-history 1\n", b"request 1\n", b"reset-history 1\0\n", b"reset-history " + b"1" * 9000 + b"\n",
    b"reset-history 2\n", b"reset-history 2 \n", b"reset-history 2 8", b"reset-history 2 0\n", b"reset-history 2 1\n",
    b"reset-history 2 4294967297\n", b"reset-history 2 42949672960\n", b"reset-history 2 18446744073709551618\n",
    b"reset-history 2 08\n", b"reset-history 2  8\n", b"reset-history  2 8\n", b"reset-history 2 8 \n",
    b"reset-history 2 8 8\n", b"reset-history 2 8\r\n", b"reset-history 2\t8\n", b"reset-history 2 +8\n",
    b"reset-history 2 -8\n", b"reset-history 2 0x8\n", b"reset-history 2 eight\n", b"reset-history 2 8.0\n",
    b"reset-history 02 8\n", b"reset-history 28\0\n", b"reset-history 2 8\0\n", b"reset-history 2 " + b"8" * 9000,
    b"reset-history 2 " + b"8" * 9000 + b"\n",
    b"reset-history 1 8\n", b"reset-history 1 4294967296\n", b"reset-history 4 8\n", b"reset-history 4294967296 8\n",
    b"reset-history 3\n", b"reset-history 3 \n", b"reset-history 3 8", b"reset-history 3 0\n", b"reset-history 3 1\n",
    b"reset-history 3 4294967297\n", b"reset-history 3 08\n", b"reset-history 3 8 \n", b"reset-history 3 8 8\n",
    b"reset-history 3 8\r\n", b"reset-history 3\t8\n", b"reset-history 03 8\n", b"reset-history 3 " + b"8" * 9000 + b"\n",
]
VERSIONS = [0, 4, 9, 10, 11, 1000, 4294967294, 4294967295]


def bytes_of(line):
    """The line with its escapes."""
    return line.encode().decode("unicode_escape").encode("latin-1")


def small_texts():
    """The application, the text and the answer."""
    yield from ((app, text_of(entries), answer) for app, entries, answer in HISTORIES)
    yield "idle", HEAD + b"request 1\nrela", "bad history BadLine 3"
    yield "idle", HEAD + b"request 01\n", "bad history BadLine 2"
    yield "idle", text_of([LONG]), "not enabled at 1"
    yield "idle", text_of([LONG + "0"]), "bad history BadLine 2"
    yield "idle", text_of([LONG])[:-1], "bad history BadLine 2"
    yield "idle", HEAD + b"0" * 100000, "bad history BadLine 2"
    for line in BAD_LINES:
        yield "token", HEAD + b"join 1\n" + bytes_of(line) + b"\nrequest 1\n", "bad history BadLine 3"
        yield "idle", HEAD + b"request 1\n" + bytes_of(line) + b"\n\n", "bad history BadLine 3"
        yield "idle", WRITTEN + b"request 1\n" + bytes_of(line) + b"\n", "bad history BadLine 3"
    for app in CASES:
        yield from ((app, text_of([line]), "not enabled at 1") for line in REFUSED)
    yield from (("idle", text_of([line], head), "verified 1 entries 0 reports") for line in ALLOWED for head in (HEAD, WRITTEN))
    yield from nodes_down()
    for first in BAD_FIRST:
        yield "idle", first, "bad history BadLine 1"
    for version in VERSIONS:
        yield "idle", b"reset-history %d\n" % version, "bad history BadVersion"
        yield "idle", b"reset-history %d\nrela" % version, "bad history BadVersion"
        yield "idle", b"reset-history %d" % version, "bad history BadLine 1"


def nodes_down():
    """Nodes go down and come up in version 3 alone."""
    reports = "report 1 opened 8 finished 11\nverified 17 entries 1 reports"
    yield "idle", text_of(GONE, WRITTEN), reports
    yield "idle", text_of([*GONE, "request 3", "open 3"], WRITTEN), reports.replace("17", "19")
    yield "token", text_of(GONE, WRITTEN), reports
    for entries, answer in (
        (["fault off 3"], "verified 1 entries 0 reports"),
        (["fault off 3", "fault off 3"], "not enabled at 2"),
        (["fault off 3", "request 3"], "not enabled at 2"),
        (["fault off 3", "fault wave 3 normal 0"], "not enabled at 2"),
        (["fault off 3", "fault up 2 3"], "not enabled at 2"),
        (["fault off 3", "fault tree 2 3 3 0"], "verified 2 entries 0 reports"),
        (["fault on 3"], "not enabled at 1"),
        (["fault on 4"], "not enabled at 1"),
        (["fault off 4294967295"], "not enabled at 1"),
        (["fault off 1", "fault off 2", "fault off 3"], "verified 3 entries 0 reports"),
        (["fault off 1", "fault off 2", "fault off 3", "fault on 2", "request 2", "open 2", "finish 2"],
         "report 1 opened 6 finished 7\nverified 7 entries 1 reports"),
        (["fault off 2", "fault on 2", "relay 2 1"], "not enabled at 3"),
    ):
        yield "idle", text_of(entries, WRITTEN), answer
        yield from (("idle", text_of(entries, head), f"bad history BadLine {early_line(entries)}") for head in (HEAD, SECOND))
    for line in (b"fault off", b"fault off ", b"fault off 01", b"fault off  1", b"fault off 1 ", b"fault off 1 2", b"fault on",
                 b"fault on 1 1", b"fault on 4294967296", b"fault Off 1", b"fault offs 1", b"fault off 1\r", b"off 1"):
        yield from (("idle", head + line + b"\n", "bad history BadLine 2") for head in (HEAD, SECOND, WRITTEN))


def early_line(entries):
    """The first line that an earlier version doesn't have."""
    return next(n for n, it in enumerate(entries, 2) if is_late(it))


def texts_of_moduli():
    """The modulus of the topology or None, the text and the answer."""
    two = ["report 1 opened 4 finished 9", "report 0 opened 13 finished 18", "verified 18 entries 2 reports"]
    yield 2, text_of(WAVE * 2, b"reset-history 2 2\n"), "\n".join(two)
    yield 3, text_of(WAVE, b"reset-history 2 3\n"), "report 1 opened 4 finished 9\nverified 9 entries 1 reports"
    yield 2, text_of(WAVE * 2, b"reset-history 3 2\n"), "\n".join(two)
    # that node 3 goes down is no line of version 2, whatever the modulus
    yield from ((modulus, b"reset-history 2 8\nfault off 3\n", "bad history BadLine 2") for modulus in (None, 2, 8))
    yield 8, b"reset-history 3 8\nfault off 3\n", "verified 1 entries 0 reports"
    foreign = [f"fault wave {i} {phase} 9" for i, phase in ((1, "normal"), (2, "normal"), (3, "initiate"))]
    foreign += ["open 3", "join 2", "join 1"]
    yield 8, text_of(foreign, b"reset-history 2 8\n"), "verified 6 entries 0 reports"
    yield 3, text_of(foreign, b"reset-history 2 3\n"), "verified 6 entries 0 reports"
    for session, answer in ((3, "verified 3 entries 0 reports"), (2, "not enabled at 3")):
        entries = [f"fault wave 2 normal {session}", "fault wave 3 reset 0", "join 2"]
        yield 2, text_of(entries, b"reset-history 2 2\n"), answer
    # the modulus that a topology may leave out has three first lines
    for modulus in (None, SESSIONS):
        yield from ((modulus, head, "verified 0 entries 0 reports") for head in (HEAD, SECOND, WRITTEN))
        for version in (2, 3):
            yield modulus, b"reset-history %d 4294967295\n" % version, "bad history OtherModulus 4294967295"
            yield modulus, b"reset-history %d 2\n" % version, "bad history OtherModulus 2"
    # faults of the text come first, and entries that aren't allowed last
    heads = [(HEAD, SESSIONS), (SECOND, SESSIONS), (WRITTEN, SESSIONS), (b"reset-history 2 3\n", 3), (b"reset-history 3 3\n", 3)]
    for head, told in heads:
        yield from ((8, head + rest, f"bad history OtherModulus {told}") for rest in (b"", b"request 1\n", b"join 1\n"))
        yield 8, head + b"request 1\nrela", "bad history BadLine 3"
        yield 8, head + b"join 1\nrela\n", "bad history BadLine 3"
    yield 8, WRITTEN + b"join 1\n" * 1_000_001, "bad history TooLong"
    yield 8, text_of(["join 1"], b"reset-history 2 8\n"), "not enabled at 1"
    yield 8, b"reset-history 2 1\n", "bad history BadLine 1"
    yield 8, b"reset-history 9\n", "bad history BadVersion"


def cut_waves(waves, places, head=HEAD):
    """The text of so many waves in turn, cut at these places: its entries, or the line that was cut."""
    whole = text_of(WAVE * waves, head)
    for at in places or range(len(whole) + 1):
        text = whole[:at]
        ended = text.count(b"\n")
        if not text.endswith(b"\n"):
            yield "idle", text, f"bad history BadLine {ended + 1}"
            continue
        reports = (ended - 1) // len(WAVE)
        told = [f"report {n + 1} opened {9 * n + 4} finished {9 * n + 9}" for n in range(reports)]
        yield "idle", text, "\n".join([*told, f"verified {ended - 1} entries {reports} reports"])


def long_texts():
    """A history may have a million entries."""
    whole = HEAD + b"request 1\n" * 1_000_000
    yield "idle", whole, "not enabled at 2"
    yield "idle", whole + b"request 1\n", "bad history TooLong"
    yield "idle", whole + b"request 1\nrela", "bad history TooLong"
    yield "idle", whole + b"request 1", "bad history BadLine 1000002"
    yield "idle", whole + b"rela\nrequest 1\n", "bad history BadLine 1000002"


def fixed_cases(program):
    around = [k * CHUNK + d for k in (1, 2, 3) for d in range(-12, 13)]
    texts = [*small_texts(), *cut_waves(1, []), *cut_waves(400, [*around, len(text_of(WAVE * 400))]), *long_texts()]
    texts += [*cut_waves(1, [], WRITTEN), *cut_waves(400, around, WRITTEN)]
    for number, (app, text, answer) in enumerate(texts, 1):
        yield Case(f"text {number} {app}", program.place("line", app), text, answer)
    for number, (modulus, text, answer) in enumerate(texts_of_moduli(), 1):
        yield Case(f"text {number} modulo {modulus}", program.place("line", "idle", modulus), text, answer)
    bad = program.put("bad.toml", b'nodes = [1, 2, 3]\nlinks = [[1, 2], [3, 3]]\napp = "idle"\n')
    for text in (HEAD, text_of(WAVE), b"", b"reset-history 9\n", HEAD + b"rela"):
        yield Case("a bad topology", bad, text, "bad topology SelfLink 3")
    apart = program.put("apart.toml", b'nodes = [1, 2, 3]\nlinks = [[1, 2]]\napp = "idle"\n')
    alone = ["request 3", "open 3", "finish 3"]
    both = [*WAVE[:2], *alone, "open 2", "join 1", "finish 1", "finish 2"]
    reports = "report 1 opened 4 finished 5\nreport 1 opened 6 finished 9\nverified 9 entries 2 reports"
    for entries, answer in ((WAVE, "not enabled at 3"), (both, reports), ([*alone, "join 1"], "not enabled at 4")):
        yield Case("two components", apart, text_of(entries), answer)


# ---- all of them

def judged(program, name, app, number):
    """The two cases of a random history, each with what is wrong with the program's answer."""
    told = []
    try:
        for case in random_cases(program, name, app, number):
            told.append((case, wrong_of(program, case)))
    except Strange as strange:
        told.append((Case(f"{name} {app} {number}", "", b"", ""), str(strange)))
    return told


def seldom(told):
    """What the answers to the random texts have too seldom."""
    said = "\n".join(case.answer for case, _ in told)
    counts = {what: len(re.findall(what, said)) for what in SHOWN}
    return [f"'{what}': {counts[what]}, wanted {least}" for what, least in SHOWN.items() if counts[what] < least]


def main():
    with tempfile.TemporaryDirectory() as room, multiprocessing.pool.ThreadPool() as pool:
        program = Program(os.path.realpath(sys.argv[1]), room)
        kinds = [(name, app) for name in TOPOLOGIES for app in CASES]
        for name, app in kinds:
            for modulus in [None, *MODULI]:
                program.topology(name, app, modulus)
        jobs = [(program, *kind, number) for number in range(RUNS) for kind in kinds]
        drawn = [it for told in pool.starmap(judged, jobs) for it in told]
        fixed = pool.map(lambda case: (case, wrong_of(program, case)), fixed_cases(program))
    wrong = [(case, it) for case, it in [*drawn, *fixed] if it]
    for number, (case, it) in enumerate(wrong):
        text = f" of {case.text[:5000]}" if number < TEXTS else ""
        print(f"histories {case.title}: {it}{text}")
    poor, down = seldom(drawn), sum(b"\nfault off" in case.text for case, _ in drawn)
    poor += [f"nodes that go down: {down}"] * (down < NODES_DOWN)
    for it in poor:
        print(f"histories: too seldom in the random answers: {it}")
    failed = len(wrong) + len(poor)
    print(f"{len(drawn) + len(fixed) - len(wrong)} histories passed, {failed} failed")
    sys.exit(1 if failed else 0)


if __name__ == "__main__":
    main()
