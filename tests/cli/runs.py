#!/usr/bin/env python3
"""Runs the program named on the command line beside a model of the whole machine that is written here
apart, in plain terms, from the tables of docs/formats.md: each answer has to be the model's. Beside the
model goes an abstract machine for each component of the graph, whose nodes all restart at once where a session opens
there: after each command the program's `newest` has to tell their states, and a completion has to find every node of
its component in its session and none in the phase reset. Nothing is damaged, so at every moment no fault may be told.

There are every run of up to three applied events on the line of three nodes, with every refused event
tried on the way, and random runs on random graphs of one, of two and of three components, of which a third each has 2,
3 and 4294967296 sessions. Of two and of three sessions the runs have to come back to session 0 now and then, and on
graphs of several components resets have to be completed in more than one of them.
"""
import copy
import itertools
import multiprocessing
import os
import random
import subprocess
import sys

sys.dont_write_bytecode = True
from history_reader import distances

MOST = 4294967296  # the modulus of a topology that names none
MODULI = {2: 30, 3: 10, MOST: 0}  # each with how many resets to session 0 its random runs have at least
SEEDS = 21  # random runs of each application and each modulus
PARTS = {1: 0, 2: 30, 3: 30}  # components, each with how many random runs complete resets in several of them at least
TURNS = 120  # of a random run, each with up to six commands and two questions
SOUND = {"check": "faults 0", "alarm": "quiet", "watch": "quiet"}  # what is told where nothing is damaged


# ---- the applications: a case's name, whom it reads, its guard and its effect; the rows that fail at a link

class Idle:
    cases = []

    def start(self, leader, i):
        return ()

    def failing(self, i, own, j, other):
        return {}

    def text(self, local):
        return "-"


class Token:
    cases = [("pass", "toward"), ("take", "one")]

    def start(self, leader, i):
        return i == leader, frozenset(), frozenset()

    def next(self, case, i, k, near, own, seen):
        hold, given, taken = own
        if case == 1:
            return (False, given ^ {near}, taken) if hold else None
        if hold or (i in seen[near][1]) == (near in taken):
            return None
        return True, given, taken ^ {near}

    def failing(self, i, own, j, other):
        coming, going = (i in other[1]) != (j in own[2]), (j in own[1]) != (i in other[2])
        return {
            1: own[0] and other[0],
            2: (own[0] or other[0]) and (coming or going),
            3: coming and going,
        }

    def text(self, local):
        words = [",".join(map(str, sorted(it))) or "-" for it in local[1:]]
        return "/".join(["hold" if local[0] else "free", *words])


class Mutex:
    cases = [("enter", "all"), ("leave", "alone")]

    def start(self, leader, i):
        return False, 0

    def next(self, case, i, k, near, own, seen):
        inside, bit = own
        if case == 2:
            return (False, 1 - bit) if inside else None
        turns = [(bit == other) == (i < j) for j, (_, other) in seen.items()]
        return (True, bit) if not inside and all(turns) else None

    def failing(self, i, own, j, other):
        turn = min(i, j) if own[1] == other[1] else max(i, j)
        return {1: own[0] and other[0], 2: own[0] and turn == j}

    def text(self, local):
        return f"{'in' if local[0] else 'out'}/{local[1]}"


class Routes:
    cases = [("pull", "one")]

    def start(self, leader, i):
        return {i: (0, i)}

    def next(self, case, i, k, near, own, seen):
        better = {d: (h + 1, near) for d, (h, _) in seen[near].items() if h + 1 < k and (d not in own or own[d][0] > h + 1)}
        return {**own, **better} if better else None

    def failing(self, i, own, j, other):
        ways = [(d, h) for d, (h, n) in own.items() if n == j and h > 0]
        return {
            1: any(d not in other for d, h in ways),
            2: any(d in other and other[d][0] > h - 1 for d, h in ways),
        }

    def text(self, local):
        return ",".join(f"{d}:{h}:{n}" for d, (h, n) in sorted(local.items())) or "-"


APPLICATIONS = {"idle": Idle(), "token": Token(), "mutex": Mutex(), "routes": Routes()}


# ---- the machine

def least(rows):
    return next((row for row, fails in rows.items() if fails), None)


class Refused(Exception):
    pass


class Machine:
    """The booted configuration of a graph, a map from each node to the list of its neighbours."""

    def __init__(self, name, graph, modulus):
        self.graph, self.application, self.modulus = graph, APPLICATIONS[name], modulus
        self.component = {i: sorted(distances(graph, i)) for i in graph}
        self.root = {i: max(self.component[i]) for i in graph}
        self.far = {i: distances(graph, self.root[i])[i] for i in graph}
        self.father = {i: min((j for j in graph[i] if self.far[j] < self.far[i]), default=i) for i in graph}
        self.phase = {i: "normal" for i in graph}
        self.session = {i: 0 for i in graph}
        self.local = {i: self.start(i) for i in graph}
        # the abstract machines: each has the nodes of its component
        self.abstract = dict(self.local)

    def copy(self):
        other = copy.copy(self)
        for part in ("phase", "session", "local", "abstract"):
            setattr(other, part, dict(getattr(self, part)))
        return other

    def children(self, i):
        return [j for j in self.graph[i] if self.father[j] == i and j != i]

    def start(self, i):
        return self.application.start(self.root[i], i)

    def joined(self, i):
        return self.session[i] == self.session[self.root[i]]

    def up(self, i):
        """The father's phase and session, where the father is a neighbour."""
        j = self.father[i]
        return (self.phase[j], self.session[j]) if j != i else (None, None)

    def next_session(self, session):
        return 0 if session == self.modulus - 1 else session + 1

    # -- the rows of the wave that can be enabled where registers are sound

    def rows(self, i):
        phase, session, (above, newer) = self.phase[i], self.session[i], self.up(i)
        done = all(self.phase[c] != "reset" and self.session[c] == session for c in self.children(i))
        joins = above == "reset" and newer == self.next_session(session)
        guards = {
            1: phase == "normal",
            2: phase == "normal" and any(self.phase[c] == "initiate" for c in self.children(i)),
            3: self.father[i] == i and phase == "initiate",
            4: joins and phase == "normal",
            5: joins and phase == "initiate",
            6: self.father[i] != i and phase == "reset" and done,
            7: self.father[i] == i and phase == "reset" and done,
        }
        return [row for row, holds in guards.items() if holds]

    def restart(self, i):
        self.local[i] = self.start(i)

    def fire(self, command, i, other):
        rows = self.rows(i)
        wanted = {"request": {1}, "relay": {2}, "open": {3}, "join": {4, 5}, "finish": {6, 7}}.get(command, set())
        if not wanted & set(rows) or command == "relay" and (other not in self.children(i) or self.phase[other] != "initiate"):
            raise Refused("NotEnabled")
        if command in ("request", "relay"):
            self.phase[i] = "initiate"
        elif command == "finish":
            self.phase[i] = "normal"
            return f"complete {self.session[i]}" if self.father[i] == i else "applied"
        else:
            self.phase[i] = "reset"
            self.session[i] = self.next_session(self.session[i])
            self.restart(i)
            if command == "open":
                self.abstract.update({j: self.start(j) for j in self.component[i]})
        return "applied"

    # -- an action

    def read(self, i, case, near):
        kind = self.application.cases[case - 1][1]
        return {"all": self.graph[i], "one": [near]}.get(kind, [])

    def next(self, states, i, case, near):
        seen = {j: states[j] for j in self.read(i, case, near)}
        return self.application.next(case, i, len(self.graph), near, states[i], seen)

    def fits(self, case, near):
        if not 1 <= case <= len(self.application.cases):
            raise Refused("NoSuchCase")
        wants = self.application.cases[case - 1][1] in ("toward", "one")
        if wants and near is None:
            raise Refused("WantsNeighbour")
        if not wants and near is not None:
            raise Refused("TakesNoNeighbour")

    def act(self, i, case, near):
        self.fits(case, near)
        for j in self.read(i, case, near):
            if self.session[j] != self.session[i]:
                raise Refused(f"Disagrees {j}")
        after = self.next(self.local, i, case, near)
        if after is None:
            raise Refused("NotEnabled")
        if self.joined(i):
            self.abstract[i] = self.next(self.abstract, i, case, near)
            assert self.abstract[i] is not None, "the abstract machine can't"
        self.local[i] = after
        return "applied"

    def does(self, command, i, case, other):
        if i not in self.graph:
            raise Refused("StrangeNode")
        if other is not None and other not in self.graph[i]:
            raise Refused("StrangeNeighbour")
        return self.act(i, case, other) if command == "act" else self.fire(command, i, other)

    # -- what contradicts itself: of each table the least row that fails

    def tree(self, i):
        return self.root[i], self.father[i], self.far[i]

    def own_row(self, i):
        root, father, far = self.tree(i)
        return least({
            1: root < i,
            2: father == i and (root != i or far != 0),
            3: father not in (i, *self.graph[i]),
            4: far >= len(self.graph),
        })

    def tree_row(self, i, j):
        (root, father, far), (other, _, away) = self.tree(i), self.tree(j)
        behind, near = father == j and far < len(self.graph), away < len(self.graph)
        return least({
            5: behind and root != other,
            6: behind and root == other and far != away + 1,
            7: near and root < other,
            8: near and root == other and away + 1 < far,
        })

    def wave_row(self, i, j):
        own, up, session, newer = self.phase[i] == "reset", self.phase[j] == "reset", self.session[i], self.session[j]
        return least({
            8: own and not up,
            9: not own and not up and session != newer,
            10: own and up and session != newer,
            11: not own and up and newer not in (session, self.next_session(session)),
        } if self.father[i] == j else {})

    def app_row(self, i, j):
        together = self.session[i] == self.session[j]
        return least(self.application.failing(i, self.local[i], j, self.local[j]) if together else {})

    def faults(self, i):
        told = [(i, i, "tree", self.own_row(i))]
        families = {"tree": self.tree_row, "wave": self.wave_row, "app": self.app_row}
        told += [(i, j, family, row(i, j)) for j in self.graph[i] for family, row in families.items()]
        return [it for it in told if it[3]]

    # -- what the program answers

    def answer(self, line):
        words = line.split()
        if words[0] in ("show", "newest", "enabled", "ready", "check", "alarm", "watch", "moves", "snapshot"):
            return getattr(self, words[0])(*map(int, words[1:]))
        case = other = None
        if words[0] == "act":
            names = [name for name, _ in self.application.cases]
            case = int(words[2]) if words[2].isdigit() else names.index(words[2]) + 1 if words[2] in names else 0
            other = int(words[3]) if len(words) > 3 else None
        elif len(words) > 2:
            other = int(words[2])
        try:
            return [self.does(words[0], int(words[1]), case, other)]
        except Refused as refused:
            return [f"refused {refused}"]

    def show(self, *ids):
        if not set(ids) <= set(self.graph):
            return ["refused StrangeNode"]
        return [
            f"node {i} tree {self.root[i]} {self.father[i]} {self.far[i]} wave {self.phase[i]} {self.session[i]}"
            f" local {self.application.text(self.local[i])}"
            for i in ids or sorted(self.graph)
        ]

    def newest(self):
        return [f"newest {i} {self.application.text(self.abstract[i]) if self.joined(i) else 'unjoined'}" for i in sorted(self.graph)]

    def possible(self, i, case):
        kind = self.application.cases[case - 1][1]
        for near in self.graph[i] if kind in ("toward", "one") else [None]:
            agree = all(self.session[j] == self.session[i] for j in self.read(i, case, near))
            if agree and self.next(self.local, i, case, near) is not None:
                return True
        return False

    def acts(self, i):
        return [case for case in range(1, len(self.application.cases) + 1) if self.possible(i, case)]

    def enabled(self, i):
        if i not in self.graph:
            return ["refused StrangeNode"]
        wave, act = [",".join(map(str, it)) or "-" for it in (self.rows(i), self.acts(i))]
        return [f"enabled {i} tree - wave {wave} act {act}"]

    def ready(self):
        ids = [i for i in sorted(self.graph) if set(self.rows(i)) - {1} or self.acts(i)]
        return [" ".join(["ready", *map(str, ids)]) if ids else "ready -"]

    def moves(self, *ids):
        if not set(ids) <= set(self.graph):
            return ["refused StrangeNode"]
        return [f"move {line}" for i in ids or sorted(self.graph) for line in self.tried(i)
                if not self.copy().answer(line)[0].startswith("refused")]

    def tried(self, i):
        """Every event of node i toward each neighbour, in the order of the moves."""
        near, cases = self.graph[i], range(1, len(self.application.cases) + 1)
        yield from (f"{it} {i}" for it in ("claim", "follow"))
        yield from (f"adopt {i} {j}" for j in near)
        yield from (f"{it} {i}" for it in ("mend", "join", "finish", "open", "request"))
        yield from (f"relay {i} {j}" for j in near)
        for case in cases:
            yield from (f"act {i} {case}", *(f"act {i} {case} {j}" for j in near))

    def snapshot(self):
        links = [f"link {i} {j}" for i in sorted(self.graph) for j in self.graph[i] if i < j]
        return ["reset-snapshot 1", *self.show(), *(links or ["link -"])]

    def check(self, *ids):
        if not set(ids) <= set(self.graph):
            return ["refused StrangeNode"]
        told = [" ".join(map(str, ("link", *it))) for i in ids or sorted(self.graph) for it in self.faults(i)]
        return [*told, f"faults {len(told)}"]

    def alarm(self, i):
        if i not in self.graph:
            return ["refused StrangeNode"]
        alarms = [f"alarm {at} {other} {row}" for at, other, family, row in self.faults(i) if family == "app"]
        return alarms[:1] or ["quiet"]

    def watch(self, i):
        told = self.alarm(i)
        return [*told, *self.answer(f"request {i}")] if told[0].startswith("alarm") else told


# ---- runs

def commands(machine):
    """Every event at every node, toward each neighbour and two that are none where it names one."""
    for i in sorted(machine.graph):
        yield from (f"{it} {i}" for it in ("claim", "follow", "request", "open", "join", "finish", "mend"))
        for j in [*machine.graph[i], i, 70000]:
            yield from (f"{it} {i} {j}" for it in ("adopt", "relay"))
            yield from (f"act {i} {case} {j}" for case in range(4))
        yield from (f"act {i} {case}" for case in ("0", "3", *(name for name, _ in machine.application.cases)))
    yield "request 70000"


def questions(machine):
    asked = [f"{it} {i}" for it in ("enabled", "check", "alarm", "watch", "moves") for i in sorted(machine.graph)]
    strange = [f"{it} 70000" for it in ("check", "alarm", "watch", "moves")]
    return ["show", "newest", "ready", "check", "moves", "snapshot", *asked, *strange]


def short_runs(machine, script, left):
    """The scripts of all runs of so many applied events from here on, with all that is refused on the way."""
    applied = []
    for line in commands(machine):
        after = machine.copy()
        if after.answer(line)[0].startswith("refused"):
            script.append(line)
        else:
            applied.append((line, after))
    script += questions(machine)
    if not left:
        yield script
        return
    for line, after in applied:
        yield from short_runs(after, [*script, line], left - 1)


def random_graph(rng, parts):
    """A graph of so many components and of up to seven nodes."""
    ids = rng.sample(range(1, 65536), rng.randint(max(1, 2 * parts - 2), 7))
    graph, some = {i: [] for i in ids}, [ids[at::parts] for at in range(parts)]
    links = {(part[at], rng.choice(part[:at])) for part in some for at in range(1, len(part))}
    pairs = [pair for part in some for pair in itertools.combinations(part, 2)]
    links |= {(i, j) for i, j in pairs if rng.random() < 0.3 and (j, i) not in links}
    for i, j in links:
        graph[i].append(j)
        graph[j].append(i)
    return {i: sorted(graph[i]) for i in sorted(ids)}


def random_run(rng, machine):
    """A script of random commands: most are refused, and of six at most one is applied."""
    script, every = [], list(commands(machine))
    for _ in range(TURNS):
        for _ in range(6):
            script.append(rng.choice(every))
            if not machine.answer(script[-1])[0].startswith("refused"):
                break
        script += ["newest", rng.choice(questions(machine))]
    return script


def texts(name, graph, modulus, script):
    links = [[i, j] for i in graph for j in graph[i] if i < j]
    last = f"modulus = {modulus}\n" if modulus else ""
    head = f'nodes = {list(graph)}\nlinks = {links}\napp = "{name}"\n{last}---\n'
    return head + "".join(f"{it}\n" for it in script)


def answers_alike(program, name, graph, modulus, script):
    """Whether the program answers as the model does, how often a reset to session 0 was completed, and in how many
    components any was. A `complete` has to find every node of its component in its session, and none in reset."""
    machine, wanted, tops = Machine(name, graph, modulus or MOST), [], set()
    for line in script:
        wanted += machine.answer(line)
        if wanted[-1].startswith("complete"):
            tops.add(int(line.split()[1]))
            for i in machine.component[int(line.split()[1])]:
                assert wanted[-1] == f"complete {machine.session[i]}", "the reset isn't complete"
                assert machine.phase[i] != "reset", "the reset isn't complete"
        sound = SOUND.get(line.split()[0])
        assert sound is None or wanted[-1] in (sound, "refused StrangeNode"), "the model finds a fault"
    assert tops <= set(machine.root.values()), "another node than a leader has completed a reset"
    text, back = texts(name, graph, modulus, script).encode(), wanted.count("complete 0")
    ran = subprocess.run([program], input=text, capture_output=True, timeout=60)
    told = ran.stdout.decode().splitlines()
    if (ran.returncode, ran.stderr, told) == (0, b"", wanted):
        return True, back, len(tops)
    at = next((n for n, (a, b) in enumerate(zip(told, wanted)) if a != b), min(len(told), len(wanted)))
    print(f"runs {name} {graph} modulo {modulus}: status {ran.returncode}, answer {at + 1} is {told[at:at + 1]},"
          f" wanted {wanted[at:at + 1]}")
    return False, back, len(tops)


def runs():
    line = {1: [2], 2: [1, 3], 3: [2]}
    for name in APPLICATIONS:
        for script in short_runs(Machine(name, line, MOST), [], 3):
            yield name, 1, line, None, script
        for modulus, seed in itertools.product(MODULI, range(SEEDS)):
            rng, parts = random.Random(f"{name} {modulus} {seed}"), 1 + seed % len(PARTS)
            graph = random_graph(rng, parts)
            yield name, parts, graph, modulus, random_run(rng, Machine(name, graph, modulus))


def main():
    program, every = os.path.realpath(sys.argv[1]), list(runs())
    with multiprocessing.Pool() as pool:
        told = pool.starmap(answers_alike, [(program, name, *it) for name, _, *it in every], chunksize=8)
    passed = sum(alike for alike, _, _ in told)
    poor = 0
    for modulus, least in MODULI.items():
        back = [it for (_, _, _, own, _), (_, it, _) in zip(every, told) if own == modulus]
        print(f"runs: {len(back)} random ones modulo {modulus}, {sum(back)} resets to session 0")
        poor += sum(back) < least
    for parts, least in PARTS.items():
        tops = [it for (_, count, _, own, _), (_, _, it) in zip(every, told) if own and count == parts]
        several = sum(it > 1 for it in tops)
        print(f"runs: {len(tops)} random ones on graphs of {parts} components, {several} with resets in several")
        poor += several < least
    print(f"{passed} runs passed, {len(told) - passed + poor} failed")


main()
