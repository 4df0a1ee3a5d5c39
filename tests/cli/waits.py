#!/usr/bin/env python3
"""Runs `threads` of the program named on the command line where its nodes wait for each other: each run has to end by
itself within LONGEST seconds, and a run that doesn't is told as one that hangs.

    tests/cli/waits.py PROGRAM [RUNS [RANDOM]]

On a network of `idle` each node's entries are known, whatever the schedule, and are written out here: the least node
asks for a reset, the nodes on its way to the leader pass the request on, and then each node of its component joins and
finishes. A neighbour has at most three entries, and a plan is refused only where a neighbour has changed, so a node with
three turns for itself and three for each neighbour comes to its end; with fewer turns it has the first of these entries.
There are RUNS runs of each of six networks, and RANDOM random networks with random applications and turns, of which
those of other applications than `idle` have to be verified, with no more entries of a node than it had turns. They are
made in jobs of AT_ONCE, and the first one that hangs ends its job.
"""
import collections
import multiprocessing
import os
import random
import subprocess
import sys
import tempfile

RUNS = 1000
RANDOM = 1000
LONGEST = 20  # seconds
TURNS = 200
AT_ONCE = 50  # runs of one job
APPS = ["idle", "token", "mutex", "routes"]
HANGS = f"hangs: it hasn't ended after {LONGEST} s"
FIRST_LINE = "reset-history 3 4294967296"


def path(nodes):
    return [(i, i + 1) for i in range(1, nodes)]


def grid(side):
    across = [(i, i + 1) for i in range(1, side * side + 1) if i % side]
    return across + [(i, i + side) for i in range(1, side * (side - 1) + 1)]


# the nodes and the links of each
NETWORKS = {
    "ring of 16": (16, [*path(16), (1, 16)]),
    "path of 64": (64, path(64)),
    "star of 64": (64, [(i, 64) for i in range(1, 64)]),
    "star of 64, the least in the middle": (64, [(1, i) for i in range(2, 65)]),
    "grid of 16": (16, grid(4)),
    "six components": (16, [(1, 2), (2, 3), (3, 9), (4, 5), (6, 7), (7, 8), (6, 8), (10, 11), (11, 12), (12, 13), (14, 15)]),
}


def topology_text(nodes, links, app):
    return f'nodes = {nodes}\nlinks = {[list(it) for it in links]}\napp = "{app}"\n'


def write(name, text):
    with open(name, "w", encoding="utf-8") as file:
        file.write(text)


def neighbours_of(nodes, links):
    found = {i: set() for i in nodes}
    for one, other in links:
        found[one].add(other)
        found[other].add(one)
    return found


def distances_to(graph, start):
    """Of the nodes that links lead to."""
    far, queue = {start: 0}, [start]
    for i in queue:
        for j in graph[i] - far.keys():
            far[j] = far[i] + 1
            queue.append(j)
    return far


def reset_of(graph):
    """The entries of each node in the one reset of a network of `idle`, which the least node asks for."""
    least = min(graph)
    component = distances_to(graph, least).keys()
    leader = max(component)
    far = distances_to(graph, leader)
    father = {i: min(j for j in graph[i] if far[j] < far[i]) for i in component if i != leader}
    own = {i: [] for i in graph}
    own[least], way = [f"request {least}"], least
    while way != leader:
        own[father[way]].append(f"relay {father[way]} {way}")
        way = father[way]
    for i in component:
        own[i] += [f"open {i}" if i == leader else f"join {i}", f"finish {i}"]
    return own


class Run:
    """One run in the folder in which this process is: its answer, and what is wrong with it."""

    def __init__(self, program, turns):
        self.program, self.turns, self.faults = program, turns, []
        self.lists, self.reports = collections.defaultdict(list), 0
        words = [program, "threads", "topology", "--turns", str(turns), "--history", "history"]
        try:
            ended = subprocess.run(words, stdin=subprocess.DEVNULL, capture_output=True, timeout=LONGEST)
        except subprocess.TimeoutExpired:
            self.faults.append(HANGS)
            return
        if ended.returncode or ended.stderr:
            self.faults.append(f"status {ended.returncode}, {ended.stdout!r}, {ended.stderr!r}")
            return
        self.read_history(ended.stdout.decode())

    def read_history(self, line):
        with open("history", encoding="utf-8") as file:
            first, *entries = file.read().splitlines()
        for it in entries:
            self.lists[int(it.split()[1])].append(it)
        self.reports = int(line.split()[5])
        verified = subprocess.run([self.program, "verify", "topology", "history"], stdin=subprocess.DEVNULL,
                                  capture_output=True, timeout=LONGEST)
        last = (verified.stdout.decode().splitlines() or [""])[-1]
        if first != FIRST_LINE or verified.returncode or last != f"verified {len(entries)} entries {self.reports} reports":
            self.faults.append(f"{line!r}, {first!r}, {len(entries)} entries, verify: {verified.returncode}, {last!r}")
        if line.split()[3:4] != [str(len(entries))]:
            self.faults.append(f"{line!r} of {len(entries)} entries")

    def judge_turns(self, least):
        for node, own in self.lists.items():
            if len(own) > self.turns + (node == least):
                self.faults.append(f"node {node} has {len(own)} entries")
        if self.lists[least][:1] != [f"request {least}"]:
            self.faults.append(f"the first entry of node {least} is {self.lists[least][:1]}")

    def judge_reset(self, graph):
        """Of a network of `idle`."""
        wanted = reset_of(graph)
        whole = all(self.turns >= 3 * len(it) + 3 for it in graph.values())
        for node, own in wanted.items():
            if self.lists[node] != (own if whole else own[:len(self.lists[node])]):
                self.faults.append(f"node {node}: {self.lists[node]}, wanted {own}")
        if whole and self.reports != 1:
            self.faults.append(f"{self.reports} reports, wanted 1")


def judged(program, nodes, links, app, turns):
    """What is wrong with a run on this network."""
    write("topology", topology_text(nodes, links, app))
    run = Run(program, turns)
    if run.faults:
        return run.faults
    run.judge_turns(min(nodes))
    if app == "idle":
        run.judge_reset(neighbours_of(nodes, links))
    return run.faults


def of_network(job):
    """So many runs on the network with this name: what is wrong with those in which something is."""
    program, name, count = job
    nodes, links = NETWORKS[name]
    wrong = []
    with tempfile.TemporaryDirectory() as room:
        os.chdir(room)
        for made in range(1, count + 1):
            faults = judged(program, list(range(1, nodes + 1)), links, "idle", TURNS)
            wrong += [f"{name}: {'; '.join(faults)}"] if faults else []
            if HANGS in faults:
                break
        os.chdir("/")
    return made, wrong


def random_network(drawn):
    """The nodes and the links of one: a forest, and at times some links more."""
    nodes = sorted(drawn.sample(range(1, 200), drawn.choice([1, 2, 3, 4, 5, 8, 12, 16, 24, 32, 48, 64])))
    apart, more = drawn.choice([0, 0, 0.2, 1]), drawn.choice([0, 0, 1, 3])
    links = {(nodes[drawn.randrange(i)], nodes[i]) for i in range(1, len(nodes)) if drawn.random() >= apart}
    if len(nodes) > 1:
        links |= {tuple(sorted(drawn.sample(nodes, 2))) for _ in range(more * len(nodes))}
    return nodes, sorted(links)


def of_random(job):
    """A random network, which the number draws."""
    program, first, count = job
    wrong = []
    with tempfile.TemporaryDirectory() as room:
        os.chdir(room)
        for number in range(first, first + count):
            drawn = random.Random(number)
            nodes, links = random_network(drawn)
            app, turns = drawn.choice(APPS), drawn.choice([1, 2, 3, 5, 10, 50, 200])
            faults = judged(program, nodes, links, app, turns)
            wrong += [f"random {number}, {app}, {turns} turns: {'; '.join(faults)}"] if faults else []
            if HANGS in faults:
                break
        os.chdir("/")
    return number + 1 - first, wrong


def parts(count):
    """The first number and the size of each job."""
    return [(first, min(AT_ONCE, count - first)) for first in range(0, count, AT_ONCE)]


def main():
    program = os.path.realpath(sys.argv[1])
    runs, drawn = [int(it) for it in sys.argv[2:4]] + [RUNS, RANDOM][len(sys.argv[2:4]):]
    with multiprocessing.Pool() as pool:
        told = [pool.map_async(of_network, [(program, name, count) for name in NETWORKS for _, count in parts(runs)], 1),
                pool.map_async(of_random, [(program, *it) for it in parts(drawn)], 1)]
        told = [it for some in told for it in some.get()]
    made, wrong = sum(it[0] for it in told), [line for it in told for line in it[1]]
    for line in wrong[:40]:
        print(f"waits {line[:600]}")
    print(f"{made - len(wrong)} waits passed, {len(wrong)} failed")
    return len(wrong) > 0


if __name__ == "__main__":
    sys.exit(main())
