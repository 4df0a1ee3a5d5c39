#!/usr/bin/env python3
"""Runs the program named on the command line on networks whose tree and wave registers are damaged at all nodes, at
random: after some rounds of repairs `check` has to tell no fault. In a round each node tries each repair once, toward
each neighbour where it names one, in random order over all nodes; what isn't enabled is refused and changes nothing.

That a network comes back from any registers isn't proved, nor how many rounds that may take.
"""
import multiprocessing
import os
import random
import subprocess
import sys

RUNS = 2000  # of each topology
ROUNDS = 28  # of repairs in a run; none of these runs needs more than half of them
LIMIT = 1_048_576  # bytes of a joined text
MODULI = {"line": 2, "ring": 3}  # where they aren't 4294967296

# each with its links
TOPOLOGIES = {
    "line": [(1, 2), (2, 3), (3, 4), (4, 5), (5, 6), (6, 7), (7, 8)],
    "ring": [(3, 10), (10, 4), (4, 9), (9, 5), (5, 8), (8, 6), (6, 3)],
    "star": [(20, 11), (20, 30), (20, 12), (20, 40), (20, 13)],
    "complete": [(i, j) for i in range(60001, 60006) for j in range(i + 1, 60006)],
    "tree with a cycle": [(7, 1), (1, 6), (6, 7), (6, 2), (2, 5), (5, 3), (1, 4), (4, 65535)],
    "three parts": [(1, 20), (20, 3), (3, 1), (4, 50), (50, 6), (6, 7), (8, 9)],
}


def neighbours(links):
    """A map from each node to the list of its neighbours, both ascending."""
    ids = sorted({i for link in links for i in link})
    return {i: [j for j in ids if (i, j) in links or (j, i) in links] for i in ids}


def damage(rng, graph):
    """The lines that put random registers at all nodes. One stranger, which is mostly no node, comes up often."""
    ids, stranger = list(graph), rng.randint(1, 65535)
    for i in graph:
        some = [rng.choice(ids), rng.choice(ids), stranger, rng.randint(1, 65535)]
        root, father = rng.choices(some, [8, 8, 4, 1], k=2)
        far = rng.randint(0, len(graph) + 1) if rng.random() < 0.95 else rng.randint(0, 4294967295)
        yield f"fault tree {i} {root} {father} {far}"
        yield f"fault wave {i} {rng.choice(['normal', 'initiate', 'reset'])} {rng.randint(0, 3)}"


def repairs(graph):
    """The lines of one round, in order."""
    for i in graph:
        yield from (f"{it} {i}" for it in ("claim", "follow", "mend"))
        yield from (f"adopt {i} {j}" for j in graph[i])


def run(seed, graph):
    """The script of one run, whose last line is `check`."""
    rng, lines, one_round = random.Random(seed), [], list(repairs(graph))
    lines += damage(rng, graph)
    for _ in range(ROUNDS):
        rng.shuffle(one_round)
        lines += one_round
    return "".join(f"{it}\n" for it in [*lines, "check"])


def texts(name):
    """The joined texts of all runs of a topology, each of as many runs as it has room for, with their number."""
    graph = neighbours(TOPOLOGIES[name])
    last = f"modulus = {MODULI[name]}\n" if name in MODULI else ""
    head = f'nodes = {list(graph)}\nlinks = {[list(it) for it in TOPOLOGIES[name]]}\napp = "idle"\n{last}---\n'
    text, count = head, 0
    for number in range(RUNS):
        script = run(f"{name} {number}", graph)
        if len(text) + len(script) > LIMIT:
            yield text, count
            text, count = head, 0
        text, count = text + script, count + 1
    yield text, count


def failures(job):
    """Of the runs of a topology, how many don't end without a fault."""
    program, name = job
    failed = 0
    for text, count in texts(name):
        answer = subprocess.run([program], input=text.encode(), capture_output=True, timeout=60)
        told = answer.stdout.decode().splitlines()
        put, good = told.count("disturbed"), told.count("faults 0")
        if answer.returncode or answer.stderr or put != text.count("fault ") or good != count:
            print(f"repairs {name}: status {answer.returncode}, {put} faults, of {count} runs {good} end without one")
            failed += count - good if good < count else 1
    return failed


def main():
    program = os.path.realpath(sys.argv[1])
    with multiprocessing.Pool() as pool:
        failed = sum(pool.map(failures, [(program, name) for name in TOPOLOGIES]))
    print(f"{len(TOPOLOGIES) * RUNS - failed} repairs passed, {failed} failed")


if __name__ == "__main__":
    main()
