#!/usr/bin/env python3
"""Runs the program named on the command line as `verify --at P` at random places of a long history of each application, with
faults among the entries: the snapshot has to be that of the second program, model.py, after so many entries. The second
program plays each history once; what it has at each place is compared. `places PROGRAM PLACES ENTRIES` compares another
number of places of histories of another length.
"""
import multiprocessing
import os
import random
import subprocess
import sys
import tempfile

sys.dont_write_bytecode = True
sys.path += [f"{sys.path[0]}/../oracle"]
import answers

NETWORKS = [["ring", "8", "--app", "mutex"], ["path", "6", "--app", "token"], ["grid", "9", "--app", "idle"]]
PLACES, ENTRIES = 60, 20_000  # of each network
SEED = 5


def run(words):
    return subprocess.run(words, stdin=subprocess.DEVNULL, capture_output=True, timeout=600)


def texts(program, room, shape, entries):
    """The texts of a topology and of a history of it, and their paths."""
    topology, history = (os.path.join(room, name) for name in ("topology.toml", "history"))
    with open(topology, "wb") as file:
        file.write(run([program, "topology", *shape]).stdout)
    steps = ["--steps", str(entries), "--seed", str(SEED), "--faults", "20"]
    run([program, "drive", topology, *steps, "--history", history])
    with open(topology, "rb") as first, open(history, "rb") as second:
        return first.read(), second.read(), [topology, history]


def differences(program, shape, count, steps):
    """What is wrong, in lines, and how many places were compared."""
    with tempfile.TemporaryDirectory() as room:
        topology, history, paths = texts(program, room, shape, steps)
        network, (_, entries) = answers.booted(topology), answers.history_of(history)
        places = sorted(random.Random(f"places {shape}").sample(range(len(entries) + 1), count))
        wrong, done = [], 0
        for place in places:
            for words in entries[done:place]:
                network.answer(words)
            done = place
            ran = run([program, "verify", *paths, "--at", str(place)])
            if (ran.stdout, ran.returncode) != answers.output(network.ask_snapshot(), 0) or ran.stderr:
                wrong.append(f"{shape} at {place}: {ran.stdout!r} {ran.returncode} {ran.stderr!r}")
        return wrong, len(places)


def main():
    program = os.path.abspath(sys.argv[1])
    count, steps = map(int, sys.argv[2:4]) if len(sys.argv) > 3 else (PLACES, ENTRIES)
    with multiprocessing.Pool() as pool:
        found = pool.starmap(differences, [(program, shape, count, steps) for shape in NETWORKS])
    wrong = [line for lines, _ in found for line in lines]
    compared = sum(number for _, number in found)
    if compared != count * len(NETWORKS):
        wrong.append(f"{compared} places were compared, and not {count} of each network")
    for line in wrong[:20]:
        print(line)
    failed = len(wrong)
    print(f"{compared + 1 - failed} places passed, {failed} failed")
    return 1 if failed else 0


if __name__ == "__main__":
    sys.exit(main())
