#!/usr/bin/env python3
"""Runs the program named on the command line as `replay` with `--number`, with `--strict` and with both on random scripts of
random networks. The output and the status have to be those of the second program, model.py and answers.py. Scripts have to
end with each status so often, at least.
"""
import collections
import multiprocessing
import os
import random
import subprocess
import sys
import tempfile

sys.dont_write_bytecode = True
sys.path += [f"{sys.path[0]}/../oracle"]
import answers
import makers

RUNS = 1500
PIECE = 50  # runs that a process takes at once
MARKS = [(True, False), (False, True), (True, True)]  # whether answers are numbered, and whether a refusal ends the run
LEAST = {0: 300, 1: 300, 2: 100}  # how often a run with `--strict` has to end with each status


def case(seed):
    """A topology, and a script: in some runs one without the lines that are refused."""
    rng = random.Random(f"marked {seed}")
    maker = makers.Maker(rng)
    while True:
        topology = maker.topology()
        try:
            network = answers.booted(topology)
        except (answers.Fault, answers.Unsure):
            continue
        lines = maker.script(network)
        if maker.chance(0.3):
            lines = [line for line, answer in lines if not any(it.startswith("refused") for it in answer)]
        else:
            lines = [line for line, _ in lines]
        if maker.chance(0.3):
            lines.insert(rng.randint(0, len(lines)), rng.choice(["clam 3", "open", "show x", "refused StrangeNode"]))
        return topology, "".join(f"{it}\n" for it in lines).encode()


def differences(program, seed, room):
    """What is wrong with the answers to a script, and the status of the run that a refusal ends."""
    topology, script = case(seed)
    paths = [os.path.join(room, name) for name in ("topology.toml", "script")]
    for path, text in zip(paths, (topology, script)):
        with open(path, "wb") as file:
            file.write(text)
    wrong, status = [], None
    for number, strict in MARKS:
        marks = ["--number"] * number + ["--strict"] * strict
        ran = subprocess.run([program, "replay", *paths, *marks], stdin=subprocess.DEVNULL, capture_output=True, timeout=60)
        wanted = answers.replay_marked(topology, script, number, strict)
        if (ran.stdout, ran.returncode) != wanted or ran.stderr:
            wrong.append(f"run {seed} {marks}: {ran.stdout!r} {ran.returncode} {ran.stderr!r} in place of {wanted}")
        status = wanted[1]
    return wrong, status


def piece(argument):
    program, seeds = argument
    with tempfile.TemporaryDirectory() as room:
        return [differences(program, seed, room) for seed in seeds]


def main():
    program = os.path.abspath(sys.argv[1])
    pieces = [(program, range(n, min(n + PIECE, RUNS))) for n in range(0, RUNS, PIECE)]
    with multiprocessing.Pool() as pool:
        found = [it for part in pool.imap(piece, pieces) for it in part]
    wrong = [line for lines, _ in found for line in lines]
    counts = collections.Counter(status for _, status in found)
    for status, least in LEAST.items():
        if counts[status] < least:
            wrong.append(f"status {status} came {counts[status]} times, and {least} are wanted")
    for line in wrong[:20]:
        print(line)
    failed = len(wrong)
    print(f"{len(MARKS) * RUNS + len(LEAST) - failed} marked passed, {failed} failed")
    return 1 if failed else 0


if __name__ == "__main__":
    sys.exit(main())
