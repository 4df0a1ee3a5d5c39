#!/usr/bin/env python3
"""Runs the program named on the command line as `check --whole` after random scripts on random networks, and from snapshots
of what they leave, with `--repair` and without, and as `replay` with the command `invariant` as the last. The output and the
status have to be those of the second program, model.py and answers.py. Many scripts end with damage to registers and local states. In all runs the invariant of each application has
to hold LEAST times in a network of several components, and to fail as often; that of `idle` never fails.
"""
import collections
import multiprocessing
import os
import random
import re
import subprocess
import sys
import tempfile

sys.dont_write_bytecode = True
sys.path += [f"{sys.path[0]}/../oracle"]
import answers
import makers

RUNS = 1000
PIECE = 50  # runs that a process takes at once
LEAST = 20
REPAIR = re.compile(rb" -> .*")
FOUND = [("idle", True), *((app, holds) for app in ("token", "mutex", "routes") for holds in (True, False))]


def case(seed):
    """A topology, a script and the network that it leaves."""
    rng = random.Random(f"whole {seed}")
    maker = makers.Maker(rng)
    while True:
        topology = maker.topology()
        try:
            network = answers.booted(topology)
        except (answers.Fault, answers.Unsure):
            continue
        lines = [line for line, _ in maker.script(network)]
        if maker.chance(0.5):
            lines += [maker.fault(network) for _ in range(rng.randint(1, 6))]
        lines += [f"fault local {maker.node(network)} {maker.local(network)}" for _ in range(rng.randint(0, 3))]
        script = "".join(f"{it}\n" for it in lines).encode()
        network = answers.booted(topology)
        answered, bad = answers.run_script(network, script)
        if not bad:
            return topology, script, network, answered


def differences(program, seed, room):
    """What is wrong with a run, and the verdicts that came, by the application."""
    topology, script, network, answered = case(seed)
    verdicts = network.verdicts()
    last = network.ask_invariant()
    faults = network.ask_check()
    texts = {"topology.toml": topology, "script": script, "empty": b"", "asked": script + b"invariant\n", "ask": b"invariant\n",
             "snapshot": "".join(f"{it}\n" for it in network.ask_snapshot()).encode()}
    for name, text in texts.items():
        with open(os.path.join(room, name), "wb") as file:
            file.write(text)
    status = 1 if len(faults) > 1 or any(verdicts.values()) else 0
    differ = []
    for start, before in ((["script"], answered), (["empty", "--from", "snapshot"], [])):
        for flags in (["--whole"], ["--whole", "--repair"]):
            words = [program, "check", "topology.toml", *start, *flags]
            ran = subprocess.run(words, cwd=room, stdin=subprocess.DEVNULL, capture_output=True, timeout=60)
            out = REPAIR.sub(b"", ran.stdout) if "--repair" in flags else ran.stdout
            wanted = answers.output([*before, *faults, *last], status)
            if (out, ran.returncode) != wanted or ran.stderr:
                differ.append(f"run {seed} {words}: {ran.stdout!r} {ran.returncode} {ran.stderr!r} in place of {wanted}")
    for start, before in ((["asked"], answered), (["ask", "--from", "snapshot"], [])):
        words = [program, "replay", "topology.toml", *start]
        ran = subprocess.run(words, cwd=room, stdin=subprocess.DEVNULL, capture_output=True, timeout=60)
        wanted = answers.output([*before, *last], 0)
        if (ran.stdout, ran.returncode) != wanted or ran.stderr:
            differ.append(f"run {seed} {words}: {ran.stdout!r} {ran.returncode} {ran.stderr!r} in place of {wanted}")
    app = next(name for name, it in answers.APPLICATIONS.items() if it is network.app)
    return differ, collections.Counter((app, wrong is None) for wrong in verdicts.values())


def piece(argument):
    program, seeds = argument
    with tempfile.TemporaryDirectory() as room:
        return [differences(program, seed, room) for seed in seeds]


def main():
    program = os.path.abspath(sys.argv[1])
    pieces = [(program, range(n, min(n + PIECE, RUNS))) for n in range(0, RUNS, PIECE)]
    with multiprocessing.Pool() as pool:
        found = [it for part in pool.imap(piece, pieces) for it in part]
    wrong = [line for lines, _ in found for line in lines]
    counts = sum((counts for _, counts in found), collections.Counter())
    wrong += [f"{it} came {counts[it]} times, and {LEAST} are wanted" for it in FOUND if counts[it] < LEAST]
    for line in wrong[:20]:
        print(line)
    failed = len(wrong)
    print(f"{6 * RUNS + len(FOUND) - failed} whole passed, {failed} failed")
    return 1 if failed else 0


if __name__ == "__main__":
    sys.exit(main())
