#!/usr/bin/env python3
"""Runs the program named on the command line as `check --repair` after random scripts on random networks, and from
snapshots of what they leave. The output has to be that of the second program, model.py and answers.py, with the command
behind each row of tree and wave whose row it is; and the second program has to allow each of these commands there. Each
of the rows has to fail LEAST times in all runs.
"""
import collections
import multiprocessing
import os
import random
import subprocess
import sys
import tempfile

sys.dont_write_bytecode = True
sys.path += [f"{sys.path[0]}/../oracle"]
import answers
import makers

RUNS = 1000
PIECE = 50  # runs that a process takes at once
LEAST = 5  # how often each row has to fail
# the command whose row it is, by the table and the row, as docs/formats.md has them
REPAIRS = {**{("tree", row): "claim {0}" for row in (1, 2, 3, 4)}, **{("tree", row): "follow {0}" for row in (5, 6)},
           **{("tree", row): "adopt {0} {1}" for row in (7, 8)}, **{("wave", row): "mend {0}" for row in (8, 9, 10, 11)}}


def case(seed):
    """A topology, a script and the network that it leaves. Many scripts end with damage."""
    rng = random.Random(f"advised {seed}")
    maker = makers.Maker(rng)
    while True:
        topology = maker.topology()
        try:
            network = answers.booted(topology)
        except (answers.Fault, answers.Unsure):
            continue
        lines = [line for line, _ in maker.script(network)]
        lines += [maker.fault(network) for _ in range(rng.randint(0, 6))]
        script = "".join(f"{it}\n" for it in lines).encode()
        network = answers.booted(topology)
        answered, bad = answers.run_script(network, script)
        if not bad:
            return topology, script, network, answered


def advised(network, counts):
    """The lines of `check --repair` at the end, and the commands in them that the network doesn't allow."""
    lines, strange = [], []
    for i in network.graph:
        for j, family, row in network.faults(i):
            repair = REPAIRS.get((family, row), "").format(i, j)
            counts[family, row] += 1
            if repair and repair not in network.moves(i):
                strange.append(repair)
            lines.append(f"link {i} {j} {family} {row}" + (f" -> {repair}" if repair else ""))
    return [*lines, f"faults {len(lines)}"], strange


def differences(program, seed, room):
    """What is wrong with a run, and how often each row fails in it."""
    counts = collections.Counter()
    topology, script, network, answered = case(seed)
    lines, strange = advised(network, counts)
    texts = {"topology.toml": topology, "script": script, "empty": b"",
             "snapshot": "".join(f"{it}\n" for it in network.ask_snapshot()).encode()}
    for name, text in texts.items():
        with open(os.path.join(room, name), "wb") as file:
            file.write(text)
    wrong = [f"run {seed}: {it} isn't allowed" for it in strange]
    for words, wanted in ((["script"], answered + lines), (["empty", "--from", "snapshot"], lines)):
        words = ["check", "topology.toml", *words, "--repair"]
        ran = subprocess.run([program, *words], cwd=room, stdin=subprocess.DEVNULL, capture_output=True, timeout=60)
        wanted = answers.output(wanted, 1 if len(lines) > 1 else 0)
        if (ran.stdout, ran.returncode) != wanted or ran.stderr:
            wrong.append(f"run {seed} {words}: {ran.stdout!r} {ran.returncode} {ran.stderr!r} in place of {wanted}")
    return wrong, counts


def piece(argument):
    program, seeds = argument
    with tempfile.TemporaryDirectory() as room:
        return [differences(program, seed, room) for seed in seeds]


def main():
    program = os.path.abspath(sys.argv[1])
    pieces = [(program, range(n, min(n + PIECE, RUNS))) for n in range(0, RUNS, PIECE)]
    with multiprocessing.Pool() as pool:
        found = [it for part in pool.imap(piece, pieces) for it in part]
    wrong = [line for lines, _ in found for line in lines]
    counts = sum((counts for _, counts in found), collections.Counter())
    wrong += [f"{family} {row} fails {counts[family, row]} times, and {LEAST} are wanted"
              for family, row in REPAIRS if counts[family, row] < LEAST]
    for line in wrong[:20]:
        print(line)
    failed = len(wrong)
    print(f"{2 * RUNS + len(REPAIRS) - failed} advised passed, {failed} failed")
    return 1 if failed else 0


if __name__ == "__main__":
    sys.exit(main())
