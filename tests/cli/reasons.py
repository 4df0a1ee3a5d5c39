#!/usr/bin/env python3
"""Runs the program named on the command line as `verify --why` on random histories of random networks, of which many have
an entry that is refused where it stands. The answer has to be that of the second program, model.py and answers.py: the
place of the entry, the entry, the refusal, what the rows of its event ask for where none is enabled, and the registers and
local states of its node and of the neighbours. Without `--why` the same history has to be answered by its first line
alone. With `--at P`, for a P from 0 to one more than the entries, the answer has to be the snapshot of what the second
program has after P entries, that there are fewer, or the refusal of one of them. Each refusal, with `--why`, has to come so
often, at least, and each answer to `--at`.
"""
import collections
import multiprocessing
import os
import random
import subprocess
import sys
import tempfile

sys.dont_write_bytecode = True
sys.path += [f"{sys.path[0]}/../oracle"]
import answers
import makers

RUNS = 4000
PIECE = 50  # runs that a process takes at once
LEAST = {  # how often a history has to end with each refusal
    "StrangeNode": 100, "StrangeNeighbour": 50, "NoSuchCase": 50, "WantsNeighbour": 5, "TakesNoNeighbour": 2,
    "Disagrees": 1, "NotEnabled": 500, "BadValue": 50, "BadLocal": 20, "NoSuchLink": 10, "LinkIsThere": 50,
    "NodeIsUp": 50,
}
LEAST_AT = {"reset-snapshot": 1000, "bad history EndsAfter": 100, "not enabled": 500}


def history(maker, network):
    """The text of a history: the commands of a random script that aren't refused and, mostly, one that is."""
    told = [(line, answer[-1].startswith("refused")) for line, answer in maker.script(network)
            if answers.entry_of_line(line.encode())]
    refused = [at for at, (_, is_refused) in enumerate(told) if is_refused]
    kept = maker.rng.choice(refused) if refused and maker.chance(0.9) else None
    lines = [line for at, (line, is_refused) in enumerate(told) if not is_refused or at == kept]
    return "".join(f"{it}\n" for it in [f"reset-history 3 {network.modulus}", *lines]).encode()


def case(seed):
    """A topology, and a history of its network."""
    rng = random.Random(f"reasons {seed}")
    maker = makers.Maker(rng)
    while True:
        topology = maker.topology()
        try:
            network = answers.booted(topology)
        except (answers.Fault, answers.Unsure):
            continue
        return topology, history(maker, network)


def questions(seed, history):
    """What is asked of a history, with words of the command line and as the second program is asked."""
    rng = random.Random(f"places {seed}")
    for why in (False, True):
        yield ["--why"] * why, why, None
    most = rng.randint(0, history.count(b"\n"))
    why = rng.random() < 0.5
    yield ["--at", str(most), *["--why"] * why], why, most


def differences(program, seed, room):
    """What is wrong with the answers to a history, the refusal that it ends with, and the answer to `--at`."""
    topology, history = case(seed)
    paths = [os.path.join(room, name) for name in ("topology.toml", "history")]
    for path, text in zip(paths, (topology, history)):
        with open(path, "wb") as file:
            file.write(text)
    wrong, refusal, place = [], None, None
    for asked, why, most in questions(seed, history):
        words = [program, "verify", *paths, *asked]
        ran = subprocess.run(words, stdin=subprocess.DEVNULL, capture_output=True, timeout=60)
        wanted = answers.verify(topology, history, why, most)
        if (ran.stdout, ran.returncode) != wanted or ran.stderr:
            wrong.append(f"run {seed} {asked}: {ran.stdout!r} {ran.returncode} {ran.stderr!r} in place of {wanted}")
        if why and most is None and wanted[1] == 1:
            refusal = wanted[0].decode().split("\n")[2].split(" ")[1]
        if most is not None:
            place = wanted[0].decode()
    return wrong, refusal, place


def piece(argument):
    program, seeds = argument
    with tempfile.TemporaryDirectory() as room:
        return [differences(program, seed, room) for seed in seeds]


def main():
    program = os.path.abspath(sys.argv[1])
    pieces = [(program, range(n, min(n + PIECE, RUNS))) for n in range(0, RUNS, PIECE)]
    with multiprocessing.Pool() as pool:
        found = [it for part in pool.imap(piece, pieces) for it in part]
    wrong = [line for lines, _, _ in found for line in lines]
    counts = collections.Counter(refusal for _, refusal, _ in found if refusal)
    for name, least in LEAST.items():
        if counts[name] < least:
            wrong.append(f"refused {name} came {counts[name]} times, and {least} are wanted")
    for begin, least in LEAST_AT.items():
        count = sum(place.startswith(begin) for _, _, place in found)
        if count < least:
            wrong.append(f"{begin} came {count} times, and {least} are wanted")
    for line in wrong[:20]:
        print(line)
    failed = len(wrong)
    print(f"{3 * RUNS + len(LEAST) + len(LEAST_AT) - failed} reasons passed, {failed} failed")
    return 1 if failed else 0


if __name__ == "__main__":
    sys.exit(main())
