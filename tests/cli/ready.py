#!/usr/bin/env python3
"""Runs the program named on the command line on lists of events and faults that are drawn from a seed, on the
triangle: what it answers to `ready` has to be the nodes at which `enabled` tells a row or a case other than the
request, row 1 of the wave table; a node that is down is refused there. In some lists `ready` is asked after every line, in others now and then, so
that what one line leaves in doubt is still in doubt when the next ones come.
"""
import multiprocessing
import os
import random
import subprocess
import sys

SEEDS = 12  # lists of each application
LINES = 1000  # events and faults of a list
NODES = (1, 2, 3)
TRIANGLE = "nodes = [1, 2, 3]\nlinks = [[1, 2], [2, 3], [1, 3]]\n"
MODULI = ("", "modulus = 2\n", "modulus = 3\n")  # of the lists in turn
CASES = {"idle": 0, "token": 2, "mutex": 2, "routes": 1}


def local(rng, name, i):
    """The text of a local state of node i, which may be no such text."""
    if name == "token":
        bits = [",".join(str(j) for j in NODES if j != i and rng.random() < 0.3) or "-" for _ in range(2)]
        return "/".join([rng.choice(["hold", "free"]), *bits])
    if name == "mutex":
        return f"{rng.choice(['in', 'out'])}/{rng.randint(0, 1)}"
    if name == "routes":
        ways = [f"{d}:{rng.randint(0, 2)}:{rng.choice(NODES)}" for d in NODES if rng.random() < 0.5]
        return ",".join(ways) or "-"
    return "-"


def fault(rng, name):
    i, j = rng.choices(NODES, k=2)
    kind = rng.choice(["tree", "tree", "wave", "wave", "local", "down", "up", "up", "draw", "off", "on", "on"])
    if kind == "tree":
        return f"fault tree {i} {rng.choice([1, 2, 3, 4])} {rng.choice([1, 2, 3, 4])} {rng.randint(0, 3)}"
    if kind == "wave":
        return f"fault wave {i} {rng.choice(['normal', 'initiate', 'reset'])} {rng.randint(0, 3)}"
    if kind == "local":
        return f"fault local {i} {local(rng, name, i)}"
    if kind == "draw":
        return f"draw {rng.randint(0, 999999)}"
    if kind in ("off", "on"):
        return f"fault {kind} {i}"
    return f"fault {kind} {i} {j}"


def event(rng, name):
    i, j = rng.choices(NODES, k=2)
    kind = rng.choice(["claim", "follow", "request", "open", "join", "finish", "mend", "adopt", "relay", "act", "act"])
    if kind == "act":
        case = rng.randint(1, max(1, CASES[name]))
        return f"act {i} {case} {j}" if rng.random() < 0.7 else f"act {i} {case}"
    return f"{kind} {i} {j}" if kind in ("adopt", "relay") else f"{kind} {i}"


def script(name, seed):
    rng = random.Random(f"{name} {seed}")
    for _ in range(LINES):
        yield fault(rng, name) if rng.random() < 0.15 else event(rng, name)
        if seed % 2 == 0 or rng.random() < 0.3:
            yield "ready"
            yield from (f"enabled {i}" for i in NODES)


def ready_by_rows(lines):
    """The answer to `ready` that the answers to `enabled` amount to."""
    ready = []
    for line in lines:
        if line == "refused StrangeNode":
            continue
        word, i, *rows = line.split()
        rows = dict(zip(rows[::2], rows[1::2]))
        others = set(rows["wave"].split(",")) - {"-", "1"}
        if word == "enabled" and (rows["tree"] != "-" or others or rows["act"] != "-"):
            ready.append(i)
    return " ".join(["ready", *(ready or ["-"])])


def answers_alike(program, name, seed):
    text = f'{TRIANGLE}app = "{name}"\n{MODULI[seed % len(MODULI)]}---\n' + "".join(f"{it}\n" for it in script(name, seed))
    ran = subprocess.run([program], input=text.encode(), capture_output=True, timeout=60)
    told = ran.stdout.decode().splitlines()
    asked = [n for n, line in enumerate(told) if line.startswith("ready")]
    wrong = [n for n in asked if told[n] != ready_by_rows(told[n + 1:n + 1 + len(NODES)])]
    applied = sum(line in ("applied", "disturbed") or line.startswith("complete") for line in told)
    wanted = sum(line == "ready" for line in script(name, seed))
    if ran.returncode == 0 and not ran.stderr and not wrong and len(asked) == wanted and applied > LINES // 20:
        return True
    at = wrong[:1]
    print(f"ready {name} {seed}: status {ran.returncode}, {len(asked)} of {wanted} answers, {applied} applied,"
          f" wrong {[told[n:n + 4] for n in at]}")
    return False


def main():
    program = os.path.realpath(sys.argv[1])
    lists = [(program, name, seed) for name in CASES for seed in range(SEEDS)]
    with multiprocessing.Pool() as pool:
        told = pool.starmap(answers_alike, lists)
    print(f"{sum(told)} ready passed, {len(told) - sum(told)} failed")


main()
