#!/usr/bin/env python3
"""Every order of the events, by `explore` of the program named on the command line and by SPIN, on the model that
bench/spin-model writes: small networks of several shapes, whose damage, links and nodes that are down, and requests are
drawn by a seed. What SPIN says is compared:

- how many states and transitions there are, but for the state before the first one: `configurations` and `steps`;
- how many invalid end states, in which no event is enabled: `ends`;
- whether there is an acceptance cycle, where each state accepts: `endless`;
- where there is none, how deep a search goes in which a state has the number of its steps too: `longest`.

SPIN reduces nothing (-DNOREDUCE), and an end that lasts is no cycle (-DNOSTUTTER). It looks for cycles only where it isn't
made with -DSAFETY, and counts the same without.

Where SPIN or GCC isn't there (the Debian packages `spin` and `gcc`), this says so and passes.
"""
import concurrent.futures
import os
import random
import re
import shutil
import subprocess
import sys
import tempfile

MODEL = f"{os.path.dirname(os.path.realpath(__file__))}/../../bench/spin-model"
# for the compiler to optimise would take longer than the searches; a search that needs more MiB stops
COMPILE = ["gcc", "-w", "-DNOREDUCE", "-DNOSTUTTER", "-DMEMLIM=200"]
AT_ONCE = 2
DEEPEST = 300000  # steps on a way of a search, which has a place for each

# the shape, how many nodes, the modulus and the seed
NETWORKS = [
    ("path", 2, 2, 6), ("path", 3, 3, 12), ("path", 4, 3, 5), ("path", 4, 8, 11), ("path", 5, 2, 1),
    ("ring", 3, 3, 8), ("ring", 3, 8, 2), ("ring", 4, 2, 11), ("ring", 5, 2, 9), ("star", 4, 2, 4), ("star", 4, 2, 7),
    ("full", 3, 3, 10), ("full", 4, 3, 9), ("tree", 5, 8, 11), ("tree", 6, 2, 9), ("tree", 6, 3, 8),
    ("two paths", 4, 8, 6), ("two paths", 5, 3, 3), ("ring and node", 4, 8, 6), ("ring and node", 5, 2, 11),
]
# what some of them have, or come to
SHOWN = {"tree", "wave", "down", "up", "off", "on", "longest", "endless"}


# ---- the networks

def links_of(rng, shape, ids):
    """The links of a shape; two of the shapes have two components."""
    count = len(ids)
    path = [(ids[n], ids[n + 1]) for n in range(count - 1)]
    return {
        "path": path,
        "ring": [*path, (ids[-1], ids[0])],
        "star": [(ids[0], it) for it in ids[1:]],
        "full": [(a, b) for a in ids for b in ids if a < b],
        "tree": [(ids[n], ids[rng.randrange(n)]) for n in range(1, count)],
        "two paths": [*path[:count // 2 - 1], *path[count // 2:]],
        "ring and node": [*path[:-1], (ids[-2], ids[0])],
    }[shape]


def damage(rng, ids, links, modulus):
    """The lines of a script: registers, links and nodes, and requests."""
    part, lines = rng.choice([0, 0.3, 0.6, 1]), []
    for i in ids:
        if rng.random() < part:
            far = rng.choice([0, 1, 2, len(ids) - 1, len(ids), 255])
            session = rng.choice([0, 0, 1, 1, modulus - 1, modulus, 255])
            lines.append(f"fault tree {i} {rng.choice([*ids, 99])} {rng.choice([*ids, *ids, 99])} {far}")
            lines.append(f"fault wave {i} {rng.choice(['normal', 'initiate', 'reset'])} {session}")
    if rng.random() < 0.4:
        a, b = rng.choice(links)
        other = rng.choice([it for it in ids if it != a])
        lines += [f"fault down {a} {b}", *([f"fault up {a} {other}"] if rng.random() < 0.5 else [])]
    if rng.random() < 0.4:
        i = rng.choice(ids)
        lines += [f"fault off {i}", *([f"fault on {i}"] if rng.random() < 0.3 else [])]
    return lines + [f"request {i}" for i in ids if rng.random() < 0.4]


def put_network(room, case):
    """Writes the topology and the script of a case, and returns the script's lines."""
    shape, count, modulus, seed = case
    rng = random.Random(f"{shape} {count} {modulus} {seed}")
    ids = rng.sample(range(1, 16), count)
    links = links_of(rng, shape, ids)
    script = damage(rng, ids, links, modulus)
    text = f'nodes = {ids}\nlinks = {[list(it) for it in links]}\napp = "idle"\nmodulus = {modulus}\n'
    for name, what in [("topology.toml", text), ("script", "".join(f"{it}\n" for it in script))]:
        with open(os.path.join(room, name), "w", encoding="ascii") as file:
            file.write(what)
    return script


# ---- what SPIN says

class Failed(Exception):
    """What a tool says in place of an answer."""


def run(room, *words):
    ran = subprocess.run(words, cwd=room, capture_output=True, text=True, timeout=300)
    if ran.returncode != 0:
        raise Failed(f"{' '.join(words)}: status {ran.returncode}: {(ran.stderr or ran.stdout)[:200]}")
    return ran.stdout


def make(room, name, *words):
    """Makes a search of the model, which spin is given these words for."""
    run(room, "spin", "-a", *words, "model.pml")
    run(room, *COMPILE, "-o", name, "pan.c")


def search(room, name, *words):
    """What a search says: how deep it went, how many errors it found, states and transitions."""
    told = run(room, f"./{name}", f"-m{DEEPEST}", "-w18", *words)
    found = re.search(r"depth reached (\d+), errors: (\d+)\n\s*(\d+) states, stored.*?\n\s*(\d+) transitions", told, re.DOTALL)
    if found is None or any(it in told for it in ("search depth too small", "out of memory", "MEMLIM")):
        raise Failed(f"{name} {' '.join(words)}: {told[:200]!r}")
    return tuple(map(int, found.groups()))


def spun(room):
    """What SPIN says of a model, as the lines of `explore`."""
    make(room, "pan")
    _, ends, states, transitions = search(room, "pan", "-c0")
    lines = [f"configurations {states - 1}", f"steps {transitions - 2}", f"ends {ends}"]
    if search(room, "pan", "-a", "-E")[1]:
        return [*lines, "endless"]
    make(room, "counted", "-DCOUNTED")
    depth, wrong, _, _ = search(room, "counted", "-E")
    return [*lines, f"longest {depth - 1}" if not wrong else "an order of over 30,000 steps"]


# ---- the comparison

def explored(program, room):
    """The lines of `explore` that SPIN can judge."""
    ran = subprocess.run([program, "explore", "topology.toml", "script"], cwd=room, capture_output=True, text=True, timeout=60)
    if ran.stderr or ran.returncode not in (0, 1):
        raise Failed(f"explore: status {ran.returncode}: {ran.stdout[:200]!r} {ran.stderr[:80]!r}")
    return [it for it in ran.stdout.splitlines() if not it.startswith(("whole ", "completions "))]


def compared(program, case):
    """What is wrong, or None, and which faults the network has had and what it comes to."""
    with tempfile.TemporaryDirectory() as room:
        script = put_network(room, case)
        with open(os.path.join(room, "model.pml"), "w", encoding="ascii") as file:
            file.write(run(room, sys.executable, MODEL, "topology.toml", "script"))
        found, wanted = explored(program, room), spun(room)
    kinds = {line.split(" ")[1] for line in script if line.startswith("fault")} | {wanted[-1].split(" ")[0]}
    return (None if found == wanted else f"{', '.join(found)}; SPIN says {', '.join(wanted)}: {script}"), kinds


def tried(program, case):
    """As above, where a tool may fail."""
    try:
        return compared(program, case)
    except (Failed, subprocess.TimeoutExpired) as error:
        return str(error), set()


def missing():
    """What isn't there. There are other programs of the name `spin`."""
    spins = shutil.which("spin") and subprocess.run(["spin", "-V"], capture_output=True).stdout.startswith(b"Spin Version")
    tools = {"SPIN (the Debian package `spin`)": spins, "GCC (the Debian package `gcc`)": shutil.which("gcc")}
    return [name for name, there in tools.items() if not there]


def main():
    program, lacks = os.path.realpath(sys.argv[1]), missing()
    if lacks:
        print(f"spin: skipped, as there is no {' and no '.join(lacks)}")
        print("0 spin passed, 0 failed")
        return 0
    with concurrent.futures.ThreadPoolExecutor(AT_ONCE) as pool:
        results = list(pool.map(lambda case: tried(program, case), NETWORKS))
    bad = [f"{case}: {fault}" for case, (fault, _) in zip(NETWORKS, results) if fault is not None]
    shown = set().union(*(kinds for _, kinds in results))
    if not bad and shown != SHOWN:
        bad.append(f"only {shown} were tried")
    for fault in bad:
        print(f"spin: {fault}")
    print(f"{len(NETWORKS) + 1 - len(bad)} spin passed, {len(bad)} failed")
    return 1 if bad else 0


if __name__ == "__main__":
    sys.exit(main())
