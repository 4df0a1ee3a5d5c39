#!/usr/bin/env python3
"""Runs the program named on the command line, as `plan topology.toml damage`, on networks that a script has damaged at
all nodes or at a few, with nodes and links that are down, and carries its plans out on the second program, model.py:

- the comments count the lines below them; there are at most K + 4 repairs and 5 steps of a reset for each node that is
  up, and no repairs where no row of tree and wave fails;
- each line is applied where it stands, and after the repairs no row of tree and wave fails;
- at the end each node is normal, in the session of its leader, and at its start state, and each leader completes once
  the session that it opens last.

Some are carried out on the program too, by `replay`, which has to answer as the model does; and some are judged as a
history from the snapshot that the damage leaves, which `verify` has to accept, where each leader completes the session that it opens.
"""
import multiprocessing
import os
import random
import subprocess
import sys
import tempfile

sys.dont_write_bytecode = True
sys.path += [f"{sys.path[0]}/../oracle"]
import model

RUNS = 5000
REPLAYED = 10  # of so many runs one is replayed too, and another one verified
PIECE = 25  # runs that a process takes at once
APPS = ["idle", "token", "mutex", "routes"]
SHOWN = {  # local states that damage puts
    "idle": ["-"], "token": ["hold/-/-", "free/1,2/3", "hold/7/7"], "mutex": ["in/0", "in/1", "out/1"],
    "routes": ["-", "1:0:1,3:2:2", "9:4294967295:9"],
}


def network(rng):
    """The identifiers, the links, the application and the modulus of a network."""
    count = rng.choice([1, 2, 3, 5, 8, 13, 24])
    ids = sorted(rng.sample(range(1, 65536), count))
    links = {tuple(sorted((ids[n], ids[rng.randrange(n)]))) for n in range(1, count) if rng.random() < 0.9}
    for _ in range(rng.choice([0, 1, count])):
        a, b = rng.choice(ids), rng.choice(ids)
        if a != b:
            links.add((min(a, b), max(a, b)))
    return ids, sorted(links), rng.choice(APPS), rng.choice([2, 3, 8, 4294967296])


def damage(rng, ids, links, app, modulus):
    """The lines of a script that damages a network. One stranger, which is mostly no node, comes up often."""
    stranger, part = rng.randint(1, 65535), rng.choice([0, 0.2, 1])
    lines = [f"fault off {i}" for i in ids if rng.random() < 0.05]
    lines += [f"fault down {a} {b}" for a, b in links if rng.random() < 0.05]
    for i in ids:
        if rng.random() >= part:
            continue
        root, father = rng.choices([*rng.choices(ids, k=3), stranger, rng.randint(1, 65535)], k=2)
        far = rng.choice([0, len(ids) - 1, len(ids), 65536, 4294967295, rng.randint(0, len(ids))])
        session = rng.choice([0, 1, 2, modulus - 1, min(modulus, 4294967295), 4294967295, rng.randint(0, 4294967295)])
        lines.append(f"fault tree {i} {root} {father} {far}")
        lines.append(f"fault wave {i} {rng.choice(['normal', 'initiate', 'reset'])} {session}")
        lines.append(f"fault local {i} {rng.choice(SHOWN[app])}")
    rng.shuffle(lines)
    return lines


def parts_of(plan):
    """The repairs and the steps of the reset of a plan, or None where its comments don't count them."""
    lines = plan.split("\n")
    heads = [n for n, line in enumerate(lines) if line.startswith("#")]
    if len(heads) != 2 or heads[0] != 0 or lines[-1] != "":
        return None
    repairs, reset = lines[1:heads[1]], lines[heads[1] + 1:-1]
    counts = [f"# {len(repairs)} repairs", f"# {len(reset)} steps of a reset"]
    return (repairs, reset) if [lines[n] for n in heads] == counts else None


def is_whole(carried):
    """Whether no row of tree and wave fails."""
    return not any(family != "app" for i in carried.graph for _, family, _ in carried.faults(i))


def carry_out(carried, lines):
    """What the lines are answered with."""
    return [answer for line in lines for answer in carried.answer(line.split(" "))]


def is_renewed(carried, steps, answers):
    """Whether the reset has restarted each node, and each leader has completed the session that it opened last, once."""
    for i in carried.graph:
        top = carried.leaders[i]
        if carried.wave[i] != ("normal", carried.wave[top][1]) or carried.local[i] != carried.start(i):
            return False
        if f"open {top}" not in steps:
            return False
        opened = len(steps) - 1 - steps[::-1].index(f"open {top}")
        after = [it for step, it in zip(steps[opened:], answers[opened:]) if step == f"finish {top}"]
        if after != [f"complete {carried.wave[top][1]}"]:
            return False
    return True


def fault_of(plan, carried):
    """What is wrong with a plan for the network as it is, or None. It is carried out."""
    parts = parts_of(plan)
    if parts is None:
        return "its comments don't count its lines"
    repairs, reset = parts
    nodes, was_whole = len(carried.graph), is_whole(carried)
    if len(repairs) > nodes * (carried.bound + 4) or len(reset) > 5 * nodes or (was_whole and repairs):
        return f"{len(repairs)} repairs, {len(reset)} steps, {nodes} nodes"
    if {*(it.split(" ")[0] for it in repairs)} - {"claim", "follow", "adopt", "mend"}:
        return "a repair is none"
    answers = carry_out(carried, repairs)
    if answers != ["applied"] * len(repairs):
        return "a repair is refused"
    if not is_whole(carried):
        return "a row fails after the repairs"
    answers = carry_out(carried, reset)
    if not all(it == "applied" or it.startswith("complete ") for it in answers):
        return "a step of the reset is refused"
    return None if is_renewed(carried, reset, answers) else "a node hasn't restarted"


def run(program, room, number):
    """What is wrong with the plan of a run, or None."""
    rng = random.Random(f"planned {number}")
    ids, links, app, modulus = network(rng)
    lines = damage(rng, ids, links, app, modulus)
    files = {"topology.toml": f'nodes = {ids}\nlinks = {[list(it) for it in links]}\napp = "{app}"\nmodulus = {modulus}\n',
             "damage": "".join(f"{it}\n" for it in lines)}

    def ran(*words):
        for name, text in files.items():
            with open(os.path.join(room, name), "w", encoding="ascii") as file:
                file.write(text)
        return subprocess.run([program, *words], cwd=room, capture_output=True, text=True, timeout=60)

    planned = ran("plan", "topology.toml", *(["damage"] if lines else []))
    if planned.returncode or planned.stderr:
        return f"status {planned.returncode}: {planned.stdout[:80]}{planned.stderr}"
    carried = model.Network(model.graph_of(ids, links), app, modulus)
    wanted = carry_out(carried, lines)
    fault = fault_of(planned.stdout, carried)
    if fault is None and number % REPLAYED == 0:
        files["damage"] += planned.stdout + "show\n"
        again = model.Network(model.graph_of(ids, links), app, modulus)
        wanted = carry_out(again, [it for it in files["damage"].split("\n") if it and not it.startswith("#")])
        if ran("replay", "topology.toml", "damage").stdout.split("\n")[:-1] != wanted:
            return "the replay of damage and plan isn't that of the model"
    if fault is None and number % REPLAYED == 5:
        files["damage"] += "snapshot\n"
        files["snapshot"] = "".join(ran("replay", "topology.toml", "damage").stdout.splitlines(keepends=True)[len(wanted):])
        events = [it for it in planned.stdout.splitlines() if not it.startswith("#")]
        files["history"] = "".join(f"{it}\n" for it in [f"reset-history 3 {modulus}", *events])
        verified = ran("verify", "topology.toml", "history", "--from", "snapshot")
        reports = verified.stdout.splitlines()
        opened = [it for it in reports if it.startswith("report ") and " opened - " not in it]
        leaders = len({*carried.leaders.values()})
        if reports[-1] != f"verified {len(events)} entries {len(reports) - 1} reports" or len(opened) != leaders:
            return f"its history isn't verified: {verified.stdout[-80:]}"
    return fault


def failures(job):
    program, first = job
    failed = 0
    with tempfile.TemporaryDirectory() as room:
        for number in range(first, first + PIECE):
            fault = run(program, room, number)
            if fault is not None:
                print(f"planned {number}: {fault}")
                failed += 1
    return failed


def main():
    program = os.path.realpath(sys.argv[1])
    with multiprocessing.Pool() as pool:
        failed = sum(pool.map(failures, [(program, first) for first in range(0, RUNS, PIECE)]))
    print(f"{RUNS - failed} planned passed, {failed} failed")


if __name__ == "__main__":
    main()
