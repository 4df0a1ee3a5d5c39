#!/usr/bin/env python3
"""Compares the program named on the command line with a second one, model.py and a reader of snapshots written here
from docs/formats.md, on networks that a script has damaged at random:

- what the command `snapshot` writes is that of the model; from it `replay`, `check`, `plan` and `verify` answer as they
  do after the script that led there, and `snapshot` writes the same again; a plan is a history that verifies from there;
- snapshots that are cut at each byte, or have lines that are moved, lost, doubled or changed, are answered by the fault
  that the second reader finds, or start the network that it reads.
"""
import multiprocessing
import os
import random
import re
import subprocess
import sys
import tempfile

sys.dont_write_bytecode = True
sys.path += [f"{sys.path[0]}/../oracle"]
import model

RUNS = 120
EDITS = 25  # changed snapshots of a run
CUTS = 12  # of the first runs one snapshot each is cut at each byte
MOST_LINE = 65_536
LOCALS = {
    "idle": ["-"], "token": ["hold/-/-", "free/1,2/3", "hold/7/7"], "mutex": ["in/0", "in/1", "out/1"],
    "routes": ["-", "1:0:1,3:2:2", "9:4294967295:9"],
}


class Bad(Exception):
    """The first fault of a snapshot, as it is printed."""


def number(word):
    """The number of a word, below 2^32, or None."""
    return int(word) if re.fullmatch("0|[1-9][0-9]{0,9}", word) and int(word) < 2**32 else None


def item_of(line, app):
    """What a line says: nothing, a node, a link, that there is none, or a version; or it is no line."""
    words = line.split(" ")
    if line == "link -":
        return ("none",)
    if words[0] == "reset-snapshot" and len(words) == 2 and number(words[1]) is not None:
        return ("version", number(words[1]))
    if words[0] == "link" and len(words) == 3:
        ends = [number(it) for it in words[1:]]
        return ("link", *ends) if None not in ends else None
    if len(words) != 11 or (words[0], words[2], words[6], words[9]) != ("node", "tree", "wave", "local"):
        return None
    numbers = [number(words[at]) for at in (1, 3, 4, 5, 8)]
    local = app.read(words[10])
    if None in numbers or local is None or words[7] not in model.PHASES:
        return None
    at, root, father, dist, session = numbers
    return ("node", at, (root, father, dist), (words[7], session), local)


def read_line(at, line, network, nodes, links):
    """Takes what a line says into the nodes and the links, and says whether it is about links."""
    if len(line.encode("latin-1")) > MOST_LINE:
        raise Bad(f"BadLine {at}")
    if line == "" or line.startswith("#"):
        return False
    item = item_of(line, network.app)
    if item is None or (item[0] == "version" and at != 1):
        raise Bad(f"BadLine {at}")
    if item[0] == "version" and item[1] != 1:
        raise Bad("BadVersion")
    if item[0] == "node":
        if item[1] not in network.ids:
            raise Bad(f"StrangeNode {item[1]}")
        if item[1] in nodes:
            raise Bad(f"TwiceNode {item[1]}")
        nodes[item[1]] = item[2:]
    if item[0] == "link":
        for end in item[1:]:
            if end not in network.ids:
                raise Bad(f"StrangeNode {end}")
        a, b = sorted(item[1:])
        if a == b:
            raise Bad(f"SelfLink {a}")
        if (a, b) in [tuple(sorted(it)) for it in links]:
            raise Bad(f"TwiceLink {a} {b}")
        if len(links) == model.MOST_LINKS:
            raise Bad("TooManyLinks")
        links.append(item[1:])
    return item[0] in ("link", "none")


def read(text, ids, links, app, modulus):
    """The network that a snapshot names, or its fault is raised."""
    network = model.Network(model.graph_of(ids, links), app, modulus)
    nodes, named, are_said = {}, [], False
    for at, line in enumerate(text.split("\n"), 1):
        are_said |= read_line(at, line, network, nodes, named)
    for end in (it for link in named for it in link):
        if end not in nodes:
            raise Bad(f"StrangeNode {end}")
    if not are_said:
        named = [(a, b) for a, b in links if a in nodes and b in nodes]
    network.put_graph(model.graph_of(nodes, named))
    for i, (tree, wave, local) in nodes.items():
        network.tree[i], network.wave[i], network.local[i] = tree, wave, local
    return network


def made(rng):
    """A network and a script that damages it."""
    count = rng.choice([1, 2, 3, 4, 6, 9])
    ids = sorted(rng.sample(range(1, 65536), count))
    links = sorted({(a, b) for a in ids for b in ids if a < b and rng.random() < 0.5})
    app, modulus = rng.choice(list(LOCALS)), rng.choice([2, 3, 8, 4294967296])
    lines = [f"fault off {i}" for i in ids if rng.random() < 0.15]
    lines += [f"fault {'down' if (a, b) in links else 'up'} {a} {b}" for a in ids for b in ids
              if a < b and rng.random() < 0.2]
    for i in ids:
        root, father = rng.choice([*ids, rng.randint(1, 65535)]), rng.choice([*ids, rng.randint(1, 65535)])
        if rng.random() < 0.7:
            lines.append(f"fault tree {i} {root} {father} {rng.choice([0, 1, count, 65536, 4294967295])}")
        if rng.random() < 0.7:
            lines.append(f"fault wave {i} {rng.choice(model.PHASES)} {rng.choice([0, 1, 2, modulus - 1]) % 2**32}")
        if rng.random() < 0.5:
            lines.append(f"fault local {i} {rng.choice(LOCALS[app])}")
    rng.shuffle(lines)
    return ids, links, app, modulus, lines


def changed(rng, text, ids):
    """The text with some lines moved, lost, doubled, added or changed."""
    lines = text.split("\n")
    for _ in range(rng.choice([1, 1, 2, 3])):
        at = rng.randrange(len(lines))
        some, other = rng.choice([*ids, 65536, 0]), rng.choice([*ids, 4294967296])
        kind = rng.randrange(12)
        if kind == 0:
            lines.insert(rng.randrange(len(lines) + 1), lines.pop(at))
        elif kind == 1:
            del lines[at]
        elif kind == 2:
            lines.insert(rng.randrange(len(lines) + 1), lines[at])
        elif kind == 3:
            lines.insert(at, rng.choice(["", "# a comment", "#", " ", "link -", "reset-snapshot 1", "reset-snapshot 2"]))
        elif kind == 4:
            lines.insert(at, f"link {some} {other}")
        elif kind == 5:
            lines.insert(at, f"node {some} tree 0 70000 4294967295 wave reset 4294967295 local {rng.choice(['-', 'out/0'])}")
        elif kind == 6:
            lines[at] = lines[at].replace(" ", rng.choice(["  ", "\t", ""]), 1)
        elif kind == 7:
            lines[at] = lines[at] + rng.choice([" ", "0", "\r", " 1"])
        elif kind == 8 and lines[at]:
            place = rng.randrange(len(lines[at]))
            lines[at] = lines[at][:place] + rng.choice("0123456789 -#/:,ab\x00\xff") + lines[at][place + 1:]
        elif kind == 9:
            lines = [it for it in lines if not it.startswith("link")]
        elif kind == 10:
            rng.shuffle(lines)
        else:
            lines[at] = lines[at].upper()
        lines = lines or [""]
    return "\n".join(lines)


class Run:
    """A program in a folder with the files of one network."""

    def __init__(self, program, room, ids, links, app, modulus):
        self.program, self.room = program, room
        self.put("topology.toml",
                 f'nodes = {ids}\nlinks = {[list(it) for it in links]}\napp = "{app}"\nmodulus = {modulus}\n')

    def put(self, name, text):
        with open(os.path.join(self.room, name), "w", encoding="latin-1", newline="") as file:
            file.write(text)

    def answers(self, *words):
        ran = subprocess.run([self.program, *words], cwd=self.room, capture_output=True, timeout=60)
        return ran.stdout.decode("latin-1"), ran.returncode, ran.stderr.decode("latin-1")


def note_of(text):
    """What standard error says of a snapshot with this text, where the run ends well."""
    return "" if text else "reset-service: snapshot: it is empty, so all nodes are down\n"


def fault_of_text(run, text, lists):
    """What is wrong with the answer to a script from this snapshot, or None."""
    run.put("snapshot", text)
    told = run.answers("replay", "topology.toml", "asks", "--from", "snapshot")
    try:
        network = read(text, *lists)
        lines = [it for words in (["show"], ["snapshot"], ["check"]) for it in network.answer(words)]
        wanted = "".join(f"{it}\n" for it in lines), 0, note_of(text)
    except Bad as fault:
        wanted = f"bad snapshot {fault}\n", 2, ""
    return None if told == wanted else f"{told} in place of {wanted}"


def fault_of_start(run, lines, network):
    """What is wrong where a run starts from the snapshot of what a script leaves, or None."""
    text = "".join(f"{it}\n" for it in network.answer(["snapshot"]))
    run.put("damage", "".join(f"{it}\n" for it in lines))
    run.put("asked", "".join(f"{it}\n" for it in [*lines, "snapshot"]))
    written, status, _ = run.answers("replay", "topology.toml", "asked")
    if status or not written.endswith(text) or written.count("reset-snapshot") != 1:
        return f"snapshot writes {written}"
    run.put("snapshot", text)
    run.put("none", "")
    checked = run.answers("check", "topology.toml", "none", "--from", "snapshot")
    wanted = "".join(f"{it}\n" for it in network.ask_check())
    if checked != (wanted, int(wanted != "faults 0\n"), note_of(text)):
        return f"check: {checked} in place of {wanted}"
    plan = run.answers("plan", "topology.toml", "--from", "snapshot")
    if plan[:2] != run.answers("plan", "topology.toml", "damage")[:2] or plan[1:] != (0, note_of(text)):
        return f"plan: {plan}"
    steps = [it for it in plan[0].split("\n")[:-1] if not it.startswith("#")]
    run.put("history", "".join(f"{it}\n" for it in [f"reset-history 3 {network.modulus}", *steps]))
    verified, status, _ = run.answers("verify", "topology.toml", "history", "--from", "snapshot")
    if status or not re.search(f"^verified {len(steps)} entries ", verified, re.M):
        return f"verify: {verified}"
    drawn, status, _ = run.answers("picture", "topology.toml", "history", "--from", "snapshot")
    return None if status == 0 and drawn.startswith("<svg") else f"picture: {status} {drawn[:60]}"


def faults(job):
    """What is wrong with the snapshots of a run, and how many there were."""
    program, at = job
    rng = random.Random(f"snapshots {at}")
    ids, links, app, modulus, lines = made(rng)
    network = model.Network(model.graph_of(ids, links), app, modulus)
    for line in lines:
        network.answer(line.split(" "))
    text = "".join(f"{it}\n" for it in network.answer(["snapshot"]))
    texts = [text, text.removesuffix("\n"), "", *(changed(rng, text, ids) for _ in range(EDITS))]
    if at < CUTS:
        texts += [text[:end] for end in range(len(text))]
    with tempfile.TemporaryDirectory() as room:
        run = Run(program, room, ids, links, app, modulus)
        found = [fault_of_start(run, lines, network)]
        run.put("asks", "show\nsnapshot\ncheck\n")
        found += [fault_of_text(run, it, (ids, links, app, modulus)) for it in texts]
    return [f"snapshots {at}: {it}" for it in found if it], len(found)


def main():
    program = os.path.realpath(sys.argv[1])
    with multiprocessing.Pool() as pool:
        told = pool.map(faults, [(program, at) for at in range(RUNS)], chunksize=1)
    failed = [it for found, _ in told for it in found]
    for it in failed[:5]:
        print(it[:600])
    print(f"{sum(count for _, count in told) - len(failed)} snapshots passed, {len(failed)} failed")


if __name__ == "__main__":
    main()
