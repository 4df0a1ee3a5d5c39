#!/usr/bin/env python3
"""Compares what the program named on the command line drives with a second scheduler, written in Python from
docs/formats.md over the model of tests/hostile/fuzz.py (model.py), on topologies of each shape, which the program writes and which
are compared with shapes that are written here apart. The histories have to be the same, byte for byte, the program's own
`verify` has to take each, and the picture has to have the bands, marks, lines and numbers that docs/formats.md gives it
(drawings.py). So it has to be from the booted configuration, and from snapshots of networks that the model has damaged.
"""
import copy
import os
import random
import subprocess
import sys
import tempfile

sys.dont_write_bytecode = True
sys.path += [f"{sys.path[0]}/../oracle"]
import answers
import drawings
import model

SHAPES = ("path", "ring", "star", "tree", "grid", "random")
SIZES = (1, 2, 3, 4, 7, 16, 30, 1024)
APPS = ("idle", "token", "mutex", "routes")
GREATEST = 4294967295  # of the seeds
MOST_STEPS = 1_000_000
# nodes, steps, faults in a thousand, and how many sessions there are in every second run
DRIVES = [(3, 400, 0, 2), (5, 300, 200, 3), (16, 300, 30, 2), (30, 200, 1000, 8)]
LONGEST = 60  # seconds
LOCALS = {"idle": "-", "token": "hold/-/-", "mutex": "in/0", "routes": "-"}


# ---- shapes

def lesser(shape, i, count, words):
    """The lesser nodes that node i is linked with."""
    if shape == "star":
        return {1}
    if shape == "tree":
        return {i // 2}
    if shape == "grid":
        width = next(w for w in range(1, count + 1) if w * w >= count)
        above = {i - width} if i > width else set()
        return above | ({i - 1} if (i - 1) % width else set())
    if shape == "random":
        return {1 + words.pop(0) % (i - 1), 1 + words.pop(0) % (i - 1)}
    return {i - 1} | ({1} if shape == "ring" and i == count else set())


def text_of(shape, count, seed, app):
    words = model.words_of(seed, 2 * count)
    links = [[j, i] for i in range(2, count + 1) for j in sorted(lesser(shape, i, count, words))]
    return f'app = "{app}"\nlinks = {links}\nnodes = {list(range(1, count + 1))}\n'


# ---- the scheduler

def candidates(network, i):
    """The events of node i, in the order in which they are counted."""
    near = network.graph[i]
    told = [["claim", i], ["follow", i], *(["adopt", i, j] for j in near)]
    told += [[word, i] for word in ("mend", "join", "finish", "open", "request")]
    told += [["relay", i, j] for j in near]
    for case in range(1, len(network.app.cases) + 1):
        others = [[j] for j in near] if network.wants_neighbour(case) else [[]]
        told += [["act", i, case, *other] for other in others]
    return [[str(it) for it in words] for words in told]


def is_enabled(network, words):
    kept = dict(network.tree), dict(network.wave), dict(network.local)
    answer, = network.answer(words)
    network.tree, network.wave, network.local = kept
    return not answer.startswith("refused")


def driven(network, steps, seed, faults):
    """The entries of a drawn run and how many of them complete a reset."""
    words, entries, completed = iter(model.words_of(seed, 6 * steps)), [], 0
    for _ in range(steps):
        if next(words) % 1000 < faults:
            line = fault_of(network, [next(words) for _ in range(5)])
        else:
            line = event_of(network, next(words), next(words))
        if line is None:
            continue
        answer, = network.answer(line.split(" "))
        if not answer.startswith("refused"):
            entries.append(line)
            completed += answer.startswith("complete")
    return entries, completed


def fault_of(network, words):
    kind, *rest = words
    nodes = [network.ids[it % len(network.ids)] for it in rest]
    if kind % 4 == 0:
        return f"fault tree {nodes[0]} {nodes[1]} {nodes[2]} {rest[3] % (len(network.ids) + 1)}"
    if kind % 4 == 1:
        return f"fault wave {nodes[0]} {('normal', 'initiate', 'reset')[rest[1] % 3]} {rest[2] % 8}"
    return f"fault {'down' if kind % 4 == 2 else 'up'} {nodes[0]} {nodes[1]}"


def event_of(network, for_node, for_event):
    drawn = [i for i in network.graph if network.is_ready(i)] or list(network.graph)
    if not drawn:
        return None
    there = candidates(network, drawn[for_node % len(drawn)])
    enabled = [it for it in there if is_enabled(network, it)]
    return " ".join(enabled[for_event % len(enabled)]) if enabled else None


# ---- the program

class Judge:
    def __init__(self, program, room):
        self.program, self.room, self.passed, self.failed = os.path.realpath(program), room, 0, 0

    def run(self, *words):
        ran = subprocess.run([self.program, *map(str, words)], capture_output=True, cwd=self.room, timeout=LONGEST,
                             stdin=subprocess.DEVNULL)
        return ran.stdout, ran.returncode, ran.stderr

    def judge(self, title, told, wanted):
        self.passed, self.failed = self.passed + (told == wanted), self.failed + (told != wanted)
        if told != wanted:
            print(f"driven {title}: {str(told)[:300]}, wanted {str(wanted)[:300]}")

    def put(self, name, text):
        with open(os.path.join(self.room, name), "wb") as file:
            file.write(text)

    def read(self, name):
        with open(os.path.join(self.room, name), "rb") as file:
            return file.read()


def judge_shapes(judge):
    for shape in SHAPES:
        for count in SIZES:
            for app, seed in (("idle", 0), ("mutex", GREATEST)):
                wanted = text_of(shape, count, seed, app).encode()
                told = judge.run("topology", shape, count, "--seed", seed, "--app", app)
                judge.judge(f"{shape} {count} {seed}", told, (wanted, 0, b""))
                judge.put("topology.toml", wanted)
                judge.put("script", b"")
                judge.judge(f"{shape} {count} boots", judge.run("check", "topology.toml", "script"), (b"faults 0\n", 0, b""))
    judge.judge("shape alone", judge.run("topology", "path", 2), (text_of("path", 2, 0, "idle").encode(), 0, b""))
    judge.judge("no shape", judge.run("topology", "cube", 8), (b"bad topology UnknownShape\n", 2, b""))
    judge.judge("no application", judge.run("topology", "path", 2, "--app", "x"), (b"bad topology UnknownApp\n", 2, b""))


def judge_drives(judge):
    for at, (count, steps, faults, few) in enumerate(DRIVES):
        for app in APPS:
            for seed, modulus in ((at, None), (GREATEST - at, few)):
                judge_drive(judge, count, steps, faults, app, seed, modulus)
    judge_bad_starts(judge)
    judge.put("topology.toml", b"nodes = []\nlinks = []\napp = \"idle\"\n")
    told = judge.run("drive", "topology.toml", "--steps", 1, "--seed", 1, "--history", "history")
    judge.judge("no nodes", (*told, judge.read("history")), (b"bad topology NoNodes\n", 2, b"", b"what stood there\n"))


def damaged(network, app, rng):
    """The same network after some faults, and its snapshot. That doesn't say what a node had that is down: it is booted as
    if it were alone."""
    ids = network.ids
    lines = [f"fault off {i}" for i in ids if rng.random() < 0.1]
    for i in ids:
        lines += [f"fault tree {i} {rng.choice(ids)} {rng.choice(ids)} {rng.randint(0, len(ids))}"] * (rng.random() < 0.5)
        lines += [f"fault wave {i} {rng.choice(model.PHASES)} {rng.randint(0, 1)}"] * (rng.random() < 0.5)
        lines += [f"fault local {i} {LOCALS[app]}"] * (rng.random() < 0.3)
    rng.shuffle(lines)
    for line in lines:
        network.answer(line.split(" "))
    network.tree.update({i: (i, i, 0) for i in ids if i not in network.graph})
    return network, "".join(f"{it}\n" for it in network.answer(["snapshot"])).encode()


def judge_drive(judge, count, steps, faults, app, seed, modulus):
    title = f"{count} nodes, {steps} steps, seed {seed}, {faults} faults, {app}, modulus {modulus}"
    last = f"modulus = {modulus}\n" if modulus else ""
    text = (text_of("random", count, seed, app) + last).encode()
    judge.put("topology.toml", text)
    judge_from(judge, title, answers.booted(text), (steps, seed, faults), [])
    network, snapshot = damaged(answers.booted(text), app, random.Random(title))
    judge.put("snapshot", snapshot)
    judge_from(judge, f"{title}, from a snapshot", network, (steps, seed, faults), ["--from", "snapshot"])


def judge_from(judge, title, network, numbers, start):
    steps, seed, faults = numbers
    first = f"reset-history 3 {network.modulus}"
    opening = copy.deepcopy(network)
    entries, completed = driven(network, steps, seed, faults)
    history = "".join(line + "\n" for line in [first, *entries]).encode()
    words = ["drive", "topology.toml", "--steps", steps, "--seed", seed, "--history", "history", *start]
    told = judge.run(*words, *(["--faults", faults] if faults else []))
    line = f"drove {len(entries)} entries {completed} reports\n".encode()
    judge.judge(title, (*told, judge.read("history")), (line, 0, b"", history))
    verified = judge.run("verify", "topology.toml", "history", *start)
    last = f"verified {len(entries)} entries {completed} reports".encode()
    judge.judge(f"{title}, verified", (verified[0].splitlines()[-1:], verified[1]), ([last], 0))
    judge_picture(judge, title, opening, entries, start)


def judge_bad_starts(judge):
    """A snapshot that can't be started from leaves no history, and the topology is judged before it."""
    judge.put("topology.toml", text_of("path", 3, 0, "idle").encode())
    judge.put("snapshot", b"node 4 tree 4 4 0 wave normal 0 local -\n")
    judge.put("bad", b"nodes = [1")
    judge.put("history", b"what stood there\n")
    words = ["--steps", 9, "--seed", 1, "--history", "history", "--from"]
    for topology, snapshot, wanted in (("topology.toml", "snapshot", (b"bad snapshot StrangeNode 4\n", 2, b"")),
                                       ("bad", "snapshot", (b"bad topology NotToml\n", 2, b"")),
                                       ("topology.toml", "missing", (b"", 3, b"read fault\n"))):
        told = judge.run("drive", topology, *words, snapshot)
        judge.judge(f"{topology} from {snapshot}", (told, judge.read("history")), (wanted, b"what stood there\n"))


# ---- pictures

PARTS = ("bands", "marks", "links", "completions", "numbers")


def judge_picture(judge, title, opening, entries, start=()):
    """What is drawn of entries from this network on, and where."""
    drawn, status, complaint = judge.run("picture", "topology.toml", "history", *start)
    judge.judge(f"{title}, picture", (status, complaint), (0, b""))
    wanted = drawings.Drawing(opening, entries).parts()
    for name, told, there in zip(PARTS, drawings.parts_of(drawn), wanted):
        differing = [(a, b) for a, b in zip(told, there) if a != b][:1]
        judge.judge(f"{title}, {name} drawn", (len(told), differing), (len(there), []))


def judge_most_steps(judge):
    """A node alone always has one event: it asks, opens and finishes."""
    judge.put("topology.toml", b"nodes = [7]\nlinks = []\napp = \"idle\"\n")
    told = judge.run("drive", "topology.toml", "--steps", MOST_STEPS, "--seed", GREATEST, "--history", "history")
    reset = b"request 7\nopen 7\nfinish 7\n"
    entries, resets = MOST_STEPS, MOST_STEPS // 3
    history = b"reset-history 3 4294967296\n" + reset * resets + b"request 7\n"
    line = f"drove {entries} entries {resets} reports\n".encode()
    judge.judge("the most steps", (told, judge.read("history") == history), ((line, 0, b""), True))


def judge_drawn(judge, title, entries):
    """A picture of entries from the booted configuration of the topology that stands there."""
    judge.put("history", "".join(f"{it}\n" for it in ["reset-history 3 4294967296", *entries]).encode())
    judge_picture(judge, title, answers.booted(judge.read("topology.toml")), entries)


def judge_parts(judge):
    """Two components complete side by side, lanes of one with one of the other between them, and links go and come."""
    judge.put("topology.toml", b"nodes = [1, 2, 3, 4]\nlinks = [[1, 4], [2, 3]]\napp = \"idle\"\n")
    left = ["request 4", "open 4", "join 1", "finish 1", "finish 4"]
    right = ["request 3", "open 3", "join 2", "finish 2", "finish 3"]
    judge_drawn(judge, "two components", [it for both in zip(left, right) for it in both])
    cut = ["fault down 1 4", *left[:2], "finish 4", "fault up 4 1", "fault up 2 1", "fault down 3 2"]
    judge_drawn(judge, "links that go and come", cut)
    judge_drawn(judge, "a node that is down while others complete", ["fault off 2", *left, "fault on 2", "fault up 4 2"])


def judge_limits(judge):
    judge.put("topology.toml", text_of("path", 65, 0, "idle").encode())
    judge.put("history", b"reset-history 1\n")
    told = judge.run("picture", "topology.toml", "history")
    judge.judge("65 lanes", told, (b"bad topology TooManyForPicture\n", 2, b""))
    judge.put("topology.toml", b"nodes = [1]\nlinks = []\napp = \"idle\"\n")
    reset = b"request 1\nopen 1\nfinish 1\n"
    for count, wanted in ((666, None), (667, b"bad history TooLongForPicture\n")):
        judge.put("history", b"reset-history 1\n" + reset * count)
        told = judge.run("picture", "topology.toml", "history")
        judge.judge(f"{3 * count} marks", told[1:] if wanted is None else told, (0, b"") if wanted is None else (wanted, 2, b""))
    for version in (2, 3):
        judge.put("history", b"reset-history %d 8\n" % version + reset * 667)
        told = judge.run("picture", "topology.toml", "history")
        judge.judge("another modulus", told, (b"bad history OtherModulus 8\n", 2, b""))
    gone = ["fault off 1", "fault on 1", "request 1", "fault off 1"]
    judge_drawn(judge, "a node that goes down and up", gone)
    judge.put("history", b"reset-history 3 4294967296\nfault off 1\nrequest 1\n")
    judge.judge("a node that is down", judge.run("picture", "topology.toml", "history"), (b"not enabled at 2\n", 1, b""))
    judge.put("history", b"reset-history 2 4294967296\nfault off 1\n")
    judge.judge("an older version", judge.run("picture", "topology.toml", "history"), (b"bad history BadLine 2\n", 2, b""))
    judge.put("history", b"reset-history 1\nopen 1\n")
    judge.judge("not enabled", judge.run("picture", "topology.toml", "history"), (b"not enabled at 1\n", 1, b""))
    judge.put("history", b"reset-history 1\nopen")
    judge.judge("no history", judge.run("picture", "topology.toml", "history"), (b"bad history BadLine 2\n", 2, b""))


def main():
    with tempfile.TemporaryDirectory() as room:
        judge = Judge(sys.argv[1], room)
        judge_shapes(judge)
        judge_drives(judge)
        judge_most_steps(judge)
        judge_parts(judge)
        judge_limits(judge)
    print(f"{judge.passed} driven passed, {judge.failed} failed")
    return judge.failed > 0


if __name__ == "__main__":
    sys.exit(main())
