#!/usr/bin/env python3
"""Compares the pages that the program named on the command line writes with model.py: the data of each page has to be
what docs/formats.md says, worked out here from the model's registers, and from what fails at all nodes after each
entry; what stands around it has to be the same on all pages, and to name the digests of its style and its script.

The histories are those of the examples and random ones, from booted networks and from snapshots, with faults of all
kinds. Beside them stand texts for which there is no page.
"""
import base64
import copy
import hashlib
import os
import random
import re
import subprocess
import sys
import tempfile

sys.dont_write_bytecode = True
sys.path += [f"{sys.path[0]}/../oracle", f"{sys.path[0]}/../shared"]
import answers
import example_folders
import model

RUNS = 150  # random histories
MOST = 100_000  # entries of a page
TOOK = {"claim": "t", "follow": "t", "adopt": "t", "request": "w", "relay": "w", "finish": "w", "mend": "w",
        "open": "wl", "join": "wl", "act": "l"}
LEFT = {"tree": "t", "wave": "w", "local": "l", "on": "twl", "off": "", "down": "", "up": ""}
LOCALS = {"idle": ["-"], "token": ["hold/-/-", "free/1,2/3"], "mutex": ["in/0", "in/1", "out/1"],
          "routes": ["-", "1:0:1,3:2:2"]}
TITLES = ["", "", "A bad day", "</script><b>100 % \u00e9\u4e16;\n& \"it's\"", "%3c"]


# ---- the data, as docs/formats.md has it

def encoded(line):
    """A line as the data has it: bytes that aren't printable ones, `<` and `%` as `%` and two digits."""
    plain = set(range(32, 127)) - {ord("<"), ord("%")}
    return "".join(chr(b) if b in plain else f"%{b:02x}" for b in line.encode())


def fields(network, i, letters):
    if i not in network.graph:
        return ""
    root, father, dist = network.tree[i]
    phase, session = network.wave[i]
    texts = {"t": f";t{root} {father} {dist}", "w": f";{phase[0]}{session}",
             "l": f";={network.app.text(network.local[i])}"}
    return "".join(texts[letter] for letter in letters)


def failing(network):
    """What fails at each node that is up."""
    return {i: "".join(f" {j}{family[0]}{row}" for j, family, row in network.faults(i)) for i in network.graph}


def changes(before, after):
    """The fields of the nodes at which something else fails."""
    ids = [i for i in sorted({*before, *after}) if before.get(i, "") != after.get(i, "")]
    return {f";!{i}{after.get(i, '')}" for i in ids}


def first_lines(network, app, title):
    links = [f"{a}-{b}" for a, b in sorted(network.links())]
    lines = ["reset-page 1", f"title {title}", f"app {app}", f"modulus {network.modulus}",
             " ".join(["nodes", *map(str, network.ids)]), " ".join(["links", *links])]
    for i in network.ids:
        told = changes({}, {i: failing(network).get(i, "")})
        lines.append(f"boot {i}" + fields(network, i, "twl") + ("" if i in network.graph else ";down") + "".join(told))
    return lines


def lines_of(network, app, title, entries):
    """The lines of the data; those of the entries with the set of the fields that tell what fails."""
    lines, opened, count = [(it, set()) for it in first_lines(network, app, title)], {}, 0
    before = failing(network)
    for at, words in enumerate(entries, 1):
        reply, = network.answer(words)
        assert not reply.startswith("refused"), (at, words, reply)
        opened = {} if words[0] == "fault" else {**opened, words[1]: at} if words[0] == "open" else opened
        node, letters = (words[2], LEFT[words[1]]) if words[0] == "fault" else (words[1], TOOK[words[0]])
        line = " ".join(words) + fields(network, int(node), letters)
        if reply.startswith("complete"):
            count += 1
            line += f";*{reply.split(' ')[1]} {opened.get(words[1], '-')}"
        after = failing(network)
        lines.append((line, changes(before, after)))
        before = after
    return [*lines, (f"end {len(entries)} {count}", set())]


def split(line):
    """A line without its fields that tell what fails, and these: they may stand in any order."""
    parts = line.split(";")
    told = {f";{it}" for it in parts[1:] if it.startswith("!")}
    assert len(told) == sum(it.startswith("!") for it in parts[1:]), line
    return ";".join(it for it in parts if not it.startswith("!")), told


# ---- the page around it

class Program:
    def __init__(self, path, room):
        self.path, self.room, self.frame = path, room, None

    def put(self, name, text):
        path = os.path.join(self.room, name)
        with open(path, "wb") as file:
            file.write(text)
        return path

    def page(self, topology, history, snapshot=None, title=""):
        """What is written for these texts, and the status."""
        words = ["page", self.put("topology.toml", topology), self.put("history", history)]
        if snapshot is not None:
            words += ["--from", self.put("snapshot", snapshot)]
        if title:
            words += ["--title", title]
        run = subprocess.run([self.path, *words], capture_output=True)
        return run.stdout, run.returncode

    def data(self, *texts):
        """The lines of the data of the page of these texts."""
        text, status = self.page(*texts)
        assert status == 0, (status, text[:200])
        found = re.fullmatch(rb'(.* id="history">\n)([^<]*)(</script>\n<script>.*)', text, re.S)
        assert found, "the data doesn't stand where it should, or has a byte `<`"
        frame = (found[1], found[3])
        assert self.frame in (None, frame), "what stands around the data isn't the same on all pages"
        self.frame = frame
        assert found[2].endswith(b"\n")
        return found[2].decode("ascii")[:-1].split("\n")

    def check_frame(self):
        head, tail = (part.decode() for part in self.frame)
        for tag, text in (("style", head), ("script", tail)):
            inside, = re.findall(f"<{tag}>(.*?)</{tag}>", text, re.S)
            digest = base64.b64encode(hashlib.sha256(inside.encode()).digest()).decode()
            assert f"{tag}-src 'sha256-{digest}'" in head, f"the policy doesn't name the digest of the {tag}"
        assert "default-src 'none'" in head
        for word in ("eval(", "innerHTML", "outerHTML", "insertAdjacentHTML", "document.write", "Function(", "http:",
                     "https:", "import(", "fetch(", "src=\"", "XMLHttpRequest"):
            assert word not in head + tail, word


def compare(program, network, texts, entries, app, title):
    """Compares the page with the model: `network` is the opening, and is played on."""
    found = program.data(*texts)
    wanted = lines_of(network, app, title, entries)
    assert len(found) == len(wanted), (len(found), len(wanted))
    plain = len(wanted) - len(entries) - 1  # the lines before those of the entries
    for at, (line, (text, told)) in enumerate(zip(found, wanted)):
        parts = (line, set()) if at < plain else split(line)
        assert parts == (encoded(text), told), (at, line, text, told)


# ---- random histories

def random_network(rng):
    count = rng.choice([1, 2, 3, 4, 6, 9])
    ids = sorted(rng.sample(range(1, rng.choice([12, 65536])), count))
    links = sorted({(a, b) for a in ids for b in ids if a < b and rng.random() < 0.5})
    app, modulus = rng.choice(list(LOCALS)), rng.choice([2, 3, 8, model.SESSIONS])
    text = f'nodes = {ids}\nlinks = {[list(it) for it in links]}\napp = "{app}"\nmodulus = {modulus}\n'
    return text.encode(), app, answers.booted(text.encode())


def random_fault(rng, network, app):
    a, b = rng.choice(network.ids), rng.choice(network.ids)
    kinds = [f"tree {a} {b} {rng.choice(network.ids)} {rng.randint(0, 9)}",
             f"wave {a} {rng.choice(model.PHASES)} {rng.randint(0, 9)}", f"local {a} {rng.choice(LOCALS[app])}",
             f"down {a} {b}", f"up {a} {b}", f"off {a}", f"on {a}", f"on {a}"]
    return f"fault {rng.choice(kinds)}"


def random_entries(rng, network, app, count):
    """Entries that the network takes, which it does here."""
    entries, moves = [], {}
    for _ in range(count):
        if rng.random() < 0.1 or not network.graph:
            line = random_fault(rng, network, app)
        else:
            line = rng.choice(network.moves(rng.choice(list(network.graph))) or ["request 0"])
        if not network.answer(line.split(" "))[0].startswith("refused"):
            entries.append(line.split(" "))
    return entries


def history_text(network, entries):
    lines = [f"reset-history 3 {network.modulus}", *(" ".join(words) for words in entries)]
    return "".join(f"{line}\n" for line in lines).encode()


def run_random(program, seed):
    rng = random.Random(seed)
    topology, app, network = random_network(rng)
    snapshot = None
    if rng.random() < 0.4:
        random_entries(rng, network, app, 20)
        snapshot = "".join(f"{line}\n" for line in network.ask_snapshot()).encode()
    opening = copy.deepcopy(network)
    entries = random_entries(rng, network, app, rng.choice([0, 5, 60, 200]))
    title = rng.choice(TITLES)
    compare(program, opening, (topology, history_text(network, entries), snapshot, title), entries, app, title)
    return len(entries), snapshot is not None


# ---- the examples, and what has no page

def run_examples(program):
    """A page of each example with a history."""
    count = 0
    for folder in example_folders.every():
        places = [os.path.join(folder, name) for name in ("topology.toml", "history")]
        if not all(map(os.path.isfile, places)):
            continue
        topology, history = (open(place, "rb").read() for place in places)
        if answers.verify(topology, history)[1] != 0:
            assert program.page(topology, history) == answers.verify(topology, history), folder
        else:
            network = answers.booted(topology)
            app = re.search(rb'app *= *"(\w+)"', topology)[1].decode()
            compare(program, network, (topology, history), answers.history_of(history)[1], app, "")
        count += 1
    return count


SMALL = b'nodes = [1, 2]\nlinks = [[1, 2]]\napp = "idle"\nmodulus = 8\n'
HEAD = b"reset-history 3 8\n"
REFUSALS = [
    (b"nodes = [1, 1]\nlinks = []\napp = \"idle\"\n", HEAD, None, b"bad topology TwiceNode 1\n", 2),
    (SMALL, b"reset-history 4\n", None, b"bad history BadVersion\n", 2),
    (SMALL, b"reset-history 3 7\n", None, b"bad history OtherModulus 7\n", 2),
    (SMALL, HEAD + b"request 1\nrequest\n", None, b"bad history BadLine 3\n", 2),
    (SMALL, HEAD + b"request 1\nopen 1\n", None, b"not enabled at 2\n", 1),
    (SMALL, HEAD + b"fault off 1\n" * 2 + b"fault wave 2 normal 1\n" * MOST, None, b"not enabled at 2\n", 1),
    (SMALL, HEAD + b"fault wave 2 normal 1\n" * (MOST + 1), None, b"bad history TooLongForPage\n", 2),
    (SMALL, b"reset-history 4\n", b"reset-snapshot 1\nnode 3\n", b"bad snapshot BadLine 2\n", 2),
]


def run_refusals(program):
    for topology, history, snapshot, text, status in REFUSALS:
        answer = program.page(topology, history, snapshot)
        assert answer == (text, status), (answer[0][:200], answer[1], text)
    entries = [b"fault wave 2 normal 1"] * MOST
    assert len(program.data(SMALL, HEAD + b"".join(it + b"\n" for it in entries))) == 8 + MOST + 1
    return len(REFUSALS) + 1


def main():
    os.chdir(f"{os.path.dirname(os.path.realpath(__file__))}/../..")
    passed, failed, played, started = 0, 0, 0, 0
    with tempfile.TemporaryDirectory() as room:
        program = Program(sys.argv[1], room)
        for part in (run_examples, run_refusals):
            try:
                passed += part(program)
            except AssertionError as error:
                failed += 1
                print(f"{part.__name__}: {error}")
        for seed in range(int(sys.argv[2]) if len(sys.argv) > 2 else RUNS):
            try:
                entries, was_snapshot = run_random(program, seed)
                passed, played, started = passed + 1, played + entries, started + was_snapshot
            except AssertionError as error:
                failed += 1
                print(f"seed {seed}: {error}")
        program.check_frame()
    print(f"{played} entries of random histories, {started} of them from snapshots")
    print(f"{passed} page passed, {failed} failed")
    return failed > 0


if __name__ == "__main__":
    sys.exit(main())
