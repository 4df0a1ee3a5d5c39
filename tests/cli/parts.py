#!/usr/bin/env python3
"""Runs the program named on the command line as `picture` with `--rows` and `--nodes`, on histories that `drive` wrote. The
bands, marks, lines and numbers have to be those that docs/formats.md gives to these entries and these nodes
(drawings.py), after what the entries before them leave of an independent network (model.py); the width and the legend those
of so many nodes. All rows and all nodes have to be the whole picture, byte for byte. And each mistake has its line.
"""
import os
import random
import subprocess
import sys
import tempfile

sys.dont_write_bytecode = True
sys.path += [f"{sys.path[0]}/../oracle"]
import answers
import drawings

RUNS = 60
MISTAKES = [
    *((["--rows", text], "bad rows BadRange") for text in (
        "", "3", "..", "1..", "..2", "0..3", "3..2", "1..1000001", "01..2", "1..02", "1...2", "1-2", "a..b", "1..2 ", "1..4294967296")),
    *((["--nodes", text], "bad nodes BadId") for text in ("", ",", "1,", ",1", "1,,2", "0", "01", "65536", "1 2", "x", "1,9,x")),
    (["--nodes", "9"], "bad nodes StrangeNode 9"), (["--nodes", "2,1,9,8"], "bad nodes StrangeNode 9"),
    (["--rows", "x", "--nodes", "x"], "bad rows BadRange"), (["--rows", "1..9", "--nodes", "9"], "bad nodes StrangeNode 9"),
]


class Rooms:
    def __init__(self, program, folder):
        self.program, self.folder = os.path.abspath(program), folder

    def run(self, *words):
        ran = subprocess.run([self.program, *words], cwd=self.folder, stdin=subprocess.DEVNULL, capture_output=True, text=True, timeout=120)
        return ran.stdout, ran.returncode, ran.stderr

    def write(self, name, text):
        with open(os.path.join(self.folder, name), "w", encoding="utf-8") as file:
            file.write(text)


def of_nodes(count):
    """The width of a picture of so many nodes, and what its legend says of them."""
    return f"width='{350 + 56 * count}'", f", nodes: {count}</text>"


def judged(drawn, topology, entries, rows, nodes):
    """Whether a picture is that of these rows and these nodes."""
    first, last = rows
    network = answers.booted(topology.encode())
    for line in entries[:first - 1]:
        network.answer(line.split(" "))
    wanted = drawings.Drawing(network, entries[first - 1:last], nodes, first - 1)
    return drawings.parts_of(drawn) == wanted.parts() and all(it in drawn for it in of_nodes(len(wanted.middle)))


def pictures(rooms, seed):
    rng = random.Random(f"parts {seed}")
    count = rng.randint(3, 12)
    app = rng.choice(["idle", "token", "mutex", "routes"])
    topology = rooms.run("topology", rng.choice(["path", "ring", "star", "tree", "random"]), str(count), "--app", app)[0]
    rooms.write("topology", topology)
    drove = rooms.run("drive", "topology", "--steps", str(rng.randint(40, 160)), "--seed", str(seed), "--faults",
                      str(rng.choice([0, 50, 200])), "--history", "whole")
    assert drove[1] == 0, drove
    with open(os.path.join(rooms.folder, "whole"), encoding="utf-8") as file:
        entries = file.read().splitlines()[1:]
    ids = list(range(1, count + 1))
    p = rng.randint(1, len(entries))
    q = rng.randint(p, len(entries) + 5)
    nodes = rng.sample(ids, rng.randint(1, count))
    by_rows, by_nodes = ["--rows", f"{p}..{q}"], ["--nodes", ",".join(str(it) for it in nodes)]
    for words, rows, lanes in ((by_rows, (p, q), None), (by_nodes, (1, len(entries)), nodes),
                               ([*by_nodes, *by_rows], (p, q), nodes)):
        drawn, *ended = rooms.run("picture", "topology", "whole", *words)
        yield f"seed {seed}: {' '.join(words)}", ended == [0, ""] and judged(drawn, topology, entries, rows, lanes)
    whole = rooms.run("picture", "topology", "whole")
    all_of_them = rooms.run("picture", "topology", "whole", "--nodes", ",".join(str(it) for it in ids), "--rows", f"1..{len(entries)}")
    yield f"seed {seed}: all", all_of_them == whole and judged(whole[0], topology, entries, (1, len(entries)), None)


def limits(rooms):
    rooms.write("topology", "nodes = [1, 2, 3]\nlinks = [[1, 2], [2, 3]]\napp = \"token\"\n")
    rooms.run("drive", "topology", "--steps", "3000", "--seed", "5", "--history", "day")
    for words, line in MISTAKES:
        yield f"{words}", rooms.run("picture", "topology", "day", *words) == (f"{line}\n", 2, "")
    too_long = ("bad history TooLongForPicture\n", 2, "")
    yield "3,000 entries", rooms.run("picture", "topology", "day") == too_long
    yield "2,001 entries", rooms.run("picture", "topology", "day", "--rows", "500..2500") == too_long
    for rows, count in (("501..2500", 2000), ("2990..9000", 11), ("3000..3000", 1)):
        told = rooms.run("picture", "topology", "day", "--rows", rows)
        yield f"rows {rows}", told[1:] == (0, "") and told[0].count("<text class='place'") == count
    asked = rooms.run("verify", "topology", "day", "--at", "3001")
    yield "rows that aren't there", rooms.run("picture", "topology", "day", "--rows", "3001..3002") == asked and asked[1] != 0
    rooms.write("bad", "nodes = []\nlinks = []\napp = \"idle\"\n")
    yield "the topology first", rooms.run("picture", "bad", "day", "--rows", "x") == ("bad topology NoNodes\n", 2, "")
    yield "the snapshot next", rooms.run("picture", "topology", "day", "--rows", "x", "--from", "day")[0].startswith("bad snapshot")
    rooms.write("many", rooms.run("topology", "path", "70")[0])
    rooms.run("drive", "many", "--steps", "60", "--seed", "7", "--history", "run")
    yield "70 nodes", rooms.run("picture", "many", "run", "--rows", "1..9") == ("bad topology TooManyForPicture\n", 2, "")
    named = ",".join(str(it) for it in range(1, 66))
    yield "65 nodes", rooms.run("picture", "many", "run", "--nodes", named) == ("bad nodes TooManyForPicture\n", 2, "")
    told = rooms.run("picture", "many", "run", "--nodes", named[2:] + ",3,2")
    yield "64 nodes of 70", told[1:] == (0, "") and told[0].count("<text class='lane'") == 128
    rooms.write("day", "reset-history 1\nrequest 1\njoin 1\n")
    yield "an entry that isn't allowed", rooms.run("picture", "topology", "day", "--rows", "1..1") == ("not enabled at 2\n", 1, "")


def main():
    passed, failed = 0, 0
    with tempfile.TemporaryDirectory() as folder:
        rooms = Rooms(sys.argv[1], folder)
        cases = [it for seed in range(RUNS) for it in pictures(rooms, seed)] + list(limits(rooms))
    for name, holds in cases:
        passed, failed = passed + bool(holds), failed + (not holds)
        if not holds:
            print(f"parts: {name}")
    print(f"{passed} parts passed, {failed} failed")
    return 1 if failed else 0


if __name__ == "__main__":
    sys.exit(main())
