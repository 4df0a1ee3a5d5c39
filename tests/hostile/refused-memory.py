#!/usr/bin/env python3
"""Runs the program named on the command line again and again, each time with another request for memory refused (by
hostile/refuse.c, which is compiled and preloaded): the first, the second and so on, up to a run that makes fewer. The
runs are those of the folders of examples/ and of tests/cases, joined, with two files and with a history, and those of the other words.

Each run has to end with the whole answer and its status, or with status 4, `out of memory` on standard error and a
prefix of the answer; never by a signal, nor with another fault. Of a script whose lines all ask for memory the prefix is
known too: a line whose request is refused has all answers before it, and nothing more.

Of node threads no two runs are alike: a history that was told whole has to be verified, or nothing is told and there is
no file. A run of which all threads were started, or none, ends because an allocation fails, and one that lacks a thread
says so. Nodes of `mutex` without links always have something to do, so a history of theirs that is told has an entry
for each turn.

A run that makes more than EVERY requests isn't tried at each of them, but at the first EVERY / 2, at the last LAST and
at some between that are drawn by a fixed seed.
"""
import multiprocessing
import os
import random
import subprocess
import sys
import tempfile

sys.dont_write_bytecode = True
sys.path += [f"{sys.path[0]}/../shared"]
import example_folders

HERE = os.path.dirname(os.path.realpath(__file__))
EVERY = 300
LAST = 20
DRAWN = 60
LONGEST = 60  # seconds
TURNS = 20  # of node threads
SUBCOMMANDS = ("replay", "check", "plan", "explore", "verify", "picture", "record", "threads", "drive",
               "session", "page", "topology", "explain", "tables")
HELP = [["--help"], ["-h"], ["help"], ["--version"], *([it, "--help"] for it in SUBCOMMANDS)]
BAD_WORDS = [["something"], ["--something"], ["replay"], ["replay", "a"], ["replay", "a", "b", "c"], ["tables", "a"],
             ["help", "something"], ["threads", "a", "--turns", "0", "--history", "b"], ["threads", "a"], [b"\xff"],
             ["threads", "a", "--turns", "x", "--history", "b"], ["verify", "--turns", "1", "a", "b"],
             ["drive", "a", "--steps", "0", "--seed", "1", "--history", "b"], ["topology", "ring", "x"],
             ["record", "a", "b"]]
SHAPES = [["topology", "random", "9", "--seed", "3"], ["topology", "grid", "16", "--app", "mutex"], ["topology", "x", "1"],
          ["explain", "NotEnabled"], ["explain", "x"]]
STEPS, FAULTS = 60, 200  # of the scheduler
FILES = [["replay", "missing", "missing"], ["plan", "missing"], ["plan", "missing", "--from", "missing"],
         ["explore", "missing"], ["explore", "missing", "--from", "missing"], ["check", ".", "."], ["verify", "missing", "missing"],
         ["threads", "missing", "--turns", "1", "--history", "history"],
         ["record", "missing", "missing", "--history", "history"]]
SCRIPT = b"""draw 1
fault wave 8 reset 1
watch 1
fault tree 7 1 1 1
watch 7
request 3
open 3
act 3 1
fault local 3 held
ready
fault off 3
fault on 3
fault on 3
fault up 3 1
moves
moves 3
invariant
snapshot
"""
# each line asks for memory, and is answered by one line
LINES = [b"fault local 1 hold/2/3", b"ready", b"enabled 2", b"fault down 1 2", b"ready", b"fault up 1 2", b"fault off 3",
         b"fault on 3", b"enabled 2", b"ready", b"fault local 2 free/-/1,3"]
NETWORKS = {
    "single": "nodes = [7]\nlinks = []\n",
    "line": "nodes = [1, 2, 3]\nlinks = [[1, 2], [2, 3]]\nmodulus = 2\n",
    "parts": "nodes = [1, 3, 5, 7, 8]\nlinks = [[1, 3], [5, 8]]\n",
    "apart": "nodes = [2, 5, 9]\nlinks = []\n",
    "star": f"nodes = {list(range(1, 9))}\nlinks = {[[8, i] for i in range(1, 8)]}\n",
}


class Program:
    """The program, with what is preloaded, in a folder of its own."""

    def __init__(self, path, refuser, room):
        self.path, self.refuser, self.room = path, refuser, room

    def run(self, words, given=None, refused=0):
        """Standard output, the status and standard error, and how many requests there were."""
        answer, requests, _ = self.run_counted(words, given, REFUSE_AT=str(refused))
        return answer, requests

    def run_counted(self, words, given=None, **refused):
        """The same, and how many threads were started."""
        told, tell = os.pipe()
        # A pipe would come in pieces of any length, and how many requests a reading makes hangs on these.
        self.put("given", given or b"")
        loaded = {"LD_PRELOAD": self.refuser, "COUNT_TO": str(tell), **refused}
        try:
            with open(os.path.join(self.room, "given"), "rb") as stdin:
                ran = subprocess.run([self.path, *words], capture_output=True, cwd=self.room, timeout=LONGEST,
                                     pass_fds=[tell], env={**os.environ, **loaded}, stdin=stdin)
            answer = ran.stdout, ran.returncode, ran.stderr
        except subprocess.TimeoutExpired:
            answer = b"", "no end", b""
        os.close(tell)
        with open(told, "rb") as counted:
            requests, started, _ = map(int, counted.read().split() or (0, 0, 0))
        return answer, requests, started

    def verify(self, topology):
        words = [self.path, "verify", topology, "history"]
        return subprocess.run(words, capture_output=True, cwd=self.room, timeout=LONGEST, stdin=subprocess.DEVNULL)

    def put(self, name, text):
        with open(os.path.join(self.room, name), "wb") as file:
            file.write(text)

    def forget(self, name):
        if os.path.exists(os.path.join(self.room, name)):
            os.remove(os.path.join(self.room, name))

    def read(self, name):
        path = os.path.join(self.room, name)
        if not os.path.exists(path):
            return None
        with open(path, "rb") as file:
            return file.read()


def read(*parts):
    with open(os.path.join(*parts), "rb") as file:
        return file.read()


# ---- one run with a request refused

def wrong_of(answer, whole):
    """What is wrong with an answer, where this is the whole one."""
    out, status, complaint = answer
    if answer == whole or (status, complaint) == (4, b"out of memory\n") and whole[0].startswith(out):
        return None
    return f"status {status}, {out[-200:]!r}, {complaint[-200:]!r}"


def wrong_of_threads(program, topology, answer, started, nodes, entries):
    """What is wrong with an answer of so many node threads and with the history that they have left, which has so many
    entries where that is known."""
    (out, status, complaint), history = answer, program.read("history")
    stops = {4: (b"out of memory\n", (0, nodes)), 3: (b"thread fault\n", (nodes - 1,))}
    if status in stops:
        told, starts = stops[status]
        good = (out, complaint) == (b"", told) and history is None and started in starts
        return None if good else f"status {status}, {out!r}, {complaint!r}, {started} threads, the history {history!r}"
    ran = program.verify(topology)
    told = ran.stdout.splitlines()[-1:] or [b""]
    good = (status, complaint, ran.returncode, started) == (0, b"", 0, nodes) and out.split()[3:] == told[0].split()[1:]
    whole = entries is None or out.split()[3:4] == [b"%d" % entries]
    return None if good and whole else f"status {status}, {out!r}, {complaint!r}, verify: {ran.returncode}, {told}"


# ---- each run with each request refused

def numbers(count, title):
    """Which requests are refused of so many, and the one that isn't made any more."""
    if count <= EVERY:
        return range(1, count + 2)
    first, last = EVERY // 2, count + 2 - LAST
    return [*range(1, first), *sorted(random.Random(title).sample(range(first, last), DRAWN)), *range(last, count + 2)]


def example_runs():
    """The title, the words, and the text on standard input or None."""
    for folder in example_folders.every():
        name, there = os.path.basename(folder), os.listdir(folder)
        topology = os.path.join(folder, "topology.toml")
        if "joined" in there:
            yield name, [], read(folder, "joined")
        elif "history" in there:
            yield name, ["verify", topology, os.path.join(folder, "history")], None
            yield name, ["verify", topology, os.path.join(folder, "history"), "--why"], None
            yield name, ["picture", topology, os.path.join(folder, "history")], None
            yield name, ["page", topology, os.path.join(folder, "history"), "--title", "50 % </title>"], None
        else:
            script = os.path.join(folder, "script")
            yield name, [], read(topology) + b"---\n" + read(script)
            yield name, ["replay", topology, script], None
            yield name, ["check", topology, script], None


def plan_runs():
    """Those of plans and of runs that start from a snapshot, of the example that has one."""
    folder = example_folders.named("planned-repair")
    topology, damage, script, snapshot = (os.path.join(folder, it) for it in ("topology.toml", "damage", "script", "snapshot"))
    start = ["--from", snapshot]
    for words in [["plan", topology], ["plan", topology, damage], ["plan", topology, *start], ["plan", topology, damage, *start],
                  ["replay", topology, script, *start], ["check", topology, damage, *start],
                  ["verify", topology, script, *start], ["picture", topology, script, *start],
                  ["page", topology, script, *start],
                  ["replay", topology, script, "--from", script]]:
        yield "plans", words, None


def exploration_runs():
    """Those of explorations: of a network that ends, at the limit and beyond it, of one that goes round, and searches."""
    whole, round_ = (example_folders.named(it) for it in ("every-order", "mends-go-round"))
    asked = [os.path.join(whole, it) for it in ("topology.toml", "script")]
    circle = [os.path.join(round_, it) for it in ("topology.toml", "script")]
    for words in [asked, [*asked, "--most", "37"], [*asked, "--most", "36"], [asked[0], "--acts"], circle,
                  [*asked, "--until", "check"], [*circle, "--until", "check"], [*asked, "--until", "invariant"]]:
        yield "explorations", ["explore", *words], None


def runs():
    yield from example_runs()
    yield from plan_runs()
    yield from exploration_runs()
    yield from (("words", words, None) for words in [*HELP, *BAD_WORDS, *FILES, *SHAPES, ["tables"]])


def tried(job):
    """How many runs were made, and what is wrong with those in which something is."""
    path, refuser, title, words, given = job
    title, wrong = " ".join([title, *(os.path.basename(os.fsdecode(it)) for it in words)]), []
    with tempfile.TemporaryDirectory() as room:
        program = Program(path, refuser, room)
        whole, count = program.run(words, given)
        made = numbers(count, title)
        for number in made:
            answer, _ = program.run(words, given, number)
            fault = wrong_of(answer, whole)
            if fault or number > count and answer != whole:
                wrong.append(f"{title}, request {number} of {count}: {fault or 'out of memory'}")
    if count == 0:
        wrong.append(f"{title}: no request was counted")
    return len(made), wrong


def tried_threads(job):
    path, refuser, name, app = job
    title, wrong = f"threads {name} {app}", []
    words = ["threads", "topology.toml", "--turns", str(TURNS), "--history", "history"]
    with tempfile.TemporaryDirectory() as room:
        program = Program(path, refuser, room)
        program.put("topology.toml", f'{NETWORKS[name]}app = "{app}"\n'.encode())
        _, count, nodes = program.run_counted(words)
        entries = nodes * TURNS + 1 if (name, app) == ("apart", "mutex") else None
        made = numbers(count, title)
        for number in made:
            program.forget("history")
            answer, _, started = program.run_counted(words, REFUSE_AT=str(number))
            fault = wrong_of_threads(program, "topology.toml", answer, started, nodes, entries)
            if fault:
                wrong.append(f"{title}, request {number} of {count}: {fault}")
        for number in range(1, nodes + 1):
            program.forget("history")
            answer, _, started = program.run_counted(words, REFUSE_THREAD=str(number))
            if (answer, started, program.read("history")) != ((b"", 3, b"thread fault\n"), nodes - 1, None):
                wrong.append(f"{title}, thread {number} of {nodes}: {answer}, {started} threads")
    if nodes != NETWORKS[name].split("\n")[0].count(",") + 1:
        wrong.append(f"{title}: {nodes} threads")
    return len(made) + nodes, wrong


def tried_lines(job):
    """Of texts with the first lines alone, all of one length, each has the requests of the one before and more."""
    path, refuser, words = job
    title, wrong, made, before = " ".join(["lines", *words]), [], 0, None
    topology, length = NETWORKS["line"].encode() + b'app = "token"\n', sum(len(it) + 1 for it in LINES)
    with tempfile.TemporaryDirectory() as room:
        program = Program(path, refuser, room)
        program.put("topology.toml", topology)
        for lines in range(len(LINES) + 1):
            script = b"".join(it + b"\n" for it in LINES[:lines]).ljust(length, b"\n")
            program.put("script", script)
            given = None if words else topology + b"---\n" + script
            whole, count = program.run(words, given)
            out, requests = before or (b"", count)
            if whole[1:] != (0, b"") or whole[0].count(b"\n") != lines or before and count <= requests:
                wrong.append(f"{title}, {lines} lines: {whole}, {count} requests after {requests}")
            for number in range(requests + 1, count + 1):
                answer, _ = program.run(words, given, number)
                made += 1
                if answer != (out, 4, b"out of memory\n"):
                    wrong.append(f"{title}, request {number} of {count}: {answer}, wanted {out}")
            before = whole[0], count
    return made, wrong


def tried_drive(job):
    """The history of the scheduler is there whole, or if an allocation fails not at all."""
    path, refuser, name, app = job
    title, wrong = f"drive {name} {app}", []
    words = ["drive", "topology.toml", "--steps", str(STEPS), "--seed", "7", "--faults", str(FAULTS), "--history", "history"]
    with tempfile.TemporaryDirectory() as room:
        program = Program(path, refuser, room)
        program.put("topology.toml", f'{NETWORKS[name]}app = "{app}"\n'.encode())
        answer, count = program.run(words)
        whole = answer, program.read("history")
        made = numbers(count, title)
        for number in made:
            program.forget("history")
            answer, _ = program.run(words, None, number)
            left = answer, program.read("history")
            nothing = left == ((b"", 4, b"out of memory\n"), None)
            if left != whole and not (nothing and number <= count):
                wrong.append(f"{title}, request {number} of {count}: {answer}, the history {(left[1] or b'')[-200:]!r}")
    return len(made), wrong


def tried_record(job):
    """The history of a script is there whole once all is answered, or if an allocation fails not at all."""
    path, refuser, name, app = job
    title, wrong = f"record {name} {app}", []
    words = ["record", "topology.toml", "script", "--history", "history"]
    with tempfile.TemporaryDirectory() as room:
        program = Program(path, refuser, room)
        program.put("topology.toml", f'{NETWORKS[name]}app = "{app}"\n'.encode())
        program.put("script", SCRIPT)
        whole, count = program.run(words)
        history = program.read("history")
        made = numbers(count, title)
        for number in made:
            program.forget("history")
            answer, _ = program.run(words, None, number)
            fault, left = wrong_of(answer, whole), program.read("history")
            good = left == (history if answer == whole else None)
            if fault or not good or number > count and answer != whole:
                wrong.append(f"{title}, request {number} of {count}: {fault}, {answer}, the history {left}")
    return len(made), wrong


def compiled(room):
    made = os.path.join(room, "refuse.so")
    subprocess.run(["cc", "-O2", "-shared", "-fPIC", "-o", made, os.path.join(HERE, "refuse.c")], check=True)
    return made


def main():
    path = os.path.realpath(sys.argv[1])
    with tempfile.TemporaryDirectory() as room, multiprocessing.Pool() as pool:
        refuser = compiled(room)
        jobs = [(path, refuser, *it) for it in runs()]
        threads = [(path, refuser, name, app) for name in NETWORKS for app in ("idle", "token", "mutex", "routes")]
        lines = [(path, refuser, it) for it in ([], ["replay", "topology.toml", "script"])]
        told = [pool.map_async(tried_lines, lines, chunksize=1),
                pool.map_async(tried_threads, threads, chunksize=1), pool.map_async(tried_drive, threads, chunksize=1),
                pool.map_async(tried_record, threads, chunksize=1), pool.map_async(tried, jobs, chunksize=1)]
        told = [it for some in told for it in some.get()]
    made, wrong = sum(it[0] for it in told), [line for it in told for line in it[1]]
    for line in wrong[:40]:
        print(f"refused-memory {line}")
    print(f"{made - len(wrong)} refused-memory passed, {len(wrong)} failed")
    return len(wrong) > 0


if __name__ == "__main__":
    sys.exit(main())
