#!/usr/bin/env python3
"""Runs `threads` of the program named on the command line: what node threads keep is verified.

A run has one thread a node, and no two runs need to be alike. So of each history this is asked: `verify` takes it and
counts the entries and the reports that the run has told; `replay` refuses none of its commands and completes as many
resets; no node has more entries than turns, but for the request of the least one, which is that node's first entry. Runs
from the snapshot of a damaged network are asked the same, with `verify` and `replay` from there.
Runs in which another node is selected, and asks for several resets, are asked how often it has asked.
Beside the runs stand those whose answers are written out, and files that can't be read or written.

A node of `mutex` without links always has something to do, and no other node changes what it sees: so it does something
in each of its turns, and what that is is written out, of however many nodes and turns.
"""
import collections
import os
import re
import subprocess
import sys
import tempfile

NEVER_QUIET = "'--until quiet' would never end, since the application of the topology always has something to do; give '--turns <N>'"
LIMITS = [  # words that don't say for how long the nodes take turns, and what is said of them
    ([], "either '--turns <N>' or '--until quiet' has to be given"),
    (["--turns", "4", "--until", "quiet"], "the argument '--turns <N>' cannot be used with '--until <quiet>'"),
    (["--until", "loud"], "invalid value for '--until <quiet>'\n  [possible values: quiet]"),
    (["--turns", "4", "--until", "loud"], "invalid value for '--until <quiet>'\n  [possible values: quiet]"),
]
RUNS = 10  # of each topology and application
APPS = ["idle", "token", "mutex", "routes"]


def mistake(reason):
    """What is written to standard error where words are wrong for this reason."""
    usage = "Usage: reset-service threads [OPTIONS] --history <FILE> <TOPOLOGY>"
    return f"error: {reason}\n\n{usage}\n\nFor more information, try '--help'.\n"


def ring(nodes):
    return [(i, i % nodes + 1) for i in range(1, nodes + 1)]


def grid(side):
    across = [(i, i + 1) for i in range(1, side * side + 1) if i % side]
    return across + [(i, i + side) for i in range(1, side * (side - 1) + 1)]


# each with its links
TOPOLOGIES = {
    "line": [(1, 2), (2, 3)],
    "ring": ring(8),
    "grid": grid(4),
    "star": [(64, i) for i in range(1, 64)],
    "three parts": [(1, 2), (2, 3), (4, 5), (6, 7), (7, 8), (8, 6)],
}
SESSIONS = 4294967296  # of a topology that names no other number
MOST_ENTRIES = 1_000_000  # of a history
# the numbers of `mutex` nodes without links, and of their turns; the entries of the last ones fill a history
NEVER_IDLE = [(1, 1), (1, 100_000), (2, 1_001), (16, 101), (17, 101), (64, 1), (64, 101), (64, 2_000), (11, 100_000)]
MODULI = {"ring": 2}
DAMAGE = ["fault wave 1 reset 1", "fault tree 2 9 9 4", "fault wave 4 initiate 0", "fault off 3", "fault down 1 2", "snapshot"]


def topology_text(links, app, nodes=None, modulus=SESSIONS):
    nodes = nodes or sorted({i for link in links for i in link})
    last = "" if modulus == SESSIONS else f"modulus = {modulus}\n"
    return f'nodes = {nodes}\nlinks = {[list(it) for it in links]}\napp = "{app}"\n{last}'


class Program:
    """The program in a folder of its own, and how its tests have gone."""

    def __init__(self, path):
        self.path, self.passed, self.failed = path, 0, 0

    def run(self, *words, **streams):
        ended = subprocess.run([self.path, *words], stdin=subprocess.DEVNULL, capture_output=not streams, timeout=120,
                               **streams)
        return ended.returncode, (ended.stdout or b"").decode(), (ended.stderr or b"").decode()

    def threads(self, topology, turns, history="history", start=(), **streams):
        return self.run("threads", topology, "--turns", str(turns), "--history", history, *start, **streams)

    def judge(self, title, faults):
        if faults:
            self.failed += 1
            print(f"threads {title}: {'; '.join(faults)}")
        else:
            self.passed += 1

    def want(self, title, answer, wanted, history=None):
        """The answer is the one that is wanted, and the history has these bytes, or isn't there."""
        faults = [] if answer == wanted else [f"{answer}, wanted {wanted}"]
        kept = read("history") if os.path.exists("history") else None
        if kept != history:
            faults.append(f"the history is {kept!r}, wanted {history!r}")
        self.judge(title, faults)


def read(path):
    with open(path, "rb") as file:
        return file.read()


def write(path, text):
    with open(path, "w", encoding="utf-8") as file:
        file.write(text)


def forget():
    if os.path.exists("history"):
        os.remove("history")


def faults_of(program, answer, nodes, modulus, turns, start=()):
    """What is wrong with a run and the history that it has left."""
    status, line, complaint = answer
    told = re.fullmatch(r"threads (\d+) nodes (\d+) entries (\d+) reports\n", line)
    if status or complaint or not told:
        return [f"answer {answer}"]
    entries, reports = int(told[2]), int(told[3])
    faults = [] if int(told[1]) == nodes else [f"{told[1]} nodes"]
    status, verified, _ = program.run("verify", "topology", "history", *start)
    if status or not verified.endswith(f"verified {entries} entries {reports} reports\n"):
        faults.append(f"verify: status {status}, {verified[-60:]!r}")
    first, *commands = read("history").decode().splitlines()
    if first != f"reset-history 3 {modulus}" or len(commands) != entries:
        faults.append(f"{first}, {len(commands)} commands")
    write("script", "".join(f"{it}\n" for it in commands))
    _, answers, _ = program.run("replay", "topology", "script", *start)
    counts = collections.Counter(it.split()[0] for it in answers.splitlines())
    if counts["applied"] + counts["complete"] != entries or counts["complete"] != reports:
        faults.append(f"replay: {dict(counts)}")
    taken = collections.Counter(it.split()[1] for it in commands)
    own = next((it for it in commands if it.split()[1] == "1"), None)
    if not start and own != "request 1" or any(n > turns + (i == "1") for i, n in taken.items()):
        faults.append(f"entries of the nodes: {dict(taken)}, the first of node 1: {own}")
    return faults


def runs(program):
    for name, links in TOPOLOGIES.items():
        for app in APPS:
            modulus = MODULI.get(name, SESSIONS)
            write("topology", topology_text(links, app, modulus=modulus))
            nodes = len({i for link in links for i in link})
            for turns in [1] + [100] * RUNS:
                answer = program.threads("topology", turns)
                program.judge(f"{name} {app} {turns} turns", faults_of(program, answer, nodes, modulus, turns))


def from_snapshots(program):
    for name, links in TOPOLOGIES.items():
        for app in APPS:
            modulus = MODULI.get(name, SESSIONS)
            write("topology", topology_text(links, app, modulus=modulus))
            write("damage", "".join(f"{it}\n" for it in DAMAGE))
            _, told, _ = program.run("replay", "topology", "damage")
            write("snapshot", told[told.index("reset-snapshot"):])
            nodes = len({i for link in links for i in link}) - 1
            for turns in (1, 50, 50):
                answer = program.threads("topology", turns, start=("--from", "snapshot"))
                faults = faults_of(program, answer, nodes, modulus, turns, ("--from", "snapshot"))
                program.judge(f"{name} {app} {turns} turns, from a snapshot", faults)
    write("history", "what stood there\n")
    write("snapshot", "node 9999 tree 1 1 0 wave normal 0 local -\n")
    write("many", topology_text([(i, i + 1) for i in range(1, 65)], "idle"))
    for topology, wanted in (("topology", "bad snapshot StrangeNode 9999\n"), ("many", "bad snapshot StrangeNode 9999\n")):
        program.want(f"a bad snapshot of {topology}", program.threads(topology, 10, start=("--from", "snapshot")),
                     (2, wanted, ""), b"what stood there\n")
    # one node of the 65 is down
    write("damage", "fault off 65\nsnapshot\n")
    write("snapshot", program.run("replay", "many", "damage")[1].removeprefix("disturbed\n"))
    answer = program.threads("many", 1, start=("--from", "snapshot"))
    program.judge("64 of 65 nodes", [] if answer[0] == 0 and answer[1].startswith("threads 64 nodes ") else [f"{answer}"])
    write("snapshot", "")
    program.want("no node", program.threads("topology", 10, start=("--from", "snapshot")),
                 (0, "threads 0 nodes 0 entries 0 reports\n", "reset-service: snapshot: it is empty, so all nodes are down\n"),
                 f"reset-history 3 {SESSIONS}\n".encode())


def own_entries(node, turns, least):
    """What a `mutex` node without links does in so many turns; the least one asks for a reset before them."""
    reset = [f"request {node}", f"open {node}", f"finish {node}"] if least else []
    actions = turns + least - len(reset)
    return [*reset, *(f"act {node} {1 + i % 2}" for i in range(actions))][:turns + least]


def faults_of_never_idle(program, answer, nodes, turns):
    """What is wrong with a run of nodes that always have something to do: each has all its entries, or, where the
    history is full, the first of them."""
    entries = min(nodes * turns + 1, MOST_ENTRIES)
    lists = collections.defaultdict(list)
    first, *commands = read("history").decode().splitlines()
    for it in commands:
        lists[it.split()[1]].append(it)
    reports = "finish 1" in lists["1"]
    faults = []
    if answer != (0, f"threads {nodes} nodes {entries} entries {reports:d} reports\n", ""):
        faults.append(f"answer {answer}")
    if first != f"reset-history 3 {SESSIONS}" or len(commands) != entries:
        faults.append(f"{first}, {len(commands)} commands, wanted {entries}")
    for node in range(1, nodes + 1):
        own, wanted = lists.pop(str(node), []), own_entries(node, turns, node == 1)
        if own != (wanted if entries < MOST_ENTRIES else wanted[:len(own)]):
            faults.append(f"node {node}: {len(own)} entries, the last {own[-3:]}, wanted {len(wanted)}")
    status, verified, _ = program.run("verify", "apart", "history")
    if status or lists or not verified.endswith(f"verified {entries} entries {reports:d} reports\n"):
        faults.append(f"verify: status {status}, {verified[-60:]!r}, strange nodes {list(lists)}")
    return faults


def never_idle(program):
    for nodes, turns in NEVER_IDLE:
        write("apart", topology_text([], "mutex", list(range(1, nodes + 1))))
        answer = program.threads("apart", turns)
        program.judge(f"{nodes} nodes of mutex without links, {turns} turns",
                      faults_of_never_idle(program, answer, nodes, turns))


def written_out(program):
    forget()
    write("topology", topology_text([], "idle", [7]))
    alone = b"reset-history 3 4294967296\nrequest 7\nopen 7\nfinish 7\n"
    for turns in [2, 10, 100000]:
        program.want(f"a single node, {turns} turns", program.threads("topology", turns),
                     (0, "threads 1 nodes 3 entries 1 reports\n", ""), alone)
    # nobody asks for a reset in the other component
    write("apart", topology_text([], "idle", [3, 7]))
    program.want("two nodes without a link", program.threads("apart", 10),
                 (0, "threads 2 nodes 3 entries 1 reports\n", ""), alone.replace(b" 7\n", b" 3\n"))
    program.want("a single node, a turn", program.threads("topology", 1),
                 (0, "threads 1 nodes 2 entries 0 reports\n", ""),
                 b"reset-history 3 4294967296\nrequest 7\nopen 7\n")
    write("many", topology_text([(i, i + 1) for i in range(1, 65)], "idle"))
    stood = b"reset-history 3 4294967296\nrequest 7\nopen 7\n"
    program.want("65 nodes", program.threads("many", 10), (2, "bad topology TooManyForThreads\n", ""), stood)
    write("bad", "nodes = [1")
    program.want("a bad topology", program.threads("bad", 10), (2, "bad topology NotToml\n", ""), stood)
    forget()
    program.want("no topology", program.threads("missing", 10), (3, "", "read fault\n"))
    program.want("no folder for the history", program.threads("topology", 10, "missing/history"),
                 (3, "", "write fault\n"))
    program.want("a folder for the history", program.threads("topology", 10, "."), (3, "", "write fault\n"))
    program.want("no room for the history", program.threads("topology", 10, "/dev/full"), (3, "", "write fault\n"))
    with open("/dev/full", "wb") as full:
        status, _, _ = program.threads("topology", 10, stdout=full, stderr=subprocess.DEVNULL)
    program.want("no room for the line", (status, "", ""), (3, "", ""))


def until_quiet(program, topology, *words):
    return program.run("threads", topology, "--until", "quiet", "--history", "history", *words)


def faults_of_requests(program, answer, nodes, selected, resets):
    """What is wrong with a run of idle nodes, one of which asks for so many resets, until none has anything to do: each
    request is answered by a reset of its own, and no other node asks."""
    told = re.fullmatch(rf"threads {nodes} nodes (\d+) entries {resets} reports\n", answer[1])
    if answer[0] or answer[2] or not told:
        return [f"answer {answer}"]
    _, *commands = read("history").decode().splitlines()
    requests = [it for it in commands if it.startswith("request ")]
    faults = []
    if commands[0] != f"request {selected}" or requests != [f"request {selected}"] * resets:
        faults.append(f"the first command is {commands[0]}, the requests are {collections.Counter(requests)}")
    status, verified, _ = program.run("verify", "topology", "history")
    if status or not verified.endswith(f"verified {told[1]} entries {resets} reports\n"):
        faults.append(f"verify: status {status}, {verified[-60:]!r}")
    return faults


def selected(program):
    for name, links in TOPOLOGIES.items():
        write("topology", topology_text(links, "idle"))
        nodes = sorted({i for link in links for i in link})
        for node in (nodes[0], nodes[1], nodes[-1]):
            for resets in (1, 5, 40):
                answer = until_quiet(program, "topology", "--select", str(node), "--resets", str(resets))
                program.judge(f"{name}, node {node} asks {resets} times",
                              faults_of_requests(program, answer, len(nodes), node, resets))
    reset = "request 7\nopen 7\nfinish 7\n"
    first = "reset-history 3 4294967296\n"
    write("topology", topology_text([], "idle", [7]))
    program.want("three resets of a single node", until_quiet(program, "topology", "--resets", "3"),
                 (0, "threads 1 nodes 9 entries 3 reports\n", ""), (first + 3 * reset).encode())
    # a request is no turn
    program.want("three turns", program.threads("topology", 3, start=("--resets", "2")),
                 (0, "threads 1 nodes 5 entries 1 reports\n", ""), (first + reset + "request 7\nopen 7\n").encode())
    stood = (first + 2 * reset).encode()
    write("topology", topology_text([], "idle", [3, 7]))
    program.want("the second of two nodes", until_quiet(program, "topology", "--select", "7", "--resets", "2"),
                 (0, "threads 2 nodes 6 entries 2 reports\n", ""), stood)
    write("damage", "fault off 3\nsnapshot\n")
    write("snapshot", program.run("replay", "topology", "damage")[1].removeprefix("disturbed\n"))
    write("many", topology_text([(i, i + 1) for i in range(1, 65)], "idle"))
    for title, topology, words in (
        ("no such node", "topology", ("--select", "4")),
        ("a node that is down", "topology", ("--select", "3", "--from", "snapshot")),
        ("no such node of 65", "many", ("--select", "66")),
    ):
        program.want(title, until_quiet(program, topology, *words), (2, "refused StrangeNode\n", ""), stood)
    program.want("65 nodes, one of them selected", until_quiet(program, "many", "--select", "65"),
                 (2, "bad topology TooManyForThreads\n", ""), stood)
    for app in ("token", "mutex"):
        write("restless", topology_text([(3, 7)], app))
        program.want(f"{app} until quiet", until_quiet(program, "restless"), (2, "", mistake(NEVER_QUIET)), stood)
    for words, reason in LIMITS:
        answer = program.run("threads", "topology", *words, "--history", "history")
        program.want(f"threads {' '.join(words)}", answer, (2, "", mistake(reason)), stood)
    program.want("the least of those that are up", until_quiet(program, "topology", "--from", "snapshot", "--resets", "2"),
                 (0, "threads 1 nodes 6 entries 2 reports\n", ""), stood)


def without_threads(program):
    """Where the system has no room for another thread's stack."""
    forget()
    write("star", topology_text(TOPOLOGIES["star"], "token"))
    command = ["bash", "-c", 'ulimit -v 60000; exec "$@"', "-", program.path, "threads", "star", "--turns", "100",
               "--history", "history"]
    ended = subprocess.run(command, stdin=subprocess.DEVNULL, capture_output=True, timeout=120)
    # which of the two is wanting first is the system's to say
    wanted = (4, "", "out of memory\n") if ended.returncode == 4 else (3, "", "thread fault\n")
    program.want("no room for threads", (ended.returncode, ended.stdout.decode(), ended.stderr.decode()), wanted)


def main():
    program = Program(os.path.realpath(sys.argv[1]))
    with tempfile.TemporaryDirectory() as room:
        os.chdir(room)
        written_out(program)
        never_idle(program)
        selected(program)
        without_threads(program)
        runs(program)
        from_snapshots(program)
        os.chdir("/")
    print(f"{program.passed} threads passed, {program.failed} failed")
    return program.failed > 0


if __name__ == "__main__":
    sys.exit(main())
