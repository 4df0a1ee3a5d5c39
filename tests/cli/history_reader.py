"""The histories of tests/cli/histories.py as a reader apart has them: what a text is read as, by the grammar alone, and what
is to be answered to it, by what `replay` says of the same commands.
"""
import collections
import os
import re
import subprocess
import threading

RUNS = 85  # random histories of each topology and application
TEXTS = 10  # failures that are told with the whole text; the others can be made again from their names
MOST = 4294967295
CHUNK = 4096  # bytes that the program reads at once: lines that cross such a place are to be read like others
SESSIONS = 4294967296  # the modulus of a topology that names none, and of each history of version 1
MODULI = [2, 3, 8, SESSIONS]
HEAD = b"reset-history 1\n"
SECOND = b"reset-history 2 4294967296\n"
WRITTEN = b"reset-history 3 4294967296\n"
DIGITS = [b"%d" % n for n in range(10)]
BYTES = [b"0123456789", b" \n\r\t#-", b"abcdefghijklmnopqrstuvwxyz", range(256)]  # a byte is of each of them as often

# each with its links
TOPOLOGIES = {
    "line": [(1, 2), (2, 3)],
    "square": [(10, 2), (2, 30), (30, 4), (4, 10)],
    "star": [(20, 11), (20, 30), (20, 12), (20, 40), (20, 13)],
    "complete": [(i, j) for i in range(60001, 60006) for j in range(i + 1, 60006)],
    "ring": [(3, 10), (10, 4), (4, 9), (9, 5), (5, 8), (8, 3)],
    "tree with a cycle": [(7, 1), (1, 6), (6, 7), (6, 2), (2, 5), (5, 3), (1, 4), (4, 65535)],
}

# of each application, whether its cases are about one neighbour
CASES = {"idle": [], "mutex": [False, False], "token": [True, True], "routes": [True]}

# What is to be answered has to have each of these so often: where the scripts came to nothing, a test of them would
# pass and say nothing.
SHOWN = {r"opened \d": 1000, "opened -": 200, "report 0": 100, "verified": 2100, "not enabled": 500, "BadLine": 500,
         "BadVersion": 1, "OtherModulus": 50}
NODES_DOWN = 200  # random histories in which a node goes down

# the topology is the path of its text, and the modulus is its own
Case = collections.namedtuple("Case", "title topology text answer")


class Strange(Exception):
    """`replay` answered as it answers no good script."""


# ---- the program

class Program:
    """The program, with a folder for the files that it reads."""

    def __init__(self, path, room):
        self.path, self.room = path, room

    def put(self, name, text):
        path = os.path.join(self.room, name)
        with open(path, "wb") as file:
            file.write(text)
        return path

    def place(self, name, app, modulus=None):
        return os.path.join(self.room, f"{name} {app} {modulus}.toml")

    def topology(self, name, app, modulus):
        """The text of a topology, without a modulus where that is None."""
        links, last = TOPOLOGIES[name], f"modulus = {modulus}\n" if modulus else ""
        text = f'nodes = {list(neighbours(links))}\nlinks = {[list(it) for it in links]}\napp = "{app}"\n{last}'
        return self.put(self.place(name, app, modulus), text.encode())

    def run(self, word, topology, text):
        path = self.put(str(threading.get_ident()), text)
        words = [self.path, word, topology, path]
        return subprocess.run(words, stdin=subprocess.DEVNULL, capture_output=True, timeout=60)

    def replay(self, topology, lines):
        """The answer to each command."""
        ran = self.run("replay", topology, "".join(f"{it}\n" for it in lines).encode())
        answers = ran.stdout.decode().splitlines()
        known = all(re.fullmatch(r"applied|disturbed|complete \d+|refused .+", it) for it in answers)
        if ran.returncode or ran.stderr or not known or len(answers) != len(lines):
            last = (answers[-1:], lines[len(answers) - 1:len(answers)])
            raise Strange(f"replay: status {ran.returncode}, {len(answers)} answers of {len(lines)}, the last {last}")
        return answers


def neighbours(links):
    """A map from each node to the list of its neighbours, both ascending."""
    ids = sorted({i for link in links for i in link})
    return {i: [j for j in ids if (i, j) in links or (j, i) in links] for i in ids}


def distances(graph, root):
    found, edge = {root: 0}, [root]
    for i in edge:
        for j in graph[i]:
            if j not in found:
                found[j] = found[i] + 1
                edge.append(j)
    return found


# ---- the reader

LINES = """
claim N
follow N
adopt N N
request N
relay N N
open N
join N
finish N
mend N
act N CASE
act N CASE N
fault tree N N N N
fault wave N PHASE N
fault local N TEXT
fault down N N
fault up N N
"""
SHAPES = [line.encode().split(b" ") for line in LINES.split("\n")[1:-1]]
LATE = [[b"fault", b"off", b"N"], [b"fault", b"on", b"N"]]  # those of version 3 alone


def is_number(word, most=MOST):
    return re.fullmatch(rb"0|[1-9][0-9]{0,9}", word) is not None and int(word) <= most


WORDS = {
    b"N": is_number,
    b"CASE": lambda word: is_number(word, 255),
    b"PHASE": lambda word: word in (b"normal", b"initiate", b"reset"),
    b"TEXT": lambda word: re.fullmatch(rb"[!-~]+", word) is not None,
}


def has_shape(words, shape):
    pairs = zip(words, shape)
    return len(words) == len(shape) and all(WORDS[it](word) if it in WORDS else word == it for word, it in pairs)


def is_entry(line, shapes):
    words = line.split(b" ")
    return len(line) <= 256 and any(has_shape(words, shape) for shape in shapes)


def told_by(first):
    """What is wrong with a first line, without its line feed, or the modulus that it tells and its entries' shapes."""
    if first == b"reset-history 1":
        return SESSIONS, SHAPES
    later = re.fullmatch(rb"reset-history ([23]) (.*)", first, re.DOTALL)
    if later and is_number(later[2], SESSIONS) and int(later[2]) > 1:
        return int(later[2]), SHAPES + LATE * (later[1] == b"3")
    other = re.fullmatch(rb"reset-history (.*)", first, re.DOTALL)
    return "BadVersion" if other and is_number(other[1]) and other[1] not in (b"2", b"3") else "BadLine 1"


def read(text, modulus):
    """What is wrong with a text for an opening of this modulus, or the list of the entries of a history. No text that
    comes here is too long."""
    first, feed, rest = text.partition(b"\n")
    told = told_by(first) if feed else "BadLine 1"
    if isinstance(told, str):
        return told
    other, shapes = told
    *lines, unended = rest.split(b"\n")
    bad = [n for n, line in enumerate(lines, 2) if not is_entry(line, shapes)]
    if bad or unended:
        return f"BadLine {[*bad, len(lines) + 2][0]}"
    return [line.decode() for line in lines] if other == modulus else f"OtherModulus {other}"


# ---- what is to be answered

def told_of(lines, answers):
    """What `verify` tells of entries that `replay` answers so."""
    opened, told = {}, []
    for at, (line, answer) in enumerate(zip(lines, answers), 1):
        command, node = line.split(" ")[:2]
        if answer.startswith("refused"):
            return f"not enabled at {at}"
        if command == "fault":
            opened.clear()
        if command == "open":
            opened[node] = at
        if answer.startswith("complete"):
            told.append(f"report {answer.split()[1]} opened {opened.get(node, '-')} finished {at}")
    return "\n".join([*told, f"verified {len(lines)} entries {len(told)} reports"])


def status_of(answer):
    return 2 if answer.startswith("bad") else 1 if answer.startswith("not enabled") else 0


def answer_to(program, topology, modulus, text):
    entries = read(text, modulus)
    if isinstance(entries, str):
        return f"bad history {entries}"
    return told_of(entries, program.replay(topology, entries))


def wrong_of(program, case):
    """What is wrong with the program's answer, if anything is."""
    ran = program.run("verify", case.topology, case.text)
    wanted, told = case.answer.split("\n"), ran.stdout.decode(errors="replace").split("\n")
    if (ran.returncode, ran.stderr, told) == (status_of(case.answer), b"", [*wanted, ""]):
        return None
    at = next((n for n, (a, b) in enumerate(zip(told, wanted)) if a != b), min(len(told), len(wanted)))
    return f"status {ran.returncode}, line {at + 1} is {told[at:at + 1]}, wanted {wanted[at:at + 1]} {ran.stderr[:200]}"


def text_of(lines, head=HEAD):
    return head + "".join(f"{it}\n" for it in lines).encode()


def is_late(line):
    return line.startswith(("fault off", "fault on"))
