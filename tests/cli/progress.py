#!/usr/bin/env python3
"""Asks for the line that the program named on the command line writes while it works: `verify: 3 s` to a terminal, and
with `--progress` to what isn't one too.

Long runs are made by a topology that comes late: its file is a pipe with a name, and the text is put into it after over
two seconds. Standard error is then a terminal (a pty), a pipe, or the same terminal as the standard output. The line
has to come each second and to be erased at the end, before anything else is written. In all that isn't a terminal, in
short runs, in those of other subcommands and where there can be no second thread there is none. The standard output,
the status and the last words are those of the same run without a terminal.

What a drive and an exploration say of how far they have come is asked of runs that take seconds: the percent grow, as do
the configurations, and none is more than there is. A replay on a terminal says at its end how many commands there were and
how many of them were refused.
"""
import collections
import concurrent.futures
import os
import pty
import re
import subprocess
import sys
import tempfile
import threading
import time
import tty

LATE = 2.4  # seconds until the topology comes
LONGEST = 60  # seconds
FOUND = 300_000  # configurations of a long exploration, which has more
NO_STACK = 6144  # KiB: room for the program, and none for the stack of a second thread
ALONE = b"nodes = [7]\nlinks = []\napp = \"idle\"\n"
RESETS = 400  # whose reports are more than the buffer before the output holds
HISTORY = b"reset-history 1\n" + b"request 7\nopen 7\nfinish 7\n" * RESETS
REPORTS = b"".join(b"report %d opened %d finished %d\n" % (n, 3 * n - 1, 3 * n) for n in range(1, RESETS + 1))
VERIFIED = REPORTS + b"verified %d entries %d reports\n" % (3 * RESETS, RESETS)
SCRIPTS = {
    "refused": b"request 7\nopen 7\n\n# node 7 has a session already\nopen 7\nfinish 7\n",
    "taken": b"request 7\nopen 7\nfinish 7\n",
    "bad": b"request 7\nnothing\n",
}
ANSWERS = {
    "refused": (0, b"applied\napplied\nrefused NotEnabled\ncomplete 1\n",
                b"replay: 4 commands, 1 refused, the first in line 5\n"),
    "taken": (0, b"applied\napplied\ncomplete 1\n", b"replay: 3 commands, none refused\n"),
    "bad": (2, b"applied\nbad line 2\n", b"replay: 1 command, none refused\n"),
}


class Terminal:
    """A terminal that keeps what is written to it."""

    def __init__(self):
        self.near, self.far = pty.openpty()
        tty.setraw(self.far)
        self.kept = b""
        self.reader = threading.Thread(target=self.read)
        self.reader.start()

    def read(self):
        try:
            while piece := os.read(self.near, 65536):
                self.kept += piece
        except OSError:  # nobody has the far end any more
            pass

    def close(self):
        os.close(self.far)
        self.reader.join()
        os.close(self.near)
        return self.kept


def put_late(path, text, seconds):
    """Puts the text into the pipe of this name, in a thread of its own, so many seconds after it was opened."""
    def put():
        with open(path, "wb") as pipe:
            time.sleep(seconds)
            pipe.write(text)
    threading.Thread(target=put, daemon=True).start()


def run(program, case, folder):
    """The status, the standard output and the standard error of a run, where both go to one terminal what that got."""
    topology = os.path.join(folder, "topology")
    os.mkfifo(topology)
    for name, text in [("history", HISTORY), *SCRIPTS.items()]:
        with open(os.path.join(folder, name), "wb") as file:
            file.write(text)
    put_late(topology, case.topology, LATE if case.late else 0)
    terminal = None if case.error == "pipe" else Terminal()
    ends = {"pipe": (subprocess.PIPE, subprocess.PIPE), "terminal": (subprocess.PIPE, terminal and terminal.far),
            "both": (terminal and terminal.far, terminal and terminal.far)}[case.error]
    limit = ["sh", "-c", f'ulimit -v {case.room} && exec "$@"', "sh"] if case.room else []
    ran = subprocess.run([*limit, program, *case.words], stdin=subprocess.DEVNULL, stdout=ends[0], stderr=ends[1],
                         cwd=folder, timeout=LONGEST)
    return ran.returncode, ran.stdout, terminal.close() if terminal else ran.stderr


def behind_line(name, said):
    """What follows the line in what a terminal got, if it counts the seconds of the subcommand and is then erased."""
    found = re.match(rb"((?:\r\x1b\[K%s: [0-9]+ s)+)\r\x1b\[K" % name.encode(), said)
    if not found:
        return None
    seconds = [int(it) for it in re.findall(rb": ([0-9]+)", found[1])]
    return said[found.end():] if len(seconds) >= 2 and seconds == list(range(1, len(seconds) + 1)) else None


# `line` is the name in the line that is to come, or None; `wanted` the status, the output, and what the terminal or the
# pipe gets beside the line; `room` is the memory that the run may have, in KiB
Case = collections.namedtuple("Case", "what words topology late error line wanted room", defaults=[None])

# the words of each subcommand, what a run of it on the node alone writes, and the word for the file that isn't there
LONG = {
    "verify": (["verify", "topology", "history"], VERIFIED, b"read fault\n"),
    "drive": (["drive", "topology", "--steps", "300", "--seed", "1", "--history", "kept"],
              b"drove 300 entries 100 reports\n", b"write fault\n"),
    "threads": (["threads", "topology", "--turns", "10", "--history", "kept"],
                b"threads 1 nodes 3 entries 1 reports\n", b"write fault\n"),
}


def cases():
    for name, (words, answer, fault) in LONG.items():
        yield Case(f"{name}, terminal", words, ALONE, True, "terminal", name, (0, answer, b""))
        yield Case(f"{name}, pipe", words, ALONE, True, "pipe", None, (0, answer, b""))
        lines = b"%s: 1 s\n%s: 2 s\n" % (name.encode(), name.encode())
        yield Case(f"{name}, --progress", [*words, "--progress"], ALONE, True, "pipe", None, (0, answer, lines))
        yield Case(f"{name}, --progress, terminal", ["--progress", *words], ALONE, True, "terminal", name, (0, answer, b""))
        yield Case(f"{name}, at once", words, ALONE, False, "terminal", None, (0, answer, b""))
        yield Case(f"{name}, one terminal", words, ALONE, True, "both", name, (0, None, answer))
        bad = (2, b"bad topology NotToml\n", b"")
        yield Case(f"{name}, a bad topology", words, b"nodes = [1", True, "terminal", name, bad)
        lost = [*words[:-1], "none/such"]
        yield Case(f"{name}, no such file", lost, ALONE, True, "terminal", name, (3, b"", fault))
    words = LONG["verify"][0]
    yield Case("verify, no second thread", words, ALONE, True, "terminal", None, (0, VERIFIED, b""), NO_STACK)
    words = ["replay", "topology", "/dev/null"]
    yield Case("replay, terminal", words, ALONE, True, "terminal", None, (0, b"", b""))
    yield Case("replay, --progress", [*words, "--progress"], ALONE, True, "pipe", None, (0, b"", b""))
    for name, (status, answer, counts) in ANSWERS.items():
        words = ["replay", "topology", name]
        yield Case(f"replay {name}, terminal", words, ALONE, False, "terminal", None, (status, answer, counts))
        yield Case(f"replay {name}, one terminal", words, ALONE, False, "both", None, (status, None, answer + counts))
        yield Case(f"replay {name}, pipe", words, ALONE, False, "pipe", None, (status, answer, b""))
    strict = ["replay", "--strict", "--number", "topology", "refused"]
    ended = (1, b"1: applied\n2: applied\n5: refused NotEnabled\n", b"replay: 3 commands, 1 refused, the first in line 5\n")
    yield Case("replay --strict, terminal", strict, ALONE, False, "terminal", None, ended)
    behind = ["--", "--progress", "/dev/null"]
    yield Case("--progress is a path", ["replay", *behind], ALONE, False, "pipe", None, (3, b"", b"read fault\n"))


def tried(program, case):
    """What is wrong with the case, or nothing."""
    with tempfile.TemporaryDirectory() as folder:
        status, out, said = run(program, case, folder)
    rest = behind_line(case.line, said) if case.line else said
    return None if (status, out, rest) == case.wanted else f"{case.what}: {status}, {out!r}, {said[-200:]!r}"


def ring(count, app):
    """The text of a ring of so many nodes."""
    links = [[node, node % count + 1] for node in range(1, count + 1)]
    return f"nodes = {list(range(1, count + 1))}\nlinks = {links}\napp = \"{app}\"\n".encode()


def measured(program, words, topology, line, status):
    """The numbers in the lines of a long run with `--progress`, one row a line, or what is wrong with it."""
    with tempfile.TemporaryDirectory() as folder:
        with open(os.path.join(folder, "topology"), "wb") as written:
            written.write(topology)
        ran = subprocess.run([program, *words, "--progress"], capture_output=True, cwd=folder, timeout=LONGEST)
    rows = [re.fullmatch(line, said) for said in ran.stderr.splitlines()]
    if ran.returncode != status or not rows or None in rows:
        return f"status {ran.returncode}, {ran.stderr[-200:]!r}"
    return [list(map(int, row.groups())) for row in rows]


def long_drive(program):
    """A drive of a million steps on a large ring takes seconds, of which each line says less are left."""
    words = ["drive", "topology", "--steps", "1000000", "--seed", "1", "--faults", "20", "--history", "kept"]
    rows = measured(program, words, ring(1000, "token"), rb"drive: ([0-9]+) %, ([0-9]+) s left", 0)
    if isinstance(rows, str):
        return rows
    percents = [percent for percent, _ in rows]
    return None if percents == sorted(percents) and percents[-1] <= 100 else f"{rows}"


def long_exploration(program):
    """An exploration of some configurations of many takes seconds, and finds more of them in each."""
    line = rb"explore: ([0-9]+) configurations, ([0-9]+) to follow, ([0-9]+) a second, ([0-9]+) s"
    rows = measured(program, ["explore", "topology", "--acts", "--most", str(FOUND)], ring(7, "routes"), line, 2)
    if isinstance(rows, str):
        return rows
    found = [row[0] for row in rows]
    paced = all(of <= count and pace == count // seconds for count, of, pace, seconds in rows)
    return None if paced and found == sorted(found) and found[-1] <= FOUND else f"{rows}"


def main():
    program, every = os.path.realpath(sys.argv[1]), list(cases())
    with concurrent.futures.ThreadPoolExecutor(8) as pool:
        wrong = [it for it in pool.map(lambda case: tried(program, case), every) if it]
    for name, run in [("a long drive", long_drive), ("a long exploration", long_exploration)]:
        every.append(name)
        fault = run(program)
        if fault:
            wrong.append(f"{name}: {fault}")
    for line in wrong:
        print(f"progress {line}")
    print(f"{len(every) - len(wrong)} progress passed, {len(wrong)} failed")
    return bool(wrong)


if __name__ == "__main__":
    sys.exit(main())
