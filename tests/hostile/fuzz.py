#!/usr/bin/env python3
"""Compares the program named on the command line with a second one that is written in Python from docs/formats.md
and docs/model.md (model.py, answers.py), on random texts, good and damaged (makers.py): standard output, status and
standard error have to be the same, byte for byte.

    tests/hostile/fuzz.py PROGRAM [TEXTS [SEED [PROCESSES]]]

Text n of a seed is the same however many there are. What differs is made shorter, by lines and then by bytes, for as
long as it differs, and printed with the commands that show it again.
"""
import collections
import multiprocessing
import os
import random
import re
import subprocess
import sys
import tempfile
import time

sys.dont_write_bytecode = True
sys.path += [f"{sys.path[0]}/../oracle"]
import answers
import makers

TEXTS = 1000
SEED = "reset"
PIECE = 50  # texts that a process takes at once
EVERY = 10  # seconds between two lines that tell how far it is
TOLD = 5  # differences that are made shorter and printed
LONGEST = 60  # seconds
SHORTENINGS = 3000  # runs at most, to make one difference shorter

# What the answers to 1,000 texts have to have at least so often: where the texts came to nothing, comparing them
# would say nothing.
SHOWN = {
    "applied": 3000, "disturbed": 200, "complete": 30, "drawn": 30, "report .* opened [0-9]": 10, "opened -": 3,
    "verified": 50, "not enabled": 25, "bad history BadLine": 20, "bad line": 20, "NotToml": 20, "faults 0": 50,
    "link .* tree": 100, "link .* wave": 30, "link .* app": 15, "alarm": 4, "quiet": 50, "unjoined": 50,
    "StrangeNode": 50, "StrangeNeighbour": 20, "NoSuchCase": 5, "WantsNeighbour": 5, "TakesNoNeighbour": 1,
    "Disagrees": 1, "NotEnabled": 200, "complete 0": 3, "OtherModulus": 3, "BadVersion": 1, "BadLine 1\n": 5,
    "move request": 100, "move act": 100, "move adopt": 20, "move mend": 5, "snapshot": 40, "link [0-9]+ [0-9]+\n": 100,
    "BadValue": 5, "BadLocal": 5, "NoSuchLink": 2, "LinkIsThere": 2, "MissingKey": 2,
    "UnknownKey": 2, "WrongKind": 2, "UnknownApp": 2, "NoNodes": 2, "BadId": 2, "TwiceNode": 2, "SelfLink": 0.5,
    "TwiceLink": 2, "StrangeNode [0-9]": 2, "NodeIsUp": 2,
}


class Program:
    """The program, with a folder for the files that it reads."""

    def __init__(self, path, room):
        self.path, self.room = path, room

    def run(self, word, topology, text):
        for name, it in (("topology.toml", topology), ("text", text)):
            with open(os.path.join(self.room, name), "wb") as file:
                file.write(it)
        words = [] if word == "joined" else [word, "topology.toml", "text"]
        streams = {"input": text} if word == "joined" else {"stdin": subprocess.DEVNULL}
        try:
            ran = subprocess.run([self.path, *words], capture_output=True, cwd=self.room, timeout=LONGEST, **streams)
        except subprocess.TimeoutExpired:
            return b"", "no end", b""
        return ran.stdout, ran.returncode, ran.stderr


def wanted(word, topology, text):
    """The answer of the second program, or None where it isn't sure."""
    try:
        told = answers.joined(text) if word == "joined" else getattr(answers, word)(topology, text)
    except answers.Unsure:
        return None
    return (*told, b"")


def differs(program, case):
    answer = wanted(*case)
    return answer is not None and program.run(*case) != answer


def made(seed, number):
    return makers.Maker(random.Random(f"{seed} {number}")).case_of_the_program()


# ---- what differs, made shorter

def without_pieces(parts, still):
    """Fewer of the parts, for as long as it still differs without the others."""
    size = max(len(parts) // 2, 1)
    while parts:
        at, before = 0, len(parts)
        while at < len(parts):
            fewer = parts[:at] + parts[at + size:]
            if still(fewer):
                parts = fewer
            else:
                at += size
        if size == 1 and len(parts) == before:
            break
        size = max(size // 2, 1)
    return parts


def plain(nodes, links, app, modulus):
    """The text of a topology with these nodes and with those of the links that are between them."""
    kept = [list(it) for it in links if set(it) <= set(nodes)]
    last = "" if modulus == answers.SESSIONS else f"modulus = {modulus}\n"
    return f'nodes = {list(nodes)}\nlinks = {kept}\napp = "{app}"\n{last}'.encode()


def smaller_network(topology, still):
    """The topology with fewer nodes and links, where it is a good one."""
    try:
        network = answers.booted(topology)
    except (answers.Fault, answers.Unsure):
        return topology
    app = next(name for name, it in answers.APPLICATIONS.items() if it is network.app)
    nodes, links, last = list(network.graph), sorted(network.links()), (app, network.modulus)
    if not still(plain(nodes, links, *last)):
        return topology
    nodes = without_pieces(nodes, lambda it: still(plain(it, links, *last)))
    return plain(nodes, without_pieces(links, lambda it: still(plain(nodes, it, *last))), *last)


def shorter(program, case):
    """The case with as few lines, and then bytes, as one way of leaving them out comes to."""
    word, *texts = case
    left = [SHORTENINGS]

    def still(at, text):
        left[0] -= 1
        return left[0] > 0 and differs(program, (word, *texts[:at], text, *texts[at + 1:]))

    if word != "joined":
        texts[0] = smaller_network(texts[0], lambda it: still(0, it))
    for at in (1, 0):
        lines = without_pieces(texts[at].splitlines(keepends=True), lambda it: still(at, b"".join(it)))
        texts[at] = b"".join(lines)
        pieces = [texts[at][n:n + 1] for n in range(len(texts[at]))]
        texts[at] = b"".join(without_pieces(pieces, lambda it: still(at, b"".join(it))))
    return word, *texts


def printed(text):
    """The text as printf's first word."""
    def spelled(byte):
        plain = 32 <= byte <= 126 and chr(byte) not in "\\'%"
        return chr(byte) if plain else "\\n" if byte == 10 else f"\\{byte:03o}"
    return "'" + "".join(map(spelled, text)) + "'"


def shown(program, title, case):
    word, topology, text = case
    if word == "joined":
        commands = [f"printf {printed(text)} | build/reset-service"]
    else:
        commands = [f"printf {printed(topology)} >topology.toml", f"printf {printed(text)} >text",
                    f"build/reset-service {word} topology.toml text"]
    lines = [f"fuzz {title} differs:", *(f"  {it}" for it in commands)]
    return "\n".join([*lines, f"  wanted {wanted(*case)}", f"  and is {program.run(*case)}"])


# ---- all of them

def judged(job):
    """Of some texts: how many were compared, what their answers have, and the numbers of those that differ."""
    path, seed, numbers = job
    compared, counts, wrong = 0, collections.Counter(), []
    with tempfile.TemporaryDirectory() as room:
        program = Program(path, room)
        for number in numbers:
            case = made(seed, number)
            answer = wanted(*case)
            if answer is None:
                continue
            compared += 1
            if program.run(*case) != answer:
                wrong.append(number)
            counts.update({what: len(re.findall(what, answer[0].decode())) for what in SHOWN})
    return len(numbers), compared, counts, wrong


def every(path, count, seed, processes):
    """The same of all texts; a line tells how far it is."""
    jobs = [(path, seed, range(at, min(at + PIECE, count))) for at in range(0, count, PIECE)]
    done, compared, counts, wrong, said = 0, 0, collections.Counter(), [], time.monotonic()
    with multiprocessing.Pool(processes) as pool:
        for tried, some, more, failed in pool.imap_unordered(judged, jobs):
            done, compared, wrong = done + tried, compared + some, wrong + failed
            counts.update(more)
            if time.monotonic() - said > EVERY:
                said = time.monotonic()
                print(f"fuzz: {done} of {count} texts, {len(wrong)} differ", flush=True)
    return compared, counts, sorted(wrong)


def main():
    path, count, seed = os.path.realpath(sys.argv[1]), int((sys.argv[2:] or [TEXTS])[0]), (sys.argv[3:] or [SEED])[0]
    compared, counts, wrong = every(path, count, seed, int(sys.argv[4]) if len(sys.argv) > 4 else None)
    with tempfile.TemporaryDirectory() as room:
        program = Program(path, room)
        for number in wrong[:TOLD]:
            print(shown(program, f"seed {seed} text {number}", shorter(program, made(seed, number))))
    poor = [f"'{it}' {counts[it]} times" for it, often in SHOWN.items() if counts[it] < often * (count // 1000)]
    for it in poor:
        print(f"fuzz: too seldom in the answers: {it}")
    print(f"fuzz: seed {seed}, {count} texts; {count - compared} are left out, of which the second program isn't sure")
    failed = len(wrong) + len(poor)
    print(f"{compared - len(wrong)} fuzz passed, {failed} failed")
    return failed > 0


if __name__ == "__main__":
    sys.exit(main())
