#!/usr/bin/env python3
"""Runs the node threads of the program named on the command line for long: TURNS turns each on the star of 64, RUNS
times. Each history has to be verified, with as many entries and reports as the run has told, and neither the run nor
the verification may take more memory than BOUND.

    tests/hostile/soak.py PROGRAM [TURNS]

It isn't part of `make test`: `make soak` runs it.
"""
import os
import subprocess
import sys
import tempfile
import time

RUNS = 3
TURNS = 5_000
NODES = 64
BOUND = 64  # MiB
APP = "mutex"


def star():
    nodes, links = list(range(1, NODES + 1)), [[NODES, i] for i in range(1, NODES)]
    return f'nodes = {nodes}\nlinks = {links}\napp = "{APP}"\n'


def measured(words):
    """The answer, the seconds and the most memory that a run held, in MiB."""
    began = time.monotonic()
    started = subprocess.Popen(words, stdin=subprocess.DEVNULL, stdout=subprocess.PIPE, stderr=subprocess.PIPE)
    out, complaint = started.stdout.read(), started.stderr.read()
    _, status, used = os.wait4(started.pid, 0)
    started.returncode = os.waitstatus_to_exitcode(status)
    answer = out.decode(), started.returncode, complaint.decode()
    return answer, time.monotonic() - began, used.ru_maxrss / 1024


def wrong_of(path, turns):
    """What is wrong with a run, if anything is; what it took is printed."""
    (line, status, complaint), seconds, memory = measured(
        [path, "threads", "topology.toml", "--turns", str(turns), "--history", "history"])
    (verified, judged, other), more_seconds, more = measured([path, "verify", "topology.toml", "history"])
    told, last = line.split(), (verified.splitlines() or [""])[-1].split()
    print(f"soak: {turns} turns of {NODES} nodes: {seconds:.0f} s, {memory:.0f} MiB, {line.strip()}; "
          f"verified in {more_seconds:.1f} s, {more:.0f} MiB", flush=True)
    if (status, complaint, judged, other) != (0, "", 0, "") or told[3:] != last[1:] or told[1] != str(NODES):
        return f"status {status}, {line!r}, {complaint!r}, verify: {judged}, {last}, {other!r}"
    return f"{memory:.0f} and {more:.0f} MiB of at most {BOUND}" if max(memory, more) > BOUND else None


def main():
    path, turns = os.path.realpath(sys.argv[1]), int((sys.argv[2:] or [TURNS])[0])
    wrong = []
    with tempfile.TemporaryDirectory() as room:
        os.chdir(room)
        with open("topology.toml", "w", encoding="utf-8") as file:
            file.write(star())
        for _ in range(RUNS):
            wrong += [it] if (it := wrong_of(path, turns)) else []
        os.chdir("/")
    for it in wrong:
        print(f"soak {it}")
    print(f"{RUNS - len(wrong)} soak passed, {len(wrong)} failed")
    return len(wrong) > 0


if __name__ == "__main__":
    sys.exit(main())
