#!/usr/bin/env python3
"""Refuses memory to calls: runs the tests of the gate's own binaries again and again, each time with another request
for memory refused (by hostile/refuse.c, which is compiled and preloaded), up to a run that makes fewer.

The tests of memory_tests have to pass each time: there a call that is refused memory is asked whether all is as before,
and called again. Those of its module `none` call what asks for no memory, and make a request for LAST_REQUEST bytes
before: that is refused, none may come after it, and they have to pass. A test of another crate may stop by itself: it is
aborted where it wants memory to be there, or it gives an error that names a failed allocation. It may neither end in
another way nor hang. Where a test makes more than EVERY requests, EVERY of them are drawn by a fixed seed. The argument
is the program that the gate has built; the binaries lie beside it.
"""
import glob
import multiprocessing
import os
import random
import re
import signal
import subprocess
import sys
import tempfile

HERE = os.path.dirname(os.path.realpath(__file__))
EVERY = 200
OTHERS = 5  # requests that are tried of each test of another crate
LONGEST = 60  # seconds
RETRYING = "memory_tests"
WITHOUT = "none::"  # tests of calls that ask for no memory
LAST_REQUEST = 7654321  # bytes; memory_tests has the same number
FAILED = re.compile(rb"error: [^\n]*\b(AllocError|AllocFailed|NoMemory|out of memory)\b[^\n]*\nthe test failed: its result gives status 1\n", re.I)
THREADS = ("thread_tests", "service_tests")  # no two runs of threads ask for memory alike, and held ones wait for each other


def tests_of(binary):
    listed = subprocess.run([binary, "--list"], capture_output=True, text=True, timeout=LONGEST, check=True).stdout
    return [it.removesuffix(": test") for it in listed.splitlines() if it.endswith(": test")]


def run(binary, name, refuser, **refused):
    """The status of a test, what it said, and how many requests it made, and how many from the last one on."""
    told, tell = os.pipe()
    loaded = {"LD_PRELOAD": refuser, "COUNT_TO": str(tell), **refused}
    try:
        ran = subprocess.run([binary, name], stdin=subprocess.DEVNULL, stdout=subprocess.PIPE, stderr=subprocess.STDOUT,
                             timeout=LONGEST, pass_fds=[tell], env={**os.environ, **loaded})
        status, said = ran.returncode, ran.stdout
    except subprocess.TimeoutExpired:
        status, said = "no end", b""
    os.close(tell)
    with open(told, "rb") as counted:
        requests, _, last = map(int, counted.read().split() or (0, 0, 0))
    return status, said, requests, last


def stopped(status, said):
    """Whether a test has stopped by itself, at what it asks for or with an error that names a failed allocation."""
    return status == -signal.SIGABRT and b"test stopped at" in said or FAILED.search(said) is not None and status == 101


def tried(job):
    """How many runs of a test were made, and what is wrong with those in which something is."""
    binary, name, refuser, retries = job
    crate, wrong = os.path.basename(binary).removesuffix("_tests"), []
    status, said, count, _ = run(binary, name, refuser)
    if status != 0:
        return 1, [f"{crate} {name}: status {status}, {said[-200:]!r}"]
    if retries and name.startswith(WITHOUT):
        status, said, _, last = run(binary, name, refuser, REFUSE_FROM=str(LAST_REQUEST))
        return 2, [] if (status, last) == (0, 1) else [f"{crate} {name}: status {status}, {last - 1} requests, {said[-200:]!r}"]
    most = EVERY if retries else OTHERS
    numbers = range(1, count + 1) if count <= most else sorted(random.Random(name).sample(range(1, count + 1), most))
    for number in numbers:
        status, said, *_ = run(binary, name, refuser, REFUSE_AT=str(number))
        if status != 0 and (retries or not stopped(status, said)):
            wrong.append(f"{crate} {name}, request {number} of {count}: status {status}, {said[-200:]!r}")
    return 1 + len(numbers), wrong


def jobs(program, refuser):
    crates = os.path.dirname(os.path.dirname(os.path.dirname(os.path.realpath(program))))
    for binary in sorted(glob.glob(f"{crates}/*/out/*_tests")):
        crate = os.path.basename(binary).removesuffix("_tests")
        if crate not in THREADS:
            yield from ((binary, name, refuser, crate == RETRYING) for name in tests_of(binary))


def main():
    with tempfile.TemporaryDirectory() as room, multiprocessing.Pool() as pool:
        refuser = os.path.join(room, "refuse.so")
        source = os.path.join(HERE, "refuse.c")
        subprocess.run(["cc", "-O2", "-shared", "-fPIC", "-o", refuser, source], check=True)
        told = pool.map(tried, list(jobs(sys.argv[1], refuser)), chunksize=1)
    made, wrong = sum(it[0] for it in told), [line for it in told for line in it[1]]
    for line in wrong[:40]:
        print(f"refused-calls {line}")
    print(f"{made - len(wrong)} refused-calls passed, {len(wrong)} failed")
    return bool(wrong) or made == 0


if __name__ == "__main__":
    sys.exit(main())
