#!/usr/bin/env python3
"""A test bench: how many repairs an adversary can make a damaged network take.

    bench.py PROGRAM TOPOLOGY [ROUNDS [SEED]]

In each round the booted network has ten random faults, and then an event is chosen at random among the repairs that are
allowed, until the checker finds nothing or a thousand were done. Prints the least, the middle and the greatest number.
Where that can't be done it says why on standard error, and its status is 1.
"""
import random
import statistics
import sys

from reset_service import Ended, Session

USAGE = "usage: bench.py PROGRAM TOPOLOGY [ROUNDS [SEED]], with ROUNDS from 1 on"
REPAIRS = ("claim", "follow", "adopt", "mend")


def repairs_of(session, rng):
    """Damages the network and repairs it. Returns how many repairs were done."""
    for _ in range(10):
        session.step(f"draw {rng.randrange(2**32)}")
    for count in range(1000):
        moves = [move for move in session.moves() if move.startswith(REPAIRS)]
        if not moves:
            return count
        session.step(rng.choice(moves))
    return 1000


def bench(program, topology, rounds=20, seed=1):
    """Prints the numbers of so many rounds. Raises Ended, and OSError where there is no such program."""
    rng, counts = random.Random(seed), []
    for _ in range(rounds):
        with Session(topology, program=program) as session:
            counts.append(repairs_of(session, rng))
    print(f"repairs: least {min(counts)} middle {statistics.median(counts):g} greatest {max(counts)}")


def main(words):
    """Runs the bench by the words of the command line. Returns the line that says what is wrong, or None."""
    numbers = words[2:]
    if not 2 <= len(words) <= 4 or not all(map(str.isdecimal, numbers)) or numbers and int(numbers[0]) == 0:
        return USAGE
    try:
        bench(*words[:2], *map(int, numbers))
    except (Ended, OSError) as error:
        return "bench.py: " + "; ".join(str(error).splitlines())
    return None


if __name__ == "__main__":
    sys.exit(main(sys.argv[1:]))
