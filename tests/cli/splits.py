#!/usr/bin/env python3
"""Runs the program named on the command line on random networks that fall apart and are joined again: what it answers
has to be what the second program of tests/hostile/fuzz.py (model.py) answers, and in undisturbed stretches what abstract machines
tell.

A run has some stretches. Before each one links and nodes go down and come up, and now and then registers are damaged;
then claims, follows, adoptions and mends repair what is enabled, in random order, until no row of the tree's table or of
the wave's fails. From there on each component of the network has an abstract machine, whose nodes restart all at once where a
session opens in it, and whose nodes take the actions of the nodes that have joined: after each step `newest` has to tell
its states. A `complete` has to find each node of its component in its session and none in the phase reset, and where the
session was opened in the stretch each other node there has joined once since. From an opening on the application's
invariant holds of the component, and no node of it that has joined has an alarm.

That the repairs come to an end isn't proved.
"""
import collections
import multiprocessing
import os
import random
import subprocess
import sys

sys.dont_write_bytecode = True
sys.path += [f"{sys.path[0]}/../oracle"]
import answers
import makers
import model

RUNS = 45  # of each application
STRETCHES, STEPS = 5, 40  # of a run, of a stretch
REPAIRS = 5000  # at most, before a stretch
MODULI = (2, 3, 8, None)
LONGEST = 60  # seconds

# What the stretches of all runs have to have at least so often: several components; components with a reset that was
# opened and completed in the stretch; the same in a network of several; two such components of one stretch; one whose
# nodes were apart in the stretch before; such a reset while some node was down; one of a node that was down in the
# stretch before; no node that is up; and registers that had to be repaired before it.
SHOWN = {"several": 300, "resets": 700, "resets apart": 400, "resets in several": 150, "joined again": 50,
         "resets beside": 200, "resets of comers": 50, "none up": 2, "repairs": 300}


# ---- what holds of the abstract states of a component from an opening on

def one_token(graph, bound, part, states):
    holders = sum(states[i][0] for i in part)
    flying = sum((i in states[j][1]) != (j in states[i][2]) for i in part for j in graph[i])
    return holders + flying == 1


def turns_held(graph, bound, part, states):
    def own(i, j):
        return (states[i][1] == states[j][1]) == (i < j)
    return all(own(i, j) for i in part if states[i][0] for j in graph[i])


def reached_in(graph, i, hops):
    """The nodes to which a walk of so many links leads."""
    edge = {i}
    for _ in range(hops):
        edge = {k for j in edge for k in graph[j]}
    return edge


def ways_lead(graph, bound, part, states):
    for i in part:
        for d, (h, n) in states[i].items():
            if h >= bound or d not in reached_in(graph, i, h):
                return False
            if h and not (n in graph[i] and d in states[n] and states[n][d][0] < h):
                return False
    return True


INVARIANTS = {"idle": lambda *_: True, "token": one_token, "mutex": turns_held, "routes": ways_lead}


# ---- the abstract machines of a stretch

class Machines:
    """From a network whose registers are sound on, beside it."""

    def __init__(self, name, network):
        self.network, self.invariant = network, INVARIANTS[name]
        self.part = {i: set(model.distances(network.graph, i)) for i in network.graph}
        self.states = {i: network.local[i] if network.joined(i) else network.start(i) for i in network.graph}
        self.joins = {}  # of each component that opened a session here, by its leader: how often each node joined since
        self.finished = set()  # the leaders that completed such a session

    def top(self, i):
        return max(self.part[i])

    def follow(self, words, acted, answer):
        """Goes along with a step that was done; `acted` is whether the node had joined before."""
        network, word, i = self.network, words[0], int(words[1])
        if word == "open":
            assert i == self.top(i), "a node opens that doesn't lead"
            self.states.update({j: network.start(j) for j in self.part[i]})
            self.joins[i] = collections.Counter()
        elif word == "join" and self.top(i) in self.joins:
            self.joins[self.top(i)][i] += 1
        elif word == "act" and acted:
            self.act(i, int(words[2]), int(words[3]) if len(words) > 3 else None)
        if answer.startswith("complete"):
            self.complete(i, answer)

    def act(self, i, case, near):
        app, graph = self.network.app, self.network.graph
        read = {"all": graph[i], "one": [near]}.get(app.cases[case - 1][1], [])
        seen = {j: self.states[j] for j in read}
        self.states[i] = app.next(case, i, self.network.bound, near, self.states[i], seen)
        assert self.states[i] is not None, "an abstract machine can't take the action"

    def complete(self, i, answer):
        assert i == self.top(i), "a node completes a reset that doesn't lead"
        for j in self.part[i]:
            phase, session = self.network.wave[j]
            assert phase != "reset" and answer == f"complete {session}", "the reset isn't complete"
            assert i not in self.joins or self.joins[i][j] == (i != j), "a node hasn't joined once"
        if i in self.joins:
            self.finished.add(i)

    def newest(self):
        """What `newest` has to tell."""
        network, told = self.network, []
        for i in network.graph:
            joined = network.joined(i)
            assert joined or self.states[i] == network.start(i), "a node that hasn't joined isn't as started"
            told.append(f"newest {i} {network.app.text(self.states[i]) if joined else 'unjoined'}")
        for i in self.joins:
            assert self.invariant(network.graph, network.bound, self.part[i], self.states), "the invariant doesn't hold"
            quiet = all(network.ask_alarm(j) == ["quiet"] for j in self.part[i] if network.joined(j))
            assert quiet, "a node that has joined has an alarm"
        return told


# ---- runs

class Run:
    """A random run: its lines, and the answers that are wanted."""

    def __init__(self, name, number):
        self.name, self.rng = name, random.Random(f"{name} {number}")
        self.maker, modulus = makers.Maker(self.rng), MODULI[number % len(MODULI)]
        nodes, links = self.maker.lists()
        last = f"modulus = {modulus}\n" if modulus else ""
        self.head = f'nodes = {nodes}\nlinks = {[list(it) for it in links]}\napp = "{name}"\n{last}'
        self.network = answers.booted(self.head.encode())
        self.lines, self.wanted, self.counts = [], [], collections.Counter()
        self.apart, self.down = [], set()  # of the stretch before: its components, and the nodes that were down
        for _ in range(STRETCHES):
            self.disturb()
            self.repair()
            self.stretch()

    def say(self, line, answer=None):
        """Adds a line, and its answer: the model's where none is given."""
        told = self.network.answer(line.split(" "))
        assert answer is None or told == answer, f"{line}: {told}, and the abstract machines tell {answer}"
        self.lines.append(line)
        self.wanted += told
        return told

    # -- what comes between two stretches

    def disturb(self):
        rng, network = self.rng, self.network
        for _ in range(rng.choice([0, 1, 1, 2, 3, 6])):
            links, ids = sorted(network.links()), network.ids
            if links and rng.random() < 0.5:
                self.say("fault down {} {}".format(*rng.sample(rng.choice(links), 2)))
            else:
                self.say("fault up {} {}".format(*rng.choices(ids, k=2)))
        if rng.random() < 0.4:
            self.say(f"fault off {rng.choice(network.ids)}")
        if rng.random() < 0.05:
            for i in rng.sample(network.ids, len(network.ids)):
                self.say(f"fault off {i}")
        for i in network.ids:
            if i not in network.graph and rng.random() < 0.4:
                self.say(f"fault on {i}")
                self.say(f"fault up {i} {rng.choice(network.ids)}")
        if rng.random() < 0.2:
            self.say(self.maker.fault(network))

    def whole(self):
        faults = [it for i in self.network.graph for it in self.network.faults(i)]
        return all(family == "app" for _, family, _ in faults)

    def repair(self):
        network, self.counts["repairs"] = self.network, self.counts["repairs"] + (not self.whole())
        for _ in range(REPAIRS):
            if self.whole():
                break
            lines = [line for i in network.graph for line in self.maker.enabled(network, i)]
            self.say(self.rng.choice([it for it in lines if it.split(" ")[0] in ("claim", "follow", "adopt", "mend")]))
            if self.rng.random() < 0.1:
                self.say("check")
        assert self.whole(), "the repairs don't come to an end"
        self.say("check")

    # -- a stretch

    def stretch(self):
        network, machines = self.network, Machines(self.name, self.network)
        self.say("newest", machines.newest())
        for _ in range(self.rng.choice([STEPS // 4, STEPS, 2 * STEPS])):
            line = self.maker.event(network) if self.rng.random() < 0.15 else self.maker.step(network)
            words = line.split(" ")
            acted = int(words[1]) in network.graph and network.joined(int(words[1]))
            answer, = self.say(line)
            if not answer.startswith("refused"):
                case = [str(network.case_number(words[2]))] if words[0] == "act" else words[2:3]
                machines.follow([*words[:2], *case, *words[3:]], acted, answer)
                assert words[0] not in ("claim", "follow", "adopt", "mend"), "a repair in a sound network"
            self.say("newest", machines.newest())
            if self.rng.random() < 0.1:
                self.say(self.rng.choice(["check", "ready", "show"]))
        assert self.whole(), "a sound network doesn't stay sound"
        self.count(machines)

    def count(self, machines):
        parts, finished = {frozenset(it) for it in machines.part.values()}, machines.finished
        self.counts["several"] += len(parts) > 1
        self.counts["resets"] += len(finished)
        self.counts["resets apart"] += len(finished) * (len(parts) > 1)
        self.counts["resets in several"] += len(finished) > 1
        one, down = [it for it in parts if max(it) in finished], set(self.network.ids) - set(self.network.graph)
        self.counts["joined again"] += any(len([old for old in self.apart if old & it]) > 1 for it in one)
        self.counts["resets beside"] += len(finished) * bool(down)
        self.counts["resets of comers"] += any(it & self.down for it in one)
        self.counts["none up"] += not parts
        self.apart, self.down = parts, down

    def text(self):
        return (self.head + "---\n" + "".join(f"{it}\n" for it in self.lines)).encode()


def judged(job):
    """What the run had, and what is wrong with the program's answers, if anything is."""
    path, name, number = job
    try:
        run = Run(name, number)
    except AssertionError as wrong:
        return {}, f"{name} {number}: {wrong}"
    ran = subprocess.run([path], input=run.text(), capture_output=True, timeout=LONGEST)
    told = ran.stdout.decode().splitlines()
    if (ran.returncode, ran.stderr, told) == (0, b"", run.wanted):
        return run.counts, None
    at = next((n for n, (a, b) in enumerate(zip(told, run.wanted)) if a != b), min(len(told), len(run.wanted)))
    return run.counts, (f"{name} {number}: status {ran.returncode}, answer {at + 1} is {told[at:at + 1]},"
                        f" wanted {run.wanted[at:at + 1]}")


def main():
    path, counts = os.path.realpath(sys.argv[1]), collections.Counter()
    jobs = [(path, name, number) for name in INVARIANTS for number in range(RUNS)]
    with multiprocessing.Pool() as pool:
        told = pool.map(judged, jobs, chunksize=1)
    wrong = [it for _, it in told if it]
    for some, _ in told:
        counts.update(some)
    for it in wrong[:20]:
        print(f"splits {it}")
    poor = [f"'{it}' {counts[it]} times" for it, often in SHOWN.items() if counts[it] < often]
    for it in poor:
        print(f"splits: too seldom: {it}")
    print("splits: " + ", ".join(f"{it} {counts[it]}" for it in SHOWN))
    print(f"{len(told) - len(wrong)} splits passed, {len(wrong) + len(poor)} failed")
    return bool(wrong or poor)


if __name__ == "__main__":
    sys.exit(main())
