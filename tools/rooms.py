"""Proofs of several crates side by side.

`rt check` locks a crate and all that it stands on, so that two crates over one library are proved one
after the other. Here each crate is proved in a room of its own: a copy of its files and of those of the
libraries below it, with what was built of these.
"""
import os
import re
import shutil
import subprocess
import threading
import time

PARTS = ("src", "specs", "proofs")
PROGRAM = "service_main"
BUILT = "build/reset-service"
# What the repository is proved with. `rt version` prints KIT, a letter for its issue, `logic` and LOGIC: two kits of one
# logic prove the same, so that the letter doesn't matter.
KIT = "rattle-kit-13"
LOGIC = "dac8208d650f15bf"


def crates():
    """The crates in the order of crates.txt, each with those of the repository that it stands on."""
    found = {}
    with open("crates.txt", encoding="utf-8") as file:
        for line in file:
            name, colon, below = line.partition("#")[0].partition(":")
            if colon:
                found[name.split()[0]] = below.split()
    return {name: [it for it in below if it in found] for name, below in found.items()}


def all_below(below, name):
    found = set(below[name])
    for it in below[name]:
        found |= all_below(below, it)
    return found


def sources(names):
    """When the sources of the crates named were last changed."""
    times = [os.stat("crates.txt").st_mtime]
    for name in names:
        for part in PARTS:
            for at, _, files in os.walk(f"crates/{name}/{part}"):
                times += [os.stat(at).st_mtime, *(os.stat(f"{at}/{it}").st_mtime for it in files)]
    return max(times)


def built(below, name):
    """Whether the library stands in its out/ as it was built from what its sources are now."""
    stamp = f"crates/{name}/out/rlib/stamp"
    return os.path.isfile(stamp) and os.stat(stamp).st_mtime > sources({name} | all_below(below, name))


def is_current():
    """Whether the program is built and no source of it is newer."""
    names = {PROGRAM} | all_below(crates(), PROGRAM)
    return os.path.isfile(BUILT) and os.stat(BUILT).st_mtime > sources(names)


def kit_fault():
    """What is wrong with the kit, with what to do, or None where it is the one that the repository is proved with."""
    try:
        said = subprocess.run(["rt", "version"], stdout=subprocess.PIPE, stderr=subprocess.DEVNULL, text=True).stdout.split()
    except FileNotFoundError:
        return f"`rt`, the command of the Rattle kit, isn't in the PATH: install {KIT} and add its folder bin to the PATH"
    if said[1:3] != ["logic", LOGIC]:
        printed = " ".join(said) or "nothing"
        return f"`rt version` prints {printed}, and the repository is proved with {KIT}, logic {LOGIC}: install that kit"
    return None


def processors():
    return len(os.sched_getaffinity(0))


class Proof:
    """A crate that is being proved in a room: how far its check is, and all that it said."""

    def __init__(self, base, below, name, jobs, tests):
        self.name, self.jobs, self.count, self.said, self.failed = name, jobs, "", [], False
        self.base, self.tests = base, tests
        self.folder = f"{base}/{name}/crates/{name}"
        needed = {name} | all_below(below, name)
        for it in needed:
            self.furnish(it)
        with open("crates.txt", encoding="utf-8") as all_of_them, open(f"{base}/{name}/crates.txt", "w", encoding="utf-8") as file:
            file.writelines(it for it in all_of_them if re.split(r"[ :]", it)[0] in needed)
        self.worker = threading.Thread(target=self.work)
        self.worker.start()

    def furnish(self, name):
        room = f"{self.base}/{self.name}"
        os.makedirs(f"{room}/crates/{name}", exist_ok=True)
        for part in PARTS:
            if os.path.isdir(f"crates/{name}/{part}"):
                shutil.copytree(f"crates/{name}/{part}", f"{room}/crates/{name}/{part}")
        if name != self.name:
            library = f"{self.base}/{name}/crates/{name}/out/rlib"
            if not os.path.isdir(library):
                library = f"crates/{name}/out/rlib"
            shutil.copytree(library, f"{room}/crates/{name}/out/rlib", copy_function=os.link)
        elif os.path.isdir(f"crates/{name}/out/incremental"):
            shutil.copytree(f"crates/{name}/out/incremental", f"{self.folder}/out/incremental")

    def work(self):
        words = [["rt", "check", "--jobs", str(self.jobs), *["--test"] * self.tests]]
        if os.path.isfile(f"{self.folder}/src/lib.rt"):
            words.append(["rt", "lib", "--jobs", "1"])
        self.failed = any(self.run(it) for it in words)

    def run(self, words):
        how = {"stdin": subprocess.DEVNULL, "stdout": subprocess.PIPE, "stderr": subprocess.STDOUT}
        with subprocess.Popen(words, cwd=self.folder, text=True, errors="replace", **how) as run:
            for line in run.stdout:
                self.said.append(line)
                at = re.match(r"checked \S+, (\d+ of \d+)", line)
                if at:
                    self.count = at[1]
        return run.returncode

    def modules(self):
        """What its check has kept: each checked module's name, and the seconds since the one before was written."""
        found = []
        for at, _, files in os.walk(f"{self.folder}/out/incremental"):
            found += [(os.stat(f"{at}/{it}").st_mtime, it) for it in files if it.endswith(".oantt")]
        found.sort()
        return [(file, now - before) for (before, _), (now, file) in zip(found, found[1:])]

    def has_ended(self):
        return not self.worker.is_alive()


def chains(below):
    """How much is to be proved from each crate on, up the longest way of crates that wait for one another."""
    found = {}
    for name in reversed(below):
        above = [found[it] for it in found if name in below[it]]
        found[name] = size(name) + max(above, default=0)
    return found


def size(name):
    return sum(os.path.getsize(f"{at}/{it}") for part in PARTS for at, _, files in os.walk(f"crates/{name}/{part}") for it in files)


def prove(base, names, done=(), jobs_at_most=4, tests=False, told=lambda running, done: None):
    """Proves the crates named, lowest first, each when those below it are, but for those that are done.
    Yields each as it ends. What has the longest way above it comes first, and may use all processors."""
    below = crates()
    chain, done = chains({it: below[it] for it in below if it in names}), set(done)
    left, running = sorted(set(names) - done, key=chain.get, reverse=True), []
    while left or running:
        longest = max((chain[it] for it in [*left, *(proof.name for proof in running)]), default=0)
        for name in [it for it in left if set(below[it]) <= done][:processors() - len(running)]:
            left.remove(name)
            jobs = min(jobs_at_most, processors()) if chain[name] == longest else 1
            running.append(Proof(base, below, name, jobs, tests))
        time.sleep(0.2)
        for proof in [it for it in running if it.has_ended()]:
            running.remove(proof)
            done.add(proof.name)
            yield proof
            if proof.failed:
                left = []
        told(running, done)
