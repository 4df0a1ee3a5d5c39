#!/usr/bin/env python3
"""Whether a first look works: `make run` and `make try` in a copy of the tree, before anything is proved, and with the
program that is given in its place.

    first-run PROGRAM

One run is by the real `rt try`, which takes a minute; the others have an `rt` that does what the test wants. The last line is
`N first-run passed, M failed`.
"""
import os
import shutil
import subprocess
import sys
import tempfile

SAYS = "this is the program before its proof"
WAVE = open("examples/first/one-wave/stdout", encoding="utf-8").read()
# An `rt` that says which kit it is, and else what it was called with and how the program ended.
FAKE_RT = """#!/bin/sh
if [ "$1" = version ]; then echo '{kit}'; exit 0; fi
echo "$@"
{last}
"""


def copy_of_tree(folder):
    listed = subprocess.run(["git", "ls-files", "-co", "--exclude-standard"], stdout=subprocess.PIPE, text=True, check=True)
    for file in filter(os.path.isfile, listed.stdout.splitlines()):
        os.makedirs(os.path.dirname(f"{folder}/{file}"), exist_ok=True)
        shutil.copy2(file, f"{folder}/{file}")


def path_with(folder, kit="rattle-kit-13a logic dac8208d650f15bf", last="echo 'run=ended status=0' >&2"):
    """A PATH on which `rt` is a fake one, or none at all where there is no kit."""
    os.makedirs(folder)
    for name in ("make", "python3", "sh", "env", "install"):
        os.symlink(shutil.which(name), f"{folder}/{name}")
    if kit:
        with open(f"{folder}/rt", "w", encoding="utf-8") as file:
            file.write(FAKE_RT.format(kit=kit, last=last))
        os.chmod(f"{folder}/rt", 0o755)
    return folder


def run(tree, *words, path=None):
    env = {**os.environ, "PATH": path or os.environ["PATH"], "MAKEFLAGS": ""}
    return subprocess.run(["make", "-s", *words], cwd=tree, env=env, stdin=subprocess.DEVNULL, stdout=subprocess.PIPE,
                          stderr=subprocess.PIPE, text=True)


def lines_with(text, words):
    return sum(words in line for line in text.splitlines())


def checks(program, base):
    tree = f"{base}/tree"
    copy_of_tree(tree)

    first = run(tree, "run")
    yield "a first run prints the wave", first.stdout == WAVE and first.returncode == 0
    yield "and says once that nothing is proved yet", lines_with(first.stderr, SAYS) == 1
    yield "and names the command that proves it", "`make build`" in first.stderr

    named = run(tree, "try", "ARGS=check examples/first/one-wave/topology.toml /etc/hostname", path=path_with(f"{base}/named"))
    yield "files go by their names", f"examples/first/one-wave/topology.toml={tree}/examples/first/one-wave/topology.toml" in named.stdout
    yield "and those elsewhere by their last part", "check examples/first/one-wave/topology.toml hostname" in named.stdout

    ended = run(tree, "run", path=path_with(f"{base}/ended", last="echo 'run=ended status=1' >&2"))
    yield "the program's exit status is passed on", ended.returncode != 0 and "Error 1" in ended.stderr

    lost = run(tree, "try", "ARGS=record examples/first/one-wave/topology.toml examples/first/one-wave/script --history day",
               path=path_with(f"{base}/lost"))
    yield "a history that would be lost is named", lines_with(lost.stderr, "day won't be kept") == 1

    without = run(tree, "run", path=path_with(f"{base}/without", kit=None))
    yield "without rt one line says so", without.returncode != 0 and lines_with(without.stderr, "run: `rt`") == 1
    build = run(tree, "build", path=f"{base}/without")
    yield "to a build too", build.returncode != 0 and lines_with(build.stderr, "build: `rt`") == 1
    other = run(tree, "run", path=path_with(f"{base}/other", kit="rattle-kit-0 logic 0", last="exit 1"))
    yield "another kit that fails is named", lines_with(other.stderr, "rattle-kit-0 logic 0, and the repository") == 1

    os.makedirs(f"{tree}/build", exist_ok=True)
    shutil.copy(program, f"{tree}/build/reset-service")
    proved = run(tree, "run", path=f"{base}/ended")
    yield "the proved program is taken where it is there", proved.stdout == WAVE and proved.stderr == ""
    os.utime(f"{tree}/crates/service_main/src/main.rt")
    older = run(tree, "run", path=f"{base}/named")
    yield "but not where a source is newer", lines_with(older.stderr, SAYS) == 1


def main():
    program = os.path.abspath(sys.argv[1])
    passed = failed = 0
    with tempfile.TemporaryDirectory(prefix="first-run-") as base:
        for name, holds in checks(program, base):
            passed, failed = passed + bool(holds), failed + (not holds)
            if not holds:
                print(f"first-run: {name}: no")
    print(f"{passed} first-run passed, {failed} failed")
    return failed > 0


if __name__ == "__main__":
    os.chdir(f"{os.path.dirname(os.path.realpath(__file__))}/../..")
    sys.exit(main())
