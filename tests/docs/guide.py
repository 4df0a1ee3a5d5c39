#!/usr/bin/env python3
"""Types the commands of docs/guide.md, one after the other in an empty folder, with the program named on the command
line on the path as `reset-service`. What each prints, standard error included, has to be what stands below it. The
pictures and pages of the documents have to be those that are drawn: those of the guide by its commands, docs/wave.svg
and docs/wave.html of an example. With `--write` behind the program they are written into docs/ in place of that."""
import os
import re
import subprocess
import sys
import tempfile

MARK = "-- end of the command --"
HERE = f"{os.path.dirname(os.path.realpath(__file__))}/../.."
WAVE = [f"{HERE}/examples/history/verified-wave/topology.toml", f"{HERE}/examples/history/verified-wave/history"]
DRAWN = {"wave.svg": ["picture", *WAVE], "wave.html": ["page", *WAVE, "--title", "A reset of three nodes"]}


def commands(text):
    """Each command of the guide's consoles, with what stands below it."""
    found = []
    for block in re.findall(r"^```console\n(.*?)^```$", text, re.M | re.S):
        for line in block.splitlines(keepends=True):
            if line.startswith("$ "):
                found.append([line[2:], ""])
            elif line.startswith("> "):
                found[-1][0] += line[2:]
            else:
                found[-1][1] += line
    return found


def read(path):
    with open(path, "rb") as file:
        return file.read()


def answers(typed, shown, program):
    """What a shell prints that is given the commands in turn, each of which sees the status of the one before it, and
    the files with the names shown that the commands leave."""
    script = "".join(f"{it}status=$?; echo '{MARK}'; (exit $status)\n" for it in typed)
    with tempfile.TemporaryDirectory() as room:
        os.makedirs(f"{room}/bin")
        os.makedirs(f"{room}/empty")
        os.symlink(program, f"{room}/bin/reset-service")
        how = {"stdin": subprocess.DEVNULL, "stdout": subprocess.PIPE, "stderr": subprocess.STDOUT, "text": True}
        env = {**os.environ, "PATH": f"{room}/bin:{os.environ['PATH']}", "LC_ALL": "C"}
        ran = subprocess.run(["sh", "-c", script], cwd=f"{room}/empty", env=env, timeout=120, **how)
        left = [read(f"{room}/empty/{name}") for name in shown]
    return ran.stdout.split(f"{MARK}\n")[:-1], left


def answer_of(program, words):
    return subprocess.run([program, *words], stdout=subprocess.PIPE, timeout=120).stdout


def write(pictures):
    """Writes the pictures and pages into docs/."""
    for name, picture in pictures:
        with open(f"{HERE}/docs/{name}", "wb") as file:
            file.write(picture)
    return 0


def main():
    program = os.path.realpath(sys.argv[1])
    text = read(f"{HERE}/docs/guide.md").decode()
    wanted = commands(text)
    shown = sorted({*re.findall(r"\]\((\w+\.(?:svg|html))\)", text)} - {*DRAWN})
    printed, left = answers([typed for typed, _ in wanted], shown, program)
    pictures = [*zip(shown, left), *((name, answer_of(program, words)) for name, words in DRAWN.items())]
    if sys.argv[2:] == ["--write"]:
        return write(pictures)
    failed = abs(len(wanted) - len(printed))
    for (typed, below), answer in zip(wanted, printed):
        if answer != below:
            failed += 1
            print(f"guide: $ {typed}wanted:\n{below}printed:\n{answer}", end="")
    for name, picture in pictures:
        if picture != read(f"{HERE}/docs/{name}"):
            failed += 1
            print(f"guide: docs/{name} is another one than the program draws: run make docs")
    print(f"{len(wanted) + len(pictures) - failed} guide passed, {failed} failed")
    return 1 if failed or not wanted else 0


if __name__ == "__main__":
    sys.exit(main())
