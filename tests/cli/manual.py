#!/usr/bin/env python3
"""Writes the manual page and the completion of the program named on the command line, and compares them with the help
texts in tests/cli/help: that the page has every subcommand, argument and option, and every line of the help, that groff
takes it without a warning, where there is one, and that bash completes by it.
"""
import os
import re
import shutil
import subprocess
import sys
import tempfile

HERE = os.path.dirname(os.path.realpath(__file__))
NAMES = sorted(it[:-4] for it in os.listdir(f"{HERE}/help") if not it.endswith("-summary.txt"))
COMPLETE = """source "$1"; shift; COMP_WORDS=("$@"); COMP_CWORD=$(($# - 1)); _reset_service; printf '%s\\n' "${COMPREPLY[@]}" """


def words_of(text):
    return re.findall(r"[\w<>\[\]`'.,:;/-]+", text)


def run_page(folder):
    """Each help text has all its words on the page, in its order; the program's own has its lists in other places."""
    with open(f"{folder}/reset-service.1", encoding="utf-8") as file:
        source = file.read()
    shown = " ".join(words_of(re.sub(r"^\.\w+ ?", "", source.replace("\\&", "").replace("\\", ""), flags=re.M)))
    for name in NAMES:
        with open(f"{HERE}/help/{name}.txt", encoding="utf-8") as file:
            told = file.read()
        for block in told.split("\n\n"):
            wanted = " ".join(words_of(re.sub(r"^(Usage|Arguments|Options|Exit status): *\n?", "", block)))
            if name != "program":
                assert wanted in shown, (name, wanted)
    return len(NAMES) - 1


def run_groff(folder):
    if shutil.which("groff") is None:
        return 0
    ran = subprocess.run(["groff", "-man", "-Tutf8", "-ww", f"{folder}/reset-service.1"], capture_output=True, check=True)
    assert not ran.stderr, ran.stderr
    assert ran.stdout
    return 1


def completed(folder, *words):
    ran = subprocess.run(["bash", "-c", COMPLETE, "bash", f"{folder}/reset-service", "reset-service", *words],
                         capture_output=True, text=True, check=True, cwd=folder)
    assert not ran.stderr, ran.stderr
    return ran.stdout.split()


def run_completion(folder):
    names = {it for it in NAMES if it != "program"}
    assert set(completed(folder, "")) == {*names, "help", "--help", "--version"}
    assert set(completed(folder, "help", "")) == names
    for name in names:
        with open(f"{HERE}/help/{name}.txt", encoding="utf-8") as file:
            options = set(re.findall(r"^ {2,6}(?:-h, )?(--[\w-]+)", file.read(), re.M))
        assert set(completed(folder, name, "--")) == options, name
    for words, wanted in ((("replay", "topol"), ["topology.toml"]), (("plan", "--from", "topol"), ["topology.toml"]),
                          (("drive", "--seed", ""), []), (("explain", "topol"), []), (("nothing", ""), [])):
        assert completed(folder, *words) == wanted, words
    return len(names) + 7


def main(program):
    passed, failed = 0, 0
    with tempfile.TemporaryDirectory() as folder:
        subprocess.run([f"{HERE}/../../tools/manual", program, folder], check=True)
        open(f"{folder}/topology.toml", "w", encoding="ascii").close()
        for part in (run_page, run_groff, run_completion):
            try:
                passed += part(folder)
            except AssertionError as error:
                failed += 1
                print(f"manual: {error}")
    print(f"{passed} manual passed, {failed} failed")
    return failed > 0


if __name__ == "__main__":
    sys.exit(main(sys.argv[1]))
