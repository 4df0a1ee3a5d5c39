#!/usr/bin/env python3
"""Whether the recipes of CONTRIBUTING.md list what there is. Each has a command `tools/who-names WORD...` and, below it, a
list of crates and other places; what that command finds has to be what the list has, both ways. A place is listed with
folders and files of it, or alone, which stands for all of it. The places of the line `another meaning of the word` have
to be found too. The other files that the page names, and crates of tests, have to be there. The argument, the program,
isn't used."""
import importlib.machinery
import importlib.util
import os
import re
import shlex
import sys

sys.dont_write_bytecode = True
HERE = f"{os.path.dirname(os.path.realpath(__file__))}/../.."
TOOL = "tools/who-names"
OTHERS = "another meaning of the word"
PATH = re.compile(r"(?:src|specs|proofs)/")
ELSEWHERE = re.compile(r"(?:bench|clients|docs|examples|tests|tools)/[\w./-]+|\w+_tests")


def load_tool():
    """The tool as a module: its name has no `.py`."""
    loader = importlib.machinery.SourceFileLoader("who_names", f"{HERE}/{TOOL}")
    module = importlib.util.module_from_spec(importlib.util.spec_from_loader(loader.name, loader))
    loader.exec_module(module)
    return module


def quoted(text):
    """What stands between backticks, with a line's end in it as a space."""
    return [" ".join(it.split()) for it in re.findall(r"`([^`]*)`", text)]


def recipes(page):
    """The title and the text of each part of the page that has a command of the tool and a list."""
    parts = re.split(r"^#+ +", page, flags=re.M)[1:]
    split = [part.split("\n", 1) for part in parts]
    return [(title, text) for title, text in split if commands_of(text) and "\n- " in text]


def commands_of(text):
    return [shlex.split(it)[1:] for it in quoted(text) if it.startswith(f"{TOOL} ")]


def listed(text):
    """By place the folders and files of it that the list has; none where it has the place alone."""
    bullets = re.findall(r"^- (.*\n(?:  .*\n)*)", text, re.M)
    places = {}
    for bullet in bullets:
        before, after = bullet.split(":", 1)
        names = quoted(after) if before == OTHERS else quoted(before)
        paths = [] if before == OTHERS else [it for it in quoted(after) if PATH.match(it)]
        for name in names:
            places.setdefault(name, []).extend(paths)
    return places


def absent(page):
    """The files elsewhere, and the crates of tests, that the page names and that aren't there."""
    named = sorted({it for it in quoted(page) if ELSEWHERE.fullmatch(it)})
    return [it for it in named if not os.path.exists(f"{HERE}/{it}" if "/" in it else f"{HERE}/crates/{it}")]


def shown(place, path, crates):
    return "/".join(it for it in ("crates" if place in crates else "", place, path) if it)


def lies_in(file, path):
    return path == file or path.endswith("/") and file.startswith(path)


def differences(places, found, crates):
    """What a list has too little, and what it has too much."""
    little = []
    for place, files in found.items():
        if place not in places:
            names = [it for it in files if it]
            little.append(shown(place, "", crates) + (f" ({', '.join(names)})" if names else ""))
        elif places[place]:
            missed = [it for it in files if not any(lies_in(it, path) for path in places[place])]
            little += [shown(place, it, crates) for it in missed]
    much = []
    for place, paths in places.items():
        files = found.get(place, [])
        if not files:
            much.append(shown(place, "", crates))
        else:
            idle = [path for path in paths if not any(lies_in(it, path) for it in files)]
            much += [shown(place, it, crates) for it in idle]
    return little, much


def main():
    tool = load_tool()
    with open(f"{HERE}/CONTRIBUTING.md", encoding="utf-8") as file:
        page = file.read()
    parts = recipes(page)
    lacking = [f"{it}, which the page names, isn't there" for it in absent(page)]
    if not parts:
        lacking.append(f"no part has a command `{TOOL}` and a list")
    for it in lacking:
        print(f"recipes: CONTRIBUTING.md: {it}")
    passed, failed = 0 if lacking else 1, 1 if lacking else 0
    for title, text in parts:
        words = commands_of(text)[0]
        little, much = differences(listed(text), tool.found(words), tool.product_crates())
        for it in little:
            print(f"recipes: {title}: {it} names {' or '.join(words)}, and the list doesn't have it")
        for it in much:
            print(f"recipes: {title}: the list has {it}, which doesn't name {' or '.join(words)}")
        if little or much:
            failed += 1
        else:
            passed += 1
    print(f"{passed} recipes passed, {failed} failed")
    return 1 if failed else 0


if __name__ == "__main__":
    sys.exit(main())
