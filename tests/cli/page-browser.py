#!/usr/bin/env python3
"""Opens pages of the program named on the command line in Chromium, without a window, and goes through their histories
by the keys that the page's help lists: at each of many moments the table of registers has to say what `replay` shows
and checks after as many entries. Each key has to lead where it should, by the history, by `check` and by `verify`;
a page has to fit windows of several sizes. Nothing may be told on the browser's console, and the page may ask for
nothing but itself.

Where there is no Chromium (the Debian package `chromium`), this says so and passes. It is looked for on the path, or
named by the variable CHROMIUM.
"""
import functools
import json
import os
import random
import re
import subprocess
import sys
import tempfile

sys.dont_write_bytecode = True
sys.path += [f"{sys.path[0]}/../oracle", f"{sys.path[0]}/../shared"]
import answers
import example_folders
import model
from browser import Browsers, find_chromium

MOMENTS = 40  # of each page
RUNS = 10  # random histories
CROWN = "\u265b "
ROWS = "[...document.querySelectorAll('tbody tr')].map((row) => [...row.children].map((it) => it.textContent))"
PLACE = "document.getElementById('place').textContent"
TOLD = "document.getElementById('tell').textContent"
# Presses keys within the page, and after each list of them says where it is, what is told, what the table has, and how
# much moves.
WALK = f"""((lists) => lists.map((keys) => {{
  for (const key of keys) document.body.dispatchEvent(new KeyboardEvent('keydown', {{ key, bubbles: true }}));
  return [{PLACE}, {TOLD}, {ROWS}, document.getAnimations().length];
}}))"""
PLAYED = f"""new Promise((done) => {{
  const look = () => document.getElementById('play').textContent === 'Play' ? done({PLACE}) : setTimeout(look, 20);
  look();
}})"""
# The page's address once it is that of entry 1, which it becomes when the page is still for a moment; or what it is when
# that hasn't come within ten seconds, since a busy machine may be late.
ADDRESSED = """new Promise((done) => {
  const end = performance.now() + 10000;
  const look = () => location.hash === '#entry=1' || performance.now() > end ? done(location.hash) : setTimeout(look, 20);
  look();
})"""
# Sends a key to a button of the help that was closed. A browser takes the focus away from what is
# closed only when it draws next, so that on a busy machine keys still come there.
LATE_KEY = """document.querySelector('#help button').dispatchEvent(
  new KeyboardEvent('keydown', { key: 'End', bubbles: true }))"""
# By how much the page is wider than the window, and the buttons that are outside of it.
OUTSIDE = """[document.documentElement.scrollWidth - innerWidth,
  ...[...document.querySelectorAll('#bar button, header *')].filter((e) => {
    const { left, right } = e.getBoundingClientRect();
    return left < 0 || right > innerWidth;
  }).map((e) => e.outerHTML)]"""
SIZES = [(1920, 1080), (1366, 768), (1024, 600), (844, 390), (390, 844), (320, 568)]
FOUL = '<img src=x onerror="window.hacked=1"><script>window.hacked=1</' + "script>"
EXAMPLES = ["one-wave", "mended-history", "node-off-and-on", "split-and-joined", "token-passed", "two-sessions"]


# ---- what the page says, as the program's lines

def shown(rows):
    """The lines of `show` that the rows of the table come to; that of a node that is down is none."""
    return ["node {} tree {} {} {} wave {} {} local {}".format(row[0].replace(CROWN, ""), *row[1:7])
            for row in rows if row[4] != "down"]


def failing(rows):
    """The lines of `check` that the last column comes to."""
    told = []
    for row in rows:
        node = row[0].replace(CROWN, "")
        for item in filter(None, row[7].split(", ")):
            family, number, *at = item.split(" ")
            told.append(f"link {node} {at[1] if at else node} {family} {number}")
    return told


class Program:
    def __init__(self, path, room):
        self.path, self.room = path, room

    def run(self, *words):
        return subprocess.run([self.path, *words], capture_output=True).stdout

    def put(self, name, text):
        path = os.path.join(self.room, name)
        with open(path, "wb") as file:
            file.write(text)
        return path

    def replayed(self, topology, lines, snapshot, moments):
        """What is shown and checked after these numbers of entries."""
        asked = ["show", "check"]
        script = [it for k in range(len(lines) + 1) for it in [*lines[k - 1:k], *(asked if k in moments else [])]]
        from_words = ["--from", snapshot] if snapshot else []
        path = self.put("script", "".join(f"{it}\n" for it in script).encode())
        told, part = [], [[], []]
        for line in self.run("replay", topology, path, *from_words).decode().splitlines():
            if line.startswith("node "):
                part[0].append(line)
            elif line.startswith("link "):
                part[1].append(line)
            elif line.startswith("faults "):
                told.append(part)
                part = [[], []]
        assert len(told) == len(moments), "replay tells less than was asked"
        return dict(zip(sorted(moments), told))


class Page:
    """A page of a history, open in the browser."""

    def __init__(self, browser, program, topology, history, snapshot=None):
        from_words = ["--from", snapshot] if snapshot else []
        self.browser, self.texts = browser, (topology, history, *from_words)
        self.path = program.put("page.html", program.run("page", *self.texts))
        with open(history, encoding="ascii") as file:
            self.lines = file.read().splitlines()[1:]
        self.count = len(self.lines)
        self.verified = program.run("verify", *self.texts).decode()
        self.replayed = lambda moments: program.replayed(topology, self.lines, snapshot, moments)

    def open(self, part="", rows=10):
        self.browser.size(1400, 1000 + 48 * rows)
        self.browser.open(self.path, part)

    def compare(self, told, moment, rows):
        assert shown(rows) == told[moment][0], (moment, shown(rows), told[moment][0])
        assert failing(rows) == told[moment][1], (moment, failing(rows), told[moment][1])

    def check_place(self, place, moment):
        assert place == f"Entry {moment} of {self.count}", (place, moment)

    def walk(self, lists):
        return self.browser.run(f"{WALK}({json.dumps(lists)})")

    def check_quiet(self):
        self.browser.run("1")
        assert not self.browser.complaints(), self.browser.complaints()
        assert self.browser.asked() == {f"file://{self.path}"}, self.browser.asked()


# ---- registers and what fails, at many moments

def moments_of(rng, count):
    """Moments, forward, backward and mixed."""
    order = sorted({0, count, *(rng.randint(0, count) for _ in range(MOMENTS))})
    return [*order, *order[::-1], *rng.sample(order, len(order))]


def keys_between(here, there):
    """The keys that lead from one moment to another."""
    tens, ones = divmod(abs(there - here), 10)
    return ["PageDown" if there > here else "PageUp"] * tens + ["ArrowRight" if there > here else "ArrowLeft"] * ones


def walk(page, rng):
    """By keys that are pressed within the page, many at once."""
    order = moments_of(rng, page.count)
    told = page.replayed(set(order))
    page.open(rows=max(len(it[0]) for it in told.values()))
    lists = [keys_between(here, there) for here, there in zip([0, *order], order)]
    for moment, (place, _, rows, _) in zip(order, page.walk(lists)):
        page.check_place(place, moment)
        page.compare(told, moment, rows)
    page.check_quiet()
    return len(set(order))


def walk_by_hand(page, rng):
    """By keys of the keyboard: arrows, and numbers in the field of the entry. Then by addresses."""
    order = moments_of(rng, page.count)
    told = page.replayed(set(order))
    page.open()
    here = 0
    for moment in order:
        page.browser.press(*(keys_between(here, moment) if abs(moment - here) < 4 else ["g", *str(moment), "Enter"]))
        place, rows = page.browser.run(f"[{PLACE}, {ROWS}]")
        page.check_place(place, moment)
        page.compare(told, moment, rows)
        here = moment
    page.check_quiet()
    for moment in sorted(set(order))[::7]:
        page.open(f"#entry={moment}")
        page.check_place(page.browser.text("place"), moment)
        page.compare(told, moment, page.browser.run(ROWS))
        page.check_quiet()
    return len(set(order))


def run_examples(browser, program):
    told = 0
    for name in EXAMPLES:
        topology, history = (f"{example_folders.named(name)}/{it}" for it in ("topology.toml", "history"))
        if not os.path.isfile(history):
            history = os.path.join(program.room, "history")
            program.run("record", topology, f"{example_folders.named(name)}/script", "--history", history)
        told += walk_by_hand(Page(browser, program, topology, history), random.Random(name))
    return told


# ---- random histories

def random_lines(rng, network, count, app):
    """Entries that the network takes, which it does here."""
    locals_of = {"idle": ["-"], "token": ["hold/-/-", "free/-/-"], "mutex": ["in/0", "in/1"], "routes": ["-", "1:0:1"]}
    lines = []
    for _ in range(count):
        a, b = rng.choice(network.ids), rng.choice(network.ids)
        faults = [f"tree {a} {b} {b} {rng.randint(0, 9)}", f"wave {a} reset {rng.randint(0, 9)}", f"down {a} {b}",
                  f"local {a} {rng.choice(locals_of[app])}", f"up {a} {b}", f"off {a}", f"on {a}", f"on {a}"]
        moves = network.moves(rng.choice(list(network.graph))) if network.graph else []
        line = rng.choice(moves) if moves and rng.random() < 0.93 else f"fault {rng.choice(faults)}"
        if not network.answer(line.split(" "))[0].startswith("refused"):
            lines.append(line)
    return lines


def random_page(browser, program, seed):
    rng = random.Random(seed)
    ids = sorted(rng.sample(range(1, rng.choice([12, 65536])), rng.choice([1, 3, 6, 10])))
    links = sorted({(a, b) for a in ids for b in ids if a < b and rng.random() < 0.4})
    app, modulus = rng.choice(["idle", "token", "mutex", "routes"]), rng.choice([2, 8, model.SESSIONS])
    text = f'nodes = {ids}\nlinks = {[list(it) for it in links]}\napp = "{app}"\nmodulus = {modulus}\n'.encode()
    topology, network, snapshot = program.put("topology.toml", text), answers.booted(text), None
    if seed % 3 == 0:
        random_lines(rng, network, 30, app)
        snapshot = program.put("snapshot", "".join(f"{it}\n" for it in network.ask_snapshot()).encode())
    lines = [f"reset-history 3 {modulus}", *random_lines(rng, network, 300, app)]
    history = program.put("history", "".join(f"{it}\n" for it in lines).encode())
    return Page(browser, program, topology, history, snapshot)


def run_random(browser, program, seed):
    page = random_page(browser, program, seed)
    return walk(page, random.Random(seed)) + run_jumps(page)


# ---- the controls

def places_of(page):
    """Where the keys for faults, openings, completions and changes of what fails lead, and the completions."""
    told = page.replayed(set(range(page.count + 1)))
    fails = [bool(told[k][1]) for k in range(page.count + 1)]
    kinds = [line.split(" ")[0] for line in page.lines]
    resets = re.findall(r"report (\d+) opened (\S+) finished (\d+)", page.verified)
    return {"f": [k for k, it in enumerate(kinds, 1) if it == "fault"],
            "o": [k for k, it in enumerate(kinds, 1) if it == "open"],
            "c": [int(finished) for _, _, finished in resets],
            "x": [0] * fails[0] + [k for k in range(1, page.count + 1) if fails[k] != fails[k - 1]]}, resets


def run_jumps(page):
    """Goes to all places of each kind, forward and back, on the page as it is; completions say of which reset."""
    kinds, resets = places_of(page)
    for key, places in kinds.items():
        forward = page.walk([["Home"], *[[key]] * (len(places) + 1)])[1:]
        backward = page.walk([["End"], *[[key.upper()]] * (len(places) + 1)])[1:]
        ahead, behind = [it for it in places if it > 0], [it for it in places[::-1] if it < page.count]
        for found, wanted, start in ((forward, ahead, 0), (backward, behind, page.count)):
            found = [int(place.split(" ")[1]) for place, *_ in found]
            still = [wanted[-1] if wanted else start] * (len(found) - len(wanted))  # where there is none, it stays
            assert found == wanted + still, (key, found, wanted)
        for (_, told, *_), (session, opened, _) in zip(forward, resets if key == "c" else []):
            found = re.search(r"Reset (\d+) is complete(?:, opened at entry (\d+))?;", told)
            assert found and (found[1], found[2] or "-") == (session, opened), (told, session, opened)
    page.check_quiet()
    return 1


def run_controls(browser, program):
    """The other keys, typed: play and pause, speed, filter, a chosen node, help, and the address."""
    page = random_page(browser, program, 5)
    node = page.lines[-1].split(" ")[2 if page.lines[-1].startswith("fault") else 1]
    page.open()
    browser.press("-", "-", "-", "-", "-", "-", "Home", " ")
    assert browser.text("play") == "Pause"
    browser.press(" ")
    assert browser.text("play") == "Play"
    browser.press("+", "+", "+", "+", "+", "+", "Home", " ")
    page.check_place(browser.run(PLAYED), page.count)
    browser.press("/", *node, "Escape", "Home", "m")
    rows = browser.run(ROWS)
    assert [row[0].replace(CROWN, "") for row in rows] == [node], rows
    mine = [k for k, line in enumerate(page.lines, 1) if node in involved(line)]
    page.check_place(browser.text("place"), mine[0])
    listed = browser.run("[...document.querySelectorAll('#list a b')].map((e) => +e.textContent)")
    assert listed and listed == mine[:len(listed)], (listed, mine)
    page.check_quiet()
    page.open(f"#entry=17&node={node}")
    page.check_place(browser.text("place"), 17)
    assert browser.text("whole").startswith(f"node {node} "), browser.text("whole")
    browser.press("Home", "m")
    page.check_place(browser.text("place"), mine[0])
    browser.press("Escape", "?")
    assert browser.run("document.getElementById('whole').hidden && document.getElementById('help').open")
    browser.press("Escape")
    assert browser.run("document.getElementById('help').open") is False
    page.check_place(browser.run(f"[{LATE_KEY}, {PLACE}][1]"), page.count)
    browser.press("Home", "ArrowRight")
    page.check_place(browser.text("place"), 1)
    address = browser.run(ADDRESSED)
    assert address == "#entry=1", address
    page.check_quiet()
    return 1


def involved(line):
    """The nodes of an entry: its own, and of a link both."""
    words = line.split(" ")
    if words[0] != "fault":
        return words[1:2]
    return words[2:4] if words[1] in ("down", "up") else words[2:3]


def run_sizes(browser, program):
    """A page fits windows of all sizes, also when they change; what moves doesn't where that is asked for."""
    page = random_page(browser, program, 4)
    page.open()
    for width, height in SIZES:
        for scheme in ("light", "dark"):
            browser.size(width, height, prefers_color_scheme=scheme)
            browser.run("new Promise((done) => requestAnimationFrame(() => setTimeout(done)))")
            found = browser.run(OUTSIDE)
            assert found[0] <= 0 and not found[1:], (width, height, found)
    carried = next(k for k, line in enumerate(page.lines, 1) if line.startswith("join "))
    for motion, moving in (("no-preference", 1), ("reduce", 0)):
        browser.size(1400, 1000, prefers_reduced_motion=motion)
        browser.run("Promise.all(document.getAnimations().map((it) => it.finished))")
        found = page.walk([["Home", *keys_between(0, carried - 1), "ArrowRight"]])
        assert found[0][3] == moving, (motion, found)
    page.check_quiet()
    return len(SIZES) + 2


def run_title(browser, program):
    """A title of any signs is shown as it is, and foul data runs nothing."""
    topology = "examples/first/one-wave/topology.toml"
    history = os.path.join(program.room, "history")
    program.run("record", topology, "examples/first/one-wave/script", "--history", history)
    browser.size(1400, 900)
    for title in ("A bad day", f"</script>{FOUL} 100 % \u00e9\u4e16; & \"it's\""):
        page = program.put("page.html", program.run("page", topology, history, "--title", title))
        browser.open(page)
        assert browser.text("title") == title and browser.run("document.title") == title, browser.text("title")
        assert browser.run("window.hacked") is None
        assert not browser.complaints() and browser.asked() == {f"file://{page}"}
    text = program.run("page", topology, history).decode()
    for foul in (text.replace("\nend ", f"\n</script>{FOUL}\nend ", 1), text.replace("\nopen ", f"\n{FOUL} ", 1)):
        assert foul != text
        browser.open(program.put("page.html", foul.encode()))
        assert browser.run("window.hacked") is None
    return 4


def main():
    os.chdir(f"{os.path.dirname(os.path.realpath(__file__))}/../..")
    found = find_chromium()
    if found is None:
        print("page-browser: skipped, as there is no Chromium (the Debian package `chromium`)")
        print("0 page-browser passed, 0 failed")
        return 0
    passed, failed = 0, 0
    with tempfile.TemporaryDirectory() as room, Browsers(found) as browsers:
        program = Program(os.path.abspath(sys.argv[1]), room)
        parts = [run_title, run_examples, run_controls, run_sizes,
                 *(functools.partial(run_random, seed=seed) for seed in range(RUNS))]
        for at, part in enumerate(parts):
            try:
                passed += browsers.run(part, program)
            except (AssertionError, TimeoutError) as error:
                failed += 1
                print(f"part {at}: {error}")
    print(f"{passed} page-browser passed, {failed} failed")
    return failed > 0


if __name__ == "__main__":
    sys.exit(main())
