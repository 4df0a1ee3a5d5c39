"""What the program answers to its texts, told apart from it: topologies, scripts, histories and joined texts, from
docs/formats.md alone. Each answer is the bytes of standard output and the status.

TOML is read by Python's `tomllib`, of version 1.0, with the differences that docs/formats.md names. What only 1.1 has
is told apart where that is easy (`\\e` and `\\xHH`); where it isn't, and where `tomllib` refuses what it needn't,
`Unsure` is raised, and the text is nobody's test.
"""
import datetime
import functools
import os
import re
import tomllib

from applications import APPLICATIONS, MOST, MOST_ID, number
from model import MOST_LINKS, PHASES, SESSIONS, Network, graph_of

LIMIT = 1_048_576
MOST_NODES = 1024
LONGEST = 256
MOST_ENTRIES = 1_000_000
DEEPEST = 80
KEYS = ("nodes", "links", "app")
MODULUS = "modulus"  # the key that may be left out
FORMATS = os.path.join(os.path.dirname(os.path.abspath(__file__)), "../../docs/formats.md")
EVENT_ROWS = {  # the table of each event, and the first and the last of its rows
    "claim": ("tree", 1, 4), "follow": ("tree", 5, 6), "adopt": ("tree", 7, 8), "request": ("wave", 1, 1),
    "relay": ("wave", 2, 2), "open": ("wave", 3, 3), "join": ("wave", 4, 5), "finish": ("wave", 6, 7),
    "mend": ("wave", 8, 11),
}


class Unsure(Exception):
    """A text of which this reader doesn't know what TOML 1.1 says."""


class Fault(Exception):
    """What is wrong with a text."""


# ---- topologies

def with_old_escapes(text):
    """The text with what TOML 1.1 has beside 1.0 in strings spelled as 1.0 has it."""
    def spelled(found):
        word = found[1]
        return {"e": r"\u001b"}.get(word, rf"\u00{word[1:]}" if word[0] == "x" else found[0])
    return re.sub(r"\\(x[0-9A-Fa-f]{2}|e|.)", spelled, text, flags=re.DOTALL)


def is_unsure(text):
    """Whether `tomllib` may refuse a text that is a TOML document: an inline table over several lines or with a comma
    at its end, a time without seconds or with a leap second, the year 0."""
    return "{" in text or re.search(r"\d\d:\d\d", text) or re.search(r"\b0000-", text)


def parts_of(value):
    return list(value.values()) if isinstance(value, dict) else value if isinstance(value, list) else []


def numbers_in(value):
    return [value] if isinstance(value, int) else [it for part in parts_of(value) for it in numbers_in(part)]


def depth(value):
    """How deep a value is nested, or DEEPEST + 1 where it is deeper than that."""
    edge, deep = [value], 0
    while edge and deep <= DEEPEST:
        edge = [part for it in edge for part in parts_of(it)]
        deep += bool(edge)
    return deep


def finite(word):
    """The float of a spelling, which isn't one where its number is too great for 64 bits."""
    number = float(word)
    if abs(number) == float("inf") and "inf" not in word:
        raise ValueError
    return number


def document(text):
    """The top level of a TOML document."""
    try:
        read = text.removeprefix(b"\xef\xbb\xbf").decode()
    except UnicodeDecodeError:
        raise Fault("NotToml") from None
    try:
        table = tomllib.loads(with_old_escapes(read), parse_float=finite)
    except (ValueError, RecursionError):
        if is_unsure(read):
            raise Unsure from None
        raise Fault("NotToml") from None
    if not all(-(1 << 63) <= it < 1 << 63 for it in numbers_in(table)):
        raise Fault("NotToml")
    if depth(table) > DEEPEST // 2:
        raise Unsure
    return table


def is_small(value):
    return type(value) is int and 0 <= value <= MOST


def is_modulus(value):
    return type(value) is int and 2 <= value <= SESSIONS


def is_link(value):
    return isinstance(value, list) and len(value) == 2 and all(map(is_small, value))


def values_of(table):
    """The four values, of their kinds."""
    if not all(key in table for key in KEYS):
        raise Fault("MissingKey")
    if not all(key in (*KEYS, MODULUS) for key in table):
        raise Fault("UnknownKey")
    nodes, links, app = (table[key] for key in KEYS)
    modulus = table.get(MODULUS, SESSIONS)
    kinds = [
        isinstance(nodes, list) and all(map(is_small, nodes)),
        isinstance(links, list) and all(map(is_link, links)),
        isinstance(app, str),
        is_modulus(modulus),
    ]
    if not all(kinds):
        raise Fault("WrongKind")
    if app not in APPLICATIONS:
        raise Fault("UnknownApp")
    return nodes, links, app, modulus


def twice(items):
    """The first of the items that came before."""
    seen = set()
    return next((it for it in items if it in seen or seen.add(it)), None)


def faults_of(nodes, links):
    """What the lists of a topology may have wrong, in order: each with the first item that has it, or None."""
    yield "NoNodes", None if nodes else ()
    yield "TooManyNodes", () if len(nodes) > MOST_NODES else None
    yield "BadId", next(((i,) for i in nodes if not 1 <= i <= MOST_ID), None)
    again = twice(nodes)
    yield "TwiceNode", None if again is None else (again,)
    yield "TooManyLinks", () if len(links) > MOST_LINKS else None
    there = set(nodes)
    yield "StrangeNode", next(((i,) for link in links for i in link if i not in there), None)
    yield "SelfLink", next(((i,) for i, j in links if i == j), None)
    yield "TwiceLink", twice([tuple(sorted(link)) for link in links])


def booted(text):
    """The network that a topology text describes."""
    if len(text) > LIMIT:
        raise Fault("TextTooLong")
    nodes, links, app, modulus = values_of(document(text))
    for name, item in faults_of(nodes, links):
        if item is not None:
            raise Fault(" ".join(map(str, (name, *item))))
    return Network(graph_of(nodes, links), app, modulus)


# ---- lines

SHAPES = """
claim N
follow N
adopt N N
request N
relay N N
open N
join N
finish N
mend N
act N CASE
act N CASE N
fault tree N N N N
fault wave N PHASE N
fault local N TEXT
fault down N N
fault up N N
fault off N
fault on N
draw N
show
show N
newest
enabled N
ready
check
check N
alarm N
watch N
moves
moves N
invariant
snapshot
"""
KINDS = {
    "N": lambda word: number(word) is not None,
    "PHASE": lambda word: word in PHASES,
    "TEXT": lambda word: word != "",
    "CASE": lambda word: number(word, 255) is not None or re.match("[A-Za-z]", word) is not None,
}
BY_WORD = {}
for shape in SHAPES.split("\n")[1:-1]:
    BY_WORD.setdefault(shape.split(" ")[0], []).append(shape.split(" "))
ENTRIES = {"claim", "follow", "adopt", "request", "relay", "open", "join", "finish", "mend", "act", "fault"}
OF_VERSION_3 = (["fault", "off"], ["fault", "on"])  # how the entries begin that earlier versions don't have
WRITTEN = 3  # the version of a history that is written


def has_shape(words, shape):
    pairs = zip(words, shape)
    return len(words) == len(shape) and all(KINDS[it](word) if it in KINDS else word == it for word, it in pairs)


def words_of_line(line):
    """The words of a line that is a command, or None."""
    if len(line) > LONGEST or not all(32 <= it <= 126 for it in line):
        return None
    words = line.decode().split(" ")
    return words if any(has_shape(words, shape) for shape in BY_WORD.get(words[0], [])) else None


def entry_of_line(line, version=WRITTEN):
    """The same of a line that is an entry of a history of a version."""
    words = words_of_line(line)
    if words is None or words[0] not in ENTRIES or words[0] == "act" and number(words[2]) is None:
        return None
    return None if version < 3 and words[:2] in OF_VERSION_3 else words


# ---- scripts

def answers_to(network, script):
    """Of each line of a script that has an answer, up to the first bad one, its number and the lines of the answer."""
    lines = script.split(b"\n")
    for n, line in enumerate(lines[:-1] if lines[-1] == b"" else lines, 1):
        if line == b"" or line[0] == ord("#") and len(line) <= LONGEST:
            continue
        words = words_of_line(line)
        if words is None:
            yield n, [f"bad line {n}"]
            return
        yield n, network.answer(words)


def is_bad_line(answer):
    return answer[-1:] != [] and answer[-1].startswith("bad line ")


def run_script(network, script):
    """What a script writes, a list of lines, and whether its last one is a bad line."""
    told = [line for _, answer in answers_to(network, script) for line in answer]
    return told, is_bad_line(told)


def output(lines, status):
    return "".join(f"{it}\n" for it in lines).encode(), status


def replay(topology, script, checked=False):
    try:
        network = booted(topology)
    except Fault as fault:
        return output([f"bad topology {fault}"], 2)
    if len(script) > LIMIT:
        return output(["bad script TooLong"], 2)
    told, bad = run_script(network, script)
    if bad:
        return output(told, 2)
    faults = network.ask_check() if checked else []
    return output(told + faults, 1 if len(faults) > 1 else 0)


def check(topology, script):
    return replay(topology, script, True)


def numbered(n, answer):
    """The lines of an answer, with a number before the first."""
    return [f"{n}: {answer[0]}", *answer[1:]] if answer else []


def replay_marked(topology, script, number, strict):
    """The answer of a replay that numbers its answers, that ends at the first refusal, or both."""
    try:
        network = booted(topology)
    except Fault as fault:
        return output([f"bad topology {fault}"], 2)
    if len(script) > LIMIT:
        return output(["bad script TooLong"], 2)
    told = []
    for n, answer in answers_to(network, script):
        told += numbered(n, answer) if number else answer
        if is_bad_line(answer):
            return output(told, 2)
        if strict and any(line.startswith("refused ") for line in answer):
            return output(told, 1)
    return output(told, 0)


def joined(text):
    """The answer to a joined text."""
    if len(text) > LIMIT:
        return output(["bad script TooLong"], 2)
    found = re.search(rb"^---(\n|\Z)", text, re.MULTILINE)
    front, behind = (text[:found.start()], text[found.end():]) if found else (text, b"")
    return replay(front, behind)


# ---- histories

def version_of(first):
    """The version and the modulus of a history with this first line: all versions but the second and the third have
    nothing behind their number."""
    word, *numbers = first.decode("latin-1").split(" ")
    if word != "reset-history" or len(numbers) not in (1, 2) or number(numbers[0]) is None:
        raise Fault("BadLine 1")
    if numbers[0] in ("2", "3"):
        modulus = number(numbers[-1], SESSIONS) if len(numbers) == 2 else None
        if modulus is None or not is_modulus(modulus):
            raise Fault("BadLine 1")
        return int(numbers[0]), modulus
    if len(numbers) == 2:
        raise Fault("BadLine 1")
    if numbers[0] != "1":
        raise Fault("BadVersion")
    return 1, SESSIONS


def history_of(text):
    """The modulus of a history and its entries, each its words."""
    first, feed, rest = text.partition(b"\n")
    if not feed:
        raise Fault("BadLine 1")
    version, modulus = version_of(first)
    *lines, unended = rest.split(b"\n")
    entries = []
    for n, line in enumerate(lines, 2):
        entries.append(entry_of_line(line, version))
        if entries[-1] is None:
            raise Fault(f"BadLine {n}")
        if len(entries) > MOST_ENTRIES:
            raise Fault("TooLong")
    if unended:
        raise Fault(f"BadLine {len(lines) + 2}")
    return modulus, entries


def nodes_near(network, words):
    """The first node that the words of an entry name, if it is up, and its neighbours."""
    at = int(words[2] if words[0] == "fault" else words[1])
    return [at, *network.graph[at]] if at in network.graph else []


@functools.cache
def tables():
    """Of each table in the documents, the line of each row's guard, by the row's number."""
    found, table = {}, None
    with open(FORMATS, encoding="utf-8") as file:
        for line in file:
            title = re.fullmatch(r"table (\S+)", line.rstrip())
            row = re.fullmatch(r"(\d+) (\S+) \| (.*) \| .*", line.rstrip())
            if title:
                table = found.setdefault(title[1], {})
            elif row and table is not None:
                table[int(row[1])] = f"row {row[1]} {row[2]}: {row[3]}"
            else:
                table = None
    return found


def guards(network, words):
    """The guards of the rows of an event of the tree or of the wave, or of the row of an action, as lines."""
    if words[0] == "act":
        title = next(name for name, app in APPLICATIONS.items() if app is network.app)
        return [tables()[title][int(words[2])]]
    if words[0] not in EVENT_ROWS:
        return []
    table, first, last = EVENT_ROWS[words[0]]
    return [tables()[table][number] for number in range(first, last + 1)]


def reasons(network, words, answer):
    """Why an entry is refused, in lines."""
    asked = guards(network, words) if answer == "refused NotEnabled" else []
    return [f"entry {' '.join(words)}", answer, *asked, *map(network.show, nodes_near(network, words))]


def verified(network, entries, why=False, most=None):
    """What is answered of the entries or, where `most` says how many, of the first ones."""
    opened, told = {}, []
    for at, words in enumerate(entries[:most], 1):
        answer, = network.answer(words)
        if answer.startswith("refused"):
            return output([f"not enabled at {at}", *(reasons(network, words, answer) if why else [])], 1)
        if words[0] == "fault":
            opened.clear()
        if words[0] == "open":
            opened[words[1]] = at
        if answer.startswith("complete"):
            told.append(f"report {answer.split(' ')[1]} opened {opened.get(words[1], '-')} finished {at}")
    if most is None:
        return output([*told, f"verified {len(entries)} entries {len(told)} reports"], 0)
    if len(entries) < most:
        return output([f"bad history EndsAfter {len(entries)}"], 2)
    return output(network.ask_snapshot(), 0)


def verify(topology, history, why=False, most=None):
    try:
        network = booted(topology)
    except Fault as fault:
        return output([f"bad topology {fault}"], 2)
    try:
        modulus, entries = history_of(history)
        if modulus != network.modulus:
            raise Fault(f"OtherModulus {modulus}")
    except Fault as fault:
        return output([f"bad history {fault}"], 2)
    return verified(network, entries, why, most)
