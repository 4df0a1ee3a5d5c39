"""Topologies, scripts and histories at random, well formed and damaged. A script goes beside the model: most of its
commands are chosen among those that the model can do where they stand, so that waves come to their end in networks
that were damaged on the way.
"""
import itertools

from answers import LIMIT, Fault, Unsure, booted, entry_of_line
from applications import APPLICATIONS, MOST
from model import PHASES, SESSIONS, Network, graph_of

NUMBERS = ["0", "1", "2", "3", "7", "8", "255", "256", "65535", "65536", "70000", str(MOST), str(SESSIONS),
           str(SESSIONS + 1), "01", "00", "08", "+1", "-1", "-0", "1_0", "0x1", "1.0", "", "99999999999999999999",
           "9223372036854775808"]
WORDS = [*NUMBERS, "normal", "initiate", "reset", "Reset", "claim", "open", "act", "fault", "tree", "wave", "local",
         "down", "up", "off", "on", "pass", "enter", "show", "draw", "---", "#", "-", "hold/-/-", "in/1", "1:0:1", "out/0 ",
         "\t", "\r", "\0", "\x7f", "\xe9", "\ufeff", "~", "!", "x" * 200, "x" * 201, "x" * 256, "1" * 257, "[", "]",
         "{", "}", '"', '"""', "'", "=", ",", "[[", "]]", "nodes", "links", "app", "modulus", "modulus = 2", "true",
         "nan", "1979-05-27", "\\", "\\e", "\\x41", "\\u0041", "\\ud800", "reset-history", "reset-history 1",
         "reset-history 2", "reset-history 2 8", "reset-history 3 8", "\n", "\n\n", "\r\n"]
VALUES = ["-1", str(MOST + 1), "1.0", "1e3", "inf", '"1"', "true", "1979-05-27", "[]", "[1]", "[[]]", "[1, 2, 3]", "{}",
          "{a = 1}", "9223372036854775807", "-9223372036854775808", "9223372036854775808", '""', "''", "nan",
          "1979-05-27T07:32:00Z", "07:32:00", "00", "1__0"]
MODULI = [2, 2, 2, 3, 3, 8, 8, 4, 7, MOST, SESSIONS]
NO_MODULI = [0, 1, 1, -1, -2, SESSIONS + 1, 1 << 62]
# first lines that no history has, and those of versions that aren't known
BAD_FIRST = ["reset-history 2", "reset-history 2 0", "reset-history 2 1", f"reset-history 2 {SESSIONS + 1}",
             f"reset-history 1 {SESSIONS}", "reset-history 1 8", "reset-history 2 08", "reset-history 2  8",
             "reset-history 2 8 ", "reset-history 2 8 8", "reset-history 02 8", "reset-history 2 +8", "reset-history 3",
             "reset-history 3 0", "reset-history 3 1", f"reset-history 3 {SESSIONS + 1}", "reset-history 3 08",
             "reset-history 3 8 8", "reset-history 03 8", "reset-history 4", "reset-history 4 8", "reset-history 0", f"reset-history {MOST}", f"reset-history {SESSIONS}",
             "reset-history", "reset-history ", "reset-history 1 "]


class Maker:
    """What a generator of random numbers makes."""

    def __init__(self, rng):
        self.rng = rng

    def chance(self, part):
        return self.rng.random() < part

    def shuffled(self, items):
        return self.rng.sample(items, len(items))

    # -- topologies

    def lists(self):
        """Nodes and links that are in order."""
        rng = self.rng
        size = rng.choice([1, *range(2, 9), *range(2, 9), 3, 12])
        ids = rng.sample(rng.choice([range(1, 14), range(1, 65536), range(65500, 65536)]), size)
        # as many first nodes of components as that, and each other node is linked with one before it
        tops = 1 if self.chance(0.7) else rng.randint(1, min(size, 4))
        part = [at if at < tops else rng.randrange(tops) for at in range(size)]
        before = [[ids[it] for it in range(at) if part[it] == part[at]] for at in range(size)]
        links = [(ids[at], rng.choice(before[at])) for at in range(size) if before[at]]
        more = rng.choice([0, 0.1, 0.3, 1])
        there, place = {tuple(sorted(it)) for it in links}, dict(zip(ids, part))
        others = [(i, j) for i, j in itertools.combinations(sorted(ids), 2) if place[i] == place[j]]
        links += [it for it in others if it not in there and self.chance(more)]
        return self.shuffled(ids), [tuple(self.shuffled(list(it))) for it in self.shuffled(links)]

    def full_lists(self):
        """As many links as there may be, or some less."""
        pairs = list(itertools.combinations(range(1, 130), 2))
        return list(range(1, 130)), pairs[:self.rng.randint(8188, 8193)]

    def spoilt(self, nodes, links):
        """The lists with something wrong, as texts of their items."""
        rng, nodes, links = self.rng, list(nodes), list(links)
        for _ in range(rng.choice([1, 1, 2, 3])):
            some, at = rng.choice(nodes), rng.randint(0, len(nodes))
            kind = rng.randint(0, 7)
            if kind == 0:
                nodes.insert(at, rng.choice([0, 65536, 70000, MOST, rng.randint(65536, MOST)]))
            elif kind == 1:
                nodes.insert(at, some)
            elif kind == 2:
                nodes.insert(at, rng.randint(1, 65535))
            elif kind == 3:
                link = rng.choice([(some, some), (some, 0), (65536, some), (MOST, 9)])
                links.insert(rng.randint(0, len(links)), link)
            elif kind == 4 and links:
                links.append(tuple(self.shuffled(list(rng.choice(links)))))
            elif kind == 5 and links:
                links.remove(rng.choice(links))
            elif kind == 6 and len(nodes) > 1:
                nodes.remove(some)
            elif self.chance(0.5):
                nodes.clear()
                break
        return nodes, links

    def integer(self, number, plain):
        """A spelling of a number in TOML."""
        if plain or self.chance(0.97):
            return str(number)
        grouped = "_".join(str(number)) if number >= 0 else str(number)
        others = [hex(number), oct(number), bin(number), f"+{number}", grouped, f"0x_{number:x}", f"0{number}"]
        return self.rng.choice(others)

    def value(self):
        """Something that stands in place of a number, a list or a string."""
        return self.rng.choice(VALUES)

    def array(self, items, plain):
        if plain or self.chance(0.7):
            return f"[{', '.join(items)}]"
        odd = self.chance(0.03) and items
        if odd:
            items[self.rng.randrange(len(items))] = self.value()
        gap = self.rng.choice([",", " , ", ",\n  ", ", # a comment, ]\n"])
        return f"[{gap.join(items)}{self.rng.choice(['', ',', chr(10), ' '])}]"

    def topology(self):
        """The text of a topology; half are plain and in order."""
        rng = self.rng
        nodes, links = self.full_lists() if self.chance(0.0005) else self.lists()
        app, plain = rng.choice(list(APPLICATIONS)), self.chance(0.7)
        if not plain and self.chance(0.45):
            nodes, links = self.spoilt(nodes, links)
        if not plain and self.chance(0.05):
            app = rng.choice(["Idle", "idel", "", "token ", "Token", "mutexes", "\u00efdle"])
        ends = [self.array([self.integer(i, plain) for i in link], plain) for link in links]
        quote = '"' if plain else rng.choice(['"', '"', "'", '"""', "'''"])
        values = {
            "nodes": self.array([self.integer(i, plain) for i in nodes], plain),
            "links": self.array(ends, plain),
            "app": f"{quote}{app}{quote}",
        }
        if self.chance(0.6):
            modulus = rng.choice(NO_MODULI if not plain and self.chance(0.15) else MODULI)
            values["modulus"] = self.integer(modulus, plain)
        keys = values if self.chance(0.7) else sorted(values)
        text = "".join(f"{key} = {values[key]}\n" for key in keys)
        return (text if plain else self.odd_topology(values)).encode()

    def odd_topology(self, values):
        rng, lines = self.rng, []
        for key in self.shuffled(list(values)):
            it = values[key] if self.chance(0.97) else self.value()
            name = rng.choice([key, key, key, f'"{key}"', f"'{key}'"])
            if self.chance(0.98):
                lines.append(f"{name}{rng.choice([' = ', '=', '  =  '])}{it}")
            if self.chance(0.1):
                lines.append(rng.choice(["", "# a comment", "  ", "\t# \u00e9"]))
        if self.chance(0.06):
            some = [f"x = {self.value()}", "x.y = 1", "[x]", "[[x]]", "nodes = [1]", "[nodes]", "links.x = 1", '"" = 1']
            lines.insert(rng.randint(0, len(lines)), rng.choice(some))
        feed = "\r\n" if self.chance(0.1) else "\n"
        text = "".join(f"{it}\n" for it in lines).replace("\n", feed)
        return ("\ufeff" if self.chance(0.05) else "") + text

    # -- events

    def stranger(self):
        return self.rng.choice([0, 1, 7, 65535, 65536, MOST])

    def node(self, network):
        """A node, mostly one that is up."""
        some = network.graph if network.graph and self.chance(0.95) else network.ids
        return self.rng.choice(list(some)) if self.chance(0.95) else self.stranger()

    def near(self, network, i):
        near = network.graph.get(i)
        return self.rng.choice(near) if near and self.chance(0.85) else self.node(network)

    def enabled(self, network, i):
        """The commands that node i can take."""
        tree, wave, near = network.tree_rows(i), network.wave_rows(i), network.graph[i]
        lines = ["claim"] * bool(tree & {1, 2, 3, 4}) + ["follow"] * bool(tree & {5, 6})
        names = {1: "request", 3: "open", 4: "join", 5: "join", 6: "finish", 7: "finish"}
        lines += [names.get(row, "mend") for row in sorted(wave - {2})]
        lines = [f"{it} {i}" for it in lines]
        if 2 in wave:
            lines += [f"relay {i} {c}" for c in network.children(i) if network.wave[c][0] == "initiate"]
        if tree & {7, 8}:
            lines += [f"adopt {i} {j}" for j in near if any(holds for row, holds in network.link_rows(i, j) if row > 6)]
        for case in network.act_rows(i):
            if network.wants_neighbour(case):
                lines += [f"act {i} {case} {j}" for j in near if network.can(i, case, j)]
            else:
                lines.append(f"act {i} {case}")
        return lines

    def step(self, network):
        """A command that some node can take, the request of a node seldom."""
        for i in self.shuffled(list(network.graph)):
            lines = self.enabled(network, i)
            if lines and (lines != [f"request {i}"] or self.chance(0.05)):
                return self.rng.choice(lines)
        return f"request {self.node(network)}"

    def case(self, network):
        names = [name for name, _ in network.app.cases]
        return self.rng.choice([*range(len(names) + 2), *names, *names, "255", "Pass", "z", "enter", "pull"])

    def event(self, network):
        i = self.node(network)
        words = ["claim", "follow", "request", "open", "join", "finish", "mend", "relay", "adopt"]
        word = self.rng.choice([*words, "act", "act", "act"])
        if word in ("relay", "adopt"):
            return f"{word} {i} {self.near(network, i)}"
        if word == "act":
            other = f" {self.near(network, i)}" if self.chance(0.6) else ""
            return f"act {i} {self.case(network)}{other}"
        return f"{word} {i}"

    # -- faults

    def ids(self, network):
        some = self.rng.sample(network.ids, self.rng.randint(0, min(3, len(network.ids))))
        if self.chance(0.2):
            some.append(self.rng.choice([1, 9, 65535, 0, 65536]))
        return sorted(set(some)) if self.chance(0.95) else some + some

    def local(self, network):
        """The text of a local state of the application, or nearly."""
        rng, app = self.rng, network.app
        if self.chance(0.3):
            text = app.text(network.local[rng.choice(network.ids)])
        elif self.chance(0.03):
            text = rng.choice(["", "~"]) + "1" * rng.choice([1, 199, 200, 201, 220])
        elif app is APPLICATIONS["token"]:
            sets = [",".join(map(str, self.ids(network))) or "-" for _ in range(2)]
            text = "/".join([rng.choice(["hold", "free"]), *sets])
        elif app is APPLICATIONS["mutex"]:
            text = f"{rng.choice(['in', 'out'])}/{rng.choice(['0', '1', '1', '0', '2'])}"
        elif app is APPLICATIONS["routes"]:
            hops = [0, 0, 1, 1, 2, 2, 3, 3, len(network.ids), rng.choice([MOST - 1, MOST, MOST + 1])]
            text = ",".join(f"{d}:{rng.choice(hops)}:{self.node(network)}" for d in self.ids(network)) or "-"
        else:
            text = "-"
        if self.chance(0.05):
            at = rng.randint(0, len(text))
            text = text[:at] + rng.choice("0123456789,/:-x~") + text[at + rng.randint(0, 1):]
        return text or "-"

    def fault(self, network):
        rng, i = self.rng, self.node(network)
        kind = rng.choice(["tree", "tree", "wave", "wave", "local", "local", "down", "up", "up", "draw", "off", "on"])
        if kind == "tree":
            root, father = (rng.choice([self.node(network), self.near(network, i), i, self.stranger()]) for _ in "ab")
            far = rng.choice([0, 1, 2, 3, len(network.ids), len(network.ids) - 1, MOST, MOST - 1])
            return f"fault tree {i} {root} {father} {far}"
        if kind == "wave":
            last = network.modulus - 1
            some = [0, 1, 2, 3, last - 1, last, min(last + 1, MOST), min(last + 2, MOST), MOST - 1, MOST]
            session = rng.choices(some, [15, 15, 15, 4, 2, 4, 2, 2, 1, 1])[0]
            return f"fault wave {i} {rng.choice(PHASES)} {session}"
        if kind == "local":
            return f"fault local {i} {self.local(network)}"
        if kind == "draw":
            return f"draw {rng.choice([rng.randint(0, 99), rng.randint(0, MOST)])}"
        if kind == "off":
            return f"fault off {i}"
        if kind == "on":
            down = [it for it in network.ids if it not in network.graph]
            return f"fault on {rng.choice(down) if down and self.chance(0.9) else i}"
        other = self.near(network, i) if kind == "down" else self.node(network)
        return f"fault {kind} {i} {other}"

    # -- scripts

    def question(self, network):
        words = ["show", "newest", "ready", "enabled", "enabled", "check", "check", "check", "alarm", "alarm", "watch",
                 "moves", "moves", "invariant", "snapshot"]
        word = self.rng.choice(words)
        alone = word in ("newest", "ready", "invariant", "snapshot") or word in ("show", "check", "moves") and self.chance(0.5)
        return word if alone else f"{word} {self.node(network)}"

    def command(self, network, faulty):
        kind = self.rng.random()
        if kind < 0.5:
            return self.step(network)
        if kind < 0.6:
            return self.event(network)
        if kind < 0.8:
            return self.fault(network) if faulty else self.step(network)
        if kind < 0.98:
            return self.question(network)
        return self.rng.choice(["", "# a comment", "#" * 256, "# \u00e9\0\t", "#" * (257 if self.chance(0.1) else 1)])

    def script(self, network):
        """The lines of a script, which the network goes along with, and what the model answers to each."""
        count, faulty, told = self.rng.choice([0, 1, 5, 20, 40, 80]), self.chance(0.7), []
        for _ in range(count):
            line = self.command(network, faulty)
            empty = line == "" or line[0] == "#"
            told.append((line, [] if empty else network.answer(line.split(" "))))
        return told

    def first_line(self, modulus, lines):
        """The first line of a history of this modulus, now and then of another one or of none. It is mostly of a
        version that has the lines."""
        if self.chance(0.1):
            return self.rng.choice(BAD_FIRST)
        told = self.rng.choice(MODULI) if self.chance(0.1) else modulus
        late = any(entry_of_line(it.encode(), 2) is None for it in lines) and self.chance(0.9)
        version = 3 if late else self.rng.choice([1, 2, 3] if told == SESSIONS else [2, 3])
        return "reset-history 1" if version == 1 else f"reset-history {version} {told}"

    def history(self, network):
        """The text of a history; now and then it has an entry that is refused."""
        modulus, lines = network.modulus, []
        for line, answer in self.script(network):
            line = answer[0].removeprefix("drawn ") if line.startswith("draw ") else line
            if entry_of_line(line.encode()) and (not answer[-1].startswith("refused") or self.chance(0.02)):
                lines.append(line)
        if self.chance(0.3):
            lines.append(self.event(network))
        return "".join(f"{it}\n" for it in [self.first_line(modulus, lines), *lines]).encode()

    # -- damage

    def replaced(self, text):
        """The text with a word replaced by a hostile one."""
        words = text.split(b" ")
        at = self.rng.randrange(len(words))
        front, feed, behind = words[at].partition(b"\n")
        word = self.rng.choice(WORDS).encode()
        words[at] = self.rng.choice([word + feed + behind, front + feed + word]) if feed else word
        return b" ".join(words)

    def lines_changed(self, text):
        lines = text.split(b"\n")
        a, b = self.rng.randrange(len(lines)), self.rng.randrange(len(lines))
        if self.chance(0.5):
            lines[a], lines[b] = lines[b], lines[a]
        elif self.chance(0.5):
            lines.insert(a, lines[b])
        else:
            del lines[a]
        return b"\n".join(lines)

    def bytes_changed(self, text):
        rng, at = self.rng, self.rng.randint(0, len(text))
        some = rng.choice([b"0123456789", b" \n\r\t#-\"',[]/:", b"abcdefghijklmnopqrstuvwxyz", bytes(range(256))])
        byte, front, behind = bytes([rng.choice(some)]), text[:at], text[at:]
        return rng.choice([front + byte + behind[1:], front + behind[1:], front + byte + behind, front])

    def damaged(self, text):
        for _ in range(self.rng.choice([1, 1, 1, 2, 4])):
            way = self.rng.choice([self.replaced, self.lines_changed, self.bytes_changed, self.bytes_changed])
            text = way(text)
        return text

    def padded(self, text):
        """The text with comments behind it, up to the limit or a byte over it."""
        more = LIMIT + self.rng.choice([-1, 0, 1]) - len(text)
        return text + (b"#" * 99 + b"\n") * (more // 100) + b"#" * (more % 100)

    # -- all of it

    def case_of_the_program(self):
        """The words and the two texts of a run, or for a joined text one text."""
        rng, topology = self.rng, self.topology()
        word = rng.choice(["replay", "replay", "check", "verify", "verify", "joined"])
        try:
            network = booted(topology)
        except (Fault, Unsure):
            network = Network(graph_of([1, 2, 3], [(1, 2), (2, 3)]), "token")
        history = word == "verify"
        text = self.history(network) if history else "".join(f"{it}\n" for it, _ in self.script(network)).encode()
        if self.chance(0.3):
            text = self.damaged(text)
        if self.chance(0.15):
            topology = self.damaged(topology)
        if self.chance(0.001):
            topology = self.padded(topology)
        if self.chance(0.001) and not history:
            text = self.padded(text)
        if word != "joined":
            return word, topology, text
        text = topology + b"---\n" + text
        return word, b"", self.damaged(text) if self.chance(0.2) else text
