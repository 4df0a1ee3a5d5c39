"""An independent model of the picture of a history: where docs/formats.md has bands, marks, lines of completions and
the nodes' numbers, from a network of model.py and its entries. What is compared is read from the SVG of the program.
Some nodes alone may have lanes, and entries may have come before.
"""
import re
import xml.etree.ElementTree

from model import distances

SVG = "{http://www.w3.org/2000/svg}"
KINDS = {"claim": "tree", "follow": "tree", "adopt": "tree", "act": "action"}


# ---- what there has to be

def row_y(place):
    """An entry's row: a row is 22 below the one before, and a fortieth one 44."""
    return 256 + sum(44 if at % 40 == 0 else 22 for at in range(1, place + 1))


class Drawing:
    """The parts of a picture, each a list in the order in which they are painted."""

    def __init__(self, network, entries, nodes=None, before=0):
        """From the network before the entries, which are played on it: lanes of these nodes or of all, and the number of
        the first entry is one more than before."""
        ids = [i for i in network.ids if nodes is None or i in nodes]
        order = sorted(ids, key=lambda i: (network.tree[i][2], i))
        self.middle = {i: 76 + 56 * at for at, i in enumerate(order)}
        self.before = before
        self.last = row_y(len(entries)) + 22
        self.bands = [self.band(network, i, 0) for i in ids]
        self.marks, self.links, self.completions, opened = [], [], [], {}
        for place, line in enumerate(entries, 1):
            words = line.split(" ")
            told, = network.answer(words)
            opened = {} if words[0] == "fault" else opened
            self.add(network, place, words, told, opened)
            if words[0] == "open":
                opened[words[1]] = place
        times = 1 + len(entries) // 40
        self.numbers = [(self.middle[i], row_y(40 * n) - 16, str(i)) for n in range(times) for i in ids]

    def band(self, network, i, place):
        y = row_y(place)
        parts = [("down", 52)]
        title = f"node {i}: down"
        if i in network.graph:
            phase, session = network.wave[i]
            parts, title = [(f"s{session % 6}", 52), (phase, 10)], f"node {i}: {phase}, session {session}"
        return self.middle[i], y, title, [(*it, self.last - y) for it in parts]

    def add(self, network, place, words, told, opened):
        fault, title, y = words[0] == "fault", f"{self.before + place}: {' '.join(words)}", row_y(place)
        node = int(words[2] if fault else words[1])
        if node in self.middle:
            x = self.middle[node]
            self.marks.append((x, y, title, words[0] if fault else KINDS.get(words[0], words[0])))
            self.bands.append(self.band(network, node, place))
            if fault and words[1] in ("down", "up") and int(words[3]) in self.middle:
                end = self.middle[int(words[3])]
                self.links.append((title, f"M{x} {y}H{end}", end, y))
        if told.startswith("complete "):
            self.add_completion(y, told.split(" ")[1], opened.get(words[1]), place, distances(network.graph, node))

    def add_completion(self, y, session, opened, place, component):
        since = f"opened at {self.before + opened}, " if opened else ""
        title = f"session {session}: {since}complete at {self.before + place}"
        pieces = sorted(f"M{self.middle[i] - 28} 11h56" for i in component if i in self.middle)
        if pieces:
            self.completions.append((y, title, pieces, f"session {session} complete"))

    def parts(self):
        return self.bands, self.marks, self.links, self.completions, self.numbers


# ---- what there is

def place_of(group):
    return tuple(int(it) for it in re.fullmatch(r"translate\((\d+) (\d+)\)", group.get("transform")).groups())


def title_of(group):
    return group.findtext(f"{SVG}title")


def parts_of(drawn):
    """The same parts of an SVG."""
    root = xml.etree.ElementTree.fromstring(drawn)
    groups = [it for it in root.iter(f"{SVG}g") if title_of(it) is not None]
    bands, marks, links, completions = [], [], [], []
    for it in groups:
        kind, *more = it.get("class", "band").split(" ")
        if kind == "band":
            rects = [(box.get("class"), int(box.get("width")), int(box.get("height"))) for box in it.iter(f"{SVG}rect")]
            bands.append((*place_of(it), title_of(it), rects))
        elif kind == "mark":
            marks.append((*place_of(it), title_of(it), *more))
        elif kind == "link":
            end = it.find(f"{SVG}circle")
            links.append((title_of(it), it.find(f"{SVG}path").get("d"), int(end.get("cx")), int(end.get("cy"))))
        else:
            pieces = sorted(path.get("d") for path in it.iter(f"{SVG}path"))
            completions.append((place_of(it)[1], title_of(it), pieces, it.findtext(f"{SVG}text")))
    numbers = [(int(it.get("x")), int(it.get("y")), it.text) for it in root.iter(f"{SVG}text") if it.get("class") == "lane"]
    return bands, marks, links, completions, numbers
