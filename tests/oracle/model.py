"""A network of nodes, told apart from the program: the tables, the faults and the checker of
docs/formats.md and docs/model.md in plain Python, for any registers. `Network.answer` is what a script's command
writes.
"""
from applications import APPLICATIONS, MOST, MOST_ID, set_of

PHASES = ("normal", "initiate", "reset")
MOST_LINKS = 8192
SESSIONS = MOST + 1  # the modulus of a topology that names none
WORD = 1 << 64  # how many values a word of the generator's state has


class Refused(Exception):
    """A command that changes nothing, with the name of the reason."""


def least(rows):
    return next((row for row, holds in rows if holds), None)


# ---- graphs: a map from each node, ascending, to the list of its neighbours, ascending

def graph_of(nodes, links):
    near = {i: set() for i in sorted(nodes)}
    for i, j in links:
        near[i].add(j)
        near[j].add(i)
    return {i: sorted(it) for i, it in near.items()}


def distances(graph, root):
    found, edge = {root: 0}, [root]
    for i in edge:
        for j in graph[i]:
            if j not in found:
                found[j] = found[i] + 1
                edge.append(j)
    return found


def leaders_of(graph):
    """A map from each node to the greatest one of its component."""
    leaders = {}
    for i in reversed(graph):
        if i not in leaders:
            leaders.update(dict.fromkeys(distances(graph, i), i))
    return leaders


# ---- the generator of `draw`: PCG32 (XSH RR 64/32), made from a seed as rand's `seed_from_u64` makes it

FACTOR = 6364136223846793005


def rotated(state):
    word, by = ((state >> 18 ^ state) >> 27) & MOST, state >> 59
    return (word >> by | word << (32 - by)) & MOST


def words_of(seed, count):
    """The first words of the generator that a seed makes."""
    state, made = seed, []
    for _ in range(4):
        state = (state * FACTOR + 11634580027462260723) % WORD
        made.append(rotated(state))
    state, step = made[0] | made[1] << 32, (made[2] | made[3] << 32) | 1
    state = ((state + step) * FACTOR + step) % WORD
    told = []
    for _ in range(count):
        told.append(rotated(state))
        state = (state * FACTOR + step) % WORD
    return told


# ---- the network

EVENT_ROWS = {"request": {1}, "relay": {2}, "open": {3}, "join": {4, 5}, "finish": {6, 7}, "mend": {8, 9, 10, 11}}
TREE_ROWS = {"claim": {1, 2, 3, 4}, "follow": {5, 6}, "adopt": {7, 8}}


class Network:
    """The configuration that is booted on a graph, and what commands make of it."""

    def __init__(self, graph, app, modulus=SESSIONS):
        self.ids = list(graph)  # of all nodes, those that are down too; the graph has those that are up
        self.app, self.bound, self.modulus = APPLICATIONS[app], len(graph), modulus
        self.put_graph(dict(graph))
        far = {i: away for top in set(self.leaders.values()) for i, away in distances(graph, top).items()}
        father = {i: min((j for j in graph[i] if far[j] < far[i]), default=i) for i in graph}
        self.tree = {i: (self.leaders[i], father[i], far[i]) for i in graph}
        self.wave = {i: ("normal", 0) for i in graph}
        self.local = {i: self.start(i) for i in graph}

    def put_graph(self, graph):
        self.graph, self.leaders = graph, leaders_of(graph)

    def start(self, i):
        return self.app.start(i, self.leaders[i])

    def children(self, i):
        return [j for j in self.graph[i] if self.tree[j][1] == i]

    # -- the tree table

    def own_rows(self, i):
        """Rows 1 to 4, each with whether its guard holds."""
        root, father, dist = self.tree[i]
        return [
            (1, root < i),
            (2, father == i and (root != i or dist != 0)),
            (3, father != i and father not in self.graph[i]),
            (4, dist >= self.bound),
        ]

    def link_rows(self, i, j):
        """Rows 5 to 8 toward a neighbour."""
        (root, father, dist), (other, _, away) = self.tree[i], self.tree[j]
        behind, offers = father == j and dist < self.bound, away < self.bound
        return [
            (5, behind and root != other),
            (6, behind and root == other and dist != away + 1),
            (7, offers and root < other),
            (8, offers and root == other and away + 1 < dist),
        ]

    def tree_rows(self, i):
        rows = self.own_rows(i) + [it for j in self.graph[i] for it in self.link_rows(i, j)]
        return {row for row, holds in rows if holds}

    def change_tree(self, word, i, j):
        rows = self.tree_rows(i) if j is None else {row for row, holds in self.link_rows(i, j) if holds}
        if not rows & TREE_ROWS[word]:
            raise Refused("NotEnabled")
        root, father, _ = self.tree[i]
        if word == "claim":
            self.tree[i] = (i, i, 0)
        elif word == "follow":
            root, _, away = self.tree[father]
            self.tree[i] = (root, father, min(away + 1, self.bound))
        else:
            root, _, away = self.tree[j]
            self.tree[i] = (root, j, away + 1)
        return "applied"

    # -- the wave table

    def successor(self, session):
        """The session after another, which a fault may have put at the modulus or above it."""
        return (session + 1) % self.modulus

    def mend_rows(self, i, j):
        """Rows 8 to 11 toward a neighbour, where it is the father."""
        (phase, session), (above, newer) = self.wave[i], self.wave[j]
        own, up = phase == "reset", above == "reset"
        if self.tree[i][1] != j:
            return []
        return [
            (8, not up and own),
            (9, not up and not own and session != newer),
            (10, up and own and session != newer),
            (11, up and not own and newer not in (session, self.successor(session))),
        ]

    def wave_rows(self, i):
        (phase, session), father = self.wave[i], self.tree[i][1]
        below = [self.wave[c] for c in self.children(i)]
        done = all(it[0] != "reset" and it[1] == session for it in below)
        joins, mends = False, []
        if father in self.graph[i]:
            above, newer = self.wave[father]
            joins, mends = above == "reset" and newer == self.successor(session), self.mend_rows(i, father)
        rows = [
            (1, phase == "normal"),
            (2, phase == "normal" and any(it[0] == "initiate" for it in below)),
            (3, father == i and phase == "initiate"),
            (4, joins and phase == "normal"),
            (5, joins and phase == "initiate"),
            (6, father != i and phase == "reset" and done),
            (7, father == i and phase == "reset" and done),
            *mends,
        ]
        return {row for row, holds in rows if holds}

    def change_wave(self, word, i, child):
        asked = child is None or child in self.children(i) and self.wave[child][0] == "initiate"
        if not asked or not self.wave_rows(i) & EVENT_ROWS[word]:
            raise Refused("NotEnabled")
        (_, session), father = self.wave[i], self.tree[i][1]
        if word in ("request", "relay"):
            self.wave[i] = ("initiate", session)
        elif word == "finish":
            self.wave[i] = ("normal", session)
            return f"complete {session}" if father == i else "applied"
        elif word == "mend":
            self.wave[i] = self.wave[father]
        else:
            self.wave[i], self.local[i] = ("reset", self.successor(session)), self.start(i)
        return "applied"

    # -- the application's table

    def case_number(self, word):
        names = [name for name, _ in self.app.cases]
        return int(word) if word.isdigit() else names.index(word) + 1 if word in names else 0

    def wants_neighbour(self, case):
        return self.app.cases[case - 1][1] in ("toward", "one")

    def after(self, i, case, near):
        """The local state after a case, or the refusal of it."""
        read = {"all": self.graph[i], "one": [near]}.get(self.app.cases[case - 1][1], [])
        for j in read:
            if self.wave[j][1] != self.wave[i][1]:
                raise Refused(f"Disagrees {j}")
        local = self.app.next(case, i, self.bound, near, self.local[i], {j: self.local[j] for j in read})
        if local is None:
            raise Refused("NotEnabled")
        return local

    def act(self, i, case, near):
        if not 1 <= case <= len(self.app.cases):
            raise Refused("NoSuchCase")
        if self.wants_neighbour(case) and near is None:
            raise Refused("WantsNeighbour")
        if not self.wants_neighbour(case) and near is not None:
            raise Refused("TakesNoNeighbour")
        self.local[i] = self.after(i, case, near)
        return "applied"

    def can(self, i, case, near):
        try:
            self.after(i, case, near)
            return True
        except Refused:
            return False

    def act_rows(self, i):
        rows = range(1, len(self.app.cases) + 1)
        choices = {case: self.graph[i] if self.wants_neighbour(case) else [None] for case in rows}
        return {case for case in rows if any(self.can(i, case, near) for near in choices[case])}

    # -- events

    def event(self, word, i, case, other):
        if i not in self.graph:
            raise Refused("StrangeNode")
        if other is not None and other not in self.graph[i]:
            raise Refused("StrangeNeighbour")
        if word == "act":
            return self.act(i, self.case_number(case), other)
        return self.change_tree(word, i, other) if word in TREE_ROWS else self.change_wave(word, i, other)

    # -- faults

    def disturb(self, kind, words):
        put = {"tree": self.put_tree, "wave": self.put_wave, "local": self.put_local, "down": self.cut, "up": self.link,
               "off": self.put_off, "on": self.put_on}
        put[kind](*words)
        return "disturbed"

    def has(self, *ids):
        if not all(i in self.graph for i in ids):
            raise Refused("StrangeNode")

    def put_tree(self, i, root, father, dist):
        self.has(int(i))
        if not all(1 <= int(it) <= MOST_ID for it in (root, father)):
            raise Refused("BadValue")
        self.tree[int(i)] = (int(root), int(father), int(dist))

    def put_wave(self, i, phase, session):
        self.has(int(i))
        self.wave[int(i)] = (phase, int(session))

    def put_local(self, i, text):
        self.has(int(i))
        local = self.app.read(text) if len(text) <= 200 else None
        if local is None:
            raise Refused("BadLocal")
        self.local[int(i)] = local

    def links(self):
        return {(i, j) for i in self.graph for j in self.graph[i] if i < j}

    def cut(self, a, b):
        a, b = sorted((int(a), int(b)))
        self.has(a, b)
        links = self.links()
        if (a, b) not in links:
            raise Refused("NoSuchLink")
        self.put_graph(graph_of(self.graph, links - {(a, b)}))

    def link(self, a, b):
        a, b = sorted((int(a), int(b)))
        self.has(a, b)
        if a == b:
            raise Refused("BadValue")
        links = self.links()
        if (a, b) in links:
            raise Refused("LinkIsThere")
        if len(links) == MOST_LINKS:
            raise Refused("BadValue")
        self.put_graph(graph_of(self.graph, links | {(a, b)}))

    def put_off(self, i):
        """The node is no node any more, and its links are gone."""
        self.has(int(i))
        links = {link for link in self.links() if int(i) not in link}
        self.put_graph(graph_of(set(self.graph) - {int(i)}, links))

    def put_on(self, i):
        i = int(i)
        if i not in self.ids:
            raise Refused("StrangeNode")
        if i in self.graph:
            raise Refused("NodeIsUp")
        self.put_graph(graph_of([*self.graph, i], self.links()))
        self.tree[i], self.wave[i], self.local[i] = (i, i, 0), ("normal", 0), self.start(i)

    def drawn(self, seed):
        """The fault that a seed draws, as a line."""
        kind, *words = words_of(seed, 5)
        nodes = [self.ids[it % len(self.ids)] for it in words]
        if kind % 4 == 0:
            return f"fault tree {nodes[0]} {nodes[1]} {nodes[2]} {words[3] % (len(self.ids) + 1)}"
        if kind % 4 == 1:
            return f"fault wave {nodes[0]} {PHASES[words[1] % 3]} {words[2] % 8}"
        return f"fault {'down' if kind % 4 == 2 else 'up'} {nodes[0]} {nodes[1]}"

    # -- what can be seen

    def joined(self, i):
        return self.wave[i][1] == self.wave[self.leaders[i]][1]

    def show(self, i):
        (root, father, dist), (phase, session) = self.tree[i], self.wave[i]
        return f"node {i} tree {root} {father} {dist} wave {phase} {session} local {self.app.text(self.local[i])}"

    def newest(self, i):
        return f"newest {i} {self.app.text(self.local[i]) if self.joined(i) else 'unjoined'}"

    def enabled(self, i):
        sets = map(set_of, (self.tree_rows(i), self.wave_rows(i), self.act_rows(i)))
        return "enabled {} tree {} wave {} act {}".format(i, *sets)

    def is_ready(self, i):
        return bool(self.tree_rows(i) or self.wave_rows(i) - {1} or self.act_rows(i))

    def choices(self, i, case):
        """Whom a case may be about."""
        return self.graph[i] if self.wants_neighbour(case) else [None]

    def moves(self, i):
        """The commands of the events that are allowed at node i, in their order."""
        tree, wave, father = self.tree_rows(i), self.wave_rows(i), self.tree[i][1]
        told = [f"{word} {i}" for word in ("claim", "follow") if tree & TREE_ROWS[word]]
        told += [f"adopt {i} {j}" for j in self.graph[i] if any(it and row > 6 for row, it in self.link_rows(i, j))]
        told += [f"{word} {i}" for word in ("mend", "join", "finish", "open", "request") if wave & EVENT_ROWS[word]]
        told += [f"relay {i} {c}" for c in self.children(i) if 2 in wave and self.wave[c][0] == "initiate"]
        for case in range(1, len(self.app.cases) + 1):
            near = [j for j in self.choices(i, case) if self.can(i, case, j)]
            told += [f"act {i} {case}" if j is None else f"act {i} {case} {j}" for j in near]
        return told

    def verdicts(self):
        """For each component, by ascending leader, what is wrong with the application's invariant, or None."""
        states = {i: self.local[i] if self.joined(i) else self.start(i) for i in self.graph}
        told = {}
        for leader in sorted(set(self.leaders.values())):
            part = {i: near for i, near in self.graph.items() if self.leaders[i] == leader}
            told[leader] = self.app.wrong(part, states)
        return told

    def app_row(self, i, j):
        together = self.wave[i][1] == self.wave[j][1]
        return least(self.app.failing(i, self.local[i], j, self.local[j])) if together else None

    def faults(self, i):
        """Those at node i: the other end, the table and the row."""
        told = [(i, "tree", least(self.own_rows(i)))]
        for j in self.graph[i]:
            told.append((j, "tree", least(self.link_rows(i, j))))
            told.append((j, "wave", least(self.mend_rows(i, j))))
            told.append((j, "app", self.app_row(i, j)))
        return [it for it in told if it[2]]

    # -- commands

    def answer(self, words):
        """What the words of a good line write, a list of lines."""
        word, *rest = words
        if word == "draw":
            line = self.drawn(int(rest[0]))
            return [f"drawn {line}", *self.answer(line.split(" "))]
        if word in QUESTIONS:
            ids = [int(it) for it in rest]
            if not all(i in self.graph for i in ids):
                return ["refused StrangeNode"]
            return QUESTIONS[word](self, *ids)
        try:
            if word == "fault":
                return [self.disturb(rest[0], rest[1:])]
            case = rest.pop(1) if word == "act" else None
            return [self.event(word, int(rest[0]), case, int(rest[1]) if len(rest) > 1 else None)]
        except Refused as refused:
            return [f"refused {refused}"]

    def ask_show(self, *ids):
        return [self.show(i) for i in ids or self.graph]

    def ask_newest(self):
        return [self.newest(i) for i in self.graph]

    def ask_enabled(self, i):
        return [self.enabled(i)]

    def ask_ready(self):
        ids = [str(i) for i in self.graph if self.is_ready(i)]
        return [" ".join(["ready", *(ids or ["-"])])]

    def ask_check(self, *ids):
        told = [f"link {i} {j} {family} {row}" for i in ids or self.graph for j, family, row in self.faults(i)]
        return [*told, f"faults {len(told)}"]

    def ask_alarm(self, i):
        alarms = [f"alarm {i} {j} {row}" for j, family, row in self.faults(i) if family == "app"]
        return alarms[:1] or ["quiet"]

    def ask_watch(self, i):
        told = self.ask_alarm(i)
        return told if told == ["quiet"] else [*told, *self.answer(["request", str(i)])]

    def ask_moves(self, *ids):
        return [f"move {line}" for i in ids or self.graph for line in self.moves(i)]

    def ask_invariant(self):
        verdicts = self.verdicts().items()
        return [f"invariant {leader} fails {wrong}" if wrong else f"invariant {leader} holds" for leader, wrong in verdicts]

    def ask_snapshot(self):
        links = [f"link {i} {j}" for i, j in sorted(self.links()) if i < j]
        return ["reset-snapshot 1", *self.ask_show(), *(links or ["link -"])]


QUESTIONS = {
    "show": Network.ask_show,
    "newest": Network.ask_newest,
    "enabled": Network.ask_enabled,
    "ready": Network.ask_ready,
    "check": Network.ask_check,
    "alarm": Network.ask_alarm,
    "watch": Network.ask_watch,
    "moves": Network.ask_moves,
    "invariant": Network.ask_invariant,
    "snapshot": Network.ask_snapshot,
}
