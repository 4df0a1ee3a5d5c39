#!/usr/bin/env python3
"""Runs the program named on the command line on files that are missing, bad or not to be written to, and compares what
standard error says of them, where it is asked to: the file, the place in it and the reason, as `docs/formats.md` has them
("Diagnoses"). Standard output and the status have to be those of the same run without `--verbose`, and the fixed lines of
standard error stay before what is said.
"""
import os
import subprocess
import sys
import tempfile

LONGEST = 60  # seconds
ALWAYS = {"plan", "explore", "session", "page"}  # these say it in any case
NODES, LINKS, APP = "nodes = [1, 2, 3]\n", "links = [[1, 2], [2, 3]]\n", 'app = "token"\n'
PATH = (NODES + LINKS + APP).encode()
HISTORY = b"reset-history 3 4294967296\nrequest 3\n"
SNAPSHOT = b"reset-snapshot 1\nnode 3 tree 3 3 0 wave normal 0 local hold/-/-\n"
GREATEST = 4294967295
FILES = {"topology": PATH, "script": b"request 3\n", "history": HISTORY, "snapshot": SNAPSHOT, "empty": b""}

# What is wrong with the text of a topology. A place is the line and the column, and then the crate toml has the reason.
TOPOLOGIES = {
    "no 'nodes'": (LINKS + APP, "key 'nodes' is missing"),
    "no 'links'": (NODES + APP, "key 'links' is missing"),
    "no 'app'": (NODES + LINKS, "key 'app' is missing"),
    "no key at all": ("", "key 'nodes' is missing"),
    "'links' misspelt": (NODES + "linsk = []\n" + APP, "key 'links' is missing"),
    "a key too many": (NODES + LINKS + APP + "linsk = []\n", "key 'linsk' is unknown; 'links' is one"),
    "a key too many that is near to 'modulus'": (NODES + LINKS + APP + "modlus = 8\n", "key 'modlus' is unknown; 'modulus' is one"),
    "a key three edits away": (NODES + LINKS + APP + "lnsk = 1\n", "key 'lnsk' is unknown"),
    "a key that no other is near to": (NODES + LINKS + APP + "colour = 1\n", "key 'colour' is unknown"),
    "the first of two keys in their order": (NODES + LINKS + APP + "zone = 1\narea = 1\n", "key 'area' is unknown"),
    "a key that a terminal can't show": (NODES + LINKS + APP + '"\\u001b[2J" = 1\n', "key is unknown"),
    "a number for a list": ("nodes = 3\n" + LINKS + APP, "'nodes' is a list of numbers from 0 to 4294967295"),
    "a negative node": ("nodes = [-1]\n" + LINKS + APP, "'nodes' is a list of numbers from 0 to 4294967295"),
    "a node beyond 32 bits": ("nodes = [4294967296]\n" + LINKS + APP, "'nodes' is a list of numbers from 0 to 4294967295"),
    "a float": ("nodes = [1.0]\n" + LINKS + APP, "'nodes' is a list of numbers from 0 to 4294967295"),
    "a link of three": (NODES + "links = [[1, 2, 3]]\n" + APP, "'links' is a list of pairs of numbers from 0 to 4294967295"),
    "a link of one": (NODES + "links = [[1]]\n" + APP, "'links' is a list of pairs of numbers from 0 to 4294967295"),
    "links that are nodes": (NODES + "links = [1, 2]\n" + APP, "'links' is a list of pairs of numbers from 0 to 4294967295"),
    "an application that is a number": (NODES + LINKS + "app = 1\n", "'app' is the name of an application, in quotes"),
    "modulus 1": (NODES + LINKS + APP + "modulus = 1\n", "'modulus' is a number from 2 to 4294967296"),
    "modulus 4294967297": (NODES + LINKS + APP + "modulus = 4294967297\n", "'modulus' is a number from 2 to 4294967296"),
    "a modulus in quotes": (NODES + LINKS + APP + 'modulus = "8"\n', "'modulus' is a number from 2 to 4294967296"),
    "nodes before the modulus": ("nodes = 3\n" + LINKS + APP + "modulus = 1\n", "'nodes' is a list of numbers from 0 to 4294967295"),
    "an application misspelt": (NODES + LINKS + 'app = "mutxe"\n', "application 'mutxe' is unknown; 'mutex' is one"),
    "an application in capital letters": (NODES + LINKS + 'app = "TOKEN"\n', "application 'TOKEN' is unknown"),
    "an application without a name": (NODES + LINKS + 'app = ""\n', "application '' is unknown"),
    "an application that a terminal can't show": (NODES + LINKS + 'app = "tok\\ten"\n', "application is unknown"),
    "a modulus before the application": (NODES + LINKS + 'app = "mutxe"\nmodulus = 1\n', "'modulus' is a number from 2 to 4294967296"),
    "no nodes": ("nodes = []\nlinks = []\n" + APP, "'nodes' is empty"),
    "1025 nodes": (f"nodes = {list(range(1, 1026))}\nlinks = []\n{APP}", "'nodes' has more than 1024 numbers"),
    "node 0": ("nodes = [0]\nlinks = []\n" + APP, "0 in 'nodes' isn't from 1 to 65535"),
    "node 65536": ("nodes = [1, 65536]\nlinks = []\n" + APP, "65536 in 'nodes' isn't from 1 to 65535"),
    "a node twice": ("nodes = [1, 2, 2, 1]\nlinks = []\n" + APP, "2 is twice in 'nodes'"),
    "8193 links": ("nodes = [1, 2]\nlinks = [" + "[1, 2], " * 8193 + "]\n" + APP, "'links' has more than 8192 links"),
    "an end that is no node": (NODES + "links = [[1, 9]]\n" + APP, "9 in 'links' isn't in 'nodes'"),
    "a link to itself": (NODES + "links = [[2, 2]]\n" + APP, "a link in 'links' joins 2 with itself"),
    "a link twice": (NODES + "links = [[1, 2], [2, 1]]\n" + APP, "the link of 1 and 2 is twice in 'links'"),
    "over 1048576 bytes": ((NODES + LINKS + APP).ljust(1048577, "\n"), "it has more than 1048576 bytes"),
    "no value": (NODES + LINKS + "app\n", "line 3, column "),
    "a key twice": (NODES + LINKS + APP + "app = 1\n", "line 4, column 1: duplicate key"),
    "a byte that is no UTF-8": ((NODES + LINKS).encode() + b'app = "\xff"\n', "line 3, column 8: invalid UTF-8"),
    "columns count characters": ((NODES + LINKS).encode() + 'app = "\u00e9\u00e9'.encode() + b'\xff"\n', "line 3, column 10: invalid UTF-8"),
    "a bad first byte": (b"\xff", "line 1, column 1: invalid UTF-8"),
}

# What is wrong with a line of a script, and why.
LINES = {
    "clam 1": "'clam' is no command; 'claim' is",
    "claim": "'claim' takes I",
    "claim 1 2": "'claim' takes I",
    "claim x": "'claim' takes I",
    "claim -1": "'claim' takes I",
    "adopt 1": "'adopt' takes I J",
    "relay 1": "'relay' takes I C",
    "act 1": "'act' takes I CASE [J]",
    "act 1 2 3 4": "'act' takes I CASE [J]",
    "act 1 256": "'256' is out of range: the greatest is 255",
    "act 4294967296 256": "'4294967296' is out of range: the greatest is 4294967295",
    "act 1 01": "'01' begins with a zero",
    "act 1 -": "'act' takes I CASE [J]",
    "act 1 pass 4294967296": "'4294967296' is out of range: the greatest is 4294967295",
    "show 1 2": "'show' takes [I]",
    "show x": "'show' takes [I]",
    "enabled": "'enabled' takes I",
    "ready 1": "'ready' takes nothing",
    "newest 1": "'newest' takes nothing",
    "snapshot now": "'snapshot' takes nothing",
    "draw 4294967296": "'4294967296' is out of range: the greatest is 4294967295",
    "draw 18446744073709551616": "'18446744073709551616' is out of range: the greatest is 4294967295",
    "draw 00": "'00' begins with a zero",
    "draw": "'draw' takes SEED",
    "fault": "'fault' is no command by itself",
    "fault tree 1 2 3": "'fault tree' takes I ROOT FATHER DIST",
    "fault tree 1 2 3 4294967296": "'4294967296' is out of range: the greatest is 4294967295",
    "fault tre 1 2 3 4": "'fault tre' is no command; 'fault tree' is",
    "fault wave 1 norml 0": "'fault wave' takes I PHASE SESSION",
    "fault wave 1 normal 007": "'007' begins with a zero",
    "fault local 1": "'fault local' takes I TEXT",
    "fault down 1": "'fault down' takes A B",
    "fault lost 1": "'fault lost' is no command",
    "fault of 1": "'fault of' is no command; 'fault off' is",
    "fualt on 1": "'fualt' is no command; 'fault' is",
    "help": "'help' is a command of sessions",
    "exit": "'exit' is a command of sessions",
    "explain show": "'explain' is a command of sessions",
    "helo": "'helo' is no command",
    "CLAIM 1": "'CLAIM' is no command",
    "nonsense": "'nonsense' is no command",
    "?": "'?' is no command",
    "clai\tm 1": "it has a tab",
    "claim 1\r": "it has a carriage return",
    "cla\x00im 1": "it has the byte 0, and bytes are from 32 to 126",
    " claim 1": "one space stands between words, and none at an end",
    "claim 1 ": "one space stands between words, and none at an end",
    "claim  1": "one space stands between words, and none at an end",
    " ": "one space stands between words, and none at an end",
    "x" * 257: "it has more than 256 bytes",
    "#" * 257: "it has more than 256 bytes",
    "claim " + "\t" * 300: "it has more than 256 bytes",
    "show # all": "'show' takes [I]",
}

# What is wrong with a snapshot on the path of three nodes.
NODE = "node 3 tree 3 3 0 wave normal 0 local hold/-/-\n"
SNAPSHOTS = {
    "nonsense": ("nonsense\n", "line 1: no line of a snapshot"),
    "a bad third line": (f"reset-snapshot 1\n{NODE}node 2\n", "line 3: no line of a snapshot"),
    "a first line that comes later": (f"{NODE}reset-snapshot 1\n", "line 2: no line of a snapshot"),
    "a text of another application": (NODE.replace("hold/-/-", "in/0"), "line 1: no line of a snapshot"),
    "another version": ("reset-snapshot 2\n", "line 1: the version of a snapshot is 1"),
    "a node that isn't there": (NODE.replace("node 3", "node 9"), "node 9 isn't in the topology, or is the end of a link and down"),
    "a node twice": (NODE + NODE, "node 3 has two lines"),
    "a link to itself": (NODE + "link 3 3\n", "a link joins node 3 with itself"),
    "a link to a node that is down": (NODE + "link 3 1\n", "node 1 isn't in the topology, or is the end of a link and down"),
    "a link twice": (NODE + "link 3 1\nlink 1 3\n", "the link of 1 and 3 has two lines"),
}

HISTORIES = {
    "nothing": (b"", "line 1: no line of a history: the first is 'reset-history 3 M'"),
    "a script": (b"request 3\n", "line 1: no line of a history: the first is 'reset-history 3 M'"),
    "no modulus": (b"reset-history 3\n", "line 1: no line of a history: the first is 'reset-history 3 M'"),
    "another version": (b"reset-history 9\n", "line 1: the version of a history is 1, 2 or 3"),
    "a comment": (HISTORY + b"# all\n", "line 3: no line of a history: each is an event or a fault, and ends with a line feed"),
    "a question": (HISTORY + b"show\n", "line 3: no line of a history: each is an event or a fault, and ends with a line feed"),
    "a last line without its line feed": (HISTORY[:-1], "line 2: no line of a history: each is an event or a fault, and ends with a line feed"),
    "other sessions": (b"reset-history 3 8\n", "sessions are counted modulo 8, and by topology modulo 4294967296"),
}


class Room:
    """A folder with the files that the runs name."""

    def __init__(self, program, folder):
        self.program, self.folder = program, folder
        for name, text in FILES.items():
            self.put(name, text)
        os.mkdir(os.path.join(folder, "folder"))

    def put(self, name, text):
        with open(os.path.join(self.folder, name), "wb") as file:
            file.write(text if isinstance(text, bytes) else text.encode("latin-1"))

    def run(self, words, variable=None, given=b"", **how):
        """Standard output, standard error and the status."""
        environment = {name: value for name, value in os.environ.items() if name != "RESET_VERBOSE"}
        if variable is not None:
            environment["RESET_VERBOSE"] = variable
        streams = {"stdout": subprocess.PIPE, "stderr": subprocess.PIPE, **how}
        ran = subprocess.run([self.program, *words], input=given, cwd=self.folder, env=environment, timeout=LONGEST, **streams)
        for name in ("kept", "kept.part"):
            if os.path.exists(os.path.join(self.folder, name)):
                os.remove(os.path.join(self.folder, name))
        return ran.stdout, ran.stderr.decode(), ran.returncode


def said(name, reason):
    return f"reset-service: {name}: {reason}\n"


def begins_as(found, wanted):
    """Whether standard error is this, or where it ends with a blank begins with it and has one line more of text."""
    if not wanted.endswith(" \n"):
        return found == wanted
    start = wanted[:-1]
    return found.startswith(start) and found.endswith("\n") and found.count("\n") == wanted.count("\n") \
        and len(found) > len(wanted)


def told(room, words, wanted, status, fixed=""):
    """Whether a run says this with `--verbose`, and answers as without it: `fixed` is what standard error has besides."""
    plain = room.run(words)
    loud = room.run(["--verbose", *words])
    quiet = fixed + wanted if words[0] in ALWAYS else fixed
    return begins_as(loud[1], fixed + wanted) and begins_as(plain[1], quiet) and plain[0] == loud[0] \
        and plain[2] == loud[2] == status


def bad_texts(room):
    """Each of the tables above: by the subcommand of which it is."""
    for title, (text, reason) in TOPOLOGIES.items():
        room.put("bad.toml", text)
        yield f"topology, {title}", told(room, ["replay", "bad.toml", "script"], said("bad.toml", reason), 2)
    for line, reason in LINES.items():
        room.put("bad", f"request 3\n\n# nonsense\n{line}\nclam 1\n")
        yield f"line {line[:30]!r}", told(room, ["replay", "topology", "bad"], said("bad", f"line 4: {reason}"), 2)
    for title, (text, reason) in SNAPSHOTS.items():
        room.put("bad", text)
        words = ["replay", "topology", "script", "--from", "bad"]
        yield f"snapshot, {title}", told(room, words, said("bad", reason), 2)
    for title, (text, reason) in HISTORIES.items():
        room.put("bad", text)
        yield f"history, {title}", told(room, ["verify", "topology", "bad"], said("bad", reason), 2)


def long_texts(room):
    room.put("long", b"#\n" * 524289)
    yield "a script too long", told(room, ["replay", "topology", "long"], said("long", "it has more than 1048576 bytes"), 2)
    room.put("long", b"reset-history 3 4294967296\n" + b"request 3\n" * 1000001)
    yield "a history too long", told(room, ["verify", "topology", "long"], said("long", "it has more than 1000000 entries"), 2)
    room.put("long", b"#" * 65537)
    yield "a line of a snapshot too long", told(
        room, ["check", "topology", "script", "--from", "long"], said("long", "line 1: no line of a snapshot"), 2)
    room.put("long", b"\n" * 9999 + b"clam 1")
    yield "a last line without its line feed", told(
        room, ["check", "topology", "long"], said("long", "line 10000: 'clam' is no command; 'claim' is"), 2)
    os.remove(os.path.join(room.folder, "long"))


def files(room):
    """Files that can't be read, of each subcommand in each of its places."""
    missing, fixed = said("nosuch", "No such file or directory"), "read fault\n"
    history = ["--history", "kept"]
    for words in [["replay", "nosuch", "script"], ["replay", "topology", "nosuch"], ["check", "nosuch", "script"],
                  ["check", "topology", "nosuch"], ["verify", "nosuch", "history"], ["verify", "topology", "nosuch"],
                  ["picture", "nosuch", "history"], ["picture", "topology", "nosuch"], ["plan", "nosuch"],
                  ["plan", "topology", "nosuch"], ["explore", "nosuch"], ["explore", "topology", "nosuch"],
                  ["session", "nosuch"], ["page", "nosuch", "history"], ["page", "topology", "nosuch"],
                  ["record", "topology", "nosuch", *history], ["threads", "nosuch", "--turns", "1", *history],
                  ["drive", "nosuch", "--steps", "1", "--seed", "1", *history],
                  ["replay", "topology", "script", "--from", "nosuch"], ["plan", "topology", "--from", "nosuch"],
                  ["session", "topology", "--from", "nosuch"], ["verify", "topology", "history", "--from", "nosuch"]]:
        yield " ".join(words), told(room, words, missing, 3, fixed)
    folder = said("folder", "Is a directory")
    yield "a folder", told(room, ["replay", "folder", "script"], folder, 3, fixed)
    yield "a folder for a script", told(room, ["replay", "topology", "folder"], folder, 3, fixed)
    below = said("script/topology", "Not a directory")
    yield "a file for a folder", told(room, ["replay", "script/topology", "script"], below, 3, fixed)
    long = "x" * 300
    yield "a name too long", told(room, ["replay", long, "script"], said(long, "File name too long"), 3, fixed)
    yield "no name", told(room, ["replay", "", "script"], said("", "No such file or directory"), 3, fixed)
    os.symlink("loop", os.path.join(room.folder, "loop"))
    yield "a loop", told(room, ["replay", "loop", "script"], said("loop", "Too many levels of symbolic links"), 3, fixed)
    room.put("closed", PATH)
    os.chmod(os.path.join(room.folder, "closed"), 0)
    if not os.access(os.path.join(room.folder, "closed"), os.R_OK):
        yield "no permission", told(room, ["replay", "closed", "script"], said("closed", "Permission denied"), 3, fixed)
    yield "the first of two", told(room, ["replay", "topology", "script", "--from", "nosuch1"],
                                   said("nosuch1", "No such file or directory"), 3, fixed)
    room.put("bad", b"x = \n")
    yield "before a bad topology is judged", told(room, ["replay", "bad", "nosuch"], missing, 3, fixed)


def unwritten(room):
    """Files that can't be written to, of each subcommand that writes a history, and a standard output that is full."""
    fixed = "write fault\n"
    runs = [["record", "topology", "script"], ["threads", "topology", "--turns", "1"],
            ["drive", "topology", "--steps", "9", "--seed", "1"], ["explore", "idle", "script"], ["session", "topology"]]
    room.put("idle", PATH.replace(b"token", b"idle"))
    long = "x" * 300
    for words in runs:
        for title, file, reason in [("no folder", "nosuch/x", "No such file or directory"), ("a name too long", long, "File name too long"),
                                    ("a folder", "folder", "Is a directory"), ("a file for a folder", "script/x", "Not a directory"),
                                    ("a loop", "loop", "Too many levels of symbolic links")]:
            yield f"{words[0]}, {title}", told(room, [*words, "--history", file], said(file, reason), 3, fixed)
    full = said("/dev/full", "No space left on device")
    for words in runs[:4]:
        yield f"{words[0]}, a full disk", told(room, [*words, "--history", "/dev/full"], full, 3, fixed)
    yield "a session, a full disk", room.run(["session", "topology", "--history", "/dev/full"], given=b"request 3\n") == (
        b"", fixed + full, 3)
    for words in [["replay", "topology", "script"], ["tables"], ["plan", "topology"], ["verify", "topology", "history"]]:
        with open("/dev/full", "wb") as output:
            ran = room.run(["--verbose", *words], stdout=output)
        yield f"{words[0]}, a full output", ran[1:] == (fixed + said("standard output", "No space left on device"), 3)
    room.put("kept.part", b"")
    yield "a file beside it, of which another line says it", room.run(["--verbose", *runs[0], "--history", "kept"]) == (
        b"", "kept.part is there: a run is writing it, or was cut off and left it\n" + fixed, 3)
    yield from forbidden(room, runs)


def forbidden(room, runs):
    """The same of a folder and a file that a user other than root may not write to."""
    nobody = {"user": 65534} if os.geteuid() == 0 else {}
    os.chmod(room.folder, 0o755)
    shut = os.path.join(room.folder, "shut")
    os.mkdir(shut)
    room.put("shut/there", HISTORY)
    os.chmod(os.path.join(shut, "there"), 0o444)
    os.chmod(shut, 0o555)
    for file in ("shut/new", "shut/there"):
        for words in runs:
            ran = room.run(["--verbose", *words, "--history", file], **nobody)
            yield f"{words[0]}, {file}", ran[1:] == ("write fault\n" + said(file, "Permission denied"), 3)
    os.chmod(shut, 0o755)


def order(room):
    """Of several faults the first in the order in which the program judges is reported."""
    room.put("bad.toml", NODES + LINKS)
    room.put("bad", b"nonsense\n")
    topology = said("bad.toml", "key 'app' is missing")
    yield "a topology before a script", told(room, ["replay", "bad.toml", "bad"], topology, 2)
    yield "a topology before a snapshot", told(room, ["replay", "bad.toml", "bad", "--from", "bad"], topology, 2)
    yield "a snapshot before a script", told(room, ["replay", "topology", "bad", "--from", "bad"],
                                             said("bad", "line 1: no line of a snapshot"), 2)
    yield "a snapshot before a history", told(room, ["verify", "topology", "bad", "--from", "bad"],
                                              said("bad", "line 1: no line of a snapshot"), 2)
    script = said("bad", "line 1: 'nonsense' is no command")
    history = said("bad", "line 1: no line of a history: the first is 'reset-history 3 M'")
    for words in [["check", "topology", "bad"], ["plan", "topology", "bad"], ["explore", "topology", "bad"],
                  ["record", "topology", "bad", "--history", "kept"]]:
        yield f"{words[0]}, a bad script", told(room, words, script, 2)
    for words in [["picture", "topology", "bad"], ["page", "topology", "bad"], ["session", "topology", "--history", "bad"]]:
        yield f"{words[0]}, a bad history", told(room, words, history, 2)
    for words in [["threads", "bad.toml", "--turns", "1", "--history", "kept"], ["session", "bad.toml"],
                  ["drive", "bad.toml", "--steps", "1", "--seed", "1", "--history", "kept"]]:
        yield f"{words[0]}, a bad topology", told(room, words, topology, 2)
    yield "a snapshot of a session", told(room, ["session", "topology", "--from", "bad"],
                                          said("bad", "line 1: no line of a snapshot"), 2)
    room.put("torn", b"reset-history 3 8\nreque")
    yield "a session judges whole lines", told(
        room, ["session", "topology", "--history", "torn"],
        said("torn", "sessions are counted modulo 8, and by topology modulo 4294967296"), 2)


def silent(room):
    """Nothing is said where no file is bad, and where another line of standard error says it."""
    room.put("many.toml", f"nodes = {list(range(1, 66))}\nlinks = []\n{APP}")
    room.put("refused", b"reset-history 3 4294967296\nopen 3\n")
    for title, words, status in [("a good run", ["replay", "topology", "script"], 0), ("a check", ["check", "topology", "script"], 0),
                                 ("a plan", ["plan", "topology"], 0), ("a session", ["session", "topology"], 0),
                                 ("an entry that isn't allowed", ["verify", "topology", "refused"], 1),
                                 ("the same of a page", ["page", "topology", "refused"], 1),
                                 ("too many nodes for threads", ["threads", "many.toml", "--turns", "1", "--history", "kept"], 2),
                                 ("too many configurations", ["explore", "topology", "script", "--most", "1"], 2),
                                 ("a shape", ["topology", "rign", "3"], 2), ("a word", ["explain", "nonsense"], 2),
                                 ("a word that is known", ["explain", "NotEnabled"], 0), ("tables", ["tables"], 0)]:
        yield f"nothing of {title}", told(room, words, "", status)
    room.put("bad", b"nonsense\n")
    yield "nothing where the history is an input", told(
        room, ["record", "topology", "bad", "--history", "bad"], "", 2, "history is an input\n")
    yield "nothing of that in a session", told(
        room, ["session", "topology", "--history", "topology"], "", 2, "history is an input\n")
    yield "a session goes on after a bad line", room.run(["session", "topology"], given=b"clam\ncheck\n") == (
        b"bad line 1\nfaults 0\n", "", 0)


def asked(room):
    """How it is asked for."""
    room.put("bad", b"clam 1\n")
    words, line = ["replay", "topology", "bad"], said("bad", "line 1: 'clam' is no command; 'claim' is")
    loud, plain = (b"bad line 1\n", line, 2), (b"bad line 1\n", "", 2)
    for at in range(4):
        yield f"the word at place {at}", room.run([*words[:at], "--verbose", *words[at:]]) == loud
    yield "the word twice", room.run(["--verbose", *words, "--verbose"]) == loud
    yield "the word before --", room.run(["replay", "--verbose", "--", "topology", "bad"]) == loud
    yield "after -- it is a file's name", room.run(["replay", "--", "topology", "--verbose"]) == (b"", "read fault\n", 3)
    yield "and asks for nothing more", room.run(["replay", "--verbose", "--", "topology", "--verbose"]) == (
        b"", "read fault\n" + said("--verbose", "No such file or directory"), 3)
    yield "the variable", room.run(words, "1") == loud
    yield "the variable and the word", room.run(["--verbose", *words], "1") == loud
    for value in ("", "0", "2", "11", "true", " 1"):
        yield f"the variable is {value!r}", room.run(words, value) == plain
    yield "the word with another value of it", room.run(["--verbose", *words], "0") == loud
    for word in ("--verbose=1", "--Verbose", "-verbose", "--verbos"):
        found = room.run([word, *words])
        yield f"{word} is no such word", found[0] == b"" and found[2] == 2 and found[1].startswith("error: ")
    yield "with --help", room.run(["--verbose", "--help"]) == room.run(["--help"])
    yield "with no file at all", room.run(["tables", "--verbose"]) == room.run(["tables"])


def pipes(room):
    """What came from a pipe isn't read twice: its name alone is reported."""
    again = "it can't be read a second time"
    bad = PATH + b"---\nclam 1\n"
    yield "a joined text", room.run(["--verbose"], given=bad) == (b"bad line 1\n", said("standard input", again), 2)
    yield "a joined text, not asked", room.run([], given=bad) == (b"bad line 1\n", "", 2)
    yield "a good joined text", room.run(["--verbose"], given=PATH) == (b"", "", 0)
    yield "a script", room.run(["replay", "topology", "/dev/stdin", "--verbose"], given=b"clam 1\n") == (
        b"bad line 1\n", said("/dev/stdin", again), 2)
    yield "a script of a plan", room.run(["plan", "topology", "/dev/stdin"], given=b"clam 1\n") == (
        b"bad line 1\n", said("/dev/stdin", again), 2)
    yield "a topology", room.run(["replay", "/dev/stdin", "script", "--verbose"], given=b"x") == (
        b"bad topology NotToml\n", said("/dev/stdin", again), 2)
    yield "a snapshot", room.run(["check", "topology", "script", "--from", "/dev/stdin", "--verbose"], given=b"x") == (
        b"bad snapshot BadLine 1\n", said("/dev/stdin", again), 2)
    yield "a history", room.run(["verify", "topology", "/dev/stdin", "--verbose"], given=b"x") == (
        b"bad history BadLine 1\n", said("/dev/stdin", again), 2)
    room.put("bad.toml", NODES + LINKS)
    yield "a bad file before a pipe", room.run(["replay", "bad.toml", "/dev/stdin", "--verbose"], given=b"x") == (
        b"bad topology MissingKey\n", said("bad.toml", "key 'app' is missing"), 2)
    yield "a file that isn't there beside a pipe", room.run(["replay", "/dev/stdin", "nosuch", "--verbose"], given=PATH) == (
        b"", "read fault\n" + said("nosuch", "No such file or directory"), 3)


def main():
    passed = failed = 0
    with tempfile.TemporaryDirectory(prefix="diagnoses-") as folder:
        room = Room(os.path.abspath(sys.argv[1]), folder)
        for part in (bad_texts, long_texts, files, unwritten, order, silent, asked, pipes):
            for name, good in part(room):
                if good:
                    passed += 1
                else:
                    failed += 1
                    print(f"diagnoses: {name}: no")
    print(f"{passed} diagnoses passed, {failed} failed")
    return 1 if failed else 0


if __name__ == "__main__":
    sys.exit(main())
