#!/usr/bin/env python3
"""Runs `record` of the program named on the command line on the scripts of examples/ and of tests/cases and on some more: its standard
output and its status have to be those of `replay`, byte for byte. `verify` has to take the history, with as many
entries and completed resets as the answers tell; some histories are written out here. From the snapshot that a part of a
script leaves it has to write the entries that the whole script has behind that part. Where the topology or the snapshot
is bad or the script is too long, and where the history can't be written, there is none.

What stands in the history's place is kept by each subcommand that writes one, where the run stops or leaves no history,
and where it is an input too, under any name; nothing that stands beside it is written over.
"""
import os
import re
import subprocess
import sys
import tempfile

sys.dont_write_bytecode = True
sys.path += [f"{sys.path[0]}/../shared"]
import example_folders

STOOD = b"what stood there\n"
LIMIT = 1048576  # bytes of a text
LONGEST = 60  # seconds
DONE = ("applied", "disturbed", "complete")

HISTORIES = {
    "one-wave": ["request 1", "relay 2 1", "relay 3 2", "open 3", "join 2", "join 1", "finish 1", "finish 2",
                 "finish 3"],
    "drawn-twice": ["fault wave 3 initiate 4", "fault wave 3 initiate 4"],
    "alarm-and-reset": ["fault local 1 in/0", "fault local 2 in/0", "request 2", "relay 3 2", "open 3", "join 2",
                        "join 1", "finish 1", "finish 2", "finish 3"],
    "refused-events": ["request 1"],
    "two-sessions": ["request 1", "relay 2 1", "relay 3 2", "open 3", "join 2", "join 1", "finish 1", "finish 2",
                     "finish 3"] * 2,
    "foreign-sessions": ["fault wave 1 normal 9", "fault wave 2 normal 9", "fault wave 3 initiate 9", "open 3",
                         "join 2", "join 1"],
    "refused-faults": ["fault down 1 2", "fault up 1 2"],
    "split-and-joined": ["fault down 1 2", "claim 1", "request 1", "open 1", "finish 1", "fault up 1 2", "adopt 1 2",
                         "mend 1"],
    "node-off-and-on": ["fault off 3", "claim 2", "follow 1", "request 2", "open 2", "fault on 3"],
    "bad-line-leading-zero": [],
    "empty-script": [],
}

TOKEN = b'nodes = [1, 2, 3]\nlinks = [[1, 2], [2, 3]]\napp = "token"\n'
# each with the entries of its history
SCRIPTS = {
    "an action by its name": (b"act 3 pass 2\nact 2 take 3\n", ["act 3 1 2", "act 2 2 3"]),
    "a line that is bad": (b"request 1\nopen 1\nrelay 2 1\nOpen 3\nrelay 3 2\n", ["request 1", "relay 2 1"]),
    "nothing but questions": (b"# show\nshow\n\nready\ncheck\nalarm 1\nwatch 1\nwatch 9\nnewest\nenabled 1\n"
                              b"moves\nmoves 2\nsnapshot", []),
    "nodes that are down": (b"fault off 3\nfault off 3\nact 3 pass 2\nfault on 1\nfault on 3\ndraw 2\nact 3 pass 2\n",
                            ["fault off 3", "fault on 3", "fault tree 3 2 1 0"]),
    "no line feed at the end": (b"request 3\nopen 3", ["request 3", "open 3"]),
    "refused lines before others": (b"\n".join([b"join 2"] * 3 + [b"request 3", b"open 3"]), ["request 3", "open 3"]),
    "a script at the limit": (b"request 3\n#".ljust(LIMIT, b"\n"), ["request 3"]),
}


class Judge:
    def __init__(self, program, room):
        self.program, self.room, self.passed, self.failed = os.path.realpath(program), room, 0, 0

    def run(self, *words):
        ran = subprocess.run([self.program, *words], capture_output=True, cwd=self.room, timeout=LONGEST,
                             stdin=subprocess.DEVNULL)
        return ran.stdout, ran.returncode, ran.stderr

    def judge(self, title, told, wanted):
        self.passed, self.failed = self.passed + (told == wanted), self.failed + (told != wanted)
        if told != wanted:
            print(f"recorded {title}: {str(told)[-300:]}, wanted {str(wanted)[-300:]}")

    def put(self, name, text):
        with open(os.path.join(self.room, name), "wb") as file:
            file.write(text)

    def get(self, name):
        with open(os.path.join(self.room, name), "rb") as file:
            return file.read()

    def at(self, name):
        return os.path.join(self.room, name)

    def recorded(self, *words):
        """What a subcommand answers, and the history that it leaves in the place of another."""
        self.put("history", STOOD)
        told = self.run(*words, "--history", "history")
        self.judge(f"{words}, no part is left", os.path.exists(self.at("history.part")), False)
        return told, self.get("history")


def first_line(topology):
    """That of each history that is written from a topology with this text."""
    found = re.search(rb"^modulus = ([0-9]+)$", topology, re.MULTILINE)
    return f"reset-history 3 {found[1].decode() if found else 4294967296}"


def text_of(first, entries):
    return "".join(line + "\n" for line in [first, *entries]).encode()


def judge_script(judge, title, topology, script, entries):
    replayed = judge.run("replay", topology, script)
    told, history = judge.recorded("record", topology, script)
    judge.judge(title, told, replayed)
    if replayed[0].startswith((b"bad topology", b"bad script")):
        judge.judge(f"{title}, no history", history, STOOD)
        return
    first = first_line(judge.get(topology))
    judge.judge(f"{title}, first line", history.split(b"\n")[0], first.encode())
    answers = [line.split(" ")[0] for line in replayed[0].decode().splitlines()]
    done, completed = sum(it in DONE for it in answers), answers.count("complete")
    verified = judge.run("verify", topology, "history")
    last = f"verified {done} entries {completed} reports".encode()
    judge.judge(f"{title}, verified", (verified[0].splitlines()[-1:], *verified[1:]), ([last], 0, b""))
    if entries is not None:
        judge.judge(f"{title}, history", history, text_of(first, entries))
    if replayed[1] == 0:
        lines = judge.get(script).split(b"\n")
        for cut in {len(lines) // 3, 2 * len(lines) // 3}:
            judge_start(judge, f"{title}, from line {cut}", topology, lines[:cut], lines[cut:], history)


def judge_start(judge, title, topology, before, after, whole):
    """The lines before leave a snapshot, and what those after them leave from there is the end of the whole history."""
    judge.put("before", b"\n".join([*before, b"snapshot"]))
    judge.put("after", b"\n".join(after))
    told = judge.run("replay", topology, "before")[0]
    judge.put("snapshot", told[told.rindex(b"reset-snapshot"):])
    start = "--from", "snapshot"
    told, history = judge.recorded("record", topology, "after", *start)
    judge.judge(title, told, judge.run("replay", topology, "after", *start))
    entries, all_entries = history.splitlines()[1:], whole.splitlines()[1:]
    judge.judge(f"{title}, history", history.splitlines(), [whole.splitlines()[0], *all_entries[len(all_entries) - len(entries):]])
    answers = [line.split(b" ")[0].decode() for line in told[0].splitlines()]
    done, completed = sum(it in DONE for it in answers), answers.count("complete")
    verified = judge.run("verify", topology, "history", *start)
    last = f"verified {done} entries {completed} reports".encode()
    judge.judge(f"{title}, verified", (verified[0].splitlines()[-1:], *verified[1:]), ([last], 0, b""))


def judge_examples(judge):
    for folder in example_folders.every():
        topology, script = (os.path.join(folder, it) for it in ("topology.toml", "script"))
        if os.path.exists(script):
            name = os.path.basename(folder)
            judge_script(judge, name, topology, script, HISTORIES.get(name))


def judge_scripts(judge):
    judge.put("topology.toml", TOKEN)
    for title, (script, entries) in SCRIPTS.items():
        judge.put("script", script)
        judge_script(judge, title, "topology.toml", "script", entries)
    judge.put("script", b"request 3\n".ljust(LIMIT + 1, b"\n"))
    judge_script(judge, "a script over the limit", "topology.toml", "script", None)
    too_long = (b"bad script TooLong\n", 2, b""), STOOD
    judge.judge("an endless script", judge.recorded("record", "topology.toml", "/dev/zero"), too_long)


def judge_devices(judge):
    """No answer is written where the history couldn't be."""
    judge.put("script", b"request 3\nopen 3\n")
    fault = b"", 3, b"write fault\n"
    for title, place in (("no room for the history", "/dev/full"), ("the history a folder", ".")):
        judge.judge(title, judge.run("record", "topology.toml", "script", "--history", place), fault)


def judge_files(judge):
    """A run that stops, or leaves no history, leaves what stood there; so does one from a bad snapshot."""
    threads, drive = ["--turns", "1"], ["--steps", "1", "--seed", "1"]
    judge.put("bad", b"nodes = [1")
    judge.put("line", b"node 9 tree 9 9 0 wave normal 0 local free/-/-\n")
    fault, no_topology = (b"", 3, b"read fault\n"), (b"bad topology NotToml\n", 2, b"")
    no_snapshot = b"bad snapshot StrangeNode 9\n", 2, b""
    for words, wanted in ((["record", "topology.toml", "missing"], fault), (["record", "missing", "script"], fault),
                          (["record", ".", "script"], fault), (["threads", "missing", *threads], fault),
                          (["drive", "missing", *drive], fault), (["record", "topology.toml", "."], fault),
                          (["record", "topology.toml", "script", "--from", "missing"], fault),
                          (["threads", "topology.toml", *threads, "--from", "missing"], fault),
                          (["drive", "topology.toml", *drive, "--from", "missing"], fault),
                          (["record", "bad", "script"], no_topology), (["threads", "bad", *threads], no_topology),
                          (["drive", "bad", *drive], no_topology), (["record", "bad", "script", "--from", "line"], no_topology),
                          (["threads", "bad", *threads, "--from", "line"], no_topology),
                          (["record", "topology.toml", "script", "--from", "line"], no_snapshot),
                          (["record", "topology.toml", "/dev/zero", "--from", "line"], no_snapshot),
                          (["threads", "topology.toml", *threads, "--from", "line"], no_snapshot),
                          (["drive", "topology.toml", *drive, "--from", "line"], no_snapshot),
                          (["explore", "topology.toml", "--acts", "--most", "1"], (b"more than 1 configurations\n", 2, b""))):
        judge.judge(words, judge.recorded(*words), (wanted, STOOD))
    # an exploration says of a file that is bad which one it was
    for words, file, wanted in ((["missing"], "missing", fault), (["topology.toml", "missing"], "missing", fault),
                                (["topology.toml", "--from", "missing"], "missing", fault), (["bad", "line"], "bad", no_topology),
                                (["topology.toml", "script", "--from", "line"], "line", no_snapshot),
                                (["topology.toml", "/dev/zero"], "/dev/zero", (b"bad script TooLong\n", 2, b"")),
                                (["topology.toml", "line"], "line", (b"bad line 1\n", 2, b""))):
        (out, status, said), stood = judge.recorded("explore", *words)
        first, named, _ = said.partition(f"reset-service: {file}: ".encode())
        judge.judge(["explore", *words], ((out, status, first), named != b"", stood), (wanted, True, STOOD))


def judge_inputs(judge):
    """No input is written to, whatever the names are; nothing is judged, opened or created."""
    threads, drive = ["--turns", "1"], ["--steps", "1", "--seed", "1"]
    inputs = {"topology.toml": TOKEN, "script": b"request 3\nopen 3\n",
              "snapshot": b"node 3 tree 3 3 0 wave normal 0 local free/-/-\n"}
    for name, text in inputs.items():
        judge.put(name, text)
    os.makedirs(judge.at("folder"))
    for name in inputs:
        os.symlink(name, judge.at(f"link-{name}"))
        os.link(judge.at(name), judge.at(f"other-{name}"))
    start = ["--from", "snapshot"]
    runs = [(["record", "topology.toml", "script"], ["topology.toml", "script"]),
            (["record", "topology.toml", "script", *start], list(inputs)),
            (["record", "topology.toml", "missing", *start], ["topology.toml", "snapshot"]),
            (["record", "script", "script"], ["script"]), (["threads", "topology.toml", *threads], ["topology.toml"]),
            (["threads", "topology.toml", *threads, *start], ["topology.toml", "snapshot"]),
            (["drive", "topology.toml", *drive], ["topology.toml"]),
            (["drive", "topology.toml", *drive, *start], ["topology.toml", "snapshot"]),
            (["explore", "topology.toml"], ["topology.toml"]),
            (["explore", "topology.toml", "script", *start], list(inputs))]
    for words, names in runs:
        for name in names:
            for other in (name, f"./folder/../{name}", judge.at(name), f"link-{name}", f"other-{name}"):
                told = judge.run(*words, "--history", other)
                judge.judge(f"{words} with the history {other}", told, (b"", 2, b"history is an input\n"))
    judge.judge("the inputs stay", {name: judge.get(name) for name in inputs}, inputs)
    judge.judge("no part is left", [it for it in os.listdir(judge.room) if it.endswith(".part")], [])
    # a device is no file that is lost
    told = judge.run("record", "/dev/null", "/dev/null", "--history", "/dev/null")
    judge.judge("all are one device", told, (b"bad topology MissingKey\n", 2, b""))


def judge_places(judge):
    """What stands beside the history stays, a link is followed, and permissions are kept."""
    answers, history = (b"applied\napplied\n", 0, b""), text_of(first_line(TOKEN), ["request 3", "open 3"])
    record = "record", "topology.toml", "script"
    judge.put("history.part", STOOD)
    judge.put("history", STOOD)
    complaint = b"history.part is there: a run is writing it, or was cut off and left it\nwrite fault\n"
    for words in (record, ("threads", "topology.toml", "--turns", "1"), ("drive", "topology.toml", "--steps", "1", "--seed", "1"),
                  ("explore", "topology.toml", "script")):
        told = judge.run(*words, "--history", "history")
        judge.judge(f"{words}, a part that is there", (told, judge.get("history"), judge.get("history.part")),
                    ((b"", 3, complaint), STOOD, STOOD))
    os.remove(judge.at("history.part"))
    for mode in (0o600, 0o640, 0o666):
        os.chmod(judge.at("history"), mode)
        told = judge.recorded(*record)
        judge.judge(f"permissions {mode:o}", (told, os.stat(judge.at("history")).st_mode & 0o777), ((answers, history), mode))
    os.remove(judge.at("history"))
    told = judge.run(*record, "--history", "history")
    judge.judge("nothing there", (told, judge.get("history")), (answers, history))
    judge.put("kept", STOOD)
    os.symlink("kept", judge.at("link"))
    told = judge.run(*record, "--history", "link")
    judge.judge("a link", (told, judge.get("kept"), os.path.islink(judge.at("link"))), (answers, history, True))
    os.mkfifo(judge.at("pipe"))
    reader = subprocess.Popen(["cat", "pipe"], stdout=subprocess.PIPE, cwd=judge.room)
    told = judge.run(*record, "--history", "pipe")
    judge.judge("a pipe", (told, reader.communicate()[0]), (answers, history))
    judge.put("history", STOOD)
    with open("/dev/full", "wb") as full:
        ended = subprocess.run([judge.program, *record, "--history", "history"], stdin=subprocess.DEVNULL, stdout=full,
                               stderr=subprocess.PIPE, cwd=judge.room, timeout=LONGEST)
    judge.judge("no room for the answers", (ended.returncode, ended.stderr, judge.get("history")), (3, b"write fault\n", STOOD))
    told = judge.run(*record, "--history", "/dev/stdout")
    judge.judge("the standard output", told, (history + answers[0], 0, b""))
    if os.geteuid() != 0:
        os.chmod(judge.at("history"), 0o400)
        told = judge.run(*record, "--history", "history")
        judge.judge("a history that can't be written to", (told, judge.get("history")), ((b"", 3, b"write fault\n"), STOOD))


def main():
    with tempfile.TemporaryDirectory() as room:
        judge = Judge(sys.argv[1], room)
        judge_examples(judge)
        judge_scripts(judge)
        judge_devices(judge)
        judge_files(judge)
        judge_inputs(judge)
        judge_places(judge)
    print(f"{judge.passed} recorded passed, {judge.failed} failed")
    return judge.failed > 0


if __name__ == "__main__":
    sys.exit(main())
