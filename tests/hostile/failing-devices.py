#!/usr/bin/env python3
"""Runs the program named on the command line on devices that fail: what it reads from and writes to goes wrong at its
first call, at its second and so on, up to a run that makes fewer (by hostile/devices.c, which is compiled and
preloaded). No failed call is tried again, interrupted ones neither, and nothing follows a write that failed. Beside
them stand devices that fail by themselves: closed and full ones, pipes that nobody reads, and texts without an end.
"""
import multiprocessing
import os
import subprocess
import sys
import tempfile

sys.dont_write_bytecode = True
sys.path += [f"{sys.path[0]}/../shared"]
from example_folders import named

HERE = os.path.dirname(os.path.realpath(__file__))
LONGEST = 60  # seconds
READ_FAULT = (b"", 3, b"read fault\n")
WAYS = [("read", "EIO"), ("read", "EINTR"), ("read", "one"), ("read", "ones"),
        ("write", "EIO"), ("write", "EINTR"), ("write", "zero"), ("write", "one"), ("write", "ones")]
# the subcommands that say in any case why a write failed, and what the system says of one that did
ALWAYS = ("plan", "explore", "page")
REASONS = {"EIO": b"Input/output error", "EINTR": b"Interrupted system call"}
ALONE = b"reset-history 3 4294967296\nrequest 7\nopen 7\nfinish 7\n"


def read(*parts):
    with open(os.path.join(*parts), "rb") as file:
        return file.read()


def wave():
    """The topology and the script of a whole reset."""
    return read(named("one-wave"), "topology.toml"), read(named("one-wave"), "script")


def put(room, name, text):
    with open(os.path.join(room, name), "wb") as file:
        file.write(text)


def put_texts(room):
    """The texts of the runs; the long ones take several calls to read, and so do their answers to write."""
    topology, script = wave()
    put(room, "topology.toml", topology)
    put(room, "script", script)
    put(room, "history", read(named("verified-wave"), "history"))
    put(room, "bad", b"nodes = [1")
    put(room, "refused", read(named("not-enabled-history"), "history"))
    put(room, "repairs", b"reset-history 3 4294967296\nfault off 3\nfault on 3\n" + b"fault wave 1 reset 7\n" * 50)
    put(room, "snapshot", b"node 1 tree 3 2 2 wave normal 0 local -\nnode 3 tree 9 9 1 wave reset 5 local -\nlink 1 3\n")
    put(room, "alone.toml", b'nodes = [7]\nlinks = []\napp = "idle"\n')
    put(room, "long.toml", topology + b"# a comment\n" * 3000)
    put(room, "long-script", (b"show\n# a comment of some length\n" * 30 + b"claim 1\n") * 40)
    put(room, "long-history", b"reset-history 3 4294967296\n" + script_entries(script) * 400)


def script_entries(script):
    return b"".join(it + b"\n" for it in script.split(b"\n") if it and it[0] != ord("#") and it != b"show")


# the title, the words, and the file on standard input or None
RUNS = [
    ("replay", ["replay", "topology.toml", "script"], None),
    ("check", ["check", "topology.toml", "script"], None),
    ("plan", ["plan", "topology.toml", "script"], None),
    ("plan from a snapshot", ["plan", "topology.toml", "--from", "snapshot"], None),
    ("explore", ["explore", "topology.toml", "script"], None),
    ("explore from a snapshot", ["explore", "topology.toml", "--from", "snapshot", "--acts"], None),
    ("search", ["explore", "topology.toml", "script", "--until", "check"], None),
    ("check from a snapshot", ["check", "topology.toml", "script", "--from", "snapshot"], None),
    ("verify", ["verify", "topology.toml", "history"], None),
    ("verify and why", ["verify", "topology.toml", "refused", "--why"], None),
    ("long replay", ["replay", "long.toml", "long-script"], None),
    ("long check", ["check", "long.toml", "long-script"], None),
    ("long verify", ["verify", "long.toml", "long-history"], None),
    ("page", ["page", "topology.toml", "history"], None),
    ("page from a snapshot", ["page", "topology.toml", "repairs", "--from", "snapshot", "--title", "100%"], None),
    ("long page", ["page", "long.toml", "long-history"], None),
    ("bad topology", ["replay", "bad", "script"], None),
    ("joined", [], "joined"),
    ("long joined", [], "long-joined"),
    ("tables", ["tables"], None),
    ("help", ["--help"], None),
    ("help verify", ["help", "verify"], None),
    ("record", ["record", "topology.toml", "script", "--history", "recorded"], None),
    ("threads", ["threads", "alone.toml", "--turns", "5", "--history", "kept"], None),
]


class Program:
    """The program in a folder of its own, with its texts."""

    def __init__(self, path, room, loaded):
        self.path, self.room, self.loaded = path, room, loaded
        put_texts(room)
        put(room, "joined", read(room, "topology.toml") + b"---\n" + read(room, "script"))
        put(room, "long-joined", read(room, "long.toml") + b"---\n" + read(room, "long-script"))

    def run(self, words, given, call, how, at):
        """The answer, how many such calls there were, and how many writes followed a failed one."""
        told, tell = os.pipe()
        some = {"LD_PRELOAD": self.loaded, "COUNT_TO": str(tell), "FAIL_CALL": call, "FAIL_HOW": how, "FAIL_AT": str(at)}
        with open(os.path.join(self.room, given) if given else os.devnull, "rb") as file:
            ran = subprocess.run([self.path, *words], stdin=file, capture_output=True, cwd=self.room, timeout=LONGEST,
                                 pass_fds=[tell], env={**os.environ, **some})
        os.close(tell)
        with open(told, "rb") as counted:
            calls, later = map(int, counted.read().split() or (0, 0))
        return (ran.stdout, ran.returncode, ran.stderr), calls, later

    def shell(self, command):
        """The answer to a command of bash, in which "$program" is the program, and $pipe one that nobody reads."""
        unread, pipe = os.pipe()
        os.close(unread)
        ran = subprocess.run(["bash", "-c", command], capture_output=True, cwd=self.room, timeout=LONGEST, pass_fds=[pipe],
                             stdin=subprocess.DEVNULL, env={**os.environ, "program": self.path, "pipe": str(pipe)})
        os.close(pipe)
        return ran.stdout, ran.returncode, ran.stderr


def parts_in(room):
    """The files that a history was written to and that took no place."""
    return [it for it in os.listdir(room) if it.endswith(".part")]


# ---- each call in turn

def write_fault(words, reason):
    """What standard error says where no answers can be written for this reason, or for none of the system's."""
    is_said = words and words[0] in ALWAYS and reason
    return b"write fault\n" + (b"reset-service: standard output: %s\n" % reason if is_said else b"")


def wrong_of(answer, whole, words, call, how):
    """What is wrong with an answer, where this is the one without a fault."""
    if how in ("one", "ones"):
        good = answer == whole
    elif call == "read":
        good = answer == READ_FAULT
    else:
        good = answer[1:] == (3, write_fault(words, REASONS.get(how))) and whole[0].startswith(answer[0]) and answer[0] != whole[0]
    return None if good else f"status {answer[1]}, {answer[0][-200:]!r}, {answer[2][-200:]!r}"


def tried(job):
    """How many runs were made, and what is wrong with those in which something is."""
    path, loaded, (title, words, given), (call, how) = job
    wrong, made = [], 0
    with tempfile.TemporaryDirectory() as room:
        program = Program(path, room, loaded)
        whole, count, _ = program.run(words, given, call, how, 0)
        for at in range(1, count + 2):
            answer, calls, later = program.run(words, given, call, how, at)
            made += 1
            fault = wrong_of(answer, whole, words, call, how) if at <= count else None if answer == whole else str(answer)
            if fault or later:
                wrong.append(f"{title}, {call} {at} of {count}, {how}: {fault}, {later} writes after it")
            wrong += [f"{title}, {call} {at} of {count}, {how}: {it} is left" for it in parts_in(room)]
    if not count and not (call == "read" and title in ("tables", "help", "help verify")):
        wrong.append(f"{title}, {call}: no call was counted")
    return made, wrong


# ---- devices that fail by themselves

def by_themselves(program):
    """The title, the command of bash, and the answer that is wanted."""
    fault, limit = (b"", 3, b"write fault\n"), b"bad script TooLong\n"
    endless = [("joined", '"$program" < <(yes 1)', limit),
               ("joined, 3 MiB", '"$program" < <(yes 1 | head -c 3145728)', limit),
               ("script", '"$program" replay topology.toml <(yes 1)', limit),
               ("script, 3 MiB", '"$program" replay topology.toml <(yes 1 | head -c 3145728)', limit),
               ("check", '"$program" check topology.toml <(yes 1)', limit),
               ("topology", '"$program" replay <(yes 1) script', b"bad topology TextTooLong\n"),
               ("snapshot", '"$program" replay topology.toml script --from <(yes 1)', b"bad snapshot TooLong\n"),
               ("snapshot of one line", '"$program" plan topology.toml --from /dev/zero', b"bad snapshot TooLong\n"),
               ("script of a plan", '"$program" plan topology.toml <(yes 1)', limit),
               ("script of an exploration", '"$program" explore topology.toml <(yes 1)', limit),
               ("history", '"$program" verify topology.toml <(yes 1)', b"bad history BadLine 1\n"),
               ("history of entries", '"$program" verify topology.toml <(echo reset-history 1; yes request 1)',
                b"bad history TooLong\n"),
               ("history of few sessions", '"$program" verify topology.toml <(echo reset-history 2 8; yes request 1)',
                b"bad history TooLong\n"),
               ("history of nodes that go down", '"$program" verify topology.toml <(echo reset-history 3 8; yes fault off 1)',
                b"bad history TooLong\n"),
               ("history of long lines", '"$program" verify topology.toml <(echo reset-history 1; cat /dev/zero)',
                b"bad history BadLine 2\n")]
    # a plan and an exploration say of what isn't read again which it was
    again = {"snapshot of one line": b"/dev/zero", "script of a plan": b"/dev/fd/63", "script of an exploration": b"/dev/fd/63"}
    for title, command, line in endless:
        said = b"reset-service: %s: it can't be read a second time\n" % again[title] if title in again else b""
        yield f"endless {title}", command, (line, 2, said)
    for title, words, given in RUNS:
        command = f'"$program" {" ".join(words)} <{given or "/dev/null"}'
        for name, output, reason in [("a full device", "/dev/full", b"No space left on device"),
                                     ("output closed", "&-", b"Bad file descriptor"),
                                     ("a pipe that nobody reads", "&$pipe", b"Broken pipe")]:
            yield f"{title}, {name}", f"{command} >{output}", (b"", 3, write_fault(words, reason))
        if given:
            yield f"{title}, input closed", f'"$program" {" ".join(words)} <&-', READ_FAULT
            yield f"{title}, input that can't be read", f'"$program" {" ".join(words)} 0>written', READ_FAULT
    threads = '"$program" threads alone.toml --turns 5 --history kept'
    yield "threads, a full device, complaints closed", f"{threads} >/dev/full 2>&-", (b"", 3, b"")
    yield "threads, all closed", f"{threads} <&- >&- 2>&-", (b"", 3, b"")
    yield "threads, a history without room", f"{threads[:-4]}/dev/full", fault
    both = ALONE + b"threads 1 nodes 3 entries 1 reports\n"
    yield "record, a history without room", '"$program" record topology.toml script --history /dev/full', fault
    yield "threads, a history in output", f"{threads[:-4]}/dev/stdout", (both, 0, b"")
    yield "a bad topology, output closed", '"$program" replay bad script >&-', fault
    yield "a bad word, all closed", '"$program" something <&- >&- 2>&-', (b"", 2, b"")
    yield "a wave, all closed", '"$program" replay topology.toml script <&- >&- 2>&-', (b"", 3, b"")
    yield "a full device, complaints closed", '"$program" tables >/dev/full 2>&-', (b"", 3, b"")
    yield "a full device for all", '"$program" tables >/dev/full 2>&1', (b"", 3, b"")


def alone(job):
    path, (title, command, wanted) = job
    with tempfile.TemporaryDirectory() as room:
        answer = Program(path, room, "").shell(command)
        kept = read(room, "kept") if os.path.exists(os.path.join(room, "kept")) else ALONE
        parts = parts_in(room)
    wrong = [] if answer == wanted else [f"{title}: {answer}, wanted {wanted}"]
    wrong += [f"{title}: {it} is left" for it in parts]
    return 1, wrong if kept == ALONE else [*wrong, f"{title}: the history is {kept}"]


def compiled(room):
    made = os.path.join(room, "devices.so")
    subprocess.run(["cc", "-O2", "-shared", "-fPIC", "-o", made, os.path.join(HERE, "devices.c")], check=True)
    return made


def main():
    path = os.path.realpath(sys.argv[1])
    with tempfile.TemporaryDirectory() as room, multiprocessing.Pool() as pool:
        loaded = compiled(room)
        jobs = pool.map_async(tried, [(path, loaded, it, way) for it in RUNS for way in WAYS], chunksize=1)
        told = pool.map(alone, [(path, it) for it in by_themselves(path)], chunksize=1) + jobs.get()
    made, wrong = sum(it[0] for it in told), [line for it in told for line in it[1]]
    for line in wrong[:40]:
        print(f"failing-devices {line}")
    print(f"{made - len(wrong)} failing-devices passed, {len(wrong)} failed")
    return len(wrong) > 0


if __name__ == "__main__":
    sys.exit(main())
