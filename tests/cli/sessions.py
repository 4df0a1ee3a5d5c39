#!/usr/bin/env python3
"""Holds conversations with `session` of the program named on the command line.

    tests/cli/sessions.py PROGRAM [SCRIPTS [KILLS [LINES]]]

- Random scripts with bad lines among them, sent in pieces that are cut anywhere: each line is answered as the independent
  model (model.py) answers it, the history that is kept has the entries that the model's answers tell, `verify` takes it,
  and a second session that goes on there shows the same network.
- Random scripts that are cut anywhere into writes, and the same lines as a script of `replay`: the answers are the same,
  up to the first bad line, at which `replay` ends.
- Sessions that are killed by SIGKILL at random moments under load: the history, without a torn last line, verifies and has
  the entry of each answer that came; a session that goes on there comes to the same end as one that wasn't killed.
- Each request for memory is refused in turn, and each read and write fails in turn, is interrupted, takes nothing or moves
  one byte: what is answered is a prefix of the answers, and the history has the entry of each answer that came, and is a
  prefix of the whole one but for a part of a line.
- A line is answered before the next one is sent; what has no line feed at the end of the input is a line; lines of any
  length, very many lines, in memory that doesn't grow; `exit`, `help` and `explain`; what a terminal shows; histories that
  are bad, empty, torn or full; devices that are full or fill up, and pipes that are closed; standard streams that are
  closed, or that go to the history; links in place of the history; inputs that can't be opened.
"""
import multiprocessing
import os
import pty
import random
import resource
import signal
import subprocess
import sys
import tempfile
import time

sys.dont_write_bytecode = True
sys.path += [f"{sys.path[0]}/../oracle"]
import answers
import kept_files
import makers
from talks import FIRST_LINE, LONGEST, PATH, WAVE, content, run, text_of, written

SCRIPTS = 300
REPLAYED = 1000
KILLS = 50
LINES = 1_000_000
MOST_MEMORY = 16 << 20  # bytes of address space
BAD = ["nonsense", "join", "join 1 2 3", "request 01", "claim -1", "fault tree 1 1 1", "REQUEST 1", " show", "show ",
       "x" * 256, "x" * 257, "x" * 5000, "act 1", "fault local 1 a b", "---", "reset-history 1", "\r", "?"]


def entry_of(line, answer):
    """The entry that a line leaves which was answered so, or None."""
    if not answer or answer[-1].startswith("refused"):
        return None
    word = line.split(" ")[0]
    if word == "draw":
        return answer[0].removeprefix("drawn ")
    if word == "watch":
        return f"request {line.split(' ')[1]}" if len(answer) == 2 else None
    return line if answers.entry_of_line(line.encode()) or word == "act" else None


def by_number(entry, network):
    """The entry with its case by number, as a history has it."""
    words = entry.split(" ")
    if words[0] == "act" and not words[2].isdigit():
        words[2] = str([name for name, _ in network.app.cases].index(words[2]) + 1)
    return " ".join(words)


def pieces(rng, text):
    """The text in pieces that are cut anywhere."""
    while text:
        count = rng.choice([1, 2, 3, 7, 20, 100, 1000, 8192, 20000])
        yield text[:count]
        text = text[count:]


# ---- random scripts beside the model

def conversation(job):
    """What is wrong with one random session, or None."""
    program, seed = job
    rng = random.Random(seed)
    maker = makers.Maker(rng)
    with tempfile.TemporaryDirectory(prefix="sessions-") as folder:
        while True:
            topology = maker.topology()
            try:
                network = answers.booted(topology)
                break
            except (answers.Fault, answers.Unsure):
                continue
        path, kept = written(folder, "topology.toml", topology), os.path.join(folder, "day")
        lines, told, entries = [], [], []
        for line, answer in maker.script(network):
            if rng.random() < 0.1:
                lines.append(rng.choice(BAD))
                told.append(f"bad line {len(lines)}")
            lines.append(line)
            if len(line.encode()) > 256:
                told.append(f"bad line {len(lines)}")
                continue
            told += answer
            entry = entry_of(line, answer)
            if entry is not None:
                entries.append(by_number(entry, network))
        script = text_of(lines)
        if rng.random() < 0.3:
            script = script.removesuffix(b"\n")
        process = subprocess.Popen([program, "session", path, "--history", kept, "--no-sync"], stdin=subprocess.PIPE,
                                   stdout=subprocess.PIPE, stderr=subprocess.PIPE)
        if rng.random() < 0.5:
            for piece in pieces(rng, script):
                process.stdin.write(piece)
                process.stdin.flush()
            said, error = process.communicate(timeout=LONGEST)
        else:
            said, error = process.communicate(script, timeout=LONGEST)
        if (said, error, process.returncode) != (text_of(told), b"", 0):
            return f"{seed}: the answers differ"
        if content(kept) != text_of([f"reset-history 3 {network.modulus}", *entries]):
            return f"{seed}: the history differs"
        if run(program, "verify", path, kept).returncode != 0:
            return f"{seed}: the history doesn't verify"
        shown = text_of(network.answer(["show"]))
        again = run(program, "session", path, "--history", kept, given=b"show\n")
        first, _, rest = again.stdout.partition(b"\n")
        if not first.startswith(f"resumed {len(entries)} entries ".encode()) or rest != shown:
            return f"{seed}: a second session doesn't go on there"
    return None


# ---- random scripts beside `replay`

def answered_in_pieces(words, script, rng):
    """What is answered to a script that comes in pieces which are cut anywhere, the status and standard error."""
    process = subprocess.Popen(words, stdin=subprocess.PIPE, stdout=subprocess.PIPE, stderr=subprocess.PIPE)
    for piece in pieces(rng, script):
        process.stdin.write(piece)
        process.stdin.flush()
    said, error = process.communicate(timeout=LONGEST)
    return said, process.returncode, error


def replayed(job):
    """What is wrong with one random script that a session and `replay` are given, or None."""
    program, seed = job
    rng = random.Random(f"replay {seed}")
    maker = makers.Maker(rng)
    with tempfile.TemporaryDirectory(prefix="sessions-") as folder:
        while True:
            topology = maker.topology()
            try:
                network = answers.booted(topology)
                break
            except (answers.Fault, answers.Unsure):
                continue
        path = written(folder, "topology.toml", topology)
        lines = [line for line, _ in maker.script(network)]
        if rng.random() < 0.3:
            lines.insert(rng.randrange(len(lines) + 1), rng.choice(BAD))
        script = text_of(lines)
        if rng.random() < 0.3:
            script = script.removesuffix(b"\n")
        wanted = run(program, "replay", path, written(folder, "script", script))
        said, status, error = answered_in_pieces([program, "session", path], script, rng)
        good = wanted.returncode == 0
        if (status, error) != (0, b"") or not (said == wanted.stdout if good else said.startswith(wanted.stdout)):
            return f"{seed}: `replay` answers otherwise"
    return None


# ---- sessions that are killed

def killed(job):
    """What is wrong with a session that was killed, or None."""
    program, seed = job
    rng = random.Random(f"kill {seed}")
    syncs = [] if rng.random() < 0.3 else ["--no-sync"]
    with tempfile.TemporaryDirectory(prefix="sessions-") as folder:
        topology, kept = written(folder, "topology.toml", PATH), os.path.join(folder, "day")
        words = [program, "session", topology, "--history", kept, *syncs]
        turns = 4000
        script = text_of(WAVE * turns)
        process = subprocess.Popen(words, stdin=subprocess.PIPE, stdout=subprocess.PIPE, stderr=subprocess.DEVNULL)
        os.set_blocking(process.stdin.fileno(), False)
        os.set_blocking(process.stdout.fileno(), False)
        sent, answered, end = 0, b"", time.monotonic() + rng.random() * 0.15
        while time.monotonic() < end and sent < len(script):
            try:
                sent += os.write(process.stdin.fileno(), script[sent:sent + rng.choice([10, 100, 3000])])
            except BlockingIOError:
                pass
            try:
                answered += os.read(process.stdout.fileno(), 65536)
            except BlockingIOError:
                pass
        process.send_signal(signal.SIGKILL)
        os.set_blocking(process.stdout.fileno(), True)
        answered += process.stdout.read()
        process.wait()
        process.stdin.close()
        process.stdout.close()
        if not os.path.exists(kept):
            return None if answered == b"" else f"{seed}: answered without a history"
        whole = content(kept)
        whole = whole[:whole.rfind(b"\n") + 1]
        entries = max(whole.count(b"\n") - 1, 0)
        if whole and run(program, "verify", topology, written(folder, "whole", whole)).returncode != 0:
            return f"{seed}: what a killed session kept doesn't verify"
        if entries < answered.count(b"\n"):
            return f"{seed}: {answered.count(bytes([10]))} answers, and {entries} entries"
        if not text_of([FIRST_LINE, *WAVE * turns]).startswith(whole):
            return f"{seed}: an entry that wasn't asked for"
        rest = text_of((WAVE * turns)[entries:entries + 900]) + b"show\n"
        again = run(program, "session", topology, "--history", kept, "--no-sync", given=rest)
        straight = run(program, "session", topology, given=text_of((WAVE * turns)[:entries + 900]) + b"show\n")
        if again.stdout.splitlines()[-3:] != straight.stdout.splitlines()[-3:] or again.returncode != 0:
            return f"{seed}: a session that goes on comes to another end"
        if content(kept) != text_of([FIRST_LINE, *(WAVE * turns)[:entries + 900]]):
            return f"{seed}: it kept something else"
    return None


# ---- single cases

def one_by_one(program, folder):
    """Each line is answered before the next one is sent."""
    topology, kept = written(folder, "topology.toml", PATH), os.path.join(folder, "day")
    process = subprocess.Popen([program, "session", topology, "--history", kept], stdin=subprocess.PIPE,
                               stdout=subprocess.PIPE)
    holds = True
    for n, line in enumerate(WAVE, 1):
        process.stdin.write(line.encode() + b"\n")
        process.stdin.flush()
        holds &= process.stdout.readline() in (b"applied\n", b"complete 1\n")
        holds &= content(kept) == text_of([FIRST_LINE, *WAVE[:n]])
    process.stdin.close()
    holds &= process.stdout.read() == b"" and process.wait(timeout=LONGEST) == 0
    yield "each line is answered before the next, when its entry is kept", holds


def ends(program, folder):
    topology = written(folder, "topology.toml", PATH)
    for name, given, told in [
        ("no input", b"", b""), ("a line without its end", b"request 1", b"applied\n"),
        ("exit", b"request 1\nexit\nshow\n", b"applied\n"),
        ("exit at the end", b"exit", b""), ("no exit", b"exit 1\nexit \nready\n", b"bad line 1\nbad line 2\nready -\n"),
        ("comments", b"# exit\n\n#" + b"x" * 255 + b"\nrequest 7\n", b"refused StrangeNode\n"),
    ]:
        ran = run(program, "session", topology, given=given)
        yield name, (ran.stdout, ran.stderr, ran.returncode) == (told, b"", 0)
    long = run(program, "session", topology, given=b"x" * 3_000_000 + b"\nrequest 1\n" + b"#" * 70_000 + b"\n" + b"y" * 300)
    yield "lines of any length", long.stdout == b"bad line 1\napplied\nbad line 3\nbad line 4\n"
    many = run(program, "session", topology, given=b"\n" * 2_000_000 + b"request 1\nx\n")
    yield "very many empty lines", many.stdout == b"applied\nbad line 2000002\n"


def limited(words, source, target):
    """The status of a run from a file to a file, with little memory."""
    with open(source, "rb") as given, open(target, "wb") as taken:
        return subprocess.run(words, stdin=given, stdout=taken, timeout=LONGEST, preexec_fn=lambda: resource.setrlimit(
            resource.RLIMIT_AS, (MOST_MEMORY, MOST_MEMORY))).returncode


def many(program, folder, lines=LINES):
    """So many lines of waves are answered, in memory that doesn't grow; so is a line that hardly ends."""
    topology, turns = written(folder, "topology.toml", PATH), lines // len(WAVE)
    with open(f"{folder}/many", "wb") as file:
        for _ in range(turns):
            file.write(text_of(WAVE))
    status = limited([program, "session", topology], f"{folder}/many", f"{folder}/answers")
    with open(f"{folder}/answers", "rb") as file:
        wanted = (line for n in range(turns) for line in [b"applied\n"] * 8 + [b"complete %d\n" % (n + 1)])
        same = all(line == it for line, it in zip(file, wanted)) and next(wanted, None) is None
    yield f"{turns * len(WAVE)} lines, status {status}", status == 0 and same
    with open(f"{folder}/many", "wb") as file:
        for _ in range(64):
            file.write(b"0" * 1_000_000)
        file.write(b"\nrequest 1\n")
    status = limited([program, "session", topology], f"{folder}/many", f"{folder}/answers")
    told = content(f"{folder}/answers")
    yield f"a line of 64 MB, status {status}", (status, told) == (0, b"bad line 1\napplied\n")


def helps(program, folder):
    topology = written(folder, "topology.toml", PATH)
    with open(f"{os.path.dirname(os.path.realpath(__file__))}/explained.txt", encoding="utf-8") as file:
        words = sorted({line.split(" | ")[0] for line in file if not line.startswith("#")}) + ["nosuchword", ""]
    for word in words:
        if word:
            told = run(program, "explain", word)
            wanted = told.stdout if word != "nosuchword" else b"no such word\n"
            yield f"`explain {word}` knows it", told.returncode == (2 if word == "nosuchword" else 0)
        else:
            wanted = b"no such word\n"
        ran = run(program, "session", topology, given=f"explain {word}\nready\n".encode())
        yield f"`explain {word}` in a session", ran.stdout == wanted + b"ready -\n"
    helped = run(program, "session", topology, given=b"help\n")
    lines = helped.stdout.decode().splitlines()
    yield "`help` has a line for each command", len(lines) == 31 and all(len(line) < 100 for line in lines)
    known = {line.split(" ")[0] for line in lines}
    yield "`help` has every command", known >= {it.split(" ")[0] for it in WAVE} | set(
        "claim follow adopt mend act show newest enabled ready moves check alarm watch snapshot fault draw explain help exit"
        .split(" "))
    bad = run(program, "session", topology, given=b"help me\nHELP\nEXPLAIN\nexplain " + b"x" * 249 + b"\nexplain " + b"x" * 248)
    yield "what is no help is bad", bad.stdout == b"bad line 1\nbad line 2\nbad line 3\nbad line 4\nno such word\n"
    ran = run(program, "session", topology, given=b"explain\nready\n")
    listed = run(program, "explain").stdout
    yield "`explain` alone lists the words", listed.startswith(b"`explain WORD` says what") and ran.stdout == listed + b"ready -\n"
    ran = run(program, "session", topology, given=b"explain tree 7\nexplain 'tree 7'\n")
    yield "a row has no quotes in a session", (ran.stdout.startswith(b"Row 7 of the tree table, `adopt-root`")
                                                and ran.stdout.endswith(b"no such word\n"))
    kept = os.path.join(folder, "helped")
    ran = run(program, "session", topology, "--history", kept, given=b"help\nexplain show\nrequest 1\n")
    yield "help leaves no entry", content(kept) == text_of([FIRST_LINE, "request 1"]) and ran.stdout.endswith(b"applied\n")


def on_terminal(words, typed):
    """The status of a run at a terminal, its standard output, and what the terminal shows of standard error."""
    near, far = pty.openpty()
    process = subprocess.Popen(words, stdin=far, stdout=subprocess.PIPE, stderr=far)
    os.close(far)
    if typed:
        os.write(near, typed)
    said = process.stdout.read()
    process.stdout.close()
    shown = b""
    try:
        while piece := os.read(near, 65536):
            shown += piece
    except OSError:  # nobody has the far end any more
        pass
    os.close(near)
    return process.wait(timeout=LONGEST), said, shown


def terminals(program, folder):
    topology = written(folder, "topology.toml", PATH)
    status, said, shown = on_terminal([program, "session", topology], b"request 1\nexit\n")
    hint = b"session: one command a line; help lists them, exit ends it"
    yield "a terminal shows what a session waits for", (status, said) == (0, b"applied\n") and shown.count(hint) == 1
    status, said, shown = on_terminal([program, "session", f"{folder}/nosuch"], b"")
    yield "not before it waits", status == 3 and hint not in shown
    piped = run(program, "session", topology, given=b"request 1\n")
    yield "a pipe has no hint", piped.stderr == b""
    status, said, shown = on_terminal([program], b"")
    yield "without words a terminal gets the short help", (status, said) == (0, run(program, "-h").stdout) and said


# ---- memory that is refused, and devices that fail

def kept_what_it_answered(folder, program, loaded, topology, script, whole, **how):
    """Whether a session under these conditions keeps all that it answers, and how many calls of the kind it made."""
    kept = os.path.join(folder, "kept")
    if os.path.exists(kept):
        os.remove(kept)
    told, tell = os.pipe()
    ran = subprocess.run([program, "session", topology, "--history", kept], input=script, stdout=subprocess.PIPE,
                         stderr=subprocess.PIPE, timeout=LONGEST, pass_fds=[tell],
                         env={**os.environ, "LD_PRELOAD": loaded, "COUNT_TO": str(tell), **how})
    os.close(tell)
    with open(told, "rb") as counted:
        calls = int((counted.read().split() or [0])[0])
    answered = ran.stdout.count(b"\n") if ran.stdout.endswith(b"\n") or not ran.stdout else ran.stdout.count(b"\n") + 1
    history = content(kept) if os.path.exists(kept) else b""
    entries = max(history.count(b"\n") - 1, 0)
    good = whole[0].startswith(ran.stdout) and whole[1].startswith(history) and answered <= entries
    ended = ran.returncode in (0, 3, 4) and (ran.returncode != 0 or (ran.stdout, history) == whole)
    return good and ended, calls


def trouble(program, folder):
    topology, script = written(folder, "topology.toml", PATH), text_of(WAVE * 3)
    answer = (["applied"] * 8 + ["complete {}"]) * 3
    told = text_of(it.format(n // 9 + 1) for n, it in enumerate(answer))
    whole = told, text_of([FIRST_LINE, *WAVE * 3])
    for name in ("refuse", "devices"):
        source, library = f"{os.path.dirname(os.path.realpath(__file__))}/../hostile/{name}.c", f"{folder}/{name}.so"
        subprocess.run(["cc", "-O1", "-shared", "-fPIC", "-o", library, source, "-ldl"], check=True)
        # A read of no bytes is the end of what is read.
        kinds = [{}] if name == "refuse" else [{"FAIL_CALL": call, "FAIL_HOW": how} for call in ("read", "write")
                                                for how in ("EIO", "EINTR", "zero", "one", "ones") if call + how != "readzero"]
        for kind in kinds:
            at, calls = 1, 1
            while at <= min(calls, 200):
                place = {"REFUSE_AT" if name == "refuse" else "FAIL_AT": str(at)}
                holds, calls = kept_what_it_answered(folder, program, library, topology, script, whole, **kind, **place)
                yield f"{name} {' '.join(kind.values())} {at}", holds
                at += 1


def main():
    program = os.path.abspath(sys.argv[1])
    scripts = int(sys.argv[2]) if len(sys.argv) > 2 else SCRIPTS
    kills = int(sys.argv[3]) if len(sys.argv) > 3 else KILLS
    lines = int(sys.argv[4]) if len(sys.argv) > 4 else LINES
    passed = failed = 0
    with multiprocessing.Pool() as pool:
        wrong = pool.map(conversation, [(program, n) for n in range(scripts)], 5)
        wrong += pool.map(replayed, [(program, n) for n in range(REPLAYED)], 10)
        wrong += pool.map(killed, [(program, n) for n in range(kills)], 2)
    for it in wrong:
        passed, failed = passed + (it is None), failed + (it is not None)
        if it is not None:
            print(f"sessions: {it}")
    parts = (one_by_one, ends, helps, terminals, *kept_files.PARTS, trouble)
    for part in (*parts, lambda program, folder: many(program, folder, lines)):
        with tempfile.TemporaryDirectory(prefix="sessions-") as folder:
            for name, holds in part(program, folder):
                passed, failed = passed + bool(holds), failed + (not holds)
                if not holds:
                    print(f"sessions: {name}: no")
    print(f"{passed} sessions passed, {failed} failed")
    return failed > 0


if __name__ == "__main__":
    sys.exit(main())
