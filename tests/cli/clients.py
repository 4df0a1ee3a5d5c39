#!/usr/bin/env python3
"""Runs the clients of clients/ with the program named on the command line: the Python module call by call, the example of
docs/from-your-language.md, the bench, and the programs in Rust and C, where `rustc` and `cc` are there. A line says which
were left out.
"""
import os
import re
import shutil
import signal
import subprocess
import sys
import tempfile
import time

HERE = f"{os.path.dirname(os.path.realpath(__file__))}/../.."
sys.dont_write_bytecode = True
sys.path.insert(0, f"{HERE}/clients/python")
import reset_service as client

PATH = 'nodes = [1, 2, 3]\nlinks = [[1, 2], [2, 3]]\napp = "token"\n'
WAVE = ["relay 2 1", "relay 3 2", "open 3", "join 2", "join 1", "finish 1", "finish 2"]
MANY = 20_000  # steps one by one
LONGEST = 120  # seconds
PATIENCE = 20  # seconds that one call may take
# A program that answers as a session does whose history is full; to fill one takes long.
FULL = f"""#!{sys.executable}
import sys
for number, line in enumerate(sys.stdin, 1):
    if line != "\\n":
        print(f"bad line {{number}}" if line == "?\\n" else "refused BookFull", flush=True)
"""
# Two that are no session: one finds the empty line bad, one ends after that line and says something before.
ODD = "#!/bin/sh\necho bad line 1\necho bad line 2\nexec cat\n"
BRIEF = "#!/bin/sh\nread line\necho bad line 2\necho last words\n"
STRANGE = client.Refused("StrangeNode")
QUESTIONS = ["show", "show 2", "newest", "enabled 2", "ready", "check", "alarm 1", "moves", "invariant", "snapshot", "help"]


def late(*_):
    raise TimeoutError


def outcome(call, *words, **names):
    """What the call returns or the exception that it raises: a TimeoutError where it takes too long."""
    signal.alarm(PATIENCE)
    try:
        return call(*words, **names)
    except Exception as error:
        return error
    finally:
        signal.alarm(0)


def raises(kind, call, *words, **names):
    """Whether the call raises an exception of this kind."""
    return isinstance(outcome(call, *words, **names), kind)


def write(path, text):
    with open(path, "w", encoding="utf-8") as file:
        file.write(text)


def calls(program, folder):
    topology, day = f"{folder}/path.toml", f"{folder}/day"
    with client.Session(topology, history=day, program=program) as session:
        yield "a new session has nothing to say", session.opening == []
        yield "a step", session.step("request 1") == client.Applied()
        yield "a refusal is a value", session.step("open 3") == client.Refused("NotEnabled")
        yield "that is explained", session.explain("NotEnabled").startswith("No row of the tables")
        yield "a refusal with a number", session.step("fault up 1 2") == client.Refused("LinkIsThere")
        yield "moves", session.moves(2) == ["request 2", "relay 2 1"]
        yield "moves of all", session.moves() == ["request 2", "relay 2 1", "request 3", "act 3 1 2"]
        yield "ready", session.ready() == [2, 3]
        yield "steps", set(session.run(WAVE)) == {client.Applied()}
        yield "a completion", session.step("finish 3") == client.Complete(1)
        yield "a node", session.show(1) == [client.Node(1, 3, 2, 2, "normal", 1, "free/-/-")]
        yield "nodes", [node.id for node in session.show()] == [1, 2, 3]
        yield "a sound network", bool(session.check()) and session.check().violations == []
        yield "an invariant", session.invariants() == {3: None}
        yield "a fault", session.step("fault tree 1 1 1 0") == client.Disturbed()
        yield "a violation", session.check(1).violations == [client.Violation(1, 2, "tree", 7)]
        yield "a plan", session.plan()[0] == "adopt 1 2" and session.plan()[1:3] == ["request 3", "open 3"]
        for command in session.plan():
            reply = session.step(command)
        yield "that is carried out", reply == client.Complete(2) and bool(session.check())
        yield "a bad line is an exception", raises(client.BadLine, session.step, "nonsense")
        yield "a bad event too", raises(client.BadLine, session.step, "claim nobody")
        yield "a bad question too", raises(client.BadLine, session.ask, "nor this") and session.ready() == [3]


def resumptions(program, folder):
    topology, day, shot = f"{folder}/path.toml", f"{folder}/day", f"{folder}/shot"
    with client.Session(topology, history=day, program=program) as again:
        yield "a session goes on", again.opening[0].startswith("resumed ") and again.show(1)[0].session == 2
        write(shot, again.snapshot())
        yield "a second token", again.step("fault local 1 hold/-/-") == client.Disturbed()
        yield "an invariant that fails", again.invariants() == {3: "tokens 2"}
    with client.Session(topology, snapshot=shot, program=program) as started, open(shot, encoding="utf-8") as file:
        yield "and starts from a snapshot", started.snapshot() == file.read()


def refusals(program, folder):
    with client.Session(f"{folder}/path.toml", program=program) as session:
        for query in (session.show, session.check, session.moves):
            yield f"{query.__name__} of a node that isn't there", outcome(query, 9) == STRANGE
        yield "a refused check finds no sound network", not session.check(9)
        yield "a node goes down", session.step("fault off 2") == client.Disturbed()
        for query in (session.show, session.check, session.moves):
            yield f"{query.__name__} of a node that is down", outcome(query, 2) == STRANGE
        for query in ("show", "check", "moves", "enabled", "alarm", "watch"):
            yield f"the step {query} of one too", outcome(session.step, f"{query} 2") == STRANGE
        yield "the others are there", [node.id for node in session.show()] == [1, 3]


def draws(program, folder):
    topology, kinds = f"{folder}/path.toml", set()
    with client.Session(topology, program=program) as session, client.Session(topology, program=program) as twin:
        for seed in range(12):
            drawn = outcome(session.step, f"draw {seed}")
            told = isinstance(drawn, client.Drawn) and twin.step(drawn.fault) == drawn.answer
            yield f"draw {seed}", told and twin.snapshot() == session.snapshot()
            kinds.add(type(drawn.answer) if told else None)
    yield "some are done and some refused", kinds == {client.Disturbed, client.Refused}


def other_programs(program, folder):
    topology = f"{folder}/path.toml"
    for name, text in [("full", FULL), ("odd", ODD), ("brief", BRIEF)]:
        write(f"{folder}/{name}", text)
        os.chmod(f"{folder}/{name}", 0o755)
    with client.Session(topology, program=f"{folder}/full") as session:
        for command in ("draw 5", "watch 1", "fault down 1 2"):
            yield f"{command} in a full history", outcome(session.step, command) == client.Refused("BookFull")
    opened = len(os.listdir("/dev/fd"))
    odd = outcome(client.Session, topology, program=f"{folder}/odd")
    yield "a program that is no session", isinstance(odd, client.BadLine) and len(os.listdir("/dev/fd")) == opened
    with client.Session(topology, program=f"{folder}/brief") as session:
        session._process.wait()
        yield "what was said last", "last words" in str(outcome(session.step, "request 1"))


def watches(program, folder):
    with client.Session(f"{folder}/path.toml", program=program) as session:
        yield "nothing to see", outcome(session.step, "watch 1") == client.Quiet()
        session.step("fault local 2 hold/-/-")
        holds = client.Violation(2, 3, "app", 1)
        yield "an alarm", outcome(session.step, "watch 2") == client.Alarm(holds, client.Applied())
        yield "one more", outcome(session.step, "watch 2") == client.Alarm(holds, client.Refused("NotEnabled"))
        for question in QUESTIONS:
            yield f"the step {question}", raises(client.BadLine, session.step, question) and session.ready() == [2, 3]
        yield "an exit ends the session", raises(client.Ended, session.step, "exit") and session.close() == 0


def nothings(program, folder):
    for line in ("", "#", "# comment", "request 1\nrequest 2", "request \ud800", "draw \ud800"):
        with client.Session(f"{folder}/path.toml", program=program) as session:
            yield f"the step {line!r}", raises(ValueError, session.step, line)
            yield f"and what is asked after {line!r} is answered", outcome(session.ready) == [3]


def endings(program, folder):
    topology = f"{folder}/path.toml"
    with client.Session(topology, program=program) as killed:
        killed._process.kill()
        ended = outcome(killed.step, "request 1")
        yield "a dead process is an exception", isinstance(ended, client.Ended) and ended.status == -9
        yield "again", raises(client.Ended, killed.ready)
    closed = client.Session(topology, program=program)
    yield "a session is closed", closed.close() == 0 and closed.close() == 0
    tempfile.tempdir, names = folder, os.listdir(folder)
    for call in (lambda: closed.step("request 1"), lambda: closed.step("draw 5"), closed.ready, closed.plan):
        ended = outcome(call)
        yield "a closed session has ended", isinstance(ended, client.Ended) and ended.status == 0
    yield "and leaves no snapshot", os.listdir(folder) == names
    tempfile.tempdir = None
    opened = len(os.listdir("/dev/fd"))
    for path, status, said in [(f"{folder}/nosuch.toml", 3, "read fault"), (f"{folder}/bad.toml", 2, "bad topology NoNodes")]:
        ended = outcome(client.Session, path, program=program)
        yield "no session, with its message", isinstance(ended, client.Ended) and ended.status == status and said in str(ended)
        yield "which leaves nothing open", len(os.listdir("/dev/fd")) == opened
    missing = outcome(client.Session, topology, program=f"{folder}/nosuch")
    yield "no program", isinstance(missing, FileNotFoundError) and len(os.listdir("/dev/fd")) == opened


def documented(program, folder):
    with open(f"{HERE}/docs/from-your-language.md", encoding="utf-8") as file:
        code = re.search(r"^```python\n(.*?)^```$", file.read(), re.M | re.S)[1]
    room = f"{folder}/documented"
    os.makedirs(f"{room}/bin")
    os.symlink(program, f"{room}/bin/reset-service")
    with open(f"{room}/ring.toml", "wb") as file:
        subprocess.run([program, "topology", "ring", "6"], stdout=file, timeout=LONGEST)
    env = {**os.environ, "PATH": f"{room}/bin:{os.environ['PATH']}", "PYTHONPATH": f"{HERE}/clients/python"}
    ran = subprocess.run([sys.executable, "-B", "-c", code], cwd=room, env=env, stdout=subprocess.PIPE,
                         stderr=subprocess.STDOUT, text=True, timeout=LONGEST)
    comments = re.findall(r"^ *print\(.*\) +# (.*)$", code, re.M)
    yield "the documented example has lines", len(comments) > 4 and len(comments) == code.count("print(")
    yield "and prints them", ran.stdout.splitlines() == comments


def pace(program, folder):
    with client.Session(f"{folder}/path.toml", program=program) as session:
        began = time.monotonic()
        for _ in range(MANY):
            session.step("request 1")
        took = time.monotonic() - began
    print(f"clients: {MANY} steps one by one took {took:.2f} s")
    yield "many steps one by one", took < LONGEST


def fault_of(words):
    """Why these words end with status 1 or 2, by their standard error; nothing where they end otherwise."""
    ran = subprocess.run(words, stdout=subprocess.DEVNULL, stderr=subprocess.PIPE, text=True, timeout=LONGEST)
    return ran.stderr if ran.returncode in (1, 2) and "Traceback" not in ran.stderr else ""


def faults(name, words, program, folder):
    usage = fault_of(words)
    yield f"{name} without words", usage.startswith("usage: ") and usage.count("\n") == 1
    yield f"{name} without a program", "No such file" in fault_of([*words, f"{folder}/nosuch", f"{folder}/path.toml"])
    yield f"{name} with a bad topology", "'nodes' is empty" in fault_of([*words, program, f"{folder}/bad.toml"])
    yield f"{name} with a silent program", fault_of([*words, "true", f"{folder}/path.toml"]) != ""


def bench(program, folder):
    words = [sys.executable, f"{HERE}/clients/python/bench.py"]
    ran = subprocess.run([*words, program, f"{folder}/path.toml", "3"], stdout=subprocess.PIPE, text=True, timeout=LONGEST)
    yield "the bench", ran.returncode == 0 and ran.stdout.startswith("repairs: least ")
    for numbers in (["0"], ["00"], ["many"], ["3", "-"], ["3", "1", "1"]):
        usage = fault_of([*words, program, f"{folder}/path.toml", *numbers])
        yield f"the bench with {numbers}", usage.startswith("usage: ") and usage.count("\n") == 1
    yield from faults("the bench", words, program, folder)


def programs(program, folder):
    for compiler, source, words, wanted in [
        ("rustc", "rust/session.rs", ["-O", "-o"], "complete 1\n"), ("cc", "c/session.c", ["-O2", "-o"], "applied\n"),
    ]:
        if shutil.which(compiler) is None:
            print(f"clients: {source} was left out: there is no {compiler}")
            continue
        built = f"{folder}/{compiler}-built"
        compiled = subprocess.run([compiler, *words, built, f"{HERE}/clients/{source}"], timeout=LONGEST)
        yield f"{source} is compiled", compiled.returncode == 0
        for app in ("idle", "token", "mutex", "routes"):
            write(f"{folder}/app.toml", PATH.replace("token", app))
            ran = outcome(subprocess.run, [built, program, f"{folder}/app.toml"], stdout=subprocess.PIPE, text=True)
            yield f"{source} with {app}", getattr(ran, "returncode", None) == 0 and ran.stdout == wanted
        yield from faults(source, [built], program, folder)


def main():
    program = os.path.abspath(sys.argv[1])
    passed = failed = 0
    signal.signal(signal.SIGALRM, late)
    with tempfile.TemporaryDirectory(prefix="clients-") as folder:
        write(f"{folder}/path.toml", PATH)
        write(f"{folder}/bad.toml", 'nodes = []\nlinks = []\napp = "idle"\n')
        for part in (calls, resumptions, refusals, draws, watches, nothings, endings, other_programs, documented, pace, bench,
                     programs):
            for name, holds in part(program, folder):
                passed, failed = passed + bool(holds), failed + (not holds)
                if not holds:
                    print(f"clients: {name}: no")
    print(f"{passed} clients passed, {failed} failed")
    return failed > 0


if __name__ == "__main__":
    sys.exit(main())
