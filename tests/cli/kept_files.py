"""The part of tests/cli/sessions.py that is about the file of a history: what a session finds there, a file or a device that
fails, standard streams that are closed or lead there, and links.
"""
import os
import resource
import shutil
import subprocess

from talks import FIRST_LINE, LONGEST, PATH, WAVE, content, in_shell, run, text_of, written


def histories(program, folder):
    topology = written(folder, "topology.toml", PATH)
    start = text_of([FIRST_LINE, *WAVE[:4]])
    for name, before, told, status, after in [
        ("an empty file is a new history", b"", b"applied\n", 0, text_of([FIRST_LINE, "request 1"])),
        ("a history goes on", start, b"resumed 4 entries 0 reports\nrefused NotEnabled\n", 0, start),
        ("a torn line is cut off", start + b"jo", b"resumed 4 entries 0 reports\nrefused NotEnabled\n", 0, start),
        ("a torn first line is cut off", b"reset-his", b"applied\n", 0, text_of([FIRST_LINE, "request 1"])),
        ("a bad line", start + b"bad\n", b"bad history BadLine 6\n", 2, start + b"bad\n"),
        ("another modulus", b"reset-history 3 8\n", b"bad history OtherModulus 8\n", 2, b"reset-history 3 8\n"),
        ("another version", b"reset-history 9\n", b"bad history BadVersion\n", 2, b"reset-history 9\n"),
        ("an entry that isn't allowed", start + b"open 3\njo", b"not enabled at 5\n", 1, start + b"open 3\njo"),
        ("reports are counted", text_of([FIRST_LINE, *WAVE * 2]), b"resumed 18 entries 2 reports\napplied\n", 0,
         text_of([FIRST_LINE, *WAVE * 2, "request 1"])),
    ]:
        kept = written(folder, "day", before)
        ran = run(program, "session", topology, "--history", kept, given=b"request 1\n")
        yield name, (ran.stdout, ran.returncode, content(kept)) == (told, status, after)
        torn = status == 0 and not before.endswith(b"\n") and before != b""
        yield f"{name}: standard error", (b"cut off" in ran.stderr) == torn
    yield from beginnings(program, folder, topology)
    full = ["fault wave 1 normal 0"] * 999_999
    kept = written(folder, "day", text_of([FIRST_LINE, *full]))
    lines = ["request 1", "request 1", "draw 1", "ready", "watch 1", "fault down 1 2", "show 1"]
    ran = run(program, "session", topology, "--history", kept, "--no-sync", given=text_of(lines))
    yield "a full history", ran.stdout == text_of([
        "resumed 999999 entries 0 reports", "applied", "refused BookFull", "refused BookFull", "ready 2",
        "refused BookFull", "refused BookFull", "node 1 tree 3 2 2 wave initiate 0 local -"])
    yield "a full history verifies", run(program, "verify", topology, kept).returncode == 0


def beginnings(program, folder, topology):
    """A file is taken for a new history only where it has a part of the first line that a session writes there, and one of
    version 1 or 2, in which there is no line for a node that is down, doesn't go on. Others are left as they are."""
    for cut in range(1, len(FIRST_LINE) + 1):
        kept = written(folder, "day", FIRST_LINE[:cut].encode())
        ran = run(program, "session", topology, "--history", kept, given=b"request 1\n")
        told = (ran.stdout, ran.returncode, content(kept))
        yield f"{cut} bytes of a first line", told == (b"applied\n", 0, text_of([FIRST_LINE, "request 1"]))
    version = b"line 1: a session goes on with a history of version 3 alone"
    first = b"line 1: no line of a history"
    for text, told, reason in [
        (b'{"important": "data", "many": [1, 2, 3]}', b"bad history BadLine 1\n", first),
        (b"a file without a line feed " * 100, b"bad history BadLine 1\n", first),
        (b"reset-history 3 8", b"bad history BadLine 1\n", first),
        (FIRST_LINE.encode() + b"0", b"bad history BadLine 1\n", first),
        (b"reset-history 1\nrequest 1\n", b"bad history BadVersion\n", version),
        (b"reset-history 2 4294967296\nrequest 1\n", b"bad history BadVersion\n", version),
        (b"reset-history 2 4294967296\n", b"bad history BadVersion\n", version),
        (b"reset-history 2 8\nrequest 1\n", b"bad history OtherModulus 8\n", b"modulo 8"),
        (b"reset-history 2\nrequest 1\n", b"bad history BadLine 1\n", first),
        (b"reset-history 1 4294967296\n", b"bad history BadLine 1\n", first),
    ]:
        kept = written(folder, "day", text)
        ran = run(program, "session", topology, "--history", kept, given=b"fault off 1\n")
        yield f"{text[:30]!r}", (ran.stdout, ran.returncode, content(kept)) == (told, 2, text)
        yield f"{text[:30]!r}: standard error", reason in ran.stderr and b"cut off" not in ran.stderr


def fault(name, reason):
    """What standard error says of a session whose write to a file failed."""
    return f"write fault\nreset-service: {name}: {reason}\n".encode()


def faults(program, folder):
    topology, kept = written(folder, "topology.toml", PATH), os.path.join(folder, "day")
    bad = run(program, "session", written(folder, "bad.toml", b'nodes = []\nlinks = []\napp = "idle"\n'), "--history", kept)
    yield "a bad topology is refused", (bad.stdout, bad.returncode) == (b"bad topology NoNodes\n", 2)
    yield "a bad topology begins no history", not os.path.exists(kept)
    missing = run(program, "session", os.path.join(folder, "nosuch.toml"), "--history", kept)
    yield "nor does a missing one", missing.returncode == 3 and not os.path.exists(kept)
    snapshot = run(program, "session", topology, "--from", written(folder, "shot", b"node 9\n"), "--history", kept)
    yield "nor does a bad snapshot", snapshot.returncode == 2 and not os.path.exists(kept)
    with open("/dev/full", "wb") as full:
        ran = subprocess.run([program, "session", topology, "--history", kept], input=b"request 1\n", stdout=full,
                             stderr=subprocess.PIPE, timeout=LONGEST)
    yield "answers that can't be written", (ran.returncode, ran.stderr) == (3, fault("standard output", "No space left on device"))
    yield "are of entries that are kept", content(kept) == text_of([FIRST_LINE, "request 1"])
    ran = run(program, "session", topology, "--history", "/dev/full", given=b"request 1\n")
    why = fault("/dev/full", "No space left on device")
    yield "a history that can't be written", (ran.stdout, ran.returncode, ran.stderr) == (b"", 3, why)
    for path, reason in [(f"{folder}/no/day", "No such file or directory"), (folder, "Is a directory")]:
        ran = run(program, "session", topology, "--history", path)
        yield f"nor one at {path}", (ran.stdout, ran.returncode, ran.stderr) == (b"", 3, fault(path, reason))
    unread, pipe = os.pipe()
    os.close(unread)
    os.remove(kept)
    ran = subprocess.run([program, "session", topology, "--history", kept], input=b"request 1\n", stdout=pipe,
                         stderr=subprocess.PIPE, timeout=LONGEST)
    os.close(pipe)
    yield "a pipe that nobody reads", (ran.returncode, ran.stderr) == (3, fault("standard output", "Broken pipe"))
    yield "gets no answer that isn't kept", content(kept) == text_of([FIRST_LINE, "request 1"])
    yield from fills(program, folder)
    started = run(program, "session", topology, "--from", written(folder, "shot", b"node 1 tree 1 1 0 wave normal 5 local -\n"),
                  given=b"show\n")
    yield "a session starts from a snapshot", started.stdout == b"node 1 tree 1 1 0 wave normal 5 local -\n"


def shared(program, folder):
    """Two sessions on one file: the one that writes second finds that it has grown, and neither writes over the other's lines."""
    topology, kept = written(folder, "topology.toml", PATH), os.path.join(folder, "shared")
    words = [program, "session", topology, "--history", kept]
    first = subprocess.Popen(words, stdin=subprocess.PIPE, stdout=subprocess.PIPE, stderr=subprocess.PIPE)
    yield "the first session keeps an entry", asked(first, WAVE[0]) == b"applied\n"
    second = subprocess.Popen(words, stdin=subprocess.PIPE, stdout=subprocess.PIPE, stderr=subprocess.PIPE)
    yield "the second goes on after it", second.stdout.readline() == b"resumed 1 entries 0 reports\n"
    yield "and keeps the next", asked(second, WAVE[1]) == b"applied\n"
    told, errors = first.communicate(text_of(["fault down 1 2", "request 3"]), timeout=LONGEST)
    said = b"history: another program has written to it, moved it or removed it\nwrite fault\n"
    yield "the first can't write over it", (told, errors, first.returncode) == (b"", said, 3)
    told, errors = second.communicate(text_of(WAVE[2:]), timeout=LONGEST)
    yield "and the second goes on", (told.splitlines()[-1], errors, second.returncode) == (b"complete 1", b"", 0)
    yield "the history has the lines of the second", content(kept) == text_of([FIRST_LINE, *WAVE])


def moved(program, folder):
    """A file that is replaced or removed under a session: the next entry is neither lost nor answered."""
    topology, kept = written(folder, "topology.toml", PATH), os.path.join(folder, "moved")
    for name, change in [("removed", lambda: os.remove(kept)), ("moved", lambda: os.rename(kept, kept + ".old")),
                         ("replaced", lambda: os.replace(written(folder, "other", text_of([FIRST_LINE, WAVE[0]])), kept))]:
        if os.path.exists(kept):
            os.remove(kept)
        session = subprocess.Popen([program, "session", topology, "--history", kept], stdin=subprocess.PIPE,
                                   stdout=subprocess.PIPE, stderr=subprocess.PIPE)
        yield f"before it is {name}", asked(session, WAVE[0]) == b"applied\n"
        change()
        told, errors = session.communicate(text_of([WAVE[1]]), timeout=LONGEST)
        yield f"after it is {name}", (told, session.returncode) == (b"", 3) and b"moved it or removed it" in errors
        left = content(kept) if os.path.exists(kept) else None
        yield f"what is there once it is {name}", left == (text_of([FIRST_LINE, WAVE[0]]) if name == "replaced" else None)


def pipes(program, folder):
    """A history in a pipe is read by who reads the pipe, and a write to one that nobody reads fails."""
    topology, pipe = written(folder, "topology.toml", PATH), os.path.join(folder, "pipe")
    os.mkfifo(pipe)
    words = [program, "session", topology, "--history", pipe]
    session = subprocess.Popen(words, stdin=subprocess.PIPE, stdout=subprocess.PIPE, stderr=subprocess.PIPE)
    with open(pipe, "rb") as reader:
        yield "an entry in a pipe is answered", asked(session, WAVE[0]) == b"applied\n"
        yield "and can be read", [reader.readline(), reader.readline()] == text_of([FIRST_LINE, WAVE[0]]).splitlines(True)
    told, errors = session.communicate(text_of([WAVE[1]]), timeout=LONGEST)
    yield "one that nobody reads isn't", (told, errors, session.returncode) == (b"", fault(pipe, "Broken pipe"), 3)


def asked(session, line):
    """The first line of the answer of a session that runs."""
    session.stdin.write(f"{line}\n".encode())
    session.stdin.flush()
    return session.stdout.readline()


def fills(program, folder):
    """A file that may not grow any more, as on a disk that is full."""
    topology, kept = written(folder, "topology.toml", PATH), os.path.join(folder, "filled")
    for limit in (0, 10, 100, 1000, 4999):
        if os.path.exists(kept):
            os.remove(kept)
        ran = subprocess.run([program, "session", topology, "--history", kept], input=text_of(WAVE * 100), timeout=LONGEST,
                             stdout=subprocess.PIPE, stderr=subprocess.PIPE, restore_signals=False,
                             preexec_fn=lambda: resource.setrlimit(resource.RLIMIT_FSIZE, (limit, limit)))
        whole = content(kept)[:content(kept).rfind(b"\n") + 1]
        good = (ran.returncode, ran.stderr) == (3, fault(kept, "File too large")) and len(content(kept)) == limit
        yield f"a disk that is full after {limit} bytes", good and text_of([FIRST_LINE, *WAVE * 100]).startswith(whole)
        yield "answers nothing that it hasn't kept", ran.stdout.count(b"\n") <= max(whole.count(b"\n") - 1, 0)
        entries = max(whole.count(b"\n") - 1, 0)
        again = run(program, "session", topology, "--history", kept, given=text_of((WAVE * 100)[entries:]))
        yield "a session goes on there", again.returncode == 0 and content(kept) == text_of([FIRST_LINE, *WAVE * 100])


def streams(program, folder):
    """Standard streams that are closed, so that the next file would get their descriptors, or that go to the history."""
    written(folder, "t.toml", PATH)
    written(folder, "in", text_of(WAVE))
    fresh, whole = text_of([FIRST_LINE]), text_of([FIRST_LINE, *WAVE])
    told = b"applied\n" * 8 + b"complete 1\n"
    session = '"$program" session t.toml --history day'
    closed = fault("standard output", "Bad file descriptor")
    for name, before, command, wanted, after in [
        ("output closed", None, f"{session} <in >&-", (b"", 3, closed), whole),
        ("output closed, goes on", whole, f"{session} <in >&-", (b"", 3, closed), whole),
        ("input closed", None, f"{session} <&-", (b"", 3, b"read fault\n"), fresh),
        ("input closed, goes on", whole, f"{session} <&-", (b"resumed 9 entries 1 reports\n", 3, b"read fault\n"), whole),
        ("errors closed", None, f"{session} <in 2>&-", (told, 0, b""), whole),
        ("errors closed, a torn line", whole[:-3], f"echo finish 3 | {session} 2>&-",
         (b"resumed 8 entries 0 reports\ncomplete 1\n", 0, b""), whole),
        ("all closed", None, f"{session} <&- >&- 2>&-", (b"", 3, b""), fresh),
        ("input and output closed", None, f"{session} <&- >&-", (b"", 3, b"read fault\n"), fresh),
        ("input from the history", whole, f"{session} <day", (b"", 2, b"history is an input\n"), whole),
        ("output to the history", whole, f"{session} <in >>day", (b"", 2, b"history is the output\n"), whole),
        ("output over the history", whole, f"{session} <in >day", (b"", 2, b"history is the output\n"), b""),
        ("a history in output", whole, f"{session[:-3]}/dev/stdout <in >>day", (b"", 2, b"history is the output\n"), whole),
        ("record, output to the history", whole, '"$program" record t.toml in --history day >>day',
         (b"", 2, b"history is the output\n"), whole),
        ("record, output closed", fresh, '"$program" record t.toml in --history day >&-', (b"", 3, b"write fault\n"), fresh),
        ("record, long answers, output closed", fresh,
         "for i in {1..500}; do echo show; done >long; \"$program\" record t.toml long --history day >&-",
         (b"", 3, b"write fault\n"), fresh),
    ]:
        kept = os.path.join(folder, "day")
        if os.path.exists(kept):
            os.remove(kept)
        if before is not None:
            written(folder, "day", before)
        answer = in_shell(program, folder, command)
        yield f"{name}: {answer}", answer == wanted
        yield f"{name}: the history", content(kept) == after and not os.path.exists(kept + ".part")


def links(program, folder):
    """A link is followed, and stays: what it leads to is replaced or goes on, or is made."""
    written(folder, "t.toml", PATH)
    written(folder, "in", text_of(WAVE))
    whole, old = text_of([FIRST_LINE, *WAVE]), text_of([FIRST_LINE, "request 1"])
    runs = {"record": '"$program" record t.toml in --history', "session": '"$program" session t.toml <in --history',
            "drive": '"$program" drive t.toml --steps 9 --seed 1 --history', "threads": '"$program" threads t.toml --turns 3 --history'}
    for name, command in runs.items():
        for target in ("real", "../links/real", f"{folder}/links/real", "sub/real", "second"):
            for there in (False, True):
                place = os.path.join(folder, "links")
                shutil.rmtree(place, ignore_errors=True)
                os.makedirs(f"{place}/sub")
                os.symlink("sub/real", f"{place}/second")
                os.symlink(target, f"{place}/day")
                end = os.path.realpath(f"{place}/day")
                if there:
                    with open(end, "wb") as file:
                        file.write(old)
                    os.chmod(end, 0o640)
                answer = in_shell(program, folder, f"{command} links/day")
                good = answer[1:] == (0, b"") and os.readlink(f"{place}/day") == target
                kept = content(end) if os.path.exists(end) else b""
                if name == "record":
                    good &= kept == whole
                elif name == "session":
                    good &= kept == (old + text_of(WAVE[1:]) if there else whole)
                else:
                    good &= kept.startswith(text_of([FIRST_LINE])) and kept != old
                left = sorted(it for _, _, files in os.walk(place) for it in files)
                good &= left == sorted(["day", "second", "real"]) and not os.path.islink(end)
                yield f"{name} over a link to {target}: {answer}", good and (not there or os.stat(end).st_mode & 0o777 == 0o640)
        shutil.rmtree(place)
        os.makedirs(place)
        os.symlink("day", f"{place}/day")
        why = b"reset-service: links/day: Too many levels of symbolic links\n" if name == "session" else b""
        yield f"{name} over a link to itself", in_shell(program, folder, f"{command} links/day")[1:] == (3, b"write fault\n" + why)
    os.remove(f"{place}/day")
    os.symlink("real", f"{place}/day")
    written(place, "real", old)
    stopped = in_shell(program, folder, '"$program" record t.toml nosuch --history links/day')
    yield "a run that stops leaves what was there", stopped[1] == 3 and content(f"{place}/real") == old
    yield "and the link", os.listdir(place) and os.readlink(f"{place}/day") == "real" and len(os.listdir(place)) == 2


PARTS = (histories, faults, shared, moved, pipes, streams, links)
