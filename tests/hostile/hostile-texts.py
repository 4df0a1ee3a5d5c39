#!/usr/bin/env python3
"""Runs the program named on the command line on texts that nobody would write: TOML nested deeper than any reader
likes, numbers, dates and strings of all kinds, endless lines, control characters, and texts of a mebibyte of one thing.
Each run has to end within LONGEST seconds with the answer that stands beside.
"""
import multiprocessing
import os
import subprocess
import sys
import tempfile

HERE = os.path.dirname(os.path.realpath(__file__))
LONGEST = 20  # seconds
LIMIT = 1_048_576
GOOD = b'nodes = [1, 2, 3]\nlinks = [[1, 2], [2, 3]]\napp = "idle"\n'
REST = b'links = []\napp = "idle"\n'
DEEPEST = 80


def filled(front, piece, behind=b""):
    """A text of a mebibyte: as many pieces as there is room for."""
    return front + piece * ((LIMIT - len(front) - len(behind)) // len(piece)) + behind


def listed(name):
    """The lines of a file of hostile/, in which \\n and the like stand for such bytes."""
    with open(os.path.join(HERE, name), encoding="ascii") as file:
        return [it.encode().decode("unicode_escape").encode("latin-1") for it in file.read().split("\n")[:-1]]


# A topology of a mebibyte or nearly, and what is wrong with it.
LARGE = [
    (filled(GOOD, b"#"), ""),
    (filled(GOOD, b"\n"), ""),
    (filled(GOOD, b"\r\n"), ""),
    (filled(GOOD, b" \n"), ""),
    (filled(GOOD + b"# ", b"\xc3\xa9"), ""),
    (filled(GOOD, b"\n") + b"#", "TextTooLong"),
    (filled(b"", b"["), "NotToml"),
    (filled(GOOD + b"x = ", b"["), "NotToml"),
    (filled(GOOD + b"x = ", b"]"), "NotToml"),
    (filled(GOOD + b"x = ", b"{a="), "NotToml"),
    (filled(GOOD + b"x = ", b"[{a="), "NotToml"),
    (filled(GOOD + b"x", b".x", b" = 1\n"), "NotToml"),
    (filled(GOOD + b"[x", b".x", b"]\n"), "NotToml"),
    (filled(GOOD + b"[[x", b".x", b"]]\n"), "NotToml"),
    (filled(GOOD + b"x = '''", b"'"), "NotToml"),
    (filled(GOOD + b"x = ", b"1", b"\n"), "NotToml"),
    (filled(GOOD, b"[x]\n"), "NotToml"),
    (filled(GOOD, b"="), "NotToml"),
    (filled(GOOD, b"x"), "NotToml"),
    (filled(b"", b"nodes = [1]\n"), "NotToml"),
    (filled(b"", b"\xff"), "NotToml"),
    (filled(b"", b"\0"), "NotToml"),
    (filled(b"", b"\xef\xbb\xbf"), "NotToml"),
    (filled(GOOD + b'x = """', b"\\\n", b'"""\n'), "UnknownKey"),
    (filled(GOOD, b"x", b" = 1\n"), "UnknownKey"),
    (filled(GOOD + b'"', b"\\u0041", b'" = 1\n'), "UnknownKey"),
    (filled(GOOD + b"x = 0.", b"1", b"\n"), "UnknownKey"),
    (filled(GOOD + b"x = 1e", b"1", b"\n"), "NotToml"),
    (filled(GOOD + b"x = 0x", b"0", b"1\n"), "UnknownKey"),
    (filled(GOOD + b"x = [", b"{},", b"]\n"), "UnknownKey"),
    (filled(GOOD + b"x = [", b"[],", b"]\n"), "UnknownKey"),
    (filled(GOOD, b"[[x]]\n"), "UnknownKey"),
    (b"".join(b"k%d = 1\n" % n for n in range(80_000)), "MissingKey"),
    (GOOD + b"".join(b"k%d = 1\n" % n for n in range(80_000)), "UnknownKey"),
    (GOOD + b"".join(b"x.k%d = 1\n" % n for n in range(70_000)), "UnknownKey"),
    (GOOD + b"".join(b"[k%d]\n" % n for n in range(80_000)), "UnknownKey"),
    (filled(b"nodes = [", b"[],", b"]\n" + REST), "WrongKind"),
    (filled(b"nodes = [", b"'',", b"]\n" + REST), "WrongKind"),
    (filled(b'nodes = [1]\nlinks = []\napp = "', b"i", b'"\n'), "UnknownApp"),
    (filled(b"nodes = [", b"1,", b"]\n" + REST), "TooManyNodes"),
    (filled(b"nodes = [", b"0,", b"]\n" + REST), "TooManyNodes"),
    (filled(b'nodes = [1]\napp = "idle"\nlinks = [', b"[1,1],", b"]\n"), "TooManyLinks"),
]

# Behind a good topology, arrays and inline tables in one another.
DEEP = [
    (b"x = " + b"[" * DEEPEST + b"]" * DEEPEST, "UnknownKey"),
    (b"x = " + b"[" * (DEEPEST + 1) + b"]" * (DEEPEST + 1), "NotToml"),
    (b"x = " + b"[" * 200_000 + b"]" * 200_000, "NotToml"),
    (b"x = " + b"{a = " * 100_000 + b"1" + b"}" * 100_000, "NotToml"),
    (b"x = " + b"9" * 100_000, "NotToml"),
]

# The nodes, and what is wrong with them.
NODES = [
    (b"[4294967295]", "BadId 4294967295"),
    (b"[4294967296]", "WrongKind"),
    (b"[9223372036854775807]", "WrongKind"),
    (b"[-9223372036854775808]", "WrongKind"),
    (b"[18446744073709551617]", "NotToml"),
    (b"[0x1_0001]", "BadId 65537"),
    (b"[0xFFFF]", ""),
    (b"[1_0]", ""),
    (b"[+7]", ""),
    (b"[-0]", "BadId 0"),
    (b"[1e0]", "WrongKind"),
    (b"[true]", "WrongKind"),
    (b"[1979-05-27]", "WrongKind"),
    (b"{}", "WrongKind"),
    (b"{a = [1]}", "WrongKind"),
]

# The modulus of a good topology, and what is wrong then.
MODULI = [
    (b"2", ""),
    (b"4294967295", ""),
    (b"4294967296", ""),
    (b"0x1_0000_0000", ""),
    (b"+8", ""),
    (b"0", "WrongKind"),
    (b"1", "WrongKind"),
    (b"4294967297", "WrongKind"),
    (b"4294967298", "WrongKind"),
    (b"9223372036854775807", "WrongKind"),
    (b"-2", "WrongKind"),
    (b"-9223372036854775806", "WrongKind"),
    (b"18446744073709551618", "NotToml"),
    (b"08", "NotToml"),
    (b"2.0", "WrongKind"),
    (b"'2'", "WrongKind"),
    (b"[2]", "WrongKind"),
    (b"{}", "WrongKind"),
    (b"true", "WrongKind"),
    (b"2\nmodulus = 2", "NotToml"),
    (b"2\nModulus = 2", "UnknownKey"),
    (b"1\nModulus = 2", "UnknownKey"),
]

# The spelling of a good topology, what it is replaced by, and what is wrong then.
SPELLINGS = [
    (b"nodes", b"[a]\nnodes", "MissingKey"),
    (b"nodes", b"\xef\xbb\xbfnodes", ""),
    (b"nodes", b"\xef\xbb\xbf\xef\xbb\xbfnodes", "NotToml"),
    (b"\n", b"\r\n", ""),
    (b"\n", b"\r", "NotToml"),
    (b'"\n', b'"', ""),
    (b'"\n', b'"\r', "NotToml"),
    (b'"', b"'", ""),
    (b'"', b"'''", ""),
    (b'"idle"', b'"""\nidle"""', ""),
    (b"idle", b"\\u0069dl\\x65", ""),
    (b"idle", b"idle\\n", "UnknownApp"),
    (b"idle", b"idle\\u0000", "UnknownApp"),
    (b"nodes", b'"nodes"', ""),
    (b"app", b"'app'", ""),
    (b"nodes", b'"n\\u006fdes"', ""),
    (b"nodes", b"nodes.a", "WrongKind"),
    (b", ", b", # a\n  ", ""),
    (b"]\n", b",]\n", ""),
]


def topologies():
    yield from ((GOOD + it + b"\n", "UnknownKey") for it in listed("unknown-key"))
    yield from ((GOOD + it + b"\n", "NotToml") for it in listed("not-toml"))
    yield from ((GOOD + it + b"\n", fault) for it, fault in DEEP)
    yield from ((b"nodes = " + it + b"\n" + REST, fault) for it, fault in NODES)
    yield from ((GOOD + b"modulus = " + it + b"\n", fault) for it, fault in MODULI)
    yield from ((GOOD.replace(old, new), fault) for old, new, fault in SPELLINGS)
    yield from ((REST + it, "WrongKind") for it in (b"[nodes]\n", b"[[nodes]]\n"))
    yield from LARGE


# Scripts on the line of the nodes 1, 2 and 3 that write nothing.
SILENT = [
    b"#\0\r\xff\x7f\t\xef\xbb\xbf\n",
    b"\n\n\n",
    b"\n" * LIMIT,
    filled(b"", b"#\n"),
    filled(b"", b"#" * 256 + b"\n"),
]

# Scripts whose first line is bad.
BAD = [*(it * LIMIT for it in (b"\xff", b"x", b" ", b"\0", b"#")), b"open " + b"3" * 251, b"act 3 " + b"x" * 251]

# Scripts and their answers.
SCRIPTS = [
    (b"\n" * (LIMIT - 1) + b"x", "bad line 1048576"),
    (b"\n" * LIMIT + b"\n", "bad script TooLong"),
    (b"act 3 " + b"x" * 250, "refused NoSuchCase"),
    (b"act 4294967295 " + b"x" * 230 + b" 4294967295", "refused StrangeNode"),
    (b"fault off 1\nfault off 2\nfault off 3\n" + b"show\nnewest\n" * 80_000, "disturbed\ndisturbed\ndisturbed"),
    (b"fault tree 3 65535 65535 4294967295\nenabled 3", "disturbed\nenabled 3 tree 3,4 wave 1 act -"),
    (b"fault wave 1 initiate 4294967295\nfault tree 1 1 1 0\nopen 1\nenabled 1",
     "disturbed\ndisturbed\napplied\nenabled 1 tree 7 wave 7 act -"),
    (b"fault wave 2 reset 4294967295\nfault wave 3 reset 0\nenabled 2\nmend 2\nshow 2",
     "disturbed\ndisturbed\nenabled 2 tree - wave 10 act -\napplied\nnode 2 tree 3 3 1 wave reset 0 local -"),
]

# Histories and their answers; where none stands, the line that is bad.
BAD_HISTORIES = [
    (b"\0" * LIMIT, 1),
    (b"\n" * LIMIT, 1),
    (b"reset-history " + b"1" * LIMIT, 1),
    (b"reset-history 2 " + b"8" * LIMIT, 1),
    (b"reset-history 2 " + b"0" * LIMIT + b"8\n", 1),
    (b"reset-history 2 " + b" " * LIMIT + b"8\n", 1),
    (b"reset-history 2 18446744073709551624\n", 1),
    (b"reset-history 3 " + b"8" * LIMIT, 1),
    (b"reset-history 3 18446744073709551624\n", 1),
    (b"reset-history 2 8\n" + b"fault off 1\n" * 80_000, 2),
    (b"reset-history 3 8\nfault off " + b"1" * LIMIT, 2),
    (b"reset-history 2 8\n" + b"request 1\n" * 1000 + b"\0" * LIMIT, 1002),
    (b"reset-history 1\n" + b"\n" * LIMIT, 2),
    (b"reset-history 1\n" + b"#" * LIMIT, 2),
    (b"reset-history 1\n" + b"request 1\n" * 1000 + b"\0" * LIMIT, 1002),
]
HISTORIES = [
    (b"reset-history 1\n" + b"fault up 1 3\nfault down 1 3\n" * 50_000, "verified 100000 entries 0 reports"),
    (b"reset-history 1\n" + b"fault wave 3 reset 4294967295\nfinish 3\n" * 2 + b"request 3\n", "not enabled at 2"),
    (b"reset-history 1\nfault wave 3 initiate 4294967295\nopen 3\n", "verified 2 entries 0 reports"),
    (b"reset-history 2 4294967296\nfault wave 3 initiate 4294967295\nopen 3\n", "verified 2 entries 0 reports"),
    (b"reset-history 2 4294967295\n" + b"join 1\n" * 100_000, "bad history OtherModulus 4294967295"),
    (b"reset-history 3 4294967296\n" + b"fault off 1\nfault on 1\n" * 50_000, "verified 100000 entries 0 reports"),
    (b"reset-history 3 4294967296\nfault off 1\nfault off 2\nfault off 3\n" + b"fault off 1\n" * 80_000, "not enabled at 4"),
]


# ---- all of them

def status_of(answer):
    bad = answer.split("\n")[-1].startswith("bad ")
    return 2 if bad else 1 if answer.startswith("not enabled") else 0


def jobs(path):
    """The program, the word, the two texts and the answer."""
    yield from ((path, "replay", text, b"", answer and f"bad topology {answer}") for text, answer in topologies())
    bad_scripts = [(text, "bad line 1") for text in BAD + listed("bad-scripts")]
    scripts = [*((text, "") for text in SILENT), *bad_scripts, *SCRIPTS]
    yield from ((path, "replay", GOOD, text, answer) for text, answer in scripts)
    bad = [(text, f"bad history BadLine {n}") for text, n in BAD_HISTORIES]
    yield from ((path, "verify", GOOD, text, answer) for text, answer in bad + HISTORIES)


def wrong_of(job):
    """What is wrong with the program's answer, or None."""
    path, word, topology, text, answer = job
    wanted = f"{answer}\n".encode() if answer else b"", status_of(answer), b""
    with tempfile.TemporaryDirectory() as room:
        for name, it in (("topology.toml", topology), ("text", text)):
            with open(os.path.join(room, name), "wb") as file:
                file.write(it)
        try:
            ran = subprocess.run([path, word, "topology.toml", "text"], capture_output=True, cwd=room, timeout=LONGEST,
                                 stdin=subprocess.DEVNULL)
        except subprocess.TimeoutExpired:
            ran = subprocess.CompletedProcess([], "no end", b"", b"")
    told = ran.stdout, ran.returncode, ran.stderr
    if told == wanted:
        return None
    some = text if topology == GOOD else topology.removeprefix(GOOD)
    return f"{word} {some[:60]!r} .. {some[-20:]!r} of {len(some)} bytes: {told}, wanted {wanted}"


def main():
    with multiprocessing.Pool() as pool:
        told = pool.map(wrong_of, jobs(os.path.realpath(sys.argv[1])), chunksize=1)
    wrong = [it for it in told if it]
    for it in wrong[:40]:
        print(f"hostile-texts {it}")
    print(f"{len(told) - len(wrong)} hostile-texts passed, {len(wrong)} failed")
    return len(wrong) > 0


if __name__ == "__main__":
    sys.exit(main())
