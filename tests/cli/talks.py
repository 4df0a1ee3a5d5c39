"""What the tests of sessions share: a path of three nodes and a wave there, and runs of the program."""
import os
import subprocess

LONGEST = 60  # seconds
PATH = b'nodes = [1, 2, 3]\nlinks = [[1, 2], [2, 3]]\napp = "idle"\n'
FIRST_LINE = "reset-history 3 4294967296"
WAVE = ["request 1", "relay 2 1", "relay 3 2", "open 3", "join 2", "join 1", "finish 1", "finish 2", "finish 3"]


def written(folder, name, text):
    path = os.path.join(folder, name)
    with open(path, "wb") as file:
        file.write(text)
    return path


def content(path):
    with open(path, "rb") as file:
        return file.read()


def run(program, *words, given=b""):
    return subprocess.run([program, *words], input=given, stdout=subprocess.PIPE, stderr=subprocess.PIPE, timeout=LONGEST)


def text_of(lines):
    return "".join(f"{it}\n" for it in lines).encode()


def in_shell(program, folder, command):
    """The answer to a command of bash, in which "$program" is the program."""
    ran = subprocess.run(["bash", "-c", command], stdout=subprocess.PIPE, stderr=subprocess.PIPE, cwd=folder,
                         env={**os.environ, "program": program}, stdin=subprocess.DEVNULL, timeout=LONGEST)
    return ran.stdout, ran.returncode, ran.stderr
