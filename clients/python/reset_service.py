"""A client of the distributed reset service: one living process that answers commands.

    from reset_service import Session

    with Session("ring.toml") as session:
        session.step("request 1")                # Applied(), or Refused(reason="NotEnabled")
        print(session.moves())                   # what is allowed now, as commands
        for command in session.plan():           # repairs, and then a reset of every component
            print(command, session.step(command))
        print(session.check().violations)        # [] where no row of any table fails

It needs the standard library alone, and the program `reset-service` in the PATH or named by `program`.
"""
from __future__ import annotations

import os
import subprocess
import tempfile
from dataclasses import dataclass
from typing import Callable, Dict, Iterable, List, Optional, TypeVar, Union

# A line that is no command: its answer, `bad line N`, comes after all answers to the line before it.
MARK = "?"

# The first words of the commands that are answered by exactly one line, and need no mark.
ONE_LINE = frozenset("claim follow adopt request relay open join finish mend act fault".split())

T = TypeVar("T")


@dataclass(frozen=True)
class Applied:
    """The event was applied."""


@dataclass(frozen=True)
class Complete:
    """The event was applied, and the reset of this session is complete."""

    session: int


@dataclass(frozen=True)
class Disturbed:
    """The fault was done."""


@dataclass(frozen=True)
class Refused:
    """Nothing was changed, for this reason: a word that `reset-service explain` explains. It is false as a condition."""

    reason: str

    def __bool__(self) -> bool:
        """False: nothing was done, and a question wasn't answered."""
        return False


Answer = Union[Applied, Complete, Disturbed, Refused]


@dataclass(frozen=True)
class Node:
    """The registers of a node, and its application's local state as a text."""

    id: int
    root: int
    father: int
    distance: int
    phase: str
    session: int
    local: str


@dataclass(frozen=True)
class Violation:
    """A row of a table that fails at a node, over its link to another one."""

    node: int
    other: int
    family: str
    row: int


@dataclass(frozen=True)
class Drawn:
    """What `draw` did: this fault was drawn, as a command, and its answer is Disturbed or Refused."""

    fault: str
    answer: Answer


@dataclass(frozen=True)
class Quiet:
    """What `watch` did: the node sees no fault of the application, and asked for nothing."""


@dataclass(frozen=True)
class Alarm:
    """What `watch` did: the node sees this fault of the application, and the answer is that to its request."""

    violation: Violation
    answer: Answer


Reply = Union[Answer, Drawn, Quiet, Alarm]


@dataclass(frozen=True)
class Check:
    """What the checker finds."""

    violations: List[Violation]

    def __bool__(self) -> bool:
        """Whether it finds nothing."""
        return not self.violations


class BadLine(ValueError):
    """A line that isn't a command, or that is none of the commands which the call takes."""


class Ended(RuntimeError):
    """The process has ended: with this status, and with this on its standard error and as its last lines."""

    def __init__(self, status: Optional[int], error: str):
        super().__init__(f"reset-service ended with status {status}: {error.strip() or 'no message'}")
        self.status = status
        self.error = error


class Session:
    """A network that answers commands, from its booted configuration or from a snapshot; with `history` all that
    happens is kept in that file before it is answered, and a session that finds one there goes on after it.

    Each question about one node returns Refused where the node isn't there or is down. Each call raises Ended where the
    process has ended, as after `close`; to open a session raises it with what the process said where it begins none,
    and OSError where there is no such program. `opening` is the list of the lines that it began with.
    """

    def __init__(self, topology: str, *, snapshot: Optional[str] = None, history: Optional[str] = None,
                 sync: bool = True, program: str = "reset-service"):
        words = [program, "session", topology]
        if snapshot is not None:
            words += ["--from", snapshot]
        if history is not None:
            words += ["--history", history]
            if not sync:
                words.append("--no-sync")
        self.topology, self.program = topology, program
        self._lines = 0
        self._said = ""
        self._errors = tempfile.TemporaryFile()
        try:
            self._process = subprocess.Popen(words, stdin=subprocess.PIPE, stdout=subprocess.PIPE, stderr=self._errors)
        except BaseException:
            self._errors.close()
            raise
        try:
            self.opening = self.ask("")
        except BaseException:
            self.close()
            raise

    def __enter__(self) -> Session:
        return self

    def __exit__(self, *_: object) -> None:
        self.close()

    def close(self) -> int:
        """Ends the session, unless it has ended, and returns the exit status."""
        if not self._errors.closed:
            try:
                self._process.stdin.close()
            except BrokenPipeError:
                pass
            unread = self._process.stdout.read()
            self._process.stdout.close()
            self._process.wait()
            self._errors.seek(0)
            self._said = (unread + self._errors.read()).decode(errors="replace")
            self._errors.close()
        return self._process.returncode

    # ---- one line

    def step(self, command: str) -> Reply:
        """Does an event or a fault, such as `request 1`, `join 2`, `fault down 1 2`, `draw 5` or `watch 3`.

        Returns what was done: Drawn for `draw`, Quiet or Alarm for `watch`, and for all others Applied, Complete or
        Disturbed; or Refused. Raises BadLine for a line that isn't a command, for an empty line or a comment, which is
        then not sent, and for a question that is answered by anything but a refusal.
        """
        word = command.partition(" ")[0]
        if word in ONE_LINE:
            self._send(f"{command}\n", 1)
            answer = _answer(self._line())
            if answer is None:
                raise BadLine(f"no command: {command!r}")
            return answer
        if not command or word.startswith("#"):
            raise BadLine(f"an empty line or a comment, which nothing answers: {command!r}")
        reply = _READERS.get(word, _only)(self.ask(command))
        if reply is None:
            raise BadLine(f"no event and no fault, so `ask` takes it: {command!r}")
        return reply

    def ask(self, command: str) -> List[str]:
        """Returns the lines that any command is answered with, as they are, a refusal too; none for an empty line or a
        comment. Raises BadLine for a line that isn't a command."""
        self._send(f"{command}\n{MARK}\n", 2)
        mark = f"bad line {self._lines}"
        answer: List[str] = []
        try:
            while (line := self._line()) != mark:
                if line == f"bad line {self._lines - 1}":
                    self._line()
                    raise BadLine(f"no command: {command!r}")
                answer.append(line)
        except Ended as ended:
            raise Ended(ended.status, "\n".join([*answer, ended.error])) from None
        return answer

    # ---- questions

    def moves(self, node: Optional[int] = None) -> Union[List[str], Refused]:
        """The events that are allowed now, as commands: of all nodes, or of one."""
        return self._question("moves", node, lambda lines: [line.removeprefix("move ") for line in lines])

    def invariants(self) -> Dict[int, Optional[str]]:
        """For each component, by its leader, what is wrong with the application's invariant, or None where it holds."""
        verdicts = [line.split(" ", 3)[1:] for line in self.ask("invariant")]
        return {int(leader): wrong[0] if wrong else None for leader, _, *wrong in verdicts}

    def ready(self) -> List[int]:
        """The nodes that have something to do."""
        (line,) = self.ask("ready")
        return [int(word) for word in line.split()[1:] if word != "-"]

    def show(self, node: Optional[int] = None) -> Union[List[Node], Refused]:
        """The nodes that are up, or one of them."""
        return self._question("show", node, lambda lines: [_node(line) for line in lines])

    def check(self, node: Optional[int] = None) -> Union[Check, Refused]:
        """The rows that fail: of all nodes, or of one."""
        return self._question("check", node, lambda lines: Check([_violation(line) for line in lines[:-1]]))

    def explain(self, word: str) -> str:
        """What a word of an answer means, such as the reason of a refusal."""
        return "".join(line + "\n" for line in self.ask(f"explain {word}"))

    def snapshot(self) -> str:
        """The configuration as a text that `--from` reads back."""
        return "".join(line + "\n" for line in self.ask("snapshot"))

    def plan(self) -> List[str]:
        """Repairs and a reset that lead from here to a network in which every node has just restarted, as commands."""
        snapshot = self.snapshot()
        file = tempfile.NamedTemporaryFile("w", suffix=".snapshot", delete=False)
        try:
            with file:
                file.write(snapshot)
            words = [self.program, "plan", self.topology, "--from", file.name]
            ran = subprocess.run(words, stdout=subprocess.PIPE, stderr=subprocess.PIPE, text=True)
        finally:
            os.unlink(file.name)
        if ran.returncode:
            raise Ended(ran.returncode, ran.stdout + ran.stderr)
        return [line for line in ran.stdout.splitlines() if not line.startswith("#")]

    def run(self, commands: Iterable[str]) -> List[Reply]:
        """Does events and faults one after the other, and returns what `step` returns of each."""
        return [self.step(command) for command in commands]

    def _question(self, command: str, node: Optional[int], read: Callable[[List[str]], T]) -> Union[T, Refused]:
        """What `read` makes of the lines that a question is answered with, or the refusal that is their only one."""
        lines = self.ask(command if node is None else f"{command} {node}")
        refusal = _only(lines)
        return refusal if isinstance(refusal, Refused) else read(lines)

    # ---- the process

    def _send(self, text: str, lines: int) -> None:
        """Sends a text of so many lines. Raises BadLine where it has more, and Ended."""
        if text.count("\n") != lines:
            raise BadLine(f"a line feed in a command: {text!r}")
        data = text.encode()
        self._lines += lines
        try:
            self._process.stdin.write(data)
            self._process.stdin.flush()
        except (BrokenPipeError, ValueError):  # a ValueError where it is closed
            raise self._ended() from None

    def _line(self) -> str:
        """The next line that the process answers. Raises Ended where there is none."""
        line = self._process.stdout.readline()
        if not line.endswith(b"\n"):
            raise self._ended(line.decode())
        return line[:-1].decode()

    def _ended(self, said: str = "") -> Ended:
        """Closes what is open, and says how the process has ended: with this, and what it has said besides."""
        status = self.close()
        return Ended(status, said + self._said)


def _answer(line: str) -> Optional[Answer]:
    """The answer to an event or a fault that a line is, or None."""
    word, _, rest = line.partition(" ")
    if word == "applied":
        return Applied()
    if word == "complete":
        return Complete(int(rest))
    if word == "disturbed":
        return Disturbed()
    if word == "refused":
        return Refused(rest)
    return None


def _only(lines: List[str]) -> Optional[Answer]:
    """The answer that is the only line, or None."""
    return _answer(lines[0]) if len(lines) == 1 else None


def _drawn(lines: List[str]) -> Optional[Reply]:
    """What the lines say that `draw` did; a refusal alone where the history is full."""
    if len(lines) == 2:
        return Drawn(lines[0].removeprefix("drawn "), _answer(lines[1]))
    return _only(lines)


def _watched(lines: List[str]) -> Optional[Reply]:
    """What the lines say that `watch` did."""
    if lines == ["quiet"]:
        return Quiet()
    if len(lines) == 2:
        _, node, other, row = lines[0].split()
        return Alarm(Violation(int(node), int(other), "app", int(row)), _answer(lines[1]))
    return _only(lines)


# How the answers of several lines are read, by the first word of the command.
_READERS: Dict[str, Callable[[List[str]], Optional[Reply]]] = {"draw": _drawn, "watch": _watched}


def _node(line: str) -> Node:
    words = line.split(" ", 10)
    return Node(int(words[1]), int(words[3]), int(words[4]), int(words[5]), words[7], int(words[8]), words[10])


def _violation(line: str) -> Violation:
    _, node, other, family, row = line.split()
    return Violation(int(node), int(other), family, int(row))
