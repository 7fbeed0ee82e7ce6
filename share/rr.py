"""Names that survive crashes, for a Python program: `rr shell --json` as a child process, over a pipe.

    import rr

    with rr.Names("data", client=7) as names:
        names.claim("printer", "room-4")
        print(names.look("printer"))    # Binding(name='printer', owner=7, value='room-4')

It needs the program rr, which `./build` makes, and nothing but Python's standard library, from 3.9 on. Copy this file beside your program.

A method returns once the registry has answered, and then the answer is kept: through the end of your program, a kill, and a restart. It
raises an error of this module where the answer isn't what was asked for, as `Taken`. One process at a time opens a folder. Threads of one
program may share a `Names`: it asks one line after another.
"""

from __future__ import annotations

import dataclasses
import json
import os
import re
import select
import subprocess
import tempfile
import threading
import time
from collections.abc import Iterable
from typing import Any

__all__ = [
    "Binding", "Node", "Names", "RegistryError", "Taken", "NotOwner", "Unknown", "Full", "ListFull",
    "Unacknowledged", "Unseen", "Refused", "Ended",
]  # fmt: skip

Answer = dict[str, Any]
Answers = list[Answer]


@dataclasses.dataclass(frozen=True)
class Binding:
    """A name that is owned: by the client of this number, with this value."""

    name: str
    owner: int
    value: str


@dataclasses.dataclass(frozen=True)
class Node:
    """A node: whether it is up, and if so the facts on its disk, the commands it has seen decided, those left, and whom it suspects.

    Of one that went down by itself, `failed` says why."""

    node: int
    up: bool
    facts: int = 0
    decided: int = 0
    left: int = 0
    suspects: frozenset[int] = frozenset()
    failed: str | None = None


class RegistryError(Exception):
    """An answer that isn't what was asked for."""


class Taken(RegistryError):
    """The name has an owner, which may be this client."""

    def __init__(self, name: str, owner: int) -> None:
        super().__init__(f"{name} is owned by client {owner}")
        self.name, self.owner = name, owner


class NotOwner(RegistryError):
    """Another client owns the name."""


class Unknown(RegistryError):
    """Nobody owns the name."""


class Full(RegistryError):
    """As many names are owned as there may be: 4,096."""


class ListFull(RegistryError):
    """All commands of the registry's life are used up. The command never counts."""


class Unacknowledged(RegistryError):
    """No answer came in some five seconds, as without a majority of nodes. It may count now, later or never; `again` asks for it once more."""


class Unseen(RegistryError):
    """A node couldn't look just now."""


class Refused(RegistryError):
    """The line isn't one that the shell takes, or its node is down. Nothing has changed."""


class Ended(RegistryError):
    """The shell has ended, or gave no answer in time. A change that was asked for may count now, later or never."""


Bindings = list[Binding]
Nodes = list[Node]
# The replies that aren't what was asked for.
REPLIES = {"unknown": Unknown, "notowner": NotOwner, "full": Full}
NAME = re.compile(r"[a-z0-9-]{1,64}")
VALUE = re.compile(r"[!-~]{0,64}")


class Names:
    """A registry that is open, asked as one client.

    folder: where it is kept; it's made if it isn't there. client: the number that owns what is claimed here, below 2**32. nodes: how many
    nodes a new registry has, from 1 to 7, or 3 if left out. without: nodes that stay down, as their disks are broken; their folders aren't
    touched, and the others have to be a majority. program: the program rr. timeout: the seconds after which a shell that says nothing
    counts as hanging; it answers by itself in some five. Errors: Ended where the folder can't be opened, with the reason; OSError where
    there is no such program.
    """

    def __init__(
        self,
        folder: str | os.PathLike[str],
        *,
        client: int = 0,
        nodes: int | None = None,
        without: Iterable[int] = (),
        program: str = "rr",
        timeout: float = 30.0,
    ) -> None:
        words = [program, "shell", "--json", "--dir", os.fspath(folder), "--client", str(client)]
        words += [] if nodes is None else ["--nodes", str(nodes)]
        left_out = ",".join(map(str, sorted(set(without))))
        words += ["--without", left_out] if left_out else []
        self.client = client
        self._timeout = timeout
        self._lock = threading.Lock()
        self._rest = b""
        self._changed = ""
        # What it says of its end goes to a file, so that a full pipe can't hold it up.
        self._said = tempfile.TemporaryFile()
        self._child = subprocess.Popen(words, bufsize=0, stdin=subprocess.PIPE, stdout=subprocess.PIPE, stderr=self._said)
        try:
            self.status()
        except BaseException:
            self.close()
            raise

    def __enter__(self) -> Names:
        return self

    def __exit__(self, *_: object) -> None:
        self.close()

    def claim(self, name: str, value: str = "") -> None:
        """Takes a free name, with a value. Errors: Taken, which tells the owner; Full, ListFull, Unacknowledged."""
        self._change(f"claim {_name(name)} {_value(value)}".rstrip(), name)

    def update(self, name: str, value: str = "") -> None:
        """Gives a name of this client another value. Errors: Unknown, NotOwner, ListFull, Unacknowledged."""
        self._change(f"update {_name(name)} {_value(value)}".rstrip(), name)

    def release(self, name: str) -> None:
        """Gives up a name of this client. Errors: as of `update`."""
        self._change(f"release {_name(name)}", name)

    def transfer(self, name: str, owner: int) -> None:
        """Hands a name of this client on to another. Errors: as of `update`."""
        self._change(f"transfer {_name(name)} {int(owner)}", name)

    def again(self) -> None:
        """Asks once more for the change that was Unacknowledged. It counts once. Errors: those of the change; Refused where there is none."""
        self._change("again", self._changed)

    def look(self, name: str) -> Binding | None:
        """Who owns a name; None if nobody does. It has all that this registry answered before. Errors: Unseen."""
        [answer] = self.ask(f"look {_name(name)}")
        return _binding(answer)

    def list(self, prefix: str = "") -> Bindings:
        """The names that are owned and begin so, in the order of their letters. Errors: Unseen."""
        first, *others = self.ask(f"list {_name(prefix)}" if prefix else "list")
        if first["kind"] == "unseen":
            raise Unseen("the list wasn't seen")
        return [binding for binding in map(_binding, others) if binding]

    def status(self) -> Nodes:
        """The nodes, in their order."""
        return [_node(answer) for answer in self.ask("status")]

    def ask(self, line: str) -> Answers:
        """The answers to any line of `rr shell` but `watch`, as objects of JSON. Errors: Refused, Ended."""
        if "\n" in line or "\r" in line or not line.strip() or line.split()[0] in ("watch", "quit", "exit"):
            raise Refused(f"{line!r} isn't a line with an answer")
        with self._lock:
            try:
                answers = self._answers(line)
            except BaseException:
                # An answer that comes later would be taken for that of another line.
                self._child.kill()
                raise
        if answers[0]["kind"] == "error":
            raise Refused(answers[0]["text"])
        return answers

    def close(self) -> None:
        """Ends the shell, and waits for it. What was answered is kept."""
        with self._lock:
            if self._child.stdin:
                self._child.stdin.close()
            try:
                self._child.wait(self._timeout)
            except subprocess.TimeoutExpired:
                self._child.kill()
                self._child.wait()
            if self._child.stdout:
                self._child.stdout.close()

    def _change(self, line: str, name: str) -> None:
        self._changed = name
        [answer] = self.ask(line)
        if answer["kind"] == "unacknowledged":
            raise Unacknowledged(f"{line}: it may count or not")
        if answer["kind"] == "full list":
            raise ListFull(answer["text"])
        if answer["reply"] == "taken":
            raise Taken(name, answer["owner"])
        if answer["reply"] in REPLIES:
            raise REPLIES[answer["reply"]](line)

    def _answers(self, line: str) -> Answers:
        if line == "status":
            # It has a line for each node, and doesn't say how many these are.
            self._write("status\nhelp")
            return list(iter(lambda: self._known(self._read()), None))
        self._write(line)
        first = self._read()
        return [first, *(self._read() for _ in range(first.get("names", 0)))]

    @staticmethod
    def _known(answer: Answer) -> Answer | None:
        return None if answer["kind"] == "help" else answer

    def _write(self, lines: str) -> None:
        try:
            assert self._child.stdin
            self._child.stdin.write(lines.encode() + b"\n")
        except (BrokenPipeError, ValueError):
            raise self._ended() from None

    def _read(self) -> Answer:
        """The next line, as an object."""
        until = time.monotonic() + self._timeout
        assert self._child.stdout
        while b"\n" not in self._rest:
            ready, _, _ = select.select([self._child.stdout], [], [], max(0.0, until - time.monotonic()))
            piece = os.read(self._child.stdout.fileno(), 65536) if ready else b""
            if not piece:
                raise self._ended()
            self._rest += piece
        line, _, self._rest = self._rest.partition(b"\n")
        return json.loads(line)

    def _ended(self) -> Ended:
        """What is told of a shell that has ended, or hangs."""
        try:
            status: int | None = self._child.wait(1)
        except subprocess.TimeoutExpired:
            return Ended(f"the shell gave no answer in {self._timeout:.0f} seconds")
        self._said.seek(0)
        said = self._said.read().decode(errors="replace").strip()
        return Ended(f"the shell ended with status {status}" + (f": {said}" if said else ""))


def _name(name: str) -> str:
    if not NAME.fullmatch(name):
        raise Refused(f"{name!r} is no name: 1 to 64 of a to z, 0 to 9 and -")
    return name


def _value(value: str) -> str:
    if not VALUE.fullmatch(value):
        raise Refused(f"{value!r} is no value: 0 to 64 printable letters of ASCII, without spaces")
    return value


def _binding(answer: Answer) -> Binding | None:
    if answer["kind"] == "unseen":
        raise Unseen(f"{answer['name']} wasn't seen")
    return Binding(answer["name"], answer["owner"], answer["value"]) if answer["kind"] == "bound" else None


def _node(answer: Answer) -> Node:
    if not answer["up"]:
        return Node(answer["node"], False, failed=answer.get("failed"))
    suspects = frozenset(node for node in range(7) if answer["suspects"] >> node & 1)
    return Node(answer["node"], True, answer["facts"], answer["decided"], answer["left"], suspects)
