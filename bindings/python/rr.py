"""One node of a Maroonburin cluster, for a program with its own network, disk and clock: over librr.so, which `./build --lib` makes.

A node makes no call of its own. It asks for one write at a time, and goes on once it is told that the write is synced:

    node = Node.open(1, 0, b"", b"", is_new=True)
    node.serve(write, send, answer)
    node.submit(7, 1, Op.CLAIM, b"lamp", b"blue")
    node.serve(write, send, answer)

`write(area, at, data) -> bool` makes a write and syncs the area; `send(to, data)` sends a message, which may be lost; `answer(ack)` tells a client.
The library is searched for where RR_LIB says, a file or a folder, else in `librr` at the top of the repository."""
from __future__ import annotations

import ctypes
import enum
import os
import pathlib
from collections.abc import Callable
from typing import NamedTuple


class Refusal(enum.IntEnum):
    """Why a call was refused."""

    OUT_OF_MEMORY = 1
    DEVICE = 2
    DAMAGED = 3
    FAILED = 4
    DOWN = 5
    BAD_NODES = 6
    BAD_NAME = 7
    BAD_VALUE = 8
    LIST_FULL = 9
    ROUNDS_OUT = 10
    MALFORMED = 11
    STRANGE_MARK = 12
    BUSY = 13
    TOO_LARGE = 16


class Refused(Exception):
    """A call was refused. Nothing has changed, unless the call says otherwise."""

    def __init__(self, refusal: Refusal) -> None:
        super().__init__(f"refused: {refusal.name}")
        self.refusal = refusal


class Op(enum.IntEnum):
    """The kinds of a command."""

    CLAIM = 1
    UPDATE = 2
    RELEASE = 3
    TRANSFER = 4


class Reply(enum.IntEnum):
    """The registry's reply to a command."""

    CLAIMED = 1
    UPDATED = 2
    RELEASED = 3
    TRANSFERRED = 4
    TAKEN = 5
    UNKNOWN = 6
    NOT_OWNER = 7
    FULL = 8


class Due(NamedTuple):
    """A write that is due: these bytes at a place of an area, 0 or 1, which is to be synced then."""

    area: int
    at: int
    data: bytes


class Message(NamedTuple):
    """A message for another node."""

    to: int
    data: bytes


class Ack(NamedTuple):
    """A request that is decided, with the registry's reply; with TAKEN the client that has the name."""

    client: int
    seq: int
    reply: Reply
    owner: int


class Holding(NamedTuple):
    """Who has a name, and its value."""

    owner: int
    value: bytes


class Status(NamedTuple):
    """How a node stands. Bit k of `suspects` is for node k."""

    decided: int
    facts: int
    nodes: int
    node: int
    suspects: int
    is_up: bool


class _Handle(ctypes.Structure):
    _fields_ = [("is_open", ctypes.c_uint8), ("at", ctypes.c_void_p)]


class _Call(ctypes.Structure):
    _fields_ = [("kind", ctypes.c_uint32), ("area", ctypes.c_uint32), ("at", ctypes.c_uint64), ("len", ctypes.c_size_t)]


class _Ack(ctypes.Structure):
    _fields_ = [("client", ctypes.c_uint32), ("reply", ctypes.c_uint32), ("seq", ctypes.c_uint64), ("owner", ctypes.c_uint32)]


class _Message(ctypes.Structure):
    _fields_ = [("kind", ctypes.c_uint32), ("to", ctypes.c_uint32), ("len", ctypes.c_size_t)]


class _Holding(ctypes.Structure):
    _fields_ = [("is_bound", ctypes.c_uint32), ("owner", ctypes.c_uint32), ("len", ctypes.c_size_t)]


class _Binding(ctypes.Structure):
    _fields_ = [("is_bound", ctypes.c_uint32), ("owner", ctypes.c_uint32), ("name_len", ctypes.c_size_t), ("len", ctypes.c_size_t)]


class _Standing(ctypes.Structure):
    _fields_ = [("decided", ctypes.c_uint64), ("facts", ctypes.c_uint64), ("nodes", ctypes.c_uint32), ("node", ctypes.c_uint32)]
    _fields_ += [("suspects", ctypes.c_uint32), ("is_up", ctypes.c_uint32)]


_U32, _U64, _SIZE, _BYTES = ctypes.c_uint32, ctypes.c_uint64, ctypes.c_size_t, ctypes.c_char_p
_NODE = ctypes.POINTER(_Handle)
_GIVEN = {
    "rr_version": [],
    "rr_open": [_NODE, _U32, _U32, _BYTES, _SIZE, _BYTES, _SIZE, _U32],
    "rr_close_handle": [_Handle],
    "rr_is_up": [_NODE],
    "rr_due": [_NODE, ctypes.POINTER(_Call), _BYTES, _SIZE],
    "rr_done": [_NODE, _U32],
    "rr_submit": [_NODE, _U32, _U64, _U32, _BYTES, _SIZE, _BYTES, _SIZE, _U32],
    "rr_hear": [_NODE, _BYTES, _SIZE],
    "rr_tick": [_NODE],
    "rr_suspect": [_NODE, _U32],
    "rr_snapshot": [_NODE],
    "rr_next_message": [_NODE, ctypes.POINTER(_Message), _BYTES, _SIZE],
    "rr_next_ack": [_NODE, ctypes.POINTER(_Ack)],
    "rr_look": [_NODE, _BYTES, _SIZE, ctypes.POINTER(_Holding), _BYTES, _SIZE],
    "rr_bound": [_NODE, _SIZE, ctypes.POINTER(_Binding), _BYTES, _SIZE, _BYTES, _SIZE],
    "rr_status": [_NODE, ctypes.POINTER(_Standing)],
    "rr_decided": [_NODE, _SIZE, ctypes.POINTER(_Ack), _BYTES, _SIZE, ctypes.POINTER(_SIZE)],
    "rr_watch": [_NODE, _SIZE, _BYTES, _SIZE, ctypes.POINTER(_SIZE)],
}


def _loaded() -> ctypes.CDLL:
    """The library, with the signatures of rr.h."""
    place = pathlib.Path(os.environ.get("RR_LIB") or pathlib.Path(__file__).resolve().parents[2] / "librr")
    library = ctypes.CDLL(str(place / "librr.so" if place.is_dir() else place))
    for name, given in _GIVEN.items():
        function = getattr(library, name)
        function.argtypes, function.restype = given, None if name == "rr_close_handle" else _U32
    return library


_RR = _loaded()


def version() -> int:
    """The version of the library's interface."""
    return _RR.rr_version()


class Node:
    """A node. One call at a time, on the thread that opened it."""

    def __init__(self) -> None:
        self._handle = _Handle(0, None)
        self._room = ctypes.create_string_buffer(4096)

    @classmethod
    def open(cls, nodes: int, node: int, first: bytes, second: bytes, is_new: bool) -> Node:
        """Opens one of the nodes, numbered from 0, over the bytes of its two areas, which were synced before they were read. A new node's areas are
        empty, and no others: a node whose files vanished is refused (DAMAGED)."""
        it = cls()
        it._ask("rr_open", nodes, node, first, len(first), second, len(second), int(is_new))
        return it

    def close(self) -> None:
        """Gives the node up: what isn't synced is lost, as in a crash."""
        given, self._handle = self._handle, _Handle(0, None)
        _RR.rr_close_handle(given)

    def __del__(self) -> None:
        self.close()

    def _ask(self, name: str, *given: object) -> None:
        number = getattr(_RR, name)(ctypes.byref(self._handle), *given)
        if number:
            raise Refused(Refusal(number))

    @property
    def is_up(self) -> bool:
        """Whether it is up, and no longer opens."""
        return _RR.rr_is_up(ctypes.byref(self._handle)) == 1

    def due(self) -> Due | None:
        """The write that is due. Make it, sync its area, and say so by `done`."""
        call = _Call()
        while True:
            self._ask("rr_due", ctypes.byref(call), self._room, len(self._room))
            if call.kind == 0:
                return None
            if call.len <= len(self._room):
                return Due(call.area, call.at, ctypes.string_at(self._room, call.len))
            self._room = ctypes.create_string_buffer(call.len)

    def done(self, is_done: bool) -> None:
        """The due write was made and synced, or it couldn't be: then the node is down (DEVICE)."""
        self._ask("rr_done", int(is_done))

    def submit(self, client: int, seq: int, op: Op, name: bytes, value: bytes = b"", owner: int = 0) -> None:
        """A client asks for a command, under a number of its own. The same number again is the same request, and done once."""
        self._ask("rr_submit", client, seq, int(op), name, len(name), value, len(value), owner)

    def hear(self, data: bytes) -> None:
        """A message came, as these bytes."""
        self._ask("rr_hear", data, len(data))

    def tick(self) -> None:
        """A tick of the host's clock, every 50 milliseconds or so."""
        self._ask("rr_tick")

    def suspect(self, bits: int) -> None:
        """These nodes are suspected to be down, and no others."""
        self._ask("rr_suspect", bits)

    def snapshot(self) -> None:
        """Begins to write a snapshot to the other area."""
        self._ask("rr_snapshot")

    def next_message(self) -> Message | None:
        """The oldest message that may leave. The node hears by itself what it says to itself."""
        message = _Message()
        while True:
            self._ask("rr_next_message", ctypes.byref(message), self._room, len(self._room))
            if message.kind < 2:
                return Message(message.to, ctypes.string_at(self._room, message.len)) if message.kind else None

    def next_ack(self) -> Ack | None:
        """The oldest request that was submitted here and is decided."""
        ack = _Ack()
        self._ask("rr_next_ack", ctypes.byref(ack))
        return Ack(ack.client, ack.seq, Reply(ack.reply), ack.owner) if ack.reply else None

    def look(self, name: bytes) -> Holding | None:
        """Who has a name, by what is decided and safe here."""
        holding, out = _Holding(), ctypes.create_string_buffer(64)
        self._ask("rr_look", name, len(name), ctypes.byref(holding), out, 64)
        return Holding(holding.owner, ctypes.string_at(out, holding.len)) if holding.is_bound else None

    def list(self) -> dict[bytes, Holding]:
        """The bound names in byte order. Each is looked up by its place, so this is for some thousands."""
        bound: dict[bytes, Holding] = {}
        while binding := self.bound(len(bound)):
            bound[binding[0]] = binding[1]
        return bound

    def bound(self, place: int) -> tuple[bytes, Holding] | None:
        """The bound name at a place, from 0 in byte order, and who has it; None behind the last."""
        it, name, out = _Binding(), ctypes.create_string_buffer(64), ctypes.create_string_buffer(64)
        self._ask("rr_bound", place, ctypes.byref(it), name, 64, out, 64)
        return (ctypes.string_at(name, it.name_len), Holding(it.owner, ctypes.string_at(out, it.len))) if it.is_bound else None

    def status(self) -> Status:
        """How it stands."""
        it = _Standing()
        self._ask("rr_status", ctypes.byref(it))
        return Status(it.decided, it.facts, it.nodes, it.node, it.suspects, bool(it.is_up))

    def decided(self, place: int) -> tuple[Ack, bytes] | None:
        """The request at a place of the decided list, from 0, with its reply, and the name that it is of."""
        ack, out, count = _Ack(), ctypes.create_string_buffer(64), _SIZE()
        self._ask("rr_decided", place, ctypes.byref(ack), out, 64, ctypes.byref(count))
        return (Ack(ack.client, ack.seq, Reply(ack.reply), ack.owner), ctypes.string_at(out, count.value)) if ack.reply else None

    def watch(self, start: int, name: bytes) -> int | None:
        """The first place of the decided list, from one on, whose command is of this name; None where there isn't one yet."""
        place = _SIZE()
        self._ask("rr_watch", start, name, len(name), ctypes.byref(place))
        return place.value if place.value < self.status().decided else None

    def serve(self, write: Callable[[int, int, bytes], bool], send: Callable[[int, bytes], None], answer: Callable[[Ack], None]) -> None:
        """Does all that is due: writes, messages and answers."""
        while True:
            while due := self.due():
                self.done(write(*due))
            while message := self.next_message():
                send(*message)
            while ack := self.next_ack():
                answer(ack)
            if not self.due():
                return
