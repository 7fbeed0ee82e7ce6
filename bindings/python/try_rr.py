#!/usr/bin/env python3
"""Tries rr.py: nodes whose areas and messages are in memory, random bytes for messages, and a device that fails at each of its calls. RR_LIB names
the library; the one argument is how many random messages there are. `full FOLDER` asks a node that has decided all commands but one, of node 0 of 1, over
the files of that folder."""
import collections
import pathlib
import random
import sys

import rr


class Memory:
    """A host whose areas are in memory. The write of number `fails_at` is torn."""

    def __init__(self, fails_at=0):
        self.areas, self.sent, self.acks, self.writes, self.fails_at = [bytearray(), bytearray()], collections.deque(), [], 0, fails_at

    def write(self, area, at, data):
        self.writes += 1
        whole = self.areas[area]
        assert at <= len(whole)
        if self.writes == self.fails_at:
            cut = random.randrange(len(data) + 1)
            whole[at : at + len(data)] = data[:cut] + random.randbytes(len(data) - cut)
            return False
        whole[at : at + len(data)] = data
        return True

    def serve(self, node):
        node.serve(self.write, lambda to, data: self.sent.append((to, data)), self.acks.append)

    def open(self, nodes=1, number=0):
        first, second = map(bytes, self.areas)
        node = rr.Node.open(nodes, number, first, second, is_new=not first and not second)
        self.serve(node)
        return node


def refusal(call, *given, **named):
    """Why a call is refused."""
    try:
        call(*given, **named)
    except rr.Refused as refused:
        return refused.refusal
    raise AssertionError("it isn't refused")


def random_messages(count):
    """Random bytes, and messages with changed bytes: no harm is done."""
    host = Memory()
    node = host.open(3, 0)
    node.submit(7, 1, rr.Op.CLAIM, b"printer", b"room-4")
    node.tick()
    host.serve(node)
    real = [data for _, data in host.sent]
    assert real
    said = collections.Counter()
    for number in range(count):
        data = bytearray(random.choice(real) if number % 2 else random.randbytes(random.choice((0, 1, 3, 8, 40, 200))))
        for _ in range(random.randrange(4)):
            if data:
                data[random.randrange(len(data))] = random.randrange(256)
        try:
            node.hear(bytes(data))
            said["heard"] += 1
        except rr.Refused as refused:
            said[refused.refusal.name] += 1
        if number % 1000 == 0:
            host.serve(node)
    assert set(said) <= {"heard", "MALFORMED"}, said
    assert node.is_up and said["heard"] and said["MALFORMED"]


def failing_device():
    """The device fails at each call in turn, with a torn write: nothing that was acknowledged is lost."""
    for fails_at in range(1, 60):
        host, acked, node = Memory(fails_at), set(), None
        for turn in range(8):
            try:
                node = None
                node = host.open()
                node.submit(7, turn, rr.Op.CLAIM, b"name-%d" % turn, b"x")
                host.serve(node)
            except rr.Refused as refused:
                assert refused.refusal == rr.Refusal.DEVICE, refused
                assert node is None or (not node.is_up and refusal(node.tick) == rr.Refusal.DOWN)
            acked |= {ack.seq for ack in host.acks}
        there = host.open().list()
        assert all(b"name-%d" % seq in there for seq in acked), (fails_at, acked, there)


def several_handles():
    """Two nodes of two clusters in one process, and a handle behind each refusal."""
    hosts = [Memory(), Memory()]
    nodes = [host.open() for host in hosts]
    for host, node, value in zip(hosts, nodes, (b"a", b"b")):
        node.submit(1, 1, rr.Op.CLAIM, b"lamp", value)
        host.serve(node)
    assert [node.look(b"lamp").value for node in nodes] == [b"a", b"b"]
    node = nodes[0]
    assert refusal(node.submit, 1, 2, rr.Op.CLAIM, b"LAMP", b"x") == rr.Refusal.BAD_NAME
    assert refusal(node.done, True) == rr.Refusal.STRANGE_MARK
    assert refusal(rr.Node.open, 1, 0, b"", b"", is_new=False) == rr.Refusal.DAMAGED
    node.close()
    for call in (node.tick, node.due, node.next_message, node.next_ack, node.status, node.snapshot, lambda: node.done(True), lambda: node.hear(b"")):
        assert refusal(call) == rr.Refusal.DOWN
    assert not node.is_up
    assert nodes[1].look(b"lamp").value == b"b"


def full_list(folder):
    """The last place is taken; then a new command is refused, and all else goes on."""
    host = Memory()
    host.areas = [bytearray((folder / name).read_bytes()) for name in ("a0", "a1")]
    node = host.open()
    node.submit(9, 1, rr.Op.CLAIM, b"last", b"x")
    host.serve(node)
    assert host.acks == [rr.Ack(9, 1, rr.Reply.CLAIMED, 0)], host.acks
    stands = node.status()
    assert stands.decided == 1_048_576 and node.decided(stands.decided) is None
    assert refusal(node.submit, 9, 2, rr.Op.CLAIM, b"late", b"x") == rr.Refusal.LIST_FULL
    assert node.status() == stands and node.is_up
    node.submit(9, 1, rr.Op.CLAIM, b"last", b"x")
    node.tick()
    host.serve(node)
    assert host.acks[1:] == host.acks[:1], "a request that is decided is answered again"
    assert node.look(b"last") == rr.Holding(9, b"x") and node.look(b"late") is None
    again = host.open()
    assert again.status().decided == stands.decided and again.look(b"last") == rr.Holding(9, b"x")


def main():
    random.seed(7)
    if sys.argv[1:2] == ["full"]:
        full_list(pathlib.Path(sys.argv[2]))
        print("rr.py: a full list: well")
        return
    count = int(sys.argv[1]) if len(sys.argv) > 1 else 20000
    assert rr.version() == 1
    for part in (several_handles, failing_device):
        part()
    random_messages(count)
    print(f"rr.py: two handles, 59 failing calls and {count} random messages: well")


if __name__ == "__main__":
    main()
