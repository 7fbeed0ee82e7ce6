#!/usr/bin/env python3
"""Power cuts under hosts of the library: hostile/power_cuts.py LIBRR [--cuts 300] [--seed 1] [--nodes 3] [--liar]

LIBRR is the folder that hostile/unproved_lib makes. A process has all nodes of a cluster, and over them a host each that does one thing at a
time: it writes what is due, syncs it, says that it is done, sends, hears, ticks, answers. Messages are lost, repeated and reordered. The disks are
a model. The power is cut at one node or at all of them, at any moment. Then a node's files are what was synced, and of the write that wasn't
any part, or other bytes, or nothing; names that their folder's sync hasn't reached may be gone. Some writes fail, too. A node is opened again from
that, and may be cut while it opens.

All nodes have beginnings of one list, in which each reply is that of a small registry written here. What was acknowledged is in it, as it
was answered. A node that is opened again has at least what it had acknowledged, and its names are those of its beginning. At the end all go
on without cuts, and every request is answered. The script ends with 1 where something is otherwise. With --liar a host says that a write is
done before it syncs it: then the script has to end with 1."""
import argparse
import collections
import os
import pathlib
import random
import sys

sys.dont_write_bytecode = True
TREE = pathlib.Path(__file__).resolve().parent.parent
sys.path.insert(0, str(TREE / "bindings" / "python"))
MOST_NAMES = 4096
STEPS_OF_A_CUT = 120
CUTS_OF_A_CLUSTER = 60
CLIENTS = 4


class Wrong(Exception):
    """Something isn't as it has to be."""


def need(holds, what):
    if not holds:
        raise Wrong(what() if callable(what) else what)


class Names:
    """The registry of names, by its rules: each request counts once, and is answered as it was."""

    def __init__(self):
        self.bound, self.replies = {}, {}

    def reply(self, client, seq, op, name, value, to):
        """The reply to a request, and the owner that it tells."""
        if (client, seq) not in self.replies:
            self.replies[client, seq] = self.decide(client, op, name, value, to)
        return self.replies[client, seq]

    def decide(self, client, op, name, value, to):
        owner = self.bound.get(name, (None, None))[0]
        if op == rr.Op.CLAIM:
            if owner is not None:
                return rr.Reply.TAKEN, owner
            if len(self.bound) == MOST_NAMES:
                return rr.Reply.FULL, 0
            self.bound[name] = client, value
            return rr.Reply.CLAIMED, 0
        if owner is None:
            return rr.Reply.UNKNOWN, 0
        if owner != client:
            return rr.Reply.NOT_OWNER, 0
        if op == rr.Op.UPDATE:
            self.bound[name] = client, value
            return rr.Reply.UPDATED, 0
        if op == rr.Op.RELEASE:
            del self.bound[name]
            return rr.Reply.RELEASED, 0
        self.bound[name] = to, self.bound[name][1]
        return rr.Reply.TRANSFERRED, 0


class Disk:
    """The folder of a node. `names` are those that last; a file has what is synced, and one write that isn't."""

    FILES = ("a0", "a1", "opened")

    def __init__(self, rng):
        self.rng = rng
        self.there, self.lasting = set(), set()
        self.synced = {name: b"" for name in self.FILES}
        self.waiting = {}

    def make(self, name):
        self.there.add(name)

    def sync_folder(self):
        self.lasting |= self.there

    def write(self, name, at, data):
        need(name not in self.waiting, "a second write before the sync of the first")
        need(at <= len(self.synced[name]), "a write behind the end of its file")
        self.waiting[name] = at, data

    def with_write(self, name, data):
        """The file with this in the place of the write that waits."""
        at, _ = self.waiting[name]
        old = self.synced[name]
        return old[:at] + data + old[at + len(data) :]

    def sync(self, name):
        if name in self.waiting:
            self.synced[name] = self.with_write(name, self.waiting[name][1])
            del self.waiting[name]

    def torn(self, name):
        """What a crash may leave of a file: the write that waits is there, or not, or a part of it, or other bytes are."""
        at, data = self.waiting[name]
        old = self.synced[name]
        way, cut = self.rng.randrange(5), self.rng.randrange(len(data) + 1)
        if way == 0:
            return old
        if way == 1:
            return self.with_write(name, data)
        if way == 2:
            return self.with_write(name, data[:cut])
        if way == 3:
            return self.with_write(name, data[:cut] + self.rng.randbytes(self.rng.randrange(len(data) - cut + 1)))
        before = old[at : at + len(data)].ljust(len(data), b"\0")
        return self.with_write(name, bytes(self.rng.choice((x, y, self.rng.randrange(256))) for x, y in zip(before, data)))

    def crash(self):
        """The power is cut: what the files have behind it, all of which lasts."""
        for name in list(self.waiting):
            self.synced[name] = self.torn(name)
            del self.waiting[name]
        self.there = self.lasting | {name for name in self.there if self.rng.random() < 0.5}
        for name in self.FILES:
            if name not in self.there:
                self.synced[name] = b""
        self.lasting = set(self.there)

    def fail(self, name):
        """A write couldn't be made: it may have been in part. The host syncs the file before it reads it."""
        self.synced[name] = self.torn(name)
        del self.waiting[name]


class Host:
    """A node and its host, which does a step at a time."""

    def __init__(self, world, number):
        self.world, self.number, self.disk = world, number, Disk(world.rng)
        self.acked = 0  # the place behind the last that it acknowledged
        self.forget()

    def forget(self):
        self.node, self.due, self.is_synced, self.has_come_up = None, None, False, False
        self.compared = 0  # of its commands so many were compared

    def step(self):
        """The next thing that it does with its disk."""
        if self.node is None:
            self.open()
        elif self.due is None:
            self.ask()
        elif not self.is_synced:
            self.finish_write()
        else:
            self.node.done(True)
            self.due = None

    def open(self):
        """The files are made, and their names synced; then they are read. The file `opened` is made once the node was up."""
        if not {"a0", "a1"} <= self.disk.there:
            for name in ("a0", "a1"):
                self.disk.make(name)
            return
        self.disk.sync_folder()
        areas = [self.disk.synced[name] for name in ("a0", "a1")]
        is_new = "opened" not in self.disk.there and not any(areas)
        self.node = rr.Node.open(self.world.nodes, self.number, *areas, is_new=is_new)
        self.world.counts["openings"] += 1

    def ask(self):
        self.due = self.node.due()
        if self.due is not None:
            if self.world.is_liar:
                self.disk.sync(f"a{self.due.area}")
            self.disk.write(f"a{self.due.area}", self.due.at, self.due.data)
            self.is_synced = False
            self.world.counts["writes"] += 1
        elif "opened" not in self.disk.there:
            self.disk.make("opened")
        elif not self.has_come_up:
            self.disk.sync_folder()
            self.has_come_up = True
            self.world.check_opened(self)

    def finish_write(self):
        """It syncs the write, or can't. A liar leaves that until the next write, and says that it's done."""
        name = f"a{self.due.area}"
        if self.world.has_cuts and self.world.rng.random() < 0.004:
            self.disk.fail(name)
            self.refuse()
            return
        if not self.world.is_liar:
            self.disk.sync(name)
        self.is_synced = True

    def refuse(self):
        """It couldn't make a write: the node is down, and opened again from what is there."""
        try:
            self.node.done(False)
        except rr.Refused as refused:
            need(refused.refusal == rr.Refusal.DEVICE and not self.node.is_up, lambda: f"a write failed: {refused}")
            self.node.close()
            self.forget()
            self.world.counts["writes that failed"] += 1
            return
        raise Wrong("a write failed, and the node isn't down")

    def cut(self):
        if self.node is not None:
            self.node.close()
        at = "in a write" if self.due and not self.is_synced else "in an opening" if not self.has_come_up else "elsewhere"
        self.world.counts[f"cuts {at}"] += 1
        self.forget()
        self.disk.crash()

    def talk(self):
        """It sends what may leave, and tells its clients."""
        while message := self.node.next_message():
            self.world.send(*message)
        while ack := self.node.next_ack():
            self.world.acknowledged(self, ack)


class World:
    """A cluster, its network, its clients, and what has to hold of them."""

    def __init__(self, seed, nodes, is_liar, counts):
        self.rng, self.nodes, self.is_liar, self.counts = random.Random(seed), nodes, is_liar, counts
        self.has_cuts = True
        self.hosts = [Host(self, number) for number in range(nodes)]
        self.network = []
        self.names, self.list = Names(), []
        self.requests, self.acks, self.open, self.seqs = {}, {}, {}, [0] * CLIENTS

    def send(self, to, data):
        self.network.append((to, data))
        if len(self.network) > 400:
            self.network.pop(self.rng.randrange(len(self.network)))

    def deliver(self):
        if not self.network:
            return
        place = self.rng.randrange(len(self.network))
        to, data = self.network[place]
        chance = self.rng.random() if self.has_cuts else 1
        if chance >= 0.1:  # (else it comes again)
            self.network[place] = self.network[-1]
            self.network.pop()
        host = self.hosts[to]
        if host.has_come_up and not 0.1 <= chance < 0.17:  # (else it is lost)
            host.node.hear(data)

    def ask(self, client, host):
        """A client asks for something new, for what isn't answered yet, or once more for what is."""
        asked = self.open.get(client)
        if asked is None and self.acks and self.rng.random() < 0.1:
            asked = self.rng.choice([it for it in self.acks])
        elif asked is None:
            self.seqs[client] += 1
            asked = client, self.seqs[client]
            op = self.rng.choice(list(rr.Op))
            self.requests[asked] = op, b"name-%d" % self.rng.randrange(6), b"v%d" % self.rng.randrange(1000), self.rng.randrange(CLIENTS)
            self.open[client] = asked
        op, name, value, to = self.requests[asked]
        host.node.submit(*asked, op, name, value if op in (rr.Op.CLAIM, rr.Op.UPDATE) else b"", to)

    def follow(self, host):
        """What a node has decided is the list so far, or goes on from it."""
        count = host.node.status().decided
        for place in range(host.compared, count):
            ack, name = host.node.decided(place)
            if place == len(self.list):
                request = ack.client, ack.seq
                need(request in self.requests, lambda: f"place {place} of node {host.number} has {ack}, which nobody asked")
                need(name == self.requests[request][1], lambda: f"place {place} is of {name}, not of {self.requests[request][1]}")
                wanted = self.names.reply(*request, *self.requests[request])
                need((ack.reply, ack.owner) == wanted, lambda: f"place {place}: {ack}, wanted {wanted}")
                self.list.append((ack, name))
                self.counts["commands decided"] += 1
            need(self.list[place] == (ack, name), lambda: f"place {place}: node {host.number} has {ack}, and another one {self.list[place][0]}")
        host.compared = count
        return count

    def acknowledged(self, host, ack):
        """A node answers: its list has the request, with this reply."""
        self.follow(host)
        places = [place for place, (it, _) in enumerate(self.list[: host.compared]) if it == ack]
        need(places, lambda: f"node {host.number} acknowledged {ack}, which its list hasn't")
        host.acked = max(host.acked, places[0] + 1)
        self.acks[ack.client, ack.seq] = ack
        self.counts["answers"] += 1
        if self.open.get(ack.client) == (ack.client, ack.seq):
            del self.open[ack.client]

    def check_opened(self, host):
        """A node that is opened again has what it had acknowledged, and the names of its beginning of the list."""
        count = self.follow(host)
        need(count >= host.acked, lambda: f"node {host.number} has {count} commands, and had acknowledged the one at place {host.acked - 1}")
        self.check_names(host)

    def check_names(self, host):
        names = Names()
        for ack, _ in self.list[: host.compared]:
            names.reply(ack.client, ack.seq, *self.requests[ack.client, ack.seq])
        found = host.node.list()
        need(found == names.bound and list(found) == sorted(found), lambda: f"node {host.number} lists {found}, wanted {names.bound}")
        self.counts["lists of names compared"] += 1

    def step(self):
        """Something happens."""
        host = self.rng.choice(self.hosts)
        way = self.rng.randrange(100)
        if way < 40 or not host.has_come_up:
            host.step()
        elif way < 75:
            for _ in range(3):
                self.deliver()
        elif way < 90:
            host.talk()
        elif way < 96:
            self.ask(self.rng.randrange(CLIENTS), host)
        elif way < 99:
            host.node.tick()
        elif self.rng.random() < 0.2 and host.due is None:
            self.snapshot(host)

    def snapshot(self, host):
        try:
            host.node.snapshot()
            self.counts["snapshots"] += 1
        except rr.Refused as refused:
            need(refused.refusal == rr.Refusal.BUSY, lambda: f"a snapshot: {refused}")

    def cut(self):
        """The power is cut at some nodes, mostly while one of them writes."""
        for _ in range(self.rng.randrange(30)):
            if any(host.due and not host.is_synced for host in self.hosts) and self.rng.random() < 0.3:
                break
            self.step()
        fallen = self.hosts if self.rng.random() < 0.3 else [self.rng.choice(self.hosts)]
        for host in fallen:
            host.cut()
        if len(fallen) == self.nodes and self.rng.random() < 0.5:
            self.network.clear()
        self.counts["power cuts"] += 1
        # It may be cut again while they open.
        while self.rng.random() < 0.2:
            for _ in range(self.rng.randrange(6)):
                self.rng.choice(fallen).step()
            self.rng.choice(fallen).cut()
            self.counts["power cuts"] += 1

    def finish(self):
        """Without cuts and losses all that was asked is answered, and all nodes come to have the whole list."""
        self.has_cuts = False
        for number in range(400):
            for host in self.hosts:
                for _ in range(40):
                    host.step()
                    if host.has_come_up and host.due is None and host.node.due() is None:
                        break
                if host.has_come_up:
                    host.talk()
            for _ in range(3 * len(self.network)):
                self.deliver()
            for host in self.hosts:
                if host.has_come_up and number % 4 == 0:
                    host.node.tick()
            counts = [self.follow(host) for host in self.hosts if host.has_come_up]
            if number % 20 == 10 and not self.open and len(set(counts)) > 1:
                self.ask(0, self.hosts[0])
            if len(counts) < self.nodes:
                continue
            for client in list(self.open):
                self.ask(client, self.hosts[client % self.nodes])
            if not self.open and len(set(counts)) == 1:
                for host in self.hosts:
                    self.check_names(host)
                missing = [it for it in self.acks.values() if it not in {ack for ack, _ in self.list}]
                need(not missing, lambda: f"acknowledged, and not in the list: {missing}")
                return
        raise Wrong(f"it doesn't go on: {counts} of {len(self.list)} decided, {len(self.open)} requests are open")


def play(seed, cuts, nodes, is_liar, counts):
    """A cluster's life."""
    world = World(seed, nodes, is_liar, counts)
    # The first openings write, and are cut, too.
    for host in world.hosts:
        for _ in range(world.rng.randrange(3)):
            for _ in range(world.rng.randrange(20)):
                host.step()
            host.cut()
    for _ in range(cuts):
        for _ in range(world.rng.randrange(2 * STEPS_OF_A_CUT)):
            world.step()
        world.cut()
    world.finish()
    counts["clusters"] += 1


def main():
    words = argparse.ArgumentParser(description=__doc__, formatter_class=argparse.RawDescriptionHelpFormatter)
    words.add_argument("library", type=pathlib.Path)
    words.add_argument("--cuts", type=int, default=300)
    words.add_argument("--seed", type=int, default=1)
    words.add_argument("--nodes", type=int, default=3)
    words.add_argument("--liar", action="store_true")
    given = words.parse_args()
    os.environ["RR_LIB"] = str(given.library.resolve())
    global rr
    import rr

    counts, seed = collections.Counter(), given.seed
    try:
        while counts["power cuts"] < given.cuts:
            play(seed, min(CUTS_OF_A_CLUSTER, given.cuts - counts["power cuts"]), given.nodes, given.liar, counts)
            seed += 1
    except (Wrong, AssertionError) as why:
        print(f"hostile/power_cuts.py: seed {seed}, behind {counts['power cuts']} cuts: {why}")
        sys.exit(1)
    except Exception as why:  # a call is refused that mustn't be
        print(f"hostile/power_cuts.py: seed {seed}, behind {counts['power cuts']} cuts: {type(why).__name__}: {why}")
        sys.exit(1)
    finally:
        print(", ".join(f"{count} {what}" for what, count in sorted(counts.items())))


if __name__ == "__main__":
    main()
