"""A disk is lost while nodes decide, and made anew by a rule: with nodes in Python, by docs/BEHAVIOUR.md alone.

The nodes are those of deciding.py, with what they send. Messages are lost, repeated and held back, also while a node has no disk. Nodes crash
and keep what was synced, with any part of what wasn't. A node is lost, and comes back with a disk that the rule fills. Of a majority
of the others H is the highest instance of which their disks have a fact.

- `right`: the others have decided all instances up to H + 8, and the new disk has just these decisions.
- `short`: the same up to H, without the eight.
- `blank`: a new disk is empty, as a folder that somebody puts in place by hand.

Behind `right` no two nodes ever decide differently, and a lost node never had a fact above H + 8. Behind each of the others two do, in one
of so many drawn runs: else the check of the first rule says nothing.
"""
import collections
import random

import deciding
from deciding import OPEN

RULES = ("right", "short", "blank")
MOST_MESSAGES = 300
# Epochs of a run before a loss, turns while the disk is made anew, and epochs behind that.
BEFORE, MEANWHILE, BEHIND = (1, 3), 60, (1, 5)
CLIENT = 7


class Talker(deciding.Node):
    """A node that is up, and what it owes: each message with the number of facts that have to be synced before it leaves."""

    def __init__(self, nodes, node, facts):
        self.owed, self.known, self.lowest = [], set(), list(range(OPEN))
        super().__init__(nodes, node, facts)
        self.owed = []
        self.restate()

    # ---- as deciding.py has them, but quicker: commands differ in their numbers alone

    def open(self):
        return self.lowest

    def add(self, command):
        if command["request"] not in self.known:
            self.known.add(command["request"])
            self.pool.append(command)

    def free(self, instance):
        taken = {self.rows[it].estimate["request"] for it in self.lowest if it in self.rows}
        return next((it for it in self.pool if it["request"] not in taken), None)

    # ---- what it owes

    def owe(self, to, kind, **more):
        self.owed.append((len(self.facts), to, {"kind": kind, **more}))

    def owe_others(self, kind, **more):
        for to in range(self.nodes):
            if to != self.node:
                self.owe(to, kind, **more)

    def owe_all(self, kind, **more):
        for to in range(self.nodes):
            self.owe(to, kind, **more)

    def enter(self, instance, number, heard=None):
        row = self.rows.get(instance)
        if row is not None and row.stamp < row.round and row.round % self.nodes != self.node:
            self.owe(row.round % self.nodes, "nack", instance=instance, round=row.round)
        super().enter(instance, number, heard)

    def stage(self, fact):
        super().stage(fact)
        kind, instance, *rest = fact
        if kind == "enter":
            self.owe(rest[0] % self.nodes, "estimate", instance=instance, round=rest[0], stamp=rest[1], command=rest[2])
        elif kind == "propose":
            self.owe_all("proposal", instance=instance, round=self.rows[instance].round, command=rest[0])
        elif kind == "adopt":
            self.owe(rest[0] % self.nodes, "ack", instance=instance, round=rest[0])
        else:
            self.known.add(rest[0]["request"])
            self.lowest = super().open()
            self.owe_others("decision", instance=instance, command=rest[0])

    def restate(self):
        for instance in self.open():
            row = self.rows.get(instance)
            if row is None:
                continue
            if row.stamp < row.round:
                self.owe(row.round % self.nodes, "estimate", instance=instance, round=row.round, stamp=row.stamp, command=row.estimate)
            else:
                self.owe(row.round % self.nodes, "ack", instance=instance, round=row.round)
            if row.proposal is not None:
                self.owe_all("proposal", instance=instance, round=row.round, command=row.proposal)

    def hear(self, sender, message):
        kind, instance = message["kind"], message.get("instance")
        if kind in ("ask", "estimate") and self.is_decided(instance):
            self.owe(sender, "decision", instance=instance, command=self.rows[instance].decided)
        elif kind in ("estimate", "proposal") and not self.is_decided(instance) and instance not in self.open():
            self.owe(sender, "ask", instance=self.first)
        super().hear(sender, message)

    def submit(self, command):
        self.add(command)
        self.owe_others("request", command=command)

    def tick(self):
        self.restate()
        if any(it > self.first and row.decided is not None for it, row in self.rows.items()):
            self.owe_others("ask", instance=self.first)


class World:
    """Nodes, their disks and the network, of which a seed draws what happens."""

    def __init__(self, seed, nodes):
        self.drawn, self.nodes = random.Random(seed), nodes
        # (a node's facts, and how many of them are synced)
        self.disks, self.firm = [[] for _ in range(nodes)], [0] * nodes
        self.up = [Talker(nodes, it, []) for it in range(nodes)]
        self.network, self.closed, self.count = [], set(), 0
        # What any node has decided, by the instance, and the first instance that two decided differently.
        self.decided, self.apart = {}, None
        # The node that will lose its disk, or did last.
        self.last = 0

    # ---- what happens

    def act(self, node, what, *more):
        """A node does this, and what is due then; what it has decided is compared."""
        here = self.up[node]
        getattr(here, what)(*more)
        here.settle()
        disk = self.disks[node]
        for fact in here.facts[len(disk):]:
            disk.append(fact)
            if fact[0] == "decide" and self.decided.setdefault(fact[1], fact[2]) != fact[2] and self.apart is None:
                self.apart = fact[1]

    def flush(self, node):
        """What the node has staged is synced, and its messages leave."""
        self.firm[node] = len(self.disks[node])
        here = self.up[node]
        self.network += [(node, to, message) for _, to, message in here.owed]
        here.owed = []

    def send(self, node):
        """What is free or backed by synced facts leaves."""
        here = self.up[node]
        leaving = [it for it in here.owed if it[0] <= self.firm[node]]
        here.owed = [it for it in here.owed if it[0] > self.firm[node]]
        self.network += [(node, to, message) for _, to, message in leaving]

    def deliver(self, most):
        """Some messages of those whose way is open are heard; rarely one comes again."""
        for _ in range(most):
            at = self.drawn.randrange(len(self.network) or 1)
            if at >= len(self.network):
                return
            sender, to, message = self.network[at]
            if (sender, to) in self.closed or self.up[to] is None:
                continue
            if self.drawn.random() > 0.03:
                self.network[at] = self.network[-1]
                self.network.pop()
            self.act(to, "hear", sender, message)

    def gather(self, some, most, is_old, is_cut):
        """Some nodes hear each other alone, one message after another, and at most so many. All else waits, and so does what was sent before
        if that isn't to be heard. It may be cut short once one of them decides."""
        waiting = [] if is_old else self.network
        self.network = self.network if is_old else []
        for node in some:
            self.flush(node)
        firsts = sum(self.up[it].first for it in some)
        while most and (at := next((at for at, it in enumerate(self.network) if it[0] in some and it[1] in some), None)) is not None:
            sender, to, message = self.network.pop(at)
            self.act(to, "hear", sender, message)
            self.flush(to)
            most -= 1
            if is_cut and sum(self.up[it].first for it in some) > firsts:
                break
        self.network = waiting + self.network

    def crash(self, node):
        """It keeps what is synced, and any part of what isn't."""
        left = self.drawn.randint(self.firm[node], len(self.disks[node]))
        self.disks[node] = self.disks[node][:left]
        self.firm[node], self.up[node] = left, None

    def start(self, node):
        self.up[node] = Talker(self.nodes, node, self.disks[node])
        self.firm[node] = len(self.disks[node])

    def submit(self, node):
        self.count += 1
        self.act(node, "submit", {"client": CLIENT, "request": self.count, "operation": "claim", "name": f"n{self.count}", "value": ""})

    def suspect(self, node):
        """It suspects some nodes, and goes on to the next round where it can."""
        self.up[node].suspects = {it for it in range(self.nodes) if it != node and self.drawn.random() < 0.7}
        self.act(node, "tick")

    def be_alone(self, node):
        """It is asked something, suspects others and goes on, and what it sends waits."""
        for _ in range(self.drawn.randint(1, OPEN)):
            self.submit(node)
        for _ in range(self.drawn.randint(1, 2)):
            if self.drawn.random() < 0.5:
                self.act(node, "advance")
            self.suspect(node)
        self.flush(node)

    def close_ways(self):
        """Some ways are closed for a while, and perhaps all of one node: what was sent there waits."""
        drawn, ways = self.drawn, [(a, b) for a in range(self.nodes) for b in range(self.nodes) if a != b]
        kept = drawn.random()
        self.closed = {way for way in ways if drawn.random() < kept * 0.6}
        if drawn.random() < 0.6:
            alone = drawn.randrange(self.nodes)
            self.closed |= {way for way in ways if alone in way}

    def lose_messages(self):
        """On some ways all that is under way is lost."""
        lost = {(a, b) for a in range(self.nodes) for b in range(self.nodes) if self.drawn.random() < 0.5}
        self.network = [it for it in self.network if it[:2] not in lost]

    def step(self):
        """Something happens at a node, or to it."""
        drawn = self.drawn
        node, way = drawn.randrange(self.nodes), drawn.random()
        if self.up[node] is None:
            if way < 0.3:
                self.start(node)
        elif way < 0.45:
            self.deliver(2 * self.nodes)
        elif way < 0.65:
            self.flush(node)
        elif way < 0.75:
            self.send(node)
        elif way < 0.85:
            self.submit(node)
        elif way < 0.92:
            self.act(node, "tick")
        elif way < 0.95:
            self.suspect(node)
        elif way < 0.98:
            self.act(node, "advance")
        else:
            self.crash(node)

    def together(self):
        """A majority of the nodes that are up; mostly the node that lost its disk, or will, is one of them. None where there is none."""
        up = [it for it in range(self.nodes) if self.up[it] is not None]
        if len(up) <= self.nodes // 2:
            return None
        some = self.drawn.sample(up, self.nodes // 2 + 1)
        if self.last not in some and self.up[self.last] is not None and self.drawn.random() < 0.7:
            some[0] = self.last
        return some

    def epoch(self):
        """For a while some nodes are apart from the others, or one is alone, or anything happens."""
        drawn, way, some = self.drawn, self.drawn.random(), self.together()
        if way < 0.3 and some:
            # (one may decide, and others of these not hear of it before they meet others)
            self.submit(drawn.choice(some))
            self.gather(some, 12 * self.nodes, False, True)
            self.gather(self.together(), 12 * self.nodes, True, drawn.random() < 0.5)
        elif way < 0.65 and some:
            for _ in range(drawn.randint(0, 2)):
                self.submit(drawn.choice(some))
            if drawn.random() < 0.3:
                self.suspect(drawn.choice(some))
            self.gather(some, drawn.randrange(12 * self.nodes), drawn.random() < 0.5, drawn.random() < 0.5)
        elif way < 0.75 and some:
            self.be_alone(drawn.choice(some))
        elif way < 0.85:
            self.lose_messages()
        else:
            self.close_ways()
            for _ in range(drawn.randrange(40)):
                self.step()
        for node in range(self.nodes):
            if self.up[node] is None and drawn.random() < 0.6:
                self.start(node)
        del self.network[: -MOST_MESSAGES]

    def pump(self, nodes, wanted):
        """These nodes hear all that they are sent, in its order, and what comes of it, while others are unreachable: until one has decided so
        many. Answers whether one has."""
        coming = collections.deque(it for it in self.network if it[0] in nodes and it[1] in nodes)
        waiting = [it for it in self.network if it[0] not in nodes or it[1] not in nodes]
        while coming and all(self.up[it].first < wanted for it in nodes):
            sender, to, message = coming.popleft()
            self.act(to, "hear", sender, message)
            self.network = []
            self.flush(to)
            coming += [it for it in self.network if it[1] in nodes]
            waiting += [it for it in self.network if it[1] not in nodes]
        self.network = waiting + [*coming]
        return any(self.up[it].first >= wanted for it in nodes)

    # ---- a loss

    def end_of(self, facts):
        """One above the highest instance that these facts name."""
        return max((it[1] + 1 for it in facts), default=0)

    def prefix(self, node):
        """What a node's synced facts decide without a gap."""
        found = {it[1]: it[2] for it in self.disks[node][: self.firm[node]] if it[0] == "decide"}
        commands = []
        while len(commands) in found:
            commands.append(found[len(commands)])
        return commands

    def lose(self, node, rule):
        """A node crashes without its disk, and others go on until its new disk can be made. Answers whether it came so far, and how far
        above H its facts were."""
        if self.drawn.random() < 0.3:
            self.lose_messages()
        others = [it for it in range(self.nodes) if it != node]
        read = self.drawn.sample(others, self.nodes // 2 + 1)
        above = self.end_of(self.disks[node])
        self.crash(node)
        self.disks[node], self.firm[node] = [], 0
        # (the majority is stopped, read and started)
        for it in read:
            if self.up[it] is not None:
                self.crash(it)
        end = max(self.end_of(self.disks[it]) for it in read)
        for it in read:
            self.start(it)
        wanted = {"right": end + OPEN, "short": end, "blank": 0}[rule]
        made = self.decide_up_to(read, wanted)
        if made is None:
            return False, above - end
        if rule == "blank":
            made = []
        self.disks[node] = [("decide", instance, command) for instance, command in enumerate(made)]
        self.start(node)
        return True, above - end

    def decide_up_to(self, nodes, wanted):
        """The longest list of these nodes, once it is so long. Others are unreachable meanwhile, and what they were sent waits."""
        for turn in range(MEANWHILE):
            for it in nodes:
                self.flush(it)
            if self.pump(nodes, wanted):
                return max((self.prefix(it) for it in nodes), key=len)
            for it in nodes:
                self.up[it].suspects = {other for other in range(self.nodes) if other not in nodes}
                self.act(it, "tick")
            self.catch_up(nodes)
            self.submit(nodes[turn % len(nodes)])
        return None

    def catch_up(self, nodes):
        """Nodes that are behind the highest round of the lowest instance go there, as a host may have them."""
        lowest = min(self.up[it].first for it in nodes)
        highest = max(self.up[it].round(lowest) for it in nodes)
        for it in nodes:
            while not self.up[it].is_decided(lowest) and 0 < self.up[it].round(lowest) < highest:
                self.act(it, "advance")


def play(seed, nodes, rule):
    """A run with one to a minority of lost disks, one after another. Answers the world, how many were made anew, and how far above H a lost
    node's facts were at most."""
    world = World(f"{seed} {nodes} {rule}", nodes)
    made, above = 0, -1
    for _ in range(world.drawn.randint(1, nodes // 2)):
        node = world.last = world.drawn.randrange(nodes)
        for _ in range(world.drawn.randint(*BEFORE)):
            world.epoch()
        if world.drawn.random() < 0.8 and world.up[node] is not None:
            world.be_alone(node)
        for it in range(nodes):
            if world.up[it] is None:
                world.start(it)
        is_made, was_above = world.lose(node, rule)
        made, above = made + is_made, max(above, was_above)
        if not is_made:
            break
        for _ in range(world.drawn.randint(*BEHIND)):
            world.epoch()
            if world.apart is not None:
                return world, made, above
    return world, made, above
