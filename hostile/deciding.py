"""Which event decided an instance, by a node written in Python from docs/BEHAVIOUR.md, for hostile/pages.py.

It is told what the JSON of a run's events has: what each node was told and heard, where it opened, and with how many facts. It
counts estimates, acknowledgements and refusals itself. A node's facts are kept in their order, so an opening takes the first ones."""

OPEN = 8


class Row:
    """Where an instance stands at a node, and what was heard of its present round."""

    def __init__(self):
        self.decided = None
        self.round, self.stamp, self.estimate, self.proposal = 0, 0, None, None
        self.forget()

    def forget(self):
        self.estimates, self.acks, self.nacks = {}, set(), set()


class Node:
    """A node that is up, as far as decisions go: what it sends and when its facts are synced changes none."""

    def __init__(self, nodes, node, facts):
        self.nodes, self.node = nodes, node
        self.rows, self.pool, self.suspects, self.first = {}, [], set(), 0
        self.facts = []
        for fact in facts:
            self.stage(fact)
        for row in self.rows.values():
            row.forget()

    def stage(self, fact):
        self.facts.append(fact)
        kind, instance, *rest = fact
        row = self.rows.setdefault(instance, Row())
        if kind == "enter":
            row.round, row.stamp, row.estimate = rest
            row.proposal = None
            row.forget()
        elif kind == "propose":
            row.proposal = rest[0]
        elif kind == "adopt":
            row.stamp, row.estimate = rest
        else:
            row.decided = rest[0]
            row.forget()
            self.pool = [it for it in self.pool if request_of(it) != request_of(rest[0])]
            while self.first in self.rows and self.rows[self.first].decided is not None:
                self.first += 1

    def open(self):
        found, instance = [], self.first
        while len(found) < OPEN:
            if not self.is_decided(instance):
                found.append(instance)
            instance += 1
        return found

    def is_decided(self, instance):
        return instance in self.rows and self.rows[instance].decided is not None

    def add(self, command):
        known = [it.decided for it in self.rows.values() if it.decided is not None] + self.pool
        if all(request_of(it) != request_of(command) for it in known):
            self.pool.append(command)

    def free(self, instance):
        others = [self.rows[it].estimate for it in self.open() if it != instance and it in self.rows]
        return next((it for it in self.pool if it not in others), None)

    def enter(self, instance, number, heard=None):
        row = self.rows.get(instance)
        if row is not None:
            self.stage(("enter", instance, number, row.stamp, row.estimate))
        else:
            command = self.free(instance) or heard
            if command is not None:
                self.stage(("enter", instance, number, 0, command))

    def round(self, instance):
        return self.rows[instance].round if instance in self.rows and not self.is_decided(instance) else 0

    def is_majority(self, some):
        return 2 * len(some) > self.nodes

    def is_due(self, instance):
        """Does what is due for an instance, and tells whether anything was."""
        row = self.rows.get(instance)
        if row is None:
            if self.free(instance) is None:
                return False
            self.enter(instance, 1)
        elif row.round % self.nodes != self.node:
            if row.round % self.nodes not in self.suspects or row.round == 2**31 - 1:
                return False
            self.enter(instance, row.round + 1)
        elif row.proposal is None:
            if not self.is_majority(row.estimates):
                return False
            best = max(stamp for stamp, _ in row.estimates.values())
            self.stage(("propose", instance, next(row.estimates[it][1] for it in sorted(row.estimates) if row.estimates[it][0] == best)))
        elif self.is_majority(row.acks):
            self.stage(("decide", instance, row.proposal))
        elif self.is_majority(row.acks | row.nacks) and row.round < 2**31 - 1:
            self.enter(instance, row.round + 1)
        else:
            return False
        return True

    def settle(self):
        while any(self.is_due(it) for it in self.open()):
            pass

    def hear(self, sender, message):
        kind, instance = message["kind"], message.get("instance")
        is_open = instance is not None and instance in self.open()
        if kind == "request":
            self.add(message["command"])
        elif kind == "suspects":
            self.suspects = (self.suspects | set(message["nodes"])) - {sender}
        elif kind == "decision" and not self.is_decided(instance):
            self.stage(("decide", instance, message["command"]))
        elif kind == "estimate" and is_open and message["round"] % self.nodes == self.node:
            self.add(message["command"])
            self.catch_up(instance, message["round"], message["command"])
            if self.round(instance) == message["round"]:
                self.rows[instance].estimates.setdefault(sender, (message["stamp"], message["command"]))
        elif kind == "proposal" and is_open and message["round"] % self.nodes == sender:
            self.add(message["command"])
            self.catch_up(instance, message["round"], message["command"])
            if self.round(instance) == message["round"] and self.rows[instance].stamp < message["round"]:
                self.stage(("adopt", instance, message["round"], message["command"]))
        elif kind in ("ack", "nack") and is_open and self.round(instance) == message["round"] and self.rows[instance].proposal is not None:
            (self.rows[instance].acks if kind == "ack" else self.rows[instance].nacks).add(sender)

    def catch_up(self, instance, number, command):
        if self.round(instance) < number:
            self.enter(instance, number, command)

    def advance(self):
        lowest = next((it for it in self.open() if self.round(it) > 0), None)
        if lowest is not None:
            self.enter(lowest, self.round(lowest) + 1)


def request_of(command):
    return command["client"], command["request"]


def submitted(words):
    """The command of a line `submit P CLIENT REQUEST OPERATION NAME ..`, as JSON has it."""
    client, request, operation, name, *more = words[2:]
    command = {"client": int(client), "request": int(request), "operation": operation, "name": name}
    if operation in ("claim", "update"):
        command["value"] = more[0] if more else ""
    elif operation == "transfer":
        command["owner"] = int(more[0])
    return command


def decisions(nodes, events, are_up=False):
    """The line of the event behind which a node first knows that an instance is decided, by the instance. On a tape all are up."""
    facts = [[] for _ in range(nodes)]
    up = [Node(nodes, it, []) if are_up else None for it in range(nodes)]
    sent, decided = {}, {}
    for it in events:
        line, words, kind = it["event"]["line"], it["event"]["text"].split(" "), it["kind"]
        node = int(words[1])
        if kind == "send":
            sent[it["number"]] = it
        if words[0] == "crash" or words[0] == "restart" and kind == "done":
            up[node] = None
        elif kind == "restart":
            facts[node] = facts[node][:it["facts"]]
            assert len(facts[node]) == it["facts"], (line, len(facts[node]), it["facts"])
            up[node] = Node(nodes, node, facts[node])
            assert up[node].first == it["decided"], (line, up[node].first, it["decided"])
        elif kind == "done" and words[0] in ("submit", "suspect", "tick", "advance", "hear"):
            here = up[node]
            told(here, words, sent)
            here.settle()
            for fact in here.facts[len(facts[node]):]:
                if fact[0] == "decide":
                    decided.setdefault(fact[1], line)
            facts[node] = here.facts[:]
    return decided


def told(node, words, sent):
    if words[0] == "submit":
        node.add(submitted(words))
    elif words[0] == "suspect":
        node.suspects = set(map(int, words[2].strip("-")))
    elif words[0] == "advance":
        node.advance()
    elif words[0] == "hear":
        message = sent[int(words[2])]
        node.hear(message["from"], message["message"])
