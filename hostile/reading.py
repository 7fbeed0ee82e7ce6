"""What the bytes of a node's two areas say, read by docs/FORMATS.md alone, as a check of its own."""
import collections

OPEN = 0xA5
KINDS = {1: "enter", 2: "propose", 3: "adopt", 4: "decide"}
OPERATIONS = {1: "claim", 2: "update", 3: "release", 4: "transfer"}

Fact = collections.namedtuple("Fact", "kind instance round stamp request words")
# How a node stands in an instance that it hasn't decided.
Open = collections.namedtuple("Open", "round stamp estimate proposal")


class Unreadable(Exception):
    """Bytes that are no node's areas."""


class Fields:
    """The fields of a payload, one after another."""

    def __init__(self, data):
        self.data, self.at = data, 0

    def bytes(self, count):
        field = self.data[self.at : self.at + count]
        if len(field) < count:
            raise Unreadable(f"cut short at {self.at}")
        self.at += count
        return field

    def number(self, count):
        return int.from_bytes(self.bytes(count), "big")

    def text(self):
        return self.bytes(self.number(1)).decode("ascii")

    def command(self):
        """The request and the words of a command."""
        request = f"{self.number(4)}.{self.number(8)}"
        verb, name = OPERATIONS[self.number(1)], self.text()
        if verb == "transfer":
            return request, (verb, name, str(self.number(4)))
        value = self.text() if verb in ("claim", "update") else ""
        return request, (verb, name, value) if value else (verb, name)

    def fact(self):
        kind, instance = KINDS[self.number(1)], self.number(4)
        turn = self.number(4) if kind != "decide" else 0
        stamp = self.number(4) if kind == "enter" else 0
        return Fact(kind, instance, turn, stamp, *self.command())


def frames(area):
    """The payloads of an area's frames, in their order."""
    at, payloads = 0, []
    if len(area) < 2 or area[0] != OPEN:
        return payloads
    while area[at] == OPEN:
        count = int.from_bytes(area[at + 1 : at + 5], "big")
        payload = area[at + 5 : at + 5 + count]
        at += 5 + count
        if at >= len(area):
            raise Unreadable(f"a frame that ends at {at} of {len(area)} bytes")
        payloads.append(payload)
    return payloads


def facts_of(payload):
    """The facts of a group, and the number of the first."""
    fields = Fields(payload)
    first, count = fields.number(8), fields.number(2)
    facts = [fields.fact() for _ in range(count)]
    if fields.at != len(payload):
        raise Unreadable("bytes behind a group")
    return first, facts


class Disk:
    """What a node's two areas hold: the epoch, the number of the next fact, its facts, what it has decided, and how it stands
    in the other instances.

    Facts that a snapshot has taken the place of are not among `facts`, but what they said is in `decided` and `open`. `shown` is
    what is to be shown of each area: epoch, node, nodes, facts and decided, of the area that isn't active its snapshot's."""

    def __init__(self, areas):
        self.epoch, self.next, self.facts, self.decided, self.open, self.shown = 0, 0, [], {}, {}, [None, None]
        heads = []
        for area, payloads in enumerate(map(frames, areas)):
            if payloads:
                self.read_snapshot(payloads[0])
                self.shown[area] = (self.epoch, *self.owner, self.next, len(self.prefix()))
                heads.append((self.epoch, area, payloads))
        if heads:
            _, area, payloads = max(heads)
            self.read_snapshot(payloads[0])
            for payload in payloads[1:]:
                self.read_group(payload)
            self.shown[area] = (self.epoch, *self.owner, self.next, len(self.prefix()))

    def numbered(self):
        """The facts by their numbers."""
        return dict(enumerate(self.facts, self.next - len(self.facts)))

    def text(self):
        """The two lines that show it."""
        lines = ("epoch %d node %d of %d facts %d decided %d" % it if it else "unformatted" for it in self.shown)
        return "".join(f"area {area} {line}\n" for area, line in enumerate(lines)).encode()

    def read_snapshot(self, payload):
        fields = Fields(payload)
        fields.bytes(1)
        self.owner, self.facts, self.decided, self.open = (fields.number(1), fields.number(1)), [], {}, {}
        self.epoch, self.next = fields.number(8), fields.number(8)
        for _ in range(fields.number(4)):
            instance, kind = fields.number(4), fields.number(1)
            if kind == 1:
                self.decided[instance] = fields.command()
                continue
            standing = Open(fields.number(4), fields.number(4), fields.command(), None)
            self.open[instance] = standing._replace(proposal=fields.command()) if fields.number(1) else standing

    def read_group(self, payload):
        first, facts = facts_of(payload)
        if first != self.next:
            raise Unreadable(f"a group from {first} on where {self.next} is next")
        self.next += len(facts)
        self.facts += facts
        for fact in facts:
            self.take_on(fact, (fact.request, fact.words))

    def take_on(self, fact, command):
        """How the node stands behind a fact."""
        if fact.kind == "enter":
            self.open[fact.instance] = Open(fact.round, fact.stamp, command, None)
        elif fact.kind == "propose":
            self.open[fact.instance] = self.open[fact.instance]._replace(proposal=command)
        elif fact.kind == "adopt":
            self.open[fact.instance] = self.open[fact.instance]._replace(stamp=fact.round, estimate=command)
        else:
            self.decided[fact.instance] = command
            self.open.pop(fact.instance, None)

    def prefix(self):
        """What is decided from instance 0 on without a gap."""
        commands = []
        while len(commands) in self.decided:
            commands.append(self.decided[len(commands)])
        return commands


def list_of(disks):
    """The list of all that these disks have decided, without a gap, and the instances that two decided differently."""
    decided, apart = {}, []
    for disk in disks:
        for instance, command in disk.decided.items():
            if decided.setdefault(instance, command) != command:
                apart.append(instance)
    commands = []
    while len(commands) in decided:
        commands.append(decided[len(commands)])
    return commands, apart
