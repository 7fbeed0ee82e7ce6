"""What `rr shell` asks of the system for its files, in the order in which strace saw it, and power cuts in between.

The lines are given as words, so each is answered before the next is taken: names are claimed and updated at all nodes, nodes write
snapshots, are stopped and started, and catch up. Of the bytes alone:
- the file of request numbers is written beside its place and synced before it is renamed;
- no number stands in a node's folder before the file that reserves it would be there behind a power cut;
- a node's mark is written beside its place and synced before it is renamed;
- no answer is printed before its command is synced at the node that was asked.

At some of these calls the power fails. What was synced stays, and of what was written since all, nothing, or anything else; and of a
rename whose folder isn't synced either name. A shell over such folders has all that was acknowledged, at each node, and gives no
number that stands in a folder.
"""
import random
import shutil

import reading
import run_order
import scripts
import shell_calls
import shell_kills
from harness import Tally, tell

NODES = 3
CALLS = "pwrite64,write,fdatasync,fsync,ftruncate,rename,openat"
SEEDS = 40
SHORT = 1
COUNT = (8, 16)
# One call of so many is followed by a shell over what a power cut left.
SHARE = 25


def tasks(options):
    return list(range(options.seed, options.seed + (SHORT if options.short else SEEDS)))


def work(rig, options, seed):
    tally, rng = Tally(), random.Random(seed)
    if not tally.check(shutil.which("strace"), "no program strace is here; Debian's package strace has it"):
        return tally
    folder, names = rig.path("shell"), shell_kills.Names()
    shutil.rmtree(folder, ignore_errors=True)
    begun = rig.run("shell", "--nodes", str(NODES), "--dir", folder, "--client", "7", "-c", "claim old z")
    tally.check(begun[:] == (0, b"claimed\n", b""), lambda: f"a shell without faults: {tell(begun)}")
    names.acknowledge(0, "old", "z")
    lines = draw(rng, names, rng.randint(*COUNT))
    marks = [scripts.bytes_of(f"{folder}/{node}/node") for node in range(NODES)]
    before = run_order.files_of(folder, NODES), shell_kills.stored(folder), marks
    words = [rig.rr, "shell", "--nodes", str(NODES), "--dir", folder, "--client", "7", *(word for line, _ in lines for word in ("-c", line))]
    ending, events = run_order.traced_words(rig, CALLS, words)
    wanted = "".join(f"{answer}\n" for _, answer in lines).encode()
    if tally.check(ending[:] == (0, wanted, b""), lambda: f"seed {seed}: {tell(ending)}; wanted {wanted!r}"):
        Watched(rig, tally, f"seed {seed}", lines, *before, rng).go_over(events)
        tally.counts["shells"] += 1
    return tally


def draw(rng, names, count):
    """Lines, each with its answer."""
    node, down, lines, values = 0, None, [], dict(names.values)
    for _ in range(count):
        node = rng.choice([other for other in range(NODES) if other != down])
        lines.append((f"at {node}", f"at {node}"))
        kind = rng.random()
        if kind < 0.15:
            lines.append((f"snapshot {node}", f"snapshot {node}"))
        elif kind < 0.3:
            other = rng.choice([other for other in range(NODES) if other != node])
            lines.append((f"stop {other}", f"stopped {other}") if down is None else (f"start {down}", f"started {down}"))
            down = other if down is None else None
        elif kind < 0.4:
            lines.append(("sync", "synced"))
        else:
            verb, name, value = names.draw(rng, node)
            lines.append((f"{verb} {name} {value}", shell_kills.REPLIES[verb]))
            names.values[name] = value
    names.values = values
    return lines


class Numbers:
    """The file of request numbers, or a node's mark: what it holds, what it may hold behind a power cut, and the new file beside it."""

    def __init__(self, stored):
        self.held, self.left = stored, {stored}
        self.fresh, self.is_synced = b"", False

    def torn(self, rng):
        """What a power cut may leave of the new file."""
        return self.fresh if self.is_synced else self.fresh[: rng.randint(0, len(self.fresh))]


class Watched:
    """Goes over the calls of a shell, and knows at each what the disks hold for sure."""

    def __init__(self, rig, tally, what, lines, begun, stored, marks, rng):
        self.rig, self.tally, self.what, self.lines, self.rng = rig, tally, what, lines, rng
        self.folder = rig.path("shell")
        self.nodes = [run_order.Node(files) for files in begun]
        self.numbers = Numbers(stored)
        self.marks = [Numbers(mark) for mark in marks]
        self.names, self.node, self.answered = shell_kills.Names(), 0, 0
        self.names.acknowledge(0, "old", "z")

    def check(self, holds, failure):
        self.tally.check(holds, lambda: f"{self.what}: {failure}")

    def go_over(self, events):
        for event in events:
            if self.take(*event):
                self.tally.counts["calls"] += 1
                if self.rng.randrange(SHARE) == 0:
                    self.cut_power()
        self.check(self.answered == len(self.lines), f"{self.answered} answers were printed")
        for its in (self.numbers, *self.marks):
            self.check(its.left == {its.held}, "a rename isn't synced at the end")

    def take(self, moment, call, path, at, what):
        """Takes a call on; whether it is one of those that are looked at."""
        area = run_order.AREA.search(path.replace("/shell/", "/nodes/"))
        if area:
            self.of_area(int(area[1]), int(area[2]), moment, call, at, what)
        elif path == self.rig.path("out") and moment == "begin":
            self.printed(what.decode())
        else:
            return self.of_numbers(moment, call, path, what) or any(self.of_mark(node, moment, call, path, what) for node in range(NODES))
        return True

    def of_area(self, node, area, moment, call, at, what):
        its = self.nodes[node]
        if moment == "begin" and call == "write":
            self.begun(node, at, what)
            its.write(area, at, what)
        elif moment == "end" and call in ("fdatasync", "fsync"):
            its.sync(area)

    def begun(self, node, at, data):
        """Which request numbers are about to stand in a folder."""
        named = {request for command in commands_of(at, data) for request in [command[0]]}
        for request in named:
            client, number = map(int, request.split("."))
            self.check(client == 7 and number < min(self.numbers.left), f"node {node} writes the number {request}, and the file may hold {self.numbers.left}")

    def of_numbers(self, moment, call, path, what):
        if not self.replaced(self.numbers, self.folder, "requests.new", int, moment, call, path, what):
            return False
        self.tally.counts["reservations"] += call == "rename"
        return True

    def of_mark(self, node, moment, call, path, what):
        if not self.replaced(self.marks[node], f"{self.folder}/{node}", "node.new", bytes, moment, call, path, what):
            return False
        self.tally.counts["marks put"] += call == "rename"
        return True

    def replaced(self, its, folder, name, meaning, moment, call, path, what):
        """A call that puts a new file in place of one; whether it is one of those that are looked at."""
        fresh = f"{folder}/{name}"
        if call == "openat" and moment == "begin" and what == fresh.encode():
            its.fresh, its.is_synced = b"", False
        elif call == "write" and moment == "begin" and path == fresh:
            its.fresh, its.is_synced = its.fresh + what, False
        elif call == "fsync" and moment == "end" and path == fresh:
            its.is_synced = True
        elif call == "rename" and moment == "begin" and what == fresh.encode():
            self.check(its.is_synced and its.fresh.endswith(b"\n"), f"{name} is renamed with {its.fresh!r}, synced: {its.is_synced}")
            its.held = meaning(its.fresh)
            its.left.add(its.held)
        elif call == "fsync" and moment == "end" and path == folder:
            its.left = {its.held}
        else:
            return False
        return True

    def printed(self, text):
        """An answer: its command is decided at the node that was asked, and synced."""
        for answer in text.splitlines():
            line, wanted = self.lines[self.answered]
            self.check(answer == wanted, f"{line!r} was answered {answer!r}")
            verb, *words = line.split()
            self.node = int(words[0]) if verb == "at" else self.node
            if verb in shell_kills.REPLIES:
                held = [it for _, it in self.nodes[self.node].disk.prefix()]
                self.check((verb, *words) in held, f"{line!r} is answered before its decision is synced at node {self.node}")
                self.names.acknowledge(self.node, *words)
                self.tally.counts["answers printed"] += 1
            self.answered += 1

    def cut_power(self):
        """The power fails, and a shell over what is left has what was acknowledged."""
        cut = self.rig.path("cut-shell")
        shutil.rmtree(cut, ignore_errors=True)
        self.rig.write("cut-shell/cluster", scripts.bytes_of(f"{self.folder}/cluster"))
        for node, its in enumerate(self.nodes):
            self.rig.write(f"cut-shell/{node}/node", self.rng.choice(sorted(self.marks[node].left)))
            self.rig.write(f"cut-shell/{node}/node.new", self.marks[node].torn(self.rng))
            for area, data in enumerate(its.left(self.rng)):
                self.rig.write(f"cut-shell/{node}/a{area}", data)
        self.rig.write("cut-shell/requests", b"%d\n" % self.rng.choice(sorted(self.numbers.left)))
        self.rig.write("cut-shell/requests.new", self.numbers.torn(self.rng))
        names = shell_kills.Names()
        names.values, names.nodes = dict(self.names.values), dict(self.names.nodes)
        # (new names are told from those of the lines)
        names.made = 1000
        if self.answered < len(self.lines):
            verb, *words = self.lines[self.answered][0].split()
            if verb in shell_kills.REPLIES:
                names.doubt(*words)
        try:
            shell_calls.open_again(self.rig, self.tally, f"{self.what}, behind a power cut at line {self.answered}", cut, names)
        except (shell_kills.Wrong, reading.Unreadable) as why:
            self.check(False, f"behind a power cut at line {self.answered}: {why}")
        self.tally.counts["power cuts"] += 1


def commands_of(at, data):
    """The commands that a write to an area brings: those of a group, or of a snapshot where it is at the front."""
    if len(data) <= 6:
        return []
    disk = reading.Disk([b"", b""])
    if at < 2:
        disk.read_snapshot(data[5 - at : -1])
        return shell_calls.commands_of(disk)
    _, facts = reading.facts_of(data[4:-1])
    return [(fact.request, fact.words) for fact in facts]
