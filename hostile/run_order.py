"""What a run of `rr run` asks of the system for its files, in the order in which strace saw it.

A thread that strace holds behind a sync can't go on, so what follows from the sync stands behind it. Of the bytes alone:
- each write is synced before the same node's next one, and no file is synced in which nothing was written since;
- no message leaves before the sync of its fact: a fact that only a message can have brought about is written once the
  facts of its sender were synced;
- no client is answered before: where it asks on, or its answer is printed, what decided its request was synced.

At each of these calls the power may fail. What was synced stays, and of what was written since all, nothing, or anything
else. `rr show` reads such folders, and some of them go on with the rest of the script.
"""
import os
import random
import re
import shutil

import disks
import reading
import scripts
from harness import LONG, Tally, tell

TRACED = "pwrite64,write,fdatasync,fsync"
LINE = re.compile(r"^(\d+) +(?:(\w+)\((.*)|<\.\.\. (\w+) resumed>(.*))$")
ANSWER = re.compile(r"\) += (-?\d+)")
OFFSET = re.compile(r'"(?:\.\.\.)?, \d+, (\d+)')
AREA = re.compile(r"/nodes/(\d)/a([01])$")
SEEDS = 60
SHORT = 2
# One call of so many is followed by runs of what a power cut left.
RUN_SHARE = 60


def tasks(options):
    return ["folders", *range(options.seed, options.seed + (SHORT if options.short else SEEDS))]


def work(rig, options, seed):
    tally = Tally()
    if not tally.check(shutil.which("strace"), "no program strace is here; Debian's package strace has it"):
        return tally
    if seed == "folders":
        folder, script = rig.path("made/b/c"), rig.write("script", b"look 0 a\n")
        words = [rig.rr, "run", "--nodes", "2", "--dir", folder, "--script", script]
        disks.made_folder(rig, tally, folder, words, ("", "/0", "/1"))
        return tally
    rng = random.Random(seed)
    nodes = rng.choice((1, 2, 3, 3, 4, 5))
    lines = scripts.draw(rng, nodes, rng.randint(4, 14))
    what = f"seed {seed}, {nodes} nodes"
    folder = rig.path("nodes")
    shutil.rmtree(folder, ignore_errors=True)
    for part in range(rng.choice((1, 1, 2))):
        more = scripts.draw(rng, nodes, rng.randint(3, 10), 1 + 100 * part) if part else lines
        begun = files_of(folder, nodes)
        ending, events = traced(rig, folder, nodes, more)
        everything = more if more is lines else lines + more
        held = scripts.disks_of(folder, nodes)
        commands = scripts.check_disks(tally, what, everything, held)
        if tally.check(ending.status == 0 and not ending.err, lambda: f"{what}: {tell(ending)}"):
            scripts.check_answers(tally, what, more, ending.out, held, commands)
        Watched(rig, tally, what, nodes, more, everything, begun, rng).go_over(events)
        tally.counts["runs"] += 1
    return tally


def files_of(folder, nodes):
    return [[scripts.bytes_of(f"{folder}/{node}/a{area}") for area in (0, 1)] for node in range(nodes)]


def traced(rig, folder, nodes, lines):
    """Runs a script under strace: how it ended, and the calls on areas and standard output in their order."""
    script = rig.write("script", scripts.text_of(lines))
    return traced_words(rig, TRACED, [rig.rr, "run", "--nodes", str(nodes), "--dir", folder, "--script", script])


def traced_words(rig, calls, words):
    """Runs these words under strace: how they ended, and these calls in their order."""
    trace = rig.path("trace")
    begun = [shutil.which("strace"), "-q", "-f", "-xx", "-y", "-s", "1000000", "-o", trace, "-e", f"trace={calls}"]
    ending = rig.run_all([*begun, *words], limit=LONG)
    with open(trace) as file:
        events = list(events_of(file))
    os.remove(trace)
    return ending, events


def events_of(file):
    """The calls' beginnings and ends: (begin or end, call, path, offset, bytes), where each call is told twice. A call that names a path
    has it for its bytes."""
    open_calls = {}
    for line in file:
        match = LINE.match(line)
        if not match:
            continue
        thread, call, what, resumed, rest = match.groups()
        if call:
            at = int(OFFSET.search(what)[1]) if call == "pwrite64" else 0
            data = bytes_of(what)
            open_calls[thread] = ("write" if call == "pwrite64" else call, path_of(what), at, data)
            yield ("begin", *open_calls[thread])
            rest = what
        answer = ANSWER.search(rest)
        if answer and thread in open_calls:
            call, path, at, _ = open_calls.pop(thread)
            yield ("end", call, path, at, int(answer[1]))


def path_of(what):
    name = re.search(r"<((?:\\x[0-9a-f]{2})+)>", what)
    return bytes.fromhex(name[1].replace("\\x", "")).decode() if name else ""


def bytes_of(what):
    text = re.search(r'"([^"]*)"', what)
    return bytes.fromhex(text[1].replace("\\x", "")) if text else b""


class Node:
    """A node's two files: what was written, what was synced, and what is written and not synced."""

    def __init__(self, files):
        self.written, self.synced = [bytearray(it) for it in files], [bytes(it) for it in files]
        self.loose, self.torn = [[], []], [[], []]
        self.clean = [False, False]
        self.disk = reading.Disk(self.synced)
        # All facts that were ever synced, by their numbers; a snapshot may have taken their place.
        self.facts = self.disk.numbered()

    def write(self, area, at, data):
        file, place = self.written[area], (at, len(data))
        # The premise of a first sync: a byte that is written over with its own value stays.
        if self.loose[area] or self.synced[area][at : at + len(data)] != data:
            self.torn[area].append(place)
        file[at : at + len(data)] = data
        self.loose[area].append(place)

    def sync(self, area):
        self.synced[area], self.loose[area], self.torn[area] = bytes(self.written[area]), [], []
        self.clean[area] = True
        self.disk = reading.Disk(self.synced)
        self.facts.update(self.disk.numbered())

    def left(self, rng):
        """What a power cut may leave: a loose range holds any bytes, and what was appended is cut off anywhere."""
        image = []
        for written, synced, torn in zip(self.written, self.synced, self.torn):
            file = bytearray(written)
            for at, length in torn:
                file[at : at + length] = bytes(rng.choice((0, 0xA5, rng.randrange(256))) for _ in range(length))
            image.append(bytes(file[: rng.randint(len(synced), max(len(synced), len(file)))]))
        return tuple(image)


class Watched:
    """Goes over the calls of a run, and knows at each what the disks hold for sure."""

    def __init__(self, rig, tally, what, nodes, lines, everything, begun, rng):
        self.rig, self.tally, self.what, self.count, self.rng = rig, tally, what, nodes, rng
        self.lines, self.everything = lines, everything
        self.nodes = [Node(files) for files in begun]
        self.named = scripts.requests_in([node.disk for node in self.nodes])

    def check(self, holds, failure):
        self.tally.check(holds, lambda: f"{self.what}: {failure}")

    def go_over(self, events):
        for moment, call, path, at, what in events:
            area = AREA.search(path)
            if not area:
                if moment == "begin" and call == "write" and path == self.rig.path("out"):
                    self.check_printed(what)
                continue
            node, area = int(area[1]), int(area[2])
            if call == "write" and moment == "begin":
                self.write(node, area, at, what)
            elif call == "write":
                self.check(what >= 0, f"a write of node {node} failed")
            elif moment == "begin":
                is_due = self.nodes[node].loose[area] or not self.nodes[node].clean[area]
                self.check(call == "fdatasync" and is_due, f"node {node} syncs area {area}, in which nothing was written")
            else:
                self.nodes[node].sync(area)
                self.tally.counts["syncs"] += 1
            self.cut_power(node)

    def write(self, node, area, at, data):
        its = self.nodes[node]
        self.check(not any(its.loose), f"node {node} writes at {at} of area {area} before its last write is synced")
        if len(data) > 6 and at > 1 and its.disk.epoch:
            # A frame without its gate, of which the last byte is the next one's.
            _, facts = reading.facts_of(data[4:-1])
            for fact in facts:
                self.check_cause(node, fact)
                self.named.add(fact.request)
            self.check_clients()
        its.write(area, at, data)
        self.tally.counts["writes"] += 1

    def have(self, kind, fact, turn=None):
        """The nodes that have synced a fact of this kind for the same instance, round and command; of an enter any command."""
        turn = fact.round if turn is None else turn
        return {
            node
            for node, its in enumerate(self.nodes)
            for it in its.facts.values()
            if (it.kind, it.instance, it.round) == (kind, fact.instance, turn) and (kind == "enter" or it.request == fact.request)
        }

    def check_cause(self, node, fact):
        """What a message must have told the node is synced at those that may have sent it."""
        coordinator = fact.round % self.count
        told = f"node {node} writes {fact} before"
        if fact.kind == "propose":
            entered = self.have("enter", fact)
            self.check(len(entered) * 2 > self.count, f"{told} a majority has synced that it entered: {entered}")
        elif fact.kind == "adopt":
            self.check(coordinator in self.have("propose", fact), f"{told} node {coordinator} has synced its proposal")
        elif fact.kind == "decide":
            others = {other for other in range(self.count) if fact.instance in self.nodes[other].disk.decided} - {node}
            turns = {it.round for its in self.nodes for it in its.facts.values() if it.kind == "adopt" and it.instance == fact.instance}
            adopted = any(len(self.have("adopt", fact, turn)) * 2 > self.count for turn in turns)
            self.check(others or adopted, f"{told} anyone has decided or a majority adopted it")
        self.tally.counts[f"causes of facts, {fact.kind}"] += fact.kind != "enter"

    def check_clients(self):
        """Clients that have asked on were answered, so what decided their requests is synced."""
        found = scripts.acknowledged(self.lines, self.named)
        scripts.check_acknowledged(self.tally, self.what, found, [node.disk for node in self.nodes])

    def check_printed(self, text):
        """Each answer that is printed is of a request whose decision is synced."""
        for answer in text.decode("ascii", "replace").splitlines():
            words = answer.split()
            if words and words[0] == "ack":
                held = {request for request, _ in self.nodes[int(words[1])].disk.prefix()}
                self.check(words[2] in held, f"{answer} is printed before its decision is synced")
                self.tally.counts["answers printed"] += 1

    def cut_power(self, node):
        """The power fails: of what node `node` has not synced nothing, all, or something else is left."""
        its = self.nodes[node]
        images = {tuple(its.synced), tuple(map(bytes, its.written)), its.left(self.rng)}
        for image in images:
            for area in (0, 1):
                self.rig.write(f"cut/{node}/a{area}", image[area])
            self.show(node, image)
        if self.rng.randrange(RUN_SHARE) == 0:
            self.go_on()

    def show(self, node, image):
        """`rr show` reads what is left, and tells what reading.py finds: all that was synced, and at most one group more."""
        ending = self.rig.run("show", self.rig.path(f"cut/{node}"))
        self.tally.counts["power cuts"] += 1
        if not self.tally.check(ending.status == 0, lambda: f"{self.what}: behind a power cut {tell(ending)}"):
            return
        disk, sure = reading.Disk(image), self.nodes[node]
        self.check(ending.out == disk.text(), f"behind a power cut {ending.out}; wanted {disk.text()}")
        others = {number for number, fact in disk.numbered().items() if sure.facts.get(number, fact) != fact}
        holds = disk.next >= sure.disk.next and disk.decided.items() >= sure.disk.decided.items() and not others
        self.check(holds, f"behind a power cut node {node} has {disk.next} facts of {sure.disk.next}, other ones {others}")

    def go_on(self):
        """All nodes have what is left of them, and run the script again."""
        folder = self.rig.path("gone-on")
        shutil.rmtree(folder, ignore_errors=True)
        for number, its in enumerate(self.nodes):
            for area, data in enumerate(its.left(self.rng)):
                self.rig.write(f"gone-on/{number}/a{area}", data)
        # As the cluster's file is until the last node has been formatted.
        if not all(its.disk.epoch for its in self.nodes):
            self.rig.write("gone-on/cluster", b"cluster-1 1 2 %d -\n" % self.count)
        script = self.rig.write("again", scripts.text_of(self.everything))
        before = [reading.Disk(its.synced) for its in self.nodes]
        found = scripts.acknowledged(self.lines, self.named)
        ending = self.rig.run("run", "--nodes", str(self.count), "--dir", folder, "--script", script, limit=LONG)
        held = scripts.disks_of(folder, self.count)
        what = f"{self.what}, gone on behind a power cut"
        for disk in before:
            commands = scripts.check_disks(self.tally, what, self.everything, held, disk)
        scripts.check_acknowledged(self.tally, what, found, held)
        if self.tally.check(ending.status == 0 and not ending.err, lambda: f"{what}: {tell(ending)}"):
            scripts.check_answers(self.tally, what, self.everything, ending.out, held, commands)
        self.tally.counts["runs behind a power cut"] += 1
