#!/usr/bin/env python3
"""Tapes for `rr audit`: made of runs of `rr sim`, drawn, changed, and put before two auditors.

bench/tapes.py make SCHEDULE [--rr PROGRAM]
bench/tapes.py draw SEED NODES ROUNDS [--rr PROGRAM]
bench/tapes.py decided NODES EVENTS [--baseline PROGRAM]
bench/tapes.py compare [--rr PROGRAM] [--baseline PROGRAM] [--count TAPES] [--first SEED] [--keep FOLDER]

`make` turns the run of a schedule, which is read from a file or from standard input for `-`, into a tape. The schedule starts
every node before anything else, and has no crash, failing call or refusal. `draw` prints such a schedule, in which commands are
likely to be decided. `decided` prints a tape of just so many events in which one batch of commands after another is decided.
`compare` makes tapes of drawn schedules in which at least one command is decided, and mutants of each, and asks both programs:
they have to give the same status, standard output and first line of standard error. What they disagree on is kept in a folder.
"""
import argparse
import collections
import os
import random
import subprocess
import sys
import tempfile

HERE = os.path.dirname(os.path.abspath(__file__))
OURS = os.path.join(HERE, "../crates/rr/out/rr")
PLAIN = os.path.join(HERE, "baseline_sim/target/release/baseline_sim")
FLUSH = ("take", "dev", "dev", "dev", "dev", "mark")
BATCH = 8
REPLIES = ("claimed", "updated", "released", "transferred", "taken 7", "unknown", "notowner", "full")
MESSAGES = {
    "estimate": ("instance", "round", "stamp", "request"),
    "proposal": ("instance", "round", "request"),
    "ack": ("instance", "round"),
    "decision": ("instance", "request"),
    "request": ("request",),
    "nack": ("instance", "round"),
    "beat": (),
    "suspects": ("set",),
    "ask": ("instance",),
}


class Unfit(Exception):
    """A schedule of which no tape is made."""


def simulate(program, lines, *words):
    """Gives the lines of the report of a schedule."""
    text = "".join(line + "\n" for line in lines)
    ran = subprocess.run([program, "sim", *words], input=text, stdout=subprocess.PIPE, text=True, check=False)
    if ran.returncode != 0:
        raise Unfit(f"{program} sim ends with status {ran.returncode}")
    return ran.stdout.splitlines()


# Tapes of schedules


def asking(lines):
    """Gives the schedule with a question behind each event that may be idle, which changes nothing: a `take` behind a `take` is
    refused where that one began a flush, and a `restart` behind a `send` or an `ack` always is. So the report tells of each
    whether it was idle."""
    asked = [lines[0]]
    for line in lines[1:]:
        asked.append(line)
        verb, node = line.split(" ", 2)[:2]
        if verb in ("take", "send", "ack"):
            asked.append(f"{'take' if verb == 'take' else 'restart'} {node}")
    return asked


class Walk:
    """Goes over a schedule and the report of its questions together."""

    def __init__(self, lines, report):
        self.lines = lines
        self.report = collections.deque(report)
        self.asked = 1
        self.opened = collections.Counter()
        self.up = set()
        self.calls = {}
        self.addressees = []

    def events(self):
        """Gives each event with what a tape has of it: a line, nothing at all for an idle event, or no line where tapes have
        none."""
        nodes = int(self.lines[0].split(" ")[1])
        for line in self.lines[1:]:
            self.asked += 1
            verb, node, *words = line.split(" ")
            if len(self.up) < nodes:
                yield line, self.opening(verb, node)
            elif verb in ("submit", "suspect", "tick", "advance"):
                yield line, line
            elif verb == "hear":
                yield line, line if self.is_for(int(words[0]), node) else None
            else:
                yield line, self.done(verb, node)
        if self.opened and len(self.up) < nodes:
            raise Unfit("a schedule that doesn't start every node")
        if not self.report[0].startswith("decided "):
            raise Unfit(self.strange())

    def opening(self, verb, node):
        """The last of nine calls starts a node over a fresh disk."""
        if verb not in ("restart", "dev"):
            raise Unfit(f"{verb} while nodes have yet to start")
        self.opened[node] += 1
        if self.opened[node] == 10:
            if self.report.popleft() != f"restart {node} 0 0":
                raise Unfit(f"node {node} doesn't start")
            self.up.add(node)
        return ""

    def is_for(self, number, node):
        return number < len(self.addressees) and self.addressees[number] == node

    def done(self, verb, node):
        """What a node did of its own accord."""
        if verb == "take":
            return self.taken(node)
        if verb == "mark":
            return f"mark {node}" if self.calls.pop(node, 0) >= 4 else None
        if verb in ("send", "ack"):
            return self.said(verb, node)
        if verb == "dev":
            return self.called(node)
        if verb == "snap":
            self.calls.pop(node, None)
            return None
        raise Unfit(f"a schedule with {verb}")

    def called(self, node):
        """A device call of a flush; those of a switch count as idle, since tapes have neither."""
        if self.calls.get(node, 4) >= 4:
            return None
        self.calls[node] += 1
        return ""

    def taken(self, node):
        self.asked += 1
        if not self.answered():
            return None
        self.calls[node] = 0
        return f"take {node}"

    def said(self, verb, node):
        self.asked += 1
        said = None
        if self.report[0].startswith(verb + " "):
            said = self.report.popleft()
            words = said.split(" ", 4)
            if node != words[2 if verb == "send" else 1]:
                raise Unfit(f"{said!r} is none of node {node}'s")
            if verb == "send":
                self.addressees.append(words[3])
        if not self.answered():
            raise Unfit(self.strange())
        return said

    def strange(self):
        if self.report[0].startswith("refuse "):
            return "a schedule with a refusal"
        return f"the report goes on with {self.report[0]!r}"

    def answered(self):
        """Whether the question is refused."""
        if self.report[0] != f"refuse {self.asked} 13 Busy":
            return False
        self.report.popleft()
        return True


def make(lines, program, *words):
    """Gives the lines of the tape of a schedule, and how many commands were decided."""
    walk = Walk(lines, simulate(program, asking(lines), *words))
    tape = [lines[0]] + [recorded for _, recorded in walk.events() if recorded]
    return tape, int(walk.report[0].split(" ")[1])


# Drawn schedules


def openings(nodes):
    for node in range(nodes):
        yield f"restart {node}"
        yield from [f"dev {node}"] * 9


def interleaved(rng, sequences):
    """Puts sequences together in any order that keeps that of each."""
    order = [at for at, sequence in enumerate(sequences) for _ in sequence]
    rng.shuffle(order)
    rest = [iter(sequence) for sequence in sequences]
    return [next(rest[at]) for at in order]


class Drawing:
    """A schedule that grows round by round."""

    def __init__(self, seed, nodes):
        self.rng = random.Random(f"{seed} {nodes}")
        self.nodes = nodes
        self.lines = [f"nodes {nodes}", *openings(nodes)]
        self.heard = set()
        self.submitted = []
        self.late = self.rng.choice((0, 0.1, 0.3))
        self.unrest = self.rng.choice((0, 0.05, 0.15))

    def round(self, report, submits):
        """Adds a round: each node hears most of what was sent to it, flushes, sends and acknowledges, in any order among nodes."""
        pending = [[] for _ in range(self.nodes)]
        for line in report:
            words = line.split(" ", 4)
            if words[0] == "send" and words[1] not in self.heard:
                pending[int(words[3])].append(words[1])
        sequences = [self.at_node(node, pending[node], submits) for node in range(self.nodes)]
        self.lines += interleaved(self.rng, sequences)

    def at_node(self, node, pending, submits):
        rng = self.rng
        told = [f"hear {node} {number}" for number in pending if self.is_heard(number)]
        rng.shuffle(told)
        if submits and rng.random() < 0.6:
            told.append(self.submit(node))
        for event in ("tick", "advance", "suspect"):
            if rng.random() < self.unrest:
                told.append(f"{event} {node}" + (f" {self.draw_set()}" if event == "suspect" else ""))
        if rng.random() < 0.01:
            # More facts than a group holds, where an instance has a round.
            told += [f"advance {node}"] * 70
        flush = [f"{event} {node}" for event in FLUSH] if rng.random() < 0.9 else []
        said = [f"send {node}"] * rng.randrange(1, 5 * self.nodes + 2) + [f"ack {node}"] * rng.randrange(3)
        rng.shuffle(said)
        cut = rng.randrange(len(told) + 1)
        return told[:cut] + interleaved(rng, [told[cut:], flush]) + interleaved(rng, [flush[6:], said])

    def is_heard(self, number):
        """A message is heard now, or later; some are heard once more."""
        if self.rng.random() < self.late:
            return False
        if self.rng.random() > self.unrest:
            self.heard.add(number)
        return True

    def draw_set(self):
        members = [str(node) for node in range(self.nodes) if self.rng.random() < 0.3]
        return "".join(members) or "-"

    def submit(self, node):
        rng = self.rng
        if self.submitted and rng.random() < 0.1:
            return f"submit {node} {rng.choice(self.submitted)}"
        name = rng.choice(("a", "b-2", "lighthouse-7", "n" * 64))
        op = rng.choice(("claim", "claim", "update", "release", "transfer"))
        words = [op, name]
        if op == "transfer":
            words.append(str(rng.randrange(4)))
        elif op != "release" and rng.random() < 0.7:
            words.append(rng.choice(("x", "~!", "203.0.113.7:8443", "v" * 64)))
        request = f"{rng.randrange(4)} {rng.choice((len(self.submitted), 2**64 - 1 - len(self.submitted), 5))}"
        self.submitted.append(" ".join([request, *words]))
        return f"submit {node} {self.submitted[-1]}"


def draw(seed, nodes, rounds, program):
    """Gives the lines of a schedule."""
    drawing = Drawing(seed, nodes)
    for number in range(rounds):
        drawing.round(simulate(program, drawing.lines), submits=2 * number < rounds)
    return drawing.lines


# Long tapes


def command(number):
    """The words of a command. A batch claims names, and the three behind it update, give away and release them."""
    turn, place = divmod(number, BATCH)
    name = turn // 4 * BATCH % 1000 + place
    op = ("claim", "update", "transfer", "release")[turn % 4]
    rest = {"claim": " 203.0.113.7:8443", "update": f" port-{number}", "transfer": " 7", "release": ""}[op]
    return f"{7 + name % 3} {number} {op} lighthouse-{name}{rest}"


def shifted(line, sent, numbers):
    """The same event so many messages and commands later."""
    verb, node, *words = line.split(" ")
    if verb == "hear":
        return f"hear {node} {int(words[0]) + sent}"
    if verb == "submit":
        return f"submit {node} {command(int(words[1]) + numbers)}"
    return line


def batch(number, before, nodes, program):
    """Gives the events of a batch of commands behind those before it: all are submitted, and the nodes flush, send and hear in
    turns until nothing is sent. The events that are idle are left out."""
    first = number * BATCH
    lines = before + [f"submit {at % nodes} {command(first + at)}" for at in range(BATCH)]
    heard = sum(line.startswith("send ") for line in simulate(program, before, "--long"))
    while True:
        for node in range(nodes):
            lines += [f"{event} {node}" for event in FLUSH] + [f"send {node}"] * 100 + [f"ack {node}"] * BATCH
        wire = [line.split(" ", 4) for line in simulate(program, lines, "--long") if line.startswith("send ")]
        if len(wire) == heard:
            break
        lines += [f"hear {words[3]} {words[1]}" for words in wire[heard:]]
        heard = len(wire)
    walk = Walk(lines, simulate(program, asking(lines), "--long"))
    kept = [(line, recorded) for line, recorded in walk.events() if recorded is not None]
    return kept[len(before) - 1 :]


def decided(nodes, events, program):
    """Gives the lines of a tape. Two batches behind the first have to be the same but for their numbers, and then all are."""
    lines = [f"nodes {nodes}", *openings(nodes)]
    batches = []
    for number in range(3):
        batches.append(batch(number, lines, nodes, program))
        lines = lines + [line for line, _ in batches[-1]]
    pattern = [line for line, _ in batches[1]]
    sent = sum(line.startswith("send ") for line in pattern)
    if [shifted(line, sent, BATCH) for line in pattern] != [line for line, _ in batches[2]]:
        raise Unfit("two batches differ")
    recorded = sum(bool(recorded) for _, recorded in batches[1])
    for number in range(2, events // recorded + 1):
        lines += [shifted(line, number * sent, number * BATCH) for line in pattern]
    tape, _ = make(lines, program, "--long")
    return tape[: events + 1]


# Mutants


def op_fields(words):
    """What each word of an operation is; behind a claim or an update a value may be put."""
    if words[0] == "transfer":
        return ["op", "name", "owner"]
    return ["op", "name"] + (["value"] if words[0] != "release" else [])


def fields(line):
    """What each word of a line is."""
    verb, *words = line.split(" ")
    if verb == "send":
        body = list(MESSAGES[words[3]])
        op = op_fields(words[4 + len(body) :]) if "request" in body else []
        return ["verb", "number", "node", "node", "message", *body, *op]
    if verb == "ack":
        return ["verb", "node", "request", "reply"] + ["owner"] * (words[2] == "taken")
    if verb == "submit":
        return ["verb", "node", "client", "seq", *op_fields(words[3:])]
    return ["verb", "node"] + {"hear": ["number"], "suspect": ["set"]}.get(verb, [])


ENDS = {
    "number": (0, 2**32 - 1),
    "instance": (0, 2**20 - 1),
    "round": (1, 2**31 - 1),
    "stamp": (0, 2**31 - 2),
    "first stamp": (0, 2**31 - 2),
    "client": (0, 2**32 - 1),
    "owner": (0, 2**32 - 1),
    "seq": (0, 2**64 - 1),
}
WORDS = {
    "verb": ("submit", "hear", "suspect", "tick", "advance", "take", "mark", "send", "ack", "dev"),
    "message": tuple(MESSAGES),
    "op": ("claim", "update", "release", "transfer"),
    "name": ("a", "b-2", "z", "lighthouse-8", "A", "n" * 65),
    "value": ("", "x", "y", "~!", "v" * 65),
}


def another_number(rng, word, least, most):
    """Another number near it or at an end; now and then one outside."""
    near = int(word) + rng.choice((-1, 1, 1, 2))
    return str(rng.choice((near, near, near, near, near, least, most, most + 1)))


ALIKE = (("ack", "nack"), ("tick", "advance", "take", "mark"))


def another_word(rng, kind, word):
    """Another word, mostly one behind which the same words may stand, where there is one."""
    alike = [words for words in ALIKE if word in words and set(words) <= set(WORDS[kind])]
    return rng.choice(alike[0] if alike and rng.random() < 0.8 else WORDS[kind])


def another(rng, kind, word, nodes):
    """Another word of the same kind, sometimes none that is lawful."""
    if kind in ENDS:
        return another_number(rng, word, *ENDS[kind])
    if kind == "node":
        return str(rng.randrange(nodes + (rng.random() < 0.1)))
    if kind == "request":
        client, seq = word.split(".")
        if rng.random() < 0.5:
            return f"{another_number(rng, client, *ENDS['client'])}.{seq}"
        return f"{client}.{another_number(rng, seq, *ENDS['seq'])}"
    if kind == "set":
        one = str(rng.randrange(nodes))
        return "".join(sorted(set(word.replace("-", "")) ^ {one})) or "-"
    return another_word(rng, kind, word)


def change_field(rng, tape, kind, places):
    """Gives the tape with another word at one of the places, which are lines and words."""
    at, which = rng.choice(places)
    words = tape[at].split(" ")
    if kind == "reply":
        words[which:] = rng.choice(REPLIES).split(" ")
    elif kind == "value":
        words[which:] = filter(None, [another(rng, kind, "", 0)])
    else:
        words[which] = another(rng, kind, words[which], int(tape[0].split(" ")[1]))
    return tape[:at] + [" ".join(words)] + tape[at + 1 :]


def node_of(line):
    words = line.split(" ", 3)
    return words[2] if words[0] == "send" else words[1]


def exchange(rng, tape):
    """Gives the tape with two events of a node exchanged, between which the node has no other."""
    first = rng.randrange(1, len(tape))
    node = node_of(tape[first])
    later = (at for at in range(first + 1, len(tape)) if node_of(tape[at]) == node)
    second = next(later, first)
    changed = list(tape)
    changed[first], changed[second] = tape[second], tape[first]
    return changed


def mutants(rng, tape):
    """Gives mutants of a tape with their kinds."""
    for _ in range(3):
        at = rng.randrange(1, len(tape))
        yield "one struck out", tape[:at] + tape[at + 1 :]
        at = rng.randrange(1, len(tape))
        yield "one doubled", tape[: at + 1] + tape[at:]
        yield "two exchanged", exchange(rng, tape)
    places = collections.defaultdict(list)
    for at, line in enumerate(tape[1:], 1):
        for which, kind in enumerate(fields(line)):
            is_first = kind == "stamp" and line.split(" ")[which - 1] == "1"
            places["first stamp" if is_first else kind].append((at, which))
    for kind in sorted(places):
        yield f"another {kind}", change_field(rng, tape, kind, places[kind])


# Two programs


def audit(program, path):
    """Gives the status, standard output and first line of standard error."""
    ran = subprocess.run([program, "audit", path], stdin=subprocess.DEVNULL, capture_output=True, check=False)
    return ran.returncode, ran.stdout, ran.stderr.split(b"\n")[0]


class Comparison:
    """What two programs said of tapes."""

    def __init__(self, programs, keep):
        self.programs = programs
        self.keep = keep
        self.counts = collections.defaultdict(collections.Counter)
        self.failed = 0

    def ask(self, name, kind, tape, expected=None):
        """Asks both, and keeps a tape of which they differ, or of which they say something else than they have to."""
        path = os.path.join(self.keep, name)
        with open(path, "w", encoding="ascii") as file:
            file.write("".join(line + "\n" for line in tape))
        ours, theirs = (audit(program, path) for program in self.programs)
        answer = {0: "accepted", 7: "refused", 3: "faulty"}.get(theirs[0], "other")
        agree = ours == theirs and answer != "other" and (expected is None or ours == expected)
        self.counts[kind][answer] += 1
        self.counts[kind]["differ"] += not agree
        if agree:
            os.remove(path)
        else:
            self.failed += 1
            print(f"{path}, {kind}: rr {ours}; plain Rust {theirs}", flush=True)

    def table(self):
        columns = ("accepted", "refused", "faulty", "differ")
        yield f"{'':18}" + "".join(f"{column:>10}" for column in columns)
        for kind, counts in self.counts.items():
            yield f"{kind:18}" + "".join(f"{counts[column]:>10}" for column in columns)

    def asked(self):
        return sum(counts[answer] for counts in self.counts.values() for answer in ("accepted", "refused", "faulty", "other"))


def compare(words):
    keep = words.keep or tempfile.mkdtemp(prefix="tapes-")
    os.makedirs(keep, exist_ok=True)
    comparison = Comparison((words.rr, words.baseline), keep)
    sums, by_nodes, seed, skipped = collections.Counter(), collections.Counter(), words.first - 1, 0
    while sums["tapes"] < words.count:
        seed += 1
        nodes = 1 + seed % 7
        rng = random.Random(f"mutants {seed}")
        schedule = draw(seed, nodes, rng.randrange(8, 17), words.baseline)
        tape, commands = make(schedule, words.rr)
        if commands == 0:
            skipped += 1
            continue
        sums.update(tapes=1, events=len(tape) - 1, commands=commands)
        by_nodes[nodes] += 1
        comparison.ask(f"{seed}.tape", "tapes", tape, (0, b"audit yes %d\n" % (len(tape) - 1), b""))
        for number, (kind, changed) in enumerate(mutants(rng, tape)):
            if changed != tape:
                comparison.ask(f"{seed}-{number}.tape", kind, changed)
    drawn = ", ".join(f"{by_nodes[nodes]} of {nodes}" for nodes in sorted(by_nodes))
    print(f"{sums['tapes']} tapes ({drawn} nodes), {sums['events']} events, {sums['commands']} commands decided; "
          f"seeds {words.first} to {seed}, of which {skipped} decided nothing")
    print("\n".join(comparison.table()))
    print(f"{comparison.asked() - comparison.failed} passed, {comparison.failed} failed")
    if comparison.failed == 0 and not words.keep:
        os.rmdir(keep)
    return 1 if comparison.failed else 0


def read_words():
    parser = argparse.ArgumentParser(description=__doc__, formatter_class=argparse.RawDescriptionHelpFormatter)
    verbs = parser.add_subparsers(dest="verb", required=True)
    making, drawing = verbs.add_parser("make"), verbs.add_parser("draw")
    deciding, comparing = verbs.add_parser("decided"), verbs.add_parser("compare")
    making.add_argument("schedule")
    for name in ("seed", "nodes", "rounds"):
        drawing.add_argument(name, type=int)
    for name in ("nodes", "events"):
        deciding.add_argument(name, type=int)
    for verb in (making, drawing, comparing):
        verb.add_argument("--rr", default=OURS)
    for verb in (deciding, comparing):
        verb.add_argument("--baseline", default=PLAIN)
    comparing.add_argument("--count", type=int, default=200)
    comparing.add_argument("--first", type=int, default=1)
    comparing.add_argument("--keep")
    return parser.parse_args()


def main():
    words = read_words()
    if words.verb == "compare":
        return compare(words)
    if words.verb == "make":
        with sys.stdin if words.schedule == "-" else open(words.schedule, encoding="ascii") as file:
            lines, _ = make(file.read().splitlines(), words.rr)
    elif words.verb == "draw":
        lines = draw(words.seed, words.nodes, words.rounds, words.rr)
    else:
        lines = decided(words.nodes, words.events, words.baseline)
    print("\n".join(lines))
    return 0


if __name__ == "__main__":
    try:
        sys.exit(main())
    except Unfit as error:
        sys.exit(f"tapes.py: {error}")
