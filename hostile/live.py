"""Schedules in which several nodes decide, drawn by seeds: nodes flush, send and hear what was sent, with losses, repeats and
exchanges; calls fail, nodes crash and open their disks again.

`rr sim` answers as the plain Rust program does, and README.md's promise holds of each report. A failure names the seed:
`hostile/run --seed SEED --count 10 live` runs that one alone.
"""
import random

import promise
from harness import Tally, compare
from mutants import cut, fill, operation

SHARE = 10
CALLS = {"restart": 9, "take": 4, "snap": 6}


def tasks(options):
    first, last = options.seed, options.seed + max(1, options.count // 10)
    print(f"live: seeds {first} to {last - 1}", flush=True)
    return [(start, min(start + SHARE, last)) for start in range(first, last, SHARE)]


def work(rig, options, task):
    tally = Tally()
    for seed in range(*task):
        text = Drawn(random.Random(seed), rig.plain).text()
        what = f"seed {seed}"
        ending = rig.run("sim", rig.write("schedule", text))
        compare(tally, what, ending, rig.plain.sim(text))
        if report := promise.read(tally, what, ending):
            promise.check(tally, what, text, report)
            count(tally, text, report)
    return tally


def count(tally, text, report):
    tally.counts["events"] += text.count(b"\n") - 1
    tally.counts["commands decided"] += report.count
    tally.counts["acknowledgements"] += len(report.of("ack"))
    tally.counts["restarts of nodes with decisions"] += sum(1 for _, words in report.of("restart") if words[3] != "0")
    tally.counts["calls that failed"] += sum(1 for _, why in report.refused.values() if why == "Device")


class Drawn:
    """A schedule that is drawn event by event, by the messages that its run has sent so far."""

    def __init__(self, draw, plain):
        self.draw, self.plain = draw, plain
        self.nodes = draw.choice((1, 2, 3, 3, 3, 4, 5))
        self.lines = [f"nodes {self.nodes}"]
        self.sent = self.requests = 0
        # How often a call fails or a node crashes differs from schedule to schedule.
        self.harm = draw.choice((0, 0.02, 0.1))
        for node in range(self.nodes):
            self.job("restart", node)
        for _ in range(draw.randint(4, 20)):
            self.round()

    def text(self):
        return "".join(f"{line}\n" for line in self.lines).encode()

    def chance(self, share):
        return self.draw.random() < share

    def add(self, line, times=1):
        self.lines += [line] * times

    def round(self):
        for node in self.draw.sample(range(self.nodes), self.nodes):
            self.turn(node)
        self.hear()

    def turn(self, node):
        """What a node does in a round: it is told things, flushes, sends and acknowledges."""
        if self.chance(0.3):
            self.requests += self.chance(0.9)
            self.add(f"submit {node} {self.draw.choice((7, 8))} {self.requests} {operation(self.draw)}")
        if self.chance(0.15):
            self.add(f"tick {node}")
        if self.chance(0.03):
            self.add(self.draw.choice((f"advance {node}", f"suspect {node} {self.draw.randrange(self.nodes)}", f"suspect {node} -")))
        if self.chance(0.95):
            self.job("snap" if self.chance(0.05) else "take", node)
            self.add(f"mark {node}")
        self.add(f"send {node}", self.draw.randint(0, 3 * self.nodes))
        self.add(f"ack {node}", 2)

    def job(self, verb, node):
        """A job with its device calls; one may fail, or the node crash at it, and then it opens its disk again."""
        self.add(f"{verb} {node}")
        for _ in range(CALLS[verb]):
            if verb != "restart" and self.chance(self.harm):
                if self.chance(0.5):
                    self.add(f"fail {node} {fill(self.draw)}")
                if self.chance(0.7):
                    self.add(f"crash {node} {cut(self.draw)} {cut(self.draw)} {fill(self.draw)}")
                return self.job("restart", node)
            self.add(f"dev {node}")

    def hear(self):
        """The messages that were sent since are heard, in any order; some are lost, some older ones repeated."""
        report = self.plain.sim(self.text()).out.decode().splitlines()
        sent = [line.split() for line in report if line.startswith("send ")]
        heard = [words for words in sent[self.sent :] if self.chance(0.95)]
        heard += [self.draw.choice(sent) for _ in range(self.draw.randint(0, 2)) if sent]
        self.sent = len(sent)
        if self.chance(0.5):
            self.draw.shuffle(heard)
        for words in heard:
            self.add(f"hear {words[3]} {words[1]}")
