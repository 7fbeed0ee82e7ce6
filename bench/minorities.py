#!/usr/bin/env python3
"""Every minority of the nodes goes down, by `rr shell`: how long the first claim takes then, and whether later ones are slower than before.

    bench/minorities.py [--rr PROGRAM] [--folder FOLDER] [--nodes 3,5,7] [--down K,..] [--tries N] [--share F] [--tick MS] [--rest S] [--each]

Of so many nodes each set of at most (nodes - 1) / 2 is stopped, N times, 10 if left out, each time over fresh folders. --down takes the sets
of these sizes alone, and --share one set of F. --tick is that of `rr shell`, 50 if left out. The nodes that are up are asked in turn. First 25
claims are made with all up, with short pauses. Then come up to two ticks of rest, and S seconds more, none if left out. The nodes are stopped,
one right behind the other, and a claim is asked at once: it's `first`. Another 25 follow: they're `later`. Of both groups of 25 the median is
taken. The ratio of the medians says by how much later claims are slower.

The table has a line for each number of nodes that are down. It begins with how many sets and tries there were, and the median of claims with
all up. Of the first claim it has the median, the worst, and in how many tries it took more than a second. Of later ones it has the median and
the worst, and of the ratios these and in how many tries one was above three. Then it names the set with the slowest first claim, and each
try of more than a second. With --each every set has a line.
The program is crates/rr/out/rr if left out, and the folders are made in FOLDER, /dev/shm if left out. The status is 1 if a claim wasn't
acknowledged."""
import argparse
import itertools
import os
import random
import statistics
import sys
import time

sys.dont_write_bytecode = True
from catchup import HERE, Shell  # noqa: E402

# Claims with all nodes up that aren't counted, those that are, and later ones.
WARM, BEFORE, LATER = 5, 25, 25
# The longest pause before a claim, in seconds.
PAUSE = 0.01
SECOND, FACTOR = 1000, 3
HEAD = "nodes down sets tries | all up | first: median  worst  >1 s | later: median  worst | ratio: median  worst  >3"


def read_words():
    words = argparse.ArgumentParser(description=__doc__, formatter_class=argparse.RawDescriptionHelpFormatter)
    words.add_argument("--rr", default=str(HERE.parent / "crates/rr/out/rr"))
    words.add_argument("--folder", default="/dev/shm")
    words.add_argument("--nodes", type=numbers, default=(3, 5, 7))
    words.add_argument("--down", type=numbers)
    words.add_argument("--tries", type=int, default=10)
    words.add_argument("--share", type=int, default=1)
    words.add_argument("--tick", type=int, default=50)
    words.add_argument("--rest", type=float, default=0)
    words.add_argument("--each", action="store_true")
    return words.parse_args()


def numbers(text):
    return tuple(map(int, text.split(",")))


class Asked(Shell):
    """A shell that claims names, of which some nodes are down."""

    down = ()

    def claim(self):
        """The milliseconds that a claim takes."""
        self.count += 1
        answer, took = self.ask(f"claim n{self.count} x")
        if answer != "claimed":
            raise SystemExit(f"bench/minorities.py: of {self.nodes} nodes {self.down} were down, and a claim was answered {answer!r}")
        return 1000 * took

    def claims(self, count, drawn):
        """The milliseconds of so many claims, with pauses."""
        took = []
        for _ in range(count):
            time.sleep(PAUSE * drawn.random())
            took.append(self.claim())
        return took


def once(words, nodes, down, index):
    """The milliseconds of a claim with all up, of the first one behind the stops, of a later one, and of the slowest of those."""
    drawn = random.Random(f"{down} {index}")
    with Asked(words, nodes, "--tick", str(words.tick)) as shell:
        shell.ask(f"at {asked_of(nodes, down, index)}")
        shell.claims(WARM, drawn)
        before = shell.claims(BEFORE, drawn)
        time.sleep(words.rest + 2 * words.tick / 1000 * drawn.random())
        shell.down = down
        for node in down:
            shell.ask(f"stop {node}")
        first = shell.claim()
        later = shell.claims(LATER, drawn)
        return statistics.median(before), first, statistics.median(later), max(later)


def line(nodes, down, sets, tries):
    before, first, later, slowest = zip(*tries)
    ratios = [now / then for then, now in zip(before, later)]
    return (
        f"{nodes:5} {down:>4} {sets:4} {len(tries):5} | {statistics.median(before):6.1f} "
        f"| {statistics.median(first):13.0f} {max(first):6.0f} {sum(it > SECOND for it in first):5} "
        f"| {statistics.median(later):13.1f} {max(slowest):6.0f} "
        f"| {statistics.median(ratios):13.2f} {max(ratios):6.2f} {sum(it > FACTOR for it in ratios):3}"
    )


def measure(words, nodes, count):
    """Prints the line of all sets of so many nodes that are down."""
    sets = list(itertools.combinations(range(nodes), count))[:: words.share]
    tries, slowest, late = [], (0, ()), []
    for down in sets:
        those = [once(words, nodes, down, index) for index in range(words.tries)]
        tries += those
        late += [(it[1], down, index) for index, it in enumerate(those) if it[1] > SECOND]
        slowest = max(slowest, (max(it[1] for it in those), down))
        if words.each:
            print(line(nodes, "".join(map(str, down)), 1, those), flush=True)
    print(line(nodes, count, len(sets), tries), flush=True)
    print(f"      the slowest first claim: {slowest[0]:.0f} ms, with {told(slowest[1])} down", flush=True)
    for took, down, index in late:
        print(f"      late: {took:.0f} ms, with {told(down)} down, in try {index} at node {asked_of(nodes, down, index)}", flush=True)


def told(down):
    return " and ".join(map(str, down))


def asked_of(nodes, down, index):
    """The node that is asked in a try: those that are up, in turn."""
    up = [node for node in range(nodes) if node not in down]
    return up[index % len(up)]


def main():
    words = read_words()
    print(f"load {os.getloadavg()[0]:.1f}; times in milliseconds\n{HEAD}", flush=True)
    for nodes in words.nodes:
        for count in range(1, (nodes - 1) // 2 + 1):
            if words.down is None or count in words.down:
                measure(words, nodes, count)
    print(f"load {os.getloadavg()[0]:.1f}", flush=True)


if __name__ == "__main__":
    main()
