"""How long a claim takes in `rr shell` over three nodes that have nothing else to do.

Where a thread that has something to do isn't woken, no answer is wrong: the thread looks by itself, some time later. So the
median of 100 claims at each node has to stay under 20 ms. That is a look at a quiet machine, and --short leaves it out.
"""
import random
import statistics
import time

from harness import Tally
from shell_kills import Shell

NODES, CLAIMS = 3, 100
MOST = 0.020
# Seconds between two claims, in which all threads come to rest.
PAUSE = (0.005, 0.025)


def tasks(options):
    return [] if options.short else [options.seed]


def work(rig, options, seed):
    tally, rng = Tally(), random.Random(seed)
    shell = Shell(rig.rr, NODES, rig.path("claimed"))
    try:
        for node in range(NODES):
            times = claim_all(tally, shell, rng, node)
            median = statistics.median(times)
            tally.counts[f"microseconds of a claim at node {node}, the median"] += round(median * 1e6)
            tally.check(median < MOST, f"the median of {CLAIMS} claims at node {node} is {median * 1000:.1f} ms")
        tally.check(shell.end() == (0, b""), "the shell didn't end as it should")
    finally:
        shell.child.kill()
        shell.child.wait()
    return tally


def claim_all(tally, shell, rng, node):
    """The seconds that each of the claims took at this node."""
    tally.check(shell.ask(f"at {node}") == f"at {node}", f"at {node}")
    times = []
    for number in range(CLAIMS):
        time.sleep(rng.uniform(*PAUSE))
        begun = time.monotonic()
        answer = shell.ask(f"claim name-{node}-{number} x")
        times.append(time.monotonic() - begun)
        tally.check(answer == "claimed", f"claim {number} at node {node}: {answer!r}")
    return times
