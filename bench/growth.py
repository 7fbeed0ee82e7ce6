#!/usr/bin/env python3
"""Looks for schedules for which `rr sim` takes more than n log n time: one event again and again, and pairs of events.

    bench/growth.py --rr RR [--finish] [--nodes 1,2,3] [--most 16000] [--first SECONDS] [--only EVENT ..]

Each schedule opens its nodes, does what may have to come before (nothing, eight open instances, or 32 messages to hear), and then has
N times an event, N times a pair, or N times one event and then N times the other. What takes less than --first seconds at the most is fast
enough. For the others the processor seconds of 1,000 to 16,000 times are printed if the last doubling takes more than 2.6 times as long.
It prints no line where nothing grows faster. The status is 1 if a line was printed."""

import argparse
import itertools
import os
import subprocess
import sys
import tempfile

FASTER = 2.6  # n log n takes 2.15 times as long for 16,000 as for 8,000

# {i} counts from 0, {k} is the last node
EVENTS = {
    "submit": "submit 0 7 {j} claim n{j} x",
    "again": "submit 0 7 1 claim n1 x",
    "submit last": "submit {k} 8 {j} claim m{j} x",
    "tick": "tick 0",
    "tick last": "tick {k}",
    "send": "send 0",
    "send last": "send {k}",
    "hear": "hear 0 {i}",
    "hear last": "hear {k} {i}",
    "hear one": "hear {k} 0",
    "suspect": "suspect 0 1",
    "suspect none": "suspect 0 -",
    "advance": "advance 0",
    "take": "take 0",
    "dev": "dev 0",
    "group": "take 0\ndev 0\ndev 0\ndev 0\ndev 0\nmark 0",
    "mark": "mark 0",
    "ack": "ack 0",
    "snap": "snap 0",
    "crash": "crash 0 0 0 -\nrestart 0\n" + "\n".join(["dev 0"] * 9),
}


def opening(nodes):
    return [line for node in range(nodes) for line in [f"restart {node}"] + [f"dev {node}"] * 9]


def group(node):
    return [f"take {node}"] + [f"dev {node}"] * 4 + [f"mark {node}"]


def beginnings(nodes):
    """What may have to come before, by name."""
    claims = [f"submit 0 9 {n + 1} claim b{n} x" for n in range(8)]
    heard = [f"hear {node} {n}" for n in range(32) for node in range(nodes)]
    decided = [it for turn in range(4) for it in group(0) + ["send 0"] * 40 + heard]
    return {"": [], "8 open, ": claims, "8 staged and sent, ": claims + group(0) + ["send 0"] * 40, "8 decided, ": claims + decided + ["ack 0"] * 4}


def events(name, times, nodes, at):
    text = EVENTS[name]
    if "{" not in text:
        return [text] * times
    return [text.format(i=at + n, j=at + n + 1, k=nodes - 1) for n in range(times)]


def body(one, other, way, times, nodes):
    if other is None:
        return events(one, times, nodes, 0)
    first, second = events(one, times, nodes, 0), events(other, times, nodes, 0)
    if way == "then":
        return first + second
    return [line for pair in zip(first, second) for line in pair]


def seconds(rr, words, lines, file, limit):
    """The processor seconds of a run, or None where it takes longer than the limit."""
    with open(file, "w") as out:
        out.write("\n".join(lines) + "\n")
    with open(os.devnull, "w") as nowhere:
        child = subprocess.Popen(["timeout", str(limit), rr, *words, file], stdout=nowhere, stderr=nowhere)
        _, status, used = os.wait4(child.pid, 0)
    return None if os.waitstatus_to_exitcode(status) == 124 else used.ru_utime


def growth(rr, words, make, file, most, first):
    """What a schedule takes for 1,000 times and so on, if it grows too fast."""
    if (longest := seconds(rr, words, make(most), file, 60)) is not None and longest < first:
        return None
    counts = [most >> n for n in range(4, -1, -1)]
    taken = [min(it) if None not in it else None for it in ([seconds(rr, words, make(n), file, 60) for _ in range(2)] for n in counts)]
    told = [it for it in taken if it is not None]
    is_fast = None not in taken and told[-1] < max(first, FASTER * told[-2])
    return None if is_fast else ", ".join(f"{n}: {'over 60' if it is None else format(it, '.2f')} s" for n, it in zip(counts, taken))


def main():
    words = argparse.ArgumentParser()
    words.add_argument("--rr", required=True)
    words.add_argument("--finish", action="store_true")
    words.add_argument("--nodes", default="1,2,3")
    words.add_argument("--most", type=int, default=16000)
    words.add_argument("--first", type=float, default=0.15)
    words.add_argument("--only", nargs="+", choices=EVENTS, help="the schedules of these events alone")
    asked = words.parse_args()
    command = ["sim", "--finish"] if asked.finish else ["sim"]
    ways = [(one, None, "") for one in EVENTS]
    ways += [(one, other, "and") for one, other in itertools.combinations(EVENTS, 2)]
    ways += [(one, other, "then") for one, other in itertools.permutations(EVENTS, 2)]
    if asked.only:
        ways = [it for it in ways if {it[0], it[1] or it[0]} <= set(asked.only)]
    tried = printed = 0
    with tempfile.NamedTemporaryFile(suffix=".schedule") as file:
        for nodes in map(int, asked.nodes.split(",")):
            for before, begin in beginnings(nodes).items():
                head = [f"nodes {nodes}"] + opening(nodes) + begin
                for one, other, way in ways:
                    found = growth(asked.rr, command, lambda n: head + body(one, other, way, n, nodes), file.name, asked.most, asked.first)
                    tried += 1
                    if found:
                        printed += 1
                        print(f"{nodes} nodes, {before}{one}{f' {way} {other}' if other else ''}: {found}", flush=True)
    print(f"growth: {tried} schedules, {printed} grow faster than n log n", file=sys.stderr)
    return 1 if printed else 0


if __name__ == "__main__":
    sys.exit(main())
