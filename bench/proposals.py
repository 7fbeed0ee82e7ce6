#!/usr/bin/env python3
"""Prints a schedule for `rr sim` in which a coordinator of three nodes restates its proposal at each tick, and nobody hears it:
bench/proposals.py EVENTS > schedule"""

import sys


def opening(node):
    return [f"restart {node}"] + [f"dev {node}"] * 9


def flush(node):
    return [f"take {node}"] + [f"dev {node}"] * 4 + [f"mark {node}"]


def main():
    count = int(sys.argv[1])
    events = opening(0) + opening(1) + opening(2) + ["submit 1 7 1 claim a x"] + flush(1) + ["send 1"] * 3
    # Node 0's estimate and node 1's own are a majority, and node 1 proposes.
    events += ["hear 0 0"] + flush(0) + ["send 0", "hear 1 2", "hear 1 3"] + flush(1) + ["send 1"] * 3
    while len(events) + 10 <= count:
        events += ["tick 1"] + ["send 1"] * 9
    print("nodes 3")
    print("\n".join(events))


main()
