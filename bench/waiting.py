#!/usr/bin/env python3
"""Prints a schedule in which half as many requests as it is told wait undecided, and the node is asked as often for a reply.

bench/waiting.py EVENTS | rr sim
"""
import sys


def main():
    half = int(sys.argv[1]) // 2
    lines = ["nodes 1", "restart 0"] + ["dev 0"] * 9
    lines += [f"submit 0 7 {number} claim n{number % 1000} x" for number in range(1, half + 1)]
    lines += ["ack 0"] * half
    print("\n".join(lines))


main()
