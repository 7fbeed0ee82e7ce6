#!/usr/bin/env python3
"""Prints a schedule in which one node decides one command after another, of about as many events as it is told.

bench/decisions.py EVENTS | rr sim
"""
import sys

FLUSH = ["take 0", "dev 0", "dev 0", "dev 0", "dev 0", "mark 0"]


def main():
    events = int(sys.argv[1])
    lines = ["nodes 1", "restart 0"] + ["dev 0"] * 9
    sent = 0
    number = 0
    while len(lines) <= events:
        number += 1
        lines += [f"submit 0 7 {number} claim n{number % 1000} x"] + FLUSH
        for _ in range(3):
            lines += ["send 0", f"hear 0 {sent}"] + FLUSH
            sent += 1
        lines.append("ack 0")
    print("\n".join(lines[: events + 1]))


main()
