#!/usr/bin/env python3
"""Looks a second of each reader at a node, alone and beside writers.

    bench/looks.py [--program PROGRAM] [--rounds N] [--looks N] [--disk FOLDER]

One node without a writer, one node with one, and seven nodes with seven, which flush to a disk; with one reader and with
two. The most of the rounds, which run in turns. The program bench_clients is built if it is left out."""
import argparse
import pathlib
import re
import subprocess
import tempfile

HERE = pathlib.Path(__file__).resolve().parent
# More commands than a writer makes.
COMMANDS = 1_000_000
# Nodes and writers.
RUNS = ((1, 0), (1, 1), (7, 7))


def look(program, nodes, writers, readers, looks, disk):
    """Runs the program over fresh folders; gives the looks a second of a reader, and the commands acknowledged meanwhile."""
    with tempfile.TemporaryDirectory(dir=disk) as folder:
        words = [program, *map(str, (nodes, writers, COMMANDS, readers, looks)), folder]
        told = subprocess.run(words, capture_output=True, text=True, check=True)
    assert told.stdout == f"looks {readers * looks}\n", told.stdout
    _, acknowledged, micros, _, _ = map(int, re.findall(r"\d+", told.stderr))
    return looks / micros * 1_000_000, acknowledged


def read_words():
    words = argparse.ArgumentParser(description=__doc__, formatter_class=argparse.RawDescriptionHelpFormatter)
    words.add_argument("--program")
    words.add_argument("--rounds", type=int, default=3)
    words.add_argument("--looks", type=int, default=10_000_000)
    words.add_argument("--disk", default="/var/tmp")
    return words.parse_args()


def measure(asked):
    cases = [(nodes, writers, readers) for nodes, writers in RUNS for readers in (1, 2)]
    most = {}
    for _ in range(asked.rounds):
        for case in cases:
            most[case] = max(most.get(case, (0, 0)), look(asked.program, *case, asked.looks, asked.disk))
    for (nodes, writers, readers), (rate, acknowledged) in most.items():
        print(f"{nodes} nodes, {writers} writers, {readers} readers: {rate / 1_000_000:.1f} million looks a second each, "
              f"{acknowledged} commands acknowledged meanwhile")


def main():
    asked = read_words()
    with tempfile.TemporaryDirectory() as room:
        if asked.program is None:
            asked.program = f"{room}/bench_clients"
            subprocess.run([HERE / "program", "bench_clients", asked.program], check=True)
        measure(asked)


main()
