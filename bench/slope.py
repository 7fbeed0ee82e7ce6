#!/usr/bin/env python3
"""Prints how much more memory `rr run` takes for a decided command, at each of its nodes.

    bench/slope.py [--rr RR] [--nodes N] [--few A] [--many B]

It runs two scripts of A and B commands, 20,000 and 60,000 if left out, over folders in /dev/shm. Each of the nodes has a client, which
claims a hundred names and then updates them. The difference of the most resident memory is divided by the commands and the nodes. So
it counts the script's lines and answers too."""
import argparse
import os
import pathlib
import shutil
import subprocess
import sys
import tempfile

sys.dont_write_bytecode = True
TREE = pathlib.Path(__file__).resolve().parent.parent


def script(nodes, count):
    """A script of so many commands, in which each client has names of its own."""
    lines = []
    for number in range(count // nodes):
        word = "claim" if number < 100 else "update"
        lines += [f"submit {node} {7 + node} {number + 1} {word} c{node}-{number % 100} v{number}" for node in range(nodes)]
    return "".join(line + "\n" for line in lines)


def most_memory(rr, nodes, count):
    """The most resident memory of a run, in bytes."""
    room = pathlib.Path(tempfile.mkdtemp(dir="/dev/shm"))
    try:
        (room / "script").write_text(script(nodes, count))
        words = [rr, "run", "--nodes", str(nodes), "--dir", str(room / "nodes"), "--script", str(room / "script")]
        with open(room / "answers", "wb") as answers:
            run = subprocess.Popen(words, stdout=answers)
            _, status, used = os.wait4(run.pid, 0)
        if status != 0:
            sys.exit(f"bench/slope.py: rr run ended with {status}")
        return used.ru_maxrss * 1024
    finally:
        shutil.rmtree(room)


def main():
    words = argparse.ArgumentParser(description=__doc__, formatter_class=argparse.RawDescriptionHelpFormatter)
    words.add_argument("--rr", default=str(TREE / "crates/rr/out/rr"))
    words.add_argument("--nodes", type=int, default=3)
    words.add_argument("--few", type=int, default=20_000)
    words.add_argument("--many", type=int, default=60_000)
    given = words.parse_args()
    few, many = (most_memory(given.rr, given.nodes, count) for count in (given.few, given.many))
    slope = (many - few) / (given.many - given.few) / given.nodes
    print(f"{given.nodes} nodes: {few / 1e6:.1f} MB, then {many / 1e6:.1f} MB; {slope:.0f} bytes a command at a node")


main()
