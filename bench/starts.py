#!/usr/bin/env python3
"""Starts of a registry and claims at it by two programs, in turns: bench/starts.py BEFORE TODAY [--names 200] [--turns 15] [--folder /dev/shm]

BEFORE and TODAY are programs rr that were built in the same way. Each turn has both, and the one that begins changes. Each program has made
its folders itself, of three nodes:

- start: `rr shell` over so many names looks one up and ends, ten times;
- claims: such a shell claims 400 names behind each other, and what a start takes is taken away.

Counted are the seconds of a processor, user's and system's, since by the clock a busy machine tells nothing; a shell waits most of its time.
Told are the medians and the least, and the quotients BEFORE / TODAY of both: 1 is as before, and less is slower. What else the machine does only
adds. With --count it counts instructions by valgrind in place of seconds, which the load of a machine changes less. With --clock the seconds are
those of the clock, of a quiet machine."""
import argparse
import os
import pathlib
import re
import resource
import shutil
import statistics
import subprocess
import tempfile
import time

CLAIMS, STARTS = 400, 10


def read_words():
    words = argparse.ArgumentParser(description=__doc__, formatter_class=argparse.RawDescriptionHelpFormatter)
    words.add_argument("before")
    words.add_argument("today")
    words.add_argument("--names", type=int, default=200)
    words.add_argument("--turns", type=int, default=15)
    words.add_argument("--folder", default="/dev/shm")
    how = words.add_mutually_exclusive_group()
    how.add_argument("--count", action="store_true")
    how.add_argument("--clock", action="store_true")
    return words.parse_args()


def shell(program, folder, lines):
    return [program, "shell", "--nodes", "3", "--dir", folder, "--client", "7", *(word for line in lines for word in ("-c", line))]


def taken(words, answers, asked):
    """The seconds of a shell, or its instructions, once its answers are right."""
    if asked.count:
        words = ["valgrind", "--tool=callgrind", "--callgrind-out-file=/dev/null", *words]
    before, begun = resource.getrusage(resource.RUSAGE_CHILDREN), time.monotonic()
    ran = subprocess.run(words, capture_output=True, text=True, check=False, stdin=subprocess.DEVNULL)
    after, ended = resource.getrusage(resource.RUSAGE_CHILDREN), time.monotonic()
    if ran.returncode or ran.stdout.split("\n")[:-1] != answers:
        raise SystemExit(f"bench/starts.py: {words[:9]} ended with {ran.returncode}, {ran.stdout[-200:]!r}, {ran.stderr[-200:]!r}")
    if asked.count:
        return float(re.search(r"Collected : (\d+)", ran.stderr)[1])
    if asked.clock:
        return ended - begun
    return after.ru_utime - before.ru_utime + after.ru_stime - before.ru_stime


class Program:
    """A program, its folders, and what its turns took."""

    def __init__(self, path, folder, asked):
        self.path, self.folder, self.asked = os.path.abspath(path), folder, asked
        self.kept, self.turn = f"{folder}/kept", f"{folder}/turn"
        self.took = {"start": [], "claims": []}
        names = [f"claim n{number} v" for number in range(asked.names)]
        taken(shell(self.path, self.kept, names), ["claimed"] * asked.names, asked)

    def take(self):
        start = sum(self.once(["look n0"], ["n0 bound 7 v"]) for _ in range(STARTS)) / STARTS
        claims = self.once([f"claim m{number} v" for number in range(CLAIMS)], ["claimed"] * CLAIMS)
        self.took["start"].append(start)
        self.took["claims"].append(max(claims - start, 1e-9))

    def once(self, lines, answers):
        shutil.rmtree(self.turn, ignore_errors=True)
        shutil.copytree(self.kept, self.turn)
        return taken(shell(self.path, self.turn, lines), answers, self.asked)


def main():
    asked = read_words()
    with tempfile.TemporaryDirectory(dir=asked.folder) as folder:
        both = []
        for name in ("before", "today"):
            pathlib.Path(f"{folder}/{name}").mkdir()
            both.append(Program(getattr(asked, name), f"{folder}/{name}", asked))
        for turn in range(asked.turns):
            for program in both if turn % 2 else both[::-1]:
                program.take()
        unit = "instructions" if asked.count else "seconds" if asked.clock else "processor seconds"
        for what in ("start", "claims"):
            for name, of in (("median", statistics.median), ("least", min)):
                before, today = (of(program.took[what]) for program in both)
                print(f"{what}, {name}: before {before:.6g}, today {today:.6g} {unit}; before / today {before / today:.3f}")


if __name__ == "__main__":
    main()
