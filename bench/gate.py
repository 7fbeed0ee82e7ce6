#!/usr/bin/env python3
"""Runs the gate and tells the processor seconds that it took, by crate and by kind, greatest first.

    bench/gate.py [COMMAND ..]      ./gate if left out; 'taskset -c 0,1 bench/gate.py' for two processors

What the command prints goes through. Times are those of the processes below it, seen five times a second: proofs are checks
from nothing, edits what a crate's must-fail edits take with the check that they begin with, programs what builds and runs
programs and tests. What comes before `rt ci` has a row of its own. What lies below no crate, as reading the sources, is in
the last rows alone."""
import collections
import os
import re
import resource
import subprocess
import sys
import time

TICK = os.sysconf("SC_CLK_TCK")
KINDS = ("proofs", "tests", "edits", "programs")
BEFORE = ("before rt ci", "programs")


def processes():
    """Gives each process's number, parent, start and processor seconds."""
    for pid in filter(str.isdigit, os.listdir("/proc")):
        try:
            with open(f"/proc/{pid}/stat") as file:
                fields = file.read().rpartition(")")[2].split()
        except OSError:
            continue
        yield int(pid), int(fields[1]), fields[19], (int(fields[11]) + int(fields[12])) / TICK


def words_of(pid):
    """Gives the command line of a process; none if it has ended."""
    try:
        with open(f"/proc/{pid}/cmdline") as file:
            return file.read().split("\0")
    except OSError:
        return []


def is_gate_of_kit(words):
    """Whether this is the command line of `rt ci`."""
    return "ci" in words and any(os.path.basename(word) == "rt" for word in words)


def crate_and_kind(pid, words):
    """Tells of a process which crate it works for, and at what."""
    try:
        folder = os.readlink(f"/proc/{pid}/cwd")
    except OSError:
        return None
    ran = re.search(r"/rt-run-[^/]*/bin/(\w+)", " ".join(words))
    if ran:
        return ran[1].removesuffix("_tests"), "programs"
    if "--crate-name" in words:
        crate = words[words.index("--crate-name") + 1]
        if "/rt-edit-" in folder:
            return crate, "edits"
        if "--test" in words:
            return crate, "tests"
        return crate, "proofs" if "--crate-checked" not in words else "programs"
    linked = re.search(r"/crates/(\w+)", folder)
    return (linked[1], "programs") if linked else None


def watch(command):
    """Runs the command and gives its status, the processor seconds by crate and kind, and all of them."""
    spent, known, parents, has_begun = {}, {}, {}, False
    started = subprocess.Popen(command)
    while started.poll() is None:
        seen = list(processes())
        parents.update((pid, parent) for pid, parent, _, _ in seen)
        for pid, _, start, seconds in seen:
            above = pid
            while above not in (0, 1, started.pid):
                above = parents.get(above, 0)
            if above != started.pid:
                continue
            if known.get((pid, start)) is None:
                words = words_of(pid)
                has_begun = has_begun or is_gate_of_kit(words)
                # (the command itself becomes `rt ci`, and works for no crate)
                known[pid, start] = None if pid == started.pid else crate_and_kind(pid, words) if has_begun else BEFORE
            spent[pid, start] = seconds
        time.sleep(0.2)
    used = resource.getrusage(resource.RUSAGE_CHILDREN)
    sums = collections.Counter()
    for process, seconds in spent.items():
        if known[process] is not None:
            sums[known[process]] += seconds
    return started.returncode, sums, used.ru_utime + used.ru_stime


def table(sums, whole):
    """Gives the lines of the table."""
    crates = sorted({crate for crate, _ in sums}, key=lambda crate: -sum(sums[crate, kind] for kind in KINDS))
    rows = [[crate, *(sums[crate, kind] for kind in KINDS)] for crate in crates]
    rows.append(["all crates", *(sum(sums[crate, kind] for crate in crates) for kind in KINDS)])
    yield "| crate | " + " | ".join(KINDS) + " | sum |"
    yield "|---" * (len(KINDS) + 2) + "|"
    for row in rows:
        yield f"| {row[0]} | " + " | ".join(f"{seconds:.0f}" for seconds in [*row[1:], sum(row[1:])]) + " |"
    yield f"| with what lies below no crate | | | | | {whole:.0f} |"


def main():
    command = sys.argv[1:] or [os.path.join(os.path.dirname(os.path.abspath(__file__)), "..", "gate")]
    begun = time.monotonic()
    status, sums, whole = watch(command)
    minutes = (time.monotonic() - begun) / 60
    print("\n".join(table(sums, whole)))
    print(f"{minutes:.1f} minutes by the clock on {len(os.sched_getaffinity(0))} processors, status {status}")
    return status


sys.exit(main())
