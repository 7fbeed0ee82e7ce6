#!/usr/bin/env python3
"""Finishes drawn schedules by rr sim --finish, and looks in the report with reasons whether nothing is left.

    hostile/finish.py --rr RR [--count N] [--seed S] [--jobs N] [--keep FOLDER]

N schedules are drawn from the seed S on, random and lively ones of 1 to 7 nodes, with crashes and failing calls; and the examples. Of
each: the status is 0. The added events are neither faults nor a client's. The report is that of `rr sim` on the given lines with the
added ones behind them. There each request that a node was asked for since it last restarted is acknowledged by it, each instance that
an estimate names is decided, and no node is down. Finished again, nothing is added. `rr random --finish` prints the same. A schedule
that fails goes to FOLDER. The last line says how many were finished, and by how many events."""
import argparse
import multiprocessing
import os
import pathlib
import subprocess
import sys

TREE = pathlib.Path(__file__).resolve().parent.parent
ADDED = set("hear suspect tick advance take dev mark send ack restart".split())


def asked(rr, words, text=b""):
    """How rr ends, and what it prints."""
    ran = subprocess.run([rr, *words], input=text, capture_output=True, check=False, timeout=300)
    return ran.returncode, ran.stdout, ran.stderr


def words_of(seed):
    """The words of a schedule by a seed: one in five isn't lively, and in three of the others at most many steps have a fault."""
    words = f"random --seed {seed} --steps {(25, 100, 250, 600, 1500)[seed // 7 % 5]} --nodes {1 + seed % 7}".split()
    return words if seed % 5 == 4 else [*words, "--lively", "--faults", str((0, 10, 50, 120, 300, 700)[seed // 5 % 6])]


def left_by(explained):
    """What is left behind a run, by its report with reasons: requests, instances and nodes that are down."""
    left, down, instances, waiting, decided = {}, set(), -1, [], 0
    for line in explained.decode().splitlines():
        words = line.split()
        if not line.startswith("    line "):
            waiting.append(words)
            if words[0] == "decided":
                decided = int(words[1])
            continue
        kind, node = words[2], words[3].rstrip(":")
        is_refused = any(told[0] == "refuse" for told in waiting)
        requests = left.setdefault(node, set())
        if kind == "submit" and not is_refused:
            requests.add(f"{words[4]}.{words[5]}")
        elif kind == "crash" or kind == "restart" and not is_refused or kind == "fail" and any(told[-1] == "Device" for told in waiting):
            requests.clear()
            down.add(node)
        for told in waiting:
            if told[0] == "ack":
                requests.discard(told[2])
            elif told[0] == "restart":
                down.discard(told[1])
            elif told[0] == "send" and told[4] == "estimate":
                instances = max(instances, int(told[5]))
        waiting = []
    return sorted(f"{node}: {request}" for node, requests in left.items() for request in requests), instances + 1 - decided, sorted(down)


def fault_of(rr, text, words):
    """What is wrong with the finish of a schedule, or nothing; and how many events were added."""
    if asked(rr, ["sim"], text)[0] == 3:
        return "a fault is told otherwise" if asked(rr, ["sim", "--finish"], text) != asked(rr, ["sim"], text) else None, 0
    status, added, told = asked(rr, ["sim", "--finish", "--schedule-only"], text)
    if status != 0 or told:
        return f"status {status}, {told[:200]!r}", 0
    lines = added.splitlines()
    others = {line.split()[0].decode() for line in lines} - ADDED
    if others:
        return f"added events: {others}", 0
    whole = text + added
    report = asked(rr, ["sim", "--finish"], text)
    if report != asked(rr, ["sim"], whole):
        return "the report isn't that of both", 0
    explained = asked(rr, ["sim", "--explain"], whole)
    left, undecided, down = left_by(explained[1])
    if left or undecided > 0 or down:
        return f"left: requests {left}, instances {undecided}, nodes that are down {down}", 0
    if asked(rr, ["sim", "--finish", "--schedule-only"], whole) != (0, b"", b""):
        return "finished again, it goes on", 0
    if words and asked(rr, [*words, "--finish"]) != (0, whole + b"report\n" + report[1], b""):
        return "rr random --finish prints something else", 0
    if words and asked(rr, [*words, "--finish", "--schedule-only"]) != (0, whole, b""):
        return "rr random --finish --schedule-only prints something else", 0
    if asked(rr, ["sim", "--finish", "--explain"], text) != explained or asked(rr, ["sim", "--finish", "--json"], text) != asked(rr, ["sim", "--json"], whole):
        return "a view isn't that of both", 0
    return None, len(lines)


def work(task):
    """Finishes a schedule, by a seed or of an example."""
    rr, it, keep = task
    words = words_of(it) if isinstance(it, int) else None
    text = asked(rr, [*words, "--schedule-only"])[1] if words else it.read_bytes()
    fault, count = fault_of(rr, text, words)
    if fault and keep:
        os.makedirs(keep, exist_ok=True)
        pathlib.Path(keep, f"{it if words else it.stem}.schedule").write_bytes(text)
    return (fault and f"{it}: {fault}"), count, len(text.splitlines()) - 1


def main():
    words = argparse.ArgumentParser(description=__doc__, formatter_class=argparse.RawDescriptionHelpFormatter)
    words.add_argument("--rr", required=True)
    words.add_argument("--count", type=int, default=300)
    words.add_argument("--seed", type=int, default=0)
    words.add_argument("--jobs", type=int, default=2)
    words.add_argument("--keep")
    options = words.parse_args()
    examples = sorted((TREE / "examples").glob("*.schedule")) + sorted((TREE / "crates/worked_rows/data").glob("*.schedule"))
    tasks = [(options.rr, it, options.keep) for it in [*examples, *range(options.seed, options.seed + options.count)]]
    finished = given = added = 0
    faults = []
    with multiprocessing.Pool(options.jobs) as pool:
        for fault, count, before in pool.imap_unordered(work, tasks, chunksize=4):
            faults += [fault] if fault else []
            finished, given, added = finished + (not fault), given + before, added + count
    for fault in faults[:20]:
        print(f"  FAILED {fault}")
    print(f"hostile/finish.py: {finished} schedules of {given} events finished by {added} more, {len(faults)} failed")
    sys.exit(1 if faults else 0)


if __name__ == "__main__":
    main()
