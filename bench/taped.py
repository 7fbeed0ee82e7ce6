#!/usr/bin/env python3
"""Runs of `rr run --tape` on 1 to 7 nodes, by drawn scripts in fresh folders.

    bench/taped.py [--rr PROGRAM] [--count N] [--seed S] [--seconds T] [--folder FOLDER] [--keep FOLDER]

`rr audit` has to accept each tape. What the run answered is then held against the tape, which is read here anew, as text:
the list is what a majority acknowledged of what was proposed, replies and bound names are what that list makes of them.
Each acknowledgement has to stand on the tape, behind its submit, with the list's reply. Each look has to show the names of
a beginning of the list, with all that its client knew. A run that differs is kept. It ends behind N runs or T seconds; the
status is 1 where one differed. --rr names the program, crates/rr/out/rr if left out."""
import argparse
import collections
import pathlib
import random
import shutil
import subprocess
import sys
import tempfile
import time

HERE = pathlib.Path(__file__).resolve().parent
NAMES = [f"n{number}" for number in range(5)]


def read_words():
    words = argparse.ArgumentParser(description=__doc__, formatter_class=argparse.RawDescriptionHelpFormatter)
    words.add_argument("--rr", default=str(HERE.parent / "crates/rr/out/rr"))
    words.add_argument("--count", type=int, default=200)
    words.add_argument("--seed", type=int, default=1)
    words.add_argument("--seconds", type=float, default=900)
    words.add_argument("--folder", default="/dev/shm")
    words.add_argument("--keep", default="/tmp/taped")
    return words.parse_args()


class Differs(Exception):
    """A run isn't what its tape says."""


def want(holds, failure):
    if not holds:
        raise Differs(failure)


# Scripts


def draw_op(draw):
    name = draw.choice(NAMES)
    verb = draw.choice(("claim", "claim", "claim", "update", "update", "release", "transfer"))
    if verb == "transfer":
        return f"transfer {name} {draw.randrange(4)}"
    if verb == "release" or draw.random() < 0.2:
        return f"{verb} {name}"
    return f"{verb} {name} v{draw.randrange(100)}"


def draw_script(draw, nodes):
    """Lines in which clients and names are shared by the nodes, and some requests come again, also with another operation."""
    lines, asked = [], []
    for _ in range(draw.randrange(1, 14 * nodes)):
        node = draw.randrange(nodes)
        if draw.random() < 0.4:
            lines.append(f"look {node} {draw.choice(NAMES)}")
        elif asked and draw.random() < 0.15:
            request, op = draw.choice(asked)
            lines.append(f"submit {node} {request} {op if draw.random() < 0.5 else draw_op(draw)}")
        else:
            request, op = f"{draw.randrange(4)} {len(asked)}", draw_op(draw)
            asked.append((request, op))
            lines.append(f"submit {node} {request} {op}")
    return lines


# What a tape says


def decided_list(nodes, events):
    """The commands `(request, operation)` of the instances from 0 on that have a chosen proposal."""
    proposals, senders = {}, collections.defaultdict(set)
    for event in events:
        if event[0] == "send" and event[4] == "proposal":
            proposals.setdefault((int(event[5]), int(event[6])), (event[7], tuple(event[8:])))
        elif event[0] == "send" and event[4] == "ack":
            senders[int(event[5]), int(event[6])].add(event[2])
    chosen = {}
    for place, who in senders.items():
        if 2 * len(who) > nodes and place in proposals:
            instance = place[0]
            want(chosen.setdefault(instance, proposals[place]) == proposals[place], f"instance {instance} has two decisions")
    decided = []
    while len(decided) in chosen:
        decided.append(chosen[len(decided)])
    return decided


def reply_to(bound, client, op):
    """The reply to an operation, which changes the bound names."""
    verb, name, *rest = op
    value = rest[0] if rest else ""
    if verb == "claim":
        if name in bound:
            return f"taken {bound[name][0]}"
        bound[name] = client, value
        return "claimed"
    if name not in bound:
        return "unknown"
    if bound[name][0] != client:
        return "notowner"
    if verb == "update":
        bound[name] = client, value
        return "updated"
    if verb == "release":
        del bound[name]
        return "released"
    bound[name] = value, bound[name][1]
    return "transferred"


class List:
    """What a list of commands says: replies, first places of requests, and the names bound after each command."""

    def __init__(self, commands):
        self.replies, self.places, self.bound = {}, {}, [{}]
        for place, (request, op) in enumerate(commands):
            bound = dict(self.bound[-1])
            if request not in self.replies:
                self.replies[request] = reply_to(bound, request.split(".")[0], op)
                self.places[request] = place
            self.bound.append(bound)

    def shown(self, known, name, told):
        """The shortest beginning with at least so many commands that shows a name so; None where there is none."""
        for count in range(known, len(self.bound)):
            owner = self.bound[count].get(name)
            if told == ("free" if owner is None else f"{owner[0]}:{owner[1]}"):
                return count
        return None


def check(nodes, script, answers, tape):
    """Holds answers against the tape; gives the number of commands, acknowledgements and looks."""
    want(tape[0] == f"nodes {nodes}", "the tape is of other nodes")
    events = [line.split(" ") for line in tape[1:]]
    decided = List(commands := decided_list(nodes, events))
    submits, acks = {}, {}
    for place, event in enumerate(events):
        if event[0] == "submit":
            submits.setdefault((event[1], f"{event[2]}.{event[3]}", tuple(event[4:])), place)
        elif event[0] == "ack":
            acks[event[1], event[2], " ".join(event[3:])] = place
    want(len(answers) == len(script), "an answer is missing")
    known, counts = collections.Counter(), collections.Counter()
    for line, answer in zip(script, answers):
        asked, told = line.split(" "), answer.split(" ")
        node = asked[1]
        if asked[0] == "submit":
            request = f"{asked[2]}.{asked[3]}"
            want(told[:3] == ["ack", node, request], f"{line}: {answer}")
            reply = " ".join(told[3:])
            submitted = submits.get((node, request, tuple(asked[4:])))
            want(submitted is not None, f"{line}: no such submit on the tape")
            want((node, request, reply) in acks, f"{answer}: not on the tape")
            want(acks[node, request, reply] > submits[node, request, tuple(asked[4:])], f"{answer}: before its submit")
            want(decided.replies.get(request) == reply, f"{answer}: the list has {decided.replies.get(request)}")
            known[node] = max(known[node], decided.places[request] + 1)
            counts["acks"] += 1
        else:
            want(told[:3] == ["look", node, asked[2]], f"{line}: {answer}")
            count = decided.shown(known[node], asked[2], " ".join(told[3:]))
            want(count is not None, f"{answer}: no beginning of the list from {known[node]} commands on")
            known[node] = count
            counts["looks"] += 1
    counts["commands"] = len(commands)
    return counts


# Runs


def run(rr, room, draw):
    nodes = draw.randrange(1, 8)
    script = draw_script(draw, nodes)
    (room / "script").write_text("".join(f"{line}\n" for line in script))
    words = ["run", "--nodes", str(nodes), "--dir", room / "nodes", "--script", room / "script", "--tape", room / "tape"]
    ran = subprocess.run([rr, *words], capture_output=True, text=True, timeout=120)
    (room / "answers").write_text(ran.stdout)
    want(ran.returncode == 0, f"status {ran.returncode}: {ran.stderr}")
    tape = (room / "tape").read_text().splitlines()
    audited = subprocess.run([rr, "audit", room / "tape"], capture_output=True, text=True, timeout=120)
    want(audited.stdout == f"audit yes {len(tape) - 1}\n", f"the audit says {audited.stdout}{audited.stderr}")
    return check(nodes, script, ran.stdout.splitlines(), tape) + collections.Counter(events=len(tape) - 1)


def main():
    options = read_words()
    ends, total, runs, failed = time.monotonic() + options.seconds, collections.Counter(), 0, 0
    for seed in range(options.seed, options.seed + options.count):
        if time.monotonic() > ends:
            break
        with tempfile.TemporaryDirectory(dir=options.folder) as name:
            room = pathlib.Path(name)
            try:
                total += run(options.rr, room, random.Random(seed))
            except (Differs, subprocess.TimeoutExpired) as failure:
                kept = pathlib.Path(options.keep) / str(seed)
                shutil.rmtree(kept, ignore_errors=True)
                shutil.copytree(room, kept)
                print(f"seed {seed}: {failure}; kept in {kept}", flush=True)
                failed += 1
        runs += 1
    told = ", ".join(f"{total[it]} {it}" for it in ("commands", "acks", "looks", "events"))
    print(f"{runs} runs, {failed} differ: {told}")
    sys.exit(1 if failed or runs == 0 else 0)


if __name__ == "__main__":
    main()
