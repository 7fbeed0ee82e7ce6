#!/usr/bin/env python3
"""Sweeps by `rr sweep`, checked line by line against `rr sim`, and timed beside plain Rust.

bench/sweep.py draw SEED NODES ROUNDS [--rr PROGRAM]
bench/sweep.py compare [--rr PROGRAM] [--baseline PROGRAM] [--count SCHEDULES] [--first SEED] [--lines LINES]
bench/sweep.py measure [--rr PROGRAM] [--baseline PROGRAM] [--calls CALLS] [--rounds ROUNDS]

`draw` prints a schedule in which commands are likely to be decided, nodes go on to snapshots, crash and open again. `compare`
draws schedules on one to seven nodes in which at least one command is decided and one switch to a snapshot begun. For each
it puts the schedule that a line stands for together, runs it by `rr sim`, and takes the last `restart` line of the node: of all
lines where they are at most LINES, else of as many that are drawn. The sweep of the plain Rust has to be the same, byte for byte.
`measure` draws a schedule of three nodes with so many device calls, and takes the processor time of both programs in turns.
"""
import argparse
import os
import random
import subprocess
import sys
import tempfile

from tapes import Drawing, OURS, PLAIN, interleaved, simulate

KEEP_ALL = 2**32 - 1
OPENING = ("restart {0}", *["dev {0}"] * 9)


def words_of(seed):
    """Gives the words of the generator PCG-XSH-RR 64/32 that is seeded with 64 bits, written anew from its definition."""
    mask, multiplier = 2**64 - 1, 6364136223846793005

    def output(state):
        folded, turn = ((state >> 18 ^ state) >> 27) & 0xFFFFFFFF, state >> 59
        return (folded >> turn | folded << (32 - turn)) & 0xFFFFFFFF

    spread, parts = seed, []
    for _ in range(4):
        spread = (spread * multiplier + 11634580027462260723) & mask
        parts.append(output(spread))
    increment = (parts[2] | parts[3] << 32) | 1
    state = ((parts[0] | parts[1] << 32) + increment) * multiplier + increment & mask
    while True:
        yield output(state)
        state = (state * multiplier + increment) & mask


def endings(word):
    """Gives what stands in a `crash` line behind the node, for the five endings of a call."""
    cut = word // 256 % 1024
    return (
        f"{KEEP_ALL} {KEEP_ALL} A5",
        f"{KEEP_ALL} {KEEP_ALL} 00",
        "0 0 -",
        f"{KEEP_ALL} {KEEP_ALL} -",
        f"{cut} {cut} {word % 256:02X}",
    )


def stood_for(lines, seed):
    """Gives the line, the ending, the node and the schedule that each line of a sweep stands for."""
    words = words_of(seed)
    for at, line in enumerate(lines, 1):
        event, _, node = line.partition(" ")
        if event == "dev":
            for number, ending in enumerate(endings(next(words)), 1):
                yield at, number, node, [*lines[:at], f"crash {node} {ending}", *[it.format(node) for it in OPENING]]


def last_restart(report, node):
    told = [line for line in report if line.startswith(f"restart {node} ")]
    return told[-1] if told else None


class Storm(Drawing):
    """A schedule that grows round by round, in which nodes also go on to snapshots, crash and open."""

    def at_node(self, node, pending, submits):
        rng = self.rng
        calm = super().at_node(node, pending, submits)
        if rng.random() < 0.12:
            calm += [f"snap {node}"] + [f"dev {node}"] * rng.choice((2, 4, 6, 6, 6))
        if rng.random() < 0.08:
            cut = rng.choice((0, rng.randrange(2000), KEEP_ALL))
            fill = rng.choice(("-", "00", "A5", f"{rng.randrange(65536):04X}"))
            opening = [it.format(node) for it in OPENING]
            calm += [f"crash {node} {cut} {rng.choice((0, cut))} {fill}", *opening[: rng.choice((1, 3, 10, 10, 10))]]
        if rng.random() < 0.02:
            calm += [f"fail {node} {rng.choice(('-', '5A'))}"]
        return calm


def draw(seed, nodes, rounds, program):
    storm = Storm(f"sweep {seed}", nodes)
    for number in range(rounds):
        storm.round(simulate(program, storm.lines), submits=2 * number < rounds)
    return storm.lines


def swept(program, lines, words):
    text = "".join(line + "\n" for line in lines)
    ran = subprocess.run([program, *words], input=text, stdout=subprocess.PIPE, text=True, check=False)
    if ran.returncode:
        sys.exit(f"{program} sweep ends with status {ran.returncode}")
    return ran.stdout


def has_snapshot(lines):
    """Whether a node is taken to a snapshot behind its opening, by a `snap` and the device calls of a switch."""
    return any(line.startswith("snap ") and lines[at + 1 : at + 7].count(f"dev {line[5:]}") >= 4 for at, line in enumerate(lines))


def compare(given):
    checked = decided = made = 0
    seed = given.first
    while made < given.count:
        nodes = 1 + made % 7
        lines = draw(seed, nodes, 6 + 2 * nodes + seed % 9, given.rr)
        report = simulate(given.rr, lines)
        count = next(int(line[8:]) for line in report if line.startswith("decided "))
        seed += 1
        if not count or not has_snapshot(lines):
            continue
        made, decided = made + 1, decided + count
        ours = swept(given.rr, lines, ["sweep", "--seed", str(seed)])
        theirs = swept(given.baseline, lines, ["sweep", str(seed)])
        if ours != theirs:
            sys.exit(f"schedule of seed {seed - 1} on {nodes} nodes: two sweeps")
        told = ours.splitlines()
        stand = list(stood_for(lines, seed))
        if [line.split(" ", 2)[:2] for line in told] != [[str(at), str(number)] for at, number, _, _ in stand]:
            sys.exit(f"schedule of seed {seed - 1} on {nodes} nodes: other lines")
        places = range(len(stand))
        if len(stand) > given.lines:
            places = random.Random(seed).sample(places, given.lines)
        for place in places:
            at, number, node, schedule = stand[place]
            wanted = f"{at} {number} {last_restart(simulate(given.rr, schedule), node)}"
            if told[place] != wanted:
                sys.exit(f"schedule of seed {seed - 1} on {nodes} nodes: {told[place]!r}, but by rr sim {wanted!r}")
            checked += 1
    print(f"{made} schedules, {decided} commands decided in them: both sweeps the same, {checked} lines as rr sim has them")


def timed(words, path):
    with open(path) as text, open(os.devnull, "wb") as out:
        child = subprocess.Popen(words, stdin=text, stdout=out)
        _, status, used = os.wait4(child.pid, 0)
        assert status == 0
        return used.ru_utime + used.ru_stime, used.ru_maxrss / 1024


def measure(given):
    storm = Storm("measured", 3)
    number = 0
    while sum(line.startswith("dev ") for line in storm.lines) < given.calls:
        storm.round(simulate(given.baseline, storm.lines), submits=True)
        number += 1
    calls = sum(line.startswith("dev ") for line in storm.lines)
    with tempfile.NamedTemporaryFile("w", suffix=".schedule") as file:
        file.write("".join(line + "\n" for line in storm.lines))
        file.flush()
        if swept(given.rr, storm.lines, ["sweep", "--seed", "1"]) != swept(given.baseline, storm.lines, ["sweep", "1"]):
            sys.exit("two sweeps")
        took = [(timed([given.rr, "sweep", "--seed", "1"], file.name), timed([given.baseline, "sweep", "1"], file.name)) for _ in range(given.rounds)]
    (a, held), (b, base) = min(it[0] for it in took), min(it[1] for it in took)
    print(f"3 nodes, {len(storm.lines) - 1} events, {calls} device calls: rr {a:.3f} s, {held:.0f} MB; plain Rust {b:.3f} s, {base:.0f} MB; ratio {a / b:.2f}")


def main():
    words = argparse.ArgumentParser(description=__doc__, formatter_class=argparse.RawDescriptionHelpFormatter)
    words.add_argument("command", choices=("draw", "compare", "measure"))
    words.add_argument("numbers", nargs="*")
    words.add_argument("--rr", default=OURS)
    words.add_argument("--baseline", default=PLAIN)
    words.add_argument("--count", type=int, default=100)
    words.add_argument("--first", type=int, default=0)
    words.add_argument("--lines", type=int, default=300)
    words.add_argument("--calls", type=int, default=2000)
    words.add_argument("--rounds", type=int, default=7)
    given = words.parse_args()
    if given.command == "draw":
        seed, nodes, rounds = given.numbers
        print("\n".join(draw(seed, int(nodes), int(rounds), given.rr)))
    elif given.command == "compare":
        compare(given)
    else:
        measure(given)


main()
