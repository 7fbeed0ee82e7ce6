#!/usr/bin/env python3
"""Measures all figures that have an aim, in one run of the other scripts of bench/, and prints them as one table.

    bench/figures.py [--rr PROGRAM] [--opening PROGRAM] [--rounds N] [--small]

--rr names the program, crates/rr/out/rr if left out, and --opening a bench_opening that is there; else it is built first. --rounds is for
each script, 7 if left out; run.py makes three times as many, and sim.sh six times. On a quiet machine it takes some four minutes, and with
--small one, by short runs that show only that each line comes. First come the lines of the scripts, as they print them; the table is
computed from these lines alone."""
import argparse
import os
import pathlib
import re
import subprocess
import sys
import tempfile
import time

sys.dont_write_bytecode = True
HERE = pathlib.Path(__file__).resolve().parent
NODES = (1, 3, 7)


def read_words():
    words = argparse.ArgumentParser(description=__doc__, formatter_class=argparse.RawDescriptionHelpFormatter)
    words.add_argument("--rr", default=str(HERE.parent / "crates/rr/out/rr"))
    words.add_argument("--opening")
    words.add_argument("--rounds", type=int)
    words.add_argument("--small", action="store_true")
    given = words.parse_args()
    given.rr = os.path.abspath(given.rr)
    given.opening = given.opening and os.path.abspath(given.opening)
    given.rounds = given.rounds or (1 if given.small else 7)
    return given


def said_by(*words, **more):
    """What a command prints; it is shown as it comes."""
    print(f"$ {' '.join(map(str, words))}", flush=True)
    run = subprocess.Popen([str(word) for word in words], cwd=HERE, env=os.environ | more, stdout=subprocess.PIPE, text=True)
    lines = []
    for line in run.stdout:
        print(f"    {line}", end="", flush=True)
        lines.append(line)
    if run.wait() != 0:
        sys.exit(f"bench/figures.py: {words[0]} ended with {run.returncode}")
    return "".join(lines)


def found(pattern, text):
    """The numbers that a pattern finds, of its last match."""
    matches = list(re.finditer(pattern, text))
    if not matches:
        sys.exit(f"bench/figures.py: no line is like {pattern}")
    return [float(number) for number in matches[-1].groups()]


def simulations(given):
    # Such a run takes a sixth of a second. A machine that others share is slower by half for seconds on end, so both programs need many.
    text = said_by("./sim.sh", "--rr", given.rr, 6 * given.rounds, 1 if given.small else 20)
    ratios = [found(rf"{what}.*; ([\d.]+) times the time", text)[0] for what in ("random, 3 nodes", "random, 7 nodes", "decisions")]
    early, late = (found(rf"\n{count} events: ([\d.]+) us .*, ([\d.]+) us", text) for count in (10_000, 900_000))
    later = [b / a for a, b in zip(early, late)]
    yield "`rr sim`, random, 3 and 7 nodes, times plain Rust", "1.61; 1.63", "1.35", "{:.2f}; {:.2f}".format(*ratios[:2])
    yield "`rr sim`, decisions", "2.18", "1.5", f"{ratios[2]:.2f}"
    yield "an event of 900,000 against one of 10,000, at random; of decisions", "0.90; 0.69", "1.2", "{:.2f}; {:.2f}".format(*later)


def audits(given):
    text = said_by("./audit.sh", given.rounds, *([] if given.small else ["million"]), RR=given.rr)
    count = 100_000 if given.small else 1_000_000
    took, held = found(rf"\n{count} events: rr .*; ratios ([\d.]+), ([\d.]+)", text)
    later = found(rf"an event of {count} against one of 10000: rr ([\d.]+) times", text)[0]
    yield f"`rr audit`, {count:,} events: time; memory", "1.90; 1.85", "1.5; 1.3", f"{took:.2f}; {held:.2f}"
    yield f"an event of {count:,} against one of 10,000, audited", "1.04", "1.2", f"{later:.2f}"


def runs(given):
    # Which processors the threads get decides more than the program, so there are more rounds of these, which are short.
    text = said_by("./run.py", "--rr", given.rr, "--rounds", 3 * given.rounds, "--only", "tmpfs")
    rows = [found(rf"tmpfs, {nodes} nodes: .*rr has ([\d.]+) times", text)[0] for nodes in NODES]
    yield "`rr run`, tmpfs, 1, 3 and 7 nodes: commands a second", "0.72; 0.86; 0.80", "0.85; 0.92; 0.90", "; ".join(f"{row:.2f}" for row in rows)


def slopes(given):
    size = ["--few", 2_000, "--many", 6_000] if given.small else []
    rows = {}
    for nodes in NODES:
        text = said_by("./slope.py", "--rr", given.rr, "--nodes", nodes, *size)
        rows[nodes] = found(r"; (-?\d+) bytes a command at a node", text)[0]
    # What a script and its answers take is shared by the nodes. So it goes out of the difference of two numbers of nodes.
    own = (7 * rows[7] - 3 * rows[3]) / 4
    all_rows = "; ".join(f"{rows[nodes]:.0f}" for nodes in NODES)
    yield "bytes of a decided command at a node, by 3 and 7 nodes", "891", "450", f"{own:.0f}"
    yield "the same with the script and the answers, 1, 3 and 7 nodes", "1689; 1059; 963", "", all_rows


def openings(given, room):
    opening = given.opening
    if not opening:
        opening = f"{room}/bench_opening"
        said_by("./program", "bench_opening", opening)
    text = said_by("./folder.sh", min(given.rounds, 3), RR=given.rr, OPENING=opening)
    opened = max(map(float, re.findall(r"opened: .* ([\d.]+) times the areas", text)))
    shown = max(map(float, re.findall(r"shown: .* ([\d.]+) times the areas", text)))
    yield "memory of an opening; of `rr show`, by areas of 8 to 64 MB", "2.64; 2.68", "1.5; 3", f"{opened:.2f}; {shown:.2f}"
    few, many = (100, 1_600) if given.small else (1_000, 16_000)
    took = []
    for _ in range(given.rounds):
        ran = subprocess.run([opening, f"down:{few}", f"down:{many}"], capture_output=True, text=True, check=True)
        took.append([int(line) / groups for line, groups in zip(ran.stderr.split(), (few, many))])
    early, late = map(min, zip(*took))
    print(f"decisions in descending order: {early / 64:.3f} us an instance of {few * 64}, {late / 64:.3f} us of {many * 64}", flush=True)
    yield f"opening, hardest order: an instance of {many * 64:,} against one of {few * 64:,}", "quadratic", "1.3", f"{late / early:.2f}"


def main():
    given = read_words()
    begun = time.monotonic()
    with tempfile.TemporaryDirectory() as room:
        rows = [*simulations(given), *audits(given), *runs(given), *slopes(given), *openings(given, room)]
    print(f"\nIn {time.monotonic() - begun:.0f} s, least of {given.rounds} rounds, with a load of {os.getloadavg()[0]:.1f} at the end:\n")
    print("| | before | wanted | now |\n|---|---|---|---|")
    for row in rows:
        print(f"| {' | '.join(row)} |")


if __name__ == "__main__":
    main()
