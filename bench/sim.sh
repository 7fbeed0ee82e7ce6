#!/usr/bin/env bash
# Schedules run by `rr sim` and by the plain Rust of bench/baseline_sim, in turn, in one run. First the reports of random
# schedules of 2,000 steps on one to seven nodes have to be the same, byte for byte, and so has each report that is timed.
# The times are processor seconds, the least of the rounds. Then `rr random` beside `rr sim`, and the time for an event.
# bench/sim.sh [--rr RR] [ROUNDS [SEEDS]]        without RR the program is proved and built first
set -euo pipefail
cd "$(dirname "$0")"
rr=
if [ "${1:-}" = --rr ]; then
    rr=$(realpath "$2")
    shift 2
fi
rounds=${1:-7}
seeds=${2:-20}
if [ -z "$rr" ]; then
    # What the proof prints matters only where it fails.
    if ! said=$(cd ../crates/rr && rt run --jobs 1 -- --version 2>&1); then
        echo "$said" >&2
        exit 1
    fi
    rr=../crates/rr/out/rr
fi
(cd baseline_sim && cargo build --release --quiet)
work=$(mktemp -d)
trap 'rm -r "$work"' EXIT

python3 - "$rr" baseline_sim/target/release/baseline_sim "$work" "$rounds" "$seeds" <<'PYTHON'
import filecmp, os, subprocess, sys

ours, theirs, work, rounds, seeds = *sys.argv[1:4], int(sys.argv[4]), int(sys.argv[5])
schedule = f"{work}/schedule"


def words_of_draw(seed, steps, nodes):
    return [ours, "random", "--seed", str(seed), "--steps", str(steps), "--nodes", str(nodes)]


def draw(seed, steps, nodes):
    make(words_of_draw(seed, steps, nodes) + ["--schedule-only"])


def make(words):
    with open(schedule, "wb") as out:
        subprocess.run(words, stdout=out, check=True)


def run(words, to=os.devnull):
    """The processor seconds of a run over the schedule, and its most memory in MB."""
    with open(schedule) as given, open(to, "wb") as out:
        child = subprocess.Popen(words, stdin=given, stdout=out)
        _, status, used = os.wait4(child.pid, 0)
        assert status == 0, words
        return used.ru_utime + used.ru_stime, used.ru_maxrss / 1024


def compare(what):
    run([ours, "sim"], f"{work}/ours")
    run([theirs, "sim"], f"{work}/theirs")
    assert filecmp.cmp(f"{work}/ours", f"{work}/theirs", shallow=False), f"{what}: two reports"


def least(*programs):
    """The least times of these programs in turns, each with its memory."""
    took = [[run(words) for words in programs] for _ in range(rounds)]
    return [min(times) for times in zip(*took)]


def events():
    with open(schedule, "rb") as it:
        return sum(1 for _ in it) - 1


def measure(what):
    compare(what)
    (a, held), (b, base) = least([ours, "sim"], [theirs, "sim"])
    print(
        f"{what}, {events()} events: rr {a:.3f} s, {held:.0f} MB; plain Rust {b:.3f} s, {base:.0f} MB;"
        f" {a / b:.2f} times the time, {held / base:.1f} times the memory",
        flush=True,
    )


for seed in range(seeds):
    for nodes in range(1, 8):
        draw(seed, 2000, nodes)
        compare(f"seed {seed}, {nodes} nodes")
print(f"{7 * seeds} random schedules: the same reports", flush=True)
for nodes in (3, 7):
    draw(1, 900000, nodes)
    measure(f"random, {nodes} nodes")
make(["python3", "decisions.py", "900000"])
measure("decisions")
draw(1, 900000, 3)
(drawn, _), (ran, _) = least(words_of_draw(1, 900000, 3), [ours, "sim"])
print(f"rr random, 3 nodes, 900000 steps: {drawn:.3f} s, {drawn / ran:.2f} times rr sim", flush=True)
for count in (10000, 100000, 900000):
    draw(1, count, 3)
    [(a, _)] = least([ours, "sim"])
    make(["python3", "decisions.py", str(count)])
    [(b, _)] = least([ours, "sim"])
    print(f"{count} events: {1e6 * a / count:.3f} us an event at random, {1e6 * b / count:.3f} us of decisions", flush=True)
PYTHON
