#!/usr/bin/env bash
# Random schedules, from a program's start to its end: events a second of `rr sim` and its most memory, on three nodes for
# 9,000, 90,000 and 900,000 steps and on seven for 90,000 and 900,000, and the time of `rr random`, which draws the schedule and runs it.
# An event should take at most half as long again for 900,000 steps; memory should be in proportion to what was sent and logged.
# bench/random.sh [ROUNDS [SEED]]
set -euo pipefail
rounds=${1:-7}
seed=${2:-1}
cd "$(dirname "$0")"

# Proves and builds the program; what that prints matters only where it fails.
if ! said=$(cd ../crates/rr && rt run --jobs 1 -- --version 2>&1); then
    echo "$said" >&2
    exit 1
fi

rr=../crates/rr/out/rr
work=$(mktemp -d)
trap 'rm -r "$work"' EXIT
for words in "3 9000" "3 90000" "3 900000" "7 90000" "7 900000"; do
    read -r nodes steps <<<"$words"
    python3 - "$rr" "$work/schedule" "$nodes" "$steps" "$seed" "$rounds" <<'PYTHON'
import os, subprocess, sys, time

rr, schedule, nodes, steps, seed, rounds = sys.argv[1:]
draw = [rr, "random", "--seed", seed, "--steps", steps, "--nodes", nodes]
drawn = subprocess.run(draw, check=True, capture_output=True).stdout
with open(schedule, "wb") as file:
    file.write(drawn[: drawn.index(b"\nreport\n") + 1])
events = drawn[: drawn.index(b"\nreport\n")].count(b"\n")


def run(words):
    """The seconds of one run, and its most memory in MB."""
    begun = time.monotonic()
    child = subprocess.Popen(words, stdout=subprocess.DEVNULL)
    _, status, used = os.wait4(child.pid, 0)
    assert status == 0, words
    return time.monotonic() - begun, used.ru_maxrss / 1024


runs = [(run([rr, "sim", schedule]), run(draw)) for _ in range(int(rounds))]
seconds, memory = min(sim for sim, _ in runs)
drawing, _ = min(drawn for _, drawn in runs)
print(f"{nodes} nodes, {steps:>6} steps: {seconds:7.3f} s, {events / seconds:9.0f} events a second, {memory:5.0f} MB; random {drawing:7.3f} s")
PYTHON
done
