#!/usr/bin/env bash
# Tapes audited by `rr audit` and by the plain Rust of bench/baseline_sim, in turn, in one run: tapes of 0, 10,000 and 100,000
# events on three nodes, and with the word `million` one of 1,000,000, in which one batch of commands after another is decided.
# First both have to give the same answers. Of the rounds the least processor time and the most memory count; the time for an
# event is that above the time for no events.
# bench/audit.sh [ROUNDS [million]]
# RR=PROGRAM and PLAIN=PROGRAM name programs that are there, which are then neither proved nor built.
set -euo pipefail
rounds=${1:-7}
sizes="0 10000 100000"
[ "${2:-}" = million ] && sizes="$sizes 1000000"
[ -z "${RR:-}" ] || RR=$(realpath "$RR")
[ -z "${PLAIN:-}" ] || PLAIN=$(realpath "$PLAIN")
cd "$(dirname "$0")"

# Proves and builds the program; what that prints matters only where it fails.
if [ -z "${RR:-}" ]; then
    if ! said=$(cd ../crates/rr && rt run --jobs 1 -- --version 2>&1); then
        echo "$said" >&2
        exit 1
    fi
    RR=../crates/rr/out/rr
fi
if [ -z "${PLAIN:-}" ]; then
    (cd baseline_sim && cargo build --release --quiet)
    PLAIN=baseline_sim/target/release/baseline_sim
fi
work=$(mktemp -d)
trap 'rm -r "$work"' EXIT
for size in $sizes; do
    python3 tapes.py decided 3 "$size" --baseline "$PLAIN" >"$work/$size"
done

python3 - "$RR" "$PLAIN" "$work" $sizes <<'PYTHON'
import subprocess, sys

ours, theirs, work, sizes = *sys.argv[1:4], sys.argv[4:]


def answer(program, tape):
    ran = subprocess.run([program, "audit", f"{work}/{tape}"], capture_output=True)
    return ran.returncode, ran.stdout, ran.stderr.split(b"\n")[0]


# Each tape, and the same with its last event that sends struck out, have to have the same answers.
for size in sizes:
    with open(f"{work}/{size}") as file:
        lines = file.readlines()
    sends = [at for at, line in enumerate(lines) if line.startswith("send ")]
    with open(f"{work}/changed", "w") as file:
        file.writelines(line for at, line in enumerate(lines) if at not in sends[-1:])
    for tape in (size, "changed"):
        a, b = answer(ours, tape), answer(theirs, tape)
        assert a == b, f"{size} events: {a} and {b}"
    assert answer(ours, size) == (0, b"audit yes %d\n" % (len(lines) - 1), b"")
    print(f"{size} events, {sum(line.startswith('ack ') for line in lines)} commands acknowledged: the same answers")
PYTHON

# A process of its own, which stays small: what a program is said to hold is at least what this one holds.
python3 -I -S - "$RR" "$PLAIN" "$work" "$rounds" $sizes <<'PYTHON'
import os, sys

ours, theirs, work, rounds, sizes = *sys.argv[1:4], int(sys.argv[4]), sys.argv[5:]
quiet = [(os.POSIX_SPAWN_OPEN, 1, os.devnull, os.O_WRONLY, 0)]


def run(program, size):
    """Seconds of the processor, and megabytes of memory."""
    child = os.posix_spawn(program, [program, "audit", f"{work}/{size}"], os.environ, file_actions=quiet)
    _, status, used = os.wait4(child, 0)
    assert status == 0
    return used.ru_utime + used.ru_stime, used.ru_maxrss / 1024


started, each = None, {}
for size in sizes:
    took = [(run(ours, size), run(theirs, size)) for _ in range(rounds)]
    (a, b), (held, base) = ([pick(it[at][what] for it in took) for at in range(2)] for what, pick in ((0, min), (1, max)))
    print(f"{size} events: rr {a:.4f} s, {held:.1f} MB; plain Rust {b:.4f} s, {base:.1f} MB; ratios {a / b:.2f}, {held / base:.2f}")
    if started is None:
        started = a, b
        continue
    each[size] = [1e9 * (time - start) / int(size) for time, start in zip((a, b), started)]
    print("    for an event: rr {:.0f} ns, plain Rust {:.0f} ns; ratio {:.2f}".format(*each[size], each[size][0] / each[size][1]))
for size in sizes[2:]:
    ratios = [late / early for late, early in zip(each[size], each[sizes[1]])]
    print("an event of {} against one of {}: rr {:.2f} times, plain Rust {:.2f} times".format(size, sizes[1], *ratios))
PYTHON
