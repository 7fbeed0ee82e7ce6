#!/usr/bin/env bash
# Openings of folders with two areas of 64 MB. Those of version 1 are migrated. Those with the same facts in version 2 are
# opened, and nothing is written. `rr migrate` opens a folder and shows it then, bench_opening opens it alone. A migration
# should take at most three times an opening, in time and in memory.
# bench/migration.sh [ROUNDS [MEGABYTES]]
# RR=PROGRAM and OPENING=PROGRAM name programs that are there, which are then neither proved nor built.
set -euo pipefail
rounds=${1:-5}
megabytes=${2:-64}
[ -z "${RR:-}" ] || RR=$(realpath "$RR")
[ -z "${OPENING:-}" ] || OPENING=$(realpath "$OPENING")
cd "$(dirname "$0")"

work=$(mktemp -d)
trap 'rm -r "$work"' EXIT

if [ -z "${RR:-}" ]; then
    # Proves and builds rr; what that prints matters only where it fails.
    said=$(cd ../crates/rr && rt run --jobs 1 -- --version 2>&1) || { echo "$said" >&2; exit 1; }
    RR=../crates/rr/out/rr
fi
[ -n "${OPENING:-}" ] || { OPENING=$work/bench_opening; ./program bench_opening "$OPENING"; }

# Thirteen rounds an instance: version 1 has too few instances for as many bytes with fewer.
for version in 1 2; do
    mkdir "$work/$version"
    ./areas.py "$work/$version" $((megabytes * 1024)) --version "$version" --rounds 13
done

# A process of its own, which stays small: what a program is said to hold is at least what this one holds.
python3 -I -S - "$RR" "$OPENING" "$work" "$rounds" "$megabytes" <<'PYTHON'
import os, sys, time

rr, opening, work, rounds, megabytes = *sys.argv[1:4], int(sys.argv[4]), int(sys.argv[5])
quiet = [(os.POSIX_SPAWN_OPEN, 1, os.devnull, os.O_WRONLY, 0), (os.POSIX_SPAWN_OPEN, 2, os.devnull, os.O_WRONLY, 0)]
seat = ["--node", "0", "--nodes", "1"]
folder = f"{work}/copy"
os.mkdir(folder)


def copy(version):
    """Copies a folder's files anew, and has the copies on the disk before a program's own syncs are timed."""
    for area in ("a0", "a1"):
        with open(f"{work}/{version}/{area}", "rb") as source, open(f"{folder}/{area}", "wb") as target:
            while part := source.read(1 << 20):
                target.write(part)
            target.flush()
            os.fsync(target.fileno())


def run(program, words):
    """Seconds from start to end, seconds of the processor, and megabytes of memory."""
    begun = time.monotonic()
    child = os.posix_spawn(program, [program, *words], os.environ, file_actions=quiet)
    _, status, used = os.wait4(child, 0)
    seconds = time.monotonic() - begun
    assert status == 0, (program, words)
    return seconds, used.ru_utime + used.ru_stime, used.ru_maxrss / 1024


def ending(runs):
    """The least times of the rounds, since whatever else the machine does only adds time, and the most memory."""
    seconds, busy, most = zip(*runs)
    return min(seconds), min(busy), max(most)


# Versions take turns, each on a fresh copy.
for what, program, words in (("rr migrate", rr, ["migrate", folder, *seat]), ("bench_opening", opening, [folder])):
    runs = {2: [], 1: []}
    for _ in range(rounds):
        for version, those in runs.items():
            copy(version)
            those.append(run(program, words))
    ends = {version: ending(those) for version, those in runs.items()}
    for version, (seconds, busy, most) in ends.items():
        print(f"{megabytes} MB each, {what}, version {version}: {seconds:.3f} s, of the processor {busy:.3f} s, {most:.0f} MB")
    time_ratio, busy_ratio, memory_ratio = (one / two for one, two in zip(ends[1], ends[2]))
    print(f"{megabytes} MB each, {what}, version 1 to 2: {time_ratio:.2f}, of the processor {busy_ratio:.2f}, of memory {memory_ratio:.2f}")
PYTHON
