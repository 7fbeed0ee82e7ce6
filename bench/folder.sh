#!/usr/bin/env bash
# Openings of folders with two areas of 8, 16, 32 and 64 MB, as a node opens them and as `rr show` reads them, in one run:
# the processor time for each megabyte of both areas, which stays about the same where an opening is linear in their size,
# and the most memory beside that size.
# bench/folder.sh [ROUNDS]
# RR=PROGRAM and OPENING=PROGRAM name programs that are there, which are then neither proved nor built.
set -euo pipefail
rounds=${1:-5}
[ -z "${RR:-}" ] || RR=$(realpath "$RR")
[ -z "${OPENING:-}" ] || OPENING=$(realpath "$OPENING")
cd "$(dirname "$0")"
folder=$(mktemp -d)
trap 'rm -r "$folder"' EXIT

if [ -z "${RR:-}" ]; then
    # Proves and builds rr; what that prints matters only where it fails.
    said=$(cd ../crates/rr && rt run --jobs 1 -- --version 2>&1) || { echo "$said" >&2; exit 1; }
    RR=../crates/rr/out/rr
fi
[ -n "${OPENING:-}" ] || { OPENING=$folder/bench_opening; ./program bench_opening "$OPENING"; }

for megabytes in 8 16 32 64; do
    ./areas.py "$folder" $((megabytes * 1024))
    python3 - "$RR" "$OPENING" "$folder" "$megabytes" "$rounds" <<'PYTHON'
import os, subprocess, sys, time
rr, opening, folder, megabytes, rounds = *sys.argv[1:4], int(sys.argv[4]), int(sys.argv[5])
size = sum(os.path.getsize(os.path.join(folder, area)) for area in ("a0", "a1"))


def run(words):
    """Seconds from start to end, seconds of the processor, and the most bytes of memory."""
    begun = time.monotonic()
    child = subprocess.Popen(words, stdout=subprocess.DEVNULL, stderr=subprocess.DEVNULL)
    _, status, used = os.wait4(child.pid, 0)
    seconds = time.monotonic() - begun
    assert status == 0, words
    return seconds, used.ru_utime + used.ru_stime, used.ru_maxrss * 1024


# The least of the rounds counts: whatever else the machine does only adds time.
for what, words in (
    ("opened", [opening, folder]),
    ("shown", [rr, "show", folder]),
):
    runs = [run(words) for _ in range(rounds)]
    seconds, busy = (min(run[i] for run in runs) for i in range(2))
    most = max(run[2] for run in runs)
    each = 1000 * busy / (size / 2**20)
    print(f"{megabytes:2} MB each, {what}: {seconds:.3f} s, of the processor {busy:.3f} s, {each:.2f} ms a megabyte of both; "
          f"{most / 2**20:.0f} MB, {most / size:.2f} times the areas")
PYTHON
done
