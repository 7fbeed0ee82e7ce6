#!/usr/bin/env bash
# Openings of areas of 8, 16, 32 and 64 MB of groups, in one run: the time for each megabyte, which stays about the same
# where an opening is linear in the size of its area.
# bench/opening.sh [ROUNDS]
set -euo pipefail
rounds=${1:-11}
cd "$(dirname "$0")"

times=$(mktemp -d)
trap 'rm -r "$times"' EXIT
program=$times/bench_opening
./program bench_opening "$program"

# The program tells the microseconds of the opening on standard error. The least of the rounds counts: whatever else the
# machine does only adds time. Each round goes through all sizes, so that a busy minute falls on none alone.
for _ in $(seq "$rounds"); do
    for megabytes in 8 16 32 64; do
        $program $((megabytes * 1024)) 2>>"$times/$megabytes" >"$times/what-$megabytes"
    done
done
for megabytes in 8 16 32 64; do
    sort -n "$times/$megabytes" | head -n 1 | awk -v m="$megabytes" -v w="$(cat "$times/what-$megabytes")" '{
        printf "%2d MB: %7.1f ms, %.2f ms a megabyte (%s)\n", m, $1 / 1000, $1 / 1000 / m, w
    }'
done
