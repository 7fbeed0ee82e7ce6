#!/bin/sh
# Parsing and printing texts, beside a plain Rust program over the same types, in one run: bench/text.sh [ROUNDS]
# Needs the toolchain's `rt` and cargo. bench/TEXT.md says what is measured.
set -eu
rounds=${1:-7}
top=$(cd "$(dirname "$0")/.." && pwd)
plain=$top/bench/baseline_text/target/release/baseline_text
times=$(mktemp -d)
trap 'rm -r "$times"' EXIT
ours=$times/bench_text

"$top/bench/program" bench_text "$ours"
(cd "$top/bench/baseline_text" && cargo build --quiet --release --offline)

# The least time of the rounds, in microseconds.
least() {
    awk -v what="$2" '$1 == what && (!n++ || $2 < least) { least = $2 } END { print least }' "$1"
}

for events in 250000 500000 1000000; do
    lines=$((events / 2))
    : > "$times/ours"
    : > "$times/plain"
    for _ in $(seq "$rounds"); do
        "$ours" "$events" "$lines" > "$times/ours_did" 2>> "$times/ours"
        "$plain" "$events" "$lines" > "$times/plain_did" 2>> "$times/plain"
        cmp "$times/ours_did" "$times/plain_did"
    done
    for what in parse print report; do
        awk -v what="$what" -v events="$events" -v lines="$lines" \
            -v ours="$(least "$times/ours" "$what")" -v plain="$(least "$times/plain" "$what")" 'BEGIN {
            count = what == "report" ? lines : events
            printf "%-6s %7d lines: %7d us, %5.0f ns a line; plain Rust %7d us; ratio %.2f\n",
                what, count, ours, 1000 * ours / count, plain, ours / plain
        }'
    done
done
