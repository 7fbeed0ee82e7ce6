#!/usr/bin/env bash
# Messages encoded and decoded by rr_frame and by the plain Rust of bench/baseline, in turn, in one run.
# bench/wire.sh [COUNT [ROUNDS]]
set -euo pipefail
count=${1:-1000000}
rounds=${2:-15}
cd "$(dirname "$0")"

times=$(mktemp -d)
trap 'rm -r "$times"' EXIT
ours=$times/bench_wire
./program bench_wire "$ours"
(cd baseline && cargo build --release --quiet)
theirs=baseline/target/release/baseline

if [ "$($ours "$count" 2>/dev/null)" != "$($theirs "$count" 2>/dev/null)" ]; then
    echo "the two disagree on what they read" >&2
    exit 1
fi

# Each program tells the microseconds of its loop on standard error. The least of the rounds counts: whatever
# else the machine does only adds time.
least() {
    sort -n "$1" | head -n 1
}
for _ in $(seq "$rounds"); do
    $ours "$count" 2>>"$times/ours" >/dev/null
    $theirs "$count" 2>>"$times/theirs" >/dev/null
done
rattle=$(least "$times/ours")
rust=$(least "$times/theirs")
awk -v n="$count" -v a="$rattle" -v b="$rust" -v r="$rounds" 'BEGIN {
    printf "%d messages, least of %d rounds: Rattle %.1f ms, Rust %.1f ms, ratio %.2f\n", n, r, a / 1000, b / 1000, a / b
}'
