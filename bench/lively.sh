#!/usr/bin/env bash
# `rr random --lively` and plain Rust print the same bytes, for each seed on 1, 3, 5 and 7 nodes, with 10 and with 100
# faults in a thousand steps. Prints the most steps that a seed took for a decided command. With 100 faults each refusal
# has to come up but those of limits, of memory and of damaged areas, which no run has.
# bench/lively.sh [FIRST [LAST [STEPS]]], with seeds 0 to 99 and 20,000 steps if left out. RR names a program that is there,
# as hostile/unproved builds it; else the proved one is built.
set -euo pipefail
first=${1:-0}
last=${2:-99}
steps=${3:-20000}
rr=${RR:+$(realpath "$RR")}
cd "$(dirname "$0")"
if [ -z "$rr" ]; then
    if ! said=$(cd ../crates/rr && rt run --jobs 1 -- --version 2>&1); then
        echo "$said" >&2
        exit 1
    fi
    rr=../crates/rr/out/rr
fi
target=${CARGO_TARGET_DIR:-baseline_sim/target}
cargo build --quiet --release --manifest-path baseline_sim/Cargo.toml --target-dir "$target"
plain=$target/release/baseline_sim
work=$(mktemp -d)
trap 'rm -r "$work"' EXIT
for nodes in 1 3 5 7; do
    for faults in 10 100; do
        most=0
        for ((seed = first; seed <= last; seed++)); do
            "$plain" lively "$seed" "$steps" "$nodes" "$faults" >"$work/schedule"
            "$plain" sim <"$work/schedule" >"$work/report"
            { cat "$work/schedule" && echo report && cat "$work/report"; } >"$work/plain"
            "$rr" random --lively --faults "$faults" --seed "$seed" --steps "$steps" --nodes "$nodes" >"$work/rr"
            if ! cmp -s "$work/plain" "$work/rr"; then
                echo "seed $seed, $nodes nodes, $faults faults: the programs differ" >&2
                exit 1
            fi
            if [ "$faults" = 100 ]; then
                sed -n 's/^refuse [0-9]* [0-9]* //p' "$work/report" >>"$work/refusals"
            fi
            decided=$(sed -n 's/^decided //p' "$work/report")
            each=$((decided ? steps / decided : steps))
            most=$((each > most ? each : most))
        done
        echo "$nodes nodes, $faults faults: the same bytes; at most $most steps for a decided command"
    done
done
for name in Busy Device Down Failed; do
    if ! grep -qx "$name" "$work/refusals"; then
        echo "no refusal $name with 100 faults" >&2
        exit 1
    fi
done
echo "refusals with 100 faults: $(sort -u "$work/refusals" | tr '\n' ' ')"
