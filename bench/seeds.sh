#!/usr/bin/env bash
# `rr random` with each seed from 0 to 99, 20,000 steps and three nodes, twice: each run ends with status 0, and both print
# the same bytes.
# bench/seeds.sh [FIRST [LAST [STEPS [NODES]]]]
set -euo pipefail
first=${1:-0}
last=${2:-99}
steps=${3:-20000}
nodes=${4:-3}
cd "$(dirname "$0")/../crates/rr"
if ! said=$(rt run --jobs 1 -- --version 2>&1); then
    echo "$said" >&2
    exit 1
fi
for ((seed = first; seed <= last; seed++)); do
    words=(random --seed "$seed" --steps "$steps" --nodes "$nodes")
    once=$(out/rr "${words[@]}" | sha256sum)
    again=$(out/rr "${words[@]}" | sha256sum)
    if [ "$once" != "$again" ]; then
        echo "seed $seed: another output the second time" >&2
        exit 1
    fi
done
echo "seeds $first to $last, $steps steps, $nodes nodes: status 0, and the same bytes again"
