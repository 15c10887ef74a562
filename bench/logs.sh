#!/usr/bin/env bash
# Times a log's appends and its read_committed fetches: `bench/logs.sh`, or `bench/logs.sh DIR` for those of another
# checkout.
set -euo pipefail
top="$(cd "$(dirname "$0")/.." && pwd)"
from="${1:-$top}"
work="$(mktemp -d)"
trap 'rm -rf "$work"' EXIT

# the program stands in a repository of its own, so that the gate has nothing to prove for it
own="$work/crates/log_speed"
mkdir -p "$own"/{src,specs,proofs}
for crate in wire_types record_batch msg_data producer_state partition_log; do
    cp -r "$from/crates/$crate" "$work/crates/"
    grep -E "^$crate:" "$from/crates.txt" >> "$work/crates.txt"
done
cp "$top/bench/logs/rattle.rt.txt" "$own/src/main.rt"
touch "$own"/{specs,proofs}/Lib.antt
echo 'log_speed: partition_log producer_state record_batch msg_data wire_types' >> "$work/crates.txt"
git -C "$work" init -q
(cd "$own" && rt run > "$work/build.log" 2>&1) || { cat "$work/build.log"; exit 1; }

"$own/out/log_speed" | awk '{
    printf "%6d batches: %.2f microseconds for an append, %.2f for a fetch of the last offset\n", $1, $2 / $1, $4 / $3
}'
