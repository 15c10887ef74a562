#!/usr/bin/env bash
# Times `crc32c` and `Batch::check` beside plain Rust: `bench/record_batch.sh`, or `bench/record_batch.sh DIR` beside those
# of another checkout as well.
set -euo pipefail
top="$(cd "$(dirname "$0")/.." && pwd)"
work="$(mktemp -d)"
trap 'rm -rf "$work"' EXIT

# the program stands in a repository of its own, so that the gate has nothing to prove for it
build() {
    local from="$1" own="$work/$2"
    mkdir -p "$own"/crates/batch_speed/{src,specs,proofs}
    cp -r "$from"/crates/{wire_types,record_batch} "$own/crates/"
    cp "$top/bench/record_batch/rattle.rt.txt" "$own/crates/batch_speed/src/main.rt"
    touch "$own"/crates/batch_speed/{specs,proofs}/Lib.antt
    grep -E '^(wire_types|record_batch):' "$from/crates.txt" > "$own/crates.txt"
    echo 'batch_speed: record_batch wire_types' >> "$own/crates.txt"
    git -C "$own" init -q
    (cd "$own/crates/batch_speed" && rt run > "$own/build.log" 2>&1) || { cat "$own/build.log"; exit 1; }
    mv "$own/crates/batch_speed/out/batch_speed" "$work/$2.program"
}
programs=(rattle plain)
build "$top" rattle
rustc -O --edition 2024 -o "$work/plain.program" "$top/bench/record_batch/plain.rs"
if [ $# -gt 0 ]; then
    build "$1" other
    programs=(other "${programs[@]}")
fi

# in turn, so that what else the machine does slows all
for _ in 1 2 3; do
    for program in "${programs[@]}"; do
        "$work/$program.program" >> "$work/$program.txt"
    done
done

# the best round of each: over 6,400 batches of 16,381 bytes, and over a buffer in pieces
cd "$work"
awk '
    { unit = $1 == "piece" ? $1 " " $2 : $1; time = $(NF - 1); program = substr(FILENAME, 1, length(FILENAME) - 4) }
    !(unit in bytes) { units[++count] = unit; bytes[unit] = $1 == "piece" ? $3 * 1000 : 6400 * 16381; sum[unit] = $NF }
    $NF != sum[unit] { print unit ": the sums differ"; failed = 1; exit 1 }
    !((unit, program) in best) || time < best[unit, program] { best[unit, program] = time }
    END {
        if (failed) exit 1
        for (at = 1; at <= count; at++) {
            line = sprintf("%-13s", units[at])
            for (place = 1; place < ARGC; place++) {
                program = substr(ARGV[place], 1, length(ARGV[place]) - 4)
                line = line sprintf("  %s %5.0f MB/s", program, bytes[units[at]] / best[units[at], program])
            }
            print line sprintf("  ratio to plain %.2f", best[units[at], "plain"] / best[units[at], "rattle"])
        }
    }' "${programs[@]/%/.txt}"
