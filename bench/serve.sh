#!/usr/bin/env bash
# Measures `kbroker serve` beside the mock broker of librdkafka and beside `bench/floor.rs`, which does the work of a Produce
# without Kafka's rules, in one run, as a table for bench/README.md: records of 100 bytes produced and fetched in a second, five
# requests in flight on each connection, and round trips of a small request; each the best of three runs, with the peak of the
# broker's memory in the last. With a path it measures that program of kbroker too, as the state before. It needs the proved
# program (`make prove`), a Rust and a C compiler, and librdkafka (Debian's librdkafka-dev).
#
#     bench/serve.sh [PROGRAM]
set -euo pipefail
cd "$(dirname "$0")/.."
tools/program.py
before=${1:-}

made=$(mktemp -d)
started=
trap 'kill $started 2>/dev/null || true; rm -rf "$made"' EXIT
rustc -O --edition 2021 bench/serve/client.rs -o "$made/client"
rustc -O --edition 2021 bench/floor.rs -o "$made/floor"
cc -O2 bench/serve/mock.c -o "$made/mock" -lrdkafka

cat > "$made/settings" <<'SETTINGS'
node_id = 1
host = "h"
port = 9092
supers = ["User:root"]
trail_limit = 1073741824
[[user]]
name = "root"
password = "toor"
SETTINGS
for topic in b b0 b1 b2 b3; do
    printf '[[topic]]\nname = "%s"\npartitions = 1\n' "$topic" >> "$made/settings"
done

# Starts one of the brokers, and waits until it says where it listens, or has ended; then what it told of that is shown.
start() {
    case "$1" in
    mock)
        mkfifo "$made/input"
        "$made/mock" < "$made/input" > "$made/said" 2> "$made/errors" &
        started=$!
        exec 9> "$made/input"
        ;;
    floor)
        "$made/floor" > "$made/said" 2> "$made/errors" &
        started=$!
        ;;
    *)
        "$1" serve --listen 127.0.0.1:0 --workers 4 < "$made/settings" > "$made/said" 2> "$made/errors" &
        started=$!
        ;;
    esac
    until grep -q "^listening on " "$made/said" 2>/dev/null; do
        kill -0 "$started" 2>/dev/null || { cat "$made/errors" >&2; echo "bench/serve.sh: $1 doesn't start" >&2; exit 1; }
        sleep 0.05
    done
    address=$(sed -n 's/^listening on //p' "$made/said")
}

stop() {
    memory=$(awk '/^VmHWM:/ { print $2 }' "/proc/$started/status")
    exec 9>&- || true
    kill "$started" 2>/dev/null || true
    wait "$started" 2>/dev/null || true
    started=
    rm -f "$made/input" "$made/said"
}

# The best of three runs, each at a broker of its own, in `best`; and in `memory` the peak of the last one's memory, in KiB.
measure() {
    local broker=$1 who=(root toor) told
    shift
    case "$broker" in mock | floor) who=(- -) ;; esac
    best=0
    for _ in 1 2 3; do
        start "$broker"
        told=$("$made/client" "$address" "${who[@]}" "$@")
        stop
        if [ "$told" -gt "$best" ]; then best=$told; fi
    done
}

# One line of the table: whether the floor knows the work, its name, and the client's words.
row() {
    local floor=$1 name=$2 ours kept mock least='' old=''
    shift 2
    measure ./kbroker "$@"
    ours=$best kept=$memory
    measure mock "$@"
    mock=$best
    if [ "$floor" = yes ]; then
        measure floor "$@"
        least=$(ratio "$ours" "$best")
    fi
    if [ -n "$before" ]; then
        measure "$before" "$@"
        old=$(ratio "$best" "$mock")
    fi
    echo "| $name | $ours | $mock | $old | $(ratio "$ours" "$mock") | $least | $((kept * 1024 / 1000000)) MB |"
}

ratio() {
    awk "BEGIN { printf \"%.2f\", $1 / $2 }"
}

echo "| records or round trips a second | kbroker | librdkafka's mock | ratio before | ratio | of the floor | memory |"
echo "|---|--:|--:|--:|--:|--:|--:|"
for size in 1000000 16384; do
    row yes "Produce, plain, batches of $size bytes" produce plain "$size" 400000000
    for kind in idempotent transactional; do
        row no "Produce, $kind, batches of $size bytes" produce "$kind" "$size" 400000000
    done
    row yes "Produce, four connections to four topics, batches of $size bytes" produces 4 "$size" 200000000
    row no "Fetch, batches of $size bytes" fetch "$size" 1000000000
done
row no "round trips on one connection" trips 1 200000
row no "round trips on four connections" trips 4 100000
