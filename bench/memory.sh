#!/usr/bin/env bash
# What the broker keeps of an event, of a byte produced and of a byte fetched, as tables for bench/README.md:
# `bench/memory.sh`. It needs the proved program (`make prove`) and a Rust compiler for the client.
set -euo pipefail
top="$(cd "$(dirname "$0")/.." && pwd)"
"$top/tools/program.py"
made=$(mktemp -d)
trap 'rm -rf "$made"' EXIT
rustc -O --edition 2021 "$top/bench/serve/client.rs" -o "$made/client"
python3 "$top/bench/memory.py" "$made/client" "$@"
