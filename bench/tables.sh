#!/usr/bin/env bash
# What look-ups cost among n and among 4n, for each table of the broker: `bench/tables.sh`.
set -euo pipefail
top="$(cd "$(dirname "$0")/.." && pwd)"
"$top/tools/program.py"
exec python3 "$top/bench/tables.py" "$top/crates/kbroker/out/kbroker"
