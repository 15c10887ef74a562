#!/usr/bin/env bash
# Times `kbroker replay` over scripts of 10,000, 20,000 and 40,000 Produce requests of one record each:
# `bench/produce.sh`.
set -euo pipefail
top="$(cd "$(dirname "$0")/.." && pwd)"
"$top/tools/program.py"
exec python3 "$top/bench/produce.py" "$top/crates/kbroker/out/kbroker"
