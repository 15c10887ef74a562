#!/usr/bin/env bash
# How long another user waits beside the dearest requests, api by api: `bench/latency.sh`.
set -euo pipefail
top="$(cd "$(dirname "$0")/.." && pwd)"
"$top/tools/program.py"
exec python3 "$top/bench/latency.py"
