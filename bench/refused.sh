#!/usr/bin/env bash
# What a refused part of a request costs beside a served one, api by api: `bench/refused.sh`.
set -euo pipefail
top="$(cd "$(dirname "$0")/.." && pwd)"
"$top/tools/program.py"
exec python3 "$top/bench/refused.py"
