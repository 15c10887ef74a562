#!/usr/bin/env bash
# Times `kbroker replay` over settings of 1,000 topics and 25,000, 50,000 and 100,000 users: `bench/settings.sh`.
set -euo pipefail
top="$(cd "$(dirname "$0")/.." && pwd)"
text="$(mktemp)"
trap 'rm -f "$text"' EXIT
"$top/tools/program.py"

for users in 25000 50000 100000; do
    awk -v users="$users" 'BEGIN {
        print "node_id = 1\nhost = \"h\"\nport = 9092"
        for (i = 0; i < users; i++) printf "[[user]]\nname = \"user%d\"\npassword = \"p\"\n", i
        for (i = 0; i < 1000; i++) printf "[[topic]]\nname = \"topic%d\"\npartitions = 1\n", i
    }' > "$text"
    python3 -c '
import resource, subprocess, sys, time
start = time.monotonic()
subprocess.run([sys.argv[1], "replay"], stdin=open(sys.argv[2]), check=True)
peak = resource.getrusage(resource.RUSAGE_CHILDREN).ru_maxrss * 1024 // 1_000_000
print(f"{sys.argv[3]} users: {time.monotonic() - start:.2f} s, {peak} MB")
' "$top/crates/kbroker/out/kbroker" "$text" "$users"
done
