#!/usr/bin/env bash
# Times `kbroker check` and `kbroker replay` over settings of 25,000, 50,000 and 100,000 bindings: `bench/bindings.sh`.
# They are of as many users, on as many topics' names, on 1,000, or all on one.
set -euo pipefail
top="$(cd "$(dirname "$0")/.." && pwd)"
text="$(mktemp)"
trap 'rm -f "$text"' EXIT
"$top/tools/program.py"

for names in 100000 1000 1; do
    for bindings in 25000 50000 100000; do
        awk -v bindings="$bindings" -v names="$names" 'BEGIN {
            print "node_id = 1\nhost = \"h\"\nport = 9092"
            for (i = 0; i < bindings; i++)
                printf "[[acl]]\nkind = \"Topic\"\nname = \"topic%d\"\npattern = \"LITERAL\"\nprincipal = \"User:user%d\"\nhost = \"*\"\noperation = \"READ\"\npermission = \"ALLOW\"\n", i % names, i
        }' > "$text"
        for job in check replay; do
            python3 -c '
import resource, subprocess, sys, time
start = time.monotonic()
subprocess.run([sys.argv[1], sys.argv[2]], stdin=open(sys.argv[3]), stdout=subprocess.DEVNULL, check=True)
peak = resource.getrusage(resource.RUSAGE_CHILDREN).ru_maxrss * 1024 // 1_000_000
print(f"{sys.argv[4]} bindings, {sys.argv[5]} names, {sys.argv[2]}: {time.monotonic() - start:.2f} s, {peak} MB")
' "$top/crates/kbroker/out/kbroker" "$job" "$text" "$bindings" "$names"
        done
    done
done
