#!/usr/bin/env bash
# Times the verdicts of a `Policy` beside a walk over the whole `Book`: `bench/verdicts.sh`.
set -euo pipefail
top="$(cd "$(dirname "$0")/.." && pwd)"
work="$(mktemp -d)"
trap 'rm -rf "$work"' EXIT

# the program stands in a repository of its own, so that the gate has nothing to prove for it
own="$work/crates/verdict_speed"
mkdir -p "$own"/{src,specs,proofs/policy_of,proofs/book_of}
for crate in wire_types msg_acl acl_binding authorizer; do
    cp -r "$top/crates/$crate" "$work/crates/"
    grep -E "^$crate:" "$top/crates.txt" >> "$work/crates.txt"
done
cp "$top/bench/verdicts/rattle.rt.txt" "$own/src/main.rt"
touch "$own"/{specs,proofs}/Lib.antt
for loop in policy_of book_of; do
    cp "$top/bench/verdicts/$loop.antt.txt" "$own/proofs/$loop/Invariants.antt"
done
echo 'verdict_speed: authorizer acl_binding wire_types' >> "$work/crates.txt"
git -C "$work" init -q
(cd "$own" && rt run > "$work/build.log" 2>&1) || { cat "$work/build.log"; exit 1; }

"$own/out/verdict_speed" > "$work/figures.txt"
awk '
    $2 == "added" { printf "%6d bindings: %s filled in %.3f s\n", $3, $1, $5 / 1e6 }
    $2 == "named" { printf "%6d bytes: a verdict takes %.0f ns\n", $3, $5 / $4 * 1000 }
    $2 == "answered" {
        printf "%6d bindings: %s answers %d verdicts a second\n", $3, $1, $4 / $5 * 1e6
        if ($1 == "policy") sum = $6
        else if ($6 != sum) { print "the verdicts differ"; exit 1 }
    }' "$work/figures.txt"
