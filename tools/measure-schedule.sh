#!/usr/bin/env bash
# How long the engine takes to schedule the largest table book, twice, once of them bound: 256 flip-flops, 8 domains, 65,536 checks in a
# chain, each end of which is raised to the last domain, so 1,785 raises and 1,786 scans. Builds the program booksuite first.
set -eu
root=$(cd "$(dirname "$0")/.." && pwd)
mkdir -p "$root/target"
cd "$root/crates/booksuite"
rt run </dev/null >../../target/booksuite.log 2>&1 || { tail -n 20 ../../target/booksuite.log >&2; exit 1; }
book=$(mktemp)
trap 'rm -f "$book"' EXIT
for checks in 16384 32768 65536; do
    awk -v checks="$checks" 'BEGIN {
        print 1, 256, 8, 0, 1, 8
        for (m = 0; m < 8; m++) { print 8; for (n = 0; n < 8; n++) print 100 - n }
        print checks
        for (k = 0; k < checks; k++) print k % 255, k % 255 + 1, 0
        print int(checks / 2), 0
    }' >"$book"
    begin=$(date +%s%N)
    out/booksuite <"$book" >/dev/null
    printf '%6d checks: %5d ms\n' "$checks" $((($(date +%s%N) - begin) / 1000000))
done
