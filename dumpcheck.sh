#!/usr/bin/env bash
# Proves and builds the program dumpcheck, and runs it on a dump: ./dumpcheck.sh [FILE]
# Without FILE it reads examples/ring.dump. What the check prints goes to target/dumpcheck.log.
set -eu
root=$(cd "$(dirname "$0")" && pwd)
dump=$(realpath -- "${1:-$root/examples/ring.dump}")
[ -r "$dump" ] || { echo "dumpcheck.sh: cannot read $dump" >&2; exit 1; }
mkdir -p "$root/target"
cd "$root/crates/dumpcheck"
echo "proving and building dumpcheck" >&2
rt run </dev/null >../../target/dumpcheck.log 2>&1 || { tail -n 20 ../../target/dumpcheck.log >&2; exit 1; }
exec out/dumpcheck <"$dump"
