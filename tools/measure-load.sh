#!/usr/bin/env bash
# How many instructions dumpcheck takes on sound dumps of rising length, as valgrind counts them: the same on every run.
# Run ./dumpcheck.sh once before it, which builds the program.
set -eu
root=$(cd "$(dirname "$0")/.." && pwd)
program=$root/crates/dumpcheck/out/dumpcheck
[ -x "$program" ] || { echo "measure-load.sh: run ./dumpcheck.sh first" >&2; exit 1; }
dump=$(mktemp)
trap 'rm -f "$dump"' EXIT
for wires in 400 800 1600 3200; do
    { echo 010001010000; echo 02; for ((k = 0; k < wires; k++)); do echo 040000000000000000; done; echo 05; } >"$dump"
    count=$(valgrind --tool=callgrind --callgrind-out-file=/dev/null "$program" 2>&1 >/dev/null <"$dump" | awk '/Collected/ { print $NF }')
    printf '%6d bytes: %8d instructions\n' "$(stat -c %s "$dump")" "$count"
done
