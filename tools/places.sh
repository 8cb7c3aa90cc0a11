#!/bin/sh
# Lists the lines of src/ where an older form may stand, by kind, with their number. docs/DESIGN-PASS.md says what came of them.
# Usage: tools/places.sh [-c]   (-c: the numbers alone). A listed line is a place to look, no verdict.
cd "$(dirname "$0")/.." || exit 1
LIST=1
[ "$1" = -c ] && LIST=0

places() {
    name=$1
    shift
    found=$(grep -rnE "$@" crates/*/src | grep -vE '^[^:]*:[0-9]+: *//')
    printf '%s: %s\n' "$name" "$(printf '%s' "$found" | grep -c '')"
    [ $LIST = 1 ] && printf '%s\n' "$found" | sed 's/^/    /'
}

places "own enums, and numbers that stand for a kind or a case" 'enum [A-Z]|const [A-Z_]+: (\(u8|u8 = [0-9])|fn [a-z_]+.*-> .*\(u8|^ +_? ?[A-Za-z:]+ => (Some\()?[0-9]+\)?,'
places "loops that count" '^ *(.[a-z]+: )?(for [^{]* in [^{]*\.\.|while [^l]|while let Some|loop )|\.enumerate\(\)'
places "conversion, comparison and printing by hand" 'impl.* (PartialEq|PartialOrd|Ord|Clone|Copy|From<.*>|TryFrom<.*>|(fmt::)?Display) for|fn (whole|reason|cmp|copy_[a-z]+|value|of_error|of_block|skew_list|rows_of|tables_of|checks_of)\b'
places "facts asked of a parameter" 'requires \{'
places "arrays with a length beside them, and positions in a text" '\[[a-z0-9]+; [A-Z_]+\]|^ *(count|at): usize'
places "switches on a step, and functions as values" 'match (self\.side|change|frame)|: fn\(|dyn |Fn(Once|Mut)?\('

echo "signatures that stand more than once (number, signature)"
grep -rhE '^ *(pub(\(crate\))? )?fn ' crates/*/src \
    | sed -E 's/^ *//; s/pub(\(crate\))? //; s/fn [a-z_]+/fn/; s/ \{$//' \
    | grep -v 'HostRuntime' | sort | uniq -c | sort -rn | awk '$1 > 1 { $1 = $1; print }'

printf 'files of proofs: %s, of them answers and invariants: %s; lines: %s\n' \
    "$(find crates/*/proofs -name '*.antt' | wc -l)" \
    "$(find crates/*/proofs -name Answers.antt -o -name Invariants.antt | grep -c proofs)" \
    "$(find crates/*/proofs -name '*.antt' -exec cat {} + | wc -l)"
