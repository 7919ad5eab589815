#!/bin/sh
# Counts in the sources of a commit the places that a pass over the design looks at: tools/places.sh COMMIT [-v]; -v prints them too.
cd "$(dirname "$0")/.." || exit 2
at=${1:?a commit} more=$2
S=':(glob)crates/*/src/**/*.rt'
show() {
    echo "$1: $(echo "$2" | grep -c .)"
    [ -z "$more" ] || echo "$2" | sed "s/^$at:/    /"
}
show '1 own enums' "$(git grep -nE '^\s*(pub )?enum ' "$at" -- "$S")"
show '1 functions that answer a number' "$(git grep -nE -- '-> *\(?(u8|u16|u32|u64|usize)\b' "$at" -- "$S")"
show '1 fields that are numbers' "$(git grep -nE '^\s+(pub(\(crate\))? )?[a-z_]+: (u8|u16|u32|usize),' "$at" -- "$S")"
show '2 names of functions that stand in two places or more' "$(git grep -hoE '^\s*(pub(\(crate\))? )?fn [a-z_0-9]+' "$at" -- "$S" | sed -E 's/.*fn //' | sort | uniq -d)"
show '3 while, and for over numbers' "$(git grep -nE '\bwhile\b|for [a-z_]+ in \(?[0-9a-z_]+\.\.' "$at" -- "$S" | grep -vE ':\s*//')"
show '4 conversions by as' "$(git grep -nE '\bas (u8|u16|u32|u64|usize)\b' "$at" -- "$S")"
show '4 derives without equality' "$(git grep -nE 'derive\(' "$at" -- "$S" | grep -v PartialEq)"
show '5 clauses that stand in three contracts or more' "$(git grep -hE '^\s+(requires|ensures)' "$at" -- "$S" | sed -E 's/^ +//' | sort | uniq -c | awk '$1>=3')"
show '6 arrays in fields' "$(git grep -nE '^\s+(pub(\(crate\))? )?[a-z_]+: \[' "$at" -- "$S")"
show '6 lengths and places in fields' "$(git grep -nE '^\s+(pub(\(crate\))? )?(count|len|nodes|hint|last): ' "$at" -- "$S")"
show '7 choices by match' "$(git grep -nE '\bmatch ' "$at" -- "$S" | grep -vE ':\s*//')"
show '8 files of answers' "$(git ls-tree -r --name-only "$at" | grep -E 'crates/.*proofs/.*Answers.antt$')"
show '8 files of proofs' "$(git ls-tree -r --name-only "$at" | grep -E 'crates/.*proofs/.*antt$')"
echo "8 lines of proofs: $(git ls-tree -r --name-only "$at" | grep -E 'crates/.*proofs/.*antt$' | while read -r f; do git show "$at:$f"; done | wc -l)"
