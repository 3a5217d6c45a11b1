#!/bin/bash
# Lists the places in src/ where an older form of code may stand, point by point, with their counts. A listed place is a
# candidate: docs/DESIGN-PASS.md says which of them are of the older form. Run it at the top.
places() {
    local name=$1 pattern=$2
    local found
    found=$(grep -rnE "$pattern" crates/*/src --include=*.rt)
    printf '== %s: %s\n' "$name" "$(printf '%s' "$found" | grep -c .)"
    [ -n "$quiet" ] || printf '%s\n' "$found"
}
[ "$1" = -q ] && quiet=1
places '1 enums' '^ *(pub(\([a-z]+\))? )?enum '
places '1 flags' '^ +(pub(\([a-z]+\))? )?[a-z_]+: bool,'
places '1 codes' '^ +-?[0-9]+( \| -?[0-9]+)* =>|[!=]= [0-9]+ && |family: i32| as u8\b|draft, [0-9], place\)|^const (LIST|FAMILY|SEARCH|FILE|STOPPED|BEST|NOTHING): u8'
places '2 constants said again' '^(pub(\([a-z]+\))? )?const (ROWS|COLUMNS|QUANTITIES|LARGEST|RECORD|WORDS|BYTES|NUMBERS|CALLS): '
places '2 sums of products' '(sum|total) \+= '
places '3 loops' '^ *(for|while|loop)\b'
places '4 conversions by hand' 'fn (from_number|number|equal|opposite|told|of|all)\b|impl(<.*>)? From<|impl(<.*>)? fmt::Display'
places '4 matches that are a method' '=> (true|false),|Some\([a-z]+\) => (Some|Ok)\(|None => (None|Ok|Err|true|false|0)\b|Err\([a-z_]+\) => Err\(|Ok\([a-z()]+\) => Ok\('
places '6 arrays in structs' '^ +(pub(\([a-z]+\))? )?[a-z_]+: \[[^]]+; *[A-Z0-9_]+\],'
places '6 arrays filled at hand' 'let mut [a-z]+ = \[.*; [A-Z0-9_]+\]'
places '7 pointers and dyn' '\bfn\(|\bdyn '
echo '== 5 clauses that stand three times or more'
grep -rhE '^ *(requires|ensures|ghost [a-z_]+:) ' crates/*/src --include=*.rt | sed -E 's/^ *//; s/^(requires|ensures|ghost) ?[a-z_]*:? ?//' | sort | uniq -c | sort -rn | awk '$1>=3'
echo '== 8 answers, and lines of proofs'
find crates/*/proofs -name Answers.antt | xargs grep -hE '^pub ' | wc -l
find crates/*/proofs -name '*.antt' | xargs cat | wc -l
