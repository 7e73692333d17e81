#!/usr/bin/env bash
# Counts the places of older forms in src/, a line for each kind of place. Give `-v` to see the places. The other way to count is
# tools/forms.py; docs/DESIGN-PASS.md has what both said.
set -euo pipefail
cd "$(git rev-parse --show-toplevel)"
show=${1:-}
count() {
    local found
    found=$(grep -rnE "$2" crates/*/src --include=*.rt | grep -vE '^[^:]+:[0-9]+:\s*//' | grep -vE "${3:-^$}" || true)
    printf '%4s  %s\n' "$(grep -c . <<<"$found" || true)" "$1"
    if [ "$show" = -v ]; then sed 's/^/        /' <<<"$found"; fi
}
count '1 flags' '^ +(pub )?[a-z_]+: bool,$'
count '1 numbers for kinds: compared, matched, named' '\b(kind|light_type|stream_type|parent) (==|!=) [0-9A-Z_]+\b|^ +[0-9]+ => |^(pub(\(crate\))? )?const (VERTICES|FACES|TEXTURE_COORDINATES|NORMALS|NO_JOINT)|matches!\(light_type'
count '1 a refusal as a number or a pair of zeros' '\(0, 0\)|\(0, field\.place|fn of\(number'
count '2 a fault of a field built by hand' 'FieldFault \{$|FieldFault \{ (cause|field)|^fn (not_allowed|out_of_place|refusal)\b' '(struct|impl|for) |\) -> FieldFault|let \('
count '2 functions of the same text over another type, size or constant' 'fn (number|flags_of|body_length|in_header|of_call|properties_at|user_list_at|geometry_at|skeleton_at|place_or_fault)\b|let rest = '
count '3 loops' '^\s+(for|while|loop)\b'
count '3 of these, an index or a count kept by hand' 'for at in 0|for k in 0|for number in 0|\bcount \+= 1|\bindex \+= 1;|place = next_place'
count '4 equality, conversion, printing by hand' '^impl PartialEq|fn (of|beside|print_[a-z]+)\b|Ok\(([a-z]+)\) => Ok\(\2\)|None => (None|true|false),|as u(16|32|64)\b' 'len\(\) as u64|as usize'
count '5 source, at and end as parameters' 'at: u64, end: u64|^ +end: u64,$'
count '5 `limit B end`, `e ≤ length B` and the like in clauses' 'limit B end|≤ length B\)'
count '5 the same fact about a result spelt out' 'IfOk result \(λ e\.|IfSome result \(λ p\.'
count '6 buffers with a length beside, parallel tables, fillers' '\[[A-Za-z]+; MAX_|^ +taken: usize|_TEXTS: \[|const BLANK'
count '7 a switch on a number, tables of functions' 'match (kind|stream_type) \{|\bfn\(|\bdyn '
printf '%4s  8 files of proofs, of %s lines, with %s answers\n' "$(find crates/*/proofs -name '*.antt' | wc -l)" \
    "$(find crates/*/proofs -name '*.antt' -exec cat {} + | wc -l)" "$(find crates/*/proofs -name Answers.antt -exec cat {} + | grep -cE '^pub .* : goal\.')"
