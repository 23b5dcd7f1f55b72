#!/usr/bin/env bash
# forms.sh [FOLDER]: counts in the sources of a checkout the places that still have an older form, by the points of docs/DESIGN-PASS.md. A count is a
# line that the pattern finds; the page says of each that stays why it does.
set -euo pipefail
cd "${1:-$(dirname "$0")/..}"

# count POINT WHAT PATTERN: how many lines of src/ have the pattern
count() { printf '%s\t%s\t%s\n' "$1" "$2" "$(grep -hE "$3" crates/*/src/*.rt | wc -l)"; }

count 1 "enums of the shape of Result" '^pub enum Answer'
count 1 "a flag among fields" '^    (pub )?[a-z_]+: bool,'
count 1 "numbers as constants" '^(pub )?const [A-Z0-9]+: u8 = [0-9]+;'
count 1 "sets of kinds as numbers" '^const (TAKEN|OPENING|ALL|VOTES): u16 = [0-9]+;'
count 1 "refusals as numbers" 'Refusal::[A-Z][a-z]+ => [0-9]+,'
count 1 "an answer asked, built or handed on by hand" '\.refuses\(\)|Answer::(Accepted|Refused)'
count 2 "twins" '^ *(pub |pub\(crate\) )?fn (equals|above|is_zero|smaller|silent|forget|flag|pick|replace|enter|split|full|[a-z_]*_in_parts|[a-z_]*_by_value|numbered|marks_in|marks_of|accepting|leading)\b|^pub fn first|^ *(pub )?struct (Outcome|Settled|Marks|[A-Za-z]+Outcome|Answered)\b'
count 3 "loops that are no for" '^ *(while|loop) '
count 4 "comparing, copying, converting by hand" '^ *(pub )?fn (equals|above|same|all_zero|holds|larger|smaller|copy|clear|number|numbered|flattened)\b'
count 5 "a list, words or counts as a parameter of its own" '\b(words|counts|proven|proven_counts|held|held_counts|pending|entries|learned)(_words)?: &.*\[u(8|64)(; [a-zA-Z:0-9]+)?\],?$'
count 6 "a length beside a buffer" '\b(count|held_count|proven_count|len|used): (&.*)?(u8|usize),?$'
count 7 "a switch on which step to run" 'opens: bool,'
printf '8\tlines of proofs\t%s\n' "$(git ls-files 'crates/*/proofs/*.antt' | sort -u | xargs cat | wc -l)"
printf '8\tanswers\t%s\n' "$(git ls-files 'crates/*/proofs/*Answers.antt' | sort -u | xargs grep -hE '^pub \S+ : goal\.' | wc -l)"
printf '%s\tlines of src/\t%s\n' - "$(cat crates/*/src/*.rt | wc -l)"
