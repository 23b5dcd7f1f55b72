#!/usr/bin/env bash
# Builds the program `learn` and runs it on the sample votes, showing beside each line its answer, the supporters, and what the answer means.
set -euo pipefail
cd "$(dirname "$0")/.."
sample=crates/learn/stdin
answers=$(mktemp)
log=$(mktemp)
trap 'rm -f "$answers" "$log"' EXIT
if ! (cd crates/learn && rt run <stdin) >"$answers" 2>"$log"; then
    cat "$log" >&2
    exit 1
fi
echo "roster line: $(head -n 1 "$sample")"
paste -d ' ' "$answers" <(tail -n +2 "$sample" | cut -c 1-64) | awk '
  BEGIN {
    means[1] = "CONFIG: no such roster, or a damaged state"
    means[2] = "FORM: not the line of a vote"
    means[3] = "SENDER: no such site"
    means[4] = "STALE: ballot 0"
    means[5] = "PROOF: too few proofs, or of no site"
    means[6] = "COMMAND: a command is wrong"
    means[7] = "HISTORY: repeated, unordered or empty"
    means[10] = "CONTRADICTION: against the earlier vote"
    means[11] = "SPLIT: no common extension"
    means[13] = "FULL: over 32 commands"
  }
  {
    answer = $1; supporters = $2; line = $3
    if (answer == 0) meaning = "accepted, " supporters (supporters == 1 ? " site stands" : " sites stand") " behind it"
    else meaning = means[answer]
    printf "%2d %2d  %-43s %s\n", answer, supporters, meaning, line
  }'
