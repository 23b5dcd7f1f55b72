#!/usr/bin/env bash
# learn.sh LEARN: runs the program on input that comes in pieces, is long, or has a bad first line. Expected answers are document 01's, or those of the
# model in pieces.py.
set -euo pipefail

if [ $# -ne 1 ] || [ ! -x "$1" ]; then
    echo "usage: $0 LEARN (an executable file)" >&2
    exit 2
fi
learn=$1
vote=0702000000000000000100000000000701000101000100070000
here=$(cd -- "$(dirname -- "$0")" && pwd)
scratch=$(mktemp -d)
trap 'rm -rf "$scratch"' EXIT
failed=0

# vote_of SITE COMMAND: a vote with the proofs of sites 0, 1, 2 for one command; A and B conflict
A=0101000100070000
B=0202000100070000
vote_of() { printf '070%d0000000000000001000000000007%s%s\n' "$1" 0100 "$2"; }

# expect NAME WANT GOT
expect() {
    if [ "$2" != "$3" ]; then
        echo "learn: $1: expected '${2:0:200}', found '${3:0:200}'" >&2
        failed=1
    fi
}

# many LINE COUNT: a line so many times
many() { yes "$1" | head -n "$2" || true; }

# answers as one line, and how many there are of each
flat() { tr '\n' ' '; }
counted() { sort | uniq -c | awk '{ print $1 ": " $2 " " $3 }' | flat; }

expect "document 01's example" "0 1 " "$(printf '0401\n%s\n' "$vote" | "$learn" | flat)"
expect "N=3" "1 0 " "$(printf '0301\n%s\n' "$vote" | "$learn" | flat)"
expect "N=6, f=2" "1 0 " "$(printf '0602\n%s\n' "$vote" | "$learn" | flat)"
expect "a bad first line" "1 0 1 0 " "$(printf '04 1\n%s\n\n' "$vote" | "$learn" | flat)"
expect "no line at all" "" "$(printf '' | "$learn" | flat)"
expect "a first line that never ends" "" "$(printf '0401' | "$learn" | flat)"
expect "an unfinished last line" "0 1 2 0 " "$(printf '0401\n%s\n%s' "$vote" "$vote" | "$learn" | flat)"
expect "an unfinished last line, bad roster" "1 0 " "$(printf '0301\n%s' "$vote" | "$learn" | flat)"
expect "upper-case digits" "2 0 " "$(printf '0401\n%s\n' "${vote%0}A" | "$learn" | flat)"
expect "any bytes" "2 0 2 0 " "$(printf '0401\n\000\377\n\r\n' | "$learn" | flat)"
expect "100,000 empty lines" "100000: 2 0 " "$( (echo 0401; yes '' | head -n 100000) | "$learn" | counted)"
expect "a line of 3,000,000 bytes, then a vote" "2 0 0 1 " "$( (echo 0401; head -c 3000000 /dev/zero | tr '\0' 0; echo; echo $vote) | "$learn" | flat)"
expect "100,000 equal votes" "100000: 0 1 " "$( (echo 0401; yes "$vote" | head -n 100000) | "$learn" | counted)"
expect "a vote in pieces" "0 1 " "$( (printf '04'; sleep 0.1; printf '01\n%s' "${vote:0:9}"; sleep 0.1; printf '%s\n' "${vote:9}") | "$learn" | flat)"

expect "votes of different sites across two reads" "0 1 0 2 0 3 " \
    "$( (printf '0401\n'; vote_of 0 $A; sleep 0.1; vote_of 1 $A; sleep 0.1; vote_of 3 $A) | "$learn" | flat)"
expect "a last line of one byte" "0 1 2 0 " "$( (printf '0401\n'; vote_of 0 $A; printf 0) | "$learn" | flat)"
expect "a last line of one byte after a pause" "0 1 2 0 " "$( (printf '0401\n'; vote_of 0 $A; sleep 0.1; printf 0) | "$learn" | flat)"

# answers of five bytes among many of four, so that those to one read differ in length
(printf '0401\n'; vote_of 0 $A; vote_of 0 $B; many '' 60000) >"$scratch/in"
(echo '0 1'; echo '10 0'; many '2 0' 60000) >"$scratch/want"
"$learn" <"$scratch/in" >"$scratch/got"
cmp "$scratch/want" "$scratch/got" || { echo "learn: answers of five bytes among many" >&2; failed=1; }
# votes of different sites so far apart in a file that they are in different reads
(printf '0401\n'; vote_of 0 $A; many '' 70000; vote_of 1 $A) >"$scratch/in"
(echo '0 1'; many '2 0' 70000; echo '0 2') >"$scratch/want"
"$learn" <"$scratch/in" >"$scratch/got"
cmp "$scratch/want" "$scratch/got" || { echo "learn: votes of different sites far apart" >&2; failed=1; }
for n in 1 2 3 4 5 6 7; do
    # as many contradictions first, whose answers are longer
    (printf '0401\n'; vote_of 0 $A; for _ in $(seq $n); do vote_of 0 $B; done; many '' 40000) >"$scratch/in"
    (echo '0 1'; for _ in $(seq $n); do echo '10 0'; done; many '2 0' 40000) >"$scratch/want"
    "$learn" <"$scratch/in" >"$scratch/got"
    cmp "$scratch/want" "$scratch/got" || { echo "learn: $n answers of five bytes among many" >&2; failed=1; }
done

# inputs cut into pieces of 1, 2, 3, 7, 61, 1,061 and 1,062 bytes, of random sizes, and whole, each piece one read
python3 -B "$here/pieces.py" "$learn" || failed=1

# when the input pauses, all answers so far are out
coproc LEARN { "$learn"; }
printf '0401\n%s\n' "$vote" >&"${LEARN[1]}"
got=
read -r -t 10 got <&"${LEARN[0]}" || true
expect "an answer while the input pauses" "0 1" "$got"
exec {LEARN[1]}>&-
wait "$LEARN_PID" || true

if [ $failed -ne 0 ]; then exit 1; fi
echo "learn: all inputs answered as expected"
