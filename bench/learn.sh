#!/usr/bin/env bash
# learn.sh LEARN: compares the learner program LEARN with learn.c, answers and
# run times. Exit status 1 if an output differs.
set -eu

if [ $# -ne 1 ] || [ ! -x "$1" ]; then
    echo "usage: $0 LEARN (an executable file)" >&2
    exit 2
fi
learn=$(realpath "$1")
cd "$(dirname "$0")/.."
out=target/bench
mkdir -p "$out"
gcc -O3 -Wall -Wextra -Iinclude -o "$out/learn-c" bench/learn.c bench/plain_*.c

# best PROGRAM INPUT OUTPUT: sets `us` to the best of three wall times, in
# microseconds.
best() {
    local begin end took
    us=
    for _ in 1 2 3; do
        begin=${EPOCHREALTIME/[.,]/}
        "$1" <"$2" >"$3"
        end=${EPOCHREALTIME/[.,]/}
        took=$((end - begin))
        if [ -z "$us" ] || [ "$took" -lt "$us" ]; then us=$took; fi
    done
}

ratio() { awk -v a="$1" -v b="$2" 'BEGIN { printf "%.2f", a / (b > 0 ? b : 1) }'; }
ms() { awk -v a="$1" 'BEGIN { printf "%.1f", a / 1000 }'; }

status=0
given=()
plain=()
while read -r n f count length; do
    name=$n-$f-$count-$length
    python3 bench/lines.py "$n" "$f" "$count" "$length" >"$out/$name.in"
    best "$learn" "$out/$name.in" "$out/$name.learn"
    given+=("$us")
    best "$out/learn-c" "$out/$name.in" "$out/$name.c"
    plain+=("$us")
    same=equal
    if ! cmp "$out/$name.learn" "$out/$name.c"; then
        same=DIFFERENT
        status=1
    fi
    echo "N=$n f=$f, $count lines, $length commands: learn $(ms "${given[-1]}") ms," \
        "C $(ms "${plain[-1]}") ms, ratio $(ratio "${given[-1]}" "${plain[-1]}"), outputs $same"
done <<'CASES'
4 1 20000 8
16 5 20000 32
16 5 40000 32
CASES

echo "growth from 20000 to 40000 lines: learn $(ratio "${given[2]}" "${given[1]}")," \
    "C $(ratio "${plain[2]}" "${plain[1]}")"
exit $status
