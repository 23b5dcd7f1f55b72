#!/usr/bin/env bash
# run.sh LIBRARY [COUNT [SEED]]: builds the fuzzing program against the static library and makes COUNT calls (50,000) with SEED (1; `new`: by
# the clock). The host's side is built with sanitizers; guard bytes and a guard page watch the library.
set -euo pipefail

if [ $# -lt 1 ] || [ $# -gt 3 ] || [ ! -f "$1" ]; then
    echo "usage: $0 LIBRARY [COUNT [SEED]]" >&2
    exit 2
fi
here=$(cd -- "$(dirname -- "$0")" && pwd)
root=$here/../..
out=$root/target/fuzz
seed=${3:-1}
if [ "$seed" = new ]; then
    seed=$(date +%s)
fi
mkdir -p "$out"
gcc -std=c99 -O1 -g -Wall -Wextra -Wpedantic -Werror -fsanitize=address,undefined -fno-sanitize-recover=all \
    -I"$root/include" -o "$out/fuzz" "$here"/*.c "$1"
echo "fuzz: seed $seed"
exec "$out/fuzz" "$seed" "${2:-50000}"
