#!/usr/bin/env bash
# run.sh LIBRARY: the static library answers the lines of the program `site_lines` as the table in tests/tables/site_lines.py says. The host's side is
# built with sanitizers.
set -euo pipefail

if [ $# -ne 1 ] || [ ! -f "$1" ]; then
    echo "usage: $0 LIBRARY (a static library)" >&2
    exit 2
fi
here=$(cd -- "$(dirname -- "$0")" && pwd)
root=$here/../..
lines=$root/crates/site_lines
out=$root/target/site_lines
mkdir -p "$out"
python3 -B "$root/tests/tables/site_lines.py" --check "$lines"
gcc -std=c99 -g -Wall -Wextra -Wpedantic -Werror -fsanitize=address,undefined -fno-sanitize-recover=all \
    -I"$root/include" -o "$out/site_lines" "$here/site_lines.c" "$1"
"$out/site_lines" <"$lines/stdin" >"$out/stdout"
diff "$lines/stdout" "$out/stdout"
echo "site_lines: all $(grep -vc '^#' "$out/stdout") answers of the library as expected"
