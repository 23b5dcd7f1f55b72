#!/usr/bin/env bash
# example.sh LIBRARY: the example host, built with sanitizers, shows what the table in tests/tables/host.py says.
set -euo pipefail

if [ $# -ne 1 ] || [ ! -f "$1" ]; then
    echo "usage: $0 LIBRARY (a static library)" >&2
    exit 2
fi
root=$(cd -- "$(dirname -- "$0")/.." && pwd)
out=$root/target/example
mkdir -p "$out"
python3 -B "$root/tests/tables/host.py" --check "$root/examples/host.txt"
gcc -std=c99 -g -Wall -Wextra -Wpedantic -Werror -fsanitize=address,undefined -fno-sanitize-recover=all \
    -I"$root/include" -o "$out/host-checked" "$root/examples/host.c" "$1"
"$out/host-checked" >"$out/shown"
diff "$root/examples/host.txt" "$out/shown"
echo "example: all $(wc -l <"$out/shown") lines as expected"
