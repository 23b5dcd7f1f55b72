#!/usr/bin/env bash
# run.sh LIBRARY: builds the example host against the static library and runs it.
set -euo pipefail

if [ $# -ne 1 ] || [ ! -f "$1" ]; then
    echo "usage: $0 LIBRARY (a static library)" >&2
    exit 2
fi
here=$(cd -- "$(dirname -- "$0")" && pwd)
out=$here/../target/example
mkdir -p "$out"
gcc -std=c99 -O2 -Wall -Wextra -Wpedantic -Werror -I"$here/../include" -o "$out/host" "$here/host.c" "$1"
exec "$out/host"
