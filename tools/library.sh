#!/usr/bin/env bash
# library.sh NAME: builds the static library crates/NAME/out/libNAME.a, for any x86-64 processor: rt's own choice needs one of x86-64-v2, and a library,
# other than a program, doesn't look which it runs on.
set -euo pipefail
cd "$(dirname "$0")/../crates/$1"
said=$(rt lib --cpu x86-64 2>&1) || {
    echo "$said" >&2
    exit 1
}
