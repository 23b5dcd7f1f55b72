#!/usr/bin/env bash
# program.sh NAME: builds the program crates/NAME/out/NAME, and runs it on no input.
set -euo pipefail
cd "$(dirname "$0")/../crates/$1"
said=$(rt run </dev/null 2>&1) || {
    echo "$said" >&2
    exit 1
}
