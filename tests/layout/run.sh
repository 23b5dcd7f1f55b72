#!/usr/bin/env bash
# run.sh: the header compiles alone as C and as C++ without a warning, and sizes and offsets of its types are those of the
# models' records, by which tests/model calls the library.
set -euo pipefail
here=$(cd -- "$(dirname -- "$0")" && pwd)
root=$here/../..
out=$root/target/layout
mkdir -p "$out"

strict=(-Wall -Wextra -Wpedantic -Werror)
for standard in c99 c17; do
    gcc -x c -std=$standard "${strict[@]}" -fsyntax-only "$root/include/speckleewe.h"
done
for standard in c++98 c++17; do
    g++ -x c++ -std=$standard "${strict[@]}" -fsyntax-only "$root/include/speckleewe.h"
done

gcc -std=c99 "${strict[@]}" -I"$root/include" -o "$out/layout-c" "$here/layout.c"
rustc --edition 2021 -o "$out/layout-rust" "$here/layout.rs"
# `signed` is a word of C, so the header's field has another name
"$out/layout-c" | sed 's/signed_/signed/' >"$out/c.txt"
"$out/layout-rust" >"$out/rust.txt"
diff "$out/c.txt" "$out/rust.txt"
echo "layout: $(wc -l <"$out/c.txt") sizes and offsets of the header are those of the models' records"
