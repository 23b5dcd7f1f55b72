#!/usr/bin/env bash
# library.sh LIBRARY: the library itself has each field of each record where the header has it, and writes records of the header's sizes.
set -euo pipefail

if [ $# -ne 1 ] || [ ! -f "$1" ]; then
    echo "usage: $0 LIBRARY (a static library)" >&2
    exit 2
fi
here=$(cd -- "$(dirname -- "$0")" && pwd)
root=$here/../..
header=$root/include/speckleewe.h
out=$root/target/layout
mkdir -p "$out"
strict=(-Wall -Wextra -Wpedantic -Werror)

# each field of a typedef of the header as TYPE.FIELD, but for the one field of a view and of a ballot
fields() {
    awk '/^typedef struct/ { n = 0; next }
        /^} speckleewe_/ { sub(/^} speckleewe_/, ""); sub(/;.*/, ""); for (i = 0; i < n; i++) print $0 "." names[i]; n = 0; next }
        /^    [a-z]/ { sub(/;.*/, ""); sub(/\[.*/, ""); names[n++] = $NF }' "$header" | grep -v '\.number$'
}
gcc -std=c99 "${strict[@]}" -I"$root/include" -o "$out/layout-library" "$here/library.c" "$1"
"$out/layout-library" >"$out/library.txt"
diff <(fields | sort) <(sort "$out/library.txt")
echo "layout: the library has all $(wc -l <"$out/library.txt") fields where the header has them"

gcc -std=c99 "${strict[@]}" -I"$root/include" -o "$out/layout-c" "$here/layout.c"
gcc -std=c11 "${strict[@]}" -o "$out/layout-extent" "$here/extent.c" "$1"
"$out/layout-extent" >"$out/extent.txt"
diff <("$out/layout-c" | cut -d' ' -f1,2 | grep -E '^(view_record|site|leader_state|learner_state) ') "$out/extent.txt"
echo "layout: the library writes $(wc -l <"$out/extent.txt") records of the header's sizes"
