#!/usr/bin/env bash
# symbols.sh LIBRARY: what the archive needs, defines and keeps. Fails if it needs more than copying and comparing memory, if a function
# that the header declares is missing, or if it has writable data.
set -euo pipefail

if [ $# -ne 1 ] || [ ! -f "$1" ]; then
    echo "usage: $0 LIBRARY (a static library)" >&2
    exit 2
fi
library=$1
header=$(dirname "$0")/../include/speckleewe.h
allowed='memcpy|memmove|memset|memcmp|bcmp'
failed=0

# none TITLE FOUND: nothing was to be found
none() {
    if [ -n "$2" ]; then
        echo "symbols: $1: ${2//$'\n'/ }" >&2
        failed=1
    fi
}

needed=$(nm -u "$library" | awk '$1 == "U" || $1 == "w" || $1 == "v" { print $2 }' | sort -u)
offered=$(nm -g --defined-only "$library" | awk 'NF == 3 { print $3 }' | sort -u)
declared=$(grep -v '^static inline' "$header" | grep -oE '\bspeckleewe_[a-z_]+\(' | tr -d '(' | sort -u)
# what one object needs and another offers is no need of the archive
outside=$(comm -23 <(echo "$needed") <(echo "$offered"))

none "needed, beyond memory" "$(grep -vxE "$allowed" <<<"$outside" || true)"
none "declared in the header and missing" "$(comm -13 <(echo "$offered") <(echo "$declared"))"
none "writable data" "$(nm "$library" | awk 'NF >= 3 && $2 ~ /^[DdBbCcGgSsVvu]$/ { print $3 }' | sort -u)"
none "bytes in writable sections" "$(size -A "$library" | awk '$1 ~ /^\.(t?data|t?bss|init_array|fini_array|ctors|dtors)/ && $2 > 0 { print $1, $2 }')"

echo "symbols: undefined are ${outside//$'\n'/ }"
echo "symbols: defined are ${offered//$'\n'/ }"
size "$library" | awk 'NR > 1 { text += $1; data += $2 + $3 } END { print "symbols: code and constants " text " bytes, writable data " data }'
echo "symbols: the archive has $(stat -c %s "$library") bytes"
exit $failed
