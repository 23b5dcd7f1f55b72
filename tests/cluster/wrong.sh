#!/usr/bin/env bash
# Tries the cluster on wrong libraries: each is the models with one place
# changed, behind the library's names. In every one of them something must go
# wrong.
#   wrong.sh [NAME]
set -eu
here=$(cd -- "$(dirname -- "$0")" && pwd)
. "$here/../model/trials.sh"
name=${1-}
out=$here/../../target/cluster

# try NAME FILE OLD NEW: something must go wrong.
try() {
    if [ "${name:-$1}" = "$1" ]; then
        trial "$out" "$here/src/main.rs" "$1" "$2" "$3" "$4" \
            -o -e 'run of seed.\{0,150\}' -e 'panicked.*'
    fi
}

build_models "$out"
try 'f+1 supporters are enough' learner.rs \
    'supporters as u32 >= quorum(r)' 'supporters as u32 >= u32::from(r.f) + 1'
try 'f supporters are enough' learner.rs \
    'supporters as u32 >= quorum(r)' 'supporters as u32 >= u32::from(r.f)'
try 'N-f-1 supporters are enough' learner.rs \
    'supporters as u32 >= quorum(r)' 'supporters as u32 + 1 >= quorum(r)'
try 'N-f+1 supporters are needed' learner.rs \
    'supporters as u32 >= quorum(r)' 'supporters as u32 > quorum(r)'
try 'a late, shorter vote overwrites' learner.rs \
    'if extends(arrived, entry(&state.entries, sender)) {' \
    'if extends(arrived, entry(&state.entries, sender)) || extends(entry(&state.entries, sender), arrived) {'
try 'any vote overwrites' learner.rs \
    'if extends(arrived, entry(&state.entries, sender)) {' 'if true {'
try 'one vote counts for all sites' learner.rs \
    '        store(&mut after.entries, sender, arrived);' \
    '        (0..usize::from(r.n)).for_each(|i| store(&mut after.entries, i, arrived));'
try 'never learns' learner.rs '        after.learned = stored(&merged);' ''
try 'learns the vote alone' learner.rs 'stored(&merged)' 'stored(arrived)'
try 'split if neither extends the other' rules.rs \
    '!repeats(&k) && extends(&k, g)' '(extends(g, h) || extends(h, g)) && extends(&k, g)'
try 'slots never conflict' rules.rs \
    'same_request(a, b) || (slot(a) == slot(b) && kinds_conflict(kind(a), kind(b)))' \
    'same_request(a, b)'
try 'votes need not extend what is proven' acceptor.rs \
    '|| !extends(h, commands(&s.proven)) || already' '|| already'
try 'an own entry at another place' acceptor.rs \
    'store(&mut after.verified, usize::from(site.own), h);' \
    'store(&mut after.verified, usize::from(site.own) + 1, h);'
try 'only equal commands are skipped' leader.rs '!h.iter().any(|&b| same_request(b, c))' \
    '!h.contains(&c)'
try 'f+1 reports are enough' leader.rs \
    's.reported.count_ones() >= quorum(r)' 's.reported.count_ones() > u32::from(r.f)'
try 'reports after N-f are taken' leader.rs 'first && !complete(r, s)' 'first'
try 'a leader keeps silent' leader.rs 'if result.is_empty() {' 'if !result.is_empty() {'
try 'pending is emptied' leader.rs 'filter(|c| !result.contains(c))' 'filter(|_| false)'
try 'held histories are not ordered' acceptor.rs '&canonical(&longer))' '&longer)'
summary
