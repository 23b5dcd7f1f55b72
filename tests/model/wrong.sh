#!/usr/bin/env bash
# Tries the comparison on wrong libraries: each is the models with one place
# changed, behind the library's names. Every one of them must be found.
#   wrong.sh [ROLE [NAME]]
set -eu
here=$(cd -- "$(dirname -- "$0")" && pwd)
. "$here/trials.sh"
role=${1-}
name=${2-}
out=$here/../../target/model

# try ROLE NAME FILE OLD NEW: the wrong library must differ from the model.
try() {
    if [ "${role:-$1}" = "$1" ] && [ "${name:-$2}" = "$2" ]; then
        trial "$out" "$here/src/bin/$1.rs" "$1: $2" "$3" "$4" "$5" -e difference -e panicked
    fi
}

build_models "$out"

# The view change.
v=viewchange
try $v 'f+2 suspicions needed' viewchange.rs \
    'after.suspicions.count_ones() < enough_to_suspect(r) ||' \
    'after.suspicions.count_ones() <= enough_to_suspect(r) ||'
try $v 'suspicions change a target that is set' viewchange.rs ' || views.target != 0 {' ' {'
try $v 'suspicions add to the target mask' viewchange.rs \
    'after.changes = bit(own);' 'after.changes |= bit(own);'
try $v 'the last view wraps' viewchange.rs 'views.view.checked_add(1)' 'Some(views.view.wrapping_add(1))'
try $v 'below the target is taken' viewchange.rs ' || f.view < views.target {' ' {'
try $v 'the own view is taken' viewchange.rs 'f.view <= views.view ||' 'f.view < views.view ||'
try $v 'a new target keeps the mask' viewchange.rs \
    'after.changes = bit(f.sender) | bit(own);' 'after.changes |= bit(f.sender) | bit(own);'
try $v 'a new target without its own bit' viewchange.rs \
    'after.changes = bit(f.sender) | bit(own);' 'after.changes = bit(f.sender);'
try $v 'its VIEWCHANGE has its own suspicions' viewchange.rs 'f.view, f.mask)' 'f.view, after.suspicions)'
try $v 'N-f+1 changes needed' viewchange.rs \
    'after.changes.count_ones() < quorum(r)' 'after.changes.count_ones() <= quorum(r)'
try $v 'suspicions stay after the change' viewchange.rs \
    'ViewRecord { view: f.view, ..ViewRecord::fresh() }' \
    'ViewRecord { view: f.view, target: 0, changes: 0, ..after }'
try $v 'target mask stays after the change' viewchange.rs \
    'ViewRecord { view: f.view, ..ViewRecord::fresh() }' \
    'ViewRecord { view: f.view, target: 0, suspicions: 0, ..after }'
try $v 'LEADER without the last sender' viewchange.rs 'f.view, after.changes)' 'f.view, views.changes)'
try $v 'mask bits at N or above pass' viewchange.rs 'bit_outside(r, f.mask) || f.mask' 'f.mask'
try $v 'only the suspicion mask is looked at' viewchange.rs \
    ' && !bit_outside(r, views.changes)' ''
try $v 'a byte less room will do' viewchange.rs 'room >= ROOM &&' 'room + 1 >= ROOM &&'
try $v 'own number up to N' viewchange.rs 'own < r.n &&' 'own <= r.n &&'
try $v 'LEADER is taken as well' viewchange.rs '[u8; 2] = [SUSPICION, VIEWCHANGE]' \
    '[u8; 3] = [SUSPICION, VIEWCHANGE, LEADER]'

# The acceptor.
a=acceptor
try $a 'an equal ballot is taken' acceptor.rs 'f.ballot > s.ballot' 'f.ballot >= s.ballot'
try $a 'a new ballot remembers signing' acceptor.rs '    after.signed = 0;' ''
try $a 'a new ballot leaves old words' acceptor.rs \
    'after.verified = Table::empty();' 'after.verified.counts = [0; 16];'
try $a 'P1B has the histories swapped' acceptor.rs \
    'commands(&s.proven), commands(&s.held))' 'commands(&s.held), commands(&s.proven))'
try $a 'P1B has the old ballot' acceptor.rs 'ballot: f.ballot,' 'ballot: s.ballot,'
try $a 'FAST answers too' acceptor.rs 'if f.kind == FAST {
        return' 'if false {
        return'
try $a 'held counts though not signed' acceptor.rs 's.signed != 0 && !extends' '!extends'
try $a 'signed only if the flag is 1' acceptor.rs 's.signed != 0 &&' 's.signed == 1 &&'
try $a 'the proven history is not looked at' acceptor.rs \
    'if !extends(h, commands(&s.proven)) {' 'if false {'
try $a 'no signing mark' acceptor.rs '    after.signed = 1;' ''
try $a 'no own entry' acceptor.rs '    store(&mut after.verified, usize::from(site.own), h);' ''
try $a 'VERIFY in view 0' acceptor.rs 'view: site.view, ballot' 'view: 0, ballot'
try $a 'held need not extend proven' acceptor.rs 'if !extends(held, commands(&s.proven)) {' 'if false {'
try $a 'reuse is not seen' rules.rs 'same_request(h, c) && h != c' 'false && same_request(h, c)'
try $a 'NOTHING if one is held' rules.rs 'proposed.iter().all(|c| list' 'proposed.iter().any(|c| list'
try $a 'FULL counts those held' rules.rs 'longer.len() > LIMIT' 'list.len() + proposed.len() > LIMIT'
try $a 'FULL at 32' rules.rs 'longer.len() > LIMIT' 'longer.len() >= LIMIT'
try $a 'the result is not ordered' acceptor.rs '&canonical(&longer))' '&longer)'
try $a 'an equal VERIFY is not stored' acceptor.rs \
    'if !extends(h, before) {' 'if h == before || !extends(h, before) {'
try $a 'a shorter VERIFY contradicts' acceptor.rs 'if extends(before, h) { Ok' 'if false { Ok'
try $a 'a shorter VERIFY is stored' acceptor.rs \
    'if !extends(h, before) {' 'if !extends(h, before) && !extends(before, h) {'
try $a 'longer entries count too' acceptor.rs \
    'entry(t, usize::from(i)) == h)' 'extends(entry(t, usize::from(i)), h))'
try $a 'N-f+1 equal entries needed' acceptor.rs \
    'mask.count_ones() < quorum(site.roster)' 'mask.count_ones() <= quorum(site.roster)'
try $a 'proven without extending the proven' acceptor.rs \
    '|| !extends(h, commands(&s.proven)) || already' '|| already'
try $a 'proven twice in a ballot' acceptor.rs ' || already {' ' {'
try $a 'proven once in all ballots' acceptor.rs ' && s.proven_ballot == s.ballot;' ';'
try $a 'the proven ballot stays' acceptor.rs '    after.proven_ballot = s.ballot;' ''
try $a 'the mask before storing' acceptor.rs \
    'equal_entries(site.roster, &after.verified, h)' 'equal_entries(site.roster, &s.verified, h)'
try $a 'PROPOSE needs a site number' acceptor.rs 'PROPOSE => f.sender != 0' \
    'PROPOSE => f.sender != 0 && f.sender < r.n'
try $a 'P2A from anyone' acceptor.rs 'P1A | FAST | P2A => f.sender < r.n &&' 'P1A | FAST => f.sender < r.n &&'
try $a 'P2A in a fast ballot' acceptor.rs 'f.ballot == s.ballot && !fast' 'f.ballot == s.ballot'
try $a 'PROPOSE in a classic ballot' acceptor.rs 'f.ballot == s.ballot && fast' 'f.ballot == s.ballot'
try $a 'VERIFY of any view' acceptor.rs '_ => f.view == view && f.ballot == s.ballot' \
    '_ => f.ballot == s.ballot'
try $a 'proposers are not looked at' acceptor.rs 'command_valid(c) && own_ones(c)' \
    'command_valid(c) && (own_ones(c) || true)'
try $a 'PROPOSE must be canonical' acceptor.rs 'PROPOSE => !h.is_empty() && !repeats(h)' \
    'PROPOSE => !h.is_empty() && !repeats(h) && is_canonical(h)'
try $a 'the certificate is not looked at' acceptor.rs \
    '        && !bit_outside(r, s.certificate)' ''
try $a 'the record is not looked at' acceptor.rs '!record_valid(r, views) ||' \
    'false && !record_valid(r, views) ||'
try $a 'rows at N or above pass' rules.rs \
    '        && (usize::from(r.n)..SITES).all(|site| t.counts[site] == 0)' ''
try $a 'COMMAND before STALE' acceptor.rs 'if !timely(views.view, s, f) {
        return Err(STALE);' 'if !commands_good(&frame) {
        return Err(COMMAND);
    }
    if !timely(views.view, s, f) {
        return Err(STALE);'
try $a 'the line ends with another byte' frames.rs \
    $'    line.push(b\'\\n\');\n    line\n}' $'    line.push(b\' \');\n    line\n}'
try $a 'one byte more is written' frames.rs '    line.len()
}' '    if out.len() > line.len() { out[line.len()] = 0; }
    line.len()
}'

# The learner.
l=learner
try $l 'N-f+1 supporters needed' learner.rs 'supporters as u32 >= quorum(r)' 'supporters as u32 > quorum(r)'
try $l 'ballot 0 passes' learner.rs 'v.fields.ballot == 0' 'false'
try $l 'a shorter vote is stored' learner.rs \
    'if extends(arrived, entry(&state.entries, sender)) {' \
    'if extends(arrived, entry(&state.entries, sender)) || extends(entry(&state.entries, sender), arrived) {'
try $l 'equal entries only' learner.rs \
    'extends(entry(&after.entries, site), arrived))' 'entry(&after.entries, site) == arrived)'
try $l 'extension is a byte prefix' rules.rs \
    'g.iter().all(|c| h.contains(c)) && equivalent(&followed_by_rest(g, h), h)' 'h.starts_with(g)'
try $l 'split if neither extends the other' rules.rs \
    '!repeats(&k) && extends(&k, g)' '(extends(g, h) || extends(h, g)) && extends(&k, g)'

# The leader.
d=leader
try $d 'the lowest report is chosen' leader.rs 'max_by_key(|&i| (proven(i).len(), Reverse(i)))' \
    'min_by_key(|&i| Reverse(Reverse(i)))'
try $d 'of equals the highest site' leader.rs 'proven(i).len(), Reverse(i)' 'proven(i).len(), i'
try $d 'the shortest is chosen' leader.rs '(proven(i).len(), Reverse(i))' \
    '(Reverse(proven(i).len()), Reverse(i))'
try $d 'unmarked rows count' leader.rs 's.reported & bit(i) != 0).collect' \
    's.reported & bit(i) != 0 || true).collect'
try $d 'only equal commands are skipped' leader.rs '!h.iter().any(|&b| same_request(b, c))' \
    '!h.contains(&c)'
try $d 'stops at 31' leader.rs 'h.len() < LIMIT &&' 'h.len() + 1 < LIMIT &&'
try $d 'held by falling site' leader.rs 'for i in reporting(r, s) {' \
    'for i in reporting(r, s).into_iter().rev() {'
try $d 'pending before held' leader.rs 'let mut h = chosen(r, s);' \
    'let mut h = chosen(r, s); append(&mut h, commands(&s.pending));'
try $d 'held histories are left out' leader.rs \
    '        append(&mut h, entry(&s.held, usize::from(i)));' '        let _ = i;'
try $d 'the result is not ordered' leader.rs 'canonical(&collected(r, &after))' 'collected(r, &after)'
try $d 'an empty P2A goes out' leader.rs 'if result.is_empty() {' 'if false {'
try $d 'pending keeps all' leader.rs 'filter(|c| !result.contains(c))' 'filter(|_| true)'
try $d 'pending is emptied' leader.rs 'filter(|c| !result.contains(c))' 'filter(|_| false)'
try $d 'pending loses reused requests' leader.rs 'filter(|c| !result.contains(c))' \
    'filter(|&c| !result.iter().any(|&b| same_request(b, c)))'
try $d 'pending is kept where nothing leaves' leader.rs \
    'after.pending = stored(&left.collect::<Vec<Command>>());' \
    'let left: Vec<Command> = left.collect();
    if left.len() < commands(&s.pending).len() { after.pending = stored(&left); }'
try $d 'report N-f closes the ballot' leader.rs 'let result = canonical' \
    'after.classic = 0; let result = canonical'
try $d 'N-f+1 reports needed' leader.rs 's.reported.count_ones() >= quorum(r)' \
    's.reported.count_ones() > quorum(r)'
try $d 'f+1 reports are enough' leader.rs 's.reported.count_ones() >= quorum(r)' \
    's.reported.count_ones() > u32::from(r.f)'
try $d 'reports after N-f are taken' leader.rs 'first && !complete(r, s)' 'first'
try $d 'a second report is taken' leader.rs 's.ballot && first &&' 's.ballot &&'
try $d 'reports in a fast ballot' leader.rs 's.classic != 0 && f.ballot' 'f.ballot'
try $d 'classic only if the flag is 1' leader.rs 's.classic != 0 &&' 's.classic == 1 &&'
try $d 'reports of any ballot' leader.rs 's.classic != 0 && f.ballot == s.ballot' 's.classic != 0'
try $d 'an equal view is taken' leader.rs 'f.view > s.view' 'f.view >= s.view'
try $d 'the view of another is taken' leader.rs 'leads(r, own, f.view) && f.view' 'f.view'
try $d 'a new view closes the ballot' leader.rs 'Leader { view: f.view, ..s.clone() }' \
    'Leader { view: f.view, classic: 0, ..s.clone() }'
try $d 'f+1 ones are enough' leader.rs 'f.mask.count_ones() >= quorum(r)' \
    'f.mask.count_ones() > u32::from(r.f)'
try $d 'mask bits at N or above pass' leader.rs '!bit_outside(r, f.mask) &&' ''
try $d 'nothing proven, with a mask' leader.rs 'f.proven_ballot == 0 && f.mask == 0' 'f.proven_ballot == 0'
try $d 'nothing proven, with a ballot' leader.rs 'f.proven_ballot == 0 && f.mask == 0' 'f.mask == 0'
try $d 'held commands may be wrong' leader.rs 'right(&frame.first) && right(&frame.second)' \
    'right(&frame.first)'
try $d 'held histories may be in any order' leader.rs '[&frame.first, &frame.second].iter()' \
    '[&frame.first].iter()'
try $d 'PROPOSE of one ballot only' leader.rs '_ => true,' '_ => f.ballot == s.ballot,'
try $d 'pending is ordered' leader.rs 'stored(&longer)' 'stored(&canonical(&longer))'
try $d 'pending must be canonical' leader.rs 'list_sound(s.pending' 'list_valid(s.pending'
try $d 'the reported mask is not looked at' leader.rs '        && !bit_outside(r, s.reported)' ''
try $d 'held rows are not looked at' leader.rs '        && table_valid(r, &s.held)' ''
try $d 'a report without its proven history' leader.rs \
    '    store(&mut after.proven, usize::from(sender), &frame.first);' ''
try $d 'P2A in view 0' leader.rs 'view: s.view, ballot: s.ballot' 'view: 0, ballot: s.ballot'
try $d 'an equal ballot is opened' leader.rs 'ballot <= s.ballot' 'ballot < s.ballot'
try $d 'a ballot is opened in the view of another' leader.rs ' || !leads(r, own, s.view) {' ' {'
try $d 'opening remembers reports' leader.rs '        reported: 0,' ''
try $d 'opening leaves old words' leader.rs 'proven: Table::empty(),' \
    'proven: Table { counts: [0; 16], ..s.proven.clone() },'
try $d 'opening leaves held rows' leader.rs '        held: Table::empty(),' ''
try $d 'opening forgets pending' leader.rs '        reported: 0,' \
    '        reported: 0, pending: stored(&[]),'
try $d 'opening fast leaves the classic ballot' leader.rs 'classic: u8::from(!fast),' 'classic: 1,'
try $d 'fast only if the flag is 1' leader.rs 'fast != 0, out' 'fast == 1, out'
try $d 'a byte less room will do' leader.rs 'room >= ROOM' 'room + 1 >= ROOM'

summary
