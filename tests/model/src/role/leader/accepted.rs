//! The cases of accepted calls, but for report N-f.

use crate::frames::{Fields, Frame};
use crate::generate::leader::Call;
use crate::layout::{Leader, Table};
use crate::leader::complete;
use crate::rules::*;
use crate::tally::{owned, Tally};

const OPENED: [&str; 13] = [
    "opening a classic ballot: P1A goes out",
    "opening a fast ballot: FAST goes out",
    "opening with a flag that isn't 0 or 1 is fast",
    "opening forgets reports",
    "opening forgets rows that aren't marked",
    "opening clears words past the counts",
    "opening fast closes a classic ballot",
    "opening classic after a fast one or none",
    "opening again before N-f reports came",
    "opening after N-f reports came",
    "opening keeps pending, litter too",
    "opening the last ballot",
    "opening in a view above 0",
];
const LED: [&str; 7] = [
    "LEADER with N-f ones: the view is taken",
    "LEADER with more than N-f ones",
    "LEADER from itself",
    "LEADER of a view more than N above",
    "LEADER of the last view that it can lead",
    "LEADER while reports of a ballot come in: they stay",
    "LEADER to one that didn't lead its view",
];
const PROPOSED: [&str; 11] = [
    "PROPOSE, all commands new",
    "PROPOSE, some commands pending already",
    "PROPOSE, nothing pending",
    "PROPOSE leaves pending in no canonical order",
    "PROPOSE to pending in no canonical order",
    "PROPOSE makes 32",
    "PROPOSE sent by a number at N or above",
    "PROPOSE with another ballot",
    "PROPOSE in a fast ballot or none",
    "PROPOSE after N-f reports came",
    "PROPOSE over words past the count",
];
const REPORTED: [&str; 11] = [
    "P1B before report N-f: kept, nothing goes out",
    "P1B, nothing proven",
    "P1B, neither proven nor held",
    "P1B, proven but nothing held",
    "P1B with more than N-f ones",
    "P1B with a proven ballot above the open one",
    "P1B is the longest line",
    "P1B from itself",
    "P1B over an unmarked row that is longer",
    "P1B with a flag that isn't 0 or 1",
    "P1B of a view that the site doesn't lead",
];

/// All labels.
pub fn labels() -> Vec<String> {
    owned(&[&OPENED[..], &LED, &PROPOSED, &REPORTED].concat())
}

/// Is there a row of a site that isn't marked?
fn unmarked(call: &Call, t: &Table) -> bool {
    let row = |i: u8| t.counts[usize::from(i)] != 0;
    (0..call.given.roster.n).any(|i| call.state.reported & bit(i) == 0 && row(i))
}

/// Do words stand past the counts?
fn littered(t: &Table) -> bool {
    (0..SITES).any(|i| row(t, i)[usize::from(t.counts[i])..].iter().any(|&w| w != 0))
}

/// Do words stand past pending?
fn pending_littered(s: &Leader) -> bool {
    s.pending.words[usize::from(s.pending.count)..].iter().any(|&w| w != 0)
}

/// Counts the cases of an opening.
pub fn tally_opening(tally: &mut Tally, call: &Call, ballot: u32, fast: u8) {
    let s = &call.state;
    tally.count(if fast == 0 { OPENED[0] } else { OPENED[1] });
    tally.count_if(fast > 1, OPENED[2]);
    tally.count_if(s.reported != 0, OPENED[3]);
    tally.count_if(unmarked(call, &s.proven) && unmarked(call, &s.held), OPENED[4]);
    tally.count_if(littered(&s.proven) && littered(&s.held), OPENED[5]);
    tally.count_if(fast != 0 && s.classic != 0, OPENED[6]);
    tally.count_if(fast == 0 && s.classic == 0, OPENED[7]);
    let complete = complete(&call.given.roster, s);
    tally.count_if(s.classic != 0 && !complete, OPENED[8]);
    tally.count_if(s.classic != 0 && complete, OPENED[9]);
    tally.count_if(s.pending.count != 0 && pending_littered(s), OPENED[10]);
    tally.count_if(ballot == u32::MAX, OPENED[11]);
    tally.count_if(s.view != 0, OPENED[12]);
}

/// Counts the cases of an accepted LEADER.
pub fn tally_leader(tally: &mut Tally, call: &Call, f: &Fields) {
    let (r, s) = (&call.given.roster, &call.state);
    let exact = f.mask.count_ones() == quorum(r);
    tally.count(if exact { LED[0] } else { LED[1] });
    tally.count_if(f.sender == call.given.own, LED[2]);
    tally.count_if(f.view - s.view > u32::from(r.n), LED[3]);
    tally.count_if(f.view.checked_add(u32::from(r.n)).is_none(), LED[4]);
    tally.count_if(s.classic != 0 && s.reported != 0, LED[5]);
    tally.count_if(!leads(r, call.given.own, s.view), LED[6]);
}

/// Counts the cases of an accepted PROPOSE.
pub fn tally_propose(tally: &mut Tally, call: &Call, frame: &Frame, after: &Leader) {
    let (r, s, f) = (&call.given.roster, &call.state, &frame.fields);
    let pending = commands(&s.pending);
    let some_known = frame.first.iter().any(|c| pending.contains(c));
    tally.count(if some_known { PROPOSED[1] } else { PROPOSED[0] });
    tally.count_if(pending.is_empty(), PROPOSED[2]);
    tally.count_if(!is_canonical(commands(&after.pending)), PROPOSED[3]);
    tally.count_if(!is_canonical(pending), PROPOSED[4]);
    tally.count_if(usize::from(after.pending.count) == LIMIT, PROPOSED[5]);
    tally.count_if(f.sender >= r.n, PROPOSED[6]);
    tally.count_if(f.ballot != s.ballot, PROPOSED[7]);
    tally.count_if(s.classic == 0, PROPOSED[8]);
    tally.count_if(complete(r, s), PROPOSED[9]);
    tally.count_if(pending_littered(s), PROPOSED[10]);
}

/// Counts the cases of an accepted P1B.
pub fn tally_report(tally: &mut Tally, call: &Call, frame: &Frame) {
    let (r, s, f) = (&call.given.roster, &call.state, &frame.fields);
    let nearly = s.reported.count_ones() + 1 == quorum(r);
    let nothing_held = frame.second.is_empty();
    let at = usize::from(f.sender);
    let shorter = |h: &[Command], t: &Table| h.len() < usize::from(t.counts[at]);
    tally.count_if(!nearly, REPORTED[0]);
    tally.count_if(f.n == 0, REPORTED[1]);
    tally.count_if(f.n == 0 && nothing_held, REPORTED[2]);
    tally.count_if(f.n != 0 && nothing_held, REPORTED[3]);
    tally.count_if(f.mask.count_ones() > quorum(r), REPORTED[4]);
    tally.count_if(f.proven_ballot > f.ballot, REPORTED[5]);
    tally.count_if(f.n == 32 && f.m == 32, REPORTED[6]);
    tally.count_if(f.sender == call.given.own, REPORTED[7]);
    let over = shorter(&frame.first, &s.proven) && shorter(&frame.second, &s.held);
    tally.count_if(over, REPORTED[8]);
    tally.count_if(s.classic > 1, REPORTED[9]);
    tally.count_if(!leads(r, call.given.own, s.view), REPORTED[10]);
}
