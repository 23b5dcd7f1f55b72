//! The cases of refused calls.

use crate::frames::{Fields, Frame, LEADER, P1B, PROPOSE};
use crate::generate::leader::{Call, Input};
use crate::layout::{Leader, Table};
use crate::leader::complete;
use crate::rules::*;
use crate::tally::{fault_label, first_fault, list_labels, owned, Tally};

/// CONFIG, of a frame and of an opening.
const CONFIGS: [&str; 6] = [
    "CONFIG by the roster alone",
    "CONFIG by the own number alone",
    "CONFIG by the buffer alone",
    "CONFIG by the reported mask alone",
    "CONFIG by a proven entry at N or above alone",
    "CONFIG by a held entry at N or above alone",
];
const UNMARKED: [&str; 2] = [
    "CONFIG by the proven entry of an unmarked site",
    "CONFIG by the held entry of an unmarked site",
];
const SENDERS: [&str; 3] = [
    "SENDER: P1B of a site at N or above",
    "SENDER: LEADER of a site at N or above",
    "SENDER: PROPOSE from 0",
];
const STALES: [&str; 12] = [
    "STALE: LEADER of a view that another leads",
    "STALE: LEADER of its own view",
    "STALE: LEADER of an earlier view",
    "STALE: P1B in a fast ballot or none",
    "STALE: P1B of an earlier ballot",
    "STALE: P1B of a later ballot",
    "STALE: P1B, the site's second",
    "STALE: P1B after N-f came",
    "STALE: opening of an equal ballot",
    "STALE: opening of a lower ballot",
    "STALE: opening of the last ballot again",
    "STALE: opening in a view that another leads",
];
const PROOFS: [&str; 9] = [
    "PROOF: LEADER, fewer than N-f ones",
    "PROOF: LEADER, N-f ones and one at N or above",
    "PROOF: LEADER, N-f ones only with those at N or above",
    "PROOF: P1B, fewer than N-f ones",
    "PROOF: P1B, N-f ones and one at N or above",
    "PROOF: P1B, N-f ones only with those at N or above",
    "PROOF: P1B, nothing proven, yet a proven ballot",
    "PROOF: P1B, nothing proven, yet a mask",
    "PROOF: P1B, nothing proven, yet a ballot and N-f ones",
];
const LISTS: [&str; 16] = [
    "COMMAND: the proven history of P1B",
    "COMMAND: the held history of P1B",
    "COMMAND: held, though the proven history repeats or isn't canonical",
    "COMMAND: wrong fields in PROPOSE",
    "COMMAND: PROPOSE of another's command",
    "HISTORY: request repeated in proven",
    "HISTORY: proven not canonical",
    "HISTORY: request repeated in held",
    "HISTORY: held not canonical",
    "HISTORY: PROPOSE, n = 0",
    "HISTORY: request repeated in PROPOSE",
    "REUSED beside new commands",
    "REUSED, though the result would be too long",
    "REUSED, though nothing is new",
    "NOTHING",
    "FULL by one command",
];

/// The lists that a state has, by name.
const NAMES: [&str; 3] = ["pending", "a proven entry", "a held entry"];

/// A label of CONFIG in an opening.
fn in_opening(label: &str) -> String {
    format!("opening, {label}")
}

/// All labels.
pub fn labels() -> Vec<String> {
    let mut configs = owned(&CONFIGS);
    // Pending may be in any order.
    configs.extend_from_slice(&list_labels(NAMES[0])[..3]);
    configs.extend(list_labels(NAMES[1]));
    configs.extend(list_labels(NAMES[2]));
    let opening: Vec<String> = configs.iter().map(|l| in_opening(l)).collect();
    let others = [&UNMARKED[..], &SENDERS, &STALES, &PROOFS, &LISTS].concat();
    [configs, opening, owned(&others)].concat()
}

/// All labels of wrong lists in the lent state.
fn list_faults(s: &Leader) -> Vec<String> {
    let pending = first_fault(s.pending.count, &s.pending.words).filter(|&fault| fault < 3);
    let of = |name: &str, t: &Table| -> Vec<String> {
        let faults = (0..SITES).filter_map(|i| first_fault(t.counts[i], row(t, i)));
        faults.map(|fault| fault_label(name, fault)).collect()
    };
    let mut all: Vec<String> = pending.iter().map(|&fault| fault_label(NAMES[0], fault)).collect();
    all.extend(of(NAMES[1], &s.proven));
    all.extend(of(NAMES[2], &s.held));
    all
}

/// Counts the case of CONFIG, if there is but one reason for it.
pub fn tally_config(tally: &mut Tally, call: &Call) {
    let (r, s) = (&call.given.roster, &call.state);
    let opening = matches!(call.input, Input::Opening(..));
    let named = |label: &str| if opening { in_opening(label) } else { label.to_string() };
    let mut reasons = list_faults(s);
    if call.given.out.len() < ROOM {
        reasons.push(CONFIGS[2].to_string());
    }
    if !roster_valid(r) {
        // The rest is read by N, so only figures without a reading count.
        return tally.count_if(reasons.is_empty(), &named(CONFIGS[0]));
    }
    let outside = |t: &Table| (usize::from(r.n)..SITES).any(|i| t.counts[i] != 0);
    let more = [
        (call.given.own >= r.n, CONFIGS[1]),
        (bit_outside(r, s.reported), CONFIGS[3]),
        (outside(&s.proven), CONFIGS[4]),
        (outside(&s.held), CONFIGS[5]),
    ];
    reasons.extend(more.iter().filter(|(holds, _)| *holds).map(|(_, label)| label.to_string()));
    if let [only] = &reasons[..] {
        tally.count(&named(only));
        tally_unmarked(tally, call);
    }
}

/// Counts the cases of a wrong entry of a site that isn't marked.
fn tally_unmarked(tally: &mut Tally, call: &Call) {
    let s = &call.state;
    let wrong = |t: &Table| {
        let all = (0..call.given.roster.n).filter(|&i| s.reported & bit(i) == 0).map(usize::from);
        all.into_iter().any(|i| first_fault(t.counts[i], row(t, i)).is_some())
    };
    tally.count_if(wrong(&s.proven), UNMARKED[0]);
    tally.count_if(wrong(&s.held), UNMARKED[1]);
}

/// Counts the cases of SENDER.
pub fn tally_sender(tally: &mut Tally, frame: &Frame) {
    tally.count(match frame.fields.kind {
        P1B => SENDERS[0],
        LEADER => SENDERS[1],
        _ => SENDERS[2],
    });
}

/// Counts the cases of a frame's STALE, if there is but one reason for it.
pub fn tally_stale(tally: &mut Tally, call: &Call, f: &Fields) {
    let (r, s) = (&call.given.roster, &call.state);
    if f.kind == LEADER {
        let led = leads(r, call.given.own, f.view);
        tally.count_if(!led && f.view > s.view, STALES[0]);
        tally.count_if(led && f.view == s.view, STALES[1]);
        return tally.count_if(led && f.view < s.view, STALES[2]);
    }
    let reasons = [
        (s.classic == 0, STALES[3]),
        (f.ballot < s.ballot, STALES[4]),
        (f.ballot > s.ballot, STALES[5]),
        (s.reported & bit(f.sender) != 0, STALES[6]),
        (complete(r, s), STALES[7]),
    ];
    let held: Vec<&str> = reasons.iter().filter(|(holds, _)| *holds).map(|(_, l)| *l).collect();
    if let [only] = held[..] {
        tally.count(only);
    }
}

/// Counts the cases of an opening's STALE, if there is but one reason for it.
pub fn tally_stale_opening(tally: &mut Tally, call: &Call, ballot: u32) {
    let s = &call.state;
    let led = leads(&call.given.roster, call.given.own, s.view);
    tally.count_if(led && ballot == s.ballot, STALES[8]);
    tally.count_if(led && ballot < s.ballot, STALES[9]);
    tally.count_if(led && ballot == u32::MAX, STALES[10]);
    tally.count_if(!led && ballot > s.ballot, STALES[11]);
}

/// Counts the cases of PROOF.
pub fn tally_proof(tally: &mut Tally, call: &Call, f: &Fields) {
    let r = &call.given.roster;
    if f.kind == P1B && f.n == 0 {
        tally.count_if(f.mask == 0, PROOFS[6]);
        tally.count_if(f.proven_ballot == 0, PROOFS[7]);
        let enough = f.mask.count_ones() >= quorum(r) && !bit_outside(r, f.mask);
        return tally.count_if(f.proven_ballot != 0 && enough, PROOFS[8]);
    }
    let first = if f.kind == LEADER { 0 } else { 3 };
    let below = (0..r.n).filter(|&i| f.mask & bit(i) != 0).count() as u32;
    tally.count(if f.mask.count_ones() < quorum(r) {
        PROOFS[first]
    } else if below >= quorum(r) {
        PROOFS[first + 1]
    } else {
        PROOFS[first + 2]
    });
}

/// Counts the cases of COMMAND to FULL.
pub fn tally_lists(tally: &mut Tally, call: &Call, frame: &Frame, answer: u8) {
    if frame.fields.kind == PROPOSE {
        return tally_proposal(tally, call, &frame.first, answer);
    }
    let wrong = |h: &[Command]| h.iter().any(|&c| !command_valid(c));
    let (first, second) = (&frame.first[..], &frame.second[..]);
    if answer == COMMAND {
        tally.count_if(wrong(first) && !wrong(second), LISTS[0]);
        tally.count_if(!wrong(first) && wrong(second), LISTS[1]);
        let unfit = repeats(first) || !is_canonical(first);
        return tally.count_if(!wrong(first) && unfit, LISTS[2]);
    }
    for (h, at) in [(first, 5), (second, 7)] {
        tally.count_if(repeats(h) && is_canonical(h), LISTS[at]);
        tally.count_if(!repeats(h) && !is_canonical(h), LISTS[at + 1]);
    }
}

/// Counts the cases of a proposal.
fn tally_proposal(tally: &mut Tally, call: &Call, h: &[Command], answer: u8) {
    let pending = commands(&call.state.pending);
    let fresh = h.iter().filter(|&&c| !pending.iter().any(|&b| same_request(b, c))).count();
    match answer {
        COMMAND if h.iter().all(|&c| command_valid(c)) => tally.count(LISTS[4]),
        COMMAND => tally.count(LISTS[3]),
        HISTORY if h.is_empty() => tally.count(LISTS[9]),
        HISTORY => tally.count(LISTS[10]),
        REUSED => {
            tally.count_if(fresh > 0, LISTS[11]);
            tally.count_if(pending.len() + fresh > LIMIT, LISTS[12]);
            tally.count_if(fresh == 0, LISTS[13]);
        }
        NOTHING => tally.count(LISTS[14]),
        _ => tally.count_if(pending.len() + fresh == LIMIT + 1, LISTS[15]),
    }
}
