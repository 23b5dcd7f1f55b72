//! The learner.

use crate::frames::{self, P2B};
use crate::layout::{Learner, LearnerOutcome, Roster};
use crate::rules::*;

/// The kinds that a learner takes.
pub const KINDS: [u8; 1] = [P2B];

/// The history learned.
pub fn learned(state: &Learner) -> &[Command] {
    commands(&state.learned)
}

/// The CONFIG check: roster and lent state.
fn config_good(r: &Roster, state: &Learner) -> bool {
    roster_valid(r) && table_valid(r, &state.entries) && history_valid(&state.learned)
}

/// The checks and the work, in the document's order: the supporters and the
/// state after an accepted vote, or the number of the first refusal.
fn vote(r: &Roster, state: &Learner, line: &[u8]) -> Result<(u8, Learner), u8> {
    if !config_good(r, state) {
        return Err(CONFIG);
    }
    let Some(v) = frames::read(line, &KINDS) else {
        return Err(FORM);
    };
    if v.fields.sender >= r.n {
        return Err(SENDER);
    }
    if v.fields.ballot == 0 {
        return Err(STALE);
    }
    if bit_outside(r, v.fields.mask) || v.fields.mask.count_ones() < quorum(r) {
        return Err(PROOF);
    }
    let arrived = &v.first[..];
    if !arrived.iter().all(|&c| command_valid(c)) {
        return Err(COMMAND);
    }
    if arrived.is_empty() || repeats(arrived) || !is_canonical(arrived) {
        return Err(HISTORY);
    }

    let sender = usize::from(v.fields.sender);
    let mut after = state.clone();
    if extends(arrived, entry(&state.entries, sender)) {
        store(&mut after.entries, sender, arrived);
    } else if !extends(entry(&state.entries, sender), arrived) {
        return Err(CONTRADICTION);
    }

    let supporters =
        (0..usize::from(r.n)).filter(|&site| extends(entry(&after.entries, site), arrived)).count();
    if supporters as u32 >= quorum(r) {
        let Some(merged) = merge(learned(state), arrived) else {
            return Err(SPLIT);
        };
        if merged.len() > LIMIT {
            return Err(FULL);
        }
        after.learned = stored(&merged);
    }
    Ok((supporters as u8, after))
}

/// A learner's step. A refusal returns its number, supporters 0 and the state
/// as it was, byte for byte.
pub fn step(r: &Roster, state: &Learner, line: &[u8]) -> LearnerOutcome {
    match vote(r, state, line) {
        Ok((supporters, after)) => LearnerOutcome { answer: ACCEPTED, supporters, state: after },
        Err(answer) => LearnerOutcome { answer, supporters: 0, state: state.clone() },
    }
}
