//! The view change.

use crate::frames::{self, Fields, LEADER, SUSPICION, VIEWCHANGE};
use crate::layout::{Roster, ViewChangeOutcome, ViewRecord};
use crate::rules::*;

/// The kinds that the view change takes.
pub const KINDS: [u8; 2] = [SUSPICION, VIEWCHANGE];

/// The record after an accepted frame and the line to send, or the number of
/// the refusal.
type Verdict = Result<(ViewRecord, Option<Vec<u8>>), u8>;

/// f+1, of a valid roster.
pub fn enough_to_suspect(r: &Roster) -> u32 {
    u32::from(r.f) + 1
}

/// Are the record's two masks free of bits at N or above?
pub fn record_valid(r: &Roster, views: &ViewRecord) -> bool {
    !bit_outside(r, views.suspicions) && !bit_outside(r, views.changes)
}

/// The CONFIG check: roster, own number, room for output and lent record.
fn config_good(r: &Roster, own: u8, views: &ViewRecord, room: usize) -> bool {
    roster_valid(r) && own < r.n && room >= ROOM && record_valid(r, views)
}

/// The line of a VIEWCHANGE or a LEADER.
fn line_of(kind: u8, own: u8, view: u32, mask: u16) -> Vec<u8> {
    frames::write(Fields { view, mask, ..Fields::of(kind, own) }, &[], &[])
}

/// SUSPICION needs the current view. At f+1 ones or more, if no target is
/// set, target is view+1 with its own bit, and VIEWCHANGE goes out with the
/// suspicion mask.
fn suspicion(r: &Roster, own: u8, views: &ViewRecord, f: &Fields) -> Verdict {
    if f.view != views.view {
        return Err(STALE);
    }
    let mut after = *views;
    after.suspicions |= bit(f.sender);
    if after.suspicions.count_ones() < enough_to_suspect(r) || views.target != 0 {
        return Ok((after, None));
    }
    let Some(next) = views.view.checked_add(1) else {
        return Err(FULL);
    };
    after.target = next;
    after.changes = bit(own);
    Ok((after, Some(line_of(VIEWCHANGE, own, next, after.suspicions))))
}

/// VIEWCHANGE needs a view above its own and not below the target, and f+1
/// ones. A new target restarts the mask with sender and itself and sends its
/// own VIEWCHANGE with the frame's mask; an equal target adds the sender. At
/// N-f ones or more the view becomes the target, suspicions and target clear,
/// and LEADER goes out with the target mask.
fn view_change(r: &Roster, own: u8, views: &ViewRecord, f: &Fields) -> Verdict {
    if f.view <= views.view || f.view < views.target {
        return Err(STALE);
    }
    if bit_outside(r, f.mask) || f.mask.count_ones() < enough_to_suspect(r) {
        return Err(PROOF);
    }
    let mut after = *views;
    if f.view != views.target {
        after.target = f.view;
        after.changes = bit(f.sender) | bit(own);
        return Ok((after, Some(line_of(VIEWCHANGE, own, f.view, f.mask))));
    }
    after.changes |= bit(f.sender);
    if after.changes.count_ones() < quorum(r) {
        return Ok((after, None));
    }
    let moved = ViewRecord { view: f.view, ..ViewRecord::fresh() };
    Ok((moved, Some(line_of(LEADER, own, f.view, after.changes))))
}

/// The checks and the work, in the document's order.
fn judge(r: &Roster, own: u8, views: &ViewRecord, line: &[u8], room: usize) -> Verdict {
    if !config_good(r, own, views, room) {
        return Err(CONFIG);
    }
    let Some(frame) = frames::read(line, &KINDS) else {
        return Err(FORM);
    };
    if frame.fields.sender >= r.n {
        return Err(SENDER);
    }
    if frame.fields.kind == SUSPICION {
        suspicion(r, own, views, &frame.fields)
    } else {
        view_change(r, own, views, &frame.fields)
    }
}

/// A step of the view change. A refusal returns its number and the record as
/// it was, sends nothing and leaves the buffer.
pub fn step(
    r: &Roster,
    own: u8,
    views: &ViewRecord,
    line: &[u8],
    out: &mut [u8],
) -> ViewChangeOutcome {
    match judge(r, own, views, line, out.len()) {
        Ok((views, line)) => {
            ViewChangeOutcome { answer: ACCEPTED, sent: frames::send(line, out), views }
        }
        Err(answer) => ViewChangeOutcome { answer, sent: 0, views: *views },
    }
}
