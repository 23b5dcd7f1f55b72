//! The leader: its steps, and the host's opening of a ballot.

use crate::frames::{self, Fields, Frame, FAST, LEADER, P1A, P1B, P2A, PROPOSE};
use crate::layout::{Ballot, Leader, LeaderOutcome, Roster, Table};
use crate::rules::*;
use std::cmp::Reverse;

/// The kinds that a leader takes.
pub const KINDS: [u8; 3] = [P1B, PROPOSE, LEADER];

/// The state after an accepted call and the line to send, or the number of
/// the refusal.
type Verdict = Result<(Leader, Option<Vec<u8>>), u8>;

/// The CONFIG check: roster, own number, room for output and lent state.
/// Pending commands are in any order.
fn config_good(r: &Roster, own: u8, s: &Leader, room: usize) -> bool {
    roster_valid(r)
        && own < r.n
        && room >= ROOM
        && list_sound(s.pending.count, &s.pending.words)
        && !bit_outside(r, s.reported)
        && table_valid(r, &s.proven)
        && table_valid(r, &s.held)
}

/// SENDER: a site below N; a proposer other than 0 in PROPOSE.
fn sender_good(r: &Roster, f: &Fields) -> bool {
    if f.kind == PROPOSE {
        f.sender != 0
    } else {
        f.sender < r.n
    }
}

/// STALE: LEADER needs a view that the site leads, above its own; P1B the open
/// classic ballot, a site's first report, and that fewer than N-f came.
fn timely(r: &Roster, own: u8, s: &Leader, f: &Fields) -> bool {
    match f.kind {
        LEADER => leads(r, own, f.view) && f.view > s.view,
        P1B => {
            let first = s.reported & bit(f.sender) == 0;
            s.classic != 0 && f.ballot == s.ballot && first && !complete(r, s)
        }
        _ => true,
    }
}

/// Have N-f sites reported?
pub fn complete(r: &Roster, s: &Leader) -> bool {
    s.reported.count_ones() >= quorum(r)
}

/// PROOF: N-f ones, none at N or above; where nothing is proven, proven ballot
/// and mask are 0.
fn proof_good(r: &Roster, f: &Fields) -> bool {
    match f.kind {
        PROPOSE => true,
        P1B if f.n == 0 => f.proven_ballot == 0 && f.mask == 0,
        _ => !bit_outside(r, f.mask) && f.mask.count_ones() >= quorum(r),
    }
}

/// COMMAND: right fields in both lists, and in PROPOSE the sender's own.
fn commands_good(frame: &Frame) -> bool {
    let own_ones = |c: Command| frame.fields.kind != PROPOSE || proposer(c) == frame.fields.sender;
    let right = |h: &[Command]| h.iter().all(|&c| command_valid(c) && own_ones(c));
    right(&frame.first) && right(&frame.second)
}

/// HISTORY: no request twice in a list; a report's are canonical, a proposal
/// isn't empty.
fn histories_good(frame: &Frame) -> bool {
    match frame.fields.kind {
        PROPOSE => !frame.first.is_empty() && !repeats(&frame.first),
        _ => [&frame.first, &frame.second].iter().all(|h| !repeats(h) && is_canonical(h)),
    }
}

/// The sites that reported, by rising number.
fn reporting(r: &Roster, s: &Leader) -> Vec<u8> {
    (0..r.n).filter(|&i| s.reported & bit(i) != 0).collect()
}

/// The longest proven history of the reports, of equals the lowest site's.
pub fn chosen(r: &Roster, s: &Leader) -> Vec<Command> {
    let proven = |i: u8| entry(&s.proven, usize::from(i));
    let best = reporting(r, s).into_iter().max_by_key(|&i| (proven(i).len(), Reverse(i)));
    best.map_or(Vec::new(), |i| proven(i).to_vec())
}

/// Appends each command whose proposer and serial isn't present, up to 32.
pub fn append(h: &mut Vec<Command>, more: &[Command]) {
    for &c in more {
        if h.len() < LIMIT && !h.iter().any(|&b| same_request(b, c)) {
            h.push(c);
        }
    }
}

/// The chosen history, then the held ones by rising site, then pending.
fn collected(r: &Roster, s: &Leader) -> Vec<Command> {
    let mut h = chosen(r, s);
    for i in reporting(r, s) {
        append(&mut h, entry(&s.held, usize::from(i)));
    }
    append(&mut h, commands(&s.pending));
    h
}

/// P1B: the report is kept. On report N-f the canonical result goes out as
/// P2A, if not empty, and pending keeps what it doesn't hold.
fn report(r: &Roster, own: u8, s: &Leader, frame: &Frame) -> Verdict {
    let sender = frame.fields.sender;
    let mut after = s.clone();
    after.reported |= bit(sender);
    store(&mut after.proven, usize::from(sender), &frame.first);
    store(&mut after.held, usize::from(sender), &frame.second);
    if !complete(r, &after) {
        return Ok((after, None));
    }
    let result = canonical(&collected(r, &after));
    let left = commands(&s.pending).iter().copied().filter(|c| !result.contains(c));
    after.pending = stored(&left.collect::<Vec<Command>>());
    if result.is_empty() {
        return Ok((after, None));
    }
    let fields = Fields { view: s.view, ballot: s.ballot, ..Fields::of(P2A, own) };
    Ok((after, Some(frames::write(fields, &result, &[]))))
}

/// PROPOSE: commands not pending are appended, in their order.
fn propose(s: &Leader, proposed: &[Command]) -> Verdict {
    let longer = appended(commands(&s.pending), proposed)?;
    Ok((Leader { pending: stored(&longer), ..s.clone() }, None))
}

/// The checks of a frame and the work, in the document's order.
fn judge(r: &Roster, own: u8, s: &Leader, line: &[u8], room: usize) -> Verdict {
    if !config_good(r, own, s, room) {
        return Err(CONFIG);
    }
    let Some(frame) = frames::read(line, &KINDS) else {
        return Err(FORM);
    };
    let f = &frame.fields;
    if !sender_good(r, f) {
        return Err(SENDER);
    }
    if !timely(r, own, s, f) {
        return Err(STALE);
    }
    if !proof_good(r, f) {
        return Err(PROOF);
    }
    if !commands_good(&frame) {
        return Err(COMMAND);
    }
    if !histories_good(&frame) {
        return Err(HISTORY);
    }
    match f.kind {
        P1B => report(r, own, s, &frame),
        PROPOSE => propose(s, &frame.first),
        _ => Ok((Leader { view: f.view, ..s.clone() }, None)),
    }
}

/// The host's opening: a ballot greater than the last, in a view that the site
/// leads. FAST or P1A goes out, and reports are forgotten.
fn judge_opening(r: &Roster, own: u8, s: &Leader, ballot: u32, fast: bool, room: usize) -> Verdict {
    if !config_good(r, own, s, room) {
        return Err(CONFIG);
    }
    if ballot <= s.ballot || !leads(r, own, s.view) {
        return Err(STALE);
    }
    let after = Leader {
        ballot,
        classic: u8::from(!fast),
        reported: 0,
        proven: Table::empty(),
        held: Table::empty(),
        ..s.clone()
    };
    let kind = if fast { FAST } else { P1A };
    let fields = Fields { view: s.view, ballot, ..Fields::of(kind, own) };
    Ok((after, Some(frames::write(fields, &[], &[]))))
}

/// A refusal returns its number and the state as it was, byte for byte, sends
/// nothing and leaves the buffer.
fn outcome(verdict: Verdict, state: &Leader, out: &mut [u8]) -> LeaderOutcome {
    match verdict {
        Ok((state, line)) => {
            LeaderOutcome { answer: ACCEPTED, sent: frames::send(line, out), state }
        }
        Err(answer) => LeaderOutcome { answer, sent: 0, state: state.clone() },
    }
}

/// A leader's step.
pub fn step(r: &Roster, own: u8, state: &Leader, line: &[u8], out: &mut [u8]) -> LeaderOutcome {
    outcome(judge(r, own, state, line, out.len()), state, out)
}

/// The opening of a ballot: fast if the flag isn't 0.
pub fn open_ballot(
    r: &Roster,
    own: u8,
    state: &Leader,
    ballot: Ballot,
    fast: u8,
    out: &mut [u8],
) -> LeaderOutcome {
    outcome(judge_opening(r, own, state, ballot.0, fast != 0, out.len()), state, out)
}
