//! The acceptor.

use crate::frames::{self, Fields, Frame, FAST, P1A, P1B, P2A, P2B, PROPOSE, VERIFY};
use crate::layout::{Acceptor, AcceptorOutcome, Roster, Table, ViewRecord};
use crate::rules::*;
use crate::viewchange::record_valid;

/// The kinds that an acceptor takes.
pub const KINDS: [u8; 5] = [P1A, FAST, PROPOSE, P2A, VERIFY];

/// The state after an accepted frame and the line to send, or the number of
/// the refusal.
type Verdict = Result<(Acceptor, Option<Vec<u8>>), u8>;

/// Where a step is taken: everything but the state and the frame.
struct Site<'a> {
    roster: &'a Roster,
    own: u8,
    view: u32,
}

/// Is the lent state one that CONFIG lets pass?
fn state_valid(r: &Roster, s: &Acceptor) -> bool {
    history_valid(&s.held)
        && history_valid(&s.proven)
        && table_valid(r, &s.verified)
        && !bit_outside(r, s.certificate)
}

/// SENDER: a site below N, and the leader of the frame's view where only the
/// leader may send; a proposer other than 0 in PROPOSE.
fn sender_good(r: &Roster, f: &Fields) -> bool {
    match f.kind {
        PROPOSE => f.sender != 0,
        P1A | FAST | P2A => f.sender < r.n && leads(r, f.sender, f.view),
        _ => f.sender < r.n,
    }
}

/// STALE: the view and the ballot that the kind needs.
fn timely(view: u32, s: &Acceptor, f: &Fields) -> bool {
    let fast = s.fast != 0;
    match f.kind {
        P1A | FAST => f.view == view && f.ballot > s.ballot,
        P2A => f.view == view && f.ballot == s.ballot && !fast,
        PROPOSE => f.ballot == s.ballot && fast,
        _ => f.view == view && f.ballot == s.ballot,
    }
}

/// COMMAND: right fields, and in PROPOSE the sender's own.
fn commands_good(frame: &Frame) -> bool {
    let own_ones = |c: Command| frame.fields.kind != PROPOSE || proposer(c) == frame.fields.sender;
    frame.first.iter().all(|&c| command_valid(c) && own_ones(c))
}

/// HISTORY: not empty, no request twice, and canonical except in PROPOSE.
/// P1A and FAST carry none.
fn history_good(frame: &Frame) -> bool {
    let h = &frame.first[..];
    match frame.fields.kind {
        P1A | FAST => true,
        PROPOSE => !h.is_empty() && !repeats(h),
        _ => !h.is_empty() && !repeats(h) && is_canonical(h),
    }
}

/// P1A, FAST: takes the ballot, forgets the VERIFY table and that it signed.
/// P1A answers P1B; FAST answers nothing.
fn open(site: &Site, s: &Acceptor, f: &Fields) -> Verdict {
    let mut after = s.clone();
    after.ballot = f.ballot;
    after.fast = u8::from(f.kind == FAST);
    after.signed = 0;
    after.verified = Table::empty();
    if f.kind == FAST {
        return Ok((after, None));
    }
    let fields = Fields {
        ballot: f.ballot,
        proven_ballot: s.proven_ballot,
        mask: s.certificate,
        ..Fields::of(P1B, site.own)
    };
    let line = frames::write(fields, commands(&s.proven), commands(&s.held));
    Ok((after, Some(line)))
}

/// A history becomes held and is signed: the VERIFY of it replaces its own
/// entry and goes out, but proves nothing yet.
fn sign(site: &Site, s: &Acceptor, h: &[Command]) -> Verdict {
    let mut after = s.clone();
    after.held = stored(h);
    after.signed = 1;
    store(&mut after.verified, usize::from(site.own), h);
    let fields = Fields { view: site.view, ballot: s.ballot, ..Fields::of(VERIFY, site.own) };
    Ok((after, Some(frames::write(fields, h, &[]))))
}

/// P2A: the history must extend the proven one and, if it signed in this
/// ballot, the held one.
fn phase_two(site: &Site, s: &Acceptor, h: &[Command]) -> Verdict {
    if !extends(h, commands(&s.proven)) {
        return Err(BEHIND);
    }
    if s.signed != 0 && !extends(h, commands(&s.held)) {
        return Err(BEHIND);
    }
    sign(site, s, h)
}

/// PROPOSE: the held history must extend the proven one. Commands not held
/// are appended, result canonical.
fn propose(site: &Site, s: &Acceptor, proposed: &[Command]) -> Verdict {
    let held = commands(&s.held);
    if !extends(held, commands(&s.proven)) {
        return Err(BEHIND);
    }
    let longer = appended(held, proposed)?;
    sign(site, s, &canonical(&longer))
}

/// The mask of the sites whose entry is the history.
pub fn equal_entries(r: &Roster, t: &Table, h: &[Command]) -> u16 {
    (0..r.n).filter(|&i| entry(t, usize::from(i)) == h).fold(0, |mask, i| mask | bit(i))
}

/// VERIFY: stored if it extends the site's entry; accepted without effect if
/// the entry is longer and extends it. If stored and N-f entries equal it,
/// and it extends the proven history, and it isn't already proven in this
/// ballot, it becomes proven and a P2B goes out, its mask those entries.
fn verify(site: &Site, s: &Acceptor, sender: u8, h: &[Command]) -> Verdict {
    let before = entry(&s.verified, usize::from(sender));
    if !extends(h, before) {
        return if extends(before, h) { Ok((s.clone(), None)) } else { Err(CONTRADICTION) };
    }
    let mut after = s.clone();
    store(&mut after.verified, usize::from(sender), h);
    let mask = equal_entries(site.roster, &after.verified, h);
    let already = commands(&s.proven) == h && s.proven_ballot == s.ballot;
    if mask.count_ones() < quorum(site.roster) || !extends(h, commands(&s.proven)) || already {
        return Ok((after, None));
    }
    after.proven = stored(h);
    after.proven_ballot = s.ballot;
    after.certificate = mask;
    let fields = Fields { ballot: s.ballot, mask, ..Fields::of(P2B, site.own) };
    Ok((after, Some(frames::write(fields, h, &[]))))
}

/// The checks and the work, in the document's order.
fn judge(
    r: &Roster,
    own: u8,
    views: &ViewRecord,
    s: &Acceptor,
    line: &[u8],
    room: usize,
) -> Verdict {
    let config_good = roster_valid(r) && own < r.n && room >= ROOM;
    if !config_good || !record_valid(r, views) || !state_valid(r, s) {
        return Err(CONFIG);
    }
    let Some(frame) = frames::read(line, &KINDS) else {
        return Err(FORM);
    };
    let f = &frame.fields;
    if !sender_good(r, f) {
        return Err(SENDER);
    }
    if !timely(views.view, s, f) {
        return Err(STALE);
    }
    if !commands_good(&frame) {
        return Err(COMMAND);
    }
    if !history_good(&frame) {
        return Err(HISTORY);
    }
    let site = Site { roster: r, own, view: views.view };
    match f.kind {
        P1A | FAST => open(&site, s, f),
        P2A => phase_two(&site, s, &frame.first),
        PROPOSE => propose(&site, s, &frame.first),
        _ => verify(&site, s, f.sender, &frame.first),
    }
}

/// An acceptor's step. A refusal returns its number and the state as it was,
/// byte for byte, sends nothing and leaves the buffer.
pub fn step(
    r: &Roster,
    own: u8,
    views: &ViewRecord,
    state: &Acceptor,
    line: &[u8],
    out: &mut [u8],
) -> AcceptorOutcome {
    match judge(r, own, views, state, line, out.len()) {
        Ok((state, line)) => {
            AcceptorOutcome { answer: ACCEPTED, sent: frames::send(line, out), state }
        }
        Err(answer) => AcceptorOutcome { answer, sent: 0, state: state.clone() },
    }
}
