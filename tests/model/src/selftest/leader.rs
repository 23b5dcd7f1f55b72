//! The leader's model alone, on cases worked out by hand.

use super::{raises, A, B, C, D, FOUR};
use crate::frames::{write, Fields, FAST, LEADER, P1A, P1B, P2A, PROPOSE};
use crate::layout::{Ballot, Leader, LeaderOutcome, Roster, Table};
use crate::leader::{open_ballot, step};
use crate::rules::*;

const OWN: u8 = 2;

/// The P1B of a site: N-f ones where something is proven.
fn report(sender: u8, ballot: u32, proven: &[Command], held: &[Command]) -> Vec<u8> {
    let mask = if proven.is_empty() { 0 } else { 0b1011 };
    let fields = Fields { ballot, mask, ..Fields::of(P1B, sender) };
    write(fields, proven, held)
}

/// A PROPOSE with a ballot that nothing asks for.
fn propose(sender: u8, h: &[Command]) -> Vec<u8> {
    write(Fields { ballot: 77, ..Fields::of(PROPOSE, sender) }, h, &[])
}

/// A LEADER.
fn leader(sender: u8, view: u32, mask: u16) -> Vec<u8> {
    write(Fields { view, mask, ..Fields::of(LEADER, sender) }, &[], &[])
}

/// The P2A of view 2 and ballot 5.
fn proposal(h: &[Command]) -> Vec<u8> {
    write(Fields { view: 2, ballot: 5, ..Fields::of(P2A, OWN) }, h, &[])
}

/// The state after an accepted call and what is sent; the rest of the buffer
/// stays.
fn accepted(call: impl Fn(&mut [u8]) -> LeaderOutcome) -> (Leader, Vec<u8>) {
    let mut out = vec![0xaa; 1100];
    let o = call(&mut out);
    assert_eq!(o.answer, ACCEPTED);
    assert!(out[o.sent..].iter().all(|&b| b == 0xaa));
    (o.state, out[..o.sent].to_vec())
}

/// The number of a refusal, which changes nothing.
fn refused(s: &Leader, room: usize, call: impl Fn(&mut [u8]) -> LeaderOutcome) -> u8 {
    let mut out = vec![0xaa; room];
    let o = call(&mut out);
    assert!(o.answer != ACCEPTED && o.sent == 0 && o.state == *s);
    assert_eq!(out, vec![0xaa; room]);
    o.answer
}

/// An accepted line among four sites.
fn takes(s: &Leader, line: &[u8]) -> (Leader, Vec<u8>) {
    accepted(|out| step(&FOUR, OWN, s, line, out))
}

/// An accepted line that sends nothing.
fn silent(s: &Leader, line: &[u8]) -> Leader {
    let (after, sent) = takes(s, line);
    assert!(sent.is_empty());
    after
}

/// The number of a line's refusal among four sites.
fn refuses(s: &Leader, line: &[u8]) -> u8 {
    refused(s, ROOM, |out| step(&FOUR, OWN, s, line, out))
}

/// An opening among four sites.
fn opens(s: &Leader, ballot: u32, fast: u8) -> (Leader, Vec<u8>) {
    accepted(|out| open_ballot(&FOUR, OWN, s, Ballot(ballot), fast, out))
}

/// The number of an opening's refusal among four sites.
fn stays_shut(s: &Leader, ballot: u32) -> u8 {
    refused(s, ROOM, |out| open_ballot(&FOUR, OWN, s, Ballot(ballot), 0, out))
}

/// Ballot 5 of view 2 is open, with something pending.
fn collecting(pending: &[Command]) -> Leader {
    Leader { view: 2, ballot: 5, classic: 1, pending: stored(pending), ..Leader::fresh() }
}

/// What goes out, and stays pending, after reports of sites in this order.
fn collected(
    pending: &[Command],
    reports: &[(u8, &[Command], &[Command])],
) -> (Vec<u8>, Vec<Command>) {
    let mut s = collecting(pending);
    let (last, first) = reports.split_last().expect("reports");
    for (site, proven, held) in first {
        s = silent(&s, &report(*site, 5, proven, held));
    }
    let (s, sent) = takes(&s, &report(last.0, 5, last.1, last.2));
    assert!(s.pending == stored(commands(&s.pending)));
    (sent, commands(&s.pending).to_vec())
}

/// All cases.
pub fn run() {
    first_ballot();
    choice();
    appending();
    what_stays();
    reports();
    proposing();
    views();
    opening();
    configuration();
    refusals();
}

/// From a fresh state to a proposal.
fn first_ballot() {
    let s = Leader::fresh();
    assert_eq!(stays_shut(&s, 1), STALE);
    let s = silent(&s, &leader(3, 2, 0b0111));
    assert!(s == Leader { view: 2, ..Leader::fresh() });
    let s = silent(&s, &propose(3, &[D]));
    let (s, sent) = opens(&s, 1, 0);
    assert_eq!(sent, b"010200000002000000010000000000000000\n");
    let s = silent(&s, &report(0, 1, &[A], &[A, C]));
    let s = silent(&s, &report(3, 1, &[], &[B]));
    assert_eq!((s.reported, entry(&s.proven, 0), entry(&s.held, 3)), (0b1001, &[A][..], &[B][..]));
    let (s, sent) = takes(&s, &report(1, 1, &[], &[]));
    let fields = Fields { view: 2, ballot: 1, ..Fields::of(P2A, OWN) };
    assert_eq!(sent, write(fields, &[A, C, B, D], &[]));
    assert_eq!((s.pending.count, s.reported, s.classic), (0, 0b1011, 1));
    // Later reports come too late, also those of the last site.
    assert_eq!(refuses(&s, &report(2, 1, &[], &[])), STALE);
    let (s, _) = opens(&s, 2, 0);
    silent(&s, &report(2, 2, &[], &[]));
}

/// The longest proven history, of equals the lowest site's.
fn choice() {
    let (none, a, b): (&[Command], &[Command], &[Command]) = (&[], &[A], &[B]);
    assert_eq!(collected(&[], &[(3, a, none), (0, b, none), (1, none, none)]).0, proposal(b));
    assert_eq!(collected(&[], &[(0, a, none), (3, b, none), (1, none, none)]).0, proposal(a));
    // Longer beats lower; A, which isn't chosen, is left out.
    let longer: &[Command] = &[B, D];
    assert_eq!(
        collected(&[], &[(0, a, none), (1, a, none), (3, longer, none)]).0,
        proposal(longer)
    );
    // Rows that aren't marked are no reports.
    let mut s = collecting(&[]);
    store(&mut s.proven, 2, &[C, D]);
    store(&mut s.held, 2, &[D]);
    let s = silent(&s, &report(0, 5, a, none));
    let s = silent(&s, &report(1, 5, none, none));
    let (after, sent) = takes(&s, &report(3, 5, none, none));
    assert_eq!(sent, proposal(a));
    assert_eq!((entry(&after.proven, 2), entry(&after.held, 2)), (&[C, D][..], &[D][..]));
    // Nothing at all: nothing goes out.
    assert_eq!(collected(&[], &[(0, none, none), (1, none, none), (3, none, none)]).0, []);
}

/// Held by rising site, then pending, by request, up to 32, then ordered.
fn appending() {
    let none: &[Command] = &[];
    let other: Command = 0x0102_0001_0007_0000;
    let of = |pending: &[Command], zero: &[Command], one: &[Command]| {
        collected(pending, &[(1, none, one), (3, none, none), (0, none, zero)])
    };
    // Site 0's come first, though they came last: B, A isn't A, B.
    assert_eq!(of(&[], &[B], &[A]).0, proposal(&[B, A]));
    assert_eq!(of(&[], &[A], &[B]).0, proposal(&[A, B]));
    // One request, by the lower site's bytes.
    assert_eq!(of(&[], &[other], &[A]).0, proposal(&[other]));
    // Held before pending; the result is ordered.
    assert_eq!(of(&[A], &[], &[B]).0, proposal(&[B, A]));
    assert_eq!(of(&[A], &[D], &[C]).0, proposal(&[A, C, D]));
    assert_eq!(of(&[B, D, A], &[], &[]).0, proposal(&[B, A, D]));
    // Up to 32.
    let (sent, left) = of(&raises(40, 4), &raises(1, 20), &raises(15, 16));
    let most = [raises(1, 30), raises(40, 2)].concat();
    assert_eq!((sent, left), (proposal(&most), raises(42, 2)));
    let (sent, left) = of(&[A], &raises(3, 20), &raises(15, 32));
    assert_eq!((sent, left), (proposal(&raises(3, 32)), vec![A]));
    let full = raises(1, 32);
    let sent = collected(&[B], &[(0, &full, &[B]), (1, &[A], &[D]), (3, none, none)]);
    assert_eq!(sent, (proposal(&full), vec![B]));
}

/// Pending keeps, in order, what the result doesn't hold, by all bytes.
fn what_stays() {
    let none: &[Command] = &[];
    let other: Command = 0x0102_0001_0007_0000;
    let (sent, left) =
        collected(&[D, other, B], &[(0, &[A], none), (1, none, none), (3, none, none)]);
    assert_eq!((sent, left), (proposal(&[A, B, D]), vec![other]));
    let full = raises(2, 32);
    let pending = [D, C, B, A];
    let (sent, left) = collected(&pending, &[(0, &full, none), (1, none, &[A]), (3, none, none)]);
    assert_eq!((sent, left), (proposal(&full), vec![D, B, A]));
    // What stood past the count is cleared only with report N-f.
    let mut s = collecting(&[other]);
    s.pending.words[9] = 7;
    let s = silent(&s, &report(0, 5, &[A], none));
    let s = silent(&s, &report(1, 5, &[A], none));
    assert_eq!(s.pending.words[9], 7);
    let (s, sent) = takes(&s, &report(3, 5, &[A], none));
    assert!(sent == proposal(&[A]) && s.pending == stored(&[other]));
}

/// What a report needs.
fn reports() {
    let s = collecting(&[]);
    let once = silent(&s, &report(0, 5, &[A], &[A, C]));
    assert_eq!(refuses(&once, &report(0, 5, &[], &[])), STALE);
    assert_eq!(refuses(&s, &report(0, 4, &[], &[])), STALE);
    assert_eq!(refuses(&s, &report(0, 6, &[], &[])), STALE);
    let fast = Leader { classic: 0, ..s.clone() };
    assert_eq!(refuses(&fast, &report(0, 5, &[], &[])), STALE);
    silent(&Leader { classic: 200, ..s.clone() }, &report(0, 5, &[], &[]));
    assert_eq!(refuses(&s, &report(4, 9, &[], &[])), SENDER);

    let with = |proven_ballot: u32, mask: u16, h: &[Command]| {
        let fields = Fields { ballot: 5, proven_ballot, mask, ..Fields::of(P1B, 0) };
        write(fields, h, &[])
    };
    assert_eq!(refuses(&s, &with(1, 0, &[])), PROOF);
    assert_eq!(refuses(&s, &with(0, 1, &[])), PROOF);
    assert_eq!(refuses(&s, &with(3, 0b0111, &[])), PROOF);
    assert_eq!(refuses(&s, &with(3, 0b0011, &[A])), PROOF);
    assert_eq!(refuses(&s, &with(3, 0b1_0111, &[A])), PROOF);
    assert_eq!(refuses(&s, &with(3, 0b1_0011, &[0])), PROOF);
    silent(&s, &with(0, 0b1111, &[A]));
    silent(&s, &with(9, 0b0111, &[A]));

    assert_eq!(refuses(&s, &report(0, 5, &[A + 1], &[])), COMMAND);
    assert_eq!(refuses(&s, &report(0, 5, &[C, A], &[A + 1])), COMMAND);
    assert_eq!(refuses(&s, &report(0, 5, &[], &[0])), COMMAND);
    assert_eq!(refuses(&s, &report(0, 5, &[A, A], &[])), HISTORY);
    assert_eq!(refuses(&s, &report(0, 5, &[C, A], &[])), HISTORY);
    assert_eq!(refuses(&s, &report(0, 5, &[A], &[C, C])), HISTORY);
    assert_eq!(refuses(&s, &report(0, 5, &[A], &[B, C])), HISTORY);
    // One command in both is no repetition.
    silent(&s, &report(0, 5, &[A], &[A]));
}

/// PROPOSE: appended in their order, with any ballot and at any time.
fn proposing() {
    let other: Command = 0x0102_0001_0007_0000;
    let mut s = Leader::fresh();
    s.pending.words = [9; 32];
    let s = silent(&s, &propose(1, &[C, A]));
    assert!(s.pending == stored(&[C, A]));
    let s = silent(&s, &propose(2, &[B]));
    assert!(s.pending == stored(&[C, A, B]));
    let next: Command = 0x0101_0003_0007_0000;
    let s = silent(&s, &propose(1, &[A, next]));
    assert!(s.pending == stored(&[C, A, B, next]));
    assert_eq!(refuses(&s, &propose(0, &[A])), SENDER);
    assert_eq!(refuses(&s, &propose(1, &[B])), COMMAND);
    assert_eq!(refuses(&s, &propose(1, &[])), HISTORY);
    assert_eq!(refuses(&s, &propose(1, &[A, other])), HISTORY);
    assert_eq!(refuses(&s, &propose(1, &[other])), REUSED);
    assert_eq!(refuses(&s, &propose(1, &[C, A])), NOTHING);
    // 32 may be pending; those there already don't count.
    let most = collecting(&raises(1, 30));
    let full = silent(&most, &propose(1, &raises(25, 8)));
    assert!(full.pending == stored(&raises(1, 32)));
    assert_eq!(refuses(&most, &propose(1, &raises(25, 9))), FULL);
    assert_eq!(refuses(&full, &propose(1, &raises(1, 32))), NOTHING);
    let far: Command = 0xff03_0001_0009_0001;
    silent(&most, &propose(255, &[far]));
}

/// LEADER: the view and nothing else.
fn views() {
    let mut s = collecting(&[B, A]);
    s.reported = 0b1000;
    store(&mut s.held, 3, &[A]);
    assert!(silent(&s, &leader(0, 6, 0b1110)) == Leader { view: 6, ..s.clone() });
    assert!(silent(&s, &leader(2, 4_294_967_294, 0b1111)).view == 4_294_967_294);
    assert_eq!(refuses(&s, &leader(0, 2, 0b0111)), STALE);
    assert_eq!(refuses(&s, &leader(0, 7, 0b0111)), STALE);
    let later = Leader { view: 10, ..s.clone() };
    assert_eq!(refuses(&later, &leader(0, 6, 0b0111)), STALE);
    assert_eq!(refuses(&s, &leader(4, 6, 0b0111)), SENDER);
    assert_eq!(refuses(&s, &leader(0, 6, 0b0011)), PROOF);
    assert_eq!(refuses(&s, &leader(0, 6, 0b1_0111)), PROOF);
    assert_eq!(refuses(&s, &leader(0, 6, 0b1_0011)), PROOF);
}

/// The opening of ballots.
fn opening() {
    let mut s = collecting(&[B, A]);
    s.reported = 0b1001;
    store(&mut s.proven, 1, &[A]);
    s.held.words[400] = 3;
    s.pending.words[30] = 8;
    let empty = Leader { reported: 0, proven: Table::empty(), held: Table::empty(), ..s.clone() };
    let (after, sent) = opens(&s, 6, 0);
    assert!(after == Leader { ballot: 6, ..empty.clone() });
    assert_eq!(sent, write(Fields { view: 2, ballot: 6, ..Fields::of(P1A, OWN) }, &[], &[]));
    for fast in [1, 2, 255] {
        let (after, sent) = opens(&s, u32::MAX, fast);
        assert!(after == Leader { ballot: u32::MAX, classic: 0, ..empty.clone() });
        let fields = Fields { view: 2, ballot: u32::MAX, ..Fields::of(FAST, OWN) };
        assert_eq!(sent, write(fields, &[], &[]));
    }
    assert_eq!(stays_shut(&s, 5), STALE);
    assert_eq!(stays_shut(&s, 4), STALE);
    assert_eq!(stays_shut(&Leader { view: 3, ..s.clone() }, 6), STALE);
    assert_eq!(stays_shut(&Leader { ballot: u32::MAX, ..s }, u32::MAX), STALE);
}

/// CONFIG, by each of its reasons, of both calls.
fn configuration() {
    let s = collecting(&[B, A]);
    let line = report(0, 5, &[A], &[A]);
    let by = |s: &Leader, r: &Roster, own: u8, room: usize| {
        let frame = refused(s, room, |out| step(r, own, s, &line, out));
        let opening = refused(s, room, |out| open_ballot(r, own, s, Ballot(6), 0, out));
        assert_eq!((frame, opening), (CONFIG, CONFIG));
    };
    by(&s, &Roster { n: 3, f: 1 }, OWN, ROOM);
    by(&s, &Roster { n: 17, f: 1 }, OWN, ROOM);
    by(&s, &Roster { n: 4, f: 0 }, OWN, ROOM);
    by(&s, &FOUR, 4, ROOM);
    by(&s, &FOUR, OWN, ROOM - 1);
    by(&s, &FOUR, OWN, 0);
    let with = |change: &dyn Fn(&mut Leader)| {
        let mut lent = s.clone();
        change(&mut lent);
        by(&lent, &FOUR, OWN, ROOM);
    };
    with(&|s| s.reported = 0x10);
    with(&|s| s.pending.count = 33);
    with(&|s| s.pending.count = 3);
    with(&|s| s.pending = stored(&[A, A]));
    // Rows of sites that aren't marked are looked at too.
    with(&|s| s.proven.counts[3] = 1);
    with(&|s| store(&mut s.proven, 1, &[C, A]));
    with(&|s| store(&mut s.held, 1, &[A, A]));
    with(&|s| s.held.counts[1] = 33);
    with(&|s| store(&mut s.proven, 4, &[A]));
    with(&|s| store(&mut s.held, 15, &[A]));
    silent(&s, &line);
}

/// FORM and the order of the other refusals.
fn refusals() {
    let s = collecting(&[]);
    for kind in [0, P1A, FAST, P2A, 6, 7, 8, 9, 11] {
        assert_eq!(refuses(&s, &write(Fields::of(kind, 0), &[], &[])), FORM);
    }
    let unused = Fields { view: 2, ballot: 5, ..Fields::of(P1B, 0) };
    assert_eq!(refuses(&s, &write(unused, &[], &[])), FORM);
    assert_eq!(refuses(&s, &report(0, 5, &raises(1, 33), &[])), FORM);
    assert_eq!(refuses(&s, &report(0, 5, &[], &raises(1, 33))), FORM);
    assert_eq!(report(0, 5, &raises(1, 32), &raises(7, 32)).len(), ROOM);
    silent(&s, &report(0, 5, &raises(1, 32), &raises(7, 32)));
    assert_eq!(refuses(&s, &report(9, 9, &[0], &[0])), SENDER);
    assert_eq!(refuses(&s, &report(0, 9, &[0], &[0])), STALE);
    assert_eq!(refuses(&s, &report(0, 5, &[0, 0], &[A, A])), COMMAND);
    assert_eq!(refuses(&s, &propose(1, &[0, 0])), COMMAND);
}
