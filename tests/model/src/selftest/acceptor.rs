//! The acceptor's model alone, on cases worked out by hand.

use super::{raises, A, B, C, D, FOUR};
use crate::acceptor::step;
use crate::frames::{write, Fields, FAST, P1A, P1B, P2A, P2B, PROPOSE, SUSPICION, VERIFY};
use crate::layout::{Acceptor, Roster, Table, ViewRecord};
use crate::rules::*;

const OWN: u8 = 2;

/// A line of the kinds that an acceptor takes.
fn line(kind: u8, sender: u8, view: u32, ballot: u32, h: &[Command]) -> Vec<u8> {
    write(Fields { view, ballot, ..Fields::of(kind, sender) }, h, &[])
}

/// A record in a view.
fn view(view: u32) -> ViewRecord {
    ViewRecord { view, ..ViewRecord::fresh() }
}

/// The state after an accepted line, in view 0 of four sites, and what is
/// sent; the rest of the buffer stays.
fn accepted(s: &Acceptor, text: &[u8]) -> (Acceptor, Vec<u8>) {
    let mut out = vec![0xaa; 1100];
    let o = step(&FOUR, OWN, &view(0), s, text, &mut out);
    assert_eq!(o.answer, ACCEPTED);
    assert!(out[o.sent..].iter().all(|&b| b == 0xaa));
    (o.state, out[..o.sent].to_vec())
}

/// The state after a line that is accepted and sends nothing.
fn silent(s: &Acceptor, text: &[u8]) -> Acceptor {
    let (after, sent) = accepted(s, text);
    assert!(sent.is_empty());
    after
}

/// The number of a refusal, which changes nothing.
fn refused_by(r: &Roster, own: u8, v: &ViewRecord, s: &Acceptor, text: &[u8], room: usize) -> u8 {
    let mut out = vec![0xaa; room];
    let o = step(r, own, v, s, text, &mut out);
    assert!(o.answer != ACCEPTED && o.sent == 0 && o.state == *s);
    assert_eq!(out, vec![0xaa; room]);
    o.answer
}

/// The number of a refusal in view 0 of four sites.
fn refused(s: &Acceptor, text: &[u8]) -> u8 {
    refused_by(&FOUR, OWN, &view(0), s, text, ROOM)
}

/// A state in a classic ballot, with something held and something proven.
fn classic(ballot: u32, signed: u8, held: &[Command], proven: &[Command]) -> Acceptor {
    let mut s = Acceptor { ballot, signed, ..Acceptor::fresh() };
    s.held = stored(held);
    s.proven = stored(proven);
    s
}

/// The same in a fast ballot.
fn fast(ballot: u32, held: &[Command], proven: &[Command]) -> Acceptor {
    Acceptor { fast: 1, ..classic(ballot, 0, held, proven) }
}

/// All cases.
pub fn run() {
    first_vote();
    own_completes();
    opening();
    phase_two();
    proposing();
    verifying();
    configuration();
    refusals();
}

/// From a fresh state to the document's sample vote, and beyond.
fn first_vote() {
    let (s, sent) = accepted(&Acceptor::fresh(), &line(P1A, 0, 0, 1, &[]));
    assert!(s == Acceptor { ballot: 1, ..Acceptor::fresh() });
    assert_eq!(sent, b"030200000000000000010000000000000000\n");
    let (s, sent) = accepted(&s, &line(P2A, 0, 0, 1, &[A]));
    assert_eq!(sent, b"0602000000000000000100000000000001000101000100070000\n");
    assert_eq!((s.signed, commands(&s.held), entry(&s.verified, 2)), (1, &[A][..], &[A][..]));
    let s = silent(&s, &line(VERIFY, 0, 0, 1, &[A]));
    let (s, sent) = accepted(&s, &line(VERIFY, 1, 0, 1, &[A]));
    assert_eq!(sent, b"0702000000000000000100000000000701000101000100070000\n");
    assert_eq!((commands(&s.proven), s.proven_ballot, s.certificate), (&[A][..], 1, 7));
    // Already proven in this ballot.
    let s = silent(&s, &line(VERIFY, 3, 0, 1, &[A]));
    assert_eq!((entry(&s.verified, 3), s.certificate), (&[A][..], 7));
    // More is held, signed and proven; less comes too late.
    let (s, sent) = accepted(&s, &line(P2A, 0, 0, 1, &[A, C]));
    assert_eq!(sent, line(VERIFY, OWN, 0, 1, &[A, C]));
    assert!(silent(&s, &line(VERIFY, OWN, 0, 1, &[A])) == s);
    let s = silent(&s, &line(VERIFY, 3, 0, 1, &[A, C]));
    let (s, sent) = accepted(&s, &line(VERIFY, 0, 0, 1, &[A, C]));
    let fields = Fields { ballot: 1, mask: 0b1101, ..Fields::of(P2B, OWN) };
    assert_eq!(sent, write(fields, &[A, C], &[]));
    // The next ballot's report.
    let (s, sent) = accepted(&s, &line(P1A, 0, 0, 5, &[]));
    let fields = Fields { ballot: 5, proven_ballot: 1, mask: 0b1101, ..Fields::of(P1B, OWN) };
    assert_eq!(sent, write(fields, &[A, C], &[A, C]));
    assert_eq!((s.ballot, s.signed, s.proven_ballot), (5, 0, 1));
    assert!(s.verified == Table::empty());
}

/// Its own VERIFY, handed back, completes the quorum.
fn own_completes() {
    let s = Acceptor { ballot: 3, ..Acceptor::fresh() };
    let s = silent(&s, &line(VERIFY, 0, 0, 3, &[A]));
    let s = silent(&s, &line(VERIFY, 3, 0, 3, &[A]));
    let (s, sent) = accepted(&s, &line(P2A, 0, 0, 3, &[A]));
    assert_eq!((sent, s.proven.count), (line(VERIFY, OWN, 0, 3, &[A]), 0));
    let (s, sent) = accepted(&s, &line(VERIFY, OWN, 0, 3, &[A]));
    let fields = Fields { ballot: 3, mask: 0b1101, ..Fields::of(P2B, OWN) };
    assert_eq!((sent, commands(&s.proven)), (write(fields, &[A], &[]), &[A][..]));
    // Once.
    assert!(silent(&s, &line(VERIFY, OWN, 0, 3, &[A])) == s);
}

/// P1A and FAST.
fn opening() {
    let mut s = classic(4, 9, &[A, C], &[A]);
    s.proven_ballot = 3;
    s.certificate = 0b1011;
    s.verified.words = [u64::MAX; 512];
    store(&mut s.verified, 1, &[A]);
    let opened = Acceptor { fast: 1, ballot: 6, signed: 0, verified: Table::empty(), ..s.clone() };
    assert!(silent(&s, &line(FAST, 0, 0, 6, &[])) == opened);
    let (after, sent) = accepted(&opened, &line(P1A, 0, 0, u32::MAX, &[]));
    assert!(after == Acceptor { fast: 0, ballot: u32::MAX, ..opened.clone() });
    let fields =
        Fields { ballot: u32::MAX, proven_ballot: 3, mask: 0b1011, ..Fields::of(P1B, OWN) };
    assert_eq!(sent, write(fields, &[A], &[A, C]));
    assert_eq!(refused(&opened, &line(P1A, 0, 0, 6, &[])), STALE);
    assert_eq!(refused(&opened, &line(FAST, 0, 0, 5, &[])), STALE);
    assert_eq!(refused(&after, &line(FAST, 0, 0, u32::MAX, &[])), STALE);
    // Another view is led by another site.
    assert_eq!(refused(&opened, &line(P1A, 1, 0, 7, &[])), SENDER);
    assert_eq!(refused(&opened, &line(P1A, 1, 1, 7, &[])), STALE);
    let v = view(6);
    assert_eq!(refused_by(&FOUR, OWN, &v, &opened, &line(P1A, 0, 0, 7, &[]), ROOM), STALE);
    let mut out = vec![0; ROOM];
    let o = step(&FOUR, OWN, &v, &opened, &line(P1A, 2, 6, 7, &[]), &mut out);
    assert_eq!((o.answer, o.state.ballot), (ACCEPTED, 7));
    // The longest line fills the buffer.
    let full = classic(1, 0, &raises(40, 32), &raises(1, 32));
    let o = step(&FOUR, OWN, &view(0), &full, &line(P1A, 0, 0, 2, &[]), &mut out);
    assert_eq!((o.answer, o.sent), (ACCEPTED, ROOM));
}

/// P2A: what it must extend, and the fresh ballot 0.
fn phase_two() {
    let proven = classic(2, 0, &[B], &[C]);
    let (s, sent) = accepted(&proven, &line(P2A, 0, 0, 2, &[A, C]));
    assert_eq!((commands(&s.held), s.signed), (&[A, C][..], 1));
    assert_eq!(sent, line(VERIFY, OWN, 0, 2, &[A, C]));
    assert_eq!(refused(&proven, &line(P2A, 0, 0, 2, &[A])), BEHIND);
    // Signed: the held one too. A,C,B extends A,C; A,B,C isn't canonical.
    assert_eq!(refused(&s, &line(P2A, 0, 0, 2, &[C])), BEHIND);
    assert_eq!(refused(&s, &line(P2A, 0, 0, 2, &[C, D])), BEHIND);
    assert_eq!(refused(&s, &line(P2A, 0, 0, 2, &[A, B, C])), HISTORY);
    let (longer, _) = accepted(&s, &line(P2A, 0, 0, 2, &[A, C, B]));
    assert_eq!(commands(&longer.held), [A, C, B]);
    // Its own entry is replaced, whatever stood there; zeros come after it.
    let mut odd = classic(2, 0, &[], &[]);
    store(&mut odd.verified, 2, &[B, D]);
    odd.verified.words[2 * LIMIT + 9] = 5;
    odd.held.words = [7; 32];
    let (after, _) = accepted(&odd, &line(P2A, 0, 0, 2, &[A]));
    assert!(after.held == stored(&[A]));
    assert_eq!((entry(&after.verified, 2), row(&after.verified, 2)[9]), (&[A][..], 0));
    // Ballot 0 is classic.
    let (zero, sent) = accepted(&Acceptor::fresh(), &line(P2A, 0, 0, 0, &[A]));
    assert_eq!((zero.ballot, sent), (0, line(VERIFY, OWN, 0, 0, &[A])));
    assert_eq!(refused(&fast(2, &[], &[]), &line(P2A, 0, 0, 2, &[A])), STALE);
    assert_eq!(refused(&proven, &line(P2A, 0, 0, 3, &[A, C])), STALE);
    assert_eq!(refused(&proven, &line(P2A, 0, 0, 1, &[A, C])), STALE);
}

/// PROPOSE: appending, and its four refusals.
fn proposing() {
    let second: Command = 0x0102_0003_0007_0000;
    let s = fast(2, &[A], &[A]);
    // Out of order, one of them held: A, then C before the other on slot 7.
    let (after, sent) = accepted(&s, &line(PROPOSE, 1, 0, 2, &[second, C, A]));
    assert_eq!((commands(&after.held), after.signed), (&[A, second, C][..], 1));
    assert_eq!(sent, line(VERIFY, OWN, 0, 2, &[A, second, C]));
    assert_eq!(entry(&after.verified, 2), [A, second, C]);
    // A proposer's number may be N or above; a later one may come first.
    let (early, _) = accepted(&fast(2, &[D], &[]), &line(PROPOSE, 1, 0, 2, &[C]));
    assert_eq!(commands(&early.held), [C, D]);
    let far: Command = 0xff03_0001_0009_0001;
    let (far_held, _) = accepted(&s, &line(PROPOSE, 255, 0, 2, &[far]));
    assert_eq!(commands(&far_held.held), [A, far]);

    assert_eq!(refused(&s, &line(PROPOSE, 0, 0, 2, &[A])), SENDER);
    assert_eq!(refused(&s, &line(PROPOSE, 1, 0, 3, &[C])), STALE);
    assert_eq!(refused(&classic(2, 0, &[A], &[A]), &line(PROPOSE, 1, 0, 2, &[C])), STALE);
    assert_eq!(refused(&s, &line(PROPOSE, 1, 0, 2, &[C, B])), COMMAND);
    assert_eq!(refused(&s, &line(PROPOSE, 1, 0, 2, &[])), HISTORY);
    assert_eq!(refused(&s, &line(PROPOSE, 1, 0, 2, &[C, C])), HISTORY);
    assert_eq!(refused(&fast(2, &[A], &[B]), &line(PROPOSE, 1, 0, 2, &[C])), BEHIND);
    let other: Command = 0x0102_0001_0007_0000;
    assert_eq!(refused(&s, &line(PROPOSE, 1, 0, 2, &[C, other])), REUSED);
    assert_eq!(refused(&s, &line(PROPOSE, 1, 0, 2, &[other, A])), HISTORY);
    assert_eq!(refused(&s, &line(PROPOSE, 1, 0, 2, &[A])), NOTHING);
    // 32 are held; the 33rd is too many, and those held don't count.
    let most = fast(2, &raises(1, 30), &[]);
    let (full, _) = accepted(&most, &line(PROPOSE, 1, 0, 2, &raises(25, 8)));
    assert!(full.held == stored(&raises(1, 32)));
    assert_eq!(refused(&most, &line(PROPOSE, 1, 0, 2, &raises(25, 9))), FULL);
    assert_eq!(refused(&full, &line(PROPOSE, 1, 0, 2, &raises(1, 32))), NOTHING);
}

/// VERIFY: stored or not, proven or not.
fn verifying() {
    let mut s = classic(2, 0, &[], &[]);
    store(&mut s.verified, 0, &[A, C]);
    store(&mut s.verified, 1, &[A]);
    // Less than the entry: no effect, though it is no byte prefix.
    assert!(silent(&s, &line(VERIFY, 0, 0, 2, &[C])) == s);
    assert_eq!(refused(&s, &line(VERIFY, 0, 0, 2, &[B])), CONTRADICTION);
    assert_eq!(refused(&s, &line(VERIFY, 1, 0, 2, &[C, D])), CONTRADICTION);
    // Longer entries are not equal ones.
    let s = silent(&s, &line(VERIFY, 3, 0, 2, &[A]));
    let (voted, sent) = accepted(&s, &line(VERIFY, 2, 0, 2, &[A]));
    let vote = |ballot: u32, mask: u16, h: &[Command]| {
        write(Fields { ballot, mask, ..Fields::of(P2B, OWN) }, h, &[])
    };
    assert_eq!((sent, voted.certificate), (vote(2, 0b1110, &[A]), 0b1110));
    // Proven in an earlier ballot: once more.
    let mut again = s.clone();
    again.proven = stored(&[A]);
    again.proven_ballot = 1;
    again.certificate = 0b0111;
    let (voted, sent) = accepted(&again, &line(VERIFY, 2, 0, 2, &[A]));
    assert_eq!((sent, voted.proven_ballot), (vote(2, 0b1110, &[A]), 2));
    // Doesn't extend the proven one: stored, and nothing goes out.
    for proven in [&[B][..], &[A, C], &[D]] {
        let mut behind = s.clone();
        behind.proven = stored(proven);
        let after = silent(&behind, &line(VERIFY, 2, 0, 2, &[A]));
        assert_eq!((entry(&after.verified, 2), commands(&after.proven)), (&[A][..], proven));
    }
    // N-f of seven sites with f = 1 are six.
    let seven = Roster { n: 7, f: 1 };
    let mut many = classic(2, 0, &[], &[]);
    (0..5).for_each(|i| store(&mut many.verified, i, &[A]));
    let mut out = vec![0; ROOM];
    let o = step(&seven, OWN, &view(0), &many, &line(VERIFY, 4, 0, 2, &[A]), &mut out);
    assert_eq!((o.answer, o.sent), (ACCEPTED, 0));
    let o = step(&seven, OWN, &view(0), &many, &line(VERIFY, 6, 0, 2, &[A]), &mut out);
    assert_eq!((o.answer, o.state.certificate), (ACCEPTED, 0b101_1111));
    // Fast ballots too; view and ballot must be equal.
    let quick = Acceptor { fast: 7, ..s.clone() };
    let (_, sent) = accepted(&quick, &line(VERIFY, 2, 0, 2, &[A]));
    assert_eq!(sent, vote(2, 0b1110, &[A]));
    assert_eq!(refused(&s, &line(VERIFY, 2, 1, 2, &[A])), STALE);
    assert_eq!(refused(&s, &line(VERIFY, 2, 0, 1, &[A])), STALE);
    assert_eq!(refused(&s, &line(VERIFY, 2, 0, 3, &[A])), STALE);
}

/// CONFIG, by each of its reasons.
fn configuration() {
    let s = classic(2, 0, &[A], &[A]);
    let text = line(VERIFY, 1, 0, 2, &[A]);
    let by = |r: &Roster, own: u8, room: usize| refused_by(r, own, &view(0), &s, &text, room);
    assert_eq!(by(&Roster { n: 3, f: 1 }, OWN, ROOM), CONFIG);
    assert_eq!(by(&Roster { n: 17, f: 1 }, OWN, ROOM), CONFIG);
    assert_eq!(by(&Roster { n: 4, f: 0 }, OWN, ROOM), CONFIG);
    assert_eq!(by(&FOUR, 4, ROOM), CONFIG);
    assert_eq!(by(&FOUR, OWN, ROOM - 1), CONFIG);
    assert_eq!(by(&FOUR, OWN, 0), CONFIG);
    let record = |suspicions: u16, changes: u16| ViewRecord { suspicions, changes, ..view(0) };
    assert_eq!(refused_by(&FOUR, OWN, &record(0x10, 0), &s, &text, ROOM), CONFIG);
    assert_eq!(refused_by(&FOUR, OWN, &record(0, 0x10), &s, &text, ROOM), CONFIG);
    silent(&s, &text);

    let with = |change: &dyn Fn(&mut Acceptor)| {
        let mut lent = s.clone();
        change(&mut lent);
        refused(&lent, &text)
    };
    assert_eq!(with(&|s| s.certificate = 0x10), CONFIG);
    assert_eq!(with(&|s| s.held.count = 33), CONFIG);
    assert_eq!(with(&|s| s.held = stored(&[A + 1])), CONFIG);
    assert_eq!(with(&|s| s.held = stored(&[A, A])), CONFIG);
    assert_eq!(with(&|s| s.held = stored(&[C, A])), CONFIG);
    assert_eq!(with(&|s| s.proven.count = 2), CONFIG);
    assert_eq!(with(&|s| s.proven = stored(&[B, C])), CONFIG);
    assert_eq!(with(&|s| s.verified.counts[3] = 1), CONFIG);
    assert_eq!(with(&|s| store(&mut s.verified, 3, &[D, C])), CONFIG);
    assert_eq!(with(&|s| store(&mut s.verified, 4, &[A])), CONFIG);
    // Words past the counts mean nothing.
    let mut littered = s.clone();
    littered.held.words[5] = 1;
    littered.proven.words[1] = u64::MAX;
    littered.verified.words[100] = 3;
    let after = silent(&littered, &text);
    assert_eq!((after.held.words[5], after.verified.words[100]), (1, 3));
}

/// FORM and the order of the other refusals.
fn refusals() {
    let s = classic(2, 0, &[], &[]);
    for kind in [0, P1B, P2B, SUSPICION, 9, 10, 11] {
        assert_eq!(refused(&s, &write(Fields::of(kind, 0), &[], &[])), FORM);
    }
    let unused = Fields { view: 1, ballot: 2, ..Fields::of(PROPOSE, 1) };
    assert_eq!(refused(&s, &write(unused, &[A], &[])), FORM);
    assert_eq!(refused(&s, &line(P1A, 0, 0, 3, &[A])), FORM);
    assert_eq!(refused(&s, &line(P2A, 0, 0, 2, &raises(1, 33))), FORM);
    accepted(&s, &line(P2A, 0, 0, 2, &raises(1, 32)));
    assert_eq!(refused(&s, &line(VERIFY, 4, 9, 9, &[])), SENDER);
    assert_eq!(refused(&s, &line(P2A, 3, 0, 9, &[])), SENDER);
    assert_eq!(refused(&s, &line(P2A, 0, 0, 9, &[0])), STALE);
    assert_eq!(refused(&s, &line(P2A, 0, 0, 2, &[A, A, 0])), COMMAND);
    assert_eq!(refused(&s, &line(VERIFY, 0, 0, 2, &[])), HISTORY);
    assert_eq!(refused(&s, &line(P2A, 0, 0, 2, &[])), HISTORY);
    assert_eq!(refused(&s, &line(P2A, 0, 0, 2, &[B, C])), HISTORY);
}
