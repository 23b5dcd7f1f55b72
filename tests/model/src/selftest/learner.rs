//! The learner's model alone, on the document's samples.

use super::{raises, A, B, C, FOUR};
use crate::frames::{write, Fields, P2B};
use crate::layout::{Learner, Roster};
use crate::learner::{learned, step};
use crate::rules::*;

/// The line of a vote in ballot 1.
fn line(sender: u8, mask: u16, history: &[Command]) -> Vec<u8> {
    write(Fields { mask, ballot: 1, ..Fields::of(P2B, sender) }, history, &[])
}

/// Answer and supporters; a refusal leaves the state.
fn answer(r: &Roster, state: &Learner, text: &[u8]) -> (u8, u8) {
    let o = step(r, state, text);
    if o.answer != ACCEPTED {
        assert!(o.supporters == 0 && o.state == *state);
    }
    (o.answer, o.supporters)
}

/// All cases.
pub fn run() {
    samples();
    frames();
}

/// The sample votes, and the errors to exclude.
fn samples() {
    let mut state = Learner::fresh();
    let votes: [(u8, &[Command], u8, usize); 4] =
        [(0, &[A], 1, 0), (1, &[A], 2, 0), (2, &[A, C], 1, 0), (3, &[A], 4, 1)];
    for (sender, history, supporters, known) in votes {
        let o = step(&FOUR, &state, &line(sender, 7, history));
        assert_eq!((o.answer, o.supporters), (ACCEPTED, supporters));
        state = o.state;
        assert_eq!(learned(&state), &[A][..known]);
    }
    assert_eq!(entry(&state.entries, 2), [A, C]);
    // A late, shorter vote leaves the longer one; one site thrice is one site.
    let o = step(&FOUR, &state, &line(2, 7, &[A]));
    assert_eq!((o.answer, o.supporters), (ACCEPTED, 4));
    assert_eq!(entry(&o.state.entries, 2), [A, C]);
    let mut thrice = Learner::fresh();
    for _ in 0..3 {
        let o = step(&FOUR, &thrice, &line(1, 7, &[A]));
        assert_eq!((o.answer, o.supporters), (ACCEPTED, 1));
        thrice = o.state;
    }
    assert_eq!(learned(&thrice), &[] as &[Command]);
    // C is no byte prefix of A,C and yet supported by it.
    let mut other = Learner::fresh();
    for (sender, supporters) in [(0, 1), (1, 2)] {
        let o = step(&FOUR, &other, &line(sender, 7, &[A, C]));
        assert_eq!((o.answer, o.supporters), (ACCEPTED, supporters));
        other = o.state;
    }
    let o = step(&FOUR, &other, &line(2, 7, &[C]));
    assert_eq!((o.answer, o.supporters), (ACCEPTED, 3));
    assert_eq!(learned(&o.state), [C]);
    // The same quorum against another learned history.
    let mut split = other.clone();
    split.learned.count = 1;
    split.learned.words[0] = B;
    assert_eq!(answer(&FOUR, &split, &line(2, 7, &[A])), (SPLIT, 0));
    assert_eq!(answer(&FOUR, &split, &line(2, 7, &[C])), (ACCEPTED, 3));
    assert_eq!(answer(&FOUR, &other, &line(1, 7, &[B])), (CONTRADICTION, 0));
}

/// Lines, limits and lent states.
fn frames() {
    let fresh = Learner::fresh();
    let example = b"0702000000000000000100000000000701000101000100070000\n";
    assert_eq!(line(2, 7, &[A]), example);
    assert_eq!(answer(&FOUR, &fresh, example), (ACCEPTED, 1));
    assert_eq!(answer(&FOUR, &fresh, &example[..example.len() - 1]), (FORM, 0));
    assert_eq!(answer(&FOUR, &fresh, b""), (FORM, 0));
    assert_eq!(answer(&FOUR, &fresh, b"\n"), (FORM, 0));

    assert_eq!(answer(&FOUR, &fresh, &line(0, 7, &raises(1, 32))), (ACCEPTED, 1));
    assert_eq!(answer(&FOUR, &fresh, &line(0, 7, &raises(1, 33))), (FORM, 0));
    assert_eq!(answer(&FOUR, &fresh, &line(0, 0b0111, &[A])), (ACCEPTED, 1));
    assert_eq!(answer(&FOUR, &fresh, &line(0, 0b0011, &[A])), (PROOF, 0));
    assert_eq!(answer(&FOUR, &fresh, &line(0, 0x0010, &[A])), (PROOF, 0));
    assert_eq!(answer(&FOUR, &fresh, &line(0, 0x001f, &[A])), (PROOF, 0));
    assert_eq!(answer(&Roster { n: 3, f: 1 }, &fresh, example), (CONFIG, 0));
    assert_eq!(answer(&Roster { n: 6, f: 2 }, &fresh, example), (CONFIG, 0));
    assert_eq!(answer(&Roster { n: 7, f: 2 }, &fresh, &line(0, 0x1f, &[A])), (ACCEPTED, 1));
    assert_eq!(answer(&FOUR, &fresh, &line(4, 7, &[A])), (SENDER, 0));
    assert_eq!(answer(&FOUR, &fresh, &line(0, 7, &[])), (HISTORY, 0));
    assert_eq!(answer(&FOUR, &fresh, &line(0, 7, &[B, C])), (HISTORY, 0));
    assert_eq!(answer(&FOUR, &fresh, &line(0, 7, &[A, A])), (HISTORY, 0));
    assert_eq!(answer(&FOUR, &fresh, &line(0, 7, &[A + 1])), (COMMAND, 0));
    let stale = write(Fields { mask: 7, ..Fields::of(P2B, 0) }, &[A], &[]);
    assert_eq!(answer(&FOUR, &fresh, &stale), (STALE, 0));

    // 30 learned and 2 more are 32; 3 more are too many.
    let mut long = fresh.clone();
    long.learned.count = 30;
    long.learned.words[..30].copy_from_slice(&raises(1, 30));
    for site in 0..2 {
        long.entries.counts[site] = 3;
        long.entries.words[site * LIMIT..site * LIMIT + 3].copy_from_slice(&raises(40, 3));
    }
    let o = step(&FOUR, &long, &line(2, 7, &raises(40, 2)));
    assert_eq!((o.answer, o.supporters, o.state.learned.count), (ACCEPTED, 3, 32));
    assert_eq!(answer(&FOUR, &long, &line(2, 7, &raises(40, 3))), (FULL, 0));

    // Words past a count mean nothing; those within do.
    let mut lent = fresh.clone();
    lent.entries.words = [u64::MAX; 512];
    lent.learned.words = [1; 32];
    assert_eq!(answer(&FOUR, &lent, example), (ACCEPTED, 1));
    lent.entries.counts[3] = 1;
    assert_eq!(answer(&FOUR, &lent, example), (CONFIG, 0));
    let mut above = fresh.clone();
    above.entries.counts[4] = 1;
    above.entries.words[4 * LIMIT] = A;
    assert_eq!(answer(&FOUR, &above, example), (CONFIG, 0));
    assert_eq!(answer(&Roster { n: 5, f: 1 }, &above, &line(2, 15, &[A])), (ACCEPTED, 2));
}
