//! The functions of the library, to be called with slices, and the steps as
//! the models have them: a record goes in, and what comes back has the record
//! after it. A program that includes this links only what it calls.
#![allow(dead_code)]

use model::frames;
use model::layout::*;

/// A function that calls the library's of that name for a record.
macro_rules! declare_fresh {
    ($name:ident = $record:ty) => {
        pub fn $name() -> $record {
            extern "C" {
                fn $name() -> $record;
            }
            // SAFETY: the function takes nothing, and gives a record in the
            // layout that the library names.
            unsafe { $name() }
        }
    };
}

/// A function that calls the library's of that name on a record.
macro_rules! declare_call {
    ($name:ident($record:ident: $kind:ty $(, $value:ident: $type:ty)*
        $(; line $line:ident)? $(; out $out:ident)?) -> $reply:ty $body:block) => {
        fn $name(
            $record: &mut $kind,
            $($value: $type,)*
            $($line: &[u8],)?
            $($out: &mut [u8],)?
        ) -> $reply {
            extern "C" {
                fn $name(
                    $record: *mut $kind,
                    $($value: $type,)*
                    $($line: *const u8, len: usize,)?
                    $($out: *mut u8, room: usize,)?
                ) -> $reply;
            }
            // SAFETY: pointers and lengths are those of a record and of slices
            // that outlive the call, record and output lent to it alone, in the
            // layout that the library names.
            unsafe {
                $name(
                    $record,
                    $($value,)*
                    $($line.as_ptr(), $line.len(),)?
                    $($out.as_mut_ptr(), $out.len(),)?
                )
            }
        }
    };
}

model::fresh_records!(declare_fresh);
model::calls!(declare_call);

/// A learner's step.
pub fn learner_step(roster: &Roster, state: &Learner, line: &[u8]) -> LearnerOutcome {
    let mut state = state.clone();
    let o = speckleewe_learner(&mut state, *roster, line);
    LearnerOutcome { answer: o.answer, supporters: o.supporters, state }
}

/// A step of the view change. The host's own suspicion has a function of its
/// own, which must give the same.
pub fn view_change_step(
    roster: &Roster,
    own: u8,
    views: &ViewRecord,
    line: &[u8],
    out: &mut [u8],
) -> ViewChangeOutcome {
    let mut lent = out.to_vec();
    let mut after = *views;
    let o = speckleewe_view_change(&mut after, *roster, own, line, out);
    if line == frames::suspicion(own, views.view) {
        let mut other = *views;
        let p = speckleewe_suspicion(&mut other, *roster, own, View(views.view), &mut lent);
        let same = (p.answer, p.sent, other) == (o.answer, o.sent, after) && lent == out;
        assert!(same, "the host's own suspicion gives something else than its line");
    }
    ViewChangeOutcome { answer: o.answer, sent: o.sent, views: after }
}

/// An acceptor's step, which leaves the view-change record.
pub fn acceptor_step(
    roster: &Roster,
    own: u8,
    views: &ViewRecord,
    state: &Acceptor,
    line: &[u8],
    out: &mut [u8],
) -> AcceptorOutcome {
    let mut site = Site { views: *views, acceptor: state.clone() };
    let o = speckleewe_acceptor(&mut site, *roster, own, line, out);
    assert!(site.views == *views, "an acceptor's step changes the view-change record");
    AcceptorOutcome { answer: o.answer, sent: o.sent, state: site.acceptor }
}

/// A leader's step.
pub fn leader_step(
    roster: &Roster,
    own: u8,
    state: &Leader,
    line: &[u8],
    out: &mut [u8],
) -> LeaderOutcome {
    let mut state = state.clone();
    let o = speckleewe_leader(&mut state, *roster, own, line, out);
    LeaderOutcome { answer: o.answer, sent: o.sent, state }
}

/// A leader's opening of a ballot.
pub fn leader_open_ballot(
    roster: &Roster,
    own: u8,
    state: &Leader,
    ballot: Ballot,
    fast: u8,
    out: &mut [u8],
) -> LeaderOutcome {
    let mut state = state.clone();
    let opening = Opening { ballot: ballot.0, fast };
    let o = speckleewe_open_ballot(&mut state, *roster, own, opening, out);
    LeaderOutcome { answer: o.answer, sent: o.sent, state }
}

/// A fresh acceptor, with the record of a fresh site.
pub fn acceptor_fresh() -> Acceptor {
    let site = speckleewe_site_fresh();
    assert!(site.views == speckleewe_view_record_fresh(), "a fresh site's record isn't fresh");
    site.acceptor
}
