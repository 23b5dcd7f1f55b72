//! The learner under test.

use super::*;
use crate::driver::Role;
use crate::frames;
use crate::generate::learner::{Call, Scenario};
use crate::generate::Rng;
use crate::layout::{Learner, LearnerOutcome};
use crate::learner::{learned, step, KINDS};
use crate::rules::*;
use crate::tally::{form_case, owned, Tally, FORMS};

/// The learner, to the driver.
pub struct LearnerRole;

const CASES: [&str; 4] = [
    "stored",
    "the longer entry stays",
    "N-f supporters",
    "N-f supporters, and a merge unlike both",
];

/// Counts the cases of an accepted vote.
fn tally_accepted(tally: &mut Tally, call: &Call, want: &LearnerOutcome) {
    let Some(vote) = frames::read(&call.line, &KINDS) else { return };
    let site = usize::from(vote.fields.sender);
    let stored = entry(&want.state.entries, site) == vote.first;
    tally.count(if stored { CASES[0] } else { CASES[1] });
    if u32::from(want.supporters) >= quorum(&call.roster) {
        tally.count(CASES[2]);
        let after = learned(&want.state);
        tally.count_if(after != learned(&call.state) && after != vote.first, CASES[3]);
    }
}

impl Role for LearnerRole {
    type Scenario = Scenario;
    type State = Learner;
    type Call = Call;
    type Outcome = LearnerOutcome;

    fn fresh() -> Learner {
        Learner::fresh()
    }

    fn begin(rng: &mut Rng) -> (Scenario, usize, Learner) {
        let scenario = Scenario::new(rng);
        let state = scenario.start(rng);
        let length = scenario.length;
        (scenario, length, state)
    }

    fn call(scenario: &mut Scenario, rng: &mut Rng, state: &Learner) -> Call {
        scenario.call(rng, state)
    }

    fn model(call: &Call) -> LearnerOutcome {
        step(&call.roster, &call.state, &call.line)
    }

    fn kept(call: &Call, outcome: LearnerOutcome) -> Option<Learner> {
        call.keep.then_some(outcome.state)
    }

    fn answers() -> &'static [u8] {
        &[0, 1, 2, 3, 4, 5, 6, 7, 10, 11, 13]
    }

    fn labels() -> Vec<String> {
        [owned(&CASES), owned(&FORMS)].concat()
    }

    fn tally(tally: &mut Tally, call: &Call, want: &LearnerOutcome) {
        tally.answer(want.answer);
        match want.answer {
            ACCEPTED => tally_accepted(tally, call, want),
            FORM => tally.count(form_case(&call.line, &KINDS)),
            _ => {}
        }
    }

    fn report(call: &Call, want: &LearnerOutcome, got: &LearnerOutcome) {
        println!("answer: model {}, library {}", want.answer, got.answer);
        println!("differences:");
        differ("supporters", want.supporters, got.supporters);
        differ_table("entry", &want.state.entries, &got.state.entries);
        differ_history("learned", &want.state.learned, &got.state.learned);
        println!("the call:");
        println!("roster: N={}, f={}", call.roster.n, call.roster.f);
        print_line(&call.line);
        println!("state lent:");
        print_table("entry", &call.state.entries);
        print_history("learned", &call.state.learned);
    }
}
