//! The leader under test.

mod accepted;
mod collected;
mod refused;

use super::*;
use crate::driver::Role;
use crate::frames::{self, LEADER, P1B, PROPOSE};
use crate::generate::leader::{Call, Input, Scenario};
use crate::generate::{guarded, Rng};
use crate::layout::{Ballot, Leader, LeaderOutcome};
use crate::leader::{complete, open_ballot, step, KINDS};
use crate::rules::*;
use crate::tally::{form_case, owned, Tally, FORMS};

/// The leader, to the driver.
pub struct LeaderRole;

/// Counts what an opening came to.
fn tally_opening(tally: &mut Tally, call: &Call, ballot: u32, fast: u8, answer: u8) {
    match answer {
        CONFIG => refused::tally_config(tally, call),
        STALE => refused::tally_stale_opening(tally, call, ballot),
        _ => accepted::tally_opening(tally, call, ballot, fast),
    }
}

/// Counts what a frame came to.
fn tally_frame(tally: &mut Tally, call: &Call, line: &[u8], want: &LeaderOutcome) {
    if want.answer == CONFIG {
        return refused::tally_config(tally, call);
    }
    let Some(frame) = frames::read(line, &KINDS) else {
        return tally.count(form_case(line, &KINDS));
    };
    match (want.answer, frame.fields.kind) {
        (ACCEPTED, PROPOSE) => accepted::tally_propose(tally, call, &frame, &want.state),
        (ACCEPTED, LEADER) => accepted::tally_leader(tally, call, &frame.fields),
        (ACCEPTED, P1B) => {
            accepted::tally_report(tally, call, &frame);
            if complete(&call.given.roster, &want.state) {
                collected::tally_result(tally, call, &frame, want);
            }
        }
        (SENDER, _) => refused::tally_sender(tally, &frame),
        (STALE, _) => refused::tally_stale(tally, call, &frame.fields),
        (PROOF, _) => refused::tally_proof(tally, call, &frame.fields),
        (answer, _) => refused::tally_lists(tally, call, &frame, answer),
    }
}

impl Role for LeaderRole {
    type Scenario = Scenario;
    type State = Leader;
    type Call = Call;
    type Outcome = (LeaderOutcome, Vec<u8>);

    fn fresh() -> Leader {
        Leader::fresh()
    }

    fn begin(rng: &mut Rng) -> (Scenario, usize, Leader) {
        let scenario = Scenario::new(rng);
        let state = scenario.start(rng);
        let length = scenario.run.length;
        (scenario, length, state)
    }

    fn call(scenario: &mut Scenario, rng: &mut Rng, state: &Leader) -> Call {
        scenario.call(rng, state)
    }

    fn model(call: &Call) -> Self::Outcome {
        let mut out = guarded(&call.given.out);
        let lent = &mut out[..call.given.out.len()];
        let (r, own, s) = (&call.given.roster, call.given.own, &call.state);
        let outcome = match &call.input {
            Input::Line(line) => step(r, own, s, line, lent),
            Input::Opening(ballot, fast) => open_ballot(r, own, s, Ballot(*ballot), *fast, lent),
        };
        (outcome, out)
    }

    fn kept(call: &Call, outcome: Self::Outcome) -> Option<Leader> {
        call.given.keep.then_some(outcome.0.state)
    }

    fn answers() -> &'static [u8] {
        &[0, 1, 2, 3, 4, 5, 6, 7, 9, 12, 13]
    }

    fn labels() -> Vec<String> {
        let accepted = [accepted::labels(), collected::labels()].concat();
        [accepted, refused::labels(), owned(&FORMS)].concat()
    }

    fn tally(tally: &mut Tally, call: &Call, want: &Self::Outcome) {
        tally.answer(want.0.answer);
        match &call.input {
            Input::Line(line) => tally_frame(tally, call, line, &want.0),
            Input::Opening(ballot, fast) => {
                tally_opening(tally, call, *ballot, *fast, want.0.answer)
            }
        }
    }

    fn report(call: &Call, want: &Self::Outcome, got: &Self::Outcome) {
        println!("answer: model {}, library {}", want.0.answer, got.0.answer);
        println!("differences:");
        differ("length sent", want.0.sent, got.0.sent);
        differ_state(&want.0.state, &got.0.state);
        differ_buffer(&want.1, &got.1);
        println!("the call:");
        print_given(&call.given);
        let s = &call.state;
        println!(
            "state lent: view {}, ballot {}, classic {}, reported {:04x}",
            s.view, s.ballot, s.classic, s.reported
        );
        print_history("pending", &s.pending);
        print_table("proven history", &s.proven);
        print_table("held history", &s.held);
        match &call.input {
            Input::Line(line) => print_line(line),
            Input::Opening(ballot, fast) => println!("opening of ballot {ballot}, fast {fast}"),
        }
    }
}

/// Prints where two states differ.
fn differ_state(want: &Leader, got: &Leader) {
    differ("view", want.view, got.view);
    differ("ballot", want.ballot, got.ballot);
    differ("classic", want.classic, got.classic);
    differ_history("pending", &want.pending, &got.pending);
    differ("reported", want.reported, got.reported);
    differ_table("proven history", &want.proven, &got.proven);
    differ_table("held history", &want.held, &got.held);
}
