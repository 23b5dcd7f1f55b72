//! Compares the leader of the library with its model.

mod library;

use model::generate::guarded;
use model::generate::leader::{Call, Input};
use model::layout::{Ballot, LeaderOutcome};
use model::role::leader::LeaderRole;
use std::process::ExitCode;

/// What the library makes of a call.
fn step(call: &Call) -> (LeaderOutcome, Vec<u8>) {
    let mut out = guarded(&call.given.out);
    let lent = &mut out[..call.given.out.len()];
    let (r, own, s) = (&call.given.roster, call.given.own, &call.state);
    let outcome = match &call.input {
        Input::Line(line) => library::leader_step(r, own, s, line, lent),
        Input::Opening(ballot, fast) => {
            library::leader_open_ballot(r, own, s, Ballot(*ballot), *fast, lent)
        }
    };
    (outcome, out)
}

/// Seed and count are the arguments.
fn main() -> ExitCode {
    model::driver::main::<LeaderRole>(library::speckleewe_leader_fresh, step)
}
