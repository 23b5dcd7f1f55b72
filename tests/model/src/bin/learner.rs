//! Compares the learner of the library with its model.

mod library;

use model::generate::learner::Call;
use model::layout::LearnerOutcome;
use model::role::learner::LearnerRole;
use std::process::ExitCode;

/// What the library makes of a call.
fn step(call: &Call) -> LearnerOutcome {
    library::learner_step(&call.roster, &call.state, &call.line)
}

/// Seed and count are the arguments.
fn main() -> ExitCode {
    model::driver::main::<LearnerRole>(library::speckleewe_learner_fresh, step)
}
