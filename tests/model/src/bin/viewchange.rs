//! Compares the view change of the library with its model.

mod library;

use model::generate::guarded;
use model::generate::viewchange::Call;
use model::layout::ViewChangeOutcome;
use model::role::viewchange::ViewChangeRole;
use std::process::ExitCode;

/// What the library makes of a call.
fn step(call: &Call) -> (ViewChangeOutcome, Vec<u8>) {
    let mut out = guarded(&call.given.out);
    let lent = &mut out[..call.given.out.len()];
    let outcome = library::view_change_step(
        &call.given.roster,
        call.given.own,
        &call.views,
        &call.line,
        lent,
    );
    (outcome, out)
}

/// Seed and count are the arguments.
fn main() -> ExitCode {
    model::driver::main::<ViewChangeRole>(library::speckleewe_view_record_fresh, step)
}
