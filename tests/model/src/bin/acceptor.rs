//! Compares the acceptor of the library with its model.

mod library;

use model::generate::acceptor::Call;
use model::generate::guarded;
use model::layout::AcceptorOutcome;
use model::role::acceptor::AcceptorRole;
use std::process::ExitCode;

/// What the library makes of a call.
fn step(call: &Call) -> (AcceptorOutcome, Vec<u8>) {
    let mut out = guarded(&call.given.out);
    let lent = &mut out[..call.given.out.len()];
    let c = call;
    let outcome =
        library::acceptor_step(&c.given.roster, c.given.own, &c.views, &c.state, &c.line, lent);
    (outcome, out)
}

/// Seed and count are the arguments.
fn main() -> ExitCode {
    model::driver::main::<AcceptorRole>(library::acceptor_fresh, step)
}
