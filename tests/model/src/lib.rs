//! Models of the roles in plain Rust, written from the scope document alone,
//! and what compares them with the library: generators of calls, counts of
//! what was reached, reports of a difference.

pub mod acceptor;
pub mod driver;
pub mod frames;
pub mod generate;
pub mod interface;
pub mod layout;
pub mod leader;
pub mod learner;
pub mod role;
pub mod rules;
pub mod selftest;
pub mod tally;
pub mod viewchange;
