//! Runs random calls through the library and through the model and compares
//! everything that comes back.

use crate::generate::Rng;
use crate::tally::Tally;
use std::process::ExitCode;

/// A role as the driver needs it. An outcome is all that a call changes.
pub trait Role {
    type Scenario;
    type State: PartialEq;
    type Call;
    type Outcome: PartialEq;

    /// The state at the start of all.
    fn fresh() -> Self::State;
    /// A run of calls, how many, and the state it starts from.
    fn begin(rng: &mut Rng) -> (Self::Scenario, usize, Self::State);
    /// The next call of a run.
    fn call(scenario: &mut Self::Scenario, rng: &mut Rng, state: &Self::State) -> Self::Call;
    /// What the model makes of a call.
    fn model(call: &Self::Call) -> Self::Outcome;
    /// The state to go on with, if the call is one to keep.
    fn kept(call: &Self::Call, outcome: Self::Outcome) -> Option<Self::State>;
    /// The answers that the role can give.
    fn answers() -> &'static [u8];
    /// The labels to count.
    fn labels() -> Vec<String>;
    /// Counts what a call came to.
    fn tally(tally: &mut Tally, call: &Self::Call, want: &Self::Outcome);
    /// Prints a call in full, and where model and library differ.
    fn report(call: &Self::Call, want: &Self::Outcome, got: &Self::Outcome);
}

const SEED: u64 = 20_250_101;
const COUNT: u64 = 1_000_000;

/// Compares at least so many calls; false at the first difference, or if a
/// whole run never came to some answer or case.
fn compare<R: Role>(
    seed: u64,
    count: u64,
    fresh: fn() -> R::State,
    library: fn(&R::Call) -> R::Outcome,
) -> bool {
    if fresh() != R::fresh() {
        println!("the library's fresh state is not empty");
        return false;
    }
    let mut rng = Rng(seed);
    let mut tally = Tally::new(R::labels());
    let mut frames = 0;
    while frames < count {
        let (mut scenario, length, mut state) = R::begin(&mut rng);
        for _ in 0..length {
            let call = R::call(&mut scenario, &mut rng, &state);
            let want = R::model(&call);
            let got = library(&call);
            if want != got {
                println!("difference at frame {frames} of seed {seed}");
                R::report(&call, &want, &got);
                return false;
            }
            R::tally(&mut tally, &call, &want);
            if let Some(next) = R::kept(&call, got) {
                state = next;
            }
            frames += 1;
        }
    }
    tally.print();
    println!("{frames} frames, 0 differences");
    count < COUNT || tally.all_reached(R::answers())
}

/// The program of a role: seed and count are its arguments.
pub fn main<R: Role>(fresh: fn() -> R::State, library: fn(&R::Call) -> R::Outcome) -> ExitCode {
    let arguments: Vec<String> = std::env::args().skip(1).collect();
    let numbers: Option<Vec<u64>> = arguments.iter().map(|a| a.parse().ok()).collect();
    let (seed, count) = match numbers.as_deref() {
        Some([]) => (SEED, COUNT),
        Some([seed]) => (*seed, COUNT),
        Some([seed, count]) => (*seed, *count),
        _ => {
            eprintln!("arguments: [SEED [COUNT]]");
            return ExitCode::from(2);
        }
    };
    if compare::<R>(seed, count, fresh, library) {
        ExitCode::SUCCESS
    } else {
        ExitCode::FAILURE
    }
}
