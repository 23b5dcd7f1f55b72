//! Clusters of honest sites, run by the library, and liars, over a bad
//! network. After each step the conclusions of demand 3 are looked at.
//!
//!     cluster [SEED [COUNT]]    so many runs
//!     cluster --run SEED        one run by its own seed, every line printed

mod cluster;
mod host;
mod leader;
mod liar;
#[path = "../../model/src/bin/library.rs"]
mod library;
mod network;
mod plan;
mod scheme;
mod site;
mod stats;
mod watch;

use cluster::Cluster;
use model::generate::Rng;
use stats::Stats;
use std::process::ExitCode;

const SEED: u64 = 20_250_101;
const COUNT: u64 = 1_000;

/// Does one run; the text says what went wrong.
fn one(seed: u64, trace: bool, stats: &mut Stats) -> Result<(), String> {
    let mut cluster = Cluster::new(seed, trace);
    let result = cluster.run();
    stats.add(&cluster.stats);
    result.map_err(|text| {
        let (r, liars) = (cluster.plan.roster, &cluster.plan.liars);
        format!("run of seed {seed}, N={}, f={}, liars {liars:?}: {text}", r.n, r.f)
    })
}

/// Does so many runs, up to the first in which something went wrong.
fn many(seed: u64, count: u64) -> Result<(), String> {
    let mut rng = Rng(seed);
    let mut stats = Stats::default();
    for _ in 0..count {
        one(rng.next(), false, &mut stats)?;
    }
    stats.print();
    if count >= 100 && stats.learning < count / 4 * 3 {
        return Err("learners learned in too few runs".to_string());
    }
    if count >= 100 && stats.proposals < count {
        return Err("honest leaders proposed too seldom".to_string());
    }
    println!("nothing went wrong");
    Ok(())
}

/// Reads the arguments and runs.
fn main() -> ExitCode {
    let arguments: Vec<String> = std::env::args().skip(1).collect();
    let numbers: Vec<Option<u64>> = arguments.iter().map(|a| a.parse().ok()).collect();
    let result = match (&arguments[..], &numbers[..]) {
        ([], _) => many(SEED, COUNT),
        (_, [Some(seed)]) => many(*seed, COUNT),
        (_, [Some(seed), Some(count)]) => many(*seed, *count),
        ([first, _], [None, Some(seed)]) if first == "--run" => {
            one(*seed, true, &mut Stats::default())
        }
        _ => {
            eprintln!("arguments: [SEED [COUNT]] or --run SEED");
            return ExitCode::from(2);
        }
    };
    if let Err(text) = result {
        println!("{text}");
        return ExitCode::FAILURE;
    }
    ExitCode::SUCCESS
}
