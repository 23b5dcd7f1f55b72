//! The roles as the driver needs them, and what their reports share.

pub mod acceptor;
pub mod leader;
pub mod learner;
pub mod viewchange;

use crate::generate::run::Given;
use crate::layout::{History, Table, ViewRecord};
use crate::rules::LIMIT;

/// Bytes in hex.
fn hex(bytes: &[u8]) -> String {
    bytes.iter().map(|b| format!("{b:02x}")).collect()
}

/// Prints the line of a call.
fn print_line(line: &[u8]) {
    println!("line, {} bytes, in hex: {}", line.len(), hex(line));
    println!("line as text: {}", line.escape_ascii());
}

/// Prints what the host gave to a call.
fn print_given(given: &Given) {
    println!("roster: N={}, f={}; own number {}", given.roster.n, given.roster.f, given.own);
    println!("buffer lent, {} bytes, in hex: {}", given.out.len(), hex(&given.out));
}

/// Prints a list with all its words, unless it is empty and all are 0.
fn print_list(name: &str, count: u8, words: &[u64]) {
    if count == 0 && words.iter().all(|&w| w == 0) {
        return;
    }
    let all: Vec<String> = words.iter().map(|w| format!("{w:016x}")).collect();
    println!("  {name}, count {count}, words {}", all.join(" "));
}

/// Prints a history with all its words.
fn print_history(name: &str, h: &History) {
    print_list(name, h.count, &h.words);
}

/// Prints a table row by row.
fn print_table(name: &str, t: &Table) {
    for (site, words) in t.words.chunks(LIMIT).enumerate() {
        print_list(&format!("{name} of site {site}"), t.counts[site], words);
    }
}

/// Prints a view-change record.
fn print_record(v: &ViewRecord) {
    println!(
        "record: view {}, suspicions {:04x}, target {}, changes {:04x}",
        v.view, v.suspicions, v.target, v.changes
    );
}

/// Prints a value that model and library give differently.
fn differ<T: PartialEq + std::fmt::Display>(name: &str, want: T, got: T) {
    if want != got {
        println!("  {name}: model {want}, library {got}");
    }
}

/// Prints where two lists differ.
fn differ_list(name: &str, want: (u8, &[u64]), got: (u8, &[u64])) {
    differ(&format!("{name}, count"), want.0, got.0);
    for (i, (w, g)) in want.1.iter().zip(got.1).enumerate() {
        if w != g {
            println!("  {name}, word {i}: model {w:016x}, library {g:016x}");
        }
    }
}

/// Prints where two histories differ.
fn differ_history(name: &str, want: &History, got: &History) {
    differ_list(name, (want.count, &want.words), (got.count, &got.words));
}

/// Prints where two tables differ.
fn differ_table(name: &str, want: &Table, got: &Table) {
    for site in 0..16 {
        let words = site * LIMIT..(site + 1) * LIMIT;
        differ_list(
            &format!("{name} of site {site}"),
            (want.counts[site], &want.words[words.clone()]),
            (got.counts[site], &got.words[words]),
        );
    }
}

/// Prints where two records differ.
fn differ_record(want: &ViewRecord, got: &ViewRecord) {
    differ("view", want.view, got.view);
    differ("suspicions", want.suspicions, got.suspicions);
    differ("target", want.target, got.target);
    differ("changes", want.changes, got.changes);
}

/// Prints two output buffers, if they differ.
fn differ_buffer(want: &[u8], got: &[u8]) {
    if want != got {
        let at = want.iter().zip(got).position(|(w, g)| w != g);
        println!("  buffers differ first at byte {at:?}");
        println!("  buffer of the model, in hex: {}", hex(want));
        println!("  buffer of the library, in hex: {}", hex(got));
    }
}
