//! The models alone: cases worked out by hand from the scope document, and
//! extension and merge held against the bare definitions on all histories
//! over a few commands.

mod acceptor;
mod leader;
mod learner;
mod viewchange;

use crate::frames;
use crate::layout::Roster;
use crate::rules::*;
use std::collections::{BTreeMap, BTreeSet};

const A: Command = 0x0101_0001_0007_0000;
const B: Command = 0x0202_0001_0007_0000;
const C: Command = 0x0103_0002_0009_0001;
const D: Command = 0x0303_0001_0009_0005;

const FOUR: Roster = Roster { n: 4, f: 1 };

/// So many commands that commute, of one proposer, by rising serial.
fn raises(from: u64, n: u64) -> Vec<Command> {
    (from..from + n).map(|s| 0x0103_0000_0009_0001 | s << 32).collect()
}

/// All cases.
pub fn run() {
    samples();
    definitions(&[A, B, C, D, 0x0401_0001_0009_0000]);
    // One request with two sets of bytes, and one command that commutes.
    definitions(&[A, 0x0103_0001_0007_0002, 0x0503_0001_0007_0003, C, D]);
    unused_fields();
    learner::run();
    viewchange::run();
    acceptor::run();
    leader::run();
}

/// The document's sample histories.
fn samples() {
    assert_eq!(canonical(&[B, C, A]), [C, B, A]);
    assert_eq!(canonical(&[D, C, A]), [A, C, D]);
    assert_eq!(canonical(&[A, B, C]), [A, C, B]);
    assert_eq!(canonical(&[B, A]), [B, A]);
    assert!(extends(&[A, C], &[C]));
    assert!(!extends(&[A, B], &[B]));
    assert_eq!(merge(&[A, C], &[A, B]), Some(vec![A, C, B]));
    assert_eq!(merge(&[A], &[B]), None);
    assert_eq!(merge(&[A, B], &[B, A]), None);
}

/// Each kind takes exactly the fields that the table names: view, ballot,
/// proven ballot, mask, n and m, in this order.
fn unused_fields() {
    let table = [
        "110000", "110000", "011111", "010010", "110010", "110010", "010110", "100000", "100100",
        "100100",
    ];
    for (kind, uses) in (1..).zip(table) {
        for (at, used) in uses.bytes().enumerate() {
            let mut bytes = vec![0; 18];
            bytes[0] = kind;
            bytes[[5, 9, 13, 15, 16, 17][at]] = 1;
            if at >= 4 {
                bytes.extend(A.to_be_bytes());
            }
            let mut line: String = bytes.iter().map(|b| format!("{b:02x}")).collect();
            line.push('\n');
            let read = frames::read(line.as_bytes(), &[1, 2, 3, 4, 5, 6, 7, 8, 9, 10]);
            assert_eq!(read.is_some(), used == b'1', "kind {kind}, field {at}");
        }
    }
}

/// All histories over the given commands.
fn histories(alphabet: &[Command]) -> Vec<Vec<Command>> {
    let mut all = vec![vec![]];
    let mut at = 0;
    while at < all.len() {
        let h: Vec<Command> = all[at].clone();
        for &c in alphabet {
            if h.iter().all(|&b| !same_request(b, c)) {
                let mut longer = h.clone();
                longer.push(c);
                all.push(longer);
            }
        }
        at += 1;
    }
    all
}

/// All that swaps of neighbours that don't conflict make of h.
fn swaps(h: &[Command]) -> BTreeSet<Vec<Command>> {
    let mut found = BTreeSet::from([h.to_vec()]);
    let mut work = vec![h.to_vec()];
    while let Some(g) = work.pop() {
        for i in 1..g.len() {
            if !conflict(g[i - 1], g[i]) {
                let mut s = g.clone();
                s.swap(i - 1, i);
                if found.insert(s.clone()) {
                    work.push(s);
                }
            }
        }
    }
    found
}

/// Holds canonical order, extension and merge against their definitions.
fn definitions(alphabet: &[Command]) {
    let all = histories(alphabet);
    let classes: BTreeMap<&[Command], BTreeSet<Vec<Command>>> =
        all.iter().map(|h| (&h[..], swaps(h))).collect();
    // One canonical order a class, itself of that class.
    for h in &all {
        assert!(classes[&h[..]].contains(&canonical(h)));
        for g in &classes[&h[..]] {
            assert_eq!(canonical(g), canonical(h));
        }
    }
    // g followed by some x is equivalent to h: some member of h's class
    // starts with g.
    let by_definition = |h: &[Command], g: &[Command]| classes[h].iter().any(|k| k.starts_with(g));
    for h in &all {
        for g in &all {
            assert_eq!(extends(h, g), by_definition(h, g), "{h:x?} {g:x?}");
        }
    }
    // The merge: of all canonical common extensions the one that each extends.
    let ordered: Vec<_> = all.iter().filter(|h| is_canonical(h)).collect();
    for g in &ordered {
        for h in &ordered {
            let common: Vec<_> =
                ordered.iter().filter(|k| extends(k, g) && extends(k, h)).collect();
            let least: Vec<_> =
                common.iter().filter(|k| common.iter().all(|l| extends(l, k))).collect();
            match merge(g, h) {
                Some(k) => assert!(least.len() == 1 && ***least[0] == k, "{g:x?} {h:x?}"),
                None => assert!(common.is_empty(), "{g:x?} {h:x?}"),
            }
        }
    }
}
