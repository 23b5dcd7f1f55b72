//! Counts of answers and of the document's sentences that calls came to, to
//! see that the generators reach them.

use crate::frames::{self, Fields};
use crate::rules::*;
use std::collections::HashMap;

/// How often each answer and each labelled case came.
pub struct Tally {
    answers: [u64; 14],
    labels: Vec<String>,
    counts: HashMap<String, u64>,
}

/// The cases of FORM.
pub const FORMS: [&str; 5] = [
    "FORM: not a line of digits with a header",
    "FORM: no kind, or one of another role",
    "FORM: an unused field is not 0",
    "FORM: n or m over 32",
    "FORM: length wrong",
];

/// The faults of a lent list.
pub const FAULTS: [&str; 4] =
    ["count over 32", "wrong command", "request repeated", "not canonical"];

impl Tally {
    /// Nothing counted; the labels are printed in this order.
    pub fn new(labels: Vec<String>) -> Tally {
        let counts = labels.iter().map(|l| (l.clone(), 0)).collect();
        Tally { answers: [0; 14], labels, counts }
    }

    /// Counts an answer.
    pub fn answer(&mut self, answer: u8) {
        self.answers[usize::from(answer)] += 1;
    }

    /// Counts a labelled case.
    pub fn count(&mut self, label: &str) {
        *self.counts.get_mut(label).expect(label) += 1;
    }

    /// Counts a labelled case where it holds.
    pub fn count_if(&mut self, holds: bool, label: &str) {
        if holds {
            self.count(label);
        }
    }

    /// Prints all counts.
    pub fn print(&self) {
        for (answer, times) in self.answers.iter().enumerate() {
            println!("answer {answer:2}: {times}");
        }
        for label in &self.labels {
            println!("{:9} {label}", self.counts[label]);
        }
    }
}

impl Tally {
    /// Whether each of these answers and each label came; says which did not.
    pub fn all_reached(&self, answers: &[u8]) -> bool {
        let unheard = answers.iter().filter(|&&a| self.answers[usize::from(a)] == 0);
        let missed: Vec<String> = unheard
            .map(|a| format!("answer {a}"))
            .chain(self.labels.iter().filter(|&l| self.counts[l] == 0).cloned())
            .collect();
        for case in &missed {
            println!("never came: {case}");
        }
        missed.is_empty()
    }
}

/// The labels of a list's faults.
pub fn list_labels(name: &str) -> Vec<String> {
    (0..FAULTS.len()).map(|fault| fault_label(name, fault)).collect()
}

/// Labels as they are kept.
pub fn owned(labels: &[&str]) -> Vec<String> {
    labels.iter().map(|l| l.to_string()).collect()
}

/// The label of a fault of a list.
pub fn fault_label(name: &str, fault: usize) -> String {
    format!("CONFIG by {name} alone: {}", FAULTS[fault])
}

/// The first fault of a lent list, if it has one.
pub fn first_fault(count: u8, words: &[u64]) -> Option<usize> {
    if usize::from(count) > LIMIT {
        return Some(0);
    }
    let h = &words[..usize::from(count)];
    if !h.iter().all(|&c| command_valid(c)) {
        return Some(1);
    }
    if repeats(h) {
        return Some(2);
    }
    (!is_canonical(h)).then_some(3)
}

/// The label of the first fault of a lent list, if it has one.
pub fn list_fault(name: &str, count: u8, words: &[u64]) -> Option<String> {
    first_fault(count, words).map(|fault| fault_label(name, fault))
}

/// The case of FORM of a line that a role refused so.
pub fn form_case(line: &[u8], kinds: &[u8]) -> &'static str {
    let Some(f) = frames::header(line) else {
        return FORMS[0];
    };
    if !kinds.contains(&f.kind) {
        FORMS[1]
    } else if !Fields::unused_are_zero(&f) {
        FORMS[2]
    } else if usize::from(f.n.max(f.m)) > LIMIT {
        FORMS[3]
    } else {
        FORMS[4]
    }
}
