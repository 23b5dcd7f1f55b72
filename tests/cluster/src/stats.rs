//! What the runs came to.

use std::collections::BTreeMap;

/// Sums over runs.
#[derive(Default)]
pub struct Stats {
    pub runs: u64,
    /// Runs in which some learner learned, and in which all did.
    pub learning: u64,
    pub all_learning: u64,
    /// Runs in which two learned histories came of which neither extends the
    /// other, and in which two sites' votes came that no history extends both.
    pub apart: u64,
    pub divided: u64,
    /// Runs in which some site changed its view.
    pub changed: u64,
    /// The longest history learned.
    pub longest: u64,
    /// Ballots opened, and taken by sites; views changed at sites.
    pub ballots: u64,
    pub taken: u64,
    pub changes: u64,
    /// Lines that hosts didn't hand in.
    pub kept_out: u64,
    /// P2A that honest leaders sent.
    pub proposals: u64,
    /// Answers of acceptors, view changes, learners and leaders.
    answers: [[u64; 14]; 4],
    /// Runs by the length of the longest history learned.
    lengths: BTreeMap<u64, u64>,
}

impl Stats {
    /// Counts an answer of acceptor (0), view change (1), learner (2) or
    /// leader (3).
    pub fn answer(&mut self, role: usize, answer: u8) {
        self.answers[role][usize::from(answer)] += 1;
    }

    /// Adds a run.
    pub fn add(&mut self, run: &Stats) {
        self.runs += run.runs;
        self.learning += run.learning;
        self.all_learning += run.all_learning;
        self.apart += run.apart;
        self.divided += run.divided;
        self.changed += run.changed;
        self.longest = self.longest.max(run.longest);
        self.ballots += run.ballots;
        self.taken += run.taken;
        self.changes += run.changes;
        self.kept_out += run.kept_out;
        self.proposals += run.proposals;
        for (sum, more) in self.answers.iter_mut().flatten().zip(run.answers.iter().flatten()) {
            *sum += more;
        }
        *self.lengths.entry(run.longest).or_default() += 1;
    }

    /// All lines handed in.
    fn frames(&self) -> u64 {
        self.answers.iter().flatten().sum()
    }

    /// Prints the sums.
    pub fn print(&self) {
        let roles = ["acceptors", "view changes", "learners", "leaders"];
        for (role, answers) in roles.iter().zip(self.answers) {
            let all: Vec<String> =
                answers.iter().enumerate().map(|(a, times)| format!("{a}: {times}")).collect();
            println!("answers of {role}: {}", all.join(", "));
        }
        let lengths: Vec<String> =
            self.lengths.iter().map(|(length, runs)| format!("{length}: {runs}")).collect();
        println!("runs by commands learned: {}", lengths.join(", "));
        println!(
            "{} ballots opened, taken {} times, {} proposals of honest leaders; views changed \
             {} times, in {} runs; {} lines kept out by hosts",
            self.ballots, self.taken, self.proposals, self.changes, self.changed, self.kept_out
        );
        println!(
            "{} runs in which learners were ahead of each other, {} in which votes went apart",
            self.apart, self.divided
        );
        println!(
            "{} runs, {} frames, {} runs in which some learner learned, {} in which all did, \
             longest learned {}",
            self.runs,
            self.frames(),
            self.learning,
            self.all_learning,
            self.longest
        );
    }
}
