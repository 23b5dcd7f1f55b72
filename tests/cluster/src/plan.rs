//! What a run is like: its sites, how bad the network is, what liars do.

use model::generate::Rng;
use model::layout::Roster;

/// The settings of one run. Shares are of a hundred.
pub struct Plan {
    pub roster: Roster,
    pub liars: Vec<u8>,
    pub learners: usize,
    /// Steps of the run: deliveries and acts.
    pub length: usize,
    /// Sent lines that are lost.
    pub loss: usize,
    /// Honest votes that are lost on their way to a learner, besides.
    pub deafness: usize,
    /// Sent lines that come twice.
    pub repetition: usize,
    /// Deliveries out of turn.
    pub disorder: usize,
    /// Steps in which a liar acts, among four sites; a line to all is dearer
    /// among more, so they act less often there.
    pub lies: usize,
    /// Liars' acts that help the honest sites on.
    pub help: usize,
    /// May P1A, FAST, P2A, SUSPICION, VIEWCHANGE and LEADER be sent in an
    /// honest site's name? Demand 3 has no premise on them.
    pub forgery: bool,
    /// Do hosts check the proofs behind masks of VIEWCHANGE, LEADER and P1B?
    /// Demand 3 has no premise on masks.
    pub masks_checked: bool,
    /// Commands that conflict on their slot.
    pub conflicts: usize,
    pub slots: usize,
    /// Ballots opened fast.
    pub fast: usize,
    /// Do proposers use a serial twice?
    pub lying_proposers: bool,
    /// Are some sites cut off from time to time?
    pub cuts: bool,
}

impl Plan {
    /// Any plan.
    pub fn draw(rng: &mut Rng) -> Plan {
        let n = rng.pick(&[4, 4, 7, 7, 10, 13, 16]);
        let f = (n - 1) / 3;
        let mut all: Vec<u8> = (0..n as u8).collect();
        rng.shuffle(&mut all);
        let count = if rng.percent(85) { f } else { rng.below(f + 1) };
        let liars = all[..count].to_vec();
        let gentle = rng.percent(30);
        Plan {
            roster: Roster { n: n as u8, f: f as u8 },
            liars,
            learners: rng.between(2, 5),
            length: 75 * n * n,
            loss: if gentle { 0 } else { rng.below(16) },
            deafness: if gentle { 0 } else { rng.pick(&[0, 30, 60, 80]) },
            repetition: rng.below(8),
            disorder: if gentle { 5 } else { rng.pick(&[5, 20, 50, 100]) },
            lies: if gentle { 3 } else { rng.between(2, 12) },
            help: rng.pick(&[0, 20, 50, 80]),
            forgery: rng.percent(15),
            masks_checked: rng.percent(80),
            conflicts: rng.pick(&[0, 10, 30, 60, 100]),
            slots: rng.pick(&[1, 2, 4, 12]),
            fast: rng.pick(&[0, 30, 50, 80]),
            lying_proposers: rng.percent(25),
            cuts: !gentle && rng.percent(60),
        }
    }

    /// Does a liar act in this step?
    pub fn lie(&self, rng: &mut Rng) -> bool {
        let n = usize::from(self.roster.n);
        rng.below(100 * n * n) < 16 * self.lies
    }

    /// Does the site run the library?
    pub fn honest(&self, site: u8) -> bool {
        site < self.roster.n && !self.liars.contains(&site)
    }

    /// The sites that run the library.
    pub fn honest_sites(&self) -> Vec<u8> {
        (0..self.roster.n).filter(|&i| self.honest(i)).collect()
    }
}
