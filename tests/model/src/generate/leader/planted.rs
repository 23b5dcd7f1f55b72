//! Planted states of a leader, each with a frame that it is to meet.

use super::super::damage::*;
use super::super::propose::{filling, reused};
use super::super::run::*;
use super::super::*;
use super::Scenario;
use crate::frames::{Fields, PROPOSE};
use crate::layout::Leader;

impl Scenario {
    /// The planted state of a number, and its frame; None leaves both open.
    pub(super) fn planted(&self, rng: &mut Rng, which: usize, s: &mut Leader) -> Option<Draft> {
        Some(match which {
            0..=9 => self.completing(rng, s),
            10..=13 => self.tied(rng, s),
            14..=16 => self.crowded(rng, s),
            17 => self.idle(rng, s),
            18 => self.longest(rng, s),
            19 | 20 => self.full_pending(rng, s),
            21..=23 => self.partly_known(rng, s),
            _ => return None,
        })
    }

    /// Opens a classic ballot in which one report is missing, or nearly; the
    /// site that is to report.
    fn nearly(&self, rng: &mut Rng, s: &mut Leader) -> u8 {
        let ones = match rng.below(12) {
            0 => self.run.quorum() - 2,
            1 => rng.between(self.run.quorum() - 1, self.run.sites() - 1),
            _ => self.run.quorum() - 1,
        };
        s.classic = rng.pick(&[1, 1, 1, 255]);
        s.reported = mask_of(rng, self.run.sites(), ones);
        site_beyond(rng, &self.run.roster, s.reported, 100)
    }

    /// Writes both histories of a site's report.
    fn put(&self, s: &mut Leader, site: u8, proven: &[Command], held: &[Command]) {
        set_entry(&mut s.proven, usize::from(site), proven);
        set_entry(&mut s.held, usize::from(site), held);
    }

    /// Report N-f beside any reports.
    fn completing(&self, rng: &mut Rng, s: &mut Leader) -> Draft {
        let sender = self.nearly(rng, s);
        self.reports(rng, s);
        let (proven, held) = (self.proven(rng), self.held(rng));
        self.report_of(rng, s, sender, proven, held)
    }

    /// Report N-f where the longest proven histories are several of one
    /// length.
    fn tied(&self, rng: &mut Rng, s: &mut Leader) -> Draft {
        let m = &self.material;
        let sender = self.nearly(rng, s);
        let n = rng.between(1, 6.min(m.pool.len()));
        let sets: Vec<Vec<Command>> =
            (0..3).map(|_| canonical(&draw(rng, &m.pool, &[], n))).collect();
        for site in 0..self.run.roster.n {
            let h = rng.pick(&sets);
            let proven = if rng.percent(40) { h } else { m.shortened(rng, &h) };
            let held = if rng.percent(60) { vec![] } else { self.held(rng) };
            self.put(s, site, &proven, &held);
        }
        let pending = if rng.percent(50) { rng.pick(&sets) } else { vec![] };
        set_history(&mut s.pending, &pending);
        let (proven, held) = (rng.pick(&sets), self.held(rng));
        self.report_of(rng, s, sender, proven, held)
    }

    /// Report N-f where held and pending make 32 or more.
    fn crowded(&self, rng: &mut Rng, s: &mut Leader) -> Draft {
        let run = |who: u8, from: usize, n: usize| -> Vec<Command> {
            (from..from + n).map(|i| command(who, RAISE, i as u16, 3, 1)).collect()
        };
        let sender = self.nearly(rng, s);
        let most = rng.pick(&[6, 16, 32]);
        for site in 0..self.run.roster.n {
            let proven = if rng.percent(50) { run(1, 1, rng.below(most + 1)) } else { vec![] };
            let held = run(2, rng.between(1, 40), rng.below(most + 1));
            self.put(s, site, &proven, &held);
        }
        let mut pending = run(rng.pick(&[2, 3]), rng.between(1, 40), rng.below(LIMIT + 1));
        rng.shuffle(&mut pending);
        set_history(&mut s.pending, &pending);
        let (proven, held) = (run(1, 1, rng.below(LIMIT + 1)), run(2, 20, rng.below(9)));
        self.report_of(rng, s, sender, proven, held)
    }

    /// Report N-f where nothing is proven, held or pending, or but one of
    /// these; rows that aren't marked hold something.
    fn idle(&self, rng: &mut Rng, s: &mut Leader) -> Draft {
        let sender = self.nearly(rng, s);
        let something = rng.below(4);
        for site in 0..self.run.roster.n {
            let marked = s.reported & bit(site) != 0;
            let (p, h) = (self.material.part(rng), self.material.part(rng));
            let (p, h) = if marked { (vec![], vec![]) } else { (p, h) };
            self.put(s, site, &p, &h);
        }
        let h = self.material.part(rng);
        let of = |which: usize| if which == something { h.clone() } else { vec![] };
        set_history(&mut s.pending, &of(0));
        self.report_of(rng, s, sender, of(1), of(2))
    }

    /// A report as long as can be, or nearly.
    fn longest(&self, rng: &mut Rng, s: &mut Leader) -> Draft {
        let serials = |from: u16, n: usize| -> Vec<Command> {
            (0..n as u16).map(|i| command(1, RAISE, from + i, i % 5, 1)).collect()
        };
        let sender = self.nearly(rng, s);
        let (proven, held) = (rng.between(30, 32), rng.between(30, 32));
        self.report_of(rng, s, sender, serials(1, proven), serials(7, held))
    }

    /// A long pending list, and a PROPOSE that just fits or just doesn't.
    fn full_pending(&self, rng: &mut Rng, s: &mut Leader) -> Draft {
        let (mut pending, h) = filling(rng);
        rng.shuffle(&mut pending);
        set_history(&mut s.pending, &pending);
        Draft::new(Fields { ballot: s.ballot, ..Fields::of(PROPOSE, 2) }, h)
    }

    /// Report N-f where pending has some commands of the reports, some of
    /// their requests with other bytes and some of its own.
    fn partly_known(&self, rng: &mut Rng, s: &mut Leader) -> Draft {
        let m = &self.material;
        let sender = self.nearly(rng, s);
        self.reports(rng, s);
        let held = self.held(rng);
        let mut pending: Vec<Command> = Vec::new();
        for &c in held.iter().chain(&m.focus).chain(&m.part(rng)) {
            let c = if rng.percent(25) { reused(rng, &[c])[0] } else { c };
            let known = pending.iter().any(|&b| same_request(b, c));
            if rng.percent(60) && !known && pending.len() < LIMIT {
                pending.push(c);
            }
        }
        rng.shuffle(&mut pending);
        set_history(&mut s.pending, &pending);
        let proven = self.proven(rng);
        self.report_of(rng, s, sender, proven, held)
    }
}
