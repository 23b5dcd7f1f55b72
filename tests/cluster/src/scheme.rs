//! A scheme of a lying leader: it lets few honest sites prove one history,
//! cuts them off and lets the others prove another in the next ballot. Votes
//! of honest sites then go apart, and liars vote for both.

use crate::cluster::Cluster;
use crate::network::{Line, Place};
use model::frames::{self, Fields, P1A, P2A, P2B, VERIFY};
use model::generate::{draw, good_mask};
use model::rules::*;
use std::rc::Rc;

/// How far the scheme is.
#[derive(Clone, Copy, PartialEq, Eq)]
enum Phase {
    Open,
    ProveFirst,
    OpenAgain,
    ProveSecond,
    Vote,
}

/// A scheme in a view, which the sender of its frames leads.
pub struct Scheme {
    phase: Phase,
    sender: u8,
    view: u32,
    ballot: u32,
    /// The sites that are to prove the first history.
    few: u16,
    first: Vec<Command>,
    second: Vec<Command>,
}

impl Cluster {
    /// Starts a scheme, if a liar leads the common view or may forge.
    pub fn begin_scheme(&mut self) {
        let view = self.common_view();
        let sender = (view % u32::from(self.plan.roster.n)) as u8;
        let able = !self.plan.honest(sender) || self.plan.forgery;
        if self.scheme.is_some() || !able || self.plan.liars.is_empty() || self.top > u32::MAX - 2 {
            return;
        }
        let mut honest = self.plan.honest_sites();
        self.rng.shuffle(&mut honest);
        let count = self.rng.between(1, usize::from(self.plan.roster.f));
        self.scheme = Some(Scheme {
            phase: Phase::Open,
            sender,
            view,
            ballot: self.top + 1,
            few: honest[..count].iter().fold(0, |mask, &i| mask | bit(i)),
            first: Vec::new(),
            second: Vec::new(),
        });
    }

    /// Takes the next phase of a scheme; false if there is none.
    pub fn follow_scheme(&mut self) -> bool {
        let Some(mut s) = self.scheme.take() else { return false };
        match s.phase {
            Phase::Open => {
                self.scheme_opens(&s);
                s.phase = Phase::ProveFirst;
            }
            Phase::ProveFirst => {
                self.network.favoured = s.few;
                s.first = self.scheme_history(&[]);
                self.scheme_proposes(&s, &s.first);
                s.phase = Phase::OpenAgain;
            }
            Phase::OpenAgain => {
                self.network.favoured = 0;
                self.network.cut = s.few;
                s.ballot += 1;
                self.scheme_opens(&s);
                s.phase = Phase::ProveSecond;
            }
            Phase::ProveSecond => {
                s.second = self.scheme_history(&s.first);
                self.scheme_proposes(&s, &s.second);
                s.phase = Phase::Vote;
            }
            Phase::Vote => {
                self.scheme_votes(&s);
                self.network.cut = 0;
                return true;
            }
        }
        self.scheme = Some(s);
        true
    }

    /// Opens the ballot at all sites.
    fn scheme_opens(&mut self, s: &Scheme) {
        self.top = self.top.max(s.ballot);
        self.stats.ballots += 1;
        let fields = Fields { view: s.view, ballot: s.ballot, ..Fields::of(P1A, s.sender) };
        let line: Line = Rc::new(frames::write(fields, &[], &[]));
        self.to_sites(&line);
    }

    /// What most sites have proven and some more, and where it can be not in
    /// agreement with the history to avoid.
    fn scheme_history(&mut self, avoid: &[Command]) -> Vec<Command> {
        let proven: Vec<Vec<Command>> =
            self.sites.iter().flatten().map(|s| commands(&s.acceptor.proven).to_vec()).collect();
        let count = |h: &[Command]| proven.iter().filter(|g| *g == h).count();
        let base = proven.iter().max_by_key(|h| count(h)).cloned().unwrap_or_default();
        let mut h = Vec::new();
        for _ in 0..20 {
            let length = (base.len() + self.rng.between(1, 4)).min(LIMIT);
            h = canonical(&draw(&mut self.rng, &self.made, &base, length));
            if merge(&h, avoid).is_none() {
                break;
            }
        }
        h
    }

    /// Proposes the history to all sites, and all liars sign it.
    fn scheme_proposes(&mut self, s: &Scheme, h: &[Command]) {
        let of = |kind: u8, sender: u8| {
            Rc::new(frames::write(
                Fields { view: s.view, ballot: s.ballot, ..Fields::of(kind, sender) },
                h,
                &[],
            ))
        };
        self.to_sites(&of(P2A, s.sender));
        for liar in self.plan.liars.clone() {
            self.to_sites(&of(VERIFY, liar));
        }
    }

    /// All liars vote for the first history at some learners and for the
    /// second at the others.
    fn scheme_votes(&mut self, s: &Scheme) {
        for k in 0..self.learners.len() {
            let h = if self.rng.percent(50) { &s.first } else { &s.second };
            for liar in self.plan.liars.clone() {
                let r = &self.plan.roster;
                let mask = good_mask(&mut self.rng, r, quorum(r) as usize);
                let fields = Fields { ballot: s.ballot, mask, ..Fields::of(P2B, liar) };
                let line: Line = Rc::new(frames::write(fields, h, &[]));
                self.send(Place::Learner(k), &line);
            }
        }
    }
}
