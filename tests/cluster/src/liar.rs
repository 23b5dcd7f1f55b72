//! What liars do. They have heard everything and may look at every state.

use crate::cluster::Cluster;
use crate::network::{Line, Place};
use crate::site::Site;
use model::frames::{self, *};
use model::generate::lines::broken_line;
use model::generate::{draw, good_mask, mask_of, Rng};
use model::rules::*;
use std::rc::Rc;

/// A history that h extends, often no byte prefix of it: each command is kept
/// at random, if all it waits for is kept.
fn part(rng: &mut Rng, h: &[Command]) -> Vec<Command> {
    let share = rng.between(30, 95);
    let mut kept: Vec<Command> = Vec::new();
    let mut dropped: Vec<Command> = Vec::new();
    for &c in h {
        if dropped.iter().any(|&d| conflict(d, c)) || !rng.percent(share) {
            dropped.push(c);
        } else {
            kept.push(c);
        }
    }
    canonical(&kept)
}

/// A history near the given one: less, more, another order or another command.
fn twist(rng: &mut Rng, h: &[Command], made: &[Command]) -> Vec<Command> {
    let mut k = h.to_vec();
    match rng.below(6) {
        0 => k.truncate(rng.below(h.len() + 1)),
        1 => rng.shuffle(&mut k),
        2 => k = draw(rng, made, h, h.len() + 2),
        3 if k.len() >= 2 => {
            let i = rng.between(1, k.len() - 1);
            k.swap(i - 1, i);
        }
        4 if !k.is_empty() => {
            // One command's slot is another.
            let at = rng.below(k.len());
            k[at] ^= 0x0001_0000;
        }
        _ => {
            let n = rng.between(1, 5);
            k = draw(rng, made, &[], n);
        }
    }
    k.truncate(LIMIT);
    if k.is_empty() {
        k = draw(rng, made, &[], 1);
    }
    canonical(&k)
}

impl Cluster {
    /// A liar acts.
    pub fn lie(&mut self) {
        if self.plan.liars.is_empty() {
            return;
        }
        let liar = self.rng.pick(&self.plan.liars);
        if self.rng.percent(self.plan.help) {
            if self.rng.percent(60) {
                self.echo(liar);
            } else {
                self.vote_along(liar);
            }
            return;
        }
        match self.rng.below(10) {
            0 => self.replay(),
            1 | 2 => self.divide(),
            3 | 4 => self.vote_apart(),
            5 => self.damage(),
            6 => self.report_falsely(liar),
            7 => self.unsettle(liar),
            8 => self.forge(),
            _ => self.speak_as_leader(liar),
        }
    }

    /// One of the honest sites.
    fn some_site(&mut self) -> Option<&Site> {
        let honest = self.plan.honest_sites();
        let at = usize::from(self.rng.pick(&honest));
        self.sites[at].as_ref()
    }

    /// Any place at all.
    fn some_place(&mut self) -> Place {
        let site = self.rng.below(usize::from(self.plan.roster.n)) as u8;
        match self.rng.below(10) {
            0..=5 => Place::Site(site),
            6 | 7 => Place::Leader(site),
            _ => Place::Learner(self.rng.below(self.learners.len())),
        }
    }

    /// The line of a VERIFY in a liar's name.
    fn verify(liar: u8, view: u32, ballot: u32, h: &[Command]) -> Line {
        Rc::new(frames::write(Fields { view, ballot, ..Fields::of(VERIFY, liar) }, h, &[]))
    }

    /// The line of a vote in a liar's name, with any mask of N-f ones.
    fn vote(&mut self, liar: u8, ballot: u32, h: &[Command]) -> Line {
        let mask = good_mask(&mut self.rng, &self.plan.roster, quorum(&self.plan.roster) as usize);
        Rc::new(frames::write(Fields { ballot, mask, ..Fields::of(P2B, liar) }, h, &[]))
    }

    /// Signs what an honest site holds, to all or to some.
    fn echo(&mut self, liar: u8) {
        let Some(site) = self.some_site() else { return };
        let (view, ballot) = (site.views.view, site.acceptor.ballot);
        let h = commands(&site.acceptor.held).to_vec();
        if h.is_empty() {
            return;
        }
        let line = Self::verify(liar, view, ballot, &h);
        let share = self.rng.pick(&[30, 60, 100]);
        for i in 0..self.plan.roster.n {
            if self.rng.percent(share) {
                self.send(Place::Site(i), &line);
            }
        }
    }

    /// Votes as an honest site has proven.
    fn vote_along(&mut self, liar: u8) {
        let Some(site) = self.some_site() else { return };
        let (ballot, h) = (site.acceptor.proven_ballot, commands(&site.acceptor.proven).to_vec());
        if h.is_empty() {
            return;
        }
        let line = self.vote(liar, ballot.max(1), &h);
        for k in 0..self.learners.len() {
            self.send(Place::Learner(k), &line);
        }
    }

    /// An old line, anywhere.
    fn replay(&mut self) {
        if self.heard.is_empty() {
            return;
        }
        let line = self.rng.pick(&self.heard);
        let place = self.some_place();
        self.send(place, &line);
    }

    /// All liars sign one history to some sites and another to the others.
    fn divide(&mut self) {
        let Some(site) = self.some_site() else { return };
        let (view, ballot) = (site.views.view, site.acceptor.ballot);
        let h = commands(&site.acceptor.held).to_vec();
        let other = match self.some_site() {
            Some(second) if commands(&second.acceptor.held) != h => {
                commands(&second.acceptor.held).to_vec()
            }
            _ => twist(&mut self.rng, &h, &self.made),
        };
        let second = self.rng.next() as u16;
        for liar in self.plan.liars.clone() {
            for i in 0..self.plan.roster.n {
                let h = if second & bit(i) != 0 { &other } else { &h };
                self.send(Place::Site(i), &Self::verify(liar, view, ballot, h));
            }
        }
    }

    /// Liars vote for one history at some learners and for another at the
    /// others: as a rule for what the learner can store and count.
    fn vote_apart(&mut self) {
        for k in 0..self.learners.len() {
            let Some(site) = self.some_site() else { return };
            let proven = commands(&site.acceptor.proven).to_vec();
            let held = commands(&site.acceptor.held).to_vec();
            let ballot = site.acceptor.ballot.max(1);
            let h = match self.rng.below(12) {
                0 => held,
                1 => twist(&mut self.rng, &proven, &self.made),
                2..=4 => proven,
                _ => part(&mut self.rng, &proven),
            };
            let share = self.rng.pick(&[30, 100, 100]);
            for liar in self.plan.liars.clone() {
                let before = entry(&self.learners[k].entries, usize::from(liar));
                let h = merge(before, &h).filter(|h| h.len() <= LIMIT).unwrap_or(h.clone());
                if !h.is_empty() && self.rng.percent(share) {
                    let line = self.vote(liar, ballot, &h);
                    self.send(Place::Learner(k), &line);
                }
            }
        }
    }

    /// A damaged line, anywhere.
    fn damage(&mut self) {
        if self.heard.is_empty() {
            return;
        }
        let line = self.rng.pick(&self.heard);
        let Some(frame) = frames::read(&line, &crate::host::KINDS) else { return };
        let all = [&frame.first[..], &frame.second].concat();
        let broken = broken_line(&mut self.rng, &frame.fields, &all, &self.made);
        let place = self.some_place();
        self.send(place, &Rc::new(broken));
    }

    /// A report of a proven history that isn't, of nothing, or with any mask.
    fn report_falsely(&mut self, liar: u8) {
        let Some(site) = self.some_site() else { return };
        let (view, ballot) = (site.views.view, site.acceptor.ballot);
        let (proven_ballot, mask) = (site.acceptor.proven_ballot, site.acceptor.certificate);
        let proven = commands(&site.acceptor.proven).to_vec();
        let held = commands(&site.acceptor.held).to_vec();
        let n = usize::from(self.plan.roster.n);
        let (proven_ballot, mask, proven) = match self.rng.below(7) {
            0 | 1 => (0, 0, vec![]),
            2 | 3 => (proven_ballot, mask, proven),
            4 => (proven_ballot, self.rng.next() as u16, proven),
            _ => (
                ballot,
                mask_of(&mut self.rng, n, n - 1),
                twist(&mut self.rng, &proven, &self.made),
            ),
        };
        let fields = Fields { ballot, proven_ballot, mask, ..Fields::of(P1B, liar) };
        let line = Rc::new(frames::write(fields, &proven, &held));
        self.send(Place::Leader((view % u32::from(self.plan.roster.n)) as u8), &line);
    }

    /// Suspicions, changes of view and news of one to its leader.
    fn unsettle(&mut self, liar: u8) {
        let Some(site) = self.some_site() else { return };
        let views = site.views;
        if self.rng.percent(15) {
            let view = views.view.saturating_add(self.rng.below(3) as u32);
            let r = self.plan.roster;
            let mask = good_mask(&mut self.rng, &r, quorum(&r) as usize);
            let fields = Fields { view, mask, ..Fields::of(LEADER, liar) };
            let line = Rc::new(frames::write(fields, &[], &[]));
            return self.send(Place::Leader((view % u32::from(r.n)) as u8), &line);
        }
        let fields = if self.rng.percent(40) {
            Fields { view: views.view, ..Fields::of(SUSPICION, liar) }
        } else {
            let mask = if self.rng.percent(50) {
                views.suspicions
            } else {
                good_mask(&mut self.rng, &self.plan.roster, usize::from(self.plan.roster.f) + 1)
            };
            let ahead = self.rng.pick(&[1, 1, 1, 2, 5]);
            let view = views.view.saturating_add(ahead);
            Fields { view, mask, ..Fields::of(VIEWCHANGE, liar) }
        };
        let line = Rc::new(frames::write(fields, &[], &[]));
        self.to_sites(&line);
    }

    /// A frame in an honest site's name. Hosts keep out what acceptors send,
    /// and the rest unless the plan allows it.
    fn forge(&mut self) {
        let Some(site) = self.some_site() else { return };
        let (number, view, ballot) = (site.number, site.views.view, site.acceptor.ballot);
        let held = commands(&site.acceptor.held).to_vec();
        let h = twist(&mut self.rng, &held, &self.made);
        let kind = self.rng.pick(&[P1A, FAST, P1B, P2A, VERIFY, P2B, SUSPICION]);
        let sender = match kind {
            P1A | FAST | P2A => (view % u32::from(self.plan.roster.n)) as u8,
            _ => number,
        };
        let ballot = if matches!(kind, P1A | FAST) { ballot.saturating_add(1) } else { ballot };
        let line = match kind {
            P2B => self.vote(sender, ballot.max(1), &h),
            P1A | FAST => Rc::new(frames::write(
                Fields { view, ballot, ..Fields::of(kind, sender) },
                &[],
                &[],
            )),
            SUSPICION => {
                Rc::new(frames::write(Fields { view, ..Fields::of(kind, sender) }, &[], &[]))
            }
            P1B => Rc::new(frames::write(Fields { ballot, ..Fields::of(kind, sender) }, &[], &h)),
            _ => {
                Rc::new(frames::write(Fields { view, ballot, ..Fields::of(kind, sender) }, &h, &[]))
            }
        };
        match kind {
            P2B => (0..self.learners.len()).for_each(|k| self.send(Place::Learner(k), &line)),
            P1B => self.send(Place::Leader((view % u32::from(self.plan.roster.n)) as u8), &line),
            _ => self.to_sites(&line),
        }
    }

    /// Speaks as leader, of the common view if it leads it, else of another.
    fn speak_as_leader(&mut self, liar: u8) {
        let n = u32::from(self.plan.roster.n);
        let view = self.common_view();
        let ahead = (u32::from(liar) + n - view % n) % n;
        self.lead(liar, view.saturating_add(ahead));
    }

    /// A lying leader: opens ballots of one kind or of both, proposes the same
    /// to all or not.
    pub fn lead(&mut self, liar: u8, view: u32) {
        if self.rng.percent(45) {
            self.lead_open(liar, view);
        } else {
            self.lead_propose(liar, view);
        }
    }

    /// Opens a ballot: the next, or a stale one, or both kinds at once.
    fn lead_open(&mut self, liar: u8, view: u32) {
        let current = view == self.common_view();
        let ballot = match self.rng.below(10) {
            0 => self.rng.below(self.top as usize + 1) as u32,
            1 => self.top.saturating_add(7),
            _ => self.top.saturating_add(1),
        };
        if current {
            self.top = self.top.max(ballot);
            self.stats.ballots += 1;
        }
        let line = |kind: u8| {
            Rc::new(frames::write(Fields { view, ballot, ..Fields::of(kind, liar) }, &[], &[]))
        };
        let kinds = self.rng.pick(&[[P1A, P1A], [P1A, P1A], [FAST, FAST], [P1A, FAST]]);
        for i in 0..self.plan.roster.n {
            let kind = self.rng.pick(&kinds);
            self.send(Place::Site(i), &line(kind));
        }
    }

    /// Proposes in the ballot of some honest site: what extends the longest
    /// proven history, and to some sites something else.
    fn lead_propose(&mut self, liar: u8, view: u32) {
        let Some(site) = self.some_site() else { return };
        let ballot = site.acceptor.ballot;
        let histories: Vec<Vec<Command>> =
            self.sites.iter().flatten().map(|s| commands(&s.acceptor.proven).to_vec()).collect();
        let longest = histories.iter().max_by_key(|h| h.len()).cloned().unwrap_or_default();
        let base = if self.rng.percent(70) { longest } else { self.rng.pick(&histories) };
        let more = (base.len() + self.rng.between(0, 3)).clamp(1, LIMIT);
        let h = canonical(&draw(&mut self.rng, &self.made, &base, more));
        let other =
            if self.rng.percent(50) { h.clone() } else { twist(&mut self.rng, &h, &self.made) };
        let line = |h: &[Command]| {
            Rc::new(frames::write(Fields { view, ballot, ..Fields::of(P2A, liar) }, h, &[]))
        };
        let lines = [line(&h), line(&other)];
        let first = self.rng.pick(&[50, 75, 100]);
        for i in 0..self.plan.roster.n {
            let at = usize::from(!self.rng.percent(first));
            self.send(Place::Site(i), &lines[at]);
        }
    }
}
