//! The leaders of honest sites, run by the library, and what their hosts do:
//! they open ballots and send lines again.

use crate::cluster::Cluster;
use crate::library;
use crate::network::Line;
use model::generate::Rng;
use model::layout::{self, Ballot, LeaderOutcome, Roster};
use model::rules::*;
use std::rc::Rc;

/// The leader at a site, and the last line that it sent.
pub struct Leader {
    site: u8,
    state: layout::Leader,
    last: Option<Line>,
}

/// What came of a call, beside the state before it.
pub struct Called {
    pub before: layout::Leader,
    /// Was the buffer long enough?
    room: bool,
    pub answer: u8,
    pub sent: Option<Line>,
}

impl Leader {
    /// A fresh leader.
    pub fn new(site: u8) -> Leader {
        Leader { site, state: library::speckleewe_leader_fresh(), last: None }
    }

    /// A call, now and then with too short a buffer.
    fn call(
        &mut self,
        rng: &mut Rng,
        call: impl Fn(u8, &layout::Leader, &mut [u8]) -> LeaderOutcome,
    ) -> Called {
        let mut out = [0; ROOM];
        let room = if rng.percent(1) { rng.below(ROOM) } else { ROOM };
        let o = call(self.site, &self.state, &mut out[..room]);
        let before = std::mem::replace(&mut self.state, o.state);
        let sent = (o.sent > 0).then(|| Rc::new(out[..o.sent].to_vec()));
        if sent.is_some() {
            self.last = sent.clone();
        }
        Called { before, room: room == ROOM, answer: o.answer, sent }
    }

    /// Hands in a line.
    fn hand_in(&mut self, rng: &mut Rng, r: &Roster, line: &[u8]) -> Called {
        self.call(rng, |site, s, out| library::leader_step(r, site, s, line, out))
    }

    /// Opens a ballot.
    fn open(&mut self, rng: &mut Rng, r: &Roster, ballot: u32, fast: u8) -> Called {
        let ballot = Ballot(ballot);
        self.call(rng, |site, s, out| library::leader_open_ballot(r, site, s, ballot, fast, out))
    }
}

impl Cluster {
    /// A line at a leader, if that is an honest one.
    pub fn at_leader(&mut self, i: u8, line: &Line) -> Result<(), String> {
        if !self.plan.honest(i) {
            return Ok(());
        }
        let leader = &mut self.leaders[usize::from(i)];
        let called = leader.hand_in(&mut self.rng, &self.plan.roster, line);
        self.led(i, line, called)
    }

    /// Looks at a leader's call, with a line or none, and sends what it sent.
    fn led(&mut self, i: u8, line: &[u8], called: Called) -> Result<(), String> {
        self.stats.answer(3, called.answer);
        if (called.answer == CONFIG) == called.room {
            return Err(format!("leader {i}: CONFIG says the opposite of the buffer"));
        }
        let after = &self.leaders[usize::from(i)].state;
        let proposed = self.watch.leader(&self.plan.roster, i, line, &called, after)?;
        self.stats.proposals += u64::from(proposed);
        if let Some(line) = called.sent {
            self.publish(line);
        }
        Ok(())
    }

    /// The leader of the common view opens a ballot, if it has that view; now
    /// and then another tries to, or with the last number again. A liar leads
    /// as it likes.
    pub fn open(&mut self) -> Result<(), String> {
        let view = self.common_view();
        let first = (view % u32::from(self.plan.roster.n)) as u8;
        let other = self.rng.percent(4);
        let i = if other { self.rng.pick(&self.plan.honest_sites()) } else { first };
        if !self.plan.honest(i) {
            self.lead(i, view);
            return Ok(());
        }
        let leader = &mut self.leaders[usize::from(i)];
        if (leader.state.view != view && !other) || self.top == u32::MAX {
            return Ok(());
        }
        let fast = u8::from(self.rng.percent(self.plan.fast));
        let ballot = self.top + u32::from(!self.rng.percent(2));
        let called = leader.open(&mut self.rng, &self.plan.roster, ballot, fast);
        if called.answer == ACCEPTED {
            self.top = ballot;
            self.stats.ballots += 1;
            self.watch.opened(i);
        }
        self.led(i, &[], called)
    }

    /// The leader of the common view sends its last line again.
    pub fn lead_again(&mut self) {
        let view = self.common_view();
        let i = (view % u32::from(self.plan.roster.n)) as u8;
        if !self.plan.honest(i) {
            return self.lead(i, view);
        }
        if let Some(line) = self.leaders[usize::from(i)].last.clone() {
            self.to_sites(&line);
        }
    }
}
