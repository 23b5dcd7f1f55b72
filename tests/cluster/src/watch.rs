//! The conclusions of demand 3, looked at after each step; beside them, that
//! each site's votes form a chain, and what an honest leader proposes.

use crate::leader::Called;
use model::frames::{self, Frame, P1B, P2A, P2B};
use model::layout::{Leader, Learner, LearnerOutcome, Roster};
use model::learner::learned;
use model::rules::*;
use std::collections::{BTreeMap, HashMap};

/// What has been seen of one learner.
#[derive(Default, Clone)]
struct Seen {
    learned: Vec<Command>,
    /// For each history the sites whose accepted votes carried it.
    carried: HashMap<Vec<Command>, u16>,
}

/// What has been seen of all.
pub struct Watch {
    learners: Vec<Seen>,
    /// A common extension of everything ever learned by any learner.
    everything: Vec<Command>,
    /// The history of each site's last vote.
    votes: Vec<Vec<Command>>,
    /// For each leader, the reports that it accepted in its ballot, by site.
    reports: Vec<BTreeMap<u8, Frame>>,
    /// Were there ever two learners of which neither's history extends the
    /// other's?
    pub apart: bool,
    /// Were there ever two sites whose last votes have no common extension?
    pub divided: bool,
}

/// Commands in hex.
pub fn text(h: &[Command]) -> String {
    let all: Vec<String> = h.iter().map(|c| format!("{c:016x}")).collect();
    format!("[{}]", all.join(" "))
}

impl Watch {
    /// Nothing seen of so many learners.
    pub fn new(learners: usize) -> Watch {
        Watch {
            learners: vec![Seen::default(); learners],
            everything: Vec::new(),
            votes: vec![Vec::new(); SITES],
            reports: vec![BTreeMap::new(); SITES],
            apart: false,
            divided: false,
        }
    }

    /// Looks at a learner's step; the text says what doesn't hold.
    pub fn learner(
        &mut self,
        r: &Roster,
        at: usize,
        line: &[u8],
        o: &LearnerOutcome,
    ) -> Result<(), String> {
        if o.answer == SPLIT || o.answer == CONFIG {
            return Err(format!("learner {at} answered {}", o.answer));
        }
        self.growth(at, &o.state)?;
        if o.answer == ACCEPTED {
            self.containment(r, at, line)?;
        }
        Ok(())
    }

    /// What is learned only grows, and has a common extension with all that
    /// any learner ever learned.
    fn growth(&mut self, at: usize, state: &Learner) -> Result<(), String> {
        let (before, now) = (&self.learners[at].learned, learned(state));
        if before == now {
            return Ok(());
        }
        if !extends(now, before) {
            let (before, now) = (text(before), text(now));
            return Err(format!("learner {at}: {now} doesn't extend {before}"));
        }
        let Some(merged) = merge(&self.everything, now) else {
            let all = text(&self.everything);
            return Err(format!("learner {at}: {} with {all} has no extension", text(now)));
        };
        self.everything = merged;
        let others = || self.learners.iter().map(|s| &s.learned);
        self.apart |= others().any(|g| !extends(g, now) && !extends(now, g));
        self.learners[at].learned = now.to_vec();
        Ok(())
    }

    /// What N-f accepted votes carry is contained in what is learned.
    fn containment(&mut self, r: &Roster, at: usize, line: &[u8]) -> Result<(), String> {
        let Some(vote) = frames::read(line, &[P2B]) else {
            return Err(format!("learner {at} accepted what is no vote"));
        };
        let seen = &mut self.learners[at];
        let sites = seen.carried.entry(vote.first.clone()).or_default();
        *sites |= bit(vote.fields.sender % 16);
        if sites.count_ones() >= quorum(r) && !extends(&seen.learned, &vote.first) {
            let (h, learned) = (text(&vote.first), text(&seen.learned));
            return Err(format!("learner {at}: N-f votes carry {h}, learned {learned}"));
        }
        Ok(())
    }

    /// Looks at a line that an honest site sent: its votes form a chain.
    pub fn sent(&mut self, line: &[u8]) -> Result<(), String> {
        let Some(vote) = frames::read(line, &[P2B]) else { return Ok(()) };
        let site = usize::from(vote.fields.sender % 16);
        if !extends(&vote.first, &self.votes[site]) {
            let (before, now) = (text(&self.votes[site]), text(&vote.first));
            return Err(format!("site {site}: voted {before}, then {now}"));
        }
        self.divided |= self.votes.iter().any(|h| merge(h, &vote.first).is_none());
        self.votes[site] = vote.first;
        Ok(())
    }

    /// A leader opened a ballot: reports count anew.
    pub fn opened(&mut self, leader: u8) {
        self.reports[usize::from(leader)].clear();
    }

    /// Looks at an honest leader's call and says whether it proposed. What was
    /// pending still is, or is proposed; report N-f alone makes it propose.
    pub fn leader(
        &mut self,
        r: &Roster,
        at: u8,
        line: &[u8],
        called: &Called,
        after: &Leader,
    ) -> Result<bool, String> {
        let sent = called.sent.as_ref().map_or(&[][..], |line| line);
        let proposal = frames::read(sent, &[P2A]).map(|p| p.first);
        let (before, pending) = (commands(&called.before.pending), commands(&after.pending));
        let proposed = |c: &Command| proposal.as_ref().is_some_and(|h| h.contains(c));
        if !before.iter().all(|c| pending.contains(c) || proposed(c)) {
            return Err(format!("leader {at} lost what was pending"));
        }
        let due = called.answer == ACCEPTED && self.completes(r, at, line);
        match &proposal {
            Some(h) if due => self.proposal(at, h)?,
            Some(_) => return Err(format!("leader {at} proposed without report N-f")),
            None if due && (!before.is_empty() || self.something(at)) => {
                return Err(format!("leader {at} kept silent on report N-f"));
            }
            None => {}
        }
        Ok(proposal.is_some())
    }

    /// Notes a line that a leader accepted; is it report N-f?
    fn completes(&mut self, r: &Roster, at: u8, line: &[u8]) -> bool {
        let Some(report) = frames::read(line, &[P1B]) else { return false };
        let reports = &mut self.reports[usize::from(at)];
        reports.insert(report.fields.sender, report);
        reports.len() == quorum(r) as usize
    }

    /// Does any report have a command?
    fn something(&self, at: u8) -> bool {
        let mut reports = self.reports[usize::from(at)].values();
        reports.any(|f| !f.first.is_empty() || !f.second.is_empty())
    }

    /// What a leader proposes is a history in canonical order that extends the
    /// longest proven one of its reports, of equals the lowest site's.
    fn proposal(&self, at: u8, h: &[Command]) -> Result<(), String> {
        if repeats(h) || !is_canonical(h) {
            return Err(format!("leader {at}: {} is no canonical history", text(h)));
        }
        let mut chosen: &[Command] = &[];
        for report in self.reports[usize::from(at)].values() {
            if report.first.len() > chosen.len() {
                chosen = &report.first;
            }
        }
        if !extends(h, chosen) {
            let (h, chosen) = (text(h), text(chosen));
            return Err(format!("leader {at}: {h} doesn't extend {chosen}"));
        }
        Ok(())
    }

    /// The longest history that any learner has learned.
    pub fn longest(&self) -> usize {
        self.learners.iter().map(|s| s.learned.len()).max().unwrap_or(0)
    }

    /// How many learners have learned something.
    pub fn learning(&self) -> usize {
        self.learners.iter().filter(|s| !s.learned.is_empty()).count()
    }
}
