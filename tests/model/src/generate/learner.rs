//! Random calls of the learner.

use super::damage::*;
use super::lines::broken_line;
use super::{bad_mask, draw, good_mask, good_roster, Material, Rng};
use crate::frames::{encode, Fields, P2B};
use crate::layout::{Learner, Roster};
use crate::learner::learned;
use crate::rules::*;

/// One call of the step. Only the state after a call to keep is carried over.
pub struct Call {
    pub roster: Roster,
    pub state: Learner,
    pub line: Vec<u8>,
    pub keep: bool,
}

/// A run of calls.
pub struct Scenario {
    pub roster: Roster,
    pub length: usize,
    material: Material,
}

impl Scenario {
    /// A roster, a length and something to vote for.
    pub fn new(rng: &mut Rng) -> Scenario {
        let roster = good_roster(rng);
        let material = Material::new(rng);
        Scenario { roster, length: rng.between(20, 80), material }
    }

    /// The state the run starts from: fresh, or one that no run need have
    /// led to but that a learner may be lent.
    pub fn start(&self, rng: &mut Rng) -> Learner {
        let m = &self.material;
        let mut s = Learner::fresh();
        if rng.percent(if m.long { 75 } else { 40 }) {
            if rng.percent(85) {
                let h = if rng.percent(75) { m.part(rng) } else { rng.pick(&m.histories) };
                set_history(&mut s.learned, &h);
            }
            let agreeing = rng.between(30, 100);
            for site in 0..usize::from(self.roster.n) {
                let h = if rng.percent(agreeing) {
                    m.grown(rng, &m.focus)
                } else if rng.percent(50) {
                    m.part(rng)
                } else {
                    continue;
                };
                set_entry(&mut s.entries, site, &h);
            }
        }
        if rng.percent(30) {
            self.litter(rng, &mut s);
        }
        s
    }

    /// Words past the counts, which mean nothing: anything may stand there.
    fn litter(&self, rng: &mut Rng, s: &mut Learner) {
        let litter = Litter::new(rng);
        litter.table(rng, &mut s.entries, &self.material.pool);
        litter.history(rng, &mut s.learned, &self.material.pool);
    }

    /// A history for a vote, correct in itself.
    fn history(&mut self, rng: &mut Rng, state: &Learner, sender: u8) -> Vec<Command> {
        let m = &mut self.material;
        let held = entry(&state.entries, usize::from(sender) % SITES);
        let h = match rng.below(100) {
            // Often joined with what the site holds, so that it can be stored.
            0..=44 => match merge(held, &m.focus) {
                Some(h) if h.len() <= LIMIT && h != held && rng.percent(60) => h,
                _ => m.focus.clone(),
            },
            45..=64 => rng.pick(&m.histories),
            65..=74 => m.part(rng),
            75..=82 => m.grown(rng, held),
            // Less than the entry, so that the entry stays.
            83..=87 => m.shortened(rng, held),
            88..=91 => m.grown(rng, learned(state)),
            92..=95 => m.grown(rng, &m.focus),
            96..=97 => match merge(&m.focus, &rng.pick(&m.histories)) {
                Some(h) if h.len() <= LIMIT => h,
                _ => m.focus.clone(),
            },
            _ => {
                let n = rng.between(1, LIMIT);
                canonical(&draw(rng, &m.pool, &[], n))
            }
        };
        m.wander(rng, 6);
        if h.is_empty() {
            m.focus.clone()
        } else {
            h
        }
    }

    /// Something else learned, that the vote is to meet.
    fn other_learned(&self, rng: &mut Rng) -> Vec<Command> {
        let m = &self.material;
        match rng.below(4) {
            0 => m.part(rng),
            1 => rng.pick(&m.histories),
            _ => {
                let n = rng.pick(&[2, 5, 12, 24, 30, 32]);
                canonical(&draw(rng, &m.pool, &[], n))
            }
        }
    }

    /// The next call, in the state that the run has come to.
    pub fn call(&mut self, rng: &mut Rng, state: &Learner) -> Call {
        let mut call =
            Call { roster: self.roster, state: state.clone(), line: Vec::new(), keep: true };
        let sender = rng.below(usize::from(self.roster.n)) as u8;
        let mut history = self.history(rng, state, sender);
        let mut fields = Fields {
            ballot: rng.pick(&[1, 1, 2, 3, 255, 256, 0x0001_0000, 0x0100_0000, u32::MAX]),
            mask: good_mask(rng, &self.roster, quorum(&self.roster) as usize),
            ..Fields::of(P2B, sender)
        };
        if rng.percent(2) {
            self.litter(rng, &mut call.state);
        }
        if rng.percent(10) {
            let h = self.other_learned(rng);
            set_history(&mut call.state.learned, &h);
            call.keep = false;
        }
        let faults = match rng.below(100) {
            0..=54 => 0,
            55..=87 => 1,
            88..=95 => 2,
            _ => 3,
        };
        let mut break_line = false;
        for _ in 0..faults {
            self.fault(rng, &mut call, &mut fields, &mut history, &mut break_line);
        }
        fields.n = history.len() as u8;
        call.line = encode(&fields, &history);
        if break_line {
            call.line = broken_line(rng, &fields, &history, &self.material.pool);
        }
        call
    }

    /// One fault.
    fn fault(
        &self,
        rng: &mut Rng,
        call: &mut Call,
        fields: &mut Fields,
        history: &mut Vec<Command>,
        break_line: &mut bool,
    ) {
        let m = &self.material;
        let n = self.roster.n;
        match rng.below(11) {
            0 => fields.sender = rng.pick(&[n, n, n + 1, 16, 17, 128, 255, n | 16, n | 128]),
            1 => fields.ballot = 0,
            2 => fields.mask = bad_mask(rng, &self.roster, quorum(&self.roster) as usize),
            3 => spoil_commands(rng, history),
            4 => repeat_request(rng, history, &m.pool),
            5 | 6 => disorder(rng, history, &m.pool),
            7 => history.clear(),
            8 => *break_line = true,
            9 => {
                if rng.percent(35) {
                    damage_history(rng, &mut call.state.learned, m);
                } else {
                    damage_table(rng, &mut call.state.entries, &self.roster, m);
                }
                call.keep = false;
            }
            _ => {
                call.roster = other_roster(rng, &self.roster);
                call.keep = false;
            }
        }
    }
}
