//! Random calls of the leader: frames, and the opening of ballots.

mod planted;

use super::damage::*;
use super::propose::reused;
use super::run::*;
use super::*;
use crate::frames::{Fields, LEADER, P1B, PROPOSE};
use crate::layout::Leader;
use crate::leader::complete;

/// What a leader is called with.
pub enum Input {
    Line(Vec<u8>),
    /// A ballot, and the flag that makes it fast.
    Opening(u32, u8),
}

/// One call: a step or an opening.
pub struct Call {
    pub given: Given,
    pub state: Leader,
    pub input: Input,
}

/// What is being put together.
enum Plan {
    Frame(Draft),
    Opening(u32, u8),
}

/// A run of calls.
pub struct Scenario {
    pub run: Run,
    material: Material,
}

impl Scenario {
    /// A site of some roster, and something to agree on.
    pub fn new(rng: &mut Rng) -> Scenario {
        Scenario { run: Run::new(rng, 20, 80), material: Material::new(rng) }
    }

    /// The state the run starts from: fresh, or one that no run need have led
    /// to but that a leader may be lent.
    pub fn start(&self, rng: &mut Rng) -> Leader {
        Run::start(rng, 35, Leader::fresh(), |rng| self.lent(rng))
    }

    /// Any state that a leader may be lent.
    fn lent(&self, rng: &mut Rng) -> Leader {
        let mut s = Leader::fresh();
        s.view = if rng.percent(80) { self.led_view(rng) } else { number(rng) };
        s.ballot = number(rng);
        s.classic = if rng.percent(50) { 1 } else { flag(rng) };
        s.reported = lent_mask(rng, &self.run.roster, self.run.quorum());
        let pending = self.pending(rng);
        set_history(&mut s.pending, &pending);
        self.reports(rng, &mut s);
        if rng.percent(50) {
            self.litter(rng, &mut s);
        }
        s
    }

    /// A view that the site leads.
    fn led_view(&self, rng: &mut Rng) -> u32 {
        let n = u32::from(self.run.roster.n);
        let own = u32::from(self.run.own);
        match rng.below(8) {
            0..=2 => own,
            3 => (u32::MAX - own) / n * n + own,
            4 => (rng.next() as u32 / 2) / n * n + own,
            _ => rng.below(6) as u32 * n + own,
        }
    }

    /// Commands to be pending, in any order.
    fn pending(&self, rng: &mut Rng) -> Vec<Command> {
        let m = &self.material;
        let mut h = match rng.below(10) {
            0 | 1 => return Vec::new(),
            2 | 3 => m.part(rng),
            4..=6 => {
                let n = rng.between(1, 6);
                draw(rng, &m.pool, &[], n)
            }
            _ => {
                let n = rng.between(1, LIMIT);
                draw(rng, &m.pool, &[], n)
            }
        };
        if rng.percent(60) {
            rng.shuffle(&mut h);
        }
        h
    }

    /// Reports in the rows of both tables, marked or not.
    fn reports(&self, rng: &mut Rng, s: &mut Leader) {
        let unmarked = rng.pick(&[0, 20, 70]);
        for site in 0..self.run.sites() {
            if s.reported & bit(site as u8) != 0 || rng.percent(unmarked) {
                let (proven, held) = (self.proven(rng), self.held(rng));
                set_entry(&mut s.proven, site, &proven);
                set_entry(&mut s.held, site, &held);
            }
        }
    }

    /// Words past the counts, which mean nothing: anything may stand there.
    fn litter(&self, rng: &mut Rng, s: &mut Leader) {
        let litter = Litter::new(rng);
        litter.history(rng, &mut s.pending, &self.material.pool);
        litter.table(rng, &mut s.proven, &self.material.pool);
        litter.table(rng, &mut s.held, &self.material.pool);
    }

    /// A proven history to be reported.
    fn proven(&self, rng: &mut Rng) -> Vec<Command> {
        let m = &self.material;
        match rng.below(10) {
            0 | 1 => Vec::new(),
            2..=4 => m.shortened(rng, &m.focus),
            5 | 6 => m.focus.clone(),
            7 => m.grown(rng, &m.focus),
            _ => m.part(rng),
        }
    }

    /// A held history to be reported.
    fn held(&self, rng: &mut Rng) -> Vec<Command> {
        let m = &self.material;
        match rng.below(10) {
            0 | 1 => Vec::new(),
            2 => m.focus.clone(),
            3..=5 => m.grown(rng, &m.focus),
            6 => {
                // A request with other bytes than elsewhere, as a rule.
                let mut h = m.shortened(rng, &m.focus);
                let other = reused(rng, &m.focus)[0];
                h.retain(|&c| !same_request(c, other));
                h.push(other);
                canonical(&h)
            }
            _ => m.part(rng),
        }
    }

    // ---- Calls that may be accepted ----------------------------------------

    /// P1B for the open ballot, as a rule from a site that hasn't reported.
    fn report(&mut self, rng: &mut Rng, s: &Leader) -> Draft {
        self.material.wander(rng, 6);
        let sender = site_beyond(rng, &self.run.roster, s.reported, 92);
        let (proven, held) = (self.proven(rng), self.held(rng));
        self.report_of(rng, s, sender, proven, held)
    }

    /// The P1B of these histories.
    fn report_of(
        &self,
        rng: &mut Rng,
        s: &Leader,
        sender: u8,
        proven: Vec<Command>,
        held: Vec<Command>,
    ) -> Draft {
        let mut fields = Fields { ballot: s.ballot, ..Fields::of(P1B, sender) };
        if !proven.is_empty() {
            fields.proven_ballot = number(rng);
            fields.mask = good_mask(rng, &self.run.roster, self.run.quorum());
        }
        Draft { second: held, ..Draft::new(fields, proven) }
    }

    /// PROPOSE of one proposer's commands, with any ballot.
    fn propose(&self, rng: &mut Rng, s: &Leader) -> Draft {
        let (who, h) = self.material.proposal(rng, commands(&s.pending));
        let ballot = if rng.percent(50) { s.ballot } else { number(rng) };
        Draft::new(Fields { ballot, ..Fields::of(PROPOSE, who) }, h)
    }

    /// LEADER of a view that the site leads, above the state's if there is
    /// one.
    fn lead(&self, rng: &mut Rng, s: &Leader) -> Draft {
        let n = u32::from(self.run.roster.n);
        let next = (s.view / n).saturating_mul(n).saturating_add(u32::from(self.run.own));
        let next = if next > s.view { next } else { next.saturating_add(n) };
        let view = match rng.below(10) {
            0 => self.led_view(rng),
            1 => (u32::MAX - u32::from(self.run.own)) / n * n + u32::from(self.run.own),
            2 | 3 => next.saturating_add(n * rng.between(1, 4) as u32),
            _ => next,
        };
        let mask = good_mask(rng, &self.run.roster, self.run.quorum());
        let sender = rng.below(self.run.sites()) as u8;
        Draft::new(Fields { view, mask, ..Fields::of(LEADER, sender) }, vec![])
    }

    /// The opening of a ballot, as a rule a greater one.
    fn open(&self, rng: &mut Rng, s: &Leader) -> Plan {
        let ballot = match rng.below(20) {
            0 => s.ballot,
            1 => other_number(rng, s.ballot),
            2 => u32::MAX,
            _ => greater_ballot(rng, s.ballot),
        };
        Plan::Opening(ballot, if rng.percent(40) { 0 } else { flag(rng) })
    }

    /// A call that suits the state, or now and then doesn't.
    fn plan(&mut self, rng: &mut Rng, s: &Leader) -> Plan {
        let collecting = s.classic != 0 && !complete(&self.run.roster, s);
        let leading = leads(&self.run.roster, self.run.own, s.view);
        match (rng.below(100), collecting, leading) {
            (0..=14, ..) => Plan::Frame(self.propose(rng, s)),
            (15..=20, ..) | (21..=69, false, false) => Plan::Frame(self.lead(rng, s)),
            (21..=26, ..) | (27..=79, false, true) => self.open(rng, s),
            _ => Plan::Frame(self.report(rng, s)),
        }
    }

    /// The next call, in the state that the run has come to.
    pub fn call(&mut self, rng: &mut Rng, state: &Leader) -> Call {
        let given = self.run.given(rng);
        let input = Input::Line(Vec::new());
        let mut call = Call { given, state: state.clone(), input };
        let mut plan = self.lend(rng, &mut call);
        for _ in 0..faults(rng, 62) {
            match &mut plan {
                Plan::Frame(draft) => self.fault(rng, &mut call, draft),
                Plan::Opening(..) => self.host_fault(rng, &mut call),
            }
        }
        call.input = match plan {
            Plan::Frame(draft) => Input::Line(draft.line(rng, &self.material.pool)),
            Plan::Opening(ballot, fast) => Input::Opening(ballot, fast),
        };
        call
    }

    /// Lends the run's state or, now and then, another, and plans a call.
    fn lend(&mut self, rng: &mut Rng, call: &mut Call) -> Plan {
        let planted = rng.below(100);
        if planted < 30 {
            call.state = self.lent(rng);
            call.given.keep = rng.percent(50);
        } else if rng.percent(2) {
            self.litter(rng, &mut call.state);
        }
        match self.planted(rng, planted, &mut call.state) {
            Some(draft) => Plan::Frame(draft),
            None => self.plan(rng, &call.state),
        }
    }

    // ---- Faults ------------------------------------------------------------

    /// One fault of a frame or of what the host gives.
    fn fault(&self, rng: &mut Rng, call: &mut Call, draft: &mut Draft) {
        let pool = &self.material.pool;
        let reports = draft.fields.kind == P1B && rng.percent(50);
        let list = if reports { &mut draft.second } else { &mut draft.first };
        match rng.below(20) {
            0 => self.wrong_sender(rng, draft),
            1..=3 => self.wrong_time(rng, &call.state, draft),
            4..=6 if draft.fields.kind != PROPOSE => self.wrong_proof(rng, draft),
            7 => spoil_commands(rng, list),
            8 | 9 => repeat_request(rng, list, pool),
            10 | 11 => disorder(rng, list, pool),
            12 => list.clear(),
            13 if draft.fields.kind == PROPOSE => draft.first.push(rng.pick(pool)),
            4..=6 | 13 | 14 => draft.break_line = true,
            _ => self.host_fault(rng, call),
        }
    }

    /// One fault of what the host gives: roster, own number, buffer, state.
    fn host_fault(&self, rng: &mut Rng, call: &mut Call) {
        let (m, s) = (&self.material, &mut call.state);
        let at = rng.below(10);
        match at {
            0..=2 => return self.run.spoil(rng, &mut call.given, at),
            3 => s.reported |= self.run.bit_above(rng).unwrap_or(0),
            4..=6 => damage_history(rng, &mut s.pending, m),
            7 | 8 => damage_table(rng, &mut s.proven, &self.run.roster, m),
            _ => damage_table(rng, &mut s.held, &self.run.roster, m),
        }
        call.given.keep = false;
    }

    /// A sender at N or above; 0 in PROPOSE.
    fn wrong_sender(&self, rng: &mut Rng, draft: &mut Draft) {
        draft.fields.sender = match draft.fields.kind {
            PROPOSE => 0,
            _ => bad_own(rng, &self.run.roster),
        };
    }

    /// Another ballot or view, or a site that reported already.
    fn wrong_time(&self, rng: &mut Rng, s: &Leader, draft: &mut Draft) {
        let f = &mut draft.fields;
        let n = u32::from(self.run.roster.n);
        match f.kind {
            LEADER => {
                f.view = match rng.below(6) {
                    0 => s.view,
                    1 => s.view.saturating_sub(n),
                    2 => other_number(rng, s.view),
                    _ => other_number(rng, f.view),
                }
            }
            P1B if rng.percent(40) && s.reported != 0 => {
                f.sender = site_beyond(rng, &self.run.roster, !s.reported, 100);
            }
            _ => f.ballot = other_number(rng, s.ballot),
        }
    }

    /// A mask that proves too little; where nothing is proven, a mask or a
    /// ballot of it.
    fn wrong_proof(&self, rng: &mut Rng, draft: &mut Draft) {
        let f = &mut draft.fields;
        if f.kind == P1B && draft.first.is_empty() {
            match rng.below(4) {
                0 => f.proven_ballot = number(rng).max(1),
                1 => f.mask = bad_mask(rng, &self.run.roster, self.run.quorum()),
                2 => f.mask = good_mask(rng, &self.run.roster, self.run.quorum()),
                _ => {
                    f.proven_ballot = number(rng).max(1);
                    f.mask = good_mask(rng, &self.run.roster, self.run.quorum());
                }
            }
            return;
        }
        f.mask =
            if rng.percent(10) { 0 } else { bad_mask(rng, &self.run.roster, self.run.quorum()) };
    }
}
