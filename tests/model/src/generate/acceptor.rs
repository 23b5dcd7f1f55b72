//! Random calls of the acceptor.

use super::damage::*;
use super::propose::filling;
use super::run::*;
use super::*;
use crate::frames::{Fields, FAST, P1A, P2A, PROPOSE, VERIFY};
use crate::layout::{Acceptor, ViewRecord};

/// One call of the step.
pub struct Call {
    pub given: Given,
    pub views: ViewRecord,
    pub state: Acceptor,
    pub line: Vec<u8>,
}

/// A run of calls.
pub struct Scenario {
    pub run: Run,
    view: u32,
    material: Material,
}

impl Scenario {
    /// A site of some roster, in some view, and something to agree on.
    pub fn new(rng: &mut Rng) -> Scenario {
        Scenario { run: Run::new(rng, 20, 80), view: number(rng), material: Material::new(rng) }
    }

    /// The state the run starts from: fresh, or one that no run need have
    /// led to but that an acceptor may be lent.
    pub fn start(&self, rng: &mut Rng) -> Acceptor {
        Run::start(rng, 40, Acceptor::fresh(), |rng| self.lent(rng))
    }

    /// Any state that an acceptor may be lent.
    fn lent(&self, rng: &mut Rng) -> Acceptor {
        let m = &self.material;
        let mut s = Acceptor::fresh();
        s.ballot = number(rng);
        s.fast = flag(rng);
        s.signed = flag(rng);
        if rng.percent(60) {
            let h = m.part(rng);
            set_history(&mut s.proven, &h);
        }
        let held = match rng.below(4) {
            0 => m.part(rng),
            1 => m.focus.clone(),
            2 => Vec::new(),
            _ => m.grown(rng, commands(&s.proven)),
        };
        set_history(&mut s.held, &held);
        s.proven_ballot = if rng.percent(50) { s.ballot } else { number(rng) };
        s.certificate = lent_mask(rng, &self.run.roster, self.run.quorum());
        let agreeing = rng.between(10, 100);
        for site in 0..self.run.sites() {
            if rng.percent(agreeing) {
                set_entry(&mut s.verified, site, &m.focus);
            } else if rng.percent(40) {
                let h = m.part(rng);
                set_entry(&mut s.verified, site, &h);
            }
        }
        if rng.percent(50) {
            self.litter(rng, &mut s);
        }
        s
    }

    /// Words past the counts, which mean nothing: anything may stand there.
    fn litter(&self, rng: &mut Rng, s: &mut Acceptor) {
        let litter = Litter::new(rng);
        litter.history(rng, &mut s.held, &self.material.pool);
        litter.history(rng, &mut s.proven, &self.material.pool);
        litter.table(rng, &mut s.verified, &self.material.pool);
    }

    /// The record in the scenario's view; its other figures are any.
    fn record(&self, rng: &mut Rng) -> ViewRecord {
        ViewRecord {
            view: self.view,
            suspicions: lent_mask(rng, &self.run.roster, usize::from(self.run.roster.f)),
            target: if rng.percent(50) { 0 } else { number(rng) },
            changes: lent_mask(rng, &self.run.roster, self.run.quorum()),
        }
    }

    // ---- Frames that may be accepted ---------------------------------------

    /// P1A or FAST of a greater ballot.
    fn open(&self, rng: &mut Rng, s: &Acceptor, kind: u8) -> Draft {
        let ballot = greater_ballot(rng, s.ballot);
        let sender = self.run.leader(self.view);
        Draft::new(Fields { view: self.view, ballot, ..Fields::of(kind, sender) }, vec![])
    }

    /// P2A, as a rule of a history that extends what it must.
    fn phase_two(&self, rng: &mut Rng, s: &Acceptor) -> Draft {
        let m = &self.material;
        let (held, proven) = (commands(&s.held), commands(&s.proven));
        let h = match rng.below(100) {
            0..=44 => match merge(held, proven) {
                Some(both) if both.len() <= LIMIT => m.grown(rng, &both),
                _ => m.grown(rng, proven),
            },
            45..=64 => m.grown(rng, proven),
            65..=76 => m.grown(rng, held),
            77..=86 => m.focus.clone(),
            87..=95 => m.part(rng),
            _ => m.shortened(rng, held),
        };
        let h = if h.is_empty() { m.focus.clone() } else { h };
        Draft::new(self.fields(P2A, self.run.leader(self.view), s), h)
    }

    /// Kind and sender in the scenario's view and the state's ballot.
    fn fields(&self, kind: u8, sender: u8, s: &Acceptor) -> Fields {
        Fields { view: self.view, ballot: s.ballot, ..Fields::of(kind, sender) }
    }

    /// PROPOSE of one proposer's commands, in any order.
    fn propose(&self, rng: &mut Rng, s: &Acceptor) -> Draft {
        let (who, h) = self.material.proposal(rng, commands(&s.held));
        Draft::new(Fields { ballot: s.ballot, ..Fields::of(PROPOSE, who) }, h)
    }

    /// VERIFY of a history that many entries are equal to, or of another.
    fn verify(&mut self, rng: &mut Rng, s: &Acceptor) -> Draft {
        let sender = if rng.percent(15) { self.run.own } else { rng.below(self.run.sites()) as u8 };
        let before = entry(&s.verified, usize::from(sender)).to_vec();
        let m = &mut self.material;
        m.wander(rng, 6);
        let h = match rng.below(100) {
            0..=39 => common_entry(&self.run.roster, s).unwrap_or(m.focus.clone()),
            40..=49 => before.clone(),
            50..=57 => m.grown(rng, &before),
            58..=67 => m.shortened(rng, &before),
            68..=79 => commands(&s.held).to_vec(),
            80..=84 => commands(&s.proven).to_vec(),
            85..=92 => m.focus.clone(),
            _ => m.part(rng),
        };
        let h = if h.is_empty() { m.focus.clone() } else { h };
        Draft::new(self.fields(VERIFY, sender, s), h)
    }

    // ---- Planted states ----------------------------------------------------

    /// A state in which one more VERIFY makes N-f equal entries, or nearly,
    /// and that VERIFY; the proven history agrees with it or not.
    fn completing(&self, rng: &mut Rng, s: &mut Acceptor) -> Draft {
        let m = &self.material;
        let h = m.part(rng);
        let sender = if rng.percent(30) { self.run.own } else { rng.below(self.run.sites()) as u8 };
        let ones = match rng.below(8) {
            0 => self.run.quorum() - 2,
            1 => rng.between(self.run.quorum() - 1, self.run.sites() - 1),
            _ => self.run.quorum() - 1,
        };
        let mut others: Vec<usize> =
            (0..self.run.sites()).filter(|&i| i != usize::from(sender)).collect();
        rng.shuffle(&mut others);
        for &site in &others[..ones] {
            set_entry(&mut s.verified, site, &h);
        }
        for &site in &others[ones..] {
            // Near misses: longer or shorter than the others.
            let near = if rng.percent(50) { m.grown(rng, &h) } else { m.shortened(rng, &h) };
            set_entry(&mut s.verified, site, &near);
        }
        let before = match rng.below(10) {
            0..=3 => h.clone(),
            4 | 5 => m.shortened(rng, &h),
            6 => m.grown(rng, &h),
            _ => Vec::new(),
        };
        set_entry(&mut s.verified, usize::from(sender), &before);
        self.plant_proven(rng, s, &h);
        Draft::new(self.fields(VERIFY, sender, s), h)
    }

    /// A proven history that h equals, extends or doesn't extend.
    fn plant_proven(&self, rng: &mut Rng, s: &mut Acceptor, h: &[Command]) {
        let m = &self.material;
        let proven = match rng.below(10) {
            0 | 1 => h.to_vec(),
            2..=4 => m.shortened(rng, h),
            5 => m.grown(rng, h),
            6 | 7 => m.part(rng),
            _ => Vec::new(),
        };
        set_history(&mut s.proven, &proven);
        s.proven_ballot = if rng.percent(50) { s.ballot } else { number(rng) };
    }

    /// A state in which the new ballot's P1B is as long as can be, or nearly.
    fn longest(&self, rng: &mut Rng, s: &mut Acceptor) -> Draft {
        let serials = |from: u16, n: usize| -> Vec<Command> {
            (0..n as u16).map(|i| command(1, RAISE, from + i, i % 5, 1)).collect()
        };
        let (proven, held) = (rng.between(30, 32), rng.between(30, 32));
        set_history(&mut s.proven, &serials(1, proven));
        set_history(&mut s.held, &serials(7, held));
        self.open(rng, s, P1A)
    }

    /// A state in which a PROPOSE makes N-f equal entries, and that PROPOSE.
    fn joining(&self, rng: &mut Rng, s: &mut Acceptor) -> Draft {
        let m = &self.material;
        let h = m.part(rng);
        let last = rng.pick(&h);
        let rest: Vec<Command> = h.iter().copied().filter(|&c| c != last).collect();
        let ones = rng.between(self.run.quorum() - 1, self.run.sites());
        for site in 0..ones {
            set_entry(&mut s.verified, site, &h);
        }
        set_history(&mut s.held, &canonical(&rest));
        set_history(&mut s.proven, &[]);
        s.fast = 1;
        Draft::new(Fields { ballot: s.ballot, ..Fields::of(PROPOSE, proposer(last)) }, vec![last])
    }

    /// A state with a long held history, and a PROPOSE that just fits or
    /// just doesn't.
    fn filling(&self, rng: &mut Rng, s: &mut Acceptor) -> Draft {
        let (held, h) = filling(rng);
        set_history(&mut s.held, &held);
        let part = rng.below(held.len());
        let proven = if rng.percent(90) { canonical(&held[..part]) } else { vec![] };
        set_history(&mut s.proven, &proven);
        s.fast = rng.pick(&[1, 1, 255]);
        Draft::new(Fields { ballot: s.ballot, ..Fields::of(PROPOSE, 2) }, h)
    }

    // ---- The call ----------------------------------------------------------

    /// A frame of a kind that suits the state, or now and then doesn't.
    fn draft(&mut self, rng: &mut Rng, s: &Acceptor) -> Draft {
        let at = rng.below(100);
        match (s.fast != 0, at) {
            (_, 0..=5) => self.open(rng, s, P1A),
            (_, 6..=11) => self.open(rng, s, FAST),
            (false, 12..=50) | (true, 12..=15) => self.phase_two(rng, s),
            (false, 51..=54) | (true, 16..=58) => self.propose(rng, s),
            _ => self.verify(rng, s),
        }
    }

    /// The next call, in the state that the run has come to.
    pub fn call(&mut self, rng: &mut Rng, state: &Acceptor) -> Call {
        if rng.percent(2) {
            self.view = number(rng);
        }
        let views = self.record(rng);
        let given = self.run.given(rng);
        let mut call = Call { given, views, state: state.clone(), line: Vec::new() };
        let mut draft = self.lend(rng, &mut call);
        for _ in 0..faults(rng, 60) {
            self.fault(rng, &mut call, &mut draft);
        }
        call.line = draft.line(rng, &self.material.pool);
        call
    }

    /// Lends the run's state or, now and then, another, and drafts a frame.
    fn lend(&mut self, rng: &mut Rng, call: &mut Call) -> Draft {
        let planted = rng.below(100);
        if planted < 20 {
            call.state = self.lent(rng);
            call.given.keep = rng.percent(50);
        } else if rng.percent(2) {
            self.litter(rng, &mut call.state);
        }
        let s = &mut call.state;
        match planted {
            0..=5 => self.completing(rng, s),
            6 => self.longest(rng, s),
            7 | 8 => self.filling(rng, s),
            9 => self.joining(rng, s),
            _ => self.draft(rng, &call.state),
        }
    }

    /// One fault.
    fn fault(&self, rng: &mut Rng, call: &mut Call, draft: &mut Draft) {
        let m = &self.material;
        let at = rng.below(20);
        match at {
            0 | 1 => self.wrong_sender(rng, draft),
            2..=4 => self.wrong_time(rng, &call.state, draft),
            5 => spoil_commands(rng, &mut draft.first),
            6 => repeat_request(rng, &mut draft.first, &m.pool),
            7 | 8 => disorder(rng, &mut draft.first, &m.pool),
            9 => draft.first.clear(),
            10 if draft.fields.kind == PROPOSE => draft.first.push(rng.pick(&m.pool)),
            10..=12 => draft.break_line = true,
            13..=15 => self.run.spoil(rng, &mut call.given, at - 13),
            16 => self.damage_masks(rng, call),
            _ => {
                self.damage_lists(rng, &mut call.state);
                call.given.keep = false;
            }
        }
    }

    /// A sender at N or above, or one who may not send that kind.
    fn wrong_sender(&self, rng: &mut Rng, draft: &mut Draft) {
        let f = &mut draft.fields;
        f.sender = match f.kind {
            PROPOSE if rng.percent(70) => 0,
            P1A | FAST | P2A if rng.percent(60) => rng.below(self.run.sites()) as u8,
            _ => bad_own(rng, &self.run.roster),
        };
    }

    /// Another view or another ballot; the leader's kinds come from the
    /// leader of that view as a rule.
    fn wrong_time(&self, rng: &mut Rng, s: &Acceptor, draft: &mut Draft) {
        let f = &mut draft.fields;
        if f.kind == PROPOSE || rng.percent(50) {
            f.ballot = if rng.percent(40) { s.ballot } else { other_number(rng, s.ballot) };
            return;
        }
        f.view = other_number(rng, f.view);
        if f.kind != VERIFY && rng.percent(85) {
            f.sender = self.run.leader(f.view);
        }
    }

    /// A bit at N or above in one of the three lent masks, if there is room.
    fn damage_masks(&self, rng: &mut Rng, call: &mut Call) {
        let Some(above) = self.run.bit_above(rng) else { return };
        match rng.below(3) {
            0 => call.views.suspicions |= above,
            1 => call.views.changes |= above,
            _ => call.state.certificate |= above,
        }
        call.given.keep = false;
    }

    /// A wrong list in the lent state.
    fn damage_lists(&self, rng: &mut Rng, s: &mut Acceptor) {
        let m = &self.material;
        match rng.below(4) {
            0 => damage_history(rng, &mut s.held, m),
            1 => damage_history(rng, &mut s.proven, m),
            _ => damage_table(rng, &mut s.verified, &self.run.roster, m),
        }
    }
}

/// The entry that most sites have, if any has one.
fn common_entry(r: &Roster, s: &Acceptor) -> Option<Vec<Command>> {
    let entries = || (0..usize::from(r.n)).map(|i| entry(&s.verified, i));
    entries()
        .filter(|h| !h.is_empty())
        .max_by_key(|h| entries().filter(|g| g == h).count())
        .map(|h| h.to_vec())
}
