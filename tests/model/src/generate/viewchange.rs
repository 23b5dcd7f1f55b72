//! Random calls of the view change.

use super::run::*;
use super::*;
use crate::frames::{Fields, SUSPICION, VIEWCHANGE};
use crate::layout::ViewRecord;
use crate::viewchange::enough_to_suspect;

/// One call of the step.
pub struct Call {
    pub given: Given,
    pub views: ViewRecord,
    pub line: Vec<u8>,
}

/// A run of calls.
pub struct Scenario {
    pub run: Run,
    /// For broken lines that carry commands.
    pool: Vec<Command>,
}

impl Scenario {
    /// A site of some roster.
    pub fn new(rng: &mut Rng) -> Scenario {
        Scenario { run: Run::new(rng, 10, 60), pool: pool(rng, false, false) }
    }

    /// f+1.
    fn suspecting(&self) -> usize {
        enough_to_suspect(&self.run.roster) as usize
    }

    /// The record the run starts from: fresh, or any that may be lent.
    pub fn start(&self, rng: &mut Rng) -> ViewRecord {
        Run::start(rng, 45, ViewRecord::fresh(), |rng| self.lent(rng))
    }

    /// A record with no mask bit at N or above, likely or not.
    fn lent(&self, rng: &mut Rng) -> ViewRecord {
        let view = match rng.below(8) {
            0 => 0,
            1 => u32::MAX,
            2 => u32::MAX - rng.below(4) as u32,
            3 => rng.next() as u32,
            4 => rng.pick(&[255, 256, 65535, 65536, 0x00ff_ffff, 0x7fff_ffff]),
            _ => rng.below(40) as u32,
        };
        let target = match rng.below(8) {
            0..=2 => 0,
            3..=5 => view.saturating_add(1),
            6 => view.saturating_add(rng.between(2, 9) as u32),
            _ => {
                let any = rng.next() as u32;
                rng.pick(&[view, view / 2, u32::MAX, any])
            }
        };
        ViewRecord {
            view,
            suspicions: lent_mask(rng, &self.run.roster, self.suspecting()),
            target,
            changes: lent_mask(rng, &self.run.roster, quorum(&self.run.roster) as usize),
        }
    }

    /// A SUSPICION of the current view, often from a site not yet counted.
    fn suspicion(&self, rng: &mut Rng, views: &ViewRecord) -> Fields {
        let sender = if rng.percent(12) {
            self.run.own
        } else {
            site_beyond(rng, &self.run.roster, views.suspicions, 70)
        };
        Fields { view: views.view, ..Fields::of(SUSPICION, sender) }
    }

    /// A VIEWCHANGE, mostly to the target that is set.
    fn view_change(&self, rng: &mut Rng, views: &ViewRecord) -> Fields {
        let next = views.view.saturating_add(1);
        let above = views.target.max(next);
        let view = match rng.below(100) {
            0..=59 => above,
            60..=74 => next,
            75..=89 => above.saturating_add(rng.between(1, 3) as u32),
            90..=95 => above.saturating_add(rng.next() as u32 >> rng.below(32)),
            96 => u32::MAX,
            _ => above.saturating_add(1),
        };
        let sender = if rng.percent(12) {
            self.run.own
        } else {
            site_beyond(rng, &self.run.roster, views.changes, 70)
        };
        let mask = good_mask(rng, &self.run.roster, self.suspecting());
        Fields { view, mask, ..Fields::of(VIEWCHANGE, sender) }
    }

    /// The next call, in the record that the run has come to.
    pub fn call(&mut self, rng: &mut Rng, views: &ViewRecord) -> Call {
        let mut call = Call { given: self.run.given(rng), views: *views, line: Vec::new() };
        if rng.percent(12) {
            call.views = self.lent(rng);
            call.given.keep = rng.percent(50);
        }
        let fields = if rng.percent(42) {
            self.suspicion(rng, &call.views)
        } else {
            self.view_change(rng, &call.views)
        };
        let mut draft = Draft::new(fields, Vec::new());
        for _ in 0..faults(rng, 65) {
            self.fault(rng, &mut call, &mut draft);
        }
        call.line = draft.line(rng, &self.pool);
        call
    }

    /// One fault.
    fn fault(&self, rng: &mut Rng, call: &mut Call, draft: &mut Draft) {
        let fields = &mut draft.fields;
        let at = rng.below(10);
        match at {
            0 => fields.sender = bad_own(rng, &self.run.roster),
            1 | 2 => fields.view = wrong_view(rng, &call.views, fields.view),
            3 | 4 if fields.kind == VIEWCHANGE => {
                fields.mask = bad_mask(rng, &self.run.roster, self.suspecting());
            }
            3..=5 => draft.break_line = true,
            6..=8 => self.run.spoil(rng, &mut call.given, at - 6),
            _ => {
                self.damage(rng, &mut call.views);
                call.given.keep = false;
            }
        }
    }

    /// A bit at N or above in one of the record's masks, if there is room.
    fn damage(&self, rng: &mut Rng, views: &mut ViewRecord) {
        let Some(above) = self.run.bit_above(rng) else { return };
        if rng.percent(50) {
            views.suspicions |= above;
        } else {
            views.changes |= above;
        }
    }
}

/// A view that the step doesn't take, as a rule: near the record's view and
/// target, or far off.
fn wrong_view(rng: &mut Rng, views: &ViewRecord, now: u32) -> u32 {
    match rng.below(8) {
        0 => views.view,
        1 => views.view.wrapping_sub(1),
        2 => views.view.wrapping_add(1),
        3 => views.target.wrapping_sub(1),
        4 => now ^ 1 << rng.below(32),
        5 => 0,
        6 => views.target,
        _ => rng.next() as u32,
    }
}
