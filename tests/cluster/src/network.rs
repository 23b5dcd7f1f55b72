//! Lines on their way: lost, repeated and out of turn.

use crate::plan::Plan;
use model::frames::VERIFY;
use model::generate::Rng;
use model::rules::bit;
use std::collections::VecDeque;
use std::rc::Rc;

/// A line, shared by all who get it.
pub type Line = Rc<Vec<u8>>;

/// Where a line goes.
#[derive(Clone, Copy, Debug, PartialEq, Eq)]
pub enum Place {
    Site(u8),
    Leader(u8),
    Learner(usize),
}

/// The lines on their way, and what the network does to some of them.
#[derive(Default)]
pub struct Network {
    queue: VecDeque<(Place, Line)>,
    /// Sites that are cut off from the others and from leaders.
    pub cut: u16,
    /// If not 0: only these sites get a VERIFY.
    pub favoured: u16,
}

/// A byte of a line's header, 255 where there is none.
fn header_byte(line: &Line, at: usize) -> u8 {
    let digits = line.get(2 * at..2 * at + 2).and_then(|d| std::str::from_utf8(d).ok());
    digits.and_then(|d| u8::from_str_radix(d, 16).ok()).unwrap_or(255)
}

/// Is the site in the mask?
fn within(mask: u16, site: u8) -> bool {
    site < 16 && mask & bit(site) != 0
}

impl Network {
    /// Sends a line: once, not at all or twice.
    pub fn send(&mut self, rng: &mut Rng, plan: &Plan, place: Place, line: &Line) {
        if rng.percent(plan.loss) {
            return;
        }
        self.queue.push_back((place, line.clone()));
        if rng.percent(plan.repetition) {
            self.queue.push_back((place, line.clone()));
        }
    }

    /// Is nothing on its way?
    pub fn idle(&self) -> bool {
        self.queue.is_empty()
    }

    /// Doesn't the line get there at present?
    fn held_up(&self, place: Place, line: &Line) -> bool {
        let (Place::Site(to) | Place::Leader(to)) = place else { return false };
        if self.cut == 0 && self.favoured == 0 {
            return false;
        }
        let from = header_byte(line, 1);
        let parted = from != to && (within(self.cut, to) || within(self.cut, from));
        let verify = header_byte(line, 0) == VERIFY;
        parted || verify && self.favoured != 0 && !within(self.favoured, to)
    }

    /// The next line to arrive, in turn or out of turn. What doesn't get
    /// there at present is lost or comes later.
    pub fn arrive(&mut self, rng: &mut Rng, plan: &Plan) -> Option<(Place, Line)> {
        if self.queue.is_empty() {
            return None;
        }
        let at = if rng.percent(plan.disorder) { rng.below(self.queue.len()) } else { 0 };
        let (place, line) = self.queue.swap_remove_front(at)?;
        if self.held_up(place, &line) {
            if rng.percent(30) {
                self.queue.push_back((place, line));
            }
            return None;
        }
        Some((place, line))
    }
}
