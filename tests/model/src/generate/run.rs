//! What runs of a site's calls share: the site, what its host gives to each
//! call, and the frame that is being put together.

use super::damage::other_roster;
use super::lines::broken_line;
use super::{bad_own, good_buffer, good_roster, short_buffer, Rng};
use crate::frames::{encode, Fields};
use crate::layout::Roster;
use crate::rules::*;

/// A site and how many calls it gets.
pub struct Run {
    pub roster: Roster,
    pub own: u8,
    pub length: usize,
}

/// What the host gives to a call beside state and frame. Only the state after
/// a call to keep is carried over.
pub struct Given {
    pub roster: Roster,
    pub own: u8,
    pub out: Vec<u8>,
    pub keep: bool,
}

impl Run {
    /// A site of some roster, and a number of calls.
    pub fn new(rng: &mut Rng, fewest: usize, most: usize) -> Run {
        let roster = good_roster(rng);
        let own = rng.below(usize::from(roster.n)) as u8;
        Run { roster, own, length: rng.between(fewest, most) }
    }

    /// N, as an index.
    pub fn sites(&self) -> usize {
        usize::from(self.roster.n)
    }

    /// N-f, as an index.
    pub fn quorum(&self) -> usize {
        quorum(&self.roster) as usize
    }

    /// The site that leads a view.
    pub fn leader(&self, view: u32) -> u8 {
        (view % u32::from(self.roster.n)) as u8
    }

    /// A mask bit at N or above, if there is room.
    pub fn bit_above(&self, rng: &mut Rng) -> Option<u16> {
        let n = self.sites();
        (n < 16).then(|| 1 << if rng.percent(50) { n } else { rng.between(n, 15) })
    }

    /// The state a run starts from: fresh in so many of a hundred cases, or
    /// any that may be lent.
    pub fn start<S>(rng: &mut Rng, share: usize, fresh: S, lent: impl Fn(&mut Rng) -> S) -> S {
        if rng.percent(share) {
            fresh
        } else {
            lent(rng)
        }
    }

    /// What the host gives, as it should be.
    pub fn given(&self, rng: &mut Rng) -> Given {
        Given { roster: self.roster, own: self.own, out: good_buffer(rng), keep: true }
    }

    /// Makes roster (0), own number (1) or buffer (2) wrong.
    pub fn spoil(&self, rng: &mut Rng, given: &mut Given, which: usize) {
        match which {
            0 => given.roster = other_roster(rng, &self.roster),
            1 => given.own = bad_own(rng, &self.roster),
            _ => given.out = short_buffer(rng),
        }
        given.keep &= given.roster == self.roster && given.own == self.own;
    }
}

/// How many faults a call gets: none in so many of a hundred cases.
pub fn faults(rng: &mut Rng, none: usize) -> usize {
    match rng.below(100) {
        at if at < none => 0,
        0..=92 => 1,
        93..=97 => 2,
        _ => 3,
    }
}

/// A frame that is being put together, and whether its line is to break.
pub struct Draft {
    pub fields: Fields,
    pub first: Vec<Command>,
    pub second: Vec<Command>,
    pub break_line: bool,
}

impl Draft {
    /// A frame of these fields and commands.
    pub fn new(fields: Fields, first: Vec<Command>) -> Draft {
        Draft { fields, first, second: Vec::new(), break_line: false }
    }

    /// Its line; a broken one may carry commands of the pool.
    pub fn line(mut self, rng: &mut Rng, pool: &[Command]) -> Vec<u8> {
        self.fields.n = self.first.len() as u8;
        self.fields.m = self.second.len() as u8;
        let all = [self.first, self.second].concat();
        if self.break_line {
            broken_line(rng, &self.fields, &all, pool)
        } else {
            encode(&self.fields, &all)
        }
    }
}

/// A ballot or a view: small as a rule.
pub fn number(rng: &mut Rng) -> u32 {
    match rng.below(10) {
        0 => rng.next() as u32,
        1 => rng.pick(&[255, 256, 65535, 65536, 0x0100_0000, u32::MAX - 1, u32::MAX]),
        2 | 3 => 0,
        _ => rng.between(1, 40) as u32,
    }
}

/// Another number than the one that is right, near it as a rule.
pub fn other_number(rng: &mut Rng, now: u32) -> u32 {
    match rng.below(5) {
        0 | 1 => now.wrapping_sub(1),
        2 | 3 => now.wrapping_add(1),
        _ => number(rng),
    }
}

/// A ballot above the given one, if there is one.
pub fn greater_ballot(rng: &mut Rng, ballot: u32) -> u32 {
    let step = match rng.below(10) {
        0 => 256,
        1 => rng.next() as u32 >> rng.below(32),
        2..=4 => rng.between(2, 5) as u32,
        _ => 1,
    };
    ballot.saturating_add(step)
}

/// A flag as it may be lent: any number but 0 is set.
pub fn flag(rng: &mut Rng) -> u8 {
    if rng.percent(50) {
        0
    } else {
        rng.pick(&[1, 1, 1, 2, 128, 255])
    }
}
