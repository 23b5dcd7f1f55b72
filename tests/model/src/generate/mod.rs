//! Random calls: scenarios of some dozens of frames that share a roster, a pool
//! of commands and a few histories, with faults of every sort strewn in. Here
//! is what the roles share.

pub mod acceptor;
pub mod damage;
pub mod leader;
pub mod learner;
pub mod lines;
pub mod propose;
pub mod run;
pub mod viewchange;

use crate::layout::Roster;
use crate::rules::*;

/// A small generator of numbers, the same on every machine for one seed.
pub struct Rng(pub u64);

impl Rng {
    /// The next number.
    pub fn next(&mut self) -> u64 {
        self.0 = self.0.wrapping_add(0x9e37_79b9_7f4a_7c15);
        let mut z = self.0;
        z = (z ^ (z >> 30)).wrapping_mul(0xbf58_476d_1ce4_e5b9);
        z = (z ^ (z >> 27)).wrapping_mul(0x94d0_49bb_1331_11eb);
        z ^ (z >> 31)
    }

    /// A number below n, which isn't 0.
    pub fn below(&mut self, n: usize) -> usize {
        (self.next() % n as u64) as usize
    }

    /// From low to high, both included.
    pub fn between(&mut self, low: usize, high: usize) -> usize {
        low + self.below(high - low + 1)
    }

    /// Yes in so many of a hundred cases.
    pub fn percent(&mut self, p: usize) -> bool {
        self.below(100) < p
    }

    /// One of a list that isn't empty.
    pub fn pick<T: Clone>(&mut self, from: &[T]) -> T {
        from[self.below(from.len())].clone()
    }

    /// Any order of a list.
    pub fn shuffle<T>(&mut self, list: &mut [T]) {
        for i in (1..list.len()).rev() {
            list.swap(i, self.below(i + 1));
        }
    }
}

/// A roster within the figures.
pub fn good_roster(rng: &mut Rng) -> Roster {
    let n = rng.between(4, 16);
    let f = rng.between(1, (n - 1) / 3);
    Roster { n: n as u8, f: f as u8 }
}

/// A command of these fields.
pub fn command(proposer: u8, kind: u8, serial: u16, slot: u16, argument: u16) -> Command {
    let (s, l, a) = (serial.to_be_bytes(), slot.to_be_bytes(), argument.to_be_bytes());
    u64::from_be_bytes([proposer, kind, s[0], s[1], l[0], l[1], a[0], a[1]])
}

/// The commands and histories that a scenario draws from.
pub struct Material {
    /// Are the histories long, so that 32 is near?
    pub long: bool,
    /// Correct commands, some of them sharing proposer and serial.
    pub pool: Vec<Command>,
    /// Long orders of commands; they share beginnings and go apart.
    branches: Vec<Vec<Command>>,
    /// Canonical histories that frames are taken from again and again.
    pub histories: Vec<Vec<Command>>,
    /// The history that all sites are at present busy with.
    pub focus: Vec<Command>,
}

impl Material {
    /// A pool and the branches over it; then histories and a focus.
    pub fn new(rng: &mut Rng) -> Material {
        let long = rng.percent(35);
        let commuting = rng.percent(if long { 75 } else { 25 });
        let pool = pool(rng, long, commuting);
        let reach = if long { rng.between(24, 40) } else { rng.between(1, 14) };
        let trunk = draw(rng, &pool, &[], reach);
        let mut branches = vec![trunk.clone()];
        for _ in 0..rng.between(1, 3) {
            let cut = if rng.percent(40) { 0 } else { rng.below(trunk.len() + 1) };
            let reach = if long { rng.between(16, 40) } else { rng.between(1, 14) };
            branches.push(draw(rng, &pool, &trunk[..cut], reach));
        }
        let mut m = Material { long, pool, branches, histories: Vec::new(), focus: Vec::new() };
        for _ in 0..rng.between(2, 8) {
            let h = m.part(rng);
            m.histories.push(h);
        }
        m.focus = rng.pick(&m.histories);
        m
    }

    /// A canonical history that some branch extends, of 1 to 32 commands.
    pub fn part(&self, rng: &mut Rng) -> Vec<Command> {
        let branch = rng.pick(&self.branches);
        let top = branch.len().min(LIMIT);
        if rng.percent(50) {
            let n = if rng.percent(30) { top } else { rng.between(1, top) };
            return canonical(&branch[..n]);
        }
        // Keep each command at random, if all it waits for is kept.
        let share = rng.between(30, 98);
        let mut kept: Vec<Command> = Vec::new();
        let mut dropped: Vec<Command> = Vec::new();
        for &c in &branch[..top] {
            if dropped.iter().any(|&d| conflict(d, c)) || !rng.percent(share) {
                dropped.push(c);
            } else {
                kept.push(c);
            }
        }
        if kept.is_empty() {
            kept.push(branch[0]);
        }
        canonical(&kept)
    }

    /// h or a history that extends it, by commands of the pool.
    pub fn grown(&self, rng: &mut Rng, h: &[Command]) -> Vec<Command> {
        if h.len() >= LIMIT || rng.percent(40) {
            return h.to_vec();
        }
        let top = LIMIT.min(h.len() + rng.between(1, 6));
        canonical(&draw(rng, &self.pool, h, top))
    }

    /// A history that h extends: the canonical order of its first commands.
    pub fn shortened(&self, rng: &mut Rng, h: &[Command]) -> Vec<Command> {
        let n = rng.below(h.len() + 1);
        canonical(&h[..n])
    }

    /// Now and then another focus.
    pub fn wander(&mut self, rng: &mut Rng, share: usize) {
        if rng.percent(share) {
            self.focus = if rng.percent(70) { rng.pick(&self.histories) } else { self.part(rng) };
        }
    }
}

/// Correct commands to draw from; if so asked, no two that conflict.
fn pool(rng: &mut Rng, long: bool, commuting: bool) -> Vec<Command> {
    let (size, proposers, serials, slots) = if long {
        (rng.between(40, 70), 8, 60, rng.pick(&[4, 20, 200]))
    } else {
        (rng.between(3, 24), rng.between(1, 6), rng.between(1, 8), rng.pick(&[1, 2, 3, 5, 12]))
    };
    // How many in a hundred are RAISE.
    let raises = if long { rng.pick(&[70, 95, 100]) } else { rng.pick(&[0, 40, 70, 90, 100]) };
    let mut pool = Vec::new();
    for _ in 0..size {
        let c = random_command(rng, proposers, serials, slots, raises);
        if !(commuting && pool.iter().any(|&b| conflict(b, c))) {
            pool.push(c);
        }
    }
    pool
}

/// A correct command within the given numbers, and rarely beyond them.
fn random_command(
    rng: &mut Rng,
    proposers: usize,
    serials: usize,
    slots: usize,
    raises: usize,
) -> Command {
    let proposer = if rng.percent(5) { 255 } else { rng.between(1, proposers) as u8 };
    let serial = match rng.below(20) {
        0 => 65535,
        1 => 256,
        _ => rng.between(1, serials) as u16,
    };
    let slot = match rng.below(20) {
        0 => 65535,
        1 => 256,
        _ => rng.below(slots) as u16,
    };
    if rng.percent(raises) {
        let argument = rng.pick(&[1, 1, 2, 5, 256, 65535]);
        command(proposer, RAISE, serial, slot, argument)
    } else {
        command(proposer, rng.pick(&[ENROL, REVOKE]), serial, slot, 0)
    }
}

/// A history that begins with the given one and goes on with commands of the
/// pool in random order, of at most n commands and at least one.
pub fn draw(rng: &mut Rng, pool: &[Command], begin: &[Command], n: usize) -> Vec<Command> {
    let mut h = begin.to_vec();
    let mut left = pool.to_vec();
    rng.shuffle(&mut left);
    for c in left {
        if h.len() < n.max(1) && !h.iter().any(|&b| same_request(b, c)) {
            h.push(c);
        }
    }
    h
}

/// So many ones below n.
pub fn mask_of(rng: &mut Rng, n: usize, ones: usize) -> u16 {
    let mut bits: Vec<usize> = (0..n).collect();
    rng.shuffle(&mut bits);
    bits[..ones].iter().fold(0, |mask, bit| mask | 1 << bit)
}

/// A mask of at least so many ones, none at N or above.
pub fn good_mask(rng: &mut Rng, r: &Roster, least: usize) -> u16 {
    let n = usize::from(r.n);
    let ones = if rng.percent(50) { least } else { rng.between(least, n) };
    mask_of(rng, n, ones)
}

/// A mask that has fewer ones than asked, or one at N or above, as a rule.
pub fn bad_mask(rng: &mut Rng, r: &Roster, least: usize) -> u16 {
    let n = usize::from(r.n);
    match rng.below(6) {
        0 => mask_of(rng, n, least - 1),
        1 => {
            let ones = rng.below(least);
            mask_of(rng, n, ones)
        }
        2 | 3 => {
            // Enough ones, and one more above the sites if there is room.
            let mask = good_mask(rng, r, least);
            if n < 16 {
                mask | 1 << rng.between(n, 15)
            } else {
                mask_of(rng, n, least - 1)
            }
        }
        4 => {
            // Enough ones only with those above the sites.
            let above = if n < 16 { 1 << n } else { 0 };
            mask_of(rng, n, least - 1) | above
        }
        _ => {
            if n < 16 {
                rng.pick(&[0xffff, 0x8000, 1 << n])
            } else {
                mask_of(rng, n, least / 2)
            }
        }
    }
}

/// A mask that a lent record or state may hold: around so many ones.
pub fn lent_mask(rng: &mut Rng, r: &Roster, around: usize) -> u16 {
    let n = usize::from(r.n);
    let ones = match rng.below(6) {
        0 => rng.below(n + 1),
        1 => around.saturating_sub(1),
        2 => around,
        3 => around.saturating_sub(2),
        _ => rng.below(around + 1),
    };
    mask_of(rng, n, ones.min(n))
}

/// A site; of those that the mask lacks in so many of a hundred cases.
pub fn site_beyond(rng: &mut Rng, r: &Roster, mask: u16, share: usize) -> u8 {
    let lacking: Vec<u8> = (0..r.n).filter(|&i| mask & bit(i) == 0).collect();
    if !lacking.is_empty() && rng.percent(share) {
        rng.pick(&lacking)
    } else {
        rng.below(usize::from(r.n)) as u8
    }
}

/// An output buffer of enough room, with anything in it.
pub fn good_buffer(rng: &mut Rng) -> Vec<u8> {
    let room = if rng.percent(60) { ROOM } else { rng.between(ROOM, ROOM + 200) };
    filled(rng, room)
}

/// An output buffer of too little room, even where the line would fit.
pub fn short_buffer(rng: &mut Rng) -> Vec<u8> {
    let room = match rng.below(5) {
        0 => 0,
        1 | 2 => ROOM - 1,
        3 => rng.pick(&[1, 36, 37, 52, 53, 1024]),
        _ => rng.below(ROOM),
    };
    filled(rng, room)
}

/// So many bytes, all alike or each different.
fn filled(rng: &mut Rng, room: usize) -> Vec<u8> {
    let one = rng.next() as u8;
    if rng.percent(50) {
        return vec![one; room];
    }
    (0..room).map(|i| one.wrapping_add(i as u8).wrapping_mul(157)).collect()
}

/// An own number that isn't one.
pub fn bad_own(rng: &mut Rng, r: &Roster) -> u8 {
    rng.pick(&[r.n, r.n, r.n + 1, 16, 17, 32, 128, 255, r.n | 16, r.n | 128])
}

/// The buffer with bytes after it that aren't lent, to see that they stay.
pub fn guarded(out: &[u8]) -> Vec<u8> {
    [out, &[0x5a; 64]].concat()
}
