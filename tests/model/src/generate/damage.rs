//! Faults: wrong commands, histories, rosters and lists.

use super::{command, draw, Material, Rng};
use crate::layout::{History, Roster, Table};
use crate::rules::*;

/// Makes one command wrong.
pub fn spoil_commands(rng: &mut Rng, h: &mut [Command]) {
    if h.is_empty() {
        return;
    }
    let at = if rng.percent(30) { h.len() - 1 } else { rng.below(h.len()) };
    let c = h[at];
    h[at] = match rng.below(9) {
        0 => command(0, kind(c), serial(c), slot(c), argument(c)),
        1 => command(proposer(c), 0, serial(c), slot(c), argument(c)),
        2 => command(proposer(c), 4, serial(c), slot(c), argument(c)),
        3 => command(proposer(c), rng.between(4, 255) as u8, serial(c), slot(c), argument(c)),
        4 => command(proposer(c), kind(c), 0, slot(c), argument(c)),
        5 => command(proposer(c), RAISE, serial(c), slot(c), 0),
        6 => command(proposer(c), ENROL, serial(c), slot(c), rng.between(1, 65535) as u16),
        7 => command(proposer(c), REVOKE, serial(c), slot(c), rng.pick(&[1, 256, 65535])),
        _ => {
            if rng.percent(50) {
                0
            } else {
                rng.next()
            }
        }
    };
}

/// Makes two commands have one proposer and serial, as far as there is room.
pub fn repeat_request(rng: &mut Rng, h: &mut Vec<Command>, pool: &[Command]) {
    if h.is_empty() {
        h.push(pool[0]);
    }
    let c = rng.pick(h);
    let again = match rng.below(3) {
        0 => c,
        1 => command(proposer(c), RAISE, serial(c), rng.below(12) as u16, 1),
        _ => command(proposer(c), ENROL, serial(c), slot(c), 0),
    };
    if h.len() < LIMIT && rng.percent(80) {
        let at = rng.below(h.len() + 1);
        h.insert(at, again);
    } else {
        let at = rng.below(h.len());
        h[at] = again;
    }
    // Often in the order that only the repetition speaks against.
    if rng.percent(60) {
        *h = canonical(h);
    }
}

/// Puts the commands in another order: an equivalent one, a swap of
/// neighbours or any. With luck it is canonical all the same.
pub fn disorder(rng: &mut Rng, h: &mut Vec<Command>, pool: &[Command]) {
    if h.len() < 2 {
        *h = draw(rng, pool, h, 6);
    }
    if h.len() < 2 {
        return;
    }
    match rng.below(4) {
        0 => rng.shuffle(h),
        1 => h.reverse(),
        2 => {
            for _ in 0..2 * h.len() {
                let i = rng.between(1, h.len() - 1);
                if !conflict(h[i - 1], h[i]) {
                    h.swap(i - 1, i);
                }
            }
        }
        _ => {
            let i = rng.between(1, h.len() - 1);
            h.swap(i - 1, i);
        }
    }
}

/// A roster outside the figures, or now and then another correct one.
pub fn other_roster(rng: &mut Rng, good: &Roster) -> Roster {
    let (n, f) = match rng.below(8) {
        0 => (rng.below(4), 1),
        1 => (rng.pick(&[17, 18, 32, 128, 255, 256 - 4]), rng.between(1, 5)),
        2 => (usize::from(good.n), 0),
        3 => {
            let n = usize::from(good.n);
            (n, (n - 1) / 3 + 1)
        }
        // 3f+1 of these is small if it is counted in one byte.
        4 => (usize::from(good.n), rng.pick(&[85, 86, 87, 170, 171, 172, 255])),
        5 => rng.pick(&[(0, 0), (3, 1), (6, 2), (9, 3), (12, 4), (15, 5), (3, 0), (1, 0), (16, 6)]),
        6 => {
            let n = rng.between(4, 16);
            (n, rng.between(1, (n - 1) / 3))
        }
        _ => (rng.below(256), rng.below(256)),
    };
    Roster { n: n as u8, f: f as u8 }
}

// ---- Lent lists -----------------------------------------------------------

/// Writes a history over the front of a list; the words after it stay.
pub fn set_history(list: &mut History, h: &[Command]) {
    list.count = h.len() as u8;
    list.words[..h.len()].copy_from_slice(h);
}

/// Writes a history over the front of a row; the words after it stay.
pub fn set_entry(t: &mut Table, site: usize, h: &[Command]) {
    t.counts[site] = h.len() as u8;
    t.words[site * LIMIT..site * LIMIT + h.len()].copy_from_slice(h);
}

/// Words to be strewn where they mean nothing: one style, so many in a
/// hundred places.
pub struct Litter {
    style: usize,
    share: usize,
}

impl Litter {
    /// Any style.
    pub fn new(rng: &mut Rng) -> Litter {
        Litter { style: rng.below(4), share: rng.pick(&[5, 50, 100]) }
    }

    /// A word of the style.
    fn word(&self, rng: &mut Rng, pool: &[Command]) -> u64 {
        match self.style {
            0 => rng.next(),
            1 => rng.pick(pool),
            2 => u64::MAX,
            _ => {
                if rng.percent(50) {
                    rng.pick(pool)
                } else {
                    rng.next() & 3
                }
            }
        }
    }

    /// Strews the words past a count.
    fn strew(&self, rng: &mut Rng, count: u8, words: &mut [u64], pool: &[Command]) {
        for word in words.iter_mut().skip(usize::from(count)) {
            if rng.percent(self.share) {
                *word = self.word(rng, pool);
            }
        }
    }

    /// Strews the words past a history.
    pub fn history(&self, rng: &mut Rng, h: &mut History, pool: &[Command]) {
        self.strew(rng, h.count, &mut h.words, pool);
    }

    /// Strews the words past each row's count.
    pub fn table(&self, rng: &mut Rng, t: &mut Table, pool: &[Command]) {
        for (site, words) in t.words.chunks_mut(LIMIT).enumerate() {
            self.strew(rng, t.counts[site], words, pool);
        }
    }
}

/// What a damaged list gets: a count, and words at its front.
pub struct BadList {
    pub count: u8,
    pub words: Vec<Command>,
}

/// A list that is wrong in one way (or, rarely, only looks so).
pub fn bad_list(rng: &mut Rng, m: &Material) -> BadList {
    let mut h = if rng.percent(50) { rng.pick(&m.histories) } else { m.part(rng) };
    match rng.below(6) {
        0 => {
            // The count alone is wrong: the words would do.
            let words = draw(rng, &m.pool, &h, LIMIT);
            if words.len() <= LIMIT {
                h = canonical(&words);
            }
            return BadList { count: rng.pick(&[33, 33, 34, 48, 64, 128, 255]), words: h };
        }
        1 | 2 => spoil_commands(rng, &mut h),
        3 => repeat_request(rng, &mut h, &m.pool),
        _ => disorder(rng, &mut h, &m.pool),
    }
    h.truncate(LIMIT);
    BadList { count: h.len() as u8, words: h }
}

/// Damages a history: a wrong list in its place, or a count that takes in a
/// word that meant nothing.
pub fn damage_history(rng: &mut Rng, h: &mut History, m: &Material) {
    if rng.percent(12) {
        h.count = (h.count + 1).min(32);
        return;
    }
    let bad = bad_list(rng, m);
    h.words[..bad.words.len()].copy_from_slice(&bad.words);
    h.count = bad.count;
}

/// Damages a table: a row as a history is damaged, or a correct entry of a
/// site that isn't there.
pub fn damage_table(rng: &mut Rng, t: &mut Table, r: &Roster, m: &Material) {
    let n = usize::from(r.n);
    if n < SITES && rng.percent(20) {
        let site = if rng.percent(40) { n } else { rng.between(n, SITES - 1) };
        let h = m.part(rng);
        set_entry(t, site, &h);
        return;
    }
    let site = match rng.below(4) {
        0 => rng.below(SITES),
        1 => n - 1,
        _ => rng.below(n),
    };
    if rng.percent(12) {
        t.counts[site] = (t.counts[site] + 1).min(32);
        return;
    }
    let bad = bad_list(rng, m);
    set_entry(t, site, &bad.words);
    t.counts[site] = bad.count;
}
