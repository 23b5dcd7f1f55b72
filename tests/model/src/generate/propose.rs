//! Commands for PROPOSE, beside the list that they are read against.

use super::{command, draw, Material, Rng};
use crate::rules::*;

impl Material {
    /// One proposer's commands, in any order: new to the list, known to it or
    /// known with other bytes.
    pub fn proposal(&self, rng: &mut Rng, list: &[Command]) -> (u8, Vec<Command>) {
        let who = proposer(if list.is_empty() || rng.percent(60) {
            rng.pick(&self.pool)
        } else {
            rng.pick(list)
        });
        let known: Vec<Command> = list.iter().copied().filter(|&c| proposer(c) == who).collect();
        let mut h: Vec<Command> = match rng.below(100) {
            0..=11 => Vec::new(),
            12..=21 => reused(rng, &known),
            22..=31 => [reused(rng, &known), self.new_ones(rng, list, who)].concat(),
            _ => self.new_ones(rng, list, who),
        };
        let part = rng.below(known.len() + 1);
        let rest = known[..part].iter().filter(|&&c| !h.iter().any(|&b| same_request(b, c)));
        let rest: Vec<Command> = rest.copied().collect();
        if rng.percent(40) || h.is_empty() {
            h.extend(rest);
        }
        if h.is_empty() {
            h = self.new_ones(rng, list, who);
        }
        h.truncate(LIMIT);
        if rng.percent(70) {
            rng.shuffle(&mut h);
        }
        (who, h)
    }

    /// A proposer's commands whose requests aren't in the list: from the pool,
    /// or others with serials not yet used.
    fn new_ones(&self, rng: &mut Rng, list: &[Command], who: u8) -> Vec<Command> {
        let most = match rng.below(10) {
            0 => 32,
            1 | 2 => 12,
            _ => 3,
        };
        let own: Vec<Command> = (self.pool.iter().copied())
            .filter(|&c| proposer(c) == who && !list.iter().any(|&h| same_request(h, c)))
            .collect();
        let most = rng.between(1, most);
        let mut h = if own.is_empty() { Vec::new() } else { draw(rng, &own, &[], most) };
        for extra in 0..most {
            let c = self.made_up(rng, who, 1000 + extra as u16);
            let known = list.iter().any(|&b| same_request(b, c));
            if !known && h.len() < most && rng.percent(50) {
                h.push(c);
            }
        }
        h
    }

    /// A correct command on a slot of the pool.
    fn made_up(&self, rng: &mut Rng, who: u8, serial: u16) -> Command {
        let slot = slot(rng.pick(&self.pool));
        match rng.pick(&[ENROL, REVOKE, RAISE, RAISE, RAISE]) {
            RAISE => command(who, RAISE, serial, slot, rng.between(1, 9) as u16),
            kind => command(who, kind, serial, slot, 0),
        }
    }
}

/// A known command's request with other bytes.
pub fn reused(rng: &mut Rng, known: &[Command]) -> Vec<Command> {
    if known.is_empty() {
        return Vec::new();
    }
    let c = rng.pick(known);
    let other = match rng.below(3) {
        0 => command(proposer(c), RAISE, serial(c), slot(c), argument(c).wrapping_add(1).max(1)),
        1 => command(proposer(c), ENROL, serial(c), slot(c) ^ 1, 0),
        _ => command(proposer(c), REVOKE, serial(c), slot(c), 0),
    };
    vec![other]
}

/// A long list and a proposal of proposer 2 that just fits or just doesn't.
pub fn filling(rng: &mut Rng) -> (Vec<Command>, Vec<Command>) {
    let n = rng.between(26, 32);
    let list: Vec<Command> = (0..n).map(|i| command(2, RAISE, 1 + i as u16, 3, 1)).collect();
    let spare = LIMIT - n;
    let new = (spare + rng.below(3)).max(1);
    let mut h: Vec<Command> = (0..new).map(|i| command(2, RAISE, 500 + i as u16, 3, 2)).collect();
    h.extend(&list[..rng.below(LIMIT - new)]);
    if rng.percent(10) {
        // Known with another argument: REUSED comes before FULL.
        h[0] = command(2, RAISE, 1 + rng.below(n) as u16, 3, 9);
    }
    rng.shuffle(&mut h);
    (list, h)
}
