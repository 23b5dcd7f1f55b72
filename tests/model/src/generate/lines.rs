//! Broken lines: fields, counts and text of a frame damaged.

use super::{draw, Rng};
use crate::frames::{encode, Fields, Used};
use crate::rules::*;

const DIGITS: &[u8] = b"0123456789abcdef";
const LARGE: [u32; 5] = [1, 256, 0x0001_0000, 0x0100_0000, u32::MAX];

/// Sets one field that the kind doesn't use; the commands stay.
fn set_unused(rng: &mut Rng, f: &mut Fields) {
    let used = Fields::used(f.kind).unwrap_or_default();
    let large = if rng.percent(20) { f.ballot.max(1) } else { rng.pick(&LARGE) };
    let small = rng.pick(&[1, 2, 32, 33, 255]);
    let bits = rng.pick(&[1, 7, 0x0100, 0x8000, 0xffff]);
    // P1B uses all but the view, so an end is found.
    for at in rng.below(6).. {
        match at % 6 {
            0 if !used.view => f.view = large,
            1 if !used.ballot => f.ballot = large,
            2 if !used.proven_ballot => f.proven_ballot = large,
            3 if !used.mask => f.mask = bits,
            4 if !used.n => f.n = small,
            5 if !used.m => f.m = small,
            _ => continue,
        }
        return;
    }
}

/// The line with a count that the kind doesn't use, and its commands: more
/// ones, or some of those that are there under the other name.
fn unused_commands(rng: &mut Rng, f: &mut Fields, h: &[Command], pool: &[Command]) -> Vec<u8> {
    let used = Fields::used(f.kind).unwrap_or(Used::default());
    let mut all = h.to_vec();
    if !used.n && rng.percent(60) {
        f.n = rng.between(1, 32) as u8;
        all.extend((0..f.n).map(|_| rng.pick(pool)));
    } else if rng.percent(50) || all.is_empty() {
        f.m = rng.between(1, 32) as u8;
        all.extend((0..f.m).map(|_| rng.pick(pool)));
    } else {
        f.m = rng.between(1, all.len()) as u8;
        f.n = f.n.wrapping_sub(f.m);
    }
    encode(f, &all)
}

/// A correct frame of any kind, as far as its form goes.
fn other_kind(rng: &mut Rng, good: &Fields, h: &[Command], pool: &[Command]) -> Vec<u8> {
    let mut f = Fields::of(rng.between(1, 10) as u8, good.sender);
    let used = Fields::used(f.kind).unwrap_or_default();
    let mut all = Vec::new();
    if used.view {
        f.view = good.view;
    }
    if used.ballot {
        f.ballot = good.ballot;
    }
    if used.proven_ballot {
        f.proven_ballot = rng.pick(&[0, 1, good.ballot]);
    }
    if used.mask {
        f.mask = if good.mask == 0 { rng.next() as u16 } else { good.mask };
    }
    if used.n {
        all = if h.is_empty() { draw(rng, pool, &[], 5) } else { h.to_vec() };
        f.n = all.len() as u8;
    }
    if used.m {
        f.m = rng.below(33) as u8;
        all.extend((0..f.m).map(|_| rng.pick(pool)));
    }
    encode(&f, &all)
}

/// One letter of the line in upper case, or a digit replaced by one.
fn upper_case(rng: &mut Rng, line: &mut [u8]) {
    let letters: Vec<usize> = (0..line.len()).filter(|&i| line[i].is_ascii_lowercase()).collect();
    if letters.is_empty() {
        let at = rng.below(line.len() - 1);
        line[at] = b'A';
    } else {
        line[rng.pick(&letters)].make_ascii_uppercase();
    }
}

/// So many digits before the line feed.
fn lengthen(rng: &mut Rng, line: &mut Vec<u8>, more: usize) {
    let end = line.len() - 1;
    let digits: Vec<u8> = (0..more).map(|_| rng.pick(DIGITS)).collect();
    line.splice(end..end, digits);
}

/// Bytes that were never a frame.
fn noise(rng: &mut Rng) -> Vec<u8> {
    if rng.percent(50) {
        let long = rng.below(1200);
        let mut line: Vec<u8> = (0..long).map(|_| rng.next() as u8).collect();
        if rng.percent(50) {
            line.push(b'\n');
        }
        return line;
    }
    let long = rng.between(1000, 5000);
    let one = rng.next() as u8;
    let letters = rng.percent(50);
    let mut line: Vec<u8> =
        (0..long).map(|_| if letters { rng.pick(DIGITS) } else { one }).collect();
    line.push(b'\n');
    line
}

/// Damage to the fields of a correct frame.
fn broken_fields(rng: &mut Rng, good: &Fields, h: &[Command], pool: &[Command]) -> Vec<u8> {
    let mut f = good.clone();
    match rng.below(8) {
        0..=2 => set_unused(rng, &mut f),
        3 => return unused_commands(rng, &mut f, h, pool),
        4 => {
            // n over 32, or m where it is used, with all its commands.
            let over = rng.pick(&[33, 33, 34, 40, 64, 128, 255]);
            if Fields::used(f.kind).unwrap_or_default().m && rng.percent(50) {
                f.n = f.n.min(LIMIT as u8);
                f.m = over;
            } else {
                f.n = over;
                f.m = 0;
            }
            let all = (0..usize::from(f.n) + usize::from(f.m)).map(|_| rng.pick(pool));
            return encode(&f, &all.collect::<Vec<Command>>());
        }
        5 => f.n = rng.pick(&[f.n.wrapping_add(1), f.n.wrapping_sub(1), f.n | 32, f.n | 128, 0]),
        6 => f.kind = rng.pick(&[0, 1, 2, 3, 4, 5, 6, 7, 8, 9, 10, 11, 23, 0x70, 0x87, 255]),
        _ => return other_kind(rng, good, h, pool),
    }
    encode(&f, h)
}

/// Damage to the text of a line.
fn broken_text(rng: &mut Rng, line: &mut Vec<u8>) {
    let at = rng.below(line.len());
    match rng.below(21) {
        which @ 0..=9 => broken_length(rng, line, at, which),
        10 => {
            line.remove(at);
        }
        11 => *line = noise(rng),
        12 => line.clear(),
        13 => *line = b"\n".to_vec(),
        14 | 15 => line[at] = rng.pick(b"/:`g@GAFaf \x1f\x7f\x80\xb0\xe1\xff"),
        16 => {
            if rng.percent(50) {
                line[at] = b'\n';
            } else {
                line.insert(at, b'\n');
            }
        }
        17 => {
            let at = if rng.percent(50) { 0 } else { line.len() - 1 };
            line.insert(at, rng.pick(b" 0\t"));
        }
        18 => line[at] ^= 1 << rng.below(8),
        19 => line.extend(line.clone()),
        _ => {
            // So much too long that a small count of the length goes round.
            let more = rng.pick(&[256, 512, 4096]);
            lengthen(rng, line, more);
        }
    }
}

/// Damage to the end of a line, to its length or to one letter.
fn broken_length(rng: &mut Rng, line: &mut Vec<u8>, at: usize, which: usize) {
    let end = line.len() - 1;
    match which {
        0 => line.truncate(at),
        1 => {
            line.truncate(at);
            line.push(b'\n');
        }
        2 => upper_case(rng, line),
        3 => line.truncate(end),
        4 => line.push(b'\n'),
        5 => line.insert(end, b'\r'),
        6 => line[end] = rng.pick(b"\r\0 0a\x8a\x1a"),
        7 => line.insert(at, 0),
        8 => line[at] = 0,
        _ => {
            let more = rng.pick(&[1, 2, 3, 8, 15, 16, 17]);
            lengthen(rng, line, more);
        }
    }
}

/// A line that isn't such a line, as a rule.
pub fn broken_line(rng: &mut Rng, good: &Fields, h: &[Command], pool: &[Command]) -> Vec<u8> {
    if rng.percent(35) {
        return broken_fields(rng, good, h, pool);
    }
    let mut line = encode(good, h);
    broken_text(rng, &mut line);
    line
}
