//! What all roles share, written in plain Rust from the wording of the scope
//! document alone: numbers, rosters, commands, histories and lists that are
//! lent. It shares no code with the core and favours the obvious way over the
//! quick one.

use crate::layout::{History, Roster, Table};

/// A command: its eight bytes, big-endian, as one number. Comparing numbers
/// is comparing the eight bytes.
pub type Command = u64;

/// A history holds at most this many commands.
pub const LIMIT: usize = 32;
/// The table has a row for each of so many sites.
pub const SITES: usize = 16;
/// The longest line, and the least room for output.
pub const ROOM: usize = 1061;

pub const ACCEPTED: u8 = 0;
pub const CONFIG: u8 = 1;
pub const FORM: u8 = 2;
pub const SENDER: u8 = 3;
pub const STALE: u8 = 4;
pub const PROOF: u8 = 5;
pub const COMMAND: u8 = 6;
pub const HISTORY: u8 = 7;
pub const BEHIND: u8 = 8;
pub const REUSED: u8 = 9;
pub const CONTRADICTION: u8 = 10;
pub const SPLIT: u8 = 11;
pub const NOTHING: u8 = 12;
pub const FULL: u8 = 13;

pub const ENROL: u8 = 1;
pub const REVOKE: u8 = 2;
pub const RAISE: u8 = 3;

// ---- Roster ---------------------------------------------------------------

/// 4 <= N <= 16, f >= 1, N >= 3f+1.
pub fn roster_valid(r: &Roster) -> bool {
    let n = u32::from(r.n);
    let f = u32::from(r.f);
    4 <= n && n <= 16 && f >= 1 && n >= 3 * f + 1
}

/// N-f, of a valid roster.
pub fn quorum(r: &Roster) -> u32 {
    u32::from(r.n) - u32::from(r.f)
}

/// The mask with the bit of one site.
pub fn bit(site: u8) -> u16 {
    1 << site
}

/// Is there a mask bit at N or above?
pub fn bit_outside(r: &Roster, mask: u16) -> bool {
    (0..16).any(|i| i >= r.n && mask & bit(i) != 0)
}

/// Is the site the one that leads the view?
pub fn leads(r: &Roster, site: u8, view: u32) -> bool {
    u32::from(site) == view % u32::from(r.n)
}

// ---- Commands -------------------------------------------------------------

/// A command's first byte.
pub fn proposer(c: Command) -> u8 {
    c.to_be_bytes()[0]
}

/// A command's second byte.
pub fn kind(c: Command) -> u8 {
    c.to_be_bytes()[1]
}

/// A command's bytes 2 and 3.
pub fn serial(c: Command) -> u16 {
    let b = c.to_be_bytes();
    u16::from_be_bytes([b[2], b[3]])
}

/// A command's bytes 4 and 5.
pub fn slot(c: Command) -> u16 {
    let b = c.to_be_bytes();
    u16::from_be_bytes([b[4], b[5]])
}

/// A command's bytes 6 and 7.
pub fn argument(c: Command) -> u16 {
    let b = c.to_be_bytes();
    u16::from_be_bytes([b[6], b[7]])
}

/// Are the command's fields right?
pub fn command_valid(c: Command) -> bool {
    proposer(c) != 0
        && serial(c) != 0
        && match kind(c) {
            ENROL | REVOKE => argument(c) == 0,
            RAISE => argument(c) >= 1,
            _ => false,
        }
}

/// Do proposer and serial agree?
pub fn same_request(a: Command, b: Command) -> bool {
    proposer(a) == proposer(b) && serial(a) == serial(b)
}

/// The table of kinds: everything but RAISE with RAISE.
pub fn kinds_conflict(a: u8, b: u8) -> bool {
    !(a == RAISE && b == RAISE)
}

/// Do two commands conflict?
pub fn conflict(a: Command, b: Command) -> bool {
    same_request(a, b) || (slot(a) == slot(b) && kinds_conflict(kind(a), kind(b)))
}

// ---- Histories ------------------------------------------------------------

/// Are there two commands of one proposer and serial?
pub fn repeats(h: &[Command]) -> bool {
    (0..h.len()).any(|i| (0..i).any(|j| same_request(h[j], h[i])))
}

/// Takes, again and again, the smallest remaining command that has no
/// conflicting command still before it.
pub fn canonical(h: &[Command]) -> Vec<Command> {
    let mut rest = h.to_vec();
    let mut order = Vec::with_capacity(h.len());
    while !rest.is_empty() {
        // Nothing stands before the first, so there always is one to take.
        let mut best = 0;
        for i in 1..rest.len() {
            let smaller = rest[i] < rest[best];
            if smaller && !rest[..i].iter().any(|&before| conflict(before, rest[i])) {
                best = i;
            }
        }
        order.push(rest.remove(best));
    }
    order
}

/// Is it in its canonical order?
pub fn is_canonical(h: &[Command]) -> bool {
    canonical(h) == h
}

/// Equivalent histories have one canonical order.
pub fn equivalent(g: &[Command], h: &[Command]) -> bool {
    canonical(g) == canonical(h)
}

/// g, then those of h that g lacks, in the order they have in h.
pub fn followed_by_rest(g: &[Command], h: &[Command]) -> Vec<Command> {
    let mut k = g.to_vec();
    k.extend(h.iter().copied().filter(|c| !g.contains(c)));
    k
}

/// Does h extend g: is there an x with g followed by x equivalent to h?
/// Swaps neither add nor drop a command, so x can only consist of what h has
/// beyond g; and they never turn two conflicting commands round, so the order
/// of h serves for x if any order does.
pub fn extends(h: &[Command], g: &[Command]) -> bool {
    g.iter().all(|c| h.contains(c)) && equivalent(&followed_by_rest(g, h), h)
}

/// The canonical least history that extends both, where there is one. It can
/// only be g followed by what h has beyond g.
pub fn merge(g: &[Command], h: &[Command]) -> Option<Vec<Command>> {
    let k = followed_by_rest(g, h);
    if !repeats(&k) && extends(&k, g) && extends(&k, h) {
        Some(canonical(&k))
    } else {
        None
    }
}

/// A list followed by those of the proposed commands that it lacks, or the
/// number of the refusal: REUSED, NOTHING or FULL.
pub fn appended(list: &[Command], proposed: &[Command]) -> Result<Vec<Command>, u8> {
    let reused = |c: Command| list.iter().any(|&h| same_request(h, c) && h != c);
    if proposed.iter().any(|&c| reused(c)) {
        return Err(REUSED);
    }
    if proposed.iter().all(|c| list.contains(c)) {
        return Err(NOTHING);
    }
    let longer = followed_by_rest(list, proposed);
    if longer.len() > LIMIT {
        return Err(FULL);
    }
    Ok(longer)
}

// ---- Lists that are lent --------------------------------------------------

/// A stored list in any order, by its count and its 32 words, is one that may
/// be lent: words past the count mean nothing.
pub fn list_sound(count: u8, words: &[u64]) -> bool {
    let count = usize::from(count);
    count <= LIMIT && words[..count].iter().all(|&c| command_valid(c)) && !repeats(&words[..count])
}

/// A stored list that is a history is one that may be lent: canonical too.
pub fn list_valid(count: u8, words: &[u64]) -> bool {
    list_sound(count, words) && is_canonical(&words[..usize::from(count)])
}

/// May the history be lent?
pub fn history_valid(h: &History) -> bool {
    list_valid(h.count, &h.words)
}

/// May the table be lent: is each row a right list, and are those at N or
/// above empty?
pub fn table_valid(r: &Roster, t: &Table) -> bool {
    (0..SITES).all(|site| list_valid(t.counts[site], row(t, site)))
        && (usize::from(r.n)..SITES).all(|site| t.counts[site] == 0)
}

/// The 32 words of a site.
pub fn row(t: &Table, site: usize) -> &[u64] {
    &t.words[site * LIMIT..(site + 1) * LIMIT]
}

/// The history stored for a site.
pub fn entry(t: &Table, site: usize) -> &[Command] {
    &row(t, site)[..usize::from(t.counts[site])]
}

/// The commands of a history.
pub fn commands(h: &History) -> &[Command] {
    &h.words[..usize::from(h.count)]
}

/// A history of at most 32 commands in the form it is stored: zeros after it.
pub fn stored(h: &[Command]) -> History {
    let mut words = [0; LIMIT];
    words[..h.len()].copy_from_slice(h);
    History { count: h.len() as u8, words }
}

/// Stores a history of at most 32 commands for a site.
pub fn store(t: &mut Table, site: usize, h: &[Command]) {
    let h = stored(h);
    t.counts[site] = h.count;
    t.words[site * LIMIT..(site + 1) * LIMIT].copy_from_slice(&h.words);
}
