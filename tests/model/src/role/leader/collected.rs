//! The cases of report N-f. Where a rule decides, the result is held against
//! the one of another rule: the case counts only if they differ.

use crate::frames::Frame;
use crate::generate::leader::Call;
use crate::layout::{LeaderOutcome, Table};
use crate::leader::{append, chosen};
use crate::rules::*;
use crate::tally::{owned, Tally};

const CHOSEN: [&str; 9] = [
    "report N-f: P2A goes out",
    "report N-f, nothing proven, held or pending: nothing goes out",
    "report N-f, held alone goes out",
    "report N-f, pending alone goes out",
    "report N-f, the longest proven is not the lowest site's",
    "report N-f, the longest proven is the last to come",
    "report N-f, of several longest the lowest site's decides",
    "report N-f, commands of other proven histories are left out",
    "report N-f, an unmarked proven history is longer",
];
const APPENDED: [&str; 12] = [
    "report N-f, held commands are appended",
    "report N-f, pending commands are appended",
    "report N-f, held by rising site decides",
    "report N-f, held before pending decides",
    "report N-f, an unmarked held history would add more",
    "report N-f, a held request is present with other bytes",
    "report N-f, the chosen history has 32",
    "report N-f, held commands are left out at 32",
    "report N-f, pending commands are left out at 32",
    "report N-f, 32 and nothing left out",
    "report N-f, the canonical order is not the one of appending",
    "report N-f, P2A of a view above 0",
];
const LEFT: [&str; 6] = [
    "report N-f, pending commands held already leave",
    "report N-f, a pending request present with other bytes stays",
    "report N-f, those of pending that stay keep their order",
    "report N-f, all of pending leaves",
    "report N-f, all of pending stays",
    "report N-f, words past pending are cleared though all of it stays",
];

/// All labels.
pub fn labels() -> Vec<String> {
    owned(&[&CHOSEN[..], &APPENDED, &LEFT].concat())
}

/// What the reports and pending came to.
struct Case<'a> {
    call: &'a Call,
    after: &'a LeaderOutcome,
    sites: Vec<usize>,
    chosen: Vec<Command>,
    /// The result in canonical order.
    result: Vec<Command>,
}

impl Case<'_> {
    /// The proven history of a site.
    fn proven(&self, site: usize) -> &[Command] {
        entry(&self.after.state.proven, site)
    }

    /// The held history of a site.
    fn held(&self, site: usize) -> &[Command] {
        entry(&self.after.state.held, site)
    }

    /// What was pending.
    fn pending(&self) -> &[Command] {
        commands(&self.call.state.pending)
    }

    /// The lists appended to a first one, before they are ordered.
    fn joined(&self, first: &[Command], lists: &[&[Command]]) -> Vec<Command> {
        let mut h = first.to_vec();
        lists.iter().for_each(|list| append(&mut h, list));
        h
    }

    /// The held histories, by rising site.
    fn held_lists(&self) -> Vec<&[Command]> {
        self.sites.iter().map(|&i| self.held(i)).collect()
    }

    /// Is the command's request in the list?
    fn has(list: &[Command], c: Command) -> bool {
        list.iter().any(|&b| same_request(b, c))
    }

    /// Sites that aren't marked, below N.
    fn unmarked(&self, t: &Table, test: impl Fn(&[Command]) -> bool) -> bool {
        let all = 0..usize::from(self.call.given.roster.n);
        all.filter(|i| !self.sites.contains(i)).any(|i| test(entry(t, i)))
    }
}

/// Counts the cases of report N-f.
pub fn tally_result(tally: &mut Tally, call: &Call, frame: &Frame, after: &LeaderOutcome) {
    let s = &after.state;
    let sites = (0..16).filter(|&i| s.reported & bit(i) != 0).map(usize::from).collect();
    let mut case =
        Case { call, after, sites, chosen: chosen(&call.given.roster, s), result: Vec::new() };
    let lists = [case.held_lists(), vec![case.pending()]].concat();
    let plain = case.joined(&case.chosen, &lists);
    case.result = canonical(&plain);
    tally_chosen(tally, &case, usize::from(frame.fields.sender));
    tally_appended(tally, &case);
    tally_limit(tally, &case, &plain);
    tally_left(tally, &case);
}

/// Counts the cases of the choice.
fn tally_chosen(tally: &mut Tally, case: &Case, sender: usize) {
    let (chosen, result) = (&case.chosen, &case.result);
    let longest: Vec<usize> =
        case.sites.iter().copied().filter(|&i| case.proven(i).len() == chosen.len()).collect();
    tally.count(if result.is_empty() { CHOSEN[1] } else { CHOSEN[0] });
    let none_held = case.held_lists().iter().all(|h| h.is_empty());
    let none_pending = case.pending().is_empty();
    let some = chosen.is_empty() && !result.is_empty();
    tally.count_if(some && none_pending, CHOSEN[2]);
    tally.count_if(some && none_held, CHOSEN[3]);
    if chosen.is_empty() {
        return;
    }
    let earlier = case.sites.iter().any(|&i| i < longest[0] && !case.proven(i).is_empty());
    tally.count_if(earlier, CHOSEN[4]);
    tally.count_if(longest == [sender], CHOSEN[5]);
    let lists = [case.held_lists(), vec![case.pending()]].concat();
    let other = |i: usize| canonical(&case.joined(case.proven(i), &lists)) != *result;
    tally.count_if(longest.iter().any(|&i| other(i)), CHOSEN[6]);
    let lost = |i: usize| case.proven(i).iter().any(|c| !result.contains(c));
    tally.count_if(case.sites.iter().any(|&i| lost(i)), CHOSEN[7]);
    let longer = case.unmarked(&case.after.state.proven, |h| h.len() > chosen.len());
    tally.count_if(longer, CHOSEN[8]);
}

/// Counts the cases of appending.
fn tally_appended(tally: &mut Tally, case: &Case) {
    let held = case.held_lists();
    let without = case.joined(&case.chosen, &held);
    tally.count_if(without.len() > case.chosen.len(), APPENDED[0]);
    tally.count_if(case.result.len() > without.len(), APPENDED[1]);
    let differs =
        |lists: &[&[Command]]| canonical(&case.joined(&case.chosen, lists)) != case.result;
    let mut falling = held.clone();
    falling.reverse();
    falling.push(case.pending());
    tally.count_if(differs(&falling), APPENDED[2]);
    let pending_first = [vec![case.pending()], held.clone()].concat();
    tally.count_if(differs(&pending_first), APPENDED[3]);
    let room = case.result.len() < LIMIT;
    let adds = |h: &[Command]| h.iter().any(|&c| !Case::has(&case.result, c));
    tally.count_if(room && case.unmarked(&case.after.state.held, adds), APPENDED[4]);
    let other = |c: Command| Case::has(&case.result, c) && !case.result.contains(&c);
    tally.count_if(held.iter().any(|h| h.iter().any(|&c| other(c))), APPENDED[5]);
}

/// Counts the cases of the limit and of the order.
fn tally_limit(tally: &mut Tally, case: &Case, plain: &[Command]) {
    let missing = |h: &[Command]| h.iter().any(|&c| !Case::has(plain, c));
    let held_missing = case.held_lists().iter().any(|h| missing(h));
    let pending_missing = missing(case.pending());
    tally.count_if(case.chosen.len() == LIMIT, APPENDED[6]);
    tally.count_if(held_missing && case.chosen.len() < LIMIT, APPENDED[7]);
    tally.count_if(pending_missing && !held_missing, APPENDED[8]);
    let exact = plain.len() == LIMIT && !held_missing && !pending_missing;
    tally.count_if(exact && case.chosen.len() < LIMIT, APPENDED[9]);
    tally.count_if(case.result != plain, APPENDED[10]);
    let sends = !case.result.is_empty();
    tally.count_if(sends && case.call.state.view != 0, APPENDED[11]);
}

/// Counts the cases of what stays pending.
fn tally_left(tally: &mut Tally, case: &Case) {
    let (before, after) = (case.pending(), commands(&case.after.state.pending));
    let in_result = |c: &Command| case.result.contains(c);
    tally.count_if(before.iter().any(|c| in_result(c)), LEFT[0]);
    let other = |&c: &Command| Case::has(&case.result, c) && !case.result.contains(&c);
    tally.count_if(before.iter().any(|c| other(c)), LEFT[1]);
    let some = after.len() >= 2 && after.len() < before.len() && !after.is_sorted();
    tally.count_if(some, LEFT[2]);
    tally.count_if(!before.is_empty() && after.is_empty(), LEFT[3]);
    let all = !before.is_empty() && after == before;
    tally.count_if(all, LEFT[4]);
    let words = &case.call.state.pending.words[before.len()..];
    tally.count_if(all && words.iter().any(|&w| w != 0), LEFT[5]);
}
