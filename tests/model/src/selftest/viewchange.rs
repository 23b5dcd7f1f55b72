//! The model of the view change alone, on cases worked out by hand.

use super::{A, FOUR};
use crate::frames::{write, Fields, LEADER, P2B, SUSPICION, VIEWCHANGE};
use crate::layout::{Roster, ViewRecord};
use crate::rules::*;
use crate::viewchange::step;

const OWN: u8 = 2;

/// A line without commands.
fn line(kind: u8, sender: u8, view: u32, mask: u16) -> Vec<u8> {
    write(Fields { view, mask, ..Fields::of(kind, sender) }, &[], &[])
}

/// A record of these figures.
fn record(view: u32, suspicions: u16, target: u32, changes: u16) -> ViewRecord {
    ViewRecord { view, suspicions, target, changes }
}

/// The record after an accepted line and what is sent; the rest of the buffer
/// stays.
fn accepted(r: &Roster, views: &ViewRecord, text: &[u8]) -> (ViewRecord, Vec<u8>) {
    let mut out = vec![0xaa; 1100];
    let o = step(r, OWN, views, text, &mut out);
    assert_eq!(o.answer, ACCEPTED);
    assert!(out[o.sent..].iter().all(|&b| b == 0xaa));
    (o.views, out[..o.sent].to_vec())
}

/// The number of a refusal, which changes nothing.
fn refused(r: &Roster, own: u8, views: &ViewRecord, text: &[u8], room: usize) -> u8 {
    let mut out = vec![0xaa; room];
    let o = step(r, own, views, text, &mut out);
    assert!(o.answer != ACCEPTED && o.sent == 0 && o.views == *views);
    assert_eq!(out, vec![0xaa; room]);
    o.answer
}

/// All cases.
pub fn run() {
    suspicions();
    changes();
    whole_change();
    refusals();
}

/// SUSPICION, up to f+1 and beyond, with a target and without.
fn suspicions() {
    let fresh = ViewRecord::fresh();
    let (one, sent) = accepted(&FOUR, &fresh, &line(SUSPICION, 3, 0, 0));
    assert_eq!((one, sent), (record(0, 0b1000, 0, 0), vec![]));
    // The same site twice is one site.
    assert_eq!(accepted(&FOUR, &one, &line(SUSPICION, 3, 0, 0)), (one, vec![]));
    // f+1 with its own: target 1 with its own bit.
    let (two, sent) = accepted(&FOUR, &one, &line(SUSPICION, OWN, 0, 0));
    assert_eq!(two, record(0, 0b1100, 1, 0b0100));
    assert_eq!(sent, b"0902000000010000000000000000000c0000\n");
    assert_eq!(sent, line(VIEWCHANGE, OWN, 1, 0b1100));
    // A third only counts.
    let (three, sent) = accepted(&FOUR, &two, &line(SUSPICION, 0, 0, 0));
    assert_eq!((three, sent), (record(0, 0b1101, 1, 0b0100), vec![]));
    // A target mask of before is written over, not added to.
    let (after, _) = accepted(&FOUR, &record(6, 1, 0, 0b1011), &line(SUSPICION, 1, 6, 0));
    assert_eq!(after, record(6, 0b11, 7, 0b0100));
    // f = 5 needs six.
    let large = Roster { n: 16, f: 5 };
    let (five, sent) = accepted(&large, &record(9, 0b01111, 0, 0), &line(SUSPICION, 4, 9, 0));
    assert_eq!((five, sent), (record(9, 0b11111, 0, 0), vec![]));
    let (six, sent) = accepted(&large, &five, &line(SUSPICION, 15, 9, 0));
    assert_eq!(six, record(9, 0x801f, 10, 0b100));
    assert_eq!(sent, line(VIEWCHANGE, OWN, 10, 0x801f));
}

/// VIEWCHANGE with a new target and an equal one.
fn changes() {
    let fresh = ViewRecord::fresh();
    let (new, sent) = accepted(&FOUR, &fresh, &line(VIEWCHANGE, 0, 5, 0b1010));
    assert_eq!(new, record(0, 0, 5, 0b0101));
    assert_eq!(sent, line(VIEWCHANGE, OWN, 5, 0b1010));
    // From itself: one bit.
    let (own, sent) = accepted(&FOUR, &fresh, &line(VIEWCHANGE, OWN, 5, 0b0011));
    assert_eq!(own, record(0, 0, 5, 0b0100));
    assert_eq!(sent, line(VIEWCHANGE, OWN, 5, 0b0011));
    // Above the target: the mask starts again, suspicions stay.
    let (above, sent) =
        accepted(&FOUR, &record(0, 0b0011, 5, 0b0101), &line(VIEWCHANGE, 3, 9, 0b0011));
    assert_eq!(above, record(0, 0b0011, 9, 0b1100));
    assert_eq!(sent, line(VIEWCHANGE, OWN, 9, 0b0011));
    // Equal, sender there already; equal, one more.
    assert_eq!(accepted(&FOUR, &new, &line(VIEWCHANGE, 0, 5, 0b1010)), (new, vec![]));
    let (moved, sent) =
        accepted(&FOUR, &record(0, 0b0011, 5, 0b0101), &line(VIEWCHANGE, 3, 5, 0b0011));
    assert_eq!(moved, record(5, 0, 0, 0));
    assert_eq!(sent, line(LEADER, OWN, 5, 0b1101));
    // Already enough in a lent record: the count is what matters.
    let (moved, sent) = accepted(&FOUR, &record(7, 0, 8, 0b1111), &line(VIEWCHANGE, 1, 8, 0b1111));
    assert_eq!((moved, sent), (record(8, 0, 0, 0), line(LEADER, OWN, 8, 0b1111)));
    // The last view can be reached.
    let last = record(7, 1, u32::MAX, 0b0011);
    let (moved, sent) = accepted(&FOUR, &last, &line(VIEWCHANGE, 3, u32::MAX, 0b0011));
    assert_eq!((moved, sent), (record(u32::MAX, 0, 0, 0), line(LEADER, OWN, u32::MAX, 0b1011)));
}

/// Three of four sites go from view 0 to view 1.
fn whole_change() {
    let mut views = ViewRecord::fresh();
    let lines = [
        (line(SUSPICION, 1, 0, 0), 0),
        (line(SUSPICION, 3, 0, 0), VIEWCHANGE),
        (line(VIEWCHANGE, OWN, 1, 0b1010), 0),
        (line(VIEWCHANGE, 1, 1, 0b1010), 0),
        (line(VIEWCHANGE, 3, 1, 0b1110), LEADER),
    ];
    for (text, kind) in lines {
        let (after, sent) = accepted(&FOUR, &views, &text);
        assert_eq!(sent.is_empty(), kind == 0);
        assert!(kind == 0 || sent[..2] == line(kind, 0, 0, 0)[..2]);
        views = after;
    }
    assert_eq!(views, record(1, 0, 0, 0));
}

/// Each refusal, first in its order.
fn refusals() {
    let views = record(4, 0b0001, 6, 0b0010);
    let good = line(VIEWCHANGE, 1, 6, 0b0011);
    let of = |views: &ViewRecord, text: &[u8]| refused(&FOUR, OWN, views, text, ROOM);
    assert_eq!(refused(&Roster { n: 3, f: 1 }, OWN, &views, &good, ROOM), CONFIG);
    assert_eq!(refused(&Roster { n: 6, f: 2 }, OWN, &views, &good, ROOM), CONFIG);
    assert_eq!(refused(&FOUR, 4, &views, &good, ROOM), CONFIG);
    assert_eq!(refused(&FOUR, OWN, &views, &good, ROOM - 1), CONFIG);
    assert_eq!(of(&record(4, 0x11, 6, 2), &good), CONFIG);
    assert_eq!(of(&record(4, 1, 6, 0x8002), &good), CONFIG);
    assert_eq!(of(&record(4, 1, 6, 0x12), b""), CONFIG);

    assert_eq!(of(&views, &good[..good.len() - 1]), FORM);
    assert_eq!(of(&views, &line(LEADER, 1, 6, 0b0011)), FORM);
    assert_eq!(of(&views, &write(Fields { ballot: 1, ..Fields::of(P2B, 0) }, &[A], &[])), FORM);
    assert_eq!(of(&views, &line(SUSPICION, 1, 4, 1)), FORM);
    assert_eq!(of(&views, &line(SUSPICION, 4, 3, 0)), SENDER);
    assert_eq!(of(&views, &line(VIEWCHANGE, 4, 6, 0b0011)), SENDER);
    assert_eq!(of(&views, &line(SUSPICION, 1, 3, 0)), STALE);
    assert_eq!(of(&views, &line(SUSPICION, 1, 5, 0)), STALE);
    assert_eq!(of(&views, &line(VIEWCHANGE, 1, 4, 0)), STALE);
    assert_eq!(of(&views, &line(VIEWCHANGE, 1, 5, 0b0011)), STALE);
    assert_eq!(of(&views, &line(VIEWCHANGE, 1, 6, 0b0001)), PROOF);
    assert_eq!(of(&views, &line(VIEWCHANGE, 1, 6, 0x0013)), PROOF);
    assert_eq!(of(&views, &line(VIEWCHANGE, 1, 6, 0x0011)), PROOF);

    // The last view: nothing is kept, not even the suspicion.
    let last = record(u32::MAX, 0b0001, 0, 0);
    assert_eq!(of(&last, &line(SUSPICION, 3, u32::MAX, 0)), FULL);
    assert_eq!(of(&last, &line(VIEWCHANGE, 3, u32::MAX, 0b0011)), STALE);
    let (kept, sent) = accepted(&FOUR, &last, &line(SUSPICION, 0, u32::MAX, 0));
    assert_eq!((kept, sent), (last, vec![]));
    let before_last = record(u32::MAX - 1, 0b0001, 0, 0);
    let (set, _) = accepted(&FOUR, &before_last, &line(SUSPICION, 3, u32::MAX - 1, 0));
    assert_eq!(set, record(u32::MAX - 1, 0b1001, u32::MAX, 0b0100));
}
