//! The hosts: what they hand in. Signatures are their work, so a frame that
//! names an honest site as sender is handed in only if that site sent it,
//! byte for byte.

use crate::network::Line;
use crate::plan::Plan;
use model::frames::{self, Frame, LEADER, P1B, P2B, PROPOSE, VERIFY, VIEWCHANGE};
use model::rules::{bit, Command};
use std::collections::HashSet;

/// All kinds of frames.
pub const KINDS: [u8; 10] = [1, 2, 3, 4, 5, 6, 7, 8, 9, 10];

/// What the honest sites have sent and what they stand for.
#[derive(Default)]
pub struct Host {
    sent: HashSet<Line>,
    /// Site and view of each suspicion.
    suspected: HashSet<(u8, u32)>,
    /// Site and view of each change.
    changed: HashSet<(u8, u32)>,
    /// Site, ballot and history of each VERIFY.
    signed: HashSet<(u8, u32, Vec<Command>)>,
}

impl Host {
    /// Notes a line that an honest site sent. Its sender is in the line, so
    /// one set serves all sites.
    pub fn note(&mut self, line: &Line) {
        self.sent.insert(line.clone());
        let Some(frame) = frames::read(line, &KINDS) else { return };
        let f = &frame.fields;
        match f.kind {
            VERIFY => {
                self.signed.insert((f.sender, f.ballot, frame.first));
            }
            frames::SUSPICION => {
                self.suspected.insert((f.sender, f.view));
            }
            VIEWCHANGE => {
                self.changed.insert((f.sender, f.view));
            }
            _ => {}
        }
    }

    /// May the line be handed in? What is no frame may.
    pub fn admits(&self, plan: &Plan, line: &Line) -> bool {
        let Some(frame) = frames::read(line, &KINDS) else { return true };
        let f = &frame.fields;
        let by_acceptor = matches!(f.kind, P1B | VERIFY | P2B);
        let named = plan.honest(f.sender) && f.kind != PROPOSE;
        if named && (by_acceptor || !plan.forgery) && !self.sent.contains(line) {
            return false;
        }
        !plan.masks_checked || self.mask_stands(plan, &frame)
    }

    /// Does each honest bit of a mask stand for that site's proof?
    fn mask_stands(&self, plan: &Plan, frame: &Frame) -> bool {
        let f = &frame.fields;
        let bits = (0..plan.roster.n).filter(|&i| f.mask & bit(i) != 0 && plan.honest(i));
        let mut bits = bits.into_iter();
        match f.kind {
            VIEWCHANGE => bits.all(|i| self.suspected.contains(&(i, f.view.wrapping_sub(1)))),
            LEADER => bits.all(|i| self.changed.contains(&(i, f.view))),
            P1B => bits.all(|i| self.signed.contains(&(i, f.proven_ballot, frame.first.clone()))),
            _ => true,
        }
    }
}
