//! An honest site: acceptor and view change of the library, which share the
//! view-change record.

use crate::library;
use crate::network::Line;
use model::frames::{SUSPICION, VIEWCHANGE};
use model::generate::Rng;
use model::layout::{Acceptor, Roster, ViewRecord};
use model::rules::ROOM;
use std::collections::BTreeMap;
use std::rc::Rc;

/// A site's state, and the last line of each kind that it sent.
pub struct Site {
    pub number: u8,
    pub views: ViewRecord,
    pub acceptor: Acceptor,
    pub last: BTreeMap<u8, Line>,
}

/// What came of a call.
pub struct Called {
    pub by_acceptor: bool,
    /// Was the buffer long enough?
    pub room: bool,
    pub answer: u8,
    pub sent: Option<Line>,
}

impl Site {
    /// A fresh site.
    pub fn new(number: u8) -> Site {
        Site {
            number,
            views: library::speckleewe_view_record_fresh(),
            acceptor: library::acceptor_fresh(),
            last: BTreeMap::new(),
        }
    }

    /// Hands in a line: to the role whose kind it seems to be of, now and then
    /// to the other; now and then with too short a buffer.
    pub fn hand_in(&mut self, rng: &mut Rng, roster: &Roster, line: &Line) -> Called {
        let kind = model::frames::header(line).map_or(0, |f| f.kind);
        let views = matches!(kind, SUSPICION | VIEWCHANGE) != rng.percent(1);
        let mut out = [0; ROOM];
        let room = if rng.percent(1) { rng.below(ROOM) } else { ROOM };
        let (answer, sent) = if views {
            self.change_view(roster, line, &mut out[..room])
        } else {
            self.accept(roster, line, &mut out[..room])
        };
        let sent = self.sent(&out[..sent]);
        Called { by_acceptor: !views, room: room == ROOM, answer, sent }
    }

    /// A step of the view change: its answer and the length sent.
    fn change_view(&mut self, roster: &Roster, line: &Line, out: &mut [u8]) -> (u8, usize) {
        let o = library::view_change_step(roster, self.number, &self.views, line, out);
        self.views = o.views;
        (o.answer, o.sent)
    }

    /// A step of the acceptor: its answer and the length sent.
    fn accept(&mut self, roster: &Roster, line: &Line, out: &mut [u8]) -> (u8, usize) {
        let (views, state) = (&self.views, &self.acceptor);
        let o = library::acceptor_step(roster, self.number, views, state, line, out);
        self.acceptor = o.state;
        (o.answer, o.sent)
    }

    /// The line that was sent, if any; it is kept to be sent again.
    fn sent(&mut self, text: &[u8]) -> Option<Line> {
        let kind = model::frames::header(text)?.kind;
        let line = Rc::new(text.to_vec());
        self.last.insert(kind, line.clone());
        Some(line)
    }
}
