//! The records that the library is lent, and what it answers, in the layout
//! that it names.

/// The number of sites and of those that may lie.
#[repr(C)]
#[derive(Clone, Copy, Debug, PartialEq, Eq)]
pub struct Roster {
    pub n: u8,
    pub f: u8,
}

/// One history: the first `count` words.
#[repr(C)]
#[derive(Clone, PartialEq, Eq)]
pub struct History {
    pub count: u8,
    pub words: [u64; 32],
}

/// A history a site: site i's are the words from 32 i on.
#[repr(C)]
#[derive(Clone, PartialEq, Eq)]
pub struct Table {
    pub counts: [u8; 16],
    pub words: [u64; 512],
}

/// What a call with a buffer answers.
#[repr(C)]
pub struct Reply {
    pub answer: u8,
    pub sent: usize,
}

/// What a learner's call answers.
#[repr(C)]
pub struct LearnerReply {
    pub answer: u8,
    pub supporters: u8,
}

/// A learner's state.
#[repr(C)]
#[derive(Clone, PartialEq, Eq)]
pub struct Learner {
    pub entries: Table,
    pub learned: History,
}

/// What a learner's step answers.
#[repr(C)]
#[derive(Clone, PartialEq, Eq)]
pub struct LearnerOutcome {
    pub answer: u8,
    pub supporters: u8,
    pub state: Learner,
}

/// The view-change record: view, suspicion mask, target view (0: none) and
/// target mask.
#[repr(C)]
#[derive(Clone, Copy, Debug, PartialEq, Eq)]
pub struct ViewRecord {
    pub view: u32,
    pub suspicions: u16,
    pub target: u32,
    pub changes: u16,
}

/// What a step of the view change answers.
#[repr(C)]
#[derive(Clone, Copy, Debug, PartialEq, Eq)]
pub struct ViewChangeOutcome {
    pub answer: u8,
    pub sent: usize,
    pub views: ViewRecord,
}

/// An acceptor's state; its view is the one of the view-change record.
/// `proven_ballot` and `certificate` are the ballot and the mask of `proven`.
#[repr(C)]
#[derive(Clone, PartialEq, Eq)]
pub struct Acceptor {
    pub ballot: u32,
    pub fast: u8,
    pub signed: u8,
    pub held: History,
    pub proven: History,
    pub proven_ballot: u32,
    pub certificate: u16,
    pub verified: Table,
}

/// What an acceptor's step answers.
#[repr(C)]
#[derive(Clone, PartialEq, Eq)]
pub struct AcceptorOutcome {
    pub answer: u8,
    pub sent: usize,
    pub state: Acceptor,
}

/// A site: the view-change record and the acceptor's state.
#[repr(C)]
#[derive(Clone, PartialEq, Eq)]
pub struct Site {
    pub views: ViewRecord,
    pub acceptor: Acceptor,
}

/// A view and a ballot as arguments.
#[repr(C)]
#[derive(Clone, Copy, Debug, PartialEq, Eq)]
pub struct View(pub u32);

#[repr(C)]
#[derive(Clone, Copy, Debug, PartialEq, Eq)]
pub struct Ballot(pub u32);

/// A ballot that a leader is to open.
#[repr(C)]
#[derive(Clone, Copy, Debug, PartialEq, Eq)]
pub struct Opening {
    pub ballot: u32,
    pub fast: u8,
}

/// A leader's state. `reported` are the sites that reported in this ballot,
/// `proven` and `held` the histories of their reports.
#[repr(C)]
#[derive(Clone, PartialEq, Eq)]
pub struct Leader {
    pub view: u32,
    pub ballot: u32,
    pub classic: u8,
    pub pending: History,
    pub reported: u16,
    pub proven: Table,
    pub held: Table,
}

/// What a leader's step, or its opening of a ballot, answers.
#[repr(C)]
#[derive(Clone, PartialEq, Eq)]
pub struct LeaderOutcome {
    pub answer: u8,
    pub sent: usize,
    pub state: Leader,
}

impl History {
    /// No command.
    pub fn empty() -> History {
        History { count: 0, words: [0; 32] }
    }
}

impl Table {
    /// No command of any site.
    pub fn empty() -> Table {
        Table { counts: [0; 16], words: [0; 512] }
    }
}

impl Learner {
    /// A learner at its start.
    pub fn fresh() -> Learner {
        Learner { entries: Table::empty(), learned: History::empty() }
    }
}

impl ViewRecord {
    /// The record at its start.
    pub fn fresh() -> ViewRecord {
        ViewRecord { view: 0, suspicions: 0, target: 0, changes: 0 }
    }
}

impl Acceptor {
    /// An acceptor at its start.
    pub fn fresh() -> Acceptor {
        Acceptor {
            ballot: 0,
            fast: 0,
            signed: 0,
            held: History::empty(),
            proven: History::empty(),
            proven_ballot: 0,
            certificate: 0,
            verified: Table::empty(),
        }
    }
}

impl Site {
    /// A site at its start.
    pub fn fresh() -> Site {
        Site { views: ViewRecord::fresh(), acceptor: Acceptor::fresh() }
    }
}

impl Leader {
    /// A leader at its start.
    pub fn fresh() -> Leader {
        Leader {
            view: 0,
            ballot: 0,
            classic: 0,
            pending: History::empty(),
            reported: 0,
            proven: Table::empty(),
            held: Table::empty(),
        }
    }
}
