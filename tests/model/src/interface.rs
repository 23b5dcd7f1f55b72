//! The library's functions, each once: its name, what goes in and comes back,
//! and what a model makes of it. A record is lent and changed in place; a line
//! and an output buffer go in as pointer and length.

/// Hands each function that makes a record to a macro.
#[macro_export]
macro_rules! fresh_records {
    ($each:ident) => {
        $each!(speckleewe_learner_fresh = Learner);
        $each!(speckleewe_view_record_fresh = ViewRecord);
        $each!(speckleewe_site_fresh = Site);
        $each!(speckleewe_leader_fresh = Leader);
    };
}

/// Hands each function that changes a record to a macro.
#[macro_export]
macro_rules! calls {
    ($each:ident) => {
        $each!(speckleewe_learner(s: Learner, r: Roster; line line) -> LearnerReply {
            let o = learner::step(&r, s, line);
            *s = o.state;
            LearnerReply { answer: o.answer, supporters: o.supporters }
        });
        $each!(speckleewe_view_change(v: ViewRecord, r: Roster, own: u8; line line; out out) -> Reply {
            let o = viewchange::step(&r, own, v, line, out);
            *v = o.views;
            Reply { answer: o.answer, sent: o.sent }
        });
        $each!(speckleewe_suspicion(v: ViewRecord, r: Roster, own: u8, view: View; out out) -> Reply {
            let o = viewchange::step(&r, own, v, &frames::suspicion(own, view.0), out);
            *v = o.views;
            Reply { answer: o.answer, sent: o.sent }
        });
        $each!(speckleewe_acceptor(s: Site, r: Roster, own: u8; line line; out out) -> Reply {
            let o = acceptor::step(&r, own, &s.views, &s.acceptor, line, out);
            s.acceptor = o.state;
            Reply { answer: o.answer, sent: o.sent }
        });
        $each!(speckleewe_leader(s: Leader, r: Roster, own: u8; line line; out out) -> Reply {
            let o = leader::step(&r, own, s, line, out);
            *s = o.state;
            Reply { answer: o.answer, sent: o.sent }
        });
        $each!(speckleewe_open_ballot(s: Leader, r: Roster, own: u8, p: Opening; out out) -> Reply {
            let o = leader::open_ballot(&r, own, s, Ballot(p.ballot), p.fast, out);
            *s = o.state;
            Reply { answer: o.answer, sent: o.sent }
        });
    };
}
