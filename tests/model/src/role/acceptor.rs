//! The acceptor under test.

use super::*;
use crate::acceptor::{equal_entries, step, KINDS};
use crate::driver::Role;
use crate::frames::{self, Frame, FAST, P1A, P2A, PROPOSE, VERIFY};
use crate::generate::acceptor::{Call, Scenario};
use crate::generate::{guarded, Rng};
use crate::layout::{Acceptor, AcceptorOutcome};
use crate::rules::*;
use crate::tally::{form_case, list_fault, list_labels, owned, Tally, FORMS};

/// The acceptor, to the driver.
pub struct AcceptorRole;

const OPENED: [&str; 8] = [
    "P1A takes the ballot: P1B goes out",
    "P1A, nothing proven: P1B with proven ballot and mask as lent",
    "P1A, P1B is the longest line",
    "FAST takes the ballot, nothing goes out",
    "P1A or FAST forgets a VERIFY table that isn't empty",
    "P1A or FAST forgets that it signed",
    "P1A ends a fast ballot",
    "FAST ends a classic ballot",
];
const SIGNED: [&str; 8] = [
    "P2A, not signed, extends proven and held",
    "P2A, not signed, extends proven but not held",
    "P2A, signed, extends proven and held",
    "P2A equal to held",
    "P2A replaces an own entry that it doesn't extend",
    "P2A makes N-f equal entries, proves nothing yet",
    "P2A over the words of a longer entry",
    "P2A with a flag that isn't 0 or 1",
];
const PROPOSED: [&str; 8] = [
    "PROPOSE, all commands new",
    "PROPOSE, some commands held already",
    "PROPOSE, nothing held",
    "PROPOSE not in canonical order",
    "PROPOSE, a new command comes before a held one",
    "PROPOSE makes 32",
    "PROPOSE sent by a number at N or above",
    "PROPOSE makes N-f equal entries, proves nothing yet",
];
const VERIFIED: [&str; 14] = [
    "VERIFY stored, the site's first",
    "VERIFY stored, extends the entry",
    "VERIFY stored, equal to the entry",
    "VERIFY of less, the longer entry stays",
    "VERIFY of less that N-f other entries equal: no effect",
    "VERIFY stored, fewer than N-f equal it",
    "VERIFY makes N-f equal entries: proven, P2B goes out",
    "VERIFY makes more than N-f equal entries: proven, P2B goes out",
    "VERIFY of its own, handed back, completes N-f: P2B goes out",
    "VERIFY with N-f equal entries, already proven in this ballot",
    "VERIFY with N-f equal entries, proven in another ballot: P2B goes out again",
    "VERIFY with N-f equal entries doesn't extend the proven history",
    "VERIFY proven over another proven history",
    "VERIFY in a fast ballot: P2B goes out",
];
const REFUSALS: [&str; 34] = [
    "CONFIG by the roster alone",
    "CONFIG by the own number alone",
    "CONFIG by the buffer alone",
    "CONFIG by the suspicion mask alone",
    "CONFIG by the target mask alone",
    "CONFIG by the certificate mask alone",
    "CONFIG by an entry at N or above alone",
    "SENDER: a site at N or above",
    "SENDER: PROPOSE from 0",
    "SENDER: P1A, FAST or P2A not from the leader",
    "STALE: P1A or FAST of another view",
    "STALE: P1A or FAST of an equal ballot",
    "STALE: P1A or FAST of a lower ballot",
    "STALE: P2A of another view",
    "STALE: P2A of another ballot",
    "STALE: P2A in a fast ballot",
    "STALE: PROPOSE of another ballot",
    "STALE: PROPOSE in a classic ballot",
    "STALE: VERIFY of another view",
    "STALE: VERIFY of another ballot",
    "COMMAND: wrong fields",
    "COMMAND: PROPOSE of another's command",
    "HISTORY: n = 0",
    "HISTORY: request repeated",
    "HISTORY: not canonical",
    "BEHIND: P2A doesn't extend the proven history",
    "BEHIND: P2A extends the proven but not the held history",
    "BEHIND: PROPOSE, held doesn't extend proven",
    "REUSED beside new commands",
    "NOTHING",
    "FULL by one command",
    "BEHIND: PROPOSE, though a request is reused",
    "REUSED, though the result would be too long",
    "REUSED, though nothing is new",
];

/// Counts the cases of an accepted P1A or FAST.
fn tally_open(tally: &mut Tally, call: &Call, frame: &Frame, sent: usize) {
    let s = &call.state;
    if frame.fields.kind == P1A {
        tally.count(OPENED[0]);
        tally.count_if(s.proven.count == 0, OPENED[1]);
        tally.count_if(sent == ROOM, OPENED[2]);
        tally.count_if(s.fast != 0, OPENED[6]);
    } else {
        tally.count(OPENED[3]);
        tally.count_if(s.fast == 0, OPENED[7]);
    }
    tally.count_if(s.verified.counts != [0; 16], OPENED[4]);
    tally.count_if(s.signed != 0, OPENED[5]);
}

/// Do N-f entries equal the site's own after the call?
fn own_has_quorum(call: &Call, after: &Acceptor) -> bool {
    let own = entry(&after.verified, usize::from(call.given.own));
    equal_entries(&call.given.roster, &after.verified, own).count_ones()
        >= quorum(&call.given.roster)
}

/// Counts the cases of an accepted P2A.
fn tally_phase_two(tally: &mut Tally, call: &Call, h: &[Command], after: &Acceptor) {
    let s = &call.state;
    let held = commands(&s.held);
    let before = entry(&s.verified, usize::from(call.given.own));
    tally.count(match (s.signed != 0, extends(h, held)) {
        (true, _) => SIGNED[2],
        (false, true) => SIGNED[0],
        (false, false) => SIGNED[1],
    });
    tally.count_if(h == held, SIGNED[3]);
    tally.count_if(!extends(h, before), SIGNED[4]);
    tally.count_if(own_has_quorum(call, after), SIGNED[5]);
    tally.count_if(before.len() > h.len(), SIGNED[6]);
    tally.count_if(s.signed > 1, SIGNED[7]);
}

/// Counts the cases of an accepted PROPOSE.
fn tally_propose(tally: &mut Tally, call: &Call, frame: &Frame, after: &Acceptor) {
    let held = commands(&call.state.held);
    let some_held = frame.first.iter().any(|c| held.contains(c));
    let result = commands(&after.held);
    tally.count(if some_held { PROPOSED[1] } else { PROPOSED[0] });
    tally.count_if(held.is_empty(), PROPOSED[2]);
    tally.count_if(!is_canonical(&frame.first), PROPOSED[3]);
    tally.count_if(!result.starts_with(held), PROPOSED[4]);
    tally.count_if(result.len() == LIMIT, PROPOSED[5]);
    tally.count_if(frame.fields.sender >= call.given.roster.n, PROPOSED[6]);
    tally.count_if(own_has_quorum(call, after), PROPOSED[7]);
}

/// Counts the cases of an accepted VERIFY.
fn tally_verify(tally: &mut Tally, call: &Call, frame: &Frame, want: &AcceptorOutcome) {
    let (s, h) = (&call.state, &frame.first[..]);
    let before = entry(&s.verified, usize::from(frame.fields.sender));
    let mask = equal_entries(&call.given.roster, &want.state.verified, h);
    let (ones, least) = (mask.count_ones(), quorum(&call.given.roster));
    if !extends(h, before) {
        tally.count(VERIFIED[3]);
        return tally.count_if(ones >= least, VERIFIED[4]);
    }
    tally.count(match before.len() {
        0 => VERIFIED[0],
        n if n < h.len() => VERIFIED[1],
        _ => VERIFIED[2],
    });
    let proven = commands(&s.proven);
    if ones < least {
        tally.count(VERIFIED[5]);
    } else if !extends(h, proven) {
        tally.count(VERIFIED[11]);
    } else if proven == h && s.proven_ballot == s.ballot {
        tally.count(VERIFIED[9]);
    } else {
        tally.count(if ones == least { VERIFIED[6] } else { VERIFIED[7] });
        tally.count_if(frame.fields.sender == call.given.own && before == h, VERIFIED[8]);
        tally.count_if(proven == h, VERIFIED[10]);
        tally.count_if(proven != h && !proven.is_empty(), VERIFIED[12]);
        tally.count_if(s.fast != 0, VERIFIED[13]);
    }
}

/// All labels of wrong lists in the lent state.
fn list_faults(s: &Acceptor) -> Vec<String> {
    let rows =
        (0..SITES).map(|i| list_fault("an entry", s.verified.counts[i], row(&s.verified, i)));
    let held = list_fault("held", s.held.count, &s.held.words);
    let proven = list_fault("proven", s.proven.count, &s.proven.words);
    rows.chain([held, proven]).flatten().collect()
}

/// Counts the case of CONFIG, if there is but one reason for it.
fn tally_config(tally: &mut Tally, call: &Call) {
    let (r, s) = (&call.given.roster, &call.state);
    let mut reasons = list_faults(s);
    if call.given.out.len() < ROOM {
        reasons.push(REFUSALS[2].to_string());
    }
    if !roster_valid(r) {
        // The rest is read by N, so only figures without a reading count.
        return tally.count_if(reasons.is_empty(), REFUSALS[0]);
    }
    let entry_outside = (usize::from(r.n)..SITES).any(|i| s.verified.counts[i] != 0);
    let more = [
        (call.given.own >= r.n, REFUSALS[1]),
        (bit_outside(r, call.views.suspicions), REFUSALS[3]),
        (bit_outside(r, call.views.changes), REFUSALS[4]),
        (bit_outside(r, s.certificate), REFUSALS[5]),
        (entry_outside, REFUSALS[6]),
    ];
    reasons.extend(more.iter().filter(|(holds, _)| *holds).map(|(_, label)| label.to_string()));
    if let [only] = &reasons[..] {
        tally.count(only);
    }
}

/// Counts the cases of SENDER.
fn tally_sender(tally: &mut Tally, call: &Call, frame: &Frame) {
    tally.count(if frame.fields.kind == PROPOSE {
        REFUSALS[8]
    } else if frame.fields.sender >= call.given.roster.n {
        REFUSALS[7]
    } else {
        REFUSALS[9]
    });
}

/// Counts the cases of STALE, if there is but one reason for it.
fn tally_stale(tally: &mut Tally, call: &Call, frame: &Frame) {
    let (f, s) = (&frame.fields, &call.state);
    let view_good = f.view == call.views.view;
    let ballot_good = f.ballot == s.ballot;
    let fast = s.fast != 0;
    match f.kind {
        P1A | FAST => {
            tally.count_if(!view_good && f.ballot > s.ballot, REFUSALS[10]);
            tally.count_if(view_good && ballot_good, REFUSALS[11]);
            tally.count_if(view_good && f.ballot < s.ballot, REFUSALS[12]);
        }
        P2A => {
            tally.count_if(!view_good && ballot_good && !fast, REFUSALS[13]);
            tally.count_if(view_good && !ballot_good && !fast, REFUSALS[14]);
            tally.count_if(view_good && ballot_good && fast, REFUSALS[15]);
        }
        PROPOSE => {
            tally.count_if(!ballot_good && fast, REFUSALS[16]);
            tally.count_if(ballot_good && !fast, REFUSALS[17]);
        }
        _ => {
            tally.count_if(!view_good && ballot_good, REFUSALS[18]);
            tally.count_if(view_good && !ballot_good, REFUSALS[19]);
        }
    }
}

/// Counts the cases of COMMAND to FULL.
fn tally_refused(tally: &mut Tally, call: &Call, frame: &Frame, answer: u8) {
    let h = &frame.first[..];
    let held = commands(&call.state.held);
    let fresh = h.iter().filter(|&&c| !held.iter().any(|&b| same_request(b, c))).count();
    match answer {
        COMMAND if h.iter().all(|&c| command_valid(c)) => tally.count(REFUSALS[21]),
        COMMAND => tally.count(REFUSALS[20]),
        HISTORY if h.is_empty() => tally.count(REFUSALS[22]),
        HISTORY if repeats(h) => tally.count(REFUSALS[23]),
        HISTORY => tally.count(REFUSALS[24]),
        BEHIND if frame.fields.kind == PROPOSE => {
            tally.count(REFUSALS[27]);
            let reused = |c: Command| held.iter().any(|&b| same_request(b, c) && b != c);
            tally.count_if(h.iter().any(|&c| reused(c)), REFUSALS[31]);
        }
        BEHIND if extends(h, commands(&call.state.proven)) => tally.count(REFUSALS[26]),
        BEHIND => tally.count(REFUSALS[25]),
        REUSED => {
            tally.count_if(fresh > 0, REFUSALS[28]);
            tally.count_if(held.len() + fresh > LIMIT, REFUSALS[32]);
            tally.count_if(fresh == 0, REFUSALS[33]);
        }
        NOTHING => tally.count(REFUSALS[29]),
        FULL => tally.count_if(held.len() + fresh == LIMIT + 1, REFUSALS[30]),
        _ => {}
    }
}

impl Role for AcceptorRole {
    type Scenario = Scenario;
    type State = Acceptor;
    type Call = Call;
    type Outcome = (AcceptorOutcome, Vec<u8>);

    fn fresh() -> Acceptor {
        Acceptor::fresh()
    }

    fn begin(rng: &mut Rng) -> (Scenario, usize, Acceptor) {
        let scenario = Scenario::new(rng);
        let state = scenario.start(rng);
        let length = scenario.run.length;
        (scenario, length, state)
    }

    fn call(scenario: &mut Scenario, rng: &mut Rng, state: &Acceptor) -> Call {
        scenario.call(rng, state)
    }

    fn model(call: &Call) -> Self::Outcome {
        let mut out = guarded(&call.given.out);
        let lent = &mut out[..call.given.out.len()];
        let outcome =
            step(&call.given.roster, call.given.own, &call.views, &call.state, &call.line, lent);
        (outcome, out)
    }

    fn kept(call: &Call, outcome: Self::Outcome) -> Option<Acceptor> {
        call.given.keep.then_some(outcome.0.state)
    }

    fn answers() -> &'static [u8] {
        &[0, 1, 2, 3, 4, 6, 7, 8, 9, 10, 12, 13]
    }

    fn labels() -> Vec<String> {
        let lists = ["held", "proven", "an entry"].map(list_labels).concat();
        let accepted = [&OPENED[..], &SIGNED, &PROPOSED, &VERIFIED].concat();
        [owned(&accepted), owned(&REFUSALS), lists, owned(&FORMS)].concat()
    }

    fn tally(tally: &mut Tally, call: &Call, want: &Self::Outcome) {
        let want = &want.0;
        tally.answer(want.answer);
        if want.answer == CONFIG {
            return tally_config(tally, call);
        }
        let Some(frame) = frames::read(&call.line, &KINDS) else {
            return tally.count(form_case(&call.line, &KINDS));
        };
        match (want.answer, frame.fields.kind) {
            (ACCEPTED, P1A | FAST) => tally_open(tally, call, &frame, want.sent),
            (ACCEPTED, P2A) => tally_phase_two(tally, call, &frame.first, &want.state),
            (ACCEPTED, PROPOSE) => tally_propose(tally, call, &frame, &want.state),
            (ACCEPTED, VERIFY) => tally_verify(tally, call, &frame, want),
            (SENDER, _) => tally_sender(tally, call, &frame),
            (STALE, _) => tally_stale(tally, call, &frame),
            (answer, _) => tally_refused(tally, call, &frame, answer),
        }
    }

    fn report(call: &Call, want: &Self::Outcome, got: &Self::Outcome) {
        println!("answer: model {}, library {}", want.0.answer, got.0.answer);
        println!("differences:");
        differ("length sent", want.0.sent, got.0.sent);
        differ_state(&want.0.state, &got.0.state);
        differ_buffer(&want.1, &got.1);
        println!("the call:");
        print_given(&call.given);
        print_record(&call.views);
        let s = &call.state;
        println!(
            "state lent: ballot {}, fast {}, signed {}, proven_ballot {}, certificate {:04x}",
            s.ballot, s.fast, s.signed, s.proven_ballot, s.certificate
        );
        print_history("held", &s.held);
        print_history("proven", &s.proven);
        print_table("entry", &s.verified);
        print_line(&call.line);
    }
}

/// Prints where two states differ.
fn differ_state(want: &Acceptor, got: &Acceptor) {
    differ("ballot", want.ballot, got.ballot);
    differ("fast", want.fast, got.fast);
    differ("signed", want.signed, got.signed);
    differ_history("held", &want.held, &got.held);
    differ_history("proven", &want.proven, &got.proven);
    differ("proven_ballot", want.proven_ballot, got.proven_ballot);
    differ("certificate", want.certificate, got.certificate);
    differ_table("entry", &want.verified, &got.verified);
}
