//! The view change under test.

use super::*;
use crate::driver::Role;
use crate::frames::{self, Fields, SUSPICION};
use crate::generate::viewchange::{Call, Scenario};
use crate::generate::{guarded, Rng};
use crate::layout::{ViewChangeOutcome, ViewRecord};
use crate::rules::*;
use crate::tally::{form_case, owned, Tally, FORMS};
use crate::viewchange::{enough_to_suspect, step, KINDS};

/// The view change, to the driver.
pub struct ViewChangeRole;

const SUSPICIONS: [&str; 9] = [
    "SUSPICION, no target, fewer than f+1: kept",
    "SUSPICION, no target, f+1: VIEWCHANGE goes out",
    "SUSPICION, no target, over f+1: VIEWCHANGE goes out",
    "SUSPICION, a target is set, fewer than f+1: kept",
    "SUSPICION, a target is set, f+1 or more: kept",
    "SUSPICION of a site counted already",
    "SUSPICION from itself",
    "SUSPICION of the last view, accepted",
    "SUSPICION sets the last view as target",
];
const CHANGES: [&str; 12] = [
    "VIEWCHANGE, no target: new target",
    "VIEWCHANGE above the target: new target",
    "VIEWCHANGE, new target, from itself: one bit",
    "VIEWCHANGE, new target is the last view",
    "VIEWCHANGE, equal target, fewer than N-f: sender added",
    "VIEWCHANGE, equal target, fewer than N-f: sender there already",
    "VIEWCHANGE, equal target, from itself",
    "VIEWCHANGE, equal target, N-f: LEADER goes out",
    "VIEWCHANGE, equal target, over N-f: LEADER goes out",
    "VIEWCHANGE, equal target, N-f, sender there already: LEADER goes out",
    "LEADER goes to itself",
    "LEADER of the last view",
];
const REFUSALS: [&str; 15] = [
    "CONFIG by the roster alone",
    "CONFIG by the own number alone",
    "CONFIG by the buffer alone",
    "CONFIG by the suspicion mask alone",
    "CONFIG by the target mask alone",
    "SENDER, else acceptable",
    "STALE: SUSPICION of an earlier view",
    "STALE: SUSPICION of a later view",
    "STALE: VIEWCHANGE to the own view or below",
    "STALE: VIEWCHANGE above the own view, below the target",
    "PROOF: fewer than f+1 ones",
    "PROOF: f+1 ones or more, and one at N or above",
    "PROOF: f+1 ones only with those at N or above",
    "FULL at f+1",
    "FULL over f+1",
];

/// Counts the cases of an accepted SUSPICION.
fn tally_suspicion(tally: &mut Tally, call: &Call, f: &Fields) {
    let views = &call.views;
    let ones = (views.suspicions | bit(f.sender)).count_ones();
    let enough = enough_to_suspect(&call.given.roster);
    tally.count(match (views.target != 0, ones < enough) {
        (false, true) => SUSPICIONS[0],
        (false, false) => SUSPICIONS[if ones == enough { 1 } else { 2 }],
        (true, true) => SUSPICIONS[3],
        (true, false) => SUSPICIONS[4],
    });
    tally.count_if(views.suspicions & bit(f.sender) != 0, SUSPICIONS[5]);
    tally.count_if(f.sender == call.given.own, SUSPICIONS[6]);
    tally.count_if(views.view == u32::MAX, SUSPICIONS[7]);
    let sets_target = views.target == 0 && ones >= enough;
    tally.count_if(sets_target && views.view == u32::MAX - 1, SUSPICIONS[8]);
}

/// Counts the cases of an accepted VIEWCHANGE.
fn tally_change(tally: &mut Tally, call: &Call, f: &Fields) {
    let views = &call.views;
    let own = f.sender == call.given.own;
    if f.view != views.target {
        tally.count(if views.target == 0 { CHANGES[0] } else { CHANGES[1] });
        tally.count_if(own, CHANGES[2]);
        tally.count_if(f.view == u32::MAX, CHANGES[3]);
        return;
    }
    let there = views.changes & bit(f.sender) != 0;
    let ones = (views.changes | bit(f.sender)).count_ones();
    tally.count_if(own, CHANGES[6]);
    if ones < quorum(&call.given.roster) {
        tally.count(if there { CHANGES[5] } else { CHANGES[4] });
        return;
    }
    tally.count(if ones == quorum(&call.given.roster) { CHANGES[7] } else { CHANGES[8] });
    tally.count_if(there, CHANGES[9]);
    tally.count_if(leads(&call.given.roster, call.given.own, f.view), CHANGES[10]);
    tally.count_if(f.view == u32::MAX, CHANGES[11]);
}

/// Counts the case of CONFIG, if there is but one reason for it.
fn tally_config(tally: &mut Tally, call: &Call) {
    let r = &call.given.roster;
    if !roster_valid(r) {
        // The rest is read by N, so only figures without a reading count.
        let rest_good = call.given.out.len() >= ROOM;
        return tally.count_if(rest_good, REFUSALS[0]);
    }
    let reasons = [
        call.given.own >= r.n,
        call.given.out.len() < ROOM,
        bit_outside(r, call.views.suspicions),
        bit_outside(r, call.views.changes),
    ];
    if reasons.iter().filter(|&&holds| holds).count() == 1 {
        let at = reasons.iter().position(|&holds| holds).unwrap_or(0);
        tally.count(REFUSALS[1 + at]);
    }
}

/// Counts the cases of STALE.
fn tally_stale(tally: &mut Tally, call: &Call, f: &Fields) {
    let views = &call.views;
    tally.count(if f.kind == SUSPICION {
        if f.view < views.view {
            REFUSALS[6]
        } else {
            REFUSALS[7]
        }
    } else if f.view <= views.view {
        REFUSALS[8]
    } else {
        REFUSALS[9]
    });
}

/// Counts the cases of PROOF.
fn tally_proof(tally: &mut Tally, call: &Call, f: &Fields) {
    let enough = enough_to_suspect(&call.given.roster);
    let below = (0..call.given.roster.n).filter(|&i| f.mask & bit(i) != 0).count() as u32;
    tally.count(if f.mask.count_ones() < enough {
        REFUSALS[10]
    } else if below >= enough {
        REFUSALS[11]
    } else {
        REFUSALS[12]
    });
}

/// Counts the cases of FULL.
fn tally_full(tally: &mut Tally, call: &Call, f: &Fields) {
    let ones = (call.views.suspicions | bit(f.sender)).count_ones();
    let exact = ones == enough_to_suspect(&call.given.roster);
    tally.count(if exact { REFUSALS[13] } else { REFUSALS[14] });
}

/// Would the frame be accepted from another sender?
fn but_for_sender(call: &Call, f: &Fields) -> bool {
    let line = frames::encode(&Fields { sender: 0, ..f.clone() }, &[]);
    let mut out = call.given.out.clone();
    step(&call.given.roster, call.given.own, &call.views, &line, &mut out).answer == ACCEPTED
}

impl Role for ViewChangeRole {
    type Scenario = Scenario;
    type State = ViewRecord;
    type Call = Call;
    type Outcome = (ViewChangeOutcome, Vec<u8>);

    fn fresh() -> ViewRecord {
        ViewRecord::fresh()
    }

    fn begin(rng: &mut Rng) -> (Scenario, usize, ViewRecord) {
        let scenario = Scenario::new(rng);
        let state = scenario.start(rng);
        let length = scenario.run.length;
        (scenario, length, state)
    }

    fn call(scenario: &mut Scenario, rng: &mut Rng, state: &ViewRecord) -> Call {
        scenario.call(rng, state)
    }

    fn model(call: &Call) -> Self::Outcome {
        let mut out = guarded(&call.given.out);
        let lent = &mut out[..call.given.out.len()];
        let outcome = step(&call.given.roster, call.given.own, &call.views, &call.line, lent);
        (outcome, out)
    }

    fn kept(call: &Call, outcome: Self::Outcome) -> Option<ViewRecord> {
        call.given.keep.then_some(outcome.0.views)
    }

    fn answers() -> &'static [u8] {
        &[0, 1, 2, 3, 4, 5, 13]
    }

    fn labels() -> Vec<String> {
        // These kinds don't use n and m, so a count over 32 is an unused field.
        let forms = [FORMS[0], FORMS[1], FORMS[2], FORMS[4]];
        [owned(&SUSPICIONS), owned(&CHANGES), owned(&REFUSALS), owned(&forms)].concat()
    }

    fn tally(tally: &mut Tally, call: &Call, want: &Self::Outcome) {
        tally.answer(want.0.answer);
        if want.0.answer == CONFIG {
            return tally_config(tally, call);
        }
        let Some(frame) = frames::read(&call.line, &KINDS) else {
            return tally.count(form_case(&call.line, &KINDS));
        };
        let f = &frame.fields;
        match want.0.answer {
            ACCEPTED if f.kind == SUSPICION => tally_suspicion(tally, call, f),
            ACCEPTED => tally_change(tally, call, f),
            SENDER => tally.count_if(but_for_sender(call, f), REFUSALS[5]),
            STALE => tally_stale(tally, call, f),
            PROOF => tally_proof(tally, call, f),
            _ => tally_full(tally, call, f),
        }
    }

    fn report(call: &Call, want: &Self::Outcome, got: &Self::Outcome) {
        println!("answer: model {}, library {}", want.0.answer, got.0.answer);
        println!("differences:");
        differ("length sent", want.0.sent, got.0.sent);
        differ_record(&want.0.views, &got.0.views);
        differ_buffer(&want.1, &got.1);
        println!("the call:");
        print_given(&call.given);
        print_record(&call.views);
        print_line(&call.line);
    }
}
