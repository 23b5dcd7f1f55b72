//! Prints size and alignment of each record of the models, by which they call
//! the library, and offset and size of each field, by the header's names.
#![allow(dead_code)]

#[path = "../model/src/layout.rs"]
mod layout;

use layout::*;
use std::mem::{align_of, offset_of, size_of};

/// The size of what a function gives.
fn size_given<A, B>(_: fn(&A) -> &B) -> usize {
    size_of::<B>()
}

/// A type by the header's name, and its fields.
macro_rules! show {
    ($name:literal, $type:ty: $($field:ident)*) => {
        println!("{} {} {}", $name, size_of::<$type>(), align_of::<$type>());
        $(
            let size = size_given(|t: &$type| &t.$field);
            println!("{}.{} {} {}", $name, stringify!($field), offset_of!($type, $field), size);
        )*
    };
}

fn main() {
    show!("roster", Roster: n f);
    show!("history", History: count words);
    show!("table", Table: counts words);
    show!("view_record", ViewRecord: view suspicions target changes);
    show!("acceptor_state", Acceptor:
        ballot fast signed held proven proven_ballot certificate verified);
    show!("site", Site: views acceptor);
    show!("opening", Opening: ballot fast);
    show!("leader_state", Leader: view ballot classic pending reported proven held);
    show!("learner_state", Learner: entries learned);
    show!("reply", Reply: answer sent);
    show!("learner_reply", LearnerReply: answer supporters);
}
