//! The models behind the names of the library's functions: a library to try
//! the tests on. A wrong model makes a wrong library. This is the root of a
//! crate of its own, so that a program over the right models can be linked
//! with it.
#![allow(dead_code)]

mod acceptor;
mod frames;
mod interface;
mod layout;
mod leader;
mod learner;
mod rules;
mod viewchange;

use layout::*;

/// A function that makes a record.
macro_rules! define_fresh {
    ($name:ident = $record:ident) => {
        #[no_mangle]
        pub extern "C" fn $name() -> $record {
            $record::fresh()
        }
    };
}

/// A function of the library, by a model's.
macro_rules! define_call {
    ($name:ident($record:ident: $kind:ty $(, $value:ident: $type:ty)*
        $(; line $line:ident)? $(; out $out:ident)?) -> $reply:ty $body:block) => {
        /// # Safety
        /// Pointers and lengths are those of a record and of slices that live
        /// as long as the call, record and output lent to it alone.
        #[no_mangle]
        pub unsafe extern "C" fn $name(
            $record: *mut $kind,
            $($value: $type,)*
            $($line: *const u8, len: usize,)?
            $($out: *mut u8, room: usize,)?
        ) -> $reply {
            let $record = &mut *$record;
            $(let $line = std::slice::from_raw_parts($line, len);)?
            $(let $out = std::slice::from_raw_parts_mut($out, room);)?
            $body
        }
    };
}

fresh_records!(define_fresh);
calls!(define_call);
