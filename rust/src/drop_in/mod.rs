//! The names of the Rust crate `wasm-encoder`, over proved encoders.
//!
//! A core section is the proved builder of [`fallible::joined`](crate::fallible::joined), over a
//! vector for which a failed allocation ends the program (`ending`). So is a custom section of
//! entries. A list in one is the proved list, over such vectors.
//!
//! The calls of types are written from `tools/root-calls.tsv` (`root_calls`), each with the contract
//! of its proved call. The names are written from `tools/root-exports.tsv` (`names`), and the
//! documentation of the root's own types from `tools/rustdoc/root.md` (`texts`).
//!
//! An instruction is appended by the proved `encode` of its opcode and of each immediate. Short ones
//! are encoded on the stack (`short`). A body and a module are lists of bytes here, since the crate
//! lends these before they are complete. [`encode_vec`], and `encode` of lists and options, take
//! items of any type. Nothing of this is proved; it is tested. Code by hand appends bytes by proved
//! calls: `tools/drop-in` has the exceptions.
//!
//! Values that the proved calls take are the same types here. Those that hold a list or a constant
//! expression are not: they have the crate's lists, and are written from the proved types by
//! `tools/root-types.tsv` (`own_types`).
//!
//! An error of a proved call ends here as in the crate: a panic where a count, run or length would
//! pass 4294967295, and [`handle_alloc_error`] where an allocation fails. Sinks whose calls never
//! fail (`ending`) leave the proved encoders no path for an error.

#[macro_use]
#[rustfmt::skip]
mod texts;
#[macro_use]
mod builders;

mod bytes;
#[rustfmt::skip]
mod calls;
mod code;
mod const_expr;
mod custom;
mod debug;
mod encode;
#[rustfmt::skip]
mod instruction;
mod module;
#[rustfmt::skip]
mod names;
#[rustfmt::skip]
mod own_types;
#[rustfmt::skip]
mod root_calls;
mod sections;
mod short;
mod types;
mod values;

pub use names::*;

use crate::base::{Entries, Pieces, Refused, Result};
use crate::ending::Root;
use crate::vec;
use alloc_crate::alloc::{Layout, handle_alloc_error};

/// Ends a call that the proved one returned an error for. The size of a failed allocation is not
/// known here.
#[cold]
#[inline(never)]
fn refuse(refused: Refused) -> ! {
    match refused {
        Refused::Memory => handle_alloc_error(Layout::new::<u8>()),
        Refused::TooLong => panic!("too long: a count, run or length would pass 4294967295"),
    }
}

/// Returns the value of a proved call that did not fail.
#[inline]
fn done<T>(answer: Result<T>) -> T {
    match answer {
        Ok(done) => done,
        Err(refused) => refuse(refused),
    }
}

/// The entries of a new builder.
const NONE: Entries<Root> = Entries {
    bytes: vec::Vec::new(Root),
    count: 0,
};

/// Takes the bytes of entries that also keep their ends.
impl From<Pieces> for Entries<Root> {
    fn from(pieces: Pieces) -> Self {
        Entries {
            count: pieces.len(),
            bytes: pieces.bytes.into_ending(),
        }
    }
}
