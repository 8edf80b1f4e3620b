// Written by tools/to-rust from crates/wasm_code/src/joined.rt: change that.
//! The code section over [`Entries`]: it keeps the bytes of its entries and their number. It does not
//! keep where an entry ends, and no call returns an entry.

use crate::code::code_section::CodeSectionIn;
use crate::alloc::Global;
use crate::base::Entries;

/// The code section.
///
/// Add one body for each entry of the [`FunctionSection`](crate::fallible::FunctionSection), in
/// the same order. Where its calls return an error, those of the root's
/// [`CodeSection`](crate::CodeSection) panic or abort.
pub type CodeSection<A = Global> = CodeSectionIn<Entries<A>>;
