// Written by tools/to-rust from crates/examples/src/lib.rt: change that.
//! Callers that prove to which items their modules decode, from the contracts alone.
//! `docs/PROOFS.md` has their lemmas. The crate `calls` has callers of single calls, and `read_back`
//! writes sections, decodes them and minimizes them.

mod adding;
mod alone;
mod bodies;
mod compiled;
mod coverage;
mod filled;
mod first;
mod grown;
mod joined;
mod large;
mod lowering;
mod minimized;
mod names;
mod object;
mod padded;
mod recursion;
mod stripped;
mod sums;
mod trees;
mod whole;

pub use adding::adding_module;
pub use alone::{encode_exports, encode_group, encode_import, encode_local, encode_reference};
pub use compiled::compiled_module;
pub use coverage::{CoverageError, MAX_LENGTH, covered};
pub use filled::filled_module;
pub use first::first_module;
pub use grown::{encode_given_import, encode_memories, grow, grow_by_each};
pub use joined::{joined_module, joined_names};
pub use large::large_module;
pub use lowering::{Operation, Operator, compile, lower};
pub use minimized::{minimal_body, minimal_payload, one_byte_reference};
pub use names::named_module;
pub use object::object_module;
pub use padded::{encode_padded_body, encode_padded_globals, encode_padded_names, padded_module};
pub use recursion::{choice, factorial};
pub use stripped::without_custom;
pub use sums::{encode_sum, encode_sum_and_padded};
pub use trees::{Expr, Statement, compile_tree};
pub use whole::whole_module;
