// Written by tools/to-rust from crates/wasm_immediates/src/lib.rt: change that.
//! The immediates of instructions, encoded and decoded: floats, memory arguments, block types, and
//! the clauses that handle exceptions and suspended stacks. `wasm_insn` re-exports all of them.
//!
//! `specs/Immediates.antt` defines the encoding of an immediate, and `specs/ImmediateFormats.antt`
//! the formats.

mod block_type;
mod control;
mod floats;
pub mod laws;
mod memory;

pub use block_type::BlockType;
pub use control::{Catch, Handle};
pub use floats::{Ieee32, Ieee64};
pub use memory::{Lane, MemArg, MemArgOrdering, MemArgTarget, Ordering};
