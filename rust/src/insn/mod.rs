// Written by tools/to-rust from crates/wasm_insn/src/lib.rt: change that.
//! The instructions of WebAssembly, encoded and decoded: their immediates, their opcodes, and their
//! format.
//!
//! Each instruction belongs to a type by its opcode. One-byte instructions outside 45 to C4
//! (hexadecimal), and those with fields after the prefixes FB and FC, are cases of [`Instruction`].
//! The others are in an enum for each group of opcodes: [`Numeric`] (45 to C4), [`Aggregate`] (FB),
//! [`PrefixedNumeric`] (FC), [`Vector`] and [`VectorImmediate`] (FD, without and with fields) and
//! [`Atomic`] (FE). Those without fields also have a constant, such as `Instruction::I32Add`.
//!
//! The opcode table is in `specs/Table.antt`, the encoding of an instruction in
//! `specs/Instructions.antt`, and the format of instructions in `specs/Plain.antt`.

mod aggregate;
mod arguments;
mod atomic;
mod instruction;
pub mod laws;
mod numeric;
mod op;
mod operands;
mod part;
mod plain;
mod prefixed_numeric;
mod ranged;
mod sink;
mod table;
mod vector;
mod vector_immediate;
mod walk;

pub use aggregate::Aggregate;
pub(crate) use arguments::Arg;
#[doc(alias = "threads")]
pub use atomic::Atomic;
#[doc(alias = "opcode")]
#[doc(alias = "operator")]
#[doc(alias = "mnemonic")]
#[doc(alias = "wat")]
#[doc(alias = "assemble")]
pub use instruction::Instruction;
pub use numeric::Numeric;
pub use op::{Op, Shape};
pub(crate) use operands::{Operands, read_instruction};
pub use part::Part;
pub(crate) use plain::Plain;
pub use prefixed_numeric::PrefixedNumeric;
pub use sink::Buffer;
#[doc(alias = "assembler")]
#[doc(alias = "emit")]
pub use sink::InstructionSink;
#[doc(alias = "simd")]
pub use vector::Vector;
#[doc(alias = "simd")]
pub use vector_immediate::VectorImmediate;
pub use crate::immediates::{
    BlockType, Catch, Handle, Ieee32, Ieee64, Lane, MemArg, MemArgOrdering, MemArgTarget, Ordering,
};

/// The names that decode, which `reader` exports.
pub(crate) mod reading {
    pub use super::arguments::Arg;
    pub use super::operands::Operands;
    pub use super::plain::Plain;
}
