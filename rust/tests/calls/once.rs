// Written by tools/to-rust from crates/calls/src/once.rt: change that.
//! Public functions that no other proved crate calls, called without a contract. `tests` checks
//! their results; here the prover checks that the calls meet their preconditions.

mod base;
mod code;
mod custom;
mod insn;
mod laws;
mod objects;
mod reader;
mod sections;
mod types;
mod walks;
