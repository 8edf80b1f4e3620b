// Written by tools/to-rust from tests/wasm_reader_tests/src/lib.rtt: change that.
//! Tests of the decoders of `wasm_base`, `wasm_immediates`, `wasm_insn` and `wasm_code`: bytes that
//! were worked out from the format's documents, and failing requests for memory.

#![allow(unused_imports, unused_variables, clippy::all)]

#[macro_use]
#[path = "../support/host.rs"]
mod host;
#[allow(dead_code)]
#[path = "../test_support/mod.rs"]
mod test_support;
#[allow(dead_code)]
#[path = "../calls/mod.rs"]
#[rustfmt::skip]
mod calls;
#[cfg(test)]
#[rustfmt::skip]
mod base;
#[cfg(test)]
#[rustfmt::skip]
mod checks;
#[cfg(test)]
#[rustfmt::skip]
mod frames;
#[cfg(test)]
#[rustfmt::skip]
mod grammars;
#[cfg(test)]
#[rustfmt::skip]
mod instructions;
#[cfg(test)]
#[rustfmt::skip]
mod refusals;
#[cfg(test)]
#[rustfmt::skip]
mod shorten;
#[cfg(test)]
#[rustfmt::skip]
mod skip;
#[cfg(test)]
#[rustfmt::skip]
mod walks;
