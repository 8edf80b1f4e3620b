// Written by tools/to-rust from tests/wasm_insn_tests/src/lib.rtt: change that.
//! Tests of `wasm_base`, `wasm_immediates` and `wasm_insn`: bytes from the format's documents or
//! worked out by hand, and failing requests for memory.

#![allow(unused_imports, unused_variables, clippy::all)]

#[macro_use]
#[path = "../support/host.rs"]
mod host;
#[allow(dead_code)]
#[path = "../test_support/mod.rs"]
mod test_support;
#[cfg(test)]
#[rustfmt::skip]
mod base;
#[cfg(test)]
#[rustfmt::skip]
mod base_refusals;
#[cfg(test)]
#[rustfmt::skip]
mod cases;
#[cfg(test)]
#[rustfmt::skip]
mod checks;
#[cfg(test)]
#[rustfmt::skip]
mod clones;
#[cfg(test)]
#[rustfmt::skip]
mod conversions;
#[cfg(test)]
#[rustfmt::skip]
mod cows;
#[cfg(test)]
#[rustfmt::skip]
mod debug;
#[cfg(test)]
#[rustfmt::skip]
mod encode_refusals;
#[cfg(test)]
#[rustfmt::skip]
mod examples;
#[cfg(test)]
#[rustfmt::skip]
mod immediates;
#[cfg(test)]
#[rustfmt::skip]
mod lengths;
#[cfg(test)]
#[rustfmt::skip]
mod rows;
#[cfg(test)]
#[rustfmt::skip]
mod sink;
#[cfg(test)]
#[rustfmt::skip]
mod table;
