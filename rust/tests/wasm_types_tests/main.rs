// Written by tools/to-rust from tests/wasm_types_tests/src/lib.rtt: change that.
//! Tests of `wasm_types`: bytes that were worked out by hand from the standard, failing requests
//! for memory, lengths that are too long, and decoded type sections.

#![allow(unused_imports, unused_variables, clippy::all)]

#[macro_use]
#[path = "../support/host.rs"]
mod host;
#[allow(dead_code)]
#[path = "../test_support/mod.rs"]
mod test_support;
#[cfg(test)]
#[rustfmt::skip]
mod calls;
#[cfg(test)]
#[rustfmt::skip]
mod checks;
#[cfg(test)]
#[rustfmt::skip]
mod faults;
#[cfg(test)]
#[rustfmt::skip]
mod lengths;
#[cfg(test)]
#[rustfmt::skip]
mod refusals;
#[cfg(test)]
#[rustfmt::skip]
mod rows;
#[cfg(test)]
#[rustfmt::skip]
mod samples;
#[cfg(test)]
#[rustfmt::skip]
mod seen;
#[cfg(test)]
#[rustfmt::skip]
mod shortest;
#[cfg(test)]
#[rustfmt::skip]
mod texts;
