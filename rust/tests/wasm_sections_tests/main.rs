// Written by tools/to-rust from tests/wasm_sections_tests/src/lib.rtt: change that.
//! Tests of `wasm_code` and `wasm_sections`: bytes from the format's documents or worked out by
//! hand, and failing requests for memory.

#![allow(unused_imports, unused_variables, clippy::all)]

#[macro_use]
#[path = "../support/host.rs"]
mod host;
#[allow(dead_code)]
#[path = "../test_support/mod.rs"]
mod test_support;
#[allow(dead_code)]
#[path = "../calls/mod.rs"]
#[rustfmt::skip]
mod calls;
#[allow(dead_code)]
#[path = "../read_back/mod.rs"]
#[rustfmt::skip]
mod read_back;
#[cfg(test)]
#[rustfmt::skip]
mod checks;
#[cfg(test)]
#[rustfmt::skip]
mod code;
#[cfg(test)]
#[rustfmt::skip]
mod code_refusals;
#[cfg(test)]
#[rustfmt::skip]
mod functions;
#[cfg(test)]
#[rustfmt::skip]
mod lengths;
#[cfg(test)]
#[rustfmt::skip]
mod samples;
#[cfg(test)]
#[rustfmt::skip]
mod section_refusals;
#[cfg(test)]
#[rustfmt::skip]
mod sections;
#[cfg(test)]
#[rustfmt::skip]
mod segment_refusals;
#[cfg(test)]
#[rustfmt::skip]
mod segments;
