// Written by tools/to-rust from tests/wasm_reader_sections_tests/src/lib.rtt: change that.
//! Tests of `wasm_reader` and of the worked callers: bytes that were worked out from the format's
//! documents, and failing requests for memory.

#![allow(unused_imports, unused_variables, clippy::all)]

#[macro_use]
#[path = "../support/host.rs"]
mod host;
#[allow(dead_code)]
#[path = "../test_support/mod.rs"]
mod test_support;
#[allow(dead_code)]
#[path = "../examples/mod.rs"]
#[rustfmt::skip]
mod examples;
#[allow(dead_code)]
#[path = "../calls/mod.rs"]
#[rustfmt::skip]
mod calls;
#[allow(dead_code)]
#[path = "../read_back/mod.rs"]
#[rustfmt::skip]
mod read_back;
#[cfg(test)]
#[rustfmt::skip]
mod appended;
#[cfg(test)]
#[rustfmt::skip]
mod called;
#[cfg(test)]
#[rustfmt::skip]
mod checks;
#[cfg(test)]
#[rustfmt::skip]
mod counts;
#[cfg(test)]
#[rustfmt::skip]
mod custom_rows;
#[cfg(test)]
#[rustfmt::skip]
mod custom_seen;
#[cfg(test)]
#[rustfmt::skip]
mod example_bytes;
#[cfg(test)]
#[rustfmt::skip]
mod example_refusals;
#[cfg(test)]
#[rustfmt::skip]
mod faults;
#[rustfmt::skip]
mod inserted;
#[cfg(test)]
#[rustfmt::skip]
mod minimal;
#[cfg(test)]
#[rustfmt::skip]
mod modules;
#[cfg(test)]
#[rustfmt::skip]
mod numbers;
#[cfg(test)]
#[rustfmt::skip]
mod refusals;
#[cfg(test)]
#[rustfmt::skip]
mod remapped;
#[rustfmt::skip]
mod removed;
#[cfg(test)]
#[rustfmt::skip]
mod rows;
#[cfg(test)]
#[rustfmt::skip]
mod seen;
#[cfg(test)]
#[rustfmt::skip]
mod whole;
#[cfg(test)]
#[rustfmt::skip]
mod written_back;
