// Written by tools/to-rust from tests/wasm_custom_tests/src/lib.rtt: change that.
//! Tests of `wasm_custom`: bytes from the conventions' documents or worked out by hand, failing
//! requests for memory, and lengths that are too long.

#![allow(unused_imports, unused_variables, clippy::all)]

#[macro_use]
#[path = "../support/host.rs"]
mod host;
#[allow(dead_code)]
#[path = "../test_support/mod.rs"]
mod test_support;
#[cfg(test)]
#[rustfmt::skip]
mod checks;
#[cfg(test)]
#[rustfmt::skip]
mod core_dumps;
#[cfg(test)]
#[rustfmt::skip]
mod further_entries;
#[cfg(test)]
#[rustfmt::skip]
mod lengths;
#[cfg(test)]
#[rustfmt::skip]
mod names;
#[cfg(test)]
#[rustfmt::skip]
mod objects;
#[cfg(test)]
#[rustfmt::skip]
mod places;
#[cfg(test)]
#[rustfmt::skip]
mod refusals;
#[cfg(test)]
#[rustfmt::skip]
mod relocations;
#[cfg(test)]
#[rustfmt::skip]
mod sections;
#[cfg(test)]
#[rustfmt::skip]
mod unknown_subsections;
#[cfg(test)]
#[rustfmt::skip]
mod whole_refusals;
