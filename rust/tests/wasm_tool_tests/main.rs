// Written by tools/to-rust from tests/wasm_tool_tests/src/lib.rtt: change that.
//! Tests of `wasm_tool`: the output of the program for recipes and modules, failing requests for
//! memory, and reads and writes that fail.

#![allow(unused_imports, unused_variables, clippy::all)]

#[macro_use]
#[path = "../support/host.rs"]
mod host;
#[allow(dead_code)]
#[path = "../test_support/mod.rs"]
mod test_support;
#[cfg(test)]
#[rustfmt::skip]
mod checks;
#[cfg(test)]
#[rustfmt::skip]
mod failures;
#[cfg(test)]
#[rustfmt::skip]
mod listings;
#[cfg(test)]
#[rustfmt::skip]
mod recipes;
#[cfg(test)]
#[rustfmt::skip]
mod versions;
