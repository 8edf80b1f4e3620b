// Written by tools/to-rust from crates/wasm_bench/src/lib.rt: change that.
//! Workloads that a program in C or Rust calls to measure the encoder. `bench/README.md` describes
//! the input and the result of each function.

pub(crate) mod answers;
pub(crate) mod bodies;
pub(crate) mod calls;
pub(crate) mod code;
pub(crate) mod codes;
pub(crate) mod data;
pub(crate) mod decoding;
pub(crate) mod exports;
pub(crate) mod functions;
pub(crate) mod imports;
pub(crate) mod kinds;
pub(crate) mod line;
pub(crate) mod name_section;
pub(crate) mod names;
pub(crate) mod types;
pub(crate) mod values;
pub(crate) mod words;

pub use answers::NO_ANSWER;
