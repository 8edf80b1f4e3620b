//! The package [`dolzhytik`] under the name `wasm-encoder`.
//!
//! Under `[patch.crates-io]` it takes the place of the crate in a whole graph of packages, so that
//! all of them have the same types. `docs/MOVING.md` has the lines.
#![no_std]
#![forbid(unsafe_code)]

pub use dolzhytik::*;
