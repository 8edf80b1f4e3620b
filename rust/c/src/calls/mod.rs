// Written by tools/to-rust from crates/wasm_c/src/lib.rt: change that.
//! The encoder and the reader for programs in C and Rust: recipes are assembled, the sections of
//! modules are listed and outlined, sections and modules are minimized, and indices are mapped.
//!
//! A slice is passed as a pointer and a length. A function returns the number of bytes or sections
//! of its result. It copies them to the front of `out`, if `out` holds all of them. On an error it
//! returns [`NO_ANSWER`], and `out` is unchanged.

pub(crate) mod causes;
pub(crate) mod indices;
pub(crate) mod listing;
pub(crate) mod minimal;
pub(crate) mod outlining;
pub(crate) mod recipes;
#[cfg(test)]
pub(crate) mod tests;
pub(crate) mod whole;

/// The return value of a call that fails.
pub const NO_ANSWER: u64 = 18446744073709551615;

pub use listing::DzSection;
pub use outlining::DzOutlined;
