// Written by tools/to-rust from crates/wasm_code/src/lib.rt: change that.
//! Constant expressions, function bodies and the code section of a WebAssembly module, encoded and
//! decoded, by the core specification, "Binary Format", "Instructions" and "Modules".

pub(crate) mod body;
pub(crate) mod code_section;
pub(crate) mod const_expr;
pub(crate) mod expression;
pub(crate) mod first;
pub(crate) mod function;
pub mod joined;
pub mod laws;
pub(crate) mod locals;
pub(crate) mod members;
pub(crate) mod walk;

pub(crate) use body::{Body, read_body, read_code, shorten_body};
pub use code_section::CodeSectionIn;
#[doc(alias = "bodies")]
pub use code_section::CodeSection;
#[doc(alias = "initializer")]
#[doc(alias = "constant expression")]
pub use const_expr::ConstExpr;
pub(crate) use expression::Expression;
#[doc(alias = "body")]
#[doc(alias = "func")]
#[doc(alias = "locals")]
pub use function::Function;
pub(crate) use members::Members;
pub(crate) use walk::{Decoded, Instructions};

/// The names that decode, which `reader` exports.
pub(crate) mod reading {
    pub use super::body::Body;
    #[doc(alias = "parse")]
    #[doc(alias = "disassemble")]
    pub use super::body::read_body;
    #[doc(alias = "parse")]
    #[doc(alias = "disassemble")]
    pub use super::body::read_code;
    #[doc(alias = "minimize")]
    pub use super::body::shorten_body;
    pub use super::expression::Expression;
    #[doc(alias = "labels")]
    #[doc(alias = "br_table targets")]
    #[doc(alias = "catch clauses")]
    #[doc(alias = "vector")]
    pub use super::members::Members;
    pub use super::walk::Decoded;
    #[doc(alias = "disassemble")]
    #[doc(alias = "opcode")]
    #[doc(alias = "operators")]
    pub use super::walk::Instructions;
}
