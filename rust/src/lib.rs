#![doc = include_str!("../README.md")]
//! ## Where to start
//!
//! - [`Module`] takes sections, such as [`TypeSection`], [`ImportSection`], [`CodeSection`],
//!   [`DataSection`] and [`CustomSection`], and returns the bytes.
//! - [`Function`] is a body. [`InstructionSink`] has a call for each instruction, and
//!   [`Instruction`] is one as a value. [`ConstExpr`] is a constant expression.
//! - Implement [`Encode`] and [`Section`] for values and sections of your own.
//! - [`fallible`] has the proved builders. Their calls return errors.
//! - [`reader`] lists, decodes, edits and minimizes modules. Begin with [`reader::Sections`], and to
//!   edit, with [`reader::Reencode`].
//! - [`definitions`] explains contracts, and defines each word in them.
#![no_std]
#![forbid(unsafe_code)]
#![warn(missing_docs)]

// `alloc` is a module here.
extern crate alloc as alloc_crate;
#[cfg(feature = "std")]
extern crate std;

#[cfg(not(any(target_pointer_width = "32", target_pointer_width = "64")))]
compile_error!("a pointer must have 32 or 64 bits");

#[cfg(feature = "wasmparser")]
compile_error!(
    "there are no conversions of `wasmparser`'s types: write a `match`, or decode with `dolzhytik::reader`"
);

#[cfg(feature = "component-model")]
compile_error!("there are no components: keep `wasm-encoder` beside this package for them");

mod alloc;
#[cfg(doc)]
#[doc(alias = "contract")]
#[doc(alias = "ensures")]
#[doc(alias = "proved")]
#[doc(alias = "requires")]
#[doc(alias = "specification")]
#[rustfmt::skip]
pub mod definitions;
mod drop_in;
mod ending;
mod errors;
#[doc(alias = "allocator")]
#[doc(alias = "asks")]
#[doc(alias = "budget")]
#[doc(alias = "out of memory")]
#[doc(alias = "proved")]
#[doc(alias = "no_std")]
pub mod fallible;
mod hex;
mod reencode;
mod string;
mod vec;

/// Declares the modules that `tools/to-rust` writes. They keep the names of their source, arguments
/// that only contracts use, and functions that only the proved build calls.
macro_rules! written {
    ($($(#[$attribute:meta])* $visibility:vis mod $name:ident;)*) => {
        $(
            $(#[$attribute])*
            #[allow(dead_code, non_upper_case_globals, unused_imports, unused_mut, unused_variables, clippy::all)]
            $visibility mod $name;
        )*
    };
}

pub use drop_in::*;

written! {
    mod base;
    mod code;
    mod custom;
    mod immediates;
    mod insn;
    #[doc(alias = "decode")]
    #[doc(alias = "decoder")]
    #[doc(alias = "disassemble")]
    #[doc(alias = "edit")]
    #[doc(alias = "insert")]
    #[doc(alias = "parse")]
    #[doc(alias = "parser")]
    #[doc(alias = "reencode")]
    #[doc(alias = "wasmparser")]
    pub mod reader;
    #[cfg(feature = "recipe")]
    mod recipe;
    mod remap;
    mod sections;
    mod types;
}
