//! The proved builders. They return an error where those at the root panic or abort.
//!
//! Use them if a program must not end when memory runs out or a list is too long.
//!
//! - A call that fails changes nothing, and returns [`Refused::Memory`] if an allocation fails, or
//!   [`Refused::TooLong`] if a count, run or length would exceed 4294967295. Exception: [`add_all`]
//!   keeps the items before the failing one, and returns their number.
//! - Calls that make a value take an [`Allocator`] first. [`Global`] is that of the program. One of
//!   your own can limit the memory of builders: [`Allocator`] shows a shared budget.
//! - Builders have the names of those at the root. [`From`] converts a value that is built here
//!   with [`Global`] to the root's type:
//!
//! ```
//! use dolzhytik::fallible::{self, Global, Refused};
//! use dolzhytik::{Module, NameSection};
//!
//! /// Names the module. A name that is too long, or an allocation that fails, is an error.
//! fn named(name: &str) -> Result<NameSection, Refused> {
//!     let mut names = fallible::NameSection::new(Global);
//!     names.module(name)?;
//!     Ok(names.into())
//! }
//!
//! let mut module = Module::new();
//! module.section(&named("m")?);
//! assert_eq!(module.as_slice()[8..], *b"\0\x09\x04name\0\x02\x01m");
//! # Ok::<(), Refused>(())
//! ```
//!
//! A module can also be built here alone, and needs no `Vec` of `std`:
//!
//! ```
//! use dolzhytik::fallible::{CodeSection, Function, Global, Instruction, Module};
//!
//! let mut body = Function::new(Global, [])?;
//! body.instruction(&Instruction::End)?;
//! let mut code = CodeSection::new(Global);
//! code.function(&body)?;
//! let mut module = Module::new(Global)?;
//! module.section(&code)?;
//! // The header; id 10, size 4, one body. The body: size 2, no locals, end (0B).
//! assert_eq!(module.finish()[..], *b"\0asm\x01\0\0\0\x0A\x04\x01\x02\0\x0B");
//! # Ok::<(), dolzhytik::fallible::Refused>(())
//! ```
//!
//! Types without a builder, such as [`ValType`], [`MemArg`] and [`MemoryType`], are the root's own.
//! [`SectionId`], [`ExportKind`], [`TagKind`], [`TagType`], [`EntityType`], [`Import`] and
//! [`ImportCompact`] convert both ways. `Instruction::from(&instruction)` converts an instruction
//! of the root, and borrows its lists.
//!
//! A glob import of this module hides the [`Vec`](alloc_crate::vec::Vec) and
//! [`String`](alloc_crate::string::String) of `std`.
//!
//! # Beside the root
//!
//! | | at the root | here |
//! |---|---|---|
//! | status | tested: proved encoders append each number and entry, and the root itself opcodes and the raw bytes of bodies | proved, by the clauses on each page |
//! | calls that add | return `&mut Self`, or nothing | return a `Result` |
//! | a count, run or length past 4294967295 | a panic, before an item is taken from a list that is too long | the error `TooLong`, and no change |
//! | a failed allocation | ends the program | the error `Memory`, and no change |
//! | values of instructions | one enum of 628 cases, with lists in `Cow` | nested enums, with lists in `CowSlice`. `From` makes them of the root's |
//! | named calls of a sink | 628 | the 41 that compilers use most |
//! | encoders write | into a `Vec<u8>`, also as `dyn` | into any `Sink` |
//! | payload of a raw or custom section | the field `data` | the field `bytes` |
//!
//! # What is proved
//!
//! This module and [`reader`](crate::reader) are the repository's libraries with the contracts
//! erased. Only [`Allocator`], [`Vec`], [`String`], [`Sink`],
//! [`Reencode`](crate::reader::Reencode), their impls and errors, and [`hex`] are written by hand.
//! Every other function is proved to be safe, to return, and to keep the clauses that its page has
//! under **Proved**, word for word. The words above clauses are a summary. Trusted are the prover,
//! the definitions that clauses name, `tools/to-rust`, which erases the contracts, the code written
//! by hand, and rustc with its library.
//!
//! [`definitions`](crate::definitions) has these definitions, and says how to read clauses.
//! **Defined** has the words of a trait's clauses, such as `encoding`, the encoding.
//!
//! # Instructions
//!
//! The opcode of an instruction determines its enum. One-byte instructions outside 45 to C4
//! (hexadecimal), and those with fields after the prefixes FB and FC, are cases of [`Instruction`].
//! The others are in an enum for each group of opcodes: [`Numeric`] (45 to C4), [`Aggregate`] (FB),
//! [`PrefixedNumeric`] (FC), [`Vector`] and [`VectorImmediate`] (FD, without and with fields), and
//! [`Atomic`] (FE). Those without fields are constants too: `Instruction::I32Add` is an
//! instruction.
//!
//! # What is asked
//!
//! **Asks** on a page lists the caller's obligations that types do not ensure: mostly that an
//! iterator ends, or has the length that it reports. If one is not met, a call may return a wrong
//! result or panic, but has no undefined behaviour. Calls ask this:
//!
#![doc = include_str!("asks.md")]

// Names that the root or `reader` has too: rustdoc makes the page of each there. The globs below
// have the names of the root.
#[doc(no_inline)]
pub use crate::reader::{
    CoreFrame, DylinkItem, ElementItem, ElementItemMode, ElementList, GlobalItem, LinkItem,
    NameItem, Segment, SubItem, Symbol, TableItem, TypeEntry,
};
#[doc(no_inline)]
pub use crate::{
    AbstractHeapType, ArrayType, BlockType, BranchHint, CORE_FUNCTION_EXACT_SORT,
    CORE_FUNCTION_SORT, CORE_GLOBAL_SORT, CORE_MEMORY_SORT, CORE_TABLE_SORT, CORE_TAG_SORT, Catch,
    ContType, CoreDumpValue, DataCountSection, DataSymbolDefinition, FieldType, GlobalType, Handle,
    HeapType, Ieee32, Ieee64, Lane, MemArg, MemArgOrdering, MemArgTarget, MemoryType, Ordering,
    RawCustomSection, RefType, StartSection, StorageType, TableType, ValType, encoding_size,
};

pub use crate::alloc::*;
pub use crate::base::*;
pub use crate::code::*;
pub use crate::custom::*;
#[allow(unused_imports)] // Each of its names is above.
pub use crate::immediates::*;
pub use crate::insn::*;
pub use crate::sections::*;
pub use crate::string::*;
pub use crate::types::*;
pub use crate::vec::*;

/// The builders of sections over [`Entries`]: they keep the bytes of their entries and their number.
/// They take 8 bytes an entry less than the builders of the same names in
/// [`fallible`](crate::fallible), and no call returns an entry.
///
/// ```
/// use dolzhytik::fallible::{ExportKind, Global, Module, joined::ExportSection};
///
/// let mut exports = ExportSection::new(Global);
/// exports.export("f", ExportKind::Func, 0)?;
/// let mut module = Module::new(Global)?;
/// module.section(&exports)?;
/// // Id 7, size 5, one export: a name of one byte, the kind 0, the index 0.
/// assert_eq!(module.finish()[8..], [7, 5, 1, 1, b'f', 0, 0]);
/// # Ok::<(), dolzhytik::fallible::Refused>(())
/// ```
pub mod joined {
    pub use crate::code::joined::*;
    pub use crate::custom::joined::*;
    pub use crate::sections::joined::*;
    pub use crate::types::joined::*;
}

/// Hexadecimal text: encoded in lower case, decoded from either case.
pub mod hex {
    pub use crate::hex::*;
}

/// Clauses about all bytes rather than about a call, such as that a format is unambiguous.
///
/// The functions do nothing: their pages have the clauses.
pub mod laws {
    pub use crate::base::laws as base;
    pub use crate::code::laws as code;
    pub use crate::custom::laws as custom;
    pub use crate::immediates::laws as immediates;
    pub use crate::insn::laws as insn;
    pub use crate::sections::laws as sections;
    pub use crate::types::laws as types;
}

/// Recipes of modules: lines of text that each add an item to a section. It needs the feature
/// `recipe`.
///
/// [`assemble`](recipe::assemble) returns the module of a recipe, or the first error in it. The
/// page [Recipes](https://github.com/dolzhytik/dolzhytik/blob/main/docs/RECIPES.md) lists the
/// commands.
#[cfg_attr(
    feature = "programs",
    doc = "With the feature `programs`, [`run`](recipe::run) is the program `wasmrow`."
)]
#[doc(alias = "assemble")]
#[doc(alias = "text format")]
#[cfg(feature = "recipe")]
pub mod recipe {
    pub use crate::recipe::*;
}
