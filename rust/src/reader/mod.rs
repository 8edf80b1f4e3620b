// Written by tools/to-rust from crates/wasm_reader/src/lib.rt: change that.
#![doc = include_str!("../reader.md")]

pub use crate::base::reading::*;
pub use crate::types::reading::*;
pub use crate::insn::reading::*;
pub use crate::code::reading::*;
pub use crate::sections::reading::*;
pub use crate::custom::reading::*;
pub use crate::reencode::*;

/// Indices, mapped: each place of a module that refers to a function, a type, a table and so on.
pub mod remap {
    pub use crate::remap::*;
}

mod by_opcode;
mod code_bodies;
mod convert;
mod kinds;
pub mod laws;
mod minimal;
mod modules;
mod outlines;
mod read_error;
mod section;
mod sections;
mod standing;
mod walk;
mod whole;

pub use code_bodies::{Bodies, CodeBody};
#[doc(alias = "convert")]
pub use convert::instruction_of;
pub use kinds::{Items, SectionKind};
#[doc(alias = "edit")]
#[doc(alias = "insert")]
#[doc(alias = "rewrite")]
pub use kinds::encode_items;
#[doc(alias = "edit")]
#[doc(alias = "insert")]
#[doc(alias = "rewrite")]
pub use minimal::encode_items_in;
#[doc(alias = "minimize")]
#[doc(alias = "leb128")]
#[doc(alias = "wasm-opt")]
pub use minimal::shorten;
pub use modules::{Listed, list_module};
pub use outlines::Outlined;
#[doc(alias = "inspect")]
#[doc(alias = "objdump")]
pub use outlines::outline;
pub use read_error::ReadError;
#[doc(alias = "parse")]
#[doc(alias = "decode")]
pub use section::read_section;
pub use sections::Section;
#[doc(alias = "parse")]
#[doc(alias = "wasmparser")]
#[doc(alias = "iterate")]
pub use sections::Sections;
pub use crate::base::reading::ReadFault;
pub use crate::code::reading::{Body, Expression};
pub use crate::custom::reading::{CoreFrame, DylinkItem, LinkItem, NameItem, Symbol};
pub use crate::insn::reading::{Arg, Plain};
pub use crate::sections::reading::{ElementItem, ElementItemMode, ElementList, GlobalItem, Segment, TableItem};
pub use crate::types::reading::TypeEntry;
pub use whole::ModuleFault;
#[doc(alias = "relocations")]
#[doc(alias = "source map")]
#[doc(alias = "dwarf")]
pub use whole::Offsets;
#[doc(alias = "minimize")]
#[doc(alias = "leb128")]
#[doc(alias = "wasm-opt")]
pub use whole::shorten_module;
