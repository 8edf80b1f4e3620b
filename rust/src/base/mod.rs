// Written by tools/to-rust from crates/wasm_base/src/lib.rt: change that.
//! The base of a WebAssembly library: numbers, names, vectors, size prefixes and types, encoded and
//! decoded, the entries of a builder, sections and modules.
//!
//! The formats are those of the WebAssembly core specification, "Binary Format".
//! `specs/Formats.antt` defines which bytes encode which values, `specs/Calls.antt` the contracts
//! of calls that append, and [`laws`] states that the formats are unambiguous.

mod counted;
mod cow;
mod effect;
mod encode;
mod fault;
mod fixed;
mod frames;
mod grammar;
mod kind;
pub mod laws;
mod leb128;
mod modules;
mod names;
mod once;
mod parts;
mod pieces;
mod readable;
mod refused;
mod section_id;
mod sections;
mod shorten;
mod store;
mod tuples;
mod types;
mod vectors;
mod walk;
mod whole;

pub use counted::{Counted, add_all};
pub use cow::{CowSlice, CowStr};
pub(crate) use effect::{Discard, Effect, EncodeIn};
pub use encode::Encode;
pub(crate) use fault::{DecodeError, ReadFault};
pub use frames::{begin_size_prefixed, encode_section, encode_size_prefixed};
pub(crate) use frames::{RawBytes, SizePrefixed, SizedBytes, prefix_size_since};
pub(crate) use grammar::{Grammar, Padded, Standard};
pub use kind::Kind;
pub use leb128::{Groups, encoding_size};
#[doc(alias = "leb128")]
#[doc(alias = "varint")]
#[doc(alias = "parse")]
pub use leb128::read_groups;
pub(crate) use leb128::read_index;
#[doc(alias = "wasm")]
#[doc(alias = "encoder")]
pub use modules::Module;
pub use once::{BytesOf, EncodeOnce, VecOf, bytes_of, vec_of};
pub use parts::{Lent, Optional};
pub(crate) use parts::read_optional;
pub use pieces::Pieces;
pub(crate) use readable::{Layout, Readable};
pub use refused::{Refused, Result};
pub use section_id::{
    CORE_FUNCTION_EXACT_SORT, CORE_FUNCTION_SORT, CORE_GLOBAL_SORT, CORE_MEMORY_SORT,
    CORE_TABLE_SORT, CORE_TAG_SORT, SectionId,
};
pub use sections::{RawSection, Section};
pub(crate) use shorten::Shorten;
pub use store::{Entries, NewStore, Property, Store};
pub(crate) use store::{ItemsOf, PaddedOf};
pub use types::{AbstractHeapType, HeapType, RefType, ValType};
pub(crate) use types::read_val_after;
pub use vectors::encode_vec;
pub(crate) use vectors::append_all;
pub(crate) use walk::{Canonical, Shared, Walk, check_to_end, check_whole, minimize_many, minimize_to_end, minimize_whole, skip_many, skip_value, walk_in, walk_many, walk_shared, walk_to_end, walk_value, walk_whole};
pub(crate) use whole::{read_before, read_to_end, read_whole};

/// The names that decode, which `reader` exports.
pub(crate) mod reading {
    pub use super::effect::{Discard, Effect, EncodeIn};
    pub use super::fault::DecodeError;
    #[doc(alias = "error")]
    #[doc(alias = "malformed")]
    pub use super::fault::ReadFault;
    pub use super::frames::SizePrefixed;
    pub use super::grammar::{Grammar, Padded, Standard};
    pub use super::parts::read_optional;
    pub use super::readable::Layout;
    #[doc(alias = "parse")]
    #[doc(alias = "decode")]
    #[doc(alias = "leb128")]
    pub use super::readable::Readable;
    #[doc(alias = "minimize")]
    #[doc(alias = "shrink")]
    pub use super::shorten::Shorten;
    pub use super::vectors::append_all;
    pub use super::walk::{Canonical, Shared, check_to_end, check_whole, minimize_many, minimize_to_end, minimize_whole, skip_many, skip_value, walk_many};
    #[doc(alias = "minimize")]
    #[doc(alias = "skip")]
    pub use super::walk::Walk;
    pub use super::whole::{read_to_end, read_whole};
}
