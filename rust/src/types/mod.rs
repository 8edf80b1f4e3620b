// Written by tools/to-rust from crates/wasm_types/src/lib.rt: change that.
//! The type section of a module, by the core specification, "Binary Format", "Types" and "Type
//! Section": its builder, its reader and the walk over its types.
//!
//! The reader is exact: `Ok` holds the items that the bytes encode in its grammar. Every error
//! except `ReadFault::Memory` means that the bytes encode no such items.

pub(crate) mod fields;
pub(crate) mod items;
pub mod joined;
pub mod laws;
pub(crate) mod shapes;
pub(crate) mod type_section;
pub(crate) mod types;
pub(crate) mod walk;

pub(crate) use items::{SubItem, TypeEntry};
pub use type_section::{CoreTypeEncoder, CoreTypeEncoderIn, TypeItems, TypeSectionIn, append_types, read_types};
#[doc(alias = "signature")]
#[doc(alias = "rectype")]
pub use type_section::TypeSection;
pub use types::{ArrayType, CompositeInnerType, CompositeType, ContType, FieldType, StorageType, StructType, SubType};
#[doc(alias = "signature")]
pub use types::FuncType;

/// The names that decode, which `reader` exports.
pub(crate) mod reading {
    pub use super::items::{SubItem, TypeEntry};
}
