// Written by tools/to-rust from crates/wasm_types/src/joined.rt: change that.
//! The type section over [`Entries`]: it keeps the bytes of its entries and their number. It does not
//! keep where an entry ends, and no call returns an entry.

use crate::types::type_section::TypeSectionIn;
use crate::alloc::Global;
use crate::base::Entries;

/// The type section.
pub type TypeSection<A = Global> = TypeSectionIn<Entries<A>>;
