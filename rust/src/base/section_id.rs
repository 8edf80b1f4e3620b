// Written by tools/to-rust from crates/wasm_base/src/section_id.rt: change that.
// The ids of sections, and the sorts of imports and exports.

/// The ids of sections, as the core specification ("Modules") and its proposals define them.
///
/// [`SectionId`](crate::SectionId) of the root converts from it and to it.
///
/// # Examples
///
/// ```
/// use dolzhytik::fallible::{RawSection, Section, SectionId};
///
/// let start = RawSection { id: SectionId::Start.into(), bytes: &[0] };
/// assert_eq!(start.id(), 8);
/// ```
#[derive(Clone, Copy, PartialEq, Eq, Debug)]
pub enum SectionId {
    /// Custom sections, such as names.
    Custom = 0,
    /// The type section.
    Types = 1,
    /// The import section.
    Import = 2,
    /// The function section.
    Function = 3,
    /// The table section.
    Table = 4,
    /// The memory section.
    Memory = 5,
    /// The global section.
    Global = 6,
    /// The export section.
    Export = 7,
    /// The start section.
    Start = 8,
    /// The element section.
    Element = 9,
    /// The code section.
    Code = 10,
    /// The data section.
    Data = 11,
    /// The data count section.
    DataCount = 12,
    /// The tag section.
    Tag = 13,
}

/// # Defined
///
/// ```text
/// from_gives = { λ id n. n ≡ number_of id }
/// ```
///
/// Definitions: [`number_of`](crate::definitions::base::section_id::number_of). [How to read clauses](crate::definitions).
impl From<SectionId> for u8 {
    fn from(id: SectionId) -> u8 {
        id as u8
    }
}

/// The kind byte of functions in the encodings of imports and exports.
///
/// Core specification, Modules, Export Section.
pub const CORE_FUNCTION_SORT: u8 = 0x00;

/// The kind byte of tables in the encodings of imports and exports.
///
/// Core specification, Modules, Export Section.
pub const CORE_TABLE_SORT: u8 = 0x01;

/// The kind byte of memories in the encodings of imports and exports.
///
/// Core specification, Modules, Export Section.
pub const CORE_MEMORY_SORT: u8 = 0x02;

/// The kind byte of globals in the encodings of imports and exports.
///
/// Core specification, Modules, Export Section.
pub const CORE_GLOBAL_SORT: u8 = 0x03;

/// The kind byte of tags in the encodings of imports and exports.
///
/// Core specification, Modules, Export Section.
pub const CORE_TAG_SORT: u8 = 0x04;

/// The kind byte of functions of exactly one type in the encodings of imports and exports, by
/// the custom descriptors proposal.
/// [`EntityType::FunctionExact`](crate::EntityType::FunctionExact) is encoded with it.
pub const CORE_FUNCTION_EXACT_SORT: u8 = 0x20;

// The sorts of the standard's "Binary Format", and the sort of the proposal for exact types.
const _: () = assert!(CORE_FUNCTION_SORT == 0x00);

const _: () = assert!(CORE_TABLE_SORT == 0x01);

const _: () = assert!(CORE_MEMORY_SORT == 0x02);

const _: () = assert!(CORE_GLOBAL_SORT == 0x03);

const _: () = assert!(CORE_TAG_SORT == 0x04);

const _: () = assert!(CORE_FUNCTION_EXACT_SORT == 0x20);
