// Written by tools/to-rust from crates/wasm_sections/src/memory.rt: change that.
// The memory section: its builder and its reader.

use crate::vec::Sink;
use crate::sections::counted_section::{CountedSection, ItemKind, RecordOf};
use crate::sections::flags::where_set;
use crate::alloc::{Allocator, Global};
use crate::base::{DecodeError, Encode, Grammar, Kind, Layout, Optional, Pieces, ReadFault, Readable, Result, SectionId, Store, read_optional};

/// The memory section: the memories that a module defines.
///
/// ```
/// # fn example() -> Result<(), Box<dyn std::error::Error>> {
/// # use dolzhytik::{fallible::*, reader::*};
/// use dolzhytik::fallible::{Global, MemorySection, MemoryType, Module};
///
/// let mut module = Module::new(Global)?;
/// let mut memories = MemorySection::new(Global);
/// memories.memory(MemoryType {
///     minimum: 1,
///     maximum: None,
///     memory64: false,
///     shared: false,
///     page_size_log2: None,
/// })?;
/// module.section(&memories)?;
/// # Ok(())
/// # }
/// # example().unwrap();
/// ```
pub type MemorySection<A = Global> = CountedSection<MemoryItems, Pieces<A>>;

/// The kind of a memory section's items: memory types.
///
/// # Examples
///
/// ```
/// use dolzhytik::fallible::{Global, ItemKind, MemoryItems, MemorySection};
///
/// let section = MemorySection::new(Global);
/// assert_eq!((section.len(), MemoryItems::id()), (0, 5));
/// ```
#[derive(Clone, Copy, Debug)]
pub struct MemoryItems;

/// The type of a memory, which [`MemorySection::memory`](crate::MemorySection::memory) takes,
/// and [`EntityType::Memory`](crate::EntityType::Memory) for an imported one.
///
/// Core specification, Types, Memory Types.
///
/// `shared` is of the threads proposal, and `page_size_log2` of the custom page sizes proposal.
///
/// # Examples
///
/// ```
/// use dolzhytik::{Encode, MemoryType};
///
/// let mut bytes = Vec::new();
/// MemoryType {
///     minimum: 1,
///     maximum: Some(2),
///     memory64: false,
///     shared: false,
///     page_size_log2: None,
/// }
/// .encode(&mut bytes);
/// // Flags: 1 for a maximum. From 1 to 2 pages.
/// assert_eq!(bytes, [1, 1, 2]);
/// ```
#[derive(Clone, Copy, PartialEq, Eq, Hash, Debug)]
pub struct MemoryType {
    /// The initial size in pages.
    pub minimum: u64,
    /// The limit of the size in pages.
    pub maximum: Option<u64>,
    /// Whether addresses have 64 bits.
    pub memory64: bool,
    /// Whether threads share the memory.
    pub shared: bool,
    /// The size of a page in bytes, as an exponent of 2. It is not checked.
    pub page_size_log2: Option<u32>,
}

impl MemoryType {
    /// Returns the size of a page in bytes, as an exponent of 2: 16 by default.
    ///
    /// # Proved
    ///
    /// ```text
    /// ensures { result ≡ page_exponent self.now.page_size_log2 }
    /// ```
    ///
    /// Definitions: [`page_exponent`](crate::definitions::sections::memories::page_exponent). [How to read clauses](crate::definitions).
    pub const fn page_size_log2(&self) -> u32 {
        match self.page_size_log2 {
            Some(exponent) => exponent,
            None => 16,
        }
    }

    /// Returns the size of a page in bytes.
    ///
    /// # Asks
    ///
    /// A page has less than 2^32 bytes. [What happens otherwise](crate::fallible#what-is-asked).
    ///
    /// ```text
    /// requires { page_exponent self.now.page_size_log2 < 32 }
    /// ```
    ///
    /// Definitions: [`page_exponent`](crate::definitions::sections::memories::page_exponent). [How to read clauses](crate::definitions).
    ///
    /// # Proved
    ///
    /// ```text
    /// ensures { result ≡ 2 ^ page_exponent self.now.page_size_log2 }
    /// ```
    ///
    /// Definitions: [`page_exponent`](crate::definitions::sections::memories::page_exponent). [How to read clauses](crate::definitions).
    pub const fn page_size(&self) -> u32 {
        1 << self.page_size_log2()
    }

    /// Returns the flags: a bit for each optional field that is present, and for each attribute
    /// that is set.
    #[inline]
    fn flags(&self) -> u8 {
        where_set(self.maximum.is_some(), 0x01)
            + where_set(self.shared, 0x02)
            + where_set(self.memory64, 0x04)
            + where_set(self.page_size_log2.is_some(), 0x08)
    }
}

/// Encodes the flags, the minimum, and the fields for which the flags have a bit.
///
/// # Defined
///
/// ```text
/// encoding = { memory_encoding }
/// encodable = { λ _. ⊤ }
/// ```
///
/// Definitions: [`memory_encoding`](crate::definitions::sections::memories::memory_encoding). [How to read clauses](crate::definitions).
impl Encode for MemoryType {
    #[inline]
    fn encode<A: Sink>(&self, sink: &mut A) -> Result<()> {
        let maximum = Optional(self.maximum);
        let page_size = Optional(self.page_size_log2);
        (self.flags(), self.minimum, (maximum, page_size)).encode(sink)
    }
}

/// # Defined
///
/// ```text
/// Record = { Memory }
/// Item = { Memory }
/// kind = { memory_items }
/// ```
///
/// Definitions: [`memory_items`](crate::definitions::sections::memories::memory_items). [How to read clauses](crate::definitions).
impl Kind for MemoryItems {
    fn laws() {}
}

/// # Defined
///
/// ```text
/// section_id = { number_of ids.Memory }
/// ```
///
/// Definitions: [`number_of`](crate::definitions::base::section_id::number_of). [How to read clauses](crate::definitions).
impl ItemKind for MemoryItems {
    fn id() -> u8 {
        SectionId::Memory.into()
    }
}

impl RecordOf<MemoryItems> for MemoryType {}

impl<S: Store> CountedSection<MemoryItems, S> {
    /// Adds a memory of this type.
    ///
    /// # Errors
    ///
    /// Returns [`TooLong`](crate::fallible::Refused::TooLong) if the builder has 4294967295
    /// entries, and [`Memory`](crate::fallible::Refused::Memory) if an allocation fails. The
    /// builder is then unchanged.
    ///
    /// # Proved
    ///
    /// The builder gains one entry with this encoding, or the call returns an error and changes nothing. A full builder, with 2^32 - 1 entries, returns `TooLong`.
    ///
    /// ```text
    /// ensures { AddsTo S.model (memory_encoding memory_type) ⊤ self.old self.new result }
    /// ```
    ///
    /// Definitions: [`AddsTo`](crate::definitions::base::calls::AddsTo), [`memory_encoding`](crate::definitions::sections::memories::memory_encoding). [How to read clauses](crate::definitions).
    pub fn memory(&mut self, memory_type: MemoryType) -> Result<()> {
        self.add_record(&memory_type)
    }
}

/// The flags of limits.
#[derive(Clone, Copy, Debug)]
pub(crate) struct Flags {
    pub(crate) has_maximum: bool,
    pub(crate) shared: bool,
    pub(crate) is_64: bool,
    pub(crate) has_page_size: bool,
}

/// # Defined
///
/// ```text
/// Value = { FlagBits }
/// format = { flags_format }
/// view = { flags_view }
/// ```
///
/// Definitions: [`FlagBits`](crate::definitions::sections::flags::Flags), [`flags_format`](crate::definitions::sections::flags::flags), [`flags_view`](crate::definitions::sections::flags::flags_view). [How to read clauses](crate::definitions).
impl Layout for Flags {
    fn laws() {}
}

/// # Defined
///
/// ```text
/// may_allocate = { ⊥ }
/// ```
///
/// [How to read clauses](crate::definitions).
impl<'a, A: Allocator + Copy, G: Grammar> Readable<'a, A, G> for Flags {
    fn read(bytes: &'a [u8], alloc: A) -> Result<(Flags, &'a [u8]), DecodeError> {
        let (byte, rest) = <u8 as Readable<'a, A, G>>::read(bytes, alloc)?;
        if byte >= 0x10 {
            return Err(ReadFault::UnknownTag.just_before(rest));
        }
        let flags = Flags {
            has_maximum: byte % 2 == 1,
            shared: byte / 2 % 2 == 1,
            is_64: byte / 4 % 2 == 1,
            has_page_size: byte / 8 % 2 == 1,
        };
        Ok((flags, rest))
    }
}

/// # Defined
///
/// ```text
/// Value = { Memory }
/// format = { memory_type }
/// view = { λ memory. memory }
/// ```
///
/// Definitions: [`memory_type`](crate::definitions::sections::memories::memory_type). [How to read clauses](crate::definitions).
impl Layout for MemoryType {
    fn laws() {}
}

/// # Defined
///
/// ```text
/// may_allocate = { ⊥ }
/// ```
///
/// [How to read clauses](crate::definitions).
impl<'a, A: Allocator + Copy, G: Grammar> Readable<'a, A, G> for MemoryType {
    fn read(bytes: &'a [u8], alloc: A) -> Result<(MemoryType, &'a [u8]), DecodeError> {
        let (flags, rest) = <Flags as Readable<'a, A, G>>::read(bytes, alloc)?;
        let (minimum, rest) = <u64 as Readable<'a, A, G>>::read(rest, alloc)?;
        let (maximum, rest) = read_optional::<'a, u64, A, G>(flags.has_maximum, rest, alloc)?;
        let (page_size_log2, rest) = read_optional::<'a, u32, A, G>(
            flags.has_page_size,
            rest,
            alloc,
        )?;
        let memory = MemoryType {
            minimum,
            maximum,
            memory64: flags.is_64,
            shared: flags.shared,
            page_size_log2,
        };
        Ok((memory, rest))
    }
}
