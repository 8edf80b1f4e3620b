// Written by tools/to-rust from crates/wasm_custom/src/relocations.rt: change that.
// The relocation section: its builder, its reader and its minimizer.

use crate::vec::{Sink, Vec};
use crate::string::String;
use crate::custom::custom_section::CustomSection;
use crate::custom::entries::{data_of, encode_entries};
use crate::alloc::{Allocator, Global};
use crate::base::{CowSlice, CowStr, DecodeError, Encode, Grammar, Layout, Pieces, ReadFault, Readable, Result, Section, SectionId, Shorten, read_whole};

/// The kind of a relocation without an addend: the number that the linker writes, and its encoding
/// at the offset.
///
/// [`Relocation::Plain`](crate::fallible::Relocation::Plain) has it.
///
/// # Examples
///
/// ```
/// use dolzhytik::fallible::{Encode, PlainRelocation};
///
/// let mut bytes = vec![];
/// PlainRelocation::TypeIndexLeb.encode(&mut bytes)?;
/// assert_eq!(bytes, [6]);
/// # Ok::<(), dolzhytik::fallible::Refused>(())
/// ```
#[derive(Clone, Copy, PartialEq, Eq, Hash, Debug)]
#[non_exhaustive]
pub enum PlainRelocation {
    /// A function index in 5 bytes of unsigned LEB128, such as the immediate of `call`.
    FunctionIndexLeb = 0,
    /// An index of a function in the table, in 5 bytes of signed LEB128.
    TableIndexSleb = 1,
    /// An index of a function in the table, in 4 bytes.
    TableIndexI32 = 2,
    /// A type index in 5 bytes of unsigned LEB128.
    TypeIndexLeb = 6,
    /// A global index in 5 bytes of unsigned LEB128.
    GlobalIndexLeb = 7,
    /// A tag index in 5 bytes of unsigned LEB128.
    TagIndexLeb = 10,
    /// An index in the table relative to `__table_base`, in 5 bytes of signed LEB128.
    TableIndexRelSleb = 12,
    /// A global index in 4 bytes.
    GlobalIndexI32 = 13,
    /// An index of a function in the table, in 10 bytes of signed LEB128.
    TableIndexSleb64 = 18,
    /// An index of a function in the table, in 8 bytes.
    TableIndexI64 = 19,
    /// A table index in 5 bytes of unsigned LEB128.
    TableNumberLeb = 20,
    /// An index in the table relative to `__table_base`, in 10 bytes of signed LEB128.
    TableIndexRelSleb64 = 24,
    /// A function index in 4 bytes.
    FunctionIndexI32 = 26,
}

/// Encodes the kind as one byte.
///
/// # Defined
///
/// ```text
/// encoding = { λ kind. plain_code kind ∷ [] }
/// encodable = { λ _. ⊤ }
/// ```
///
/// Definitions: [`plain_code`](crate::definitions::custom::relocations::plain_code). [How to read clauses](crate::definitions).
impl Encode for PlainRelocation {
    fn encode<A: Sink>(&self, sink: &mut A) -> Result<()> {
        (*self as u8).encode(sink)
    }
}

/// The kind of a relocation with an addend of 32 bits: the number that the linker writes, and its
/// encoding at the offset.
///
/// [`Relocation::Addend32`](crate::fallible::Relocation::Addend32) has it.
///
/// # Examples
///
/// ```
/// use dolzhytik::fallible::{Addend32Relocation, Encode};
///
/// let mut bytes = vec![];
/// Addend32Relocation::MemoryAddrSleb.encode(&mut bytes)?;
/// assert_eq!(bytes, [4]);
/// # Ok::<(), dolzhytik::fallible::Refused>(())
/// ```
#[derive(Clone, Copy, PartialEq, Eq, Hash, Debug)]
#[non_exhaustive]
pub enum Addend32Relocation {
    /// An address in 5 bytes of unsigned LEB128, such as the offset of a load.
    MemoryAddrLeb = 3,
    /// An address in 5 bytes of signed LEB128, such as the immediate of `i32.const`.
    MemoryAddrSleb = 4,
    /// An address in 4 bytes.
    MemoryAddrI32 = 5,
    /// The offset of a function in the code section, in 4 bytes.
    FunctionOffsetI32 = 8,
    /// An offset in a section, in 4 bytes.
    SectionOffsetI32 = 9,
    /// An address relative to `__memory_base`, in 5 bytes of signed LEB128.
    MemoryAddrRelSleb = 11,
    /// An address relative to `__tls_base`, in 5 bytes of signed LEB128.
    MemoryAddrTlsSleb = 21,
    /// An address relative to that of the relocation, in 4 bytes.
    MemoryAddrLocrelI32 = 23,
}

/// Encodes the kind as one byte.
///
/// # Defined
///
/// ```text
/// encoding = { λ kind. addend32_code kind ∷ [] }
/// encodable = { λ _. ⊤ }
/// ```
///
/// Definitions: [`addend32_code`](crate::definitions::custom::relocations::addend32_code). [How to read clauses](crate::definitions).
impl Encode for Addend32Relocation {
    fn encode<A: Sink>(&self, sink: &mut A) -> Result<()> {
        (*self as u8).encode(sink)
    }
}

/// The kind of a relocation with an addend of 64 bits: the number that the linker writes, and its
/// encoding at the offset.
///
/// [`Relocation::Addend64`](crate::fallible::Relocation::Addend64) has it.
///
/// # Examples
///
/// ```
/// use dolzhytik::fallible::{Addend64Relocation, Encode};
///
/// let mut bytes = vec![];
/// Addend64Relocation::MemoryAddrI64.encode(&mut bytes)?;
/// assert_eq!(bytes, [16]);
/// # Ok::<(), dolzhytik::fallible::Refused>(())
/// ```
#[derive(Clone, Copy, PartialEq, Eq, Hash, Debug)]
#[non_exhaustive]
pub enum Addend64Relocation {
    /// An address in 10 bytes of unsigned LEB128.
    MemoryAddrLeb64 = 14,
    /// An address in 10 bytes of signed LEB128.
    MemoryAddrSleb64 = 15,
    /// An address in 8 bytes.
    MemoryAddrI64 = 16,
    /// An address relative to `__memory_base`, in 10 bytes of signed LEB128.
    MemoryAddrRelSleb64 = 17,
    /// The offset of a function in the code section, in 8 bytes.
    FunctionOffsetI64 = 22,
    /// An address relative to `__tls_base`, in 10 bytes of signed LEB128.
    MemoryAddrTlsSleb64 = 25,
}

/// Encodes the kind as one byte.
///
/// # Defined
///
/// ```text
/// encoding = { λ kind. addend64_code kind ∷ [] }
/// encodable = { λ _. ⊤ }
/// ```
///
/// Definitions: [`addend64_code`](crate::definitions::custom::relocations::addend64_code). [How to read clauses](crate::definitions).
impl Encode for Addend64Relocation {
    fn encode<A: Sink>(&self, sink: &mut A) -> Result<()> {
        (*self as u8).encode(sink)
    }
}

/// A relocation: where the linker writes a number, and the symbol or type that it computes the
/// number from.
///
/// Offsets count from the start of the section's payload, in a custom section from the end of its
/// name.
///
/// [`RelocationSection::relocation`](crate::fallible::RelocationSection::relocation) takes it,
/// and [`Items::Relocations`](crate::reader::Items::Relocations) has them.
///
/// # Examples
///
/// ```
/// use dolzhytik::fallible::{Addend32Relocation, Encode, Relocation};
///
/// let mut bytes = vec![];
/// Relocation::Addend32 {
///     kind: Addend32Relocation::MemoryAddrLeb,
///     offset: 300,
///     index: 1,
///     addend: -1,
/// }
/// .encode(&mut bytes)?;
/// // The kind 3, the offset 300, the index 1, the addend -1.
/// assert_eq!(bytes, [3, 0xAC, 0x02, 1, 0x7F]);
/// # Ok::<(), dolzhytik::fallible::Refused>(())
/// ```
#[derive(Clone, Copy, PartialEq, Eq, Hash, Debug)]
#[non_exhaustive]
pub enum Relocation {
    /// A relocation without an addend.
    Plain {
        /// The kind.
        kind: PlainRelocation,
        /// The offset in the section, in bytes.
        offset: u32,
        /// The index of the symbol, or of the type of a `TypeIndexLeb`.
        index: u32,
    },
    /// A relocation with an addend of 32 bits.
    Addend32 {
        /// The kind.
        kind: Addend32Relocation,
        /// The offset in the section, in bytes.
        offset: u32,
        /// The index of the symbol.
        index: u32,
        /// The number that the linker adds.
        addend: i32,
    },
    /// A relocation with an addend of 64 bits.
    Addend64 {
        /// The kind.
        kind: Addend64Relocation,
        /// The offset in the section, in bytes.
        offset: u32,
        /// The index of the symbol.
        index: u32,
        /// The number that the linker adds.
        addend: i64,
    },
}

/// Encodes the byte of the kind, the offset, the index, and the addend if the kind has one.
///
/// # Defined
///
/// ```text
/// encoding = { relocation_encoding }
/// encodable = { λ _. ⊤ }
/// ```
///
/// Definitions: [`relocation_encoding`](crate::definitions::custom::relocations::relocation_encoding). [How to read clauses](crate::definitions).
impl Encode for Relocation {
    fn encode<A: Sink>(&self, sink: &mut A) -> Result<()> {
        match *self {
            Relocation::Plain {
                kind,
                offset,
                index,
            } => (kind, (offset, index)).encode(sink),
            Relocation::Addend32 {
                kind,
                offset,
                index,
                addend,
            } => (kind, (offset, index), addend).encode(sink),
            Relocation::Addend64 {
                kind,
                offset,
                index,
                addend,
            } => (kind, (offset, index), addend).encode(sink),
        }
    }
}

/// A relocation section.
///
/// ```
/// # fn example() -> Result<(), Box<dyn std::error::Error>> {
/// # use dolzhytik::{fallible::*, reader::*};
/// use dolzhytik::fallible::{
///     Global, Module, PlainRelocation, Relocation, RelocationSection,
/// };
///
/// let mut module = Module::new(Global)?;
/// let mut relocations = RelocationSection::new(Global, "CODE", 3)?;
/// relocations.relocation(Relocation::Plain {
///     kind: PlainRelocation::FunctionIndexLeb,
///     offset: 4,
///     index: 0,
/// })?;
/// module.section(&relocations)?;
/// # Ok(())
/// # }
/// # example().unwrap();
/// ```
///
/// The tool conventions define it in
/// [Linking](https://github.com/WebAssembly/tool-conventions/blob/main/Linking.md#relocation-sections).
/// [`Items::Relocations`](crate::reader::Items::Relocations) has the relocations of a decoded
/// section. A module of the root takes the encoding as a
/// [`RawCustomSection`](crate::RawCustomSection).
///
/// # Errors
///
/// An adding call that returns an error leaves the section unchanged. The error is `TooLong` only
/// if the section is full, and `Memory` only if an allocation fails.
///
/// # Model
///
/// Contracts model it as its name, the bytes before its relocations, and the bytes of each
/// relocation. The bytes before them are the index of the section that is relocated.
#[derive(Debug)]
pub struct RelocationSection<A: Allocator = Global> {
    name: String<A>,
    front: Vec<u8, A>,
    relocations: Pieces<A>,
}

impl<A: Allocator + Copy> RelocationSection<A> {
    /// Returns the section `reloc.NAME` without relocations, where `NAME` is `section_name`, such
    /// as `CODE`, and `section` the index of that section in the module.
    ///
    /// # Errors
    ///
    /// Returns [`Memory`](crate::fallible::Refused::Memory) if an allocation fails.
    ///
    /// # Proved
    ///
    /// After `Ok`: `is`, the section is that of this section name and index, without relocations. In any case: `memory`, no error is `TooLong`.
    ///
    /// ```text
    /// ensures is { IfOk result
    ///     (λ s. s ≡ ((relocations_name section_name.now, unsigned_encoding section), [])) }
    /// ensures memory { result ≢ Err TooLong }
    /// ```
    ///
    /// Definitions: [`relocations_name`](crate::definitions::custom::relocations::relocations_name), [`unsigned_encoding`](crate::definitions::base::numbers::unsigned_encoding). [How to read clauses](crate::definitions).
    pub fn new(alloc: A, section_name: &str, section: u32) -> Result<Self> {
        let mut name = String::from_str(alloc, "reloc.")?;
        name.push_str(section_name)?;
        let mut front = Vec::new(alloc);
        section.encode(&mut front)?;
        Ok(RelocationSection {
            name,
            front,
            relocations: Pieces::new(alloc),
        })
    }

    /// Returns the same section, in memory of its own.
    ///
    /// # Errors
    ///
    /// Returns [`Memory`](crate::fallible::Refused::Memory) if an allocation fails.
    ///
    /// # Proved
    ///
    /// After `Ok`: `same`, the result equals the value. In any case: `memory`, no error is `TooLong`.
    ///
    /// ```text
    /// ensures same { IfOk result (λ s. s ≡ self.now) }
    /// ensures memory { result ≢ Err TooLong }
    /// ```
    ///
    /// [How to read clauses](crate::definitions).
    pub fn clone(&self) -> Result<Self> {
        let alloc = *self.front.allocator();
        Ok(RelocationSection {
            name: String::from_str(alloc, self.name.as_str())?,
            front: Vec::from_slice(alloc, &self.front)?,
            relocations: self.relocations.clone()?,
        })
    }
}

impl<A: Allocator> RelocationSection<A> {
    /// Adds a relocation.
    ///
    /// # Errors
    ///
    /// Returns [`TooLong`](crate::fallible::Refused::TooLong) if the builder has 4294967295
    /// entries, and [`Memory`](crate::fallible::Refused::Memory) if an allocation fails. The
    /// builder is then unchanged.
    ///
    /// # Examples
    ///
    /// ```
    /// use dolzhytik::fallible::{
    ///     Encode, Global, PlainRelocation, Relocation, RelocationSection,
    /// };
    ///
    /// let mut relocations = RelocationSection::new(Global, "CODE", 3)?;
    /// relocations.relocation(Relocation::Plain {
    ///     kind: PlainRelocation::FunctionIndexLeb,
    ///     offset: 4,
    ///     index: 0,
    /// })?;
    /// let mut bytes = vec![];
    /// relocations.encode(&mut bytes)?;
    /// // Size 16: a name of 10 bytes; section 3, one relocation: kind 0, offset 4, index 0.
    /// assert_eq!(bytes, *b"\x10\x0Areloc.CODE\x03\x01\0\x04\0");
    /// # Ok::<(), dolzhytik::fallible::Refused>(())
    /// ```
    ///
    /// # Proved
    ///
    /// - `adds`: `AddsTo` of a builder whose entries are a list of pieces.
    /// - `same_section`: the part before the entries is unchanged.
    ///
    /// ```text
    /// ensures adds { Adds (relocation_encoding relocation) ⊤ self.old.1 self.new.1 result }
    /// ensures same_section { self.new.0 ≡ self.old.0 }
    /// ```
    ///
    /// Definitions: [`Adds`](crate::definitions::base::calls::Adds), [`relocation_encoding`](crate::definitions::custom::relocations::relocation_encoding). [How to read clauses](crate::definitions).
    pub fn relocation(&mut self, relocation: Relocation) -> Result<()> {
        self.relocations.add_encoded(&relocation)
    }

    /// Returns the section as a custom section, which owns a copy of the data.
    ///
    /// # Errors
    ///
    /// Returns [`Memory`](crate::fallible::Refused::Memory) if an allocation fails.
    ///
    /// # Proved
    ///
    /// After `Ok`: `same`, the result has the name and the data of the section. In any case: `memory`, no error is `TooLong`.
    ///
    /// ```text
    /// ensures same { IfOk result
    ///     (λ s. (utf8_of s.name ≡ self.now.0.0)
    ///         × (items_of s.bytes ≡ entries_encoding self.now.0.1 true self.now.1)) }
    /// ensures memory { result ≢ Err TooLong }
    /// ```
    ///
    /// Definitions: [`utf8_of`](crate::definitions::base::cow::utf8_of), [`items_of`](crate::definitions::base::cow::items_of), [`entries_encoding`](crate::definitions::custom::entries::entries_encoding). [How to read clauses](crate::definitions).
    pub fn as_custom<B: Allocator>(&self, alloc: B) -> Result<CustomSection<'_, B>> {
        let data = data_of(alloc, &self.front, true, &self.relocations)?;
        Ok(CustomSection {
            name: CowStr::Borrowed(self.name.as_str()),
            bytes: CowSlice::Owned(data),
        })
    }
}

/// Encodes the size prefix, the name of the section, and the data: the index of the section that is
/// relocated, the number of relocations, and the relocations.
///
/// # Defined
///
/// ```text
/// encoding = { λ s. named_encoding s.0.0 (entries_encoding s.0.1 true s.1) }
/// encodable = { λ s. IsEncodableNamed s.0.0 (entries_encoding s.0.1 true s.1) }
/// decoding = { λ s. DecodesBack (size_prefixed relocations_payload)
///     (SaysRelocations s.0.0 s.0.1 s.1)
///     (named_encoding s.0.0 (entries_encoding s.0.1 true s.1)) }
/// ```
///
/// Definitions: [`named_encoding`](crate::definitions::custom::customs::named_encoding), [`entries_encoding`](crate::definitions::custom::entries::entries_encoding), [`IsEncodableNamed`](crate::definitions::custom::customs::IsEncodableNamed), [`DecodesBack`](crate::definitions::base::calls::DecodesBack), [`size_prefixed`](crate::definitions::base::formats::size_prefixed), [`relocations_payload`](crate::definitions::custom::relocations::relocations_payload), [`SaysRelocations`](crate::definitions::custom::relocations::SaysRelocations). [How to read clauses](crate::definitions).
impl<A: Allocator> Encode for RelocationSection<A> {
    fn encode<B: Sink>(&self, sink: &mut B) -> Result<()> {
        encode_entries(
            sink,
            self.name.as_str(),
            &self.front,
            true,
            &self.relocations,
        )
    }
}

/// # Defined
///
/// ```text
/// id_of = { λ _. number_of ids.Custom }
/// Items = { Relocations }
/// format = { size_prefixed relocations_payload }
/// says = { λ s. SaysRelocations s.0.0 s.0.1 s.1 }
/// payload = { λ s. NamedPayload s.0.0 (entries_encoding s.0.1 true s.1) }
/// sized = { λ s bytes encodable pays. named_sized s.0.0
///     (entries_encoding s.0.1 true s.1) bytes encodable pays }
/// decodes_back = { λ s promised. promised }
/// ```
///
/// Definitions: [`number_of`](crate::definitions::base::section_id::number_of), [`Relocations`](crate::definitions::custom::relocations::Relocations), [`size_prefixed`](crate::definitions::base::formats::size_prefixed), [`relocations_payload`](crate::definitions::custom::relocations::relocations_payload), [`SaysRelocations`](crate::definitions::custom::relocations::SaysRelocations), [`NamedPayload`](crate::definitions::custom::customs::NamedPayload), [`entries_encoding`](crate::definitions::custom::entries::entries_encoding), [`named_sized`](crate::definitions::custom::customs::named_sized). [How to read clauses](crate::definitions).
impl<A: Allocator> Section for RelocationSection<A> {
    fn id(&self) -> u8 {
        SectionId::Custom.into()
    }
}

/// The kind of a relocation, of any class.
///
/// It is decoded from the first byte of a [`Relocation`](crate::fallible::Relocation).
///
/// # Examples
///
/// ```
/// use dolzhytik::fallible::{Global, PlainRelocation, RelocationKind};
/// use dolzhytik::reader::{Readable, Standard};
///
/// let (kind, _) = <RelocationKind as Readable<Global, Standard>>::read(&[6], Global)?;
/// assert_eq!(kind, RelocationKind::Plain(PlainRelocation::TypeIndexLeb));
/// # Ok::<(), dolzhytik::reader::DecodeError>(())
/// ```
#[derive(Clone, Copy, PartialEq, Eq, Hash, Debug)]
#[non_exhaustive]
pub enum RelocationKind {
    /// A kind without an addend.
    Plain(PlainRelocation),
    /// A kind with an addend of 32 bits.
    Addend32(Addend32Relocation),
    /// A kind with an addend of 64 bits.
    Addend64(Addend64Relocation),
}

/// # Defined
///
/// ```text
/// Value = { KindModel }
/// format = { coded relocation_code }
/// view = { λ kind. kind }
/// ```
///
/// Definitions: [`coded`](crate::definitions::base::formats::coded), [`relocation_code`](crate::definitions::custom::relocations::relocation_code). [How to read clauses](crate::definitions).
impl Layout for RelocationKind {
    fn laws() {}
}

/// # Defined
///
/// ```text
/// may_allocate = { ⊥ }
/// ```
///
/// [How to read clauses](crate::definitions).
impl<'a, A: Allocator + Copy, G: Grammar> Readable<'a, A, G> for RelocationKind {
    fn read(bytes: &'a [u8], alloc: A) -> Result<(RelocationKind, &'a [u8]), DecodeError> {
        let (code, rest) = <u8 as Readable<'a, A, G>>::read(bytes, alloc)?;
        let kind = match code {
            0 => RelocationKind::Plain(PlainRelocation::FunctionIndexLeb),
            1 => RelocationKind::Plain(PlainRelocation::TableIndexSleb),
            2 => RelocationKind::Plain(PlainRelocation::TableIndexI32),
            3 => RelocationKind::Addend32(Addend32Relocation::MemoryAddrLeb),
            4 => RelocationKind::Addend32(Addend32Relocation::MemoryAddrSleb),
            5 => RelocationKind::Addend32(Addend32Relocation::MemoryAddrI32),
            6 => RelocationKind::Plain(PlainRelocation::TypeIndexLeb),
            7 => RelocationKind::Plain(PlainRelocation::GlobalIndexLeb),
            8 => RelocationKind::Addend32(Addend32Relocation::FunctionOffsetI32),
            9 => RelocationKind::Addend32(Addend32Relocation::SectionOffsetI32),
            10 => RelocationKind::Plain(PlainRelocation::TagIndexLeb),
            11 => RelocationKind::Addend32(Addend32Relocation::MemoryAddrRelSleb),
            12 => RelocationKind::Plain(PlainRelocation::TableIndexRelSleb),
            13 => RelocationKind::Plain(PlainRelocation::GlobalIndexI32),
            14 => RelocationKind::Addend64(Addend64Relocation::MemoryAddrLeb64),
            15 => RelocationKind::Addend64(Addend64Relocation::MemoryAddrSleb64),
            16 => RelocationKind::Addend64(Addend64Relocation::MemoryAddrI64),
            17 => RelocationKind::Addend64(Addend64Relocation::MemoryAddrRelSleb64),
            18 => RelocationKind::Plain(PlainRelocation::TableIndexSleb64),
            19 => RelocationKind::Plain(PlainRelocation::TableIndexI64),
            20 => RelocationKind::Plain(PlainRelocation::TableNumberLeb),
            21 => RelocationKind::Addend32(Addend32Relocation::MemoryAddrTlsSleb),
            22 => RelocationKind::Addend64(Addend64Relocation::FunctionOffsetI64),
            23 => RelocationKind::Addend32(Addend32Relocation::MemoryAddrLocrelI32),
            24 => RelocationKind::Plain(PlainRelocation::TableIndexRelSleb64),
            25 => RelocationKind::Addend64(Addend64Relocation::MemoryAddrTlsSleb64),
            26 => RelocationKind::Plain(PlainRelocation::FunctionIndexI32),
            _ => return Err(ReadFault::UnknownTag.just_before(rest)),
        };
        Ok((kind, rest))
    }
}

/// # Defined
///
/// ```text
/// Value = { RelocationModel }
/// format = { relocation }
/// view = { λ relocation. relocation }
/// ```
///
/// Definitions: [`relocation`](crate::definitions::custom::relocations::relocation). [How to read clauses](crate::definitions).
impl Layout for Relocation {
    fn laws() {}
}

/// # Defined
///
/// ```text
/// may_allocate = { ⊥ }
/// ```
///
/// [How to read clauses](crate::definitions).
impl<'a, A: Allocator + Copy, G: Grammar> Readable<'a, A, G> for Relocation {
    fn read(bytes: &'a [u8], alloc: A) -> Result<(Relocation, &'a [u8]), DecodeError> {
        let (kind, rest) = <RelocationKind as Readable<'a, A, G>>::read(bytes, alloc)?;
        let ((offset, index), rest) = <(u32, u32) as Readable<'a, A, G>>::read(rest, alloc)?;
        match kind {
            RelocationKind::Plain(kind) => {
                let relocation = Relocation::Plain {
                    kind,
                    offset,
                    index,
                };
                Ok((relocation, rest))
            }
            RelocationKind::Addend32(kind) => {
                let (addend, rest) = <i32 as Readable<'a, A, G>>::read(rest, alloc)?;
                let relocation = Relocation::Addend32 {
                    kind,
                    offset,
                    index,
                    addend,
                };
                Ok((relocation, rest))
            }
            RelocationKind::Addend64(kind) => {
                let (addend, rest) = <i64 as Readable<'a, A, G>>::read(rest, alloc)?;
                let relocation = Relocation::Addend64 {
                    kind,
                    offset,
                    index,
                    addend,
                };
                Ok((relocation, rest))
            }
        }
    }
}

/// # Defined
///
/// ```text
/// grammars = { both_grammars }
/// ```
///
/// Definitions: [`both_grammars`](crate::definitions::base::minimal::Grammars). [How to read clauses](crate::definitions).
impl Shorten for Relocation {
    fn write_minimal<B: Sink>(&self, sink: &mut B) -> Result<()> {
        self.encode(sink)
    }
}

/// Decodes the payload of a relocation section, in the grammar `G`: its name, the index of the
/// section that is relocated, and the relocations.
///
/// # Errors
///
/// Every error except `Memory` means that the bytes are not such a payload.
///
/// # Examples
///
/// ```
/// use dolzhytik::fallible::{Global, PlainRelocation, Relocation, read_relocations};
/// use dolzhytik::reader::Padded;
///
/// // "reloc.CODE"; section 3; one relocation: kind 0, offset 4, index 0.
/// let payload = b"\x0Areloc.CODE\x03\x01\0\x04\0";
/// let (name, section, relocations) =
///     read_relocations::<Global, Padded>(payload, Global)?;
/// assert_eq!((name, section), ("reloc.CODE", 3));
/// let kind = PlainRelocation::FunctionIndexLeb;
/// assert_eq!(relocations[..], [Relocation::Plain { kind, offset: 4, index: 0 }]);
/// # Ok::<(), dolzhytik::reader::DecodeError>(())
/// ```
///
/// # Proved
///
/// After `Ok`: `found`, the bytes as a whole encode the value. After an error: `none`, the bytes as a whole are no such encoding, unless the cause is `Memory`.
///
/// ```text
/// ensures found { IfOk result
///     (λ x. relocations_payload (padded_of G.grammar) bytes.now
///         (x.0.now, (x.1, x.2.items))) }
/// ensures none { IfErr result
///     (λ e. e.cause ≢ Memory → RejectsWhole relocations_payload
///         (padded_of G.grammar) bytes.now) }
/// ```
///
/// Definitions: [`relocations_payload`](crate::definitions::custom::relocations::relocations_payload), [`padded_of`](crate::definitions::base::numbers::padded_of), [`RejectsWhole`](crate::definitions::base::continuing::RejectsWhole). [How to read clauses](crate::definitions).
pub fn read_relocations<'a, A: Allocator + Copy, G: Grammar>(
    bytes: &'a [u8],
    alloc: A,
) -> Result<(&'a str, u32, Vec<Relocation, A>), DecodeError> {
    let (name, rest) = <&'a str as Readable<'a, A, G>>::read(bytes, alloc)?;
    if !name.as_bytes().starts_with(b"reloc.") {
        return Err(ReadFault::UnknownTag.at(name.as_bytes()).before(rest));
    }
    let (section, rest) = <u32 as Readable<'a, A, G>>::read(rest, alloc)?;
    let relocations = read_whole::<'a, Vec<Relocation, A>, A, G>(rest, alloc)?;
    Ok((name, section, relocations))
}

/// Writes the bytes that [`append_relocations`] appends. After an error, part of them may follow
/// the old bytes.
fn write_relocations<A: Allocator, B: Sink>(
    name: &str,
    section: u32,
    relocations: &Vec<Relocation, A>,
    sink: &mut B,
) -> Result<()> {
    name.write_minimal(sink)?;
    section.write_minimal(sink)?;
    relocations.write_minimal(sink)
}

/// Appends the minimal encoding of the payload of a relocation section of this whole name, which
/// begins with `reloc.`, for the section of this index. On an error, the sink is unchanged.
///
/// # Errors
///
/// Returns [`TooLong`](crate::fallible::Refused::TooLong) if a count or length would pass
/// 4294967295, and [`Memory`](crate::fallible::Refused::Memory) if an allocation fails. The
/// bytes of the sink are then unchanged.
///
/// # Examples
///
/// ```
/// use dolzhytik::fallible::{Global, Vec, append_relocations};
///
/// let mut payload = vec![];
/// append_relocations("reloc.CODE", 3, &Vec::new(Global), &mut payload)?;
/// // "reloc.CODE"; section 3; no relocations.
/// assert_eq!(payload, *b"\x0Areloc.CODE\x03\0");
/// # Ok::<(), dolzhytik::fallible::Refused>(())
/// ```
///
/// # Proved
///
/// After `Ok`: `ok`, the sink gains the encoding that is minimal in both grammars. After an error: `err`, the bytes of the sink are unchanged. In any case: `too_long`, a value that has an encoding never gives `TooLong`.
///
/// ```text
/// ensures ok { OnOk result
///     (AppendsMinimal both_grammars relocations_payload
///         (name.now, (section, relocations.now.items)) sink.old.items sink.new.items) }
/// ensures err { OnErr result (sink.new.items ≡ sink.old.items) }
/// ensures too_long { HasEncoding both_grammars relocations_payload
///     (name.now, (section, relocations.now.items)) → result ≢ Err TooLong }
/// ```
///
/// Definitions: [`AppendsMinimal`](crate::definitions::base::minimal::AppendsMinimal), [`both_grammars`](crate::definitions::base::minimal::Grammars), [`relocations_payload`](crate::definitions::custom::relocations::relocations_payload), [`HasEncoding`](crate::definitions::base::minimal::HasEncoding). [How to read clauses](crate::definitions).
pub fn append_relocations<A: Allocator, B: Sink>(
    name: &str,
    section: u32,
    relocations: &Vec<Relocation, A>,
    sink: &mut B,
) -> Result<()> {
    let start = sink.len();
    let written = write_relocations(name, section, relocations, sink);
    if written.is_err() {
        sink.truncate(start);
    }
    written
}
