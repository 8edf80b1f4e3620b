// Written by tools/drop-in from tools/root-types.tsv and the proved types: change these.
//! The root's own types that have the members of a proved type, without its allocator.

use super::{
    ArrayType, ConstExpr, ContType, EntityType, FieldType, FuncType, Import, ImportCompact, RefType,
};
use super::bytes::append;
use crate::{base, custom, sections, types};
use crate::base::{CowSlice, CowStr};
use crate::ending::Root;
use crate::vec::Vec;
use alloc_crate::borrow::Cow;
use alloc_crate::boxed::Box;

#[doc = text!(SectionId)]
#[derive(Clone, Copy, Debug, PartialEq, Eq, PartialOrd, Ord)]
#[repr(u8)]
pub enum SectionId {
    /// Custom sections, such as names.
    Custom = 0,
    /// The type section.
    Type = 1,
    /// The import section.
    Import = 2,
    /// The function section.
    Function = 3,
    /// The table section.
    Table = 4,
    /// The memory section.
    Memory = 5,
    /// The global section.
    Global = 6,
    /// The export section.
    Export = 7,
    /// The start section.
    Start = 8,
    /// The element section.
    Element = 9,
    /// The code section.
    Code = 10,
    /// The data section.
    Data = 11,
    /// The data count section.
    DataCount = 12,
    /// The tag section.
    Tag = 13,
}

impl From<SectionId> for base::SectionId {
    #[inline]
    fn from(value: SectionId) -> Self {
        match value {
            SectionId::Custom => Self::Custom,
            SectionId::Type => Self::Types,
            SectionId::Import => Self::Import,
            SectionId::Function => Self::Function,
            SectionId::Table => Self::Table,
            SectionId::Memory => Self::Memory,
            SectionId::Global => Self::Global,
            SectionId::Export => Self::Export,
            SectionId::Start => Self::Start,
            SectionId::Element => Self::Element,
            SectionId::Code => Self::Code,
            SectionId::Data => Self::Data,
            SectionId::DataCount => Self::DataCount,
            SectionId::Tag => Self::Tag,
        }
    }
}

impl From<base::SectionId> for SectionId {
    #[inline]
    fn from(value: base::SectionId) -> Self {
        match value {
            base::SectionId::Custom => Self::Custom,
            base::SectionId::Types => Self::Type,
            base::SectionId::Import => Self::Import,
            base::SectionId::Function => Self::Function,
            base::SectionId::Table => Self::Table,
            base::SectionId::Memory => Self::Memory,
            base::SectionId::Global => Self::Global,
            base::SectionId::Export => Self::Export,
            base::SectionId::Start => Self::Start,
            base::SectionId::Element => Self::Element,
            base::SectionId::Code => Self::Code,
            base::SectionId::Data => Self::Data,
            base::SectionId::DataCount => Self::DataCount,
            base::SectionId::Tag => Self::Tag,
        }
    }
}

#[doc = text!(RawSection)]
#[derive(Clone, Copy, Debug)]
pub struct RawSection<'a> {
    /// The id of the section.
    pub id: u8,
    /// The payload, without its size prefix.
    pub data: &'a [u8],
}

impl<'a> From<RawSection<'a>> for base::RawSection<'a> {
    #[inline]
    fn from(value: RawSection<'a>) -> Self {
        Self {
            id: value.id,
            bytes: value.data,
        }
    }
}

/// Encodes a copy that is converted.
impl crate::Encode for RawSection<'_> {
    #[inline]
    fn encode(&self, sink: &mut alloc_crate::vec::Vec<u8>) {
        append(&base::RawSection::from(*self), sink)
    }
}

#[doc = text!(CustomSection)]
#[derive(Clone, Debug, PartialEq)]
pub struct CustomSection<'a> {
    /// The name.
    pub name: Cow<'a, str>,
    /// The data.
    pub data: Cow<'a, [u8]>,
}

impl<'a> From<custom::CustomSection<'a>> for CustomSection<'a> {
    #[inline]
    fn from(value: custom::CustomSection<'a>) -> Self {
        Self {
            name: match value.name { CowStr::Borrowed(it) => Cow::Borrowed(it), CowStr::Owned(it) => Cow::Owned(it.as_str().into()) },
            data: match value.bytes { CowSlice::Borrowed(it) => Cow::Borrowed(it), CowSlice::Owned(it) => Cow::Owned(it.into()) },
        }
    }
}

#[doc = text!(Imports)]
#[derive(Clone, Debug)]
pub enum Imports<'a> {
    /// One import.
    Single(Import<'a>),
    /// A group whose items have types of their own.
    Compact1 {
        /// The name of the module.
        module: &'a str,
        /// The items.
        items: Cow<'a, [ImportCompact<'a>]>,
    },
    /// A group of items of one type.
    Compact2 {
        /// The name of the module.
        module: &'a str,
        /// The type of each item.
        ty: EntityType,
        /// The names of the items.
        names: Cow<'a, [&'a str]>,
    },
}

impl<'a> From<Imports<'a>> for sections::Imports<'a, Root> {
    #[inline]
    fn from(value: Imports<'a>) -> Self {
        match value {
            Imports::Single(it) => Self::Single(it),
            Imports::Compact1 { module, items } => Self::Compact1 { module, items: match items { Cow::Borrowed(it) => CowSlice::Borrowed(it), Cow::Owned(it) => CowSlice::Owned(Vec::from(it).into_ending()) } },
            Imports::Compact2 { module, ty, names } => Self::Compact2 { module, ty, names: match names { Cow::Borrowed(it) => CowSlice::Borrowed(it), Cow::Owned(it) => CowSlice::Owned(Vec::from(it).into_ending()) } },
        }
    }
}

#[doc = text!(Elements)]
#[derive(Clone, Debug)]
pub enum Elements<'a> {
    /// References to the functions of these indices.
    Functions(Cow<'a, [u32]>),
    /// References of this type, each computed by an expression.
    Expressions(RefType, Cow<'a, [ConstExpr]>),
}

#[doc = text!(ElementMode)]
#[derive(Clone, Debug)]
pub enum ElementMode<'a> {
    /// The references are copied by an instruction `TableInit`.
    Passive,
    /// The references are never copied: the segment declares that code may refer to these
    /// functions.
    Declared,
    /// The references are copied when the module is instantiated.
    Active {
        /// `None` is table 0. It is encoded in a form without a table if there is one: for
        /// functions, and for expressions of the type [`RefType::FUNCREF`].
        table: Option<u32>,
        /// Computes the offset of the first reference in the table.
        offset: &'a ConstExpr,
    },
}

#[doc = text!(ElementSegment)]
#[derive(Clone, Debug)]
pub struct ElementSegment<'a> {
    /// Whether instantiation copies the elements into a table.
    pub mode: ElementMode<'a>,
    /// The elements.
    pub elements: Elements<'a>,
}

#[doc = text!(DataSegmentMode)]
#[derive(Clone, Debug)]
pub enum DataSegmentMode<'a> {
    /// The bytes are copied when the module is instantiated.
    Active {
        /// The index of the memory.
        memory_index: u32,
        /// Computes the offset of the first byte in the memory.
        offset: &'a ConstExpr,
    },
    /// The bytes are copied by an instruction `MemoryInit`.
    Passive,
}

#[doc = text!(DataSegment)]
#[derive(Clone, Debug)]
pub struct DataSegment<'a, D> {
    /// Whether instantiation copies the bytes into a memory.
    pub mode: DataSegmentMode<'a>,
    /// The bytes.
    pub data: D,
}

#[doc = text!(StructType)]
#[derive(Clone, Debug, PartialEq, Eq, Hash)]
pub struct StructType {
    /// The fields.
    pub fields: Box<[FieldType]>,
}

impl From<StructType> for types::StructType {
    #[inline]
    fn from(value: StructType) -> Self {
        Self {
            fields: value.fields.into_vec().into(),
        }
    }
}

/// Encodes a copy that is converted.
impl crate::Encode for StructType {
    #[inline]
    fn encode(&self, sink: &mut alloc_crate::vec::Vec<u8>) {
        append(&types::StructType::from(self.clone()), sink)
    }
}

#[doc = text!(CompositeInnerType)]
#[derive(Clone, Debug, PartialEq, Eq, Hash)]
pub enum CompositeInnerType {
    /// A function type.
    Func(FuncType),
    /// An array type.
    Array(ArrayType),
    /// A structure type.
    Struct(StructType),
    /// A continuation type.
    Cont(ContType),
}

impl From<CompositeInnerType> for types::CompositeInnerType {
    #[inline]
    fn from(value: CompositeInnerType) -> Self {
        match value {
            CompositeInnerType::Func(it) => Self::Func(it.0),
            CompositeInnerType::Array(it) => Self::Array(it),
            CompositeInnerType::Struct(it) => Self::Struct(it.into()),
            CompositeInnerType::Cont(it) => Self::Cont(it),
        }
    }
}

/// Encodes a copy that is converted.
impl crate::Encode for CompositeInnerType {
    #[inline]
    fn encode(&self, sink: &mut alloc_crate::vec::Vec<u8>) {
        append(&types::CompositeInnerType::from(self.clone()), sink)
    }
}

#[doc = text!(CompositeType)]
#[derive(Clone, Debug, PartialEq, Eq, Hash)]
pub struct CompositeType {
    /// The function, array, structure or continuation type.
    pub inner: CompositeInnerType,
    /// Whether threads share its values.
    pub shared: bool,
    /// The index of the type that describes it.
    pub descriptor: Option<u32>,
    /// The index of the type that it describes.
    pub describes: Option<u32>,
}

impl From<CompositeType> for types::CompositeType {
    #[inline]
    fn from(value: CompositeType) -> Self {
        Self {
            inner: value.inner.into(),
            shared: value.shared,
            descriptor: value.descriptor,
            describes: value.describes,
        }
    }
}

/// Encodes a copy that is converted.
impl crate::Encode for CompositeType {
    #[inline]
    fn encode(&self, sink: &mut alloc_crate::vec::Vec<u8>) {
        append(&types::CompositeType::from(self.clone()), sink)
    }
}

#[doc = text!(SubType)]
#[derive(Clone, Debug, PartialEq, Eq, Hash)]
pub struct SubType {
    /// Whether the type has no subtypes.
    pub is_final: bool,
    /// The index of its supertype.
    pub supertype_idx: Option<u32>,
    /// The type itself.
    pub composite_type: CompositeType,
}

impl From<SubType> for types::SubType {
    #[inline]
    fn from(value: SubType) -> Self {
        Self {
            is_final: value.is_final,
            supertype_idx: value.supertype_idx,
            composite_type: value.composite_type.into(),
        }
    }
}

/// Encodes a copy that is converted.
impl crate::Encode for SubType {
    #[inline]
    fn encode(&self, sink: &mut alloc_crate::vec::Vec<u8>) {
        append(&types::SubType::from(self.clone()), sink)
    }
}
