//! The traits of values and sections that have an encoding.
use super::bytes::append;
use super::short::{put_number, put_short};
use super::*;
use crate::alloc::Global;
use crate::base::{self, CowSlice, CowStr};
use crate::code::const_expr::Stored;
use crate::ending::Growing;
use crate::{custom, reader};
use alloc_crate::vec::Vec;

#[doc = text!(Encode)]
pub trait Encode {
    /// Appends the encoding of the value.
    ///
    /// # Panics
    ///
    /// Panics if a count, run or length in it would pass 4294967295. A failed allocation ends the
    /// program.
    fn encode(&self, sink: &mut Vec<u8>);
}

#[doc = text!(Section)]
pub trait Section: Encode {
    /// Returns the id of the section: that of a [`SectionId`], or another one.
    fn id(&self) -> u8;

    /// Appends the id and the encoding.
    ///
    /// # Panics
    ///
    /// Panics if a count or length in the section would pass 4294967295.
    fn append_to(&self, dst: &mut Vec<u8>) {
        self.id().encode(dst);
        self.encode(dst);
    }
}

/// Implements `Encode` of types by the proved `encode` of a value, which is made of one of the type.
macro_rules! encoded {
    ($($($type:ty)* => $doc:literal, |$value:ident| $proved:expr;)*) => {
        $($(
            #[doc = $doc]
            impl Encode for $type {
                #[inline]
                fn encode(&self, sink: &mut Vec<u8>) {
                    let $value = self;
                    append($proved, sink)
                }
            }
        )*)*
    };
}

encoded! {
    u8 u64 usize AbstractHeapType HeapType RefType ValType StorageType FieldType ArrayType ContType
    BlockType Catch Handle Ieee32 Ieee64 MemArg MemArgOrdering Ordering EntityType ExportKind
    GlobalType MemoryType TableType TagType CoreDumpValue RawCustomSection<'_> ConstExpr
        => "Encodes the value by its proved `encode`.", |it| it;
    str => "Encodes a name: its length in bytes, and its bytes.", |name| &name;
    SectionId => "Encodes the id as one byte.", |id| &u8::from(*id);
    CustomSection<'_> => "Encodes the size prefix, the name and the data.",
        |section| &custom::CustomSection::<'_, Global> {
            name: CowStr::Borrowed(&section.name),
            bytes: CowSlice::Borrowed(&section.data),
        };
    reader::Section<'_> => "Copies the bytes of the section after its id, also a padded size prefix.",
        |section| &Stored(&section.bytes()[1..]);
}

/// Implements `Encode` of numbers, and of sections of one number, by the proved `encode`. A short
/// encoding is appended without a call.
macro_rules! numbers {
    ($($type:ty)*) => {
        $(
            impl Encode for $type {
                #[inline]
                fn encode(&self, sink: &mut Vec<u8>) {
                    if !put_short(sink, [], *self) {
                        put_number(*self, sink)
                    }
                }
            }
        )*
    };
}

numbers! { u32 i32 i64 StartSection DataCountSection }

/// Encodes a vector: the number of items, and the items.
impl<T: Encode> Encode for [T] {
    fn encode(&self, sink: &mut Vec<u8>) {
        encode_vec(self, sink);
    }
}

/// Encodes the value behind the reference.
impl<T: Encode + ?Sized> Encode for &T {
    #[inline]
    fn encode(&self, sink: &mut Vec<u8>) {
        T::encode(self, sink)
    }
}

/// Encodes `Some` as the byte 01 and the value, and `None` as the byte 00.
impl<T: Encode> Encode for Option<T> {
    fn encode(&self, sink: &mut Vec<u8>) {
        u8::from(self.is_some()).encode(sink);
        if let Some(value) = self {
            value.encode(sink);
        }
    }
}

impl From<SectionId> for u8 {
    #[inline]
    fn from(id: SectionId) -> u8 {
        id as u8
    }
}

/// Implements `Section` by the id of a section.
macro_rules! identified {
    ($($type:ty => |$section:pat_param| $id:expr;)*) => {
        $(
            impl Section for $type {
                #[inline]
                fn id(&self) -> u8 {
                    let $section = self;
                    $id
                }
            }
        )*
    };
}

identified! {
    StartSection => |_| SectionId::Start.into();
    DataCountSection => |_| SectionId::DataCount.into();
    RawCustomSection<'_> => |_| SectionId::Custom.into();
    CustomSection<'_> => |_| SectionId::Custom.into();
    reader::Section<'_> => |section| reader::Section::id(section);
}

impl Section for RawSection<'_> {
    #[inline]
    fn id(&self) -> u8 {
        self.id
    }

    #[inline(always)]
    fn append_to(&self, dst: &mut Vec<u8>) {
        append(&(self.id, base::RawSection::from(*self)), dst)
    }
}

#[doc = text!(encode_section)]
pub fn encode_section(sink: &mut Vec<u8>, count: u32, bytes: &[u8]) {
    done(base::encode_section(&mut Growing(sink), count, bytes))
}

#[doc = text!(encode_vec)]
pub fn encode_vec<T, V>(elements: V, sink: &mut Vec<u8>)
where
    T: Encode,
    V: IntoIterator<Item = T>,
    V::IntoIter: ExactSizeIterator,
{
    let elements = elements.into_iter();
    elements.len().encode(sink);
    for element in elements {
        element.encode(sink);
    }
}
