// Written by tools/to-rust from crates/wasm_sections/src/start.rt: change that.
// The start section and the data count section, which hold one number each.

use crate::vec::Sink;
use crate::base::{Encode, Result, Section, SectionId, begin_size_prefixed, encoding_size};

/// The start section, which [`Module::section`](crate::Module::section) takes.
///
/// Core specification, Modules, Start Section.
///
/// # Examples
///
/// ```
/// use dolzhytik::{Section, StartSection};
///
/// let mut bytes = Vec::new();
/// StartSection { function_index: 300 }.append_to(&mut bytes);
/// // Id 8, size 2, 300 as LEB128: 300 = 2 * 128 + 44.
/// assert_eq!(bytes, [8, 2, 0xAC, 0x02]);
/// ```
#[derive(Clone, Copy, Debug)]
pub struct StartSection {
    /// The index of the function that instantiation calls.
    pub function_index: u32,
}

/// The data count section, which [`Module::section`](crate::Module::section) takes before the
/// code section.
///
/// Core specification, Modules, Data Count Section.
///
/// # Examples
///
/// ```
/// use dolzhytik::{DataCountSection, Section};
///
/// let mut bytes = Vec::new();
/// DataCountSection { count: 128 }.append_to(&mut bytes);
/// // Id 12, size 2, 128 as LEB128.
/// assert_eq!(bytes, [12, 2, 0x80, 0x01]);
/// ```
#[derive(Clone, Copy, Debug)]
pub struct DataCountSection {
    /// The number of data segments.
    pub count: u32,
}

/// Appends the number with its size prefix, which decode to this number alone.
#[inline(always)]
fn encode_number<A: Sink>(sink: &mut A, number: u32) -> Result<()> {
    begin_size_prefixed(sink, encoding_size(number))?;
    number.encode(sink).unwrap();
    Ok(())
}

/// Encodes the index with its size prefix.
///
/// # Defined
///
/// ```text
/// encoding = { λ s. size_prefixed_encoding (unsigned_encoding s.function_index) }
/// encodable = { λ s. HasEncodableSize (unsigned_encoding s.function_index) }
/// decoding = { λ s. DecodesBack (size_prefixed u32_format)
///     (λ index. index ≡ s.function_index)
///     (size_prefixed_encoding (unsigned_encoding s.function_index)) }
/// ```
///
/// Definitions: [`size_prefixed_encoding`](crate::definitions::base::encodings::size_prefixed_encoding), [`unsigned_encoding`](crate::definitions::base::numbers::unsigned_encoding), [`HasEncodableSize`](crate::definitions::base::encodings::HasEncodableSize), [`DecodesBack`](crate::definitions::base::calls::DecodesBack), [`size_prefixed`](crate::definitions::base::formats::size_prefixed), [`u32_format`](crate::definitions::base::formats::u32). [How to read clauses](crate::definitions).
impl Encode for StartSection {
    #[inline(always)]
    fn encode<A: Sink>(&self, sink: &mut A) -> Result<()> {
        encode_number(sink, self.function_index)
    }
}

/// # Defined
///
/// ```text
/// id_of = { λ _. number_of ids.Start }
/// Items = { ℕ }
/// format = { size_prefixed u32_format }
/// says = { λ s index. index ≡ s.function_index }
/// payload = { λ s bytes. bytes ≡ unsigned_encoding s.function_index }
/// sized = { λ s bytes encodable pays. raw_sized
///     (unsigned_encoding s.function_index) bytes encodable pays }
/// decodes_back = { λ s promised. promised }
/// ```
///
/// Definitions: [`number_of`](crate::definitions::base::section_id::number_of), [`size_prefixed`](crate::definitions::base::formats::size_prefixed), [`u32_format`](crate::definitions::base::formats::u32), [`unsigned_encoding`](crate::definitions::base::numbers::unsigned_encoding), [`raw_sized`](crate::definitions::base::encodings::raw_sized). [How to read clauses](crate::definitions).
impl Section for StartSection {
    fn id(&self) -> u8 {
        SectionId::Start.into()
    }
}

/// Encodes the count with its size prefix.
///
/// # Defined
///
/// ```text
/// encoding = { λ s. size_prefixed_encoding (unsigned_encoding s.count) }
/// encodable = { λ s. HasEncodableSize (unsigned_encoding s.count) }
/// decoding = { λ s. DecodesBack (size_prefixed u32_format) (λ count. count ≡ s.count)
///     (size_prefixed_encoding (unsigned_encoding s.count)) }
/// ```
///
/// Definitions: [`size_prefixed_encoding`](crate::definitions::base::encodings::size_prefixed_encoding), [`unsigned_encoding`](crate::definitions::base::numbers::unsigned_encoding), [`HasEncodableSize`](crate::definitions::base::encodings::HasEncodableSize), [`DecodesBack`](crate::definitions::base::calls::DecodesBack), [`size_prefixed`](crate::definitions::base::formats::size_prefixed), [`u32_format`](crate::definitions::base::formats::u32). [How to read clauses](crate::definitions).
impl Encode for DataCountSection {
    #[inline(always)]
    fn encode<A: Sink>(&self, sink: &mut A) -> Result<()> {
        encode_number(sink, self.count)
    }
}

/// # Defined
///
/// ```text
/// id_of = { λ _. number_of ids.DataCount }
/// Items = { ℕ }
/// format = { size_prefixed u32_format }
/// says = { λ s count. count ≡ s.count }
/// payload = { λ s bytes. bytes ≡ unsigned_encoding s.count }
/// sized = { λ s bytes encodable pays. raw_sized
///     (unsigned_encoding s.count) bytes encodable pays }
/// decodes_back = { λ s promised. promised }
/// ```
///
/// Definitions: [`number_of`](crate::definitions::base::section_id::number_of), [`size_prefixed`](crate::definitions::base::formats::size_prefixed), [`u32_format`](crate::definitions::base::formats::u32), [`unsigned_encoding`](crate::definitions::base::numbers::unsigned_encoding), [`raw_sized`](crate::definitions::base::encodings::raw_sized). [How to read clauses](crate::definitions).
impl Section for DataCountSection {
    fn id(&self) -> u8 {
        SectionId::DataCount.into()
    }
}
