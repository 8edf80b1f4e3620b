// Written by tools/to-rust from crates/wasm_custom/src/custom_section.rt: change that.
// Custom sections: a name, and data up to the end of the payload.

use crate::vec::Sink;
use crate::alloc::{Allocator, Global};
use crate::base::{CowSlice, CowStr, Encode, Refused, Result, Section, SectionId, begin_size_prefixed, encoding_size};

/// Appends the size prefix and the name of a custom section, and reserves spare capacity for `size`
/// bytes of data that the caller appends next.
#[inline]
pub(crate) fn begin_custom<A: Sink>(
    sink: &mut A,
    name: &str,
    size: usize,
) -> Result<()> {
    let Ok(short) = u32::try_from(name.len()) else {
        return Err(Refused::TooLong);
    };
    let named = u64::from(short).saturating_add(encoding_size(short) as u64);
    let Ok(total) = u32::try_from(named.saturating_add(size as u64)) else {
        return Err(Refused::TooLong);
    };
    begin_size_prefixed(sink, total as usize)?;
    name.encode(sink).unwrap();
    Ok(())
}

/// A custom section of any name and data.
///
/// ```
/// # fn example() -> Result<(), Box<dyn std::error::Error>> {
/// # use dolzhytik::{fallible::*, reader::*};
/// use dolzhytik::fallible::{CowSlice, CowStr, CustomSection, Global, Module};
///
/// let mut module = Module::new(Global)?;
/// let section: CustomSection<'_> = CustomSection {
///     name: CowStr::Borrowed("test"),
///     bytes: CowSlice::Borrowed(&[11, 22, 33, 44]),
/// };
/// module.section(&section)?;
/// # Ok(())
/// # }
/// # example().unwrap();
/// ```
#[derive(Debug)]
pub struct CustomSection<'a, A: Allocator = Global> {
    /// The name.
    pub name: CowStr<'a, A>,
    /// The data.
    pub bytes: CowSlice<'a, u8, A>,
}

impl<'a, A: Allocator + Copy> CustomSection<'a, A> {
    /// Returns the same name and data, and copies owned ones into memory of their own.
    ///
    /// # Errors
    ///
    /// Returns [`Memory`](crate::fallible::Refused::Memory) if an allocation fails.
    ///
    /// # Proved
    ///
    /// After `Ok`: `same`, the result has the same name and data. In any case: `memory`, no error is `TooLong`.
    ///
    /// ```text
    /// ensures same { IfOk result
    ///     (λ s. (utf8_of s.name ≡ utf8_of self.now.name)
    ///         × (items_of s.bytes ≡ items_of self.now.bytes)) }
    /// ensures memory { result ≢ Err Refused.TooLong }
    /// ```
    ///
    /// Definitions: [`utf8_of`](crate::definitions::base::cow::utf8_of), [`items_of`](crate::definitions::base::cow::items_of). [How to read clauses](crate::definitions).
    pub fn clone(&self) -> Result<Self> {
        Ok(CustomSection {
            name: self.name.clone()?,
            bytes: self.bytes.clone()?,
        })
    }
}

/// Sections are equal if their names and data have equal bytes.
///
/// # Defined
///
/// ```text
/// eq = { same_section }
/// laws = { Prim.search (comparing, rules) }
/// ```
///
/// Definitions: [`same_section`](crate::definitions::custom::customs::same_section). [How to read clauses](crate::definitions).
impl<A: Allocator> PartialEq for CustomSection<'_, A> {
    fn eq(&self, other: &Self) -> bool {
        self.name.as_str().as_bytes() == other.name.as_str().as_bytes()
            && self.bytes.as_slice() == other.bytes.as_slice()
    }
}

/// # Defined
///
/// ```text
/// laws = { Prim.search (comparing, rules) }
/// ```
///
/// [How to read clauses](crate::definitions).
impl<A: Allocator> Eq for CustomSection<'_, A> {}

/// Encodes the size prefix, the name and the data.
///
/// # Defined
///
/// ```text
/// encoding = { λ s. named_encoding (utf8_of s.name) (items_of s.bytes) }
/// encodable = { λ s. IsEncodableNamed (utf8_of s.name) (items_of s.bytes) }
/// overlong = { λ s. longest
///     < length (size_prefixed_encoding (utf8_of s.name)) + length (items_of s.bytes) }
/// decoding = { λ s. DecodesBack custom
///     (λ said. IsUtf8 (utf8_of s.name) × (said ≡ (utf8_of s.name, items_of s.bytes)))
///     (named_encoding (utf8_of s.name) (items_of s.bytes)) }
/// ```
///
/// Definitions: [`named_encoding`](crate::definitions::custom::customs::named_encoding), [`utf8_of`](crate::definitions::base::cow::utf8_of), [`items_of`](crate::definitions::base::cow::items_of), [`IsEncodableNamed`](crate::definitions::custom::customs::IsEncodableNamed), [`longest`](crate::definitions::base::encodings::longest), [`size_prefixed_encoding`](crate::definitions::base::encodings::size_prefixed_encoding), [`DecodesBack`](crate::definitions::base::calls::DecodesBack), [`custom`](crate::definitions::base::formats::custom). [How to read clauses](crate::definitions).
impl<A: Allocator> Encode for CustomSection<'_, A> {
    fn encode<B: Sink>(&self, sink: &mut B) -> Result<()> {
        let bytes = self.bytes.as_slice();
        begin_custom(sink, self.name.as_str(), bytes.len())?;
        sink.extend_from_slice(bytes).unwrap();
        Ok(())
    }
}

/// # Defined
///
/// ```text
/// id_of = { λ _. number_of ids.Custom }
/// Items = { List ℕ × List ℕ }
/// format = { custom }
/// says = { λ s said. IsUtf8 (utf8_of s.name)
///     × (said ≡ (utf8_of s.name, items_of s.bytes)) }
/// payload = { λ s. NamedPayload (utf8_of s.name) (items_of s.bytes) }
/// sized = { λ s bytes encodable pays. named_sized (utf8_of s.name)
///     (items_of s.bytes) bytes encodable pays }
/// decodes_back = { λ s promised. promised }
/// ```
///
/// Definitions: [`number_of`](crate::definitions::base::section_id::number_of), [`custom`](crate::definitions::base::formats::custom), [`utf8_of`](crate::definitions::base::cow::utf8_of), [`items_of`](crate::definitions::base::cow::items_of), [`NamedPayload`](crate::definitions::custom::customs::NamedPayload), [`named_sized`](crate::definitions::custom::customs::named_sized). [How to read clauses](crate::definitions).
impl<A: Allocator> Section for CustomSection<'_, A> {
    fn id(&self) -> u8 {
        SectionId::Custom.into()
    }
}
