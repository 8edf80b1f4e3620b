// Written by tools/to-rust from crates/wasm_base/src/pieces.rt: change that.
// The buffer of a builder, in which its entries are encoded.

use crate::vec::{Sink, Vec};
use crate::base::encode::Encode;
use crate::base::frames::encode_section;
use crate::base::once::EncodeOnce;
use crate::base::refused::{Refused, Result};
use crate::alloc::{Allocator, Global};

/// The encoded entries of a builder.
///
/// One buffer holds the entries one after another, and a second vector holds the end offset of
/// each.
///
/// The builders consist of it. Use it for a section of your own.
///
/// # Errors
///
/// An adding call that returns an error leaves the entries unchanged. The error is
/// [`Refused::TooLong`] only if there are 4294967295 entries already or the item does not fit, and
/// [`Refused::Memory`] only if an allocation fails.
///
/// # Examples
///
/// ```
/// use dolzhytik::fallible::{Encode, Global, Pieces};
///
/// let mut entries = Pieces::new(Global);
/// entries.add(b"ab")?;
/// entries.add_encoded(&300_u32)?;
/// assert_eq!((entries.len(), entries.get(1)), (2, Some(&[0xAC, 0x02][..])));
///
/// let mut bytes = Vec::new();
/// entries.encode(&mut bytes)?;
/// // The size of the payload, 5; two entries.
/// assert_eq!(bytes, [5, 2, b'a', b'b', 0xAC, 0x02]);
/// # Ok::<(), dolzhytik::fallible::Refused>(())
/// ```
///
/// # Model
///
/// Contracts model it as the list of their bytes.
#[derive(Debug)]
pub struct Pieces<A: Allocator = Global> {
    pub(crate) bytes: Vec<u8, A>, pub(crate) ends: Vec<usize, A>,
}

/// Returns the offset at which the entry at `index` begins.
fn start_of(ends: &[usize], index: usize) -> usize {
    if index == 0 { 0 } else { ends[index - 1] }
}

impl<A: Allocator> Pieces<A> {
    /// Returns the length of all entries together, in bytes.
    ///
    /// # Proved
    ///
    /// ```text
    /// ensures { result ≡ length (joined self.now) }
    /// ```
    ///
    /// Definitions: [`joined`](crate::definitions::base::pieces::joined). [How to read clauses](crate::definitions).
    pub fn raw_len(&self) -> usize {
        self.bytes.len()
    }

    /// Returns the number of entries.
    ///
    /// # Proved
    ///
    /// ```text
    /// ensures { result ≡ length self.now }
    /// ```
    ///
    /// [How to read clauses](crate::definitions).
    pub fn len(&self) -> u32 {
        self.ends.len() as u32
    }

    /// Returns `true` if there are no entries.
    ///
    /// # Proved
    ///
    /// The result is true exactly if there are no entries.
    ///
    /// ```text
    /// ensures { IsTrue result ↔ (length self.now ≡ 0) }
    /// ```
    ///
    /// [How to read clauses](crate::definitions).
    pub fn is_empty(&self) -> bool {
        self.ends.is_empty()
    }

    /// Returns `true` if there are as many entries as a count of 32 bits represents.
    #[inline]
    fn is_full(&self) -> bool {
        self.len() == u32::MAX
    }

    /// Returns the bytes of the entries, one entry after another.
    ///
    /// # Proved
    ///
    /// ```text
    /// ensures { result.now ≡ joined self.now }
    /// ```
    ///
    /// Definitions: [`joined`](crate::definitions::base::pieces::joined). [How to read clauses](crate::definitions).
    pub fn bytes(&self) -> &[u8] {
        &self.bytes
    }

    /// Returns the bytes of the entry at `index`, or `None` if there is no such entry.
    ///
    /// # Proved
    ///
    /// The result is the entry at `index`, if there is one.
    ///
    /// ```text
    /// ensures { option_copied result ≡ slice_get self.now index }
    /// ```
    ///
    /// [How to read clauses](crate::definitions).
    pub fn get(&self, index: u32) -> Option<&[u8]> {
        let index = index as usize;
        if index >= self.ends.len() {
            return None;
        }
        let start = start_of(&self.ends, index);
        let end = self.ends[index];
        Some(&self.bytes[start..end])
    }

    /// Adds an entry of these bytes.
    ///
    /// # Errors
    ///
    /// Returns [`TooLong`](crate::fallible::Refused::TooLong) if the builder has 4294967295
    /// entries, and [`Memory`](crate::fallible::Refused::Memory) if an allocation fails. The
    /// builder is then unchanged.
    ///
    /// # Proved
    ///
    /// `AddsTo` of a builder whose entries are a list of pieces.
    ///
    /// ```text
    /// ensures { Adds entry.now ⊤ self.old self.new result }
    /// ```
    ///
    /// Definitions: [`Adds`](crate::definitions::base::calls::Adds). [How to read clauses](crate::definitions).
    #[inline]
    pub fn add(&mut self, entry: &[u8]) -> Result<()> {
        if self.is_full() {
            return Err(Refused::TooLong);
        }
        self.ends.reserve(1)?;
        self.bytes.extend_from_slice(entry)?;
        let end = self.bytes.len();
        self.ends.push_reserved(end);
        Ok(())
    }

    /// Adds the encoding of the item as an entry. It is encoded directly into the buffer.
    ///
    /// # Errors
    ///
    /// Returns [`TooLong`](crate::fallible::Refused::TooLong) if the builder has 4294967295
    /// entries, or if a count or length would pass 4294967295, and
    /// [`Memory`](crate::fallible::Refused::Memory) if an allocation fails. The builder is then
    /// unchanged.
    ///
    /// # Proved
    ///
    /// `AddsTo` of a builder whose entries are a list of pieces.
    ///
    /// ```text
    /// ensures { Adds (T.encoding item.now) (T.encodable item.now) self.old self.new result }
    /// ```
    ///
    /// Definitions: [`Adds`](crate::definitions::base::calls::Adds). [How to read clauses](crate::definitions).
    #[inline]
    pub fn add_encoded<T: Encode>(&mut self, item: &T) -> Result<()> {
        if self.is_full() {
            return Err(Refused::TooLong);
        }
        self.ends.reserve(1)?;
        item.encode(&mut self.bytes)?;
        let end = self.bytes.len();
        self.ends.push_reserved(end);
        Ok(())
    }

    /// Adds an encoding of the item as an entry, and consumes the item. It is encoded directly into
    /// the buffer.
    ///
    /// # Errors
    ///
    /// Returns [`TooLong`](crate::fallible::Refused::TooLong) if the builder has 4294967295
    /// entries, or if a count or length would pass 4294967295, and
    /// [`Memory`](crate::fallible::Refused::Memory) if an allocation fails. The builder is then
    /// unchanged.
    ///
    /// # Asks
    ///
    /// Each iterator in the value ends, and yields as many items as it reports: the impl says so by `lawful`. [What happens otherwise](crate::fallible#what-is-asked).
    ///
    /// ```text
    /// requires { T.lawful item }
    /// ```
    ///
    /// [How to read clauses](crate::definitions).
    ///
    /// # Proved
    ///
    /// `AddsOnceTo` of a builder whose entries are a list of pieces.
    ///
    /// ```text
    /// ensures { AddsOnce (T.gives item) (T.encodable item) self.old self.new result }
    /// ```
    ///
    /// Definitions: [`AddsOnce`](crate::definitions::base::once::AddsOnce). [How to read clauses](crate::definitions).
    #[inline]
    pub fn add_once<T: EncodeOnce>(&mut self, item: T) -> Result<()> {
        if self.is_full() {
            return Err(Refused::TooLong);
        }
        self.ends.reserve(1)?;
        item.encode_once(&mut self.bytes)?;
        let end = self.bytes.len();
        self.ends.push_reserved(end);
        Ok(())
    }
}

impl<A: Allocator + Copy> Pieces<A> {
    /// Returns a buffer without entries. It allocates nothing.
    ///
    /// # Proved
    ///
    /// The result has no entries.
    ///
    /// ```text
    /// ensures { result ≡ [] }
    /// ```
    ///
    /// [How to read clauses](crate::definitions).
    pub fn new(alloc: A) -> Self {
        Pieces {
            bytes: Vec::new(alloc),
            ends: Vec::new(alloc),
        }
    }

    /// Returns a copy of the entries in newly allocated memory.
    ///
    /// # Errors
    ///
    /// Returns [`Refused::Memory`] if an allocation fails, and never [`Refused::TooLong`].
    ///
    /// # Proved
    ///
    /// After `Ok`: `same`, the result equals the value. In any case: `memory`, no error is `TooLong`.
    ///
    /// ```text
    /// ensures same { IfOk result (λ pieces. pieces ≡ self.now) }
    /// ensures memory { result ≢ Err Refused.TooLong }
    /// ```
    ///
    /// [How to read clauses](crate::definitions).
    pub fn clone(&self) -> Result<Self> {
        let alloc = *self.bytes.allocator();
        Ok(Pieces {
            bytes: Vec::from_slice(alloc, &self.bytes)?,
            ends: Vec::from_slice(alloc, &self.ends)?,
        })
    }
}

/// Encodes a counted section without its id: the size prefix, the number of entries, and the
/// entries.
///
/// # Defined
///
/// ```text
/// encoding = { section_encoding }
/// encodable = { IsEncodableSection }
/// overlong = { IsOverlong }
/// ```
///
/// Definitions: [`section_encoding`](crate::definitions::base::pieces::section_encoding), [`IsEncodableSection`](crate::definitions::base::pieces::IsEncodableSection), [`IsOverlong`](crate::definitions::base::pieces::IsOverlong). [How to read clauses](crate::definitions).
impl<A: Allocator> Encode for Pieces<A> {
    fn encode<B: Sink>(&self, sink: &mut B) -> Result<()> {
        encode_section(sink, self.len(), self.bytes())
    }
}
