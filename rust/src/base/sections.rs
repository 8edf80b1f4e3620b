// Written by tools/to-rust from crates/wasm_base/src/sections.rt: change that.
// The trait `Section`: an id, and an encoding that is usually size-prefixed.

use crate::vec::Sink;
use crate::base::encode::Encode;
use crate::base::frames::encode_size_prefixed;
use crate::base::refused::{Refused, Result};

/// A section of a module: an id, and an encoding from which a reader decodes the section's items.
///
/// [`Module::section`](crate::fallible::Module::section) takes it.
///
/// # Examples
///
/// ```
/// use dolzhytik::fallible::{FunctionSection, Global, Section};
///
/// let mut functions = FunctionSection::new(Global);
/// functions.function(5)?;
/// let mut bytes = Vec::new();
/// functions.append_to(&mut bytes)?;
/// // Id 3, size 2, one function, of type 5.
/// assert_eq!((functions.id(), &bytes[..]), (3, &[3, 2, 1, 5][..]));
/// # Ok::<(), dolzhytik::fallible::Refused>(())
/// ```
///
/// # Defined
///
/// ```text
/// // The section id.
/// id_of: { Self → ℕ }
/// // The type of the decoded content: the items, or the bytes of a section without items.
/// Items: { Type 0 }
/// // The format of the content.
/// format: { Mode → List ℕ → Items → Type 0 }
/// // The section holds these items.
/// says: { Self → Items → Type 0 }
/// // The encoding is the size prefix of these bytes, and the bytes.
/// payload: { Self → List ℕ → Type 0 }
/// // The encoding is the payload with its size prefix.
/// sized: { (section : Self) (bytes : List ℕ) → Self.encodable section
///     → payload section bytes → IsSizePrefixed (Self.encoding section) bytes }
/// // The headline: `encode` promises at least that the encoding decodes to the items
/// // alone.
/// decodes_back: { (section : Self) → Self.decoding section
///     → DecodesBack format (says section) (Self.encoding section) }
/// ```
///
/// Definitions: [`Mode`](crate::definitions::base::numbers::Mode), [`IsSizePrefixed`](crate::definitions::base::encodings::IsSizePrefixed), [`DecodesBack`](crate::definitions::base::calls::DecodesBack). [How to read clauses](crate::definitions).
pub trait Section: Encode {
    /// Returns the section id.
    ///
    /// # Proved
    ///
    /// ```text
    /// ensures { result ≡ id_of self.now }
    /// ```
    ///
    /// [How to read clauses](crate::definitions).
    fn id(&self) -> u8;

    /// Appends the id and the encoding.
    ///
    /// # Errors
    ///
    /// Returns [`Refused`], and leaves the bytes of `dst` unchanged, if the section is too long or
    /// an allocation fails.
    ///
    /// # Proved
    ///
    /// - After `Ok`, `read`: the encoding decodes as the impl defines by `decoding`.
    /// - `appends`: The call appends the encoding, or returns an error and leaves the bytes as they were. If the value fits, the call never returns `TooLong`, and it succeeds within the spare capacity.
    /// - `too_many`: an `overlong` section gives `TooLong`.
    ///
    /// ```text
    /// ensures appends { Appends (id_of self.now ∷ Self.encoding self.now)
    ///     (Self.encodable self.now) dst.old dst.new result }
    /// ensures read { OnOk result (Self.decoding self.now) }
    /// ensures too_many { Self.overlong self.now → result ≡ Err TooLong }
    /// ```
    ///
    /// Definitions: [`Appends`](crate::definitions::base::calls::Appends). [How to read clauses](crate::definitions).
    fn append_to<A: Sink>(&self, dst: &mut A) -> Result<()> {
        let start = dst.len();
        if dst.push(self.id()).is_err() {
            // A section that is too long returns `TooLong`, however much memory there is.
            let refused = self.encode(dst).err();
            dst.truncate(start);
            return Err(refused.unwrap_or(Refused::Memory));
        }
        if let Err(refused) = self.encode(dst) {
            dst.truncate(start);
            return Err(refused);
        }
        Ok(())
    }
}

/// A section of raw bytes, which become its payload.
///
/// # Examples
///
/// ```
/// use dolzhytik::fallible::{RawSection, Section};
///
/// let mut bytes = Vec::new();
/// RawSection { id: 3, bytes: &[1, 5] }.append_to(&mut bytes)?;
/// // Id 3, size 2, and the payload.
/// assert_eq!(bytes, [3, 2, 1, 5]);
/// # Ok::<(), dolzhytik::fallible::Refused>(())
/// ```
#[derive(Clone, Copy, Debug)]
pub struct RawSection<'a> {
    /// The id of the section.
    pub id: u8,
    /// The payload, without its size prefix.
    pub bytes: &'a [u8],
}

/// # Defined
///
/// ```text
/// encoding = { λ s. size_prefixed_encoding s.bytes.now }
/// encodable = { λ s. HasEncodableSize s.bytes.now }
/// overlong = { λ s. longest < length s.bytes.now }
/// decoding = { λ s. DecodesBack (size_prefixed any_bytes) (λ bytes. bytes ≡ s.bytes.now)
///     (size_prefixed_encoding s.bytes.now) }
/// ```
///
/// Definitions: [`size_prefixed_encoding`](crate::definitions::base::encodings::size_prefixed_encoding), [`HasEncodableSize`](crate::definitions::base::encodings::HasEncodableSize), [`longest`](crate::definitions::base::encodings::longest), [`DecodesBack`](crate::definitions::base::calls::DecodesBack), [`size_prefixed`](crate::definitions::base::formats::size_prefixed), [`any_bytes`](crate::definitions::base::formats::any_bytes). [How to read clauses](crate::definitions).
impl Encode for RawSection<'_> {
    #[inline(always)]
    fn encode<A: Sink>(&self, sink: &mut A) -> Result<()> {
        encode_size_prefixed(sink, self.bytes)
    }
}

/// # Defined
///
/// ```text
/// id_of = { λ s. s.id }
/// Items = { List ℕ }
/// format = { size_prefixed any_bytes }
/// says = { λ s bytes. bytes ≡ s.bytes.now }
/// payload = { λ s bytes. bytes ≡ s.bytes.now }
/// sized = { λ s bytes encodable says. raw_sized s.bytes.now bytes encodable says }
/// decodes_back = { λ s promised. promised }
/// ```
///
/// Definitions: [`size_prefixed`](crate::definitions::base::formats::size_prefixed), [`any_bytes`](crate::definitions::base::formats::any_bytes), [`raw_sized`](crate::definitions::base::encodings::raw_sized). [How to read clauses](crate::definitions).
impl Section for RawSection<'_> {
    fn id(&self) -> u8 {
        self.id
    }
}
