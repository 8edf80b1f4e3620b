// Written by tools/to-rust from crates/wasm_custom/src/raw_custom.rt: change that.
// Custom sections of raw bytes.

use crate::vec::Sink;
use crate::base::{Encode, Result, Section, SectionId};

/// A custom section as it is in a module, size prefix included, which
/// [`Module::section`](crate::Module::section) copies.
///
/// To have the size prefix and the name written, use [`CustomSection`](crate::CustomSection).
///
/// # Examples
///
/// ```
/// use dolzhytik::{RawCustomSection, Section};
///
/// let mut bytes = Vec::new();
/// RawCustomSection(b"\x04\x01ahi").append_to(&mut bytes);
/// // Id 0, and the bytes: size 4, a name of one byte, "a", and the data.
/// assert_eq!(bytes, *b"\0\x04\x01ahi");
/// ```
#[derive(Clone, Debug)]
pub struct RawCustomSection<'a>(pub &'a [u8]);

/// Encodes the bytes as they are.
///
/// # Defined
///
/// ```text
/// encoding = { λ s. s.0.now }
/// encodable = { λ _. ⊤ }
/// decoding = { λ s. DecodesBackBoth custom (custom minimal s.0.now)
///     (custom padded s.0.now) s.0.now }
/// ```
///
/// Definitions: [`DecodesBackBoth`](crate::definitions::base::calls::DecodesBackBoth), [`custom`](crate::definitions::base::formats::custom), [`minimal`](crate::definitions::base::numbers::Mode), [`padded`](crate::definitions::base::numbers::Mode). [How to read clauses](crate::definitions).
impl Encode for RawCustomSection<'_> {
    fn encode<A: Sink>(&self, sink: &mut A) -> Result<()> {
        sink.extend_from_slice(self.0)?;
        Ok(())
    }
}

/// The payload is the bytes after the size prefix.
///
/// # Defined
///
/// ```text
/// id_of = { λ _. number_of ids.Custom }
/// Items = { List ℕ × List ℕ }
/// format = { custom }
/// says = { λ s. custom minimal s.0.now }
/// payload = { λ s. IsSizePrefixed s.0.now }
/// sized = { λ s bytes encodable pays. pays }
/// decodes_back = { λ s promised. promised.plain }
/// ```
///
/// Definitions: [`number_of`](crate::definitions::base::section_id::number_of), [`custom`](crate::definitions::base::formats::custom), [`minimal`](crate::definitions::base::numbers::Mode), [`IsSizePrefixed`](crate::definitions::base::encodings::IsSizePrefixed). [How to read clauses](crate::definitions).
impl Section for RawCustomSection<'_> {
    fn id(&self) -> u8 {
        SectionId::Custom.into()
    }
}
