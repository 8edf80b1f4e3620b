// Written by tools/to-rust from crates/wasm_custom/src/subsections.rt: change that.
// Subsections of custom sections: an id, and a size-prefixed content.

use crate::vec::Sink;
use crate::base::{Encode, Result, begin_size_prefixed, encoding_size};

/// The content of a subsection, whose size is known before it is encoded.
pub(crate) trait Content: Encode {
    /// Returns the length of the encoding in bytes if a size prefix can represent it, and a number
    /// above 4294967295 otherwise.
    ///
    /// # Proved
    ///
    /// ```text
    /// ensures known { result ≤ longest → result ≡ length (Self.encoding self.now) }
    /// ensures small { length (Self.encoding self.now) ≤ longest
    ///     → result ≡ length (Self.encoding self.now) }
    /// ```
    ///
    /// Definitions: [`longest`](crate::definitions::base::encodings::longest). [How to read clauses](crate::definitions).
    fn size(&self) -> usize;
}

/// Encodes the name.
impl Content for &str {
    fn size(&self) -> usize {
        let len = self.len();
        match u32::try_from(len) {
            Ok(short) => len.saturating_add(encoding_size(short)),
            Err(_) => len,
        }
    }
}

/// Bytes that are already encoded.
#[derive(Clone, Copy)]
pub(crate) struct RawContent<'a>(pub &'a [u8]);

/// Encodes the bytes as they are.
///
/// # Defined
///
/// ```text
/// encoding = { λ s. s.0.now }
/// encodable = { λ _. ⊤ }
/// ```
///
/// [How to read clauses](crate::definitions).
impl Encode for RawContent<'_> {
    fn encode<A: Sink>(&self, sink: &mut A) -> Result<()> {
        sink.extend_from_slice(self.0)?;
        Ok(())
    }
}

impl Content for RawContent<'_> {
    fn size(&self) -> usize {
        self.0.len()
    }
}

/// Appends the content with its size prefix.
fn encode_content<T: Content, A: Sink>(sink: &mut A, content: &T) -> Result<()> {
    let start = sink.len();
    begin_size_prefixed(sink, content.size())?;
    if let Err(refused) = content.encode(sink) {
        sink.truncate(start);
        return Err(refused);
    }
    Ok(())
}

/// Reserves spare capacity for the id, the size prefix and the content of a subsection, in one
/// request.
fn reserve_subsection<A: Sink>(sink: &mut A, size: usize) -> Result<()> {
    if let Ok(short) = u32::try_from(size) {
        sink.reserve(size.saturating_add(encoding_size(short)).saturating_add(1))?;
    }
    Ok(())
}

/// A subsection: an id, and a borrowed content.
pub(crate) struct Subsection<'a, T> {
    pub id: u8,
    pub content: &'a T,
}

/// Encodes the id, and the content with its size prefix.
///
/// # Defined
///
/// ```text
/// encoding = { λ s. subsection_encoding s.id (T.encoding s.content.now) }
/// encodable = { λ s. HasEncodableSize (T.encoding s.content.now)
///     × T.encodable s.content.now }
/// ```
///
/// Definitions: [`subsection_encoding`](crate::definitions::custom::customs::subsection_encoding), [`HasEncodableSize`](crate::definitions::base::encodings::HasEncodableSize). [How to read clauses](crate::definitions).
impl<T: Content> Encode for Subsection<'_, T> {
    fn encode<A: Sink>(&self, sink: &mut A) -> Result<()> {
        reserve_subsection(sink, self.content.size())?;
        let start = sink.len();
        sink.push(self.id)?;
        if let Err(refused) = encode_content(sink, self.content) {
            sink.truncate(start);
            return Err(refused);
        }
        Ok(())
    }
}
