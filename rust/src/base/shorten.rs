// Written by tools/to-rust from crates/wasm_base/src/shorten.rt: change that.
// The trait `Shorten`: values that can be written in their minimal encoding.

use crate::vec::Sink;
use crate::base::readable::Layout;
use crate::base::refused::Result;

/// A decoded value, or a component of one, that can be written in its minimal encoding.
///
/// # Examples
///
/// ```
/// use dolzhytik::fallible::Global;
/// use dolzhytik::reader::{Padded, Readable, Shorten};
///
/// let (number, _) =
///     <u32 as Readable<Global, Padded>>::read(&[0x85, 0x80, 0x00], Global)?;
/// let mut minimal = Vec::new();
/// number.append_minimal(&mut minimal)?;
/// assert_eq!(minimal, [5]);
/// # Ok::<(), dolzhytik::reader::DecodeError>(())
/// ```
///
/// # Defined
///
/// ```text
/// grammars: { Grammars }
/// ```
///
/// Definitions: [`Grammars`](crate::definitions::base::minimal::Grammars). [How to read clauses](crate::definitions).
pub trait Shorten: Layout {
    // The grammars whose minimal encoding of the value is written.

    /// Writes the minimal encoding of the value after the old bytes. An impl defines it, and
    /// callers use [`append_minimal`](Shorten::append_minimal): after an error of this method,
    /// part of the encoding may be in the sink.
    ///
    /// # Errors
    ///
    /// Returns [`TooLong`](crate::fallible::Refused::TooLong) if a count or length would pass
    /// 4294967295, and [`Memory`](crate::fallible::Refused::Memory) if an allocation fails.
    ///
    /// # Proved
    ///
    /// - After `Ok`, `ok`: the sink gains the encoding that is minimal in the `grammars` of the type.
    /// - `front`: The new bytes begin with the old ones.
    /// - `too_long`: a value that has an encoding never gives `TooLong`.
    ///
    /// ```text
    /// ensures ok { OnOk result
    ///     (AppendsMinimal Self.grammars Self.format
    ///         (Self.view self.now) sink.old.items sink.new.items) }
    /// ensures front { IsFrontOf sink.old.items sink.new.items }
    /// ensures too_long { HasEncoding Self.grammars Self.format (Self.view self.now)
    ///     → result ≢ Err TooLong }
    /// ```
    ///
    /// Definitions: [`AppendsMinimal`](crate::definitions::base::minimal::AppendsMinimal), [`IsFrontOf`](crate::definitions::base::minimal::IsFrontOf), [`HasEncoding`](crate::definitions::base::minimal::HasEncoding). [How to read clauses](crate::definitions).
    fn write_minimal<B: Sink>(&self, sink: &mut B) -> Result<()>;

    /// Appends the minimal encoding of the value.
    ///
    /// # Errors
    ///
    /// Returns [`Refused`](crate::base::Refused), and leaves the bytes of the sink unchanged, if an
    /// allocation fails. A value that was decoded in one of the `grammars` never causes `TooLong`.
    ///
    /// # Proved
    ///
    /// After `Ok`: `ok`, the sink gains the encoding that is minimal in the `grammars` of the type. After an error: `err`, the bytes of the sink are unchanged. In any case: `too_long`, a value that has an encoding never gives `TooLong`.
    ///
    /// ```text
    /// ensures ok { OnOk result
    ///     (AppendsMinimal Self.grammars Self.format
    ///         (Self.view self.now) sink.old.items sink.new.items) }
    /// ensures err { OnErr result (sink.new.items ≡ sink.old.items) }
    /// ensures too_long { HasEncoding Self.grammars Self.format (Self.view self.now)
    ///     → result ≢ Err TooLong }
    /// ```
    ///
    /// Definitions: [`AppendsMinimal`](crate::definitions::base::minimal::AppendsMinimal), [`HasEncoding`](crate::definitions::base::minimal::HasEncoding). [How to read clauses](crate::definitions).
    fn append_minimal<B: Sink>(&self, sink: &mut B) -> Result<()> {
        let start = sink.len();
        let written = self.write_minimal(sink);
        if written.is_err() {
            sink.truncate(start);
        }
        written
    }
}
