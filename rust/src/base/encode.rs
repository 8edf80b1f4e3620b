// Written by tools/to-rust from crates/wasm_base/src/encode.rt: change that.
// The trait `Encode`: values with an encoding in the binary format.

use crate::vec::Sink;
use crate::base::refused::Result;

/// A value that has an encoding in the WebAssembly binary format.
///
/// Numbers are encoded as LEB128, slices as vectors, `str` as names, and tuples as their
/// components. [`Readable`](crate::reader::Readable) decodes.
///
/// # Errors
///
/// `encode` returns [`Refused`](crate::base::refused::Refused), and leaves the sink unchanged, if the
/// value does not fit or an allocation fails.
///
/// # Examples
///
/// ```
/// use dolzhytik::fallible::Encode;
///
/// let mut bytes = Vec::new();
/// ("ab", 300_u32, -1_i32).encode(&mut bytes)?;
/// // A name of two bytes; 300 = 2 * 128 + 44; -1 as signed LEB128.
/// assert_eq!(bytes, [2, b'a', b'b', 0xAC, 0x02, 0x7F]);
/// # Ok::<(), dolzhytik::fallible::Refused>(())
/// ```
///
/// # Defined
///
/// ```text
/// // `encoding`: the encoding of the value.
/// encoding: { Self → List ℕ }
/// // `encodable`: every count and length in that encoding is representable.
/// encodable: { Self → Type 0 }
/// // `decoding`: the promise about decoding the encoding. A section must promise its
/// // headline here.
/// decoding: { Self → Type 0 } = { λ _. ⊤ }
/// // `overlong`: `encode` returns `TooLong` for such a value, however much memory there
/// // is.
/// overlong: { Self → Type 0 } = { λ _. ⊥ }
/// ```
///
/// [How to read clauses](crate::definitions).
pub trait Encode {
    /// Appends the encoding of the value. On an error, the bytes of the sink are unchanged.
    ///
    /// # Errors
    ///
    /// Returns [`TooLong`](crate::fallible::Refused::TooLong) if a count or length would pass
    /// 4294967295, and [`Memory`](crate::fallible::Refused::Memory) if an allocation fails. The
    /// bytes of the sink are then unchanged.
    ///
    /// # Proved
    ///
    /// - After `Ok`, `read`: the encoding decodes as the impl defines by `decoding`.
    /// - `appends`: The call appends the encoding, or returns an error and leaves the bytes as they were. If the value fits, the call never returns `TooLong`, and it succeeds within the spare capacity.
    /// - `too_many`: an `overlong` value gives `TooLong`.
    ///
    /// ```text
    /// ensures appends { Appends (encoding self.now)
    ///     (encodable self.now) sink.old sink.new result }
    /// ensures read { OnOk result (decoding self.now) }
    /// ensures too_many { overlong self.now → result ≡ Err TooLong }
    /// ```
    ///
    /// Definitions: [`Appends`](crate::definitions::base::calls::Appends). [How to read clauses](crate::definitions).
    fn encode<A: Sink>(&self, sink: &mut A) -> Result<()>;
}
