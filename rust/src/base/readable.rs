// Written by tools/to-rust from crates/wasm_base/src/readable.rt: change that.
// The traits of decoding: the format of a value, and its decoder.

use crate::base::fault::DecodeError;
use crate::base::grammar::Grammar;
use crate::alloc::Allocator;

/// A value with a format, which defines the bytes that encode it.
///
/// [`Readable`](crate::reader::Readable), [`Walk`](crate::reader::Walk) and
/// [`Shorten`](crate::reader::Shorten) have the calls of such values.
///
/// # Examples
///
/// ```
/// use dolzhytik::fallible::ValType;
/// use dolzhytik::reader::Layout;
///
/// // A law of the format, which the prover has checked. The call does nothing.
/// <ValType as Layout>::laws();
/// ```
///
/// # Defined
///
/// ```text
/// Value: { Type 0 }
/// format: { Mode → List ℕ → Value → Type 0 }
/// view: { Self → Value }
/// ```
///
/// Definitions: [`Mode`](crate::definitions::base::numbers::Mode). [How to read clauses](crate::definitions).
pub trait Layout {
    // The value, without its location in memory.

    // The format: which bytes encode which value.

    /// Proves that the format is unambiguous: one value decodes from the front, whatever follows.
    /// The function does nothing.
    ///
    /// # Proved
    ///
    /// A format whose encodings determine their own end is unambiguous in every mode, with encodings as `HasEncodings` states.
    ///
    /// ```text
    /// ensures { Unambiguous format }
    /// ```
    ///
    /// Definitions: [`Unambiguous`](crate::definitions::base::decoding::Unambiguous). [How to read clauses](crate::definitions).
    fn laws();
}

/// A value that can be decoded from the front of bytes. Lists are allocated in `A`; names and bytes
/// are slices of the input.
///
/// # Examples
///
/// ```
/// use dolzhytik::fallible::{Global, ValType};
/// use dolzhytik::reader::{Padded, Readable};
///
/// let bytes = [0x7F, 0xAC, 0x02];
/// let (ty, rest) = <ValType as Readable<Global, Padded>>::read(&bytes, Global)?;
/// let (number, rest) = <u32 as Readable<Global, Padded>>::read(rest, Global)?;
/// // i32, and 0x02 * 128 + 0x2C.
/// assert_eq!((ty, number, rest.len()), (ValType::I32, 300, 0));
/// # Ok::<(), dolzhytik::reader::DecodeError>(())
/// ```
///
/// # Defined
///
/// ```text
/// may_allocate: { Type 0 } = { ⊤ }
/// ```
///
/// [How to read clauses](crate::definitions).
pub trait Readable<'a, A: Allocator + Copy, G: Grammar>: Layout + Sized {
    // Whether decoding may request memory. Without it, no error is `Memory`.

    /// Decodes the value at the front, in the grammar `G`, and returns it with the remaining bytes.
    ///
    /// # Errors
    ///
    /// Every error except `Memory` means that no such value is at the front.
    ///
    /// # Proved
    ///
    /// After `Ok`: `found`, the bytes begin with an encoding of the value, and the returned bytes follow it. After an error: `none`, the bytes do not begin with such an encoding, unless the cause is `Memory`.
    ///
    /// ```text
    /// ensures found { IfOk result
    ///     (λ x. Decodes Self.format (padded_of G.grammar) bytes.now (Self.view x.0) x.1.now) }
    /// ensures none { IfErr result
    ///     (λ e. e.cause ≢ Memory → Rejects Self.format (padded_of G.grammar) bytes.now) }
    /// ensures no_memory { IfErr result (λ e. e.cause ≡ Memory → Self.may_allocate) }
    /// ```
    ///
    /// Definitions: [`Decodes`](crate::definitions::base::decoding::Decodes), [`padded_of`](crate::definitions::base::numbers::padded_of), [`Rejects`](crate::definitions::base::decoding::Rejects). [How to read clauses](crate::definitions).
    fn read(bytes: &'a [u8], alloc: A) -> Result<(Self, &'a [u8]), DecodeError>;
}
