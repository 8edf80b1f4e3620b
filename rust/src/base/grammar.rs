// Written by tools/to-rust from crates/wasm_base/src/grammar.rt: change that.
// Grammars: which encodings of a value a decoder accepts.

/// The encodings that a decoder accepts. In each grammar a value has exactly one minimal encoding,
/// and its numbers may be padded.
///
/// [`Padded`](crate::reader::Padded) and [`Standard`](crate::reader::Standard) are the
/// grammars. The page of [`reader`](crate::reader#grammars) says how they differ.
///
/// # Examples
///
/// ```
/// use dolzhytik::fallible::{Global, RefType};
/// use dolzhytik::reader::{DecodeError, Grammar, Padded, Readable, Standard};
///
/// fn read<G: Grammar>(bytes: &[u8]) -> Result<RefType, DecodeError> {
///     Ok(<RefType as Readable<Global, G>>::read(bytes, Global)?.0)
/// }
///
/// // `anyref` in one byte.
/// assert!(read::<Padded>(&[0x6E]).is_err());
/// assert!(read::<Standard>(&[0x6E])?.nullable);
/// # Ok::<(), DecodeError>(())
/// ```
///
/// # Defined
///
/// ```text
/// grammar: { GrammarOf }
/// ```
///
/// Definitions: [`GrammarOf`](crate::definitions::base::numbers::Grammar). [How to read clauses](crate::definitions).
pub trait Grammar {
    // The grammar, from which `minimal_of` and `padded_of` select the mode of a format.

    /// Returns `true` if all encodings that the standard admits are accepted.
    ///
    /// # Proved
    ///
    /// ```text
    /// ensures { result ≡ is_admitted grammar }
    /// ```
    ///
    /// Definitions: [`is_admitted`](crate::definitions::base::numbers::is_admitted). [How to read clauses](crate::definitions).
    fn is_standard() -> bool;
}

/// The encodings that builders write, with padded numbers too.
///
/// # Examples
///
/// ```
/// use dolzhytik::fallible::Global;
/// use dolzhytik::reader::{Padded, Readable};
///
/// // 1 in two bytes, where one is minimal.
/// let (number, rest) =
///     <u32 as Readable<Global, Padded>>::read(&[0x81, 0x00, 0xFF], Global)?;
/// assert_eq!((number, rest), (1, &[0xFF][..]));
/// # Ok::<(), dolzhytik::reader::DecodeError>(())
/// ```
#[derive(Clone, Copy, PartialEq, Eq, Debug)]
pub struct Padded;

/// # Defined
///
/// ```text
/// grammar = { builders }
/// ```
///
/// Definitions: [`builders`](crate::definitions::base::numbers::Grammar). [How to read clauses](crate::definitions).
impl Grammar for Padded {
    #[inline]
    fn is_standard() -> bool {
        false
    }
}

/// All encodings that the standard admits. A nullable reference to an abstract type may have one
/// byte, for example.
///
/// # Examples
///
/// ```
/// use dolzhytik::fallible::{Global, RefType};
/// use dolzhytik::reader::{Readable, Standard};
///
/// // `externref` in two bytes, where one is usual: 63, and 6F for `extern`.
/// let (ty, _) = <RefType as Readable<Global, Standard>>::read(&[0x63, 0x6F], Global)?;
/// assert_eq!(ty, RefType::EXTERNREF);
/// # Ok::<(), dolzhytik::reader::DecodeError>(())
/// ```
#[derive(Clone, Copy, PartialEq, Eq, Debug)]
pub struct Standard;

/// # Defined
///
/// ```text
/// grammar = { admitted }
/// ```
///
/// Definitions: [`admitted`](crate::definitions::base::numbers::Grammar). [How to read clauses](crate::definitions).
impl Grammar for Standard {
    #[inline]
    fn is_standard() -> bool {
        true
    }
}
