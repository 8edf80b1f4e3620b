// Written by tools/to-rust from crates/wasm_base/src/parts.rt: change that.
// Components of values: borrowed ones, and optional ones.

use crate::vec::Sink;
use crate::base::encode::Encode;
use crate::base::fault::DecodeError;
use crate::base::grammar::Grammar;
use crate::base::readable::Readable;
use crate::base::refused::Result;
use crate::alloc::Allocator;

/// A borrowed value as a component of an encoding.
///
/// [`Encode`](crate::fallible::Encode) is implemented for values, and not for references to
/// them. `Lent` makes a component of a tuple of a reference.
///
/// # Examples
///
/// ```
/// use dolzhytik::fallible::{Encode, Lent, Refused, ValType};
///
/// fn local(ty: &ValType, sink: &mut Vec<u8>) -> Result<(), Refused> {
///     (1_u32, Lent(ty)).encode(sink)
/// }
///
/// let mut bytes = Vec::new();
/// local(&ValType::I32, &mut bytes)?;
/// assert_eq!(bytes, [1, 0x7F]);
/// # Ok::<(), Refused>(())
/// ```
#[derive(Debug)]
pub struct Lent<'a, T>(pub &'a T);

/// Encodes the value.
///
/// # Defined
///
/// ```text
/// encoding = { λ lent. T.encoding lent.0.now }
/// encodable = { λ lent. T.encodable lent.0.now }
/// ```
///
/// [How to read clauses](crate::definitions).
impl<T: Encode> Encode for Lent<'_, T> {
    #[inline]
    fn encode<A: Sink>(&self, sink: &mut A) -> Result<()> {
        self.0.encode(sink)
    }
}

/// An optional component of an encoding.
///
/// # Examples
///
/// ```
/// use dolzhytik::fallible::{Encode, Optional};
///
/// let mut bytes = Vec::new();
/// (1_u8, Optional(Some(5_u32))).encode(&mut bytes)?;
/// (0_u8, Optional::<u32>(None)).encode(&mut bytes)?;
/// // `None` has no bytes.
/// assert_eq!(bytes, [1, 5, 0]);
/// # Ok::<(), dolzhytik::fallible::Refused>(())
/// ```
#[derive(Clone, Copy, Debug)]
pub struct Optional<T>(pub Option<T>);

/// Encodes the value, or nothing if there is none.
///
/// # Defined
///
/// ```text
/// encoding = { λ part. optional_encoding T.encoding part.0 }
/// encodable = { λ part. IfSome part.0 T.encodable }
/// ```
///
/// Definitions: [`optional_encoding`](crate::definitions::base::encodings::optional_encoding). [How to read clauses](crate::definitions).
impl<T: Encode> Encode for Optional<T> {
    #[inline]
    fn encode<A: Sink>(&self, sink: &mut A) -> Result<()> {
        match &self.0 {
            Some(part) => part.encode(sink),
            None => Ok(()),
        }
    }
}

/// Decodes a value if the flag is set, and returns `None` otherwise.
///
/// # Errors
///
/// Every error except `Memory` means that the flag is set, and no such value is at the front.
///
/// # Examples
///
/// ```
/// use dolzhytik::fallible::Global;
/// use dolzhytik::reader::{Padded, read_optional};
///
/// let (some, _) = read_optional::<u32, Global, Padded>(true, &[5], Global)?;
/// let (none, rest) = read_optional::<u32, Global, Padded>(false, &[5], Global)?;
/// assert_eq!((some, none, rest), (Some(5), None, &[5][..]));
/// # Ok::<(), dolzhytik::reader::DecodeError>(())
/// ```
///
/// # Proved
///
/// After `Ok`: `found`, the bytes begin with an encoding of the value, and the returned bytes follow it. After an error: `none`, the bytes do not begin with such an encoding, unless the cause is `Memory`.
///
/// ```text
/// ensures found { IfOk result
///     (λ x. Decodes (optional flag T.format) (padded_of G.grammar) bytes.now
///         (option_map T.view x.0) x.1.now) }
/// ensures none { IfErr result
///     (λ e. e.cause ≢ Memory → Rejects (optional flag T.format)
///         (padded_of G.grammar) bytes.now) }
/// ensures no_memory { IfErr result (λ e. e.cause ≡ Memory → T.may_allocate) }
/// ```
///
/// Definitions: [`Decodes`](crate::definitions::base::decoding::Decodes), [`optional`](crate::definitions::base::formats::optional), [`padded_of`](crate::definitions::base::numbers::padded_of), [`Rejects`](crate::definitions::base::decoding::Rejects). [How to read clauses](crate::definitions).
pub fn read_optional<'a, T: Readable<'a, A, G>, A: Allocator + Copy, G: Grammar>(
    flag: bool,
    bytes: &'a [u8],
    alloc: A,
) -> Result<(Option<T>, &'a [u8]), DecodeError> {
    if flag {
        let (value, rest) = T::read(bytes, alloc)?;
        Ok((Some(value), rest))
    } else {
        Ok((None, bytes))
    }
}
