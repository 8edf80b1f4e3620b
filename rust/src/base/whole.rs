// Written by tools/to-rust from crates/wasm_base/src/whole.rt: change that.
// Decoding of values that occupy all of the bytes.

use crate::vec::Vec;
use crate::base::fault::{DecodeError, ReadFault};
use crate::base::grammar::Grammar;
use crate::base::readable::Readable;
use crate::alloc::Allocator;

/// Decodes a value that occupies all of the bytes.
///
/// # Errors
///
/// Every error except `Memory` means that the bytes as a whole encode no such value.
///
/// # Examples
///
/// ```
/// use dolzhytik::fallible::Global;
/// use dolzhytik::reader::{Padded, read_whole};
///
/// let name = read_whole::<&str, Global, Padded>(b"\x02ab", Global)?;
/// assert_eq!(name, "ab");
/// assert!(read_whole::<&str, Global, Padded>(b"\x02abc", Global).is_err());
/// # Ok::<(), dolzhytik::reader::DecodeError>(())
/// ```
///
/// # Proved
///
/// After `Ok`: `found`, the bytes as a whole encode the value. After an error: `none`, the bytes as a whole are no such encoding, unless the cause is `Memory`.
///
/// ```text
/// ensures found { IfOk result (λ x. T.format (padded_of G.grammar) bytes.now (T.view x)) }
/// ensures none { IfErr result
///     (λ e. e.cause ≢ Memory → RejectsWhole T.format (padded_of G.grammar) bytes.now) }
/// ensures no_memory { IfErr result (λ e. e.cause ≡ Memory → T.may_allocate) }
/// ```
///
/// Definitions: [`padded_of`](crate::definitions::base::numbers::padded_of), [`RejectsWhole`](crate::definitions::base::continuing::RejectsWhole). [How to read clauses](crate::definitions).
pub fn read_whole<'a, T: Readable<'a, A, G>, A: Allocator + Copy, G: Grammar>(
    bytes: &'a [u8],
    alloc: A,
) -> Result<T, DecodeError> {
    let (value, left) = T::read(bytes, alloc)?;
    T::laws();
    if left.is_empty() {
        Ok(value)
    } else {
        Err(ReadFault::SizeMismatch.at(left))
    }
}

/// Decodes a value that occupies all of `bytes`, which `rest` follows in the input. The number of
/// bytes left in an error includes those of `rest`, up to 4294967295.
///
/// # Errors
///
/// Every error except `Memory` means that the bytes as a whole encode no such value.
///
/// # Proved
///
/// After `Ok`: `found`, the bytes as a whole encode the value. After an error: `none`, the bytes as a whole are no such encoding, unless the cause is `Memory`; `left`, the bytes that follow are left too.
///
/// ```text
/// ensures found { IfOk result (λ x. T.format (padded_of G.grammar) bytes.now (T.view x)) }
/// ensures none { IfErr result
///     (λ e. e.cause ≢ Memory → RejectsWhole T.format (padded_of G.grammar) bytes.now) }
/// ensures no_memory { IfErr result (λ e. e.cause ≡ Memory → T.may_allocate) }
/// ensures left { IfErr result (λ e. min (length rest.now) longest ≤ e.left) }
/// ```
///
/// Definitions: [`padded_of`](crate::definitions::base::numbers::padded_of), [`RejectsWhole`](crate::definitions::base::continuing::RejectsWhole), [`longest`](crate::definitions::base::encodings::longest). [How to read clauses](crate::definitions).
pub fn read_before<'a, T: Readable<'a, A, G>, A: Allocator + Copy, G: Grammar>(
    bytes: &'a [u8],
    rest: &[u8],
    alloc: A,
) -> Result<T, DecodeError> {
    match read_whole::<'a, T, A, G>(bytes, alloc) {
        Ok(value) => Ok(value),
        Err(error) => Err(error.before(rest)),
    }
}

/// Decodes values one after another, up to the last byte; no encoding of one is empty. Memory grows
/// with the values that decode.
///
/// # Errors
///
/// Every error except `Memory` means that the bytes as a whole encode no such values.
///
/// # Examples
///
/// ```
/// use dolzhytik::fallible::Global;
/// use dolzhytik::reader::{Padded, read_to_end};
///
/// let numbers = read_to_end::<u32, Global, Padded>(&[5, 0xAC, 0x02], Global)?;
/// assert_eq!(numbers[..], [5, 300]);
/// # Ok::<(), dolzhytik::reader::DecodeError>(())
/// ```
///
/// # Asks
///
/// No encoding of a value is empty. [What happens otherwise](crate::fallible#what-is-asked).
///
/// ```text
/// requires { BeginsWith (λ b. Unit {0}) T.format }
/// ```
///
/// Definitions: [`BeginsWith`](crate::definitions::base::decoding::BeginsWith). [How to read clauses](crate::definitions).
///
/// # Proved
///
/// After `Ok`: `found`, the bytes as a whole encode the value. After an error: `none`, the bytes as a whole are no such encoding, unless the cause is `Memory`.
///
/// ```text
/// ensures found { IfOk result
///     (λ x. members T.format (padded_of G.grammar) bytes.now (map T.view x.items)) }
/// ensures none { IfErr result
///     (λ e. e.cause ≢ Memory → RejectsWhole (members T.format)
///         (padded_of G.grammar) bytes.now) }
/// ```
///
/// Definitions: [`members`](crate::definitions::base::formats::members), [`padded_of`](crate::definitions::base::numbers::padded_of), [`RejectsWhole`](crate::definitions::base::continuing::RejectsWhole). [How to read clauses](crate::definitions).
pub fn read_to_end<'a, T: Readable<'a, A, G>, A: Allocator + Copy, G: Grammar>(
    bytes: &'a [u8],
    alloc: A,
) -> Result<Vec<T, A>, DecodeError> {
    let mut items = Vec::new(alloc);
    let mut rest = bytes;
    T::laws();
    loop {
        if rest.is_empty() {
            return Ok(items);
        }
        let (item, after) = T::read(rest, alloc)?;
        items.push(item)?;
        rest = after;
    }
}
