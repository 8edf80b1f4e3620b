// Written by tools/to-rust from crates/wasm_base/src/leb128.rt: change that.
// LEB128 numbers: encodes them in their minimal form, and decodes minimal and padded ones. One byte
// is decoded inline, up to five in 64 bits.

use crate::vec::Sink;
use crate::base::effect::Effect;
use crate::base::encode::Encode;
use crate::base::fault::{DecodeError, ReadFault};
use crate::base::grammar::Grammar;
use crate::base::readable::{Layout, Readable};
use crate::base::refused::{Refused, Result};
use crate::base::shorten::Shorten;
use crate::base::walk::{Canonical, Walk, walk_value};
use crate::alloc::Allocator;

/// An unsigned number below this is one group, the last one.
const UNSIGNED_LIMIT: u64 = 0x80;

/// A signed number from `-SIGNED_LIMIT` up to, but not including, `SIGNED_LIMIT` is one group: bit
/// 6 is the sign.
const SIGNED_LIMIT: u64 = 0x40;

/// Returns the number of bytes of a number as minimal LEB128, such as a count or a size prefix.
///
/// # Examples
///
/// ```
/// use dolzhytik::encoding_size;
///
/// // Each byte has seven bits of the number.
/// assert_eq!([encoding_size(127), encoding_size(128), encoding_size(u32::MAX)], [1, 2, 5]);
/// ```
///
/// # Proved
///
/// ```text
/// ensures value { result ≡ length (unsigned_encoding n) }
/// ensures bound { result ≤ 5 }
/// ```
///
/// Definitions: [`unsigned_encoding`](crate::definitions::base::numbers::unsigned_encoding). [How to read clauses](crate::definitions).
pub fn encoding_size(n: u32) -> usize {
    groups_size(false, UNSIGNED_LIMIT, u64::from(n))
}

/// Returns the number of groups of `n`.
fn groups_size(negative: bool, limit: u64, n: u64) -> usize {
    let mut size = 1;
    let mut rest = n;
    while rest >= limit {
        rest /= 0x80;
        size += 1;
    }
    size
}

/// Returns the lowest group of `n`, which further groups follow.
#[inline]
fn group_before_others(negative: bool, n: u64) -> u8 {
    let low = (n % 0x80) as u8;
    if negative { 0xFF - low } else { low + 0x80 }
}

/// Returns the last group of a number.
#[inline]
fn group_at_the_end(negative: bool, n: u64) -> u8 {
    let low = n as u8;
    if negative { 0x7F - low } else { low }
}

/// Appends the groups of `n` into spare capacity of the sink, which holds them all.
fn put_groups<A: Sink>(sink: &mut A, negative: bool, limit: u64, n: u64) {
    let mut rest = n;
    while rest >= limit {
        sink.push_reserved(group_before_others(negative, rest));
        rest /= 0x80;
    }
    sink.push_reserved(group_at_the_end(negative, rest));
}

/// Appends the two groups of `n` into spare capacity of the sink, which holds them.
#[inline]
fn put_two_groups<A: Sink>(sink: &mut A, negative: bool, limit: u64, n: u64) {
    sink.push_both_reserved([group_before_others(negative, n), group_at_the_end(negative, n / 0x80)]);
}

/// The most groups that a number of 64 bits has.
const MOST_GROUPS: usize = 10;

/// Appends the groups of `n`, of which there are at least two. With spare capacity for
/// `MOST_GROUPS` they are not counted first, and two groups are written without a loop.
#[inline(always)]
fn append_groups<A: Sink>(
    sink: &mut A,
    negative: bool,
    limit: u64,
    n: u64,
) -> Result<()> {
    if sink.capacity() - sink.len() < MOST_GROUPS {
        return append_counted_groups(sink, negative, limit, n);
    }
    if n < limit * 0x80 {
        put_two_groups(sink, negative, limit, n);
    } else {
        put_groups(sink, negative, limit, n);
    }
    Ok(())
}

/// Appends the groups of `n`, which are counted first so that one reservation suffices.
#[cold]
#[inline(never)]
fn append_counted_groups<A: Sink>(
    sink: &mut A,
    negative: bool,
    limit: u64,
    n: u64,
) -> Result<()> {
    sink.reserve(groups_size(negative, limit, n))?;
    put_groups(sink, negative, limit, n);
    Ok(())
}

/// Appends an unsigned number of several groups.
#[inline]
fn append_long_unsigned<A: Sink>(sink: &mut A, n: u64) -> Result<()> {
    append_groups(sink, false, UNSIGNED_LIMIT, n)
}

/// Appends a signed number of several groups.
#[inline]
fn append_long_signed<A: Sink>(sink: &mut A, negative: bool, n: u64) -> Result<()> {
    append_groups(sink, negative, SIGNED_LIMIT, n)
}

/// Appends an unsigned number. Most have one byte, which is written here without a call.
#[inline(always)]
fn append_unsigned<A: Sink>(sink: &mut A, n: u64) -> Result<()> {
    if n < UNSIGNED_LIMIT {
        sink.push(n as u8)?;
        return Ok(());
    }
    append_long_unsigned(sink, n)
}

/// Appends a signed number. Most have one byte, which is written here without a call.
#[inline(always)]
fn append_signed<A: Sink>(sink: &mut A, n: i64) -> Result<()> {
    let negative = n < 0;
    let n = if negative { -(n + 1) } else { n } as u64;
    if n < SIGNED_LIMIT {
        sink.push(group_at_the_end(negative, n))?;
        return Ok(());
    }
    append_long_signed(sink, negative, n)
}

/// Encodes the number as unsigned LEB128.
///
/// # Defined
///
/// ```text
/// encoding = { unsigned_encoding }
/// encodable = { λ _. ⊤ }
/// ```
///
/// Definitions: [`unsigned_encoding`](crate::definitions::base::numbers::unsigned_encoding). [How to read clauses](crate::definitions).
impl Encode for u32 {
    #[inline(always)]
    fn encode<A: Sink>(&self, sink: &mut A) -> Result<()> {
        append_unsigned(sink, u64::from(*self))
    }
}

/// Encodes the number as unsigned LEB128.
///
/// # Defined
///
/// ```text
/// encoding = { unsigned_encoding }
/// encodable = { λ _. ⊤ }
/// ```
///
/// Definitions: [`unsigned_encoding`](crate::definitions::base::numbers::unsigned_encoding). [How to read clauses](crate::definitions).
impl Encode for u64 {
    #[inline(always)]
    fn encode<A: Sink>(&self, sink: &mut A) -> Result<()> {
        append_unsigned(sink, *self)
    }
}

/// Encodes a count or a length as unsigned LEB128. Returns `TooLong` for a number above 4294967295.
///
/// # Defined
///
/// ```text
/// encoding = { unsigned_encoding }
/// encodable = { λ n. n ≤ longest }
/// overlong = { λ n. longest < n }
/// ```
///
/// Definitions: [`unsigned_encoding`](crate::definitions::base::numbers::unsigned_encoding), [`longest`](crate::definitions::base::encodings::longest). [How to read clauses](crate::definitions).
impl Encode for usize {
    fn encode<A: Sink>(&self, sink: &mut A) -> Result<()> {
        match u32::try_from(*self) {
            Ok(n) => n.encode(sink),
            Err(_) => Err(Refused::TooLong),
        }
    }
}

/// Encodes the number as signed LEB128.
///
/// # Defined
///
/// ```text
/// encoding = { signed_encoding }
/// encodable = { λ _. ⊤ }
/// ```
///
/// Definitions: [`signed_encoding`](crate::definitions::base::numbers::signed_encoding). [How to read clauses](crate::definitions).
impl Encode for i32 {
    #[inline(always)]
    fn encode<A: Sink>(&self, sink: &mut A) -> Result<()> {
        append_signed(sink, i64::from(*self))
    }
}

/// Encodes the number as signed LEB128.
///
/// # Defined
///
/// ```text
/// encoding = { signed_encoding }
/// encodable = { λ _. ⊤ }
/// ```
///
/// Definitions: [`signed_encoding`](crate::definitions::base::numbers::signed_encoding). [How to read clauses](crate::definitions).
impl Encode for i64 {
    #[inline(always)]
    fn encode<A: Sink>(&self, sink: &mut A) -> Result<()> {
        append_signed(sink, *self)
    }
}

/// The groups of seven bits at the front of bytes, the lowest group first.
///
/// [`read_groups`](crate::fallible::read_groups) returns it.
///
/// # Examples
///
/// ```
/// use dolzhytik::fallible::{Groups, read_groups};
///
/// let Ok((Groups { sum, power, last }, rest)) = read_groups(&[0xAC, 0x02, 0xFF], 5)
/// else {
///     panic!("two groups are there");
/// };
/// // 2C and 02 are the groups: 0x02 * 128 + 0x2C = 300.
/// assert_eq!((sum, power, last, rest), (300, 128 * 128, 0x02, &[0xFF][..]));
/// ```
#[derive(Clone, Copy, Debug)]
pub struct Groups {
    /// The number that the groups encode without a sign.
    pub sum: u128,
    /// 128 to the power of the number of groups.
    pub power: u128,
    /// The last group. Bit 6 is the sign of a signed number.
    pub last: u8,
}

/// Decodes the groups at the front, at most `limit` of them, and returns them with the remaining
/// bytes.
///
/// # Errors
///
/// An error means that the bytes do not begin with at most `limit` groups: `Ended` only if
/// there are fewer bytes than `limit`, and `TooLarge` only if there are not.
///
/// # Examples
///
/// ```
/// use dolzhytik::fallible::read_groups;
/// use dolzhytik::reader::ReadFault;
///
/// assert_eq!(
///     read_groups(&[0x80, 0x01], 5).map(|(groups, _)| groups.sum).ok(),
///     Some(128)
/// );
/// assert_eq!(
///     read_groups(&[0x80], 5).map_err(|error| error.cause()).err(),
///     Some(ReadFault::Ended)
/// );
/// ```
///
/// # Asks
///
/// `limit` is at most 10. [What happens otherwise](crate::fallible#what-is-asked).
///
/// ```text
/// requires { limit ≤ 10 }
/// ```
///
/// [How to read clauses](crate::definitions).
///
/// # Proved
///
/// - After `Ok`, `found`: The bytes begin with LEB128 groups: their sum, 128 to the power of their number, and the last group. The returned bytes follow them.
/// - After `Ok`, `power`: the power is at most 128 to the power of `limit`.
/// - After `Ok`, `below`: the sum is below the power.
/// - After an error, `none`: the bytes do not begin with such an encoding.
/// - After an error, `ended`: `Ended` means fewer bytes than `limit`.
/// - After an error, `too_many`: `TooLarge` means at least `limit` bytes.
///
/// ```text
/// ensures found { IfOk result
///     (λ x. HasGroups limit bytes.now x.0.sum x.0.power x.0.last x.1.now) }
/// ensures power { IfOk result (λ x. x.0.power ≤ 128 ^ limit) }
/// ensures below { IfOk result (λ x. x.0.sum < x.0.power) }
/// ensures none { IfErr result (λ _. Rejects (groups limit) padded bytes.now) }
/// ensures no_memory { IfErr result (λ e. e.cause ≢ Memory) }
/// ensures ended { IfErr result (λ e. e.cause ≡ Ended → length bytes.now < limit) }
/// ensures too_many { IfErr result (λ e. e.cause ≡ TooLarge → limit ≤ length bytes.now) }
/// ```
///
/// Definitions: [`HasGroups`](crate::definitions::base::groups::HasGroups), [`Rejects`](crate::definitions::base::decoding::Rejects), [`groups`](crate::definitions::base::groups::groups), [`padded`](crate::definitions::base::numbers::Mode). [How to read clauses](crate::definitions).
pub fn read_groups(bytes: &[u8], limit: u8) -> Result<(Groups, &[u8]), DecodeError> {
    if limit == 0 {
        return Err(ReadFault::TooLarge.just_before(bytes));
    }
    match bytes {
        [] => Err(ReadFault::Ended.at(bytes)),
        [b, rest @ ..] => {
            if *b < 0x80 {
                let last = Groups {
                    sum: u128::from(*b),
                    power: 0x80,
                    last: *b,
                };
                return Ok((last, rest));
            }
            let (more, rest) = read_groups(rest, limit - 1)?;
            let groups = Groups {
                sum: u128::from(*b % 0x80) + 0x80 * more.sum,
                power: 0x80 * more.power,
                last: more.last,
            };
            Ok((groups, rest))
        }
    }
}

/// Returns the number that the groups encode in two's complement.
fn signed(groups: Groups) -> i128 {
    if groups.last < 0x40 {
        groups.sum as i128
    } else {
        groups.sum as i128 - groups.power as i128
    }
}

/// Returns the number that one group encodes in two's complement.
#[inline]
fn signed_byte(group: u8) -> i16 {
    if group < 0x40 {
        i16::from(group)
    } else {
        i16::from(group) - 0x80
    }
}

/// At most five groups, with the fields of [`Groups`] in 64 bits.
#[derive(Clone, Copy)]
struct FewGroups {
    sum: u64,
    power: u64,
    last: u8,
}

/// Decodes the groups at the front, at most five, and returns them with the remaining bytes.
#[inline]
fn read_few_groups(bytes: &[u8]) -> Result<(FewGroups, &[u8]), DecodeError> {
    let mut rest = bytes;
    let mut sum: u64 = 0;
    let mut power: u64 = 1;
    for _group in 0..5u8 {
        let [b, after @ ..] = rest else {
            return Err(ReadFault::Ended.at(rest));
        };
        sum += power * u64::from(*b % 0x80);
        power *= 0x80;
        if *b < 0x80 {
            let few = FewGroups {
                sum,
                power,
                last: *b,
            };
            return Ok((few, after));
        }
        rest = after;
    }
    Err(ReadFault::TooLarge.just_before(rest))
}

/// Returns the number that at most five groups encode in two's complement.
#[inline]
fn signed_few(groups: FewGroups) -> i64 {
    if groups.last < 0x40 {
        groups.sum as i64
    } else {
        groups.sum as i64 - groups.power as i64
    }
}

/// Decodes an unsigned number of 32 bits. Out of line, for those of several bytes.
#[inline(never)]
fn read_long_u32<G: Grammar>(bytes: &[u8]) -> Result<(u32, &[u8]), DecodeError> {
    let (groups, rest) = read_few_groups(bytes)?;
    if groups.sum < 1 << 32 {
        Ok((groups.sum as u32, rest))
    } else {
        Err(ReadFault::TooLarge.just_before(rest))
    }
}

/// Decodes an unsigned number of 64 bits. Out of line, for those of several bytes.
#[inline(never)]
fn read_long_u64<G: Grammar>(bytes: &[u8]) -> Result<(u64, &[u8]), DecodeError> {
    if let Ok((groups, rest)) = read_few_groups(bytes) {
        return Ok((groups.sum, rest));
    }
    let (groups, rest) = read_groups(bytes, 10)?;
    if groups.sum < 1 << 64 {
        Ok((groups.sum as u64, rest))
    } else {
        Err(ReadFault::TooLarge.just_before(rest))
    }
}

/// Decodes a signed number of 32 bits. Out of line, for those of several bytes.
#[inline(never)]
fn read_long_i32<G: Grammar>(bytes: &[u8]) -> Result<(i32, &[u8]), DecodeError> {
    let (groups, rest) = read_few_groups(bytes)?;
    let value = signed_few(groups);
    if value < -0x8000_0000 {
        return Err(ReadFault::TooLarge.just_before(rest));
    }
    if value < 0x8000_0000 {
        Ok((value as i32, rest))
    } else {
        Err(ReadFault::TooLarge.just_before(rest))
    }
}

/// Decodes a signed number of 64 bits. Out of line, for those of several bytes.
#[inline(never)]
fn read_long_i64<G: Grammar>(bytes: &[u8]) -> Result<(i64, &[u8]), DecodeError> {
    if let Ok((groups, rest)) = read_few_groups(bytes) {
        return Ok((signed_few(groups), rest));
    }
    let (groups, rest) = read_groups(bytes, 10)?;
    let value = signed(groups);
    if value < -0x8000_0000_0000_0000 {
        return Err(ReadFault::TooLarge.just_before(rest));
    }
    if value < 0x8000_0000_0000_0000 {
        Ok((value as i64, rest))
    } else {
        Err(ReadFault::TooLarge.just_before(rest))
    }
}

/// # Defined
///
/// ```text
/// Value = { ℕ }
/// format = { u32_format }
/// view = { λ n. n }
/// ```
///
/// Definitions: [`u32_format`](crate::definitions::base::formats::u32). [How to read clauses](crate::definitions).
impl Layout for u32 {
    fn laws() {}
}

/// # Defined
///
/// ```text
/// may_allocate = { ⊥ }
/// ```
///
/// [How to read clauses](crate::definitions).
impl<'a, A: Allocator + Copy, G: Grammar> Readable<'a, A, G> for u32 {
    #[inline]
    fn read(bytes: &'a [u8], _alloc: A) -> Result<(u32, &'a [u8]), DecodeError> {
        if let [b, rest @ ..] = bytes {
            if *b < 0x80 {
                return Ok((u32::from(*b), rest));
            }
        }
        read_long_u32::<G>(bytes)
    }
}

/// # Defined
///
/// ```text
/// Value = { ℕ }
/// format = { u64_format }
/// view = { λ n. n }
/// ```
///
/// Definitions: [`u64_format`](crate::definitions::base::formats::u64). [How to read clauses](crate::definitions).
impl Layout for u64 {
    fn laws() {}
}

/// # Defined
///
/// ```text
/// may_allocate = { ⊥ }
/// ```
///
/// [How to read clauses](crate::definitions).
impl<'a, A: Allocator + Copy, G: Grammar> Readable<'a, A, G> for u64 {
    #[inline]
    fn read(bytes: &'a [u8], _alloc: A) -> Result<(u64, &'a [u8]), DecodeError> {
        if let [b, rest @ ..] = bytes {
            if *b < 0x80 {
                return Ok((u64::from(*b), rest));
            }
        }
        read_long_u64::<G>(bytes)
    }
}

/// # Defined
///
/// ```text
/// Value = { ℤ }
/// format = { s32 }
/// view = { λ n. n }
/// ```
///
/// Definitions: [`s32`](crate::definitions::base::formats::s32). [How to read clauses](crate::definitions).
impl Layout for i32 {
    fn laws() {}
}

/// # Defined
///
/// ```text
/// may_allocate = { ⊥ }
/// ```
///
/// [How to read clauses](crate::definitions).
impl<'a, A: Allocator + Copy, G: Grammar> Readable<'a, A, G> for i32 {
    #[inline]
    fn read(bytes: &'a [u8], _alloc: A) -> Result<(i32, &'a [u8]), DecodeError> {
        if let [b, rest @ ..] = bytes {
            if *b < 0x80 {
                return Ok((i32::from(signed_byte(*b)), rest));
            }
        }
        read_long_i32::<G>(bytes)
    }
}

/// # Defined
///
/// ```text
/// Value = { ℤ }
/// format = { s64 }
/// view = { λ n. n }
/// ```
///
/// Definitions: [`s64`](crate::definitions::base::formats::s64). [How to read clauses](crate::definitions).
impl Layout for i64 {
    fn laws() {}
}

/// # Defined
///
/// ```text
/// may_allocate = { ⊥ }
/// ```
///
/// [How to read clauses](crate::definitions).
impl<'a, A: Allocator + Copy, G: Grammar> Readable<'a, A, G> for i64 {
    #[inline]
    fn read(bytes: &'a [u8], _alloc: A) -> Result<(i64, &'a [u8]), DecodeError> {
        if let [b, rest @ ..] = bytes {
            if *b < 0x80 {
                return Ok((i64::from(signed_byte(*b)), rest));
            }
        }
        read_long_i64::<G>(bytes)
    }
}

/// Decodes an index, encoded as a signed number of 33 bits. Negative numbers encode types, whose
/// known bytes the caller has already matched.
///
/// # Errors
///
/// An error means that no such index is at the front.
///
/// # Proved
///
/// After `Ok`: `found`, the bytes begin with an encoding of the value, and the returned bytes follow it. After an error: `none`, the bytes do not begin with such an encoding, unless the cause is `Memory`.
///
/// ```text
/// ensures found { IfOk result
///     (λ x. Decodes s33 (padded_of G.grammar) bytes.now x.0 x.1.now) }
/// ensures none { IfErr result
///     (λ e. e.cause ≢ Memory → Rejects s33 (padded_of G.grammar) bytes.now) }
/// ensures no_memory { IfErr result (λ e. e.cause ≢ Memory) }
/// ```
///
/// Definitions: [`Decodes`](crate::definitions::base::decoding::Decodes), [`s33`](crate::definitions::base::formats::s33), [`padded_of`](crate::definitions::base::numbers::padded_of), [`Rejects`](crate::definitions::base::decoding::Rejects). [How to read clauses](crate::definitions).
#[inline]
pub fn read_index<G: Grammar>(bytes: &[u8]) -> Result<(u32, &[u8]), DecodeError> {
    let (groups, rest) = read_few_groups(bytes)?;
    if groups.last >= 0x40 {
        return Err(ReadFault::UnknownTag.just_before(rest));
    }
    if groups.sum < 1 << 32 {
        Ok((groups.sum as u32, rest))
    } else {
        Err(ReadFault::TooLarge.just_before(rest))
    }
}

/// # Defined
///
/// ```text
/// grammars = { both_grammars }
/// ```
///
/// Definitions: [`both_grammars`](crate::definitions::base::minimal::Grammars). [How to read clauses](crate::definitions).
impl Shorten for u32 {
    fn write_minimal<B: Sink>(&self, sink: &mut B) -> Result<()> {
        self.encode(sink)
    }
}

impl Canonical for u32 {
    fn canonical() {}
}

impl<G: Grammar> Walk<G> for u32 {
    #[inline]
    fn walk<'a, A: Allocator + Copy, E: Effect>(
        bytes: &'a [u8],
        alloc: A,
        effect: &mut E,
    ) -> Result<&'a [u8], DecodeError> {
        walk_value::<u32, A, G, _>(bytes, alloc, effect)
    }
}

impl Canonical for i32 {
    fn canonical() {}
}

impl<G: Grammar> Walk<G> for i32 {
    #[inline]
    fn walk<'a, A: Allocator + Copy, E: Effect>(
        bytes: &'a [u8],
        alloc: A,
        effect: &mut E,
    ) -> Result<&'a [u8], DecodeError> {
        walk_value::<i32, A, G, _>(bytes, alloc, effect)
    }
}

impl Canonical for i64 {
    fn canonical() {}
}

impl<G: Grammar> Walk<G> for i64 {
    #[inline]
    fn walk<'a, A: Allocator + Copy, E: Effect>(
        bytes: &'a [u8],
        alloc: A,
        effect: &mut E,
    ) -> Result<&'a [u8], DecodeError> {
        walk_value::<i64, A, G, _>(bytes, alloc, effect)
    }
}
