//! Instructions of few bytes. Their proved encoders append to an array on the stack, where the
//! compiler needs no test of a length and no path for an error, and the array is copied at once.
use super::done;
use crate::alloc::AllocError;
use crate::base::{AbstractHeapType, Encode, HeapType, Lent, Result, ValType};
use crate::ending::{Growing, grow};
use crate::immediates::{Ieee32, Ieee64, Lane, MemArg, MemArgTarget, Ordering};
use crate::sections::{DataCountSection, StartSection};
use crate::vec::{Sealed, Sink};
use alloc_crate::vec::Vec;
use core::ops::{Deref, DerefMut};

/// The encoding of the type of a block without parameters and results.
pub const EMPTY_BLOCK: u8 = 0x40;

/// The bytes of the array that an instruction is encoded in. As a power of two it needs no test of
/// an index.
const SPACE: usize = 32;

/// A sink over an array, whose calls never fail. It begins again at the front when it is full: no
/// value that it takes has as many bytes.
struct Slots<'a, const N: usize> {
    bytes: &'a mut [u8; N],
    len: usize,
}

impl<const N: usize> Deref for Slots<'_, N> {
    type Target = [u8];

    #[inline]
    fn deref(&self) -> &[u8] {
        &self.bytes[..self.len]
    }
}

impl<const N: usize> DerefMut for Slots<'_, N> {
    #[inline]
    fn deref_mut(&mut self) -> &mut [u8] {
        &mut self.bytes[..self.len]
    }
}

impl<const N: usize> Sealed for Slots<'_, N> {}

impl<const N: usize> Sink for Slots<'_, N> {
    #[inline]
    fn capacity(&self) -> usize {
        N
    }

    #[inline]
    fn reserve(&mut self, _more: usize) -> Result<(), AllocError> {
        Ok(())
    }

    #[inline]
    fn push(&mut self, byte: u8) -> Result<(), AllocError> {
        self.bytes[self.len % N] = byte;
        self.len = (self.len + 1) % N;
        Ok(())
    }

    #[inline]
    fn push_reserved(&mut self, byte: u8) {
        if let Some(slot) = self.bytes.get_mut(self.len) {
            *slot = byte;
        }
        self.len = (self.len + 1) % N;
    }

    #[inline]
    fn push_both_reserved(&mut self, bytes: [u8; 2]) {
        self.push_reserved(bytes[0]);
        self.push_reserved(bytes[1]);
    }

    #[inline]
    fn extend_from_slice(&mut self, bytes: &[u8]) -> Result<(), AllocError> {
        let end = self.len + bytes.len();
        if let Some(slots) = self.bytes.get_mut(self.len..end) {
            slots.copy_from_slice(bytes);
        }
        self.len = end % N;
        Ok(())
    }

    #[inline]
    fn truncate(&mut self, len: usize) {
        self.len = self.len.min(len);
    }
}

/// The bytes of spare capacity with which the proved encoder of a number does not count them first.
const NUMBER: usize = 10;

/// Immediates of which some values have an encoding of [`SIZE`](Short::SIZE) bytes: one byte for a
/// number.
pub trait Short: Copy {
    /// The number of bytes of the short encoding.
    const SIZE: usize;

    /// The number of bytes of spare capacity with which no encoding grows the list.
    const MOST: usize;

    /// Returns whether the encoding is short.
    fn is_short(self) -> bool;

    /// Returns a value of the same encoding. If that is short, the compiler knows it.
    fn short(self) -> impl Encode;

    /// Returns a value of the same encoding.
    fn long(self) -> impl Encode;
}

/// Appends an opcode and its immediates, if these are short and there is spare capacity. Returns
/// whether it did.
#[inline(always)]
pub fn put_short<const N: usize, P: Short>(list: &mut Vec<u8>, op: [u8; N], parts: P) -> bool {
    const { assert!(P::SIZE <= P::MOST && N + P::MOST < SPACE) }
    let size = N + P::SIZE;
    if parts.is_short() && list.capacity() - list.len() >= size {
        let bytes = &mut [0; SPACE];
        let mut slots = Slots { bytes, len: 0 };
        done(op.encode(&mut slots));
        done(parts.short().encode(&mut slots));
        if slots.len == size {
            list.extend_from_slice(&slots.bytes[..size]);
            return true;
        }
    }
    false
}

/// A value that is encoded in its short form, if it has one: the compiler then knows the case.
pub struct Tested<P>(pub P);

impl<P: Short> Encode for Tested<P> {
    #[inline(always)]
    fn encode<A: Sink>(&self, sink: &mut A) -> Result<()> {
        if self.0.is_short() {
            self.0.short().encode(sink)
        } else {
            self.0.long().encode(sink)
        }
    }
}

/// The bytes of spare capacity with which a number is appended as a block.
const BLOCK: usize = 16;

/// Appends a number, of any length. It is encoded in a block at the end of the list, where no byte
/// needs a test of the capacity. Then the list is truncated.
#[inline(never)]
pub fn put_number<P: Short>(number: P, list: &mut Vec<u8>) {
    const { assert!(P::MOST < BLOCK) }
    let start = list.len();
    if list.capacity() - start < BLOCK {
        return put_tight(number, list);
    }
    list.extend_from_slice(&[0; BLOCK]);
    let mut end = start;
    if let Some(bytes) = list.last_chunk_mut() {
        let mut block = Slots::<BLOCK> { bytes, len: 0 };
        done(number.long().encode(&mut block));
        end += block.len;
    }
    list.truncate(end);
}

/// Appends a number without spare capacity for a block.
#[cold]
#[inline(never)]
fn put_tight<P: Short>(number: P, list: &mut Vec<u8>) {
    if list.capacity() - list.len() < P::MOST {
        grow(list, P::MOST);
    }
    done(number.long().encode(&mut Growing(list)));
}

/// Implements [`Short`] for types: the sizes, which values are short, a value after that test, of
/// which the compiler knows it, and any value.
macro_rules! short {
    ($($({$($generics:tt)*})? $ty:ty: $size:expr, $most:expr, |$value:pat_param| $is_short:expr => $short:expr, $long:expr;)*) => {
        $(
            #[allow(unused_variables, reason = "all values of some types are short")]
            impl $(<$($generics)*>)? Short for $ty {
                const SIZE: usize = $size;
                const MOST: usize = $most;

                #[inline(always)]
                fn is_short(self) -> bool {
                    let $value = self;
                    $is_short
                }

                #[inline(always)]
                fn short(self) -> impl Encode {
                    let $value = self;
                    $short
                }

                #[inline(always)]
                fn long(self) -> impl Encode {
                    let $value = self;
                    $long
                }
            }
        )*
    };
}

short! {
    Lane: 1, 1, |it| true => it, it;
    Ordering: 1, 1, |it| true => it, it;
    Ieee32: 4, 4, |it| true => it, it;
    Ieee64: 8, 8, |it| true => it, it;
    {const N: usize} [u8; N]: N, N, |it| true => it, it;
    u32: 1, NUMBER, |it| it < 0x80 => it, it;
    i32: 1, NUMBER, |it| (-0x40..0x40).contains(&it) => it, it;
    i64: 1, NUMBER, |it| (-0x40..0x40).contains(&it) => it, it;
    StartSection: 2, NUMBER, |it| it.function_index < 0x80 => it, it;
    DataCountSection: 2, NUMBER, |it| it.count < 0x80 => it, it;
    HeapType: 1, NUMBER, |it| matches!(it, HeapType::Abstract { shared: false, .. }) => match it {
        HeapType::Abstract { ty, .. } => ty,
        _ => AbstractHeapType::Func,
    }, it;
    ValType: 1, NUMBER, |it| !matches!(it, ValType::Ref(_)) => match it {
        ValType::I32 => ValType::I32,
        ValType::I64 => ValType::I64,
        ValType::F32 => ValType::F32,
        ValType::F64 => ValType::F64,
        ValType::V128 | ValType::Ref(_) => ValType::V128,
    }, it;
    &MemArg: 2, 2 * NUMBER + 1, |it| it.align < 0x80
        && it.offset < 0x80
        && matches!(it.target, MemArgTarget::Memory(0))
        && it.ordering.is_none() => MemArg {
        offset: it.offset,
        align: it.align,
        target: MemArgTarget::Memory(0),
        ordering: None,
    }, Lent(it);
    {A: Short, B: Short} (A, B): A::SIZE + B::SIZE, A::MOST + B::MOST,
        |(a, b)| a.is_short() && b.is_short() => (a.short(), b.short()), (a.long(), b.long());
    {A: Short, B: Short, C: Short} (A, B, C): <(A, (B, C))>::SIZE, <(A, (B, C))>::MOST,
        |(a, b, c)| a.is_short() && b.is_short() && c.is_short()
            => (a.short(), b.short(), c.short()), (a.long(), b.long(), c.long());
}
