// Written by tools/to-rust from crates/wasm_code/src/members.rt: change that.
// The members of a vector, one after another.

use crate::alloc::{Allocator, Global};
use core::iter::FusedIterator;
use core::marker::PhantomData;
use crate::base::{DecodeError, Grammar, Readable, Standard};

/// The members of a vector, one after another, decoded from its bytes. Memory is allocated only for
/// members that need it; labels, clauses and types do not.
///
/// [`Operands::Encoded`](crate::reader::Operands::Encoded) has the bytes of lists: of labels
/// for `br_table`, of catch
/// clauses for `try_table`, after its block type.
///
/// # Errors
///
/// Every error except `Memory` means that no such member is next. It is the last item.
///
/// # Examples
///
/// ```
/// use dolzhytik::fallible::{Global, Shape};
/// use dolzhytik::reader::{Instructions, Members, Operands};
///
/// // br_table: 0E, two labels, 5 and 0, and the default label, 6.
/// let mut instructions = Instructions::new(&[0x0E, 2, 5, 0, 6], Global);
/// let Operands::Encoded(Shape::Bt, bytes) = instructions.next()?.unwrap().operands else {
///     panic!("other operands");
/// };
/// let mut labels: Members<u32> = Members::new(bytes, Global)?;
/// let found = labels.by_ref().collect::<Result<Vec<_>, _>>()?;
/// assert_eq!(found, [5, 0]);
/// assert_eq!(labels.rest(), [6]);
/// # Ok::<(), dolzhytik::reader::DecodeError>(())
/// ```
#[derive(Debug)]
pub struct Members<'a, T, A: Allocator = Global, G: Grammar = Standard> {
    left: u32,
    rest: &'a [u8],
    alloc: A,
    of: PhantomData<T>,
    grammar: PhantomData<G>,
}

impl<'a, T: Readable<'a, A, G>, A: Allocator + Copy, G: Grammar> Members<'a, T, A, G> {
    /// Decodes the number of members of the vector at the front, and returns an iterator over them.
    ///
    /// # Errors
    ///
    /// An error means that the bytes do not begin with a number.
    ///
    /// # Proved
    ///
    /// - After `Ok`, `found`: The bytes begin with such an encoding, and the remaining bytes follow it.
    /// - After an error, `none`: the bytes do not begin with such an encoding, unless the cause is `Memory`.
    ///
    /// ```text
    /// ensures found { IfOk result
    ///     (λ it. Decodes u32 (padded_of G.grammar) bytes.now it.left it.rest) }
    /// ensures none { IfErr result
    ///     (λ e. e.cause ≢ Memory → Rejects u32 (padded_of G.grammar) bytes.now) }
    /// ensures no_memory { IfErr result (λ e. e.cause ≢ Memory) }
    /// ```
    ///
    /// Definitions: [`Decodes`](crate::definitions::base::decoding::Decodes), [`u32`](crate::definitions::base::formats::u32), [`padded_of`](crate::definitions::base::numbers::padded_of), [`Rejects`](crate::definitions::base::decoding::Rejects). [How to read clauses](crate::definitions).
    pub fn new(bytes: &'a [u8], alloc: A) -> Result<Self, DecodeError> {
        let (left, rest) = <u32 as Readable<'a, A, G>>::read(bytes, alloc)?;
        Ok(Members {
            left,
            rest,
            alloc,
            of: PhantomData,
            grammar: PhantomData,
        })
    }

    /// Returns the number of members that are left.
    ///
    /// # Proved
    ///
    /// ```text
    /// ensures { result ≡ self.now.left }
    /// ```
    ///
    /// [How to read clauses](crate::definitions).
    pub fn left(&self) -> u32 {
        self.left
    }

    /// Returns the bytes that are not decoded yet. After the last member, they are those after the
    /// vector.
    ///
    /// # Proved
    ///
    /// ```text
    /// ensures { result.now ≡ self.now.rest }
    /// ```
    ///
    /// [How to read clauses](crate::definitions).
    pub fn rest(&self) -> &'a [u8] {
        self.rest
    }
}

/// # Defined
///
/// ```text
/// next_gives = { NextMember T.may_allocate T.format T.view (padded_of G.grammar) }
/// remaining = { λ it. at_most it.left }
/// ```
///
/// Definitions: [`NextMember`](crate::definitions::code::members::NextMember), [`padded_of`](crate::definitions::base::numbers::padded_of). [How to read clauses](crate::definitions).
impl<'a, T: Readable<'a, A, G>, A: Allocator + Copy, G: Grammar> Iterator for Members<'a, T, A, G> {
    type Item = Result<T, DecodeError>;

    fn next(&mut self) -> Option<Result<T, DecodeError>> {
        if self.left == 0 {
            return None;
        }
        match T::read(self.rest, self.alloc) {
            Ok((member, rest)) => {
                self.left -= 1;
                self.rest = rest;
                Some(Ok(member))
            }
            Err(error) => {
                self.left = 0;
                Some(Err(error))
            }
        }
    }
}

impl<'a, T: Readable<'a, A, G>, A: Allocator + Copy, G: Grammar> FusedIterator
    for Members<'a, T, A, G> {}
