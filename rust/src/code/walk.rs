// Written by tools/to-rust from crates/wasm_code/src/walk.rt: change that.
// A visitor of instructions, one at a time. It allocates nothing.

use crate::vec::Vec;
use crate::code::expression::END;
use crate::alloc::{Allocator, Global};
use core::marker::PhantomData;
use crate::base::{DecodeError, Grammar, Padded, ReadFault, Readable, Standard, ValType};
use crate::insn::{Op, Operands, read_instruction};

/// Visits the instructions of a body or an expression, one after another, and allocates nothing.
///
/// # Errors
///
/// Every error except `Memory` means that the bytes at the offset encode no instruction, and for
/// `next_before_end` no expression.
///
/// # Examples
///
/// ```
/// use dolzhytik::Instruction;
/// use dolzhytik::fallible::Global;
/// use dolzhytik::reader::Instructions;
///
/// // local.get 5: 20 05. i32.add: 6A. end: 0B.
/// let mut instructions = Instructions::new(&[0x20, 5, 0x6A, 0x0B], Global);
/// let mut found = vec![];
/// while let Some(decoded) = instructions.next()? {
///     let instruction = Instruction::try_from(decoded)?;
///     found.push(format!("{}: {instruction:?}", decoded.offset));
/// }
/// assert_eq!(found, ["0: LocalGet(5)", "2: I32Add", "3: End"]);
/// # Ok::<(), dolzhytik::reader::ReadFault>(())
/// ```
#[derive(Debug)]
pub struct Instructions<'a, A: Allocator = Global, G: Grammar = Padded> {
    bytes: &'a [u8],
    offset: usize,
    alloc: A,
    grammar: PhantomData<G>,
}

/// A decoded instruction: its offset in bytes, its opcode, and its operands, which borrow the
/// bytes.
///
/// [`Instructions::next`](crate::reader::Instructions::next) returns it. It is `Copy`, and
/// borrows the bytes. To match on
/// instructions by name, convert it: `Instruction::try_from(decoded)` gives a value of
/// [`Instruction`](crate::Instruction).
///
/// # Examples
///
/// ```
/// use dolzhytik::fallible::{Global, Op};
/// use dolzhytik::reader::{Instructions, Operands};
///
/// // i32.const 7: 41 07. call 3, with a padded number: 10 83 80 00. end: 0B.
/// let bytes = [0x41, 7, 0x10, 0x83, 0x80, 0, 0x0B];
/// let mut instructions = Instructions::new(&bytes, Global);
/// let mut calls = vec![];
/// while let Some(decoded) = instructions.next()? {
///     if let (Op::Byte(0x10), Operands::U32(function)) = (decoded.op, decoded.operands) {
///         calls.push((decoded.offset, function));
///     }
/// }
/// assert_eq!(calls, [(2, 3)]);
/// # Ok::<(), dolzhytik::reader::DecodeError>(())
/// ```
#[derive(Clone, Copy, Debug)]
pub struct Decoded<'a> {
    /// The offset of the instruction.
    pub offset: usize,
    /// The opcode.
    pub op: Op,
    /// The operands (immediates).
    pub operands: Operands<'a>,
}

impl<'a, A: Allocator + Copy> Instructions<'a, A> {
    /// Returns a visitor that begins at the first byte, and allocates nothing. It accepts padded
    /// numbers.
    ///
    /// # Proved
    ///
    /// ```text
    /// ensures { result ≡ record { bytes = bytes.now; offset = 0 } }
    /// ```
    ///
    /// [How to read clauses](crate::definitions).
    pub fn new(bytes: &'a [u8], alloc: A) -> Self {
        Instructions::begin(bytes, alloc)
    }

    /// Decodes the runs of a body's locals, and returns them with a visitor of its instructions.
    /// The bytes are those of the body without its size prefix. Offsets count from the first byte,
    /// before the runs. Padded numbers are accepted.
    ///
    /// # Errors
    ///
    /// Every error except `Memory` means that the bytes as a whole encode no body.
    ///
    /// # Proved
    ///
    /// After `Ok`: `found`, the bytes begin with an encoding of the locals, and the instructions follow it; `same`, the visitor is over these bytes; `within`, the offset is in the bytes, or at their end. After an error: `none`, the bytes as a whole are no such encoding, unless the cause is `Memory`.
    ///
    /// ```text
    /// ensures found { IfOk result
    ///     (λ x. Decodes (vec (pair u32 val_type)) padded bytes.now x.0.items (ahead x.1)) }
    /// ensures same { IfOk result (λ x. x.1.bytes ≡ bytes.now) }
    /// ensures within { IfOk result (λ x. x.1.offset ≤ length bytes.now) }
    /// ensures none { IfErr result
    ///     (λ e. e.cause ≢ Memory → RejectsWhole body padded bytes.now) }
    /// ```
    ///
    /// Definitions: [`Decodes`](crate::definitions::base::decoding::Decodes), [`vec`](crate::definitions::base::formats::vec), [`pair`](crate::definitions::base::formats::pair), [`u32`](crate::definitions::base::formats::u32), [`val_type`](crate::definitions::base::types::val_type), [`padded`](crate::definitions::base::numbers::Mode), [`ahead`](crate::definitions::code::walks::ahead), [`RejectsWhole`](crate::definitions::base::continuing::RejectsWhole), [`body`](crate::definitions::code::bodies::body). [How to read clauses](crate::definitions).
    pub fn of_body(bytes: &'a [u8], alloc: A) -> Result<(Vec<(u32, ValType), A>, Self), DecodeError> {
        Instructions::begin_body(bytes, alloc)
    }
}

impl<'a, A: Allocator + Copy> Instructions<'a, A, Standard> {
    /// Returns a visitor that begins at the first byte, and allocates nothing. It accepts all
    /// encodings that the standard admits.
    ///
    /// # Proved
    ///
    /// ```text
    /// ensures { result ≡ record { bytes = bytes.now; offset = 0 } }
    /// ```
    ///
    /// [How to read clauses](crate::definitions).
    pub fn standard(bytes: &'a [u8], alloc: A) -> Self {
        Instructions::begin(bytes, alloc)
    }

    /// Decodes the runs of a body's locals, as [`of_body`](Instructions::of_body) does, and accepts
    /// all encodings that the standard admits.
    ///
    /// # Errors
    ///
    /// Every error except `Memory` means that the bytes as a whole encode no body.
    ///
    /// # Examples
    ///
    /// ```
    /// use dolzhytik::fallible::{Global, Op, ValType};
    /// use dolzhytik::reader::Instructions;
    ///
    /// // One run of locals, 1 of i64 (7E); end.
    /// let (runs, mut instructions) =
    ///     Instructions::of_standard_body(&[1, 1, 0x7E, 0x0B], Global)?;
    /// assert_eq!((&runs[..], instructions.offset()), (&[(1, ValType::I64)][..], 3));
    /// assert_eq!(instructions.next()?.map(|it| it.op), Some(Op::Byte(0x0B)));
    /// # Ok::<(), dolzhytik::reader::DecodeError>(())
    /// ```
    ///
    /// # Proved
    ///
    /// After `Ok`: `found`, the bytes begin with an encoding of the locals, and the instructions follow it; `same`, the visitor is over these bytes; `within`, the offset is in the bytes, or at their end. After an error: `none`, the bytes as a whole are no such encoding, unless the cause is `Memory`.
    ///
    /// ```text
    /// ensures found { IfOk result
    ///     (λ x. Decodes (vec (pair u32 val_type)) standard bytes.now x.0.items (ahead x.1)) }
    /// ensures same { IfOk result (λ x. x.1.bytes ≡ bytes.now) }
    /// ensures within { IfOk result (λ x. x.1.offset ≤ length bytes.now) }
    /// ensures none { IfErr result
    ///     (λ e. e.cause ≢ Memory → RejectsWhole body standard bytes.now) }
    /// ```
    ///
    /// Definitions: [`Decodes`](crate::definitions::base::decoding::Decodes), [`vec`](crate::definitions::base::formats::vec), [`pair`](crate::definitions::base::formats::pair), [`u32`](crate::definitions::base::formats::u32), [`val_type`](crate::definitions::base::types::val_type), [`standard`](crate::definitions::base::numbers::Mode), [`ahead`](crate::definitions::code::walks::ahead), [`RejectsWhole`](crate::definitions::base::continuing::RejectsWhole), [`body`](crate::definitions::code::bodies::body). [How to read clauses](crate::definitions).
    pub fn of_standard_body(
        bytes: &'a [u8],
        alloc: A,
    ) -> Result<(Vec<(u32, ValType), A>, Self), DecodeError> {
        Instructions::begin_body(bytes, alloc)
    }
}

impl<'a, A: Allocator + Copy, G: Grammar> Instructions<'a, A, G> {
    /// Returns a visitor that begins at the first byte.
    fn begin(bytes: &'a [u8], alloc: A) -> Self {
        Instructions {
            bytes,
            offset: 0,
            alloc,
            grammar: PhantomData,
        }
    }

    /// Decodes the runs of a body's locals, and returns them with a visitor of its instructions.
    fn begin_body(bytes: &'a [u8], alloc: A) -> Result<(Vec<(u32, ValType), A>, Self), DecodeError> {
        let (runs, rest) = <Vec<(u32, ValType), A> as Readable<'a, A, G>>::read(bytes, alloc)?;
        let instructions = Instructions {
            bytes,
            offset: bytes.len() - rest.len(),
            alloc,
            grammar: PhantomData,
        };
        Ok((runs, instructions))
    }

    /// Visits the instruction at the offset of the visitor, and advances the offset past it.
    #[inline(always)]
    fn step(&mut self) -> Result<Decoded<'a>, DecodeError> {
        let offset = self.offset;
        let (op, operands, rest) = read_instruction::<A, G>(&self.bytes[offset..], self.alloc)?;
        self.offset = self.bytes.len() - rest.len();
        Ok(Decoded {
            offset,
            op,
            operands,
        })
    }

    /// Visits the next instruction, or returns `None` at the end of the bytes. After an error the
    /// offset is unchanged.
    ///
    /// # Errors
    ///
    /// Every error except `Memory` means that no instruction begins at the offset.
    ///
    /// # Proved
    ///
    /// The result of `next`: `None` at the end of the bytes, an instruction, or an error.
    ///
    /// ```text
    /// ensures { NextInstruction (padded_of G.grammar) self.old result self.new }
    /// ```
    ///
    /// Definitions: [`NextInstruction`](crate::definitions::code::walks::NextInstruction), [`padded_of`](crate::definitions::base::numbers::padded_of). [How to read clauses](crate::definitions).
    #[inline(always)]
    pub fn next(&mut self) -> Result<Option<Decoded<'a>>, DecodeError> {
        if self.offset == self.bytes.len() {
            return Ok(None);
        }
        let decoded = self.step()?;
        Ok(Some(decoded))
    }

    /// Visits the next instruction of an expression, or returns `None` at its final `End`, which
    /// the visitor does not pass. After an error the offset is unchanged.
    ///
    /// # Errors
    ///
    /// Every error except `Memory` means that no instructions up to a final `end` begin at the
    /// offset.
    ///
    /// # Examples
    ///
    /// ```
    /// use dolzhytik::fallible::Global;
    /// use dolzhytik::reader::Instructions;
    ///
    /// // i32.const 7, end; then another byte.
    /// let mut instructions = Instructions::new(&[0x41, 7, 0x0B, 0xFF], Global);
    /// assert!(instructions.next_before_end()?.is_some());
    /// assert!(instructions.next_before_end()?.is_none());
    /// assert_eq!(instructions.rest(), [0x0B, 0xFF]);
    /// # Ok::<(), dolzhytik::reader::DecodeError>(())
    /// ```
    ///
    /// # Proved
    ///
    /// The result of `next_before_end`: `None` at the final `end` of an expression, an instruction other than `end`, or an error.
    ///
    /// ```text
    /// ensures { NextBeforeEnd (padded_of G.grammar) self.old result self.new }
    /// ```
    ///
    /// Definitions: [`NextBeforeEnd`](crate::definitions::code::walks::NextBeforeEnd), [`padded_of`](crate::definitions::base::numbers::padded_of). [How to read clauses](crate::definitions).
    #[inline(always)]
    pub fn next_before_end(&mut self) -> Result<Option<Decoded<'a>>, DecodeError> {
        let [first, ..] = &self.bytes[self.offset..] else {
            return Err(ReadFault::Ended.at(b""));
        };
        if *first == END {
            return Ok(None);
        }
        let decoded = self.step()?;
        Ok(Some(decoded))
    }

    /// Returns the offset of the next instruction, in bytes.
    ///
    /// # Proved
    ///
    /// ```text
    /// ensures { result ≡ self.now.offset }
    /// ```
    ///
    /// [How to read clauses](crate::definitions).
    #[doc(alias = "byte offset")]
    #[doc(alias = "instruction offset")]
    #[doc(alias = "position")]
    pub fn offset(&self) -> usize {
        self.offset
    }

    /// Returns the bytes from the next instruction on.
    ///
    /// # Proved
    ///
    /// ```text
    /// ensures { result.now ≡ ahead self.now }
    /// ```
    ///
    /// Definitions: [`ahead`](crate::definitions::code::walks::ahead). [How to read clauses](crate::definitions).
    pub fn rest(&self) -> &'a [u8] {
        &self.bytes[self.offset..]
    }
}
