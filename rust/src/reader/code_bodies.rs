// Written by tools/to-rust from crates/wasm_reader/src/code_bodies.rt: change that.
// Iterates over the bodies of a code section, without decoding them.

use crate::vec::Vec;
use crate::reader::read_error::ReadError;
use crate::reader::sections::Section;
use crate::alloc::{Allocator, Global};
use core::iter::FusedIterator;
use crate::base::{DecodeError, Padded, ReadFault, Readable, Standard, ValType};
use crate::code::Instructions;

/// The bodies of a code section, one after another. It allocates nothing, and does not compare
/// their number with that of the functions.
///
/// # Errors
///
/// Every error except `Memory` means that no size-prefixed body is next, or that bytes remain after
/// the last one. It is the last item.
///
/// # Examples
///
/// ```
/// use dolzhytik::fallible::{Global, Op};
/// use dolzhytik::reader::Sections;
///
/// // A code section: id 10, size 6, one body, of size 4: no locals, i32.const 7, end.
/// let module = b"\0asm\x01\0\0\0\x0A\x06\x01\x04\0\x41\x07\x0B";
/// let mut found = vec![];
/// for body in Sections::new(Global, module)?.next().unwrap()?.bodies()? {
///     let body = body?;
///     let (_, mut instructions) = body.instructions()?;
///     while let Some(decoded) =
///         instructions.next().map_err(|error| body.locate(error))?
///     {
///         found.push((body.offset() + decoded.offset, decoded.op));
///     }
/// }
/// // Offsets in the module.
/// assert_eq!(found, [(13, Op::Byte(0x41)), (15, Op::Byte(0x0B))]);
/// # Ok::<(), dolzhytik::reader::ReadError>(())
/// ```
#[derive(Clone, Debug)]
pub struct Bodies<'a, A: Allocator = Global> {
    alloc: A,
    left: u32,
    rest: &'a [u8],
    /// The offset of the end of `rest` in the module.
    end: usize,
}

impl<'a, A: Allocator + Copy> Section<'a, A> {
    /// Decodes the number of bodies of a code section, and returns an iterator over them.
    ///
    /// # Errors
    ///
    /// An error means that this is no code section, or that its payload does not begin
    /// with a number.
    ///
    /// # Examples
    ///
    /// ```
    /// use dolzhytik::fallible::Global;
    /// use dolzhytik::reader::Sections;
    ///
    /// // A code section: id 10, size 4, one body, of size 2: no locals, end.
    /// let module = b"\0asm\x01\0\0\0\x0A\x04\x01\x02\0\x0B";
    /// let section = Sections::new(Global, module)?.next().unwrap()?;
    /// let mut bodies = section.bodies()?;
    /// assert_eq!(bodies.next().unwrap()?.bytes(), [0x00, 0x0B]);
    /// assert!(bodies.next().is_none());
    /// # Ok::<(), dolzhytik::reader::ReadError>(())
    /// ```
    ///
    /// # Proved
    ///
    /// After `Ok`: `id`, this is a code section; `found`, the payload begins with the number of bodies, and the bytes of the iterator follow it; `end`, the iterator ends with the section. After an error: `none`, this is no code section, or its payload does not begin with a number, unless the cause is `Memory`; `from`, the offset of the error is not before this one; `within`, the offset of the error is not after the section.
    ///
    /// ```text
    /// ensures id { IfOk result (λ _. self.now.section.id ≡ 10) }
    /// ensures found { IfOk result
    ///     (λ it. Decodes u32 padded self.now.section.payload it.left it.rest) }
    /// ensures end { IfOk result (λ it. it.end ≡ end_of self.now) }
    /// ensures none { IfErr result
    ///     (λ e. e.cause ≢ Memory → (self.now.section.id ≢ 10)
    ///         ⊎ Rejects u32 padded self.now.section.payload) }
    /// ensures no_memory { IfErr result (λ e. e.cause ≢ Memory) }
    /// ensures from { IfErr result (λ e. self.now.offset ≤ e.offset) }
    /// ensures within { IfErr result (λ e. e.offset ≤ end_of self.now) }
    /// ```
    ///
    /// Definitions: [`Decodes`](crate::definitions::base::decoding::Decodes), [`u32`](crate::definitions::base::formats::u32), [`padded`](crate::definitions::base::numbers::Mode), [`end_of`](crate::definitions::reader::iterating::end_of), [`Rejects`](crate::definitions::base::decoding::Rejects). [How to read clauses](crate::definitions).
    #[doc(alias = "disassemble")]
    pub fn bodies(&self) -> Result<Bodies<'a, A>, ReadError> {
        if self.id() != 10 {
            return Err(ReadError {
                cause: ReadFault::UnknownTag,
                offset: self.offset(),
            });
        }
        let payload = self.payload();
        let end = self.range().end;
        let alloc = self.allocator();
        match <u32 as Readable<'a, A, Padded>>::read(payload, alloc) {
            Ok((left, rest)) => Ok(Bodies {
                alloc,
                left,
                rest,
                end,
            }),
            Err(error) => Err(ReadError::located(error, payload.len(), end)),
        }
    }
}

impl<'a, A: Allocator + Copy> Bodies<'a, A> {
    /// Returns the number of bodies that are left, as the section states it.
    ///
    /// # Proved
    ///
    /// ```text
    /// ensures { result ≡ self.now.left }
    /// ```
    ///
    /// [How to read clauses](crate::definitions).
    pub fn left(&self) -> u32 {
        self.left
    }

    /// Ends the iteration with this error.
    fn fail(&mut self, error: ReadError) -> Option<Result<CodeBody<'a, A>, ReadError>> {
        self.left = 0;
        self.rest = b"";
        Some(Err(error))
    }
}

/// # Defined
///
/// ```text
/// next_gives = { NextBody }
/// remaining = { λ it. at_most (it.left + length it.rest) }
/// ```
///
/// Definitions: [`NextBody`](crate::definitions::reader::iterating::NextBody). [How to read clauses](crate::definitions).
impl<'a, A: Allocator + Copy> Iterator for Bodies<'a, A> {
    type Item = Result<CodeBody<'a, A>, ReadError>;

    fn next(&mut self) -> Option<Result<CodeBody<'a, A>, ReadError>> {
        let (size, end) = (self.rest.len(), self.end);
        if self.left == 0 {
            if size == 0 {
                return None;
            }
            let error = ReadFault::SizeMismatch.at(self.rest);
            return self.fail(ReadError::located(error, size, end));
        }
        match <&'a [u8] as Readable<'a, A, Padded>>::read(self.rest, self.alloc) {
            Ok((bytes, rest)) => {
                self.left -= 1;
                self.rest = rest;
                let offset = end - rest.len() - bytes.len();
                Some(Ok(CodeBody {
                    alloc: self.alloc,
                    offset,
                    bytes,
                }))
            }
            Err(error) => self.fail(ReadError::located(error, size, end)),
        }
    }
}

impl<'a, A: Allocator + Copy> FusedIterator for Bodies<'a, A> {}

/// A body of a code section, not yet decoded. Blocks are not matched: a body also decodes without
/// its final `End`, and with instructions after it.
///
/// [`Bodies`](crate::reader::Bodies) yields it.
///
/// # Examples
///
/// ```
/// use dolzhytik::fallible::{Global, ValType};
/// use dolzhytik::reader::Sections;
///
/// // A code section: id 10, size 6, one body, of size 4: one run of locals, 2 of i32
/// // (7F); end.
/// let module = b"\0asm\x01\0\0\0\x0A\x06\x01\x04\x01\x02\x7F\x0B";
/// let body =
///     Sections::new(Global, module)?.next().unwrap()?.bodies()?.next().unwrap()?;
/// assert_eq!(body.offset(), 12);
/// let (locals, instructions) = body.instructions()?;
/// assert_eq!(
///     (&locals[..], instructions.rest()),
///     (&[(2, ValType::I32)][..], &[0x0B][..])
/// );
/// # Ok::<(), dolzhytik::reader::ReadError>(())
/// ```
#[derive(Clone, Copy, Debug)]
pub struct CodeBody<'a, A: Allocator = Global> {
    alloc: A,
    offset: usize,
    bytes: &'a [u8],
}

impl<'a, A: Allocator + Copy> CodeBody<'a, A> {
    /// Returns the offset of its first byte, after its size prefix, in the module, in bytes.
    ///
    /// # Proved
    ///
    /// ```text
    /// ensures { result ≡ self.now.offset }
    /// ```
    ///
    /// [How to read clauses](crate::definitions).
    pub fn offset(&self) -> usize {
        self.offset
    }

    /// Returns its bytes: the locals and the instructions, without the size prefix.
    ///
    /// # Proved
    ///
    /// ```text
    /// ensures { result.now ≡ self.now.bytes }
    /// ```
    ///
    /// [How to read clauses](crate::definitions).
    pub fn bytes(&self) -> &'a [u8] {
        self.bytes
    }

    /// Decodes the runs of its locals, and returns them with a visitor of its instructions. The
    /// visitor counts offsets from the first byte of the body. It accepts all encodings that the
    /// standard admits. [`locate`](CodeBody::locate) gives its errors their offsets in the module.
    ///
    /// # Errors
    ///
    /// Every error except `Memory` means that the bytes are no body.
    ///
    /// # Proved
    ///
    /// After `Ok`: `found`, the bytes begin with an encoding of the locals, and the instructions follow it; `same`, the visitor is over the bytes of the body; `inside`, the offset is in the body, or at its end. After an error: `none`, the bytes as a whole are no such encoding, unless the cause is `Memory`; `from`, the offset of the error is not before this one; `within`, the offset of the error is not after the body.
    ///
    /// ```text
    /// ensures found { IfOk result
    ///     (λ x. Decodes (vec (pair u32 val_type)) standard self.now.bytes x.0.items
    ///         (ahead_in x.1)) }
    /// ensures same { IfOk result (λ x. x.1.bytes ≡ self.now.bytes) }
    /// ensures inside { IfOk result (λ x. x.1.offset ≤ length self.now.bytes) }
    /// ensures none { IfErr result
    ///     (λ e. e.cause ≢ Memory → RejectsWhole body standard self.now.bytes) }
    /// ensures from { IfErr result (λ e. self.now.offset ≤ e.offset) }
    /// ensures within { IfErr result
    ///     (λ e. e.offset ≤ self.now.offset + length self.now.bytes) }
    /// ```
    ///
    /// Definitions: [`Decodes`](crate::definitions::base::decoding::Decodes), [`vec`](crate::definitions::base::formats::vec), [`pair`](crate::definitions::base::formats::pair), [`u32`](crate::definitions::base::formats::u32), [`val_type`](crate::definitions::base::types::val_type), [`standard`](crate::definitions::base::numbers::Mode), [`ahead_in`](crate::definitions::code::walks::ahead), [`RejectsWhole`](crate::definitions::base::continuing::RejectsWhole), [`body`](crate::definitions::code::bodies::body). [How to read clauses](crate::definitions).
    #[doc(alias = "disassemble")]
    #[doc(alias = "opcode")]
    #[doc(alias = "operators")]
    pub fn instructions(
        &self,
    ) -> Result<(Vec<(u32, ValType), A>, Instructions<'a, A, Standard>), ReadError> {
        match Instructions::<A, Standard>::of_standard_body(self.bytes, self.alloc) {
            Ok(read) => Ok(read),
            Err(error) => Err(self.locate(error)),
        }
    }

    /// Returns an error of the visitor of its instructions with the offset in the module: that of
    /// the end of the body, less the bytes left of the error.
    ///
    /// # Examples
    ///
    /// ```
    /// use dolzhytik::fallible::Global;
    /// use dolzhytik::reader::{ReadFault, Sections};
    ///
    /// // A code section: id 10, size 4, one body, of size 2: no locals, and FF, no opcode.
    /// let module = b"\0asm\x01\0\0\0\x0A\x04\x01\x02\0\xFF";
    /// let section = Sections::new(Global, module)?.next().unwrap()?;
    /// let body = section.bodies()?.next().unwrap()?;
    /// let (_, mut instructions) = body.instructions()?;
    /// let error = instructions.next().map_err(|error| body.locate(error)).unwrap_err();
    /// assert_eq!((error.cause, error.offset), (ReadFault::UnknownOpcode, 13));
    /// # Ok::<(), dolzhytik::reader::ReadError>(())
    /// ```
    ///
    /// # Proved
    ///
    /// In any case: `cause`, the result has the cause of the error; `offset`, the offset is that of the end of the body, less the bytes left of the error; `from`, the offset is not before the body; `within`, the offset is not after the body.
    ///
    /// ```text
    /// ensures cause { result.cause ≡ error.cause }
    /// ensures offset { result.offset + min (length self.now.bytes) error.left
    ///     ≡ self.now.offset + length self.now.bytes }
    /// ensures from { self.now.offset ≤ result.offset }
    /// ensures within { result.offset ≤ self.now.offset + length self.now.bytes }
    /// ```
    ///
    /// [How to read clauses](crate::definitions).
    pub fn locate(&self, error: DecodeError) -> ReadError {
        let size = self.bytes.len();
        ReadError::located(error, size, self.offset + size)
    }
}
