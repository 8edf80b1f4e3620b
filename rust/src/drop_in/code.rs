//! Functions, the code section, and the named calls for instructions.
use super::bytes::{append, append_once};
use super::short::{EMPTY_BLOCK, Short, put_short};
use super::{NONE, done};
use crate::base::{self, Result, vec_of};
use crate::ending::{Growing, Root, grow};
use crate::immediates::BlockType;
use crate::{code, insn};
use alloc_crate::vec::Vec;

#[doc = text!(InstructionSink)]
#[derive(Debug)]
pub struct InstructionSink<'a> {
    sink: &'a mut Vec<u8>,
}

impl<'a> InstructionSink<'a> {
    /// Returns a sink that appends to these bytes.
    #[inline]
    pub fn new(sink: &'a mut Vec<u8>) -> Self {
        InstructionSink { sink }
    }

    /// Appends an opcode, and its immediates by their proved `encode`.
    #[inline(never)]
    pub(super) fn put<const N: usize, P: Short>(&mut self, op: [u8; N], parts: P) -> &mut Self {
        self.put_here(op, parts)
    }

    /// As [`put`](InstructionSink::put), in the function that calls it, if the immediates are
    /// short.
    #[inline(always)]
    pub(super) fn put_here<const N: usize, P: Short>(
        &mut self,
        op: [u8; N],
        parts: P,
    ) -> &mut Self {
        if put_short(self.sink, op, parts) {
            return self;
        }
        self.put_long(op, parts)
    }

    /// Appends an opcode and its immediates, which are not short, to spare capacity. It is a
    /// function of its own, so that [`put`](InstructionSink::put) needs no stack frame. It and
    /// [`put_grown`](InstructionSink::put_grown) call each other: else the compiler sees that both
    /// return `self`, and calls them where it could jump.
    #[inline(never)]
    fn put_long<const N: usize, P: Short>(&mut self, op: [u8; N], parts: P) -> &mut Self {
        if parts.is_short() || self.sink.capacity() - self.sink.len() < N + P::MOST {
            return self.put_grown(op, parts);
        }
        append(&op, self.sink);
        append(&parts.long(), self.sink);
        self
    }

    /// Appends an opcode and its immediates after the list has grown.
    #[cold]
    #[inline(never)]
    fn put_grown<const N: usize, P: Short>(&mut self, op: [u8; N], parts: P) -> &mut Self {
        grow(
            self.sink,
            N + if parts.is_short() { P::SIZE } else { P::MOST },
        );
        self.put(op, parts)
    }

    /// Appends the opcode of a block and the block's type, by the proved `encode` of what the type
    /// holds.
    pub(super) fn block_type(&mut self, op: u8, block_type: BlockType) -> &mut Self {
        match block_type {
            BlockType::Empty => self.put([op, EMPTY_BLOCK], []),
            BlockType::Result(ty) => self.put([op], ty),
            BlockType::FunctionType(index) => self.put([op], i64::from(index)),
        }
    }

    /// Appends an instruction by the proved `encode` of its value.
    #[inline(never)]
    pub(super) fn value(&mut self, instruction: &insn::Instruction<'_>) -> &mut Self {
        append(instruction, self.sink);
        self
    }

    /// Appends by a proved call, which takes a list.
    pub(super) fn made(
        &mut self,
        call: impl FnOnce(&mut insn::InstructionSink<'_, Growing<'_>>) -> Result<()>,
    ) -> &mut Self {
        let mut sink = Growing(self.sink);
        done(call(&mut insn::InstructionSink::new(&mut sink)));
        self
    }

    /// Appends an opcode and its immediates, of which the last is a list.
    pub(super) fn listed<T, V>(&mut self, parts: T, list: V) -> &mut Self
    where
        T: base::Encode,
        V: IntoIterator<Item: base::Encode, IntoIter: ExactSizeIterator>,
    {
        append_once((parts, done(vec_of(list))), self.sink);
        self
    }
}

#[doc = text!(Function)]
#[derive(PartialEq, Eq)]
pub struct Function(pub(super) code::Function<Root>);

implement!(Function Clone);
implement!(Function Encode);
implement!(Function From code |built| code::Function { bytes: built.bytes.into_ending() });

builders! {
    code, (const fn) = code::CodeSectionIn { entries: NONE };
    CodeSection { Clone } { Default } { Section Code } { Debug bytes num_added }
}
