// Written by tools/to-rust from crates/wasm_insn/src/sink.rt: change that.
// The instruction sink: a method for each common instruction, which appends it to a buffer.

use crate::vec::Sink;
use crate::insn::op::Op;
use crate::insn::vector_immediate::vector_bytes;
use core::slice;
use crate::base::{Encode, HeapType, Refused, Result, ValType, encode_vec};
use crate::immediates::{BlockType, Ieee32, Ieee64, MemArg};

/// A buffer to which instructions are appended.
///
/// [`Function`](crate::fallible::Function) and every [`Sink`](crate::fallible::Sink) are
/// buffers. [`InstructionSink::new`](crate::fallible::InstructionSink::new) takes one.
///
/// # Examples
///
/// ```
/// use dolzhytik::fallible::{Buffer, Function, Global};
///
/// let mut body = Function::new(Global, [])?;
/// body.append(&0x0B_u8)?; // end
/// assert_eq!(body.into_raw_body()[..], [0, 0x0B]);
/// # Ok::<(), dolzhytik::fallible::Refused>(())
/// ```
///
/// # Defined
///
/// ```text
/// // `written`: the bytes in the buffer.
/// written: { Self → List ℕ }
/// // `has_spare_capacity`: the buffer has spare capacity for this many bytes. A buffer may
/// // leave this unspecified.
/// has_spare_capacity: { Self → ℕ → Type 0 } = { λ _ _. ⊥ }
/// ```
///
/// [How to read clauses](crate::definitions).
pub trait Buffer {
    /// Appends the encoding of the value.
    ///
    /// # Errors
    ///
    /// Returns [`Refused`], and leaves the bytes unchanged, if the value does not fit or an
    /// allocation fails.
    ///
    /// # Proved
    ///
    /// The sink gains the encoding, or the call returns an error and leaves the bytes as they were. If the value fits, the call never returns `TooLong`, and it succeeds within the spare capacity.
    ///
    /// ```text
    /// ensures { Writes (E.encoding value.now) (E.encodable value.now)
    ///     (has_spare_capacity self.old (length (E.encoding value.now))) (written self.old)
    ///     (written self.new) result }
    /// ```
    ///
    /// Definitions: [`Writes`](crate::definitions::insn::sink::Writes). [How to read clauses](crate::definitions).
    fn append<E: Encode>(&mut self, value: &E) -> Result<()>;

    /// Appends a value, the elements as a vector, and another value.
    ///
    /// # Errors
    ///
    /// Returns [`Refused`], and leaves the bytes unchanged, if a value does not fit or an
    /// allocation fails. If the length that the elements report exceeds 4294967295, the call
    /// returns `TooLong`; a `Vec` then requests no element, as tests show.
    ///
    /// # Asks
    ///
    /// The iterator ends, and yields as many items as it reports. [What happens otherwise](crate::fallible#what-is-asked).
    ///
    /// ```text
    /// requires { HasKnownLength V.into_iter_gives V.IntoIter.can_next V.IntoIter.next_gives
    ///     V.IntoIter.remaining elements }
    /// ```
    ///
    /// Definitions: [`HasKnownLength`](crate::definitions::base::iterators::HasKnownLength). [How to read clauses](crate::definitions).
    ///
    /// # Proved
    ///
    /// The sink gains `before`, the vector of the items that the iterator yields, and `after`; or the call returns an error and changes nothing. If the iterator reports more than 2^32 - 1 items, the error is `TooLong`.
    ///
    /// ```text
    /// ensures { WritesVec V.into_iter_gives V.IntoIter.next_gives V.IntoIter.remaining
    ///     T.encodable T.encoding elements (S.encodable before.now × U.encodable after.now)
    ///     (S.encoding before.now) (U.encoding after.now) (written self.old)
    ///     (written self.new) result }
    /// ```
    ///
    /// Definitions: [`WritesVec`](crate::definitions::insn::sink::WritesVec). [How to read clauses](crate::definitions).
    fn append_vec<S: Encode, T: Encode, V: IntoIterator<Item = T>, U: Encode>(
        &mut self,
        before: &S,
        elements: V,
        after: &U,
    ) -> Result<()>
    where
        V::IntoIter: ExactSizeIterator,;
}

/// Appends to the vector itself.
///
/// # Defined
///
/// ```text
/// written = { λ bytes. bytes.items }
/// has_spare_capacity = { λ bytes n. vec_len bytes + n ≤ vec_capacity bytes }
/// ```
///
/// [How to read clauses](crate::definitions).
impl<A: Sink> Buffer for A {
    fn append<E: Encode>(&mut self, value: &E) -> Result<()> {
        value.encode(self)
    }

    fn append_vec<S: Encode, T: Encode, V: IntoIterator<Item = T>, U: Encode>(
        &mut self,
        before: &S,
        elements: V,
        after: &U,
    ) -> Result<()>
    where
        V::IntoIter: ExactSizeIterator,
    {
        let elements = elements.into_iter();
        if u32::try_from(elements.len()).is_err() {
            return Err(Refused::TooLong);
        }
        let start = self.len();
        before.encode(self)?;
        if let Err(refused) = encode_vec(elements, self) {
            self.truncate(start);
            return Err(refused);
        }
        if let Err(refused) = after.encode(self) {
            self.truncate(start);
            return Err(refused);
        }
        Ok(())
    }
}

/// Appends instructions to a buffer that it borrows.
///
/// [`Function::instructions`](crate::fallible::Function::instructions) returns one.
/// [`InstructionSink`](crate::InstructionSink) of the root has a call for each instruction.
///
/// # Errors
///
/// A call that fails leaves the buffer's bytes unchanged. The error is `TooLong` only if a list is
/// too long.
///
/// # Examples
///
/// ```
/// use dolzhytik::fallible::InstructionSink;
///
/// let mut bytes = Vec::new();
/// let mut sink = InstructionSink::new(&mut bytes);
/// sink.local_get(0)?;
/// sink.i32_const(64)?;
/// sink.i32_add()?;
/// sink.end()?;
/// // local.get 0: 20 00. i32.const 64: 41, and 64 as signed LEB128, C0 00. i32.add:
/// // 6A. end: 0B.
/// assert_eq!(bytes, [0x20, 0x00, 0x41, 0xC0, 0x00, 0x6A, 0x0B]);
/// # Ok::<(), dolzhytik::fallible::Refused>(())
/// ```
pub struct InstructionSink<'a, B: Buffer> {
    sink: &'a mut B,
}

impl<'a, B: Buffer> InstructionSink<'a, B> {
    /// Returns a sink that appends to `sink`.
    ///
    /// # Proved
    ///
    /// ```text
    /// ensures same_reference { result.sink.ghost_name ≡ sink.entry.ghost_name }
    /// ensures same { result.sink.now ≡ sink.old }
    /// ```
    ///
    /// [How to read clauses](crate::definitions).
    pub fn new(sink: &'a mut B) -> Self {
        InstructionSink { sink }
    }

    /// Appends one encoded instruction. All appending methods except `br_table` call it.
    fn emit<E: Encode>(&mut self, value: &E) -> Result<()> {
        self.sink.append(value)
    }

    /// Appends an opcode.
    ///
    /// # Errors
    ///
    /// Returns [`Memory`](crate::fallible::Refused::Memory) if an allocation fails. The bytes of
    /// the sink are then unchanged.
    ///
    /// # Examples
    ///
    /// ```
    /// use dolzhytik::fallible::{InstructionSink, Op};
    ///
    /// let mut bytes = Vec::new();
    /// let mut sink = InstructionSink::new(&mut bytes);
    /// sink.op(Op::Byte(0x6C))?; // i32.mul
    /// assert_eq!(bytes, [0x6C]);
    /// # Ok::<(), dolzhytik::fallible::Refused>(())
    /// ```
    ///
    /// # Proved
    ///
    /// - `same_reference`: the sink writes to the buffer that it wrote to.
    /// - `writes`: The sink gains the encoding, or the call returns an error and leaves the bytes as they were. If the value fits, the call never returns `TooLong`, and it succeeds within the spare capacity.
    ///
    /// ```text
    /// ensures same_reference { self.new.sink.ghost_name ≡ self.old.sink.ghost_name }
    /// ensures writes { Writes (op_encoding op) ⊤
    ///     (B.has_spare_capacity self.old.sink.now (length (op_encoding op)))
    ///     (B.written self.old.sink.now) (B.written self.new.sink.now) result }
    /// ```
    ///
    /// Definitions: [`Writes`](crate::definitions::insn::sink::Writes), [`op_encoding`](crate::definitions::insn::opcodes::op_encoding). [How to read clauses](crate::definitions).
    pub fn op(&mut self, op: Op) -> Result<()> {
        self.emit(&op)
    }

    /// Appends the encoding of `Unreachable`.
    ///
    /// # Errors
    ///
    /// Returns [`Memory`](crate::fallible::Refused::Memory) if an allocation fails. The bytes of
    /// the sink are then unchanged.
    ///
    /// # Proved
    ///
    /// - `same_reference`: the sink writes to the buffer that it wrote to.
    /// - `writes`: The sink gains the encoding of the instruction, or the call returns an error and leaves the bytes as they were.
    ///
    /// ```text
    /// ensures same_reference { self.new.sink.ghost_name ≡ self.old.sink.ghost_name }
    /// ensures writes { WritesInstruction B.written B.has_spare_capacity
    ///     Instruction.Unreachable self.old.sink.now self.new.sink.now result }
    /// ```
    ///
    /// Definitions: [`WritesInstruction`](crate::definitions::insn::sink::WritesInstruction). [How to read clauses](crate::definitions).
    pub fn unreachable(&mut self) -> Result<()> {
        self.emit(&0x00u8)
    }

    /// Appends the encoding of `Nop`.
    ///
    /// # Errors
    ///
    /// Returns [`Memory`](crate::fallible::Refused::Memory) if an allocation fails. The bytes of
    /// the sink are then unchanged.
    ///
    /// # Proved
    ///
    /// - `same_reference`: the sink writes to the buffer that it wrote to.
    /// - `writes`: The sink gains the encoding of the instruction, or the call returns an error and leaves the bytes as they were.
    ///
    /// ```text
    /// ensures same_reference { self.new.sink.ghost_name ≡ self.old.sink.ghost_name }
    /// ensures writes { WritesInstruction B.written B.has_spare_capacity Instruction.Nop
    ///     self.old.sink.now self.new.sink.now result }
    /// ```
    ///
    /// Definitions: [`WritesInstruction`](crate::definitions::insn::sink::WritesInstruction). [How to read clauses](crate::definitions).
    pub fn nop(&mut self) -> Result<()> {
        self.emit(&0x01u8)
    }

    /// Appends the encoding of `Block`.
    ///
    /// # Errors
    ///
    /// Returns [`Memory`](crate::fallible::Refused::Memory) if an allocation fails. The bytes of
    /// the sink are then unchanged.
    ///
    /// # Proved
    ///
    /// - `same_reference`: the sink writes to the buffer that it wrote to.
    /// - `writes`: The sink gains the encoding of the instruction, or the call returns an error and leaves the bytes as they were.
    ///
    /// ```text
    /// ensures same_reference { self.new.sink.ghost_name ≡ self.old.sink.ghost_name }
    /// ensures writes { WritesInstruction B.written B.has_spare_capacity
    ///     (Instruction.Block block_type) self.old.sink.now self.new.sink.now result }
    /// ```
    ///
    /// Definitions: [`WritesInstruction`](crate::definitions::insn::sink::WritesInstruction). [How to read clauses](crate::definitions).
    pub fn block(&mut self, block_type: BlockType) -> Result<()> {
        self.emit(&(0x02u8, block_type))
    }

    /// Appends the encoding of `Loop`.
    ///
    /// # Errors
    ///
    /// Returns [`Memory`](crate::fallible::Refused::Memory) if an allocation fails. The bytes of
    /// the sink are then unchanged.
    ///
    /// # Proved
    ///
    /// - `same_reference`: the sink writes to the buffer that it wrote to.
    /// - `writes`: The sink gains the encoding of the instruction, or the call returns an error and leaves the bytes as they were.
    ///
    /// ```text
    /// ensures same_reference { self.new.sink.ghost_name ≡ self.old.sink.ghost_name }
    /// ensures writes { WritesInstruction B.written B.has_spare_capacity
    ///     (Instruction.Loop block_type) self.old.sink.now self.new.sink.now result }
    /// ```
    ///
    /// Definitions: [`WritesInstruction`](crate::definitions::insn::sink::WritesInstruction). [How to read clauses](crate::definitions).
    pub fn loop_(&mut self, block_type: BlockType) -> Result<()> {
        self.emit(&(0x03u8, block_type))
    }

    /// Appends the encoding of `If`.
    ///
    /// # Errors
    ///
    /// Returns [`Memory`](crate::fallible::Refused::Memory) if an allocation fails. The bytes of
    /// the sink are then unchanged.
    ///
    /// # Proved
    ///
    /// - `same_reference`: the sink writes to the buffer that it wrote to.
    /// - `writes`: The sink gains the encoding of the instruction, or the call returns an error and leaves the bytes as they were.
    ///
    /// ```text
    /// ensures same_reference { self.new.sink.ghost_name ≡ self.old.sink.ghost_name }
    /// ensures writes { WritesInstruction B.written B.has_spare_capacity
    ///     (Instruction.If block_type) self.old.sink.now self.new.sink.now result }
    /// ```
    ///
    /// Definitions: [`WritesInstruction`](crate::definitions::insn::sink::WritesInstruction). [How to read clauses](crate::definitions).
    pub fn if_(&mut self, block_type: BlockType) -> Result<()> {
        self.emit(&(0x04u8, block_type))
    }

    /// Appends the encoding of `Else`.
    ///
    /// # Errors
    ///
    /// Returns [`Memory`](crate::fallible::Refused::Memory) if an allocation fails. The bytes of
    /// the sink are then unchanged.
    ///
    /// # Proved
    ///
    /// - `same_reference`: the sink writes to the buffer that it wrote to.
    /// - `writes`: The sink gains the encoding of the instruction, or the call returns an error and leaves the bytes as they were.
    ///
    /// ```text
    /// ensures same_reference { self.new.sink.ghost_name ≡ self.old.sink.ghost_name }
    /// ensures writes { WritesInstruction B.written B.has_spare_capacity Instruction.Else
    ///     self.old.sink.now self.new.sink.now result }
    /// ```
    ///
    /// Definitions: [`WritesInstruction`](crate::definitions::insn::sink::WritesInstruction). [How to read clauses](crate::definitions).
    pub fn else_(&mut self) -> Result<()> {
        self.emit(&0x05u8)
    }

    /// Appends the encoding of `End`.
    ///
    /// # Errors
    ///
    /// Returns [`Memory`](crate::fallible::Refused::Memory) if an allocation fails. The bytes of
    /// the sink are then unchanged.
    ///
    /// # Proved
    ///
    /// - `same_reference`: the sink writes to the buffer that it wrote to.
    /// - `writes`: The sink gains the encoding of the instruction, or the call returns an error and leaves the bytes as they were.
    ///
    /// ```text
    /// ensures same_reference { self.new.sink.ghost_name ≡ self.old.sink.ghost_name }
    /// ensures writes { WritesInstruction B.written B.has_spare_capacity Instruction.End
    ///     self.old.sink.now self.new.sink.now result }
    /// ```
    ///
    /// Definitions: [`WritesInstruction`](crate::definitions::insn::sink::WritesInstruction). [How to read clauses](crate::definitions).
    pub fn end(&mut self) -> Result<()> {
        self.emit(&0x0Bu8)
    }

    /// Appends the encoding of `Br`.
    ///
    /// # Errors
    ///
    /// Returns [`Memory`](crate::fallible::Refused::Memory) if an allocation fails. The bytes of
    /// the sink are then unchanged.
    ///
    /// # Proved
    ///
    /// - `same_reference`: the sink writes to the buffer that it wrote to.
    /// - `writes`: The sink gains the encoding of the instruction, or the call returns an error and leaves the bytes as they were.
    ///
    /// ```text
    /// ensures same_reference { self.new.sink.ghost_name ≡ self.old.sink.ghost_name }
    /// ensures writes { WritesInstruction B.written B.has_spare_capacity
    ///     (Instruction.Br label) self.old.sink.now self.new.sink.now result }
    /// ```
    ///
    /// Definitions: [`WritesInstruction`](crate::definitions::insn::sink::WritesInstruction). [How to read clauses](crate::definitions).
    pub fn br(&mut self, label: u32) -> Result<()> {
        self.emit(&(0x0Cu8, label))
    }

    /// Appends the encoding of `BrIf`.
    ///
    /// # Errors
    ///
    /// Returns [`Memory`](crate::fallible::Refused::Memory) if an allocation fails. The bytes of
    /// the sink are then unchanged.
    ///
    /// # Proved
    ///
    /// - `same_reference`: the sink writes to the buffer that it wrote to.
    /// - `writes`: The sink gains the encoding of the instruction, or the call returns an error and leaves the bytes as they were.
    ///
    /// ```text
    /// ensures same_reference { self.new.sink.ghost_name ≡ self.old.sink.ghost_name }
    /// ensures writes { WritesInstruction B.written B.has_spare_capacity
    ///     (Instruction.BrIf label) self.old.sink.now self.new.sink.now result }
    /// ```
    ///
    /// Definitions: [`WritesInstruction`](crate::definitions::insn::sink::WritesInstruction). [How to read clauses](crate::definitions).
    pub fn br_if(&mut self, label: u32) -> Result<()> {
        self.emit(&(0x0Du8, label))
    }

    /// Appends the encoding of `BrTable`, with these labels and this default label.
    ///
    /// # Errors
    ///
    /// Returns [`TooLong`](crate::fallible::Refused::TooLong) if a count or length would pass
    /// 4294967295, and [`Memory`](crate::fallible::Refused::Memory) if an allocation fails. The
    /// bytes of the sink are then unchanged.
    ///
    /// # Asks
    ///
    /// The iterator ends, and yields as many items as it reports. [What happens otherwise](crate::fallible#what-is-asked).
    ///
    /// ```text
    /// requires { HasKnownLength V.into_iter_gives V.IntoIter.can_next V.IntoIter.next_gives
    ///     V.IntoIter.remaining labels }
    /// ```
    ///
    /// Definitions: [`HasKnownLength`](crate::definitions::base::iterators::HasKnownLength). [How to read clauses](crate::definitions).
    ///
    /// # Proved
    ///
    /// - `same_reference`: the sink writes to the buffer that it wrote to.
    /// - `writes`: The sink gains `br_table` with the labels that the iterator yields, or the call returns an error and changes nothing. If the iterator reports more than 2^32 - 1 labels, the error is `TooLong`.
    ///
    /// ```text
    /// ensures same_reference { self.new.sink.ghost_name ≡ self.old.sink.ghost_name }
    /// ensures writes { WritesLabels V.into_iter_gives V.IntoIter.next_gives
    ///     V.IntoIter.remaining labels default (B.written self.old.sink.now)
    ///     (B.written self.new.sink.now) result }
    /// ```
    ///
    /// Definitions: [`WritesLabels`](crate::definitions::insn::sink::WritesLabels). [How to read clauses](crate::definitions).
    pub fn br_table<V: IntoIterator<Item = u32>>(&mut self, labels: V, default: u32) -> Result<()>
    where
        V::IntoIter: ExactSizeIterator,
    {
        self.sink.append_vec(&0x0Eu8, labels, &default)
    }

    /// Appends the encoding of `Return`.
    ///
    /// # Errors
    ///
    /// Returns [`Memory`](crate::fallible::Refused::Memory) if an allocation fails. The bytes of
    /// the sink are then unchanged.
    ///
    /// # Proved
    ///
    /// - `same_reference`: the sink writes to the buffer that it wrote to.
    /// - `writes`: The sink gains the encoding of the instruction, or the call returns an error and leaves the bytes as they were.
    ///
    /// ```text
    /// ensures same_reference { self.new.sink.ghost_name ≡ self.old.sink.ghost_name }
    /// ensures writes { WritesInstruction B.written B.has_spare_capacity Instruction.Return
    ///     self.old.sink.now self.new.sink.now result }
    /// ```
    ///
    /// Definitions: [`WritesInstruction`](crate::definitions::insn::sink::WritesInstruction). [How to read clauses](crate::definitions).
    pub fn return_(&mut self) -> Result<()> {
        self.emit(&0x0Fu8)
    }

    /// Appends the encoding of `Call`.
    ///
    /// # Errors
    ///
    /// Returns [`Memory`](crate::fallible::Refused::Memory) if an allocation fails. The bytes of
    /// the sink are then unchanged.
    ///
    /// # Proved
    ///
    /// - `same_reference`: the sink writes to the buffer that it wrote to.
    /// - `writes`: The sink gains the encoding of the instruction, or the call returns an error and leaves the bytes as they were.
    ///
    /// ```text
    /// ensures same_reference { self.new.sink.ghost_name ≡ self.old.sink.ghost_name }
    /// ensures writes { WritesInstruction B.written B.has_spare_capacity
    ///     (Instruction.Call function_index) self.old.sink.now self.new.sink.now result }
    /// ```
    ///
    /// Definitions: [`WritesInstruction`](crate::definitions::insn::sink::WritesInstruction). [How to read clauses](crate::definitions).
    pub fn call(&mut self, function_index: u32) -> Result<()> {
        self.emit(&(0x10u8, function_index))
    }

    /// Appends the encoding of `CallIndirect`.
    ///
    /// # Errors
    ///
    /// Returns [`Memory`](crate::fallible::Refused::Memory) if an allocation fails. The bytes of
    /// the sink are then unchanged.
    ///
    /// # Proved
    ///
    /// - `same_reference`: the sink writes to the buffer that it wrote to.
    /// - `writes`: The sink gains the encoding of the instruction, or the call returns an error and leaves the bytes as they were.
    ///
    /// ```text
    /// ensures same_reference { self.new.sink.ghost_name ≡ self.old.sink.ghost_name }
    /// ensures writes { WritesInstruction B.written B.has_spare_capacity
    ///     (Instruction.CallIndirect type_index table_index) self.old.sink.now
    ///     self.new.sink.now result }
    /// ```
    ///
    /// Definitions: [`WritesInstruction`](crate::definitions::insn::sink::WritesInstruction). [How to read clauses](crate::definitions).
    pub fn call_indirect(&mut self, table_index: u32, type_index: u32) -> Result<()> {
        self.emit(&(0x11u8, type_index, table_index))
    }

    /// Appends the encoding of `Drop`.
    ///
    /// # Errors
    ///
    /// Returns [`Memory`](crate::fallible::Refused::Memory) if an allocation fails. The bytes of
    /// the sink are then unchanged.
    ///
    /// # Proved
    ///
    /// - `same_reference`: the sink writes to the buffer that it wrote to.
    /// - `writes`: The sink gains the encoding of the instruction, or the call returns an error and leaves the bytes as they were.
    ///
    /// ```text
    /// ensures same_reference { self.new.sink.ghost_name ≡ self.old.sink.ghost_name }
    /// ensures writes { WritesInstruction B.written B.has_spare_capacity Instruction.Drop
    ///     self.old.sink.now self.new.sink.now result }
    /// ```
    ///
    /// Definitions: [`WritesInstruction`](crate::definitions::insn::sink::WritesInstruction). [How to read clauses](crate::definitions).
    pub fn drop_(&mut self) -> Result<()> {
        self.emit(&0x1Au8)
    }

    /// Appends the encoding of `Select`.
    ///
    /// # Errors
    ///
    /// Returns [`Memory`](crate::fallible::Refused::Memory) if an allocation fails. The bytes of
    /// the sink are then unchanged.
    ///
    /// # Proved
    ///
    /// - `same_reference`: the sink writes to the buffer that it wrote to.
    /// - `writes`: The sink gains the encoding of the instruction, or the call returns an error and leaves the bytes as they were.
    ///
    /// ```text
    /// ensures same_reference { self.new.sink.ghost_name ≡ self.old.sink.ghost_name }
    /// ensures writes { WritesInstruction B.written B.has_spare_capacity Instruction.Select
    ///     self.old.sink.now self.new.sink.now result }
    /// ```
    ///
    /// Definitions: [`WritesInstruction`](crate::definitions::insn::sink::WritesInstruction). [How to read clauses](crate::definitions).
    pub fn select(&mut self) -> Result<()> {
        self.emit(&0x1Bu8)
    }

    /// Appends the encoding of `TypedSelect`.
    ///
    /// # Errors
    ///
    /// Returns [`Memory`](crate::fallible::Refused::Memory) if an allocation fails. The bytes of
    /// the sink are then unchanged.
    ///
    /// # Proved
    ///
    /// - `same_reference`: the sink writes to the buffer that it wrote to.
    /// - `writes`: The sink gains the encoding of the instruction, or the call returns an error and leaves the bytes as they were.
    ///
    /// ```text
    /// ensures same_reference { self.new.sink.ghost_name ≡ self.old.sink.ghost_name }
    /// ensures writes { WritesInstruction B.written B.has_spare_capacity
    ///     (Instruction.TypedSelect ty) self.old.sink.now self.new.sink.now result }
    /// ```
    ///
    /// Definitions: [`WritesInstruction`](crate::definitions::insn::sink::WritesInstruction). [How to read clauses](crate::definitions).
    pub fn typed_select(&mut self, ty: ValType) -> Result<()> {
        self.emit(&(0x1Cu8, slice::from_ref(&ty)))
    }

    /// Appends the encoding of `TypedSelectMulti`.
    ///
    /// # Errors
    ///
    /// Returns [`TooLong`](crate::fallible::Refused::TooLong) if a count or length would pass
    /// 4294967295, and [`Memory`](crate::fallible::Refused::Memory) if an allocation fails. The
    /// bytes of the sink are then unchanged.
    ///
    /// # Proved
    ///
    /// - `same_reference`: the sink writes to the buffer that it wrote to.
    /// - `writes`: The sink gains the encoding of the instruction, or the call returns an error and leaves the bytes as they were.
    ///
    /// ```text
    /// ensures same_reference { self.new.sink.ghost_name ≡ self.old.sink.ghost_name }
    /// ensures writes { WritesInstruction B.written B.has_spare_capacity
    ///     (Instruction.TypedSelectMulti (CowSlice.Borrowed types.entry)) self.old.sink.now
    ///     self.new.sink.now result }
    /// ```
    ///
    /// Definitions: [`WritesInstruction`](crate::definitions::insn::sink::WritesInstruction). [How to read clauses](crate::definitions).
    pub fn typed_select_multi(&mut self, types: &[ValType]) -> Result<()> {
        self.emit(&(0x1Cu8, types))
    }

    /// Appends the encoding of `LocalGet`.
    ///
    /// # Errors
    ///
    /// Returns [`Memory`](crate::fallible::Refused::Memory) if an allocation fails. The bytes of
    /// the sink are then unchanged.
    ///
    /// # Proved
    ///
    /// - `same_reference`: the sink writes to the buffer that it wrote to.
    /// - `writes`: The sink gains the encoding of the instruction, or the call returns an error and leaves the bytes as they were.
    ///
    /// ```text
    /// ensures same_reference { self.new.sink.ghost_name ≡ self.old.sink.ghost_name }
    /// ensures writes { WritesInstruction B.written B.has_spare_capacity
    ///     (Instruction.LocalGet index) self.old.sink.now self.new.sink.now result }
    /// ```
    ///
    /// Definitions: [`WritesInstruction`](crate::definitions::insn::sink::WritesInstruction). [How to read clauses](crate::definitions).
    pub fn local_get(&mut self, index: u32) -> Result<()> {
        self.emit(&(0x20u8, index))
    }

    /// Appends the encoding of `LocalSet`.
    ///
    /// # Errors
    ///
    /// Returns [`Memory`](crate::fallible::Refused::Memory) if an allocation fails. The bytes of
    /// the sink are then unchanged.
    ///
    /// # Proved
    ///
    /// - `same_reference`: the sink writes to the buffer that it wrote to.
    /// - `writes`: The sink gains the encoding of the instruction, or the call returns an error and leaves the bytes as they were.
    ///
    /// ```text
    /// ensures same_reference { self.new.sink.ghost_name ≡ self.old.sink.ghost_name }
    /// ensures writes { WritesInstruction B.written B.has_spare_capacity
    ///     (Instruction.LocalSet index) self.old.sink.now self.new.sink.now result }
    /// ```
    ///
    /// Definitions: [`WritesInstruction`](crate::definitions::insn::sink::WritesInstruction). [How to read clauses](crate::definitions).
    pub fn local_set(&mut self, index: u32) -> Result<()> {
        self.emit(&(0x21u8, index))
    }

    /// Appends the encoding of `LocalTee`.
    ///
    /// # Errors
    ///
    /// Returns [`Memory`](crate::fallible::Refused::Memory) if an allocation fails. The bytes of
    /// the sink are then unchanged.
    ///
    /// # Proved
    ///
    /// - `same_reference`: the sink writes to the buffer that it wrote to.
    /// - `writes`: The sink gains the encoding of the instruction, or the call returns an error and leaves the bytes as they were.
    ///
    /// ```text
    /// ensures same_reference { self.new.sink.ghost_name ≡ self.old.sink.ghost_name }
    /// ensures writes { WritesInstruction B.written B.has_spare_capacity
    ///     (Instruction.LocalTee index) self.old.sink.now self.new.sink.now result }
    /// ```
    ///
    /// Definitions: [`WritesInstruction`](crate::definitions::insn::sink::WritesInstruction). [How to read clauses](crate::definitions).
    pub fn local_tee(&mut self, index: u32) -> Result<()> {
        self.emit(&(0x22u8, index))
    }

    /// Appends the encoding of `GlobalGet`.
    ///
    /// # Errors
    ///
    /// Returns [`Memory`](crate::fallible::Refused::Memory) if an allocation fails. The bytes of
    /// the sink are then unchanged.
    ///
    /// # Proved
    ///
    /// - `same_reference`: the sink writes to the buffer that it wrote to.
    /// - `writes`: The sink gains the encoding of the instruction, or the call returns an error and leaves the bytes as they were.
    ///
    /// ```text
    /// ensures same_reference { self.new.sink.ghost_name ≡ self.old.sink.ghost_name }
    /// ensures writes { WritesInstruction B.written B.has_spare_capacity
    ///     (Instruction.GlobalGet index) self.old.sink.now self.new.sink.now result }
    /// ```
    ///
    /// Definitions: [`WritesInstruction`](crate::definitions::insn::sink::WritesInstruction). [How to read clauses](crate::definitions).
    pub fn global_get(&mut self, index: u32) -> Result<()> {
        self.emit(&(0x23u8, index))
    }

    /// Appends the encoding of `GlobalSet`.
    ///
    /// # Errors
    ///
    /// Returns [`Memory`](crate::fallible::Refused::Memory) if an allocation fails. The bytes of
    /// the sink are then unchanged.
    ///
    /// # Proved
    ///
    /// - `same_reference`: the sink writes to the buffer that it wrote to.
    /// - `writes`: The sink gains the encoding of the instruction, or the call returns an error and leaves the bytes as they were.
    ///
    /// ```text
    /// ensures same_reference { self.new.sink.ghost_name ≡ self.old.sink.ghost_name }
    /// ensures writes { WritesInstruction B.written B.has_spare_capacity
    ///     (Instruction.GlobalSet index) self.old.sink.now self.new.sink.now result }
    /// ```
    ///
    /// Definitions: [`WritesInstruction`](crate::definitions::insn::sink::WritesInstruction). [How to read clauses](crate::definitions).
    pub fn global_set(&mut self, index: u32) -> Result<()> {
        self.emit(&(0x24u8, index))
    }

    /// Appends the encoding of `I32Load`.
    ///
    /// # Errors
    ///
    /// Returns [`Memory`](crate::fallible::Refused::Memory) if an allocation fails. The bytes of
    /// the sink are then unchanged.
    ///
    /// # Proved
    ///
    /// - `same_reference`: the sink writes to the buffer that it wrote to.
    /// - `writes`: The sink gains the encoding of the instruction, or the call returns an error and leaves the bytes as they were.
    ///
    /// ```text
    /// ensures same_reference { self.new.sink.ghost_name ≡ self.old.sink.ghost_name }
    /// ensures writes { WritesInstruction B.written B.has_spare_capacity
    ///     (Instruction.I32Load memarg) self.old.sink.now self.new.sink.now result }
    /// ```
    ///
    /// Definitions: [`WritesInstruction`](crate::definitions::insn::sink::WritesInstruction). [How to read clauses](crate::definitions).
    pub fn i32_load(&mut self, memarg: MemArg) -> Result<()> {
        self.emit(&(0x28u8, memarg))
    }

    /// Appends the encoding of `I32Store`.
    ///
    /// # Errors
    ///
    /// Returns [`Memory`](crate::fallible::Refused::Memory) if an allocation fails. The bytes of
    /// the sink are then unchanged.
    ///
    /// # Proved
    ///
    /// - `same_reference`: the sink writes to the buffer that it wrote to.
    /// - `writes`: The sink gains the encoding of the instruction, or the call returns an error and leaves the bytes as they were.
    ///
    /// ```text
    /// ensures same_reference { self.new.sink.ghost_name ≡ self.old.sink.ghost_name }
    /// ensures writes { WritesInstruction B.written B.has_spare_capacity
    ///     (Instruction.I32Store memarg) self.old.sink.now self.new.sink.now result }
    /// ```
    ///
    /// Definitions: [`WritesInstruction`](crate::definitions::insn::sink::WritesInstruction). [How to read clauses](crate::definitions).
    pub fn i32_store(&mut self, memarg: MemArg) -> Result<()> {
        self.emit(&(0x36u8, memarg))
    }

    /// Appends the encoding of `MemorySize`.
    ///
    /// # Errors
    ///
    /// Returns [`Memory`](crate::fallible::Refused::Memory) if an allocation fails. The bytes of
    /// the sink are then unchanged.
    ///
    /// # Proved
    ///
    /// - `same_reference`: the sink writes to the buffer that it wrote to.
    /// - `writes`: The sink gains the encoding of the instruction, or the call returns an error and leaves the bytes as they were.
    ///
    /// ```text
    /// ensures same_reference { self.new.sink.ghost_name ≡ self.old.sink.ghost_name }
    /// ensures writes { WritesInstruction B.written B.has_spare_capacity
    ///     (Instruction.MemorySize memory) self.old.sink.now self.new.sink.now result }
    /// ```
    ///
    /// Definitions: [`WritesInstruction`](crate::definitions::insn::sink::WritesInstruction). [How to read clauses](crate::definitions).
    pub fn memory_size(&mut self, memory: u32) -> Result<()> {
        self.emit(&(0x3Fu8, memory))
    }

    /// Appends the encoding of `MemoryGrow`.
    ///
    /// # Errors
    ///
    /// Returns [`Memory`](crate::fallible::Refused::Memory) if an allocation fails. The bytes of
    /// the sink are then unchanged.
    ///
    /// # Proved
    ///
    /// - `same_reference`: the sink writes to the buffer that it wrote to.
    /// - `writes`: The sink gains the encoding of the instruction, or the call returns an error and leaves the bytes as they were.
    ///
    /// ```text
    /// ensures same_reference { self.new.sink.ghost_name ≡ self.old.sink.ghost_name }
    /// ensures writes { WritesInstruction B.written B.has_spare_capacity
    ///     (Instruction.MemoryGrow memory) self.old.sink.now self.new.sink.now result }
    /// ```
    ///
    /// Definitions: [`WritesInstruction`](crate::definitions::insn::sink::WritesInstruction). [How to read clauses](crate::definitions).
    pub fn memory_grow(&mut self, memory: u32) -> Result<()> {
        self.emit(&(0x40u8, memory))
    }

    /// Appends the encoding of `I32Const`.
    ///
    /// # Errors
    ///
    /// Returns [`Memory`](crate::fallible::Refused::Memory) if an allocation fails. The bytes of
    /// the sink are then unchanged.
    ///
    /// # Proved
    ///
    /// - `same_reference`: the sink writes to the buffer that it wrote to.
    /// - `writes`: The sink gains the encoding of the instruction, or the call returns an error and leaves the bytes as they were.
    ///
    /// ```text
    /// ensures same_reference { self.new.sink.ghost_name ≡ self.old.sink.ghost_name }
    /// ensures writes { WritesInstruction B.written B.has_spare_capacity
    ///     (Instruction.I32Const value) self.old.sink.now self.new.sink.now result }
    /// ```
    ///
    /// Definitions: [`WritesInstruction`](crate::definitions::insn::sink::WritesInstruction). [How to read clauses](crate::definitions).
    pub fn i32_const(&mut self, value: i32) -> Result<()> {
        self.emit(&(0x41u8, value))
    }

    /// Appends the encoding of `I64Const`.
    ///
    /// # Errors
    ///
    /// Returns [`Memory`](crate::fallible::Refused::Memory) if an allocation fails. The bytes of
    /// the sink are then unchanged.
    ///
    /// # Proved
    ///
    /// - `same_reference`: the sink writes to the buffer that it wrote to.
    /// - `writes`: The sink gains the encoding of the instruction, or the call returns an error and leaves the bytes as they were.
    ///
    /// ```text
    /// ensures same_reference { self.new.sink.ghost_name ≡ self.old.sink.ghost_name }
    /// ensures writes { WritesInstruction B.written B.has_spare_capacity
    ///     (Instruction.I64Const value) self.old.sink.now self.new.sink.now result }
    /// ```
    ///
    /// Definitions: [`WritesInstruction`](crate::definitions::insn::sink::WritesInstruction). [How to read clauses](crate::definitions).
    pub fn i64_const(&mut self, value: i64) -> Result<()> {
        self.emit(&(0x42u8, value))
    }

    /// Appends the encoding of `F32Const`.
    ///
    /// # Errors
    ///
    /// Returns [`Memory`](crate::fallible::Refused::Memory) if an allocation fails. The bytes of
    /// the sink are then unchanged.
    ///
    /// # Proved
    ///
    /// - `same_reference`: the sink writes to the buffer that it wrote to.
    /// - `writes`: The sink gains the encoding of the instruction, or the call returns an error and leaves the bytes as they were.
    ///
    /// ```text
    /// ensures same_reference { self.new.sink.ghost_name ≡ self.old.sink.ghost_name }
    /// ensures writes { WritesInstruction B.written B.has_spare_capacity
    ///     (Instruction.F32Const value) self.old.sink.now self.new.sink.now result }
    /// ```
    ///
    /// Definitions: [`WritesInstruction`](crate::definitions::insn::sink::WritesInstruction). [How to read clauses](crate::definitions).
    pub fn f32_const(&mut self, value: Ieee32) -> Result<()> {
        self.emit(&(0x43u8, value))
    }

    /// Appends the encoding of `F64Const`.
    ///
    /// # Errors
    ///
    /// Returns [`Memory`](crate::fallible::Refused::Memory) if an allocation fails. The bytes of
    /// the sink are then unchanged.
    ///
    /// # Proved
    ///
    /// - `same_reference`: the sink writes to the buffer that it wrote to.
    /// - `writes`: The sink gains the encoding of the instruction, or the call returns an error and leaves the bytes as they were.
    ///
    /// ```text
    /// ensures same_reference { self.new.sink.ghost_name ≡ self.old.sink.ghost_name }
    /// ensures writes { WritesInstruction B.written B.has_spare_capacity
    ///     (Instruction.F64Const value) self.old.sink.now self.new.sink.now result }
    /// ```
    ///
    /// Definitions: [`WritesInstruction`](crate::definitions::insn::sink::WritesInstruction). [How to read clauses](crate::definitions).
    pub fn f64_const(&mut self, value: Ieee64) -> Result<()> {
        self.emit(&(0x44u8, value))
    }

    /// Appends the encoding of `V128Const`.
    ///
    /// # Errors
    ///
    /// Returns [`Memory`](crate::fallible::Refused::Memory) if an allocation fails. The bytes of
    /// the sink are then unchanged.
    ///
    /// # Proved
    ///
    /// - `same_reference`: the sink writes to the buffer that it wrote to.
    /// - `writes`: The sink gains the encoding of the instruction, or the call returns an error and leaves the bytes as they were.
    ///
    /// ```text
    /// ensures same_reference { self.new.sink.ghost_name ≡ self.old.sink.ghost_name }
    /// ensures writes { WritesInstruction B.written B.has_spare_capacity
    ///     (Instruction.VectorImmediate (VectorImmediate.V128Const value)) self.old.sink.now
    ///     self.new.sink.now result }
    /// ```
    ///
    /// Definitions: [`WritesInstruction`](crate::definitions::insn::sink::WritesInstruction). [How to read clauses](crate::definitions).
    pub fn v128_const(&mut self, value: i128) -> Result<()> {
        self.emit(&(0xFDu8, 12u32, vector_bytes(value)))
    }

    /// Appends the encoding of `I32Eqz`.
    ///
    /// # Errors
    ///
    /// Returns [`Memory`](crate::fallible::Refused::Memory) if an allocation fails. The bytes of
    /// the sink are then unchanged.
    ///
    /// # Proved
    ///
    /// - `same_reference`: the sink writes to the buffer that it wrote to.
    /// - `writes`: The sink gains the encoding of the instruction, or the call returns an error and leaves the bytes as they were.
    ///
    /// ```text
    /// ensures same_reference { self.new.sink.ghost_name ≡ self.old.sink.ghost_name }
    /// ensures writes { WritesInstruction B.written B.has_spare_capacity
    ///     (Instruction.Numeric Numeric.I32Eqz) self.old.sink.now self.new.sink.now result }
    /// ```
    ///
    /// Definitions: [`WritesInstruction`](crate::definitions::insn::sink::WritesInstruction). [How to read clauses](crate::definitions).
    pub fn i32_eqz(&mut self) -> Result<()> {
        self.emit(&0x45u8)
    }

    /// Appends the encoding of `I32Add`.
    ///
    /// # Errors
    ///
    /// Returns [`Memory`](crate::fallible::Refused::Memory) if an allocation fails. The bytes of
    /// the sink are then unchanged.
    ///
    /// # Proved
    ///
    /// - `same_reference`: the sink writes to the buffer that it wrote to.
    /// - `writes`: The sink gains the encoding of the instruction, or the call returns an error and leaves the bytes as they were.
    ///
    /// ```text
    /// ensures same_reference { self.new.sink.ghost_name ≡ self.old.sink.ghost_name }
    /// ensures writes { WritesInstruction B.written B.has_spare_capacity
    ///     (Instruction.Numeric Numeric.I32Add) self.old.sink.now self.new.sink.now result }
    /// ```
    ///
    /// Definitions: [`WritesInstruction`](crate::definitions::insn::sink::WritesInstruction). [How to read clauses](crate::definitions).
    pub fn i32_add(&mut self) -> Result<()> {
        self.emit(&0x6Au8)
    }

    /// Appends the encoding of `I32Sub`.
    ///
    /// # Errors
    ///
    /// Returns [`Memory`](crate::fallible::Refused::Memory) if an allocation fails. The bytes of
    /// the sink are then unchanged.
    ///
    /// # Proved
    ///
    /// - `same_reference`: the sink writes to the buffer that it wrote to.
    /// - `writes`: The sink gains the encoding of the instruction, or the call returns an error and leaves the bytes as they were.
    ///
    /// ```text
    /// ensures same_reference { self.new.sink.ghost_name ≡ self.old.sink.ghost_name }
    /// ensures writes { WritesInstruction B.written B.has_spare_capacity
    ///     (Instruction.Numeric Numeric.I32Sub) self.old.sink.now self.new.sink.now result }
    /// ```
    ///
    /// Definitions: [`WritesInstruction`](crate::definitions::insn::sink::WritesInstruction). [How to read clauses](crate::definitions).
    pub fn i32_sub(&mut self) -> Result<()> {
        self.emit(&0x6Bu8)
    }

    /// Appends the encoding of `I32Mul`.
    ///
    /// # Errors
    ///
    /// Returns [`Memory`](crate::fallible::Refused::Memory) if an allocation fails. The bytes of
    /// the sink are then unchanged.
    ///
    /// # Proved
    ///
    /// - `same_reference`: the sink writes to the buffer that it wrote to.
    /// - `writes`: The sink gains the encoding of the instruction, or the call returns an error and leaves the bytes as they were.
    ///
    /// ```text
    /// ensures same_reference { self.new.sink.ghost_name ≡ self.old.sink.ghost_name }
    /// ensures writes { WritesInstruction B.written B.has_spare_capacity
    ///     (Instruction.Numeric Numeric.I32Mul) self.old.sink.now self.new.sink.now result }
    /// ```
    ///
    /// Definitions: [`WritesInstruction`](crate::definitions::insn::sink::WritesInstruction). [How to read clauses](crate::definitions).
    pub fn i32_mul(&mut self) -> Result<()> {
        self.emit(&0x6Cu8)
    }

    /// Appends the encoding of `I64Add`.
    ///
    /// # Errors
    ///
    /// Returns [`Memory`](crate::fallible::Refused::Memory) if an allocation fails. The bytes of
    /// the sink are then unchanged.
    ///
    /// # Proved
    ///
    /// - `same_reference`: the sink writes to the buffer that it wrote to.
    /// - `writes`: The sink gains the encoding of the instruction, or the call returns an error and leaves the bytes as they were.
    ///
    /// ```text
    /// ensures same_reference { self.new.sink.ghost_name ≡ self.old.sink.ghost_name }
    /// ensures writes { WritesInstruction B.written B.has_spare_capacity
    ///     (Instruction.Numeric Numeric.I64Add) self.old.sink.now self.new.sink.now result }
    /// ```
    ///
    /// Definitions: [`WritesInstruction`](crate::definitions::insn::sink::WritesInstruction). [How to read clauses](crate::definitions).
    pub fn i64_add(&mut self) -> Result<()> {
        self.emit(&0x7Cu8)
    }

    /// Appends the encoding of `I64Sub`.
    ///
    /// # Errors
    ///
    /// Returns [`Memory`](crate::fallible::Refused::Memory) if an allocation fails. The bytes of
    /// the sink are then unchanged.
    ///
    /// # Proved
    ///
    /// - `same_reference`: the sink writes to the buffer that it wrote to.
    /// - `writes`: The sink gains the encoding of the instruction, or the call returns an error and leaves the bytes as they were.
    ///
    /// ```text
    /// ensures same_reference { self.new.sink.ghost_name ≡ self.old.sink.ghost_name }
    /// ensures writes { WritesInstruction B.written B.has_spare_capacity
    ///     (Instruction.Numeric Numeric.I64Sub) self.old.sink.now self.new.sink.now result }
    /// ```
    ///
    /// Definitions: [`WritesInstruction`](crate::definitions::insn::sink::WritesInstruction). [How to read clauses](crate::definitions).
    pub fn i64_sub(&mut self) -> Result<()> {
        self.emit(&0x7Du8)
    }

    /// Appends the encoding of `I64Mul`.
    ///
    /// # Errors
    ///
    /// Returns [`Memory`](crate::fallible::Refused::Memory) if an allocation fails. The bytes of
    /// the sink are then unchanged.
    ///
    /// # Proved
    ///
    /// - `same_reference`: the sink writes to the buffer that it wrote to.
    /// - `writes`: The sink gains the encoding of the instruction, or the call returns an error and leaves the bytes as they were.
    ///
    /// ```text
    /// ensures same_reference { self.new.sink.ghost_name ≡ self.old.sink.ghost_name }
    /// ensures writes { WritesInstruction B.written B.has_spare_capacity
    ///     (Instruction.Numeric Numeric.I64Mul) self.old.sink.now self.new.sink.now result }
    /// ```
    ///
    /// Definitions: [`WritesInstruction`](crate::definitions::insn::sink::WritesInstruction). [How to read clauses](crate::definitions).
    pub fn i64_mul(&mut self) -> Result<()> {
        self.emit(&0x7Eu8)
    }

    /// Appends the encoding of `RefNull`.
    ///
    /// # Errors
    ///
    /// Returns [`Memory`](crate::fallible::Refused::Memory) if an allocation fails. The bytes of
    /// the sink are then unchanged.
    ///
    /// # Proved
    ///
    /// - `same_reference`: the sink writes to the buffer that it wrote to.
    /// - `writes`: The sink gains the encoding of the instruction, or the call returns an error and leaves the bytes as they were.
    ///
    /// ```text
    /// ensures same_reference { self.new.sink.ghost_name ≡ self.old.sink.ghost_name }
    /// ensures writes { WritesInstruction B.written B.has_spare_capacity
    ///     (Instruction.RefNull ty) self.old.sink.now self.new.sink.now result }
    /// ```
    ///
    /// Definitions: [`WritesInstruction`](crate::definitions::insn::sink::WritesInstruction). [How to read clauses](crate::definitions).
    pub fn ref_null(&mut self, ty: HeapType) -> Result<()> {
        self.emit(&(0xD0u8, ty))
    }

    /// Appends the encoding of `RefIsNull`.
    ///
    /// # Errors
    ///
    /// Returns [`Memory`](crate::fallible::Refused::Memory) if an allocation fails. The bytes of
    /// the sink are then unchanged.
    ///
    /// # Proved
    ///
    /// - `same_reference`: the sink writes to the buffer that it wrote to.
    /// - `writes`: The sink gains the encoding of the instruction, or the call returns an error and leaves the bytes as they were.
    ///
    /// ```text
    /// ensures same_reference { self.new.sink.ghost_name ≡ self.old.sink.ghost_name }
    /// ensures writes { WritesInstruction B.written B.has_spare_capacity Instruction.RefIsNull
    ///     self.old.sink.now self.new.sink.now result }
    /// ```
    ///
    /// Definitions: [`WritesInstruction`](crate::definitions::insn::sink::WritesInstruction). [How to read clauses](crate::definitions).
    pub fn ref_is_null(&mut self) -> Result<()> {
        self.emit(&0xD1u8)
    }

    /// Appends the encoding of `RefFunc`.
    ///
    /// # Errors
    ///
    /// Returns [`Memory`](crate::fallible::Refused::Memory) if an allocation fails. The bytes of
    /// the sink are then unchanged.
    ///
    /// # Proved
    ///
    /// - `same_reference`: the sink writes to the buffer that it wrote to.
    /// - `writes`: The sink gains the encoding of the instruction, or the call returns an error and leaves the bytes as they were.
    ///
    /// ```text
    /// ensures same_reference { self.new.sink.ghost_name ≡ self.old.sink.ghost_name }
    /// ensures writes { WritesInstruction B.written B.has_spare_capacity
    ///     (Instruction.RefFunc function_index) self.old.sink.now self.new.sink.now result }
    /// ```
    ///
    /// Definitions: [`WritesInstruction`](crate::definitions::insn::sink::WritesInstruction). [How to read clauses](crate::definitions).
    pub fn ref_func(&mut self, function_index: u32) -> Result<()> {
        self.emit(&(0xD2u8, function_index))
    }
}
