// Written by tools/to-rust from crates/wasm_insn/src/instruction.rt: change that.
// The type of all instructions, and its encoding.

use crate::vec::Sink;
use crate::insn::aggregate::Aggregate;
use crate::insn::atomic::Atomic;
use crate::insn::numeric::Numeric;
use crate::insn::op::Op;
use crate::insn::prefixed_numeric::PrefixedNumeric;
use crate::insn::vector::Vector;
use crate::insn::vector_immediate::VectorImmediate;
use crate::alloc::{Allocator, Global};
use core::slice;
use crate::base::{CowSlice, Encode, HeapType, RefType, Refused, Result, ValType};
use crate::immediates::{BlockType, Catch, Handle, Ieee32, Ieee64, MemArg};

/// An instruction of the core specification, "Instructions", or of its proposals.
///
/// One-byte instructions outside 45 to C4 (hexadecimal), and those with fields of the prefixes FB
/// and FC, are cases of their own. The others are in an enum for each group of opcodes. Those
/// without fields also have a constant here, such as `Instruction::I32Add`.
///
/// [`Function::instruction`](crate::fallible::Function::instruction) appends one.
/// [`InstructionSink`](crate::fallible::InstructionSink) has calls for the most common ones.
///
/// # Examples
///
/// ```
/// use dolzhytik::fallible::{CowSlice, Encode, Instruction};
///
/// let table: Instruction = Instruction::BrTable(CowSlice::Borrowed(&[0, 0]), 0);
/// let mut bytes = Vec::new();
/// for instruction in [Instruction::I32Const(-1), Instruction::I32Add, table] {
///     instruction.encode(&mut bytes)?;
/// }
/// // i32.const: 41 and -1 as signed LEB128. i32.add: 6A. br_table: 0E, two labels, the
/// // default one.
/// assert_eq!(bytes, [0x41, 0x7F, 0x6A, 0x0E, 2, 0, 0, 0]);
/// # Ok::<(), dolzhytik::fallible::Refused>(())
/// ```
#[derive(Debug)]
#[non_exhaustive]
pub enum Instruction<'a, A: Allocator = Global> {
    /// `unreachable` (opcode 0x00), a control instruction that traps.
    Unreachable,
    /// `nop` (opcode 0x01), a control instruction that does nothing.
    Nop,
    /// `block` (opcode 0x02), a control instruction that begins a block, with its label at the end.
    Block(BlockType),
    /// `loop` (opcode 0x03), a control instruction that begins a block, with its label at the
    /// start.
    Loop(BlockType),
    /// `if` (opcode 0x04), a control instruction that begins a block that is executed if the
    /// operand is not zero.
    If(BlockType),
    /// `else` (opcode 0x05), a delimiter of control instructions that begins the branch of an `if`
    /// for zero.
    Else,
    /// `try` (opcode 0x06), a control instruction of the legacy exception handling proposal that
    /// begins a block with handlers of exceptions.
    Try(BlockType),
    /// `catch` (opcode 0x07), a control instruction of the legacy exception handling proposal that
    /// begins the handler of exceptions with a tag.
    Catch(u32),
    /// `throw` (opcode 0x08), a control instruction that throws an exception with a tag.
    Throw(u32),
    /// `rethrow` (opcode 0x09), a control instruction of the legacy exception handling proposal
    /// that throws a caught exception again.
    Rethrow(u32),
    /// `throw_ref` (opcode 0x0A), a control instruction that throws the exception of a reference.
    ThrowRef,
    /// `end` (opcode 0x0B), a delimiter of control instructions and expressions that ends a block,
    /// a body or a constant expression.
    End,
    /// `br` (opcode 0x0C), a control instruction that branches to a label.
    Br(u32),
    /// `br_if` (opcode 0x0D), a control instruction that branches to a label if the operand is not
    /// zero.
    BrIf(u32),
    /// `br_table` (opcode 0x0E), a control instruction that branches to one of several labels,
    /// selected by an index.
    BrTable(CowSlice<'a, u32, A>, u32),
    /// `return` (opcode 0x0F), a control instruction that returns from the function.
    Return,
    /// `call` (opcode 0x10), a control instruction that calls a function.
    Call(u32),
    /// `call_indirect` (opcode 0x11), a control instruction that calls a function of a table.
    CallIndirect {
        /// The index of the function type.
        type_index: u32,
        /// The index of the table.
        table_index: u32,
    },
    /// `return_call` (opcode 0x12), a control instruction that calls a function, and returns its
    /// results.
    ReturnCall(u32),
    /// `return_call_indirect` (opcode 0x13), a control instruction that calls a function of a
    /// table, and returns its results.
    ReturnCallIndirect {
        /// The index of the function type.
        type_index: u32,
        /// The index of the table.
        table_index: u32,
    },
    /// `call_ref` (opcode 0x14), a control instruction that calls the function of a reference.
    CallRef(u32),
    /// `return_call_ref` (opcode 0x15), a control instruction that calls the function of a
    /// reference, and returns its results.
    ReturnCallRef(u32),
    /// `delegate` (opcode 0x18), a control instruction of the legacy exception handling proposal
    /// that ends a `try`, and passes its exceptions to an outer block.
    Delegate(u32),
    /// `catch_all` (opcode 0x19), a control instruction of the legacy exception handling proposal
    /// that begins the handler of all exceptions.
    CatchAll,
    /// `drop` (opcode 0x1A), a parametric instruction that drops a value.
    Drop,
    /// `select` (opcode 0x1B), a parametric instruction that selects one of two values by a
    /// condition.
    Select,
    /// `select (result t)` (opcode 0x1C), a parametric instruction that selects one of two values
    /// by a condition.
    TypedSelect(ValType),
    /// `select (result t*)` (opcode 0x1C), a parametric instruction that selects one of two values
    /// by a condition.
    TypedSelectMulti(CowSlice<'a, ValType, A>),
    /// `try_table` (opcode 0x1F), a control instruction that begins a block with catch clauses.
    TryTable(BlockType, CowSlice<'a, Catch, A>),
    /// `local.get` (opcode 0x20), a variable instruction that reads a local.
    LocalGet(u32),
    /// `local.set` (opcode 0x21), a variable instruction that writes a local.
    LocalSet(u32),
    /// `local.tee` (opcode 0x22), a variable instruction that writes a local, and keeps the value.
    LocalTee(u32),
    /// `global.get` (opcode 0x23), a variable instruction that reads a global.
    GlobalGet(u32),
    /// `global.set` (opcode 0x24), a variable instruction that writes a global.
    GlobalSet(u32),
    /// `table.get` (opcode 0x25), a table instruction that reads an element of a table.
    TableGet(u32),
    /// `table.set` (opcode 0x26), a table instruction that writes an element of a table.
    TableSet(u32),
    /// `i32.load` (opcode 0x28), a memory instruction that loads a number from a memory.
    I32Load(MemArg),
    /// `i64.load` (opcode 0x29), a memory instruction that loads a number from a memory.
    I64Load(MemArg),
    /// `f32.load` (opcode 0x2A), a memory instruction that loads a number from a memory.
    F32Load(MemArg),
    /// `f64.load` (opcode 0x2B), a memory instruction that loads a number from a memory.
    F64Load(MemArg),
    /// `i32.load8_s` (opcode 0x2C), a memory instruction that loads a number from a memory.
    I32Load8S(MemArg),
    /// `i32.load8_u` (opcode 0x2D), a memory instruction that loads a number from a memory.
    I32Load8U(MemArg),
    /// `i32.load16_s` (opcode 0x2E), a memory instruction that loads a number from a memory.
    I32Load16S(MemArg),
    /// `i32.load16_u` (opcode 0x2F), a memory instruction that loads a number from a memory.
    I32Load16U(MemArg),
    /// `i64.load8_s` (opcode 0x30), a memory instruction that loads a number from a memory.
    I64Load8S(MemArg),
    /// `i64.load8_u` (opcode 0x31), a memory instruction that loads a number from a memory.
    I64Load8U(MemArg),
    /// `i64.load16_s` (opcode 0x32), a memory instruction that loads a number from a memory.
    I64Load16S(MemArg),
    /// `i64.load16_u` (opcode 0x33), a memory instruction that loads a number from a memory.
    I64Load16U(MemArg),
    /// `i64.load32_s` (opcode 0x34), a memory instruction that loads a number from a memory.
    I64Load32S(MemArg),
    /// `i64.load32_u` (opcode 0x35), a memory instruction that loads a number from a memory.
    I64Load32U(MemArg),
    /// `i32.store` (opcode 0x36), a memory instruction that stores a number to a memory.
    I32Store(MemArg),
    /// `i64.store` (opcode 0x37), a memory instruction that stores a number to a memory.
    I64Store(MemArg),
    /// `f32.store` (opcode 0x38), a memory instruction that stores a number to a memory.
    F32Store(MemArg),
    /// `f64.store` (opcode 0x39), a memory instruction that stores a number to a memory.
    F64Store(MemArg),
    /// `i32.store8` (opcode 0x3A), a memory instruction that stores a number to a memory.
    I32Store8(MemArg),
    /// `i32.store16` (opcode 0x3B), a memory instruction that stores a number to a memory.
    I32Store16(MemArg),
    /// `i64.store8` (opcode 0x3C), a memory instruction that stores a number to a memory.
    I64Store8(MemArg),
    /// `i64.store16` (opcode 0x3D), a memory instruction that stores a number to a memory.
    I64Store16(MemArg),
    /// `i64.store32` (opcode 0x3E), a memory instruction that stores a number to a memory.
    I64Store32(MemArg),
    /// `memory.size` (opcode 0x3F), a memory instruction that returns the size of a memory in
    /// pages.
    MemorySize(u32),
    /// `memory.grow` (opcode 0x40), a memory instruction that grows a memory by a number of pages.
    MemoryGrow(u32),
    /// `i32.const` (opcode 0x41), a numeric instruction that returns a constant.
    I32Const(i32),
    /// `i64.const` (opcode 0x42), a numeric instruction that returns a constant.
    I64Const(i64),
    /// `f32.const` (opcode 0x43), a numeric instruction that returns a constant.
    F32Const(Ieee32),
    /// `f64.const` (opcode 0x44), a numeric instruction that returns a constant.
    F64Const(Ieee64),
    /// `ref.null` (opcode 0xD0), a reference instruction that returns a null reference.
    RefNull(HeapType),
    /// `ref.is_null` (opcode 0xD1), a reference instruction that tests whether a reference is null.
    RefIsNull,
    /// `ref.func` (opcode 0xD2), a reference instruction that returns a reference to a function.
    RefFunc(u32),
    /// `ref.eq` (opcode 0xD3), a reference instruction that compares two references.
    RefEq,
    /// `ref.as_non_null` (opcode 0xD4), a reference instruction that traps if a reference is null.
    RefAsNonNull,
    /// `br_on_null` (opcode 0xD5), a control instruction that branches to a label if a reference is
    /// null.
    BrOnNull(u32),
    /// `br_on_non_null` (opcode 0xD6), a control instruction that branches to a label if a
    /// reference is not null.
    BrOnNonNull(u32),
    /// `cont.new` (opcode 0xE0), a control instruction of the stack switching proposal that makes a
    /// continuation of a function.
    ContNew(u32),
    /// `cont.bind` (opcode 0xE1), a control instruction of the stack switching proposal that binds
    /// arguments to a continuation.
    ContBind {
        /// The index of the type of the bound continuation.
        argument_index: u32,
        /// The index of the type of the resulting continuation.
        result_index: u32,
    },
    /// `suspend` (opcode 0xE2), a control instruction of the stack switching proposal that suspends
    /// the current continuation with a tag.
    Suspend(u32),
    /// `resume` (opcode 0xE3), a control instruction of the stack switching proposal that resumes a
    /// continuation.
    Resume {
        /// The index of the continuation type.
        cont_type_index: u32,
        /// The handlers.
        resume_table: CowSlice<'a, Handle, A>,
    },
    /// `resume_throw` (opcode 0xE4), a control instruction of the stack switching proposal that
    /// resumes a continuation by throwing an exception in it.
    ResumeThrow {
        /// The index of the continuation type.
        cont_type_index: u32,
        /// The index of the tag.
        tag_index: u32,
        /// The handlers.
        resume_table: CowSlice<'a, Handle, A>,
    },
    /// `resume_throw_ref` (opcode 0xE5), a control instruction of the stack switching proposal that
    /// resumes a continuation by throwing an exception in it.
    ResumeThrowRef {
        /// The index of the continuation type.
        cont_type_index: u32,
        /// The handlers.
        resume_table: CowSlice<'a, Handle, A>,
    },
    /// `switch` (opcode 0xE6), a control instruction of the stack switching proposal that switches
    /// to another continuation.
    Switch {
        /// The index of the continuation type.
        cont_type_index: u32,
        /// The index of the tag.
        tag_index: u32,
    },
    /// `struct.new` (opcode 0xFB 0), an aggregate instruction that makes a structure of given
    /// values.
    StructNew(u32),
    /// `struct.new_default` (opcode 0xFB 1), an aggregate instruction that makes a structure of
    /// default values.
    StructNewDefault(u32),
    /// `struct.get` (opcode 0xFB 2), an aggregate instruction that reads a field of a structure.
    StructGet {
        /// The index of the structure type.
        struct_type_index: u32,
        /// The index of the field.
        field_index: u32,
    },
    /// `struct.get_s` (opcode 0xFB 3), an aggregate instruction that reads a field of a structure,
    /// sign-extended.
    StructGetS {
        /// The index of the structure type.
        struct_type_index: u32,
        /// The index of the field.
        field_index: u32,
    },
    /// `struct.get_u` (opcode 0xFB 4), an aggregate instruction that reads a field of a structure,
    /// zero-extended.
    StructGetU {
        /// The index of the structure type.
        struct_type_index: u32,
        /// The index of the field.
        field_index: u32,
    },
    /// `struct.set` (opcode 0xFB 5), an aggregate instruction that writes a field of a structure.
    StructSet {
        /// The index of the structure type.
        struct_type_index: u32,
        /// The index of the field.
        field_index: u32,
    },
    /// `array.new` (opcode 0xFB 6), an aggregate instruction that makes an array with one value in
    /// each element.
    ArrayNew(u32),
    /// `array.new_default` (opcode 0xFB 7), an aggregate instruction that makes an array of default
    /// values.
    ArrayNewDefault(u32),
    /// `array.new_fixed` (opcode 0xFB 8), an aggregate instruction that makes an array of operands.
    ArrayNewFixed {
        /// The index of the array type.
        array_type_index: u32,
        /// The number of elements.
        array_size: u32,
    },
    /// `array.new_data` (opcode 0xFB 9), an aggregate instruction that makes an array of the bytes
    /// of a data segment.
    ArrayNewData {
        /// The index of the array type.
        array_type_index: u32,
        /// The index of the data segment.
        array_data_index: u32,
    },
    /// `array.new_elem` (opcode 0xFB 10), an aggregate instruction that makes an array of the
    /// references of an element segment.
    ArrayNewElem {
        /// The index of the array type.
        array_type_index: u32,
        /// The index of the element segment.
        array_elem_index: u32,
    },
    /// `array.get` (opcode 0xFB 11), an aggregate instruction that reads an element of an array.
    ArrayGet(u32),
    /// `array.get_s` (opcode 0xFB 12), an aggregate instruction that reads an element of an array,
    /// sign-extended.
    ArrayGetS(u32),
    /// `array.get_u` (opcode 0xFB 13), an aggregate instruction that reads an element of an array,
    /// zero-extended.
    ArrayGetU(u32),
    /// `array.set` (opcode 0xFB 14), an aggregate instruction that writes an element of an array.
    ArraySet(u32),
    /// `array.fill` (opcode 0xFB 16), an aggregate instruction that sets elements of an array to
    /// one value.
    ArrayFill(u32),
    /// `array.copy` (opcode 0xFB 17), an aggregate instruction that copies elements from one array
    /// to another.
    ArrayCopy {
        /// The index of the type of the destination.
        array_type_index_dst: u32,
        /// The index of the type of the source.
        array_type_index_src: u32,
    },
    /// `array.init_data` (opcode 0xFB 18), an aggregate instruction that copies bytes of a data
    /// segment to an array.
    ArrayInitData {
        /// The index of the array type.
        array_type_index: u32,
        /// The index of the data segment.
        array_data_index: u32,
    },
    /// `array.init_elem` (opcode 0xFB 19), an aggregate instruction that copies references of an
    /// element segment to an array.
    ArrayInitElem {
        /// The index of the array type.
        array_type_index: u32,
        /// The index of the element segment.
        array_elem_index: u32,
    },
    /// `ref.test (ref ht)` (opcode 0xFB 20), a reference instruction that tests whether a reference
    /// has a type.
    RefTestNonNull(HeapType),
    /// `ref.test (ref null ht)` (opcode 0xFB 21), a reference instruction that tests whether a
    /// reference has a type.
    RefTestNullable(HeapType),
    /// `ref.cast (ref ht)` (opcode 0xFB 22), a reference instruction that casts a reference to a
    /// type, or traps.
    RefCastNonNull(HeapType),
    /// `ref.cast (ref null ht)` (opcode 0xFB 23), a reference instruction that casts a reference to
    /// a type, or traps.
    RefCastNullable(HeapType),
    /// `br_on_cast` (opcode 0xFB 24), a control instruction that branches to a label if a reference
    /// has a type.
    BrOnCast {
        /// The label of the branch.
        relative_depth: u32,
        /// The type of the operand.
        from_ref_type: RefType,
        /// The type that the operand is cast to.
        to_ref_type: RefType,
    },
    /// `br_on_cast_fail` (opcode 0xFB 25), a control instruction that branches to a label if a
    /// reference does not have a type.
    BrOnCastFail {
        /// The label of the branch.
        relative_depth: u32,
        /// The type of the operand.
        from_ref_type: RefType,
        /// The type that the operand is cast to.
        to_ref_type: RefType,
    },
    /// `struct.new_desc` (opcode 0xFB 32), an instruction of the custom descriptors proposal that
    /// makes a structure of given values, with a descriptor.
    StructNewDesc(u32),
    /// `struct.new_default_desc` (opcode 0xFB 33), an instruction of the custom descriptors
    /// proposal that makes a structure of default values, with a descriptor.
    StructNewDefaultDesc(u32),
    /// `ref.get_desc` (opcode 0xFB 34), an instruction of the custom descriptors proposal that
    /// reads the descriptor of a structure.
    RefGetDesc(u32),
    /// `ref.cast_desc_eq (ref ht)` (opcode 0xFB 35), an instruction of the custom descriptors
    /// proposal that casts a reference that has the given descriptor, or traps.
    RefCastDescEqNonNull(HeapType),
    /// `ref.cast_desc_eq (ref null ht)` (opcode 0xFB 36), an instruction of the custom descriptors
    /// proposal that casts a reference that has the given descriptor, or traps.
    RefCastDescEqNullable(HeapType),
    /// `br_on_cast_desc_eq` (opcode 0xFB 37), an instruction of the custom descriptors proposal
    /// that branches to a label if a reference has the given descriptor.
    BrOnCastDescEq {
        /// The label of the branch.
        relative_depth: u32,
        /// The type of the operand.
        from_ref_type: RefType,
        /// The type that the operand is cast to.
        to_ref_type: RefType,
    },
    /// `br_on_cast_desc_eq_fail` (opcode 0xFB 38), an instruction of the custom descriptors
    /// proposal that branches to a label if a reference does not have the given descriptor.
    BrOnCastDescEqFail {
        /// The label of the branch.
        relative_depth: u32,
        /// The type of the operand.
        from_ref_type: RefType,
        /// The type that the operand is cast to.
        to_ref_type: RefType,
    },
    /// `memory.init` (opcode 0xFC 8), a memory instruction that copies bytes of a data segment to a
    /// memory.
    MemoryInit {
        /// The index of the data segment.
        data_index: u32,
        /// The index of the memory.
        mem: u32,
    },
    /// `data.drop` (opcode 0xFC 9), a memory instruction that drops a data segment.
    DataDrop(u32),
    /// `memory.copy` (opcode 0xFC 10), a memory instruction that copies bytes from one memory to
    /// another.
    MemoryCopy {
        /// The index of the destination memory.
        dst_mem: u32,
        /// The index of the source memory.
        src_mem: u32,
    },
    /// `memory.fill` (opcode 0xFC 11), a memory instruction that sets bytes of a memory to one
    /// value.
    MemoryFill(u32),
    /// `table.init` (opcode 0xFC 12), a table instruction that copies elements of an element
    /// segment to a table.
    TableInit {
        /// The index of the element segment.
        elem_index: u32,
        /// The index of the table.
        table: u32,
    },
    /// `elem.drop` (opcode 0xFC 13), a table instruction that drops an element segment.
    ElemDrop(u32),
    /// `table.copy` (opcode 0xFC 14), a table instruction that copies elements from one table to
    /// another.
    TableCopy {
        /// The index of the destination table.
        dst_table: u32,
        /// The index of the source table.
        src_table: u32,
    },
    /// `table.grow` (opcode 0xFC 15), a table instruction that grows a table.
    TableGrow(u32),
    /// `table.size` (opcode 0xFC 16), a table instruction that returns the number of elements of a
    /// table.
    TableSize(u32),
    /// `table.fill` (opcode 0xFC 17), a table instruction that sets elements of a table to a
    /// reference.
    TableFill(u32),
    /// `memory.discard` (opcode 0xFC 18), a memory instruction of the memory control proposal that
    /// discards pages of a memory.
    MemoryDiscard(u32),
    /// Numeric instructions: the one-byte opcodes 45 to C4.
    Numeric(Numeric),
    /// Instructions on aggregates and references without immediates: those after the prefix FB.
    Aggregate(Aggregate),
    /// Numeric instructions after the prefix FC: truncations that saturate, and wide arithmetic.
    PrefixedNumeric(PrefixedNumeric),
    /// Vector instructions without immediates: those after the prefix FD.
    Vector(Vector),
    /// Vector instructions with immediates: those after the prefix FD.
    VectorImmediate(VectorImmediate),
    /// Atomic instructions: those after the prefix FE.
    Atomic(Atomic),
}

/// Returns the flags of a cast: bit 0 for a nullable first type, bit 1 for a nullable second type.
fn cast_flag(from: RefType, to: RefType) -> u8 {
    u8::from(from.nullable) + 2 * u8::from(to.nullable)
}

// Lists and casts are rare. They are appended out of line, so that the other instructions need no
// stack space for their immediates.

/// Appends the labels of a branch table, and the default label.
#[inline(never)]
fn encode_labels<A: Sink>(labels: &[u32], default: u32, sink: &mut A) -> Result<()> {
    (labels, default).encode(sink)
}

/// Appends the type of a block, and its catch clauses.
#[inline(never)]
fn encode_try_table<A: Sink>(
    block_type: BlockType,
    catches: &[Catch],
    sink: &mut A,
) -> Result<()> {
    (block_type, catches).encode(sink)
}

/// Appends the index of a type, and handle clauses.
#[inline(never)]
fn encode_resume<A: Sink>(index: u32, handles: &[Handle], sink: &mut A) -> Result<()> {
    (index, handles).encode(sink)
}

/// Appends the indices of a type and of a tag, and handle clauses.
#[inline(never)]
fn encode_resume_throw<A: Sink>(
    index: u32,
    tag: u32,
    handles: &[Handle],
    sink: &mut A,
) -> Result<()> {
    (index, tag, handles).encode(sink)
}

/// Appends the flags, the label, and the two heap types of a cast.
#[inline(never)]
fn encode_cast<A: Sink>(
    label: u32,
    from: RefType,
    to: RefType,
    sink: &mut A,
) -> Result<()> {
    (cast_flag(from, to), label, (from.heap_type, to.heap_type)).encode(sink)
}

impl<'a, A: Allocator> Instruction<'a, A> {
    /// Returns the opcode, as in the opcode table.
    ///
    /// # Proved
    ///
    /// ```text
    /// ensures { result ≡ (row_of self.now).op }
    /// ```
    ///
    /// Definitions: [`row_of`](crate::definitions::insn::instructions::row_of). [How to read clauses](crate::definitions).
    pub fn op(&self) -> Op {
        match self {
            Instruction::Unreachable => Op::Byte(0x00),
            Instruction::Nop => Op::Byte(0x01),
            Instruction::Block(..) => Op::Byte(0x02),
            Instruction::Loop(..) => Op::Byte(0x03),
            Instruction::If(..) => Op::Byte(0x04),
            Instruction::Else => Op::Byte(0x05),
            Instruction::Try(..) => Op::Byte(0x06),
            Instruction::Catch(..) => Op::Byte(0x07),
            Instruction::Throw(..) => Op::Byte(0x08),
            Instruction::Rethrow(..) => Op::Byte(0x09),
            Instruction::ThrowRef => Op::Byte(0x0A),
            Instruction::End => Op::Byte(0x0B),
            Instruction::Br(..) => Op::Byte(0x0C),
            Instruction::BrIf(..) => Op::Byte(0x0D),
            Instruction::BrTable(..) => Op::Byte(0x0E),
            Instruction::Return => Op::Byte(0x0F),
            Instruction::Call(..) => Op::Byte(0x10),
            Instruction::CallIndirect { .. } => Op::Byte(0x11),
            Instruction::ReturnCall(..) => Op::Byte(0x12),
            Instruction::ReturnCallIndirect { .. } => Op::Byte(0x13),
            Instruction::CallRef(..) => Op::Byte(0x14),
            Instruction::ReturnCallRef(..) => Op::Byte(0x15),
            Instruction::Delegate(..) => Op::Byte(0x18),
            Instruction::CatchAll => Op::Byte(0x19),
            Instruction::Drop => Op::Byte(0x1A),
            Instruction::Select => Op::Byte(0x1B),
            Instruction::TypedSelect(..) => Op::Byte(0x1C),
            Instruction::TypedSelectMulti(..) => Op::Byte(0x1C),
            Instruction::TryTable(..) => Op::Byte(0x1F),
            Instruction::LocalGet(..) => Op::Byte(0x20),
            Instruction::LocalSet(..) => Op::Byte(0x21),
            Instruction::LocalTee(..) => Op::Byte(0x22),
            Instruction::GlobalGet(..) => Op::Byte(0x23),
            Instruction::GlobalSet(..) => Op::Byte(0x24),
            Instruction::TableGet(..) => Op::Byte(0x25),
            Instruction::TableSet(..) => Op::Byte(0x26),
            Instruction::I32Load(..) => Op::Byte(0x28),
            Instruction::I64Load(..) => Op::Byte(0x29),
            Instruction::F32Load(..) => Op::Byte(0x2A),
            Instruction::F64Load(..) => Op::Byte(0x2B),
            Instruction::I32Load8S(..) => Op::Byte(0x2C),
            Instruction::I32Load8U(..) => Op::Byte(0x2D),
            Instruction::I32Load16S(..) => Op::Byte(0x2E),
            Instruction::I32Load16U(..) => Op::Byte(0x2F),
            Instruction::I64Load8S(..) => Op::Byte(0x30),
            Instruction::I64Load8U(..) => Op::Byte(0x31),
            Instruction::I64Load16S(..) => Op::Byte(0x32),
            Instruction::I64Load16U(..) => Op::Byte(0x33),
            Instruction::I64Load32S(..) => Op::Byte(0x34),
            Instruction::I64Load32U(..) => Op::Byte(0x35),
            Instruction::I32Store(..) => Op::Byte(0x36),
            Instruction::I64Store(..) => Op::Byte(0x37),
            Instruction::F32Store(..) => Op::Byte(0x38),
            Instruction::F64Store(..) => Op::Byte(0x39),
            Instruction::I32Store8(..) => Op::Byte(0x3A),
            Instruction::I32Store16(..) => Op::Byte(0x3B),
            Instruction::I64Store8(..) => Op::Byte(0x3C),
            Instruction::I64Store16(..) => Op::Byte(0x3D),
            Instruction::I64Store32(..) => Op::Byte(0x3E),
            Instruction::MemorySize(..) => Op::Byte(0x3F),
            Instruction::MemoryGrow(..) => Op::Byte(0x40),
            Instruction::I32Const(..) => Op::Byte(0x41),
            Instruction::I64Const(..) => Op::Byte(0x42),
            Instruction::F32Const(..) => Op::Byte(0x43),
            Instruction::F64Const(..) => Op::Byte(0x44),
            Instruction::RefNull(..) => Op::Byte(0xD0),
            Instruction::RefIsNull => Op::Byte(0xD1),
            Instruction::RefFunc(..) => Op::Byte(0xD2),
            Instruction::RefEq => Op::Byte(0xD3),
            Instruction::RefAsNonNull => Op::Byte(0xD4),
            Instruction::BrOnNull(..) => Op::Byte(0xD5),
            Instruction::BrOnNonNull(..) => Op::Byte(0xD6),
            Instruction::ContNew(..) => Op::Byte(0xE0),
            Instruction::ContBind { .. } => Op::Byte(0xE1),
            Instruction::Suspend(..) => Op::Byte(0xE2),
            Instruction::Resume { .. } => Op::Byte(0xE3),
            Instruction::ResumeThrow { .. } => Op::Byte(0xE4),
            Instruction::ResumeThrowRef { .. } => Op::Byte(0xE5),
            Instruction::Switch { .. } => Op::Byte(0xE6),
            Instruction::StructNew(..) => Op::Prefixed(0xFB, 0),
            Instruction::StructNewDefault(..) => Op::Prefixed(0xFB, 1),
            Instruction::StructGet { .. } => Op::Prefixed(0xFB, 2),
            Instruction::StructGetS { .. } => Op::Prefixed(0xFB, 3),
            Instruction::StructGetU { .. } => Op::Prefixed(0xFB, 4),
            Instruction::StructSet { .. } => Op::Prefixed(0xFB, 5),
            Instruction::ArrayNew(..) => Op::Prefixed(0xFB, 6),
            Instruction::ArrayNewDefault(..) => Op::Prefixed(0xFB, 7),
            Instruction::ArrayNewFixed { .. } => Op::Prefixed(0xFB, 8),
            Instruction::ArrayNewData { .. } => Op::Prefixed(0xFB, 9),
            Instruction::ArrayNewElem { .. } => Op::Prefixed(0xFB, 10),
            Instruction::ArrayGet(..) => Op::Prefixed(0xFB, 11),
            Instruction::ArrayGetS(..) => Op::Prefixed(0xFB, 12),
            Instruction::ArrayGetU(..) => Op::Prefixed(0xFB, 13),
            Instruction::ArraySet(..) => Op::Prefixed(0xFB, 14),
            Instruction::ArrayFill(..) => Op::Prefixed(0xFB, 16),
            Instruction::ArrayCopy { .. } => Op::Prefixed(0xFB, 17),
            Instruction::ArrayInitData { .. } => Op::Prefixed(0xFB, 18),
            Instruction::ArrayInitElem { .. } => Op::Prefixed(0xFB, 19),
            Instruction::RefTestNonNull(..) => Op::Prefixed(0xFB, 20),
            Instruction::RefTestNullable(..) => Op::Prefixed(0xFB, 21),
            Instruction::RefCastNonNull(..) => Op::Prefixed(0xFB, 22),
            Instruction::RefCastNullable(..) => Op::Prefixed(0xFB, 23),
            Instruction::BrOnCast { .. } => Op::Prefixed(0xFB, 24),
            Instruction::BrOnCastFail { .. } => Op::Prefixed(0xFB, 25),
            Instruction::StructNewDesc(..) => Op::Prefixed(0xFB, 32),
            Instruction::StructNewDefaultDesc(..) => Op::Prefixed(0xFB, 33),
            Instruction::RefGetDesc(..) => Op::Prefixed(0xFB, 34),
            Instruction::RefCastDescEqNonNull(..) => Op::Prefixed(0xFB, 35),
            Instruction::RefCastDescEqNullable(..) => Op::Prefixed(0xFB, 36),
            Instruction::BrOnCastDescEq { .. } => Op::Prefixed(0xFB, 37),
            Instruction::BrOnCastDescEqFail { .. } => Op::Prefixed(0xFB, 38),
            Instruction::MemoryInit { .. } => Op::Prefixed(0xFC, 8),
            Instruction::DataDrop(..) => Op::Prefixed(0xFC, 9),
            Instruction::MemoryCopy { .. } => Op::Prefixed(0xFC, 10),
            Instruction::MemoryFill(..) => Op::Prefixed(0xFC, 11),
            Instruction::TableInit { .. } => Op::Prefixed(0xFC, 12),
            Instruction::ElemDrop(..) => Op::Prefixed(0xFC, 13),
            Instruction::TableCopy { .. } => Op::Prefixed(0xFC, 14),
            Instruction::TableGrow(..) => Op::Prefixed(0xFC, 15),
            Instruction::TableSize(..) => Op::Prefixed(0xFC, 16),
            Instruction::TableFill(..) => Op::Prefixed(0xFC, 17),
            Instruction::MemoryDiscard(..) => Op::Prefixed(0xFC, 18),
            Instruction::Numeric(i) => i.op(),
            Instruction::Aggregate(i) => i.op(),
            Instruction::PrefixedNumeric(i) => i.op(),
            Instruction::Vector(i) => i.op(),
            Instruction::VectorImmediate(i) => i.op(),
            Instruction::Atomic(i) => i.op(),
        }
    }

    /// Appends the immediates.
    fn encode_arguments<B: Sink>(&self, sink: &mut B) -> Result<()> {
        match self {
            Instruction::Block(a)
            | Instruction::Loop(a)
            | Instruction::If(a)
            | Instruction::Try(a) => a.encode(sink),
            Instruction::Catch(a)
            | Instruction::Throw(a)
            | Instruction::Rethrow(a)
            | Instruction::Br(a)
            | Instruction::BrIf(a)
            | Instruction::Call(a)
            | Instruction::ReturnCall(a)
            | Instruction::CallRef(a)
            | Instruction::ReturnCallRef(a)
            | Instruction::Delegate(a)
            | Instruction::LocalGet(a) => a.encode(sink),
            Instruction::LocalSet(a)
            | Instruction::LocalTee(a)
            | Instruction::GlobalGet(a)
            | Instruction::GlobalSet(a)
            | Instruction::TableGet(a)
            | Instruction::TableSet(a)
            | Instruction::MemorySize(a)
            | Instruction::MemoryGrow(a)
            | Instruction::RefFunc(a)
            | Instruction::BrOnNull(a)
            | Instruction::BrOnNonNull(a) => a.encode(sink),
            Instruction::ContNew(a)
            | Instruction::Suspend(a)
            | Instruction::StructNew(a)
            | Instruction::StructNewDefault(a)
            | Instruction::ArrayNew(a)
            | Instruction::ArrayNewDefault(a)
            | Instruction::ArrayGet(a)
            | Instruction::ArrayGetS(a)
            | Instruction::ArrayGetU(a)
            | Instruction::ArraySet(a)
            | Instruction::ArrayFill(a) => a.encode(sink),
            Instruction::StructNewDesc(a)
            | Instruction::StructNewDefaultDesc(a)
            | Instruction::RefGetDesc(a)
            | Instruction::DataDrop(a)
            | Instruction::MemoryFill(a)
            | Instruction::ElemDrop(a)
            | Instruction::TableGrow(a)
            | Instruction::TableSize(a)
            | Instruction::TableFill(a)
            | Instruction::MemoryDiscard(a) => a.encode(sink),
            Instruction::BrTable(a, b) => encode_labels(a.as_slice(), *b, sink),
            Instruction::CallIndirect {
                type_index,
                table_index,
            }
            | Instruction::ReturnCallIndirect {
                type_index,
                table_index,
            } => (*type_index, *table_index).encode(sink),
            Instruction::TypedSelect(a) => slice::from_ref(a).encode(sink),
            Instruction::TypedSelectMulti(a) => a.as_slice().encode(sink),
            Instruction::TryTable(a, b) => encode_try_table(*a, b.as_slice(), sink),
            Instruction::I32Load(a)
            | Instruction::I64Load(a)
            | Instruction::F32Load(a)
            | Instruction::F64Load(a)
            | Instruction::I32Load8S(a)
            | Instruction::I32Load8U(a)
            | Instruction::I32Load16S(a)
            | Instruction::I32Load16U(a)
            | Instruction::I64Load8S(a)
            | Instruction::I64Load8U(a)
            | Instruction::I64Load16S(a)
            | Instruction::I64Load16U(a) => a.encode(sink),
            Instruction::I64Load32S(a)
            | Instruction::I64Load32U(a)
            | Instruction::I32Store(a)
            | Instruction::I64Store(a)
            | Instruction::F32Store(a)
            | Instruction::F64Store(a)
            | Instruction::I32Store8(a)
            | Instruction::I32Store16(a)
            | Instruction::I64Store8(a)
            | Instruction::I64Store16(a)
            | Instruction::I64Store32(a) => a.encode(sink),
            Instruction::I32Const(a) => a.encode(sink),
            Instruction::I64Const(a) => a.encode(sink),
            Instruction::F32Const(a) => a.encode(sink),
            Instruction::F64Const(a) => a.encode(sink),
            Instruction::RefNull(a)
            | Instruction::RefTestNonNull(a)
            | Instruction::RefTestNullable(a)
            | Instruction::RefCastNonNull(a)
            | Instruction::RefCastNullable(a)
            | Instruction::RefCastDescEqNonNull(a)
            | Instruction::RefCastDescEqNullable(a) => a.encode(sink),
            Instruction::ContBind {
                argument_index: a,
                result_index: b,
            }
            | Instruction::Switch {
                cont_type_index: a,
                tag_index: b,
            }
            | Instruction::StructGet {
                struct_type_index: a,
                field_index: b,
            }
            | Instruction::StructGetS {
                struct_type_index: a,
                field_index: b,
            }
            | Instruction::StructGetU {
                struct_type_index: a,
                field_index: b,
            }
            | Instruction::StructSet {
                struct_type_index: a,
                field_index: b,
            }
            | Instruction::ArrayNewFixed {
                array_type_index: a,
                array_size: b,
            }
            | Instruction::ArrayNewData {
                array_type_index: a,
                array_data_index: b,
            } => (*a, *b).encode(sink),
            Instruction::ArrayNewElem {
                array_type_index: a,
                array_elem_index: b,
            }
            | Instruction::ArrayCopy {
                array_type_index_dst: a,
                array_type_index_src: b,
            }
            | Instruction::ArrayInitData {
                array_type_index: a,
                array_data_index: b,
            }
            | Instruction::ArrayInitElem {
                array_type_index: a,
                array_elem_index: b,
            }
            | Instruction::MemoryInit {
                data_index: a,
                mem: b,
            }
            | Instruction::MemoryCopy {
                dst_mem: a,
                src_mem: b,
            }
            | Instruction::TableInit {
                elem_index: a,
                table: b,
            }
            | Instruction::TableCopy {
                dst_table: a,
                src_table: b,
            } => (*a, *b).encode(sink),
            Instruction::Resume {
                cont_type_index: a,
                resume_table: b,
            }
            | Instruction::ResumeThrowRef {
                cont_type_index: a,
                resume_table: b,
            } => encode_resume(*a, b.as_slice(), sink),
            Instruction::ResumeThrow {
                cont_type_index: a,
                tag_index: b,
                resume_table: c,
            } => encode_resume_throw(*a, *b, c.as_slice(), sink),
            Instruction::BrOnCast {
                relative_depth: a,
                from_ref_type: b,
                to_ref_type: c,
            }
            | Instruction::BrOnCastFail {
                relative_depth: a,
                from_ref_type: b,
                to_ref_type: c,
            }
            | Instruction::BrOnCastDescEq {
                relative_depth: a,
                from_ref_type: b,
                to_ref_type: c,
            }
            | Instruction::BrOnCastDescEqFail {
                relative_depth: a,
                from_ref_type: b,
                to_ref_type: c,
            } => encode_cast(*a, *b, *c, sink),
            Instruction::Unreachable
            | Instruction::Nop
            | Instruction::Else
            | Instruction::ThrowRef
            | Instruction::End
            | Instruction::Return
            | Instruction::CatchAll
            | Instruction::Drop => Ok(()),
            Instruction::Select
            | Instruction::RefIsNull
            | Instruction::RefEq
            | Instruction::RefAsNonNull
            | Instruction::Numeric(_)
            | Instruction::Aggregate(_)
            | Instruction::PrefixedNumeric(_)
            | Instruction::Vector(_) => Ok(()),
            Instruction::VectorImmediate(a) => a.encode_arguments(sink),
            Instruction::Atomic(a) => a.encode_arguments(sink),
        }
    }
}

// A function for each group of cases clones it, since proof time grows with the square of the
// number of arms.
impl<'a, A: Allocator + Copy> Instruction<'a, A> {
    /// Returns a copy. Owned lists are copied with their own allocator.
    ///
    /// # Errors
    ///
    /// Returns [`Refused::Memory`] if an allocation fails, and never [`Refused::TooLong`].
    ///
    /// # Proved
    ///
    /// After `Ok`: `ok`, the result has the same content. In any case: `err`, no error is `TooLong`.
    ///
    /// ```text
    /// ensures ok { IfOk result (λ i. row_of i ≡ row_of self.now) }
    /// ensures err { result ≢ Err Refused.TooLong }
    /// ```
    ///
    /// Definitions: [`row_of`](crate::definitions::insn::instructions::row_of). [How to read clauses](crate::definitions).
    pub fn clone(&self) -> Result<Self> {
        Ok(match self {
            Instruction::Unreachable => Instruction::Unreachable,
            Instruction::Nop => Instruction::Nop,
            Instruction::Block(a) => Instruction::Block(*a),
            Instruction::Loop(a) => Instruction::Loop(*a),
            Instruction::If(a) => Instruction::If(*a),
            Instruction::Else => Instruction::Else,
            Instruction::Try(a) => Instruction::Try(*a),
            Instruction::Catch(a) => Instruction::Catch(*a),
            Instruction::Throw(a) => Instruction::Throw(*a),
            Instruction::Rethrow(a) => Instruction::Rethrow(*a),
            Instruction::ThrowRef => Instruction::ThrowRef,
            Instruction::End => Instruction::End,
            Instruction::Br(a) => Instruction::Br(*a),
            Instruction::BrIf(a) => Instruction::BrIf(*a),
            Instruction::BrTable(a, b) => Instruction::BrTable(a.clone()?, *b),
            Instruction::Return => Instruction::Return,
            Instruction::Call(a) => Instruction::Call(*a),
            Instruction::CallIndirect {
                type_index,
                table_index,
            } => Instruction::CallIndirect {
                type_index: *type_index,
                table_index: *table_index,
            },
            Instruction::ReturnCall(a) => Instruction::ReturnCall(*a),
            Instruction::ReturnCallIndirect {
                type_index,
                table_index,
            } => Instruction::ReturnCallIndirect {
                type_index: *type_index,
                table_index: *table_index,
            },
            Instruction::CallRef(a) => Instruction::CallRef(*a),
            Instruction::ReturnCallRef(a) => Instruction::ReturnCallRef(*a),
            Instruction::Delegate(a) => Instruction::Delegate(*a),
            Instruction::CatchAll => Instruction::CatchAll,
            Instruction::Drop => Instruction::Drop,
            Instruction::Select => Instruction::Select,
            Instruction::TypedSelect(a) => Instruction::TypedSelect(*a),
            Instruction::TypedSelectMulti(a) => Instruction::TypedSelectMulti(a.clone()?),
            Instruction::TryTable(a, b) => Instruction::TryTable(*a, b.clone()?),
            _ => return self.clone_access(),
        })
    }

    /// Returns a copy of an instruction that accesses variables, table elements or memory; or of a
    /// later group.
    fn clone_access(&self) -> Result<Self> {
        Ok(match self {
            Instruction::LocalGet(a) => Instruction::LocalGet(*a),
            Instruction::LocalSet(a) => Instruction::LocalSet(*a),
            Instruction::LocalTee(a) => Instruction::LocalTee(*a),
            Instruction::GlobalGet(a) => Instruction::GlobalGet(*a),
            Instruction::GlobalSet(a) => Instruction::GlobalSet(*a),
            Instruction::TableGet(a) => Instruction::TableGet(*a),
            Instruction::TableSet(a) => Instruction::TableSet(*a),
            Instruction::I32Load(a) => Instruction::I32Load(*a),
            Instruction::I64Load(a) => Instruction::I64Load(*a),
            Instruction::F32Load(a) => Instruction::F32Load(*a),
            Instruction::F64Load(a) => Instruction::F64Load(*a),
            Instruction::I32Load8S(a) => Instruction::I32Load8S(*a),
            Instruction::I32Load8U(a) => Instruction::I32Load8U(*a),
            Instruction::I32Load16S(a) => Instruction::I32Load16S(*a),
            Instruction::I32Load16U(a) => Instruction::I32Load16U(*a),
            Instruction::I64Load8S(a) => Instruction::I64Load8S(*a),
            Instruction::I64Load8U(a) => Instruction::I64Load8U(*a),
            Instruction::I64Load16S(a) => Instruction::I64Load16S(*a),
            Instruction::I64Load16U(a) => Instruction::I64Load16U(*a),
            Instruction::I64Load32S(a) => Instruction::I64Load32S(*a),
            Instruction::I64Load32U(a) => Instruction::I64Load32U(*a),
            Instruction::I32Store(a) => Instruction::I32Store(*a),
            Instruction::I64Store(a) => Instruction::I64Store(*a),
            Instruction::F32Store(a) => Instruction::F32Store(*a),
            Instruction::F64Store(a) => Instruction::F64Store(*a),
            Instruction::I32Store8(a) => Instruction::I32Store8(*a),
            Instruction::I32Store16(a) => Instruction::I32Store16(*a),
            Instruction::I64Store8(a) => Instruction::I64Store8(*a),
            Instruction::I64Store16(a) => Instruction::I64Store16(*a),
            Instruction::I64Store32(a) => Instruction::I64Store32(*a),
            Instruction::MemorySize(a) => Instruction::MemorySize(*a),
            Instruction::MemoryGrow(a) => Instruction::MemoryGrow(*a),
            _ => return self.clone_reference(),
        })
    }

    /// Returns a copy of a constant, or of an instruction on references or continuations; or of a
    /// later group.
    fn clone_reference(&self) -> Result<Self> {
        Ok(match self {
            Instruction::I32Const(a) => Instruction::I32Const(*a),
            Instruction::I64Const(a) => Instruction::I64Const(*a),
            Instruction::F32Const(a) => Instruction::F32Const(*a),
            Instruction::F64Const(a) => Instruction::F64Const(*a),
            Instruction::RefNull(a) => Instruction::RefNull(*a),
            Instruction::RefIsNull => Instruction::RefIsNull,
            Instruction::RefFunc(a) => Instruction::RefFunc(*a),
            Instruction::RefEq => Instruction::RefEq,
            Instruction::RefAsNonNull => Instruction::RefAsNonNull,
            Instruction::BrOnNull(a) => Instruction::BrOnNull(*a),
            Instruction::BrOnNonNull(a) => Instruction::BrOnNonNull(*a),
            Instruction::ContNew(a) => Instruction::ContNew(*a),
            Instruction::ContBind {
                argument_index,
                result_index,
            } => Instruction::ContBind {
                argument_index: *argument_index,
                result_index: *result_index,
            },
            Instruction::Suspend(a) => Instruction::Suspend(*a),
            Instruction::Resume {
                cont_type_index,
                resume_table,
            } => Instruction::Resume {
                cont_type_index: *cont_type_index,
                resume_table: resume_table.clone()?,
            },
            Instruction::ResumeThrow {
                cont_type_index,
                tag_index,
                resume_table,
            } => Instruction::ResumeThrow {
                cont_type_index: *cont_type_index,
                tag_index: *tag_index,
                resume_table: resume_table.clone()?,
            },
            Instruction::ResumeThrowRef {
                cont_type_index,
                resume_table,
            } => Instruction::ResumeThrowRef {
                cont_type_index: *cont_type_index,
                resume_table: resume_table.clone()?,
            },
            Instruction::Switch {
                cont_type_index,
                tag_index,
            } => Instruction::Switch {
                cont_type_index: *cont_type_index,
                tag_index: *tag_index,
            },
            _ => return self.clone_aggregate(),
        })
    }

    /// Returns a copy of an instruction on structs or arrays, or of a cast; or of a later group.
    fn clone_aggregate(&self) -> Result<Self> {
        Ok(match self {
            Instruction::StructNew(a) => Instruction::StructNew(*a),
            Instruction::StructNewDefault(a) => Instruction::StructNewDefault(*a),
            Instruction::StructGet {
                struct_type_index,
                field_index,
            } => Instruction::StructGet {
                struct_type_index: *struct_type_index,
                field_index: *field_index,
            },
            Instruction::StructGetS {
                struct_type_index,
                field_index,
            } => Instruction::StructGetS {
                struct_type_index: *struct_type_index,
                field_index: *field_index,
            },
            Instruction::StructGetU {
                struct_type_index,
                field_index,
            } => Instruction::StructGetU {
                struct_type_index: *struct_type_index,
                field_index: *field_index,
            },
            Instruction::StructSet {
                struct_type_index,
                field_index,
            } => Instruction::StructSet {
                struct_type_index: *struct_type_index,
                field_index: *field_index,
            },
            Instruction::ArrayNew(a) => Instruction::ArrayNew(*a),
            Instruction::ArrayNewDefault(a) => Instruction::ArrayNewDefault(*a),
            Instruction::ArrayNewFixed {
                array_type_index,
                array_size,
            } => Instruction::ArrayNewFixed {
                array_type_index: *array_type_index,
                array_size: *array_size,
            },
            Instruction::ArrayNewData {
                array_type_index,
                array_data_index,
            } => Instruction::ArrayNewData {
                array_type_index: *array_type_index,
                array_data_index: *array_data_index,
            },
            Instruction::ArrayNewElem {
                array_type_index,
                array_elem_index,
            } => Instruction::ArrayNewElem {
                array_type_index: *array_type_index,
                array_elem_index: *array_elem_index,
            },
            Instruction::ArrayGet(a) => Instruction::ArrayGet(*a),
            Instruction::ArrayGetS(a) => Instruction::ArrayGetS(*a),
            Instruction::ArrayGetU(a) => Instruction::ArrayGetU(*a),
            Instruction::ArraySet(a) => Instruction::ArraySet(*a),
            Instruction::ArrayFill(a) => Instruction::ArrayFill(*a),
            Instruction::ArrayCopy {
                array_type_index_dst,
                array_type_index_src,
            } => Instruction::ArrayCopy {
                array_type_index_dst: *array_type_index_dst,
                array_type_index_src: *array_type_index_src,
            },
            Instruction::ArrayInitData {
                array_type_index,
                array_data_index,
            } => Instruction::ArrayInitData {
                array_type_index: *array_type_index,
                array_data_index: *array_data_index,
            },
            Instruction::ArrayInitElem {
                array_type_index,
                array_elem_index,
            } => Instruction::ArrayInitElem {
                array_type_index: *array_type_index,
                array_elem_index: *array_elem_index,
            },
            Instruction::RefTestNonNull(a) => Instruction::RefTestNonNull(*a),
            Instruction::RefTestNullable(a) => Instruction::RefTestNullable(*a),
            Instruction::RefCastNonNull(a) => Instruction::RefCastNonNull(*a),
            Instruction::RefCastNullable(a) => Instruction::RefCastNullable(*a),
            Instruction::BrOnCast {
                relative_depth,
                from_ref_type,
                to_ref_type,
            } => Instruction::BrOnCast {
                relative_depth: *relative_depth,
                from_ref_type: *from_ref_type,
                to_ref_type: *to_ref_type,
            },
            Instruction::BrOnCastFail {
                relative_depth,
                from_ref_type,
                to_ref_type,
            } => Instruction::BrOnCastFail {
                relative_depth: *relative_depth,
                from_ref_type: *from_ref_type,
                to_ref_type: *to_ref_type,
            },
            Instruction::StructNewDesc(a) => Instruction::StructNewDesc(*a),
            Instruction::StructNewDefaultDesc(a) => Instruction::StructNewDefaultDesc(*a),
            Instruction::RefGetDesc(a) => Instruction::RefGetDesc(*a),
            Instruction::RefCastDescEqNonNull(a) => Instruction::RefCastDescEqNonNull(*a),
            Instruction::RefCastDescEqNullable(a) => Instruction::RefCastDescEqNullable(*a),
            Instruction::BrOnCastDescEq {
                relative_depth,
                from_ref_type,
                to_ref_type,
            } => Instruction::BrOnCastDescEq {
                relative_depth: *relative_depth,
                from_ref_type: *from_ref_type,
                to_ref_type: *to_ref_type,
            },
            Instruction::BrOnCastDescEqFail {
                relative_depth,
                from_ref_type,
                to_ref_type,
            } => Instruction::BrOnCastDescEqFail {
                relative_depth: *relative_depth,
                from_ref_type: *from_ref_type,
                to_ref_type: *to_ref_type,
            },
            _ => return self.clone_bulk(),
        })
    }

    /// Returns a copy of an instruction on whole segments, tables or memories, or of a case of a
    /// nested enum.
    fn clone_bulk(&self) -> Result<Self> {
        Ok(match self {
            Instruction::MemoryInit { data_index, mem } => Instruction::MemoryInit {
                data_index: *data_index,
                mem: *mem,
            },
            Instruction::DataDrop(a) => Instruction::DataDrop(*a),
            Instruction::MemoryCopy { dst_mem, src_mem } => Instruction::MemoryCopy {
                dst_mem: *dst_mem,
                src_mem: *src_mem,
            },
            Instruction::MemoryFill(a) => Instruction::MemoryFill(*a),
            Instruction::TableInit { elem_index, table } => Instruction::TableInit {
                elem_index: *elem_index,
                table: *table,
            },
            Instruction::ElemDrop(a) => Instruction::ElemDrop(*a),
            Instruction::TableCopy {
                dst_table,
                src_table,
            } => Instruction::TableCopy {
                dst_table: *dst_table,
                src_table: *src_table,
            },
            Instruction::TableGrow(a) => Instruction::TableGrow(*a),
            Instruction::TableSize(a) => Instruction::TableSize(*a),
            Instruction::TableFill(a) => Instruction::TableFill(*a),
            Instruction::MemoryDiscard(a) => Instruction::MemoryDiscard(*a),
            Instruction::Numeric(i) => Instruction::Numeric(*i),
            Instruction::Aggregate(i) => Instruction::Aggregate(*i),
            Instruction::PrefixedNumeric(i) => Instruction::PrefixedNumeric(*i),
            Instruction::Vector(i) => Instruction::Vector(*i),
            Instruction::VectorImmediate(i) => Instruction::VectorImmediate(*i),
            Instruction::Atomic(i) => Instruction::Atomic(*i),
            // Not reached: the functions above have copied all other cases.
            _ => return Err(Refused::Memory),
        })
    }
}

/// Encodes the opcode, and then the immediates.
///
/// # Defined
///
/// ```text
/// encoding = { instruction_encoding }
/// encodable = { IsEncodableInstruction }
/// decoding = { DecodesInstruction }
/// ```
///
/// Definitions: [`instruction_encoding`](crate::definitions::insn::instructions::instruction_encoding), [`IsEncodableInstruction`](crate::definitions::insn::instructions::IsEncodableInstruction), [`DecodesInstruction`](crate::definitions::insn::instructions::DecodesInstruction). [How to read clauses](crate::definitions).
impl<'a, A: Allocator> Encode for Instruction<'a, A> {
    fn encode<B: Sink>(&self, sink: &mut B) -> Result<()> {
        let start = sink.len();
        self.op().encode(sink)?;
        if let Err(refused) = self.encode_arguments(sink) {
            sink.truncate(start);
            return Err(refused);
        }
        Ok(())
    }
}
