// Written by tools/drop-in from tools/instructions.tsv: change that.
//! The instructions, as cases of one enum.

use super::Encode;
use super::bytes::append;
use super::short::{EMPTY_BLOCK, Short, put_short};
use crate::base::{self, CowSlice, HeapType, Lent, RefType, ValType};
use crate::alloc::{Allocator, Global};
use crate::insn::{self, BlockType, Catch, Handle, Ieee32, Ieee64, Lane, MemArg, Op, Ordering};
use crate::reader::{Arg, Decoded, Plain, ReadFault};
use alloc_crate::borrow::Cow;
use alloc_crate::vec::Vec;

/// An instruction as a value, with its immediates.
///
/// [`Function::instruction`](super::Function::instruction) appends one to a body,
/// [`ConstExpr::extended`](super::ConstExpr::extended) makes a constant expression of some, and
/// `encode` of [`Encode`] appends its bytes to a list. Each case also has a named call of
/// [`InstructionSink`](super::InstructionSink), which takes its immediates as arguments.
///
/// The line of a case has the instruction's name in the text format, its opcode, its class, and
/// what it does. An opcode is one byte, such as 0x6A, or a prefix and a number as unsigned LEB128,
/// such as 0xFC 10. Instructions whose line names no proposal are defined in the core
/// specification, Binary Format, [Instructions].
///
/// The enum is `non_exhaustive`: a `match` outside this package needs a wildcard. To decode
/// instructions, see [`reader::CodeBody::instructions`](crate::reader::CodeBody::instructions);
/// `Instruction::try_from(decoded)` converts a decoded one.
///
/// ```
/// use dolzhytik::{BlockType, Encode, Instruction};
///
/// let mut bytes = Vec::new();
/// for instruction in [
///     Instruction::Block(BlockType::Empty),
///     Instruction::I32Const(-1),
///     Instruction::BrTable(vec![0, 0].into(), 0),
///     Instruction::End,
/// ] {
///     instruction.encode(&mut bytes);
/// }
/// // block: 02 and the empty type 40. i32.const: 41 and -1 as signed LEB128. br_table: 0E, two
/// // labels, and the default label. end: 0B.
/// assert_eq!(bytes, [0x02, 0x40, 0x41, 0x7F, 0x0E, 2, 0, 0, 0, 0x0B]);
/// ```
///
/// [Instructions]: https://webassembly.github.io/spec/core/binary/instructions.html
#[derive(Clone, Debug)]
#[non_exhaustive]
pub enum Instruction<'a> {
    /// `unreachable` (opcode 0x00), a control instruction that traps.
    /// [`InstructionSink::unreachable`](super::InstructionSink::unreachable) appends it.
    Unreachable,
    /// `nop` (opcode 0x01), a control instruction that does nothing.
    /// [`InstructionSink::nop`](super::InstructionSink::nop) appends it.
    Nop,
    /// `block` (opcode 0x02), a control instruction that begins a block, with its label at the end.
    /// [`InstructionSink::block`](super::InstructionSink::block) appends it, with the immediate `block_type`.
    Block(BlockType),
    /// `loop` (opcode 0x03), a control instruction that begins a block, with its label at the start.
    /// [`InstructionSink::loop_`](super::InstructionSink::loop_) appends it, with the immediate `block_type`.
    Loop(BlockType),
    /// `if` (opcode 0x04), a control instruction that begins a block that is executed if the operand is not zero.
    /// [`InstructionSink::if_`](super::InstructionSink::if_) appends it, with the immediate `block_type`.
    If(BlockType),
    /// `else` (opcode 0x05), a delimiter of control instructions that begins the branch of an `if` for zero.
    /// [`InstructionSink::else_`](super::InstructionSink::else_) appends it.
    Else,
    /// `try` (opcode 0x06), a control instruction of the legacy exception handling proposal that begins a block with handlers of exceptions.
    /// [`InstructionSink::try_`](super::InstructionSink::try_) appends it, with the immediate `block_type`.
    Try(BlockType),
    /// `catch` (opcode 0x07), a control instruction of the legacy exception handling proposal that begins the handler of exceptions with a tag.
    /// [`InstructionSink::catch`](super::InstructionSink::catch) appends it, with the immediate `tag_index`.
    Catch(u32),
    /// `throw` (opcode 0x08), a control instruction that throws an exception with a tag.
    /// [`InstructionSink::throw`](super::InstructionSink::throw) appends it, with the immediate `tag_index`.
    Throw(u32),
    /// `rethrow` (opcode 0x09), a control instruction of the legacy exception handling proposal that throws a caught exception again.
    /// [`InstructionSink::rethrow`](super::InstructionSink::rethrow) appends it, with the immediate `label`.
    Rethrow(u32),
    /// `throw_ref` (opcode 0x0A), a control instruction that throws the exception of a reference.
    /// [`InstructionSink::throw_ref`](super::InstructionSink::throw_ref) appends it.
    ThrowRef,
    /// `end` (opcode 0x0B), a delimiter of control instructions and expressions that ends a block, a body or a constant expression.
    /// [`InstructionSink::end`](super::InstructionSink::end) appends it.
    End,
    /// `br` (opcode 0x0C), a control instruction that branches to a label.
    /// [`InstructionSink::br`](super::InstructionSink::br) appends it, with the immediate `label`.
    Br(u32),
    /// `br_if` (opcode 0x0D), a control instruction that branches to a label if the operand is not zero.
    /// [`InstructionSink::br_if`](super::InstructionSink::br_if) appends it, with the immediate `label`.
    BrIf(u32),
    /// `br_table` (opcode 0x0E), a control instruction that branches to one of several labels, selected by an index.
    /// [`InstructionSink::br_table`](super::InstructionSink::br_table) appends it, with the immediates `labels` and `default`.
    BrTable(Cow<'a, [u32]>, u32),
    /// `return` (opcode 0x0F), a control instruction that returns from the function.
    /// [`InstructionSink::return_`](super::InstructionSink::return_) appends it.
    Return,
    /// `call` (opcode 0x10), a control instruction that calls a function.
    /// [`InstructionSink::call`](super::InstructionSink::call) appends it, with the immediate `function_index`.
    Call(u32),
    /// `call_indirect` (opcode 0x11), a control instruction that calls a function of a table.
    /// [`InstructionSink::call_indirect`](super::InstructionSink::call_indirect) appends it.
    CallIndirect {
        /// The index of the function type.
        type_index: u32,
        /// The index of the table.
        table_index: u32,
    },
    /// `return_call` (opcode 0x12), a control instruction that calls a function, and returns its results.
    /// [`InstructionSink::return_call`](super::InstructionSink::return_call) appends it, with the immediate `function_index`.
    ReturnCall(u32),
    /// `return_call_indirect` (opcode 0x13), a control instruction that calls a function of a table, and returns its results.
    /// [`InstructionSink::return_call_indirect`](super::InstructionSink::return_call_indirect) appends it.
    ReturnCallIndirect {
        /// The index of the function type.
        type_index: u32,
        /// The index of the table.
        table_index: u32,
    },
    /// `call_ref` (opcode 0x14), a control instruction that calls the function of a reference.
    /// [`InstructionSink::call_ref`](super::InstructionSink::call_ref) appends it, with the immediate `type_index`.
    CallRef(u32),
    /// `return_call_ref` (opcode 0x15), a control instruction that calls the function of a reference, and returns its results.
    /// [`InstructionSink::return_call_ref`](super::InstructionSink::return_call_ref) appends it, with the immediate `type_index`.
    ReturnCallRef(u32),
    /// `delegate` (opcode 0x18), a control instruction of the legacy exception handling proposal that ends a `try`, and passes its exceptions to an outer block.
    /// [`InstructionSink::delegate`](super::InstructionSink::delegate) appends it, with the immediate `label`.
    Delegate(u32),
    /// `catch_all` (opcode 0x19), a control instruction of the legacy exception handling proposal that begins the handler of all exceptions.
    /// [`InstructionSink::catch_all`](super::InstructionSink::catch_all) appends it.
    CatchAll,
    /// `drop` (opcode 0x1A), a parametric instruction that drops a value.
    /// [`InstructionSink::drop`](super::InstructionSink::drop) appends it.
    Drop,
    /// `select` (opcode 0x1B), a parametric instruction that selects one of two values by a condition.
    /// [`InstructionSink::select`](super::InstructionSink::select) appends it.
    Select,
    /// `select (result t)` (opcode 0x1C), a parametric instruction that selects one of two values by a condition.
    /// [`InstructionSink::typed_select`](super::InstructionSink::typed_select) appends it, with the immediate `ty`.
    TypedSelect(ValType),
    /// `select (result t*)` (opcode 0x1C), a parametric instruction that selects one of two values by a condition.
    /// [`InstructionSink::typed_select_multi`](super::InstructionSink::typed_select_multi) appends it, with the immediate `types`.
    TypedSelectMulti(Cow<'a, [ValType]>),
    /// `try_table` (opcode 0x1F), a control instruction that begins a block with catch clauses.
    /// [`InstructionSink::try_table`](super::InstructionSink::try_table) appends it, with the immediates `block_type` and `catches`.
    TryTable(BlockType, Cow<'a, [Catch]>),
    /// `local.get` (opcode 0x20), a variable instruction that reads a local.
    /// [`InstructionSink::local_get`](super::InstructionSink::local_get) appends it, with the immediate `local_index`.
    #[doc(alias = "local.get")]
    LocalGet(u32),
    /// `local.set` (opcode 0x21), a variable instruction that writes a local.
    /// [`InstructionSink::local_set`](super::InstructionSink::local_set) appends it, with the immediate `local_index`.
    #[doc(alias = "local.set")]
    LocalSet(u32),
    /// `local.tee` (opcode 0x22), a variable instruction that writes a local, and keeps the value.
    /// [`InstructionSink::local_tee`](super::InstructionSink::local_tee) appends it, with the immediate `local_index`.
    #[doc(alias = "local.tee")]
    LocalTee(u32),
    /// `global.get` (opcode 0x23), a variable instruction that reads a global.
    /// [`InstructionSink::global_get`](super::InstructionSink::global_get) appends it, with the immediate `global_index`.
    #[doc(alias = "global.get")]
    GlobalGet(u32),
    /// `global.set` (opcode 0x24), a variable instruction that writes a global.
    /// [`InstructionSink::global_set`](super::InstructionSink::global_set) appends it, with the immediate `global_index`.
    #[doc(alias = "global.set")]
    GlobalSet(u32),
    /// `table.get` (opcode 0x25), a table instruction that reads an element of a table.
    /// [`InstructionSink::table_get`](super::InstructionSink::table_get) appends it, with the immediate `table`.
    #[doc(alias = "table.get")]
    TableGet(u32),
    /// `table.set` (opcode 0x26), a table instruction that writes an element of a table.
    /// [`InstructionSink::table_set`](super::InstructionSink::table_set) appends it, with the immediate `table`.
    #[doc(alias = "table.set")]
    TableSet(u32),
    /// `i32.load` (opcode 0x28), a memory instruction that loads a number from a memory.
    /// [`InstructionSink::i32_load`](super::InstructionSink::i32_load) appends it, with the immediate `memarg`.
    #[doc(alias = "i32.load")]
    I32Load(MemArg),
    /// `i64.load` (opcode 0x29), a memory instruction that loads a number from a memory.
    /// [`InstructionSink::i64_load`](super::InstructionSink::i64_load) appends it, with the immediate `memarg`.
    #[doc(alias = "i64.load")]
    I64Load(MemArg),
    /// `f32.load` (opcode 0x2A), a memory instruction that loads a number from a memory.
    /// [`InstructionSink::f32_load`](super::InstructionSink::f32_load) appends it, with the immediate `memarg`.
    #[doc(alias = "f32.load")]
    F32Load(MemArg),
    /// `f64.load` (opcode 0x2B), a memory instruction that loads a number from a memory.
    /// [`InstructionSink::f64_load`](super::InstructionSink::f64_load) appends it, with the immediate `memarg`.
    #[doc(alias = "f64.load")]
    F64Load(MemArg),
    /// `i32.load8_s` (opcode 0x2C), a memory instruction that loads a number from a memory.
    /// [`InstructionSink::i32_load8_s`](super::InstructionSink::i32_load8_s) appends it, with the immediate `memarg`.
    #[doc(alias = "i32.load8_s")]
    I32Load8S(MemArg),
    /// `i32.load8_u` (opcode 0x2D), a memory instruction that loads a number from a memory.
    /// [`InstructionSink::i32_load8_u`](super::InstructionSink::i32_load8_u) appends it, with the immediate `memarg`.
    #[doc(alias = "i32.load8_u")]
    I32Load8U(MemArg),
    /// `i32.load16_s` (opcode 0x2E), a memory instruction that loads a number from a memory.
    /// [`InstructionSink::i32_load16_s`](super::InstructionSink::i32_load16_s) appends it, with the immediate `memarg`.
    #[doc(alias = "i32.load16_s")]
    I32Load16S(MemArg),
    /// `i32.load16_u` (opcode 0x2F), a memory instruction that loads a number from a memory.
    /// [`InstructionSink::i32_load16_u`](super::InstructionSink::i32_load16_u) appends it, with the immediate `memarg`.
    #[doc(alias = "i32.load16_u")]
    I32Load16U(MemArg),
    /// `i64.load8_s` (opcode 0x30), a memory instruction that loads a number from a memory.
    /// [`InstructionSink::i64_load8_s`](super::InstructionSink::i64_load8_s) appends it, with the immediate `memarg`.
    #[doc(alias = "i64.load8_s")]
    I64Load8S(MemArg),
    /// `i64.load8_u` (opcode 0x31), a memory instruction that loads a number from a memory.
    /// [`InstructionSink::i64_load8_u`](super::InstructionSink::i64_load8_u) appends it, with the immediate `memarg`.
    #[doc(alias = "i64.load8_u")]
    I64Load8U(MemArg),
    /// `i64.load16_s` (opcode 0x32), a memory instruction that loads a number from a memory.
    /// [`InstructionSink::i64_load16_s`](super::InstructionSink::i64_load16_s) appends it, with the immediate `memarg`.
    #[doc(alias = "i64.load16_s")]
    I64Load16S(MemArg),
    /// `i64.load16_u` (opcode 0x33), a memory instruction that loads a number from a memory.
    /// [`InstructionSink::i64_load16_u`](super::InstructionSink::i64_load16_u) appends it, with the immediate `memarg`.
    #[doc(alias = "i64.load16_u")]
    I64Load16U(MemArg),
    /// `i64.load32_s` (opcode 0x34), a memory instruction that loads a number from a memory.
    /// [`InstructionSink::i64_load32_s`](super::InstructionSink::i64_load32_s) appends it, with the immediate `memarg`.
    #[doc(alias = "i64.load32_s")]
    I64Load32S(MemArg),
    /// `i64.load32_u` (opcode 0x35), a memory instruction that loads a number from a memory.
    /// [`InstructionSink::i64_load32_u`](super::InstructionSink::i64_load32_u) appends it, with the immediate `memarg`.
    #[doc(alias = "i64.load32_u")]
    I64Load32U(MemArg),
    /// `i32.store` (opcode 0x36), a memory instruction that stores a number to a memory.
    /// [`InstructionSink::i32_store`](super::InstructionSink::i32_store) appends it, with the immediate `memarg`.
    #[doc(alias = "i32.store")]
    I32Store(MemArg),
    /// `i64.store` (opcode 0x37), a memory instruction that stores a number to a memory.
    /// [`InstructionSink::i64_store`](super::InstructionSink::i64_store) appends it, with the immediate `memarg`.
    #[doc(alias = "i64.store")]
    I64Store(MemArg),
    /// `f32.store` (opcode 0x38), a memory instruction that stores a number to a memory.
    /// [`InstructionSink::f32_store`](super::InstructionSink::f32_store) appends it, with the immediate `memarg`.
    #[doc(alias = "f32.store")]
    F32Store(MemArg),
    /// `f64.store` (opcode 0x39), a memory instruction that stores a number to a memory.
    /// [`InstructionSink::f64_store`](super::InstructionSink::f64_store) appends it, with the immediate `memarg`.
    #[doc(alias = "f64.store")]
    F64Store(MemArg),
    /// `i32.store8` (opcode 0x3A), a memory instruction that stores a number to a memory.
    /// [`InstructionSink::i32_store8`](super::InstructionSink::i32_store8) appends it, with the immediate `memarg`.
    #[doc(alias = "i32.store8")]
    I32Store8(MemArg),
    /// `i32.store16` (opcode 0x3B), a memory instruction that stores a number to a memory.
    /// [`InstructionSink::i32_store16`](super::InstructionSink::i32_store16) appends it, with the immediate `memarg`.
    #[doc(alias = "i32.store16")]
    I32Store16(MemArg),
    /// `i64.store8` (opcode 0x3C), a memory instruction that stores a number to a memory.
    /// [`InstructionSink::i64_store8`](super::InstructionSink::i64_store8) appends it, with the immediate `memarg`.
    #[doc(alias = "i64.store8")]
    I64Store8(MemArg),
    /// `i64.store16` (opcode 0x3D), a memory instruction that stores a number to a memory.
    /// [`InstructionSink::i64_store16`](super::InstructionSink::i64_store16) appends it, with the immediate `memarg`.
    #[doc(alias = "i64.store16")]
    I64Store16(MemArg),
    /// `i64.store32` (opcode 0x3E), a memory instruction that stores a number to a memory.
    /// [`InstructionSink::i64_store32`](super::InstructionSink::i64_store32) appends it, with the immediate `memarg`.
    #[doc(alias = "i64.store32")]
    I64Store32(MemArg),
    /// `memory.size` (opcode 0x3F), a memory instruction that returns the size of a memory in pages.
    /// [`InstructionSink::memory_size`](super::InstructionSink::memory_size) appends it, with the immediate `mem`.
    #[doc(alias = "memory.size")]
    MemorySize(u32),
    /// `memory.grow` (opcode 0x40), a memory instruction that grows a memory by a number of pages.
    /// [`InstructionSink::memory_grow`](super::InstructionSink::memory_grow) appends it, with the immediate `mem`.
    #[doc(alias = "memory.grow")]
    MemoryGrow(u32),
    /// `i32.const` (opcode 0x41), a numeric instruction that returns a constant.
    /// [`InstructionSink::i32_const`](super::InstructionSink::i32_const) appends it, with the immediate `value`.
    #[doc(alias = "i32.const")]
    I32Const(i32),
    /// `i64.const` (opcode 0x42), a numeric instruction that returns a constant.
    /// [`InstructionSink::i64_const`](super::InstructionSink::i64_const) appends it, with the immediate `value`.
    #[doc(alias = "i64.const")]
    I64Const(i64),
    /// `f32.const` (opcode 0x43), a numeric instruction that returns a constant.
    /// [`InstructionSink::f32_const`](super::InstructionSink::f32_const) appends it, with the immediate `value`.
    #[doc(alias = "f32.const")]
    F32Const(Ieee32),
    /// `f64.const` (opcode 0x44), a numeric instruction that returns a constant.
    /// [`InstructionSink::f64_const`](super::InstructionSink::f64_const) appends it, with the immediate `value`.
    #[doc(alias = "f64.const")]
    F64Const(Ieee64),
    /// `i32.eqz` (opcode 0x45), a numeric instruction that tests whether an integer is zero.
    /// [`InstructionSink::i32_eqz`](super::InstructionSink::i32_eqz) appends it.
    #[doc(alias = "i32.eqz")]
    I32Eqz,
    /// `i32.eq` (opcode 0x46), a numeric instruction that compares two numbers.
    /// [`InstructionSink::i32_eq`](super::InstructionSink::i32_eq) appends it.
    #[doc(alias = "i32.eq")]
    I32Eq,
    /// `i32.ne` (opcode 0x47), a numeric instruction that compares two numbers.
    /// [`InstructionSink::i32_ne`](super::InstructionSink::i32_ne) appends it.
    #[doc(alias = "i32.ne")]
    I32Ne,
    /// `i32.lt_s` (opcode 0x48), a numeric instruction that compares two numbers.
    /// [`InstructionSink::i32_lt_s`](super::InstructionSink::i32_lt_s) appends it.
    #[doc(alias = "i32.lt_s")]
    I32LtS,
    /// `i32.lt_u` (opcode 0x49), a numeric instruction that compares two numbers.
    /// [`InstructionSink::i32_lt_u`](super::InstructionSink::i32_lt_u) appends it.
    #[doc(alias = "i32.lt_u")]
    I32LtU,
    /// `i32.gt_s` (opcode 0x4A), a numeric instruction that compares two numbers.
    /// [`InstructionSink::i32_gt_s`](super::InstructionSink::i32_gt_s) appends it.
    #[doc(alias = "i32.gt_s")]
    I32GtS,
    /// `i32.gt_u` (opcode 0x4B), a numeric instruction that compares two numbers.
    /// [`InstructionSink::i32_gt_u`](super::InstructionSink::i32_gt_u) appends it.
    #[doc(alias = "i32.gt_u")]
    I32GtU,
    /// `i32.le_s` (opcode 0x4C), a numeric instruction that compares two numbers.
    /// [`InstructionSink::i32_le_s`](super::InstructionSink::i32_le_s) appends it.
    #[doc(alias = "i32.le_s")]
    I32LeS,
    /// `i32.le_u` (opcode 0x4D), a numeric instruction that compares two numbers.
    /// [`InstructionSink::i32_le_u`](super::InstructionSink::i32_le_u) appends it.
    #[doc(alias = "i32.le_u")]
    I32LeU,
    /// `i32.ge_s` (opcode 0x4E), a numeric instruction that compares two numbers.
    /// [`InstructionSink::i32_ge_s`](super::InstructionSink::i32_ge_s) appends it.
    #[doc(alias = "i32.ge_s")]
    I32GeS,
    /// `i32.ge_u` (opcode 0x4F), a numeric instruction that compares two numbers.
    /// [`InstructionSink::i32_ge_u`](super::InstructionSink::i32_ge_u) appends it.
    #[doc(alias = "i32.ge_u")]
    I32GeU,
    /// `i64.eqz` (opcode 0x50), a numeric instruction that tests whether an integer is zero.
    /// [`InstructionSink::i64_eqz`](super::InstructionSink::i64_eqz) appends it.
    #[doc(alias = "i64.eqz")]
    I64Eqz,
    /// `i64.eq` (opcode 0x51), a numeric instruction that compares two numbers.
    /// [`InstructionSink::i64_eq`](super::InstructionSink::i64_eq) appends it.
    #[doc(alias = "i64.eq")]
    I64Eq,
    /// `i64.ne` (opcode 0x52), a numeric instruction that compares two numbers.
    /// [`InstructionSink::i64_ne`](super::InstructionSink::i64_ne) appends it.
    #[doc(alias = "i64.ne")]
    I64Ne,
    /// `i64.lt_s` (opcode 0x53), a numeric instruction that compares two numbers.
    /// [`InstructionSink::i64_lt_s`](super::InstructionSink::i64_lt_s) appends it.
    #[doc(alias = "i64.lt_s")]
    I64LtS,
    /// `i64.lt_u` (opcode 0x54), a numeric instruction that compares two numbers.
    /// [`InstructionSink::i64_lt_u`](super::InstructionSink::i64_lt_u) appends it.
    #[doc(alias = "i64.lt_u")]
    I64LtU,
    /// `i64.gt_s` (opcode 0x55), a numeric instruction that compares two numbers.
    /// [`InstructionSink::i64_gt_s`](super::InstructionSink::i64_gt_s) appends it.
    #[doc(alias = "i64.gt_s")]
    I64GtS,
    /// `i64.gt_u` (opcode 0x56), a numeric instruction that compares two numbers.
    /// [`InstructionSink::i64_gt_u`](super::InstructionSink::i64_gt_u) appends it.
    #[doc(alias = "i64.gt_u")]
    I64GtU,
    /// `i64.le_s` (opcode 0x57), a numeric instruction that compares two numbers.
    /// [`InstructionSink::i64_le_s`](super::InstructionSink::i64_le_s) appends it.
    #[doc(alias = "i64.le_s")]
    I64LeS,
    /// `i64.le_u` (opcode 0x58), a numeric instruction that compares two numbers.
    /// [`InstructionSink::i64_le_u`](super::InstructionSink::i64_le_u) appends it.
    #[doc(alias = "i64.le_u")]
    I64LeU,
    /// `i64.ge_s` (opcode 0x59), a numeric instruction that compares two numbers.
    /// [`InstructionSink::i64_ge_s`](super::InstructionSink::i64_ge_s) appends it.
    #[doc(alias = "i64.ge_s")]
    I64GeS,
    /// `i64.ge_u` (opcode 0x5A), a numeric instruction that compares two numbers.
    /// [`InstructionSink::i64_ge_u`](super::InstructionSink::i64_ge_u) appends it.
    #[doc(alias = "i64.ge_u")]
    I64GeU,
    /// `f32.eq` (opcode 0x5B), a numeric instruction that compares two numbers.
    /// [`InstructionSink::f32_eq`](super::InstructionSink::f32_eq) appends it.
    #[doc(alias = "f32.eq")]
    F32Eq,
    /// `f32.ne` (opcode 0x5C), a numeric instruction that compares two numbers.
    /// [`InstructionSink::f32_ne`](super::InstructionSink::f32_ne) appends it.
    #[doc(alias = "f32.ne")]
    F32Ne,
    /// `f32.lt` (opcode 0x5D), a numeric instruction that compares two numbers.
    /// [`InstructionSink::f32_lt`](super::InstructionSink::f32_lt) appends it.
    #[doc(alias = "f32.lt")]
    F32Lt,
    /// `f32.gt` (opcode 0x5E), a numeric instruction that compares two numbers.
    /// [`InstructionSink::f32_gt`](super::InstructionSink::f32_gt) appends it.
    #[doc(alias = "f32.gt")]
    F32Gt,
    /// `f32.le` (opcode 0x5F), a numeric instruction that compares two numbers.
    /// [`InstructionSink::f32_le`](super::InstructionSink::f32_le) appends it.
    #[doc(alias = "f32.le")]
    F32Le,
    /// `f32.ge` (opcode 0x60), a numeric instruction that compares two numbers.
    /// [`InstructionSink::f32_ge`](super::InstructionSink::f32_ge) appends it.
    #[doc(alias = "f32.ge")]
    F32Ge,
    /// `f64.eq` (opcode 0x61), a numeric instruction that compares two numbers.
    /// [`InstructionSink::f64_eq`](super::InstructionSink::f64_eq) appends it.
    #[doc(alias = "f64.eq")]
    F64Eq,
    /// `f64.ne` (opcode 0x62), a numeric instruction that compares two numbers.
    /// [`InstructionSink::f64_ne`](super::InstructionSink::f64_ne) appends it.
    #[doc(alias = "f64.ne")]
    F64Ne,
    /// `f64.lt` (opcode 0x63), a numeric instruction that compares two numbers.
    /// [`InstructionSink::f64_lt`](super::InstructionSink::f64_lt) appends it.
    #[doc(alias = "f64.lt")]
    F64Lt,
    /// `f64.gt` (opcode 0x64), a numeric instruction that compares two numbers.
    /// [`InstructionSink::f64_gt`](super::InstructionSink::f64_gt) appends it.
    #[doc(alias = "f64.gt")]
    F64Gt,
    /// `f64.le` (opcode 0x65), a numeric instruction that compares two numbers.
    /// [`InstructionSink::f64_le`](super::InstructionSink::f64_le) appends it.
    #[doc(alias = "f64.le")]
    F64Le,
    /// `f64.ge` (opcode 0x66), a numeric instruction that compares two numbers.
    /// [`InstructionSink::f64_ge`](super::InstructionSink::f64_ge) appends it.
    #[doc(alias = "f64.ge")]
    F64Ge,
    /// `i32.clz` (opcode 0x67), a numeric instruction that counts the leading zero bits of an integer.
    /// [`InstructionSink::i32_clz`](super::InstructionSink::i32_clz) appends it.
    #[doc(alias = "i32.clz")]
    I32Clz,
    /// `i32.ctz` (opcode 0x68), a numeric instruction that counts the trailing zero bits of an integer.
    /// [`InstructionSink::i32_ctz`](super::InstructionSink::i32_ctz) appends it.
    #[doc(alias = "i32.ctz")]
    I32Ctz,
    /// `i32.popcnt` (opcode 0x69), a numeric instruction that counts the one bits of an integer.
    /// [`InstructionSink::i32_popcnt`](super::InstructionSink::i32_popcnt) appends it.
    #[doc(alias = "i32.popcnt")]
    I32Popcnt,
    /// `i32.add` (opcode 0x6A), a numeric instruction that adds two integers.
    /// [`InstructionSink::i32_add`](super::InstructionSink::i32_add) appends it.
    #[doc(alias = "i32.add")]
    I32Add,
    /// `i32.sub` (opcode 0x6B), a numeric instruction that subtracts two integers.
    /// [`InstructionSink::i32_sub`](super::InstructionSink::i32_sub) appends it.
    #[doc(alias = "i32.sub")]
    I32Sub,
    /// `i32.mul` (opcode 0x6C), a numeric instruction that multiplies two integers.
    /// [`InstructionSink::i32_mul`](super::InstructionSink::i32_mul) appends it.
    #[doc(alias = "i32.mul")]
    I32Mul,
    /// `i32.div_s` (opcode 0x6D), a numeric instruction that divides two integers.
    /// [`InstructionSink::i32_div_s`](super::InstructionSink::i32_div_s) appends it.
    #[doc(alias = "i32.div_s")]
    I32DivS,
    /// `i32.div_u` (opcode 0x6E), a numeric instruction that divides two integers.
    /// [`InstructionSink::i32_div_u`](super::InstructionSink::i32_div_u) appends it.
    #[doc(alias = "i32.div_u")]
    I32DivU,
    /// `i32.rem_s` (opcode 0x6F), a numeric instruction that computes the remainder of two integers.
    /// [`InstructionSink::i32_rem_s`](super::InstructionSink::i32_rem_s) appends it.
    #[doc(alias = "i32.rem_s")]
    I32RemS,
    /// `i32.rem_u` (opcode 0x70), a numeric instruction that computes the remainder of two integers.
    /// [`InstructionSink::i32_rem_u`](super::InstructionSink::i32_rem_u) appends it.
    #[doc(alias = "i32.rem_u")]
    I32RemU,
    /// `i32.and` (opcode 0x71), a numeric instruction that computes the bitwise and of two integers.
    /// [`InstructionSink::i32_and`](super::InstructionSink::i32_and) appends it.
    #[doc(alias = "i32.and")]
    I32And,
    /// `i32.or` (opcode 0x72), a numeric instruction that computes the bitwise or of two integers.
    /// [`InstructionSink::i32_or`](super::InstructionSink::i32_or) appends it.
    #[doc(alias = "i32.or")]
    I32Or,
    /// `i32.xor` (opcode 0x73), a numeric instruction that computes the bitwise exclusive or of two integers.
    /// [`InstructionSink::i32_xor`](super::InstructionSink::i32_xor) appends it.
    #[doc(alias = "i32.xor")]
    I32Xor,
    /// `i32.shl` (opcode 0x74), a numeric instruction that shifts an integer to the left.
    /// [`InstructionSink::i32_shl`](super::InstructionSink::i32_shl) appends it.
    #[doc(alias = "i32.shl")]
    I32Shl,
    /// `i32.shr_s` (opcode 0x75), a numeric instruction that shifts an integer to the right.
    /// [`InstructionSink::i32_shr_s`](super::InstructionSink::i32_shr_s) appends it.
    #[doc(alias = "i32.shr_s")]
    I32ShrS,
    /// `i32.shr_u` (opcode 0x76), a numeric instruction that shifts an integer to the right.
    /// [`InstructionSink::i32_shr_u`](super::InstructionSink::i32_shr_u) appends it.
    #[doc(alias = "i32.shr_u")]
    I32ShrU,
    /// `i32.rotl` (opcode 0x77), a numeric instruction that rotates an integer to the left.
    /// [`InstructionSink::i32_rotl`](super::InstructionSink::i32_rotl) appends it.
    #[doc(alias = "i32.rotl")]
    I32Rotl,
    /// `i32.rotr` (opcode 0x78), a numeric instruction that rotates an integer to the right.
    /// [`InstructionSink::i32_rotr`](super::InstructionSink::i32_rotr) appends it.
    #[doc(alias = "i32.rotr")]
    I32Rotr,
    /// `i64.clz` (opcode 0x79), a numeric instruction that counts the leading zero bits of an integer.
    /// [`InstructionSink::i64_clz`](super::InstructionSink::i64_clz) appends it.
    #[doc(alias = "i64.clz")]
    I64Clz,
    /// `i64.ctz` (opcode 0x7A), a numeric instruction that counts the trailing zero bits of an integer.
    /// [`InstructionSink::i64_ctz`](super::InstructionSink::i64_ctz) appends it.
    #[doc(alias = "i64.ctz")]
    I64Ctz,
    /// `i64.popcnt` (opcode 0x7B), a numeric instruction that counts the one bits of an integer.
    /// [`InstructionSink::i64_popcnt`](super::InstructionSink::i64_popcnt) appends it.
    #[doc(alias = "i64.popcnt")]
    I64Popcnt,
    /// `i64.add` (opcode 0x7C), a numeric instruction that adds two integers.
    /// [`InstructionSink::i64_add`](super::InstructionSink::i64_add) appends it.
    #[doc(alias = "i64.add")]
    I64Add,
    /// `i64.sub` (opcode 0x7D), a numeric instruction that subtracts two integers.
    /// [`InstructionSink::i64_sub`](super::InstructionSink::i64_sub) appends it.
    #[doc(alias = "i64.sub")]
    I64Sub,
    /// `i64.mul` (opcode 0x7E), a numeric instruction that multiplies two integers.
    /// [`InstructionSink::i64_mul`](super::InstructionSink::i64_mul) appends it.
    #[doc(alias = "i64.mul")]
    I64Mul,
    /// `i64.div_s` (opcode 0x7F), a numeric instruction that divides two integers.
    /// [`InstructionSink::i64_div_s`](super::InstructionSink::i64_div_s) appends it.
    #[doc(alias = "i64.div_s")]
    I64DivS,
    /// `i64.div_u` (opcode 0x80), a numeric instruction that divides two integers.
    /// [`InstructionSink::i64_div_u`](super::InstructionSink::i64_div_u) appends it.
    #[doc(alias = "i64.div_u")]
    I64DivU,
    /// `i64.rem_s` (opcode 0x81), a numeric instruction that computes the remainder of two integers.
    /// [`InstructionSink::i64_rem_s`](super::InstructionSink::i64_rem_s) appends it.
    #[doc(alias = "i64.rem_s")]
    I64RemS,
    /// `i64.rem_u` (opcode 0x82), a numeric instruction that computes the remainder of two integers.
    /// [`InstructionSink::i64_rem_u`](super::InstructionSink::i64_rem_u) appends it.
    #[doc(alias = "i64.rem_u")]
    I64RemU,
    /// `i64.and` (opcode 0x83), a numeric instruction that computes the bitwise and of two integers.
    /// [`InstructionSink::i64_and`](super::InstructionSink::i64_and) appends it.
    #[doc(alias = "i64.and")]
    I64And,
    /// `i64.or` (opcode 0x84), a numeric instruction that computes the bitwise or of two integers.
    /// [`InstructionSink::i64_or`](super::InstructionSink::i64_or) appends it.
    #[doc(alias = "i64.or")]
    I64Or,
    /// `i64.xor` (opcode 0x85), a numeric instruction that computes the bitwise exclusive or of two integers.
    /// [`InstructionSink::i64_xor`](super::InstructionSink::i64_xor) appends it.
    #[doc(alias = "i64.xor")]
    I64Xor,
    /// `i64.shl` (opcode 0x86), a numeric instruction that shifts an integer to the left.
    /// [`InstructionSink::i64_shl`](super::InstructionSink::i64_shl) appends it.
    #[doc(alias = "i64.shl")]
    I64Shl,
    /// `i64.shr_s` (opcode 0x87), a numeric instruction that shifts an integer to the right.
    /// [`InstructionSink::i64_shr_s`](super::InstructionSink::i64_shr_s) appends it.
    #[doc(alias = "i64.shr_s")]
    I64ShrS,
    /// `i64.shr_u` (opcode 0x88), a numeric instruction that shifts an integer to the right.
    /// [`InstructionSink::i64_shr_u`](super::InstructionSink::i64_shr_u) appends it.
    #[doc(alias = "i64.shr_u")]
    I64ShrU,
    /// `i64.rotl` (opcode 0x89), a numeric instruction that rotates an integer to the left.
    /// [`InstructionSink::i64_rotl`](super::InstructionSink::i64_rotl) appends it.
    #[doc(alias = "i64.rotl")]
    I64Rotl,
    /// `i64.rotr` (opcode 0x8A), a numeric instruction that rotates an integer to the right.
    /// [`InstructionSink::i64_rotr`](super::InstructionSink::i64_rotr) appends it.
    #[doc(alias = "i64.rotr")]
    I64Rotr,
    /// `f32.abs` (opcode 0x8B), a numeric instruction that computes the absolute value of a float.
    /// [`InstructionSink::f32_abs`](super::InstructionSink::f32_abs) appends it.
    #[doc(alias = "f32.abs")]
    F32Abs,
    /// `f32.neg` (opcode 0x8C), a numeric instruction that negates a float.
    /// [`InstructionSink::f32_neg`](super::InstructionSink::f32_neg) appends it.
    #[doc(alias = "f32.neg")]
    F32Neg,
    /// `f32.ceil` (opcode 0x8D), a numeric instruction that rounds a float up.
    /// [`InstructionSink::f32_ceil`](super::InstructionSink::f32_ceil) appends it.
    #[doc(alias = "f32.ceil")]
    F32Ceil,
    /// `f32.floor` (opcode 0x8E), a numeric instruction that rounds a float down.
    /// [`InstructionSink::f32_floor`](super::InstructionSink::f32_floor) appends it.
    #[doc(alias = "f32.floor")]
    F32Floor,
    /// `f32.trunc` (opcode 0x8F), a numeric instruction that rounds a float towards zero.
    /// [`InstructionSink::f32_trunc`](super::InstructionSink::f32_trunc) appends it.
    #[doc(alias = "f32.trunc")]
    F32Trunc,
    /// `f32.nearest` (opcode 0x90), a numeric instruction that rounds a float to the nearest integer.
    /// [`InstructionSink::f32_nearest`](super::InstructionSink::f32_nearest) appends it.
    #[doc(alias = "f32.nearest")]
    F32Nearest,
    /// `f32.sqrt` (opcode 0x91), a numeric instruction that computes the square root of a float.
    /// [`InstructionSink::f32_sqrt`](super::InstructionSink::f32_sqrt) appends it.
    #[doc(alias = "f32.sqrt")]
    F32Sqrt,
    /// `f32.add` (opcode 0x92), a numeric instruction that adds two floats.
    /// [`InstructionSink::f32_add`](super::InstructionSink::f32_add) appends it.
    #[doc(alias = "f32.add")]
    F32Add,
    /// `f32.sub` (opcode 0x93), a numeric instruction that subtracts two floats.
    /// [`InstructionSink::f32_sub`](super::InstructionSink::f32_sub) appends it.
    #[doc(alias = "f32.sub")]
    F32Sub,
    /// `f32.mul` (opcode 0x94), a numeric instruction that multiplies two floats.
    /// [`InstructionSink::f32_mul`](super::InstructionSink::f32_mul) appends it.
    #[doc(alias = "f32.mul")]
    F32Mul,
    /// `f32.div` (opcode 0x95), a numeric instruction that divides two floats.
    /// [`InstructionSink::f32_div`](super::InstructionSink::f32_div) appends it.
    #[doc(alias = "f32.div")]
    F32Div,
    /// `f32.min` (opcode 0x96), a numeric instruction that computes the minimum of two floats.
    /// [`InstructionSink::f32_min`](super::InstructionSink::f32_min) appends it.
    #[doc(alias = "f32.min")]
    F32Min,
    /// `f32.max` (opcode 0x97), a numeric instruction that computes the maximum of two floats.
    /// [`InstructionSink::f32_max`](super::InstructionSink::f32_max) appends it.
    #[doc(alias = "f32.max")]
    F32Max,
    /// `f32.copysign` (opcode 0x98), a numeric instruction that copies the sign of a float to another.
    /// [`InstructionSink::f32_copysign`](super::InstructionSink::f32_copysign) appends it.
    #[doc(alias = "f32.copysign")]
    F32Copysign,
    /// `f64.abs` (opcode 0x99), a numeric instruction that computes the absolute value of a float.
    /// [`InstructionSink::f64_abs`](super::InstructionSink::f64_abs) appends it.
    #[doc(alias = "f64.abs")]
    F64Abs,
    /// `f64.neg` (opcode 0x9A), a numeric instruction that negates a float.
    /// [`InstructionSink::f64_neg`](super::InstructionSink::f64_neg) appends it.
    #[doc(alias = "f64.neg")]
    F64Neg,
    /// `f64.ceil` (opcode 0x9B), a numeric instruction that rounds a float up.
    /// [`InstructionSink::f64_ceil`](super::InstructionSink::f64_ceil) appends it.
    #[doc(alias = "f64.ceil")]
    F64Ceil,
    /// `f64.floor` (opcode 0x9C), a numeric instruction that rounds a float down.
    /// [`InstructionSink::f64_floor`](super::InstructionSink::f64_floor) appends it.
    #[doc(alias = "f64.floor")]
    F64Floor,
    /// `f64.trunc` (opcode 0x9D), a numeric instruction that rounds a float towards zero.
    /// [`InstructionSink::f64_trunc`](super::InstructionSink::f64_trunc) appends it.
    #[doc(alias = "f64.trunc")]
    F64Trunc,
    /// `f64.nearest` (opcode 0x9E), a numeric instruction that rounds a float to the nearest integer.
    /// [`InstructionSink::f64_nearest`](super::InstructionSink::f64_nearest) appends it.
    #[doc(alias = "f64.nearest")]
    F64Nearest,
    /// `f64.sqrt` (opcode 0x9F), a numeric instruction that computes the square root of a float.
    /// [`InstructionSink::f64_sqrt`](super::InstructionSink::f64_sqrt) appends it.
    #[doc(alias = "f64.sqrt")]
    F64Sqrt,
    /// `f64.add` (opcode 0xA0), a numeric instruction that adds two floats.
    /// [`InstructionSink::f64_add`](super::InstructionSink::f64_add) appends it.
    #[doc(alias = "f64.add")]
    F64Add,
    /// `f64.sub` (opcode 0xA1), a numeric instruction that subtracts two floats.
    /// [`InstructionSink::f64_sub`](super::InstructionSink::f64_sub) appends it.
    #[doc(alias = "f64.sub")]
    F64Sub,
    /// `f64.mul` (opcode 0xA2), a numeric instruction that multiplies two floats.
    /// [`InstructionSink::f64_mul`](super::InstructionSink::f64_mul) appends it.
    #[doc(alias = "f64.mul")]
    F64Mul,
    /// `f64.div` (opcode 0xA3), a numeric instruction that divides two floats.
    /// [`InstructionSink::f64_div`](super::InstructionSink::f64_div) appends it.
    #[doc(alias = "f64.div")]
    F64Div,
    /// `f64.min` (opcode 0xA4), a numeric instruction that computes the minimum of two floats.
    /// [`InstructionSink::f64_min`](super::InstructionSink::f64_min) appends it.
    #[doc(alias = "f64.min")]
    F64Min,
    /// `f64.max` (opcode 0xA5), a numeric instruction that computes the maximum of two floats.
    /// [`InstructionSink::f64_max`](super::InstructionSink::f64_max) appends it.
    #[doc(alias = "f64.max")]
    F64Max,
    /// `f64.copysign` (opcode 0xA6), a numeric instruction that copies the sign of a float to another.
    /// [`InstructionSink::f64_copysign`](super::InstructionSink::f64_copysign) appends it.
    #[doc(alias = "f64.copysign")]
    F64Copysign,
    /// `i32.wrap_i64` (opcode 0xA7), a numeric instruction that takes the lower 32 bits of an integer.
    /// [`InstructionSink::i32_wrap_i64`](super::InstructionSink::i32_wrap_i64) appends it.
    #[doc(alias = "i32.wrap_i64")]
    I32WrapI64,
    /// `i32.trunc_f32_s` (opcode 0xA8), a numeric instruction that converts a float to an integer, or traps.
    /// [`InstructionSink::i32_trunc_f32_s`](super::InstructionSink::i32_trunc_f32_s) appends it.
    #[doc(alias = "i32.trunc_f32_s")]
    I32TruncF32S,
    /// `i32.trunc_f32_u` (opcode 0xA9), a numeric instruction that converts a float to an integer, or traps.
    /// [`InstructionSink::i32_trunc_f32_u`](super::InstructionSink::i32_trunc_f32_u) appends it.
    #[doc(alias = "i32.trunc_f32_u")]
    I32TruncF32U,
    /// `i32.trunc_f64_s` (opcode 0xAA), a numeric instruction that converts a float to an integer, or traps.
    /// [`InstructionSink::i32_trunc_f64_s`](super::InstructionSink::i32_trunc_f64_s) appends it.
    #[doc(alias = "i32.trunc_f64_s")]
    I32TruncF64S,
    /// `i32.trunc_f64_u` (opcode 0xAB), a numeric instruction that converts a float to an integer, or traps.
    /// [`InstructionSink::i32_trunc_f64_u`](super::InstructionSink::i32_trunc_f64_u) appends it.
    #[doc(alias = "i32.trunc_f64_u")]
    I32TruncF64U,
    /// `i64.extend_i32_s` (opcode 0xAC), a numeric instruction that extends an integer to 64 bits.
    /// [`InstructionSink::i64_extend_i32_s`](super::InstructionSink::i64_extend_i32_s) appends it.
    #[doc(alias = "i64.extend_i32_s")]
    I64ExtendI32S,
    /// `i64.extend_i32_u` (opcode 0xAD), a numeric instruction that extends an integer to 64 bits.
    /// [`InstructionSink::i64_extend_i32_u`](super::InstructionSink::i64_extend_i32_u) appends it.
    #[doc(alias = "i64.extend_i32_u")]
    I64ExtendI32U,
    /// `i64.trunc_f32_s` (opcode 0xAE), a numeric instruction that converts a float to an integer, or traps.
    /// [`InstructionSink::i64_trunc_f32_s`](super::InstructionSink::i64_trunc_f32_s) appends it.
    #[doc(alias = "i64.trunc_f32_s")]
    I64TruncF32S,
    /// `i64.trunc_f32_u` (opcode 0xAF), a numeric instruction that converts a float to an integer, or traps.
    /// [`InstructionSink::i64_trunc_f32_u`](super::InstructionSink::i64_trunc_f32_u) appends it.
    #[doc(alias = "i64.trunc_f32_u")]
    I64TruncF32U,
    /// `i64.trunc_f64_s` (opcode 0xB0), a numeric instruction that converts a float to an integer, or traps.
    /// [`InstructionSink::i64_trunc_f64_s`](super::InstructionSink::i64_trunc_f64_s) appends it.
    #[doc(alias = "i64.trunc_f64_s")]
    I64TruncF64S,
    /// `i64.trunc_f64_u` (opcode 0xB1), a numeric instruction that converts a float to an integer, or traps.
    /// [`InstructionSink::i64_trunc_f64_u`](super::InstructionSink::i64_trunc_f64_u) appends it.
    #[doc(alias = "i64.trunc_f64_u")]
    I64TruncF64U,
    /// `f32.convert_i32_s` (opcode 0xB2), a numeric instruction that converts an integer to a float.
    /// [`InstructionSink::f32_convert_i32_s`](super::InstructionSink::f32_convert_i32_s) appends it.
    #[doc(alias = "f32.convert_i32_s")]
    F32ConvertI32S,
    /// `f32.convert_i32_u` (opcode 0xB3), a numeric instruction that converts an integer to a float.
    /// [`InstructionSink::f32_convert_i32_u`](super::InstructionSink::f32_convert_i32_u) appends it.
    #[doc(alias = "f32.convert_i32_u")]
    F32ConvertI32U,
    /// `f32.convert_i64_s` (opcode 0xB4), a numeric instruction that converts an integer to a float.
    /// [`InstructionSink::f32_convert_i64_s`](super::InstructionSink::f32_convert_i64_s) appends it.
    #[doc(alias = "f32.convert_i64_s")]
    F32ConvertI64S,
    /// `f32.convert_i64_u` (opcode 0xB5), a numeric instruction that converts an integer to a float.
    /// [`InstructionSink::f32_convert_i64_u`](super::InstructionSink::f32_convert_i64_u) appends it.
    #[doc(alias = "f32.convert_i64_u")]
    F32ConvertI64U,
    /// `f32.demote_f64` (opcode 0xB6), a numeric instruction that rounds a float to 32 bits.
    /// [`InstructionSink::f32_demote_f64`](super::InstructionSink::f32_demote_f64) appends it.
    #[doc(alias = "f32.demote_f64")]
    F32DemoteF64,
    /// `f64.convert_i32_s` (opcode 0xB7), a numeric instruction that converts an integer to a float.
    /// [`InstructionSink::f64_convert_i32_s`](super::InstructionSink::f64_convert_i32_s) appends it.
    #[doc(alias = "f64.convert_i32_s")]
    F64ConvertI32S,
    /// `f64.convert_i32_u` (opcode 0xB8), a numeric instruction that converts an integer to a float.
    /// [`InstructionSink::f64_convert_i32_u`](super::InstructionSink::f64_convert_i32_u) appends it.
    #[doc(alias = "f64.convert_i32_u")]
    F64ConvertI32U,
    /// `f64.convert_i64_s` (opcode 0xB9), a numeric instruction that converts an integer to a float.
    /// [`InstructionSink::f64_convert_i64_s`](super::InstructionSink::f64_convert_i64_s) appends it.
    #[doc(alias = "f64.convert_i64_s")]
    F64ConvertI64S,
    /// `f64.convert_i64_u` (opcode 0xBA), a numeric instruction that converts an integer to a float.
    /// [`InstructionSink::f64_convert_i64_u`](super::InstructionSink::f64_convert_i64_u) appends it.
    #[doc(alias = "f64.convert_i64_u")]
    F64ConvertI64U,
    /// `f64.promote_f32` (opcode 0xBB), a numeric instruction that converts a float to 64 bits.
    /// [`InstructionSink::f64_promote_f32`](super::InstructionSink::f64_promote_f32) appends it.
    #[doc(alias = "f64.promote_f32")]
    F64PromoteF32,
    /// `i32.reinterpret_f32` (opcode 0xBC), a numeric instruction that takes the bits of a number as another type.
    /// [`InstructionSink::i32_reinterpret_f32`](super::InstructionSink::i32_reinterpret_f32) appends it.
    #[doc(alias = "i32.reinterpret_f32")]
    I32ReinterpretF32,
    /// `i64.reinterpret_f64` (opcode 0xBD), a numeric instruction that takes the bits of a number as another type.
    /// [`InstructionSink::i64_reinterpret_f64`](super::InstructionSink::i64_reinterpret_f64) appends it.
    #[doc(alias = "i64.reinterpret_f64")]
    I64ReinterpretF64,
    /// `f32.reinterpret_i32` (opcode 0xBE), a numeric instruction that takes the bits of a number as another type.
    /// [`InstructionSink::f32_reinterpret_i32`](super::InstructionSink::f32_reinterpret_i32) appends it.
    #[doc(alias = "f32.reinterpret_i32")]
    F32ReinterpretI32,
    /// `f64.reinterpret_i64` (opcode 0xBF), a numeric instruction that takes the bits of a number as another type.
    /// [`InstructionSink::f64_reinterpret_i64`](super::InstructionSink::f64_reinterpret_i64) appends it.
    #[doc(alias = "f64.reinterpret_i64")]
    F64ReinterpretI64,
    /// `i32.extend8_s` (opcode 0xC0), a numeric instruction that sign-extends the lower 8 bits of an integer.
    /// [`InstructionSink::i32_extend8_s`](super::InstructionSink::i32_extend8_s) appends it.
    #[doc(alias = "i32.extend8_s")]
    I32Extend8S,
    /// `i32.extend16_s` (opcode 0xC1), a numeric instruction that sign-extends the lower 16 bits of an integer.
    /// [`InstructionSink::i32_extend16_s`](super::InstructionSink::i32_extend16_s) appends it.
    #[doc(alias = "i32.extend16_s")]
    I32Extend16S,
    /// `i64.extend8_s` (opcode 0xC2), a numeric instruction that sign-extends the lower 8 bits of an integer.
    /// [`InstructionSink::i64_extend8_s`](super::InstructionSink::i64_extend8_s) appends it.
    #[doc(alias = "i64.extend8_s")]
    I64Extend8S,
    /// `i64.extend16_s` (opcode 0xC3), a numeric instruction that sign-extends the lower 16 bits of an integer.
    /// [`InstructionSink::i64_extend16_s`](super::InstructionSink::i64_extend16_s) appends it.
    #[doc(alias = "i64.extend16_s")]
    I64Extend16S,
    /// `i64.extend32_s` (opcode 0xC4), a numeric instruction that sign-extends the lower 32 bits of an integer.
    /// [`InstructionSink::i64_extend32_s`](super::InstructionSink::i64_extend32_s) appends it.
    #[doc(alias = "i64.extend32_s")]
    I64Extend32S,
    /// `ref.null` (opcode 0xD0), a reference instruction that returns a null reference.
    /// [`InstructionSink::ref_null`](super::InstructionSink::ref_null) appends it, with the immediate `heap_type`.
    #[doc(alias = "ref.null")]
    RefNull(HeapType),
    /// `ref.is_null` (opcode 0xD1), a reference instruction that tests whether a reference is null.
    /// [`InstructionSink::ref_is_null`](super::InstructionSink::ref_is_null) appends it.
    #[doc(alias = "ref.is_null")]
    RefIsNull,
    /// `ref.func` (opcode 0xD2), a reference instruction that returns a reference to a function.
    /// [`InstructionSink::ref_func`](super::InstructionSink::ref_func) appends it, with the immediate `function_index`.
    #[doc(alias = "ref.func")]
    RefFunc(u32),
    /// `ref.eq` (opcode 0xD3), a reference instruction that compares two references.
    /// [`InstructionSink::ref_eq`](super::InstructionSink::ref_eq) appends it.
    #[doc(alias = "ref.eq")]
    RefEq,
    /// `ref.as_non_null` (opcode 0xD4), a reference instruction that traps if a reference is null.
    /// [`InstructionSink::ref_as_non_null`](super::InstructionSink::ref_as_non_null) appends it.
    #[doc(alias = "ref.as_non_null")]
    RefAsNonNull,
    /// `br_on_null` (opcode 0xD5), a control instruction that branches to a label if a reference is null.
    /// [`InstructionSink::br_on_null`](super::InstructionSink::br_on_null) appends it, with the immediate `label`.
    BrOnNull(u32),
    /// `br_on_non_null` (opcode 0xD6), a control instruction that branches to a label if a reference is not null.
    /// [`InstructionSink::br_on_non_null`](super::InstructionSink::br_on_non_null) appends it, with the immediate `label`.
    BrOnNonNull(u32),
    /// `cont.new` (opcode 0xE0), a control instruction of the stack switching proposal that makes a continuation of a function.
    /// [`InstructionSink::cont_new`](super::InstructionSink::cont_new) appends it, with the immediate `type_index`.
    #[doc(alias = "cont.new")]
    ContNew(u32),
    /// `cont.bind` (opcode 0xE1), a control instruction of the stack switching proposal that binds arguments to a continuation.
    /// [`InstructionSink::cont_bind`](super::InstructionSink::cont_bind) appends it.
    #[doc(alias = "cont.bind")]
    ContBind {
        /// The index of the type of the bound continuation.
        argument_index: u32,
        /// The index of the type of the resulting continuation.
        result_index: u32,
    },
    /// `suspend` (opcode 0xE2), a control instruction of the stack switching proposal that suspends the current continuation with a tag.
    /// [`InstructionSink::suspend`](super::InstructionSink::suspend) appends it, with the immediate `tag_index`.
    Suspend(u32),
    /// `resume` (opcode 0xE3), a control instruction of the stack switching proposal that resumes a continuation.
    /// [`InstructionSink::resume`](super::InstructionSink::resume) appends it.
    Resume {
        /// The index of the continuation type.
        cont_type_index: u32,
        /// The handlers.
        resume_table: Cow<'a, [Handle]>,
    },
    /// `resume_throw` (opcode 0xE4), a control instruction of the stack switching proposal that resumes a continuation by throwing an exception in it.
    /// [`InstructionSink::resume_throw`](super::InstructionSink::resume_throw) appends it.
    ResumeThrow {
        /// The index of the continuation type.
        cont_type_index: u32,
        /// The index of the tag.
        tag_index: u32,
        /// The handlers.
        resume_table: Cow<'a, [Handle]>,
    },
    /// `resume_throw_ref` (opcode 0xE5), a control instruction of the stack switching proposal that resumes a continuation by throwing an exception in it.
    /// [`InstructionSink::resume_throw_ref`](super::InstructionSink::resume_throw_ref) appends it.
    ResumeThrowRef {
        /// The index of the continuation type.
        cont_type_index: u32,
        /// The handlers.
        resume_table: Cow<'a, [Handle]>,
    },
    /// `switch` (opcode 0xE6), a control instruction of the stack switching proposal that switches to another continuation.
    /// [`InstructionSink::switch`](super::InstructionSink::switch) appends it.
    Switch {
        /// The index of the continuation type.
        cont_type_index: u32,
        /// The index of the tag.
        tag_index: u32,
    },
    /// `struct.new` (opcode 0xFB 0), an aggregate instruction that makes a structure of given values.
    /// [`InstructionSink::struct_new`](super::InstructionSink::struct_new) appends it, with the immediate `type_index`.
    #[doc(alias = "struct.new")]
    StructNew(u32),
    /// `struct.new_default` (opcode 0xFB 1), an aggregate instruction that makes a structure of default values.
    /// [`InstructionSink::struct_new_default`](super::InstructionSink::struct_new_default) appends it, with the immediate `type_index`.
    #[doc(alias = "struct.new_default")]
    StructNewDefault(u32),
    /// `struct.get` (opcode 0xFB 2), an aggregate instruction that reads a field of a structure.
    /// [`InstructionSink::struct_get`](super::InstructionSink::struct_get) appends it.
    #[doc(alias = "struct.get")]
    StructGet {
        /// The index of the structure type.
        struct_type_index: u32,
        /// The index of the field.
        field_index: u32,
    },
    /// `struct.get_s` (opcode 0xFB 3), an aggregate instruction that reads a field of a structure, sign-extended.
    /// [`InstructionSink::struct_get_s`](super::InstructionSink::struct_get_s) appends it.
    #[doc(alias = "struct.get_s")]
    StructGetS {
        /// The index of the structure type.
        struct_type_index: u32,
        /// The index of the field.
        field_index: u32,
    },
    /// `struct.get_u` (opcode 0xFB 4), an aggregate instruction that reads a field of a structure, zero-extended.
    /// [`InstructionSink::struct_get_u`](super::InstructionSink::struct_get_u) appends it.
    #[doc(alias = "struct.get_u")]
    StructGetU {
        /// The index of the structure type.
        struct_type_index: u32,
        /// The index of the field.
        field_index: u32,
    },
    /// `struct.set` (opcode 0xFB 5), an aggregate instruction that writes a field of a structure.
    /// [`InstructionSink::struct_set`](super::InstructionSink::struct_set) appends it.
    #[doc(alias = "struct.set")]
    StructSet {
        /// The index of the structure type.
        struct_type_index: u32,
        /// The index of the field.
        field_index: u32,
    },
    /// `array.new` (opcode 0xFB 6), an aggregate instruction that makes an array with one value in each element.
    /// [`InstructionSink::array_new`](super::InstructionSink::array_new) appends it, with the immediate `type_index`.
    #[doc(alias = "array.new")]
    ArrayNew(u32),
    /// `array.new_default` (opcode 0xFB 7), an aggregate instruction that makes an array of default values.
    /// [`InstructionSink::array_new_default`](super::InstructionSink::array_new_default) appends it, with the immediate `type_index`.
    #[doc(alias = "array.new_default")]
    ArrayNewDefault(u32),
    /// `array.new_fixed` (opcode 0xFB 8), an aggregate instruction that makes an array of operands.
    /// [`InstructionSink::array_new_fixed`](super::InstructionSink::array_new_fixed) appends it.
    #[doc(alias = "array.new_fixed")]
    ArrayNewFixed {
        /// The index of the array type.
        array_type_index: u32,
        /// The number of elements.
        array_size: u32,
    },
    /// `array.new_data` (opcode 0xFB 9), an aggregate instruction that makes an array of the bytes of a data segment.
    /// [`InstructionSink::array_new_data`](super::InstructionSink::array_new_data) appends it.
    #[doc(alias = "array.new_data")]
    ArrayNewData {
        /// The index of the array type.
        array_type_index: u32,
        /// The index of the data segment.
        array_data_index: u32,
    },
    /// `array.new_elem` (opcode 0xFB 10), an aggregate instruction that makes an array of the references of an element segment.
    /// [`InstructionSink::array_new_elem`](super::InstructionSink::array_new_elem) appends it.
    #[doc(alias = "array.new_elem")]
    ArrayNewElem {
        /// The index of the array type.
        array_type_index: u32,
        /// The index of the element segment.
        array_elem_index: u32,
    },
    /// `array.get` (opcode 0xFB 11), an aggregate instruction that reads an element of an array.
    /// [`InstructionSink::array_get`](super::InstructionSink::array_get) appends it, with the immediate `type_index`.
    #[doc(alias = "array.get")]
    ArrayGet(u32),
    /// `array.get_s` (opcode 0xFB 12), an aggregate instruction that reads an element of an array, sign-extended.
    /// [`InstructionSink::array_get_s`](super::InstructionSink::array_get_s) appends it, with the immediate `type_index`.
    #[doc(alias = "array.get_s")]
    ArrayGetS(u32),
    /// `array.get_u` (opcode 0xFB 13), an aggregate instruction that reads an element of an array, zero-extended.
    /// [`InstructionSink::array_get_u`](super::InstructionSink::array_get_u) appends it, with the immediate `type_index`.
    #[doc(alias = "array.get_u")]
    ArrayGetU(u32),
    /// `array.set` (opcode 0xFB 14), an aggregate instruction that writes an element of an array.
    /// [`InstructionSink::array_set`](super::InstructionSink::array_set) appends it, with the immediate `type_index`.
    #[doc(alias = "array.set")]
    ArraySet(u32),
    /// `array.len` (opcode 0xFB 15), an aggregate instruction that returns the number of elements of an array.
    /// [`InstructionSink::array_len`](super::InstructionSink::array_len) appends it.
    #[doc(alias = "array.len")]
    ArrayLen,
    /// `array.fill` (opcode 0xFB 16), an aggregate instruction that sets elements of an array to one value.
    /// [`InstructionSink::array_fill`](super::InstructionSink::array_fill) appends it, with the immediate `type_index`.
    #[doc(alias = "array.fill")]
    ArrayFill(u32),
    /// `array.copy` (opcode 0xFB 17), an aggregate instruction that copies elements from one array to another.
    /// [`InstructionSink::array_copy`](super::InstructionSink::array_copy) appends it.
    #[doc(alias = "array.copy")]
    ArrayCopy {
        /// The index of the type of the destination.
        array_type_index_dst: u32,
        /// The index of the type of the source.
        array_type_index_src: u32,
    },
    /// `array.init_data` (opcode 0xFB 18), an aggregate instruction that copies bytes of a data segment to an array.
    /// [`InstructionSink::array_init_data`](super::InstructionSink::array_init_data) appends it.
    #[doc(alias = "array.init_data")]
    ArrayInitData {
        /// The index of the array type.
        array_type_index: u32,
        /// The index of the data segment.
        array_data_index: u32,
    },
    /// `array.init_elem` (opcode 0xFB 19), an aggregate instruction that copies references of an element segment to an array.
    /// [`InstructionSink::array_init_elem`](super::InstructionSink::array_init_elem) appends it.
    #[doc(alias = "array.init_elem")]
    ArrayInitElem {
        /// The index of the array type.
        array_type_index: u32,
        /// The index of the element segment.
        array_elem_index: u32,
    },
    /// `ref.test (ref ht)` (opcode 0xFB 20), a reference instruction that tests whether a reference has a type.
    /// [`InstructionSink::ref_test_non_null`](super::InstructionSink::ref_test_non_null) appends it, with the immediate `heap_type`.
    #[doc(alias = "ref.test")]
    RefTestNonNull(HeapType),
    /// `ref.test (ref null ht)` (opcode 0xFB 21), a reference instruction that tests whether a reference has a type.
    /// [`InstructionSink::ref_test_nullable`](super::InstructionSink::ref_test_nullable) appends it, with the immediate `heap_type`.
    #[doc(alias = "ref.test")]
    RefTestNullable(HeapType),
    /// `ref.cast (ref ht)` (opcode 0xFB 22), a reference instruction that casts a reference to a type, or traps.
    /// [`InstructionSink::ref_cast_non_null`](super::InstructionSink::ref_cast_non_null) appends it, with the immediate `heap_type`.
    #[doc(alias = "ref.cast")]
    RefCastNonNull(HeapType),
    /// `ref.cast (ref null ht)` (opcode 0xFB 23), a reference instruction that casts a reference to a type, or traps.
    /// [`InstructionSink::ref_cast_nullable`](super::InstructionSink::ref_cast_nullable) appends it, with the immediate `heap_type`.
    #[doc(alias = "ref.cast")]
    RefCastNullable(HeapType),
    /// `br_on_cast` (opcode 0xFB 24), a control instruction that branches to a label if a reference has a type.
    /// [`InstructionSink::br_on_cast`](super::InstructionSink::br_on_cast) appends it.
    BrOnCast {
        /// The label of the branch.
        relative_depth: u32,
        /// The type of the operand.
        from_ref_type: RefType,
        /// The type that the operand is cast to.
        to_ref_type: RefType,
    },
    /// `br_on_cast_fail` (opcode 0xFB 25), a control instruction that branches to a label if a reference does not have a type.
    /// [`InstructionSink::br_on_cast_fail`](super::InstructionSink::br_on_cast_fail) appends it.
    BrOnCastFail {
        /// The label of the branch.
        relative_depth: u32,
        /// The type of the operand.
        from_ref_type: RefType,
        /// The type that the operand is cast to.
        to_ref_type: RefType,
    },
    /// `any.convert_extern` (opcode 0xFB 26), an aggregate instruction that converts an external reference to an internal one.
    /// [`InstructionSink::any_convert_extern`](super::InstructionSink::any_convert_extern) appends it.
    #[doc(alias = "any.convert_extern")]
    AnyConvertExtern,
    /// `extern.convert_any` (opcode 0xFB 27), an aggregate instruction that converts an internal reference to an external one.
    /// [`InstructionSink::extern_convert_any`](super::InstructionSink::extern_convert_any) appends it.
    #[doc(alias = "extern.convert_any")]
    ExternConvertAny,
    /// `ref.i31` (opcode 0xFB 28), an aggregate instruction that makes a reference of the lower 31 bits of an integer.
    /// [`InstructionSink::ref_i31`](super::InstructionSink::ref_i31) appends it.
    #[doc(alias = "ref.i31")]
    RefI31,
    /// `i31.get_s` (opcode 0xFB 29), an aggregate instruction that reads the integer of 31 bits of a reference, sign-extended.
    /// [`InstructionSink::i31_get_s`](super::InstructionSink::i31_get_s) appends it.
    #[doc(alias = "i31.get_s")]
    I31GetS,
    /// `i31.get_u` (opcode 0xFB 30), an aggregate instruction that reads the integer of 31 bits of a reference, zero-extended.
    /// [`InstructionSink::i31_get_u`](super::InstructionSink::i31_get_u) appends it.
    #[doc(alias = "i31.get_u")]
    I31GetU,
    /// `struct.new_desc` (opcode 0xFB 32), an instruction of the custom descriptors proposal that makes a structure of given values, with a descriptor.
    /// [`InstructionSink::struct_new_desc`](super::InstructionSink::struct_new_desc) appends it, with the immediate `type_index`.
    #[doc(alias = "struct.new_desc")]
    StructNewDesc(u32),
    /// `struct.new_default_desc` (opcode 0xFB 33), an instruction of the custom descriptors proposal that makes a structure of default values, with a descriptor.
    /// [`InstructionSink::struct_new_default_desc`](super::InstructionSink::struct_new_default_desc) appends it, with the immediate `type_index`.
    #[doc(alias = "struct.new_default_desc")]
    StructNewDefaultDesc(u32),
    /// `ref.get_desc` (opcode 0xFB 34), an instruction of the custom descriptors proposal that reads the descriptor of a structure.
    /// [`InstructionSink::ref_get_desc`](super::InstructionSink::ref_get_desc) appends it, with the immediate `type_index`.
    #[doc(alias = "ref.get_desc")]
    RefGetDesc(u32),
    /// `ref.cast_desc_eq (ref ht)` (opcode 0xFB 35), an instruction of the custom descriptors proposal that casts a reference that has the given descriptor, or traps.
    /// [`InstructionSink::ref_cast_desc_eq_non_null`](super::InstructionSink::ref_cast_desc_eq_non_null) appends it, with the immediate `heap_type`.
    #[doc(alias = "ref.cast_desc_eq")]
    RefCastDescEqNonNull(HeapType),
    /// `ref.cast_desc_eq (ref null ht)` (opcode 0xFB 36), an instruction of the custom descriptors proposal that casts a reference that has the given descriptor, or traps.
    /// [`InstructionSink::ref_cast_desc_eq_nullable`](super::InstructionSink::ref_cast_desc_eq_nullable) appends it, with the immediate `heap_type`.
    #[doc(alias = "ref.cast_desc_eq")]
    RefCastDescEqNullable(HeapType),
    /// `br_on_cast_desc_eq` (opcode 0xFB 37), an instruction of the custom descriptors proposal that branches to a label if a reference has the given descriptor.
    /// [`InstructionSink::br_on_cast_desc_eq`](super::InstructionSink::br_on_cast_desc_eq) appends it.
    BrOnCastDescEq {
        /// The label of the branch.
        relative_depth: u32,
        /// The type of the operand.
        from_ref_type: RefType,
        /// The type that the operand is cast to.
        to_ref_type: RefType,
    },
    /// `br_on_cast_desc_eq_fail` (opcode 0xFB 38), an instruction of the custom descriptors proposal that branches to a label if a reference does not have the given descriptor.
    /// [`InstructionSink::br_on_cast_desc_eq_fail`](super::InstructionSink::br_on_cast_desc_eq_fail) appends it.
    BrOnCastDescEqFail {
        /// The label of the branch.
        relative_depth: u32,
        /// The type of the operand.
        from_ref_type: RefType,
        /// The type that the operand is cast to.
        to_ref_type: RefType,
    },
    /// `i32.trunc_sat_f32_s` (opcode 0xFC 0), a numeric instruction that converts a float to an integer, and saturates.
    /// [`InstructionSink::i32_trunc_sat_f32_s`](super::InstructionSink::i32_trunc_sat_f32_s) appends it.
    #[doc(alias = "i32.trunc_sat_f32_s")]
    I32TruncSatF32S,
    /// `i32.trunc_sat_f32_u` (opcode 0xFC 1), a numeric instruction that converts a float to an integer, and saturates.
    /// [`InstructionSink::i32_trunc_sat_f32_u`](super::InstructionSink::i32_trunc_sat_f32_u) appends it.
    #[doc(alias = "i32.trunc_sat_f32_u")]
    I32TruncSatF32U,
    /// `i32.trunc_sat_f64_s` (opcode 0xFC 2), a numeric instruction that converts a float to an integer, and saturates.
    /// [`InstructionSink::i32_trunc_sat_f64_s`](super::InstructionSink::i32_trunc_sat_f64_s) appends it.
    #[doc(alias = "i32.trunc_sat_f64_s")]
    I32TruncSatF64S,
    /// `i32.trunc_sat_f64_u` (opcode 0xFC 3), a numeric instruction that converts a float to an integer, and saturates.
    /// [`InstructionSink::i32_trunc_sat_f64_u`](super::InstructionSink::i32_trunc_sat_f64_u) appends it.
    #[doc(alias = "i32.trunc_sat_f64_u")]
    I32TruncSatF64U,
    /// `i64.trunc_sat_f32_s` (opcode 0xFC 4), a numeric instruction that converts a float to an integer, and saturates.
    /// [`InstructionSink::i64_trunc_sat_f32_s`](super::InstructionSink::i64_trunc_sat_f32_s) appends it.
    #[doc(alias = "i64.trunc_sat_f32_s")]
    I64TruncSatF32S,
    /// `i64.trunc_sat_f32_u` (opcode 0xFC 5), a numeric instruction that converts a float to an integer, and saturates.
    /// [`InstructionSink::i64_trunc_sat_f32_u`](super::InstructionSink::i64_trunc_sat_f32_u) appends it.
    #[doc(alias = "i64.trunc_sat_f32_u")]
    I64TruncSatF32U,
    /// `i64.trunc_sat_f64_s` (opcode 0xFC 6), a numeric instruction that converts a float to an integer, and saturates.
    /// [`InstructionSink::i64_trunc_sat_f64_s`](super::InstructionSink::i64_trunc_sat_f64_s) appends it.
    #[doc(alias = "i64.trunc_sat_f64_s")]
    I64TruncSatF64S,
    /// `i64.trunc_sat_f64_u` (opcode 0xFC 7), a numeric instruction that converts a float to an integer, and saturates.
    /// [`InstructionSink::i64_trunc_sat_f64_u`](super::InstructionSink::i64_trunc_sat_f64_u) appends it.
    #[doc(alias = "i64.trunc_sat_f64_u")]
    I64TruncSatF64U,
    /// `memory.init` (opcode 0xFC 8), a memory instruction that copies bytes of a data segment to a memory.
    /// [`InstructionSink::memory_init`](super::InstructionSink::memory_init) appends it.
    #[doc(alias = "memory.init")]
    MemoryInit {
        /// The index of the memory.
        mem: u32,
        /// The index of the data segment.
        data_index: u32,
    },
    /// `data.drop` (opcode 0xFC 9), a memory instruction that drops a data segment.
    /// [`InstructionSink::data_drop`](super::InstructionSink::data_drop) appends it, with the immediate `data_index`.
    #[doc(alias = "data.drop")]
    DataDrop(u32),
    /// `memory.copy` (opcode 0xFC 10), a memory instruction that copies bytes from one memory to another.
    /// [`InstructionSink::memory_copy`](super::InstructionSink::memory_copy) appends it.
    #[doc(alias = "memory.copy")]
    MemoryCopy {
        /// The index of the source memory.
        src_mem: u32,
        /// The index of the destination memory.
        dst_mem: u32,
    },
    /// `memory.fill` (opcode 0xFC 11), a memory instruction that sets bytes of a memory to one value.
    /// [`InstructionSink::memory_fill`](super::InstructionSink::memory_fill) appends it, with the immediate `mem`.
    #[doc(alias = "memory.fill")]
    MemoryFill(u32),
    /// `table.init` (opcode 0xFC 12), a table instruction that copies elements of an element segment to a table.
    /// [`InstructionSink::table_init`](super::InstructionSink::table_init) appends it.
    #[doc(alias = "table.init")]
    TableInit {
        /// The index of the element segment.
        elem_index: u32,
        /// The index of the table.
        table: u32,
    },
    /// `elem.drop` (opcode 0xFC 13), a table instruction that drops an element segment.
    /// [`InstructionSink::elem_drop`](super::InstructionSink::elem_drop) appends it, with the immediate `elem_index`.
    #[doc(alias = "elem.drop")]
    ElemDrop(u32),
    /// `table.copy` (opcode 0xFC 14), a table instruction that copies elements from one table to another.
    /// [`InstructionSink::table_copy`](super::InstructionSink::table_copy) appends it.
    #[doc(alias = "table.copy")]
    TableCopy {
        /// The index of the source table.
        src_table: u32,
        /// The index of the destination table.
        dst_table: u32,
    },
    /// `table.grow` (opcode 0xFC 15), a table instruction that grows a table.
    /// [`InstructionSink::table_grow`](super::InstructionSink::table_grow) appends it, with the immediate `table`.
    #[doc(alias = "table.grow")]
    TableGrow(u32),
    /// `table.size` (opcode 0xFC 16), a table instruction that returns the number of elements of a table.
    /// [`InstructionSink::table_size`](super::InstructionSink::table_size) appends it, with the immediate `table`.
    #[doc(alias = "table.size")]
    TableSize(u32),
    /// `table.fill` (opcode 0xFC 17), a table instruction that sets elements of a table to a reference.
    /// [`InstructionSink::table_fill`](super::InstructionSink::table_fill) appends it, with the immediate `table`.
    #[doc(alias = "table.fill")]
    TableFill(u32),
    /// `memory.discard` (opcode 0xFC 18), a memory instruction of the memory control proposal that discards pages of a memory.
    /// [`InstructionSink::memory_discard`](super::InstructionSink::memory_discard) appends it, with the immediate `mem`.
    #[doc(alias = "memory.discard")]
    MemoryDiscard(u32),
    /// `i64.add128` (opcode 0xFC 19), a numeric instruction of the wide arithmetic proposal that adds two integers of 128 bits.
    /// [`InstructionSink::i64_add128`](super::InstructionSink::i64_add128) appends it.
    #[doc(alias = "i64.add128")]
    I64Add128,
    /// `i64.sub128` (opcode 0xFC 20), a numeric instruction of the wide arithmetic proposal that subtracts two integers of 128 bits.
    /// [`InstructionSink::i64_sub128`](super::InstructionSink::i64_sub128) appends it.
    #[doc(alias = "i64.sub128")]
    I64Sub128,
    /// `i64.mul_wide_s` (opcode 0xFC 21), a numeric instruction of the wide arithmetic proposal that multiplies two integers to 128 bits.
    /// [`InstructionSink::i64_mul_wide_s`](super::InstructionSink::i64_mul_wide_s) appends it.
    #[doc(alias = "i64.mul_wide_s")]
    I64MulWideS,
    /// `i64.mul_wide_u` (opcode 0xFC 22), a numeric instruction of the wide arithmetic proposal that multiplies two integers to 128 bits.
    /// [`InstructionSink::i64_mul_wide_u`](super::InstructionSink::i64_mul_wide_u) appends it.
    #[doc(alias = "i64.mul_wide_u")]
    I64MulWideU,
    /// `v128.load` (opcode 0xFD 0), a vector instruction that loads a vector from a memory.
    /// [`InstructionSink::v128_load`](super::InstructionSink::v128_load) appends it, with the immediate `memarg`.
    #[doc(alias = "v128.load")]
    V128Load(MemArg),
    /// `v128.load8x8_s` (opcode 0xFD 1), a vector instruction that loads numbers from a memory, and extends each to a lane.
    /// [`InstructionSink::v128_load8x8_s`](super::InstructionSink::v128_load8x8_s) appends it, with the immediate `memarg`.
    #[doc(alias = "v128.load8x8_s")]
    V128Load8x8S(MemArg),
    /// `v128.load8x8_u` (opcode 0xFD 2), a vector instruction that loads numbers from a memory, and extends each to a lane.
    /// [`InstructionSink::v128_load8x8_u`](super::InstructionSink::v128_load8x8_u) appends it, with the immediate `memarg`.
    #[doc(alias = "v128.load8x8_u")]
    V128Load8x8U(MemArg),
    /// `v128.load16x4_s` (opcode 0xFD 3), a vector instruction that loads numbers from a memory, and extends each to a lane.
    /// [`InstructionSink::v128_load16x4_s`](super::InstructionSink::v128_load16x4_s) appends it, with the immediate `memarg`.
    #[doc(alias = "v128.load16x4_s")]
    V128Load16x4S(MemArg),
    /// `v128.load16x4_u` (opcode 0xFD 4), a vector instruction that loads numbers from a memory, and extends each to a lane.
    /// [`InstructionSink::v128_load16x4_u`](super::InstructionSink::v128_load16x4_u) appends it, with the immediate `memarg`.
    #[doc(alias = "v128.load16x4_u")]
    V128Load16x4U(MemArg),
    /// `v128.load32x2_s` (opcode 0xFD 5), a vector instruction that loads numbers from a memory, and extends each to a lane.
    /// [`InstructionSink::v128_load32x2_s`](super::InstructionSink::v128_load32x2_s) appends it, with the immediate `memarg`.
    #[doc(alias = "v128.load32x2_s")]
    V128Load32x2S(MemArg),
    /// `v128.load32x2_u` (opcode 0xFD 6), a vector instruction that loads numbers from a memory, and extends each to a lane.
    /// [`InstructionSink::v128_load32x2_u`](super::InstructionSink::v128_load32x2_u) appends it, with the immediate `memarg`.
    #[doc(alias = "v128.load32x2_u")]
    V128Load32x2U(MemArg),
    /// `v128.load8_splat` (opcode 0xFD 7), a vector instruction that loads a number from a memory, and copies it to each lane.
    /// [`InstructionSink::v128_load8_splat`](super::InstructionSink::v128_load8_splat) appends it, with the immediate `memarg`.
    #[doc(alias = "v128.load8_splat")]
    V128Load8Splat(MemArg),
    /// `v128.load16_splat` (opcode 0xFD 8), a vector instruction that loads a number from a memory, and copies it to each lane.
    /// [`InstructionSink::v128_load16_splat`](super::InstructionSink::v128_load16_splat) appends it, with the immediate `memarg`.
    #[doc(alias = "v128.load16_splat")]
    V128Load16Splat(MemArg),
    /// `v128.load32_splat` (opcode 0xFD 9), a vector instruction that loads a number from a memory, and copies it to each lane.
    /// [`InstructionSink::v128_load32_splat`](super::InstructionSink::v128_load32_splat) appends it, with the immediate `memarg`.
    #[doc(alias = "v128.load32_splat")]
    V128Load32Splat(MemArg),
    /// `v128.load64_splat` (opcode 0xFD 10), a vector instruction that loads a number from a memory, and copies it to each lane.
    /// [`InstructionSink::v128_load64_splat`](super::InstructionSink::v128_load64_splat) appends it, with the immediate `memarg`.
    #[doc(alias = "v128.load64_splat")]
    V128Load64Splat(MemArg),
    /// `v128.store` (opcode 0xFD 11), a vector instruction that stores a vector to a memory.
    /// [`InstructionSink::v128_store`](super::InstructionSink::v128_store) appends it, with the immediate `memarg`.
    #[doc(alias = "v128.store")]
    V128Store(MemArg),
    /// `v128.const` (opcode 0xFD 12), a vector instruction that returns a constant.
    /// [`InstructionSink::v128_const`](super::InstructionSink::v128_const) appends it, with the immediate `value`.
    #[doc(alias = "v128.const")]
    V128Const(i128),
    /// `i8x16.shuffle` (opcode 0xFD 13), a vector instruction that selects lanes of two vectors by the immediates.
    /// [`InstructionSink::i8x16_shuffle`](super::InstructionSink::i8x16_shuffle) appends it, with the immediate `lanes`.
    #[doc(alias = "i8x16.shuffle")]
    I8x16Shuffle([Lane; 16]),
    /// `i8x16.swizzle` (opcode 0xFD 14), a vector instruction that selects lanes of a vector by those of another.
    /// [`InstructionSink::i8x16_swizzle`](super::InstructionSink::i8x16_swizzle) appends it.
    #[doc(alias = "i8x16.swizzle")]
    I8x16Swizzle,
    /// `i8x16.splat` (opcode 0xFD 15), a vector instruction that copies a number to each lane of a vector.
    /// [`InstructionSink::i8x16_splat`](super::InstructionSink::i8x16_splat) appends it.
    #[doc(alias = "i8x16.splat")]
    I8x16Splat,
    /// `i16x8.splat` (opcode 0xFD 16), a vector instruction that copies a number to each lane of a vector.
    /// [`InstructionSink::i16x8_splat`](super::InstructionSink::i16x8_splat) appends it.
    #[doc(alias = "i16x8.splat")]
    I16x8Splat,
    /// `i32x4.splat` (opcode 0xFD 17), a vector instruction that copies a number to each lane of a vector.
    /// [`InstructionSink::i32x4_splat`](super::InstructionSink::i32x4_splat) appends it.
    #[doc(alias = "i32x4.splat")]
    I32x4Splat,
    /// `i64x2.splat` (opcode 0xFD 18), a vector instruction that copies a number to each lane of a vector.
    /// [`InstructionSink::i64x2_splat`](super::InstructionSink::i64x2_splat) appends it.
    #[doc(alias = "i64x2.splat")]
    I64x2Splat,
    /// `f32x4.splat` (opcode 0xFD 19), a vector instruction that copies a number to each lane of a vector.
    /// [`InstructionSink::f32x4_splat`](super::InstructionSink::f32x4_splat) appends it.
    #[doc(alias = "f32x4.splat")]
    F32x4Splat,
    /// `f64x2.splat` (opcode 0xFD 20), a vector instruction that copies a number to each lane of a vector.
    /// [`InstructionSink::f64x2_splat`](super::InstructionSink::f64x2_splat) appends it.
    #[doc(alias = "f64x2.splat")]
    F64x2Splat,
    /// `i8x16.extract_lane_s` (opcode 0xFD 21), a vector instruction that reads a lane of a vector.
    /// [`InstructionSink::i8x16_extract_lane_s`](super::InstructionSink::i8x16_extract_lane_s) appends it, with the immediate `lane`.
    #[doc(alias = "i8x16.extract_lane_s")]
    I8x16ExtractLaneS(Lane),
    /// `i8x16.extract_lane_u` (opcode 0xFD 22), a vector instruction that reads a lane of a vector.
    /// [`InstructionSink::i8x16_extract_lane_u`](super::InstructionSink::i8x16_extract_lane_u) appends it, with the immediate `lane`.
    #[doc(alias = "i8x16.extract_lane_u")]
    I8x16ExtractLaneU(Lane),
    /// `i8x16.replace_lane` (opcode 0xFD 23), a vector instruction that replaces a lane of a vector.
    /// [`InstructionSink::i8x16_replace_lane`](super::InstructionSink::i8x16_replace_lane) appends it, with the immediate `lane`.
    #[doc(alias = "i8x16.replace_lane")]
    I8x16ReplaceLane(Lane),
    /// `i16x8.extract_lane_s` (opcode 0xFD 24), a vector instruction that reads a lane of a vector.
    /// [`InstructionSink::i16x8_extract_lane_s`](super::InstructionSink::i16x8_extract_lane_s) appends it, with the immediate `lane`.
    #[doc(alias = "i16x8.extract_lane_s")]
    I16x8ExtractLaneS(Lane),
    /// `i16x8.extract_lane_u` (opcode 0xFD 25), a vector instruction that reads a lane of a vector.
    /// [`InstructionSink::i16x8_extract_lane_u`](super::InstructionSink::i16x8_extract_lane_u) appends it, with the immediate `lane`.
    #[doc(alias = "i16x8.extract_lane_u")]
    I16x8ExtractLaneU(Lane),
    /// `i16x8.replace_lane` (opcode 0xFD 26), a vector instruction that replaces a lane of a vector.
    /// [`InstructionSink::i16x8_replace_lane`](super::InstructionSink::i16x8_replace_lane) appends it, with the immediate `lane`.
    #[doc(alias = "i16x8.replace_lane")]
    I16x8ReplaceLane(Lane),
    /// `i32x4.extract_lane` (opcode 0xFD 27), a vector instruction that reads a lane of a vector.
    /// [`InstructionSink::i32x4_extract_lane`](super::InstructionSink::i32x4_extract_lane) appends it, with the immediate `lane`.
    #[doc(alias = "i32x4.extract_lane")]
    I32x4ExtractLane(Lane),
    /// `i32x4.replace_lane` (opcode 0xFD 28), a vector instruction that replaces a lane of a vector.
    /// [`InstructionSink::i32x4_replace_lane`](super::InstructionSink::i32x4_replace_lane) appends it, with the immediate `lane`.
    #[doc(alias = "i32x4.replace_lane")]
    I32x4ReplaceLane(Lane),
    /// `i64x2.extract_lane` (opcode 0xFD 29), a vector instruction that reads a lane of a vector.
    /// [`InstructionSink::i64x2_extract_lane`](super::InstructionSink::i64x2_extract_lane) appends it, with the immediate `lane`.
    #[doc(alias = "i64x2.extract_lane")]
    I64x2ExtractLane(Lane),
    /// `i64x2.replace_lane` (opcode 0xFD 30), a vector instruction that replaces a lane of a vector.
    /// [`InstructionSink::i64x2_replace_lane`](super::InstructionSink::i64x2_replace_lane) appends it, with the immediate `lane`.
    #[doc(alias = "i64x2.replace_lane")]
    I64x2ReplaceLane(Lane),
    /// `f32x4.extract_lane` (opcode 0xFD 31), a vector instruction that reads a lane of a vector.
    /// [`InstructionSink::f32x4_extract_lane`](super::InstructionSink::f32x4_extract_lane) appends it, with the immediate `lane`.
    #[doc(alias = "f32x4.extract_lane")]
    F32x4ExtractLane(Lane),
    /// `f32x4.replace_lane` (opcode 0xFD 32), a vector instruction that replaces a lane of a vector.
    /// [`InstructionSink::f32x4_replace_lane`](super::InstructionSink::f32x4_replace_lane) appends it, with the immediate `lane`.
    #[doc(alias = "f32x4.replace_lane")]
    F32x4ReplaceLane(Lane),
    /// `f64x2.extract_lane` (opcode 0xFD 33), a vector instruction that reads a lane of a vector.
    /// [`InstructionSink::f64x2_extract_lane`](super::InstructionSink::f64x2_extract_lane) appends it, with the immediate `lane`.
    #[doc(alias = "f64x2.extract_lane")]
    F64x2ExtractLane(Lane),
    /// `f64x2.replace_lane` (opcode 0xFD 34), a vector instruction that replaces a lane of a vector.
    /// [`InstructionSink::f64x2_replace_lane`](super::InstructionSink::f64x2_replace_lane) appends it, with the immediate `lane`.
    #[doc(alias = "f64x2.replace_lane")]
    F64x2ReplaceLane(Lane),
    /// `i8x16.eq` (opcode 0xFD 35), a vector instruction that compares each lane of two vectors.
    /// [`InstructionSink::i8x16_eq`](super::InstructionSink::i8x16_eq) appends it.
    #[doc(alias = "i8x16.eq")]
    I8x16Eq,
    /// `i8x16.ne` (opcode 0xFD 36), a vector instruction that compares each lane of two vectors.
    /// [`InstructionSink::i8x16_ne`](super::InstructionSink::i8x16_ne) appends it.
    #[doc(alias = "i8x16.ne")]
    I8x16Ne,
    /// `i8x16.lt_s` (opcode 0xFD 37), a vector instruction that compares each lane of two vectors.
    /// [`InstructionSink::i8x16_lt_s`](super::InstructionSink::i8x16_lt_s) appends it.
    #[doc(alias = "i8x16.lt_s")]
    I8x16LtS,
    /// `i8x16.lt_u` (opcode 0xFD 38), a vector instruction that compares each lane of two vectors.
    /// [`InstructionSink::i8x16_lt_u`](super::InstructionSink::i8x16_lt_u) appends it.
    #[doc(alias = "i8x16.lt_u")]
    I8x16LtU,
    /// `i8x16.gt_s` (opcode 0xFD 39), a vector instruction that compares each lane of two vectors.
    /// [`InstructionSink::i8x16_gt_s`](super::InstructionSink::i8x16_gt_s) appends it.
    #[doc(alias = "i8x16.gt_s")]
    I8x16GtS,
    /// `i8x16.gt_u` (opcode 0xFD 40), a vector instruction that compares each lane of two vectors.
    /// [`InstructionSink::i8x16_gt_u`](super::InstructionSink::i8x16_gt_u) appends it.
    #[doc(alias = "i8x16.gt_u")]
    I8x16GtU,
    /// `i8x16.le_s` (opcode 0xFD 41), a vector instruction that compares each lane of two vectors.
    /// [`InstructionSink::i8x16_le_s`](super::InstructionSink::i8x16_le_s) appends it.
    #[doc(alias = "i8x16.le_s")]
    I8x16LeS,
    /// `i8x16.le_u` (opcode 0xFD 42), a vector instruction that compares each lane of two vectors.
    /// [`InstructionSink::i8x16_le_u`](super::InstructionSink::i8x16_le_u) appends it.
    #[doc(alias = "i8x16.le_u")]
    I8x16LeU,
    /// `i8x16.ge_s` (opcode 0xFD 43), a vector instruction that compares each lane of two vectors.
    /// [`InstructionSink::i8x16_ge_s`](super::InstructionSink::i8x16_ge_s) appends it.
    #[doc(alias = "i8x16.ge_s")]
    I8x16GeS,
    /// `i8x16.ge_u` (opcode 0xFD 44), a vector instruction that compares each lane of two vectors.
    /// [`InstructionSink::i8x16_ge_u`](super::InstructionSink::i8x16_ge_u) appends it.
    #[doc(alias = "i8x16.ge_u")]
    I8x16GeU,
    /// `i16x8.eq` (opcode 0xFD 45), a vector instruction that compares each lane of two vectors.
    /// [`InstructionSink::i16x8_eq`](super::InstructionSink::i16x8_eq) appends it.
    #[doc(alias = "i16x8.eq")]
    I16x8Eq,
    /// `i16x8.ne` (opcode 0xFD 46), a vector instruction that compares each lane of two vectors.
    /// [`InstructionSink::i16x8_ne`](super::InstructionSink::i16x8_ne) appends it.
    #[doc(alias = "i16x8.ne")]
    I16x8Ne,
    /// `i16x8.lt_s` (opcode 0xFD 47), a vector instruction that compares each lane of two vectors.
    /// [`InstructionSink::i16x8_lt_s`](super::InstructionSink::i16x8_lt_s) appends it.
    #[doc(alias = "i16x8.lt_s")]
    I16x8LtS,
    /// `i16x8.lt_u` (opcode 0xFD 48), a vector instruction that compares each lane of two vectors.
    /// [`InstructionSink::i16x8_lt_u`](super::InstructionSink::i16x8_lt_u) appends it.
    #[doc(alias = "i16x8.lt_u")]
    I16x8LtU,
    /// `i16x8.gt_s` (opcode 0xFD 49), a vector instruction that compares each lane of two vectors.
    /// [`InstructionSink::i16x8_gt_s`](super::InstructionSink::i16x8_gt_s) appends it.
    #[doc(alias = "i16x8.gt_s")]
    I16x8GtS,
    /// `i16x8.gt_u` (opcode 0xFD 50), a vector instruction that compares each lane of two vectors.
    /// [`InstructionSink::i16x8_gt_u`](super::InstructionSink::i16x8_gt_u) appends it.
    #[doc(alias = "i16x8.gt_u")]
    I16x8GtU,
    /// `i16x8.le_s` (opcode 0xFD 51), a vector instruction that compares each lane of two vectors.
    /// [`InstructionSink::i16x8_le_s`](super::InstructionSink::i16x8_le_s) appends it.
    #[doc(alias = "i16x8.le_s")]
    I16x8LeS,
    /// `i16x8.le_u` (opcode 0xFD 52), a vector instruction that compares each lane of two vectors.
    /// [`InstructionSink::i16x8_le_u`](super::InstructionSink::i16x8_le_u) appends it.
    #[doc(alias = "i16x8.le_u")]
    I16x8LeU,
    /// `i16x8.ge_s` (opcode 0xFD 53), a vector instruction that compares each lane of two vectors.
    /// [`InstructionSink::i16x8_ge_s`](super::InstructionSink::i16x8_ge_s) appends it.
    #[doc(alias = "i16x8.ge_s")]
    I16x8GeS,
    /// `i16x8.ge_u` (opcode 0xFD 54), a vector instruction that compares each lane of two vectors.
    /// [`InstructionSink::i16x8_ge_u`](super::InstructionSink::i16x8_ge_u) appends it.
    #[doc(alias = "i16x8.ge_u")]
    I16x8GeU,
    /// `i32x4.eq` (opcode 0xFD 55), a vector instruction that compares each lane of two vectors.
    /// [`InstructionSink::i32x4_eq`](super::InstructionSink::i32x4_eq) appends it.
    #[doc(alias = "i32x4.eq")]
    I32x4Eq,
    /// `i32x4.ne` (opcode 0xFD 56), a vector instruction that compares each lane of two vectors.
    /// [`InstructionSink::i32x4_ne`](super::InstructionSink::i32x4_ne) appends it.
    #[doc(alias = "i32x4.ne")]
    I32x4Ne,
    /// `i32x4.lt_s` (opcode 0xFD 57), a vector instruction that compares each lane of two vectors.
    /// [`InstructionSink::i32x4_lt_s`](super::InstructionSink::i32x4_lt_s) appends it.
    #[doc(alias = "i32x4.lt_s")]
    I32x4LtS,
    /// `i32x4.lt_u` (opcode 0xFD 58), a vector instruction that compares each lane of two vectors.
    /// [`InstructionSink::i32x4_lt_u`](super::InstructionSink::i32x4_lt_u) appends it.
    #[doc(alias = "i32x4.lt_u")]
    I32x4LtU,
    /// `i32x4.gt_s` (opcode 0xFD 59), a vector instruction that compares each lane of two vectors.
    /// [`InstructionSink::i32x4_gt_s`](super::InstructionSink::i32x4_gt_s) appends it.
    #[doc(alias = "i32x4.gt_s")]
    I32x4GtS,
    /// `i32x4.gt_u` (opcode 0xFD 60), a vector instruction that compares each lane of two vectors.
    /// [`InstructionSink::i32x4_gt_u`](super::InstructionSink::i32x4_gt_u) appends it.
    #[doc(alias = "i32x4.gt_u")]
    I32x4GtU,
    /// `i32x4.le_s` (opcode 0xFD 61), a vector instruction that compares each lane of two vectors.
    /// [`InstructionSink::i32x4_le_s`](super::InstructionSink::i32x4_le_s) appends it.
    #[doc(alias = "i32x4.le_s")]
    I32x4LeS,
    /// `i32x4.le_u` (opcode 0xFD 62), a vector instruction that compares each lane of two vectors.
    /// [`InstructionSink::i32x4_le_u`](super::InstructionSink::i32x4_le_u) appends it.
    #[doc(alias = "i32x4.le_u")]
    I32x4LeU,
    /// `i32x4.ge_s` (opcode 0xFD 63), a vector instruction that compares each lane of two vectors.
    /// [`InstructionSink::i32x4_ge_s`](super::InstructionSink::i32x4_ge_s) appends it.
    #[doc(alias = "i32x4.ge_s")]
    I32x4GeS,
    /// `i32x4.ge_u` (opcode 0xFD 64), a vector instruction that compares each lane of two vectors.
    /// [`InstructionSink::i32x4_ge_u`](super::InstructionSink::i32x4_ge_u) appends it.
    #[doc(alias = "i32x4.ge_u")]
    I32x4GeU,
    /// `f32x4.eq` (opcode 0xFD 65), a vector instruction that compares each lane of two vectors.
    /// [`InstructionSink::f32x4_eq`](super::InstructionSink::f32x4_eq) appends it.
    #[doc(alias = "f32x4.eq")]
    F32x4Eq,
    /// `f32x4.ne` (opcode 0xFD 66), a vector instruction that compares each lane of two vectors.
    /// [`InstructionSink::f32x4_ne`](super::InstructionSink::f32x4_ne) appends it.
    #[doc(alias = "f32x4.ne")]
    F32x4Ne,
    /// `f32x4.lt` (opcode 0xFD 67), a vector instruction that compares each lane of two vectors.
    /// [`InstructionSink::f32x4_lt`](super::InstructionSink::f32x4_lt) appends it.
    #[doc(alias = "f32x4.lt")]
    F32x4Lt,
    /// `f32x4.gt` (opcode 0xFD 68), a vector instruction that compares each lane of two vectors.
    /// [`InstructionSink::f32x4_gt`](super::InstructionSink::f32x4_gt) appends it.
    #[doc(alias = "f32x4.gt")]
    F32x4Gt,
    /// `f32x4.le` (opcode 0xFD 69), a vector instruction that compares each lane of two vectors.
    /// [`InstructionSink::f32x4_le`](super::InstructionSink::f32x4_le) appends it.
    #[doc(alias = "f32x4.le")]
    F32x4Le,
    /// `f32x4.ge` (opcode 0xFD 70), a vector instruction that compares each lane of two vectors.
    /// [`InstructionSink::f32x4_ge`](super::InstructionSink::f32x4_ge) appends it.
    #[doc(alias = "f32x4.ge")]
    F32x4Ge,
    /// `f64x2.eq` (opcode 0xFD 71), a vector instruction that compares each lane of two vectors.
    /// [`InstructionSink::f64x2_eq`](super::InstructionSink::f64x2_eq) appends it.
    #[doc(alias = "f64x2.eq")]
    F64x2Eq,
    /// `f64x2.ne` (opcode 0xFD 72), a vector instruction that compares each lane of two vectors.
    /// [`InstructionSink::f64x2_ne`](super::InstructionSink::f64x2_ne) appends it.
    #[doc(alias = "f64x2.ne")]
    F64x2Ne,
    /// `f64x2.lt` (opcode 0xFD 73), a vector instruction that compares each lane of two vectors.
    /// [`InstructionSink::f64x2_lt`](super::InstructionSink::f64x2_lt) appends it.
    #[doc(alias = "f64x2.lt")]
    F64x2Lt,
    /// `f64x2.gt` (opcode 0xFD 74), a vector instruction that compares each lane of two vectors.
    /// [`InstructionSink::f64x2_gt`](super::InstructionSink::f64x2_gt) appends it.
    #[doc(alias = "f64x2.gt")]
    F64x2Gt,
    /// `f64x2.le` (opcode 0xFD 75), a vector instruction that compares each lane of two vectors.
    /// [`InstructionSink::f64x2_le`](super::InstructionSink::f64x2_le) appends it.
    #[doc(alias = "f64x2.le")]
    F64x2Le,
    /// `f64x2.ge` (opcode 0xFD 76), a vector instruction that compares each lane of two vectors.
    /// [`InstructionSink::f64x2_ge`](super::InstructionSink::f64x2_ge) appends it.
    #[doc(alias = "f64x2.ge")]
    F64x2Ge,
    /// `v128.not` (opcode 0xFD 77), a vector instruction that inverts the bits of a vector.
    /// [`InstructionSink::v128_not`](super::InstructionSink::v128_not) appends it.
    #[doc(alias = "v128.not")]
    V128Not,
    /// `v128.and` (opcode 0xFD 78), a vector instruction that computes the bitwise and of two vectors.
    /// [`InstructionSink::v128_and`](super::InstructionSink::v128_and) appends it.
    #[doc(alias = "v128.and")]
    V128And,
    /// `v128.andnot` (opcode 0xFD 79), a vector instruction that computes the bitwise and of a vector and the inverse of another.
    /// [`InstructionSink::v128_andnot`](super::InstructionSink::v128_andnot) appends it.
    #[doc(alias = "v128.andnot")]
    V128AndNot,
    /// `v128.or` (opcode 0xFD 80), a vector instruction that computes the bitwise or of two vectors.
    /// [`InstructionSink::v128_or`](super::InstructionSink::v128_or) appends it.
    #[doc(alias = "v128.or")]
    V128Or,
    /// `v128.xor` (opcode 0xFD 81), a vector instruction that computes the bitwise exclusive or of two vectors.
    /// [`InstructionSink::v128_xor`](super::InstructionSink::v128_xor) appends it.
    #[doc(alias = "v128.xor")]
    V128Xor,
    /// `v128.bitselect` (opcode 0xFD 82), a vector instruction that selects bits of two vectors by the bits of a third.
    /// [`InstructionSink::v128_bitselect`](super::InstructionSink::v128_bitselect) appends it.
    #[doc(alias = "v128.bitselect")]
    V128Bitselect,
    /// `v128.any_true` (opcode 0xFD 83), a vector instruction that tests whether a bit of a vector is set.
    /// [`InstructionSink::v128_any_true`](super::InstructionSink::v128_any_true) appends it.
    #[doc(alias = "v128.any_true")]
    V128AnyTrue,
    /// `v128.load8_lane` (opcode 0xFD 84), a vector instruction that loads one lane of a vector from a memory.
    /// [`InstructionSink::v128_load8_lane`](super::InstructionSink::v128_load8_lane) appends it.
    #[doc(alias = "v128.load8_lane")]
    V128Load8Lane {
        /// The memory, the offset and the alignment.
        memarg: MemArg,
        /// The index of the lane.
        lane: Lane,
    },
    /// `v128.load16_lane` (opcode 0xFD 85), a vector instruction that loads one lane of a vector from a memory.
    /// [`InstructionSink::v128_load16_lane`](super::InstructionSink::v128_load16_lane) appends it.
    #[doc(alias = "v128.load16_lane")]
    V128Load16Lane {
        /// The memory, the offset and the alignment.
        memarg: MemArg,
        /// The index of the lane.
        lane: Lane,
    },
    /// `v128.load32_lane` (opcode 0xFD 86), a vector instruction that loads one lane of a vector from a memory.
    /// [`InstructionSink::v128_load32_lane`](super::InstructionSink::v128_load32_lane) appends it.
    #[doc(alias = "v128.load32_lane")]
    V128Load32Lane {
        /// The memory, the offset and the alignment.
        memarg: MemArg,
        /// The index of the lane.
        lane: Lane,
    },
    /// `v128.load64_lane` (opcode 0xFD 87), a vector instruction that loads one lane of a vector from a memory.
    /// [`InstructionSink::v128_load64_lane`](super::InstructionSink::v128_load64_lane) appends it.
    #[doc(alias = "v128.load64_lane")]
    V128Load64Lane {
        /// The memory, the offset and the alignment.
        memarg: MemArg,
        /// The index of the lane.
        lane: Lane,
    },
    /// `v128.store8_lane` (opcode 0xFD 88), a vector instruction that stores one lane of a vector to a memory.
    /// [`InstructionSink::v128_store8_lane`](super::InstructionSink::v128_store8_lane) appends it.
    #[doc(alias = "v128.store8_lane")]
    V128Store8Lane {
        /// The memory, the offset and the alignment.
        memarg: MemArg,
        /// The index of the lane.
        lane: Lane,
    },
    /// `v128.store16_lane` (opcode 0xFD 89), a vector instruction that stores one lane of a vector to a memory.
    /// [`InstructionSink::v128_store16_lane`](super::InstructionSink::v128_store16_lane) appends it.
    #[doc(alias = "v128.store16_lane")]
    V128Store16Lane {
        /// The memory, the offset and the alignment.
        memarg: MemArg,
        /// The index of the lane.
        lane: Lane,
    },
    /// `v128.store32_lane` (opcode 0xFD 90), a vector instruction that stores one lane of a vector to a memory.
    /// [`InstructionSink::v128_store32_lane`](super::InstructionSink::v128_store32_lane) appends it.
    #[doc(alias = "v128.store32_lane")]
    V128Store32Lane {
        /// The memory, the offset and the alignment.
        memarg: MemArg,
        /// The index of the lane.
        lane: Lane,
    },
    /// `v128.store64_lane` (opcode 0xFD 91), a vector instruction that stores one lane of a vector to a memory.
    /// [`InstructionSink::v128_store64_lane`](super::InstructionSink::v128_store64_lane) appends it.
    #[doc(alias = "v128.store64_lane")]
    V128Store64Lane {
        /// The memory, the offset and the alignment.
        memarg: MemArg,
        /// The index of the lane.
        lane: Lane,
    },
    /// `v128.load32_zero` (opcode 0xFD 92), a vector instruction that loads a lane from a memory, and sets the others to zero.
    /// [`InstructionSink::v128_load32_zero`](super::InstructionSink::v128_load32_zero) appends it, with the immediate `memarg`.
    #[doc(alias = "v128.load32_zero")]
    V128Load32Zero(MemArg),
    /// `v128.load64_zero` (opcode 0xFD 93), a vector instruction that loads a lane from a memory, and sets the others to zero.
    /// [`InstructionSink::v128_load64_zero`](super::InstructionSink::v128_load64_zero) appends it, with the immediate `memarg`.
    #[doc(alias = "v128.load64_zero")]
    V128Load64Zero(MemArg),
    /// `f32x4.demote_f64x2_zero` (opcode 0xFD 94), a vector instruction that rounds the floats of a vector to 32 bits.
    /// [`InstructionSink::f32x4_demote_f64x2_zero`](super::InstructionSink::f32x4_demote_f64x2_zero) appends it.
    #[doc(alias = "f32x4.demote_f64x2_zero")]
    F32x4DemoteF64x2Zero,
    /// `f64x2.promote_low_f32x4` (opcode 0xFD 95), a vector instruction that converts the lower floats of a vector to 64 bits.
    /// [`InstructionSink::f64x2_promote_low_f32x4`](super::InstructionSink::f64x2_promote_low_f32x4) appends it.
    #[doc(alias = "f64x2.promote_low_f32x4")]
    F64x2PromoteLowF32x4,
    /// `i8x16.abs` (opcode 0xFD 96), a vector instruction that computes the absolute value of each lane of a vector.
    /// [`InstructionSink::i8x16_abs`](super::InstructionSink::i8x16_abs) appends it.
    #[doc(alias = "i8x16.abs")]
    I8x16Abs,
    /// `i8x16.neg` (opcode 0xFD 97), a vector instruction that negates each lane of a vector.
    /// [`InstructionSink::i8x16_neg`](super::InstructionSink::i8x16_neg) appends it.
    #[doc(alias = "i8x16.neg")]
    I8x16Neg,
    /// `i8x16.popcnt` (opcode 0xFD 98), a vector instruction that counts the one bits of each lane of a vector.
    /// [`InstructionSink::i8x16_popcnt`](super::InstructionSink::i8x16_popcnt) appends it.
    #[doc(alias = "i8x16.popcnt")]
    I8x16Popcnt,
    /// `i8x16.all_true` (opcode 0xFD 99), a vector instruction that tests whether no lane of a vector is zero.
    /// [`InstructionSink::i8x16_all_true`](super::InstructionSink::i8x16_all_true) appends it.
    #[doc(alias = "i8x16.all_true")]
    I8x16AllTrue,
    /// `i8x16.bitmask` (opcode 0xFD 100), a vector instruction that collects the highest bit of each lane of a vector.
    /// [`InstructionSink::i8x16_bitmask`](super::InstructionSink::i8x16_bitmask) appends it.
    #[doc(alias = "i8x16.bitmask")]
    I8x16Bitmask,
    /// `i8x16.narrow_i16x8_s` (opcode 0xFD 101), a vector instruction that narrows the lanes of two vectors, and saturates.
    /// [`InstructionSink::i8x16_narrow_i16x8_s`](super::InstructionSink::i8x16_narrow_i16x8_s) appends it.
    #[doc(alias = "i8x16.narrow_i16x8_s")]
    I8x16NarrowI16x8S,
    /// `i8x16.narrow_i16x8_u` (opcode 0xFD 102), a vector instruction that narrows the lanes of two vectors, and saturates.
    /// [`InstructionSink::i8x16_narrow_i16x8_u`](super::InstructionSink::i8x16_narrow_i16x8_u) appends it.
    #[doc(alias = "i8x16.narrow_i16x8_u")]
    I8x16NarrowI16x8U,
    /// `f32x4.ceil` (opcode 0xFD 103), a vector instruction that rounds each lane of a vector up.
    /// [`InstructionSink::f32x4_ceil`](super::InstructionSink::f32x4_ceil) appends it.
    #[doc(alias = "f32x4.ceil")]
    F32x4Ceil,
    /// `f32x4.floor` (opcode 0xFD 104), a vector instruction that rounds each lane of a vector down.
    /// [`InstructionSink::f32x4_floor`](super::InstructionSink::f32x4_floor) appends it.
    #[doc(alias = "f32x4.floor")]
    F32x4Floor,
    /// `f32x4.trunc` (opcode 0xFD 105), a vector instruction that rounds each lane of a vector towards zero.
    /// [`InstructionSink::f32x4_trunc`](super::InstructionSink::f32x4_trunc) appends it.
    #[doc(alias = "f32x4.trunc")]
    F32x4Trunc,
    /// `f32x4.nearest` (opcode 0xFD 106), a vector instruction that rounds each lane of a vector to the nearest integer.
    /// [`InstructionSink::f32x4_nearest`](super::InstructionSink::f32x4_nearest) appends it.
    #[doc(alias = "f32x4.nearest")]
    F32x4Nearest,
    /// `i8x16.shl` (opcode 0xFD 107), a vector instruction that shifts each lane of a vector to the left.
    /// [`InstructionSink::i8x16_shl`](super::InstructionSink::i8x16_shl) appends it.
    #[doc(alias = "i8x16.shl")]
    I8x16Shl,
    /// `i8x16.shr_s` (opcode 0xFD 108), a vector instruction that shifts each lane of a vector to the right.
    /// [`InstructionSink::i8x16_shr_s`](super::InstructionSink::i8x16_shr_s) appends it.
    #[doc(alias = "i8x16.shr_s")]
    I8x16ShrS,
    /// `i8x16.shr_u` (opcode 0xFD 109), a vector instruction that shifts each lane of a vector to the right.
    /// [`InstructionSink::i8x16_shr_u`](super::InstructionSink::i8x16_shr_u) appends it.
    #[doc(alias = "i8x16.shr_u")]
    I8x16ShrU,
    /// `i8x16.add` (opcode 0xFD 110), a vector instruction that adds each lane of two vectors.
    /// [`InstructionSink::i8x16_add`](super::InstructionSink::i8x16_add) appends it.
    #[doc(alias = "i8x16.add")]
    I8x16Add,
    /// `i8x16.add_sat_s` (opcode 0xFD 111), a vector instruction that adds each lane of two vectors, and saturates.
    /// [`InstructionSink::i8x16_add_sat_s`](super::InstructionSink::i8x16_add_sat_s) appends it.
    #[doc(alias = "i8x16.add_sat_s")]
    I8x16AddSatS,
    /// `i8x16.add_sat_u` (opcode 0xFD 112), a vector instruction that adds each lane of two vectors, and saturates.
    /// [`InstructionSink::i8x16_add_sat_u`](super::InstructionSink::i8x16_add_sat_u) appends it.
    #[doc(alias = "i8x16.add_sat_u")]
    I8x16AddSatU,
    /// `i8x16.sub` (opcode 0xFD 113), a vector instruction that subtracts each lane of two vectors.
    /// [`InstructionSink::i8x16_sub`](super::InstructionSink::i8x16_sub) appends it.
    #[doc(alias = "i8x16.sub")]
    I8x16Sub,
    /// `i8x16.sub_sat_s` (opcode 0xFD 114), a vector instruction that subtracts each lane of two vectors, and saturates.
    /// [`InstructionSink::i8x16_sub_sat_s`](super::InstructionSink::i8x16_sub_sat_s) appends it.
    #[doc(alias = "i8x16.sub_sat_s")]
    I8x16SubSatS,
    /// `i8x16.sub_sat_u` (opcode 0xFD 115), a vector instruction that subtracts each lane of two vectors, and saturates.
    /// [`InstructionSink::i8x16_sub_sat_u`](super::InstructionSink::i8x16_sub_sat_u) appends it.
    #[doc(alias = "i8x16.sub_sat_u")]
    I8x16SubSatU,
    /// `f64x2.ceil` (opcode 0xFD 116), a vector instruction that rounds each lane of a vector up.
    /// [`InstructionSink::f64x2_ceil`](super::InstructionSink::f64x2_ceil) appends it.
    #[doc(alias = "f64x2.ceil")]
    F64x2Ceil,
    /// `f64x2.floor` (opcode 0xFD 117), a vector instruction that rounds each lane of a vector down.
    /// [`InstructionSink::f64x2_floor`](super::InstructionSink::f64x2_floor) appends it.
    #[doc(alias = "f64x2.floor")]
    F64x2Floor,
    /// `i8x16.min_s` (opcode 0xFD 118), a vector instruction that computes the minimum of each lane of two vectors.
    /// [`InstructionSink::i8x16_min_s`](super::InstructionSink::i8x16_min_s) appends it.
    #[doc(alias = "i8x16.min_s")]
    I8x16MinS,
    /// `i8x16.min_u` (opcode 0xFD 119), a vector instruction that computes the minimum of each lane of two vectors.
    /// [`InstructionSink::i8x16_min_u`](super::InstructionSink::i8x16_min_u) appends it.
    #[doc(alias = "i8x16.min_u")]
    I8x16MinU,
    /// `i8x16.max_s` (opcode 0xFD 120), a vector instruction that computes the maximum of each lane of two vectors.
    /// [`InstructionSink::i8x16_max_s`](super::InstructionSink::i8x16_max_s) appends it.
    #[doc(alias = "i8x16.max_s")]
    I8x16MaxS,
    /// `i8x16.max_u` (opcode 0xFD 121), a vector instruction that computes the maximum of each lane of two vectors.
    /// [`InstructionSink::i8x16_max_u`](super::InstructionSink::i8x16_max_u) appends it.
    #[doc(alias = "i8x16.max_u")]
    I8x16MaxU,
    /// `f64x2.trunc` (opcode 0xFD 122), a vector instruction that rounds each lane of a vector towards zero.
    /// [`InstructionSink::f64x2_trunc`](super::InstructionSink::f64x2_trunc) appends it.
    #[doc(alias = "f64x2.trunc")]
    F64x2Trunc,
    /// `i8x16.avgr_u` (opcode 0xFD 123), a vector instruction that averages each lane of two vectors, rounded up.
    /// [`InstructionSink::i8x16_avgr_u`](super::InstructionSink::i8x16_avgr_u) appends it.
    #[doc(alias = "i8x16.avgr_u")]
    I8x16AvgrU,
    /// `i16x8.extadd_pairwise_i8x16_s` (opcode 0xFD 124), a vector instruction that adds neighbouring lanes of a vector to wider ones.
    /// [`InstructionSink::i16x8_extadd_pairwise_i8x16_s`](super::InstructionSink::i16x8_extadd_pairwise_i8x16_s) appends it.
    #[doc(alias = "i16x8.extadd_pairwise_i8x16_s")]
    I16x8ExtAddPairwiseI8x16S,
    /// `i16x8.extadd_pairwise_i8x16_u` (opcode 0xFD 125), a vector instruction that adds neighbouring lanes of a vector to wider ones.
    /// [`InstructionSink::i16x8_extadd_pairwise_i8x16_u`](super::InstructionSink::i16x8_extadd_pairwise_i8x16_u) appends it.
    #[doc(alias = "i16x8.extadd_pairwise_i8x16_u")]
    I16x8ExtAddPairwiseI8x16U,
    /// `i32x4.extadd_pairwise_i16x8_s` (opcode 0xFD 126), a vector instruction that adds neighbouring lanes of a vector to wider ones.
    /// [`InstructionSink::i32x4_extadd_pairwise_i16x8_s`](super::InstructionSink::i32x4_extadd_pairwise_i16x8_s) appends it.
    #[doc(alias = "i32x4.extadd_pairwise_i16x8_s")]
    I32x4ExtAddPairwiseI16x8S,
    /// `i32x4.extadd_pairwise_i16x8_u` (opcode 0xFD 127), a vector instruction that adds neighbouring lanes of a vector to wider ones.
    /// [`InstructionSink::i32x4_extadd_pairwise_i16x8_u`](super::InstructionSink::i32x4_extadd_pairwise_i16x8_u) appends it.
    #[doc(alias = "i32x4.extadd_pairwise_i16x8_u")]
    I32x4ExtAddPairwiseI16x8U,
    /// `i16x8.abs` (opcode 0xFD 128), a vector instruction that computes the absolute value of each lane of a vector.
    /// [`InstructionSink::i16x8_abs`](super::InstructionSink::i16x8_abs) appends it.
    #[doc(alias = "i16x8.abs")]
    I16x8Abs,
    /// `i16x8.neg` (opcode 0xFD 129), a vector instruction that negates each lane of a vector.
    /// [`InstructionSink::i16x8_neg`](super::InstructionSink::i16x8_neg) appends it.
    #[doc(alias = "i16x8.neg")]
    I16x8Neg,
    /// `i16x8.q15mulr_sat_s` (opcode 0xFD 130), a vector instruction that multiplies each lane of two vectors as fixed-point numbers, rounded.
    /// [`InstructionSink::i16x8_q15mulr_sat_s`](super::InstructionSink::i16x8_q15mulr_sat_s) appends it.
    #[doc(alias = "i16x8.q15mulr_sat_s")]
    I16x8Q15MulrSatS,
    /// `i16x8.all_true` (opcode 0xFD 131), a vector instruction that tests whether no lane of a vector is zero.
    /// [`InstructionSink::i16x8_all_true`](super::InstructionSink::i16x8_all_true) appends it.
    #[doc(alias = "i16x8.all_true")]
    I16x8AllTrue,
    /// `i16x8.bitmask` (opcode 0xFD 132), a vector instruction that collects the highest bit of each lane of a vector.
    /// [`InstructionSink::i16x8_bitmask`](super::InstructionSink::i16x8_bitmask) appends it.
    #[doc(alias = "i16x8.bitmask")]
    I16x8Bitmask,
    /// `i16x8.narrow_i32x4_s` (opcode 0xFD 133), a vector instruction that narrows the lanes of two vectors, and saturates.
    /// [`InstructionSink::i16x8_narrow_i32x4_s`](super::InstructionSink::i16x8_narrow_i32x4_s) appends it.
    #[doc(alias = "i16x8.narrow_i32x4_s")]
    I16x8NarrowI32x4S,
    /// `i16x8.narrow_i32x4_u` (opcode 0xFD 134), a vector instruction that narrows the lanes of two vectors, and saturates.
    /// [`InstructionSink::i16x8_narrow_i32x4_u`](super::InstructionSink::i16x8_narrow_i32x4_u) appends it.
    #[doc(alias = "i16x8.narrow_i32x4_u")]
    I16x8NarrowI32x4U,
    /// `i16x8.extend_low_i8x16_s` (opcode 0xFD 135), a vector instruction that extends the lower lanes of a vector.
    /// [`InstructionSink::i16x8_extend_low_i8x16_s`](super::InstructionSink::i16x8_extend_low_i8x16_s) appends it.
    #[doc(alias = "i16x8.extend_low_i8x16_s")]
    I16x8ExtendLowI8x16S,
    /// `i16x8.extend_high_i8x16_s` (opcode 0xFD 136), a vector instruction that extends the upper lanes of a vector.
    /// [`InstructionSink::i16x8_extend_high_i8x16_s`](super::InstructionSink::i16x8_extend_high_i8x16_s) appends it.
    #[doc(alias = "i16x8.extend_high_i8x16_s")]
    I16x8ExtendHighI8x16S,
    /// `i16x8.extend_low_i8x16_u` (opcode 0xFD 137), a vector instruction that extends the lower lanes of a vector.
    /// [`InstructionSink::i16x8_extend_low_i8x16_u`](super::InstructionSink::i16x8_extend_low_i8x16_u) appends it.
    #[doc(alias = "i16x8.extend_low_i8x16_u")]
    I16x8ExtendLowI8x16U,
    /// `i16x8.extend_high_i8x16_u` (opcode 0xFD 138), a vector instruction that extends the upper lanes of a vector.
    /// [`InstructionSink::i16x8_extend_high_i8x16_u`](super::InstructionSink::i16x8_extend_high_i8x16_u) appends it.
    #[doc(alias = "i16x8.extend_high_i8x16_u")]
    I16x8ExtendHighI8x16U,
    /// `i16x8.shl` (opcode 0xFD 139), a vector instruction that shifts each lane of a vector to the left.
    /// [`InstructionSink::i16x8_shl`](super::InstructionSink::i16x8_shl) appends it.
    #[doc(alias = "i16x8.shl")]
    I16x8Shl,
    /// `i16x8.shr_s` (opcode 0xFD 140), a vector instruction that shifts each lane of a vector to the right.
    /// [`InstructionSink::i16x8_shr_s`](super::InstructionSink::i16x8_shr_s) appends it.
    #[doc(alias = "i16x8.shr_s")]
    I16x8ShrS,
    /// `i16x8.shr_u` (opcode 0xFD 141), a vector instruction that shifts each lane of a vector to the right.
    /// [`InstructionSink::i16x8_shr_u`](super::InstructionSink::i16x8_shr_u) appends it.
    #[doc(alias = "i16x8.shr_u")]
    I16x8ShrU,
    /// `i16x8.add` (opcode 0xFD 142), a vector instruction that adds each lane of two vectors.
    /// [`InstructionSink::i16x8_add`](super::InstructionSink::i16x8_add) appends it.
    #[doc(alias = "i16x8.add")]
    I16x8Add,
    /// `i16x8.add_sat_s` (opcode 0xFD 143), a vector instruction that adds each lane of two vectors, and saturates.
    /// [`InstructionSink::i16x8_add_sat_s`](super::InstructionSink::i16x8_add_sat_s) appends it.
    #[doc(alias = "i16x8.add_sat_s")]
    I16x8AddSatS,
    /// `i16x8.add_sat_u` (opcode 0xFD 144), a vector instruction that adds each lane of two vectors, and saturates.
    /// [`InstructionSink::i16x8_add_sat_u`](super::InstructionSink::i16x8_add_sat_u) appends it.
    #[doc(alias = "i16x8.add_sat_u")]
    I16x8AddSatU,
    /// `i16x8.sub` (opcode 0xFD 145), a vector instruction that subtracts each lane of two vectors.
    /// [`InstructionSink::i16x8_sub`](super::InstructionSink::i16x8_sub) appends it.
    #[doc(alias = "i16x8.sub")]
    I16x8Sub,
    /// `i16x8.sub_sat_s` (opcode 0xFD 146), a vector instruction that subtracts each lane of two vectors, and saturates.
    /// [`InstructionSink::i16x8_sub_sat_s`](super::InstructionSink::i16x8_sub_sat_s) appends it.
    #[doc(alias = "i16x8.sub_sat_s")]
    I16x8SubSatS,
    /// `i16x8.sub_sat_u` (opcode 0xFD 147), a vector instruction that subtracts each lane of two vectors, and saturates.
    /// [`InstructionSink::i16x8_sub_sat_u`](super::InstructionSink::i16x8_sub_sat_u) appends it.
    #[doc(alias = "i16x8.sub_sat_u")]
    I16x8SubSatU,
    /// `f64x2.nearest` (opcode 0xFD 148), a vector instruction that rounds each lane of a vector to the nearest integer.
    /// [`InstructionSink::f64x2_nearest`](super::InstructionSink::f64x2_nearest) appends it.
    #[doc(alias = "f64x2.nearest")]
    F64x2Nearest,
    /// `i16x8.mul` (opcode 0xFD 149), a vector instruction that multiplies each lane of two vectors.
    /// [`InstructionSink::i16x8_mul`](super::InstructionSink::i16x8_mul) appends it.
    #[doc(alias = "i16x8.mul")]
    I16x8Mul,
    /// `i16x8.min_s` (opcode 0xFD 150), a vector instruction that computes the minimum of each lane of two vectors.
    /// [`InstructionSink::i16x8_min_s`](super::InstructionSink::i16x8_min_s) appends it.
    #[doc(alias = "i16x8.min_s")]
    I16x8MinS,
    /// `i16x8.min_u` (opcode 0xFD 151), a vector instruction that computes the minimum of each lane of two vectors.
    /// [`InstructionSink::i16x8_min_u`](super::InstructionSink::i16x8_min_u) appends it.
    #[doc(alias = "i16x8.min_u")]
    I16x8MinU,
    /// `i16x8.max_s` (opcode 0xFD 152), a vector instruction that computes the maximum of each lane of two vectors.
    /// [`InstructionSink::i16x8_max_s`](super::InstructionSink::i16x8_max_s) appends it.
    #[doc(alias = "i16x8.max_s")]
    I16x8MaxS,
    /// `i16x8.max_u` (opcode 0xFD 153), a vector instruction that computes the maximum of each lane of two vectors.
    /// [`InstructionSink::i16x8_max_u`](super::InstructionSink::i16x8_max_u) appends it.
    #[doc(alias = "i16x8.max_u")]
    I16x8MaxU,
    /// `i16x8.avgr_u` (opcode 0xFD 155), a vector instruction that averages each lane of two vectors, rounded up.
    /// [`InstructionSink::i16x8_avgr_u`](super::InstructionSink::i16x8_avgr_u) appends it.
    #[doc(alias = "i16x8.avgr_u")]
    I16x8AvgrU,
    /// `i16x8.extmul_low_i8x16_s` (opcode 0xFD 156), a vector instruction that multiplies the lower lanes of two vectors to wider ones.
    /// [`InstructionSink::i16x8_extmul_low_i8x16_s`](super::InstructionSink::i16x8_extmul_low_i8x16_s) appends it.
    #[doc(alias = "i16x8.extmul_low_i8x16_s")]
    I16x8ExtMulLowI8x16S,
    /// `i16x8.extmul_high_i8x16_s` (opcode 0xFD 157), a vector instruction that multiplies the upper lanes of two vectors to wider ones.
    /// [`InstructionSink::i16x8_extmul_high_i8x16_s`](super::InstructionSink::i16x8_extmul_high_i8x16_s) appends it.
    #[doc(alias = "i16x8.extmul_high_i8x16_s")]
    I16x8ExtMulHighI8x16S,
    /// `i16x8.extmul_low_i8x16_u` (opcode 0xFD 158), a vector instruction that multiplies the lower lanes of two vectors to wider ones.
    /// [`InstructionSink::i16x8_extmul_low_i8x16_u`](super::InstructionSink::i16x8_extmul_low_i8x16_u) appends it.
    #[doc(alias = "i16x8.extmul_low_i8x16_u")]
    I16x8ExtMulLowI8x16U,
    /// `i16x8.extmul_high_i8x16_u` (opcode 0xFD 159), a vector instruction that multiplies the upper lanes of two vectors to wider ones.
    /// [`InstructionSink::i16x8_extmul_high_i8x16_u`](super::InstructionSink::i16x8_extmul_high_i8x16_u) appends it.
    #[doc(alias = "i16x8.extmul_high_i8x16_u")]
    I16x8ExtMulHighI8x16U,
    /// `i32x4.abs` (opcode 0xFD 160), a vector instruction that computes the absolute value of each lane of a vector.
    /// [`InstructionSink::i32x4_abs`](super::InstructionSink::i32x4_abs) appends it.
    #[doc(alias = "i32x4.abs")]
    I32x4Abs,
    /// `i32x4.neg` (opcode 0xFD 161), a vector instruction that negates each lane of a vector.
    /// [`InstructionSink::i32x4_neg`](super::InstructionSink::i32x4_neg) appends it.
    #[doc(alias = "i32x4.neg")]
    I32x4Neg,
    /// `i32x4.all_true` (opcode 0xFD 163), a vector instruction that tests whether no lane of a vector is zero.
    /// [`InstructionSink::i32x4_all_true`](super::InstructionSink::i32x4_all_true) appends it.
    #[doc(alias = "i32x4.all_true")]
    I32x4AllTrue,
    /// `i32x4.bitmask` (opcode 0xFD 164), a vector instruction that collects the highest bit of each lane of a vector.
    /// [`InstructionSink::i32x4_bitmask`](super::InstructionSink::i32x4_bitmask) appends it.
    #[doc(alias = "i32x4.bitmask")]
    I32x4Bitmask,
    /// `i32x4.extend_low_i16x8_s` (opcode 0xFD 167), a vector instruction that extends the lower lanes of a vector.
    /// [`InstructionSink::i32x4_extend_low_i16x8_s`](super::InstructionSink::i32x4_extend_low_i16x8_s) appends it.
    #[doc(alias = "i32x4.extend_low_i16x8_s")]
    I32x4ExtendLowI16x8S,
    /// `i32x4.extend_high_i16x8_s` (opcode 0xFD 168), a vector instruction that extends the upper lanes of a vector.
    /// [`InstructionSink::i32x4_extend_high_i16x8_s`](super::InstructionSink::i32x4_extend_high_i16x8_s) appends it.
    #[doc(alias = "i32x4.extend_high_i16x8_s")]
    I32x4ExtendHighI16x8S,
    /// `i32x4.extend_low_i16x8_u` (opcode 0xFD 169), a vector instruction that extends the lower lanes of a vector.
    /// [`InstructionSink::i32x4_extend_low_i16x8_u`](super::InstructionSink::i32x4_extend_low_i16x8_u) appends it.
    #[doc(alias = "i32x4.extend_low_i16x8_u")]
    I32x4ExtendLowI16x8U,
    /// `i32x4.extend_high_i16x8_u` (opcode 0xFD 170), a vector instruction that extends the upper lanes of a vector.
    /// [`InstructionSink::i32x4_extend_high_i16x8_u`](super::InstructionSink::i32x4_extend_high_i16x8_u) appends it.
    #[doc(alias = "i32x4.extend_high_i16x8_u")]
    I32x4ExtendHighI16x8U,
    /// `i32x4.shl` (opcode 0xFD 171), a vector instruction that shifts each lane of a vector to the left.
    /// [`InstructionSink::i32x4_shl`](super::InstructionSink::i32x4_shl) appends it.
    #[doc(alias = "i32x4.shl")]
    I32x4Shl,
    /// `i32x4.shr_s` (opcode 0xFD 172), a vector instruction that shifts each lane of a vector to the right.
    /// [`InstructionSink::i32x4_shr_s`](super::InstructionSink::i32x4_shr_s) appends it.
    #[doc(alias = "i32x4.shr_s")]
    I32x4ShrS,
    /// `i32x4.shr_u` (opcode 0xFD 173), a vector instruction that shifts each lane of a vector to the right.
    /// [`InstructionSink::i32x4_shr_u`](super::InstructionSink::i32x4_shr_u) appends it.
    #[doc(alias = "i32x4.shr_u")]
    I32x4ShrU,
    /// `i32x4.add` (opcode 0xFD 174), a vector instruction that adds each lane of two vectors.
    /// [`InstructionSink::i32x4_add`](super::InstructionSink::i32x4_add) appends it.
    #[doc(alias = "i32x4.add")]
    I32x4Add,
    /// `i32x4.sub` (opcode 0xFD 177), a vector instruction that subtracts each lane of two vectors.
    /// [`InstructionSink::i32x4_sub`](super::InstructionSink::i32x4_sub) appends it.
    #[doc(alias = "i32x4.sub")]
    I32x4Sub,
    /// `i32x4.mul` (opcode 0xFD 181), a vector instruction that multiplies each lane of two vectors.
    /// [`InstructionSink::i32x4_mul`](super::InstructionSink::i32x4_mul) appends it.
    #[doc(alias = "i32x4.mul")]
    I32x4Mul,
    /// `i32x4.min_s` (opcode 0xFD 182), a vector instruction that computes the minimum of each lane of two vectors.
    /// [`InstructionSink::i32x4_min_s`](super::InstructionSink::i32x4_min_s) appends it.
    #[doc(alias = "i32x4.min_s")]
    I32x4MinS,
    /// `i32x4.min_u` (opcode 0xFD 183), a vector instruction that computes the minimum of each lane of two vectors.
    /// [`InstructionSink::i32x4_min_u`](super::InstructionSink::i32x4_min_u) appends it.
    #[doc(alias = "i32x4.min_u")]
    I32x4MinU,
    /// `i32x4.max_s` (opcode 0xFD 184), a vector instruction that computes the maximum of each lane of two vectors.
    /// [`InstructionSink::i32x4_max_s`](super::InstructionSink::i32x4_max_s) appends it.
    #[doc(alias = "i32x4.max_s")]
    I32x4MaxS,
    /// `i32x4.max_u` (opcode 0xFD 185), a vector instruction that computes the maximum of each lane of two vectors.
    /// [`InstructionSink::i32x4_max_u`](super::InstructionSink::i32x4_max_u) appends it.
    #[doc(alias = "i32x4.max_u")]
    I32x4MaxU,
    /// `i32x4.dot_i16x8_s` (opcode 0xFD 186), a vector instruction that multiplies each lane of two vectors, and adds neighbouring products.
    /// [`InstructionSink::i32x4_dot_i16x8_s`](super::InstructionSink::i32x4_dot_i16x8_s) appends it.
    #[doc(alias = "i32x4.dot_i16x8_s")]
    I32x4DotI16x8S,
    /// `i32x4.extmul_low_i16x8_s` (opcode 0xFD 188), a vector instruction that multiplies the lower lanes of two vectors to wider ones.
    /// [`InstructionSink::i32x4_extmul_low_i16x8_s`](super::InstructionSink::i32x4_extmul_low_i16x8_s) appends it.
    #[doc(alias = "i32x4.extmul_low_i16x8_s")]
    I32x4ExtMulLowI16x8S,
    /// `i32x4.extmul_high_i16x8_s` (opcode 0xFD 189), a vector instruction that multiplies the upper lanes of two vectors to wider ones.
    /// [`InstructionSink::i32x4_extmul_high_i16x8_s`](super::InstructionSink::i32x4_extmul_high_i16x8_s) appends it.
    #[doc(alias = "i32x4.extmul_high_i16x8_s")]
    I32x4ExtMulHighI16x8S,
    /// `i32x4.extmul_low_i16x8_u` (opcode 0xFD 190), a vector instruction that multiplies the lower lanes of two vectors to wider ones.
    /// [`InstructionSink::i32x4_extmul_low_i16x8_u`](super::InstructionSink::i32x4_extmul_low_i16x8_u) appends it.
    #[doc(alias = "i32x4.extmul_low_i16x8_u")]
    I32x4ExtMulLowI16x8U,
    /// `i32x4.extmul_high_i16x8_u` (opcode 0xFD 191), a vector instruction that multiplies the upper lanes of two vectors to wider ones.
    /// [`InstructionSink::i32x4_extmul_high_i16x8_u`](super::InstructionSink::i32x4_extmul_high_i16x8_u) appends it.
    #[doc(alias = "i32x4.extmul_high_i16x8_u")]
    I32x4ExtMulHighI16x8U,
    /// `i64x2.abs` (opcode 0xFD 192), a vector instruction that computes the absolute value of each lane of a vector.
    /// [`InstructionSink::i64x2_abs`](super::InstructionSink::i64x2_abs) appends it.
    #[doc(alias = "i64x2.abs")]
    I64x2Abs,
    /// `i64x2.neg` (opcode 0xFD 193), a vector instruction that negates each lane of a vector.
    /// [`InstructionSink::i64x2_neg`](super::InstructionSink::i64x2_neg) appends it.
    #[doc(alias = "i64x2.neg")]
    I64x2Neg,
    /// `i64x2.all_true` (opcode 0xFD 195), a vector instruction that tests whether no lane of a vector is zero.
    /// [`InstructionSink::i64x2_all_true`](super::InstructionSink::i64x2_all_true) appends it.
    #[doc(alias = "i64x2.all_true")]
    I64x2AllTrue,
    /// `i64x2.bitmask` (opcode 0xFD 196), a vector instruction that collects the highest bit of each lane of a vector.
    /// [`InstructionSink::i64x2_bitmask`](super::InstructionSink::i64x2_bitmask) appends it.
    #[doc(alias = "i64x2.bitmask")]
    I64x2Bitmask,
    /// `i64x2.extend_low_i32x4_s` (opcode 0xFD 199), a vector instruction that extends the lower lanes of a vector.
    /// [`InstructionSink::i64x2_extend_low_i32x4_s`](super::InstructionSink::i64x2_extend_low_i32x4_s) appends it.
    #[doc(alias = "i64x2.extend_low_i32x4_s")]
    I64x2ExtendLowI32x4S,
    /// `i64x2.extend_high_i32x4_s` (opcode 0xFD 200), a vector instruction that extends the upper lanes of a vector.
    /// [`InstructionSink::i64x2_extend_high_i32x4_s`](super::InstructionSink::i64x2_extend_high_i32x4_s) appends it.
    #[doc(alias = "i64x2.extend_high_i32x4_s")]
    I64x2ExtendHighI32x4S,
    /// `i64x2.extend_low_i32x4_u` (opcode 0xFD 201), a vector instruction that extends the lower lanes of a vector.
    /// [`InstructionSink::i64x2_extend_low_i32x4_u`](super::InstructionSink::i64x2_extend_low_i32x4_u) appends it.
    #[doc(alias = "i64x2.extend_low_i32x4_u")]
    I64x2ExtendLowI32x4U,
    /// `i64x2.extend_high_i32x4_u` (opcode 0xFD 202), a vector instruction that extends the upper lanes of a vector.
    /// [`InstructionSink::i64x2_extend_high_i32x4_u`](super::InstructionSink::i64x2_extend_high_i32x4_u) appends it.
    #[doc(alias = "i64x2.extend_high_i32x4_u")]
    I64x2ExtendHighI32x4U,
    /// `i64x2.shl` (opcode 0xFD 203), a vector instruction that shifts each lane of a vector to the left.
    /// [`InstructionSink::i64x2_shl`](super::InstructionSink::i64x2_shl) appends it.
    #[doc(alias = "i64x2.shl")]
    I64x2Shl,
    /// `i64x2.shr_s` (opcode 0xFD 204), a vector instruction that shifts each lane of a vector to the right.
    /// [`InstructionSink::i64x2_shr_s`](super::InstructionSink::i64x2_shr_s) appends it.
    #[doc(alias = "i64x2.shr_s")]
    I64x2ShrS,
    /// `i64x2.shr_u` (opcode 0xFD 205), a vector instruction that shifts each lane of a vector to the right.
    /// [`InstructionSink::i64x2_shr_u`](super::InstructionSink::i64x2_shr_u) appends it.
    #[doc(alias = "i64x2.shr_u")]
    I64x2ShrU,
    /// `i64x2.add` (opcode 0xFD 206), a vector instruction that adds each lane of two vectors.
    /// [`InstructionSink::i64x2_add`](super::InstructionSink::i64x2_add) appends it.
    #[doc(alias = "i64x2.add")]
    I64x2Add,
    /// `i64x2.sub` (opcode 0xFD 209), a vector instruction that subtracts each lane of two vectors.
    /// [`InstructionSink::i64x2_sub`](super::InstructionSink::i64x2_sub) appends it.
    #[doc(alias = "i64x2.sub")]
    I64x2Sub,
    /// `i64x2.mul` (opcode 0xFD 213), a vector instruction that multiplies each lane of two vectors.
    /// [`InstructionSink::i64x2_mul`](super::InstructionSink::i64x2_mul) appends it.
    #[doc(alias = "i64x2.mul")]
    I64x2Mul,
    /// `i64x2.eq` (opcode 0xFD 214), a vector instruction that compares each lane of two vectors.
    /// [`InstructionSink::i64x2_eq`](super::InstructionSink::i64x2_eq) appends it.
    #[doc(alias = "i64x2.eq")]
    I64x2Eq,
    /// `i64x2.ne` (opcode 0xFD 215), a vector instruction that compares each lane of two vectors.
    /// [`InstructionSink::i64x2_ne`](super::InstructionSink::i64x2_ne) appends it.
    #[doc(alias = "i64x2.ne")]
    I64x2Ne,
    /// `i64x2.lt_s` (opcode 0xFD 216), a vector instruction that compares each lane of two vectors.
    /// [`InstructionSink::i64x2_lt_s`](super::InstructionSink::i64x2_lt_s) appends it.
    #[doc(alias = "i64x2.lt_s")]
    I64x2LtS,
    /// `i64x2.gt_s` (opcode 0xFD 217), a vector instruction that compares each lane of two vectors.
    /// [`InstructionSink::i64x2_gt_s`](super::InstructionSink::i64x2_gt_s) appends it.
    #[doc(alias = "i64x2.gt_s")]
    I64x2GtS,
    /// `i64x2.le_s` (opcode 0xFD 218), a vector instruction that compares each lane of two vectors.
    /// [`InstructionSink::i64x2_le_s`](super::InstructionSink::i64x2_le_s) appends it.
    #[doc(alias = "i64x2.le_s")]
    I64x2LeS,
    /// `i64x2.ge_s` (opcode 0xFD 219), a vector instruction that compares each lane of two vectors.
    /// [`InstructionSink::i64x2_ge_s`](super::InstructionSink::i64x2_ge_s) appends it.
    #[doc(alias = "i64x2.ge_s")]
    I64x2GeS,
    /// `i64x2.extmul_low_i32x4_s` (opcode 0xFD 220), a vector instruction that multiplies the lower lanes of two vectors to wider ones.
    /// [`InstructionSink::i64x2_extmul_low_i32x4_s`](super::InstructionSink::i64x2_extmul_low_i32x4_s) appends it.
    #[doc(alias = "i64x2.extmul_low_i32x4_s")]
    I64x2ExtMulLowI32x4S,
    /// `i64x2.extmul_high_i32x4_s` (opcode 0xFD 221), a vector instruction that multiplies the upper lanes of two vectors to wider ones.
    /// [`InstructionSink::i64x2_extmul_high_i32x4_s`](super::InstructionSink::i64x2_extmul_high_i32x4_s) appends it.
    #[doc(alias = "i64x2.extmul_high_i32x4_s")]
    I64x2ExtMulHighI32x4S,
    /// `i64x2.extmul_low_i32x4_u` (opcode 0xFD 222), a vector instruction that multiplies the lower lanes of two vectors to wider ones.
    /// [`InstructionSink::i64x2_extmul_low_i32x4_u`](super::InstructionSink::i64x2_extmul_low_i32x4_u) appends it.
    #[doc(alias = "i64x2.extmul_low_i32x4_u")]
    I64x2ExtMulLowI32x4U,
    /// `i64x2.extmul_high_i32x4_u` (opcode 0xFD 223), a vector instruction that multiplies the upper lanes of two vectors to wider ones.
    /// [`InstructionSink::i64x2_extmul_high_i32x4_u`](super::InstructionSink::i64x2_extmul_high_i32x4_u) appends it.
    #[doc(alias = "i64x2.extmul_high_i32x4_u")]
    I64x2ExtMulHighI32x4U,
    /// `f32x4.abs` (opcode 0xFD 224), a vector instruction that computes the absolute value of each lane of a vector.
    /// [`InstructionSink::f32x4_abs`](super::InstructionSink::f32x4_abs) appends it.
    #[doc(alias = "f32x4.abs")]
    F32x4Abs,
    /// `f32x4.neg` (opcode 0xFD 225), a vector instruction that negates each lane of a vector.
    /// [`InstructionSink::f32x4_neg`](super::InstructionSink::f32x4_neg) appends it.
    #[doc(alias = "f32x4.neg")]
    F32x4Neg,
    /// `f32x4.sqrt` (opcode 0xFD 227), a vector instruction that computes the square root of each lane of a vector.
    /// [`InstructionSink::f32x4_sqrt`](super::InstructionSink::f32x4_sqrt) appends it.
    #[doc(alias = "f32x4.sqrt")]
    F32x4Sqrt,
    /// `f32x4.add` (opcode 0xFD 228), a vector instruction that adds each lane of two vectors.
    /// [`InstructionSink::f32x4_add`](super::InstructionSink::f32x4_add) appends it.
    #[doc(alias = "f32x4.add")]
    F32x4Add,
    /// `f32x4.sub` (opcode 0xFD 229), a vector instruction that subtracts each lane of two vectors.
    /// [`InstructionSink::f32x4_sub`](super::InstructionSink::f32x4_sub) appends it.
    #[doc(alias = "f32x4.sub")]
    F32x4Sub,
    /// `f32x4.mul` (opcode 0xFD 230), a vector instruction that multiplies each lane of two vectors.
    /// [`InstructionSink::f32x4_mul`](super::InstructionSink::f32x4_mul) appends it.
    #[doc(alias = "f32x4.mul")]
    F32x4Mul,
    /// `f32x4.div` (opcode 0xFD 231), a vector instruction that divides each lane of two vectors.
    /// [`InstructionSink::f32x4_div`](super::InstructionSink::f32x4_div) appends it.
    #[doc(alias = "f32x4.div")]
    F32x4Div,
    /// `f32x4.min` (opcode 0xFD 232), a vector instruction that computes the minimum of each lane of two vectors.
    /// [`InstructionSink::f32x4_min`](super::InstructionSink::f32x4_min) appends it.
    #[doc(alias = "f32x4.min")]
    F32x4Min,
    /// `f32x4.max` (opcode 0xFD 233), a vector instruction that computes the maximum of each lane of two vectors.
    /// [`InstructionSink::f32x4_max`](super::InstructionSink::f32x4_max) appends it.
    #[doc(alias = "f32x4.max")]
    F32x4Max,
    /// `f32x4.pmin` (opcode 0xFD 234), a vector instruction that computes the pseudo-minimum of each lane of two vectors.
    /// [`InstructionSink::f32x4_pmin`](super::InstructionSink::f32x4_pmin) appends it.
    #[doc(alias = "f32x4.pmin")]
    F32x4PMin,
    /// `f32x4.pmax` (opcode 0xFD 235), a vector instruction that computes the pseudo-maximum of each lane of two vectors.
    /// [`InstructionSink::f32x4_pmax`](super::InstructionSink::f32x4_pmax) appends it.
    #[doc(alias = "f32x4.pmax")]
    F32x4PMax,
    /// `f64x2.abs` (opcode 0xFD 236), a vector instruction that computes the absolute value of each lane of a vector.
    /// [`InstructionSink::f64x2_abs`](super::InstructionSink::f64x2_abs) appends it.
    #[doc(alias = "f64x2.abs")]
    F64x2Abs,
    /// `f64x2.neg` (opcode 0xFD 237), a vector instruction that negates each lane of a vector.
    /// [`InstructionSink::f64x2_neg`](super::InstructionSink::f64x2_neg) appends it.
    #[doc(alias = "f64x2.neg")]
    F64x2Neg,
    /// `f64x2.sqrt` (opcode 0xFD 239), a vector instruction that computes the square root of each lane of a vector.
    /// [`InstructionSink::f64x2_sqrt`](super::InstructionSink::f64x2_sqrt) appends it.
    #[doc(alias = "f64x2.sqrt")]
    F64x2Sqrt,
    /// `f64x2.add` (opcode 0xFD 240), a vector instruction that adds each lane of two vectors.
    /// [`InstructionSink::f64x2_add`](super::InstructionSink::f64x2_add) appends it.
    #[doc(alias = "f64x2.add")]
    F64x2Add,
    /// `f64x2.sub` (opcode 0xFD 241), a vector instruction that subtracts each lane of two vectors.
    /// [`InstructionSink::f64x2_sub`](super::InstructionSink::f64x2_sub) appends it.
    #[doc(alias = "f64x2.sub")]
    F64x2Sub,
    /// `f64x2.mul` (opcode 0xFD 242), a vector instruction that multiplies each lane of two vectors.
    /// [`InstructionSink::f64x2_mul`](super::InstructionSink::f64x2_mul) appends it.
    #[doc(alias = "f64x2.mul")]
    F64x2Mul,
    /// `f64x2.div` (opcode 0xFD 243), a vector instruction that divides each lane of two vectors.
    /// [`InstructionSink::f64x2_div`](super::InstructionSink::f64x2_div) appends it.
    #[doc(alias = "f64x2.div")]
    F64x2Div,
    /// `f64x2.min` (opcode 0xFD 244), a vector instruction that computes the minimum of each lane of two vectors.
    /// [`InstructionSink::f64x2_min`](super::InstructionSink::f64x2_min) appends it.
    #[doc(alias = "f64x2.min")]
    F64x2Min,
    /// `f64x2.max` (opcode 0xFD 245), a vector instruction that computes the maximum of each lane of two vectors.
    /// [`InstructionSink::f64x2_max`](super::InstructionSink::f64x2_max) appends it.
    #[doc(alias = "f64x2.max")]
    F64x2Max,
    /// `f64x2.pmin` (opcode 0xFD 246), a vector instruction that computes the pseudo-minimum of each lane of two vectors.
    /// [`InstructionSink::f64x2_pmin`](super::InstructionSink::f64x2_pmin) appends it.
    #[doc(alias = "f64x2.pmin")]
    F64x2PMin,
    /// `f64x2.pmax` (opcode 0xFD 247), a vector instruction that computes the pseudo-maximum of each lane of two vectors.
    /// [`InstructionSink::f64x2_pmax`](super::InstructionSink::f64x2_pmax) appends it.
    #[doc(alias = "f64x2.pmax")]
    F64x2PMax,
    /// `i32x4.trunc_sat_f32x4_s` (opcode 0xFD 248), a vector instruction that converts the floats of a vector to integers.
    /// [`InstructionSink::i32x4_trunc_sat_f32x4_s`](super::InstructionSink::i32x4_trunc_sat_f32x4_s) appends it.
    #[doc(alias = "i32x4.trunc_sat_f32x4_s")]
    I32x4TruncSatF32x4S,
    /// `i32x4.trunc_sat_f32x4_u` (opcode 0xFD 249), a vector instruction that converts the floats of a vector to integers.
    /// [`InstructionSink::i32x4_trunc_sat_f32x4_u`](super::InstructionSink::i32x4_trunc_sat_f32x4_u) appends it.
    #[doc(alias = "i32x4.trunc_sat_f32x4_u")]
    I32x4TruncSatF32x4U,
    /// `f32x4.convert_i32x4_s` (opcode 0xFD 250), a vector instruction that converts the integers of a vector to floats.
    /// [`InstructionSink::f32x4_convert_i32x4_s`](super::InstructionSink::f32x4_convert_i32x4_s) appends it.
    #[doc(alias = "f32x4.convert_i32x4_s")]
    F32x4ConvertI32x4S,
    /// `f32x4.convert_i32x4_u` (opcode 0xFD 251), a vector instruction that converts the integers of a vector to floats.
    /// [`InstructionSink::f32x4_convert_i32x4_u`](super::InstructionSink::f32x4_convert_i32x4_u) appends it.
    #[doc(alias = "f32x4.convert_i32x4_u")]
    F32x4ConvertI32x4U,
    /// `i32x4.trunc_sat_f64x2_s_zero` (opcode 0xFD 252), a vector instruction that converts the floats of a vector to integers.
    /// [`InstructionSink::i32x4_trunc_sat_f64x2_s_zero`](super::InstructionSink::i32x4_trunc_sat_f64x2_s_zero) appends it.
    #[doc(alias = "i32x4.trunc_sat_f64x2_s_zero")]
    I32x4TruncSatF64x2SZero,
    /// `i32x4.trunc_sat_f64x2_u_zero` (opcode 0xFD 253), a vector instruction that converts the floats of a vector to integers.
    /// [`InstructionSink::i32x4_trunc_sat_f64x2_u_zero`](super::InstructionSink::i32x4_trunc_sat_f64x2_u_zero) appends it.
    #[doc(alias = "i32x4.trunc_sat_f64x2_u_zero")]
    I32x4TruncSatF64x2UZero,
    /// `f64x2.convert_low_i32x4_s` (opcode 0xFD 254), a vector instruction that converts the integers of a vector to floats.
    /// [`InstructionSink::f64x2_convert_low_i32x4_s`](super::InstructionSink::f64x2_convert_low_i32x4_s) appends it.
    #[doc(alias = "f64x2.convert_low_i32x4_s")]
    F64x2ConvertLowI32x4S,
    /// `f64x2.convert_low_i32x4_u` (opcode 0xFD 255), a vector instruction that converts the integers of a vector to floats.
    /// [`InstructionSink::f64x2_convert_low_i32x4_u`](super::InstructionSink::f64x2_convert_low_i32x4_u) appends it.
    #[doc(alias = "f64x2.convert_low_i32x4_u")]
    F64x2ConvertLowI32x4U,
    /// `i8x16.relaxed_swizzle` (opcode 0xFD 256), a relaxed vector instruction that selects lanes of a vector by those of another.
    /// [`InstructionSink::i8x16_relaxed_swizzle`](super::InstructionSink::i8x16_relaxed_swizzle) appends it.
    #[doc(alias = "i8x16.relaxed_swizzle")]
    I8x16RelaxedSwizzle,
    /// `i32x4.relaxed_trunc_f32x4_s` (opcode 0xFD 257), a relaxed vector instruction that converts the floats of a vector to integers.
    /// [`InstructionSink::i32x4_relaxed_trunc_f32x4_s`](super::InstructionSink::i32x4_relaxed_trunc_f32x4_s) appends it.
    #[doc(alias = "i32x4.relaxed_trunc_f32x4_s")]
    I32x4RelaxedTruncF32x4S,
    /// `i32x4.relaxed_trunc_f32x4_u` (opcode 0xFD 258), a relaxed vector instruction that converts the floats of a vector to integers.
    /// [`InstructionSink::i32x4_relaxed_trunc_f32x4_u`](super::InstructionSink::i32x4_relaxed_trunc_f32x4_u) appends it.
    #[doc(alias = "i32x4.relaxed_trunc_f32x4_u")]
    I32x4RelaxedTruncF32x4U,
    /// `i32x4.relaxed_trunc_f64x2_s_zero` (opcode 0xFD 259), a relaxed vector instruction that converts the floats of a vector to integers.
    /// [`InstructionSink::i32x4_relaxed_trunc_f64x2_s_zero`](super::InstructionSink::i32x4_relaxed_trunc_f64x2_s_zero) appends it.
    #[doc(alias = "i32x4.relaxed_trunc_f64x2_s_zero")]
    I32x4RelaxedTruncF64x2SZero,
    /// `i32x4.relaxed_trunc_f64x2_u_zero` (opcode 0xFD 260), a relaxed vector instruction that converts the floats of a vector to integers.
    /// [`InstructionSink::i32x4_relaxed_trunc_f64x2_u_zero`](super::InstructionSink::i32x4_relaxed_trunc_f64x2_u_zero) appends it.
    #[doc(alias = "i32x4.relaxed_trunc_f64x2_u_zero")]
    I32x4RelaxedTruncF64x2UZero,
    /// `f32x4.relaxed_madd` (opcode 0xFD 261), a relaxed vector instruction that multiplies each lane of two vectors, and adds a third.
    /// [`InstructionSink::f32x4_relaxed_madd`](super::InstructionSink::f32x4_relaxed_madd) appends it.
    #[doc(alias = "f32x4.relaxed_madd")]
    F32x4RelaxedMadd,
    /// `f32x4.relaxed_nmadd` (opcode 0xFD 262), a relaxed vector instruction that multiplies each lane of two vectors, and subtracts the product from a third.
    /// [`InstructionSink::f32x4_relaxed_nmadd`](super::InstructionSink::f32x4_relaxed_nmadd) appends it.
    #[doc(alias = "f32x4.relaxed_nmadd")]
    F32x4RelaxedNmadd,
    /// `f64x2.relaxed_madd` (opcode 0xFD 263), a relaxed vector instruction that multiplies each lane of two vectors, and adds a third.
    /// [`InstructionSink::f64x2_relaxed_madd`](super::InstructionSink::f64x2_relaxed_madd) appends it.
    #[doc(alias = "f64x2.relaxed_madd")]
    F64x2RelaxedMadd,
    /// `f64x2.relaxed_nmadd` (opcode 0xFD 264), a relaxed vector instruction that multiplies each lane of two vectors, and subtracts the product from a third.
    /// [`InstructionSink::f64x2_relaxed_nmadd`](super::InstructionSink::f64x2_relaxed_nmadd) appends it.
    #[doc(alias = "f64x2.relaxed_nmadd")]
    F64x2RelaxedNmadd,
    /// `i8x16.relaxed_laneselect` (opcode 0xFD 265), a relaxed vector instruction that selects lanes of two vectors by a third.
    /// [`InstructionSink::i8x16_relaxed_laneselect`](super::InstructionSink::i8x16_relaxed_laneselect) appends it.
    #[doc(alias = "i8x16.relaxed_laneselect")]
    I8x16RelaxedLaneselect,
    /// `i16x8.relaxed_laneselect` (opcode 0xFD 266), a relaxed vector instruction that selects lanes of two vectors by a third.
    /// [`InstructionSink::i16x8_relaxed_laneselect`](super::InstructionSink::i16x8_relaxed_laneselect) appends it.
    #[doc(alias = "i16x8.relaxed_laneselect")]
    I16x8RelaxedLaneselect,
    /// `i32x4.relaxed_laneselect` (opcode 0xFD 267), a relaxed vector instruction that selects lanes of two vectors by a third.
    /// [`InstructionSink::i32x4_relaxed_laneselect`](super::InstructionSink::i32x4_relaxed_laneselect) appends it.
    #[doc(alias = "i32x4.relaxed_laneselect")]
    I32x4RelaxedLaneselect,
    /// `i64x2.relaxed_laneselect` (opcode 0xFD 268), a relaxed vector instruction that selects lanes of two vectors by a third.
    /// [`InstructionSink::i64x2_relaxed_laneselect`](super::InstructionSink::i64x2_relaxed_laneselect) appends it.
    #[doc(alias = "i64x2.relaxed_laneselect")]
    I64x2RelaxedLaneselect,
    /// `f32x4.relaxed_min` (opcode 0xFD 269), a relaxed vector instruction that computes the minimum of each lane of two vectors.
    /// [`InstructionSink::f32x4_relaxed_min`](super::InstructionSink::f32x4_relaxed_min) appends it.
    #[doc(alias = "f32x4.relaxed_min")]
    F32x4RelaxedMin,
    /// `f32x4.relaxed_max` (opcode 0xFD 270), a relaxed vector instruction that computes the maximum of each lane of two vectors.
    /// [`InstructionSink::f32x4_relaxed_max`](super::InstructionSink::f32x4_relaxed_max) appends it.
    #[doc(alias = "f32x4.relaxed_max")]
    F32x4RelaxedMax,
    /// `f64x2.relaxed_min` (opcode 0xFD 271), a relaxed vector instruction that computes the minimum of each lane of two vectors.
    /// [`InstructionSink::f64x2_relaxed_min`](super::InstructionSink::f64x2_relaxed_min) appends it.
    #[doc(alias = "f64x2.relaxed_min")]
    F64x2RelaxedMin,
    /// `f64x2.relaxed_max` (opcode 0xFD 272), a relaxed vector instruction that computes the maximum of each lane of two vectors.
    /// [`InstructionSink::f64x2_relaxed_max`](super::InstructionSink::f64x2_relaxed_max) appends it.
    #[doc(alias = "f64x2.relaxed_max")]
    F64x2RelaxedMax,
    /// `i16x8.relaxed_q15mulr_s` (opcode 0xFD 273), a relaxed vector instruction that multiplies each lane of two vectors as fixed-point numbers, rounded.
    /// [`InstructionSink::i16x8_relaxed_q15mulr_s`](super::InstructionSink::i16x8_relaxed_q15mulr_s) appends it.
    #[doc(alias = "i16x8.relaxed_q15mulr_s")]
    I16x8RelaxedQ15mulrS,
    /// `i16x8.relaxed_dot_i8x16_i7x16_s` (opcode 0xFD 274), a relaxed vector instruction that multiplies each lane of two vectors, and adds neighbouring products.
    /// [`InstructionSink::i16x8_relaxed_dot_i8x16_i7x16_s`](super::InstructionSink::i16x8_relaxed_dot_i8x16_i7x16_s) appends it.
    #[doc(alias = "i16x8.relaxed_dot_i8x16_i7x16_s")]
    I16x8RelaxedDotI8x16I7x16S,
    /// `i32x4.relaxed_dot_i8x16_i7x16_add_s` (opcode 0xFD 275), a relaxed vector instruction that multiplies each lane of two vectors, and adds neighbouring products and a third vector.
    /// [`InstructionSink::i32x4_relaxed_dot_i8x16_i7x16_add_s`](super::InstructionSink::i32x4_relaxed_dot_i8x16_i7x16_add_s) appends it.
    #[doc(alias = "i32x4.relaxed_dot_i8x16_i7x16_add_s")]
    I32x4RelaxedDotI8x16I7x16AddS,
    /// `memory.atomic.notify` (opcode 0xFE 0), an atomic instruction of the threads proposal that wakes threads that wait at an address.
    /// [`InstructionSink::memory_atomic_notify`](super::InstructionSink::memory_atomic_notify) appends it, with the immediate `memarg`.
    #[doc(alias = "memory.atomic.notify")]
    MemoryAtomicNotify(MemArg),
    /// `memory.atomic.wait32` (opcode 0xFE 1), an atomic instruction of the threads proposal that waits at an address for a notification.
    /// [`InstructionSink::memory_atomic_wait32`](super::InstructionSink::memory_atomic_wait32) appends it, with the immediate `memarg`.
    #[doc(alias = "memory.atomic.wait32")]
    MemoryAtomicWait32(MemArg),
    /// `memory.atomic.wait64` (opcode 0xFE 2), an atomic instruction of the threads proposal that waits at an address for a notification.
    /// [`InstructionSink::memory_atomic_wait64`](super::InstructionSink::memory_atomic_wait64) appends it, with the immediate `memarg`.
    #[doc(alias = "memory.atomic.wait64")]
    MemoryAtomicWait64(MemArg),
    /// `atomic.fence` (opcode 0xFE 3), an atomic instruction of the threads proposal that orders the accesses before and after it.
    /// [`InstructionSink::atomic_fence`](super::InstructionSink::atomic_fence) appends it, with the immediate `ordering`.
    #[doc(alias = "atomic.fence")]
    AtomicFence(Ordering),
    /// `pause` (opcode 0xFE 4), an instruction of the shared-everything threads proposal that hints that the thread waits in a loop.
    /// [`InstructionSink::pause`](super::InstructionSink::pause) appends it.
    Pause,
    /// `i32.atomic.load` (opcode 0xFE 16), an atomic instruction of the threads proposal that loads a number from a memory.
    /// [`InstructionSink::i32_atomic_load`](super::InstructionSink::i32_atomic_load) appends it, with the immediate `memarg`.
    #[doc(alias = "i32.atomic.load")]
    I32AtomicLoad(MemArg),
    /// `i64.atomic.load` (opcode 0xFE 17), an atomic instruction of the threads proposal that loads a number from a memory.
    /// [`InstructionSink::i64_atomic_load`](super::InstructionSink::i64_atomic_load) appends it, with the immediate `memarg`.
    #[doc(alias = "i64.atomic.load")]
    I64AtomicLoad(MemArg),
    /// `i32.atomic.load8_u` (opcode 0xFE 18), an atomic instruction of the threads proposal that loads a number from a memory.
    /// [`InstructionSink::i32_atomic_load8_u`](super::InstructionSink::i32_atomic_load8_u) appends it, with the immediate `memarg`.
    #[doc(alias = "i32.atomic.load8_u")]
    I32AtomicLoad8U(MemArg),
    /// `i32.atomic.load16_u` (opcode 0xFE 19), an atomic instruction of the threads proposal that loads a number from a memory.
    /// [`InstructionSink::i32_atomic_load16_u`](super::InstructionSink::i32_atomic_load16_u) appends it, with the immediate `memarg`.
    #[doc(alias = "i32.atomic.load16_u")]
    I32AtomicLoad16U(MemArg),
    /// `i64.atomic.load8_u` (opcode 0xFE 20), an atomic instruction of the threads proposal that loads a number from a memory.
    /// [`InstructionSink::i64_atomic_load8_u`](super::InstructionSink::i64_atomic_load8_u) appends it, with the immediate `memarg`.
    #[doc(alias = "i64.atomic.load8_u")]
    I64AtomicLoad8U(MemArg),
    /// `i64.atomic.load16_u` (opcode 0xFE 21), an atomic instruction of the threads proposal that loads a number from a memory.
    /// [`InstructionSink::i64_atomic_load16_u`](super::InstructionSink::i64_atomic_load16_u) appends it, with the immediate `memarg`.
    #[doc(alias = "i64.atomic.load16_u")]
    I64AtomicLoad16U(MemArg),
    /// `i64.atomic.load32_u` (opcode 0xFE 22), an atomic instruction of the threads proposal that loads a number from a memory.
    /// [`InstructionSink::i64_atomic_load32_u`](super::InstructionSink::i64_atomic_load32_u) appends it, with the immediate `memarg`.
    #[doc(alias = "i64.atomic.load32_u")]
    I64AtomicLoad32U(MemArg),
    /// `i32.atomic.store` (opcode 0xFE 23), an atomic instruction of the threads proposal that stores a number to a memory.
    /// [`InstructionSink::i32_atomic_store`](super::InstructionSink::i32_atomic_store) appends it, with the immediate `memarg`.
    #[doc(alias = "i32.atomic.store")]
    I32AtomicStore(MemArg),
    /// `i64.atomic.store` (opcode 0xFE 24), an atomic instruction of the threads proposal that stores a number to a memory.
    /// [`InstructionSink::i64_atomic_store`](super::InstructionSink::i64_atomic_store) appends it, with the immediate `memarg`.
    #[doc(alias = "i64.atomic.store")]
    I64AtomicStore(MemArg),
    /// `i32.atomic.store8` (opcode 0xFE 25), an atomic instruction of the threads proposal that stores a number to a memory.
    /// [`InstructionSink::i32_atomic_store8`](super::InstructionSink::i32_atomic_store8) appends it, with the immediate `memarg`.
    #[doc(alias = "i32.atomic.store8")]
    I32AtomicStore8(MemArg),
    /// `i32.atomic.store16` (opcode 0xFE 26), an atomic instruction of the threads proposal that stores a number to a memory.
    /// [`InstructionSink::i32_atomic_store16`](super::InstructionSink::i32_atomic_store16) appends it, with the immediate `memarg`.
    #[doc(alias = "i32.atomic.store16")]
    I32AtomicStore16(MemArg),
    /// `i64.atomic.store8` (opcode 0xFE 27), an atomic instruction of the threads proposal that stores a number to a memory.
    /// [`InstructionSink::i64_atomic_store8`](super::InstructionSink::i64_atomic_store8) appends it, with the immediate `memarg`.
    #[doc(alias = "i64.atomic.store8")]
    I64AtomicStore8(MemArg),
    /// `i64.atomic.store16` (opcode 0xFE 28), an atomic instruction of the threads proposal that stores a number to a memory.
    /// [`InstructionSink::i64_atomic_store16`](super::InstructionSink::i64_atomic_store16) appends it, with the immediate `memarg`.
    #[doc(alias = "i64.atomic.store16")]
    I64AtomicStore16(MemArg),
    /// `i64.atomic.store32` (opcode 0xFE 29), an atomic instruction of the threads proposal that stores a number to a memory.
    /// [`InstructionSink::i64_atomic_store32`](super::InstructionSink::i64_atomic_store32) appends it, with the immediate `memarg`.
    #[doc(alias = "i64.atomic.store32")]
    I64AtomicStore32(MemArg),
    /// `i32.atomic.rmw.add` (opcode 0xFE 30), an atomic instruction of the threads proposal that adds to a number in a memory, and returns the old value.
    /// [`InstructionSink::i32_atomic_rmw_add`](super::InstructionSink::i32_atomic_rmw_add) appends it, with the immediate `memarg`.
    #[doc(alias = "i32.atomic.rmw.add")]
    I32AtomicRmwAdd(MemArg),
    /// `i64.atomic.rmw.add` (opcode 0xFE 31), an atomic instruction of the threads proposal that adds to a number in a memory, and returns the old value.
    /// [`InstructionSink::i64_atomic_rmw_add`](super::InstructionSink::i64_atomic_rmw_add) appends it, with the immediate `memarg`.
    #[doc(alias = "i64.atomic.rmw.add")]
    I64AtomicRmwAdd(MemArg),
    /// `i32.atomic.rmw8.add_u` (opcode 0xFE 32), an atomic instruction of the threads proposal that adds to a number in a memory, and returns the old value.
    /// [`InstructionSink::i32_atomic_rmw8_add_u`](super::InstructionSink::i32_atomic_rmw8_add_u) appends it, with the immediate `memarg`.
    #[doc(alias = "i32.atomic.rmw8.add_u")]
    I32AtomicRmw8AddU(MemArg),
    /// `i32.atomic.rmw16.add_u` (opcode 0xFE 33), an atomic instruction of the threads proposal that adds to a number in a memory, and returns the old value.
    /// [`InstructionSink::i32_atomic_rmw16_add_u`](super::InstructionSink::i32_atomic_rmw16_add_u) appends it, with the immediate `memarg`.
    #[doc(alias = "i32.atomic.rmw16.add_u")]
    I32AtomicRmw16AddU(MemArg),
    /// `i64.atomic.rmw8.add_u` (opcode 0xFE 34), an atomic instruction of the threads proposal that adds to a number in a memory, and returns the old value.
    /// [`InstructionSink::i64_atomic_rmw8_add_u`](super::InstructionSink::i64_atomic_rmw8_add_u) appends it, with the immediate `memarg`.
    #[doc(alias = "i64.atomic.rmw8.add_u")]
    I64AtomicRmw8AddU(MemArg),
    /// `i64.atomic.rmw16.add_u` (opcode 0xFE 35), an atomic instruction of the threads proposal that adds to a number in a memory, and returns the old value.
    /// [`InstructionSink::i64_atomic_rmw16_add_u`](super::InstructionSink::i64_atomic_rmw16_add_u) appends it, with the immediate `memarg`.
    #[doc(alias = "i64.atomic.rmw16.add_u")]
    I64AtomicRmw16AddU(MemArg),
    /// `i64.atomic.rmw32.add_u` (opcode 0xFE 36), an atomic instruction of the threads proposal that adds to a number in a memory, and returns the old value.
    /// [`InstructionSink::i64_atomic_rmw32_add_u`](super::InstructionSink::i64_atomic_rmw32_add_u) appends it, with the immediate `memarg`.
    #[doc(alias = "i64.atomic.rmw32.add_u")]
    I64AtomicRmw32AddU(MemArg),
    /// `i32.atomic.rmw.sub` (opcode 0xFE 37), an atomic instruction of the threads proposal that subtracts from a number in a memory, and returns the old value.
    /// [`InstructionSink::i32_atomic_rmw_sub`](super::InstructionSink::i32_atomic_rmw_sub) appends it, with the immediate `memarg`.
    #[doc(alias = "i32.atomic.rmw.sub")]
    I32AtomicRmwSub(MemArg),
    /// `i64.atomic.rmw.sub` (opcode 0xFE 38), an atomic instruction of the threads proposal that subtracts from a number in a memory, and returns the old value.
    /// [`InstructionSink::i64_atomic_rmw_sub`](super::InstructionSink::i64_atomic_rmw_sub) appends it, with the immediate `memarg`.
    #[doc(alias = "i64.atomic.rmw.sub")]
    I64AtomicRmwSub(MemArg),
    /// `i32.atomic.rmw8.sub_u` (opcode 0xFE 39), an atomic instruction of the threads proposal that subtracts from a number in a memory, and returns the old value.
    /// [`InstructionSink::i32_atomic_rmw8_sub_u`](super::InstructionSink::i32_atomic_rmw8_sub_u) appends it, with the immediate `memarg`.
    #[doc(alias = "i32.atomic.rmw8.sub_u")]
    I32AtomicRmw8SubU(MemArg),
    /// `i32.atomic.rmw16.sub_u` (opcode 0xFE 40), an atomic instruction of the threads proposal that subtracts from a number in a memory, and returns the old value.
    /// [`InstructionSink::i32_atomic_rmw16_sub_u`](super::InstructionSink::i32_atomic_rmw16_sub_u) appends it, with the immediate `memarg`.
    #[doc(alias = "i32.atomic.rmw16.sub_u")]
    I32AtomicRmw16SubU(MemArg),
    /// `i64.atomic.rmw8.sub_u` (opcode 0xFE 41), an atomic instruction of the threads proposal that subtracts from a number in a memory, and returns the old value.
    /// [`InstructionSink::i64_atomic_rmw8_sub_u`](super::InstructionSink::i64_atomic_rmw8_sub_u) appends it, with the immediate `memarg`.
    #[doc(alias = "i64.atomic.rmw8.sub_u")]
    I64AtomicRmw8SubU(MemArg),
    /// `i64.atomic.rmw16.sub_u` (opcode 0xFE 42), an atomic instruction of the threads proposal that subtracts from a number in a memory, and returns the old value.
    /// [`InstructionSink::i64_atomic_rmw16_sub_u`](super::InstructionSink::i64_atomic_rmw16_sub_u) appends it, with the immediate `memarg`.
    #[doc(alias = "i64.atomic.rmw16.sub_u")]
    I64AtomicRmw16SubU(MemArg),
    /// `i64.atomic.rmw32.sub_u` (opcode 0xFE 43), an atomic instruction of the threads proposal that subtracts from a number in a memory, and returns the old value.
    /// [`InstructionSink::i64_atomic_rmw32_sub_u`](super::InstructionSink::i64_atomic_rmw32_sub_u) appends it, with the immediate `memarg`.
    #[doc(alias = "i64.atomic.rmw32.sub_u")]
    I64AtomicRmw32SubU(MemArg),
    /// `i32.atomic.rmw.and` (opcode 0xFE 44), an atomic instruction of the threads proposal that sets a number in a memory to its bitwise and with an operand, and returns the old value.
    /// [`InstructionSink::i32_atomic_rmw_and`](super::InstructionSink::i32_atomic_rmw_and) appends it, with the immediate `memarg`.
    #[doc(alias = "i32.atomic.rmw.and")]
    I32AtomicRmwAnd(MemArg),
    /// `i64.atomic.rmw.and` (opcode 0xFE 45), an atomic instruction of the threads proposal that sets a number in a memory to its bitwise and with an operand, and returns the old value.
    /// [`InstructionSink::i64_atomic_rmw_and`](super::InstructionSink::i64_atomic_rmw_and) appends it, with the immediate `memarg`.
    #[doc(alias = "i64.atomic.rmw.and")]
    I64AtomicRmwAnd(MemArg),
    /// `i32.atomic.rmw8.and_u` (opcode 0xFE 46), an atomic instruction of the threads proposal that sets a number in a memory to its bitwise and with an operand, and returns the old value.
    /// [`InstructionSink::i32_atomic_rmw8_and_u`](super::InstructionSink::i32_atomic_rmw8_and_u) appends it, with the immediate `memarg`.
    #[doc(alias = "i32.atomic.rmw8.and_u")]
    I32AtomicRmw8AndU(MemArg),
    /// `i32.atomic.rmw16.and_u` (opcode 0xFE 47), an atomic instruction of the threads proposal that sets a number in a memory to its bitwise and with an operand, and returns the old value.
    /// [`InstructionSink::i32_atomic_rmw16_and_u`](super::InstructionSink::i32_atomic_rmw16_and_u) appends it, with the immediate `memarg`.
    #[doc(alias = "i32.atomic.rmw16.and_u")]
    I32AtomicRmw16AndU(MemArg),
    /// `i64.atomic.rmw8.and_u` (opcode 0xFE 48), an atomic instruction of the threads proposal that sets a number in a memory to its bitwise and with an operand, and returns the old value.
    /// [`InstructionSink::i64_atomic_rmw8_and_u`](super::InstructionSink::i64_atomic_rmw8_and_u) appends it, with the immediate `memarg`.
    #[doc(alias = "i64.atomic.rmw8.and_u")]
    I64AtomicRmw8AndU(MemArg),
    /// `i64.atomic.rmw16.and_u` (opcode 0xFE 49), an atomic instruction of the threads proposal that sets a number in a memory to its bitwise and with an operand, and returns the old value.
    /// [`InstructionSink::i64_atomic_rmw16_and_u`](super::InstructionSink::i64_atomic_rmw16_and_u) appends it, with the immediate `memarg`.
    #[doc(alias = "i64.atomic.rmw16.and_u")]
    I64AtomicRmw16AndU(MemArg),
    /// `i64.atomic.rmw32.and_u` (opcode 0xFE 50), an atomic instruction of the threads proposal that sets a number in a memory to its bitwise and with an operand, and returns the old value.
    /// [`InstructionSink::i64_atomic_rmw32_and_u`](super::InstructionSink::i64_atomic_rmw32_and_u) appends it, with the immediate `memarg`.
    #[doc(alias = "i64.atomic.rmw32.and_u")]
    I64AtomicRmw32AndU(MemArg),
    /// `i32.atomic.rmw.or` (opcode 0xFE 51), an atomic instruction of the threads proposal that sets a number in a memory to its bitwise or with an operand, and returns the old value.
    /// [`InstructionSink::i32_atomic_rmw_or`](super::InstructionSink::i32_atomic_rmw_or) appends it, with the immediate `memarg`.
    #[doc(alias = "i32.atomic.rmw.or")]
    I32AtomicRmwOr(MemArg),
    /// `i64.atomic.rmw.or` (opcode 0xFE 52), an atomic instruction of the threads proposal that sets a number in a memory to its bitwise or with an operand, and returns the old value.
    /// [`InstructionSink::i64_atomic_rmw_or`](super::InstructionSink::i64_atomic_rmw_or) appends it, with the immediate `memarg`.
    #[doc(alias = "i64.atomic.rmw.or")]
    I64AtomicRmwOr(MemArg),
    /// `i32.atomic.rmw8.or_u` (opcode 0xFE 53), an atomic instruction of the threads proposal that sets a number in a memory to its bitwise or with an operand, and returns the old value.
    /// [`InstructionSink::i32_atomic_rmw8_or_u`](super::InstructionSink::i32_atomic_rmw8_or_u) appends it, with the immediate `memarg`.
    #[doc(alias = "i32.atomic.rmw8.or_u")]
    I32AtomicRmw8OrU(MemArg),
    /// `i32.atomic.rmw16.or_u` (opcode 0xFE 54), an atomic instruction of the threads proposal that sets a number in a memory to its bitwise or with an operand, and returns the old value.
    /// [`InstructionSink::i32_atomic_rmw16_or_u`](super::InstructionSink::i32_atomic_rmw16_or_u) appends it, with the immediate `memarg`.
    #[doc(alias = "i32.atomic.rmw16.or_u")]
    I32AtomicRmw16OrU(MemArg),
    /// `i64.atomic.rmw8.or_u` (opcode 0xFE 55), an atomic instruction of the threads proposal that sets a number in a memory to its bitwise or with an operand, and returns the old value.
    /// [`InstructionSink::i64_atomic_rmw8_or_u`](super::InstructionSink::i64_atomic_rmw8_or_u) appends it, with the immediate `memarg`.
    #[doc(alias = "i64.atomic.rmw8.or_u")]
    I64AtomicRmw8OrU(MemArg),
    /// `i64.atomic.rmw16.or_u` (opcode 0xFE 56), an atomic instruction of the threads proposal that sets a number in a memory to its bitwise or with an operand, and returns the old value.
    /// [`InstructionSink::i64_atomic_rmw16_or_u`](super::InstructionSink::i64_atomic_rmw16_or_u) appends it, with the immediate `memarg`.
    #[doc(alias = "i64.atomic.rmw16.or_u")]
    I64AtomicRmw16OrU(MemArg),
    /// `i64.atomic.rmw32.or_u` (opcode 0xFE 57), an atomic instruction of the threads proposal that sets a number in a memory to its bitwise or with an operand, and returns the old value.
    /// [`InstructionSink::i64_atomic_rmw32_or_u`](super::InstructionSink::i64_atomic_rmw32_or_u) appends it, with the immediate `memarg`.
    #[doc(alias = "i64.atomic.rmw32.or_u")]
    I64AtomicRmw32OrU(MemArg),
    /// `i32.atomic.rmw.xor` (opcode 0xFE 58), an atomic instruction of the threads proposal that sets a number in a memory to its bitwise exclusive or with an operand, and returns the old value.
    /// [`InstructionSink::i32_atomic_rmw_xor`](super::InstructionSink::i32_atomic_rmw_xor) appends it, with the immediate `memarg`.
    #[doc(alias = "i32.atomic.rmw.xor")]
    I32AtomicRmwXor(MemArg),
    /// `i64.atomic.rmw.xor` (opcode 0xFE 59), an atomic instruction of the threads proposal that sets a number in a memory to its bitwise exclusive or with an operand, and returns the old value.
    /// [`InstructionSink::i64_atomic_rmw_xor`](super::InstructionSink::i64_atomic_rmw_xor) appends it, with the immediate `memarg`.
    #[doc(alias = "i64.atomic.rmw.xor")]
    I64AtomicRmwXor(MemArg),
    /// `i32.atomic.rmw8.xor_u` (opcode 0xFE 60), an atomic instruction of the threads proposal that sets a number in a memory to its bitwise exclusive or with an operand, and returns the old value.
    /// [`InstructionSink::i32_atomic_rmw8_xor_u`](super::InstructionSink::i32_atomic_rmw8_xor_u) appends it, with the immediate `memarg`.
    #[doc(alias = "i32.atomic.rmw8.xor_u")]
    I32AtomicRmw8XorU(MemArg),
    /// `i32.atomic.rmw16.xor_u` (opcode 0xFE 61), an atomic instruction of the threads proposal that sets a number in a memory to its bitwise exclusive or with an operand, and returns the old value.
    /// [`InstructionSink::i32_atomic_rmw16_xor_u`](super::InstructionSink::i32_atomic_rmw16_xor_u) appends it, with the immediate `memarg`.
    #[doc(alias = "i32.atomic.rmw16.xor_u")]
    I32AtomicRmw16XorU(MemArg),
    /// `i64.atomic.rmw8.xor_u` (opcode 0xFE 62), an atomic instruction of the threads proposal that sets a number in a memory to its bitwise exclusive or with an operand, and returns the old value.
    /// [`InstructionSink::i64_atomic_rmw8_xor_u`](super::InstructionSink::i64_atomic_rmw8_xor_u) appends it, with the immediate `memarg`.
    #[doc(alias = "i64.atomic.rmw8.xor_u")]
    I64AtomicRmw8XorU(MemArg),
    /// `i64.atomic.rmw16.xor_u` (opcode 0xFE 63), an atomic instruction of the threads proposal that sets a number in a memory to its bitwise exclusive or with an operand, and returns the old value.
    /// [`InstructionSink::i64_atomic_rmw16_xor_u`](super::InstructionSink::i64_atomic_rmw16_xor_u) appends it, with the immediate `memarg`.
    #[doc(alias = "i64.atomic.rmw16.xor_u")]
    I64AtomicRmw16XorU(MemArg),
    /// `i64.atomic.rmw32.xor_u` (opcode 0xFE 64), an atomic instruction of the threads proposal that sets a number in a memory to its bitwise exclusive or with an operand, and returns the old value.
    /// [`InstructionSink::i64_atomic_rmw32_xor_u`](super::InstructionSink::i64_atomic_rmw32_xor_u) appends it, with the immediate `memarg`.
    #[doc(alias = "i64.atomic.rmw32.xor_u")]
    I64AtomicRmw32XorU(MemArg),
    /// `i32.atomic.rmw.xchg` (opcode 0xFE 65), an atomic instruction of the threads proposal that replaces a number in a memory, and returns the old value.
    /// [`InstructionSink::i32_atomic_rmw_xchg`](super::InstructionSink::i32_atomic_rmw_xchg) appends it, with the immediate `memarg`.
    #[doc(alias = "i32.atomic.rmw.xchg")]
    I32AtomicRmwXchg(MemArg),
    /// `i64.atomic.rmw.xchg` (opcode 0xFE 66), an atomic instruction of the threads proposal that replaces a number in a memory, and returns the old value.
    /// [`InstructionSink::i64_atomic_rmw_xchg`](super::InstructionSink::i64_atomic_rmw_xchg) appends it, with the immediate `memarg`.
    #[doc(alias = "i64.atomic.rmw.xchg")]
    I64AtomicRmwXchg(MemArg),
    /// `i32.atomic.rmw8.xchg_u` (opcode 0xFE 67), an atomic instruction of the threads proposal that replaces a number in a memory, and returns the old value.
    /// [`InstructionSink::i32_atomic_rmw8_xchg_u`](super::InstructionSink::i32_atomic_rmw8_xchg_u) appends it, with the immediate `memarg`.
    #[doc(alias = "i32.atomic.rmw8.xchg_u")]
    I32AtomicRmw8XchgU(MemArg),
    /// `i32.atomic.rmw16.xchg_u` (opcode 0xFE 68), an atomic instruction of the threads proposal that replaces a number in a memory, and returns the old value.
    /// [`InstructionSink::i32_atomic_rmw16_xchg_u`](super::InstructionSink::i32_atomic_rmw16_xchg_u) appends it, with the immediate `memarg`.
    #[doc(alias = "i32.atomic.rmw16.xchg_u")]
    I32AtomicRmw16XchgU(MemArg),
    /// `i64.atomic.rmw8.xchg_u` (opcode 0xFE 69), an atomic instruction of the threads proposal that replaces a number in a memory, and returns the old value.
    /// [`InstructionSink::i64_atomic_rmw8_xchg_u`](super::InstructionSink::i64_atomic_rmw8_xchg_u) appends it, with the immediate `memarg`.
    #[doc(alias = "i64.atomic.rmw8.xchg_u")]
    I64AtomicRmw8XchgU(MemArg),
    /// `i64.atomic.rmw16.xchg_u` (opcode 0xFE 70), an atomic instruction of the threads proposal that replaces a number in a memory, and returns the old value.
    /// [`InstructionSink::i64_atomic_rmw16_xchg_u`](super::InstructionSink::i64_atomic_rmw16_xchg_u) appends it, with the immediate `memarg`.
    #[doc(alias = "i64.atomic.rmw16.xchg_u")]
    I64AtomicRmw16XchgU(MemArg),
    /// `i64.atomic.rmw32.xchg_u` (opcode 0xFE 71), an atomic instruction of the threads proposal that replaces a number in a memory, and returns the old value.
    /// [`InstructionSink::i64_atomic_rmw32_xchg_u`](super::InstructionSink::i64_atomic_rmw32_xchg_u) appends it, with the immediate `memarg`.
    #[doc(alias = "i64.atomic.rmw32.xchg_u")]
    I64AtomicRmw32XchgU(MemArg),
    /// `i32.atomic.rmw.cmpxchg` (opcode 0xFE 72), an atomic instruction of the threads proposal that replaces a number in a memory if it has the expected value, and returns the old value.
    /// [`InstructionSink::i32_atomic_rmw_cmpxchg`](super::InstructionSink::i32_atomic_rmw_cmpxchg) appends it, with the immediate `memarg`.
    #[doc(alias = "i32.atomic.rmw.cmpxchg")]
    I32AtomicRmwCmpxchg(MemArg),
    /// `i64.atomic.rmw.cmpxchg` (opcode 0xFE 73), an atomic instruction of the threads proposal that replaces a number in a memory if it has the expected value, and returns the old value.
    /// [`InstructionSink::i64_atomic_rmw_cmpxchg`](super::InstructionSink::i64_atomic_rmw_cmpxchg) appends it, with the immediate `memarg`.
    #[doc(alias = "i64.atomic.rmw.cmpxchg")]
    I64AtomicRmwCmpxchg(MemArg),
    /// `i32.atomic.rmw8.cmpxchg_u` (opcode 0xFE 74), an atomic instruction of the threads proposal that replaces a number in a memory if it has the expected value, and returns the old value.
    /// [`InstructionSink::i32_atomic_rmw8_cmpxchg_u`](super::InstructionSink::i32_atomic_rmw8_cmpxchg_u) appends it, with the immediate `memarg`.
    #[doc(alias = "i32.atomic.rmw8.cmpxchg_u")]
    I32AtomicRmw8CmpxchgU(MemArg),
    /// `i32.atomic.rmw16.cmpxchg_u` (opcode 0xFE 75), an atomic instruction of the threads proposal that replaces a number in a memory if it has the expected value, and returns the old value.
    /// [`InstructionSink::i32_atomic_rmw16_cmpxchg_u`](super::InstructionSink::i32_atomic_rmw16_cmpxchg_u) appends it, with the immediate `memarg`.
    #[doc(alias = "i32.atomic.rmw16.cmpxchg_u")]
    I32AtomicRmw16CmpxchgU(MemArg),
    /// `i64.atomic.rmw8.cmpxchg_u` (opcode 0xFE 76), an atomic instruction of the threads proposal that replaces a number in a memory if it has the expected value, and returns the old value.
    /// [`InstructionSink::i64_atomic_rmw8_cmpxchg_u`](super::InstructionSink::i64_atomic_rmw8_cmpxchg_u) appends it, with the immediate `memarg`.
    #[doc(alias = "i64.atomic.rmw8.cmpxchg_u")]
    I64AtomicRmw8CmpxchgU(MemArg),
    /// `i64.atomic.rmw16.cmpxchg_u` (opcode 0xFE 77), an atomic instruction of the threads proposal that replaces a number in a memory if it has the expected value, and returns the old value.
    /// [`InstructionSink::i64_atomic_rmw16_cmpxchg_u`](super::InstructionSink::i64_atomic_rmw16_cmpxchg_u) appends it, with the immediate `memarg`.
    #[doc(alias = "i64.atomic.rmw16.cmpxchg_u")]
    I64AtomicRmw16CmpxchgU(MemArg),
    /// `i64.atomic.rmw32.cmpxchg_u` (opcode 0xFE 78), an atomic instruction of the threads proposal that replaces a number in a memory if it has the expected value, and returns the old value.
    /// [`InstructionSink::i64_atomic_rmw32_cmpxchg_u`](super::InstructionSink::i64_atomic_rmw32_cmpxchg_u) appends it, with the immediate `memarg`.
    #[doc(alias = "i64.atomic.rmw32.cmpxchg_u")]
    I64AtomicRmw32CmpxchgU(MemArg),
    /// `global.atomic.get` (opcode 0xFE 79), an instruction of the shared-everything threads proposal that reads a global.
    /// [`InstructionSink::global_atomic_get`](super::InstructionSink::global_atomic_get) appends it.
    #[doc(alias = "global.atomic.get")]
    GlobalAtomicGet {
        /// The ordering of the access.
        ordering: Ordering,
        /// The index of the global.
        global_index: u32,
    },
    /// `global.atomic.set` (opcode 0xFE 80), an instruction of the shared-everything threads proposal that writes a global.
    /// [`InstructionSink::global_atomic_set`](super::InstructionSink::global_atomic_set) appends it.
    #[doc(alias = "global.atomic.set")]
    GlobalAtomicSet {
        /// The ordering of the access.
        ordering: Ordering,
        /// The index of the global.
        global_index: u32,
    },
    /// `global.atomic.rmw.add` (opcode 0xFE 81), an instruction of the shared-everything threads proposal that adds to a global, and returns the old value.
    /// [`InstructionSink::global_atomic_rmw_add`](super::InstructionSink::global_atomic_rmw_add) appends it.
    #[doc(alias = "global.atomic.rmw.add")]
    GlobalAtomicRmwAdd {
        /// The ordering of the access.
        ordering: Ordering,
        /// The index of the global.
        global_index: u32,
    },
    /// `global.atomic.rmw.sub` (opcode 0xFE 82), an instruction of the shared-everything threads proposal that subtracts from a global, and returns the old value.
    /// [`InstructionSink::global_atomic_rmw_sub`](super::InstructionSink::global_atomic_rmw_sub) appends it.
    #[doc(alias = "global.atomic.rmw.sub")]
    GlobalAtomicRmwSub {
        /// The ordering of the access.
        ordering: Ordering,
        /// The index of the global.
        global_index: u32,
    },
    /// `global.atomic.rmw.and` (opcode 0xFE 83), an instruction of the shared-everything threads proposal that sets a global to its bitwise and with an operand, and returns the old value.
    /// [`InstructionSink::global_atomic_rmw_and`](super::InstructionSink::global_atomic_rmw_and) appends it.
    #[doc(alias = "global.atomic.rmw.and")]
    GlobalAtomicRmwAnd {
        /// The ordering of the access.
        ordering: Ordering,
        /// The index of the global.
        global_index: u32,
    },
    /// `global.atomic.rmw.or` (opcode 0xFE 84), an instruction of the shared-everything threads proposal that sets a global to its bitwise or with an operand, and returns the old value.
    /// [`InstructionSink::global_atomic_rmw_or`](super::InstructionSink::global_atomic_rmw_or) appends it.
    #[doc(alias = "global.atomic.rmw.or")]
    GlobalAtomicRmwOr {
        /// The ordering of the access.
        ordering: Ordering,
        /// The index of the global.
        global_index: u32,
    },
    /// `global.atomic.rmw.xor` (opcode 0xFE 85), an instruction of the shared-everything threads proposal that sets a global to its bitwise exclusive or with an operand, and returns the old value.
    /// [`InstructionSink::global_atomic_rmw_xor`](super::InstructionSink::global_atomic_rmw_xor) appends it.
    #[doc(alias = "global.atomic.rmw.xor")]
    GlobalAtomicRmwXor {
        /// The ordering of the access.
        ordering: Ordering,
        /// The index of the global.
        global_index: u32,
    },
    /// `global.atomic.rmw.xchg` (opcode 0xFE 86), an instruction of the shared-everything threads proposal that replaces a global, and returns the old value.
    /// [`InstructionSink::global_atomic_rmw_xchg`](super::InstructionSink::global_atomic_rmw_xchg) appends it.
    #[doc(alias = "global.atomic.rmw.xchg")]
    GlobalAtomicRmwXchg {
        /// The ordering of the access.
        ordering: Ordering,
        /// The index of the global.
        global_index: u32,
    },
    /// `global.atomic.rmw.cmpxchg` (opcode 0xFE 87), an instruction of the shared-everything threads proposal that replaces a global if it has the expected value, and returns the old value.
    /// [`InstructionSink::global_atomic_rmw_cmpxchg`](super::InstructionSink::global_atomic_rmw_cmpxchg) appends it.
    #[doc(alias = "global.atomic.rmw.cmpxchg")]
    GlobalAtomicRmwCmpxchg {
        /// The ordering of the access.
        ordering: Ordering,
        /// The index of the global.
        global_index: u32,
    },
    /// `table.atomic.get` (opcode 0xFE 88), an instruction of the shared-everything threads proposal that reads an element of a table.
    /// [`InstructionSink::table_atomic_get`](super::InstructionSink::table_atomic_get) appends it.
    #[doc(alias = "table.atomic.get")]
    TableAtomicGet {
        /// The ordering of the access.
        ordering: Ordering,
        /// The index of the table.
        table_index: u32,
    },
    /// `table.atomic.set` (opcode 0xFE 89), an instruction of the shared-everything threads proposal that writes an element of a table.
    /// [`InstructionSink::table_atomic_set`](super::InstructionSink::table_atomic_set) appends it.
    #[doc(alias = "table.atomic.set")]
    TableAtomicSet {
        /// The ordering of the access.
        ordering: Ordering,
        /// The index of the table.
        table_index: u32,
    },
    /// `table.atomic.rmw.xchg` (opcode 0xFE 90), an instruction of the shared-everything threads proposal that replaces an element of a table, and returns the old value.
    /// [`InstructionSink::table_atomic_rmw_xchg`](super::InstructionSink::table_atomic_rmw_xchg) appends it.
    #[doc(alias = "table.atomic.rmw.xchg")]
    TableAtomicRmwXchg {
        /// The ordering of the access.
        ordering: Ordering,
        /// The index of the table.
        table_index: u32,
    },
    /// `table.atomic.rmw.cmpxchg` (opcode 0xFE 91), an instruction of the shared-everything threads proposal that replaces an element of a table if it has the expected value, and returns the old value.
    /// [`InstructionSink::table_atomic_rmw_cmpxchg`](super::InstructionSink::table_atomic_rmw_cmpxchg) appends it.
    #[doc(alias = "table.atomic.rmw.cmpxchg")]
    TableAtomicRmwCmpxchg {
        /// The ordering of the access.
        ordering: Ordering,
        /// The index of the table.
        table_index: u32,
    },
    /// `struct.atomic.get` (opcode 0xFE 92), an instruction of the shared-everything threads proposal that reads a field of a structure.
    /// [`InstructionSink::struct_atomic_get`](super::InstructionSink::struct_atomic_get) appends it.
    #[doc(alias = "struct.atomic.get")]
    StructAtomicGet {
        /// The ordering of the access.
        ordering: Ordering,
        /// The index of the structure type.
        struct_type_index: u32,
        /// The index of the field.
        field_index: u32,
    },
    /// `struct.atomic.get_s` (opcode 0xFE 93), an instruction of the shared-everything threads proposal that reads a field of a structure, sign-extended.
    /// [`InstructionSink::struct_atomic_get_s`](super::InstructionSink::struct_atomic_get_s) appends it.
    #[doc(alias = "struct.atomic.get_s")]
    StructAtomicGetS {
        /// The ordering of the access.
        ordering: Ordering,
        /// The index of the structure type.
        struct_type_index: u32,
        /// The index of the field.
        field_index: u32,
    },
    /// `struct.atomic.get_u` (opcode 0xFE 94), an instruction of the shared-everything threads proposal that reads a field of a structure, zero-extended.
    /// [`InstructionSink::struct_atomic_get_u`](super::InstructionSink::struct_atomic_get_u) appends it.
    #[doc(alias = "struct.atomic.get_u")]
    StructAtomicGetU {
        /// The ordering of the access.
        ordering: Ordering,
        /// The index of the structure type.
        struct_type_index: u32,
        /// The index of the field.
        field_index: u32,
    },
    /// `struct.atomic.set` (opcode 0xFE 95), an instruction of the shared-everything threads proposal that writes a field of a structure.
    /// [`InstructionSink::struct_atomic_set`](super::InstructionSink::struct_atomic_set) appends it.
    #[doc(alias = "struct.atomic.set")]
    StructAtomicSet {
        /// The ordering of the access.
        ordering: Ordering,
        /// The index of the structure type.
        struct_type_index: u32,
        /// The index of the field.
        field_index: u32,
    },
    /// `struct.atomic.rmw.add` (opcode 0xFE 96), an instruction of the shared-everything threads proposal that adds to a field of a structure, and returns the old value.
    /// [`InstructionSink::struct_atomic_rmw_add`](super::InstructionSink::struct_atomic_rmw_add) appends it.
    #[doc(alias = "struct.atomic.rmw.add")]
    StructAtomicRmwAdd {
        /// The ordering of the access.
        ordering: Ordering,
        /// The index of the structure type.
        struct_type_index: u32,
        /// The index of the field.
        field_index: u32,
    },
    /// `struct.atomic.rmw.sub` (opcode 0xFE 97), an instruction of the shared-everything threads proposal that subtracts from a field of a structure, and returns the old value.
    /// [`InstructionSink::struct_atomic_rmw_sub`](super::InstructionSink::struct_atomic_rmw_sub) appends it.
    #[doc(alias = "struct.atomic.rmw.sub")]
    StructAtomicRmwSub {
        /// The ordering of the access.
        ordering: Ordering,
        /// The index of the structure type.
        struct_type_index: u32,
        /// The index of the field.
        field_index: u32,
    },
    /// `struct.atomic.rmw.and` (opcode 0xFE 98), an instruction of the shared-everything threads proposal that sets a field of a structure to its bitwise and with an operand, and returns the old value.
    /// [`InstructionSink::struct_atomic_rmw_and`](super::InstructionSink::struct_atomic_rmw_and) appends it.
    #[doc(alias = "struct.atomic.rmw.and")]
    StructAtomicRmwAnd {
        /// The ordering of the access.
        ordering: Ordering,
        /// The index of the structure type.
        struct_type_index: u32,
        /// The index of the field.
        field_index: u32,
    },
    /// `struct.atomic.rmw.or` (opcode 0xFE 99), an instruction of the shared-everything threads proposal that sets a field of a structure to its bitwise or with an operand, and returns the old value.
    /// [`InstructionSink::struct_atomic_rmw_or`](super::InstructionSink::struct_atomic_rmw_or) appends it.
    #[doc(alias = "struct.atomic.rmw.or")]
    StructAtomicRmwOr {
        /// The ordering of the access.
        ordering: Ordering,
        /// The index of the structure type.
        struct_type_index: u32,
        /// The index of the field.
        field_index: u32,
    },
    /// `struct.atomic.rmw.xor` (opcode 0xFE 100), an instruction of the shared-everything threads proposal that sets a field of a structure to its bitwise exclusive or with an operand, and returns the old value.
    /// [`InstructionSink::struct_atomic_rmw_xor`](super::InstructionSink::struct_atomic_rmw_xor) appends it.
    #[doc(alias = "struct.atomic.rmw.xor")]
    StructAtomicRmwXor {
        /// The ordering of the access.
        ordering: Ordering,
        /// The index of the structure type.
        struct_type_index: u32,
        /// The index of the field.
        field_index: u32,
    },
    /// `struct.atomic.rmw.xchg` (opcode 0xFE 101), an instruction of the shared-everything threads proposal that replaces a field of a structure, and returns the old value.
    /// [`InstructionSink::struct_atomic_rmw_xchg`](super::InstructionSink::struct_atomic_rmw_xchg) appends it.
    #[doc(alias = "struct.atomic.rmw.xchg")]
    StructAtomicRmwXchg {
        /// The ordering of the access.
        ordering: Ordering,
        /// The index of the structure type.
        struct_type_index: u32,
        /// The index of the field.
        field_index: u32,
    },
    /// `struct.atomic.rmw.cmpxchg` (opcode 0xFE 102), an instruction of the shared-everything threads proposal that replaces a field of a structure if it has the expected value, and returns the old value.
    /// [`InstructionSink::struct_atomic_rmw_cmpxchg`](super::InstructionSink::struct_atomic_rmw_cmpxchg) appends it.
    #[doc(alias = "struct.atomic.rmw.cmpxchg")]
    StructAtomicRmwCmpxchg {
        /// The ordering of the access.
        ordering: Ordering,
        /// The index of the structure type.
        struct_type_index: u32,
        /// The index of the field.
        field_index: u32,
    },
    /// `array.atomic.get` (opcode 0xFE 103), an instruction of the shared-everything threads proposal that reads an element of an array.
    /// [`InstructionSink::array_atomic_get`](super::InstructionSink::array_atomic_get) appends it.
    #[doc(alias = "array.atomic.get")]
    ArrayAtomicGet {
        /// The ordering of the access.
        ordering: Ordering,
        /// The index of the array type.
        array_type_index: u32,
    },
    /// `array.atomic.get_s` (opcode 0xFE 104), an instruction of the shared-everything threads proposal that reads an element of an array, sign-extended.
    /// [`InstructionSink::array_atomic_get_s`](super::InstructionSink::array_atomic_get_s) appends it.
    #[doc(alias = "array.atomic.get_s")]
    ArrayAtomicGetS {
        /// The ordering of the access.
        ordering: Ordering,
        /// The index of the array type.
        array_type_index: u32,
    },
    /// `array.atomic.get_u` (opcode 0xFE 105), an instruction of the shared-everything threads proposal that reads an element of an array, zero-extended.
    /// [`InstructionSink::array_atomic_get_u`](super::InstructionSink::array_atomic_get_u) appends it.
    #[doc(alias = "array.atomic.get_u")]
    ArrayAtomicGetU {
        /// The ordering of the access.
        ordering: Ordering,
        /// The index of the array type.
        array_type_index: u32,
    },
    /// `array.atomic.set` (opcode 0xFE 106), an instruction of the shared-everything threads proposal that writes an element of an array.
    /// [`InstructionSink::array_atomic_set`](super::InstructionSink::array_atomic_set) appends it.
    #[doc(alias = "array.atomic.set")]
    ArrayAtomicSet {
        /// The ordering of the access.
        ordering: Ordering,
        /// The index of the array type.
        array_type_index: u32,
    },
    /// `array.atomic.rmw.add` (opcode 0xFE 107), an instruction of the shared-everything threads proposal that adds to an element of an array, and returns the old value.
    /// [`InstructionSink::array_atomic_rmw_add`](super::InstructionSink::array_atomic_rmw_add) appends it.
    #[doc(alias = "array.atomic.rmw.add")]
    ArrayAtomicRmwAdd {
        /// The ordering of the access.
        ordering: Ordering,
        /// The index of the array type.
        array_type_index: u32,
    },
    /// `array.atomic.rmw.sub` (opcode 0xFE 108), an instruction of the shared-everything threads proposal that subtracts from an element of an array, and returns the old value.
    /// [`InstructionSink::array_atomic_rmw_sub`](super::InstructionSink::array_atomic_rmw_sub) appends it.
    #[doc(alias = "array.atomic.rmw.sub")]
    ArrayAtomicRmwSub {
        /// The ordering of the access.
        ordering: Ordering,
        /// The index of the array type.
        array_type_index: u32,
    },
    /// `array.atomic.rmw.and` (opcode 0xFE 109), an instruction of the shared-everything threads proposal that sets an element of an array to its bitwise and with an operand, and returns the old value.
    /// [`InstructionSink::array_atomic_rmw_and`](super::InstructionSink::array_atomic_rmw_and) appends it.
    #[doc(alias = "array.atomic.rmw.and")]
    ArrayAtomicRmwAnd {
        /// The ordering of the access.
        ordering: Ordering,
        /// The index of the array type.
        array_type_index: u32,
    },
    /// `array.atomic.rmw.or` (opcode 0xFE 110), an instruction of the shared-everything threads proposal that sets an element of an array to its bitwise or with an operand, and returns the old value.
    /// [`InstructionSink::array_atomic_rmw_or`](super::InstructionSink::array_atomic_rmw_or) appends it.
    #[doc(alias = "array.atomic.rmw.or")]
    ArrayAtomicRmwOr {
        /// The ordering of the access.
        ordering: Ordering,
        /// The index of the array type.
        array_type_index: u32,
    },
    /// `array.atomic.rmw.xor` (opcode 0xFE 111), an instruction of the shared-everything threads proposal that sets an element of an array to its bitwise exclusive or with an operand, and returns the old value.
    /// [`InstructionSink::array_atomic_rmw_xor`](super::InstructionSink::array_atomic_rmw_xor) appends it.
    #[doc(alias = "array.atomic.rmw.xor")]
    ArrayAtomicRmwXor {
        /// The ordering of the access.
        ordering: Ordering,
        /// The index of the array type.
        array_type_index: u32,
    },
    /// `array.atomic.rmw.xchg` (opcode 0xFE 112), an instruction of the shared-everything threads proposal that replaces an element of an array, and returns the old value.
    /// [`InstructionSink::array_atomic_rmw_xchg`](super::InstructionSink::array_atomic_rmw_xchg) appends it.
    #[doc(alias = "array.atomic.rmw.xchg")]
    ArrayAtomicRmwXchg {
        /// The ordering of the access.
        ordering: Ordering,
        /// The index of the array type.
        array_type_index: u32,
    },
    /// `array.atomic.rmw.cmpxchg` (opcode 0xFE 113), an instruction of the shared-everything threads proposal that replaces an element of an array if it has the expected value, and returns the old value.
    /// [`InstructionSink::array_atomic_rmw_cmpxchg`](super::InstructionSink::array_atomic_rmw_cmpxchg) appends it.
    #[doc(alias = "array.atomic.rmw.cmpxchg")]
    ArrayAtomicRmwCmpxchg {
        /// The ordering of the access.
        ordering: Ordering,
        /// The index of the array type.
        array_type_index: u32,
    },
    /// `ref.i31_shared` (opcode 0xFE 114), an instruction of the shared-everything threads proposal that makes a reference of the lower 31 bits of an integer.
    /// [`InstructionSink::ref_i31_shared`](super::InstructionSink::ref_i31_shared) appends it.
    #[doc(alias = "ref.i31_shared")]
    RefI31Shared,
}

/// Converts an instruction to the one that the proved calls take. Its lists are borrowed.
impl<'a> From<&'a Instruction<'_>> for insn::Instruction<'a> {
    // Inline, so that it is compiled only where it is used.
    #[inline]
    fn from(instruction: &'a Instruction<'_>) -> Self {
        match instruction {
            Instruction::Unreachable => insn::Instruction::Unreachable,
            Instruction::Nop => insn::Instruction::Nop,
            Instruction::Block(a) => insn::Instruction::Block(*a),
            Instruction::Loop(a) => insn::Instruction::Loop(*a),
            Instruction::If(a) => insn::Instruction::If(*a),
            Instruction::Else => insn::Instruction::Else,
            Instruction::Try(a) => insn::Instruction::Try(*a),
            Instruction::Catch(a) => insn::Instruction::Catch(*a),
            Instruction::Throw(a) => insn::Instruction::Throw(*a),
            Instruction::Rethrow(a) => insn::Instruction::Rethrow(*a),
            Instruction::ThrowRef => insn::Instruction::ThrowRef,
            Instruction::End => insn::Instruction::End,
            Instruction::Br(a) => insn::Instruction::Br(*a),
            Instruction::BrIf(a) => insn::Instruction::BrIf(*a),
            Instruction::BrTable(a, b) => insn::Instruction::BrTable(CowSlice::Borrowed(a), *b),
            Instruction::Return => insn::Instruction::Return,
            Instruction::Call(a) => insn::Instruction::Call(*a),
            Instruction::CallIndirect { type_index: a, table_index: b } => insn::Instruction::CallIndirect { type_index: *a, table_index: *b },
            Instruction::ReturnCall(a) => insn::Instruction::ReturnCall(*a),
            Instruction::ReturnCallIndirect { type_index: a, table_index: b } => insn::Instruction::ReturnCallIndirect { type_index: *a, table_index: *b },
            Instruction::CallRef(a) => insn::Instruction::CallRef(*a),
            Instruction::ReturnCallRef(a) => insn::Instruction::ReturnCallRef(*a),
            Instruction::Delegate(a) => insn::Instruction::Delegate(*a),
            Instruction::CatchAll => insn::Instruction::CatchAll,
            Instruction::Drop => insn::Instruction::Drop,
            Instruction::Select => insn::Instruction::Select,
            Instruction::TypedSelect(a) => insn::Instruction::TypedSelect(*a),
            Instruction::TypedSelectMulti(a) => insn::Instruction::TypedSelectMulti(CowSlice::Borrowed(a)),
            Instruction::TryTable(a, b) => insn::Instruction::TryTable(*a, CowSlice::Borrowed(b)),
            Instruction::LocalGet(a) => insn::Instruction::LocalGet(*a),
            Instruction::LocalSet(a) => insn::Instruction::LocalSet(*a),
            Instruction::LocalTee(a) => insn::Instruction::LocalTee(*a),
            Instruction::GlobalGet(a) => insn::Instruction::GlobalGet(*a),
            Instruction::GlobalSet(a) => insn::Instruction::GlobalSet(*a),
            Instruction::TableGet(a) => insn::Instruction::TableGet(*a),
            Instruction::TableSet(a) => insn::Instruction::TableSet(*a),
            Instruction::I32Load(a) => insn::Instruction::I32Load(*a),
            Instruction::I64Load(a) => insn::Instruction::I64Load(*a),
            Instruction::F32Load(a) => insn::Instruction::F32Load(*a),
            Instruction::F64Load(a) => insn::Instruction::F64Load(*a),
            Instruction::I32Load8S(a) => insn::Instruction::I32Load8S(*a),
            Instruction::I32Load8U(a) => insn::Instruction::I32Load8U(*a),
            Instruction::I32Load16S(a) => insn::Instruction::I32Load16S(*a),
            Instruction::I32Load16U(a) => insn::Instruction::I32Load16U(*a),
            Instruction::I64Load8S(a) => insn::Instruction::I64Load8S(*a),
            Instruction::I64Load8U(a) => insn::Instruction::I64Load8U(*a),
            Instruction::I64Load16S(a) => insn::Instruction::I64Load16S(*a),
            Instruction::I64Load16U(a) => insn::Instruction::I64Load16U(*a),
            Instruction::I64Load32S(a) => insn::Instruction::I64Load32S(*a),
            Instruction::I64Load32U(a) => insn::Instruction::I64Load32U(*a),
            Instruction::I32Store(a) => insn::Instruction::I32Store(*a),
            Instruction::I64Store(a) => insn::Instruction::I64Store(*a),
            Instruction::F32Store(a) => insn::Instruction::F32Store(*a),
            Instruction::F64Store(a) => insn::Instruction::F64Store(*a),
            Instruction::I32Store8(a) => insn::Instruction::I32Store8(*a),
            Instruction::I32Store16(a) => insn::Instruction::I32Store16(*a),
            Instruction::I64Store8(a) => insn::Instruction::I64Store8(*a),
            Instruction::I64Store16(a) => insn::Instruction::I64Store16(*a),
            Instruction::I64Store32(a) => insn::Instruction::I64Store32(*a),
            Instruction::MemorySize(a) => insn::Instruction::MemorySize(*a),
            Instruction::MemoryGrow(a) => insn::Instruction::MemoryGrow(*a),
            Instruction::I32Const(a) => insn::Instruction::I32Const(*a),
            Instruction::I64Const(a) => insn::Instruction::I64Const(*a),
            Instruction::F32Const(a) => insn::Instruction::F32Const(*a),
            Instruction::F64Const(a) => insn::Instruction::F64Const(*a),
            Instruction::I32Eqz => insn::Instruction::Numeric(insn::Numeric::I32Eqz),
            Instruction::I32Eq => insn::Instruction::Numeric(insn::Numeric::I32Eq),
            Instruction::I32Ne => insn::Instruction::Numeric(insn::Numeric::I32Ne),
            Instruction::I32LtS => insn::Instruction::Numeric(insn::Numeric::I32LtS),
            Instruction::I32LtU => insn::Instruction::Numeric(insn::Numeric::I32LtU),
            Instruction::I32GtS => insn::Instruction::Numeric(insn::Numeric::I32GtS),
            Instruction::I32GtU => insn::Instruction::Numeric(insn::Numeric::I32GtU),
            Instruction::I32LeS => insn::Instruction::Numeric(insn::Numeric::I32LeS),
            Instruction::I32LeU => insn::Instruction::Numeric(insn::Numeric::I32LeU),
            Instruction::I32GeS => insn::Instruction::Numeric(insn::Numeric::I32GeS),
            Instruction::I32GeU => insn::Instruction::Numeric(insn::Numeric::I32GeU),
            Instruction::I64Eqz => insn::Instruction::Numeric(insn::Numeric::I64Eqz),
            Instruction::I64Eq => insn::Instruction::Numeric(insn::Numeric::I64Eq),
            Instruction::I64Ne => insn::Instruction::Numeric(insn::Numeric::I64Ne),
            Instruction::I64LtS => insn::Instruction::Numeric(insn::Numeric::I64LtS),
            Instruction::I64LtU => insn::Instruction::Numeric(insn::Numeric::I64LtU),
            Instruction::I64GtS => insn::Instruction::Numeric(insn::Numeric::I64GtS),
            Instruction::I64GtU => insn::Instruction::Numeric(insn::Numeric::I64GtU),
            Instruction::I64LeS => insn::Instruction::Numeric(insn::Numeric::I64LeS),
            Instruction::I64LeU => insn::Instruction::Numeric(insn::Numeric::I64LeU),
            Instruction::I64GeS => insn::Instruction::Numeric(insn::Numeric::I64GeS),
            Instruction::I64GeU => insn::Instruction::Numeric(insn::Numeric::I64GeU),
            Instruction::F32Eq => insn::Instruction::Numeric(insn::Numeric::F32Eq),
            Instruction::F32Ne => insn::Instruction::Numeric(insn::Numeric::F32Ne),
            Instruction::F32Lt => insn::Instruction::Numeric(insn::Numeric::F32Lt),
            Instruction::F32Gt => insn::Instruction::Numeric(insn::Numeric::F32Gt),
            Instruction::F32Le => insn::Instruction::Numeric(insn::Numeric::F32Le),
            Instruction::F32Ge => insn::Instruction::Numeric(insn::Numeric::F32Ge),
            Instruction::F64Eq => insn::Instruction::Numeric(insn::Numeric::F64Eq),
            Instruction::F64Ne => insn::Instruction::Numeric(insn::Numeric::F64Ne),
            Instruction::F64Lt => insn::Instruction::Numeric(insn::Numeric::F64Lt),
            Instruction::F64Gt => insn::Instruction::Numeric(insn::Numeric::F64Gt),
            Instruction::F64Le => insn::Instruction::Numeric(insn::Numeric::F64Le),
            Instruction::F64Ge => insn::Instruction::Numeric(insn::Numeric::F64Ge),
            Instruction::I32Clz => insn::Instruction::Numeric(insn::Numeric::I32Clz),
            Instruction::I32Ctz => insn::Instruction::Numeric(insn::Numeric::I32Ctz),
            Instruction::I32Popcnt => insn::Instruction::Numeric(insn::Numeric::I32Popcnt),
            Instruction::I32Add => insn::Instruction::Numeric(insn::Numeric::I32Add),
            Instruction::I32Sub => insn::Instruction::Numeric(insn::Numeric::I32Sub),
            Instruction::I32Mul => insn::Instruction::Numeric(insn::Numeric::I32Mul),
            Instruction::I32DivS => insn::Instruction::Numeric(insn::Numeric::I32DivS),
            Instruction::I32DivU => insn::Instruction::Numeric(insn::Numeric::I32DivU),
            Instruction::I32RemS => insn::Instruction::Numeric(insn::Numeric::I32RemS),
            Instruction::I32RemU => insn::Instruction::Numeric(insn::Numeric::I32RemU),
            Instruction::I32And => insn::Instruction::Numeric(insn::Numeric::I32And),
            Instruction::I32Or => insn::Instruction::Numeric(insn::Numeric::I32Or),
            Instruction::I32Xor => insn::Instruction::Numeric(insn::Numeric::I32Xor),
            Instruction::I32Shl => insn::Instruction::Numeric(insn::Numeric::I32Shl),
            Instruction::I32ShrS => insn::Instruction::Numeric(insn::Numeric::I32ShrS),
            Instruction::I32ShrU => insn::Instruction::Numeric(insn::Numeric::I32ShrU),
            Instruction::I32Rotl => insn::Instruction::Numeric(insn::Numeric::I32Rotl),
            Instruction::I32Rotr => insn::Instruction::Numeric(insn::Numeric::I32Rotr),
            Instruction::I64Clz => insn::Instruction::Numeric(insn::Numeric::I64Clz),
            Instruction::I64Ctz => insn::Instruction::Numeric(insn::Numeric::I64Ctz),
            Instruction::I64Popcnt => insn::Instruction::Numeric(insn::Numeric::I64Popcnt),
            Instruction::I64Add => insn::Instruction::Numeric(insn::Numeric::I64Add),
            Instruction::I64Sub => insn::Instruction::Numeric(insn::Numeric::I64Sub),
            Instruction::I64Mul => insn::Instruction::Numeric(insn::Numeric::I64Mul),
            Instruction::I64DivS => insn::Instruction::Numeric(insn::Numeric::I64DivS),
            Instruction::I64DivU => insn::Instruction::Numeric(insn::Numeric::I64DivU),
            Instruction::I64RemS => insn::Instruction::Numeric(insn::Numeric::I64RemS),
            Instruction::I64RemU => insn::Instruction::Numeric(insn::Numeric::I64RemU),
            Instruction::I64And => insn::Instruction::Numeric(insn::Numeric::I64And),
            Instruction::I64Or => insn::Instruction::Numeric(insn::Numeric::I64Or),
            Instruction::I64Xor => insn::Instruction::Numeric(insn::Numeric::I64Xor),
            Instruction::I64Shl => insn::Instruction::Numeric(insn::Numeric::I64Shl),
            Instruction::I64ShrS => insn::Instruction::Numeric(insn::Numeric::I64ShrS),
            Instruction::I64ShrU => insn::Instruction::Numeric(insn::Numeric::I64ShrU),
            Instruction::I64Rotl => insn::Instruction::Numeric(insn::Numeric::I64Rotl),
            Instruction::I64Rotr => insn::Instruction::Numeric(insn::Numeric::I64Rotr),
            Instruction::F32Abs => insn::Instruction::Numeric(insn::Numeric::F32Abs),
            Instruction::F32Neg => insn::Instruction::Numeric(insn::Numeric::F32Neg),
            Instruction::F32Ceil => insn::Instruction::Numeric(insn::Numeric::F32Ceil),
            Instruction::F32Floor => insn::Instruction::Numeric(insn::Numeric::F32Floor),
            Instruction::F32Trunc => insn::Instruction::Numeric(insn::Numeric::F32Trunc),
            Instruction::F32Nearest => insn::Instruction::Numeric(insn::Numeric::F32Nearest),
            Instruction::F32Sqrt => insn::Instruction::Numeric(insn::Numeric::F32Sqrt),
            Instruction::F32Add => insn::Instruction::Numeric(insn::Numeric::F32Add),
            Instruction::F32Sub => insn::Instruction::Numeric(insn::Numeric::F32Sub),
            Instruction::F32Mul => insn::Instruction::Numeric(insn::Numeric::F32Mul),
            Instruction::F32Div => insn::Instruction::Numeric(insn::Numeric::F32Div),
            Instruction::F32Min => insn::Instruction::Numeric(insn::Numeric::F32Min),
            Instruction::F32Max => insn::Instruction::Numeric(insn::Numeric::F32Max),
            Instruction::F32Copysign => insn::Instruction::Numeric(insn::Numeric::F32Copysign),
            Instruction::F64Abs => insn::Instruction::Numeric(insn::Numeric::F64Abs),
            Instruction::F64Neg => insn::Instruction::Numeric(insn::Numeric::F64Neg),
            Instruction::F64Ceil => insn::Instruction::Numeric(insn::Numeric::F64Ceil),
            Instruction::F64Floor => insn::Instruction::Numeric(insn::Numeric::F64Floor),
            Instruction::F64Trunc => insn::Instruction::Numeric(insn::Numeric::F64Trunc),
            Instruction::F64Nearest => insn::Instruction::Numeric(insn::Numeric::F64Nearest),
            Instruction::F64Sqrt => insn::Instruction::Numeric(insn::Numeric::F64Sqrt),
            Instruction::F64Add => insn::Instruction::Numeric(insn::Numeric::F64Add),
            Instruction::F64Sub => insn::Instruction::Numeric(insn::Numeric::F64Sub),
            Instruction::F64Mul => insn::Instruction::Numeric(insn::Numeric::F64Mul),
            Instruction::F64Div => insn::Instruction::Numeric(insn::Numeric::F64Div),
            Instruction::F64Min => insn::Instruction::Numeric(insn::Numeric::F64Min),
            Instruction::F64Max => insn::Instruction::Numeric(insn::Numeric::F64Max),
            Instruction::F64Copysign => insn::Instruction::Numeric(insn::Numeric::F64Copysign),
            Instruction::I32WrapI64 => insn::Instruction::Numeric(insn::Numeric::I32WrapI64),
            Instruction::I32TruncF32S => insn::Instruction::Numeric(insn::Numeric::I32TruncF32S),
            Instruction::I32TruncF32U => insn::Instruction::Numeric(insn::Numeric::I32TruncF32U),
            Instruction::I32TruncF64S => insn::Instruction::Numeric(insn::Numeric::I32TruncF64S),
            Instruction::I32TruncF64U => insn::Instruction::Numeric(insn::Numeric::I32TruncF64U),
            Instruction::I64ExtendI32S => insn::Instruction::Numeric(insn::Numeric::I64ExtendI32S),
            Instruction::I64ExtendI32U => insn::Instruction::Numeric(insn::Numeric::I64ExtendI32U),
            Instruction::I64TruncF32S => insn::Instruction::Numeric(insn::Numeric::I64TruncF32S),
            Instruction::I64TruncF32U => insn::Instruction::Numeric(insn::Numeric::I64TruncF32U),
            Instruction::I64TruncF64S => insn::Instruction::Numeric(insn::Numeric::I64TruncF64S),
            Instruction::I64TruncF64U => insn::Instruction::Numeric(insn::Numeric::I64TruncF64U),
            Instruction::F32ConvertI32S => insn::Instruction::Numeric(insn::Numeric::F32ConvertI32S),
            Instruction::F32ConvertI32U => insn::Instruction::Numeric(insn::Numeric::F32ConvertI32U),
            Instruction::F32ConvertI64S => insn::Instruction::Numeric(insn::Numeric::F32ConvertI64S),
            Instruction::F32ConvertI64U => insn::Instruction::Numeric(insn::Numeric::F32ConvertI64U),
            Instruction::F32DemoteF64 => insn::Instruction::Numeric(insn::Numeric::F32DemoteF64),
            Instruction::F64ConvertI32S => insn::Instruction::Numeric(insn::Numeric::F64ConvertI32S),
            Instruction::F64ConvertI32U => insn::Instruction::Numeric(insn::Numeric::F64ConvertI32U),
            Instruction::F64ConvertI64S => insn::Instruction::Numeric(insn::Numeric::F64ConvertI64S),
            Instruction::F64ConvertI64U => insn::Instruction::Numeric(insn::Numeric::F64ConvertI64U),
            Instruction::F64PromoteF32 => insn::Instruction::Numeric(insn::Numeric::F64PromoteF32),
            Instruction::I32ReinterpretF32 => insn::Instruction::Numeric(insn::Numeric::I32ReinterpretF32),
            Instruction::I64ReinterpretF64 => insn::Instruction::Numeric(insn::Numeric::I64ReinterpretF64),
            Instruction::F32ReinterpretI32 => insn::Instruction::Numeric(insn::Numeric::F32ReinterpretI32),
            Instruction::F64ReinterpretI64 => insn::Instruction::Numeric(insn::Numeric::F64ReinterpretI64),
            Instruction::I32Extend8S => insn::Instruction::Numeric(insn::Numeric::I32Extend8S),
            Instruction::I32Extend16S => insn::Instruction::Numeric(insn::Numeric::I32Extend16S),
            Instruction::I64Extend8S => insn::Instruction::Numeric(insn::Numeric::I64Extend8S),
            Instruction::I64Extend16S => insn::Instruction::Numeric(insn::Numeric::I64Extend16S),
            Instruction::I64Extend32S => insn::Instruction::Numeric(insn::Numeric::I64Extend32S),
            Instruction::RefNull(a) => insn::Instruction::RefNull(*a),
            Instruction::RefIsNull => insn::Instruction::RefIsNull,
            Instruction::RefFunc(a) => insn::Instruction::RefFunc(*a),
            Instruction::RefEq => insn::Instruction::RefEq,
            Instruction::RefAsNonNull => insn::Instruction::RefAsNonNull,
            Instruction::BrOnNull(a) => insn::Instruction::BrOnNull(*a),
            Instruction::BrOnNonNull(a) => insn::Instruction::BrOnNonNull(*a),
            Instruction::ContNew(a) => insn::Instruction::ContNew(*a),
            Instruction::ContBind { argument_index: a, result_index: b } => insn::Instruction::ContBind { argument_index: *a, result_index: *b },
            Instruction::Suspend(a) => insn::Instruction::Suspend(*a),
            Instruction::Resume { cont_type_index: a, resume_table: b } => insn::Instruction::Resume { cont_type_index: *a, resume_table: CowSlice::Borrowed(b) },
            Instruction::ResumeThrow { cont_type_index: a, tag_index: b, resume_table: c } => insn::Instruction::ResumeThrow { cont_type_index: *a, tag_index: *b, resume_table: CowSlice::Borrowed(c) },
            Instruction::ResumeThrowRef { cont_type_index: a, resume_table: b } => insn::Instruction::ResumeThrowRef { cont_type_index: *a, resume_table: CowSlice::Borrowed(b) },
            Instruction::Switch { cont_type_index: a, tag_index: b } => insn::Instruction::Switch { cont_type_index: *a, tag_index: *b },
            Instruction::StructNew(a) => insn::Instruction::StructNew(*a),
            Instruction::StructNewDefault(a) => insn::Instruction::StructNewDefault(*a),
            Instruction::StructGet { struct_type_index: a, field_index: b } => insn::Instruction::StructGet { struct_type_index: *a, field_index: *b },
            Instruction::StructGetS { struct_type_index: a, field_index: b } => insn::Instruction::StructGetS { struct_type_index: *a, field_index: *b },
            Instruction::StructGetU { struct_type_index: a, field_index: b } => insn::Instruction::StructGetU { struct_type_index: *a, field_index: *b },
            Instruction::StructSet { struct_type_index: a, field_index: b } => insn::Instruction::StructSet { struct_type_index: *a, field_index: *b },
            Instruction::ArrayNew(a) => insn::Instruction::ArrayNew(*a),
            Instruction::ArrayNewDefault(a) => insn::Instruction::ArrayNewDefault(*a),
            Instruction::ArrayNewFixed { array_type_index: a, array_size: b } => insn::Instruction::ArrayNewFixed { array_type_index: *a, array_size: *b },
            Instruction::ArrayNewData { array_type_index: a, array_data_index: b } => insn::Instruction::ArrayNewData { array_type_index: *a, array_data_index: *b },
            Instruction::ArrayNewElem { array_type_index: a, array_elem_index: b } => insn::Instruction::ArrayNewElem { array_type_index: *a, array_elem_index: *b },
            Instruction::ArrayGet(a) => insn::Instruction::ArrayGet(*a),
            Instruction::ArrayGetS(a) => insn::Instruction::ArrayGetS(*a),
            Instruction::ArrayGetU(a) => insn::Instruction::ArrayGetU(*a),
            Instruction::ArraySet(a) => insn::Instruction::ArraySet(*a),
            Instruction::ArrayLen => insn::Instruction::Aggregate(insn::Aggregate::ArrayLen),
            Instruction::ArrayFill(a) => insn::Instruction::ArrayFill(*a),
            Instruction::ArrayCopy { array_type_index_dst: a, array_type_index_src: b } => insn::Instruction::ArrayCopy { array_type_index_dst: *a, array_type_index_src: *b },
            Instruction::ArrayInitData { array_type_index: a, array_data_index: b } => insn::Instruction::ArrayInitData { array_type_index: *a, array_data_index: *b },
            Instruction::ArrayInitElem { array_type_index: a, array_elem_index: b } => insn::Instruction::ArrayInitElem { array_type_index: *a, array_elem_index: *b },
            Instruction::RefTestNonNull(a) => insn::Instruction::RefTestNonNull(*a),
            Instruction::RefTestNullable(a) => insn::Instruction::RefTestNullable(*a),
            Instruction::RefCastNonNull(a) => insn::Instruction::RefCastNonNull(*a),
            Instruction::RefCastNullable(a) => insn::Instruction::RefCastNullable(*a),
            Instruction::BrOnCast { relative_depth: a, from_ref_type: b, to_ref_type: c } => insn::Instruction::BrOnCast { relative_depth: *a, from_ref_type: *b, to_ref_type: *c },
            Instruction::BrOnCastFail { relative_depth: a, from_ref_type: b, to_ref_type: c } => insn::Instruction::BrOnCastFail { relative_depth: *a, from_ref_type: *b, to_ref_type: *c },
            Instruction::AnyConvertExtern => insn::Instruction::Aggregate(insn::Aggregate::AnyConvertExtern),
            Instruction::ExternConvertAny => insn::Instruction::Aggregate(insn::Aggregate::ExternConvertAny),
            Instruction::RefI31 => insn::Instruction::Aggregate(insn::Aggregate::RefI31),
            Instruction::I31GetS => insn::Instruction::Aggregate(insn::Aggregate::I31GetS),
            Instruction::I31GetU => insn::Instruction::Aggregate(insn::Aggregate::I31GetU),
            Instruction::StructNewDesc(a) => insn::Instruction::StructNewDesc(*a),
            Instruction::StructNewDefaultDesc(a) => insn::Instruction::StructNewDefaultDesc(*a),
            Instruction::RefGetDesc(a) => insn::Instruction::RefGetDesc(*a),
            Instruction::RefCastDescEqNonNull(a) => insn::Instruction::RefCastDescEqNonNull(*a),
            Instruction::RefCastDescEqNullable(a) => insn::Instruction::RefCastDescEqNullable(*a),
            Instruction::BrOnCastDescEq { relative_depth: a, from_ref_type: b, to_ref_type: c } => insn::Instruction::BrOnCastDescEq { relative_depth: *a, from_ref_type: *b, to_ref_type: *c },
            Instruction::BrOnCastDescEqFail { relative_depth: a, from_ref_type: b, to_ref_type: c } => insn::Instruction::BrOnCastDescEqFail { relative_depth: *a, from_ref_type: *b, to_ref_type: *c },
            Instruction::I32TruncSatF32S => insn::Instruction::PrefixedNumeric(insn::PrefixedNumeric::I32TruncSatF32S),
            Instruction::I32TruncSatF32U => insn::Instruction::PrefixedNumeric(insn::PrefixedNumeric::I32TruncSatF32U),
            Instruction::I32TruncSatF64S => insn::Instruction::PrefixedNumeric(insn::PrefixedNumeric::I32TruncSatF64S),
            Instruction::I32TruncSatF64U => insn::Instruction::PrefixedNumeric(insn::PrefixedNumeric::I32TruncSatF64U),
            Instruction::I64TruncSatF32S => insn::Instruction::PrefixedNumeric(insn::PrefixedNumeric::I64TruncSatF32S),
            Instruction::I64TruncSatF32U => insn::Instruction::PrefixedNumeric(insn::PrefixedNumeric::I64TruncSatF32U),
            Instruction::I64TruncSatF64S => insn::Instruction::PrefixedNumeric(insn::PrefixedNumeric::I64TruncSatF64S),
            Instruction::I64TruncSatF64U => insn::Instruction::PrefixedNumeric(insn::PrefixedNumeric::I64TruncSatF64U),
            Instruction::MemoryInit { data_index: a, mem: b } => insn::Instruction::MemoryInit { data_index: *a, mem: *b },
            Instruction::DataDrop(a) => insn::Instruction::DataDrop(*a),
            Instruction::MemoryCopy { dst_mem: a, src_mem: b } => insn::Instruction::MemoryCopy { dst_mem: *a, src_mem: *b },
            Instruction::MemoryFill(a) => insn::Instruction::MemoryFill(*a),
            Instruction::TableInit { elem_index: a, table: b } => insn::Instruction::TableInit { elem_index: *a, table: *b },
            Instruction::ElemDrop(a) => insn::Instruction::ElemDrop(*a),
            Instruction::TableCopy { dst_table: a, src_table: b } => insn::Instruction::TableCopy { dst_table: *a, src_table: *b },
            Instruction::TableGrow(a) => insn::Instruction::TableGrow(*a),
            Instruction::TableSize(a) => insn::Instruction::TableSize(*a),
            Instruction::TableFill(a) => insn::Instruction::TableFill(*a),
            Instruction::MemoryDiscard(a) => insn::Instruction::MemoryDiscard(*a),
            Instruction::I64Add128 => insn::Instruction::PrefixedNumeric(insn::PrefixedNumeric::I64Add128),
            Instruction::I64Sub128 => insn::Instruction::PrefixedNumeric(insn::PrefixedNumeric::I64Sub128),
            Instruction::I64MulWideS => insn::Instruction::PrefixedNumeric(insn::PrefixedNumeric::I64MulWideS),
            Instruction::I64MulWideU => insn::Instruction::PrefixedNumeric(insn::PrefixedNumeric::I64MulWideU),
            Instruction::V128Load(a) => insn::Instruction::VectorImmediate(insn::VectorImmediate::V128Load(*a)),
            Instruction::V128Load8x8S(a) => insn::Instruction::VectorImmediate(insn::VectorImmediate::V128Load8x8S(*a)),
            Instruction::V128Load8x8U(a) => insn::Instruction::VectorImmediate(insn::VectorImmediate::V128Load8x8U(*a)),
            Instruction::V128Load16x4S(a) => insn::Instruction::VectorImmediate(insn::VectorImmediate::V128Load16x4S(*a)),
            Instruction::V128Load16x4U(a) => insn::Instruction::VectorImmediate(insn::VectorImmediate::V128Load16x4U(*a)),
            Instruction::V128Load32x2S(a) => insn::Instruction::VectorImmediate(insn::VectorImmediate::V128Load32x2S(*a)),
            Instruction::V128Load32x2U(a) => insn::Instruction::VectorImmediate(insn::VectorImmediate::V128Load32x2U(*a)),
            Instruction::V128Load8Splat(a) => insn::Instruction::VectorImmediate(insn::VectorImmediate::V128Load8Splat(*a)),
            Instruction::V128Load16Splat(a) => insn::Instruction::VectorImmediate(insn::VectorImmediate::V128Load16Splat(*a)),
            Instruction::V128Load32Splat(a) => insn::Instruction::VectorImmediate(insn::VectorImmediate::V128Load32Splat(*a)),
            Instruction::V128Load64Splat(a) => insn::Instruction::VectorImmediate(insn::VectorImmediate::V128Load64Splat(*a)),
            Instruction::V128Store(a) => insn::Instruction::VectorImmediate(insn::VectorImmediate::V128Store(*a)),
            Instruction::V128Const(a) => insn::Instruction::VectorImmediate(insn::VectorImmediate::V128Const(*a)),
            Instruction::I8x16Shuffle(a) => insn::Instruction::VectorImmediate(insn::VectorImmediate::I8x16Shuffle(*a)),
            Instruction::I8x16Swizzle => insn::Instruction::Vector(insn::Vector::I8x16Swizzle),
            Instruction::I8x16Splat => insn::Instruction::Vector(insn::Vector::I8x16Splat),
            Instruction::I16x8Splat => insn::Instruction::Vector(insn::Vector::I16x8Splat),
            Instruction::I32x4Splat => insn::Instruction::Vector(insn::Vector::I32x4Splat),
            Instruction::I64x2Splat => insn::Instruction::Vector(insn::Vector::I64x2Splat),
            Instruction::F32x4Splat => insn::Instruction::Vector(insn::Vector::F32x4Splat),
            Instruction::F64x2Splat => insn::Instruction::Vector(insn::Vector::F64x2Splat),
            Instruction::I8x16ExtractLaneS(a) => insn::Instruction::VectorImmediate(insn::VectorImmediate::I8x16ExtractLaneS(*a)),
            Instruction::I8x16ExtractLaneU(a) => insn::Instruction::VectorImmediate(insn::VectorImmediate::I8x16ExtractLaneU(*a)),
            Instruction::I8x16ReplaceLane(a) => insn::Instruction::VectorImmediate(insn::VectorImmediate::I8x16ReplaceLane(*a)),
            Instruction::I16x8ExtractLaneS(a) => insn::Instruction::VectorImmediate(insn::VectorImmediate::I16x8ExtractLaneS(*a)),
            Instruction::I16x8ExtractLaneU(a) => insn::Instruction::VectorImmediate(insn::VectorImmediate::I16x8ExtractLaneU(*a)),
            Instruction::I16x8ReplaceLane(a) => insn::Instruction::VectorImmediate(insn::VectorImmediate::I16x8ReplaceLane(*a)),
            Instruction::I32x4ExtractLane(a) => insn::Instruction::VectorImmediate(insn::VectorImmediate::I32x4ExtractLane(*a)),
            Instruction::I32x4ReplaceLane(a) => insn::Instruction::VectorImmediate(insn::VectorImmediate::I32x4ReplaceLane(*a)),
            Instruction::I64x2ExtractLane(a) => insn::Instruction::VectorImmediate(insn::VectorImmediate::I64x2ExtractLane(*a)),
            Instruction::I64x2ReplaceLane(a) => insn::Instruction::VectorImmediate(insn::VectorImmediate::I64x2ReplaceLane(*a)),
            Instruction::F32x4ExtractLane(a) => insn::Instruction::VectorImmediate(insn::VectorImmediate::F32x4ExtractLane(*a)),
            Instruction::F32x4ReplaceLane(a) => insn::Instruction::VectorImmediate(insn::VectorImmediate::F32x4ReplaceLane(*a)),
            Instruction::F64x2ExtractLane(a) => insn::Instruction::VectorImmediate(insn::VectorImmediate::F64x2ExtractLane(*a)),
            Instruction::F64x2ReplaceLane(a) => insn::Instruction::VectorImmediate(insn::VectorImmediate::F64x2ReplaceLane(*a)),
            Instruction::I8x16Eq => insn::Instruction::Vector(insn::Vector::I8x16Eq),
            Instruction::I8x16Ne => insn::Instruction::Vector(insn::Vector::I8x16Ne),
            Instruction::I8x16LtS => insn::Instruction::Vector(insn::Vector::I8x16LtS),
            Instruction::I8x16LtU => insn::Instruction::Vector(insn::Vector::I8x16LtU),
            Instruction::I8x16GtS => insn::Instruction::Vector(insn::Vector::I8x16GtS),
            Instruction::I8x16GtU => insn::Instruction::Vector(insn::Vector::I8x16GtU),
            Instruction::I8x16LeS => insn::Instruction::Vector(insn::Vector::I8x16LeS),
            Instruction::I8x16LeU => insn::Instruction::Vector(insn::Vector::I8x16LeU),
            Instruction::I8x16GeS => insn::Instruction::Vector(insn::Vector::I8x16GeS),
            Instruction::I8x16GeU => insn::Instruction::Vector(insn::Vector::I8x16GeU),
            Instruction::I16x8Eq => insn::Instruction::Vector(insn::Vector::I16x8Eq),
            Instruction::I16x8Ne => insn::Instruction::Vector(insn::Vector::I16x8Ne),
            Instruction::I16x8LtS => insn::Instruction::Vector(insn::Vector::I16x8LtS),
            Instruction::I16x8LtU => insn::Instruction::Vector(insn::Vector::I16x8LtU),
            Instruction::I16x8GtS => insn::Instruction::Vector(insn::Vector::I16x8GtS),
            Instruction::I16x8GtU => insn::Instruction::Vector(insn::Vector::I16x8GtU),
            Instruction::I16x8LeS => insn::Instruction::Vector(insn::Vector::I16x8LeS),
            Instruction::I16x8LeU => insn::Instruction::Vector(insn::Vector::I16x8LeU),
            Instruction::I16x8GeS => insn::Instruction::Vector(insn::Vector::I16x8GeS),
            Instruction::I16x8GeU => insn::Instruction::Vector(insn::Vector::I16x8GeU),
            Instruction::I32x4Eq => insn::Instruction::Vector(insn::Vector::I32x4Eq),
            Instruction::I32x4Ne => insn::Instruction::Vector(insn::Vector::I32x4Ne),
            Instruction::I32x4LtS => insn::Instruction::Vector(insn::Vector::I32x4LtS),
            Instruction::I32x4LtU => insn::Instruction::Vector(insn::Vector::I32x4LtU),
            Instruction::I32x4GtS => insn::Instruction::Vector(insn::Vector::I32x4GtS),
            Instruction::I32x4GtU => insn::Instruction::Vector(insn::Vector::I32x4GtU),
            Instruction::I32x4LeS => insn::Instruction::Vector(insn::Vector::I32x4LeS),
            Instruction::I32x4LeU => insn::Instruction::Vector(insn::Vector::I32x4LeU),
            Instruction::I32x4GeS => insn::Instruction::Vector(insn::Vector::I32x4GeS),
            Instruction::I32x4GeU => insn::Instruction::Vector(insn::Vector::I32x4GeU),
            Instruction::F32x4Eq => insn::Instruction::Vector(insn::Vector::F32x4Eq),
            Instruction::F32x4Ne => insn::Instruction::Vector(insn::Vector::F32x4Ne),
            Instruction::F32x4Lt => insn::Instruction::Vector(insn::Vector::F32x4Lt),
            Instruction::F32x4Gt => insn::Instruction::Vector(insn::Vector::F32x4Gt),
            Instruction::F32x4Le => insn::Instruction::Vector(insn::Vector::F32x4Le),
            Instruction::F32x4Ge => insn::Instruction::Vector(insn::Vector::F32x4Ge),
            Instruction::F64x2Eq => insn::Instruction::Vector(insn::Vector::F64x2Eq),
            Instruction::F64x2Ne => insn::Instruction::Vector(insn::Vector::F64x2Ne),
            Instruction::F64x2Lt => insn::Instruction::Vector(insn::Vector::F64x2Lt),
            Instruction::F64x2Gt => insn::Instruction::Vector(insn::Vector::F64x2Gt),
            Instruction::F64x2Le => insn::Instruction::Vector(insn::Vector::F64x2Le),
            Instruction::F64x2Ge => insn::Instruction::Vector(insn::Vector::F64x2Ge),
            Instruction::V128Not => insn::Instruction::Vector(insn::Vector::V128Not),
            Instruction::V128And => insn::Instruction::Vector(insn::Vector::V128And),
            Instruction::V128AndNot => insn::Instruction::Vector(insn::Vector::V128AndNot),
            Instruction::V128Or => insn::Instruction::Vector(insn::Vector::V128Or),
            Instruction::V128Xor => insn::Instruction::Vector(insn::Vector::V128Xor),
            Instruction::V128Bitselect => insn::Instruction::Vector(insn::Vector::V128Bitselect),
            Instruction::V128AnyTrue => insn::Instruction::Vector(insn::Vector::V128AnyTrue),
            Instruction::V128Load8Lane { memarg: a, lane: b } => insn::Instruction::VectorImmediate(insn::VectorImmediate::V128Load8Lane { memarg: *a, lane: *b }),
            Instruction::V128Load16Lane { memarg: a, lane: b } => insn::Instruction::VectorImmediate(insn::VectorImmediate::V128Load16Lane { memarg: *a, lane: *b }),
            Instruction::V128Load32Lane { memarg: a, lane: b } => insn::Instruction::VectorImmediate(insn::VectorImmediate::V128Load32Lane { memarg: *a, lane: *b }),
            Instruction::V128Load64Lane { memarg: a, lane: b } => insn::Instruction::VectorImmediate(insn::VectorImmediate::V128Load64Lane { memarg: *a, lane: *b }),
            Instruction::V128Store8Lane { memarg: a, lane: b } => insn::Instruction::VectorImmediate(insn::VectorImmediate::V128Store8Lane { memarg: *a, lane: *b }),
            Instruction::V128Store16Lane { memarg: a, lane: b } => insn::Instruction::VectorImmediate(insn::VectorImmediate::V128Store16Lane { memarg: *a, lane: *b }),
            Instruction::V128Store32Lane { memarg: a, lane: b } => insn::Instruction::VectorImmediate(insn::VectorImmediate::V128Store32Lane { memarg: *a, lane: *b }),
            Instruction::V128Store64Lane { memarg: a, lane: b } => insn::Instruction::VectorImmediate(insn::VectorImmediate::V128Store64Lane { memarg: *a, lane: *b }),
            Instruction::V128Load32Zero(a) => insn::Instruction::VectorImmediate(insn::VectorImmediate::V128Load32Zero(*a)),
            Instruction::V128Load64Zero(a) => insn::Instruction::VectorImmediate(insn::VectorImmediate::V128Load64Zero(*a)),
            Instruction::F32x4DemoteF64x2Zero => insn::Instruction::Vector(insn::Vector::F32x4DemoteF64x2Zero),
            Instruction::F64x2PromoteLowF32x4 => insn::Instruction::Vector(insn::Vector::F64x2PromoteLowF32x4),
            Instruction::I8x16Abs => insn::Instruction::Vector(insn::Vector::I8x16Abs),
            Instruction::I8x16Neg => insn::Instruction::Vector(insn::Vector::I8x16Neg),
            Instruction::I8x16Popcnt => insn::Instruction::Vector(insn::Vector::I8x16Popcnt),
            Instruction::I8x16AllTrue => insn::Instruction::Vector(insn::Vector::I8x16AllTrue),
            Instruction::I8x16Bitmask => insn::Instruction::Vector(insn::Vector::I8x16Bitmask),
            Instruction::I8x16NarrowI16x8S => insn::Instruction::Vector(insn::Vector::I8x16NarrowI16x8S),
            Instruction::I8x16NarrowI16x8U => insn::Instruction::Vector(insn::Vector::I8x16NarrowI16x8U),
            Instruction::F32x4Ceil => insn::Instruction::Vector(insn::Vector::F32x4Ceil),
            Instruction::F32x4Floor => insn::Instruction::Vector(insn::Vector::F32x4Floor),
            Instruction::F32x4Trunc => insn::Instruction::Vector(insn::Vector::F32x4Trunc),
            Instruction::F32x4Nearest => insn::Instruction::Vector(insn::Vector::F32x4Nearest),
            Instruction::I8x16Shl => insn::Instruction::Vector(insn::Vector::I8x16Shl),
            Instruction::I8x16ShrS => insn::Instruction::Vector(insn::Vector::I8x16ShrS),
            Instruction::I8x16ShrU => insn::Instruction::Vector(insn::Vector::I8x16ShrU),
            Instruction::I8x16Add => insn::Instruction::Vector(insn::Vector::I8x16Add),
            Instruction::I8x16AddSatS => insn::Instruction::Vector(insn::Vector::I8x16AddSatS),
            Instruction::I8x16AddSatU => insn::Instruction::Vector(insn::Vector::I8x16AddSatU),
            Instruction::I8x16Sub => insn::Instruction::Vector(insn::Vector::I8x16Sub),
            Instruction::I8x16SubSatS => insn::Instruction::Vector(insn::Vector::I8x16SubSatS),
            Instruction::I8x16SubSatU => insn::Instruction::Vector(insn::Vector::I8x16SubSatU),
            Instruction::F64x2Ceil => insn::Instruction::Vector(insn::Vector::F64x2Ceil),
            Instruction::F64x2Floor => insn::Instruction::Vector(insn::Vector::F64x2Floor),
            Instruction::I8x16MinS => insn::Instruction::Vector(insn::Vector::I8x16MinS),
            Instruction::I8x16MinU => insn::Instruction::Vector(insn::Vector::I8x16MinU),
            Instruction::I8x16MaxS => insn::Instruction::Vector(insn::Vector::I8x16MaxS),
            Instruction::I8x16MaxU => insn::Instruction::Vector(insn::Vector::I8x16MaxU),
            Instruction::F64x2Trunc => insn::Instruction::Vector(insn::Vector::F64x2Trunc),
            Instruction::I8x16AvgrU => insn::Instruction::Vector(insn::Vector::I8x16AvgrU),
            Instruction::I16x8ExtAddPairwiseI8x16S => insn::Instruction::Vector(insn::Vector::I16x8ExtAddPairwiseI8x16S),
            Instruction::I16x8ExtAddPairwiseI8x16U => insn::Instruction::Vector(insn::Vector::I16x8ExtAddPairwiseI8x16U),
            Instruction::I32x4ExtAddPairwiseI16x8S => insn::Instruction::Vector(insn::Vector::I32x4ExtAddPairwiseI16x8S),
            Instruction::I32x4ExtAddPairwiseI16x8U => insn::Instruction::Vector(insn::Vector::I32x4ExtAddPairwiseI16x8U),
            Instruction::I16x8Abs => insn::Instruction::Vector(insn::Vector::I16x8Abs),
            Instruction::I16x8Neg => insn::Instruction::Vector(insn::Vector::I16x8Neg),
            Instruction::I16x8Q15MulrSatS => insn::Instruction::Vector(insn::Vector::I16x8Q15MulrSatS),
            Instruction::I16x8AllTrue => insn::Instruction::Vector(insn::Vector::I16x8AllTrue),
            Instruction::I16x8Bitmask => insn::Instruction::Vector(insn::Vector::I16x8Bitmask),
            Instruction::I16x8NarrowI32x4S => insn::Instruction::Vector(insn::Vector::I16x8NarrowI32x4S),
            Instruction::I16x8NarrowI32x4U => insn::Instruction::Vector(insn::Vector::I16x8NarrowI32x4U),
            Instruction::I16x8ExtendLowI8x16S => insn::Instruction::Vector(insn::Vector::I16x8ExtendLowI8x16S),
            Instruction::I16x8ExtendHighI8x16S => insn::Instruction::Vector(insn::Vector::I16x8ExtendHighI8x16S),
            Instruction::I16x8ExtendLowI8x16U => insn::Instruction::Vector(insn::Vector::I16x8ExtendLowI8x16U),
            Instruction::I16x8ExtendHighI8x16U => insn::Instruction::Vector(insn::Vector::I16x8ExtendHighI8x16U),
            Instruction::I16x8Shl => insn::Instruction::Vector(insn::Vector::I16x8Shl),
            Instruction::I16x8ShrS => insn::Instruction::Vector(insn::Vector::I16x8ShrS),
            Instruction::I16x8ShrU => insn::Instruction::Vector(insn::Vector::I16x8ShrU),
            Instruction::I16x8Add => insn::Instruction::Vector(insn::Vector::I16x8Add),
            Instruction::I16x8AddSatS => insn::Instruction::Vector(insn::Vector::I16x8AddSatS),
            Instruction::I16x8AddSatU => insn::Instruction::Vector(insn::Vector::I16x8AddSatU),
            Instruction::I16x8Sub => insn::Instruction::Vector(insn::Vector::I16x8Sub),
            Instruction::I16x8SubSatS => insn::Instruction::Vector(insn::Vector::I16x8SubSatS),
            Instruction::I16x8SubSatU => insn::Instruction::Vector(insn::Vector::I16x8SubSatU),
            Instruction::F64x2Nearest => insn::Instruction::Vector(insn::Vector::F64x2Nearest),
            Instruction::I16x8Mul => insn::Instruction::Vector(insn::Vector::I16x8Mul),
            Instruction::I16x8MinS => insn::Instruction::Vector(insn::Vector::I16x8MinS),
            Instruction::I16x8MinU => insn::Instruction::Vector(insn::Vector::I16x8MinU),
            Instruction::I16x8MaxS => insn::Instruction::Vector(insn::Vector::I16x8MaxS),
            Instruction::I16x8MaxU => insn::Instruction::Vector(insn::Vector::I16x8MaxU),
            Instruction::I16x8AvgrU => insn::Instruction::Vector(insn::Vector::I16x8AvgrU),
            Instruction::I16x8ExtMulLowI8x16S => insn::Instruction::Vector(insn::Vector::I16x8ExtMulLowI8x16S),
            Instruction::I16x8ExtMulHighI8x16S => insn::Instruction::Vector(insn::Vector::I16x8ExtMulHighI8x16S),
            Instruction::I16x8ExtMulLowI8x16U => insn::Instruction::Vector(insn::Vector::I16x8ExtMulLowI8x16U),
            Instruction::I16x8ExtMulHighI8x16U => insn::Instruction::Vector(insn::Vector::I16x8ExtMulHighI8x16U),
            Instruction::I32x4Abs => insn::Instruction::Vector(insn::Vector::I32x4Abs),
            Instruction::I32x4Neg => insn::Instruction::Vector(insn::Vector::I32x4Neg),
            Instruction::I32x4AllTrue => insn::Instruction::Vector(insn::Vector::I32x4AllTrue),
            Instruction::I32x4Bitmask => insn::Instruction::Vector(insn::Vector::I32x4Bitmask),
            Instruction::I32x4ExtendLowI16x8S => insn::Instruction::Vector(insn::Vector::I32x4ExtendLowI16x8S),
            Instruction::I32x4ExtendHighI16x8S => insn::Instruction::Vector(insn::Vector::I32x4ExtendHighI16x8S),
            Instruction::I32x4ExtendLowI16x8U => insn::Instruction::Vector(insn::Vector::I32x4ExtendLowI16x8U),
            Instruction::I32x4ExtendHighI16x8U => insn::Instruction::Vector(insn::Vector::I32x4ExtendHighI16x8U),
            Instruction::I32x4Shl => insn::Instruction::Vector(insn::Vector::I32x4Shl),
            Instruction::I32x4ShrS => insn::Instruction::Vector(insn::Vector::I32x4ShrS),
            Instruction::I32x4ShrU => insn::Instruction::Vector(insn::Vector::I32x4ShrU),
            Instruction::I32x4Add => insn::Instruction::Vector(insn::Vector::I32x4Add),
            Instruction::I32x4Sub => insn::Instruction::Vector(insn::Vector::I32x4Sub),
            Instruction::I32x4Mul => insn::Instruction::Vector(insn::Vector::I32x4Mul),
            Instruction::I32x4MinS => insn::Instruction::Vector(insn::Vector::I32x4MinS),
            Instruction::I32x4MinU => insn::Instruction::Vector(insn::Vector::I32x4MinU),
            Instruction::I32x4MaxS => insn::Instruction::Vector(insn::Vector::I32x4MaxS),
            Instruction::I32x4MaxU => insn::Instruction::Vector(insn::Vector::I32x4MaxU),
            Instruction::I32x4DotI16x8S => insn::Instruction::Vector(insn::Vector::I32x4DotI16x8S),
            Instruction::I32x4ExtMulLowI16x8S => insn::Instruction::Vector(insn::Vector::I32x4ExtMulLowI16x8S),
            Instruction::I32x4ExtMulHighI16x8S => insn::Instruction::Vector(insn::Vector::I32x4ExtMulHighI16x8S),
            Instruction::I32x4ExtMulLowI16x8U => insn::Instruction::Vector(insn::Vector::I32x4ExtMulLowI16x8U),
            Instruction::I32x4ExtMulHighI16x8U => insn::Instruction::Vector(insn::Vector::I32x4ExtMulHighI16x8U),
            Instruction::I64x2Abs => insn::Instruction::Vector(insn::Vector::I64x2Abs),
            Instruction::I64x2Neg => insn::Instruction::Vector(insn::Vector::I64x2Neg),
            Instruction::I64x2AllTrue => insn::Instruction::Vector(insn::Vector::I64x2AllTrue),
            Instruction::I64x2Bitmask => insn::Instruction::Vector(insn::Vector::I64x2Bitmask),
            Instruction::I64x2ExtendLowI32x4S => insn::Instruction::Vector(insn::Vector::I64x2ExtendLowI32x4S),
            Instruction::I64x2ExtendHighI32x4S => insn::Instruction::Vector(insn::Vector::I64x2ExtendHighI32x4S),
            Instruction::I64x2ExtendLowI32x4U => insn::Instruction::Vector(insn::Vector::I64x2ExtendLowI32x4U),
            Instruction::I64x2ExtendHighI32x4U => insn::Instruction::Vector(insn::Vector::I64x2ExtendHighI32x4U),
            Instruction::I64x2Shl => insn::Instruction::Vector(insn::Vector::I64x2Shl),
            Instruction::I64x2ShrS => insn::Instruction::Vector(insn::Vector::I64x2ShrS),
            Instruction::I64x2ShrU => insn::Instruction::Vector(insn::Vector::I64x2ShrU),
            Instruction::I64x2Add => insn::Instruction::Vector(insn::Vector::I64x2Add),
            Instruction::I64x2Sub => insn::Instruction::Vector(insn::Vector::I64x2Sub),
            Instruction::I64x2Mul => insn::Instruction::Vector(insn::Vector::I64x2Mul),
            Instruction::I64x2Eq => insn::Instruction::Vector(insn::Vector::I64x2Eq),
            Instruction::I64x2Ne => insn::Instruction::Vector(insn::Vector::I64x2Ne),
            Instruction::I64x2LtS => insn::Instruction::Vector(insn::Vector::I64x2LtS),
            Instruction::I64x2GtS => insn::Instruction::Vector(insn::Vector::I64x2GtS),
            Instruction::I64x2LeS => insn::Instruction::Vector(insn::Vector::I64x2LeS),
            Instruction::I64x2GeS => insn::Instruction::Vector(insn::Vector::I64x2GeS),
            Instruction::I64x2ExtMulLowI32x4S => insn::Instruction::Vector(insn::Vector::I64x2ExtMulLowI32x4S),
            Instruction::I64x2ExtMulHighI32x4S => insn::Instruction::Vector(insn::Vector::I64x2ExtMulHighI32x4S),
            Instruction::I64x2ExtMulLowI32x4U => insn::Instruction::Vector(insn::Vector::I64x2ExtMulLowI32x4U),
            Instruction::I64x2ExtMulHighI32x4U => insn::Instruction::Vector(insn::Vector::I64x2ExtMulHighI32x4U),
            Instruction::F32x4Abs => insn::Instruction::Vector(insn::Vector::F32x4Abs),
            Instruction::F32x4Neg => insn::Instruction::Vector(insn::Vector::F32x4Neg),
            Instruction::F32x4Sqrt => insn::Instruction::Vector(insn::Vector::F32x4Sqrt),
            Instruction::F32x4Add => insn::Instruction::Vector(insn::Vector::F32x4Add),
            Instruction::F32x4Sub => insn::Instruction::Vector(insn::Vector::F32x4Sub),
            Instruction::F32x4Mul => insn::Instruction::Vector(insn::Vector::F32x4Mul),
            Instruction::F32x4Div => insn::Instruction::Vector(insn::Vector::F32x4Div),
            Instruction::F32x4Min => insn::Instruction::Vector(insn::Vector::F32x4Min),
            Instruction::F32x4Max => insn::Instruction::Vector(insn::Vector::F32x4Max),
            Instruction::F32x4PMin => insn::Instruction::Vector(insn::Vector::F32x4PMin),
            Instruction::F32x4PMax => insn::Instruction::Vector(insn::Vector::F32x4PMax),
            Instruction::F64x2Abs => insn::Instruction::Vector(insn::Vector::F64x2Abs),
            Instruction::F64x2Neg => insn::Instruction::Vector(insn::Vector::F64x2Neg),
            Instruction::F64x2Sqrt => insn::Instruction::Vector(insn::Vector::F64x2Sqrt),
            Instruction::F64x2Add => insn::Instruction::Vector(insn::Vector::F64x2Add),
            Instruction::F64x2Sub => insn::Instruction::Vector(insn::Vector::F64x2Sub),
            Instruction::F64x2Mul => insn::Instruction::Vector(insn::Vector::F64x2Mul),
            Instruction::F64x2Div => insn::Instruction::Vector(insn::Vector::F64x2Div),
            Instruction::F64x2Min => insn::Instruction::Vector(insn::Vector::F64x2Min),
            Instruction::F64x2Max => insn::Instruction::Vector(insn::Vector::F64x2Max),
            Instruction::F64x2PMin => insn::Instruction::Vector(insn::Vector::F64x2PMin),
            Instruction::F64x2PMax => insn::Instruction::Vector(insn::Vector::F64x2PMax),
            Instruction::I32x4TruncSatF32x4S => insn::Instruction::Vector(insn::Vector::I32x4TruncSatF32x4S),
            Instruction::I32x4TruncSatF32x4U => insn::Instruction::Vector(insn::Vector::I32x4TruncSatF32x4U),
            Instruction::F32x4ConvertI32x4S => insn::Instruction::Vector(insn::Vector::F32x4ConvertI32x4S),
            Instruction::F32x4ConvertI32x4U => insn::Instruction::Vector(insn::Vector::F32x4ConvertI32x4U),
            Instruction::I32x4TruncSatF64x2SZero => insn::Instruction::Vector(insn::Vector::I32x4TruncSatF64x2SZero),
            Instruction::I32x4TruncSatF64x2UZero => insn::Instruction::Vector(insn::Vector::I32x4TruncSatF64x2UZero),
            Instruction::F64x2ConvertLowI32x4S => insn::Instruction::Vector(insn::Vector::F64x2ConvertLowI32x4S),
            Instruction::F64x2ConvertLowI32x4U => insn::Instruction::Vector(insn::Vector::F64x2ConvertLowI32x4U),
            Instruction::I8x16RelaxedSwizzle => insn::Instruction::Vector(insn::Vector::I8x16RelaxedSwizzle),
            Instruction::I32x4RelaxedTruncF32x4S => insn::Instruction::Vector(insn::Vector::I32x4RelaxedTruncF32x4S),
            Instruction::I32x4RelaxedTruncF32x4U => insn::Instruction::Vector(insn::Vector::I32x4RelaxedTruncF32x4U),
            Instruction::I32x4RelaxedTruncF64x2SZero => insn::Instruction::Vector(insn::Vector::I32x4RelaxedTruncF64x2SZero),
            Instruction::I32x4RelaxedTruncF64x2UZero => insn::Instruction::Vector(insn::Vector::I32x4RelaxedTruncF64x2UZero),
            Instruction::F32x4RelaxedMadd => insn::Instruction::Vector(insn::Vector::F32x4RelaxedMadd),
            Instruction::F32x4RelaxedNmadd => insn::Instruction::Vector(insn::Vector::F32x4RelaxedNmadd),
            Instruction::F64x2RelaxedMadd => insn::Instruction::Vector(insn::Vector::F64x2RelaxedMadd),
            Instruction::F64x2RelaxedNmadd => insn::Instruction::Vector(insn::Vector::F64x2RelaxedNmadd),
            Instruction::I8x16RelaxedLaneselect => insn::Instruction::Vector(insn::Vector::I8x16RelaxedLaneselect),
            Instruction::I16x8RelaxedLaneselect => insn::Instruction::Vector(insn::Vector::I16x8RelaxedLaneselect),
            Instruction::I32x4RelaxedLaneselect => insn::Instruction::Vector(insn::Vector::I32x4RelaxedLaneselect),
            Instruction::I64x2RelaxedLaneselect => insn::Instruction::Vector(insn::Vector::I64x2RelaxedLaneselect),
            Instruction::F32x4RelaxedMin => insn::Instruction::Vector(insn::Vector::F32x4RelaxedMin),
            Instruction::F32x4RelaxedMax => insn::Instruction::Vector(insn::Vector::F32x4RelaxedMax),
            Instruction::F64x2RelaxedMin => insn::Instruction::Vector(insn::Vector::F64x2RelaxedMin),
            Instruction::F64x2RelaxedMax => insn::Instruction::Vector(insn::Vector::F64x2RelaxedMax),
            Instruction::I16x8RelaxedQ15mulrS => insn::Instruction::Vector(insn::Vector::I16x8RelaxedQ15mulrS),
            Instruction::I16x8RelaxedDotI8x16I7x16S => insn::Instruction::Vector(insn::Vector::I16x8RelaxedDotI8x16I7x16S),
            Instruction::I32x4RelaxedDotI8x16I7x16AddS => insn::Instruction::Vector(insn::Vector::I32x4RelaxedDotI8x16I7x16AddS),
            Instruction::MemoryAtomicNotify(a) => insn::Instruction::Atomic(insn::Atomic::MemoryAtomicNotify(*a)),
            Instruction::MemoryAtomicWait32(a) => insn::Instruction::Atomic(insn::Atomic::MemoryAtomicWait32(*a)),
            Instruction::MemoryAtomicWait64(a) => insn::Instruction::Atomic(insn::Atomic::MemoryAtomicWait64(*a)),
            Instruction::AtomicFence(a) => insn::Instruction::Atomic(insn::Atomic::AtomicFence(*a)),
            Instruction::Pause => insn::Instruction::Atomic(insn::Atomic::Pause),
            Instruction::I32AtomicLoad(a) => insn::Instruction::Atomic(insn::Atomic::I32AtomicLoad(*a)),
            Instruction::I64AtomicLoad(a) => insn::Instruction::Atomic(insn::Atomic::I64AtomicLoad(*a)),
            Instruction::I32AtomicLoad8U(a) => insn::Instruction::Atomic(insn::Atomic::I32AtomicLoad8U(*a)),
            Instruction::I32AtomicLoad16U(a) => insn::Instruction::Atomic(insn::Atomic::I32AtomicLoad16U(*a)),
            Instruction::I64AtomicLoad8U(a) => insn::Instruction::Atomic(insn::Atomic::I64AtomicLoad8U(*a)),
            Instruction::I64AtomicLoad16U(a) => insn::Instruction::Atomic(insn::Atomic::I64AtomicLoad16U(*a)),
            Instruction::I64AtomicLoad32U(a) => insn::Instruction::Atomic(insn::Atomic::I64AtomicLoad32U(*a)),
            Instruction::I32AtomicStore(a) => insn::Instruction::Atomic(insn::Atomic::I32AtomicStore(*a)),
            Instruction::I64AtomicStore(a) => insn::Instruction::Atomic(insn::Atomic::I64AtomicStore(*a)),
            Instruction::I32AtomicStore8(a) => insn::Instruction::Atomic(insn::Atomic::I32AtomicStore8(*a)),
            Instruction::I32AtomicStore16(a) => insn::Instruction::Atomic(insn::Atomic::I32AtomicStore16(*a)),
            Instruction::I64AtomicStore8(a) => insn::Instruction::Atomic(insn::Atomic::I64AtomicStore8(*a)),
            Instruction::I64AtomicStore16(a) => insn::Instruction::Atomic(insn::Atomic::I64AtomicStore16(*a)),
            Instruction::I64AtomicStore32(a) => insn::Instruction::Atomic(insn::Atomic::I64AtomicStore32(*a)),
            Instruction::I32AtomicRmwAdd(a) => insn::Instruction::Atomic(insn::Atomic::I32AtomicRmwAdd(*a)),
            Instruction::I64AtomicRmwAdd(a) => insn::Instruction::Atomic(insn::Atomic::I64AtomicRmwAdd(*a)),
            Instruction::I32AtomicRmw8AddU(a) => insn::Instruction::Atomic(insn::Atomic::I32AtomicRmw8AddU(*a)),
            Instruction::I32AtomicRmw16AddU(a) => insn::Instruction::Atomic(insn::Atomic::I32AtomicRmw16AddU(*a)),
            Instruction::I64AtomicRmw8AddU(a) => insn::Instruction::Atomic(insn::Atomic::I64AtomicRmw8AddU(*a)),
            Instruction::I64AtomicRmw16AddU(a) => insn::Instruction::Atomic(insn::Atomic::I64AtomicRmw16AddU(*a)),
            Instruction::I64AtomicRmw32AddU(a) => insn::Instruction::Atomic(insn::Atomic::I64AtomicRmw32AddU(*a)),
            Instruction::I32AtomicRmwSub(a) => insn::Instruction::Atomic(insn::Atomic::I32AtomicRmwSub(*a)),
            Instruction::I64AtomicRmwSub(a) => insn::Instruction::Atomic(insn::Atomic::I64AtomicRmwSub(*a)),
            Instruction::I32AtomicRmw8SubU(a) => insn::Instruction::Atomic(insn::Atomic::I32AtomicRmw8SubU(*a)),
            Instruction::I32AtomicRmw16SubU(a) => insn::Instruction::Atomic(insn::Atomic::I32AtomicRmw16SubU(*a)),
            Instruction::I64AtomicRmw8SubU(a) => insn::Instruction::Atomic(insn::Atomic::I64AtomicRmw8SubU(*a)),
            Instruction::I64AtomicRmw16SubU(a) => insn::Instruction::Atomic(insn::Atomic::I64AtomicRmw16SubU(*a)),
            Instruction::I64AtomicRmw32SubU(a) => insn::Instruction::Atomic(insn::Atomic::I64AtomicRmw32SubU(*a)),
            Instruction::I32AtomicRmwAnd(a) => insn::Instruction::Atomic(insn::Atomic::I32AtomicRmwAnd(*a)),
            Instruction::I64AtomicRmwAnd(a) => insn::Instruction::Atomic(insn::Atomic::I64AtomicRmwAnd(*a)),
            Instruction::I32AtomicRmw8AndU(a) => insn::Instruction::Atomic(insn::Atomic::I32AtomicRmw8AndU(*a)),
            Instruction::I32AtomicRmw16AndU(a) => insn::Instruction::Atomic(insn::Atomic::I32AtomicRmw16AndU(*a)),
            Instruction::I64AtomicRmw8AndU(a) => insn::Instruction::Atomic(insn::Atomic::I64AtomicRmw8AndU(*a)),
            Instruction::I64AtomicRmw16AndU(a) => insn::Instruction::Atomic(insn::Atomic::I64AtomicRmw16AndU(*a)),
            Instruction::I64AtomicRmw32AndU(a) => insn::Instruction::Atomic(insn::Atomic::I64AtomicRmw32AndU(*a)),
            Instruction::I32AtomicRmwOr(a) => insn::Instruction::Atomic(insn::Atomic::I32AtomicRmwOr(*a)),
            Instruction::I64AtomicRmwOr(a) => insn::Instruction::Atomic(insn::Atomic::I64AtomicRmwOr(*a)),
            Instruction::I32AtomicRmw8OrU(a) => insn::Instruction::Atomic(insn::Atomic::I32AtomicRmw8OrU(*a)),
            Instruction::I32AtomicRmw16OrU(a) => insn::Instruction::Atomic(insn::Atomic::I32AtomicRmw16OrU(*a)),
            Instruction::I64AtomicRmw8OrU(a) => insn::Instruction::Atomic(insn::Atomic::I64AtomicRmw8OrU(*a)),
            Instruction::I64AtomicRmw16OrU(a) => insn::Instruction::Atomic(insn::Atomic::I64AtomicRmw16OrU(*a)),
            Instruction::I64AtomicRmw32OrU(a) => insn::Instruction::Atomic(insn::Atomic::I64AtomicRmw32OrU(*a)),
            Instruction::I32AtomicRmwXor(a) => insn::Instruction::Atomic(insn::Atomic::I32AtomicRmwXor(*a)),
            Instruction::I64AtomicRmwXor(a) => insn::Instruction::Atomic(insn::Atomic::I64AtomicRmwXor(*a)),
            Instruction::I32AtomicRmw8XorU(a) => insn::Instruction::Atomic(insn::Atomic::I32AtomicRmw8XorU(*a)),
            Instruction::I32AtomicRmw16XorU(a) => insn::Instruction::Atomic(insn::Atomic::I32AtomicRmw16XorU(*a)),
            Instruction::I64AtomicRmw8XorU(a) => insn::Instruction::Atomic(insn::Atomic::I64AtomicRmw8XorU(*a)),
            Instruction::I64AtomicRmw16XorU(a) => insn::Instruction::Atomic(insn::Atomic::I64AtomicRmw16XorU(*a)),
            Instruction::I64AtomicRmw32XorU(a) => insn::Instruction::Atomic(insn::Atomic::I64AtomicRmw32XorU(*a)),
            Instruction::I32AtomicRmwXchg(a) => insn::Instruction::Atomic(insn::Atomic::I32AtomicRmwXchg(*a)),
            Instruction::I64AtomicRmwXchg(a) => insn::Instruction::Atomic(insn::Atomic::I64AtomicRmwXchg(*a)),
            Instruction::I32AtomicRmw8XchgU(a) => insn::Instruction::Atomic(insn::Atomic::I32AtomicRmw8XchgU(*a)),
            Instruction::I32AtomicRmw16XchgU(a) => insn::Instruction::Atomic(insn::Atomic::I32AtomicRmw16XchgU(*a)),
            Instruction::I64AtomicRmw8XchgU(a) => insn::Instruction::Atomic(insn::Atomic::I64AtomicRmw8XchgU(*a)),
            Instruction::I64AtomicRmw16XchgU(a) => insn::Instruction::Atomic(insn::Atomic::I64AtomicRmw16XchgU(*a)),
            Instruction::I64AtomicRmw32XchgU(a) => insn::Instruction::Atomic(insn::Atomic::I64AtomicRmw32XchgU(*a)),
            Instruction::I32AtomicRmwCmpxchg(a) => insn::Instruction::Atomic(insn::Atomic::I32AtomicRmwCmpxchg(*a)),
            Instruction::I64AtomicRmwCmpxchg(a) => insn::Instruction::Atomic(insn::Atomic::I64AtomicRmwCmpxchg(*a)),
            Instruction::I32AtomicRmw8CmpxchgU(a) => insn::Instruction::Atomic(insn::Atomic::I32AtomicRmw8CmpxchgU(*a)),
            Instruction::I32AtomicRmw16CmpxchgU(a) => insn::Instruction::Atomic(insn::Atomic::I32AtomicRmw16CmpxchgU(*a)),
            Instruction::I64AtomicRmw8CmpxchgU(a) => insn::Instruction::Atomic(insn::Atomic::I64AtomicRmw8CmpxchgU(*a)),
            Instruction::I64AtomicRmw16CmpxchgU(a) => insn::Instruction::Atomic(insn::Atomic::I64AtomicRmw16CmpxchgU(*a)),
            Instruction::I64AtomicRmw32CmpxchgU(a) => insn::Instruction::Atomic(insn::Atomic::I64AtomicRmw32CmpxchgU(*a)),
            Instruction::GlobalAtomicGet { ordering: a, global_index: b } => insn::Instruction::Atomic(insn::Atomic::GlobalAtomicGet { ordering: *a, global_index: *b }),
            Instruction::GlobalAtomicSet { ordering: a, global_index: b } => insn::Instruction::Atomic(insn::Atomic::GlobalAtomicSet { ordering: *a, global_index: *b }),
            Instruction::GlobalAtomicRmwAdd { ordering: a, global_index: b } => insn::Instruction::Atomic(insn::Atomic::GlobalAtomicRmwAdd { ordering: *a, global_index: *b }),
            Instruction::GlobalAtomicRmwSub { ordering: a, global_index: b } => insn::Instruction::Atomic(insn::Atomic::GlobalAtomicRmwSub { ordering: *a, global_index: *b }),
            Instruction::GlobalAtomicRmwAnd { ordering: a, global_index: b } => insn::Instruction::Atomic(insn::Atomic::GlobalAtomicRmwAnd { ordering: *a, global_index: *b }),
            Instruction::GlobalAtomicRmwOr { ordering: a, global_index: b } => insn::Instruction::Atomic(insn::Atomic::GlobalAtomicRmwOr { ordering: *a, global_index: *b }),
            Instruction::GlobalAtomicRmwXor { ordering: a, global_index: b } => insn::Instruction::Atomic(insn::Atomic::GlobalAtomicRmwXor { ordering: *a, global_index: *b }),
            Instruction::GlobalAtomicRmwXchg { ordering: a, global_index: b } => insn::Instruction::Atomic(insn::Atomic::GlobalAtomicRmwXchg { ordering: *a, global_index: *b }),
            Instruction::GlobalAtomicRmwCmpxchg { ordering: a, global_index: b } => insn::Instruction::Atomic(insn::Atomic::GlobalAtomicRmwCmpxchg { ordering: *a, global_index: *b }),
            Instruction::TableAtomicGet { ordering: a, table_index: b } => insn::Instruction::Atomic(insn::Atomic::TableAtomicGet { ordering: *a, table_index: *b }),
            Instruction::TableAtomicSet { ordering: a, table_index: b } => insn::Instruction::Atomic(insn::Atomic::TableAtomicSet { ordering: *a, table_index: *b }),
            Instruction::TableAtomicRmwXchg { ordering: a, table_index: b } => insn::Instruction::Atomic(insn::Atomic::TableAtomicRmwXchg { ordering: *a, table_index: *b }),
            Instruction::TableAtomicRmwCmpxchg { ordering: a, table_index: b } => insn::Instruction::Atomic(insn::Atomic::TableAtomicRmwCmpxchg { ordering: *a, table_index: *b }),
            Instruction::StructAtomicGet { ordering: a, struct_type_index: b, field_index: c } => insn::Instruction::Atomic(insn::Atomic::StructAtomicGet { ordering: *a, struct_type_index: *b, field_index: *c }),
            Instruction::StructAtomicGetS { ordering: a, struct_type_index: b, field_index: c } => insn::Instruction::Atomic(insn::Atomic::StructAtomicGetS { ordering: *a, struct_type_index: *b, field_index: *c }),
            Instruction::StructAtomicGetU { ordering: a, struct_type_index: b, field_index: c } => insn::Instruction::Atomic(insn::Atomic::StructAtomicGetU { ordering: *a, struct_type_index: *b, field_index: *c }),
            Instruction::StructAtomicSet { ordering: a, struct_type_index: b, field_index: c } => insn::Instruction::Atomic(insn::Atomic::StructAtomicSet { ordering: *a, struct_type_index: *b, field_index: *c }),
            Instruction::StructAtomicRmwAdd { ordering: a, struct_type_index: b, field_index: c } => insn::Instruction::Atomic(insn::Atomic::StructAtomicRmwAdd { ordering: *a, struct_type_index: *b, field_index: *c }),
            Instruction::StructAtomicRmwSub { ordering: a, struct_type_index: b, field_index: c } => insn::Instruction::Atomic(insn::Atomic::StructAtomicRmwSub { ordering: *a, struct_type_index: *b, field_index: *c }),
            Instruction::StructAtomicRmwAnd { ordering: a, struct_type_index: b, field_index: c } => insn::Instruction::Atomic(insn::Atomic::StructAtomicRmwAnd { ordering: *a, struct_type_index: *b, field_index: *c }),
            Instruction::StructAtomicRmwOr { ordering: a, struct_type_index: b, field_index: c } => insn::Instruction::Atomic(insn::Atomic::StructAtomicRmwOr { ordering: *a, struct_type_index: *b, field_index: *c }),
            Instruction::StructAtomicRmwXor { ordering: a, struct_type_index: b, field_index: c } => insn::Instruction::Atomic(insn::Atomic::StructAtomicRmwXor { ordering: *a, struct_type_index: *b, field_index: *c }),
            Instruction::StructAtomicRmwXchg { ordering: a, struct_type_index: b, field_index: c } => insn::Instruction::Atomic(insn::Atomic::StructAtomicRmwXchg { ordering: *a, struct_type_index: *b, field_index: *c }),
            Instruction::StructAtomicRmwCmpxchg { ordering: a, struct_type_index: b, field_index: c } => insn::Instruction::Atomic(insn::Atomic::StructAtomicRmwCmpxchg { ordering: *a, struct_type_index: *b, field_index: *c }),
            Instruction::ArrayAtomicGet { ordering: a, array_type_index: b } => insn::Instruction::Atomic(insn::Atomic::ArrayAtomicGet { ordering: *a, array_type_index: *b }),
            Instruction::ArrayAtomicGetS { ordering: a, array_type_index: b } => insn::Instruction::Atomic(insn::Atomic::ArrayAtomicGetS { ordering: *a, array_type_index: *b }),
            Instruction::ArrayAtomicGetU { ordering: a, array_type_index: b } => insn::Instruction::Atomic(insn::Atomic::ArrayAtomicGetU { ordering: *a, array_type_index: *b }),
            Instruction::ArrayAtomicSet { ordering: a, array_type_index: b } => insn::Instruction::Atomic(insn::Atomic::ArrayAtomicSet { ordering: *a, array_type_index: *b }),
            Instruction::ArrayAtomicRmwAdd { ordering: a, array_type_index: b } => insn::Instruction::Atomic(insn::Atomic::ArrayAtomicRmwAdd { ordering: *a, array_type_index: *b }),
            Instruction::ArrayAtomicRmwSub { ordering: a, array_type_index: b } => insn::Instruction::Atomic(insn::Atomic::ArrayAtomicRmwSub { ordering: *a, array_type_index: *b }),
            Instruction::ArrayAtomicRmwAnd { ordering: a, array_type_index: b } => insn::Instruction::Atomic(insn::Atomic::ArrayAtomicRmwAnd { ordering: *a, array_type_index: *b }),
            Instruction::ArrayAtomicRmwOr { ordering: a, array_type_index: b } => insn::Instruction::Atomic(insn::Atomic::ArrayAtomicRmwOr { ordering: *a, array_type_index: *b }),
            Instruction::ArrayAtomicRmwXor { ordering: a, array_type_index: b } => insn::Instruction::Atomic(insn::Atomic::ArrayAtomicRmwXor { ordering: *a, array_type_index: *b }),
            Instruction::ArrayAtomicRmwXchg { ordering: a, array_type_index: b } => insn::Instruction::Atomic(insn::Atomic::ArrayAtomicRmwXchg { ordering: *a, array_type_index: *b }),
            Instruction::ArrayAtomicRmwCmpxchg { ordering: a, array_type_index: b } => insn::Instruction::Atomic(insn::Atomic::ArrayAtomicRmwCmpxchg { ordering: *a, array_type_index: *b }),
            Instruction::RefI31Shared => insn::Instruction::Atomic(insn::Atomic::RefI31Shared),
        }
    }
}

/// Returns the type of an operand or a result of a cast.
fn cast_type(nullable: bool, heap_type: HeapType) -> RefType {
    RefType { nullable, heap_type }
}

/// How the lists of decoded arguments become those of an instruction.
trait Lists<'a, 'l> {
    fn list<T: Clone, A: Allocator>(items: &'a crate::vec::Vec<T, A>) -> Cow<'l, [T]>;
}

struct Borrowed;

impl<'a> Lists<'a, 'a> for Borrowed {
    fn list<T: Clone, A: Allocator>(items: &'a crate::vec::Vec<T, A>) -> Cow<'a, [T]> {
        Cow::Borrowed(items.as_slice())
    }
}

struct Owned;

impl<'a> Lists<'a, 'static> for Owned {
    fn list<T: Clone, A: Allocator>(items: &'a crate::vec::Vec<T, A>) -> Cow<'static, [T]> {
        Cow::Owned(items.to_vec())
    }
}

/// Returns the instruction of an opcode and its arguments, if there is one.
fn instruction_of<'a, 'l, A: Allocator, L: Lists<'a, 'l>>(
    op: Op,
    args: &'a [Arg<A>],
) -> core::result::Result<Instruction<'l>, ReadFault> {
    Ok(match (number_of(op), args) {
        (0x00, []) => Instruction::Unreachable,
        (0x01, []) => Instruction::Nop,
        (0x02, [Arg::Block(a)]) => Instruction::Block(*a),
        (0x03, [Arg::Block(a)]) => Instruction::Loop(*a),
        (0x04, [Arg::Block(a)]) => Instruction::If(*a),
        (0x05, []) => Instruction::Else,
        (0x06, [Arg::Block(a)]) => Instruction::Try(*a),
        (0x07, [Arg::U32(a)]) => Instruction::Catch(*a),
        (0x08, [Arg::U32(a)]) => Instruction::Throw(*a),
        (0x09, [Arg::U32(a)]) => Instruction::Rethrow(*a),
        (0x0A, []) => Instruction::ThrowRef,
        (0x0B, []) => Instruction::End,
        (0x0C, [Arg::U32(a)]) => Instruction::Br(*a),
        (0x0D, [Arg::U32(a)]) => Instruction::BrIf(*a),
        (0x0E, [Arg::Labels(a), Arg::U32(b)]) => Instruction::BrTable(L::list(a), *b),
        (0x0F, []) => Instruction::Return,
        (0x10, [Arg::U32(a)]) => Instruction::Call(*a),
        (0x11, [Arg::U32(a), Arg::U32(b)]) => Instruction::CallIndirect { type_index: *a, table_index: *b },
        (0x12, [Arg::U32(a)]) => Instruction::ReturnCall(*a),
        (0x13, [Arg::U32(a), Arg::U32(b)]) => Instruction::ReturnCallIndirect { type_index: *a, table_index: *b },
        (0x14, [Arg::U32(a)]) => Instruction::CallRef(*a),
        (0x15, [Arg::U32(a)]) => Instruction::ReturnCallRef(*a),
        (0x18, [Arg::U32(a)]) => Instruction::Delegate(*a),
        (0x19, []) => Instruction::CatchAll,
        (0x1A, []) => Instruction::Drop,
        (0x1B, []) => Instruction::Select,
        (0x1C, [Arg::Types(a)]) if a.len() == 1 => Instruction::TypedSelect(a[0]),
        (0x1C, [Arg::Types(a)]) => Instruction::TypedSelectMulti(L::list(a)),
        (0x1F, [Arg::Block(a), Arg::Catches(b)]) => Instruction::TryTable(*a, L::list(b)),
        (0x20, [Arg::U32(a)]) => Instruction::LocalGet(*a),
        (0x21, [Arg::U32(a)]) => Instruction::LocalSet(*a),
        (0x22, [Arg::U32(a)]) => Instruction::LocalTee(*a),
        (0x23, [Arg::U32(a)]) => Instruction::GlobalGet(*a),
        (0x24, [Arg::U32(a)]) => Instruction::GlobalSet(*a),
        (0x25, [Arg::U32(a)]) => Instruction::TableGet(*a),
        (0x26, [Arg::U32(a)]) => Instruction::TableSet(*a),
        (0x28, [Arg::Mem(a)]) => Instruction::I32Load(*a),
        (0x29, [Arg::Mem(a)]) => Instruction::I64Load(*a),
        (0x2A, [Arg::Mem(a)]) => Instruction::F32Load(*a),
        (0x2B, [Arg::Mem(a)]) => Instruction::F64Load(*a),
        (0x2C, [Arg::Mem(a)]) => Instruction::I32Load8S(*a),
        (0x2D, [Arg::Mem(a)]) => Instruction::I32Load8U(*a),
        (0x2E, [Arg::Mem(a)]) => Instruction::I32Load16S(*a),
        (0x2F, [Arg::Mem(a)]) => Instruction::I32Load16U(*a),
        (0x30, [Arg::Mem(a)]) => Instruction::I64Load8S(*a),
        (0x31, [Arg::Mem(a)]) => Instruction::I64Load8U(*a),
        (0x32, [Arg::Mem(a)]) => Instruction::I64Load16S(*a),
        (0x33, [Arg::Mem(a)]) => Instruction::I64Load16U(*a),
        (0x34, [Arg::Mem(a)]) => Instruction::I64Load32S(*a),
        (0x35, [Arg::Mem(a)]) => Instruction::I64Load32U(*a),
        (0x36, [Arg::Mem(a)]) => Instruction::I32Store(*a),
        (0x37, [Arg::Mem(a)]) => Instruction::I64Store(*a),
        (0x38, [Arg::Mem(a)]) => Instruction::F32Store(*a),
        (0x39, [Arg::Mem(a)]) => Instruction::F64Store(*a),
        (0x3A, [Arg::Mem(a)]) => Instruction::I32Store8(*a),
        (0x3B, [Arg::Mem(a)]) => Instruction::I32Store16(*a),
        (0x3C, [Arg::Mem(a)]) => Instruction::I64Store8(*a),
        (0x3D, [Arg::Mem(a)]) => Instruction::I64Store16(*a),
        (0x3E, [Arg::Mem(a)]) => Instruction::I64Store32(*a),
        (0x3F, [Arg::U32(a)]) => Instruction::MemorySize(*a),
        (0x40, [Arg::U32(a)]) => Instruction::MemoryGrow(*a),
        (0x41, [Arg::S32(a)]) => Instruction::I32Const(*a),
        (0x42, [Arg::S64(a)]) => Instruction::I64Const(*a),
        (0x43, [Arg::F32(a)]) => Instruction::F32Const(*a),
        (0x44, [Arg::F64(a)]) => Instruction::F64Const(*a),
        (0x45, []) => Instruction::I32Eqz,
        (0x46, []) => Instruction::I32Eq,
        (0x47, []) => Instruction::I32Ne,
        (0x48, []) => Instruction::I32LtS,
        (0x49, []) => Instruction::I32LtU,
        (0x4A, []) => Instruction::I32GtS,
        (0x4B, []) => Instruction::I32GtU,
        (0x4C, []) => Instruction::I32LeS,
        (0x4D, []) => Instruction::I32LeU,
        (0x4E, []) => Instruction::I32GeS,
        (0x4F, []) => Instruction::I32GeU,
        (0x50, []) => Instruction::I64Eqz,
        (0x51, []) => Instruction::I64Eq,
        (0x52, []) => Instruction::I64Ne,
        (0x53, []) => Instruction::I64LtS,
        (0x54, []) => Instruction::I64LtU,
        (0x55, []) => Instruction::I64GtS,
        (0x56, []) => Instruction::I64GtU,
        (0x57, []) => Instruction::I64LeS,
        (0x58, []) => Instruction::I64LeU,
        (0x59, []) => Instruction::I64GeS,
        (0x5A, []) => Instruction::I64GeU,
        (0x5B, []) => Instruction::F32Eq,
        (0x5C, []) => Instruction::F32Ne,
        (0x5D, []) => Instruction::F32Lt,
        (0x5E, []) => Instruction::F32Gt,
        (0x5F, []) => Instruction::F32Le,
        (0x60, []) => Instruction::F32Ge,
        (0x61, []) => Instruction::F64Eq,
        (0x62, []) => Instruction::F64Ne,
        (0x63, []) => Instruction::F64Lt,
        (0x64, []) => Instruction::F64Gt,
        (0x65, []) => Instruction::F64Le,
        (0x66, []) => Instruction::F64Ge,
        (0x67, []) => Instruction::I32Clz,
        (0x68, []) => Instruction::I32Ctz,
        (0x69, []) => Instruction::I32Popcnt,
        (0x6A, []) => Instruction::I32Add,
        (0x6B, []) => Instruction::I32Sub,
        (0x6C, []) => Instruction::I32Mul,
        (0x6D, []) => Instruction::I32DivS,
        (0x6E, []) => Instruction::I32DivU,
        (0x6F, []) => Instruction::I32RemS,
        (0x70, []) => Instruction::I32RemU,
        (0x71, []) => Instruction::I32And,
        (0x72, []) => Instruction::I32Or,
        (0x73, []) => Instruction::I32Xor,
        (0x74, []) => Instruction::I32Shl,
        (0x75, []) => Instruction::I32ShrS,
        (0x76, []) => Instruction::I32ShrU,
        (0x77, []) => Instruction::I32Rotl,
        (0x78, []) => Instruction::I32Rotr,
        (0x79, []) => Instruction::I64Clz,
        (0x7A, []) => Instruction::I64Ctz,
        (0x7B, []) => Instruction::I64Popcnt,
        (0x7C, []) => Instruction::I64Add,
        (0x7D, []) => Instruction::I64Sub,
        (0x7E, []) => Instruction::I64Mul,
        (0x7F, []) => Instruction::I64DivS,
        (0x80, []) => Instruction::I64DivU,
        (0x81, []) => Instruction::I64RemS,
        (0x82, []) => Instruction::I64RemU,
        (0x83, []) => Instruction::I64And,
        (0x84, []) => Instruction::I64Or,
        (0x85, []) => Instruction::I64Xor,
        (0x86, []) => Instruction::I64Shl,
        (0x87, []) => Instruction::I64ShrS,
        (0x88, []) => Instruction::I64ShrU,
        (0x89, []) => Instruction::I64Rotl,
        (0x8A, []) => Instruction::I64Rotr,
        (0x8B, []) => Instruction::F32Abs,
        (0x8C, []) => Instruction::F32Neg,
        (0x8D, []) => Instruction::F32Ceil,
        (0x8E, []) => Instruction::F32Floor,
        (0x8F, []) => Instruction::F32Trunc,
        (0x90, []) => Instruction::F32Nearest,
        (0x91, []) => Instruction::F32Sqrt,
        (0x92, []) => Instruction::F32Add,
        (0x93, []) => Instruction::F32Sub,
        (0x94, []) => Instruction::F32Mul,
        (0x95, []) => Instruction::F32Div,
        (0x96, []) => Instruction::F32Min,
        (0x97, []) => Instruction::F32Max,
        (0x98, []) => Instruction::F32Copysign,
        (0x99, []) => Instruction::F64Abs,
        (0x9A, []) => Instruction::F64Neg,
        (0x9B, []) => Instruction::F64Ceil,
        (0x9C, []) => Instruction::F64Floor,
        (0x9D, []) => Instruction::F64Trunc,
        (0x9E, []) => Instruction::F64Nearest,
        (0x9F, []) => Instruction::F64Sqrt,
        (0xA0, []) => Instruction::F64Add,
        (0xA1, []) => Instruction::F64Sub,
        (0xA2, []) => Instruction::F64Mul,
        (0xA3, []) => Instruction::F64Div,
        (0xA4, []) => Instruction::F64Min,
        (0xA5, []) => Instruction::F64Max,
        (0xA6, []) => Instruction::F64Copysign,
        (0xA7, []) => Instruction::I32WrapI64,
        (0xA8, []) => Instruction::I32TruncF32S,
        (0xA9, []) => Instruction::I32TruncF32U,
        (0xAA, []) => Instruction::I32TruncF64S,
        (0xAB, []) => Instruction::I32TruncF64U,
        (0xAC, []) => Instruction::I64ExtendI32S,
        (0xAD, []) => Instruction::I64ExtendI32U,
        (0xAE, []) => Instruction::I64TruncF32S,
        (0xAF, []) => Instruction::I64TruncF32U,
        (0xB0, []) => Instruction::I64TruncF64S,
        (0xB1, []) => Instruction::I64TruncF64U,
        (0xB2, []) => Instruction::F32ConvertI32S,
        (0xB3, []) => Instruction::F32ConvertI32U,
        (0xB4, []) => Instruction::F32ConvertI64S,
        (0xB5, []) => Instruction::F32ConvertI64U,
        (0xB6, []) => Instruction::F32DemoteF64,
        (0xB7, []) => Instruction::F64ConvertI32S,
        (0xB8, []) => Instruction::F64ConvertI32U,
        (0xB9, []) => Instruction::F64ConvertI64S,
        (0xBA, []) => Instruction::F64ConvertI64U,
        (0xBB, []) => Instruction::F64PromoteF32,
        (0xBC, []) => Instruction::I32ReinterpretF32,
        (0xBD, []) => Instruction::I64ReinterpretF64,
        (0xBE, []) => Instruction::F32ReinterpretI32,
        (0xBF, []) => Instruction::F64ReinterpretI64,
        (0xC0, []) => Instruction::I32Extend8S,
        (0xC1, []) => Instruction::I32Extend16S,
        (0xC2, []) => Instruction::I64Extend8S,
        (0xC3, []) => Instruction::I64Extend16S,
        (0xC4, []) => Instruction::I64Extend32S,
        (0xD0, [Arg::Heap(a)]) => Instruction::RefNull(*a),
        (0xD1, []) => Instruction::RefIsNull,
        (0xD2, [Arg::U32(a)]) => Instruction::RefFunc(*a),
        (0xD3, []) => Instruction::RefEq,
        (0xD4, []) => Instruction::RefAsNonNull,
        (0xD5, [Arg::U32(a)]) => Instruction::BrOnNull(*a),
        (0xD6, [Arg::U32(a)]) => Instruction::BrOnNonNull(*a),
        (0xE0, [Arg::U32(a)]) => Instruction::ContNew(*a),
        (0xE1, [Arg::U32(a), Arg::U32(b)]) => Instruction::ContBind { argument_index: *a, result_index: *b },
        (0xE2, [Arg::U32(a)]) => Instruction::Suspend(*a),
        (0xE3, [Arg::U32(a), Arg::Handles(b)]) => Instruction::Resume { cont_type_index: *a, resume_table: L::list(b) },
        (0xE4, [Arg::U32(a), Arg::U32(b), Arg::Handles(c)]) => Instruction::ResumeThrow { cont_type_index: *a, tag_index: *b, resume_table: L::list(c) },
        (0xE5, [Arg::U32(a), Arg::Handles(b)]) => Instruction::ResumeThrowRef { cont_type_index: *a, resume_table: L::list(b) },
        (0xE6, [Arg::U32(a), Arg::U32(b)]) => Instruction::Switch { cont_type_index: *a, tag_index: *b },
        (0xFB000000, [Arg::U32(a)]) => Instruction::StructNew(*a),
        (0xFB000001, [Arg::U32(a)]) => Instruction::StructNewDefault(*a),
        (0xFB000002, [Arg::U32(a), Arg::U32(b)]) => Instruction::StructGet { struct_type_index: *a, field_index: *b },
        (0xFB000003, [Arg::U32(a), Arg::U32(b)]) => Instruction::StructGetS { struct_type_index: *a, field_index: *b },
        (0xFB000004, [Arg::U32(a), Arg::U32(b)]) => Instruction::StructGetU { struct_type_index: *a, field_index: *b },
        (0xFB000005, [Arg::U32(a), Arg::U32(b)]) => Instruction::StructSet { struct_type_index: *a, field_index: *b },
        (0xFB000006, [Arg::U32(a)]) => Instruction::ArrayNew(*a),
        (0xFB000007, [Arg::U32(a)]) => Instruction::ArrayNewDefault(*a),
        (0xFB000008, [Arg::U32(a), Arg::U32(b)]) => Instruction::ArrayNewFixed { array_type_index: *a, array_size: *b },
        (0xFB000009, [Arg::U32(a), Arg::U32(b)]) => Instruction::ArrayNewData { array_type_index: *a, array_data_index: *b },
        (0xFB00000A, [Arg::U32(a), Arg::U32(b)]) => Instruction::ArrayNewElem { array_type_index: *a, array_elem_index: *b },
        (0xFB00000B, [Arg::U32(a)]) => Instruction::ArrayGet(*a),
        (0xFB00000C, [Arg::U32(a)]) => Instruction::ArrayGetS(*a),
        (0xFB00000D, [Arg::U32(a)]) => Instruction::ArrayGetU(*a),
        (0xFB00000E, [Arg::U32(a)]) => Instruction::ArraySet(*a),
        (0xFB00000F, []) => Instruction::ArrayLen,
        (0xFB000010, [Arg::U32(a)]) => Instruction::ArrayFill(*a),
        (0xFB000011, [Arg::U32(a), Arg::U32(b)]) => Instruction::ArrayCopy { array_type_index_dst: *a, array_type_index_src: *b },
        (0xFB000012, [Arg::U32(a), Arg::U32(b)]) => Instruction::ArrayInitData { array_type_index: *a, array_data_index: *b },
        (0xFB000013, [Arg::U32(a), Arg::U32(b)]) => Instruction::ArrayInitElem { array_type_index: *a, array_elem_index: *b },
        (0xFB000014, [Arg::Heap(a)]) => Instruction::RefTestNonNull(*a),
        (0xFB000015, [Arg::Heap(a)]) => Instruction::RefTestNullable(*a),
        (0xFB000016, [Arg::Heap(a)]) => Instruction::RefCastNonNull(*a),
        (0xFB000017, [Arg::Heap(a)]) => Instruction::RefCastNullable(*a),
        (0xFB000018, [Arg::Flag(flags), Arg::U32(a), Arg::Heap(b), Arg::Heap(c)]) => Instruction::BrOnCast { relative_depth: *a, from_ref_type: cast_type(flags & 1 != 0, *b), to_ref_type: cast_type(flags & 2 != 0, *c) },
        (0xFB000019, [Arg::Flag(flags), Arg::U32(a), Arg::Heap(b), Arg::Heap(c)]) => Instruction::BrOnCastFail { relative_depth: *a, from_ref_type: cast_type(flags & 1 != 0, *b), to_ref_type: cast_type(flags & 2 != 0, *c) },
        (0xFB00001A, []) => Instruction::AnyConvertExtern,
        (0xFB00001B, []) => Instruction::ExternConvertAny,
        (0xFB00001C, []) => Instruction::RefI31,
        (0xFB00001D, []) => Instruction::I31GetS,
        (0xFB00001E, []) => Instruction::I31GetU,
        (0xFB000020, [Arg::U32(a)]) => Instruction::StructNewDesc(*a),
        (0xFB000021, [Arg::U32(a)]) => Instruction::StructNewDefaultDesc(*a),
        (0xFB000022, [Arg::U32(a)]) => Instruction::RefGetDesc(*a),
        (0xFB000023, [Arg::Heap(a)]) => Instruction::RefCastDescEqNonNull(*a),
        (0xFB000024, [Arg::Heap(a)]) => Instruction::RefCastDescEqNullable(*a),
        (0xFB000025, [Arg::Flag(flags), Arg::U32(a), Arg::Heap(b), Arg::Heap(c)]) => Instruction::BrOnCastDescEq { relative_depth: *a, from_ref_type: cast_type(flags & 1 != 0, *b), to_ref_type: cast_type(flags & 2 != 0, *c) },
        (0xFB000026, [Arg::Flag(flags), Arg::U32(a), Arg::Heap(b), Arg::Heap(c)]) => Instruction::BrOnCastDescEqFail { relative_depth: *a, from_ref_type: cast_type(flags & 1 != 0, *b), to_ref_type: cast_type(flags & 2 != 0, *c) },
        (0xFC000000, []) => Instruction::I32TruncSatF32S,
        (0xFC000001, []) => Instruction::I32TruncSatF32U,
        (0xFC000002, []) => Instruction::I32TruncSatF64S,
        (0xFC000003, []) => Instruction::I32TruncSatF64U,
        (0xFC000004, []) => Instruction::I64TruncSatF32S,
        (0xFC000005, []) => Instruction::I64TruncSatF32U,
        (0xFC000006, []) => Instruction::I64TruncSatF64S,
        (0xFC000007, []) => Instruction::I64TruncSatF64U,
        (0xFC000008, [Arg::U32(a), Arg::U32(b)]) => Instruction::MemoryInit { data_index: *a, mem: *b },
        (0xFC000009, [Arg::U32(a)]) => Instruction::DataDrop(*a),
        (0xFC00000A, [Arg::U32(a), Arg::U32(b)]) => Instruction::MemoryCopy { dst_mem: *a, src_mem: *b },
        (0xFC00000B, [Arg::U32(a)]) => Instruction::MemoryFill(*a),
        (0xFC00000C, [Arg::U32(a), Arg::U32(b)]) => Instruction::TableInit { elem_index: *a, table: *b },
        (0xFC00000D, [Arg::U32(a)]) => Instruction::ElemDrop(*a),
        (0xFC00000E, [Arg::U32(a), Arg::U32(b)]) => Instruction::TableCopy { dst_table: *a, src_table: *b },
        (0xFC00000F, [Arg::U32(a)]) => Instruction::TableGrow(*a),
        (0xFC000010, [Arg::U32(a)]) => Instruction::TableSize(*a),
        (0xFC000011, [Arg::U32(a)]) => Instruction::TableFill(*a),
        (0xFC000012, [Arg::U32(a)]) => Instruction::MemoryDiscard(*a),
        (0xFC000013, []) => Instruction::I64Add128,
        (0xFC000014, []) => Instruction::I64Sub128,
        (0xFC000015, []) => Instruction::I64MulWideS,
        (0xFC000016, []) => Instruction::I64MulWideU,
        (0xFD000000, [Arg::Mem(a)]) => Instruction::V128Load(*a),
        (0xFD000001, [Arg::Mem(a)]) => Instruction::V128Load8x8S(*a),
        (0xFD000002, [Arg::Mem(a)]) => Instruction::V128Load8x8U(*a),
        (0xFD000003, [Arg::Mem(a)]) => Instruction::V128Load16x4S(*a),
        (0xFD000004, [Arg::Mem(a)]) => Instruction::V128Load16x4U(*a),
        (0xFD000005, [Arg::Mem(a)]) => Instruction::V128Load32x2S(*a),
        (0xFD000006, [Arg::Mem(a)]) => Instruction::V128Load32x2U(*a),
        (0xFD000007, [Arg::Mem(a)]) => Instruction::V128Load8Splat(*a),
        (0xFD000008, [Arg::Mem(a)]) => Instruction::V128Load16Splat(*a),
        (0xFD000009, [Arg::Mem(a)]) => Instruction::V128Load32Splat(*a),
        (0xFD00000A, [Arg::Mem(a)]) => Instruction::V128Load64Splat(*a),
        (0xFD00000B, [Arg::Mem(a)]) => Instruction::V128Store(*a),
        (0xFD00000C, [Arg::V128(a)]) => Instruction::V128Const(*a),
        (0xFD00000D, [Arg::Lanes(a)]) => Instruction::I8x16Shuffle(*a),
        (0xFD00000E, []) => Instruction::I8x16Swizzle,
        (0xFD00000F, []) => Instruction::I8x16Splat,
        (0xFD000010, []) => Instruction::I16x8Splat,
        (0xFD000011, []) => Instruction::I32x4Splat,
        (0xFD000012, []) => Instruction::I64x2Splat,
        (0xFD000013, []) => Instruction::F32x4Splat,
        (0xFD000014, []) => Instruction::F64x2Splat,
        (0xFD000015, [Arg::Lane(a)]) => Instruction::I8x16ExtractLaneS(*a),
        (0xFD000016, [Arg::Lane(a)]) => Instruction::I8x16ExtractLaneU(*a),
        (0xFD000017, [Arg::Lane(a)]) => Instruction::I8x16ReplaceLane(*a),
        (0xFD000018, [Arg::Lane(a)]) => Instruction::I16x8ExtractLaneS(*a),
        (0xFD000019, [Arg::Lane(a)]) => Instruction::I16x8ExtractLaneU(*a),
        (0xFD00001A, [Arg::Lane(a)]) => Instruction::I16x8ReplaceLane(*a),
        (0xFD00001B, [Arg::Lane(a)]) => Instruction::I32x4ExtractLane(*a),
        (0xFD00001C, [Arg::Lane(a)]) => Instruction::I32x4ReplaceLane(*a),
        (0xFD00001D, [Arg::Lane(a)]) => Instruction::I64x2ExtractLane(*a),
        (0xFD00001E, [Arg::Lane(a)]) => Instruction::I64x2ReplaceLane(*a),
        (0xFD00001F, [Arg::Lane(a)]) => Instruction::F32x4ExtractLane(*a),
        (0xFD000020, [Arg::Lane(a)]) => Instruction::F32x4ReplaceLane(*a),
        (0xFD000021, [Arg::Lane(a)]) => Instruction::F64x2ExtractLane(*a),
        (0xFD000022, [Arg::Lane(a)]) => Instruction::F64x2ReplaceLane(*a),
        (0xFD000023, []) => Instruction::I8x16Eq,
        (0xFD000024, []) => Instruction::I8x16Ne,
        (0xFD000025, []) => Instruction::I8x16LtS,
        (0xFD000026, []) => Instruction::I8x16LtU,
        (0xFD000027, []) => Instruction::I8x16GtS,
        (0xFD000028, []) => Instruction::I8x16GtU,
        (0xFD000029, []) => Instruction::I8x16LeS,
        (0xFD00002A, []) => Instruction::I8x16LeU,
        (0xFD00002B, []) => Instruction::I8x16GeS,
        (0xFD00002C, []) => Instruction::I8x16GeU,
        (0xFD00002D, []) => Instruction::I16x8Eq,
        (0xFD00002E, []) => Instruction::I16x8Ne,
        (0xFD00002F, []) => Instruction::I16x8LtS,
        (0xFD000030, []) => Instruction::I16x8LtU,
        (0xFD000031, []) => Instruction::I16x8GtS,
        (0xFD000032, []) => Instruction::I16x8GtU,
        (0xFD000033, []) => Instruction::I16x8LeS,
        (0xFD000034, []) => Instruction::I16x8LeU,
        (0xFD000035, []) => Instruction::I16x8GeS,
        (0xFD000036, []) => Instruction::I16x8GeU,
        (0xFD000037, []) => Instruction::I32x4Eq,
        (0xFD000038, []) => Instruction::I32x4Ne,
        (0xFD000039, []) => Instruction::I32x4LtS,
        (0xFD00003A, []) => Instruction::I32x4LtU,
        (0xFD00003B, []) => Instruction::I32x4GtS,
        (0xFD00003C, []) => Instruction::I32x4GtU,
        (0xFD00003D, []) => Instruction::I32x4LeS,
        (0xFD00003E, []) => Instruction::I32x4LeU,
        (0xFD00003F, []) => Instruction::I32x4GeS,
        (0xFD000040, []) => Instruction::I32x4GeU,
        (0xFD000041, []) => Instruction::F32x4Eq,
        (0xFD000042, []) => Instruction::F32x4Ne,
        (0xFD000043, []) => Instruction::F32x4Lt,
        (0xFD000044, []) => Instruction::F32x4Gt,
        (0xFD000045, []) => Instruction::F32x4Le,
        (0xFD000046, []) => Instruction::F32x4Ge,
        (0xFD000047, []) => Instruction::F64x2Eq,
        (0xFD000048, []) => Instruction::F64x2Ne,
        (0xFD000049, []) => Instruction::F64x2Lt,
        (0xFD00004A, []) => Instruction::F64x2Gt,
        (0xFD00004B, []) => Instruction::F64x2Le,
        (0xFD00004C, []) => Instruction::F64x2Ge,
        (0xFD00004D, []) => Instruction::V128Not,
        (0xFD00004E, []) => Instruction::V128And,
        (0xFD00004F, []) => Instruction::V128AndNot,
        (0xFD000050, []) => Instruction::V128Or,
        (0xFD000051, []) => Instruction::V128Xor,
        (0xFD000052, []) => Instruction::V128Bitselect,
        (0xFD000053, []) => Instruction::V128AnyTrue,
        (0xFD000054, [Arg::Mem(a), Arg::Lane(b)]) => Instruction::V128Load8Lane { memarg: *a, lane: *b },
        (0xFD000055, [Arg::Mem(a), Arg::Lane(b)]) => Instruction::V128Load16Lane { memarg: *a, lane: *b },
        (0xFD000056, [Arg::Mem(a), Arg::Lane(b)]) => Instruction::V128Load32Lane { memarg: *a, lane: *b },
        (0xFD000057, [Arg::Mem(a), Arg::Lane(b)]) => Instruction::V128Load64Lane { memarg: *a, lane: *b },
        (0xFD000058, [Arg::Mem(a), Arg::Lane(b)]) => Instruction::V128Store8Lane { memarg: *a, lane: *b },
        (0xFD000059, [Arg::Mem(a), Arg::Lane(b)]) => Instruction::V128Store16Lane { memarg: *a, lane: *b },
        (0xFD00005A, [Arg::Mem(a), Arg::Lane(b)]) => Instruction::V128Store32Lane { memarg: *a, lane: *b },
        (0xFD00005B, [Arg::Mem(a), Arg::Lane(b)]) => Instruction::V128Store64Lane { memarg: *a, lane: *b },
        (0xFD00005C, [Arg::Mem(a)]) => Instruction::V128Load32Zero(*a),
        (0xFD00005D, [Arg::Mem(a)]) => Instruction::V128Load64Zero(*a),
        (0xFD00005E, []) => Instruction::F32x4DemoteF64x2Zero,
        (0xFD00005F, []) => Instruction::F64x2PromoteLowF32x4,
        (0xFD000060, []) => Instruction::I8x16Abs,
        (0xFD000061, []) => Instruction::I8x16Neg,
        (0xFD000062, []) => Instruction::I8x16Popcnt,
        (0xFD000063, []) => Instruction::I8x16AllTrue,
        (0xFD000064, []) => Instruction::I8x16Bitmask,
        (0xFD000065, []) => Instruction::I8x16NarrowI16x8S,
        (0xFD000066, []) => Instruction::I8x16NarrowI16x8U,
        (0xFD000067, []) => Instruction::F32x4Ceil,
        (0xFD000068, []) => Instruction::F32x4Floor,
        (0xFD000069, []) => Instruction::F32x4Trunc,
        (0xFD00006A, []) => Instruction::F32x4Nearest,
        (0xFD00006B, []) => Instruction::I8x16Shl,
        (0xFD00006C, []) => Instruction::I8x16ShrS,
        (0xFD00006D, []) => Instruction::I8x16ShrU,
        (0xFD00006E, []) => Instruction::I8x16Add,
        (0xFD00006F, []) => Instruction::I8x16AddSatS,
        (0xFD000070, []) => Instruction::I8x16AddSatU,
        (0xFD000071, []) => Instruction::I8x16Sub,
        (0xFD000072, []) => Instruction::I8x16SubSatS,
        (0xFD000073, []) => Instruction::I8x16SubSatU,
        (0xFD000074, []) => Instruction::F64x2Ceil,
        (0xFD000075, []) => Instruction::F64x2Floor,
        (0xFD000076, []) => Instruction::I8x16MinS,
        (0xFD000077, []) => Instruction::I8x16MinU,
        (0xFD000078, []) => Instruction::I8x16MaxS,
        (0xFD000079, []) => Instruction::I8x16MaxU,
        (0xFD00007A, []) => Instruction::F64x2Trunc,
        (0xFD00007B, []) => Instruction::I8x16AvgrU,
        (0xFD00007C, []) => Instruction::I16x8ExtAddPairwiseI8x16S,
        (0xFD00007D, []) => Instruction::I16x8ExtAddPairwiseI8x16U,
        (0xFD00007E, []) => Instruction::I32x4ExtAddPairwiseI16x8S,
        (0xFD00007F, []) => Instruction::I32x4ExtAddPairwiseI16x8U,
        (0xFD000080, []) => Instruction::I16x8Abs,
        (0xFD000081, []) => Instruction::I16x8Neg,
        (0xFD000082, []) => Instruction::I16x8Q15MulrSatS,
        (0xFD000083, []) => Instruction::I16x8AllTrue,
        (0xFD000084, []) => Instruction::I16x8Bitmask,
        (0xFD000085, []) => Instruction::I16x8NarrowI32x4S,
        (0xFD000086, []) => Instruction::I16x8NarrowI32x4U,
        (0xFD000087, []) => Instruction::I16x8ExtendLowI8x16S,
        (0xFD000088, []) => Instruction::I16x8ExtendHighI8x16S,
        (0xFD000089, []) => Instruction::I16x8ExtendLowI8x16U,
        (0xFD00008A, []) => Instruction::I16x8ExtendHighI8x16U,
        (0xFD00008B, []) => Instruction::I16x8Shl,
        (0xFD00008C, []) => Instruction::I16x8ShrS,
        (0xFD00008D, []) => Instruction::I16x8ShrU,
        (0xFD00008E, []) => Instruction::I16x8Add,
        (0xFD00008F, []) => Instruction::I16x8AddSatS,
        (0xFD000090, []) => Instruction::I16x8AddSatU,
        (0xFD000091, []) => Instruction::I16x8Sub,
        (0xFD000092, []) => Instruction::I16x8SubSatS,
        (0xFD000093, []) => Instruction::I16x8SubSatU,
        (0xFD000094, []) => Instruction::F64x2Nearest,
        (0xFD000095, []) => Instruction::I16x8Mul,
        (0xFD000096, []) => Instruction::I16x8MinS,
        (0xFD000097, []) => Instruction::I16x8MinU,
        (0xFD000098, []) => Instruction::I16x8MaxS,
        (0xFD000099, []) => Instruction::I16x8MaxU,
        (0xFD00009B, []) => Instruction::I16x8AvgrU,
        (0xFD00009C, []) => Instruction::I16x8ExtMulLowI8x16S,
        (0xFD00009D, []) => Instruction::I16x8ExtMulHighI8x16S,
        (0xFD00009E, []) => Instruction::I16x8ExtMulLowI8x16U,
        (0xFD00009F, []) => Instruction::I16x8ExtMulHighI8x16U,
        (0xFD0000A0, []) => Instruction::I32x4Abs,
        (0xFD0000A1, []) => Instruction::I32x4Neg,
        (0xFD0000A3, []) => Instruction::I32x4AllTrue,
        (0xFD0000A4, []) => Instruction::I32x4Bitmask,
        (0xFD0000A7, []) => Instruction::I32x4ExtendLowI16x8S,
        (0xFD0000A8, []) => Instruction::I32x4ExtendHighI16x8S,
        (0xFD0000A9, []) => Instruction::I32x4ExtendLowI16x8U,
        (0xFD0000AA, []) => Instruction::I32x4ExtendHighI16x8U,
        (0xFD0000AB, []) => Instruction::I32x4Shl,
        (0xFD0000AC, []) => Instruction::I32x4ShrS,
        (0xFD0000AD, []) => Instruction::I32x4ShrU,
        (0xFD0000AE, []) => Instruction::I32x4Add,
        (0xFD0000B1, []) => Instruction::I32x4Sub,
        (0xFD0000B5, []) => Instruction::I32x4Mul,
        (0xFD0000B6, []) => Instruction::I32x4MinS,
        (0xFD0000B7, []) => Instruction::I32x4MinU,
        (0xFD0000B8, []) => Instruction::I32x4MaxS,
        (0xFD0000B9, []) => Instruction::I32x4MaxU,
        (0xFD0000BA, []) => Instruction::I32x4DotI16x8S,
        (0xFD0000BC, []) => Instruction::I32x4ExtMulLowI16x8S,
        (0xFD0000BD, []) => Instruction::I32x4ExtMulHighI16x8S,
        (0xFD0000BE, []) => Instruction::I32x4ExtMulLowI16x8U,
        (0xFD0000BF, []) => Instruction::I32x4ExtMulHighI16x8U,
        (0xFD0000C0, []) => Instruction::I64x2Abs,
        (0xFD0000C1, []) => Instruction::I64x2Neg,
        (0xFD0000C3, []) => Instruction::I64x2AllTrue,
        (0xFD0000C4, []) => Instruction::I64x2Bitmask,
        (0xFD0000C7, []) => Instruction::I64x2ExtendLowI32x4S,
        (0xFD0000C8, []) => Instruction::I64x2ExtendHighI32x4S,
        (0xFD0000C9, []) => Instruction::I64x2ExtendLowI32x4U,
        (0xFD0000CA, []) => Instruction::I64x2ExtendHighI32x4U,
        (0xFD0000CB, []) => Instruction::I64x2Shl,
        (0xFD0000CC, []) => Instruction::I64x2ShrS,
        (0xFD0000CD, []) => Instruction::I64x2ShrU,
        (0xFD0000CE, []) => Instruction::I64x2Add,
        (0xFD0000D1, []) => Instruction::I64x2Sub,
        (0xFD0000D5, []) => Instruction::I64x2Mul,
        (0xFD0000D6, []) => Instruction::I64x2Eq,
        (0xFD0000D7, []) => Instruction::I64x2Ne,
        (0xFD0000D8, []) => Instruction::I64x2LtS,
        (0xFD0000D9, []) => Instruction::I64x2GtS,
        (0xFD0000DA, []) => Instruction::I64x2LeS,
        (0xFD0000DB, []) => Instruction::I64x2GeS,
        (0xFD0000DC, []) => Instruction::I64x2ExtMulLowI32x4S,
        (0xFD0000DD, []) => Instruction::I64x2ExtMulHighI32x4S,
        (0xFD0000DE, []) => Instruction::I64x2ExtMulLowI32x4U,
        (0xFD0000DF, []) => Instruction::I64x2ExtMulHighI32x4U,
        (0xFD0000E0, []) => Instruction::F32x4Abs,
        (0xFD0000E1, []) => Instruction::F32x4Neg,
        (0xFD0000E3, []) => Instruction::F32x4Sqrt,
        (0xFD0000E4, []) => Instruction::F32x4Add,
        (0xFD0000E5, []) => Instruction::F32x4Sub,
        (0xFD0000E6, []) => Instruction::F32x4Mul,
        (0xFD0000E7, []) => Instruction::F32x4Div,
        (0xFD0000E8, []) => Instruction::F32x4Min,
        (0xFD0000E9, []) => Instruction::F32x4Max,
        (0xFD0000EA, []) => Instruction::F32x4PMin,
        (0xFD0000EB, []) => Instruction::F32x4PMax,
        (0xFD0000EC, []) => Instruction::F64x2Abs,
        (0xFD0000ED, []) => Instruction::F64x2Neg,
        (0xFD0000EF, []) => Instruction::F64x2Sqrt,
        (0xFD0000F0, []) => Instruction::F64x2Add,
        (0xFD0000F1, []) => Instruction::F64x2Sub,
        (0xFD0000F2, []) => Instruction::F64x2Mul,
        (0xFD0000F3, []) => Instruction::F64x2Div,
        (0xFD0000F4, []) => Instruction::F64x2Min,
        (0xFD0000F5, []) => Instruction::F64x2Max,
        (0xFD0000F6, []) => Instruction::F64x2PMin,
        (0xFD0000F7, []) => Instruction::F64x2PMax,
        (0xFD0000F8, []) => Instruction::I32x4TruncSatF32x4S,
        (0xFD0000F9, []) => Instruction::I32x4TruncSatF32x4U,
        (0xFD0000FA, []) => Instruction::F32x4ConvertI32x4S,
        (0xFD0000FB, []) => Instruction::F32x4ConvertI32x4U,
        (0xFD0000FC, []) => Instruction::I32x4TruncSatF64x2SZero,
        (0xFD0000FD, []) => Instruction::I32x4TruncSatF64x2UZero,
        (0xFD0000FE, []) => Instruction::F64x2ConvertLowI32x4S,
        (0xFD0000FF, []) => Instruction::F64x2ConvertLowI32x4U,
        (0xFD000100, []) => Instruction::I8x16RelaxedSwizzle,
        (0xFD000101, []) => Instruction::I32x4RelaxedTruncF32x4S,
        (0xFD000102, []) => Instruction::I32x4RelaxedTruncF32x4U,
        (0xFD000103, []) => Instruction::I32x4RelaxedTruncF64x2SZero,
        (0xFD000104, []) => Instruction::I32x4RelaxedTruncF64x2UZero,
        (0xFD000105, []) => Instruction::F32x4RelaxedMadd,
        (0xFD000106, []) => Instruction::F32x4RelaxedNmadd,
        (0xFD000107, []) => Instruction::F64x2RelaxedMadd,
        (0xFD000108, []) => Instruction::F64x2RelaxedNmadd,
        (0xFD000109, []) => Instruction::I8x16RelaxedLaneselect,
        (0xFD00010A, []) => Instruction::I16x8RelaxedLaneselect,
        (0xFD00010B, []) => Instruction::I32x4RelaxedLaneselect,
        (0xFD00010C, []) => Instruction::I64x2RelaxedLaneselect,
        (0xFD00010D, []) => Instruction::F32x4RelaxedMin,
        (0xFD00010E, []) => Instruction::F32x4RelaxedMax,
        (0xFD00010F, []) => Instruction::F64x2RelaxedMin,
        (0xFD000110, []) => Instruction::F64x2RelaxedMax,
        (0xFD000111, []) => Instruction::I16x8RelaxedQ15mulrS,
        (0xFD000112, []) => Instruction::I16x8RelaxedDotI8x16I7x16S,
        (0xFD000113, []) => Instruction::I32x4RelaxedDotI8x16I7x16AddS,
        (0xFE000000, [Arg::Mem(a)]) => Instruction::MemoryAtomicNotify(*a),
        (0xFE000001, [Arg::Mem(a)]) => Instruction::MemoryAtomicWait32(*a),
        (0xFE000002, [Arg::Mem(a)]) => Instruction::MemoryAtomicWait64(*a),
        (0xFE000003, [Arg::Order(a)]) => Instruction::AtomicFence(*a),
        (0xFE000004, []) => Instruction::Pause,
        (0xFE000010, [Arg::Mem(a)]) => Instruction::I32AtomicLoad(*a),
        (0xFE000011, [Arg::Mem(a)]) => Instruction::I64AtomicLoad(*a),
        (0xFE000012, [Arg::Mem(a)]) => Instruction::I32AtomicLoad8U(*a),
        (0xFE000013, [Arg::Mem(a)]) => Instruction::I32AtomicLoad16U(*a),
        (0xFE000014, [Arg::Mem(a)]) => Instruction::I64AtomicLoad8U(*a),
        (0xFE000015, [Arg::Mem(a)]) => Instruction::I64AtomicLoad16U(*a),
        (0xFE000016, [Arg::Mem(a)]) => Instruction::I64AtomicLoad32U(*a),
        (0xFE000017, [Arg::Mem(a)]) => Instruction::I32AtomicStore(*a),
        (0xFE000018, [Arg::Mem(a)]) => Instruction::I64AtomicStore(*a),
        (0xFE000019, [Arg::Mem(a)]) => Instruction::I32AtomicStore8(*a),
        (0xFE00001A, [Arg::Mem(a)]) => Instruction::I32AtomicStore16(*a),
        (0xFE00001B, [Arg::Mem(a)]) => Instruction::I64AtomicStore8(*a),
        (0xFE00001C, [Arg::Mem(a)]) => Instruction::I64AtomicStore16(*a),
        (0xFE00001D, [Arg::Mem(a)]) => Instruction::I64AtomicStore32(*a),
        (0xFE00001E, [Arg::Mem(a)]) => Instruction::I32AtomicRmwAdd(*a),
        (0xFE00001F, [Arg::Mem(a)]) => Instruction::I64AtomicRmwAdd(*a),
        (0xFE000020, [Arg::Mem(a)]) => Instruction::I32AtomicRmw8AddU(*a),
        (0xFE000021, [Arg::Mem(a)]) => Instruction::I32AtomicRmw16AddU(*a),
        (0xFE000022, [Arg::Mem(a)]) => Instruction::I64AtomicRmw8AddU(*a),
        (0xFE000023, [Arg::Mem(a)]) => Instruction::I64AtomicRmw16AddU(*a),
        (0xFE000024, [Arg::Mem(a)]) => Instruction::I64AtomicRmw32AddU(*a),
        (0xFE000025, [Arg::Mem(a)]) => Instruction::I32AtomicRmwSub(*a),
        (0xFE000026, [Arg::Mem(a)]) => Instruction::I64AtomicRmwSub(*a),
        (0xFE000027, [Arg::Mem(a)]) => Instruction::I32AtomicRmw8SubU(*a),
        (0xFE000028, [Arg::Mem(a)]) => Instruction::I32AtomicRmw16SubU(*a),
        (0xFE000029, [Arg::Mem(a)]) => Instruction::I64AtomicRmw8SubU(*a),
        (0xFE00002A, [Arg::Mem(a)]) => Instruction::I64AtomicRmw16SubU(*a),
        (0xFE00002B, [Arg::Mem(a)]) => Instruction::I64AtomicRmw32SubU(*a),
        (0xFE00002C, [Arg::Mem(a)]) => Instruction::I32AtomicRmwAnd(*a),
        (0xFE00002D, [Arg::Mem(a)]) => Instruction::I64AtomicRmwAnd(*a),
        (0xFE00002E, [Arg::Mem(a)]) => Instruction::I32AtomicRmw8AndU(*a),
        (0xFE00002F, [Arg::Mem(a)]) => Instruction::I32AtomicRmw16AndU(*a),
        (0xFE000030, [Arg::Mem(a)]) => Instruction::I64AtomicRmw8AndU(*a),
        (0xFE000031, [Arg::Mem(a)]) => Instruction::I64AtomicRmw16AndU(*a),
        (0xFE000032, [Arg::Mem(a)]) => Instruction::I64AtomicRmw32AndU(*a),
        (0xFE000033, [Arg::Mem(a)]) => Instruction::I32AtomicRmwOr(*a),
        (0xFE000034, [Arg::Mem(a)]) => Instruction::I64AtomicRmwOr(*a),
        (0xFE000035, [Arg::Mem(a)]) => Instruction::I32AtomicRmw8OrU(*a),
        (0xFE000036, [Arg::Mem(a)]) => Instruction::I32AtomicRmw16OrU(*a),
        (0xFE000037, [Arg::Mem(a)]) => Instruction::I64AtomicRmw8OrU(*a),
        (0xFE000038, [Arg::Mem(a)]) => Instruction::I64AtomicRmw16OrU(*a),
        (0xFE000039, [Arg::Mem(a)]) => Instruction::I64AtomicRmw32OrU(*a),
        (0xFE00003A, [Arg::Mem(a)]) => Instruction::I32AtomicRmwXor(*a),
        (0xFE00003B, [Arg::Mem(a)]) => Instruction::I64AtomicRmwXor(*a),
        (0xFE00003C, [Arg::Mem(a)]) => Instruction::I32AtomicRmw8XorU(*a),
        (0xFE00003D, [Arg::Mem(a)]) => Instruction::I32AtomicRmw16XorU(*a),
        (0xFE00003E, [Arg::Mem(a)]) => Instruction::I64AtomicRmw8XorU(*a),
        (0xFE00003F, [Arg::Mem(a)]) => Instruction::I64AtomicRmw16XorU(*a),
        (0xFE000040, [Arg::Mem(a)]) => Instruction::I64AtomicRmw32XorU(*a),
        (0xFE000041, [Arg::Mem(a)]) => Instruction::I32AtomicRmwXchg(*a),
        (0xFE000042, [Arg::Mem(a)]) => Instruction::I64AtomicRmwXchg(*a),
        (0xFE000043, [Arg::Mem(a)]) => Instruction::I32AtomicRmw8XchgU(*a),
        (0xFE000044, [Arg::Mem(a)]) => Instruction::I32AtomicRmw16XchgU(*a),
        (0xFE000045, [Arg::Mem(a)]) => Instruction::I64AtomicRmw8XchgU(*a),
        (0xFE000046, [Arg::Mem(a)]) => Instruction::I64AtomicRmw16XchgU(*a),
        (0xFE000047, [Arg::Mem(a)]) => Instruction::I64AtomicRmw32XchgU(*a),
        (0xFE000048, [Arg::Mem(a)]) => Instruction::I32AtomicRmwCmpxchg(*a),
        (0xFE000049, [Arg::Mem(a)]) => Instruction::I64AtomicRmwCmpxchg(*a),
        (0xFE00004A, [Arg::Mem(a)]) => Instruction::I32AtomicRmw8CmpxchgU(*a),
        (0xFE00004B, [Arg::Mem(a)]) => Instruction::I32AtomicRmw16CmpxchgU(*a),
        (0xFE00004C, [Arg::Mem(a)]) => Instruction::I64AtomicRmw8CmpxchgU(*a),
        (0xFE00004D, [Arg::Mem(a)]) => Instruction::I64AtomicRmw16CmpxchgU(*a),
        (0xFE00004E, [Arg::Mem(a)]) => Instruction::I64AtomicRmw32CmpxchgU(*a),
        (0xFE00004F, [Arg::Order(a), Arg::U32(b)]) => Instruction::GlobalAtomicGet { ordering: *a, global_index: *b },
        (0xFE000050, [Arg::Order(a), Arg::U32(b)]) => Instruction::GlobalAtomicSet { ordering: *a, global_index: *b },
        (0xFE000051, [Arg::Order(a), Arg::U32(b)]) => Instruction::GlobalAtomicRmwAdd { ordering: *a, global_index: *b },
        (0xFE000052, [Arg::Order(a), Arg::U32(b)]) => Instruction::GlobalAtomicRmwSub { ordering: *a, global_index: *b },
        (0xFE000053, [Arg::Order(a), Arg::U32(b)]) => Instruction::GlobalAtomicRmwAnd { ordering: *a, global_index: *b },
        (0xFE000054, [Arg::Order(a), Arg::U32(b)]) => Instruction::GlobalAtomicRmwOr { ordering: *a, global_index: *b },
        (0xFE000055, [Arg::Order(a), Arg::U32(b)]) => Instruction::GlobalAtomicRmwXor { ordering: *a, global_index: *b },
        (0xFE000056, [Arg::Order(a), Arg::U32(b)]) => Instruction::GlobalAtomicRmwXchg { ordering: *a, global_index: *b },
        (0xFE000057, [Arg::Order(a), Arg::U32(b)]) => Instruction::GlobalAtomicRmwCmpxchg { ordering: *a, global_index: *b },
        (0xFE000058, [Arg::Order(a), Arg::U32(b)]) => Instruction::TableAtomicGet { ordering: *a, table_index: *b },
        (0xFE000059, [Arg::Order(a), Arg::U32(b)]) => Instruction::TableAtomicSet { ordering: *a, table_index: *b },
        (0xFE00005A, [Arg::Order(a), Arg::U32(b)]) => Instruction::TableAtomicRmwXchg { ordering: *a, table_index: *b },
        (0xFE00005B, [Arg::Order(a), Arg::U32(b)]) => Instruction::TableAtomicRmwCmpxchg { ordering: *a, table_index: *b },
        (0xFE00005C, [Arg::Order(a), Arg::U32(b), Arg::U32(c)]) => Instruction::StructAtomicGet { ordering: *a, struct_type_index: *b, field_index: *c },
        (0xFE00005D, [Arg::Order(a), Arg::U32(b), Arg::U32(c)]) => Instruction::StructAtomicGetS { ordering: *a, struct_type_index: *b, field_index: *c },
        (0xFE00005E, [Arg::Order(a), Arg::U32(b), Arg::U32(c)]) => Instruction::StructAtomicGetU { ordering: *a, struct_type_index: *b, field_index: *c },
        (0xFE00005F, [Arg::Order(a), Arg::U32(b), Arg::U32(c)]) => Instruction::StructAtomicSet { ordering: *a, struct_type_index: *b, field_index: *c },
        (0xFE000060, [Arg::Order(a), Arg::U32(b), Arg::U32(c)]) => Instruction::StructAtomicRmwAdd { ordering: *a, struct_type_index: *b, field_index: *c },
        (0xFE000061, [Arg::Order(a), Arg::U32(b), Arg::U32(c)]) => Instruction::StructAtomicRmwSub { ordering: *a, struct_type_index: *b, field_index: *c },
        (0xFE000062, [Arg::Order(a), Arg::U32(b), Arg::U32(c)]) => Instruction::StructAtomicRmwAnd { ordering: *a, struct_type_index: *b, field_index: *c },
        (0xFE000063, [Arg::Order(a), Arg::U32(b), Arg::U32(c)]) => Instruction::StructAtomicRmwOr { ordering: *a, struct_type_index: *b, field_index: *c },
        (0xFE000064, [Arg::Order(a), Arg::U32(b), Arg::U32(c)]) => Instruction::StructAtomicRmwXor { ordering: *a, struct_type_index: *b, field_index: *c },
        (0xFE000065, [Arg::Order(a), Arg::U32(b), Arg::U32(c)]) => Instruction::StructAtomicRmwXchg { ordering: *a, struct_type_index: *b, field_index: *c },
        (0xFE000066, [Arg::Order(a), Arg::U32(b), Arg::U32(c)]) => Instruction::StructAtomicRmwCmpxchg { ordering: *a, struct_type_index: *b, field_index: *c },
        (0xFE000067, [Arg::Order(a), Arg::U32(b)]) => Instruction::ArrayAtomicGet { ordering: *a, array_type_index: *b },
        (0xFE000068, [Arg::Order(a), Arg::U32(b)]) => Instruction::ArrayAtomicGetS { ordering: *a, array_type_index: *b },
        (0xFE000069, [Arg::Order(a), Arg::U32(b)]) => Instruction::ArrayAtomicGetU { ordering: *a, array_type_index: *b },
        (0xFE00006A, [Arg::Order(a), Arg::U32(b)]) => Instruction::ArrayAtomicSet { ordering: *a, array_type_index: *b },
        (0xFE00006B, [Arg::Order(a), Arg::U32(b)]) => Instruction::ArrayAtomicRmwAdd { ordering: *a, array_type_index: *b },
        (0xFE00006C, [Arg::Order(a), Arg::U32(b)]) => Instruction::ArrayAtomicRmwSub { ordering: *a, array_type_index: *b },
        (0xFE00006D, [Arg::Order(a), Arg::U32(b)]) => Instruction::ArrayAtomicRmwAnd { ordering: *a, array_type_index: *b },
        (0xFE00006E, [Arg::Order(a), Arg::U32(b)]) => Instruction::ArrayAtomicRmwOr { ordering: *a, array_type_index: *b },
        (0xFE00006F, [Arg::Order(a), Arg::U32(b)]) => Instruction::ArrayAtomicRmwXor { ordering: *a, array_type_index: *b },
        (0xFE000070, [Arg::Order(a), Arg::U32(b)]) => Instruction::ArrayAtomicRmwXchg { ordering: *a, array_type_index: *b },
        (0xFE000071, [Arg::Order(a), Arg::U32(b)]) => Instruction::ArrayAtomicRmwCmpxchg { ordering: *a, array_type_index: *b },
        (0xFE000072, []) => Instruction::RefI31Shared,
        _ => return Err(ReadFault::UnknownOpcode),
    })
}

/// Converts an opcode and its arguments. Lists are borrowed.
///
/// A `select` with one type is [`TypedSelect`](Instruction::TypedSelect).
///
/// # Errors
///
/// Returns [`ReadFault::UnknownOpcode`] if no instruction has this opcode and arguments of these
/// types. Of the flags of a cast only bits 0 and 1 count. An instruction that was decoded has a
/// case, as a test of each case shows.
///
/// ```
/// use dolzhytik::Instruction;
/// use dolzhytik::fallible::{Global, Op};
/// use dolzhytik::reader::{Arg, ReadFault};
///
/// let args: [Arg<Global>; 1] = [Arg::S32(5)];
/// let instruction = Instruction::try_from((Op::Byte(0x41), &args[..]))?;
/// assert!(matches!(instruction, Instruction::I32Const(5)));
/// # Ok::<(), ReadFault>(())
/// ```
impl<'a, A: Allocator> TryFrom<(Op, &'a [Arg<A>])> for Instruction<'a> {
    type Error = ReadFault;

    fn try_from((op, args): (Op, &'a [Arg<A>])) -> core::result::Result<Self, ReadFault> {
        instruction_of::<A, Borrowed>(op, args)
    }
}

/// Converts a decoded instruction. Lists are copied.
///
/// # Errors
///
/// Returns [`ReadFault::Memory`] if an allocation fails. That of a list aborts instead. Every other
/// error means that the bytes of the operands were not decoded as this instruction.
///
/// ```
/// use dolzhytik::Instruction;
/// use dolzhytik::fallible::Global;
/// use dolzhytik::reader::{Instructions, ReadFault};
///
/// // local.get 1; i32.const 5; i32.add.
/// let mut instructions = Instructions::standard(&[0x20, 1, 0x41, 5, 0x6A], Global);
/// let mut constants = vec![];
/// while let Some(decoded) = instructions.next()? {
///     if let Instruction::I32Const(n) = Instruction::try_from(decoded)? {
///         constants.push(n);
///     }
/// }
/// assert_eq!(constants, [5]);
/// # Ok::<(), ReadFault>(())
/// ```
impl TryFrom<Decoded<'_>> for Instruction<'static> {
    type Error = ReadFault;

    // Inline, so that it is compiled only where it is used.
    #[inline]
    fn try_from(decoded: Decoded<'_>) -> core::result::Result<Self, ReadFault> {
        let args = decoded.operands.to_args(Global)?;
        instruction_of::<Global, Owned>(decoded.op, &args)
    }
}

/// Converts a decoded instruction. Lists are borrowed.
///
/// # Errors
///
/// Returns [`ReadFault::UnknownOpcode`] if no instruction has this opcode and arguments of these
/// types. Of the flags of a cast only bits 0 and 1 count.
///
/// ```
/// use dolzhytik::Instruction;
/// use dolzhytik::fallible::{Global, Op};
/// use dolzhytik::reader::{Plain, ReadFault};
///
/// let plain: Plain = Plain { op: Op::Byte(0x6A), args: dolzhytik::fallible::Vec::new(Global) };
/// assert!(matches!(Instruction::try_from(&plain)?, Instruction::I32Add));
/// # Ok::<(), ReadFault>(())
/// ```
impl<'a, A: Allocator> TryFrom<&'a Plain<A>> for Instruction<'a> {
    type Error = ReadFault;

    fn try_from(plain: &'a Plain<A>) -> core::result::Result<Self, ReadFault> {
        Instruction::try_from((plain.op, plain.args.as_slice()))
    }
}

impl Instruction<'_> {
    /// Returns the opcode as one number, which `op_of` takes.
    #[inline(always)]
    fn op(&self) -> u32 {
        match self {
            Instruction::Unreachable => 0x00,
            Instruction::Nop => 0x01,
            Instruction::Block(..) => 0x02,
            Instruction::Loop(..) => 0x03,
            Instruction::If(..) => 0x04,
            Instruction::Else => 0x05,
            Instruction::Try(..) => 0x06,
            Instruction::Catch(..) => 0x07,
            Instruction::Throw(..) => 0x08,
            Instruction::Rethrow(..) => 0x09,
            Instruction::ThrowRef => 0x0A,
            Instruction::End => 0x0B,
            Instruction::Br(..) => 0x0C,
            Instruction::BrIf(..) => 0x0D,
            Instruction::BrTable(..) => 0x0E,
            Instruction::Return => 0x0F,
            Instruction::Call(..) => 0x10,
            Instruction::CallIndirect { .. } => 0x11,
            Instruction::ReturnCall(..) => 0x12,
            Instruction::ReturnCallIndirect { .. } => 0x13,
            Instruction::CallRef(..) => 0x14,
            Instruction::ReturnCallRef(..) => 0x15,
            Instruction::Delegate(..) => 0x18,
            Instruction::CatchAll => 0x19,
            Instruction::Drop => 0x1A,
            Instruction::Select => 0x1B,
            Instruction::TypedSelect(..) => 0x1C,
            Instruction::TypedSelectMulti(..) => 0x1C,
            Instruction::TryTable(..) => 0x1F,
            Instruction::LocalGet(..) => 0x20,
            Instruction::LocalSet(..) => 0x21,
            Instruction::LocalTee(..) => 0x22,
            Instruction::GlobalGet(..) => 0x23,
            Instruction::GlobalSet(..) => 0x24,
            Instruction::TableGet(..) => 0x25,
            Instruction::TableSet(..) => 0x26,
            Instruction::I32Load(..) => 0x28,
            Instruction::I64Load(..) => 0x29,
            Instruction::F32Load(..) => 0x2A,
            Instruction::F64Load(..) => 0x2B,
            Instruction::I32Load8S(..) => 0x2C,
            Instruction::I32Load8U(..) => 0x2D,
            Instruction::I32Load16S(..) => 0x2E,
            Instruction::I32Load16U(..) => 0x2F,
            Instruction::I64Load8S(..) => 0x30,
            Instruction::I64Load8U(..) => 0x31,
            Instruction::I64Load16S(..) => 0x32,
            Instruction::I64Load16U(..) => 0x33,
            Instruction::I64Load32S(..) => 0x34,
            Instruction::I64Load32U(..) => 0x35,
            Instruction::I32Store(..) => 0x36,
            Instruction::I64Store(..) => 0x37,
            Instruction::F32Store(..) => 0x38,
            Instruction::F64Store(..) => 0x39,
            Instruction::I32Store8(..) => 0x3A,
            Instruction::I32Store16(..) => 0x3B,
            Instruction::I64Store8(..) => 0x3C,
            Instruction::I64Store16(..) => 0x3D,
            Instruction::I64Store32(..) => 0x3E,
            Instruction::MemorySize(..) => 0x3F,
            Instruction::MemoryGrow(..) => 0x40,
            Instruction::I32Const(..) => 0x41,
            Instruction::I64Const(..) => 0x42,
            Instruction::F32Const(..) => 0x43,
            Instruction::F64Const(..) => 0x44,
            Instruction::I32Eqz => 0x45,
            Instruction::I32Eq => 0x46,
            Instruction::I32Ne => 0x47,
            Instruction::I32LtS => 0x48,
            Instruction::I32LtU => 0x49,
            Instruction::I32GtS => 0x4A,
            Instruction::I32GtU => 0x4B,
            Instruction::I32LeS => 0x4C,
            Instruction::I32LeU => 0x4D,
            Instruction::I32GeS => 0x4E,
            Instruction::I32GeU => 0x4F,
            Instruction::I64Eqz => 0x50,
            Instruction::I64Eq => 0x51,
            Instruction::I64Ne => 0x52,
            Instruction::I64LtS => 0x53,
            Instruction::I64LtU => 0x54,
            Instruction::I64GtS => 0x55,
            Instruction::I64GtU => 0x56,
            Instruction::I64LeS => 0x57,
            Instruction::I64LeU => 0x58,
            Instruction::I64GeS => 0x59,
            Instruction::I64GeU => 0x5A,
            Instruction::F32Eq => 0x5B,
            Instruction::F32Ne => 0x5C,
            Instruction::F32Lt => 0x5D,
            Instruction::F32Gt => 0x5E,
            Instruction::F32Le => 0x5F,
            Instruction::F32Ge => 0x60,
            Instruction::F64Eq => 0x61,
            Instruction::F64Ne => 0x62,
            Instruction::F64Lt => 0x63,
            Instruction::F64Gt => 0x64,
            Instruction::F64Le => 0x65,
            Instruction::F64Ge => 0x66,
            Instruction::I32Clz => 0x67,
            Instruction::I32Ctz => 0x68,
            Instruction::I32Popcnt => 0x69,
            Instruction::I32Add => 0x6A,
            Instruction::I32Sub => 0x6B,
            Instruction::I32Mul => 0x6C,
            Instruction::I32DivS => 0x6D,
            Instruction::I32DivU => 0x6E,
            Instruction::I32RemS => 0x6F,
            Instruction::I32RemU => 0x70,
            Instruction::I32And => 0x71,
            Instruction::I32Or => 0x72,
            Instruction::I32Xor => 0x73,
            Instruction::I32Shl => 0x74,
            Instruction::I32ShrS => 0x75,
            Instruction::I32ShrU => 0x76,
            Instruction::I32Rotl => 0x77,
            Instruction::I32Rotr => 0x78,
            Instruction::I64Clz => 0x79,
            Instruction::I64Ctz => 0x7A,
            Instruction::I64Popcnt => 0x7B,
            Instruction::I64Add => 0x7C,
            Instruction::I64Sub => 0x7D,
            Instruction::I64Mul => 0x7E,
            Instruction::I64DivS => 0x7F,
            Instruction::I64DivU => 0x80,
            Instruction::I64RemS => 0x81,
            Instruction::I64RemU => 0x82,
            Instruction::I64And => 0x83,
            Instruction::I64Or => 0x84,
            Instruction::I64Xor => 0x85,
            Instruction::I64Shl => 0x86,
            Instruction::I64ShrS => 0x87,
            Instruction::I64ShrU => 0x88,
            Instruction::I64Rotl => 0x89,
            Instruction::I64Rotr => 0x8A,
            Instruction::F32Abs => 0x8B,
            Instruction::F32Neg => 0x8C,
            Instruction::F32Ceil => 0x8D,
            Instruction::F32Floor => 0x8E,
            Instruction::F32Trunc => 0x8F,
            Instruction::F32Nearest => 0x90,
            Instruction::F32Sqrt => 0x91,
            Instruction::F32Add => 0x92,
            Instruction::F32Sub => 0x93,
            Instruction::F32Mul => 0x94,
            Instruction::F32Div => 0x95,
            Instruction::F32Min => 0x96,
            Instruction::F32Max => 0x97,
            Instruction::F32Copysign => 0x98,
            Instruction::F64Abs => 0x99,
            Instruction::F64Neg => 0x9A,
            Instruction::F64Ceil => 0x9B,
            Instruction::F64Floor => 0x9C,
            Instruction::F64Trunc => 0x9D,
            Instruction::F64Nearest => 0x9E,
            Instruction::F64Sqrt => 0x9F,
            Instruction::F64Add => 0xA0,
            Instruction::F64Sub => 0xA1,
            Instruction::F64Mul => 0xA2,
            Instruction::F64Div => 0xA3,
            Instruction::F64Min => 0xA4,
            Instruction::F64Max => 0xA5,
            Instruction::F64Copysign => 0xA6,
            Instruction::I32WrapI64 => 0xA7,
            Instruction::I32TruncF32S => 0xA8,
            Instruction::I32TruncF32U => 0xA9,
            Instruction::I32TruncF64S => 0xAA,
            Instruction::I32TruncF64U => 0xAB,
            Instruction::I64ExtendI32S => 0xAC,
            Instruction::I64ExtendI32U => 0xAD,
            Instruction::I64TruncF32S => 0xAE,
            Instruction::I64TruncF32U => 0xAF,
            Instruction::I64TruncF64S => 0xB0,
            Instruction::I64TruncF64U => 0xB1,
            Instruction::F32ConvertI32S => 0xB2,
            Instruction::F32ConvertI32U => 0xB3,
            Instruction::F32ConvertI64S => 0xB4,
            Instruction::F32ConvertI64U => 0xB5,
            Instruction::F32DemoteF64 => 0xB6,
            Instruction::F64ConvertI32S => 0xB7,
            Instruction::F64ConvertI32U => 0xB8,
            Instruction::F64ConvertI64S => 0xB9,
            Instruction::F64ConvertI64U => 0xBA,
            Instruction::F64PromoteF32 => 0xBB,
            Instruction::I32ReinterpretF32 => 0xBC,
            Instruction::I64ReinterpretF64 => 0xBD,
            Instruction::F32ReinterpretI32 => 0xBE,
            Instruction::F64ReinterpretI64 => 0xBF,
            Instruction::I32Extend8S => 0xC0,
            Instruction::I32Extend16S => 0xC1,
            Instruction::I64Extend8S => 0xC2,
            Instruction::I64Extend16S => 0xC3,
            Instruction::I64Extend32S => 0xC4,
            Instruction::RefNull(..) => 0xD0,
            Instruction::RefIsNull => 0xD1,
            Instruction::RefFunc(..) => 0xD2,
            Instruction::RefEq => 0xD3,
            Instruction::RefAsNonNull => 0xD4,
            Instruction::BrOnNull(..) => 0xD5,
            Instruction::BrOnNonNull(..) => 0xD6,
            Instruction::ContNew(..) => 0xE0,
            Instruction::ContBind { .. } => 0xE1,
            Instruction::Suspend(..) => 0xE2,
            Instruction::Resume { .. } => 0xE3,
            Instruction::ResumeThrow { .. } => 0xE4,
            Instruction::ResumeThrowRef { .. } => 0xE5,
            Instruction::Switch { .. } => 0xE6,
            Instruction::StructNew(..) => 0xFB000000,
            Instruction::StructNewDefault(..) => 0xFB000001,
            Instruction::StructGet { .. } => 0xFB000002,
            Instruction::StructGetS { .. } => 0xFB000003,
            Instruction::StructGetU { .. } => 0xFB000004,
            Instruction::StructSet { .. } => 0xFB000005,
            Instruction::ArrayNew(..) => 0xFB000006,
            Instruction::ArrayNewDefault(..) => 0xFB000007,
            Instruction::ArrayNewFixed { .. } => 0xFB000008,
            Instruction::ArrayNewData { .. } => 0xFB000009,
            Instruction::ArrayNewElem { .. } => 0xFB00000A,
            Instruction::ArrayGet(..) => 0xFB00000B,
            Instruction::ArrayGetS(..) => 0xFB00000C,
            Instruction::ArrayGetU(..) => 0xFB00000D,
            Instruction::ArraySet(..) => 0xFB00000E,
            Instruction::ArrayLen => 0xFB00000F,
            Instruction::ArrayFill(..) => 0xFB000010,
            Instruction::ArrayCopy { .. } => 0xFB000011,
            Instruction::ArrayInitData { .. } => 0xFB000012,
            Instruction::ArrayInitElem { .. } => 0xFB000013,
            Instruction::RefTestNonNull(..) => 0xFB000014,
            Instruction::RefTestNullable(..) => 0xFB000015,
            Instruction::RefCastNonNull(..) => 0xFB000016,
            Instruction::RefCastNullable(..) => 0xFB000017,
            Instruction::BrOnCast { .. } => 0xFB000018,
            Instruction::BrOnCastFail { .. } => 0xFB000019,
            Instruction::AnyConvertExtern => 0xFB00001A,
            Instruction::ExternConvertAny => 0xFB00001B,
            Instruction::RefI31 => 0xFB00001C,
            Instruction::I31GetS => 0xFB00001D,
            Instruction::I31GetU => 0xFB00001E,
            Instruction::StructNewDesc(..) => 0xFB000020,
            Instruction::StructNewDefaultDesc(..) => 0xFB000021,
            Instruction::RefGetDesc(..) => 0xFB000022,
            Instruction::RefCastDescEqNonNull(..) => 0xFB000023,
            Instruction::RefCastDescEqNullable(..) => 0xFB000024,
            Instruction::BrOnCastDescEq { .. } => 0xFB000025,
            Instruction::BrOnCastDescEqFail { .. } => 0xFB000026,
            Instruction::I32TruncSatF32S => 0xFC000000,
            Instruction::I32TruncSatF32U => 0xFC000001,
            Instruction::I32TruncSatF64S => 0xFC000002,
            Instruction::I32TruncSatF64U => 0xFC000003,
            Instruction::I64TruncSatF32S => 0xFC000004,
            Instruction::I64TruncSatF32U => 0xFC000005,
            Instruction::I64TruncSatF64S => 0xFC000006,
            Instruction::I64TruncSatF64U => 0xFC000007,
            Instruction::MemoryInit { .. } => 0xFC000008,
            Instruction::DataDrop(..) => 0xFC000009,
            Instruction::MemoryCopy { .. } => 0xFC00000A,
            Instruction::MemoryFill(..) => 0xFC00000B,
            Instruction::TableInit { .. } => 0xFC00000C,
            Instruction::ElemDrop(..) => 0xFC00000D,
            Instruction::TableCopy { .. } => 0xFC00000E,
            Instruction::TableGrow(..) => 0xFC00000F,
            Instruction::TableSize(..) => 0xFC000010,
            Instruction::TableFill(..) => 0xFC000011,
            Instruction::MemoryDiscard(..) => 0xFC000012,
            Instruction::I64Add128 => 0xFC000013,
            Instruction::I64Sub128 => 0xFC000014,
            Instruction::I64MulWideS => 0xFC000015,
            Instruction::I64MulWideU => 0xFC000016,
            Instruction::V128Load(..) => 0xFD000000,
            Instruction::V128Load8x8S(..) => 0xFD000001,
            Instruction::V128Load8x8U(..) => 0xFD000002,
            Instruction::V128Load16x4S(..) => 0xFD000003,
            Instruction::V128Load16x4U(..) => 0xFD000004,
            Instruction::V128Load32x2S(..) => 0xFD000005,
            Instruction::V128Load32x2U(..) => 0xFD000006,
            Instruction::V128Load8Splat(..) => 0xFD000007,
            Instruction::V128Load16Splat(..) => 0xFD000008,
            Instruction::V128Load32Splat(..) => 0xFD000009,
            Instruction::V128Load64Splat(..) => 0xFD00000A,
            Instruction::V128Store(..) => 0xFD00000B,
            Instruction::V128Const(..) => 0xFD00000C,
            Instruction::I8x16Shuffle(..) => 0xFD00000D,
            Instruction::I8x16Swizzle => 0xFD00000E,
            Instruction::I8x16Splat => 0xFD00000F,
            Instruction::I16x8Splat => 0xFD000010,
            Instruction::I32x4Splat => 0xFD000011,
            Instruction::I64x2Splat => 0xFD000012,
            Instruction::F32x4Splat => 0xFD000013,
            Instruction::F64x2Splat => 0xFD000014,
            Instruction::I8x16ExtractLaneS(..) => 0xFD000015,
            Instruction::I8x16ExtractLaneU(..) => 0xFD000016,
            Instruction::I8x16ReplaceLane(..) => 0xFD000017,
            Instruction::I16x8ExtractLaneS(..) => 0xFD000018,
            Instruction::I16x8ExtractLaneU(..) => 0xFD000019,
            Instruction::I16x8ReplaceLane(..) => 0xFD00001A,
            Instruction::I32x4ExtractLane(..) => 0xFD00001B,
            Instruction::I32x4ReplaceLane(..) => 0xFD00001C,
            Instruction::I64x2ExtractLane(..) => 0xFD00001D,
            Instruction::I64x2ReplaceLane(..) => 0xFD00001E,
            Instruction::F32x4ExtractLane(..) => 0xFD00001F,
            Instruction::F32x4ReplaceLane(..) => 0xFD000020,
            Instruction::F64x2ExtractLane(..) => 0xFD000021,
            Instruction::F64x2ReplaceLane(..) => 0xFD000022,
            Instruction::I8x16Eq => 0xFD000023,
            Instruction::I8x16Ne => 0xFD000024,
            Instruction::I8x16LtS => 0xFD000025,
            Instruction::I8x16LtU => 0xFD000026,
            Instruction::I8x16GtS => 0xFD000027,
            Instruction::I8x16GtU => 0xFD000028,
            Instruction::I8x16LeS => 0xFD000029,
            Instruction::I8x16LeU => 0xFD00002A,
            Instruction::I8x16GeS => 0xFD00002B,
            Instruction::I8x16GeU => 0xFD00002C,
            Instruction::I16x8Eq => 0xFD00002D,
            Instruction::I16x8Ne => 0xFD00002E,
            Instruction::I16x8LtS => 0xFD00002F,
            Instruction::I16x8LtU => 0xFD000030,
            Instruction::I16x8GtS => 0xFD000031,
            Instruction::I16x8GtU => 0xFD000032,
            Instruction::I16x8LeS => 0xFD000033,
            Instruction::I16x8LeU => 0xFD000034,
            Instruction::I16x8GeS => 0xFD000035,
            Instruction::I16x8GeU => 0xFD000036,
            Instruction::I32x4Eq => 0xFD000037,
            Instruction::I32x4Ne => 0xFD000038,
            Instruction::I32x4LtS => 0xFD000039,
            Instruction::I32x4LtU => 0xFD00003A,
            Instruction::I32x4GtS => 0xFD00003B,
            Instruction::I32x4GtU => 0xFD00003C,
            Instruction::I32x4LeS => 0xFD00003D,
            Instruction::I32x4LeU => 0xFD00003E,
            Instruction::I32x4GeS => 0xFD00003F,
            Instruction::I32x4GeU => 0xFD000040,
            Instruction::F32x4Eq => 0xFD000041,
            Instruction::F32x4Ne => 0xFD000042,
            Instruction::F32x4Lt => 0xFD000043,
            Instruction::F32x4Gt => 0xFD000044,
            Instruction::F32x4Le => 0xFD000045,
            Instruction::F32x4Ge => 0xFD000046,
            Instruction::F64x2Eq => 0xFD000047,
            Instruction::F64x2Ne => 0xFD000048,
            Instruction::F64x2Lt => 0xFD000049,
            Instruction::F64x2Gt => 0xFD00004A,
            Instruction::F64x2Le => 0xFD00004B,
            Instruction::F64x2Ge => 0xFD00004C,
            Instruction::V128Not => 0xFD00004D,
            Instruction::V128And => 0xFD00004E,
            Instruction::V128AndNot => 0xFD00004F,
            Instruction::V128Or => 0xFD000050,
            Instruction::V128Xor => 0xFD000051,
            Instruction::V128Bitselect => 0xFD000052,
            Instruction::V128AnyTrue => 0xFD000053,
            Instruction::V128Load8Lane { .. } => 0xFD000054,
            Instruction::V128Load16Lane { .. } => 0xFD000055,
            Instruction::V128Load32Lane { .. } => 0xFD000056,
            Instruction::V128Load64Lane { .. } => 0xFD000057,
            Instruction::V128Store8Lane { .. } => 0xFD000058,
            Instruction::V128Store16Lane { .. } => 0xFD000059,
            Instruction::V128Store32Lane { .. } => 0xFD00005A,
            Instruction::V128Store64Lane { .. } => 0xFD00005B,
            Instruction::V128Load32Zero(..) => 0xFD00005C,
            Instruction::V128Load64Zero(..) => 0xFD00005D,
            Instruction::F32x4DemoteF64x2Zero => 0xFD00005E,
            Instruction::F64x2PromoteLowF32x4 => 0xFD00005F,
            Instruction::I8x16Abs => 0xFD000060,
            Instruction::I8x16Neg => 0xFD000061,
            Instruction::I8x16Popcnt => 0xFD000062,
            Instruction::I8x16AllTrue => 0xFD000063,
            Instruction::I8x16Bitmask => 0xFD000064,
            Instruction::I8x16NarrowI16x8S => 0xFD000065,
            Instruction::I8x16NarrowI16x8U => 0xFD000066,
            Instruction::F32x4Ceil => 0xFD000067,
            Instruction::F32x4Floor => 0xFD000068,
            Instruction::F32x4Trunc => 0xFD000069,
            Instruction::F32x4Nearest => 0xFD00006A,
            Instruction::I8x16Shl => 0xFD00006B,
            Instruction::I8x16ShrS => 0xFD00006C,
            Instruction::I8x16ShrU => 0xFD00006D,
            Instruction::I8x16Add => 0xFD00006E,
            Instruction::I8x16AddSatS => 0xFD00006F,
            Instruction::I8x16AddSatU => 0xFD000070,
            Instruction::I8x16Sub => 0xFD000071,
            Instruction::I8x16SubSatS => 0xFD000072,
            Instruction::I8x16SubSatU => 0xFD000073,
            Instruction::F64x2Ceil => 0xFD000074,
            Instruction::F64x2Floor => 0xFD000075,
            Instruction::I8x16MinS => 0xFD000076,
            Instruction::I8x16MinU => 0xFD000077,
            Instruction::I8x16MaxS => 0xFD000078,
            Instruction::I8x16MaxU => 0xFD000079,
            Instruction::F64x2Trunc => 0xFD00007A,
            Instruction::I8x16AvgrU => 0xFD00007B,
            Instruction::I16x8ExtAddPairwiseI8x16S => 0xFD00007C,
            Instruction::I16x8ExtAddPairwiseI8x16U => 0xFD00007D,
            Instruction::I32x4ExtAddPairwiseI16x8S => 0xFD00007E,
            Instruction::I32x4ExtAddPairwiseI16x8U => 0xFD00007F,
            Instruction::I16x8Abs => 0xFD000080,
            Instruction::I16x8Neg => 0xFD000081,
            Instruction::I16x8Q15MulrSatS => 0xFD000082,
            Instruction::I16x8AllTrue => 0xFD000083,
            Instruction::I16x8Bitmask => 0xFD000084,
            Instruction::I16x8NarrowI32x4S => 0xFD000085,
            Instruction::I16x8NarrowI32x4U => 0xFD000086,
            Instruction::I16x8ExtendLowI8x16S => 0xFD000087,
            Instruction::I16x8ExtendHighI8x16S => 0xFD000088,
            Instruction::I16x8ExtendLowI8x16U => 0xFD000089,
            Instruction::I16x8ExtendHighI8x16U => 0xFD00008A,
            Instruction::I16x8Shl => 0xFD00008B,
            Instruction::I16x8ShrS => 0xFD00008C,
            Instruction::I16x8ShrU => 0xFD00008D,
            Instruction::I16x8Add => 0xFD00008E,
            Instruction::I16x8AddSatS => 0xFD00008F,
            Instruction::I16x8AddSatU => 0xFD000090,
            Instruction::I16x8Sub => 0xFD000091,
            Instruction::I16x8SubSatS => 0xFD000092,
            Instruction::I16x8SubSatU => 0xFD000093,
            Instruction::F64x2Nearest => 0xFD000094,
            Instruction::I16x8Mul => 0xFD000095,
            Instruction::I16x8MinS => 0xFD000096,
            Instruction::I16x8MinU => 0xFD000097,
            Instruction::I16x8MaxS => 0xFD000098,
            Instruction::I16x8MaxU => 0xFD000099,
            Instruction::I16x8AvgrU => 0xFD00009B,
            Instruction::I16x8ExtMulLowI8x16S => 0xFD00009C,
            Instruction::I16x8ExtMulHighI8x16S => 0xFD00009D,
            Instruction::I16x8ExtMulLowI8x16U => 0xFD00009E,
            Instruction::I16x8ExtMulHighI8x16U => 0xFD00009F,
            Instruction::I32x4Abs => 0xFD0000A0,
            Instruction::I32x4Neg => 0xFD0000A1,
            Instruction::I32x4AllTrue => 0xFD0000A3,
            Instruction::I32x4Bitmask => 0xFD0000A4,
            Instruction::I32x4ExtendLowI16x8S => 0xFD0000A7,
            Instruction::I32x4ExtendHighI16x8S => 0xFD0000A8,
            Instruction::I32x4ExtendLowI16x8U => 0xFD0000A9,
            Instruction::I32x4ExtendHighI16x8U => 0xFD0000AA,
            Instruction::I32x4Shl => 0xFD0000AB,
            Instruction::I32x4ShrS => 0xFD0000AC,
            Instruction::I32x4ShrU => 0xFD0000AD,
            Instruction::I32x4Add => 0xFD0000AE,
            Instruction::I32x4Sub => 0xFD0000B1,
            Instruction::I32x4Mul => 0xFD0000B5,
            Instruction::I32x4MinS => 0xFD0000B6,
            Instruction::I32x4MinU => 0xFD0000B7,
            Instruction::I32x4MaxS => 0xFD0000B8,
            Instruction::I32x4MaxU => 0xFD0000B9,
            Instruction::I32x4DotI16x8S => 0xFD0000BA,
            Instruction::I32x4ExtMulLowI16x8S => 0xFD0000BC,
            Instruction::I32x4ExtMulHighI16x8S => 0xFD0000BD,
            Instruction::I32x4ExtMulLowI16x8U => 0xFD0000BE,
            Instruction::I32x4ExtMulHighI16x8U => 0xFD0000BF,
            Instruction::I64x2Abs => 0xFD0000C0,
            Instruction::I64x2Neg => 0xFD0000C1,
            Instruction::I64x2AllTrue => 0xFD0000C3,
            Instruction::I64x2Bitmask => 0xFD0000C4,
            Instruction::I64x2ExtendLowI32x4S => 0xFD0000C7,
            Instruction::I64x2ExtendHighI32x4S => 0xFD0000C8,
            Instruction::I64x2ExtendLowI32x4U => 0xFD0000C9,
            Instruction::I64x2ExtendHighI32x4U => 0xFD0000CA,
            Instruction::I64x2Shl => 0xFD0000CB,
            Instruction::I64x2ShrS => 0xFD0000CC,
            Instruction::I64x2ShrU => 0xFD0000CD,
            Instruction::I64x2Add => 0xFD0000CE,
            Instruction::I64x2Sub => 0xFD0000D1,
            Instruction::I64x2Mul => 0xFD0000D5,
            Instruction::I64x2Eq => 0xFD0000D6,
            Instruction::I64x2Ne => 0xFD0000D7,
            Instruction::I64x2LtS => 0xFD0000D8,
            Instruction::I64x2GtS => 0xFD0000D9,
            Instruction::I64x2LeS => 0xFD0000DA,
            Instruction::I64x2GeS => 0xFD0000DB,
            Instruction::I64x2ExtMulLowI32x4S => 0xFD0000DC,
            Instruction::I64x2ExtMulHighI32x4S => 0xFD0000DD,
            Instruction::I64x2ExtMulLowI32x4U => 0xFD0000DE,
            Instruction::I64x2ExtMulHighI32x4U => 0xFD0000DF,
            Instruction::F32x4Abs => 0xFD0000E0,
            Instruction::F32x4Neg => 0xFD0000E1,
            Instruction::F32x4Sqrt => 0xFD0000E3,
            Instruction::F32x4Add => 0xFD0000E4,
            Instruction::F32x4Sub => 0xFD0000E5,
            Instruction::F32x4Mul => 0xFD0000E6,
            Instruction::F32x4Div => 0xFD0000E7,
            Instruction::F32x4Min => 0xFD0000E8,
            Instruction::F32x4Max => 0xFD0000E9,
            Instruction::F32x4PMin => 0xFD0000EA,
            Instruction::F32x4PMax => 0xFD0000EB,
            Instruction::F64x2Abs => 0xFD0000EC,
            Instruction::F64x2Neg => 0xFD0000ED,
            Instruction::F64x2Sqrt => 0xFD0000EF,
            Instruction::F64x2Add => 0xFD0000F0,
            Instruction::F64x2Sub => 0xFD0000F1,
            Instruction::F64x2Mul => 0xFD0000F2,
            Instruction::F64x2Div => 0xFD0000F3,
            Instruction::F64x2Min => 0xFD0000F4,
            Instruction::F64x2Max => 0xFD0000F5,
            Instruction::F64x2PMin => 0xFD0000F6,
            Instruction::F64x2PMax => 0xFD0000F7,
            Instruction::I32x4TruncSatF32x4S => 0xFD0000F8,
            Instruction::I32x4TruncSatF32x4U => 0xFD0000F9,
            Instruction::F32x4ConvertI32x4S => 0xFD0000FA,
            Instruction::F32x4ConvertI32x4U => 0xFD0000FB,
            Instruction::I32x4TruncSatF64x2SZero => 0xFD0000FC,
            Instruction::I32x4TruncSatF64x2UZero => 0xFD0000FD,
            Instruction::F64x2ConvertLowI32x4S => 0xFD0000FE,
            Instruction::F64x2ConvertLowI32x4U => 0xFD0000FF,
            Instruction::I8x16RelaxedSwizzle => 0xFD000100,
            Instruction::I32x4RelaxedTruncF32x4S => 0xFD000101,
            Instruction::I32x4RelaxedTruncF32x4U => 0xFD000102,
            Instruction::I32x4RelaxedTruncF64x2SZero => 0xFD000103,
            Instruction::I32x4RelaxedTruncF64x2UZero => 0xFD000104,
            Instruction::F32x4RelaxedMadd => 0xFD000105,
            Instruction::F32x4RelaxedNmadd => 0xFD000106,
            Instruction::F64x2RelaxedMadd => 0xFD000107,
            Instruction::F64x2RelaxedNmadd => 0xFD000108,
            Instruction::I8x16RelaxedLaneselect => 0xFD000109,
            Instruction::I16x8RelaxedLaneselect => 0xFD00010A,
            Instruction::I32x4RelaxedLaneselect => 0xFD00010B,
            Instruction::I64x2RelaxedLaneselect => 0xFD00010C,
            Instruction::F32x4RelaxedMin => 0xFD00010D,
            Instruction::F32x4RelaxedMax => 0xFD00010E,
            Instruction::F64x2RelaxedMin => 0xFD00010F,
            Instruction::F64x2RelaxedMax => 0xFD000110,
            Instruction::I16x8RelaxedQ15mulrS => 0xFD000111,
            Instruction::I16x8RelaxedDotI8x16I7x16S => 0xFD000112,
            Instruction::I32x4RelaxedDotI8x16I7x16AddS => 0xFD000113,
            Instruction::MemoryAtomicNotify(..) => 0xFE000000,
            Instruction::MemoryAtomicWait32(..) => 0xFE000001,
            Instruction::MemoryAtomicWait64(..) => 0xFE000002,
            Instruction::AtomicFence(..) => 0xFE000003,
            Instruction::Pause => 0xFE000004,
            Instruction::I32AtomicLoad(..) => 0xFE000010,
            Instruction::I64AtomicLoad(..) => 0xFE000011,
            Instruction::I32AtomicLoad8U(..) => 0xFE000012,
            Instruction::I32AtomicLoad16U(..) => 0xFE000013,
            Instruction::I64AtomicLoad8U(..) => 0xFE000014,
            Instruction::I64AtomicLoad16U(..) => 0xFE000015,
            Instruction::I64AtomicLoad32U(..) => 0xFE000016,
            Instruction::I32AtomicStore(..) => 0xFE000017,
            Instruction::I64AtomicStore(..) => 0xFE000018,
            Instruction::I32AtomicStore8(..) => 0xFE000019,
            Instruction::I32AtomicStore16(..) => 0xFE00001A,
            Instruction::I64AtomicStore8(..) => 0xFE00001B,
            Instruction::I64AtomicStore16(..) => 0xFE00001C,
            Instruction::I64AtomicStore32(..) => 0xFE00001D,
            Instruction::I32AtomicRmwAdd(..) => 0xFE00001E,
            Instruction::I64AtomicRmwAdd(..) => 0xFE00001F,
            Instruction::I32AtomicRmw8AddU(..) => 0xFE000020,
            Instruction::I32AtomicRmw16AddU(..) => 0xFE000021,
            Instruction::I64AtomicRmw8AddU(..) => 0xFE000022,
            Instruction::I64AtomicRmw16AddU(..) => 0xFE000023,
            Instruction::I64AtomicRmw32AddU(..) => 0xFE000024,
            Instruction::I32AtomicRmwSub(..) => 0xFE000025,
            Instruction::I64AtomicRmwSub(..) => 0xFE000026,
            Instruction::I32AtomicRmw8SubU(..) => 0xFE000027,
            Instruction::I32AtomicRmw16SubU(..) => 0xFE000028,
            Instruction::I64AtomicRmw8SubU(..) => 0xFE000029,
            Instruction::I64AtomicRmw16SubU(..) => 0xFE00002A,
            Instruction::I64AtomicRmw32SubU(..) => 0xFE00002B,
            Instruction::I32AtomicRmwAnd(..) => 0xFE00002C,
            Instruction::I64AtomicRmwAnd(..) => 0xFE00002D,
            Instruction::I32AtomicRmw8AndU(..) => 0xFE00002E,
            Instruction::I32AtomicRmw16AndU(..) => 0xFE00002F,
            Instruction::I64AtomicRmw8AndU(..) => 0xFE000030,
            Instruction::I64AtomicRmw16AndU(..) => 0xFE000031,
            Instruction::I64AtomicRmw32AndU(..) => 0xFE000032,
            Instruction::I32AtomicRmwOr(..) => 0xFE000033,
            Instruction::I64AtomicRmwOr(..) => 0xFE000034,
            Instruction::I32AtomicRmw8OrU(..) => 0xFE000035,
            Instruction::I32AtomicRmw16OrU(..) => 0xFE000036,
            Instruction::I64AtomicRmw8OrU(..) => 0xFE000037,
            Instruction::I64AtomicRmw16OrU(..) => 0xFE000038,
            Instruction::I64AtomicRmw32OrU(..) => 0xFE000039,
            Instruction::I32AtomicRmwXor(..) => 0xFE00003A,
            Instruction::I64AtomicRmwXor(..) => 0xFE00003B,
            Instruction::I32AtomicRmw8XorU(..) => 0xFE00003C,
            Instruction::I32AtomicRmw16XorU(..) => 0xFE00003D,
            Instruction::I64AtomicRmw8XorU(..) => 0xFE00003E,
            Instruction::I64AtomicRmw16XorU(..) => 0xFE00003F,
            Instruction::I64AtomicRmw32XorU(..) => 0xFE000040,
            Instruction::I32AtomicRmwXchg(..) => 0xFE000041,
            Instruction::I64AtomicRmwXchg(..) => 0xFE000042,
            Instruction::I32AtomicRmw8XchgU(..) => 0xFE000043,
            Instruction::I32AtomicRmw16XchgU(..) => 0xFE000044,
            Instruction::I64AtomicRmw8XchgU(..) => 0xFE000045,
            Instruction::I64AtomicRmw16XchgU(..) => 0xFE000046,
            Instruction::I64AtomicRmw32XchgU(..) => 0xFE000047,
            Instruction::I32AtomicRmwCmpxchg(..) => 0xFE000048,
            Instruction::I64AtomicRmwCmpxchg(..) => 0xFE000049,
            Instruction::I32AtomicRmw8CmpxchgU(..) => 0xFE00004A,
            Instruction::I32AtomicRmw16CmpxchgU(..) => 0xFE00004B,
            Instruction::I64AtomicRmw8CmpxchgU(..) => 0xFE00004C,
            Instruction::I64AtomicRmw16CmpxchgU(..) => 0xFE00004D,
            Instruction::I64AtomicRmw32CmpxchgU(..) => 0xFE00004E,
            Instruction::GlobalAtomicGet { .. } => 0xFE00004F,
            Instruction::GlobalAtomicSet { .. } => 0xFE000050,
            Instruction::GlobalAtomicRmwAdd { .. } => 0xFE000051,
            Instruction::GlobalAtomicRmwSub { .. } => 0xFE000052,
            Instruction::GlobalAtomicRmwAnd { .. } => 0xFE000053,
            Instruction::GlobalAtomicRmwOr { .. } => 0xFE000054,
            Instruction::GlobalAtomicRmwXor { .. } => 0xFE000055,
            Instruction::GlobalAtomicRmwXchg { .. } => 0xFE000056,
            Instruction::GlobalAtomicRmwCmpxchg { .. } => 0xFE000057,
            Instruction::TableAtomicGet { .. } => 0xFE000058,
            Instruction::TableAtomicSet { .. } => 0xFE000059,
            Instruction::TableAtomicRmwXchg { .. } => 0xFE00005A,
            Instruction::TableAtomicRmwCmpxchg { .. } => 0xFE00005B,
            Instruction::StructAtomicGet { .. } => 0xFE00005C,
            Instruction::StructAtomicGetS { .. } => 0xFE00005D,
            Instruction::StructAtomicGetU { .. } => 0xFE00005E,
            Instruction::StructAtomicSet { .. } => 0xFE00005F,
            Instruction::StructAtomicRmwAdd { .. } => 0xFE000060,
            Instruction::StructAtomicRmwSub { .. } => 0xFE000061,
            Instruction::StructAtomicRmwAnd { .. } => 0xFE000062,
            Instruction::StructAtomicRmwOr { .. } => 0xFE000063,
            Instruction::StructAtomicRmwXor { .. } => 0xFE000064,
            Instruction::StructAtomicRmwXchg { .. } => 0xFE000065,
            Instruction::StructAtomicRmwCmpxchg { .. } => 0xFE000066,
            Instruction::ArrayAtomicGet { .. } => 0xFE000067,
            Instruction::ArrayAtomicGetS { .. } => 0xFE000068,
            Instruction::ArrayAtomicGetU { .. } => 0xFE000069,
            Instruction::ArrayAtomicSet { .. } => 0xFE00006A,
            Instruction::ArrayAtomicRmwAdd { .. } => 0xFE00006B,
            Instruction::ArrayAtomicRmwSub { .. } => 0xFE00006C,
            Instruction::ArrayAtomicRmwAnd { .. } => 0xFE00006D,
            Instruction::ArrayAtomicRmwOr { .. } => 0xFE00006E,
            Instruction::ArrayAtomicRmwXor { .. } => 0xFE00006F,
            Instruction::ArrayAtomicRmwXchg { .. } => 0xFE000070,
            Instruction::ArrayAtomicRmwCmpxchg { .. } => 0xFE000071,
            Instruction::RefI31Shared => 0xFE000072,
        }
    }
}

/// Returns an opcode. The upper byte of the number is the prefix, or 0 for an opcode of one byte.
#[inline]
fn op_of(op: u32) -> Op {
    let [prefix, number @ ..] = op.to_be_bytes();
    if prefix == 0 {
        return Op::Byte(number[2]);
    }
    Op::Prefixed(prefix, op & 0x00FF_FFFF)
}

/// Returns an opcode as one number, or one that no instruction has.
fn number_of(op: Op) -> u32 {
    match op {
        Op::Byte(byte) => u32::from(byte),
        Op::Prefixed(prefix @ 1.., number @ ..0x0100_0000) => u32::from(prefix) << 24 | number,
        Op::Prefixed(..) => u32::MAX,
    }
}

// Each arm of `encode` ends in a jump to one of these functions, and passes its arguments in
// registers. An opcode as one number is an immediate operand of the processor.

/// Appends an opcode.
#[inline(never)]
fn write_op(op: u32, sink: &mut Vec<u8>) {
    match u8::try_from(op) {
        Ok(byte) if sink.len() < sink.capacity() => sink.extend_from_slice(&[byte]),
        _ => append_op(op, sink),
    }
}

/// Appends an opcode, of any number of bytes.
#[inline(never)]
fn append_op(op: u32, sink: &mut Vec<u8>) {
    append(&op_of(op), sink)
}

/// Appends an opcode and its immediates.
#[inline(never)]
fn write<P: Short>(op: u32, parts: P, sink: &mut Vec<u8>) {
    if let Ok(byte) = u8::try_from(op)
        && put_short(sink, [byte], parts)
    {
        return;
    }
    write_long(op, parts, sink)
}

/// Appends an opcode and its immediates, of any number of bytes.
#[inline(never)]
fn write_long<P: Short>(op: u32, parts: P, sink: &mut Vec<u8>) {
    append(&(op_of(op), parts.long()), sink)
}

/// Appends an opcode and the type of a block.
#[inline(never)]
fn write_block(op: u32, block_type: BlockType, sink: &mut Vec<u8>) {
    match block_type {
        BlockType::Empty => write(op, EMPTY_BLOCK, sink),
        BlockType::Result(ty) => write(op, ty, sink),
        BlockType::FunctionType(index) => write(op, i64::from(index), sink),
    }
}

/// Appends an opcode and its immediates, of which one is a list.
#[inline(never)]
fn write_list<T: base::Encode>(op: u32, parts: T, sink: &mut Vec<u8>) {
    append(&(op_of(op), parts), sink)
}

/// Appends the encoding of the proved value, where the fields are not the immediates one by one.
#[inline(never)]
fn write_proved(instruction: &Instruction<'_>, sink: &mut Vec<u8>) {
    let proved: insn::Instruction = match instruction {
        Instruction::BrOnCast { relative_depth: a, from_ref_type: b, to_ref_type: c } => insn::Instruction::BrOnCast { relative_depth: *a, from_ref_type: *b, to_ref_type: *c },
        Instruction::BrOnCastFail { relative_depth: a, from_ref_type: b, to_ref_type: c } => insn::Instruction::BrOnCastFail { relative_depth: *a, from_ref_type: *b, to_ref_type: *c },
        Instruction::BrOnCastDescEq { relative_depth: a, from_ref_type: b, to_ref_type: c } => insn::Instruction::BrOnCastDescEq { relative_depth: *a, from_ref_type: *b, to_ref_type: *c },
        Instruction::BrOnCastDescEqFail { relative_depth: a, from_ref_type: b, to_ref_type: c } => insn::Instruction::BrOnCastDescEqFail { relative_depth: *a, from_ref_type: *b, to_ref_type: *c },
        _ => unreachable!("its fields are its immediates"),
    };
    append(&proved, sink)
}

/// Encodes the opcode and the immediates.
impl Encode for Instruction<'_> {
    fn encode(&self, sink: &mut Vec<u8>) {
        let op = self.op();
        match self {
            Instruction::Unreachable
            | Instruction::Nop
            | Instruction::Else
            | Instruction::ThrowRef
            | Instruction::End
            | Instruction::Return
            | Instruction::CatchAll
            | Instruction::Drop
            | Instruction::Select
            | Instruction::I32Eqz
            | Instruction::I32Eq
            | Instruction::I32Ne
            | Instruction::I32LtS
            | Instruction::I32LtU
            | Instruction::I32GtS
            | Instruction::I32GtU
            | Instruction::I32LeS
            | Instruction::I32LeU
            | Instruction::I32GeS
            | Instruction::I32GeU
            | Instruction::I64Eqz
            | Instruction::I64Eq
            | Instruction::I64Ne
            | Instruction::I64LtS
            | Instruction::I64LtU
            | Instruction::I64GtS
            | Instruction::I64GtU
            | Instruction::I64LeS
            | Instruction::I64LeU
            | Instruction::I64GeS
            | Instruction::I64GeU
            | Instruction::F32Eq
            | Instruction::F32Ne
            | Instruction::F32Lt
            | Instruction::F32Gt
            | Instruction::F32Le
            | Instruction::F32Ge
            | Instruction::F64Eq
            | Instruction::F64Ne
            | Instruction::F64Lt
            | Instruction::F64Gt
            | Instruction::F64Le
            | Instruction::F64Ge
            | Instruction::I32Clz
            | Instruction::I32Ctz
            | Instruction::I32Popcnt
            | Instruction::I32Add
            | Instruction::I32Sub
            | Instruction::I32Mul
            | Instruction::I32DivS
            | Instruction::I32DivU
            | Instruction::I32RemS
            | Instruction::I32RemU
            | Instruction::I32And
            | Instruction::I32Or
            | Instruction::I32Xor
            | Instruction::I32Shl
            | Instruction::I32ShrS
            | Instruction::I32ShrU
            | Instruction::I32Rotl
            | Instruction::I32Rotr
            | Instruction::I64Clz
            | Instruction::I64Ctz
            | Instruction::I64Popcnt
            | Instruction::I64Add
            | Instruction::I64Sub
            | Instruction::I64Mul
            | Instruction::I64DivS
            | Instruction::I64DivU
            | Instruction::I64RemS
            | Instruction::I64RemU
            | Instruction::I64And
            | Instruction::I64Or
            | Instruction::I64Xor
            | Instruction::I64Shl
            | Instruction::I64ShrS
            | Instruction::I64ShrU
            | Instruction::I64Rotl
            | Instruction::I64Rotr
            | Instruction::F32Abs
            | Instruction::F32Neg
            | Instruction::F32Ceil
            | Instruction::F32Floor
            | Instruction::F32Trunc
            | Instruction::F32Nearest
            | Instruction::F32Sqrt
            | Instruction::F32Add
            | Instruction::F32Sub
            | Instruction::F32Mul
            | Instruction::F32Div
            | Instruction::F32Min
            | Instruction::F32Max
            | Instruction::F32Copysign
            | Instruction::F64Abs
            | Instruction::F64Neg
            | Instruction::F64Ceil
            | Instruction::F64Floor
            | Instruction::F64Trunc
            | Instruction::F64Nearest
            | Instruction::F64Sqrt
            | Instruction::F64Add
            | Instruction::F64Sub
            | Instruction::F64Mul
            | Instruction::F64Div
            | Instruction::F64Min
            | Instruction::F64Max
            | Instruction::F64Copysign
            | Instruction::I32WrapI64
            | Instruction::I32TruncF32S
            | Instruction::I32TruncF32U
            | Instruction::I32TruncF64S
            | Instruction::I32TruncF64U
            | Instruction::I64ExtendI32S
            | Instruction::I64ExtendI32U
            | Instruction::I64TruncF32S
            | Instruction::I64TruncF32U
            | Instruction::I64TruncF64S
            | Instruction::I64TruncF64U
            | Instruction::F32ConvertI32S
            | Instruction::F32ConvertI32U
            | Instruction::F32ConvertI64S
            | Instruction::F32ConvertI64U
            | Instruction::F32DemoteF64
            | Instruction::F64ConvertI32S
            | Instruction::F64ConvertI32U
            | Instruction::F64ConvertI64S
            | Instruction::F64ConvertI64U
            | Instruction::F64PromoteF32
            | Instruction::I32ReinterpretF32
            | Instruction::I64ReinterpretF64
            | Instruction::F32ReinterpretI32
            | Instruction::F64ReinterpretI64
            | Instruction::I32Extend8S
            | Instruction::I32Extend16S
            | Instruction::I64Extend8S
            | Instruction::I64Extend16S
            | Instruction::I64Extend32S
            | Instruction::RefIsNull
            | Instruction::RefEq
            | Instruction::RefAsNonNull
            | Instruction::ArrayLen
            | Instruction::AnyConvertExtern
            | Instruction::ExternConvertAny
            | Instruction::RefI31
            | Instruction::I31GetS
            | Instruction::I31GetU
            | Instruction::I32TruncSatF32S
            | Instruction::I32TruncSatF32U
            | Instruction::I32TruncSatF64S
            | Instruction::I32TruncSatF64U
            | Instruction::I64TruncSatF32S
            | Instruction::I64TruncSatF32U
            | Instruction::I64TruncSatF64S
            | Instruction::I64TruncSatF64U
            | Instruction::I64Add128
            | Instruction::I64Sub128
            | Instruction::I64MulWideS
            | Instruction::I64MulWideU
            | Instruction::I8x16Swizzle
            | Instruction::I8x16Splat
            | Instruction::I16x8Splat
            | Instruction::I32x4Splat
            | Instruction::I64x2Splat
            | Instruction::F32x4Splat
            | Instruction::F64x2Splat
            | Instruction::I8x16Eq
            | Instruction::I8x16Ne
            | Instruction::I8x16LtS
            | Instruction::I8x16LtU
            | Instruction::I8x16GtS
            | Instruction::I8x16GtU
            | Instruction::I8x16LeS
            | Instruction::I8x16LeU
            | Instruction::I8x16GeS
            | Instruction::I8x16GeU
            | Instruction::I16x8Eq
            | Instruction::I16x8Ne
            | Instruction::I16x8LtS
            | Instruction::I16x8LtU
            | Instruction::I16x8GtS
            | Instruction::I16x8GtU
            | Instruction::I16x8LeS
            | Instruction::I16x8LeU
            | Instruction::I16x8GeS
            | Instruction::I16x8GeU
            | Instruction::I32x4Eq
            | Instruction::I32x4Ne
            | Instruction::I32x4LtS
            | Instruction::I32x4LtU
            | Instruction::I32x4GtS
            | Instruction::I32x4GtU
            | Instruction::I32x4LeS
            | Instruction::I32x4LeU
            | Instruction::I32x4GeS
            | Instruction::I32x4GeU
            | Instruction::F32x4Eq
            | Instruction::F32x4Ne
            | Instruction::F32x4Lt
            | Instruction::F32x4Gt
            | Instruction::F32x4Le
            | Instruction::F32x4Ge
            | Instruction::F64x2Eq
            | Instruction::F64x2Ne
            | Instruction::F64x2Lt
            | Instruction::F64x2Gt
            | Instruction::F64x2Le
            | Instruction::F64x2Ge
            | Instruction::V128Not
            | Instruction::V128And
            | Instruction::V128AndNot
            | Instruction::V128Or
            | Instruction::V128Xor
            | Instruction::V128Bitselect
            | Instruction::V128AnyTrue
            | Instruction::F32x4DemoteF64x2Zero
            | Instruction::F64x2PromoteLowF32x4
            | Instruction::I8x16Abs
            | Instruction::I8x16Neg
            | Instruction::I8x16Popcnt
            | Instruction::I8x16AllTrue
            | Instruction::I8x16Bitmask
            | Instruction::I8x16NarrowI16x8S
            | Instruction::I8x16NarrowI16x8U
            | Instruction::F32x4Ceil
            | Instruction::F32x4Floor
            | Instruction::F32x4Trunc
            | Instruction::F32x4Nearest
            | Instruction::I8x16Shl
            | Instruction::I8x16ShrS
            | Instruction::I8x16ShrU
            | Instruction::I8x16Add
            | Instruction::I8x16AddSatS
            | Instruction::I8x16AddSatU
            | Instruction::I8x16Sub
            | Instruction::I8x16SubSatS
            | Instruction::I8x16SubSatU
            | Instruction::F64x2Ceil
            | Instruction::F64x2Floor
            | Instruction::I8x16MinS
            | Instruction::I8x16MinU
            | Instruction::I8x16MaxS
            | Instruction::I8x16MaxU
            | Instruction::F64x2Trunc
            | Instruction::I8x16AvgrU
            | Instruction::I16x8ExtAddPairwiseI8x16S
            | Instruction::I16x8ExtAddPairwiseI8x16U
            | Instruction::I32x4ExtAddPairwiseI16x8S
            | Instruction::I32x4ExtAddPairwiseI16x8U
            | Instruction::I16x8Abs
            | Instruction::I16x8Neg
            | Instruction::I16x8Q15MulrSatS
            | Instruction::I16x8AllTrue
            | Instruction::I16x8Bitmask
            | Instruction::I16x8NarrowI32x4S
            | Instruction::I16x8NarrowI32x4U
            | Instruction::I16x8ExtendLowI8x16S
            | Instruction::I16x8ExtendHighI8x16S
            | Instruction::I16x8ExtendLowI8x16U
            | Instruction::I16x8ExtendHighI8x16U
            | Instruction::I16x8Shl
            | Instruction::I16x8ShrS
            | Instruction::I16x8ShrU
            | Instruction::I16x8Add
            | Instruction::I16x8AddSatS
            | Instruction::I16x8AddSatU
            | Instruction::I16x8Sub
            | Instruction::I16x8SubSatS
            | Instruction::I16x8SubSatU
            | Instruction::F64x2Nearest
            | Instruction::I16x8Mul
            | Instruction::I16x8MinS
            | Instruction::I16x8MinU
            | Instruction::I16x8MaxS
            | Instruction::I16x8MaxU
            | Instruction::I16x8AvgrU
            | Instruction::I16x8ExtMulLowI8x16S
            | Instruction::I16x8ExtMulHighI8x16S
            | Instruction::I16x8ExtMulLowI8x16U
            | Instruction::I16x8ExtMulHighI8x16U
            | Instruction::I32x4Abs
            | Instruction::I32x4Neg
            | Instruction::I32x4AllTrue
            | Instruction::I32x4Bitmask
            | Instruction::I32x4ExtendLowI16x8S
            | Instruction::I32x4ExtendHighI16x8S
            | Instruction::I32x4ExtendLowI16x8U
            | Instruction::I32x4ExtendHighI16x8U
            | Instruction::I32x4Shl
            | Instruction::I32x4ShrS
            | Instruction::I32x4ShrU
            | Instruction::I32x4Add
            | Instruction::I32x4Sub
            | Instruction::I32x4Mul
            | Instruction::I32x4MinS
            | Instruction::I32x4MinU
            | Instruction::I32x4MaxS
            | Instruction::I32x4MaxU
            | Instruction::I32x4DotI16x8S
            | Instruction::I32x4ExtMulLowI16x8S
            | Instruction::I32x4ExtMulHighI16x8S
            | Instruction::I32x4ExtMulLowI16x8U
            | Instruction::I32x4ExtMulHighI16x8U
            | Instruction::I64x2Abs
            | Instruction::I64x2Neg
            | Instruction::I64x2AllTrue
            | Instruction::I64x2Bitmask
            | Instruction::I64x2ExtendLowI32x4S
            | Instruction::I64x2ExtendHighI32x4S
            | Instruction::I64x2ExtendLowI32x4U
            | Instruction::I64x2ExtendHighI32x4U
            | Instruction::I64x2Shl
            | Instruction::I64x2ShrS
            | Instruction::I64x2ShrU
            | Instruction::I64x2Add
            | Instruction::I64x2Sub
            | Instruction::I64x2Mul
            | Instruction::I64x2Eq
            | Instruction::I64x2Ne
            | Instruction::I64x2LtS
            | Instruction::I64x2GtS
            | Instruction::I64x2LeS
            | Instruction::I64x2GeS
            | Instruction::I64x2ExtMulLowI32x4S
            | Instruction::I64x2ExtMulHighI32x4S
            | Instruction::I64x2ExtMulLowI32x4U
            | Instruction::I64x2ExtMulHighI32x4U
            | Instruction::F32x4Abs
            | Instruction::F32x4Neg
            | Instruction::F32x4Sqrt
            | Instruction::F32x4Add
            | Instruction::F32x4Sub
            | Instruction::F32x4Mul
            | Instruction::F32x4Div
            | Instruction::F32x4Min
            | Instruction::F32x4Max
            | Instruction::F32x4PMin
            | Instruction::F32x4PMax
            | Instruction::F64x2Abs
            | Instruction::F64x2Neg
            | Instruction::F64x2Sqrt
            | Instruction::F64x2Add
            | Instruction::F64x2Sub
            | Instruction::F64x2Mul
            | Instruction::F64x2Div
            | Instruction::F64x2Min
            | Instruction::F64x2Max
            | Instruction::F64x2PMin
            | Instruction::F64x2PMax
            | Instruction::I32x4TruncSatF32x4S
            | Instruction::I32x4TruncSatF32x4U
            | Instruction::F32x4ConvertI32x4S
            | Instruction::F32x4ConvertI32x4U
            | Instruction::I32x4TruncSatF64x2SZero
            | Instruction::I32x4TruncSatF64x2UZero
            | Instruction::F64x2ConvertLowI32x4S
            | Instruction::F64x2ConvertLowI32x4U
            | Instruction::I8x16RelaxedSwizzle
            | Instruction::I32x4RelaxedTruncF32x4S
            | Instruction::I32x4RelaxedTruncF32x4U
            | Instruction::I32x4RelaxedTruncF64x2SZero
            | Instruction::I32x4RelaxedTruncF64x2UZero
            | Instruction::F32x4RelaxedMadd
            | Instruction::F32x4RelaxedNmadd
            | Instruction::F64x2RelaxedMadd
            | Instruction::F64x2RelaxedNmadd
            | Instruction::I8x16RelaxedLaneselect
            | Instruction::I16x8RelaxedLaneselect
            | Instruction::I32x4RelaxedLaneselect
            | Instruction::I64x2RelaxedLaneselect
            | Instruction::F32x4RelaxedMin
            | Instruction::F32x4RelaxedMax
            | Instruction::F64x2RelaxedMin
            | Instruction::F64x2RelaxedMax
            | Instruction::I16x8RelaxedQ15mulrS
            | Instruction::I16x8RelaxedDotI8x16I7x16S
            | Instruction::I32x4RelaxedDotI8x16I7x16AddS
            | Instruction::Pause
            | Instruction::RefI31Shared => write_op(op, sink),
            Instruction::Block(a)
            | Instruction::Loop(a)
            | Instruction::If(a)
            | Instruction::Try(a) => write_block(op, *a, sink),
            Instruction::Catch(a)
            | Instruction::Throw(a)
            | Instruction::Rethrow(a)
            | Instruction::Br(a)
            | Instruction::BrIf(a)
            | Instruction::Call(a)
            | Instruction::ReturnCall(a)
            | Instruction::CallRef(a)
            | Instruction::ReturnCallRef(a)
            | Instruction::Delegate(a)
            | Instruction::LocalGet(a)
            | Instruction::LocalSet(a)
            | Instruction::LocalTee(a)
            | Instruction::GlobalGet(a)
            | Instruction::GlobalSet(a)
            | Instruction::TableGet(a)
            | Instruction::TableSet(a)
            | Instruction::MemorySize(a)
            | Instruction::MemoryGrow(a)
            | Instruction::RefFunc(a)
            | Instruction::BrOnNull(a)
            | Instruction::BrOnNonNull(a)
            | Instruction::ContNew(a)
            | Instruction::Suspend(a)
            | Instruction::StructNew(a)
            | Instruction::StructNewDefault(a)
            | Instruction::ArrayNew(a)
            | Instruction::ArrayNewDefault(a)
            | Instruction::ArrayGet(a)
            | Instruction::ArrayGetS(a)
            | Instruction::ArrayGetU(a)
            | Instruction::ArraySet(a)
            | Instruction::ArrayFill(a)
            | Instruction::StructNewDesc(a)
            | Instruction::StructNewDefaultDesc(a)
            | Instruction::RefGetDesc(a)
            | Instruction::DataDrop(a)
            | Instruction::MemoryFill(a)
            | Instruction::ElemDrop(a)
            | Instruction::TableGrow(a)
            | Instruction::TableSize(a)
            | Instruction::TableFill(a)
            | Instruction::MemoryDiscard(a) => write(op, *a, sink),
            Instruction::BrTable(a, b) => write_list(op, (&**a, *b), sink),
            Instruction::CallIndirect { type_index: a, table_index: b }
            | Instruction::ReturnCallIndirect { type_index: a, table_index: b }
            | Instruction::ContBind { argument_index: a, result_index: b }
            | Instruction::Switch { cont_type_index: a, tag_index: b }
            | Instruction::StructGet { struct_type_index: a, field_index: b }
            | Instruction::StructGetS { struct_type_index: a, field_index: b }
            | Instruction::StructGetU { struct_type_index: a, field_index: b }
            | Instruction::StructSet { struct_type_index: a, field_index: b }
            | Instruction::ArrayNewFixed { array_type_index: a, array_size: b }
            | Instruction::ArrayNewData { array_type_index: a, array_data_index: b }
            | Instruction::ArrayNewElem { array_type_index: a, array_elem_index: b }
            | Instruction::ArrayCopy { array_type_index_dst: a, array_type_index_src: b }
            | Instruction::ArrayInitData { array_type_index: a, array_data_index: b }
            | Instruction::ArrayInitElem { array_type_index: a, array_elem_index: b }
            | Instruction::MemoryInit { data_index: a, mem: b }
            | Instruction::MemoryCopy { dst_mem: a, src_mem: b }
            | Instruction::TableInit { elem_index: a, table: b }
            | Instruction::TableCopy { dst_table: a, src_table: b } => write(op, (*a, *b), sink),
            Instruction::TypedSelect(a) => write(op, (1, *a), sink),
            Instruction::TypedSelectMulti(a) => write_list(op, &**a, sink),
            Instruction::TryTable(a, b) => write_list(op, (Lent(a), &**b), sink),
            Instruction::I32Load(a)
            | Instruction::I64Load(a)
            | Instruction::F32Load(a)
            | Instruction::F64Load(a)
            | Instruction::I32Load8S(a)
            | Instruction::I32Load8U(a)
            | Instruction::I32Load16S(a)
            | Instruction::I32Load16U(a)
            | Instruction::I64Load8S(a)
            | Instruction::I64Load8U(a)
            | Instruction::I64Load16S(a)
            | Instruction::I64Load16U(a)
            | Instruction::I64Load32S(a)
            | Instruction::I64Load32U(a)
            | Instruction::I32Store(a)
            | Instruction::I64Store(a)
            | Instruction::F32Store(a)
            | Instruction::F64Store(a)
            | Instruction::I32Store8(a)
            | Instruction::I32Store16(a)
            | Instruction::I64Store8(a)
            | Instruction::I64Store16(a)
            | Instruction::I64Store32(a)
            | Instruction::V128Load(a)
            | Instruction::V128Load8x8S(a)
            | Instruction::V128Load8x8U(a)
            | Instruction::V128Load16x4S(a)
            | Instruction::V128Load16x4U(a)
            | Instruction::V128Load32x2S(a)
            | Instruction::V128Load32x2U(a)
            | Instruction::V128Load8Splat(a)
            | Instruction::V128Load16Splat(a)
            | Instruction::V128Load32Splat(a)
            | Instruction::V128Load64Splat(a)
            | Instruction::V128Store(a)
            | Instruction::V128Load32Zero(a)
            | Instruction::V128Load64Zero(a)
            | Instruction::MemoryAtomicNotify(a)
            | Instruction::MemoryAtomicWait32(a)
            | Instruction::MemoryAtomicWait64(a)
            | Instruction::I32AtomicLoad(a)
            | Instruction::I64AtomicLoad(a)
            | Instruction::I32AtomicLoad8U(a)
            | Instruction::I32AtomicLoad16U(a)
            | Instruction::I64AtomicLoad8U(a)
            | Instruction::I64AtomicLoad16U(a)
            | Instruction::I64AtomicLoad32U(a)
            | Instruction::I32AtomicStore(a)
            | Instruction::I64AtomicStore(a)
            | Instruction::I32AtomicStore8(a)
            | Instruction::I32AtomicStore16(a)
            | Instruction::I64AtomicStore8(a)
            | Instruction::I64AtomicStore16(a)
            | Instruction::I64AtomicStore32(a)
            | Instruction::I32AtomicRmwAdd(a)
            | Instruction::I64AtomicRmwAdd(a)
            | Instruction::I32AtomicRmw8AddU(a)
            | Instruction::I32AtomicRmw16AddU(a)
            | Instruction::I64AtomicRmw8AddU(a)
            | Instruction::I64AtomicRmw16AddU(a)
            | Instruction::I64AtomicRmw32AddU(a)
            | Instruction::I32AtomicRmwSub(a)
            | Instruction::I64AtomicRmwSub(a)
            | Instruction::I32AtomicRmw8SubU(a)
            | Instruction::I32AtomicRmw16SubU(a)
            | Instruction::I64AtomicRmw8SubU(a)
            | Instruction::I64AtomicRmw16SubU(a)
            | Instruction::I64AtomicRmw32SubU(a)
            | Instruction::I32AtomicRmwAnd(a)
            | Instruction::I64AtomicRmwAnd(a)
            | Instruction::I32AtomicRmw8AndU(a)
            | Instruction::I32AtomicRmw16AndU(a)
            | Instruction::I64AtomicRmw8AndU(a)
            | Instruction::I64AtomicRmw16AndU(a)
            | Instruction::I64AtomicRmw32AndU(a)
            | Instruction::I32AtomicRmwOr(a)
            | Instruction::I64AtomicRmwOr(a)
            | Instruction::I32AtomicRmw8OrU(a)
            | Instruction::I32AtomicRmw16OrU(a)
            | Instruction::I64AtomicRmw8OrU(a)
            | Instruction::I64AtomicRmw16OrU(a)
            | Instruction::I64AtomicRmw32OrU(a)
            | Instruction::I32AtomicRmwXor(a)
            | Instruction::I64AtomicRmwXor(a)
            | Instruction::I32AtomicRmw8XorU(a)
            | Instruction::I32AtomicRmw16XorU(a)
            | Instruction::I64AtomicRmw8XorU(a)
            | Instruction::I64AtomicRmw16XorU(a)
            | Instruction::I64AtomicRmw32XorU(a)
            | Instruction::I32AtomicRmwXchg(a)
            | Instruction::I64AtomicRmwXchg(a)
            | Instruction::I32AtomicRmw8XchgU(a)
            | Instruction::I32AtomicRmw16XchgU(a)
            | Instruction::I64AtomicRmw8XchgU(a)
            | Instruction::I64AtomicRmw16XchgU(a)
            | Instruction::I64AtomicRmw32XchgU(a)
            | Instruction::I32AtomicRmwCmpxchg(a)
            | Instruction::I64AtomicRmwCmpxchg(a)
            | Instruction::I32AtomicRmw8CmpxchgU(a)
            | Instruction::I32AtomicRmw16CmpxchgU(a)
            | Instruction::I64AtomicRmw8CmpxchgU(a)
            | Instruction::I64AtomicRmw16CmpxchgU(a)
            | Instruction::I64AtomicRmw32CmpxchgU(a) => write(op, a, sink),
            Instruction::I32Const(a) => write(op, *a, sink),
            Instruction::I64Const(a) => write(op, *a, sink),
            Instruction::F32Const(a) => write(op, *a, sink),
            Instruction::F64Const(a) => write(op, *a, sink),
            Instruction::RefNull(a)
            | Instruction::RefTestNonNull(a)
            | Instruction::RefTestNullable(a)
            | Instruction::RefCastNonNull(a)
            | Instruction::RefCastNullable(a)
            | Instruction::RefCastDescEqNonNull(a)
            | Instruction::RefCastDescEqNullable(a) => write(op, *a, sink),
            Instruction::Resume { cont_type_index: a, resume_table: b }
            | Instruction::ResumeThrowRef { cont_type_index: a, resume_table: b } => write_list(op, (*a, &**b), sink),
            Instruction::ResumeThrow { cont_type_index: a, tag_index: b, resume_table: c } => write_list(op, (*a, *b, &**c), sink),
            Instruction::BrOnCast { .. }
            | Instruction::BrOnCastFail { .. }
            | Instruction::BrOnCastDescEq { .. }
            | Instruction::BrOnCastDescEqFail { .. } => write_proved(self, sink),
            Instruction::V128Const(a) => write(op, a.to_le_bytes(), sink),
            Instruction::I8x16Shuffle(a) => write(op, *a, sink),
            Instruction::I8x16ExtractLaneS(a)
            | Instruction::I8x16ExtractLaneU(a)
            | Instruction::I8x16ReplaceLane(a)
            | Instruction::I16x8ExtractLaneS(a)
            | Instruction::I16x8ExtractLaneU(a)
            | Instruction::I16x8ReplaceLane(a)
            | Instruction::I32x4ExtractLane(a)
            | Instruction::I32x4ReplaceLane(a)
            | Instruction::I64x2ExtractLane(a)
            | Instruction::I64x2ReplaceLane(a)
            | Instruction::F32x4ExtractLane(a)
            | Instruction::F32x4ReplaceLane(a)
            | Instruction::F64x2ExtractLane(a)
            | Instruction::F64x2ReplaceLane(a) => write(op, *a, sink),
            Instruction::V128Load8Lane { memarg: a, lane: b }
            | Instruction::V128Load16Lane { memarg: a, lane: b }
            | Instruction::V128Load32Lane { memarg: a, lane: b }
            | Instruction::V128Load64Lane { memarg: a, lane: b }
            | Instruction::V128Store8Lane { memarg: a, lane: b }
            | Instruction::V128Store16Lane { memarg: a, lane: b }
            | Instruction::V128Store32Lane { memarg: a, lane: b }
            | Instruction::V128Store64Lane { memarg: a, lane: b } => write(op, (a, *b), sink),
            Instruction::AtomicFence(a) => write(op, *a, sink),
            Instruction::GlobalAtomicGet { ordering: a, global_index: b }
            | Instruction::GlobalAtomicSet { ordering: a, global_index: b }
            | Instruction::GlobalAtomicRmwAdd { ordering: a, global_index: b }
            | Instruction::GlobalAtomicRmwSub { ordering: a, global_index: b }
            | Instruction::GlobalAtomicRmwAnd { ordering: a, global_index: b }
            | Instruction::GlobalAtomicRmwOr { ordering: a, global_index: b }
            | Instruction::GlobalAtomicRmwXor { ordering: a, global_index: b }
            | Instruction::GlobalAtomicRmwXchg { ordering: a, global_index: b }
            | Instruction::GlobalAtomicRmwCmpxchg { ordering: a, global_index: b }
            | Instruction::TableAtomicGet { ordering: a, table_index: b }
            | Instruction::TableAtomicSet { ordering: a, table_index: b }
            | Instruction::TableAtomicRmwXchg { ordering: a, table_index: b }
            | Instruction::TableAtomicRmwCmpxchg { ordering: a, table_index: b }
            | Instruction::ArrayAtomicGet { ordering: a, array_type_index: b }
            | Instruction::ArrayAtomicGetS { ordering: a, array_type_index: b }
            | Instruction::ArrayAtomicGetU { ordering: a, array_type_index: b }
            | Instruction::ArrayAtomicSet { ordering: a, array_type_index: b }
            | Instruction::ArrayAtomicRmwAdd { ordering: a, array_type_index: b }
            | Instruction::ArrayAtomicRmwSub { ordering: a, array_type_index: b }
            | Instruction::ArrayAtomicRmwAnd { ordering: a, array_type_index: b }
            | Instruction::ArrayAtomicRmwOr { ordering: a, array_type_index: b }
            | Instruction::ArrayAtomicRmwXor { ordering: a, array_type_index: b }
            | Instruction::ArrayAtomicRmwXchg { ordering: a, array_type_index: b }
            | Instruction::ArrayAtomicRmwCmpxchg { ordering: a, array_type_index: b } => write(op, (*a, *b), sink),
            Instruction::StructAtomicGet { ordering: a, struct_type_index: b, field_index: c }
            | Instruction::StructAtomicGetS { ordering: a, struct_type_index: b, field_index: c }
            | Instruction::StructAtomicGetU { ordering: a, struct_type_index: b, field_index: c }
            | Instruction::StructAtomicSet { ordering: a, struct_type_index: b, field_index: c }
            | Instruction::StructAtomicRmwAdd { ordering: a, struct_type_index: b, field_index: c }
            | Instruction::StructAtomicRmwSub { ordering: a, struct_type_index: b, field_index: c }
            | Instruction::StructAtomicRmwAnd { ordering: a, struct_type_index: b, field_index: c }
            | Instruction::StructAtomicRmwOr { ordering: a, struct_type_index: b, field_index: c }
            | Instruction::StructAtomicRmwXor { ordering: a, struct_type_index: b, field_index: c }
            | Instruction::StructAtomicRmwXchg { ordering: a, struct_type_index: b, field_index: c }
            | Instruction::StructAtomicRmwCmpxchg { ordering: a, struct_type_index: b, field_index: c } => write(op, (*a, *b, *c), sink),
        }
    }
}
