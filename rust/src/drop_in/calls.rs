// Written by tools/drop-in from tools/instructions.tsv: change that.
//! The named calls of `InstructionSink`, one for each instruction.

use super::InstructionSink;
use crate::base::{HeapType, RefType, ValType};
use crate::insn::{self, BlockType, Catch, Handle, Ieee32, Ieee64, Lane, MemArg, Ordering};

impl InstructionSink<'_> {
    /// Appends `unreachable` (opcode 0x00), a control instruction that traps.
    ///
    /// [`Instruction::Unreachable`](super::Instruction::Unreachable) is the same instruction as a value.
    /// The proved [`unreachable`](insn::InstructionSink::unreachable) of `fallible` encodes the same.
    pub fn unreachable(&mut self) -> &mut Self {
        self.put([0x00], [])
    }

    /// Appends `nop` (opcode 0x01), a control instruction that does nothing.
    ///
    /// [`Instruction::Nop`](super::Instruction::Nop) is the same instruction as a value.
    /// The proved [`nop`](insn::InstructionSink::nop) of `fallible` encodes the same.
    pub fn nop(&mut self) -> &mut Self {
        self.put([0x01], [])
    }

    /// Appends `block` (opcode 0x02), a control instruction that begins a block, with its label at the end.
    ///
    /// [`Instruction::Block`](super::Instruction::Block) is the same instruction as a value.
    /// The proved [`block`](insn::InstructionSink::block) of `fallible` encodes the same.
    pub fn block(&mut self, block_type: BlockType) -> &mut Self {
        self.block_type(0x02, block_type)
    }

    /// Appends `loop` (opcode 0x03), a control instruction that begins a block, with its label at the start.
    ///
    /// [`Instruction::Loop`](super::Instruction::Loop) is the same instruction as a value.
    /// The proved [`loop_`](insn::InstructionSink::loop_) of `fallible` encodes the same.
    pub fn loop_(&mut self, block_type: BlockType) -> &mut Self {
        self.block_type(0x03, block_type)
    }

    /// Appends `if` (opcode 0x04), a control instruction that begins a block that is executed if the operand is not zero.
    ///
    /// [`Instruction::If`](super::Instruction::If) is the same instruction as a value.
    /// The proved [`if_`](insn::InstructionSink::if_) of `fallible` encodes the same.
    pub fn if_(&mut self, block_type: BlockType) -> &mut Self {
        self.block_type(0x04, block_type)
    }

    /// Appends `else` (opcode 0x05), a delimiter of control instructions that begins the branch of an `if` for zero.
    ///
    /// [`Instruction::Else`](super::Instruction::Else) is the same instruction as a value.
    /// The proved [`else_`](insn::InstructionSink::else_) of `fallible` encodes the same.
    pub fn else_(&mut self) -> &mut Self {
        self.put([0x05], [])
    }

    /// Appends `try` (opcode 0x06), a control instruction of the legacy exception handling proposal that begins a block with handlers of exceptions.
    ///
    /// [`Instruction::Try`](super::Instruction::Try) is the same instruction as a value.
    pub fn try_(&mut self, block_type: BlockType) -> &mut Self {
        self.block_type(0x06, block_type)
    }

    /// Appends `catch` (opcode 0x07), a control instruction of the legacy exception handling proposal that begins the handler of exceptions with a tag.
    ///
    /// [`Instruction::Catch`](super::Instruction::Catch) is the same instruction as a value.
    pub fn catch(&mut self, tag_index: u32) -> &mut Self {
        self.put([0x07], tag_index)
    }

    /// Appends `throw` (opcode 0x08), a control instruction that throws an exception with a tag.
    ///
    /// [`Instruction::Throw`](super::Instruction::Throw) is the same instruction as a value.
    pub fn throw(&mut self, tag_index: u32) -> &mut Self {
        self.put([0x08], tag_index)
    }

    /// Appends `rethrow` (opcode 0x09), a control instruction of the legacy exception handling proposal that throws a caught exception again.
    ///
    /// [`Instruction::Rethrow`](super::Instruction::Rethrow) is the same instruction as a value.
    pub fn rethrow(&mut self, label: u32) -> &mut Self {
        self.put([0x09], label)
    }

    /// Appends `throw_ref` (opcode 0x0A), a control instruction that throws the exception of a reference.
    ///
    /// [`Instruction::ThrowRef`](super::Instruction::ThrowRef) is the same instruction as a value.
    pub fn throw_ref(&mut self) -> &mut Self {
        self.put([0x0A], [])
    }

    /// Appends `end` (opcode 0x0B), a delimiter of control instructions and expressions that ends a block, a body or a constant expression.
    ///
    /// [`Instruction::End`](super::Instruction::End) is the same instruction as a value.
    /// The proved [`end`](insn::InstructionSink::end) of `fallible` encodes the same.
    pub fn end(&mut self) -> &mut Self {
        self.put_here([0x0B], [])
    }

    /// Appends `br` (opcode 0x0C), a control instruction that branches to a label.
    ///
    /// [`Instruction::Br`](super::Instruction::Br) is the same instruction as a value.
    /// The proved [`br`](insn::InstructionSink::br) of `fallible` encodes the same.
    pub fn br(&mut self, label: u32) -> &mut Self {
        self.put_here([0x0C], label)
    }

    /// Appends `br_if` (opcode 0x0D), a control instruction that branches to a label if the operand is not zero.
    ///
    /// [`Instruction::BrIf`](super::Instruction::BrIf) is the same instruction as a value.
    /// The proved [`br_if`](insn::InstructionSink::br_if) of `fallible` encodes the same.
    pub fn br_if(&mut self, label: u32) -> &mut Self {
        self.put_here([0x0D], label)
    }

    /// Appends `br_table` (opcode 0x0E), a control instruction that branches to one of several labels, selected by an index.
    ///
    /// [`Instruction::BrTable`](super::Instruction::BrTable) is the same instruction as a value.
    ///
    /// ```
    /// use dolzhytik::InstructionSink;
    ///
    /// let mut bytes = Vec::new();
    /// InstructionSink::new(&mut bytes).br_table([0, 1], 2);
    /// // Two labels, 0 and 1, and the default label, 2.
    /// assert_eq!(bytes, [0x0E, 2, 0, 1, 2]);
    /// ```
    ///
    /// # Panics
    ///
    /// Panics if the list has more than 4294967295 items.
    pub fn br_table<V: IntoIterator<Item = u32>>(&mut self, labels: V, default: u32) -> &mut Self
    where
        V::IntoIter: ExactSizeIterator,
    {
        self.listed([0x0E], labels).put([], default)
    }

    /// Appends `return` (opcode 0x0F), a control instruction that returns from the function.
    ///
    /// [`Instruction::Return`](super::Instruction::Return) is the same instruction as a value.
    /// The proved [`return_`](insn::InstructionSink::return_) of `fallible` encodes the same.
    pub fn return_(&mut self) -> &mut Self {
        self.put_here([0x0F], [])
    }

    /// Appends `call` (opcode 0x10), a control instruction that calls a function.
    ///
    /// Imported functions have the first indices: see [`ImportSection`](super::ImportSection).
    ///
    /// [`Instruction::Call`](super::Instruction::Call) is the same instruction as a value.
    /// The proved [`call`](insn::InstructionSink::call) of `fallible` encodes the same.
    pub fn call(&mut self, function_index: u32) -> &mut Self {
        self.put_here([0x10], function_index)
    }

    /// Appends `call_indirect` (opcode 0x11), a control instruction that calls a function of a table.
    ///
    /// [`Instruction::CallIndirect`](super::Instruction::CallIndirect) is the same instruction as a value.
    /// The proved [`call_indirect`](insn::InstructionSink::call_indirect) of `fallible` encodes the same.
    /// The encoding has `type_index` before `table_index`.
    ///
    /// ```
    /// use dolzhytik::InstructionSink;
    ///
    /// let mut bytes = Vec::new();
    /// InstructionSink::new(&mut bytes).call_indirect(2, 1);
    /// // Type 1, and then table 2.
    /// assert_eq!(bytes, [0x11, 1, 2]);
    /// ```
    pub fn call_indirect(&mut self, table_index: u32, type_index: u32) -> &mut Self {
        self.put([0x11], (type_index, table_index))
    }

    /// Appends `return_call` (opcode 0x12), a control instruction that calls a function, and returns its results.
    ///
    /// Imported functions have the first indices: see [`ImportSection`](super::ImportSection).
    ///
    /// [`Instruction::ReturnCall`](super::Instruction::ReturnCall) is the same instruction as a value.
    pub fn return_call(&mut self, function_index: u32) -> &mut Self {
        self.put([0x12], function_index)
    }

    /// Appends `return_call_indirect` (opcode 0x13), a control instruction that calls a function of a table, and returns its results.
    ///
    /// [`Instruction::ReturnCallIndirect`](super::Instruction::ReturnCallIndirect) is the same instruction as a value.
    /// The encoding has `type_index` before `table_index`.
    pub fn return_call_indirect(&mut self, table_index: u32, type_index: u32) -> &mut Self {
        self.put([0x13], (type_index, table_index))
    }

    /// Appends `call_ref` (opcode 0x14), a control instruction that calls the function of a reference.
    ///
    /// [`Instruction::CallRef`](super::Instruction::CallRef) is the same instruction as a value.
    pub fn call_ref(&mut self, type_index: u32) -> &mut Self {
        self.put([0x14], type_index)
    }

    /// Appends `return_call_ref` (opcode 0x15), a control instruction that calls the function of a reference, and returns its results.
    ///
    /// [`Instruction::ReturnCallRef`](super::Instruction::ReturnCallRef) is the same instruction as a value.
    pub fn return_call_ref(&mut self, type_index: u32) -> &mut Self {
        self.put([0x15], type_index)
    }

    /// Appends `delegate` (opcode 0x18), a control instruction of the legacy exception handling proposal that ends a `try`, and passes its exceptions to an outer block.
    ///
    /// [`Instruction::Delegate`](super::Instruction::Delegate) is the same instruction as a value.
    pub fn delegate(&mut self, label: u32) -> &mut Self {
        self.put([0x18], label)
    }

    /// Appends `catch_all` (opcode 0x19), a control instruction of the legacy exception handling proposal that begins the handler of all exceptions.
    ///
    /// [`Instruction::CatchAll`](super::Instruction::CatchAll) is the same instruction as a value.
    pub fn catch_all(&mut self) -> &mut Self {
        self.put([0x19], [])
    }

    /// Appends `drop` (opcode 0x1A), a parametric instruction that drops a value.
    ///
    /// [`Instruction::Drop`](super::Instruction::Drop) is the same instruction as a value.
    /// The proved [`drop_`](insn::InstructionSink::drop_) of `fallible` encodes the same.
    pub fn drop(&mut self) -> &mut Self {
        self.put_here([0x1A], [])
    }

    /// Appends `select` (opcode 0x1B), a parametric instruction that selects one of two values by a condition.
    ///
    /// [`Instruction::Select`](super::Instruction::Select) is the same instruction as a value.
    /// The proved [`select`](insn::InstructionSink::select) of `fallible` encodes the same.
    pub fn select(&mut self) -> &mut Self {
        self.put_here([0x1B], [])
    }

    /// Appends `select (result t)` (opcode 0x1C), a parametric instruction that selects one of two values by a condition.
    ///
    /// [`Instruction::TypedSelect`](super::Instruction::TypedSelect) is the same instruction as a value.
    /// The proved [`typed_select`](insn::InstructionSink::typed_select) of `fallible` encodes the same.
    ///
    /// ```
    /// use dolzhytik::{InstructionSink, ValType};
    ///
    /// let mut bytes = Vec::new();
    /// InstructionSink::new(&mut bytes).typed_select(ValType::I32);
    /// // One type, i32.
    /// assert_eq!(bytes, [0x1C, 1, 0x7F]);
    /// ```
    pub fn typed_select(&mut self, ty: ValType) -> &mut Self {
        self.put([0x1C, 0x01], ty)
    }

    /// Appends `select (result t*)` (opcode 0x1C), a parametric instruction that selects one of two values by a condition.
    ///
    /// [`Instruction::TypedSelectMulti`](super::Instruction::TypedSelectMulti) is the same instruction as a value.
    /// The proved [`typed_select_multi`](insn::InstructionSink::typed_select_multi) of `fallible` encodes the same.
    ///
    /// # Panics
    ///
    /// Panics if the list has more than 4294967295 items.
    pub fn typed_select_multi(&mut self, types: &[ValType]) -> &mut Self {
        self.made(|sink| sink.typed_select_multi(types))
    }

    /// Appends `try_table` (opcode 0x1F), a control instruction that begins a block with catch clauses.
    ///
    /// [`Instruction::TryTable`](super::Instruction::TryTable) is the same instruction as a value.
    ///
    /// # Panics
    ///
    /// Panics if the list has more than 4294967295 items.
    pub fn try_table<V: IntoIterator<Item = Catch>>(&mut self, block_type: BlockType, catches: V) -> &mut Self
    where
        V::IntoIter: ExactSizeIterator,
    {
        self.listed(([0x1F], block_type), catches)
    }

    /// Appends `local.get` (opcode 0x20), a variable instruction that reads a local.
    ///
    /// [`Instruction::LocalGet`](super::Instruction::LocalGet) is the same instruction as a value.
    /// The proved [`local_get`](insn::InstructionSink::local_get) of `fallible` encodes the same.
    #[doc(alias = "local.get")]
    pub fn local_get(&mut self, local_index: u32) -> &mut Self {
        self.put_here([0x20], local_index)
    }

    /// Appends `local.set` (opcode 0x21), a variable instruction that writes a local.
    ///
    /// [`Instruction::LocalSet`](super::Instruction::LocalSet) is the same instruction as a value.
    /// The proved [`local_set`](insn::InstructionSink::local_set) of `fallible` encodes the same.
    #[doc(alias = "local.set")]
    pub fn local_set(&mut self, local_index: u32) -> &mut Self {
        self.put_here([0x21], local_index)
    }

    /// Appends `local.tee` (opcode 0x22), a variable instruction that writes a local, and keeps the value.
    ///
    /// [`Instruction::LocalTee`](super::Instruction::LocalTee) is the same instruction as a value.
    /// The proved [`local_tee`](insn::InstructionSink::local_tee) of `fallible` encodes the same.
    #[doc(alias = "local.tee")]
    pub fn local_tee(&mut self, local_index: u32) -> &mut Self {
        self.put_here([0x22], local_index)
    }

    /// Appends `global.get` (opcode 0x23), a variable instruction that reads a global.
    ///
    /// [`Instruction::GlobalGet`](super::Instruction::GlobalGet) is the same instruction as a value.
    /// The proved [`global_get`](insn::InstructionSink::global_get) of `fallible` encodes the same.
    #[doc(alias = "global.get")]
    pub fn global_get(&mut self, global_index: u32) -> &mut Self {
        self.put_here([0x23], global_index)
    }

    /// Appends `global.set` (opcode 0x24), a variable instruction that writes a global.
    ///
    /// [`Instruction::GlobalSet`](super::Instruction::GlobalSet) is the same instruction as a value.
    /// The proved [`global_set`](insn::InstructionSink::global_set) of `fallible` encodes the same.
    #[doc(alias = "global.set")]
    pub fn global_set(&mut self, global_index: u32) -> &mut Self {
        self.put_here([0x24], global_index)
    }

    /// Appends `table.get` (opcode 0x25), a table instruction that reads an element of a table.
    ///
    /// [`Instruction::TableGet`](super::Instruction::TableGet) is the same instruction as a value.
    #[doc(alias = "table.get")]
    pub fn table_get(&mut self, table: u32) -> &mut Self {
        self.put([0x25], table)
    }

    /// Appends `table.set` (opcode 0x26), a table instruction that writes an element of a table.
    ///
    /// [`Instruction::TableSet`](super::Instruction::TableSet) is the same instruction as a value.
    #[doc(alias = "table.set")]
    pub fn table_set(&mut self, table: u32) -> &mut Self {
        self.put([0x26], table)
    }

    /// Appends `i32.load` (opcode 0x28), a memory instruction that loads a number from a memory.
    ///
    /// [`Instruction::I32Load`](super::Instruction::I32Load) is the same instruction as a value.
    /// The proved [`i32_load`](insn::InstructionSink::i32_load) of `fallible` encodes the same.
    #[doc(alias = "i32.load")]
    pub fn i32_load(&mut self, memarg: MemArg) -> &mut Self {
        self.put_here([0x28], &memarg)
    }

    /// Appends `i64.load` (opcode 0x29), a memory instruction that loads a number from a memory.
    ///
    /// [`Instruction::I64Load`](super::Instruction::I64Load) is the same instruction as a value.
    #[doc(alias = "i64.load")]
    pub fn i64_load(&mut self, memarg: MemArg) -> &mut Self {
        self.put([0x29], &memarg)
    }

    /// Appends `f32.load` (opcode 0x2A), a memory instruction that loads a number from a memory.
    ///
    /// [`Instruction::F32Load`](super::Instruction::F32Load) is the same instruction as a value.
    #[doc(alias = "f32.load")]
    pub fn f32_load(&mut self, memarg: MemArg) -> &mut Self {
        self.put([0x2A], &memarg)
    }

    /// Appends `f64.load` (opcode 0x2B), a memory instruction that loads a number from a memory.
    ///
    /// [`Instruction::F64Load`](super::Instruction::F64Load) is the same instruction as a value.
    #[doc(alias = "f64.load")]
    pub fn f64_load(&mut self, memarg: MemArg) -> &mut Self {
        self.put([0x2B], &memarg)
    }

    /// Appends `i32.load8_s` (opcode 0x2C), a memory instruction that loads a number from a memory.
    ///
    /// [`Instruction::I32Load8S`](super::Instruction::I32Load8S) is the same instruction as a value.
    #[doc(alias = "i32.load8_s")]
    pub fn i32_load8_s(&mut self, memarg: MemArg) -> &mut Self {
        self.put([0x2C], &memarg)
    }

    /// Appends `i32.load8_u` (opcode 0x2D), a memory instruction that loads a number from a memory.
    ///
    /// [`Instruction::I32Load8U`](super::Instruction::I32Load8U) is the same instruction as a value.
    #[doc(alias = "i32.load8_u")]
    pub fn i32_load8_u(&mut self, memarg: MemArg) -> &mut Self {
        self.put([0x2D], &memarg)
    }

    /// Appends `i32.load16_s` (opcode 0x2E), a memory instruction that loads a number from a memory.
    ///
    /// [`Instruction::I32Load16S`](super::Instruction::I32Load16S) is the same instruction as a value.
    #[doc(alias = "i32.load16_s")]
    pub fn i32_load16_s(&mut self, memarg: MemArg) -> &mut Self {
        self.put([0x2E], &memarg)
    }

    /// Appends `i32.load16_u` (opcode 0x2F), a memory instruction that loads a number from a memory.
    ///
    /// [`Instruction::I32Load16U`](super::Instruction::I32Load16U) is the same instruction as a value.
    #[doc(alias = "i32.load16_u")]
    pub fn i32_load16_u(&mut self, memarg: MemArg) -> &mut Self {
        self.put([0x2F], &memarg)
    }

    /// Appends `i64.load8_s` (opcode 0x30), a memory instruction that loads a number from a memory.
    ///
    /// [`Instruction::I64Load8S`](super::Instruction::I64Load8S) is the same instruction as a value.
    #[doc(alias = "i64.load8_s")]
    pub fn i64_load8_s(&mut self, memarg: MemArg) -> &mut Self {
        self.put([0x30], &memarg)
    }

    /// Appends `i64.load8_u` (opcode 0x31), a memory instruction that loads a number from a memory.
    ///
    /// [`Instruction::I64Load8U`](super::Instruction::I64Load8U) is the same instruction as a value.
    #[doc(alias = "i64.load8_u")]
    pub fn i64_load8_u(&mut self, memarg: MemArg) -> &mut Self {
        self.put([0x31], &memarg)
    }

    /// Appends `i64.load16_s` (opcode 0x32), a memory instruction that loads a number from a memory.
    ///
    /// [`Instruction::I64Load16S`](super::Instruction::I64Load16S) is the same instruction as a value.
    #[doc(alias = "i64.load16_s")]
    pub fn i64_load16_s(&mut self, memarg: MemArg) -> &mut Self {
        self.put([0x32], &memarg)
    }

    /// Appends `i64.load16_u` (opcode 0x33), a memory instruction that loads a number from a memory.
    ///
    /// [`Instruction::I64Load16U`](super::Instruction::I64Load16U) is the same instruction as a value.
    #[doc(alias = "i64.load16_u")]
    pub fn i64_load16_u(&mut self, memarg: MemArg) -> &mut Self {
        self.put([0x33], &memarg)
    }

    /// Appends `i64.load32_s` (opcode 0x34), a memory instruction that loads a number from a memory.
    ///
    /// [`Instruction::I64Load32S`](super::Instruction::I64Load32S) is the same instruction as a value.
    #[doc(alias = "i64.load32_s")]
    pub fn i64_load32_s(&mut self, memarg: MemArg) -> &mut Self {
        self.put([0x34], &memarg)
    }

    /// Appends `i64.load32_u` (opcode 0x35), a memory instruction that loads a number from a memory.
    ///
    /// [`Instruction::I64Load32U`](super::Instruction::I64Load32U) is the same instruction as a value.
    #[doc(alias = "i64.load32_u")]
    pub fn i64_load32_u(&mut self, memarg: MemArg) -> &mut Self {
        self.put([0x35], &memarg)
    }

    /// Appends `i32.store` (opcode 0x36), a memory instruction that stores a number to a memory.
    ///
    /// [`Instruction::I32Store`](super::Instruction::I32Store) is the same instruction as a value.
    /// The proved [`i32_store`](insn::InstructionSink::i32_store) of `fallible` encodes the same.
    #[doc(alias = "i32.store")]
    pub fn i32_store(&mut self, memarg: MemArg) -> &mut Self {
        self.put_here([0x36], &memarg)
    }

    /// Appends `i64.store` (opcode 0x37), a memory instruction that stores a number to a memory.
    ///
    /// [`Instruction::I64Store`](super::Instruction::I64Store) is the same instruction as a value.
    #[doc(alias = "i64.store")]
    pub fn i64_store(&mut self, memarg: MemArg) -> &mut Self {
        self.put([0x37], &memarg)
    }

    /// Appends `f32.store` (opcode 0x38), a memory instruction that stores a number to a memory.
    ///
    /// [`Instruction::F32Store`](super::Instruction::F32Store) is the same instruction as a value.
    #[doc(alias = "f32.store")]
    pub fn f32_store(&mut self, memarg: MemArg) -> &mut Self {
        self.put([0x38], &memarg)
    }

    /// Appends `f64.store` (opcode 0x39), a memory instruction that stores a number to a memory.
    ///
    /// [`Instruction::F64Store`](super::Instruction::F64Store) is the same instruction as a value.
    #[doc(alias = "f64.store")]
    pub fn f64_store(&mut self, memarg: MemArg) -> &mut Self {
        self.put([0x39], &memarg)
    }

    /// Appends `i32.store8` (opcode 0x3A), a memory instruction that stores a number to a memory.
    ///
    /// [`Instruction::I32Store8`](super::Instruction::I32Store8) is the same instruction as a value.
    #[doc(alias = "i32.store8")]
    pub fn i32_store8(&mut self, memarg: MemArg) -> &mut Self {
        self.put([0x3A], &memarg)
    }

    /// Appends `i32.store16` (opcode 0x3B), a memory instruction that stores a number to a memory.
    ///
    /// [`Instruction::I32Store16`](super::Instruction::I32Store16) is the same instruction as a value.
    #[doc(alias = "i32.store16")]
    pub fn i32_store16(&mut self, memarg: MemArg) -> &mut Self {
        self.put([0x3B], &memarg)
    }

    /// Appends `i64.store8` (opcode 0x3C), a memory instruction that stores a number to a memory.
    ///
    /// [`Instruction::I64Store8`](super::Instruction::I64Store8) is the same instruction as a value.
    #[doc(alias = "i64.store8")]
    pub fn i64_store8(&mut self, memarg: MemArg) -> &mut Self {
        self.put([0x3C], &memarg)
    }

    /// Appends `i64.store16` (opcode 0x3D), a memory instruction that stores a number to a memory.
    ///
    /// [`Instruction::I64Store16`](super::Instruction::I64Store16) is the same instruction as a value.
    #[doc(alias = "i64.store16")]
    pub fn i64_store16(&mut self, memarg: MemArg) -> &mut Self {
        self.put([0x3D], &memarg)
    }

    /// Appends `i64.store32` (opcode 0x3E), a memory instruction that stores a number to a memory.
    ///
    /// [`Instruction::I64Store32`](super::Instruction::I64Store32) is the same instruction as a value.
    #[doc(alias = "i64.store32")]
    pub fn i64_store32(&mut self, memarg: MemArg) -> &mut Self {
        self.put([0x3E], &memarg)
    }

    /// Appends `memory.size` (opcode 0x3F), a memory instruction that returns the size of a memory in pages.
    ///
    /// [`Instruction::MemorySize`](super::Instruction::MemorySize) is the same instruction as a value.
    /// The proved [`memory_size`](insn::InstructionSink::memory_size) of `fallible` encodes the same.
    #[doc(alias = "memory.size")]
    pub fn memory_size(&mut self, mem: u32) -> &mut Self {
        self.put([0x3F], mem)
    }

    /// Appends `memory.grow` (opcode 0x40), a memory instruction that grows a memory by a number of pages.
    ///
    /// [`Instruction::MemoryGrow`](super::Instruction::MemoryGrow) is the same instruction as a value.
    /// The proved [`memory_grow`](insn::InstructionSink::memory_grow) of `fallible` encodes the same.
    #[doc(alias = "memory.grow")]
    pub fn memory_grow(&mut self, mem: u32) -> &mut Self {
        self.put([0x40], mem)
    }

    /// Appends `i32.const` (opcode 0x41), a numeric instruction that returns a constant.
    ///
    /// [`Instruction::I32Const`](super::Instruction::I32Const) is the same instruction as a value.
    /// The proved [`i32_const`](insn::InstructionSink::i32_const) of `fallible` encodes the same.
    #[doc(alias = "i32.const")]
    pub fn i32_const(&mut self, value: i32) -> &mut Self {
        self.put_here([0x41], value)
    }

    /// Appends `i64.const` (opcode 0x42), a numeric instruction that returns a constant.
    ///
    /// [`Instruction::I64Const`](super::Instruction::I64Const) is the same instruction as a value.
    /// The proved [`i64_const`](insn::InstructionSink::i64_const) of `fallible` encodes the same.
    #[doc(alias = "i64.const")]
    pub fn i64_const(&mut self, value: i64) -> &mut Self {
        self.put_here([0x42], value)
    }

    /// Appends `f32.const` (opcode 0x43), a numeric instruction that returns a constant.
    ///
    /// [`Instruction::F32Const`](super::Instruction::F32Const) is the same instruction as a value.
    /// The proved [`f32_const`](insn::InstructionSink::f32_const) of `fallible` encodes the same.
    #[doc(alias = "f32.const")]
    pub fn f32_const(&mut self, value: Ieee32) -> &mut Self {
        self.put([0x43], value)
    }

    /// Appends `f64.const` (opcode 0x44), a numeric instruction that returns a constant.
    ///
    /// [`Instruction::F64Const`](super::Instruction::F64Const) is the same instruction as a value.
    /// The proved [`f64_const`](insn::InstructionSink::f64_const) of `fallible` encodes the same.
    #[doc(alias = "f64.const")]
    pub fn f64_const(&mut self, value: Ieee64) -> &mut Self {
        self.put([0x44], value)
    }

    /// Appends `i32.eqz` (opcode 0x45), a numeric instruction that tests whether an integer is zero.
    ///
    /// [`Instruction::I32Eqz`](super::Instruction::I32Eqz) is the same instruction as a value.
    /// The proved [`i32_eqz`](insn::InstructionSink::i32_eqz) of `fallible` encodes the same.
    #[doc(alias = "i32.eqz")]
    pub fn i32_eqz(&mut self) -> &mut Self {
        self.put_here([0x45], [])
    }

    /// Appends `i32.eq` (opcode 0x46), a numeric instruction that compares two numbers.
    ///
    /// [`Instruction::I32Eq`](super::Instruction::I32Eq) is the same instruction as a value.
    #[doc(alias = "i32.eq")]
    pub fn i32_eq(&mut self) -> &mut Self {
        self.put([0x46], [])
    }

    /// Appends `i32.ne` (opcode 0x47), a numeric instruction that compares two numbers.
    ///
    /// [`Instruction::I32Ne`](super::Instruction::I32Ne) is the same instruction as a value.
    #[doc(alias = "i32.ne")]
    pub fn i32_ne(&mut self) -> &mut Self {
        self.put([0x47], [])
    }

    /// Appends `i32.lt_s` (opcode 0x48), a numeric instruction that compares two numbers.
    ///
    /// [`Instruction::I32LtS`](super::Instruction::I32LtS) is the same instruction as a value.
    #[doc(alias = "i32.lt_s")]
    pub fn i32_lt_s(&mut self) -> &mut Self {
        self.put([0x48], [])
    }

    /// Appends `i32.lt_u` (opcode 0x49), a numeric instruction that compares two numbers.
    ///
    /// [`Instruction::I32LtU`](super::Instruction::I32LtU) is the same instruction as a value.
    #[doc(alias = "i32.lt_u")]
    pub fn i32_lt_u(&mut self) -> &mut Self {
        self.put([0x49], [])
    }

    /// Appends `i32.gt_s` (opcode 0x4A), a numeric instruction that compares two numbers.
    ///
    /// [`Instruction::I32GtS`](super::Instruction::I32GtS) is the same instruction as a value.
    #[doc(alias = "i32.gt_s")]
    pub fn i32_gt_s(&mut self) -> &mut Self {
        self.put([0x4A], [])
    }

    /// Appends `i32.gt_u` (opcode 0x4B), a numeric instruction that compares two numbers.
    ///
    /// [`Instruction::I32GtU`](super::Instruction::I32GtU) is the same instruction as a value.
    #[doc(alias = "i32.gt_u")]
    pub fn i32_gt_u(&mut self) -> &mut Self {
        self.put([0x4B], [])
    }

    /// Appends `i32.le_s` (opcode 0x4C), a numeric instruction that compares two numbers.
    ///
    /// [`Instruction::I32LeS`](super::Instruction::I32LeS) is the same instruction as a value.
    #[doc(alias = "i32.le_s")]
    pub fn i32_le_s(&mut self) -> &mut Self {
        self.put([0x4C], [])
    }

    /// Appends `i32.le_u` (opcode 0x4D), a numeric instruction that compares two numbers.
    ///
    /// [`Instruction::I32LeU`](super::Instruction::I32LeU) is the same instruction as a value.
    #[doc(alias = "i32.le_u")]
    pub fn i32_le_u(&mut self) -> &mut Self {
        self.put([0x4D], [])
    }

    /// Appends `i32.ge_s` (opcode 0x4E), a numeric instruction that compares two numbers.
    ///
    /// [`Instruction::I32GeS`](super::Instruction::I32GeS) is the same instruction as a value.
    #[doc(alias = "i32.ge_s")]
    pub fn i32_ge_s(&mut self) -> &mut Self {
        self.put([0x4E], [])
    }

    /// Appends `i32.ge_u` (opcode 0x4F), a numeric instruction that compares two numbers.
    ///
    /// [`Instruction::I32GeU`](super::Instruction::I32GeU) is the same instruction as a value.
    #[doc(alias = "i32.ge_u")]
    pub fn i32_ge_u(&mut self) -> &mut Self {
        self.put([0x4F], [])
    }

    /// Appends `i64.eqz` (opcode 0x50), a numeric instruction that tests whether an integer is zero.
    ///
    /// [`Instruction::I64Eqz`](super::Instruction::I64Eqz) is the same instruction as a value.
    #[doc(alias = "i64.eqz")]
    pub fn i64_eqz(&mut self) -> &mut Self {
        self.put([0x50], [])
    }

    /// Appends `i64.eq` (opcode 0x51), a numeric instruction that compares two numbers.
    ///
    /// [`Instruction::I64Eq`](super::Instruction::I64Eq) is the same instruction as a value.
    #[doc(alias = "i64.eq")]
    pub fn i64_eq(&mut self) -> &mut Self {
        self.put([0x51], [])
    }

    /// Appends `i64.ne` (opcode 0x52), a numeric instruction that compares two numbers.
    ///
    /// [`Instruction::I64Ne`](super::Instruction::I64Ne) is the same instruction as a value.
    #[doc(alias = "i64.ne")]
    pub fn i64_ne(&mut self) -> &mut Self {
        self.put([0x52], [])
    }

    /// Appends `i64.lt_s` (opcode 0x53), a numeric instruction that compares two numbers.
    ///
    /// [`Instruction::I64LtS`](super::Instruction::I64LtS) is the same instruction as a value.
    #[doc(alias = "i64.lt_s")]
    pub fn i64_lt_s(&mut self) -> &mut Self {
        self.put([0x53], [])
    }

    /// Appends `i64.lt_u` (opcode 0x54), a numeric instruction that compares two numbers.
    ///
    /// [`Instruction::I64LtU`](super::Instruction::I64LtU) is the same instruction as a value.
    #[doc(alias = "i64.lt_u")]
    pub fn i64_lt_u(&mut self) -> &mut Self {
        self.put([0x54], [])
    }

    /// Appends `i64.gt_s` (opcode 0x55), a numeric instruction that compares two numbers.
    ///
    /// [`Instruction::I64GtS`](super::Instruction::I64GtS) is the same instruction as a value.
    #[doc(alias = "i64.gt_s")]
    pub fn i64_gt_s(&mut self) -> &mut Self {
        self.put([0x55], [])
    }

    /// Appends `i64.gt_u` (opcode 0x56), a numeric instruction that compares two numbers.
    ///
    /// [`Instruction::I64GtU`](super::Instruction::I64GtU) is the same instruction as a value.
    #[doc(alias = "i64.gt_u")]
    pub fn i64_gt_u(&mut self) -> &mut Self {
        self.put([0x56], [])
    }

    /// Appends `i64.le_s` (opcode 0x57), a numeric instruction that compares two numbers.
    ///
    /// [`Instruction::I64LeS`](super::Instruction::I64LeS) is the same instruction as a value.
    #[doc(alias = "i64.le_s")]
    pub fn i64_le_s(&mut self) -> &mut Self {
        self.put([0x57], [])
    }

    /// Appends `i64.le_u` (opcode 0x58), a numeric instruction that compares two numbers.
    ///
    /// [`Instruction::I64LeU`](super::Instruction::I64LeU) is the same instruction as a value.
    #[doc(alias = "i64.le_u")]
    pub fn i64_le_u(&mut self) -> &mut Self {
        self.put([0x58], [])
    }

    /// Appends `i64.ge_s` (opcode 0x59), a numeric instruction that compares two numbers.
    ///
    /// [`Instruction::I64GeS`](super::Instruction::I64GeS) is the same instruction as a value.
    #[doc(alias = "i64.ge_s")]
    pub fn i64_ge_s(&mut self) -> &mut Self {
        self.put([0x59], [])
    }

    /// Appends `i64.ge_u` (opcode 0x5A), a numeric instruction that compares two numbers.
    ///
    /// [`Instruction::I64GeU`](super::Instruction::I64GeU) is the same instruction as a value.
    #[doc(alias = "i64.ge_u")]
    pub fn i64_ge_u(&mut self) -> &mut Self {
        self.put([0x5A], [])
    }

    /// Appends `f32.eq` (opcode 0x5B), a numeric instruction that compares two numbers.
    ///
    /// [`Instruction::F32Eq`](super::Instruction::F32Eq) is the same instruction as a value.
    #[doc(alias = "f32.eq")]
    pub fn f32_eq(&mut self) -> &mut Self {
        self.put([0x5B], [])
    }

    /// Appends `f32.ne` (opcode 0x5C), a numeric instruction that compares two numbers.
    ///
    /// [`Instruction::F32Ne`](super::Instruction::F32Ne) is the same instruction as a value.
    #[doc(alias = "f32.ne")]
    pub fn f32_ne(&mut self) -> &mut Self {
        self.put([0x5C], [])
    }

    /// Appends `f32.lt` (opcode 0x5D), a numeric instruction that compares two numbers.
    ///
    /// [`Instruction::F32Lt`](super::Instruction::F32Lt) is the same instruction as a value.
    #[doc(alias = "f32.lt")]
    pub fn f32_lt(&mut self) -> &mut Self {
        self.put([0x5D], [])
    }

    /// Appends `f32.gt` (opcode 0x5E), a numeric instruction that compares two numbers.
    ///
    /// [`Instruction::F32Gt`](super::Instruction::F32Gt) is the same instruction as a value.
    #[doc(alias = "f32.gt")]
    pub fn f32_gt(&mut self) -> &mut Self {
        self.put([0x5E], [])
    }

    /// Appends `f32.le` (opcode 0x5F), a numeric instruction that compares two numbers.
    ///
    /// [`Instruction::F32Le`](super::Instruction::F32Le) is the same instruction as a value.
    #[doc(alias = "f32.le")]
    pub fn f32_le(&mut self) -> &mut Self {
        self.put([0x5F], [])
    }

    /// Appends `f32.ge` (opcode 0x60), a numeric instruction that compares two numbers.
    ///
    /// [`Instruction::F32Ge`](super::Instruction::F32Ge) is the same instruction as a value.
    #[doc(alias = "f32.ge")]
    pub fn f32_ge(&mut self) -> &mut Self {
        self.put([0x60], [])
    }

    /// Appends `f64.eq` (opcode 0x61), a numeric instruction that compares two numbers.
    ///
    /// [`Instruction::F64Eq`](super::Instruction::F64Eq) is the same instruction as a value.
    #[doc(alias = "f64.eq")]
    pub fn f64_eq(&mut self) -> &mut Self {
        self.put([0x61], [])
    }

    /// Appends `f64.ne` (opcode 0x62), a numeric instruction that compares two numbers.
    ///
    /// [`Instruction::F64Ne`](super::Instruction::F64Ne) is the same instruction as a value.
    #[doc(alias = "f64.ne")]
    pub fn f64_ne(&mut self) -> &mut Self {
        self.put([0x62], [])
    }

    /// Appends `f64.lt` (opcode 0x63), a numeric instruction that compares two numbers.
    ///
    /// [`Instruction::F64Lt`](super::Instruction::F64Lt) is the same instruction as a value.
    #[doc(alias = "f64.lt")]
    pub fn f64_lt(&mut self) -> &mut Self {
        self.put([0x63], [])
    }

    /// Appends `f64.gt` (opcode 0x64), a numeric instruction that compares two numbers.
    ///
    /// [`Instruction::F64Gt`](super::Instruction::F64Gt) is the same instruction as a value.
    #[doc(alias = "f64.gt")]
    pub fn f64_gt(&mut self) -> &mut Self {
        self.put([0x64], [])
    }

    /// Appends `f64.le` (opcode 0x65), a numeric instruction that compares two numbers.
    ///
    /// [`Instruction::F64Le`](super::Instruction::F64Le) is the same instruction as a value.
    #[doc(alias = "f64.le")]
    pub fn f64_le(&mut self) -> &mut Self {
        self.put([0x65], [])
    }

    /// Appends `f64.ge` (opcode 0x66), a numeric instruction that compares two numbers.
    ///
    /// [`Instruction::F64Ge`](super::Instruction::F64Ge) is the same instruction as a value.
    #[doc(alias = "f64.ge")]
    pub fn f64_ge(&mut self) -> &mut Self {
        self.put([0x66], [])
    }

    /// Appends `i32.clz` (opcode 0x67), a numeric instruction that counts the leading zero bits of an integer.
    ///
    /// [`Instruction::I32Clz`](super::Instruction::I32Clz) is the same instruction as a value.
    #[doc(alias = "i32.clz")]
    pub fn i32_clz(&mut self) -> &mut Self {
        self.put([0x67], [])
    }

    /// Appends `i32.ctz` (opcode 0x68), a numeric instruction that counts the trailing zero bits of an integer.
    ///
    /// [`Instruction::I32Ctz`](super::Instruction::I32Ctz) is the same instruction as a value.
    #[doc(alias = "i32.ctz")]
    pub fn i32_ctz(&mut self) -> &mut Self {
        self.put([0x68], [])
    }

    /// Appends `i32.popcnt` (opcode 0x69), a numeric instruction that counts the one bits of an integer.
    ///
    /// [`Instruction::I32Popcnt`](super::Instruction::I32Popcnt) is the same instruction as a value.
    #[doc(alias = "i32.popcnt")]
    pub fn i32_popcnt(&mut self) -> &mut Self {
        self.put([0x69], [])
    }

    /// Appends `i32.add` (opcode 0x6A), a numeric instruction that adds two integers.
    ///
    /// [`Instruction::I32Add`](super::Instruction::I32Add) is the same instruction as a value.
    /// The proved [`i32_add`](insn::InstructionSink::i32_add) of `fallible` encodes the same.
    #[doc(alias = "i32.add")]
    pub fn i32_add(&mut self) -> &mut Self {
        self.put_here([0x6A], [])
    }

    /// Appends `i32.sub` (opcode 0x6B), a numeric instruction that subtracts two integers.
    ///
    /// [`Instruction::I32Sub`](super::Instruction::I32Sub) is the same instruction as a value.
    /// The proved [`i32_sub`](insn::InstructionSink::i32_sub) of `fallible` encodes the same.
    #[doc(alias = "i32.sub")]
    pub fn i32_sub(&mut self) -> &mut Self {
        self.put_here([0x6B], [])
    }

    /// Appends `i32.mul` (opcode 0x6C), a numeric instruction that multiplies two integers.
    ///
    /// [`Instruction::I32Mul`](super::Instruction::I32Mul) is the same instruction as a value.
    /// The proved [`i32_mul`](insn::InstructionSink::i32_mul) of `fallible` encodes the same.
    #[doc(alias = "i32.mul")]
    pub fn i32_mul(&mut self) -> &mut Self {
        self.put([0x6C], [])
    }

    /// Appends `i32.div_s` (opcode 0x6D), a numeric instruction that divides two integers.
    ///
    /// [`Instruction::I32DivS`](super::Instruction::I32DivS) is the same instruction as a value.
    #[doc(alias = "i32.div_s")]
    pub fn i32_div_s(&mut self) -> &mut Self {
        self.put([0x6D], [])
    }

    /// Appends `i32.div_u` (opcode 0x6E), a numeric instruction that divides two integers.
    ///
    /// [`Instruction::I32DivU`](super::Instruction::I32DivU) is the same instruction as a value.
    #[doc(alias = "i32.div_u")]
    pub fn i32_div_u(&mut self) -> &mut Self {
        self.put([0x6E], [])
    }

    /// Appends `i32.rem_s` (opcode 0x6F), a numeric instruction that computes the remainder of two integers.
    ///
    /// [`Instruction::I32RemS`](super::Instruction::I32RemS) is the same instruction as a value.
    #[doc(alias = "i32.rem_s")]
    pub fn i32_rem_s(&mut self) -> &mut Self {
        self.put([0x6F], [])
    }

    /// Appends `i32.rem_u` (opcode 0x70), a numeric instruction that computes the remainder of two integers.
    ///
    /// [`Instruction::I32RemU`](super::Instruction::I32RemU) is the same instruction as a value.
    #[doc(alias = "i32.rem_u")]
    pub fn i32_rem_u(&mut self) -> &mut Self {
        self.put([0x70], [])
    }

    /// Appends `i32.and` (opcode 0x71), a numeric instruction that computes the bitwise and of two integers.
    ///
    /// [`Instruction::I32And`](super::Instruction::I32And) is the same instruction as a value.
    #[doc(alias = "i32.and")]
    pub fn i32_and(&mut self) -> &mut Self {
        self.put([0x71], [])
    }

    /// Appends `i32.or` (opcode 0x72), a numeric instruction that computes the bitwise or of two integers.
    ///
    /// [`Instruction::I32Or`](super::Instruction::I32Or) is the same instruction as a value.
    #[doc(alias = "i32.or")]
    pub fn i32_or(&mut self) -> &mut Self {
        self.put([0x72], [])
    }

    /// Appends `i32.xor` (opcode 0x73), a numeric instruction that computes the bitwise exclusive or of two integers.
    ///
    /// [`Instruction::I32Xor`](super::Instruction::I32Xor) is the same instruction as a value.
    #[doc(alias = "i32.xor")]
    pub fn i32_xor(&mut self) -> &mut Self {
        self.put([0x73], [])
    }

    /// Appends `i32.shl` (opcode 0x74), a numeric instruction that shifts an integer to the left.
    ///
    /// [`Instruction::I32Shl`](super::Instruction::I32Shl) is the same instruction as a value.
    #[doc(alias = "i32.shl")]
    pub fn i32_shl(&mut self) -> &mut Self {
        self.put([0x74], [])
    }

    /// Appends `i32.shr_s` (opcode 0x75), a numeric instruction that shifts an integer to the right.
    ///
    /// [`Instruction::I32ShrS`](super::Instruction::I32ShrS) is the same instruction as a value.
    #[doc(alias = "i32.shr_s")]
    pub fn i32_shr_s(&mut self) -> &mut Self {
        self.put([0x75], [])
    }

    /// Appends `i32.shr_u` (opcode 0x76), a numeric instruction that shifts an integer to the right.
    ///
    /// [`Instruction::I32ShrU`](super::Instruction::I32ShrU) is the same instruction as a value.
    #[doc(alias = "i32.shr_u")]
    pub fn i32_shr_u(&mut self) -> &mut Self {
        self.put([0x76], [])
    }

    /// Appends `i32.rotl` (opcode 0x77), a numeric instruction that rotates an integer to the left.
    ///
    /// [`Instruction::I32Rotl`](super::Instruction::I32Rotl) is the same instruction as a value.
    #[doc(alias = "i32.rotl")]
    pub fn i32_rotl(&mut self) -> &mut Self {
        self.put([0x77], [])
    }

    /// Appends `i32.rotr` (opcode 0x78), a numeric instruction that rotates an integer to the right.
    ///
    /// [`Instruction::I32Rotr`](super::Instruction::I32Rotr) is the same instruction as a value.
    #[doc(alias = "i32.rotr")]
    pub fn i32_rotr(&mut self) -> &mut Self {
        self.put([0x78], [])
    }

    /// Appends `i64.clz` (opcode 0x79), a numeric instruction that counts the leading zero bits of an integer.
    ///
    /// [`Instruction::I64Clz`](super::Instruction::I64Clz) is the same instruction as a value.
    #[doc(alias = "i64.clz")]
    pub fn i64_clz(&mut self) -> &mut Self {
        self.put([0x79], [])
    }

    /// Appends `i64.ctz` (opcode 0x7A), a numeric instruction that counts the trailing zero bits of an integer.
    ///
    /// [`Instruction::I64Ctz`](super::Instruction::I64Ctz) is the same instruction as a value.
    #[doc(alias = "i64.ctz")]
    pub fn i64_ctz(&mut self) -> &mut Self {
        self.put([0x7A], [])
    }

    /// Appends `i64.popcnt` (opcode 0x7B), a numeric instruction that counts the one bits of an integer.
    ///
    /// [`Instruction::I64Popcnt`](super::Instruction::I64Popcnt) is the same instruction as a value.
    #[doc(alias = "i64.popcnt")]
    pub fn i64_popcnt(&mut self) -> &mut Self {
        self.put([0x7B], [])
    }

    /// Appends `i64.add` (opcode 0x7C), a numeric instruction that adds two integers.
    ///
    /// [`Instruction::I64Add`](super::Instruction::I64Add) is the same instruction as a value.
    /// The proved [`i64_add`](insn::InstructionSink::i64_add) of `fallible` encodes the same.
    #[doc(alias = "i64.add")]
    pub fn i64_add(&mut self) -> &mut Self {
        self.put_here([0x7C], [])
    }

    /// Appends `i64.sub` (opcode 0x7D), a numeric instruction that subtracts two integers.
    ///
    /// [`Instruction::I64Sub`](super::Instruction::I64Sub) is the same instruction as a value.
    /// The proved [`i64_sub`](insn::InstructionSink::i64_sub) of `fallible` encodes the same.
    #[doc(alias = "i64.sub")]
    pub fn i64_sub(&mut self) -> &mut Self {
        self.put([0x7D], [])
    }

    /// Appends `i64.mul` (opcode 0x7E), a numeric instruction that multiplies two integers.
    ///
    /// [`Instruction::I64Mul`](super::Instruction::I64Mul) is the same instruction as a value.
    /// The proved [`i64_mul`](insn::InstructionSink::i64_mul) of `fallible` encodes the same.
    #[doc(alias = "i64.mul")]
    pub fn i64_mul(&mut self) -> &mut Self {
        self.put([0x7E], [])
    }

    /// Appends `i64.div_s` (opcode 0x7F), a numeric instruction that divides two integers.
    ///
    /// [`Instruction::I64DivS`](super::Instruction::I64DivS) is the same instruction as a value.
    #[doc(alias = "i64.div_s")]
    pub fn i64_div_s(&mut self) -> &mut Self {
        self.put([0x7F], [])
    }

    /// Appends `i64.div_u` (opcode 0x80), a numeric instruction that divides two integers.
    ///
    /// [`Instruction::I64DivU`](super::Instruction::I64DivU) is the same instruction as a value.
    #[doc(alias = "i64.div_u")]
    pub fn i64_div_u(&mut self) -> &mut Self {
        self.put([0x80], [])
    }

    /// Appends `i64.rem_s` (opcode 0x81), a numeric instruction that computes the remainder of two integers.
    ///
    /// [`Instruction::I64RemS`](super::Instruction::I64RemS) is the same instruction as a value.
    #[doc(alias = "i64.rem_s")]
    pub fn i64_rem_s(&mut self) -> &mut Self {
        self.put([0x81], [])
    }

    /// Appends `i64.rem_u` (opcode 0x82), a numeric instruction that computes the remainder of two integers.
    ///
    /// [`Instruction::I64RemU`](super::Instruction::I64RemU) is the same instruction as a value.
    #[doc(alias = "i64.rem_u")]
    pub fn i64_rem_u(&mut self) -> &mut Self {
        self.put([0x82], [])
    }

    /// Appends `i64.and` (opcode 0x83), a numeric instruction that computes the bitwise and of two integers.
    ///
    /// [`Instruction::I64And`](super::Instruction::I64And) is the same instruction as a value.
    #[doc(alias = "i64.and")]
    pub fn i64_and(&mut self) -> &mut Self {
        self.put([0x83], [])
    }

    /// Appends `i64.or` (opcode 0x84), a numeric instruction that computes the bitwise or of two integers.
    ///
    /// [`Instruction::I64Or`](super::Instruction::I64Or) is the same instruction as a value.
    #[doc(alias = "i64.or")]
    pub fn i64_or(&mut self) -> &mut Self {
        self.put([0x84], [])
    }

    /// Appends `i64.xor` (opcode 0x85), a numeric instruction that computes the bitwise exclusive or of two integers.
    ///
    /// [`Instruction::I64Xor`](super::Instruction::I64Xor) is the same instruction as a value.
    #[doc(alias = "i64.xor")]
    pub fn i64_xor(&mut self) -> &mut Self {
        self.put([0x85], [])
    }

    /// Appends `i64.shl` (opcode 0x86), a numeric instruction that shifts an integer to the left.
    ///
    /// [`Instruction::I64Shl`](super::Instruction::I64Shl) is the same instruction as a value.
    #[doc(alias = "i64.shl")]
    pub fn i64_shl(&mut self) -> &mut Self {
        self.put([0x86], [])
    }

    /// Appends `i64.shr_s` (opcode 0x87), a numeric instruction that shifts an integer to the right.
    ///
    /// [`Instruction::I64ShrS`](super::Instruction::I64ShrS) is the same instruction as a value.
    #[doc(alias = "i64.shr_s")]
    pub fn i64_shr_s(&mut self) -> &mut Self {
        self.put([0x87], [])
    }

    /// Appends `i64.shr_u` (opcode 0x88), a numeric instruction that shifts an integer to the right.
    ///
    /// [`Instruction::I64ShrU`](super::Instruction::I64ShrU) is the same instruction as a value.
    #[doc(alias = "i64.shr_u")]
    pub fn i64_shr_u(&mut self) -> &mut Self {
        self.put([0x88], [])
    }

    /// Appends `i64.rotl` (opcode 0x89), a numeric instruction that rotates an integer to the left.
    ///
    /// [`Instruction::I64Rotl`](super::Instruction::I64Rotl) is the same instruction as a value.
    #[doc(alias = "i64.rotl")]
    pub fn i64_rotl(&mut self) -> &mut Self {
        self.put([0x89], [])
    }

    /// Appends `i64.rotr` (opcode 0x8A), a numeric instruction that rotates an integer to the right.
    ///
    /// [`Instruction::I64Rotr`](super::Instruction::I64Rotr) is the same instruction as a value.
    #[doc(alias = "i64.rotr")]
    pub fn i64_rotr(&mut self) -> &mut Self {
        self.put([0x8A], [])
    }

    /// Appends `f32.abs` (opcode 0x8B), a numeric instruction that computes the absolute value of a float.
    ///
    /// [`Instruction::F32Abs`](super::Instruction::F32Abs) is the same instruction as a value.
    #[doc(alias = "f32.abs")]
    pub fn f32_abs(&mut self) -> &mut Self {
        self.put([0x8B], [])
    }

    /// Appends `f32.neg` (opcode 0x8C), a numeric instruction that negates a float.
    ///
    /// [`Instruction::F32Neg`](super::Instruction::F32Neg) is the same instruction as a value.
    #[doc(alias = "f32.neg")]
    pub fn f32_neg(&mut self) -> &mut Self {
        self.put([0x8C], [])
    }

    /// Appends `f32.ceil` (opcode 0x8D), a numeric instruction that rounds a float up.
    ///
    /// [`Instruction::F32Ceil`](super::Instruction::F32Ceil) is the same instruction as a value.
    #[doc(alias = "f32.ceil")]
    pub fn f32_ceil(&mut self) -> &mut Self {
        self.put([0x8D], [])
    }

    /// Appends `f32.floor` (opcode 0x8E), a numeric instruction that rounds a float down.
    ///
    /// [`Instruction::F32Floor`](super::Instruction::F32Floor) is the same instruction as a value.
    #[doc(alias = "f32.floor")]
    pub fn f32_floor(&mut self) -> &mut Self {
        self.put([0x8E], [])
    }

    /// Appends `f32.trunc` (opcode 0x8F), a numeric instruction that rounds a float towards zero.
    ///
    /// [`Instruction::F32Trunc`](super::Instruction::F32Trunc) is the same instruction as a value.
    #[doc(alias = "f32.trunc")]
    pub fn f32_trunc(&mut self) -> &mut Self {
        self.put([0x8F], [])
    }

    /// Appends `f32.nearest` (opcode 0x90), a numeric instruction that rounds a float to the nearest integer.
    ///
    /// [`Instruction::F32Nearest`](super::Instruction::F32Nearest) is the same instruction as a value.
    #[doc(alias = "f32.nearest")]
    pub fn f32_nearest(&mut self) -> &mut Self {
        self.put([0x90], [])
    }

    /// Appends `f32.sqrt` (opcode 0x91), a numeric instruction that computes the square root of a float.
    ///
    /// [`Instruction::F32Sqrt`](super::Instruction::F32Sqrt) is the same instruction as a value.
    #[doc(alias = "f32.sqrt")]
    pub fn f32_sqrt(&mut self) -> &mut Self {
        self.put([0x91], [])
    }

    /// Appends `f32.add` (opcode 0x92), a numeric instruction that adds two floats.
    ///
    /// [`Instruction::F32Add`](super::Instruction::F32Add) is the same instruction as a value.
    #[doc(alias = "f32.add")]
    pub fn f32_add(&mut self) -> &mut Self {
        self.put([0x92], [])
    }

    /// Appends `f32.sub` (opcode 0x93), a numeric instruction that subtracts two floats.
    ///
    /// [`Instruction::F32Sub`](super::Instruction::F32Sub) is the same instruction as a value.
    #[doc(alias = "f32.sub")]
    pub fn f32_sub(&mut self) -> &mut Self {
        self.put([0x93], [])
    }

    /// Appends `f32.mul` (opcode 0x94), a numeric instruction that multiplies two floats.
    ///
    /// [`Instruction::F32Mul`](super::Instruction::F32Mul) is the same instruction as a value.
    #[doc(alias = "f32.mul")]
    pub fn f32_mul(&mut self) -> &mut Self {
        self.put([0x94], [])
    }

    /// Appends `f32.div` (opcode 0x95), a numeric instruction that divides two floats.
    ///
    /// [`Instruction::F32Div`](super::Instruction::F32Div) is the same instruction as a value.
    #[doc(alias = "f32.div")]
    pub fn f32_div(&mut self) -> &mut Self {
        self.put([0x95], [])
    }

    /// Appends `f32.min` (opcode 0x96), a numeric instruction that computes the minimum of two floats.
    ///
    /// [`Instruction::F32Min`](super::Instruction::F32Min) is the same instruction as a value.
    #[doc(alias = "f32.min")]
    pub fn f32_min(&mut self) -> &mut Self {
        self.put([0x96], [])
    }

    /// Appends `f32.max` (opcode 0x97), a numeric instruction that computes the maximum of two floats.
    ///
    /// [`Instruction::F32Max`](super::Instruction::F32Max) is the same instruction as a value.
    #[doc(alias = "f32.max")]
    pub fn f32_max(&mut self) -> &mut Self {
        self.put([0x97], [])
    }

    /// Appends `f32.copysign` (opcode 0x98), a numeric instruction that copies the sign of a float to another.
    ///
    /// [`Instruction::F32Copysign`](super::Instruction::F32Copysign) is the same instruction as a value.
    #[doc(alias = "f32.copysign")]
    pub fn f32_copysign(&mut self) -> &mut Self {
        self.put([0x98], [])
    }

    /// Appends `f64.abs` (opcode 0x99), a numeric instruction that computes the absolute value of a float.
    ///
    /// [`Instruction::F64Abs`](super::Instruction::F64Abs) is the same instruction as a value.
    #[doc(alias = "f64.abs")]
    pub fn f64_abs(&mut self) -> &mut Self {
        self.put([0x99], [])
    }

    /// Appends `f64.neg` (opcode 0x9A), a numeric instruction that negates a float.
    ///
    /// [`Instruction::F64Neg`](super::Instruction::F64Neg) is the same instruction as a value.
    #[doc(alias = "f64.neg")]
    pub fn f64_neg(&mut self) -> &mut Self {
        self.put([0x9A], [])
    }

    /// Appends `f64.ceil` (opcode 0x9B), a numeric instruction that rounds a float up.
    ///
    /// [`Instruction::F64Ceil`](super::Instruction::F64Ceil) is the same instruction as a value.
    #[doc(alias = "f64.ceil")]
    pub fn f64_ceil(&mut self) -> &mut Self {
        self.put([0x9B], [])
    }

    /// Appends `f64.floor` (opcode 0x9C), a numeric instruction that rounds a float down.
    ///
    /// [`Instruction::F64Floor`](super::Instruction::F64Floor) is the same instruction as a value.
    #[doc(alias = "f64.floor")]
    pub fn f64_floor(&mut self) -> &mut Self {
        self.put([0x9C], [])
    }

    /// Appends `f64.trunc` (opcode 0x9D), a numeric instruction that rounds a float towards zero.
    ///
    /// [`Instruction::F64Trunc`](super::Instruction::F64Trunc) is the same instruction as a value.
    #[doc(alias = "f64.trunc")]
    pub fn f64_trunc(&mut self) -> &mut Self {
        self.put([0x9D], [])
    }

    /// Appends `f64.nearest` (opcode 0x9E), a numeric instruction that rounds a float to the nearest integer.
    ///
    /// [`Instruction::F64Nearest`](super::Instruction::F64Nearest) is the same instruction as a value.
    #[doc(alias = "f64.nearest")]
    pub fn f64_nearest(&mut self) -> &mut Self {
        self.put([0x9E], [])
    }

    /// Appends `f64.sqrt` (opcode 0x9F), a numeric instruction that computes the square root of a float.
    ///
    /// [`Instruction::F64Sqrt`](super::Instruction::F64Sqrt) is the same instruction as a value.
    #[doc(alias = "f64.sqrt")]
    pub fn f64_sqrt(&mut self) -> &mut Self {
        self.put([0x9F], [])
    }

    /// Appends `f64.add` (opcode 0xA0), a numeric instruction that adds two floats.
    ///
    /// [`Instruction::F64Add`](super::Instruction::F64Add) is the same instruction as a value.
    #[doc(alias = "f64.add")]
    pub fn f64_add(&mut self) -> &mut Self {
        self.put([0xA0], [])
    }

    /// Appends `f64.sub` (opcode 0xA1), a numeric instruction that subtracts two floats.
    ///
    /// [`Instruction::F64Sub`](super::Instruction::F64Sub) is the same instruction as a value.
    #[doc(alias = "f64.sub")]
    pub fn f64_sub(&mut self) -> &mut Self {
        self.put([0xA1], [])
    }

    /// Appends `f64.mul` (opcode 0xA2), a numeric instruction that multiplies two floats.
    ///
    /// [`Instruction::F64Mul`](super::Instruction::F64Mul) is the same instruction as a value.
    #[doc(alias = "f64.mul")]
    pub fn f64_mul(&mut self) -> &mut Self {
        self.put([0xA2], [])
    }

    /// Appends `f64.div` (opcode 0xA3), a numeric instruction that divides two floats.
    ///
    /// [`Instruction::F64Div`](super::Instruction::F64Div) is the same instruction as a value.
    #[doc(alias = "f64.div")]
    pub fn f64_div(&mut self) -> &mut Self {
        self.put([0xA3], [])
    }

    /// Appends `f64.min` (opcode 0xA4), a numeric instruction that computes the minimum of two floats.
    ///
    /// [`Instruction::F64Min`](super::Instruction::F64Min) is the same instruction as a value.
    #[doc(alias = "f64.min")]
    pub fn f64_min(&mut self) -> &mut Self {
        self.put([0xA4], [])
    }

    /// Appends `f64.max` (opcode 0xA5), a numeric instruction that computes the maximum of two floats.
    ///
    /// [`Instruction::F64Max`](super::Instruction::F64Max) is the same instruction as a value.
    #[doc(alias = "f64.max")]
    pub fn f64_max(&mut self) -> &mut Self {
        self.put([0xA5], [])
    }

    /// Appends `f64.copysign` (opcode 0xA6), a numeric instruction that copies the sign of a float to another.
    ///
    /// [`Instruction::F64Copysign`](super::Instruction::F64Copysign) is the same instruction as a value.
    #[doc(alias = "f64.copysign")]
    pub fn f64_copysign(&mut self) -> &mut Self {
        self.put([0xA6], [])
    }

    /// Appends `i32.wrap_i64` (opcode 0xA7), a numeric instruction that takes the lower 32 bits of an integer.
    ///
    /// [`Instruction::I32WrapI64`](super::Instruction::I32WrapI64) is the same instruction as a value.
    #[doc(alias = "i32.wrap_i64")]
    pub fn i32_wrap_i64(&mut self) -> &mut Self {
        self.put([0xA7], [])
    }

    /// Appends `i32.trunc_f32_s` (opcode 0xA8), a numeric instruction that converts a float to an integer, or traps.
    ///
    /// [`Instruction::I32TruncF32S`](super::Instruction::I32TruncF32S) is the same instruction as a value.
    #[doc(alias = "i32.trunc_f32_s")]
    pub fn i32_trunc_f32_s(&mut self) -> &mut Self {
        self.put([0xA8], [])
    }

    /// Appends `i32.trunc_f32_u` (opcode 0xA9), a numeric instruction that converts a float to an integer, or traps.
    ///
    /// [`Instruction::I32TruncF32U`](super::Instruction::I32TruncF32U) is the same instruction as a value.
    #[doc(alias = "i32.trunc_f32_u")]
    pub fn i32_trunc_f32_u(&mut self) -> &mut Self {
        self.put([0xA9], [])
    }

    /// Appends `i32.trunc_f64_s` (opcode 0xAA), a numeric instruction that converts a float to an integer, or traps.
    ///
    /// [`Instruction::I32TruncF64S`](super::Instruction::I32TruncF64S) is the same instruction as a value.
    #[doc(alias = "i32.trunc_f64_s")]
    pub fn i32_trunc_f64_s(&mut self) -> &mut Self {
        self.put([0xAA], [])
    }

    /// Appends `i32.trunc_f64_u` (opcode 0xAB), a numeric instruction that converts a float to an integer, or traps.
    ///
    /// [`Instruction::I32TruncF64U`](super::Instruction::I32TruncF64U) is the same instruction as a value.
    #[doc(alias = "i32.trunc_f64_u")]
    pub fn i32_trunc_f64_u(&mut self) -> &mut Self {
        self.put([0xAB], [])
    }

    /// Appends `i64.extend_i32_s` (opcode 0xAC), a numeric instruction that extends an integer to 64 bits.
    ///
    /// [`Instruction::I64ExtendI32S`](super::Instruction::I64ExtendI32S) is the same instruction as a value.
    #[doc(alias = "i64.extend_i32_s")]
    pub fn i64_extend_i32_s(&mut self) -> &mut Self {
        self.put([0xAC], [])
    }

    /// Appends `i64.extend_i32_u` (opcode 0xAD), a numeric instruction that extends an integer to 64 bits.
    ///
    /// [`Instruction::I64ExtendI32U`](super::Instruction::I64ExtendI32U) is the same instruction as a value.
    #[doc(alias = "i64.extend_i32_u")]
    pub fn i64_extend_i32_u(&mut self) -> &mut Self {
        self.put([0xAD], [])
    }

    /// Appends `i64.trunc_f32_s` (opcode 0xAE), a numeric instruction that converts a float to an integer, or traps.
    ///
    /// [`Instruction::I64TruncF32S`](super::Instruction::I64TruncF32S) is the same instruction as a value.
    #[doc(alias = "i64.trunc_f32_s")]
    pub fn i64_trunc_f32_s(&mut self) -> &mut Self {
        self.put([0xAE], [])
    }

    /// Appends `i64.trunc_f32_u` (opcode 0xAF), a numeric instruction that converts a float to an integer, or traps.
    ///
    /// [`Instruction::I64TruncF32U`](super::Instruction::I64TruncF32U) is the same instruction as a value.
    #[doc(alias = "i64.trunc_f32_u")]
    pub fn i64_trunc_f32_u(&mut self) -> &mut Self {
        self.put([0xAF], [])
    }

    /// Appends `i64.trunc_f64_s` (opcode 0xB0), a numeric instruction that converts a float to an integer, or traps.
    ///
    /// [`Instruction::I64TruncF64S`](super::Instruction::I64TruncF64S) is the same instruction as a value.
    #[doc(alias = "i64.trunc_f64_s")]
    pub fn i64_trunc_f64_s(&mut self) -> &mut Self {
        self.put([0xB0], [])
    }

    /// Appends `i64.trunc_f64_u` (opcode 0xB1), a numeric instruction that converts a float to an integer, or traps.
    ///
    /// [`Instruction::I64TruncF64U`](super::Instruction::I64TruncF64U) is the same instruction as a value.
    #[doc(alias = "i64.trunc_f64_u")]
    pub fn i64_trunc_f64_u(&mut self) -> &mut Self {
        self.put([0xB1], [])
    }

    /// Appends `f32.convert_i32_s` (opcode 0xB2), a numeric instruction that converts an integer to a float.
    ///
    /// [`Instruction::F32ConvertI32S`](super::Instruction::F32ConvertI32S) is the same instruction as a value.
    #[doc(alias = "f32.convert_i32_s")]
    pub fn f32_convert_i32_s(&mut self) -> &mut Self {
        self.put([0xB2], [])
    }

    /// Appends `f32.convert_i32_u` (opcode 0xB3), a numeric instruction that converts an integer to a float.
    ///
    /// [`Instruction::F32ConvertI32U`](super::Instruction::F32ConvertI32U) is the same instruction as a value.
    #[doc(alias = "f32.convert_i32_u")]
    pub fn f32_convert_i32_u(&mut self) -> &mut Self {
        self.put([0xB3], [])
    }

    /// Appends `f32.convert_i64_s` (opcode 0xB4), a numeric instruction that converts an integer to a float.
    ///
    /// [`Instruction::F32ConvertI64S`](super::Instruction::F32ConvertI64S) is the same instruction as a value.
    #[doc(alias = "f32.convert_i64_s")]
    pub fn f32_convert_i64_s(&mut self) -> &mut Self {
        self.put([0xB4], [])
    }

    /// Appends `f32.convert_i64_u` (opcode 0xB5), a numeric instruction that converts an integer to a float.
    ///
    /// [`Instruction::F32ConvertI64U`](super::Instruction::F32ConvertI64U) is the same instruction as a value.
    #[doc(alias = "f32.convert_i64_u")]
    pub fn f32_convert_i64_u(&mut self) -> &mut Self {
        self.put([0xB5], [])
    }

    /// Appends `f32.demote_f64` (opcode 0xB6), a numeric instruction that rounds a float to 32 bits.
    ///
    /// [`Instruction::F32DemoteF64`](super::Instruction::F32DemoteF64) is the same instruction as a value.
    #[doc(alias = "f32.demote_f64")]
    pub fn f32_demote_f64(&mut self) -> &mut Self {
        self.put([0xB6], [])
    }

    /// Appends `f64.convert_i32_s` (opcode 0xB7), a numeric instruction that converts an integer to a float.
    ///
    /// [`Instruction::F64ConvertI32S`](super::Instruction::F64ConvertI32S) is the same instruction as a value.
    #[doc(alias = "f64.convert_i32_s")]
    pub fn f64_convert_i32_s(&mut self) -> &mut Self {
        self.put([0xB7], [])
    }

    /// Appends `f64.convert_i32_u` (opcode 0xB8), a numeric instruction that converts an integer to a float.
    ///
    /// [`Instruction::F64ConvertI32U`](super::Instruction::F64ConvertI32U) is the same instruction as a value.
    #[doc(alias = "f64.convert_i32_u")]
    pub fn f64_convert_i32_u(&mut self) -> &mut Self {
        self.put([0xB8], [])
    }

    /// Appends `f64.convert_i64_s` (opcode 0xB9), a numeric instruction that converts an integer to a float.
    ///
    /// [`Instruction::F64ConvertI64S`](super::Instruction::F64ConvertI64S) is the same instruction as a value.
    #[doc(alias = "f64.convert_i64_s")]
    pub fn f64_convert_i64_s(&mut self) -> &mut Self {
        self.put([0xB9], [])
    }

    /// Appends `f64.convert_i64_u` (opcode 0xBA), a numeric instruction that converts an integer to a float.
    ///
    /// [`Instruction::F64ConvertI64U`](super::Instruction::F64ConvertI64U) is the same instruction as a value.
    #[doc(alias = "f64.convert_i64_u")]
    pub fn f64_convert_i64_u(&mut self) -> &mut Self {
        self.put([0xBA], [])
    }

    /// Appends `f64.promote_f32` (opcode 0xBB), a numeric instruction that converts a float to 64 bits.
    ///
    /// [`Instruction::F64PromoteF32`](super::Instruction::F64PromoteF32) is the same instruction as a value.
    #[doc(alias = "f64.promote_f32")]
    pub fn f64_promote_f32(&mut self) -> &mut Self {
        self.put([0xBB], [])
    }

    /// Appends `i32.reinterpret_f32` (opcode 0xBC), a numeric instruction that takes the bits of a number as another type.
    ///
    /// [`Instruction::I32ReinterpretF32`](super::Instruction::I32ReinterpretF32) is the same instruction as a value.
    #[doc(alias = "i32.reinterpret_f32")]
    pub fn i32_reinterpret_f32(&mut self) -> &mut Self {
        self.put([0xBC], [])
    }

    /// Appends `i64.reinterpret_f64` (opcode 0xBD), a numeric instruction that takes the bits of a number as another type.
    ///
    /// [`Instruction::I64ReinterpretF64`](super::Instruction::I64ReinterpretF64) is the same instruction as a value.
    #[doc(alias = "i64.reinterpret_f64")]
    pub fn i64_reinterpret_f64(&mut self) -> &mut Self {
        self.put([0xBD], [])
    }

    /// Appends `f32.reinterpret_i32` (opcode 0xBE), a numeric instruction that takes the bits of a number as another type.
    ///
    /// [`Instruction::F32ReinterpretI32`](super::Instruction::F32ReinterpretI32) is the same instruction as a value.
    #[doc(alias = "f32.reinterpret_i32")]
    pub fn f32_reinterpret_i32(&mut self) -> &mut Self {
        self.put([0xBE], [])
    }

    /// Appends `f64.reinterpret_i64` (opcode 0xBF), a numeric instruction that takes the bits of a number as another type.
    ///
    /// [`Instruction::F64ReinterpretI64`](super::Instruction::F64ReinterpretI64) is the same instruction as a value.
    #[doc(alias = "f64.reinterpret_i64")]
    pub fn f64_reinterpret_i64(&mut self) -> &mut Self {
        self.put([0xBF], [])
    }

    /// Appends `i32.extend8_s` (opcode 0xC0), a numeric instruction that sign-extends the lower 8 bits of an integer.
    ///
    /// [`Instruction::I32Extend8S`](super::Instruction::I32Extend8S) is the same instruction as a value.
    #[doc(alias = "i32.extend8_s")]
    pub fn i32_extend8_s(&mut self) -> &mut Self {
        self.put([0xC0], [])
    }

    /// Appends `i32.extend16_s` (opcode 0xC1), a numeric instruction that sign-extends the lower 16 bits of an integer.
    ///
    /// [`Instruction::I32Extend16S`](super::Instruction::I32Extend16S) is the same instruction as a value.
    #[doc(alias = "i32.extend16_s")]
    pub fn i32_extend16_s(&mut self) -> &mut Self {
        self.put([0xC1], [])
    }

    /// Appends `i64.extend8_s` (opcode 0xC2), a numeric instruction that sign-extends the lower 8 bits of an integer.
    ///
    /// [`Instruction::I64Extend8S`](super::Instruction::I64Extend8S) is the same instruction as a value.
    #[doc(alias = "i64.extend8_s")]
    pub fn i64_extend8_s(&mut self) -> &mut Self {
        self.put([0xC2], [])
    }

    /// Appends `i64.extend16_s` (opcode 0xC3), a numeric instruction that sign-extends the lower 16 bits of an integer.
    ///
    /// [`Instruction::I64Extend16S`](super::Instruction::I64Extend16S) is the same instruction as a value.
    #[doc(alias = "i64.extend16_s")]
    pub fn i64_extend16_s(&mut self) -> &mut Self {
        self.put([0xC3], [])
    }

    /// Appends `i64.extend32_s` (opcode 0xC4), a numeric instruction that sign-extends the lower 32 bits of an integer.
    ///
    /// [`Instruction::I64Extend32S`](super::Instruction::I64Extend32S) is the same instruction as a value.
    #[doc(alias = "i64.extend32_s")]
    pub fn i64_extend32_s(&mut self) -> &mut Self {
        self.put([0xC4], [])
    }

    /// Appends `ref.null` (opcode 0xD0), a reference instruction that returns a null reference.
    ///
    /// [`Instruction::RefNull`](super::Instruction::RefNull) is the same instruction as a value.
    /// The proved [`ref_null`](insn::InstructionSink::ref_null) of `fallible` encodes the same.
    #[doc(alias = "ref.null")]
    pub fn ref_null(&mut self, heap_type: HeapType) -> &mut Self {
        self.put([0xD0], heap_type)
    }

    /// Appends `ref.is_null` (opcode 0xD1), a reference instruction that tests whether a reference is null.
    ///
    /// [`Instruction::RefIsNull`](super::Instruction::RefIsNull) is the same instruction as a value.
    /// The proved [`ref_is_null`](insn::InstructionSink::ref_is_null) of `fallible` encodes the same.
    #[doc(alias = "ref.is_null")]
    pub fn ref_is_null(&mut self) -> &mut Self {
        self.put([0xD1], [])
    }

    /// Appends `ref.func` (opcode 0xD2), a reference instruction that returns a reference to a function.
    ///
    /// Imported functions have the first indices: see [`ImportSection`](super::ImportSection).
    ///
    /// [`Instruction::RefFunc`](super::Instruction::RefFunc) is the same instruction as a value.
    /// The proved [`ref_func`](insn::InstructionSink::ref_func) of `fallible` encodes the same.
    #[doc(alias = "ref.func")]
    pub fn ref_func(&mut self, function_index: u32) -> &mut Self {
        self.put([0xD2], function_index)
    }

    /// Appends `ref.eq` (opcode 0xD3), a reference instruction that compares two references.
    ///
    /// [`Instruction::RefEq`](super::Instruction::RefEq) is the same instruction as a value.
    #[doc(alias = "ref.eq")]
    pub fn ref_eq(&mut self) -> &mut Self {
        self.put([0xD3], [])
    }

    /// Appends `ref.as_non_null` (opcode 0xD4), a reference instruction that traps if a reference is null.
    ///
    /// [`Instruction::RefAsNonNull`](super::Instruction::RefAsNonNull) is the same instruction as a value.
    #[doc(alias = "ref.as_non_null")]
    pub fn ref_as_non_null(&mut self) -> &mut Self {
        self.put([0xD4], [])
    }

    /// Appends `br_on_null` (opcode 0xD5), a control instruction that branches to a label if a reference is null.
    ///
    /// [`Instruction::BrOnNull`](super::Instruction::BrOnNull) is the same instruction as a value.
    pub fn br_on_null(&mut self, label: u32) -> &mut Self {
        self.put([0xD5], label)
    }

    /// Appends `br_on_non_null` (opcode 0xD6), a control instruction that branches to a label if a reference is not null.
    ///
    /// [`Instruction::BrOnNonNull`](super::Instruction::BrOnNonNull) is the same instruction as a value.
    pub fn br_on_non_null(&mut self, label: u32) -> &mut Self {
        self.put([0xD6], label)
    }

    /// Appends `cont.new` (opcode 0xE0), a control instruction of the stack switching proposal that makes a continuation of a function.
    ///
    /// [`Instruction::ContNew`](super::Instruction::ContNew) is the same instruction as a value.
    #[doc(alias = "cont.new")]
    pub fn cont_new(&mut self, type_index: u32) -> &mut Self {
        self.put([0xE0], type_index)
    }

    /// Appends `cont.bind` (opcode 0xE1), a control instruction of the stack switching proposal that binds arguments to a continuation.
    ///
    /// [`Instruction::ContBind`](super::Instruction::ContBind) is the same instruction as a value.
    #[doc(alias = "cont.bind")]
    pub fn cont_bind(&mut self, argument_index: u32, result_index: u32) -> &mut Self {
        self.put([0xE1], (argument_index, result_index))
    }

    /// Appends `suspend` (opcode 0xE2), a control instruction of the stack switching proposal that suspends the current continuation with a tag.
    ///
    /// [`Instruction::Suspend`](super::Instruction::Suspend) is the same instruction as a value.
    pub fn suspend(&mut self, tag_index: u32) -> &mut Self {
        self.put([0xE2], tag_index)
    }

    /// Appends `resume` (opcode 0xE3), a control instruction of the stack switching proposal that resumes a continuation.
    ///
    /// [`Instruction::Resume`](super::Instruction::Resume) is the same instruction as a value.
    ///
    /// ```
    /// use dolzhytik::{InstructionSink, Handle};
    ///
    /// let mut bytes = Vec::new();
    /// InstructionSink::new(&mut bytes)
    ///     .resume(5, [Handle::OnLabel { tag: 3, label: 4 }]);
    /// // Continuation type 5, and one handler: 00, tag 3, label 4.
    /// assert_eq!(bytes, [0xE3, 5, 1, 0x00, 3, 4]);
    /// ```
    ///
    /// # Panics
    ///
    /// Panics if the list has more than 4294967295 items.
    pub fn resume<V: IntoIterator<Item = Handle>>(&mut self, cont_type_index: u32, resume_table: V) -> &mut Self
    where
        V::IntoIter: ExactSizeIterator,
    {
        self.listed(([0xE3], cont_type_index), resume_table)
    }

    /// Appends `resume_throw` (opcode 0xE4), a control instruction of the stack switching proposal that resumes a continuation by throwing an exception in it.
    ///
    /// [`Instruction::ResumeThrow`](super::Instruction::ResumeThrow) is the same instruction as a value.
    ///
    /// # Panics
    ///
    /// Panics if the list has more than 4294967295 items.
    pub fn resume_throw<V: IntoIterator<Item = Handle>>(&mut self, cont_type_index: u32, tag_index: u32, resume_table: V) -> &mut Self
    where
        V::IntoIter: ExactSizeIterator,
    {
        self.listed(([0xE4], cont_type_index, tag_index), resume_table)
    }

    /// Appends `resume_throw_ref` (opcode 0xE5), a control instruction of the stack switching proposal that resumes a continuation by throwing an exception in it.
    ///
    /// [`Instruction::ResumeThrowRef`](super::Instruction::ResumeThrowRef) is the same instruction as a value.
    ///
    /// # Panics
    ///
    /// Panics if the list has more than 4294967295 items.
    pub fn resume_throw_ref<V: IntoIterator<Item = Handle>>(&mut self, cont_type_index: u32, resume_table: V) -> &mut Self
    where
        V::IntoIter: ExactSizeIterator,
    {
        self.listed(([0xE5], cont_type_index), resume_table)
    }

    /// Appends `switch` (opcode 0xE6), a control instruction of the stack switching proposal that switches to another continuation.
    ///
    /// [`Instruction::Switch`](super::Instruction::Switch) is the same instruction as a value.
    pub fn switch(&mut self, cont_type_index: u32, tag_index: u32) -> &mut Self {
        self.put([0xE6], (cont_type_index, tag_index))
    }

    /// Appends `struct.new` (opcode 0xFB 0), an aggregate instruction that makes a structure of given values.
    ///
    /// [`Instruction::StructNew`](super::Instruction::StructNew) is the same instruction as a value.
    #[doc(alias = "struct.new")]
    pub fn struct_new(&mut self, type_index: u32) -> &mut Self {
        self.put([0xFB, 0x00], type_index)
    }

    /// Appends `struct.new_default` (opcode 0xFB 1), an aggregate instruction that makes a structure of default values.
    ///
    /// [`Instruction::StructNewDefault`](super::Instruction::StructNewDefault) is the same instruction as a value.
    #[doc(alias = "struct.new_default")]
    pub fn struct_new_default(&mut self, type_index: u32) -> &mut Self {
        self.put([0xFB, 0x01], type_index)
    }

    /// Appends `struct.get` (opcode 0xFB 2), an aggregate instruction that reads a field of a structure.
    ///
    /// [`Instruction::StructGet`](super::Instruction::StructGet) is the same instruction as a value.
    ///
    /// ```
    /// use dolzhytik::InstructionSink;
    ///
    /// let mut bytes = Vec::new();
    /// InstructionSink::new(&mut bytes).struct_get(1, 2);
    /// // Structure type 1, field 2.
    /// assert_eq!(bytes, [0xFB, 2, 1, 2]);
    /// ```
    #[doc(alias = "struct.get")]
    pub fn struct_get(&mut self, struct_type_index: u32, field_index: u32) -> &mut Self {
        self.put([0xFB, 0x02], (struct_type_index, field_index))
    }

    /// Appends `struct.get_s` (opcode 0xFB 3), an aggregate instruction that reads a field of a structure, sign-extended.
    ///
    /// [`Instruction::StructGetS`](super::Instruction::StructGetS) is the same instruction as a value.
    #[doc(alias = "struct.get_s")]
    pub fn struct_get_s(&mut self, struct_type_index: u32, field_index: u32) -> &mut Self {
        self.put([0xFB, 0x03], (struct_type_index, field_index))
    }

    /// Appends `struct.get_u` (opcode 0xFB 4), an aggregate instruction that reads a field of a structure, zero-extended.
    ///
    /// [`Instruction::StructGetU`](super::Instruction::StructGetU) is the same instruction as a value.
    #[doc(alias = "struct.get_u")]
    pub fn struct_get_u(&mut self, struct_type_index: u32, field_index: u32) -> &mut Self {
        self.put([0xFB, 0x04], (struct_type_index, field_index))
    }

    /// Appends `struct.set` (opcode 0xFB 5), an aggregate instruction that writes a field of a structure.
    ///
    /// [`Instruction::StructSet`](super::Instruction::StructSet) is the same instruction as a value.
    #[doc(alias = "struct.set")]
    pub fn struct_set(&mut self, struct_type_index: u32, field_index: u32) -> &mut Self {
        self.put([0xFB, 0x05], (struct_type_index, field_index))
    }

    /// Appends `array.new` (opcode 0xFB 6), an aggregate instruction that makes an array with one value in each element.
    ///
    /// [`Instruction::ArrayNew`](super::Instruction::ArrayNew) is the same instruction as a value.
    #[doc(alias = "array.new")]
    pub fn array_new(&mut self, type_index: u32) -> &mut Self {
        self.put([0xFB, 0x06], type_index)
    }

    /// Appends `array.new_default` (opcode 0xFB 7), an aggregate instruction that makes an array of default values.
    ///
    /// [`Instruction::ArrayNewDefault`](super::Instruction::ArrayNewDefault) is the same instruction as a value.
    #[doc(alias = "array.new_default")]
    pub fn array_new_default(&mut self, type_index: u32) -> &mut Self {
        self.put([0xFB, 0x07], type_index)
    }

    /// Appends `array.new_fixed` (opcode 0xFB 8), an aggregate instruction that makes an array of operands.
    ///
    /// [`Instruction::ArrayNewFixed`](super::Instruction::ArrayNewFixed) is the same instruction as a value.
    ///
    /// ```
    /// use dolzhytik::InstructionSink;
    ///
    /// let mut bytes = Vec::new();
    /// InstructionSink::new(&mut bytes).array_new_fixed(1, 3);
    /// // Array type 1, three elements.
    /// assert_eq!(bytes, [0xFB, 8, 1, 3]);
    /// ```
    #[doc(alias = "array.new_fixed")]
    pub fn array_new_fixed(&mut self, array_type_index: u32, array_size: u32) -> &mut Self {
        self.put([0xFB, 0x08], (array_type_index, array_size))
    }

    /// Appends `array.new_data` (opcode 0xFB 9), an aggregate instruction that makes an array of the bytes of a data segment.
    ///
    /// [`Instruction::ArrayNewData`](super::Instruction::ArrayNewData) is the same instruction as a value.
    #[doc(alias = "array.new_data")]
    pub fn array_new_data(&mut self, array_type_index: u32, array_data_index: u32) -> &mut Self {
        self.put([0xFB, 0x09], (array_type_index, array_data_index))
    }

    /// Appends `array.new_elem` (opcode 0xFB 10), an aggregate instruction that makes an array of the references of an element segment.
    ///
    /// [`Instruction::ArrayNewElem`](super::Instruction::ArrayNewElem) is the same instruction as a value.
    #[doc(alias = "array.new_elem")]
    pub fn array_new_elem(&mut self, array_type_index: u32, array_elem_index: u32) -> &mut Self {
        self.put([0xFB, 0x0A], (array_type_index, array_elem_index))
    }

    /// Appends `array.get` (opcode 0xFB 11), an aggregate instruction that reads an element of an array.
    ///
    /// [`Instruction::ArrayGet`](super::Instruction::ArrayGet) is the same instruction as a value.
    #[doc(alias = "array.get")]
    pub fn array_get(&mut self, type_index: u32) -> &mut Self {
        self.put([0xFB, 0x0B], type_index)
    }

    /// Appends `array.get_s` (opcode 0xFB 12), an aggregate instruction that reads an element of an array, sign-extended.
    ///
    /// [`Instruction::ArrayGetS`](super::Instruction::ArrayGetS) is the same instruction as a value.
    #[doc(alias = "array.get_s")]
    pub fn array_get_s(&mut self, type_index: u32) -> &mut Self {
        self.put([0xFB, 0x0C], type_index)
    }

    /// Appends `array.get_u` (opcode 0xFB 13), an aggregate instruction that reads an element of an array, zero-extended.
    ///
    /// [`Instruction::ArrayGetU`](super::Instruction::ArrayGetU) is the same instruction as a value.
    #[doc(alias = "array.get_u")]
    pub fn array_get_u(&mut self, type_index: u32) -> &mut Self {
        self.put([0xFB, 0x0D], type_index)
    }

    /// Appends `array.set` (opcode 0xFB 14), an aggregate instruction that writes an element of an array.
    ///
    /// [`Instruction::ArraySet`](super::Instruction::ArraySet) is the same instruction as a value.
    #[doc(alias = "array.set")]
    pub fn array_set(&mut self, type_index: u32) -> &mut Self {
        self.put([0xFB, 0x0E], type_index)
    }

    /// Appends `array.len` (opcode 0xFB 15), an aggregate instruction that returns the number of elements of an array.
    ///
    /// [`Instruction::ArrayLen`](super::Instruction::ArrayLen) is the same instruction as a value.
    #[doc(alias = "array.len")]
    pub fn array_len(&mut self) -> &mut Self {
        self.put([0xFB, 0x0F], [])
    }

    /// Appends `array.fill` (opcode 0xFB 16), an aggregate instruction that sets elements of an array to one value.
    ///
    /// [`Instruction::ArrayFill`](super::Instruction::ArrayFill) is the same instruction as a value.
    #[doc(alias = "array.fill")]
    pub fn array_fill(&mut self, type_index: u32) -> &mut Self {
        self.put([0xFB, 0x10], type_index)
    }

    /// Appends `array.copy` (opcode 0xFB 17), an aggregate instruction that copies elements from one array to another.
    ///
    /// [`Instruction::ArrayCopy`](super::Instruction::ArrayCopy) is the same instruction as a value.
    #[doc(alias = "array.copy")]
    pub fn array_copy(&mut self, array_type_index_dst: u32, array_type_index_src: u32) -> &mut Self {
        self.put([0xFB, 0x11], (array_type_index_dst, array_type_index_src))
    }

    /// Appends `array.init_data` (opcode 0xFB 18), an aggregate instruction that copies bytes of a data segment to an array.
    ///
    /// [`Instruction::ArrayInitData`](super::Instruction::ArrayInitData) is the same instruction as a value.
    #[doc(alias = "array.init_data")]
    pub fn array_init_data(&mut self, array_type_index: u32, array_data_index: u32) -> &mut Self {
        self.put([0xFB, 0x12], (array_type_index, array_data_index))
    }

    /// Appends `array.init_elem` (opcode 0xFB 19), an aggregate instruction that copies references of an element segment to an array.
    ///
    /// [`Instruction::ArrayInitElem`](super::Instruction::ArrayInitElem) is the same instruction as a value.
    #[doc(alias = "array.init_elem")]
    pub fn array_init_elem(&mut self, array_type_index: u32, array_elem_index: u32) -> &mut Self {
        self.put([0xFB, 0x13], (array_type_index, array_elem_index))
    }

    /// Appends `ref.test (ref ht)` (opcode 0xFB 20), a reference instruction that tests whether a reference has a type.
    ///
    /// [`Instruction::RefTestNonNull`](super::Instruction::RefTestNonNull) is the same instruction as a value.
    #[doc(alias = "ref.test")]
    pub fn ref_test_non_null(&mut self, heap_type: HeapType) -> &mut Self {
        self.put([0xFB, 0x14], heap_type)
    }

    /// Appends `ref.test (ref null ht)` (opcode 0xFB 21), a reference instruction that tests whether a reference has a type.
    ///
    /// [`Instruction::RefTestNullable`](super::Instruction::RefTestNullable) is the same instruction as a value.
    #[doc(alias = "ref.test")]
    pub fn ref_test_nullable(&mut self, heap_type: HeapType) -> &mut Self {
        self.put([0xFB, 0x15], heap_type)
    }

    /// Appends `ref.cast (ref ht)` (opcode 0xFB 22), a reference instruction that casts a reference to a type, or traps.
    ///
    /// [`Instruction::RefCastNonNull`](super::Instruction::RefCastNonNull) is the same instruction as a value.
    #[doc(alias = "ref.cast")]
    pub fn ref_cast_non_null(&mut self, heap_type: HeapType) -> &mut Self {
        self.put([0xFB, 0x16], heap_type)
    }

    /// Appends `ref.cast (ref null ht)` (opcode 0xFB 23), a reference instruction that casts a reference to a type, or traps.
    ///
    /// [`Instruction::RefCastNullable`](super::Instruction::RefCastNullable) is the same instruction as a value.
    #[doc(alias = "ref.cast")]
    pub fn ref_cast_nullable(&mut self, heap_type: HeapType) -> &mut Self {
        self.put([0xFB, 0x17], heap_type)
    }

    /// Appends `br_on_cast` (opcode 0xFB 24), a control instruction that branches to a label if a reference has a type.
    ///
    /// [`Instruction::BrOnCast`](super::Instruction::BrOnCast) is the same instruction as a value.
    ///
    /// ```
    /// use dolzhytik::{InstructionSink, AbstractHeapType, RefType};
    ///
    /// let mut bytes = Vec::new();
    /// InstructionSink::new(&mut bytes)
    ///     .br_on_cast(7, RefType::FUNCREF, RefType::new_abstract(AbstractHeapType::NoFunc, false, false));
    /// // Flags 1, since the first type is nullable alone; label 7; func, and nofunc.
    /// assert_eq!(bytes, [0xFB, 24, 1, 7, 0x70, 0x73]);
    /// ```
    pub fn br_on_cast(&mut self, relative_depth: u32, from_ref_type: RefType, to_ref_type: RefType) -> &mut Self {
        self.value(&insn::Instruction::BrOnCast { relative_depth, from_ref_type, to_ref_type })
    }

    /// Appends `br_on_cast_fail` (opcode 0xFB 25), a control instruction that branches to a label if a reference does not have a type.
    ///
    /// [`Instruction::BrOnCastFail`](super::Instruction::BrOnCastFail) is the same instruction as a value.
    pub fn br_on_cast_fail(&mut self, relative_depth: u32, from_ref_type: RefType, to_ref_type: RefType) -> &mut Self {
        self.value(&insn::Instruction::BrOnCastFail { relative_depth, from_ref_type, to_ref_type })
    }

    /// Appends `any.convert_extern` (opcode 0xFB 26), an aggregate instruction that converts an external reference to an internal one.
    ///
    /// [`Instruction::AnyConvertExtern`](super::Instruction::AnyConvertExtern) is the same instruction as a value.
    #[doc(alias = "any.convert_extern")]
    pub fn any_convert_extern(&mut self) -> &mut Self {
        self.put([0xFB, 0x1A], [])
    }

    /// Appends `extern.convert_any` (opcode 0xFB 27), an aggregate instruction that converts an internal reference to an external one.
    ///
    /// [`Instruction::ExternConvertAny`](super::Instruction::ExternConvertAny) is the same instruction as a value.
    #[doc(alias = "extern.convert_any")]
    pub fn extern_convert_any(&mut self) -> &mut Self {
        self.put([0xFB, 0x1B], [])
    }

    /// Appends `ref.i31` (opcode 0xFB 28), an aggregate instruction that makes a reference of the lower 31 bits of an integer.
    ///
    /// [`Instruction::RefI31`](super::Instruction::RefI31) is the same instruction as a value.
    #[doc(alias = "ref.i31")]
    pub fn ref_i31(&mut self) -> &mut Self {
        self.put([0xFB, 0x1C], [])
    }

    /// Appends `i31.get_s` (opcode 0xFB 29), an aggregate instruction that reads the integer of 31 bits of a reference, sign-extended.
    ///
    /// [`Instruction::I31GetS`](super::Instruction::I31GetS) is the same instruction as a value.
    #[doc(alias = "i31.get_s")]
    pub fn i31_get_s(&mut self) -> &mut Self {
        self.put([0xFB, 0x1D], [])
    }

    /// Appends `i31.get_u` (opcode 0xFB 30), an aggregate instruction that reads the integer of 31 bits of a reference, zero-extended.
    ///
    /// [`Instruction::I31GetU`](super::Instruction::I31GetU) is the same instruction as a value.
    #[doc(alias = "i31.get_u")]
    pub fn i31_get_u(&mut self) -> &mut Self {
        self.put([0xFB, 0x1E], [])
    }

    /// Appends `struct.new_desc` (opcode 0xFB 32), an instruction of the custom descriptors proposal that makes a structure of given values, with a descriptor.
    ///
    /// [`Instruction::StructNewDesc`](super::Instruction::StructNewDesc) is the same instruction as a value.
    #[doc(alias = "struct.new_desc")]
    pub fn struct_new_desc(&mut self, type_index: u32) -> &mut Self {
        self.put([0xFB, 0x20], type_index)
    }

    /// Appends `struct.new_default_desc` (opcode 0xFB 33), an instruction of the custom descriptors proposal that makes a structure of default values, with a descriptor.
    ///
    /// [`Instruction::StructNewDefaultDesc`](super::Instruction::StructNewDefaultDesc) is the same instruction as a value.
    #[doc(alias = "struct.new_default_desc")]
    pub fn struct_new_default_desc(&mut self, type_index: u32) -> &mut Self {
        self.put([0xFB, 0x21], type_index)
    }

    /// Appends `ref.get_desc` (opcode 0xFB 34), an instruction of the custom descriptors proposal that reads the descriptor of a structure.
    ///
    /// [`Instruction::RefGetDesc`](super::Instruction::RefGetDesc) is the same instruction as a value.
    #[doc(alias = "ref.get_desc")]
    pub fn ref_get_desc(&mut self, type_index: u32) -> &mut Self {
        self.put([0xFB, 0x22], type_index)
    }

    /// Appends `ref.cast_desc_eq (ref ht)` (opcode 0xFB 35), an instruction of the custom descriptors proposal that casts a reference that has the given descriptor, or traps.
    ///
    /// [`Instruction::RefCastDescEqNonNull`](super::Instruction::RefCastDescEqNonNull) is the same instruction as a value.
    #[doc(alias = "ref.cast_desc_eq")]
    pub fn ref_cast_desc_eq_non_null(&mut self, heap_type: HeapType) -> &mut Self {
        self.put([0xFB, 0x23], heap_type)
    }

    /// Appends `ref.cast_desc_eq (ref null ht)` (opcode 0xFB 36), an instruction of the custom descriptors proposal that casts a reference that has the given descriptor, or traps.
    ///
    /// [`Instruction::RefCastDescEqNullable`](super::Instruction::RefCastDescEqNullable) is the same instruction as a value.
    #[doc(alias = "ref.cast_desc_eq")]
    pub fn ref_cast_desc_eq_nullable(&mut self, heap_type: HeapType) -> &mut Self {
        self.put([0xFB, 0x24], heap_type)
    }

    /// Appends `br_on_cast_desc_eq` (opcode 0xFB 37), an instruction of the custom descriptors proposal that branches to a label if a reference has the given descriptor.
    ///
    /// [`Instruction::BrOnCastDescEq`](super::Instruction::BrOnCastDescEq) is the same instruction as a value.
    pub fn br_on_cast_desc_eq(&mut self, relative_depth: u32, from_ref_type: RefType, to_ref_type: RefType) -> &mut Self {
        self.value(&insn::Instruction::BrOnCastDescEq { relative_depth, from_ref_type, to_ref_type })
    }

    /// Appends `br_on_cast_desc_eq_fail` (opcode 0xFB 38), an instruction of the custom descriptors proposal that branches to a label if a reference does not have the given descriptor.
    ///
    /// [`Instruction::BrOnCastDescEqFail`](super::Instruction::BrOnCastDescEqFail) is the same instruction as a value.
    pub fn br_on_cast_desc_eq_fail(&mut self, relative_depth: u32, from_ref_type: RefType, to_ref_type: RefType) -> &mut Self {
        self.value(&insn::Instruction::BrOnCastDescEqFail { relative_depth, from_ref_type, to_ref_type })
    }

    /// Appends `i32.trunc_sat_f32_s` (opcode 0xFC 0), a numeric instruction that converts a float to an integer, and saturates.
    ///
    /// [`Instruction::I32TruncSatF32S`](super::Instruction::I32TruncSatF32S) is the same instruction as a value.
    #[doc(alias = "i32.trunc_sat_f32_s")]
    pub fn i32_trunc_sat_f32_s(&mut self) -> &mut Self {
        self.put([0xFC, 0x00], [])
    }

    /// Appends `i32.trunc_sat_f32_u` (opcode 0xFC 1), a numeric instruction that converts a float to an integer, and saturates.
    ///
    /// [`Instruction::I32TruncSatF32U`](super::Instruction::I32TruncSatF32U) is the same instruction as a value.
    #[doc(alias = "i32.trunc_sat_f32_u")]
    pub fn i32_trunc_sat_f32_u(&mut self) -> &mut Self {
        self.put([0xFC, 0x01], [])
    }

    /// Appends `i32.trunc_sat_f64_s` (opcode 0xFC 2), a numeric instruction that converts a float to an integer, and saturates.
    ///
    /// [`Instruction::I32TruncSatF64S`](super::Instruction::I32TruncSatF64S) is the same instruction as a value.
    #[doc(alias = "i32.trunc_sat_f64_s")]
    pub fn i32_trunc_sat_f64_s(&mut self) -> &mut Self {
        self.put([0xFC, 0x02], [])
    }

    /// Appends `i32.trunc_sat_f64_u` (opcode 0xFC 3), a numeric instruction that converts a float to an integer, and saturates.
    ///
    /// [`Instruction::I32TruncSatF64U`](super::Instruction::I32TruncSatF64U) is the same instruction as a value.
    #[doc(alias = "i32.trunc_sat_f64_u")]
    pub fn i32_trunc_sat_f64_u(&mut self) -> &mut Self {
        self.put([0xFC, 0x03], [])
    }

    /// Appends `i64.trunc_sat_f32_s` (opcode 0xFC 4), a numeric instruction that converts a float to an integer, and saturates.
    ///
    /// [`Instruction::I64TruncSatF32S`](super::Instruction::I64TruncSatF32S) is the same instruction as a value.
    #[doc(alias = "i64.trunc_sat_f32_s")]
    pub fn i64_trunc_sat_f32_s(&mut self) -> &mut Self {
        self.put([0xFC, 0x04], [])
    }

    /// Appends `i64.trunc_sat_f32_u` (opcode 0xFC 5), a numeric instruction that converts a float to an integer, and saturates.
    ///
    /// [`Instruction::I64TruncSatF32U`](super::Instruction::I64TruncSatF32U) is the same instruction as a value.
    #[doc(alias = "i64.trunc_sat_f32_u")]
    pub fn i64_trunc_sat_f32_u(&mut self) -> &mut Self {
        self.put([0xFC, 0x05], [])
    }

    /// Appends `i64.trunc_sat_f64_s` (opcode 0xFC 6), a numeric instruction that converts a float to an integer, and saturates.
    ///
    /// [`Instruction::I64TruncSatF64S`](super::Instruction::I64TruncSatF64S) is the same instruction as a value.
    #[doc(alias = "i64.trunc_sat_f64_s")]
    pub fn i64_trunc_sat_f64_s(&mut self) -> &mut Self {
        self.put([0xFC, 0x06], [])
    }

    /// Appends `i64.trunc_sat_f64_u` (opcode 0xFC 7), a numeric instruction that converts a float to an integer, and saturates.
    ///
    /// [`Instruction::I64TruncSatF64U`](super::Instruction::I64TruncSatF64U) is the same instruction as a value.
    #[doc(alias = "i64.trunc_sat_f64_u")]
    pub fn i64_trunc_sat_f64_u(&mut self) -> &mut Self {
        self.put([0xFC, 0x07], [])
    }

    /// Appends `memory.init` (opcode 0xFC 8), a memory instruction that copies bytes of a data segment to a memory.
    ///
    /// [`Instruction::MemoryInit`](super::Instruction::MemoryInit) is the same instruction as a value.
    /// The encoding has `data_index` before `mem`.
    ///
    /// ```
    /// use dolzhytik::InstructionSink;
    ///
    /// let mut bytes = Vec::new();
    /// InstructionSink::new(&mut bytes).memory_init(1, 2);
    /// // Data segment 2, and then memory 1.
    /// assert_eq!(bytes, [0xFC, 8, 2, 1]);
    /// ```
    #[doc(alias = "memory.init")]
    pub fn memory_init(&mut self, mem: u32, data_index: u32) -> &mut Self {
        self.put([0xFC, 0x08], (data_index, mem))
    }

    /// Appends `data.drop` (opcode 0xFC 9), a memory instruction that drops a data segment.
    ///
    /// [`Instruction::DataDrop`](super::Instruction::DataDrop) is the same instruction as a value.
    #[doc(alias = "data.drop")]
    pub fn data_drop(&mut self, data_index: u32) -> &mut Self {
        self.put([0xFC, 0x09], data_index)
    }

    /// Appends `memory.copy` (opcode 0xFC 10), a memory instruction that copies bytes from one memory to another.
    ///
    /// [`Instruction::MemoryCopy`](super::Instruction::MemoryCopy) is the same instruction as a value.
    ///
    /// ```
    /// use dolzhytik::InstructionSink;
    ///
    /// let mut bytes = Vec::new();
    /// InstructionSink::new(&mut bytes).memory_copy(2, 1);
    /// // To memory 2, from memory 1.
    /// assert_eq!(bytes, [0xFC, 10, 2, 1]);
    /// ```
    #[doc(alias = "memory.copy")]
    pub fn memory_copy(&mut self, dst_mem: u32, src_mem: u32) -> &mut Self {
        self.put([0xFC, 0x0A], (dst_mem, src_mem))
    }

    /// Appends `memory.fill` (opcode 0xFC 11), a memory instruction that sets bytes of a memory to one value.
    ///
    /// [`Instruction::MemoryFill`](super::Instruction::MemoryFill) is the same instruction as a value.
    #[doc(alias = "memory.fill")]
    pub fn memory_fill(&mut self, mem: u32) -> &mut Self {
        self.put([0xFC, 0x0B], mem)
    }

    /// Appends `table.init` (opcode 0xFC 12), a table instruction that copies elements of an element segment to a table.
    ///
    /// [`Instruction::TableInit`](super::Instruction::TableInit) is the same instruction as a value.
    /// The encoding has `elem_index` before `table`.
    ///
    /// ```
    /// use dolzhytik::InstructionSink;
    ///
    /// let mut bytes = Vec::new();
    /// InstructionSink::new(&mut bytes).table_init(1, 2);
    /// // Element segment 2, and then table 1.
    /// assert_eq!(bytes, [0xFC, 12, 2, 1]);
    /// ```
    #[doc(alias = "table.init")]
    pub fn table_init(&mut self, table: u32, elem_index: u32) -> &mut Self {
        self.put([0xFC, 0x0C], (elem_index, table))
    }

    /// Appends `elem.drop` (opcode 0xFC 13), a table instruction that drops an element segment.
    ///
    /// [`Instruction::ElemDrop`](super::Instruction::ElemDrop) is the same instruction as a value.
    #[doc(alias = "elem.drop")]
    pub fn elem_drop(&mut self, elem_index: u32) -> &mut Self {
        self.put([0xFC, 0x0D], elem_index)
    }

    /// Appends `table.copy` (opcode 0xFC 14), a table instruction that copies elements from one table to another.
    ///
    /// [`Instruction::TableCopy`](super::Instruction::TableCopy) is the same instruction as a value.
    ///
    /// ```
    /// use dolzhytik::InstructionSink;
    ///
    /// let mut bytes = Vec::new();
    /// InstructionSink::new(&mut bytes).table_copy(2, 1);
    /// // To table 2, from table 1.
    /// assert_eq!(bytes, [0xFC, 14, 2, 1]);
    /// ```
    #[doc(alias = "table.copy")]
    pub fn table_copy(&mut self, dst_table: u32, src_table: u32) -> &mut Self {
        self.put([0xFC, 0x0E], (dst_table, src_table))
    }

    /// Appends `table.grow` (opcode 0xFC 15), a table instruction that grows a table.
    ///
    /// [`Instruction::TableGrow`](super::Instruction::TableGrow) is the same instruction as a value.
    #[doc(alias = "table.grow")]
    pub fn table_grow(&mut self, table: u32) -> &mut Self {
        self.put([0xFC, 0x0F], table)
    }

    /// Appends `table.size` (opcode 0xFC 16), a table instruction that returns the number of elements of a table.
    ///
    /// [`Instruction::TableSize`](super::Instruction::TableSize) is the same instruction as a value.
    #[doc(alias = "table.size")]
    pub fn table_size(&mut self, table: u32) -> &mut Self {
        self.put([0xFC, 0x10], table)
    }

    /// Appends `table.fill` (opcode 0xFC 17), a table instruction that sets elements of a table to a reference.
    ///
    /// [`Instruction::TableFill`](super::Instruction::TableFill) is the same instruction as a value.
    #[doc(alias = "table.fill")]
    pub fn table_fill(&mut self, table: u32) -> &mut Self {
        self.put([0xFC, 0x11], table)
    }

    /// Appends `memory.discard` (opcode 0xFC 18), a memory instruction of the memory control proposal that discards pages of a memory.
    ///
    /// [`Instruction::MemoryDiscard`](super::Instruction::MemoryDiscard) is the same instruction as a value.
    #[doc(alias = "memory.discard")]
    pub fn memory_discard(&mut self, mem: u32) -> &mut Self {
        self.put([0xFC, 0x12], mem)
    }

    /// Appends `i64.add128` (opcode 0xFC 19), a numeric instruction of the wide arithmetic proposal that adds two integers of 128 bits.
    ///
    /// [`Instruction::I64Add128`](super::Instruction::I64Add128) is the same instruction as a value.
    #[doc(alias = "i64.add128")]
    pub fn i64_add128(&mut self) -> &mut Self {
        self.put([0xFC, 0x13], [])
    }

    /// Appends `i64.sub128` (opcode 0xFC 20), a numeric instruction of the wide arithmetic proposal that subtracts two integers of 128 bits.
    ///
    /// [`Instruction::I64Sub128`](super::Instruction::I64Sub128) is the same instruction as a value.
    #[doc(alias = "i64.sub128")]
    pub fn i64_sub128(&mut self) -> &mut Self {
        self.put([0xFC, 0x14], [])
    }

    /// Appends `i64.mul_wide_s` (opcode 0xFC 21), a numeric instruction of the wide arithmetic proposal that multiplies two integers to 128 bits.
    ///
    /// [`Instruction::I64MulWideS`](super::Instruction::I64MulWideS) is the same instruction as a value.
    #[doc(alias = "i64.mul_wide_s")]
    pub fn i64_mul_wide_s(&mut self) -> &mut Self {
        self.put([0xFC, 0x15], [])
    }

    /// Appends `i64.mul_wide_u` (opcode 0xFC 22), a numeric instruction of the wide arithmetic proposal that multiplies two integers to 128 bits.
    ///
    /// [`Instruction::I64MulWideU`](super::Instruction::I64MulWideU) is the same instruction as a value.
    #[doc(alias = "i64.mul_wide_u")]
    pub fn i64_mul_wide_u(&mut self) -> &mut Self {
        self.put([0xFC, 0x16], [])
    }

    /// Appends `v128.load` (opcode 0xFD 0), a vector instruction that loads a vector from a memory.
    ///
    /// [`Instruction::V128Load`](super::Instruction::V128Load) is the same instruction as a value.
    #[doc(alias = "v128.load")]
    pub fn v128_load(&mut self, memarg: MemArg) -> &mut Self {
        self.put([0xFD, 0x00], &memarg)
    }

    /// Appends `v128.load8x8_s` (opcode 0xFD 1), a vector instruction that loads numbers from a memory, and extends each to a lane.
    ///
    /// [`Instruction::V128Load8x8S`](super::Instruction::V128Load8x8S) is the same instruction as a value.
    #[doc(alias = "v128.load8x8_s")]
    pub fn v128_load8x8_s(&mut self, memarg: MemArg) -> &mut Self {
        self.put([0xFD, 0x01], &memarg)
    }

    /// Appends `v128.load8x8_u` (opcode 0xFD 2), a vector instruction that loads numbers from a memory, and extends each to a lane.
    ///
    /// [`Instruction::V128Load8x8U`](super::Instruction::V128Load8x8U) is the same instruction as a value.
    #[doc(alias = "v128.load8x8_u")]
    pub fn v128_load8x8_u(&mut self, memarg: MemArg) -> &mut Self {
        self.put([0xFD, 0x02], &memarg)
    }

    /// Appends `v128.load16x4_s` (opcode 0xFD 3), a vector instruction that loads numbers from a memory, and extends each to a lane.
    ///
    /// [`Instruction::V128Load16x4S`](super::Instruction::V128Load16x4S) is the same instruction as a value.
    #[doc(alias = "v128.load16x4_s")]
    pub fn v128_load16x4_s(&mut self, memarg: MemArg) -> &mut Self {
        self.put([0xFD, 0x03], &memarg)
    }

    /// Appends `v128.load16x4_u` (opcode 0xFD 4), a vector instruction that loads numbers from a memory, and extends each to a lane.
    ///
    /// [`Instruction::V128Load16x4U`](super::Instruction::V128Load16x4U) is the same instruction as a value.
    #[doc(alias = "v128.load16x4_u")]
    pub fn v128_load16x4_u(&mut self, memarg: MemArg) -> &mut Self {
        self.put([0xFD, 0x04], &memarg)
    }

    /// Appends `v128.load32x2_s` (opcode 0xFD 5), a vector instruction that loads numbers from a memory, and extends each to a lane.
    ///
    /// [`Instruction::V128Load32x2S`](super::Instruction::V128Load32x2S) is the same instruction as a value.
    #[doc(alias = "v128.load32x2_s")]
    pub fn v128_load32x2_s(&mut self, memarg: MemArg) -> &mut Self {
        self.put([0xFD, 0x05], &memarg)
    }

    /// Appends `v128.load32x2_u` (opcode 0xFD 6), a vector instruction that loads numbers from a memory, and extends each to a lane.
    ///
    /// [`Instruction::V128Load32x2U`](super::Instruction::V128Load32x2U) is the same instruction as a value.
    #[doc(alias = "v128.load32x2_u")]
    pub fn v128_load32x2_u(&mut self, memarg: MemArg) -> &mut Self {
        self.put([0xFD, 0x06], &memarg)
    }

    /// Appends `v128.load8_splat` (opcode 0xFD 7), a vector instruction that loads a number from a memory, and copies it to each lane.
    ///
    /// [`Instruction::V128Load8Splat`](super::Instruction::V128Load8Splat) is the same instruction as a value.
    #[doc(alias = "v128.load8_splat")]
    pub fn v128_load8_splat(&mut self, memarg: MemArg) -> &mut Self {
        self.put([0xFD, 0x07], &memarg)
    }

    /// Appends `v128.load16_splat` (opcode 0xFD 8), a vector instruction that loads a number from a memory, and copies it to each lane.
    ///
    /// [`Instruction::V128Load16Splat`](super::Instruction::V128Load16Splat) is the same instruction as a value.
    #[doc(alias = "v128.load16_splat")]
    pub fn v128_load16_splat(&mut self, memarg: MemArg) -> &mut Self {
        self.put([0xFD, 0x08], &memarg)
    }

    /// Appends `v128.load32_splat` (opcode 0xFD 9), a vector instruction that loads a number from a memory, and copies it to each lane.
    ///
    /// [`Instruction::V128Load32Splat`](super::Instruction::V128Load32Splat) is the same instruction as a value.
    #[doc(alias = "v128.load32_splat")]
    pub fn v128_load32_splat(&mut self, memarg: MemArg) -> &mut Self {
        self.put([0xFD, 0x09], &memarg)
    }

    /// Appends `v128.load64_splat` (opcode 0xFD 10), a vector instruction that loads a number from a memory, and copies it to each lane.
    ///
    /// [`Instruction::V128Load64Splat`](super::Instruction::V128Load64Splat) is the same instruction as a value.
    #[doc(alias = "v128.load64_splat")]
    pub fn v128_load64_splat(&mut self, memarg: MemArg) -> &mut Self {
        self.put([0xFD, 0x0A], &memarg)
    }

    /// Appends `v128.store` (opcode 0xFD 11), a vector instruction that stores a vector to a memory.
    ///
    /// [`Instruction::V128Store`](super::Instruction::V128Store) is the same instruction as a value.
    #[doc(alias = "v128.store")]
    pub fn v128_store(&mut self, memarg: MemArg) -> &mut Self {
        self.put([0xFD, 0x0B], &memarg)
    }

    /// Appends `v128.const` (opcode 0xFD 12), a vector instruction that returns a constant.
    ///
    /// [`Instruction::V128Const`](super::Instruction::V128Const) is the same instruction as a value.
    /// The proved [`v128_const`](insn::InstructionSink::v128_const) of `fallible` encodes the same.
    ///
    /// ```
    /// use dolzhytik::InstructionSink;
    ///
    /// let mut bytes = Vec::new();
    /// InstructionSink::new(&mut bytes).v128_const(0x0102);
    /// // The 16 bytes of the number, the lowest first.
    /// assert_eq!(bytes, [0xFD, 12, 2, 1, 0, 0, 0, 0, 0, 0, 0, 0, 0, 0, 0, 0, 0, 0]);
    /// ```
    #[doc(alias = "v128.const")]
    pub fn v128_const(&mut self, value: i128) -> &mut Self {
        self.put([0xFD, 0x0C], value.to_le_bytes())
    }

    /// Appends `i8x16.shuffle` (opcode 0xFD 13), a vector instruction that selects lanes of two vectors by the immediates.
    ///
    /// [`Instruction::I8x16Shuffle`](super::Instruction::I8x16Shuffle) is the same instruction as a value.
    ///
    /// ```
    /// use dolzhytik::InstructionSink;
    ///
    /// let mut bytes = Vec::new();
    /// InstructionSink::new(&mut bytes)
    ///     .i8x16_shuffle([0, 16, 1, 17, 2, 18, 3, 19, 4, 20, 5, 21, 6, 22, 7, 23]);
    /// // A byte for each lane: the low lanes of both operands, in turn.
    /// assert_eq!(bytes, [0xFD, 13, 0, 16, 1, 17, 2, 18, 3, 19, 4, 20, 5, 21, 6, 22, 7, 23]);
    /// ```
    #[doc(alias = "i8x16.shuffle")]
    pub fn i8x16_shuffle(&mut self, lanes: [Lane; 16]) -> &mut Self {
        self.put([0xFD, 0x0D], lanes)
    }

    /// Appends `i8x16.swizzle` (opcode 0xFD 14), a vector instruction that selects lanes of a vector by those of another.
    ///
    /// [`Instruction::I8x16Swizzle`](super::Instruction::I8x16Swizzle) is the same instruction as a value.
    #[doc(alias = "i8x16.swizzle")]
    pub fn i8x16_swizzle(&mut self) -> &mut Self {
        self.put([0xFD, 0x0E], [])
    }

    /// Appends `i8x16.splat` (opcode 0xFD 15), a vector instruction that copies a number to each lane of a vector.
    ///
    /// [`Instruction::I8x16Splat`](super::Instruction::I8x16Splat) is the same instruction as a value.
    #[doc(alias = "i8x16.splat")]
    pub fn i8x16_splat(&mut self) -> &mut Self {
        self.put([0xFD, 0x0F], [])
    }

    /// Appends `i16x8.splat` (opcode 0xFD 16), a vector instruction that copies a number to each lane of a vector.
    ///
    /// [`Instruction::I16x8Splat`](super::Instruction::I16x8Splat) is the same instruction as a value.
    #[doc(alias = "i16x8.splat")]
    pub fn i16x8_splat(&mut self) -> &mut Self {
        self.put([0xFD, 0x10], [])
    }

    /// Appends `i32x4.splat` (opcode 0xFD 17), a vector instruction that copies a number to each lane of a vector.
    ///
    /// [`Instruction::I32x4Splat`](super::Instruction::I32x4Splat) is the same instruction as a value.
    #[doc(alias = "i32x4.splat")]
    pub fn i32x4_splat(&mut self) -> &mut Self {
        self.put([0xFD, 0x11], [])
    }

    /// Appends `i64x2.splat` (opcode 0xFD 18), a vector instruction that copies a number to each lane of a vector.
    ///
    /// [`Instruction::I64x2Splat`](super::Instruction::I64x2Splat) is the same instruction as a value.
    #[doc(alias = "i64x2.splat")]
    pub fn i64x2_splat(&mut self) -> &mut Self {
        self.put([0xFD, 0x12], [])
    }

    /// Appends `f32x4.splat` (opcode 0xFD 19), a vector instruction that copies a number to each lane of a vector.
    ///
    /// [`Instruction::F32x4Splat`](super::Instruction::F32x4Splat) is the same instruction as a value.
    #[doc(alias = "f32x4.splat")]
    pub fn f32x4_splat(&mut self) -> &mut Self {
        self.put([0xFD, 0x13], [])
    }

    /// Appends `f64x2.splat` (opcode 0xFD 20), a vector instruction that copies a number to each lane of a vector.
    ///
    /// [`Instruction::F64x2Splat`](super::Instruction::F64x2Splat) is the same instruction as a value.
    #[doc(alias = "f64x2.splat")]
    pub fn f64x2_splat(&mut self) -> &mut Self {
        self.put([0xFD, 0x14], [])
    }

    /// Appends `i8x16.extract_lane_s` (opcode 0xFD 21), a vector instruction that reads a lane of a vector.
    ///
    /// [`Instruction::I8x16ExtractLaneS`](super::Instruction::I8x16ExtractLaneS) is the same instruction as a value.
    #[doc(alias = "i8x16.extract_lane_s")]
    pub fn i8x16_extract_lane_s(&mut self, lane: Lane) -> &mut Self {
        self.put([0xFD, 0x15], lane)
    }

    /// Appends `i8x16.extract_lane_u` (opcode 0xFD 22), a vector instruction that reads a lane of a vector.
    ///
    /// [`Instruction::I8x16ExtractLaneU`](super::Instruction::I8x16ExtractLaneU) is the same instruction as a value.
    #[doc(alias = "i8x16.extract_lane_u")]
    pub fn i8x16_extract_lane_u(&mut self, lane: Lane) -> &mut Self {
        self.put([0xFD, 0x16], lane)
    }

    /// Appends `i8x16.replace_lane` (opcode 0xFD 23), a vector instruction that replaces a lane of a vector.
    ///
    /// [`Instruction::I8x16ReplaceLane`](super::Instruction::I8x16ReplaceLane) is the same instruction as a value.
    #[doc(alias = "i8x16.replace_lane")]
    pub fn i8x16_replace_lane(&mut self, lane: Lane) -> &mut Self {
        self.put([0xFD, 0x17], lane)
    }

    /// Appends `i16x8.extract_lane_s` (opcode 0xFD 24), a vector instruction that reads a lane of a vector.
    ///
    /// [`Instruction::I16x8ExtractLaneS`](super::Instruction::I16x8ExtractLaneS) is the same instruction as a value.
    #[doc(alias = "i16x8.extract_lane_s")]
    pub fn i16x8_extract_lane_s(&mut self, lane: Lane) -> &mut Self {
        self.put([0xFD, 0x18], lane)
    }

    /// Appends `i16x8.extract_lane_u` (opcode 0xFD 25), a vector instruction that reads a lane of a vector.
    ///
    /// [`Instruction::I16x8ExtractLaneU`](super::Instruction::I16x8ExtractLaneU) is the same instruction as a value.
    #[doc(alias = "i16x8.extract_lane_u")]
    pub fn i16x8_extract_lane_u(&mut self, lane: Lane) -> &mut Self {
        self.put([0xFD, 0x19], lane)
    }

    /// Appends `i16x8.replace_lane` (opcode 0xFD 26), a vector instruction that replaces a lane of a vector.
    ///
    /// [`Instruction::I16x8ReplaceLane`](super::Instruction::I16x8ReplaceLane) is the same instruction as a value.
    #[doc(alias = "i16x8.replace_lane")]
    pub fn i16x8_replace_lane(&mut self, lane: Lane) -> &mut Self {
        self.put([0xFD, 0x1A], lane)
    }

    /// Appends `i32x4.extract_lane` (opcode 0xFD 27), a vector instruction that reads a lane of a vector.
    ///
    /// [`Instruction::I32x4ExtractLane`](super::Instruction::I32x4ExtractLane) is the same instruction as a value.
    #[doc(alias = "i32x4.extract_lane")]
    pub fn i32x4_extract_lane(&mut self, lane: Lane) -> &mut Self {
        self.put([0xFD, 0x1B], lane)
    }

    /// Appends `i32x4.replace_lane` (opcode 0xFD 28), a vector instruction that replaces a lane of a vector.
    ///
    /// [`Instruction::I32x4ReplaceLane`](super::Instruction::I32x4ReplaceLane) is the same instruction as a value.
    #[doc(alias = "i32x4.replace_lane")]
    pub fn i32x4_replace_lane(&mut self, lane: Lane) -> &mut Self {
        self.put([0xFD, 0x1C], lane)
    }

    /// Appends `i64x2.extract_lane` (opcode 0xFD 29), a vector instruction that reads a lane of a vector.
    ///
    /// [`Instruction::I64x2ExtractLane`](super::Instruction::I64x2ExtractLane) is the same instruction as a value.
    #[doc(alias = "i64x2.extract_lane")]
    pub fn i64x2_extract_lane(&mut self, lane: Lane) -> &mut Self {
        self.put([0xFD, 0x1D], lane)
    }

    /// Appends `i64x2.replace_lane` (opcode 0xFD 30), a vector instruction that replaces a lane of a vector.
    ///
    /// [`Instruction::I64x2ReplaceLane`](super::Instruction::I64x2ReplaceLane) is the same instruction as a value.
    #[doc(alias = "i64x2.replace_lane")]
    pub fn i64x2_replace_lane(&mut self, lane: Lane) -> &mut Self {
        self.put([0xFD, 0x1E], lane)
    }

    /// Appends `f32x4.extract_lane` (opcode 0xFD 31), a vector instruction that reads a lane of a vector.
    ///
    /// [`Instruction::F32x4ExtractLane`](super::Instruction::F32x4ExtractLane) is the same instruction as a value.
    #[doc(alias = "f32x4.extract_lane")]
    pub fn f32x4_extract_lane(&mut self, lane: Lane) -> &mut Self {
        self.put([0xFD, 0x1F], lane)
    }

    /// Appends `f32x4.replace_lane` (opcode 0xFD 32), a vector instruction that replaces a lane of a vector.
    ///
    /// [`Instruction::F32x4ReplaceLane`](super::Instruction::F32x4ReplaceLane) is the same instruction as a value.
    #[doc(alias = "f32x4.replace_lane")]
    pub fn f32x4_replace_lane(&mut self, lane: Lane) -> &mut Self {
        self.put([0xFD, 0x20], lane)
    }

    /// Appends `f64x2.extract_lane` (opcode 0xFD 33), a vector instruction that reads a lane of a vector.
    ///
    /// [`Instruction::F64x2ExtractLane`](super::Instruction::F64x2ExtractLane) is the same instruction as a value.
    #[doc(alias = "f64x2.extract_lane")]
    pub fn f64x2_extract_lane(&mut self, lane: Lane) -> &mut Self {
        self.put([0xFD, 0x21], lane)
    }

    /// Appends `f64x2.replace_lane` (opcode 0xFD 34), a vector instruction that replaces a lane of a vector.
    ///
    /// [`Instruction::F64x2ReplaceLane`](super::Instruction::F64x2ReplaceLane) is the same instruction as a value.
    #[doc(alias = "f64x2.replace_lane")]
    pub fn f64x2_replace_lane(&mut self, lane: Lane) -> &mut Self {
        self.put([0xFD, 0x22], lane)
    }

    /// Appends `i8x16.eq` (opcode 0xFD 35), a vector instruction that compares each lane of two vectors.
    ///
    /// [`Instruction::I8x16Eq`](super::Instruction::I8x16Eq) is the same instruction as a value.
    #[doc(alias = "i8x16.eq")]
    pub fn i8x16_eq(&mut self) -> &mut Self {
        self.put([0xFD, 0x23], [])
    }

    /// Appends `i8x16.ne` (opcode 0xFD 36), a vector instruction that compares each lane of two vectors.
    ///
    /// [`Instruction::I8x16Ne`](super::Instruction::I8x16Ne) is the same instruction as a value.
    #[doc(alias = "i8x16.ne")]
    pub fn i8x16_ne(&mut self) -> &mut Self {
        self.put([0xFD, 0x24], [])
    }

    /// Appends `i8x16.lt_s` (opcode 0xFD 37), a vector instruction that compares each lane of two vectors.
    ///
    /// [`Instruction::I8x16LtS`](super::Instruction::I8x16LtS) is the same instruction as a value.
    #[doc(alias = "i8x16.lt_s")]
    pub fn i8x16_lt_s(&mut self) -> &mut Self {
        self.put([0xFD, 0x25], [])
    }

    /// Appends `i8x16.lt_u` (opcode 0xFD 38), a vector instruction that compares each lane of two vectors.
    ///
    /// [`Instruction::I8x16LtU`](super::Instruction::I8x16LtU) is the same instruction as a value.
    #[doc(alias = "i8x16.lt_u")]
    pub fn i8x16_lt_u(&mut self) -> &mut Self {
        self.put([0xFD, 0x26], [])
    }

    /// Appends `i8x16.gt_s` (opcode 0xFD 39), a vector instruction that compares each lane of two vectors.
    ///
    /// [`Instruction::I8x16GtS`](super::Instruction::I8x16GtS) is the same instruction as a value.
    #[doc(alias = "i8x16.gt_s")]
    pub fn i8x16_gt_s(&mut self) -> &mut Self {
        self.put([0xFD, 0x27], [])
    }

    /// Appends `i8x16.gt_u` (opcode 0xFD 40), a vector instruction that compares each lane of two vectors.
    ///
    /// [`Instruction::I8x16GtU`](super::Instruction::I8x16GtU) is the same instruction as a value.
    #[doc(alias = "i8x16.gt_u")]
    pub fn i8x16_gt_u(&mut self) -> &mut Self {
        self.put([0xFD, 0x28], [])
    }

    /// Appends `i8x16.le_s` (opcode 0xFD 41), a vector instruction that compares each lane of two vectors.
    ///
    /// [`Instruction::I8x16LeS`](super::Instruction::I8x16LeS) is the same instruction as a value.
    #[doc(alias = "i8x16.le_s")]
    pub fn i8x16_le_s(&mut self) -> &mut Self {
        self.put([0xFD, 0x29], [])
    }

    /// Appends `i8x16.le_u` (opcode 0xFD 42), a vector instruction that compares each lane of two vectors.
    ///
    /// [`Instruction::I8x16LeU`](super::Instruction::I8x16LeU) is the same instruction as a value.
    #[doc(alias = "i8x16.le_u")]
    pub fn i8x16_le_u(&mut self) -> &mut Self {
        self.put([0xFD, 0x2A], [])
    }

    /// Appends `i8x16.ge_s` (opcode 0xFD 43), a vector instruction that compares each lane of two vectors.
    ///
    /// [`Instruction::I8x16GeS`](super::Instruction::I8x16GeS) is the same instruction as a value.
    #[doc(alias = "i8x16.ge_s")]
    pub fn i8x16_ge_s(&mut self) -> &mut Self {
        self.put([0xFD, 0x2B], [])
    }

    /// Appends `i8x16.ge_u` (opcode 0xFD 44), a vector instruction that compares each lane of two vectors.
    ///
    /// [`Instruction::I8x16GeU`](super::Instruction::I8x16GeU) is the same instruction as a value.
    #[doc(alias = "i8x16.ge_u")]
    pub fn i8x16_ge_u(&mut self) -> &mut Self {
        self.put([0xFD, 0x2C], [])
    }

    /// Appends `i16x8.eq` (opcode 0xFD 45), a vector instruction that compares each lane of two vectors.
    ///
    /// [`Instruction::I16x8Eq`](super::Instruction::I16x8Eq) is the same instruction as a value.
    #[doc(alias = "i16x8.eq")]
    pub fn i16x8_eq(&mut self) -> &mut Self {
        self.put([0xFD, 0x2D], [])
    }

    /// Appends `i16x8.ne` (opcode 0xFD 46), a vector instruction that compares each lane of two vectors.
    ///
    /// [`Instruction::I16x8Ne`](super::Instruction::I16x8Ne) is the same instruction as a value.
    #[doc(alias = "i16x8.ne")]
    pub fn i16x8_ne(&mut self) -> &mut Self {
        self.put([0xFD, 0x2E], [])
    }

    /// Appends `i16x8.lt_s` (opcode 0xFD 47), a vector instruction that compares each lane of two vectors.
    ///
    /// [`Instruction::I16x8LtS`](super::Instruction::I16x8LtS) is the same instruction as a value.
    #[doc(alias = "i16x8.lt_s")]
    pub fn i16x8_lt_s(&mut self) -> &mut Self {
        self.put([0xFD, 0x2F], [])
    }

    /// Appends `i16x8.lt_u` (opcode 0xFD 48), a vector instruction that compares each lane of two vectors.
    ///
    /// [`Instruction::I16x8LtU`](super::Instruction::I16x8LtU) is the same instruction as a value.
    #[doc(alias = "i16x8.lt_u")]
    pub fn i16x8_lt_u(&mut self) -> &mut Self {
        self.put([0xFD, 0x30], [])
    }

    /// Appends `i16x8.gt_s` (opcode 0xFD 49), a vector instruction that compares each lane of two vectors.
    ///
    /// [`Instruction::I16x8GtS`](super::Instruction::I16x8GtS) is the same instruction as a value.
    #[doc(alias = "i16x8.gt_s")]
    pub fn i16x8_gt_s(&mut self) -> &mut Self {
        self.put([0xFD, 0x31], [])
    }

    /// Appends `i16x8.gt_u` (opcode 0xFD 50), a vector instruction that compares each lane of two vectors.
    ///
    /// [`Instruction::I16x8GtU`](super::Instruction::I16x8GtU) is the same instruction as a value.
    #[doc(alias = "i16x8.gt_u")]
    pub fn i16x8_gt_u(&mut self) -> &mut Self {
        self.put([0xFD, 0x32], [])
    }

    /// Appends `i16x8.le_s` (opcode 0xFD 51), a vector instruction that compares each lane of two vectors.
    ///
    /// [`Instruction::I16x8LeS`](super::Instruction::I16x8LeS) is the same instruction as a value.
    #[doc(alias = "i16x8.le_s")]
    pub fn i16x8_le_s(&mut self) -> &mut Self {
        self.put([0xFD, 0x33], [])
    }

    /// Appends `i16x8.le_u` (opcode 0xFD 52), a vector instruction that compares each lane of two vectors.
    ///
    /// [`Instruction::I16x8LeU`](super::Instruction::I16x8LeU) is the same instruction as a value.
    #[doc(alias = "i16x8.le_u")]
    pub fn i16x8_le_u(&mut self) -> &mut Self {
        self.put([0xFD, 0x34], [])
    }

    /// Appends `i16x8.ge_s` (opcode 0xFD 53), a vector instruction that compares each lane of two vectors.
    ///
    /// [`Instruction::I16x8GeS`](super::Instruction::I16x8GeS) is the same instruction as a value.
    #[doc(alias = "i16x8.ge_s")]
    pub fn i16x8_ge_s(&mut self) -> &mut Self {
        self.put([0xFD, 0x35], [])
    }

    /// Appends `i16x8.ge_u` (opcode 0xFD 54), a vector instruction that compares each lane of two vectors.
    ///
    /// [`Instruction::I16x8GeU`](super::Instruction::I16x8GeU) is the same instruction as a value.
    #[doc(alias = "i16x8.ge_u")]
    pub fn i16x8_ge_u(&mut self) -> &mut Self {
        self.put([0xFD, 0x36], [])
    }

    /// Appends `i32x4.eq` (opcode 0xFD 55), a vector instruction that compares each lane of two vectors.
    ///
    /// [`Instruction::I32x4Eq`](super::Instruction::I32x4Eq) is the same instruction as a value.
    #[doc(alias = "i32x4.eq")]
    pub fn i32x4_eq(&mut self) -> &mut Self {
        self.put([0xFD, 0x37], [])
    }

    /// Appends `i32x4.ne` (opcode 0xFD 56), a vector instruction that compares each lane of two vectors.
    ///
    /// [`Instruction::I32x4Ne`](super::Instruction::I32x4Ne) is the same instruction as a value.
    #[doc(alias = "i32x4.ne")]
    pub fn i32x4_ne(&mut self) -> &mut Self {
        self.put([0xFD, 0x38], [])
    }

    /// Appends `i32x4.lt_s` (opcode 0xFD 57), a vector instruction that compares each lane of two vectors.
    ///
    /// [`Instruction::I32x4LtS`](super::Instruction::I32x4LtS) is the same instruction as a value.
    #[doc(alias = "i32x4.lt_s")]
    pub fn i32x4_lt_s(&mut self) -> &mut Self {
        self.put([0xFD, 0x39], [])
    }

    /// Appends `i32x4.lt_u` (opcode 0xFD 58), a vector instruction that compares each lane of two vectors.
    ///
    /// [`Instruction::I32x4LtU`](super::Instruction::I32x4LtU) is the same instruction as a value.
    #[doc(alias = "i32x4.lt_u")]
    pub fn i32x4_lt_u(&mut self) -> &mut Self {
        self.put([0xFD, 0x3A], [])
    }

    /// Appends `i32x4.gt_s` (opcode 0xFD 59), a vector instruction that compares each lane of two vectors.
    ///
    /// [`Instruction::I32x4GtS`](super::Instruction::I32x4GtS) is the same instruction as a value.
    #[doc(alias = "i32x4.gt_s")]
    pub fn i32x4_gt_s(&mut self) -> &mut Self {
        self.put([0xFD, 0x3B], [])
    }

    /// Appends `i32x4.gt_u` (opcode 0xFD 60), a vector instruction that compares each lane of two vectors.
    ///
    /// [`Instruction::I32x4GtU`](super::Instruction::I32x4GtU) is the same instruction as a value.
    #[doc(alias = "i32x4.gt_u")]
    pub fn i32x4_gt_u(&mut self) -> &mut Self {
        self.put([0xFD, 0x3C], [])
    }

    /// Appends `i32x4.le_s` (opcode 0xFD 61), a vector instruction that compares each lane of two vectors.
    ///
    /// [`Instruction::I32x4LeS`](super::Instruction::I32x4LeS) is the same instruction as a value.
    #[doc(alias = "i32x4.le_s")]
    pub fn i32x4_le_s(&mut self) -> &mut Self {
        self.put([0xFD, 0x3D], [])
    }

    /// Appends `i32x4.le_u` (opcode 0xFD 62), a vector instruction that compares each lane of two vectors.
    ///
    /// [`Instruction::I32x4LeU`](super::Instruction::I32x4LeU) is the same instruction as a value.
    #[doc(alias = "i32x4.le_u")]
    pub fn i32x4_le_u(&mut self) -> &mut Self {
        self.put([0xFD, 0x3E], [])
    }

    /// Appends `i32x4.ge_s` (opcode 0xFD 63), a vector instruction that compares each lane of two vectors.
    ///
    /// [`Instruction::I32x4GeS`](super::Instruction::I32x4GeS) is the same instruction as a value.
    #[doc(alias = "i32x4.ge_s")]
    pub fn i32x4_ge_s(&mut self) -> &mut Self {
        self.put([0xFD, 0x3F], [])
    }

    /// Appends `i32x4.ge_u` (opcode 0xFD 64), a vector instruction that compares each lane of two vectors.
    ///
    /// [`Instruction::I32x4GeU`](super::Instruction::I32x4GeU) is the same instruction as a value.
    #[doc(alias = "i32x4.ge_u")]
    pub fn i32x4_ge_u(&mut self) -> &mut Self {
        self.put([0xFD, 0x40], [])
    }

    /// Appends `f32x4.eq` (opcode 0xFD 65), a vector instruction that compares each lane of two vectors.
    ///
    /// [`Instruction::F32x4Eq`](super::Instruction::F32x4Eq) is the same instruction as a value.
    #[doc(alias = "f32x4.eq")]
    pub fn f32x4_eq(&mut self) -> &mut Self {
        self.put([0xFD, 0x41], [])
    }

    /// Appends `f32x4.ne` (opcode 0xFD 66), a vector instruction that compares each lane of two vectors.
    ///
    /// [`Instruction::F32x4Ne`](super::Instruction::F32x4Ne) is the same instruction as a value.
    #[doc(alias = "f32x4.ne")]
    pub fn f32x4_ne(&mut self) -> &mut Self {
        self.put([0xFD, 0x42], [])
    }

    /// Appends `f32x4.lt` (opcode 0xFD 67), a vector instruction that compares each lane of two vectors.
    ///
    /// [`Instruction::F32x4Lt`](super::Instruction::F32x4Lt) is the same instruction as a value.
    #[doc(alias = "f32x4.lt")]
    pub fn f32x4_lt(&mut self) -> &mut Self {
        self.put([0xFD, 0x43], [])
    }

    /// Appends `f32x4.gt` (opcode 0xFD 68), a vector instruction that compares each lane of two vectors.
    ///
    /// [`Instruction::F32x4Gt`](super::Instruction::F32x4Gt) is the same instruction as a value.
    #[doc(alias = "f32x4.gt")]
    pub fn f32x4_gt(&mut self) -> &mut Self {
        self.put([0xFD, 0x44], [])
    }

    /// Appends `f32x4.le` (opcode 0xFD 69), a vector instruction that compares each lane of two vectors.
    ///
    /// [`Instruction::F32x4Le`](super::Instruction::F32x4Le) is the same instruction as a value.
    #[doc(alias = "f32x4.le")]
    pub fn f32x4_le(&mut self) -> &mut Self {
        self.put([0xFD, 0x45], [])
    }

    /// Appends `f32x4.ge` (opcode 0xFD 70), a vector instruction that compares each lane of two vectors.
    ///
    /// [`Instruction::F32x4Ge`](super::Instruction::F32x4Ge) is the same instruction as a value.
    #[doc(alias = "f32x4.ge")]
    pub fn f32x4_ge(&mut self) -> &mut Self {
        self.put([0xFD, 0x46], [])
    }

    /// Appends `f64x2.eq` (opcode 0xFD 71), a vector instruction that compares each lane of two vectors.
    ///
    /// [`Instruction::F64x2Eq`](super::Instruction::F64x2Eq) is the same instruction as a value.
    #[doc(alias = "f64x2.eq")]
    pub fn f64x2_eq(&mut self) -> &mut Self {
        self.put([0xFD, 0x47], [])
    }

    /// Appends `f64x2.ne` (opcode 0xFD 72), a vector instruction that compares each lane of two vectors.
    ///
    /// [`Instruction::F64x2Ne`](super::Instruction::F64x2Ne) is the same instruction as a value.
    #[doc(alias = "f64x2.ne")]
    pub fn f64x2_ne(&mut self) -> &mut Self {
        self.put([0xFD, 0x48], [])
    }

    /// Appends `f64x2.lt` (opcode 0xFD 73), a vector instruction that compares each lane of two vectors.
    ///
    /// [`Instruction::F64x2Lt`](super::Instruction::F64x2Lt) is the same instruction as a value.
    #[doc(alias = "f64x2.lt")]
    pub fn f64x2_lt(&mut self) -> &mut Self {
        self.put([0xFD, 0x49], [])
    }

    /// Appends `f64x2.gt` (opcode 0xFD 74), a vector instruction that compares each lane of two vectors.
    ///
    /// [`Instruction::F64x2Gt`](super::Instruction::F64x2Gt) is the same instruction as a value.
    #[doc(alias = "f64x2.gt")]
    pub fn f64x2_gt(&mut self) -> &mut Self {
        self.put([0xFD, 0x4A], [])
    }

    /// Appends `f64x2.le` (opcode 0xFD 75), a vector instruction that compares each lane of two vectors.
    ///
    /// [`Instruction::F64x2Le`](super::Instruction::F64x2Le) is the same instruction as a value.
    #[doc(alias = "f64x2.le")]
    pub fn f64x2_le(&mut self) -> &mut Self {
        self.put([0xFD, 0x4B], [])
    }

    /// Appends `f64x2.ge` (opcode 0xFD 76), a vector instruction that compares each lane of two vectors.
    ///
    /// [`Instruction::F64x2Ge`](super::Instruction::F64x2Ge) is the same instruction as a value.
    #[doc(alias = "f64x2.ge")]
    pub fn f64x2_ge(&mut self) -> &mut Self {
        self.put([0xFD, 0x4C], [])
    }

    /// Appends `v128.not` (opcode 0xFD 77), a vector instruction that inverts the bits of a vector.
    ///
    /// [`Instruction::V128Not`](super::Instruction::V128Not) is the same instruction as a value.
    #[doc(alias = "v128.not")]
    pub fn v128_not(&mut self) -> &mut Self {
        self.put([0xFD, 0x4D], [])
    }

    /// Appends `v128.and` (opcode 0xFD 78), a vector instruction that computes the bitwise and of two vectors.
    ///
    /// [`Instruction::V128And`](super::Instruction::V128And) is the same instruction as a value.
    #[doc(alias = "v128.and")]
    pub fn v128_and(&mut self) -> &mut Self {
        self.put([0xFD, 0x4E], [])
    }

    /// Appends `v128.andnot` (opcode 0xFD 79), a vector instruction that computes the bitwise and of a vector and the inverse of another.
    ///
    /// [`Instruction::V128AndNot`](super::Instruction::V128AndNot) is the same instruction as a value.
    #[doc(alias = "v128.andnot")]
    pub fn v128_andnot(&mut self) -> &mut Self {
        self.put([0xFD, 0x4F], [])
    }

    /// Appends `v128.or` (opcode 0xFD 80), a vector instruction that computes the bitwise or of two vectors.
    ///
    /// [`Instruction::V128Or`](super::Instruction::V128Or) is the same instruction as a value.
    #[doc(alias = "v128.or")]
    pub fn v128_or(&mut self) -> &mut Self {
        self.put([0xFD, 0x50], [])
    }

    /// Appends `v128.xor` (opcode 0xFD 81), a vector instruction that computes the bitwise exclusive or of two vectors.
    ///
    /// [`Instruction::V128Xor`](super::Instruction::V128Xor) is the same instruction as a value.
    #[doc(alias = "v128.xor")]
    pub fn v128_xor(&mut self) -> &mut Self {
        self.put([0xFD, 0x51], [])
    }

    /// Appends `v128.bitselect` (opcode 0xFD 82), a vector instruction that selects bits of two vectors by the bits of a third.
    ///
    /// [`Instruction::V128Bitselect`](super::Instruction::V128Bitselect) is the same instruction as a value.
    #[doc(alias = "v128.bitselect")]
    pub fn v128_bitselect(&mut self) -> &mut Self {
        self.put([0xFD, 0x52], [])
    }

    /// Appends `v128.any_true` (opcode 0xFD 83), a vector instruction that tests whether a bit of a vector is set.
    ///
    /// [`Instruction::V128AnyTrue`](super::Instruction::V128AnyTrue) is the same instruction as a value.
    #[doc(alias = "v128.any_true")]
    pub fn v128_any_true(&mut self) -> &mut Self {
        self.put([0xFD, 0x53], [])
    }

    /// Appends `v128.load8_lane` (opcode 0xFD 84), a vector instruction that loads one lane of a vector from a memory.
    ///
    /// [`Instruction::V128Load8Lane`](super::Instruction::V128Load8Lane) is the same instruction as a value.
    #[doc(alias = "v128.load8_lane")]
    pub fn v128_load8_lane(&mut self, memarg: MemArg, lane: Lane) -> &mut Self {
        self.put([0xFD, 0x54], (&memarg, lane))
    }

    /// Appends `v128.load16_lane` (opcode 0xFD 85), a vector instruction that loads one lane of a vector from a memory.
    ///
    /// [`Instruction::V128Load16Lane`](super::Instruction::V128Load16Lane) is the same instruction as a value.
    #[doc(alias = "v128.load16_lane")]
    pub fn v128_load16_lane(&mut self, memarg: MemArg, lane: Lane) -> &mut Self {
        self.put([0xFD, 0x55], (&memarg, lane))
    }

    /// Appends `v128.load32_lane` (opcode 0xFD 86), a vector instruction that loads one lane of a vector from a memory.
    ///
    /// [`Instruction::V128Load32Lane`](super::Instruction::V128Load32Lane) is the same instruction as a value.
    #[doc(alias = "v128.load32_lane")]
    pub fn v128_load32_lane(&mut self, memarg: MemArg, lane: Lane) -> &mut Self {
        self.put([0xFD, 0x56], (&memarg, lane))
    }

    /// Appends `v128.load64_lane` (opcode 0xFD 87), a vector instruction that loads one lane of a vector from a memory.
    ///
    /// [`Instruction::V128Load64Lane`](super::Instruction::V128Load64Lane) is the same instruction as a value.
    #[doc(alias = "v128.load64_lane")]
    pub fn v128_load64_lane(&mut self, memarg: MemArg, lane: Lane) -> &mut Self {
        self.put([0xFD, 0x57], (&memarg, lane))
    }

    /// Appends `v128.store8_lane` (opcode 0xFD 88), a vector instruction that stores one lane of a vector to a memory.
    ///
    /// [`Instruction::V128Store8Lane`](super::Instruction::V128Store8Lane) is the same instruction as a value.
    #[doc(alias = "v128.store8_lane")]
    pub fn v128_store8_lane(&mut self, memarg: MemArg, lane: Lane) -> &mut Self {
        self.put([0xFD, 0x58], (&memarg, lane))
    }

    /// Appends `v128.store16_lane` (opcode 0xFD 89), a vector instruction that stores one lane of a vector to a memory.
    ///
    /// [`Instruction::V128Store16Lane`](super::Instruction::V128Store16Lane) is the same instruction as a value.
    #[doc(alias = "v128.store16_lane")]
    pub fn v128_store16_lane(&mut self, memarg: MemArg, lane: Lane) -> &mut Self {
        self.put([0xFD, 0x59], (&memarg, lane))
    }

    /// Appends `v128.store32_lane` (opcode 0xFD 90), a vector instruction that stores one lane of a vector to a memory.
    ///
    /// [`Instruction::V128Store32Lane`](super::Instruction::V128Store32Lane) is the same instruction as a value.
    #[doc(alias = "v128.store32_lane")]
    pub fn v128_store32_lane(&mut self, memarg: MemArg, lane: Lane) -> &mut Self {
        self.put([0xFD, 0x5A], (&memarg, lane))
    }

    /// Appends `v128.store64_lane` (opcode 0xFD 91), a vector instruction that stores one lane of a vector to a memory.
    ///
    /// [`Instruction::V128Store64Lane`](super::Instruction::V128Store64Lane) is the same instruction as a value.
    #[doc(alias = "v128.store64_lane")]
    pub fn v128_store64_lane(&mut self, memarg: MemArg, lane: Lane) -> &mut Self {
        self.put([0xFD, 0x5B], (&memarg, lane))
    }

    /// Appends `v128.load32_zero` (opcode 0xFD 92), a vector instruction that loads a lane from a memory, and sets the others to zero.
    ///
    /// [`Instruction::V128Load32Zero`](super::Instruction::V128Load32Zero) is the same instruction as a value.
    #[doc(alias = "v128.load32_zero")]
    pub fn v128_load32_zero(&mut self, memarg: MemArg) -> &mut Self {
        self.put([0xFD, 0x5C], &memarg)
    }

    /// Appends `v128.load64_zero` (opcode 0xFD 93), a vector instruction that loads a lane from a memory, and sets the others to zero.
    ///
    /// [`Instruction::V128Load64Zero`](super::Instruction::V128Load64Zero) is the same instruction as a value.
    #[doc(alias = "v128.load64_zero")]
    pub fn v128_load64_zero(&mut self, memarg: MemArg) -> &mut Self {
        self.put([0xFD, 0x5D], &memarg)
    }

    /// Appends `f32x4.demote_f64x2_zero` (opcode 0xFD 94), a vector instruction that rounds the floats of a vector to 32 bits.
    ///
    /// [`Instruction::F32x4DemoteF64x2Zero`](super::Instruction::F32x4DemoteF64x2Zero) is the same instruction as a value.
    #[doc(alias = "f32x4.demote_f64x2_zero")]
    pub fn f32x4_demote_f64x2_zero(&mut self) -> &mut Self {
        self.put([0xFD, 0x5E], [])
    }

    /// Appends `f64x2.promote_low_f32x4` (opcode 0xFD 95), a vector instruction that converts the lower floats of a vector to 64 bits.
    ///
    /// [`Instruction::F64x2PromoteLowF32x4`](super::Instruction::F64x2PromoteLowF32x4) is the same instruction as a value.
    #[doc(alias = "f64x2.promote_low_f32x4")]
    pub fn f64x2_promote_low_f32x4(&mut self) -> &mut Self {
        self.put([0xFD, 0x5F], [])
    }

    /// Appends `i8x16.abs` (opcode 0xFD 96), a vector instruction that computes the absolute value of each lane of a vector.
    ///
    /// [`Instruction::I8x16Abs`](super::Instruction::I8x16Abs) is the same instruction as a value.
    #[doc(alias = "i8x16.abs")]
    pub fn i8x16_abs(&mut self) -> &mut Self {
        self.put([0xFD, 0x60], [])
    }

    /// Appends `i8x16.neg` (opcode 0xFD 97), a vector instruction that negates each lane of a vector.
    ///
    /// [`Instruction::I8x16Neg`](super::Instruction::I8x16Neg) is the same instruction as a value.
    #[doc(alias = "i8x16.neg")]
    pub fn i8x16_neg(&mut self) -> &mut Self {
        self.put([0xFD, 0x61], [])
    }

    /// Appends `i8x16.popcnt` (opcode 0xFD 98), a vector instruction that counts the one bits of each lane of a vector.
    ///
    /// [`Instruction::I8x16Popcnt`](super::Instruction::I8x16Popcnt) is the same instruction as a value.
    #[doc(alias = "i8x16.popcnt")]
    pub fn i8x16_popcnt(&mut self) -> &mut Self {
        self.put([0xFD, 0x62], [])
    }

    /// Appends `i8x16.all_true` (opcode 0xFD 99), a vector instruction that tests whether no lane of a vector is zero.
    ///
    /// [`Instruction::I8x16AllTrue`](super::Instruction::I8x16AllTrue) is the same instruction as a value.
    #[doc(alias = "i8x16.all_true")]
    pub fn i8x16_all_true(&mut self) -> &mut Self {
        self.put([0xFD, 0x63], [])
    }

    /// Appends `i8x16.bitmask` (opcode 0xFD 100), a vector instruction that collects the highest bit of each lane of a vector.
    ///
    /// [`Instruction::I8x16Bitmask`](super::Instruction::I8x16Bitmask) is the same instruction as a value.
    #[doc(alias = "i8x16.bitmask")]
    pub fn i8x16_bitmask(&mut self) -> &mut Self {
        self.put([0xFD, 0x64], [])
    }

    /// Appends `i8x16.narrow_i16x8_s` (opcode 0xFD 101), a vector instruction that narrows the lanes of two vectors, and saturates.
    ///
    /// [`Instruction::I8x16NarrowI16x8S`](super::Instruction::I8x16NarrowI16x8S) is the same instruction as a value.
    #[doc(alias = "i8x16.narrow_i16x8_s")]
    pub fn i8x16_narrow_i16x8_s(&mut self) -> &mut Self {
        self.put([0xFD, 0x65], [])
    }

    /// Appends `i8x16.narrow_i16x8_u` (opcode 0xFD 102), a vector instruction that narrows the lanes of two vectors, and saturates.
    ///
    /// [`Instruction::I8x16NarrowI16x8U`](super::Instruction::I8x16NarrowI16x8U) is the same instruction as a value.
    #[doc(alias = "i8x16.narrow_i16x8_u")]
    pub fn i8x16_narrow_i16x8_u(&mut self) -> &mut Self {
        self.put([0xFD, 0x66], [])
    }

    /// Appends `f32x4.ceil` (opcode 0xFD 103), a vector instruction that rounds each lane of a vector up.
    ///
    /// [`Instruction::F32x4Ceil`](super::Instruction::F32x4Ceil) is the same instruction as a value.
    #[doc(alias = "f32x4.ceil")]
    pub fn f32x4_ceil(&mut self) -> &mut Self {
        self.put([0xFD, 0x67], [])
    }

    /// Appends `f32x4.floor` (opcode 0xFD 104), a vector instruction that rounds each lane of a vector down.
    ///
    /// [`Instruction::F32x4Floor`](super::Instruction::F32x4Floor) is the same instruction as a value.
    #[doc(alias = "f32x4.floor")]
    pub fn f32x4_floor(&mut self) -> &mut Self {
        self.put([0xFD, 0x68], [])
    }

    /// Appends `f32x4.trunc` (opcode 0xFD 105), a vector instruction that rounds each lane of a vector towards zero.
    ///
    /// [`Instruction::F32x4Trunc`](super::Instruction::F32x4Trunc) is the same instruction as a value.
    #[doc(alias = "f32x4.trunc")]
    pub fn f32x4_trunc(&mut self) -> &mut Self {
        self.put([0xFD, 0x69], [])
    }

    /// Appends `f32x4.nearest` (opcode 0xFD 106), a vector instruction that rounds each lane of a vector to the nearest integer.
    ///
    /// [`Instruction::F32x4Nearest`](super::Instruction::F32x4Nearest) is the same instruction as a value.
    #[doc(alias = "f32x4.nearest")]
    pub fn f32x4_nearest(&mut self) -> &mut Self {
        self.put([0xFD, 0x6A], [])
    }

    /// Appends `i8x16.shl` (opcode 0xFD 107), a vector instruction that shifts each lane of a vector to the left.
    ///
    /// [`Instruction::I8x16Shl`](super::Instruction::I8x16Shl) is the same instruction as a value.
    #[doc(alias = "i8x16.shl")]
    pub fn i8x16_shl(&mut self) -> &mut Self {
        self.put([0xFD, 0x6B], [])
    }

    /// Appends `i8x16.shr_s` (opcode 0xFD 108), a vector instruction that shifts each lane of a vector to the right.
    ///
    /// [`Instruction::I8x16ShrS`](super::Instruction::I8x16ShrS) is the same instruction as a value.
    #[doc(alias = "i8x16.shr_s")]
    pub fn i8x16_shr_s(&mut self) -> &mut Self {
        self.put([0xFD, 0x6C], [])
    }

    /// Appends `i8x16.shr_u` (opcode 0xFD 109), a vector instruction that shifts each lane of a vector to the right.
    ///
    /// [`Instruction::I8x16ShrU`](super::Instruction::I8x16ShrU) is the same instruction as a value.
    #[doc(alias = "i8x16.shr_u")]
    pub fn i8x16_shr_u(&mut self) -> &mut Self {
        self.put([0xFD, 0x6D], [])
    }

    /// Appends `i8x16.add` (opcode 0xFD 110), a vector instruction that adds each lane of two vectors.
    ///
    /// [`Instruction::I8x16Add`](super::Instruction::I8x16Add) is the same instruction as a value.
    #[doc(alias = "i8x16.add")]
    pub fn i8x16_add(&mut self) -> &mut Self {
        self.put([0xFD, 0x6E], [])
    }

    /// Appends `i8x16.add_sat_s` (opcode 0xFD 111), a vector instruction that adds each lane of two vectors, and saturates.
    ///
    /// [`Instruction::I8x16AddSatS`](super::Instruction::I8x16AddSatS) is the same instruction as a value.
    #[doc(alias = "i8x16.add_sat_s")]
    pub fn i8x16_add_sat_s(&mut self) -> &mut Self {
        self.put([0xFD, 0x6F], [])
    }

    /// Appends `i8x16.add_sat_u` (opcode 0xFD 112), a vector instruction that adds each lane of two vectors, and saturates.
    ///
    /// [`Instruction::I8x16AddSatU`](super::Instruction::I8x16AddSatU) is the same instruction as a value.
    #[doc(alias = "i8x16.add_sat_u")]
    pub fn i8x16_add_sat_u(&mut self) -> &mut Self {
        self.put([0xFD, 0x70], [])
    }

    /// Appends `i8x16.sub` (opcode 0xFD 113), a vector instruction that subtracts each lane of two vectors.
    ///
    /// [`Instruction::I8x16Sub`](super::Instruction::I8x16Sub) is the same instruction as a value.
    #[doc(alias = "i8x16.sub")]
    pub fn i8x16_sub(&mut self) -> &mut Self {
        self.put([0xFD, 0x71], [])
    }

    /// Appends `i8x16.sub_sat_s` (opcode 0xFD 114), a vector instruction that subtracts each lane of two vectors, and saturates.
    ///
    /// [`Instruction::I8x16SubSatS`](super::Instruction::I8x16SubSatS) is the same instruction as a value.
    #[doc(alias = "i8x16.sub_sat_s")]
    pub fn i8x16_sub_sat_s(&mut self) -> &mut Self {
        self.put([0xFD, 0x72], [])
    }

    /// Appends `i8x16.sub_sat_u` (opcode 0xFD 115), a vector instruction that subtracts each lane of two vectors, and saturates.
    ///
    /// [`Instruction::I8x16SubSatU`](super::Instruction::I8x16SubSatU) is the same instruction as a value.
    #[doc(alias = "i8x16.sub_sat_u")]
    pub fn i8x16_sub_sat_u(&mut self) -> &mut Self {
        self.put([0xFD, 0x73], [])
    }

    /// Appends `f64x2.ceil` (opcode 0xFD 116), a vector instruction that rounds each lane of a vector up.
    ///
    /// [`Instruction::F64x2Ceil`](super::Instruction::F64x2Ceil) is the same instruction as a value.
    #[doc(alias = "f64x2.ceil")]
    pub fn f64x2_ceil(&mut self) -> &mut Self {
        self.put([0xFD, 0x74], [])
    }

    /// Appends `f64x2.floor` (opcode 0xFD 117), a vector instruction that rounds each lane of a vector down.
    ///
    /// [`Instruction::F64x2Floor`](super::Instruction::F64x2Floor) is the same instruction as a value.
    #[doc(alias = "f64x2.floor")]
    pub fn f64x2_floor(&mut self) -> &mut Self {
        self.put([0xFD, 0x75], [])
    }

    /// Appends `i8x16.min_s` (opcode 0xFD 118), a vector instruction that computes the minimum of each lane of two vectors.
    ///
    /// [`Instruction::I8x16MinS`](super::Instruction::I8x16MinS) is the same instruction as a value.
    #[doc(alias = "i8x16.min_s")]
    pub fn i8x16_min_s(&mut self) -> &mut Self {
        self.put([0xFD, 0x76], [])
    }

    /// Appends `i8x16.min_u` (opcode 0xFD 119), a vector instruction that computes the minimum of each lane of two vectors.
    ///
    /// [`Instruction::I8x16MinU`](super::Instruction::I8x16MinU) is the same instruction as a value.
    #[doc(alias = "i8x16.min_u")]
    pub fn i8x16_min_u(&mut self) -> &mut Self {
        self.put([0xFD, 0x77], [])
    }

    /// Appends `i8x16.max_s` (opcode 0xFD 120), a vector instruction that computes the maximum of each lane of two vectors.
    ///
    /// [`Instruction::I8x16MaxS`](super::Instruction::I8x16MaxS) is the same instruction as a value.
    #[doc(alias = "i8x16.max_s")]
    pub fn i8x16_max_s(&mut self) -> &mut Self {
        self.put([0xFD, 0x78], [])
    }

    /// Appends `i8x16.max_u` (opcode 0xFD 121), a vector instruction that computes the maximum of each lane of two vectors.
    ///
    /// [`Instruction::I8x16MaxU`](super::Instruction::I8x16MaxU) is the same instruction as a value.
    #[doc(alias = "i8x16.max_u")]
    pub fn i8x16_max_u(&mut self) -> &mut Self {
        self.put([0xFD, 0x79], [])
    }

    /// Appends `f64x2.trunc` (opcode 0xFD 122), a vector instruction that rounds each lane of a vector towards zero.
    ///
    /// [`Instruction::F64x2Trunc`](super::Instruction::F64x2Trunc) is the same instruction as a value.
    #[doc(alias = "f64x2.trunc")]
    pub fn f64x2_trunc(&mut self) -> &mut Self {
        self.put([0xFD, 0x7A], [])
    }

    /// Appends `i8x16.avgr_u` (opcode 0xFD 123), a vector instruction that averages each lane of two vectors, rounded up.
    ///
    /// [`Instruction::I8x16AvgrU`](super::Instruction::I8x16AvgrU) is the same instruction as a value.
    #[doc(alias = "i8x16.avgr_u")]
    pub fn i8x16_avgr_u(&mut self) -> &mut Self {
        self.put([0xFD, 0x7B], [])
    }

    /// Appends `i16x8.extadd_pairwise_i8x16_s` (opcode 0xFD 124), a vector instruction that adds neighbouring lanes of a vector to wider ones.
    ///
    /// [`Instruction::I16x8ExtAddPairwiseI8x16S`](super::Instruction::I16x8ExtAddPairwiseI8x16S) is the same instruction as a value.
    #[doc(alias = "i16x8.extadd_pairwise_i8x16_s")]
    pub fn i16x8_extadd_pairwise_i8x16_s(&mut self) -> &mut Self {
        self.put([0xFD, 0x7C], [])
    }

    /// Appends `i16x8.extadd_pairwise_i8x16_u` (opcode 0xFD 125), a vector instruction that adds neighbouring lanes of a vector to wider ones.
    ///
    /// [`Instruction::I16x8ExtAddPairwiseI8x16U`](super::Instruction::I16x8ExtAddPairwiseI8x16U) is the same instruction as a value.
    #[doc(alias = "i16x8.extadd_pairwise_i8x16_u")]
    pub fn i16x8_extadd_pairwise_i8x16_u(&mut self) -> &mut Self {
        self.put([0xFD, 0x7D], [])
    }

    /// Appends `i32x4.extadd_pairwise_i16x8_s` (opcode 0xFD 126), a vector instruction that adds neighbouring lanes of a vector to wider ones.
    ///
    /// [`Instruction::I32x4ExtAddPairwiseI16x8S`](super::Instruction::I32x4ExtAddPairwiseI16x8S) is the same instruction as a value.
    #[doc(alias = "i32x4.extadd_pairwise_i16x8_s")]
    pub fn i32x4_extadd_pairwise_i16x8_s(&mut self) -> &mut Self {
        self.put([0xFD, 0x7E], [])
    }

    /// Appends `i32x4.extadd_pairwise_i16x8_u` (opcode 0xFD 127), a vector instruction that adds neighbouring lanes of a vector to wider ones.
    ///
    /// [`Instruction::I32x4ExtAddPairwiseI16x8U`](super::Instruction::I32x4ExtAddPairwiseI16x8U) is the same instruction as a value.
    #[doc(alias = "i32x4.extadd_pairwise_i16x8_u")]
    pub fn i32x4_extadd_pairwise_i16x8_u(&mut self) -> &mut Self {
        self.put([0xFD, 0x7F], [])
    }

    /// Appends `i16x8.abs` (opcode 0xFD 128), a vector instruction that computes the absolute value of each lane of a vector.
    ///
    /// [`Instruction::I16x8Abs`](super::Instruction::I16x8Abs) is the same instruction as a value.
    #[doc(alias = "i16x8.abs")]
    pub fn i16x8_abs(&mut self) -> &mut Self {
        self.put([0xFD, 0x80, 0x01], [])
    }

    /// Appends `i16x8.neg` (opcode 0xFD 129), a vector instruction that negates each lane of a vector.
    ///
    /// [`Instruction::I16x8Neg`](super::Instruction::I16x8Neg) is the same instruction as a value.
    #[doc(alias = "i16x8.neg")]
    pub fn i16x8_neg(&mut self) -> &mut Self {
        self.put([0xFD, 0x81, 0x01], [])
    }

    /// Appends `i16x8.q15mulr_sat_s` (opcode 0xFD 130), a vector instruction that multiplies each lane of two vectors as fixed-point numbers, rounded.
    ///
    /// [`Instruction::I16x8Q15MulrSatS`](super::Instruction::I16x8Q15MulrSatS) is the same instruction as a value.
    #[doc(alias = "i16x8.q15mulr_sat_s")]
    pub fn i16x8_q15mulr_sat_s(&mut self) -> &mut Self {
        self.put([0xFD, 0x82, 0x01], [])
    }

    /// Appends `i16x8.all_true` (opcode 0xFD 131), a vector instruction that tests whether no lane of a vector is zero.
    ///
    /// [`Instruction::I16x8AllTrue`](super::Instruction::I16x8AllTrue) is the same instruction as a value.
    #[doc(alias = "i16x8.all_true")]
    pub fn i16x8_all_true(&mut self) -> &mut Self {
        self.put([0xFD, 0x83, 0x01], [])
    }

    /// Appends `i16x8.bitmask` (opcode 0xFD 132), a vector instruction that collects the highest bit of each lane of a vector.
    ///
    /// [`Instruction::I16x8Bitmask`](super::Instruction::I16x8Bitmask) is the same instruction as a value.
    #[doc(alias = "i16x8.bitmask")]
    pub fn i16x8_bitmask(&mut self) -> &mut Self {
        self.put([0xFD, 0x84, 0x01], [])
    }

    /// Appends `i16x8.narrow_i32x4_s` (opcode 0xFD 133), a vector instruction that narrows the lanes of two vectors, and saturates.
    ///
    /// [`Instruction::I16x8NarrowI32x4S`](super::Instruction::I16x8NarrowI32x4S) is the same instruction as a value.
    #[doc(alias = "i16x8.narrow_i32x4_s")]
    pub fn i16x8_narrow_i32x4_s(&mut self) -> &mut Self {
        self.put([0xFD, 0x85, 0x01], [])
    }

    /// Appends `i16x8.narrow_i32x4_u` (opcode 0xFD 134), a vector instruction that narrows the lanes of two vectors, and saturates.
    ///
    /// [`Instruction::I16x8NarrowI32x4U`](super::Instruction::I16x8NarrowI32x4U) is the same instruction as a value.
    #[doc(alias = "i16x8.narrow_i32x4_u")]
    pub fn i16x8_narrow_i32x4_u(&mut self) -> &mut Self {
        self.put([0xFD, 0x86, 0x01], [])
    }

    /// Appends `i16x8.extend_low_i8x16_s` (opcode 0xFD 135), a vector instruction that extends the lower lanes of a vector.
    ///
    /// [`Instruction::I16x8ExtendLowI8x16S`](super::Instruction::I16x8ExtendLowI8x16S) is the same instruction as a value.
    #[doc(alias = "i16x8.extend_low_i8x16_s")]
    pub fn i16x8_extend_low_i8x16_s(&mut self) -> &mut Self {
        self.put([0xFD, 0x87, 0x01], [])
    }

    /// Appends `i16x8.extend_high_i8x16_s` (opcode 0xFD 136), a vector instruction that extends the upper lanes of a vector.
    ///
    /// [`Instruction::I16x8ExtendHighI8x16S`](super::Instruction::I16x8ExtendHighI8x16S) is the same instruction as a value.
    #[doc(alias = "i16x8.extend_high_i8x16_s")]
    pub fn i16x8_extend_high_i8x16_s(&mut self) -> &mut Self {
        self.put([0xFD, 0x88, 0x01], [])
    }

    /// Appends `i16x8.extend_low_i8x16_u` (opcode 0xFD 137), a vector instruction that extends the lower lanes of a vector.
    ///
    /// [`Instruction::I16x8ExtendLowI8x16U`](super::Instruction::I16x8ExtendLowI8x16U) is the same instruction as a value.
    #[doc(alias = "i16x8.extend_low_i8x16_u")]
    pub fn i16x8_extend_low_i8x16_u(&mut self) -> &mut Self {
        self.put([0xFD, 0x89, 0x01], [])
    }

    /// Appends `i16x8.extend_high_i8x16_u` (opcode 0xFD 138), a vector instruction that extends the upper lanes of a vector.
    ///
    /// [`Instruction::I16x8ExtendHighI8x16U`](super::Instruction::I16x8ExtendHighI8x16U) is the same instruction as a value.
    #[doc(alias = "i16x8.extend_high_i8x16_u")]
    pub fn i16x8_extend_high_i8x16_u(&mut self) -> &mut Self {
        self.put([0xFD, 0x8A, 0x01], [])
    }

    /// Appends `i16x8.shl` (opcode 0xFD 139), a vector instruction that shifts each lane of a vector to the left.
    ///
    /// [`Instruction::I16x8Shl`](super::Instruction::I16x8Shl) is the same instruction as a value.
    #[doc(alias = "i16x8.shl")]
    pub fn i16x8_shl(&mut self) -> &mut Self {
        self.put([0xFD, 0x8B, 0x01], [])
    }

    /// Appends `i16x8.shr_s` (opcode 0xFD 140), a vector instruction that shifts each lane of a vector to the right.
    ///
    /// [`Instruction::I16x8ShrS`](super::Instruction::I16x8ShrS) is the same instruction as a value.
    #[doc(alias = "i16x8.shr_s")]
    pub fn i16x8_shr_s(&mut self) -> &mut Self {
        self.put([0xFD, 0x8C, 0x01], [])
    }

    /// Appends `i16x8.shr_u` (opcode 0xFD 141), a vector instruction that shifts each lane of a vector to the right.
    ///
    /// [`Instruction::I16x8ShrU`](super::Instruction::I16x8ShrU) is the same instruction as a value.
    #[doc(alias = "i16x8.shr_u")]
    pub fn i16x8_shr_u(&mut self) -> &mut Self {
        self.put([0xFD, 0x8D, 0x01], [])
    }

    /// Appends `i16x8.add` (opcode 0xFD 142), a vector instruction that adds each lane of two vectors.
    ///
    /// [`Instruction::I16x8Add`](super::Instruction::I16x8Add) is the same instruction as a value.
    #[doc(alias = "i16x8.add")]
    pub fn i16x8_add(&mut self) -> &mut Self {
        self.put([0xFD, 0x8E, 0x01], [])
    }

    /// Appends `i16x8.add_sat_s` (opcode 0xFD 143), a vector instruction that adds each lane of two vectors, and saturates.
    ///
    /// [`Instruction::I16x8AddSatS`](super::Instruction::I16x8AddSatS) is the same instruction as a value.
    #[doc(alias = "i16x8.add_sat_s")]
    pub fn i16x8_add_sat_s(&mut self) -> &mut Self {
        self.put([0xFD, 0x8F, 0x01], [])
    }

    /// Appends `i16x8.add_sat_u` (opcode 0xFD 144), a vector instruction that adds each lane of two vectors, and saturates.
    ///
    /// [`Instruction::I16x8AddSatU`](super::Instruction::I16x8AddSatU) is the same instruction as a value.
    #[doc(alias = "i16x8.add_sat_u")]
    pub fn i16x8_add_sat_u(&mut self) -> &mut Self {
        self.put([0xFD, 0x90, 0x01], [])
    }

    /// Appends `i16x8.sub` (opcode 0xFD 145), a vector instruction that subtracts each lane of two vectors.
    ///
    /// [`Instruction::I16x8Sub`](super::Instruction::I16x8Sub) is the same instruction as a value.
    #[doc(alias = "i16x8.sub")]
    pub fn i16x8_sub(&mut self) -> &mut Self {
        self.put([0xFD, 0x91, 0x01], [])
    }

    /// Appends `i16x8.sub_sat_s` (opcode 0xFD 146), a vector instruction that subtracts each lane of two vectors, and saturates.
    ///
    /// [`Instruction::I16x8SubSatS`](super::Instruction::I16x8SubSatS) is the same instruction as a value.
    #[doc(alias = "i16x8.sub_sat_s")]
    pub fn i16x8_sub_sat_s(&mut self) -> &mut Self {
        self.put([0xFD, 0x92, 0x01], [])
    }

    /// Appends `i16x8.sub_sat_u` (opcode 0xFD 147), a vector instruction that subtracts each lane of two vectors, and saturates.
    ///
    /// [`Instruction::I16x8SubSatU`](super::Instruction::I16x8SubSatU) is the same instruction as a value.
    #[doc(alias = "i16x8.sub_sat_u")]
    pub fn i16x8_sub_sat_u(&mut self) -> &mut Self {
        self.put([0xFD, 0x93, 0x01], [])
    }

    /// Appends `f64x2.nearest` (opcode 0xFD 148), a vector instruction that rounds each lane of a vector to the nearest integer.
    ///
    /// [`Instruction::F64x2Nearest`](super::Instruction::F64x2Nearest) is the same instruction as a value.
    #[doc(alias = "f64x2.nearest")]
    pub fn f64x2_nearest(&mut self) -> &mut Self {
        self.put([0xFD, 0x94, 0x01], [])
    }

    /// Appends `i16x8.mul` (opcode 0xFD 149), a vector instruction that multiplies each lane of two vectors.
    ///
    /// [`Instruction::I16x8Mul`](super::Instruction::I16x8Mul) is the same instruction as a value.
    #[doc(alias = "i16x8.mul")]
    pub fn i16x8_mul(&mut self) -> &mut Self {
        self.put([0xFD, 0x95, 0x01], [])
    }

    /// Appends `i16x8.min_s` (opcode 0xFD 150), a vector instruction that computes the minimum of each lane of two vectors.
    ///
    /// [`Instruction::I16x8MinS`](super::Instruction::I16x8MinS) is the same instruction as a value.
    #[doc(alias = "i16x8.min_s")]
    pub fn i16x8_min_s(&mut self) -> &mut Self {
        self.put([0xFD, 0x96, 0x01], [])
    }

    /// Appends `i16x8.min_u` (opcode 0xFD 151), a vector instruction that computes the minimum of each lane of two vectors.
    ///
    /// [`Instruction::I16x8MinU`](super::Instruction::I16x8MinU) is the same instruction as a value.
    #[doc(alias = "i16x8.min_u")]
    pub fn i16x8_min_u(&mut self) -> &mut Self {
        self.put([0xFD, 0x97, 0x01], [])
    }

    /// Appends `i16x8.max_s` (opcode 0xFD 152), a vector instruction that computes the maximum of each lane of two vectors.
    ///
    /// [`Instruction::I16x8MaxS`](super::Instruction::I16x8MaxS) is the same instruction as a value.
    #[doc(alias = "i16x8.max_s")]
    pub fn i16x8_max_s(&mut self) -> &mut Self {
        self.put([0xFD, 0x98, 0x01], [])
    }

    /// Appends `i16x8.max_u` (opcode 0xFD 153), a vector instruction that computes the maximum of each lane of two vectors.
    ///
    /// [`Instruction::I16x8MaxU`](super::Instruction::I16x8MaxU) is the same instruction as a value.
    #[doc(alias = "i16x8.max_u")]
    pub fn i16x8_max_u(&mut self) -> &mut Self {
        self.put([0xFD, 0x99, 0x01], [])
    }

    /// Appends `i16x8.avgr_u` (opcode 0xFD 155), a vector instruction that averages each lane of two vectors, rounded up.
    ///
    /// [`Instruction::I16x8AvgrU`](super::Instruction::I16x8AvgrU) is the same instruction as a value.
    #[doc(alias = "i16x8.avgr_u")]
    pub fn i16x8_avgr_u(&mut self) -> &mut Self {
        self.put([0xFD, 0x9B, 0x01], [])
    }

    /// Appends `i16x8.extmul_low_i8x16_s` (opcode 0xFD 156), a vector instruction that multiplies the lower lanes of two vectors to wider ones.
    ///
    /// [`Instruction::I16x8ExtMulLowI8x16S`](super::Instruction::I16x8ExtMulLowI8x16S) is the same instruction as a value.
    #[doc(alias = "i16x8.extmul_low_i8x16_s")]
    pub fn i16x8_extmul_low_i8x16_s(&mut self) -> &mut Self {
        self.put([0xFD, 0x9C, 0x01], [])
    }

    /// Appends `i16x8.extmul_high_i8x16_s` (opcode 0xFD 157), a vector instruction that multiplies the upper lanes of two vectors to wider ones.
    ///
    /// [`Instruction::I16x8ExtMulHighI8x16S`](super::Instruction::I16x8ExtMulHighI8x16S) is the same instruction as a value.
    #[doc(alias = "i16x8.extmul_high_i8x16_s")]
    pub fn i16x8_extmul_high_i8x16_s(&mut self) -> &mut Self {
        self.put([0xFD, 0x9D, 0x01], [])
    }

    /// Appends `i16x8.extmul_low_i8x16_u` (opcode 0xFD 158), a vector instruction that multiplies the lower lanes of two vectors to wider ones.
    ///
    /// [`Instruction::I16x8ExtMulLowI8x16U`](super::Instruction::I16x8ExtMulLowI8x16U) is the same instruction as a value.
    #[doc(alias = "i16x8.extmul_low_i8x16_u")]
    pub fn i16x8_extmul_low_i8x16_u(&mut self) -> &mut Self {
        self.put([0xFD, 0x9E, 0x01], [])
    }

    /// Appends `i16x8.extmul_high_i8x16_u` (opcode 0xFD 159), a vector instruction that multiplies the upper lanes of two vectors to wider ones.
    ///
    /// [`Instruction::I16x8ExtMulHighI8x16U`](super::Instruction::I16x8ExtMulHighI8x16U) is the same instruction as a value.
    #[doc(alias = "i16x8.extmul_high_i8x16_u")]
    pub fn i16x8_extmul_high_i8x16_u(&mut self) -> &mut Self {
        self.put([0xFD, 0x9F, 0x01], [])
    }

    /// Appends `i32x4.abs` (opcode 0xFD 160), a vector instruction that computes the absolute value of each lane of a vector.
    ///
    /// [`Instruction::I32x4Abs`](super::Instruction::I32x4Abs) is the same instruction as a value.
    #[doc(alias = "i32x4.abs")]
    pub fn i32x4_abs(&mut self) -> &mut Self {
        self.put([0xFD, 0xA0, 0x01], [])
    }

    /// Appends `i32x4.neg` (opcode 0xFD 161), a vector instruction that negates each lane of a vector.
    ///
    /// [`Instruction::I32x4Neg`](super::Instruction::I32x4Neg) is the same instruction as a value.
    #[doc(alias = "i32x4.neg")]
    pub fn i32x4_neg(&mut self) -> &mut Self {
        self.put([0xFD, 0xA1, 0x01], [])
    }

    /// Appends `i32x4.all_true` (opcode 0xFD 163), a vector instruction that tests whether no lane of a vector is zero.
    ///
    /// [`Instruction::I32x4AllTrue`](super::Instruction::I32x4AllTrue) is the same instruction as a value.
    #[doc(alias = "i32x4.all_true")]
    pub fn i32x4_all_true(&mut self) -> &mut Self {
        self.put([0xFD, 0xA3, 0x01], [])
    }

    /// Appends `i32x4.bitmask` (opcode 0xFD 164), a vector instruction that collects the highest bit of each lane of a vector.
    ///
    /// [`Instruction::I32x4Bitmask`](super::Instruction::I32x4Bitmask) is the same instruction as a value.
    #[doc(alias = "i32x4.bitmask")]
    pub fn i32x4_bitmask(&mut self) -> &mut Self {
        self.put([0xFD, 0xA4, 0x01], [])
    }

    /// Appends `i32x4.extend_low_i16x8_s` (opcode 0xFD 167), a vector instruction that extends the lower lanes of a vector.
    ///
    /// [`Instruction::I32x4ExtendLowI16x8S`](super::Instruction::I32x4ExtendLowI16x8S) is the same instruction as a value.
    #[doc(alias = "i32x4.extend_low_i16x8_s")]
    pub fn i32x4_extend_low_i16x8_s(&mut self) -> &mut Self {
        self.put([0xFD, 0xA7, 0x01], [])
    }

    /// Appends `i32x4.extend_high_i16x8_s` (opcode 0xFD 168), a vector instruction that extends the upper lanes of a vector.
    ///
    /// [`Instruction::I32x4ExtendHighI16x8S`](super::Instruction::I32x4ExtendHighI16x8S) is the same instruction as a value.
    #[doc(alias = "i32x4.extend_high_i16x8_s")]
    pub fn i32x4_extend_high_i16x8_s(&mut self) -> &mut Self {
        self.put([0xFD, 0xA8, 0x01], [])
    }

    /// Appends `i32x4.extend_low_i16x8_u` (opcode 0xFD 169), a vector instruction that extends the lower lanes of a vector.
    ///
    /// [`Instruction::I32x4ExtendLowI16x8U`](super::Instruction::I32x4ExtendLowI16x8U) is the same instruction as a value.
    #[doc(alias = "i32x4.extend_low_i16x8_u")]
    pub fn i32x4_extend_low_i16x8_u(&mut self) -> &mut Self {
        self.put([0xFD, 0xA9, 0x01], [])
    }

    /// Appends `i32x4.extend_high_i16x8_u` (opcode 0xFD 170), a vector instruction that extends the upper lanes of a vector.
    ///
    /// [`Instruction::I32x4ExtendHighI16x8U`](super::Instruction::I32x4ExtendHighI16x8U) is the same instruction as a value.
    #[doc(alias = "i32x4.extend_high_i16x8_u")]
    pub fn i32x4_extend_high_i16x8_u(&mut self) -> &mut Self {
        self.put([0xFD, 0xAA, 0x01], [])
    }

    /// Appends `i32x4.shl` (opcode 0xFD 171), a vector instruction that shifts each lane of a vector to the left.
    ///
    /// [`Instruction::I32x4Shl`](super::Instruction::I32x4Shl) is the same instruction as a value.
    #[doc(alias = "i32x4.shl")]
    pub fn i32x4_shl(&mut self) -> &mut Self {
        self.put([0xFD, 0xAB, 0x01], [])
    }

    /// Appends `i32x4.shr_s` (opcode 0xFD 172), a vector instruction that shifts each lane of a vector to the right.
    ///
    /// [`Instruction::I32x4ShrS`](super::Instruction::I32x4ShrS) is the same instruction as a value.
    #[doc(alias = "i32x4.shr_s")]
    pub fn i32x4_shr_s(&mut self) -> &mut Self {
        self.put([0xFD, 0xAC, 0x01], [])
    }

    /// Appends `i32x4.shr_u` (opcode 0xFD 173), a vector instruction that shifts each lane of a vector to the right.
    ///
    /// [`Instruction::I32x4ShrU`](super::Instruction::I32x4ShrU) is the same instruction as a value.
    #[doc(alias = "i32x4.shr_u")]
    pub fn i32x4_shr_u(&mut self) -> &mut Self {
        self.put([0xFD, 0xAD, 0x01], [])
    }

    /// Appends `i32x4.add` (opcode 0xFD 174), a vector instruction that adds each lane of two vectors.
    ///
    /// [`Instruction::I32x4Add`](super::Instruction::I32x4Add) is the same instruction as a value.
    #[doc(alias = "i32x4.add")]
    pub fn i32x4_add(&mut self) -> &mut Self {
        self.put([0xFD, 0xAE, 0x01], [])
    }

    /// Appends `i32x4.sub` (opcode 0xFD 177), a vector instruction that subtracts each lane of two vectors.
    ///
    /// [`Instruction::I32x4Sub`](super::Instruction::I32x4Sub) is the same instruction as a value.
    #[doc(alias = "i32x4.sub")]
    pub fn i32x4_sub(&mut self) -> &mut Self {
        self.put([0xFD, 0xB1, 0x01], [])
    }

    /// Appends `i32x4.mul` (opcode 0xFD 181), a vector instruction that multiplies each lane of two vectors.
    ///
    /// [`Instruction::I32x4Mul`](super::Instruction::I32x4Mul) is the same instruction as a value.
    #[doc(alias = "i32x4.mul")]
    pub fn i32x4_mul(&mut self) -> &mut Self {
        self.put([0xFD, 0xB5, 0x01], [])
    }

    /// Appends `i32x4.min_s` (opcode 0xFD 182), a vector instruction that computes the minimum of each lane of two vectors.
    ///
    /// [`Instruction::I32x4MinS`](super::Instruction::I32x4MinS) is the same instruction as a value.
    #[doc(alias = "i32x4.min_s")]
    pub fn i32x4_min_s(&mut self) -> &mut Self {
        self.put([0xFD, 0xB6, 0x01], [])
    }

    /// Appends `i32x4.min_u` (opcode 0xFD 183), a vector instruction that computes the minimum of each lane of two vectors.
    ///
    /// [`Instruction::I32x4MinU`](super::Instruction::I32x4MinU) is the same instruction as a value.
    #[doc(alias = "i32x4.min_u")]
    pub fn i32x4_min_u(&mut self) -> &mut Self {
        self.put([0xFD, 0xB7, 0x01], [])
    }

    /// Appends `i32x4.max_s` (opcode 0xFD 184), a vector instruction that computes the maximum of each lane of two vectors.
    ///
    /// [`Instruction::I32x4MaxS`](super::Instruction::I32x4MaxS) is the same instruction as a value.
    #[doc(alias = "i32x4.max_s")]
    pub fn i32x4_max_s(&mut self) -> &mut Self {
        self.put([0xFD, 0xB8, 0x01], [])
    }

    /// Appends `i32x4.max_u` (opcode 0xFD 185), a vector instruction that computes the maximum of each lane of two vectors.
    ///
    /// [`Instruction::I32x4MaxU`](super::Instruction::I32x4MaxU) is the same instruction as a value.
    #[doc(alias = "i32x4.max_u")]
    pub fn i32x4_max_u(&mut self) -> &mut Self {
        self.put([0xFD, 0xB9, 0x01], [])
    }

    /// Appends `i32x4.dot_i16x8_s` (opcode 0xFD 186), a vector instruction that multiplies each lane of two vectors, and adds neighbouring products.
    ///
    /// [`Instruction::I32x4DotI16x8S`](super::Instruction::I32x4DotI16x8S) is the same instruction as a value.
    #[doc(alias = "i32x4.dot_i16x8_s")]
    pub fn i32x4_dot_i16x8_s(&mut self) -> &mut Self {
        self.put([0xFD, 0xBA, 0x01], [])
    }

    /// Appends `i32x4.extmul_low_i16x8_s` (opcode 0xFD 188), a vector instruction that multiplies the lower lanes of two vectors to wider ones.
    ///
    /// [`Instruction::I32x4ExtMulLowI16x8S`](super::Instruction::I32x4ExtMulLowI16x8S) is the same instruction as a value.
    #[doc(alias = "i32x4.extmul_low_i16x8_s")]
    pub fn i32x4_extmul_low_i16x8_s(&mut self) -> &mut Self {
        self.put([0xFD, 0xBC, 0x01], [])
    }

    /// Appends `i32x4.extmul_high_i16x8_s` (opcode 0xFD 189), a vector instruction that multiplies the upper lanes of two vectors to wider ones.
    ///
    /// [`Instruction::I32x4ExtMulHighI16x8S`](super::Instruction::I32x4ExtMulHighI16x8S) is the same instruction as a value.
    #[doc(alias = "i32x4.extmul_high_i16x8_s")]
    pub fn i32x4_extmul_high_i16x8_s(&mut self) -> &mut Self {
        self.put([0xFD, 0xBD, 0x01], [])
    }

    /// Appends `i32x4.extmul_low_i16x8_u` (opcode 0xFD 190), a vector instruction that multiplies the lower lanes of two vectors to wider ones.
    ///
    /// [`Instruction::I32x4ExtMulLowI16x8U`](super::Instruction::I32x4ExtMulLowI16x8U) is the same instruction as a value.
    #[doc(alias = "i32x4.extmul_low_i16x8_u")]
    pub fn i32x4_extmul_low_i16x8_u(&mut self) -> &mut Self {
        self.put([0xFD, 0xBE, 0x01], [])
    }

    /// Appends `i32x4.extmul_high_i16x8_u` (opcode 0xFD 191), a vector instruction that multiplies the upper lanes of two vectors to wider ones.
    ///
    /// [`Instruction::I32x4ExtMulHighI16x8U`](super::Instruction::I32x4ExtMulHighI16x8U) is the same instruction as a value.
    #[doc(alias = "i32x4.extmul_high_i16x8_u")]
    pub fn i32x4_extmul_high_i16x8_u(&mut self) -> &mut Self {
        self.put([0xFD, 0xBF, 0x01], [])
    }

    /// Appends `i64x2.abs` (opcode 0xFD 192), a vector instruction that computes the absolute value of each lane of a vector.
    ///
    /// [`Instruction::I64x2Abs`](super::Instruction::I64x2Abs) is the same instruction as a value.
    #[doc(alias = "i64x2.abs")]
    pub fn i64x2_abs(&mut self) -> &mut Self {
        self.put([0xFD, 0xC0, 0x01], [])
    }

    /// Appends `i64x2.neg` (opcode 0xFD 193), a vector instruction that negates each lane of a vector.
    ///
    /// [`Instruction::I64x2Neg`](super::Instruction::I64x2Neg) is the same instruction as a value.
    #[doc(alias = "i64x2.neg")]
    pub fn i64x2_neg(&mut self) -> &mut Self {
        self.put([0xFD, 0xC1, 0x01], [])
    }

    /// Appends `i64x2.all_true` (opcode 0xFD 195), a vector instruction that tests whether no lane of a vector is zero.
    ///
    /// [`Instruction::I64x2AllTrue`](super::Instruction::I64x2AllTrue) is the same instruction as a value.
    #[doc(alias = "i64x2.all_true")]
    pub fn i64x2_all_true(&mut self) -> &mut Self {
        self.put([0xFD, 0xC3, 0x01], [])
    }

    /// Appends `i64x2.bitmask` (opcode 0xFD 196), a vector instruction that collects the highest bit of each lane of a vector.
    ///
    /// [`Instruction::I64x2Bitmask`](super::Instruction::I64x2Bitmask) is the same instruction as a value.
    #[doc(alias = "i64x2.bitmask")]
    pub fn i64x2_bitmask(&mut self) -> &mut Self {
        self.put([0xFD, 0xC4, 0x01], [])
    }

    /// Appends `i64x2.extend_low_i32x4_s` (opcode 0xFD 199), a vector instruction that extends the lower lanes of a vector.
    ///
    /// [`Instruction::I64x2ExtendLowI32x4S`](super::Instruction::I64x2ExtendLowI32x4S) is the same instruction as a value.
    #[doc(alias = "i64x2.extend_low_i32x4_s")]
    pub fn i64x2_extend_low_i32x4_s(&mut self) -> &mut Self {
        self.put([0xFD, 0xC7, 0x01], [])
    }

    /// Appends `i64x2.extend_high_i32x4_s` (opcode 0xFD 200), a vector instruction that extends the upper lanes of a vector.
    ///
    /// [`Instruction::I64x2ExtendHighI32x4S`](super::Instruction::I64x2ExtendHighI32x4S) is the same instruction as a value.
    #[doc(alias = "i64x2.extend_high_i32x4_s")]
    pub fn i64x2_extend_high_i32x4_s(&mut self) -> &mut Self {
        self.put([0xFD, 0xC8, 0x01], [])
    }

    /// Appends `i64x2.extend_low_i32x4_u` (opcode 0xFD 201), a vector instruction that extends the lower lanes of a vector.
    ///
    /// [`Instruction::I64x2ExtendLowI32x4U`](super::Instruction::I64x2ExtendLowI32x4U) is the same instruction as a value.
    #[doc(alias = "i64x2.extend_low_i32x4_u")]
    pub fn i64x2_extend_low_i32x4_u(&mut self) -> &mut Self {
        self.put([0xFD, 0xC9, 0x01], [])
    }

    /// Appends `i64x2.extend_high_i32x4_u` (opcode 0xFD 202), a vector instruction that extends the upper lanes of a vector.
    ///
    /// [`Instruction::I64x2ExtendHighI32x4U`](super::Instruction::I64x2ExtendHighI32x4U) is the same instruction as a value.
    #[doc(alias = "i64x2.extend_high_i32x4_u")]
    pub fn i64x2_extend_high_i32x4_u(&mut self) -> &mut Self {
        self.put([0xFD, 0xCA, 0x01], [])
    }

    /// Appends `i64x2.shl` (opcode 0xFD 203), a vector instruction that shifts each lane of a vector to the left.
    ///
    /// [`Instruction::I64x2Shl`](super::Instruction::I64x2Shl) is the same instruction as a value.
    #[doc(alias = "i64x2.shl")]
    pub fn i64x2_shl(&mut self) -> &mut Self {
        self.put([0xFD, 0xCB, 0x01], [])
    }

    /// Appends `i64x2.shr_s` (opcode 0xFD 204), a vector instruction that shifts each lane of a vector to the right.
    ///
    /// [`Instruction::I64x2ShrS`](super::Instruction::I64x2ShrS) is the same instruction as a value.
    #[doc(alias = "i64x2.shr_s")]
    pub fn i64x2_shr_s(&mut self) -> &mut Self {
        self.put([0xFD, 0xCC, 0x01], [])
    }

    /// Appends `i64x2.shr_u` (opcode 0xFD 205), a vector instruction that shifts each lane of a vector to the right.
    ///
    /// [`Instruction::I64x2ShrU`](super::Instruction::I64x2ShrU) is the same instruction as a value.
    #[doc(alias = "i64x2.shr_u")]
    pub fn i64x2_shr_u(&mut self) -> &mut Self {
        self.put([0xFD, 0xCD, 0x01], [])
    }

    /// Appends `i64x2.add` (opcode 0xFD 206), a vector instruction that adds each lane of two vectors.
    ///
    /// [`Instruction::I64x2Add`](super::Instruction::I64x2Add) is the same instruction as a value.
    #[doc(alias = "i64x2.add")]
    pub fn i64x2_add(&mut self) -> &mut Self {
        self.put([0xFD, 0xCE, 0x01], [])
    }

    /// Appends `i64x2.sub` (opcode 0xFD 209), a vector instruction that subtracts each lane of two vectors.
    ///
    /// [`Instruction::I64x2Sub`](super::Instruction::I64x2Sub) is the same instruction as a value.
    #[doc(alias = "i64x2.sub")]
    pub fn i64x2_sub(&mut self) -> &mut Self {
        self.put([0xFD, 0xD1, 0x01], [])
    }

    /// Appends `i64x2.mul` (opcode 0xFD 213), a vector instruction that multiplies each lane of two vectors.
    ///
    /// [`Instruction::I64x2Mul`](super::Instruction::I64x2Mul) is the same instruction as a value.
    #[doc(alias = "i64x2.mul")]
    pub fn i64x2_mul(&mut self) -> &mut Self {
        self.put([0xFD, 0xD5, 0x01], [])
    }

    /// Appends `i64x2.eq` (opcode 0xFD 214), a vector instruction that compares each lane of two vectors.
    ///
    /// [`Instruction::I64x2Eq`](super::Instruction::I64x2Eq) is the same instruction as a value.
    #[doc(alias = "i64x2.eq")]
    pub fn i64x2_eq(&mut self) -> &mut Self {
        self.put([0xFD, 0xD6, 0x01], [])
    }

    /// Appends `i64x2.ne` (opcode 0xFD 215), a vector instruction that compares each lane of two vectors.
    ///
    /// [`Instruction::I64x2Ne`](super::Instruction::I64x2Ne) is the same instruction as a value.
    #[doc(alias = "i64x2.ne")]
    pub fn i64x2_ne(&mut self) -> &mut Self {
        self.put([0xFD, 0xD7, 0x01], [])
    }

    /// Appends `i64x2.lt_s` (opcode 0xFD 216), a vector instruction that compares each lane of two vectors.
    ///
    /// [`Instruction::I64x2LtS`](super::Instruction::I64x2LtS) is the same instruction as a value.
    #[doc(alias = "i64x2.lt_s")]
    pub fn i64x2_lt_s(&mut self) -> &mut Self {
        self.put([0xFD, 0xD8, 0x01], [])
    }

    /// Appends `i64x2.gt_s` (opcode 0xFD 217), a vector instruction that compares each lane of two vectors.
    ///
    /// [`Instruction::I64x2GtS`](super::Instruction::I64x2GtS) is the same instruction as a value.
    #[doc(alias = "i64x2.gt_s")]
    pub fn i64x2_gt_s(&mut self) -> &mut Self {
        self.put([0xFD, 0xD9, 0x01], [])
    }

    /// Appends `i64x2.le_s` (opcode 0xFD 218), a vector instruction that compares each lane of two vectors.
    ///
    /// [`Instruction::I64x2LeS`](super::Instruction::I64x2LeS) is the same instruction as a value.
    #[doc(alias = "i64x2.le_s")]
    pub fn i64x2_le_s(&mut self) -> &mut Self {
        self.put([0xFD, 0xDA, 0x01], [])
    }

    /// Appends `i64x2.ge_s` (opcode 0xFD 219), a vector instruction that compares each lane of two vectors.
    ///
    /// [`Instruction::I64x2GeS`](super::Instruction::I64x2GeS) is the same instruction as a value.
    #[doc(alias = "i64x2.ge_s")]
    pub fn i64x2_ge_s(&mut self) -> &mut Self {
        self.put([0xFD, 0xDB, 0x01], [])
    }

    /// Appends `i64x2.extmul_low_i32x4_s` (opcode 0xFD 220), a vector instruction that multiplies the lower lanes of two vectors to wider ones.
    ///
    /// [`Instruction::I64x2ExtMulLowI32x4S`](super::Instruction::I64x2ExtMulLowI32x4S) is the same instruction as a value.
    #[doc(alias = "i64x2.extmul_low_i32x4_s")]
    pub fn i64x2_extmul_low_i32x4_s(&mut self) -> &mut Self {
        self.put([0xFD, 0xDC, 0x01], [])
    }

    /// Appends `i64x2.extmul_high_i32x4_s` (opcode 0xFD 221), a vector instruction that multiplies the upper lanes of two vectors to wider ones.
    ///
    /// [`Instruction::I64x2ExtMulHighI32x4S`](super::Instruction::I64x2ExtMulHighI32x4S) is the same instruction as a value.
    #[doc(alias = "i64x2.extmul_high_i32x4_s")]
    pub fn i64x2_extmul_high_i32x4_s(&mut self) -> &mut Self {
        self.put([0xFD, 0xDD, 0x01], [])
    }

    /// Appends `i64x2.extmul_low_i32x4_u` (opcode 0xFD 222), a vector instruction that multiplies the lower lanes of two vectors to wider ones.
    ///
    /// [`Instruction::I64x2ExtMulLowI32x4U`](super::Instruction::I64x2ExtMulLowI32x4U) is the same instruction as a value.
    #[doc(alias = "i64x2.extmul_low_i32x4_u")]
    pub fn i64x2_extmul_low_i32x4_u(&mut self) -> &mut Self {
        self.put([0xFD, 0xDE, 0x01], [])
    }

    /// Appends `i64x2.extmul_high_i32x4_u` (opcode 0xFD 223), a vector instruction that multiplies the upper lanes of two vectors to wider ones.
    ///
    /// [`Instruction::I64x2ExtMulHighI32x4U`](super::Instruction::I64x2ExtMulHighI32x4U) is the same instruction as a value.
    #[doc(alias = "i64x2.extmul_high_i32x4_u")]
    pub fn i64x2_extmul_high_i32x4_u(&mut self) -> &mut Self {
        self.put([0xFD, 0xDF, 0x01], [])
    }

    /// Appends `f32x4.abs` (opcode 0xFD 224), a vector instruction that computes the absolute value of each lane of a vector.
    ///
    /// [`Instruction::F32x4Abs`](super::Instruction::F32x4Abs) is the same instruction as a value.
    #[doc(alias = "f32x4.abs")]
    pub fn f32x4_abs(&mut self) -> &mut Self {
        self.put([0xFD, 0xE0, 0x01], [])
    }

    /// Appends `f32x4.neg` (opcode 0xFD 225), a vector instruction that negates each lane of a vector.
    ///
    /// [`Instruction::F32x4Neg`](super::Instruction::F32x4Neg) is the same instruction as a value.
    #[doc(alias = "f32x4.neg")]
    pub fn f32x4_neg(&mut self) -> &mut Self {
        self.put([0xFD, 0xE1, 0x01], [])
    }

    /// Appends `f32x4.sqrt` (opcode 0xFD 227), a vector instruction that computes the square root of each lane of a vector.
    ///
    /// [`Instruction::F32x4Sqrt`](super::Instruction::F32x4Sqrt) is the same instruction as a value.
    #[doc(alias = "f32x4.sqrt")]
    pub fn f32x4_sqrt(&mut self) -> &mut Self {
        self.put([0xFD, 0xE3, 0x01], [])
    }

    /// Appends `f32x4.add` (opcode 0xFD 228), a vector instruction that adds each lane of two vectors.
    ///
    /// [`Instruction::F32x4Add`](super::Instruction::F32x4Add) is the same instruction as a value.
    #[doc(alias = "f32x4.add")]
    pub fn f32x4_add(&mut self) -> &mut Self {
        self.put([0xFD, 0xE4, 0x01], [])
    }

    /// Appends `f32x4.sub` (opcode 0xFD 229), a vector instruction that subtracts each lane of two vectors.
    ///
    /// [`Instruction::F32x4Sub`](super::Instruction::F32x4Sub) is the same instruction as a value.
    #[doc(alias = "f32x4.sub")]
    pub fn f32x4_sub(&mut self) -> &mut Self {
        self.put([0xFD, 0xE5, 0x01], [])
    }

    /// Appends `f32x4.mul` (opcode 0xFD 230), a vector instruction that multiplies each lane of two vectors.
    ///
    /// [`Instruction::F32x4Mul`](super::Instruction::F32x4Mul) is the same instruction as a value.
    #[doc(alias = "f32x4.mul")]
    pub fn f32x4_mul(&mut self) -> &mut Self {
        self.put([0xFD, 0xE6, 0x01], [])
    }

    /// Appends `f32x4.div` (opcode 0xFD 231), a vector instruction that divides each lane of two vectors.
    ///
    /// [`Instruction::F32x4Div`](super::Instruction::F32x4Div) is the same instruction as a value.
    #[doc(alias = "f32x4.div")]
    pub fn f32x4_div(&mut self) -> &mut Self {
        self.put([0xFD, 0xE7, 0x01], [])
    }

    /// Appends `f32x4.min` (opcode 0xFD 232), a vector instruction that computes the minimum of each lane of two vectors.
    ///
    /// [`Instruction::F32x4Min`](super::Instruction::F32x4Min) is the same instruction as a value.
    #[doc(alias = "f32x4.min")]
    pub fn f32x4_min(&mut self) -> &mut Self {
        self.put([0xFD, 0xE8, 0x01], [])
    }

    /// Appends `f32x4.max` (opcode 0xFD 233), a vector instruction that computes the maximum of each lane of two vectors.
    ///
    /// [`Instruction::F32x4Max`](super::Instruction::F32x4Max) is the same instruction as a value.
    #[doc(alias = "f32x4.max")]
    pub fn f32x4_max(&mut self) -> &mut Self {
        self.put([0xFD, 0xE9, 0x01], [])
    }

    /// Appends `f32x4.pmin` (opcode 0xFD 234), a vector instruction that computes the pseudo-minimum of each lane of two vectors.
    ///
    /// [`Instruction::F32x4PMin`](super::Instruction::F32x4PMin) is the same instruction as a value.
    #[doc(alias = "f32x4.pmin")]
    pub fn f32x4_pmin(&mut self) -> &mut Self {
        self.put([0xFD, 0xEA, 0x01], [])
    }

    /// Appends `f32x4.pmax` (opcode 0xFD 235), a vector instruction that computes the pseudo-maximum of each lane of two vectors.
    ///
    /// [`Instruction::F32x4PMax`](super::Instruction::F32x4PMax) is the same instruction as a value.
    #[doc(alias = "f32x4.pmax")]
    pub fn f32x4_pmax(&mut self) -> &mut Self {
        self.put([0xFD, 0xEB, 0x01], [])
    }

    /// Appends `f64x2.abs` (opcode 0xFD 236), a vector instruction that computes the absolute value of each lane of a vector.
    ///
    /// [`Instruction::F64x2Abs`](super::Instruction::F64x2Abs) is the same instruction as a value.
    #[doc(alias = "f64x2.abs")]
    pub fn f64x2_abs(&mut self) -> &mut Self {
        self.put([0xFD, 0xEC, 0x01], [])
    }

    /// Appends `f64x2.neg` (opcode 0xFD 237), a vector instruction that negates each lane of a vector.
    ///
    /// [`Instruction::F64x2Neg`](super::Instruction::F64x2Neg) is the same instruction as a value.
    #[doc(alias = "f64x2.neg")]
    pub fn f64x2_neg(&mut self) -> &mut Self {
        self.put([0xFD, 0xED, 0x01], [])
    }

    /// Appends `f64x2.sqrt` (opcode 0xFD 239), a vector instruction that computes the square root of each lane of a vector.
    ///
    /// [`Instruction::F64x2Sqrt`](super::Instruction::F64x2Sqrt) is the same instruction as a value.
    #[doc(alias = "f64x2.sqrt")]
    pub fn f64x2_sqrt(&mut self) -> &mut Self {
        self.put([0xFD, 0xEF, 0x01], [])
    }

    /// Appends `f64x2.add` (opcode 0xFD 240), a vector instruction that adds each lane of two vectors.
    ///
    /// [`Instruction::F64x2Add`](super::Instruction::F64x2Add) is the same instruction as a value.
    #[doc(alias = "f64x2.add")]
    pub fn f64x2_add(&mut self) -> &mut Self {
        self.put([0xFD, 0xF0, 0x01], [])
    }

    /// Appends `f64x2.sub` (opcode 0xFD 241), a vector instruction that subtracts each lane of two vectors.
    ///
    /// [`Instruction::F64x2Sub`](super::Instruction::F64x2Sub) is the same instruction as a value.
    #[doc(alias = "f64x2.sub")]
    pub fn f64x2_sub(&mut self) -> &mut Self {
        self.put([0xFD, 0xF1, 0x01], [])
    }

    /// Appends `f64x2.mul` (opcode 0xFD 242), a vector instruction that multiplies each lane of two vectors.
    ///
    /// [`Instruction::F64x2Mul`](super::Instruction::F64x2Mul) is the same instruction as a value.
    #[doc(alias = "f64x2.mul")]
    pub fn f64x2_mul(&mut self) -> &mut Self {
        self.put([0xFD, 0xF2, 0x01], [])
    }

    /// Appends `f64x2.div` (opcode 0xFD 243), a vector instruction that divides each lane of two vectors.
    ///
    /// [`Instruction::F64x2Div`](super::Instruction::F64x2Div) is the same instruction as a value.
    #[doc(alias = "f64x2.div")]
    pub fn f64x2_div(&mut self) -> &mut Self {
        self.put([0xFD, 0xF3, 0x01], [])
    }

    /// Appends `f64x2.min` (opcode 0xFD 244), a vector instruction that computes the minimum of each lane of two vectors.
    ///
    /// [`Instruction::F64x2Min`](super::Instruction::F64x2Min) is the same instruction as a value.
    #[doc(alias = "f64x2.min")]
    pub fn f64x2_min(&mut self) -> &mut Self {
        self.put([0xFD, 0xF4, 0x01], [])
    }

    /// Appends `f64x2.max` (opcode 0xFD 245), a vector instruction that computes the maximum of each lane of two vectors.
    ///
    /// [`Instruction::F64x2Max`](super::Instruction::F64x2Max) is the same instruction as a value.
    #[doc(alias = "f64x2.max")]
    pub fn f64x2_max(&mut self) -> &mut Self {
        self.put([0xFD, 0xF5, 0x01], [])
    }

    /// Appends `f64x2.pmin` (opcode 0xFD 246), a vector instruction that computes the pseudo-minimum of each lane of two vectors.
    ///
    /// [`Instruction::F64x2PMin`](super::Instruction::F64x2PMin) is the same instruction as a value.
    #[doc(alias = "f64x2.pmin")]
    pub fn f64x2_pmin(&mut self) -> &mut Self {
        self.put([0xFD, 0xF6, 0x01], [])
    }

    /// Appends `f64x2.pmax` (opcode 0xFD 247), a vector instruction that computes the pseudo-maximum of each lane of two vectors.
    ///
    /// [`Instruction::F64x2PMax`](super::Instruction::F64x2PMax) is the same instruction as a value.
    #[doc(alias = "f64x2.pmax")]
    pub fn f64x2_pmax(&mut self) -> &mut Self {
        self.put([0xFD, 0xF7, 0x01], [])
    }

    /// Appends `i32x4.trunc_sat_f32x4_s` (opcode 0xFD 248), a vector instruction that converts the floats of a vector to integers.
    ///
    /// [`Instruction::I32x4TruncSatF32x4S`](super::Instruction::I32x4TruncSatF32x4S) is the same instruction as a value.
    #[doc(alias = "i32x4.trunc_sat_f32x4_s")]
    pub fn i32x4_trunc_sat_f32x4_s(&mut self) -> &mut Self {
        self.put([0xFD, 0xF8, 0x01], [])
    }

    /// Appends `i32x4.trunc_sat_f32x4_u` (opcode 0xFD 249), a vector instruction that converts the floats of a vector to integers.
    ///
    /// [`Instruction::I32x4TruncSatF32x4U`](super::Instruction::I32x4TruncSatF32x4U) is the same instruction as a value.
    #[doc(alias = "i32x4.trunc_sat_f32x4_u")]
    pub fn i32x4_trunc_sat_f32x4_u(&mut self) -> &mut Self {
        self.put([0xFD, 0xF9, 0x01], [])
    }

    /// Appends `f32x4.convert_i32x4_s` (opcode 0xFD 250), a vector instruction that converts the integers of a vector to floats.
    ///
    /// [`Instruction::F32x4ConvertI32x4S`](super::Instruction::F32x4ConvertI32x4S) is the same instruction as a value.
    #[doc(alias = "f32x4.convert_i32x4_s")]
    pub fn f32x4_convert_i32x4_s(&mut self) -> &mut Self {
        self.put([0xFD, 0xFA, 0x01], [])
    }

    /// Appends `f32x4.convert_i32x4_u` (opcode 0xFD 251), a vector instruction that converts the integers of a vector to floats.
    ///
    /// [`Instruction::F32x4ConvertI32x4U`](super::Instruction::F32x4ConvertI32x4U) is the same instruction as a value.
    #[doc(alias = "f32x4.convert_i32x4_u")]
    pub fn f32x4_convert_i32x4_u(&mut self) -> &mut Self {
        self.put([0xFD, 0xFB, 0x01], [])
    }

    /// Appends `i32x4.trunc_sat_f64x2_s_zero` (opcode 0xFD 252), a vector instruction that converts the floats of a vector to integers.
    ///
    /// [`Instruction::I32x4TruncSatF64x2SZero`](super::Instruction::I32x4TruncSatF64x2SZero) is the same instruction as a value.
    #[doc(alias = "i32x4.trunc_sat_f64x2_s_zero")]
    pub fn i32x4_trunc_sat_f64x2_s_zero(&mut self) -> &mut Self {
        self.put([0xFD, 0xFC, 0x01], [])
    }

    /// Appends `i32x4.trunc_sat_f64x2_u_zero` (opcode 0xFD 253), a vector instruction that converts the floats of a vector to integers.
    ///
    /// [`Instruction::I32x4TruncSatF64x2UZero`](super::Instruction::I32x4TruncSatF64x2UZero) is the same instruction as a value.
    #[doc(alias = "i32x4.trunc_sat_f64x2_u_zero")]
    pub fn i32x4_trunc_sat_f64x2_u_zero(&mut self) -> &mut Self {
        self.put([0xFD, 0xFD, 0x01], [])
    }

    /// Appends `f64x2.convert_low_i32x4_s` (opcode 0xFD 254), a vector instruction that converts the integers of a vector to floats.
    ///
    /// [`Instruction::F64x2ConvertLowI32x4S`](super::Instruction::F64x2ConvertLowI32x4S) is the same instruction as a value.
    #[doc(alias = "f64x2.convert_low_i32x4_s")]
    pub fn f64x2_convert_low_i32x4_s(&mut self) -> &mut Self {
        self.put([0xFD, 0xFE, 0x01], [])
    }

    /// Appends `f64x2.convert_low_i32x4_u` (opcode 0xFD 255), a vector instruction that converts the integers of a vector to floats.
    ///
    /// [`Instruction::F64x2ConvertLowI32x4U`](super::Instruction::F64x2ConvertLowI32x4U) is the same instruction as a value.
    #[doc(alias = "f64x2.convert_low_i32x4_u")]
    pub fn f64x2_convert_low_i32x4_u(&mut self) -> &mut Self {
        self.put([0xFD, 0xFF, 0x01], [])
    }

    /// Appends `i8x16.relaxed_swizzle` (opcode 0xFD 256), a relaxed vector instruction that selects lanes of a vector by those of another.
    ///
    /// [`Instruction::I8x16RelaxedSwizzle`](super::Instruction::I8x16RelaxedSwizzle) is the same instruction as a value.
    #[doc(alias = "i8x16.relaxed_swizzle")]
    pub fn i8x16_relaxed_swizzle(&mut self) -> &mut Self {
        self.put([0xFD, 0x80, 0x02], [])
    }

    /// Appends `i32x4.relaxed_trunc_f32x4_s` (opcode 0xFD 257), a relaxed vector instruction that converts the floats of a vector to integers.
    ///
    /// [`Instruction::I32x4RelaxedTruncF32x4S`](super::Instruction::I32x4RelaxedTruncF32x4S) is the same instruction as a value.
    #[doc(alias = "i32x4.relaxed_trunc_f32x4_s")]
    pub fn i32x4_relaxed_trunc_f32x4_s(&mut self) -> &mut Self {
        self.put([0xFD, 0x81, 0x02], [])
    }

    /// Appends `i32x4.relaxed_trunc_f32x4_u` (opcode 0xFD 258), a relaxed vector instruction that converts the floats of a vector to integers.
    ///
    /// [`Instruction::I32x4RelaxedTruncF32x4U`](super::Instruction::I32x4RelaxedTruncF32x4U) is the same instruction as a value.
    #[doc(alias = "i32x4.relaxed_trunc_f32x4_u")]
    pub fn i32x4_relaxed_trunc_f32x4_u(&mut self) -> &mut Self {
        self.put([0xFD, 0x82, 0x02], [])
    }

    /// Appends `i32x4.relaxed_trunc_f64x2_s_zero` (opcode 0xFD 259), a relaxed vector instruction that converts the floats of a vector to integers.
    ///
    /// [`Instruction::I32x4RelaxedTruncF64x2SZero`](super::Instruction::I32x4RelaxedTruncF64x2SZero) is the same instruction as a value.
    #[doc(alias = "i32x4.relaxed_trunc_f64x2_s_zero")]
    pub fn i32x4_relaxed_trunc_f64x2_s_zero(&mut self) -> &mut Self {
        self.put([0xFD, 0x83, 0x02], [])
    }

    /// Appends `i32x4.relaxed_trunc_f64x2_u_zero` (opcode 0xFD 260), a relaxed vector instruction that converts the floats of a vector to integers.
    ///
    /// [`Instruction::I32x4RelaxedTruncF64x2UZero`](super::Instruction::I32x4RelaxedTruncF64x2UZero) is the same instruction as a value.
    #[doc(alias = "i32x4.relaxed_trunc_f64x2_u_zero")]
    pub fn i32x4_relaxed_trunc_f64x2_u_zero(&mut self) -> &mut Self {
        self.put([0xFD, 0x84, 0x02], [])
    }

    /// Appends `f32x4.relaxed_madd` (opcode 0xFD 261), a relaxed vector instruction that multiplies each lane of two vectors, and adds a third.
    ///
    /// [`Instruction::F32x4RelaxedMadd`](super::Instruction::F32x4RelaxedMadd) is the same instruction as a value.
    #[doc(alias = "f32x4.relaxed_madd")]
    pub fn f32x4_relaxed_madd(&mut self) -> &mut Self {
        self.put([0xFD, 0x85, 0x02], [])
    }

    /// Appends `f32x4.relaxed_nmadd` (opcode 0xFD 262), a relaxed vector instruction that multiplies each lane of two vectors, and subtracts the product from a third.
    ///
    /// [`Instruction::F32x4RelaxedNmadd`](super::Instruction::F32x4RelaxedNmadd) is the same instruction as a value.
    #[doc(alias = "f32x4.relaxed_nmadd")]
    pub fn f32x4_relaxed_nmadd(&mut self) -> &mut Self {
        self.put([0xFD, 0x86, 0x02], [])
    }

    /// Appends `f64x2.relaxed_madd` (opcode 0xFD 263), a relaxed vector instruction that multiplies each lane of two vectors, and adds a third.
    ///
    /// [`Instruction::F64x2RelaxedMadd`](super::Instruction::F64x2RelaxedMadd) is the same instruction as a value.
    #[doc(alias = "f64x2.relaxed_madd")]
    pub fn f64x2_relaxed_madd(&mut self) -> &mut Self {
        self.put([0xFD, 0x87, 0x02], [])
    }

    /// Appends `f64x2.relaxed_nmadd` (opcode 0xFD 264), a relaxed vector instruction that multiplies each lane of two vectors, and subtracts the product from a third.
    ///
    /// [`Instruction::F64x2RelaxedNmadd`](super::Instruction::F64x2RelaxedNmadd) is the same instruction as a value.
    #[doc(alias = "f64x2.relaxed_nmadd")]
    pub fn f64x2_relaxed_nmadd(&mut self) -> &mut Self {
        self.put([0xFD, 0x88, 0x02], [])
    }

    /// Appends `i8x16.relaxed_laneselect` (opcode 0xFD 265), a relaxed vector instruction that selects lanes of two vectors by a third.
    ///
    /// [`Instruction::I8x16RelaxedLaneselect`](super::Instruction::I8x16RelaxedLaneselect) is the same instruction as a value.
    #[doc(alias = "i8x16.relaxed_laneselect")]
    pub fn i8x16_relaxed_laneselect(&mut self) -> &mut Self {
        self.put([0xFD, 0x89, 0x02], [])
    }

    /// Appends `i16x8.relaxed_laneselect` (opcode 0xFD 266), a relaxed vector instruction that selects lanes of two vectors by a third.
    ///
    /// [`Instruction::I16x8RelaxedLaneselect`](super::Instruction::I16x8RelaxedLaneselect) is the same instruction as a value.
    #[doc(alias = "i16x8.relaxed_laneselect")]
    pub fn i16x8_relaxed_laneselect(&mut self) -> &mut Self {
        self.put([0xFD, 0x8A, 0x02], [])
    }

    /// Appends `i32x4.relaxed_laneselect` (opcode 0xFD 267), a relaxed vector instruction that selects lanes of two vectors by a third.
    ///
    /// [`Instruction::I32x4RelaxedLaneselect`](super::Instruction::I32x4RelaxedLaneselect) is the same instruction as a value.
    #[doc(alias = "i32x4.relaxed_laneselect")]
    pub fn i32x4_relaxed_laneselect(&mut self) -> &mut Self {
        self.put([0xFD, 0x8B, 0x02], [])
    }

    /// Appends `i64x2.relaxed_laneselect` (opcode 0xFD 268), a relaxed vector instruction that selects lanes of two vectors by a third.
    ///
    /// [`Instruction::I64x2RelaxedLaneselect`](super::Instruction::I64x2RelaxedLaneselect) is the same instruction as a value.
    #[doc(alias = "i64x2.relaxed_laneselect")]
    pub fn i64x2_relaxed_laneselect(&mut self) -> &mut Self {
        self.put([0xFD, 0x8C, 0x02], [])
    }

    /// Appends `f32x4.relaxed_min` (opcode 0xFD 269), a relaxed vector instruction that computes the minimum of each lane of two vectors.
    ///
    /// [`Instruction::F32x4RelaxedMin`](super::Instruction::F32x4RelaxedMin) is the same instruction as a value.
    #[doc(alias = "f32x4.relaxed_min")]
    pub fn f32x4_relaxed_min(&mut self) -> &mut Self {
        self.put([0xFD, 0x8D, 0x02], [])
    }

    /// Appends `f32x4.relaxed_max` (opcode 0xFD 270), a relaxed vector instruction that computes the maximum of each lane of two vectors.
    ///
    /// [`Instruction::F32x4RelaxedMax`](super::Instruction::F32x4RelaxedMax) is the same instruction as a value.
    #[doc(alias = "f32x4.relaxed_max")]
    pub fn f32x4_relaxed_max(&mut self) -> &mut Self {
        self.put([0xFD, 0x8E, 0x02], [])
    }

    /// Appends `f64x2.relaxed_min` (opcode 0xFD 271), a relaxed vector instruction that computes the minimum of each lane of two vectors.
    ///
    /// [`Instruction::F64x2RelaxedMin`](super::Instruction::F64x2RelaxedMin) is the same instruction as a value.
    #[doc(alias = "f64x2.relaxed_min")]
    pub fn f64x2_relaxed_min(&mut self) -> &mut Self {
        self.put([0xFD, 0x8F, 0x02], [])
    }

    /// Appends `f64x2.relaxed_max` (opcode 0xFD 272), a relaxed vector instruction that computes the maximum of each lane of two vectors.
    ///
    /// [`Instruction::F64x2RelaxedMax`](super::Instruction::F64x2RelaxedMax) is the same instruction as a value.
    #[doc(alias = "f64x2.relaxed_max")]
    pub fn f64x2_relaxed_max(&mut self) -> &mut Self {
        self.put([0xFD, 0x90, 0x02], [])
    }

    /// Appends `i16x8.relaxed_q15mulr_s` (opcode 0xFD 273), a relaxed vector instruction that multiplies each lane of two vectors as fixed-point numbers, rounded.
    ///
    /// [`Instruction::I16x8RelaxedQ15mulrS`](super::Instruction::I16x8RelaxedQ15mulrS) is the same instruction as a value.
    #[doc(alias = "i16x8.relaxed_q15mulr_s")]
    pub fn i16x8_relaxed_q15mulr_s(&mut self) -> &mut Self {
        self.put([0xFD, 0x91, 0x02], [])
    }

    /// Appends `i16x8.relaxed_dot_i8x16_i7x16_s` (opcode 0xFD 274), a relaxed vector instruction that multiplies each lane of two vectors, and adds neighbouring products.
    ///
    /// [`Instruction::I16x8RelaxedDotI8x16I7x16S`](super::Instruction::I16x8RelaxedDotI8x16I7x16S) is the same instruction as a value.
    #[doc(alias = "i16x8.relaxed_dot_i8x16_i7x16_s")]
    pub fn i16x8_relaxed_dot_i8x16_i7x16_s(&mut self) -> &mut Self {
        self.put([0xFD, 0x92, 0x02], [])
    }

    /// Appends `i32x4.relaxed_dot_i8x16_i7x16_add_s` (opcode 0xFD 275), a relaxed vector instruction that multiplies each lane of two vectors, and adds neighbouring products and a third vector.
    ///
    /// [`Instruction::I32x4RelaxedDotI8x16I7x16AddS`](super::Instruction::I32x4RelaxedDotI8x16I7x16AddS) is the same instruction as a value.
    #[doc(alias = "i32x4.relaxed_dot_i8x16_i7x16_add_s")]
    pub fn i32x4_relaxed_dot_i8x16_i7x16_add_s(&mut self) -> &mut Self {
        self.put([0xFD, 0x93, 0x02], [])
    }

    /// Appends `memory.atomic.notify` (opcode 0xFE 0), an atomic instruction of the threads proposal that wakes threads that wait at an address.
    ///
    /// [`Instruction::MemoryAtomicNotify`](super::Instruction::MemoryAtomicNotify) is the same instruction as a value.
    #[doc(alias = "memory.atomic.notify")]
    pub fn memory_atomic_notify(&mut self, memarg: MemArg) -> &mut Self {
        self.put([0xFE, 0x00], &memarg)
    }

    /// Appends `memory.atomic.wait32` (opcode 0xFE 1), an atomic instruction of the threads proposal that waits at an address for a notification.
    ///
    /// [`Instruction::MemoryAtomicWait32`](super::Instruction::MemoryAtomicWait32) is the same instruction as a value.
    #[doc(alias = "memory.atomic.wait32")]
    pub fn memory_atomic_wait32(&mut self, memarg: MemArg) -> &mut Self {
        self.put([0xFE, 0x01], &memarg)
    }

    /// Appends `memory.atomic.wait64` (opcode 0xFE 2), an atomic instruction of the threads proposal that waits at an address for a notification.
    ///
    /// [`Instruction::MemoryAtomicWait64`](super::Instruction::MemoryAtomicWait64) is the same instruction as a value.
    #[doc(alias = "memory.atomic.wait64")]
    pub fn memory_atomic_wait64(&mut self, memarg: MemArg) -> &mut Self {
        self.put([0xFE, 0x02], &memarg)
    }

    /// Appends `atomic.fence` (opcode 0xFE 3), an atomic instruction of the threads proposal that orders the accesses before and after it.
    ///
    /// [`Instruction::AtomicFence`](super::Instruction::AtomicFence) is the same instruction as a value.
    ///
    /// ```
    /// use dolzhytik::{InstructionSink, Ordering};
    ///
    /// let mut bytes = Vec::new();
    /// InstructionSink::new(&mut bytes).atomic_fence(Ordering::SeqCst);
    /// // The ordering is one byte.
    /// assert_eq!(bytes, [0xFE, 3, 0]);
    /// ```
    #[doc(alias = "atomic.fence")]
    pub fn atomic_fence(&mut self, ordering: Ordering) -> &mut Self {
        self.put([0xFE, 0x03], ordering)
    }

    /// Appends `pause` (opcode 0xFE 4), an instruction of the shared-everything threads proposal that hints that the thread waits in a loop.
    ///
    /// [`Instruction::Pause`](super::Instruction::Pause) is the same instruction as a value.
    pub fn pause(&mut self) -> &mut Self {
        self.put([0xFE, 0x04], [])
    }

    /// Appends `i32.atomic.load` (opcode 0xFE 16), an atomic instruction of the threads proposal that loads a number from a memory.
    ///
    /// [`Instruction::I32AtomicLoad`](super::Instruction::I32AtomicLoad) is the same instruction as a value.
    #[doc(alias = "i32.atomic.load")]
    pub fn i32_atomic_load(&mut self, memarg: MemArg) -> &mut Self {
        self.put([0xFE, 0x10], &memarg)
    }

    /// Appends `i64.atomic.load` (opcode 0xFE 17), an atomic instruction of the threads proposal that loads a number from a memory.
    ///
    /// [`Instruction::I64AtomicLoad`](super::Instruction::I64AtomicLoad) is the same instruction as a value.
    #[doc(alias = "i64.atomic.load")]
    pub fn i64_atomic_load(&mut self, memarg: MemArg) -> &mut Self {
        self.put([0xFE, 0x11], &memarg)
    }

    /// Appends `i32.atomic.load8_u` (opcode 0xFE 18), an atomic instruction of the threads proposal that loads a number from a memory.
    ///
    /// [`Instruction::I32AtomicLoad8U`](super::Instruction::I32AtomicLoad8U) is the same instruction as a value.
    #[doc(alias = "i32.atomic.load8_u")]
    pub fn i32_atomic_load8_u(&mut self, memarg: MemArg) -> &mut Self {
        self.put([0xFE, 0x12], &memarg)
    }

    /// Appends `i32.atomic.load16_u` (opcode 0xFE 19), an atomic instruction of the threads proposal that loads a number from a memory.
    ///
    /// [`Instruction::I32AtomicLoad16U`](super::Instruction::I32AtomicLoad16U) is the same instruction as a value.
    #[doc(alias = "i32.atomic.load16_u")]
    pub fn i32_atomic_load16_u(&mut self, memarg: MemArg) -> &mut Self {
        self.put([0xFE, 0x13], &memarg)
    }

    /// Appends `i64.atomic.load8_u` (opcode 0xFE 20), an atomic instruction of the threads proposal that loads a number from a memory.
    ///
    /// [`Instruction::I64AtomicLoad8U`](super::Instruction::I64AtomicLoad8U) is the same instruction as a value.
    #[doc(alias = "i64.atomic.load8_u")]
    pub fn i64_atomic_load8_u(&mut self, memarg: MemArg) -> &mut Self {
        self.put([0xFE, 0x14], &memarg)
    }

    /// Appends `i64.atomic.load16_u` (opcode 0xFE 21), an atomic instruction of the threads proposal that loads a number from a memory.
    ///
    /// [`Instruction::I64AtomicLoad16U`](super::Instruction::I64AtomicLoad16U) is the same instruction as a value.
    #[doc(alias = "i64.atomic.load16_u")]
    pub fn i64_atomic_load16_u(&mut self, memarg: MemArg) -> &mut Self {
        self.put([0xFE, 0x15], &memarg)
    }

    /// Appends `i64.atomic.load32_u` (opcode 0xFE 22), an atomic instruction of the threads proposal that loads a number from a memory.
    ///
    /// [`Instruction::I64AtomicLoad32U`](super::Instruction::I64AtomicLoad32U) is the same instruction as a value.
    #[doc(alias = "i64.atomic.load32_u")]
    pub fn i64_atomic_load32_u(&mut self, memarg: MemArg) -> &mut Self {
        self.put([0xFE, 0x16], &memarg)
    }

    /// Appends `i32.atomic.store` (opcode 0xFE 23), an atomic instruction of the threads proposal that stores a number to a memory.
    ///
    /// [`Instruction::I32AtomicStore`](super::Instruction::I32AtomicStore) is the same instruction as a value.
    #[doc(alias = "i32.atomic.store")]
    pub fn i32_atomic_store(&mut self, memarg: MemArg) -> &mut Self {
        self.put([0xFE, 0x17], &memarg)
    }

    /// Appends `i64.atomic.store` (opcode 0xFE 24), an atomic instruction of the threads proposal that stores a number to a memory.
    ///
    /// [`Instruction::I64AtomicStore`](super::Instruction::I64AtomicStore) is the same instruction as a value.
    #[doc(alias = "i64.atomic.store")]
    pub fn i64_atomic_store(&mut self, memarg: MemArg) -> &mut Self {
        self.put([0xFE, 0x18], &memarg)
    }

    /// Appends `i32.atomic.store8` (opcode 0xFE 25), an atomic instruction of the threads proposal that stores a number to a memory.
    ///
    /// [`Instruction::I32AtomicStore8`](super::Instruction::I32AtomicStore8) is the same instruction as a value.
    #[doc(alias = "i32.atomic.store8")]
    pub fn i32_atomic_store8(&mut self, memarg: MemArg) -> &mut Self {
        self.put([0xFE, 0x19], &memarg)
    }

    /// Appends `i32.atomic.store16` (opcode 0xFE 26), an atomic instruction of the threads proposal that stores a number to a memory.
    ///
    /// [`Instruction::I32AtomicStore16`](super::Instruction::I32AtomicStore16) is the same instruction as a value.
    #[doc(alias = "i32.atomic.store16")]
    pub fn i32_atomic_store16(&mut self, memarg: MemArg) -> &mut Self {
        self.put([0xFE, 0x1A], &memarg)
    }

    /// Appends `i64.atomic.store8` (opcode 0xFE 27), an atomic instruction of the threads proposal that stores a number to a memory.
    ///
    /// [`Instruction::I64AtomicStore8`](super::Instruction::I64AtomicStore8) is the same instruction as a value.
    #[doc(alias = "i64.atomic.store8")]
    pub fn i64_atomic_store8(&mut self, memarg: MemArg) -> &mut Self {
        self.put([0xFE, 0x1B], &memarg)
    }

    /// Appends `i64.atomic.store16` (opcode 0xFE 28), an atomic instruction of the threads proposal that stores a number to a memory.
    ///
    /// [`Instruction::I64AtomicStore16`](super::Instruction::I64AtomicStore16) is the same instruction as a value.
    #[doc(alias = "i64.atomic.store16")]
    pub fn i64_atomic_store16(&mut self, memarg: MemArg) -> &mut Self {
        self.put([0xFE, 0x1C], &memarg)
    }

    /// Appends `i64.atomic.store32` (opcode 0xFE 29), an atomic instruction of the threads proposal that stores a number to a memory.
    ///
    /// [`Instruction::I64AtomicStore32`](super::Instruction::I64AtomicStore32) is the same instruction as a value.
    #[doc(alias = "i64.atomic.store32")]
    pub fn i64_atomic_store32(&mut self, memarg: MemArg) -> &mut Self {
        self.put([0xFE, 0x1D], &memarg)
    }

    /// Appends `i32.atomic.rmw.add` (opcode 0xFE 30), an atomic instruction of the threads proposal that adds to a number in a memory, and returns the old value.
    ///
    /// [`Instruction::I32AtomicRmwAdd`](super::Instruction::I32AtomicRmwAdd) is the same instruction as a value.
    #[doc(alias = "i32.atomic.rmw.add")]
    pub fn i32_atomic_rmw_add(&mut self, memarg: MemArg) -> &mut Self {
        self.put([0xFE, 0x1E], &memarg)
    }

    /// Appends `i64.atomic.rmw.add` (opcode 0xFE 31), an atomic instruction of the threads proposal that adds to a number in a memory, and returns the old value.
    ///
    /// [`Instruction::I64AtomicRmwAdd`](super::Instruction::I64AtomicRmwAdd) is the same instruction as a value.
    #[doc(alias = "i64.atomic.rmw.add")]
    pub fn i64_atomic_rmw_add(&mut self, memarg: MemArg) -> &mut Self {
        self.put([0xFE, 0x1F], &memarg)
    }

    /// Appends `i32.atomic.rmw8.add_u` (opcode 0xFE 32), an atomic instruction of the threads proposal that adds to a number in a memory, and returns the old value.
    ///
    /// [`Instruction::I32AtomicRmw8AddU`](super::Instruction::I32AtomicRmw8AddU) is the same instruction as a value.
    #[doc(alias = "i32.atomic.rmw8.add_u")]
    pub fn i32_atomic_rmw8_add_u(&mut self, memarg: MemArg) -> &mut Self {
        self.put([0xFE, 0x20], &memarg)
    }

    /// Appends `i32.atomic.rmw16.add_u` (opcode 0xFE 33), an atomic instruction of the threads proposal that adds to a number in a memory, and returns the old value.
    ///
    /// [`Instruction::I32AtomicRmw16AddU`](super::Instruction::I32AtomicRmw16AddU) is the same instruction as a value.
    #[doc(alias = "i32.atomic.rmw16.add_u")]
    pub fn i32_atomic_rmw16_add_u(&mut self, memarg: MemArg) -> &mut Self {
        self.put([0xFE, 0x21], &memarg)
    }

    /// Appends `i64.atomic.rmw8.add_u` (opcode 0xFE 34), an atomic instruction of the threads proposal that adds to a number in a memory, and returns the old value.
    ///
    /// [`Instruction::I64AtomicRmw8AddU`](super::Instruction::I64AtomicRmw8AddU) is the same instruction as a value.
    #[doc(alias = "i64.atomic.rmw8.add_u")]
    pub fn i64_atomic_rmw8_add_u(&mut self, memarg: MemArg) -> &mut Self {
        self.put([0xFE, 0x22], &memarg)
    }

    /// Appends `i64.atomic.rmw16.add_u` (opcode 0xFE 35), an atomic instruction of the threads proposal that adds to a number in a memory, and returns the old value.
    ///
    /// [`Instruction::I64AtomicRmw16AddU`](super::Instruction::I64AtomicRmw16AddU) is the same instruction as a value.
    #[doc(alias = "i64.atomic.rmw16.add_u")]
    pub fn i64_atomic_rmw16_add_u(&mut self, memarg: MemArg) -> &mut Self {
        self.put([0xFE, 0x23], &memarg)
    }

    /// Appends `i64.atomic.rmw32.add_u` (opcode 0xFE 36), an atomic instruction of the threads proposal that adds to a number in a memory, and returns the old value.
    ///
    /// [`Instruction::I64AtomicRmw32AddU`](super::Instruction::I64AtomicRmw32AddU) is the same instruction as a value.
    #[doc(alias = "i64.atomic.rmw32.add_u")]
    pub fn i64_atomic_rmw32_add_u(&mut self, memarg: MemArg) -> &mut Self {
        self.put([0xFE, 0x24], &memarg)
    }

    /// Appends `i32.atomic.rmw.sub` (opcode 0xFE 37), an atomic instruction of the threads proposal that subtracts from a number in a memory, and returns the old value.
    ///
    /// [`Instruction::I32AtomicRmwSub`](super::Instruction::I32AtomicRmwSub) is the same instruction as a value.
    #[doc(alias = "i32.atomic.rmw.sub")]
    pub fn i32_atomic_rmw_sub(&mut self, memarg: MemArg) -> &mut Self {
        self.put([0xFE, 0x25], &memarg)
    }

    /// Appends `i64.atomic.rmw.sub` (opcode 0xFE 38), an atomic instruction of the threads proposal that subtracts from a number in a memory, and returns the old value.
    ///
    /// [`Instruction::I64AtomicRmwSub`](super::Instruction::I64AtomicRmwSub) is the same instruction as a value.
    #[doc(alias = "i64.atomic.rmw.sub")]
    pub fn i64_atomic_rmw_sub(&mut self, memarg: MemArg) -> &mut Self {
        self.put([0xFE, 0x26], &memarg)
    }

    /// Appends `i32.atomic.rmw8.sub_u` (opcode 0xFE 39), an atomic instruction of the threads proposal that subtracts from a number in a memory, and returns the old value.
    ///
    /// [`Instruction::I32AtomicRmw8SubU`](super::Instruction::I32AtomicRmw8SubU) is the same instruction as a value.
    #[doc(alias = "i32.atomic.rmw8.sub_u")]
    pub fn i32_atomic_rmw8_sub_u(&mut self, memarg: MemArg) -> &mut Self {
        self.put([0xFE, 0x27], &memarg)
    }

    /// Appends `i32.atomic.rmw16.sub_u` (opcode 0xFE 40), an atomic instruction of the threads proposal that subtracts from a number in a memory, and returns the old value.
    ///
    /// [`Instruction::I32AtomicRmw16SubU`](super::Instruction::I32AtomicRmw16SubU) is the same instruction as a value.
    #[doc(alias = "i32.atomic.rmw16.sub_u")]
    pub fn i32_atomic_rmw16_sub_u(&mut self, memarg: MemArg) -> &mut Self {
        self.put([0xFE, 0x28], &memarg)
    }

    /// Appends `i64.atomic.rmw8.sub_u` (opcode 0xFE 41), an atomic instruction of the threads proposal that subtracts from a number in a memory, and returns the old value.
    ///
    /// [`Instruction::I64AtomicRmw8SubU`](super::Instruction::I64AtomicRmw8SubU) is the same instruction as a value.
    #[doc(alias = "i64.atomic.rmw8.sub_u")]
    pub fn i64_atomic_rmw8_sub_u(&mut self, memarg: MemArg) -> &mut Self {
        self.put([0xFE, 0x29], &memarg)
    }

    /// Appends `i64.atomic.rmw16.sub_u` (opcode 0xFE 42), an atomic instruction of the threads proposal that subtracts from a number in a memory, and returns the old value.
    ///
    /// [`Instruction::I64AtomicRmw16SubU`](super::Instruction::I64AtomicRmw16SubU) is the same instruction as a value.
    #[doc(alias = "i64.atomic.rmw16.sub_u")]
    pub fn i64_atomic_rmw16_sub_u(&mut self, memarg: MemArg) -> &mut Self {
        self.put([0xFE, 0x2A], &memarg)
    }

    /// Appends `i64.atomic.rmw32.sub_u` (opcode 0xFE 43), an atomic instruction of the threads proposal that subtracts from a number in a memory, and returns the old value.
    ///
    /// [`Instruction::I64AtomicRmw32SubU`](super::Instruction::I64AtomicRmw32SubU) is the same instruction as a value.
    #[doc(alias = "i64.atomic.rmw32.sub_u")]
    pub fn i64_atomic_rmw32_sub_u(&mut self, memarg: MemArg) -> &mut Self {
        self.put([0xFE, 0x2B], &memarg)
    }

    /// Appends `i32.atomic.rmw.and` (opcode 0xFE 44), an atomic instruction of the threads proposal that sets a number in a memory to its bitwise and with an operand, and returns the old value.
    ///
    /// [`Instruction::I32AtomicRmwAnd`](super::Instruction::I32AtomicRmwAnd) is the same instruction as a value.
    #[doc(alias = "i32.atomic.rmw.and")]
    pub fn i32_atomic_rmw_and(&mut self, memarg: MemArg) -> &mut Self {
        self.put([0xFE, 0x2C], &memarg)
    }

    /// Appends `i64.atomic.rmw.and` (opcode 0xFE 45), an atomic instruction of the threads proposal that sets a number in a memory to its bitwise and with an operand, and returns the old value.
    ///
    /// [`Instruction::I64AtomicRmwAnd`](super::Instruction::I64AtomicRmwAnd) is the same instruction as a value.
    #[doc(alias = "i64.atomic.rmw.and")]
    pub fn i64_atomic_rmw_and(&mut self, memarg: MemArg) -> &mut Self {
        self.put([0xFE, 0x2D], &memarg)
    }

    /// Appends `i32.atomic.rmw8.and_u` (opcode 0xFE 46), an atomic instruction of the threads proposal that sets a number in a memory to its bitwise and with an operand, and returns the old value.
    ///
    /// [`Instruction::I32AtomicRmw8AndU`](super::Instruction::I32AtomicRmw8AndU) is the same instruction as a value.
    #[doc(alias = "i32.atomic.rmw8.and_u")]
    pub fn i32_atomic_rmw8_and_u(&mut self, memarg: MemArg) -> &mut Self {
        self.put([0xFE, 0x2E], &memarg)
    }

    /// Appends `i32.atomic.rmw16.and_u` (opcode 0xFE 47), an atomic instruction of the threads proposal that sets a number in a memory to its bitwise and with an operand, and returns the old value.
    ///
    /// [`Instruction::I32AtomicRmw16AndU`](super::Instruction::I32AtomicRmw16AndU) is the same instruction as a value.
    #[doc(alias = "i32.atomic.rmw16.and_u")]
    pub fn i32_atomic_rmw16_and_u(&mut self, memarg: MemArg) -> &mut Self {
        self.put([0xFE, 0x2F], &memarg)
    }

    /// Appends `i64.atomic.rmw8.and_u` (opcode 0xFE 48), an atomic instruction of the threads proposal that sets a number in a memory to its bitwise and with an operand, and returns the old value.
    ///
    /// [`Instruction::I64AtomicRmw8AndU`](super::Instruction::I64AtomicRmw8AndU) is the same instruction as a value.
    #[doc(alias = "i64.atomic.rmw8.and_u")]
    pub fn i64_atomic_rmw8_and_u(&mut self, memarg: MemArg) -> &mut Self {
        self.put([0xFE, 0x30], &memarg)
    }

    /// Appends `i64.atomic.rmw16.and_u` (opcode 0xFE 49), an atomic instruction of the threads proposal that sets a number in a memory to its bitwise and with an operand, and returns the old value.
    ///
    /// [`Instruction::I64AtomicRmw16AndU`](super::Instruction::I64AtomicRmw16AndU) is the same instruction as a value.
    #[doc(alias = "i64.atomic.rmw16.and_u")]
    pub fn i64_atomic_rmw16_and_u(&mut self, memarg: MemArg) -> &mut Self {
        self.put([0xFE, 0x31], &memarg)
    }

    /// Appends `i64.atomic.rmw32.and_u` (opcode 0xFE 50), an atomic instruction of the threads proposal that sets a number in a memory to its bitwise and with an operand, and returns the old value.
    ///
    /// [`Instruction::I64AtomicRmw32AndU`](super::Instruction::I64AtomicRmw32AndU) is the same instruction as a value.
    #[doc(alias = "i64.atomic.rmw32.and_u")]
    pub fn i64_atomic_rmw32_and_u(&mut self, memarg: MemArg) -> &mut Self {
        self.put([0xFE, 0x32], &memarg)
    }

    /// Appends `i32.atomic.rmw.or` (opcode 0xFE 51), an atomic instruction of the threads proposal that sets a number in a memory to its bitwise or with an operand, and returns the old value.
    ///
    /// [`Instruction::I32AtomicRmwOr`](super::Instruction::I32AtomicRmwOr) is the same instruction as a value.
    #[doc(alias = "i32.atomic.rmw.or")]
    pub fn i32_atomic_rmw_or(&mut self, memarg: MemArg) -> &mut Self {
        self.put([0xFE, 0x33], &memarg)
    }

    /// Appends `i64.atomic.rmw.or` (opcode 0xFE 52), an atomic instruction of the threads proposal that sets a number in a memory to its bitwise or with an operand, and returns the old value.
    ///
    /// [`Instruction::I64AtomicRmwOr`](super::Instruction::I64AtomicRmwOr) is the same instruction as a value.
    #[doc(alias = "i64.atomic.rmw.or")]
    pub fn i64_atomic_rmw_or(&mut self, memarg: MemArg) -> &mut Self {
        self.put([0xFE, 0x34], &memarg)
    }

    /// Appends `i32.atomic.rmw8.or_u` (opcode 0xFE 53), an atomic instruction of the threads proposal that sets a number in a memory to its bitwise or with an operand, and returns the old value.
    ///
    /// [`Instruction::I32AtomicRmw8OrU`](super::Instruction::I32AtomicRmw8OrU) is the same instruction as a value.
    #[doc(alias = "i32.atomic.rmw8.or_u")]
    pub fn i32_atomic_rmw8_or_u(&mut self, memarg: MemArg) -> &mut Self {
        self.put([0xFE, 0x35], &memarg)
    }

    /// Appends `i32.atomic.rmw16.or_u` (opcode 0xFE 54), an atomic instruction of the threads proposal that sets a number in a memory to its bitwise or with an operand, and returns the old value.
    ///
    /// [`Instruction::I32AtomicRmw16OrU`](super::Instruction::I32AtomicRmw16OrU) is the same instruction as a value.
    #[doc(alias = "i32.atomic.rmw16.or_u")]
    pub fn i32_atomic_rmw16_or_u(&mut self, memarg: MemArg) -> &mut Self {
        self.put([0xFE, 0x36], &memarg)
    }

    /// Appends `i64.atomic.rmw8.or_u` (opcode 0xFE 55), an atomic instruction of the threads proposal that sets a number in a memory to its bitwise or with an operand, and returns the old value.
    ///
    /// [`Instruction::I64AtomicRmw8OrU`](super::Instruction::I64AtomicRmw8OrU) is the same instruction as a value.
    #[doc(alias = "i64.atomic.rmw8.or_u")]
    pub fn i64_atomic_rmw8_or_u(&mut self, memarg: MemArg) -> &mut Self {
        self.put([0xFE, 0x37], &memarg)
    }

    /// Appends `i64.atomic.rmw16.or_u` (opcode 0xFE 56), an atomic instruction of the threads proposal that sets a number in a memory to its bitwise or with an operand, and returns the old value.
    ///
    /// [`Instruction::I64AtomicRmw16OrU`](super::Instruction::I64AtomicRmw16OrU) is the same instruction as a value.
    #[doc(alias = "i64.atomic.rmw16.or_u")]
    pub fn i64_atomic_rmw16_or_u(&mut self, memarg: MemArg) -> &mut Self {
        self.put([0xFE, 0x38], &memarg)
    }

    /// Appends `i64.atomic.rmw32.or_u` (opcode 0xFE 57), an atomic instruction of the threads proposal that sets a number in a memory to its bitwise or with an operand, and returns the old value.
    ///
    /// [`Instruction::I64AtomicRmw32OrU`](super::Instruction::I64AtomicRmw32OrU) is the same instruction as a value.
    #[doc(alias = "i64.atomic.rmw32.or_u")]
    pub fn i64_atomic_rmw32_or_u(&mut self, memarg: MemArg) -> &mut Self {
        self.put([0xFE, 0x39], &memarg)
    }

    /// Appends `i32.atomic.rmw.xor` (opcode 0xFE 58), an atomic instruction of the threads proposal that sets a number in a memory to its bitwise exclusive or with an operand, and returns the old value.
    ///
    /// [`Instruction::I32AtomicRmwXor`](super::Instruction::I32AtomicRmwXor) is the same instruction as a value.
    #[doc(alias = "i32.atomic.rmw.xor")]
    pub fn i32_atomic_rmw_xor(&mut self, memarg: MemArg) -> &mut Self {
        self.put([0xFE, 0x3A], &memarg)
    }

    /// Appends `i64.atomic.rmw.xor` (opcode 0xFE 59), an atomic instruction of the threads proposal that sets a number in a memory to its bitwise exclusive or with an operand, and returns the old value.
    ///
    /// [`Instruction::I64AtomicRmwXor`](super::Instruction::I64AtomicRmwXor) is the same instruction as a value.
    #[doc(alias = "i64.atomic.rmw.xor")]
    pub fn i64_atomic_rmw_xor(&mut self, memarg: MemArg) -> &mut Self {
        self.put([0xFE, 0x3B], &memarg)
    }

    /// Appends `i32.atomic.rmw8.xor_u` (opcode 0xFE 60), an atomic instruction of the threads proposal that sets a number in a memory to its bitwise exclusive or with an operand, and returns the old value.
    ///
    /// [`Instruction::I32AtomicRmw8XorU`](super::Instruction::I32AtomicRmw8XorU) is the same instruction as a value.
    #[doc(alias = "i32.atomic.rmw8.xor_u")]
    pub fn i32_atomic_rmw8_xor_u(&mut self, memarg: MemArg) -> &mut Self {
        self.put([0xFE, 0x3C], &memarg)
    }

    /// Appends `i32.atomic.rmw16.xor_u` (opcode 0xFE 61), an atomic instruction of the threads proposal that sets a number in a memory to its bitwise exclusive or with an operand, and returns the old value.
    ///
    /// [`Instruction::I32AtomicRmw16XorU`](super::Instruction::I32AtomicRmw16XorU) is the same instruction as a value.
    #[doc(alias = "i32.atomic.rmw16.xor_u")]
    pub fn i32_atomic_rmw16_xor_u(&mut self, memarg: MemArg) -> &mut Self {
        self.put([0xFE, 0x3D], &memarg)
    }

    /// Appends `i64.atomic.rmw8.xor_u` (opcode 0xFE 62), an atomic instruction of the threads proposal that sets a number in a memory to its bitwise exclusive or with an operand, and returns the old value.
    ///
    /// [`Instruction::I64AtomicRmw8XorU`](super::Instruction::I64AtomicRmw8XorU) is the same instruction as a value.
    #[doc(alias = "i64.atomic.rmw8.xor_u")]
    pub fn i64_atomic_rmw8_xor_u(&mut self, memarg: MemArg) -> &mut Self {
        self.put([0xFE, 0x3E], &memarg)
    }

    /// Appends `i64.atomic.rmw16.xor_u` (opcode 0xFE 63), an atomic instruction of the threads proposal that sets a number in a memory to its bitwise exclusive or with an operand, and returns the old value.
    ///
    /// [`Instruction::I64AtomicRmw16XorU`](super::Instruction::I64AtomicRmw16XorU) is the same instruction as a value.
    #[doc(alias = "i64.atomic.rmw16.xor_u")]
    pub fn i64_atomic_rmw16_xor_u(&mut self, memarg: MemArg) -> &mut Self {
        self.put([0xFE, 0x3F], &memarg)
    }

    /// Appends `i64.atomic.rmw32.xor_u` (opcode 0xFE 64), an atomic instruction of the threads proposal that sets a number in a memory to its bitwise exclusive or with an operand, and returns the old value.
    ///
    /// [`Instruction::I64AtomicRmw32XorU`](super::Instruction::I64AtomicRmw32XorU) is the same instruction as a value.
    #[doc(alias = "i64.atomic.rmw32.xor_u")]
    pub fn i64_atomic_rmw32_xor_u(&mut self, memarg: MemArg) -> &mut Self {
        self.put([0xFE, 0x40], &memarg)
    }

    /// Appends `i32.atomic.rmw.xchg` (opcode 0xFE 65), an atomic instruction of the threads proposal that replaces a number in a memory, and returns the old value.
    ///
    /// [`Instruction::I32AtomicRmwXchg`](super::Instruction::I32AtomicRmwXchg) is the same instruction as a value.
    #[doc(alias = "i32.atomic.rmw.xchg")]
    pub fn i32_atomic_rmw_xchg(&mut self, memarg: MemArg) -> &mut Self {
        self.put([0xFE, 0x41], &memarg)
    }

    /// Appends `i64.atomic.rmw.xchg` (opcode 0xFE 66), an atomic instruction of the threads proposal that replaces a number in a memory, and returns the old value.
    ///
    /// [`Instruction::I64AtomicRmwXchg`](super::Instruction::I64AtomicRmwXchg) is the same instruction as a value.
    #[doc(alias = "i64.atomic.rmw.xchg")]
    pub fn i64_atomic_rmw_xchg(&mut self, memarg: MemArg) -> &mut Self {
        self.put([0xFE, 0x42], &memarg)
    }

    /// Appends `i32.atomic.rmw8.xchg_u` (opcode 0xFE 67), an atomic instruction of the threads proposal that replaces a number in a memory, and returns the old value.
    ///
    /// [`Instruction::I32AtomicRmw8XchgU`](super::Instruction::I32AtomicRmw8XchgU) is the same instruction as a value.
    #[doc(alias = "i32.atomic.rmw8.xchg_u")]
    pub fn i32_atomic_rmw8_xchg_u(&mut self, memarg: MemArg) -> &mut Self {
        self.put([0xFE, 0x43], &memarg)
    }

    /// Appends `i32.atomic.rmw16.xchg_u` (opcode 0xFE 68), an atomic instruction of the threads proposal that replaces a number in a memory, and returns the old value.
    ///
    /// [`Instruction::I32AtomicRmw16XchgU`](super::Instruction::I32AtomicRmw16XchgU) is the same instruction as a value.
    #[doc(alias = "i32.atomic.rmw16.xchg_u")]
    pub fn i32_atomic_rmw16_xchg_u(&mut self, memarg: MemArg) -> &mut Self {
        self.put([0xFE, 0x44], &memarg)
    }

    /// Appends `i64.atomic.rmw8.xchg_u` (opcode 0xFE 69), an atomic instruction of the threads proposal that replaces a number in a memory, and returns the old value.
    ///
    /// [`Instruction::I64AtomicRmw8XchgU`](super::Instruction::I64AtomicRmw8XchgU) is the same instruction as a value.
    #[doc(alias = "i64.atomic.rmw8.xchg_u")]
    pub fn i64_atomic_rmw8_xchg_u(&mut self, memarg: MemArg) -> &mut Self {
        self.put([0xFE, 0x45], &memarg)
    }

    /// Appends `i64.atomic.rmw16.xchg_u` (opcode 0xFE 70), an atomic instruction of the threads proposal that replaces a number in a memory, and returns the old value.
    ///
    /// [`Instruction::I64AtomicRmw16XchgU`](super::Instruction::I64AtomicRmw16XchgU) is the same instruction as a value.
    #[doc(alias = "i64.atomic.rmw16.xchg_u")]
    pub fn i64_atomic_rmw16_xchg_u(&mut self, memarg: MemArg) -> &mut Self {
        self.put([0xFE, 0x46], &memarg)
    }

    /// Appends `i64.atomic.rmw32.xchg_u` (opcode 0xFE 71), an atomic instruction of the threads proposal that replaces a number in a memory, and returns the old value.
    ///
    /// [`Instruction::I64AtomicRmw32XchgU`](super::Instruction::I64AtomicRmw32XchgU) is the same instruction as a value.
    #[doc(alias = "i64.atomic.rmw32.xchg_u")]
    pub fn i64_atomic_rmw32_xchg_u(&mut self, memarg: MemArg) -> &mut Self {
        self.put([0xFE, 0x47], &memarg)
    }

    /// Appends `i32.atomic.rmw.cmpxchg` (opcode 0xFE 72), an atomic instruction of the threads proposal that replaces a number in a memory if it has the expected value, and returns the old value.
    ///
    /// [`Instruction::I32AtomicRmwCmpxchg`](super::Instruction::I32AtomicRmwCmpxchg) is the same instruction as a value.
    #[doc(alias = "i32.atomic.rmw.cmpxchg")]
    pub fn i32_atomic_rmw_cmpxchg(&mut self, memarg: MemArg) -> &mut Self {
        self.put([0xFE, 0x48], &memarg)
    }

    /// Appends `i64.atomic.rmw.cmpxchg` (opcode 0xFE 73), an atomic instruction of the threads proposal that replaces a number in a memory if it has the expected value, and returns the old value.
    ///
    /// [`Instruction::I64AtomicRmwCmpxchg`](super::Instruction::I64AtomicRmwCmpxchg) is the same instruction as a value.
    #[doc(alias = "i64.atomic.rmw.cmpxchg")]
    pub fn i64_atomic_rmw_cmpxchg(&mut self, memarg: MemArg) -> &mut Self {
        self.put([0xFE, 0x49], &memarg)
    }

    /// Appends `i32.atomic.rmw8.cmpxchg_u` (opcode 0xFE 74), an atomic instruction of the threads proposal that replaces a number in a memory if it has the expected value, and returns the old value.
    ///
    /// [`Instruction::I32AtomicRmw8CmpxchgU`](super::Instruction::I32AtomicRmw8CmpxchgU) is the same instruction as a value.
    #[doc(alias = "i32.atomic.rmw8.cmpxchg_u")]
    pub fn i32_atomic_rmw8_cmpxchg_u(&mut self, memarg: MemArg) -> &mut Self {
        self.put([0xFE, 0x4A], &memarg)
    }

    /// Appends `i32.atomic.rmw16.cmpxchg_u` (opcode 0xFE 75), an atomic instruction of the threads proposal that replaces a number in a memory if it has the expected value, and returns the old value.
    ///
    /// [`Instruction::I32AtomicRmw16CmpxchgU`](super::Instruction::I32AtomicRmw16CmpxchgU) is the same instruction as a value.
    #[doc(alias = "i32.atomic.rmw16.cmpxchg_u")]
    pub fn i32_atomic_rmw16_cmpxchg_u(&mut self, memarg: MemArg) -> &mut Self {
        self.put([0xFE, 0x4B], &memarg)
    }

    /// Appends `i64.atomic.rmw8.cmpxchg_u` (opcode 0xFE 76), an atomic instruction of the threads proposal that replaces a number in a memory if it has the expected value, and returns the old value.
    ///
    /// [`Instruction::I64AtomicRmw8CmpxchgU`](super::Instruction::I64AtomicRmw8CmpxchgU) is the same instruction as a value.
    #[doc(alias = "i64.atomic.rmw8.cmpxchg_u")]
    pub fn i64_atomic_rmw8_cmpxchg_u(&mut self, memarg: MemArg) -> &mut Self {
        self.put([0xFE, 0x4C], &memarg)
    }

    /// Appends `i64.atomic.rmw16.cmpxchg_u` (opcode 0xFE 77), an atomic instruction of the threads proposal that replaces a number in a memory if it has the expected value, and returns the old value.
    ///
    /// [`Instruction::I64AtomicRmw16CmpxchgU`](super::Instruction::I64AtomicRmw16CmpxchgU) is the same instruction as a value.
    #[doc(alias = "i64.atomic.rmw16.cmpxchg_u")]
    pub fn i64_atomic_rmw16_cmpxchg_u(&mut self, memarg: MemArg) -> &mut Self {
        self.put([0xFE, 0x4D], &memarg)
    }

    /// Appends `i64.atomic.rmw32.cmpxchg_u` (opcode 0xFE 78), an atomic instruction of the threads proposal that replaces a number in a memory if it has the expected value, and returns the old value.
    ///
    /// [`Instruction::I64AtomicRmw32CmpxchgU`](super::Instruction::I64AtomicRmw32CmpxchgU) is the same instruction as a value.
    #[doc(alias = "i64.atomic.rmw32.cmpxchg_u")]
    pub fn i64_atomic_rmw32_cmpxchg_u(&mut self, memarg: MemArg) -> &mut Self {
        self.put([0xFE, 0x4E], &memarg)
    }

    /// Appends `global.atomic.get` (opcode 0xFE 79), an instruction of the shared-everything threads proposal that reads a global.
    ///
    /// [`Instruction::GlobalAtomicGet`](super::Instruction::GlobalAtomicGet) is the same instruction as a value.
    #[doc(alias = "global.atomic.get")]
    pub fn global_atomic_get(&mut self, ordering: Ordering, global_index: u32) -> &mut Self {
        self.put([0xFE, 0x4F], (ordering, global_index))
    }

    /// Appends `global.atomic.set` (opcode 0xFE 80), an instruction of the shared-everything threads proposal that writes a global.
    ///
    /// [`Instruction::GlobalAtomicSet`](super::Instruction::GlobalAtomicSet) is the same instruction as a value.
    #[doc(alias = "global.atomic.set")]
    pub fn global_atomic_set(&mut self, ordering: Ordering, global_index: u32) -> &mut Self {
        self.put([0xFE, 0x50], (ordering, global_index))
    }

    /// Appends `global.atomic.rmw.add` (opcode 0xFE 81), an instruction of the shared-everything threads proposal that adds to a global, and returns the old value.
    ///
    /// [`Instruction::GlobalAtomicRmwAdd`](super::Instruction::GlobalAtomicRmwAdd) is the same instruction as a value.
    #[doc(alias = "global.atomic.rmw.add")]
    pub fn global_atomic_rmw_add(&mut self, ordering: Ordering, global_index: u32) -> &mut Self {
        self.put([0xFE, 0x51], (ordering, global_index))
    }

    /// Appends `global.atomic.rmw.sub` (opcode 0xFE 82), an instruction of the shared-everything threads proposal that subtracts from a global, and returns the old value.
    ///
    /// [`Instruction::GlobalAtomicRmwSub`](super::Instruction::GlobalAtomicRmwSub) is the same instruction as a value.
    #[doc(alias = "global.atomic.rmw.sub")]
    pub fn global_atomic_rmw_sub(&mut self, ordering: Ordering, global_index: u32) -> &mut Self {
        self.put([0xFE, 0x52], (ordering, global_index))
    }

    /// Appends `global.atomic.rmw.and` (opcode 0xFE 83), an instruction of the shared-everything threads proposal that sets a global to its bitwise and with an operand, and returns the old value.
    ///
    /// [`Instruction::GlobalAtomicRmwAnd`](super::Instruction::GlobalAtomicRmwAnd) is the same instruction as a value.
    #[doc(alias = "global.atomic.rmw.and")]
    pub fn global_atomic_rmw_and(&mut self, ordering: Ordering, global_index: u32) -> &mut Self {
        self.put([0xFE, 0x53], (ordering, global_index))
    }

    /// Appends `global.atomic.rmw.or` (opcode 0xFE 84), an instruction of the shared-everything threads proposal that sets a global to its bitwise or with an operand, and returns the old value.
    ///
    /// [`Instruction::GlobalAtomicRmwOr`](super::Instruction::GlobalAtomicRmwOr) is the same instruction as a value.
    #[doc(alias = "global.atomic.rmw.or")]
    pub fn global_atomic_rmw_or(&mut self, ordering: Ordering, global_index: u32) -> &mut Self {
        self.put([0xFE, 0x54], (ordering, global_index))
    }

    /// Appends `global.atomic.rmw.xor` (opcode 0xFE 85), an instruction of the shared-everything threads proposal that sets a global to its bitwise exclusive or with an operand, and returns the old value.
    ///
    /// [`Instruction::GlobalAtomicRmwXor`](super::Instruction::GlobalAtomicRmwXor) is the same instruction as a value.
    #[doc(alias = "global.atomic.rmw.xor")]
    pub fn global_atomic_rmw_xor(&mut self, ordering: Ordering, global_index: u32) -> &mut Self {
        self.put([0xFE, 0x55], (ordering, global_index))
    }

    /// Appends `global.atomic.rmw.xchg` (opcode 0xFE 86), an instruction of the shared-everything threads proposal that replaces a global, and returns the old value.
    ///
    /// [`Instruction::GlobalAtomicRmwXchg`](super::Instruction::GlobalAtomicRmwXchg) is the same instruction as a value.
    #[doc(alias = "global.atomic.rmw.xchg")]
    pub fn global_atomic_rmw_xchg(&mut self, ordering: Ordering, global_index: u32) -> &mut Self {
        self.put([0xFE, 0x56], (ordering, global_index))
    }

    /// Appends `global.atomic.rmw.cmpxchg` (opcode 0xFE 87), an instruction of the shared-everything threads proposal that replaces a global if it has the expected value, and returns the old value.
    ///
    /// [`Instruction::GlobalAtomicRmwCmpxchg`](super::Instruction::GlobalAtomicRmwCmpxchg) is the same instruction as a value.
    #[doc(alias = "global.atomic.rmw.cmpxchg")]
    pub fn global_atomic_rmw_cmpxchg(&mut self, ordering: Ordering, global_index: u32) -> &mut Self {
        self.put([0xFE, 0x57], (ordering, global_index))
    }

    /// Appends `table.atomic.get` (opcode 0xFE 88), an instruction of the shared-everything threads proposal that reads an element of a table.
    ///
    /// [`Instruction::TableAtomicGet`](super::Instruction::TableAtomicGet) is the same instruction as a value.
    #[doc(alias = "table.atomic.get")]
    pub fn table_atomic_get(&mut self, ordering: Ordering, table_index: u32) -> &mut Self {
        self.put([0xFE, 0x58], (ordering, table_index))
    }

    /// Appends `table.atomic.set` (opcode 0xFE 89), an instruction of the shared-everything threads proposal that writes an element of a table.
    ///
    /// [`Instruction::TableAtomicSet`](super::Instruction::TableAtomicSet) is the same instruction as a value.
    #[doc(alias = "table.atomic.set")]
    pub fn table_atomic_set(&mut self, ordering: Ordering, table_index: u32) -> &mut Self {
        self.put([0xFE, 0x59], (ordering, table_index))
    }

    /// Appends `table.atomic.rmw.xchg` (opcode 0xFE 90), an instruction of the shared-everything threads proposal that replaces an element of a table, and returns the old value.
    ///
    /// [`Instruction::TableAtomicRmwXchg`](super::Instruction::TableAtomicRmwXchg) is the same instruction as a value.
    #[doc(alias = "table.atomic.rmw.xchg")]
    pub fn table_atomic_rmw_xchg(&mut self, ordering: Ordering, table_index: u32) -> &mut Self {
        self.put([0xFE, 0x5A], (ordering, table_index))
    }

    /// Appends `table.atomic.rmw.cmpxchg` (opcode 0xFE 91), an instruction of the shared-everything threads proposal that replaces an element of a table if it has the expected value, and returns the old value.
    ///
    /// [`Instruction::TableAtomicRmwCmpxchg`](super::Instruction::TableAtomicRmwCmpxchg) is the same instruction as a value.
    #[doc(alias = "table.atomic.rmw.cmpxchg")]
    pub fn table_atomic_rmw_cmpxchg(&mut self, ordering: Ordering, table_index: u32) -> &mut Self {
        self.put([0xFE, 0x5B], (ordering, table_index))
    }

    /// Appends `struct.atomic.get` (opcode 0xFE 92), an instruction of the shared-everything threads proposal that reads a field of a structure.
    ///
    /// [`Instruction::StructAtomicGet`](super::Instruction::StructAtomicGet) is the same instruction as a value.
    #[doc(alias = "struct.atomic.get")]
    pub fn struct_atomic_get(&mut self, ordering: Ordering, struct_type_index: u32, field_index: u32) -> &mut Self {
        self.put([0xFE, 0x5C], (ordering, struct_type_index, field_index))
    }

    /// Appends `struct.atomic.get_s` (opcode 0xFE 93), an instruction of the shared-everything threads proposal that reads a field of a structure, sign-extended.
    ///
    /// [`Instruction::StructAtomicGetS`](super::Instruction::StructAtomicGetS) is the same instruction as a value.
    #[doc(alias = "struct.atomic.get_s")]
    pub fn struct_atomic_get_s(&mut self, ordering: Ordering, struct_type_index: u32, field_index: u32) -> &mut Self {
        self.put([0xFE, 0x5D], (ordering, struct_type_index, field_index))
    }

    /// Appends `struct.atomic.get_u` (opcode 0xFE 94), an instruction of the shared-everything threads proposal that reads a field of a structure, zero-extended.
    ///
    /// [`Instruction::StructAtomicGetU`](super::Instruction::StructAtomicGetU) is the same instruction as a value.
    #[doc(alias = "struct.atomic.get_u")]
    pub fn struct_atomic_get_u(&mut self, ordering: Ordering, struct_type_index: u32, field_index: u32) -> &mut Self {
        self.put([0xFE, 0x5E], (ordering, struct_type_index, field_index))
    }

    /// Appends `struct.atomic.set` (opcode 0xFE 95), an instruction of the shared-everything threads proposal that writes a field of a structure.
    ///
    /// [`Instruction::StructAtomicSet`](super::Instruction::StructAtomicSet) is the same instruction as a value.
    #[doc(alias = "struct.atomic.set")]
    pub fn struct_atomic_set(&mut self, ordering: Ordering, struct_type_index: u32, field_index: u32) -> &mut Self {
        self.put([0xFE, 0x5F], (ordering, struct_type_index, field_index))
    }

    /// Appends `struct.atomic.rmw.add` (opcode 0xFE 96), an instruction of the shared-everything threads proposal that adds to a field of a structure, and returns the old value.
    ///
    /// [`Instruction::StructAtomicRmwAdd`](super::Instruction::StructAtomicRmwAdd) is the same instruction as a value.
    #[doc(alias = "struct.atomic.rmw.add")]
    pub fn struct_atomic_rmw_add(&mut self, ordering: Ordering, struct_type_index: u32, field_index: u32) -> &mut Self {
        self.put([0xFE, 0x60], (ordering, struct_type_index, field_index))
    }

    /// Appends `struct.atomic.rmw.sub` (opcode 0xFE 97), an instruction of the shared-everything threads proposal that subtracts from a field of a structure, and returns the old value.
    ///
    /// [`Instruction::StructAtomicRmwSub`](super::Instruction::StructAtomicRmwSub) is the same instruction as a value.
    #[doc(alias = "struct.atomic.rmw.sub")]
    pub fn struct_atomic_rmw_sub(&mut self, ordering: Ordering, struct_type_index: u32, field_index: u32) -> &mut Self {
        self.put([0xFE, 0x61], (ordering, struct_type_index, field_index))
    }

    /// Appends `struct.atomic.rmw.and` (opcode 0xFE 98), an instruction of the shared-everything threads proposal that sets a field of a structure to its bitwise and with an operand, and returns the old value.
    ///
    /// [`Instruction::StructAtomicRmwAnd`](super::Instruction::StructAtomicRmwAnd) is the same instruction as a value.
    #[doc(alias = "struct.atomic.rmw.and")]
    pub fn struct_atomic_rmw_and(&mut self, ordering: Ordering, struct_type_index: u32, field_index: u32) -> &mut Self {
        self.put([0xFE, 0x62], (ordering, struct_type_index, field_index))
    }

    /// Appends `struct.atomic.rmw.or` (opcode 0xFE 99), an instruction of the shared-everything threads proposal that sets a field of a structure to its bitwise or with an operand, and returns the old value.
    ///
    /// [`Instruction::StructAtomicRmwOr`](super::Instruction::StructAtomicRmwOr) is the same instruction as a value.
    #[doc(alias = "struct.atomic.rmw.or")]
    pub fn struct_atomic_rmw_or(&mut self, ordering: Ordering, struct_type_index: u32, field_index: u32) -> &mut Self {
        self.put([0xFE, 0x63], (ordering, struct_type_index, field_index))
    }

    /// Appends `struct.atomic.rmw.xor` (opcode 0xFE 100), an instruction of the shared-everything threads proposal that sets a field of a structure to its bitwise exclusive or with an operand, and returns the old value.
    ///
    /// [`Instruction::StructAtomicRmwXor`](super::Instruction::StructAtomicRmwXor) is the same instruction as a value.
    #[doc(alias = "struct.atomic.rmw.xor")]
    pub fn struct_atomic_rmw_xor(&mut self, ordering: Ordering, struct_type_index: u32, field_index: u32) -> &mut Self {
        self.put([0xFE, 0x64], (ordering, struct_type_index, field_index))
    }

    /// Appends `struct.atomic.rmw.xchg` (opcode 0xFE 101), an instruction of the shared-everything threads proposal that replaces a field of a structure, and returns the old value.
    ///
    /// [`Instruction::StructAtomicRmwXchg`](super::Instruction::StructAtomicRmwXchg) is the same instruction as a value.
    #[doc(alias = "struct.atomic.rmw.xchg")]
    pub fn struct_atomic_rmw_xchg(&mut self, ordering: Ordering, struct_type_index: u32, field_index: u32) -> &mut Self {
        self.put([0xFE, 0x65], (ordering, struct_type_index, field_index))
    }

    /// Appends `struct.atomic.rmw.cmpxchg` (opcode 0xFE 102), an instruction of the shared-everything threads proposal that replaces a field of a structure if it has the expected value, and returns the old value.
    ///
    /// [`Instruction::StructAtomicRmwCmpxchg`](super::Instruction::StructAtomicRmwCmpxchg) is the same instruction as a value.
    #[doc(alias = "struct.atomic.rmw.cmpxchg")]
    pub fn struct_atomic_rmw_cmpxchg(&mut self, ordering: Ordering, struct_type_index: u32, field_index: u32) -> &mut Self {
        self.put([0xFE, 0x66], (ordering, struct_type_index, field_index))
    }

    /// Appends `array.atomic.get` (opcode 0xFE 103), an instruction of the shared-everything threads proposal that reads an element of an array.
    ///
    /// [`Instruction::ArrayAtomicGet`](super::Instruction::ArrayAtomicGet) is the same instruction as a value.
    #[doc(alias = "array.atomic.get")]
    pub fn array_atomic_get(&mut self, ordering: Ordering, array_type_index: u32) -> &mut Self {
        self.put([0xFE, 0x67], (ordering, array_type_index))
    }

    /// Appends `array.atomic.get_s` (opcode 0xFE 104), an instruction of the shared-everything threads proposal that reads an element of an array, sign-extended.
    ///
    /// [`Instruction::ArrayAtomicGetS`](super::Instruction::ArrayAtomicGetS) is the same instruction as a value.
    #[doc(alias = "array.atomic.get_s")]
    pub fn array_atomic_get_s(&mut self, ordering: Ordering, array_type_index: u32) -> &mut Self {
        self.put([0xFE, 0x68], (ordering, array_type_index))
    }

    /// Appends `array.atomic.get_u` (opcode 0xFE 105), an instruction of the shared-everything threads proposal that reads an element of an array, zero-extended.
    ///
    /// [`Instruction::ArrayAtomicGetU`](super::Instruction::ArrayAtomicGetU) is the same instruction as a value.
    #[doc(alias = "array.atomic.get_u")]
    pub fn array_atomic_get_u(&mut self, ordering: Ordering, array_type_index: u32) -> &mut Self {
        self.put([0xFE, 0x69], (ordering, array_type_index))
    }

    /// Appends `array.atomic.set` (opcode 0xFE 106), an instruction of the shared-everything threads proposal that writes an element of an array.
    ///
    /// [`Instruction::ArrayAtomicSet`](super::Instruction::ArrayAtomicSet) is the same instruction as a value.
    #[doc(alias = "array.atomic.set")]
    pub fn array_atomic_set(&mut self, ordering: Ordering, array_type_index: u32) -> &mut Self {
        self.put([0xFE, 0x6A], (ordering, array_type_index))
    }

    /// Appends `array.atomic.rmw.add` (opcode 0xFE 107), an instruction of the shared-everything threads proposal that adds to an element of an array, and returns the old value.
    ///
    /// [`Instruction::ArrayAtomicRmwAdd`](super::Instruction::ArrayAtomicRmwAdd) is the same instruction as a value.
    #[doc(alias = "array.atomic.rmw.add")]
    pub fn array_atomic_rmw_add(&mut self, ordering: Ordering, array_type_index: u32) -> &mut Self {
        self.put([0xFE, 0x6B], (ordering, array_type_index))
    }

    /// Appends `array.atomic.rmw.sub` (opcode 0xFE 108), an instruction of the shared-everything threads proposal that subtracts from an element of an array, and returns the old value.
    ///
    /// [`Instruction::ArrayAtomicRmwSub`](super::Instruction::ArrayAtomicRmwSub) is the same instruction as a value.
    #[doc(alias = "array.atomic.rmw.sub")]
    pub fn array_atomic_rmw_sub(&mut self, ordering: Ordering, array_type_index: u32) -> &mut Self {
        self.put([0xFE, 0x6C], (ordering, array_type_index))
    }

    /// Appends `array.atomic.rmw.and` (opcode 0xFE 109), an instruction of the shared-everything threads proposal that sets an element of an array to its bitwise and with an operand, and returns the old value.
    ///
    /// [`Instruction::ArrayAtomicRmwAnd`](super::Instruction::ArrayAtomicRmwAnd) is the same instruction as a value.
    #[doc(alias = "array.atomic.rmw.and")]
    pub fn array_atomic_rmw_and(&mut self, ordering: Ordering, array_type_index: u32) -> &mut Self {
        self.put([0xFE, 0x6D], (ordering, array_type_index))
    }

    /// Appends `array.atomic.rmw.or` (opcode 0xFE 110), an instruction of the shared-everything threads proposal that sets an element of an array to its bitwise or with an operand, and returns the old value.
    ///
    /// [`Instruction::ArrayAtomicRmwOr`](super::Instruction::ArrayAtomicRmwOr) is the same instruction as a value.
    #[doc(alias = "array.atomic.rmw.or")]
    pub fn array_atomic_rmw_or(&mut self, ordering: Ordering, array_type_index: u32) -> &mut Self {
        self.put([0xFE, 0x6E], (ordering, array_type_index))
    }

    /// Appends `array.atomic.rmw.xor` (opcode 0xFE 111), an instruction of the shared-everything threads proposal that sets an element of an array to its bitwise exclusive or with an operand, and returns the old value.
    ///
    /// [`Instruction::ArrayAtomicRmwXor`](super::Instruction::ArrayAtomicRmwXor) is the same instruction as a value.
    #[doc(alias = "array.atomic.rmw.xor")]
    pub fn array_atomic_rmw_xor(&mut self, ordering: Ordering, array_type_index: u32) -> &mut Self {
        self.put([0xFE, 0x6F], (ordering, array_type_index))
    }

    /// Appends `array.atomic.rmw.xchg` (opcode 0xFE 112), an instruction of the shared-everything threads proposal that replaces an element of an array, and returns the old value.
    ///
    /// [`Instruction::ArrayAtomicRmwXchg`](super::Instruction::ArrayAtomicRmwXchg) is the same instruction as a value.
    #[doc(alias = "array.atomic.rmw.xchg")]
    pub fn array_atomic_rmw_xchg(&mut self, ordering: Ordering, array_type_index: u32) -> &mut Self {
        self.put([0xFE, 0x70], (ordering, array_type_index))
    }

    /// Appends `array.atomic.rmw.cmpxchg` (opcode 0xFE 113), an instruction of the shared-everything threads proposal that replaces an element of an array if it has the expected value, and returns the old value.
    ///
    /// [`Instruction::ArrayAtomicRmwCmpxchg`](super::Instruction::ArrayAtomicRmwCmpxchg) is the same instruction as a value.
    #[doc(alias = "array.atomic.rmw.cmpxchg")]
    pub fn array_atomic_rmw_cmpxchg(&mut self, ordering: Ordering, array_type_index: u32) -> &mut Self {
        self.put([0xFE, 0x71], (ordering, array_type_index))
    }

    /// Appends `ref.i31_shared` (opcode 0xFE 114), an instruction of the shared-everything threads proposal that makes a reference of the lower 31 bits of an integer.
    ///
    /// [`Instruction::RefI31Shared`](super::Instruction::RefI31Shared) is the same instruction as a value.
    #[doc(alias = "ref.i31_shared")]
    pub fn ref_i31_shared(&mut self) -> &mut Self {
        self.put([0xFE, 0x72], [])
    }
}
