// Written by tools/to-rust from crates/wasm_insn/src/atomic.rt: change that.
// Atomic instructions: those after the prefix FE.

use crate::vec::Sink;
use crate::insn::instruction::Instruction;
use crate::insn::op::Op;
use crate::base::{Encode, Result};
use crate::immediates::{MemArg, Ordering};

/// Atomic instructions: those after the prefix FE.
///
/// It is a case of [`Instruction`](crate::fallible::Instruction).
///
/// # Examples
///
/// ```
/// use dolzhytik::fallible::{Atomic, Encode, Instruction, Ordering};
///
/// let instruction: Instruction =
///     Instruction::Atomic(Atomic::AtomicFence(Ordering::SeqCst));
/// let mut bytes = Vec::new();
/// instruction.encode(&mut bytes)?;
/// assert_eq!(bytes, [0xFE, 3, 0]);
/// # Ok::<(), dolzhytik::fallible::Refused>(())
/// ```
#[derive(Clone, Copy, Debug)]
#[non_exhaustive]
pub enum Atomic {
    /// `memory.atomic.notify` (opcode 0xFE 0), an atomic instruction of the threads proposal that
    /// wakes threads that wait at an address.
    MemoryAtomicNotify(MemArg),
    /// `memory.atomic.wait32` (opcode 0xFE 1), an atomic instruction of the threads proposal that
    /// waits at an address for a notification.
    MemoryAtomicWait32(MemArg),
    /// `memory.atomic.wait64` (opcode 0xFE 2), an atomic instruction of the threads proposal that
    /// waits at an address for a notification.
    MemoryAtomicWait64(MemArg),
    /// `atomic.fence` (opcode 0xFE 3), an atomic instruction of the threads proposal that orders
    /// the accesses before and after it.
    AtomicFence(Ordering),
    /// `pause` (opcode 0xFE 4), an instruction of the shared-everything threads proposal that hints
    /// that the thread waits in a loop.
    Pause,
    /// `i32.atomic.load` (opcode 0xFE 16), an atomic instruction of the threads proposal that loads
    /// a number from a memory.
    I32AtomicLoad(MemArg),
    /// `i64.atomic.load` (opcode 0xFE 17), an atomic instruction of the threads proposal that loads
    /// a number from a memory.
    I64AtomicLoad(MemArg),
    /// `i32.atomic.load8_u` (opcode 0xFE 18), an atomic instruction of the threads proposal that
    /// loads a number from a memory.
    I32AtomicLoad8U(MemArg),
    /// `i32.atomic.load16_u` (opcode 0xFE 19), an atomic instruction of the threads proposal that
    /// loads a number from a memory.
    I32AtomicLoad16U(MemArg),
    /// `i64.atomic.load8_u` (opcode 0xFE 20), an atomic instruction of the threads proposal that
    /// loads a number from a memory.
    I64AtomicLoad8U(MemArg),
    /// `i64.atomic.load16_u` (opcode 0xFE 21), an atomic instruction of the threads proposal that
    /// loads a number from a memory.
    I64AtomicLoad16U(MemArg),
    /// `i64.atomic.load32_u` (opcode 0xFE 22), an atomic instruction of the threads proposal that
    /// loads a number from a memory.
    I64AtomicLoad32U(MemArg),
    /// `i32.atomic.store` (opcode 0xFE 23), an atomic instruction of the threads proposal that
    /// stores a number to a memory.
    I32AtomicStore(MemArg),
    /// `i64.atomic.store` (opcode 0xFE 24), an atomic instruction of the threads proposal that
    /// stores a number to a memory.
    I64AtomicStore(MemArg),
    /// `i32.atomic.store8` (opcode 0xFE 25), an atomic instruction of the threads proposal that
    /// stores a number to a memory.
    I32AtomicStore8(MemArg),
    /// `i32.atomic.store16` (opcode 0xFE 26), an atomic instruction of the threads proposal that
    /// stores a number to a memory.
    I32AtomicStore16(MemArg),
    /// `i64.atomic.store8` (opcode 0xFE 27), an atomic instruction of the threads proposal that
    /// stores a number to a memory.
    I64AtomicStore8(MemArg),
    /// `i64.atomic.store16` (opcode 0xFE 28), an atomic instruction of the threads proposal that
    /// stores a number to a memory.
    I64AtomicStore16(MemArg),
    /// `i64.atomic.store32` (opcode 0xFE 29), an atomic instruction of the threads proposal that
    /// stores a number to a memory.
    I64AtomicStore32(MemArg),
    /// `i32.atomic.rmw.add` (opcode 0xFE 30), an atomic instruction of the threads proposal that
    /// adds to a number in a memory, and returns the old value.
    I32AtomicRmwAdd(MemArg),
    /// `i64.atomic.rmw.add` (opcode 0xFE 31), an atomic instruction of the threads proposal that
    /// adds to a number in a memory, and returns the old value.
    I64AtomicRmwAdd(MemArg),
    /// `i32.atomic.rmw8.add_u` (opcode 0xFE 32), an atomic instruction of the threads proposal that
    /// adds to a number in a memory, and returns the old value.
    I32AtomicRmw8AddU(MemArg),
    /// `i32.atomic.rmw16.add_u` (opcode 0xFE 33), an atomic instruction of the threads proposal
    /// that adds to a number in a memory, and returns the old value.
    I32AtomicRmw16AddU(MemArg),
    /// `i64.atomic.rmw8.add_u` (opcode 0xFE 34), an atomic instruction of the threads proposal that
    /// adds to a number in a memory, and returns the old value.
    I64AtomicRmw8AddU(MemArg),
    /// `i64.atomic.rmw16.add_u` (opcode 0xFE 35), an atomic instruction of the threads proposal
    /// that adds to a number in a memory, and returns the old value.
    I64AtomicRmw16AddU(MemArg),
    /// `i64.atomic.rmw32.add_u` (opcode 0xFE 36), an atomic instruction of the threads proposal
    /// that adds to a number in a memory, and returns the old value.
    I64AtomicRmw32AddU(MemArg),
    /// `i32.atomic.rmw.sub` (opcode 0xFE 37), an atomic instruction of the threads proposal that
    /// subtracts from a number in a memory, and returns the old value.
    I32AtomicRmwSub(MemArg),
    /// `i64.atomic.rmw.sub` (opcode 0xFE 38), an atomic instruction of the threads proposal that
    /// subtracts from a number in a memory, and returns the old value.
    I64AtomicRmwSub(MemArg),
    /// `i32.atomic.rmw8.sub_u` (opcode 0xFE 39), an atomic instruction of the threads proposal that
    /// subtracts from a number in a memory, and returns the old value.
    I32AtomicRmw8SubU(MemArg),
    /// `i32.atomic.rmw16.sub_u` (opcode 0xFE 40), an atomic instruction of the threads proposal
    /// that subtracts from a number in a memory, and returns the old value.
    I32AtomicRmw16SubU(MemArg),
    /// `i64.atomic.rmw8.sub_u` (opcode 0xFE 41), an atomic instruction of the threads proposal that
    /// subtracts from a number in a memory, and returns the old value.
    I64AtomicRmw8SubU(MemArg),
    /// `i64.atomic.rmw16.sub_u` (opcode 0xFE 42), an atomic instruction of the threads proposal
    /// that subtracts from a number in a memory, and returns the old value.
    I64AtomicRmw16SubU(MemArg),
    /// `i64.atomic.rmw32.sub_u` (opcode 0xFE 43), an atomic instruction of the threads proposal
    /// that subtracts from a number in a memory, and returns the old value.
    I64AtomicRmw32SubU(MemArg),
    /// `i32.atomic.rmw.and` (opcode 0xFE 44), an atomic instruction of the threads proposal that
    /// sets a number in a memory to its bitwise and with an operand, and returns the old value.
    I32AtomicRmwAnd(MemArg),
    /// `i64.atomic.rmw.and` (opcode 0xFE 45), an atomic instruction of the threads proposal that
    /// sets a number in a memory to its bitwise and with an operand, and returns the old value.
    I64AtomicRmwAnd(MemArg),
    /// `i32.atomic.rmw8.and_u` (opcode 0xFE 46), an atomic instruction of the threads proposal that
    /// sets a number in a memory to its bitwise and with an operand, and returns the old value.
    I32AtomicRmw8AndU(MemArg),
    /// `i32.atomic.rmw16.and_u` (opcode 0xFE 47), an atomic instruction of the threads proposal
    /// that sets a number in a memory to its bitwise and with an operand, and returns the old
    /// value.
    I32AtomicRmw16AndU(MemArg),
    /// `i64.atomic.rmw8.and_u` (opcode 0xFE 48), an atomic instruction of the threads proposal that
    /// sets a number in a memory to its bitwise and with an operand, and returns the old value.
    I64AtomicRmw8AndU(MemArg),
    /// `i64.atomic.rmw16.and_u` (opcode 0xFE 49), an atomic instruction of the threads proposal
    /// that sets a number in a memory to its bitwise and with an operand, and returns the old
    /// value.
    I64AtomicRmw16AndU(MemArg),
    /// `i64.atomic.rmw32.and_u` (opcode 0xFE 50), an atomic instruction of the threads proposal
    /// that sets a number in a memory to its bitwise and with an operand, and returns the old
    /// value.
    I64AtomicRmw32AndU(MemArg),
    /// `i32.atomic.rmw.or` (opcode 0xFE 51), an atomic instruction of the threads proposal that
    /// sets a number in a memory to its bitwise or with an operand, and returns the old value.
    I32AtomicRmwOr(MemArg),
    /// `i64.atomic.rmw.or` (opcode 0xFE 52), an atomic instruction of the threads proposal that
    /// sets a number in a memory to its bitwise or with an operand, and returns the old value.
    I64AtomicRmwOr(MemArg),
    /// `i32.atomic.rmw8.or_u` (opcode 0xFE 53), an atomic instruction of the threads proposal that
    /// sets a number in a memory to its bitwise or with an operand, and returns the old value.
    I32AtomicRmw8OrU(MemArg),
    /// `i32.atomic.rmw16.or_u` (opcode 0xFE 54), an atomic instruction of the threads proposal that
    /// sets a number in a memory to its bitwise or with an operand, and returns the old value.
    I32AtomicRmw16OrU(MemArg),
    /// `i64.atomic.rmw8.or_u` (opcode 0xFE 55), an atomic instruction of the threads proposal that
    /// sets a number in a memory to its bitwise or with an operand, and returns the old value.
    I64AtomicRmw8OrU(MemArg),
    /// `i64.atomic.rmw16.or_u` (opcode 0xFE 56), an atomic instruction of the threads proposal that
    /// sets a number in a memory to its bitwise or with an operand, and returns the old value.
    I64AtomicRmw16OrU(MemArg),
    /// `i64.atomic.rmw32.or_u` (opcode 0xFE 57), an atomic instruction of the threads proposal that
    /// sets a number in a memory to its bitwise or with an operand, and returns the old value.
    I64AtomicRmw32OrU(MemArg),
    /// `i32.atomic.rmw.xor` (opcode 0xFE 58), an atomic instruction of the threads proposal that
    /// sets a number in a memory to its bitwise exclusive or with an operand, and returns the old
    /// value.
    I32AtomicRmwXor(MemArg),
    /// `i64.atomic.rmw.xor` (opcode 0xFE 59), an atomic instruction of the threads proposal that
    /// sets a number in a memory to its bitwise exclusive or with an operand, and returns the old
    /// value.
    I64AtomicRmwXor(MemArg),
    /// `i32.atomic.rmw8.xor_u` (opcode 0xFE 60), an atomic instruction of the threads proposal that
    /// sets a number in a memory to its bitwise exclusive or with an operand, and returns the old
    /// value.
    I32AtomicRmw8XorU(MemArg),
    /// `i32.atomic.rmw16.xor_u` (opcode 0xFE 61), an atomic instruction of the threads proposal
    /// that sets a number in a memory to its bitwise exclusive or with an operand, and returns the
    /// old value.
    I32AtomicRmw16XorU(MemArg),
    /// `i64.atomic.rmw8.xor_u` (opcode 0xFE 62), an atomic instruction of the threads proposal that
    /// sets a number in a memory to its bitwise exclusive or with an operand, and returns the old
    /// value.
    I64AtomicRmw8XorU(MemArg),
    /// `i64.atomic.rmw16.xor_u` (opcode 0xFE 63), an atomic instruction of the threads proposal
    /// that sets a number in a memory to its bitwise exclusive or with an operand, and returns the
    /// old value.
    I64AtomicRmw16XorU(MemArg),
    /// `i64.atomic.rmw32.xor_u` (opcode 0xFE 64), an atomic instruction of the threads proposal
    /// that sets a number in a memory to its bitwise exclusive or with an operand, and returns the
    /// old value.
    I64AtomicRmw32XorU(MemArg),
    /// `i32.atomic.rmw.xchg` (opcode 0xFE 65), an atomic instruction of the threads proposal that
    /// replaces a number in a memory, and returns the old value.
    I32AtomicRmwXchg(MemArg),
    /// `i64.atomic.rmw.xchg` (opcode 0xFE 66), an atomic instruction of the threads proposal that
    /// replaces a number in a memory, and returns the old value.
    I64AtomicRmwXchg(MemArg),
    /// `i32.atomic.rmw8.xchg_u` (opcode 0xFE 67), an atomic instruction of the threads proposal
    /// that replaces a number in a memory, and returns the old value.
    I32AtomicRmw8XchgU(MemArg),
    /// `i32.atomic.rmw16.xchg_u` (opcode 0xFE 68), an atomic instruction of the threads proposal
    /// that replaces a number in a memory, and returns the old value.
    I32AtomicRmw16XchgU(MemArg),
    /// `i64.atomic.rmw8.xchg_u` (opcode 0xFE 69), an atomic instruction of the threads proposal
    /// that replaces a number in a memory, and returns the old value.
    I64AtomicRmw8XchgU(MemArg),
    /// `i64.atomic.rmw16.xchg_u` (opcode 0xFE 70), an atomic instruction of the threads proposal
    /// that replaces a number in a memory, and returns the old value.
    I64AtomicRmw16XchgU(MemArg),
    /// `i64.atomic.rmw32.xchg_u` (opcode 0xFE 71), an atomic instruction of the threads proposal
    /// that replaces a number in a memory, and returns the old value.
    I64AtomicRmw32XchgU(MemArg),
    /// `i32.atomic.rmw.cmpxchg` (opcode 0xFE 72), an atomic instruction of the threads proposal
    /// that replaces a number in a memory if it has the expected value, and returns the old value.
    I32AtomicRmwCmpxchg(MemArg),
    /// `i64.atomic.rmw.cmpxchg` (opcode 0xFE 73), an atomic instruction of the threads proposal
    /// that replaces a number in a memory if it has the expected value, and returns the old value.
    I64AtomicRmwCmpxchg(MemArg),
    /// `i32.atomic.rmw8.cmpxchg_u` (opcode 0xFE 74), an atomic instruction of the threads proposal
    /// that replaces a number in a memory if it has the expected value, and returns the old value.
    I32AtomicRmw8CmpxchgU(MemArg),
    /// `i32.atomic.rmw16.cmpxchg_u` (opcode 0xFE 75), an atomic instruction of the threads proposal
    /// that replaces a number in a memory if it has the expected value, and returns the old value.
    I32AtomicRmw16CmpxchgU(MemArg),
    /// `i64.atomic.rmw8.cmpxchg_u` (opcode 0xFE 76), an atomic instruction of the threads proposal
    /// that replaces a number in a memory if it has the expected value, and returns the old value.
    I64AtomicRmw8CmpxchgU(MemArg),
    /// `i64.atomic.rmw16.cmpxchg_u` (opcode 0xFE 77), an atomic instruction of the threads proposal
    /// that replaces a number in a memory if it has the expected value, and returns the old value.
    I64AtomicRmw16CmpxchgU(MemArg),
    /// `i64.atomic.rmw32.cmpxchg_u` (opcode 0xFE 78), an atomic instruction of the threads proposal
    /// that replaces a number in a memory if it has the expected value, and returns the old value.
    I64AtomicRmw32CmpxchgU(MemArg),
    /// `global.atomic.get` (opcode 0xFE 79), an instruction of the shared-everything threads
    /// proposal that reads a global.
    GlobalAtomicGet {
        /// The ordering of the access.
        ordering: Ordering,
        /// The index of the global.
        global_index: u32,
    },
    /// `global.atomic.set` (opcode 0xFE 80), an instruction of the shared-everything threads
    /// proposal that writes a global.
    GlobalAtomicSet {
        /// The ordering of the access.
        ordering: Ordering,
        /// The index of the global.
        global_index: u32,
    },
    /// `global.atomic.rmw.add` (opcode 0xFE 81), an instruction of the shared-everything threads
    /// proposal that adds to a global, and returns the old value.
    GlobalAtomicRmwAdd {
        /// The ordering of the access.
        ordering: Ordering,
        /// The index of the global.
        global_index: u32,
    },
    /// `global.atomic.rmw.sub` (opcode 0xFE 82), an instruction of the shared-everything threads
    /// proposal that subtracts from a global, and returns the old value.
    GlobalAtomicRmwSub {
        /// The ordering of the access.
        ordering: Ordering,
        /// The index of the global.
        global_index: u32,
    },
    /// `global.atomic.rmw.and` (opcode 0xFE 83), an instruction of the shared-everything threads
    /// proposal that sets a global to its bitwise and with an operand, and returns the old value.
    GlobalAtomicRmwAnd {
        /// The ordering of the access.
        ordering: Ordering,
        /// The index of the global.
        global_index: u32,
    },
    /// `global.atomic.rmw.or` (opcode 0xFE 84), an instruction of the shared-everything threads
    /// proposal that sets a global to its bitwise or with an operand, and returns the old value.
    GlobalAtomicRmwOr {
        /// The ordering of the access.
        ordering: Ordering,
        /// The index of the global.
        global_index: u32,
    },
    /// `global.atomic.rmw.xor` (opcode 0xFE 85), an instruction of the shared-everything threads
    /// proposal that sets a global to its bitwise exclusive or with an operand, and returns the old
    /// value.
    GlobalAtomicRmwXor {
        /// The ordering of the access.
        ordering: Ordering,
        /// The index of the global.
        global_index: u32,
    },
    /// `global.atomic.rmw.xchg` (opcode 0xFE 86), an instruction of the shared-everything threads
    /// proposal that replaces a global, and returns the old value.
    GlobalAtomicRmwXchg {
        /// The ordering of the access.
        ordering: Ordering,
        /// The index of the global.
        global_index: u32,
    },
    /// `global.atomic.rmw.cmpxchg` (opcode 0xFE 87), an instruction of the shared-everything
    /// threads proposal that replaces a global if it has the expected value, and returns the old
    /// value.
    GlobalAtomicRmwCmpxchg {
        /// The ordering of the access.
        ordering: Ordering,
        /// The index of the global.
        global_index: u32,
    },
    /// `table.atomic.get` (opcode 0xFE 88), an instruction of the shared-everything threads
    /// proposal that reads an element of a table.
    TableAtomicGet {
        /// The ordering of the access.
        ordering: Ordering,
        /// The index of the table.
        table_index: u32,
    },
    /// `table.atomic.set` (opcode 0xFE 89), an instruction of the shared-everything threads
    /// proposal that writes an element of a table.
    TableAtomicSet {
        /// The ordering of the access.
        ordering: Ordering,
        /// The index of the table.
        table_index: u32,
    },
    /// `table.atomic.rmw.xchg` (opcode 0xFE 90), an instruction of the shared-everything threads
    /// proposal that replaces an element of a table, and returns the old value.
    TableAtomicRmwXchg {
        /// The ordering of the access.
        ordering: Ordering,
        /// The index of the table.
        table_index: u32,
    },
    /// `table.atomic.rmw.cmpxchg` (opcode 0xFE 91), an instruction of the shared-everything threads
    /// proposal that replaces an element of a table if it has the expected value, and returns the
    /// old value.
    TableAtomicRmwCmpxchg {
        /// The ordering of the access.
        ordering: Ordering,
        /// The index of the table.
        table_index: u32,
    },
    /// `struct.atomic.get` (opcode 0xFE 92), an instruction of the shared-everything threads
    /// proposal that reads a field of a structure.
    StructAtomicGet {
        /// The ordering of the access.
        ordering: Ordering,
        /// The index of the structure type.
        struct_type_index: u32,
        /// The index of the field.
        field_index: u32,
    },
    /// `struct.atomic.get_s` (opcode 0xFE 93), an instruction of the shared-everything threads
    /// proposal that reads a field of a structure, sign-extended.
    StructAtomicGetS {
        /// The ordering of the access.
        ordering: Ordering,
        /// The index of the structure type.
        struct_type_index: u32,
        /// The index of the field.
        field_index: u32,
    },
    /// `struct.atomic.get_u` (opcode 0xFE 94), an instruction of the shared-everything threads
    /// proposal that reads a field of a structure, zero-extended.
    StructAtomicGetU {
        /// The ordering of the access.
        ordering: Ordering,
        /// The index of the structure type.
        struct_type_index: u32,
        /// The index of the field.
        field_index: u32,
    },
    /// `struct.atomic.set` (opcode 0xFE 95), an instruction of the shared-everything threads
    /// proposal that writes a field of a structure.
    StructAtomicSet {
        /// The ordering of the access.
        ordering: Ordering,
        /// The index of the structure type.
        struct_type_index: u32,
        /// The index of the field.
        field_index: u32,
    },
    /// `struct.atomic.rmw.add` (opcode 0xFE 96), an instruction of the shared-everything threads
    /// proposal that adds to a field of a structure, and returns the old value.
    StructAtomicRmwAdd {
        /// The ordering of the access.
        ordering: Ordering,
        /// The index of the structure type.
        struct_type_index: u32,
        /// The index of the field.
        field_index: u32,
    },
    /// `struct.atomic.rmw.sub` (opcode 0xFE 97), an instruction of the shared-everything threads
    /// proposal that subtracts from a field of a structure, and returns the old value.
    StructAtomicRmwSub {
        /// The ordering of the access.
        ordering: Ordering,
        /// The index of the structure type.
        struct_type_index: u32,
        /// The index of the field.
        field_index: u32,
    },
    /// `struct.atomic.rmw.and` (opcode 0xFE 98), an instruction of the shared-everything threads
    /// proposal that sets a field of a structure to its bitwise and with an operand, and returns
    /// the old value.
    StructAtomicRmwAnd {
        /// The ordering of the access.
        ordering: Ordering,
        /// The index of the structure type.
        struct_type_index: u32,
        /// The index of the field.
        field_index: u32,
    },
    /// `struct.atomic.rmw.or` (opcode 0xFE 99), an instruction of the shared-everything threads
    /// proposal that sets a field of a structure to its bitwise or with an operand, and returns the
    /// old value.
    StructAtomicRmwOr {
        /// The ordering of the access.
        ordering: Ordering,
        /// The index of the structure type.
        struct_type_index: u32,
        /// The index of the field.
        field_index: u32,
    },
    /// `struct.atomic.rmw.xor` (opcode 0xFE 100), an instruction of the shared-everything threads
    /// proposal that sets a field of a structure to its bitwise exclusive or with an operand, and
    /// returns the old value.
    StructAtomicRmwXor {
        /// The ordering of the access.
        ordering: Ordering,
        /// The index of the structure type.
        struct_type_index: u32,
        /// The index of the field.
        field_index: u32,
    },
    /// `struct.atomic.rmw.xchg` (opcode 0xFE 101), an instruction of the shared-everything threads
    /// proposal that replaces a field of a structure, and returns the old value.
    StructAtomicRmwXchg {
        /// The ordering of the access.
        ordering: Ordering,
        /// The index of the structure type.
        struct_type_index: u32,
        /// The index of the field.
        field_index: u32,
    },
    /// `struct.atomic.rmw.cmpxchg` (opcode 0xFE 102), an instruction of the shared-everything
    /// threads proposal that replaces a field of a structure if it has the expected value, and
    /// returns the old value.
    StructAtomicRmwCmpxchg {
        /// The ordering of the access.
        ordering: Ordering,
        /// The index of the structure type.
        struct_type_index: u32,
        /// The index of the field.
        field_index: u32,
    },
    /// `array.atomic.get` (opcode 0xFE 103), an instruction of the shared-everything threads
    /// proposal that reads an element of an array.
    ArrayAtomicGet {
        /// The ordering of the access.
        ordering: Ordering,
        /// The index of the array type.
        array_type_index: u32,
    },
    /// `array.atomic.get_s` (opcode 0xFE 104), an instruction of the shared-everything threads
    /// proposal that reads an element of an array, sign-extended.
    ArrayAtomicGetS {
        /// The ordering of the access.
        ordering: Ordering,
        /// The index of the array type.
        array_type_index: u32,
    },
    /// `array.atomic.get_u` (opcode 0xFE 105), an instruction of the shared-everything threads
    /// proposal that reads an element of an array, zero-extended.
    ArrayAtomicGetU {
        /// The ordering of the access.
        ordering: Ordering,
        /// The index of the array type.
        array_type_index: u32,
    },
    /// `array.atomic.set` (opcode 0xFE 106), an instruction of the shared-everything threads
    /// proposal that writes an element of an array.
    ArrayAtomicSet {
        /// The ordering of the access.
        ordering: Ordering,
        /// The index of the array type.
        array_type_index: u32,
    },
    /// `array.atomic.rmw.add` (opcode 0xFE 107), an instruction of the shared-everything threads
    /// proposal that adds to an element of an array, and returns the old value.
    ArrayAtomicRmwAdd {
        /// The ordering of the access.
        ordering: Ordering,
        /// The index of the array type.
        array_type_index: u32,
    },
    /// `array.atomic.rmw.sub` (opcode 0xFE 108), an instruction of the shared-everything threads
    /// proposal that subtracts from an element of an array, and returns the old value.
    ArrayAtomicRmwSub {
        /// The ordering of the access.
        ordering: Ordering,
        /// The index of the array type.
        array_type_index: u32,
    },
    /// `array.atomic.rmw.and` (opcode 0xFE 109), an instruction of the shared-everything threads
    /// proposal that sets an element of an array to its bitwise and with an operand, and returns
    /// the old value.
    ArrayAtomicRmwAnd {
        /// The ordering of the access.
        ordering: Ordering,
        /// The index of the array type.
        array_type_index: u32,
    },
    /// `array.atomic.rmw.or` (opcode 0xFE 110), an instruction of the shared-everything threads
    /// proposal that sets an element of an array to its bitwise or with an operand, and returns the
    /// old value.
    ArrayAtomicRmwOr {
        /// The ordering of the access.
        ordering: Ordering,
        /// The index of the array type.
        array_type_index: u32,
    },
    /// `array.atomic.rmw.xor` (opcode 0xFE 111), an instruction of the shared-everything threads
    /// proposal that sets an element of an array to its bitwise exclusive or with an operand, and
    /// returns the old value.
    ArrayAtomicRmwXor {
        /// The ordering of the access.
        ordering: Ordering,
        /// The index of the array type.
        array_type_index: u32,
    },
    /// `array.atomic.rmw.xchg` (opcode 0xFE 112), an instruction of the shared-everything threads
    /// proposal that replaces an element of an array, and returns the old value.
    ArrayAtomicRmwXchg {
        /// The ordering of the access.
        ordering: Ordering,
        /// The index of the array type.
        array_type_index: u32,
    },
    /// `array.atomic.rmw.cmpxchg` (opcode 0xFE 113), an instruction of the shared-everything
    /// threads proposal that replaces an element of an array if it has the expected value, and
    /// returns the old value.
    ArrayAtomicRmwCmpxchg {
        /// The ordering of the access.
        ordering: Ordering,
        /// The index of the array type.
        array_type_index: u32,
    },
    /// `ref.i31_shared` (opcode 0xFE 114), an instruction of the shared-everything threads proposal
    /// that makes a reference of the lower 31 bits of an integer.
    RefI31Shared,
}

impl Atomic {
    /// Returns the opcode, as in the opcode table.
    ///
    /// # Proved
    ///
    /// ```text
    /// ensures { result ≡ (atomic_row self).op }
    /// ```
    ///
    /// Definitions: [`atomic_row`](crate::definitions::insn::atomic::atomic_row). [How to read clauses](crate::definitions).
    pub fn op(self) -> Op {
        match self {
            Atomic::MemoryAtomicNotify(..) => Op::Prefixed(0xFE, 0x00),
            Atomic::MemoryAtomicWait32(..) => Op::Prefixed(0xFE, 0x01),
            Atomic::MemoryAtomicWait64(..) => Op::Prefixed(0xFE, 0x02),
            Atomic::AtomicFence(..) => Op::Prefixed(0xFE, 0x03),
            Atomic::Pause => Op::Prefixed(0xFE, 0x04),
            Atomic::I32AtomicLoad(..) => Op::Prefixed(0xFE, 0x10),
            Atomic::I64AtomicLoad(..) => Op::Prefixed(0xFE, 0x11),
            Atomic::I32AtomicLoad8U(..) => Op::Prefixed(0xFE, 0x12),
            Atomic::I32AtomicLoad16U(..) => Op::Prefixed(0xFE, 0x13),
            Atomic::I64AtomicLoad8U(..) => Op::Prefixed(0xFE, 0x14),
            Atomic::I64AtomicLoad16U(..) => Op::Prefixed(0xFE, 0x15),
            Atomic::I64AtomicLoad32U(..) => Op::Prefixed(0xFE, 0x16),
            Atomic::I32AtomicStore(..) => Op::Prefixed(0xFE, 0x17),
            Atomic::I64AtomicStore(..) => Op::Prefixed(0xFE, 0x18),
            Atomic::I32AtomicStore8(..) => Op::Prefixed(0xFE, 0x19),
            Atomic::I32AtomicStore16(..) => Op::Prefixed(0xFE, 0x1A),
            Atomic::I64AtomicStore8(..) => Op::Prefixed(0xFE, 0x1B),
            Atomic::I64AtomicStore16(..) => Op::Prefixed(0xFE, 0x1C),
            Atomic::I64AtomicStore32(..) => Op::Prefixed(0xFE, 0x1D),
            Atomic::I32AtomicRmwAdd(..) => Op::Prefixed(0xFE, 0x1E),
            Atomic::I64AtomicRmwAdd(..) => Op::Prefixed(0xFE, 0x1F),
            Atomic::I32AtomicRmw8AddU(..) => Op::Prefixed(0xFE, 0x20),
            Atomic::I32AtomicRmw16AddU(..) => Op::Prefixed(0xFE, 0x21),
            Atomic::I64AtomicRmw8AddU(..) => Op::Prefixed(0xFE, 0x22),
            Atomic::I64AtomicRmw16AddU(..) => Op::Prefixed(0xFE, 0x23),
            Atomic::I64AtomicRmw32AddU(..) => Op::Prefixed(0xFE, 0x24),
            Atomic::I32AtomicRmwSub(..) => Op::Prefixed(0xFE, 0x25),
            Atomic::I64AtomicRmwSub(..) => Op::Prefixed(0xFE, 0x26),
            Atomic::I32AtomicRmw8SubU(..) => Op::Prefixed(0xFE, 0x27),
            Atomic::I32AtomicRmw16SubU(..) => Op::Prefixed(0xFE, 0x28),
            Atomic::I64AtomicRmw8SubU(..) => Op::Prefixed(0xFE, 0x29),
            Atomic::I64AtomicRmw16SubU(..) => Op::Prefixed(0xFE, 0x2A),
            Atomic::I64AtomicRmw32SubU(..) => Op::Prefixed(0xFE, 0x2B),
            Atomic::I32AtomicRmwAnd(..) => Op::Prefixed(0xFE, 0x2C),
            Atomic::I64AtomicRmwAnd(..) => Op::Prefixed(0xFE, 0x2D),
            Atomic::I32AtomicRmw8AndU(..) => Op::Prefixed(0xFE, 0x2E),
            Atomic::I32AtomicRmw16AndU(..) => Op::Prefixed(0xFE, 0x2F),
            Atomic::I64AtomicRmw8AndU(..) => Op::Prefixed(0xFE, 0x30),
            Atomic::I64AtomicRmw16AndU(..) => Op::Prefixed(0xFE, 0x31),
            Atomic::I64AtomicRmw32AndU(..) => Op::Prefixed(0xFE, 0x32),
            Atomic::I32AtomicRmwOr(..) => Op::Prefixed(0xFE, 0x33),
            Atomic::I64AtomicRmwOr(..) => Op::Prefixed(0xFE, 0x34),
            Atomic::I32AtomicRmw8OrU(..) => Op::Prefixed(0xFE, 0x35),
            Atomic::I32AtomicRmw16OrU(..) => Op::Prefixed(0xFE, 0x36),
            Atomic::I64AtomicRmw8OrU(..) => Op::Prefixed(0xFE, 0x37),
            Atomic::I64AtomicRmw16OrU(..) => Op::Prefixed(0xFE, 0x38),
            Atomic::I64AtomicRmw32OrU(..) => Op::Prefixed(0xFE, 0x39),
            Atomic::I32AtomicRmwXor(..) => Op::Prefixed(0xFE, 0x3A),
            Atomic::I64AtomicRmwXor(..) => Op::Prefixed(0xFE, 0x3B),
            Atomic::I32AtomicRmw8XorU(..) => Op::Prefixed(0xFE, 0x3C),
            Atomic::I32AtomicRmw16XorU(..) => Op::Prefixed(0xFE, 0x3D),
            Atomic::I64AtomicRmw8XorU(..) => Op::Prefixed(0xFE, 0x3E),
            Atomic::I64AtomicRmw16XorU(..) => Op::Prefixed(0xFE, 0x3F),
            Atomic::I64AtomicRmw32XorU(..) => Op::Prefixed(0xFE, 0x40),
            Atomic::I32AtomicRmwXchg(..) => Op::Prefixed(0xFE, 0x41),
            Atomic::I64AtomicRmwXchg(..) => Op::Prefixed(0xFE, 0x42),
            Atomic::I32AtomicRmw8XchgU(..) => Op::Prefixed(0xFE, 0x43),
            Atomic::I32AtomicRmw16XchgU(..) => Op::Prefixed(0xFE, 0x44),
            Atomic::I64AtomicRmw8XchgU(..) => Op::Prefixed(0xFE, 0x45),
            Atomic::I64AtomicRmw16XchgU(..) => Op::Prefixed(0xFE, 0x46),
            Atomic::I64AtomicRmw32XchgU(..) => Op::Prefixed(0xFE, 0x47),
            Atomic::I32AtomicRmwCmpxchg(..) => Op::Prefixed(0xFE, 0x48),
            Atomic::I64AtomicRmwCmpxchg(..) => Op::Prefixed(0xFE, 0x49),
            Atomic::I32AtomicRmw8CmpxchgU(..) => Op::Prefixed(0xFE, 0x4A),
            Atomic::I32AtomicRmw16CmpxchgU(..) => Op::Prefixed(0xFE, 0x4B),
            Atomic::I64AtomicRmw8CmpxchgU(..) => Op::Prefixed(0xFE, 0x4C),
            Atomic::I64AtomicRmw16CmpxchgU(..) => Op::Prefixed(0xFE, 0x4D),
            Atomic::I64AtomicRmw32CmpxchgU(..) => Op::Prefixed(0xFE, 0x4E),
            Atomic::GlobalAtomicGet { .. } => Op::Prefixed(0xFE, 0x4F),
            Atomic::GlobalAtomicSet { .. } => Op::Prefixed(0xFE, 0x50),
            Atomic::GlobalAtomicRmwAdd { .. } => Op::Prefixed(0xFE, 0x51),
            Atomic::GlobalAtomicRmwSub { .. } => Op::Prefixed(0xFE, 0x52),
            Atomic::GlobalAtomicRmwAnd { .. } => Op::Prefixed(0xFE, 0x53),
            Atomic::GlobalAtomicRmwOr { .. } => Op::Prefixed(0xFE, 0x54),
            Atomic::GlobalAtomicRmwXor { .. } => Op::Prefixed(0xFE, 0x55),
            Atomic::GlobalAtomicRmwXchg { .. } => Op::Prefixed(0xFE, 0x56),
            Atomic::GlobalAtomicRmwCmpxchg { .. } => Op::Prefixed(0xFE, 0x57),
            Atomic::TableAtomicGet { .. } => Op::Prefixed(0xFE, 0x58),
            Atomic::TableAtomicSet { .. } => Op::Prefixed(0xFE, 0x59),
            Atomic::TableAtomicRmwXchg { .. } => Op::Prefixed(0xFE, 0x5A),
            Atomic::TableAtomicRmwCmpxchg { .. } => Op::Prefixed(0xFE, 0x5B),
            Atomic::StructAtomicGet { .. } => Op::Prefixed(0xFE, 0x5C),
            Atomic::StructAtomicGetS { .. } => Op::Prefixed(0xFE, 0x5D),
            Atomic::StructAtomicGetU { .. } => Op::Prefixed(0xFE, 0x5E),
            Atomic::StructAtomicSet { .. } => Op::Prefixed(0xFE, 0x5F),
            Atomic::StructAtomicRmwAdd { .. } => Op::Prefixed(0xFE, 0x60),
            Atomic::StructAtomicRmwSub { .. } => Op::Prefixed(0xFE, 0x61),
            Atomic::StructAtomicRmwAnd { .. } => Op::Prefixed(0xFE, 0x62),
            Atomic::StructAtomicRmwOr { .. } => Op::Prefixed(0xFE, 0x63),
            Atomic::StructAtomicRmwXor { .. } => Op::Prefixed(0xFE, 0x64),
            Atomic::StructAtomicRmwXchg { .. } => Op::Prefixed(0xFE, 0x65),
            Atomic::StructAtomicRmwCmpxchg { .. } => Op::Prefixed(0xFE, 0x66),
            Atomic::ArrayAtomicGet { .. } => Op::Prefixed(0xFE, 0x67),
            Atomic::ArrayAtomicGetS { .. } => Op::Prefixed(0xFE, 0x68),
            Atomic::ArrayAtomicGetU { .. } => Op::Prefixed(0xFE, 0x69),
            Atomic::ArrayAtomicSet { .. } => Op::Prefixed(0xFE, 0x6A),
            Atomic::ArrayAtomicRmwAdd { .. } => Op::Prefixed(0xFE, 0x6B),
            Atomic::ArrayAtomicRmwSub { .. } => Op::Prefixed(0xFE, 0x6C),
            Atomic::ArrayAtomicRmwAnd { .. } => Op::Prefixed(0xFE, 0x6D),
            Atomic::ArrayAtomicRmwOr { .. } => Op::Prefixed(0xFE, 0x6E),
            Atomic::ArrayAtomicRmwXor { .. } => Op::Prefixed(0xFE, 0x6F),
            Atomic::ArrayAtomicRmwXchg { .. } => Op::Prefixed(0xFE, 0x70),
            Atomic::ArrayAtomicRmwCmpxchg { .. } => Op::Prefixed(0xFE, 0x71),
            Atomic::RefI31Shared => Op::Prefixed(0xFE, 0x72),
        }
    }

    /// Appends the immediates.
    pub(crate) fn encode_arguments<A: Sink>(self, sink: &mut A) -> Result<()> {
        match self {
            Atomic::MemoryAtomicNotify(a)
            | Atomic::MemoryAtomicWait32(a)
            | Atomic::MemoryAtomicWait64(a)
            | Atomic::I32AtomicLoad(a)
            | Atomic::I64AtomicLoad(a)
            | Atomic::I32AtomicLoad8U(a)
            | Atomic::I32AtomicLoad16U(a)
            | Atomic::I64AtomicLoad8U(a)
            | Atomic::I64AtomicLoad16U(a)
            | Atomic::I64AtomicLoad32U(a)
            | Atomic::I32AtomicStore(a) => a.encode(sink),
            Atomic::I64AtomicStore(a)
            | Atomic::I32AtomicStore8(a)
            | Atomic::I32AtomicStore16(a)
            | Atomic::I64AtomicStore8(a)
            | Atomic::I64AtomicStore16(a)
            | Atomic::I64AtomicStore32(a)
            | Atomic::I32AtomicRmwAdd(a)
            | Atomic::I64AtomicRmwAdd(a)
            | Atomic::I32AtomicRmw8AddU(a)
            | Atomic::I32AtomicRmw16AddU(a)
            | Atomic::I64AtomicRmw8AddU(a) => a.encode(sink),
            Atomic::I64AtomicRmw16AddU(a)
            | Atomic::I64AtomicRmw32AddU(a)
            | Atomic::I32AtomicRmwSub(a)
            | Atomic::I64AtomicRmwSub(a)
            | Atomic::I32AtomicRmw8SubU(a)
            | Atomic::I32AtomicRmw16SubU(a)
            | Atomic::I64AtomicRmw8SubU(a)
            | Atomic::I64AtomicRmw16SubU(a)
            | Atomic::I64AtomicRmw32SubU(a)
            | Atomic::I32AtomicRmwAnd(a)
            | Atomic::I64AtomicRmwAnd(a) => a.encode(sink),
            Atomic::I32AtomicRmw8AndU(a)
            | Atomic::I32AtomicRmw16AndU(a)
            | Atomic::I64AtomicRmw8AndU(a)
            | Atomic::I64AtomicRmw16AndU(a)
            | Atomic::I64AtomicRmw32AndU(a)
            | Atomic::I32AtomicRmwOr(a)
            | Atomic::I64AtomicRmwOr(a)
            | Atomic::I32AtomicRmw8OrU(a)
            | Atomic::I32AtomicRmw16OrU(a)
            | Atomic::I64AtomicRmw8OrU(a)
            | Atomic::I64AtomicRmw16OrU(a) => a.encode(sink),
            Atomic::I64AtomicRmw32OrU(a)
            | Atomic::I32AtomicRmwXor(a)
            | Atomic::I64AtomicRmwXor(a)
            | Atomic::I32AtomicRmw8XorU(a)
            | Atomic::I32AtomicRmw16XorU(a)
            | Atomic::I64AtomicRmw8XorU(a)
            | Atomic::I64AtomicRmw16XorU(a)
            | Atomic::I64AtomicRmw32XorU(a)
            | Atomic::I32AtomicRmwXchg(a)
            | Atomic::I64AtomicRmwXchg(a)
            | Atomic::I32AtomicRmw8XchgU(a) => a.encode(sink),
            Atomic::I32AtomicRmw16XchgU(a)
            | Atomic::I64AtomicRmw8XchgU(a)
            | Atomic::I64AtomicRmw16XchgU(a)
            | Atomic::I64AtomicRmw32XchgU(a)
            | Atomic::I32AtomicRmwCmpxchg(a)
            | Atomic::I64AtomicRmwCmpxchg(a)
            | Atomic::I32AtomicRmw8CmpxchgU(a)
            | Atomic::I32AtomicRmw16CmpxchgU(a)
            | Atomic::I64AtomicRmw8CmpxchgU(a)
            | Atomic::I64AtomicRmw16CmpxchgU(a)
            | Atomic::I64AtomicRmw32CmpxchgU(a) => a.encode(sink),
            Atomic::AtomicFence(a) => a.encode(sink),
            Atomic::GlobalAtomicGet {
                ordering: a,
                global_index: b,
            }
            | Atomic::GlobalAtomicSet {
                ordering: a,
                global_index: b,
            }
            | Atomic::GlobalAtomicRmwAdd {
                ordering: a,
                global_index: b,
            }
            | Atomic::GlobalAtomicRmwSub {
                ordering: a,
                global_index: b,
            }
            | Atomic::GlobalAtomicRmwAnd {
                ordering: a,
                global_index: b,
            }
            | Atomic::GlobalAtomicRmwOr {
                ordering: a,
                global_index: b,
            }
            | Atomic::GlobalAtomicRmwXor {
                ordering: a,
                global_index: b,
            }
            | Atomic::GlobalAtomicRmwXchg {
                ordering: a,
                global_index: b,
            }
            | Atomic::GlobalAtomicRmwCmpxchg {
                ordering: a,
                global_index: b,
            }
            | Atomic::TableAtomicGet {
                ordering: a,
                table_index: b,
            }
            | Atomic::TableAtomicSet {
                ordering: a,
                table_index: b,
            }
            | Atomic::TableAtomicRmwXchg {
                ordering: a,
                table_index: b,
            } => (a, b).encode(sink),
            Atomic::TableAtomicRmwCmpxchg {
                ordering: a,
                table_index: b,
            }
            | Atomic::ArrayAtomicGet {
                ordering: a,
                array_type_index: b,
            }
            | Atomic::ArrayAtomicGetS {
                ordering: a,
                array_type_index: b,
            }
            | Atomic::ArrayAtomicGetU {
                ordering: a,
                array_type_index: b,
            }
            | Atomic::ArrayAtomicSet {
                ordering: a,
                array_type_index: b,
            }
            | Atomic::ArrayAtomicRmwAdd {
                ordering: a,
                array_type_index: b,
            }
            | Atomic::ArrayAtomicRmwSub {
                ordering: a,
                array_type_index: b,
            }
            | Atomic::ArrayAtomicRmwAnd {
                ordering: a,
                array_type_index: b,
            }
            | Atomic::ArrayAtomicRmwOr {
                ordering: a,
                array_type_index: b,
            }
            | Atomic::ArrayAtomicRmwXor {
                ordering: a,
                array_type_index: b,
            }
            | Atomic::ArrayAtomicRmwXchg {
                ordering: a,
                array_type_index: b,
            }
            | Atomic::ArrayAtomicRmwCmpxchg {
                ordering: a,
                array_type_index: b,
            } => (a, b).encode(sink),
            Atomic::StructAtomicGet {
                ordering: a,
                struct_type_index: b,
                field_index: c,
            }
            | Atomic::StructAtomicGetS {
                ordering: a,
                struct_type_index: b,
                field_index: c,
            }
            | Atomic::StructAtomicGetU {
                ordering: a,
                struct_type_index: b,
                field_index: c,
            }
            | Atomic::StructAtomicSet {
                ordering: a,
                struct_type_index: b,
                field_index: c,
            }
            | Atomic::StructAtomicRmwAdd {
                ordering: a,
                struct_type_index: b,
                field_index: c,
            }
            | Atomic::StructAtomicRmwSub {
                ordering: a,
                struct_type_index: b,
                field_index: c,
            }
            | Atomic::StructAtomicRmwAnd {
                ordering: a,
                struct_type_index: b,
                field_index: c,
            }
            | Atomic::StructAtomicRmwOr {
                ordering: a,
                struct_type_index: b,
                field_index: c,
            }
            | Atomic::StructAtomicRmwXor {
                ordering: a,
                struct_type_index: b,
                field_index: c,
            }
            | Atomic::StructAtomicRmwXchg {
                ordering: a,
                struct_type_index: b,
                field_index: c,
            }
            | Atomic::StructAtomicRmwCmpxchg {
                ordering: a,
                struct_type_index: b,
                field_index: c,
            } => (a, b, c).encode(sink),
            Atomic::Pause | Atomic::RefI31Shared => Ok(()),
        }
    }
}

/// The instructions without fields as constants of `Instruction`.
impl Instruction<'static> {
    /// `pause` (opcode 0xFE 4), an instruction of the shared-everything threads proposal that hints
    /// that the thread waits in a loop.
    pub const Pause: Self = Instruction::Atomic(Atomic::Pause);

    /// `ref.i31_shared` (opcode 0xFE 114), an instruction of the shared-everything threads proposal
    /// that makes a reference of the lower 31 bits of an integer.
    pub const RefI31Shared: Self = Instruction::Atomic(Atomic::RefI31Shared);
}
