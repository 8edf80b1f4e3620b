// Written by tools/to-rust from crates/wasm_insn/src/laws.rt: change that.
//! Laws about opcodes and instructions, for all byte sequences: each function does nothing, and its
//! clauses are the law.
//!
//! `Unambiguous F` says that the format `F` is unambiguous: at most one value decodes from the
//! front of any bytes, with minimal and with padded numbers. A value has at most one minimal
//! encoding. `UnambiguousWhole F` says the same of a format that occupies all of the bytes.
//! `HasMinimalEncodings F encodable encoding` says that `encoding` is the minimal encoding of each
//! value that fits.

pub use self::padded as wide;
use crate::insn::instruction::Instruction;
use crate::insn::ranged::arguments_ranged;
use crate::alloc::Allocator;

/// The format of opcodes is unambiguous. The opcode table has 628 rows in ascending order; one pair
/// of neighbours shares an opcode. No opcode's bytes are a prefix of another's.
///
/// # Proved
///
/// - `unique`: A format whose encodings determine their own end is unambiguous in every mode, with encodings as `HasEncodings` states.
/// - `encodings`: Each value that fits has a minimal encoding, which the last function in the clause returns.
/// - `table`: The table has 628 rows on 627 opcodes, in ascending order. Two neighbours share the opcode 1C, and no others share one.
/// - `apart`: The opcodes are prefix-free: if two encodings begin the same bytes, they are of the same opcode.
///
/// ```text
/// ensures unique { Unambiguous opcode }
/// ensures encodings { HasMinimalEncodings opcode IsOpcode op_encoding }
/// ensures table { IsOpcodeTable table }
/// ensures apart { BeginsNoOther }
/// ```
///
/// Definitions: [`Unambiguous`](crate::definitions::base::decoding::Unambiguous), [`opcode`](crate::definitions::insn::plain::opcode), [`HasMinimalEncodings`](crate::definitions::base::decoding::HasMinimalEncodings), [`IsOpcode`](crate::definitions::insn::plain::IsOpcode), [`op_encoding`](crate::definitions::insn::opcodes::op_encoding), [`table`](crate::definitions::insn::table::table), [`IsOpcodeTable`](crate::definitions::insn::table::IsOpcodeTable), [`BeginsNoOther`](crate::definitions::insn::table::BeginsNoOther). [How to read clauses](crate::definitions).
pub fn opcodes() {}

/// The opcode of each instruction has a row in the table, and the instruction's immediates are of
/// the types of that row's shape.
///
/// # Proved
///
/// The opcode is in the table, and the instruction has an immediate for each of its shape.
///
/// ```text
/// ensures { (i : Instruction A) → IsRow table (row_of i) }
/// ```
///
/// Definitions: [`IsRow`](crate::definitions::insn::table::IsRow), [`table`](crate::definitions::insn::table::table), [`row_of`](crate::definitions::insn::instructions::row_of). [How to read clauses](crate::definitions).
pub fn rows<A: Allocator>() {}

/// The cases of the enums and the rows of the table correspond one to one: in the table's order,
/// they have its opcodes and the immediates of its shapes. Each instruction is one of the cases,
/// with its own fields.
///
/// # Proved
///
/// - `rows`: The cases are the rows of the table in order: each has the opcode of its row, and the immediates of its shape.
/// - `each`: The instruction is one of the cases, with some fields.
///
/// ```text
/// ensures rows { (given : Given A) → AreRows (all_cases given) table }
/// ensures each { (i : Instruction A) → IsCase i }
/// ```
///
/// Definitions: [`Given`](crate::definitions::insn::cases::Given), [`AreRows`](crate::definitions::insn::cases::AreRows), [`all_cases`](crate::definitions::insn::cases::all_cases), [`table`](crate::definitions::insn::table::table), [`IsCase`](crate::definitions::insn::cases::IsCase). [How to read clauses](crate::definitions).
pub fn cases<A: Allocator>() {}

/// The format of instructions over the table is unambiguous. The encoding of a well-formed
/// instruction decodes to its normal form alone. Two well-formed instructions have the same
/// encoding exactly if they have the same normal form.
///
/// # Proved
///
/// - `unique`: A format whose encodings determine their own end is unambiguous in every mode, with encodings as `HasEncodings` states.
/// - `plain`: The encoding of a well-formed instruction decodes to its normal form alone.
/// - `one_encoding`: Two well-formed instructions have the same encoding exactly if they have the same normal form.
///
/// ```text
/// ensures unique { Unambiguous (instruction table) }
/// ensures plain { (i : Instruction A) → DecodesInstruction i }
/// ensures one_encoding { (i j : Instruction A) → HaveOneEncoding i j }
/// ```
///
/// Definitions: [`Unambiguous`](crate::definitions::base::decoding::Unambiguous), [`instruction`](crate::definitions::insn::plain::instruction), [`table`](crate::definitions::insn::table::table), [`DecodesInstruction`](crate::definitions::insn::instructions::DecodesInstruction), [`HaveOneEncoding`](crate::definitions::insn::instructions::HaveOneEncoding). [How to read clauses](crate::definitions).
pub fn instructions<A: Allocator>() {}

/// With padded numbers the formats are unambiguous too.
///
/// # Proved
///
/// - `opcode`, `instruction`: With padding allowed a format is unambiguous, and it keeps every minimal encoding.
/// - `list`: As `UnambiguousPadded`, for a format that takes all of the bytes.
///
/// ```text
/// ensures opcode { UnambiguousPadded opcode }
/// ensures instruction { UnambiguousPadded (instruction table) }
/// ensures list { UnambiguousWholePadded (members (instruction table)) }
/// ```
///
/// Definitions: [`opcode`](crate::definitions::insn::plain::opcode), [`UnambiguousPadded`](crate::definitions::base::decoding::UnambiguousPadded), [`instruction`](crate::definitions::insn::plain::instruction), [`table`](crate::definitions::insn::table::table), [`UnambiguousWholePadded`](crate::definitions::base::decoding::UnambiguousWholePadded), [`members`](crate::definitions::base::formats::members). [How to read clauses](crate::definitions).
pub fn padded() {}

/// Lists of instructions that occupy all of the bytes are unambiguous.
///
/// # Proved
///
/// A format that takes all of the bytes is unambiguous in every mode, with encodings as `HasEncodings` states.
///
/// ```text
/// ensures { UnambiguousWhole (members (instruction table)) }
/// ```
///
/// Definitions: [`UnambiguousWhole`](crate::definitions::base::decoding::UnambiguousWhole), [`members`](crate::definitions::base::formats::members), [`instruction`](crate::definitions::insn::plain::instruction), [`table`](crate::definitions::insn::table::table). [How to read clauses](crate::definitions).
pub fn lists() {}

/// An instruction is well-formed if its alignments are below 16 and each of its lists has at most
/// 4294967295 members. A call that has encoded it promises the latter.
///
/// # Proved
///
/// If its alignments are below 16 and its lists fit, the instruction is well-formed.
///
/// ```text
/// ensures { IsWellFormedWhereAligned instruction.now }
/// ```
///
/// Definitions: [`IsWellFormedWhereAligned`](crate::definitions::insn::instructions::IsWellFormedWhereAligned). [How to read clauses](crate::definitions).
pub fn plain_instruction<A: Allocator>(instruction: &Instruction<'_, A>) {
    arguments_ranged(instruction);
}

/// The same holds for each instruction of a list.
///
/// # Proved
///
/// ```text
/// ensures { All IsWellFormedWhereAligned instructions.now }
/// ```
///
/// Definitions: [`IsWellFormedWhereAligned`](crate::definitions::insn::instructions::IsWellFormedWhereAligned). [How to read clauses](crate::definitions).
pub fn plain_instructions<A: Allocator>(instructions: &[Instruction<'_, A>]) {
    for instruction in instructions {
        plain_instruction(instruction);
    }
}
