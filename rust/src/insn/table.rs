// Written by tools/to-rust from crates/wasm_insn/src/table.rt: change that.
// The opcode table: the shape of each opcode.

use crate::insn::op::{Op, Shape};

/// Consecutive opcodes after a prefix that have one shape: the first number, the last one, and the
/// shape.
#[derive(Clone, Copy)]
pub(crate) struct Run(u32, u32, Shape);

/// The shapes of one-byte opcodes, indexed by opcode, eight a line.
static ONE_BYTE: [Option<Shape>; 256] = [
    Some(Shape::Nothing), Some(Shape::Nothing), Some(Shape::B), Some(Shape::B), Some(Shape::B), Some(Shape::Nothing), Some(Shape::B), Some(Shape::U),
    Some(Shape::U), Some(Shape::U), Some(Shape::Nothing), Some(Shape::Nothing), Some(Shape::U), Some(Shape::U), Some(Shape::Bt), Some(Shape::Nothing),
    Some(Shape::U), Some(Shape::Uu), Some(Shape::U), Some(Shape::Uu), Some(Shape::U), Some(Shape::U), None, None,
    Some(Shape::U), Some(Shape::Nothing), Some(Shape::Nothing), Some(Shape::Nothing), Some(Shape::Ts), None, None, Some(Shape::Tt),
    Some(Shape::U), Some(Shape::U), Some(Shape::U), Some(Shape::U), Some(Shape::U), Some(Shape::U), Some(Shape::U), None,
    Some(Shape::M), Some(Shape::M), Some(Shape::M), Some(Shape::M), Some(Shape::M), Some(Shape::M), Some(Shape::M), Some(Shape::M),
    Some(Shape::M), Some(Shape::M), Some(Shape::M), Some(Shape::M), Some(Shape::M), Some(Shape::M), Some(Shape::M), Some(Shape::M),
    Some(Shape::M), Some(Shape::M), Some(Shape::M), Some(Shape::M), Some(Shape::M), Some(Shape::M), Some(Shape::M), Some(Shape::U),
    Some(Shape::U), Some(Shape::C32), Some(Shape::C64), Some(Shape::F32), Some(Shape::F64), Some(Shape::Nothing), Some(Shape::Nothing), Some(Shape::Nothing),
    Some(Shape::Nothing), Some(Shape::Nothing), Some(Shape::Nothing), Some(Shape::Nothing), Some(Shape::Nothing), Some(Shape::Nothing), Some(Shape::Nothing), Some(Shape::Nothing),
    Some(Shape::Nothing), Some(Shape::Nothing), Some(Shape::Nothing), Some(Shape::Nothing), Some(Shape::Nothing), Some(Shape::Nothing), Some(Shape::Nothing), Some(Shape::Nothing),
    Some(Shape::Nothing), Some(Shape::Nothing), Some(Shape::Nothing), Some(Shape::Nothing), Some(Shape::Nothing), Some(Shape::Nothing), Some(Shape::Nothing), Some(Shape::Nothing),
    Some(Shape::Nothing), Some(Shape::Nothing), Some(Shape::Nothing), Some(Shape::Nothing), Some(Shape::Nothing), Some(Shape::Nothing), Some(Shape::Nothing), Some(Shape::Nothing),
    Some(Shape::Nothing), Some(Shape::Nothing), Some(Shape::Nothing), Some(Shape::Nothing), Some(Shape::Nothing), Some(Shape::Nothing), Some(Shape::Nothing), Some(Shape::Nothing),
    Some(Shape::Nothing), Some(Shape::Nothing), Some(Shape::Nothing), Some(Shape::Nothing), Some(Shape::Nothing), Some(Shape::Nothing), Some(Shape::Nothing), Some(Shape::Nothing),
    Some(Shape::Nothing), Some(Shape::Nothing), Some(Shape::Nothing), Some(Shape::Nothing), Some(Shape::Nothing), Some(Shape::Nothing), Some(Shape::Nothing), Some(Shape::Nothing),
    Some(Shape::Nothing), Some(Shape::Nothing), Some(Shape::Nothing), Some(Shape::Nothing), Some(Shape::Nothing), Some(Shape::Nothing), Some(Shape::Nothing), Some(Shape::Nothing),
    Some(Shape::Nothing), Some(Shape::Nothing), Some(Shape::Nothing), Some(Shape::Nothing), Some(Shape::Nothing), Some(Shape::Nothing), Some(Shape::Nothing), Some(Shape::Nothing),
    Some(Shape::Nothing), Some(Shape::Nothing), Some(Shape::Nothing), Some(Shape::Nothing), Some(Shape::Nothing), Some(Shape::Nothing), Some(Shape::Nothing), Some(Shape::Nothing),
    Some(Shape::Nothing), Some(Shape::Nothing), Some(Shape::Nothing), Some(Shape::Nothing), Some(Shape::Nothing), Some(Shape::Nothing), Some(Shape::Nothing), Some(Shape::Nothing),
    Some(Shape::Nothing), Some(Shape::Nothing), Some(Shape::Nothing), Some(Shape::Nothing), Some(Shape::Nothing), Some(Shape::Nothing), Some(Shape::Nothing), Some(Shape::Nothing),
    Some(Shape::Nothing), Some(Shape::Nothing), Some(Shape::Nothing), Some(Shape::Nothing), Some(Shape::Nothing), Some(Shape::Nothing), Some(Shape::Nothing), Some(Shape::Nothing),
    Some(Shape::Nothing), Some(Shape::Nothing), Some(Shape::Nothing), Some(Shape::Nothing), Some(Shape::Nothing), Some(Shape::Nothing), Some(Shape::Nothing), Some(Shape::Nothing),
    Some(Shape::Nothing), Some(Shape::Nothing), Some(Shape::Nothing), Some(Shape::Nothing), Some(Shape::Nothing), Some(Shape::Nothing), Some(Shape::Nothing), Some(Shape::Nothing),
    Some(Shape::Nothing), Some(Shape::Nothing), Some(Shape::Nothing), Some(Shape::Nothing), Some(Shape::Nothing), None, None, None,
    None, None, None, None, None, None, None, None,
    Some(Shape::H), Some(Shape::Nothing), Some(Shape::U), Some(Shape::Nothing), Some(Shape::Nothing), Some(Shape::U), Some(Shape::U), None,
    None, None, None, None, None, None, None, None,
    Some(Shape::U), Some(Shape::Uu), Some(Shape::U), Some(Shape::Uh), Some(Shape::Uuh), Some(Shape::Uh), Some(Shape::Uu), None,
    None, None, None, None, None, None, None, None,
    None, None, None, None, None, None, None, None,
    None, None, None, None, None, None, None, None,
];

/// The opcodes after the prefix FB.
static AFTER_FB: [Run; 14] = [
    Run(0, 1, Shape::U),
    Run(2, 5, Shape::Uu),
    Run(6, 7, Shape::U),
    Run(8, 10, Shape::Uu),
    Run(11, 14, Shape::U),
    Run(15, 15, Shape::Nothing),
    Run(16, 16, Shape::U),
    Run(17, 19, Shape::Uu),
    Run(20, 23, Shape::H),
    Run(24, 25, Shape::K),
    Run(26, 30, Shape::Nothing),
    Run(32, 34, Shape::U),
    Run(35, 36, Shape::H),
    Run(37, 38, Shape::K),
];

/// The opcodes after the prefix FC.
static AFTER_FC: [Run; 10] = [
    Run(0, 7, Shape::Nothing),
    Run(8, 8, Shape::Uu),
    Run(9, 9, Shape::U),
    Run(10, 10, Shape::Uu),
    Run(11, 11, Shape::U),
    Run(12, 12, Shape::Uu),
    Run(13, 13, Shape::U),
    Run(14, 14, Shape::Uu),
    Run(15, 18, Shape::U),
    Run(19, 22, Shape::Nothing),
];

/// The opcodes after the prefix FD.
static AFTER_FD: [Run; 21] = [
    Run(0, 11, Shape::M),
    Run(12, 12, Shape::V),
    Run(13, 13, Shape::Ls),
    Run(14, 20, Shape::Nothing),
    Run(21, 34, Shape::L),
    Run(35, 83, Shape::Nothing),
    Run(84, 91, Shape::Ml),
    Run(92, 93, Shape::M),
    Run(94, 153, Shape::Nothing),
    Run(155, 161, Shape::Nothing),
    Run(163, 164, Shape::Nothing),
    Run(167, 174, Shape::Nothing),
    Run(177, 177, Shape::Nothing),
    Run(181, 186, Shape::Nothing),
    Run(188, 193, Shape::Nothing),
    Run(195, 196, Shape::Nothing),
    Run(199, 206, Shape::Nothing),
    Run(209, 209, Shape::Nothing),
    Run(213, 225, Shape::Nothing),
    Run(227, 237, Shape::Nothing),
    Run(239, 275, Shape::Nothing),
];

/// The opcodes after the prefix FE.
static AFTER_FE: [Run; 8] = [
    Run(0x00, 0x02, Shape::M),
    Run(0x03, 0x03, Shape::O),
    Run(0x04, 0x04, Shape::Nothing),
    Run(0x10, 0x4E, Shape::M),
    Run(0x4F, 0x5B, Shape::Ou),
    Run(0x5C, 0x66, Shape::Ouu),
    Run(0x67, 0x71, Shape::Ou),
    Run(0x72, 0x72, Shape::Nothing),
];

/// Returns the shape of the opcode with this number, or `None` if no run contains it.
#[inline(never)]
fn find_shape(runs: &[Run], number: u32) -> Option<Shape> {
    runs.iter()
        .find(|run| run.0 <= number && number <= run.1)
        .map(|run| run.2)
}

/// Returns the shape of the one-byte opcode, or `None` if there is no such opcode.
#[inline]
pub(crate) fn byte_shape(byte: u8) -> Option<Shape> {
    ONE_BYTE[usize::from(byte)]
}

impl Op {
    /// Returns the shape of the opcode, or `None` if the table has no row for it.
    ///
    /// # Proved
    ///
    /// ```text
    /// ensures { result ≡ shape_of table self }
    /// ```
    ///
    /// Definitions: [`shape_of`](crate::definitions::insn::plain::shape_of), [`table`](crate::definitions::insn::table::table). [How to read clauses](crate::definitions).
    #[inline]
    pub fn shape(self) -> Option<Shape> {
        match self {
            Op::Byte(byte) => byte_shape(byte),
            Op::Prefixed(0xFB, number) => find_shape(&AFTER_FB, number),
            Op::Prefixed(0xFC, number) => find_shape(&AFTER_FC, number),
            Op::Prefixed(0xFD, number) => find_shape(&AFTER_FD, number),
            Op::Prefixed(0xFE, number) => find_shape(&AFTER_FE, number),
            Op::Prefixed(_, _) => None,
        }
    }
}
