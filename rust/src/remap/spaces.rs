// Written by tools/to-rust from crates/wasm_remap/src/spaces.rt: change that.
// Index spaces, and those of the numbers among the immediates of each opcode.

use crate::insn::Op;

/// An index space of a module.
#[derive(Clone, Copy, PartialEq, Eq, Hash, Debug)]
#[non_exhaustive]
pub enum IndexSpace {
    /// Functions, imported ones first.
    Functions,
    /// Types: each type of a recursion group has an index.
    Types,
    /// Tables, imported ones first.
    Tables,
    /// Memories, imported ones first.
    Memories,
    /// Globals, imported ones first.
    Globals,
    /// Tags, imported ones first.
    Tags,
    /// Element segments.
    Elements,
    /// Data segments.
    Data,
}

/// Consecutive opcodes, from `.0` to `.1`, and the index spaces of their first and second number.
struct Run(u32, u32, Option<IndexSpace>, Option<IndexSpace>);

/// ONE_BYTE: opcodes of one byte.
static ONE_BYTE: [Run; 17] = [
    Run(0x07, 0x08, Some(IndexSpace::Tags), None),
    Run(0x10, 0x10, Some(IndexSpace::Functions), None),
    Run(
        0x11,
        0x11,
        Some(IndexSpace::Types),
        Some(IndexSpace::Tables),
    ),
    Run(0x12, 0x12, Some(IndexSpace::Functions), None),
    Run(
        0x13,
        0x13,
        Some(IndexSpace::Types),
        Some(IndexSpace::Tables),
    ),
    Run(0x14, 0x15, Some(IndexSpace::Types), None),
    Run(0x23, 0x24, Some(IndexSpace::Globals), None),
    Run(0x25, 0x26, Some(IndexSpace::Tables), None),
    Run(0x3F, 0x40, Some(IndexSpace::Memories), None),
    Run(0xD2, 0xD2, Some(IndexSpace::Functions), None),
    Run(0xE0, 0xE0, Some(IndexSpace::Types), None),
    Run(0xE1, 0xE1, Some(IndexSpace::Types), Some(IndexSpace::Types)),
    Run(0xE2, 0xE2, Some(IndexSpace::Tags), None),
    Run(0xE3, 0xE3, Some(IndexSpace::Types), None),
    Run(0xE4, 0xE4, Some(IndexSpace::Types), Some(IndexSpace::Tags)),
    Run(0xE5, 0xE5, Some(IndexSpace::Types), None),
    Run(0xE6, 0xE6, Some(IndexSpace::Types), Some(IndexSpace::Tags)),
];

/// AFTER_FB: opcodes after the prefix FB.
static AFTER_FB: [Run; 9] = [
    Run(0, 8, Some(IndexSpace::Types), None),
    Run(9, 9, Some(IndexSpace::Types), Some(IndexSpace::Data)),
    Run(10, 10, Some(IndexSpace::Types), Some(IndexSpace::Elements)),
    Run(11, 14, Some(IndexSpace::Types), None),
    Run(16, 16, Some(IndexSpace::Types), None),
    Run(17, 17, Some(IndexSpace::Types), Some(IndexSpace::Types)),
    Run(18, 18, Some(IndexSpace::Types), Some(IndexSpace::Data)),
    Run(19, 19, Some(IndexSpace::Types), Some(IndexSpace::Elements)),
    Run(32, 34, Some(IndexSpace::Types), None),
];

/// AFTER_FC: opcodes after the prefix FC.
static AFTER_FC: [Run; 9] = [
    Run(8, 8, Some(IndexSpace::Data), Some(IndexSpace::Memories)),
    Run(9, 9, Some(IndexSpace::Data), None),
    Run(
        10,
        10,
        Some(IndexSpace::Memories),
        Some(IndexSpace::Memories),
    ),
    Run(11, 11, Some(IndexSpace::Memories), None),
    Run(12, 12, Some(IndexSpace::Elements), Some(IndexSpace::Tables)),
    Run(13, 13, Some(IndexSpace::Elements), None),
    Run(14, 14, Some(IndexSpace::Tables), Some(IndexSpace::Tables)),
    Run(15, 17, Some(IndexSpace::Tables), None),
    Run(18, 18, Some(IndexSpace::Memories), None),
];

/// AFTER_FE: opcodes after the prefix FE.
static AFTER_FE: [Run; 3] = [
    Run(0x4F, 0x57, Some(IndexSpace::Globals), None),
    Run(0x58, 0x5B, Some(IndexSpace::Tables), None),
    Run(0x5C, 0x71, Some(IndexSpace::Types), None),
];

/// Returns the index spaces of the numbers of this opcode, by the runs of its prefix.
fn find_spaces(runs: &[Run], number: u32) -> Option<(Option<IndexSpace>, Option<IndexSpace>)> {
    runs.iter()
        .find(|run| run.0 <= number && number <= run.1)
        .map(|run| (run.2, run.3))
}

/// Returns the index spaces of the first and the second number among the immediates of an opcode,
/// in the order of their encoding.
///
/// It is `None` if there is no such number, and if it is a label, a local, a field or a length.
/// Immediates of other types name their index spaces themselves: block types, heap types, value
/// types, memory arguments, and the clauses of `try_table` and `resume`.
///
/// # Proved
///
/// ```text
/// ensures { result ≡ spaces_of_op op }
/// ```
///
/// Definitions: [`spaces_of_op`](crate::definitions::remap::spaces::spaces_of). [How to read clauses](crate::definitions).
pub fn spaces_of(op: Op) -> (Option<IndexSpace>, Option<IndexSpace>) {
    let found = match op {
        Op::Byte(byte) => find_spaces(&ONE_BYTE, u32::from(byte)),
        Op::Prefixed(0xFB, number) => find_spaces(&AFTER_FB, number),
        Op::Prefixed(0xFC, number) => find_spaces(&AFTER_FC, number),
        Op::Prefixed(0xFE, number) => find_spaces(&AFTER_FE, number),
        Op::Prefixed(_, _) => None,
    };
    match found {
        Some(spaces) => spaces,
        None => (None, None),
    }
}
