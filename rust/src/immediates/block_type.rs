// Written by tools/to-rust from crates/wasm_immediates/src/block_type.rt: change that.
// The types of blocks.

use crate::vec::Sink;
use crate::alloc::Allocator;
use crate::base::{DecodeError, Effect, Encode, EncodeIn, Grammar, Layout, Readable, Result, ValType, Walk, read_index, read_val_after, walk_in};

/// The type of a block: an immediate of `block`, `loop`, `if` and `try_table`, as of
/// [`InstructionSink::block`](crate::InstructionSink::block).
///
/// Core specification, Instructions, Control Instructions.
///
/// # Examples
///
/// ```
/// use dolzhytik::{BlockType, Encode, ValType};
///
/// let mut bytes = Vec::new();
/// BlockType::Empty.encode(&mut bytes);
/// BlockType::Result(ValType::I32).encode(&mut bytes);
/// BlockType::FunctionType(64).encode(&mut bytes);
/// // Empty: 40. The value type i32: 7F. An index is signed LEB128: 64 is C0 00.
/// assert_eq!(bytes, [0x40, 0x7F, 0xC0, 0x00]);
/// ```
#[derive(Clone, Copy, Debug)]
pub enum BlockType {
    /// No parameters and no results.
    Empty,
    /// No parameters, and one result of this type.
    Result(ValType),
    /// The parameters and results of the function type of this index.
    FunctionType(u32),
}

/// Encodes the empty type as 0x40, a result as its value type, and an index as a signed number.
///
/// # Defined
///
/// ```text
/// encoding = { block_encoding }
/// encodable = { λ _. ⊤ }
/// ```
///
/// Definitions: [`block_encoding`](crate::definitions::immediates::immediates::block_encoding). [How to read clauses](crate::definitions).
impl Encode for BlockType {
    fn encode<A: Sink>(&self, sink: &mut A) -> Result<()> {
        match *self {
            BlockType::Empty => 0x40u8.encode(sink),
            BlockType::Result(ty) => ty.encode(sink),
            BlockType::FunctionType(index) => i64::from(index).encode(sink),
        }
    }
}

/// Decodes a block type. Out of line, for those with a type.
#[inline(never)]
fn read_any_block<'a, A: Allocator + Copy, G: Grammar>(
    bytes: &'a [u8],
    alloc: A,
) -> Result<(BlockType, &'a [u8]), DecodeError> {
    let (tag, rest) = <u8 as Readable<'a, A, G>>::read(bytes, alloc)?;
    match tag {
        0x40 => Ok((BlockType::Empty, rest)),
        0x41..=0x7F => {
            let (ty, rest) = read_val_after::<A, G>(tag, rest, alloc)?;
            Ok((BlockType::Result(ty), rest))
        }
        _ => {
            let (index, rest) = read_index::<G>(bytes)?;
            Ok((BlockType::FunctionType(index), rest))
        }
    }
}

/// # Defined
///
/// ```text
/// Value = { BlockModel }
/// format = { block_type }
/// view = { λ b. b }
/// ```
///
/// Definitions: [`block_type`](crate::definitions::immediates::immediate_formats::block_type). [How to read clauses](crate::definitions).
impl Layout for BlockType {
    fn laws() {}
}

/// # Defined
///
/// ```text
/// may_allocate = { ⊥ }
/// ```
///
/// [How to read clauses](crate::definitions).
impl<'a, A: Allocator + Copy, G: Grammar> Readable<'a, A, G> for BlockType {
    #[inline]
    fn read(bytes: &'a [u8], alloc: A) -> Result<(BlockType, &'a [u8]), DecodeError> {
        let (tag, rest) = <u8 as Readable<'a, A, G>>::read(bytes, alloc)?;
        if tag == 0x40 {
            return Ok((BlockType::Empty, rest));
        }
        read_any_block::<A, G>(bytes, alloc)
    }
}

/// # Defined
///
/// ```text
/// encoding_in = { block_encoding_in G.grammar }
/// ```
///
/// Definitions: [`block_encoding_in`](crate::definitions::immediates::immediates::block_encoding_in). [How to read clauses](crate::definitions).
impl<G: Grammar> EncodeIn<G> for BlockType {
    fn encode_in<A: Sink>(&self, sink: &mut A) -> Result<()> {
        match self {
            BlockType::Result(ty) => <ValType as EncodeIn<G>>::encode_in(ty, sink),
            _ => self.encode(sink),
        }
    }

    fn minimal_in() {}
}

impl<G: Grammar> Walk<G> for BlockType {
    #[inline]
    fn walk<'a, A: Allocator + Copy, E: Effect>(
        bytes: &'a [u8],
        alloc: A,
        effect: &mut E,
    ) -> Result<&'a [u8], DecodeError> {
        walk_in::<BlockType, A, G, _>(bytes, alloc, effect)
    }
}
