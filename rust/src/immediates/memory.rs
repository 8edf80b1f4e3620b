// Written by tools/to-rust from crates/wasm_immediates/src/memory.rt: change that.
// Memory arguments: the immediates of instructions that access memory.

use crate::vec::Sink;
use crate::alloc::Allocator;
use core::default::Default;
use crate::base::{Canonical, DecodeError, Effect, Encode, Grammar, Layout, ReadFault, Readable, Result, Walk, read_optional, walk_value};

/// The index of a lane of a vector, which calls such as
/// [`InstructionSink::i8x16_replace_lane`](crate::InstructionSink::i8x16_replace_lane) take. It
/// is encoded as one byte.
///
/// # Examples
///
/// ```
/// use dolzhytik::InstructionSink;
///
/// let mut bytes = Vec::new();
/// InstructionSink::new(&mut bytes).i32x4_extract_lane(3);
/// // The opcode, FD 27, and the lane.
/// assert_eq!(bytes, [0xFD, 27, 3]);
/// ```
pub type Lane = u8;

/// A memory argument: the memory, offset and alignment of a load or a store.
///
/// Calls such as [`InstructionSink::i32_load`](crate::InstructionSink::i32_load) take it.
/// `align` is the exponent: 2 for four bytes. Core specification, Instructions, Memory
/// Instructions.
///
/// # Examples
///
/// ```
/// use dolzhytik::{InstructionSink, MemArg, MemArgTarget};
///
/// let in_memory = |index| MemArg {
///     offset: 4,
///     align: 2,
///     target: MemArgTarget::Memory(index),
///     ordering: None,
/// };
/// let mut bytes = Vec::new();
/// InstructionSink::new(&mut bytes).i32_load(in_memory(0)).i32_load(in_memory(1));
/// // i32.load: 28. Memory 0: the alignment, 2, and the offset, 4. Another memory: bit 6 of the
/// // alignment, 42, and its index, 1, before the offset.
/// assert_eq!(bytes, [0x28, 2, 4, 0x28, 0x42, 1, 4]);
/// ```
#[derive(Clone, Copy, Debug)]
pub struct MemArg {
    /// The constant that is added to the address, in bytes.
    pub offset: u64,
    /// The expected alignment, as an exponent of 2.
    pub align: u32,
    /// The memory, or the array type.
    pub target: MemArgTarget,
    /// The ordering of an atomic access, if it differs from the default of the instruction.
    pub ordering: Option<MemArgOrdering>,
}

/// The memory or the array type of an access: a field of [`MemArg`](crate::MemArg).
///
/// # Examples
///
/// ```
/// use dolzhytik::{Encode, MemArg, MemArgTarget};
///
/// let target = MemArgTarget::Memory(1);
/// let mut bytes = Vec::new();
/// MemArg { offset: 4, align: 2, target, ordering: None }.encode(&mut bytes);
/// // Bit 6 of the alignment says that the index of the memory follows.
/// assert_eq!(bytes, [0x42, 1, 4]);
/// ```
#[derive(Clone, Copy, PartialEq, Eq, Hash, Debug)]
pub enum MemArgTarget {
    /// The memory of this index.
    Memory(u32),
    /// An array of the type of this index.
    Array(u32),
}

/// The ordering of an atomic access: a field of [`MemArg`](crate::MemArg).
///
/// The shared-everything threads proposal defines it.
///
/// # Examples
///
/// ```
/// use dolzhytik::{Encode, MemArgOrdering, Ordering};
///
/// let mut bytes = Vec::new();
/// MemArgOrdering::Op(Ordering::AcqRel).encode(&mut bytes);
/// MemArgOrdering::Rmw(Ordering::AcqRel).encode(&mut bytes);
/// // A load or store: 01. A read-modify-write instruction: 11.
/// assert_eq!(bytes, [0x01, 0x11]);
/// ```
#[derive(Clone, Copy, PartialEq, Eq, Hash, Debug)]
pub enum MemArgOrdering {
    /// The ordering of a load or a store.
    Op(Ordering),
    /// The ordering of a read-modify-write instruction.
    Rmw(Ordering),
}

/// The ordering of an atomic instruction, which calls such as
/// [`InstructionSink::atomic_fence`](crate::InstructionSink::atomic_fence) take.
///
/// It is not [`core::cmp::Ordering`]. The shared-everything threads proposal defines it.
///
/// # Examples
///
/// ```
/// use dolzhytik::{Encode, Ordering};
///
/// let mut bytes = Vec::new();
/// Ordering::SeqCst.encode(&mut bytes);
/// Ordering::AcqRel.encode(&mut bytes);
/// // 00 and 01.
/// assert_eq!(bytes, [0x00, 0x01]);
/// ```
#[derive(Clone, Copy, PartialEq, Eq, Hash, Debug)]
pub enum Ordering {
    /// Acquire and release: 01.
    AcqRel = 0x01,
    /// Sequential consistency: 00.
    SeqCst = 0x00,
}

/// The default is memory 0.
///
/// # Defined
///
/// ```text
/// is_default = { λ target. target ≡ targets.Memory 0 }
/// ```
///
/// [How to read clauses](crate::definitions).
impl Default for MemArgTarget {
    fn default() -> Self {
        Self::Memory(0)
    }
}

impl MemArgTarget {
    /// Returns the index in the encoding, or `None` for memory 0, which has none.
    #[inline]
    fn index(self) -> Option<u32> {
        match self {
            MemArgTarget::Memory(0) => None,
            MemArgTarget::Memory(index) => Some(index),
            MemArgTarget::Array(index) => Some(index),
        }
    }
}

/// Encodes the ordering as one byte.
///
/// # Defined
///
/// ```text
/// encoding = { λ ordering. ordering_code ordering ∷ [] }
/// encodable = { λ _. ⊤ }
/// ```
///
/// Definitions: [`ordering_code`](crate::definitions::immediates::immediates::ordering_code). [How to read clauses](crate::definitions).
impl Encode for Ordering {
    fn encode<A: Sink>(&self, sink: &mut A) -> Result<()> {
        (*self as u8).encode(sink)
    }
}

/// Encodes the ordering as one byte. `SeqCst` has the same byte for both kinds of access.
///
/// # Defined
///
/// ```text
/// encoding = { λ ordering. mem_ordering_code ordering ∷ [] }
/// encodable = { λ _. ⊤ }
/// ```
///
/// Definitions: [`mem_ordering_code`](crate::definitions::immediates::immediates::mem_ordering_code). [How to read clauses](crate::definitions).
impl Encode for MemArgOrdering {
    fn encode<A: Sink>(&self, sink: &mut A) -> Result<()> {
        let byte: u8 = match *self {
            MemArgOrdering::Op(Ordering::SeqCst) => 0x00,
            MemArgOrdering::Op(Ordering::AcqRel) => 0x01,
            MemArgOrdering::Rmw(Ordering::SeqCst) => 0x00,
            MemArgOrdering::Rmw(Ordering::AcqRel) => 0x11,
        };
        byte.encode(sink)
    }
}

impl MemArg {
    /// Returns the flags: the alignment, and a bit for each optional field that follows.
    #[inline]
    fn flags(self) -> u32 {
        let ordering = if self.ordering.is_some() { 0x10 } else { 0 };
        let target = match self.target {
            MemArgTarget::Memory(0) => 0,
            MemArgTarget::Memory(_) => 0x40,
            MemArgTarget::Array(_) => 0x20,
        };
        self.align | ordering | target
    }

    /// Appends all fields for which the flags have a bit.
    #[inline(never)]
    fn encode_all<A: Sink>(&self, sink: &mut A) -> Result<()> {
        let flags = self.flags();
        match (self.target.index(), self.ordering) {
            (None, None) => (flags, self.offset).encode(sink),
            (None, Some(ordering)) => (flags, ordering, self.offset).encode(sink),
            (Some(index), None) => (flags, index, self.offset).encode(sink),
            (Some(index), Some(ordering)) => (flags, index, (ordering, self.offset)).encode(sink),
        }
    }
}

/// Encodes the flags, the index and the ordering if their flags are set, and the offset. Most
/// arguments have memory 0 and no ordering; the others are encoded out of line.
///
/// # Defined
///
/// ```text
/// encoding = { mem_arg_encoding }
/// encodable = { λ _. ⊤ }
/// ```
///
/// Definitions: [`mem_arg_encoding`](crate::definitions::immediates::immediates::mem_arg_encoding). [How to read clauses](crate::definitions).
impl Encode for MemArg {
    #[inline(always)]
    fn encode<A: Sink>(&self, sink: &mut A) -> Result<()> {
        match (self.target, self.ordering) {
            (MemArgTarget::Memory(0), None) => encode_plain(self.flags(), self.offset, sink),
            _ => self.encode_all(sink),
        }
    }
}

/// Appends flags and an offset. Most have one byte each, and are written after one test of the
/// spare capacity.
#[inline(always)]
fn encode_plain<A: Sink>(flags: u32, offset: u64, sink: &mut A) -> Result<()> {
    if flags < 0x80 && offset < 0x80 && sink.capacity() - sink.len() >= 2 {
        put_two_bytes(flags as u8, offset as u8, sink);
        return Ok(());
    }
    (flags, offset).encode(sink)
}

/// Appends two numbers of one byte each into spare capacity of the sink, which holds them.
#[inline]
fn put_two_bytes<A: Sink>(first: u8, second: u8, sink: &mut A) {
    sink.push_both_reserved([first, second]);
}

/// # Defined
///
/// ```text
/// Value = { OrderingModel }
/// format = { ordering_format }
/// view = { λ o. o }
/// ```
///
/// Definitions: [`ordering_format`](crate::definitions::immediates::immediate_formats::ordering_format). [How to read clauses](crate::definitions).
impl Layout for Ordering {
    fn laws() {}
}

/// # Defined
///
/// ```text
/// may_allocate = { ⊥ }
/// ```
///
/// [How to read clauses](crate::definitions).
impl<'a, A: Allocator + Copy, G: Grammar> Readable<'a, A, G> for Ordering {
    fn read(bytes: &'a [u8], alloc: A) -> Result<(Ordering, &'a [u8]), DecodeError> {
        let (byte, rest) = <u8 as Readable<'a, A, G>>::read(bytes, alloc)?;
        match byte {
            0x00 => Ok((Ordering::SeqCst, rest)),
            0x01 => Ok((Ordering::AcqRel, rest)),
            _ => Err(ReadFault::UnknownTag.just_before(rest)),
        }
    }
}

/// # Defined
///
/// ```text
/// Value = { MemOrderingModel }
/// format = { mem_ordering }
/// view = { λ o. o }
/// ```
///
/// Definitions: [`mem_ordering`](crate::definitions::immediates::immediate_formats::mem_ordering). [How to read clauses](crate::definitions).
impl Layout for MemArgOrdering {
    fn laws() {}
}

/// # Defined
///
/// ```text
/// may_allocate = { ⊥ }
/// ```
///
/// [How to read clauses](crate::definitions).
impl<'a, A: Allocator + Copy, G: Grammar> Readable<'a, A, G> for MemArgOrdering {
    fn read(bytes: &'a [u8], alloc: A) -> Result<(MemArgOrdering, &'a [u8]), DecodeError> {
        let (tag, rest) = <u8 as Readable<'a, A, G>>::read(bytes, alloc)?;
        match tag {
            0x00 => Ok((MemArgOrdering::Op(Ordering::SeqCst), rest)),
            0x01 => Ok((MemArgOrdering::Op(Ordering::AcqRel), rest)),
            0x11 => Ok((MemArgOrdering::Rmw(Ordering::AcqRel), rest)),
            _ => Err(ReadFault::UnknownTag.just_before(rest)),
        }
    }
}

/// Decodes the index of an array type or of a memory, as the flags select. Memory 0 has an index
/// in the standard's grammar alone.
fn read_target<'a, A: Allocator + Copy, G: Grammar>(
    array: bool,
    other: bool,
    bytes: &'a [u8],
    alloc: A,
) -> Result<(MemArgTarget, &'a [u8]), DecodeError> {
    match (array, other) {
        (false, false) => Ok((MemArgTarget::Memory(0), bytes)),
        (true, true) => Err(ReadFault::UnknownTag.just_before(bytes)),
        (true, false) => {
            let (index, rest) = <u32 as Readable<'a, A, G>>::read(bytes, alloc)?;
            Ok((MemArgTarget::Array(index), rest))
        }
        (false, true) => {
            let (index, rest) = <u32 as Readable<'a, A, G>>::read(bytes, alloc)?;
            if index == 0 && !G::is_standard() {
                return Err(ReadFault::UnknownTag.just_before(rest));
            }
            Ok((MemArgTarget::Memory(index), rest))
        }
    }
}

/// Decodes a memory argument with any flags. Out of line, since most have memory 0 and no ordering.
#[inline(never)]
fn read_any_memory<'a, A: Allocator + Copy, G: Grammar>(
    bytes: &'a [u8],
    alloc: A,
) -> Result<(MemArg, &'a [u8]), DecodeError> {
    let (flags, rest) = <u32 as Readable<'a, A, G>>::read(bytes, alloc)?;
    if flags >= 0x80 {
        return Err(ReadFault::UnknownTag.just_before(rest));
    }
    let (target, rest) = read_target::<A, G>(
        flags / 32 % 2 == 1,
        flags / 64 % 2 == 1,
        rest,
        alloc,
    )?;
    let (ordering, rest) = read_optional::<'a, MemArgOrdering, A, G>(
        flags / 16 % 2 == 1,
        rest,
        alloc,
    )?;
    let (offset, rest) = <u64 as Readable<'a, A, G>>::read(rest, alloc)?;
    Ok((
        MemArg {
            offset,
            align: flags % 16,
            target,
            ordering,
        },
        rest,
    ))
}

/// # Defined
///
/// ```text
/// Value = { MemArgModel }
/// format = { mem_arg }
/// view = { λ m. m }
/// ```
///
/// Definitions: [`mem_arg`](crate::definitions::immediates::immediate_formats::mem_arg). [How to read clauses](crate::definitions).
impl Layout for MemArg {
    fn laws() {}
}

/// # Defined
///
/// ```text
/// may_allocate = { ⊥ }
/// ```
///
/// [How to read clauses](crate::definitions).
impl<'a, A: Allocator + Copy, G: Grammar> Readable<'a, A, G> for MemArg {
    #[inline]
    fn read(bytes: &'a [u8], alloc: A) -> Result<(MemArg, &'a [u8]), DecodeError> {
        if let [flags, rest @ ..] = bytes {
            if *flags < 0x10 {
                let (offset, rest) = <u64 as Readable<'a, A, G>>::read(rest, alloc)?;
                let memory = MemArg {
                    offset,
                    align: u32::from(*flags),
                    target: MemArgTarget::Memory(0),
                    ordering: None,
                };
                return Ok((memory, rest));
            }
        }
        read_any_memory::<A, G>(bytes, alloc)
    }
}

impl Canonical for MemArg {
    fn canonical() {}
}

impl<G: Grammar> Walk<G> for MemArg {
    #[inline]
    fn walk<'a, A: Allocator + Copy, E: Effect>(
        bytes: &'a [u8],
        alloc: A,
        effect: &mut E,
    ) -> Result<&'a [u8], DecodeError> {
        walk_value::<MemArg, A, G, _>(bytes, alloc, effect)
    }
}
