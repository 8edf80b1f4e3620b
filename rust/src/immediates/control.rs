// Written by tools/to-rust from crates/wasm_immediates/src/control.rt: change that.
// The clauses of instructions that handle exceptions and suspended stacks.

use crate::vec::Sink;
use crate::alloc::Allocator;
use crate::base::{Canonical, DecodeError, Effect, Encode, Grammar, Layout, ReadFault, Readable, Result, Walk, walk_value};

/// A catch clause, which [`InstructionSink::try_table`](crate::InstructionSink::try_table)
/// takes.
///
/// Core specification, Instructions, Control Instructions.
///
/// # Examples
///
/// ```
/// use dolzhytik::{BlockType, Catch, InstructionSink};
///
/// let mut bytes = Vec::new();
/// let catches = [Catch::One { tag: 5, label: 1 }, Catch::All { label: 2 }];
/// InstructionSink::new(&mut bytes).try_table(BlockType::Empty, catches);
/// // try_table: 1F. The empty type: 40. Two clauses: 00, tag 5, label 1; and 02, label 2.
/// assert_eq!(bytes, [0x1F, 0x40, 2, 0x00, 5, 1, 0x02, 2]);
/// ```
#[derive(Clone, Debug)]
pub enum Catch {
    /// Catches exceptions of a tag.
    One {
        /// The index of the tag.
        tag: u32,
        /// The label to branch to.
        label: u32 },
    /// Catches exceptions of a tag, and passes a reference to the exception too.
    OneRef {
        /// The index of the tag.
        tag: u32,
        /// The label to branch to.
        label: u32 },
    /// Catches all exceptions.
    All {
        /// The label to branch to.
        label: u32 },
    /// Catches all exceptions, and passes a reference to the exception.
    AllRef {
        /// The label to branch to.
        label: u32 },
}

/// A handler of `resume`, `resume_throw` and `resume_throw_ref`, as in
/// [`Instruction::Resume`](crate::Instruction::Resume).
///
/// The stack switching proposal defines it.
///
/// # Examples
///
/// ```
/// use dolzhytik::{Encode, Handle};
///
/// let mut bytes = Vec::new();
/// Handle::OnLabel { tag: 3, label: 4 }.encode(&mut bytes);
/// Handle::OnSwitch { tag: 5 }.encode(&mut bytes);
/// // 00, tag 3, label 4; and 01, tag 5.
/// assert_eq!(bytes, [0x00, 3, 4, 0x01, 5]);
/// ```
#[derive(Clone, Debug)]
pub enum Handle {
    /// Branches to a label when the code suspends with a tag.
    OnLabel {
        /// The index of the tag.
        tag: u32,
        /// The label to branch to.
        label: u32 },
    /// Admits switches with a tag.
    OnSwitch {
        /// The index of the tag.
        tag: u32 },
}

/// Encodes a clause as its kind in one byte, the tag if it has one, and the label.
///
/// # Defined
///
/// ```text
/// encoding = { catch_encoding }
/// encodable = { λ _. ⊤ }
/// ```
///
/// Definitions: [`catch_encoding`](crate::definitions::immediates::immediates::catch_encoding). [How to read clauses](crate::definitions).
impl Encode for Catch {
    fn encode<A: Sink>(&self, sink: &mut A) -> Result<()> {
        match *self {
            Catch::One { tag, label } => (0x00u8, tag, label).encode(sink),
            Catch::OneRef { tag, label } => (0x01u8, tag, label).encode(sink),
            Catch::All { label } => (0x02u8, label).encode(sink),
            Catch::AllRef { label } => (0x03u8, label).encode(sink),
        }
    }
}

/// Encodes a clause as its kind in one byte, the tag, and the label if it has one.
///
/// # Defined
///
/// ```text
/// encoding = { handle_encoding }
/// encodable = { λ _. ⊤ }
/// ```
///
/// Definitions: [`handle_encoding`](crate::definitions::immediates::immediates::handle_encoding). [How to read clauses](crate::definitions).
impl Encode for Handle {
    fn encode<A: Sink>(&self, sink: &mut A) -> Result<()> {
        match *self {
            Handle::OnLabel { tag, label } => (0x00u8, tag, label).encode(sink),
            Handle::OnSwitch { tag } => (0x01u8, tag).encode(sink),
        }
    }
}

/// # Defined
///
/// ```text
/// Value = { CatchModel }
/// format = { catch_format }
/// view = { λ c. c }
/// ```
///
/// Definitions: [`catch_format`](crate::definitions::immediates::immediate_formats::catch). [How to read clauses](crate::definitions).
impl Layout for Catch {
    fn laws() {}
}

/// # Defined
///
/// ```text
/// may_allocate = { ⊥ }
/// ```
///
/// [How to read clauses](crate::definitions).
impl<'a, A: Allocator + Copy, G: Grammar> Readable<'a, A, G> for Catch {
    fn read(bytes: &'a [u8], alloc: A) -> Result<(Catch, &'a [u8]), DecodeError> {
        let (kind, rest) = <u8 as Readable<'a, A, G>>::read(bytes, alloc)?;
        match kind {
            0x00 => {
                let ((tag, label), rest) = <(u32, u32) as Readable<'a, A, G>>::read(rest, alloc)?;
                Ok((Catch::One { tag, label }, rest))
            }
            0x01 => {
                let ((tag, label), rest) = <(u32, u32) as Readable<'a, A, G>>::read(rest, alloc)?;
                Ok((Catch::OneRef { tag, label }, rest))
            }
            0x02 => {
                let (label, rest) = <u32 as Readable<'a, A, G>>::read(rest, alloc)?;
                Ok((Catch::All { label }, rest))
            }
            0x03 => {
                let (label, rest) = <u32 as Readable<'a, A, G>>::read(rest, alloc)?;
                Ok((Catch::AllRef { label }, rest))
            }
            _ => Err(ReadFault::UnknownTag.just_before(rest)),
        }
    }
}

/// # Defined
///
/// ```text
/// Value = { HandleModel }
/// format = { handle_format }
/// view = { λ h. h }
/// ```
///
/// Definitions: [`handle_format`](crate::definitions::immediates::immediate_formats::handle). [How to read clauses](crate::definitions).
impl Layout for Handle {
    fn laws() {}
}

/// # Defined
///
/// ```text
/// may_allocate = { ⊥ }
/// ```
///
/// [How to read clauses](crate::definitions).
impl<'a, A: Allocator + Copy, G: Grammar> Readable<'a, A, G> for Handle {
    fn read(bytes: &'a [u8], alloc: A) -> Result<(Handle, &'a [u8]), DecodeError> {
        let (kind, rest) = <u8 as Readable<'a, A, G>>::read(bytes, alloc)?;
        match kind {
            0x00 => {
                let ((tag, label), rest) = <(u32, u32) as Readable<'a, A, G>>::read(rest, alloc)?;
                Ok((Handle::OnLabel { tag, label }, rest))
            }
            0x01 => {
                let (tag, rest) = <u32 as Readable<'a, A, G>>::read(rest, alloc)?;
                Ok((Handle::OnSwitch { tag }, rest))
            }
            _ => Err(ReadFault::UnknownTag.just_before(rest)),
        }
    }
}

impl Canonical for Catch {
    fn canonical() {}
}

impl<G: Grammar> Walk<G> for Catch {
    fn walk<'a, A: Allocator + Copy, E: Effect>(
        bytes: &'a [u8],
        alloc: A,
        effect: &mut E,
    ) -> Result<&'a [u8], DecodeError> {
        walk_value::<Catch, A, G, _>(bytes, alloc, effect)
    }
}

impl Canonical for Handle {
    fn canonical() {}
}

impl<G: Grammar> Walk<G> for Handle {
    fn walk<'a, A: Allocator + Copy, E: Effect>(
        bytes: &'a [u8],
        alloc: A,
        effect: &mut E,
    ) -> Result<&'a [u8], DecodeError> {
        walk_value::<Handle, A, G, _>(bytes, alloc, effect)
    }
}
