// Written by tools/to-rust from crates/wasm_remap/src/instructions.rt: change that.
// Instructions and bodies whose indices are mapped.

use crate::remap::indexed::{Indexed, Remap, RemapError, mapped, mapped_number, remap_each};
use crate::remap::spaces::{IndexSpace, spaces_of};
use crate::alloc::Allocator;
use crate::code::{Body, Expression};
use crate::immediates::{BlockType, Catch, Handle, MemArg, MemArgTarget};
use crate::insn::{Arg, Plain};

/// # Defined
///
/// ```text
/// Value = { BlockType }
/// view = { λ ty. ty }
/// remapped = { remapped_block }
/// ```
///
/// Definitions: [`remapped_block`](crate::definitions::remap::instructions::remapped_block). [How to read clauses](crate::definitions).
impl<A: Allocator + Copy> Indexed<A> for BlockType {
    fn remap<M: Remap>(&mut self, alloc: A, indices: &M) -> Result<(), RemapError<M::Error>> {
        match self {
            BlockType::Empty => Ok(()),
            BlockType::Result(ty) => ty.remap(alloc, indices),
            BlockType::FunctionType(index) => {
                *index = mapped(indices, IndexSpace::Types, *index)?;
                Ok(())
            }
        }
    }
}

/// # Defined
///
/// ```text
/// Value = { MemArg }
/// view = { λ argument. argument }
/// remapped = { remapped_memory }
/// ```
///
/// Definitions: [`remapped_memory`](crate::definitions::remap::instructions::remapped_memory). [How to read clauses](crate::definitions).
impl<A: Allocator + Copy> Indexed<A> for MemArg {
    fn remap<M: Remap>(&mut self, _alloc: A, indices: &M) -> Result<(), RemapError<M::Error>> {
        match self.target {
            MemArgTarget::Memory(index) => {
                let index = mapped(indices, IndexSpace::Memories, index)?;
                self.target = MemArgTarget::Memory(index);
            }
            MemArgTarget::Array(index) => {
                let index = mapped(indices, IndexSpace::Types, index)?;
                self.target = MemArgTarget::Array(index);
            }
        }
        Ok(())
    }
}

/// # Defined
///
/// ```text
/// Value = { Catch }
/// view = { λ clause. clause }
/// remapped = { remapped_catch }
/// ```
///
/// Definitions: [`remapped_catch`](crate::definitions::remap::instructions::remapped_catch). [How to read clauses](crate::definitions).
impl<A: Allocator + Copy> Indexed<A> for Catch {
    fn remap<M: Remap>(&mut self, _alloc: A, indices: &M) -> Result<(), RemapError<M::Error>> {
        match self {
            Catch::One { tag, .. } => *tag = mapped(indices, IndexSpace::Tags, *tag)?,
            Catch::OneRef { tag, .. } => *tag = mapped(indices, IndexSpace::Tags, *tag)?,
            Catch::All { .. } | Catch::AllRef { .. } => {}
        }
        Ok(())
    }
}

/// # Defined
///
/// ```text
/// Value = { Handle }
/// view = { λ clause. clause }
/// remapped = { remapped_handle }
/// ```
///
/// Definitions: [`remapped_handle`](crate::definitions::remap::instructions::remapped_handle). [How to read clauses](crate::definitions).
impl<A: Allocator + Copy> Indexed<A> for Handle {
    fn remap<M: Remap>(&mut self, _alloc: A, indices: &M) -> Result<(), RemapError<M::Error>> {
        match self {
            Handle::OnLabel { tag, .. } => *tag = mapped(indices, IndexSpace::Tags, *tag)?,
            Handle::OnSwitch { tag } => *tag = mapped(indices, IndexSpace::Tags, *tag)?,
        }
        Ok(())
    }
}

/// Maps the indices of an immediate. `spaces` are those of the next two numbers; those of the
/// numbers after the immediate are returned.
fn remap_argument<A: Allocator + Copy, M: Remap>(
    argument: &mut Arg<A>,
    spaces: (Option<IndexSpace>, Option<IndexSpace>),
    alloc: A,
    indices: &M,
) -> Result<(Option<IndexSpace>, Option<IndexSpace>), RemapError<M::Error>> {
    match argument {
        Arg::U32(number) => {
            *number = mapped_number(indices, spaces.0, *number)?;
            return Ok((spaces.1, None));
        }
        Arg::Mem(memory) => memory.remap(alloc, indices)?,
        Arg::Block(ty) => ty.remap(alloc, indices)?,
        Arg::Heap(ty) => ty.remap(alloc, indices)?,
        Arg::Catches(clauses) => remap_each(clauses, alloc, indices)?,
        Arg::Types(types) => remap_each(types, alloc, indices)?,
        Arg::Handles(clauses) => remap_each(clauses, alloc, indices)?,
        Arg::S32(_)
        | Arg::S64(_)
        | Arg::F32(_)
        | Arg::F64(_)
        | Arg::V128(_)
        | Arg::Lane(_)
        | Arg::Lanes(_)
        | Arg::Order(_)
        | Arg::Labels(_)
        | Arg::Flag(_) => {}
    }
    Ok(spaces)
}

/// Maps the indices of the immediates of an opcode whose numbers are in these index spaces.
fn remap_arguments<A: Allocator + Copy, M: Remap>(
    arguments: &mut [Arg<A>],
    spaces: (Option<IndexSpace>, Option<IndexSpace>),
    alloc: A,
    indices: &M,
) -> Result<(), RemapError<M::Error>> {
    let mut spaces = spaces;
    for argument in arguments.iter_mut() {
        spaces = remap_argument(argument, spaces, alloc, indices)?;
    }
    Ok(())
}

/// # Defined
///
/// ```text
/// Value = { PlainModel }
/// view = { plain_view }
/// remapped = { remapped_instruction }
/// ```
///
/// Definitions: [`PlainModel`](crate::definitions::insn::plain::Plain), [`plain_view`](crate::definitions::insn::views::plain_view), [`remapped_instruction`](crate::definitions::remap::instructions::remapped_instruction). [How to read clauses](crate::definitions).
impl<A: Allocator + Copy> Indexed<A> for Plain<A> {
    fn remap<M: Remap>(&mut self, alloc: A, indices: &M) -> Result<(), RemapError<M::Error>> {
        remap_arguments(&mut self.args, spaces_of(self.op), alloc, indices)
    }
}

/// # Defined
///
/// ```text
/// Value = { List PlainModel }
/// view = { λ e. map plain_view e.0.items }
/// remapped = { λ m is. map (remapped_instruction m) is }
/// ```
///
/// Definitions: [`PlainModel`](crate::definitions::insn::plain::Plain), [`plain_view`](crate::definitions::insn::views::plain_view), [`remapped_instruction`](crate::definitions::remap::instructions::remapped_instruction). [How to read clauses](crate::definitions).
impl<A: Allocator + Copy> Indexed<A> for Expression<A> {
    fn remap<M: Remap>(&mut self, alloc: A, indices: &M) -> Result<(), RemapError<M::Error>> {
        remap_each(&mut self.0, alloc, indices)
    }
}

/// # Defined
///
/// ```text
/// Value = { BodyModel }
/// view = { body_view }
/// remapped = { remapped_body }
/// ```
///
/// Definitions: [`BodyModel`](crate::definitions::code::bodies::Body), [`body_view`](crate::definitions::code::body_views::body_view), [`remapped_body`](crate::definitions::remap::instructions::remapped_body). [How to read clauses](crate::definitions).
impl<A: Allocator + Copy> Indexed<A> for Body<A> {
    fn remap<M: Remap>(&mut self, alloc: A, indices: &M) -> Result<(), RemapError<M::Error>> {
        remap_each(&mut self.runs, alloc, indices)?;
        remap_each(&mut self.code, alloc, indices)
    }
}
