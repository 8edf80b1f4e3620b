// Written by tools/to-rust from crates/wasm_remap/src/insert.rt: change that.
// Sections that are inserted into a module.

use crate::vec::Vec;
use crate::remap::indexed::RemapError;
use crate::remap::places::{append_copies, found, place_of, rank, sections_of};
use crate::remap::shift::IndexTooLarge;
use crate::alloc::Allocator;
use crate::base::{Encode, Module, RawSection, Readable, Refused, Section as NewSection, Standard};
use crate::reader::{ReadError, Section};

/// Where members are inserted in a section of the same id.
#[derive(Clone, Copy, PartialEq, Eq, Debug)]
#[non_exhaustive]
pub enum Position {
    /// Before the old members.
    First,
    /// After the old members.
    Last,
    /// In place of the old members.
    Instead,
}

/// Returns `true` if the payload of a section of this id is one number.
fn is_number(id: u8) -> bool {
    id == 8 || id == 12
}

/// Returns the number at the front, and the remaining bytes.
fn counted<A: Allocator + Copy>(
    bytes: &[u8],
    alloc: A,
    offset: usize,
) -> Result<(u32, &[u8]), ReadError> {
    match <u32 as Readable<'_, A, Standard>>::read(bytes, alloc) {
        Ok(counted) => Ok(counted),
        Err(error) => Err(ReadError {
            cause: error.cause(),
            offset,
        }),
    }
}

/// Returns a list of this count, whose members are those of two lists.
fn list_of<A: Allocator>(
    count: u32,
    front: &[u8],
    back: &[u8],
    alloc: A,
) -> Result<Vec<u8, A>, Refused> {
    let mut list = Vec::new(alloc);
    count.encode(&mut list)?;
    list.extend_from_slice(front)?;
    list.extend_from_slice(back)?;
    Ok(list)
}

/// Returns new members and old ones in their order in a list.
fn in_order<'a>(position: Position, new: &'a [u8], old: &'a [u8]) -> (&'a [u8], &'a [u8]) {
    match position {
        Position::First => (new, old),
        _ => (old, new),
    }
}

/// Returns the payload of a list of the members of a new section and an old one. If the new section
/// does not begin with a count, the error has this offset.
fn joined<S: NewSection, A: Allocator + Copy>(
    position: Position,
    new: &S,
    old: &Section<'_, A>,
    offset: usize,
    alloc: A,
) -> Result<Vec<u8, A>, RemapError<IndexTooLarge>> {
    let mut encoding = Vec::new(alloc);
    new.encode(&mut encoding)?;
    let (_size, payload) = counted(&encoding, alloc, offset)?;
    let (new_count, new_members) = counted(payload, alloc, offset)?;
    let (old_count, old_members) = counted(old.payload(), alloc, old.offset())?;
    let Some(count) = new_count.checked_add(old_count) else {
        return Err(Refused::TooLong.into());
    };
    let (front, back) = in_order(position, new_members, old_members);
    Ok(list_of(count, front, back, alloc)?)
}

/// Returns a module of copies of sections, with a section between them.
pub(crate) fn module_of<S: NewSection, A: Allocator + Copy>(
    before: &[Section<'_, A>],
    section: &S,
    after: &[Section<'_, A>],
    alloc: A,
) -> Result<Vec<u8, A>, Refused> {
    let mut module = Module::new(alloc)?;
    append_copies(before, &mut module)?;
    module.section(section)?;
    append_copies(after, &mut module)?;
    Ok(module.finish())
}

/// Inserts a section into a module, and returns the new module.
///
/// If the module has a section of the same id, `First` and `Last` add the new members before or
/// after those of the first such section, and `Instead` replaces its payload. The start function
/// and the data count are no lists, and are replaced. If there is no such section, the new one is
/// inserted as it is: behind the last section that comes before it in the standard's order. If
/// there is none, it is behind the leading custom sections. A custom section, or one of an id that
/// the standard lacks, becomes the last section.
///
/// All other sections keep their payloads. No index is mapped: before you insert entities in front
/// of others, map the module with `remap_module` and a `Shift`. The data count stays when data
/// segments are added. So do offsets and numbers of sections in custom sections, which become
/// wrong:
/// [`Section::has_offsets`] finds these.
///
/// ```text
/// let mut globals = GlobalSection::new(alloc);
/// globals.global(counter, &ConstExpr::i32_const(alloc, 0)?)?;
/// let module = insert_section(bytes, alloc, &globals, Position::Last)?;
/// ```
///
/// # Errors
///
/// Returns `Read` if the bytes are no module. If members are added, it also returns `Read` if the
/// old section or the new one does not begin with a count. Of the new one, the offset is the
/// module's length. Returns `Refused` if a count or a section is too long or an allocation fails.
///
/// # Proved
///
/// After `Ok`: `fits`, each count and length fits 32 bits.
///
/// ```text
/// ensures inserts { IfOk result
///     (λ edited. (payload : List ℕ) → S.payload section.now payload
///         → InsertsSection position (S.id_of section.now) payload bytes.now edited.items)
///     }
/// ensures fits { OnOk result (S.encodable section.now) }
/// ensures why { (payload : List ℕ) → S.payload section.now payload
///     → IfErr result (λ e. ExplainsInsert position (S.id_of section.now)
///         (S.encodable section.now) payload bytes.now e) }
/// ```
///
/// Definitions: [`InsertsSection`](crate::definitions::remap::inserted::InsertsSection), [`ExplainsInsert`](crate::definitions::remap::errors::ExplainsInsert). [How to read clauses](crate::definitions).
pub fn insert_section<S: NewSection, A: Allocator + Copy>(
    bytes: &[u8],
    alloc: A,
    section: &S,
    position: Position,
) -> Result<Vec<u8, A>, RemapError<IndexTooLarge>> {
    let sections = sections_of(bytes, alloc)?;
    let id = section.id();
    if rank(id) == 0 {
        let (before, after) = sections.split_at(sections.len());
        return Ok(module_of(before, section, after, alloc)?);
    }
    let Some((before, old, after)) = found(&sections, id) else {
        let (before, after) = sections.split_at(place_of(&sections, id));
        return Ok(module_of(before, section, after, alloc)?);
    };
    if position == Position::Instead || is_number(id) {
        return Ok(module_of(before, section, after, alloc)?);
    }
    let payload = joined(position, section, old, bytes.len(), alloc)?;
    let section = RawSection {
        id,
        bytes: &payload,
    };
    Ok(module_of(before, &section, after, alloc)?)
}
