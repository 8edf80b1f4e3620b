// Written by tools/to-rust from crates/wasm_remap/src/modules.rt: change that.
// Modules whose sections are changed one after another, and those whose indices are mapped.

use crate::vec::Vec;
use crate::remap::indexed::{Remap, RemapError};
use crate::remap::items::remap_section;
use crate::alloc::Allocator;
use crate::base::{Module, RawSection};
use crate::reader::{Offsets, Section, Sections};

/// A change of each section of a module.
///
/// # Defined
///
/// ```text
/// changes: { Self → SectionModel → List ℕ → Type 0 }
/// explains: { Self → SectionModel → ErrorModel Self.Error → Type 0 }
/// no_offsets: { (it : Self) (s : SectionModel) (offset : ℕ)
///     → explains it s (errors.Offsets offset) → ⊥ }
/// ```
///
/// Definitions: [`SectionModel`](crate::definitions::reader::outlines::Section). [How to read clauses](crate::definitions).
pub(crate) trait Change {
    /// The reason for which an index is rejected.
    type Error;

    // The bytes are the payload of the new section for this one.

    // The change of the section fails with this error.

    /// Returns the payload of the new section.
    ///
    /// # Proved
    ///
    /// ```text
    /// ensures ok { IfOk result (λ new. changes self.now section.now.section new.items) }
    /// ensures why { IfErr result (λ e. explains self.now section.now.section e) }
    /// ```
    ///
    /// [How to read clauses](crate::definitions).
    fn payload<A: Allocator + Copy>(
        &self,
        section: &Section<'_, A>,
        alloc: A,
    ) -> Result<Vec<u8, A>, RemapError<Self::Error>>;

    // It is no error of offsets.
}

/// Appends the changed section to a module.
fn append_changed<A: Allocator + Copy, C: Change>(
    section: &Section<'_, A>,
    alloc: A,
    change: &C,
    module: &mut Module<A>,
) -> Result<(), RemapError<C::Error>> {
    let payload = change.payload(section, alloc)?;
    let changed = RawSection {
        id: section.id(),
        bytes: &payload,
    };
    module.section(&changed)?;
    Ok(())
}

/// Returns a module whose sections are changed. Those that hold offsets are left out, or an error.
pub(crate) fn change_module<A: Allocator + Copy, C: Change>(
    bytes: &[u8],
    alloc: A,
    change: &C,
    offsets: Offsets,
) -> Result<Vec<u8, A>, RemapError<C::Error>> {
    let mut sections = Sections::new(alloc, bytes)?;
    let mut module = Module::new(alloc)?;
    loop {
        let section = match sections.next() {
            None => return Ok(module.finish()),
            Some(section) => section?,
        };
        if section.has_offsets() {
            match offsets {
                Offsets::Refuse => return Err(RemapError::Offsets(section.offset())),
                Offsets::LeaveOut => {}
            }
        } else {
            append_changed(&section, alloc, change, &mut module)?;
        }
    }
}

/// The change that maps each index.
#[derive(Clone, Copy)]
struct Remapped<'m, M>(&'m M);

/// # Defined
///
/// ```text
/// changes = { λ by s payload. (m : Mapping)
///     → Follows (M.mapped by.0.now) (M.rejects by.0.now) m
///     → RemapsSection m s [] payload }
/// explains = { λ by. ExplainsSection (M.mapped by.0.now) (M.rejects by.0.now) }
/// no_offsets = { λ it s offset h. h }
/// ```
///
/// Definitions: [`Mapping`](crate::definitions::remap::mapping::Mapping), [`Follows`](crate::definitions::remap::mapping::Follows), [`RemapsSection`](crate::definitions::remap::sections::RemapsSection), [`ExplainsSection`](crate::definitions::remap::errors::ExplainsSection). [How to read clauses](crate::definitions).
impl<M: Remap> Change for Remapped<'_, M> {
    type Error = M::Error;

    fn payload<A: Allocator + Copy>(
        &self,
        section: &Section<'_, A>,
        alloc: A,
    ) -> Result<Vec<u8, A>, RemapError<M::Error>> {
        let mut payload = Vec::new(alloc);
        remap_section(section, alloc, self.0, &mut payload)?;
        Ok(payload)
    }
}

/// Returns a module with each index mapped.
///
/// Every section is decoded, and encoded again in its minimal form. Custom sections that hold
/// offsets would become wrong ([`Offsets`] lists them): with [`Offsets::Refuse`] such a section is
/// an error, whatever the map is, and with [`Offsets::LeaveOut`] it is left out. Other custom
/// sections stay.
///
/// A name is a use of its index. A map that rejects the index of an entity that was removed also
/// rejects its name: remove the name first.
///
/// # Errors
///
/// Returns `Read` if the bytes are no module or a section does not decode, `Index` with the error
/// of the map if it rejects an index, `Offsets` for a section that holds offsets, and `Refused` if
/// an encoding is too long or an allocation fails.
///
/// # Proved
///
/// - After `Ok`, `ok`: The bytes are a module, and the new bytes are a module of its sections with each index mapped. With `Refuse`, no section holds offsets.
/// - After an error, `why`: Why the indices of a module are not mapped.
///
/// ```text
/// ensures ok { IfOk result
///     (λ new. RemapsModule (M.mapped indices.now) offsets bytes.now new.items) }
/// ensures every { IfOk result
///     (λ new. (m : Mapping) → Follows (M.mapped indices.now) (M.rejects indices.now) m
///         → RemapsModule m offsets bytes.now new.items) }
/// ensures why { IfErr result
///     (λ e. ExplainsRemap (M.mapped indices.now)
///         (M.rejects indices.now) offsets bytes.now e) }
/// ```
///
/// Definitions: [`RemapsModule`](crate::definitions::remap::sections::RemapsModule), [`Mapping`](crate::definitions::remap::mapping::Mapping), [`Follows`](crate::definitions::remap::mapping::Follows), [`ExplainsRemap`](crate::definitions::remap::errors::ExplainsRemap). [How to read clauses](crate::definitions).
pub fn remap_module<A: Allocator + Copy, M: Remap>(
    bytes: &[u8],
    alloc: A,
    indices: &M,
    offsets: Offsets,
) -> Result<Vec<u8, A>, RemapError<M::Error>> {
    change_module(bytes, alloc, &Remapped(indices), offsets)
}
