// Written by tools/to-rust from crates/wasm_remap/src/code.rt: change that.
// Instructions that are inserted at the start of bodies.

use crate::vec::{Sink, Vec};
use crate::remap::indexed::RemapError;
use crate::remap::insert::module_of;
use crate::remap::places::{found, sections_of};
use crate::remap::shift::IndexTooLarge;
use crate::alloc::Allocator;
use crate::base::{Refused, Result as Written};
use crate::code::CodeSection;
use crate::reader::{CodeBody, Section};

/// Instructions that are inserted at the start of each body of a module.
///
/// Close every block that you open, and no other. Otherwise the labels of the body's own
/// instructions would be those of other blocks. The call does not check this. A proof owes it
/// (`closed`).
///
/// # Defined
///
/// ```text
/// // The instructions for the body of each number. The first body of the code section has
/// // number 0.
/// code: { Self → ℕ → List Plain }
/// // Each block that they begin ends in them.
/// closed: { (prologue : Self) (body : ℕ) → IsClosed (code prologue body) }
/// ```
///
/// Definitions: [`Plain`](crate::definitions::insn::plain::Plain), [`IsClosed`](crate::definitions::remap::begun::IsClosed). [How to read clauses](crate::definitions).
pub trait Prologue {
    /// Appends the instructions for the body of this number.
    ///
    /// # Errors
    ///
    /// Returns [`Refused`] if an instruction is too long or an allocation fails.
    ///
    /// # Proved
    ///
    /// After `Ok`: The bytes gain an encoding of these instructions.
    ///
    /// ```text
    /// ensures { OnOk result (GainsCode (code self.now body) sink.old.items sink.new.items) }
    /// ```
    ///
    /// Definitions: [`GainsCode`](crate::definitions::remap::begun::GainsCode). [How to read clauses](crate::definitions).
    fn append<A: Sink>(&self, body: u32, sink: &mut A) -> Written<()>;
}

/// Returns the locals, the new instructions and the old ones.
fn joined<P: Prologue, A: Allocator>(
    locals: &[u8],
    prologue: &P,
    number: u32,
    old: &[u8],
    alloc: A,
) -> Written<Vec<u8, A>> {
    let mut new = Vec::from_slice(alloc, locals)?;
    prologue.append(number, &mut new)?;
    new.extend_from_slice(old)?;
    Ok(new)
}

/// A change of the bodies of a module.
///
/// # Defined
///
/// ```text
/// edited: { Self → ℕ → Body → List Body }
/// ```
///
/// Definitions: [`Body`](crate::definitions::code::bodies::Body). [How to read clauses](crate::definitions).
pub(crate) trait EditBody {
    // What the change makes of the body of this number.

    /// Adds to a section what the change makes of the body of this number.
    ///
    /// # Proved
    ///
    /// After an error, `why`: Why a body is not changed: it does not decode.
    ///
    /// ```text
    /// ensures ok { OnOk result
    ///     ((x : Body) → body_format standard body.now.bytes x
    ///         → AddsBodies (edited self.now number x) section.old section.new) }
    /// ensures why { IfErr result (λ e. ExplainsBody body.now.bytes e) }
    /// ```
    ///
    /// Definitions: [`Body`](crate::definitions::code::bodies::Body), [`body_format`](crate::definitions::code::bodies::body), [`standard`](crate::definitions::base::numbers::Mode), [`AddsBodies`](crate::definitions::remap::begun::AddsBodies), [`ExplainsBody`](crate::definitions::remap::errors::ExplainsBody). [How to read clauses](crate::definitions).
    fn add_body<A: Allocator + Copy, E>(
        &self,
        body: &CodeBody<'_, A>,
        number: u32,
        section: &mut CodeSection<A>,
        alloc: A,
    ) -> Result<(), RemapError<E>>;
}

/// The change that inserts instructions at the start.
#[derive(Clone, Copy)]
struct Begun<'p, P>(&'p P);

/// # Defined
///
/// ```text
/// edited = { λ begun number x. begun_body (P.code begun.0.now number) x ∷ [] }
/// ```
///
/// Definitions: [`begun_body`](crate::definitions::remap::begun::begun_body). [How to read clauses](crate::definitions).
impl<P: Prologue> EditBody for Begun<'_, P> {
    fn add_body<A: Allocator + Copy, E>(
        &self,
        body: &CodeBody<'_, A>,
        number: u32,
        section: &mut CodeSection<A>,
        alloc: A,
    ) -> Result<(), RemapError<E>> {
        let (_runs, instructions) = body.instructions()?;
        let locals = &body.bytes()[..instructions.offset()];
        let new = joined(locals, self.0, number, instructions.rest(), alloc)?;
        section.raw(&new)?;
        Ok(())
    }
}

/// Returns a code section of what the change makes of the bodies.
pub(crate) fn code_of<C: EditBody, A: Allocator + Copy, E>(
    section: &Section<'_, A>,
    change: &C,
    alloc: A,
) -> Result<CodeSection<A>, RemapError<E>> {
    let mut bodies = section.bodies()?;
    let mut new = CodeSection::new(alloc);
    let mut number: u32 = 0;
    loop {
        let body = match bodies.next() {
            None => return Ok(new),
            Some(body) => body?,
        };
        change.add_body(&body, number, &mut new, alloc)?;
        number = match number.checked_add(1) {
            Some(next) => next,
            None => return Err(Refused::TooLong.into()),
        };
    }
}

/// Returns the module with the bodies of its first code section changed.
pub(crate) fn edit_code<C: EditBody, A: Allocator + Copy>(
    bytes: &[u8],
    alloc: A,
    change: &C,
) -> Result<Vec<u8, A>, RemapError<IndexTooLarge>> {
    let sections = sections_of(bytes, alloc)?;
    let Some((before, old, after)) = found(&sections, 10) else {
        return Ok(Vec::from_slice(alloc, bytes)?);
    };
    let code = code_of(old, change, alloc)?;
    Ok(module_of(before, &code, after, alloc)?)
}

/// Inserts instructions at the start of each body, and returns the new module.
///
/// The bodies are those of the first code section. Their locals and other instructions keep their
/// bytes, and all other sections their payloads. A module without code stays as it is.
///
/// Sections that hold offsets into the code stay, and their offsets become wrong: remove them first
/// ([`Section::has_offsets`]).
///
/// # Errors
///
/// Returns `Read` if the bytes are no module, or if the sizes or the locals of the bodies do not
/// decode. Instructions are not decoded. Returns `Refused` if a section is too long or an
/// allocation fails.
///
/// # Proved
///
/// - After `Ok`, `ok`: Each body begins with these instructions.
/// - After an error, `why`: Why the code of a module is not changed: the bytes are no module, or the payload of the first code section does not decode.
///
/// ```text
/// ensures ok { IfOk result
///     (λ edited. InsertsCode (P.code prologue.now) bytes.now edited.items) }
/// ensures why { IfErr result (λ e. ExplainsCode bytes.now e) }
/// ```
///
/// Definitions: [`InsertsCode`](crate::definitions::remap::begun::InsertsCode), [`ExplainsCode`](crate::definitions::remap::errors::ExplainsCode). [How to read clauses](crate::definitions).
pub fn insert_code<P: Prologue, A: Allocator + Copy>(
    bytes: &[u8],
    alloc: A,
    prologue: &P,
) -> Result<Vec<u8, A>, RemapError<IndexTooLarge>> {
    edit_code(bytes, alloc, &Begun(prologue))
}
