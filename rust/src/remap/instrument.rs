// Written by tools/to-rust from crates/wasm_remap/src/instrument.rt: change that.
// Instructions that are inserted before and after those of bodies.

use crate::vec::{Sink, Vec};
use crate::remap::code::{EditBody, edit_code};
use crate::remap::indexed::RemapError;
use crate::remap::shift::IndexTooLarge;
use crate::alloc::Allocator;
use crate::base::{Refused, Result as Written};
use crate::code::CodeSection;
use crate::insn::{Op, Operands};
use crate::reader::CodeBody;

/// An instruction of a body.
#[derive(Clone, Copy, Debug)]
pub struct Visited<'a> {
    /// The number of the body. The first body of the code section has number 0.
    pub body: u32,
    /// The number of the instruction in the body, counted from 0.
    pub number: u32,
    /// Its opcode.
    pub op: Op,
    /// Its operands.
    pub operands: Operands<'a>,
}

/// Instructions that are inserted before and after those of the bodies of a module.
///
/// Close every block that you open, and no other. Otherwise the labels of the body's own
/// instructions would be those of other blocks. The call does not check this. A proof owes it
/// (`closed`).
///
/// # Defined
///
/// ```text
/// // The instructions before one of a body. The numbers are the body's and the
/// // instruction's.
/// before: { Self → ℕ → ℕ → Plain → List Plain }
/// // The instructions after it.
/// after: { Self → ℕ → ℕ → Plain → List Plain }
/// // Each block that the instructions before one begin ends in them.
/// before_closed: { (it : Self) (body number : ℕ) (i : Plain)
///     → IsClosed (before it body number i) }
/// // Each block that the instructions after one begin ends in them.
/// after_closed: { (it : Self) (body number : ℕ) (i : Plain)
///     → IsClosed (after it body number i) }
/// ```
///
/// Definitions: [`Plain`](crate::definitions::insn::plain::Plain), [`IsClosed`](crate::definitions::remap::begun::IsClosed). [How to read clauses](crate::definitions).
pub trait Instrument {
    /// Appends the instructions for the place before this one.
    ///
    /// # Errors
    ///
    /// Returns [`Refused`] if an instruction is too long or an allocation fails.
    ///
    /// # Proved
    ///
    /// ```text
    /// ensures { OnOk result ((xs : List Argument) → AreOperands visited.now.operands xs
    ///         → GainsCode (before self.now visited.now.body visited.now.number
    ///             (record { op = visited.now.op; arguments = xs })) sink.old.items
    ///         sink.new.items) }
    /// ```
    ///
    /// Definitions: [`Argument`](crate::definitions::insn::arguments::Argument), [`AreOperands`](crate::definitions::insn::operands::AreOperands), [`GainsCode`](crate::definitions::remap::begun::GainsCode). [How to read clauses](crate::definitions).
    fn append_before<A: Sink>(
        &self,
        visited: &Visited<'_>,
        sink: &mut A,
    ) -> Written<()>;

    /// Appends the instructions for the place after this one. It is not called for the last
    /// instruction of a body, which ends the body.
    ///
    /// # Errors
    ///
    /// Returns [`Refused`] if an instruction is too long or an allocation fails.
    ///
    /// # Proved
    ///
    /// ```text
    /// ensures { OnOk result ((xs : List Argument) → AreOperands visited.now.operands xs
    ///         → GainsCode (after self.now visited.now.body visited.now.number
    ///             (record { op = visited.now.op; arguments = xs })) sink.old.items
    ///         sink.new.items) }
    /// ```
    ///
    /// Definitions: [`Argument`](crate::definitions::insn::arguments::Argument), [`AreOperands`](crate::definitions::insn::operands::AreOperands), [`GainsCode`](crate::definitions::remap::begun::GainsCode). [How to read clauses](crate::definitions).
    fn append_after<A: Sink>(
        &self,
        visited: &Visited<'_>,
        sink: &mut A,
    ) -> Written<()>;
}

/// Appends an instruction, with the inserted ones before it, and those after it unless it is the
/// last one of its body.
fn append_around<I: Instrument, A: Sink>(
    bytes: &[u8],
    visited: &Visited<'_>,
    is_last: bool,
    instrument: &I,
    sink: &mut A,
) -> Written<()> {
    instrument.append_before(visited, sink)?;
    sink.extend_from_slice(bytes)?;
    if !is_last {
        instrument.append_after(visited, sink)?;
    }
    Ok(())
}

/// Returns a body with the inserted instructions before and after its own.
fn instrumented<I: Instrument, A: Allocator + Copy, E>(
    body: &CodeBody<'_, A>,
    number: u32,
    instrument: &I,
    alloc: A,
) -> Result<Vec<u8, A>, RemapError<E>> {
    let bytes = body.bytes();
    let (_runs, mut instructions) = body.instructions()?;
    let mut new = Vec::from_slice(alloc, &bytes[..instructions.offset()])?;
    let mut at: u32 = 0;
    loop {
        let decoded = match instructions.next() {
            Ok(None) => return Ok(new),
            Ok(Some(decoded)) => decoded,
            Err(error) => return Err(body.locate(error).into()),
        };
        let visited = Visited {
            body: number,
            number: at,
            op: decoded.op,
            operands: decoded.operands,
        };
        let end = instructions.offset();
        let own = &bytes[decoded.offset..end];
        append_around(own, &visited, end == bytes.len(), instrument, &mut new)?;
        at = match at.checked_add(1) {
            Some(next) => next,
            None => return Err(Refused::TooLong.into()),
        };
    }
}

/// The change that inserts instructions before and after those of a body.
#[derive(Clone, Copy)]
struct InstrumentedBodies<'i, I>(&'i I);

/// # Defined
///
/// ```text
/// edited = { λ change number x. instrumented_body (I.before change.0.now number)
///     (I.after change.0.now number) x ∷ [] }
/// ```
///
/// Definitions: [`instrumented_body`](crate::definitions::remap::instrumented::instrumented_body). [How to read clauses](crate::definitions).
impl<I: Instrument> EditBody for InstrumentedBodies<'_, I> {
    fn add_body<A: Allocator + Copy, E>(
        &self,
        body: &CodeBody<'_, A>,
        number: u32,
        section: &mut CodeSection<A>,
        alloc: A,
    ) -> Result<(), RemapError<E>> {
        let new = instrumented(body, number, self.0, alloc)?;
        section.raw(&new)?;
        Ok(())
    }
}

/// Inserts instructions before and after those of the bodies of a module, and returns the new
/// module.
///
/// The bodies are those of the first code section. They are decoded instruction by instruction.
/// Their locals and their own instructions keep their bytes, and all other sections their payloads.
/// A module without code stays as it is.
///
/// Sections that hold offsets into the code stay, and their offsets become wrong: remove them first
/// ([`Section::has_offsets`](crate::reader::Section::has_offsets)).
///
/// # Errors
///
/// Returns `Read` if the bytes are no module, or if a body does not decode. Returns `Refused` if a
/// section is too long or an allocation fails.
///
/// # Proved
///
/// - After `Ok`, `ok`: The bytes are a module, and the edited bytes are a module whose bodies have these instructions before and after their own. A module without code stays.
/// - After an error, `why`: Why the code of a module is not changed: the bytes are no module, or the payload of the first code section does not decode.
///
/// ```text
/// ensures ok { IfOk result
///     (λ edited. InstrumentsCode (I.before instrument.now)
///         (I.after instrument.now) bytes.now edited.items) }
/// ensures why { IfErr result (λ e. ExplainsCode bytes.now e) }
/// ```
///
/// Definitions: [`InstrumentsCode`](crate::definitions::remap::instrumented::InstrumentsCode), [`ExplainsCode`](crate::definitions::remap::errors::ExplainsCode). [How to read clauses](crate::definitions).
pub fn instrument_code<I: Instrument, A: Allocator + Copy>(
    bytes: &[u8],
    alloc: A,
    instrument: &I,
) -> Result<Vec<u8, A>, RemapError<IndexTooLarge>> {
    edit_code(bytes, alloc, &InstrumentedBodies(instrument))
}
