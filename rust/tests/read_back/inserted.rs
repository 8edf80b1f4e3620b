// Written by tools/to-rust from crates/read_back/src/inserted.rt: change that.
// Modules into which sections are inserted.

use dolzhytik::fallible::{Sink, Vec};
use dolzhytik::fallible::Allocator;
use dolzhytik::fallible::{Result as Written, ValType};
use dolzhytik::fallible::ConstExpr;
use dolzhytik::fallible::{InstructionSink, Op};
use dolzhytik::reader::Offsets;
use dolzhytik::reader::remap::{IndexTooLarge, Instrument, Position, Prologue, RemapError, Visited, insert_code, insert_import, insert_section, instrument_code};
use dolzhytik::fallible::{EntityType, GlobalSection, GlobalType, Import, StartSection};

/// Returns the module with an import of the function `hit` of `host`, of type 0, before all others.
///
/// # Proved
///
/// ```text
/// ensures { IfOk result (λ new. CallsHit module.now new.items) }
/// ```
pub fn with_hit<A: Allocator + Copy>(
    module: &[u8],
    alloc: A,
) -> Result<Vec<u8, A>, RemapError<IndexTooLarge>> {
    let hit = Import {
        module: "host",
        name: "hit",
        ty: EntityType::Function(0),
    };
    insert_import(module, alloc, &hit, Offsets::LeaveOut)
}

/// Returns the module with a mutable global of 32 bits after its own.
///
/// # Proved
///
/// ```text
/// ensures { IfOk result (λ new. HasCounter module.now new.items) }
/// ```
pub fn with_counter<A: Allocator + Copy>(
    module: &[u8],
    alloc: A,
) -> Result<Vec<u8, A>, RemapError<IndexTooLarge>> {
    let counter = GlobalType {
        val_type: ValType::I32,
        mutable: true,
        shared: false,
    };
    let mut globals = GlobalSection::new(alloc);
    globals.global(counter, &ConstExpr::i32_const(alloc, 0)?)?;
    insert_section(module, alloc, &globals, Position::Last)
}

/// Returns the module with another start function.
///
/// # Proved
///
/// ```text
/// ensures { IfOk result (λ new. StartsAt function_index module.now new.items) }
/// ```
pub fn with_start<A: Allocator + Copy>(
    module: &[u8],
    function_index: u32,
    alloc: A,
) -> Result<Vec<u8, A>, RemapError<IndexTooLarge>> {
    let start = StartSection { function_index };
    insert_section(module, alloc, &start, Position::Instead)
}

/// A call of function 0.
#[derive(Clone, Copy, Debug)]
pub struct CallsFirst;

/// # Defined
///
/// ```text
/// code = { λ _ _. calling }
/// closed = { λ _ _. refl }
/// ```
impl Prologue for CallsFirst {
    fn append<A: Sink>(&self, _body: u32, sink: &mut A) -> Written<()> {
        InstructionSink::new(sink).call(0)
    }
}

/// Returns the module whose bodies first call function 0.
///
/// # Proved
///
/// ```text
/// ensures { IfOk result (λ new. InsertsCode (λ _. calling) module.now new.items) }
/// ```
pub fn with_calls<A: Allocator + Copy>(
    module: &[u8],
    alloc: A,
) -> Result<Vec<u8, A>, RemapError<IndexTooLarge>> {
    insert_code(module, alloc, &CallsFirst)
}

/// A call of function 0 before each call.
#[derive(Clone, Copy, Debug)]
pub struct TracesCalls;

/// # Defined
///
/// ```text
/// before = { λ _ _ _ i. traced i.op }
/// after = { λ _ _ _ _. [] }
/// before_closed = { λ _ _ _ i. traced_closed i.op }
/// after_closed = { λ _ _ _ _. refl }
/// ```
impl Instrument for TracesCalls {
    fn append_before<A: Sink>(
        &self,
        visited: &Visited<'_>,
        sink: &mut A,
    ) -> Written<()> {
        match visited.op {
            Op::Byte(0x10) => InstructionSink::new(sink).call(0),
            _ => Ok(()),
        }
    }

    fn append_after<A: Sink>(
        &self,
        _visited: &Visited<'_>,
        _sink: &mut A,
    ) -> Written<()> {
        Ok(())
    }
}

/// Returns the module that calls function 0 before each of its own calls.
///
/// # Proved
///
/// ```text
/// ensures { IfOk result (λ new. InstrumentsCode (λ _ _ i. traced i.op) (λ _ _ _. []) module.now new.items) }
/// ```
pub fn with_traces<A: Allocator + Copy>(
    module: &[u8],
    alloc: A,
) -> Result<Vec<u8, A>, RemapError<IndexTooLarge>> {
    instrument_code(module, alloc, &TracesCalls)
}
