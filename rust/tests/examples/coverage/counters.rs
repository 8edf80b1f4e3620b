// Written by tools/to-rust from crates/examples/src/coverage/counters.rt: change that.
// Counters, their exports, and the instructions that count.

use dolzhytik::fallible::{Sink, String};
use super::numbers::Numbers;
use dolzhytik::fallible::Allocator;
use dolzhytik::fallible::{Refused, Result as Written, ValType};
use dolzhytik::fallible::ConstExpr;
use dolzhytik::fallible::InstructionSink;
use dolzhytik::reader::remap::Prologue;
use dolzhytik::fallible::{ExportKind, ExportSection, GlobalSection, GlobalType};

/// Returns this many counters: mutable globals of 32 bits, initially 0.
///
/// # Proved
///
/// ```text
/// ensures { IfOk result (λ section. ContainsGlobals section (replicate number counter)) }
/// ```
pub(super) fn counters<A: Allocator + Copy>(number: u32, alloc: A) -> Written<GlobalSection<A>> {
    let global_type = GlobalType {
        val_type: ValType::I32,
        mutable: true,
        shared: false,
    };
    let zero = ConstExpr::i32_const(alloc, 0)?;
    let mut section = GlobalSection::new(alloc);
    for _done in 0..number {
        section.global(global_type, &zero)?;
    }
    Ok(section)
}

/// Returns the name of the counter of a function.
///
/// # Proved
///
/// ```text
/// ensures { IfOk result (λ name. string_bytes name ≡ codes "coverage." ++ decimal function) }
/// ```
fn counter_name<A: Allocator>(function: u32, alloc: A) -> Written<String<A>> {
    let mut name = String::new(alloc);
    write!(name, "coverage.{function}")?;
    Ok(name)
}

/// Returns the exports of the counters, one for each body.
///
/// # Proved
///
/// ```text
/// ensures { IfOk result (λ section. ContainsExports section (counter_exports numbers.function numbers.counter numbers.bodies)) }
/// ```
pub(super) fn exports<A: Allocator + Copy>(numbers: Numbers, alloc: A) -> Written<ExportSection<A>> {
    let mut section = ExportSection::new(alloc);
    for body in 0..numbers.bodies {
        let (Some(function), Some(counter)) = (
            numbers.function.checked_add(body),
            numbers.counter.checked_add(body),
        ) else {
            return Err(Refused::TooLong);
        };
        let name = counter_name(function, alloc)?;
        section.export(name.as_str(), ExportKind::Global, counter)?;
    }
    Ok(section)
}

/// Adds 1 to the counter of each body.
#[derive(Clone, Copy)]
pub(super) struct Counting {
    /// The index of the first counter.
    pub(super) first: u32,
}

/// # Defined
///
/// ```text
/// code = { λ it body. counting (it.first + body) }
/// closed = { λ _ _. refl }
/// ```
impl Prologue for Counting {
    fn append<A: Sink>(&self, body: u32, sink: &mut A) -> Written<()> {
        let Some(counter) = self.first.checked_add(body) else {
            return Err(Refused::TooLong);
        };
        let mut sink = InstructionSink::new(sink);
        sink.global_get(counter)?;
        sink.i32_const(1)?;
        sink.i32_add()?;
        sink.global_set(counter)
    }
}
