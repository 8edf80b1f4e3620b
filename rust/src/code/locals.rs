// Written by tools/to-rust from crates/wasm_code/src/locals.rt: change that.
// Runs of locals, from a list of types.

use crate::vec::Vec;
use crate::alloc::Allocator;
use crate::base::{Refused, Result, ValType};

/// Returns the runs of the types: neighbours of one type form one run.
pub(crate) fn runs_of<I: IntoIterator<Item = ValType>, A: Allocator>(
    alloc: A,
    types: I,
) -> Result<Vec<(u32, ValType), A>> {
    let mut runs = Vec::new(alloc);
    for ty in types {
        add_local(&mut runs, ty)?;
    }
    Ok(runs)
}

/// Returns `true` if a local of the type `ty` extends a run of the type `last`.
fn continues(last: ValType, ty: ValType) -> bool {
    last == ty
}

/// Adds one local: it extends the last run if that is of this type, and begins a new run otherwise.
/// After an error the runs are unusable, since the last one may be lost.
fn add_local<A: Allocator>(runs: &mut Vec<(u32, ValType), A>, ty: ValType) -> Result<()> {
    let Some((count, last)) = runs.pop() else {
        runs.push((1, ty))?;
        return Ok(());
    };
    if continues(last, ty) {
        let Some(more) = count.checked_add(1) else {
            return Err(Refused::TooLong);
        };
        runs.push((more, ty))?;
        return Ok(());
    }
    runs.push((count, last))?;
    runs.push((1, ty))?;
    Ok(())
}
