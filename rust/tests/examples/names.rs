// Written by tools/to-rust from crates/examples/src/names.rt: change that.
// A module with names for debuggers.

use dolzhytik::fallible::Vec;
use crate::examples::bodies::first_function;
use dolzhytik::fallible::Allocator;
use dolzhytik::fallible::{Module, Result};
use dolzhytik::fallible::CodeSection;
use dolzhytik::fallible::{IndirectNameMap, NameMap, NameSection};

/// Returns a module of one function, which does nothing, and of its names.
///
/// # Proved
///
/// ```text
/// ensures { IfOk result (λ bytes. DecodesSections (code_decoding (first_body ∷ []) ∷ name_decoding (names_of name.now) ∷ []) bytes.items) }
/// ```
pub fn named_module<A: Allocator + Copy>(alloc: A, name: &str) -> Result<Vec<u8, A>> {
    let mut module = Module::new(alloc)?;
    module.section(&code(alloc)?)?;
    module.section(&names(alloc, name)?)?;
    Ok(module.finish())
}

/// Returns a function of one local.
///
/// # Proved
///
/// ```text
/// ensures { IfOk result (λ section. EncodesBodies section (first_body ∷ [])) }
/// ```
fn code<A: Allocator + Copy>(alloc: A) -> Result<CodeSection<A>> {
    let mut section = CodeSection::new(alloc);
    section.function(&first_function(alloc)?)?;
    Ok(section)
}

/// Returns the name of the function 0.
///
/// # Proved
///
/// ```text
/// ensures { IfOk result (λ names. AreNamings names ((0, name.now) ∷ [])) }
/// ```
fn functions<A: Allocator + Copy>(alloc: A, name: &str) -> Result<NameMap<A>> {
    let mut names = NameMap::new(alloc);
    names.append(0, name)?;
    Ok(names)
}

/// Returns the name of the local of the function 0.
///
/// # Proved
///
/// ```text
/// ensures { IfOk result (λ names. AreInsides names ((0, x_at_0) ∷ [])) }
/// ```
fn locals<A: Allocator + Copy>(alloc: A) -> Result<IndirectNameMap<A>> {
    let mut inside = NameMap::new(alloc);
    inside.append(0, "x")?;
    let mut names = IndirectNameMap::new(alloc);
    names.append(0, &inside)?;
    Ok(names)
}

/// Returns the names of the module, of its function, and of the function's local.
///
/// # Proved
///
/// ```text
/// ensures { IfOk result (λ section. ContainsNames section (names_of name.now)) }
/// ```
fn names<A: Allocator + Copy>(alloc: A, name: &str) -> Result<NameSection<A>> {
    let mut section = NameSection::new(alloc);
    section.module("m")?;
    section.functions(&functions(alloc, name)?)?;
    section.locals(&locals(alloc)?)?;
    Ok(section)
}
