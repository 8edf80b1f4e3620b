// Written by tools/to-rust from crates/examples/src/joined.rt: change that.
// The module of `adding.rt`, and a name section, of builders that keep their entries' bytes and
// number alone.

use dolzhytik::fallible::Vec;
use crate::examples::adding::sum;
use dolzhytik::fallible::Allocator;
use dolzhytik::fallible::{Module, Result, ValType};
use dolzhytik::fallible::joined::CodeSection;
use dolzhytik::fallible::joined::{NameMap, NameSection};
use dolzhytik::fallible::ExportKind;
use dolzhytik::fallible::joined::{ExportSection, FunctionSection};
use dolzhytik::fallible::joined::TypeSection;

/// Returns a module that exports, as `add`, the sum of two numbers.
///
/// # Proved
///
/// ```text
/// ensures { IfOk result (λ bytes. DecodesSections adding_sections bytes.items) }
/// ```
pub fn joined_module<A: Allocator + Copy>(alloc: A) -> Result<Vec<u8, A>> {
    let mut module = Module::new(alloc)?;
    module.section(&types(alloc)?)?;
    module.section(&functions(alloc)?)?;
    module.section(&exports(alloc)?)?;
    module.section(&code(alloc)?)?;
    Ok(module.finish())
}

/// Returns the type of the function.
///
/// # Proved
///
/// ```text
/// ensures { IfOk result (λ section. Cut (λ entries. ContainsTypes entries (adding_type ∷ [])) section) }
/// ```
fn types<A: Allocator + Copy>(alloc: A) -> Result<TypeSection<A>> {
    let mut section = TypeSection::new(alloc);
    section
        .ty()
        .function([ValType::I32, ValType::I32], [ValType::I32])?;
    Ok(section)
}

/// The function is of the type 0.
///
/// # Proved
///
/// ```text
/// ensures { IfOk result (λ section. Cut (λ entries. ContainsFunctions entries (0 ∷ [])) section) }
/// ```
fn functions<A: Allocator + Copy>(alloc: A) -> Result<FunctionSection<A>> {
    let mut section = FunctionSection::new(alloc);
    section.function(0)?;
    Ok(section)
}

/// Exports the function 0 as `add`.
///
/// # Proved
///
/// ```text
/// ensures { IfOk result (λ section. Cut (λ entries. ContainsExports entries (add_export ∷ [])) section) }
/// ```
fn exports<A: Allocator + Copy>(alloc: A) -> Result<ExportSection<A>> {
    let mut section = ExportSection::new(alloc);
    section.export("add", ExportKind::Func, 0)?;
    Ok(section)
}

/// Returns the body of the function.
///
/// # Proved
///
/// ```text
/// ensures { IfOk result (λ section. Cut (λ entries. EncodesBodies entries (adding_body ∷ [])) section) }
/// ```
fn code<A: Allocator + Copy>(alloc: A) -> Result<CodeSection<A>> {
    let mut section = CodeSection::new(alloc);
    section.function(&sum(alloc)?)?;
    Ok(section)
}

/// Returns the name of the function.
///
/// # Proved
///
/// ```text
/// ensures { IfOk result (λ names. Cut (λ entries. AreNamings entries ((0, codes "add") ∷ [])) names) }
/// ```
fn function_names<A: Allocator + Copy>(alloc: A) -> Result<NameMap<A>> {
    let mut names = NameMap::new(alloc);
    names.append(0, "add")?;
    Ok(names)
}

/// Returns a name section of the name of that function.
///
/// # Proved
///
/// ```text
/// ensures { IfOk result (λ section. Cut (λ entries. ContainsNames entries (Map 1 ((0, codes "add") ∷ []) ∷ [])) section) }
/// ```
pub fn joined_names<A: Allocator + Copy>(alloc: A) -> Result<NameSection<A>> {
    let mut section = NameSection::new(alloc);
    section.functions(&function_names(alloc)?)?;
    Ok(section)
}
